"""What the sources of a crate say of themselves: its public calls, their clauses, and the
definitions that these name. It goes by the layout of `rt fmt`, and knows no more of the language
than the pages need."""
from __future__ import annotations

import dataclasses
import functools
import pathlib
import re
from collections.abc import Iterator

TOP = pathlib.Path(__file__).resolve().parent.parent.parent
CRATES = TOP / "crates"
NAME = re.compile(r"[A-Za-z_][\w']*(?:\.[A-Za-z_][\w']*)*")
IMPORT = re.compile(r"ghost use Rattle\.(\w+)\.specs\.([\w.]+?)(?:\.\{(.*)\}| as (\w+))?;")
GHOST = re.compile(r"    (?:pub )?ghost (\w+)(?: =|:) *\{")

# the file of a definition, and its name there
Definition = tuple[str, str]


@dataclasses.dataclass
class Clause:
    """A clause of a contract, or what a type, a trait or an `impl` has beside its calls."""
    kind: str
    name: str
    definitions: list[Definition]


@dataclasses.dataclass
class Call:
    """A public call, or a type, a trait or an `impl` with what it has beside its calls."""
    name: str
    file: str
    clauses: list[Clause]


@dataclasses.dataclass
class Scope:
    """What a function stands in: the file (`kind` is empty), an `impl`, a trait or a type."""
    kind: str = ""
    name: str = ""
    trait: str = ""


def text_of(path: pathlib.Path) -> str:
    """What stands in a file."""
    return path.read_text(encoding="utf-8")


def sources_of(crate: str) -> list[pathlib.Path]:
    """Its files of code, without what `rt` makes."""
    files = sorted((CRATES / crate / "src").glob("**/*.rt"))
    return [path for path in files if "out" not in path.relative_to(CRATES).parts]


def without_comments(text: str) -> str:
    """Without what stands behind two slashes."""
    return re.sub(r"//.*", "", text)


def without_generics(text: str) -> str:
    """Without what stands between < and >."""
    text, found = text.replace("->", ""), 1
    while found:
        text, found = re.subn(r"<[^<>]*>", "", text)
    return " ".join(text.split())


def braced(text: str, start: int) -> str:
    """What stands between the brace at `start` and the one that closes it."""
    depth = 0
    for place in range(start, len(text)):
        depth += {"{": 1, "}": -1}.get(text[place], 0)
        if depth == 0:
            return text[start + 1:place]
    raise SystemExit(f"no brace closes the one at: {text[start:start + 60]}")


@functools.cache
def specs_text(crate: str, file: str) -> str:
    """A file of definitions; empty if it is none of this repository."""
    path = CRATES / crate / "specs" / (file.replace(".", "/") + ".antt")
    return text_of(path) if path.is_file() else ""


def is_in(crate: str, file: str, name: str) -> bool:
    """A file of definitions has or hands on this one, or isn't of this repository."""
    text = specs_text(crate, file)
    return not text or re.search(rf"^.*\bpub\b.*\b{re.escape(name)}\b", text, re.M) is not None


def home_of(crate: str, file: str, name: str) -> Definition:
    """Where a definition stands, if the file that was named hands it on from another one."""
    pattern = rf"pub use Rattle\.(\w+)\.specs\.([\w.]+)\.\{{(?:[^}}]*, )?{re.escape(name)}[,}}]"
    found = re.search(pattern, specs_text(crate, file))
    return home_of(found.group(1), found.group(2), name) if found else (f"{crate}/{file}", name)


def imports_in(lines: list[str]) -> dict[str, tuple[str, str, str]]:
    """What names stand for: a crate, a file of its definitions, and the name there; of a file that
    has another name the last is empty. What is the kit's or stands in the code is left out."""
    names = {}
    for crate, file, braces, alias in IMPORT.findall("\n".join(lines)):
        if crate == "std" or file.split(".")[0] in ("declared", "contracts"):
            continue
        for item in braces.split(", ") if braces else []:
            name, _, other = item.partition(" as ")
            names[other or name] = (crate, file, name)
        if alias:
            names[alias] = (crate, file, "")
    return names


def definitions_in(text: str, names: dict[str, tuple[str, str, str]]) -> list[Definition]:
    """The definitions that a clause names, each once."""
    found: dict[Definition, None] = {}
    for match in NAME.finditer(text):
        if text[match.start() - 1:match.start()] == ".":
            continue  # a field of what stands before it
        first, *rest = match.group().split(".")
        crate, file, name = names.get(first, ("", "", ""))
        if crate and (name or rest and is_in(crate, file, rest[0])):
            found[home_of(crate, file, name or rest[0])] = None
    return list(found)


def end_of_signature(text: str) -> int:
    """Where the parts of a function begin that follow its name, parameters and result."""
    depth = 0
    for place, letter in enumerate(text):
        depth += {"(": 1, "[": 1, ")": -1, "]": -1}.get(letter, 0)
        if depth == 0 and (letter in "{;" or re.match(r"\s(requires|ensures)\b", text[place:])):
            return place
    return len(text)


def clauses_of(text: str, names: dict[str, tuple[str, str, str]]) -> list[Clause]:
    """The clauses of the function that the text begins with."""
    clauses = []
    place = end_of_signature(text)
    head = re.compile(r"\s*(requires|ensures)\*? (\w*) ?\{")
    while found := head.match(text, place):
        inner = braced(text, found.end() - 1)
        place = found.end() + len(inner) + 1
        kind, name = found.groups()
        clauses.append(Clause(kind, name or kind, definitions_in(inner, names)))
    return clauses


def scope_of(line: str) -> Scope | None:
    """What a line at the left edge begins, if functions or facts can stand in it."""
    if not line.endswith("{"):
        return None
    plain = without_generics(line.rstrip("{ "))
    found = re.match(r"impl (?:([\w:]+) for )?(?:&(?:mut )?)?(\w+)", plain)
    if found:
        return Scope("impl", found.group(2), (found.group(1) or "").split("::")[-1])
    found = re.match(r"pub (trait|struct) (\w+)", plain)
    return Scope(found.group(1), found.group(2)) if found else None


def parts_of(text: str) -> Iterator[tuple[Scope, list[str]]]:
    """The parts of a file, each with its lines: the file's own lines first."""
    own: list[str] = []
    parts: list[tuple[Scope, list[str]]] = []
    scope: Scope | None = None
    lines: list[str] = []
    for line in text.splitlines():
        if scope is None:
            scope, lines = scope_of(line), []
            if scope is None:
                own.append(line)
        elif line == "}":
            parts.append((scope, lines))
            scope = None
        else:
            lines.append(line)
    return iter([(Scope(), own), *parts])


def facts_of(lines: list[str], names: dict[str, tuple[str, str, str]]) -> list[Clause]:
    """What a type, a trait or an `impl` has beside its calls."""
    text = "\n".join(lines)
    facts = []
    for found in GHOST.finditer(text):
        inner = braced(text, found.end() - 1)
        facts.append(Clause("fact", found.group(1), definitions_in(inner, names)))
    return facts


def functions_of(lines: list[str], names: dict[str, tuple[str, str, str]], indent: str
                 ) -> Iterator[tuple[bool, str, list[Clause]]]:
    """Whether each function is public, its name and its clauses."""
    text = "\n".join(lines)
    for found in re.finditer(rf"^{indent}(pub )?fn (\w+)", text, re.M):
        yield bool(found.group(1)), found.group(2), clauses_of(text[found.start():], names)
