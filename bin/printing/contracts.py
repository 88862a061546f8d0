"""docs/CONTRACTS.md: the clauses of each public call, and the definitions that they name."""
from __future__ import annotations

import re
from collections.abc import Iterator

from printing.crates import crates_cited, files_of_definitions, head_of, short
from printing.sources import CRATES, Call, Clause, Scope, facts_of, functions_of
from printing.sources import imports_in, parts_of, sources_of, text_of, without_comments

HEAD = """\
# Contracts

Where each clause of a public call stands, and each definition that it names. `bin/pages` prints \
this page from the sources: change those, not it. What the clauses say in plain words: \
[PROMISES.md](PROMISES.md). How to read one in the source: DEVELOPING.md, "How to read a contract".

There is a section for each crate, the lowest first. Its first table has the calls in the order of \
its files in `src/`:

- *Clauses*: the names of what the call ensures, and after "if" of what it requires. One without a \
name is written `ensures` or `requires`. A call without any is safe and returns, as all are.
- *Definitions*: those that the clauses name, each behind its file in `specs/`. Behind `frame/` \
the file is one of the crate `afdx_frame`, and so on. Words of the kit's own library are left out.
- A type, a trait and an `impl` have a row where they say something beside their calls: `fields` \
that are proofs, what is `assumed` of all that implement a trait, and what an `impl` says of its \
type. An `impl Model` says what callers see a value as. The calls of an `impl` have the contracts \
of its trait.

The second table has the crate's laws in words, as its `src/laws.rt` has them, the third its files \
of definitions, with the sentence that each begins with.

"""
CALLS = "| Call | In `src/` | Clauses | Definitions |\n|---|---|---|---|\n"
LAWS = "| Law | What it says |\n|---|---|\n"
LAW = re.compile(r"((?:^///.*\n)+)(?:^#\[.*\n)*^pub fn (\w+)", re.M)
FILES = "| In `specs/` | What it defines |\n|---|---|\n"


def has_page(crate: str) -> bool:
    """It has calls for others: it is no program, and no tests."""
    library = (CRATES / crate / "src/lib.rt").is_file()
    return library and not crate.startswith("afdx_test_")


def exported(crate: str) -> tuple[set[str], set[str]]:
    """What the crate hands on by name, and the files that it hands on whole."""
    text = without_comments(text_of(CRATES / crate / "src/lib.rt"))
    names: set[str] = set()
    for path, braces, name in re.findall(r"pub use ([\w:]+)::(?:\{([^}]*)\}|(\w+));", text):
        if not path.startswith("afdx_"):
            names.update(word.strip() for word in (braces or name).split(",") if word.strip())
    return names, set(re.findall(r"^pub mod (\w+);", text, re.M))


def is_public(scope: Scope, names: set[str], own: set[str]) -> bool:
    """Callers can reach what stands there; `own` are the types and traits of the crate."""
    return all(word in names or word not in own for word in (scope.name, scope.trait))


def title_of(scope: Scope) -> str:
    """What the row of a type, a trait or an `impl` is called."""
    if scope.trait:
        return f"`{scope.name}` as `{scope.trait}`"
    return f"`{scope.name}`, {'fields' if scope.kind == 'struct' else 'assumed'}"


def calls_of_part(scope: Scope, lines: list[str], file: str, before: str,
                  names: dict[str, tuple[str, str, str]], public: set[str]) -> Iterator[Call]:
    """The calls of a part of a file; those of the file itself have to be in `public`."""
    facts = facts_of(lines, names) if scope.kind else []
    if facts:
        yield Call(title_of(scope), file, facts)
    above = f"{before}{scope.name}::" if scope.kind else before
    for is_pub, name, clauses in functions_of(lines, names, "    " if scope.kind else ""):
        if scope.trait:
            wanted = bool(clauses)
        elif scope.kind:
            wanted = is_pub or scope.kind == "trait"
        else:
            wanted = is_pub and (bool(before) or name in public)
        if wanted:
            yield Call(f"`{above}{name}`", file, clauses)


def calls_of(crate: str) -> list[Call]:
    """All public calls of a crate, file by file."""
    public, whole = exported(crate)
    texts = {path: without_comments(text_of(path)) for path in sources_of(crate)}
    declared = r"^(?:pub(?:\(crate\))? )?(?:struct|enum|trait|type) (\w+)"
    own = {word for text in texts.values() for word in re.findall(declared, text, re.M)}
    calls: list[Call] = []
    for path, text in texts.items():
        file = str(path.relative_to(CRATES / crate / "src"))
        before = f"{path.stem}::" if path.stem in whole and "/" not in file else ""
        parts = list(parts_of(text))
        imports = imports_in(parts[0][1])
        for scope, lines in parts:
            if before or is_public(scope, public | {""}, own):
                names = imports | imports_in(lines)
                calls += calls_of_part(scope, lines, file, before, names, public)
    return calls


def named_clauses(clauses: list[Clause]) -> str:
    """What is ensured, then what is required."""
    ensured = ", ".join(f"`{c.name}`" for c in clauses if c.kind != "requires")
    required = ", ".join(f"`{c.name}`" for c in clauses if c.kind == "requires")
    return "; ".join([ensured or "none"] + ([f"if {required}"] if required else []))


def named_definitions(crate: str, clauses: list[Clause]) -> str:
    """The definitions by their files, those of the crate first."""
    files: dict[str, list[str]] = {}
    for clause in clauses:
        for place, name in clause.definitions:
            names = files.setdefault(place, [])
            if name not in names:
                names.append(name)
    cells = []
    for place in sorted(files, key=lambda place: not place.startswith(crate + "/")):
        own, file = place.split("/")
        shown = file if own == crate else f"{short(own)}/{file}"
        cells.append(f"{shown}: " + ", ".join(f"`{name}`" for name in files[place]))
    return "; ".join(cells) or "none"


def laws_of(crate: str) -> list[tuple[str, str]]:
    """Each law of a crate, and what stands above it, in one line."""
    path = CRATES / crate / "src/laws.rt"
    text = text_of(path) if path.is_file() else ""
    return [(name, " ".join(said.replace("///", "").split())) for said, name in LAW.findall(text)]


def section_of(crate: str) -> str:
    """The section of a crate."""
    rows = [
        f"| {call.name} | {call.file} | {named_clauses(call.clauses)} "
        f"| {named_definitions(crate, call.clauses)} |\n"
        for call in calls_of(crate)
    ]
    files = [f"| {file} | {head_of(crate, file)} |\n" for file in files_of_definitions(crate)]
    tables = [CALLS + "".join(rows)] if rows else []
    laws = [f"| `{name}` | {said} |\n" for name, said in laws_of(crate)]
    tables += [LAWS + "".join(laws)] if laws else []
    tables += [FILES + "".join(files)] if files else []
    return f"## {crate}\n\n" + "\n".join(tables)


def printed() -> str:
    """The whole page."""
    return HEAD + "\n".join(section_of(crate) for crate in crates_cited() if has_page(crate))
