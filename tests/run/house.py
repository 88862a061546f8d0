#!/usr/bin/env python3
"""Checks what can be read off the repository without proving anything; it takes ten seconds.

    tests/run/house.py

- Each name that README, PROMISES, ARCHITECTURE, DEVELOPING, LIBRARIES, DECISIONS and the tests'
  README set in code occurs in the sources.
- Each piece of code in docs/LIBRARIES.md is a part of a file of afdx_test_runs, white space
  aside.
- The pages that bin/pages prints from the sources are as it prints them.
- Each link of a page leads to a file or a heading that is there; the rows of a table have as many
  columns as its heading.
- The conditions of admission and the refusals of messages in documents by hand are those of
  docs/FORMATS.md, and the texts of the faults of lists and recordings those of its tables.
- Each must-fail edit, also a further one, finds the text that it changes, once.
- Out of memory is made only where a growth was refused: in a `From`, or in the one function of a
  crate that hands it on (MEMORY).
- Each source file is one that `rt ci` reads, of a crate of crates.txt, or it would refuse all.
- Each source file says at its head what it is; lines of definitions, of contracts, of code and of
  scripts have at most 100 columns, those of proofs at most 120; imports and what is to be unfolded
  may be wider, what bin/pages prints into a script, and the tables of numbers in
  afdx_frame/src/tables.rt.
- A clause has at most 400 characters and eight lines, a function takes at most six values beside
  `self` and has at most 40 lines. Where there still are others, there are just as many as is said
  here (LARGE); fewer are to be said, too.
- No two crates have a type of one name; crates of tests aside.
- Each definition of specs/ and each lemma is reached by what a function promises or by a proof, and
  each export of a crate is named by another crate. Where some aren't, SPARE says how many.

Prints a line for each fault, then `N passed, M failed`; ends with status 1 if there is one.
"""
import pathlib
import re
import subprocess
import sys

TOP = pathlib.Path(__file__).resolve().parent.parent.parent
sys.path.insert(0, str(TOP / "tests" / "lib"))

import closed_lists as lists  # noqa: E402
import exports  # noqa: E402
import links  # noqa: E402
import reached  # noqa: E402
import sizes  # noqa: E402

CRATES = TOP / "crates"
DOCUMENTS = ["README.md", "docs/PROMISES.md", "docs/ARCHITECTURE.md", "docs/DEVELOPING.md"]
DOCUMENTS += ["docs/LIBRARIES.md", "docs/DECISIONS.md", "tests/README.md"]
FAULTS = CRATES / "afdx_input_lines/src"
CALLS = CRATES / "afdx_test_runs/src/surface"
COLUMNS = 100
PROOF_COLUMNS = 120
PRINTED = "# printed by bin/pages"  # from such a line on, down to one that begins so
NUMBERS = CRATES / "afdx_frame/src/tables.rt"
# the functions, beside each `from`, that may name an AllocError or a fault's Memory as a value
MEMORY = {
    "crates/afdx_config/src/asked.rt": {"links_in"},
    "crates/afdx_config/src/read.rt": {"tree_of"},
    "crates/afdx_command_line/src/console/telling.rt": {"memory"},
    "crates/afdx_command_tables/src/refusing.rt": {"want_memory"},
    "crates/afdx_send/src/fault.rt": {""},  # the row of a table
    "crates/afdx_command_tables/src/sending/run.rt": {"refusal_of"},
    "crates/afdx_send/src/sender_state.rt": {"accept"},
    "crates/afdx_text/src/line.rt": {"room_wanted"},
}
# how many are still larger than they may be
LARGE = {"clauses": 0, "values": 3, "bodies": 0}
# how many may still go
SPARE = {"definitions that nothing reaches": 0, "exports that no other crate names": 3}
OF_TWO = ["{1} {0}", "list {0} {1}"]  # the forms of one of two recordings, and of two lists
SCRIPTS = ["tests/**/*.py", "tests/**/*.sh", "tests/**/*.c", "examples/*.py"]
SCRIPTS += ["bench/*", "bin/*", "bin/printing/*.py", "bin/lib/*.sh"]
SCRIPTS += ["tools/*", "tools/**/*.py", ".ci/*"]


def text_of(path: pathlib.Path) -> str:
    return path.read_text(encoding="utf-8")


def made(path: pathlib.Path) -> bool:
    """It lies in a folder that rt makes."""
    return "out" in path.relative_to(TOP).parts


def sources(*patterns: str) -> list[pathlib.Path]:
    return sorted(p for pattern in patterns for p in TOP.glob(pattern) if not made(p))


def known_words() -> set[str]:
    """All words of the sources, and the names of files and folders."""
    words: set[str] = set()
    named = ["crates/**/*.rt", "crates/**/*.antt"]
    named += ["crates/*/must-fail/*", "crates/*/further-edits/*", "tests/*/*"]
    named += ["bench/*", "tools/*", "tools/**/*.py", "bin/*", "bin/printing/*.py"]
    named += ["examples/*.toml"]
    for path in sources(*named):
        if path.is_file():
            words.update(re.findall(r"\w+", text_of(path)))
            words.update(re.findall(r"\w+", str(path.relative_to(TOP))))
    words.update(re.findall(r"\w+", text_of(TOP / "crates.txt")))
    return words


def wrong_names() -> list[str]:
    known = known_words()
    faults = []
    for document in DOCUMENTS:
        for name in re.findall(r"`([A-Za-z_]\w*(?:(?:::|\.)\w+)*)`", text_of(TOP / document)):
            missing = [word for word in re.findall(r"\w+", name) if word not in known]
            if missing:
                faults.append(f"{document}: `{name}` is in no source")
    return faults


def other_pages() -> list[str]:
    """Which pages aren't what is printed from the sources."""
    words = [sys.executable, str(TOP / "bin" / "pages"), "--check"]
    ran = subprocess.run(words, capture_output=True, text=True, check=False)
    return (ran.stdout + ran.stderr).splitlines() if ran.returncode else []


def without_space(text: str) -> str:
    return "".join(text.split())


def foreign_code() -> list[str]:
    """The pieces of code in LIBRARIES that no surface test has."""
    document = "docs/LIBRARIES.md"
    tests = [without_space(text_of(path)) for path in sorted(CALLS.glob("*.rt"))]
    pieces = re.findall(r"^```rust\n(.*?)^```$", text_of(TOP / document), re.M | re.S)
    faults = [
        f"{document}: no surface test has `{piece.splitlines()[0].strip()}` and what follows"
        for piece in pieces
        if not any(without_space(piece) in test for test in tests)
    ]
    return faults if pieces else [f"{document} has no code"]


def wrong_edit(path: pathlib.Path) -> str | None:
    """Applies the pairs of an edit in their order, as the gate does."""
    text, old = None, None
    for line in text_of(path).splitlines():
        key, _, value = line.partition(": ")
        if key == "file":
            target = path.parent.parent / value.strip()
            if not target.is_file():
                return f"there is no file {value}"
            text = text_of(target)
        elif key == "old":
            old = value
        elif key == "new" and text is not None and old is not None:
            count = text.count(old)
            if count != 1:
                return f"its text stands {count} times: {old.strip()}"
            text = text.replace(old, value)
    return None


def wrong_edits() -> list[str]:
    faults = []
    for path in sources("crates/*/must-fail/*.edit", "crates/*/further-edits/*.edit"):
        fault = wrong_edit(path)
        if fault:
            faults.append(f"{path.relative_to(TOP)}: {fault}")
    return faults


def lists_apart() -> list[str]:
    """Documents by hand that have other words than FORMATS, and faults with other texts."""
    faults = []
    network = TOP / "docs/NETWORK.md"
    rows = lists.rows_below("| Line | Must hold | In plain words |", network)
    rows += lists.rows_below("| Line | Must hold in a cascade | In plain words |", network)
    if [row[0] for row in rows] != lists.ADMISSION:
        faults.append(f"docs/NETWORK.md has other conditions than {lists.ADMISSION}")
    # the help of `check` has those of one switch alone
    words = [word for word in lists.ADMISSION if word.startswith("A")]
    for word in [*words, *lists.REFUSALS]:
        if not re.search(rf"\b{word}\b", text_of(TOP / "docs/afdx.1")):
            faults.append(f"docs/afdx.1 doesn't have {word}")
    for file, before, forms in (
        ("fault", "", lists.LIST_FAULTS),
        ("list_fault", "list ", lists.LIST_FAULTS),
        ("recording_fault", "", lists.RECORDING_FAULTS),
    ):
        source = text_of(FAULTS / f"{file}.rt")
        derived = re.findall(r'#\[error\("(.*?)"\)\]', source)
        texts = [before + text.replace("{0}", "n") for text in derived]
        told = [text for text in texts if re.match("list |recording ", text)]
        if set(told) != set(forms):
            faults.append(f"the texts of the faults of {file}.rt are {told}")
    of_two = re.findall(r'#\[error\("(.*?)"\)\]', text_of(FAULTS / "one_of_two.rt"))
    if of_two != OF_TWO:
        faults.append(f"the texts of the faults of one_of_two.rt are {of_two}")
    return faults


def is_laid_out(line: str) -> bool:
    """An import, or what the prover is to unfold: `rt fmt` has each in one line."""
    return re.match(r"\s*((pub )?(ghost )?use |unfolding |#\[tactic\()", line) is not None


def wide_lines(most: int, *patterns: str) -> list[str]:
    faults = []
    for path in sources(*patterns):
        if path == NUMBERS or not path.is_file():
            continue
        printed = False
        for number, line in enumerate(text_of(path).splitlines(), 1):
            printed = line == PRINTED or (printed and not line.startswith(PRINTED))
            if len(line) > most and not is_laid_out(line) and not printed:
                faults.append(f"{path.relative_to(TOP)}:{number}: {len(line)} columns")
    return faults


def makes_memory(line: str) -> bool:
    """It has an AllocError or a fault's Memory as a value: not as a type, nor as a pattern."""
    code = line.split("//")[0]
    if re.match(r"\s*(pub |ghost )*(use|ensures|requires|type)\b", code):
        return False
    errors = re.search(r"(^\s*|[(,=>] ?)AllocError\b(?!\s*[>}])", code)
    faults = re.search(r"(?<!\| )\b\w+(Fault|Error)::Memory\b(?!\)*\s*(=>|\||=[^=]))", code)
    return errors is not None or faults is not None


def made_up_memory() -> list[str]:
    faults = []
    for path in sources("crates/*/src/**/*.rt"):
        name = str(path.relative_to(TOP))
        if "crates/afdx_test_" in name:
            continue
        function = ""
        for number, line in enumerate(text_of(path).splitlines(), 1):
            found = re.match(r"\s*(?:pub(?:\(crate\))? )?fn (\w+)", line)
            function = found.group(1) if found else function
            if makes_memory(line) and function not in MEMORY.get(name, set()) | {"from"}:
                faults.append(f"{name}:{number}: {function} makes out of memory up")
    return faults


def unread() -> list[str]:
    """Source files that are no part of a crate; `rt ci` proves nothing where there is one."""
    crates = set(re.findall(r"^(\w+):", text_of(TOP / "crates.txt"), re.M))
    folders = {".rt": {"src"}, ".antt": {"specs", "proofs"}}
    faults = []
    for path in sources("**/*.rt", "**/*.antt"):
        parts = path.relative_to(TOP).parts
        if parts[0] != "crates" or parts[1] not in crates or parts[2] not in folders[path.suffix]:
            faults.append(f"{path.relative_to(TOP)} is no part of a crate")
    return faults


def headless() -> list[str]:
    return [
        f"{path.relative_to(TOP)} doesn't say what it is"
        for path in sources("crates/*/src/**/*.rt")
        if not text_of(path).startswith("//!")
    ]


def large() -> dict[str, list[str]]:
    """What is larger than it may be, by its kind."""
    found: dict[str, list[str]] = {kind: [] for kind in LARGE}
    for path in sources("crates/*/src/**/*.rt"):
        for function in sizes.functions_in(text_of(path)):
            name = f"{path.relative_to(TOP)}: {function.name}"
            found["clauses"] += [
                f"{name}: {sizes.letters(clause)} characters"
                for clause in function.clauses
                if sizes.letters(clause) > 400 or sizes.lines_of(clause) > 8
            ]
            if function.values > 6:
                found["values"].append(f"{name} takes {function.values} values")
            if len(function.body) > 40:
                found["bodies"].append(f"{name} has {len(function.body)} lines")
    return found


def shared_names() -> list[str]:
    """Types of one name in two crates; those of tests aside."""
    form = r"^\s*(?:pub(?:\(crate\))? )?(?:struct|enum|trait) (\w+)"
    crates: dict[str, set[str]] = {}
    for path in sources("crates/*/src/**/*.rt"):
        crate = path.relative_to(CRATES).parts[0]
        if not crate.startswith("afdx_test_"):
            for name in re.findall(form, text_of(path), re.M):
                crates.setdefault(name, set()).add(crate)
    return [f"{name}: {sorted(has)}" for name, has in sorted(crates.items()) if len(has) > 1]


def spare() -> dict[str, list[str]]:
    """What may go, by its kind."""
    alone = [f"{place.file}.{place.name}" for place in reached.unreached(TOP)]
    return dict(zip(SPARE, (alone, exports.unnamed(TOP)), strict=True))


def other_counts(found: dict[str, list[str]], said: dict[str, int], where: str) -> list[str]:
    """The kinds of which there are more, or fewer, than is said."""
    faults = []
    for kind, names in found.items():
        if len(names) != said[kind]:
            faults.append(f"{len(names)} {kind}; {where} says {said[kind]}")
        if len(names) > said[kind]:
            faults += names[:60]
    return faults


def main() -> int:
    checks = {
        "names in documents": wrong_names(),
        "pages printed from the sources": other_pages(),
        "links of pages": links.dead_links(),
        "tables of pages": links.uneven_rows(),
        "code in LIBRARIES": foreign_code(),
        "closed lists": lists_apart(),
        "must-fail edits": wrong_edits(),
        "out of memory": made_up_memory(),
        "places of source files": unread(),
        "heads of source files": headless(),
        "columns of definitions": wide_lines(COLUMNS, "crates/*/specs/**/*.antt"),
        "columns of code": wide_lines(COLUMNS, "crates/*/src/**/*.rt"),
        "columns of proofs": wide_lines(PROOF_COLUMNS, "crates/*/proofs/**/*.antt"),
        "columns of scripts": wide_lines(COLUMNS, *SCRIPTS),
        "sizes of clauses and functions": other_counts(large(), LARGE, "LARGE"),
        "names of types": shared_names(),
        "what nothing names": other_counts(spare(), SPARE, "SPARE"),
    }
    for name, faults in checks.items():
        print(f"{'FAILED' if faults else 'ok'} {name}")
        for fault in faults:
            print(f"    {fault}")
    failed = sum(1 for faults in checks.values() if faults)
    print(f"{len(checks) - failed} passed, {failed} failed")
    return 1 if failed else 0


if __name__ == "__main__":
    sys.exit(main())
