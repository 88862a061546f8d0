"""The tables of docs/FORMATS.md and docs/RECORDINGS.md that say what a word, a key, a line or a
fault means, from what `afdx explain --list` prints.

In its page each stands between two remarks, of which the first has its name; the text around them
is written by hand.
"""
from __future__ import annotations

import re
from collections.abc import Callable, Iterable

from printing.listing import Row, sentences

AROUND = re.compile(r"(<!-- printed by bin/pages: ([^>]+) -->\n\n).*?(\n\n<!-- printed by bin/pages"
                    r" -->\n)", re.S)
# parts of the program's texts that have marks in a page
MARKED = {
    "profile is absent": "`profile` is absent",
    "; to is empty": "; `to` is empty",
    "a port entry's link is no link's vl": "a port entry's `link` is no link's `vl`",
    "or a link's vl, stood": "or a link's `vl`, stood",
    "stands twice in to,": "stands twice in `to`,",
    "from, a name in to, or a port entry's system names":
        "`from`, a name in `to`, or a port entry's `system` names",
    "the vl of a link whose to names": "the `vl` of a link whose `to` names",
    "where from is a neighbour": "where `from` is a neighbour",
    "with the next switch in to": "with the next switch in `to`",
    "with from this switch": "with `from` this switch",
    "neighbour out of to": "neighbour out of `to`",
    '"high" or "low"': '`"high"` or `"low"`',
    '"byte" or "frame"': '`"byte"` or `"frame"`',
    '"sampling" or "queuing"': '`"sampling"` or `"queuing"`',
    "; - where": "; `-` where",
    ", - where": ", `-` where",
    "jitter is ns,": "jitter is `ns`,",
    "the key port of": "the key `port` of",
    "dropped as over-rate": "dropped as `over-rate`",
    "form than K=PLACE": "form than `K=PLACE`",
    "inputs are -,": "inputs are `-`,",
}
OPTION = r"(?<![\w`])--[a-z][a-z-]*(?: [A-Z]+\b(?:=-)?)?"
# in which order a line of a list is checked; what isn't read is no fault
CHECKED = ["TooManyLines", "LineTooLong", "", "BadLine", "TimeTooLarge", "TimeBack", "BadPort",
           "BadHex"]
SKIPPED_LINE = "it is empty, or begins with `#`"
STATUSES = {"words": 2, "device": 4, "memory": 4}


def marked(text: str) -> str:
    """With the marks that the page has around words and options."""
    text = re.sub(r"(?<!\w)'([^']+)'(?!\w)", r"`\1`", text)
    for part, other in MARKED.items():
        text = text.replace(part, other)
    text = re.sub(rf"(?:{OPTION})", lambda found: f"`{found.group()}`", text)
    return re.sub(r"(?<![\w`-])(?:[a-z]+_(?:us|ms)|lmin|lmax)\b(?!`)", r"`\g<0>`", text)


def with_fields(line: str, text: str) -> str:
    """With marks around the fields of a line as well."""
    for field in ("vl", "needed", "bound"):
        if field in line.split():
            text = re.sub(rf"\b{field}\b", f"`{field}`", text)
    return marked(text)


def begun_small(text: str) -> str:
    """With a small letter at its beginning, if a small one follows."""
    return text[:1].lower() + text[1:] if re.match(r"[A-Z][a-z]|A ", text) else text


def table(heading: str, rows: Iterable[list[str]]) -> str:
    """A table of these rows."""
    lines = ["| " + " | ".join(cells) + " |" for cells in rows]
    if not lines:
        raise SystemExit(f"bin/printing/formats.py: nothing is printed below {heading}")
    return "\n".join([heading, "|" + "---|" * (heading.count("|") - 1), *lines])


def meaning(row: Row, before: str = "") -> str:
    """The first sentence, without the word that it begins with."""
    text = sentences(row.text).removeprefix(row.word + ": ")
    return marked(begun_small(re.sub(f"^(?:{before})", "", text)) if before else begun_small(text))


def of_kind(rows: list[Row], kind: str) -> list[Row]:
    """The rows of one of the lists."""
    return [row for row in rows if row.kind == kind]


def faults_of(rows: list[Row], *kinds: str) -> list[Row]:
    """The faults whose lines begin with one of these words, in the order of the words."""
    faults = of_kind(rows, "fault")
    return [row for kind in kinds for row in faults if row.word.split()[0] == kind]


def words_and_devices(rows: list[Row]) -> str:
    """The faults of words, devices and memory."""
    faults = faults_of(rows, *STATUSES)
    return table("| Line | Status | When |", (
        [f"`{row.word}`", str(STATUSES[row.word.split()[0]]), meaning(row)] for row in faults))


def list_faults(rows: list[Row]) -> str:
    """The faults of a list, in the order in which a line is checked."""
    faults = {row.word.split()[1]: row for row in faults_of(rows, "list")}
    if set(faults) != set(CHECKED) - {""}:
        raise SystemExit(f"bin/printing/formats.py: the faults of a list are {set(faults)}")
    return table("| Order | Line on standard error | When |", (
        [str(order), f"`{faults[name].word}`", meaning(faults[name])] if name
        else [str(order), "(skipped)", SKIPPED_LINE] for order, name in enumerate(CHECKED, 1)))


def recording_faults(rows: list[Row]) -> str:
    """The faults of a recording."""
    return table("| Recording fault | When |", (
        [f"`{row.word}`", meaning(row)] for row in faults_of(rows, "recording")))


def skipped_numbers(rows: list[Row]) -> str:
    """Why a number of a recording is skipped."""
    return table("| WORD of a skipped number | When |", (
        [f"`{row.word}`", meaning(row)] for row in of_kind(rows, "skipped")))


def recording_counts(rows: list[Row]) -> str:
    """The counts of a recording that are no such reasons."""
    counts = next(row for row in of_kind(rows, "line") if row.forms[-1].startswith("skipped "))
    said = re.findall(r"then ([a-z-]+): (.*?)(?=; then |$)", sentences(counts.text))
    if [word for word, _ in said] != list(counts.forms[:-1]):
        raise SystemExit(f"bin/printing/formats.py: the counts of a recording are {counts.forms}")
    return table("| Count | Meaning |", ([f"`{word}`", marked(text)] for word, text in said))


def dropped(rows: list[Row]) -> str:
    """Why a switch drops a frame."""
    return table("| WORD | The frame |", (
        [f"`{row.word}`", meaning(row, "the frame ")] for row in of_kind(rows, "drop")))


def not_received(rows: list[Row]) -> str:
    """Why a system drops a frame that a switch passed to it: the receivers of its link alone."""
    drops = {row.word for row in of_kind(rows, "drop")} | {"not-subscribed"}
    left = [row for row in of_kind(rows, "unread") if row.word not in drops]
    left.sort(key=lambda row: row.word == "no-port")  # it is looked at last
    return table("| WORD of X | The frame |", (
        [f"`{row.word}`", meaning(row, "the frame ")] for row in left))


def strange(rows: list[Row]) -> str:
    """Why a frame is strange that left, but for what stands against arrivals, too."""
    return table("| WORD of strange | The frame |", (
        [f"`{row.word}`", meaning(row, "the frame ")] for row in of_kind(rows, "strange")))


def unlawful(rows: list[Row]) -> str:
    """Why a frame that a system sent is unlawful, but for what stands against arrivals, too."""
    drops = {row.word for row in of_kind(rows, "drop")}
    return table("| WORD of unlawful | The frame |", (
        [f"`{row.word}`", meaning(row, "the frame ")] for row in of_kind(rows, "unlawful")
        if row.word not in drops))


def refused(rows: list[Row]) -> str:
    """Why a message is refused."""
    return table("| Text | When |", (
        [f"`{row.word}`", meaning(row)] for row in of_kind(rows, "refusal")))


def admission(rows: list[Row]) -> str:
    """The conditions of admission."""
    cells = []
    for row in of_kind(rows, "admission"):
        line, _, wrong = sentences(row.text).partition(": ")
        helps = re.search(r"What may help: (.*?)\.(?:\s|$)", row.text)
        cells.append([f"`no {line}`", with_fields(line, wrong),
                      with_fields(line, helps.group(1)) if helps else ""])
    return table("| Last line | What is wrong | What may help |", cells)


def config_faults(rows: list[Row]) -> str:
    """The faults, with the place that their lines have."""
    # those in a switch have its place besides, and a bad profile has one there
    forms = [form for row in of_kind(rows, "key") for form in row.forms if " switch n " not in form]
    cells = []
    for row in of_kind(rows, "config"):
        found = [form for form in forms if re.match(rf"config \S*\b{row.word}\b\S* ", form)]
        key = "0" if all(form.endswith(" key 0") for form in found) else "KEY"
        place = f" PART INDEX key {key}" if found else ""
        when = meaning(row, "The configuration has a fault: ")
        cells.append([f"`config {row.word}{place}`", when])
    return table("| Line on standard error | When |", cells)


def keys(rows: list[Row]) -> str:
    """The keys of a configuration; those of a switch of several where they have other values."""
    pattern = r"[Kk]ey (\d+) of (?:the|a) ((?:switch's )?\w+)(?: is|:) (\w+): (.*?)\.(?:\s|$)"
    cells: list[list[str]] = []
    values: dict[tuple[str, str], str] = {}
    for row in of_kind(rows, "key"):
        found = re.search(pattern, row.text)
        if found:
            number, part, key, value = found.groups()
            if values.get((part.removeprefix("switch's "), key)) != value:
                cells.append([part, number, f"`{key}`", marked(value)])
            values[part, key] = value
    return table("| Part | Number | Key | Value |", cells)


def lines(rows: list[Row], *begins: str, heading: str = "| Line | Meaning |", count: int = 1
          ) -> str:
    """The lines that begin so, each with the first sentences of what it means."""
    cells = []
    for begin in begins:
        row = next(row for row in of_kind(rows, "line") if row.text.startswith(begin))
        text = row.text.partition(" Of 'list' ")[0]
        form, text = re.split(r": (?!NEEDED)", sentences(text, count), maxsplit=1)
        text = re.sub(r"^'solve' on standard error: |^with --margins: ", "", text)
        cells.append([f"`{form}`", with_fields(form, text)])
    return table(heading, cells)


Tables = dict[str, Callable[[list[Row]], str]]
TABLES: dict[str, Tables] = {
    "docs/FORMATS.md": {
        "faults of words and devices": words_and_devices,
        "faults of a list": list_faults,
        "why a switch drops a frame": dropped,
        "keys of a configuration": keys,
        "faults of a configuration": config_faults,
        "lines of check": lambda rows: lines(rows, "P ", "m ", "S ", "E ", "apart vl "),
        "conditions of admission": admission,
        "lines of solve": lambda rows: lines(
            rows, "vl ", heading="| Line on standard error | Meaning |"),
        "lines of replay": lambda rows: lines(rows, "L ", "D ", "T ", "M ", "early "),
        "why a system drops a frame": not_received,
        "lines of send": lambda rows: lines(rows, "R time A", "R time B", count=2),
        "refused messages": refused,
        "lines of conform": lambda rows: lines(
            rows, "strange ", "passed ", "stopped ", "late ", "early n side", "unsure ",
            "conforms: ", "deviates ", "undecided: "),
        "why a frame is strange": strange,
        "lines of senders": lambda rows: lines(
            rows, "unlawful ", "number ", "soon ", "differs ", "apart n side", "single "),
        "why a frame is unlawful": unlawful,
    },
    "docs/RECORDINGS.md": {
        "skipped numbers": skipped_numbers,
        "counts of a recording": recording_counts,
        "faults of a recording": recording_faults,
    },
}


def printed(text: str, page: str, rows: list[Row]) -> str:
    """The text of a page with its tables as they have to be."""
    named = [found.group(2) for found in AROUND.finditer(text)]
    if sorted(named) != sorted(TABLES[page]):
        others = set(named) ^ set(TABLES[page])
        raise SystemExit(f"{page}: tables are missing, unknown or there twice: {others}")
    texts = " ".join(row.text for row in rows)
    absent = [part for part in MARKED if part not in texts.replace("Profile is", "profile is")]
    if absent:
        raise SystemExit(f"bin/printing/formats.py: no text has the part {absent[0]!r}")
    return AROUND.sub(lambda found: found.group(1) + TABLES[page][found.group(2)](rows)
                      + found.group(3), text)
