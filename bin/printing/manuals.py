"""The man pages: down to a remark they are printed from `--help`, the sections behind it are
written by hand."""
from __future__ import annotations

import re
import textwrap
from collections.abc import Iterable

from printing.helps import Entry, Help, helps_of

BEGIN = '.\\" printed by bin/pages\n'
END = '.\\" printed by bin/pages down to here\n'
WIDTH = 100
UNITS = ("ns", "pcap")  # words that have no capital


def escaped(text: str) -> str:
    """As a formatter takes it letter by letter."""
    return text.replace("\\", "\\e").replace("-", "\\-")


def at_left(line: str) -> str:
    """A line that is no request of the formatter."""
    return f"\\&{line}" if line[:1] in (".", "'") else line


def filled(text: str) -> str:
    """A text in running lines; what stands in quotes is bold."""
    text = re.sub(r"(?<!\w)'([^']+)'(?!\w)|`([^`]+)`", r"\\fB\1\2\\fP", escaped(text))
    lines = textwrap.wrap(text, WIDTH, break_long_words=False, break_on_hyphens=False)
    return "\n".join(at_left(line) for line in lines) + "\n"


def as_it_stands(lines: Iterable[str]) -> str:
    """Lines that keep their spaces."""
    shown = textwrap.dedent("\n".join(lines)).split("\n")
    shown = [at_left(escaped(line).replace("'", "\\(aq")) for line in shown]
    return ".RS\n.nf\n" + "\n".join(shown) + "\n.fi\n.RE\n"


def paragraphs(blocks: Iterable[str]) -> str:
    """Blocks of a help text; what is indented keeps its lines."""
    made = []
    for block in blocks:
        for part in re.findall(r"(?:^ .*\n?)+|(?:^\S.*\n?)+", block, re.M):
            lines = part.rstrip("\n").split("\n")
            made.append(as_it_stands(lines) if part[0] == " " else filled(" ".join(lines)))
    return ".PP\n".join(made)


def sentence(text: str) -> str:
    """A text that begins with a capital and ends with a full stop."""
    text = re.sub(r" \[default: (.*?)\]", r" (\1)", text)
    first = text[:1] if text.split(" ")[0] in UNITS else text[:1].upper()
    return first + text[1:] + ("" if text.endswith((".", "?")) else ".")


def tagged(entry: Entry) -> str:
    """An option, or a word that is given, with what it means."""
    value = "|".join(entry.words) if 2 <= len(entry.words) <= 4 else entry.value
    value = f"\\fI{escaped(value)}\\fP" if value else ""
    between = "[=" if entry.names and entry.optional else " "
    names = ", ".join(f"\\fB{escaped(name)}\\fP" for name in entry.names)
    shown = names + (between if names and value else "") + value + ("]" if between == "[=" else "")
    return f".TP\n{shown}\n{filled(sentence(entry.text))}"


def listed(heading: str, entries: Iterable[Entry]) -> str:
    """A section of options or words; none if there are none."""
    made = "".join(tagged(entry) for entry in entries)
    return f"{heading}\n{made}" if made else ""


def usage_of(said: Help) -> str:
    """The usage as a page has it: all that may be left out is OPTIONS."""
    words = re.sub(r" \[-[^\]]*\]", "", said.usage).removeprefix(said.command).strip(" ")
    words = re.sub(r"[<>]|\[OPTIONS\] ?", "", words)
    options = "[OPTIONS] " if any(name != "--help" for entry in said.options
                                  for name in entry.names[-1:]) else ""
    return f"\\fB{escaped(said.command)}\\fP \\fI{escaped(options + words)}\\fP"


def command_part(said: Help) -> str:
    """The part of a command: what it does, what it takes, and what else its help says."""
    options = [entry for entry in said.options if "--help" not in entry.names]
    texts = [sentence(said.about[0]), *said.about[1:]]
    return (f".SS {usage_of(said)}\n{paragraphs(texts)}"
            + "".join(map(tagged, said.arguments + options))
            + (f".PP\n{paragraphs(said.rest)}" if said.rest else ""))


def first_line(said: Help) -> str:
    """What it does, as a part of a sentence."""
    line = said.about[0].split("\n")[0].rstrip(".").replace("`", "")
    return escaped(line[:1].lower() + line[1:])


def printed_part(tool: str, program: str) -> str:
    """The page down to the sections that are written by hand."""
    first, *commands = helps_of(tool, program)
    synopsis = "\n.br\n".join(usage_of(said) for said in commands or [first])
    if commands:
        synopsis += f"\n.br\n\\fB{escaped(tool)}\\fP \\fI[COMMAND]\\fP \\fB\\-\\-help\\fP | " \
                    "\\fB\\-\\-version\\fP"
    parts = [
        f'.TH {tool.upper()} 1 "" "afdx" "User Commands"\n.nh\n.ad l\n',
        f".SH NAME\n{tool} \\- {first_line(first)}\n.SH SYNOPSIS\n{synopsis}\n",
        f".SH DESCRIPTION\n{paragraphs(first.about)}",
        listed(".SH ARGUMENTS", first.arguments),
        listed(".SH OPTIONS", first.options) if not commands else "",
        ".SH COMMANDS\n" + "".join(map(command_part, commands)) if commands else "",
    ]
    for block in first.rest:
        title = block.split("\n")[0]
        if title == "Exit status:":
            parts.append(".SH EXIT STATUS\n" + paragraphs([block.partition("\n")[2]]))
        elif block.startswith("To begin with"):
            parts.append(".SH EXAMPLES\n" + paragraphs([block]))
        else:
            parts.append(".PP\n" + paragraphs([block]))
    return BEGIN + "".join(parts) + END


def printed(page: str, tool: str, program: str = "") -> str:
    """The page of a tool, or of the program, with what is written by hand in it."""
    _, found, by_hand = page.partition(END)
    if not found:
        raise SystemExit(f"docs/{tool}.1 doesn't say down to where it is printed: {END.strip()}")
    return printed_part(tool, program) + by_hand
