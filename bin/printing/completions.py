"""The completions of bash, zsh and fish: what each command takes is printed from `--help`, between
two remarks; how a shell looks for it is written by hand.

Nothing that stands in a help text is ever run: names and words have to be of a strict form, and
texts are reduced to letters that a shell leaves alone in quotes.
"""
from __future__ import annotations

import dataclasses
import re

from printing.helps import TOOLS, Entry, Help, helps_of

BEGIN = "# printed by bin/pages\n"
END = "# printed by bin/pages down to here\n"
NAME = re.compile(r"--?[A-Za-z][a-z-]*")
WORD = re.compile(r"[A-Za-z0-9][A-Za-z0-9-]*")
VALUE = re.compile(r"(?:[A-Z]+[A-Za-z=.]*)?")
# what is offered: files with one of these ends, folders, systems of CONFIG, words, or a list of
# them with commas; or nothing
Kind = tuple[str, ...]
LISTS, PCAPS = ("list",), ("pcap", "pcapng")
KINDS: dict[str, Kind] = {
    "CONFIG": ("files", "toml"), "OLD": ("files", "toml"), "FILLED": ("files", "toml"),
    "OTHER.json": ("files", "json"), "SYSTEMS.csv": ("files", "csv"),
    "MESSAGES.csv": ("files", "csv"), "CABLES.csv": ("files", "csv"), "TAPS": ("files", "csv"),
    "RECORDING": ("files", *PCAPS),
    "LIST": ("files", *LISTS, *PCAPS), "SUBMISSIONS": ("files", *LISTS, "messages"),
    "CAME": ("files", *LISTS, *PCAPS), "LEFT": ("files", *LISTS, *PCAPS),
    "DIR": ("folders",), "FOLDER": ("folders",), "SYSTEM": ("systems",),
    "BAG_MS": ("words", "1", "2", "4", "8", "16", "32", "64", "128"),
    "--taps": ("files", "csv"), "--cover": ("files", "toml"), "--junit": ("files", "xml"),
    "--out FILE": ("files", *LISTS), "--split": ("files", *LISTS),
    "--keep": ("words", "jitter", "buffer", "latency", "skew"),
    "afdx list LIST": ("files", *PCAPS), "afdx-capture pcap LIST": ("files", *LISTS),
}
# may be given more than once
SEVERAL = ("--interface", "--left", "--leave-out", "--sshlogin", "--link")
COMMAS = ("--keep", "--fail-on")  # take several words, with commas between
LONGEST = 50  # letters of a text that is shown whole


@dataclasses.dataclass(frozen=True)
class Option:
    """An option: its names, the long one last; what its value is, None if it takes none; `others`
    are options that it can't be given with."""
    names: tuple[str, ...]
    kind: Kind | None
    optional: bool
    value: str
    text: str
    others: tuple[str, ...] = ()


@dataclasses.dataclass(frozen=True)
class Place:
    """A word that belongs to no option."""
    kind: Kind
    value: str
    optional: bool
    repeats: bool


@dataclasses.dataclass(frozen=True)
class Taken:
    """What a command takes."""
    command: str
    options: tuple[Option, ...]
    places: tuple[Place, ...]


def checked(form: re.Pattern[str], text: str) -> str:
    """The text, if it has this form."""
    if not form.fullmatch(text):
        raise SystemExit(f"completions: a help has {text!r}, which isn't offered")
    return text


def option_of(entry: Entry) -> Option:
    """The option of an entry of a help."""
    names = tuple(checked(NAME, name) for name in entry.names)
    said = re.search(r"with commas: (.*?); (\w+) stands for", entry.text)
    if not entry.value:
        kind = None
    elif entry.words:
        kind = ("words", *entry.words)
    elif said:
        kind = ("words", *said.group(1).split(", "), said.group(2))
    else:
        choices = (names[-1], f"{names[-1]} {entry.value}", entry.value)
        kind = next((KINDS[choice] for choice in choices if choice in KINDS), ())
    for word in kind[1:] if kind else ():
        checked(WORD, word)
    if kind and names[-1] in COMMAS:
        kind = ("list", *kind[1:])
    text = re.split(r"[;:([]|, at most ", entry.text)[0].replace("`", "").strip()
    text = re.sub(r"[^A-Za-z0-9 ,./=_'-]", "", text)
    text = text.split(",")[0] if len(text) > LONGEST else text
    value = "" if entry.words else checked(VALUE, entry.value).lower()
    return Option(names, kind, entry.optional, value, text)


def options_of(said: Help) -> tuple[Option, ...]:
    """The options, with those that the usage has beside them behind a bar."""
    found = []
    for option in map(option_of, said.options):
        groups = re.findall(r"\[([^\[\]]*\|[^\[\]]*)\]", said.usage)
        near = {name for group in groups for name in NAME.findall(group)
                if set(option.names) & set(NAME.findall(group))}
        others = [name for entry in said.options for name in entry.names
                  if near & set(entry.names) - set(option.names)]
        found.append(dataclasses.replace(option, others=tuple(others)))
    return tuple(found)


def places_of(said: Help) -> tuple[Place, ...]:
    """The words of the usage that belong to no option; those that may be left out come last."""
    words = re.sub(r" \[-[^\]]*\]", "", said.usage).removeprefix(said.command)
    words = re.sub(r"[<>]|\[OPTIONS\]|--[a-z]+ [A-Z]+", "", words)
    found: list[Place] = []
    for shown, dots in re.findall(r"(\[?[A-Z][\w.]*(?: \.\.\.)?\]?)(\.\.\.)?", words):
        value = shown.strip("[]. ")
        repeats = bool(dots) or "..." in shown
        again = any(place.value == value for place in found)
        kind = KINDS.get(f"{said.command} {value}", KINDS.get(value, ()))
        if again and not repeats and value == "LIST":
            kind = KINDS["RECORDING"]
        if again and repeats:
            found[-1] = dataclasses.replace(found[-1], repeats=True)
        else:
            found.append(Place(kind, value, shown[0] == "[", repeats))
    return tuple(sorted(found, key=lambda place: place.optional and not place.repeats))


def all_taken(program: str) -> dict[str, list[Taken]]:
    """Of the program and of each tool what its commands take, or it alone."""
    taken = {}
    for tool in ("afdx", *TOOLS):
        first, *commands = helps_of(tool, program)
        taken[tool] = [
            Taken(said.command, options_of(said), places_of(said))
            for said in commands or [first]
        ]
    return taken


def commands_of(taken: list[Taken]) -> str:
    """The commands of a tool, with spaces between; none where it has none."""
    names = [each.command.split()[1] for each in taken if " " in each.command]
    return " ".join(checked(WORD, name) for name in names)


def wrapped(words: list[str], indent: int, end: str = "") -> str:
    """Words on lines of at most 100 columns; a backslash stands at the end of all but the last."""
    lines, line = [], " " * indent + words[0]
    for word in words[1:]:
        if len(line) + len(word) + 3 + len(end) > 100:
            lines.append(line + " \\")
            line = " " * (indent + 4) + word
        else:
            line += " " + word
    return "\n".join([*lines, line + end])


# ---- bash ----------------------------------------------------------------------------------------


def bash_call(kind: Kind) -> str:
    """The function that offers it."""
    if kind[0] in ("words", "list"):
        return " ".join(["_afdx_offer" if kind[0] == "words" else "_afdx_list", *kind[1:]])
    if kind[0] == "files":
        return "_afdx_files " + " ".join(kind[1:])
    return {"folders": "_afdx_folders", "systems": '_afdx_systems "${given[0]}"'}[kind[0]]


def bash_arm(pattern: str, kind: Kind) -> str:
    """An arm of a `case` that offers it."""
    words = bash_call(kind).split(" ")
    line = f"        {pattern}) {' '.join(words)} ;;"
    if len(line) <= 100:
        return line
    return f"        {pattern})\n{wrapped(words, 12)}\n            ;;"


def bash_part(taken: dict[str, list[Taken]]) -> str:
    """What is printed for bash."""
    every = [each for of_tool in taken.values() for each in of_tool]
    takes, values, places = [], {}, []
    for each in every:
        offered = [option.names[-1] for option in each.options]
        valued = [name for option in each.options if option.kind is not None
                  and not option.optional for name in option.names]
        lines = [wrapped(["options=(" + offered[0], *offered[1:]], 12, ")")]
        lines.append(wrapped(["valued=(" + valued[0], *valued[1:]], 12, ")") if valued
                     else "            valued=()")
        takes += [f"        '{each.command}')", *lines, "            ;;"]
        for option in each.options:
            if option.kind:
                for name in option.names:
                    values[f"'{each.command} {name}'"] = option.kind
        for number, place in enumerate(each.places):
            if place.kind:
                after = "*" if place.repeats else str(number)
                places.append(bash_arm(f"'{each.command} '{after}", place.kind))
    commands = [f"        {tool}) commands=({commands_of(of_tool)}) ;;"
                for tool, of_tool in taken.items() if commands_of(of_tool)]
    return "\n".join([
        "_afdx_commands_of() { # TOOL : what its first word may be", "    case $1 in", *commands,
        "    esac", "}", "",
        "_afdx_takes() { # COMMAND : its options, and those that take a value", "    case $1 in",
        *takes, "    esac", "}", "",
        "_afdx_value() { # COMMAND OPTION, in one word", "    case $1 in",
        *(bash_arm(pattern, kind) for pattern, kind in values.items()), "    esac", "}", "",
        "_afdx_place() { # COMMAND NUMBER, in one word : the word of that number, from 0",
        "    case $1 in", *places, "    esac", "}", "",
        wrapped(["complete", "-F", "_afdx", *taken], 0), "",
    ])


# ---- fish ----------------------------------------------------------------------------------------


def fish_quoted(text: str) -> str:
    """A text in quotes."""
    return "'" + text.replace("'", "\\'") + "'"


def fish_offer(kind: Kind) -> str:
    """What is offered, as the value of -a."""
    if kind[0] == "words":
        return "'" + " ".join(kind[1:]) + "'"
    if kind[0] == "list":
        return f"'(__afdx_list {' '.join(kind[1:])})'"
    if kind[0] == "files":
        return f"'(__afdx_files {' '.join(kind[1:])})'"
    calls = {"folders": "__fish_complete_directories", "systems": "__afdx_systems"}
    return f"'({calls[kind[0]]})'"


def fish_option(tool: str, condition: list[str], option: Option) -> str:
    """The line of an option."""
    words = ["complete", "-c", tool, *condition]
    if option.kind is not None and not option.optional:
        words.append("-x")
    words += [f"-s {name[1:]}" for name in option.names[:-1] if name != "-h" and name != "-V"]
    words.append(f"-l {option.names[-1][2:]}")
    if option.kind:
        words.append(f"-a {fish_offer(option.kind)}")
    return wrapped([*words, f"-d {fish_quoted(option.text)}"], 0)


def fish_part(taken: dict[str, list[Taken]], abouts: dict[str, str]) -> str:
    """What is printed for fish; `abouts` say what each command does."""
    valued: dict[str, None] = {}
    lines = []
    for tool, of_tool in taken.items():
        lines += ["", f"complete -c {tool} -f"]
        if commands_of(of_tool):
            for name in ("help", "version"):
                lines.append(f"complete -c {tool} -n '__afdx_at - 0 0' -l {name} "
                             f"-d 'Print the {name} and leave'".replace("the help", "help"))
        for each in of_tool:
            command = each.command.partition(" ")[2]
            if command:
                lines.append(wrapped(
                    ["complete", "-c", tool, "-n '__afdx_at - 0 0'", f"-a {command}",
                     f"-d {fish_quoted(abouts[each.command])}"], 0))
            condition = [f"-n '__afdx_in {command}'"] if command else []
            for option in each.options:
                lines.append(fish_option(tool, condition, option))
                if option.kind is not None and not option.optional:
                    valued.update(dict.fromkeys(option.names))
            for number, place in enumerate(each.places):
                if place.kind:
                    last = 1_000_000 if place.repeats else number
                    at = f"-n '__afdx_at {command or '-'} {number} {last}'"
                    lines.append(wrapped(["complete", "-c", tool, at,
                                          f"-a {fish_offer(place.kind)}"], 0))
    return "\n".join([wrapped(["set -g __afdx_valued", *valued], 0), *lines, ""])


# ---- zsh -----------------------------------------------------------------------------------------


def zsh_action(option: Option | Place) -> str:
    """What completes a value, or a word."""
    kind = option.kind or ()
    if not kind:
        return ""
    if kind[0] == "list":
        return f"_values -s , word {' '.join(kind[1:])}"
    if kind[0] == "words":
        return f"({' '.join(kind[1:])})"
    if kind[0] == "files":
        ends = kind[1] if len(kind) == 2 else f"({'|'.join(kind[1:])})"
        return f'_files -g "*.{ends}(-.)"'
    return {"folders": "_path_files -/", "systems": "_afdx_systems"}[kind[0]]


def zsh_option(option: Option) -> str:
    """The option as `_arguments` takes it."""
    name = option.names[-1]
    if name in ("--help", "--version"):
        return "$help" if name == "--help" else "$version"
    text = option.text.replace("'", "'\\''")
    value = ""
    if option.kind is not None:
        of_words = option.kind[:1] in (("words",), ("list",))
        value = f":{' ' if of_words else option.value}:{zsh_action(option)}"
    before = "*" if name in SEVERAL else ""
    if option.optional:
        return f"'{name}=-[{text}]:{value}'"
    typed = name + "=" * (option.kind is not None)  # also in one word with the value
    if option.others and len(option.names) == 1:
        return f"'({' '.join(option.others)}){typed}[{text}]{value}'"
    each = ",".join([*option.names[:-1], typed])
    if len(option.names) > 1 and not before:
        names = " ".join(option.names + option.others)
        return f"'({names})'{{{each}}}'[{text}]{value}'"
    if len(option.names) > 1:
        return f"'*'{{{each}}}'[{text}]{value}'"
    return f"'{before}{typed}[{text}]{value}'"


def zsh_place(place: Place) -> str:
    """The word as `_arguments` takes it."""
    before = "*" if place.repeats else ":" if place.optional else ""
    return f"'{before}:{place.value.lower()}:{zsh_action(place)}'"


def zsh_part(taken: dict[str, list[Taken]]) -> str:
    """What is printed for zsh."""
    arms = []
    for of_tool in taken.values():
        for each in of_tool:
            words = [zsh_option(option) for option in each.options]
            words += [zsh_place(place) for place in each.places]
            lines = " \\\n".join(" " * 12 + word for word in words)
            lines = lines.replace(" " * 12, " " * 16, 1).lstrip()
            arms.append(f"    '{each.command}')\n        _arguments {lines}\n        ;;")
    commands = [f"        {tool}) commands=({commands_of(of_tool)}) ;;"
                for tool, of_tool in taken.items() if commands_of(of_tool)]
    return "\n".join([
        "_afdx_commands_of() { # TOOL : what its first word may be", "    case $1 in", *commands,
        "    esac", "}", "",
        "_afdx_takes() { # COMMAND", "    case $1 in", *arms, "    esac", "}", "",
    ])


def printed(page: str, shell: str, program: str) -> str:
    """The file of a shell."""
    before, begin, rest = page.partition(BEGIN)
    _, end, after = rest.partition(END)
    if not begin or not end:
        raise SystemExit(f"tools/afdx.{shell} doesn't say what is printed in it")
    taken = all_taken(program)
    if shell == "bash":
        part = bash_part(taken)
    elif shell == "zsh":
        part = zsh_part(taken)
    else:
        abouts = {said.command: re.sub(r"[^A-Za-z0-9 ,./'-]", "", said.about[0].split("\n")[0])
                  for tool in taken for said in helps_of(tool, program)}
        part = fish_part(taken, abouts)
    return before + BEGIN + part + END + after
