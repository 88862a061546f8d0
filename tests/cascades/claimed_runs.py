"""Runs over admitted cascades, each looked at for all that is promised from end to end: whole
streams, of which a side may end, among strangers; lists with a fault; and any lists, with a link's
own frames alone or among others."""
from __future__ import annotations

import random

from cascade import cascade_text
from cascade_check import check_lines
from cascade_run import SIDES, Arrival, Places, arrivals_of, replayed, sent_text
from compared_recordings import CONFIG, case_over, files_of, replayed_answer
from end_claims import Told, accepted_everywhere, alone, ends_are_sums, exactly_once
from end_claims import from_end_to_end
from frames import Sent
from lawful_streams import Line, Messages, Stream, Submit, computed_send, greedy_lines
from lawful_streams import late_streams, lines_of, merged_lines, messages_in, other_lines
from lawful_streams import sent_streams, text_of, ways_to_end, with_strangers
from made_lists import made_list
from pair_wanted import PairCase
from program import Program, answers, must
from recorded_pair import PairOptions
from sender import Message, submission_list
from sent_over import messages_of
from tapped_lists import FIRST, MIRRORS, TAPS, frames_of, over_cables, recorded

MOST_LINKS = 3  # whose frames are looked at alone


class Computed:
    """Runs as they are computed apart from the program."""

    def replay(self, cascade: dict, text: bytes, fault: bytes = b"") -> bytes:
        """What is written of a list, whose fault this is."""
        ran = replayed(cascade, text)
        must(ran.fault == fault, f"the fault is {ran.fault!r}")
        return ran.out()

    def replay_pair(self, cascade: dict, case: PairCase) -> bytes:
        """What is written of two recordings."""
        found = replayed_answer(cascade, case.told(), ())
        answers(found, 0, None, b"")
        return found.out

    def check(self, cascade: dict) -> list[str]:
        """What `check` writes."""
        return check_lines(cascade, False)

    def send(self, cascade: dict, switch: dict, name: str, messages: list[Message]) -> list[Sent]:
        """What a system sends."""
        must(cascade["switch"], "no switches")
        return computed_send(switch, name, messages)


class Called(Computed):
    """Runs of the program."""

    def __init__(self, program: Program) -> None:
        self.program = program.apart()

    def config(self, cascade: dict) -> str:
        """The file of a cascade, which is written."""
        return self.program.write(CONFIG, cascade_text(cascade))

    def replay(self, cascade: dict, text: bytes, fault: bytes = b"") -> bytes:
        """The program's output, and this is the fault."""
        found = self.program.run("replay", self.config(cascade), "-", given=text)
        answers(found, 3 if fault else 0, None, fault)
        return found.out

    def replay_pair(self, cascade: dict, case: PairCase) -> bytes:
        """The program's output of two recordings."""
        self.config(cascade)
        found = self.program.run("replay", *case.options.words(), *files_of(self.program, case))
        answers(found, 0, None, b"")
        return found.out

    def check(self, cascade: dict) -> list[str]:
        """What `check` writes."""
        found = self.program.run("check", self.config(cascade))
        answers(found, 0, None, b"")
        return found.out.decode().splitlines()

    def send(self, cascade: dict, switch: dict, name: str, messages: list[Message]) -> list[Sent]:
        """What `send` writes is what is computed of a system."""
        given = submission_list(messages)
        found = self.program.run("send", self.config(cascade), name, "-", given=given)
        answers(found, 0, sent_text(cascade, name, messages), b"")
        return computed_send(switch, name, messages)


def sound(cascade: dict, text: bytes) -> list[Arrival]:
    """The frames of a list without a fault."""
    arrivals, fault = arrivals_of(text, Places(cascade["switch"], True))
    must(not fault, f"the list has the fault {fault!r}")
    return arrivals


def told_of(runs: Computed, cascade: dict, text: bytes) -> Told:
    """What is told of a list, in which all is accepted everywhere and leaves from end to end."""
    told = Told(cascade, sound(cascade, text), runs.replay(cascade, text))
    accepted_everywhere(told)
    from_end_to_end(told)
    return told


# ---- whole streams -------------------------------------------------------------------------------


def streams_of(runs: Computed, chance: random.Random, cascade: dict) -> list[Stream]:
    """What all systems send; or late frames."""
    switches = cascade["switch"]
    if chance.random() < 0.5:
        return late_streams(chance, switches)

    def submit(switch: dict, name: str) -> list[Message]:
        return messages_of(chance, switches, switch, name)

    return sent_by(runs, cascade, submit)


def sent_by(runs: Computed, cascade: dict, submit: Submit) -> list[Stream]:
    """What all systems send of what they submit."""

    def send(switch: dict, name: str, messages: list[Message]) -> list[Sent]:
        return runs.send(cascade, switch, name, messages)

    return sent_streams(cascade["switch"], submit, send)


def streams_arrive(runs: Computed, chance: random.Random, cascade: dict) -> None:
    """Lawful streams of the links among strangers, of both sides, of one, and of sides that end:
    each message is read once."""
    ends_are_sums(Told(cascade, [], b"").network, runs.check(cascade))
    streams = streams_of(runs, chance, cascade)
    for name, lines in ways_to_end(chance, lines_of(chance, streams)).items():
        told = told_of(runs, cascade, with_strangers(chance, cascade["switch"], lines))
        must(told.left or not lines, f"no frame of a stream leaves, {name}")
        exactly_once(told, messages_in(streams, lines))
        if name == "both":
            stopped_anywhere(runs, chance, cascade, lines, messages_in(streams, lines))


def stopped_anywhere(
    runs: Computed,
    chance: random.Random,
    cascade: dict,
    lines: list[Line],
    sent: dict[int, Messages],
) -> None:
    """The list has a fault at any line: what was written until then is the first part of what is
    promised."""
    text = with_strangers(chance, cascade["switch"], lines).splitlines(keepends=True)
    at = chance.randrange(len(text) + 1)
    given = b"".join([*text[:at], b"!\n", *text[at:]])
    out = runs.replay(cascade, given, b"list BadLine %d\n" % (at + 1))
    told = Told(cascade, sound(cascade, b"".join(text[:at])), out, True)
    accepted_everywhere(told)
    from_end_to_end(told)
    exactly_once(told, sent)


# ---- any lists -----------------------------------------------------------------------------------


def own_lines(cascade: dict, text: bytes, vl: int) -> tuple[list[str], list[str]]:
    """The lines of a link's own frames, and all others."""
    told, parts = Told(cascade, sound(cascade, text), b""), (list[str](), list[str]())
    numbers = {key[1] for side in SIDES for key in told.named(side, vl) if told.is_own(key, vl)}
    for number, line in enumerate(text.decode().splitlines(), 1):
        if line and not line.startswith("#"):
            parts[number not in numbers].append(line)
    return parts


def any_text(chance: random.Random, cascade: dict) -> bytes:
    """A list of any frames; or of greedy ones, among others."""
    if chance.random() < 0.5:
        return made_list(chance, cascade, chance.choice([20, 100, 200]), (0, 5))
    others = other_lines(chance, cascade, 20)
    return text_of(merged_lines(chance, greedy_lines(chance, cascade["switch"]), others))


def any_list_runs(runs: Computed, chance: random.Random, cascade: dict) -> None:
    """Any frames; and of some links their own ones alone, and among other frames."""
    text = any_text(chance, cascade)
    told = told_of(runs, cascade, text)
    links = sorted(told.network.links)
    for vl in chance.sample(links, min(MOST_LINKS, len(links))):
        own, _ = own_lines(cascade, text, vl)
        other = text_of(other_lines(chance, cascade, chance.choice([20, 100])))
        _, others = own_lines(cascade, other, vl)
        for lines in (own, merged_lines(chance, own, others)):
            found = told_of(runs, cascade, text_of(lines))
            for side in SIDES:
                alone(told, found, side, vl)


# ---- two recordings ------------------------------------------------------------------------------


def tapped(
    chance: random.Random, cascade: dict, text: bytes, grain: str
) -> tuple[PairCase, list[Arrival]]:
    """A list as two recordings, with a tap at each port, or with a mirror of each switch, which has
    what cables bring too; and what is taken of them."""
    frames, words, data = frames_of(cascade, text), list[str](), list[bytes]()
    if grain == MIRRORS:
        frames = sorted([*frames, *over_cables(cascade, text)], key=lambda one: one.time)
    for side in range(len(SIDES)):
        some = [one for one in frames if one.side == side]
        recording, names = recorded(chance, cascade, some, grain)
        data.append(recording)
        words += [f"{number}={name}" for number, name in enumerate(names)]
    options = PairOptions(tuple(words), origin=FIRST)
    case = case_over(cascade, (data[0], data[1]), options, ())
    assert isinstance(case, PairCase)
    said = case.told()
    must(not said.fault, f"the recordings have the fault {said.fault!r}")
    taken = sound(cascade, said.text())
    numbers = [said.numbers[one.frame.number - 1] for one in taken]
    return case, [
        one._replace(frame=one.frame._replace(number=number)) for one, number in zip(taken, numbers)
    ]


def told_of_taps(
    runs: Computed, chance: random.Random, cascade: dict, text: bytes, grain: str
) -> Told:
    """The same of two recordings of a list."""
    case, arrivals = tapped(chance, cascade, text, grain)
    told = Told(cascade, arrivals, runs.replay_pair(cascade, case))
    accepted_everywhere(told)
    from_end_to_end(told)
    return told


def taps_arrive(runs: Computed, chance: random.Random, cascade: dict) -> None:
    """The same streams in two recordings; where switches are mirrored without strangers, of whom
    most say that they are elsewhere."""
    streams, grain = streams_of(runs, chance, cascade), chance.choice([TAPS, TAPS, MIRRORS])
    for lines in ways_to_end(chance, lines_of(chance, streams)).values():
        text = with_strangers(chance, cascade["switch"], lines)
        text = text_of([line.text for line in lines]) if grain == MIRRORS else text
        told = told_of_taps(runs, chance, cascade, text, grain)
        exactly_once(told, messages_in(streams, lines))
