"""What must hold of a judge of senders: what is computed here, or the program."""
from __future__ import annotations

import random

from beside_rows import ALONE_RECORDED, BESIDE_RECORDED, BESIDE_ROWS, AloneRecorded
from beside_rows import BesideRecorded, BesideRow
from conform_claims import FILES, Judge
from conform_terms import SENDERS, Options
from frames import raw_line, sealed
from program import Answer, answers, must
from recorded_cases import RecordedCase
from recorded_claims import answer_to
from rows import CONFIGS
from sender_made import SIDES, Recording, is_right, right, small
from sender_made import small_recording
from sender_rows import SENDER_CONFIGS, SENDER_ROWS, SenderRow, list_of
from senders import conform_senders
from wrong_senders import CONFIG, PLACES, WRONG_SENDERS, Sending, Wrong

BASE = SENDER_CONFIGS["base"]
# of several switches those at whose fwd link 1's system stands, at port 1
AT_FWD = ("two", "wide", "near", "slow")
PORTS = (1, 1, 1, 1, 2, 3, 5, 24)  # where a frame comes in that is moved
# where the frames of link 1 leave, at a switch of several too, and how long that takes
OUTPUT, CABLE, WIRE = 3, 24, 6_720
ALONE = "what they sent: CAME alone"  # of a program's help, where it judges no streams beside
NOTHING = " explained 0 open 0 uncertain 0 left-out 0 unseen 4 idle 0 "
# of each option that is given, by its word
VALUES = {"--slack": "slack", "--drift": "drift", "--apart": "apart", "--from": "start",
          "--until": "until"}  # fmt: skip


def answer_of(
    judge: Judge, came: bytes, left: bytes | None, words: tuple[str, ...], config: bytes = BASE
) -> Answer:  # fmt: skip
    """What is answered of senders alone, or beside the streams to what left."""
    if judge.program is None:
        return conform_senders(config, came, left, words)
    inputs = [text for text in (config, came, left) if text is not None]
    return judge.run(words, dict(zip(FILES, inputs)))


def sender_row_holds(judge: Judge, row: SenderRow) -> None:
    """It answers as the row spells out."""
    wanted = row.answer()
    found = answer_of(judge, list_of(row.came), None, row.words(), SENDER_CONFIGS[row.config])
    answers(found, wanted.status, wanted.out, wanted.err)


def beside_row_holds(judge: Judge, each: BesideRow) -> None:
    """It answers as the row spells out of a switch and its systems."""
    row, wanted = each.row, each.answer()
    came, left = list_of(row.came), list_of(row.left)
    found = answer_of(judge, came, left, row.words(), SENDER_CONFIGS[row.config])
    answers(found, wanted.status, wanted.out, wanted.err)


def beside_recorded_holds(judge: Judge, each: BesideRecorded) -> None:
    """The same of recordings."""
    row, wanted = each.row, each.answer()
    case = RecordedCase(CONFIGS[row.config], row.inputs(), row.words())
    answers(answer_to(judge, case), wanted.status, wanted.out, wanted.err)


def alone_recorded_holds(judge: Judge, each: AloneRecorded) -> None:
    """It answers as the row spells out of a recording of what came."""
    wanted, found = each.row.answer(), answer_to(judge, each.case())
    answers(found, wanted.status, wanted.out, wanted.err)


def words_of(options: Options) -> tuple[str, ...]:
    """The words of options."""
    words = [SENDERS]
    for word, name in VALUES.items():
        value = getattr(options, name)
        if value is not None:
            words += [word, str(value)]
    return tuple(words)


def text_of(made: Recording) -> bytes:
    """A recording as a list."""
    return b"".join(raw_line(each.time, SIDES[each.side], 1, each.content)
                    for each in made.frames)


def made_answer(judge: Judge, made: Recording) -> Answer:
    """What is answered of a recording's senders."""
    return answer_of(judge, text_of(made), None, words_of(made.options))


def right_senders_conform(judge: Judge, seed: int, count: int) -> None:
    """A right sender is never accused, whatever its clock, its stamps and its spacing."""
    for case in range(count):
        made = right(random.Random(f"{seed} {case} sender"))
        found, sent = made_answer(judge, made), len(made.within())
        verdict = "conforms" if sent else "undecided"
        must(found.out.decode().startswith(f"{verdict}{NOTHING}sent {sent} cut "),
             f"case {case}: {found}")


def wrong_are_found(judge: Judge, wrong: Wrong) -> None:
    """Of what is amiss just its frames are found, each by its line."""
    for side in (0, 1):
        for at in PLACES:
            sent = Sending()
            findings = list(wrong(sent, side, at))
            found = answer_of(judge, sent.text(), None, words_of(sent.options), CONFIG)
            *lines, last = found.out.decode().splitlines()
            must(sorted(lines) == sorted(sent.lines(findings)) and found.status == 5
                 and last.startswith(f"deviates {len(findings)}{NOTHING}"),
                 f"at {SIDES[side]} {at}: {lines}, wanted {sent.lines(findings)}")


def senders_are_exact(judge: Judge, seed: int, count: int) -> None:
    """By exact stamps nothing is found exactly where a right sender may have sent the frames."""
    for case in range(count):
        times, until = small(random.Random(f"{seed} {case} small sender"))
        found = made_answer(judge, small_recording(times, until))
        must((found.status != 5) == is_right(times, until), f"case {case}: {found}")


def one_change(chance: random.Random, line: list[bytes]) -> list[list[bytes]]:
    """A line that is as it was, or changed, twice there, or gone."""
    kind, time, side, port, digits = line
    how = chance.randrange(8)
    if how == 0:
        return []
    if how == 1:
        return [line, line]
    if how == 2:
        time = b"%d" % max(0, int(time) + chance.choice([-1, 1]) * chance.randint(0, 10**6))
    elif how == 3:
        port = b"%d" % chance.choice(PORTS)
    elif how == 4:
        side = chance.choice([b"A", b"B"])
    elif how == 5:
        content = bytearray.fromhex(digits.decode())[:-4]
        content[chance.choice([5, 11, 20, 42, len(content) - 1])] = chance.choice([1, 2, 3, 9, 64])
        digits = sealed(bytes(content)).hex().encode()
    elif how == 6:
        digits = chance.choice([digits[:8], digits[:-2], digits + b"00"])
    return [[kind, time, side, port, digits]]


def changed(chance: random.Random, made: Recording) -> bytes:
    """A recording as a list, with some lines changed."""
    lines: list[list[bytes]] = []
    for line in text_of(made).splitlines():
        fields = line.split(b" ")
        lines += one_change(chance, fields) if chance.random() < 0.15 else [fields]
    lines.sort(key=lambda fields: int(fields[1]))
    return b"".join(b" ".join(fields) + b"\n" for fields in lines)


def left_of(came: bytes, port: int) -> bytes:
    """What leaves a switch that passes all of it to one port."""
    lines = [line.split(b" ") for line in came.splitlines()]
    return b"".join(b"%s %d %s %d %s\n" % (kind, int(time) + WIRE, side, port, digits)
                    for kind, time, side, _, digits in lines)


def senders_alike(judge: Judge, seed: int, count: int) -> None:
    """It answers what is computed here, of senders alone and, if it judges them so, beside
    streams."""
    found, is_alone = set(), judge.program is not None and judge.program.knows("conform", ALONE)
    for case in range(count):
        chance = random.Random(f"{seed} {case} senders")
        made = right(chance)
        came, words = changed(chance, made), words_of(made.options)
        words += ("--leave-out", "2") if chance.random() < 0.1 else ()
        config, port = BASE, OUTPUT
        if chance.random() < 0.3:
            config, words = SENDER_CONFIGS[chance.choice(AT_FWD)], (*words, "--switch", "fwd")
            port = CABLE
        left = left_of(came, port) if chance.random() < 0.4 and not is_alone else None
        wanted = conform_senders(config, came, left, words)
        found |= {line.split()[0] for line in wanted.out.decode().splitlines()}
        answers(answer_of(judge, came, left, words, config), wanted.status, wanted.out, wanted.err)
    must(count < 100 or found >= {"unlawful", "number", "soon", "differs", "apart", "single",
                                  "conforms", "deviates"}, f"only {found}")


def beside_cases(judge: Judge, who: str) -> list[tuple]:
    """What a judge must answer of a switch and its systems, if it judges both."""
    if judge.program is not None and judge.program.knows("conform", ALONE):
        return []
    cases: list[tuple] = [(f"{who}, beside its systems: {each.row.name}", beside_row_holds, judge,
                           each) for each in BESIDE_ROWS]
    if judge.program is not None:
        cases += [(f"{who}, beside its systems: {each.row.name}", beside_recorded_holds, judge,
                   each) for each in BESIDE_RECORDED]
    return cases


def sender_cases(judge: Judge, who: str, seeds: range, count: int) -> list[tuple]:
    """What a judge must answer of senders."""
    cases: list[tuple] = [(f"{who}, senders: {row.name}", sender_row_holds, judge, row)
                          for row in SENDER_ROWS]
    cases += beside_cases(judge, who)
    if judge.program is not None:
        cases += [(f"{who}, senders, recorded: {each.row.name}", alone_recorded_holds, judge, each)
                  for each in ALONE_RECORDED]
    for wrong in WRONG_SENDERS:
        cases.append((f"{who}, senders: {(wrong.__doc__ or '').strip()}", wrong_are_found, judge,
                      wrong))
    for seed in seeds:
        cases.append((f"{who}, senders: right ones, {seed}", right_senders_conform, judge, seed,
                      count))
        cases.append((f"{who}, senders: exactly what a right one may send, {seed}",
                      senders_are_exact, judge, seed, count))
        if judge.program is not None:
            cases.append((f"{who}, senders: made at random, {seed}", senders_alike, judge, seed,
                          count))
    return cases
