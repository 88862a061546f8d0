#!/usr/bin/env python3
"""Tries the program on configurations and lists that are made and changed at random.

    tests/run/fuzz.py [PROGRAM] [--seconds S] [--seed N] [--first K] [--keep DIR] [--recordings]

PROGRAM is the built program, crates/afdx/out/afdx where it isn't given. For S seconds (20 where it
isn't given) it tries one case after the other: `check` and `replay` of a configuration and a list,
`police` of the list, and `send`. tests/fuzzing/made.py makes the cases, tests/fuzzing/checks.py
holds what must be so of any output. Beside that

- each command is run twice, once with the list on standard input, and must answer the same;
- where a list has a fault, the output is a beginning of that of the lines before it alone;
- `replay` without its option replays exactly where `check` says `ok`, and then as it does with it;
- a link's verdicts are the same where all other frames are taken out of the list, and so are the
  ports that its frames leave, where the network is admitted;
- `police` gives the verdicts of a replay whose tables have that one link;
- what `send` writes is replayed without a loss, and each message is read once and in order.

Where the program reads recordings (tests/lib/reads.py), one is tried beside every second case, made
and changed at random (tests/recordings/), or from the case's list: a run on it must write what it
writes of the list that says the same, and `list` that list. Where it puts arrivals in order, frames
stand out of order in some. Where it reads two at once, a pair is tried as well, whole and cut. Now
and then a list over several switches is recorded, and several switches are solved
(tests/cascades/), and where the program has `conform` it judges small lists, and recordings if it
reads them (tests/conform/): what is computed must be written. `--recordings` tries recordings
alone.

The first case that is wrong is written to DIR (a new folder where it isn't given), its seed and
number are printed, and the status is 1. `--seed N --first K` begins with that case. Needs Python
3.11, no packages.
"""
import argparse
import os
import random
import subprocess
import sys
import tempfile
import time

sys.dont_write_bytecode = True
TESTS = os.path.join(os.path.dirname(os.path.abspath(__file__)), "..")
PARTS = ("fuzzing", "recordings", "cascades", "conform")
sys.path[:0] = [os.path.join(TESTS, name) for name in PARTS]
import checks  # noqa: E402
import made  # noqa: E402
import sending  # noqa: E402
import pair_reading  # noqa: E402
import pair_wanted  # noqa: E402
import random_taps  # noqa: E402
import reading  # noqa: E402
import wanted  # noqa: E402
from compared_recordings import as_computed  # noqa: E402
from conform_claims import Judge, judged_alike  # noqa: E402
from least import KEEPS  # noqa: E402
from made_cascades import made_cascade, mutated, three_of  # noqa: E402
from made_recordings import made_data, pcap_of  # noqa: E402
from program import Program, Wrong, must  # noqa: E402
from reads import READS  # noqa: E402
from recorded_claims import recorded_alike  # noqa: E402
from solved_cascades import check_solve, with_any  # noqa: E402
from tables import one_link_tables  # noqa: E402

PROGRAM = os.path.join(made.TOP, "crates", "afdx", "out", "afdx")
LONGEST = 3600  # seconds of one run, which end one that hangs
JUDGED = ("config-", "came-", "left-", "input-")  # how the files begin that `conform` is given


class Runs:
    """Runs the program in a folder that holds the case."""

    def __init__(self, program, folder):
        self.program, self.folder, self.count = program, folder, 0
        self.has_conform = None  # not known yet: of lists, of recordings

    def path(self, name):
        return os.path.join(self.folder, name)

    def write(self, name, text):
        with open(self.path(name), "wb") as file:
            file.write(text)

    def run(self, words, given=b""):
        """Status, output and errors; `given` goes to standard input."""
        self.count += 1
        try:
            done = subprocess.run(
                [self.program, *words],
                input=given,
                capture_output=True,
                cwd=self.folder,
                timeout=LONGEST,
                check=False,
            )
        except subprocess.TimeoutExpired:
            raise Wrong(f"{' '.join(words)} takes more than {LONGEST} s") from None
        return done.returncode, done.stdout.decode("ascii"), done.stderr.decode("ascii")

    def run_twice(self, words, text):
        """The same from a file and from standard input."""
        self.write("list", text)
        first = self.run([*words, "list"])
        second = self.run([*words, "-"], text)
        must(first == second, f"{' '.join(words)} answers something else on standard input")
        checks.check_status(words[0], first[0], first[2])
        return first


def try_check(runs, case):
    status, out, err = runs.run(["check", "config"])
    checks.check_status("check", status, err)
    checks.check_check(case.tables, status, out, err)
    return status, out, err


def try_prefix(runs, words, text, answer):
    """Where the list has a fault: what was written is a beginning of what the lines before it
    give."""
    fault = checks.faulty_line(answer[2])
    if fault is None:
        return
    status, out, err = runs.run([*words, "-"], checks.cut(text, fault))
    must(status == 0, f"the lines before the fault give: {err!r}")
    must(
        out.startswith(answer[1]),
        "what was written before the fault is not what the lines before it give",
    )


def copies_left(out, numbers):
    """The lines, sides and ports of the copies that left."""
    copies = [line.split(" ") for line in checks.told_of(out, "D", numbers)]
    return sorted((side, port, int(n)) for _, n, _, side, port in copies)


def try_alone(runs, words, case, answer, events, kinds):
    """A link's frames fare as if they were alone."""
    links = sorted({frame.vl() for n, frame in events.frames.items() if n in events.accepted})
    for vl in links[:2]:
        text = checks.alone(checks.cut(case.text, checks.faulty_line(answer[2])), events.frames, vl)
        status, out, err = runs.run([*words, "-"], text)
        must(status == 0, f"link {vl} alone: status {status}, {err!r}")
        numbers = {
            n
            for n, frame in events.frames.items()
            if frame.bytes[:6] == b"\x03\0\0\0" + vl.to_bytes(2, "big")
        }
        must(
            checks.told_of(out, "V", numbers) == checks.told_of(answer[1], "V", numbers),
            f"the verdicts of link {vl} are others where it is alone",
        )
        if "D" in kinds and answer[0] == 0:
            must(
                copies_left(out, numbers) == copies_left(answer[1], numbers),
                f"other frames of link {vl} leave where it is alone",
            )


def try_replay(runs, case, checked):
    free = ["replay", "--no-admission", "config"]
    answer = runs.run_twice(free, case.text)
    must(
        (answer[0] == 1) == (checked[2] != ""), "replay and check don't agree on the configuration"
    )
    if answer[0] == 1:
        must(answer[2] == checked[2], f"replay says {answer[2]!r}, check {checked[2]!r}")
    events = checks.check_replay(case.tables, case.text, False, *answer)
    try_prefix(runs, free, case.text, answer)
    status, out, err = runs.run(["replay", "config", "list"])
    checks.check_status("replay", status, err)
    if events is None:
        must((status, out, err) == answer, "a fault of the configuration depends on the option")
    elif checked[0] == 1:
        wanted = "admit" + checked[1].split("\n")[-2][len("no") :] + "\n"
        must(
            (status, out, err) == (1, "", wanted),
            f"not admitted, but replay answers {status}, {err!r}",
        )
        try_alone(runs, free, case, answer, events, "V")
    else:
        must((status, out, err) == answer, "the option changes the replay of an admitted network")
        checks.check_replay(case.tables, case.text, True, *answer)
        try_alone(runs, free, case, answer, events, "VD")


def try_police(runs, case, chance):
    bag = chance.choice(made.BAGS)
    rule = [bag, chance.choice([64, 80, 200, 1518]), chance.choice([0, 500, 1000 * bag])]
    words = ["police", *map(str, rule)]
    answer = runs.run_twice(words, case.text)
    checks.check_police(case.text, *answer)
    try_prefix(runs, words, case.text, answer)
    runs.write("one.toml", made.text_of(one_link_tables(*rule)))
    status, out, err = runs.run(["replay", "--no-admission", "one.toml", "list"])
    verdicts = "".join(f"{line}\n" for line in out.split("\n") if line.startswith("V"))
    must((status, verdicts, err) == answer, "police and replay give other verdicts of one link")


def try_send(runs, case):
    """On tables that are known and were not changed."""
    words = ["send", "config", case.name]
    answer = runs.run_twice(words, case.messages)
    must(not checks.CONFIG_FAULT.fullmatch(answer[2]), "send finds a fault in sound tables")
    sent = sending.check_send(case.tables, case.name, case.messages, *answer)
    try_prefix(runs, words, case.messages, answer)
    is_late = any(frame.time > 10**15 for frame in sent)  # a frame list has no later times
    if answer[0] == 0 and not is_late:
        status, out, err = runs.run(["replay", "config", "-"], answer[1].encode("ascii"))
        must((status, err) == (0, ""), f"what was sent can't be replayed: {err!r}")
        sending.check_delivered(case.tables, sent, out)


def try_case(runs, seed, number, stored):
    chance = random.Random(f"{seed}/{number}")
    case = made.random_case(chance, *stored)
    runs.write("config", case.config)
    runs.write("list", case.text)
    checked = try_check(runs, case)
    try_replay(runs, case, checked)
    try_police(runs, case, chance)
    if case.messages:
        try_send(runs, case)


def try_recording(runs, seed, number):
    """A recording, every third one with bytes changed, with options and without."""
    chance = random.Random(f"{seed}/{number}/options")
    data = made_data(reading.KINDS[number % 3 == 2], f"{seed}/{number}")
    runs.write("list", data)
    program = Program(runs.program, runs.folder)
    reading.both(program, wanted.Case(data))
    reading.both(program, wanted.random_case(chance, data))


def try_pair(runs, seed, number):
    """Two recordings at once, every third pair with bytes changed, whole and cut."""
    kind, name = pair_reading.KINDS[number % 3 == 2], f"{seed}/{number}"
    whole = pair_wanted.random_pair(kind, name)
    cut = pair_wanted.cut_pair(random.Random(f"{name}/cut"), whole)
    for case in (whole, cut):
        for side, data in zip("ab", case.pair):
            runs.write(f"{side}.recording", data)
        pair_reading.both_of_pair(Program(runs.program, runs.folder), case)


def try_recorded_list(runs, seed, number, stored):
    """The frames of a case's list, recorded, in its tables, admitted or not; then the same in two
    recordings, by their sides."""
    chance = random.Random(f"{seed}/{number}")
    case = made.random_case(chance, *stored)
    runs.write("config", case.config)
    if case.tables is None or runs.run(["check", "config"])[2]:
        return
    data = pcap_of(case.text, chance)
    runs.write("list", data)
    words = "replay", "--no-admission", "config"
    command = wanted.Command(words, wanted.of_one_switch(case.tables))
    options = wanted.random_options(chance)._replace(fcs=False)
    recording = wanted.Case(data, options, command=command)
    program = Program(runs.program, runs.folder)
    reading.reads(program, recording)
    if "two" in READS:
        pair = pcap_of(case.text, chance, b"A"), pcap_of(case.text, chance, b"B")
        given = pair_wanted.random_options(chance)._replace(fcs=False)
        pair_reading.both_of_pair(program, pair_wanted.PairCase(pair, given, command))


def try_tapped(runs, seed, number):
    """A list over a random cascade as recorders write it, one recording or two."""
    chance = random.Random(f"{seed}/{number}/taps")
    cascade = chance.choice(three_of(chance, chance.random() < 0.6))
    program, case = Program(runs.program, runs.folder), random_taps.of_list(chance, cascade)
    as_computed(program, cascade, case, [("--no-admission", "--explain-drops", "--summary")])
    if isinstance(case, wanted.Case):
        reading.both(program, case)
    else:
        pair_reading.both_of_pair(program, case)


def try_solved(runs, seed, number):
    """A random cascade whose keys have any values, or a changed file of one, solved by any
    options."""
    chance = random.Random(f"{seed}/{number}/solved")
    is_light = chance.random() < 0.8
    cascade = made_cascade(chance, chance.randint(1, 5), chance.randint(0, 25), is_light)
    text = chance.choice([with_any, with_any, mutated])(chance, cascade)
    runs.write("cascade.toml", text)
    program = Program(runs.program, runs.folder)
    check_solve(program, text, chance.choice(KEEPS), chance.random() < 0.3)


def try_judged(runs, seed, number):
    """Two small lists, and where the program judges recordings one or two of them."""
    program = Program(runs.program, runs.folder)
    if runs.has_conform is None:
        runs.has_conform = program.knows("conform"), program.knows("conform", "--left")
    for is_there, judged in zip(runs.has_conform, (judged_alike, recorded_alike)):
        if is_there:
            judged(Judge(program), seed, 1, number)


def keep(runs, folder):
    """Copies the case to where it stays."""
    target = folder or tempfile.mkdtemp(prefix="afdx-fuzz-kept-")
    os.makedirs(target, exist_ok=True)
    taps = "cascade.toml", "tap-0", "tap-1"
    judged = [name for name in os.listdir(runs.folder) if name.startswith(JUDGED)]
    for name in ("config", "list", "one.toml", "a.recording", "b.recording", *taps, *judged):
        if os.path.exists(runs.path(name)):
            with open(runs.path(name), "rb") as source, open(
                os.path.join(target, name), "wb"
            ) as copy:
                copy.write(source.read())
    return target


def taken_words():
    """The words of the command."""
    words = argparse.ArgumentParser(
        description=__doc__, formatter_class=argparse.RawDescriptionHelpFormatter
    )
    words.add_argument("program", metavar="PROGRAM", nargs="?", default=PROGRAM)
    words.add_argument("--seconds", metavar="S", type=float, default=20)
    words.add_argument(
        "--seed", metavar="N", type=int, default=random.SystemRandom().randrange(10**9)
    )
    words.add_argument(
        "--first", metavar="K", type=int, default=1, help="the number of the first case"
    )
    words.add_argument("--keep", metavar="DIR", help="where a case that is wrong is written")
    words.add_argument("--recordings", action="store_true", help="try recordings")
    given = words.parse_args()
    if not os.access(given.program, os.X_OK):
        words.error(
            f"there is no program at {given.program}: build it first, by bin/afdx --version"
        )
    if given.recordings and not READS:
        words.error("the program reads no recordings (tests/lib/reads.py)")
    return given


def main():
    given = taken_words()
    stored = made.stored()
    end = time.monotonic() + given.seconds
    number = given.first
    with tempfile.TemporaryDirectory(prefix="afdx-fuzz-") as folder:
        runs = Runs(os.path.abspath(given.program), folder)
        wanted.with_base(Program(given.program, folder))
        while time.monotonic() < end:
            try:
                if not given.recordings:
                    try_case(runs, given.seed, number, stored)
                if given.recordings or (READS and number % 2):
                    try_recording(runs, given.seed, number)
                    if "two" in READS:
                        try_pair(runs, given.seed, number)
                if READS and not given.recordings and number % 2 == 0:
                    try_recorded_list(runs, given.seed, number, stored)
                if not given.recordings and number % 4 == 0:
                    try_solved(runs, given.seed, number)
                if not given.recordings and number % 2:
                    try_judged(runs, given.seed, number)
                if "reorder" in READS and number % 8 == 0:
                    try_tapped(runs, given.seed, number)
            except Wrong as wrong:
                kept = keep(runs, given.keep)
                print(f"WRONG: {wrong}\nseed {given.seed}, case {number}, kept in {kept}")
                sys.exit(1)
            number += 1
        tried = f"{number - given.first} cases"
        if not given.recordings:
            tried += f", {runs.count} runs"
        print(f"ok: {tried}, nothing wrong (seed {given.seed})")


if __name__ == "__main__":
    main()
