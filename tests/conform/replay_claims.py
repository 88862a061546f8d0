"""What a replay says to leave conforms: that of the stored outputs of examples/, of what is
computed of several switches, and of what the program writes."""
from __future__ import annotations

import os
import random
from collections.abc import Callable

from admitted_cascades import admitted
from cascade import cascade_text, loaded
from cascade_run import replayed
from compared_runs import replay_by
from conform_claims import Judge
from made_lists import made_list
from program import Answer, Program, answers, must
from replayed_lists import Replayed, of_one, of_several
from small_cases import Pair
from tables import EXAMPLES, example

LEEWAYS: tuple[tuple[str, ...], ...] = (
    (), ("--slack", "1000"), ("--drift", "100", "--from", "2000000"), ("--asked", "10000"),
    ("--inner", "60000", "--until", "30000000"), ("--slack", "50000", "--from", "0"),
    ("--between", "300000"),
)
ONE, TWO = ("network.toml", "bench.list"), ("two_switches.toml", "two_switches.list")

Replay = Callable[[dict, bytes], bytes]  # what a replay writes of a cascade and a list


def conforms(answer: Answer, must_show: bool, name: str) -> None:
    """No finding; and something is explained."""
    fine = (0,) if must_show else (0, 3)
    must(answer.status in fine and answer.out.count(b"\n") == 1, f"{name}: {answer.out[:200]!r}")


def pair_conforms(
    judge: Judge, config: bytes, pair: Replayed, name: str, switch: tuple[str, ...] = ()
) -> None:
    """It conforms, with each leeway too."""
    for words in LEEWAYS:
        answer = judge.answer(Pair(config, pair.came, pair.left, (*words, *switch)))
        conforms(answer, not words and pair.left != b"", f"{name} {words}")


def several_conform(judge: Judge, config: bytes, text: bytes, out: bytes) -> None:
    """Each switch of a cascade conforms."""
    for name, pair in of_several(loaded(config)["switch"], text, out).items():
        pair_conforms(judge, config, pair, name, ("--switch", name))


def stored_conform(judge: Judge) -> None:
    """The stored outputs of networks that are admitted."""
    config, text = map(example, ONE)
    pair_conforms(judge, config, of_one(text, example("bench.out")), "bench")
    config, text = map(example, TWO)
    several_conform(judge, config, text, example("two_switches.out"))


def cascades_conform(judge: Judge, replay: Replay, seed: int, count: int) -> None:
    """What a replay writes of admitted cascades."""
    chance = random.Random(seed)
    for _ in range(count):
        cascade = admitted(chance)
        text = made_list(chance, cascade, 40)
        several_conform(judge, cascade_text(cascade), text, replay(cascade, text))


def computed_replay(cascade: dict, text: bytes) -> bytes:
    """What is computed that a replay writes."""
    return replayed(cascade, text).out()


def replay_of(program: Program) -> Replay:
    """The program's replay."""

    def replay(cascade: dict, text: bytes) -> bytes:
        found = replay_by(program.apart(), cascade, text, ())
        answers(found, 0, None, b"")
        return found.out

    return replay


def examples_conform(judge: Judge, program: Program) -> None:
    """What the program writes of the examples' lists."""
    outs = []
    for names in (ONE, TWO):
        found = program.run("replay", *(os.path.join(EXAMPLES, name) for name in names))
        answers(found, 0, None, b"")
        outs.append(found.out)
    config, text = map(example, ONE)
    pair_conforms(judge, config, of_one(text, outs[0]), "bench")
    config, text = map(example, TWO)
    several_conform(judge, config, text, outs[1])
