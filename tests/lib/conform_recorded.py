"""What `conform` must answer of recordings, of one in which frames came in and left, or of two.
Computed apart from the program."""
from __future__ import annotations

from typing import NamedTuple, NoReturn

from cascade_run import SIDES, Places
from cascade_run import Arrival as Line
from conform import BAD_NUMBER, NO_FRAME, Judging, Taken, conform, judged_tables
from conform_terms import EXERCISED, Options, options_of
from places import LEFT_OUT, interfaces, said
from program import Answer
from recorded import is_packed, is_recording
from recorded_arrivals import BROKEN, SKIPS, Arrival, Look, Systems
from recorded_arrivals import Options as Recorded
from recorded_list import COUNTS, LATEST_TIME, MOST_LOST, Ends, Source, line_of

FLAGS = (EXERCISED, "--lossy", "--summary", "--line-buffered")
OF_RECORDINGS = ("--interface", "--left", "--fcs", "--stamps", "--reorder", "--lossy")
NAMES = ("came", "left")  # of two recordings
MOST_REORDER = 100_000


class Words(NamedTuple):
    """The words of options: those with a value, and those without."""

    pairs: list[tuple[str, str]]
    flags: frozenset[str]

    def of(self, name: str) -> list[str]:
        """The values of an option."""
        return [value for each, value in self.pairs if each == name]

    def last(self, name: str) -> str | None:
        """The value of an option that is given at most once."""
        values = self.of(name)
        return values[-1] if values else None

    def says_recorded(self) -> bool:
        """One of them says that each input is a recording."""
        return not self.flags.union(name for name, _ in self.pairs).isdisjoint(OF_RECORDINGS)

    def of_lists(self) -> tuple[str, ...]:
        """Those that lists have too."""
        own = [pair for pair in self.pairs if pair[0] not in OF_RECORDINGS]
        words = tuple(word for pair in own for word in pair)
        return (*words, EXERCISED) if EXERCISED in self.flags else words

    def options(self) -> Options | None:
        """What is judged, and how; None where a number is out of its range."""
        is_far = int(self.last("--reorder") or 0) > MOST_REORDER
        return None if is_far else options_of(self.of_lists())


def words_of(words: tuple[str, ...]) -> Words:
    """Such words, apart."""
    flags = frozenset(word for word in words if word in FLAGS)
    others = [word for word in words if word not in FLAGS]
    return Words(list(zip(others[::2], others[1::2], strict=True)), flags)


def is_bad(words: Words, is_one: bool) -> bool:
    """Whether the words of interfaces are `words BadInterface`, of one recording or of two."""
    came, left = interfaces(words.of("--interface")), interfaces(words.of("--left"))
    if not came or not left:
        return True
    needs_port = words.last("--switch") is not None
    for number, place in (*came, *left):
        word = said(place)
        is_port = word.port is not None or not (needs_port or (number, place) in left)
        if place == LEFT_OUT or word.switch or not is_port:
            return True
    groups = [came + left] if is_one else [came, left]
    return any(len({number for number, _ in group}) < len(group) for group in groups)


def systems_of(tables: dict) -> Systems:
    """The systems of a switch and their ports; a neighbour's port has a rate too."""
    ports = {system["id"]: ("", system["port"]) for system in tables["system"]}
    ends = [*tables["system"], *tables["neighbour"]]
    return Systems(ports, {("", end["port"]): end["rate"] for end in ends})


def options_by_input(
    words: Words, is_one: bool, kind: type[Recorded] = Recorded
) -> list[Recorded]:
    """The options of each recording."""
    halves = [dict(interfaces(words.of(name)) or []) for name in ("--interface", "--left")]
    fcs, reorder = words.last("--fcs"), words.last("--reorder")
    others = kind(
        fcs=None if fcs is None else fcs == "yes",
        reorder=None if reorder is None else int(reorder),
        stamps=words.last("--stamps"),
        at_once="--line-buffered" in words.flags,
        unnamed=LEFT_OUT,
    )
    if is_one:
        return [others._replace(places=halves[0] | halves[1], lefts=frozenset(halves[1]))]
    return [others._replace(places=halves[0]),
            others._replace(places=halves[1], lefts=frozenset(halves[1]))]


# ---- reading -------------------------------------------------------------------------------------


class Input(Source):
    """A recording that is read; two have names."""

    def __init__(
        self, options: Recorded, systems: Systems, data: bytes, name: str, is_open: bool
    ) -> None:
        super().__init__(options, systems, data, is_open)
        self.name = name
        self.counts = dict.fromkeys([*SKIPS, *COUNTS], 0)
        self.counts |= {"recorder-lost": self.lost, "unused": self.unused}

    def end(self, fault: str) -> NoReturn:
        """Ends the run with a fault of this recording."""
        behind = f" {self.name}" if self.name else ""
        raise Ends(fault if fault == BROKEN else f"recording {fault}{behind}")

    def seek(self) -> Arrival | None:
        """The next frame, None at the end."""
        look: Look = next(self.looks)
        for _, word in look.skipped:
            self.counts[word] += 1
        if look.fault:
            self.end(look.fault)
        return look.arrival

    def line(self, arrival: Arrival, time: int) -> Line:
        """A frame that is taken, as a line of a list with its number."""
        self.counts["claimed"] += arrival.place.is_claimed
        self.counts["contradicted"] += arrival.place.is_contradicted
        fields = line_of(self.options, arrival, time)[:-1].split(b" ")
        return Places([], False).arrival(arrival.number, fields)

    def summary(self) -> str:
        """The line of what was skipped, and of what else counts."""
        counts = " ".join(f"{word} {count}" for word, count in self.counts.items())
        return f"skipped {counts}\n"


class Reading:
    """What is taken of all inputs: always the frame of least moment, of equal moments the first
    one's."""

    def __init__(self, inputs: list[Input]) -> None:
        self.inputs, self.fault, self.latest = inputs, "", 0
        self.came: list[Line] = []
        self.left: list[Line] = []
        try:
            self.take_all()
        except Ends as ends:
            self.fault = f"{ends}\n"

    def take_all(self) -> None:
        """Takes the frames, up to a fault or to all ends."""
        heads = [each.seek() for each in self.inputs]
        origin = None
        while any(heads):
            moment, first, head = min((head.moment, at, head)
                                      for at, head in enumerate(heads) if head)
            origin = moment if origin is None else origin
            source, time = self.inputs[first], moment - origin
            if time > LATEST_TIME:
                source.end(f"TimeTooLarge {head.number}")
            has_left = source.options.has_left(head.frame)
            (self.left if has_left else self.came).append(source.line(head, time))
            self.latest = time
            heads[first] = source.seek()

    def taken(self) -> Taken:
        """As it is of two lists."""
        return Taken(self.came, self.left, self.latest, self.fault.encode())

    def absent(self) -> str:
        """The fault of the least interface that options name and a recording hasn't."""
        for each in self.inputs:
            if each.absent is not None:
                return f"recording Absent {each.absent}{each.name and f' {each.name}'}\n"
        return ""

    def lost(self) -> int:
        """How many frames the recorders lost."""
        return min(sum(each.lost for each in self.inputs), MOST_LOST)


# ---- judging -------------------------------------------------------------------------------------


class JudgingSeen(Judging):
    """Judges the streams that were recorded, where they came and where they left."""

    def __init__(self, tables: dict, options: Options, taken: Taken, words: Words) -> None:
        self.inputs = self.places(words.of("--interface"))
        self.outputs = self.places(words.of("--left"))
        super().__init__(tables, options, taken)

    @staticmethod
    def places(words: list[str]) -> set[tuple[int, int | None]]:
        """The sides and ports of such words; of one without a port all of its side are meant."""
        every = [said(place) for _, place in interfaces(words) or []]
        return {(SIDES.index(place.side), place.port) for place in every}

    def sees_sender(self, side: int, place: int) -> bool:
        """What a link's sender sends to this side was recorded."""
        port = self.switch.port_of[list(self.switch.links.values())[place]["from"]]
        return not {(side, port), (side, None)}.isdisjoint(self.inputs)

    def passes_over(self, each: Line, is_left: bool) -> bool:
        """Also what left of a sender that wasn't recorded."""
        place = self.place_of.get(each.frame.link())
        is_unseen = is_left and place is not None and not self.sees_sender(each.side, place)
        return self.is_of_link(each) and is_unseen or super().passes_over(each, is_left)

    def is_of_link(self, each: Line) -> bool:
        """It is undamaged, and its link goes where it left."""
        place = self.place_of.get(each.frame.link())
        goes = place is not None and each.port in self.ports_of(place)
        return goes and self.switch.shape(each.port, each.frame) not in NO_FRAME

    def is_judged(self, side: int, port: int, place: int) -> bool:
        return self.sees_sender(side, place) and (side, port) in self.outputs


class Reads(NamedTuple):
    """How recordings are read and judged; a wrong body has another part."""

    options: type[Recorded] = Recorded
    source: type[Input] = Input
    judging: type[JudgingSeen] = JudgingSeen


RIGHTLY = Reads()


def refused_lists(data: tuple[bytes, ...]) -> Answer | None:
    """What is answered where one of two lists begins as a recording or a packed file."""
    for text, name in zip(data, NAMES):
        if is_packed(text):
            return Answer(3, b"", b"recording Packed %s\n" % name.encode())
        if is_recording(text):
            return Answer(2, b"", b"words BadInterface\n")
    return None


def conform_recordings(
    config: bytes,
    data: tuple[bytes, ...],
    options: tuple[str, ...] = (),
    opens: str = "",
    reads: Reads = RIGHTLY,
) -> Answer:
    """What `conform` answers of a configuration, one recording or two, and these options; two of
    which no option says that they are recordings are lists. Of the inputs whose names `opens` has,
    or of the one, the bytes are not all."""
    words, is_one = words_of(options), len(data) == 1
    if not is_one and not words.says_recorded():
        if options_of(words.of_lists()) is None:
            return BAD_NUMBER
        return refused_lists(data) or conform(config, data[0], data[1], words.of_lists())
    if is_bad(words, is_one):
        return Answer(2, b"", b"words BadInterface\n")
    judged = words.options()
    if judged is None:
        return BAD_NUMBER
    tables = judged_tables(config, judged.switch)
    if isinstance(tables, Answer):
        return tables
    names = ("",) if is_one else NAMES
    inputs = [
        reads.source(own, systems_of(tables), text, name, (name or NAMES[0]) in opens)
        for own, text, name in zip(options_by_input(words, is_one, reads.options), data, names)
    ]
    reading = Reading(inputs)
    judging = reads.judging(tables, judged, reading.taken(), words)
    return answer_of(words, judging, reading)


def answer_of(words: Words, judging: JudgingSeen, reading: Reading) -> Answer:
    """What is answered of what was read."""
    taken = reading.taken()
    if taken.fault:
        status = 4 if taken.fault == f"{BROKEN}\n".encode() else 3
        return Answer(status, judging.text(taken.latest), taken.fault)
    if reading.absent():
        return Answer(3, judging.text(), reading.absent().encode())
    if reading.lost() and "--lossy" not in words.flags:
        return Answer(3, judging.text(), f"recording Lossy {reading.lost()}\n".encode())
    answer = judging.answer()
    if "--summary" in words.flags:
        lines = "".join(each.summary() for each in reading.inputs)
        answer = answer._replace(out=answer.out + lines.encode())
    return answer
