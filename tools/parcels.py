"""Command packets in pieces, with the answers of the model.

  python3 parcels.py make DIR           writes DIR/stdin and DIR/stdout
  python3 parcels.py compare FILE DIR   names the first difference from DIR/stdout

stdin, little-endian words: for each stream the length M that the engine is opened for, a seed byte, the number P of its
pieces and 0, then the pieces. A piece has two words, the number of its bytes, at most 4,096, and its kind, and then the
bytes, filled up with 0 to a multiple of four. Kind 1: the memory is passed without its last byte, if it has one; kind 2:
the reader is opened anew first; kind 3: both. The memory has M bytes, or 65,536 where M is more, so that row 1 answers
every write of such a stream; at the start it holds by the seed byte what it does in streams.py.
stdout: for each stream its head, a line `number count changed` for each answer, a line `tail HELD WORD KIND OFFSET LEFT
CLOSED` as PacketReader.tail in model.py gives them, in hexadecimal digits, eight of WORD, OFFSET and LEFT and one of the
others, and the checksums of streams.py. There is no line for a piece. Each stream stands there twice or more, one right
after the other, cut differently; but for its number each prints the same, which is looked at here too.
"""

import itertools
import random
import struct
import sys
from collections import Counter
from dataclasses import dataclass
from pathlib import Path
from typing import Callable, Iterator, Sequence

import streams
from model import (ALONG, COMMAND, FILL, HOST, LIMIT, MASKED, NOTHING, SAME, Answer, Engine, PacketReader, is_launch, packet_kind,
                   packet_offsets, row_bytes)
from streams import FORMAT, NAMES, ROOM, TILE_BIT, xy

Write = tuple[int, int]  # offset and word
Part = tuple[int, bytes]  # a kind and bytes: a piece, or what may be cut into pieces anywhere, of which the first alone opens anew
Dice = random.Random
Way = Callable[[bytes, Dice], list[bytes]]  # to cut bytes

LONGEST = 4096  # bytes of a piece
SHORT, ANEW = 1, 2  # bits of a piece's kind
FIRST, LAST = 0x08, 0x78  # offsets of a mask's bits 0 and 28
KINDS = {NOTHING: "nothing", SAME: "one address", ALONG: "consecutive", MASKED: "masked"}
EXAMPLE = (0x2C000052, 0x00020002, 0x00050008, 0x00FF8000, 0x00010001, 0xCC000005, 0x00014101, 0x00010000)  # the scope paper's
OTHERS = (0, 3, 4, 5, 6, 7, 0x00014104, 0x00040101, 0x00000101, 0x0003C104, 0x00028101, 0x00000001)  # headers that are a 9
DRAWN = (  # streams of streams.py: of all commands, stretched copies, smears, tiles, equal pixels and runs
    *range(4, 336, 7), *range(341, 400, 13), 465, 472, 481, 490, *range(542, 592, 4), 541, 652, 653, 657, 660, 669, 681, 685, 693,
    703, 709, 714, 717, 724, 727, 729, 730)
BLITS = ((1, 8, False), (1, 16, True), (8, 8, True), (16, 32, False), (24, 24, False), (24, 24, True), (32, 16, True), (1, 32, False))
SIDES = {1: (37, 9), 8: (11, 5), 16: (7, 4), 24: (5, 4), 32: (5, 3)}  # of their rectangles, by the source's bits


# --- writes as packets ---

def spelled(words: Sequence[int]) -> bytes:
    """By "The program" words are little-endian; so are those of packets."""
    return struct.pack(f"<{len(words)}I", *words)


def packet(kind: int, writes: list[Write], stray: int = 0) -> list[int]:
    """The words of one packet; stray are the three bits of type 1 that have no meaning."""
    first, data = writes[0][0], [word for _, word in writes]
    if kind == MASKED:
        return [sum(1 << (offset - FIRST) // 4 for offset, _ in writes) << 3 | 2, *data]
    return [len(writes) << 16 | (kind == ALONG) << 15 | 1 << 14 | stray << 11 | first << 1 | 1, *data]


def reach(kind: int, writes: list[Write], at: int) -> int:
    """How many of the writes, from this one on, can be one packet of a kind."""
    fits = {SAME: lambda last, here: here == last, ALONG: lambda last, here: here == last + 4,
            MASKED: lambda last, here: last < here <= LAST}[kind]
    if kind == MASKED and not FIRST <= writes[at][0] <= LAST:
        return 0
    past = at + 1
    while past < min(at + 0xFFFF, len(writes)) and fits(writes[past - 1][0], writes[past][0]):
        past += 1
    return past - at


def no_words(dice: Dice) -> int:
    """A header of no words."""
    return dice.choice((2, dice.getrandbits(1) << 15 | 1 << 14 | dice.getrandbits(11) << 3 | 1))


def pack(writes: list[Write], dice: Dice) -> bytes:
    """The writes as packets, by chance: one alone, some to one address, to consecutive ones or by a mask; and packets of no
    words between."""
    assert all(offset % 4 == 0 and offset < 0x400 for offset, _ in writes), "a header names these"
    words, at = [], 0
    while at < len(writes):
        if dice.random() < 0.05:
            words.append(no_words(dice))
        most = {kind: reach(kind, writes, at) for kind in (SAME, ALONG, MASKED)}
        kind = dice.choices([*most], [*most.values()])[0]
        count = most[kind] if dice.random() < 0.8 else dice.randint(1, most[kind])
        words += packet(kind, writes[at:at + count], dice.choice((0, dice.getrandbits(3))))
        at += count
    return spelled(words)


def sent(maker: streams.Maker) -> list[Write]:
    """What a maker sent, as far as packets can bring it; anything else was refused. A run goes up to its first refused word."""
    writes, records = [], iter(maker.records)
    for (first, second, kind), answer in zip(records, maker.answers):
        short = len(maker.mem) > 0 and (second if kind == 2 else kind) == 1  # the memory lacked its last byte
        if kind == 2:
            words = [word for _ in range(-(-first // 3)) for word in next(records)]
            number, taken, _, _ = answer
            writes += [(0x80, word) for word in words[:taken + (number != 0)] if not short]
        elif first % 4 == 0 and first < 0x400 and not short:
            writes.append((first, second))
    return writes


def gathered(writes: list[Write], dice: Dice) -> list[Write]:
    """Launch writes that follow each other, at one offset or at consecutive ones: any offset of the launch area will do."""
    found = []
    for launches, group in itertools.groupby(writes, lambda write: is_launch(write[0])):
        group = [*group]
        if launches and dice.random() < 0.8:
            along = len(group) <= 32 and dice.random() < 0.4
            first = 0x80 + 4 * dice.randrange(33 - len(group) if along else 32)
            group = [(first + 4 * k * along, word) for k, (_, word) in enumerate(group)]
        found += group
    return found


# --- bytes in pieces ---

def cut_by(data: bytes, sizes: Iterator[int]) -> list[bytes]:
    found, at = [], 0
    while at < len(data):
        size = next(sizes)
        found.append(data[at:at + size])
        at += size
    return found or [b""]


def whole(data: bytes, _: Dice) -> list[bytes]:
    return cut_by(data, itertools.repeat(LONGEST))


def each_byte(data: bytes, _: Dice) -> list[bytes]:
    return cut_by(data, itertools.repeat(1))


def each_word(data: bytes, _: Dice) -> list[bytes]:
    return cut_by(data, itertools.repeat(4))


def small(data: bytes, dice: Dice) -> list[bytes]:
    """At most seven bytes each, and now and then none."""
    return cut_by(data, (dice.choice((0, 1, 1, 2, 3, 3, 4, 5, 6, 7, 7)) for _ in itertools.count())) + [b""]


def anywhere(data: bytes, dice: Dice) -> list[bytes]:
    """A few bytes, or more, or none."""
    return cut_by(data, (dice.randint(0, dice.choice((1, 7, 90, 90, 400))) for _ in itertools.count())) + [b""]


def in_two(place: int) -> Way:
    return lambda data, dice: [data[:place], data[place:]]


def no_pieces(data: bytes, _: Dice) -> list[bytes]:
    assert not data
    return []


@dataclass
class Stream:
    """The bytes in parts; the ways to cut them, where none are given by how many they are; and the last line if it is known."""
    name: str
    size: int
    parts: list[Part]
    ways: tuple[Way, ...] = ()
    end: str = ""
    seed_byte: int | None = None

    def __post_init__(self) -> None:
        self.dice = Dice(self.name)
        self.seed_byte = self.dice.randrange(256) if self.seed_byte is None else self.seed_byte
        long = sum(len(data) for _, data in self.parts)
        self.ways = self.ways or (whole, *((each_byte, small) if long <= 48 else (small,) if long <= 280 else (anywhere,)))

    def pieces(self, way: Way) -> list[Part]:
        """A piece without bytes is given any memory."""
        found = []
        for kind, data in self.parts:
            for number, piece in enumerate(way(data, self.dice)):
                short = kind & SHORT if piece else self.dice.getrandbits(1)
                found.append((short | (kind & ANEW if number == 0 else 0), piece))
        return found


# --- the streams ---

def scene(dice: Dice) -> list[Write]:
    """A target in rows or tiles for a memory of 9,000 bytes, and a fill that waits for its places."""
    depth, tiled = dice.choice(streams.DEPTHS), dice.getrandbits(1)
    return [(0x0C, 0x0FFF0FFF), (0x10, tiled << 31 | dice.randrange(600)), (0x14, FORMAT[depth] << 16 | (2 if tiled else 128)),
            (0x64, dice.getrandbits(32)), (0x68, xy(dice.randint(2, 5), dice.randint(1, 4))), (COMMAND, 0xCC000000 | FILL)]


def places(dice: Dice, count: int) -> list[Write]:
    return gathered([(0x80, xy(dice.randrange(20), dice.randrange(20))) for _ in range(count)], dice)


def example() -> Iterator[Stream]:
    """The scope paper's, cut in two at every place."""
    ways = (*(in_two(place) for place in range(4 * len(EXAMPLE) + 1)), each_byte)
    yield Stream("example", ROOM, [(0, spelled(EXAMPLE))], ways)


def drawn() -> Iterator[Stream]:
    """Streams of streams.py as packets; registers and memory must become what they are there."""
    for k in DRAWN:
        maker, dice = streams.build(k, Counter()), Dice(f"drawn {k}")
        data = pack(gathered(sent(maker), dice), dice)
        ways = (whole, anywhere, small) if k % 20 == 4 else (whole, anywhere)
        yield Stream(f"stream {k}", maker.size, [(0, data)], ways, streams.sums_of(maker.engine, maker.mem), maker.seed_byte)


def masks() -> Iterator[Stream]:
    """All 29 bits at once, over a scene that draws by them; each bit alone; and those that name no register."""
    dice = Dice("masks")
    every = dict.fromkeys(range(FIRST, LAST + 4, 4), 0)
    for number in range(4):
        words = {offset: dice.getrandbits(32) for offset in every}
        words |= {0x08: 0, 0x38: 0, 0x5C: xy(3, 2), 0x6C: xy(5, 4), 0x54: 0x00010020, 0x34: 4000}
        words |= {**dict(scene(dice)), COMMAND: (0xCC000105, 0xCC000106, 0x5A000105, 0xCC002107)[number]}
        yield Stream(f"all bits {number}", 9000, [(0, spelled(packet(MASKED, sorted(words.items())) + packet(MASKED, [(0x64, 5)])))])
    words = [word for offset in every for word in packet(MASKED, [(offset, dice.getrandbits(29))])]
    yield Stream("each bit", 500, [(0, spelled(words))])
    tops = [[0x74], [0x78], [0x74, 0x78], [COMMAND, 0x74, 0x78], [0x6C, 0x78], [FIRST, 0x74], [FIRST, LAST]]
    words = [word for offsets in tops for word in packet(MASKED, [(offset, dice.getrandbits(7)) for offset in offsets])]
    yield Stream("bits past command", 500, [(0, spelled(words))])
    yield Stream("all bits, no word", 500, [(0, spelled([0xFFFFFFFA]))])


def addresses() -> Iterator[Stream]:
    """Consecutive addresses over all registers and on past 1FC, to the last number and past it; and that number alone."""
    for number, (first, count, kind) in enumerate(((0x70, 40, ALONG), (0xFF, 5, ALONG), (0xFF, 5, SAME), (0x7F, 3, ALONG), (0x7F, 3, SAME),
                                                   (0x80, 2, ALONG), (0, 140, ALONG), (0xFC, 9, ALONG), (0, 2, SAME), (0x1D, 5, ALONG))):
        dice = Dice(f"addresses {number}")
        offsets = [4 * (first + k * (kind == ALONG)) for k in range(count)]
        words = {offset: xy(dice.randrange(20), dice.randrange(20)) for offset in offsets}
        words |= {offset: word for offset, word in [*scene(dice), (0x08, 0), (0x38, 0)] if offset in words}
        run = packet(kind, [(offset, words[offset]) for offset in offsets], dice.getrandbits(3))
        yield Stream(f"addresses {number}", 9000, [(0, pack(scene(dice), dice) + spelled(run) + pack(places(dice, 2), dice))])


def counts() -> Iterator[Stream]:
    """Some thousand words: an image to one address, patterns, and offsets that name nothing; and as many as a header can name,
    of which a few come."""
    dice = Dice("counts")
    image = [(0x0C, 0x0FFF0FFF), (0x14, FORMAT[16] << 16 | 128), (0x54, 1 << 22 | FORMAT[32] << 16), (0x68, xy(60, 40)), (0x6C, xy(1, 2)),
             (COMMAND, 0xCC000100 | HOST)]
    data = packet(MASKED, image) + packet(SAME, [(0x80, dice.getrandbits(32)) for _ in range(2401)], 5)
    yield Stream("2401 words to one address", 9000, [(0, spelled(data))])
    data = packet(ALONG, [(4 * (0x7A + k), dice.getrandbits(32)) for k in range(2100)], 2) + packet(SAME, [(0x100, 7)] * 1100)
    yield Stream("2100 words past the registers", 100, [(0, spelled(data))])
    for kind, number in itertools.product((SAME, ALONG), (0x40, 0xFF)):
        words = [0xFFFF0001 | (kind == ALONG) << 15 | 1 << 14 | number << 3, *(dice.getrandbits(32) for _ in range(6))]
        yield Stream(f"65535 words, {KINDS[kind]}, {number}", 64, [(0, spelled(words) + b"\1" * (number % 4))])


def nines() -> Iterator[Stream]:
    """Each other packet after good ones. What follows it, in its part and in the next, would paint; then the reader is opened
    anew, and good ones go on with the registers as they were; then another one, and an empty piece opens it anew."""
    others = [*OTHERS, *(number | Dice(number).getrandbits(29) << 3 for number in (0, 3, 4, 5, 6, 7)), 0xFFFFBFF9, 0x0005B121]
    for number, header in enumerate(others):
        dice = Dice(f"nines {number}")
        fills = [pack(places(dice, 2), dice) for _ in range(6)]
        once = spelled([header]) + fills[0] + spelled([dice.choice(others)]) + bytes(number % 4)
        again = spelled([dice.choice(others)]) + fills[1]
        yield Stream(f"nines {number}", 9000, [
            (0, pack(scene(dice) + places(dice, 2), dice) + once), (0, fills[2]), (ANEW, fills[3] + again), (ANEW, b""), (0, fills[4]),
            (ANEW, fills[5])])
    yield Stream("a 9 at once", 9000, [(0, spelled([3]))])
    yield Stream("nothing but nines", 64, [(ANEW, spelled([number, 0x14101, 0])[:4 + number]) for number in (7, 6, 5, 4, 3, 0)])


def reopened() -> Iterator[Stream]:
    """The reader is opened anew inside a packet of each kind, between its words, inside one, and right after its header."""
    packets = {SAME: [(0x80, xy(k, 1)) for k in range(4)], ALONG: [(0x60 + 4 * k, k + 1) for k in range(4)],
               MASKED: [(offset, offset) for offset in (0x10, 0x18, 0x40, 0x64)]}
    for kind, place in itertools.product(packets, (1, 2, 3, 4, 5, 8, 14, 19)):
        dice = Dice(f"reopened {kind} {place}")
        begun = spelled(packet(kind, packets[kind]))[:place]
        yield Stream(f"reopened {kind} {place}", 9000, [
            (0, pack(scene(dice), dice) + begun), (ANEW, pack(places(dice, 3), dice) + begun), (ANEW, b""), (0, pack(places(dice, 1), dice))])


def lent() -> Iterator[Stream]:
    """Now all of the memory, now a byte less: a word counts with its last byte. At times the reader is opened anew as well."""
    for number in range(10):
        dice = Dice(f"lent {number}")
        data = pack([write for _ in range(3) for write in [*scene(dice), *places(dice, 4)]], dice)
        parts, at = [], 0
        while at < len(data):
            long = 4 * dice.randint(1, 9) if number % 2 else dice.randint(1, 30)
            parts.append((len(parts) % 2 | (ANEW if number > 6 and dice.random() < 0.2 else 0), data[at:at + long]))
            at += long
        yield Stream(f"lent {number}", 9000, parts)


def lengths() -> Iterator[Stream]:
    """Memories of no bytes, of a few, and of too many; a 9 is a 9 on any."""
    for size in (0, 1, 3, ROOM + 1, LIMIT, LIMIT + 1, 0xFFFFFFFF):
        dice = Dice(f"lengths {size}")
        dot = [(0x0C, 0x0FFF0FFF), (0x14, FORMAT[8] << 16 | 1), (0x64, 0x5B), (0x68, xy(1, 1)), (COMMAND, 0xCC000005)]
        some = pack(dot + [(0x80, 0), (0x80, xy(0, 1)), (0x74, 0)], dice)
        yield Stream(f"lengths {size}", size, [(0, some), (SHORT, some), (0, pack([(0x80, 0)], dice) + spelled([4])), (SHORT | ANEW, some)])
        maker = streams.RunMaker(size % 97, size, Counter())
        maker.lengths(0)
        yield Stream(f"runs on {size}", size, [(0, pack(gathered(sent(maker), dice), dice))], (),
                     streams.sums_of(maker.engine, maker.mem), maker.seed_byte)


def blits() -> Iterator[Stream]:
    """Host blits opened in one packet and fed by others. Between, writes that wait for none: registers, and a command that is
    refused, in packets that go on with data. Then they are finished and begun again, or not, and given up."""
    for (number, (source, target, tiled)), finished in itertools.product(enumerate(BLITS), (True, False)):
        dice, (width, height) = Dice(f"blits {number} {finished}"), SIDES[source]
        data = [dice.getrandbits(32) for _ in range(-(-height * row_bytes(width, source) // 4))]
        place = xy(1024 // target - 2, 30) if tiled else xy(2, 1)
        words = packet(MASKED, [(0x0C, 0x0FFF0FFF), (0x10, (TILE_BIT if tiled else 0) | 64), (0x14, FORMAT[target] << 16 | (3 if tiled else 256)),
                                (0x34, 0), (0x38, 0), (0x54, 1 << 22 | FORMAT[source] << 16), (0x5C, 0), (0x60, dice.getrandbits(32)),
                                (0x64, dice.getrandbits(32)), (0x68, xy(width, height)), (0x6C, place), (COMMAND, 0xCC000100 | HOST)])
        words += [no_words(dice), *packet(SAME, [(0xA8, word) for word in data[:2]])]
        words += packet(MASKED, [(0x08, 1), (0x40, 2), (0x6C, 3)])  # each a 3
        words += packet(ALONG, [*((0x60 + 4 * k, k) for k in range(4)), (COMMAND, 0xCC000104), (0x74, 0), (0x78, 0), (0x7C, 0),
                                (0x80, data[2])])  # 3, 3, 3, 3, 4, 2, 2, 2, and data
        words += packet(ALONG, [(0xF8, data[3]), (0xFC, data[4]), (0x100, 1), (0x104, 2)])  # data, and a 3 each
        words += packet(SAME, [(0xFC, word) for word in (data[5:] + [9] if finished else data[5:-1])])
        words += packet(MASKED, [(0x64, 4), (COMMAND, 0xCC000000 | FILL), (0x74, 5), (0x78, 6)])  # 3, 0, 2, 2
        words += packet(MASKED, [(0x64, dice.getrandbits(32)), (0x68, xy(3, 2))]) + packet(SAME, [(0x80, place), (0x80, 0)])
        yield Stream(f"blits {number} {finished}", 26_000, [(0, spelled(words))], (whole, each_word, small))


def ends() -> Iterator[Stream]:
    """A stream of all kinds of packets that ends at any byte."""
    words = [*EXAMPLE[:6], *packet(SAME, [(0x80, 0), (0x80, 1), (0x80, xy(1, 1))]), *packet(ALONG, [(0x64, 7), (0x68, xy(2, 1)), (0x6C, 0)]), 2,
             *packet(MASKED, [(0x08, 0), (0x10, 9), (LAST, 0)]), 0x00004101, *packet(SAME, [(0x80, 0)])]
    for place in range(4 * len(words) + 1):
        yield Stream(f"ends {place}", 300, [(0, spelled(words)[:place])], (whole, small) if place else (no_pieces, whole, small))


def wild() -> Iterator[Stream]:
    """Any offsets, any words, any bits that have no meaning."""
    numbers = (0, 1, 2, 3, 4, 0x18, 0x1A, 0x1B, 0x1C, 0x1D, 0x1F, 0x20, 0x2F, 0x3F, 0x40, 0x7E, 0x7F, 0x80, 0xFE, 0xFF)
    for number in range(24):
        dice = Dice(f"wild {number}")
        data = pack(scene(dice), dice) if number % 2 else b""
        for _ in range(16):
            header = dice.choice((1, 2)) | dice.getrandbits(29) << 3 & dice.getrandbits(29) << 3
            if header & 7 == 1:
                first = dice.choice((*numbers, dice.randrange(256)))
                header = dice.choice((0, 1, 2, 5, 9)) << 16 | dice.getrandbits(1) << 15 | 1 << 14 | dice.getrandbits(3) << 11 | first << 3 | 1
            masks = [dice.choice((0xFFFFFFFF, 0x0007000F, 0x0003001F, 0x00000105)) for _ in packet_offsets(header)]
            data += spelled([header, *(dice.getrandbits(32) & mask for mask in masks)])
        yield Stream(f"wild {number}", dice.choice((300, 5000)), [(0, data[:len(data) - number % 5])])


def noise() -> Iterator[Stream]:
    """Any bytes, with the reader opened anew between."""
    for number in range(12):
        dice = Dice(f"noise {number}")
        parts = [(dice.randrange(4) if k % 3 else ANEW, dice.randbytes(dice.randrange(40))) for k in range(12)]
        yield Stream(f"noise {number}", 700, parts)


GROUPS = (example, drawn, masks, addresses, counts, nines, reopened, lent, lengths, blits, ends, wild, noise)


# --- what they must print ---

class CountedEngine(Engine):
    """An engine that counts its answers, and what painted."""

    def __init__(self, length: int, tally: Counter) -> None:
        super().__init__(length)
        self.tally = tally

    def write(self, mem: bytearray, offset: int, word: int) -> Answer:
        answer = super().write(mem, offset, word)
        self.tally["answers", answer[0]] += 1
        if answer[1]:
            target, name = self.target(), NAMES[self.number()]
            if self.number() == HOST:
                name += " mono" if self.source().depth == 1 else " colour"
            self.tally["painted", f"{name} at {target.depth} on {'tiles' if target.tiled else 'rows'}"] += 1
        return answer


class CountedReader(PacketReader):
    """A reader that counts packets."""

    def __init__(self, tally: Counter) -> None:
        super().__init__()
        self.tally = tally

    def begin(self, header: int) -> list[Answer]:
        answers, count, kind = super().begin(header), len(self.offsets), KINDS[packet_kind(header)]
        if answers:
            self.tally["answers", 9] += 1
            self.tally["nines", f"type {header & 7}" + ", no words" * (header & 7 == 1 and header >> 16 == 0)] += 1
            return answers
        how = "no words" if not count else "one word" if count == 1 else "more than 1000" if count > 1000 else "more words"
        self.tally["packets", f"{kind}, {how}"] += 1
        self.tally["packets", "bits without meaning"] += header & 7 == 1 and header & 0x3800 > 0
        self.tally["packets", "past 1FC"] += any(offset > 0x1FC for offset in self.offsets)
        return answers


def play(stream: Stream, pieces: list[Part], tally: Counter) -> list[str]:
    """The lines of a stream but for its head."""
    mem = streams.filled(min(stream.size, ROOM), stream.seed_byte)
    engine, reader, lines = CountedEngine(stream.size, tally), CountedReader(tally), []
    for kind, data in pieces:
        held, _, rest, _, _, closed = reader.tail()
        where = "after a 9" if closed else f"{KINDS[rest]} left, {held} bytes held"
        tally["pieces begin", where] += kind & ANEW == 0
        tally["opened anew", where] += kind & ANEW > 0
        tally["pieces", f"kind {kind}" + ", no bytes" * (not data)] += 1
        reader = CountedReader(tally) if kind & ANEW else reader
        lines += [streams.line_of(answer) for answer in reader.take(engine, mem[:-1] if kind & SHORT else mem, data)]
    held, word, kind, offset, left, closed = reader.tail()
    tally["ends", "closed" if closed else f"{KINDS[kind]} left, {held} bytes held"] += 1
    tail = f"tail {held:x} {word:08x} {kind:x} {offset:08x} {left:08x} {closed:x}"
    return [*lines, tail, streams.sums_of(engine, mem)]


def binary_of(stream: Stream, pieces: list[Part]) -> bytes:
    parts = [spelled((stream.size, stream.seed_byte, len(pieces), 0))]
    for kind, data in pieces:
        assert len(data) <= LONGEST
        parts += [spelled((len(data), kind)), data, bytes(-len(data) % 4)]
    return b"".join(parts)


def build(tally: Counter) -> tuple[bytes, list[str]]:
    """The input and the lines of the output."""
    binary, text, number = [], [], 0
    for name, stream in ((group.__name__, stream) for group in GROUPS for stream in group()):
        lines: list[str] = []
        for way in stream.ways:
            pieces = stream.pieces(way)
            found = play(stream, pieces, tally)
            assert found == (lines or found), f"{stream.name}: however it is cut, it is the same"
            assert stream.end in ("", found[-1]), f"{stream.name}: it is the stream of streams.py"
            lines = found
            binary.append(binary_of(stream, pieces))
            text += [f"stream {number}: {stream.size} bytes", *lines]
            number += 1
            tally["streams", name] += 1
    return b"".join(binary), text


def make(folder: Path) -> None:
    tally: Counter = Counter()
    binary, text = build(tally)
    folder.mkdir(parents=True, exist_ok=True)
    (folder / "stdin").write_bytes(binary)
    written = (folder / "stdout").write_text("\n".join(text) + "\n")
    total = {group: sum(n for (g, _), n in tally.items() if g == group) for group in ("streams", "pieces", "answers")}
    print(f"{total['streams']} streams in {total['pieces']} pieces, {total['answers']} answers, stdin {len(binary)} bytes, stdout {written} bytes")
    streams.show(tally)


def compare(file: Path, folder: Path) -> bool:
    """Says the first difference; true if there is none."""
    expected, names, stream, answer = (folder / "stdout").read_text().splitlines(), [], -1, 0
    for line in expected:
        first, rest = line.split(" ", 1)
        if first == "stream":
            stream, answer = int(rest.split(":")[0]), 0
        what = {"stream": "its head", "tail": "its tail", "registers": "the checksums at its end"}.get(first, f"answer {answer}")
        answer += first.isdigit()
        names.append(f"stream {stream}, {what}")
    return streams.agree(file.read_text().splitlines(), expected, names)


if __name__ == "__main__":
    streams.obey(sys.argv[1:], make, compare, __doc__)
