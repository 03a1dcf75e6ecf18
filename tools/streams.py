"""Streams of register writes with the answers of the model.

  python3 streams.py make DIR           writes DIR/streams.bin and DIR/expected.txt
  python3 streams.py compare FILE DIR   names the first difference from DIR/expected.txt

streams.bin, little-endian words: for each stream the length M that the engine is opened for, the
number N of writes and runs together and a seed byte, then N records of three words. The memory has
M bytes, or 65,536 where M is more, so that row 1 answers every write of such a stream
(test_model.py has the real limit); byte i is (7 i i + 13 i + seed byte) mod 256 at the start. The
third word of a record is its kind. Kinds 0 and 1, a write: offset and word; with kind 1 the memory
is passed without its last byte, if it has one. Kind 2, a run of words for the launch area: how many
they are, at most 1,023, and 1 where the memory is passed as with kind 1, else 0; the words follow,
filled up with 0 to a multiple of three, and N does not count them.
expected.txt: for each stream its head, a line `number count changed` for each write and a line
`run number taken count changed` for each run, and checksums (FNV-1a) of registers 08 to 70, pattern,
one byte for a waiting host blit and four words that are kept beside the registers, and of memory.
The four are Engine.rooms in model.py: pixels per row and whole rows of the source, then of the target.
"""

import copy
import itertools
import random
import struct
import sys
import textwrap
from collections import Counter
from pathlib import Path
from typing import Callable

from model import (BUILT, COMMAND, COPY, FILL, FROM_MEMORY, HOST, KEPT, LIMIT, LINE, NOP, OFFSETS, POLYLINE, REGISTERS,
                   SOURCE_BITS, STRETCH, TARGET_BITS, Answer, Engine, Pixel, Ran, Rooms, Surface, allowed, bits, halves,
                   is_launch, pattern_index, room, row_bytes)

MIXED, STRETCHED, SMEARED, TILED = 336, 64, 96, 96  # streams of all commands, then of stretched copies, of smears, of tiles
SMEARS = MIXED + STRETCHED  # the first of smears
TILES = SMEARS + SMEARED  # and of tiles
EQUALS, EQUALLED = TILES + TILED, 84  # and of pixels that get what they have, with their number
RUNS, RAN = EQUALS + EQUALLED, 56  # and of runs of words, with their number
LINES, LINED = RUNS + RAN, 36  # and of lines in all directions, with their number
ROOMS, ROOMED = LINES + LINED, 48  # and of surfaces that the memory ends in, with their number
STREAMS, LENGTH = ROOMS + ROOMED, 72  # streams, and the least number of records of an ordinary one
SWEEPS = 4  # so many streams of each of the first two begin with one
BY_DISTANCE = 64  # so many of smears are one: a format, a corner and a kind of copy at every distance
PLANS = {"each": 4, "whole": 8, "corners": 16, "ends": 4, "beyond": 4, "one_place": 4, "refused": 2, "pairs": 2}
PLANNED = [(name, which) for name, count in PLANS.items() for which in range(count)]  # the first of tiles, each by a plan
EQUAL_PLANS = {"twice": 16, "overlaps": 16, "equal": 8, "one_byte": 8, "keyed": 8, "wide": 4}
EQUAL_PLANNED = [(name, which) for name, count in EQUAL_PLANS.items() for which in range(count)]  # the first of equal pixels
RUN_PLANS = {"cuts": 8, "whole_rows": 8, "glyphs": 8, "positions": 8, "mixed": 8, "no_words": 4, "lengths": 4}
RUN_PLANNED = [(name, which) for name, count in RUN_PLANS.items() for which in range(count)]  # the first of runs
LONGEST = 1023  # words of a run
TINY = (0, 1, 3, 64)  # lengths of memory
ROOM = 65_536  # the longest memory there is
BIG = {MIXED - 5: ROOM, MIXED - 3: LIMIT, MIXED - 2: LIMIT + 1, MIXED - 1: ROOM, SMEARS - 2: ROOM, SMEARS - 1: ROOM}
ROOM_PLANS = {  # with the length of memory of each of their streams
    "targets": (4095, ROOM, 8191, 20_479, 8191, 12_289, ROOM, 30_000,
                ROOM, 4096, 12_287, 40_000, 16_384, 8191, 50_000, 20_480),
    "sources": (4096, ROOM, 12_288, 24_575, ROOM, 8191, 12_287, 30_000, 4097, ROOM), "packings": (4095, 8192, ROOM, 16_385),
    "formats": (8191, ROOM, 9000, ROOM, 12_288, 24_577), "between": (9000, 20_479, ROOM, 12_288),
    "lengths": (16, 17, 4095, 4096, 8191, ROOM, LIMIT, LIMIT + 1)}
ROOM_PLANNED = [(name, which, size) for name, sizes in ROOM_PLANS.items() for which, size in enumerate(sizes)]
EVERYTHING = ("fill", "copy", "stretch", "host", "line", "wild")
THEMES = (("fill",), ("copy", "copy", "touch"), ("host",), ("line",), ("copy", "host"), EVERYTHING)
STRETCHES = ("stretch", "stretch", "stretch", "far", "meet")  # the theme of streams of stretched copies
ON_TILES = ("fill", "copy", "copy", "stretch", "host", "host", "line", "touch", "block")  # and of tiles, or only blocks
CUT = (1, 129, 300, 4000)  # lengths of memory in which no tile is whole
KINDS = ((0xCC, 0), (0x66, 0), (0xCC, 1), (0x5A, 3))  # raster operation and keys of a copy
REACH = 40  # how far lines of all directions go to each side
LINE_STYLES = (  # raster operation, other bits and keys of such lines; 5A is pattern xor target
    (0xCC, 0, 0), (0x5A, 0, 0), (0x5A, 43 << 17, 0), (0x66, 0, 0), (0xF0, 0, 0), (0xE2, 5 << 17, 0), (0xCC, 0, 2), (0x5A, 0, 2),
    (0x5A, 1 << 13, 0))
TILE_BIT = 1 << 31  # of a base
LAST_BASE = 0xFFFFFF
SURFACES = ("dstBaseAddr", "dstFormat", "srcBaseAddr", "srcFormat")  # the registers that say what is kept beside them
STRIDES = ((7, 1), (1, 2), (3, 1), (0x3FFF, 3), (40, 1), (0, 0), (2, 0x3FFF))  # in rows and in tiles, as streams leave them
STIPPLED, MONO_PATTERN, TRANSPARENT = 1 << 12, 1 << 13, 1 << 16  # of a command
OWN, MONO, OTHER = range(3)  # formats of a source: the target's, mono, or another where there is one
STROKES = (  # command, raster operation, other bits, keys and source; to do one again changes nothing
    (FILL, 0xCC, 0, 0, OWN), (FILL, 0xF0, 11 << 17, 0, OWN), (FILL, 0x3C, 5 << 17, 0, OWN), (FILL, 0xAA, 0, 2, OWN),
    (FILL, 0xF0, MONO_PATTERN, 0, OWN), (FILL, 0xF0, MONO_PATTERN | TRANSPARENT, 0, OWN), (COPY, 0xCC, 0, 0, OWN),
    (COPY, 0xC0, 0, 0, OWN),
    (COPY, 0xCC, 0, 1, OWN), (COPY, 0xCC, 0, 2, OWN), (COPY, 0xCC, 0, 0, MONO), (COPY, 0xCC, TRANSPARENT, 0, MONO),
    (COPY, 0xCC, 0, 3, OTHER), (STRETCH, 0xCC, 0, 0, OWN), (STRETCH, 0x33, 0, 1, OTHER), (STRETCH, 0xCC, 0, 2, MONO),
    (HOST, 0xCC, 0, 0, MONO), (HOST, 0xCC, 0, 1, OWN), (LINE, 0xCC, 0, 0, OWN), (LINE, 0xF0, STIPPLED, 2, OWN),
    (POLYLINE, 0xCC, STIPPLED | TRANSPARENT, 0, OWN))
OTHER_CLIP = 1 << 23  # of a command
HOST_STYLES = ((0xCC, 0, 0), (0x66, 0, 0), (0xCC, TRANSPARENT, 0), (0xCC, 0, 1), (0xCC, 0, 2), (0xE2, MONO_PATTERN, 0),
               (0xCC, 0, 3), (0xB8, 5 << 17, 0), (0xCC, OTHER_CLIP, 0))  # raster operation, other bits and keys of host blits
PLAIN, XOR, GLASS, KEYED = HOST_STYLES[:4]
LEFT, RIGHT, TOP, BOTTOM = 1, 2, 4, 8  # sides that a clip takes something off
WIDE_ROWS = (  # source, packing, clipped sides and style of wide host blits
    (OWN, 0, 0, PLAIN), (OWN, 1, LEFT, PLAIN), (OWN, 2, RIGHT, PLAIN), (OWN, 3, LEFT | RIGHT, PLAIN), (OWN, 1, TOP, XOR),
    (OWN, 3, LEFT | BOTTOM, KEYED), (MONO, 0, LEFT | RIGHT, PLAIN), (MONO, 1, LEFT, PLAIN), (MONO, 2, RIGHT, GLASS),
    (MONO, 3, 0, PLAIN), (MONO, 1, TOP, XOR), (MONO, 3, LEFT | RIGHT, GLASS), (OTHER, 0, LEFT | RIGHT, PLAIN), (OTHER, 3, 0, PLAIN))
OPERATIONS = (0xCC, 0xF0, 0x00, 0xFF, 0x55, 0xAA, 0x66, 0x5A, 0x88, 0xEE, 0xA0, 0xFA, 0x33, 0x0F, 0x3C, 0xE2)
NAMES = {NOP: "nop", COPY: "copy", STRETCH: "stretch", HOST: "host", FILL: "fill", LINE: "line", POLYLINE: "polyline"}
NOT_BUILT = [number for number in range(16) if number not in BUILT]
FORMAT = {depth: number for number, depth in SOURCE_BITS.items()}
DEPTHS = (8, 16, 24, 32)  # those of targets


def filled(size: int, seed_byte: int) -> bytearray:
    period = bytes((i * i * 7 + i * 13 + seed_byte) % 256 for i in range(256))
    return bytearray((period * (size // 256 + 1))[:size])


def checksum(data: bytes) -> str:
    h = 2166136261
    for byte in data:
        h = (h ^ byte) * 16777619 & 0xFFFFFFFF
    return f"{h:08x}"


def register_bytes(engine: Engine) -> bytes:
    words = b"".join(engine.read(offset)[1].to_bytes(4, "little") for offset in range(0x08, 0x74, 4))
    rooms = b"".join(number.to_bytes(4, "little") for number in engine.rooms())
    return words + bytes(engine.pattern) + bytes([engine.waiting is not None]) + rooms


def xy(x: int, y: int) -> int:
    return (y & 0x1FFF) << 16 | x & 0x1FFF


def packed(width: int, depth: int, packing: int) -> int:
    """The step of a packed source of this width."""
    unit = {1: 1, 2: 2, 3: 4}[packing]
    return -(-row_bytes(width, depth) // unit) * unit


class Maker:
    """One stream. Each write is played on the model at once, so that the next may fit it."""

    reach = 8192  # surfaces lie in so many bytes at the end of memory; in the longest one they lie anywhere

    def __init__(self, seed: int, size: int, tally: Counter) -> None:
        self.rng, self.size, self.tally = random.Random(seed), size, tally
        self.pick, self.draw = self.rng.choice, self.rng.getrandbits
        self.seed_byte = self.rng.randrange(256)
        self.mem, self.engine = filled(min(size, ROOM), self.seed_byte), Engine(size)
        self.slips = self.pick((0.003, 0.003, 0.01, 0.05))  # how often a faulty write comes between
        self.records: list[tuple[int, int, int]] = []  # with the words of runs, three by three
        self.answers: list[Answer | Ran] = []
        self.by_run = False  # what came last to the launch area was a run

    def chance(self, share: float) -> bool:
        return self.rng.random() < share

    def near(self, low: int, high: int) -> int:
        return self.rng.randint(low, max(low, high))

    def send(self, offset: int, word: int, kind: int = 0) -> None:
        before, waited, mem = dict(self.engine.registers), self.engine.waiting is not None, bytes(self.mem)
        answer = self.engine.write(self.mem[:-1] if kind else self.mem, offset, word)
        number, count, changed = answer
        assert changed <= count and (changed == 0) == (self.mem == mem), "changed is 0 exactly if the memory is what it was"
        self.records.append((offset, word, kind))
        self.answers.append(answer)
        note(self.tally, before, waited, offset, word, answer, self.engine)
        if is_launch(offset) and number == 0:
            self.tally["runs of data", "then a single write"] += waited and self.by_run
            self.by_run = False

    def send_run(self, words: list[int], short: int = 0) -> int:
        """A run; gives how many words were taken."""
        assert len(words) <= LONGEST
        before, mem = copy.deepcopy(self.engine), self.mem[:]
        lent = self.mem[:-1] if short else self.mem
        ran = self.engine.write_run(lent, words)
        number, taken, count, changed = ran
        assert changed <= count and (changed > 0 or self.mem == mem), "with none changed the memory is what it was"
        filled_up = [*words, *[0] * (-len(words) % 3)]
        self.records += [(len(words), short, 2), *zip(*[iter(filled_up)] * 3)]
        self.answers.append(ran)
        self.tally["runs of data", "after a single write"] += taken > 0 and before.waiting is not None and not self.by_run
        note_run(self.tally, before, mem, words, ran, len(lent))
        self.by_run = self.by_run or taken > 0
        return taken

    def put(self, offset: int, word: int) -> None:
        if self.chance(self.slips):
            self.send(offset, word, 1)
        if self.chance(self.slips):
            self.send(self.pick((0, 4, 0x74, 0x78, 0x7C, 0x200, 0x6E, 0x81, 0x1FE, 0xFFFFFFFC)), word)
        self.send(offset, word)

    def set(self, **registers: int) -> None:
        for name, word in registers.items():
            stray = self.draw(32) & ~KEPT[name] if self.chance(0.06) else 0
            self.put(OFFSETS[name], word | stray)

    def launch(self, word: int) -> None:
        self.put(0x80 + 4 * self.pick((0, self.near(0, 31))), word)

    def surface(self, depth: int, part: tuple[int, int]) -> tuple[int, int, int, int]:
        """Base, stride, columns and rows of a surface inside a part of the memory."""
        room = part[1] - part[0]
        stride = min(room, row_bytes(self.near(4, 48 if depth == 1 else 22), depth) + self.pick((0, 0, 1, 3)))
        columns = 8 * stride if depth == 1 else stride // (depth // 8)
        if room > 3 * 8192 and self.chance(0.7):
            stride += 8192  # the stride's top bit; only the columns at the left are used
        rows = min(room // stride, 40) if stride else 0
        base = part[0] + self.pick((0, self.near(0, room % max(1, stride)), room - rows * stride))
        return base, stride, columns, rows

    def divide(self) -> list[tuple[int, int]]:
        """The part of the memory for the target, and that for a source."""
        floor = max(0, self.size - (ROOM if self.size == ROOM else self.reach))
        middle = (floor + self.size) // 2
        parts = [(floor, middle), (middle, self.size)] if self.size >= 64 else [(0, self.size)] * 2
        self.rng.shuffle(parts)
        return parts

    def scene(self) -> None:
        """A target with its clips, colours, a part of the pattern and keys."""
        self.parts = self.divide()
        self.depth = self.pick(DEPTHS)
        self.base, self.stride, self.columns, self.rows = self.surface(self.depth, self.parts[0])
        self.set(dstBaseAddr=self.base, dstFormat=FORMAT[self.depth] << 16 | self.stride)
        for name, slack in (("clip0", 2), ("clip1", 6)):
            slack = min(slack, self.columns // 3, self.rows // 3)
            low = xy(self.near(0, slack), self.near(0, slack))
            high = xy(self.columns - self.near(0, slack), self.rows - self.near(0, slack))
            if self.chance(0.25):
                high = self.pick((0x0FFF0FFF, 0x0FFF0FFF, low, xy(self.columns + 1, self.rows + 1)))
            self.set(**{name + "Min": low, name + "Max": high})
        self.set(colorFore=self.draw(32), colorBack=self.draw(32))
        for offset in [0x100 + 4 * self.near(0, 2 * self.depth - 1) for _ in range(self.near(0, 8))]:
            self.put(offset, self.draw(32))
        for offset in (0x44, 0x48) if self.chance(0.5) else ():
            self.put(offset, self.draw(32))
        self.keys()

    def keys(self) -> None:
        self.set(commandExtra=self.draw(4) if self.chance(0.6) else 0)
        if self.engine.registers["commandExtra"] & 3:
            self.set(rop=self.draw(24))
            for side in ("src", "dst"):
                low, high = self.draw(24) & self.draw(24) & self.draw(24), self.draw(24) | self.draw(24) | self.draw(24)
                if self.chance(0.2):  # one colour, that of pixels painted before
                    low = high = self.engine.registers["colorFore"] & 0xFFFFFF
                self.set(**{side + "ColorkeyMin": low, side + "ColorkeyMax": high})

    def word(self, number: int, turn: float = 0.5) -> int:
        """A command word without bit 8; turn is the chance of each of bits 14 and 15."""
        word = self.pick((0xCC, 0xCC, 0xF0, 0x5A, 0x66, 0xB8, self.draw(8), self.draw(8))) << 24 | number
        for bit, share in ((9, 0.2), (10, 0.2), (11, 0.2), (12, 0.6), (13, 0.5), (14, turn), (15, turn), (16, 0.35),
                           (23, 0.25)):
            word |= self.chance(share) << bit
        return word | self.pick((0, self.draw(6))) << 17 | (self.draw(4) << 4 if self.chance(0.05) else 0)

    def carry(self, word: int, register: str, places: list[int]) -> None:
        """Runs the command at the places, the first by bit 8 or all by launch."""
        if self.chance(0.4):
            self.set(**{register: places.pop(0)})
            word |= 0x100
        self.put(COMMAND, word)
        self.launches(places)

    def launches(self, words: list[int]) -> None:
        for word in words:
            self.launch(word)

    def sides(self, most: int = 20) -> tuple[int, int]:
        if self.chance(0.06):
            return self.pick(((0, 0), (0, 3), (0, 3), (3, 0)))
        return self.near(1, min(most, self.columns)), self.near(1, min(most, self.rows))

    def spot(self, width: int, height: int) -> tuple[int, int]:
        """A place for a rectangle on the target, at times reaching out of it, or far away."""
        if self.chance(0.03):
            return self.pick((4095, 4090, -1, -4096)), self.pick((4095, 4090, -1, -4096))
        if self.chance(0.25):
            return self.near(-width, self.columns), self.near(-height, self.rows)
        return self.near(0, self.columns - width), self.near(0, self.rows - height)

    def source_depth(self) -> int:
        """A format that goes to the target, or now and then any."""
        return self.pick([depth for depth in FORMAT if allowed(depth, self.depth) or self.chance(0.03)])

    def fill(self) -> None:
        width, height = self.sides()
        self.set(dstSize=xy(width, height))
        self.carry(self.word(FILL), "dstXY", [xy(*self.spot(width, height)) for _ in range(self.near(1, 4))])

    def copy(self) -> None:
        word = self.word(COPY)
        width, height = self.sides()
        x, y = self.spot(width, height)
        depth, packing, base, stride = self.depth, 0, self.base, self.stride
        columns, rows, reach = self.columns, self.rows, 4
        if self.chance(0.5):
            depth, packing, reach = self.source_depth(), self.pick((0, 0, 0, 1, 2, 3)), 40
            base, stride, columns, rows = self.surface(depth, self.parts[self.chance(0.75)])
            packing = self.fitting(base, packing)
        elif self.chance(0.2) and self.stride == row_bytes(self.columns, self.depth):
            packing, width, x = 1, self.columns, 0  # the same surface, packed
        self.set(srcBaseAddr=base, srcFormat=packing << 22 | FORMAT[depth] << 16 | stride, dstSize=xy(width, height))
        if packing:
            step = packed(width, depth, packing)
            columns, rows = step * 8 // depth, min(rows, 512 // max(1, step))
        right, below = (width - 1) * bits(word, 14, 14), (height - 1) * bits(word, 15, 15)
        self.set(dstXY=xy(x + right, y + below))
        places = []
        for _ in range(self.near(1, 3)):
            from_x = min(max(x + self.near(-reach, reach), 0), max(columns - width, 0))
            from_y = min(max(y + self.near(-reach, reach), 0), max(rows - height, 0))
            places.append(xy(from_x + right - self.chance(0.03), from_y + below - self.chance(0.03)))
        self.carry(word, "srcXY", places)

    def fitting(self, base: int, packing: int) -> int:
        """The packing; of tiles mostly none, as any other is a 5."""
        return 0 if base & TILE_BIT and self.chance(0.95) else packing

    def touch(self) -> None:
        """A copy whose source ends or begins at the target or one byte off it, or whose source
        differs from the target in its format or its step alone."""
        width, height = self.near(1, self.columns // 2), self.pick((1, 1, 2))
        base, stride, depth, y = self.base, self.stride, self.depth, self.near(0, self.rows - height)
        which, long = self.near(0, 4), row_bytes(width, self.depth)
        if which == 0:
            depth, y = self.source_depth(), 0
        elif which == 1:
            stride, y = stride + self.pick((1, 4)), 0
        else:
            base = max(0, base + y * stride + self.pick((long - 1, long, 1 - long, -long)))
        self.set(clip0Min=0, clip0Max=xy(self.columns, self.rows), dstSize=xy(width, height), dstXY=xy(0, y), srcXY=0)
        self.set(srcBaseAddr=base, srcFormat=FORMAT[depth] << 16 | stride)
        self.put(COMMAND, self.word(COPY, 0) & ~(1 << 23) | 0x100)

    def smear(self) -> None:
        """A copy within the target's surface, to a place a few pixels off, by every corner. At times the clip takes off its
        first columns or rows, or it is the packed source that makes the same surface."""
        same = [packing for packing in (1, 2, 3) if packed(self.columns, self.depth, packing) == self.stride]
        packing = self.pick((0, 0, *same))
        across, down = (self.pick((-3, -2, -1, 0, 0, 1, 2, 3)) for _ in range(2))
        width = self.columns if packing else self.near(1, self.columns - abs(across))
        height = self.near(1, self.rows - abs(down))
        x = across if packing else self.near(max(across, 0), self.columns - width + min(across, 0))
        y = self.near(max(down, 0), self.rows - height + min(down, 0))
        clip = self.cut(x, y, width, height)
        if packing:  # both rectangles reach off the surface, and the clip leaves what is on it
            self.set(**{clip + "Min": xy(max(across, 0), 0), clip + "Max": xy(self.columns + min(across, 0), self.rows)})
        word = self.word(COPY) & ~(1 << 23) | (clip == "clip1") << 23
        right, below = (width - 1) * bits(word, 14, 14), (height - 1) * bits(word, 15, 15)
        self.set(srcBaseAddr=self.base, srcFormat=packing << 22 | FORMAT[self.depth] << 16 | self.stride,
                 dstSize=xy(width, height), dstXY=xy(x + right, y + below))
        self.carry(word, "srcXY", [xy(x - across + right, y - down + below)] * self.near(1, 2))

    def every_distance(self, which: int) -> None:
        """Copies within one surface by up to three pixels to each side, each in a place of its own: of one format, from one
        corner, plain, with a raster operation or with keys."""
        depth, turn, kind = DEPTHS[which % 4], which // 4 % 4, which // 16
        stride, (width, height) = 100 * depth // 8, (4, 3)
        operation, extra = KINDS[kind]
        self.set(dstBaseAddr=0, dstFormat=FORMAT[depth] << 16 | stride, clip0Max=xy(100, 64), srcBaseAddr=0,
                 srcFormat=FORMAT[depth] << 16 | stride, dstSize=xy(width, height), commandExtra=extra, rop=0x5AAA66,
                 srcColorkeyMax=0x9FBFBF, dstColorkeyMin=0x202020, dstColorkeyMax=0xFFFFFF)
        self.put(COMMAND, operation << 24 | turn << 14 | COPY)
        right, below = (width - 1) * (turn & 1), (height - 1) * (turn >> 1)
        for place, (across, down) in enumerate(itertools.product(range(-3, 4), repeat=2)):
            x, y = place % 10 * 10 + 3 + right, place // 10 * 9 + 3 + below
            self.set(dstXY=xy(x + across, y + down))
            self.launch(xy(x, y))

    def share(self, size: int, covered: range, most: int) -> int:
        """A side of the source: one, as the target's, less, or more, up to what keeps the taken pixels below most."""
        most = min(8191, most * size // max(1, len(covered)))
        side = self.pick((1, size, self.near(1, size), self.near(size, most), self.near(1, most)))
        return 0 if self.chance(0.02) else max(1, min(side, most))

    def begin(self, size: int, covered: range, side: int, low: int, high: int) -> int:
        """Where a side of the source begins: what is taken of it lies from low to high, the latter excluded, often right
        at one of the two, and now and then one pixel past it."""
        if not covered or not size:
            return self.near(-2, high)
        first, last = low - covered[0] * side // size, high - 1 - covered[-1] * side // size
        start = self.pick((first, max(first, last), self.near(first, last), self.near(first, last)))
        if self.chance(0.05):
            start = self.pick((first - 1, last + 1))
        return min(max(start, -4096), 4095)

    def cut(self, x: int, y: int, width: int, height: int) -> str:
        """A clip: the whole target, or one that takes something off some sides of the rectangle. Gives its name."""
        low, high = [], []
        for at, side, most in ((x, width, self.columns), (y, height, self.rows)):
            first, past, off = 0, most, 0
            if self.chance(0.5):
                first, past = max(at, 0), min(max(at + side, 0), most)
                off = max(past - first, 0) // 4 + 1
            low.append(first + self.pick((0, self.near(0, off))))
            high.append(max(0, past - self.pick((0, self.near(0, off)))))
        name = self.pick(("clip0", "clip0", "clip1"))
        self.set(**{name + "Min": xy(*low), name + "Max": xy(*high)})
        return name

    def covered(self, clip: str, x: int, y: int, width: int, height: int) -> tuple[range, range]:
        """The columns and rows of a rectangle that the clip leaves, counted from the rectangle's edges."""
        left, top = halves(self.engine.registers[clip + "Min"])
        right, bottom = halves(self.engine.registers[clip + "Max"])
        return range(max(left - x, 0), min(right - x, width)), range(max(top - y, 0), min(bottom - y, height))

    def stretch(self) -> None:
        width, height = self.sides()
        self.stretch_to(*self.spot(width, height), width, height)

    def far(self) -> None:
        """A target rectangle of which the clip leaves a small part, deep inside."""
        width, height = self.near(1000, 8191), self.pick((self.near(1, 9), self.near(1000, 8191)))
        x, y = self.near(max(-4096, -width), 0), self.near(max(-4096, -height), 0)
        self.stretch_to(x, y, width, height)

    def stretch_to(self, x: int, y: int, width: int, height: int) -> None:
        clip = self.cut(x, y, width, height)
        across, down = self.covered(clip, x, y, width, height)
        depth, packing, low = self.source_depth(), self.pick((0, 0, 0, 1, 2, 3)), 0
        base, stride, columns, rows = self.surface(depth, self.parts[self.chance(0.95)])
        packing = self.fitting(base, packing)
        if self.chance(0.25):  # within one surface, from the rows above or below, or now and then from any
            depth, packing, base, stride, columns, rows = self.depth, 0, self.base, self.stride, self.columns, self.rows
            if down and self.chance(0.9):
                top, bottom = y + down[0], y + down[-1] + 1
                low, rows = self.pick(((0, top), (bottom, rows)))
        wide, high = self.share(width, across, columns), self.share(height, down, rows - low)
        if packing:
            step = packed(wide, depth, packing)
            columns, rows = step * 8 // depth, min(rows, 512 // max(1, step))
        self.set(srcBaseAddr=base, srcFormat=packing << 22 | FORMAT[depth] << 16 | stride, srcSize=xy(wide, high),
                 dstSize=xy(width, height), dstXY=xy(x, y))
        word = self.word(STRETCH) & ~(1 << 23) | (clip == "clip1") << 23
        by_bit_8 = self.chance(0.4)
        for i in range(self.near(1, 3)):
            across, down = self.covered(clip, *self.engine.place("dstXY"), width, height)
            place = xy(self.begin(width, across, wide, 0, columns), self.begin(height, down, high, low, rows))
            if i == 0 and by_bit_8:
                self.set(srcXY=place)
                self.put(COMMAND, word | 0x100)
                continue
            if i == 0:
                self.put(COMMAND, word)
            self.launch(place)

    def meet(self) -> None:
        """A stretched copy of one row whose taken pixels end or begin at the covered ones or one byte or pixel off them,
        between surfaces or on one."""
        width, wide = self.near(1, self.columns // 2), self.near(1, self.columns // 2)
        y, last = self.near(0, self.rows - 1), (width - 1) * wide // width
        depth, base, x, from_x, from_y = self.depth, self.base, 0, 0, y
        if self.chance(0.4):
            x, from_x = self.pick(((0, width - self.near(0, 1)), (last + self.near(0, 1), 0)))
        else:
            depth, from_y = self.pick((1, self.depth)), 0
            long = row_bytes(last + 1, depth)
            base += y * self.stride + self.pick((row_bytes(width, self.depth) - self.near(0, 1), self.near(0, 1) - long))
        self.set(clip0Min=0, clip0Max=xy(self.columns, self.rows), srcSize=xy(wide, self.near(1, 9)),
                 dstSize=xy(width, 1), dstXY=xy(x, y), srcXY=xy(from_x, from_y))
        self.set(srcBaseAddr=max(0, base), srcFormat=FORMAT[depth] << 16 | self.stride)
        self.put(COMMAND, self.word(STRETCH) & ~(1 << 23) | 0x100)

    def host(self) -> None:
        depth, packing = self.source_depth(), self.pick((0, 0, 1, 2, 3))
        width, height = self.sides(20 if depth == 1 else 7)
        stride = max(0, row_bytes(width, depth) + self.pick((0, 0, 1, 2, 5, 5, 9, self.near(-1, 0))))
        swizzle = self.near(1, 3) if self.chance(0.05) else 0
        self.set(srcFormat=packing << 22 | swizzle << 20 | FORMAT[depth] << 16 | stride, dstSize=xy(width, height),
                 dstXY=xy(*self.spot(width, height)), srcXY=self.pick((1, 1 << 16)) if self.chance(0.04) else 0,
                 srcBaseAddr=self.chance(0.04) << 31 | self.draw(24))
        self.put(COMMAND, self.word(HOST, 0.02) | self.chance(0.5) << 8)
        self.launch(self.draw(32))
        if self.chance(0.05):
            self.put(COMMAND, self.engine.registers["command"])  # the same word abandons too
            self.launch(self.draw(32))
        self.settle()

    def settle(self) -> None:
        """Feeds a waiting blit to its end, or abandons it on the way."""
        share = self.rng.random() if self.chance(0.3) else 1.0
        came = self.engine.waiting
        words = 0 if came is None else min(60, -(-(self.engine.host_bytes() - len(came)) // 4))
        for _ in range(int(words * share)):
            self.launch(self.draw(32))
            if self.chance(0.04):
                self.put(self.pick((0x64, 0x6C, 0x44, 0x13C, 0x08)), self.draw(32))
            if self.chance(0.03):
                self.put(COMMAND, 0xCC000100 | self.pick((self.pick(NOT_BUILT), HOST | 1 << 14)))
        if self.engine.waiting is not None:
            self.put(COMMAND, self.word(self.pick((NOP, FILL, HOST, 9)), 0.1) | self.chance(0.5) << 8)
        elif self.chance(0.1):
            self.put(COMMAND, self.word(NOP) | self.chance(0.5) << 8)
            self.launch(self.draw(32))

    def line(self) -> None:
        if self.chance(0.6):
            size, repeat = self.near(0, 31), self.near(0, 5)
            number, position = self.near(0, size), self.near(0, repeat)
            if self.chance(0.2):
                number, position = self.draw(5), self.draw(8)  # mostly not a legal phase
            self.set(lineStipple=self.draw(32), lineStyle=number << 24 | position << 16 | size << 8 | repeat)
        margin = self.pick((0, 0, 8))
        ends = [xy(self.near(-margin, self.columns - 1 + margin), self.near(-margin, self.rows - 1 + margin))
                for _ in range(self.near(2, 6))]
        ends.append(self.pick((ends[-1], ends[0])))
        if self.chance(0.06):
            ends.insert(1, xy(self.pick((-4096, 4095, 0)), self.pick((-4096, 4095, 0))))
        if self.chance(0.7):
            self.set(srcXY=ends[0])
        self.carry(self.word(self.pick((LINE, LINE, POLYLINE))), "dstXY", ends[1:])

    def wild(self) -> None:
        """Something far out, a command on it, then a new scene."""
        which = self.near(0, 4)
        if which == 0:  # tiled
            name = self.pick(("dstBaseAddr", "srcBaseAddr"))
            self.set(**{name: self.engine.registers[name] | 1 << 31})
        elif which == 1:  # large rectangles
            self.set(dstSize=self.draw(29), dstXY=xy(self.pick((-4096, -9, 0, 5)), self.pick((-4096, -9, 0, 5))))
        elif which == 2:  # steps that wrap
            self.set(dstXY=xy(4095 - self.near(0, 3), -1 - self.near(0, 3)), dstSize=xy(self.draw(13), self.near(0, 9)))
            self.put(COMMAND, self.word(FILL) | 0xD00)
        elif which == 3:
            self.set(**{self.pick([name for name in OFFSETS if name != "command"]): self.draw(32)})
        else:
            self.set(srcXY=self.draw(29), bresError0=self.draw(32), bresError1=self.draw(32), srcSize=self.draw(32))
        self.put(COMMAND, self.word(self.pick((COPY, STRETCH, HOST, FILL, FILL, LINE)), 0.1) | self.chance(0.5) << 8)
        self.launch(self.draw(32) if self.chance(0.3) else xy(*self.spot(4, 4)))
        self.settle()
        if self.engine.waiting is None:
            self.scene()

    def sweep(self) -> None:
        """What chance may pass over: all numbers, formats, directions, and empty host blits."""
        while self.columns < 5:
            self.scene()
        for number in NOT_BUILT:
            self.put(COMMAND, self.word(number) | 0x100)
            self.put(COMMAND, self.word(number))
            self.launch(self.draw(32))
        self.set(clip0Min=0, clip0Max=xy(self.columns, self.rows), dstXY=0, srcXY=0, dstSize=xy(1, 1), srcSize=xy(2, 3),
                 srcBaseAddr=self.parts[1][0])
        for source in range(16):
            self.set(srcFormat=source << 16 | 8)
            for target in range(8):
                self.set(dstFormat=target << 16 | self.stride)
                self.put(COMMAND, 0xCC000100 | COPY)
                self.put(COMMAND, 0xCC000100 | STRETCH)
                self.put(COMMAND, 0xCC000000 | HOST)
                self.launch(self.draw(32))
        for target, number in itertools.product(range(8), (FILL, LINE, POLYLINE)):
            self.set(dstFormat=target << 16 | self.stride)
            self.put(COMMAND, 0xCC000100 | number)
            self.put(COMMAND, 0xCC000000 | number)
            self.launch(0)
        self.set(dstFormat=FORMAT[self.depth] << 16 | self.stride)
        for packing, (width, height) in itertools.product(range(4), ((0, 0), (0, 3), (3, 0))):
            self.set(srcFormat=packing << 22 | 5, dstSize=xy(width, height))
            self.put(COMMAND, self.word(HOST, 0) | 0xD00)
        self.put(COMMAND, 0xCC000100 | LINE)  # shows where the steps led
        self.set(srcFormat=FORMAT[self.depth] << 16 | self.stride, srcBaseAddr=self.base, dstSize=xy(2, 2))
        for turn, x, y in itertools.product(range(4), (1, 2, 3), (1, 2, 3)):
            self.set(dstXY=xy(2, 2))
            self.put(COMMAND, self.word(COPY, 0) & ~(1 << 23) | turn << 14)
            self.launch(xy(x, y))

    def stretch_sweep(self) -> None:
        """All small widths and heights against each other, sizes of 0, and then those with tiles, with nothing covered, and
        off the target."""
        while self.columns < 8 or self.rows < 8 or self.parts[1][1] - self.parts[1][0] < 80 * self.depth // 8:
            self.scene()
        self.set(clip0Min=0, clip0Max=xy(self.columns, self.rows), commandExtra=0, dstXY=0,
                 srcBaseAddr=self.parts[1][0], srcFormat=FORMAT[self.depth] << 16 | self.depth)
        self.put(COMMAND, 0xCC000000 | STRETCH)
        for wide, width in itertools.product(range(1, 9), repeat=2):
            high, height = 9 - width, wide
            self.set(srcSize=xy(wide, high), dstSize=xy(width, height))
            self.launch(0)
        for side, size in itertools.product(((0, 0), (0, 2), (2, 0), (2, 2)), repeat=2):
            self.set(srcSize=xy(*side), dstSize=xy(*size))
            self.launch(0)
        usual = dict(dstXY=0, clip0Max=xy(self.columns, self.rows), srcBaseAddr=self.parts[1][0], dstBaseAddr=self.base)
        for side, size in itertools.product(((0, 2), (2, 2)), ((2, 2), (0, 2))):
            self.set(srcSize=xy(*side), dstSize=xy(*size))
            for change in (dict(srcBaseAddr=TILE_BIT), dict(dstBaseAddr=TILE_BIT), dict(clip0Max=0),
                           dict(clip0Max=0x0FFF0FFF, dstXY=xy(self.columns - 1, 0))):
                self.set(**change)
                self.launch(0)
                self.set(**{name: usual[name] for name in change})
        self.set(srcBaseAddr=self.base, srcFormat=FORMAT[self.depth] << 16 | self.stride, dstSize=xy(2, 2))
        for x in (self.columns - 1, self.columns - 2):
            self.launch(xy(x, 0))


class TileMaker(Maker):
    """A stream on tiled surfaces."""

    reach = ROOM
    astray = 0.4  # how often a rectangle is not put across an edge between tiles

    def divide(self) -> list[tuple[int, int]]:
        """Now and then all of it for each."""
        return [(0, self.size)] * 2 if self.chance(0.3) else super().divide()

    def surface(self, depth: int, part: tuple[int, int]) -> tuple[int, int, int, int]:
        """Mostly a tiled one, at any base, and now and then with more tiles across than there are. It gives the columns and
        rows that are there whole."""
        if self.chance(0.97 if depth == 1 else 0.3):
            return self.linear(depth, part)
        room = part[1] - part[0]
        base = self.pick((0, self.near(1, min(300, room // 3)), self.near(0, min(4095, room // 3))))
        stride, room = self.pick((1, 2, 2, 3, 3, 4, self.near(5, 8), self.near(9, 0x3FFF))), max(0, room - base)
        across = min(stride, max(1, room // 4096))
        whole, rest = divmod(room, 4096 * stride)
        rows = 32 * whole + min(32, max(0, rest - 4096 * (across - 1)) // 128)
        return TILE_BIT | part[0] + base, stride, 1024 * across // depth, rows

    def linear(self, depth: int, part: tuple[int, int]) -> tuple[int, int, int, int]:
        """A linear one, small or about as wide as some tiles."""
        room, stride = part[1] - part[0], row_bytes(self.near(40, 400), depth)
        if room < 8 * stride or self.chance(0.4):
            return super().surface(depth, part)
        rows = min(room // stride, 120)
        return part[0] + self.near(0, room - rows * stride), stride, stride * 8 // depth, rows

    def edge(self, number: int) -> int:
        """The target's column in which the tile of this number begins; at 24 bpp it may begin inside that pixel."""
        return 1024 * number // self.depth

    def across_edge(self, width: int, height: int) -> tuple[int, int]:
        """A place on the target for a rectangle where tiles meet."""
        x = self.edge(self.near(1, self.columns * self.depth // 1024 - 1)) - self.near(0, width)
        y = 32 * self.near(1, self.rows // 32 - 1) - self.near(0, height)
        return max(0, min(x, self.columns - width)), max(0, min(y, self.rows - height))

    def spot(self, width: int, height: int) -> tuple[int, int]:
        return super().spot(width, height) if self.chance(self.astray) else self.across_edge(width, height)

    def side(self, edges: list[int], most: int) -> tuple[int, int]:
        """From one edge below most to a later one or to most, each at times a little off."""
        edges = [*(at for at in edges if at < most), most]
        ends = sorted(self.rng.sample(edges, 2)) if self.chance(0.6) else (edges[0], edges[-1])
        low, past = (at + self.pick((0, 0, self.near(-9, 9))) for at in ends)
        low = min(max(low, 0), most - 1)
        return low, min(max(past, low + 1), most)

    def origin(self, low: int, past: int, most: int, tile: int) -> int:
        """Where the source begins of what is covered from low to past: as far into a tile as that or not, and below most."""
        start = low + self.pick((0, tile, -tile, 2 * tile, self.near(-9, 9), self.near(-2 * tile, 2 * tile)))
        return min(max(start, 0), max(most - (past - low), 0))

    def block(self) -> None:
        """A fill or a copy of a rectangle that may take in whole tiles. At times it is the clip that cuts it out."""
        if self.columns < 2 or self.rows < 2:
            return self.fill()
        left, right = self.side([self.edge(number) for number in range(17)], self.columns)
        top, bottom = self.side([*range(0, 513, 32)], self.rows)
        number = self.pick((FILL, FILL, COPY, COPY, COPY, STRETCH))
        depth, base, stride, columns, rows = self.depth, self.base, self.stride, self.columns, self.rows
        if number == STRETCH or number == COPY and self.chance(0.5):
            depth = self.source_depth()
            base, stride, columns, rows = self.surface(depth, self.parts[1])
            right, bottom = min(right, left + max(1, columns)), min(bottom, top + max(1, rows))
        x, y, width, height = left, top, right - left, bottom - top
        self.set(clip0Min=0, clip0Max=xy(self.columns, self.rows))
        if number != STRETCH and self.chance(0.3):
            self.set(clip0Min=xy(left, top), clip0Max=xy(right, bottom))
            x, y = left - self.near(0, 9), top - self.near(0, 9)
            width, height = right - x + self.near(0, 9), bottom - y + self.near(0, 9)
        word = self.word(number) & ~(1 << 23)
        if number == COPY:
            x, y = x + (width - 1) * bits(word, 14, 14), y + (height - 1) * bits(word, 15, 15)
        self.set(dstSize=xy(width, height), dstXY=xy(x, y))
        if number != FILL:
            from_x, from_y = self.origin(left, right, columns, 1024 // depth), self.origin(top, bottom, rows, 32)
            self.set(srcBaseAddr=base, srcFormat=FORMAT[depth] << 16 | stride, srcXY=xy(from_x + x - left, from_y + y - top))
        if number == STRETCH:
            self.set(srcSize=xy(self.near(1, columns - from_x), self.near(1, rows - from_y)))
        self.put(COMMAND, word | 0x100)

    def touch(self) -> None:
        """Followed by a new scene, as it has a target of its own."""
        if self.size < 9000:
            return self.fill()
        self.beside(self.pick(FROM_MEMORY), self.near(0, 4), self.chance(0.5))
        self.scene()

    def beside(self, number: int, which: int, from_tiles: bool) -> None:
        """A copy between a rectangle of tiles and a run of bytes: right past its span or before it, one byte inside it at
        either end, or between its first two rows."""
        size, (width, height) = self.depth // 8, (self.near(1, 4), self.near(2, 5))
        stride = self.near(1, min(3, (self.size - 200) // 8192))
        base = self.near(100, self.size - 8192 * stride - 100)
        self.columns, self.rows = self.edge(stride), 64
        x, y = self.across_edge(width, height)
        low, high = Surface(base, stride, self.depth, True).span([(x, y), (x + width - 1, y + height - 1)])
        run, form = width * height * size, FORMAT[self.depth] << 16
        start = (high + 1, low - run, high, low - run + 1, low + width * size)[which]
        tiles, bare = (TILE_BIT | base, form | stride, xy(x, y)), (start, form | width * size, 0)
        (source, of, corner), (target, to, place) = (tiles, bare) if from_tiles else (bare, tiles)
        self.set(clip0Min=0, clip0Max=0x0FFF0FFF, dstSize=xy(width, height), srcSize=xy(width, height), srcBaseAddr=source,
                 srcFormat=of, srcXY=corner, dstBaseAddr=target, dstFormat=to, dstXY=place)
        self.put(COMMAND, self.word(number, 0) & ~(1 << 23) | 0x100)

    def each(self, which: int) -> None:
        """All commands across edges between tiles, of one format, with one to four tiles across."""
        self.depth, self.parts, self.astray = DEPTHS[which], [(0, 37_000), (37_000, self.size)], 0
        for stride in range(1, 5):
            self.base, self.stride = TILE_BIT | self.near(1, 4095), stride
            self.columns, self.rows = self.edge(stride), 64
            self.set(dstBaseAddr=self.base, dstFormat=FORMAT[self.depth] << 16 | stride, colorFore=self.draw(32),
                     colorBack=self.draw(32), clip0Max=xy(self.columns, self.rows), clip1Max=xy(self.columns, self.rows))
            for command in ("fill", "host", "copy", "line", "keys", "fill", "host", "stretch", "line"):
                getattr(self, command)()

    def whole(self, which: int) -> None:
        """Fills of two whole tiles or copies of one, with more of the surface past any of the four sides; and of several.
        First they are plain, and then they have other raster operations, patterns, keys and formats."""
        self.depth, copies = DEPTHS[which % 4], which // 4
        self.base, across = TILE_BIT | self.near(0, 900), 4 - copies
        self.set(dstBaseAddr=self.base, dstFormat=FORMAT[self.depth] << 16 | across, clip0Max=xy(self.edge(across), 96),
                 colorFore=self.draw(32), colorBack=self.draw(32))
        for offset in () if copies else range(0x100, 0x100 + 8 * self.depth, 4):
            self.put(offset, self.draw(32))
        for plain, sides in itertools.product((True, False), range(17)):
            off = [self.near(1, 9) * bits(sides, bit, bit) for bit in range(4)]
            left, right = self.edge(1) - off[0], -(-1024 * (across - 1) // self.depth) + off[1]
            top, bottom = 32 - off[2], 64 + off[3]
            if sides == 16:
                left, right, top, bottom = 0, self.edge(3), 0, 96 - 32 * copies
            if not plain and sides % 4 == 0:
                self.keys()
            self.set(dstSize=xy(right - left, bottom - top), dstXY=xy(left, top))
            if copies:
                depth, base, stride, columns, rows = self.whole_source(plain, sides == 16)
                self.set(srcBaseAddr=base, srcFormat=FORMAT[depth] << 16 | stride,
                         srcXY=xy(self.origin(left, right, columns, 1024 // depth), self.origin(top, bottom, rows, 32)))
            number = COPY if copies else FILL
            word = 0xCC000000 | number if plain else self.word(number, 0) & ~(1 << 23 | 3 << 10)
            self.put(COMMAND, word | 0x100)

    def whole_source(self, plain: bool, several: bool) -> tuple[int, int, int, int, int]:
        """Depth, base, stride, columns and rows: the target's surface, and but for several tiles also a linear or tiled one
        past it, which for copies that are not plain may have another format."""
        depth = self.depth if plain else self.pick([depth for depth in DEPTHS if allowed(depth, self.depth)])
        sources = [(self.depth, self.base, 3, self.edge(3), 96), (depth, self.near(37_800, 38_000), 500, 4000 // depth, 55),
                   (depth, TILE_BIT | self.near(37_800, 40_000), 3, 3072 // depth, 64)]
        return sources[0] if several else self.pick(sources)

    def corners(self, which: int) -> None:
        """Copies within one surface where four tiles meet, of one format and from one corner: by up to three columns and two
        rows to each side, and by about a tile; plain, with a raster operation or with keys."""
        self.depth, turn = DEPTHS[which % 4], which // 4
        base, form, tile = TILE_BIT | self.near(1, 3000), FORMAT[self.depth] << 16 | 3, self.edge(1)
        columns, rows = self.edge(3), 96
        self.set(dstBaseAddr=base, dstFormat=form, srcBaseAddr=base, srcFormat=form, clip0Max=xy(columns, rows),
                 rop=0x5AAA66, srcColorkeyMax=0x9FBFBF, dstColorkeyMin=0x202020, dstColorkeyMax=0xFFFFFF)
        moves = [(6, 4, *move) for move in itertools.product(range(-3, 4), range(-2, 3))]
        for sign, off in itertools.product((-1, 1), (-1, 0, 1)):
            moves += [(tile + 5, 3, sign * tile + off, self.near(-1, 1)), (3, 37, self.near(-1, 1), sign * 32 + off)]
        for kind, (operation, extra) in enumerate(KINDS):
            self.set(commandExtra=extra)
            self.put(COMMAND, operation << 24 | turn << 14 | COPY)
            for width, height, across, down in moves[(kind + turn) % 4::4]:
                x, y = self.edge(self.near(1, 2)) - width // 2, 32 * self.near(1, 2) - height // 2
                x = min(max(x, across, 0), columns - width + min(across, 0))
                y = min(max(y, down, 0), rows - height + min(down, 0))
                right, below = (width - 1) * (turn & 1), (height - 1) * (turn >> 1)
                if self.engine.registers["dstSize"] != xy(width, height):
                    self.set(dstSize=xy(width, height))
                self.set(dstXY=xy(x + right, y + below))
                self.launch(xy(x - across + right, y - down + below))

    def ends(self, which: int) -> None:
        """The memory ends inside a tile: rectangles whose last pixel is the last one before that, the next one in its row
        or the last one of the tile to the left; as targets and as sources. Then surfaces of no tiles."""
        self.depth, form = DEPTHS[which], FORMAT[DEPTHS[which]] << 16
        self.set(clip0Max=0x0FFF0FFF, colorFore=self.draw(32))
        cuts = ((0, 0), (0, 127), (31, self.near(1, 126)), (self.near(1, 30), self.near(1, 126)))
        for stride, (row, column) in itertools.product(range(1, 5), cuts):
            across, down = self.pick((stride - 1, stride // 2)), self.near(0, 1)
            base = TILE_BIT | self.size - 4096 * (stride * down + across) - 128 * row - column
            x, y = (128 * across + column) * 8 // self.depth, 32 * down + row  # the first pixel that is not there whole
            width, height = self.near(1, min(5, x)), self.near(1, min(5, y + 1))
            lasts = [(x - 1, y), (x, y), (self.edge(across) - 1, 32 * down + 31)]
            places = [xy(x - width + 1, y - height + 1) for x, y in lasts if x >= width - 1]
            self.set(dstBaseAddr=base, dstFormat=form | stride, dstSize=xy(width, height))
            self.put(COMMAND, 0xCC000000 | FILL)
            for place in places:
                self.launch(place)
            self.set(dstBaseAddr=self.near(0, 99), dstFormat=form | 32, dstXY=0, srcBaseAddr=base, srcFormat=form | stride)
            self.put(COMMAND, 0x66000000 | COPY)
            for place in places:
                self.launch(place)
        self.set(dstBaseAddr=TILE_BIT | 9000, srcBaseAddr=TILE_BIT | 20_000, srcXY=0)
        for target, source in ((0, 1), (1, 0)):
            self.set(dstFormat=form | target, srcFormat=form | source, dstXY=0)
            for size, number in itertools.product((xy(1, 1), xy(0, 1)), (FILL, COPY)):
                self.set(dstSize=size)
                self.put(COMMAND, 0xCC000100 | number)

    def way(self, tile: int, right: int, below: int) -> tuple[int, int, int]:
        """How many tiles across, and which column and row of tiles up to these, make the tile of this number."""
        ways = [(tile // row, tile % row, row) for row in range(1, below + 1)]
        return self.pick([way for way in ways if way[1] < way[0] <= 0x3FFF and way[1] <= right])

    def far_tiles(self, numbers: tuple[int, ...], right: int, below: int) -> list[tuple[int, int, int, int]]:
        """Base, tiles across, column and row of tiles: of tile 5 and of those with these numbers, of one that only its base
        carries past 2^32, and of two that would be in memory but for a high bit of the stride."""
        ways = [(self.near(0, 3000), *self.way(tile, right, below)) for tile in (5, *numbers)]
        return [*ways, (0xFFFFFF, *self.way((1 << 20) - 4095, right, below)), (self.near(0, 3000), 0x0081, 0, 1),
                (self.near(0, 3000), 0x2001, 0, 1)]

    def beyond(self, which: int) -> None:
        """Pixels of large surfaces whose bytes are 2^24, 2^31, 2^32 or 2^33 past some that are in memory, each a 7; and one
        that is in memory. As targets and as sources."""
        self.depth, form, numbers = DEPTHS[which], FORMAT[DEPTHS[which]] << 16, (1 << 12, 1 << 19, 1 << 20, (1 << 20) + 5)
        self.set(srcBaseAddr=30_000, dstSize=xy(1, 1), srcSize=xy(1, 1), srcFormat=1 << 22)
        for base, stride, column, row in self.far_tiles(numbers, 4094 * self.depth // 1024, 127):
            x, y = -(-1024 * column // self.depth), 32 * row + self.near(0, 30)
            self.set(dstBaseAddr=TILE_BIT | base, dstFormat=form | stride, dstXY=xy(x, y), srcXY=0, clip0Max=0)
            self.put(COMMAND, 0xCC000100 | FILL)
            self.set(clip0Max=0x0FFF0FFF)
            for number in (FILL, COPY, STRETCH, HOST):
                self.put(COMMAND, 0xCC000100 | number)
            self.put(COMMAND, 0xCC000000 | LINE)
            for place in (xy(x, y), 0):
                self.set(srcXY=place)
                self.launch(place)
        self.set(dstBaseAddr=30_000, dstFormat=form | 64)
        for base, stride, column, row in self.far_tiles((*numbers, 1 << 21), 8190 * self.depth // 1024, 255):
            x, y = -(-1024 * column // self.depth), 32 * row + self.near(0, 30)
            right, below = (self.near(max(0, at - 4095), min(at, 4095)) for at in (x, y))  # so far from srcXY
            self.set(srcBaseAddr=TILE_BIT | base, srcFormat=form | stride, srcXY=xy(x - right, y - below),
                     clip0Min=0, clip0Max=xy(1, 1), dstXY=xy(-right, -below), dstSize=xy(right + 1, below + 1))
            self.put(COMMAND, 0xCC000100 | COPY)
            self.set(clip0Min=xy(1, 1), clip0Max=xy(2, 2), dstXY=0, dstSize=xy(2, 2),
                     srcSize=xy(2 * right + 1, 2 * below + 1))
            self.put(COMMAND, 0xCC000100 | STRETCH)

    def one_place(self, which: int) -> None:
        """Surfaces on the same bytes: tiled and linear by the same words or with the same rows, one tiled surface, or two
        that differ in stride, format or base; spans meet or not, or nothing is covered. Then runs of bytes beside tiles."""
        self.depth, stride = DEPTHS[which], self.near(24, 60)
        bare, form = self.near(0, 4095), FORMAT[self.depth] << 16
        tiles, same = TILE_BIT + bare, form + stride
        other = (FORMAT[{8: 8, 16: 24, 24: 32, 32: 16}[self.depth]] << 16) + stride
        mixed = [(tiles, same, bare, same), (bare, same, tiles, same), (tiles, form + 1, bare, form + 128),
                 (bare, form + 128, tiles, form + 1)]
        both = [(tiles, same, tiles, same), (tiles, same, tiles, same + 1), (tiles, same, tiles, other),
                (tiles, same, tiles + 1, same)]
        for target, to, source, of in mixed + both:
            rows = (to if target == bare else of) & 0x3FFF  # bytes of a linear one
            last = (128 + 3 * self.depth // 8 - 1) // rows  # the last linear row that meets three pixels by two of a tile
            self.set(dstBaseAddr=target, dstFormat=to, srcBaseAddr=source, srcFormat=of, srcSize=xy(3, 2))
            for number in FROM_MEMORY:
                self.set(clip0Max=0x0FFF0FFF, dstSize=xy(3, 2), dstXY=0)
                self.put(COMMAND, 0x66000000 | number)
                for y in (0, last, last + 1):
                    if target == bare:
                        self.set(dstXY=xy(0, y))
                    self.launch(xy(0, 0 if target == bare else y))
                if bare in (target, source):
                    self.set(clip0Max=0)
                    self.launch(0)
                    self.set(clip0Max=0x0FFF0FFF, dstSize=xy(0, 2))
                    self.launch(0)
        for number, place, from_tiles in itertools.product(FROM_MEMORY, range(5), (False, True)):
            self.beside(number, place, from_tiles)

    def refused(self, which: int) -> None:
        """Each source that may not be tiled, in copies, stretched copies and host blits, onto a linear target or tiles; with
        pixels and with none, and before other refusals. And fills and lines, which use no source."""
        one, stride = xy(1, 1), 1 if which else 64
        self.set(dstBaseAddr=which << 31 | 9000, srcBaseAddr=TILE_BIT | 20_000, srcSize=one, dstSize=one)
        for covered in (dict(clip0Max=0x0FFF0FFF), dict(clip0Max=0), dict(clip0Max=0x0FFF0FFF, dstSize=xy(1, 0))):
            self.set(**covered)
            for depth in FORMAT:
                self.set(dstFormat=FORMAT[max(8, depth)] << 16 | stride)
                for packing in range(4):
                    self.set(srcFormat=packing << 22 | FORMAT[depth] << 16 | 2)
                    for number in (COPY, STRETCH, HOST):
                        self.put(COMMAND, 0xCC000100 | number)
                for number in (FILL, LINE):
                    self.put(COMMAND, 0xCC000100 | number)
                self.put(COMMAND, 0xCC000000 | HOST)
                self.launch(self.draw(32))
        self.set(dstSize=one)
        for fault in (dict(srcSize=0), dict(srcSize=one, dstXY=xy(2000, 0)), dict(dstXY=0, srcXY=xy(2000, 0)),
                      dict(srcXY=0, dstBaseAddr=which << 31 | 20_000)):
            self.set(**fault)
            for form in (FORMAT[1] << 16, FORMAT[32] << 16 | 1 << 22, FORMAT[32] << 16 | 3 << 20):
                self.set(srcFormat=form)
                for number in (COPY, STRETCH, HOST):
                    self.put(COMMAND, 0xCC000100 | number)

    def pairs(self, which: int) -> None:
        """From each format to each, from and to tiles, where tiles meet; by plain copies or by stretched ones."""
        number, (width, height) = FROM_MEMORY[which], (12, 5)
        self.set(clip0Max=0x0FFF0FFF, colorFore=self.draw(32), colorBack=self.draw(32), dstSize=xy(width, height))
        for depth, tiled in itertools.product(DEPTHS, (0, 1)):
            self.set(dstBaseAddr=tiled << 31 | self.near(0, 900), dstFormat=FORMAT[depth] << 16 | (3 if tiled else 384),
                     dstXY=xy(1024 // depth - self.near(1, width - 1), 32 - self.near(1, height - 1)),
                     srcSize=xy(self.near(1, 20), self.near(1, 8)))
            self.keys()
            self.put(COMMAND, self.word(number, 0) & ~(1 << 23 | 3 << 10))
            for source, from_tiles in itertools.product(FORMAT, (0, 1)):
                self.set(srcBaseAddr=from_tiles << 31 | self.near(22_600, 23_100),
                         srcFormat=FORMAT[source] << 16 | (3 if from_tiles else 384))
                self.launch(xy(1024 // max(8, source) - self.near(0, 11), 32 - self.near(0, 4)))


class EqualMaker(TileMaker):
    """A stream in which pixels often get what they have."""

    on_tiles = True

    def __init__(self, seed: int, size: int, tally: Counter) -> None:
        super().__init__(seed, size, tally)
        one, other = (self.rng.randrange(256) * 0x01010101 for _ in range(2))
        self.few = (one, one, one ^ 1 << self.rng.randrange(32), other)  # two colours, and one of them with another bit
        self.draw = self.draw_few

    def draw_few(self, count: int) -> int:
        """So many bits; of 32, which are colours, patterns and data, mostly one of a few words."""
        return self.pick(self.few) if count == 32 and self.chance(0.9) else self.rng.getrandbits(count)

    def surface(self, depth: int, part: tuple[int, int]) -> tuple[int, int, int, int]:
        return super().surface(depth, part) if self.on_tiles else Maker.surface(self, depth, part)

    def spot(self, width: int, height: int) -> tuple[int, int]:
        return super().spot(width, height) if self.on_tiles else Maker.spot(self, width, height)

    def put(self, offset: int, word: int) -> None:
        """At times a command that was carried out is carried out once more."""
        super().put(offset, word)
        runs = is_launch(offset) or offset == COMMAND and bits(word, 8, 8) == 1
        if runs and self.engine.number() != HOST and self.chance(0.3):
            self.send(offset, word)

    def wash(self) -> None:
        """All memory but a rest at its end in a few colours."""
        self.set(dstBaseAddr=0, dstFormat=FORMAT[8] << 16 | 256, clip0Min=0, clip0Max=0x0FFF0FFF, dstXY=0,
                 dstSize=xy(256, self.size // 256), commandExtra=0)
        for offset in range(0x100, 0x140, 4):
            self.send(offset, self.pick(self.few))
        self.send(COMMAND, 0xF0000100 | FILL)

    def lay(self, which: int, tiled: bool, rows: int = 64) -> None:
        """A target of one format, 256 bytes or two tiles wide."""
        self.depth, self.stride = DEPTHS[which % 4], 2 if tiled else 256
        self.base = tiled << 31 | self.near(0, 900)
        self.columns, self.rows = 2048 // self.depth, rows
        self.set(dstBaseAddr=self.base, dstFormat=FORMAT[self.depth] << 16 | self.stride, clip0Min=0,
                 clip0Max=xy(self.columns, rows))

    def hold(self, **registers: int) -> None:
        """Those that do not hold the word already."""
        self.set(**{name: word for name, word in registers.items() if self.engine.registers[name] != word})

    def keys_by(self, extra: int, operation: int = 0xCC) -> None:
        """Keys by which a match keeps the target, or with operation AA only a match does not."""
        self.hold(commandExtra=extra, rop=0xAAAACC if operation == 0xAA else 0xAAAAAA, srcColorkeyMax=0x9FBFBF,
                  dstColorkeyMin=0x202020, dstColorkeyMax=0xFFFFFF)

    def twice(self, which: int) -> None:
        """A scene of one format onto rows or tiles and from rows or tiles, each stroke in a place of its own; the same scene
        again, which changes nothing; and in half of them once more after some pixels were inverted."""
        tiled, from_tiles = which // 4 % 2 == 1, which // 8 == 1
        self.lay(which, tiled)
        self.keys_by(0)
        sources = {depth: (from_tiles << 31 | self.near(18_000, 18_400), FORMAT[depth] << 16 | (2 if from_tiles else 256))
                   for depth in DEPTHS}
        sources[1] = self.near(36_000, 36_100), FORMAT[1] << 16 | 16
        for offset in range(0x100, 0x100 + 8 * self.depth, 4):
            self.put(offset, self.rng.getrandbits(32))
        first = len(self.records)
        self.set(commandExtra=0, rop=0, colorFore=0, colorBack=0, dstSize=0, dstXY=0, srcBaseAddr=0, srcFormat=0, srcSize=0,
                 srcXY=0, lineStipple=0, lineStyle=0)  # a pass depends on nothing from before it
        places = [*range(21)]
        self.rng.shuffle(places)
        for place, stroke in zip(places, STROKES):
            self.stroke(place, stroke, sources)
        scene = self.records[first:]
        for record in scene:
            self.send(*record)
        assert not any(changed for _, _, changed in self.answers[-len(scene):]), "the second pass changes nothing"
        if tiled == from_tiles:
            self.set(commandExtra=0, dstSize=xy(1, 1))
            self.send(COMMAND, 0x55000000 | FILL)
            for _ in range(8):
                self.send(0x80, xy(self.near(0, self.columns - 1), self.near(0, self.rows - 1)))
            for record in scene:
                self.send(*record)

    def stroke(self, place: int, stroke: tuple[int, int, int, int, int], sources: dict[int, tuple[int, int]]) -> None:
        """One command in its place, of 21."""
        (number, operation, more, extra, of), (wide, high) = stroke, (self.columns // 7, self.rows // 3)
        width, height = self.near(max(1, wide // 2), wide), self.near(3, 12)
        x, y = place % 7 * wide + self.near(0, wide - width), place // 7 * high + self.near(0, high - height)
        depth = {OWN: self.depth, MONO: 1, OTHER: {8: 8, 16: 32, 24: 16, 32: 24}[self.depth]}[of]
        self.keys_by(extra, operation)
        if of == MONO or number in (FILL, LINE, POLYLINE):
            self.hold(colorFore=self.rng.getrandbits(32), colorBack=self.rng.getrandbits(32))
        launch = xy(x, y)
        if number in FROM_MEMORY:
            (base, form), side = sources[depth], 2048 // max(16, depth)
            self.hold(srcBaseAddr=base, srcFormat=form, dstXY=launch)
            if number == STRETCH:
                self.hold(srcSize=xy(self.near(1, side // 2), self.near(1, 30)))
            launch = xy(self.near(0, side // 4), self.near(0, 30))
        elif number == HOST:
            height = min(height, 4)
            self.hold(srcFormat=self.near(1, 3) << 22 | FORMAT[depth] << 16, srcXY=0, srcBaseAddr=0, dstXY=launch)
            launch = self.rng.getrandbits(32)
        elif number != FILL:
            self.hold(srcXY=launch, lineStipple=self.rng.getrandbits(32),
                      lineStyle=self.near(3, 31) << 8 | self.near(0, 2))
            launch = xy(x + width - 1, y + height - 1)
        if number not in (LINE, POLYLINE):
            self.hold(dstSize=xy(width, height))
        Maker.put(self, COMMAND, operation << 24 | more | number)
        Maker.put(self, 0x80, launch)
        while self.engine.waiting is not None:
            self.send(0x80, self.rng.getrandbits(32))

    def overlaps(self, which: int) -> None:
        """Copies within one surface of few colours by up to two pixels to each side, of one format and from one corner, in
        rows and where four tiles meet; plain, with a raster operation or with keys; each twice."""
        turn, (width, height) = which // 4, (6, 4)
        self.wash()
        for tiled in (False, True):
            self.lay(which, tiled)
            self.keys_by(0)
            self.set(srcBaseAddr=self.base, srcFormat=FORMAT[self.depth] << 16 | self.stride, dstSize=xy(width, height))
            right, below = (width - 1) * (turn & 1), (height - 1) * (turn >> 1)
            for number, (across, down) in enumerate(itertools.product(range(-2, 3), repeat=2)):
                operation, extra = KINDS[(number // 2 + turn) % 4]
                x, y = self.columns // 2 - self.near(2, 4) + right, 32 - self.near(1, 3) + below
                if not tiled:
                    x, y = number % 5 * (self.columns // 5) + 2 + right, number // 5 * 10 + 2 + below
                self.hold(commandExtra=extra, dstXY=xy(x + across, y + down))
                self.hold(command=operation << 24 | turn << 14 | COPY)
                self.send(0x80, xy(x, y))
                self.send(0x80, xy(x, y))

    def equal(self, which: int) -> None:
        """Fills with the colour that is there, in part or but for bits that the target has not; then every operation, by a
        colour and a mono pattern, by copies, by mono ones and by stretched ones, each twice."""
        self.lay(which, which // 4 == 1)
        self.keys_by(0)
        one, other = self.few[0], self.few[3]
        above = 0xFFFFFFFF << self.depth & 0xFFFFFFFF
        x, y = self.columns // 2 - 4, 28
        for colour, place, size in ((one, (x, y), (9, 7)), (one, (x, y), (9, 7)), (one, (x + 3, y + 2), (9, 7)),
                                    (one ^ above, (x - 1, y - 1), (14, 10)), (self.few[2], (x, y), (9, 7)),
                                    (other, (x, y), (9, 7)), (one, (x - 2, y - 2), (16, 12))):
            self.set(colorFore=colour, dstSize=xy(*size), dstXY=xy(*place))
            self.send(COMMAND, 0xCC000100 | FILL)
        for offset in range(0x100, 0x100 + 8 * self.depth, 4):
            self.send(offset, self.pick(self.few))
        form, near = FORMAT[self.depth] << 16 | self.stride, xy(x, 0)
        self.set(colorFore=other, colorBack=one, dstSize=xy(9, 7), dstXY=xy(x, y), srcSize=xy(5, 4), srcXY=near)
        mono = dict(srcBaseAddr=20_000, srcFormat=FORMAT[1] << 16 | 32)
        own = dict(srcBaseAddr=self.base, srcFormat=form)
        for kind, source in ((FILL, own), (FILL | MONO_PATTERN, own), (COPY, own), (COPY, mono), (STRETCH, own)):
            self.set(**source)
            for operation in OPERATIONS:
                word = operation << 24 | kind | self.near(0, 1) * TRANSPARENT | 0x100
                if kind == STRETCH:
                    self.set(dstXY=xy(x, 40))  # no span meets
                self.send(COMMAND, word)
                self.send(COMMAND, word)

    def one_byte(self, which: int) -> None:
        """Pixels that differ from what is put there in one bit alone, of each of four bytes: those of the pixel, and those
        past it, which make no difference. By every kind of command."""
        self.lay(which, which // 4 == 1)
        colour, (width, height) = self.rng.getrandbits(32), (5, 3)
        x, y, form = self.columns // 2 - 2, 28, FORMAT[self.depth] << 16 | self.stride
        low, far = xy(x, y), xy(3, 50)
        self.set(srcSize=xy(width, height), dstSize=xy(width, height), lineStipple=0xFFFFFFFF)
        for k in range(4):
            changed = colour ^ 1 << 8 * k + self.near(0, 7)
            self.keys_by(0)
            self.set(colorFore=changed, colorBack=colour)
            self.send(COMMAND, 0xCC000000 | FILL)
            self.send(0x80, far)  # a source of copies
            for offset in range(0x100, 0x100 + self.depth, 4):  # row 0, which bit 3 of commandExtra takes
                word = bytes(changed >> 8 * at % self.depth & 0xFF for at in range(offset - 0x100, offset - 0xFC))
                self.send(offset, int.from_bytes(word, "little"))
            for number, operation, more, extra in (
                    (FILL, 0xCC, 0, 0), (FILL, 0xF0, 0, 8), (FILL, 0xE2, 0, 8), (COPY, 0xCC, 0, 0), (COPY, 0xCC, 0, 1),
                    (COPY, 0xCC, 0, 2), (STRETCH, 0xCC, 0, 0), (HOST, 0xCC, 0, 0), (LINE, 0xCC, 0, 0),
                    (LINE, 0xCC, STIPPLED, 0)):
                self.keys_by(0)
                self.hold(colorFore=colour)
                self.send(COMMAND, 0xCC000000 | FILL)
                self.send(0x80, low)
                self.hold(colorFore=changed, commandExtra=extra)
                if number == HOST:
                    self.hold(srcBaseAddr=0, srcFormat=1 << 22, srcXY=0)
                    self.send(COMMAND, operation << 24 | number)
                    self.send(0x80, 0x00F8A0F8)
                    continue
                self.hold(srcBaseAddr=self.base, srcFormat=form, srcXY=low)
                self.send(COMMAND, operation << 24 | more | number)
                self.send(0x80, far if number in FROM_MEMORY else low if number == FILL else xy(x + 4, y + 2))

    def keyed(self, which: int) -> None:
        """Few colours under keys: a source key, a target key and both, one colour or a range, with operations that keep the
        target, take the source or mix them; copies, stretched copies, host words, fills and lines, each twice."""
        self.wash()
        self.lay(which, which // 4 == 1)
        form = FORMAT[self.depth] << 16 | 200
        self.set(srcBaseAddr=18_000, colorFore=self.few[0], colorBack=self.few[3])
        for extra, number in itertools.product((1, 2, 3), (COPY, STRETCH, HOST, FILL, LINE, COPY)):
            low, high = (self.pick(self.few) & 0xFFFFFF for _ in range(2))
            key = self.pick(((low, low), (min(low, high), max(low, high)), (0, 0x7F7F7F)))
            self.set(commandExtra=extra, srcColorkeyMin=key[0], srcColorkeyMax=key[1], dstColorkeyMin=key[0],
                     dstColorkeyMax=key[1], rop=sum(self.pick((0xAA, 0xAA, 0xCC, 0x66)) << 8 * i for i in range(3)))
            width, height = (self.near(3, 7), 2) if number == HOST else (self.near(3, 16), self.near(2, 6))
            x, y = self.across_edge(width, height)
            self.hold(dstSize=xy(width, height), dstXY=xy(x, y), srcSize=xy(self.near(1, 40), self.near(1, 20)),
                      srcFormat=form, srcXY=0)
            word = self.pick((0xCC, 0xCC, 0xAA)) << 24 | number
            for _ in range(2):
                if number == HOST:
                    self.hold(srcFormat=1 << 22 | FORMAT[self.depth] << 16)
                    self.send(COMMAND, word | 0x100)
                    while self.engine.waiting is not None:
                        self.send(0x80, self.pick(self.few))
                else:
                    if number == LINE:
                        self.set(srcXY=xy(x, y))
                    self.send(COMMAND, word)
                    self.send(0x80, xy(x + width - 1, y + height - 1) if number == LINE else xy(x, y) if number == FILL else
                              xy(self.near(0, 3), self.near(0, 3)) if number == STRETCH else xy(2, 3))

    def wide(self, which: int) -> None:
        """Rows of more than a thousand pixels, of which all change, none, or a few that were inverted."""
        self.depth, width = DEPTHS[which], self.near(1100, 1400)
        form = FORMAT[self.depth] << 16 | row_bytes(width, self.depth) + self.near(0, 5)
        self.set(dstBaseAddr=self.near(0, 900), dstFormat=form, clip0Max=xy(width, 3), colorFore=self.draw(32),
                 colorBack=self.rng.getrandbits(32), srcSize=xy(width // 2, 2))
        own = dict(srcBaseAddr=self.near(22_000, 22_900), srcFormat=form)
        mono = dict(srcBaseAddr=22_000, srcFormat=FORMAT[1] << 16 | 200)
        for offset in range(0x100, 0x100 + 8 * self.depth, 4):
            self.send(offset, self.rng.getrandbits(32))
        for number, operation, extra, source in ((FILL, 0xCC, 0, own), (COPY, 0xCC, 0, own), (FILL, 0xF0, 0, own),
                                                 (COPY, 0xCC, 1, own), (COPY, 0xCC, 0, mono), (STRETCH, 0xCC, 0, own),
                                                 (FILL | MONO_PATTERN | TRANSPARENT, 0xF0, 0, own), (COPY, 0x66, 0, own)):
            self.hold(**source)
            for again in range(3):
                self.keys_by(extra)
                self.hold(dstSize=xy(width, 3), dstXY=0, srcXY=0)
                self.send(COMMAND, operation << 24 | number | 0x100)
                if again != 1:
                    continue
                self.keys_by(0)
                self.hold(dstSize=xy(1, 1))
                self.send(COMMAND, 0x55000000 | FILL)
                for _ in range(4):
                    self.send(0x80, xy(self.near(0, width - 1), self.near(0, 2)))


class RunMaker(EqualMaker):
    """A stream with runs of words for the launch area."""

    def launch(self, word: int) -> None:
        if self.chance(0.5):
            return super().launch(word)
        self.launches([word])

    def launches(self, words: list[int]) -> None:
        """In one run or in several, now and then first on a memory of another length."""
        for part in self.parted(words, self.pick((1, 1, 2, 3))):
            if self.chance(self.slips):
                self.send_run(part, 1)
            self.send_run(part)

    def settle(self) -> None:
        """Feeds a waiting blit by runs, at times not to its end or past it."""
        if self.engine.waiting is not None:
            needed = -(-(self.engine.host_bytes() - len(self.engine.waiting)) // 4)
            self.launches(self.data(min(60, self.pick((needed, needed + 2, self.near(0, needed))))))
        if self.chance(0.5):
            super().settle()

    def parted(self, words: list[int], count: int) -> list[list[int]]:
        """The words in so many parts, cut anywhere; some may be empty."""
        ends = sorted(self.near(0, len(words)) for _ in range(count - 1))
        return [words[low:past] for low, past in zip([0, *ends], [*ends, len(words)])]

    def data(self, count: int) -> list[int]:
        """So many words, mostly a few or any."""
        draw = self.pick((self.draw, self.rng.getrandbits))
        return [draw(32) for _ in range(count)]

    def sources(self) -> list[int]:
        """The formats that go to the target."""
        return [depth for depth in FORMAT if allowed(depth, self.depth)]

    def stage(self, which: int) -> None:
        """A target of one format in rows, or with 4 added on tiles, and its colours."""
        self.lay(which, which // 4 == 1)
        self.set(colorFore=self.rng.getrandbits(32), colorBack=self.rng.getrandbits(32), clip1Min=xy(3, 2),
                 clip1Max=xy(self.columns * 2 // 3, self.rows // 2))
        for offset in range(0x100, 0x100 + 8 * self.depth, 16):
            self.send(offset, self.rng.getrandbits(32))

    def somewhere(self, width: int, height: int) -> Pixel:
        """A place on the target for a rectangle, on tiles where they meet."""
        if self.base & TILE_BIT:
            return self.across_edge(width, height)
        return self.near(0, self.columns - width), self.near(0, self.rows - height)

    def framed(self, width: int, height: int, sides: int) -> Pixel:
        """A place for a rectangle, and a clip that takes something off these sides of it; at times the target ends there."""
        x, y = self.somewhere(width, height)
        left, right = (self.near(1, width // 3 + 1) for _ in range(2))
        top, bottom = (self.near(1, height // 3) for _ in range(2))
        if self.chance(0.5):
            x = -left if sides & LEFT else self.columns - width + right if sides & RIGHT else x
            y = -top if sides & TOP else self.rows - height + bottom if sides & BOTTOM else y
        self.hold(clip0Min=xy(x + left if sides & LEFT else 0, y + top if sides & TOP else 0),
                  clip0Max=xy(x + width - right if sides & RIGHT else self.columns,
                              y + height - bottom if sides & BOTTOM else self.rows))
        return x, y

    def form(self, depth: int, width: int, packing: int) -> int:
        """srcFormat of host data. Packed, its stride is of no effect; else a row may have some bytes more than it needs."""
        stride = self.rng.getrandbits(14) if packing else row_bytes(width, depth) + self.near(0, 5)
        return packing << 22 | FORMAT[depth] << 16 | stride

    def blit(self, place: Pixel, size: Pixel, form: int, style: tuple[int, int, int], steps: int = 0) -> int:
        """The registers and the command of a host blit; gives the number of words that it needs."""
        operation, more, extra = style
        self.keys_by(extra, operation)
        self.hold(srcFormat=form, srcXY=0, srcBaseAddr=0, dstSize=xy(*size), dstXY=xy(*place))
        self.send(COMMAND, operation << 24 | more | steps << 10 | HOST)
        return -(-self.engine.host_bytes() // 4)

    def cuts(self, which: int) -> None:
        """Host blits from each format and packing, in every style, at times clipped: cut before each word in turn and after
        the last, and once more anywhere past that."""
        self.stage(which)
        for number, (depth, packing) in enumerate(itertools.product(self.sources(), range(4))):
            width, height = self.near(*{1: (9, 20), 8: (6, 12)}.get(depth, (3, 5))), self.near(2, 3)
            form, style = self.form(depth, width, packing), HOST_STYLES[(2 * number + number // 4 + which) % len(HOST_STYLES)]
            place = self.framed(width, height, self.pick((0, 0, LEFT, RIGHT, LEFT | RIGHT, self.near(0, 15))))
            cut = needed = 0
            while cut <= needed:
                needed = self.blit(place, (width, height), form, style)
                words = self.data(needed)
                for part in (words[:cut], *self.parted(words[cut:], 2)):
                    self.send_run(part)
                cut += 1

    def whole_rows(self, which: int) -> None:
        """Wide host blits, packed and not, clipped at either end of their rows and not: in one run, or in a few."""
        self.stage(which)
        others = {8: (8, 8), 16: (24, 32), 24: (32, 16), 32: (16, 24)}[self.depth]
        for number, (of, packing, sides, style) in enumerate(WIDE_ROWS):
            depth = {OWN: self.depth, MONO: 1, OTHER: others[(number + which // 4) % 2]}[of]
            width, height = self.near(36, min(110, self.columns) if of == MONO else 44), self.near(5, 12)
            place = self.framed(width, height, sides)
            words = self.data(self.blit(place, (width, height), self.form(depth, width, packing), style))
            for part in self.parted(words, 1 if number % 3 else 3):
                self.send_run(part)

    def glyphs(self, which: int) -> None:
        """Five glyphs to the right, downwards, both or in one place, by one run and by several. Then a run whose blit of one
        number, or its first, is off the surface: it stops there, and the words from that on are a run in another place."""
        self.stage(which)
        for number, (depth, steps) in enumerate(itertools.product(self.sources(), range(4))):
            width, height = (self.pick((5, 8, 11)), self.near(3, 7)) if depth == 1 else (self.near(2, 4), self.near(1, 3))
            form = self.form(depth, width, (number + number // 4) % 4)
            style, x, y = HOST_STYLES[(number + which) % len(HOST_STYLES)], self.near(0, 3), self.near(0, 9)
            self.hold(clip0Max=0x0FFF0FFF)
            for count in (1, 4):
                words = self.data(5 * self.blit((x, y), (width, height), form, style, steps))
                for part in self.parted(words, count):
                    self.send_run(part)
            fit = number % 3 if steps else 0  # so many are on the surface
            if steps & 1:
                x = self.columns - fit * width - self.near(0, width - 1)
            else:
                on = self.engine.target()
                below = next(y for y in itertools.count() if not on.has(x + width - 1, y, self.size))
                y = below - fit * height - self.near(0, height - 1)
            words = self.data(4 * self.blit((x, y), (width, height), form, style, steps))
            if fit and number % 2:
                self.send(0x80, words.pop(0))
            words = words[self.send_run(words):]
            self.hold(dstXY=xy(3, 3))
            self.send_run(words)
        self.framed(1, 1, 0)
        self.send_run(self.data(5 * self.blit((4095 - 2 * width, -1 - height), (width, height), form, PLAIN, 3)))  # it wraps
        if which in (0, 7):  # the longest run
            self.blit((0, 0), (12, 6), 1 << 22, PLAIN, 1)
            self.send_run(self.data(LONGEST))

    def positions(self, which: int) -> None:
        """Runs of positions for each command that takes them: all of them do, or one is off the surface or meets the target;
        past that one they go on. Then runs that are refused at their first word, and on nop."""
        self.stage(which)
        self.hold(clip0Max=0x0FFF0FFF, lineStipple=self.rng.getrandbits(32), lineStyle=11 << 8 | 1)
        form, width, height = FORMAT[self.depth] << 16 | self.stride, 4, 3
        for number, more, extra in ((FILL, 0xCC << 24, 0), (FILL, 0x5A << 24 | 1 << 10, 2), (COPY, 0xCC << 24 | 1 << 10, 0),
                                    (COPY, 0x66 << 24 | 1 << 11, 1), (STRETCH, 0xCC << 24 | 1 << 10, 0),
                                    (STRETCH, 0x66 << 24, 1), (LINE, 0xCC << 24, 0),
                                    (LINE, 0xCC << 24 | STIPPLED, 0), (POLYLINE, 0x66 << 24, 2),
                                    (POLYLINE, 0xCC << 24 | STIPPLED | TRANSPARENT, 0)):
            self.keys_by(extra)
            for bad, meets in ((None, False), (0, False), (2, False), (5, False), (0, True), (3, True)):
                self.hold(srcBaseAddr=self.base, srcFormat=form, srcXY=xy(1, 1), srcSize=xy(5, 2), dstSize=xy(width, height),
                          dstXY=xy(2, 3))
                self.send(COMMAND, more | number)
                off = self.pick((xy(-1, 40), xy(self.columns - 1, 40), xy(3, -1)))
                if number in (LINE, POLYLINE):
                    off = self.pick((xy(-2, 40), xy(self.columns + 1, 40), xy(3, -2)))
                if meets and number in FROM_MEMORY:  # onto bytes that are another surface's, or a stretched copy's own
                    self.hold(srcBaseAddr=self.base + (number == COPY))
                    off = xy(3, 3)
                places = [xy(self.near(0, self.columns - 6), self.near(36, 60)) for _ in range(6)]
                if bad is not None:
                    places[bad] = off
                taken = self.send_run(places)
                self.send_run(places[taken + 1:])
        self.keys_by(0)
        self.send(COMMAND, 0xCC000000 | NOP)
        self.send_run(self.data(9))
        for number in NOT_BUILT:
            self.send(COMMAND, 0xCC000000 | number)
            self.send_run(self.data(3))
        usual = dict(dstFormat=form, dstXY=xy(2, 3), srcXY=0, srcBaseAddr=0, srcFormat=1 << 22 | form, srcSize=xy(5, 2))
        for number, fault in ((FILL, dict(dstFormat=2 << 16)), (COPY, dict(srcFormat=2 << 16)), (STRETCH, dict(srcFormat=2 << 16)),
                              (LINE, dict(dstFormat=0)), (POLYLINE, dict(dstFormat=0)), (HOST, dict(srcBaseAddr=TILE_BIT)),
                              (STRETCH, dict(srcSize=0)), (HOST, dict(srcXY=1)), (HOST, dict(srcFormat=form & ~0x3FFF)),
                              (HOST | 1 << 14, dict(srcXY=0)), (HOST, dict(dstXY=xy(self.columns - 1, 3)))):
            self.hold(**{**usual, **fault})
            self.send(COMMAND, 0xCC000000 | number)
            self.send_run(self.data(4))

    def mixed(self, which: int) -> None:
        """Host blits, and a little of the next one, of which some words are single writes and others runs; with writes and
        runs between that are refused."""
        self.stage(which)
        for number, depth in enumerate(12 // len(self.sources()) * self.sources()):
            width, height = self.near(33, 60) if depth == 1 else self.near(6, 11), self.near(2, 4)
            operation, more, extra = HOST_STYLES[(number + which) % len(HOST_STYLES)]
            place, style = self.framed(width, height, self.pick((0, LEFT, RIGHT))), (operation, more | number % 2 << 8, extra)
            needed = self.blit(place, (width, height), self.form(depth, width, number % 4), style, number % 3)
            words = self.data(needed + self.pick((0, 1, 2)))
            while words:
                if self.chance(0.4):
                    self.send(0x80 + 4 * self.near(0, 31), words.pop(0))
                else:
                    words = words[self.send_run(words[:self.near(0, 6)]):]
                if self.engine.waiting is not None and self.chance(0.2):
                    self.pick((lambda: self.send_run(words[:3], 1), lambda: self.send(OFFSETS["colorFore"], 0),
                               lambda: self.send(0x74, 0), lambda: self.send(COMMAND, 0xCC000104)))()
            if self.engine.waiting is not None:
                self.send(COMMAND, 0xCC000000 | self.pick((NOP, FILL, HOST)))
                self.send_run([xy(*self.somewhere(width, height))] * 2)
                self.send(COMMAND, NOP)

    def no_words(self, which: int) -> None:
        """Host blits of no width or no height, each of which takes one word and may step; then one that has both, where the
        steps led."""
        self.stage(which)
        for number, (packing, size) in enumerate(itertools.product(range(4), ((0, 0), (0, 3), (3, 0)))):
            depth = self.pick(self.sources())
            self.blit((self.near(0, 9), self.near(0, 9)), size, self.form(depth, 3, packing), PLAIN, number % 4)
            self.send_run(self.data(self.near(2, 5)))
            self.hold(dstSize=xy(3, 2))
            self.send_run(self.data(-(-self.engine.host_bytes() // 4)))
        self.blit((0, 0), (3, 0), FORMAT[self.depth] << 16, PLAIN)
        self.send_run(self.data(2))  # its rows are longer than its stride

    def lengths(self, which: int) -> None:
        """Empty runs and others, on a memory of the length that the engine was opened for and on one without its last byte:
        for each command, and while a blit waits. On memories of no bytes, of a few, and of too many."""
        stride = 1 if self.size < 9 else 64
        self.set(dstFormat=FORMAT[8] << 16 | stride, clip0Max=0x0FFF0FFF, dstSize=xy(1, 1), srcSize=xy(1, 1),
                 srcFormat=FORMAT[8] << 16 | 1 << 22 | stride, srcBaseAddr=max(0, self.size - 9) & 0xFFFF, colorFore=0x5B)
        places = [xy(0, y) for y in (0, 2, 1, 3, 0)]
        for number in (*BUILT, NOT_BUILT[0]):
            self.set(srcXY=0, dstXY=0)
            self.send(COMMAND, 0xCC000000 | number)
            for words, short in itertools.product(([], places, places[:1]), (1, 0)):
                self.send_run(words, short)
        self.set(dstSize=xy(9, 1) if self.size > 9 else xy(1, 9), srcXY=0, dstXY=0, clip0Max=xy(4, 3))
        self.send(COMMAND, 0xCC000000 | HOST)
        for words, short in (([1], 0), ([2], 1), ([], 1), ([], 0), ([3, 4], 1), ([5, 6], 0), ([], 1)):
            self.send_run(words, short)


class LineMaker(EqualMaker):
    """Lines from one place to each of 81 x 81 ends around it, nine rows of ends a stream."""

    def ends(self, which: int) -> None:
        """Lines and polylines by turns of rows; then stippled ones; then clipped, mostly at both ends; then on a surface that
        is one column or one row too small, so that some points are off it."""
        part, kind, bytes_ = which % 9, which // 9, (which + which // 4) % 4 + 1
        self.depth, columns, rows = 8 * bytes_, 2 * REACH + 1, 2 * REACH + 1
        tiled, short = which % 3 == 1, kind == 3
        row = (columns - (short and part % 2)) * bytes_
        stride = -(-row // 128) if tiled else row + (0 if short else self.near(0, 5))
        span = stride * (4096 * -(-rows // 32) if tiled else rows)
        base = self.size - span + stride if short and part % 2 == 0 and not tiled else self.near(0, 900)
        if short and tiled:  # the last tiles end past the memory
            base = self.size - span + 4096
        self.set(dstBaseAddr=tiled << 31 | base, dstFormat=FORMAT[self.depth] << 16 | stride, colorFore=self.rng.getrandbits(32),
                 colorBack=self.rng.getrandbits(32), clip0Min=0, clip0Max=0x0FFF0FFF)
        for offset in range(0x100, 0x100 + 8 * self.depth, 4):
            self.send(offset, self.rng.getrandbits(32))
        for number in range(9):
            operation, more, extra = LINE_STYLES[(number + which) % len(LINE_STYLES)]
            self.keys_by(extra, operation)
            if kind == 1:
                size, repeat = self.near(0, 31), self.near(0, 3)
                self.set(lineStipple=self.rng.getrandbits(32), lineStyle=size << 8 | repeat)
                more |= STIPPLED | self.pick((0, TRANSPARENT))
            if kind == 2:
                left, top = self.near(0, 2 * REACH - 9), self.near(0, 2 * REACH - 9)
                self.set(clip0Min=xy(left, top), clip0Max=xy(left + self.near(3, 40), top + self.near(3, 40)))
            self.send(COMMAND, operation << 24 | more | (LINE, POLYLINE)[number % 2])
            for x in range(columns):
                self.send(OFFSETS["srcXY"], xy(REACH, REACH))
                self.send(0x80, xy(x, 9 * part + number))


class RoomMaker(EqualMaker):
    """A short stream on surfaces that the memory ends in. What is kept beside the registers is in the checksum at its end,
    so it leaves them in a way of its own."""

    shuffled = {"src": 90, "dst": 1}  # by these numbers it is settled which stream leaves which source and target

    def __init__(self, seed: int, size: int, tally: Counter) -> None:
        super().__init__(seed, size, tally)
        self.slips = 0.01
        self.stored: set[str] | None = None  # which of the four registers were since the last fill, if there was one
        self.last = ""  # what the last write was

    def send(self, offset: int, word: int, kind: int = 0) -> None:
        name, by_run = REGISTERS[offset][0] if offset in REGISTERS else "", self.by_run
        other = name in SURFACES and kept_with(self.engine, name, word) != self.engine.rooms()
        super().send(offset, word, kind)
        number, _, _ = self.answers[-1]
        what = "a register" if name else "launch" if pattern_index(offset) is None else "pattern"
        self.last = f"{number} {name if name in SURFACES else what}" + ", other numbers" * other
        self.tally["rooms kept", self.last] += name in SURFACES
        if number == 0 and offset == COMMAND:
            self.stored = None
        elif number == 0 and name in SURFACES and self.stored is not None:
            self.stored.add(name)
        elif number == 0 and is_launch(offset):
            self.note_fill(by_run)

    def send_run(self, words: list[int], short: int = 0) -> int:
        by_run = self.by_run
        taken = super().send_run(words, short)
        if taken:
            self.note_fill(by_run)
        return taken

    def note_fill(self, by_run: bool) -> None:
        """Counts the registers that were stored between two fills."""
        if self.engine.number() == FILL:
            way = " then ".join("run" if run else "word" for run in (by_run, self.by_run))
            self.tally.update(("rooms between fills", f"{name}, {way}") for name in self.stored or ())
            self.stored = set()

    def aim(self, side: str, surface: Surface, packing: int = 0, field: int | None = None) -> None:
        """The two registers of a surface, either of them first. Packed, its stride field may have anything."""
        stride = surface.step if field is None else field
        words = {side + "BaseAddr": surface.tiled << 31 | surface.base,
                 side + "Format": packing << 22 | FORMAT[surface.depth] << 16 | stride}
        for name in self.rng.sample([*words], 2):
            self.set(**{name: words[name]})

    def ending(self, depth: int, tiled: bool, over: int | None) -> Surface:
        """A surface of a few whole rows, or rows of tiles, and so many bytes more up to the end of the memory, or any number
        of them. Before it there are 700 bytes."""
        most, stride = self.size - 700, row_bytes(self.near(2, 9 if depth > 1 else 30), depth) + self.near(0, 2)
        if tiled:
            stride = self.near(1, min(2, most // 4096))
        unit = 4096 * stride if tiled else stride
        if over is None:
            over = self.near(row_bytes(1, depth), min(unit - 1, most - unit))
        count = self.near(2 if over < 0 and 2 * unit <= most else 1, min(5, (most - over) // unit))
        return Surface(self.size - count * unit - over, stride, depth, tiled)

    def lasts(self, surface: Surface) -> list[Pixel]:
        """Where a rectangle may end: at the last pixel of the last whole row, or past it; in a later row at the last pixel
        that is there, or past it; and in the first row of which nothing is."""
        pixels, rows = room(surface.base, surface.step, surface.depth, surface.tiled, self.size)
        past = next(y for y in itertools.count(rows) if not surface.has(0, y, self.size))
        there = {y: sum(surface.has(x, y, self.size) for x in range(pixels)) for y in range(rows, past)}
        found = [(pixels - 1, rows - 1), (pixels, rows - 1)] if rows else []
        for y in self.rng.sample([y for y in there if there[y] < pixels] or [*there], min(1, len(there))):
            found += [(there[y] - 1, y), (there[y], y)]
        return [*found, (self.near(0, pixels - 1), past)]

    def box(self, lasts: list[Pixel]) -> Pixel:
        """The sides of a rectangle that can end at each of these pixels."""
        across, down = (min(place[axis] for place in lasts) + 1 for axis in (0, 1))
        return self.near(1, min(4, across)), self.near(1, min(3, down))

    def each_end(self, number: int, lasts: list[Pixel]) -> None:
        """A command for each pixel of the target at which its rectangle is to end, or its line, as long as a side of that."""
        (width, height), turn = halves(self.engine.registers["dstSize"]), self.near(0, 3) if number == COPY else 0
        right, below = (width - 1) * (turn & 1), (height - 1) * (turn >> 1)
        if number == HOST:
            self.hold(srcXY=0)
        self.send(COMMAND, (0x66 if number in FROM_MEMORY else 0x55) << 24 | turn << 14 | number)  # 55 inverts the target
        for x, y in lasts:
            left, top = x - width + 1, y - height + 1
            if number in (LINE, POLYLINE):  # the latter from there, as it leaves out its end
                self.set(srcXY=xy(x, y) if number == POLYLINE else self.pick((xy(left, y), xy(x, top))))
            elif number != FILL:
                self.set(dstXY=xy(left + right, top + below))
            words = {FILL: xy(left, top), LINE: xy(x, y), POLYLINE: xy(left - 1, y), HOST: self.rng.getrandbits(32)}
            self.send(0x80, words.get(number, xy(self.near(0, 3) + right, self.near(0, 9) + below)))

    def each_source(self, number: int, lasts: list[Pixel]) -> None:
        """A copy for each pixel of the source at which what it takes is to end."""
        sides = halves(self.engine.registers["dstSize"])
        taken = [size - 1 for size in sides]
        if number == STRETCH:
            taken = [(size - 1) * side // size for size, side in zip(sides, halves(self.engine.registers["srcSize"]))]
        self.send(COMMAND, 0x66000000 | number)
        for x, y in lasts:
            self.send(0x80, xy(x - taken[0], y - taken[1]))

    def ready(self, **registers: int) -> None:
        """A clip that leaves everything, colours, and these registers."""
        self.set(clip0Max=0x0FFF0FFF, colorFore=self.rng.getrandbits(32), colorBack=self.rng.getrandbits(32), **registers)

    def targets(self, which: int) -> None:
        """Each command onto targets of one format, in rows or tiles, of which all whole rows are there, or all but a byte,
        or a byte more, or a part of the next row."""
        depth, tiled, two = DEPTHS[which % 4], which // 4 % 2 == 1, which % 2
        numbers, overs = (FILL, (LINE, POLYLINE)[two]), (None, which % 3 - 1, (which + 1) % 3 - 1)
        self.ready()
        if which // 8:
            numbers, overs = (HOST, FROM_MEMORY[two]), overs[:2]
            self.set(srcBaseAddr=self.near(0, 300), srcFormat=1 << 22 | self.rng.getrandbits(14))  # mono, packed
        for over in overs:
            surface = self.ending(depth, tiled, over)
            lasts = self.lasts(surface)
            size = xy(*self.box(lasts))
            self.aim("dst", surface)
            self.set(dstSize=size)
            if STRETCH in numbers:
                self.set(srcSize=size)
            for number in numbers:
                self.each_end(number, lasts)
        _, _, pixels, rows = self.engine.rooms()  # a fill that reaches past all sides, of which the clip leaves a corner
        self.set(clip0Min=xy(max(0, pixels - 9), max(0, rows - 4)), clip0Max=xy(pixels, rows), dstXY=xy(-1, -1),
                 dstSize=xy(pixels + self.near(2, 9), rows + self.near(2, 9)))
        self.send(COMMAND, 0x55000100 | FILL)

    def sources(self, which: int) -> None:
        """Copies and stretched copies from such surfaces, of one format; from mono ones in rows alone."""
        depth, tiled = DEPTHS[which % 4] if which < 8 else 1, 4 <= which < 8
        self.ready(dstBaseAddr=self.near(0, 99), dstFormat=FORMAT[depth if depth > 1 else (8, 32)[which % 2]] << 16 | 64,
                   dstXY=xy(1, 1))
        for over in (-1, 0, 1, None):
            surface = self.ending(depth, tiled, over)
            lasts = self.lasts(surface)
            width, height = self.box(lasts)
            self.aim("src", surface)
            self.set(dstSize=xy(width, height), srcSize=xy(self.near(1, width), self.near(1, height)))
            for number in FROM_MEMORY:
                self.each_source(number, lasts)

    def packings(self, which: int) -> None:
        """Copies and stretched copies from packed sources at the end of the memory, whose stride field says less than the
        packing, or more, or 0."""
        depth, onto = ((1, 16), (8, 8), (24, 32), (32, 24))[which]
        self.ready(dstFormat=FORMAT[onto] << 16 | 96, dstXY=xy(1, 1))
        for number, packing in itertools.product(FROM_MEMORY, (1, 2, 3)):
            width = self.near(9, 20) if depth == 1 else self.near(3, 5)
            step, row = packed(width, depth, packing), row_bytes(width, depth)
            field = (0, row if row < step else row - 1, step + self.near(1, 30))[(packing + which) % 3]
            surface = Surface(self.size - step * self.near(3, 6) - self.near(0, step - 1), step, depth)
            height = self.near(1, 3)
            lasts = [*dict.fromkeys((max(x, width - 1), y) for x, y in self.lasts(surface)), (surface.columns(), height - 1)]
            self.aim("src", surface, packing, field)
            self.set(dstSize=xy(width, height), srcSize=xy(width, height))
            self.each_source(number, lasts)

    def formats(self, which: int) -> None:
        """Every format of a target, in rows and tiles, under fills or lines; or of a source, packed in one way, in copies."""
        self.ready(dstSize=xy(1, 1), srcSize=xy(1, 1), dstFormat=FORMAT[8 if which % 2 else 32] << 16 | 64)
        self.send(COMMAND, 0x66000000 | (FILL, LINE, COPY, COPY, STRETCH, STRETCH)[which])
        side, packing = ("dst", 0) if which < 2 else ("src", which - 2 << 22)
        for tiled in (0, 1):
            stride = self.near(1, 3) if tiled else self.near(32, 99)
            self.set(**{side + "BaseAddr": tiled << 31 | self.near(500, 3000)})
            for form in range(8 if tiled or side == "dst" else 16):
                self.set(**{side + "Format": packing | form << 16 | stride})
                self.send(0x80, xy(self.near(0, 5) if side == "dst" else 0, self.near(0, 5)))

    def lengths(self, which: int) -> None:
        """A memory of one length. Bases at its beginning, before its end, at it and past it, strides of 0, 1, a few and the
        most, in rows and tiles; under fills of one pixel, and copies from one."""
        form, end = FORMAT[DEPTHS[which % 4]] << 16, self.size & LAST_BASE
        bases = (0, end - self.near(1, 9) & LAST_BASE, end, end + self.near(1, 9), LAST_BASE)
        self.ready(dstSize=xy(1, 1), srcSize=xy(1, 1))
        self.send(COMMAND, 0x55000000 | FILL)
        for side in ("dst", "src"):
            if side == "src":
                bases = bases[1:]
                self.set(dstBaseAddr=0, dstFormat=form | 4, dstXY=0)
                self.send(COMMAND, 0x66000000 | FROM_MEMORY[which % 2])
            for turn, (base, tiled) in enumerate(itertools.product(bases if self.size <= ROOM else bases[:2], (0, 1))):
                stride = (0, 1, self.near(2, 9), 0x3FFF)[(turn + turn // 4 + which) % 4]
                self.set(**{side + "BaseAddr": tiled << 31 | base, side + "Format": form | stride})
                self.send(0x80, xy(self.near(0, 1), 0))
        for name in SURFACES if self.size > ROOM else ():
            self.send(OFFSETS[name], self.other(name))

    def between(self, which: int) -> None:
        """Fills by words and by runs, and between them one of the four registers changes, so that other places are on the
        target: in rows, or now in rows and now in tiles."""
        strides = (1, 3) if which % 2 else (20, 40)
        self.ready(dstSize=xy(1, self.near(1, 2)) if which % 2 else xy(self.near(1, 3), self.near(1, 2)),
                   dstFormat=FORMAT[DEPTHS[which]] << 16 | self.near(*strides), dstBaseAddr=self.size - self.near(50, 300))
        self.send(COMMAND, 0x55000000 | FILL)
        for turn in range(13):
            target, name = self.engine.target(), SURFACES[turn % 4]
            self.fills(self.lasts(target))
            if name == "dstFormat":
                word = FORMAT[self.pick(DEPTHS)] << 16 | self.near(*strides)
            elif name != "dstBaseAddr":
                word = self.other(name)
            elif which % 2 and not target.tiled:
                word = TILE_BIT | self.size - self.near(4200, 9000)
            else:
                word = self.near(0, 300) if which % 2 == 0 and self.chance(0.5) else self.size - self.near(50, 300)
            self.set(**{name: word})

    def fills(self, lasts: list[Pixel]) -> None:
        """Fills that end at these pixels, or at the first of them, by runs up to each that is refused or by single words."""
        width, height = halves(self.engine.registers["dstSize"])
        places = [xy(x - width + 1, y - height + 1) for x, y in lasts]
        if self.chance(0.4):
            for place in places[:3]:
                self.send(0x80, place)
            return
        taken = self.send_run(places)
        if places[taken + 1:]:
            self.send_run(places[taken + 1:])

    def other(self, name: str) -> int:
        """A word for one of the four registers with which other numbers would be kept, if there is one."""
        for _ in range(99):
            word = self.near(0, 1) << 31 | self.near(0, self.size) & LAST_BASE
            if name.endswith("Format"):
                form = self.pick([*(TARGET_BITS if name == "dstFormat" else SOURCE_BITS)])
                word = self.near(0, 3) << 22 | form << 16 | self.near(1, 60)
            if kept_with(self.engine, name, word) != self.engine.rooms():
                break
        return word

    def left(self, side: str, number: int) -> dict[str, int]:
        """What the stream of this number leaves in the registers of one side. Of 40 streams one leaves each format that has
        no pixels, in rows and in tiles; the others have each stride and each way in which a base lies to the end."""
        listed, forms = (SOURCE_BITS, 16) if side == "src" else (TARGET_BITS, 8)
        kinds = [*itertools.product(range(forms), (0, 1))]
        none = [(form, tiled) for form, tiled in kinds if form not in listed or tiled and listed[form] == 1]
        place = random.Random(self.shuffled[side]).sample(range(40), 40)[number]
        packing = self.near(0, 3) << 22 if side == "src" else 0
        if place < len(none):
            form, tiled = none[place]
            stride, base = self.near(1, 3) if tiled else self.near(1, 40), self.near(0, self.size // 2)
        else:
            turn, tiled = divmod(place - len(none), 2)
            some = [form for form in listed if (form, tiled) not in none]
            form, stride = some[(turn + turn // 8) % len(some)], STRIDES[turn % len(STRIDES)][tiled]
            unit = max(1, 4096 * stride if tiled else stride)
            fit = min(4, (self.size - 1) // unit)
            bases = [self.size - unit * self.near(min(2, fit), fit) - over for over in (-1, 0, 1)]
            bases += [0, self.size, self.size - 1, self.size + self.near(1, 99), LAST_BASE]
            base = max(0, bases[turn % 8])
        return {side + "BaseAddr": tiled << 31 | base, side + "Format": packing | form << 16 | stride}

    def left_waiting(self, number: int) -> dict[str, int]:
        """The same with a source and a target that a host blit can have, packed."""
        depth, tiled, unit = DEPTHS[number % 4], number % 2, 4096 if number % 2 else 40
        return dict(dstBaseAddr=tiled << 31 | max(0, self.size - unit - self.near(0, 9)),
                    dstFormat=FORMAT[depth] << 16 | (1 if tiled else self.near(4, 9)),
                    srcBaseAddr=self.near(0, self.size // 2),
                    srcFormat=number % 3 + 1 << 22 | FORMAT[depth if number % 2 else 1] << 16 | self.near(1, 9))

    def leave(self, number: int) -> None:
        """The end of the stream of this number, of 46: the four registers, the last of them by turns. That one is the last
        write, or it is written again in vain on a memory without its last byte; or the pattern or other registers follow, or
        all that. In the last six all four are written again in vain, while a host blit waits."""
        how, waits = number // 8, number >= 40
        words = self.left_waiting(number - 40) if waits else {**self.left("dst", number), **self.left("src", number)}
        names = [SURFACES[(number + how + turn) % 4] for turn in range(4)]
        self.set(**{name: words[name] for name in names})
        if waits:
            self.set(clip0Max=0, dstSize=xy(self.near(9, 40), self.near(2, 9)), srcXY=0)
            self.send(COMMAND, 0xCC000100 | HOST)
            for name in names:
                self.send(OFFSETS[name], self.other(name))
        if how in (1, 4):
            self.send(OFFSETS[names[-1]], self.other(names[-1]), 1)
        for _ in range(self.near(1, 2) if how in (2, 4) else 0):
            self.send(self.pick((0x44, 0x48, 0x100 + 4 * self.near(0, 63))), self.rng.getrandbits(32))
        others = [name for name in OFFSETS if name not in (*SURFACES, "command")]
        for name in self.rng.sample(others, 2 if how in (3, 4) else 0):
            self.set(**{name: self.rng.getrandbits(32)})


def kept_with(engine: Engine, name: str, word: int) -> Rooms:
    """The numbers that would be kept with this word in a register."""
    asked = Engine(engine.length)
    asked.registers = dict(engine.registers)
    asked.store(name, word)
    return asked.rooms()


def note(tally: Counter, before: dict[str, int], waited: bool, offset: int, word: int, answer: Answer,
         after: Engine) -> None:
    """Counts what a write tried, for the table of coverage."""
    number, count, changed = answer
    tally["answers", number] += 1
    asked = Engine(after.length)  # the registers as the command found them
    asked.registers = before
    if offset == COMMAND:
        asked.store("command", word)
    elif is_launch(offset) and asked.number() in (*FROM_MEMORY, FILL, LINE, POLYLINE):
        asked.store("srcXY" if asked.number() in FROM_MEMORY else "dstXY", word)
    kind, command = asked.number(), before["command"]
    name, way = NAMES.get(kind, "not built"), "by bit 8" if offset == COMMAND else "by launch"
    source, target, (width, height) = asked.source(), asked.target(), halves(before["dstSize"])
    if count:
        share = "none" if not changed else "all" if changed == count else "some"
        tally["changed", f"{name} at {target.depth}: {share}"] += 1
        tally["changed on tiles", f"{name}: {share}"] += target.tiled
    if offset == COMMAND and waited and number != 1:
        tally["host blits", "abandoned" if number == 0 else "kept, command refused"] += 1
    if number == 0 and is_launch(offset) and kind == HOST:
        tally["host blits", "words"] += 1
        tally["host blits", "words that painted"] += count > 0
        tally["host blits", "finished"] += after.waiting is None and width * height > 0
        tally["tiles painted", f"host {'mono' if source.depth == 1 else 'colour'} words"] += target.tiled and count > 0
    if not (is_launch(offset) and not waited or offset == COMMAND and asked.flag(8)):
        return
    if kind in NAMES and kind != NOP and target and number not in (1, 2):
        note_tiles(tally, asked, name, answer, after.length)
    if number != 0:
        tally["refusals", f"{number} {name} {way}"] += number >= 4
        if number == 5 and kind in (*FROM_MEMORY, HOST) and source and target:
            tally["format pairs refused", f"{name} {source.depth}-{target.depth}"] += 1
        return
    tally["taken", f"{name} {way}"] += 1
    tally["painted at once", name] += count > 0
    if kind == NOP:
        return
    tally["keys", f"{name} {before['commandExtra'] & 3}"] += 1
    place = ("mono source" if kind in (*FROM_MEMORY, HOST) and source.depth == 1 else
             "mono pattern" if kind == FILL and asked.flag(13) else
             "stipple" if kind in (LINE, POLYLINE) and asked.flag(12) else "no effect")
    tally["transparency", f"{name} {place}"] += asked.flag(16)
    if bits(command, 31, 28) != bits(command, 27, 24):  # the raster operation uses the pattern
        form = "mono" if asked.flag(13) else "colour"
        tally["patterns", form + " row 0" * asked.extra(3) + " moved" * (bits(command, 22, 17) > 0)] += 1
    left, top, right, bottom = asked.clip()
    tally["clips", f"clip{asked.flag(23):d}" + " empty" * (right <= left or bottom <= top)] += 1
    (from_x, from_y), (to_x, to_y) = asked.place("srcXY"), asked.place("dstXY")
    across, down = to_x - from_x, to_y - from_y
    way = f"{'=+-'[(across > 0) - (across < 0)]}x{'=+-'[(down > 0) - (down < 0)]}y"
    if kind in (LINE, POLYLINE):
        slope = "steep" if abs(down) > abs(across) else "flat"
        tally["lines", f"{way} {slope}" if across and down and abs(across) != abs(down) else "others"] += 1
        style = before["lineStyle"]
        bad = bits(style, 23, 16) > bits(style, 7, 0) or bits(style, 28, 24) > bits(style, 12, 8)
        tally["lines", "stipple, illegal phase" if bad else "stipple, legal phase"] += asked.flag(12)
        return
    tally["steps", f"{name} bits {bits(command, 11, 10)}"] += 1
    tally["steps", "x wrapped"] += asked.flag(10) and to_x + width > 4095
    if kind == HOST:
        tally["host blits", "opened" if width * height else "zero data"] += 1
    if kind in (*FROM_MEMORY, HOST):
        tally["format pairs", f"{name} {source.depth}-{target.depth}"] += 1
        tally["packing", f"{name} {bits(before['srcFormat'], 23, 22)}"] += 1
    if kind == COPY and count:
        corner = bits(asked.registers["command"], 15, 14)
        apart = "between surfaces" if source != target else "one surface, apart"
        overlap = source == target and abs(across) < width and abs(down) < height
        tally["copies", f"overlap {way} bits {corner}" if overlap else apart] += 1
        past_x, past_y = -across if corner & 1 else across, -down if corner & 2 else down
        if overlap and (past_y > 0 or past_y == 0 and past_x > 0):
            note_smear(tally, asked, corner, max(abs(across), abs(down)))
    if kind == STRETCH and count:
        tally["stretches", "between surfaces" if source != target else "one surface"] += 1
        for axis, size, side in zip(("columns", "rows"), (width, height), halves(before["srcSize"])):
            change = "reduced" if side > size else "enlarged" if side < size else "as they are"
            tally["stretches", f"{axis} {change}"] += 1
            tally["stretches", f"{axis} from 1"] += side == 1
            tally["stretches", f"{axis} to 1"] += size == 1
        for edge, cut in (("left", to_x < left), ("top", to_y < top), ("right", to_x + width > right),
                          ("bottom", to_y + height > bottom)):
            tally["stretches", f"clipped {edge}"] += cut


def in_clip(asked: Engine) -> tuple[range, range]:
    """The columns and rows of a command's rectangle that the clip leaves, or those of a line's points in it."""
    left, top, right, bottom = asked.clip()
    first_x, first_y, past_x, past_y = asked.rectangle()
    if asked.number() in (LINE, POLYLINE):
        xs, ys = zip(*[point for point in asked.points() if asked.in_clip(*point)] or [(0, 0)])
        first_x, first_y, past_x, past_y = min(xs), min(ys), max(xs) + 1, max(ys) + 1
    return range(max(left, first_x), min(right, past_x)), range(max(top, first_y), min(bottom, past_y))


def crosses(surface: Surface, columns: range) -> bool:
    """There is an edge between tiles inside these columns."""
    return columns.start * surface.size() // 128 < (columns.stop * surface.size() - 1) // 128


def note_tiles(tally: Counter, asked: Engine, name: str, answer: Answer, length: int) -> None:
    """Counts what a command that was carried out, or refused, had to do with tiles."""
    number, count, _ = answer
    kind, source, target, (columns, rows) = asked.number(), asked.source(), asked.target(), in_clip(asked)
    nothing = "" if columns and rows else " with nothing covered"
    if number == 5:
        if kind in (*FROM_MEMORY, HOST) and source is None and asked.registers["srcBaseAddr"] & TILE_BIT:
            mono = bits(asked.registers["srcFormat"], 19, 16) == 0
            tally["tiles refused", f"{name} {'' if kind == HOST else 'mono ' if mono else 'packed '}source{nothing}"] += 1
        return
    ends = [("target", target, (columns[0], rows[0]), (columns[-1], rows[-1]))] if not nothing else []
    if kind in FROM_MEMORY:
        ends += [("source", source, asked.source_of(*first), asked.source_of(*last)) for _, _, first, last in ends]
        note_spans(tally, asked, f"{number} {name}", nothing, [surface.span([*both]) for _, surface, *both in ends])
        tally["tiles at the end", f"{number} {name} from stride 0{nothing}"] += source.tiled and source.step == 0
    tally["tiles at the end", f"{number} {name} to stride 0{nothing}"] += target.tiled and target.step == 0
    if number in (0, 7):
        note_rooms(tally, asked, name, number, ends)
    for side, surface, first, last in ends:
        if surface.tiled and (kind not in (LINE, POLYLINE) or first == last):
            note_end(tally, side, surface, last, number, length)
        if surface.tiled and (count or kind == HOST and number == 0):
            note_edges(tally, f"{name} {side}", surface, first, last)
    if not count:
        return
    keys, operation = asked.registers["commandExtra"] & 3, bits(asked.registers["command"], 31, 24)
    if target.tiled:
        how = {FILL: " patterned" if operation >> 4 != operation & 15 else " solid", LINE: " stippled" * asked.flag(12),
               POLYLINE: " stippled" * asked.flag(12)}
        tally["tiles painted", name + how.get(kind, "")] += 1
        tally["tiles painted", f"{name} keys {keys}"] += 1
        if kind in (FILL, COPY):
            note_whole(tally, f"{name} at {target.depth}" + ", plain" * (operation == 0xCC and not keys), asked)
    if kind in FROM_MEMORY and (source.tiled or target.tiled):
        way = " to ".join("tiles" if surface.tiled else "linear" for surface in (source, target))
        tally["tiles copied", f"{name} {way}"] += 1
        tally["tiles copied", f"{way} {source.depth}-{target.depth}"] += 1


def note_end(tally: Counter, side: str, surface: Surface, last: Pixel, number: int, length: int) -> None:
    """Counts how the last pixel lies to the end of memory."""
    (x, y), high = last, surface.address(*last, surface.size() - 1)
    if number == 0 and x + 1 < surface.columns():
        tally["tiles at the end", f"0 {side} up to it"] += not surface.has(x + 1, y, length)
    if number == 7 and 0 <= x < surface.columns() and y >= 0 and high >= length:
        power = max((power for power in (24, 31, 32, 33) if high >> power), default=0)
        tally["tiles at the end", f"7 {side} past {f'2^{power}' if power else 'it'}"] += 1
        tally["tiles at the end", f"7 {side} one pixel past it"] += x > 0 and surface.has(x - 1, y, length)


def note_rooms(tally: Counter, asked: Engine, name: str, number: int, ends: list[tuple[str, Surface, Pixel, Pixel]]) -> None:
    """Counts how what is covered or taken ends, by what is kept of its surface. It was taken, or off this surface alone."""
    off = [side for side, surface, *both in ends if not all(surface.has(*place, asked.length) for place in both)]
    for side, surface, first, last in ends:
        straight = first[0] == last[0] or first[1] == last[1]
        if number == 7 and off != [side] or asked.number() in (LINE, POLYLINE) and not straight:
            continue
        kept = asked.rooms()[:2] if side == "source" else asked.rooms()[2:]
        if side == "source" and bits(asked.registers["srcFormat"], 23, 22):
            note_packed(tally, f"{number} {name}", surface.step, asked.registers["srcFormat"], last, kept)
        else:
            note_room(tally, f"{number} {name} {side}", surface, last, kept, asked.length)


def note_room(tally: Counter, name: str, surface: Surface, last: Pixel, kept: Pixel, length: int) -> None:
    """Counts one end of a command, by its last pixel."""
    (x, y), (pixels, rows), there = last, kept, surface.has(0, last[1], length)
    number, _, side = name.split()
    if 0 <= x < pixels and y >= 0:
        where = ("the last whole row" if y == rows - 1 else "" if y < rows else "a partial row" if there else
                 "one row past all" if y == rows or surface.has(0, y - 1, length) else "")
    else:
        where = "one pixel past a row" if x == pixels and 0 <= y < rows else ""
    layout, unit = ("tiles", 4096 * surface.step) if surface.tiled else ("rows", surface.step)
    for label in filter(None, (where, "the last pixel of a row" if x == pixels - 1 and 0 <= y < rows else "")):
        tally["rooms by commands", f"{name} in {layout}: {label}"] += 1
        tally["rooms by formats", f"{number} {side} at {surface.depth} in {layout}: {label}"] += 1
    over = over_a_multiple(length - surface.base, unit)
    tally["rooms by bytes", f"{number} {side} in {layout}: {over}"] += over != ""


def over_a_multiple(left: int, unit: int) -> str:
    """How many bytes lie past the whole rows, where it is about none of them."""
    if left <= 0 or unit < 3:
        return ""
    return {unit - 1: "one less than a multiple", 0: "a multiple", 1: "one more than a multiple"}.get(left % unit, "")


def note_packed(tally: Counter, name: str, step: int, form: int, last: Pixel, kept: Pixel) -> None:
    """Counts a packed source, which does not go by what is kept."""
    field = bits(form, 13, 0)
    says = "0" if field == 0 else "less" if field < step else "more" if field > step else "the same"
    inside = "inside" if last[0] < kept[0] and last[1] < kept[1] else "past"
    tally["rooms packed", f"{name}, the field says {says}: {inside} what is kept"] += 1
    tally["rooms packed", f"{name[0]} packing {bits(form, 23, 22)}, the field says {says}"] += 1


def note_left(tally: Counter, maker: RoomMaker) -> None:
    """Counts what a stream leaves in the four registers and beside them, and with which write."""
    registers, rooms, size = maker.engine.registers, maker.engine.rooms(), maker.size
    tally["rooms left", maker.last] += 1
    for name, number in zip(("source pixels", "source rows", "target pixels", "target rows"), rooms):
        tally["numbers left", f"{maker.last}: {name}"] += number > 0
    sides = ("source", "src", SOURCE_BITS, rooms[:2]), ("target", "dst", TARGET_BITS, rooms[2:])
    for side, name, listed, (pixels, rows) in sides:
        base, word = registers[name + "BaseAddr"], registers[name + "Format"]
        at, stride, form, packing = base & LAST_BASE, bits(word, 13, 0), bits(word, 19, 16), bits(word, 23, 22)
        layout = "tiles" if base & TILE_BIT else "rows"
        tally["formats left", f"{side} {form} in {layout}"] += stride > 0
        if form not in listed or layout == "tiles" and listed[form] == 1:
            continue
        how = "rows" if rows else "no rows" if pixels else "no pixels"
        places = {0: "0", size - 1: "the last byte", size: "the end", LAST_BASE: "2^24 - 1"}
        where = places.get(at, "past it" if at > size else "inside")
        tally["formats left", f"{side} {form} in {layout}, {how}"] += 1
        tally["strides left", f"{side} {stride if stride in (0, 1, 0x3FFF) else 'of a few'} in {layout}, {how}"] += 1
        tally["bases left", f"{side} {where} in {layout}"] += 1
        over = over_a_multiple(size - at, stride * (4096 if layout == "tiles" else 1))
        tally["bases left", f"{side} {over} in {layout}"] += over != "" and rows > 0
        if packing and layout == "tiles":
            tally["packings left", f"{packing} in tiles"] += stride > 0
        elif packing:
            step = packed(halves(registers["dstSize"])[0], listed[form], packing)
            other = room(at, step, listed[form], False, size) != (pixels, rows)
            tally["packings left", f"{packing} in rows, other numbers"] += other


def note_edges(tally: Counter, name: str, surface: Surface, first: Pixel, last: Pixel) -> None:
    """Counts strides and bases, and the edges between tiles inside what is covered or taken."""
    columns = range(first[0], last[0] + 1)
    tally["tiles across", f"{name} {surface.step if surface.step <= 4 else 'more'}"] += 1
    tally["tiles from a base", f"{name} {'no ' * (surface.base % 4096 > 0)}multiple of a tile"] += 1
    tally["tile edges", f"{name} columns"] += crosses(surface, columns)
    tally["tile edges", f"{name} rows"] += first[1] // 32 < last[1] // 32
    tally["tile edges", f"{name} inside a pixel"] += any(crosses(surface, range(x, x + 1)) for x in columns)


def note_whole(tally: Counter, name: str, asked: Engine) -> None:
    """Counts fills and copies with whole tiles in them."""
    source, target, (columns, rows) = asked.source(), asked.target(), in_clip(asked)
    left, right = columns.start * target.size(), columns.stop * target.size()
    across, down = right // 128 - -(-left // 128), rows.stop // 32 - -(-rows.start // 32)
    if across <= 0 or down <= 0:
        return
    exact = left % 128 == right % 128 == rows.start % 32 == rows.stop % 32 == 0
    tally["whole tiles", name + ", nothing else" * exact] += 1
    tally["whole tiles", f"{across * down} of them" if across * down < 5 else "more of them"] += 1
    if asked.number() == COPY:
        x, y = asked.source_of(columns[0], rows[0])
        place = "the same" if x * source.size() % 128 == left % 128 and y % 32 == rows.start % 32 else "another"
        tally["whole tiles", f"from {place} place in {'a tile' if source.tiled else 'linear rows'}"] += 1


def note_spans(tally: Counter, asked: Engine, name: str, nothing: str, spans: list[tuple[int, int]]) -> None:
    """Counts copies from or to tiles that are taken or an 8, by what the surfaces differ in and how their spans lie."""
    source, target = asked.source(), asked.target()
    if name[0] not in "08" or not (source.tiled or target.tiled):
        return
    parts = ("base", "step", "depth", "tiled")
    other = [part for part in parts if getattr(source, part) != getattr(target, part)]
    which = "one surface" if not other else f"only {other[0]} differs" if len(other) == 1 else "several differ"
    tally["tiles in one place", f"{name} {which}{nothing}"] += 1
    rows = [surface.step * (128 if surface.tiled else 1) for surface in (source, target)]
    alike = source.base == target.base and rows == [128, 128] and source.tiled != target.tiled
    tally["tiles in one place", f"{name} one tile across and the same linear rows{nothing}"] += alike
    if spans and (other or asked.number() == STRETCH):
        (low, high), (source_low, source_high) = spans
        tally["tiles in one place", f"{name} spans touch"] += high + 1 == source_low or source_high + 1 == low
        tally["tiles in one place", f"{name} one byte in common"] += high == source_low or source_high == low
        tally["tiles in one place", f"{name} source's span inside"] += low < source_low and source_high < high
        tally["tiles in one place", f"{name} target's span inside"] += source_low < low and high < source_high


def note_smear(tally: Counter, asked: Engine, corner: int, distance: int) -> None:
    """Counts a copy in which some pixel is read after it was written."""
    left, top, right, bottom = asked.clip()
    first_x, first_y, past_x, past_y = asked.rectangle()
    tally["smears", f"at {asked.target().depth} from corner {corner}"] += 1
    tally["smears", f"by {distance}" if distance < 4 else "by more"] += 1
    tally["smears", f"keys {bits(asked.registers['commandExtra'], 1, 0)}"] += 1
    tally["smears", "another operation"] += bits(asked.registers["command"], 31, 24) != 0xCC
    tally["smears", "packed"] += bits(asked.registers["srcFormat"], 23, 22) > 0
    tally["smears", "first column clipped"] += past_x > right if corner & 1 else first_x < left
    tally["smears", "first row clipped"] += past_y > bottom if corner & 2 else first_y < top
    if asked.target().tiled:
        (columns, rows), far = in_clip(asked), " by about a tile" * (distance > 9)
        tally["tiles smeared", f"across columns from corner {corner}{far}"] += crosses(asked.target(), columns)
        tally["tiles smeared", f"across rows from corner {corner}{far}"] += rows[0] // 32 < rows[-1] // 32


def note_run(tally: Counter, asked: Engine, mem: bytearray, words: list[int], ran: Ran, length: int) -> None:
    """Counts how a run ended, by its command. The engine and the memory are those before it; they are used up."""
    number, taken, count, changed = ran
    kind, depth = asked.number(), asked.target().depth if asked.target() else 0
    name = NAMES.get(kind, "not built") + " that waits" * (asked.waiting is not None)
    ended = "empty" if not words else "taken whole" if not number else f"{number} at {'a later word' if taken else 'word 0'}"
    tally["runs", f"{name}: {ended}" + ", on another length" * (length != asked.length)] += 1
    if count:
        share = "none" if not changed else "all" if changed == count else "some"
        tally["runs changed", f"{NAMES[kind]} at {depth}: {share}"] += 1
    if taken and kind == HOST:
        note_data(tally, asked, mem, words[:taken], count)


def note_data(tally: Counter, asked: Engine, mem: bytearray, words: list[int], count: int) -> None:
    """Counts the host words that a run gave: where in a blit they begin and end, over how many, and what they painted."""
    source, target, packing = asked.source(), asked.target(), bits(asked.registers["srcFormat"], 23, 22)
    needed, first, waited = asked.host_bytes(), len(asked.waiting or b""), asked.waiting is not None
    width, _ = halves(asked.registers["dstSize"])
    pair, sides = f"{source.depth}-{target.depth}", clipped(asked)
    tally["runs of data", f"no words needed, packing {packing}"] += needed == 0
    if needed == 0:
        return
    x, _ = asked.place("dstXY")
    tally["runs painted", how_painted(asked)] += count > 0
    tally["runs painted", "from the left of the target"] += count > 0 and not waited and x < 0
    tally["runs painted", "to the right of the target"] += count > 0 and not waited and x + width > target.columns()
    tally["runs painted", f"{pair} packing {packing}" + " on tiles" * target.tiled] += count > 0
    finished = 0
    for word in words:
        asked.write(mem, 0x80, word)
        finished += asked.waiting is None
    begun = finished + (asked.waiting is not None)
    tally["runs of data", f"over {begun if begun < 4 else 'more'} blits, steps {bits(asked.registers['command'], 11, 10)}"] += 1
    tally["runs of data", "bytes left over"] += finished > 0 and needed % 4 > 0
    came = len(asked.waiting or b"")
    along, row = came % source.step, row_bytes(width, source.depth)
    end = ("between blits" if not came else "between rows" if not along else "in the padding" if along >= row else
           "inside a pixel" if along % source.size() else "between pixels")
    tally["runs cut", f"at {source.depth} {end}, " + ("gone on" if waited else "begun")] += 1
    if begun == 1:
        past, step = came or needed, source.step
        whole = sum(first <= at and at + row <= past for at in range(0, needed, step))
        tally["whole rows", f"{pair} packing {packing}"] += whole > 1 and width > 32
        tally["whole rows", f"{'mono' if source.depth == 1 else 'colour'} clipped: {sides}"] += whole > 1 and width > 32


def clipped(asked: Engine) -> str:
    """The ends of a rectangle's rows of which the clip takes something."""
    (left, _, right, _), (first, _, past, _) = asked.clip(), asked.rectangle()
    return " ".join(side for side, cut in (("left", first < left), ("right", past > right)) if cut) or "neither"


def how_painted(asked: Engine) -> str:
    """In which way a host blit paints."""
    source, target = asked.source(), asked.target()
    kind = "mono" if source.depth == 1 else "own" if source.depth == target.depth else "converted"
    keys, operation = asked.registers["commandExtra"] & 3, bits(asked.registers["command"], 31, 24)
    if kind == "mono" and asked.flag(16):
        return "mono transparent"
    return f"{kind} keys {keys}" if keys else f"{kind} plain" if operation == 0xCC else f"{kind} by another operation"


def planned(k: int, tally: Counter) -> Maker | None:
    """Stream k where it has a plan of its own."""
    if SMEARS <= k < SMEARS + BY_DISTANCE:
        maker = Maker(k, 18_000, tally)
        maker.every_distance(k - SMEARS)
    elif TILES <= k < TILES + len(PLANNED):
        plan, which = PLANNED[k - TILES]
        maker = TileMaker(k, ROOM if plan == "whole" else 45_000, tally)
        getattr(maker, plan)(which)
    elif EQUALS <= k < EQUALS + len(EQUAL_PLANNED):
        plan, which = EQUAL_PLANNED[k - EQUALS]
        maker = EqualMaker(k, {"twice": 37_000, "wide": 45_000}.get(plan, 26_000), tally)
        getattr(maker, plan)(which)
    elif RUNS <= k < RUNS + len(RUN_PLANNED):
        plan, which = RUN_PLANNED[k - RUNS]
        maker = RunMaker(k, (26_000, 0, 3, LIMIT + 1)[which] if plan == "lengths" else 18_000, tally)
        getattr(maker, plan)(which)
    elif LINES <= k < ROOMS:
        maker = LineMaker(k, 45_000, tally)
        maker.ends(k - LINES)
    elif ROOMS <= k:
        plan, which, size = ROOM_PLANNED[k - ROOMS]
        maker = RoomMaker(k, size, tally)
        getattr(maker, plan)(which)
        if size <= ROOM:
            maker.leave(5 * (k - ROOMS) % 46)
        note_left(tally, maker)
    else:
        return None
    return maker


def begun(k: int, tally: Counter) -> tuple[Maker, tuple[str, ...]]:
    """Stream k, not yet drawn on, and what is to be drawn most."""
    rng = random.Random(1000 + k)
    if k >= EQUALS:
        size = rng.randint(9_000, 20_000) if k % 2 else rng.randint(1024, 6000)
        maker = RunMaker(k, size, tally) if k >= RUNS else EqualMaker(k, size, tally)
        maker.on_tiles = k % 2 == 1
        maker.wash()
        return maker, ON_TILES if k % 2 else EVERYTHING + ("smear",)
    if k >= TILES:
        size = ROOM if k % 2 else CUT[k // 12 % 4] if k % 12 == 0 else rng.randint(9_000, 45_000)
        return TileMaker(k, size, tally), ("block",) if k % 2 else ON_TILES
    size = TINY[k // 19 % 4] if k % 19 == 7 else rng.randint(1024, rng.choice((2048, 4096, 16384)))
    return Maker(k, BIG.get(k, size), tally), THEMES[k % len(THEMES)] if k < MIXED else STRETCHES if k < SMEARS else ("smear",)


def build(k: int, tally: Counter) -> Maker:
    """Stream k, by its number alone."""
    maker = planned(k, tally)
    if maker is not None:
        return maker
    maker, theme = begun(k, tally)
    patterned = theme == ("fill",) or MIXED <= k < TILES and k % 4 == 0 or TILES <= k < EQUALS and k % 8 < 2
    for offset in range(0x100, 0x200, 4) if patterned else ():
        maker.put(offset, maker.draw(32))
    maker.scene()
    if k < SWEEPS:
        maker.sweep()
    if MIXED <= k < MIXED + SWEEPS:
        maker.stretch_sweep()
    length = len(maker.records) + (3 * LENGTH if k >= RUNS else LENGTH)
    while len(maker.records) < length:
        if maker.chance(0.12):
            maker.scene()
        if maker.chance(0.1):
            maker.keys()
        getattr(maker, maker.pick(EVERYTHING if maker.chance(0.12) else theme))()
        while maker.engine.waiting is not None and maker.chance(0.95):
            maker.settle()
    return maker


def binary_of(maker: Maker) -> bytes:
    head = maker.size, len(maker.answers), maker.seed_byte
    return b"".join(struct.pack("<III", *record) for record in [head, *maker.records])


def line_of(answer: Answer | Ran) -> str:
    return "run " * (len(answer) == 4) + " ".join(str(number) for number in answer)


def sums_of(engine: Engine, mem: bytearray) -> str:
    """The line at a stream's end."""
    return f"registers {checksum(register_bytes(engine))} memory {checksum(mem)}"


def make(folder: Path) -> None:
    tally: Counter = Counter()
    binary, text, writes, runs, taken = bytearray(), [], 0, 0, 0
    for k in range(STREAMS):
        maker = build(k, tally)
        binary += binary_of(maker)
        text.append(f"stream {k}: {maker.size} bytes")
        text += [line_of(answer) for answer in maker.answers]
        text.append(sums_of(maker.engine, maker.mem))
        ran = [answer for answer in maker.answers if len(answer) == 4]
        writes, runs, taken = writes + len(maker.answers) - len(ran), runs + len(ran), taken + sum(words for _, words, _, _ in ran)
    folder.mkdir(parents=True, exist_ok=True)
    (folder / "streams.bin").write_bytes(binary)
    (folder / "expected.txt").write_text("\n".join(text) + "\n")
    print(f"{STREAMS} streams, {writes} writes, {runs} runs with {taken} words taken, streams.bin {len(binary)} bytes")
    show(tally)


def show(tally: Counter) -> None:
    """Prints the counts that are not 0, group by group."""
    for group in sorted({group for group, _ in tally}):
        row = sorted((str(label), n) for (g, label), n in tally.items() if g == group and n)
        print(textwrap.fill(f"{group}: " + "; ".join(f"{label}: {n}" for label, n in row), 150, subsequent_indent="  "))


def compare(file: Path, folder: Path) -> bool:
    """Says the first difference; true if there is none."""
    found, expected = file.read_text().splitlines(), (folder / "expected.txt").read_text().splitlines()
    triples = struct.iter_unpack("<III", (folder / "streams.bin").read_bytes())
    names = []  # what each expected line speaks of
    for k, (_, records, _) in enumerate(triples):
        names.append(f"stream {k}, its head")
        for i in range(records):
            first, second, kind = next(triples)
            names.append(f"stream {k}, record {i} (" + (f"a run of {first} words, {'a byte less' if second else 'all'} of the memory)"
                                                       if kind == 2 else f"offset {first:X}, word {second:08X}, kind {kind})"))
            for _ in range(-(-first // 3) if kind == 2 else 0):
                next(triples)
        names.append(f"stream {k}, the checksums at its end")
    return agree(found, expected, names)


def agree(found: list[str], expected: list[str], names: list[str]) -> bool:
    """Says the first difference, by what its line speaks of; true if there is none."""
    for number, (name, line, here) in enumerate(zip(names, expected, found), 1):
        if line != here:
            print(f"Line {number}, {name}: expected `{line}`, found `{here}`.")
            return False
    if len(found) != len(expected):
        print(f"The output has {len(found)} lines and should have {len(expected)}; up to the shorter end they agree.")
        return False
    print(f"No difference in {len(expected)} lines.")
    return True


def obey(words: list[str], make: Callable[[Path], None], compare: Callable[[Path, Path], bool], usage: str) -> None:
    """What is asked for on the command line: make, or compare."""
    if len(words) == 2 and words[0] == "make":
        make(Path(words[1]))
    elif len(words) == 3 and words[0] == "compare":
        sys.exit(0 if compare(Path(words[1]), Path(words[2])) else 1)
    else:
        sys.exit(usage)


if __name__ == "__main__":
    obey(sys.argv[1:], make, compare, __doc__)
