"""A plain model of the 2D engine, written from the scope paper and change requests One, Two,
Three, Four, Six, Seven and Eight, with the readings of docs/DECISIONS.md where these leave a choice;
to be read beside them and compared with other programs. It is not meant to be fast.

Names in quotes in the comments are sections of the paper; "Thumbnails" is request One, "What
really changed" request Two, "The smear" request Three, "Whole glyph rows" request Four, "Tiles"
request Six, "Command packets" request Seven and "Widths" request Eight. A name after the word
DECISIONS is an entry there. Run as a program it plays a stream from its input.
"""

import copy
import sys
from collections import deque
from dataclasses import dataclass
from typing import Iterable, Iterator

Pixel = tuple[int, int]  # (x, y), signed integers (DECISIONS, "Positions do not wrap within a command")
Drawn = tuple[int, int]  # pixels written, and those of them that changed ("What really changed")
Answer = tuple[int, int, int]  # the number, and what was drawn; a refusal has 0 and 0
Ran = tuple[int, int, int, int]  # of a run of words: the number, how many were taken, and what those drew
Tail = tuple[int, int, int, int, int, int]  # of a reader of packets: see there
Rooms = tuple[int, int, int, int]  # pixels per row and whole rows of the source, then of the target

LIMIT = 16_777_216  # "What a write answers", row 1
PROGRAM_MEMORY = 65_536  # "The program"

# "Registers": offset, name and kept bits.
CLIP, BASE, XY, KEY, ALL = 0x0FFF0FFF, 0x80FFFFFF, 0x1FFF1FFF, 0x00FFFFFF, 0xFFFFFFFF
REGISTERS = {
    0x08: ("clip0Min", CLIP), 0x0C: ("clip0Max", CLIP), 0x10: ("dstBaseAddr", BASE),
    0x14: ("dstFormat", 0x00073FFF), 0x18: ("srcColorkeyMin", KEY), 0x1C: ("srcColorkeyMax", KEY),
    0x20: ("dstColorkeyMin", KEY), 0x24: ("dstColorkeyMax", KEY), 0x28: ("bresError0", ALL),
    0x2C: ("bresError1", ALL), 0x30: ("rop", KEY), 0x34: ("srcBaseAddr", BASE),
    0x38: ("commandExtra", 0xF), 0x3C: ("lineStipple", ALL), 0x40: ("lineStyle", 0x1FFF1FFF),
    0x4C: ("clip1Min", CLIP), 0x50: ("clip1Max", CLIP), 0x54: ("srcFormat", 0x00FF3FFF),
    0x58: ("srcSize", XY), 0x5C: ("srcXY", XY), 0x60: ("colorBack", ALL), 0x64: ("colorFore", ALL),
    0x68: ("dstSize", XY), 0x6C: ("dstXY", XY), 0x70: ("command", ALL),
}
OFFSETS = {name: offset for offset, (name, _) in REGISTERS.items()}
KEPT = dict(REGISTERS.values())
COMMAND = OFFSETS["command"]
ALIASES = {0x44: 0x100, 0x48: 0x104}

# "The card's part that we need", and "Thumbnails" for 2: the numbers that are built.
NOP, COPY, STRETCH, HOST, FILL, LINE, POLYLINE = BUILT = (0, 1, 2, 3, 5, 6, 7)
FROM_MEMORY = (COPY, STRETCH)  # screen copies: their source is in the memory

# "Registers": format number to bits of a pixel. A target is the same without mono.
SOURCE_BITS = {0: 1, 1: 8, 3: 16, 4: 24, 5: 32}
TARGET_BITS = {1: 8, 3: 16, 4: 24, 5: 32}
# High and low bit of a pixel's channels: blue, green, red (DECISIONS, "16 bpp layout"), or the one
# index of 8 bpp.
TRUE = ((7, 0), (15, 8), (23, 16))
CHANNELS = {8: ((7, 0),), 16: ((4, 0), (10, 5), (15, 11)), 24: TRUE, 32: TRUE}

# "Command packets": how the offsets of a packet's words go on: not at all, all one, one after the
# other, or by a mask.
NOTHING, SAME, ALONG, MASKED = range(4)


def is_launch(offset: int) -> bool:
    """By "Registers": launch area 80 to FC."""
    return 0x80 <= offset <= 0xFC and offset % 4 == 0


def pattern_index(offset: int) -> int | None:
    """By "Registers": colour pattern 100 to 1FC, and its aliases 44 and 48."""
    offset = ALIASES.get(offset, offset)
    return offset - 0x100 if 0x100 <= offset <= 0x1FC and offset % 4 == 0 else None


def bits(word: int, high: int, low: int) -> int:
    return word >> low & (1 << high - low + 1) - 1


def halves(word: int) -> tuple[int, int]:
    """The two fields of an XY, size or clip register, as they stand there."""
    return bits(word, 12, 0), bits(word, 28, 16)


def row_bytes(width: int, depth: int) -> int:
    """By "Surfaces": ceil(width x bits / 8)."""
    return (width * depth + 7) // 8


@dataclass(frozen=True)
class Surface:
    """By "What a write answers", row 8: surfaces differ if base, step or format do; by "Tiles"
    also if one is tiled and the other is not."""
    base: int
    step: int  # from row to row in bytes; of a tiled surface the tiles across
    depth: int  # bits of a pixel, 1 for mono
    tiled: bool = False

    def size(self) -> int:
        """Bytes that a pixel lies in."""
        return max(1, self.depth // 8)

    def columns(self) -> int:
        """By "Surfaces": floor(stride / b) pixels to a row, in a mono source 8 x stride. By
        "Tiles": floor(128 x stride / b)."""
        if self.depth == 1:
            return 8 * self.step
        return (128 * self.step if self.tiled else self.step) // self.size()

    def address(self, x: int, y: int, k: int) -> int:
        """The place of byte k of a pixel. By "Surfaces": base + y x stride + x x b + k; a mono
        pixel is in byte floor(x / 8). By "Tiles": a tile is 128 bytes by 32 rows, laid row by
        row; tiles follow each other along a row of tiles, then the next row."""
        column = x // 8 if self.depth == 1 else x * self.size() + k
        if not self.tiled:
            return self.base + y * self.step + column
        tile = y // 32 * self.step + column // 128
        return self.base + tile * 4096 + y % 32 * 128 + column % 128

    def places(self, x: int, y: int) -> list[int]:
        """Those of all its bytes in turn; by "Tiles" a pixel of 24 bpp may fall across two tiles."""
        return [self.address(x, y, k) for k in range(self.size())]

    def has(self, x: int, y: int, length: int) -> bool:
        """By "Surfaces": is the pixel on the surface, in a memory of this length?"""
        return y >= 0 and 0 <= x < self.columns() and all(at < length for at in self.places(x, y))

    def get(self, mem: bytes | bytearray, x: int, y: int) -> int:
        """By "Surfaces": low byte first; mono pixel x is bit 7 - (x mod 8)."""
        value = int.from_bytes([mem[at] for at in self.places(x, y)], "little")
        return value >> 7 - x % 8 & 1 if self.depth == 1 else value

    def put(self, mem: bytearray, x: int, y: int, value: int) -> None:
        for at, byte in zip(self.places(x, y), value.to_bytes(self.size(), "little")):
            mem[at] = byte

    def span(self, pixels: list[Pixel]) -> tuple[int, int]:
        """By "Surfaces": from the lowest to the highest byte of the pixels (not none)."""
        places = [at for x, y in pixels for at in self.places(x, y)]
        return min(places), max(places)


def target_surface(base: int, form: int) -> Surface | None:
    """By "Registers", formats: the surface of a base and a target format word, or none (answer 5).
    By "Tiles": base bit 31 selects them."""
    depth = TARGET_BITS.get(bits(form, 18, 16))
    if depth is None:
        return None
    return Surface(bits(base, 23, 0), bits(form, 13, 0), depth, bits(base, 31, 31) == 1)


def room(base: int, stride: int, depth: int | None, tiled: bool, length: int) -> tuple[int, int]:
    """By "Widths": the pixels per row, and the whole rows that a memory of this length has room for:
    floor((length - base) / stride), tiled 32 x floor((length - base) / (4,096 x stride)), 0 where
    the base is past the end. Both are 0 for formats that are not listed (they have no depth),
    tiled mono sources and strides of 0."""
    if depth is None or depth == 1 and tiled or stride == 0:
        return 0, 0
    left = max(0, length - base)
    if tiled:
        return 128 * stride // (depth // 8), 32 * (left // (4096 * stride))
    return 8 * stride if depth == 1 else stride // (depth // 8), left // stride


def channels(value: int, depth: int) -> list[int]:
    return [bits(value, high, low) for high, low in CHANNELS[depth]]


def widen(value: int, width: int) -> int:
    """By "What is put there", conversion: five or six bits to eight, top bits repeated below."""
    return value << 8 - width | value >> 2 * width - 8


def convert(value: int, source: int, target: int) -> int:
    """By "What is put there", conversion between the formats of these depths."""
    if source == target:
        return value
    parts = channels(value, source)
    if source == 16:
        parts = [widen(part, width) for part, width in zip(parts, (5, 6, 5))]
    blue, green, red = parts  # eight bits each
    if target == 16:
        return red >> 3 << 11 | green >> 2 << 5 | blue >> 3
    return red << 16 | green << 8 | blue


def allowed(source: int, target: int) -> bool:
    """By "What is put there", conversion: mono to all, 8 only to 8, the others to each other."""
    return source == 1 or (source == 8) == (target == 8)


def key_match(value: int, depth: int, low: int, high: int) -> bool:
    """By "What is put there": every channel between min and max, both included."""
    trio = zip(channels(value, depth), channels(low, depth), channels(high, depth))
    return all(least <= part <= most for part, least, most in trio)


def combine(rop: int, pattern: int, source: int, target: int, depth: int) -> int:
    """By "What is put there": each bit of the result is bit 4p + 2s + d of the operation."""
    result = 0
    for i in range(depth):
        number = 4 * bits(pattern, i, i) + 2 * bits(source, i, i) + bits(target, i, i)
        result |= bits(rop, number, number) << i
    return result


def line_points(start: Pixel, end: Pixel) -> list[Pixel]:
    """By "Which pixels", lines: points 0 to n."""
    across, down = end[0] - start[0], end[1] - start[1]
    n, m = max(abs(across), abs(down)), min(abs(across), abs(down))
    points = []
    for i in range(n + 1):
        minor = (2 * i * m + n) // (2 * n) if n else 0
        right, below = (i, minor) if abs(across) >= abs(down) else (minor, i)
        points.append((start[0] + (right if across >= 0 else -right),
                       start[1] + (below if down >= 0 else -below)))
    return points


def sum_of(parts: Iterable[Drawn]) -> Drawn:
    """What is drawn in several parts: both numbers added up."""
    parts = list(parts)
    return sum(count for count, _ in parts), sum(changed for _, changed in parts)


class Engine:
    def __init__(self, length: int) -> None:
        """By "Registers": a fresh engine has all of them 0. Any length will do (DECISIONS, "Opening")."""
        self.length = length
        self.registers = dict.fromkeys(OFFSETS, 0)
        self.pattern = bytearray(256)
        self.waiting: bytearray | None = None  # a waiting host blit: its data so far

    # --- "What a write answers" ---

    def write(self, mem: bytearray, offset: int, word: int) -> Answer:
        """One register write: the answer's number, the count of pixels written and, by "What
        really changed", of these the ones whose bytes differ."""
        if len(mem) > LIMIT or len(mem) != self.length:  # row 1
            return 1, 0, 0
        if offset not in REGISTERS and not is_launch(offset) and pattern_index(offset) is None:
            return 2, 0, 0  # row 2
        if self.waiting is not None and not is_launch(offset) and offset != COMMAND:
            return 3, 0, 0  # row 3
        before = copy.deepcopy((self.registers, self.pattern, self.waiting))
        answer = self.take(mem, offset, word)
        if answer[0] != 0:  # the very register write is undone too
            self.registers, self.pattern, self.waiting = before
        return answer

    def write_run(self, mem: bytearray, words: Iterable[int]) -> Ran:
        """By "Whole glyph rows": launch writes of these words in order, up to the first refused one."""
        parts: list[Drawn] = []
        for word in words:
            number, count, changed = self.write(mem, 0x80, word)
            if number != 0:
                return number, len(parts), *sum_of(parts)
            parts.append((count, changed))
        return 0, len(parts), *sum_of(parts)

    def read(self, offset: int) -> tuple[int, int]:
        """A register read back; row 2 also for the launch area; a refused read gives 0."""
        if offset in REGISTERS:
            return 0, self.registers[REGISTERS[offset][0]]
        index = pattern_index(offset)
        if index is None:
            return 2, 0
        return 0, int.from_bytes(self.pattern[index:index + 4], "little")

    def take(self, mem: bytearray, offset: int, word: int) -> Answer:
        """A write that passed rows 1 to 3. "Which pixels": what runs, where launch data goes."""
        index = pattern_index(offset)
        if index is not None:
            self.pattern[index:index + 4] = word.to_bytes(4, "little")
            return 0, 0, 0
        if not is_launch(offset):
            self.store(REGISTERS[offset][0], word)
            if offset == COMMAND:
                self.waiting = None  # a write to command abandons the rest
            return self.run(mem, b"") if offset == COMMAND and self.flag(8) else (0, 0, 0)
        data = word.to_bytes(4, "little")  # host data comes low byte first
        if self.waiting is not None:
            return 0, *self.feed(mem, data)
        if self.number() in FROM_MEMORY:
            self.store("srcXY", word)
        elif self.number() in (FILL, LINE, POLYLINE):
            self.store("dstXY", word)
        return self.run(mem, data)

    def judge(self, length: int) -> tuple[int, list[Pixel]]:
        """Rows 4 to 8 for the command that stands in the registers; with its covered pixels."""
        number = self.number()
        if number not in BUILT:  # row 4
            return 4, []
        if number == NOP:  # "Surfaces": every command but nop uses its target
            return 0, []

        target = self.target()  # row 5
        has_source = number in FROM_MEMORY or number == HOST
        source = self.source() if has_source else None
        if target is None:
            return 5, []
        if has_source and (source is None or not allowed(source.depth, target.depth)):
            return 5, []

        if number == HOST:  # row 6
            form = self.registers["srcFormat"]
            width, _ = halves(self.registers["dstSize"])
            short = bits(form, 23, 22) == 0 and source.step < row_bytes(width, source.depth)
            swizzled = bits(form, 21, 20) != 0
            if swizzled or self.flag(14) or self.flag(15) or self.registers["srcXY"] != 0 or short:
                return 6, []
        if number == STRETCH:  # row 6 by "Thumbnails": the target rectangle, clipped or not, is not empty
            width, height = halves(self.registers["dstSize"])
            source_width, source_height = halves(self.registers["srcSize"])
            if width > 0 and height > 0 and (source_width == 0 or source_height == 0):
                return 6, []

        covered: list[Pixel] = []  # row 7; the first pixel off its surface settles it
        for x, y in self.covered_pixels():
            if not target.has(x, y, length):
                return 7, []
            covered.append((x, y))
        needed = [self.source_of(x, y) for x, y in covered] if number in FROM_MEMORY else []
        if not all(source.has(x, y, length) for x, y in needed):
            return 7, []

        # row 8, for a stretch also on one surface; an empty span meets nothing
        if needed and (source != target or number == STRETCH):
            source_low, source_high = source.span(needed)
            target_low, target_high = target.span(covered)
            if source_low <= target_high and target_low <= source_high:
                return 8, []
        return 0, covered

    # --- "Registers" and "Surfaces" ---

    def store(self, name: str, word: int) -> None:
        self.registers[name] = word & KEPT[name]

    def number(self) -> int:
        return bits(self.registers["command"], 3, 0)

    def flag(self, number: int) -> bool:
        return bits(self.registers["command"], number, number) == 1

    def extra(self, number: int) -> bool:
        return bits(self.registers["commandExtra"], number, number) == 1

    def place(self, name: str) -> Pixel:
        """An XY register; both fields are signed."""
        x, y = halves(self.registers[name])
        return x - 8192 if x >= 4096 else x, y - 8192 if y >= 4096 else y

    def target(self) -> Surface | None:
        return target_surface(self.registers["dstBaseAddr"], self.registers["dstFormat"])

    def source(self) -> Surface | None:
        """The source surface or none (answer 5); its step by the packing, from the width of the
        source: srcSize's in a stretch, dstSize's elsewhere. By "Tiles": mono, packed and host-blit
        sources that are tiled are still a 5."""
        base, form = bits(self.registers["srcBaseAddr"], 23, 0), self.registers["srcFormat"]
        depth, packing = SOURCE_BITS.get(bits(form, 19, 16)), bits(form, 23, 22)
        tiled = bits(self.registers["srcBaseAddr"], 31, 31) == 1
        if depth is None or tiled and (depth == 1 or packing != 0 or self.number() == HOST):
            return None
        if packing == 0:
            return Surface(base, bits(form, 13, 0), depth, tiled)
        unit = {1: 1, 2: 2, 3: 4}[packing]
        width, _ = halves(self.registers["srcSize" if self.number() == STRETCH else "dstSize"])
        return Surface(base, (row_bytes(width, depth) + unit - 1) // unit * unit, depth)

    def rooms(self) -> Rooms:
        """By "Widths": what is kept beside the registers, the pixels per row and the number of
        whole rows that memory has room for, for source and target, as worked out from the
        registers after any write; of the source, packed or not, by the stride field. Memory is
        that of the length the engine was opened with. No answer depends on them."""
        found: list[int] = []
        for side, listed, high in (("src", SOURCE_BITS, 19), ("dst", TARGET_BITS, 18)):
            base, form = self.registers[side + "BaseAddr"], self.registers[side + "Format"]
            depth, tiled = listed.get(bits(form, high, 16)), bits(base, 31, 31) == 1
            found += room(bits(base, 23, 0), bits(form, 13, 0), depth, tiled, self.length)
        return tuple(found)

    # --- "Which pixels" ---

    def clip(self) -> tuple[int, int, int, int]:
        """The selected clip: min included, max excluded."""
        name = "clip1" if self.flag(23) else "clip0"
        return halves(self.registers[name + "Min"]) + halves(self.registers[name + "Max"])

    def in_clip(self, x: int, y: int) -> bool:
        left, top, right, bottom = self.clip()
        return left <= x < right and top <= y < bottom

    def rectangle(self) -> tuple[int, int, int, int]:
        """Target rectangle, max excluded. Bits 14 and 15 matter in plain screen copies only."""
        x, y = self.place("dstXY")
        width, height = halves(self.registers["dstSize"])
        if self.number() == COPY and self.flag(14):
            x = x - width + 1
        if self.number() == COPY and self.flag(15):
            y = y - height + 1
        return x, y, x + width, y + height

    def covered_pixels(self) -> Iterator[Pixel]:
        """The pixels of the target rectangle or line inside the selected clip, in the order in
        which they are done. By "The smear", in a plain screen copy row by row from the corner
        that bits 14 and 15 name, along the row away from it."""
        if self.number() in (LINE, POLYLINE):
            yield from (point for point in self.points() if self.in_clip(*point))
            return
        left, top, right, bottom = self.rectangle()
        clip_left, clip_top, clip_right, clip_bottom = self.clip()
        columns = range(max(left, clip_left), min(right, clip_right))
        rows = range(max(top, clip_top), min(bottom, clip_bottom))
        from_right, from_bottom = (self.number() == COPY and self.flag(bit) for bit in (14, 15))
        for y in reversed(rows) if from_bottom else rows:
            for x in reversed(columns) if from_right else columns:
                yield x, y

    def source_of(self, x: int, y: int) -> Pixel:
        """The source pixel of a screen copy's target pixel. In a plain one both XY name the same
        corner. By "Thumbnails", in a stretch target column i of w takes source column
        floor(i x sw / w), and rows likewise; i counts from the rectangle's edge, clipped or not."""
        source, target = self.place("srcXY"), self.place("dstXY")
        i, j = x - target[0], y - target[1]
        if self.number() == STRETCH:
            width, height = halves(self.registers["dstSize"])
            source_width, source_height = halves(self.registers["srcSize"])
            i, j = i * source_width // width, j * source_height // height
        return source[0] + i, source[1] + j

    def points(self) -> list[Pixel]:
        """Lines run from srcXY to dstXY; a polyline leaves out point n."""
        points = line_points(self.place("srcXY"), self.place("dstXY"))
        return points[:-1] if self.number() == POLYLINE else points

    def run(self, mem: bytearray, data: bytes) -> Answer:
        """Carries out the command; data is the launch word's bytes, or none with bit 8."""
        number, covered = self.judge(len(mem))
        if number != 0 or self.number() == NOP:
            return number, 0, 0
        if self.number() == HOST:
            self.waiting = bytearray()
            return 0, *self.feed(mem, data)
        if self.number() in (LINE, POLYLINE):
            return 0, *self.draw_line(mem)
        parts = []
        for x, y in covered:
            if self.number() in FROM_MEMORY:  # by "The smear" each read sees the writes before it
                parts.append(self.draw_from_source(mem, x, y, self.source().get(mem, *self.source_of(x, y))))
            else:  # a fill's source is colorFore; its transparency is by the mono pattern
                bit = self.mono_pattern_bit(x, y) if self.flag(13) else None
                parts.append(self.draw(mem, x, y, self.colour(1), bit, False))
        self.advance()
        return 0, *sum_of(parts)

    def advance(self) -> None:
        """Bits 10 and 11, after a copy, host blit or fill; each wraps in its 13 bits."""
        x, y = halves(self.registers["dstXY"])
        width, height = halves(self.registers["dstSize"])
        x = (x + width) % 8192 if self.flag(10) else x
        y = (y + height) % 8192 if self.flag(11) else y
        self.registers["dstXY"] = y << 16 | x

    def host_bytes(self) -> int:
        """What a host blit needs: (height - 1) x step + row bytes, none if a side is 0."""
        width, height = halves(self.registers["dstSize"])
        source = self.source()
        return (height - 1) * source.step + row_bytes(width, source.depth) if width * height else 0

    def feed(self, mem: bytearray, data: bytes) -> Drawn:
        """Host data; what is left over at the end is dropped. A blit that has all it needs ends."""
        parts = []
        for byte in data:
            if len(self.waiting) < self.host_bytes():
                self.waiting.append(byte)
                parts.append(self.draw_host_pixels(mem, self.waiting))
        if len(self.waiting) == self.host_bytes():
            self.waiting = None
            self.advance()
        return sum_of(parts)

    def draw_host_pixels(self, mem: bytearray, data: bytearray) -> Drawn:
        """A pixel is drawn when its last byte has come: here those that end with the data."""
        source = self.source()
        row, along = divmod(len(data) - 1, source.step)
        first, past = 8 * along, 8 * along + 8  # mono: the byte's eight pixels
        if source.depth > 1:
            first, past = along // source.size(), (along + 1) // source.size()  # one pixel or none
        host = Surface(0, source.step, source.depth)  # the data seen as a surface
        left, top, right, _ = self.rectangle()
        parts = []
        for column in range(first, past):
            if left + column < right and self.in_clip(left + column, top + row):
                parts.append(self.draw_from_source(mem, left + column, top + row, host.get(data, column, row)))
        return sum_of(parts)

    # --- "What is put there" ---

    def colour(self, bit: int) -> int:
        """1 is colorFore and 0 colorBack, the low bits that the target has (DECISIONS, "Colour
        registers")."""
        return bits(self.registers["colorFore" if bit else "colorBack"], self.target().depth - 1, 0)

    def pattern_place(self, x: int, y: int) -> Pixel:
        """Column and row in the pattern; row 0 if commandExtra bit 3."""
        command = self.registers["command"]
        row = 0 if self.extra(3) else (y + bits(command, 22, 20)) % 8
        return (x + bits(command, 19, 17)) % 8, row

    def mono_pattern_bit(self, x: int, y: int) -> int:
        """One byte a row from the first, column 0 in bit 7."""
        column, row = self.pattern_place(x, y)
        return bits(self.pattern[row], 7 - column, 7 - column)

    def pattern_colour(self, x: int, y: int) -> int:
        """Bit 13 set: mono; clear: eight rows of eight pixels in target format."""
        if self.flag(13):
            return self.colour(self.mono_pattern_bit(x, y))
        depth = self.target().depth  # eight pixels are as many bytes as one has bits
        return Surface(0, depth, depth).get(self.pattern, *self.pattern_place(x, y))

    def draw_from_source(self, mem: bytearray, x: int, y: int, value: int) -> Drawn:
        """A copied or host pixel. Mono never matches; keys are tested before conversion."""
        depth = self.source().depth
        if depth == 1:
            return self.draw(mem, x, y, self.colour(value), value, False)
        low, high = self.registers["srcColorkeyMin"], self.registers["srcColorkeyMax"]
        match = self.extra(0) and key_match(value, depth, low, high)
        return self.draw(mem, x, y, convert(value, depth, self.target().depth), None, match)

    def draw_line(self, mem: bytearray) -> Drawn:
        """Draws the points inside the clip; the stipple steps after each, clipped or not."""
        parts = []
        for x, y in self.points():
            bit = None
            if self.flag(12):
                number = bits(self.registers["lineStyle"], 28, 24)
                bit = bits(self.registers["lineStipple"], number, number)
            if self.in_clip(x, y):
                parts.append(self.draw(mem, x, y, self.colour(bit != 0), bit, False))
            if self.flag(12):
                self.step_stipple()
        self.registers["srcXY"] = self.registers["dstXY"]  # "Which pixels"
        return sum_of(parts)

    def step_stipple(self) -> None:
        """Repeat position 23:16 below 7:0, then bit number 28:24 below 12:8; stored back."""
        style = self.registers["lineStyle"]
        number, position = bits(style, 28, 24), bits(style, 23, 16)
        if position < bits(style, 7, 0):
            position += 1
        else:
            position = 0
            number = number + 1 if number < bits(style, 12, 8) else 0
        self.registers["lineStyle"] = number << 24 | position << 16 | bits(style, 15, 0)

    def draw(self, mem: bytearray, x: int, y: int, source: int, bit: int | None, source_match: bool) -> Drawn:
        """Writes one covered pixel, or leaves it (bit 16), and then it counts as neither. The bit
        is that of the mono source, mono pattern or stipple, where there is one. By "What really
        changed" a pixel counts there if one of its bytes is not what it was just before this."""
        if self.flag(16) and bit == 0:
            return 0, 0
        target = self.target()
        old = target.get(mem, x, y)
        low, high = self.registers["dstColorkeyMin"], self.registers["dstColorkeyMax"]
        choice = 2 * source_match + (self.extra(1) and key_match(old, target.depth, low, high))
        rops = self.registers["rop"] << 8 | bits(self.registers["command"], 31, 24)  # ROP0 to ROP3
        rop = bits(rops, 8 * choice + 7, 8 * choice)
        before = [mem[at] for at in target.places(x, y)]
        target.put(mem, x, y, combine(rop, self.pattern_colour(x, y), source, old, target.depth))
        return 1, int([mem[at] for at in target.places(x, y)] != before)


def packet_kind(header: int) -> int:
    """By "Command packets", types 1 and 2 with 2D targets; anything else is a 9, here NOTHING. By
    source document 002, 12.1.4 and 12.1.5, the type is in bits 2:0; in type 1 bit 14, the register
    base's bit 11, says 2D, and bit 15 consecutive addresses; type 2 has 2D registers only."""
    if bits(header, 2, 0) == 1 and bits(header, 14, 14) == 1:
        return ALONG if bits(header, 15, 15) == 1 else SAME
    return MASKED if bits(header, 2, 0) == 2 else NOTHING


def packet_offsets(header: int) -> list[int]:
    """The byte offsets of the words of a packet, in order. By the same two sections, type 1 has
    their number in 31:16 and the register number in 10:3 (reserved and chip bits between are not
    looked at), type 2 a mask in 31:3 whose bit N, low bit first, is the register N past clip0Min."""
    kind = packet_kind(header)
    if kind == MASKED:
        return [OFFSETS["clip0Min"] + 4 * n for n in range(29) if bits(header, 3 + n, 3 + n) == 1]
    words = bits(header, 31, 16) if kind != NOTHING else 0
    return [4 * (bits(header, 10, 3) + (k if kind == ALONG else 0)) for k in range(words)]


class PacketReader:
    """By "Command packets": a reader takes the bytes of the command FIFO, cut anywhere. A new one
    is the reader opened anew; the engine is not its own."""

    def __init__(self) -> None:
        self.part = b""  # the bytes of a part of a word
        self.kind = NOTHING
        self.offsets: deque[int] = deque()  # where the words that are left of the open packet go
        self.closed = False

    def take(self, engine: Engine, mem: bytearray, piece: bytes) -> list[Answer]:
        """Each register write is carried out once its last byte is there; the answers in order."""
        answers: list[Answer] = []
        for byte in piece:
            if self.closed:
                break  # later bytes are dropped
            self.part += bytes([byte])
            if len(self.part) == 4:
                word, self.part = int.from_bytes(self.part, "little"), b""
                answers += self.take_word(engine, mem, word)
        return answers

    def take_word(self, engine: Engine, mem: bytearray, word: int) -> list[Answer]:
        """A whole word: data of the open packet, which goes on after a refused write too; or a header."""
        if self.offsets:
            return [engine.write(mem, self.offsets.popleft(), word)]
        return self.begin(word)

    def begin(self, header: int) -> list[Answer]:
        """A packet of no words ends with its header. A 9 is answered once, and the tail is then empty."""
        self.kind, self.offsets = packet_kind(header), deque(packet_offsets(header))
        self.closed = self.kind == NOTHING
        return [(9, 0, 0)] if self.closed else []

    def tail(self) -> Tail:
        """What is unfinished: how many bytes are held, these bytes with the newest on top of the
        word; the kind of the open packet, the offset of its next word, and how many words are left,
        or which bits of the mask, the next word's lowest; and 1 if the reader is closed."""
        word = int.from_bytes(self.part.rjust(4, b"\0"), "little")
        kind, offset, left = NOTHING, 0, 0
        if self.offsets:
            kind, offset, left = self.kind, self.offsets[0], len(self.offsets)
        if kind == MASKED:
            left = sum(1 << (at - offset) // 4 for at in self.offsets)
        return len(self.part), word, kind, offset, left, int(self.closed)


def row_view(mem: bytearray, base: int, form: int, x: int, y: int, width: int) -> tuple[int, int, int]:
    """By "What a write answers": number, first byte and length of a part of a row (DECISIONS,
    "Row view"). By "Tiles": those of tiled surfaces are not given."""
    if len(mem) > LIMIT:
        return 1, 0, 0
    surface = target_surface(base, form)
    if surface is None or surface.tiled:
        return 5, 0, 0
    if width == 0 or not all(surface.has(x + i, y, len(mem)) for i in range(width)):
        return 7, 0, 0
    return 0, surface.address(x, y, 0), width * surface.size()


def picture(engine: Engine, mem: bytearray) -> str:
    """By "The program": clip0's rectangle of the target surface as plain PPM, or `no picture`."""
    left, top = halves(engine.registers["clip0Min"])
    right, bottom = halves(engine.registers["clip0Max"])
    surface = engine.target()
    if right <= left or bottom <= top or surface is None:
        return "no picture\n"
    lines = ["P3", f"{right - left} {bottom - top}", "255"]
    for y in range(top, bottom):
        for x in range(left, right):
            if not surface.has(x, y, len(mem)):
                return "no picture\n"
            value = surface.get(mem, x, y)
            if surface.depth == 8:
                blue = green = red = value
            else:
                blue, green, red = channels(convert(value, surface.depth, 32), 32)
            lines.append(f"{red} {green} {blue}")
    return "\n".join(lines) + "\n"


def play(stream: bytes) -> str:
    """By "The program": pairs of words, offset then data; the picture or the first fault met."""
    mem = bytearray(PROGRAM_MEMORY)
    engine = Engine(len(mem))
    for start in range(0, len(stream), 8):
        pair = stream[start:start + 8]
        if len(pair) < 8:
            return "short write\n"
        offset, word = int.from_bytes(pair[:4], "little"), int.from_bytes(pair[4:], "little")
        number, _, _ = engine.write(mem, offset, word)
        if number != 0:
            return f"refused {number} at {start // 8}\n"
    return picture(engine, mem)


def packet_picture(data: bytes) -> str:
    """The same of a file of command packets: K counts all answers, a 9 among them, and the file may
    end inside a packet, be it in a word or between two."""
    mem = bytearray(PROGRAM_MEMORY)
    engine, reader = Engine(len(mem)), PacketReader()
    for index, (number, _, _) in enumerate(reader.take(engine, mem, data)):
        if number != 0:
            return f"refused {number} at {index}\n"
    held, _, kind, _, _, _ = reader.tail()
    return "short write\n" if held > 0 or kind != NOTHING else picture(engine, mem)


if __name__ == "__main__":
    sys.stdout.write(play(sys.stdin.buffer.read()))
