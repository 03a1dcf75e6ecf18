"""A proof sheet of three picture discs, with forty thumbnails of sleeves and a border, as a recorded stream of register
writes, for the program that prints pictures.

python3 tools/demo.py docs/demo.stream    writes it: pairs of little-endian words, offset then data
"""

import math
import struct
import sys
from typing import Callable

from model import OFFSETS

Colour = tuple[float, float, float]  # red, green, blue, 0 to 255
Shade = Callable[[float, float], Colour]  # a picture over the unit square, v downward

WIDTH, HEIGHT, STRIDE = 202, 162, 404  # 16 bits a pixel; the memory has room for no row more
SLEEVES, SLEEVE_SIDE = 20, 48  # the first row and the side of the three sleeves
PAINTED, PAINTED_SIDE = 70, 36  # those of five more, which stand below them until the captions are drawn
STRIP, THUMB = 108, 12  # the first row of the strip of thumbnails, and a thumbnail's side
LAUNCH, PATTERN, COLOUR_PATTERN = 0x80, 0x44, 0x100
COPY, STRETCH, HOST, FILL, LINE = 0xCC000001, 0xCC000002, 0xCC000003, 0xCC000005, 0xCC000006
STEP_X, STIPPLED, MONO_PATTERN, TRANSPARENT = 1 << 10, 1 << 12, 1 << 13, 1 << 16
FROM_RIGHT, FROM_BOTTOM = 1 << 14, 1 << 15
PATTERN_COPY = 0xF0000000 | FILL & 0xFF
FORMAT_16, MONO_BYTES, COLOUR_WORDS = 0x30000, 0x400000, 0xC30000

INK, GOLD, CREAM, PAPER, SHADE = (30, 32, 48), (236, 190, 92), (250, 244, 228), (240, 233, 214), (206, 196, 170)
KEY = (248, 0, 248)  # keyed out: no picture has it
RED, BLUE, YELLOW, TEAL = (206, 58, 48), (36, 70, 150), (244, 196, 60), (40, 130, 128)

LARGE = {  # 5 by 7 glyphs, a row to two digits
    "A": "0E11111F111111", "B": "1E11111E11111E", "C": "0E11101010110E", "D": "1E11111111111E", "E": "1F10101E10101F",
    "F": "1F10101E101010", "G": "0E11101711110F", "H": "1111111F111111", "I": "0E04040404040E", "J": "0702020202120C",
    "K": "11121418141211", "L": "1010101010101F", "M": "111B1515111111", "N": "11191513111111", "O": "0E11111111110E",
    "P": "1E11111E101010", "Q": "0E11111115120D", "R": "1E11111E141211", "S": "0F10100E01011E", "T": "1F040404040404",
    "U": "1111111111110E", "V": "11111111110A04", "W": "11111115151B11", "X": "11110A040A1111", "Y": "11110A04040404",
    "Z": "1F01020408101F", " ": "00000000000000",
}
SMALL = {  # 3 by 5 glyphs, a row to a digit
    "A": "25755", "B": "65656", "C": "34443", "D": "65556", "E": "74647", "F": "74644", "G": "34553", "H": "55755",
    "I": "72227", "J": "11152", "K": "55655", "L": "44447", "M": "57755", "N": "65555", "O": "25552", "P": "65644",
    "Q": "25563", "R": "65655", "S": "34216", "T": "72222", "U": "55557", "V": "55552", "W": "55775", "X": "55255",
    "Y": "55222", "Z": "71247", "0": "75557", "1": "26227", "2": "61247", "3": "61216", "4": "55711", "5": "74616",
    "6": "34757", "7": "71222", "8": "75757", "9": "75716", ":": "02020", ".": "00002", "-": "00700", " ": "00000",
}


def word16(colour: Colour) -> int:
    red, green, blue = (min(255, max(0, round(part))) for part in colour)
    return red >> 3 << 11 | green >> 2 << 5 | blue >> 3


def mix(one: Colour, two: Colour, share: float) -> Colour:
    return tuple(a + (b - a) * min(1.0, max(0.0, share)) for a, b in zip(one, two))


class Stream:
    """The writes so far, and what they left in the registers that the engine itself does not change."""

    def __init__(self) -> None:
        self.pairs: list[tuple[int, int]] = []
        self.held: dict[str, int] = {}

    def put(self, offset: int, word: int) -> None:
        self.pairs.append((offset, word))

    def set(self, **registers: int) -> None:
        """Registers by name; one that holds the word already is left alone, but for those that commands change."""
        for name, word in registers.items():
            if name in ("srcXY", "dstXY", "lineStyle") or self.held.get(name) != word:
                self.put(OFFSETS[name], word)
            self.held[name] = word

    def launch(self, command: int, *words: int) -> None:
        self.set(command=command)
        for word in words:
            self.put(LAUNCH, word)

    def clip(self, x: int, y: int, width: int, height: int) -> None:
        self.set(clip0Min=y << 16 | x, clip0Max=y + height << 16 | x + width)

    def fill(self, x: int, y: int, width: int, height: int, colour: Colour) -> None:
        self.set(dstSize=height << 16 | width, colorFore=word16(colour))
        self.launch(FILL, y << 16 | x)

    def hatch(self, x: int, y: int, width: int, height: int, rows: bytes, fore: Colour, back: Colour) -> None:
        """A fill by a mono pattern of eight rows."""
        for i in (0, 4):
            self.put(PATTERN + i, int.from_bytes(rows[i:i + 4], "little"))
        self.set(dstSize=height << 16 | width, colorFore=word16(fore), colorBack=word16(back))
        self.launch(PATTERN_COPY | MONO_PATTERN, y << 16 | x)

    def line(self, x: int, y: int, to_x: int, to_y: int, colour: Colour, command: int = LINE) -> None:
        self.set(srcXY=y << 16 | x, colorFore=word16(colour))
        self.launch(command, to_y << 16 | to_x)

    def dashes(self, x: int, y: int, to_x: int, to_y: int, colour: Colour) -> None:
        """A cutting line: four points drawn, three left out."""
        self.set(lineStipple=0b0001111, lineStyle=6 << 8)
        self.line(x, y, to_x, to_y, colour, LINE | STIPPLED | TRANSPARENT)

    def copy(self, x: int, y: int, width: int, height: int, to_x: int, to_y: int, turn: int = 0) -> None:
        """A rectangle of the sheet; both places are those of the corner that the turn names."""
        self.set(srcFormat=FORMAT_16 | STRIDE, dstSize=height << 16 | width, dstXY=to_y << 16 | to_x)
        self.launch(COPY | turn, y << 16 | x)

    def stretch(self, x: int, y: int, size: tuple[int, int], to_x: int, to_y: int, to_size: tuple[int, int],
                command: int = STRETCH) -> None:
        """A rectangle of the sheet, reduced or enlarged to another size."""
        self.set(srcFormat=FORMAT_16 | STRIDE, srcSize=size[1] << 16 | size[0], dstSize=to_size[1] << 16 | to_size[0],
                 dstXY=to_y << 16 | to_x)
        self.launch(command, y << 16 | x)

    def image(self, x: int, y: int, rows: list[list[int]]) -> None:
        """A host blit of 16 bit pixels, rows packed to whole words."""
        self.set(srcFormat=COLOUR_WORDS, srcXY=0, dstSize=len(rows) << 16 | len(rows[0]), dstXY=y << 16 | x)
        data = b"".join(struct.pack(f"<{len(row)}H", *row) + bytes(len(row) % 2 * 2) for row in rows)
        self.launch(HOST, *struct.unpack(f"<{len(data) // 4}I", data))

    def keyed(self, colour: Colour | None) -> None:
        """From here on source pixels of the colour leave the target as it is; none: all are drawn."""
        if colour:
            self.set(srcColorkeyMin=word16(colour), srcColorkeyMax=word16(colour), rop=0xAA00)
        self.set(commandExtra=1 if colour else 0)

    def text(self, x: int, y: int, words: str, colour: Colour, font: dict[str, str] = LARGE) -> None:
        """Transparent mono host blits, one to a glyph, each a pixel wider than its ink and stepping on by its width."""
        width, height = (6, 7) if font is LARGE else (4, 5)
        self.set(srcFormat=MONO_BYTES, srcXY=0, dstSize=height << 16 | width, dstXY=y << 16 | x, colorFore=word16(colour))
        for glyph in words:
            digits = len(font[glyph]) // height
            rows = [int(font[glyph][i:i + digits], 16) << 9 - width for i in range(0, len(font[glyph]), digits)]
            data = bytes(rows + [0] * (8 - height))
            self.launch(HOST | STEP_X | TRANSPARENT, *struct.unpack("<II", data))

    def bytes(self) -> bytes:
        return b"".join(struct.pack("<II", *pair) for pair in self.pairs)


# --- the artworks ---

def inside(u: float, v: float, corners: list[tuple[float, float]]) -> bool:
    odd = False
    for (ax, ay), (bx, by) in zip(corners, corners[1:] + corners[:1]):
        if (ay > v) != (by > v) and u < ax + (v - ay) * (bx - ax) / (by - ay):
            odd = not odd
    return odd


FOX = [  # left half of the head, from back to front; the right half mirrors it, darker
    ((196, 82, 30), [(0.17, 0.06), (0.45, 0.36), (0.13, 0.50)]),
    ((58, 30, 34), [(0.205, 0.17), (0.37, 0.36), (0.18, 0.43)]),
    ((224, 104, 38), [(0.13, 0.48), (0.40, 0.33), (0.36, 0.60)]),
    ((240, 128, 48), [(0.40, 0.33), (0.50, 0.38), (0.50, 0.70), (0.36, 0.60)]),
    ((200, 84, 32), [(0.13, 0.48), (0.36, 0.60), (0.04, 0.67)]),
    ((246, 238, 222), [(0.04, 0.67), (0.36, 0.58), (0.45, 0.66), (0.48, 0.90), (0.33, 0.82)]),
    ((250, 156, 66), [(0.50, 0.44), (0.44, 0.64), (0.475, 0.86), (0.50, 0.88)]),
    ((30, 22, 30), [(0.25, 0.555), (0.40, 0.625), (0.32, 0.645)]),
    ((26, 20, 28), [(0.43, 0.83), (0.50, 0.82), (0.50, 0.93)]),
]


def fox(u: float, v: float) -> Colour:
    """A fox's head in triangles before a moon."""
    colour = mix((16, 58, 74), (34, 122, 120), v)
    if math.hypot(u - 0.5, v - 0.42) < 0.41:
        colour = mix((250, 226, 160), (240, 196, 120), v)
    for paint, corners in FOX:
        if inside(u, v, corners):
            colour = paint
        elif inside(1 - u, v, corners):
            colour = mix(paint, (40, 12, 24), 0.2)
    return colour


def ridge(u: float, peaks: list[tuple[float, float]], slope: float) -> float:
    """The height line of some peaks."""
    return min(top + slope * abs(u - at) for at, top in peaks)


def mountain(u: float, v: float) -> Colour:
    """Two ranges before a setting sun, and a lake."""
    lake = v > 0.80
    depth = v
    if lake:  # what stands above, upside down and shaken
        v = 1.60 - v - 0.10 * (v - 0.80)
        u += 0.03 * math.sin(130 * depth)
    colour = mix((56, 30, 92), (232, 92, 92), v / 0.45) if v < 0.45 else mix((232, 92, 92), (255, 196, 104), (v - 0.45) / 0.3)
    from_sun = math.hypot(u - 0.60, v - 0.40)
    if from_sun < 0.22 and not (v > 0.40 and (v - 0.40) % 0.07 < 0.022):
        colour = mix((255, 244, 176), (255, 190, 84), (v - 0.2) / 0.4)
    if v > ridge(u, [(0.14, 0.50), (0.86, 0.46), (0.52, 0.62)], 0.75):
        colour = (126, 62, 118)
    near = ridge(u, [(0.32, 0.34), (0.98, 0.60)], 1.15)
    if v > near:
        lit = u < 0.32 + 0.10 * math.sin(20 * v)
        colour = (74, 50, 104) if lit else (46, 32, 78)
        if v < 0.47 + 0.03 * math.sin(44 * u) and u < 0.6:
            colour = (250, 240, 244) if lit else (188, 176, 208)
    return mix(colour, (20, 20, 60), 0.45) if lake else colour


RINGS = [(242, 230, 204), (210, 64, 48), (24, 34, 58), (240, 178, 60), (26, 104, 120)]
TURNS = [[0, 2, 1], [3, 1, 0], [1, 3, 2]]  # the corner of each tile from which its rings go out


def rings(u: float, v: float) -> Colour:
    """Quarter rings in nine tiles."""
    column, row = min(2, int(u * 3)), min(2, int(v * 3))
    turn = TURNS[row][column]
    x, y = u * 3 - column, v * 3 - row
    radius = math.hypot(x if turn in (0, 3) else 1 - x, y if turn in (0, 1) else 1 - y)
    ring = int(radius * 4.0)
    return RINGS[(ring + 2 * row + column) % 5] if ring < 4 else RINGS[(row * 2 + column * 3 + 4) % 5]


def drawn(shade: Shade, size: int, columns: range) -> list[list[int]]:
    """Columns of a square picture, each pixel the mean of sixteen points."""
    points = [(i + 0.5) / 4 for i in range(4)]
    rows = []
    for y in range(size):
        row = []
        for x in columns:
            parts = [shade((x + i) / size, (y + j) / size) for i in points for j in points]
            row.append(word16(tuple(sum(part) / 16 for part in zip(*parts))))
        rows.append(row)
    return rows


def disc(shade: Shade, size: int, columns: range) -> list[list[int]]:
    """Columns of a picture disc: the picture under grooves and a gleam, the key's colour around it."""
    def pressed(u: float, v: float) -> Colour:
        radius, angle = math.hypot(u - 0.5, v - 0.5) * size, math.atan2(v - 0.5, u - 0.5)
        groove = 0.10 if int(radius) % 3 == 0 else 0.0
        gleam = max(0.0, math.cos(2 * (angle - 0.5))) ** 12
        colour = mix(shade(u, v), (0, 0, 0), 0.12 + groove)
        return mix(mix(colour, (255, 255, 255), 0.5 * gleam), INK, radius - size / 2 + 1.5)

    rows = drawn(pressed, size, columns)
    for y, row in enumerate(rows):
        for i, x in enumerate(columns):
            if math.hypot(x + 0.5 - size / 2, y + 0.5 - size / 2) > size / 2:
                row[i] = word16(KEY)
    return rows


# --- the sheet ---

def loud(title: str, share: float) -> float:
    """How loud a side is at a share of its length, 0 to 1."""
    if title == "FOX FIRE":  # beats that die away
        beat = share * 7 % 1
        return (0.25 + 0.75 * math.exp(-3.2 * beat)) * (0.75 + 0.25 * math.sin(90 * share))
    if title == "NORTH RIM":  # one long swell
        return (0.12 + 0.88 * math.sin(math.pi * share) ** 2) * (0.72 + 0.28 * math.sin(47 * share) * math.sin(31 * share))
    return abs(math.sin(9.5 * share) * math.cos(26 * share)) * 0.8 + 0.2  # two tones against each other


def wave(sheet: Stream, x: int, y: int, width: int, height: int, title: str, colour: Colour) -> None:
    """A side's waveform: a peak line and a brighter inner line to each column."""
    sheet.fill(x, y, width, height, INK)
    middle = y + height // 2
    for part, tint in ((1.0, mix(colour, INK, 0.45)), (0.6, mix(colour, CREAM, 0.15))):
        for i in range(2, width - 2):
            reach = round(part * (height / 2 - 2) * loud(title, (i - 2) / (width - 4)))
            sheet.line(x + i, middle - reach, x + i, middle + reach, tint)


def sleeve(sheet: Stream, x: int, shade: Shade) -> None:
    """A sleeve with its disc showing at the right."""
    out = 10
    sheet.keyed(KEY)
    sheet.image(x + SLEEVE_SIDE, SLEEVES + 2, disc(shade, 44, range(44 - out, 44)))
    sheet.keyed(None)
    sheet.fill(x + 1, SLEEVES + SLEEVE_SIDE, SLEEVE_SIDE, 1, SHADE)
    sheet.image(x, SLEEVES, drawn(shade, SLEEVE_SIDE, range(SLEEVE_SIDE)))


def captions(sheet: Stream, x: int, title: str, side: str, colour: Colour) -> None:
    """What stands below a sleeve: its captions and its waveform."""
    sheet.text(x, 71, title, INK)
    sheet.text(x, 80, side, mix(INK, PAPER, 0.35), SMALL)
    wave(sheet, x, 87, 58, 18, title, colour)


def marks(sheet: Stream) -> None:
    """A register mark, drawn once where the paper will be, copied to the corners without its ground."""
    x, y = WIDTH // 2, HEIGHT // 2
    sheet.fill(x, y, 5, 5, KEY)
    sheet.line(x + 2, y, x + 2, y + 4, GOLD)
    sheet.line(x, y + 2, x + 4, y + 2, GOLD)
    sheet.fill(x + 2, y + 2, 1, 1, CREAM)
    sheet.keyed(KEY)
    for to_x in (0, WIDTH - 5):
        for to_y in (0, HEIGHT - 5):
            sheet.copy(x, y, 5, 5, to_x, to_y)
    sheet.keyed(None)


def border(sheet: Stream) -> None:
    """Three lines along each side of the sheet, clockwise. The first end of a side is painted, and one copy of it onto its
    neighbour, over the side's whole length and away from that end, spreads it: each side from another corner."""
    for line, tint in enumerate((mix(GOLD, INK, 0.5), GOLD, mix(GOLD, INK, 0.7)), 1):
        for x, y in ((6, line), (WIDTH - 1 - line, 6), (WIDTH - 7, HEIGHT - 1 - line), (line, HEIGHT - 7)):
            sheet.fill(x, y, 1, 1, tint)
    across, down = WIDTH - 13, HEIGHT - 13
    sheet.copy(6, 1, across, 3, 7, 1)
    sheet.copy(WIDTH - 2, 6, 3, down, WIDTH - 2, 7, FROM_RIGHT)
    sheet.copy(WIDTH - 7, HEIGHT - 2, across, 3, WIDTH - 8, HEIGHT - 2, FROM_RIGHT | FROM_BOTTOM)
    sheet.copy(1, HEIGHT - 7, 3, down, 1, HEIGHT - 8, FROM_BOTTOM)


# --- forty thumbnails ---

def round_fill(sheet: Stream, x: int, y: int, size: int, radius: float, colour: Colour) -> None:
    """A disc in the middle of a square, row by row."""
    for row in range(size):
        away = abs(row + 0.5 - size / 2)
        half = round(math.sqrt(radius * radius - away * away)) if away < radius else 0
        if half:
            sheet.fill(x + size // 2 - half, y + row, 2 * half, 1, colour)


def record(sheet: Stream, x: int, y: int, size: int) -> None:
    """A record without a sleeve, on the key's colour."""
    sheet.fill(x, y, size, size, KEY)
    for radius, colour in ((18, (40, 40, 52)), (14, (78, 78, 96)), (12, (40, 40, 52)), (7, RED), (2, CREAM)):
        round_fill(sheet, x, y, size, radius, colour)


def sunburst(sheet: Stream, x: int, y: int, size: int) -> None:
    """Rays from the middle of the lower edge, and a sun."""
    sheet.fill(x, y, size, size, YELLOW)
    ends = [(0, row) for row in range(size - 1, -1, -1)] + [(column, 0) for column in range(1, size)]
    ends += [(size - 1, row) for row in range(1, size)]
    for number, (column, row) in enumerate(ends):
        if number // 9 % 2:
            sheet.line(x + size // 2, y + size - 1, x + column, y + row, RED)
    for row in range(12):
        half = round(math.sqrt(12 * 12 - row * row))
        sheet.fill(x + size // 2 - half, y + size - 1 - row, 2 * half, 1, CREAM)


def blocks(sheet: Stream, x: int, y: int, size: int) -> None:
    """Fields of colour between bars."""
    sheet.fill(x, y, size, size, CREAM)
    for left, top, width, height, colour in ((12, 0, 24, 21, RED), (0, 24, 9, 12, BLUE), (27, 30, 9, 6, YELLOW),
                                             (9, 0, 3, 36, INK), (0, 21, 36, 3, INK), (0, 9, 9, 3, INK),
                                             (24, 24, 3, 12, INK), (27, 27, 9, 3, INK)):
        sheet.fill(x + left, y + top, width, height, colour)


def letter(sheet: Stream, x: int, y: int, size: int) -> None:
    """A glyph enlarged four times, without its ground, over a hatch."""
    sheet.hatch(x, y, size, size, bytes.fromhex("F0F0F0F00F0F0F0F"), (30, 92, 98), TEAL)
    sheet.fill(x, STRIP, 6, 7, KEY)
    sheet.text(x, STRIP, "R", CREAM)
    sheet.keyed(KEY)
    sheet.stretch(x, STRIP, (5, 7), x + 8, y + 4, (20, 28))
    sheet.keyed(None)


def tiles(sheet: Stream, x: int, y: int, size: int) -> None:
    """A tile, copied to the eight other places."""
    third = size // 3
    sheet.fill(x, y, third, third, BLUE)
    for row in range(third):
        sheet.fill(x, y + row, third - row, 1, (120, 176, 216))
    sheet.fill(x + 3, y + 3, 6, 6, GOLD)
    for number in range(1, 9):
        sheet.copy(x, y, third, third, x + number % 3 * third, y + number // 3 * third)


PRINTS = [  # whole; source and pattern, twice; source or pattern; negative
    (STRETCH, None), (0xC0000002, (255, 255, 0)), (0xC0000002, (0, 255, 255)), (0xFC000002, (255, 0, 0)), (0x33000002, None),
]


def thumbnails(sheet: Stream, columns: tuple[int, ...]) -> None:
    """A sheet of eight large sleeves, three at the columns and five painted below them, each reduced in five prints. What
    has the key's colour shows the strip's ground."""
    sources = [(x, SLEEVES, SLEEVE_SIDE) for x in columns]
    for number, paint in enumerate((record, sunburst, blocks, letter, tiles)):
        x = columns[0] + number * (PAINTED_SIDE + 2)
        paint(sheet, x, PAINTED, PAINTED_SIDE)
        sources.append((x, PAINTED, PAINTED_SIDE))
    sheet.fill(columns[0], STRIP, 186, 3 * (THUMB + 1) + 1, INK)
    places = [(columns[0] + 3 + slot % 14 * (THUMB + 1), STRIP + 1 + slot // 14 * (THUMB + 1)) for slot in range(2, 42)]
    sheet.keyed(KEY)
    for first, (command, ink) in enumerate(PRINTS):
        for at in range(0, 128, 4) if ink else ():
            sheet.put(COLOUR_PATTERN + at, word16(ink) * 0x10001)
        for number in range(first, 40, len(PRINTS)):
            x, y, side = sources[number % len(sources)]
            sheet.stretch(x, y, (side, side), *places[number], (THUMB, THUMB), command)
    sheet.keyed(None)


def count(sheet: Stream, x: int, y: int) -> None:
    """The strip's own caption, its number enlarged twice from a small one that is painted over later."""
    sheet.fill(x, PAINTED, 8, 5, INK)
    sheet.text(x, PAINTED, "40", GOLD, SMALL)
    sheet.stretch(x, PAINTED, (7, 5), x, y, (14, 10))
    sheet.text(x + 16, y + 5, "UP", CREAM, SMALL)


def colour_bar(sheet: Stream, x: int, y: int, to_x: int) -> None:
    """Patches of the printing inks, and a copy of them."""
    inks = [(0, 160, 220), (220, 0, 120), (252, 226, 0), (20, 20, 20), (216, 40, 40), (32, 144, 64), (40, 56, 160)]
    for i, ink in enumerate(inks):
        sheet.fill(x + 6 * i, y, 6, 6, ink)
    sheet.copy(x, y, 6 * len(inks), 6, to_x, y)


def proof_sheet() -> Stream:
    sheet = Stream()
    sheet.set(dstBaseAddr=0, srcBaseAddr=0, dstFormat=FORMAT_16 | STRIDE)
    sheet.clip(0, 0, WIDTH, HEIGHT)
    sheet.hatch(0, 0, WIDTH, HEIGHT, bytes.fromhex("8800220088002200"), (58, 62, 84), (24, 26, 38))
    marks(sheet)
    border(sheet)
    sheet.fill(8, 8, 190, 150, (8, 8, 14))
    sheet.fill(6, 6, 190, 150, PAPER)
    sheet.fill(6, 6, 190, 12, INK)
    sheet.text(11, 8, "RIMEBARROW", GOLD)
    sheet.text(109, 9, "PICTURE DISCS - PROOF", CREAM, SMALL)
    columns = (8, 72, 136)
    for x, shade in zip(columns, (fox, mountain, rings)):
        sleeve(sheet, x, shade)
    thumbnails(sheet, columns)
    count(sheet, columns[0] + 3, STRIP + 2)
    sheet.fill(6, PAINTED, 190, PAINTED_SIDE + 2, PAPER)
    captions(sheet, columns[0], "FOX FIRE", "SIDE A 3:42", (240, 128, 48))
    captions(sheet, columns[1], "NORTH RIM", "SIDE A 5:07", (214, 96, 150))
    captions(sheet, columns[2], "SLOW WAX", "SIDE B 4:18", (60, 170, 176))
    for x in (69, 133):
        sheet.dashes(x, 19, x, 105, (170, 40, 40))
    sheet.dashes(7, 106, 194, 106, (170, 40, 40))
    colour_bar(sheet, 8, 149, 152)
    sheet.text(61, 150, "CUT ALONG THE DASHES", INK, SMALL)
    return sheet


if __name__ == "__main__":
    if len(sys.argv) != 2:
        sys.exit(__doc__.strip())
    with open(sys.argv[1], "wb") as out:
        out.write(proof_sheet().bytes())
