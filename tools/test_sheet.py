"""The programs compared with the model on named and on seeded streams, of pairs and of packets, and tools/sheet.py on their
faults and its PNG. It needs the two programs, and builds them where they are missing (rt run in crates/sheet and in
crates/packet_sheet).
Run: python3 tools/test_sheet.py"""

import fcntl
import functools
import random
import struct
import subprocess
import sys
import tempfile
import termios
import time
import unittest
import zlib
from pathlib import Path
from typing import BinaryIO

import model
import parcels
import sheet
from parcels import spelled

TOOL = Path(__file__).resolve().parent / "sheet.py"
DEMO = sheet.ROOT / "docs/demo.stream"
play_pairs, play_packets = functools.cache(model.play), functools.cache(model.packet_picture)  # several tests ask for the same


def pairs(text: str) -> bytes:
    """`offset=word` in hexadecimal, as a stream."""
    return b"".join(struct.pack("<II", *(int(part, 16) for part in token.split("="))) for token in text.split())


FILL = "68=00040005 64=00C3A5F1 70=CC000005 80=00010002 "  # 5 by 4 pixels at (2, 1)
DOT = "68=00010001 64=FFFFFFFF 70=CC000005 "
TO8, TO16, TO24, TO32 = "14=00010010 ", "14=00030020 ", "14=00040031 ", "14=00050040 "
CLIP = "0C=00080008 "
THUMB = "68=00040004 70=CC000002 "  # a stretched copy to 4 by 4 pixels
TILES8, TILES16, TILES24, TILES32 = (f"10=80000123 14=000{number}0003 " for number in (1, 3, 4, 5))  # three tiles across
EXAMPLE = "14=00050008 0C=00020002 68=00010001 64=00FF8000 70=CC000005 80=00010000 "

NAMED = {
    "the paper's example": pairs(EXAMPLE),
    "no input": b"",
    "one byte": b"\x0c",
    "half a pair": pairs(EXAMPLE)[:4],
    "seven bytes": pairs(EXAMPLE)[:7],
    "a pair and a byte": pairs(EXAMPLE)[:9],
    "all but the last byte": pairs(EXAMPLE)[:-1],
    "megabytes of zeros": bytes(3 << 20),
    "a refusal, then an unfinished pair": pairs(EXAMPLE + "04=0") + b"\x01\x02\x03",
    "a refusal, then another": pairs(EXAMPLE + "02=0 04=0"),
    "8 bpp": pairs(TO8 + CLIP + FILL),
    "16 bpp": pairs(TO16 + CLIP + FILL),
    "24 bpp": pairs(TO24 + CLIP + FILL),
    "32 bpp": pairs(TO32 + CLIP + FILL),
    "16 bpp, every green": pairs("14=00030080 0C=00010040 68=00010001 70=CC000005 " + "".join(f"64={n << 5:X} 80={n:X} " for n in range(64))),
    "16 bpp, every red and blue": pairs("14=00030080 0C=00010020 68=00010001 70=CC000005 " + "".join(f"64={n << 11 | 31 - n:X} 80={n:X} " for n in range(32))),
    "24 bpp, a stride of no whole pixels": pairs("14=00040007 0C=00030002 " + DOT + "80=00020001"),
    "24 bpp, the pixel that the stride cuts": pairs("14=00040007 0C=00030003 " + DOT),
    "32 bpp, a top byte": pairs("14=00050008 0C=00010002 68=00010001 64=FF102030 70=CC000005 80=0"),
    "clip from a corner that is not 0": pairs(TO32 + "08=00020003 " + CLIP + FILL),
    "clip max below min in x": pairs(TO32 + "08=00000005 0C=00080004"),
    "clip max below min in y": pairs(TO32 + "08=00050000 0C=00040008"),
    "clip empty in x": pairs(TO32 + "08=00000004 0C=00080004"),
    "clip empty in y": pairs(TO32 + "08=00040000 0C=00040008"),
    "one pixel": pairs(TO32 + "08=00030003 0C=00040004"),
    "clip1 selected, clip0 shown": pairs(TO32 + CLIP + "4C=00020002 50=00040004 68=00080008 64=FF 70=CC800005 80=0"),
    "all of memory at 8 bpp": pairs("14=00010100 08=0 0C=01000100 68=00100100 64=5A 70=CC000005 80=00F00000"),
    "the longest text": pairs("14=00010100 0C=01000100 68=01000100 64=FF 70=CC000005 80=0"),
    "one byte past memory": pairs("10=1 14=00010100 0C=01000100"),
    "the last pixel at 24 bpp": pairs("10=FFFD 14=00040003 0C=00010001 " + DOT + "80=0"),
    "one byte past it": pairs("10=FFFE 14=00040003 0C=00010001"),
    "the last row at 32 bpp": pairs("10=FF80 14=00050080 0C=00010020"),
    "a row more": pairs("10=FF80 14=00050080 0C=00020020"),
    "a base past memory": pairs("10=00FFFFFF 14=00010010 0C=00010001"),
    "a base of many bits": pairs("10=7F000000 14=00010010 0C=00010001"),
    "tiled": pairs("10=80000000 14=00010010 0C=00010001"),
    "tiled, 8 bpp where four tiles meet": pairs(TILES8 + "08=001C007A 0C=00240086 68=00050008 64=C3 70=CC000005 80=001D007C"),
    "tiled, 16 bpp where four tiles meet": pairs(TILES16 + "08=001C003A 0C=00240046 68=00050008 64=A5F1 70=CC000005 80=001D003C"),
    "tiled, 24 bpp where four tiles meet": pairs(TILES24 + "08=001C0024 0C=00240030 68=00050008 64=C3A5F1 70=CC000005 80=001D0026"),
    "tiled, 32 bpp where four tiles meet": pairs(TILES32 + "08=001C001A 0C=00240026 68=00050008 64=FFC3A5F1 70=CC000005 80=001D001C"),
    "tiled, 24 bpp, a pixel across two tiles": pairs(TILES24 + "08=00050029 0C=0006002C 68=00010001 64=123456 70=CC000005 80=0005002A"),
    "tiled, 24 bpp, across the next two": pairs(TILES24 + "08=00250054 0C=00260057 68=00010001 64=123456 70=CC000005 80=00250055"),
    "tiled, 24 bpp, the last pixel of a row": pairs(TILES24 + "08=0000007F 0C=00010080 68=00010001 64=123456 70=CC000005 80=7F"),
    "tiled, 24 bpp, a column past it": pairs(TILES24 + "08=0000007F 0C=00010081"),
    "tiled, one tile across at 24 bpp": pairs("10=80000000 14=00040001 0C=0001002A 68=0001002A 64=123456 70=CC000005 80=0"),
    "tiled, the pixel that its edge cuts": pairs("10=80000000 14=00040001 0C=0001002B"),
    "tiled, all of memory": pairs("10=80000000 14=00010004 0C=00800200 68=00500100 64=5A 70=CC000005 80=00180080"),
    "tiled, a row past memory": pairs("10=80000000 14=00010004 0C=00810200"),
    "tiled, one byte past memory": pairs("10=80000001 14=00010004 0C=00800200"),
    "tiled, all but that byte": pairs("10=80000001 14=00010004 08=007F0000 0C=008001FF"),
    "tiled, the columns of a last row of tiles that memory has": pairs("10=80002000 14=00010003 08=00800000 0C=00A00100"),
    "tiled, a column more": pairs("10=80002000 14=00010003 08=00800000 0C=00810101"),
    "tiled, the last rows of a tile that memory ends in": pairs("10=80000100 14=00050001 08=01F00000 0C=01FE0020"),
    "tiled, a row more": pairs("10=80000100 14=00050001 08=01F00000 0C=01FF0020"),
    "tiled, 24 bpp, memory ends inside a pixel": pairs("10=8000F000 14=00040002 0C=0001002B"),
    "tiled, 24 bpp, the pixels before it": pairs("10=8000F000 14=00040002 0C=0001002A"),
    "tiled, 24 bpp, memory ends after it": pairs("10=8000EFFF 14=00040002 0C=0001002B " + DOT + "80=2A"),
    "tiled, a base past memory": pairs("10=80FFFFFF 14=00010002 0C=00010001"),
    "tiled, stride 0": pairs("10=80000000 14=00010000 0C=00010001"),
    "tiled, more across than there is memory for": pairs("10=80000040 14=00013FFF 08=00180760 0C=00200780 " + DOT + "80=001F077F"),
    "tiled, its second row of tiles": pairs("10=80000040 14=00013FFF 0C=00210001"),
    "tiled, format 2": pairs("10=80000000 14=00020002 0C=00010001"),
    "tiled, then linear on the same words": pairs("10=80000000 14=00010100 08=00000078 0C=00200080 68=00100010 64=5A 70=CC000005 80=00080070 10=0"),
    "linear, then tiled": pairs("14=00010100 0C=00200080 68=00100030 64=5A 70=CC000005 80=00080040 10=80000000"),
    "a line across tiles": pairs(TILES8 + "08=001C0070 0C=00240090 64=9C 5C=001D0072 70=CC000006 80=0023008E"),
    "a stippled polyline across tiles": pairs(TILES24 + "08=001C0020 0C=00240038 60=1234 64=FEDCBA 3C=5A5A 40=01000100 5C=001D0021 70=CC001007 "
                                              "80=00220035 80=001E0029"),
    "a mono host blit across tiles": pairs(TILES32 + "08=001C001A 0C=00240026 54=00400000 68=00040008 6C=001E001C 64=FFFFFF 60=102030 "
                                           "70=CC000003 80=A55A3CC3"),
    "a host blit of 24 bpp across tiles": pairs(TILES24 + "08=001C0026 0C=0024002E 54=00440000 68=00020002 6C=001F0029 70=CC000003 80=11223344 "
                                                "80=55667788 80=99AABBCC"),
    "a copy from tiles to tiles": pairs(TILES16 + "34=80000123 54=00030003 08=001A0038 0C=00280050 68=00050008 64=A5F1 70=CC000005 80=001D003C "
                                        "6C=00200044 70=CC000001 80=001E003B"),
    "a column of tiles spread to the right": pairs(TILES24 + "34=80000123 54=00040003 08=00000020 0C=00030040 68=00030001 64=C3A5F1 70=CC000005 "
                                                   "80=00000024 68=00030010 6C=00000025 70=CC000001 80=00000024"),
    "a copy from tiles to a linear target": pairs(TILES24 + "0C=0FFF0FFF 68=00040010 64=C3A5F1 70=CC000005 80=001E0024 10=B000 14=00050040 "
                                                  "0C=00080010 34=80000123 54=00040003 68=00080010 6C=0 70=CC000001 80=001C0022"),
    "an enlarged copy onto tiles": pairs("10=C000 14=00010010 0C=00100010 68=00020003 64=77 70=CC000005 80=00010001 " + TILES8 + "08=001C0078 "
                                         "0C=00280088 34=C000 54=00010010 58=00030004 6C=001E007C 68=0008000A 70=CC000002 80=0"),
    "answer 5, a tiled mono source": pairs(TO32 + CLIP + "34=80001000 54=00000001 68=00010001 70=CC000101"),
    "answer 5, a tiled packed source": pairs(TO32 + CLIP + "34=80001000 54=00450001 68=00010001 70=CC000101"),
    "answer 5, a tiled host blit's source": pairs(TO32 + CLIP + "34=80001000 54=00050040 68=00010001 70=CC000103"),
    "answer 7, past the last tile": pairs("10=80000000 14=00010004 0C=0FFF0FFF " + DOT + "80=00800000"),
    "answer 8, tiled and linear on the same words": pairs("10=80000000 14=00010040 0C=00080008 54=00010040 68=00020002 70=CC000101"),
    "stride 0": pairs("14=00010000 0C=00010001"),
    "stride 1": pairs("14=00010001 0C=00FF0001"),
    "a column past the stride": pairs(TO16 + "0C=00010011"),
    "the last column of the stride": pairs(TO16 + "0C=00010010"),
    "format 0": pairs("14=00000010 0C=00010001"),
    "format 2": pairs("14=00020010 0C=00010001"),
    "format 6": pairs("14=00060010 0C=00010001"),
    "format 7": pairs("14=00070010 0C=00010001"),
    "the largest clip": pairs("14=00011000 0C=0FFF0FFF"),
    "4095 columns": pairs("14=00010FFF 0C=00100FFF"),
    "4095 rows": pairs("14=00010010 0C=0FFF0010"),
    "the target moved before the end": pairs(TO32 + CLIP + FILL + "10=40"),
    "a line": pairs(TO8 + "0C=00100010 64=9C 5C=0 70=CC000006 80=0007000F"),
    "a stippled polyline": pairs(TO16 + "0C=00100010 60=1234 64=FEDC 3C=5A5A 40=01000100 70=CC001007 80=0005000F 80=000F0002"),
    "a copy": pairs(TO24 + "34=0 54=00040031 0C=00100010 " + FILL + "6C=00080009 70=CC000001 80=00010002"),
    "a column spread to the right": pairs(TO24 + "54=00040031 0C=00100010 68=00030001 64=C3A5F1 70=CC000005 80=0 68=00030008 6C=1 70=CC000001 80=0"),
    "a row spread upwards": pairs(TO16 + "54=00030020 0C=00100010 68=00010004 64=8410 70=CC000005 80=000F0002 "
                                  "68=00080004 6C=000E0002 70=CC008001 80=000F0002"),
    "a mono host blit": pairs(TO32 + CLIP + "54=00400000 68=00040008 6C=0 64=FFFFFF 60=102030 70=CC000003 80=A55A3CC3"),
    "a host blit that still waits": pairs(TO32 + CLIP + "54=00050020 68=00040008 6C=0 70=CC000003 80=112233 80=445566"),
    "answer 3": pairs(TO32 + CLIP + "54=00050020 68=00040008 70=CC000003 80=112233 64=0"),
    "answer 4": pairs(TO32 + CLIP + "70=CC000104"),
    "answer 5": pairs("14=00020010 0C=00080008 70=CC000105"),
    "answer 6": pairs(TO32 + CLIP + "54=00150020 68=00040008 70=CC000103"),
    "answer 7": pairs(TO32 + "0C=00080FFF 68=00010020 70=CC000105"),
    "answer 8": pairs(TO32 + CLIP + "34=4 54=00050040 68=00020002 70=CC000101"),
    "a reduced copy": pairs(TO24 + "0C=00100010 34=1000 54=00050040 10=1000 14=00050040 " + FILL + "10=0 " + TO24 + THUMB + "58=00080008 80=0"),
    "an enlarged copy": pairs(TO16 + "0C=00100010 54=00030020 " + FILL + THUMB + "58=00020003 6C=00080000 80=00010005"),
    "an enlarged mono copy": pairs(TO8 + "0C=00100010 54=2 34=100 60=3 64=FA 10=100 68=00010002 70=CC000105 10=0 " + THUMB + "58=0001000B 80=0"),
    "answer 6 of a stretched copy": pairs(TO32 + CLIP + "54=00050040 58=00000001 68=00020002 70=CC000102"),
    "answer 7 of a stretched copy": pairs(TO32 + CLIP + "34=1000 54=00050040 58=00010020 5C=9 68=00010020 70=CC000102"),
    "answer 8 of a stretched copy": pairs(TO32 + CLIP + "54=00050040 58=00020002 68=00010001 70=CC000102"),
    "a refusal after many writes": pairs("14=00050008 " * 12345 + "78=0"),
}


def seeded(seed: int) -> bytes:
    """Fills of a small surface, with now and then a write that may be refused."""
    dice = random.Random(seed)
    number, size = dice.choice([(1, 1), (3, 2), (4, 3), (5, 4)])
    words = [(0x10, dice.randrange(600)), (0x14, number << 16 | (16 * size + dice.randrange(3))),
             (0x08, dice.randrange(3) << 16 | dice.randrange(3)), (0x0C, dice.randrange(2, 14) << 16 | dice.randrange(2, 14))]
    for _ in range(dice.randrange(12)):
        words += [(0x64, dice.getrandbits(32)), (0x68, dice.randrange(7) << 16 | dice.randrange(7)), (0x70, dice.choice([0xCC, 0x5A, 0x66]) << 24 | 5),
                  (0x100 + 4 * dice.randrange(64), dice.getrandbits(32)), (0x80, dice.randrange(12) << 16 | dice.randrange(12))]
    if dice.randrange(4) == 0:
        words.insert(dice.randrange(len(words)), (dice.randrange(0x210), dice.getrandbits(32)))
    stream = b"".join(struct.pack("<II", *word) for word in words)
    return stream[:-dice.randrange(1, 8)] if dice.randrange(6) == 0 else stream


def seeded_tiles(seed: int) -> bytes:
    """Fills and copies on a tiled surface around a place where tiles meet, or now and then at its right edge."""
    dice = random.Random(seed)
    number, size = dice.choice([(1, 1), (3, 2), (4, 3), (5, 4)])
    stride, base = dice.randrange(2, 5), 1 << 31 | dice.randrange(9000)
    x, y = 128 * (stride if dice.randrange(8) == 0 else dice.randrange(1, stride)) // size, 32 * dice.randrange(1, 3)
    words = [(0x10, base), (0x14, number << 16 | stride), (0x34, base), (0x54, number << 16 | stride),
             (0x08, y - dice.randrange(2, 9) << 16 | x - dice.randrange(2, 9)), (0x0C, y + dice.randrange(1, 9) << 16 | x + dice.randrange(9))]
    for _ in range(dice.randrange(2, 12)):
        left, top = x - dice.randrange(9), y - dice.randrange(9)
        words += [(0x64, dice.getrandbits(32)), (0x68, dice.randrange(1, 12) << 16 | dice.randrange(1, 12)), (0x6C, top << 16 | left),
                  (0x100 + 4 * dice.randrange(64), dice.getrandbits(32)), (0x70, dice.choice([0xCC, 0x5A, 0x66]) << 24 | dice.choice([5, 1])),
                  (0x80, top + dice.randrange(-3, 4) << 16 | left + dice.randrange(-3, 4))]
    return b"".join(struct.pack("<II", *word) for word in words)


def packed(stream: bytes, seed: int = 0) -> bytes:
    """Pairs as packets, by a seed."""
    return parcels.pack([*struct.iter_unpack("<II", stream)], random.Random(seed))


def can_be_packed(stream: bytes) -> bool:
    """The stream has whole pairs, and a header can name each offset."""
    return len(stream) % 8 == 0 and all(offset % 4 == 0 and offset < 0x400 for offset, _ in struct.iter_unpack("<II", stream))


SPELLED = spelled(parcels.EXAMPLE)  # the paper's example
SHEET = "P3\n2 2\n255\n0 0 0\n0 0 0\n255 128 0\n0 0 0\n"
PACKETS = {
    "the paper's example": SPELLED,
    "no input": b"",
    "one byte": b"\x01",
    "a header but for its last byte": SPELLED[:3],
    "a header that is a 9 but for its last byte": bytes(3),
    "a header": SPELLED[:4],
    "a header of one address": spelled([0x00014101]),
    "a header of consecutive ones": spelled([0x0001C101]),
    "ends inside a word": SPELLED[:6],
    "ends between the words of a packet": SPELLED[:12],
    "ends between packets": SPELLED[:24],
    "ends inside the second header": SPELLED[:26],
    "ends after it": SPELLED[:28],
    "all but the last byte": SPELLED[:-1],
    "a byte more": SPELLED + b"\1",
    "packets of no words": spelled([0x00004101, 2, 0x0000C7F9, 2]),
    "packets of no words between": SPELLED[:24] + spelled([0x00004101, 2, 0x0000C7F9] * 3000) + SPELLED[24:],
    "type 0": spelled([0]) + SPELLED,
    "type 3": SPELLED + spelled([3]),
    "type 4 with its 2D bit": SPELLED + spelled([0x00014104, 0]),
    "type 5": SPELLED[:24] + spelled([5]) + SPELLED[24:],
    "type 6": SPELLED + spelled([2, 6]),
    "type 7": SPELLED + spelled([0xFFFFFFFF]),
    "type 1 for another target": SPELLED + spelled([0x00040101]),
    "type 1 of no words for another target": SPELLED + spelled([0x00000101]),
    "megabytes of zeros": bytes(3 << 20),
    "a 9, then good packets": SPELLED + spelled([4]) + SPELLED,
    "a 9, then a part of a word": SPELLED + spelled([4]) + b"\1\2",
    "a 9, then another": SPELLED + spelled([4, 3]),
    "a refusal, then a 9": SPELLED + spelled([0x00014001, 0, 0]),
    "a refusal, then a part of a word": SPELLED + spelled([0x00014001, 0]) + b"\1",
    "a refusal inside a packet that goes on": SPELLED + spelled([0xE0000002, 0, 1, 2]) + SPELLED,
    "bits without meaning": SPELLED[:24] + spelled([0x00017901, 0x00010000]),
    "all 29 bits": spelled([0xFFFFFFFA, *range(29)]),
    "consecutive past 1FC": spelled([0x0003C3F9, 1, 2, 3]),
    "the last number": spelled([0x000147F9, 1]),
    "all of the pattern": spelled([0x0040C201, *range(64)]) + SPELLED,
    "65535 words to one address": spelled([0xFFFF4201, *range(65535)]) + SPELLED,
    "65535 words and no more": SPELLED + spelled([0xFFFF4201, *range(65535)]),
    "65534 of 65535 words": SPELLED + spelled([0xFFFF4201, *range(65534)]),
    "launches to consecutive addresses": SPELLED + spelled([0x0004C1E1, 0x00010001, 0, 1, 0x00010000]),
    "a glyph in two packets": packed(pairs(TO32 + CLIP + "54=00400000 68=00080020 6C=0 64=FFFFFF 60=102030 0C=00080020 14=00050080 70=CC000103"))
                              + spelled([0x00034101, 0xA55A3CC3, 0x12345678, 0x0F0F0F0F, 2, 0x00054121, *range(5)]),
}


def taken(pipe: BinaryIO) -> None:
    """Waits until a program has taken all that is in its pipe."""
    end = time.monotonic() + 20
    while struct.unpack("i", fcntl.ioctl(pipe, termios.FIONREAD, bytes(4)))[0] > 0:
        if time.monotonic() > end:
            raise TimeoutError("The program does not take what is in its pipe.")
        time.sleep(0.0001)


def delivered(parts: list[bytes], crate: str) -> str:
    """What a program prints that is given these parts by a pipe, each in one write, once it has taken the one before."""
    with subprocess.Popen(sheet.command(crate), stdin=subprocess.PIPE, stdout=subprocess.PIPE, bufsize=0) as run:
        for part in parts:
            run.stdin.write(part)
            taken(run.stdin)
        return run.communicate()[0].decode("ascii")


def each_byte(stream: bytes) -> list[bytes]:
    return [stream[at:at + 1] for at in range(len(stream))]


class Program(unittest.TestCase):
    @classmethod
    def setUpClass(cls):
        if sheet.is_old():
            sheet.build()

    def test_named_streams(self):
        for name, stream in NAMED.items():
            with self.subTest(name):
                self.assertEqual(sheet.play(stream), play_pairs(stream))

    def test_seeded_streams(self):
        for seed in range(40):
            with self.subTest(seed=seed):
                self.assertEqual(sheet.play(seeded(seed)), play_pairs(seeded(seed)))
                self.assertEqual(sheet.play(seeded_tiles(seed)), play_pairs(seeded_tiles(seed)))

    def test_the_longest_text(self):
        self.assertEqual(sheet.play(NAMED["the longest text"]), "P3\n256 256\n255\n" + "255 255 255\n" * 65536)

    def test_each_kind_of_output_occurs(self):
        firsts = {play_pairs(stream).split("\n")[0].split(" at")[0] for stream in NAMED.values()}
        self.assertEqual(firsts, {"P3", "short write", "no picture"} | {f"refused {n}" for n in range(2, 9)})

    def test_a_pipe_that_gives_one_byte_at_a_time(self):
        for name in ("the paper's example", "all but the last byte", "24 bpp", "a mono host blit", "a mono host blit across tiles"):
            with self.subTest(name):
                self.assertEqual(delivered(each_byte(NAMED[name]), sheet.WRITES), play_pairs(NAMED[name]))

    def test_it_ends_at_the_first_refusal(self):
        run = subprocess.Popen(sheet.command(), stdin=subprocess.PIPE, stdout=subprocess.PIPE, bufsize=0)
        run.stdin.write(bytes(8))
        self.assertEqual(run.stdout.read(), b"refused 2 at 0\n")  # while the pipe is still open
        run.stdin.close()
        self.assertEqual(run.wait(), 0)
        run.stdout.close()


class PacketProgram(unittest.TestCase):
    @classmethod
    def setUpClass(cls):
        if sheet.is_old(sheet.PACKETS):
            sheet.build(sheet.PACKETS)

    def test_named_packets(self):
        for name, data in PACKETS.items():
            with self.subTest(name):
                self.assertEqual(sheet.play(data, sheet.PACKETS), play_packets(data))

    def test_each_kind_of_output_occurs(self):
        firsts = {play_packets(data).split("\n")[0].split(" at")[0] for data in PACKETS.values()}
        self.assertEqual(firsts, {"P3", "short write", "no picture", "refused 2", "refused 9"})

    def test_named_streams_as_packets(self):  # the same picture or fault: an answer is a write's
        streams = {name: stream for name, stream in NAMED.items() if can_be_packed(stream)}
        self.assertTrue(len(streams) > 100)
        for number, (name, stream) in enumerate(streams.items()):
            with self.subTest(name):
                self.assertEqual(sheet.play(packed(stream, number), sheet.PACKETS), play_pairs(stream))

    def test_seeded_packets(self):  # whole, and cut off somewhere
        for seed in range(40):
            dice = random.Random(seed)
            for stream in (seeded(seed), seeded_tiles(seed)):
                data = packed(stream, seed) if can_be_packed(stream) else stream
                for data in (data, data[:dice.randrange(len(data) + 1)]):
                    with self.subTest(seed=seed):
                        self.assertEqual(sheet.play(data, sheet.PACKETS), play_packets(data))

    def test_demo(self):  # whole, and in odd parts
        data, dice = packed(DEMO.read_bytes()), random.Random(5)
        text = play_packets(data)
        self.assertEqual(sheet.play(data, sheet.PACKETS), text)
        places = sorted(dice.randrange(len(data)) for _ in range(60))
        parts = [data[low:past] for low, past in zip([0, *places], [*places, len(data)])]
        self.assertEqual(delivered(parts, sheet.PACKETS), text)

    def test_the_example_in_two_writes(self):
        for place in range(len(SPELLED) + 1):
            with self.subTest(place=place):
                self.assertEqual(delivered([SPELLED[:place], SPELLED[place:]], sheet.PACKETS), SHEET)

    def test_one_byte_at_a_time(self):
        self.assertEqual(delivered(each_byte(SPELLED), sheet.PACKETS), SHEET)
        for name in ("all but the last byte", "packets of no words", "bits without meaning", "launches to consecutive addresses",
                     "a glyph in two packets", "a byte more"):
            with self.subTest(name):
                self.assertEqual(delivered(each_byte(PACKETS[name]), sheet.PACKETS), play_packets(PACKETS[name]))


class Tool(unittest.TestCase):
    def run_tool(self, stream: bytes, name: str, *more: str, packets: bool = False) -> tuple[int, str, bytes | None]:
        """The exit status, what the tool said, and the picture if there is one."""
        with tempfile.TemporaryDirectory() as folder:
            source, picture = Path(folder) / "stream", Path(folder) / name
            source.write_bytes(stream)
            words = [sys.executable, TOOL, *["--packets"] * packets, source, picture, *more]
            run = subprocess.run(words, capture_output=True, text=True, check=False)
            return run.returncode, run.stdout + run.stderr, picture.read_bytes() if picture.exists() else None

    def test_a_ppm(self):
        status, _, body = self.run_tool(NAMED["24 bpp"], "a.ppm")
        self.assertEqual((status, body), (0, play_pairs(NAMED["24 bpp"]).encode()))

    def test_a_png(self):
        status, _, body = self.run_tool(NAMED["24 bpp"], "a.png")
        self.assertEqual((status, body[:8]), (0, b"\x89PNG\r\n\x1a\n"))
        chunks, at = {}, 8
        while at < len(body):
            length = int.from_bytes(body[at:at + 4], "big")
            kind, data = body[at + 4:at + 8], body[at + 8:at + 8 + length]
            self.assertEqual(int.from_bytes(body[at + 8 + length:at + 12 + length], "big"), zlib.crc32(kind + data))
            chunks[kind] = data
            at += 12 + length
        width, height, *form = struct.unpack(">IIBBBBB", chunks[b"IHDR"])
        self.assertEqual((width, height, form), (8, 8, [8, 2, 0, 0, 0]))
        rows = zlib.decompress(chunks[b"IDAT"])
        values = [value for y in range(8) for value in rows[y * 25 + 1:y * 25 + 25]]
        self.assertEqual(values, [int(word) for word in play_pairs(NAMED["24 bpp"]).split()[4:]])

    def test_an_enlarged_png(self):
        status, _, body = self.run_tool(NAMED["24 bpp"], "a.png", "3")
        at = body.index(b"IDAT")
        rows = zlib.decompress(body[at + 4:at + 4 + int.from_bytes(body[at - 4:at], "big")])
        values = [int(word) for word in play_pairs(NAMED["24 bpp"]).split()[4:]]
        wanted = [values[(y // 3 * 8 + x // 3) * 3 + c] for y in range(24) for x in range(24) for c in range(3)]
        self.assertEqual((status, [value for y in range(24) for value in rows[y * 73 + 1:y * 73 + 73]]), (0, wanted))
        for times in ("0", "x", "100"):
            self.assertEqual(self.run_tool(NAMED["24 bpp"], "a.png", times)[::2], (2, None))

    def test_faults_are_said_and_nothing_is_written(self):
        for name, said in (("answer 7", "refused with answer 7"), ("seven bytes", "ends inside a write"), ("no input", "no picture")):
            with self.subTest(name):
                status, words, body = self.run_tool(NAMED[name], "a.png")
                self.assertEqual((status, body), (1, None))
                self.assertIn(said, words)

    def test_another_ending_is_refused(self):
        self.assertEqual(self.run_tool(NAMED["24 bpp"], "a.gif")[0], 2)

    def test_packets(self):
        status, words, body = self.run_tool(SPELLED, "a.ppm", packets=True)
        self.assertEqual((status, body), (0, SHEET.encode()))
        self.assertTrue(words.endswith("a.ppm: 2 by 2 pixels, from 32 bytes of packets.\n"), words)
        status, words, body = self.run_tool(SPELLED, "a.png", "3", packets=True)
        self.assertEqual((status, body), (0, sheet.png(SHEET, 3)))

    def test_faults_of_packets(self):
        for name, said in (("type 3", "After 6 register writes, all taken, comes a packet that is refused with answer 9: "),
                           ("a refusal inside a packet that goes on", "Register write 7 of the packets, counted from 0, was refused with answer 2: "),
                           ("ends between the words of a packet", "The file ends inside a packet."),
                           ("all but the last byte", "The file ends inside a packet."), ("no input", "there is no picture")):
            with self.subTest(name):
                status, words, body = self.run_tool(PACKETS[name], "a.png", packets=True)
                self.assertEqual((status, body), (1, None))
                self.assertIn(said, words)

    def test_wrong_words(self):  # nothing but the way to call it is said
        for words in ([], ["--packets"], ["--packets", "a"], ["--packets", "a", "b.gif"], ["a", "--packets", "b.png"], ["--packet", "a", "b.png"],
                      ["--packets", "a", "b.ppm", "2"], ["--packets", "--packets", "a", "b.png", "2"]):
            run = subprocess.run([sys.executable, TOOL, *words], capture_output=True, text=True, check=False)
            self.assertEqual((run.returncode, run.stdout, run.stderr), (2, "", sheet.__doc__.strip() + "\n"), words)


if __name__ == "__main__":
    unittest.main()
