"""Samples and vectors for the model: the scope paper's sheets; of the databook, which is source
document 000, host blit example 1, the line example, both stipple examples, the pattern's origin,
the strides of packed sources and the order of mono pixels, at the lines that the comments give;
points that the papers leave open, by the readings of docs/DECISIONS.md; and of the change
requests the stretched copy, what really changed, the smear, runs of words, tiles, command packets and widths, mostly worked
out by hand, tiles also by the map that source document 002 prints. Then that the recorded streams hold every kind of run
and of surface that the memory ends in, and the recorded pieces every kind of packet and cut; and that what two programs must
write is what the model says of the writes in their sources.
Names in quotes in the comments are entries of docs/DECISIONS.md, with the section they stand under where two have one
heading. Run: python3 test_model.py"""

import contextlib
import io
import itertools
import random
import runpy
import struct
import tempfile
import unittest
from collections import Counter
from pathlib import Path
from unittest.mock import patch

import model
import parcels
import streams
from model import (OFFSETS, REGISTERS, SOURCE_BITS, Engine, PacketReader, Surface, line_points, packet_kind, packet_offsets,
                   packet_picture, play, room, row_view)
from parcels import EXAMPLE, spelled

TO8 = "0C=FFF0FFF 14=10020 60=1 64=2 "  # 8 bpp, stride 32, back 1, fore 2
DOT = TO8 + "68=10001 "  # a rectangle of one pixel
FROM8 = TO8 + "34=800 54=10020 "  # and a source of 8 bpp, stride 32, at 800


class Card:
    """A fresh engine on some memory, after the writes of a text: `offset=word` is taken with
    count 0, with `+C` at the end with count C, with `+C/D` also with D of them changed; with `!N`
    it is refused with N."""

    def __init__(self, text="", length=4096, start=b""):
        self.mem, self.engine = bytearray(length), Engine(length)
        self.mem[:len(start)] = start
        self.do(text)

    def do(self, text):
        for token in text.split():
            write, _, refusal = token.partition("!")
            write, _, counts = write.partition("+")
            count, _, changed = counts.partition("/")
            offset, word = (int(part, 16) for part in write.split("="))
            before = bytes(self.mem)
            found = self.engine.write(self.mem, offset, word)
            assert found[:2] == (int(refusal or 0), int(count or 0)), f"{token}: {found}"
            assert not changed or found[2] == int(changed), f"{token}: {found}"
            assert self.may_be_changed(before, found), f"{token}: {found}"
        return self

    def may_be_changed(self, before, answer):
        """Each pixel is stored at most once, so the bytes that differ belong to as many pixels as changed."""
        number, count, changed = answer
        if self.mem == before:
            return changed == 0
        differ = sum(old != new for old, new in zip(before, self.mem))
        return number == 0 and changed <= min(count, differ) and differ <= changed * self.engine.target().size()

    def get(self, name):
        return self.engine.read(OFFSETS[name])[1]


def stipple(style, pattern, points):
    """The stipple of a horizontal line as x and o, and lineStyle after it."""
    card = Card(f"0C=10040 14=10040 3C={pattern:X} 40={style:X} 60=1 64=2 70=CC001006 80={points - 1:X}+{points}")
    return "".join("?ox"[b] for b in card.mem[:points]), card.get("lineStyle")


def stream(text):
    return b"".join(struct.pack("<II", *(int(part, 16) for part in pair.split("="))) for pair in text.split())


class SampleSheet(unittest.TestCase):
    def test_widths(self):
        self.assertEqual([model.widen(v, 5) for v in (1, 8, 16, 31)], [8, 66, 132, 255])
        self.assertEqual([model.widen(v, 6) for v in (1, 32, 63)], [4, 130, 255])
        self.assertEqual([model.convert(v, 24, 16) for v in (7, 8)], [0, 1])

    def test_mono_words(self):  # with the databook's order of mono pixels, 000:1866-1872, and wrong sheet 2
        for word, pixel in (("80", 0), ("100", 15), ("80000000", 24), ("01000000", 31)):
            card = Card(TO8 + f"54=400000 68=10020 70=CC000003 80={word}+32")
            self.assertEqual([x for x in range(4096) if card.mem[x] == 2], [pixel])

    def test_raster_operation(self):
        self.assertEqual(Card(DOT + "100=FF 70=5A000105+1", start=b"\x0F").mem[0], 0xF0)

    def test_lines(self):
        self.assertEqual(line_points((0, 0), (3, 1)), [(0, 0), (1, 0), (2, 1), (3, 1)])
        self.assertEqual(line_points((0, 0), (2, 1)), [(0, 0), (1, 1), (2, 1)])
        self.assertEqual(line_points((2, 1), (0, 0)), [(2, 1), (1, 0), (0, 0)])
        self.assertEqual(stipple(0x00000101, 0, 3)[1], 0x01010101)

    def test_step(self):
        self.assertEqual(Card(DOT + "6C=FFF 70=CC000505").engine.place("dstXY"), (-4096, 0))

    def test_host_words(self):  # with "Padding after the last row"
        host = TO8 + "68=20009 70=CC000003 "
        self.assertIsNone(Card(host + "54=400000 80=0+18").engine.waiting)
        card = Card(host + "54=C00000 80=0+9")
        self.assertIsNotNone(card.engine.waiting)
        self.assertIsNone(card.do("80=0+9").engine.waiting)

    def test_stride_and_clip(self):
        Card("0C=FFF0FFF 14=40007 68=10001 70=CC000005 80=1+1 80=2!7")
        Card(TO8 + "08=10001 0C=10001 68=40004 70=CC000105")


class WrongSheets(unittest.TestCase):  # sheet 2 is with the mono words
    def test_black_key(self):
        for extra, expected in ((2, [1, 2]), (0, [2, 2])):  # ROP1 takes the pattern
            card = Card(TO8 + f"68=10002 30=F0 38={extra} 100=101 70=CC000105+2", start=b"\0\1")
            self.assertEqual(list(card.mem[:2]), expected)

    def test_stipple_goes_on(self):
        card = Card(TO8 + "08=2 3C=5 40=300 70=CC001006 80=4+3")
        self.assertEqual(card.mem[:6].hex(), "000002010200")

    def test_clip_max(self):
        card = Card(TO8 + "0C=20003 68=80008 70=CC000105+6")
        self.assertEqual([card.mem[32 * y:32 * y + 4].hex() for y in range(3)], ["02020200"] * 2 + ["00000000"])


class Vectors(unittest.TestCase):
    def test_v1(self):  # host blit example 1, 000:2206-2229, in both forms ("The databook's host blit example 1")
        left = "..#.....#.. .##.....##. .##.....##. .##.....##. ##.......## #.........# ..........."
        right = "#.........# ##.......## ##.......## ##...#...## .##.###.##. ..###.###.. ...#...#..."
        printed, swapped = "C0608020 C460C060 3B806EC0 1100", "60C02080 60C460C0 803BC06E 11"
        text = "60=0 64=FFFF 6C=0 10=0 08=0 0C=FFFFFFFF 70={} 14=30800 54={} 68=7000B 5C=0 "
        for command, words, counts, rows in (
                ("CC000003", printed, (22, 22, 22, 11), left), ("CC000003", swapped, (22, 22, 22, 11), right),
                ("CC010003", printed, (6, 8, 6, 0), left), ("CC010003", swapped, (6, 9, 13, 2), right)):
            data = " ".join(f"80={word}+{count}" for word, count in zip(words.split(), counts))
            card = Card(text.format(command, "400000") + data, 16384)
            found = "".join(".#"[card.mem[y * 0x800 + 2 * x] & 1] for y in range(7) for x in range(11))
            self.assertEqual(found, rows.replace(" ", ""))
        self.assertEqual(play(stream(text.format("CC000003", "700000") + "80=C0608020")), "refused 6 at 11\n")

    def test_v3(self):  # the line example, 000:2304-2319
        # the command printed there does not show bit 12: a line and a polyline with it, and a line without
        drawn = ("3,2F 4,3F 5,3B 6,4B 7,4B 8,5F 9,5F 10,6F 11,6F 12,7F 13,7F 14,8B 15,8B 16,9B 17,9F 18,10F "
                 "19,10F 20,11F 21,11F 22,12F")
        for command, points, style in ((0xCC001006, drawn, 0x202), (0xCC001007, drawn[:-6], 0x02020202),
                                       (0xCC000006, drawn.replace("B", "F"), 0x02010202)):
            card = Card(f"14=10020 0C=100020 5C=20003 3C=6 40=2010202 60=1 64=2 70={command:X} "
                        f"80=C0016+{len(points.split())}")
            found = [f"{a % 32},{a // 32}" + "?BF"[card.mem[a]] for a in range(4096) if card.mem[a]]
            self.assertEqual(sorted(found), sorted(points.split()))
            self.assertEqual([card.get(n) for n in ("lineStyle", "srcXY", "dstXY")], [style, 0xC0016, 0xC0016])

    def test_v4_v5(self):  # the stipple examples, 000:2063-2073 and 000:2077-2087
        self.assertEqual(stipple(0x500, 0x17, 12), ("xxxoxoxxxoxo", 0x500))
        self.assertEqual(stipple(0x501, 0x17, 24), ("xxxxxxooxxoo" * 2, 0x501))
        self.assertEqual(stipple(0x502, 0x17, 36), ("xxxxxxxxxoooxxxooo" * 2, 0x502))
        line = "xxx ooooo xxxxx xxxxx xxxxx xxxxx ooooo xxxxx xxxxx ooooo xxxxx ooooo xxxxx"
        self.assertEqual(stipple(0x07020904, 0x2B7, 63), (line.replace(" ", ""), 0x904))

    def test_v6(self):  # the pattern's origin, 000:1647
        pattern = " ".join(f"{0x100 + i:X}={i * 0x01010101 + 0x03020100:X}" for i in range(0, 64, 4))
        card = Card(TO8 + pattern + f" 68=20002 70={0xF0000105 + (3 << 17) + (5 << 20):X}+4")
        self.assertEqual((card.mem[0], card.mem[1], card.mem[32]), (43, 44, 51))

    def test_v7(self):  # the strides of packed sources, 000:1931-1935
        for width, form, steps in ((11, 0, [2, 2, 4]), (9, 0, [2, 2, 4]), (5, 1, [5, 6, 8]), (3, 4, [9, 10, 12])):
            cards = [Card(f"68={width:X} 54={p << 22 | form << 16:X}") for p in (1, 2, 3)]
            self.assertEqual([card.engine.source().step for card in cards], steps)


class OpenPoints(unittest.TestCase):
    def test_launch(self):
        # "Bit 8 of command"; "Launch data"; any offset of the launch area will do ("After a blit has ended")
        card = Card(DOT + "70=CC000105+1 FC=E005E005+1")
        self.assertEqual((card.get("command"), card.get("dstXY")), (0xCC000105, 0x00050005))
        # "nop"; "A number that is not built"; "A fresh engine"
        Card("10=80000000 70=100 80=9 70=8 80=9!4 70=5 80=9!5 74=0!2 1FE=0!2 200=0!2 0=0!2")
        self.assertEqual(Card(DOT + "70=CC0000F5 80=3+1").get("command"), 0xCC0000F5)  # "Bits 7:4 of command"

    def test_waiting(self):
        card = Card(TO8 + "54=400000 68=30020 70=CC000003 80=1+32 74=0!2 100=0!3 44=0!3 64=0!3")  # "Rows 2 and 3 together"
        self.assertEqual(card.engine.write(bytearray(4095), 0x74, 0), (1, 0, 0))
        card.do("70=CC000108!4")  # "A command write while a blit waits"
        self.assertEqual((card.get("command"), len(card.engine.waiting)), (0xCC000003, 4))
        self.assertEqual([card.engine.read(offset)[0] for offset in (0x6C, 0x80, 0x74)], [0, 2, 2])  # "A read"
        self.assertIsNone(card.do("70=CC000003").engine.waiting)

    def test_host_refusals(self):
        host = TO8 + "70=CC000003 "
        self.assertIsNone(Card(host + "54=400000 68=C80021 80=0!7").engine.waiting)  # "Row 7 of a host blit"
        Card(host + "68=5 80=0!6 68=50000 80=0")  # "Row 6" under "The table"
        # "A host blit whose srcBaseAddr has bit 31"; "Row 6" under "The table"
        Card(host + "54=400000 68=10004 34=80000000 80=0!5 34=0 5C=10000 80=0!6 5C=0 80=0+4")

    def test_limit(self):  # "Opening"
        card = Card(DOT + "10=FFFFE0 70=CC000005 80=1F+1 80=10000!7", model.LIMIT)
        self.assertEqual((card.mem[-1], card.mem.count(2)), (2, 1))
        for length in (model.LIMIT - 1, model.LIMIT + 1):
            self.assertEqual(card.engine.write(bytearray(length), 0x80, 0), (1, 0, 0))
        Card("10=0!1 70=CC000105!1 80=0!1 100=0!1 74=0!1", model.LIMIT + 1)

    def test_formats(self):
        # "dstFormat bit 19" under "Registers and writes"; "Row 5" under "The table"
        card = Card(DOT + "14=90020 54=90000 34=80000000 70=CC000105+1")
        card.do("34=0 70=CC000101!5 70=CC000103!5 54=30020 70=CC000101!5")
        card.do("14=10000 70=CC000105!7 68=0 70=CC000105")  # "Stride 0"
        card = Card(DOT + "64=12345603 70=CC000105+1")  # "Colour registers"
        self.assertEqual((card.mem[:2].hex(), card.get("colorFore")), ("0300", 0x12345603))

    def test_copies(self):
        card = Card(TO8 + "68=10009 54=400000 34=800 70=CC000001 80=7+9 80=8!7")  # "A packed source"
        card.do("34=0 80=0!8 0C=0 80=0")  # "Row 8" under "The table"
        card.do("0C=FFFFFFFF 6C=FFF 68=11FFF 70=105")  # "The last column and row"; "Positions do not wrap within a command"
        self.assertEqual(card.get("clip0Max"), 0x0FFF0FFF)
        Card(TO8 + "10=1 54=8 68=10008 70=CC000101+8 68=10009 70=CC000101!8")  # "Mono surfaces"
        Card(DOT + "54=10020 5C=1FFF 70=101!7 5C=1FFF0000 70=101!7 08=1 70=101")  # "Row 7 of a copy"
        card = Card(TO8 + "54=10020 6C=1FFF1FFF 5C=1FFF1FFF 68=50000 70=CC00CD01")  # "Bits 10 and 11"; "Bit 14 with width 0"
        self.assertEqual(card.get("dstXY"), 0x00041FFF)

    def test_keys(self):
        self.assertTrue(model.key_match(0x77, 8, 0x000100, 0x0001FF))  # "Key of an 8 bpp pixel"
        self.assertTrue(model.key_match(0x0821, 16, 0xFF0821, 0x000821))  # "Key of a 16 bpp pixel"
        self.assertFalse(model.key_match(0x0020, 16, 0x0000, 0xF81F))
        self.assertFalse(model.key_match(5, 8, 6, 4))  # "Least above most"
        self.assertTrue(model.key_match(0xFF000000, 32, 0, 0))  # "Top byte of 32 bpp"
        self.assertEqual([model.convert(0xFF123456, 32, t) for t in (32, 24)], [0xFF123456, 0x123456])
        for form, expected in (("410000", "0500"), ("400000", "0101")):  # "A source key"; ROP2 is 0
            card = Card(TO8 + f"54={form} 68=10002 38=1 18=6 1C=6 30=FF00FF 70=CC000003 80=605+2")
            self.assertEqual(card.mem[:2].hex(), expected)
        Card(TO8 + "54=400000 68=10008 38=2 30=FFFFFF 70=FF010003 80=3+2")  # "A pixel left out by bit 16"

    def test_patterns(self):
        card = Card("0C=FFF0FFF 14=40030 68=20001 118=332211 70=F0000105+2")
        self.assertEqual(card.mem[0x30:0x33].hex(), "112233")  # "The colour pattern at 24 bpp"
        self.assertEqual(card.do("38=8 70=F0300105+2").mem[0x30:0x33].hex(), "000000")  # "Row 0 forced"
        card = Card(TO8 + "68=10008 54=10020 5C=10000 44=81 70=CC012101+8 70=CC012105+2")  # "Bit 16"
        card.do("5C=0 6C=3 40=100 3C=1 70=CC012106+4 5C=0 60=7 70=33001106+4")  # "A stipple bit of 0"
        self.assertEqual(card.mem[:4].hex(), "fdf8fdf8")

    def test_host_data(self):
        card = Card(TO8 + "54=400000 68=8 6C=3 70=CC000403 80=0")  # "Bits 10 and 11"
        self.assertEqual(card.get("dstXY"), 11)
        card.do("68=10002 6C=0 54=410000 80=605+2 80=807+2")  # "After a blit has ended"
        self.assertEqual((card.mem[:5].hex(), card.get("dstXY")), ("0506070800", 4))
        Card("0C=FFF0FFF 14=40030 54=440000 68=10003 08=1 70=CC000103 80=0 80=0+1 80=0+1")  # "The count of a word"

    def test_line_ends(self):
        self.assertEqual(stipple(0x00090304, 0b10, 1)[1], 0x01000304)  # "A phase that the databook calls undefined"
        self.assertEqual(stipple(0x14000300, 0, 1)[1], 0x00000300)
        card = Card(TO8 + "5C=50005 6C=50005 40=303 70=CC001107")  # "A polyline whose ends are one point"
        self.assertEqual(card.get("lineStyle"), 0x0303)
        card.do("6C=1FF01FF0 70=CC001D06+6")  # "Bits 10 and 11"; "Without bit 12"
        self.assertEqual((card.get("srcXY"), card.get("dstXY")), (0x1FF01FF0, 0x1FF01FF0))
        self.assertEqual(card.do("5C=1F 6C=20 70=CC011106!7").get("srcXY"), 31)  # "Row 7 of a line"

    def test_view(self):  # "Row view"
        mem = bytearray(64)
        self.assertEqual(row_view(mem, 4, 0x00040010, 1, 2, 4), (0, 39, 12))
        for x, y, width in ((1, 2, 5), (0, 0, 0), (-1, 0, 1), (0, -1, 1), (4, 3, 1)):
            self.assertEqual(row_view(mem, 4, 0x00040010, x, y, width), (7, 0, 0))
        for base, form in ((1 << 31, 0x00010010), (0, 0x00000010), (0, 0x00020010)):
            self.assertEqual(row_view(mem, base, form, 0, 0, 0), (5, 0, 0))
        self.assertEqual(row_view(bytearray(model.LIMIT + 1), 0, 0, 0, 0, 0), (1, 0, 0))

    def test_program(self):  # every line that is printed ends with a newline, a fault's too
        example = stream("14=50008 0C=20002 68=10001 64=FF8000 70=CC000005 80=10000")
        self.assertEqual(play(example), "P3\n2 2\n255\n0 0 0\n0 0 0\n255 128 0\n0 0 0\n")
        # with no input clip0 is empty; with FFFFFFFF it reaches off the surface ("The last column and row")
        self.assertEqual([play(b""), play(example + stream("0C=FFFFFFFF"))], ["no picture\n"] * 2)
        self.assertEqual(play(example + b"\0"), "short write\n")
        # "The order of faults"; the number at the end is that of the pairs before the refused one
        self.assertEqual(play(example + stream("101=0") + b"\0"), "refused 2 at 6\n")
        grey = stream("0C=10001 14=30002 68=10001 64=8410 70=CC000105")
        self.assertEqual(play(grey), "P3\n1 1\n255\n132 130 132\n")


def smeared(start, text, size="10003", along=1):
    """The row of these bytes on one surface of 8 bpp after a copy of three of them; with size 30001 and along 32 the column."""
    spread = bytes(along - 1).join(bytes([byte]) for byte in start)
    return bytes(Card(TO8 + f"54=10020 68={size} {text}+3", start=spread).mem[:along * len(start):along])


class Smears(unittest.TestCase):
    def test_rows_and_columns(self):  # bit 14 turns a row round, bit 15 a column
        for source, target, near_first, far_first in ((0, 1, b"AAAA", b"AABC"), (1, 0, b"BCDD", b"DDDD")):
            for turn, (axis, size, along) in itertools.product(range(4), ((0, "10003", 1), (1, "30001", 32))):
                far = turn >> axis & 1
                place = [at + 2 * far << 16 * axis for at in (source, target)]
                text = f"5C={place[0]:X} 6C={place[1]:X} 70={0xCC000101 | turn << 14:X}"
                self.assertEqual(smeared(b"ABCD", text, size, along), far_first if far else near_first)

    def test_keys_read_likewise(self):
        keyed = "5C=0 6C=1 38={} {}=2 {}=2 30={} 70=CC000101"
        self.assertEqual(smeared(b"\1\2\3\4", keyed.format(1, 18, "1C", "AA00")), b"\1\1\1\1")
        self.assertEqual(smeared(b"\1\2\3\4", keyed.format(2, 20, 24, "AA")), b"\1\2\2\2")

    def test_operation_sees_what_was_written(self):  # 66: source xor target
        self.assertEqual(smeared(b"\1\2\4\x08", "5C=0 6C=1 70=66000101"), b"\1\3\7\x0F")

    def test_clip(self):  # the pixels that it leaves out are neither written nor looked at
        for clip, after in (("08=2", b"ABBB"), ("0C=FFF0003", b"AAAD")):
            card = Card(TO8 + f"54=10020 68=10003 5C=0 6C=1 {clip} 70=CC000101+2", start=b"ABCD")
            self.assertEqual(bytes(card.mem[:4]), after)

    def test_one_surface_only(self):  # another step or base is another surface, and meets: 8
        for fault in ("54=10021", "34=1 54=10020"):
            Card(TO8 + f"68=10003 5C=0 6C=1 {fault} 70=CC000101!8", start=b"ABCD")
        packed = Card("0C=FFF0003 14=10003 54=410000 68=10003 5C=0 6C=1 70=CC000101+2", start=b"ABCD")
        self.assertEqual(bytes(packed.mem[:4]), b"AAAD")  # packed to the same step: one surface

    def test_every_distance(self):
        """Within one surface a copy whose source is not behind, or shares no pixel, is as it was before; any other is not."""
        start = bytes(i * 5 % 251 + 1 for i in range(1024))
        for toleft, totop, across, down in itertools.product((0, 1), (0, 1), range(-4, 5), range(-4, 5)):
            corner, turn = (2 * toleft, 2 * totop), toleft << 14 | totop << 15
            place = [8 + corner[1] + y << 16 | 8 + corner[0] + x for x, y in ((0, 0), (across, down))]
            card = Card(TO8 + f"54=10020 68=30003 5C={place[0]:X} 6C={place[1]:X} 70={0xCC000101 | turn:X}+9", start=start)
            as_it_was = bytearray(start)
            for i, j in itertools.product(range(3), repeat=2):
                as_it_was[32 * (8 + down + j) + 8 + across + i] = start[32 * (8 + j) + 8 + i]
            right, below = (-across, across)[not toleft], (-down, down)[not totop]
            late = max(abs(across), abs(down)) < 3 and (below > 0 or below == 0 and right > 0)
            self.assertEqual(card.mem[:1024] != as_it_was, late, (toleft, totop, across, down))


def sizes(source, target):
    """The writes of srcSize and dstSize, each from (width, height)."""
    return "".join(f"{offset}={height << 16 | width:X} " for offset, (width, height) in ((58, source), (68, target)))


def stretched(text, source=b"abcdefgh", target=b""):
    """A card with these bytes of the source and of the target, after the writes."""
    return Card(FROM8 + text, start=target + bytes(0x800 - len(target)) + source)


class Thumbnails(unittest.TestCase):
    def test_columns_and_rows(self):
        column = bytes(31).join(b"%c" % letter for letter in b"abcdefgh")
        for of, to, taken in ((4, 2, b"ac"), (3, 5, b"aabbc"), (5, 3, b"abd"), (2, 7, b"aaaabbb"), (7, 2, b"ad"),
                              (4, 4, b"abcd"), (1, 3, b"aaa"), (8, 1, b"a"), (1, 1, b"a")):
            card = stretched(sizes((of, 1), (to, 1)) + f"70=CC000102+{to}")
            self.assertEqual(card.mem[:9], taken.ljust(9, b"\0"))
            card = stretched(sizes((1, of), (1, to)) + f"70=CC000102+{to}", column)
            self.assertEqual(card.mem[:288:32], taken.ljust(9, b"\0"))
        rows = b"abcd".ljust(32) + b"efgh".ljust(32) + b"ijkl"
        card = stretched(sizes((4, 3), (2, 5)) + "6C=10003 70=CC000102+10", rows)
        self.assertEqual([card.mem[32 * y + 3:32 * y + 6] for y in range(1, 7)],
                         [b"ac\0", b"ac\0", b"eg\0", b"eg\0", b"ik\0", b"\0\0\0"])

    def test_clip(self):  # columns and rows count from the rectangle's own edge
        wide, high = sizes((3, 1), (5, 1)), sizes((1, 3), (1, 5))
        column = bytes(31).join((b"a", b"b", b"c"))
        for clip, taken in (("08=2 70=CC000102+3", b"\0\0bbc"), ("0C=FFF0003 70=CC000102+3", b"aab\0\0"),
                            ("4C=1 50=FFF0004 70=CC800102+3", b"\0abb\0"), ("6C=1FFE 70=CC000102+3", b"bbc\0\0")):
            self.assertEqual(stretched(wide + clip).mem[:5], taken)
        for clip, taken in (("08=20000 70=CC000102+3", b"\0\0bbc"), ("0C=30FFF 70=CC000102+3", b"aab\0\0"),
                            ("6C=1FFE0000 70=CC000102+3", b"bbc\0\0")):
            self.assertEqual(stretched(high + clip, column).mem[:160:32], taken)
        far = stretched(sizes((8191, 1), (8191, 1)) + "0C=FFF0020 6C=1000 5C=1000 70=CC000102+32", bytes(range(65, 97)))
        self.assertEqual(far.mem[:32], bytes(range(65, 97)))  # dstX and srcX are -4096

    def test_mono(self):
        card = stretched("54=1 " + sizes((4, 1), (8, 1)) + "70=CC000102+8", b"\xA0")
        self.assertEqual(card.mem[:8].hex(), "0202010102020101")
        card = stretched("54=2 5C=6 " + sizes((6, 1), (3, 1)) + "70=CC010102+2", b"\x02\x80", b"xyz")  # pixels 6, 8, 10
        self.assertEqual(card.mem[:3], b"\2\2z")

    def test_conversion(self):
        card = stretched("14=50040 54=30020 " + sizes((3, 1), (2, 1)) + "70=CC000102+2", bytes.fromhex("00F8E0071F00"))
        self.assertEqual(card.mem[:12].hex(), "0000ff0000ff000000000000")
        card = stretched("14=30020 54=50040 " + sizes((1, 1), (2, 1)) + "70=CC000102+2", bytes.fromhex("0800FF77"))
        self.assertEqual(card.mem[:6].hex(), "01f801f80000")

    def test_keys(self):
        half = sizes((4, 1), (2, 1))
        for key, left in (("63", b"ay"), ("62", b"ac")):  # a source pixel that is not taken matches nothing
            card = stretched(half + f"38=1 18={key} 1C={key} 30=AA00 70=CC000102+2", target=b"xy")
            self.assertEqual(card.mem[:2], left)
        self.assertEqual(stretched(half + "38=2 20=78 24=78 30=AA 70=CC000102+2", target=b"xy").mem[:2], b"xc")
        four = sizes((8, 1), (4, 1)) + "38=3 18=63 1C=63 20=79 24=79 30=55FF00 70=CC000102+4"
        self.assertEqual(stretched(four, b"a.a.c.c.", b"xyxy").mem[:4].hex(), "6100ff86")
        wide = "14=50040 54=30020 38=1 18=F800 1C=F800 30=AA00 " + sizes((2, 1), (2, 1))  # before conversion
        self.assertEqual(stretched(wide + "70=CC000102+2", bytes.fromhex("00F8E007")).mem[:8].hex(), "0000000000ff0000")

    def test_pattern(self):  # by the target's place; 3C is pattern xor source
        card = stretched("100=654321 " + sizes((4, 1), (2, 1)) + "6C=1 70=3C000102+2")
        self.assertEqual(card.mem[:4].hex(), "00220600")

    def test_packed(self):  # five source columns; the target's two would give c, c, e
        for packing, second in ((1, b"f"), (2, b"g"), (3, b"i")):
            text = f"54={packing << 22 | 0x10000:X} " + sizes((5, 2), (2, 2)) + "70=CC000102+4"
            card = stretched(text, b"abcdefghijkl")
            self.assertEqual((card.mem[:1], card.mem[32:33]), (b"a", second))
        card.do("54=410000 70=CC000101+4")  # a plain copy still goes by dstSize
        self.assertEqual(card.mem[32:34], b"cd")
        stretched("54=410000 5C=3 " + sizes((5, 1), (2, 1)) + "70=CC000102!7 5C=2 70=CC000102+2")

    def test_directions(self):
        cards = [stretched(sizes((4, 2), (2, 3)) + f"6C=20003 5C=1 70={word}+6", bytes(range(1, 100)))
                 for word in ("CC000102", "CC004102", "CC008102", "CC00C102")]
        self.assertEqual(cards[0].mem[67:69].hex() + cards[0].mem[131:133].hex(), "02042224")
        self.assertEqual([card.mem for card in cards[1:]], [cards[0].mem] * 3)

    def test_launch(self):
        card = stretched(sizes((4, 1), (2, 1)) + "6C=20003 70=CC000002 80=E001E001+2 FC=2+2", bytes(range(1, 100)))
        self.assertEqual((card.get("srcXY"), card.get("dstXY"), card.mem[67:69].hex()), (2, 0x20003, "0305"))
        card.do("80=1E!7")
        self.assertEqual(card.get("srcXY"), 2)

    def test_steps(self):
        for word, after in (("CC000102", 0x20003), ("CC000502", 0x20005), ("CC000902", 0x50003), ("CC00CD02", 0x50005)):
            self.assertEqual(stretched(sizes((4, 1), (2, 3)) + f"6C=20003 70={word}+6").get("dstXY"), after)
        self.assertEqual(stretched(sizes((0, 0), (0, 3)) + "6C=20003 70=CC000D02").get("dstXY"), 0x50003)
        card = stretched(sizes((4, 1), (2, 1)) + "70=CC000402 80=0+2 80=1+2")
        self.assertEqual((card.mem[:5], card.get("dstXY")), (b"acbd\0", 4))

    def test_answer_4(self):
        for number in (4, 8, 9, 10, 11, 12, 13, 14, 15):
            stretched(sizes((1, 1), (1, 1)) + f"70=CC0001{number:02X}!4 70=CC0000{number:02X} 80=0!4")

    def test_answer_5(self):
        one, none, empty = (sizes(*pair) + "70=CC000102" for pair in (((1, 1),) * 2, ((0, 0), (1, 1)), ((1, 1), (0, 0))))
        for text in (one, none, empty):  # before a 6, and with nothing covered
            for fault in ("54=20020", "54=90020", "54=30020", "14=20020", "14=30020"):
                stretched(f"{fault} {text}!5")
            for fault in ("34=80000800 54=20", "34=80000800 54=410020"):  # tiled, and mono or packed
                stretched(f"{fault} {text}!5")
        stretched(one + "+1")

    def test_answer_6(self):
        for source in ((0, 0), (0, 1), (1, 0)):
            stretched(sizes(source, (1, 1)) + "70=CC000102!6")
            stretched("0C=0 " + sizes(source, (1, 1)) + "70=CC000102!6")  # emptied by the clip alone
            stretched("6C=20 " + sizes(source, (1, 1)) + "70=CC000102!6")  # before a 7
            for target in ((0, 0), (0, 1), (1, 0)):
                stretched(sizes(source, target) + "70=CC000102")
        stretched("5C=10001 54=310020 " + sizes((1, 1), (1, 1)) + "70=CC00C102+1")  # what makes a host blit a 6

    def test_answer_7(self):
        even, half = sizes((2, 2), (2, 2)), sizes((2, 2), (1, 1))
        for place in ("6C=1F", "6C=7F0000", "5C=1F", "5C=1FFF", "5C=3F0000", "5C=1FFF0000"):
            stretched(f"{place} {even}70=CC000102!7")
        for place in ("5C=1F", "5C=3F0000"):  # the second column or row is not taken
            stretched(f"{place} {half}70=CC000102+1")
        for place, clip in (("6C=1F", "0C=FFF0020"), ("6C=7F0000", "0C=800FFF"), ("5C=1F", "0C=FFF0001"),
                            ("5C=1FFF", "08=1"), ("5C=3F0000", "0C=10FFF"), ("5C=1FFF0000", "08=10000")):  # clipped away
            stretched(f"{place} {clip} {even}70=CC000102+2")
        stretched("5C=FFF " + sizes((8, 8), (0, 8)) + "70=CC000102 0C=0 " + even + "70=CC000102")  # nothing covered
        stretched("34=0 5C=1F " + even + "70=CC000102!7")  # before an 8

    def test_answer_8(self):
        eight, half = sizes((8, 1), (8, 1)), sizes((8, 1), (4, 1))
        for of, to, text in (("8", "0", eight), ("0", "8", eight), ("0", "7", half), ("4", "0", half)):
            stretched(f"34={of} 10={to} {text}70=CC000102+{8 if text is eight else 4}")  # spans that touch
        for of, to, text in (("7", "0", eight), ("0", "7", eight), ("0", "6", half), ("3", "0", half)):
            stretched(f"34={of} 10={to} {text}70=CC000102!8")
        one = "34=0 "  # one surface
        stretched(one + sizes((1, 1), (1, 1)) + "70=CC000101+1 70=CC000102!8 5C=1 70=CC000102+1")
        stretched(one + sizes((2, 1), (2, 1)) + "6C=1 70=CC000102!8 6C=2 70=CC000102+2 6C=10000 70=CC000102+2")
        rows = "6C=8 70=CC000101+4 70=CC000102!8 6C=20000 70=CC000102+4"  # they interleave, then they do not
        stretched(one + sizes((2, 2), (2, 2)) + rows)
        stretched(one + sizes((4, 4), (0, 4)) + "70=CC000102 0C=0 " + sizes((4, 4), (4, 4)) + "70=CC000102")
        stretched("34=0 54=1 " + sizes((8, 1), (8, 1)) + "6C=1 70=CC000102+8 6C=0 70=CC000102!8")  # mono


ONTO = "0C=FFF0FFF 10=80000000 60=1 64=2 68=10001 "  # a tiled target at 0, back 1, fore 2, a rectangle of one pixel
EDGE = "0C=FFF0FFF 10=80000000 14=10002 60=1 64=2 "  # of 8 bpp, two tiles across: byte column 128 is at 4096
PRINTED = """
     1  2  3  4  5  6  7  8
     9 10 11 12 13 14 15 16
    17 18 19 20 21 22 23 24
    25 26 27 28 29 30 31 32
    33 34 35 36 37 38 39 40
    41 42 43 44 45 46 47 48
"""  # source document 002, tiled frame buffer access: 1024 bytes by 192 lines


def painted(card):
    """Where bytes are not 0."""
    return [at for at, byte in enumerate(card.mem) if byte]


def across(card, y=0):
    """Byte columns 126 to 129 of a row in the first two tiles."""
    return bytes(card.mem[128 * y + 126:128 * y + 128] + card.mem[4096 + 128 * y:4098 + 128 * y])


class Tiles(unittest.TestCase):
    def test_map(self):
        self.assertEqual(Surface(0, 8, 8, True).address(128, 32, 0), 9 * 4096)
        self.assertEqual(Surface(0, 3, 8, True).address(5, 33, 0), 3 * 4096 + 133)
        self.assertEqual(Surface(0, 2, 24, True).places(42, 0), [126, 127, 4096])
        self.assertEqual(Surface(7, 3, 24, True).places(85, 33), [4 * 4096 + 262, 5 * 4096 + 135, 5 * 4096 + 136])
        self.assertEqual(Surface(0, 2, 32, True).places(32, 31), [4096 + 31 * 128 + k for k in range(4)])

    def test_printed_tiles(self):  # each has its 4,096 bytes, row by row
        surface = Surface(0, 8, 8, True)
        for down, line in enumerate(PRINTED.split("\n")[1:-1]):
            for along, number in enumerate(line.split()):
                found = [surface.address(128 * along + x, 32 * down + y, 0) for y in range(32) for x in range(128)]
                self.assertTrue(found == list(range(4096 * int(number) - 4096, 4096 * int(number))), f"tile {number}")
        self.assertEqual(surface.columns(), 1024)

    def test_one_owner(self):  # different pixels of a surface have no byte in common
        for depth, stride in ((8, 3), (16, 2), (24, 1), (24, 3), (32, 2)):
            surface = Surface(11, stride, depth, True)
            found = [at for y in range(70) for x in range(surface.columns()) for at in surface.places(x, y)]
            self.assertEqual(len(set(found)), len(found))

    def test_painted(self):
        for form, x, places in (("1", 128, [4096]), ("3", 64, [4096, 4097]), ("4", 42, [126, 127, 4096]),
                                ("5", 31, [124, 125, 126, 127])):
            card = Card(ONTO + f"14={form}0002 64=44332211 70=CC000005 80={x:X}+1", 8192)
            self.assertEqual(painted(card), places)
            self.assertEqual([card.mem[at] for at in places], [0x11, 0x22, 0x33, 0x44][:len(places)])
        card = Card(EDGE + "68=40001 6C=1E0001 70=CC000105+4", 5 * 4096)  # rows 30 to 33
        self.assertEqual(painted(card), [30 * 128 + 1, 31 * 128 + 1, 8193, 8321])

    def test_pixels_of_a_row(self):
        for form, stride, pixels in ((1, 1, 128), (3, 1, 64), (4, 1, 42), (5, 1, 32), (4, 2, 85), (4, 3, 128), (1, 2, 256)):
            Card(ONTO + f"14={form}000{stride} 70=CC000005 80={pixels - 1:X}+1 80={pixels:X}!7", 16384)
        Card(ONTO + "14=10000 70=CC000005 80=0!7 68=0 80=0")  # stride 0 has none

    def test_all_bits_of_the_stride(self):
        self.assertEqual(painted(Card(ONTO + "14=10081 70=CC000005 80=200000+1", 130 * 4096)), [129 * 4096])
        Card(ONTO + "14=13FFF 70=CC000005 80=1F007F+1 80=200000!7")

    def test_base(self):  # any number
        card = Card(ONTO + "10=80000005 14=10001 70=CC000005 80=0+1 80=200000+1 80=3E0000+1", 3 * 4096)
        self.assertEqual(painted(card), [5, 4101, 4101 + 30 * 128])
        self.assertEqual(card.get("dstBaseAddr"), 0x80000005)
        Card(ONTO + "10=80001000 14=10001 70=CC000005 80=0!7")

    def test_the_end_of_memory(self):
        Card(ONTO + "14=10001 70=CC000005 80=210001+1 80=210002!7 80=21007F!7 80=220000!7", 4096 + 130)
        Card(ONTO + "14=10002 70=CC000005 80=20081+1 80=20082!7 80=1F007F+1 80=30080!7", 4096 + 258)  # in the second tile
        three = ONTO + "14=40002 70=CC000005 80=10029+1 "  # pixel 42 of row 1: bytes 254, 255 and 4224
        Card(three + "80=1002A!7", 4224)
        Card(three + "80=1002A+1", 4225)
        Card(ONTO + "14=10004 68=40200 70=CC000005 80=0+2048 80=1C0000+2048 68=50001 80=1C0000!7 80=1C01FF!7", 4 * 4096)

    def test_each_command(self):
        host = "54={} 68=10004 6C=5007E 70=CC000003 80={}+4"
        for text, row, found in (
                ("68=10004 6C=7E 70=CC000105+4", 0, b"\2\2\2\2"), ("68=10004 6C=7E 100=82 70=F0012105+2", 0, b"\2\0\2\0"),
                (host.format("400000", "90"), 5, b"\2\1\1\2"), (host.format("410000", "64636261"), 5, b"abcd"),
                ("5C=7E 70=CC000006 80=81+4", 0, b"\2\2\2\2"), ("5C=7E 70=CC000007 80=81+3", 0, b"\2\2\2\0"),
                ("3C=9 40=300 5C=7E 70=CC001006 80=81+4", 0, b"\2\1\1\2")):
            self.assertEqual(across(Card(EDGE + text, 8192), row), found)
        card = Card(ONTO + "14=40002 108=33221100 6C=2B 70=F0000105+1", 8192)  # column 43 is 3 in the pattern, in any tile
        self.assertEqual(card.mem[4096:4101].hex(), "0011223300")
        for source, command, found in ((4, 1, b"abcd"), (4, 2, b"abcd"), (2, 2, b"aabb")):
            text = sizes((source, 1), (4, 1)) + f"34=2000 54=10020 6C=7E 70=CC00010{command}+4"
            self.assertEqual(across(Card(EDGE + text, 9000, bytes(8192) + b"abcd")), found)

    def test_from_tiles(self):
        start = bytes(126) + b"ab" + bytes(3968) + b"cd"
        for command in (1, 2):
            text = sizes((4, 1), (4, 1)) + f"14=10020 54=10002 5C=7E 70=CC00010{command}+4"
            card = Card("0C=FFF0FFF 10=2000 34=80000000 " + text, 9000, start)
            self.assertEqual(card.mem[8192:8197], b"abcd\0")
        card = Card("0C=FFF0FFF 10=2000 14=30020 34=80000000 54=40002 5C=2A 68=10001 70=CC000101+1", 9000, start)
        self.assertEqual(card.mem[8192:8194].hex(), "0c63")  # 24 bpp 636261, its top byte in the next tile

    def test_smear(self):  # in the order of pixels, whatever their addresses
        for (far, source, target, after), (axis, size, first, places) in itertools.product(
                ((0, 0, 1, b"AAAA"), (1, 2, 3, b"AABC"), (0, 1, 0, b"BCDD"), (1, 3, 2, b"DDDD")),
                ((0, "10003", 126, (126, 127, 4096, 4097)), (1, "30001", 30, (3840, 3968, 8192, 8320)))):
            card = Card(EDGE + f"34=80000000 54=10002 68={size}", 12288)
            for at, letter in zip(places, b"ABCD"):
                card.mem[at] = letter
            place = [first + at << 16 * axis for at in (source, target)]
            card.do(f"5C={place[0]:X} 6C={place[1]:X} 70={0xCC000101 | far << 14 + axis:X}+3")
            self.assertEqual(bytes(card.mem[at] for at in places), after)
        card = Card(EDGE + "34=80000000 54=10002 68=20002 5C=80 6C=1007F 70=CC000101+4", 8192, bytes(4097) + b"A")
        self.assertEqual(painted(card), [383, 4097, 4224])  # from (129, 0) to (128, 1) and on to (127, 2)

    def test_refused_sources(self):  # also with nothing covered; a fill uses none
        for target, nothing in itertools.product(("14=10020", "10=80000000 14=10001"), ("", "0C=0 ", "68=0 ")):
            start, one = f"0C=FFF0FFF {target} 58=10001 68=10001 34=80000800 {nothing}", "" if nothing else "+1"
            for form in ("1", "400001", "410001", "810001", "C10001"):
                Card(start + f"54={form} 70=CC000101!5 70=CC000102!5 70=CC000103!5")
            Card(start + f"54=10001 70=CC000103!5 70=CC000003 80=0!5 70=CC000105{one} 70=CC000101{one} 70=CC000102{one}")

    def test_before_other_refusals(self):
        packed, both = "0C=FFF0FFF 14=10020 54=410001 58=10001 68=10001 34=80000000 ", "70=CC000101!{0} 70=CC000102!{0} "
        for fault, answer in (("6C=20 ", 7), ("", 8)):
            Card(packed + fault + both.format(5) + "34=0 " + both.format(answer))
        Card(packed + "58=0 70=CC000102!5 34=0 70=CC000102!6")
        Card(packed + "54=710001 5C=1 70=CC000103!5 34=0 70=CC000103!6")

    def test_views(self):
        for width in (0, 1):
            self.assertEqual(row_view(bytearray(8192), 1 << 31, 0x00010002, 0, 0, width), (5, 0, 0))

    def test_surfaces_differ(self):  # tiled and linear by the same words: an 8 where spans meet
        for target, source, moved in (("80000000", "0", "5C"), ("0", "80000000", "6C")):
            same = f"0C=FFF0FFF 10={target} 14=10020 34={source} 54=10020 58=20004 68=20004 "
            for command in ("CC000101", "CC000102"):
                Card(same + f"70={command}!8 0C=0 70={command} 0C=FFF0FFF 68=4 70={command}")
                Card(same + f"{moved}=40000 70={command}!8 {moved}=50000 70={command}+8")  # the tile's bytes are 0 to 131
        one = EDGE + "34=80000000 54=10002 68=20004 58=20004 5C=1 "
        Card(one + "70=CC000101+8 70=CC000102!8 5C=40000 70=CC000101+8 70=CC000102+8", 8192)
        for other in ("54=10003", "54=30002 14=40002", "34=80000001"):
            Card(one + f"{other} 70=CC000101!8", 8192)
        Card(one + "14=10001 34=0 54=10080 70=CC000101!8", 8192)  # also where each pixel has the same bytes in both

    def test_spans(self):  # across two tiles they take in what lies between
        wide = EDGE + "54=10002 68=20002 58=20002 6C=7F "  # bytes 127, 255, 4096 and 4224
        for base, answer in (("1081", "+4"), ("1080", "!8"), ("200", "!8"), ("7C", "!8"), ("7B", "+4")):
            Card(wide + f"34={base} 70=CC000101{answer} 70=CC000102{answer}", 8192)
        one = ONTO + "14=40002 54=40003 58=10001 6C=2A "  # bytes 126, 127 and 4096
        for base, answer in (("1001", "+1"), ("1000", "!8"), ("FFE", "!8"), ("7C", "!8"), ("7B", "+1")):
            Card(one + f"34={base} 70=CC000101{answer} 70=CC000102{answer}", 8192)

    def test_no_address_wraps(self):
        self.assertEqual(Surface(0, 8192, 8, True).address(0, 4096, 0), 2 ** 32)
        self.assertEqual(Surface(0, 8256, 32, True).address(2048, 4064, 0), 2 ** 32)
        source = "0C=FFF0FFF 08=10000 10=1000 14=10020 34=80000000 54=12000 58=20001 68=20001 "  # the second row of two
        for command in ("CC000101", "CC000102"):
            Card(source + f"5C=FFF0000 70={command}!7 5C=1FFF0000 70={command}+1", 8192)
        Card(ONTO + "14=52040 70=CC000005 80=FE00800!7 80=0+1", 8192)
        Card(ONTO + "10=80FFF000 14=10001 70=CC000005 80=0!7 80=200000!7", 8192)  # the latter at 2^24

    def test_program(self):
        text = stream("10=80000000 14=40002 08=29 0C=2002B 68=10001 64=112233 70=CC000005 80=2A 64=445566 80=10029")
        self.assertEqual(play(text), "P3\n2 2\n255\n0 0 0\n17 34 51\n68 85 102\n0 0 0\n")
        self.assertEqual(play(stream("10=80000000 14=10004 08=7F01FF 0C=800200")), "P3\n1 1\n255\n0 0 0\n")
        for text in ("14=10004 0C=810001", "14=10004 0C=10201", "14=10004 0C=0", "14=10000 0C=10001", "14=20004 0C=10001"):
            self.assertEqual(play(stream("10=80000000 " + text)), "no picture\n")


HOST8 = TO8 + "54=410000 "  # host data of 8 bpp
OPEN = "0C=FFF0FFF "  # a clip that leaves everything


class Changed(unittest.TestCase):
    def test_samples(self):
        Card(DOT + "64=F 70=CC000105+1/0", start=b"\x0F")
        Card(DOT + "64=F 70=CC000105+1/1", start=b"\x0E")
        Card(DOT + "64=FFFFFF0F 70=CC000105+1/0", start=b"\x0F")
        Card(OPEN + "14=50020 68=10001 64=1000000 70=CC000105+1/1 70=CC000105+1/0")
        card = Card(TO8 + "54=10020 68=10003 5C=0 6C=1 70=CC000101+3/2", start=b"AABC")
        self.assertEqual(card.mem[:4], b"AAAA")  # it spreads, and the first pixel is what it was
        card = Card(TO8 + "54=10020 68=10003 5C=2 6C=3 70=CC004101+3/2", start=b"AABC")
        self.assertEqual(card.mem[:4], b"AAAB")  # from the right it moves, and that pixel is again what it was

    def test_before_is_just_before(self):  # ABAB from either end: the middle one of the three stays A or becomes B
        Card(TO8 + "54=10020 68=10003 5C=0 6C=1 70=CC000101+3/2", start=b"ABAB")
        Card(TO8 + "54=10020 68=10003 5C=2 6C=3 70=CC004101+3/3", start=b"ABAB")
        Card(TO8 + "54=10020 68=10003 5C=0 6C=1 70=66000101+3/2", start=b"\1\1\1\1")  # 1, 0, 1, 0
        Card(TO8 + "54=10020 68=10003 5C=0 6C=1 70=66000101+3/1", start=b"\1\1\0\0")  # 1, 0, 0, 0

    def test_second_pass(self):
        half = "34=800 54=10020 58=10008 68=10004 "
        for scene, count in (("68=30005 70=CC000105", 15), ("68=30005 100=FF2AC55A 70=F0000105", 15),
                             ("68=10008 100=5A 70=F0002105", 8), ("68=10008 100=5A 70=F0012105", 4),
                             ("34=800 54=20 68=10008 70=CC000101", 8), ("34=800 54=10020 68=30005 70=CC000101", 15),
                             (half + "70=CC000102", 4), ("5C=0 6C=30007 70=CC000106", 8),
                             ("5C=0 6C=30007 40=700 3C=A5 70=CC001107", 7), ("5C=0 6C=30007 40=700 3C=A5 70=CC011107", 3)):
            card = Card(TO8 + f"{scene}+{count}", start=bytes(0x800) + bytes(range(1, 256)) * 2)
            self.assertNotEqual(card.mem[:0x800], bytes(0x800))
            card.do(f"5C=0 {scene}+{count}/0")
        card = Card(HOST8 + "68=10004 70=CC000003 80=4030201+4/4 80=4030201+4/0 80=4030001+4/1 80=4030201+4/1")
        self.assertEqual(card.mem[:5], b"\1\2\3\4\0")
        Card(TO8 + "54=400000 68=10008 70=CC000003 80=F0+8/8 80=F0+8/0 80=F1+8/1 80=70+8/2")

    def test_each_byte(self):  # every byte that a pixel has, and no other
        for form, size in ((1, 1), (3, 2), (4, 3), (5, 4)):
            for k in range(4):
                there = int(k < size)
                colour = f"64=44332211 70=CC000105+1/1 64={0x44332211 ^ 1 << 8 * k + 7:X} 70=CC000105+1/"
                Card(OPEN + f"14={form}0020 68=10001 {colour}{there} 70=CC000105+1/0")
                Card(OPEN + f"10=80000000 14={form}0002 68=10001 6C=2A {colour}{there}", 8192)  # at 24 bpp across two tiles
                if not there:
                    continue
                start = bytearray(0x820)
                start[0x800 + k] = 1
                source = f"14={form}0020 34=800 54={form}0020 68=10001 58=10001 "
                Card(OPEN + source + "70=CC000101+1/1 70=CC000101+1/0", start=start)
                Card(OPEN + source + "70=CC000102+1/1 70=CC000102+1/0", start=start)
                Card(OPEN + f"14={form}0020 68=10001 100={1 << 8 * k:X} 70=F0000105+1/1 70=F0000105+1/0")
                Card(OPEN + f"14={form}0020 64={1 << 8 * k:X} 40=0 3C=1 70=CC001106+1/1 70=CC001106+1/0")
                Card(OPEN + f"14={form}0020 64={1 << 8 * k:X} 54=400000 68=10001 70=CC000003 80=80+1/1 80=80+1/0 80=0+1/1")
        Card(OPEN + "14=50020 38=2 20=0 24=0 30=F0 68=10001 64=FF000000 70=CC000105+1/0 100=1 70=CC000105+1/1")

    def test_left_out(self):  # a pixel that is left is in neither number
        Card(TO8 + "68=10008 100=C1 70=F0012105+3/3 70=F0012105+3/0 100=83 70=F0012105+3/1")
        Card(TO8 + "54=400000 68=10008 70=CC010003 80=C1+3/3 80=83+3/1 80=0")
        Card(TO8 + "40=700 3C=7 6C=7 70=CC011106+3/3 5C=0 40=700 3C=E 70=CC011106+3/1")
        Card(TO8 + "08=2 0C=FFF0004 68=10008 70=CC000105+2/2 08=1 0C=FFF0005 70=CC000105+4/2")  # clipped, likewise

    def test_keys(self):  # a pixel that a key keeps is written and does not change
        source = FROM8 + "68=10004 58=10004 30=AAAAAA 38={} 18=62 1C=63 20=78 24=78 70=CC00010{}"
        start = b"xyxy" + bytes(0x7FC) + b"abca"
        for command in "12":
            for extra, changed, after in ((0, 4, b"abca"), (1, 2, b"ayxa"), (2, 2, b"xbxa"), (3, 1, b"xyxa")):
                text = source.format(extra, command)
                card = Card(f"{text}+4/{changed}", start=start)
                self.assertEqual(card.mem[:4], after)
                card.do(f"70=CC00010{command}+4/0")
        Card(TO8 + "68=10004 38=2 20=78 24=78 30=CC 64=78 70=AA000105+4/0 64=7A 70=AA000105+4/2 70=AA000105+4/0", start=b"xyxy")

    def test_operations(self):
        fill = TO8 + "68=10004 64=0 "
        start = b"\0\1\xFF\x0F"
        for rop, changed in ((0xAA, 0), (0x55, 4), (0x00, 3), (0xFF, 3), (0x66, 0), (0xEE, 0), (0x88, 3), (0x99, 4)):
            Card(fill + f"70={rop << 24 | 0x105:X}+4/{changed}", start=start)
        Card(fill + "100=F0F0100 70=5A000105+4/3 70=5A000105+4/3", start=start)  # xor by pattern bytes 0, 1, F, F
        Card(fill + "64=F 70=88000105+4/1 70=88000105+4/0", start=start)  # 0, 1, F, F and again

    def test_host_words(self):  # a pixel counts with the word that has its last byte
        text = "0C=FFF0FFF 14=40030 54=440000 68=10004 70=CC000003 "
        Card(text + "80=1000000+1/0 80=0+1/1 80=1000000+2/1")
        Card(text.replace("70", "08=2 70") + "80=1000000 80=1000000 80=0+2/1")  # the first two are clipped

    def test_conversion(self):  # it is the target's bytes that count
        to16 = OPEN + "14=30020 34=800 54=50020 68=10002 58=10002 "
        start = bytes(0x800) + bytes.fromhex("0703077F 0000080F")  # 000000 but for low bits, and red 1
        for command in "12":
            Card(to16 + f"70=CC00010{command}+2/1 70=CC00010{command}+2/0", start=start)
        to32 = OPEN + "14=50020 34=800 54=30020 68=10002 70=CC000101+2/2"  # the top bytes become 0
        card = Card(to32, start=bytes(3) + b"\1\0\0\0\1" + bytes(0x800))
        self.assertEqual(card.mem[:8], bytes(8))

    def test_tiles(self):
        wide = EDGE + "68=20004 6C=7E 70=CC000105+8/8 70=CC000105+8/0 6C=10080 70=CC000105+8/6"
        self.assertEqual(painted(Card(wide, 8192)), [126, 127, 254, 255, 4096, 4097, *range(4224, 4228), *range(4352, 4356)])
        start = bytearray(9000)
        start[126:128], start[4096] = b"ab", 99
        text = OPEN + "10=2000 14=40020 34=80000000 54=40002 5C=2A 68=10001 58=10001 70=CC000101+1/1 70=CC000102+1/0"
        for at in (126, 127, 4096):
            card = Card(text, 9000, start)
            card.mem[at] ^= 1
            card.do("70=CC000102+1/1 70=CC000101+1/0")

    def test_refused(self):  # 0 and 0, wherever the write is refused
        card = Card(DOT + "64=7 70=CC000005 80=0+1/1 80=20!7 70=CC000104!4 74=0!2 14=20020 80=0!5")
        self.assertEqual(card.engine.write(bytearray(4095), 0x80, 0), (1, 0, 0))
        for offset, word in ((0x80, 0), (0x74, 0), (0x70, 0xCC000108)):
            self.assertEqual(card.engine.write(card.mem, offset, word)[1:], (0, 0))
        Card(TO8 + "70=100 80=5 54=400000 68=8 70=CC000103 68=10008 70=CC000103 64=0!3")  # nop, and opening a blit

    def test_every_distance(self):
        """Of a copy within one surface those pixels changed that differ in the memory before and after, from any corner."""
        start = bytes(i * i // 3 % 3 for i in range(1024))
        for turn, across, down in itertools.product(range(4), range(-4, 5), range(-4, 5)):
            corner = 2 * (turn & 1), 2 * (turn >> 1)
            place = [8 + corner[1] + y << 16 | 8 + corner[0] + x for x, y in ((0, 0), (across, down))]
            card = Card(TO8 + f"54=10020 68=30003 5C={place[0]:X} 6C={place[1]:X}", start=start)
            found = card.engine.write(card.mem, 0x70, 0xCC000101 | turn << 14)
            self.assertEqual(found, (0, 9, sum(old != new for old, new in zip(start, card.mem))))


def ran(text, words, length=4096, lent=None, start=b""):
    """A card after the writes and a run, with the run's answer."""
    card = Card(text, length, start)
    return card, card.engine.write_run(card.mem if lent is None else bytearray(lent), words)


GLYPH = TO8 + "54=400000 68=20008 "  # mono data, packed: a glyph of 8 by 2 is one word and two bytes of it are left


class Runs(unittest.TestCase):
    def test_glyphs_in_one_run(self):  # each blit steps, and the next word opens the next
        card, answer = ran(GLYPH + "70=CC000403", [0xFFFF00FF, 0x0FF0, 0xAAAA])
        self.assertEqual((answer, card.get("dstXY"), card.engine.waiting), ((0, 3, 48, 48), 24, None))
        self.assertEqual(card.mem[:25].hex(), "02" * 12 + "01" * 4 + "0201" * 4 + "00")
        self.assertEqual(card.mem[32:57].hex(), "01" * 12 + "02" * 4 + "0201" * 4 + "00")
        self.assertEqual(ran(GLYPH + "70=CC000803", [0, 0])[0].get("dstXY"), 0x40000)

    def test_one_blit(self):  # begun, gone on with and ended by runs; a pixel is drawn once its last byte is there
        card, answer = ran(OPEN + "14=40030 54=440000 68=10004 70=CC000003", [0x01020304])
        self.assertEqual((answer, bytes(card.engine.waiting)), ((0, 1, 1, 1), b"\4\3\2\1"))
        self.assertEqual(card.engine.write_run(card.mem, [0x05060708]), (0, 1, 1, 1))
        self.assertEqual(card.mem[:7].hex(), "04030201080700")
        self.assertEqual(card.engine.write_run(card.mem, [0, 0]), (0, 2, 2 + 1, 1 + 1))  # it ends, and the next has begun
        self.assertEqual((card.mem[:13].hex(), len(card.engine.waiting)), ("00" * 3 + "0108070605" + "00" * 5, 4))

    def test_sums(self):  # of both numbers, over the words taken
        host = TO8 + "54=410000 68=10004 70=CC000003"
        self.assertEqual(ran(host, [0x04030201] * 3)[1], (0, 3, 12, 4))
        self.assertEqual(ran(host, [0x04030201, 0x04030200, 0x04030201])[1], (0, 3, 12, 6))
        self.assertEqual(ran(GLYPH + "70=CC010003", [0x8001, 0x8001, 0])[1], (0, 3, 4, 2))  # what is left out is in neither

    def test_stops(self):  # at the first refused word, which does nothing, nor do those after it
        card, answer = ran(DOT + "70=CC000005", [0, 1, 32, 2])
        self.assertEqual((answer, card.mem[:4].hex(), card.get("dstXY")), ((7, 2, 2, 2), "02020000", 1))
        self.assertEqual(ran(DOT + "70=CC000005", [32, 0])[1], (7, 0, 0, 0))
        card, answer = ran(TO8 + "54=410000 68=10004 6C=19 70=CC000403", [0x01010101] * 4)  # columns 25 to 28, then 29 to 32
        self.assertEqual((answer, card.get("dstXY"), card.engine.waiting), ((7, 1, 4, 4), 29, None))
        card, answer = ran(FROM8 + "10=800 34=400 68=10004 70=CC000001", [0, 0x1F0000, 0x200000, 0])  # onto the target: 8
        self.assertEqual((answer, card.get("srcXY")), ((8, 2, 8, 0), 0x1F0000))
        self.assertEqual(ran(TO8 + "70=CC000008", [0, 0])[1], (4, 0, 0, 0))
        self.assertEqual(ran("70=CC000005", [0, 0])[1], (5, 0, 0, 0))
        self.assertEqual(ran(TO8 + "5C=1 54=400000 70=CC000003", [0, 0])[1], (6, 0, 0, 0))

    def test_positions(self):  # each word is one, for a copy of the source
        card, answer = ran(FROM8 + "68=10001 70=CC000401", [2, 0, 1], start=bytes(0x800) + b"abc")
        self.assertEqual((answer, card.mem[:4], card.get("srcXY")), ((0, 3, 3, 3), b"cab\0", 1))
        card, answer = ran(FROM8 + sizes((2, 1), (4, 1)) + "70=CC000402", [1, 0], start=bytes(0x800) + b"abc")
        self.assertEqual((answer, card.mem[:9]), ((0, 2, 8, 8), b"bbccaabb\0"))
        card, answer = ran(TO8 + "70=CC000007", [3, 0x20003, 0])  # three sides
        self.assertEqual((answer, painted(card)), ((0, 3, 3 + 2 + 3, 8), [0, 1, 2, 3, 33, 34, 35, 67]))
        card, answer = ran(TO8 + "70=CC000006", [3, 0x20003, 32])
        self.assertEqual((answer, card.get("srcXY")), ((7, 2, 4 + 3, 6), 0x20003))

    def test_taken_for_nothing(self):  # nop, and blits that need no words
        self.assertEqual(ran(TO8 + "70=CC000000", [1, 2, 3])[1], (0, 3, 0, 0))
        card, answer = ran(TO8 + "54=400000 68=8 6C=3 70=CC000403", [1, 2, 3])
        self.assertEqual((answer, card.get("dstXY"), card.engine.waiting), ((0, 3, 0, 0), 27, None))

    def test_empty(self):  # 0, whatever the memory's length
        for text in ("", DOT + "70=CC000005", GLYPH + "68=20020 70=CC000103", TO8 + "70=CC00000F"):
            for lent in (None, 4095, 0, model.LIMIT + 1):
                card, answer = ran(text, [], lent=lent)
                other = Card(text)
                self.assertEqual((answer, card.mem), ((0, 0, 0, 0), other.mem))
                self.assertEqual(vars(card.engine), vars(other.engine))
        self.assertEqual(Engine(model.LIMIT + 1).write_run(bytearray(7), []), (0, 0, 0, 0))

    def test_length(self):  # the first word is refused, and a waiting blit waits on
        for lent in (4095, 4097, 0, model.LIMIT + 1):
            card, answer = ran(GLYPH + "68=20020 70=CC000003 80=0+32", [0, 0], lent=lent)
            self.assertEqual((answer, len(card.engine.waiting)), ((1, 0, 0, 0), 4))
        self.assertEqual(Engine(model.LIMIT + 1).write_run(bytearray(model.LIMIT + 1), [0]), (1, 0, 0, 0))


def delivered(data, places=(), card=None):
    """A card after these bytes, cut at these places, with the answers and the tail."""
    card, reader, answers = card or Card(length=65536), PacketReader(), []
    for low, past in zip([0, *places], [*places, len(data)]):
        answers += reader.take(card.engine, card.mem, data[low:past])
    return card, answers, reader.tail()


def left_after(data, places=()):
    """All that the bytes leave, however they are cut."""
    card, answers, tail = delivered(data, places, Card(length=700))
    return vars(card.engine), card.mem, answers, tail


def any_packets(dice):
    """Packets of any offsets and words, and now and then any word at all; the end may be missing."""
    data = b""
    for _ in range(dice.randrange(1, 8)):
        header = dice.choice((2, 1 << 14 | 1)) | dice.getrandbits(29) << 3 & dice.getrandbits(29) << 3 & ~(0xFFF8 << 16)
        if dice.random() < 0.1:
            header = dice.getrandbits(32) & 0x0003FFFF
        data += spelled([header, *(dice.getrandbits(32) & dice.choice((0xFFFFFFFF, 0x0007000F)) for _ in packet_offsets(header))])
    return data[:dice.randrange(len(data) + 1)]


NINES = (0x00040101, 0, 3, 4, 5, 6, 7, 0x00000101, 0x00048101, 0x0001B801, 0xFFFFBFF9, 0x00014104, 0xFFFFFFFF)  # headers
SHEET = "P3\n2 2\n255\n0 0 0\n0 0 0\n255 128 0\n0 0 0\n"  # the scope paper's example


class Packets(unittest.TestCase):
    def test_headers(self):  # types 1 and 2, 002:5678-5707, in the places of 000's registers
        for header, offsets in ((0x2C000052, [0x0C, 0x14, 0x64, 0x68, 0x70]), (0x00044101, [0x80] * 4), (0x0002C011, [0x08, 0x0C]),
                                (0xE0000002, [0x70, 0x74, 0x78]), (0x0040C201, [*range(0x100, 0x200, 4)]), (0x00004101, []),
                                (0x00000002, []), (0x0000C7F9, []), (0xFFFFFFFA, [*range(0x08, 0x7C, 4)]), (0x000347F9, [0x3FC] * 3),
                                (0x0003C7F9, [0x3FC, 0x400, 0x404]), (0x00024001, [0, 0]), (0x0002F801, [0, 4]), (0x0000000A, [0x08])):
            self.assertEqual(packet_offsets(header), offsets, f"{header:08X}")
        for number in range(29):
            self.assertEqual(packet_offsets(8 << number | 2), [8 + 4 * number])
        self.assertEqual(packet_offsets(0xFFFFC101), [0x80 + 4 * k for k in range(65535)])
        self.assertEqual([packet_kind(header) for header in (0x00014101, 0x0001C101, 0x0000000A)], [model.SAME, model.ALONG, model.MASKED])
        self.assertEqual([packet_kind(header) for header in NINES], [model.NOTHING] * len(NINES))

    def test_example(self):
        data = spelled(EXAMPLE)
        card, answers, tail = delivered(data)
        self.assertEqual((answers, tail), ([(0, 0, 0)] * 5 + [(0, 1, 1)], (0,) * 6))
        self.assertEqual(vars(card.engine), vars(Card("0C=20002 14=50008 64=FF8000 68=10001 70=CC000005 80=10000+1", 65536).engine))
        self.assertEqual(packet_picture(data), SHEET)
        for place in range(len(data) + 1):
            found, cut_answers, cut_tail = delivered(data, [place])
            self.assertEqual((cut_answers, cut_tail, model.picture(found.engine, found.mem)), (answers, tail, SHEET))

    def test_once_its_last_byte_is_there(self):  # one answer with each fourth byte but the headers'
        reader, card = PacketReader(), Card(length=65536)
        found = [len(reader.take(card.engine, card.mem, bytes([byte]))) for byte in spelled(EXAMPLE)]
        self.assertEqual([at for at, count in enumerate(found) if count], [7, 11, 15, 19, 23, 31])
        self.assertEqual(reader.take(card.engine, card.mem, b""), [])

    def test_words_are_low_byte_first(self):
        card, _, _ = delivered(bytes.fromhex("0A000040" "44332211" "78563412"), card=Card())  # bits 0 and 27 of a mask
        self.assertEqual(card.get("clip0Min"), 0x01220344)
        self.assertEqual(delivered(bytes.fromhex("01430100" "44332211"), card=Card())[1], [(0, 0, 0)])  # number 60: pattern 180

    def test_tail(self):
        mask, along, same = 0x2C000052, 0x0003C0C1, 0x00034101
        for data, tail in ((b"", (0, 0, 0, 0, 0)), (b"\xAB", (1, 0xAB000000, 0, 0, 0)), (b"\1\2\3", (3, 0x03020100, 0, 0, 0)),
                           (spelled([mask]), (0, 0, 3, 0x0C, 0x02C00005)), (spelled([mask, 0]), (0, 0, 3, 0x14, 0x00B00001)),
                           (spelled([mask, 0, 0]) + b"\7\x08", (2, 0x08070000, 3, 0x64, 0xB)),
                           (spelled([mask, 0, 0, 0, 0]), (0, 0, 3, 0x70, 1)), (spelled([mask, 0, 0, 0, 0, 0]), (0, 0, 0, 0, 0)),
                           (spelled([along]), (0, 0, 2, 0x60, 3)), (spelled([along, 5, 6]) + b"\x09", (1, 0x09000000, 2, 0x68, 1)),
                           (spelled([along, 5, 6, 7]), (0, 0, 0, 0, 0)), (spelled([same, 5]), (0, 0, 1, 0x80, 2)),
                           (spelled([0xFFFF47F9, 5]), (0, 0, 1, 0x3FC, 65534)), (spelled([0xFFFFC7F9, 5]), (0, 0, 2, 0x400, 65534)),
                           (spelled([0xFFFFFFFA]), (0, 0, 3, 8, 0x1FFFFFFF)), (spelled([0x00004101, 2, 0x0000C7F9]), (0, 0, 0, 0, 0))):
            self.assertEqual(delivered(data)[2], (*tail, 0), data.hex())

    def test_no_words(self):  # the next word is a header
        empty = spelled([0x00004101, 0x00000002, 0x0000FFF9])
        example = spelled(EXAMPLE)
        plain = delivered(example)
        for data in (empty + example, example[:24] + empty + example[24:], example + empty):
            card, answers, tail = delivered(data)
            self.assertEqual((answers, tail, card.mem), (*plain[1:], plain[0].mem))
        self.assertEqual(delivered(empty)[1:], ([], (0,) * 6))

    def test_nine(self):  # once, with the header's last byte; the tail is then empty, and the rest is dropped
        first = spelled(EXAMPLE[:6])
        for header in NINES:
            bad = spelled([header])
            card, answers, tail = delivered(first + bad[:3])
            self.assertEqual((len(answers), tail[0]), (5, 3))
            for later in (b"", b"\1", spelled(EXAMPLE[6:]), spelled([header] * 5), bytes(99)):
                data = first + bad + later
                for places in ([], [len(first) + 4], [len(first) + 2, len(first) + 5]):
                    other, found, tail = delivered(data, places)
                    self.assertEqual((found, tail), (answers + [(9, 0, 0)], (0, 0, 0, 0, 0, 1)))
                    self.assertEqual((vars(other.engine), other.mem), (vars(card.engine), card.mem))
            self.assertEqual(delivered(spelled(EXAMPLE[6:]), card=other)[1:], ([(0, 1, 1)], (0,) * 6))  # a new reader goes on
        data = spelled([*EXAMPLE[:3], 3])  # inside a packet no word is a header
        self.assertEqual(delivered(data)[1], [(0, 0, 0)] * 3)

    def test_opened_anew(self):  # inside a word or a packet: what was held is gone, and the engine stays
        data = spelled(EXAMPLE)
        for place in range(25):
            card, answers, _ = delivered(data[:place])
            again, more, tail = delivered(data, card=card)
            self.assertEqual((more, tail, len(answers)), ([(0, 0, 0)] * 5 + [(0, 1, 1)], (0,) * 6, max(0, place // 4 - 1)))
            self.assertEqual(vars(again.engine), vars(delivered(data)[0].engine))

    def test_a_refusal_does_not_stop_the_packet(self):
        every = [0x00400000 if offset == 0x54 else 0 for offset in range(0x08, 0x7C, 4)]
        self.assertEqual(delivered(spelled([0xFFFFFFFA, *every]))[1], [(0, 0, 0)] * 27 + [(2, 0, 0)] * 2)
        _, answers, _ = delivered(spelled([0x0004C3F1, 1, 2, 3, 4]))  # from number 7E: 1F8, 1FC, 200, 204
        self.assertEqual([number for number, _, _ in answers], [0, 0, 2, 2])
        card = Card(TO8 + "68=10001 70=CC000005")
        _, answers, _ = delivered(spelled([0x00054101, 0, 32, 1, 0x800000, 2]), card=card)
        self.assertEqual(answers, [(0, 1, 1), (7, 0, 0), (0, 1, 1), (7, 0, 0), (0, 1, 1)])
        self.assertEqual(card.mem[:4].hex(), "02020200")

    def test_a_waiting_blit(self):  # registers are a 3, a command that is refused a 4, data goes on; then it is given up
        card = Card(GLYPH + "68=30020 70=CC000003")
        data = spelled([0x00014101, 0xFF, 0x000AC0C1, *range(4), 0xCC000104, 5, 6, 7, 0xF0, 0xF])  # 60 to 84
        data += spelled([0x0004C1F1, 1, 2, 3, 4])  # F8, FC, 100 and 104
        _, answers, _ = delivered(data, range(1, len(data), 3), card)
        self.assertEqual([number for number, _, _ in answers], [0, 3, 3, 3, 3, 4, 2, 2, 2, 0, 0, 0, 0, 3, 3])
        self.assertEqual([count for _, count, _ in answers], [32] + [0] * 8 + [32, 32] + [32, 32] + [0, 0])  # it ends, and the next waits

    def test_given_up(self):
        card = Card(GLYPH + "68=30020 70=CC000003 80=FF+32")
        _, answers, _ = delivered(spelled([0x3C000002, 7, 8, 9, 0xCC000000]), card=card)
        self.assertEqual(([number for number, _, _ in answers], card.engine.waiting), ([3, 3, 3, 0], None))

    def test_lengths(self):  # a 1 for each word on a memory of another length; headers and nines are as ever
        data, card = spelled([*EXAMPLE[:6], 2, 3]), Card()
        reader = PacketReader()
        self.assertEqual(reader.take(card.engine, bytearray(4095), data), [(1, 0, 0)] * 5 + [(9, 0, 0)])
        reader = PacketReader()
        answers = [reader.take(card.engine, bytearray(4095) if at % 8 < 4 else card.mem, data[at:at + 1]) for at in range(24)]
        self.assertEqual([number for part in answers for number, _, _ in part], [0, 1, 0, 1, 0])  # by each word's last byte
        self.assertEqual((card.get("clip0Max"), card.get("dstFormat"), card.get("colorFore")), (0x20002, 0, 0xFF8000))

    def test_cuts_do_not_matter(self):
        dice, nines = random.Random(7), 0
        for _ in range(80):
            data = any_packets(dice)
            plain = left_after(data)
            nines += plain[3][5]
            for count in (1, 3, 9, len(data)):
                places = sorted(dice.randrange(len(data) + 1) for _ in range(count))
                self.assertEqual(left_after(data, places), plain)
            self.assertEqual(left_after(data, range(1, len(data))), plain)
        self.assertTrue(8 < nines < 72)

    def test_program(self):
        example = spelled(EXAMPLE)
        for data in (example[:31], example[:28], example[:9], example[:4], example[:1], example + b"\0", example + spelled([0x00014101])):
            self.assertEqual(packet_picture(data), "short write\n")
        self.assertEqual([packet_picture(data) for data in (b"", spelled([2]))], ["no picture\n"] * 2)
        self.assertEqual(packet_picture(example[:24]), SHEET.replace("255 128", "0 0"))
        for data, number, index in ((bytes(99), 9, 0), (spelled([3]), 9, 0), (example + spelled([0]), 9, 6),
                                    (example + spelled([0, 3]) + b"\1", 9, 6), (example + spelled([0xE0000002, 0, 1]), 2, 7),
                                    (example + spelled([0x0000001A, 0, 1, 5]), 9, 8),
                                    (example + spelled([0x00014011, 0, 0x00014001, 0, 3]), 2, 7)):
            self.assertEqual(packet_picture(data), f"refused {number} at {index}\n")


def rooms(text, length=65536):
    """The four numbers after some writes."""
    return Card(text, length).engine.rooms()


class Widths(unittest.TestCase):
    def test_samples(self):
        for text, numbers in (("14=40007", (2, 9362)), ("14=40007 10=FFFA", (2, 0)), ("10=80000000 14=50003", (96, 160)),
                              ("14=20007", (0, 0)), ("14=40000", (0, 0))):
            self.assertEqual(rooms(text), (0, 0, *numbers))
            source = " ".join({"14": "54", "10": "34"}[write[:2]] + write[2:] for write in text.split())
            self.assertEqual(rooms(source), (*numbers, 0, 0))
        self.assertEqual(rooms("54=4"), (32, 16384, 0, 0))
        self.assertEqual(rooms("54=4 34=80000000"), (0,) * 4)

    def test_partial_row(self):  # pixel (0, 2) has bytes 14 to 16
        fill = OPEN + "14=40007 68=10001 70=CC000005 80=10001+1 80=20000"
        self.assertEqual(rooms(fill + "+1", 17), (0, 0, 2, 2))
        self.assertEqual(rooms(fill + "!7", 16), (0, 0, 2, 2))
        tiles = "10=80000000 14=10001 80=1F007F+1 80=210001"
        self.assertEqual(rooms(DOT + "70=CC000005 " + tiles + "+1 80=210002!7", 4096 + 130), (0, 0, 128, 32))

    def test_formats(self):
        none = (0, 0)
        for form in range(16):
            rows = {1: (40, 1638), 3: (20, 1638), 4: (13, 1638), 5: (10, 1638)}.get(form, none)
            tiles = {1: (256, 256), 3: (128, 256), 4: (85, 256), 5: (64, 256)}.get(form, none)
            if form < 8:
                self.assertEqual(rooms(f"14={form}0028"), none + rows)
                self.assertEqual(rooms(f"10=80000000 14={form}0002"), none + tiles)
            for packing in range(4):  # of no effect
                word = packing << 22 | form << 16
                self.assertEqual(rooms(f"68=50003 54={word | 40:X}"), ((320, 1638) if form == 0 else rows) + none)
                self.assertEqual(rooms(f"68=50003 34=80000000 54={word | 2:X}"), tiles + none)
        self.assertEqual(rooms("14=FFF98007 54=FF01C007"), (7, 9362, 7, 9362))  # bits that are not kept

    def test_bases(self):
        for base, rows in ((0, 14), (10, 12), (93, 1), (94, 0), (100, 0), (101, 0), (2 ** 24 - 1, 0)):
            self.assertEqual(rooms(f"14=10007 10={base:X} 54=7 34={base:X}", 100), (56, rows, 7, rows))
        for left, rows in ((-1, 0), (0, 0), (8191, 0), (8192, 32), (8193, 32), (16383, 32), (16384, 64)):
            base = f"{1 << 31 | 20000 - left:X}"
            self.assertEqual(rooms(f"14=40002 10={base} 54=30002 34={base}", 20000), (128, rows, 85, rows))

    def test_limits(self):
        self.assertEqual(rooms("14=10001 54=10001", model.LIMIT), (1, model.LIMIT, 1, model.LIMIT))
        self.assertEqual(rooms("10=80000000 14=13FFF 54=3FFF", model.LIMIT), (131064, 1024, 2097024, 0))
        self.assertEqual(rooms("10=80000000 14=100FF", model.LIMIT)[2:], (32640, 512))
        self.assertEqual(rooms("14=10001!1 54=1!1", model.LIMIT + 1), (0,) * 4)

    def test_after_any_write(self):
        card = Card("10=64 14=10028 34=C8 54=400004", 1000)
        for text in ("100=FFFFFFFF 44=1 1FC=2", "64=1 58=30003 5C=1 6C=2 40=FFF 38=1", OPEN + "68=20008 5C=0 6C=0",
                     "74=0!2 70=108!4", "70=CC000105+16 80=20002+16 80=FF0000!7", "70=100 80=7", "70=CC000103",
                     "10=0!3 14=0!3 34=0!3 54=0!3 100=0!3", "80=FFFF+16", "6C=0 70=CC000503 70=CC000000"):
            self.assertEqual(card.do(text).engine.rooms(), (32, 200, 40, 22))
        for offset, word in ((0x10, 0), (0x14, 0), (0x34, 0), (0x54, 0), (0x100, 0)):
            self.assertEqual(card.engine.write(bytearray(999), offset, word), (1, 0, 0))
        self.assertEqual(card.engine.rooms(), (32, 200, 40, 22))
        self.assertEqual(streams.register_bytes(card.engine)[-17:], b"\0" + struct.pack("<4I", 32, 200, 40, 22))

    def test_inside_is_on_the_surface(self):
        """Pixels below both numbers are on the surface. The next row, or the last of the next row of tiles, is not all in
        memory; so it lacks a pixel, unless its last bytes are no pixel's."""
        small = itertools.product((1, 8, 16, 24, 32), range(1, 9), (False,), range(4), range(0, 40, 3))
        tiles = [(depth, stride, True, base, 4096 * stride + more) for depth, stride, base, more in itertools.product(
            (8, 16, 24, 32), (1, 2), (0, 5), (-1, 0, 4, 5, 6, 133, 4000, 4096))]
        past = Counter()
        for depth, stride, tiled, base, length in itertools.chain(small, tiles):
            surface, (pixels, rows) = Surface(base, stride, depth, tiled), room(base, stride, depth, tiled, length)
            self.assertEqual(pixels, surface.columns())
            self.assertTrue(all(surface.has(x, y, length) for y in range(rows) for x in range(pixels)))
            row, whole = rows + (31 if tiled else 0), pixels * depth == 8 * stride * (128 if tiled else 1)
            more = all(surface.has(x, row, length) for x in range(pixels))
            self.assertTrue(not (whole and more), surface)
            past[whole, more] += 1
        self.assertTrue(all(past[kind] > 9 for kind in ((True, False), (False, False), (False, True))), past)


COMMANDS = ("copy", "stretch", "host", "fill", "line", "polyline")
PAIRS = [(source, target) for target in streams.DEPTHS for source in streams.FORMAT if model.allowed(source, target)]


def kinds_of_runs():
    """What the recorded streams must hold, by the names in their tally."""
    for name in ("nop", *COMMANDS, "host that waits", "not built"):
        yield from (("runs", f"{name}: {how}") for how in ("empty", "empty, on another length", "1 at word 0, on another length"))
        yield "runs", f"{name}: " + ("4 at word 0" if name == "not built" else "taken whole")
    for number, names in ((5, COMMANDS), (6, ("stretch", "host")), (7, COMMANDS), (8, ("copy", "stretch"))):
        for name in names:
            yield "runs", f"{name}: {number} at word 0"
            if number > 6:
                yield "runs", f"{name}: {number} at a later word"
    yield "runs", "host that waits: 7 at a later word"
    for share, depth in itertools.product(("none", "some", "all"), streams.DEPTHS):
        yield "runs changed", f"host at {depth}: {share}"
        if share == "some":
            yield from (("runs changed", f"{name} at {depth}: some") for name in COMMANDS)
    for number in range(4):
        yield "runs of data", f"no words needed, packing {number}"
        yield from (("runs of data", f"over {blits} blits, steps {number}") for blits in (1, 2, 3, "more"))
    yield from (("runs of data", label) for label in ("bytes left over", "after a single write", "then a single write"))
    for depth, begun in itertools.product(streams.FORMAT, ("begun", "gone on")):
        for end in ("between blits", "between rows", "in the padding", "between pixels", "inside a pixel")[:5 if depth > 8 else 4]:
            yield "runs cut", f"at {depth} {end}, {begun}"
    for (source, target), packing in itertools.product(PAIRS, range(4)):
        yield from (("runs painted", f"{source}-{target} packing {packing}{tiles}") for tiles in ("", " on tiles"))
        if source in (1, target) or packing in (0, 3):
            yield "whole rows", f"{source}-{target} packing {packing}"
    for kind in ("mono", "own", "converted"):
        yield from (("runs painted", f"{kind} {how}") for how in ("plain", "by another operation", "keys 1", "keys 2", "keys 3"))
    yield from (("runs painted", label) for label in ("mono transparent", "from the left of the target", "to the right of the target"))
    for kind, sides in itertools.product(("mono", "colour"), ("neither", "left", "right", "left right")):
        yield "whole rows", f"{kind} clipped: {sides}"


class RecordedLines(unittest.TestCase):
    def test_every_direction(self):  # each of 81 x 81 ends by each of the four kinds, taken or off the surface
        tally, ends = Counter(), Counter()
        for k in range(streams.LINES, streams.ROOMS):
            records = streams.build(k, tally).records
            ends.update(((k - streams.LINES) // 9, word) for offset, word, kind in records if offset == 0x80)
        places = {streams.xy(x, y) for x in range(81) for y in range(81)}
        self.assertEqual({place for kind, place in ends}, places)
        self.assertEqual(Counter(kind for kind, _ in ends), Counter({kind: len(places) for kind in range(4)}))
        slopes = [f"{x}x{y}y {slope}" for x in "+-" for y in "+-" for slope in ("flat", "steep")]
        self.assertTrue(all(tally["lines", slope] > 2000 for slope in slopes))
        self.assertTrue(tally["refusals", "7 line by launch"] > 100 and tally["refusals", "7 polyline by launch"] > 50)
        self.assertEqual(tally["lines", "stipple, illegal phase"], 0)


def kinds_of_rooms():
    """What the recorded streams must hold on surfaces that the memory ends in, by the names in their tally."""
    ends = [(0, "the last whole row"), (0, "a partial row"), (0, "the last pixel of a row"), (7, "a partial row"),
            (7, "one row past all"), (7, "one pixel past a row")]
    for (number, end), layout in itertools.product(ends, ("rows", "tiles")):
        yield from (("rooms by commands", f"{number} {name} target in {layout}: {end}") for name in COMMANDS)
        yield from (("rooms by commands", f"{number} {name} source in {layout}: {end}") for name in ("copy", "stretch"))
        for depth, side in itertools.product(streams.DEPTHS, ("source", "target")):
            yield "rooms by formats", f"{number} {side} at {depth} in {layout}: {end}"
    yield from (("rooms by formats", f"{number} source at 1 in rows: {end}") for number, end in ends)
    multiples = ("one less than a multiple", "a multiple", "one more than a multiple")
    for side, layout, multiple in itertools.product(("source", "target"), ("rows", "tiles"), multiples):
        yield from (("rooms by bytes", f"{number} {side} in {layout}: {multiple}") for number in (0, 7))
        yield "bases left", f"{side} {multiple} in {layout}"
    for name, says, number in itertools.product(("copy", "stretch"), ("0", "less", "more"), (0, 7)):
        for where in ("past",) if says == "0" else ("past", "inside"):
            yield "rooms packed", f"{number} {name}, the field says {says}: {where} what is kept"
    for packing, says, number in itertools.product((1, 2, 3), ("0", "less", "more"), (0, 7)):
        yield "rooms packed", f"{number} packing {packing}, the field says {says}"
    for name, number in itertools.product(streams.SURFACES, (0, 1, 3)):
        yield from ((group, f"{number} {name}, other numbers") for group in ("rooms kept", "rooms left"))
    for what, side, number in itertools.product(("pattern", "a register"), ("source", "target"), ("pixels", "rows")):
        yield "numbers left", f"0 {what}: {side} {number}"
    for name, *way in itertools.product(streams.SURFACES, ("run", "word"), ("run", "word")):
        yield "rooms between fills", f"{name}, {' then '.join(way)}"
    bases = ("0", "inside", "the last byte", "the end", "past it", "2^24 - 1")
    for side, layout in itertools.product(("source", "target"), ("rows", "tiles")):
        yield from (("formats left", f"{side} {form} in {layout}") for form in range(16 if side == "source" else 8))
        yield from (("formats left", f"{side} {form} in {layout}, rows") for form in model.TARGET_BITS)
        yield from (("bases left", f"{side} {base} in {layout}") for base in bases)
        yield from (("strides left", f"{side} {how}") for how in (
            f"0 in {layout}, no pixels", f"1 in {layout}, rows", f"of a few in {layout}, rows",
            f"16383 in {layout}, {'rows' if layout == 'rows' else 'no rows'}"))
    yield "formats left", "source 0 in rows, rows"
    for packing in (1, 2, 3):
        yield from (("packings left", f"{packing} in {how}") for how in ("rows, other numbers", "tiles"))


def writes_of(maker):
    """The writes of a stream with the numbers of their answers, without its runs."""
    records = iter(maker.records)
    for (first, second, kind), answer in zip(records, maker.answers):
        if kind == 2:
            for _ in range(-(-first // 3)):
                next(records)
        else:
            yield first, second, answer[0]


def kept_by(maker, stores):
    """The four numbers at the end of a stream where they are worked out anew, for one side, only as this says."""
    engine, kept = Engine(maker.size), [0] * 4
    for offset, word, number in writes_of(maker):
        name = REGISTERS[offset][0] if offset in REGISTERS else ""
        if name in streams.SURFACES:
            part = slice(0, 2) if name.startswith("src") else slice(2, 4)
            if stores(name, number):
                kept[part] = streams.kept_with(engine, name, word)[part]
            if number == 0:
                engine.store(name, word)
    return tuple(kept)


def by_packing(engine):
    """The four numbers, those of a packed source by its step."""
    source, kept = engine.source(), engine.rooms()
    if source is None:
        return kept
    return *room(source.base, source.step, source.depth, source.tiled, engine.length), *kept[2:]


WRONG_ROOMS = (  # each in the place of model.room
    lambda base, *rest: room(0, *rest),  # no base
    lambda base, *rest: room(base + 1, *rest),  # a byte less
    lambda *given: room(*given[:4], given[4] + 1),  # a byte more
    lambda base, stride, *rest: room(max(0, base - stride * (4096 if rest[1] else 1)), stride, *rest),  # a row more
    lambda base, stride, depth, *rest: room(base, stride, depth or 1, *rest),  # unlisted is mono
    lambda base, stride, depth, *rest: room(base, stride, depth or 8, *rest),  # unlisted is 8 bpp
    lambda base, stride, depth, *rest: room(base, stride, 32 if depth == 24 else depth, *rest),  # 24 bpp in four bytes
    lambda base, stride, depth, tiled, length: room(base, stride, depth, tiled and depth != 1, length),  # mono tiles
    lambda base, stride, depth, tiled, length: room(base, stride, depth, False, length),  # no tiles
    lambda *given: (room(*given)[0], room(*given)[1] // (32 if given[3] else 1)),  # rows of tiles
    lambda *given: room(*given) if room(*given)[1] else (0, 0),  # no rows, no pixels
    lambda *given: room(*given) if room(*given)[0] else (0, 0),  # no pixels, no rows
    lambda base, stride, *rest: room(base, stride % 1024, *rest),  # a short stride
)


class RecordedRooms(unittest.TestCase):
    @classmethod
    def setUpClass(cls):
        cls.tally = Counter()
        cls.makers = [streams.build(k, cls.tally) for k in range(streams.ROOMS, streams.STREAMS)]
        cls.right = [maker.engine.rooms() for maker in cls.makers]

    def test_every_kind(self):
        self.assertEqual([kind for kind in kinds_of_rooms() if self.tally[kind] == 0], [])
        self.assertTrue(all(20 <= len(maker.answers) <= 80 for maker in self.makers))
        sizes = {maker.size for maker in self.makers}
        self.assertTrue({16, 17, 4095, 4096, 8191, 65536, model.LIMIT, model.LIMIT + 1} <= sizes)

    def differ(self, kept):
        """In how many streams these are not the numbers at the end."""
        return sum(kept(maker) != numbers for maker, numbers in zip(self.makers, self.right))

    def test_wrong_stores_show(self):  # a register that is forgotten, or one whose refused words are looked at
        self.assertEqual(self.differ(lambda maker: kept_by(maker, lambda _, number: number == 0)), 0)
        for one in streams.SURFACES:
            self.assertTrue(self.differ(lambda maker: kept_by(maker, lambda name, number: number == 0 and name != one)) > 3)
            for refused in (1, 3):
                late = lambda name, number: number == 0 or number == refused and name == one
                self.assertTrue(self.differ(lambda maker: kept_by(maker, late)) > 0, (one, refused))

    def test_wrong_numbers_show(self):
        by_three_bits = {form: SOURCE_BITS.get(form % 8) for form in range(16)}
        for place, wrong in enumerate((*WRONG_ROOMS, by_three_bits)):
            with patch.object(model, "SOURCE_BITS" if wrong is by_three_bits else "room", wrong):
                self.assertTrue(self.differ(lambda maker: maker.engine.rooms()) > 0, place)
        self.assertTrue(self.differ(lambda maker: by_packing(maker.engine)) > 3)


def kinds_of_parcels():
    """What the recorded pieces must hold, by the names in their tally."""
    kinds = ("one address", "consecutive", "masked")
    yield from (("answers", number) for number in range(10))
    yield from (("packets", f"{kind}, {how}") for kind in kinds for how in ("no words", "one word", "more words"))
    yield from (("packets", how) for how in (*(f"{kind}, more than 1000" for kind in kinds[:2]), "bits without meaning", "past 1FC"))
    yield from (("nines", f"type {number}") for number in (0, 1, "1, no words", 3, 4, 5, 6, 7))
    yield from (("pieces", f"kind {kind}{none}") for kind in range(4) for none in ("", ", no bytes"))
    for kind, held in itertools.product(("nothing", *kinds), range(4)):
        yield from ((group, f"{kind} left, {held} bytes held") for group in ("pieces begin", "opened anew", "ends"))
    yield from (("pieces begin", "after a 9"), ("opened anew", "after a 9"), ("ends", "closed"))
    for name, depth in itertools.product(("fill", "copy", "line", "polyline", "host mono", "host colour"), streams.DEPTHS):
        yield "painted", f"{name} at {depth} on rows"
        if "line" not in name:
            yield "painted", f"{name} at {depth} on tiles"


def unpacked(data):
    """The writes that some packets bring."""
    values, writes = iter(word for word, in struct.iter_unpack("<I", data)), []
    for header in values:
        writes += [(offset, next(values)) for offset in packet_offsets(header)]
    return writes


class RecordedParcels(unittest.TestCase):
    def test_packing(self):  # the writes come back, in their order
        dice = random.Random(3)
        offsets = [4 * number for number in range(256)] + [0x80] * 99 + [*range(0x08, 0x74, 4)] * 4
        for _ in range(60):
            writes = [(dice.choice(offsets), dice.getrandbits(32)) for _ in range(dice.randrange(9))]
            for _ in range(dice.randrange(9)):
                first, step = dice.choice(offsets), dice.choice((0, 4, 4, 8))
                writes += [(at, dice.getrandbits(32)) for at in (first + step * k for k in range(dice.randrange(20))) if at < 0x400]
            self.assertEqual(unpacked(parcels.pack(writes, dice)), writes)
        writes = [(0x80, word) for word in range(70_000)]  # more than one packet can bring
        self.assertEqual(unpacked(parcels.pack(writes, dice)), writes)

    def test_gathered(self):  # launch writes stay in the launch area, and the others where they are
        dice = random.Random(4)
        writes = [(dice.choice((0x64, 0x80, 0x80, 0x80, 0x9C, 0x100)), word) for word in range(999)]
        found = parcels.gathered(writes, dice)
        self.assertEqual([word for _, word in found], [word for _, word in writes])
        for (offset, _), (other, _) in zip(writes, found):
            self.assertTrue(offset == other or model.is_launch(offset) and model.is_launch(other))

    def test_sent(self):  # runs up to the first refused word; what was passed a byte less, or has no number, is left out
        maker = streams.RunMaker(0, 64, Counter())
        maker.send(0x6E, 1)
        maker.send(0x64, 2, 1)
        maker.send(0x74, 3)
        maker.send(0x70, 4)
        for words, short in (([5, 6], 0), ([7], 1), ([], 0)):
            maker.send_run(words, short)
        maker.send(0x70, 0)
        maker.send_run([8, 9, 10, 11])
        self.assertEqual(parcels.sent(maker), [(0x74, 3), (0x70, 4), (0x80, 5), (0x70, 0), *((0x80, word) for word in (8, 9, 10, 11))])

    def test_every_kind(self):
        tally = Counter()
        binary, text = parcels.build(tally)
        self.assertEqual([kind for kind in kinds_of_parcels() if tally[kind] == 0], [])
        self.assertTrue(len(binary) < 420_000 and sum(len(line) + 1 for line in text) < 600_000)
        heads = [at for at, line in enumerate(text) if line.startswith("stream ")]
        lines = [tuple(text[low + 1:past]) for low, past in zip(heads, [*heads[1:], None])]
        for same, group in itertools.groupby(zip(pieces_of(binary), lines), lambda pair: (pair[0][:2], joined(pair[0][2]), pair[1])):
            cuts = [pieces for (_, _, pieces), _ in group]
            self.assertTrue(len(cuts) > 1 and len({*cuts}) == len(cuts), same)

    def test_compare(self):  # each line is named by its stream, and by which answer it is
        lines = ["stream 0: 9 bytes", "0 0 0", "2 0 0", "tail 0", "registers 1", "stream 1: 9 bytes", "9 0 0", "tail 1", "registers 2"]
        with tempfile.TemporaryDirectory() as name, contextlib.redirect_stdout(io.StringIO()) as said:
            folder, found = Path(name), Path(name, "found")
            (folder / "stdout").write_text("\n".join(lines) + "\n")
            for wrong in (None, *range(9)):
                found.write_text("\n".join("?" if i == wrong else line for i, line in enumerate(lines)))
                self.assertEqual(parcels.compare(found, folder), wrong is None)
        self.assertEqual([line.split(":")[0] for line in said.getvalue().splitlines()], [
            "No difference in 9 lines.", "Line 1, stream 0, its head", "Line 2, stream 0, answer 0", "Line 3, stream 0, answer 1",
            "Line 4, stream 0, its tail", "Line 5, stream 0, the checksums at its end", "Line 6, stream 1, its head",
            "Line 7, stream 1, answer 0", "Line 8, stream 1, its tail", "Line 9, stream 1, the checksums at its end"])


def pieces_of(binary):
    """Length, seed byte and pieces of each stream of an input."""
    at = 0
    while at < len(binary):
        size, seed, count, zero = struct.unpack_from("<4I", binary, at)
        assert zero == 0
        pieces, at = [], at + 16
        for _ in range(count):
            long, kind = struct.unpack_from("<2I", binary, at)
            assert long <= 4096 and kind < 4
            pieces.append((kind, binary[at + 8:at + 8 + long]))
            at += 8 + -(-long // 4) * 4
        yield size, seed, tuple(pieces)


def joined(pieces):
    """The bytes, and where a reader was opened anew and how much of the memory each byte was given with."""
    anew = [sum(len(data) for _, data in pieces[:number]) for number, (kind, _) in enumerate(pieces) if kind & 2]
    return b"".join(data for _, data in pieces), tuple(anew), bytes(kind & 1 for kind, data in pieces for _ in data)


class RecordedRuns(unittest.TestCase):
    def test_every_kind(self):
        tally = Counter()
        for k in range(streams.RUNS, streams.LINES):
            streams.build(k, tally)
        self.assertEqual([kind for kind in kinds_of_runs() if tally[kind] == 0], [])

    def test_records(self):  # a run is one, and its words are filled up to three by three
        maker = streams.RunMaker(0, 64, Counter())
        maker.send(0x70, 0)
        for count in range(5):
            maker.send_run([*range(1, count + 1)], count % 2)
        maker.send(0x80, 9, 1)
        seed = maker.seed_byte
        self.assertEqual(streams.binary_of(maker), struct.pack("<39I", 64, 7, seed, 0x70, 0, 0, 0, 0, 2, 1, 1, 2, 1, 0, 0, 2, 0, 2,
                                                               1, 2, 0, 3, 1, 2, 1, 2, 3, 4, 0, 2, 1, 2, 3, 4, 0, 0, 0x80, 9, 1))
        self.assertEqual([streams.line_of(answer) for answer in maker.answers],
                         ["0 0 0", "run 0 0 0 0", "run 1 0 0 0", "run 0 2 0 0", "run 1 0 0 0", "run 0 4 0 0", "1 0 0"])

    def test_compare(self):  # each line is named by its record, past the words of runs
        maker = streams.RunMaker(0, 64, Counter())
        maker.send_run([1, 2, 3, 4])
        maker.send(0x64, 5)
        lines = ["head", *(streams.line_of(answer) for answer in maker.answers), "sums"]
        with tempfile.TemporaryDirectory() as name, contextlib.redirect_stdout(io.StringIO()) as said:
            folder, found = Path(name), Path(name, "found")
            (folder / "streams.bin").write_bytes(2 * streams.binary_of(maker))
            (folder / "expected.txt").write_text("\n".join(2 * lines))
            for wrong in (None, 1, 2, 5, 6, 7):
                found.write_text("\n".join("?" if i == wrong else line for i, line in enumerate(2 * lines)))
                self.assertEqual(streams.compare(found, folder), wrong is None)
        self.assertEqual([line.split(":")[0] for line in said.getvalue().splitlines()], [
            "No difference in 8 lines.", "Line 2, stream 0, record 0 (a run of 4 words, all of the memory)",
            "Line 3, stream 0, record 1 (offset 64, word 00000005, kind 0)",
            "Line 6, stream 1, record 0 (a run of 4 words, all of the memory)",
            "Line 7, stream 1, record 1 (offset 64, word 00000005, kind 0)", "Line 8, stream 1, the checksums at its end"])


class Printed(unittest.TestCase):
    """The files stdout of crates/note and crates/sheets are what tools/note.py and tools/sheets.py print."""

    def printed(self, name: str) -> None:
        tools = Path(__file__).resolve().parent
        with contextlib.redirect_stdout(io.StringIO()) as said:
            runpy.run_path(str(tools / f"{name}.py"))
        self.assertEqual(said.getvalue(), (tools.parent / "crates" / name / "stdout").read_text())

    def test_note(self):
        self.printed("note")

    def test_sheets(self):
        self.printed("sheets")


if __name__ == "__main__":
    unittest.main()
