"""What crates/sheets must write, by the model: python3 tools/sheets.py > crates/sheets/stdout

The cases and their register writes are read from the program's source. Each runs on the model and, for the sheet of
the wrong engine, on a model that is wrong in the case's way. A source whose writes are not all read stops it.
"""

import ast
import re
from pathlib import Path
from unittest.mock import patch

import model
from model import Engine, Surface, key_match

SOURCE = Path(__file__).resolve().parent.parent / "crates/sheets/src/main.rt"
FUNCTION = re.compile(r"^fn (\w+)(?:<[^>]*>)?\(([^)]*)\)[^{]*\{\n(.*?)^\}", re.M | re.S)
TEXT = r'"[^"]*"'
LIST = r"\[[^\]]*\]"
STATEMENT = re.compile(rf"let (\w+) = ({TEXT}|{LIST});|(\w+!?)\(((?:{TEXT}|{LIST}|\w+::\w+\(\w*\)|[^()\"\[])*)\)")
ARGUMENT = re.compile(rf"{TEXT}|&{LIST}|[^,\s][^,]*")
PAIR = re.compile(r"\(\s*(\w+),\s*(\w+)\s*\)")
OPENED = re.compile(r"Engine::open\((\w+)\)")
WRITING = re.compile(r"\b(?:play|put_aloud)\(")
STREAM = ("alloc", "stdout", "flush")  # what the program's output takes, of which the model knows nothing
LENGTH = 128


class OpenKey(Engine):
    """Keys always count, and one whose min is not below its max matches every pixel."""

    def write(self, mem: bytearray, offset: int, word: int) -> model.Answer:
        def match(value: int, depth: int, low: int, high: int) -> bool:
            return low >= high or key_match(value, depth, low, high)

        with patch.object(model, "key_match", match):
            return super().write(mem, offset, word)

    def extra(self, number: int) -> bool:
        return number < 2 or super().extra(number)


class BitZeroLeft(Engine):
    """Mono pixel x is bit x mod 8."""

    def write(self, mem: bytearray, offset: int, word: int) -> model.Answer:
        right = Surface.get

        def get(self: Surface, data: bytes, x: int, y: int) -> int:
            return right(self, data, x ^ 7 if self.depth == 1 else x, y)

        with patch.object(Surface, "get", get):
            return super().write(mem, offset, word)


class StippleStops(Engine):
    """Clipped points are passed over, and so is their stipple step."""

    def points(self) -> list[model.Pixel]:
        return [point for point in super().points() if self.in_clip(*point)]


class MaxDrawn(Engine):
    """Clip max is included."""

    def clip(self) -> tuple[int, int, int, int]:
        left, top, right, bottom = super().clip()
        return left, top, right + 1, bottom + 1


WRONG = {"black_key": OpenKey, "mono_order": BitZeroLeft, "stipple_goes_on": StippleStops, "fill_in_clip": MaxDrawn}


class Stage:
    """Two sheets and their engines, the right one and the wrong one; each method is a function of the program."""

    def __init__(self) -> None:
        self.kind = Engine
        self.open(LENGTH)

    def open(self, length: int) -> None:
        self.sheets = [(Engine(length), bytearray(length)), (self.kind(length), bytearray(length))]

    def put(self, offset: int, word: int) -> model.Answer:
        answer, _ = [engine.write(mem, offset, word) for engine, mem in self.sheets]
        return answer

    def play(self, _e, _mem, writes: list[tuple[int, int]]) -> None:
        for write in writes:
            self.put(*write)

    def put_aloud(self, _out, _e, _mem, *write) -> None:
        number, count, changed = self.put(*write)
        print("refused" if number else f"pixels {count}, changed {changed}")

    def say_register(self, _out, name: str, _e, offset: int) -> None:
        print(f"{name} {self.sheets[0][0].read(offset)[1]:08x}")

    def show(self, _out, _mem, width: int, height: int, which: int = 0) -> None:
        self.size = width, height
        mem = self.sheets[which][1]
        for y in range(height):
            print("".join(".ox"[mem[16 * y + x]] for x in range(width)))

    def show_wrong(self, _out, _text: str) -> None:
        print("a wrong engine would show")
        self.show(None, None, *self.size, which=1)


def run(name: str, values: list) -> None:
    """The statements of a function, in their order, with its parameters' values."""
    stage.kind = WRONG.get(name, stage.kind)
    names, body = FUNCTIONS[name]
    scope = dict(zip(names, values))
    writing = 0
    for local, text, callee, arguments in STATEMENT.findall(body):
        if local:
            scope[local] = value(text, scope)
            continue
        given = [value(argument.strip(), scope) for argument in ARGUMENT.findall(arguments)]
        writing += callee in ("play", "put_aloud")
        if callee == "writeln!":
            print(given[1].format(**scope))
        elif hasattr(stage, callee):
            getattr(stage, callee)(*given)
        elif callee not in STREAM:
            run(callee, given)
    assert writing == len(WRITING.findall(body)), f"not all writes of {name} were read"


def value(text: str, scope: dict):
    text = text.removeprefix("&")
    if text.startswith('"'):
        return ast.literal_eval(text)
    if text.startswith("["):
        return [tuple(value(part, scope) for part in pair) for pair in PAIR.findall(text)]
    if opened := OPENED.fullmatch(text):
        return stage.open(value(opened[1], scope))
    return int(text, 0) if text[0].isdigit() else scope.get(text)


FUNCTIONS = {name: (re.findall(r"(\w+):", parameters), body)
             for name, parameters, body in FUNCTION.findall(SOURCE.read_text())}
stage = Stage()
run("main", [])
