"""What crates/note must write, by the model: python3 tools/note.py > crates/note/stdout

The register writes are read from the program's source; answers, the numbers of pixels and the bytes that differ are the
model's. A source whose writes are not all read stops it.
"""

import re
from pathlib import Path

from model import Engine

SOURCE = Path(__file__).resolve().parent.parent / "crates/note/src/main.rt"
STEP = re.compile(
    r"let (?P<local>\w+) = \[(?P<kept>[^\]]*)\];"
    r"|play\(\s*e,\s*mem,\s*&(?:(?P<by_name>\w+)|\[(?P<given>[^\]]*)\]),?\s*\)"
    r'|put_aloud\(\s*out,\s*"(?P<text>[^"]*)",\s*e,\s*mem,\s*(?P<offset>\w+),\s*(?P<word>\w+),?\s*\)'
)
PAIR = re.compile(r"\(\s*(\w+),\s*(\w+)\s*\)")
CALL = re.compile(r"\b(?:play|put_aloud)\(")
PARTS = {"save": None, "draw_note": "bytes that the note changed: ", "put_back": "bytes outside the place aside that differ: "}


def steps(body: str) -> list[tuple[str | None, list[tuple[str, str]]]]:
    """The calls of a function in their order: the text of one that is printed, or None, and its writes."""
    lists, calls = {}, []
    for step in STEP.finditer(body):
        if step["local"]:
            lists[step["local"]] = PAIR.findall(step["kept"])
        elif step["text"] is not None:
            calls.append((step["text"], [(step["offset"], step["word"])]))
        else:
            calls.append((None, lists[step["by_name"]] if step["by_name"] else PAIR.findall(step["given"])))
    assert calls and len(calls) == len(CALL.findall(body)), "not all writes of the program were read"
    return calls


def play(name: str, form: int, stride: int, size: int) -> None:
    print(name)
    mem = bytearray(i * 7 % 251 for i in range(2048))
    start = bytes(mem)
    aside = {1024 + y * stride + x for y in range(9) for x in range(13 * size)}
    engine = Engine(2048)
    for part, differ in PARTS.items():
        body = re.split(rf"fn {part}\b", SOURCE.read_text())[1].split("\n}")[0]
        for text, writes in steps(body):
            for offset, word in writes:
                number, pixels, changed = engine.write(mem, int(offset, 0), form if word == "format" else int(word, 0))
            if text is not None:
                print(text + (": refused" if number else f": taken, pixels {pixels}, changed {changed}"))
        if differ:
            print(differ + str(sum(a not in aside and start[a] != mem[a] for a in range(2048))))


play("16 bits a pixel", 0x30028, 40, 2)
play("24 bits a pixel", 0x4003C, 60, 3)
