"""The picture of a recorded stream of register writes.

  python3 tools/sheet.py [--packets] STREAM PICTURE.ppm|PICTURE.png [TIMES]

TIMES enlarges a PNG: each pixel becomes a square of so many pixels a side.
STREAM holds pairs of little-endian 32-bit words, offset then data; with --packets it holds packets of the command FIFO,
as the driver put them there. The proved program crates/sheet/out/sheet, with --packets
crates/packet_sheet/out/packet_sheet, plays them on 65,536 zero bytes; it is built first where it is missing or older than
its sources (`rt run` in its crate's folder). Where the program prints a fault and no picture, nothing is written, the fault
is said in a sentence, and the exit status is 1. The programs are for x86-64 Linux.
"""

import os
import platform
import re
import shutil
import struct
import subprocess
import sys
import zlib
from pathlib import Path

ROOT = Path(__file__).resolve().parent.parent
WRITES, PACKETS = "sheet", "packet_sheet"  # the crates of the two programs
ANSWERS = {
    1: "the memory is too long, or not of the length that the engine was opened with",
    2: "the offset names no register",
    3: "a host blit waits for its data, and this write is neither launch data nor to command",
    4: "the command is not built",
    5: "a surface it uses has a format that is not listed, or the conversion is not allowed, "
       "or a source that is mono, packed or a host blit's is tiled",
    6: "host blit: swizzle bits, direction bits or srcXY not 0, or a stride below the row's bytes; "
       "stretch copy: a source of no width or no height, and a target that has both",
    7: "a covered pixel, or a source pixel that it needs, is off its surface",
    8: "a screen copy between different surfaces, or a stretch copy, whose spans meet",
}


def program(crate: str) -> Path:
    return ROOT / "crates" / crate / "out" / crate


def crates(crate: str) -> set[str]:
    """The repository's crates that a program stands on, itself included."""
    lines = (line.split("#")[0].split(":") for line in (ROOT / "crates.txt").read_text().splitlines())
    needs = {parts[0].split()[0]: parts[1].split() for parts in lines if len(parts) == 2}
    found, todo = set(), [crate]
    while todo:
        name = todo.pop()
        if name in needs and name not in found:
            found.add(name)
            todo += needs[name]
    return found


def is_old(crate: str = WRITES) -> bool:
    """The program is missing, or one of its sources is newer."""
    if not program(crate).exists():
        return True
    files = (path for name in crates(crate) for part in ("src", "specs", "proofs") for path in (ROOT / "crates" / name / part).rglob("*") if path.is_file())
    return max(path.stat().st_mtime for path in files) > program(crate).stat().st_mtime


def build(crate: str = WRITES) -> None:
    if shutil.which("rt") is None:
        sys.exit("The program is not built, and there is no rt on the path to build it with.")
    print(f"Building the program (rt run in crates/{crate}) ...", file=sys.stderr)
    run = subprocess.run(["rt", "run"], cwd=ROOT / "crates" / crate, stdin=subprocess.DEVNULL, stdout=subprocess.PIPE, stderr=subprocess.STDOUT, text=True)
    if run.returncode != 0:
        sys.exit(f"rt run in crates/{crate} did not succeed. Its last lines:\n" + "\n".join(run.stdout.splitlines()[-10:]))
    os.utime(program(crate))


def command(crate: str = WRITES) -> list[str]:
    """How the program is started."""
    if platform.machine() != "x86_64":
        sys.exit(f"The program is for x86-64, and the kit has no emulator of it for this processor, {platform.machine()}.")
    return [str(program(crate))]


def play(stream: bytes, crate: str = WRITES) -> str:
    """What the program prints."""
    run = subprocess.run(command(crate), input=stream, stdout=subprocess.PIPE, check=False)
    if run.returncode != 0:
        sys.exit(f"The program ended with status {run.returncode}.")
    return run.stdout.decode("ascii")


def meaning(text: str, crate: str = WRITES) -> str | None:
    """A sentence for a fault line; none for a picture."""
    refused = re.fullmatch(r"refused (\d+) at (\d+)\n", text)
    if refused and int(refused[1]) == 9:
        return (f"After {refused[2]} register writes, all taken, comes a packet that is refused with answer 9: it is of another type "
                "than 1 and 2, or its target is not 2D.")
    if refused:
        number, index = int(refused[1]), int(refused[2])
        write = f"Register write {index} of the packets" if crate == PACKETS else f"Write {index} of the stream"
        return f"{write}, counted from 0, was refused with answer {number}: {ANSWERS[number]}."
    return {
        "short write\n": ("The file ends inside a packet." if crate == PACKETS else
                          "The stream ends inside a write: its length is no multiple of 8 bytes."),
        "no picture\n": "All writes were taken, and there is no picture: clip0 is empty or reaches off the target surface, "
                        "or the target has a format that is not listed.",
    }.get(text)


def png(text: str, times: int = 1) -> bytes:
    """A plain PPM of 8-bit channels as a PNG, each pixel a square."""
    numbers = [int(word) for word in text.split()[1:]]
    width, height, values = numbers[0], numbers[1], bytes(numbers[3:])
    pixels = [values[at:at + 3] * times for at in range(0, len(values), 3)]
    rows = b"".join((b"\0" + b"".join(pixels[y * width:(y + 1) * width])) * times for y in range(height))

    def chunk(kind: bytes, body: bytes) -> bytes:
        return struct.pack(">I", len(body)) + kind + body + struct.pack(">I", zlib.crc32(kind + body))

    head = struct.pack(">IIBBBBB", width * times, height * times, 8, 2, 0, 0, 0)
    return b"\x89PNG\r\n\x1a\n" + chunk(b"IHDR", head) + chunk(b"IDAT", zlib.compress(rows, 9)) + chunk(b"IEND", b"")


def main(words: list[str]) -> None:
    crate = PACKETS if words[:1] == ["--packets"] else WRITES
    words = words[crate == PACKETS:]
    times = words.pop() if len(words) == 3 and words[1].lower().endswith(".png") else "1"
    if len(words) != 2 or not words[1].lower().endswith((".ppm", ".png")) or not re.fullmatch("[1-9][0-9]?", times):
        print(__doc__.strip(), file=sys.stderr)
        sys.exit(2)
    try:
        stream = Path(words[0]).read_bytes()
    except OSError as error:
        sys.exit(f"The stream cannot be read: {error}.")
    if is_old(crate):
        build(crate)
    text = play(stream, crate)
    fault = meaning(text, crate)
    if fault:
        sys.exit(fault)
    body = png(text, int(times)) if words[1].lower().endswith(".png") else text.encode()
    try:
        Path(words[1]).write_bytes(body)
    except OSError as error:
        sys.exit(f"The picture cannot be written: {error}.")
    width, height = text.split()[1:3]
    origin = f"{len(stream)} bytes of packets" if crate == PACKETS else f"{len(stream) // 8} writes"
    print(f"{words[1]}: {width} by {height} pixels, from {origin}.")


if __name__ == "__main__":
    main(sys.argv[1:])
