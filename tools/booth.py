#!/usr/bin/env python3
"""booth.py: whether drawing a line needs a divide or a wide multiply.

The LLVM module of the library for C is compiled for a processor that has neither (thumbv6m: a multiply of 32 bits by 32 bits
to 32 bits, and no more), where the compiler has to call a helper for each. The calls are followed from acts::draw, which judges
and draws every line and polyline; each helper that is reached is named with the function that calls it, and one is enough to
fail. Copies, clears and shifts may be helpers too, and are let pass. Nothing is run on that processor.
The module is what the toolchain hands to its clang when it builds the library, so it is made of proved code alone. It needs `rt` on the path, on x86-64.
"""

import os
import re
import shutil
import subprocess
import sys
import tempfile
from pathlib import Path

ROOT = Path(__file__).resolve().parent.parent
OUT = ROOT / "target" / "booth"
TARGET, START = "thumbv6m-none-eabi", "acts::draw"
LEVELS = ("-O1", "-O2", "-O3")
HARMLESS = re.compile(r"__aeabi_(mem|llsl|llsr|lasr)|memcpy|memmove|memset")
HELPER = re.compile(r"__|mem(cpy|move|set)$")
KEEPING = """#!/bin/sh
for word in "$@"; do case $word in *.bc) cp "$word" '%s' ;; esac; done
exec '%s' "$@"
"""


def kit() -> Path:
    """The folder of the kit that the `rt` on the path belongs to."""
    rt = shutil.which("rt")
    if rt is None:
        sys.exit("booth: no `rt` on the path")
    return Path(rt).resolve().parent.parent


def linked(there: Path, here: Path, *leave: str) -> None:
    """A folder of links to what a folder holds, but for some names."""
    there.mkdir()
    for path in here.iterdir():
        if path.name not in leave:
            (there / path.name).symlink_to(path)


def module() -> tuple[str, Path]:
    """The compiler, and the module as text for the other processor, every function visible so that none is lost."""
    home, kept, text = kit(), OUT / "module.bc", OUT / "booth.ll"
    clang = home / "toolchain" / "bin" / "clang"
    shutil.rmtree(OUT, ignore_errors=True)
    OUT.mkdir(parents=True)
    with tempfile.TemporaryDirectory() as folder:  # a kit of links to the kit, whose clang keeps what it is given before it compiles it
        there = Path(folder) / "kit"
        linked(there, home, "bin", "toolchain")
        linked(there / "bin", home / "bin", "rt", "rtlib.py")
        for name in ("rt", "rtlib.py"):  # these find the kit by where they lie themselves
            shutil.copy2(home / "bin" / name, there / "bin" / name)
        linked(there / "toolchain", home / "toolchain", "bin")
        linked(there / "toolchain" / "bin", home / "toolchain" / "bin", "clang")
        keeping = there / "toolchain" / "bin" / "clang"
        keeping.write_text(KEEPING % (kept, clang))
        os.chmod(keeping, 0o755)
        run = subprocess.run([there / "bin" / "rt", "lib"], cwd=ROOT / "crates" / "capi", stdout=subprocess.PIPE, stderr=subprocess.STDOUT, text=True, check=False)
    if run.returncode != 0 or not kept.exists():
        sys.exit(f"booth: `rt lib` in crates/capi ended with {run.returncode}. Its last lines:\n" + "\n".join(run.stdout.splitlines()[-10:]))
    subprocess.run([clang, "--target=x86_64-unknown-linux-gnu", "-S", "-emit-llvm", "-Xclang", "-disable-llvm-passes", "-x", "ir", kept, "-o", text], check=True)
    found = re.sub(r"^target datalayout.*\n", "", text.read_text(), flags=re.M)
    found = re.sub(r"^target triple.*$", f'target triple = "{TARGET}"', found, flags=re.M)
    found = re.sub(r'"(target-cpu|target-features|tune-cpu|probe-stack|stack-probe-size)"="[^"]*" ?', "", found)
    text.write_text(found.replace("define internal", "define"))
    return str(clang), text


def calls(assembly: str) -> dict[str, set[str]]:
    """What each function calls or goes on to."""
    found: dict[str, set[str]] = {}
    here = ""
    for line in assembly.splitlines():
        name = re.match(r'"?([\w:.$]+)"?:', line)
        if name and not name.group(1).startswith("."):
            here = name.group(1)
            found.setdefault(here, set())
        to = re.search(r'\b(?:bl|blx|b|\.long)\s+"?([\w:$][\w:.$]*)"?', line)
        if to and here:
            found[here].add(to.group(1))
    return found


def reached(found: dict[str, set[str]], start: str) -> tuple[set[str], list[tuple[str, str]]]:
    """The functions that a start reaches, and the helpers that they call."""
    seen, left = set(), [start]
    while left:
        function = left.pop()
        if function in found and function not in seen:
            seen.add(function)
            left += found[function]
    needed = [(function, to) for function in sorted(seen) for to in sorted(found[function])
              if to not in found and HELPER.match(to) and not HARMLESS.match(to)]
    return seen, needed


def main() -> int:
    clang, text = module()
    bad, assembly = False, text.with_suffix(".s")
    for level in LEVELS:
        subprocess.run([clang, f"--target={TARGET}", level, "-w", "-S", "-x", "ir", str(text), "-o", str(assembly)], check=True)
        found = calls(assembly.read_text())
        seen, needed = reached(found, START)
        if len(seen) < 3:
            print(f"booth: {START} is not there, or calls nothing", file=sys.stderr)
            return 2
        others = {to for other in found for to in found[other] if re.match(r"__aeabi_(u|i|l)", to) and not HARMLESS.match(to)}
        print(f"{level}: {len(seen)} functions of {len(found)} are reached; the others need {', '.join(sorted(others)) or 'no helper'}")
        for function, helper in needed:
            print(f"{level}: {function} calls {helper}")
        bad |= bool(needed)
    print("a line needs a divide or a wide multiply" if bad else "a line needs neither a divide nor a wide multiply")
    return int(bad)


if __name__ == "__main__":
    sys.exit(main())
