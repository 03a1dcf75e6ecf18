#!/usr/bin/env python3
"""Turns the project's own names in specifications and proofs to one spelling: words in snake case, where they were in camel case.

usage: respell.py ROOT [--list]     over ROOT/crates: *.antt, *.rt and must-fail/*.edit; --list says the names and what they become, and writes nothing

Types, predicates and modules begin with a capital and stay. The registers keep the names of the databook in comments. Strings stay. Run once, after the kit's port.py.
"""

import os
import re
import sys

WORD = re.compile(r"(?<![A-Za-z0-9_'-])[a-z][a-z0-9_']*[A-Z][A-Za-z0-9_'-]*")
SNAKE = re.compile(r"(?<![A-Za-z0-9_.'-])[a-z]+_[a-z]+(?![A-Za-z0-9_.'-])")
# names of the databook's registers, which comments speak of
BOOK = set("""dstXY srcXY lineStyle lineStipple dstFormat srcFormat dstSize srcSize dstBaseAddr srcBaseAddr commandExtra colorFore colorBack clip0Min clip0Max clip1Min clip1Max
    srcColorkeyMin srcColorkeyMax dstColorkeyMin dstColorkeyMax bresError0 bresError1 bltCommand bltDstXY bltSize bltSrcXY""".split())
# lemmas that get their dash back, since the plain turn of a definition has the name that the kit's script gave them
DASHED = {"as_before", "by_number", "in_place", "in_rows", "no_words", "read_number", "source_byte", "write_bytes"}


def turned(name):
    return re.sub(r"(?<=[a-z0-9'])[A-Z]+", lambda m: "_" + m.group().lower(), name)


def parts(text, rust):
    """The text cut into pieces, each with its kind: code, comment or string."""
    pattern = r'//[^\n]*|"(?:\\.|[^"\\])*"|\'(?:\\.|[^\'\\])\'' if rust else r"--[^\n]*|\{-.*?-\}"
    at = 0
    for m in re.finditer(pattern, text, re.S):
        if not rust and m.group().startswith("--") and m.start() and text[m.start() - 1] not in " \t\n":
            continue
        yield "code", text[at:m.start()]
        yield ("string" if m.group()[0] in "\"'" else "comment"), m.group()
        at = m.end()
    yield "code", text[at:]


def names_of(text, rust):
    for kind, piece in parts(text, rust):
        if kind == "code":
            yield from WORD.findall(piece)


def respelled(text, rust, names):
    out = []
    for kind, piece in parts(text, rust):
        if kind == "code":
            if not rust:
                piece = SNAKE.sub(lambda m: m.group().replace("_", "-") if m.group() in DASHED else m.group(), piece)
            piece = WORD.sub(lambda m: turned(m.group()), piece)
        elif kind == "comment":
            piece = WORD.sub(lambda m: turned(m.group()) if m.group() in names and m.group() not in BOOK else m.group(), piece)
        out.append(piece)
    return "".join(out)


def edited(text, names):
    """A must-fail edit: the lines 'old:' and 'new:' hold code of either language."""
    lines = []
    rust = True
    for line in text.split("\n"):
        if line.startswith("file:"):
            rust = line.rstrip().endswith(".rt")
        elif line.startswith(("old:", "new:")):
            line = line[:4] + respelled(line[4:], rust, names)
        lines.append(line)
    return "\n".join(lines)


def files(root, *ends):
    for folder, dirs, found in os.walk(os.path.join(root, "crates")):
        dirs[:] = sorted(d for d in dirs if d not in ("out", ".git"))
        for f in sorted(found):
            if f.endswith(ends):
                yield os.path.join(folder, f)


def read(path):
    with open(path, encoding="utf-8") as f:
        return f.read()


def main(argv):
    if len(argv) < 2:
        print(__doc__)
        return 2
    root = argv[1]
    names = set()
    for p in files(root, ".antt", ".rt"):
        names |= set(names_of(read(p), p.endswith(".rt")))
    if "--list" in argv:
        for n in sorted(names):
            print(n, turned(n))
        return 0
    for p in files(root, ".antt", ".rt", ".edit"):
        old = read(p)
        new = edited(old, names) if p.endswith(".edit") else respelled(old, p.endswith(".rt"), names)
        if new != old:
            with open(p, "w", encoding="utf-8") as f:
                f.write(new)
    return 0


if __name__ == "__main__":
    raise SystemExit(main(sys.argv))
