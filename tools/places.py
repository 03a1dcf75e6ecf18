#!/usr/bin/env python3
"""tools/places.py [COMMIT] [--list ROW]: counts the places that docs/DESIGN-PASS.md speaks of, in crates/*/src of this tree or of a commit.

Each row is a pattern over lines (or over the functions' heads), so that two commits are counted alike. What a pattern finds is a place to look at; the page says what became of it.
"""
import os
import re
import subprocess
import sys

ROOT = os.path.dirname(os.path.dirname(os.path.abspath(__file__)))

# Row, what it counts, the pattern: of a line, or, with "head", of a function's head up to its clauses; with "proof", of a line of a file Answers.antt.
ROWS = [
    ("1a", "own enums of the shape of Option or Result", "line", r"^(pub )?enum (Reading|Marked|Answer|Line)\b"),
    ("1b", "refusals as numbers, handed out or kept", "line",
     r"fn \w+_verdict\(.*-> u32|fn (source|stretch)_rows\(len.*-> u32|fn view_answer\(|fn refuse\(|^    (pub )?(number|refused): u32,$|fn \w+\((.*, )?number: u32"),
    ("1c", "a flag with a value beside it", "line", r"^    (pub )?(more|sound|src_key|dst_key|key|left|waiting|copies|stretched|stippled): bool,$"),
    ("1d", "a number for a kind, looked at", "line", r"match (number|packing|code|pair|bytes|n|kind|values|i|[\w.]+ % 16) \{|\b(number|kind) (==|!=) \d|command % 16 == \d"),
    ("2a", "one-line helpers that std has", "line", r"fn (wide|least|most|larger|smaller|one|one_short|one_byte|one_if|distance|less|same_surface)\("),
    ("2b", "families of functions that differ in a size, a type or a direction", "line",
     r"fn (solid_(few|bytes|short|words)|unlike_(few|bytes|short|words|halves)|put_(ones|twos|threes|fours)|straight_(up|down)|run_(up|down)|(widen|repeat)[56]|widen(_by_rule)?|convert(_by_rule)?|"
     r"walk_(plain|part)|(get|put|store)_three|(get|put)_(close|in_rows)|word_at|get_word|put_word|word_of|low_bytes|source_at|feed|tell|mono_each|colour_row|plain_(bit|colour)|(straight|plain)_pixel|keep_run)\b"),
    ("2c", "the same helper in several programs", "line",
     r"^fn (say|say_number|say_word|say_hex|say_pixel|say_register|say_inside|say_sums|read_full|put|put_aloud|word|write_text|show|no_more)\b"),
    ("3", "loops that are no `for`", "line", r"^\s*(while|loop) "),
    ("4a", "a `let` that only names a field", "line", r"^\s*let (\w+) = (?:\w+\.)+\1;$"),
    ("4b", "fields written as `x: x`", "line", r"^\s+(\w+): \1,$"),
    ("5", "functions of more than seven parameters", "head", None),
    ("6", "a buffer with a place or a length beside it", "head", r"(out: &mut \[u8\], at: usize|answers: &mut \[u32\],\s*answered: usize|s: &mut \[u8\], at: usize)"),
    ("7", "one step of several by a number: arms and tests that differ in a constant", "line",
     r"^\s+(\d+|_) => \w+(::\w+)?\(.*\b[1-4]\b|if (n|bytes) == [1-4] \{$"),
    ("8", "answers", "proof", r"^pub .* : goal\."),
]


def texts(commit, end):
    """Each file of crates/*/src that ends so, or of crates/*/proofs, with its text."""
    if commit:
        names = subprocess.run(["git", "-C", ROOT, "ls-tree", "-r", "--name-only", commit, "crates"], check=True, stdout=subprocess.PIPE, text=True).stdout.split("\n")
    else:
        names = subprocess.run(["git", "-C", ROOT, "ls-files", "-co", "--exclude-standard", "crates"], check=True, stdout=subprocess.PIPE, text=True).stdout.split("\n")
    for name in sorted(n for n in names if n.endswith(end) and ("/src/" in n or "/proofs/" in n)):
        if commit:
            yield name, subprocess.run(["git", "-C", ROOT, "show", f"{commit}:{name}"], check=True, stdout=subprocess.PIPE, text=True).stdout
        elif os.path.exists(os.path.join(ROOT, name)):
            yield name, open(os.path.join(ROOT, name), encoding="utf-8").read()


def heads(text):
    """The head of each function: its line's number and its text up to the parameters' closing parenthesis."""
    for match in re.finditer(r"^[ \t]*(?:pub )?(?:extern \"C\" )?fn \w+", text, re.M):
        at = text.index("(", match.end())
        depth, end = 0, at
        while True:
            depth += {"(": 1, ")": -1}.get(text[end], 0)
            end += 1
            if depth == 0:
                break
        yield text.count("\n", 0, match.start()) + 1, match.group().strip() + text[at:end]


def found(row, commit):
    _, _, kind, pattern = row
    for name, text in texts(commit, "Answers.antt" if kind == "proof" else ".rt"):
        if kind == "head":
            for line, head in heads(text):
                inside = re.sub(r"[<\[(][^<>\[\]()]*[>\])]", "", head[head.index("(") + 1:-1])
                many = len([p for p in inside.split(",") if p.strip()])
                if (pattern is None and many > 7) or (pattern and re.search(pattern, head)):
                    yield name, line, head.split("(")[0]
        else:
            for line, words in enumerate(text.split("\n"), 1):
                if re.search(pattern, words):
                    yield name, line, words.strip()


def main(words):
    show = words[words.index("--list") + 1] if "--list" in words else None
    commit = next((w for w in words if not w.startswith("--") and w != show), None)
    for row in ROWS:
        if show is None:
            print(f"{row[0]:3} {len(list(found(row, commit))):5}  {row[1]}")
        elif row[0] == show:
            for name, line, words in found(row, commit):
                print(f"{name}:{line}: {words}")


if __name__ == "__main__":
    main(sys.argv[1:])
