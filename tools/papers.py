"""The papers compared with the sources: docs/PUBLIC.md with the public functions, docs/READING.md with the definitions
that demands 1 to 3 and the promises of runs and of packets rest on, and the files, laws and wrong versions that the papers name with those that are there.
Run: python3 tools/papers.py. It prints what does not agree, a line each, and nothing where all does."""

import re
import sys
from pathlib import Path

ROOT = Path(__file__).resolve().parent.parent
PAPERS = ["README.md", *(f"docs/{name}.md" for name in ("PROMISES", "PUBLIC", "READING", "DECISIONS", "BENCH"))]

# Demands 1 to 3 rest on the promises of the engine and of restore, and on what the contracts of the engine's functions name; those of runs of words and of packets stand apart.
ROOTS = [("engine", "Promises"), ("restore", "Restore"), ("engine", "Step", "written", "fresh_engine", "read_from", "number_of", "count_of"), ("words", "Promises"),
         ("packets", "Promises"), ("intake", "Promises")]

Key = tuple[str, str, str]  # crate, file, name


def text_of(path: str) -> str:
    return (ROOT / path).read_text()


def names_in(cell: str) -> list[str]:
    """What stands between backquotes."""
    return re.findall(r"`([^`]+)`", cell)


def rows_of(paper: str) -> list[list[str]]:
    """The rows of all tables of a paper, as cells."""
    return [[cell.strip() for cell in line.strip().strip("|").split("|")] for line in text_of(paper).splitlines() if line.startswith("|")]


# ---- public functions


OPENING = re.compile(r"(?:\b(requires|ensures)\b[\s*\w]*)?\{")


def clauses_of(text: str) -> list[tuple[str, str]]:
    """The clauses between a function's head and its body, each with its word: the text begins with the head, the body is the first brace that no clause opens."""
    found, at = [], 0
    while match := OPENING.search(text, at):
        if match[1] is None:
            break
        depth, at = 1, match.end()
        while depth:
            depth += {"{": 1, "}": -1}.get(text[at], 0)
            at += 1
        found.append((match[1], text[match.end():at - 1].strip()))
    return found


def public_functions() -> dict[str, tuple[bool, str]]:
    """Each `pub fn` by its name, with whether it asks for anything, and what it ensures."""
    found = {}
    for path in sorted(ROOT.glob("crates/*/src/*.rt")):
        crate, owner, lines = path.parts[-3], "", path.read_text().splitlines()
        for number, line in enumerate(lines):
            if match := re.match(r"impl (?:\w+ for )?(\w+)", line):
                owner = match[1] + "::"
            elif line.startswith("}"):
                owner = ""
            elif match := re.match(r"(\s*)pub (?:extern \"C\" )?fn (\w+)", line):
                clauses = clauses_of("\n".join(lines[number:]))
                ensures = " ".join(text for word, text in clauses if word == "ensures")
                found[f"{crate}::{owner if match[1] else ''}{match[2]}"] = (any(word == "requires" for word, _ in clauses), ensures)
    return found


def check_public() -> list[str]:
    said: dict[str, list[str]] = {}
    wrong = []
    for row in rows_of("docs/PUBLIC.md"):
        if "::" in row[0] and (names := names_in(row[0])):
            if names[0] in said:
                wrong.append(f"PUBLIC names {names[0]} twice")
            said[names[0]] = row
    there = public_functions()
    wrong += [f"PUBLIC does not name {name}" for name in there if name not in said]
    wrong += [f"PUBLIC names {name}, which is no public function" for name in said if name not in there]
    for name in there.keys() & said.keys():
        asks, ensures = there[name]
        cells = said[name]
        if len(cells) != 4:
            wrong.append(f"PUBLIC has {len(cells)} cells for {name}, not 4")
            continue
        if asks != (cells[3] != "nothing"):
            wrong.append(f"PUBLIC on what {name} asks for: {cells[3]}")
        if not ensures:
            wrong.append(f"{name} has no contract")
            continue
        missing = [word for word in names_in(cells[1]) if not re.search(rf"(?<![\w'.]){re.escape(word)}(?![\w'])", ensures)]
        if missing or not names_in(cells[1]):
            wrong.append(f"PUBLIC says that {name} settles {cells[1]}, its contract says {ensures}")
        if cells[2].startswith("an equation") and "≡" not in ensures:
            wrong.append(f"PUBLIC calls the contract of {name} an equation: {ensures}")
        if not cells[2].startswith("an equation") and not names_in(cells[2]):
            wrong.append(f"PUBLIC names no law for {name}")
    return wrong


# ---- definitions


def outside_sections(lines: list[str]) -> list[str]:
    """The lines with those of a section, `module _ .. where`, as they would stand outside it."""
    found, inside = [], False
    for line in lines:
        if line.startswith("module _"):
            inside = True
            continue
        inside = inside and (not line.strip() or line.startswith("  "))
        found.append(line[2:] if inside else line)
    return found


class Definitions:
    """The definitions of all spec files, where they stand, and which each of them names."""

    def __init__(self) -> None:
        self.lines: dict[Key, list[str]] = {}
        self.uses: dict[Key, set[Key]] = {}
        for path in sorted(ROOT.glob("crates/*/specs/*.antt")):
            self.read(path.parts[-3], path.stem, path.read_text().splitlines())
        for path in sorted(ROOT.glob("crates/*/src/*.rt")):
            brought = {name: (crate, "src", name) for crate, name in re.findall(r"^use (\w+)::(\w+);", path.read_text(), re.M)}
            for match in re.finditer(r"^(?:// .*\n)*(?:#\[.*\]\n)*pub (?:struct|enum) (\w+)[^}]*\}", path.read_text(), re.M):
                self.lines[path.parts[-3], "src", match[1]] = match[0].splitlines()
                self.uses[path.parts[-3], "src", match[1]] = {brought[word] for word in re.findall(r"\w+", match[0]) if word in brought}

    def read(self, crate: str, file: str, lines: list[str]) -> None:
        brought: dict[str, Key] = {}
        modules: dict[str, tuple[str, str]] = {}
        comment: list[str] = []
        name = ""
        for line in outside_sections(lines):
            if match := re.match(r"use Rattle\.(\w+)\.specs\.([\w.]+)\.\{(.*)\}", line):
                for word in match[3].split(", "):
                    home = ("src", match[2].split(".")[1]) if match[2].startswith("declared") else (match[2], word)
                    brought[word] = (match[1], *home)
            elif match := re.match(r"use Rattle\.(\w+)\.specs\.(\w+) as (\w+)", line):
                modules[match[3]] = (match[1], match[2])
            elif line.startswith("use "):
                continue
            elif line.startswith("--") or not line.strip():
                comment = [*comment, line] if line.startswith("-- ") and not line.startswith("-- ----") else []
            else:
                if match := re.match(r"(?:abbrev |unfoldable )?pub (?:record )?([^\s:]+)", line):
                    name = match[1]
                    self.lines[crate, file, name] = comment
                comment = []
                self.lines[crate, file, name].append(line)
        for key in [key for key in self.lines if key[:2] == (crate, file)]:
            text = "\n".join(line for line in self.lines[key] if not line.startswith("--"))
            words = set(re.split(r"[\s(){}\[\],;.]+", text))
            own = {(crate, file, word) for word in words if (crate, file, word) in self.lines}
            named = {(*modules[module], word) for module, word in re.findall(r"(?<![\w.])(\w+)\.(\w+)", text) if module in modules}
            self.uses[key] = (own | named | {brought[word] for word in words if word in brought}) - {key}

    def rest(self) -> set[Key]:
        """All that the demands rest on."""
        todo = [key for crate, file, *names in ROOTS for key in self.lines if key[:2] == (crate, file) and (not names or key[2] in names)]
        met: set[Key] = set()
        while todo:
            key = todo.pop()
            if key not in met and key in self.lines:
                met.add(key)
                todo += self.uses[key]
        return met


def check_reading() -> list[str]:
    definitions = Definitions()
    wanted = definitions.rest()
    met: dict[Key, int] = {}
    wrong = []
    total = 0
    for number, row in enumerate(rows_of("docs/READING.md")):
        path = next((name for cell in row for name in names_in(cell) if re.fullmatch(r"crates/\w+/(specs/\w+\.antt|src/lib\.rt)", name)), None)
        if path is None or len(row) != 4:
            continue
        crate, file = path.split("/")[1], "src" if path.endswith(".rt") else Path(path).stem
        keys = [(crate, file, name) for name in names_in(row[1])]
        for key in keys:
            if key not in definitions.lines:
                wrong.append(f"READING: {path} has no {key[2]}")
            elif key in met:
                wrong.append(f"READING names {key[2]} of {path} twice")
            elif key not in wanted:
                wrong.append(f"READING: no demand rests on {key[2]} of {path}")
            met[key] = number
        count = sum(len(definitions.lines.get(key, [])) for key in keys)
        total += count
        if row[3] != str(count):
            wrong.append(f"READING: {', '.join(key[2] for key in keys)} of {path} have {count} lines, not {row[3]}")
    wrong += [f"READING: {total} lines in all, not {said}" for said in re.findall(r"(\d+) lines in all", text_of("docs/READING.md")) if int(said) != total]
    wrong += [f"READING does not name {name} of {crate}, {file}" for crate, file, name in sorted(wanted - met.keys())]
    for key, number in met.items():
        late = [use[2] for use in definitions.uses.get(key, ()) if met.get(use, -1) > number]
        if late:
            wrong.append(f"READING has {key[2]} of {key[0]} before what it names: {', '.join(late)}")
    return wrong


# ---- what the papers name


def check_names() -> list[str]:
    wrong = []
    for paper in PAPERS:
        for name in names_in(text_of(paper)):
            places = []
            if "/out/" in name:  # made by a command
                continue
            if re.fullmatch(r"(crates|docs|tools|c|bench)/[\w./-]+\.\w+", name):
                places = [name]
            elif match := re.fullmatch(r"(\w+)/(specs|proofs)/([\w/]+)", name):
                places = [f"crates/{match[1]}/{match[2]}/{match[3]}.antt", f"crates/{match[1]}/{match[2]}/{match[3]}"]
            elif (match := re.fullmatch(r"(\w+)/(\w+)", name)) and (ROOT / "crates" / match[1]).is_dir():
                places = [f"crates/{match[1]}/must-fail/{match[2]}.edit"]
            if places and not any((ROOT / place).exists() for place in places):
                wrong.append(f"{paper} names {name}, which is not there")
        for law, crate, file in re.findall(r"`([\w-]+)` (?:of|in) `(\w+)/proofs/(\w+)`", text_of(paper)):
            place = ROOT / f"crates/{crate}/proofs/{file}.antt"
            if place.exists() and not re.search(rf"^\s*pub {re.escape(law)} :", place.read_text(), re.M):
                wrong.append(f"{paper}: {crate}/proofs/{file} has no law {law}")
    return wrong


def check() -> list[str]:
    return check_public() + check_reading() + check_names()


if __name__ == "__main__":
    found = check()
    print("\n".join(found), end="\n" if found else "")
    sys.exit(1 if found else 0)
