"""The papers agree with the sources, and tools/papers.py sees where they do not: on a small tree with one fault at a time.
Run: python3 tools/test_papers.py"""

import tempfile
import unittest
from pathlib import Path
from unittest import mock

import papers

SOURCE = """impl Card {
    pub fn answer(self) -> u32
        ensures { result ≡ number_of self }
    {
        0
    }
}

pub fn row(at: u32) -> u32
    requires { at < 8 }
    ensures { RowOf at result }
{
    at
}

fn inner() -> u32 {
    0
}
"""
PUBLIC = """| function | settled by | one result by | asks for |
|---|---|---|---|
| `engine::Card::answer` | `number_of` | an equation | nothing |
| `engine::row` | `RowOf` | law `row-once` of `engine/proofs/Once` | `Small`: row 5 |
"""
LAW = "pub row-once : Type 0\n"
STEP = """use Rattle.std.specs.Prelude.{ℕ}
use Rattle.engine.specs.Base.{low}

-- one more
abbrev pub written : ℕ → ℕ
written n = low n

abbrev pub read_from : ℕ → ℕ
read_from n = n

abbrev pub fresh_engine : ℕ
fresh_engine = 0

abbrev pub number_of : ℕ
number_of = 0

abbrev pub count_of : ℕ
count_of = 0
"""
BASE = """abbrev pub low : ℕ → ℕ
low n = n

abbrev pub unused : ℕ
unused = 0
"""
READING = """| words | definitions | file | lines |
|---|---|---|---|
| the low part | `low` | `crates/engine/specs/Base.antt` | 2 |
| the rest | `written`, `read_from`, `fresh_engine`, `number_of`, `count_of` | `crates/engine/specs/Step.antt` | 11 |
"""


class Papers(unittest.TestCase):
    def found(self, check, **changes: str) -> list[str]:
        """What a check says of the small tree, with some texts changed."""
        texts = {"source": SOURCE, "public": PUBLIC, "law": LAW, "step": STEP, "base": BASE, "reading": READING, "readme": "", **changes}
        places = {"source": "crates/engine/src/lib.rt", "public": "docs/PUBLIC.md", "law": "crates/engine/proofs/Once.antt", "step": "crates/engine/specs/Step.antt",
                  "base": "crates/engine/specs/Base.antt", "reading": "docs/READING.md", "readme": "README.md"}
        with tempfile.TemporaryDirectory() as folder:
            for name, text in texts.items():
                path = Path(folder) / places[name]
                path.parent.mkdir(parents=True, exist_ok=True)
                path.write_text(text)
            for paper in papers.PAPERS:
                path = Path(folder) / paper
                if not path.exists():
                    path.write_text("")
            with mock.patch.object(papers, "ROOT", Path(folder)):
                return check()

    def says(self, check, words: str, **changes: str) -> None:
        found = self.found(check, **changes)
        self.assertEqual(len(found), 1, found)
        self.assertIn(words, found[0])

    def test_papers(self):
        self.assertEqual(papers.check(), [])

    def test_small_tree(self):
        self.assertEqual(self.found(papers.check), [])

    def test_public(self):
        check = papers.check_public
        self.says(check, "does not name engine::more", source=SOURCE + "\npub fn more() -> u32\n    ensures { result ≡ 0 }\n{\n    0\n}\n")
        self.says(check, "engine::inner, which is no public function", public=PUBLIC + "| `engine::inner` | `number_of` | an equation | nothing |\n")
        self.says(check, "twice", public=PUBLIC + PUBLIC.splitlines()[2] + "\n")
        self.says(check, "asks for", public=PUBLIC.replace("`Small`: row 5", "nothing"))
        self.says(check, "asks for", public=PUBLIC.replace("| nothing |", "| `Small`: row 5 |"))
        self.says(check, "settles", public=PUBLIC.replace("`number_of`", "`count_of`"))
        self.says(check, "an equation", public=PUBLIC.replace("law `row-once` of `engine/proofs/Once`", "an equation"))
        self.says(check, "no contract", source=SOURCE.replace("        ensures { result ≡ number_of self }\n", ""))

    def test_clauses(self):
        self.assertEqual(papers.clauses_of("pub fn f(x: u32) -> u32\n    requires low { 0 < x }\n    requires high { x < 9 }\n    ensures {\n        result ≡ record { a = x }\n    }\n{\n    x\n}\n"),
                         [("requires", "0 < x"), ("requires", "x < 9"), ("ensures", "result ≡ record { a = x }")])
        self.assertEqual(papers.clauses_of("pub fn g() -> u32 {\n    0\n}\n\nfn f()\n    ensures { 0 < result }\n{\n}\n"), [])
        self.says(papers.check_public, "no contract", source=SOURCE.replace("    requires { at < 8 }\n    ensures { RowOf at result }\n", ""), public=PUBLIC.replace("`Small`: row 5", "nothing"))

    def test_reading(self):
        check = papers.check_reading
        self.says(check, "does not name low", reading="\n".join(line for line in READING.splitlines() if "`low`" not in line))
        self.says(check, "13 lines in all, not 14", reading="14 lines in all\n\n" + READING)
        self.says(check, "have 2 lines, not 3", reading=READING.replace("| 2 |", "| 3 |"))
        self.says(check, "no demand rests on unused", reading=READING.replace("`low` | `crates/engine/specs/Base.antt` | 2", "`low`, `unused` | `crates/engine/specs/Base.antt` | 4"))
        self.says(check, "twice", reading=READING.replace("`written`,", "`written`, `written`,").replace("| 11 |", "| 14 |"))
        rows = READING.splitlines()
        self.says(check, "before what it names: low", reading="\n".join(rows[:2] + [rows[3], rows[2]]))

    def test_names(self):
        check = papers.check_names
        self.says(check, "crates/engine/specs/Gone.antt", readme="see `crates/engine/specs/Gone.antt`")
        self.says(check, "engine/proofs/Gone", readme="see `engine/proofs/Gone`")
        self.says(check, "engine/gone", readme="see `engine/gone`")
        self.says(check, "has no law row-twice", readme="law `row-twice` of `engine/proofs/Once`")
        self.assertEqual(self.found(check, readme="see `crates/engine/out/libengine.a`, which a command makes"), [])


if __name__ == "__main__":
    unittest.main()
