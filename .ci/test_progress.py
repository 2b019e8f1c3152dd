"""The steps of rt ci are counted out of all, and no line that matters is left out."""

import tempfile
import unittest
from pathlib import Path

import progress


class ProgressTest(unittest.TestCase):
    def shown(self, *lines):
        times = iter(range(0, 1000, 7))
        return [line.rstrip("\n") for line in progress.shown((line + "\n" for line in lines), {"crate": 2, "program": 1, "wrong program": 3},
                                                             lambda: next(times))]

    def test_steps_are_counted(self):
        self.assertEqual(
            self.shown("rt: a proved", "rt: must-fail a/x.edit: refused, as it must be: note: src/lib.rt:1:1: it is not proved", "rt: b is kept: an earlier run proved it",
                       "rt: must-fail b/y.edit: NOT REFUSED: the crate is still proved with this edit", "rt: b ran, and wrote what its file stdout has"),
            [" 0:07  crate 1 of 2: a proved", " 0:14  wrong program 1 of 3: a/x.edit: refused, as it must be: note: src/lib.rt:1:1: it is not proved",
             " 0:21  crate 2 of 2: b is kept: an earlier run proved it",
             " 0:28  wrong program 2 of 3: b/y.edit: NOT REFUSED: the crate is still proved with this edit",
             " 0:35  program 1 of 1: b ran, and wrote what its file stdout has"])

    def test_what_failed_is_a_step_too(self):
        self.assertEqual(self.shown("rt: a NOT PROVED", "rt: must-fail a/x.edit: BAD EDIT: it cannot be applied"),
                         [" 0:07  crate 1 of 2: a NOT PROVED", " 0:14  wrong program 1 of 3: a/x.edit: BAD EDIT: it cannot be applied"])

    def test_the_provers_own_lines_are_left_out_and_no_other(self):
        self.assertEqual(self.shown("fn a::b: proved", "struct a::B: proved", "logic /opt/x: libraries=16", "library std: modules loaded=2",
                                    "logic=proved functions=2 sum=1", "linked target=x", "note: no function is declared", "== a", "empty contracts: 0 found; tried 2 of 2 functions",
                                    "crate a: modules loaded=1 checked=3", "statements std: modules loaded=2", "rt: a: trying its must-fail edits (3)",
                                    "/a b/proofs/A.antt:83:93: note: `rw` took the first"), [])
        for line in ("fn a::b: not proved", "logic=not-proved", "src/lib.rt:3:1: error: no", "  but this has type `A`", "axioms libc: libc::read, libc::write (2 of the 50 declared)",
                     "rt: FAILED: a", "rt: ok; handles allowed: none; must-fail edits: 3 refused, 0 bad", "128 passed, 0 failed",
                     "empty contracts: 1 found; tried 2 of 2 functions", "rt: b: the program ended with status 1, and not 0", ""):
            self.assertEqual(self.shown(line), [line])

    def test_totals(self):
        with tempfile.TemporaryDirectory() as folder:
            root = Path(folder)
            for path in ("crates/a/src/lib.rt", "crates/a/must-fail/x.edit", "crates/a/must-fail/y.edit", "crates/b/src/main.rt", "crates/c/src/lib.rt"):
                (root / path).parent.mkdir(parents=True, exist_ok=True)
                (root / path).write_text("")
            (root / "crates.txt").write_text("# a list\na: std\n\nb: a\n")
            self.assertEqual(progress.totals(root), {"crate": 2, "program": 2, "wrong program": 2})


if __name__ == "__main__":
    unittest.main()
