"""The random cases against their page, the examples and the stored outputs."""

import importlib.machinery
import importlib.util
import re
import tempfile
import unittest
from pathlib import Path

import case as case_program
import example_cases
import ground_risk as g
import random_cases as r
import random_case_kinds

HERE = Path(__file__).resolve().parent
PAGE = (HERE.parent / "docs" / "RANDOM_CASES.md").read_text()


def section(title):
    """The text under this heading of the page."""
    return PAGE.split(f"## {title}\n")[1].split("\n## ")[0]


def table_rows(text):
    """The rows of the section's table, without its two heading lines."""
    lines = [line for line in text.splitlines() if line.startswith("|")][2:]
    return [[cell.strip() for cell in line.strip("|").split("|")] for line in lines]


def number(text):
    return int(text.replace(",", ""))


def listing_after(words):
    """The numbers listed after these words, as in `1; 2; 3.`"""
    found = re.search(re.escape(words) + r"([0-9,; ]+)\.", PAGE)
    return tuple(number(part) for part in found.group(1).split(";"))


OLD = g.zeros()


class PageTest(unittest.TestCase):
    def test_lengths_and_parts(self):
        rows = table_rows(section("Lengths and places"))
        lengths = [number(row[1]) for row in rows if len(row) == 2]
        self.assertEqual(lengths, [g.ROWS, g.COLUMNS, g.PLACES, g.TEXT_LENGTH, g.FRAME_LENGTH, g.REFUSAL_LENGTH])
        parts = [(name, number(lines), number(digits)) for name, lines, digits in (row for row in rows if len(row) == 3)
                 if name != "Part" and "-" not in name]
        self.assertEqual(parts, [(part.name, part.lines, sum(part.widths)) for part in g.BLOCKS])

    def test_aircraft_tables(self):
        for title, table in (("The column table", r.COLUMN_AIRCRAFT),
                             ("The flagged table", r.FLAGGED_AIRCRAFT),
                             ("The limit table", r.LIMIT_AIRCRAFT)):
            rows = [tuple(number(cell) for cell in row) for row in table_rows(section(title))]
            self.assertEqual(rows, [(entry, *aircraft) for entry, aircraft in enumerate(table)])

    def test_edge_table(self):
        rows = [(number(entry), field.replace(" ", "_"), number(value))
                for entry, field, value in table_rows(section("The edge table"))]
        self.assertEqual(rows, [(entry, *edge) for entry, edge in enumerate(r.EDGES)])

    def test_lists(self):
        for words, values in (("spread is entry c of: ", r.SPREADS),
                              ("L is entry i mod 5 of: ", r.DENSITIES),
                              ("count 1 is entry i mod 4 of: ", r.COUNT_EDGES),
                              ("mark is entry i mod 8 of: ", r.MARKS),
                              ("count 1 is entry (i / 5) mod 6 of: ", r.ROW_COUNTS),
                              ("damage byte is entry i mod 14 of: ", r.WRONG_DIGITS),
                              ("damage byte is entry i mod 19 of: ", r.WRONG_LINE_ENDS)):
            self.assertEqual(listing_after(words), values)

    def test_flagged_order(self):
        for entry, (w, m, v) in enumerate(r.FLAGGED_AIRCRAFT):
            self.assertEqual(g.sheet(w, m, v).flag, 1)
            self.assertEqual(g.sheet(w, m, v).column, 2 + entry // 12)
            self.assertEqual(g.exact_column(w, m, v), 2 + entry // 12 - (entry // 6) % 2)

    def test_column_aircraft(self):
        for entry, aircraft in enumerate(r.COLUMN_AIRCRAFT):
            sheet = g.sheet(*aircraft)
            self.assertEqual((sheet.refusal, sheet.column, sheet.flag), (0, entry + 1, 0))

    def test_kinds(self):
        table, missed = random_case_kinds.kinds_table()
        self.assertEqual(missed, [])
        self.assertEqual(section("How many cases of each kind there are").strip()
                         .split("\n\n")[-1], table)


class SourceTest(unittest.TestCase):
    def test_draws_by_hand(self):
        # From 0 the state goes to 1,013,904,223, then to 1,196,435,762.
        source = r.Source(0)
        self.assertEqual(source.below(65_536), 15_470)
        self.assertEqual(source.below(65_536), 18_256)
        self.assertEqual(r.Source(0).below(4), 2)
        self.assertEqual(r.Source(0).draw_32(), 15_470 * 65_536 + 18_256)
        self.assertEqual(r.Source(0).draw_64() >> 32, 15_470 * 65_536 + 18_256)
        self.assertEqual(r.Source(0).between(50, 999),
                         50 + (15_470 * 65_536 + 18_256) % 950)
        self.assertEqual(r.Source(1).x, 2_654_435_761)
        self.assertEqual(r.Source(2).x, 2 * 2_654_435_761 - 2 ** 32)

    def test_offered_words(self):
        words = [r.offered_word(a, b, c, d)
                 for a in range(3) for b in range(3) for c in range(2) for d in range(3)]
        self.assertEqual(len(set(words)), 54)
        for word in words:
            self.assertNotEqual(g.final_class(1, 7, word)[0], 11)


class CasesTest(unittest.TestCase):
    def test_ranges(self):
        self.assertEqual(r.CASES, 100 * len(r.KINDS))
        for case_number in range(0, r.CASES, 7):
            case = r.make_case(case_number)
            self.assertLessEqual(case.first_row, case.last_row)
            self.assertLess(case.last_row, g.ROWS)
            self.assertEqual(tuple(map(len, case.lent)), g.LENT_LENGTHS)
            for part in g.BLOCKS:
                if part.fills:
                    self.assertLess(max(getattr(case.lent, part.fills)), 16 ** max(part.widths))
            for value, (_, width) in zip(case.fields, g.LINE_1):
                self.assertLess(value, 16 ** width)
            self.assertLessEqual(case.place_1, r.NO_PLACE)
            self.assertLessEqual(case.place_2, r.NO_PLACE)
            self.assertLessEqual(case.damage_place, g.TEXT_LENGTH)
            self.assertLess(case.damage_byte, 256)
            self.assertEqual(len(case.text), case.text_length)
            self.assertLessEqual(case.text_length, g.TEXT_LENGTH + 1)
            for length, right in zip(case.lent_lengths, g.LENT_LENGTHS):
                self.assertLessEqual(length, right + 1)
            self.assertLess(case.frame_length, g.FRAME_LENGTH + r.LONGER_FRAMES)

    def test_printed_line(self):
        frame = b"0" * (g.FRAME_LENGTH - 1) + b"\n"
        self.assertEqual(r.printed_line(g.CaseAnswer(0, OLD, frame + b"rest")), frame)
        self.assertEqual(r.printed_line(g.CaseAnswer(10, OLD, b"0a\n" + frame)), b"0a\n")
        self.assertEqual(r.printed_line(g.CaseAnswer(15, OLD, b"")), b"0f\n")


class ExamplesTest(unittest.TestCase):
    def test_examples(self):
        for name, text in example_cases.EXAMPLES.items():
            self.assertEqual((HERE.parent / "examples" / f"{name}.case").read_bytes(), text())
        self.assertEqual(case_program.frame_of(example_cases.farmhouses()),
                         b"000001bf3e0001bf3f020001050000000000080605\n")
        self.assertEqual(case_program.frame_of(example_cases.refused()), b"0c\n")
        self.assertEqual(g.sheet(2_974, 20_005, 3_737).column, 3)
        self.assertEqual(g.sheet(2_974, 20_005, 3_737).flag, 1)
        self.assertEqual(g.exact_column(2_974, 20_005, 3_737), 2)

    def test_differences(self):
        loader = importlib.machinery.SourceFileLoader("expectations", str(HERE / "expectations"))
        module = importlib.util.module_from_spec(
            importlib.util.spec_from_loader("expectations", loader))
        loader.exec_module(module)
        with tempfile.TemporaryDirectory() as folder:
            module.ROOT = Path(folder)
            (module.ROOT / "same").write_bytes(b"1\n2\n")
            (module.ROOT / "other").write_bytes(b"1\n3\n")
            (module.ROOT / "longer").write_bytes(b"1\n2\n3\n")
            wanted = {name: b"1\n2\n" for name in ("same", "other", "longer", "absent")}
            self.assertEqual(module.differences(wanted),
                             ["other differs, first in line 2", "longer differs, first in line 3",
                              "absent is missing"])


if __name__ == "__main__":
    unittest.main()
