"""The worked points of the exact area: each worked out another way, and every kind of aircraft among them."""

import importlib.machinery
import importlib.util
import math
import re
import tempfile
import unittest
from fractions import Fraction
from pathlib import Path
from unittest import mock

import exact_points
import ground_risk as g
from test_demand_3 import quick_exact_area

HERE = Path(__file__).resolve().parent
STORED = "crates/exact_area/specs/PointTable.antt"
ROW = re.compile(r"    (?:∷ )?point (\d+) (\d+) (\d+) \((\d+) over (\d+)\) (\d+) (\d+) (\d+)")


def rows():
    """The numbers of each row, as they are written."""
    lines = [line for line in exact_points.table().decode().splitlines() if "point " in line and " over " in line]
    return [tuple(map(int, ROW.fullmatch(line).groups())) for line in lines]


def expectations():
    loader = importlib.machinery.SourceFileLoader("expectations", str(HERE / "expectations"))
    module = importlib.util.module_from_spec(importlib.util.spec_from_loader("expectations", loader))
    loader.exec_module(module)
    return module


class ExactPointsTest(unittest.TestCase):
    def test_by_hand(self):
        written = {row[:3]: row[3:] for row in rows()}
        for aircraft, area, columns in (
                # P5: D is 4.3, so 154,800 / tan + 580,586: 774 × 10¹² / 3,501,037,691 + 580,586.
                ((8_000, 50_000, 0), (2_806_653_468_866_926, 3_501_037_691), (3, 3, 0)),
                # D is 0.8: six tenths of 28,800 / tan + 20,096 are 17,280 / tan + 12,057.6. Over 5 × 3,501,037,691:
                # 432 × 10¹² + 60,288 × 3,501,037,691.
                ((1_000, 10_000, 0), (643_070_560_315_008, 17_505_188_455), (1, 1, 0))):
            self.assertEqual(written[aircraft], (*area, *columns))
        over_tan = Fraction(10 ** 10, 7_002_075_382)
        # At 25 m/s 0.65 × cos × V is 13.311220719875, 580 / M is 58; at 35 m/s 18.635709007825 and 11.6.
        slide_25 = (Fraction("13.311220719875") ** 2 - 58) / Fraction("14.715")
        slide_35 = (Fraction("18.635709007825") ** 2 - Fraction("11.6")) / Fraction("14.715")
        for aircraft, area, columns in (
                # D is 0.7995: 28,782 / tan and half of 20,070.88785, without slide.
                ((999, 25_000_000, 40_000), 28_782 * over_tan + Fraction("10035.443925"), (1, 1, 0)),
                # P2: six tenths of 16,000 × slide come to what it is at rest.
                ((1_000, 10_000, 2_500), 17_280 * over_tan + Fraction("12057.6") + 9_600 * slide_25, (2, 2, 0)),
                # D is 4.2995: six tenths of 154,782 / tan + 580,450.98785 + 85,990 × slide.
                ((7_999, 50_000, 3_500), Fraction("92869.2") * over_tan + Fraction("348270.59271") + 51_594 * slide_35, (3, 3, 0)),
                ((8_000, 50_000, 3_500), 154_800 * over_tan + 580_586 + 86_000 * slide_35, (3, 3, 0))):
            numerator, denominator, *others = written[aircraft]
            self.assertEqual((Fraction(numerator, denominator), tuple(others)), (area, columns))

    def test_every_row(self):
        for w, m, v, numerator, denominator, exact, column, flag in rows():
            with self.subTest((w, m, v)):
                self.assertEqual(math.gcd(numerator, denominator), 1)
                top, bottom = quick_exact_area(w, m, v)
                self.assertEqual(numerator * bottom, top * denominator)
                # the first limit that is at least the fraction
                self.assertLessEqual(numerator, g.AREA_LIMITS[exact - 1] * denominator)
                if exact > 1:
                    self.assertGreater(numerator, g.AREA_LIMITS[exact - 2] * denominator)
                sheet = g.sheet(w, m, v)
                self.assertEqual((sheet.refusal, sheet.column, sheet.flag), (0, column, flag))
                self.assertLessEqual(sheet.area.low * denominator, numerator)
                self.assertLessEqual(numerator, sheet.area.high * denominator)

    def test_every_kind(self):
        kinds = {(0 if w < 1_000 else 1 if w < 8_000 else 2, g.exact_slide(m, v) > 0) for w, m, v, *_ in rows()}
        self.assertEqual(kinds, {(formula, slides) for formula in (0, 1, 2) for slides in (False, True)})
        cuts = {(w, g.exact_slide(m, v) > 0) for w, m, v, *_ in rows() if w in (999, 1_000, 7_999, 8_000)}
        self.assertEqual(cuts, {(w, slides) for w in (999, 1_000, 7_999, 8_000) for slides in (False, True)})
        self.assertEqual({row[5] for row in rows() if row[7] == 0}, {1, 2, 3, 4, 5})
        flagged = [(row[6], row[5]) for row in rows() if row[7] == 1]
        for column in (2, 3, 4, 5):
            for exact in (column, column - 1):
                self.assertEqual(flagged.count((column, exact)), 2)
        # columns 4 and 5 are reached by six tenths and by the whole formula
        wide = {(row[6], row[5], row[0] >= 8_000) for row in rows() if row[7] == 1 and row[6] > 3}
        self.assertEqual(len(wide), 8)
        self.assertEqual(len(set(rows())), len(rows()))

    def test_rounding_would_show(self):
        # less than one square centimetre above a limit: rounded down, the area would be in the column before
        self.assertTrue(any(numerator // denominator in g.AREA_LIMITS for *_, numerator, denominator, _, _, _ in rows()))

    def test_papers_aircraft(self):
        self.assertEqual([row[:3] + row[5:] for row in rows()[:6]], [
            (50, 50, 0, 1, 1, 0), (1_000, 10_000, 2_500, 2, 2, 0), (1_001, 10_000, 0, 1, 1, 0),
            (3_000, 25_000, 3_500, 2, 2, 0), (8_000, 50_000, 0, 3, 3, 0), (8_001, 50_000, 0, 3, 3, 0)])

    def test_ends(self):
        aircraft = {row[:3] for row in rows()}
        for w, m, v in ((3_000, 10_000, 1_430), (100_000, 50, 20_227)):
            self.assertTrue({(w, m, v), (w, m, v + 1)} <= aircraft)
            self.assertEqual(g.exact_slide(m, v), 0)
            self.assertGreater(g.exact_slide(m, v + 1), 0)
        self.assertTrue({(20_356, 25_000_000, 40_000), (100_000, 25_000_000, 17_118)} <= aircraft)
        self.assertEqual(g.sheet(20_357, 25_000_000, 40_000).refusal, 4)
        self.assertEqual(g.sheet(100_000, 25_000_000, 17_119).refusal, 4)

    def test_stored(self):
        """checker/expectations keeps the file, and sees a changed digit."""
        module = expectations()
        with mock.patch.object(module.random_cases, "print_frames"), tempfile.TemporaryDirectory() as folder:
            outputs = {STORED: module.expected_outputs()[0][STORED]}
            module.ROOT = Path(folder)
            (module.ROOT / STORED).parent.mkdir(parents=True)
            (module.ROOT / STORED).write_bytes(outputs[STORED])
            self.assertEqual(module.differences(outputs), [])
            (module.ROOT / STORED).write_bytes(outputs[STORED].replace(b"2806653468866926", b"2806653468866927", 1))
            self.assertEqual(len(module.differences(outputs)), 1)


if __name__ == "__main__":
    unittest.main()
