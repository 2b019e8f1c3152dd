"""Demand 3 at a million aircraft, flagged ones among them."""

import math
import random
import unittest
from collections import Counter
from fractions import Fraction

import ground_risk as g
from flagged_aircraft import AT_LIMITS, FLAGGED
from test_ground_risk import OFFERED_WORDS, one_cell

MILLION = 1_000_000
SEED = 35


# The exact area again with its constants worked out once, as a numerator and a
# denominator above zero. exact_area is the definition; a sample is compared.
GLIDE = g.exact_glide()
# Exact slide is RUN × v × v − SAVING / m, in metres.
RUN = (Fraction("0.65") * g.COS / 100) ** 2 / (2 * Fraction("0.75") * Fraction("9.81"))
SAVING = Fraction(580 * 1000) / (2 * Fraction("0.75") * Fraction("9.81"))
SHARED = math.lcm(GLIDE.denominator, RUN.denominator, SAVING.denominator, 100_000)
GLIDE_PARTS = int(GLIDE * SHARED)
RUN_PARTS = int(RUN * SHARED)
SAVING_PARTS = int(SAVING * SHARED)
CIRCLE_PARTS = 785 * SHARED // 100_000


def quick_exact_area(w, m, v):
    a = w + 600
    if w < 1000:
        return 2 * (10 * a * GLIDE_PARTS) + CIRCLE_PARTS * a * a, 2 * SHARED
    slide = max(0, RUN_PARTS * v * v * m - SAVING_PARTS)
    whole = 10 * a * (GLIDE_PARTS * m + slide) + CIRCLE_PARTS * a * a * m
    if w < 8000:
        return 3 * whole, 5 * SHARED * m
    return whole, SHARED * m


def drawn_aircraft(source):
    """An aircraft from the whole of the ranges."""
    low, high = ((50, 999), (1_000, 7_999), (8_000, 100_000))[source.randrange(3)]
    w = source.randint(low, high)
    m = int(50 * (500_000 ** source.random()))
    v = int(40_000 * source.random() ** 2)
    return w, m, v


def tuned_aircraft(source, w=None):
    """An aircraft whose area is close to a limit, by choice of the mass."""
    if w is None:
        w = source.randint(1_000, 7_999) if source.random() < 0.6 else source.randint(8_000, 100_000)
    limit = g.AREA_LIMITS[source.randrange(5)]
    a = w + 600
    t = limit * 100_000 if w >= 8000 else limit * 500_000 / 3
    slide = (t - 785 * a * a) / a - 2_570_666.5
    if slide < 0:
        return drawn_aircraft(source)
    near = 50 * (500_000 ** source.random())
    v = int(math.sqrt((slide + 39_415_562_351.5 / near) / 1.9266174335)) + 1
    saving = 1.9266174335 * v * v - slide
    if v > 40_000 or saving <= 0:
        return drawn_aircraft(source)
    m = int(39_415_562_351.5 / saving) + source.randrange(4) - 1
    return w, min(max(m, 50), 25_000_000), v


def aircraft_of_the_million():
    source = random.Random(SEED)
    tables = [row[2:] for row in FLAGGED + AT_LIMITS]
    for number in range(MILLION):
        if number < len(tables):
            yield tables[number]
        elif number % 3 == 0:
            yield drawn_aircraft(source)
        elif number % 30 == 1:
            # where a formula begins
            yield tuned_aircraft(source, source.choice((1_000, 8_000)))
        else:
            yield tuned_aircraft(source)


def no_worse(by_sheet, by_exact):
    """Each class that the sheet's column gives, the exact column gives too,
    the same or lower."""
    return all(mine is None or (other is not None and other <= mine)
               for mine, other in ((by_sheet.intrinsic, by_exact.intrinsic),
                                   (by_sheet.final, by_exact.final)))


class QuickAreaTest(unittest.TestCase):
    def test_against_the_definition(self):
        source = random.Random(SEED + 1)
        sample = [row[2:] for row in FLAGGED + AT_LIMITS]
        sample += [drawn_aircraft(source) for _ in range(5_000)]
        sample += [tuned_aircraft(source) for _ in range(5_000)]
        sample += [tuned_aircraft(source, w) for w in (999, 1_000, 7_999, 8_000) for _ in range(500)]
        for w, m, v in sample:
            numerator, denominator = quick_exact_area(w, m, v)
            self.assertGreater(denominator, 0)
            self.assertEqual(Fraction(numerator, denominator), g.exact_area(w, m, v))


class WidthTest(unittest.TestCase):
    """Low and high "differ by at most 7 square centimetres, and by at most 2 where the aircraft's dimension is 8 metres or less".
    Document 02 item 6: "The accuracy widths don't move". So 2 is for 8,000 mm too, which now takes the whole formula."""

    def test_at_8_metres(self):
        source = random.Random(SEED + 3)
        sample = [drawn_aircraft(source) for _ in range(20_000)] + [tuned_aircraft(source, 8_000) for _ in range(20_000)]
        widths = Counter()
        for _, m, v in sample:
            sheet = g.sheet(8_000, m, v)
            numerator, denominator = quick_exact_area(8_000, m, v)
            self.assertTrue(sheet.area.low * denominator <= numerator <= sheet.area.high * denominator)
            widths[sheet.area.high - sheet.area.low] += 1
        self.assertEqual(set(widths), {1, 2})
        self.assertGreater(min(widths.values()), 3_000)

    def test_two_at_8_metres(self):
        # a × (glide + slide) is 8,600 × 68,825,174 and 8,600 × 68,825,177, and with 58,058,600,000 T / 100,000 is 6,499,550.96 and
        # 6,499,551.22: a whole number lies between.
        self.assertEqual(g.sheet(8_000, 50_000, 5_899)[4:7],
                         ((66_254_508, 66_254_510), (649_955_096_400, 649_955_122_200), (6_499_550, 6_499_552)))

    def test_never_more_at_8_metres(self):
        # The runs differ by at most 3 and the savings by 1, so the slides by at most 4, and with the glides T by at most 5 × 8,600. That
        # is 0.43 square centimetres of the whole formula: no two whole numbers lie between.
        self.assertEqual(max(high - low for low, high in map(g.run_line, range(40_001))), 3)
        # 39,415,562,351 is q × m and a rest below m: over m it is q, rounded down, and one more is q + 1, rounded up
        self.assertEqual({high - low for low, high in map(g.saving_line, (*range(50, 20_000), 25_000_000))}, {1})
        self.assertLess(5 * g.full_width(8_000), 100_000)


class WorkingsTest(unittest.TestCase):
    """What the two workings give depends on the aircraft by the columns alone."""

    words = OFFERED_WORDS + [digit << shift for shift in (0, 4, 8, 12) for digit in range(16)]

    def test_next_lower_column(self):
        for column in (2, 3, 4, 5):
            for row in (2, 3, 4, 5, 6, 7):
                for mark in (0, 1, 2, 255):
                    for word in self.words:
                        self.assertTrue(no_worse(
                            g.working_from_row(column, row, mark, word),
                            g.working_from_row(column - 1, row, mark, word)))

    def test_whole_workings(self):
        source = random.Random(SEED + 2)
        for number in range(200):
            spread = source.choice((1, 5, 500, 60_000, 1_000_002))
            counts = [source.randrange(spread) for _ in range(g.PLACES)]
            marks = source.choice(([0] * g.ROWS, one_cell(source.randrange(g.PLACES)),
                                   [source.getrandbits(64) for _ in range(g.ROWS)]))
            cell_area = source.choice((99, 100, 10_000, 1_000_000, 25_000_000))
            mark, word = source.choice((0, 0, 1, 2)), source.choice(self.words)
            column = source.choice((2, 3, 4, 5))
            mine = g.working(column, counts, marks, cell_area, mark, word)
            other = g.working(column - 1, counts, marks, cell_area, mark, word)
            self.assertTrue(no_worse(mine, other))
            ground = g.footprint(counts, marks, cell_area)
            if ground.refusal == 0:
                self.assertEqual(mine, g.working_from_row(column, ground.row, mark, word))
            else:
                self.assertEqual(mine, (ground.refusal, None, None))
                self.assertEqual(mine, other)


class MillionTest(unittest.TestCase):
    def test_demand_3(self):
        refused = 0
        flagged, by_dimension = Counter(), Counter()
        for w, m, v in aircraft_of_the_million():
            sheet = g.sheet(w, m, v)
            numerator, denominator = quick_exact_area(w, m, v)
            if sheet.refusal != 0:
                # "When 4 is given, the exact area is more than the last limit
                #  less 7 square centimetres."
                self.assertEqual(sheet.refusal, 4)
                self.assertGreater(numerator, (g.AREA_LIMITS[4] - 7) * denominator)
                refused += 1
                continue
            low, high = sheet.area
            if not low * denominator <= numerator <= high * denominator:
                self.fail(f"exact area outside low and high at {w, m, v}")
            # "at most 2 where the aircraft's dimension is 8 metres or less"
            if high - low > (2 if w <= 8000 else 7):
                self.fail(f"low and high too far apart at {w, m, v}")
            column = sheet.column
            if numerator > g.AREA_LIMITS[column - 1] * denominator:
                self.fail(f"exact column above the sheet's at {w, m, v}")
            exact = column
            while exact > 1 and numerator <= g.AREA_LIMITS[exact - 2] * denominator:
                exact -= 1
            if sheet.flag == 0 and exact != column:
                self.fail(f"unflagged, with another exact column at {w, m, v}")
            if sheet.flag == 1:
                if column - exact not in (0, 1):
                    self.fail(f"flagged, two columns off at {w, m, v}")
                flagged[column, exact] += 1
                by_dimension[w, column, exact] += 1
        # The million has all that it is meant to have.
        self.assertGreater(refused, 10_000)
        for column in (2, 3, 4, 5):
            self.assertGreater(flagged[column, column], 500)
            self.assertGreater(flagged[column, column - 1], 500)
        # and where a formula begins
        for w, columns in ((1_000, (2, 3, 4)), (8_000, (4, 5))):
            for column in columns:
                self.assertGreater(by_dimension[w, column, column], 100)
                self.assertGreater(by_dimension[w, column, column - 1], 100)


if __name__ == "__main__":
    unittest.main()
