"""Document 02 item 7: the area column is never above the size column but at the two dimensions left out, and the page docs/AREA_ROUTE.md."""

import os
import random
import subprocess
import sys
import unittest
from collections import Counter
from itertools import islice, product
from pathlib import Path
from unittest import mock

import area_route
import ground_risk as g
import trade_off_tables
from area_route import BREAKING, LEFT_OUT, claimed, holds
from flagged_aircraft import AT_LIMITS, FLAGGED
from test_demand_3 import quick_exact_area, tuned_aircraft
from test_trade_off import RUNS, high_area, nearest, quick_columns, quick_highs, quick_saving, solved_mass, solved_speed

ROOT = Path(__file__).resolve().parent.parent
SEED = 70
LIGHTEST, HEAVIEST = 50, 25_000_000
# The paper's pairs, and the column of each.
PAIRS = ((1, 1_000, 2_500), (2, 3_000, 3_500), (3, 8_000, 7_500), (4, 20_000, 12_000), (5, 40_000, 20_000))
# The column and the speed of the smallest pair of each dimension left out.
SMALLEST = {1_000: (1, 2_500), 8_000: (3, 7_500)}


def columns_of(w, v, masses):
    """The column of each of these masses by whole numbers, 6 for refusal 4."""
    return quick_columns(w, [RUNS[v] - quick_saving(m) for m in masses])


def exact_within(column, w, m, v):
    """Whether the exact column is at most this one, by whole numbers."""
    numerator, denominator = quick_exact_area(w, m, v)
    return numerator <= g.AREA_LIMITS[column - 1] * denominator


# ---------------------------------------------------------------------------
# Draws: any aircraft, each of its numbers often at an edge
# ---------------------------------------------------------------------------

DIMENSIONS, SPEEDS = ([number + step for number in numbers for step in (-1, 0, 1)] for numbers in (
    (50, *(w for _, w, _ in PAIRS), 100_000), (0, *(v for _, _, v in PAIRS), 40_000)))
MASSES = [m + step for m in (LIGHTEST, HEAVIEST) for step in (-1, 0, 1)]


def drawn(source):
    """An aircraft that may be out of range, or larger or faster than every pair."""
    w, m, v = int(50 * 900 ** source.random()), int(50 * 500_000 ** source.random()), source.randint(0, 21_000)
    if source.random() < 0.4:
        w = source.choice(DIMENSIONS)
    if source.random() < 0.4:
        v = source.choice(SPEEDS)
    if source.random() < 0.4:
        m = source.choice(MASSES)
    return w, m, v


def tuned(source):
    """One whose area is close to a limit."""
    return tuned_aircraft(source, source.randint(1_000, 40_000) if source.random() < 0.5 else source.randint(1_000, 7_999))


def claimed_ones(kind, number):
    source = random.Random(SEED)
    return list(islice((aircraft for aircraft in iter(lambda: kind(source), None) if claimed(*aircraft)), number))


class EveryDimensionTest(unittest.TestCase):
    """The claim for every aircraft. Of the aircraft of one dimension that a pair takes in, the heaviest at the pair's speed has the
    largest area (GrowthTest), so these are enough."""

    def test_the_heaviest_at_the_speed_of_every_pair(self):
        broken = []
        for column, dimension, speed in PAIRS:
            for w in range(50, dimension + 1):
                sheet = g.sheet(w, HEAVIEST, speed)
                self.assertEqual((sheet.refusal, sheet.size_column), (0, column))
                exact = exact_within(column, w, HEAVIEST, speed)
                if sheet.column > column or not exact:
                    broken.append((column, w, sheet.column, exact))
        # one column above, the exact one too
        self.assertEqual(broken, [(1, 1_000, 2, False), (3, 8_000, 4, False)])

    def test_other_masses_at_the_speed_of_every_pair(self):
        masses = (LIGHTEST, 250, 935, 936, 4_332, 4_333, 10_000, 1_000_000)
        broken = {(column, w, m) for column, dimension, speed in PAIRS for w in range(50, dimension + 1)
                  for m, found in zip(masses, columns_of(w, speed, masses)) if found > column}
        # greatest masses worked by hand: test_trade_off
        self.assertEqual(broken, {*((1, 1_000, m) for m in masses if m > 4_332), *((3, 8_000, m) for m in masses if m > 935)})

    def test_what_is_claimed(self):
        for (w, m, v), said in (
                ((49, 50, 0), False), ((50, 50, 0), True), ((50, 49, 0), False), ((50, 25_000_000, 20_000), True),
                ((50, 25_000_001, 0), False), ((50, 50, 20_000), True), ((50, 50, 20_001), False), ((50, 50, 40_001), False),
                ((999, 50, 0), True), ((1_000, 50, 0), False), ((1_000, 50, 20_000), False), ((1_001, 50, 0), True),
                ((7_999, 50, 0), True), ((8_000, 50, 0), False), ((8_000, 50, 20_000), False), ((8_001, 50, 0), True),
                ((3_000, 50, 0), True), ((20_000, 50, 0), True), ((40_000, 50, 20_000), True), ((40_001, 50, 0), False),
                ((100_000, 50, 0), False)):
            self.assertEqual(claimed(w, m, v), said, (w, m, v))


class SampleTest(unittest.TestCase):
    """Any aircraft that the claim is for, one after the other by the sheet."""

    def holds_for(self, w, m, v):
        sheet = g.sheet(w, m, v)
        self.assertEqual(sheet.refusal, 0, (w, m, v))
        self.assertTrue(1 <= sheet.column <= sheet.size_column, (w, m, v))
        self.assertTrue(exact_within(sheet.size_column, w, m, v), (w, m, v))
        return sheet

    def test_any(self):
        edges, columns = Counter(), Counter()
        for w, m, v in claimed_ones(drawn, 15_000):
            sheet = self.holds_for(w, m, v)
            edges.update((("dimension", w), ("mass", m), ("speed", v)))
            columns[sheet.column, sheet.size_column] += 1
        for name, numbers in (("dimension", [w for w in DIMENSIONS if 50 <= w <= 40_000 and w not in LEFT_OUT]),
                              ("mass", [m for m in MASSES if 50 <= m <= 25_000_000]), ("speed", [v for v in SPEEDS if 0 <= v <= 20_000])):
            for number in numbers:
                self.assertGreater(edges[name, number], 100, (name, number))
        # every size column, with every column up to it
        self.assertEqual(set(columns), {(column, size) for size in range(1, 6) for column in range(1, size + 1)})

    def test_the_claim_as_written(self):
        for aircraft in (*claimed_ones(drawn, 1_000), *claimed_ones(tuned, 1_000)):
            self.assertTrue(holds(*aircraft), aircraft)
        # the exact column is asked for as well
        for exact, said in ((0, False), (1, True), (2, False)):
            with mock.patch.object(g, "exact_column", lambda *_, exact=exact: exact):
                self.assertEqual(holds(999, 50, 0), said)

    def test_flagged(self):
        flagged = Counter()
        for w, m, v in (*(row[2:] for row in FLAGGED + AT_LIMITS if claimed(*row[2:])), *claimed_ones(tuned, 20_000)):
            sheet = self.holds_for(w, m, v)
            if sheet.flag == 1:
                exact = sheet.column - 1 if exact_within(sheet.column - 1, w, m, v) else sheet.column
                flagged[sheet.column, exact, sheet.column == sheet.size_column] += 1
        # in every column the size column itself, with the exact column the same and the one before, and some below the size column
        for column, lower in product((2, 3, 4, 5), (0, 1)):
            self.assertGreater(flagged[column, column - lower, True], 40, (column, lower))
        self.assertGreater(sum(number for (_, _, same), number in flagged.items() if not same), 400)
        self.assertGreater(flagged.total(), 4_000)


class LeftOutTest(unittest.TestCase):
    def test_left_out(self):
        self.assertEqual(LEFT_OUT, tuple(SMALLEST))
        for w, (column, speed) in SMALLEST.items():
            self.assertEqual([g.size_column(w, v) for v in (0, speed, speed + 1)], [column, column, column + 1])

    def test_every_speed(self):
        """Of several masses every speed from 0 to 40,000: never refused; above the size column by one, and up to the smallest pair's
        speed alone."""
        for w, (column, speed) in SMALLEST.items():
            sizes = [g.size_column(w, v) for v in range(40_001)]
            self.assertEqual(sizes[speed:speed + 2] + sizes[20_000:20_002], [column, column + 1, 5, 0])
            last = solved_mass(w, speed, column)[1]
            for m in (LIGHTEST, 250, last, last + 1, 10_000, 100_000, HEAVIEST):
                columns = quick_columns(w, [run - quick_saving(m) for run in RUNS])
                self.assertLessEqual(max(columns), 5)
                above = [v for v in range(20_001) if columns[v] > sizes[v]]
                self.assertEqual(above, list(range(above[0], speed + 1)) if m > last else [])
                self.assertLessEqual({columns[v] - sizes[v] for v in above}, {1})

    def test_the_exact_column_at_every_speed(self):
        for w, (column, speed) in SMALLEST.items():
            for v in range(20_001):
                size = column if v <= speed else g.size_column(w, v)
                within = [exact_within(limit, w, HEAVIEST, v) for limit in (size, min(5, size + 1))]
                # the exact area of the first speed that breaks it is above the limit too
                self.assertEqual(within, [v > speed or v <= solved_speed(w, HEAVIEST, column)[1], True], (w, v))

    def test_p2_breaks_it(self):
        # the sheet by hand: test_ground_risk; six tenths of T are 114,494.083 and 114,494.112, above 65,000 both
        self.assertEqual(BREAKING[0], (1_000, 10_000, 2_500))
        sheet = g.sheet(1_000, 10_000, 2_500)
        self.assertEqual((sheet.refusal, sheet.area, sheet.column, sheet.flag, sheet.size_column), (0, (114_494, 114_495), 2, 0, 1))

    def test_the_heaviest_at_75_metres_a_second_breaks_it(self):
        # Run: v × v is 56,250,000, so 108,372,230.61 and 108,372,230.66. Saving: 1,576.6 both times. Slide: 108,372,230 - 1,577 and
        # 108,372,231 - 1,576. a is 8,600, 785 × a × a 58,058,600,000; a × (glide + slide) is 954,095,343,400 and 954,095,369,200.
        # T / 100,000: 10,121,539.434 and 10,121,539.692, above 6,500,000 both.
        self.assertEqual(BREAKING[1], (8_000, 25_000_000, 7_500))
        self.assertEqual(g.sheet(8_000, 25_000_000, 7_500), g.Sheet(
            0, (2_570_666, 2_570_667), (108_372_230, 108_372_231), (1_576, 1_577), (108_370_653, 108_370_655),
            (1_012_153_943_400, 1_012_153_969_200), (10_121_539, 10_121_540), 4, 0, 3))

    def test_no_rounding_breaks_it(self):
        for w, m, v in BREAKING:
            sheet = g.sheet(w, m, v)
            self.assertFalse(holds(w, m, v) or claimed(w, m, v))
            self.assertEqual((sheet.flag, g.exact_column(w, m, v)), (0, sheet.column))
            self.assertGreater(g.exact_area(w, m, v), g.AREA_LIMITS[sheet.size_column - 1])
            # nor does one millimetre more or less
            self.assertTrue(all(claimed(near, m, v) and holds(near, m, v) for near in (w - 1, w + 1)))

    def test_a_flagged_one_may_break_it_by_rounding_alone(self):
        # there the sheet's column is above the size column, and the exact one isn't
        seen = set()
        for column, exact, w, m, v in FLAGGED:
            if w in SMALLEST and v <= SMALLEST[w][1] and column > exact:
                self.assertEqual((g.size_column(w, v), holds(w, m, v)), (exact, False))
                seen.add(w)
        self.assertEqual(seen, set(LEFT_OUT))


class WrongClaimsTest(unittest.TestCase):
    """Claims that the aircraft at the edges refute."""

    aircraft = list(product(DIMENSIONS, (LIGHTEST, 10_000, HEAVIEST), SPEEDS))

    def broken(self, claim=claimed, holding=holds):
        return [aircraft for aircraft in self.aircraft if claim(*aircraft) and not holding(*aircraft)]

    def test_the_papers_claim(self):
        self.assertEqual(self.broken(), [])
        self.assertGreater(sum(claimed(*aircraft) for aircraft in self.aircraft), 400)

    def test_one_of_the_two_not_left_out(self):
        for left_out, broken in (((8_000,), {1_000}), ((1_000,), {8_000}), ((), {1_000, 8_000})):
            with mock.patch.object(area_route, "LEFT_OUT", left_out):
                self.assertEqual({w for w, *_ in self.broken()}, broken)

    def test_strictly_below(self):
        def below(w, m, v):
            sheet = g.sheet(w, m, v)
            return sheet.refusal == 0 and sheet.column < sheet.size_column
        # in every size column one is as high
        self.assertEqual({g.size_column(w, v) for w, _, v in self.broken(holding=below)}, {1, 2, 3, 4, 5})

    def test_where_no_pair_is_large_enough(self):
        def any_in_range(w, m, v):
            return g.aircraft_refusal(w, m, v) == 0 and w not in LEFT_OUT
        broken = self.broken(any_in_range)
        # where 0 counts as a column it holds for none of these, and refusal 4 comes to some
        self.assertEqual(len(broken), sum(any_in_range(*aircraft) and not claimed(*aircraft) for aircraft in self.aircraft))
        self.assertEqual({g.size_column(w, v) for w, _, v in broken}, {0})
        self.assertEqual({g.sheet(*aircraft).refusal for aircraft in broken}, {0, 4})

    def test_with_the_cuts_of_document_01(self):
        """There a formula begins above 1,000 and 8,000 mm, not from there, and nothing has to be left out. So it's the moved cuts that
        break it, each of them at its own dimension."""
        for six_tenths, whole, broken in ((1_001, 8_001, set()), (1_000, 8_001, {1_000}), (1_001, 8_000, {8_000}),
                                          (1_000, 8_000, {1_000, 8_000})):
            def formula(w, six_tenths=six_tenths, whole=whole):
                return g.WHOLE if w >= whole else g.SIX_TENTHS if w >= six_tenths else g.GLIDE_ONLY
            with mock.patch.object(g, "area_formula", formula), mock.patch.object(area_route, "LEFT_OUT", ()):
                self.assertEqual({w for w, *_ in self.broken()}, broken)
                if not broken:
                    # then for every aircraft, as above
                    for column, dimension, speed in PAIRS:
                        self.assertLessEqual(max(columns_of(w, speed, [HEAVIEST])[0] for w in range(50, dimension + 1)), column)


class GrowthTest(unittest.TestCase):
    """Why the heaviest at each pair's speed are enough, and for the page the largest dimension of each formula."""

    def growing(self, aircraft, larger):
        self.assertLessEqual(high_area(*aircraft), high_area(*larger), (aircraft, larger))
        self.assertLessEqual(g.exact_area(*aircraft), g.exact_area(*larger), (aircraft, larger))

    def test_with_mass_and_speed_and_within_a_formula_with_the_dimension(self):
        source = random.Random(SEED + 1)
        for w, m, v in claimed_ones(drawn, 400):
            heavier, faster = source.choice((m + 1, source.randint(m, HEAVIEST))), source.choice((v + 1, source.randint(v, 40_000)))
            self.growing((w, m, v), (w, min(HEAVIEST, heavier), v))
            self.growing((w, m, v), (w, m, faster))
            last = {g.GLIDE_ONLY: 999, g.SIX_TENTHS: 7_999, g.WHOLE: 100_000}[g.area_formula(w)]
            self.growing((w, m, v), (source.choice((min(last, w + 1), source.randint(w, last))), m, v))

    def test_run_and_saving(self):
        # at every speed, and at many masses: the high run never falls as the speed grows, the low saving never rises as the mass does
        self.assertEqual(RUNS, sorted(RUNS))
        savings = [g.saving_line(m).low for m in (*range(50, 5_000), *range(4_999, 25_000_001, 9_973), 25_000_000)]
        self.assertEqual(savings, sorted(savings, reverse=True))


class PageTest(unittest.TestCase):
    @classmethod
    def setUpClass(cls):
        cls.made = area_route.made_part()
        cls.lines = cls.made.split("\n")

    def rows(self, title):
        """The cells of all tables below a title, heads left out."""
        after = self.lines[self.lines.index(title) + 1:]
        end = next((place for place, line in enumerate(after) if line.startswith("## ")), len(after))
        lines = [line for place, line in enumerate(after[:end]) if line.startswith("| ") and not after[place + 1].startswith("|---")]
        return [[cell.strip() for cell in line.strip("|").split("|")] for line in lines]

    def test_the_page_ends_with_the_made_part(self):
        page = (ROOT / "docs" / "AREA_ROUTE.md").read_text()
        before, _, made = page.partition("\n<!-- what follows is made: python3 checker/area_route.py -->\n\n")
        self.assertTrue(before.startswith("# Where the area route is worth taking\n\n"))
        self.assertEqual(made, self.made)

    def test_the_program(self):
        # in UTF-8, whatever the terminal's own encoding
        printed = subprocess.run([sys.executable, area_route.__file__], env=os.environ | {"PYTHONIOENCODING": "ascii"}, capture_output=True,
                                 check=True)
        self.assertEqual((printed.stdout.decode(), printed.stderr), (self.made, b""))

    def test_its_parts(self):
        self.assertEqual([line for line in self.lines if line.startswith("#")], [
            "## An aircraft of 1,000 mm that breaks it", "## An aircraft of 8,000 mm that breaks it",
            "## Which aircraft of these two dimensions break it", "## How near it comes"])
        self.assertTrue(self.made.endswith(" |\n"))

    def test_the_aircraft_of_1_metre(self):
        self.assertIn("It has a dimension of 1,000 mm (1 m), a mass of 10,000 g (10 kg) and a speed of 2,500 cm/s (25 m/s).", self.lines)
        # the numbers are those worked by hand
        self.assertEqual(self.rows("## An aircraft of 1,000 mm that breaks it"), [
            ["Glide", "2.570666 m (2,570,666 µm)", "2.570667 m (2,570,667 µm)"],
            ["Run, from the speed", "12.041358 m (12,041,358 µm)", "12.041359 m (12,041,359 µm)"],
            ["Saving, from the mass", "3.941556 m (3,941,556 µm)", "3.941557 m (3,941,557 µm)"],
            ["Slide: run less saving", "8.099801 m (8,099,801 µm)", "8.099803 m (8,099,803 µm)"],
            ["T, the area of the full formula", "19.082347200 m² (19,082,347,200 thousandths of a mm²)",
             "19.082352000 m² (19,082,352,000 thousandths of a mm²)"],
            ["Critical area: six tenths of T", "11.4494 m² (114,494 cm²)", "11.4495 m² (114,495 cm²)"],
            ["Column", "2: above 6.5 m² (65,000 cm²), up to 65 m² (650,000 cm²)"],
            ["Flag", "0: the low area is above 6.5 m² (65,000 cm²) too"],
            ["Size column", "1: 1,000 mm and 2,500 cm/s is the first pair whose dimension and speed are both at least the aircraft's, "
                            "1,000 mm and 2,500 cm/s"],
            ["Refusal", "none"],
            ["Exact area", "a little over 114,494.10 cm²"],
            ["Exact column", "2"],
            # 999 mm: test_ground_risk has it by hand. 1,001 mm: a is 1,601, 785 × a × a 2,012,112,785; a × (glide + slide)
            # 17,083,417,667 and 17,083,422,470; 3 × T / 500,000: 114,573.183 and 114,573.212
            ["999 mm", "5.1140 to 5.1141 m² (51,140 to 51,141 cm²)", "1", "1", "no"],
            ["1,000 mm", "11.4494 to 11.4495 m² (114,494 to 114,495 cm²)", "2", "1", "yes"],
            ["1,001 mm", "11.4573 to 11.4574 m² (114,573 to 114,574 cm²)", "2", "2", "no"]])

    def test_the_aircraft_of_8_metres(self):
        rows = self.rows("## An aircraft of 8,000 mm that breaks it")
        self.assertIn("It has a dimension of 8,000 mm (8 m), a mass of 25,000,000 g (25,000 kg) and a speed of 7,500 cm/s (75 m/s).",
                      self.lines)
        for row in (["Saving, from the mass", "0.001576 m (1,576 µm)", "0.001577 m (1,577 µm)"],
                    ["Critical area: all of T", "1,012.1539 m² (10,121,539 cm²)", "1,012.1540 m² (10,121,540 cm²)"],
                    ["Column", "4: above 650 m² (6,500,000 cm²), up to 6,500 m² (65,000,000 cm²)"],
                    ["Exact area", "a little over 10,121,539.55 cm²"], ["Exact column", "4"]):
            self.assertIn(row, rows)
        # six tenths at 7,999 mm: a is 8,599, 785 × a × a 58,045,098,785, T 1,012,029,500,867 at most. The whole at 8,001 mm: a is 8,601.
        self.assertEqual([(row[0], *row[2:]) for row in rows[-3:]],
                         [("7,999 mm", "3", "3", "no"), ("8,000 mm", "4", "3", "yes"), ("8,001 mm", "4", "4", "no")])

    def test_the_exact_areas_go_on(self):
        for (w, m, v), hundredths in zip(BREAKING, (11_449_410, 1_012_153_955)):
            numerator, denominator = quick_exact_area(w, m, v)
            self.assertTrue(hundredths * denominator < 100 * numerator < (hundredths + 1) * denominator)

    def test_which_break_it(self):
        """By the answers solved without a search, and by the sheet on both sides of each."""
        rows = self.rows("## Which aircraft of these two dimensions break it")
        self.assertEqual(len(rows), len(trade_off_tables.MASSES))
        for m, (words, *cells) in zip(trade_off_tables.MASSES, rows):
            self.assertEqual(words, f"{m} g" if m < 1_000 else f"{m // 1_000:,} kg")
            for cell, (w, (column, speed)) in zip(cells, SMALLEST.items(), strict=True):
                last = solved_speed(w, m, column)[1]
                self.assertEqual(cell, "–" if last >= speed else f"{last + 1:,} cm/s")
                below = min(last, speed)
                self.assertLessEqual(g.sheet(w, m, below).column, g.sheet(w, m, below).size_column)
                if last < speed:
                    self.assertGreater(g.sheet(w, m, last + 1).column, g.sheet(w, m, last + 1).size_column)
        # at each of the two dimensions some masses break it and some don't
        for cells in list(zip(*rows))[1:]:
            self.assertEqual({cell == "–" for cell in cells}, {True, False})

    def test_the_lightest_that_breaks_it(self):
        # at the pair's speed alone, and one gram less nowhere
        for w, m, first in ((1_000, 4_333, 2_500), (1_000, 4_332, None), (8_000, 936, 7_500), (8_000, 935, None)):
            self.assertEqual(area_route.first_speed(w, m), first)

    def test_which_break_it_in_words(self):
        self.assertIn(
            "At 1,000 mm none breaks it up to 1,236 cm/s (12.36 m/s), whatever its mass, nor up to 4,332 g (4.332 kg), whatever its speed up "
            "to 2,500 cm/s. At 8,000 mm none breaks it up to 5,864 cm/s (58.64 m/s), whatever its mass, nor up to 935 g (0.935 kg), whatever "
            "its speed up to 7,500 cm/s. Above 2,500 and 7,500 cm/s, up to 20,000 cm/s, the size column is itself higher, and the claim "
            "holds; above that no pair is large enough.", self.lines)
        for w, slow, light in ((1_000, 1_236, 4_332), (8_000, 5_864, 935)):
            column, speed = SMALLEST[w]
            self.assertEqual((solved_speed(w, HEAVIEST, column), solved_mass(w, speed, column)), ((0, slow), (0, light)))
            for m, v, said in ((HEAVIEST, slow, True), (HEAVIEST, slow + 1, False), (light, speed, True), (light + 1, speed, False)):
                self.assertEqual(g.sheet(w, m, v).column <= g.size_column(w, v), said)
            # above the pair's speed it holds; test_every_speed has every speed
            self.assertEqual([holds(w, HEAVIEST, v) for v in (speed, speed + 1, 20_000)], [False, True, True])

    def test_how_near(self):
        """By every dimension."""
        rows = self.rows("## How near it comes")
        for (column, dimension, speed), row in zip(PAIRS, rows, strict=True):
            highs = {w: quick_highs(w, [RUNS[speed] - quick_saving(HEAVIEST)])[0] for w in range(50, dimension + 1)}
            ranges = [[(highs[w], w) for w in dimensions if w <= dimension] for dimensions in (
                range(50, 1_000), range(1_001, 8_000), range(8_001, 40_001))]
            largest = max(max(found)[0] for found in ranges if found)
            self.assertEqual(row[:-1], [
                str(column), f"{dimension:,} mm and {speed:,} cm/s", f"{g.AREA_LIMITS[column - 1]:,}",
                *("{:,} at {:,} mm".format(*max(found)) if found else "–" for found in ranges),
                f"{nearest(1_000 * largest, g.AREA_LIMITS[column - 1]) / 10:.1f} %"])
            self.assertEqual(row[-1], "; ".join(
                f"{highs[w]:,} at {w:,} mm" + (", above the limit" if (column, w) in ((1, 1_000), (3, 8_000)) else "")
                for w in LEFT_OUT if w <= dimension))

    def test_how_near_as_written(self):
        self.assertEqual(self.rows("## How near it comes")[0], [
            "1", "1,000 mm and 2,500 cm/s", "65,000", "51,141 at 999 mm", "–", "–", "78.7 %", "152,318 at 1,000 mm, above the limit"])
        head = self.lines[self.lines.index("## How near it comes") + 4]
        self.assertEqual(head, "| Size column | Pair | Limit of the column | Below 1,000 mm | From 1,001 to 7,999 mm | From 8,001 mm | "
                               "Largest, as part of the limit | Left out |")


if __name__ == "__main__":
    unittest.main()
