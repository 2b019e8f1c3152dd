"""The refusals' words, sheet, footprint, class table, mitigation word and the whole assessment."""

import random
import re
import unittest
from fractions import Fraction

import ground_risk as g
from flagged_aircraft import AT_LIMITS, FLAGGED

U32 = 2 ** 32 - 1
U64 = 2 ** 64 - 1

OFFERED_WORDS = [4096 * a + 256 * b + 16 * c + d
                 for a in (0, 1, 2) for b in (0, 2, 3) for c in (0, 1) for d in (0, 2, 3)]


def lines(w, m, v):
    """Lines 1 to 6, also where the sheet is refused for its area."""
    glide = g.glide_line()
    run = g.run_line(v)
    saving = g.saving_line(m)
    slide = g.slide_line(run, saving)
    t = g.t_line(w, glide, slide)
    return glide, run, saving, slide, t, g.area_line(w, glide, t)


def one_cell(place):
    marks = [0] * g.ROWS
    marks[place // g.COLUMNS] = 1 << (g.COLUMNS - 1 - place % g.COLUMNS)
    return marks


def some_counts(**people):
    counts = [0] * g.PLACES
    for name, count in people.items():
        counts[int(name[1:])] = count
    return counts


class RefusalsTest(unittest.TestCase):
    def test_numbers(self):
        self.assertEqual(list(g.REFUSALS), list(range(1, 22)))

    def test_numbers_in_their_words(self):
        numbers = {refusal: [int(part.replace(",", "")) for part in re.findall(r"\d[\d,]*", words)]
                   for refusal, words in g.REFUSALS.items()}
        self.assertEqual({refusal: found for refusal, found in numbers.items() if found}, {
            4: [650_000_000], 5: [4_096, 64], 7: [1_000_000], 9: [1, 5, 2, 7, 0, 1], 12: [7], 13: [33_959], 15: [43],
            16: [1, 3, 1_000, 40_000], 17: [1, 2, 3, 16, 1, 50_000, 1, 20_000], 20: [1, 5]})


class SheetTest(unittest.TestCase):
    def test_papers_cases(self):
        # P2 and P5 as document 02 item 6 has them worked again, by hand below
        table = (
            ("P1", (50, 50, 0), (18_367, 18_368), 1),
            ("P2", (1_000, 10_000, 2_500), (114_494, 114_495), 2),
            ("P3", (1_001, 10_000, 0), (36_766, 36_767), 1),
            ("P4", (3_000, 25_000, 3_500), (592_295, 592_296), 2),
            ("P5", (8_000, 50_000, 0), (801_663, 801_664), 3),
            ("P6", (8_001, 50_000, 0), (801_824, 801_825), 3),
        )
        for mark, aircraft, area, column in table:
            with self.subTest(mark):
                sheet = g.sheet(*aircraft)
                self.assertEqual((sheet.refusal, sheet.area, sheet.column, sheet.flag),
                                 (0, area, column, 0))
        self.assertEqual(g.sheet(49, 0, 0), g.refused_sheet(1))                     # P7
        self.assertEqual(g.sheet(100_000, 25_000_000, 40_000), g.refused_sheet(4))  # P8

    def test_lines_by_hand_small(self):
        # All six lines stand at 999 mm, though the area uses no slide. a is 1,599, 785 × a × a 2,007,088,785;
        # 2 × a × glide is 8,220,989,868 and 8,220,993,066. The sums / 200,000: 51,140.393 and 51,140.409.
        self.assertEqual(g.sheet(999, 10_000, 2_500), g.Sheet(
            0, (2_570_666, 2_570_667), (12_041_358, 12_041_359), (3_941_556, 3_941_557),
            (8_099_801, 8_099_803), (19_069_165_518, 19_069_170_315), (51_140, 51_141), 1, 0, 1))

    def test_lines_by_hand_p2(self):
        # Run: v × v is 6,250,000, so 12,041,358.956 and 12,041,358.963. Saving: 3,941,556.2 both times.
        # Slide: 12,041,358 - 3,941,557 and 12,041,359 - 3,941,556. a is 1,600, 785 × a × a 2,009,600,000;
        # a × (glide + slide) is 17,072,747,200 and 17,072,752,000. 3 × T / 500,000: 114,494.083 and 114,494.112.
        self.assertEqual(g.sheet(1_000, 10_000, 2_500), g.Sheet(
            0, (2_570_666, 2_570_667), (12_041_358, 12_041_359), (3_941_556, 3_941_557),
            (8_099_801, 8_099_803), (19_082_347_200, 19_082_352_000), (114_494, 114_495), 2, 0, 1))

    def test_lines_by_hand_p5(self):
        # At rest no run and no slide. Saving: 788,311.2 both times. a is 8,600, 785 × a × a 58,058,600,000;
        # a × glide is 22,107,727,600 and 22,107,736,200. T / 100,000: 801,663.276 and 801,663.362.
        self.assertEqual(g.sheet(8_000, 50_000, 0), g.Sheet(
            0, (2_570_666, 2_570_667), (0, 0), (788_311, 788_312), (0, 0),
            (80_166_327_600, 80_166_336_200), (801_663, 801_664), 3, 0, 3))

    def test_lines_by_hand_middle(self):
        self.assertEqual(g.sheet(3_000, 25_000, 3_500), g.Sheet(
            0, (2_570_666, 2_570_667), (23_601_063, 23_601_064), (1_576_622, 1_576_623),
            (22_024_440, 22_024_442), (98_715_981_600, 98_715_992_400),
            (592_295, 592_296), 2, 0, 2))

    def test_lines_by_hand_large(self):
        self.assertEqual(g.sheet(8_001, 50_000, 0), g.Sheet(
            0, (2_570_666, 2_570_667), (0, 0), (788_311, 788_312), (0, 0),
            (80_182_401_051, 80_182_409_652), (801_824, 801_825), 3, 0, 4))

    def test_lines_at_the_ends(self):
        self.assertEqual(g.run_line(0), (0, 0))
        self.assertEqual(g.run_line(1), (1, 2))
        self.assertEqual(g.run_line(40_000), (3_082_587_892, 3_082_587_895))
        self.assertEqual(g.saving_line(50), (788_311_247, 788_311_248))
        self.assertEqual(g.saving_line(25_000_000), (1_576, 1_577))
        # 869 × 45,357,379 is 39,415,562,351, and 144 × 273,719,183 is 39,415,562,352.
        self.assertEqual(g.saving_line(869), (45_357_379, 45_357_380))
        self.assertEqual(g.saving_line(144), (273_719_182, 273_719_183))
        # A saving between the two runs: slide low is zero, slide high is not.
        self.assertEqual(g.slide_line(g.Line(10, 12), g.Line(11, 12)), (0, 1))
        self.assertEqual(g.slide_line(g.Line(10, 12), g.Line(12, 13)), (0, 0))

    def test_small_areas_by_hand(self):
        # a is 1,200: 7,299,998,400 / 200,000 is 36,499.992, and with glide high 36,500.004.
        self.assertEqual(g.sheet(600, 50, 0).area, (36_499, 36_501))
        # a is 1,250: 38,266.1375 and 38,266.15; a is 1,300: 40,051.908 and 40,051.921.
        self.assertEqual(g.sheet(650, 50, 0).area, (38_266, 38_267))
        self.assertEqual(g.sheet(700, 50, 0).area, (40_051, 40_052))

    def test_edges(self):
        for aircraft, refusal in (
                ((49, 50, 0), 1), ((50, 50, 0), 0), ((100_000, 50, 0), 0),
                ((100_001, 50, 0), 1), ((0, 50, 0), 1), ((U32, 50, 0), 1),
                ((50, 49, 0), 2), ((50, 50, 0), 0), ((50, 25_000_000, 0), 0),
                ((50, 25_000_001, 0), 2), ((50, 0, 0), 2), ((50, U32, 0), 2),
                ((50, 50, 40_000), 0), ((50, 50, 40_001), 3), ((50, 50, U32), 3),
                # the order: 1 before 2 before 3 before 4
                ((49, 49, 40_001), 1), ((50, 49, 40_001), 2), ((100_000, 25_000_001, 40_000), 2),
                ((100_000, 25_000_000, 40_001), 3), ((100_000, 25_000_000, 40_000), 4)):
            with self.subTest(aircraft):
                sheet = g.sheet(*aircraft)
                self.assertEqual(sheet.refusal, refusal)
                if refusal:
                    self.assertEqual(sheet, g.refused_sheet(refusal))
                    self.assertTrue(all(part in (0, (0, 0)) for part in sheet[1:]))
                else:
                    self.assertIn(sheet.column, (1, 2, 3, 4, 5))

    def test_exact_area(self):
        # P1 by hand: D = 0.325; 2 × D × 1.8 / tan + half of 3.14 × D².
        by_hand = (2 * Fraction(325, 1000) * Fraction(18, 10) / Fraction(7002075382, 10 ** 10)
                   + Fraction(314, 100) * Fraction(325, 1000) ** 2 / 2)
        self.assertEqual(g.exact_area(50, 50, 0), 10_000 * by_hand)
        self.assertIsNone(g.exact_area(49, 50, 0))
        self.assertIsNone(g.exact_area(50, 0, 0))
        self.assertIsNone(g.exact_area(50, 50, 40_001))
        self.assertEqual(g.exact_column(100_000, 25_000_000, 40_000), 0)
        self.assertEqual(g.exact_column(49, 50, 0), 0)
        # Slide is zero where the aircraft is too slow for its mass.
        self.assertEqual(g.exact_slide(50, 0), 0)
        self.assertEqual(g.exact_slide(50, 20_000), 0)
        self.assertGreater(g.exact_slide(50, 21_000), 0)

    def test_slide_by_the_guideline(self):
        # Formulas (6) to (10) of 002, at masses whose non-lethal speed is whole.
        e, friction, gravity = Fraction("0.65"), Fraction("0.75"), Fraction("9.81")
        for m, non_lethal in ((1_450, 20), (5_800, 10), (23_200, 5), (145_000, 2), (580_000, 1)):
            for v in (0, 100, 500, 1_878, 1_879, 3_757, 3_758, 40_000):
                horizontal = Fraction(v, 100) * g.COS
                safe_time = (non_lethal - e * horizontal) / (-friction * gravity)
                slide = (e * horizontal * safe_time
                         - Fraction(1, 2) * friction * gravity * safe_time ** 2)
                self.assertEqual(g.exact_slide(m, v), slide if safe_time >= 0 else 0)

    def test_exact_area_at_the_cuts(self):
        # P2's mass and speed, in metres: 58 is 580 / 10, 2 × 0.75 × 9.81 is 14.715.
        glide = Fraction(18, 10) / Fraction("0.7002075382")
        slide = ((Fraction("0.65") * Fraction("0.8191520443") * 25) ** 2 - 58) / Fraction("14.715")
        for w, by_hand in (
                (999, 2 * Fraction("0.7995") * glide + Fraction("1.57") * Fraction("0.7995") ** 2),
                (1_000, Fraction("0.6") * (2 * Fraction("0.8") * (glide + slide) + Fraction("3.14") * Fraction("0.64"))),
                (7_999, Fraction("0.6") * (2 * Fraction("4.2995") * (glide + slide)
                                           + Fraction("3.14") * Fraction("4.2995") ** 2)),
                (8_000, 2 * Fraction("4.3") * (glide + slide) + Fraction("3.14") * Fraction("18.49"))):
            self.assertEqual(g.exact_area(w, 10_000, 2_500), 10_000 * by_hand, w)

    def test_column_limits(self):
        for column in (1, 2, 3, 4, 5):
            limit = g.AREA_LIMITS[column - 1]
            self.assertEqual(g.first_column(limit), column)
            self.assertEqual(g.first_column(limit + 1), (column + 1) % 6)
            self.assertEqual(g.first_column(limit + Fraction(1, 10 ** 30)), (column + 1) % 6)

    def test_flagged_table(self):
        kinds = set()
        for column, exact, w, m, v in FLAGGED:
            sheet = g.sheet(w, m, v)
            self.assertEqual((sheet.refusal, sheet.column, sheet.flag, g.exact_column(w, m, v)),
                             (0, column, 1, exact))
            kinds.add((column, column - exact, 1 if w < 1_000 else 2 if w < 8_000 else 3))
        self.assertEqual(kinds, {(2, 0, 2), (2, 1, 2), (3, 0, 2), (3, 1, 2),
                                 (4, 0, 2), (4, 1, 2), (4, 0, 3), (4, 1, 3),
                                 (5, 0, 2), (5, 1, 2), (5, 0, 3), (5, 1, 3)})
        # the first dimension of both ranges in all of its kinds
        for w, columns in ((1_000, (2, 3, 4)), (8_000, (4, 5))):
            self.assertEqual({(column, column - exact) for column, exact, dimension, *_ in FLAGGED if dimension == w},
                             {(column, lower) for column in columns for lower in (0, 1)})

    def test_no_other_kind_of_flag_exists(self):
        # Areas grow with the slide, and with the dimension within a formula range.
        self.assertEqual(g.sheet(999, 25_000_000, 40_000).column, 1)
        self.assertEqual(g.sheet(1_000, 25_000_000, 40_000).column, 4)
        self.assertGreater(g.sheet(8_000, 50, 0).area.low, g.AREA_LIMITS[1])

    def test_at_limits(self):
        for limit, kind, w, m, v in AT_LIMITS:
            area = lines(w, m, v)[5]
            sheet = g.sheet(w, m, v)
            column = g.AREA_LIMITS.index(limit) + 1
            after = (0, column + 1) if column < 5 else (4, 0)
            with self.subTest((limit, kind)):
                if kind == "high at":
                    self.assertEqual(area.high, limit)
                    self.assertEqual((sheet.refusal, sheet.column, sheet.flag), (0, column, 0))
                elif kind == "low at":
                    self.assertEqual(area.low, limit)
                    self.assertEqual((sheet.refusal, sheet.column), after)
                    self.assertEqual(sheet.flag, 1 if column < 5 else 0)
                elif kind == "low above":
                    self.assertEqual(area.low, limit + 1)
                    self.assertEqual((sheet.refusal, sheet.column), after)
                    self.assertEqual(sheet.flag, 0)
                else:
                    self.assertEqual(sheet, g.refused_sheet(4))
                    self.assertLessEqual(g.exact_area(w, m, v), limit)
                    self.assertGreater(g.exact_area(w, m, v), limit - 7)


class CutsTest(unittest.TestCase):
    """Document 02 item 6."""

    def test_formulas(self):
        # every dimension, in metres: "8 metres and above is the first case, below 1 metre is the third"
        for w in range(50, 100_001):
            metres = Fraction(w, 1000)
            self.assertEqual(g.area_formula(w), g.WHOLE if not metres < 8 else g.GLIDE_ONLY if metres < 1 else g.SIX_TENTHS)

    def test_areas_by_hand(self):
        # P2's mass and speed on both sides of both cuts. Glide and slide are 10,670,467 and 10,670,470.
        for w, area in (
                (999, (51_140, 51_141)),        # as above, without slide
                (1_000, (114_494, 114_495)),    # as above, six tenths
                # six tenths: a is 8,599, T 149,800,444,518 and 149,800,470,315; 3 × T / 500,000: 898,802.67 and .82
                (7_999, (898_802, 898_803)),
                # the whole: a is 8,600, T 149,824,616,200 and 149,824,642,000; T / 100,000: 1,498,246.16 and .42
                (8_000, (1_498_246, 1_498_247))):
            self.assertEqual(g.sheet(w, 10_000, 2_500).area, area)
            self.assertTrue(area[0] <= g.exact_area(w, 10_000, 2_500) <= area[1], w)

    def test_no_slide_below_1_metre(self):
        # speed and mass make no difference to the area, though they do to the slide
        for w in (50, 500, 998, 999):
            slow, fast = ((w, 50, 0), (w, 25_000_000, 40_000))
            self.assertEqual((g.sheet(*slow).area, g.exact_area(*slow)), (g.sheet(*fast).area, g.exact_area(*fast)))
            self.assertLess(g.sheet(*slow).slide, g.sheet(*fast).slide)
        # from 1,000 mm up they do, with one cm/s
        for w in (1_000, 7_999, 8_000):
            self.assertLess(g.sheet(w, 10_000, 2_499).area.high, g.sheet(w, 10_000, 2_500).area.low)
            self.assertLess(g.exact_area(w, 10_000, 2_499), g.exact_area(w, 10_000, 2_500))

    def test_six_tenths_below_8_metres(self):
        # 8,000 mm has five thirds of what 7,999 mm has, and hardly more
        for m, v in ((50, 0), (10_000, 2_500), (25_000_000, 40_000)):
            whole, tenths = g.exact_area(8_000, m, v), g.exact_area(7_999, m, v)
            self.assertLess(5 * tenths, 3 * whole)
            self.assertAlmostEqual(whole / tenths * 3 / 5, 1, places=3)
            # 1,001 mm has hardly more than 1,000 mm
            self.assertAlmostEqual(g.exact_area(1_001, m, v) / g.exact_area(1_000, m, v), 1, places=2)

    def test_the_area_does_not_always_grow_with_the_dimension(self):
        # At rest 999 mm has more: all of the glide, half of the circle. 1,000 mm: T is 1,600 × glide and 2,009,600,000,
        # 3 × T / 500,000 36,735.994 and 36,736.003.
        self.assertEqual([g.sheet(w, 10_000, 0).area for w in (999, 1_000)], [(51_140, 51_141), (36_735, 36_737)])
        # "compare P2 and P3"
        self.assertGreater(g.sheet(1_000, 10_000, 2_500).area.low, g.sheet(1_001, 10_000, 0).area.high)
        # with P2's slide it does grow there, and at 8 metres at every speed
        self.assertLess(g.sheet(999, 10_000, 2_500).area.high, g.sheet(1_000, 10_000, 2_500).area.low)
        for v in (0, 2_500, 40_000):
            self.assertLess(g.sheet(7_999, 10_000, v).area.high, g.sheet(8_000, 10_000, v).area.low)

    def test_columns_on_both_sides(self):
        for w, columns in (
                (999, (1, 1, 1, 1)), (1_000, (1, 2, 3, 4)), (7_999, (2, 3, 3, 5)), (8_000, (3, 3, 4, 5))):
            self.assertEqual(tuple(g.sheet(w, 10_000, v).column for v in (0, 2_500, 7_500, 40_000)), columns, w)


class SizeColumnTest(unittest.TestCase):
    """Document 02 item 1."""

    pairs = ((1_000, 2_500), (3_000, 3_500), (8_000, 7_500), (20_000, 12_000), (40_000, 20_000))

    def sheet_has(self, refusal, column, aircraft):
        sheet = g.sheet(*aircraft)
        self.assertEqual((sheet.refusal, sheet.size_column), (refusal, column), aircraft)

    def test_edges_of_the_pairs(self):
        # at a pair and within it; the dimension, the speed or both one more; 0 comes after the last
        for n, (w, v) in enumerate(self.pairs, 1):
            after = (n + 1) % 6
            for dimension, speed, column in (
                    (w, v, n), (w - 1, v, n), (w, v - 1, n), (w - 1, v - 1, n),
                    (w + 1, v, after), (w, v + 1, after), (w + 1, v + 1, after),
                    (w + 1, v - 1, after), (w - 1, v + 1, after)):
                # the lightest and the heaviest: the mass makes no difference
                for mass in g.MASS_RANGE:
                    self.sheet_has(0, column, (dimension, mass, speed))

    def test_one_number_alone(self):
        for w, v, column in (
                # the smallest dimension, by its speed alone
                (50, 2_500, 1), (50, 2_501, 2), (50, 3_501, 3), (50, 7_501, 4), (50, 12_001, 5), (50, 20_001, 0), (50, 40_000, 0),
                # no speed, by the dimension alone
                (1_000, 0, 1), (1_001, 0, 2), (3_001, 0, 3), (8_001, 0, 4), (20_001, 0, 5), (40_001, 0, 0), (100_000, 0, 0),
                # the dimension of one pair with the speed of another: the later one
                (1_000, 20_000, 5), (40_000, 2_500, 5), (3_000, 12_000, 4), (20_000, 3_500, 4), (8_000, 3_500, 3),
                (3_000, 7_500, 3)):
            self.sheet_has(0, column, (w, 50, v))

    def test_refused_sheets_have_none(self):
        # the first pair would be large enough; under 3 and 4 none ever is
        for refusal, aircraft in ((1, (49, 50, 0)), (1, (0, 50, 2_500)), (2, (50, 49, 0)), (2, (1_000, 25_000_001, 2_500))):
            self.assertEqual(g.size_column(aircraft[0], aircraft[2]), 1)
            self.sheet_has(refusal, 0, aircraft)

    def aircraft(self):
        """Dimensions and speeds: all about the pairs and at the ends of the ranges, and any."""
        dimensions = [50, 100_000, *(w + step for w, _ in self.pairs for step in (-1, 0, 1))]
        speeds = [0, 40_000, *(v + step for _, v in self.pairs for step in (-1, 0, 1))]
        source = random.Random(1)
        return ([(w, v) for w in dimensions for v in speeds]
                + [(source.randint(50, 45_000), source.randint(0, 22_000)) for _ in range(300)])

    def test_at_most_n_exactly_when_pair_n_is_large_enough(self):
        for w, v in self.aircraft():
            for n, (dimension, speed) in enumerate(self.pairs, 1):
                self.assertEqual(1 <= g.size_column(w, v) <= n, w <= dimension and v <= speed)

    def test_grows_with_dimension_and_speed(self):
        # none large enough counts as more than the last
        columns = {aircraft: g.size_column(*aircraft) or 6 for aircraft in self.aircraft()}
        self.assertEqual(set(columns.values()), {1, 2, 3, 4, 5, 6})
        for (w, v), column in columns.items():
            self.assertLessEqual(max(other for aircraft, other in columns.items() if aircraft[0] <= w and aircraft[1] <= v), column)


class FootprintTest(unittest.TestCase):
    def test_papers_cases(self):
        for mark, cell_area, people, row in (
                ("P9", 1_000_000, 4, 2), ("P9", 1_000_000, 5, 3),
                ("P10", 1_000_000, 49_999, 6), ("P10", 1_000_000, 50_000, 7),
                ("P11", 10_000, 1, 4), ("P11", 10_000, 8, 5)):
            with self.subTest((mark, people)):
                self.assertEqual(g.table_row(people, cell_area), row)
                self.assertEqual(g.footprint(some_counts(p70=people), one_cell(70), cell_area),
                                 (0, row, 70, people, 1))

    def test_row_boundaries(self):
        for row, density in ((2, 5), (3, 50), (4, 500), (5, 5_000), (6, 50_000)):
            for cell_area in (100, 10_000, 200_000, 1_000_000, 20_000_000):
                people = -(-density * cell_area // 1_000_000)
                self.assertGreaterEqual(g.table_row(people, cell_area), row + 1)
                self.assertLessEqual(g.table_row(people - 1, cell_area), row)
        self.assertEqual(g.table_row(0, 100), 2)
        self.assertEqual(g.table_row(1_000_000, 100), 7)
        self.assertEqual(g.table_row(1_000_000, 20_000_000), 7)
        self.assertEqual(g.table_row(1_000_000, 20_000_001), 6)

    def test_refusals(self):
        counts, marks = [0] * g.PLACES, one_cell(0)
        for number, wrong in (
                (5, (counts[:-1], marks, 100)), (5, (counts + [0], marks, 100)),
                (5, ([], marks, 100)), (5, (counts, marks[:-1], 100)),
                (5, (counts, marks + [0], 100)), (5, (counts, [], 100)),
                (6, (counts, marks, 99)), (6, (counts, marks, 25_000_001)),
                (6, (counts, marks, 0)), (6, (counts, marks, U32)),
                (7, (some_counts(p0=1_000_001), marks, 100)),
                (7, (some_counts(p1=1_000_001), marks, 100)),
                (7, (some_counts(p4095=U32), marks, 25_000_000)),
                (8, (counts, [0] * g.ROWS, 100)),
                # the order
                (5, ([U32], marks, 0)), (6, (some_counts(p0=U32), [0] * g.ROWS, 99)),
                (7, (some_counts(p4095=1_000_001), [0] * g.ROWS, 100))):
            self.assertEqual(g.footprint(*wrong), (number, 0, 0, 0, 0))
        self.assertEqual(g.footprint(counts, marks, 100), (0, 2, 0, 0, 1))
        self.assertEqual(g.footprint(counts, marks, 25_000_000), (0, 2, 0, 0, 1))
        self.assertEqual(g.footprint(some_counts(p0=1_000_000), marks, 25_000_000),
                         (0, 6, 0, 1_000_000, 1))

    def test_corners(self):
        for row, bits, place in ((0, 1 << 63, 0), (0, 1, 63), (63, 1 << 63, 4032), (63, 1, 4095)):
            marks = [0] * g.ROWS
            marks[row] = bits
            self.assertEqual(marks, one_cell(place))
            counts = list(range(g.PLACES))
            self.assertEqual(g.footprint(counts, marks, 25_000_000).place, place)
            self.assertEqual(g.footprint(counts, marks, 25_000_000).people, place)

    def test_ties_and_sums(self):
        every = [U64] * g.ROWS
        self.assertEqual(g.footprint([1_000_000] * g.PLACES, every, 25_000_000),
                         (0, 6, 0, 4_096_000_000, 4096))
        counts = some_counts(p5=9, p100=9, p101=8, p4095=9)
        self.assertEqual(g.footprint(counts, every, 1_000_000), (0, 3, 5, 35, 4096))
        not_5 = list(every)
        not_5[0] -= 1 << (63 - 5)
        self.assertEqual(g.footprint(counts, not_5, 1_000_000), (0, 3, 100, 26, 4095))
        # No people: the first marked cell has the largest count, zero.
        self.assertEqual(g.footprint([0] * g.PLACES, [0] * (g.ROWS - 1) + [6], 100), (0, 2, 4093, 0, 2))


class ClassTest(unittest.TestCase):
    def test_table(self):
        for column in (1, 2, 3, 4, 5):
            for row in (2, 3, 4, 5, 6):
                self.assertEqual(g.intrinsic_class(column, row, 0), (0, column + row - 1))
                self.assertEqual(g.intrinsic_class(column, row, 1), (0, (1, 1, 2, 3, 3)[column - 1]))
        self.assertEqual([g.intrinsic_class(column, 7, 0) for column in (1, 2, 3, 4, 5)],
                         [(0, 7), (0, 8), (10, 0), (10, 0), (10, 0)])
        # Controlled ground has an entry in every column.
        self.assertEqual([g.intrinsic_class(column, 7, 1) for column in (1, 2, 3, 4, 5)],
                         [(0, 1), (0, 1), (0, 2), (0, 3), (0, 3)])

    def test_refusal_9(self):
        for column in range(256):
            for row in range(256):
                for mark in (0, 1, 2, 255):
                    wrong = (not 1 <= column <= 5) or (not 2 <= row <= 7) or mark > 1
                    # "The answer is zero then."
                    self.assertEqual(g.intrinsic_class(column, row, mark) == (9, 0), wrong)
        for mark in range(2, 256):
            self.assertEqual(g.intrinsic_class(3, 7, mark), (9, 0))


class MitigationTest(unittest.TestCase):
    def test_papers_cases(self):
        self.assertEqual(g.final_class(3, 6, 0x2212), (0, 1))    # P12
        self.assertEqual(g.final_class(3, 6, 0x2313), (0, 0))    # P13
        self.assertEqual(g.final_class(1, 1, 0x0003), (0, -1))   # P14
        self.assertEqual(g.final_class(5, 9, 0x0000), (12, 0))   # P15

    def test_entries(self):
        entries = {1: {1, 2, 3, 4, 5, 6, 7}, 2: {1, 3, 4, 5, 6, 7, 8}, 3: {2, 4, 5, 6, 7, 8},
                   4: {3, 5, 6, 7, 8, 9}, 5: {3, 6, 7, 8, 9, 10}}
        for column in range(256):
            for cls in range(256):
                refusal = 11 if cls in entries.get(column, ()) else 9
                self.assertEqual(g.final_class(column, cls, 0xffff), (refusal, 0))

    def test_digits_of_a_word(self):
        for word, digits in ((0x1234, (1, 2, 3, 4)), (0xfedc, (15, 14, 13, 12)),
                             (0x0fff, (0, 15, 15, 15)), (0x00ff, (0, 0, 15, 15)), (0x000f, (0, 0, 0, 15))):
            self.assertEqual(g.word_digits(word), digits)

    def test_offered_digits(self):
        refused = [word for word in range(65_536) if g.final_class(3, 6, word) == (11, 0)]
        self.assertEqual(len(refused), 65_536 - 54)
        self.assertEqual(set(range(65_536)) - set(refused), set(OFFERED_WORDS))

    def test_credits(self):
        for word, final in ((0x0000, 7), (0x1000, 6), (0x2000, 5), (0x0200, 6), (0x0300, 5),
                            (0x0010, 6), (0x0002, 6), (0x0003, 5), (0x2300, 3), (0x2310, 2),
                            (0x2312, 1), (0x2313, 0), (0x1213, 2)):
            with self.subTest(word):
                self.assertEqual(g.final_class(1, 7, word), (0, final))

    def test_floor_and_last(self):
        self.assertEqual(g.final_class(4, 5, 0x2310), (0, 3))
        self.assertEqual(g.final_class(4, 5, 0x2312), (0, 2))
        self.assertEqual(g.final_class(4, 3, 0x2313), (0, 1))
        self.assertEqual(g.final_class(2, 1, 0x2313), (0, -1))
        self.assertEqual(min(g.final_class(column, cls, word)[1]
                             for column in (1, 2, 3, 4, 5) for cls in range(11)
                             for word in OFFERED_WORDS), -1)

    def test_above_seven(self):
        self.assertEqual(g.final_class(5, 10, 0x1010), (12, 0))
        self.assertEqual(g.final_class(5, 10, 0x2010), (0, 7))
        self.assertEqual(g.final_class(5, 10, 0x0003), (12, 0))
        self.assertEqual(g.final_class(5, 10, 0x1003), (0, 7))
        self.assertEqual(g.final_class(2, 8, 0x0000), (12, 0))
        self.assertEqual(g.final_class(2, 8, 0x0002), (0, 7))
        # 11 comes before 12.
        self.assertEqual(g.final_class(5, 10, 0x0001), (11, 0))


class AssessmentTest(unittest.TestCase):
    # columns 1 and 3
    small = (999, 10_000, 2_500)
    large = (8_001, 50_000, 0)

    def test_answer(self):
        # P16, with column 2 since document 02 item 6: row 5 of it is 6
        p2 = (1_000, 10_000, 2_500)
        answer = g.assessment(*p2, some_counts(p0=8), one_cell(0), 10_000, 0, 0x1000)
        self.assertEqual(answer, (0, g.sheet(*p2), (0, 5, 0, 8, 1), 5, 6, 5))
        answer = g.assessment(*self.small, some_counts(p0=8), one_cell(0), 10_000, 0, 0x1000)
        self.assertEqual(answer, (0, g.sheet(*self.small), (0, 5, 0, 8, 1), 5, 5, 4))
        answer = g.assessment(*self.small, some_counts(p0=8), one_cell(0), 10_000, 1, 0)
        self.assertEqual(answer, (0, g.sheet(*self.small), (0, 5, 0, 8, 1), 1, 1, 1))

    def test_the_class_comes_from_the_area(self):
        # one millimetre less than P5: column 2 by its area, size column 3
        aircraft = (7_999, 50_000, 0)
        self.assertEqual((g.sheet(*aircraft).column, g.sheet(*aircraft).size_column), (2, 3))
        houses = (some_counts(p0=8), one_cell(0), 10_000)
        for controlled, word, classes in (
                (0, 0x0000, (5, 6, 6)),     # row 5 of column 2 is 6, of column 3 it is 7
                (1, 0x0000, (1, 1, 1)),     # row 1: 1, not 2
                (0, 0x2310, (5, 6, 1))):    # five credits down to the floor 1, not 2
            self.assertEqual(g.assessment(*aircraft, *houses, controlled, word)[3:], classes)
        # P2 the other way round, column 2 and size column 1: row 5 of column 1 is 5
        aircraft = (1_000, 10_000, 2_500)
        self.assertEqual((g.sheet(*aircraft).column, g.sheet(*aircraft).size_column), (2, 1))
        self.assertEqual(g.assessment(*aircraft, *houses, 0, 0)[3:], (5, 6, 6))
        # no pair is large enough, and there is a class all the same: column 1 and 5 of row 5
        self.assertEqual(g.assessment(999, 10_000, 20_001, *houses, 0, 0)[3:], (5, 5, 5))
        self.assertEqual(g.assessment(100_000, 50, 0, *houses, 0, 0x2000)[3:], (5, 9, 7))

    def test_first_refusal(self):
        counts, marks = some_counts(p0=8), one_cell(0)
        crowd = some_counts(p0=1_000_000)
        for refusal, wrong in (
                (1, (49, 0, 99_999, [], [], 0, 2, 1)), (2, (50, 0, 99_999, [], [], 0, 2, 1)),
                (3, (50, 50, 99_999, [], [], 0, 2, 1)),
                (4, (100_000, 25_000_000, 40_000, [], [], 0, 2, 1)),
                (5, (*self.small, [], marks, 0, 2, 1)), (6, (*self.small, counts, marks, 0, 2, 1)),
                (7, (*self.small, [U32] * g.PLACES, [0] * g.ROWS, 100, 2, 1)),
                (8, (*self.small, counts, [0] * g.ROWS, 100, 2, 1)),
                (9, (*self.large, crowd, marks, 100, 2, 1)),
                (10, (*self.large, crowd, marks, 100, 0, 1)),
                (11, (*self.large, crowd, marks, 100, 1, 1)),
                (12, (*self.large, crowd, marks, 25_000_000, 0, 0))):
            with self.subTest(refusal):
                # "After a refusal every number is zero": sheet, footprint, row used, both classes
                self.assertEqual(g.assessment(*wrong), (
                    refusal, (0, *[(0, 0)] * 6, 0, 0, 0), (0, 0, 0, 0, 0), 0, 0, 0))

    def test_working(self):
        marks = one_cell(0)
        crowd = some_counts(p0=50_000)
        self.assertEqual(g.working(2, crowd, marks, 1_000_000, 0, 0), (12, 8, None))
        self.assertEqual(g.working(2, crowd, marks, 1_000_000, 0, 2), (0, 8, 7))
        self.assertEqual(g.working(3, crowd, marks, 1_000_000, 0, 2), (10, None, None))
        self.assertEqual(g.working(3, crowd, marks, 1_000_000, 1, 1), (11, 2, None))
        self.assertEqual(g.working(3, crowd, marks, 1_000_000, 2, 1), (9, None, None))
        self.assertEqual(g.working(3, crowd, [0] * g.ROWS, 1_000_000, 2, 1), (8, None, None))


if __name__ == "__main__":
    unittest.main()
