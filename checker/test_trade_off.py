"""Document 02 item 5: the greatest speed and the greatest mass for a column, by plain scans too, and the tables of docs/TRADE_OFFS.md."""

import math
import random
import unittest
from bisect import bisect_left
from collections import Counter
from functools import cache
from itertools import islice, product
from pathlib import Path

import ground_risk as g
import trade_off_aircraft
import trade_off_tables
from trade_off_aircraft import FASTEST, LARGEST, LAST, LAST_WITHOUT_SLIDE, NEXT, NO_SLIDE, SLOWEST

ROOT = Path(__file__).resolve().parent.parent
U32 = 2 ** 32 - 1
SEED = 7
COLUMNS = (1, 2, 3, 4, 5)
HEAVIEST, FASTEST_OF_ALL = 25_000_000, 40_000


# The high area again in whole numbers, from the run of every speed and the low saving. Which formula a dimension takes is left to the
# checker, and so are the limits.

RUNS = [-(-v * v * 1_926_617_434 // 10 ** 9) for v in range(40_001)]


def quick_saving(m):
    return 39_415_562_351 // m


def quick_highs(w, slides):
    """The high area of each of these high slides, negative ones too."""
    a, formula = w + 600, g.area_formula(w)
    flat = 785 * a * a + 2_570_667 * a
    if formula == g.GLIDE_ONLY:
        return [-(-(785 * a * a + 2 * 2_570_667 * a) // 200_000)] * len(slides)
    if formula == g.SIX_TENTHS:
        return [-(-3 * (flat + a * max(0, slide)) // 500_000) for slide in slides]
    return [-(-(flat + a * max(0, slide)) // 100_000) for slide in slides]


def quick_columns(w, slides):
    """The column of each of these high slides, 6 for refusal 4."""
    return [bisect_left(g.AREA_LIMITS, high) + 1 for high in quick_highs(w, slides)]


# The answers solved from the limit, without a search: the greatest slide that the column takes, from it the greatest run or the least
# saving, from that the number.

def greatest_slide(w, column):
    """Below zero where nothing passes; None where every slide passes."""
    a, limit, formula = w + 600, g.AREA_LIMITS[column - 1], g.area_formula(w)
    if formula == g.GLIDE_ONLY:
        return None if 785 * a * a + 2 * 2_570_667 * a <= 200_000 * limit else -1
    t = 500_000 * limit // 3 if formula == g.SIX_TENTHS else 100_000 * limit
    return (t - 785 * a * a) // a - 2_570_667


def solved_speed(w, m, column):
    slide = greatest_slide(w, column)
    if slide is None:
        return 0, FASTEST_OF_ALL
    if slide < 0:
        return 21, 0
    return 0, min(FASTEST_OF_ALL, math.isqrt((slide + quick_saving(m)) * 10 ** 9 // 1_926_617_434))


def solved_mass(w, v, column):
    slide = greatest_slide(w, column)
    if slide is None or slide >= RUNS[v]:
        return 0, HEAVIEST
    mass = 39_415_562_351 // (RUNS[v] - slide) if slide >= 0 else 0
    return (0, min(HEAVIEST, mass)) if mass >= 50 else (21, 0)


# Every mass by its low saving, the masses of one saving together.

def last_masses():
    """The last mass of each low saving, in order."""
    last = []
    m = 50
    while m <= HEAVIEST:
        last.append(min(HEAVIEST, 39_415_562_351 // (39_415_562_351 // m)))
        m = last[-1] + 1
    return last


LAST_MASSES = last_masses()
SAVINGS = [quick_saving(m) for m in LAST_MASSES]


def scanned(columns, numbers):
    """For each wanted column the last of these numbers that has it or a lower one, and 21 where none has."""
    last = {column: number for number, column in zip(numbers, columns)}
    found = []
    for wanted in COLUMNS:
        number = max((number for column, number in last.items() if column <= wanted), default=None)
        found.append((21, 0) if number is None else (0, number))
    return found


def speeds(w, m):
    return [g.greatest_speed(w, m, column) for column in COLUMNS]


def masses(w, v):
    return [g.greatest_mass(w, v, column) for column in COLUMNS]


def accepted(w, m, v, column):
    """What the paper asks of a number: "the sheet is accepted with a column no higher"."""
    sheet = g.sheet(w, m, v)
    return sheet.refusal == 0 and sheet.column <= column


# The sheet's lines, also where it is refused for its area.

def slide_line(m, v):
    return g.slide_line(g.run_line(v), g.saving_line(m))


def t_line(w, m, v):
    return g.t_line(w, g.glide_line(), slide_line(m, v))


def area_line(w, m, v):
    return g.area_line(w, g.glide_line(), t_line(w, m, v))


def high_slide(m, v):
    return slide_line(m, v).high


def high_t(w, m, v):
    return t_line(w, m, v).high


def high_area(w, m, v):
    return area_line(w, m, v).high


def area_of(w, t):
    """The high area of this T, in thousandths of a square millimetre."""
    return g.area_line(w, g.glide_line(), g.Line(t, t)).high


def drawn(kinds):
    """Without end, of every kind in turn."""
    source = random.Random(SEED)
    while True:
        yield from (kind(source) for kind in kinds)


@cache
def all_draws():
    """Drawn once, when first asked for: who imports this file for its whole-number forms needs none."""
    return list(islice(drawn(trade_off_aircraft.DRAWS), 3_000))


def draws(number):
    assert number <= len(all_draws())
    return all_draws()[:number]


class RefusalsTest(unittest.TestCase):
    def test_edges_of_the_greatest_speed(self):
        all_speeds = (0, 40_000)
        for given, answer in (
                ((0, 50, 1), (1, 0)), ((49, 50, 1), (1, 0)), ((50, 50, 1), all_speeds), ((100_000, 50, 5), (0, 26_499)),
                ((100_001, 50, 5), (1, 0)), ((U32, 50, 5), (1, 0)),
                ((50, 0, 1), (2, 0)), ((50, 49, 1), (2, 0)), ((50, 25_000_000, 1), all_speeds), ((50, 25_000_001, 1), (2, 0)),
                ((50, U32, 1), (2, 0)),
                ((50, 50, 0), (20, 0)), ((50, 50, 2), all_speeds), ((50, 50, 3), all_speeds), ((50, 50, 4), all_speeds),
                ((50, 50, 5), all_speeds), ((50, 50, 6), (20, 0)), ((50, 50, 255), (20, 0)),
                ((100_000, 50, 0), (20, 0)), ((100_000, 50, 1), (21, 0)), ((100_000, 50, 4), (21, 0)), ((100_000, 50, 6), (20, 0))):
            with self.subTest(given):
                self.assertEqual(g.greatest_speed(*given), answer)

    def test_edges_of_the_greatest_mass(self):
        all_masses = (0, 25_000_000)
        for given, answer in (
                ((0, 0, 1), (1, 0)), ((49, 0, 1), (1, 0)), ((50, 0, 1), all_masses), ((100_000, 0, 5), all_masses),
                ((100_001, 0, 5), (1, 0)), ((U32, 0, 5), (1, 0)),
                ((50, 40_000, 1), all_masses), ((50, 40_001, 1), (3, 0)), ((50, U32, 1), (3, 0)),
                ((50, 0, 0), (20, 0)), ((50, 0, 2), all_masses), ((50, 0, 3), all_masses), ((50, 0, 4), all_masses),
                ((50, 0, 5), all_masses), ((50, 0, 6), (20, 0)), ((50, 0, 255), (20, 0)),
                ((100_000, 0, 0), (20, 0)), ((100_000, 0, 1), (21, 0)), ((100_000, 0, 4), (21, 0)), ((100_000, 0, 6), (20, 0))):
            with self.subTest(given):
                self.assertEqual(g.greatest_mass(*given), answer)

    def order(self, operation, second, numbers, aircraft):
        """Each set of refusals that can hold together: the first is given, and the number is zero. The aircraft is that of dimension
        and number with the least number of those that are asked for: where it doesn't pass, none does."""
        dimensions = {(): (50, 999, 1_000, 88_774, 100_000), (1,): (0, 49, 100_001, U32)}
        columns = {(): COLUMNS, (20,): (0, 6, 255)}
        seen = set()
        for (first, w), (given, number), (third, column) in product(*(
                [(holds, value) for holds, values in kinds.items() for value in values] for kinds in (dimensions, numbers, columns))):
            holds = first + given + third + (() if accepted(*aircraft(w, number), column) else (21,))
            answer = operation(w, number, column)
            self.assertEqual(answer.refusal, holds[0] if holds else 0, (w, number, column))
            if holds:
                self.assertEqual(answer, (holds[0], 0))
            else:
                self.assertGreater(answer[1], 0)
            seen.add(holds)
        # no sheet is in column 0, and nearly all are in a column up to 6; where the sheet is refused no number passes
        self.assertEqual(seen, {(), (21,), (20,), (20, 21), (1, 21), (1, 20, 21), (second, 21), (second, 20, 21), (1, second, 21),
                                (1, second, 20, 21)})

    def test_every_order_of_the_greatest_speed(self):
        self.order(g.greatest_speed, 2, {(): (50, 25_000_000), (2,): (0, 49, 25_000_001, U32)}, lambda w, m: (w, m, 0))

    def test_every_order_of_the_greatest_mass(self):
        self.order(g.greatest_mass, 3, {(): (0, 2_500), (3,): (40_001, U32)}, lambda w, v: (w, 50, v))

    def test_the_number_that_is_asked_for_is_never_refused(self):
        for w, number, column in product((49, 50, 100_000, 100_001), (0, 49, 50, 40_000, 40_001, 25_000_000, U32), (0, 1, 5, 6)):
            self.assertNotIn(g.greatest_speed(w, number, column).refusal, (3, 4))
            self.assertNotIn(g.greatest_mass(w, number, column).refusal, (2, 4))


class NamedEdgesTest(unittest.TestCase):
    def test_only_50_grams_pass(self):
        # At 1,000 mm a is 1,600: 3 × T is at most 32,500,000,000, T at most 10,833,333,333. 785 × a × a is 2,009,600,000. What is left
        # for each of a is 5,514,833, less the glide 2,944,166. At 20,262 cm/s the run is 790,970,175.04, up: 790,970,176. So the saving
        # must be 788,026,010: that of 50 g is 788,311,247, that of 51 g 772,854,163.
        self.assertEqual((g.run_line(20_262).high, g.saving_line(50).low, g.saving_line(51).low), (790_970_176, 788_311_247, 772_854_163))
        self.assertEqual(g.greatest_mass(1_000, 20_262, 1), (0, 50))
        self.assertEqual(g.greatest_speed(1_000, 51, 1), (0, 20_066))
        # The run may be 788,311,247 + 2,944,166 = 791,255,413: at 20,265 it's 791,204,416, at 20,266 791,282,503.
        self.assertEqual([g.greatest_mass(1_000, v, 1) for v in (20_263, 20_264, 20_265, 20_266, 20_267, 40_000)],
                         [(0, 50)] * 3 + [(21, 0)] * 3)
        self.assertEqual(g.greatest_speed(1_000, 50, 1), (0, 20_265))
        self.assertEqual([high_area(1_000, 50, v) for v in (20_262, 20_265, 20_266)], [62_262, 64_511, 65_261])

    def test_50_grams_alone_or_none(self):
        for column, w, v in FASTEST:
            self.assertEqual((g.greatest_speed(w, 50, column), g.greatest_mass(w, v, column), g.greatest_mass(w, v + 1, column)),
                             ((0, v), (0, 50), (21, 0)))
            self.assertEqual([accepted(w, *aircraft, column) for aircraft in ((50, v), (51, v), (50, v + 1))], [True, False, False])
        self.assertEqual({column for column, *_ in FASTEST}, set(COLUMNS))

    def test_refusal_4_does_not_pass(self):
        # At 100,000 mm a is 100,600: T is at most 65,000,000,000,000, less 785 × a × a, which is 7,944,482,600,000, for each of a
        # 567,152,260. The slide is at most 564,581,593, the run of 25,000,000 g 1,576 more: its square is at most 293,043,735.1.
        self.assertEqual(17_118 ** 2, 293_025_924)
        self.assertEqual(17_119 ** 2, 293_060_161)
        self.assertEqual(g.greatest_speed(100_000, 25_000_000, 5), (0, 17_118))
        self.assertEqual([g.sheet(100_000, 25_000_000, v).refusal for v in (17_118, 17_119, 40_000)], [0, 4, 4])
        self.assertEqual(g.sheet(100_000, 25_000_000, 17_118).area.high, 649_965_479)
        # At 20,000 cm/s the run is 770,646,974, so the saving at least 206,065,381: 206,364,200 of 191 g, 205,289,387 of 192 g.
        self.assertEqual(g.greatest_mass(100_000, 20_000, 5), (0, 191))
        self.assertEqual([g.sheet(100_000, m, 20_000).refusal for m in (191, 192, 25_000_000)], [0, 4, 4])
        # in column 5 refusal 4 alone keeps a number out
        for w, m, v, _ in draws(200):
            self.assertEqual(accepted(w, m, v, 5), g.sheet(w, m, v).refusal == 0)
            speed = g.greatest_speed(w, m, 5).speed
            self.assertEqual(g.sheet(w, m, speed + 1).refusal, 4 if speed < 40_000 else 3)

    def test_every_speed_passes(self):
        for w, m, column in ((1_000, 25_000_000, 4), (2_000, 50, 4), (7_999, 25_000_000, 5), (8_000, 25_000_000, 5), (20_357, 1_891_341, 5),
                             (20_361, 64_001, 5)):
            self.assertEqual(g.greatest_speed(w, m, column), (0, 40_000))
            self.assertEqual(g.sheet(w, m, 40_000).refusal, 0)
            # the range ends it, not the sheet
            self.assertEqual(g.sheet(w, m, 40_001), g.refused_sheet(3))

    def test_every_mass_passes(self):
        for w, v, column in ((1_000, 1_236, 1), (1_822, 36, 1), (7_999, 1_304, 2), (8_000, 5_864, 3), (26_584, 36, 3), (88_773, 32, 4),
                             (100_000, 17_118, 5)):
            self.assertEqual(g.greatest_mass(w, v, column), (0, 25_000_000))
            self.assertLess(g.greatest_mass(w, v + 1, column).mass, 25_000_000)
            self.assertEqual(g.sheet(w, 25_000_001, v), g.refused_sheet(2))

    def test_no_slide_below_the_cut(self):
        for w in (50, 51, 500, 999):
            for column in COLUMNS:
                self.assertEqual({g.greatest_speed(w, m, column) for m in (50, 1_000, 25_000_000)}, {(0, 40_000)})
                self.assertEqual({g.greatest_mass(w, v, column) for v in (0, 2_500, 40_000)}, {(0, 25_000_000)})
        # at the cut itself the slide counts: column 4 is the first that takes them all
        self.assertEqual([g.greatest_speed(1_000, 25_000_000, column) for column in COLUMNS],
                         [(0, 1_236), (0, 5_758), (0, 18_693), (0, 40_000), (0, 40_000)])
        self.assertEqual([g.greatest_mass(1_000, 40_000, column) for column in COLUMNS],
                         [(21, 0), (21, 0), (21, 0), (0, 25_000_000), (0, 25_000_000)])

    def test_not_even_at_rest(self):
        # a is 2,422: 6,226,155,474 + 4,604,875,940 are 10,831,031,414, and 3 × that / 500,000 is 64,986.2;
        # a is 2,423: 6,228,726,141 + 4,608,679,265 are 10,837,405,406, and 3 × that / 500,000 is 65,024.4.
        self.assertEqual([high_area(w, 50, 0) for w in (1_822, 1_823)], [64_987, 65_025])
        for column, w in LARGEST.items():
            for number in (50, 2_000, 25_000_000):
                self.assertEqual((g.greatest_speed(w, number, column).refusal, g.greatest_speed(w + 1, number, column)), (0, (21, 0)))
            self.assertEqual(g.greatest_mass(w, 0, column), (0, 25_000_000))
            for v in (0, 1, 2_500, 40_000):
                self.assertEqual(g.greatest_mass(w + 1, v, column), (21, 0))
        self.assertEqual(list(LARGEST), [1, 2, 3, 4])
        self.assertEqual(g.greatest_speed(100_000, 25_000_000, 4), (21, 0))

    def test_the_largest_dimensions(self):
        for w in range(50, 100_001):
            column = bisect_left(g.AREA_LIMITS, quick_highs(w, [0])[0]) + 1
            for lower in range(1, column):
                self.assertGreater(w, LARGEST[lower])
            self.assertTrue(column == 5 or w <= LARGEST[column])

    def test_speed_0_never_passes_alone(self):
        column, w, m, v = SLOWEST
        self.assertEqual(g.greatest_speed(w, m, column), (0, v))
        # A heavier one is never faster, so the heaviest of each dimension are enough.
        answers = [(solved_speed(dimension, HEAVIEST, wanted), wanted, dimension)
                   for dimension, wanted in product(range(50, 100_001), COLUMNS)]
        least = min(row for row in answers if row[0] != (21, 0))
        self.assertEqual(least, ((0, v), column, w))
        self.assertEqual(sum(answer == (0, v) for answer, *_ in answers), 1)
        # at 28 cm/s and slower no slide is left, whatever the mass
        self.assertEqual([high_slide(HEAVIEST, v) for v in (28, 29)], [0, 45])


class ByHandTest(unittest.TestCase):
    def test_3_metres_in_column_2(self):
        # a is 3,600, 785 × a × a 10,173,600,000. 3 × T is at most 325,000,000,000, T 108,333,333,333; glide and slide for each of a
        # 27,266,592.6, so the slide at most 24,695,925. The saving of 25,000 g is 1,576,622: run at most 26,272,547.
        # 3,692²: 13,630,864, run 26,261,461; 3,693²: 13,638,249, run 26,275,689.
        self.assertEqual(g.greatest_speed(3_000, 25_000, 2), (0, 3_692))
        self.assertEqual([(high_t(3_000, 25_000, v), high_area(3_000, 25_000, v)) for v in (3_692, 3_693)],
                         [(108_293_421_600, 649_761), (108_344_642_400, 650_068)])
        # 3,800²: 14,440,000, run 27,820,356, so the saving at least 3,124,431; 39,415,562,351 / 3,124,431 is 12,615.3.
        self.assertEqual(g.greatest_mass(3_000, 3_800, 2), (0, 12_615))
        self.assertEqual([(high_t(3_000, m, 3_800), high_area(3_000, m, 3_800)) for m in (12_615, 12_616)],
                         [(108_333_086_400, 649_999), (108_333_979_200, 650_004)])

    def test_1_metre(self):
        # P2's dimension, mass and speed. a is 1,600, 785 × a × a 2,009,600,000. Column 1: T is at most 10,833,333,333, the slide
        # 2,944,166. The saving is 3,941,556: run at most 6,885,722. 1,890²: 3,572,100, run 6,882,071; 1,891²: 3,575,881, run 6,889,355.
        self.assertEqual(g.greatest_speed(1_000, 10_000, 1), (0, 1_890))
        self.assertEqual([(high_t(1_000, 10_000, v), high_area(1_000, 10_000, v)) for v in (1_890, 1_891)],
                         [(10_827_491_200, 64_965), (10_839_145_600, 65_035)])
        # The run is 12,041,359, so the saving at least 9,097,193; 39,415,562,351 / 9,097,193 is 4,332.7.
        self.assertEqual(g.greatest_mass(1_000, 2_500, 1), (0, 4_332))
        self.assertEqual([high_area(1_000, m, 2_500) for m in (4_332, 4_333)], [64_986, 65_006])
        # Column 2: T is at most 108,333,333,333, the slide 63,881,666, the run 67,823,222. 5,933²: 35,200,489, run 67,817,876;
        # 5,934²: 35,212,356, run 67,840,739.
        self.assertEqual(g.greatest_speed(1_000, 10_000, 2), (0, 5_933))
        self.assertEqual([high_area(1_000, 10_000, v) for v in (5_933, 5_934)], [649_949, 650_169])
        # and 12,041,359 is less than the slide: every mass
        self.assertEqual(g.greatest_mass(1_000, 2_500, 2), (0, 25_000_000))

    def test_1_500_millimetres_in_column_1(self):
        # a is 2,100, 785 × a × a 3,461,850,000; T is at most 10,833,333,333, the slide 939,563. The saving of 10,000 g is 3,941,556:
        # run at most 4,881,119. 1,591²: 2,531,281, run 4,876,811; 1,592²: 2,534,464, run 4,882,943.
        self.assertEqual(g.greatest_speed(1_500, 10_000, 1), (0, 1_591))
        self.assertEqual([high_area(1_500, 10_000, v) for v in (1_591, 1_592)], [64_946, 65_023])
        # 1,500²: 2,250,000, run 4,334,890, saving at least 3,395,327; 39,415,562,351 / 3,395,327 is 11,608.8.
        self.assertEqual(g.greatest_mass(1_500, 1_500, 1), (0, 11_608))
        self.assertEqual([high_area(1_500, m, 1_500) for m in (11_608, 11_609)], [64_998, 65_001])

    def test_20_metres_in_column_4(self):
        # a is 20,600, 785 × a × a 333,122,600,000; T is at most 6,500,000,000,000, the slide 296,792,313. The saving of 1,000,000 g is
        # 39,415: run at most 296,831,728. 12,412²: 154,057,744, run 296,810,336; 12,413²: 154,082,569, run 296,858,164.
        self.assertEqual(g.greatest_speed(20_000, 1_000_000, 4), (0, 12_412))
        self.assertEqual([(high_t(20_000, 1_000_000, v), high_area(20_000, 1_000_000, v)) for v in (12_412, 12_413)],
                         [(6_499_559_312_800, 64_995_594), (6_500_544_569_600, 65_005_446)])
        # 12,500²: 156,250,000, run 301,033,975, saving at least 4,241,662; 39,415,562,351 / 4,241,662 is 9,292.5.
        self.assertEqual(g.greatest_mass(20_000, 12_500, 4), (0, 9_292))
        self.assertEqual([high_area(20_000, m, 12_500) for m in (9_292, 9_293)], [64_999_955, 65_000_049])
        # at 12,000 cm/s the run is 277,432,911, less than the slide: every mass
        self.assertEqual(g.greatest_mass(20_000, 12_000, 4), (0, 25_000_000))

    def test_on_both_sides_of_a_cut(self):
        # 7,999 mm: a is 8,599, T at most 1,083,333,333,333, the slide 116,662,759. 8,000 mm: a is 8,600, T at most 650,000,000,000, the
        # slide 66,259,728. The saving is 788,311, the run at most 117,451,070 and 67,048,039; 7,807²: 60,949,249, run 117,425,886;
        # 7,808²: 60,964,864, run 117,455,970; 5,899²: 34,798,201, run 67,042,821; 5,900²: 34,810,000, run 67,065,553.
        self.assertEqual([g.greatest_speed(w, 50_000, 3) for w in (7_999, 8_000)], [(0, 7_807), (0, 5_899)])
        self.assertEqual([high_area(8_000, 50_000, v) for v in (5_899, 5_900)], [6_499_552, 6_501_507])
        # 7,500²: 56,250,000, run 108,372,231: at 7,999 mm every mass. At 8,000 mm the saving is at least 42,112,503;
        # 39,415,562,351 / 42,112,503 is 935.96.
        self.assertEqual([g.greatest_mass(w, 7_500, 3) for w in (7_999, 8_000)], [(0, 25_000_000), (0, 935)])
        self.assertEqual([high_area(8_000, m, 7_500) for m in (935, 936)], [6_496_287, 6_500_160])
        # At 1,000 mm the run of 25,000 g is at most 2,944,166 + 1,576,622 = 4,520,788; 1,531²: 2,343,961, run 4,515,917; 1,532²:
        # 2,347,024, run 4,521,818. Below there is no slide.
        self.assertEqual([g.greatest_speed(w, 25_000, 1) for w in (999, 1_000)], [(0, 40_000), (0, 1_531)])

    def test_the_papers_sheets(self):
        # P2, P4 and P5 are in their columns, and their own speed and mass pass there
        for (w, m, v), column in (((1_000, 10_000, 2_500), 2), ((3_000, 25_000, 3_500), 2), ((8_000, 50_000, 0), 3)):
            self.assertGreaterEqual(g.greatest_speed(w, m, column).speed, v)
            self.assertGreaterEqual(g.greatest_mass(w, v, column).mass, m)
        # P5 and P6 aren't in column 2
        for w in (8_000, 8_001):
            self.assertEqual(g.greatest_speed(w, 50_000, 2), (21, 0))
            self.assertEqual(g.greatest_mass(w, 0, 2), (21, 0))


class GreatestTest(unittest.TestCase):
    def test_every_small_range(self):
        """The search by halving, of every range of up to 70 numbers and every number at which passing ends."""
        for length, lowest in product((*range(1, 40), 63, 64, 65, 70), (0, 50)):
            limits = (lowest, lowest + length - 1)
            for last in range(lowest - 1, lowest + length):
                found = g.greatest(limits, lambda number, last=last: number <= last)
                self.assertEqual(found, last if last >= lowest else None, (limits, last))

    def test_no_number_outside_the_range_is_asked_about(self):
        for limits in ((0, 40_000), (50, 25_000_000)):
            for last in (limits[0] - 1, limits[0], 20_000, limits[1] - 1, limits[1]):
                asked = []
                g.greatest(limits, lambda number, last=last, asked=asked: asked.append(number) or number <= last)
                self.assertTrue(all(g.within(number, limits) for number in asked))
                self.assertLessEqual(len(asked), 25)


class QuickTest(unittest.TestCase):
    """The whole-number forms against the sheet, and against each other."""

    def test_the_high_area(self):
        for w, m, v, _ in draws(3_000):
            slide = RUNS[v] - quick_saving(m)
            self.assertEqual(quick_highs(w, [slide]), [high_area(w, m, v)], (w, m, v))
            sheet = g.sheet(w, m, v)
            self.assertEqual(quick_columns(w, [slide]), [sheet.column if sheet.refusal == 0 else 6])

    def test_every_run(self):
        for v in range(40_001):
            self.assertEqual(RUNS[v], g.run_line(v).high)

    def test_every_mass_has_its_saving(self):
        self.assertEqual((LAST_MASSES[0], LAST_MASSES[-1]), (50, 25_000_000))
        self.assertEqual(LAST_MASSES, sorted(set(LAST_MASSES)))
        # the last of one saving and the first of the next have different ones, the first and the last of one the same
        for before, last, saving in islice(zip(LAST_MASSES, LAST_MASSES[1:], SAVINGS[1:]), 0, None, 50):
            self.assertEqual((g.saving_line(before + 1).low, g.saving_line(last).low), (saving, saving))
            self.assertGreater(g.saving_line(before).low, saving)
        for last in LAST_MASSES[-300:]:
            self.assertEqual(g.saving_line(last).low, quick_saving(last))

    def test_the_solved_answers(self):
        for w, m, v, column in draws(2_000):
            self.assertEqual(g.greatest_speed(w, m, column), solved_speed(w, m, column), (w, m, column))
            self.assertEqual(g.greatest_mass(w, v, column), solved_mass(w, v, column), (w, v, column))


# At the formulas' cuts, at the largest dimension of each column, at the ends of the range, and between them.
DIMENSIONS = (50, 998, 999, 1_000, 1_001, 1_500, 1_821, 1_822, 1_823, 3_000, 7_998, 7_999, 8_000, 8_001, 20_000, 20_357, 26_584, 26_585,
              40_000, 88_773, 88_774, 100_000)


class ScanTest(unittest.TestCase):
    def test_all_speeds_by_the_sheet(self):
        """Every speed from 0 to 40,000, one after the other, by nothing but the sheet."""
        for w, m in ((1_000, 50), (8_000, 50_000)):
            columns = [sheet.column if sheet.refusal == 0 else 6 for sheet in (g.sheet(w, m, v) for v in range(40_001))]
            self.assertEqual(speeds(w, m), scanned(columns, range(40_001)), (w, m))

    def test_all_speeds(self):
        aircraft = {(w, m) for w in DIMENSIONS for m in (50, 25_000, 25_000_000)}
        aircraft |= {(w, m) for _, _, w, m, _ in LAST}
        aircraft |= {(w, m) for w, m, *_ in draws(28)}
        for w, m in sorted(aircraft):
            saving = quick_saving(m)
            columns = quick_columns(w, [run - saving for run in RUNS])
            # so no speed passes after one that doesn't
            self.assertEqual(columns, sorted(columns))
            self.assertEqual(speeds(w, m), scanned(columns, range(40_001)), (w, m))

    def test_all_masses(self):
        """Every mass from 50 to 25,000,000 g, those of one saving together."""
        for w, v in ((999, 40_000), (1_000, 20_265), (1_283, 941), (2_011, 6_533), (7_999, 20_269), (8_000, 5_899), (22_204, 2_042),
                     (20_357, 40_000), (88_773, 32)):
            run = RUNS[v]
            columns = quick_columns(w, [run - saving for saving in SAVINGS])
            self.assertEqual(columns, sorted(columns))
            self.assertEqual(masses(w, v), scanned(columns, LAST_MASSES), (w, v))

    def test_masses_by_the_sheet(self):
        """All masses within 120 g of an answer, one after the other, by nothing but the sheet."""
        seen = 0
        for w, _, v, column in draws(150):
            refusal, mass = g.greatest_mass(w, v, column)
            if refusal == 0:
                window = range(max(50, mass - 120), min(25_000_000, mass + 120) + 1)
                self.assertEqual([accepted(w, m, v, column) for m in window], [m <= mass for m in window])
                seen += 1
            else:
                self.assertFalse(any(accepted(w, m, v, column) for m in range(50, 170)))
        self.assertGreater(seen, 100)


class LawsTest(unittest.TestCase):
    def test_it_passes_and_the_next_number_does_not(self):
        kinds = Counter()
        for w, m, v, column in draws(1_500):
            refusal, speed = g.greatest_speed(w, m, column)
            kinds["speed", refusal, speed == 40_000] += 1
            if refusal == 0:
                self.assertTrue(accepted(w, m, speed, column))
                # the answer put into the sheet
                self.assertIn(g.sheet(w, m, speed).column, range(1, column + 1))
            # of an answer the next number, of 21 the least
            self.assertFalse(accepted(w, m, speed + 1 if refusal == 0 else 0, column))
            refusal, mass = g.greatest_mass(w, v, column)
            kinds["mass", refusal, mass == 25_000_000] += 1
            if refusal == 0:
                self.assertTrue(accepted(w, mass, v, column))
                self.assertIn(g.sheet(w, mass, v).column, range(1, column + 1))
            self.assertFalse(accepted(w, mass + 1 if refusal == 0 else 50, v, column))
        self.assertEqual(len(kinds), 6)
        self.assertGreater(min(kinds.values()), 100)

    def test_a_higher_column_never_lowers_an_answer(self):
        for w, m, v, _ in draws(400):
            for answers in (speeds(w, m), masses(w, v)):
                # 21, where there are any, come first
                self.assertEqual([refusal for refusal, _ in answers], sorted((refusal for refusal, _ in answers), reverse=True))
                numbers = [number for _, number in answers]
                self.assertEqual(numbers, sorted(numbers))

    def test_each_is_the_others_inverse(self):
        passed = Counter()
        for w, m, v, column in draws(1_500):
            speed, mass = g.greatest_speed(w, m, column), g.greatest_mass(w, v, column)
            by_speed, by_mass = speed.refusal == 0 and v <= speed.speed, mass.refusal == 0 and m <= mass.mass
            self.assertEqual((by_speed, by_mass), (accepted(w, m, v, column),) * 2, (w, m, v, column))
            passed[by_speed] += 1
        self.assertGreater(min(passed.values()), 400)

    def test_a_heavier_one_is_never_faster(self):
        source = random.Random(SEED)
        for w, _, _, column in draws(120):
            ordered = sorted(int(50 * 500_000 ** source.random()) for _ in range(12))
            answers = [g.greatest_speed(w, m, column) for m in (50, *ordered, 25_000_000)]
            # 21 is of all masses or of none
            self.assertEqual(len({refusal for refusal, _ in answers}), 1)
            self.assertEqual([speed for _, speed in answers], sorted((speed for _, speed in answers), reverse=True))

    def test_a_faster_one_is_never_heavier(self):
        source = random.Random(SEED)
        for w, _, _, column in draws(120):
            ordered = sorted(source.randint(0, 40_000) for _ in range(12))
            answers = [g.greatest_mass(w, v, column) for v in (0, *ordered, 40_000)]
            # from some speed on none passes
            self.assertEqual([refusal for refusal, _ in answers], sorted(refusal for refusal, _ in answers))
            self.assertEqual([mass for _, mass in answers], sorted((mass for _, mass in answers), reverse=True))

    def test_a_wider_one_is_neither_faster_nor_heavier_within_a_formula(self):
        source = random.Random(SEED)
        for column in COLUMNS:
            for _, m, v, _ in draws(7):
                found = {}
                for w in sorted(int(50 * 2_000 ** source.random()) for _ in range(30)):
                    found.setdefault(g.area_formula(w), []).append((g.greatest_speed(w, m, column), g.greatest_mass(w, v, column)))
                for answers in found.values():
                    for one in zip(*answers):
                        # 21, with its 0, comes last
                        self.assertEqual([number for _, number in one], sorted((number for _, number in one), reverse=True))
                        self.assertEqual([refusal for refusal, _ in one], sorted(refusal for refusal, _ in one))


class TablesOfAircraftTest(unittest.TestCase):
    """Each aircraft of trade_off_aircraft.py is what is written beside it."""

    def test_last(self):
        for spare, column, w, m, v in LAST:
            with self.subTest((w, m, v)):
                limit = g.AREA_LIMITS[column - 1]
                self.assertEqual((g.greatest_speed(w, m, column), g.greatest_mass(w, v, column)), ((0, v), (0, m)))
                self.assertEqual((g.sheet(w, m, v).column, high_area(w, m, v)), (column, limit))
                t = high_t(w, m, v)
                self.assertEqual((area_of(w, t + spare), area_of(w, t + spare + 1)), (limit, limit + 1))
                # with one more of slide T would be more by w + 600
                self.assertGreater(w + 600, spare)
                self.assertGreater(high_slide(m, v), 0)

    def test_next(self):
        for more, column, w, m, v in NEXT:
            with self.subTest((w, m, v)):
                limit = g.AREA_LIMITS[column - 1]
                self.assertEqual((g.greatest_speed(w, m, column), g.greatest_mass(w, v, column)), ((0, v - 1), (0, m - 1)))
                sheet = g.sheet(w, m, v)
                self.assertEqual((sheet.refusal, sheet.column), (0, column + 1) if column < 5 else (4, 0))
                t = high_t(w, m, v)
                self.assertEqual((high_area(w, m, v), area_of(w, t - more), area_of(w, t - more + 1)), (limit + 1, limit, limit + 1))
                self.assertLessEqual(more, w + 600)
                # by its low area it would pass
                self.assertLessEqual(area_line(w, m, v).low, limit)

    def test_every_kind(self):
        # the columns of both formulas: with six tenths no area is near the last limit, with the whole none is in columns 1 and 2
        kinds = {*((column, g.SIX_TENTHS) for column in (1, 2, 3, 4)), *((column, g.WHOLE) for column in (3, 4, 5))}
        for table in (LAST, NEXT):
            self.assertEqual({(column, g.area_formula(w)) for _, column, w, _, _ in table}, kinds)
        # T / 100,000 is exactly the limit in columns 3 to 5, and a hundred-thousandth more in 3 and 5
        self.assertEqual({column for spare, column, w, m, v in LAST
                          if g.area_formula(w) == g.WHOLE and high_t(w, m, v) == 100_000 * g.AREA_LIMITS[column - 1]}, {3, 4, 5})
        self.assertEqual({column for more, column, w, m, v in NEXT
                          if g.area_formula(w) == g.WHOLE and high_t(w, m, v) == 100_000 * g.AREA_LIMITS[column - 1] + 1}, {3, 5})
        # 3 × T / 500,000 is never exactly the limit: 500,000 × limit leaves 1 when divided by 3
        self.assertEqual({500_000 * limit % 3 for limit in g.AREA_LIMITS}, {1})
        self.assertEqual({column for _, column, w, m, v in LAST
                          if g.area_formula(w) == g.SIX_TENTHS and 3 * high_t(w, m, v) == 500_000 * g.AREA_LIMITS[column - 1] - 1}, {3})
        self.assertEqual({column for _, column, w, m, v in NEXT
                          if g.area_formula(w) == g.SIX_TENTHS and 3 * high_t(w, m, v) == 500_000 * g.AREA_LIMITS[column - 1] + 2}, {2, 3})

    def test_the_saving_divides(self):
        def divisors(number):
            return [m for m in range(50, 100_000) if number % m == 0]
        # 11 × 79 × 45,357,379, and 144 × 273,719,183, neither of which last numbers is a mass
        self.assertEqual(11 * 79 * 45_357_379, 39_415_562_351)
        self.assertEqual(144 * 273_719_183, 39_415_562_352)
        self.assertEqual((divisors(39_415_562_351), divisors(39_415_562_352)), ([79, 869], [72, 144]))
        for table, number, ends in ((LAST, 39_415_562_351, {79, 869}), (NEXT, 39_415_562_352, {72, 144})):
            self.assertEqual({m for *_, m, _ in table if number % m == 0 and m < 1_000 and m not in (50, 51)}, ends)
        for m in (79, 869):
            self.assertEqual(g.saving_line(m).low * m, 39_415_562_351)
        for m in (72, 144):
            self.assertEqual((g.saving_line(m).low + 1) * m, 39_415_562_352)

    def test_the_ends_of_the_ranges(self):
        self.assertLessEqual({50, 25_000_000}, {m for *_, m, _ in LAST})
        self.assertLessEqual({51, 24_994_016}, {m for *_, m, _ in NEXT})
        self.assertEqual([g.saving_line(m).low for m in (24_994_015, 24_994_016, 25_000_000)], [1_577, 1_576, 1_576])
        for table in (LAST, NEXT):
            self.assertIn(40_000, {v for *_, v in table})
        # of so fast ones the run by its low constant, rounded up as well, would pass
        fast = [(w, m, v, column) for _, column, w, m, v in NEXT if v > 31_623]
        self.assertGreater(len(fast), 3)
        for w, m, v, column in fast:
            run = -(-v * v * 1_926_617_433 // 10 ** 9)
            self.assertLessEqual(quick_columns(w, [run - quick_saving(m)])[0], column)

    def test_no_slide(self):
        for column, w, m, v in NO_SLIDE:
            self.assertEqual(g.run_line(v).high, g.saving_line(m).low)
            self.assertEqual((high_slide(m, v), high_slide(m, v + 1) > 0, high_slide(m + 1, v) > 0), (0, True, True))
            self.assertEqual((g.greatest_speed(w, m, column), g.greatest_mass(w, v, column)), ((0, v), (0, m)))


def down(top, bottom):
    return top // bottom


def up(top, bottom):
    return -(-top // bottom)


def nearest(top, bottom):
    return (2 * top + bottom) // (2 * bottom)


class OtherFormsTest(unittest.TestCase):
    """Another rounding, another last digit or another cut shows at one of the listed aircraft: it passes where it mustn't, or doesn't
    where it must."""

    def passes(self, w, m, v, column, saving=(down, 39_415_562_351), run=(up, 1_926_617_434), glide=2_570_667, width=600, area=up,
               spare=0, cuts=(1_000, 8_000)):
        (saving_rounded, saving_constant), (run_rounded, run_constant) = saving, run
        a = w + width
        slide = max(0, run_rounded(v * v * run_constant, 10 ** 9) - saving_rounded(saving_constant, m))
        t = a * (glide + slide) + 785 * a * a
        flat = area(2 * a * glide + 785 * a * a, 200_000)
        high = flat if w < cuts[0] else area(3 * t, 500_000) if w < cuts[1] else area(t, 100_000)
        return high <= g.AREA_LIMITS[column - 1] + spare

    def shows(self, **form):
        return [self.passes(w, m, v, column, **form) != accepted(w, m, v, column) for column, w, m, v in (
            *(row[1:] for row in LAST + NEXT), *NO_SLIDE, SLOWEST, LAST_WITHOUT_SLIDE)]

    def test_the_papers_form(self):
        self.assertFalse(any(self.shows()))

    def test_each_other_form_shows(self):
        for form in (
                {"saving": (up, 39_415_562_351)}, {"saving": (nearest, 39_415_562_351)}, {"saving": (down, 39_415_562_352)},
                {"saving": (down, 39_415_562_350)}, {"saving": (up, 39_415_562_352)},
                {"run": (down, 1_926_617_434)}, {"run": (nearest, 1_926_617_434)}, {"run": (up, 1_926_617_433)},
                {"run": (up, 1_926_617_435)}, {"run": (down, 1_926_617_433)},
                {"glide": 2_570_666}, {"glide": 2_570_668}, {"width": 599}, {"width": 601},
                {"area": down}, {"area": nearest}, {"spare": 1}, {"spare": -1},
                {"cuts": (999, 8_000)}, {"cuts": (1_001, 8_000)}, {"cuts": (1_000, 7_999)}, {"cuts": (1_000, 8_001)}):
            with self.subTest(form):
                self.assertTrue(any(self.shows(**form)))


class DrawsTest(unittest.TestCase):
    def test_in_their_ranges(self):
        for w, m, v, column in draws(3_000):
            self.assertEqual((g.aircraft_refusal(w, m, v), column in COLUMNS), (0, True))

    def test_every_kind_of_answer(self):
        for draw in trade_off_aircraft.DRAWS:
            answers = Counter()
            for w, m, v, column in islice(drawn([draw]), 200):
                speed, mass = g.greatest_speed(w, m, column), g.greatest_mass(w, v, column)
                answers["speed", "none" if speed.refusal else "all" if speed.speed == 40_000 else "some"] += 1
                answers["mass", "none" if mass.refusal else "all" if mass.mass == 25_000_000 else "50" if mass.mass == 50 else "some"] += 1
                # how far the drawn number lies beyond the answer
                answers["speed", "at", v - speed.speed] += 1
                answers["mass", "at", m - mass.mass] += 1
            least = {
                "any_numbers": {("speed", "none"): 20, ("speed", "all"): 20, ("speed", "some"): 20, ("mass", "none"): 20},
                "where_a_speed_begins": {("speed", "at", 0): 30, ("speed", "at", 1): 10, ("mass", "at", 0): 30, ("mass", "at", 1): 20,
                                         ("mass", "at", -1): 20},
                "where_a_mass_ends": {("speed", "at", 0): 30, ("speed", "at", 1): 30, ("speed", "at", -1): 30, ("mass", "some"): 60},
                "where_none_begins": {("speed", "none"): 10, ("mass", "none"): 30, ("mass", "50"): 30, ("speed", "at", 0): 10},
                "where_all_ends": {("mass", "all"): 60, ("mass", "some"): 30, ("speed", "all"): 20, ("speed", "some"): 60},
                "where_a_formula_begins": {("speed", "none"): 20, ("speed", "all"): 20, ("speed", "some"): 20},
                "listed": {("speed", "at", 0): 30, ("speed", "at", 1): 30, ("mass", "at", 0): 30, ("mass", "at", 1): 20},
            }[draw.__name__]
            for kind, number in least.items():
                self.assertGreaterEqual(answers[kind], number, (draw.__name__, kind))


class PageTest(unittest.TestCase):
    @classmethod
    def setUpClass(cls):
        cls.tables = trade_off_tables.tables()

    def test_the_page_ends_with_the_tables(self):
        page = (ROOT / "docs" / "TRADE_OFFS.md").read_text()
        before, _, made = page.partition("\n<!-- what follows is made: make trade-off-tables -->\n\n")
        self.assertTrue(before.startswith("# The greatest speed and the greatest mass for a column\n\n"))
        self.assertEqual(made.splitlines(), self.tables.splitlines())
        self.assertEqual(made, self.tables)

    def test_as_written(self):
        lines = self.tables.split("\n")
        self.assertEqual(lines.pop(), "")
        # title, empty, words, empty, two lines of head, a row for each mass; empty, then likewise for the speeds; empty between two
        self.assertEqual(len(lines), 5 * (2 + 4 + 14 + 1 + 4 + 16) + 4)
        self.assertEqual([line for line in lines if line.startswith("#")],
                         ["## 1,000 mm", "## 3,000 mm", "## 8,000 mm", "## 20,000 mm", "## 40,000 mm"])
        self.assertEqual(lines[:7], [
            "## 1,000 mm", "", "Greatest speed in cm/s, by mass and column:", "", "| Mass | 1 | 2 | 3 | 4 | 5 |",
            "|---:|---:|---:|---:|---:|---:|", "| 250 g | 9,130 | 10,723 | 20,767 | 40,000 | 40,000 |"])
        of_3_metres = lines[lines.index("## 3,000 mm"):]
        self.assertEqual(of_3_metres[6:20:13], ["| 250 g | – | 9,728 | 15,337 | 40,000 | 40,000 |",
                                                "| 25,000 kg | – | 3,580 | 12,385 | 39,485 | 40,000 |"])
        self.assertEqual(of_3_metres[20:25], ["", "Greatest mass in g, by speed and column:", "", "| Speed | 1 | 2 | 3 | 4 | 5 |",
                                              "|---:|---:|---:|---:|---:|---:|"])
        self.assertEqual(of_3_metres[25], "| 1,000 cm/s | – | 25,000,000 | 25,000,000 | 25,000,000 | 25,000,000 |")
        of_8_metres = lines[lines.index("## 8,000 mm"):]
        self.assertEqual(of_8_metres[6], "| 250 g | – | – | 10,780 | 21,663 | 40,000 |")

    def test_the_cuts_in_words(self):
        page = (ROOT / "docs" / "TRADE_OFFS.md").read_text()
        self.assertIn("50 kg keep to column 3 up to {:,} cm/s at 8,000 mm, up to {:,} cm/s at 7,999 mm".format(
            *(g.greatest_speed(w, 50_000, 3).speed for w in (8_000, 7_999))), page)
        self.assertIn("Below 1,000 mm the area has no slide", page)
        self.assertEqual([g.greatest_speed(w, 50_000, 1).speed == FASTEST_OF_ALL for w in (999, 1_000)], [True, False])

    def test_every_cell(self):
        """By the answers solved without a search."""
        rows = [[cell.strip() for cell in line.strip("|").split("|")] for line in self.tables.splitlines()
                if line.startswith("| ")]
        expected = []
        for w, _ in g.SIZE_PAIRS:
            for head, given, solved in (("Mass", trade_off_tables.MASSES, solved_speed), ("Speed", trade_off_tables.SPEEDS, solved_mass)):
                expected.append([head, "1", "2", "3", "4", "5"])
                for number in given:
                    answers = [solved(w, number, column) for column in COLUMNS]
                    words = f"{number:,} cm/s" if head == "Speed" else f"{number} g" if number < 1_000 else f"{number // 1_000:,} kg"
                    expected.append([words, *("–" if refusal else f"{answer:,}" for refusal, answer in answers)])
        self.assertEqual(rows, expected)


if __name__ == "__main__":
    unittest.main()
