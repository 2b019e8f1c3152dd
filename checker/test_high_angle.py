"""Document 02 item 2: the high impact angle area, its accuracy rule at a hundred thousand aircraft, and the worked points."""

import random
import re
import unittest
from collections import Counter
from fractions import Fraction
from itertools import product

import ground_risk as g
import high_angle_points
from high_angle_aircraft import AT_JOINTS, AT_LIMITS, CROSSED, FLAGGED, lightest, near_a_joint, near_a_limit

U32 = 2 ** 32 - 1
ZEROS = (0, 0, 0, (0, 0), (0, 0), (0, 0))
SEED = 5


# Every line again in whole numbers, the fractions' denominators multiplied out: the energy is 981 × m² / (98 × frontal area) J, the
# area for a thousandth of the factor 785 × (w + 600)² / 10⁸ square centimetres.

def quick_frontal_area(w):
    if w <= 3_000:
        return 200 * w - 100_000
    if w <= 8_000:
        return 400 * w - 700_000
    if w <= 20_000:
        return (2_500 * w - 12_500_000) // 3
    return 625 * w


def quick_power(w, m):
    """The fifth power of the exact area, as a numerator and a denominator above zero."""
    top, bottom = 981 * m * m, 98 * quick_frontal_area(w)
    circle = (785 * (w + 600) ** 2) ** 5
    if top < 12_000 * bottom:
        return 2_300 ** 5 * circle, 10 ** 40
    if top > 3_125_000 * bottom:
        return 7_000 ** 5 * circle, 10 ** 40
    return 1_400 ** 5 * top * circle, 1_000 * bottom * 10 ** 40


def drawn(source):
    """Any accepted dimension and mass, as many small ones as large ones."""
    return int(1_000 * 40 ** source.random()), int(50 * 500_000 ** source.random())


def of_the_hundred_thousand():
    source = random.Random(SEED)
    yield from ((w, m + step) for _, w, m in AT_JOINTS for step in (-1, 0, 1))
    yield from (row[2:] for row in FLAGGED + AT_LIMITS)
    for number in range(100_000):
        yield (drawn, near_a_joint, near_a_limit, near_a_limit)[number % 4](source)


class RefusalsTest(unittest.TestCase):
    def test_edges(self):
        for aircraft, refusal in (
                ((0, 50, 0), 1), ((49, 50, 0), 1), ((50, 50, 0), 16), ((999, 50, 0), 16), ((1_000, 50, 0), 0),
                ((40_000, 50, 0), 0), ((40_001, 50, 0), 16), ((100_000, 50, 0), 16), ((100_001, 50, 0), 1), ((U32, 50, 0), 1),
                ((1_000, 0, 0), 2), ((1_000, 49, 0), 2), ((1_000, 25_000_000, 0), 0), ((1_000, 25_000_001, 0), 2),
                ((1_000, U32, 0), 2),
                ((1_000, 50, 40_000), 0), ((1_000, 50, 40_001), 3), ((1_000, 50, U32), 3)):
            with self.subTest(aircraft):
                self.assertEqual(g.high_angle(*aircraft).refusal, refusal)

    def test_every_order(self):
        """Each set of refusals that can hold together: the first is given, and every number is zero."""
        dimensions = {(): (1_000, 40_000), (1,): (49, 100_001), (16,): (50, 999, 40_001, 100_000)}
        masses = {(): (50, 25_000_000), (2,): (49, 25_000_001)}
        speeds = {(): (0, 40_000), (3,): (40_001, U32)}
        seen = set()
        for (first, w), (second, m), (third, v) in product(*(
                [(holds, number) for holds, numbers in kinds.items() for number in numbers] for kinds in (dimensions, masses, speeds))):
            holds = sorted(first + second + third)
            answer = g.high_angle(w, m, v)
            self.assertEqual(answer.refusal, holds[0] if holds else 0, (w, m, v))
            self.assertEqual(answer.refusal != 0, answer[1:] == ZEROS)
            self.assertEqual(g.exact_high_angle_power(w, m, v) is None, bool(holds))
            self.assertEqual(g.exact_high_angle_column(w, m, v) == 0, bool(holds))
            seen.add(tuple(holds))
        self.assertEqual(len(seen), 12)

    def test_refused_is_all_zeros(self):
        for refusal in (1, 2, 3, 16):
            self.assertEqual(g.refused_high_angle(refusal), (refusal, *ZEROS))

    def test_4_never_occurs(self):
        # The area grows with the dimension and with the factor: 7 × 3.14 × 20.3² is 9,057.7382 square metres.
        largest = g.high_angle(40_000, 25_000_000, 0)
        self.assertEqual((largest.factor, largest.area, largest.column), ((7_000, 7_000), (90_577_382, 90_577_382), 5))
        self.assertLess(largest.area.high, g.AREA_LIMITS[4])
        self.assertEqual(g.exact_circle(40_000), Fraction("1293.9626"))
        before = 0
        for w in range(1_000, 40_001):
            area = g.high_angle_area_line(w, g.Line(7_000, 7_000)).high
            self.assertLess(before, area)
            before = area
        self.assertEqual(before, largest.area.high)

    def test_the_speed_makes_no_difference(self):
        for w, m in ((1_000, 25_642), (3_385, 28_000), (40_000, 25_000_000)):
            self.assertEqual({g.high_angle(w, m, v) for v in (0, 1, 2_500, 39_999, 40_000)}, {g.high_angle(w, m, 0)})
            self.assertEqual({g.exact_high_angle_power(w, m, v) for v in (0, 40_000)}, {g.exact_high_angle_power(w, m, 0)})


class FrontalAreaTest(unittest.TestCase):
    def test_by_hand(self):
        # 200 square millimetres for a millimetre, then 400, 833 and a third, 625
        for w, area in ((1_000, 100_000), (1_001, 100_200), (2_000, 300_000), (2_999, 499_800),
                        (3_000, 500_000), (3_001, 500_400), (5_500, 1_500_000), (7_999, 2_499_600),
                        (8_000, 2_500_000), (8_001, 2_500_833), (8_002, 2_501_666), (8_003, 2_502_500),
                        (14_000, 7_500_000), (19_998, 12_498_333), (19_999, 12_499_166),
                        (20_000, 12_500_000), (20_001, 12_500_625), (30_000, 18_750_000), (39_999, 24_999_375),
                        (40_000, 25_000_000)):
            self.assertEqual(g.frontal_area(w), area)

    def test_the_answer_has_it(self):
        for w in (1_000, 3_001, 8_001, 40_000):
            self.assertEqual(g.high_angle(w, 50, 0).frontal_area, g.frontal_area(w))

    def test_between_the_points(self):
        for w in range(1_000, 40_001):
            self.assertEqual(g.frontal_area(w), quick_frontal_area(w))


class EnergyTest(unittest.TestCase):
    def test_by_hand(self):
        # 10 kg on 0.1 m²: 100 × 9.81 / (0.98 × 0.1), about 10,010.2 J
        self.assertEqual(g.exact_energy(1_000, 10_000), 981 / Fraction("0.098"))
        self.assertEqual(g.high_angle(1_000, 10_000, 0).joules, (10_010, 10_011))
        # the least of all, a thousandth of a joule, and the most: 625,000,000 × 9.81 / 0.098
        self.assertEqual(g.exact_energy(40_000, 50), Fraction("0.024525") / Fraction("24.5"))
        self.assertEqual(g.high_angle(40_000, 50, 0).joules, (0, 1))
        self.assertEqual(g.exact_energy(1_000, 25_000_000), 6_131_250_000 / Fraction("0.098"))
        self.assertEqual(g.high_angle(1_000, 25_000_000, 0).joules, (62_563_775_510, 62_563_775_511))

    def test_by_the_guideline(self):
        # formulas (12) and (13) of 002, the root squared
        for w, m in ((1_000, 50), (2_999, 7_000), (8_003, 123_456), (40_000, 25_000_000)):
            mass, frontal = Fraction(m, 1_000), Fraction(g.frontal_area(w), 1_000_000)
            speed_squared = 2 * mass * Fraction("9.81") / (Fraction("1.225") * frontal * Fraction("0.8"))
            self.assertEqual(g.exact_energy(w, m), mass * speed_squared / 2)

    def test_whole_joules(self):
        for energy, joules in ((Fraction(0), (0, 0)), (Fraction(1, 3), (0, 1)), (Fraction(12_000), (12_000, 12_000)),
                               (Fraction(35_999, 3), (11_999, 12_000)), (Fraction(36_001, 3), (12_000, 12_001))):
            self.assertEqual(g.joules_line(energy), joules)

    def test_exactly_at_the_joints(self):
        # 654,000 mm² at 3,385 mm: 784 × 9.81 / (0.98 × 0.654) is 7,691.04 / 0.64092
        self.assertEqual(g.frontal_area(3_385), 654_000)
        self.assertEqual(Fraction("7691.04") / Fraction("0.64092"), 12_000)
        # 392,400 mm² at 2,462 mm: 122,500 × 9.81 / (0.98 × 0.3924) is 1,201,725 / 0.384552
        self.assertEqual(g.frontal_area(2_462), 392_400)
        self.assertEqual(1_201_725 / Fraction("0.384552"), 3_125_000)
        for joules, w, m in AT_JOINTS:
            self.assertEqual(g.exact_energy(w, m), joules)
            self.assertEqual(g.high_angle(w, m, 0).joules, (joules, joules))


class FactorTest(unittest.TestCase):
    def test_joints(self):
        # 2,301⁵ < 5,378,240,000,000 × 12,000 < 2,302⁵, and 7,000⁵ is 5,378,240,000,000 × 3,125,000
        for low, high, factor in (
                (0, 0, (2_300, 2_300)), (0, 1, (2_300, 2_300)), (11_998, 11_999, (2_300, 2_300)), (11_999, 11_999, (2_300, 2_300)),
                (11_999, 12_000, (2_300, 2_302)), (12_000, 12_000, (2_301, 2_302)), (12_000, 12_001, (2_301, 2_302)),
                (3_124_999, 3_124_999, (6_999, 7_000)), (3_124_999, 3_125_000, (6_999, 7_000)),
                (3_125_000, 3_125_000, (7_000, 7_000)), (3_125_000, 3_125_001, (7_000, 7_000)),
                (3_125_001, 3_125_002, (7_000, 7_000)), (62_563_775_510, 62_563_775_511, (7_000, 7_000))):
            self.assertEqual(g.factor_line(g.Line(low, high)), factor, (low, high))
        # each by its own joules alone, however far apart
        self.assertEqual(g.factor_line(g.Line(0, 3_125_001)), (2_300, 7_000))
        self.assertEqual(g.factor_line(g.Line(3_125_001, 0)), (7_000, 2_300))

    def test_roots(self):
        # 32 kJ: 1.4 × 2; 100 kJ: 1.4 × 10^0.4, which is 3.51664..; 243 kJ: 1.4 × 3
        for joules, factor in ((32_000, (2_800, 2_800)), (31_999, (2_799, 2_800)), (32_001, (2_800, 2_801)),
                               (100_000, (3_516, 3_517)), (243_000, (4_200, 4_200)), (1_024_000, (5_600, 5_600)),
                               (1_023_999, (5_599, 5_600)), (1_024_001, (5_600, 5_601))):
            self.assertEqual(g.factor_line(g.Line(joules, joules)), factor, joules)

    def test_roots_by_their_fifth_powers(self):
        source = random.Random(SEED)
        for joules in [12_000, 3_125_000, *(source.randint(12_000, 3_125_000) for _ in range(3_000))]:
            low, high = g.factor_line(g.Line(joules, joules))
            power = 5_378_240_000_000 * joules
            self.assertTrue(low ** 5 <= power < (low + 1) ** 5 and (high - 1) ** 5 < power <= high ** 5, joules)

    def test_next_to_the_joints(self):
        for (w, m), joules, factor in (
                ((3_385, 27_999), (11_999, 12_000), (2_300, 2_302)), ((3_385, 28_000), (12_000, 12_000), (2_301, 2_302)),
                ((3_385, 28_001), (12_000, 12_001), (2_301, 2_302)), ((3_385, 27_998), (11_998, 11_999), (2_300, 2_300)),
                ((2_462, 349_999), (3_124_982, 3_124_983), (6_999, 7_000)), ((2_462, 350_000), (3_125_000, 3_125_000), (7_000, 7_000)),
                ((2_462, 350_001), (3_125_017, 3_125_018), (7_000, 7_000))):
            answer = g.high_angle(w, m, 0)
            self.assertEqual((answer.joules, answer.factor), (joules, factor))

    def test_exact_factor(self):
        self.assertEqual(g.exact_factor_power(12_000 - Fraction(1, 10 ** 9)), Fraction("64.36343"))
        self.assertEqual(g.exact_factor_power(Fraction(12_000)), Fraction("5.37824") * 12)
        self.assertEqual(g.exact_factor_power(Fraction(32_000)), Fraction("2.8") ** 5)
        self.assertEqual(g.exact_factor_power(Fraction(3_125_000)), 16_807)
        self.assertEqual(g.exact_factor_power(3_125_000 + Fraction(1, 10 ** 9)), 16_807)
        self.assertEqual(g.exact_factor_power(Fraction(3_200_000)), 16_807)
        # from below no jump
        self.assertEqual(g.exact_factor_power(3_125_000 - Fraction(1, 10 ** 9)), 16_807 - Fraction("5.37824") / 10 ** 12)


class AreaTest(unittest.TestCase):
    def test_by_hand(self):
        # D is 0.8: 2.0096 square metres for each 1 of the factor. 46,220.8
        self.assertEqual(g.high_angle(1_000, 10_000, 0), (0, 1, 0, 100_000, (10_010, 10_011), (2_300, 2_300), (46_220, 46_221)))
        # D is 1.8: 10.1736 for each 1; 311,515.632 and 311,617.368
        self.assertEqual(g.high_angle(3_000, 50_000, 0), (0, 2, 0, 500_000, (50_051, 50_052), (3_062, 3_063), (311_515, 311_618)))
        # D is 4.3: 58.0586 for each 1; 613,125 / 2.45 J; 2,452,395.264 and 2,452,975.85
        self.assertEqual(g.high_angle(8_000, 250_000, 0),
                         (0, 3, 0, 2_500_000, (250_255, 250_256), (4_224, 4_225), (2_452_395, 2_452_976)))
        # D is 4.3005: 58.072102785 for each 1; 98,100 / 2.45081634 J; 1,700,351.1695.. and 1,700,931.8905..
        self.assertEqual(g.high_angle(8_001, 100_000, 0),
                         (0, 3, 0, 2_500_833, (40_027, 40_028), (2_928, 2_929), (1_700_351, 1_700_932)))
        # D is 10.3: 333.1226 for each 1; 9,810,000 / 12.25 J; 17,758,765.806 and 17,762,097.032
        self.assertEqual(g.high_angle(20_000, 1_000_000, 0),
                         (0, 4, 0, 12_500_000, (800_816, 800_817), (5_331, 5_332), (17_758_765, 17_762_098)))
        # D is 20.3, the largest
        self.assertEqual(g.high_angle(40_000, 25_000_000, 0),
                         (0, 5, 0, 25_000_000, (250_255_102, 250_255_103), (7_000, 7_000), (90_577_382, 90_577_382)))

    def test_rounded_outward(self):
        # 20.096 for a thousandth at 1,000 mm, so whole for each 125 of them
        for low, high, area in ((2_300, 2_300, (46_220, 46_221)), (2_500, 2_500, (50_240, 50_240)), (2_500, 2_501, (50_240, 50_261)),
                                (2_499, 2_500, (50_219, 50_240)), (2_301, 2_302, (46_240, 46_261))):
            self.assertEqual(g.high_angle_area_line(1_000, g.Line(low, high)), area)

    def test_flagged(self):
        kinds = Counter()
        for column, exact, w, m in FLAGGED:
            answer = g.high_angle(w, m, 0)
            self.assertEqual((answer.refusal, answer.column, answer.flag, g.exact_high_angle_column(w, m, 0)), (0, column, 1, exact))
            kinds[column, column - exact] += 1
        self.assertEqual(set(kinds), set(product((2, 3, 4, 5), (0, 1))))
        # at 1,000 mm 3,234 thousandths are 64,990.464, and 3,235 are 65,010.56
        for m in (25_642, 25_643):
            answer = g.high_angle(1_000, m, 0)
            self.assertEqual((answer.factor, answer.area, answer.column, answer.flag), ((3_234, 3_235), (64_990, 65_011), 2, 1))
        self.assertEqual([g.exact_high_angle_column(1_000, m, 0) for m in (25_642, 25_643)], [1, 2])

    def test_at_limits(self):
        for limit, kind, w, m in AT_LIMITS:
            answer = g.high_angle(w, m, 0)
            column = g.AREA_LIMITS.index(limit) + 1
            with self.subTest((limit, kind)):
                if kind == "high at":
                    self.assertEqual((answer.area.high, answer.column, answer.flag), (limit, column, 0))
                elif kind == "low at":
                    self.assertEqual((answer.area.low, answer.column, answer.flag), (limit, column + 1, 1))
                else:
                    self.assertEqual((kind, answer.area.low, answer.column, answer.flag), ("low above", limit + 1, column + 1, 0))

    def test_crossed(self):
        def crosses(w, limit):
            return g.exact_circle(w) * 23_000 <= limit < g.exact_circle(w) * 70_000
        for limit, first, last in CROSSED:
            for w in range(first - 1, last + 2):
                if g.within(w, g.FRONTAL_RANGE):
                    self.assertEqual(crosses(w, limit), first <= w <= last, (limit, w))
        self.assertEqual([limit for limit, *_ in CROSSED], list(g.AREA_LIMITS[:4]))
        self.assertFalse(crosses(40_000, g.AREA_LIMITS[4]))

    def test_more_mass_never_lowers_an_area(self):
        source = random.Random(SEED)
        for w in (1_000, 1_297, 3_385, 8_001, 20_000, 40_000):
            masses = [int(50 * 500_000 ** source.random()) for _ in range(200)]
            masses += [lightest(w, joules) + step for joules in (1, g.ROOT_FROM, g.ROOT_TO) for step in (-1, 0, 1)]
            answers = [g.high_angle(w, m, 0) for m in sorted(masses)]
            powers = [g.exact_high_angle_power(w, m, 0) for m in sorted(masses)]
            for before, after in zip(answers, answers[1:]):
                for one, other in zip(before[4:], after[4:]):
                    self.assertTrue(one.low <= other.low and one.high <= other.high)
                self.assertLessEqual(before.column, after.column)
            self.assertEqual(powers, sorted(powers))


class ExactAreaTest(unittest.TestCase):
    def test_lies_in(self):
        for power, area, lies in ((32, (2, 2), True), (32, (1, 2), True), (32, (2, 3), True), (33, (2, 3), True), (31, (2, 3), False),
                                  (33, (1, 2), False), (Fraction(65, 2), (2, 2), False)):
            self.assertEqual(g.lies_in(power, g.Line(*area)), lies)

    def test_exact_area_by_hand(self):
        # at 3,385 mm D is 1.9925; 12 kJ
        self.assertEqual(g.exact_high_angle_power(3_385, 28_000, 0),
                         Fraction("1.4") ** 5 * 12 * (31_400 * Fraction("1.9925") ** 2) ** 5)
        self.assertEqual(g.exact_high_angle_power(1_000, 10_000, 0), Fraction("46220.8") ** 5)
        self.assertEqual(g.exact_high_angle_power(40_000, 25_000_000, 0), 90_577_382 ** 5)
        self.assertEqual(g.exact_high_angle_column(40_000, 25_000_000, 0), 5)

    def test_quick_power(self):
        source = random.Random(SEED + 1)
        sample = [row[-2:] for row in AT_JOINTS + FLAGGED + AT_LIMITS]
        sample += [draw(source) for draw in (drawn, near_a_joint, near_a_limit) for _ in range(1_000)]
        for w, m in sample:
            numerator, denominator = quick_power(w, m)
            power = g.exact_high_angle_power(w, m, 0)
            self.assertEqual(Fraction(numerator, denominator), power, (w, m))
            self.assertTrue(g.lies_in(power, g.high_angle(w, m, 0).area), (w, m))

    def test_exact_columns_of_the_definition(self):
        source = random.Random(SEED + 2)
        for _ in range(1_000):
            w, m = near_a_limit(source)
            numerator, denominator = quick_power(w, m)
            exact = g.exact_high_angle_column(w, m, 0)
            self.assertLessEqual(numerator, g.AREA_LIMITS[exact - 1] ** 5 * denominator)
            if exact > 1:
                self.assertGreater(numerator, g.AREA_LIMITS[exact - 2] ** 5 * denominator)

    def test_lightest(self):
        for w, joules, parts in ((1_000, 1, 1), (3_385, 12_000, 1), (3_385, 12_000 * 10 ** 9 + 1, 10 ** 9), (40_000, 3_125_000, 1),
                                 (2_462, 3_125_000, 1), (8_001, 5 ** 30, 7 ** 20)):
            m = lightest(w, joules, parts)
            self.assertLess(g.exact_energy(w, m - 1), Fraction(joules, parts))
            self.assertGreaterEqual(g.exact_energy(w, m), Fraction(joules, parts))

    def test_the_sharpest_width(self):
        """One part in 1,151 plus 2 holds for every aircraft, one in 1,152 doesn't."""
        answer = g.high_angle(34_164, 159_990, 0)
        self.assertEqual((answer.joules, answer.factor, answer.area), ((11_999, 12_000), (2_300, 2_302), (21_820_111, 21_839_087)))
        width, high = answer.area.high - answer.area.low, answer.area.high
        self.assertLessEqual(1_151 * (width - 2), high)
        self.assertGreater(1_152 * (width - 2), high)
        # Rounding adds less than 2 to the width, so width less 2 is less than the factors' difference times the area for a
        # thousandth, and the high area at least the high factor times that. So it is enough that no high factor is less than
        # 1,151 times the difference, of any joules that are the same or one apart. The factors change only where a fifth power
        # is passed, and at the joints.
        passed = {number ** 5 // 5_378_240_000_000 for number in range(2_300, 7_001)} | {11_999, 12_000, 3_125_000}
        for joules in {number + step for number in passed for step in (-1, 0, 1)}:
            for line in (g.Line(joules, joules), g.Line(joules, joules + 1)):
                low, high = g.factor_line(line)
                self.assertIn(high - low, (0, 1, 2))
                self.assertGreaterEqual(high, 1_151 * (high - low), line)


class PointsTest(unittest.TestCase):
    def test_every_point(self):
        for point in high_angle_points.points():
            w, m = point[:2]
            with self.subTest(point[:3]):
                if point.refusal:
                    self.assertEqual(point[4:], (0,) * 10)
                    continue
                self.assertEqual(point.frontal_area, quick_frontal_area(w))
                top, bottom = 981 * m * m, 98 * point.frontal_area
                self.assertEqual((point.joules_low, point.joules_high), (top // bottom, -(-top // bottom)))
                for thousandths, joules in ((point.factor_low, point.joules_low), (point.factor_high, point.joules_high)):
                    self.assertAlmostEqual(thousandths, 2_300 if joules < 12_000 else 7_000 if joules > 3_125_000
                                           else 1_400 * (joules / 1_000) ** 0.2, delta=1)
                top, bottom = 785 * (w + 600) ** 2, 10 ** 8
                self.assertEqual((point.area_low, point.area_high), (point.factor_low * top // bottom, -(-point.factor_high * top // bottom)))
                numerator, denominator = quick_power(w, m)
                self.assertTrue(point.area_low ** 5 * denominator <= numerator <= point.area_high ** 5 * denominator)
                columns = [sum(limit < area for limit in g.AREA_LIMITS) + 1 for area in (point.area_low, point.area_high)]
                self.assertEqual((point.column, point.flag), (columns[1], 0 if columns[0] == columns[1] else 1))
                self.assertEqual(point.exact_column,
                                 sum(limit ** 5 * denominator < numerator for limit in g.AREA_LIMITS) + 1)

    def test_the_table_as_written(self):
        """The rows that checker/expectations stores have the points' numbers, in their order."""
        row = re.compile(r"    (?:∷ )?(accepted|refused) (.*)")
        rows = [match for match in map(row.fullmatch, high_angle_points.table().decode().splitlines()) if match]
        points = high_angle_points.points()
        for match, point in zip(rows, points, strict=True):
            numbers = tuple(map(int, re.findall(r"\d+", match[2])))
            if match[1] == "refused":
                self.assertEqual(numbers, (*point[:3], point.refusal))
                self.assertEqual(point[4:], (0,) * 10)
            else:
                self.assertEqual(numbers, (*point[:3], *point[6:13], point.column, point.flag, point.exact_column))

    def test_every_kind(self):
        points = high_angle_points.points()
        self.assertEqual(len({point[:3] for point in points}), len(points))
        self.assertEqual({point.refusal for point in points}, {0, 1, 2, 3, 16})
        accepted = [point for point in points if point.refusal == 0]
        self.assertLessEqual({w for w, _ in g.FRONTAL_POINTS}, {point.dimension for point in accepted})
        for (start, _), (end, _) in zip(g.FRONTAL_POINTS, g.FRONTAL_POINTS[1:]):
            self.assertTrue(any(start < point.dimension < end for point in accepted))
        self.assertTrue(any(3 * point.frontal_area != 2_500 * point.dimension - 12_500_000
                            for point in accepted if 8_000 < point.dimension < 20_000))
        self.assertLessEqual({(11_998, 11_999), (11_999, 12_000), (12_000, 12_000), (12_000, 12_001), (3_124_999, 3_125_000),
                              (3_125_000, 3_125_000), (3_125_000, 3_125_001)},
                             {(point.joules_low, point.joules_high) for point in accepted})
        self.assertEqual({point.column - point.exact_column for point in accepted if point.flag == 1}, {0, 1})
        self.assertEqual({point.column for point in accepted}, {1, 2, 3, 4, 5})
        self.assertEqual(max(point.area_high for point in accepted), 90_577_382)


class RuleTest(unittest.TestCase):
    """The accuracy rule at a hundred thousand aircraft; by its name it comes after the quick tests."""

    def test_accuracy(self):
        flagged, joules, factors = Counter(), Counter(), Counter()
        limits = [limit ** 5 for limit in g.AREA_LIMITS]
        for w, m in of_the_hundred_thousand():
            answer = g.high_angle(w, m, 0)
            low, high = answer.area
            numerator, denominator = quick_power(w, m)
            if answer.refusal != 0:
                self.fail(f"refused at {w, m}")
            if not low ** 5 * denominator <= numerator <= high ** 5 * denominator:
                self.fail(f"exact area outside low and high at {w, m}")
            if 500 * (high - low) > high + 1_000:
                self.fail(f"low and high too far apart at {w, m}")
            column = answer.column
            if column not in (1, 2, 3, 4, 5) or numerator > limits[column - 1] * denominator:
                self.fail(f"exact column above the answer's at {w, m}")
            exact = column - 1 if column > 1 and numerator <= limits[column - 2] * denominator else column
            if exact > 1 and numerator <= limits[exact - 2] * denominator or answer.flag == 0 and exact != column:
                self.fail(f"unflagged with another exact column, or two columns off, at {w, m}")
            if answer.flag == 1:
                flagged[column, exact] += 1
            joules[answer.joules.low] += 1
            factors[answer.factor.high - answer.factor.low] += 1
        # The hundred thousand have all that they are meant to have.
        for column, exact in product((2, 3, 4, 5), (0, 1)):
            self.assertGreater(flagged[column, column - exact], 1_000)
        for number in (11_998, 11_999, 12_000, 12_001, 3_124_999, 3_125_000):
            self.assertGreater(joules[number], 500, number)
        self.assertEqual(set(factors), {0, 1, 2})
        self.assertGreater(min(factors.values()), 5_000)


if __name__ == "__main__":
    unittest.main()
