"""Aircraft at the edges of the greatest speed and the greatest mass for a column, and draws of such aircraft.

checker/test_trade_off.py checks that each is of the kind written beside it. Every dimension was searched with every speed, so where
a comment says "all" there are no others.
"""

import ground_risk as g

# The last that pass: the speed is the greatest of dimension and mass, and the mass the greatest of dimension and speed. With one
# micrometre more of slide the column is higher. How many thousandths of a square millimetre T may still grow, the column, then
# dimension (mm), mass (g), speed (cm/s).
LAST = (
    # hardly any, below 8,000 mm and from there up; none at 1,653 mm, and in whole formulas where T / 100,000 is the limit
    (1, 1, 1_741, 12_603, 1_318),
    (1, 1, 1_741, 248_213, 443),
    (4, 2, 6_877, 15_389, 2_114),
    (4, 2, 6_877, 211_295, 1_799),
    (0, 3, 1_653, 190_000, 15_730),
    (1, 3, 4_126, 16_731, 10_814),
    (0, 3, 9_400, 46_140, 5_364),
    (0, 3, 9_800, 6_011, 5_502),
    (3, 4, 3_155, 90_189, 38_663),
    (0, 4, 9_400, 13_055, 18_263),
    (0, 4, 9_400, 113_311, 18_225),
    (0, 5, 24_400, 117_143, 36_581),
    (0, 5, 25_000, 166_347, 36_142),
    # the mass divides 39,415,562,351, of whose divisors 79 and 869 alone are masses, and the low saving is what the slide needs: all
    (4_977, 2, 5_916, 79, 16_236),
    (6_858, 2, 6_825, 79, 16_192),
    (736, 2, 2_011, 869, 6_533),
    (9_800, 4, 55_187, 869, 7_743),
    (61_781, 4, 87_777, 869, 4_937),
    (36_482, 5, 41_249, 869, 28_484),
    # the least mass, the greatest mass, the greatest speed: all of the first and of the last
    (11_000, 4, 57_808, 50, 21_019),
    (62_444, 4, 87_078, 50, 20_263),
    (1_243, 1, 1_283, 25_000_000, 941),
    (16_640, 3, 17_730, 25_000_000, 3_099),
    (1_128, 3, 18_244, 25_000_000, 2_982),
    (22_592, 4, 74_923, 25_000_000, 3_545),
    (18_581, 5, 20_357, 1_891_341, 40_000),
    (4_034, 5, 20_358, 232_382, 40_000),
    (17_471, 5, 20_361, 64_001, 40_000),
    # the first and the last with six tenths of the formula, the first with the whole
    (533, 1, 1_000, 265_224, 1_267),
    (1_297, 2, 7_999, 270_147, 1_333),
    (3_000, 3, 8_000, 150_834, 5_876),
)

# The first that don't pass, by one micrometre of slide: the greatest speed is one less, and so is the greatest mass. By how many
# thousandths of a square millimetre T is too much, the column, then the aircraft.
NEXT = (
    # hardly any; 1 is the least, and in whole formulas T / 100,000 is then the limit and a hundred-thousandth
    (3, 1, 1_199, 17_746, 1_487),
    (3, 1, 1_668, 226_103, 558),
    (1, 2, 4_777, 2_725, 3_800),
    (1, 2, 4_777, 175_301, 2_655),
    (1, 3, 1_003, 135_283, 18_680),
    (1, 3, 2_606, 215_622, 13_147),
    (1, 3, 14_157, 18_763, 4_075),
    (1, 3, 21_523, 2_438, 3_646),
    (7, 4, 3_595, 132_848, 36_572),
    (3, 4, 22_079, 49_214, 11_773),
    (4, 4, 9_018, 3_410, 18_749),
    (1, 5, 26_047, 6_226, 35_457),
    (1, 5, 79_341, 171_882, 19_704),
    # the mass divides 39,415,562,352, so that the low saving is one less than the quotient: all, and these two masses alone
    (13_022, 5, 66_862, 72, 27_485),
    (11_435, 4, 44_455, 144, 14_045),
    (5_905, 4, 44_851, 144, 14_016),
    (38_522, 4, 59_297, 144, 13_140),
    # one gram above the least mass: all
    (3_592, 2, 4_625, 51, 20_210),
    (44_588, 4, 86_702, 51, 20_072),
    # the first mass whose low saving is that of 25,000,000 g: no greatest mass lies between the one before it and 25,000,000
    (16_688, 3, 22_204, 24_994_016, 2_042),
    (5_220, 3, 26_164, 24_994_016, 606),
    (13_301, 4, 22_301, 24_994_016, 11_690),
    (1_330, 4, 67_710, 24_994_016, 4_497),
    # the greatest speed in range: all
    (2_376, 5, 20_357, 1_891_342, 40_000),
    (16_924, 5, 20_358, 232_383, 40_000),
    # the first and the last with six tenths of the formula, the first with the whole
    (1_067, 1, 1_000, 283_860, 1_265),
    (7_302, 2, 7_999, 260_958, 1_334),
    (5_600, 3, 8_000, 128_554, 5_878),
)

# The low saving is the high run, so that the high slide is exactly 0, and nothing faster or heavier passes: all. The column, then
# the aircraft.
NO_SLIDE = (
    (1, 1_821, 3_305, 2_488),
    (1, 1_822, 3_305, 2_488),
    (1, 1_822, 3_540, 2_404),
    (3, 26_583, 3_305, 2_488),
    (3, 26_583, 3_540, 2_404),
    (3, 26_584, 3_305, 2_488),
    (3, 26_584, 3_540, 2_404),
    (4, 88_772, 3_305, 2_488),
    (4, 88_772, 3_540, 2_404),
    (4, 88_773, 3_305, 2_488),
    (4, 88_773, 3_540, 2_404),
)

# The last dimension whose area has no slide, so that the heaviest passes at the greatest speed: the column, dimension, mass, speed.
LAST_WITHOUT_SLIDE = (1, 999, 25_000_000, 40_000)

# Only 50 g pass at this speed, and nothing one cm/s faster: 21. The column, dimension, speed.
FASTEST = (
    (1, 1_000, 20_265),
    (1, 1_822, 20_227),
    (2, 1_000, 21_031),
    (2, 7_999, 20_269),
    (3, 1_000, 27_543),
    (3, 8_000, 21_060),
    (3, 26_584, 20_227),
    (4, 8_000, 28_224),
    (4, 88_773, 20_227),
    (5, 88_773, 27_366),
    (5, 100_000, 26_499),
)

# The largest dimension that passes at rest; one millimetre more is 21, whatever the mass or the speed. In column 2 it is the last
# with six tenths of the formula, in column 5 none.
LARGEST = {1: 1_822, 2: 7_999, 3: 26_584, 4: 88_773}

# The least greatest speed there is: the column, then the aircraft. So speed 0 never passes alone.
SLOWEST = (4, 88_773, 25_000_000, 32)


# ---------------------------------------------------------------------------
# Draws: a dimension, a mass, a speed and a column. The speed is left out for
# the greatest speed, the mass for the greatest mass.
# ---------------------------------------------------------------------------

def any_numbers(source):
    """In their ranges, as many small ones as large ones."""
    w, m = int(50 * 2_000 ** source.random()), int(50 * 500_000 ** source.random())
    return w, m, int(40_001 ** source.random()), source.randint(1, 5)


def sliding(source):
    """A dimension whose slide counts, and that passes at rest, with a mass, a speed and the column."""
    _, m, v, column = any_numbers(source)
    first, last = 1_000, LARGEST.get(column, g.DIMENSION_RANGE[1])
    return int(first * ((last + 1) / first) ** source.random()), m, v, column


def by_one(source, number, limits):
    """The number, or one beside it, in its range."""
    return min(limits[1], max(limits[0], number + source.choice((-1, 0, 1))))


def where_a_speed_begins(source):
    """The mass is the greatest of a speed, one less or one more: the greatest speed is that speed, or the one before it."""
    w, _, _, column = sliding(source)
    fastest, slowest = (g.greatest_speed(w, m, column).speed for m in g.MASS_RANGE)
    v = source.randint(slowest, fastest)
    return w, by_one(source, g.greatest_mass(w, v, column).mass, g.MASS_RANGE), v, column


def where_a_mass_ends(source):
    """The speed is the greatest of a mass, one less or one more."""
    w, m, _, column = sliding(source)
    return w, m, by_one(source, g.greatest_speed(w, m, column).speed, g.SPEED_RANGE), column


def where_none_begins(source):
    """The largest dimension for the column, or the greatest speed of the least mass, by one."""
    w, m, v, column = sliding(source)
    if source.random() < 0.5:
        return by_one(source, LARGEST.get(column, g.DIMENSION_RANGE[1]), g.DIMENSION_RANGE), m, v, column
    return w, m, by_one(source, g.greatest_speed(w, g.MASS_RANGE[0], column).speed, g.SPEED_RANGE), column


def where_all_ends(source):
    """The greatest mass of the greatest speed, and the greatest speed of the greatest mass, by one."""
    w, *_, column = sliding(source)
    m, v = g.greatest_mass(w, g.SPEED_RANGE[1], column).mass, g.greatest_speed(w, g.MASS_RANGE[1], column).speed
    return w, by_one(source, m, g.MASS_RANGE), by_one(source, v, g.SPEED_RANGE), column


def where_a_formula_begins(source):
    """A dimension about those of the size column, two of which begin a formula's range."""
    _, m, v, column = any_numbers(source)
    return source.choice(g.SIZE_PAIRS)[0] + source.choice((-1, 0, 1)), m, v, column


def listed(source):
    """One of the aircraft above, by one gram and one cm/s."""
    column, w, m, v = source.choice((*(row[1:] for row in LAST + NEXT), *NO_SLIDE, SLOWEST))
    return w, by_one(source, m, g.MASS_RANGE), by_one(source, v, g.SPEED_RANGE), column


DRAWS = (any_numbers, where_a_speed_begins, where_a_mass_ends, where_none_begins, where_all_ends, where_a_formula_begins, listed)
