"""Aircraft at the edges of the high impact angle area: where the factor changes its rule, and close to the area limits.

checker/test_high_angle.py checks that each is of the kind written beside it. The speed makes no difference to any of them, so
they have none.
"""

import math

import ground_risk as g

# All whose exact energy is one of the two at which the factor changes its rule: joules, dimension (mm), mass (g).
AT_JOINTS = (
    (12_000, 3_385, 28_000),
    (12_000, 9_905, 70_000),
    (12_000, 26_160, 140_000),
    (3_125_000, 2_462, 350_000),
    (3_125_000, 5_674, 700_000),
    (3_125_000, 16_772, 1_750_000),
    (3_125_000, 24_525, 2_187_500),
    (3_125_000, 35_316, 2_625_000),
)

# Flagged: the column, the exact column, dimension, mass. One gram lies between the two of a dimension. The last three have their
# energy between 11,999 and 12,000 J: the exact factor is 2.3, the high one above the root.
FLAGGED = (
    (2, 1, 1_000, 25_642),
    (2, 2, 1_000, 25_643),
    (2, 1, 1_222, 16_091),
    (2, 2, 1_222, 16_092),
    (3, 2, 2_840, 381_854),
    (3, 3, 2_840, 381_855),
    (3, 2, 4_760, 66_689),
    (3, 3, 4_760, 66_690),
    (4, 3, 10_277, 1_171_183),
    (4, 4, 10_277, 1_171_184),
    (4, 3, 16_349, 186_954),
    (4, 4, 16_349, 186_955),
    (5, 4, 33_794, 2_567_521),
    (5, 5, 33_794, 2_567_522),
    (5, 4, 40_000, 1_218_730),
    (5, 5, 40_000, 1_218_731),
    (2, 1, 1_297, 13_823),
    (3, 2, 5_400, 41_835),
    (4, 3, 18_373, 115_582),
)

# The high area is the limit, the low area is the limit, the low area is one more: the limit, the kind, dimension, mass. At
# 65,000,000 no aircraft has its high area or one more in its low, and none has any area near the last limit.
AT_LIMITS = (
    (65_000, "high at", 1_019, 24_628),
    (65_000, "low at", 1_116, 20_059),
    (65_000, "low above", 1_297, 13_824),
    (650_000, "high at", 2_921, 345_739),
    (650_000, "low at", 2_844, 379_968),
    (650_000, "low above", 5_264, 46_023),
    (6_500_000, "high at", 17_100, 155_274),
    (6_500_000, "low at", 12_865, 492_076),
    (6_500_000, "low above", 13_368, 422_297),
    (65_000_000, "low at", 35_998, 1_942_497),
)

# The limits that the exact area crosses as the mass grows, and the first and last dimension at which it does.
CROSSED = ((65_000, 1_000, 1_297), (650_000, 2_840, 5_400), (6_500_000, 10_277, 18_373), (65_000_000, 33_794, 40_000))


def lightest(w, joules, parts=1):
    """The least mass whose exact energy is at least so many joules, or parts of a joule: more than none."""
    # the energy is 981 × m² / (98 × frontal area)
    square = -(-98 * g.frontal_area(w) * joules // (981 * parts))
    return math.isqrt(square - 1) + 1


def near_a_joint(source):
    """A dimension and a mass whose energy lies about 12,000 or 3,125,000 J."""
    w = source.randint(*g.FRONTAL_RANGE)
    joules = source.choice((g.ROOT_FROM, g.ROOT_TO)) + source.choice((-1, 0, 1))
    return w, lightest(w, joules) + source.choice((-1, 0, 1))


def near_a_limit(source):
    """A dimension and a mass by which the low, the exact or the high area crosses a limit."""
    limit, first, last = source.choice(CROSSED)
    w = source.randint(first, last)
    # the factor that makes the limit, in thousandths, or a whole one about it
    top, bottom = limit * 10 ** 8, 785 * (w + 600) ** 2
    top, bottom = source.choice(((top, bottom), (top // bottom, 1), (top // bottom + 1, 1)))
    # its energy: 1,000 J × (factor / 1,400)⁵
    at_limit = lightest(w, 1_000 * top ** 5, (1_400 * bottom) ** 5)
    return w, max(at_limit, lightest(w, g.ROOT_FROM)) + source.choice((-1, 0, 1))
