"""Descents at their edges: where rounding alone decides, and draws of descents near where the answer changes.

checker/test_descent.py checks that each is of the kind written beside it.
"""

from itertools import count, islice

import ground_risk as g

# Slowing × step is exactly the cruise speed, so that rounding alone decides what the first step leaves of it: its sign, dimension
# (mm), mass (g), speed (cm/s).
STOPPED = (
    (-1, 1_000, 98, 20_000),
    (-1, 1_125, 245, 40_000),
    (-1, 20_000, 98, 160),
    (-1, 40_000, 98, 80),
    (0, 1_100, 147, 25_000),
    (0, 1_125, 98, 16_000),
    (0, 1_250, 294, 40_000),
    (1, 2_000, 441, 30_000),
    (1, 3_250, 441, 15_000),
    (1, 3_510, 1_078, 31_250),
)

# The distance after so many steps is exactly the height (cm): dimension, mass, speed, height, steps.
AT_HEIGHT = (
    (4_762, 13_427_226, 109, 165, 58),
    (2_188, 19_885_362, 1_595, 165, 58),
    (6_799, 20_661_074, 4, 165, 58),
    (1_914, 8_636_913, 3_977, 113, 48),
    (7_828, 22_673_063, 1_190, 113, 48),
)

# The downward speed squared is exactly 3 × the horizontal speed squared at the end: dimension, mass, speed, height, steps.
AT_60 = (
    (9_167, 3_228_084, 465, 322, 82),
    (20_372, 11_836_308, 465, 329, 82),
)

# Five rounds find another speed than six at the state after so many steps: dimension, mass, speed, steps. Where both speeds are about
# the same, 2 of 500 million drawn states were such; elsewhere they are rarer still. The first two show in the next state.
SIXTH_ROUND = (
    (20_690, 836, 157, 10),
    (25_253, 1_207, 211, 12),
    (34_582, 207, 137, 3),
    (21_083, 1_081, 67, 5),
    (27_447, 1_998, 41, 6),
    (15_150, 571, 148, 7),
)

# The horizontal speed is below the least normal number at the end: dimension, mass, speed, height.
SUBNORMAL = (
    (40_000, 50, 40, 216),
    (40_000, 50, 39, 220),
)

# How many steps a drawn fall takes at most, for the sake of time.
DRAWN_STEPS = 600


def drawn_aircraft(source):
    """Any accepted dimension, mass and speed, as many small ones as large ones, no faster than what the first step stops."""
    w, m = int(1_000 * 40 ** source.random()), int(50 * 500_000 ** source.random())
    fastest = min(40_000, 10 ** 9 * m // (49 * g.frontal_area(w)))
    return w, m, source.choice((0, int((fastest + 1) ** source.random()), source.randint(0, fastest), min(fastest, 2_500)))


def low_height(source, aircraft):
    """The distance after a drawn number of steps, in whole centimetres down or up: often the one takes a step more than the other."""
    steps = int(DRAWN_STEPS ** source.random())
    fallen = next(islice(g.states(*aircraft), steps, None)).fallen
    return min(g.HEIGHT_RANGE[1], max(1, int(100 * fallen) + source.choice((0, 1))))


def any_descent(source):
    """Of an accepted aircraft from any height, with a budget that is often too small."""
    return *drawn_aircraft(source), int(50_000 ** source.random()), int(DRAWN_STEPS ** source.random())


def landing(source):
    """The budget is enough."""
    aircraft = drawn_aircraft(source)
    return *aircraft, low_height(source, aircraft), source.randint(10_000, 20_000)


def near_the_budget(source):
    """The budget is the number of steps, one more, or one fewer."""
    *given, budget = landing(source)
    steps = g.descent(*given, budget).steps
    return *given, max(1, steps + source.choice((-1, 0, 1)))


def near_stopping(source):
    """The first step takes all of the cruise speed, by a gram, and by rounding."""
    _, w, m, v = source.choice(STOPPED)
    if source.random() < 0.8:
        w = source.randint(*g.FRONTAL_RANGE)
        # at least the speed that stops 50 g
        v = source.randint(50 * 10 ** 9 // (49 * g.frontal_area(w)) + 1, 40_000)
        m = max(50, 49 * g.frontal_area(w) * v // 10 ** 9 + source.choice((-1, 0, 0, 1)))
    return w, m, v, source.randint(1, 3), source.choice((1, 2, 5, 20_000))


def near_60_degrees(source):
    """The last height that isn't above 60 degrees, or the first that is."""
    # from so slow a speed that it takes few steps
    w, m, _ = drawn_aircraft(source)
    v = source.randint(1, min(1_500, 10 ** 9 * m // (49 * g.frontal_area(w))))
    before = 0.0
    for state in islice(g.states(w, m, v), 1, None):
        if g.above_60(state):
            break
        before = state.fallen
    return w, m, v, min(g.HEIGHT_RANGE[1], max(1, int(100 * before) + source.choice((0, 1)))), 20_000


def decided_by_rounding(source):
    """The distance is exactly the height, the angle exactly 60 degrees, or the sixth round changes the last step."""
    w, m, v, height, _ = source.choice(AT_HEIGHT + AT_60)
    if source.random() < 0.4:
        w, m, v, steps = source.choice(SIXTH_ROUND)
        height = max(1, int(100 * next(islice(g.states(w, m, v), steps + 1, None)).fallen))
    return w, m, v, height, 20_000


DRAWS = (any_descent, landing, near_the_budget, near_stopping, near_60_degrees, decided_by_rounding)


def descents(source):
    """Drawn descents without end, of every kind in turn."""
    for number in count():
        yield DRAWS[number % len(DRAWS)](source)
