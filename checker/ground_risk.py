"""The ground risk sheet, written a second time from documents 01 and 02.

This says what every operation must answer, for every input. It is written to
be read beside the papers, not to be fast. Quoted sentences are document 01's,
or those of the item of document 02 that is named before them.
"""

from bisect import bisect_left, bisect_right
from collections import namedtuple
from fractions import Fraction
from itertools import islice
from typing import NamedTuple

# Every refusal, in the words of document 01's lists, from 16 on of document
# 02's items. Document 02 item 1: "refusal 15 now speaks of 43 bytes."
REFUSALS = {
    1: "dimension outside its range",
    2: "mass",
    3: "speed",
    4: "high area above 650,000,000",
    5: "the map isn't 4,096 numbers long or the footprint isn't 64",
    6: "cell area out of range",
    7: "any count, marked or not, above 1,000,000",
    8: "no bit set",
    9: "column not 1 to 5, row not 2 to 7, or mark not 0 or 1; or class not an entry of that column",
    10: 'the entry is "none"',
    11: "a digit that isn't offered",
    12: "a final class above 7",
    13: "length other than 33,959",
    14: "a byte that isn't a digit or line end in its place",
    15: "a buffer shorter than 43 bytes, for refused cases too",
    16: "after 1 to 3, the dimension is outside 1,000 to 40,000 mm",
    17: "after 1, 2, 3 and 16, the height is outside 1 to 50,000 cm or the step budget outside 1 to 20,000",
    18: "the definition's state after the whole budget is still short of the height",
    19: "a step makes either speed negative",
    20: "the wanted column isn't 1 to 5",
    21: "exactly when no such number exists",
}

# ---------------------------------------------------------------------------
# The aircraft and its area
# ---------------------------------------------------------------------------

# "Dimension w is 50 to 100,000 mm. Mass m is 50 to 25,000,000 g.
#  Speed v is 0 to 40,000 cm/s."
DIMENSION_RANGE = (50, 100_000)
MASS_RANGE = (50, 25_000_000)
SPEED_RANGE = (0, 40_000)

# "65,000; 650,000; 6,500,000; 65,000,000; 650,000,000 square centimetres."
AREA_LIMITS = (65_000, 650_000, 6_500_000, 65_000_000, 650_000_000)

# Document 02 item 1: "The pairs are 1,000 mm and 2,500 cm/s; 3,000 and 3,500;
#  8,000 and 7,500; 20,000 and 12,000; 40,000 and 20,000."
SIZE_PAIRS = ((1_000, 2_500), (3_000, 3_500), (8_000, 7_500), (20_000, 12_000), (40_000, 20_000))

# "tan is 0.7002075382, cos is 0.8191520443 (35 degrees, ten places; these
#  decimals are the definition)."
TAN = Fraction("0.7002075382")
COS = Fraction("0.8191520443")
# "3.14 × D²" and "9.81", of both models
PI = Fraction("3.14")
GRAVITY = Fraction("9.81")


def within(value, limits):
    return limits[0] <= value <= limits[1]


def round_down(value):
    return value.numerator // value.denominator


def round_up(value):
    return -((-value.numerator) // value.denominator)


def aircraft_refusal(w, m, v):
    # "1 dimension outside its range; 2 mass; 3 speed"
    if not within(w, DIMENSION_RANGE):
        return 1
    if not within(m, MASS_RANGE):
        return 2
    if not within(v, SPEED_RANGE):
        return 3
    return 0


def exact_glide():
    # "Glide is 1.8 / tan metres."
    return Fraction("1.8") / TAN


def exact_slide(m, v):
    # "With V in m/s and M in kg, slide is ((0.65 × cos × V)² − 580 / M) /
    #  (2 × 0.75 × 9.81) metres, or 0 where that is negative."
    speed = Fraction(v, 100)
    mass = Fraction(m, 1000)
    slide = ((Fraction("0.65") * COS * speed) ** 2 - 580 / mass) / (
        2 * Fraction("0.75") * GRAVITY)
    return max(slide, Fraction(0))


WHOLE, SIX_TENTHS, GLIDE_ONLY = "whole", "six tenths", "glide only"


def area_formula(w):
    """Which of the three area formulas a dimension takes."""
    # Document 02 item 6: "8 metres and above is the first case, below 1 metre is
    #  the third. So 1,000 mm takes six tenths of the full formula and 8,000 mm
    #  takes all of it."
    return WHOLE if w >= 8_000 else SIX_TENTHS if w >= 1_000 else GLIDE_ONLY


def exact_d(w):
    # "Let D be 0.3 + half the dimension, in metres."
    return Fraction("0.3") + Fraction(w, 1000) / 2


def exact_circle(w):
    # "3.14 × D²"
    return PI * exact_d(w) ** 2


def exact_area(w, m, v):
    """The exact area in square centimetres; None outside the ranges."""
    if aircraft_refusal(w, m, v) != 0:
        return None
    d = exact_d(w)
    # "2 × D × (glide + slide) + 3.14 × D²."
    whole = 2 * d * (exact_glide() + exact_slide(m, v)) + exact_circle(w)
    formula = area_formula(w)
    if formula == WHOLE:
        area = whole
    elif formula == SIX_TENTHS:
        # "six tenths of the same."
        area = Fraction(6, 10) * whole
    else:
        # "2 × D × glide + half of 3.14 × D². No slide."
        area = 2 * d * exact_glide() + exact_circle(w) / 2
    # "10,000 times the one above, never rounded."
    return 10_000 * area


def first_column(area, power=1):
    # "the first whose area limit is at least" this area; 0 where none is. Of
    # an area that stands as a power, the limits' powers are compared.
    columns = [column for column in (1, 2, 3, 4, 5)
               if AREA_LIMITS[column - 1] ** power >= area]
    return columns[0] if columns else 0


def exact_column(w, m, v):
    # "The exact column is the first whose area limit is at least this fraction"
    area = exact_area(w, m, v)
    return 0 if area is None else first_column(area)


def size_column(w, v):
    # Document 02 item 1: "the first of five whose dimension and speed are both
    #  at least the aircraft's"; "It is 0 where none is large enough."
    columns = [column for column, (dimension, speed) in enumerate(SIZE_PAIRS, 1)
               if dimension >= w and speed >= v]
    return columns[0] if columns else 0


class Line(NamedTuple):
    low: int
    high: int


class Sheet(NamedTuple):
    # "The sheet holds lines 1 to 6, the column and the flag"
    refusal: int
    glide: Line
    run: Line
    saving: Line
    slide: Line
    t: Line
    area: Line
    column: int
    flag: int
    # Document 02 item 1: "The sheet's record gains a size column"; "The class
    #  still comes from the area", by column: nothing is worked out from this.
    size_column: int


def refused_sheet(refusal):
    # "a refused sheet is all zeros."
    return Sheet(refusal, Line(0, 0), Line(0, 0), Line(0, 0), Line(0, 0),
                 Line(0, 0), Line(0, 0), 0, 0, 0)


def glide_line():
    # "1. Glide: low 2,570,666, high 2,570,667."
    return Line(2_570_666, 2_570_667)


def run_line(v):
    # "2. Run: v × v × 1,926,617,433 / 10⁹ rounded down;
    #  v × v × 1,926,617,434 / 10⁹ rounded up."
    return Line(round_down(Fraction(v * v * 1_926_617_433, 10 ** 9)),
                round_up(Fraction(v * v * 1_926_617_434, 10 ** 9)))


def saving_line(m):
    # "3. Saving: 39,415,562,351 / m rounded down;
    #  39,415,562,352 / m rounded up."
    return Line(round_down(Fraction(39_415_562_351, m)),
                round_up(Fraction(39_415_562_352, m)))


def slide_line(run, saving):
    # "4. Slide low: run low less saving high. Slide high: run high less saving
    #  low. Zero where negative."
    return Line(max(0, run.low - saving.high), max(0, run.high - saving.low))


def full_width(w):
    # "a is w + 600, in millimetres."
    return w + 600


def t_line(w, glide, slide):
    a = full_width(w)
    # "5. T is a × (glide + slide) + 785 × a × a"
    return Line(a * (glide.low + slide.low) + 785 * a * a,
                a * (glide.high + slide.high) + 785 * a * a)


def area_line(w, glide, t):
    # "6. Area in square centimetres, low rounded down and high rounded up".
    #  Document 02 item 6 moves the cuts of this line, "above 8,000 mm" and "above
    #  1,000 mm": they are those of area_formula.
    a, formula = full_width(w), area_formula(w)
    if formula == WHOLE:
        # "T / 100,000"
        low, high = Fraction(t.low, 100_000), Fraction(t.high, 100_000)
    elif formula == SIX_TENTHS:
        # "3 × T / 500,000"
        low, high = Fraction(3 * t.low, 500_000), Fraction(3 * t.high, 500_000)
    else:
        # "otherwise (2 × a × glide + 785 × a × a) / 200,000."
        low = Fraction(2 * a * glide.low + 785 * a * a, 200_000)
        high = Fraction(2 * a * glide.high + 785 * a * a, 200_000)
    return Line(round_down(low), round_up(high))


def column_and_flag(area):
    # "The column is the first whose area limit is at least the high area"
    column = first_column(area.high)
    # "The flag is 1 when the column isn't the first and the low area is at
    #  most the limit before it, otherwise 0."
    flag = 1 if column != 1 and area.low <= AREA_LIMITS[column - 2] else 0
    return column, flag


def sheet(w, m, v):
    refusal = aircraft_refusal(w, m, v)
    if refusal != 0:
        return refused_sheet(refusal)
    # "all six lines are filled at every dimension."
    glide = glide_line()
    run = run_line(v)
    saving = saving_line(m)
    slide = slide_line(run, saving)
    t = t_line(w, glide, slide)
    area = area_line(w, glide, t)
    # "4 high area above 650,000,000."
    if area.high > AREA_LIMITS[-1]:
        return refused_sheet(4)
    return Sheet(0, glide, run, saving, slide, t, area, *column_and_flag(area), size_column(w, v))


# ---------------------------------------------------------------------------
# The high impact angle area for multirotors: document 02 item 2, quoted here
# ---------------------------------------------------------------------------

# "The frontal area in square millimetres runs in straight lines between
#  100,000 at 1,000 mm, 500,000 at 3,000, 2,500,000 at 8,000, 12,500,000 at
#  20,000 and 25,000,000 at 40,000, rounded down."
FRONTAL_POINTS = ((1_000, 100_000), (3_000, 500_000), (8_000, 2_500_000),
                  (20_000, 12_500_000), (40_000, 25_000_000))
# "16 when, after 1 to 3, the dimension is outside 1,000 to 40,000 mm."
FRONTAL_RANGE = (1_000, 40_000)
# "1.225 × 0.8 × frontal area": the air density, Annex F's, and the drag coefficient, 002's
AIR_DENSITY = Fraction("1.225")
DRAG_COEFFICIENT = Fraction("0.8")
# "The factor is 2.3 below 12,000 J and 7 above 3,125,000 J. Between them it is
#  1.4 times the fifth root of the energy in kJ."
ROOT_FROM, ROOT_TO = 12_000, 3_125_000
# of every whole number up to 7,000, the largest factor in thousandths
FIFTH_POWERS = [number ** 5 for number in range(7_001)]


def multirotor_refusal(w, m, v):
    # "16 when, after 1 to 3, the dimension is outside 1,000 to 40,000 mm."
    refusal = aircraft_refusal(w, m, v)
    if refusal == 0 and not within(w, FRONTAL_RANGE):
        return 16
    return refusal


def frontal_area(w):
    """In square millimetres."""
    for (start, first), (end, last) in zip(FRONTAL_POINTS, FRONTAL_POINTS[1:]):
        if within(w, (start, end)):
            return round_down(first + Fraction((last - first) * (w - start), end - start))


def exact_energy(w, m):
    # "The energy at terminal speed is mass² × 9.81 / (1.225 × 0.8 × frontal
    #  area), in kg and square metres"
    mass = Fraction(m, 1000)
    frontal = Fraction(frontal_area(w), 10 ** 6)
    return mass ** 2 * GRAVITY / (AIR_DENSITY * DRAG_COEFFICIENT * frontal)


def joules_line(energy):
    # "keep it in whole joules, down and up."
    return Line(round_down(energy), round_up(energy))


def root_down(power):
    # "the largest whole number whose fifth power is at most" this
    return bisect_right(FIFTH_POWERS, power) - 1


def root_up(power):
    # "the smallest whose fifth power is at least" this
    return bisect_left(FIFTH_POWERS, power)


def factor_of(joules, root):
    if joules < ROOT_FROM:
        return 2_300
    if joules > ROOT_TO:
        return 7_000
    # "5,378,240,000,000 × the low joules"; "that constant × the high joules"
    return root(5_378_240_000_000 * joules)


def factor_line(joules):
    # "In thousandths"; "Each of the two is chosen by its own joules alone, 2.3
    #  and 7 included."
    return Line(factor_of(joules.low, root_down), factor_of(joules.high, root_up))


def high_angle_area_line(w, factor):
    # "the area is the safety factor × 3.14 × D²"; "Area low and high follow in
    #  square centimetres, rounded outward."
    for_a_thousandth = 10_000 * exact_circle(w) / 1000
    return Line(round_down(factor.low * for_a_thousandth), round_up(factor.high * for_a_thousandth))


class HighAngle(NamedTuple):
    # "The answer holds frontal area, joules, factor and area, the last three
    #  low and high, with column and flag as on the old sheet"
    refusal: int
    column: int
    flag: int
    frontal_area: int
    joules: Line
    factor: Line
    area: Line


def refused_high_angle(refusal):
    # as a refused sheet, all zeros
    return HighAngle(refusal, 0, 0, 0, Line(0, 0), Line(0, 0), Line(0, 0))


def high_angle(w, m, v):
    refusal = multirotor_refusal(w, m, v)
    if refusal != 0:
        return refused_high_angle(refusal)
    joules = joules_line(exact_energy(w, m))
    factor = factor_line(joules)
    area = high_angle_area_line(w, factor)
    # "refusal 4 never occurs here": no area is above the last limit
    return HighAngle(0, *column_and_flag(area), frontal_area(w), joules, factor, area)


# The accuracy rule: "the exact area, with the exact energy from that frontal
# area, lies in the bracket". "Where the fifth root isn't a fraction, "lies in"
# compares fifth powers": the exact area stands as its fifth power, which says
# the same where the root is a fraction.

def exact_factor_power(energy):
    """The fifth power of the exact factor."""
    if energy < ROOT_FROM:
        return Fraction("2.3") ** 5
    if energy > ROOT_TO:
        return Fraction(7) ** 5
    return Fraction("1.4") ** 5 * energy / 1000


def exact_high_angle_power(w, m, v):
    """The fifth power of the exact area in square centimetres; None where it is refused."""
    if multirotor_refusal(w, m, v) != 0:
        return None
    return exact_factor_power(exact_energy(w, m)) * (10_000 * exact_circle(w)) ** 5


def lies_in(power, area):
    return area.low ** 5 <= power <= area.high ** 5


def exact_high_angle_column(w, m, v):
    # "The exact column is the first whose area limit is at least this fraction",
    # by the same comparison
    power = exact_high_angle_power(w, m, v)
    return 0 if power is None else first_column(power, 5)


# ---------------------------------------------------------------------------
# The descent from the operating height: document 02 item 4, quoted here
# ---------------------------------------------------------------------------

# Python's floats are the item's f64. Each operation below is one of the item's,
# in its order, and rounded by itself.

# "Each step is 0.01 s."
STEP = 0.01
# "the height is outside 1 to 50,000 cm or the step budget outside 1 to 20,000."
HEIGHT_RANGE = (1, 50_000)
BUDGET_RANGE = (1, 20_000)


class Fall(NamedTuple):
    # "The state is horizontal speed, downward speed and distance fallen, in f64."
    horizontal: float
    downward: float
    fallen: float


def speed_of(state):
    x, y = state.horizontal, state.downward
    # "speed is 0 when both are 0."
    if x == 0 and y == 0:
        return 0.0
    # "Speed is found from the sum of the squares by six rounds: sum over guess,
    #  added to the guess, times 0.5. The first guess is the two speeds added"
    squares = x * x + y * y
    guess = x + y
    for _ in range(6):
        guess = (squares / guess + guess) * 0.5
    return guess


def next_state(state, area, mass):
    """The state a step later, for a frontal area in square metres and a mass in kilograms."""
    # "Drag per speed is 0.5 × 1.225 × frontal area × 0.8 × speed, in that order."
    drag = 0.5 * 1.225 * area * 0.8 * speed_of(state)
    # "Both new speeds come from the old state. A speed's slowing is drag per
    #  speed × that speed / mass. The new horizontal speed is the old less
    #  (slowing × step)."
    horizontal = state.horizontal - drag * state.horizontal / mass * STEP
    # "The new downward speed is the old plus ((9.81 less slowing) × step)."
    downward = state.downward + (9.81 - drag * state.downward / mass) * STEP
    # "The distance grows by 0.5 × (old plus new downward speed) × step."
    fallen = state.fallen + 0.5 * (state.downward + downward) * STEP
    return Fall(horizontal, downward, fallen)


def states(w, m, v):
    """The first state, then without end the state after each step."""
    # "Inputs become metres, kilograms and square metres by one division each."
    area, mass = frontal_area(w) / 1_000_000, m / 1000
    # "The first state is the cruise speed, 0 and 0."
    state = Fall(v / 100, 0.0, 0.0)
    while True:
        yield state
        state = next_state(state, area, mass)


def above_60(state):
    # "The angle is above 60 degrees when downward speed squared exceeds 3 ×
    #  (horizontal speed squared)."
    squared = state.horizontal * state.horizontal
    return 1 if state.downward * state.downward > 3 * squared else 0


class Descent(NamedTuple):
    # "The answer gives that verdict, the end state and the number of steps"
    refusal: int
    above_60: int
    steps: int
    end: Fall


def refused_descent(refusal):
    # as a refused sheet, all zeros
    return Descent(refusal, 0, 0, Fall(0.0, 0.0, 0.0))


def descent_refusal(w, m, v, height, budget):
    # "17 when, after 1, 2, 3 and 16, the height is outside 1 to 50,000 cm or the
    #  step budget outside 1 to 20,000."
    refusal = multirotor_refusal(w, m, v)
    if refusal == 0 and not (within(height, HEIGHT_RANGE) and within(budget, BUDGET_RANGE)):
        return 17
    return refusal


def descent(w, m, v, height, budget):
    refusal = descent_refusal(w, m, v, height, budget)
    if refusal != 0:
        return refused_descent(refusal)
    # "the number of steps, which is the number of states made after the first."
    for steps, state in enumerate(islice(states(w, m, v), 1, budget + 1), 1):
        # "19 when a step makes either speed negative, tested at each new state
        #  before the ground and before 18."
        if state.horizontal < 0 or state.downward < 0:
            return refused_descent(19)
        # "The fall ends at the first state whose distance is at least the height."
        if state.fallen >= height / 100:
            return Descent(0, above_60(state), steps, state)
    # "18 when the definition's state after the whole budget is still short of
    #  the height."
    return refused_descent(18)


# ---------------------------------------------------------------------------
# The greatest speed and the greatest mass: document 02 item 5, quoted here
# ---------------------------------------------------------------------------

class GreatestSpeed(NamedTuple):
    # "Given dimension, mass and a column, the console answers the greatest speed"
    refusal: int
    speed: int


class GreatestMass(NamedTuple):
    # "Given dimension, speed and a column, it answers the greatest mass"
    refusal: int
    mass: int


def passes(w, m, v, column):
    # "for which the sheet is accepted with a column no higher." "Both use the
    #  glide model": the sheet's.
    answer = sheet(w, m, v)
    return answer.refusal == 0 and answer.column <= column


def greatest(limits, number_passes):
    """The greatest number of a range that passes; None where none does."""
    # Found by halving, as no number passes after one that doesn't. The dimension
    # is given, and with it the area formula. More speed never lowers the run,
    # more mass never raises the saving: neither high slide, high T nor high area
    # falls, whole numbers as they are, since rounding keeps their order. So the
    # column doesn't fall either, and refusal 4 is only more area.
    lowest, highest = limits
    numbers = range(lowest, highest + 1)
    passing = bisect_left(numbers, True, key=lambda number: not number_passes(number))
    return numbers[passing - 1] if passing != 0 else None


def wanted_refusal(w, m, v, column):
    # "the given inputs' range refusals come first. 20 when the wanted column
    #  isn't 1 to 5."
    refusal = aircraft_refusal(w, m, v)
    if refusal == 0 and column not in (1, 2, 3, 4, 5):
        return 20
    return refusal


def greatest_speed(w, m, column):
    # no speed is given: the lowest in range stands for it
    refusal = wanted_refusal(w, m, min(SPEED_RANGE), column)
    if refusal != 0:
        return GreatestSpeed(refusal, 0)
    # "the greatest speed from 0 to 40,000"
    speed = greatest(SPEED_RANGE, lambda v: passes(w, m, v, column))
    # "21 exactly when no such number exists."
    return GreatestSpeed(21, 0) if speed is None else GreatestSpeed(0, speed)


def greatest_mass(w, v, column):
    # no mass is given: the least in range stands for it
    refusal = wanted_refusal(w, min(MASS_RANGE), v, column)
    if refusal != 0:
        return GreatestMass(refusal, 0)
    # "the greatest mass in range likewise."
    mass = greatest(MASS_RANGE, lambda m: passes(w, m, v, column))
    # "21 exactly when no such number exists."
    return GreatestMass(21, 0) if mass is None else GreatestMass(0, mass)


# ---------------------------------------------------------------------------
# The footprint on the map
# ---------------------------------------------------------------------------

# "A map is 64 rows of 64 cells"; "4,096 32-bit numbers, row after row."
ROWS = 64
COLUMNS = 64
PLACES = 4096
# "one cell area s for all, 100 to 25,000,000 square metres."
CELL_AREA_RANGE = (100, 25_000_000)
# "one head count (0 to 1,000,000) a cell"
LARGEST_COUNT = 1_000_000


class Footprint(NamedTuple):
    refusal: int
    row: int
    place: int
    people: int
    cells: int


def table_row(people, cell_area):
    # "2 when people × 1,000,000 is less than 5 × s; else 3 for 50, 4 for 500,
    #  5 for 5,000, 6 for 50,000; else 7."
    for row, density in ((2, 5), (3, 50), (4, 500), (5, 5_000), (6, 50_000)):
        if people * 1_000_000 < density * cell_area:
            return row
    return 7


def is_marked(marks, place):
    # "the highest bit of each is the westernmost cell, and a set bit marks a
    #  cell as flown over."
    return (marks[place // COLUMNS] >> (COLUMNS - 1 - place % COLUMNS)) & 1 == 1


NO_FOOTPRINT = (0, 0, 0, 0)


def footprint(counts, marks, cell_area):
    # "5 the map isn't 4,096 numbers long or the footprint isn't 64"
    if len(counts) != PLACES or len(marks) != ROWS:
        return Footprint(5, *NO_FOOTPRINT)
    # "6 cell area out of range"
    if not within(cell_area, CELL_AREA_RANGE):
        return Footprint(6, *NO_FOOTPRINT)
    # "7 any count, marked or not, above 1,000,000"
    if any(count > LARGEST_COUNT for count in counts):
        return Footprint(7, *NO_FOOTPRINT)
    # "8 no bit set."
    marked = [place for place in range(PLACES) if is_marked(marks, place)]
    if not marked:
        return Footprint(8, *NO_FOOTPRINT)
    # "the highest row among marked cells", each count once
    row = max(table_row(count, cell_area) for count in {counts[place] for place in marked})
    # "the place (64 × row + column) of the first marked cell with the largest
    #  count"
    largest = max(counts[place] for place in marked)
    place = [place for place in marked if counts[place] == largest][0]
    # "the sum of people in marked cells; and the number of marked cells"
    people = sum(counts[place] for place in marked)
    return Footprint(0, row, place, people, len(marked))


# ---------------------------------------------------------------------------
# The class table
# ---------------------------------------------------------------------------

NONE = None

# Table row by row, columns 1 to 5.
CLASS_TABLE = {
    1: (1, 1, 2, 3, 3),
    2: (2, 3, 4, 5, 6),
    3: (3, 4, 5, 6, 7),
    4: (4, 5, 6, 7, 8),
    5: (5, 6, 7, 8, 9),
    6: (6, 7, 8, 9, 10),
    7: (7, 8, NONE, NONE, NONE),
}


def row_used(row, controlled):
    # "A controlled-ground mark of 1 puts row 1 in place of the footprint's
    #  row; 0 keeps it."
    return 1 if controlled == 1 else row


def intrinsic_class(column, row, controlled):
    """The refusal and the intrinsic class."""
    # "9 column not 1 to 5, row not 2 to 7, or mark not 0 or 1"
    if column not in (1, 2, 3, 4, 5):
        return 9, 0
    if row not in (2, 3, 4, 5, 6, 7):
        return 9, 0
    if controlled not in (0, 1):
        return 9, 0
    entry = CLASS_TABLE[row_used(row, controlled)][column - 1]
    # "10 the entry is "none". The answer is zero then."
    if entry is NONE:
        return 10, 0
    return 0, entry


# ---------------------------------------------------------------------------
# The mitigation word
# ---------------------------------------------------------------------------

# "Credits: M1(A) 1 gives 1, 2 gives 2; M1(B) 2 gives 1, 3 gives 2; M1(C) 1
#  gives 1; M2 2 gives 1, 3 gives 2; 0 gives nothing. Other digits aren't
#  offered."
M1A_CREDITS = {0: 0, 1: 1, 2: 2}
M1B_CREDITS = {0: 0, 2: 1, 3: 2}
M1C_CREDITS = {0: 0, 1: 1}
M2_CREDITS = {0: 0, 2: 1, 3: 2}


def word_digits(word):
    # "Four hexadecimal digits, in order M1(A), M1(B), M1(C), M2."
    return ((word // 4096) % 16, (word // 256) % 16, (word // 16) % 16, word % 16)


def final_class(column, cls, word):
    """The refusal and the final class."""
    # "9 column not 1 to 5 or class not an entry of that column"
    if column not in (1, 2, 3, 4, 5):
        return 9, 0
    entries = [CLASS_TABLE[row][column - 1] for row in CLASS_TABLE
               if CLASS_TABLE[row][column - 1] is not NONE]
    if cls not in entries:
        return 9, 0
    # "11 a digit that isn't offered"
    m1a, m1b, m1c, m2 = word_digits(word)
    if (m1a not in M1A_CREDITS or m1b not in M1B_CREDITS
            or m1c not in M1C_CREDITS or m2 not in M2_CREDITS):
        return 11, 0
    # "The three M1 credits come off the intrinsic class first, but never below
    #  the row 1 entry of the column."
    floor = CLASS_TABLE[1][column - 1]
    after_m1 = max(floor, cls - M1A_CREDITS[m1a] - M1B_CREDITS[m1b] - M1C_CREDITS[m1c])
    # "M2 comes off last, with no floor"
    final = after_m1 - M2_CREDITS[m2]
    # "12 a final class above 7. The answer is zero then"
    if final > 7:
        return 12, 0
    return 0, final


# ---------------------------------------------------------------------------
# Workings and the whole assessment
# ---------------------------------------------------------------------------

class Working(NamedTuple):
    """A class that isn't given is None."""
    refusal: int
    intrinsic: int | None
    final: int | None


def working(column, counts, marks, cell_area, controlled, word):
    # "Each working takes the footprint's row, then the class table, then the
    #  mitigation word, with its own column at both."
    # "The first refusal ends a working: a class given before it counts as
    #  given, a later one isn't given."
    ground = footprint(counts, marks, cell_area)
    if ground.refusal != 0:
        return Working(ground.refusal, None, None)
    return working_from_row(column, ground.row, controlled, word)


def working_from_row(column, row, controlled, word):
    refusal, intrinsic = intrinsic_class(column, row, controlled)
    if refusal != 0:
        return Working(refusal, None, None)
    refusal, final = final_class(column, intrinsic, word)
    if refusal != 0:
        return Working(refusal, intrinsic, None)
    return Working(0, intrinsic, final)


class Assessment(NamedTuple):
    refusal: int
    sheet: Sheet
    footprint: Footprint
    row_used: int
    intrinsic: int
    final_class: int


def refused_assessment(refusal):
    # Demand 1: "After a refusal every number is zero"
    return Assessment(refusal, refused_sheet(0), Footprint(0, *NO_FOOTPRINT), 0, 0, 0)


def assessment(w, m, v, counts, marks, cell_area, controlled, word):
    # "sheet, footprint, class, mitigation; the first refusal"
    aircraft = sheet(w, m, v)
    if aircraft.refusal != 0:
        return refused_assessment(aircraft.refusal)
    ground = footprint(counts, marks, cell_area)
    if ground.refusal != 0:
        return refused_assessment(ground.refusal)
    refusal, intrinsic = intrinsic_class(aircraft.column, ground.row, controlled)
    if refusal != 0:
        return refused_assessment(refusal)
    refusal, final = final_class(aircraft.column, intrinsic, word)
    if refusal != 0:
        return refused_assessment(refusal)
    return Assessment(0, aircraft, ground, row_used(ground.row, controlled),
                      intrinsic, final)


# ---------------------------------------------------------------------------
# Case text
# ---------------------------------------------------------------------------

# "House text is hexadecimal in lower case, one frame a line, each ended by
#  byte 10 (decimal)."
DIGITS = b"0123456789abcdef"
LINE_END = bytes([10])

# "Line 1 has 38 digits: dimension 8, mass 8, speed 8, cell area 8, controlled
#  mark 2, mitigation word 4."
LINE_1 = (("dimension", 8), ("mass", 8), ("speed", 8), ("cell_area", 8),
          ("controlled", 2), ("word", 4))
Fields = namedtuple("Fields", [name for name, _ in LINE_1])
NO_FIELDS = Fields(*(0 for _ in LINE_1))


class Block(NamedTuple):
    """Lines of the text, each of fields with these widths in digits."""
    name: str
    lines: int
    widths: tuple
    # the lent buffer that takes its numbers; line 1 has none
    fills: str = ""


# "Then 64 lines of 16 digits, the footprint, and 64 lines of 512 digits, eight
#  a count. The whole is 33,959 bytes."
BLOCKS = (
    Block("line 1", 1, tuple(width for _, width in LINE_1)),
    Block("footprint lines", ROWS, (16,), "marks"),
    Block("count lines", ROWS, (8,) * COLUMNS, "counts"),
)
TEXT_LENGTH = 33_959

# "a lent count or footprint buffer", each with its right length.
LENT = (("counts", PLACES), ("marks", ROWS))
Lent = namedtuple("Lent", [name for name, _ in LENT])
LENT_LENGTHS = Lent(*(length for _, length in LENT))


def zeros(lengths=LENT_LENGTHS):
    """Lent buffers of these lengths, holding zeros."""
    return Lent(*([0] * length for length in lengths))


def line_digits(name):
    """The digits of a line of the block of this name."""
    return next(sum(block.widths) for block in BLOCKS if block.name == name)


def text_place(name, line, digit):
    """The place in the text of a digit of a line of the block of this name, both
    counted from 0. The line end is the digit after the last one."""
    start = 0
    for block in BLOCKS:
        length = sum(block.widths) + 1
        if block.name == name:
            return start + line * length + digit
        start += block.lines * length


class Reading(NamedTuple):
    refusal: int
    fields: Fields
    lent: Lent


def is_text(text):
    # "14 a byte that isn't a digit or line end in its place."
    lines = bytes(text).split(LINE_END)
    lengths = [sum(block.widths) for block in BLOCKS for _ in range(block.lines)]
    return ([len(line) for line in lines] == lengths + [0]
            and all(byte in DIGITS for byte in set(b"".join(lines))))


def numbers_of(line, widths):
    numbers, start = [], 0
    for width in widths:
        numbers.append(int(line[start:start + width], 16))
        start += width
    return numbers


def read_case(text, lent):
    """The reading, with the lent buffers as they are at exit."""
    lent = Lent(*map(list, lent))
    # "13 length other than 33,959"
    if len(text) != TEXT_LENGTH:
        return Reading(13, NO_FIELDS, lent)
    # "5 a lent count or footprint buffer of the wrong length"
    if tuple(map(len, lent)) != LENT_LENGTHS:
        return Reading(5, NO_FIELDS, lent)
    # "All bytes are tested before any is stored, so a refused reading changes
    #  neither buffer."
    if not is_text(text):
        return Reading(14, NO_FIELDS, lent)
    lines = iter(bytes(text).split(LINE_END))
    read = {block.fills: [number for _ in range(block.lines)
                          for number in numbers_of(next(lines), block.widths)]
            for block in BLOCKS}
    return Reading(0, Fields(*read.pop("")), Lent(**read))


def line_of(numbers, widths):
    """Each number in as many digits as its field has, and the line end."""
    fields = b"".join(b"%%0%dx" % width for width in widths)
    return fields % tuple(numbers) + LINE_END


def text_of_fields(fields, lent):
    """The case text of these fields and of what a reading of it fills."""
    lines = []
    for block in BLOCKS:
        numbers = getattr(lent, block.fills) if block.fills else fields
        for start in range(0, len(numbers), len(block.widths)):
            lines.append(line_of(numbers[start:start + len(block.widths)], block.widths))
    return b"".join(lines)


# ---------------------------------------------------------------------------
# Printed frame and the whole case
# ---------------------------------------------------------------------------

# "The printed frame has 40 digits and a line end: 00; low 8; high 8; column 2;
#  flag 2; table row used 2; place 4; people 8; intrinsic class 2; final class 2
#  (−1 is ff)." Document 02 item 1: "The printed frame gains two digits for it
#  after the flag": 42 digits and a line end.
FRAME = (("low", 8), ("high", 8), ("column", 2), ("flag", 2), ("size_column", 2), ("row_used", 2),
         ("place", 4), ("people", 8), ("intrinsic", 2), ("final_class", 2))
Frame = namedtuple("Frame", [name for name, _ in FRAME])
FRAME_LENGTH = 43
# "A refused case gives its number as two digits and a line end instead."
REFUSAL_DIGITS = 2
REFUSAL_LENGTH = 3


def frame_text(outcome):
    """The bytes for a frame's fields, or for a refusal number."""
    if not isinstance(outcome, Frame):
        return line_of([outcome], [REFUSAL_DIGITS])
    if outcome.final_class < 0:
        outcome = outcome._replace(final_class=255)
    # Of a number too long for its field the last digits are written.
    widths = [width for _, width in FRAME]
    numbers = [number % 16 ** width for number, width in zip(outcome, widths)]
    return line_of([0, *numbers], [REFUSAL_DIGITS, *widths])


def printed_length(refusal):
    """How many bytes of the frame buffer a case with this answer writes."""
    if refusal == 15:
        return 0
    return FRAME_LENGTH if refusal == 0 else REFUSAL_LENGTH


class Writing(NamedTuple):
    refusal: int
    frame: bytes


def write_frame(outcome, frame_buffer):
    """Outcome is a Frame or a refusal number. The buffer is as at exit."""
    frame_buffer = bytes(frame_buffer)
    # "15 a buffer shorter than 41 bytes, for refused cases too; nothing written."
    # Document 02 item 1: "refusal 15 now speaks of 43 bytes."
    if len(frame_buffer) < FRAME_LENGTH:
        return Writing(15, frame_buffer)
    # "bytes after the last one written keep their content."
    written = frame_text(outcome)
    return Writing(0, written + frame_buffer[len(written):])


def frame_of(answer):
    """The printed fields of an assessment."""
    return Frame(low=answer.sheet.area.low, high=answer.sheet.area.high,
                 column=answer.sheet.column, flag=answer.sheet.flag,
                 size_column=answer.sheet.size_column, row_used=answer.row_used,
                 place=answer.footprint.place, people=answer.footprint.people,
                 intrinsic=answer.intrinsic, final_class=answer.final_class)


def assessment_of(fields, lent):
    """The assessment of what a text says."""
    return assessment(fields.dimension, fields.mass, fields.speed, lent.counts, lent.marks,
                      fields.cell_area, fields.controlled, fields.word)


class CaseAnswer(NamedTuple):
    refusal: int
    lent: Lent
    frame: bytes


# "The whole case is tested in the order: 15, reading, sheet, footprint, class,
#  mitigation". "A reading that succeeds fills both buffers, also when a later
#  refusal is printed; under 15 they keep their content": so the first of these
#  leave them alone.
NOT_READ = (15, 13, 5, 14)
CASE_REFUSALS = (*NOT_READ, 1, 2, 3, 4, 6, 7, 8, 9, 10, 11, 12)


def case(text, lent, frame_buffer):
    """The whole case, with all lent buffers as they are at exit."""
    # "The whole case is tested in the order: 15, reading, sheet, footprint,
    #  class, mitigation; the first refusal from reading on is printed."
    if len(frame_buffer) < FRAME_LENGTH:
        return CaseAnswer(15, Lent(*map(list, lent)), bytes(frame_buffer))
    reading = read_case(text, lent)
    if reading.refusal != 0:
        frame = write_frame(reading.refusal, frame_buffer).frame
        return CaseAnswer(reading.refusal, reading.lent, frame)
    answer = assessment_of(reading.fields, reading.lent)
    if answer.refusal != 0:
        frame = write_frame(answer.refusal, frame_buffer).frame
        return CaseAnswer(answer.refusal, reading.lent, frame)
    frame = write_frame(frame_of(answer), frame_buffer).frame
    # "Its answer is the refusal number alone, 0 when there is none."
    return CaseAnswer(0, reading.lent, frame)
