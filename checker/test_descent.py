"""Document 02 item 4: the descent, its laws at thousands of falls, and the worked falls."""

import math
import random
import re
import struct
import unittest
from collections import Counter
from fractions import Fraction
from itertools import islice, product

import descent_aircraft
import descent_points
import ground_risk as g

U32 = 2 ** 32 - 1
LONG = 20_000
SEED = 6
NOTHING = (0, 0, (0.0, 0.0, 0.0))


# ---------------------------------------------------------------------------
# Every operation again, exactly and then rounded to the nearest f64
# ---------------------------------------------------------------------------

def nearest(number):
    """The f64 nearest to a fraction, the even one of two, as a fraction; the last bit of a normal number is worth 2⁻⁵² of it."""
    if number == 0:
        return Fraction(0)
    size = abs(number)
    power = size.numerator.bit_length() - size.denominator.bit_length()
    if Fraction(2) ** power > size:
        power -= 1
    unit = Fraction(2) ** max(power - 52, -1074)
    whole, rest = divmod(size / unit, 1)
    if rest > Fraction(1, 2) or rest == Fraction(1, 2) and whole % 2 == 1:
        whole += 1
    return whole * unit if number > 0 else -whole * unit


def added(a, b):
    return nearest(a + b)


def less(a, b):
    return nearest(a - b)


def times(*factors):
    """From left to right."""
    product = factors[0]
    for factor in factors[1:]:
        product = nearest(product * factor)
    return product


def over(a, b):
    return nearest(a / b)


HALF, AIR, COEFFICIENT, GRAVITY, STEP = map(nearest, map(Fraction, ("0.5", "1.225", "0.8", "9.81", "0.01")))


def worked_speed(x, y, rounds=6):
    if x == y == 0:
        return Fraction(0)
    squares, guess = added(times(x, x), times(y, y)), added(x, y)
    for _ in range(rounds):
        guess = times(added(over(squares, guess), guess), HALF)
    return guess


def worked_step(state, area, mass, rounds=6):
    x, y, z = state
    drag = times(HALF, AIR, area, COEFFICIENT, worked_speed(x, y, rounds))
    new_x = less(x, times(over(times(drag, x), mass), STEP))
    new_y = added(y, times(less(GRAVITY, over(times(drag, y), mass)), STEP))
    return new_x, new_y, added(z, times(HALF, added(y, new_y), STEP))


def worked_units(w, m):
    """Square metres and kilograms."""
    return over(Fraction(quick_frontal_area(w)), 10 ** 6), over(Fraction(m), 1_000)


def worked_states(w, m, v):
    """The states as fractions, without end."""
    area, mass = worked_units(w, m)
    state = over(Fraction(v), 100), Fraction(0), Fraction(0)
    while True:
        yield state
        state = worked_step(state, area, mass)


def quick_frontal_area(w):
    if w <= 3_000:
        return 200 * w - 100_000
    if w <= 8_000:
        return 400 * w - 700_000
    if w <= 20_000:
        return (2_500 * w - 12_500_000) // 3
    return 625 * w


def as_fractions(state):
    return tuple(map(Fraction, state))


def state_after(steps, *aircraft):
    return next(islice(g.states(*aircraft), steps, None))


def bits_of(number):
    return struct.pack(">d", number).hex()


class RoundingTest(unittest.TestCase):
    """The second working's own rounding."""

    def test_by_hand(self):
        # between 1 and 2 the last bit is 2⁻⁵², below the least normal number 2⁻¹⁰⁷⁴
        last, least = Fraction(1, 2 ** 52), Fraction(1, 2 ** 1074)
        for number, rounded in ((1 + last / 2, 1), (1 + last * 3 / 2, 1 + 2 * last), (1 + last * Fraction("0.51"), 1 + last),
                                (2 - last / 2, 2), (1 - last / 4, 1), (1 - last / 2, 1 - last / 2),
                                (least / 2, 0), (least * 3 / 2, 2 * least), (least * Fraction("2.4"), 2 * least), (Fraction(0), 0)):
            self.assertEqual(nearest(number), rounded)
            self.assertEqual(nearest(-number), -rounded)

    def test_against_the_machine(self):
        source = random.Random(SEED)
        for _ in range(2_000):
            a, b = (source.uniform(-1, 1) * 2.0 ** source.randint(-530, 500) for _ in range(2))
            for exact, done in ((Fraction(a) + Fraction(b), a + b), (Fraction(a) * Fraction(b), a * b), (Fraction(a) / Fraction(b), a / b)):
                self.assertEqual(nearest(exact), Fraction(done))


# ---------------------------------------------------------------------------
# The item's sentences
# ---------------------------------------------------------------------------

class SpeedTest(unittest.TestCase):
    def test_by_hand(self):
        # 3, 4 and 5, exactly; one speed alone is its own first guess
        for x, y, speed in ((3.0, 4.0, 5.0), (4.0, 3.0, 5.0), (25.0, 0.0, 25.0), (0.0, 0.0981, 0.0981), (0.0, 0.0, 0.0),
                            (1.5, 2.0, 2.5)):
            self.assertEqual(g.speed_of(g.Fall(x, y, 7.0)), speed)
        self.assertEqual(bits_of(g.speed_of(g.Fall(0.0, 0.0, 0.0))), bits_of(0.0))

    def test_the_rounds_by_hand(self):
        # 1 and 1: the guesses 2, 3/2, 17/12, 577/408, then 1.41421356237469.., whose round is the root but for its last bits
        self.assertAlmostEqual(g.speed_of(g.Fall(1.0, 1.0, 0.0)), math.sqrt(2), delta=3e-16)
        for rounds, guess in enumerate((Fraction(2), Fraction(3, 2), Fraction(17, 12), Fraction(577, 408), Fraction(665_857, 470_832))):
            self.assertAlmostEqual(float(worked_speed(1, 1, rounds)), float(guess), delta=3e-16)
        self.assertNotEqual(worked_speed(1, 1, 4), worked_speed(1, 1, 5))

    def test_another_working(self):
        source = random.Random(SEED)
        roots = 0
        for _ in range(2_000):
            x, y = (source.choice((0, 400)) * source.random() ** 4 for _ in range(2))
            speed = g.speed_of(g.Fall(x, y, 0.0))
            self.assertEqual(Fraction(speed), worked_speed(Fraction(x), Fraction(y)))
            self.assertAlmostEqual(speed, math.sqrt(x * x + y * y), delta=4e-16 * (x + y))
            roots += speed != math.sqrt(x * x + y * y)
        # a square root in its place would be noticed
        self.assertGreater(roots, 100)


    def test_the_sixth_round(self):
        for place, (w, m, v, steps) in enumerate(descent_aircraft.SIXTH_ROUND):
            state = state_after(steps, w, m, v)
            five, six, seven = (worked_speed(*as_fractions(state)[:2], rounds) for rounds in (5, 6, 7))
            self.assertEqual(Fraction(g.speed_of(state)), six)
            self.assertNotEqual(five, six)
            self.assertEqual(seven, six)
            self.assertEqual(next(islice(worked_states(w, m, v), steps, None)), as_fractions(state))
            after = {worked_step(as_fractions(state), *worked_units(w, m), rounds) for rounds in (5, 6)}
            self.assertEqual(len(after), 2 if place < 2 else 1)


class StepTest(unittest.TestCase):
    def test_the_first_state(self):
        for v, speed in ((0, 0.0), (1, 0.01), (2_500, 25.0), (40_000, 400.0), (7, 0.07)):
            self.assertEqual(state_after(0, 1_000, 50, v), (speed, 0.0, 0.0))

    def test_the_first_step_by_hand(self):
        # 0.1 m², 10 kg, 25 m/s: drag per speed 0.5 × 1.225 × 0.1 × 0.8 × 25 is 1.225, slowing 3.0625
        x, y, z = state_after(1, 1_000, 10_000, 2_500)
        for number, decimals in ((x, "24.969375"), (y, "0.0981"), (z, "0.0004905")):
            self.assertAlmostEqual(number, float(decimals), delta=4e-15)
        # 25 m², 25,000 kg, 400 m/s: drag per speed 4,900, slowing 78.4
        x, y, z = state_after(1, 40_000, 25_000_000, 40_000)
        self.assertAlmostEqual(x, 399.216, delta=1e-12)
        self.assertEqual((y, z), (0.0981, 0.0004905))
        # no speed, no drag, at whatever mass
        self.assertEqual({state_after(1, w, m, 0) for w, m in ((1_000, 50), (40_000, 25_000_000))}, {(0.0, 0.0981, 0.0004905)})

    def test_the_second_step_by_hand(self):
        # from rest: 0.0981 m/s down, 0.1 m², 1 kg: drag per speed 0.049 × 0.0981, slowing 0.000471554.., and no horizontal speed
        x, y, z = state_after(2, 1_000, 1_000, 0)
        slowing = Fraction("0.049") * Fraction("0.0981") ** 2
        down = Fraction("0.0981") + (Fraction("9.81") - slowing) / 100
        self.assertEqual(x, 0.0)
        self.assertAlmostEqual(y, float(down), delta=1e-16)
        self.assertAlmostEqual(z, float(Fraction("0.0004905") + (Fraction("0.0981") + down) / 200), delta=1e-18)

    def test_one_step_by_hand(self):
        # 3 m/s forward and 4 down: 5 m/s; 2 m² and 4.9 kg make 0.5 × 1.225 × 2 × 0.8 × 5 = 4.9 and slowings of 3 and 4
        x, y, z = g.next_state(g.Fall(3.0, 4.0, 10.0), 2.0, 4.9)
        for number, decimals in ((x, "2.97"), (y, "4.0581"), (z, "10.0402905")):
            self.assertAlmostEqual(number, float(decimals), delta=4e-15)

    def test_another_working(self):
        """Each operation rounded to the nearest by itself, in the item's order, gives the same bits."""
        source = random.Random(SEED)
        aircraft = [descent_aircraft.drawn_aircraft(source) for _ in range(60)] + [row[1:] for row in descent_aircraft.STOPPED]
        for given in aircraft:
            for state, worked in islice(zip(g.states(*given), worked_states(*given)), 12):
                self.assertEqual(as_fractions(state), worked)

    def test_below_the_least_normal_number(self):
        for w, m, v, height in descent_aircraft.SUBNORMAL:
            answer = g.descent(w, m, v, height, LONG)
            self.assertEqual((answer.refusal, answer.above_60), (0, 1))
            self.assertTrue(0 < answer.end.horizontal < 2 ** -1022)
            # the last steps again, from a state well before
            area, mass = worked_units(w, m)
            worked = as_fractions(state_after(answer.steps - 80, w, m, v))
            self.assertGreater(worked[0], Fraction(1, 2 ** 1022))
            for _ in range(80):
                worked = worked_step(worked, area, mass)
            self.assertEqual(as_fractions(answer.end), worked)

    def test_units(self):
        # "one division each": a product by 0.001, 0.01 or 0.000001 has other last bits
        for number, divisor, factor in ((1_009, 1_000, 0.001), (35, 100, 0.01), (165, 100, 0.01), (100_400, 10 ** 6, 0.000001)):
            self.assertNotEqual(number / divisor, number * factor)
        self.assertEqual(state_after(0, 1_000, 50, 35).horizontal, 0.35)
        # the height: 1.65 m is reached, which 165 × 0.01 would not be
        self.assertGreater(165 * 0.01, 1.65)
        self.assertEqual(g.descent(4_762, 13_427_226, 109, 165, LONG).steps, 58)


class VerdictTest(unittest.TestCase):
    def test_by_hand(self):
        for x, y, above in ((1.0, 1.75, 1), (1.0, 1.7, 0), (0.0, 1.0, 1), (0.0, 0.0, 0), (1.0, 0.0, 0), (4.0, 7.0, 1), (4.0, 6.75, 0),
                            (2.0, 3.4641, 0), (2.0, 3.4642, 1)):
            self.assertEqual(g.above_60(g.Fall(x, y, 1.0)), above)

    def test_exactly_60_degrees_is_not_above(self):
        for w, m, v, height, steps in descent_aircraft.AT_60:
            answer = g.descent(w, m, v, height, LONG)
            x, y, _ = as_fractions(answer.end)
            self.assertEqual(times(y, y), times(3, times(x, x)))
            self.assertEqual(answer[:3], (0, 0, steps))
            # a state earlier and a state later, both sides are clear
            self.assertEqual([g.above_60(state_after(steps + step, w, m, v)) for step in (-1, 1)], [0, 1])

    def test_both_sides(self):
        source = random.Random(SEED)
        sides = Counter()
        for _ in range(400):
            given = descent_aircraft.near_60_degrees(source)
            answer = g.descent(*given)
            x, y, _ = answer.end
            # the tangent of 60 degrees is the root of 3
            angle = math.degrees(math.atan2(y, x))
            self.assertEqual(answer.above_60, 1 if angle > 60 else 0)
            sides[answer.above_60, round(angle)] += 1
        for above, angle in ((0, 59), (1, 61)):
            self.assertGreater(sides[above, angle], 20)

    def test_higher_is_steeper(self):
        for aircraft, last in (((1_000, 2_000, 200), 56), ((8_001, 60_000, 500), 326), ((2_500, 8_000, 300), 125)):
            self.assertEqual([g.descent(*aircraft, height, LONG).above_60 for height in (1, last - 1, last, last + 1, last + 2, 2 * last)],
                             [0, 0, 0, 1, 1, 1])


# ---------------------------------------------------------------------------
# Refusals
# ---------------------------------------------------------------------------

class RefusalsTest(unittest.TestCase):
    def test_edges(self):
        # 25,000 g take 5 steps for the first centimetre at these speeds
        for given, refusal in (
                ((0, 25_000, 0, 1, 5), 1), ((49, 25_000, 0, 1, 5), 1), ((50, 25_000, 0, 1, 5), 16), ((999, 25_000, 0, 1, 5), 16),
                ((1_000, 25_000, 0, 1, 5), 0), ((40_000, 25_000, 0, 1, 5), 0), ((40_001, 25_000, 0, 1, 5), 16),
                ((100_000, 25_000, 0, 1, 5), 16), ((100_001, 25_000, 0, 1, 5), 1), ((U32, 25_000, 0, 1, 5), 1),
                ((1_000, 0, 0, 1, 5), 2), ((1_000, 49, 0, 1, 5), 2), ((1_000, 50, 0, 1, 5), 0), ((1_000, 25_000_000, 0, 1, 5), 0),
                ((1_000, 25_000_001, 0, 1, 5), 2), ((1_000, U32, 0, 1, 5), 2),
                ((1_000, 25_000, 40_000, 1, 5), 0), ((1_000, 25_000, 40_001, 1, 5), 3), ((1_000, 25_000, U32, 1, 5), 3),
                ((1_000, 25_000, 0, 0, 5), 17), ((1_000, 25_000, 0, 50_000, LONG), 0), ((1_000, 25_000, 0, 50_001, LONG), 17),
                ((1_000, 25_000, 0, U32, LONG), 17),
                ((1_000, 25_000, 0, 1, 0), 17), ((1_000, 25_000, 0, 1, 1), 18), ((1_000, 25_000, 0, 1, 20_000), 0),
                ((1_000, 25_000, 0, 1, 20_001), 17), ((1_000, 25_000, 0, 1, U32), 17)):
            with self.subTest(given):
                self.assertEqual(g.descent(*given).refusal, refusal)

    def test_every_order(self):
        """Each set of refusals that can hold together: the first is given, and every number is zero. Where 18 and 19 both would
        hold, 19 comes first."""
        dimensions = {(): (1_000, 40_000), (1,): (49, 100_001), (16,): (50, 999, 40_001, 100_000)}
        masses = {(): (50, 25_000_000), (2,): (49, 25_000_001)}
        speeds = {(): (0, 40_000), (3,): (40_001, U32)}
        heights = {(): (1, 50_000), (17,): (0, 50_001)}
        budgets = {(): (1, 4), (17,): (0, 20_001, U32)}
        seen = set()
        for chosen in product(*([(holds, number) for holds, numbers in kinds.items() for number in numbers]
                                for kinds in (dimensions, masses, speeds, heights, budgets))):
            given = [number for _, number in chosen]
            holds = {refusal for some, _ in chosen for refusal in some}
            if not holds:
                # four steps are short of the ground, and 400 m/s are stopped by a first step at 50 g alone
                holds = {18, 19} if given[1:3] == [50, 40_000] else {18}
            answer = g.descent(*given)
            order = [1, 2, 3, 16, 17, 19, 18]
            self.assertEqual(answer.refusal, min(holds, key=order.index), given)
            self.assertEqual(answer[1:], NOTHING)
            seen.add(tuple(sorted(holds)))
        self.assertEqual(len(seen), 3 * 2 * 2 * 2 - 1 + 2)

    def test_refused_is_all_zeros(self):
        for refusal in (1, 2, 3, 16, 17, 18, 19):
            answer = g.refused_descent(refusal)
            self.assertEqual(answer, (refusal, *NOTHING))
            self.assertEqual({bits_of(number) for number in answer.end}, {bits_of(0.0)})

    def test_the_ranges_come_before_the_fall(self):
        # it would be 19, and 18
        self.assertEqual([g.descent(40_000, 50, 40_000, height, budget).refusal for height, budget in ((0, 1), (1, 0), (1, 1))], [17, 17, 19])
        self.assertEqual([g.descent(1_000, 50, 0, height, budget).refusal for height, budget in ((50_001, 1), (1, 20_001), (1, 1))],
                         [17, 17, 18])

    def test_19_before_18_with_one_step(self):
        # 49 × frontal area × speed / 10⁹ grams are stopped by the first step; this is 20,408.2 cm/s at 100 g and 1,000 mm
        self.assertEqual([g.descent(1_000, 100, v, 1, 1).refusal for v in (20_408, 20_409)], [18, 19])
        self.assertEqual([g.descent(1_000, 100, v, 1, LONG).refusal for v in (20_408, 20_409)], [0, 19])

    def test_rounding_alone_decides_19(self):
        for sign, w, m, v in descent_aircraft.STOPPED:
            self.assertEqual(49 * g.frontal_area(w) * v, 10 ** 9 * m)
            worked = next(islice(worked_states(w, m, v), 1, None))[0]
            self.assertEqual((worked > 0) - (worked < 0), sign)
            self.assertEqual([g.descent(w, m, v, 1, budget).refusal for budget in (1, LONG)], [19, 19] if sign < 0 else [18, 0])
        self.assertEqual({row[0] for row in descent_aircraft.STOPPED}, {-1, 0, 1})

    def test_no_speed_turns_negative_later(self):
        """With K for 0.49 × frontal area / mass and s for the speed, a step multiplies the horizontal speed by 1 − K s / 100 and
        takes the downward speed y to y (1 − K s / 100) + 0.0981. So neither turns negative while K s is at most 100. K is at most
        245. If the first step leaves the cruise speed V as it should, K V is at most 100, and V (1 − K V / 100) at most 25 / K; the
        horizontal speed never grows again. y grows by at most 0.0981 less K y² / 100, which for K up to 245 leaves it at most the
        terminal speed, the root of 9.81 / K. So s² is at most 625 / K² + 9.81 / K, which is less than (100 / K)² while 9.81 × K is
        less than 9,375. What follows is that bound, far from what rounding could change, and falls."""
        greatest = Fraction("0.49") * 25 / Fraction("0.050")
        self.assertEqual(greatest, 245)
        self.assertLess(Fraction("9.81") * greatest, Fraction(9_375, 3))
        # up to the terminal speed the next downward speed grows with the one before, so it stays below it: 50 / K or more up to 254.8
        self.assertGreater(Fraction(50) ** 2, Fraction("9.81") * greatest)
        source = random.Random(SEED)
        for _ in range(300):
            w, m, v, *_ = descent_aircraft.near_stopping(source)
            states = list(islice(g.states(w, m, v), 1, 100))
            if states[0].horizontal >= 0:
                self.assertTrue(all(state.horizontal >= 0 and state.downward > 0 for state in states), (w, m, v))


# ---------------------------------------------------------------------------
# The laws
# ---------------------------------------------------------------------------

def drawn(number):
    return list(islice(descent_aircraft.descents(random.Random(SEED)), number))


class LawsTest(unittest.TestCase):
    def test_answers_by_the_states(self):
        """The end state is the first that has reached the height, every earlier one is short, none has a negative speed; 18 exactly
        when that holds for no state within the budget; 19 exactly when a speed is negative before."""
        refusals = Counter()
        for w, m, v, height, budget in drawn(1_500):
            answer = g.descent(w, m, v, height, budget)
            number = {0: answer.steps, 18: budget, 19: min(budget, 10)}[answer.refusal]
            made = list(islice(g.states(w, m, v), 1, number + 1))
            negative = [state.horizontal < 0 or state.downward < 0 for state in made]
            reached = [Fraction(state.fallen) >= Fraction(height / 100) for state in made]
            first = reached.index(True) if True in reached else None
            refusals[answer.refusal] += 1
            if answer.refusal == 0:
                self.assertEqual((answer.end, answer.steps), (made[-1], first + 1))
                self.assertFalse(any(negative))
                self.assertEqual(answer.above_60, g.above_60(made[-1]))
            elif answer.refusal == 18:
                self.assertEqual((len(made), first, any(negative)), (budget, None, False))
            else:
                self.assertTrue(any(negative if first is None else negative[:first + 1]))
        self.assertEqual(set(refusals), {0, 18, 19})
        self.assertGreater(min(refusals.values()), 100)

    def test_a_larger_budget_changes_no_answer(self):
        for *given, budget in drawn(600):
            answer = g.descent(*given, budget)
            if answer.refusal != 18:
                self.assertEqual(g.descent(*given, LONG), answer)
                self.assertEqual(g.descent(*given, min(LONG, budget + 1)), answer)
            if answer.refusal == 0:
                # and one more than enough is the first that is enough
                self.assertEqual(g.descent(*given, answer.steps), answer)
                if answer.steps > 1:
                    self.assertEqual(g.descent(*given, answer.steps - 1), g.refused_descent(18))

    def test_the_number_of_steps(self):
        # from rest with little drag: 0.0004905 n² m after n steps
        for height, steps in ((1, 5), (2, 7), (100, 46), (1_962, 201), (2_000, 202)):
            self.assertEqual(g.descent(1_000, 25_000_000, 0, height, LONG).steps, steps)
            self.assertGreaterEqual(steps ** 2 * Fraction("0.0004905"), Fraction(height, 100))
        # drag alone makes it 201: without it 200 steps are 19.62 m
        self.assertEqual(200 ** 2 * Fraction("0.0004905"), Fraction("19.62"))
        self.assertLess(state_after(200, 1_000, 25_000_000, 0).fallen, 19.62)

    def test_exactly_at_the_height(self):
        for w, m, v, height, steps in descent_aircraft.AT_HEIGHT:
            answer = g.descent(w, m, v, height, LONG)
            self.assertEqual((answer.refusal, answer.steps, answer.end.fallen), (0, steps, height / 100))
            self.assertEqual(g.descent(w, m, v, height, steps), answer)

    def test_a_full_budget(self):
        # terminal speed 0.2 m/s: 200 s are 40.0 m
        self.assertEqual(g.descent(40_000, 50, 40, 4_000, LONG).steps, 19_991)
        self.assertEqual([g.descent(40_000, 50, 40, height, LONG).refusal for height in (4_001, 4_002, 50_000)], [0, 18, 18])
        self.assertEqual(g.descent(40_000, 50, 40, 4_000, 19_991).steps, 19_991)
        self.assertEqual(g.descent(40_000, 50, 40, 4_000, 19_990).refusal, 18)

    def test_the_terminal_speed(self):
        # formula (13) of 002
        for w, m in ((1_000, 2_000), (8_001, 60_000), (40_000, 50)):
            terminal = math.sqrt(2 * m / 1_000 * 9.81 / (1.225 * g.frontal_area(w) / 10 ** 6 * 0.8))
            self.assertAlmostEqual(state_after(3_000, w, m, 10).downward, terminal, delta=1e-3 * terminal)

    def test_against_the_closed_form_from_rest(self):
        # from rest y is terminal × tanh(9.81 t / terminal) but for the steps' length
        for m in (1_000, 5_000, 50_000):
            terminal = math.sqrt(m / 1_000 * 9.81 / (0.49 * 0.1))
            self.assertAlmostEqual(state_after(400, 1_000, m, 0).downward, terminal * math.tanh(9.81 * 4 / terminal), delta=0.02)

    def test_higher_takes_no_fewer_steps(self):
        source = random.Random(SEED)
        for _ in range(40):
            aircraft = descent_aircraft.drawn_aircraft(source)
            heights = sorted(descent_aircraft.low_height(source, aircraft) for _ in range(4))
            steps = [g.descent(*aircraft, height, LONG).steps for height in heights]
            self.assertEqual(steps, sorted(steps))


# ---------------------------------------------------------------------------
# The worked falls
# ---------------------------------------------------------------------------

def fused(a, b, c):
    """a × b + c, rounded once."""
    return float(Fraction(a) * Fraction(b) + Fraction(c))


def written_otherwise(speed=g.speed_of, drag=lambda area, speed: 0.5 * 1.225 * area * 0.8 * speed, slowing=lambda drag, u, mass: drag * u / mass,
                      slower=lambda x, slowing: x - slowing * 0.01, faster=lambda y, slowing: y + (9.81 - slowing) * 0.01,
                      further=lambda z, y, new: z + 0.5 * (y + new) * 0.01, horizontal_from_new=False, area=lambda w: g.frontal_area(w) / 10 ** 6,
                      mass=lambda m: m / 1_000, cruise=lambda v: v / 100, height=lambda h: h / 100):
    """A descent that lands, with some of its operations written otherwise: its number of steps and its end state."""
    def descent(w, m, v, h, budget):
        x, y, z, steps = cruise(v), 0.0, 0.0, 0
        while z < height(h):
            per_speed = drag(area(w), speed(g.Fall(x, y, z)))
            new = faster(y, slowing(per_speed, y, mass(m)))
            per_speed = drag(area(w), speed(g.Fall(x, new if horizontal_from_new else y, z)))
            x, y, z = slower(x, slowing(per_speed, x, mass(m))), new, further(z, y, new)
            steps += 1
        return steps, (x, y, z)
    return descent


def root(state):
    return math.sqrt(state.horizontal * state.horizontal + state.downward * state.downward)


def rounded_speed(state, rounds, squares):
    x, y = state[:2]
    guess = x + y
    for _ in range(rounds if guess else 0):
        guess = (squares(x, y) / guess + guess) * 0.5
    return guess


def plain_squares(x, y):
    return x * x + y * y


# Orders and forms that the item doesn't have, each of which some worked fall must show.
OTHER_FORMS = {
    "a square root": {"speed": root},
    "a library's root of squares": {"speed": lambda state: math.hypot(*state[:2])},
    "five rounds": {"speed": lambda state: rounded_speed(state, 5, plain_squares)},
    "squares added by a fused operation": {"speed": lambda state: rounded_speed(state, 6, lambda x, y: fused(x, x, y * y))},
    "drag with the speed before 0.8": {"drag": lambda area, speed: 0.5 * 1.225 * area * speed * 0.8},
    "drag with 0.8 before the area": {"drag": lambda area, speed: 0.5 * 1.225 * 0.8 * area * speed},
    "drag with its numbers multiplied beforehand": {"drag": lambda area, speed: 0.49 * area * speed},
    "the horizontal speed slowed by the new downward one": {"horizontal_from_new": True},
    "a speed over the mass first": {"slowing": lambda drag, u, mass: drag * (u / mass)},
    "drag over the mass first": {"slowing": lambda drag, u, mass: drag / mass * u},
    "a hundredth by division, horizontal": {"slower": lambda x, slowing: x - slowing / 100},
    "a hundredth by division, downward": {"faster": lambda y, slowing: y + (9.81 - slowing) / 100},
    "a fused horizontal speed": {"slower": lambda x, slowing: fused(-slowing, 0.01, x)},
    "a fused downward speed": {"faster": lambda y, slowing: fused(9.81 - slowing, 0.01, y)},
    "gravity and slowing apart": {"faster": lambda y, slowing: y + 9.81 * 0.01 - slowing * 0.01},
    "the distance by the new speed alone": {"further": lambda z, y, new: z + new * 0.01},
    "the distance by the old speed alone": {"further": lambda z, y, new: z + y * 0.01},
    "a fused distance": {"further": lambda z, y, new: fused(0.5 * (y + new), 0.01, z)},
    "square metres by a product": {"area": lambda w: g.frontal_area(w) * 0.000001},
    "kilograms by a product": {"mass": lambda m: m * 0.001},
    "metres a second by a product": {"cruise": lambda v: v * 0.01},
    "metres by a product": {"height": lambda h: h * 0.01},
    "an area that isn't rounded": {"area": lambda w: float(Fraction(2_500 * w - 12_500_000, 3 * 10 ** 6)) if 8_000 < w < 20_000
                                   else g.frontal_area(w) / 10 ** 6},
}


def landed_points():
    return [point for point in descent_points.points() if point.answer.refusal == 0]


class PointsTest(unittest.TestCase):
    def test_every_point(self):
        for (w, m, v, height, budget), shown, answer in descent_points.points():
            with self.subTest((w, m, v, height, budget)):
                if answer.refusal in (1, 2, 3, 16, 17):
                    continue
                # the whole fall again
                made = list(islice(worked_states(w, m, v), 1, (answer.steps or min(budget, 10)) + 1))
                ground = nearest(Fraction(height, 100))
                if answer.refusal == 19:
                    self.assertLess(made[0][0], 0)
                    continue
                self.assertTrue(all(x >= 0 and y >= 0 for x, y, _ in made))
                self.assertTrue(all(z < ground for *_, z in made[:-1]))
                if answer.refusal == 18:
                    self.assertLess(made[-1][2], ground)
                    self.assertEqual(len(made), budget)
                    continue
                x, y, z = made[-1]
                self.assertEqual(as_fractions(answer.end), (x, y, z))
                self.assertGreaterEqual(z, ground)
                self.assertEqual(answer.above_60, 1 if times(y, y) > times(3, times(x, x)) else 0)
                self.assertEqual([as_fractions(state) for state in shown], made[199:-1:200])

    def test_the_table_as_written(self):
        """The rows that checker/expectations stores have the points' numbers, in their order, and bits that are those numbers."""
        row = re.compile(r"    (?:∷ )?(landed|refused) (.*)")
        rows = [match for match in map(row.fullmatch, descent_points.table().decode().splitlines()) if match]
        for match, (given, shown, answer) in zip(rows, descent_points.points(), strict=True):
            if match[1] == "refused":
                self.assertEqual(match[2], " ".join(map(str, (*given, answer.refusal))))
                self.assertEqual((shown, answer[1:]), ([], NOTHING))
                continue
            four = "_".join(["[0-9a-f]{4}"] * 4)
            fall = rf"fall 0x{four} 0x{four} 0x{four}"
            parts = re.fullmatch(rf"([\d ]+) (\[\]|\((?:{fall} ∷ )+\[\]\)) ([01]) (\d+) \(({fall})\)", match[2])
            self.assertEqual(tuple(map(int, parts[1].split())), given)
            self.assertEqual((int(parts[3]), int(parts[4])), (answer.above_60, answer.steps))
            numbers = [struct.unpack(">d", bytes.fromhex(word[2:].replace("_", "")))[0]
                       for word in re.findall(r"0x[0-9a-f_]+", parts[2] + parts[5])]
            self.assertEqual(numbers, [number for state in (*shown, answer.end) for number in state])

    def test_every_kind(self):
        points = descent_points.points()
        self.assertEqual(len({point.given for point in points}), len(points))
        self.assertEqual({point.answer.refusal for point in points}, {0, 1, 2, 3, 16, 17, 18, 19})
        landed = landed_points()
        self.assertEqual({point.answer.above_60 for point in landed}, {0, 1})
        self.assertLessEqual(sum(point.answer.steps for point in landed), 1_500)
        self.assertTrue(any(point.given[3] == 12_000 and 400 <= point.answer.steps <= 650 for point in landed))
        self.assertTrue(any(point.given[2] == 0 for point in landed))
        self.assertTrue(any(point.given[4] == point.answer.steps for point in landed))
        self.assertTrue(any(point.answer.end.horizontal == 0 < point.given[2] for point in landed))
        self.assertTrue(any(point.answer.end.fallen == point.given[3] / 100 for point in landed))
        self.assertTrue(any(point.answer.end.downward ** 2 == 3 * point.answer.end.horizontal ** 2 for point in landed))
        self.assertLessEqual({0, 1, 2}, {len(point.shown) for point in landed})
        # the same aircraft on both sides: of the ground within the budget, and of 60 degrees by a centimetre
        answers = {point.given: point.answer for point in points}
        self.assertTrue(any(answer.refusal == 0 and answers.get((*given[:4], given[4] - 1), answer).refusal == 18
                            for given, answer in answers.items()))
        self.assertTrue(any(answer.refusal == 0 and answers.get((*given[:3], given[3] + 1, given[4]), answer).above_60 > answer.above_60
                            for given, answer in answers.items()))
        # 19 with the least budget, where 18 would come too
        self.assertTrue(any(given[4] == 1 and answer.refusal == 19 for given, answer in answers.items()))

    def test_written_otherwise_as_the_item_has_it(self):
        same = written_otherwise()
        for given, _, answer in landed_points():
            self.assertEqual(same(*given), (answer.steps, tuple(answer.end)))

    def test_other_forms_show(self):
        for name, form in OTHER_FORMS.items():
            other = written_otherwise(**form)
            self.assertTrue(any(other(*given) != (answer.steps, tuple(answer.end)) for given, _, answer in landed_points()), name)


if __name__ == "__main__":
    unittest.main()
