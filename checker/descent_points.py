"""Worked falls of the descent, for the definitions in crates/.

checker/test_descent.py works each out another way; checker/expectations writes
them to crates/descent_points/specs/PointTable.antt. The prover takes every
step of them, so they have few.
"""

import struct
from itertools import islice
from typing import NamedTuple

import ground_risk as g

# A point shows the states after every so many steps before the end.
SHOWN_EVERY = 200

# The proof in crates/descent_points finds the falls by their place in this list, so that a new one goes last.
# Why they are here, then dimension (mm), mass (g), speed (cm/s), height (cm), budget (steps).
FALLS = (
    ("a few steps: with the last one of the budget, and with one fewer", (
        (1_000, 10_000, 2_500, 1, 5), (1_000, 10_000, 2_500, 1, 4))),
    ("from 120 m", (
        (1_000, 25_000, 2_500, 12_000, 20_000),)),
    ("with a frontal area that is rounded down, from 30 m", (
        (8_001, 60_000, 1_500, 3_000, 20_000),)),
    ("light and wide: drag takes so much of the speeds in each step that its last bits show", (
        (23_336, 143, 164, 2, 20_000), (19_486, 118, 69, 5, 20_000), (13_830, 109, 182, 9, 20_000))),
    ("in the last step five rounds would find another speed than six, and the end state shows it", (
        (20_690, 836, 157, 4, 20_000),)),
    ("the last height that isn't above 60 degrees, and the first that is", (
        (1_000, 2_000, 200, 56, 20_000), (1_000, 2_000, 200, 57, 20_000))),
    ("the downward speed squared is exactly 3 × the horizontal speed squared", (
        (9_167, 3_228_084, 465, 322, 20_000),)),
    ("the distance is exactly the height", (
        (4_762, 13_427_226, 109, 165, 20_000),)),
    ("cruise speed 0: both speeds are 0 at first", (
        (1_000, 10_000, 0, 1, 20_000), (40_000, 50, 0, 5, 20_000))),
    ("slowing × step is the cruise speed but for rounding: the horizontal speed is 0, above 0, and negative, before 18", (
        (1_100, 147, 25_000, 1, 20_000), (2_000, 441, 30_000, 1, 20_000), (1_000, 98, 20_000, 1, 1))),
    ("negative by far, with the least height and budget and with the greatest", (
        (40_000, 50, 40_000, 1, 1), (40_000, 50, 40_000, 50_000, 20_000))),
    ("the whole budget is one step", (
        (1_000, 50, 100, 1, 1),)),
    ("the other ends of the ranges", (
        (1_000, 50, 0, 1, 20_000), (40_000, 25_000_000, 40_000, 1, 20_000))),
    ("refused 1, 2, 3, 16 and 17: the first that holds, in this order; 17 before 18 and 19", (
        (49, 49, 40_001, 0, 0), (100_001, 50, 0, 1, 1), (999, 49, 40_001, 0, 0), (1_000, 25_000_001, 0, 1, 1),
        (40_001, 50, 40_001, 50_001, 20_001), (1_000, 50, 40_001, 1, 1), (999, 50, 40_000, 0, 20_001), (40_001, 50, 0, 1, 1),
        (1_000, 50, 40_000, 0, 1), (1_000, 50, 100, 50_001, 1), (1_000, 50, 100, 1, 0), (1_000, 50, 100, 1, 20_001))),
)

HEAD = """\
-- The worked falls. checker/expectations writes this file, from document 02, item 4; it is never edited by hand.
use Rattle.std.specs.Prelude.{List, [], ◌∷◌}
use Rattle.descent_points.specs.DescentPoint.{DescentPoint, fall, landed, refused}

-- Dimension, mass, speed, height, budget; the states after every 200 steps before the end; whether the angle is above 60 degrees, the number of steps and the end
-- state. Or dimension, mass, speed, height, budget and the refusal. A state is the bits of its three numbers.
abbrev pub points : List DescentPoint
points =
"""


class Point(NamedTuple):
    given: tuple
    shown: list
    answer: g.Descent


def point(*given):
    answer = g.descent(*given)
    # none where it is refused, with 0 steps
    shown = range(SHOWN_EVERY, answer.steps, SHOWN_EVERY)
    states = islice(g.states(*given[:3]), answer.steps)
    return Point(given, [state for number, state in enumerate(states) if number in shown], answer)


def groups():
    """Why they are here, then the points."""
    return [(why, [point(*given) for given in falls]) for why, falls in FALLS]


def points():
    return [point for _, found in groups() for point in found]


def bits(number):
    """The bits of a double."""
    return struct.unpack("<Q", struct.pack("<d", number))[0]


def written_state(state):
    digits = [f"{bits(number):016x}" for number in state]
    return "fall " + " ".join("0x" + "_".join(number[start:start + 4] for start in (0, 4, 8, 12)) for number in digits)


def written_list(states):
    if not states:
        return "[]"
    return "(" + "".join(f"{written_state(state)} ∷ " for state in states) + "[])"


def written(p):
    """A point as the table has it."""
    given = " ".join(map(str, p.given))
    if p.answer.refusal != 0:
        return f"refused {given} {p.answer.refusal}"
    return f"landed {given} {written_list(p.shown)} {p.answer.above_60} {p.answer.steps} ({written_state(p.answer.end)})"


def in_decimals(end):
    return f"it ends with {end.horizontal:.6g} m/s forward, {end.downward:.6g} m/s down, {end.fallen:.6g} m fallen"


def table():
    """The bytes of crates/descent_points/specs/PointTable.antt."""
    lines = []
    before = "    "
    for why, found in groups():
        lines.append(f"    -- {why}")
        for point in found:
            if point.answer.refusal == 0:
                lines.append(f"    -- {in_decimals(point.answer.end)}")
            lines.append(before + written(point))
            before = "    ∷ "
    lines.append("    ∷ []")
    return (HEAD + "\n".join(lines) + "\n").encode()
