"""Worked points of the high impact angle area, with the exact column, for the definitions in crates/.

checker/test_high_angle.py works each out another way; checker/expectations
writes them to crates/exact_high_angle/specs/PointTable.antt.
"""

from typing import NamedTuple

import ground_risk as g
from library import flat

# Why they are here, then dimension (mm), mass (g), speed (cm/s). The speed makes no difference, so it is any.
AIRCRAFT = (
    ("the five points of the frontal area, the last with the largest area of all", (
        (1_000, 10_000, 0), (3_000, 50_000, 2_500), (8_000, 250_000, 0), (20_000, 1_000_000, 40_000),
        (40_000, 25_000_000, 0))),
    ("on each line between them; the third alone is rounded", (
        (1_001, 50, 1), (7_999, 100_000, 7_500), (8_001, 100_000, 0), (39_999, 2_000_000, 0))),
    ("up to 11,999 J, and from there to 12,000 J", (
        (3_000, 24_481, 0), (3_000, 24_482, 0))),
    ("exactly 12,000 J, and one gram less and more", (
        (3_385, 28_000, 0), (3_385, 27_999, 0), (3_385, 28_001, 0))),
    ("between 11,999 and 12,000 J, the factor from 2.3 to above the root", (
        (34_164, 159_990, 0),)),
    ("up to 3,125,000 J, and from there on", (
        (1_035, 182_766, 0), (1_039, 183_448, 0))),
    ("exactly 3,125,000 J, and one gram less and more", (
        (2_462, 350_000, 0), (2_462, 349_999, 0), (2_462, 350_001, 0))),
    ("flagged, with the exact column the one before, and the same", (
        (1_000, 25_642, 0), (1_000, 25_643, 0))),
    ("refused 1, 2, 3 and 16: the first that holds, in this order", (
        (49, 49, 40_001), (100_001, 50, 0), (999, 49, 40_001), (40_001, 25_000_001, 0), (999, 50, 40_001), (999, 50, 40_000),
        (40_001, 25_000_000, 0))),
)


HEAD = """\
-- The worked points. checker/expectations writes this file, from document 02, item 2; it is never edited by hand.
use Rattle.std.specs.Prelude.{List, [], ◌∷◌}
use Rattle.columns.specs.Bracket.{bracket}
use Rattle.exact_high_angle.specs.HighAnglePoint.{HighAnglePoint, accepted, refused}

-- dimension, mass, speed; frontal area, joules, factor and area; column, flag and exact column. Or dimension, mass, speed and the refusal.
abbrev pub points : List HighAnglePoint
points =
"""


class Point(NamedTuple):
    dimension: int
    mass: int
    speed: int
    refusal: int
    column: int
    flag: int
    frontal_area: int
    joules_low: int
    joules_high: int
    factor_low: int
    factor_high: int
    area_low: int
    area_high: int
    exact_column: int


def point(w, m, v):
    return Point(w, m, v, *flat(g.high_angle(w, m, v)), g.exact_high_angle_column(w, m, v))


def groups():
    """Why they are here, then the points."""
    return [(why, [point(*numbers) for numbers in aircraft]) for why, aircraft in AIRCRAFT]


def points():
    return [point for _, found in groups() for point in found]


def written(p):
    """A point as the table has it."""
    aircraft = f"{p.dimension} {p.mass} {p.speed}"
    if p.refusal != 0:
        return f"refused {aircraft} {p.refusal}"
    return (f"accepted {aircraft} {p.frontal_area} (bracket {p.joules_low} {p.joules_high}) "
            f"(bracket {p.factor_low} {p.factor_high}) (bracket {p.area_low} {p.area_high}) {p.column} {p.flag} {p.exact_column}")


def table():
    """The bytes of crates/exact_high_angle/specs/PointTable.antt."""
    lines = []
    before = "    "
    for why, found in groups():
        lines.append(f"    -- {why}")
        for point in found:
            lines.append(before + written(point))
            before = "    ∷ "
    lines.append("    ∷ []")
    return (HEAD + "\n".join(lines) + "\n").encode()
