"""Worked points of the exact area and column, for the definition in crates/exact_area.

No program runs that definition, so no comparison of outputs reaches it. The
points are its test: the prover works each one out and must find what stands
here. checker/expectations writes them to crates/exact_area/specs/PointTable.antt.
"""

import ground_risk as g
from flagged_aircraft import FLAGGED

# Why they are here, then dimension (mm), mass (g), speed (cm/s).
AIRCRAFT = (
    ("P1 to P6 of document 01", (
        (50, 50, 0), (1_000, 10_000, 2_500), (1_001, 10_000, 0),
        (3_000, 25_000, 3_500), (8_000, 50_000, 0), (8_001, 50_000, 0))),
    ("below 1,000 mm no mass and no speed makes a slide", (
        (50, 25_000_000, 40_000), (999, 50, 0), (999, 25_000_000, 40_000))),
    ("at 1,000 mm without slide, below 8,000 mm without and with, at 8,000 mm with", (
        (1_000, 10_000, 0), (7_999, 50_000, 0), (7_999, 50_000, 3_500), (8_000, 50_000, 3_500))),
    ("the last speed without slide and the first with", (
        (3_000, 10_000, 1_430), (3_000, 10_000, 1_431),
        (100_000, 50, 20_227), (100_000, 50, 20_228))),
    ("the ends of the ranges, as far as the area is accepted", (
        (1_000, 50, 40_000), (7_999, 25_000_000, 40_000), (8_000, 50, 40_000),
        (20_356, 25_000_000, 40_000), (100_000, 50, 0), (100_000, 25_000_000, 17_118))),
)

HEAD = """\
-- The worked points, in lowest terms. checker/expectations writes this file, from document 01 and document 02, item 6; it is never edited by hand.
use Rattle.std.specs.Prelude.{List, [], ◌∷◌}
use Rattle.arithmetic.specs.Fraction.{◌over◌}
use Rattle.exact_area.specs.ExactPoint.{ExactPoint, point}

-- dimension, mass, speed; the exact area and the exact column; the sheet's column and flag
abbrev pub exact_points : List ExactPoint
exact_points =
"""


def flagged_aircraft():
    """Of each kind of flagged sheet the first and the last in the table: the
    sheet's columns 2 to 5, each with the exact column the same and one lower."""
    kinds = {}
    for column, exact, *aircraft in FLAGGED:
        kinds.setdefault((column, exact), []).append(tuple(aircraft))
    return tuple(chosen for kind in kinds.values() for chosen in (kind[0], kind[-1]))


def groups():
    return AIRCRAFT + (("flagged, with the exact column the sheet's or the one before it", flagged_aircraft()),)


def point(w, m, v):
    # a Python fraction is in lowest terms
    area = g.exact_area(w, m, v)
    sheet = g.sheet(w, m, v)
    return (f"point {w} {m} {v} ({area.numerator} over {area.denominator}) "
            f"{g.exact_column(w, m, v)} {sheet.column} {sheet.flag}")


def table():
    """The bytes of crates/exact_area/specs/PointTable.antt."""
    lines = []
    before = "    "
    for why, aircraft in groups():
        lines.append(f"    -- {why}")
        for numbers in aircraft:
            lines.append(before + point(*numbers))
            before = "    ∷ "
    lines.append("    ∷ []")
    return (HEAD + "\n".join(lines) + "\n").encode()
