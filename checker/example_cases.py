"""The case texts in examples/. Run it to write them there again."""

from pathlib import Path

import ground_risk as g


def block_of_marks(rows, columns):
    bits = sum(1 << (g.COLUMNS - 1 - column) for column in columns)
    return [bits if row in rows else 0 for row in range(g.ROWS)]


def counts_with(people):
    counts = [0] * g.PLACES
    for (row, column), count in people.items():
        counts[g.COLUMNS * row + column] = count
    return counts


def text(aircraft, word, marks, people):
    """A case on hectares of ground that isn't controlled."""
    dimension, mass, speed = aircraft
    fields = g.Fields(dimension=dimension, mass=mass, speed=speed, cell_area=10_000, controlled=0, word=word)
    return g.text_of_fields(fields, g.Lent(counts=counts_with(people), marks=marks))


def farmhouses():
    """Document 01's P16, in column 2 by document 02 item 6: eight people on a hectare, one low M1(A) credit."""
    return text((1_000, 10_000, 2_500), 0x1000, block_of_marks(range(0, 1), range(0, 1)), {(0, 0): 8})


def area_route():
    """A wing that is small enough for column 2 by its area, though not by its dimension."""
    people = {(9, 40): 2, (10, 41): 4, (12, 44): 1}
    return text((3_400, 25_000, 2_500), 0x0002, block_of_marks(range(8, 13), range(40, 46)), people)


def flagged():
    """A flagged aircraft over a few houses."""
    people = {(20, 30): 3, (21, 31): 12, (22, 33): 12, (23, 35): 1, (21, 36): 40}
    return text((2_974, 20_005, 3_737), 0x1000, block_of_marks(range(20, 24), range(30, 36)), people)


def refused():
    """An aircraft of column 3 over a town, with no mitigation."""
    people = {(row, column): 60 + row + column for row in range(30, 34) for column in range(10, 20)}
    return text((4_000, 60_000, 4_000), 0x0000, block_of_marks(range(28, 33), range(8, 16)), people)


EXAMPLES = {"farmhouses": farmhouses, "area_route": area_route, "flagged": flagged, "refused": refused}


if __name__ == "__main__":
    folder = Path(__file__).resolve().parent.parent / "examples"
    for name, made in EXAMPLES.items():
        (folder / f"{name}.case").write_bytes(made())
