"""Prints the tables of docs/TRADE_OFFS.md: the greatest speed and the greatest mass for a column, of chosen aircraft.

A test compares the page with them.
"""

import sys

import ground_risk as g

# In mm, g and cm/s.
DIMENSIONS = [dimension for dimension, _ in g.SIZE_PAIRS]
MASSES = (250, 900, 4_000, 10_000, 25_000, 50_000, 100_000, 250_000, 600_000, 1_000_000, 2_500_000, 5_000_000, 10_000_000, 25_000_000)
SPEEDS = (1_000, 1_500, 2_000, 2_500, 3_000, 3_500, 4_000, 5_000, 7_500, 10_000, 12_000, 15_000, 20_000, 25_000, 30_000, 40_000)
COLUMNS = (1, 2, 3, 4, 5)


def in_mass(m):
    return f"{m} g" if m < 1_000 else f"{m // 1_000:,} kg"


def in_speed(v):
    return f"{v:,} cm/s"


def answered(answer):
    """The number, or a dash where no number is in the column."""
    refusal, number = answer
    return {0: f"{number:,}", 21: "–"}[refusal]


def row(cells):
    return f"| {' | '.join(cells)} |\n"


def table(title, first, given, in_words, greatest, dimension):
    """A row for each given number, with the answer of each column."""
    rows = [row([first, *map(str, COLUMNS)]), "|" + "---:|" * (1 + len(COLUMNS)) + "\n"]
    rows += [row([in_words(number), *(answered(greatest(dimension, number, column)) for column in COLUMNS)]) for number in given]
    return f"{title} and column:\n\n" + "".join(rows)


def of_dimension(dimension):
    return (f"## {dimension:,} mm\n\n"
            + table("Greatest speed in cm/s, by mass", "Mass", MASSES, in_mass, g.greatest_speed, dimension) + "\n"
            + table("Greatest mass in g, by speed", "Speed", SPEEDS, in_speed, g.greatest_mass, dimension))


def tables():
    return "\n".join(map(of_dimension, DIMENSIONS))


if __name__ == "__main__":
    # the dash in UTF-8, whatever the terminal's own encoding
    sys.stdout.buffer.write(tables().encode())
