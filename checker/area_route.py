"""Document 02 item 7, quoted here: the claim that the area column is never above the size column, and the made part of docs/AREA_ROUTE.md.

    python3 checker/area_route.py     prints the made part

The made part shows an aircraft of each dimension left out that breaks the claim, which others of the two do, and how near the rest
comes to the limits. A test compares the page with it.
"""

import sys

import ground_risk as g
from trade_off_tables import MASSES, in_mass, in_speed, row

# "Since the cuts moved it fails at exactly 1,000 and 8,000 mm: leave those two out"
LEFT_OUT = (1_000, 8_000)

# "show in docs/ one aircraft of each that breaks it", in mm, g and cm/s: P2, and the heaviest at the speed of its pair
BREAKING = ((1_000, 10_000, 2_500), (8_000, 25_000_000, 7_500))

# "for every aircraft in range": of what a pair takes in the heaviest has the largest area, as the area grows with the mass
HEAVIEST = max(g.MASS_RANGE)


# ---------------------------------------------------------------------------
# The claim
# ---------------------------------------------------------------------------

def claimed(w, m, v):
    # "for every aircraft in range for which one of the five pairs is large enough"; "leave those two out"
    return g.aircraft_refusal(w, m, v) == 0 and g.size_column(w, v) != 0 and w not in LEFT_OUT


def holds(w, m, v):
    sheet = g.sheet(w, m, v)
    # "and that refusal 4 doesn't come to it"; "the area column is never above the size column"
    if sheet.refusal != 0 or sheet.column > sheet.size_column:
        return False
    # nor is the exact column: by demand 3 it is the sheet's, or flagged the one before
    return 1 <= g.exact_column(w, m, v) <= sheet.size_column


# ---------------------------------------------------------------------------
# Numbers in a planner's units
# ---------------------------------------------------------------------------

def in_parts(number, places):
    """So many tenths, hundredths or smaller parts, as a number with that many decimals."""
    whole, rest = divmod(number, 10 ** places)
    return f"{whole:,}.{rest:0{places}}"


def shortened(number, places):
    """The same without zeros at its end."""
    return in_parts(number, places).rstrip("0").rstrip(".")


def dimension_in_words(w):
    return f"{w:,} mm ({shortened(w, 3)} m)"


def mass_in_words(m):
    return f"{m:,} g ({shortened(m, 3)} kg)"


def speed_in_words(v):
    return f"{in_speed(v)} ({shortened(v, 2)} m/s)"


def length_in_words(micrometres):
    return f"{in_parts(micrometres, 6)} m ({micrometres:,} µm)"


def t_in_words(t):
    # "in thousandths of a square millimetre"
    return f"{in_parts(t, 9)} m² ({t:,} thousandths of a mm²)"


def area_in_words(area):
    return f"{in_parts(area, 4)} m² ({area:,} cm²)"


def limit_in_words(column):
    limit = g.AREA_LIMITS[column - 1]
    return f"{shortened(limit, 4)} m² ({limit:,} cm²)"


def bracket_in_words(area):
    return f"{in_parts(area.low, 4)} to {in_parts(area.high, 4)} m² ({area.low:,} to {area.high:,} cm²)"


def exact_in_words(area):
    """An exact area that goes on behind its first two decimals."""
    return f"a little over {in_parts(g.round_down(100 * area), 2)} cm²"


def aircraft_in_words(w, m, v):
    return f"a dimension of {dimension_in_words(w)}, a mass of {mass_in_words(m)} and a speed of {speed_in_words(v)}"


def pair_in_words(column):
    dimension, speed = g.SIZE_PAIRS[column - 1]
    return f"{dimension:,} mm and {in_speed(speed)}"


# ---------------------------------------------------------------------------
# An aircraft that breaks it
# ---------------------------------------------------------------------------

def table(head, rows):
    """A table, whose first column stands left and whose others stand right."""
    return row(head) + "|---|" + "---:|" * (len(head) - 1) + "\n" + "".join(map(row, rows))


def lines_of(sheet, formula):
    """The sheet's lines 1 to 6, a row each."""
    part = {g.WHOLE: "all of T", g.SIX_TENTHS: "six tenths of T"}[formula]
    lengths = (("Glide", sheet.glide), ("Run, from the speed", sheet.run), ("Saving, from the mass", sheet.saving),
               ("Slide: run less saving", sheet.slide))
    rows = [[name, *map(length_in_words, line)] for name, line in lengths]
    rows.append(["T, the area of the full formula", *map(t_in_words, sheet.t)])
    rows.append([f"Critical area: {part}", *map(area_in_words, sheet.area)])
    return table(["Line of the sheet", "Low", "High"], rows)


def answers_of(w, m, v):
    """The sheet's answers, then the exact ones. Of a flagged or refused aircraft there are no words."""
    sheet = g.sheet(w, m, v)
    column, size = sheet.column, sheet.size_column
    rows = (("Column", f"{column}: above {limit_in_words(column - 1)}, up to {limit_in_words(column)}"),
            ("Flag", {0: f"0: the low area is above {limit_in_words(column - 1)} too"}[sheet.flag]),
            ("Size column", f"{size}: {pair_in_words(size)} is the first pair whose dimension and speed are both at least the "
                            f"aircraft's, {w:,} mm and {in_speed(v)}"),
            ("Refusal", {0: "none"}[sheet.refusal]),
            ("Exact area", exact_in_words(g.exact_area(w, m, v))),
            ("Exact column", str(g.exact_column(w, m, v))))
    return row(["Answer", "In words"]) + "|---|---|\n" + "".join(map(row, rows))


def beside(w, m, v):
    """The same aircraft at one millimetre less and one more."""
    rows = []
    for dimension in (w - 1, w, w + 1):
        sheet = g.sheet(dimension, m, v)
        above = "yes" if sheet.column > sheet.size_column else "no"
        rows.append([f"{dimension:,} mm", bracket_in_words(sheet.area), str(sheet.column), str(sheet.size_column), above])
    return table(["Dimension", "Critical area", "Column", "Size column", "Column above size column"], rows)


def breaking(w, m, v):
    return (f"## An aircraft of {w:,} mm that breaks it\n\n"
            f"It has {aircraft_in_words(w, m, v)}.\n\n"
            + lines_of(g.sheet(w, m, v), g.area_formula(w)) + "\n"
            + answers_of(w, m, v)
            + "\nThe same mass and speed at one millimetre less and one more:\n\n"
            + beside(w, m, v))


# ---------------------------------------------------------------------------
# Which aircraft of the two dimensions break it
# ---------------------------------------------------------------------------

def smallest_pair(w):
    """The first pair whose dimension is at least this: its column, and its speed, up to which it is the size column."""
    column = g.size_column(w, min(g.SPEED_RANGE))
    return column, g.SIZE_PAIRS[column - 1][1]


def first_speed(w, m):
    """The first speed at which the column is above the size column; None where the pair's speed is lower."""
    column, speed = smallest_pair(w)
    first = g.greatest_speed(w, m, column).speed + 1
    return first if first <= speed else None


def first_speed_in_words(w, m):
    first = first_speed(w, m)
    return "–" if first is None else in_speed(first)


def none_breaks(w):
    column, speed = smallest_pair(w)
    slow, light = g.greatest_speed(w, HEAVIEST, column).speed, g.greatest_mass(w, speed, column).mass
    return (f"At {w:,} mm none breaks it up to {speed_in_words(slow)}, whatever its mass, nor up to {mass_in_words(light)}, whatever its "
            f"speed up to {in_speed(speed)}.")


def which_break():
    heads = []
    for w in LEFT_OUT:
        column, speed = smallest_pair(w)
        heads.append(f"At {w:,} mm above size column {column}, up to {in_speed(speed)}")
    rows = [[in_mass(m), *(first_speed_in_words(w, m) for w in LEFT_OUT)] for m in MASSES]
    speeds = " and ".join(f"{smallest_pair(w)[1]:,}" for w in LEFT_OUT)
    last = g.SIZE_PAIRS[-1][1]
    return ("## Which aircraft of these two dimensions break it\n\n"
            "The first speed at which the column is above the size column, by mass; so is every later one up to the speed in the heading. "
            "A dash means that none is.\n\n"
            + table(["Mass", *heads], rows) + "\n"
            + " ".join(map(none_breaks, LEFT_OUT))
            + f" Above {speeds} cm/s, up to {in_speed(last)}, the size column is itself higher, and the claim holds; above that no pair is "
              "large enough.\n")


# ---------------------------------------------------------------------------
# How near it comes
# ---------------------------------------------------------------------------

def claimed_ranges():
    """The first and the last dimension of each range between those left out."""
    firsts = (min(g.DIMENSION_RANGE), *(w + 1 for w in LEFT_OUT))
    lasts = (*(w - 1 for w in LEFT_OUT), max(g.DIMENSION_RANGE))
    return tuple(zip(firsts, lasts))


def heaviest_area(column, w):
    """The largest area of this dimension that a pair takes in: the heaviest at the pair's speed, by its high area."""
    return g.sheet(w, HEAVIEST, g.SIZE_PAIRS[column - 1][1]).area.high


def largest_dimension(column, first, last):
    """The largest of these dimensions that a pair takes in; None where it takes in none. In a range between those left out one area
    formula is taken, and the area grows with the dimension."""
    last = min(last, g.SIZE_PAIRS[column - 1][0])
    return last if first <= last else None


def largest_areas(column):
    """For each range the largest area that the pair takes in, with its dimension; None where it takes in none."""
    dimensions = [largest_dimension(column, first, last) for first, last in claimed_ranges()]
    return [None if w is None else (heaviest_area(column, w), w) for w in dimensions]


def largest_in_words(largest):
    return "–" if largest is None else "{:,} at {:,} mm".format(*largest)


def left_out_in_words(column):
    """What those left out come to, as far as the pair takes them in, and whether that is above the column's limit."""
    areas = [(heaviest_area(column, w), w) for w in LEFT_OUT if w <= g.SIZE_PAIRS[column - 1][0]]
    return "; ".join(largest_in_words(found) + (", above the limit" if found[0] > g.AREA_LIMITS[column - 1] else "") for found in areas)


def part_in_words(column):
    largest, _ = max(found for found in largest_areas(column) if found is not None)
    return f"{100 * largest / g.AREA_LIMITS[column - 1]:.1f} %"


def range_in_words(first, last):
    if first == min(g.DIMENSION_RANGE):
        return f"Below {last + 1:,} mm"
    if last == max(g.DIMENSION_RANGE):
        return f"From {first:,} mm"
    return f"From {first:,} to {last:,} mm"


def how_near():
    head = ["Size column", "Pair", "Limit of the column", *(range_in_words(*limits) for limits in claimed_ranges()),
            "Largest, as part of the limit", "Left out"]
    rows = [[str(column), pair_in_words(column), f"{g.AREA_LIMITS[column - 1]:,}", *map(largest_in_words, largest_areas(column)),
             part_in_words(column), left_out_in_words(column)] for column in range(1, 1 + len(g.SIZE_PAIRS))]
    return ("## How near it comes\n\n"
            f"The largest area of any aircraft that a pair takes in, in cm²: that of the heaviest, {mass_in_words(HEAVIEST)}, at the pair's "
            "speed and the largest dimension. A dash means that the pair takes in none of these dimensions.\n\n"
            + table(head, rows))


def made_part():
    return "\n".join((*(breaking(*aircraft) for aircraft in BREAKING), which_break(), how_near()))


if __name__ == "__main__":
    # the dash and the units in UTF-8, whatever the terminal's own encoding
    sys.stdout.buffer.write(made_part().encode())
