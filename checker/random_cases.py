"""The random cases of docs/RANDOM_CASES.md.

Prints one frame a line for all cases. With --kinds prints how many cases of
each kind there are, and fails if a promised minimum is missed.
"""

import sys
from concurrent.futures import ProcessPoolExecutor
from types import SimpleNamespace

import ground_risk as g
from flagged_aircraft import AT_LIMITS, FLAGGED

CASES = 2_400

# ---------------------------------------------------------------------------
# Tables of the page
# ---------------------------------------------------------------------------

# An aircraft for each of the columns 1 to 5: dimension, mass, speed.
COLUMN_AIRCRAFT = (
    (999, 10_000, 2_500),
    (3_000, 25_000, 3_500),
    (8_001, 50_000, 0),
    (20_000, 500_000, 6_000),
    (40_000, 5_000_000, 20_000),
)

FLAGGED_AIRCRAFT = tuple(row[2:] for row in FLAGGED)
LIMIT_AIRCRAFT = tuple(row[2:] for row in AT_LIMITS)

# A field of line 1 and its value.
EDGES = tuple((name, value) for name, values in (
    ("dimension", (0, 49, 50, 51, 999, 1_000, 1_001, 7_999, 8_000, 8_001, 99_999, 100_000, 100_001,
                   4_294_967_295)),
    ("mass", (0, 49, 50, 51, 24_999_999, 25_000_000, 25_000_001, 4_294_967_295)),
    ("speed", (0, 1, 39_999, 40_000, 40_001, 4_294_967_295)),
    ("cell_area", (0, 99, 100, 101, 24_999_999, 25_000_000, 25_000_001, 4_294_967_295)),
) for value in values)

DENSITIES = (5, 50, 500, 5_000, 50_000)
SPREADS = (1, 2, 8, 50, 500, 5_000, 65_536)
COUNT_EDGES = (999_999, 1_000_000, 1_000_001, 4_294_967_295)
MARKS = (0, 1, 2, 255, 3, 16, 128, 254)
# A count on 1,000,000 square metres for each of the rows 2 to 7.
ROW_COUNTS = (4, 49, 499, 4_999, 49_999, 1_000_000)
WRONG_DIGITS = (0, 47, 58, 64, 65, 66, 67, 68, 69, 70, 96, 103, 255, 10)
WRONG_LINE_ENDS = (0, 47, 58, 64, 65, 66, 67, 68, 69, 70, 96, 103, 255, 13, 48, 57, 97, 102, 11)
CORNERS = (0, g.COLUMNS - 1, g.PLACES - g.COLUMNS, g.PLACES - 1)

ALL_ONES = 2 ** g.COLUMNS - 1
TOP_BIT = 2 ** (g.COLUMNS - 1)
LAST_ROW = g.ROWS - 1
NO_PLACE = g.PLACES

# Longer frame buffers are so by a draw below this.
LONGER_FRAMES = 24


# ---------------------------------------------------------------------------
# The random source
# ---------------------------------------------------------------------------

class Source:
    def __init__(self, number):
        self.x = (number * 2_654_435_761) % 2 ** 32

    def below(self, n):
        self.x = (self.x * 1_664_525 + 1_013_904_223) % 2 ** 32
        return (self.x // 65_536) % n

    def draw_32(self):
        high = self.below(65_536)
        return high * 65_536 + self.below(65_536)

    def draw_64(self):
        high = self.draw_32()
        return high * 2 ** 32 + self.draw_32()

    def between(self, low, high):
        return low + self.draw_32() % (high - low + 1)


# ---------------------------------------------------------------------------
# The plain case, and what kinds do to it
# ---------------------------------------------------------------------------

def offered_word(a, b, c, d):
    """The word from a choice of 0, 1, 2 (for M1(C) of 0, 1) at each digit."""
    m1b = 0 if b == 0 else b + 1
    m2 = 0 if d == 0 else d + 1
    return a * 4096 + m1b * 256 + c * 16 + m2


def plain_case(source):
    case = SimpleNamespace()
    ranges = ((50, 999), (1_000, 7_999), (8_000, 20_000), (20_001, 100_000))
    case.dimension = source.between(*ranges[source.below(4)])
    ranges = ((50, 1_000), (1_001, 25_000), (25_001, 1_000_000), (1_000_001, 25_000_000))
    case.mass = source.between(*ranges[source.below(4)])
    ranges = ((0, 2_500), (2_501, 7_500), (7_501, 20_000), (20_001, 40_000))
    case.speed = source.between(*ranges[source.below(4)])
    ranges = ((100, 10_000), (10_001, 1_000_000), (1_000_001, 25_000_000))
    case.cell_area = source.between(*ranges[source.below(3)])
    case.controlled = 1 if source.below(4) == 0 else 0
    a, b, c, d = source.below(3), source.below(3), source.below(2), source.below(3)
    case.word = offered_word(a, b, c, d)
    case.first_row = source.below(g.ROWS)
    case.last_row = case.first_row + source.below(g.ROWS - case.first_row)
    case.row_marks = source.draw_64()
    case.spread = SPREADS[source.below(len(SPREADS))]
    case.drawn_rows = 0
    case.base = 0
    case.place_1, case.count_1 = NO_PLACE, 0
    case.place_2, case.count_2 = NO_PLACE, 0
    case.damage_place, case.damage_byte = g.TEXT_LENGTH, 10
    case.text_length = g.TEXT_LENGTH
    case.lent_lengths = g.LENT_LENGTHS
    case.frame_length = g.FRAME_LENGTH
    return case


def calm(case):
    case.cell_area = 1_000_000
    case.controlled = 0
    case.word = 0
    case.row_marks |= TOP_BIT
    case.spread = 3


def set_aircraft(case, aircraft):
    case.dimension, case.mass, case.speed = aircraft


def block(case, first_row, last_row, row_marks):
    case.first_row, case.last_row, case.row_marks = first_row, last_row, row_marks


def one_cell(case, place):
    row, column = divmod(place, g.COLUMNS)
    block(case, row, row, TOP_BIT >> column)


def kind_0(case, i, source):
    """Plain."""


def kind_1(case, i, source):
    """Drawn footprint rows."""
    case.drawn_rows = 1


def kind_2(case, i, source):
    """Edges of the ranges."""
    calm(case)
    set_aircraft(case, COLUMN_AIRCRAFT[1])
    setattr(case, *EDGES[i % len(EDGES)])


def kind_3(case, i, source):
    """Flagged aircraft, calm map."""
    calm(case)
    set_aircraft(case, FLAGGED_AIRCRAFT[i % len(FLAGGED_AIRCRAFT)])


def kind_4(case, i, source):
    """Flagged aircraft, plain map."""
    set_aircraft(case, FLAGGED_AIRCRAFT[i % len(FLAGGED_AIRCRAFT)])


def kind_5(case, i, source):
    """Aircraft at the area limits, by a few grams."""
    calm(case)
    turn, entry = divmod(i, len(LIMIT_AIRCRAFT))
    set_aircraft(case, LIMIT_AIRCRAFT[entry])
    case.mass = case.mass + turn - 3


def kind_6(case, i, source):
    """Row boundaries by one person."""
    set_aircraft(case, COLUMN_AIRCRAFT[0])
    case.controlled = 0
    case.word = 0
    density = DENSITIES[i % 5]
    if i < 50:
        case.cell_area = 200_000 * (1 + source.below(100))
    else:
        case.cell_area = source.between(100, 20_000_000)
    people = (density * case.cell_area + 999_999) // 1_000_000
    case.place_1 = source.below(g.PLACES)
    case.count_1 = people - 1 + (i // 5) % 2
    one_cell(case, case.place_1)


def kind_7(case, i, source):
    """Ties for the largest count."""
    set_aircraft(case, COLUMN_AIRCRAFT[i % 5])
    case.spread = 1 + source.below(3)
    case.place_1 = source.below(g.PLACES)
    case.place_2 = source.below(g.PLACES)
    case.count_1 = 100 + source.below(100)
    case.count_2 = case.count_1
    if i % 3 == 0:
        case.drawn_rows = 1
    elif i % 3 == 2:
        block(case, 0, LAST_ROW, ALL_ONES)


def kind_8(case, i, source):
    """Edges of the counts, marked and unmarked."""
    calm(case)
    set_aircraft(case, COLUMN_AIRCRAFT[0])
    case.cell_area = 25_000_000
    case.place_1 = source.below(g.PLACES)
    case.count_1 = COUNT_EDGES[i % 4]
    other = (case.place_1 + 1 + source.below(g.PLACES - 1)) % g.PLACES
    one_cell(case, case.place_1 if (i // 4) % 2 == 1 else other)


def kind_9(case, i, source):
    """Controlled-ground marks."""
    set_aircraft(case, COLUMN_AIRCRAFT[i % 5])
    case.controlled = MARKS[i % 8]


def kind_10(case, i, source):
    """Every digit at every place of the word, and any word."""
    calm(case)
    set_aircraft(case, COLUMN_AIRCRAFT[i % 5])
    if i < 64:
        case.word = (i % 16) * 16 ** (3 - i // 16)
    else:
        case.word = source.below(65_536)


def kind_11(case, i, source):
    """Every offered word at the low classes."""
    calm(case)
    set_aircraft(case, COLUMN_AIRCRAFT[i % 5])
    case.controlled = (i // 5) % 2
    j = i % 54
    case.word = offered_word(j % 3, (j // 3) % 3, (j // 9) % 2, j // 18)


def class_entry(case, i, source):
    set_aircraft(case, COLUMN_AIRCRAFT[i % 5])
    case.cell_area = 1_000_000
    case.controlled = (i // 30) % 2
    case.place_1 = source.below(g.PLACES)
    case.count_1 = ROW_COUNTS[(i // 5) % 6]
    one_cell(case, case.place_1)


def kind_12(case, i, source):
    """Every entry of the class table, no credits."""
    class_entry(case, i, source)
    case.word = 0


def kind_13(case, i, source):
    """Every entry of the class table, drawn credits."""
    class_entry(case, i, source)


def kind_14(case, i, source):
    """A wrong byte in a digit's place."""
    turn, entry = divmod(i, len(WRONG_DIGITS))
    case.damage_byte = WRONG_DIGITS[entry]
    part = g.BLOCKS[turn % len(g.BLOCKS)]
    line = source.below(part.lines) if part.lines > 1 else 0
    case.damage_place = g.text_place(part.name, line, source.below(g.line_digits(part.name)))


def kind_15(case, i, source):
    """A wrong byte in a line end's place."""
    turn, entry = divmod(i, len(WRONG_LINE_ENDS))
    case.damage_byte = WRONG_LINE_ENDS[entry]
    line = source.below(g.ROWS)
    places = [g.text_place(part.name, line % part.lines, g.line_digits(part.name)) for part in g.BLOCKS]
    places.append(g.TEXT_LENGTH - 1)
    case.damage_place = places[turn % len(places)]


def kind_16(case, i, source):
    """Text lengths."""
    drawn = source.below(g.TEXT_LENGTH)
    case.text_length = (0, g.TEXT_LENGTH - 1, g.TEXT_LENGTH + 1, drawn, g.TEXT_LENGTH)[i % 5]
    if i >= 50:
        case.damage_place, case.damage_byte = 0, 103


# The lent buffers that have a wrong length, turn by turn.
LENT_TURNS = (
    {"counts": 0}, {"counts": g.PLACES - 1}, {"counts": g.PLACES + 1},
    {"marks": 0}, {"marks": g.ROWS - 1}, {"marks": g.ROWS + 1},
    {"counts": g.PLACES - 1, "marks": g.ROWS + 1}, {},
)


def kind_17(case, i, source):
    """Lengths of the count and footprint buffers."""
    case.lent_lengths = case.lent_lengths._replace(**LENT_TURNS[i % len(LENT_TURNS)])
    if i >= 40:
        case.damage_place, case.damage_byte = g.TEXT_LENGTH - 1, 48
    if i >= 80:
        case.text_length = g.TEXT_LENGTH - 1


def kind_18(case, i, source):
    """Lengths of the frame buffer."""
    drawn = source.below(LONGER_FRAMES)
    if i < g.FRAME_LENGTH:
        case.frame_length = i
    else:
        case.frame_length = g.FRAME_LENGTH + drawn if i % 2 == 1 else drawn
    if i >= 70:
        case.text_length = 0


def kind_19(case, i, source):
    """Shapes of the footprint."""
    set_aircraft(case, COLUMN_AIRCRAFT[0])
    case.cell_area = 25_000_000
    case.controlled = 0
    case.spread = 5_000
    line = source.below(g.ROWS)
    place = source.below(g.PLACES)
    shape = i % 10
    if shape < len(CORNERS):
        one_cell(case, CORNERS[shape])
    elif shape == 4:
        block(case, 0, LAST_ROW, ALL_ONES)
    elif shape == 5:
        block(case, 0, LAST_ROW, 0)
    elif shape == 6:
        block(case, line, line, ALL_ONES)
    elif shape == 7:
        block(case, 0, LAST_ROW, TOP_BIT)
    elif shape == 8:
        block(case, 0, LAST_ROW, 1)
    else:
        one_cell(case, place)


def kind_20(case, i, source):
    """Several things wrong at once."""
    calm(case)
    set_aircraft(case, COLUMN_AIRCRAFT[4])
    a = source.below(256)
    b = source.below(256)
    wrong = a & b
    place = source.below(g.PLACES)
    if wrong & 1:
        case.dimension = 49
    if wrong & 2:
        case.mass = 25_000_001
    if wrong & 4:
        case.speed = 40_001
    if wrong & 8:
        case.cell_area = 99
    if wrong & 16:
        case.place_1, case.count_1 = place, 1_000_001
    if wrong & 32:
        case.row_marks = 0
    if wrong & 64:
        case.controlled = 2
    if wrong & 128:
        case.word = 65_535


def kind_21(case, i, source):
    """Any byte at any place."""
    case.damage_place = source.below(g.TEXT_LENGTH)
    case.damage_byte = source.below(256)


def kind_22(case, i, source):
    """Any numbers in the fields."""
    if source.below(4) == 0:
        case.dimension = source.draw_32()
    if source.below(4) == 0:
        case.mass = source.draw_32()
    if source.below(4) == 0:
        case.speed = source.draw_32()
    if source.below(4) == 0:
        case.cell_area = source.draw_32()
    if source.below(4) == 0:
        case.controlled = source.below(256)
    if source.below(4) == 0:
        case.word = source.below(65_536)


def kind_23(case, i, source):
    """Many people."""
    set_aircraft(case, COLUMN_AIRCRAFT[i % 2])
    case.cell_area = 25_000_000
    case.controlled = 0
    block(case, 0, LAST_ROW, ALL_ONES)
    place = source.below(g.PLACES)
    choice = i % 4
    if choice == 0:
        case.base, case.spread = 1_000_000, 1
    elif choice == 1:
        case.base, case.spread = 934_465, 65_536
    elif choice == 2:
        case.base, case.spread = 934_465, 65_536
        case.drawn_rows = 1
    else:
        case.base, case.spread = 999_999, 2
        case.place_1, case.count_1 = place, 0


KINDS = (kind_0, kind_1, kind_2, kind_3, kind_4, kind_5, kind_6, kind_7, kind_8, kind_9,
         kind_10, kind_11, kind_12, kind_13, kind_14, kind_15, kind_16, kind_17, kind_18,
         kind_19, kind_20, kind_21, kind_22, kind_23)


# ---------------------------------------------------------------------------
# From number to text to frame
# ---------------------------------------------------------------------------

def make_case(number):
    """The case of this number, with its text and what a reading of it fills."""
    source = Source(number)
    case = plain_case(source)
    KINDS[number // 100](case, number % 100, source)
    if case.drawn_rows == 1:
        rows = [source.draw_64() for _ in range(g.ROWS)]
    else:
        rows = [case.row_marks if case.first_row <= row <= case.last_row else 0
                for row in range(g.ROWS)]
    counts = [case.base + source.below(case.spread) for _ in range(g.PLACES)]
    for place, count in ((case.place_1, case.count_1), (case.place_2, case.count_2)):
        if place < NO_PLACE:
            counts[place] = count
    case.fields = g.Fields(*(getattr(case, name) for name in g.Fields._fields))
    case.lent = g.Lent(counts=counts, marks=rows)
    text = bytearray(g.text_of_fields(case.fields, case.lent) + b"\n")
    text[case.damage_place] = case.damage_byte
    case.text = bytes(text[:case.text_length])
    return case


def answer_of(case):
    return g.case(case.text, g.zeros(case.lent_lengths), bytes(case.frame_length))


def printed_line(answer):
    """The line that must be printed; under 15 the program prints it itself."""
    if answer.refusal == 15:
        return b"0f\n"
    return answer.frame[:g.printed_length(answer.refusal)]


def line_of_number(number):
    return printed_line(answer_of(make_case(number)))


def print_frames(out):
    # A case depends on its number alone, so they are worked side by side
    # where the machine has semaphores for that.
    try:
        workers = ProcessPoolExecutor()
    except OSError:
        out.writelines(map(line_of_number, range(CASES)))
        return
    with workers:
        out.writelines(workers.map(line_of_number, range(CASES), chunksize=50))


if __name__ == "__main__":
    if sys.argv[1:] == ["--kinds"]:
        from random_case_kinds import kinds_table
        table, missed = kinds_table()
        print(table)
        for name in missed:
            print(f"too few: {name}", file=sys.stderr)
        sys.exit(1 if missed else 0)
    elif sys.argv[1:] == []:
        print_frames(sys.stdout.buffer)
    else:
        sys.exit("usage: random_cases.py [--kinds]")
