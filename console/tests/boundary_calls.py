"""Writes calls of the library and what the checker says that they must answer and leave, for boundary.c to make.

usage: boundary_calls.py FILE

FILE is a row of records, each a letter and its fields, little-endian and without gaps. The records of a call have the operation's
parameters in order (checker/library.py has the table): a number, a struct's numbers, or for what is lent its length as u32. Then
comes what the checker says:

  T  bytes of a text: u32 length, the bytes     the text of the calls C and L that follow
  R  the lent buffers at their right lengths    what an accepted reading of that text gives
  C  whole case: u8 answer, u8 1 where the map buffers are filled, u8 bytes written, the bytes
  L  reading: the answer
  M  the map buffers, one element longer        the map of the calls F and A that follow
  F  footprint: the answer
  A  assessment: the answer
  S  sheet: the answer
  H  high impact angle area: the answer
  D  descent: the answer
  G  greatest speed for a column: the answer
  J  greatest mass for a column: the answer
  I  intrinsic class: the answer
  K  final class: the answer
  W  frame: u8 answer, u8 bytes written, the bytes
  E  the end
"""

import ctypes
import random
import sys
from itertools import product
from multiprocessing import Pool
from pathlib import Path
from struct import pack

sys.path.insert(0, str(Path(__file__).resolve().parents[2] / "checker"))

import area_route
import descent_aircraft
import descent_points
import ground_risk as g
import high_angle_aircraft
import high_angle_points
import random_cases as r
import trade_off_aircraft
import trade_off_tables
from library import F64, LENT, OPERATIONS, U64, flat

# Every third of the random cases: some of each kind.
CASES = range(0, r.CASES, 3)

LETTERS = {"case": b"C", "reading": b"L", "footprint": b"F", "assessment": b"A", "sheet": b"S", "high angle": b"H",
           "descent": b"D", "greatest speed": b"G", "greatest mass": b"J", "intrinsic class": b"I", "final class": b"K", "frame": b"W"}


def packed(kind, numbers):
    """The next numbers, one or a struct's, without gaps; a double comes as its bits."""
    if issubclass(kind, ctypes.Structure):
        return b"".join(packed(field, numbers) for _, field in kind._fields_)
    return bytes((U64 if kind is F64 else kind)(next(numbers)))


def call(name, *values):
    """The record of a call up to its answer."""
    out = LETTERS[name]
    for parameter, value in zip(OPERATIONS[name].parameters, values, strict=True):
        out += pack("<I", len(value)) if parameter.lent else packed(parameter.kind, iter(flat(value)))
    return out


def answered(name, *values):
    """The record of a call and what the checker says that it answers."""
    operation = OPERATIONS[name]
    return call(name, *values) + packed(operation.answer, iter(operation.said(*values).answer))


def text_records(text, answer):
    """The text, and what is left in the buffers by an answer under which it was read."""
    out = b"T" + pack("<I", len(text)) + text
    if answer.refusal not in g.NOT_READ:
        out += b"R" + packed_lent(answer.lent)
    return out


def map_record(lent):
    return b"M" + packed_lent(one_longer(lent))


def packed_lent(lent):
    return b"".join(bytes((parameter.kind * len(buffer))(*buffer)) for parameter, buffer in zip(LENT, lent, strict=True))


def one_longer(lent):
    return g.Lent(*(buffer + [0] for buffer in lent))


def case_record(text, lent, frame_length):
    frame = bytes(frame_length)
    answer = g.case(text, lent, frame)
    written = answer.frame[:g.printed_length(answer.refusal)]
    filled = answer.refusal not in g.NOT_READ
    return call("case", text, *lent, frame) + pack("<BBB", answer.refusal, filled, len(written)) + written


def assessment_record(fields, lent):
    return answered("assessment", fields.dimension, fields.mass, fields.speed, *lent, fields.cell_area, fields.controlled, fields.word)


def random_case(number):
    """A random case, as a whole and part by part."""
    case = r.make_case(number)
    text, lent, fields = case.text, g.zeros(case.lent_lengths), case.fields
    return (text_records(text, g.read_case(text, lent))
            + case_record(text, lent, case.frame_length)
            + answered("reading", text, *lent)
            + answered("sheet", fields.dimension, fields.mass, fields.speed)
            + answered("high angle", fields.dimension, fields.mass, fields.speed)
            + answered("descent", fields.dimension, fields.mass, fields.speed, 1 + number % 40, 20)
            + answered("greatest speed", fields.dimension, fields.mass, number % 7)
            + answered("greatest mass", fields.dimension, fields.speed, number % 7)
            + map_record(case.lent)
            + answered("footprint", *case.lent, fields.cell_area)
            + assessment_record(fields, case.lent))


def around(exact):
    return (0, 1, exact - 1, exact, exact + 1)


def frame_lengths():
    return around(g.FRAME_LENGTH) + (g.FRAME_LENGTH + 23,)


def all_lengths():
    """The lent buffers at every length that matters."""
    return [g.Lent(*lengths) for lengths in product(*map(around, g.LENT_LENGTHS))]


def accepted_case():
    return r.make_case(2_300)


def text_lengths(text):
    """A text with every buffer at each length that matters."""
    out = text_records(text + b"\n", g.case(text, g.zeros(), bytes(g.FRAME_LENGTH)))
    for text_length in around(g.TEXT_LENGTH):
        given = (text + b"\n")[:text_length]
        for lent in map(g.zeros, all_lengths()):
            out += answered("reading", given, *lent)
            for frame_length in frame_lengths():
                out += case_record(given, lent, frame_length)
    return out


def accepted_lengths():
    return text_lengths(accepted_case().text)


def damaged_lengths():
    """Refused in the reading."""
    damaged = bytearray(accepted_case().text)
    damaged[g.TEXT_LENGTH - 1] = 48
    return text_lengths(bytes(damaged))


def refused_lengths():
    """Read, and refused later."""
    return text_lengths(r.make_case(2_055).text)


def map_lengths():
    """A map with both buffers at each length that matters."""
    accepted = accepted_case()
    out = map_record(accepted.lent)
    for lengths_lent in all_lengths():
        lent = g.Lent(*(buffer[:length] for buffer, length in zip(one_longer(accepted.lent), lengths_lent)))
        out += answered("footprint", *lent, accepted.fields.cell_area)
        out += assessment_record(accepted.fields, lent)
    return out


def sizes():
    """Sheets at every pair's dimension and speed by one, at the ends of the masses, and with one mass that is refused; then those about
    the dimensions at which the column may be above the size column."""
    dimensions, speeds = ([number + step for number in numbers for step in (-1, 0, 1)] for numbers in zip(*g.SIZE_PAIRS))
    lightest, heaviest = g.MASS_RANGE
    pairs = product(dimensions, (lightest - 1, lightest, heaviest), speeds)
    return b"".join(answered("sheet", *aircraft) for aircraft in (*pairs, *above_the_size_column()))


def above_the_size_column():
    """For many masses the last speed whose column isn't above the size column and the first whose column is, and the pair's speed by one;
    for many speeds likewise the last mass and the first. All of them at the dimension itself and one millimetre to each side."""
    for w in area_route.LEFT_OUT:
        column, pair = area_route.smallest_pair(w)
        aircraft = [(m, v) for m in trade_off_tables.MASSES
                    for v in {*(g.greatest_speed(w, m, column).speed + step for step in (0, 1)), *by_one((pair,))}]
        slowest = g.greatest_speed(w, g.MASS_RANGE[1], column).speed + 1
        aircraft += [(g.greatest_mass(w, v, column).mass + step, v) for v in (*range(slowest, pair, 100), pair) for step in (0, 1)]
        yield from ((near, m, v) for near in by_one((w,)) for m, v in aircraft)


def by_one(numbers):
    """Each number and its neighbours, as far as they are numbers of 32 bits."""
    return sorted({near for number in numbers for near in (number - 1, number, number + 1) if 0 <= near < 2 ** 32})


def multirotors():
    """High impact angle areas at every edge of every range and at the frontal area's points, each by one; and by one gram the
    aircraft at the joints of the factor and at the area limits."""
    largest = 2 ** 32 - 1
    dimensions = by_one((0, largest, *g.DIMENSION_RANGE, *(dimension for dimension, _ in g.FRONTAL_POINTS)))
    masses, speeds = (by_one((0, largest, *limits)) for limits in (g.MASS_RANGE, g.SPEED_RANGE))
    edges = product(dimensions, masses, speeds)
    close = [row[-2:] for table in (high_angle_aircraft.AT_JOINTS, high_angle_aircraft.FLAGGED, high_angle_aircraft.AT_LIMITS)
             for row in table]
    tuned = ((w, mass, speed) for w, m in close for mass in by_one((m,)) for speed in g.SPEED_RANGE)
    worked = (point[:3] for point in high_angle_points.points())
    return b"".join(answered("high angle", *aircraft) for aircraft in (*edges, *tuned, *worked))


def descents():
    """Descents at every end of every range by one, one number after the other, and at the frontal area's points; inside and outside
    all ranges together; then falls at the edges of their answers."""
    usual = (1_000, 10_000, 2_500, 1, 20_000)
    ranges = (g.DIMENSION_RANGE, g.MASS_RANGE, g.SPEED_RANGE, g.HEIGHT_RANGE, g.BUDGET_RANGE)
    near = [by_one((0, 2 ** 32 - 1, *limits)) for limits in ranges]
    near[0] += by_one(dimension for dimension, _ in g.FRONTAL_POINTS)
    edges = {(*usual[:place], number, *usual[place + 1:]) for place, numbers in enumerate(near) for number in numbers}
    crossed = [[number for number in (low - 1, low, high + 1) if number >= 0] for low, high in ranges]
    crossed[0] += [number + step for number in g.FRONTAL_RANGE for step in (-1, 0, 1)]
    crossed[2].append(g.SPEED_RANGE[1])
    worked = (point.given for point in descent_points.points())
    return b"".join(answered("descent", *given) for given in (*sorted(edges), *product(*crossed), *worked, *falls()))


def falls():
    """Falls where rounding decides, with a budget of one step fewer than they take, as many, and one more; a full budget; and drawn
    ones of every kind."""
    source = random.Random(4)
    close = [row[:4] for row in descent_aircraft.AT_HEIGHT + descent_aircraft.AT_60 + descent_aircraft.SUBNORMAL]
    close += [(*row[1:], height) for row in descent_aircraft.STOPPED for height in (1, 2)]
    for given in close:
        steps = g.descent(*given, 20_000).steps
        yield from ((*given, budget) for budget in {max(1, steps + step) for step in (-1, 0, 1)} | {1, 20_000})
    yield from ((40_000, 50, 40, height, 20_000) for height in (4_001, 4_002))
    yield from (draw(source) for draw in descent_aircraft.DRAWS for _ in range(150))


WANTED = (0, 1, 2, 3, 4, 5, 6, 255)


def trade_offs():
    """The greatest speed and the greatest mass for every wanted column: at every end of every range by one, one number after the other
    and inside and outside all ranges together; at the size pairs' dimensions and the largest of each column, by one; at the aircraft
    where one gram or one cm/s decides, by one; and drawn ones of every kind."""
    largest, source = 2 ** 32 - 1, random.Random(5)
    dimensions = by_one((0, largest, *g.DIMENSION_RANGE, *(w for w, _ in g.SIZE_PAIRS), *trade_off_aircraft.LARGEST.values()))
    masses, speeds = (by_one((0, largest, *limits)) for limits in (g.MASS_RANGE, g.SPEED_RANGE))
    asked = [("greatest speed", *given) for given in product(dimensions, masses, WANTED)]
    asked += [("greatest mass", *given) for given in product(dimensions, speeds, WANTED)]
    close = [row[1:] for row in trade_off_aircraft.LAST + trade_off_aircraft.NEXT]
    close += [*trade_off_aircraft.NO_SLIDE, trade_off_aircraft.SLOWEST]
    close += [(column, w, g.MASS_RANGE[0], v) for column, w, v in trade_off_aircraft.FASTEST]
    for column, w, m, v in close:
        asked += [("greatest speed", w, mass, column) for mass in by_one((m,))]
        asked += [("greatest mass", w, speed, column) for speed in by_one((v,))]
    for draw in trade_off_aircraft.DRAWS:
        for w, m, v, column in (draw(source) for _ in range(150)):
            asked += [("greatest speed", w, m, column), ("greatest mass", w, v, column)]
    return b"".join(answered(*given) for given in asked)


def classes():
    out = b""
    words = [sum(digits // 5 ** place % 5 * 16 ** place for place in range(4)) for digits in range(5 ** 4)]
    words += [0x000f, 0x00f0, 0x0f00, 0xf000, 0xffff]
    for column in WANTED:
        for row in (0, 1, 2, 3, 4, 5, 6, 7, 8, 255):
            for controlled in (0, 1, 2, 255):
                out += answered("intrinsic class", column, row, controlled)
        for cls in (0, 1, 2, 3, 4, 5, 6, 7, 8, 9, 10, 11, 255):
            for word in words:
                out += answered("final class", column, cls, word)
    return out


def any_fields(source):
    """Frame fields over the widths of their types, not of their digits."""
    kind = next(parameter.kind for parameter in OPERATIONS["frame"].parameters if parameter.name == "fields")
    return g.Frame(*(field(source.getrandbits(64)).value for _, field in kind._fields_))


def frames():
    source = random.Random(1)
    out = b""
    for number in range(256):
        for frame_length in frame_lengths():
            fields, frame = any_fields(source), bytes(frame_length)
            refusal = 0 if number % 2 == 0 else number
            outcome = fields if refusal == 0 else refusal
            writing = g.write_frame(outcome, frame)
            written = g.frame_text(outcome) if writing.refusal == 0 else b""
            out += call("frame", refusal, fields, frame) + pack("<BB", writing.refusal, len(written)) + written
    return out


PARTS = (accepted_lengths, damaged_lengths, refused_lengths, map_lengths, sizes, multirotors, descents, trade_offs, classes, frames)


def run_part(number):
    return PARTS[number]()


def write_calls(out, each):
    """Every part's calls in order; `each` is like a pool's imap."""
    for records in each(random_case, CASES, 20):
        out.write(records)
    for records in each(run_part, range(len(PARTS)), 1):
        out.write(records)
    out.write(b"E")


def main():
    with open(sys.argv[1], "wb") as out:
        try:
            pool = Pool()
        except OSError:  # no semaphores here
            write_calls(out, lambda work, items, at_once: map(work, items))
            return
        with pool:
            write_calls(out, pool.imap)


if __name__ == "__main__":
    main()
