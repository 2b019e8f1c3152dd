"""How many random cases of each kind there are, counted from the cases."""

from typing import NamedTuple

import ground_risk as g
import random_cases as r


class Field(NamedTuple):
    """A field of line 1 with a range: its name in words, the refusal outside
    the range, and the values that must come."""
    words: str
    refusal: int
    limits: tuple
    edges: tuple


RANGED_FIELDS = {
    "dimension": Field("dimension", 1, g.DIMENSION_RANGE,
                       (49, 50, 999, 1_000, 1_001, 7_999, 8_000, 8_001, 100_000, 100_001)),
    "mass": Field("mass", 2, g.MASS_RANGE, (49, 50, 25_000_000, 25_000_001)),
    "speed": Field("speed", 3, g.SPEED_RANGE, (0, 40_000, 40_001)),
    "cell_area": Field("cell area", 6, g.CELL_AREA_RANGE, (99, 100, 25_000_000, 25_000_001)),
}
LENT_WORDS = {"counts": "count buffer", "marks": "footprint buffer"}
ALL_PEOPLE = g.PLACES * g.LARGEST_COUNT
OFFERED = (("M1(A)", g.M1A_CREDITS), ("M1(B)", g.M1B_CREDITS),
           ("M1(C)", g.M1C_CREDITS), ("M2", g.M2_CREDITS))

# Kinds of damage, each with the bytes that are put there. The table shows how
# often the rarest of the bytes comes.
BYTE_FAMILIES = tuple(
    (f"a wrong byte for a digit in {part.name}", r.WRONG_DIGITS) for part in g.BLOCKS) + tuple(
    (f"a wrong byte for a line end in {part.name}", r.WRONG_LINE_ENDS) for part in g.BLOCKS) + (
    ("a wrong byte for the last line end", r.WRONG_LINE_ENDS),)


def promised():
    """Every counted kind with its promised minimum, in the table's order."""
    return dict([*promised_outcomes(), *promised_people(), *promised_fields(), *promised_classes(), *promised_buffers(),
                 *promised_footprints()])


def promised_outcomes():
    yield "no refusal", 1_000
    for number in sorted(g.CASE_REFUSALS):
        yield f"refusal {number}", 10
    for column in (1, 2, 3, 4, 5):
        yield f"printed, column {column}", 50
    for column in (0, 1, 2, 3, 4, 5):
        yield f"printed, size column {column}", 50
    yield "printed, size column equal to the column", 50
    yield "printed, size column higher than the column", 50
    yield "printed, size column lower than the column", 10
    for row in (1, 2, 3, 4, 5, 6, 7):
        yield f"printed, table row {row}", 10
    for column in (2, 3, 4, 5):
        yield f"printed, flagged column {column}, exact column the same", 3
        yield f"printed, flagged column {column}, exact column one lower", 3
    for limit in g.AREA_LIMITS:
        yield f"high area is {limit:,}", 1
    yield "refusal 4, exact area within the last limit", 1


def promised_people():
    for density in r.DENSITIES:
        yield f"printed, one person more would reach {density:,} people per km²", 3
        yield f"printed, one person less would be below {density:,} people per km²", 3
        yield f"printed, exactly {density:,} people per km²", 3
    yield "printed, tie for the largest count above zero", 20
    yield "printed, largest count isn't in the first marked cell", 100
    yield "printed, an unmarked cell has more people than any marked one", 20


def promised_fields():
    for field in RANGED_FIELDS.values():
        for value in field.edges:
            outcome = "printed" if g.within(value, field.limits) else f"refusal {field.refusal}"
            yield f"{field.words} {value:,}, {outcome}", 2
    for count, outcome in ((1_000_000, "printed"), (1_000_001, "refusal 7")):
        for where in ("marked", "unmarked"):
            yield f"count {count:,} {where}, {outcome}", 10
    for mark in (0, 1):
        yield f"controlled mark {mark}, printed", 10
    for mark in (2, 255):
        yield f"controlled mark {mark}, refusal 9", 5


def promised_classes():
    for name, offered in OFFERED:
        for digit in sorted(offered):
            yield f"{name} digit {digit}, printed", 10
        yield f"{name} digit not offered, refusal 11", 10
    yield "printed, M1 credits stopped by the floor", 20
    for final in (-1, 0, 7):
        yield f"printed, final class {final}", 10
    yield "refusal 12, final class would be 8", 5


def promised_buffers():
    for family, _ in BYTE_FAMILIES:
        yield f"refusal 14, {family}, the rarest byte", 1
    for length in (0, g.TEXT_LENGTH - 1, g.TEXT_LENGTH + 1):
        yield f"text length {length:,}, refusal 13", 10
    for name, right in g.LENT:
        for length in (0, right - 1, right + 1):
            yield f"{LENT_WORDS[name]} length {length:,}, refusal 5", 5
    for length in (0, g.FRAME_LENGTH - 1):
        yield f"frame buffer length {length}, refusal 15", 1
    yield f"frame buffer longer than {g.FRAME_LENGTH}, printed", 5


def promised_footprints():
    for place in r.CORNERS:
        yield f"printed, place {place} the only marked cell", 5
    yield "printed, all cells marked", 20
    yield "no cell marked, refusal 8", 10
    yield f"printed, {ALL_PEOPLE:,} people", 5
    yield "two or more of the refusals 1 to 3 and 6 to 8 at once", 10


# For each place of a text, the name of its part and what should stand there.
PLACES = [(part.name, wanted) for part in g.BLOCKS for _ in range(part.lines)
          for wanted in ["digit"] * sum(part.widths) + ["line end"]]


def wrong_bytes(text):
    """Place, its part, what should stand there and what stands there."""
    allowed = {"digit": g.DIGITS, "line end": g.LINE_END}
    for place, ((part, wanted), byte) in enumerate(zip(PLACES, text)):
        if byte not in allowed[wanted]:
            yield place, part, wanted, byte


class Read(NamedTuple):
    """A case whose text was read: what stands in it, and which cells are marked."""
    refusal: int
    outcome: str
    fields: g.Fields
    lent: g.Lent
    aircraft: tuple
    marked: list
    marked_counts: list


def read(case, refusal, outcome):
    reading = g.read_case(case.text, g.zeros())
    fields, lent = reading.fields, reading.lent
    marked = [place for place in range(g.PLACES) if g.is_marked(lent.marks, place)]
    return Read(refusal, outcome, fields, lent, (fields.dimension, fields.mass, fields.speed), marked,
                [lent.counts[place] for place in marked])


def kinds_of(case):
    """The names of all kinds that this case is of."""
    refusal = r.answer_of(case).refusal
    outcome = "printed" if refusal == 0 else f"refusal {refusal}"
    names = ["no refusal" if refusal == 0 else outcome, *buffer_kinds(case, refusal, outcome)]
    if refusal in g.NOT_READ:
        return names
    found = read(case, refusal, outcome)
    names += [*field_kinds(found), *count_kinds(found), *mitigation_kinds(found)]
    if refusal == 0:
        answer = g.assessment_of(found.fields, found.lent)
        names += [*sheet_kinds(found, answer), *people_kinds(found, answer), *class_kinds(found, answer)]
    return names


def buffer_kinds(case, refusal, outcome):
    if refusal == 15:
        yield f"frame buffer length {case.frame_length}, refusal 15"
    elif case.frame_length > g.FRAME_LENGTH:
        yield f"frame buffer longer than {g.FRAME_LENGTH}, {outcome}"
    if refusal == 13:
        yield f"text length {len(case.text):,}, refusal 13"
    if refusal == 5:
        for name, length in case.lent_lengths._asdict().items():
            yield f"{LENT_WORDS[name]} length {length:,}, refusal 5"
    if refusal == 14:
        for place, part, wanted, byte in wrong_bytes(case.text):
            yield f"a wrong byte for a {wanted} in {part}", byte
            if place == g.TEXT_LENGTH - 1:
                yield "a wrong byte for the last line end", byte


def field_kinds(found):
    for name, field in RANGED_FIELDS.items():
        yield f"{field.words} {getattr(found.fields, name):,}, {found.outcome}"
    yield f"controlled mark {found.fields.controlled}, {found.outcome}"
    wrong = [not g.within(getattr(found.fields, name), field.limits) for name, field in RANGED_FIELDS.items()]
    wrong += [max(found.lent.counts) > g.LARGEST_COUNT, not found.marked]
    if wrong.count(True) >= 2:
        yield "two or more of the refusals 1 to 3 and 6 to 8 at once"
    if found.refusal == 4 and g.exact_area(*found.aircraft) <= g.AREA_LIMITS[4]:
        yield "refusal 4, exact area within the last limit"


def count_kinds(found):
    for count in (1_000_000, 1_000_001):
        if count in found.marked_counts:
            yield f"count {count:,} marked, {found.outcome}"
        elif count in found.lent.counts:
            yield f"count {count:,} unmarked, {found.outcome}"
    if not found.marked:
        yield f"no cell marked, {found.outcome}"


def credits_of(word):
    """The credits of M1 and of M2."""
    m1a, m1b, m1c, m2 = g.word_digits(word)
    return g.M1A_CREDITS[m1a] + g.M1B_CREDITS[m1b] + g.M1C_CREDITS[m1c], g.M2_CREDITS[m2]


def mitigation_kinds(found):
    fields, lent = found.fields, found.lent
    if found.refusal == 11:
        for (name, offered), digit in zip(OFFERED, g.word_digits(fields.word)):
            if digit not in offered:
                yield f"{name} digit not offered, refusal 11"
    if found.refusal == 12:
        work = g.working(g.sheet(*found.aircraft).column, lent.counts, lent.marks, fields.cell_area, fields.controlled, fields.word)
        # The floors are 3 at most, so none of them stopped a class above 7.
        yield f"refusal 12, final class would be {work.intrinsic - sum(credits_of(fields.word))}"


def sheet_kinds(found, answer):
    sheet = answer.sheet
    yield f"printed, column {sheet.column}"
    yield f"printed, size column {sheet.size_column}"
    if sheet.size_column == sheet.column:
        yield "printed, size column equal to the column"
    if sheet.size_column > sheet.column:
        yield "printed, size column higher than the column"
    if 0 < sheet.size_column < sheet.column:
        yield "printed, size column lower than the column"
    yield f"printed, table row {g.row_used(answer.footprint.row, found.fields.controlled)}"
    yield f"high area is {sheet.area.high:,}"
    if sheet.flag == 1:
        lower = sheet.column - g.exact_column(*found.aircraft)
        yield f"printed, flagged column {sheet.column}, exact column " + ("the same", "one lower")[lower]


def people_kinds(found, answer):
    largest, marked = max(found.marked_counts), found.marked
    for density in r.DENSITIES:
        limit = density * found.fields.cell_area
        if largest * 1_000_000 < limit <= (largest + 1) * 1_000_000:
            yield f"printed, one person more would reach {density:,} people per km²"
        if (largest - 1) * 1_000_000 < limit <= largest * 1_000_000:
            yield f"printed, one person less would be below {density:,} people per km²"
        if largest * 1_000_000 == limit:
            yield f"printed, exactly {density:,} people per km²"
    if largest > 0 and found.marked_counts.count(largest) > 1:
        yield "printed, tie for the largest count above zero"
    if answer.footprint.place != marked[0]:
        yield "printed, largest count isn't in the first marked cell"
    if max(found.lent.counts) > largest:
        yield "printed, an unmarked cell has more people than any marked one"
    if len(marked) == 1:
        yield f"printed, place {marked[0]} the only marked cell"
    if len(marked) == g.PLACES:
        yield "printed, all cells marked"
    if answer.footprint.people == ALL_PEOPLE:
        yield f"printed, {ALL_PEOPLE:,} people"


def class_kinds(found, answer):
    for (name, _), digit in zip(OFFERED, g.word_digits(found.fields.word)):
        yield f"{name} digit {digit}, printed"
    m1, _ = credits_of(found.fields.word)
    if answer.intrinsic - m1 < g.CLASS_TABLE[1][answer.sheet.column - 1]:
        yield "printed, M1 credits stopped by the floor"
    yield f"printed, final class {answer.final_class}"


def kinds_table():
    """The table as text, and the kinds whose promised minimum is missed."""
    minimums = promised()
    found = {}
    for number in range(r.CASES):
        for name in kinds_of(r.make_case(number)):
            found[name] = found.get(name, 0) + 1
    numbers = {name: found.get(name, 0) for name in minimums}
    for family, family_bytes in BYTE_FAMILIES:
        numbers[f"refusal 14, {family}, the rarest byte"] = min(
            found.get((family, byte), 0) for byte in family_bytes)
    lines = ["| Kind | Promised | Cases |", "|---|---|---|"]
    lines += [f"| {name} | {minimums[name]:,} | {numbers[name]:,} |" for name in minimums]
    lines += [f"| all | {r.CASES:,} | {r.CASES:,} |"]
    return "\n".join(lines), [name for name in minimums if numbers[name] < minimums[name]]
