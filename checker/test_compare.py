"""The random calls: every operation has its share and its draws, and a wrong answer or a wrong byte left is a difference."""

import contextlib
import importlib.machinery
import importlib.util
import io
import random
import re
import sys
import tempfile
import unittest
from collections import Counter
from itertools import product
from pathlib import Path
from unittest import mock

import area_route
import ground_risk as g
import library
import trade_off_aircraft

HERE = Path(__file__).resolve().parent
CALLS = 400


def load():
    loader = importlib.machinery.SourceFileLoader("compare", str(HERE / "compare"))
    module = importlib.util.module_from_spec(importlib.util.spec_from_loader("compare", loader))
    # where its workers find it
    sys.modules["compare"] = module
    loader.exec_module(module)
    return module


compare = load()


class CheckerAsLibrary:
    """Answers what the checker says, but for one operation changes the outcome."""

    def __init__(self, wrong=None, change=None):
        self.wrong, self.change = wrong, change

    def call(self, name, values):
        said = library.OPERATIONS[name].said(*values)
        return self.change(said) if name == self.wrong else said


def another_number(place):
    def change(said):
        answer = list(said.answer)
        answer[place] += 1
        return said._replace(answer=answer)
    return change


def another_byte_left(said):
    left = [list(buffer) for buffer in said.left]
    for buffer in left[::-1]:
        if buffer:
            buffer[-1] ^= 1
            return said._replace(left=left)
    return said


class SharesTest(unittest.TestCase):
    def test_every_operation_has_a_share_and_draws(self):
        self.assertEqual(set(compare.SHARES), set(library.OPERATIONS))
        self.assertGreater(min(compare.SHARES.values()), 0)
        for operation in library.OPERATIONS.values():
            for parameter in operation.parameters:
                self.assertIn(parameter.name, compare.DRAWS)

    def test_the_lists_of_checker_and_table_are_in_one_order(self):
        for lent in (library.MAP, library.LENT):
            self.assertEqual(tuple(parameter.name for parameter in lent), g.Lent._fields)
        self.assertEqual(tuple(name for name, _ in library.CaseHead._fields_), g.Fields._fields)
        self.assertEqual(tuple(name for name, _ in library.FrameFields._fields_), g.Frame._fields)
        for struct, answer in ((library.HighAngle, g.HighAngle), (library.Descent, g.Descent), (library.Fall, g.Fall),
                               (library.GreatestSpeed, g.GreatestSpeed), (library.GreatestMass, g.GreatestMass)):
            self.assertEqual(tuple(name for name, _ in struct._fields_), answer._fields)
        self.assertEqual(["t" if name == "total" else name for name, _ in library.Sheet._fields_], list(g.Sheet._fields[1:]))
        self.assertEqual(set(compare.BUFFERS), set(g.Lent._fields))

    def test_those_on_a_map_or_a_text_are_a_third(self):
        dear = [name for name, operation in library.OPERATIONS.items()
                if {"text", "counts"} & {parameter.name for parameter in operation.parameters}]
        self.assertEqual(dear, ["footprint", "assessment", "reading", "case"])
        self.assertGreaterEqual(3 * sum(compare.SHARES[name] for name in dear), sum(compare.SHARES.values()))


class BitsTest(unittest.TestCase):
    def test_doubles_are_compared_by_their_bits(self):
        plus, minus = (library.outcome((0, 0, 0, (zero, 1.5, 2.0))) for zero in (0.0, -0.0))
        self.assertNotEqual(plus, minus)
        self.assertEqual(plus.answer, [0, 0, 0, 0, 0x3ff8_0000_0000_0000, 0x4000_0000_0000_0000])
        self.assertEqual(minus.answer[3], 2 ** 63)
        none = library.outcome(float("nan"))
        self.assertEqual(none, none._replace(answer=list(none.answer)))
        self.assertNotEqual(library.outcome(0.1 + 0.2), library.outcome(0.3))

    def test_in_words(self):
        words = compare.in_words("descent", {"dimension": 1_000}, *(library.outcome((0, 0, 0, (0.5, number, 0.0))) for number in (0.3, 0.1 + 0.2)))
        for words_of_one in ("0.3 (0x3fd3333333333333)", "0.30000000000000004 (0x3fd3333333333334)"):
            self.assertIn(words_of_one, words)

    def test_from_the_library(self):
        answer = library.Descent(0, 1, 523, library.Fall(17.5, 42.25, -0.0))
        self.assertEqual(library.outcome(library.numbers_of(answer)).answer,
                         [0, 1, 523, *map(library.Bits.of, (17.5, 42.25, -0.0))])


class CallsTest(unittest.TestCase):
    def run_with(self, answers):
        compare.LIBRARY = answers
        return compare.run(3, 0, CALLS)

    def test_agreement(self):
        agreed, difference = self.run_with(CheckerAsLibrary())
        self.assertIsNone(difference)
        self.assertEqual(agreed.total(), CALLS)
        self.assertEqual(set(agreed), set(library.OPERATIONS))

    def test_the_calls_are_those_of_seed_and_number(self):
        self.assertEqual(compare.call_of(3, 17), compare.call_of(3, 17))
        self.assertNotEqual([compare.call_of(3, n) for n in range(4)], [compare.call_of(4, n) for n in range(4)])

    def test_a_wrong_number_is_a_difference(self):
        for name in library.OPERATIONS:
            for place in (0, -1):
                _, difference = self.run_with(CheckerAsLibrary(name, another_number(place)))
                self.assertEqual(compare.call_of(3, difference[0])[0], name)
                self.assertTrue(difference[1].startswith(name))

    def test_a_wrong_byte_left_is_a_difference(self):
        for name in ("reading", "frame", "case"):
            _, difference = self.run_with(CheckerAsLibrary(name, another_byte_left))
            self.assertEqual(compare.call_of(3, difference[0])[0], name)

    def test_some_of_each_are_accepted_and_some_refused(self):
        answers = Counter()
        for n in range(CALLS):
            name, values = compare.call_of(5, n)
            answers[name, library.OPERATIONS[name].said(*values.values()).answer[0] == 0] += 1
        for name in library.OPERATIONS:
            self.assertGreater(answers[name, True], 0, name)
            self.assertGreater(answers[name, False], 0, name)

    def test_every_size_column_and_every_edge_of_its_pairs_is_drawn_often(self):
        columns, edges = Counter(), Counter()
        for n in range(4_000):
            w, m, v = compare.drawn(random.Random(n), ("dimension", "mass", "speed")).values()
            sheet = g.sheet(w, m, v)
            if sheet.refusal == 0:
                columns[sheet.size_column] += 1
                # the number that decides, where the other one is within the pair
                edges.update((dimension, "dimension", w - dimension) for dimension, speed in g.SIZE_PAIRS if v <= speed)
                edges.update((dimension, "speed", v - speed) for dimension, speed in g.SIZE_PAIRS if w <= dimension)
        self.assertEqual(set(columns), {0, 1, 2, 3, 4, 5})
        self.assertGreater(min(columns.values()), 100)
        for dimension, _ in g.SIZE_PAIRS:
            for name in ("dimension", "speed"):
                for off in (-1, 0, 1):
                    self.assertGreater(edges[dimension, name, off], 10, (dimension, name, off))

    def test_where_the_column_is_above_the_size_column_is_drawn_often(self):
        above, last, heaviest = Counter(), Counter(), Counter()
        for n in range(4_000):
            w, m, v = compare.drawn(random.Random(n), ("dimension", "mass", "speed")).values()
            sheet = g.sheet(w, m, v)
            if sheet.refusal == 0 and sheet.size_column != 0:
                heaviest[w, v] += m == g.MASS_RANGE[1]
                above[w] += sheet.column > sheet.size_column
                if w in area_route.LEFT_OUT and sheet.column == sheet.size_column:
                    # one cm/s more breaks it
                    last[w] += not area_route.holds(w, m, v + 1) and v < area_route.smallest_pair(w)[1]
        self.assertEqual({w for w, number in above.items() if number}, set(area_route.LEFT_OUT))
        for w in area_route.LEFT_OUT:
            self.assertGreater(above[w], 30, w)
            self.assertGreater(last[w], 10, w)
            # the heaviest at every pair's speed, by one millimetre
            for near, (_, v) in product((w - 1, w, w + 1), g.SIZE_PAIRS):
                self.assertGreater(heaviest[near, v], 1, (near, v))

    def test_multirotors_are_drawn_at_every_edge(self):
        answers, points, joules, flagged = Counter(), Counter(), Counter(), Counter()
        for n in range(4_000):
            rng = random.Random(n)
            values = compare.drawn(rng, ("dimension", "mass", "speed"))
            compare.multirotor(rng, values)
            answer = g.high_angle(*values.values())
            answers[answer.refusal, answer.column] += 1
            points[values["dimension"]] += answer.refusal in (0, 16)
            joules[answer.joules] += 1
            if answer.flag == 1:
                flagged[answer.column, g.exact_high_angle_column(*values.values())] += 1
        self.assertEqual(set(answers), {*((refusal, 0) for refusal in (1, 2, 3, 16)), *((0, column) for column in (1, 2, 3, 4, 5))})
        self.assertGreater(sum(number for (refusal, _), number in answers.items() if refusal == 0), 2_500)
        self.assertGreater(min(answers.values()), 20)
        for w, _ in g.FRONTAL_POINTS:
            for off in (-1, 0, 1):
                self.assertGreater(points[w + off], 20, w + off)
        for whole in (12_000, 3_125_000):
            for low in (whole - 1, whole):
                self.assertGreater(joules[low, low + 1], 20, low)
        for column in (2, 3, 4, 5):
            for exact in (column, column - 1):
                self.assertGreater(flagged[column, exact], 20, (column, exact))

    def test_descents_are_drawn_at_every_edge(self):
        answers, edges, budgets = Counter(), Counter(), Counter()
        for n in range(3_000):
            rng = random.Random(n)
            values = compare.drawn(rng, ("dimension", "mass", "speed", "height", "budget"))
            compare.falling(rng, values)
            self.assertEqual(list(values), ["dimension", "mass", "speed", "height", "budget"])
            *given, budget = values.values()
            answer = g.descent(*given, budget)
            answers[answer.refusal, answer.above_60] += 1
            edges.update((name, values[name]) for name in values)
            if answer.refusal == 0:
                budgets["last" if answer.steps == budget else "later"] += 1
            elif answer.refusal == 18 and budget < 20_000:
                budgets["one short"] += g.descent(*given, budget + 1).refusal == 0
        self.assertEqual(set(answers), {*((refusal, 0) for refusal in (1, 2, 3, 16, 17, 18, 19)), (0, 0), (0, 1)})
        for answer, least in (((0, 0), 600), ((0, 1), 600), ((18, 0), 400), ((19, 0), 200), ((17, 0), 30)):
            self.assertGreater(answers[answer], least, answer)
        self.assertGreater(min(answers.values()), 10)
        for name in ("height", "budget"):
            for edge in compare.EDGES[name]:
                self.assertGreater(edges[name, edge], 2, (name, edge))
        for kind in ("last", "later", "one short"):
            self.assertGreater(budgets[kind], 50, kind)

    def test_columns_are_asked_for_at_every_edge(self):
        for name, number, most in (("greatest speed", "mass", 40_000), ("greatest mass", "speed", 25_000_000)):
            names = [parameter.name for parameter in library.OPERATIONS[name].parameters]
            self.assertEqual(names, ["dimension", number, "column"])
            answers, ends, edges, dimensions = Counter(), Counter(), Counter(), Counter()
            for n in range(2_500):
                rng = random.Random(n)
                values = compare.drawn(rng, names)
                compare.for_a_column(rng, values)
                self.assertEqual(list(values), names)
                answer = library.OPERATIONS[name].said(*values.values()).answer
                answers[answer[0], values["column"] if answer[0] == 0 else 0] += 1
                ends["none" if answer[0] else "all" if answer[1] == most else "50 g" if answer[1] == 50 and most > 40_000 else "some"] += 1
                edges.update((key, values[key]) for key in values)
                dimensions[values["dimension"]] += answer[0] in (0, 21)
            given = 2 if number == "mass" else 3
            self.assertEqual(set(answers), {*((refusal, 0) for refusal in (1, given, 20, 21)),
                                            *((0, column) for column in (1, 2, 3, 4, 5))})
            self.assertGreater(min(answers.values()), 20)
            for column in (1, 2, 3, 4, 5):
                self.assertGreater(answers[0, column], 150, column)
            for kind in ("none", "all", "some", *(["50 g"] if most > 40_000 else [])):
                self.assertGreater(ends[kind], 80, (name, kind))
            for key in names:
                for edge in compare.EDGES[key]:
                    self.assertGreater(edges[key, edge], 0, (name, key, edge))
            for w in (*(dimension for dimension, _ in g.SIZE_PAIRS), *trade_off_aircraft.LARGEST.values()):
                for off in (-1, 0, 1):
                    self.assertGreater(dimensions[w + off], 5, (name, w + off))

    def test_a_text_shows_the_call(self):
        values = {"dimension": 2_000, "mass": 3_000, "speed": 4_000}
        reading = g.read_case(compare.as_text("sheet", values), g.zeros())
        self.assertEqual((reading.refusal, reading.fields[:3]), (0, (2_000, 3_000, 4_000)))
        for name in ("high angle", "descent", "greatest speed", "greatest mass"):
            self.assertIsNone(compare.as_text(name, values))
        self.assertIsNone(compare.as_text("intrinsic class", {"column": 1, "row": 2, "controlled": 0}))
        self.assertIsNone(compare.as_text("footprint", {"counts": [1], "marks": [0] * g.ROWS, "cell_area": 100}))
        self.assertEqual(compare.as_text("case", {"text": b"any"}), b"any")
        # the highest table row is shown too, not refused
        crowd = {"counts": [1_000_000] * g.PLACES, "marks": [1] * g.ROWS, "cell_area": 100}
        shown = g.case(compare.as_text("footprint", crowd), g.zeros(), bytes(g.FRAME_LENGTH))
        self.assertEqual((g.footprint(*crowd.values()).row, shown.refusal), (7, 0))


class ProgramTest(unittest.TestCase):
    def ended(self, answers, *arguments):
        """The status of the program over this library, and what it printed."""
        with (tempfile.TemporaryDirectory(dir=compare.ROOT) as folder, mock.patch.object(compare, "MADE", Path(folder)),
              mock.patch.object(compare, "Library", lambda: answers), mock.patch("sys.argv", ["compare", "--seed", "3", *arguments]),
              contextlib.redirect_stdout(io.StringIO()) as printed, contextlib.redirect_stderr(io.StringIO())):
            return compare.main(), printed.getvalue()

    def test_so_many_calls_are_made_as_were_asked_for(self):
        status, printed = self.ended(CheckerAsLibrary(), "--calls", "300")
        self.assertEqual(status, 0)
        self.assertIn("\n300 calls, no difference, ", printed)
        self.assertEqual(sum(int(number) for number in re.findall(r"[a-z] (\d+)", printed.rsplit(": ", 1)[1])), 300)

    def test_a_difference_ends_with_1(self):
        wrong = CheckerAsLibrary("case", another_number(0))
        status, printed = self.ended(wrong, "--calls", "300")
        self.assertEqual(status, 1)
        number = re.search(r"DIFFERENCE in call (\d+) of seed 3: case", printed)[1]
        self.assertIn("  saved as ", printed)
        self.assertEqual(self.ended(wrong, "--only", number)[0], 1)
        self.assertEqual(self.ended(CheckerAsLibrary(), "--only", number)[0], 0)


if __name__ == "__main__":
    unittest.main()
