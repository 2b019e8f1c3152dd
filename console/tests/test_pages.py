"""The pages' numbers: README's are the checker's (the fields of a case, the mitigation digits, the class table, the size columns, the
refusals, the frame that it explains, the high impact angle model, the descent, the trade-off), and so are the cuts of the area and the
ranges of the greatest speed and mass in the header and the Rust package, those of TRADE_OFFS, and what AREA_ROUTE says above its tables;
TRUST's are the header's and the repository's."""

import re
import sys
import unittest
from pathlib import Path

ROOT = Path(__file__).resolve().parents[2]
sys.path.insert(0, str(ROOT / "checker"))

import area_route             # noqa: E402
import case                   # noqa: E402
import declarations           # noqa: E402
import example_cases          # noqa: E402
import ground_risk as g       # noqa: E402
import stack                  # noqa: E402

README, TRUST, TRADE_OFFS, AREA_ROUTE, HEADER, ANSWERS, CALLS = ((ROOT / page).read_text() for page in (
    "README.md", "docs/TRUST.md", "docs/TRADE_OFFS.md", "docs/AREA_ROUTE.md", "console/include/nuggetbay.h", "console/rust/src/answers.rs",
    "console/rust/src/lib.rs"))
RANGES = {"dimension": g.DIMENSION_RANGE, "mass": g.MASS_RANGE, "speed": g.SPEED_RANGE, "cell_area": g.CELL_AREA_RANGE}
CREDITS = {"M1(A)": g.M1A_CREDITS, "M1(B)": g.M1B_CREDITS, "M1(C)": g.M1C_CREDITS, "M2": g.M2_CREDITS}


def table(first):
    """The rows below the heading that starts with this cell, as lists of cells."""
    rows = README.split(f"\n| {first} ", 1)[1].split("\n\n", 1)[0].splitlines()[2:]
    return [[cell.strip() for cell in row.strip("|").split("|")] for row in rows]


def joined(source):
    """Without line ends, and without what begins a line of a comment."""
    return re.sub(r"\s+(?:(?:\*|///)\s+)?", " ", source)


def numbers_in(words):
    """The whole numbers, with or without commas."""
    return [int(number.replace(",", "")) for number in re.findall(r"\d+(?:,\d{3})*", words)]


def size_column(dimension, speed):
    """The checker's, of an aircraft so light that no area is refused."""
    sheet = g.sheet(dimension, g.MASS_RANGE[0], speed)
    return sheet.size_column if sheet.refusal == 0 else None


class ReadmeTest(unittest.TestCase):
    def test_line_1(self):
        rows = table("Field of line 1")
        self.assertEqual([int(digits) for _, digits, *_ in rows], [digits for _, digits in g.LINE_1])
        for (name, _), (words, _, _, allowed) in zip(g.LINE_1, rows, strict=True):
            self.assertIn(name.replace("_", " "), words)
            if name in RANGES:
                self.assertEqual(allowed, "{:,} to {:,}".format(*RANGES[name]))

    def test_mitigation_digits(self):
        said = {"none": 0, "1 off": 1, "2 off": 2, "not offered": None}
        for name, *cells in table("Mitigation"):
            credits = CREDITS.pop(name.split(",")[0])
            self.assertEqual([said[cell] for cell in cells], [credits.get(digit) for digit in range(4)])
        self.assertEqual(CREDITS, {})

    def test_lengths(self):
        lines = 1 + 2 * g.ROWS
        self.assertIn(f"{g.TEXT_LENGTH:,} bytes in {lines} lines", README)
        self.assertEqual(example_cases.farmhouses().count(b"\n"), lines)
        self.assertIn(f"{g.ROWS} lines of {g.COLUMNS * 8} digits", README)
        self.assertIn(f"0 to {g.LARGEST_COUNT:,} people", README)

    def test_the_example(self):
        self.assertIn(f"`{example_cases.farmhouses().splitlines()[0].decode()}`", README)
        frame = re.search(r"^    ([0-9a-f ]+?) +\(printed without the spaces\)$", README, re.M)[1]
        self.assertEqual(frame.replace(" ", "") + "\n", case.frame_of(example_cases.farmhouses()).decode())

    def test_every_refusal_is_named(self):
        listed = re.search(r"^Refusals: (.*)$", README, re.M)[1]
        numbers = [int(number) for number in re.findall(r"(?:^|[,;] )(\d+) ", listed)]
        self.assertEqual(numbers, list(g.REFUSALS))
        self.assertIn(f"7 a count above {g.LARGEST_COUNT:,};", listed)

    def test_the_class_table(self):
        for row, _, *classes in table("Row"):
            said = tuple(None if cell == "none" else int(cell) for cell in classes)
            self.assertEqual(said, g.CLASS_TABLE[int(row)])
        limits = ["{:,}".format(limit / 10_000).removesuffix(".0") for limit in g.AREA_LIMITS]
        self.assertIn(f"(up to {', '.join(limits[:-1])} and {limits[-1]} m²)", README)

    def test_the_size_columns(self):
        said = re.search(r"[\d,]+ mm and [\d,]+ cm/s(?:; [\d,]+ and [\d,]+)+", README)[0]
        sizes = [tuple(int(number.replace(",", "")) for number in re.findall(r"[\d,]+", size)) for size in said.split(";")]
        for column, (dimension, speed) in enumerate(sizes, 1):
            self.assertEqual(size_column(dimension, speed), column)
            for larger in ((dimension + 1, speed), (dimension, speed + 1)):
                self.assertEqual(size_column(*larger), 0 if column == len(sizes) else column + 1)
        for source in (HEADER, ANSWERS):
            self.assertIn(said, joined(source))

    def test_the_cuts_of_the_area(self):
        for source in (HEADER, ANSWERS):
            whole, tenths, below = numbers_in(re.search(
                "the whole total from (.* mm up, six tenths of it from .* mm up, and below .* mm) its glide and half its circle, without slide", joined(source))[1])
            for dimension, counted in ((whole, 10), (whole - 1, 6), (tenths, 6)):
                slow, fast = (g.sheet(dimension, 25_000, speed) for speed in (0, 2_500))
                for sheet in (slow, fast):
                    self.assertEqual(sheet.area.low, counted * sheet.t.low // 1_000_000)
                self.assertLess(slow.area.low, fast.area.low)
            self.assertEqual(below, tenths)
            light, heavy = (g.sheet(below - 1, *given) for given in zip(g.MASS_RANGE, g.SPEED_RANGE))
            a = g.full_width(below - 1)
            self.assertEqual((light.area, light.area.low), (heavy.area, (2 * a * light.glide.low + 785 * a * a) // 200_000))
            metres = re.search("below ([^ ]*) m what the aircraft sweeps as it glides, and half the circle; from ([^ ]*) m six tenths of glide, "
                               "slide and circle; from ([^ ]*) m all of it", README)
            self.assertEqual([1000 * int(metre) for metre in metres.groups()], [below, tenths, whole])
            self.assertIn("exactly {:,} mm has a slide, and one of exactly {:,} mm the whole area".format(tenths, whole), README)
        for page in (HEADER, CALLS):
            self.assertEqual(set(re.findall(r"has no slide, below ([\d,]+) mm,", joined(page))), {f"{below:,}"})

    def test_the_frontal_area(self):
        said = re.search(r"in straight lines between (.*?), rounded down", README)[1]
        numbers = numbers_in(said)
        self.assertEqual(tuple(zip(numbers[1::2], numbers[::2])), g.FRONTAL_POINTS)
        for source in (HEADER, ANSWERS):
            self.assertIn(f"in straight lines between {said}, rounded down", joined(source))
        self.assertIn("one from {:,} to {:,} mm)".format(*g.FRONTAL_RANGE), README)

    def test_the_safety_factor(self):
        least, below, most, above, times = re.search(
            r"([\d.]+) below ([\d,]+) J, ([\d.]+) above ([\d,]+) J, between them ([\d.]+) times the fifth root of the energy in kJ", README).groups()
        thousandths = [round(float(factor) * 1000) for factor in (least, most, times)]
        (below,), (above,) = numbers_in(below), numbers_in(above)
        for joules, factor in ((0, thousandths[0]), (below - 1, thousandths[0]), (above + 1, thousandths[1])):
            self.assertEqual(g.factor_line(g.Line(joules, joules)), (factor, factor))
        for joules in (below, 100_000, above):
            low, high = g.factor_line(g.Line(joules, joules))
            self.assertTrue(low ** 5 <= thousandths[2] ** 5 * joules // 1000 <= high ** 5 and high - low <= 1, joules)
        for source in (HEADER, ANSWERS):
            self.assertIn("{:,} below {:,} J, {:,} above {:,} J, between them {:,} times the fifth root of the energy in kJ".format(
                thousandths[0], below, thousandths[1], above, thousandths[2]), joined(source))

    def test_the_width_of_the_high_angles_area(self):
        for source, unit in ((README, "cm²"), (joined(HEADER), "square centimetres"), (joined(ANSWERS), "square centimetres")):
            self.assertIn(f"one part in 500 of the high area plus 2 {unit}", source)

    def test_who_may_use_the_high_angle(self):
        for page in (README, HEADER, CALLS):
            for word in ("rotorcraft", "multirotor", "60 degrees"):
                self.assertIn(word, joined(page))

    def test_the_high_angles_that_are_shown(self):
        aircraft = numbers_in(re.search(r"high_angle-in-words (\d.*)", README)[1])
        low, high, column, other = numbers_in(re.search(r"which on the sheet has (.*?) here\.", README)[1])
        sheet, steep = g.sheet(*aircraft), g.high_angle(*aircraft)
        self.assertEqual((sheet.area, sheet.column, steep.column), ((low, high), column, other))
        self.assertIn(f"critical area: {steep.area.low} to {steep.area.high} square centimetres\n    column: {other}\n", README)
        *slow, low, high, sheet_low, sheet_high = numbers_in(re.search(r"isn't always the smaller one: (.*) on the sheet\.", README)[1])
        self.assertEqual((g.high_angle(*slow).area, g.sheet(*slow).area), ((low, high), (sheet_low, sheet_high)))
        self.assertGreater(low, sheet_high)

    def test_the_descents_that_are_shown(self):
        """The words below the command are the program's, which console/tests/installed.py holds to README."""
        *aircraft, height = numbers_in(re.search(r"descent-in-words (\d.*)", README)[1])
        self.assertEqual(aircraft, numbers_in(re.search(r"high_angle-in-words (\d.*)", README)[1]))
        budget = g.BUDGET_RANGE[1]
        shown, (lower, steps) = g.descent(*aircraft, height, budget), numbers_in(
            re.search(r"From ([\d,]+ cm the fall ends after [\d,]+ steps) and isn't above", README)[1])
        self.assertEqual((shown.refusal, shown.above_60), (0, 1))
        self.assertIn(f"strikes the ground after {shown.steps / 100:.2f} seconds, {shown.steps} steps\n", README)
        self.assertIn(f"its lowest operating height {height / 100:.2f} m, may use that model.", README)
        below = g.descent(*aircraft, lower, budget)
        self.assertEqual((below.refusal, below.above_60, below.steps, lower), (0, 0, steps, height - 1))

    def test_the_fall(self):
        constants = (float(g.AIR_DENSITY), float(g.DRAG_COEFFICIENT), float(g.GRAVITY))
        for page, air, gravity in ((README, "kg/m³", "m/s²"), (HEADER, "kg per cubic metre", "m/s^2"), (CALLS, "kg per cubic metre", "m/s²")):
            for said in (f"steps of {g.STEP} s", f"in air of {constants[0]} {air} with a drag coefficient of {constants[1]}",
                         f"{constants[2]} {gravity}"):
                self.assertIn(said, joined(page))
        for page in (README, HEADER, ANSWERS):
            self.assertIn("downward speed squared exceeds 3 times horizontal speed squared", joined(page))

    def test_the_limits_of_the_descent(self):
        heights, budgets = ("{:,} to {:,}".format(*limits) for limits in (g.HEIGHT_RANGE, g.BUDGET_RANGE))
        self.assertIn(f"17 where the height is outside {heights} cm or the step budget outside {budgets}.", README)
        self.assertIn(f"a fifth number from {budgets}; {g.BUDGET_RANGE[1]:,}, a fall of {g.BUDGET_RANGE[1] * g.STEP:.0f} s,", README)
        for page in (HEADER, CALLS):
            self.assertIn(f"a fall of {g.BUDGET_RANGE[1] * g.STEP:.0f} s", joined(page))
        self.assertIn(f"in cm ({g.HEIGHT_RANGE[0]} to NB_HEIGHT_MOST)", joined(HEADER))
        self.assertIn(f"may be made ({g.BUDGET_RANGE[0]} to NB_BUDGET_MOST)", joined(HEADER))

    def test_the_lightest_of_the_descent(self):
        mass, dimension, speed = numbers_in(re.search(r"(\d+ g at [\d,]+ mm are refused from [\d,]+ cm/s) on", README)[1])
        refused = {v for v in range(g.SPEED_RANGE[1] + 1) if g.descent(dimension, mass, v, *g.HEIGHT_RANGE[:1], 1).refusal == 19}
        self.assertEqual(refused, set(range(speed, g.SPEED_RANGE[1] + 1)))

    def test_the_ranges_of_the_greatest_speed_and_mass(self):
        header = HEADER.split("/* ---- The greatest speed and the greatest mass for a column ---- */")[1].split("/* ----")[0]
        calls = CALLS.split("/// The greatest speed in cm/s")[1].split("pub fn greatest_mass")[0]
        dimensions, masses, speeds = ("{:,} to {:,}".format(*limits) for limits in (g.DIMENSION_RANGE, g.MASS_RANGE, g.SPEED_RANGE))
        for said in (f"in mm ({dimensions})", f"in g ({masses})", f"in cm/s ({speeds})", f"g, {masses};", f"cm/s, {speeds};"):
            self.assertIn(said, joined(header))
        for said in (f"({speeds}) with which", f"in g ({masses}) with which", f"the answer is {g.SPEED_RANGE[1]:,},",
                     f"the answer is {g.MASS_RANGE[1]:,},"):
            self.assertIn(said, joined("/// " + calls))
        for page in (header, calls):
            self.assertEqual(joined(page).count(f"(1 to {len(g.AREA_LIMITS)})"), 2)
            for least in (f"{g.SPEED_RANGE[0]} doesn't", f"{g.MASS_RANGE[0]} g don't"):
                self.assertIn(f"in range passes, which is where {least}", joined(page))

    def test_the_trade_off_that_is_shown(self):
        dimension, speed, column, metres, mass = numbers_in(re.search(r"With `mass (.*? [\d,]+ g)\.", README)[1])
        self.assertEqual((g.greatest_mass(dimension, speed, column), speed), ((0, mass), 100 * metres))
        for least in (f"speed {g.SPEED_RANGE[0]}", f"{g.MASS_RANGE[0]} g"):
            self.assertIn(f"even {least},", README)
        self.assertIn("the greatest speed from {:,} to {:,} cm/s".format(*g.SPEED_RANGE), README)

    def test_the_shared_library(self):
        self.assertIn(f"`libnuggetbay.so.{declarations.version_of(HEADER).split('.')[0]}`", README)

    def test_nothing_is_left_to_fill_in(self):
        self.assertNotIn("TIME_", README)

    def test_what_is_pointed_at_is_there(self):
        for path in re.findall(r"\]\(([^)#]+)\)", README) + re.findall(r"^    bash (\S+)", README, re.M):
            self.assertTrue((ROOT / path).exists(), path)


class TradeOffsTest(unittest.TestCase):
    """The words above the tables; the tables are held to the program by console/tests/installed.py, and to the checker by its own tests."""

    def test_the_ranges(self):
        self.assertIn("({:,} to {:,} cm/s, {:,} to {:,} g)".format(*g.SPEED_RANGE, *g.MASS_RANGE), TRADE_OFFS)

    def test_the_aircraft_beside_annex_f(self):
        column, dimension, speed = re.search(r"T4 turns column (\d)'s (\d+) m and (\d+) m/s into", TRADE_OFFS).groups()
        self.assertEqual((int(dimension) * 1000, int(speed) * 100), g.SIZE_PAIRS[int(column) - 1])
        for size, faster, turned in ((0.5, 1.4, "T4 turns .*? into"), (1.7, 0.75, "T6 turns .*? into")):
            metres, metres_a_second = re.search(rf"{turned} ([\d.]+) m and ([\d.]+) m/s", TRADE_OFFS).groups()
            self.assertAlmostEqual(float(metres), size * int(dimension))
            self.assertAlmostEqual(float(metres_a_second), faster * int(speed))
            width, mass, greatest = numbers_in(re.search(
                rf"{turned} {metres} m and {metres_a_second} m/s.*?; (.*?) cm/s", TRADE_OFFS)[1].replace("column 3", "it"))
            self.assertEqual((width, g.greatest_speed(width, mass, int(column))), (float(metres) * 1000, (0, greatest)))


class AreaRouteTest(unittest.TestCase):
    """The words above what is made, which the checker's own tests hold."""

    def test_the_ranges(self):
        self.assertIn("({:,} to {:,} mm, {:,} to {:,} g, {:,} to {:,} cm/s)".format(*g.DIMENSION_RANGE, *g.MASS_RANGE, *g.SPEED_RANGE), AREA_ROUTE)
        widest, fastest = g.SIZE_PAIRS[-1]
        self.assertIn(f"above {widest // 1000} m or {fastest // 100} m/s", AREA_ROUTE)

    def test_the_two_left_out(self):
        left_out = "exactly {:,} and {:,} mm".format(*area_route.LEFT_OUT)
        for page in (README, TRUST, AREA_ROUTE):
            self.assertIn(left_out, page)
        for source in (README, HEADER, ANSWERS):
            self.assertIn(f"except at {left_out}, where it may be one above", joined(source))
        speeds = [area_route.smallest_pair(dimension)[1] for dimension in area_route.LEFT_OUT]
        for dimension, speed in zip(area_route.LEFT_OUT, speeds):
            self.assertIn(f"bove {speed:,} cm/s at {dimension:,} mm", AREA_ROUTE)
            self.assertIn(f"exactly {dimension:,} mm, up to {speed // 100} m/s", AREA_ROUTE)

    def test_the_high_angle_above_the_size_column(self):
        dimension, mass, column, size, speed = numbers_in(re.search(r"of which it would be wrong: (.*)", AREA_ROUTE)[1])
        for fastest in (0, speed):
            self.assertEqual((size_column(dimension, fastest), g.high_angle(dimension, mass, fastest).column), (size, column))
        self.assertEqual((g.high_angle(dimension, mass, speed).flag, size_column(dimension, speed + 1)), (0, size + 1))
        self.assertGreater(column, size)

    def test_the_theorems_are_proved(self):
        proofs = "".join(path.read_text() for path in ROOT.glob("crates/*/proofs/*Hold*.antt"))
        named = re.findall(r"`(\w+)`", AREA_ROUTE)
        self.assertGreater(len(named), 3)
        for name in named:
            self.assertRegex(proofs, rf"(?m)^pub {name} :")


class TrustTest(unittest.TestCase):
    def test_the_kit(self):
        kit = (ROOT / ".ci/kit").read_text().strip()
        for page in (README, TRUST):
            self.assertIn(f"`{kit}`", page)
        self.assertIn(f"`sum={kit.split()[-1]}`", TRUST)

    def test_wrong_programs(self):
        edits = [path.read_text() for path in ROOT.glob("crates/*/must-fail/*.edit")]
        of_code = sum("file: src/" in edit for edit in edits)
        self.assertIn(f"The {len(edits)} wrong programs of the gate", TRUST)
        self.assertIn(f"{of_code} are of the code, which still compiles, and {len(edits) - of_code} of a definition or a claim", TRUST)

    def test_the_stack(self):
        said = stack.said_in(HEADER)
        listed = re.search(r"at most (.*?) \|", TRUST)[1]
        found = {name: int(number) for number, names in re.findall(r"(\d+)(?: bytes for)? ((?:`nb_\w+`(?:, | and )?)+)", listed)
                 for name in re.findall(r"nb_\w+", names)}
        self.assertEqual(found, said)


if __name__ == "__main__":
    unittest.main()
