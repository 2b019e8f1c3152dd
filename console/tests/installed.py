"""What `make install` puts in place serves programs outside the repository: README's own, the examples, and others, in C, C++, Rust
and Python, against the archive and against the shared library. `make uninstall` takes all of it away again.

usage: installed.py        the environment's MAKE, CC and CXX are used where they are set
"""

import ctypes
import os
import re
import shutil
import subprocess
import sys
import tempfile
import unittest
from pathlib import Path

ROOT = Path(__file__).resolve().parents[2]
sys.path.insert(0, str(ROOT / "console/tests"))

import declarations as d      # noqa: E402
import ground_risk as g       # noqa: E402

# what runs here is no part of the make that may have started this
for name in ("MAKEFLAGS", "MFLAGS", "MAKELEVEL"):
    os.environ.pop(name, None)
MAKE, CC, CXX = (os.environ.get(name, tool) for name, tool in (("MAKE", "make"), ("CC", "gcc"), ("CXX", "g++")))
WARNINGS = ["-O1", "-Wall", "-Wextra", "-Wpedantic", "-Werror"]
EXAMPLES = sorted((ROOT / "examples").glob("*.case"))
HEADER = d.sources().header
VERSION = d.version_of(HEADER)
MAJOR = VERSION.split(".")[0]
NUMBER = sum(int(part) * place for part, place in zip(VERSION.split("."), (10000, 100, 1)))
FUNCTIONS = sorted([*d.read_header(HEADER).functions, "nb_version", "nb_refusal_message"])
# Of the high impact angle model: accepted, with a flag, with a factor on both sides of a cut, the ends of the ranges, and refused.
AIRCRAFT = ((1_100, 15_000, 2_500), (1_202, 16_782, 0), (1_006, 11_014, 1), (1_000, 50, 0), (40_000, 25_000_000, 40_000),
            (49, 49, 40_001), (50, 49, 40_001), (50, 50, 40_001), (999, 50, 0), (40_001, 50, 0), (2 ** 32 - 1,) * 3)
# Of the descent, with the largest budget where none stands: both sides of 60 degrees, of a budget and of a speed that a step makes
# negative, at rest, the ends of the ranges, and every refusal.
DESCENTS = ((1_100, 15_000, 2_500, 5_740), (1_100, 15_000, 2_500, 5_739), (1_100, 15_000, 2_500, 5_740, 365),
            (1_100, 15_000, 2_500, 5_740, 364), (1_000, 50, 10_204, 1, 5), (1_000, 50, 10_204, 1, 1), (1_000, 50, 10_205, 1, 1),
            (1_000, 50, 0, 1), (3_000, 50, 0, 28_250), (3_000, 50, 0, 50_000), (40_000, 25_000_000, 40_000, 50_000, 20_000),
            (49, 49, 40_001, 0, 0), (50, 49, 40_001, 0, 0), (50, 50, 40_001, 0, 0), (999, 50, 0, 0, 0), (40_001, 50, 0, 1),
            (1_000, 50, 10_205, 0), (1_000, 50, 10_205, 50_001), (1_000, 50, 10_205, 1, 0), (1_000, 50, 10_205, 1, 20_001),
            (2 ** 32 - 1,) * 5)
# Of the greatest speed and the greatest mass: inside the range and at its ends, with a flag, every refusal and the order of them.
TRADE_OFFS = (("speed", 3_000, 25_000, 2), ("speed", 1_500, 10_000, 1), ("speed", 100_000, 50, 5), ("speed", 999, 50, 1),
              ("speed", 3_000, 25_000, 5), ("speed", 2_909, 64_216, 5), ("speed", 3_000, 25_000, 1), ("speed", 100_000, 50, 4),
              ("speed", 49, 49, 0), ("speed", 50, 49, 0), ("speed", 100_000, 25_000_001, 6), ("speed", 50, 50, 0),
              ("speed", 3_000, 25_000, 6), ("speed", *(2 ** 32 - 1,) * 3),
              ("mass", 3_000, 5_000, 2), ("mass", 1_500, 3_000, 1), ("mass", 100_000, 0, 5), ("mass", 999, 40_000, 1),
              ("mass", 3_000, 5_000, 3), ("mass", 1_010, 1_226, 2), ("mass", 3_000, 5_000, 1), ("mass", 100_000, 40_000, 4),
              ("mass", 49, 40_001, 0), ("mass", 50, 40_001, 0), ("mass", 50, 40_000, 0), ("mass", 3_000, 5_000, 6),
              ("mass", *(2 ** 32 - 1,) * 3))
# Wrong columns, most of them right in their last 8 bits.
WRONG_COLUMNS = (0, 255, 256, 258, 65_538, 2 ** 32 - 254)
TABLES_FOLLOW = "<!-- what follows is made: make trade-off-tables -->"
NOT_NUMBERS = ("", "x", "-1", "+1", " 1", "1 ", "1.0", "1e3", "0x10", str(2 ** 32), str(2 ** 64 + 1))


def messages():
    said = dict(d.tables_of_header(HEADER).refusals) | {0: "not refused"}
    return [said.get(number, "no such refusal") for number in range(256)]


def high_angle_words(*aircraft):
    """What the checker says, as the example says it."""
    a = g.high_angle(*aircraft)
    if a.refusal != 0:
        return f"refusal {a.refusal}: {messages()[a.refusal]}\n"
    flagged = ", the exact one may be the column before" if a.flag else ""
    return (f"frontal area: {a.frontal_area} square millimetres\n"
            f"energy at terminal speed: {a.joules.low} to {a.joules.high} joules\n"
            f"safety factor: {a.factor.low / 1000:.3f} to {a.factor.high / 1000:.3f}\n"
            f"critical area: {a.area.low} to {a.area.high} square centimetres\n"
            f"column: {a.column}{flagged}\n"
            "only for a rotorcraft or multirotor that strikes the ground at more than 60 degrees, which the descent judges\n")


def descent_words(dimension, mass, speed, height, budget=g.BUDGET_RANGE[1]):
    a = g.descent(dimension, mass, speed, height, budget)
    if a.refusal != 0:
        return f"refusal {a.refusal}: {messages()[a.refusal]}\n"
    angle, model = (("above", "a rotorcraft or multirotor may use the high impact angle model") if a.above_60 else
                    ("not above", "the high impact angle model may not be used: the area is the sheet's"))
    return (f"strikes the ground after {a.steps / 100:.2f} seconds, {a.steps} steps\n"
            f"distance fallen: {a.end.fallen:.3f} metres\n"
            f"speed at the ground: {a.end.horizontal:.3f} m/s horizontally, {a.end.downward:.3f} m/s downward\n"
            f"impact angle: {angle} 60 degrees\n"
            f"from this operating height {model}\n")


def trade_off_words(sought, dimension, given, column):
    a = {"speed": g.greatest_speed, "mass": g.greatest_mass}[sought](dimension, given, column)
    if a.refusal != 0:
        return f"refusal {a.refusal}: {messages()[a.refusal]}\n"
    greatest, unit, sheet = ((a.speed, "cm/s", g.sheet(dimension, given, a.speed)) if sought == "speed" else
                             (a.mass, "g", g.sheet(dimension, a.mass, given)))
    flagged = ", the exact one may be the column before" if sheet.flag else ""
    return (f"greatest {sought} for column {column}: {greatest:,} {unit}\n"
            f"critical area at this {sought}: {sheet.area.low:,} to {sheet.area.high:,} square centimetres\n"
            f"column at this {sought}: {sheet.column}{flagged}\n")


def done(*command, **settings):
    return subprocess.run([str(word) for word in command], check=True, stdout=subprocess.PIPE, text=True, **settings).stdout


def make(goal, **variables):
    return subprocess.run([MAKE, "-C", ROOT, "--no-print-directory", goal, *(f"{name}={value}" for name, value in variables.items())],
                          stdout=subprocess.PIPE, stderr=subprocess.STDOUT, text=True)


def block_of_readme(language):
    return re.search(rf"^```{language}\n(.*?)^```$", (ROOT / "README.md").read_text(), re.M | re.S)[1]


def files_in(folder):
    return sorted(str(path.relative_to(folder)) for path in folder.rglob("*") if not path.is_dir())


class InstalledTest(unittest.TestCase):
    @classmethod
    def setUpClass(cls):
        cls.place = Path(tempfile.mkdtemp())
        cls.addClassCleanup(shutil.rmtree, cls.place)
        cls.prefix = cls.place / "installed"
        made = make("install", PREFIX=cls.prefix, DESTDIR="")
        assert made.returncode == 0, made.stdout
        cls.environment = os.environ | {"PKG_CONFIG_PATH": str(cls.prefix / "lib/pkgconfig"), "LD_LIBRARY_PATH": str(cls.prefix / "lib")}

    def flags(self, *wanted):
        return done("pkg-config", *wanted, "nuggetbay", env=self.environment).split()

    def built(self, name, source, *compiler, static=False):
        """A program made of this source in a folder of its own."""
        program = self.place / name
        libraries = [self.prefix / "lib/libnuggetbay.a"] if static else self.flags("--libs")
        done(*compiler, *WARNINGS, *self.flags("--cflags"), source, *libraries, "-o", program, cwd=self.place)
        needs = f"libnuggetbay.so.{MAJOR}" in done("readelf", "-d", program)
        self.assertEqual(needs, not static)
        return program

    def crate(self, name, source):
        """A program of a Rust package beside the installed one."""
        folder = self.place / name
        (folder / "src").mkdir(parents=True)
        (folder / "src/main.rs").write_text(source)
        (folder / "Cargo.toml").write_text(f'[package]\nname = "{name}"\nversion = "0.1.0"\nedition = "2021"\n[dependencies]\n'
                                           f'nuggetbay = {{ path = "{self.prefix}/share/nuggetbay/rust" }}\n')
        done("cargo", "build", "--offline", "--quiet", cwd=folder, env=os.environ | {"CARGO_TARGET_DIR": str(self.place / "cargo")})
        return self.place / "cargo/debug" / name

    def run_program(self, *command):
        return subprocess.run([str(word) for word in command], stdout=subprocess.PIPE, stderr=subprocess.PIPE, text=True, env=self.environment)

    def says_the_examples(self, program):
        for text in EXAMPLES:
            ran = self.run_program(program, text)
            words = (ROOT / "console/examples" / f"{text.stem}.words").read_text()
            self.assertEqual((ran.stdout, ran.returncode), (words, 1 if words.startswith("refusal ") else 0))
        slow, fast = (self.run_program(program, self.below_a_metre(speed)).stdout for speed in (2_500, 20_001))
        self.assertIn("size column: 1\n", slow)
        self.assertEqual(fast, slow.replace("size column: 1\n", "size column: none is large enough\n"))
        self.assertEqual(self.run_program(program).returncode, 2)
        self.assertEqual(self.run_program(program, "/nowhere/at/all").returncode, 2)
        self.fails_on_a_full_disk(program, EXAMPLES[0])

    def says_the_words(self, program, asked, words_of):
        """For each list of numbers that it is asked, and it ends with the status of the words."""
        for numbers in asked:
            ran, words = self.run_program(program, *numbers), words_of(*numbers)
            self.assertEqual((ran.stdout, ran.returncode), (words, 1 if words.startswith("refusal ") else 0), numbers)

    def takes_no_other_arguments(self, program, least, numbers):
        """It wants at least so many numbers, and no more than these."""
        right = [str(number) for number in numbers]
        wrong = [[*right[:place], word, *right[place + 1:]] for place in range(len(right)) for word in NOT_NUMBERS]
        for arguments in ([], right[:least - 1], [*right, "0"], *wrong):
            ran = self.run_program(program, *arguments)
            self.assertEqual((ran.returncode, ran.stdout, ran.stderr.count("\n")), (2, "", 1), arguments)
        self.fails_on_a_full_disk(program, *right)

    def says_the_high_angles(self, program):
        self.says_the_words(program, AIRCRAFT, high_angle_words)
        self.assertIn(", the exact one may be", high_angle_words(*AIRCRAFT[1]))
        self.takes_no_other_arguments(program, 3, AIRCRAFT[0])

    def says_the_descents(self, program):
        self.says_the_words(program, DESCENTS, descent_words)
        said = "".join(descent_words(*numbers) for numbers in DESCENTS)
        for words in (": above 60 degrees", "not above 60 degrees", *(f"refusal {number}:" for number in (1, 2, 3, 16, 17, 18, 19))):
            self.assertIn(words, said)
        self.takes_no_other_arguments(program, 4, DESCENTS[2])

    def says_the_trade_offs(self, program):
        self.says_the_words(program, TRADE_OFFS, trade_off_words)
        said = "".join(trade_off_words(*asked) for asked in TRADE_OFFS)
        for number in (1, 2, 3, 20, 21):
            self.assertIn(f"refusal {number}:", said)
        for sought in ("speed", "mass"):
            self.assertRegex(said, f"column at this {sought}: [25], the exact one may be")
            self.says_the_words(program, [(sought, 3_000, 5_000, column) for column in WRONG_COLUMNS], trade_off_words)
            self.says_the_words(program, [(sought, 49, 5_000, column) for column in WRONG_COLUMNS], trade_off_words)
            self.takes_no_other_arguments(program, 4, (sought, 3_000, 5_000, 2))

    def fails_on_a_full_disk(self, program, *arguments):
        with open("/dev/full", "w") as full:
            ran = subprocess.run([program, *arguments], stdout=full, stderr=subprocess.PIPE, text=True, env=self.environment)
        self.assertEqual((ran.returncode, ran.stderr.count("\n")), (2, 1), ran.stderr)

    def below_a_metre(self, speed):
        """The farmhouses under a smaller aircraft, which has the same area at every speed."""
        text = self.place / f"{speed}.case"
        farmhouses = (ROOT / "examples/farmhouses.case").read_text()
        text.write_text(farmhouses.replace(f"{1_000:08x}", f"{999:08x}", 1).replace(f"{2_500:08x}", f"{speed:08x}", 1))
        return text

    def test_the_files(self):
        library = f"lib/libnuggetbay.so.{VERSION}"
        rust = [f"share/nuggetbay/rust/{path}" for path in ("Cargo.toml", "build.rs")]
        rust += [f"share/nuggetbay/rust/src/{path.name}" for path in (ROOT / "console/rust/src").glob("*.rs")]
        self.assertEqual(files_in(self.prefix), sorted(["bin/nuggetbay-case", "include/nuggetbay.h", "lib/libnuggetbay.a", library,
                                                        f"lib/libnuggetbay.so.{MAJOR}", "lib/libnuggetbay.so", "lib/pkgconfig/nuggetbay.pc", *rust]))
        self.assertEqual(self.flags("--modversion"), [VERSION])
        self.assertIn(f"[libnuggetbay.so.{MAJOR}]", done("readelf", "-d", self.prefix / library))

    def test_only_the_functions_of_the_header_are_shown(self):
        for options, library in ((["-D"], "libnuggetbay.so"), (["-g"], "libnuggetbay.a")):
            shown = done("nm", *options, "--defined-only", "--format=posix", self.prefix / "lib" / library)
            self.assertEqual(sorted(re.findall(r"^(\S+) [A-Z] ", shown, re.M)), FUNCTIONS)

    def test_the_programs_of_readme(self):
        source, wanted = self.place / "readme.c", block_of_readme("text").replace("$ ./console\n", "")
        source.write_text(block_of_readme("c"))
        for compiler in ([CC, "-std=c99"], [CC, "-std=c17"], [CXX, "-x", "c++", "-std=c++11"]):
            self.assertEqual(self.run_program(self.built("readme", source, *compiler)).stdout, wanted)
        self.assertEqual(self.run_program(self.crate("readme_rust", block_of_readme("rust"))).stdout, wanted)

    def test_the_examples(self):
        for static in (False, True):
            self.says_the_examples(self.built("example", ROOT / "console/examples/case.c", CC, "-std=c99", static=static))
            self.says_the_high_angles(self.built("high_angle", ROOT / "console/examples/high_angle.c", CC, "-std=c99", static=static))
            self.says_the_descents(self.built("descent", ROOT / "console/examples/descent.c", CC, "-std=c99", static=static))
            self.says_the_trade_offs(self.built("trade_off", ROOT / "console/examples/trade_off.c", CC, "-std=c99", static=static))
        self.says_the_examples(self.crate("example_rust", (ROOT / "console/rust/examples/case.rs").read_text()))
        self.says_the_high_angles(self.crate("high_angle_rust", (ROOT / "console/rust/examples/high_angle.rs").read_text()))
        self.says_the_descents(self.crate("descent_rust", (ROOT / "console/rust/examples/descent.rs").read_text()))
        self.says_the_trade_offs(self.crate("trade_off_rust", (ROOT / "console/rust/examples/trade_off.rs").read_text()))

    def test_the_trade_off_tables(self):
        """The program prints what stands in the page after the line that says so, to the byte."""
        tables = (ROOT / "docs/TRADE_OFFS.md").read_bytes().split(f"\n{TABLES_FOLLOW}\n\n".encode())
        self.assertEqual(len(tables), 2)
        program = self.built("trade_off_tables", ROOT / "console/examples/trade_off_tables.c", CC, "-std=c99", static=True)
        ran = subprocess.run([program], stdout=subprocess.PIPE)
        self.assertEqual((ran.returncode, ran.stdout), (0, tables[1]))
        self.fails_on_a_full_disk(program)

    def test_the_examples_of_readme(self):
        """The program of each command, which make makes, prints what README shows below it."""
        text = (ROOT / "README.md").read_text()
        for name in ("high_angle", "descent", "trade_off"):
            program, asked, shown = re.search(
                rf"^    make \S+{name}-in-words\n    (\S+{name}-in-words) (\w[\w ]*)\n\n((?:    .*\n)+)", text, re.M).groups()
            self.assertEqual(make(program).returncode, 0)
            ran = self.run_program(ROOT / program, *asked.split())
            self.assertEqual((ran.returncode, ran.stdout), (0, shown.replace("    ", "")))

    def test_version_messages_a_descent_a_trade_off_and_nothing_lent(self):
        refusal, above_60, steps, end = g.descent(1_100, 15_000, 2_500, 5_740, g.BUDGET_RANGE[1])
        descent = " ".join(format(number, ".17g") for number in (refusal, above_60, steps, *end))
        trade_off = " ".join(map(str, (*g.greatest_speed(3_000, 25_000, 2), *g.greatest_mass(3_000, 5_000, 2))))
        wanted = [f"{NUMBER} {NUMBER}", *messages(), descent, trade_off, "5", "5", "13", "15"]
        for compiler in ([CC, "-std=c99"], [CXX, "-x", "c++", "-std=c++98", "-Wno-long-long"], [CXX, "-x", "c++", "-std=c++17"]):
            program = self.built("consumer", ROOT / "console/tests/consumer.c", *compiler)
            self.assertEqual(self.run_program(program).stdout.splitlines(), wanted)

    def test_python(self):
        library = ctypes.CDLL(str(self.prefix / "lib/libnuggetbay.so"))
        library.nb_version.restype, library.nb_refusal_message.restype = ctypes.c_uint32, ctypes.c_char_p
        self.assertEqual(library.nb_version(), NUMBER)
        self.assertEqual([library.nb_refusal_message(ctypes.c_uint8(number)).decode() for number in range(256)], messages())

    def test_the_program(self):
        for text in EXAMPLES:
            with open(text, "rb") as file:
                printed = subprocess.run([self.prefix / "bin/nuggetbay-case"], stdin=file, stdout=subprocess.PIPE).stdout
            self.assertEqual(printed, text.with_suffix(".frame").read_bytes())

    def test_uninstall_takes_every_file_away(self):
        second = self.place / "second"
        self.assertEqual(make("install", PREFIX=second, DESTDIR="").returncode, 0)
        self.assertEqual(files_in(second), files_in(self.prefix))
        self.assertEqual(make("uninstall", PREFIX=second, DESTDIR="").returncode, 0)
        self.assertEqual(files_in(second), [])

    def test_a_place_that_a_shell_takes_apart_is_refused(self):
        for character in " \t,&\\'\"#;~*é":
            place = self.place / f"unfit{character}place"
            for variables in ({"PREFIX": place, "DESTDIR": ""}, {"PREFIX": "/usr", "DESTDIR": place}):
                for goal in ("install", "uninstall"):
                    made = make(goal, **variables)
                    self.assertIn("PREFIX and DESTDIR may have letters, digits and ", made.stdout)
                    self.assertNotEqual(made.returncode, 0)
        self.assertEqual(list(self.place.glob("unfit*")), [])

    def test_a_package_is_staged(self):
        stage = self.place / "stage"
        self.assertEqual(make("install", PREFIX="/usr", DESTDIR=stage).returncode, 0)
        self.assertEqual(files_in(stage / "usr"), files_in(self.prefix))
        self.assertIn("prefix=/usr\n", (stage / "usr/lib/pkgconfig/nuggetbay.pc").read_text())


if __name__ == "__main__":
    unittest.main(argv=sys.argv[:1])
