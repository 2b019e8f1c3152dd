"""The comparison of declarations notices each of these planted differences, and none where there is none."""

import ctypes
import unittest

import declarations as d
import ground_risk as g
from library import Operation, Parameter

REAL = d.sources()

# A library of two structs and two functions, declared four times.
RATTLE = '''
// A pair. The comment has a struct Other { a: u8 } and a repr that doesn't count.
#[repr(C)]
pub struct Pair {
    pub low: u64,
    // with a comment
    pub high: u64,
}

#[repr(C)]
pub struct LongAnswer {
    pub refusal: u8,
    pub class: i8,
    pub share: f64,
    pub pair: Pair,
}

struct Private {
    a: u8,
}
'''
EXPORTS = '''
// Reads and writes.
#[unsafe(no_mangle)]
pub extern "C" fn nb_walk(size: u32, counts: &[u32], marks: &mut [u64], class: u8) -> LongAnswer
    ensures { result ≡ walked size counts.now }
{
    walk(size, counts, marks, class)
}

#[unsafe(no_mangle)]
pub extern "C" fn nb_write(
    fields: Pair,
    frame: &mut [u8],
) -> u8 {
    0
}
'''
HEADER = '''
#define NB_LIST(F) \\
    F(nb_no, 1)
/* A struct { in; } a comment, and nb_no(void); */
typedef struct {
    uint64_t low;
    uint64_t high; /* more */
} nb_pair_t;

typedef struct {
    uint8_t refusal;
    int8_t class_number;
    double share;
    nb_pair_t pair;
} nb_long_answer_t;

uint32_t nb_version(void);

nb_long_answer_t nb_walk(uint32_t size, const uint32_t *counts, size_t counts_len, uint64_t *marks,
                         size_t marks_len, uint8_t class_number);
uint8_t nb_write(nb_pair_t fields, uint8_t *frame, size_t frame_len);
'''
RUST = '''
/// A pair.
#[repr(C)]
#[derive(Clone, Copy)]
pub struct Pair {
    pub low: u64,
    /// more
    pub high: u64,
}

#[repr(C)]
pub struct LongAnswer {
    pub refusal: u8,
    pub class: i8,
    pub share: f64,
    pub pair: Pair,
}

extern "C" {
    pub fn nb_walk(
        size: u32,
        counts: *const u32,
        counts_len: usize,
        marks: *mut u64,
        marks_len: usize,
        class: u8,
    ) -> LongAnswer;
    pub fn nb_write(fields: Pair, frame: *mut u8, frame_len: usize) -> u8;
}
'''
U8, U32, U64, I8, F64 = ctypes.c_uint8, ctypes.c_uint32, ctypes.c_uint64, ctypes.c_int8, ctypes.c_double


def struct(name, *fields):
    return type(name, (ctypes.Structure,), {"_fields_": fields})


PAIR = struct("Pair", ("low", U64), ("high", U64))
ANSWER = struct("LongAnswer", ("refusal", U8), ("class", I8), ("share", F64), ("pair", PAIR))
WALK = Operation("nb_walk", (Parameter("size", U32), Parameter("counts", U32, "read"), Parameter("marks", U64, "written"),
                             Parameter("class", U8)), ANSWER, None)
WRITE = Operation("nb_write", (Parameter("fields", PAIR), Parameter("frame", U8, "written")), U8, None)
SMALL = d.Sources({"crates/pair/src/lib.rt": RATTLE, "crates/all/src/exports.rt": EXPORTS}, HEADER, {"src/all.rs": RUST},
                  {"Pair": PAIR, "LongAnswer": ANSWER}, {"walk": WALK, "write": WRITE})


def once(text, old, new):
    assert text.count(old) == 1, f"{old!r} stands {text.count(old)} times"
    return text.replace(old, new)


def with_file(files, old, new):
    path = next(path for path, text in files.items() if old in text)
    return files | {path: once(files[path], old, new)}


class StructsAndFunctionsTest(unittest.TestCase):
    def test_as_they_are(self):
        self.assertEqual(d.declared_differences(REAL), [])
        self.assertEqual(d.declared_differences(SMALL), [])

    def test_all_is_read(self):
        wanted = d.read_rattle(SMALL.rattle)
        self.assertEqual(wanted.structs["LongAnswer"], [("refusal", "u8"), ("class", "i8"), ("share", "f64"), ("pair", "Pair")])
        self.assertEqual(wanted.functions["nb_walk"], [
            ("size", "u32"), ("counts", "*const u32"), ("counts_len", "usize"), ("marks", "*mut u64"), ("marks_len", "usize"),
            ("class", "u8"), ("answer", "LongAnswer")])
        self.assertEqual(len(d.read_rattle(REAL.rattle).functions), len(REAL.operations))

    def differs(self, planted, *words):
        lines = d.declared_differences(planted)
        self.assertNotEqual(lines, [])
        for word in words:
            self.assertIn(word, "\n".join(lines))

    def in_header(self, old, new, *words):
        self.differs(SMALL._replace(header=once(SMALL.header, old, new)), "the header", *words)

    def in_rust(self, old, new, *words):
        self.differs(SMALL._replace(rust=with_file(SMALL.rust, old, new)), *words)

    def in_rattle(self, old, new, *words):
        self.differs(SMALL._replace(rattle=with_file(SMALL.rattle, old, new)), *words)

    def test_the_header(self):
        self.in_header("    uint64_t low;\n    uint64_t high; /* more */\n", "    uint64_t high;\n    uint64_t low;\n", "has Pair with")
        self.in_header("int8_t class_number;\n", "uint8_t class_number;\n", "has LongAnswer with")
        self.in_header("double share;\n", "float share;\n", "has LongAnswer with share: unknown float")
        self.in_header("double share;\n", "uint64_t share;\n", "has LongAnswer with share: u64")
        self.in_header("    nb_pair_t pair;\n", "", "has LongAnswer with")
        self.in_header("    nb_pair_t pair;\n", "    nb_pair_t pair;\n    uint8_t more;\n", "has LongAnswer with")
        self.in_header("} nb_pair_t;", "} nb_two_t;", "has no Pair", "has Two")
        self.in_header("} nb_pair_t;", "} nb_pair_t, nb_other_t;", "can't be read")
        self.in_header("const uint32_t *counts", "uint32_t *counts", "has nb_walk with")
        self.in_header("uint64_t *marks,", "const uint64_t *marks,", "has nb_walk with")
        self.in_header("uint32_t size, const uint32_t *counts, size_t counts_len", "const uint32_t *counts, size_t counts_len, uint32_t size",
                       "has nb_walk with")
        self.in_header("uint32_t size,", "uint64_t size,", "has nb_walk with")
        self.in_header("uint32_t size,", "uint32_t length,", "has nb_walk with")
        self.in_header("uint8_t *frame, size_t frame_len", "uint8_t *frame", "has nb_write with")
        self.in_header("uint8_t nb_write(", "uint16_t nb_write(", "has nb_write with")
        self.in_header("uint8_t nb_write(nb_pair_t fields, uint8_t *frame, size_t frame_len);", "", "has no nb_write")
        self.in_header("uint8_t nb_write(", "uint8_t nb_more(uint8_t a);\nuint8_t nb_write(", "has nb_more")

    def test_the_rust_package(self):
        self.in_rust("    pub low: u64,\n    /// more\n    pub high: u64,\n", "    pub high: u64,\n    pub low: u64,\n", "has Pair with")
        self.in_rust("    pub class: i8,\n", "    pub class: u8,\n", "has LongAnswer with")
        self.in_rust("    pub share: f64,\n", "    pub share: f32,\n", "has LongAnswer with share: f32")
        self.in_rust("#[repr(C)]\n#[derive(Clone, Copy)]\n", "#[derive(Clone, Copy)]\n", "the Rust package (structs) has no Pair")
        self.in_rust("counts: *const u32", "counts: *mut u32", "has nb_walk with")
        self.in_rust("        marks_len: usize,\n", "", "has nb_walk with")
        self.in_rust("frame_len: usize) -> u8;", "frame_len: usize) -> u16;", "has nb_write with")
        self.in_rust("    pub fn nb_write(fields: Pair, frame: *mut u8, frame_len: usize) -> u8;\n", "", "has no nb_write")

    def test_the_checker(self):
        swapped = struct("Pair", ("high", U64), ("low", U64))
        self.differs(SMALL._replace(structs=SMALL.structs | {"Pair": swapped}), "checker/library.py (structs) has Pair with")
        narrower = struct("Pair", ("low", U64), ("high", U32))
        self.differs(SMALL._replace(structs=SMALL.structs | {"Pair": narrower}), "has Pair with")
        for kind, found in ((ctypes.c_float, "unknown c_float"), (U64, "u64")):
            other = struct("LongAnswer", ("refusal", U8), ("class", I8), ("share", kind), ("pair", PAIR))
            self.differs(SMALL._replace(structs=SMALL.structs | {"LongAnswer": other}), f"has LongAnswer with share: {found}")
        self.differs(SMALL._replace(structs={"Pair": PAIR}), "has no LongAnswer")
        self.differs(SMALL._replace(operations={"walk": WALK}), "checker/library.py (functions) has no nb_write")
        for changed in (WALK._replace(parameters=WALK.parameters[::-1]), WALK._replace(parameters=WALK.parameters[1:]),
                        WALK._replace(answer=PAIR),
                        WALK._replace(parameters=tuple(one._replace(lent=one.lent and "read") for one in WALK.parameters))):
            self.differs(SMALL._replace(operations=SMALL.operations | {"walk": changed}), "has nb_walk with")

    def test_the_library(self):
        three = ("the header", "the Rust package", "checker/library.py")
        self.in_rattle("    pub refusal: u8,\n    pub class: i8,\n", "    pub class: i8,\n    pub refusal: u8,\n",
                       *(f"{one} (structs) has LongAnswer with" for one in three))
        self.in_rattle("size: u32, counts: &[u32]", "size: u16, counts: &[u32]", *(f"{one} (functions) has nb_walk with" for one in three))
        self.in_rattle("counts: &[u32]", "counts: &mut [u32]", *(f"{one} (functions) has nb_walk with" for one in three))
        self.in_rattle("#[repr(C)]\npub struct Pair", "pub struct Pair", "neither a number nor a #[repr(C)] struct")
        self.in_rattle("#[repr(C)]\npub struct Pair", "#[repr(C)]\npub enum Pair", "isn't a struct of named fields")
        self.in_rattle("#[repr(C)]\npub struct Pair", "#[repr(C, packed)]\npub struct Pair", "isn't a struct of named fields")
        self.in_rattle('#[unsafe(no_mangle)]\npub extern "C" fn nb_walk', '#[unsafe(no_mangle)]\npub fn nb_walk', "an exported function that can't be read")
        self.in_rattle('#[unsafe(no_mangle)]\npub extern "C" fn nb_walk', 'pub extern "C" fn nb_walk', "an exported function that can't be read")
        self.in_rattle("    pub share: f64,\n", "    pub share: f32,\n", "LongAnswer: share is f32, which is neither")
        self.in_rattle("frame: &mut [u8],", "frame: &mut [Private],", "neither a number nor a #[repr(C)] struct")
        for new, words in (("#[repr(C)]\npub struct More {\n    pub a: u8,\n}\n", "(structs) has no More"),
                           ('#[unsafe(no_mangle)]\npub extern "C" fn nb_more(a: u8) -> u8 {\n    a\n}\n', "(functions) has no nb_more"),
                           ("#[repr(C)]\npub struct Pair {\n    pub a: u8,\n}\n", "a second struct Pair")):
            self.differs(SMALL._replace(rattle=SMALL.rattle | {"crates/more/src/deep/more.rt": new}), words)
        self.differs(SMALL._replace(rattle={}), "nothing was read")

    def test_a_struct_may_move_to_another_crate(self):
        moved = dict(zip(("crates/a/src/lib.rt", "crates/b/src/deep/b.rt"), SMALL.rattle.values()))
        self.assertEqual(d.declared_differences(SMALL._replace(rattle=moved)), [])


class TablesTest(unittest.TestCase):
    def test_as_they_are(self):
        self.assertEqual(d.tabled_differences(REAL), [])
        header = d.tables_of_header(REAL.header)
        self.assertEqual(set(d.tables_of_checker().numbers) - set(header.numbers), set())
        self.assertEqual(len(header.refusals), len(g.REFUSALS))

    def differs(self, planted, *words):
        lines = d.tabled_differences(planted)
        for word in words:
            self.assertIn(word, "\n".join(lines))

    def in_header(self, old, new, *words):
        self.differs(REAL._replace(header=once(REAL.header, old, new)), *words)

    def in_rust(self, old, new, *words):
        self.differs(REAL._replace(rust=with_file(REAL.rust, old, new)), *words)

    def test_lengths_and_limits(self):
        for name, number in d.tables_of_checker().numbers.items():
            self.in_header(f"#define NB_{name} {number}u\n", f"#define NB_{name} {number + 1}u\n", f"the header: {name} is {number + 1}")
            self.in_header(f"#define NB_{name} {number}u\n", "", f"the header has no {name}")
        for name, (_, most) in (("HEIGHT_MOST", g.HEIGHT_RANGE), ("BUDGET_MOST", g.BUDGET_RANGE)):
            self.in_rust(f"{name}: u32 = {most:_};", f"{name}: u32 = {most + 1:_};", f"the Rust package: {name} is {most + 1}")
        self.in_rust(f"MAP_ROWS: usize = {g.ROWS};", f"MAP_ROWS: usize = {g.ROWS + 1};", "the Rust package: MAP_ROWS is")

    def test_lists(self):
        for what, fields in (("line 1", g.LINE_1), ("the frame", g.FRAME)):
            (one, one_width), (two, two_width) = fields[-2:]
            header, rust = "FIELD({}, {})", '("{}", {})'
            self.in_header(header.format(one, one_width), header.format(one, one_width + 2), f"the header: {what} is")
            self.in_header(header.format(two, two_width), "", f"the header: {what} is")
            self.in_rust(rust.format(one, one_width), rust.format(one, one_width + 2), f"the Rust package: {what} is")
            self.in_rust(rust.format(two, two_width), rust.format("other", two_width), f"the Rust package: {what} is")
        checker, rattle = d.tables_of_checker(), d.read_rattle(REAL.rattle)
        self.assertEqual(len(d.list_differences(checker._replace(line_1=checker.line_1[::-1], frame=checker.frame[1:]), rattle)), 2)

    def test_sizes(self):
        size = ctypes.sizeof(REAL.structs["Sheet"])
        self.in_header(f"sizeof(nb_sheet_t) == {size},", f"sizeof(nb_sheet_t) == {size + 8},", f"Sheet has {size + 8} bytes")
        self.in_header(f"NB_ASSERT(sizeof(nb_sheet_t) == {size}, sheet_size);\n", "", "Sheet has None bytes")

    def test_version(self):
        version = d.version_of(REAL.header)
        self.in_header("#define NB_VERSION_MINOR ", "#define NB_VERSION_MINOR 9", f"the Rust package has version {version}, the header")
        self.differs(REAL._replace(package=once(REAL.package, f'"{version}"', '"0.0.1"')), "the Rust package has version 0.0.1, the header")
        self.differs(REAL._replace(changes=once(REAL.changes, f"## {version}\n", "## 0.0.1\n")), "CHANGELOG.md has version 0.0.1, the header")

    def test_refusals(self):
        for number, message in d.tables_of_header(REAL.header).refusals:
            self.in_header(f'"{message}"', '"something else"', f"refusal {number} is 'something else' in the header")
            self.in_rust(f'"{message}"', '"something else"', f"refusal {number} is", "'something else' in the Rust package")
            self.in_header(f"R({number}, NB_", f"R(99, NB_", "the header: the refusals are")
            self.in_rust(f'"{message}"', "", "the Rust package: the refusals are")
        for number, lengths in d.SAID.items():
            for length in lengths:
                message = dict(d.tables_of_header(REAL.header).refusals)[number]
                other = message.replace(f"{length:,}", "another")
                self.in_header(message, other, f"the header: refusal {number} doesn't say {length:,}")
                self.in_rust(message, other, f"the Rust package: refusal {number} doesn't say {length:,}")


if __name__ == "__main__":
    unittest.main()
