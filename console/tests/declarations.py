"""Compares what the library exports with every place that declares it again.

usage: declarations.py

The library's own declarations are every #[repr(C)] struct and every exported function in crates/*/src. They are declared again in
the C header, in the Rust package and in checker/library.py: each must have the same structs and functions, with the same names,
order and types, and none more. A slice is a pointer and its length in elements, `name` and `name_len`. The header's and the Rust
package's lengths, limits, lists of fields and refusals must be those of the checker. Prints each difference and ends with 1 where there
is one.
"""

import ctypes
import re
import sys
from itertools import zip_longest
from pathlib import Path
from typing import NamedTuple

ROOT = Path(__file__).resolve().parents[2]
sys.path.insert(0, str(ROOT / "checker"))

import ground_risk as g       # noqa: E402
import library                # noqa: E402


class Declarations(NamedTuple):
    """structs: by name, the fields as (name, type). functions: by name, the parameters as (name, type), and last the answer's type.

    Types are written as in Rust: u8, *const u32, usize, or a struct's name. unread: what couldn't be read.
    """
    structs: dict
    functions: dict
    unread: list


def pairs(text, pattern):
    return [(match[1], match[2].strip()) for match in re.finditer(pattern, text)]


def without_comments(text):
    return re.sub(r"//[^\n]*|/\*.*?\*/", " ", text, flags=re.S)


# ---------------------------------------------------------------------------
# Rattle and Rust
# ---------------------------------------------------------------------------

REPR_C_STRUCT = re.compile(r"#\[repr\(C\)\]\s*(?:#\[[^\]]*\]\s*)*pub struct (\w+)\s*\{([^{}]*)\}")
FIELD = r"(\w+)\s*:\s*([^,{}]+?)\s*(?:,|$)"
EXPORTED = re.compile(r'#\[unsafe\(no_mangle\)\]\s*(?:#\[[^\]]*\]\s*)*pub extern "C" fn (\w+)\s*\(([^()]*)\)\s*(?:->\s*(\w+))?')
IMPORTED = re.compile(r"\bfn (\w+)\s*\(([^()]*)\)\s*(?:->\s*(\w+))?\s*;")


def parameters_of(text):
    """The parameters as C has them: a slice is two."""
    found = []
    for name, kind in pairs(text, FIELD):
        slice_of = re.fullmatch(r"&(mut )?\[(\w+)\]", kind)
        if slice_of:
            found += [(name, f"*{'mut' if slice_of[1] else 'const'} {slice_of[2]}"), (f"{name}_len", "usize")]
        else:
            found.append((name, kind))
    return found


def structs_of(where, text, unread):
    found = {match[1]: pairs(match[2], FIELD) for match in REPR_C_STRUCT.finditer(text)}
    if len(found) != len(re.findall(r"\brepr\s*\(\s*C\b", text)):
        unread.append(f"{where}: a repr(C) that isn't a struct of named fields, or a name twice")
    return found


def read_rattle(files):
    """Of the sources by path: every #[repr(C)] struct and every exported function."""
    structs, functions, unread = {}, {}, []
    for where, text in files.items():
        text = without_comments(text)
        for name, fields in structs_of(where, text, unread).items():
            if name in structs:
                unread.append(f"{where}: a second struct {name}")
            structs[name] = fields
        exported = EXPORTED.findall(text)
        if len(exported) != len(re.findall(r"no_mangle|export_name", text)) or len(exported) != len(re.findall(r'extern "C" fn', text)):
            unread.append(f"{where}: an exported function that can't be read")
        for name, parameters, answer in exported:
            functions[name] = parameters_of(parameters) + [("answer", answer or "nothing")]
    return Declarations(structs, functions, unread)


def read_rust(files):
    """Of the package's sources by path: its structs, and the functions of its extern block."""
    structs, functions, unread = {}, {}, []
    for where, text in files.items():
        text = without_comments(text)
        structs.update(structs_of(where, text, unread))
        for block in re.findall(r'extern "C" \{([^{}]*)\}', text):
            for name, parameters, answer in IMPORTED.findall(block):
                functions[name] = pairs(parameters, FIELD) + [("answer", answer or "nothing")]
            if len(IMPORTED.findall(block)) != len(re.findall(r"\bfn\b", block)):
                unread.append(f"{where}: a function that can't be read")
    return Declarations(structs, functions, unread)


# ---------------------------------------------------------------------------
# C
# ---------------------------------------------------------------------------

C_NUMBERS = {"uint8_t": "u8", "uint16_t": "u16", "uint32_t": "u32", "uint64_t": "u64", "int8_t": "i8", "size_t": "usize",
             "double": "f64"}
# Names that are words of C++.
C_NAMES = {"class_number": "class"}
# What the library has beside the proved functions (console/library/messages.c), as the header declares it.
C_FUNCTIONS = ("uint32_t nb_version(void);", "const char *nb_refusal_message(uint8_t refusal);")


def rust_type(c_type):
    """The type in Rust's words; a struct nb_case_head_t is CaseHead."""
    words = c_type.replace("*", " * ").split()
    if words[-1] == "*":
        const = words[0] == "const"
        return f"*{'const' if const else 'mut'} {rust_type(' '.join(words[const:-1]))}"
    name = re.fullmatch(r"nb_(\w+)_t", words[0])
    if len(words) == 1 and name:
        return "".join(word.capitalize() for word in name[1].split("_"))
    return C_NUMBERS.get(c_type.strip(), f"unknown {c_type}")


def c_declarations(text, separator):
    """`type name` between separators."""
    found = []
    for one in filter(str.strip, text.split(separator)):
        kind, name = re.fullmatch(r"\s*(.*?[\s*])(\w+)\s*", one, re.S).groups()
        found.append((C_NAMES.get(name, name), rust_type(kind)))
    return found


def read_header(text):
    text = re.sub(r"^#(?:[^\n]*\\\n)*[^\n]*", "", without_comments(text), flags=re.M)
    for function in C_FUNCTIONS:
        text = text.replace(function, "")
    structs = {rust_type(name): c_declarations(fields, ";")
               for fields, name in re.findall(r"typedef struct\s*\{([^{}]*)\}\s*(\w+)\s*;", text)}
    prototypes = re.findall(r"(\w+)\s+(nb_\w+)\s*\(([^()]*)\)\s*;", text)
    functions = {name: c_declarations(parameters, ",") + [("answer", rust_type(answer))] for answer, name, parameters in prototypes}
    unread = [] if len(structs) == len(re.findall(r"\bstruct\b", text)) else ["the header: a struct that can't be read"]
    return Declarations(structs, functions, unread)


# ---------------------------------------------------------------------------
# checker/library.py
# ---------------------------------------------------------------------------

PYTHON_NUMBERS = {ctypes.c_uint8: "u8", ctypes.c_uint16: "u16", ctypes.c_uint32: "u32", ctypes.c_uint64: "u64",
                  ctypes.c_int8: "i8", ctypes.c_double: "f64"}


def python_type(kind):
    return kind.__name__ if issubclass(kind, ctypes.Structure) else PYTHON_NUMBERS.get(kind, f"unknown {kind.__name__}")


def python_parameters(parameters):
    found = []
    for parameter in parameters:
        kind = python_type(parameter.kind)
        if parameter.lent:
            pointer = {"read": "const", "written": "mut"}[parameter.lent]
            found += [(parameter.name, f"*{pointer} {kind}"), (f"{parameter.name}_len", "usize")]
        else:
            found.append((parameter.name, kind))
    return found


def read_library(structs, operations):
    return Declarations(
        {name: [(field, python_type(kind)) for field, kind in struct._fields_] for name, struct in structs.items()},
        {operation.function: python_parameters(operation.parameters) + [("answer", python_type(operation.answer))]
         for operation in operations.values()}, [])


# ---------------------------------------------------------------------------
# Lengths and limits, lists of fields and refusals
# ---------------------------------------------------------------------------

class Tables(NamedTuple):
    numbers: dict      # lengths and limits, by name
    line_1: list
    frame: list
    refusals: list


def list_in(text, start, entry):
    """The entries of the list that starts with these words, up to an empty line or a `;`."""
    part = re.split(r"\n\s*\n|;\n|\\?\n#", text.split(start, 1)[1] if start in text else "", maxsplit=1)[0]
    return [(name, int(digits)) for name, digits in re.findall(entry, part)]


def tables_of_checker():
    numbers = {"MAP_ROWS": g.ROWS, "MAP_COLUMNS": g.COLUMNS, "MAP_CELLS": g.PLACES, "TEXT_LENGTH": g.TEXT_LENGTH,
               "FRAME_LENGTH": g.FRAME_LENGTH, "REFUSAL_LENGTH": g.REFUSAL_LENGTH, "HEIGHT_MOST": g.HEIGHT_RANGE[1],
               "BUDGET_MOST": g.BUDGET_RANGE[1]}
    return Tables(numbers, list(g.LINE_1), [("refusal", g.REFUSAL_DIGITS), *g.FRAME], list(g.REFUSALS))


def tables_of_header(text):
    numbers = {name: int(number) for name, number in re.findall(r"#define NB_(\w+) (\d+)u\b", text)}
    entry = r"FIELD\((\w+), (\d+)\)"
    refusals = [(int(number), message) for number, message in re.findall(r'R\((\d+), NB_\w+, "([^"]*)"\)', text)]
    return Tables(numbers, list_in(text, "#define NB_LINE_1(FIELD)", entry), list_in(text, "#define NB_FRAME(FIELD)", entry), refusals)


def tables_of_rust(layout, refusal, calls):
    numbers = {name: int(number.replace("_", ""))
               for name, number in re.findall(r"pub const (\w+): (?:usize|u32) = ([\d_]+);", layout + calls)}
    entry = r'\("(\w+)", (\d+)\)'
    refusals = [(int(number), message) for number, message in re.findall(r'^\s+(\d+) \w+ "([^"]*)"$', refusal, re.M)]
    return Tables(numbers, list_in(layout, "pub const LINE_1:", entry), list_in(layout, "pub const FRAME:", entry), refusals)


# Numbers that a refusal's message must say.
SAID = {1: g.DIMENSION_RANGE, 2: g.MASS_RANGE, 3: g.SPEED_RANGE, 4: g.AREA_LIMITS[-1:], 5: (*g.LENT_LENGTHS,), 6: g.CELL_AREA_RANGE,
        7: (g.LARGEST_COUNT,), 13: (g.TEXT_LENGTH,), 15: (g.FRAME_LENGTH,), 16: g.FRONTAL_RANGE, 17: (*g.HEIGHT_RANGE, *g.BUDGET_RANGE),
        18: g.BUDGET_RANGE[1:], 20: (1, len(g.AREA_LIMITS))}


# ---------------------------------------------------------------------------
# The comparison
# ---------------------------------------------------------------------------

def first_difference(found, wanted):
    """The first entries that differ, in words."""
    pair = next(pair for pair in zip_longest(found, wanted) if pair[0] != pair[1])
    return tuple("nothing" if one is None else f"{one[0]}: {one[1]}" for one in pair)


def compared(what, wanted, found):
    """The differences of two dictionaries of lists."""
    lines = [f"{what} has no {name}" for name in wanted if name not in found]
    lines += [f"{what} has {name}, which the library doesn't have" for name in found if name not in wanted]
    for name in wanted:
        if name in found and wanted[name] != found[name]:
            one, other = first_difference(found[name], wanted[name])
            lines.append(f"{what} has {name} with {one}, where the library has {other}")
    return lines


def declaration_differences(wanted, what, found):
    return (found.unread + compared(f"{what} (structs)", wanted.structs, found.structs)
            + compared(f"{what} (functions)", wanted.functions, found.functions))


def own_differences(rattle):
    """What is amiss with the library's own declarations."""
    known = {*C_NUMBERS.values(), *rattle.structs}
    lines = list(rattle.unread)
    for name, fields in (rattle.structs | rattle.functions).items():
        for field, kind in fields:
            if kind.removeprefix("*const ").removeprefix("*mut ") not in known:
                lines.append(f"{name}: {field} is {kind}, which is neither a number nor a #[repr(C)] struct")
    if not rattle.structs or not rattle.functions:
        lines.append("nothing is exported, or nothing was read")
    return lines


def list_differences(checker, rattle):
    """The checker's lists have the names of the structs that are read and written by them."""
    lines = []
    for what, wanted, struct in (("line 1", checker.line_1, "CaseHead"), ("the frame", checker.frame[1:], "FrameFields")):
        names = [name for name, _ in rattle.structs.get(struct, [])]
        if [name for name, _ in wanted] != names:
            lines.append(f"{what} of the checker has {wanted}, {struct} has {names}")
    return lines


def table_differences(checker, what, found):
    lines = [f"{what}: {name} is {found.numbers[name]}, the checker's is {number}" for name, number in checker.numbers.items()
             if name in found.numbers and found.numbers[name] != number]
    if found.line_1 != checker.line_1:
        lines.append(f"{what}: line 1 is {found.line_1}, the checker's is {checker.line_1}")
    if found.frame != checker.frame:
        lines.append(f"{what}: the frame is {found.frame}, the checker's is {checker.frame}")
    numbers = [number for number, _ in found.refusals]
    if numbers != checker.refusals:
        lines.append(f"{what}: the refusals are {numbers}, the checker's are {checker.refusals}")
    for number, message in found.refusals:
        lines += [f"{what}: refusal {number} doesn't say {said:,}" for said in SAID.get(number, ()) if f"{said:,}" not in message]
    return lines


def size_differences(header, structs):
    """The header's own numbers for the sizes, against those of the checker's structs."""
    said = {rust_type(name): int(size) for name, size in re.findall(r"NB_ASSERT\(sizeof\((\w+)\) == (\d+),", header)}
    return [f"the header says that {name} has {said.get(name)} bytes, not {ctypes.sizeof(struct)}"
            for name, struct in structs.items() if said.get(name) != ctypes.sizeof(struct)]


def version_of(header):
    return ".".join(re.findall(r"#define NB_VERSION_(?:MAJOR|MINOR|PATCH) (\d+)\n", header))


def version_differences(header, package, changes):
    """The version of the header against the Rust package's and that of the newest entry in the list of changes."""
    version = version_of(header)
    others = {"the Rust package": re.findall(r'^version = "(.*)"$', package, re.M),
              "CHANGELOG.md": re.findall(r"^## (\S+)", changes, re.M)}
    return [f"{what} has version {found[0] if found else 'none'}, the header {version}" for what, found in others.items()
            if found[:1] != [version]]


class Sources(NamedTuple):
    rattle: dict
    header: str
    rust: dict
    structs: dict
    operations: dict
    package: str = ""
    changes: str = ""


LAYOUT, REFUSAL, CALLS = (f"console/rust/src/{name}.rs" for name in ("layout", "refusal", "lib"))


def sources():
    def files(pattern):
        return {str(path.relative_to(ROOT)): path.read_text() for path in sorted(ROOT.glob(pattern))}

    return Sources(files("crates/*/src/**/*.rt"), (ROOT / "console/include/nuggetbay.h").read_text(), files("console/rust/src/*.rs"),
                   library.STRUCTS, library.OPERATIONS, (ROOT / "console/rust/Cargo.toml").read_text(),
                   (ROOT / "CHANGELOG.md").read_text())


def declared_differences(s):
    """Of the structs and functions."""
    rattle = read_rattle(s.rattle)
    return (own_differences(rattle)
            + declaration_differences(rattle, "the header", read_header(s.header))
            + declaration_differences(rattle, "the Rust package", read_rust(s.rust))
            + declaration_differences(rattle, "checker/library.py", read_library(s.structs, s.operations)))


def tabled_differences(s):
    """Of the lengths and limits, the lists of fields, the refusals, the sizes and the version."""
    checker, header = tables_of_checker(), tables_of_header(s.header)
    rust = tables_of_rust(s.rust[LAYOUT], s.rust[REFUSAL], s.rust[CALLS])
    lines = list_differences(checker, read_rattle(s.rattle))
    lines += table_differences(checker, "the header", header) + table_differences(checker, "the Rust package", rust)
    lines += [f"the header has no {name}" for name in checker.numbers if name not in header.numbers]
    lines += [f"refusal {one[0]} is {one[1]!r} in the header and {other[1]!r} in the Rust package"
              for one, other in zip(header.refusals, rust.refusals) if one != other]
    return lines + size_differences(s.header, s.structs) + version_differences(s.header, s.package, s.changes)


def main():
    s = sources()
    lines = declared_differences(s) + tabled_differences(s)
    for line in lines:
        print(line)
    if not lines:
        rattle = read_rattle(s.rattle)
        print(f"{len(rattle.structs)} structs and {len(rattle.functions)} functions are declared alike by the library, the header, "
              f"the Rust package and the checker; so are {len(g.REFUSALS)} refusals, the lengths and limits, line 1 and the frame")
    return 1 if lines else 0


if __name__ == "__main__":
    sys.exit(main())
