"""The proved library's operations: one table of what they take and answer, with what the checker says, and their calls from Python.

A new operation is a struct for its answer and a row of OPERATIONS. Names, order and types are held to the library's own
declarations by console/tests/declarations.py.
"""

import ctypes
import struct as binary
from array import array
from pathlib import Path
from typing import Callable, NamedTuple

import ground_risk as g

ROOT = Path(__file__).resolve().parent.parent
SHARED = ROOT / "target" / "console" / "libnuggetbay.so"

U8, U16, U32, U64, I8 = ctypes.c_uint8, ctypes.c_uint16, ctypes.c_uint32, ctypes.c_uint64, ctypes.c_int8
F64 = ctypes.c_double

# ---------------------------------------------------------------------------
# The structs of console/include/nuggetbay.h
# ---------------------------------------------------------------------------

STRUCTS = {}


def struct(name, *fields):
    STRUCTS[name] = type(name, (ctypes.Structure,), {"_fields_": list(fields)})
    return STRUCTS[name]


Bracket = struct("Bracket", ("low", U64), ("high", U64))
Sheet = struct(
    "Sheet", ("glide", Bracket), ("run", Bracket), ("saving", Bracket), ("slide", Bracket), ("total", Bracket), ("area", Bracket),
    ("column", U8), ("flag", U8), ("size_column", U8))
SheetAnswer = struct("SheetAnswer", ("refusal", U8), ("sheet", Sheet))
HighAngle = struct(
    "HighAngle", ("refusal", U8), ("column", U8), ("flag", U8), ("frontal_area", U64), ("joules", Bracket), ("factor", Bracket),
    ("area", Bracket))
Fall = struct("Fall", ("horizontal", F64), ("downward", F64), ("fallen", F64))
Descent = struct("Descent", ("refusal", U8), ("above_60", U8), ("steps", U32), ("end", Fall))
GreatestSpeed = struct("GreatestSpeed", ("refusal", U8), ("speed", U32))
GreatestMass = struct("GreatestMass", ("refusal", U8), ("mass", U32))
Footprint = struct("Footprint", ("refusal", U8), ("row", U8), ("place", U32), ("people", U64), ("cells", U32))
IntrinsicClass = struct("IntrinsicClass", ("refusal", U8), ("class", U8))
FinalClass = struct("FinalClass", ("refusal", U8), ("class", I8))
Assessment = struct(
    "Assessment", ("refusal", U8), ("sheet", Sheet), ("footprint", Footprint), ("row_used", U8), ("intrinsic", U8),
    ("final_class", I8))
CaseHead = struct(
    "CaseHead", ("dimension", U32), ("mass", U32), ("speed", U32), ("cell_area", U32), ("controlled", U8), ("word", U16))
Reading = struct("Reading", ("refusal", U8), ("head", CaseHead))
FrameFields = struct(
    "FrameFields", ("low", U64), ("high", U64), ("column", U8), ("flag", U8), ("size_column", U8), ("row_used", U8), ("place", U32),
    ("people", U64), ("intrinsic", U8), ("final_class", I8))


# ---------------------------------------------------------------------------
# The table of operations
# ---------------------------------------------------------------------------

class Parameter(NamedTuple):
    name: str
    kind: type          # of the number or struct; where it is lent, of an element
    lent: str = ""      # "read" or "written" where it is lent, as a pointer and a length


def numbers(**kinds):
    return tuple(Parameter(name, kind) for name, kind in kinds.items())


def read(**kinds):
    return tuple(Parameter(name, kind, "read") for name, kind in kinds.items())


def written(**kinds):
    return tuple(Parameter(name, kind, "written") for name, kind in kinds.items())


class Outcome(NamedTuple):
    """What a call answers, as the numbers of the answer in order, and what it leaves in each buffer that is lent to be written."""
    answer: list
    left: list


class Bits(int):
    """The bits of a double. Two are the same where every bit is: 0.0 isn't -0.0, and a NaN is itself."""

    @classmethod
    def of(cls, number):
        return cls.from_bytes(binary.pack("<d", number), "little")

    def __repr__(self):
        return f"{binary.unpack('<d', self.to_bytes(8, 'little'))[0]!r} ({int(self):#018x})"


def flat(value):
    """The numbers of nested tuples, in order, the doubles by their bits."""
    if isinstance(value, tuple):
        return [number for part in value for number in flat(part)]
    return [Bits.of(value) if isinstance(value, float) else value]


def outcome(answer, left=()):
    return Outcome(flat(answer), [list(buffer) for buffer in left])


class Operation(NamedTuple):
    function: str
    parameters: tuple
    answer: type
    # what the checker says to the same arguments
    said: Callable


def said_assessment(*arguments):
    a = g.assessment(*arguments)
    # the boundary's sheet has no refusal of its own in an assessment
    return outcome(a._replace(sheet=a.sheet[1:]))


def said_reading(text, *lent):
    reading = g.read_case(text, g.Lent(*lent))
    return outcome((reading.refusal, reading.fields), reading.lent)


def said_frame(refusal, fields, frame):
    writing = g.write_frame(g.Frame(*fields) if refusal == 0 else refusal, frame)
    return outcome(writing.refusal, [writing.frame])


def said_case(text, *buffers):
    *lent, frame = buffers
    answer = g.case(text, g.Lent(*lent), frame)
    return outcome(answer.refusal, [*answer.lent, answer.frame])


AIRCRAFT = numbers(dimension=U32, mass=U32, speed=U32)
# A map and its footprint, to be read, and to be filled.
MAP = read(counts=U32, marks=U64)
LENT = written(counts=U32, marks=U64)

OPERATIONS = {
    "sheet": Operation("nb_sheet", AIRCRAFT, SheetAnswer, lambda *a: outcome(g.sheet(*a))),
    "high angle": Operation("nb_high_angle", AIRCRAFT, HighAngle, lambda *a: outcome(g.high_angle(*a))),
    "descent": Operation("nb_descent", (*AIRCRAFT, *numbers(height=U32, budget=U32)), Descent, lambda *a: outcome(g.descent(*a))),
    "greatest speed": Operation("nb_greatest_speed", numbers(dimension=U32, mass=U32, column=U8), GreatestSpeed,
                                lambda *a: outcome(g.greatest_speed(*a))),
    "greatest mass": Operation("nb_greatest_mass", numbers(dimension=U32, speed=U32, column=U8), GreatestMass,
                               lambda *a: outcome(g.greatest_mass(*a))),
    "footprint": Operation("nb_footprint", (*MAP, *numbers(cell_area=U32)), Footprint, lambda *a: outcome(g.footprint(*a))),
    "intrinsic class": Operation("nb_intrinsic_class", numbers(column=U8, row=U8, controlled=U8), IntrinsicClass,
                                 lambda *a: outcome(g.intrinsic_class(*a))),
    "final class": Operation("nb_final_class", numbers(**{"column": U8, "class": U8, "word": U16}), FinalClass,
                             lambda *a: outcome(g.final_class(*a))),
    "assessment": Operation("nb_assess", (*AIRCRAFT, *MAP, *numbers(cell_area=U32, controlled=U8, word=U16)), Assessment,
                            said_assessment),
    "reading": Operation("nb_read_case", (*read(text=U8), *LENT), Reading, said_reading),
    "frame": Operation("nb_write_frame", (*numbers(refusal=U8, fields=FrameFields), *written(frame=U8)), U8, said_frame),
    "case": Operation("nb_case", (*read(text=U8), *LENT, *written(frame=U8)), U8, said_case),
}


# ---------------------------------------------------------------------------
# Calls
# ---------------------------------------------------------------------------

# What an array of these numbers is made by, quicker than one by one.
ARRAY_CODES = {U8: "B", U32: "I", U64: "Q"}


def numbers_of(value):
    """A struct or a number as nested tuples."""
    if isinstance(value, ctypes.Structure):
        return tuple(numbers_of(getattr(value, name)) for name, _ in value._fields_)
    return value


def buffer(kind, values):
    return (kind * len(values)).from_buffer_copy(array(ARRAY_CODES[kind], values))


class Library:
    def __init__(self):
        if not SHARED.is_file():
            raise SystemExit(f"{SHARED.relative_to(ROOT)} is missing: make it by `make`")
        self.functions = {}
        lib = ctypes.CDLL(str(SHARED))
        for name, operation in OPERATIONS.items():
            function = getattr(lib, operation.function)
            function.restype, types = operation.answer, []
            for parameter in operation.parameters:
                lent = (ctypes.POINTER(parameter.kind), ctypes.c_size_t)
                types += lent if parameter.lent else (parameter.kind,)
            function.argtypes = types
            self.functions[name] = function

    def call(self, name, values):
        """The outcome of the operation of this name, called with these values in the table's order."""
        arguments, left = [], []
        for parameter, value in zip(OPERATIONS[name].parameters, values, strict=True):
            if parameter.lent:
                lent = buffer(parameter.kind, value)
                arguments += (lent, len(value))
                if parameter.lent == "written":
                    left.append(lent)
            elif issubclass(parameter.kind, ctypes.Structure):
                arguments.append(parameter.kind(*value))
            else:
                arguments.append(value)
        return outcome(numbers_of(self.functions[name](*arguments)), left)
