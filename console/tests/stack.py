"""How many bytes of stack each exported function needs, read from the archive's machine code and held to the header's numbers; and
what calls of them really take, as stack_used.c measures it, held to the same numbers.

usage: stack.py ARCHIVE STACK_USED

A function's need is the deepest place that it may reach below its caller's frame, its return address among it: its pushes, its
frame, what it touches below the stack pointer, and what the functions that it calls need. Every path is followed. Code whose need
can't be read that way (recursion, a jump or call through a register, a frame of no fixed size) is refused. memcpy is the C
library's: its return address is counted, and nothing of its own.
"""

import re
import subprocess
import sys
from pathlib import Path
from typing import NamedTuple

ROOT = Path(__file__).resolve().parents[2]
HEADER = ROOT / "console/include/nuggetbay.h"

RETURN_ADDRESS = 8
# The bytes below the stack pointer that a function without calls may use, by the rules of x86-64 Linux.
RED_ZONE = 128
FOREIGN = {"memcpy": RETURN_ADDRESS}


class Instruction(NamedTuple):
    place: int
    name: str
    operands: str
    target: str | None     # of a call or jump to another function


class Unreadable(Exception):
    pass


def functions_of(disassembly):
    """By name, the instructions of each function that `objdump -dr` shows."""
    functions, current = {}, None
    for line in disassembly.splitlines():
        if start := re.fullmatch(r"[0-9a-f]+ <(.+)>:", line):
            current = functions.setdefault(start[1], [])
        elif step := re.match(r"\s*([0-9a-f]+):\t(?:(?:notrack|bnd|rep\w*|lock|cs|data16) )*(\S+)\s*([^#]*)", line):
            current.append(Instruction(int(step[1], 16), step[2], step[3].strip(), None))
        elif link := re.match(r"\s*[0-9a-f]+: R_X86_64_(?:PLT32|PC32)\t(?:\.text\.)?(\S+?)-0x4$", line):
            if current[-1].name == "call" or current[-1].name.startswith("j"):
                current[-1] = current[-1]._replace(target=link[1])
    return functions


def depth_after(step, depth):
    """The bytes between the return address and the stack pointer after an instruction."""
    first, _, second = step.operands.partition(",")
    if step.name == "push":
        return depth + 8
    if step.name == "pop":
        return depth - 8
    if first == "rsp" and step.name in ("sub", "add"):
        return depth + int(second, 16) * (1 if step.name == "sub" else -1)
    return depth


def moves_stack(step):
    """Whether an instruction gives the stack pointer another value, in a way that depth_after doesn't know."""
    known = step.name in ("push", "pop") or step.name in ("sub", "add") and re.fullmatch(r"rsp,0x[0-9a-f]+", step.operands)
    written = re.match(r"r?e?spl?\b", step.operands) and step.name not in ("cmp", "test", "push")
    return not known and bool(written or step.name in ("leave", "enter", "pushf", "popf") or step.name == "xchg" and "rsp" in step.operands)


def touched(step, depth, leaf):
    """The deepest byte that an instruction may touch by way of the stack pointer.

    An address is the stack pointer and a number; or it has an index or comes from a register, and then it lies in an object of the
    frame, which a function without calls may have below the stack pointer, but not beyond the red zone.
    """
    if moves_stack(step):
        raise Unreadable(f"{step.name} {step.operands} at {step.place:x}")
    plain = re.search(r"\[rsp(?:\+0x[0-9a-f]+|-(0x[0-9a-f]+))?\]", step.operands)
    if plain:
        return depth + int(plain[1] or "0", 16)
    return depth + RED_ZONE if leaf and re.search(r"\br?e?sp\b", step.operands) and not re.match(r"rsp,0x", step.operands) else depth


def jump_of(step):
    """Where a jump within the function goes; none for what isn't one."""
    if not step.name.startswith("j") or step.target:
        return None
    place = re.match(r"([0-9a-f]+) <", step.operands)
    if not place:
        raise Unreadable(f"{step.name} {step.operands} at {step.place:x}")
    return int(place[1], 16)


def next_steps(steps, places, i, depth):
    """The instructions that may follow, each with its depth."""
    step = steps[i]
    if step.name == "ret" and depth != 0:
        raise Unreadable(f"it returns from depth {depth} at {step.place:x}")
    if step.name in ("ret", "ud2") or step.name == "jmp" and step.target:
        return []
    after, jump = depth_after(step, depth), jump_of(step)
    ahead = [] if jump is None else [(places[jump], after)]
    return ahead if step.name == "jmp" else [*ahead, (i + 1, after)]


def depths_of(steps):
    """By instruction, the depth before it; each has one, whatever path leads there."""
    places = {step.place: i for i, step in enumerate(steps)}
    seen, ahead = {}, [(0, 0)]
    while ahead:
        i, depth = ahead.pop()
        if seen.setdefault(i, depth) != depth:
            raise Unreadable(f"two depths at {steps[i].place:x}")
        ahead += [step for step in next_steps(steps, places, i, depth) if step not in seen.items()]
    return seen


def need_of(name, functions, above=()):
    """The need of a function; `above` are those whose calls led here."""
    if name in FOREIGN:
        return FOREIGN[name]
    if name in above or name not in functions:
        raise Unreadable(f"{name} " + ("calls itself" if name in above else "isn't in the archive"))
    deepest, leaf = 0, not any(step.target for step in functions[name])
    for i, depth in depths_of(functions[name]).items():
        step = functions[name][i]
        deepest = max(deepest, depth_after(step, depth), touched(step, depth, leaf))
        if step.name == "call" and not step.target:
            raise Unreadable(f"a call through a register at {step.place:x}")
        if step.target:
            # a jump to another function takes the place of the return address
            under = depth if step.name == "call" else depth - RETURN_ADDRESS
            deepest = max(deepest, under + need_of(step.target, functions, (*above, name)))
    return RETURN_ADDRESS + deepest


def whole_words(need):
    return -(-need // 8) * 8


def needs(disassembly):
    functions = functions_of(disassembly)
    return {name: whole_words(need_of(name, functions)) for name in functions if name.startswith("nb_")}


def said_in(header):
    return {f"nb_{name.lower()}": int(number) for name, number in re.findall(r"#define NB_(\w+)_STACK (\d+)u\b", header)}


def differences(found, said):
    return [f"{name} needs {found.get(name)} bytes of stack; the header says {said.get(name)}"
            for name in sorted({*found, *said}) if found.get(name) != said.get(name)]


def excesses(used, said):
    """What calls took more than is said; and where the deepest took far less, since then nothing was measured."""
    lines = [f"a call of {name} took {taken} bytes of stack; the header says {said.get(name)}"
             for name, taken in used.items() if taken > said.get(name, 0)]
    deepest = max(said, key=said.get)
    if used.get(deepest, 0) <= said[deepest] - RED_ZONE:
        lines.append(f"the deepest call, {deepest}, took {used.get(deepest)} bytes; the header says {said[deepest]}")
    return lines


def printed_by(*command):
    return subprocess.run(command, stdout=subprocess.PIPE, check=True, text=True).stdout


def main():
    archive, stack_used = sys.argv[1:]
    found = needs(printed_by("objdump", "-dr", "-M", "intel", "--no-show-raw-insn", archive))
    used = {name: int(taken) for name, taken in map(str.split, printed_by(stack_used).splitlines())}
    said = said_in(HEADER.read_text())
    lines = differences(found, said) + excesses(used, said)
    for line in lines:
        print(line)
    if not lines:
        print(f"{len(found)} functions need the stack that the header says, and calls of {len(used)} took no more: "
              + ", ".join(f"{name} {need}" for name, need in found.items()))
    return 1 if lines else 0


if __name__ == "__main__":
    sys.exit(main())
