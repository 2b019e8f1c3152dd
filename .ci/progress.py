"""Passes on what `rt ci` says, a line for each crate proved, wrong program refused and program run, counted out of all.

usage: rt ci | progress.py          from the repository's root

What the prover says of each function and library, and its notes, are left out; all else, a fault above all, is passed on as it
stands.
"""

import re
import sys
import time
from pathlib import Path

# rt's line for a step that is done, what it is, and what of the line is shown.
STEPS = (
    ("wrong program", re.compile(r"rt: must-fail (\S+: .*)")),
    ("program", re.compile(r"rt: (\S+ ran(?: |,).*)")),
    ("crate", re.compile(r"rt: (\S+ (?:proved|is kept|NOT PROVED).*)")),
)
LEFT_OUT = re.compile(r"(fn|struct|impl) \S.*: proved$|== \S+$|empty contracts: 0 found|logic /|(library|crate|statements) \S+: modules |logic=proved "
                      r"|linked |rt: \S+: trying its must-fail edits|rt: chose |(\S.*: )?note: ")


def totals(root):
    """How many steps of each kind there are. A program is run twice, as two compilers build it."""
    listed = [line.split()[0].rstrip(":") for line in (root / "crates.txt").read_text().splitlines() if line.strip() and line[0] != "#"]
    crates = [name for name in listed if (root / "crates" / name).is_dir()]
    return {"crate": len(crates),
            "program": 2 * sum((root / "crates" / name / "src/main.rt").is_file() for name in crates),
            "wrong program": sum(1 for name in crates for _ in (root / "crates" / name / "must-fail").glob("*.edit"))}


def shown(lines, total, clock=time.monotonic):
    """What is printed for rt's lines."""
    began, number = clock(), dict.fromkeys(total, 0)
    for line in lines:
        step = next(((kind, match[1]) for kind, pattern in STEPS if (match := pattern.match(line))), None)
        if step:
            kind, words = step
            number[kind] += 1
            minutes, seconds = divmod(int(clock() - began), 60)
            yield f"{minutes:2}:{seconds:02}  {kind} {number[kind]} of {total[kind]}: {words}\n"
        elif not LEFT_OUT.match(line):
            yield line


def main():
    for line in shown(iter(sys.stdin.readline, ""), totals(Path.cwd())):
        print(line, end="", flush=True)


if __name__ == "__main__":
    main()
