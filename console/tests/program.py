"""The proved program and the installed one, on inputs that end early or late, fail, or stop for a while, and on outputs that can't be
written. What they print is held to the checker, and the installed one's status and words to its page of help.

usage: program.py PROVED INSTALLED INTERRUPTED        INTERRUPTED is interrupted.c as a shared library

No contract can say what a program reads and writes.
"""

import os
import re
import resource
import signal
import subprocess
import sys
import tempfile
import time
import unittest
from pathlib import Path

ROOT = Path(__file__).resolve().parents[2]
sys.path.insert(0, str(ROOT / "checker"))

import case                   # noqa: E402
import declarations           # noqa: E402
import example_cases          # noqa: E402
import ground_risk as g       # noqa: E402

PROVED, INSTALLED, INTERRUPTED = (Path(path).resolve() for path in sys.argv[1:4])
TEXT = example_cases.farmhouses()
ENDS = (0, 1, g.line_digits("line 1"), g.TEXT_LENGTH - 1, g.TEXT_LENGTH, g.TEXT_LENGTH + 1, 2 * g.TEXT_LENGTH)
INPUTS = [(TEXT + TEXT)[:end] for end in ENDS] + [path.read_bytes() for path in sorted((ROOT / "examples").glob("*.case"))]
GIVEN, REFUSED, FAILED = 0, 1, 2
VERSION = declarations.version_of(declarations.sources().header)


def run(program, *arguments, **settings):
    settings = {"input": TEXT, "stdout": subprocess.PIPE} | settings
    if "stdin" in settings:
        del settings["input"]
    return subprocess.run([program, *arguments], stderr=subprocess.PIPE, **settings)


def run_on_file(program, text):
    with tempfile.TemporaryFile() as file:
        file.write(text)
        file.seek(0)
        return run(program, stdin=file)


def run_with_pauses(program, text, between):
    """The text in two halves; between them, while the program waits for the second, it gets the signals."""
    child = subprocess.Popen([program], stdin=subprocess.PIPE, stdout=subprocess.PIPE, stderr=subprocess.PIPE)
    child.stdin.write(text[:len(text) // 2])
    child.stdin.flush()
    time.sleep(0.2)
    for one in between:
        child.send_signal(one)
        time.sleep(0.05)
    out, err = child.communicate(text[len(text) // 2:], timeout=20)
    return subprocess.CompletedProcess(program, child.returncode, out, err)


class ProgramTest(unittest.TestCase):
    def ends_with(self, done, status, printed, said):
        """With this status and these bytes printed, where they were kept; with one line on standard error that has these words, or none."""
        self.assertEqual((done.returncode, done.stdout), (status, printed))
        self.assertEqual(done.stderr.count(b"\n"), 1 if said else 0, done.stderr)
        self.assertRegex(done.stderr.decode(), re.escape(said) if said else "^$")

    def test_every_end_of_the_input_and_every_example(self):
        for text in INPUTS:
            wanted = case.frame_of(text)
            for way in (lambda program: run(program, input=text), lambda program: run_on_file(program, text)):
                self.ends_with(way(PROVED), GIVEN, wanted, "")
                self.ends_with(way(INSTALLED), GIVEN if wanted.startswith(b"00") else REFUSED, wanted, "")

    def test_a_signal_between_two_reads(self):
        for between in ([signal.SIGSTOP, signal.SIGCONT], [signal.SIGWINCH, signal.SIGURG, signal.SIGCHLD]):
            for program in (PROVED, INSTALLED):
                self.ends_with(run_with_pauses(program, TEXT, between), GIVEN, case.frame_of(TEXT), "")

    def test_a_directory_as_input(self):
        folder = os.open(ROOT, os.O_RDONLY)
        self.ends_with(run(PROVED, stdin=folder), GIVEN, case.frame_of(b""), "")
        self.ends_with(run(INSTALLED, stdin=folder), FAILED, case.frame_of(b""), "standard input can't be read to its end: Is a directory")
        os.close(folder)

    def test_a_closed_input(self):
        self.ends_with(run(INSTALLED, stdin=None, preexec_fn=lambda: os.close(0)), FAILED, case.frame_of(b""),
                       "standard input can't be read to its end: Bad file descriptor")

    def test_a_full_disk(self):
        with open("/dev/full", "wb") as full:
            self.ends_with(run(INSTALLED, stdout=full), FAILED, None, "standard output can't be written: No space left on device")
            self.ends_with(run(INSTALLED, "--help", stdout=full), FAILED, None, "No space left on device")
            self.ends_with(run(PROVED, stdout=full), GIVEN, None, "")

    def test_a_closed_pipe(self):
        for arguments in ([], ["--version"]):
            there, here = os.pipe()
            os.close(there)
            self.ends_with(run(INSTALLED, *arguments, stdout=here), FAILED, None, "standard output can't be written: Broken pipe")
            os.close(here)

    def test_a_closed_output(self):
        self.ends_with(run(INSTALLED, stdout=None, preexec_fn=lambda: os.close(1)), FAILED, None,
                       "standard output can't be written: Bad file descriptor")

    def test_a_file_that_may_not_grow(self):
        with tempfile.TemporaryFile() as file:
            self.ends_with(run(INSTALLED, stdout=file, preexec_fn=lambda: resource.setrlimit(resource.RLIMIT_FSIZE, (4, 4))), FAILED, None,
                           "standard output can't be written: File too large")
            file.seek(0)
            self.assertEqual(file.read(), case.frame_of(TEXT)[:4])

    def test_interrupted_and_short_reads_and_writes(self):
        def under(how):
            # from its own folder, since a preloaded library's path may have no space
            preloaded = {"LD_PRELOAD": f"./{INTERRUPTED.name}", "INPUT_OUTPUT": how}
            return run(INSTALLED, cwd=INTERRUPTED.parent, env=os.environ | preloaded)

        for how in ("short", "interrupted"):
            self.ends_with(under(how), GIVEN, case.frame_of(TEXT), "")
        self.ends_with(under("failing"), FAILED, case.frame_of(TEXT[:1000]), "standard input can't be read to its end: Input/output error")
        self.ends_with(under("full at the close"), FAILED, case.frame_of(TEXT), "standard output can't be written: No space left on device")

    def test_arguments(self):
        for arguments, named in ((["x"], "'x'"), ([""], "''"), (["--help", "-h"], "'-h'"), (["examples/farmhouses.case"], "'examples/")):
            self.ends_with(run(INSTALLED, *arguments), FAILED, b"", f"unknown argument {named}")
        shown = run(INSTALLED, "--help")
        self.assertEqual((shown.returncode, shown.stdout[:28]), (GIVEN, b"usage: nuggetbay-case < CASE"))
        for word in (b"--version", b"status: 0 a sheet was given; 1 the case was refused; 2 "):
            self.assertIn(word, shown.stdout)
        self.ends_with(run(INSTALLED, "--version"), GIVEN, f"nuggetbay-case {VERSION}\n".encode(), "")


class RunCaseTest(unittest.TestCase):
    """README's first command."""

    def run_case(self, *arguments, **settings):
        outside = {name: value for name, value in os.environ.items() if name not in ("MAKEFLAGS", "MFLAGS", "MAKELEVEL")}
        return subprocess.run(["bash", ROOT / "console/run-case", *arguments], cwd=ROOT / "examples", env=outside, stdout=subprocess.PIPE,
                              stderr=subprocess.PIPE, text=True, **settings)

    def test_the_last_lines_are_the_frame_and_what_it_says(self):
        for text in sorted((ROOT / "examples").glob("*.case")):
            frame, words = text.with_suffix(".frame").read_text(), (ROOT / "console/examples" / f"{text.stem}.words").read_text()
            ran = self.run_case(text.name)
            self.assertEqual((ran.returncode, ran.stdout[-len(frame + words):]), (GIVEN if frame.startswith("00") else REFUSED, frame + words))

    def test_what_cannot_be_read(self):
        for arguments in ((), ("farmhouses.case", "flagged.case"), ("no.case",), (".",)):
            ran = self.run_case(*arguments)
            self.assertEqual((ran.returncode, ran.stdout, ran.stderr.count("\n")), (FAILED, "", 1))

    def test_a_pipe(self):
        words = (ROOT / "console/examples/farmhouses.words").read_text()
        ran = self.run_case("/dev/stdin", input=TEXT.decode())
        self.assertEqual((ran.returncode, ran.stdout[-len(words):]), (GIVEN, words))


if __name__ == "__main__":
    unittest.main(argv=sys.argv[:1])
