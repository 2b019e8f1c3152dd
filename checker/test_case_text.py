"""Case text, printed frame and the whole case, with the buffers at exit."""

import subprocess
import sys
import unittest
from pathlib import Path

import case as case_program
import ground_risk as g

HERE = Path(__file__).parent
U32 = 2 ** 32 - 1

# P16, with document 02 item 1's "01 at P16" after the flag, and P2's area as item 6 has it: column 2, so its row 5, class 6
FIELDS = g.Fields(dimension=1_000, mass=10_000, speed=2_500, cell_area=10_000, controlled=0, word=0x1000)
LENT = g.Lent(counts=[8] + [0] * (g.PLACES - 1), marks=[1 << 63] + [0] * (g.ROWS - 1))
TEXT = g.text_of_fields(FIELDS, LENT)
FRAME = b"000001bf3e0001bf3f020001050000000000080605\n"

# What the lent buffers hold before.
OLD = g.Lent(*([7_000_000 - n for n in range(length)] for length in g.LENT_LENGTHS))
OLD_FRAME = bytes(range(100, 150))
# And buffers of a wrong length, one at a time.
WRONG_LENGTHS = [OLD._replace(**{name: wrong}) for name, old in OLD._asdict().items()
                 for wrong in ([], old[:-1], old + [0])]

# The first and the last digit of each part's first and last line, and the line ends after them.
LINES = [(part.name, line) for part in g.BLOCKS for line in (0, part.lines - 1)]
DIGIT_PLACES = {g.text_place(name, line, digit) for name, line in LINES for digit in (0, g.line_digits(name) - 1)}
LINE_END_PLACES = {g.text_place(name, line, g.line_digits(name)) for name, line in LINES}


def changed(place, byte):
    return TEXT[:place] + bytes([byte]) + TEXT[place + 1:]


def text_with(lent=LENT, **fields):
    return g.text_of_fields(FIELDS._replace(**fields), lent)


class ReadingTest(unittest.TestCase):
    def test_text(self):
        self.assertEqual(len(TEXT), 33_959)
        lines = TEXT.split(b"\n")
        self.assertEqual(lines[0], b"000003e800002710000009c400002710001000")
        self.assertEqual(lines[1], b"8000000000000000")
        self.assertEqual(lines[65], b"00000008" + b"0" * 504)
        self.assertEqual([len(line) for line in lines], [38] + [16] * 64 + [512] * 64 + [0])
        self.assertTrue(g.is_text(TEXT))

    def test_lengths_and_places(self):
        # the papers' numbers, and the sums of the lists
        self.assertEqual((g.PLACES, g.ROWS * g.COLUMNS), (4_096, 4_096))
        self.assertEqual([g.line_digits(part.name) for part in g.BLOCKS], [38, 16, 512])
        self.assertEqual(sum((sum(part.widths) + 1) * part.lines for part in g.BLOCKS), g.TEXT_LENGTH)
        self.assertEqual([len(part.widths) * part.lines for part in g.BLOCKS if part.fills],
                         [getattr(g.LENT_LENGTHS, part.fills) for part in g.BLOCKS if part.fills])
        self.assertEqual({part.fills for part in g.BLOCKS} - {""}, set(g.Lent._fields))
        self.assertEqual((g.FRAME_LENGTH, g.REFUSAL_DIGITS + sum(width for _, width in g.FRAME) + 1), (43, 43))
        self.assertEqual(g.REFUSAL_DIGITS + 1, g.REFUSAL_LENGTH)
        self.assertEqual(g.zeros(), ([0] * 4_096, [0] * 64))
        self.assertEqual(DIGIT_PLACES, {0, 37, 39, 54, 1_110, 1_125, 1_127, 1_638, 33_446, 33_957})
        self.assertEqual(LINE_END_PLACES, {38, 55, 1_126, 1_639, 33_958})

    def test_reads_back(self):
        lent = g.Lent(counts=[(place * 0x9e3779b9) % 2 ** 32 for place in range(g.PLACES)],
                      marks=[(row * 0x9e3779b97f4a7c15) % 2 ** 64 for row in range(g.ROWS)])
        largest = g.Fields(*(16 ** width - 1 for _, width in g.LINE_1))
        self.assertEqual(largest, (U32, U32, U32, U32, 255, 0xffff))
        for fields in (FIELDS, g.NO_FIELDS, largest,
                       g.Fields(0x12345678, 0x9abcdef0, 0xfedcba98, 0x76543210, 0xa5, 0xb6c7)):
            self.assertEqual(g.read_case(g.text_of_fields(fields, lent), OLD), (0, fields, lent))

    def refused(self, number, text, lent=OLD):
        self.assertEqual(g.read_case(text, lent), (number, (0, 0, 0, 0, 0, 0), lent))

    def test_length(self):
        for text in (b"", TEXT[:-1], TEXT + b"\n", TEXT + b"0", TEXT[1:], TEXT * 2, b"\n"):
            self.refused(13, text)

    def test_buffers(self):
        for lent in WRONG_LENGTHS:
            self.refused(5, TEXT, lent)

    def test_order(self):
        self.refused(13, TEXT[:-1], g.Lent(*([] for _ in g.LENT)))
        self.refused(13, changed(0, 0)[:-1])
        for lent in WRONG_LENGTHS:
            self.refused(5, changed(0, 0), lent)

    def test_wrong_bytes(self):
        for place in DIGIT_PLACES:
            for byte in range(256):
                self.assertEqual(g.is_text(changed(place, byte)), byte in b"0123456789abcdef")
            for byte in b"\x00/:@AF`g\xff\n\r G":
                self.refused(14, changed(place, byte))
        for place in LINE_END_PLACES:
            for byte in range(256):
                self.assertEqual(g.is_text(changed(place, byte)), byte == 10)
            for byte in b"09af\r\x00\xff\x0b ":
                self.refused(14, changed(place, byte))

    def test_places(self):
        # The first 2,000 and the last 600, and every 23rd place between them.
        for place in (*range(2_000), *range(2_000, g.TEXT_LENGTH - 600, 23), *range(g.TEXT_LENGTH - 600, g.TEXT_LENGTH)):
            self.assertFalse(g.is_text(changed(place, ord("g"))))


class WritingTest(unittest.TestCase):
    frame = g.Frame(low=114_494, high=114_495, column=2, flag=0, size_column=1, row_used=5, place=0,
                    people=8, intrinsic=6, final_class=5)

    def test_frame(self):
        self.assertEqual(g.write_frame(self.frame, bytes(g.FRAME_LENGTH)), (0, FRAME))
        self.assertEqual(g.write_frame(self.frame, OLD_FRAME), (0, FRAME + OLD_FRAME[g.FRAME_LENGTH:]))

    def test_fields(self):
        frame = g.Frame(low=0x12345678, high=0x9abcdef0, column=5, flag=1, size_column=4, row_used=7,
                        place=0xfff, people=4_096_000_000, intrinsic=10, final_class=-1)
        self.assertEqual(g.frame_text(frame),
                         b"00123456789abcdef0050104070ffff42400000aff\n")
        self.assertEqual(g.frame_text(frame._replace(final_class=0))[-3:], b"00\n")
        for size_column in range(256):
            self.assertEqual(g.frame_text(frame._replace(size_column=size_column)),
                             b"00123456789abcdef00501%02x070ffff42400000aff\n" % size_column)

    def test_last_digits_of_numbers_too_long(self):
        # document 01 doesn't say it, and no accepted case has one
        frame = g.Frame(low=0x123456789, high=0xfedcba9876543210, column=255, flag=255, size_column=255, row_used=255,
                        place=0x12345, people=0x100000000, intrinsic=255, final_class=127)
        self.assertEqual(g.frame_text(frame), b"002345678976543210ffffffff234500000000ff7f\n")

    def test_refusals(self):
        for number in g.REFUSALS:
            self.assertEqual(g.write_frame(number, OLD_FRAME),
                             (0, b"%02x\n" % number + OLD_FRAME[g.REFUSAL_LENGTH:]))
        self.assertEqual(g.frame_text(10), b"0a\n")

    def test_short_buffer(self):
        for length in range(43):
            for outcome in (self.frame, 1, 14):
                self.assertEqual(g.write_frame(outcome, OLD_FRAME[:length]),
                                 (15, OLD_FRAME[:length]))
        for outcome, written in ((self.frame, FRAME), (1, b"01\n"), (14, b"0e\n")):
            self.assertEqual(g.write_frame(outcome, OLD_FRAME[:43]), (0, written + OLD_FRAME[len(written):43]))


class CaseTest(unittest.TestCase):
    def answers(self, number, text, lent, left):
        """Refused with this number, which is printed, with these lent buffers at exit."""
        printed = b"%02x\n" % number + OLD_FRAME[g.REFUSAL_LENGTH:]
        self.assertEqual(g.case(text, lent, OLD_FRAME), (number, left, printed))

    def test_p16(self):
        self.assertEqual(g.case(TEXT, OLD, OLD_FRAME), (0, LENT, FRAME + OLD_FRAME[g.FRAME_LENGTH:]))

    def test_short_frame_buffer(self):
        for text in (TEXT, b"", changed(5, 0)):
            for length in (0, g.REFUSAL_LENGTH, 42):
                for lent in (OLD, *WRONG_LENGTHS):
                    self.assertEqual(g.case(text, lent, OLD_FRAME[:length]), (15, lent, OLD_FRAME[:length]))
        self.assertEqual(g.case(TEXT, OLD, OLD_FRAME[:43]), (0, LENT, FRAME))

    def test_reading_refusals(self):
        for number, text in ((13, b""), (13, TEXT + b"\n"), (14, changed(g.TEXT_LENGTH - 1, 13))):
            self.answers(number, text, OLD, OLD)
        for lent in WRONG_LENGTHS:
            self.answers(13, TEXT + b"\n", lent, lent)
            self.answers(5, TEXT, lent, lent)

    def test_later_refusals_fill_the_buffers(self):
        crowd = LENT._replace(counts=[1_000_000] * g.PLACES)
        overfull = LENT._replace(counts=[U32] * g.PLACES)
        unmarked = LENT._replace(marks=[0] * g.ROWS)
        large = dict(dimension=100_000, mass=25_000_000, speed=40_000)
        for number, lent, fields in (
                (1, LENT, dict(dimension=49)), (2, LENT, dict(mass=49)), (3, LENT, dict(speed=40_001)),
                (4, LENT, large), (6, LENT, dict(cell_area=99)), (7, overfull, {}), (8, unmarked, {}),
                (9, LENT, dict(controlled=2)), (10, crowd, dict(dimension=8_001)),
                (11, LENT, dict(word=0x3000)), (12, crowd, dict(dimension=3_000, word=0))):
            with self.subTest(number):
                self.answers(number, text_with(lent, **fields), OLD, lent)

    def test_order(self):
        # Everything is wrong at first, then one thing after another is put right.
        fields = g.Fields(dimension=100_001, mass=0, speed=U32, cell_area=0, controlled=9, word=0xffff)
        lent = g.Lent(counts=[U32] * g.PLACES, marks=[0] * g.ROWS)
        answers = [g.case(g.text_of_fields(fields, lent), OLD, OLD_FRAME).refusal]
        for name, value in (("dimension", 100_000), ("mass", 25_000_000), ("speed", 40_000),
                            ("speed", 0), ("cell_area", 100), ("counts", [1_000_000] * g.PLACES),
                            ("marks", LENT.marks), ("controlled", 0), ("dimension", 3_000),
                            ("word", 0), ("word", 2)):
            if name in g.Lent._fields:
                lent = lent._replace(**{name: value})
            else:
                fields = fields._replace(**{name: value})
            answers.append(g.case(g.text_of_fields(fields, lent), OLD, OLD_FRAME).refusal)
        self.assertEqual(answers, [1, 2, 3, 4, 6, 7, 8, 9, 10, 11, 12, 0])

    def test_row_used(self):
        # On controlled ground the frame shows row 1.
        self.assertEqual(g.case(text_with(controlled=1, word=0x0003), OLD, bytes(g.FRAME_LENGTH)).frame,
                         b"000001bf3e0001bf3f0200010100000000000801ff\n")

    def test_size_column(self):
        # Both columns stand in the frame, and the classes are of the first: 7,999 mm, else as P5, over P16's cell, where
        # size column 3 would give class 7 in place of 6 (480,901 is 00075685).
        self.assertEqual(g.case(text_with(dimension=7_999, mass=50_000, speed=0), OLD, bytes(g.FRAME_LENGTH)).frame,
                         b"000007568500075686020003050000000000080605\n")
        # one centimetre a second more than the last pair has (51,140 is 0000c7c4)
        self.assertEqual(g.case(text_with(dimension=999, speed=20_001), OLD, bytes(g.FRAME_LENGTH)).frame,
                         b"000000c7c40000c7c5010000050000000000080504\n")

    def test_every_refusal_is_printed_or_15(self):
        self.assertEqual([g.printed_length(number) for number in (0, 15)], [g.FRAME_LENGTH, 0])
        self.assertEqual({g.printed_length(number) for number in set(g.CASE_REFUSALS) - {15}}, {g.REFUSAL_LENGTH})
        self.assertEqual(len(set(g.CASE_REFUSALS)), len(g.CASE_REFUSALS))
        self.assertLessEqual(set(g.CASE_REFUSALS), set(g.REFUSALS))

    def test_program(self):
        for text, printed in ((TEXT, FRAME), (b"", b"0d\n"), (text_with(mass=0), b"02\n")):
            self.assertEqual(case_program.frame_of(text), printed)
            run = subprocess.run([sys.executable, str(HERE / "case.py")], input=text,
                                 capture_output=True, check=True)
            self.assertEqual(run.stdout, printed)


if __name__ == "__main__":
    unittest.main()
