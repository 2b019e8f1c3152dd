"""Reads a case text from standard input and prints its frame."""

import sys

import ground_risk as g


def frame_of(text):
    """The bytes that the program `case` must print for this text."""
    answer = g.case(text, g.zeros(), bytes(g.FRAME_LENGTH))
    return answer.frame[:g.printed_length(answer.refusal)]


if __name__ == "__main__":
    sys.stdout.buffer.write(frame_of(sys.stdin.buffer.read()))
