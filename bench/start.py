#!/usr/bin/env python3
"""Time and memory of a start, by `polkatool run` of containers whose program returns at once.

    start.py [PROGRAM] [--rounds 5]

PROGRAM is crates/polkatool/out/polkatool of this repository if left out. The larger container has 2^24 - 1 bytes of
read-only data, of writable data and of stack each, the smaller an eighth of each; both have an argument of 2^15 bytes.
The runs take turns, and the least time of the rounds counts. The bars: a byte of the larger one takes at most twice
the time of a byte of the smaller one, where going over the bytes for each page would take eight times, and a run holds
at most three bytes for each byte of file and stack.

Times of one run mean something beside each other, as machines differ. The status is 0 where nothing is over its bar,
else 1.
"""
import os
import sys
import tempfile

sys.dont_write_bytecode = True
from common import BAD_COMMAND_LINE, asked, judged, peak, seconds

LARGE = 2**24 - 1
SMALL = LARGE // 8
RETURN = bytes.fromhex("000002320001")  # no table, two bytes of code, jump_ind r0 0, and its mask
ARGUMENT = "5a" * 2**15
TIME_BAR = 2  # time of a byte of the larger start over that of the smaller one
MEMORY_BAR = 3  # bytes of memory for each byte of file and stack


def container_of(size):
    """A container of a program that returns, with so many bytes of each part."""
    three = size.to_bytes(3, "little")
    return three + three + bytes(2) + three + b"\x5a" * size + b"\xa5" * size + len(RETURN).to_bytes(4, "little") + RETURN


def main():
    program, rounds = asked(5)
    with tempfile.TemporaryDirectory() as folder:
        words = {}
        for size in (SMALL, LARGE):
            path = os.path.join(folder, str(size))
            with open(path, "wb") as file:
                file.write(container_of(size))
            words[size] = [program, "run", "--arg", ARGUMENT, path]
        least = {}
        for _ in range(rounds):
            for size in (SMALL, LARGE):
                took, done = seconds(words[size])
                if done.returncode != 0 or not done.stdout.startswith(b"halt output=5a5a"):
                    sys.exit("a run of %d bytes ended with status %d" % (size, done.returncode))
                least[size] = min(took, least.get(size, took))
        idle = peak([program], BAD_COMMAND_LINE)
        held = peak(words[LARGE], 0) - idle
    empty = seconds([program])[0]
    byte = {size: (least[size] - empty) / size for size in least}
    print("a start of 3 x %d bytes: %.3f s, of 3 x %d bytes: %.3f s" % (LARGE, least[LARGE], SMALL, least[SMALL]))
    within = [
        judged("time of a byte, larger over smaller", byte[LARGE] / byte[SMALL], TIME_BAR),
        judged("bytes of memory a byte", held / (3 * LARGE), MEMORY_BAR),
    ]
    return 0 if all(within) else 1


if __name__ == "__main__":
    sys.exit(main())
