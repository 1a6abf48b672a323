#!/usr/bin/env python3
"""Runs polkatool with each of its allocations refused in turn, and tells each end that isn't as it is stated.

    refused.py [PROGRAM] [--corpus FOLDER] [--most 20] [--seed 0] [--seconds 20]

PROGRAM is crates/polkatool/out/polkatool of this repository if left out. It runs on Linux alone, for a program that takes
its memory from the C library by dynamic linking, and needs a C compiler, `cc`, for refusing_malloc.c.

Each command on the examples, and some that are refused or end early, is run once for each of its allocations with this one
refused, and once with this one and all later ones. Each run has to end with status 9 and its line. No file may have
changed, and standard output has to be empty, or for `run` and `exec` lines of calls with which the output of the whole run
begins. Without a command, the status may also be that of a bad command line.

With --corpus the objects below FOLDER are linked, each alone, and so many of the allocations of each link are refused, by
chance from the seed.

The last line counts the runs. The status is 0 if all ended as stated, else 1.
"""
import os
import random
import shutil
import subprocess
import sys
import tempfile

sys.dont_write_bytecode = True
from answers import DONE, NO_MEMORY, fault_of, files_in, refusals, run_in
from common import BAD_COMMAND_LINE, ROOT, parser, program_in

ALL = 2**63  # a number that no allocation has
ECHO = [b"--arg", b"0102"]
KEY = [b"--arg", b"6b6579", b"--replies", b"found.replies"]
LOOKUP = [b"-i", b"fetch=100", b"-i", b"store=101"]
SANDBOX = [b"-i", b"machine=8", b"-i", b"invoke=12", b"-i", b"expunge=13"]
HEAP = [b"-i", b"more_heap=sbrk"]
OBJECTS = {  # the words of the link of each example, and those of a run
    "digest": ([b"digest.o"], ECHO),
    "five": ([b"five.o"], ECHO),
    "letters": ([b"letters.o"], ECHO),
    "lookup": ([*LOOKUP, b"lookup.o"], KEY),
    "primes": ([*HEAP, b"primes.o"], [b"--arg", b"1e00"]),
    "reverse": ([b"reverse.o"], ECHO),
    "sandbox": ([*SANDBOX, b"sandbox.o"], [b"--arg", b"1b"]),
    "weights": ([b"main.o", b"weighted.o"], ECHO),
}
OTHERS = [
    [],
    [b"link", b"-o"],
    [b"link", b"-o", b"out", b"letters.s"],
    [b"link", b"-o", b"out", b"-e", b"absent", b"digest.o"],
    [b"run", b"--replies", b"letters.s", b"five.pvm"],
    [b"run", b"--gas", b"1", b"five.pvm"],
    [b"run", b"--entry", b"9", b"five.pvm"],
    [b"check", b"letters.s"],
    [b"gen", b"7", b"300"],
]


def library(folder):
    """The path of the library, which is compiled."""
    compiler = shutil.which("cc") or sys.exit("there is no C compiler, cc")
    path = os.path.join(folder, "refusing_malloc.so")
    source = os.path.join(os.path.dirname(os.path.abspath(__file__)), "refusing_malloc.c")
    subprocess.run([compiler, "-O1", "-shared", "-fPIC", "-o", path, source], check=True)
    return path


class Refuser:
    """Runs commands with allocations refused."""

    def __init__(self, program, options, folder, preloaded):
        self.program, self.most, self.folder = program, options.seconds, folder
        self.environment = {**os.environ, "LD_PRELOAD": preloaded}
        self.known, self.files, self.runs, self.wrong = refusals(), files_in(folder), 0, 0

    def end(self, words, first, last):
        """The end of a run with the allocations of these numbers refused, and whether there were any. Files that it made are
        removed after it."""
        reader, writer = os.pipe()
        numbers = {"REFUSED_FROM": str(first), "REFUSED_TO": str(last), "REFUSED_TOLD": str(writer)}
        options = {"env": {**self.environment, **numbers}, "pass_fds": (writer,)}
        found = run_in(self.program, words, self.folder, self.most, **options)
        os.close(writer)
        for name in found.files.keys() - self.files.keys():
            os.remove(os.path.join(os.fsencode(self.folder), name))
        with os.fdopen(reader, "rb") as file:
            return found, file.read() != b""

    def whole(self, words):
        """The end of a run with nothing refused."""
        end, _ = self.end(words, 0, 0)
        text = fault_of(words, end, self.files, self.known)
        if text:
            sys.exit("%r with nothing refused: %s" % (words, text))
        return end

    def refuse(self, words, whole, first, last):
        """Refuses allocations; whether there were any."""
        end, refused = self.end(words, first, last)
        self.runs += refused
        if refused:
            text = fault_of(words, end, self.files, self.known)
            if end.status != NO_MEMORY and not (end.status == whole.status == BAD_COMMAND_LINE):
                text = text or "status %s" % end.status
            if not whole.out.startswith(end.out):
                text = text or "another output: %r" % end.out[:300]
            if text:
                self.wrong += 1
                print("wrong: %r with allocation %d to %d refused: %s" % (words, first, last, text[:2000]), flush=True)
        return refused

    def refuse_each(self, words):
        """Refuses each allocation of a command, and gives how many there are."""
        whole, number = self.whole(words), 1
        while self.refuse(words, whole, number, number) and self.refuse(words, whole, number, ALL):
            number += 1
        return number - 1

    def count(self, words, whole):
        """How many allocations a command has."""
        low, high = 0, 1
        while self.end(words, high, high)[1]:
            low, high = high, 2 * high
        while high - low > 1:
            middle = (low + high) // 2
            low, high = (middle, high) if self.end(words, middle, middle)[1] else (low, middle)
        return low


def commands():
    """All commands on the examples."""
    for name, (objects, run) in OBJECTS.items():
        container = name.encode() + b".pvm"
        yield [b"link", b"-o", b"out", *objects]
        yield [b"exec", *run, *objects]
        yield [b"run", *run, container]
        yield [b"check", container]
        yield [b"disassemble", container]
    yield from OTHERS


def fill(program, folder, seconds):
    """Copies the examples into the folder, and links each."""
    for place, _, names in os.walk(os.path.join(ROOT, "examples")):
        for name in names:
            if name.endswith((".o", ".replies", ".s")):
                shutil.copy(os.path.join(place, name), folder)
    for name, (objects, _) in OBJECTS.items():
        words = [b"link", b"-o", name.encode() + b".pvm", *objects]
        end = run_in(program, words, folder, seconds)
        if end.status != DONE:
            sys.exit("%r ended with status %s: %r" % (words, end.status, end.err))


def refuse_in_corpus(refuser, corpus, most, seed):
    """Refuses some allocations of the link of each object below a folder."""
    links = 0
    for place, folders, names in os.walk(corpus):
        folders.sort()
        for name in sorted(names):
            if name.endswith(".o"):
                words = [b"link", b"-o", b"out", os.fsencode(os.path.abspath(os.path.join(place, name)))]
                whole = refuser.whole(words)
                count = refuser.count(words, whole)
                chance = random.Random("%d %s" % (seed, os.path.relpath(os.path.join(place, name), corpus)))
                for number in sorted(chance.sample(range(1, count + 1), min(most, count))):
                    refuser.refuse(words, whole, number, chance.choice((number, ALL)))
                links += 1
    print("%d objects of the corpus" % links)


def main():
    words = parser(1)
    words.add_argument("--corpus")
    words.add_argument("--most", type=int, default=20)
    words.add_argument("--seed", type=int, default=0)
    words.add_argument("--seconds", type=float, default=20)
    options = words.parse_args()
    program = program_in(options)
    with tempfile.TemporaryDirectory() as made, tempfile.TemporaryDirectory() as folder:
        fill(program, folder, options.seconds)
        refuser = Refuser(program, options, folder, library(made))
        if options.corpus:
            refuse_in_corpus(refuser, options.corpus, options.most, options.seed)
        else:
            for words in commands():
                count = refuser.refuse_each(words)
                print("%5d allocations  %s" % (count, b" ".join(words)[:90].decode()), flush=True)
    print("%d runs with an allocation refused, %d wrong" % (refuser.runs, refuser.wrong))
    return 0 if refuser.runs and refuser.wrong == 0 else 1


if __name__ == "__main__":
    sys.exit(main())
