#!/usr/bin/env python3
"""Runs polkatool with streams that fail or are closed, and on files of the system that fail or never end.

    streams.py [PROGRAM]

PROGRAM is crates/polkatool/out/polkatool of this repository if left out. It runs on Linux alone. Each command has to end
with the status that README.md states: 3 if it writes to a stream that fails, else that of the command. If a file of the
system can't be read or written that is 3 too, and one that has too many bytes is refused. An output that is also an input
holds the container afterwards. The status is 0 if all ended so, else 1.
"""
import os
import subprocess
import sys
import tempfile

sys.dont_write_bytecode = True
from answers import DONE, FILE_FAULT, REFUSED
from common import BAD_COMMAND_LINE, ROOT, parser, program_in

SECONDS = 20  # for one run
OUT, ERR = 1, 2
LINK = ["link", "-o", "out", "five.o"]
# a command, the stream to which it writes, and its status
COMMANDS = [
    (LINK, OUT, DONE),
    (["exec", "five.o"], OUT, DONE),
    (["run", "five.pvm"], OUT, DONE),
    (["check", "five.pvm"], OUT, DONE),
    (["disassemble", "five.pvm"], OUT, DONE),
    (["gen", "7", "100"], OUT, DONE),
    (["check", "five.o"], ERR, REFUSED),
    (["check", "absent"], ERR, FILE_FAULT),
    (["link"], ERR, BAD_COMMAND_LINE),
]
TOO_LARGE = "refused 61 FileTooLarge object=%d section=0 offset=0\n"
# commands on files of the system, their status, and what they write to standard error, where that isn't the status' own
FILES = [
    (["link", "-o", "out", "/dev/null"], REFUSED, "refused 1 NotElf object=0 section=0 offset=0\n"),
    (["check", "/dev/null"], REFUSED, "refused 40 Truncated object=0 section=0 offset=0\n"),
    (["link", "-o", "out", "/dev/zero"], REFUSED, TOO_LARGE % 0),
    (["link", "-o", "out", "five.o", "sparse"], REFUSED, TOO_LARGE % 1),
    (["check", "/dev/zero"], REFUSED, TOO_LARGE % 0),
    (["disassemble", "sparse"], REFUSED, TOO_LARGE % 0),
    (["run", "/dev/zero"], REFUSED, TOO_LARGE % 0),
    (["run", "--replies", "/dev/zero", "five.pvm"], REFUSED, TOO_LARGE % 1),
    (["exec", "--replies", "/dev/zero", "five.o"], REFUSED, TOO_LARGE % 1),
    (["run", "--replies", "/dev/null", "five.pvm"], DONE, ""),
    (["link", "-o", "out", "folder"], FILE_FAULT, None),
    (["check", "folder"], FILE_FAULT, None),
    (["run", "--replies", "folder", "five.pvm"], FILE_FAULT, None),
    (["link", "-o", "folder", "five.o"], FILE_FAULT, None),
    (["link", "-o", "/dev/full", "five.o"], FILE_FAULT, None),
    (["link", "-o", "folder/absent/out", "five.o"], FILE_FAULT, None),
    (["link", "-o", "out", "five.o/out"], FILE_FAULT, None),
    (["link", "-o", "out", "/proc/self/mem"], FILE_FAULT, None),
    (["link", "-o", "/dev/null", "five.o"], DONE, ""),
]


def closing(streams):
    """What closes streams of a process before it becomes the program."""

    def close():
        for stream in streams:
            os.close(stream)

    return close


def ways():
    """How streams fail: what it is, which they are, and the words for the process."""
    reader, broken = os.pipe()
    os.close(reader)
    full = os.open("/dev/full", os.O_WRONLY)
    for what, descriptor in ("full", full), ("a pipe without a reader", broken):
        yield "standard output %s" % what, {OUT}, {"stdout": descriptor}
        yield "standard error %s" % what, {ERR}, {"stderr": descriptor}
    for streams in (0,), (OUT,), (ERR,), (0, OUT), (0, ERR), (OUT, ERR), (0, OUT, ERR):
        yield "streams %s closed" % (streams,), set(streams), {"preexec_fn": closing(streams)}


def status_of(program, words, folder, **options):
    """The status of a run, and what it wrote to standard error; the status is None without an answer in time."""
    options = {"stdin": subprocess.DEVNULL, "stdout": subprocess.DEVNULL, "stderr": subprocess.PIPE, **options}
    try:
        done = subprocess.run([program, *words], cwd=folder, timeout=SECONDS, **options)
    except subprocess.TimeoutExpired:
        return None, b""
    return done.returncode, done.stderr or b""


def content(folder, name):
    with open(os.path.join(folder, name), "rb") as file:
        return file.read()


def fill(program, folder):
    """Makes the files, and gives the container."""
    object_ = content(ROOT, "examples/five/five.o")
    for name in "five.o", "same.o":
        with open(os.path.join(folder, name), "wb") as file:
            file.write(object_)
    os.mkdir(os.path.join(folder, "folder"))
    with open(os.path.join(folder, "sparse"), "wb") as file:
        file.truncate(1 << 40)
    if status_of(program, ["link", "-o", "five.pvm", "five.o"], folder)[0] != DONE:
        sys.exit("the example isn't linked")
    return content(folder, "five.pvm")


def main():
    program = program_in(parser(1).parse_args())
    runs, wrong = 0, []

    def see(what, words, got, wanted):
        nonlocal runs
        runs += 1
        if got != wanted:
            wrong.append("wrong: %s, %s: %r, and not %r" % (what, " ".join(words), got, wanted))

    with tempfile.TemporaryDirectory() as folder:
        container = fill(program, folder)
        for what, failing, options in ways():
            for words, stream, status in COMMANDS:
                wanted = FILE_FAULT if stream in failing else status
                see(what, words, status_of(program, words, folder, **options)[0], wanted)
            see(what, LINK, content(folder, "out"), container)
            os.remove(os.path.join(folder, "out"))
        for words, status, line in FILES:
            line = b"polkatool: file fault\n" if line is None else line.encode()
            see("files of the system", words, status_of(program, words, folder), (status, line))
            see("files of the system", words, os.path.exists(os.path.join(folder, "out")), False)
        words = ["link", "-o", "same.o", "same.o"]
        see("an output that is an input", words, status_of(program, words, folder)[0], DONE)
        see("an output that is an input", words, content(folder, "same.o"), container)
    print("".join(text + "\n" for text in wrong) + "%d answers, %d wrong" % (runs, len(wrong)))
    return 0 if not wrong else 1


if __name__ == "__main__":
    sys.exit(main())
