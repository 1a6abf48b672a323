"""What the scripts of this folder share: their words, the time and memory of a run, and values against their bars."""
import argparse
import ctypes
import os
import subprocess
import sys
import time

ROOT = os.path.dirname(os.path.dirname(os.path.abspath(__file__)))
BAD_COMMAND_LINE = 2  # the status of a run without words
PR_SET_CHILD_SUBREAPER = 36


def parser(rounds):
    """The words that each script takes: the program that is to be measured, and in how many rounds."""
    a = argparse.ArgumentParser()
    a.add_argument("program", nargs="?", default=os.path.join(ROOT, "crates", "polkatool", "out", "polkatool"))
    a.add_argument("--rounds", type=int, default=rounds)
    return a


def program_in(options):
    """The program that the words name, which has to be there."""
    program = os.path.abspath(options.program)
    if not os.access(program, os.X_OK):
        sys.exit("%s isn't there; the script polkatool at the top of the repository builds it" % program)
    return program


def asked(rounds):
    """The program that is to be measured and in how many rounds, by the words of the command line."""
    o = parser(rounds).parse_args()
    return program_in(o), o.rounds


def judged(what, value, bar):
    """Whether a value is within its bar, which is printed."""
    ok = value <= bar
    print("%s %.3f, bar %g: %s" % (what, value, bar, "ok" if ok else "over the bar"))
    return ok


def seconds(words, most=None):
    """The seconds of a run, which is ended after the most of them that are given, and the run itself with what it wrote."""
    begin = time.perf_counter()
    done = subprocess.run(words, capture_output=True, stdin=subprocess.DEVNULL, timeout=most)
    return time.perf_counter() - begin, done


def usage(words, most=None):
    """The status of a run of these words, negative for a signal, and what it used of the system. A run that takes more than
    the most seconds of the processor that are given is ended by a signal.

    The kernel counts for a process what its parent held when it made it. So a shell, which holds little, makes the
    process in the background and ends, and the process then becomes a child of this one.
    """
    if ctypes.CDLL(None).prctl(PR_SET_CHILD_SUBREAPER, 1, 0, 0, 0) != 0:
        sys.exit("what a process uses can't be told here")
    bound = "ulimit -t %d; " % most if most else ""
    for _ in range(20):
        quiet = dict.fromkeys(("stdin", "stdout", "stderr"), subprocess.DEVNULL)
        shell = subprocess.Popen(["/bin/sh", "-c", bound + '"$@" & exec true', "sh", *words], **quiet)
        shell.wait()
        try:
            _, status, used = os.wait4(-1, 0)
        except ChildProcessError:
            continue  # it ended before the shell did, and the shell took its numbers
        return os.waitstatus_to_exitcode(status), used
    sys.exit("what a process uses can't be told here")


def peak(words, wanted):
    """The greatest resident size, in bytes, of a run of these words that has to end with the wanted status."""
    status, used = usage(words)
    if status != wanted:
        sys.exit("%s ended with status %d, and not %d" % (words, status, wanted))
    return used.ru_maxrss * 1024
