"""The ends of a command that README.md and docs/faults.md state, and whether a run has one and left its files so."""
import collections
import os
import re
import subprocess

from common import BAD_COMMAND_LINE, ROOT

DONE, REFUSED, FILE_FAULT, PANICKED, FAULTED, OUT_OF_GAS, UNANSWERED, BAD_REPLY, NO_MEMORY = 0, 1, 3, 4, 5, 6, 7, 8, 9
LINES = {  # what goes to standard error with a status; nothing does with one that isn't here
    BAD_COMMAND_LINE: b"polkatool: bad command line\n",
    FILE_FAULT: b"polkatool: file fault\n",
    NO_MEMORY: b"polkatool: out of memory\n",
}
STATUSES = {  # by the command
    "link": {DONE, REFUSED, BAD_COMMAND_LINE, FILE_FAULT, NO_MEMORY},
    "check": {DONE, REFUSED, BAD_COMMAND_LINE, FILE_FAULT, NO_MEMORY},
    "disassemble": {DONE, REFUSED, BAD_COMMAND_LINE, FILE_FAULT, NO_MEMORY},
    "gen": {DONE, BAD_COMMAND_LINE, FILE_FAULT, NO_MEMORY},
    "run": set(range(10)),
    "exec": set(range(10)),
}
CALLS = rb"(call \d+( [0-9a-f]{16}){13}\n)*"
RUN_ENDS = {
    DONE: rb"halt output=([0-9a-f]{2})*\n",
    PANICKED: rb"panic\n",
    FAULTED: rb"fault address=[0-9a-f]{8}\n",
    OUT_OF_GAS: rb"out-of-gas\n",
    UNANSWERED: rb"unanswered call=\d+\n",
    BAD_REPLY: rb"bad-reply line=\d+ address=[0-9a-f]{8}\n",
}
OUTPUTS = {  # what goes to standard output with status 0
    "link": rb"(?s)entry 0 [0-9a-f]{8} .*\n",
    "check": rb"ok\n",
    "disassemble": rb"(?s)code \d+ table \d+ width \d\n.*",
    "gen": rb"gen seed=\d+ count=\d+ code=\d+ gas=\d+ end=halt( a[2-5]=[0-9a-f]{16}){4}\n",
}
REFUSAL = re.compile(rb"refused (\d+) (\w+) object=\d+ section=\d+ offset=\d+\n")

# the status of a run, its outputs, and the files afterwards; the status is None where there was no answer in time
End = collections.namedtuple("End", "status out err files")


def refusals():
    """The codes of refusals with their names, as the tables of docs/faults.md have them."""
    with open(os.path.join(ROOT, "docs", "faults.md"), encoding="utf-8") as file:
        rows = re.findall(r"^\| (\d+) \| (\w+) \|", file.read(), re.M)
    return {(code.encode(), name.encode()) for code, name in rows}


def files_in(folder):
    """The files of a folder by their names, with their bytes."""
    found = {}
    for entry in os.scandir(folder):
        if entry.is_file():
            with open(entry.path, "rb") as file:
                found[os.fsencode(entry.name)] = file.read()
    return found


def run_in(program, words, folder, most, **options):
    """The end of a run in a folder, which is ended after so many seconds."""
    try:
        options = {"capture_output": True, "stdin": subprocess.DEVNULL, **options}
        done = subprocess.run([program, *words], cwd=folder, timeout=most, **options)
    except subprocess.TimeoutExpired:
        return End(None, b"", b"", files_in(folder))
    return End(done.returncode, done.stdout, done.stderr, files_in(folder))


def output_of(words):
    """The name of the file that a link writes: the value of `-o`."""
    at = 1
    while at < len(words):
        if words[at] == b"-o":
            return words[at + 1] if at + 1 < len(words) else None
        at += 2 if words[at].startswith(b"-") else 1
    return None


def fault_of(words, end, before, known):
    """What of the end of a run isn't as it is stated, None where all is. Given are the words, the end, the files before
    it, and the refusals that are known."""
    status, out, err, files = end
    command = os.fsdecode(words[0]) if words else ""
    if status is None:
        return "no answer in time"
    if status < 0:
        return "signal %d" % -status
    if status not in STATUSES.get(command, {BAD_COMMAND_LINE, NO_MEMORY}):
        return "status %d" % status
    refusal = REFUSAL.fullmatch(err)
    if (not refusal or refusal.groups() not in known) if status == REFUSED else err != LINES.get(status, b""):
        return "status %d with another line: %r" % (status, err[:200])
    if command in ("run", "exec") and status in RUN_ENDS:
        wanted = CALLS + RUN_ENDS[status] + rb"gas left=\d+\n"
    elif command in ("run", "exec") and status == NO_MEMORY:
        wanted = CALLS
    else:
        wanted = OUTPUTS[command] if status == DONE else b""
    if status != FILE_FAULT and not re.fullmatch(wanted, out):
        return "status %d with another output: %r" % (status, out[:200])
    return wrong_files(words, status, before, files)


def wrong_files(words, status, before, files):
    """Which files aren't as they may be after a run with these words and this status, or None."""
    output = output_of(words) if words[:1] == [b"link"] and status in (DONE, FILE_FAULT) else None
    changed = {name for name in before.keys() | files.keys() if before.get(name) != files.get(name)}
    if changed - {output}:
        return "status %d, and these files changed: %r" % (status, sorted(changed))
    if status == DONE and output is not None and b"/" not in output and output not in files:
        return "status 0 without the file %r" % output
    return None
