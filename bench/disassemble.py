#!/usr/bin/env python3
"""Time of `polkatool disassemble` of 16 MiB of code beside that of `llvm-objdump -d`, and of `polkatool check`.

    disassemble.py [PROGRAM] [--rounds 3]

PROGRAM is crates/polkatool/out/polkatool of this repository if left out. The container's code is `add_imm_64 r7 r7 1`,
three bytes each, and a last `jump_ind r0 0`. The object beside it has as many instructions, `addi a0,a0,1` and a last
`ret`, and the form of examples/five/five.o. Each text goes to a file, and each answer is looked at.

The three commands take turns, and the least time of the rounds counts. The bars: a disassembly takes no longer than
llvm-objdump, and a check at most a tenth of that. llvm-objdump of LLVM 19 is taken where it is found, else any
llvm-objdump; where there is none its part is left out.

Times of one run mean something beside each other, as machines differ. The status is 0 where no time is over its bar,
else 1.
"""
import os
import shutil
import subprocess
import sys
import tempfile
import time

sys.dont_write_bytecode = True
from common import ROOT, asked, judged

sys.path.insert(0, os.path.join(ROOT, "examples", "five"))
from make import object_of

CODE_LEN = 2**24
ADD, JUMP = bytes.fromhex("957701"), bytes.fromhex("3200")
EVERY_THIRD = bytes.fromhex("499224")  # a mask of instructions of three bytes
ADDI, RET = 0x00150513, 0x00008067
ADD_LINE, JUMP_LINE = b"add_imm_64 r7 r7 1", b"jump_ind r0 0"
DISASSEMBLE_BAR = 1  # time of a disassembly over that of llvm-objdump
CHECK_BAR = 0.1  # time of a check over that of llvm-objdump


def natural(n):
    """A natural from 2^21 to 2^28, as programs spell them."""
    return bytes([0xE0 | n >> 24]) + (n & 0xFFFFFF).to_bytes(3, "little")


def container_of(adds):
    """A container of so many additions and a jump, with a stack of 65,536 bytes."""
    code = ADD * adds + JUMP
    mask_len = (len(code) + 7) // 8
    mask = bytearray((EVERY_THIRD * (mask_len // 3 + 1))[:mask_len])
    mask[-1] &= 0xFF >> -len(code) % 8
    program = b"\0\1" + natural(len(code)) + code + mask
    return bytes(8) + (65536).to_bytes(3, "little") + len(program).to_bytes(4, "little") + program


def timed(words, text):
    """The seconds of a run whose standard output goes to a file, and that has to end well."""
    with open(text, "wb") as out:
        begin = time.perf_counter()
        done = subprocess.run(words, stdin=subprocess.DEVNULL, stdout=out, stderr=subprocess.PIPE)
        took = time.perf_counter() - begin
    if done.returncode != 0 or done.stderr:
        sys.exit("%s ended with status %d: %r" % (words, done.returncode, done.stderr[:200]))
    return took


def look_at_text(text, adds):
    """Whether the text is that of the container, by its first line, its count of lines and its last line."""
    with open(text, "rb") as file:
        whole = file.read()
    head = b"code %d table 0 width 1\n00000000 957701 %s\n" % (3 * adds + 2, ADD_LINE)
    tail = b"\n%08x 3200 %s\n" % (3 * adds, JUMP_LINE)
    if not whole.startswith(head) or not whole.endswith(tail) or whole.count(ADD_LINE + b"\n") != adds:
        sys.exit("the disassembly has another text")


def measure(program, objdump, rounds, folder):
    """The least seconds of a disassembly, a check and an llvm-objdump, None where there is none."""
    adds = CODE_LEN // 3
    blob, source, text = (os.path.join(folder, name) for name in ("long.pvm", "long.o", "text"))
    with open(blob, "wb") as file:
        file.write(container_of(adds))
    with open(source, "wb") as file:
        file.write(object_of([ADDI] * adds + [RET]))
    took = {"disassemble": [], "check": [], "objdump": []}
    for _ in range(rounds):
        took["disassemble"].append(timed([program, "disassemble", blob], text))
        look_at_text(text, adds)
        took["check"].append(timed([program, "check", blob], text))
        with open(text, "rb") as file:
            if file.read() != b"ok\n":
                sys.exit("the check doesn't say ok")
        if objdump:
            took["objdump"].append(timed([objdump, "-d", source], text))
            if os.path.getsize(text) < 20 * adds:
                sys.exit("%s wrote too short a text" % objdump)
    return {what: min(times) for what, times in took.items() if times}


def main():
    program, rounds = asked(3)
    objdump = shutil.which("llvm-objdump-19") or shutil.which("llvm-objdump")
    with tempfile.TemporaryDirectory() as folder:
        took = measure(program, objdump, rounds, folder)
    for what, least in took.items():
        print("%-12s %7.3f s for %d instructions" % (what, least, CODE_LEN // 3 + 1))
    if not objdump:
        print("llvm-objdump isn't there: nothing to hold the times against")
        return 0
    in_text = judged("a disassembly over llvm-objdump:", took["disassemble"] / took["objdump"], DISASSEMBLE_BAR)
    in_check = judged("a check over llvm-objdump:", took["check"] / took["objdump"], CHECK_BAR)
    return 0 if in_text and in_check else 1


sys.exit(main())
