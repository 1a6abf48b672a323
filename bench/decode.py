#!/usr/bin/env python3
"""What `decode` says of RV64EM words, held against llvm-objdump of LLVM 19.

    decode.py [PROGRAM] [--words 1048576] [--seed 1]

PROGRAM is crates/decode_words/out/decode_words of this repository if left out; `rt run` in crates/decode_words makes it.
Half of the words have the opcode and the functions of an operation, with any registers and any immediate, and the other
half are any words at all, as many of each as --words says. The disassembler is given them as the text of an object of
RV64IM, so that it also names the registers that RV64E has not.

Both have to name the same operation, with the same registers and the same immediate, or to agree that there is none.
Where the disassembler means something else on purpose, what `decode` has to say is worked out from its line:

- a word that names x3, x4 or x16 to x31 has the fault BadRegister, a load into x0 LoadToZero, and `ecall` Ecall;
- what is no operation of RV64EM, as `fence.i` and what reads a control register, is a BadWord, but `unimp` is a trap;
- a fence is one whatever its other bits are, where the disassembler knows no fence with a register or a reserved mode;
- a word whose lowest five bits say that it has 16 bits, or more than 32, is no operation, and isn't disassembled.

The status is 0 where they agree on every word, else 1. Where there is no llvm-objdump-19 nothing is compared.
"""
import argparse
import os
import random
import re
import shutil
import subprocess
import sys
import tempfile

sys.dont_write_bytecode = True
from common import ROOT

sys.path.insert(0, os.path.join(ROOT, "examples", "five"))
from make import object_of

FLAGS_AT = 48  # of an ELF header, four bytes
REGISTERS = ["zero", "ra", "sp", "gp", "tp", "t0", "t1", "t2", "s0", "s1"] + ["a%d" % n for n in range(8)]
REGISTERS += ["s%d" % n for n in range(2, 12)] + ["t%d" % n for n in range(3, 7)]
OURS = {"zero": "Zero", "ra": "R(0)", "sp": "R(1)"}
OURS.update((REGISTERS[n], "R(%d)" % (n - 3)) for n in range(5, 16))

BRANCHES = {"beq": "Eq", "bne": "Ne", "blt": "Lt", "bge": "Ge", "bltu": "Ltu", "bgeu": "Geu"}
LOADS = ["lb", "lh", "lw", "ld", "lbu", "lhu", "lwu"]
STORES = ["sb", "sh", "sw", "sd"]
SHIFTS = ["slli", "srli", "srai", "slliw", "srliw", "sraiw"]
IMMEDIATES = ["addi", "slti", "sltiu", "xori", "ori", "andi", "addiw"] + SHIFTS
TWO = "add sub sll slt sltu xor srl sra or and mul mulh mulhsu mulhu div divu rem remu".split()
TWO += "addw subw sllw srlw sraw mulw divw divuw remw remuw".split()

# the bits of each operation that are fixed: opcode, funct3 and funct7, None where any are
ROWS = [(0x37, None, None), (0x17, None, None), (0x6F, None, None), (0x67, 0, None), (0x0F, 0, None)]
ROWS += [(0x63, f, None) for f in (0, 1, 4, 5, 6, 7)] + [(0x03, f, None) for f in range(7)]
ROWS += [(0x23, f, None) for f in range(4)] + [(0x13, f, None) for f in (0, 2, 3, 4, 6, 7)]
ROWS += [(0x13, f, g) for f, g in ((1, 0), (1, 1), (5, 0), (5, 1), (5, 0x20), (5, 0x21))]
ROWS += [(0x1B, 0, None), (0x1B, 1, 0), (0x1B, 5, 0), (0x1B, 5, 0x20)]
ROWS += [(0x33, f, g) for g in (0, 1) for f in range(8)] + [(0x33, 0, 0x20), (0x33, 5, 0x20)]
ROWS += [(0x3B, f, 0) for f in (0, 1, 5)] + [(0x3B, 0, 0x20), (0x3B, 5, 0x20)]
ROWS += [(0x3B, f, 1) for f in (0, 4, 5, 6, 7)]
WHOLE = [0x00100073, 0xC0001073, 0x00000073]


def word_of_row(chance):
    """A word of an operation, with any bits where they are free."""
    if chance.randrange(64) == 0:
        return chance.choice(WHOLE)
    opcode, funct3, funct7 = chance.choice(ROWS)
    word = chance.getrandbits(32) & ~0x7F | opcode
    if funct3 is not None:
        word = word & ~(7 << 12) | funct3 << 12
    if funct7 is not None:
        word = word & ~(0x7F << 25) | funct7 << 25
    if chance.randrange(2):  # half of them have registers of RV64E alone
        word &= ~(1 << 11 | 1 << 19 | 1 << 24)
    return word


def has_32_bits(word):
    """Whether the lowest bits of a word say that it is an instruction of 32 bits."""
    return word & 3 == 3 and word & 0x1F != 0x1F


def number(text):
    return int(text, 16) if "0x" in text else int(text)


def signed(value, bits):
    value &= 2**bits - 1
    return value - 2**bits if value >> (bits - 1) else value


def place(text):
    """The parts of `imm(register)`."""
    imm, register = re.fullmatch(r"(.*)\((\w+)\)", text).groups()
    return number(imm), register


def fields(name, given, at):
    """The variant of an operation and its fields in their order, a register by the manual's name; None if it is none."""
    if name in ("lui", "auipc"):
        return name.capitalize(), [("rd", given[0]), ("value", signed(number(given[1]) << 12, 32))]
    if name == "jal":
        return "Jal", [("rd", given[0]), ("offset", signed(number(given[1]) - at, 64))]
    if name == "jalr":
        imm, rs1 = place(given[1])
        return "Jalr", [("rd", given[0]), ("rs1", rs1), ("imm", imm)]
    if name in BRANCHES:
        offset = signed(number(given[2]) - at, 64)
        return "Branch", [("cond", BRANCHES[name]), ("rs1", given[0]), ("rs2", given[1]), ("offset", offset)]
    if name in LOADS:
        imm, rs1 = place(given[1])
        return "Load", [("width", name.capitalize()), ("rd", given[0]), ("rs1", rs1), ("imm", imm)]
    if name in STORES:
        imm, rs1 = place(given[1])
        return "Store", [("width", name.capitalize()), ("rs1", rs1), ("rs2", given[0]), ("imm", imm)]
    if name in IMMEDIATES:
        return "OpImm", [("op", name.capitalize()), ("rd", given[0]), ("rs1", given[1]), ("imm", number(given[2]))]
    if name in TWO:
        return "Op", [("op", name.capitalize()), ("rd", given[0]), ("rs1", given[1]), ("rs2", given[2])]
    return None


def wanted(word, line, at):
    """The line that decode_words has to write of a word, by the disassembler's line for it."""
    if word & 0x707F == 0x0F:
        return "Ok(Fence)"
    if word in (0x00100073, 0xC0001073):
        return "Ok(Trap)"
    name, _, rest = line.partition("\t")
    if name == "ecall":
        return "Err(Ecall)"
    given = [part.strip() for part in re.sub(r"<.*>", "", rest).split(",")]
    found = fields(name, given, at)
    if found is None:
        return "Err(BadWord)"
    variant, parts = found
    if any(value in REGISTERS and value not in OURS for _, value in parts):
        return "Err(BadRegister)"
    if variant == "Load" and dict(parts)["rd"] == "zero":
        return "Err(LoadToZero)"
    return "Ok(%s { %s })" % (variant, ", ".join("%s: %s" % (key, OURS.get(value, value)) for key, value in parts))


def disassembled(objdump, words, folder):
    """The disassembler's line for each word, from the mnemonic on."""
    source = os.path.join(folder, "words.o")
    image = bytearray(object_of(words))
    image[FLAGS_AT : FLAGS_AT + 4] = bytes(4)
    with open(source, "wb") as file:
        file.write(image)
    text = subprocess.run([objdump, "-d", "-M", "no-aliases", "--mattr=+m", source], stdout=subprocess.PIPE, check=True)
    lines = re.findall(r"^ *([0-9a-f]+): ([0-9a-f]{8}) *\t(.*)$", text.stdout.decode(), re.M)
    if [(int(at, 16), int(word, 16)) for at, word, _ in lines] != [(4 * n, word) for n, word in enumerate(words)]:
        sys.exit("%s doesn't give a line for each word" % objdump)
    return [line for _, _, line in lines]


def main():
    a = argparse.ArgumentParser()
    a.add_argument("program", nargs="?", default=os.path.join(ROOT, "crates", "decode_words", "out", "decode_words"))
    a.add_argument("--words", type=int, default=2**20)
    a.add_argument("--seed", type=int, default=1)
    o = a.parse_args()
    objdump = shutil.which("llvm-objdump-19")
    if not objdump:
        print("llvm-objdump-19 isn't there: nothing to hold the words against")
        return 0
    chance = random.Random(o.seed)
    words = [word_of_row(chance) for _ in range(o.words)] + [chance.getrandbits(32) for _ in range(o.words)]
    given = "".join("%08x\n" % word for word in words).encode()
    done = subprocess.run([o.program], input=given, stdout=subprocess.PIPE, check=True)
    said = done.stdout.decode().splitlines()
    if len(said) != len(words):
        sys.exit("%d lines for %d words" % (len(said), len(words)))
    whole = [n for n, word in enumerate(words) if has_32_bits(word)]
    with tempfile.TemporaryDirectory() as folder:
        lines = disassembled(objdump, [words[n] for n in whole], folder)
    want = ["Err(BadWord)"] * len(words)
    for at, (n, line) in enumerate(zip(whole, lines)):
        want[n] = wanted(words[n], line, 4 * at)
    apart = [n for n in range(len(words)) if said[n] != want[n]]
    for n in apart[:20]:
        print("%08x: %s, and not %s" % (words[n], said[n], want[n]))
    kinds = {}
    for line in said:
        kind = re.match(r"\w+\(\w+", line).group()
        kinds[kind] = kinds.get(kind, 0) + 1
    print("%d words, %d of them disassembled; %d apart" % (len(words), len(whole), len(apart)))
    print(", ".join("%s %d" % (kind.replace("(", " "), count) for kind, count in sorted(kinds.items())))
    return 1 if apart else 0


sys.exit(main())
