#!/usr/bin/env python3
"""Time and memory of `polkatool link` on long texts, and whether both stay in proportion to the text.

    link.py [PROGRAM] [--rounds 5]

PROGRAM is crates/polkatool/out/polkatool of this repository if left out. There are three kinds of objects, each with one
section of code whose last word is `ret`:

  branches     2^16, 2^18 and 2^20 words in the form of examples/five/five.o. Of ten words nine are `addi a0,a0,1` and one
               is a branch to the first of them.
  relocations  groups of six words with three relocations: `lui` with R_RISCV_HI20 and `addi` with R_RISCV_LO12_I of a
               symbol of data, three times `addi a0,a0,1`, and a branch with R_RISCV_BRANCH to the start of its group.
               There are as many groups as an object of 2^24 bytes holds, almost 2^20 words and 2^19 relocations.
  calls        as many groups, in which `auipc` with R_RISCV_CALL_PLT and `jalr` call a function in place of `lui` and
               `addi`. So each group has a pair, and a place in the address map, where the call returns.

Time: the least of the rounds, less the least time of a link of one word, for each word. The objects take turns, and
short texts, whose time is near that of the start, are linked up to eight times a round.
Memory: the peak resident size, less that of a run without words, which answers `bad command line`, for each byte of
object and container together. Each answer is compared with what it has to be.
Beside them, where it is installed: the time of LLVM's linker, `ld.lld-19 --no-relax`, on the same objects. Of the
branches whole times are compared, and of the other objects each linker's time is less its own for one word.

Times and ratios of one run mean something, as machines differ. The status is 0 where all last lines say ok, else 1. It
runs on Linux alone. The calls have no bar.
"""
import collections
import os
import shutil
import sys
import tempfile

sys.dont_write_bytecode = True
from common import BAD_COMMAND_LINE, asked, judged, peak, seconds
from elf import (
    ADDI, ADDI_A0, ALLOC_AND_EXECINSTR, ALLOC_AND_WRITE, AUIPC_RA, BNE_A0, BRANCH, CALL_PLT, GLOBAL_FUNCTION, HI20, JALR_RA,
    LARGEST, LO12_I, LOCAL_OBJECT, LUI_A0, PROGBITS, RET, Sections, object_of, relocation, symbol, word_bytes,
)
from linked import (
    ADD_IMM, ENTRY_JUMP, ENTRY_LINE, JUMP_IND, branch_ne_imm, code_line, data_line, jump_table, load_imm,
    load_imm_jump, number_of, offset_length,
)

SIZES = (2**16, 2**18, 2**20)
TIME_BAR = 1.5  # time a word of the longest text of branches over that of the shortest
BRANCHES, RELOCATIONS, CALLS = "branches", "relocations", "calls"
MEMORY_BARS = {BRANCHES: 40, RELOCATIONS: 48}  # bytes of memory a byte of object and container
SPEED_BARS = {BRANCHES: 4, RELOCATIONS: 5}  # time of a link of the longest text over that of LLVM's linker
BRANCH_BACK = 0xFC051EE3  # bne a0, x0, -36
GROUP = 24  # the bytes of a group of six words
GROUPS = (LARGEST - 1024) // (GROUP + 3 * len(relocation(0, 0, 0)))
DATA, MAIN, LEAF = 1, 2, 3  # the numbers of the symbols
DATA_ADDRESS, DATA_SIZE, DATA_SECTION = 0x20000, 16, 3
MAP_OF_DATA = ENTRY_LINE + data_line(DATA_ADDRESS, DATA_SIZE, DATA_SECTION)

# what it is, how many words it has, the object, and the map and the bytes of jump table and code it is linked to
Text = collections.namedtuple("Text", "what count object map code")


def branches(count):
    """Words of which each tenth is a branch to the first of the ten, and the last one a return."""
    text = [BRANCH_BACK if at % 10 == 9 else ADDI for at in range(count - 1)] + [RET]
    tens, rest = divmod(count - 1, 10)
    code = ENTRY_JUMP + (ADD_IMM * 9 + branch_ne_imm(-9 * len(ADD_IMM))) * tens + ADD_IMM * rest + JUMP_IND
    return Text(BRANCHES, count, object_of(text), ENTRY_LINE, code)


def object_of_groups(first_two, relocations_at):
    """An object of groups that begin with these two words, each with its relocations by its offset, those of its branch
    left out. Behind the groups is a function of one word."""
    text = [*first_two, ADDI, ADDI, ADDI, BNE_A0] * GROUPS + [RET]
    offsets = range(0, GROUP * GROUPS, GROUP)
    entries = b"".join(relocations_at(at) + relocation(at + GROUP - 4, BRANCH, MAIN, at) for at in offsets)
    sections = Sections(4)
    sections.add_relocated(".text", ALLOC_AND_EXECINSTR, word_bytes(text), entries)
    sections.add(".data", PROGBITS, ALLOC_AND_WRITE, bytes(DATA_SIZE), align=8)
    symbols = symbol(0, 0, 0, 0) + symbol(1, LOCAL_OBJECT, DATA_SECTION, 8) + symbol(6, GLOBAL_FUNCTION, 1, 0)
    symbols += symbol(11, GLOBAL_FUNCTION, 1, GROUP * GROUPS)
    return sections.ended(symbols, MAIN, b"\0data\0main\0leaf\0")


def relocations():
    """The text of groups that load an address of data."""
    content = object_of_groups((LUI_A0, ADDI_A0), lambda at: relocation(at, HI20, DATA) + relocation(at + 4, LO12_I, DATA))
    before = load_imm(DATA_ADDRESS + 8 + 3)  # the constant that the first five words leave
    code = ENTRY_JUMP + (before + branch_ne_imm(-len(before))) * GROUPS + JUMP_IND
    return Text(RELOCATIONS, 6 * GROUPS + 1, content, MAP_OF_DATA, code)


def calls():
    """The text of groups that call the function behind them. The call of a group names the number of the place at which it
    returns, and the map has a line for each of these."""
    content = object_of_groups((AUIPC_RA, JALR_RA), lambda at: relocation(at, CALL_PLT, LEAF))
    groups, behind = [], 0
    for group in reversed(range(GROUPS)):
        for length in range(5):
            call = load_imm_jump(number_of(group), 0, length)
            rest = ADD_IMM * 3 + branch_ne_imm(-len(call + ADD_IMM * 3))
            distance = len(call) + len(rest) + behind
            if offset_length(distance) <= length:
                break
        groups.append((load_imm_jump(number_of(group), distance, length), rest))
        behind = distance
    code, returns = bytearray(ENTRY_JUMP), []
    for call, rest in reversed(groups):
        code += call
        returns.append(len(code))
        code += rest
    lines = b"".join(code_line(group, position, 1, GROUP * group + 8) for group, position in enumerate(returns))
    return Text(CALLS, 6 * GROUPS + 1, content, MAP_OF_DATA + lines, jump_table(returns) + code + JUMP_IND)


def timed_link(program, source, target, text):
    """The seconds of one link, whose answer is looked at."""
    if os.path.exists(target):
        os.remove(target)
    took, done = seconds([program, "link", "-o", target, source])
    what = "a link of %d words (%s)" % (text.count, text.what)
    if done.returncode != 0 or done.stdout != text.map or done.stderr:
        sys.exit("%s ended with status %d: %r %r" % (what, done.returncode, done.stdout[:200], done.stderr[:200]))
    with open(target, "rb") as file:
        if text.code not in file.read():
            sys.exit("%s wrote another code" % what)
    return took


def timed_peer(peer, source, target):
    """The seconds of one link by LLVM's linker."""
    took, done = seconds([peer, "--no-relax", "-e", "main", "-o", target, source])
    if done.returncode != 0:
        sys.exit("%s ended with status %d: %r" % (peer, done.returncode, done.stderr[:200]))
    return took


def over_peer(text, took, start, peer, peer_start):
    """The time of a link over that of LLVM's linker."""
    return took / peer if text.what == BRANCHES else (took - start) / (peer - peer_start)


def measure(program, peer, rounds, folder):
    """Yields each text, the seconds a word, the bytes of object and container, the bytes of memory for each of them, and
    the time over that of LLVM's linker, or None without it. The first text, of one word, is left out."""
    texts = [branches(1), *(branches(count) for count in SIZES), relocations(), calls()]
    sources = [os.path.join(folder, "%d.o" % number) for number in range(len(texts))]
    targets = [os.path.join(folder, "%d.pvm" % number) for number in range(len(texts))]
    for text, source in zip(texts, sources):
        with open(source, "wb") as file:
            file.write(text.object)
    took, peers = [[] for _ in texts], [[] for _ in texts]
    for _ in range(rounds):
        for number, text in enumerate(texts):
            for _ in range(max(1, min(8, SIZES[-1] // text.count))):
                took[number].append(timed_link(program, sources[number], targets[number], text))
                if peer:
                    peers[number].append(timed_peer(peer, sources[number], os.path.join(folder, "peer")))
    idle = peak([program], BAD_COMMAND_LINE)
    start = min(took[0])
    for text, source, target, ours, theirs in list(zip(texts, sources, targets, took, peers))[1:]:
        size = os.path.getsize(source) + os.path.getsize(target)
        memory = peak([program, "link", "-o", target, source], 0) - idle
        beside = over_peer(text, min(ours), start, min(theirs), min(peers[0])) if peer else None
        yield text, (min(ours) - start) / (text.count - 1), size, memory / size, beside


def main():
    program, rounds = asked(5)
    found = {BRANCHES: [], RELOCATIONS: [], CALLS: []}
    with tempfile.TemporaryDirectory() as folder:
        for text, a_word, size, a_byte, beside in measure(program, shutil.which("ld.lld-19"), rounds, folder):
            peer = "" if beside is None else "  %6.3f of ld.lld's time" % beside
            row = "%8d words, %-11s  %9d bytes  %8.2f ns a word  %6.2f bytes of memory a byte%s"
            print(row % (text.count, text.what, size, a_word * 1e9, a_byte, peer), flush=True)
            found[text.what].append((a_word, a_byte, beside))
    shortest, longest = found[BRANCHES][0][0], found[BRANCHES][-1][0]
    if shortest <= 0:
        sys.exit("a link of %d words takes no longer than one of a word: try more --rounds" % SIZES[0])
    within = [judged("time a word of %d words over that of %d:" % (SIZES[-1], SIZES[0]), longest / shortest, TIME_BAR)]
    for what, bar in MEMORY_BARS.items():
        within.append(judged("most bytes of memory a byte, %s:" % what, max(a_byte for _, a_byte, _ in found[what]), bar))
    for what, bar in SPEED_BARS.items():
        beside = found[what][-1][2]
        within.append(beside is None or judged("time over that of ld.lld, %s:" % what, beside, bar))
    return 0 if all(within) else 1


sys.exit(main())
