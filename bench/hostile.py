#!/usr/bin/env python3
"""Time, instructions and memory of `polkatool link` on files that were made to keep it busy.

    hostile.py [PROGRAM] [--rounds 1] [--only TEXT] [--most 600]

PROGRAM is crates/polkatool/out/polkatool of this repository if left out. It runs on Linux alone. The files have at most
2^24 bytes together: as many sections, symbols, names, relocations or blocks as there is room for; sections, relocations
and names that share their bytes; names and numbers that a table finds only one by one; long names; code that is one
constant. Those in which each offset that gets longer makes another one longer are in chains.py.

Beside them is an object of 20,000 sections, 200,000 symbols and 200,000 relocations, as objects.py makes it. For each
the time, which is that of the processor, the instructions, where `perf` counts them, and the peak memory are printed,
and the time over that of the usual object. The bars: a link takes at most 16 times as long as that of the usual object,
and at most 1 GiB of memory. A link that takes more than --most seconds of the processor is ended.

The status is 0 if nothing is over its bar and each link ended with its status, else 1. --only takes the cases whose
names have the text.
"""
import os
import shutil
import subprocess
import sys
import tempfile

sys.dont_write_bytecode = True
from answers import DONE, NO_MEMORY, REFUSED
from common import judged, parser, program_in, usage
from elf import (
    ABS, ADD64, ADDI, ADDI_A0, ALLOC, ALLOC_AND_EXECINSTR, ALLOC_AND_WRITE, AUIPC_A0, AUIPC_RA, GLOBAL_FUNCTION,
    GLOBAL_UNDEFINED, GOT_HI20, HI20, INFO_LINK, JALR_RA, LARGEST, LOCAL, LUI_A0, PCREL_HI20, PCREL_LO12_I, PROGBITS,
    RELA, RELAX, RET, STRTAB, SYMTAB, Sections, WEAK_FUNCTION, WEAK_UNDEFINED, file_of, object_of, relocation, section,
    symbol, word_bytes,
)
from objects import TEXT, object_of as usual_object_of

TIME_BAR = 16  # time of a link over that of the usual object
MEMORY_BAR = 1 << 30  # bytes
MOST_SECTIONS = 0xFFFF
MOST_RELOCATIONS = 1 << 24  # of an object, else it is refused as memory is
MOST_NAME_BYTES = 1 << 28  # of the GLOBAL and WEAK symbols, else they are refused as memory is
MOST_CODE = 1 << 24  # bytes of the code of a link


def hostile_object(count, entries, symbols, names, section_names, shared, changed=1):
    """An object of almost the largest size, with a section of code and one of data, so many RELA sections for the one
    of these with the number `changed` that share these entries, the symbols and their names, and `main` behind these,
    and further sections up to a count, each with the name at the start of the shared one."""
    body = bytearray(64)

    def put(content):
        body.extend(bytes(-len(body) % 8))
        body.extend(content)
        return len(body) - len(content), len(content)

    symbols, names = symbols + symbol(len(names), GLOBAL_FUNCTION, 1, 0), names + b"main\0"
    rows = [(1, PROGBITS, ALLOC_AND_EXECINSTR, *put(TEXT), 0, 0, 4, 0), (1, PROGBITS, ALLOC, *put(bytes(8)), 0, 0, 8, 0)]
    rows += [(1, SYMTAB, 0, *put(symbols), 4, 1, 8, 24), (1, STRTAB, 0, *put(names), 0, 0, 1, 0)]
    rows += [(1, RELA, INFO_LINK, *put(entries), 3, changed, 8, 24)] * shared
    rows += [(1, PROGBITS, ALLOC_AND_EXECINSTR, 0, 0, 0, 0, 4, 0)] * (count - len(rows) - 2)
    room = LARGEST - len(body) - 64 * (len(rows) + 2) - 16
    text = b"\0" + b"n" * (room - 2 if section_names else 8) + b"\0"
    rows.append((1, STRTAB, 0, *put(text + bytes(room - len(text))), 0, 0, 1, 0))
    return file_of(body, [section(0, 0, 0, 0, 0, 0, 0, 0, 0), *(section(*row) for row in rows)], len(rows))


def hostile_code(text, entries, label):
    """An object with these words and relocations, which may name data in section 3, a word at an offset, or `main`."""
    sections = Sections(4)
    sections.add_relocated(".text", ALLOC_AND_EXECINSTR, word_bytes(text), entries)
    sections.add(".rodata", PROGBITS, ALLOC, bytes(16), align=8)
    symbols = symbol(0, 0, 0, 0) + symbol(1, LOCAL, 3, 8) + symbol(7, LOCAL, 1, label) + symbol(13, GLOBAL_FUNCTION, 1, 0)
    return sections.ended(symbols, 3, b"\0table\0label\0main\0")


def jal(by):
    """The word of a jump forward that keeps no link, which leads less than 2^20 bytes on."""
    return (by >> 1 & 0x3FF) << 21 | (by >> 11 & 1) << 20 | (by >> 12 & 0xFF) << 12 | 0x6F


def hostile_codes():
    """What each object is whose relocations of code are many, or many at one word, its link's status, and its bytes."""
    most = (LARGEST - 4096) // 28
    backwards = b"".join(relocation(4 * n, HI20, 1) for n in range(most - 1, -1, -1))
    yield "relocations from the last to the first", DONE, hostile_code([LUI_A0] * most + [RET], backwards, 0)
    half = (LARGEST - 4096) // 48
    entries = relocation(0, PCREL_LO12_I, 2) * half + relocation(4, PCREL_HI20, 1) * half
    yield "many lower parts of a word with many", REFUSED, hostile_code([ADDI_A0, AUIPC_A0, RET], entries, 4)
    jumps = (1 << 18) - 4
    most = (LARGEST - 4 * jumps - 4096) // 24
    text = [jal(4 * (jumps + 1 - n)) for n in range(jumps)] + [AUIPC_RA, JALR_RA, RET]
    yield "many jumps behind a word with many", REFUSED, hostile_code(text, relocation(4 * jumps, PCREL_HI20, 1) * most, 0)


def names_that_share(words, length):
    """The names of symbols, words of this length that end in different ways, and where a name begins at each byte."""
    texts = [b"a" * (length - 8) + b"%08d" % word for word in range(words)]
    starts = [1 + word * (length + 1) + at for word in range(words) for at in range(length - 8)]
    return b"\0" + b"".join(text + b"\0" for text in texts), starts


def hostile_objects():
    """What each hostile object is, the status of its link, and its bytes."""
    null = symbol(0, 0, 0, 0)
    relax = relocation(0, RELAX, 0)
    room = LARGEST - 4096
    each = MOST_RELOCATIONS // 32
    yield "sections of one name", DONE, hostile_object(MOST_SECTIONS, b"", null, b"\0", True, 0)
    yield "relocations shared, as many as may be", DONE, hostile_object(0, relax * each, null, b"\0", False, 32)
    yield "relocations shared, too many", NO_MEMORY, hostile_object(0, relax * each, null, b"\0", False, 60000)
    one = b"\0" + b"n" * (room // 3) + b"\0"
    count = room // 3 // 24
    few = MOST_NAME_BYTES // len(one) - 1
    absent = symbol(1, GLOBAL_UNDEFINED, 0, 0)
    yield "symbols of one name, too many", NO_MEMORY, hostile_object(0, b"", null + absent * count, one, False, 0)
    yield "symbols of one name, as many as may be", DONE, hostile_object(0, b"", null + absent * few, one, False, 0)
    for what, words, length in ("names that share bytes, long", 1, 23000), ("names that share bytes, many", 228, 1520):
        names, starts = names_that_share(words, length)
        entries = b"".join(symbol(at, GLOBAL_FUNCTION, 1, 0) for at in starts)
        yield what, DONE, hostile_object(0, b"", null + entries, names, False, 0)
    yield "relocations of a number, shared", DONE, hostile_object(0, relocation(0, ADD64, 1) * each, null, b"\0", False, 32, 2)
    yield "relocations of a word, shared", REFUSED, hostile_object(0, relocation(0, HI20, 1) * each, null, b"\0", False, 32)
    yield from hostile_codes()


def symbols_and_names(count, info, index):
    """Symbols with names of their own, after the null symbol, and their names."""
    symbols, names = [symbol(0, 0, 0, 0)], bytearray(b"\0")
    for number in range(count):
        symbols.append(symbol(len(names), info, index, 0))
        names += b"%x\0" % number
    return b"".join(symbols), bytes(names)


def object_of_symbols(symbols, names, tables=(), first=1):
    """An object of two words of code and eight bytes of data, with these relocations of the data, and with these symbols
    and `main` behind them, of which those before the first given one are LOCAL."""
    sections = Sections(4)
    sections.add(".text", PROGBITS, ALLOC_AND_EXECINSTR, word_bytes([ADDI, RET]), align=4)
    sections.add_relocated(".data", ALLOC_AND_WRITE, bytes(8), b"".join(tables), 8)
    symbols, names = symbols + symbol(len(names), GLOBAL_FUNCTION, 1, 0), names + b"main\0"
    return sections.ended(symbols, first, names)


# The kit's FoldHasher, as it takes a place of the program that is a number: the variant, and then the number.
HASH_START, HASH_FACTOR, NUMBER_VARIANT = 0x243F6A8885A308D3, 0x9E3779B97F4A7C15, 4
WORD = (1 << 64) - 1


def folded(left, right):
    """The product of two words, whose halves are joined by xor."""
    product = left * right
    return product & WORD ^ product >> 64


def colliding_numbers(groups):
    """As many numbers as a table of so many groups holds, all of which it looks for first in an eighth of them."""
    factor = HASH_FACTOR ^ 16
    state = folded(HASH_START ^ NUMBER_VARIANT, factor)
    found, number = [], 0
    while len(found) < 9 * groups:
        joined = folded(state ^ number, factor)
        if (joined ^ joined >> 32) % groups < groups // 8:
            found.append(number)
        number += 1
    return found


def numbers(values, kind):
    """An object whose data have a relocation of this type for each of these numbers, all at one place."""
    symbols = b"".join([symbol(0, 0, 0, 0), *(symbol(0, LOCAL, ABS, value) for value in values)])
    tables = [relocation(0, kind, 1 + number) for number in range(len(values))]
    return object_of_symbols(symbols, b"\0", tables, 1 + len(values))


def overlapping(count, flags, content):
    """An object with so many sections over the same bytes, and the section of `main` before them."""
    body = bytearray(64)

    def put(content):
        body.extend(bytes(-len(body) % 8))
        body.extend(content)
        return len(body) - len(content), len(content)

    symbols = symbol(0, 0, 0, 0) + symbol(1, GLOBAL_FUNCTION, 1, 0)
    rows = [(0, PROGBITS, ALLOC_AND_EXECINSTR, *put(TEXT), 0, 0, 4, 0)]
    rows += [(0, SYMTAB, 0, *put(symbols), 3, 1, 8, 24), (0, STRTAB, 0, *put(b"\0main\0"), 0, 0, 1, 0)]
    rows += [(0, PROGBITS, flags, *put(content), 0, 0, 4, 0)] * count
    rows.append((0, STRTAB, 0, *put(b"\0"), 0, 0, 1, 0))
    return file_of(body, [section(0, 0, 0, 0, 0, 0, 0, 0, 0), *(section(*row) for row in rows)], len(rows))


def shared_relocations(rows, sections, info):
    """A small object with so many RELA sections of its data, which share so many entries. Its `main` has this info."""
    made = Sections(5 + sections)
    made.add(".text", PROGBITS, ALLOC_AND_EXECINSTR, word_bytes([ADDI, RET]), align=4)
    made.add_relocated(".data", ALLOC_AND_WRITE, bytes(8), relocation(0, ADD64, 1) * rows, 8)
    made.add("", PROGBITS, 0, b"")
    made.headers += [made.headers[3]] * sections
    symbols = symbol(0, 0, 0, 0) + symbol(1, info, 1, 0)
    return made.ended(symbols, 1 if info == GLOBAL_FUNCTION else 2, b"\0main\0")


def cases():
    """What each case is, the status of its link, its objects, and further words."""
    for what, status, content in hostile_objects():
        yield what, status, [content], []
    most = (LARGEST - 4096) // 24
    yield "symbols, as many as there is room for", DONE, [object_of_symbols(symbol(0, LOCAL, 1, 0) * most, b"\0", (), most)], []
    most = (LARGEST - 4096) // 31
    for what, info, index in ("defined", WEAK_FUNCTION, 1), ("undefined", WEAK_UNDEFINED, 0):
        yield "names, " + what, DONE, [object_of_symbols(*symbols_and_names(most, info, index))], []
    words = [word for number in range(1000) for word in ("-i", "%x=sbrk" % number)]
    yield "names, undefined, and 1,000 imports", DONE, [object_of_symbols(*symbols_and_names(most, WEAK_UNDEFINED, 0))], words
    long = b"\0" + b"n" * (LARGEST - 4096) + b"\0"
    yield "one long name", DONE, [object_of_symbols(symbol(0, 0, 0, 0) + symbol(1, WEAK_FUNCTION, 1, 0), long)], []
    yield "sections that overlap, of code", DONE, [overlapping(65000, ALLOC_AND_EXECINSTR, word_bytes([RET] * 64))], []
    yield "sections that overlap, of data", DONE, [overlapping(65000, ALLOC, bytes(256))], []
    count = MOST_CODE // 4 - 300
    texts = ("one constant", [LUI_A0]), ("blocks of one word", [RET]), ("one block", [ADDI])
    for what, text in texts:
        yield "code that is " + what, DONE, [object_of([*(text * count), RET])], []
    colliding = colliding_numbers(32768)
    yield "numbers, as many", DONE, [numbers([number << 40 for number in range(len(colliding))], ADD64)], []
    yield "numbers that a table finds one by one", DONE, [numbers(colliding, ADD64)], []
    yield "the same with places of the offset table", REFUSED, [numbers(colliding, GOT_HI20)], []
    few, many = 2500, MOST_RELOCATIONS // 2501
    four = [shared_relocations(many, few, info) for info in (GLOBAL_FUNCTION, LOCAL, LOCAL, LOCAL)]
    yield "relocations shared, in four objects", DONE, four, []


def instructions(words):
    """How many instructions of the program a run has, or None where `perf` can't count them."""
    perf = shutil.which("perf")
    if not perf:
        return None
    words = [perf, "stat", "-x", ",", "-e", "instructions:u", "--", *words]
    done = subprocess.run(words, stdin=subprocess.DEVNULL, stdout=subprocess.DEVNULL, stderr=subprocess.PIPE)
    counts = [line.split(b",")[0] for line in done.stderr.splitlines() if b"instructions" in line]
    return int(counts[0]) if counts and counts[0].isdigit() else None


def measured(program, options, folder, status, objects, further):
    """The least seconds of the processor, the instructions and the peak memory of a link, or None with another end."""
    sources = []
    for number, content in enumerate(objects):
        sources.append(os.path.join(folder, "%d.o" % number))
        with open(sources[-1], "wb") as file:
            file.write(content)
    words = [program, "link", "-o", os.path.join(folder, "out.pvm"), *further, *sources]
    runs = [usage(words, options.most) for _ in range(options.rounds)]
    for found, _ in runs:
        if found != status:
            print("ended with status %d, and not %d" % (found, status))
            return None
    took = min(used.ru_utime + used.ru_stime for _, used in runs)
    return took, instructions(words), max(used.ru_maxrss for _, used in runs) * 1024


def main():
    words = parser(1)
    words.add_argument("--only", default="")
    words.add_argument("--most", type=int, default=600)
    options = words.parse_args()
    program = program_in(options)
    row = "%-42s %9d bytes  %8.3f s  %s instructions  %5d MiB"
    with tempfile.TemporaryDirectory() as folder:
        usual = usual_object_of(20000, 200000, 200000).object
        found = measured(program, options, folder, DONE, [usual], [])
        if found is None:
            return 1
        print(row % ("usual", len(usual), found[0], found[1] or "-", found[2] >> 20), flush=True)
        time, within = found[0], []
        for what, status, objects, further in cases():
            if options.only not in what:
                continue
            found = measured(program, options, folder, status, objects, further)
            if found:
                print(row % (what, sum(map(len, objects)), found[0], found[1] or "-", found[2] >> 20), flush=True)
                within.append(judged("  time over that of the usual object:", found[0] / time, TIME_BAR))
                within.append(found[2] <= MEMORY_BAR or judged("  bytes of memory:", found[2], MEMORY_BAR))
            else:
                print("wrong: %s" % what, flush=True)
                within.append(False)
    return 0 if all(within) else 1


if __name__ == "__main__":
    sys.exit(main())
