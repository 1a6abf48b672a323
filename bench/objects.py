#!/usr/bin/env python3
"""Time and memory in which `polkatool link` links large objects, and its answers to a folder of programs.

    objects.py [PROGRAM] [--rounds 5] [--sections 10000] [--symbols 100000] [--relocations 100000]
    objects.py [PROGRAM] --corpus FOLDER [--rounds 5]

PROGRAM is crates/polkatool/out/polkatool of this repository if left out. It runs on Linux alone. The status is 0 where
no value is over its bar and every run ended as it may, else 1.

Without --corpus it makes an object with so many sections (an even number), symbols and relocations, one with half and
one with a quarter as many of each. Almost half of the sections are loaded, and each of these has relocations. The last
of them is a table of data, to which a quarter of the relocations belongs: R_RISCV_64 of functions. All others are code,
with R_RISCV_HI20 and R_RISCV_LO12_I of the data, R_RISCV_CALL_PLT of functions and R_RISCV_BRANCH in turn, and
R_RISCV_RELAX after each. All objects are linked, and each answer is compared with what it has to be: the map whole, and
in the container the jump table, the code and the data.

Time: the least of the rounds, less the least time of a run without words, for each byte of the object. The sizes take
turns, and the smaller ones are linked two and four times a round. The bar is on that of the whole object over that of
the quarter.
Memory: the peak resident size, less that of a run without words, which answers `bad command line`, and less the object
itself, for each byte of the object.

With --corpus each program.json below FOLDER is a program: `entries` are its entries, and each of its `variants` has
`objects`, by their paths from the folder that holds the program's own, `imports` by names, and perhaps `stack`. Each
variant is linked, and each object alone, and it is counted which answers there were, by the first line without the
place. A run that crashes, gives no answer in time, ends with another status than 0 and 1 or puts another line is told.
Of the variants that were linked, that with the most bytes is then measured, as the objects above are, and beside it,
where it is installed, LLVM's linker, `ld.lld-19 --no-relax`. Whole times are compared.
"""
import collections
import itertools
import json
import os
import re
import shutil
import subprocess
import sys
import tempfile

sys.dont_write_bytecode = True
from answers import DONE, REFUSED
from common import BAD_COMMAND_LINE, judged, parser, peak, program_in, seconds
from elf import (
    ADDI, ADDI_A0, ALLOC, ALLOC_AND_EXECINSTR, AUIPC_RA, BNE_A0, BRANCH, CALL_PLT, GLOBAL_FUNCTION, GLOBAL_UNDEFINED,
    HI20, JALR_RA, LO12_I, LOCAL, LUI_A0, RELAX, RET, Sections, WEAK_FUNCTION, WEAK_UNDEFINED, WORD64, relocation,
    symbol, word_bytes,
)
from linked import (
    ADD_IMM, ENTRY_JUMP, ENTRY_LINE, FALLTHROUGH, JUMP_IND, branch_ne_imm, code_line, data_line, jump_table,
    load_imm, load_imm_jump, number_of, offset_length,
)

RATIO_BAR = 1.5  # time a byte of the largest object over that of the smallest
MEMORY_BAR = 4  # bytes of memory a byte of object, besides the object
CORPUS_MEMORY_BAR = 48  # the same of the largest link of a corpus, whose object is small
CORPUS_SPEED_BAR = 1  # time of that link over that of LLVM's linker
TIMEOUT = 300  # seconds for one link of a corpus

PLAIN = 8  # the words at the start of a text, which symbols stand for
USES = (HI20, LO12_I, CALL_PLT, BRANCH)  # what the words after these have, in turn
USE_WORDS = {HI20: (LUI_A0,), LO12_I: (ADDI_A0,), CALL_PLT: (AUIPC_RA, JALR_RA), BRANCH: (BNE_A0,)}
TABLE, FIRST_LABEL = 1, 2  # the symbols of the data and of the first word of the first text
TABLE_ADDRESS = 0x10000
JOINED, ALONE = load_imm(TABLE_ADDRESS + 8), load_imm(TABLE_ADDRESS)  # HI20 before its LO12_I, and without one
TEXT = word_bytes([ADDI] * 7 + [RET])

# an object, the map that it is linked to, and pieces of the container: jump table and code, and the data
Case = collections.namedtuple("Case", "object map pieces")


def section_of(text):
    """The number of the section of a text, or with the number of texts that of the data."""
    return 1 + 2 * text


def word_at(n, texts):
    """One of the plain words, by its text and its offset: those at the starts of all texts first."""
    return n % texts, 4 * (n // texts % PLAIN)


def symbols_of(count, texts):
    """Entries of a symbol table and their names, the number of the first that isn't LOCAL, and what those from there on
    stand for.

    A quarter is LOCAL: the data, and plain words. Then comes `main` at the start of the first text, and behind it, in turn,
    a GLOBAL and a WEAK definition, an undefined WEAK symbol of the GLOBAL one's name, and an undefined GLOBAL one of the WEAK
    one's name.
    """
    first = count // 4
    named = [(".L%07d" % n, LOCAL, word_at(n - FIRST_LABEL, texts)) for n in range(FIRST_LABEL, first)]
    named.append(("main", GLOBAL_FUNCTION, word_at(0, texts)))
    for n in range(first + 1, count):
        turn = (n - first) % 4
        if turn in (1, 2):
            kind = ("global%07d" % n, GLOBAL_FUNCTION) if turn == 1 else ("weak%07d" % n, WEAK_FUNCTION)
            named.append((*kind, word_at(n, texts)))
        else:
            named.append((named[-2][0], WEAK_UNDEFINED if turn == 3 else GLOBAL_UNDEFINED, None))
    names, offsets = bytearray(b"\0table\0"), {}
    entries = [symbol(0, 0, 0, 0), symbol(1, LOCAL, section_of(texts), 8)]
    for name, info, word in named:
        if word:
            offsets[name] = len(names), word
            names.extend(name.encode() + b"\0")
        index, value = (section_of(word[0]), word[1]) if word else (0, 0)
        entries.append(symbol(offsets[name][0], info, index, value))
    return b"".join(entries), bytes(names), first, [offsets[name][1] for name, _, _ in named[first - FIRST_LABEL :]]


def relocations_of(uses, count):
    """The entries for a text with these uses: so many, each use's own and RELAX."""
    entries, at = bytearray(), 4 * PLAIN
    for kind, number in uses:
        entries += relocation(at, kind, number) + relocation(at, RELAX, 0)
        at += 4 * len(USE_WORDS[kind])
    return entries[: count * len(relocation(0, RELAX, 0))]


def code_of(uses, words_named, named, indexes, positions, lengths):
    """The code of all texts with these uses, and the position of each plain word and of each place at which a call returns.
    What a call names is among these words, those in the set are named, and the places have these indexes in the address map
    and these positions, as far as they are known. The offsets have these lengths, by their numbers, or are made as much
    longer as they have to be."""
    code, found, numbers = bytearray(ENTRY_JUMP), {}, itertools.count()

    def length_of(by):
        at = next(numbers)
        lengths[at] = max(lengths.get(at, 0), offset_length(by))
        return lengths[at]

    for text, uses_here in enumerate(uses):
        for at in range(0, 4 * PLAIN, 4):
            code += FALLTHROUGH if at and (text, at) in named else b""
            found[text, at] = len(code)
            code += ADD_IMM
        at = 4 * PLAIN
        for use, (kind, number) in enumerate(uses_here):
            at += 4 * len(USE_WORDS[kind])
            if kind == CALL_PLT:
                by = positions.get(words_named[number], len(code)) - positions.get(("call", text, at), len(code))
                found["call", text, at] = len(code)
                code += load_imm_jump(number_of(indexes[text, at]), by, length_of(by))
                found[text, at] = len(code)
            elif kind == BRANCH:
                by = found[text, 0] - len(code)
                code += branch_ne_imm(by, length_of(by))
            elif kind == HI20:
                code += JOINED if (LO12_I, TABLE) in uses_here[use + 1 : use + 2] else ALONE
        code += JUMP_IND
    return code, found


def returns_in(uses):
    """The places at which the calls of all texts return."""
    for text, uses_here in enumerate(uses):
        at = 4 * PLAIN
        for kind, _ in uses_here:
            at += 4 * len(USE_WORDS[kind])
            if kind == CALL_PLT:
                yield text, at


def answer_of_case(uses, words_named, addresses, size):
    """The map, and the pieces of the container, for texts with these uses and data with these addresses of functions."""
    words_at = {words_named[number] for number in addresses}
    places = sorted({*returns_in(uses), *words_at})
    indexes = {place: index for index, place in enumerate(places)}
    words_at |= {words_named[number] for uses_here in uses for kind, number in uses_here if kind == CALL_PLT}
    before, found, lengths = None, {}, {}
    while found != before:
        before = found
        code, found = code_of(uses, words_named, words_at, indexes, before, lengths)
    lines = [ENTRY_LINE, data_line(TABLE_ADDRESS, size, section_of(len(uses)))]
    lines += [code_line(index, found[text, at], section_of(text), at) for index, (text, at) in enumerate(places)]
    data = b"".join(number_of(indexes[words_named[number]]).to_bytes(8, "little") for number in addresses)
    return b"".join(lines), (jump_table([found[place] for place in places]) + code, data)


def object_of(sections, symbols, relocations):
    """The object with so many sections, symbols and relocations, and what it is linked to."""
    texts = sections // 2 - 3
    of_data = relocations // 4
    of_code = relocations - of_data
    if sections % 2 or texts < 1 or symbols < 2 * sections or relocations < sections or sections > 0xFEFF:
        sys.exit("needed are an even number of sections from 8 to 65278, as many relocations and twice as many symbols")
    entries, names, first, words_named = symbols_of(symbols, texts)
    words_named = dict(enumerate(words_named, first))
    functions = itertools.cycle(words_named)
    made = Sections(section_of(texts) + 2)
    uses = []
    for text in range(texts):
        count = of_code * (text + 1) // texts - of_code * text // texts
        kinds = [USES[k // 2 % len(USES)] for k in range(0, count, 2)]
        symbol_for = {HI20: TABLE, LO12_I: TABLE, BRANCH: FIRST_LABEL + text}
        uses.append([(kind, symbol_for.get(kind) or next(functions)) for kind in kinds])
        content = [ADDI] * PLAIN + [word for kind in kinds for word in USE_WORDS[kind]] + [RET]
        made.add_relocated(".text.f%05d" % text, ALLOC_AND_EXECINSTR, word_bytes(content), relocations_of(uses[-1], count))
    addresses = [next(functions) for _ in range(of_data)]
    table = b"".join(relocation(8 * n, WORD64, number) for n, number in enumerate(addresses))
    made.add_relocated(".rodata", ALLOC, bytes(8 * of_data), table, 8)
    return Case(made.ended(entries, first, names), *answer_of_case(uses, words_named, addresses, 8 * of_data))


def timed(program, words, status, case, most=None):
    """The seconds of one link, which has to end with the status and, where one is given, with the map of the case."""
    took, done = seconds([program, *words], most)
    if done.returncode != status or case and (done.stdout != case.map or done.stderr):
        sys.exit("%s ended with status %d: %r %r" % (words, done.returncode, done.stdout[:200], done.stderr[:200]))
    return took


def timed_case(program, source, target, case):
    """The seconds of one link of a case, whose answer is looked at."""
    if os.path.exists(target):
        os.remove(target)
    took = timed(program, ["link", "-o", target, source], DONE, case)
    with open(target, "rb") as file:
        content = file.read()
    if not all(piece in content for piece in case.pieces):
        sys.exit("a link of %s wrote another program" % source)
    return took


def started(program):
    """The seconds of a run without words."""
    return timed(program, [], BAD_COMMAND_LINE, None)


def told(what, size, took, start, memory):
    """Prints the seconds a byte and the bytes of memory a byte, and gives both."""
    a_byte, in_memory = (took - start) / size, (memory - size) / size
    text = "%-32s %9d bytes  %8.2f ns a byte  %6.2f bytes of memory a byte"
    print(text % (what, size, a_byte * 1e9, in_memory), flush=True)
    return a_byte, in_memory


def measure(program, options, folder):
    """Measures the objects, the smallest first: the seconds and the bytes of memory a byte of each."""
    target = os.path.join(folder, "out.pvm")
    cases = []
    for part in (4, 2, 1):
        counts = [options.sections // part // 2 * 2, options.symbols // part, options.relocations // part]
        case = object_of(*counts)
        source = os.path.join(folder, "%d.o" % part)
        with open(source, "wb") as file:
            file.write(case.object)
        cases.append(("%d sections %d %d" % tuple(counts), case, source, part, []))
    starts = []
    for _ in range(options.rounds):
        starts.append(started(program))
        for _, case, source, part, took in cases:
            took.extend(timed_case(program, source, target, case) for _ in range(part))
    idle = peak([program], BAD_COMMAND_LINE)
    return [
        told(what, len(case.object), min(took), min(starts), peak([program, "link", "-o", target, source], DONE) - idle)
        for what, case, source, _, took in cases
    ]


def variants_in(folder):
    """Each variant of each program below the folder: its name, the paths of its objects, and its other words."""
    for place, folders, files in os.walk(folder):
        folders.sort()
        if "program.json" not in files:
            continue
        with open(os.path.join(place, "program.json"), encoding="utf-8") as file:
            program = json.load(file)
        for name, variant in program["variants"].items():
            words = [word for entry in program["entries"] for word in ("-e", entry)]
            words += [word for item in variant["imports"].items() for word in ("-i", "%s=%s" % item)]
            words += ["--stack", str(variant["stack"])] if variant.get("stack") else []
            objects = [os.path.join(os.path.dirname(place), path) for path in variant["objects"]]
            yield "%s/%s" % (os.path.basename(place), name), objects, words


def size_of(objects):
    """How many bytes files have together."""
    return sum(os.path.getsize(path) for path in objects)


def answer_of(program, words):
    """The status of a link, None where it is none that may be, and its first line without the place of a fault."""
    try:
        done = subprocess.run([program, *words], capture_output=True, stdin=subprocess.DEVNULL, timeout=TIMEOUT)
    except subprocess.TimeoutExpired:
        return None, "no answer in %d s" % TIMEOUT
    if done.returncode < 0:
        return None, "signal %d" % -done.returncode
    line = done.stderr.decode(errors="replace").split("\n")[0].split(" object=")[0]
    if done.returncode == DONE and not line:
        return DONE, "linked"
    if done.returncode == REFUSED and re.fullmatch(r"refused \d+ \w+", line):
        return REFUSED, line
    return None, "status %d: %s" % (done.returncode, line)


def print_answers(what, answers):
    """Prints which answers there are and how often, and those that may not be; gives how many these are."""
    print("%s: %d" % (what, len(answers)))
    for answer, count in collections.Counter(answer for _, _, answer in answers).most_common():
        print("%8d  %s" % (count, answer))
    wrong = ["%s: %s" % (name, answer) for name, status, answer in answers if status not in (DONE, REFUSED)]
    for text in wrong:
        print("not as it may end: %s" % text)
    return len(wrong)


def timed_peer(peer, objects, target):
    """The seconds of one link by LLVM's linker, which takes a name without a definition to be 0."""
    took, done = seconds([peer, "--no-relax", "--unresolved-symbols=ignore-all", "-o", target, *objects])
    if done.returncode != 0:
        sys.exit("%s ended with status %d: %r" % (peer, done.returncode, done.stderr[:200]))
    return took


def measure_variant(program, rounds, variant, folder):
    """Measures the link of a variant, also beside LLVM's linker where that is installed; whether all is within its bar."""
    name, objects, words = variant
    peer = shutil.which("ld.lld-19")
    starts, took, peers = [], [], []
    for _ in range(rounds):
        starts.append(started(program))
        took.append(timed(program, words, DONE, None))
        if peer:
            peers.append(timed_peer(peer, objects, os.path.join(folder, "peer")))
    memory = peak([program, *words], DONE) - peak([program], BAD_COMMAND_LINE)
    _, in_memory = told(name, size_of(objects), min(took), min(starts), memory)
    in_memory = judged("bytes of memory a byte:", in_memory, CORPUS_MEMORY_BAR)
    in_speed = not peer or judged("time over that of ld.lld:", min(took) / min(peers), CORPUS_SPEED_BAR)
    return in_memory and in_speed


def measure_corpus(program, options, folder):
    """Counts the answers to a corpus and measures its largest variant; whether all is as it may be."""
    target = ["link", "-o", os.path.join(folder, "out.pvm")]
    variants = [(name, objects, target + words + objects) for name, objects, words in variants_in(options.corpus)]
    if not variants:
        sys.exit("there is no program.json below %s" % options.corpus)
    answers = [(name, *answer_of(program, words)) for name, _, words in variants]
    paths = sorted({path for _, objects, _ in variants for path in objects})
    alone = [(path, *answer_of(program, target + [path])) for path in paths]
    if print_answers("programs", answers) + print_answers("objects alone", alone):
        return False
    linked = [variant for variant, (_, status, _) in zip(variants, answers) if status == DONE]
    if not linked:
        return True
    return measure_variant(program, options.rounds, max(linked, key=lambda variant: size_of(variant[1])), folder)


def main():
    words = parser(5)
    words.add_argument("--sections", type=int, default=10000)
    words.add_argument("--symbols", type=int, default=100000)
    words.add_argument("--relocations", type=int, default=100000)
    words.add_argument("--corpus")
    options = words.parse_args()
    program = program_in(options)
    with tempfile.TemporaryDirectory() as folder:
        if options.corpus:
            return 0 if measure_corpus(program, options, folder) else 1
        found = measure(program, options, folder)
    smallest, largest = found[0][0], found[-1][0]
    if smallest <= 0:
        sys.exit("a link of the smallest object takes no longer than a run without words: try more --rounds")
    in_time = judged("time a byte of the whole over that of a quarter:", largest / smallest, RATIO_BAR)
    in_memory = judged("most bytes of memory a byte:", max(a_byte for _, a_byte in found), MEMORY_BAR)
    return 0 if in_time and in_memory else 1


if __name__ == "__main__":
    sys.exit(main())
