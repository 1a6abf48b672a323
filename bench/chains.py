#!/usr/bin/env python3
"""Time of `polkatool link` on chains of offsets, where each offset that gets longer makes exactly one other get longer.

    chains.py [PROGRAM] [--rounds 1] [--most 1000000]

PROGRAM is crates/polkatool/out/polkatool of this repository if left out. There are four kinds of chains, of 10^4, 10^5 and
so on up to --most links, as far as an object of 2^24 bytes holds them:

  forward   jumps back over 42 jumps. Where these have two bytes each, the next is too far for one byte.
  backward  the same from the end, with jumps ahead.
  near      jumps ahead and back in turn, that lengthen from one byte to two and lie less than 128 bytes apart.
  far       the same from two bytes to three, less than 32 KiB apart.

A linker that goes over the whole text again for each link of a chain takes the square of its length. The code is compared
with what it has to be. The bar: a link of the longest chain of a kind takes at most four times as long as one of the
shortest. The status is 0 where nothing is over its bar, else 1.
"""
import os
import sys
import tempfile

sys.dont_write_bytecode = True
from common import judged, parser, program_in, seconds
from elf import ADDI, LARGEST, RET, object_of
from linked import ADD_IMM, ENTRY_JUMP, ENTRY_LINE, JUMP_IND, offset

JUMP = b"\x28"
JAL = 0x6F
REACH_OF_JAL = 2**20
SHORTEST = 10**4
TIME_BAR = 4
ADDIS = 2  # in front of each jump ahead of the chains that go both ways
ADDI_BYTES, RET_BYTES = len(ADD_IMM), len(JUMP_IND)
ODD_BYTES = ADDI_BYTES + RET_BYTES


def jal(by):
    """jal x0 to an offset."""
    if not -REACH_OF_JAL <= by < REACH_OF_JAL:
        sys.exit("jal doesn't reach %d" % by)
    bits = by & 0x1FFFFF
    return (bits >> 20) << 31 | (bits >> 1 & 0x3FF) << 21 | (bits >> 11 & 1) << 20 | (bits >> 12 & 0xFF) << 12 | JAL


class Text:
    """Blocks of `addi`, each ended by a jump to a block or by a return."""

    def __init__(self):
        self.addis, self.targets, self.lengths = [], [], []

    def add(self, addis=0, target=None, length=0):
        """Adds a block and gives its number. The length is that of its offset in the end."""
        self.addis.append(addis)
        self.targets.append(target)
        self.lengths.append(length)
        return len(self.addis) - 1

    def object(self):
        """The object with these blocks."""
        starts, words = [], []
        for addis in self.addis:
            starts.append(starts[-1] + self.addis[len(starts) - 1] + 1 if starts else 0)
        for block, (addis, target) in enumerate(zip(self.addis, self.targets)):
            words += [ADDI] * addis
            words.append(RET if target is None else jal(4 * (starts[target] - starts[block] - addis)))
        return object_of(words)

    def code(self):
        """The code that it is linked to."""
        starts, ends = [], [0]
        for addis, target, length in zip(self.addis, self.targets, self.lengths):
            starts.append(ends[-1])
            ends.append(starts[-1] + ADDI_BYTES * addis + (RET_BYTES if target is None else 1 + length))
        code = [ENTRY_JUMP]
        for addis, target, length, start in zip(self.addis, self.targets, self.lengths, starts):
            by = None if target is None else starts[target] - start - ADDI_BYTES * addis
            code.append(ADD_IMM * addis + (JUMP_IND if target is None else JUMP + offset(by, length)))
        return b"".join(code)


def forward(links):
    """The first 43 jumps are far ahead from the beginning, and each of the others begins 43 jumps after its target."""
    text = Text()
    for number in range(43):
        text.add(0, number + 100, 2)
    for number in range(43, links):
        text.add(0, number - 43, 2)
    for _ in range(60):
        text.add()
    return text


def backward(links):
    """The last 43 jumps are far back from the beginning, and each of the others begins 43 jumps before its target."""
    text = Text()
    for number in range(links):
        text.add(0, number + 43, 2)
    for number in range(links, links + 43):
        text.add(0, number - 100, 2)
    text.add()
    return text


def both_ways(links, length):
    """Units of jumps ahead, a gap and jumps back, which lengthen in turn from this length. A jump back leads over as many
    jumps ahead as have lengthened before it, and a jump ahead over as many jumps back, so that the last of these is one
    byte too much. The first jump of the next unit leads back over the last of the one before.

    With a bytes for a jump ahead before it lengthens and b for a jump back with its block of filling, a = b + 1, so the
    distances stay the same from one pair to the next. `behind` jumps ahead and `beyond` jumps back beside the chain make
    the first and the last of a unit like the others.
    """
    reach = 1 << 8 * length - 1
    a, b = ADDIS * ADDI_BYTES + 1 + length, ODD_BYTES + 1 + length
    behind, beyond, most = {1: (4, 6, 10), 2: (1, 2, 3600)}[length]
    between = reach - (a + 1) * behind  # from the first jump ahead to the first jump back, where none has lengthened
    odd = length - 1  # the gap of longer chains begins with a block of an odd number of bytes
    count = min(most, between // a)
    while (between - a * count - odd * ODD_BYTES) % RET_BYTES:
        count -= 1
    gap = (between - a * count - odd * ODD_BYTES) // RET_BYTES + odd
    text, before = Text(), None
    for _ in range(max(1, links // (2 * count))):
        first = len(text.addis)
        ahead = range(first, first + behind + count)
        back = range(first + behind + count + gap, first + behind + count + gap + 2 * (count + beyond), 2)
        end = back.stop
        for number, block in enumerate(ahead):
            text.add(ADDIS, end if number < behind else back[number - behind + beyond - 1] + 2, length + 1)
        for number in range(gap):
            text.add(int(odd and number == 0))
        for number, block in enumerate(back):
            if number < count:
                text.add(0, ahead[number], length + 1)
            else:
                text.add(0, back[number - (1 if length == 1 else 100)], length)
            text.add(1)
        text.targets[ahead[behind]] = end if before is None else before
        # one byte more than the reach before the first jump of the next unit, with the last jump back lengthened
        left = reach + 1 - ADDIS * ADDI_BYTES - behind * (a + 1) - beyond * b
        over = min(count, left // (b + 1))
        left -= over * (b + 1)
        if over < count:
            before = back[count - over] - 1  # the filling of the jump back before those
            left -= ODD_BYTES
        else:
            before = back[0] - left // RET_BYTES
            left %= RET_BYTES
        if left:
            sys.exit("a unit can't lead to the next")
    for _ in range(120 if length == 1 else 20000):
        text.add()
    return text


KINDS = {
    "forward": forward,
    "backward": backward,
    "near": lambda links: both_ways(links, 1),
    "far": lambda links: both_ways(links, 2),
}


def timed_link(program, source, target, what, code):
    """The seconds of one link, whose answer is looked at."""
    if os.path.exists(target):
        os.remove(target)
    took, done = seconds([program, "link", "-o", target, source])
    if done.returncode != 0 or done.stdout != ENTRY_LINE or done.stderr:
        sys.exit("%s ended with status %d: %r %r" % (what, done.returncode, done.stdout[:200], done.stderr[:200]))
    with open(target, "rb") as file:
        if code not in file.read():
            sys.exit("%s: another code" % what)
    return took


def main():
    words = parser(1)
    words.add_argument("--most", type=int, default=10**6)
    options = words.parse_args()
    program = program_in(options)
    within = []
    with tempfile.TemporaryDirectory() as folder:
        source, target = os.path.join(folder, "chain.o"), os.path.join(folder, "out.pvm")
        for kind, text_of in KINDS.items():
            found, links = [], SHORTEST
            while links <= options.most:
                text = text_of(links)
                content = text.object()
                if len(content) > LARGEST:
                    break
                with open(source, "wb") as file:
                    file.write(content)
                what, code = "%s, %d links" % (kind, links), text.code()
                took = min(timed_link(program, source, target, what, code) for _ in range(options.rounds))
                print("%-24s %9d bytes  %8.3f s  %8.0f ns a link" % (what, len(content), took, took / links * 1e9), flush=True)
                found.append(took / links)
                links *= 10
            within.append(judged("time a link of the longest over that of the shortest, %s:" % kind, found[-1] / found[0], TIME_BAR))
    return 0 if all(within) else 1


sys.exit(main())
