#!/usr/bin/env python3
"""Memory and time of calls on inner machines, by a service in C that makes them (calls 8 to 13).

    machines.py [PROGRAM] [--rounds 3]

PROGRAM is crates/polkatool/out/polkatool of this repository if left out. The service is compiled by clang 19; where
that isn't on PATH the script does nothing and says so. The least time of the rounds counts. Three things are measured:

- what 1,024 machines take that have a page near the top of their memory each, by `run` and by `exec`: at most 64 KiB a
  machine;
- what an invoke of ten instructions takes in time, its line of the transcript counted, and in gas: at most 100 for all
  that the service does at each of them;
- what the calls `machine` take over most of a heap of 2^28 bytes that spells no program, and then one that is too long:
  the peak is at most a hundredth higher than that of a run which fills the heap and doesn't make the calls.

The status is 0 where nothing is over its bar, else 1.
"""
import os
import re
import shutil
import subprocess
import sys
import tempfile

sys.dont_write_bytecode = True
from common import asked, judged, peak, seconds

CLANG = "clang-19"
FLAGS = "--target=riscv64-unknown-elf -march=rv64em -mabi=lp64e -ffreestanding -nostdlib -O2 -fno-builtin -c".split()
IMPORTS = {"machine": 8, "peek": 9, "poke": 10, "pages": 11, "invoke": 12, "expunge": 13, "more": "sbrk"}

MOST_MACHINES = 1024
INVOKES = 50_000
GAS = 2**40
HOLD, INVOKE, REFUSE = range(3)  # what the service does, by the first byte of its argument
MACHINE_BAR = 65536
GAS_BAR = 100
REFUSED_BAR = 1.01

ADD_IMM = bytes.fromhex("957701")  # add_imm_64 r7 r7 1
JUMP_BACK = bytes.fromhex("28e5")  # jump to 27 bytes before it
STEPS = 10  # nine additions and the jump back

SERVICE = r"""
typedef unsigned char u8;
typedef unsigned long u64;

struct output { const void *bytes; u64 len; };
struct state { u64 gas; u64 registers[13]; };
struct stop { u64 reason; u64 value; };

extern u64 machine(const u8 *program, u64 len, u64 counter);
extern u64 peek(u64 number, void *to, u64 from, u64 len);
extern u64 poke(u64 number, const void *from, u64 to, u64 len);
extern u64 pages(u64 number, u64 first, u64 count, u64 how);
extern struct stop invoke(u64 number, struct state *state);
extern u64 expunge(u64 number);
extern u8 *more(u64 size);

#define LAST_PAGE 0xffffeul
#define HEAP (1ul << 28)
#define CODE 0x0c000000ul
#define FULL -5ul
#define HUH -9ul
#define OUT_OF_GAS 4

static const u8 program[] = {%s};
static struct state state;

static void wants(u64 value, u64 wanted) {
    if (value != wanted)
        __builtin_trap();
}

static u64 made(u64 number) {
    u64 sent = number * 7 + 1, back = 0;
    wants(machine(program, sizeof program, 0), number);
    wants(pages(number, LAST_PAGE, 1, 2), 0);
    wants(poke(number, &sent, LAST_PAGE << 12, sizeof sent), 0);
    wants(peek(number, &back, LAST_PAGE << 12, sizeof back), 0);
    wants(back, sent);
    return number;
}

static void run(u64 number) {
    state.gas = %d;
    wants(invoke(number, &state).reason, OUT_OF_GAS);
}

static void hold(u64 count) {
    for (u64 at = 0; at < count; at++)
        run(made(at));
    if (count)
        wants(expunge(count - 1) < sizeof program, 1);
}

static void invokes(u64 count) {
    u64 number = made(0);
    for (u64 at = 0; at < count; at++)
        run(number);
}

/* Bytes that are zero are no program. With these counts at their front they are one that is too long. */
static void refuse(u64 count) {
    static const u8 counts[] = {0, 0, 0xe0 | CODE >> 24, 0, 0, 0};
    u8 *heap = more(HEAP);
    u64 len = sizeof counts + CODE + CODE / 8;
    if (count == 0)
        return;
    wants(machine(heap, len, 0), HUH);
    for (u64 at = 0; at < sizeof counts; at++)
        heap[at] = counts[at];
    wants(machine(heap, len, 0), FULL);
}

struct output main(const u8 *argument, u64 len) {
    static void (*const ways[])(u64) = {hold, invokes, refuse};
    u64 count = 0;
    for (u64 at = 1; at < len; at++)
        count |= (u64)argument[at] << 8 * (at - 1);
    ways[argument[0]](count);
    return (struct output){0, 0};
}
"""


def inner_program():
    """The program of an inner machine, which goes on for as long as it has gas."""
    code = ADD_IMM * (STEPS - 1) + JUMP_BACK
    starts = sum(1 << at for at in range(0, len(code), len(ADD_IMM)))
    return bytes((0, 0, len(code))) + code + starts.to_bytes((len(code) + 7) // 8, "little")


def argument(way, count):
    """The words for the argument of a run."""
    return ["--arg", (bytes((way,)) + count.to_bytes(4, "little")).hex(), "--gas", str(GAS)]


def gas_left(words):
    """The gas that a run which halts has left."""
    _, done = seconds(words)
    left = re.search(rb"gas left=(\d+)", done.stdout)
    if done.returncode != 0 or left is None:
        sys.exit("%s ended with status %d: %s" % (words, done.returncode, done.stderr.decode()))
    return int(left.group(1))


def built(program, folder):
    """The object of the service, and the container that it is linked to."""
    source, service, container = (os.path.join(folder, "service" + end) for end in (".c", ".o", ".pvm"))
    with open(source, "w", encoding="utf-8") as file:
        file.write(SERVICE % (", ".join(map(str, inner_program())), STEPS))
    imports = [word for name, number in IMPORTS.items() for word in ("-i", "%s=%s" % (name, number))]
    for words in ([CLANG, *FLAGS, source, "-o", service], [program, "link", "-o", container, *imports, service]):
        done = subprocess.run(words, capture_output=True, text=True)
        if done.returncode != 0:
            sys.exit("%s ended with status %d: %s" % (words, done.returncode, done.stderr))
    return [program, "exec", *imports, service], [program, "run", container]


def main():
    program, rounds = asked(3)
    if shutil.which(CLANG) is None:
        print("machines: skipped, since %s isn't on PATH" % CLANG)
        return 0
    with tempfile.TemporaryDirectory() as folder:
        executed, run = built(program, folder)
        within = []
        for words in (run, executed):
            none, all_of_them = (peak(words + argument(HOLD, count), 0) for count in (0, MOST_MACHINES))
            print("%s: peak of %d KiB, with no machine %d KiB" % (words[1], all_of_them // 1024, none // 1024))
            held = (all_of_them - none) / MOST_MACHINES
            within.append(judged("bytes a machine, by %s" % words[1], held, MACHINE_BAR))
        few, many = run + argument(INVOKE, 1), run + argument(INVOKE, 1 + INVOKES)
        took = min(seconds(many)[0] for _ in range(rounds)) - min(seconds(few)[0] for _ in range(rounds))
        print("an invoke of %d instructions: %.0f ns" % (STEPS, 1e9 * took / INVOKES))
        within.append(judged("gas of an invoke", (gas_left(few) - gas_left(many)) / INVOKES, GAS_BAR))
        heap, refused = (peak(run + argument(REFUSE, count), 0) for count in (0, 1))
        print("a heap of 2^28 bytes: peak of %d KiB, with two calls %d KiB" % (heap // 1024, refused // 1024))
        within.append(judged("peak with calls that are refused, over that without", refused / heap, REFUSED_BAR))
    return 0 if all(within) else 1


if __name__ == "__main__":
    sys.exit(main())
