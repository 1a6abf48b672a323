#!/usr/bin/env python3
"""Tries polkatool on damaged objects, containers, replies and arguments, and tells each end that isn't as it is stated.

    damage.py [PROGRAM] [--minutes 0] [--seed 0] [--corpus FOLDER] [--seconds 10] [--megabytes 2048] [--keep FOLDER]

PROGRAM is crates/polkatool/out/polkatool of this repository if left out. The files are those of the examples, and the
objects below the folder of --corpus. The fixed cases come first: each field of two objects at its extremes, two
objects, a container and a file of replies with each of their bytes changed, or cut there, and values at their extremes
for each option. Then, for so many minutes, cases are made at random from the seed: bits flipped, ranges overwritten,
cut, moved or swapped, sections swapped, fields at extremes, words left out, doubled, swapped and replaced.

An end is as stated if it comes within the seconds and the megabytes, with a status and a line that README.md has for
the command, with a refusal that docs/faults.md has, with the form of output that the status has, and if no file has
changed but the output of a link that is done. In addition, a container that was linked is checked, disassembled and
run, and `exec` has to print what this run prints. `check`, `disassemble` and `run` have to report the same fault of a
container.

--megabytes bounds the address space: a run that needs more ends with status 9, which is told too. It has no effect on a
program that can't begin in so little, as one that was built with a sanitizer.

Each wrong end is told, with the case's number, and its files are kept in --keep. The status is 0 if there is none, else
1.
"""
import os
import random
import resource
import struct
import subprocess
import sys
import tempfile
import time

sys.dont_write_bytecode = True
from answers import DONE, NO_MEMORY, REFUSED, STATUSES, fault_of, files_in, refusals, run_in
from common import BAD_COMMAND_LINE, ROOT, parser, program_in

GAS = b"100000"
EXAMPLES = ("five/five.o", "letters/letters.o", "lookup/lookup.o", "digest/digest.o", "primes/primes.o")
EXAMPLES += ("reverse/reverse.o", "sandbox/sandbox.o", "weights/main.o", "weights/weighted.o")
IMPORTED = ("fetch=100", "store=101", "more_heap=sbrk", "machine=8", "invoke=12", "expunge=13")
IMPORTS = [word for name in IMPORTED for word in (b"-i", name.encode())]
SHT_SYMTAB, SHT_RELA = 2, 4
# fields as offset and length: of the header, of a section's header, of a symbol and of a relocation
HEADER = [(at, 1) for at in range(16)] + [(16, 2), (18, 2), (20, 4), (24, 8), (32, 8), (40, 8), (48, 4)]
HEADER += [(at, 2) for at in range(52, 64, 2)]
SECTION = [(0, 4), (4, 4), (8, 8), (16, 8), (24, 8), (32, 8), (40, 4), (44, 4), (48, 8), (56, 8)]
SYMBOL = [(0, 4), (4, 1), (5, 1), (6, 2), (8, 8), (16, 8)]
RELOCATION = [(0, 8), (8, 4), (12, 4), (16, 8)]
NUMBERS = [b"", b"0", b"1", b"00", b"01", b"-0", b"-1", b"+1", b" 1", b"1 ", b"0x10", b"1e3", b"a", b"\n", b"\xc3\xa9", b"1\n"]
NUMBERS += [b"%d" % (2**n + by) for n in (15, 16, 20, 24, 31, 32, 63, 64, 128) for by in (-1, 0, 1)]
TEXTS = [b"-", b"--", b"-o", b"-e", b"main", b".", b"..", b"missing/file", b"\xff", b"n" * 255, b"n" * 256, b"n" * 131071]
TEXTS += [b"=", b"=5", b"x=", b"x=5", b"x=05", b"x=sbrk", b"x=SBRK", b"x==5", b"x=5=sbrk", b"x=2147483647", b"x=2147483648"]
TEXTS += [b"f", b"0g", b"FF", b"f" * 131070, b"f" * 131071, b"five.o", b"five.pvm", b"replies", b"folder"]
SIGNS = b" \n\r\t\0:=0189afgrxzAFG78-+\x7f\x80\xff"  # what stands in for a byte of a file of replies


def changed(content, at, new):
    """Bytes with others from an offset on, as far as they reach."""
    return content[:at] + new[: max(0, len(content) - at)] + content[at + len(new):]


def extremes(content, at, length):
    """Bytes with a field of so many bytes at each of its extremes."""
    old, top = int.from_bytes(content[at:at + length], "little"), 1 << 8 * length
    size = len(content)
    values = [0, 1, 2, 3, 4, 7, 8, top // 2 - 1, top // 2, top - 1, top - 2, top - 8, old - 1, old + 1, old ^ top // 2]
    values += [size - 1, size, size + 1, size // 2, 0xFF00, 0xFFF1, 0xFFF2, 1 << 24, 1 << 32]
    for value in sorted({value % top for value in values} - {old}):
        yield value, changed(content, at, value.to_bytes(length, "little"))


def fields_of(content):
    """The fields of an object by their names: offset and length, where its header leads to them."""
    found = [("header field at %d" % at, at, length) for at, length in HEADER if at + length <= len(content)]
    if len(content) < 64:
        return found
    table, = struct.unpack_from("<Q", content, 40)
    count, = struct.unpack_from("<H", content, 60)
    for number in range(count):
        begin = table + 64 * number
        if begin + 64 > len(content):
            break
        found += [("section %d field at %d" % (number, at), begin + at, length) for at, length in SECTION]
        kind, = struct.unpack_from("<I", content, begin + 4)
        place, size = struct.unpack_from("<QQ", content, begin + 24)
        rows = {SHT_SYMTAB: SYMBOL, SHT_RELA: RELOCATION}.get(kind, [])
        for row in range(min(size // 24, 1000)):
            if place + 24 * row + 24 > len(content):
                break
            what = "section %d row %d field at " % (number, row)
            found += [(what + str(at), place + 24 * row + at, length) for at, length in rows] if rows else []
    return found


def sections_of(content):
    """Where the headers of sections begin."""
    if len(content) < 64:
        return []
    table, = struct.unpack_from("<Q", content, 40)
    count, = struct.unpack_from("<H", content, 60)
    return [table + 64 * number for number in range(count) if table + 64 * number + 64 <= len(content)]


class Maker:
    """Makes cases: what each is, its files, and its commands."""

    def __init__(self, folder, corpus):
        self.files = {}
        for path in EXAMPLES:
            with open(os.path.join(ROOT, "examples", path), "rb") as file:
                self.files[os.path.basename(path).encode()] = file.read()
        with open(os.path.join(ROOT, "examples", "lookup", "found.replies"), "rb") as file:
            self.replies = file.read()
        self.objects = list(self.files.values()) + [content for content in objects_below(corpus) if len(content) < 1 << 17]
        self.five, self.letters = self.files[b"five.o"], self.files[b"letters.o"]
        self.containers = [linked for linked in folder.values()]
        self.five_container, self.lookup_container = folder[b"five.o"], folder[b"lookup.o"]

    def of_object(self, what, content):
        """The link of a damaged object, alone; what else is done with its container follows from the answer."""
        return what, {b"o": content}, [[b"link", b"-o", b"out", *IMPORTS, b"o"]]

    def of_container(self, what, content):
        words = [[b"check", b"b"], [b"disassemble", b"b"], [b"run", b"--gas", GAS, b"--arg", b"0102", b"b"]]
        return what, {b"b": content}, words

    def of_replies(self, what, content):
        words = [b"run", b"--gas", GAS, b"--arg", b"6b6579", b"--replies", b"r", b"b"]
        return what, {b"b": self.lookup_container, b"r": content}, [words]

    def of_words(self, what, words):
        files = {b"five.o": self.five, b"five.pvm": self.five_container, b"replies": self.replies}
        return what, files, [words]

    def commands(self):
        """Commands that are done, by which words are damaged."""
        run = [b"--gas", b"1000", b"--entry", b"0", b"--arg", b"0102", b"--replies", b"replies"]
        link = [b"-e", b"main", b"-i", b"fetch=100", b"-i", b"grow=sbrk", b"--stack", b"4096"]
        return [
            [b"link", b"-o", b"out", *link, b"five.o"],
            [b"run", *run, b"five.pvm"],
            [b"exec", *link, *run, b"five.o"],
            [b"check", b"five.pvm"],
            [b"disassemble", b"five.pvm"],
            [b"gen", b"7", b"100"],
        ]

    def fixed(self):
        """The fixed cases."""
        for name, content in (("five.o", self.five), ("letters.o", self.letters)):
            for what, at, length in fields_of(content):
                for value, other in extremes(content, at, length):
                    yield self.of_object("%s: %s is %d" % (name, what, value), other)
            for at in range(0, len(content), 4):
                yield self.of_object("%s: cut at %d" % (name, at), content[:at])
        for what, make, content, signs in (
            ("container", self.of_container, self.five_container, bytes([0, 1, 0x7F, 0x80, 0xBF, 0xC0, 0xFF, 0xFE])),
            ("replies", self.of_replies, self.replies, SIGNS),
        ):
            for at in range(len(content)):
                for sign in signs:
                    yield make("%s: byte %d is %d" % (what, at, sign), changed(content, at, bytes([sign])))
                    yield make("%s: %d inserted at %d" % (what, sign, at), content[:at] + bytes([sign]) + content[at:])
                yield make("%s: cut at %d" % (what, at), content[:at])
                yield make("%s: without byte %d" % (what, at), content[:at] + content[at + 1:])
        for words in self.commands():
            for at in range(len(words)):
                for value in NUMBERS + TEXTS:
                    other = words[:at] + [value] + words[at + 1:]
                    yield self.of_words("word %d of %s is %r" % (at, words[0].decode(), value[:40]), other)
                yield self.of_words("%s without word %d" % (words[0].decode(), at), words[:at] + words[at + 1:])
                yield self.of_words("%s with word %d twice" % (words[0].decode(), at), words[:at + 1] + words[at:])

    def at_random(self, chance):
        """A case by chance."""
        kind = chance.random()
        if kind < 0.65:
            content = chance.choice(chance.choice((self.objects, list(self.files.values()))))
            steps = [damage_object] * 3 + [damage_bytes]
            return self.of_object("object", damaged(chance, content, steps))
        if kind < 0.85:
            return self.of_container("container", damaged(chance, chance.choice(self.containers), [damage_bytes]))
        if kind < 0.93:
            return self.of_replies("replies", damaged(chance, chance.choice([self.replies, self.replies * 40]), [damage_text]))
        words = chance.choice(self.commands())
        for _ in range(chance.randint(1, 4)):
            words = damage_words(chance, words)
        return self.of_words("words", words)


def objects_below(corpus):
    """The objects below a folder, in order."""
    found = []
    for place, folders, names in os.walk(corpus) if corpus else ():
        folders.sort()
        for name in sorted(names):
            if name.endswith(".o"):
                with open(os.path.join(place, name), "rb") as file:
                    found.append(file.read())
    return found


def damaged(chance, content, steps):
    """Bytes after one to four steps of damage."""
    for _ in range(chance.choice((1, 1, 1, 1, 2, 3, 4))):
        content = chance.choice(steps)(chance, content) if content else content
    return content


def damage_bytes(chance, content):
    """Bytes with bits flipped, or a range of them overwritten, cut, inserted, moved or swapped."""
    kind, size = chance.randrange(7), len(content)
    at, length = chance.randrange(size), chance.choice([1, 2, 4, 8, 16, 24, 64, 1000])
    if kind == 0:
        for _ in range(chance.randint(1, 8)):
            at = chance.randrange(size)
            content = changed(content, at, bytes([content[at] ^ 1 << chance.randrange(8)]))
        return content
    if kind == 1:
        return changed(content, at, bytes([chance.choice([0, 0xFF, 0x7F, 0x80, chance.randrange(256)])]) * length)
    if kind == 2:
        return content[:at]
    if kind == 3:
        return content[:at] + content[at + length:]
    if kind == 4:
        return content[:at] + chance.randbytes(length) + content[at:]
    other = chance.randrange(size)
    if kind == 5:
        return changed(content, at, content[other:other + length])
    first, second = content[at:at + length], content[other:other + length]
    return changed(changed(content, at, second), other, first)


def damage_object(chance, content):
    """An object with a field at an extreme, or two headers of sections swapped, or one that leads to another's bytes."""
    headers = sections_of(content)
    kind = chance.randrange(6)
    if kind < 4 or len(headers) < 2:
        fields = fields_of(content)
        if not fields:
            return content[:-1]
        _, at, length = chance.choice(fields)
        return chance.choice([other for _, other in extremes(content, at, length)])
    one, two = chance.sample(headers, 2)
    first, second = content[one:one + 64], content[two:two + 64]
    if kind == 4:
        return changed(changed(content, one, second), two, first)
    return changed(content, one + 24, second[24:40])


def damage_text(chance, content):
    """A file of replies with signs replaced, inserted or left out, or a part of it again."""
    kind, at = chance.randrange(4), chance.randrange(len(content))
    sign = bytes([chance.choice(SIGNS)])
    if kind == 0:
        return changed(content, at, sign)
    if kind == 1:
        return content[:at] + sign + content[at:]
    if kind == 2:
        return content[:at] + content[at + chance.randint(1, 30):]
    return content + content[at:at + chance.randint(1, 2000)]


def damage_words(chance, words):
    """Words of which one is left out, doubled, moved or replaced, or is another's."""
    words, kind = list(words), chance.randrange(5)
    if not words:
        return words
    at = chance.randrange(len(words))
    if kind == 0:
        del words[at]
    elif kind == 1:
        words.insert(chance.randint(0, len(words)), words[at])
    elif kind == 2:
        words.insert(chance.randrange(len(words)), words.pop(at))
    else:
        words[at] = chance.choice(NUMBERS + TEXTS)
    return words


class Trial:
    """Runs cases in a folder of their own, and tells those that end otherwise than stated."""

    def __init__(self, program, options, folder):
        self.program, self.most, self.keep, self.folder = program, options.seconds, options.keep, folder
        self.known, self.cases, self.wrong, self.ends = refusals(), 0, 0, {}
        self.longest = 0.0, ""

    def run(self, words, before):
        """The end of one command, and what of it is wrong or None."""
        begin = time.perf_counter()
        end = run_in(self.program, words, self.folder, self.most)
        self.longest = max(self.longest, (time.perf_counter() - begin, b" ".join(words)[:60].decode(errors="replace")))
        text = fault_of(words, end, before, self.known)
        if text is None and end.status == NO_MEMORY:
            text = "status 9 in so much memory"
        key = (words[0].decode(errors="replace") if words else "", end.status)
        if key[0] in STATUSES:
            self.ends[key] = self.ends.get(key, 0) + 1
        return end, text

    def tried(self, files, commands):
        """What is wrong with the ends of commands over these files, or None."""
        for name in files_in(self.folder):
            os.remove(os.path.join(os.fsencode(self.folder), name))
        for name, content in files.items():
            with open(os.path.join(os.fsencode(self.folder), name), "wb") as file:
                file.write(content)
        before, ends = dict(files), {}
        for words in commands:
            end, text = self.run(words, before)
            if text:
                return "%r: %s" % (words, text)
            before = end.files
            if words:
                ends[words[0]] = end
        if b"check" in ends and b"run" in ends:
            return contradiction(ends)
        if b"link" in ends and ends[b"link"].status == DONE and b"out" in before and b"o" in files:
            return self.of_linked(before)
        return None

    def of_linked(self, before):
        """What is wrong with the container that was linked from `o`, or None."""
        run = [b"--gas", GAS, b"--arg", b"0102"]
        ends = {}
        for words in ([b"check", b"out"], [b"disassemble", b"out"], [b"run", *run, b"out"], [b"exec", *IMPORTS, *run, b"o"]):
            ends[words[0]], text = self.run(words, before)
            if text:
                return "%r: %s" % (words, text)
        if ends[b"check"].status != DONE or ends[b"disassemble"].status != DONE:
            return "what was linked isn't checked or disassembled"
        if ends[b"run"] != ends[b"exec"] or ends[b"run"].status == REFUSED:
            return "run and exec end in different ways: %r, %r" % (ends[b"run"][:3], ends[b"exec"][:3])
        return None

    def case(self, number, what, files, commands):
        """Tries a case."""
        text = self.tried(files, commands)
        self.cases += 1
        if text:
            self.wrong += 1
            print("wrong: %s (%s): %s" % (number, what, text[:2000]), flush=True)
            if self.keep:
                place = os.path.join(self.keep, number.replace(" ", "-"))
                os.makedirs(place, exist_ok=True)
                for name, content in files.items():
                    with open(os.path.join(os.fsencode(place), name), "wb") as file:
                        file.write(content)


def contradiction(ends):
    """What `check`, `disassemble` and `run` say of one container in contradiction, or None."""
    check, text, run = ends[b"check"], ends[b"disassemble"], ends[b"run"]
    in_bytes = check.status == REFUSED and 40 <= int(check.err.split()[1]) <= 44
    if (text.status == REFUSED) != in_bytes or in_bytes and (text.err != check.err or run.err != check.err):
        return "different faults: %r %r %r" % (check.err, text.err, run.err)
    if check.status == DONE and run.status == REFUSED:
        return "checked, and refused by run: %r" % run.err
    return None


def linked_examples(program, folder, most):
    """The containers of the examples, by the names of their objects."""
    found = {}
    for path in EXAMPLES:
        if path.startswith("weights/weighted"):
            continue
        words = [os.path.join(ROOT, "examples", path)]
        if path == "weights/main.o":
            words.append(os.path.join(ROOT, "examples", "weights", "weighted.o"))
        end = run_in(program, [b"link", b"-o", b"linked", *IMPORTS, *map(os.fsencode, words)], folder, most)
        if end.status == DONE:
            found[os.path.basename(path).encode()] = end.files[b"linked"]
        else:
            sys.exit("%s isn't linked: status %s %r" % (path, end.status, end.err))
    return found


def limit(program, megabytes):
    """Limits the address space of all runs, if a run without words still ends as it should."""
    size = megabytes << 20
    if size:
        resource.setrlimit(resource.RLIMIT_AS, (size, resource.getrlimit(resource.RLIMIT_AS)[1]))
        if subprocess.run([program], capture_output=True).returncode != BAD_COMMAND_LINE:
            resource.setrlimit(resource.RLIMIT_AS, (resource.RLIM_INFINITY, resource.getrlimit(resource.RLIMIT_AS)[1]))
            print("memory isn't limited: the program can't begin in %d MB" % megabytes)
    resource.setrlimit(resource.RLIMIT_CORE, (0, 0))


def main():
    words = parser(1)
    words.add_argument("--minutes", type=float, default=0)
    words.add_argument("--seed", type=int, default=0)
    words.add_argument("--corpus")
    words.add_argument("--seconds", type=float, default=10)
    words.add_argument("--megabytes", type=int, default=2048)
    words.add_argument("--keep")
    options = words.parse_args()
    program = program_in(options)
    limit(program, options.megabytes)
    with tempfile.TemporaryDirectory() as folder:
        os.mkdir(os.path.join(folder, "folder"))
        maker = Maker(linked_examples(program, folder, options.seconds), options.corpus)
        trial = Trial(program, options, folder)
        for number, case in enumerate(maker.fixed()):
            trial.case("fixed %d" % number, *case)
        print("%d fixed cases, %d wrong" % (trial.cases, trial.wrong), flush=True)
        fixed, end, number = trial.cases, time.monotonic() + 60 * options.minutes, 0
        while time.monotonic() < end:
            chance = random.Random("%d %d" % (options.seed, number))
            trial.case("seed %d case %d" % (options.seed, number), *maker.at_random(chance))
            number += 1
    print("%d random cases" % (trial.cases - fixed))
    for (command, status), count in sorted(trial.ends.items(), key=str):
        print("%8d  %s with status %s" % (count, command, status))
    print("longest: %.2f s, %s" % trial.longest)
    print("%d cases, %d wrong" % (trial.cases, trial.wrong))
    return 0 if trial.wrong == 0 else 1


if __name__ == "__main__":
    sys.exit(main())
