#!/usr/bin/env python3
"""Writes an RV64EM object of straight code from its words.

    make.py                  writes five.o beside this file, the two words of five.s
    make.py OUT WORD..       writes OUT with these words, each in hexadecimal; with none the text is empty

The object is a 64-bit little-endian ELF relocatable file for RISC-V with the flag of RV64E. It holds, in this order: the
header, the words in a section .text, a symbol table with the one global function main at the first word, its name,
the names of the sections, and the five section headers. Text of n bytes makes a file of 472 + n bytes.
"""
import os
import struct
import sys

HERE = os.path.dirname(os.path.abspath(__file__))
FIVE = (0x00500513, 0x00008067)  # addi a0,x0,5 and ret

RELOCATABLE, RISCV, RV64E = 1, 243, 8
PROGBITS, SYMTAB, STRTAB = 1, 2, 3
ALLOC_AND_EXECINSTR = 6
GLOBAL_FUNCTION = 0x12


def section(name, kind, flags, offset, size, link, info, align, entry):
    """A section header. Its name is an offset in the table of section names; the address is 0."""
    return struct.pack("<IIQQQQIIQQ", name, kind, flags, 0, offset, size, link, info, align, entry)


def object_of(words):
    """The bytes of the object whose text is these words of 32 bits."""
    text = struct.pack("<%dI" % len(words), *words)
    symbols = bytes(24) + struct.pack("<IBBHQQ", 1, GLOBAL_FUNCTION, 0, 1, 0, len(text))
    names = b"\0main\0"
    section_names = b"\0.text\0.symtab\0.strtab\0.shstrtab\0"
    text_at = 64
    symbols_at = text_at + len(text)
    names_at = symbols_at + len(symbols)
    section_names_at = names_at + len(names)
    end = section_names_at + len(section_names)
    headers_at = end + 1
    header = b"\x7fELF\x02\x01\x01" + bytes(9)
    header += struct.pack("<HHIQQQIHHHHHH", RELOCATABLE, RISCV, 1, 0, 0, headers_at, RV64E, 64, 0, 0, 64, 5, 4)
    headers = section(0, 0, 0, 0, 0, 0, 0, 0, 0)
    headers += section(1, PROGBITS, ALLOC_AND_EXECINSTR, text_at, len(text), 0, 0, 4, 0)
    headers += section(7, SYMTAB, 0, symbols_at, len(symbols), 3, 1, 8, 24)
    headers += section(15, STRTAB, 0, names_at, len(names), 0, 0, 1, 0)
    headers += section(23, STRTAB, 0, section_names_at, len(section_names), 0, 0, 1, 0)
    return header + text + symbols + names + section_names + bytes(1) + headers


def main(given):
    out = given[0] if given else os.path.join(HERE, "five.o")
    words = [int(word, 16) for word in given[1:]] if given else FIVE
    with open(out, "wb") as file:
        file.write(object_of(words))


if __name__ == "__main__":
    main(sys.argv[1:])
