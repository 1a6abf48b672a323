"""The objects for RV64E that the scripts of this folder make."""
import os
import struct
import sys

from common import ROOT

sys.path.insert(0, os.path.join(ROOT, "examples", "five"))
from make import (  # the scripts take some of these from here
    ALLOC_AND_EXECINSTR, GLOBAL_FUNCTION, PROGBITS, RELOCATABLE, RISCV, RV64E, STRTAB, SYMTAB, object_of, section,
)

LARGEST = 1 << 24  # the bytes of the largest object
RELA = 4
ALLOC, ALLOC_AND_WRITE = 2, 3
INFO_LINK = 0x40  # the flag of a section whose info is the number of a section
LOCAL, LOCAL_OBJECT, GLOBAL_UNDEFINED, WEAK_UNDEFINED, WEAK_FUNCTION = 0x00, 0x01, 0x10, 0x20, 0x22
WORD64, BRANCH, CALL_PLT, PCREL_HI20, PCREL_LO12_I, HI20, LO12_I, ADD64, RELAX = 2, 16, 19, 23, 24, 26, 27, 36, 51  # psABI
ADDI, RET = 0x00150513, 0x00008067  # addi a0, a0, 1 and ret
LUI_A0, ADDI_A0, BNE_A0, AUIPC_A0 = 0x00000537, 0x00050513, 0x00051063, 0x00000517  # to be relocated
AUIPC_RA, JALR_RA = 0x00000097, 0x000080E7


def symbol(name, info, index, value):
    """An entry of a symbol table. Its name is an offset in the names of symbols."""
    return struct.pack("<IBBHQQ", name, info, 0, index, value, 0)


def relocation(offset, kind, number, addend=0):
    """An entry of a RELA section that names the symbol with this number."""
    return struct.pack("<QIIq", offset, kind, number, addend)


def word_bytes(numbers):
    """The bytes of words of 32 bits."""
    return struct.pack("<%dI" % len(numbers), *numbers)


def file_of(body, headers, names):
    """The bytes of an object, of which the first 64 of the body are kept for its header: the number of the section with
    the names of sections is the last."""
    body.extend(bytes(-len(body) % 8))
    header = b"\x7fELF\x02\x01\x01" + bytes(9)
    sizes = (64, 0, 0, 64, len(headers), names)
    header += struct.pack("<HHIQQQIHHHHHH", RELOCATABLE, RISCV, 1, 0, 0, len(body), RV64E, *sizes)
    body[:64] = header
    return bytes(body) + b"".join(headers)


class Sections:
    """The sections of an object, one added after the other. Those with relocations are followed by these, so that the
    number of the symbol table has to be known before."""

    def __init__(self, table):
        self.table = table
        self.body, self.headers, self.names = bytearray(64), [section(0, 0, 0, 0, 0, 0, 0, 0, 0)], bytearray(b"\0")

    def add(self, name, kind, flags, content, link=0, info=0, align=1, entry=0):
        """Adds a section."""
        self.body.extend(bytes(-len(self.body) % align))
        at = len(self.names)
        self.names.extend(name.encode() + b"\0")
        self.headers.append(section(at, kind, flags, len(self.body), len(content), link, info, align, entry))
        self.body.extend(content)

    def add_relocated(self, name, flags, content, relocations, align=4):
        """Adds a section of bytes that are loaded, and one with its relocations."""
        self.add(name, PROGBITS, flags, content, align=align)
        self.add(".rela" + name, RELA, INFO_LINK, relocations, self.table, len(self.headers) - 1, 8, 24)

    def ended(self, symbols, first, names):
        """The bytes of the object with these symbols, of which those before the first given one are LOCAL, and names."""
        if len(self.headers) != self.table:
            raise ValueError("the symbol table is section %d, and not %d" % (len(self.headers), self.table))
        self.add(".symtab", SYMTAB, 0, symbols, self.table + 1, first, 8, 24)
        self.add(".strtab", STRTAB, 0, names)
        self.names.extend(b".shstrtab\0")
        at = len(self.names) - len(b".shstrtab\0")
        self.headers.append(section(at, STRTAB, 0, len(self.body), len(self.names), 0, 0, 1, 0))
        self.body.extend(self.names)
        return file_of(self.body, self.headers, self.table + 2)
