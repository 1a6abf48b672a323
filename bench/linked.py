"""What the words of `elf` are linked to, where the program has one entry and that is its first word."""
ENTRY_LINE = b"entry 0 00000005 main\n"
ENTRY_JUMP = bytes.fromhex("2805000000")
ADD_IMM, JUMP_IND = bytes.fromhex("957701"), bytes.fromhex("3200")  # ADDI, where it goes on with no constant, and RET
FALLTHROUGH = bytes.fromhex("01")  # before a place that is named, where the operation before it ends no block


def shortest(number):
    """The bytes of an immediate from 1 to 2^31 - 1: as few as show that it isn't negative."""
    return number.to_bytes(number.bit_length() // 8 + 1, "little")


def offset_length(by):
    """How many bytes an offset takes at least."""
    return (by if by > 0 else ~by).bit_length() // 8 + 1 if by else 0


def offset(by, length=None):
    """The bytes of the offset of a jump or a branch: so many, else as few as hold it."""
    return by.to_bytes(offset_length(by) if length is None else length, "little", signed=True)


def load_imm(value):
    """Words that leave this number in a0 and read no register but x0 and a0: one constant."""
    return b"\x33\x07" + shortest(value)


def branch_ne_imm(by, length=None):
    """BNE_A0 to an offset."""
    return b"\x52\x07" + offset(by, length)


def load_imm_jump(number, by, length=None):
    """AUIPC_RA and JALR_RA to an offset. They return to the place with this number."""
    link = shortest(number)
    return bytes((0x50, len(link) << 4)) + link + offset(by, length)


def number_of(index):
    """The number of a place by its index in the address map."""
    return 2 * (index + 1)


def data_line(address, size, section):
    """The line of the map for a section of data of the one object."""
    return b"data %08x %08x 0:%d\n" % (address, size, section)


def code_line(index, position, section, at):
    """The line of the map for a place, which is at an offset of a section."""
    return b"code %08x %08x 0:%d+%08x\n" % (number_of(index), position, section, at)


def jump_table(positions):
    """The bytes of the jump table, which stands before the code: the position of each place, all of one length."""
    width = (max(positions).bit_length() + 7) // 8
    return b"".join(position.to_bytes(width, "little") for position in positions)
