# Puts the first letter of the argument into upper case, by a table, and counts how often it was asked.
# The addresses are written as they are where read-only and writable data begin: no relocation names them.

    .text
    .globl  main
main:
    lui     a2, 0x10            # the table, at the start of the read-only data
    lbu     a3, 0(a0)           # the first byte of the argument
    add     a2, a2, a3
    lbu     a3, 0(a2)           # what the table has for it
    lui     a4, 0x30            # the count, at the start of the writable data
    ld      a5, 0(a4)
    addi    a5, a5, 1
    sd      a5, 0(a4)
    sb      a3, 8(a4)           # the answer, among the zeros behind the count
    addi    a0, a4, 8
    addi    a1, x0, 1
    ret

    .section .rodata, "a", @progbits
table:
    .set    byte, 0
    .rept   256
    .if     byte >= 'a' && byte <= 'z'
    .byte   byte - 'a' + 'A'
    .else
    .byte   byte
    .endif
    .set    byte, byte + 1
    .endr

    .data
    .p2align 3
count:
    .quad   100

    .bss
    .p2align 3
answer:
    .zero   8
