# Answers 5: puts it into a0 and goes back to where it was called from.

    .text
    .globl main
main:
    addi a0, x0, 5
    ret
