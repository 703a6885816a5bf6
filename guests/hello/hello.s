# Writes a line to standard output, and exits. It has the instructions addi (as li too) and ecall alone, so the address of
# the text is made in steps: the guest is linked at 4096, and an immediate has 12 bits.
    .globl _start
_start:
    li a0, 1
    li a1, 2047
    addi a1, a1, 2047
    addi a1, a1, 2
    addi a1, a1, %lo(text)
    li a2, 14
    li a7, 64                   # write
    ecall
    li a0, 0
    li a7, 94                   # exit_group
    ecall
text:
    .ascii "Hello, world!\n"
