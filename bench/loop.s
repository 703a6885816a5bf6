# Loops for ever. A round has 24 instructions: 15 of immediates, 6 loads from its own page and from the stack's, 1 auipc
# and 2 jumps. The guest is linked at 4096, and an immediate has 12 bits: so an address in its page is made by a shift.
    .globl _start
_start:
    lui s1, 0x12345
    addi s1, s1, 0x678
loop:
    addi t0, t0, 1              # the rounds
    andi t1, t0, 7
    addi t1, t1, 512
    slli t1, t1, 3              # 4096, and 8 times the row of the table
    ld t2, %lo(table)(t1)
    lbu t3, %lo(table)(t1)
    srli t4, t2, 17
    xori t4, t4, 0x2aa
    slti t5, t4, 1000
    lw t6, %lo(table)+4(t1)
    slli t6, t6, 5
    j over
    .word 0                     # what is jumped over
over:
    auipc a1, 0
    lbu a2, 1(a1)               # of the instruction before
    addi a2, a2, -1
    slli a3, a2, 40
    ld a4, -8(sp)
    xori a4, a4, -1
    srli a5, a4, 1
    lw a6, -1024(sp)
    slti a7, a6, 1
    slli s1, s1, 1
    xori s1, s1, 0x155
    j loop

    .balign 8
table:
    .dword 0x0123456789abcdef, 0xfedcba9876543210, 0x00000000ffffffff, 0xffffffff00000000
    .dword 0x8000000080000000, 0x7fffffff7fffffff, 0x5555555555555555, 0xaaaaaaaaaaaaaaaa
