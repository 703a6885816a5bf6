# Where a guest begins: calls main with the stack pointer, where the arguments stand, and ends the thread group with what
# it returns. The kernel has set the stack pointer, and gp is not needed, as the linker relaxes nothing.
    .globl _start
_start:
    mv a0, sp
    call main
    li a7, 94                   # exit_group
    ecall
