# Where a guest begins: the thread pointer is set to the first thread's own variables, and begin in begin.c is called
# with the stack pointer, where the arguments stand. gp is not needed, as the linker relaxes nothing.
    .globl _start
_start:
    la tp, __first_thread
    mv a0, sp
    call begin
