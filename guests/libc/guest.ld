/*
 * Where the parts of a guest lie: code from 0x10000 on, then constants, then variables, each on pages of its own, so
 * that none may be both written and executed. What a thread's own variables begin with is among the constants; those of
 * the first thread stand among the variables.
 */
ENTRY(_start)

PHDRS
{
    code PT_LOAD FILEHDR PHDRS FLAGS(5); /* read and execute */
    constants PT_LOAD FLAGS(4);
    variables PT_LOAD FLAGS(6); /* read and write */
    thread PT_TLS FLAGS(4);
}

SECTIONS
{
    . = 0x10000 + SIZEOF_HEADERS;
    .text : ALIGN(16) { *(.text .text.*) } :code

    . = ALIGN(4096);
    .rodata : { *(.rodata .rodata.* .srodata .srodata.*) } :constants
    .init_array : ALIGN(8)
    {
        PROVIDE_HIDDEN(__preinit_array_start = .);
        KEEP(*(.preinit_array))
        PROVIDE_HIDDEN(__preinit_array_end = .);
        PROVIDE_HIDDEN(__init_array_start = .);
        KEEP(*(SORT_BY_INIT_PRIORITY(.init_array.*)))
        KEEP(*(.init_array))
        PROVIDE_HIDDEN(__init_array_end = .);
        PROVIDE_HIDDEN(__fini_array_start = .);
        KEEP(*(SORT_BY_INIT_PRIORITY(.fini_array.*)))
        KEEP(*(.fini_array))
        PROVIDE_HIDDEN(__fini_array_end = .);
    }

    . = ALIGN(16);
    .tdata : { *(.tdata .tdata.*) } :constants :thread
    .tbss : { *(.tbss .tbss.*) } :constants :thread
    __tdata_source = ADDR(.tdata);
    __tdata_size = SIZEOF(.tdata);
    __tbss_offset = ADDR(.tbss) - ADDR(.tdata);
    __tbss_size = SIZEOF(.tbss);
    __tls_size = __tbss_offset + __tbss_size;
    __tls_align = MAX(ALIGNOF(.tdata), ALIGNOF(.tbss));

    . = ALIGN(4096);
    .first_thread : ALIGN(__tls_align) { __first_thread = .; . += __tls_size; } :variables
    .data : ALIGN(16) { *(.data .data.* .sdata .sdata.*) }
    .bss : ALIGN(16) { *(.bss .bss.* .sbss .sbss.* COMMON) }

    /DISCARD/ : { *(.note .note.* .eh_frame .comment) }
}
