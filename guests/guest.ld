/* Where a program for cgprof lies: its code from 0x10000 on and its data behind it, each on pages of their own, with
   the heap behind the data. Headers, code and constants may be read and executed, data read and written. */
ENTRY(_start)

PHDRS
{
    text PT_LOAD FILEHDR PHDRS FLAGS(5);
    data PT_LOAD FLAGS(6);
    tls PT_TLS FLAGS(4);
}

SECTIONS
{
    . = 0x10000 + SIZEOF_HEADERS;
    .text : { *(.text.start) *(.text .text.*) } :text
    .rodata : { *(.rodata .rodata.* .srodata .srodata.*) } :text

    /* What is called before main and after it, in the order of the priorities and then of the files */
    .preinit_array : {
        __preinit_array_start = .;
        KEEP(*(.preinit_array))
        __preinit_array_end = .;
    } :text
    .init_array : {
        __init_array_start = .;
        KEEP(*(SORT_BY_INIT_PRIORITY(.init_array.*)))
        KEEP(*(.init_array))
        __init_array_end = .;
    } :text
    .fini_array : {
        __fini_array_start = .;
        KEEP(*(SORT_BY_INIT_PRIORITY(.fini_array.*)))
        KEEP(*(.fini_array))
        __fini_array_end = .;
    } :text

    . = ALIGN(0x1000);
    .data : { *(.data .data.*) __global_pointer$ = . + 0x800; *(.sdata .sdata.*) } :data

    /* The first values of the thread-locals. Those that are zero take no room here; each thread has room for all of
       them, the first one at __first_locals. */
    .tdata : { *(.tdata .tdata.*) } :data :tls
    .tbss : { *(.tbss .tbss.*) } :data :tls
    __tdata_start = ADDR(.tdata);
    __tdata_size = SIZEOF(.tdata);
    __tls_size = SIZEOF(.tbss) > 0 ? ADDR(.tbss) + SIZEOF(.tbss) - ADDR(.tdata) : SIZEOF(.tdata);
    __tls_align = MAX(4, MAX(ALIGNOF(.tdata), ALIGNOF(.tbss)));

    .bss : {
        *(.sbss .sbss.*) *(.bss .bss.* COMMON)
        . = ALIGN(__tls_align);
        __first_locals = .;
        . += __tls_size;
    } :data

    /DISCARD/ : { *(.comment) *(.riscv.attributes) *(.note .note.*) *(.eh_frame .eh_frame_hdr) }
}
