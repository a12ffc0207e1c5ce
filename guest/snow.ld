/* Lays a guest out in RAM, of snow_pages pages: the stack first, of snow_stack bytes, so that one that overflows
   leaves RAM and traps; then code and constants, then data from a page of its own on, so that what a child
   writes is apart from the code that it goes on sharing; and then the heap. No segment has the headers of the
   file in it, which would lie outside RAM. */

ENTRY(_start)

MEMORY
{
    ram (rwx) : ORIGIN = 0x80000000, LENGTH = DEFINED(snow_pages) ? snow_pages * 4096 : 64 * 4096
}

PHDRS
{
    code PT_LOAD FLAGS(5);
    data PT_LOAD FLAGS(6);
    tls PT_TLS FLAGS(4);
}

SECTIONS
{
    __stack_top = ORIGIN(ram) + ALIGN(DEFINED(snow_stack) ? snow_stack : 0x4000, 4096);

    .text __stack_top :
    {
        __code_start = .;
        KEEP(*(.text.start))
        *(.text .text.*)
        *(.rodata .rodata.* .srodata .srodata.*)
        . = ALIGN(4);
        __init_array_start = .;
        KEEP(*(SORT_BY_INIT_PRIORITY(.init_array.*) .init_array))
        __init_array_end = .;
        __fini_array_start = .;
        KEEP(*(SORT_BY_INIT_PRIORITY(.fini_array.*) .fini_array))
        __fini_array_end = .;
        __code_end = .;
    } >ram :code

    .data ALIGN(4096) :
    {
        *(.data .data.*)
        __global_pointer$ = . + 0x800;
        *(.sdata .sdata.*)
        . = ALIGN(8);
    } >ram :data

    .tdata :
    {
        __tls_base = .;
        *(.tdata .tdata.*)
    } >ram :data :tls

    .tbss (NOLOAD) :
    {
        *(.tbss .tbss.* .tcommon)
    } >ram :data :tls

    .bss ADDR(.tbss) + SIZEOF(.tbss) (NOLOAD) :
    {
        *(.sbss .sbss.*)
        *(.bss .bss.* COMMON)
        . = ALIGN(16);
    } >ram :data

    __heap_start = .;
    __heap_end = ORIGIN(ram) + LENGTH(ram);
    ASSERT(__heap_start <= __heap_end, "the guest and its stack do not fit in its pages of RAM (--pages)")

    /DISCARD/ : { *(.comment .note.* .eh_frame .riscv.attributes) }
}
