/* Code and constants in one segment, data in another: bilv keeps every byte of a segment that is executable,
   so one segment that is read, written and executed would make each store to a global a `codewrite`. */
PHDRS
{
    code PT_LOAD FLAGS(5);
    data PT_LOAD FLAGS(6);
}

MEMORY
{
    FLASH (rx) : ORIGIN = 0x08000000, LENGTH = 64K
    RAM (rw) : ORIGIN = 0x20000000, LENGTH = 16K
}

SECTIONS
{
    .text : { *(.text .text.*) } > FLASH :code
    .rodata : { *(.rodata .rodata.* .srodata .srodata.*) } > FLASH :code
    .data : { __global_pointer$ = . + 0x400; *(.data .data.* .sdata .sdata.*) } > RAM AT> FLASH :data
    .bss (NOLOAD) : { *(.bss .bss.* .sbss .sbss.* COMMON) } > RAM :data
    __stack_low = ORIGIN(RAM) + LENGTH(RAM) - 4K;
    __stack_top = ORIGIN(RAM) + LENGTH(RAM);
    /DISCARD/ : { *(.ARM.exidx* .comment .note*) }
}
