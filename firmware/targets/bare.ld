/* Lays out compare.c on bare metal: all of it in memory from BASE on, the vectors first. */
SECTIONS
{
    . = BASE;
    .text : { KEEP(*(.vectors)) *(.text*) *(.rodata*) }
    .data : { *(.data*) }
    .bss : { *(.bss*) *(COMMON) }
    /DISCARD/ : { *(.ARM.exidx*) }
    . = ALIGN(16);
    . += 65536;
    stack_top = .;
}
