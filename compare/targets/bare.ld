/* Code at CODE, everything else at DATA; both are RAM that the emulator fills. */
SECTIONS
{
    . = CODE;
    .text : { KEEP(*(.start)) *(.text*) *(.rodata*) *(.srodata*) *(.ARM.exidx*) }
    . = DATA;
    .data : { *(.data*) *(.sdata*) }
    .bss : { bss_begin = .; *(.sbss*) *(.bss*) *(COMMON) . = ALIGN(8); bss_end = .; }
    . = ALIGN(16) + 0x10000;
    stack_end = .;
    /DISCARD/ : { *(.comment) *(.eh_frame*) }
}
