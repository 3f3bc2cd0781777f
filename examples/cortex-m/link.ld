/* Flash and RAM of the board; the stack has 4 KiB, of which a call of the library takes a fraction. */
MEMORY
{
    FLASH (rx) : ORIGIN = 0x00000000, LENGTH = 4M
    RAM (rwx) : ORIGIN = 0x20000000, LENGTH = 4M
}

SECTIONS
{
    .text : { KEEP(*(.vectors)) *(.text*) *(.rodata*) . = ALIGN(4); } >FLASH
    .ARM.exidx : { *(.ARM.exidx*) } >FLASH
    .data : { data_begin = .; *(.data*) . = ALIGN(4); data_end = .; } >RAM AT>FLASH
    data_from = LOADADDR(.data);
    .bss (NOLOAD) : { bss_begin = .; *(.bss*) *(COMMON) . = ALIGN(4); bss_end = .; } >RAM
    .stack (NOLOAD) : { . = ALIGN(8); . += 4096; stack_end = .; } >RAM
}
