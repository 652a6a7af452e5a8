/* A microcontroller: code and constants in FLASH, all else in RAM, the stack at its end. RAM_AT, RAM_BYTES and FLASH_BYTES are named on the command line. */
MEMORY
{
    FLASH (rx) : ORIGIN = 0, LENGTH = FLASH_BYTES
    RAM (rw) : ORIGIN = RAM_AT, LENGTH = RAM_BYTES
}
SECTIONS
{
    .text : { KEEP(*(.vectors)) *(.text .text.*) *(.rodata .rodata.*) } > FLASH
    .data : ALIGN(8) { data_start = .; *(.data .data.*) . = ALIGN(8); data_end = .; } > RAM AT > FLASH
    data_from = LOADADDR(.data);
    .bss (NOLOAD) : ALIGN(8) { bss_start = .; *(.bss .bss.* COMMON) . = ALIGN(8); bss_end = .; } > RAM
    stack_top = ORIGIN(RAM) + LENGTH(RAM);
    /DISCARD/ : { *(.ARM.exidx*) *(.comment) }
}
