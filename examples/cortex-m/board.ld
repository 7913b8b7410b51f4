/* The loader where CODE_AT is 0; an application where it is HEADER_LEN behind the start of its slot. */
ENTRY(start)
MEMORY {
    CODE (rx) : ORIGIN = CODE_AT, LENGTH = 0x80000
    RAM (rw) : ORIGIN = 0x20000000, LENGTH = 0x4000
}
SECTIONS {
    .text : { KEEP(*(.vectors)) *(.text*) *(.rodata*) . = ALIGN(8); } > CODE
    .data : { data_begin = .; *(.data*) . = ALIGN(8); data_end = .; } > RAM AT > CODE
    data_from = LOADADDR(.data);
    .bss (NOLOAD) : { zeros_begin = .; *(.bss*) *(COMMON) . = ALIGN(8); zeros_end = .; } > RAM
    /DISCARD/ : { *(.ARM.exidx*) *(.comment) }
    header = CODE_AT - 256;
    stack_top = ORIGIN(RAM) + LENGTH(RAM);
    ASSERT(stack_top - zeros_end >= 0x1400, "there is no room for the stack")
}
