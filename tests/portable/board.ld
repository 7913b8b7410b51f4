/* A board, with CODE_AT, CODE_LEN, RAM_AT and RAM_LEN from the command line. Writable data with initial
 * values would have to be copied there, and there is none. */
ENTRY(code_begin)
MEMORY {
    CODE (rx) : ORIGIN = CODE_AT, LENGTH = CODE_LEN
    RAM (rw) : ORIGIN = RAM_AT, LENGTH = RAM_LEN
}
SECTIONS {
    .text : { code_begin = .; KEEP(*(.vectors)) *(.text*) *(.rodata*) *(.srodata*) } > CODE
    /DISCARD/ : { *(.ARM.exidx*) *(.comment) *(.eh_frame) *(.riscv.attributes) }
    .data : { *(.data*) *(.sdata*) } > RAM
    .bss (NOLOAD) : { zeros_begin = .; *(.bss*) *(.sbss*) *(COMMON) . = ALIGN(8); zeros_end = .; } > RAM
    stack_top = ORIGIN(RAM) + LENGTH(RAM);
    ASSERT(SIZEOF(.data) == 0, "there is writable data with initial values")
}
