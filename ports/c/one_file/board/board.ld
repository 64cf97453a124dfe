/* The memories of qemu's board mps2-an386: of 4 MB for code, of 4 MB for data, and of 16 MB, where the heap is. */
MEMORY {
    CODE : ORIGIN = 0, LENGTH = 4M
    DATA : ORIGIN = 0x20000000, LENGTH = 4M
}
SECTIONS {
    .text : { KEEP(*(.vectors)) *(.text*) *(.rodata*) . = ALIGN(8); } > CODE
    .exidx : { *(.ARM.exidx*) *(.ARM.extab*) . = ALIGN(8); } > CODE
    board_data_load = LOADADDR(.data);
    .data : { board_data = .; *(.data*) . = ALIGN(8); board_data_end = .; } > DATA AT> CODE
    .bss : { board_bss = .; *(.bss*) *(COMMON) . = ALIGN(8); board_bss_end = .; } > DATA
    board_heap = 0x21000000;
    board_stack_top = ORIGIN(DATA) + LENGTH(DATA);
}
