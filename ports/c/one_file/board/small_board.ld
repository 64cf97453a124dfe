/* A processor with 512 KB of flash and 128 KB of RAM in all, on qemu's board mps2-an386. RAM has whatever a device would have there: the
 * store's memory, its struct, all other variables, those of the C library too, and the stack, which grows down to them. HOST has what
 * stands for something outside of the device, or is the test's own: the part (in the demo `places`; in a test a heap has it, which is here
 * too, as are the copies that are compared with it), and the memory of a check, which takes more than there is. */
MEMORY {
    CODE : ORIGIN = 0, LENGTH = 512K
    RAM : ORIGIN = 0x20000000, LENGTH = 128K
    HOST : ORIGIN = 0x21000000, LENGTH = 16M
}
SECTIONS {
    .text : { KEEP(*(.vectors)) *(.text*) *(.rodata*) . = ALIGN(8); } > CODE
    .exidx : { *(.ARM.exidx*) *(.ARM.extab*) . = ALIGN(8); } > CODE
    .host (NOLOAD) : { board_host = .; *(.bss.places .bss.kept .bss.sessions) . = ALIGN(8); board_host_end = .; } > HOST
    board_data_load = LOADADDR(.data);
    .data : { board_data = .; *(.data*) . = ALIGN(8); board_data_end = .; } > RAM AT> CODE
    .bss (NOLOAD) : { board_bss = .; *(.bss*) *(COMMON) . = ALIGN(8); board_bss_end = .; } > RAM
    board_heap = board_host_end;
    board_stack_top = ORIGIN(RAM) + LENGTH(RAM);
}
