/* Where all lies: what is read only in flash, the rest in RAM. What does not fit is told by the linker. */
MEMORY {
    flash (rx) : ORIGIN = 0x00000000, LENGTH = 128K
    ram (rwx) : ORIGIN = 0x20000000, LENGTH = 24K
}
ENTRY(begin)
SECTIONS {
    .text : {
        KEEP(*(.vectors))
        *(.text* .rodata* .srodata*)
        . = ALIGN(4);
        data_from = .;
    } > flash
    .data : {
        data_begin = .;
        *(.data* .sdata*)
        . = ALIGN(4);
        data_end = .;
    } > ram AT > flash
    .bss (NOLOAD) : {
        zeros_begin = .;
        *(.bss* .sbss* COMMON)
        . = ALIGN(4);
        zeros_end = .;
    } > ram
    stack_end = ORIGIN(ram) + LENGTH(ram);
    /DISCARD/ : { *(.ARM.exidx* .eh_frame* .comment .riscv.attributes .ARM.attributes) }
}
