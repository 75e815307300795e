/* Memory of mps2-an386, as start.c has it; the stack has 256 KB. */
MEMORY {
    code (rx) : ORIGIN = 0x00000000, LENGTH = 4M
    ram (rwx) : ORIGIN = 0x21000000, LENGTH = 16M
}
ENTRY(begin)
SECTIONS {
    .text : {
        KEEP(*(.vectors))
        *(.text* .rodata* .init_array* .fini_array* .ARM.exidx*)
        . = ALIGN(8);
    } > code
    .data : {
        data_begin = .;
        *(.data*)
        . = ALIGN(8);
        data_end = .;
    } > ram AT > code
    data_from = LOADADDR(.data);
    .bss (NOLOAD) : {
        zeros_begin = .;
        *(.bss* COMMON)
        . = ALIGN(16);
        zeros_end = .;
        heap_begin = .;
        end = .;
    } > ram
    stack_end = ORIGIN(ram) + LENGTH(ram);
    heap_end = stack_end - 256K;
}
