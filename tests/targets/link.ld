/* Where a Cortex-M test stands: the linker is given CODE and RAM, the addresses of two memories of the machine (--defsym). */
ENTRY(vectors_at)
MEMORY
{
    code (rx)  : ORIGIN = CODE, LENGTH = 1M
    ram  (rwx) : ORIGIN = RAM,  LENGTH = 2M
}
SECTIONS
{
    .vectors : { vectors_at = .; KEEP(*(.vectors)) } > code
    .text : { *(.text*) *(.rodata*) } > code
    .ARM.extab : { *(.ARM.extab*) } > code
    __exidx_start = .;
    .ARM.exidx : { *(.ARM.exidx*) } > code
    __exidx_end = .;
    .data : ALIGN(8) { data_start = .; *(.data*) . = ALIGN(8); data_end = .; } > ram AT > code
    data_from = LOADADDR(.data);
    .bss (NOLOAD) : ALIGN(8) { bss_start = .; *(.bss*) *(COMMON) . = ALIGN(8); bss_end = .; } > ram
    /* newlib's heap grows from here, the stack from the other end */
    end = .;
    __end__ = .;
    stack_top = ORIGIN(ram) + LENGTH(ram);
    /* newlib runs through these lists; there are none */
    __init_array_start = .;
    __init_array_end = .;
    __preinit_array_start = .;
    __preinit_array_end = .;
    __fini_array_start = .;
    __fini_array_end = .;
}
