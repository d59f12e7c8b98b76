/* What stands where. Code and constants, the vector table first; static data, whose first values are kept with the code; the stack at the upper end. */
ENTRY(reset)

SECTIONS
{
    .text :
    {
        KEEP(*(.vectors))
        *(.text .text.*)
        *(.rodata .rodata.*)
        . = ALIGN(4);
    } > ROM

    .ARM.exidx : { *(.ARM.exidx*) } > ROM

    .data :
    {
        data_start = .;
        *(.data .data.*)
        . = ALIGN(4);
        data_end = .;
    } > RAM AT > ROM
    data_values = LOADADDR(.data);

    .bss (NOLOAD) :
    {
        . = ALIGN(4);
        zeros_start = .;
        *(.bss .bss.* COMMON)
        . = ALIGN(4);
        zeros_end = .;
    } > RAM

    stack_top = ORIGIN(RAM) + LENGTH(RAM);
    ASSERT(zeros_end + 6K <= stack_top, "6 KB are not left for the stack: a reallocate takes up to 5")
}
