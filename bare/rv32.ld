/* The memory of QEMU's RISC-V machine `virt`; it starts at the first byte. */
ENTRY(_start)

SECTIONS
{
    . = 0x80000000;
    .text : { KEEP(*(.start)) *(.text .text.*) *(.rodata .rodata.*) *(.srodata .srodata.*) }
    .data : { *(.data .data.*) *(.sdata .sdata.*) }
    .bss : { *(.bss .bss.* .sbss .sbss.* COMMON) }
    stack_top = 0x80400000;
}
