/* The memory of Arm's MPS2 board with a Cortex-M3 (AN385) or a Cortex-M4 (AN386). */
MEMORY
{
    ROM (rx) : ORIGIN = 0x00000000, LENGTH = 4M
    RAM (rwx) : ORIGIN = 0x20000000, LENGTH = 4M
}

INCLUDE sections.ld
