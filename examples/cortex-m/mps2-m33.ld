/* The memory of Arm's MPS2 board with a Cortex-M33 (AN505), as secure code sees it. */
MEMORY
{
    ROM (rx) : ORIGIN = 0x10000000, LENGTH = 4M
    RAM (rwx) : ORIGIN = 0x38000000, LENGTH = 4M
}

INCLUDE sections.ld
