/* The memory of the BBC micro:bit: a Cortex-M0 with 256 KB of flash and 16 KB of memory. */
MEMORY
{
    ROM (rx) : ORIGIN = 0x00000000, LENGTH = 256K
    RAM (rwx) : ORIGIN = 0x20000000, LENGTH = 16K
}

INCLUDE sections.ld
