/* Start-up where the loader has put all data in place and set the rest to 0: a 64-bit Arm program under Linux, and 32-bit RISC-V in the memory of
   bare/rv32.ld. (A Cortex-M starts in examples/cortex-m/start.c.) */
#include "host.h"

int main(void);
void begin(void);

__attribute__((used)) void begin(void) { host_exit(main()); }

#if defined(__riscv)
__asm__(".section .start, \"ax\"\n"
        ".global _start\n"
        "_start:\n"
        "    la sp, stack_top\n"
        "    j begin\n");
#elif defined(__aarch64__)
__asm__(".section .text._start, \"ax\"\n"
        ".global _start\n"
        "_start:\n"
        "    b begin\n");
#endif
