/* Start-up of a Cortex-M: the vector table, and reset, which prepares memory for C and runs main. */
#include <stdint.h>

#include "host.h"

/* From the linker script: where static data starts and ends, where its first values are kept, and the stack's upper end. */
extern uint32_t data_values[], data_start[], data_end[], zeros_start[], zeros_end[], stack_top[];

int main(void);
void reset(void);

/* Where the compiler may use floating point, its unit is turned on first: full access to coprocessors 10 and 11 in CPACR. */
static void allow_floats(void)
{
#ifdef __ARM_FP
    *(volatile uint32_t *)0xE000ED88 |= 0xFu << 20;
    __asm__ volatile("dsb\n\tisb" ::: "memory");
#endif
}

void reset(void)
{
    allow_floats();
    const uint32_t *from = data_values;
    for (uint32_t *word = data_start; (uintptr_t)word < (uintptr_t)data_end; word++)
        *word = *from++;
    for (uint32_t *word = zeros_start; (uintptr_t)word < (uintptr_t)zeros_end; word++)
        *word = 0;
    host_exit(main());
}

static void fault(void)
{
    host_write("fault\n", 6);
    host_exit(1);
}

/* The first entries: the stack, reset, and the faults from NMI to usage fault. No interrupt is enabled. */
static const void *const vectors[16] __attribute__((section(".vectors"), used)) = {
    stack_top, (void *)reset, (void *)fault, (void *)fault, (void *)fault, (void *)fault, (void *)fault, (void *)fault,
};
