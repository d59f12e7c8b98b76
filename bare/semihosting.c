/* The host's services by semihosting: the processor stops at an instruction that a debugger or an emulator knows, with the number of a service
   and its arguments in two registers. Arm and RISC-V have the same services. */
#include <stdint.h>

#include "host.h"

enum { OPEN = 0x01, WRITE = 0x05, READ = 0x06, EXIT_EXTENDED = 0x20 };

/* Modes of OPEN, in the order of fopen's; the file ":tt", open for writing, is the host's console. */
enum { FOR_READING = 1, FOR_WRITING = 4 };

#define APPLICATION_EXIT 0x20026

static uintptr_t service(uintptr_t number, const uintptr_t *arguments)
{
#if defined(__thumb__)
    register uintptr_t result __asm__("r0") = number;
    register const uintptr_t *second __asm__("r1") = arguments;
    __asm__ volatile("bkpt 0xAB" : "+r"(result) : "r"(second) : "memory");
#elif defined(__aarch64__)
    register uintptr_t result __asm__("x0") = number;
    register const uintptr_t *second __asm__("x1") = arguments;
    __asm__ volatile("hlt 0xF000" : "+r"(result) : "r"(second) : "memory");
#elif defined(__riscv)
    register uintptr_t result __asm__("a0") = number;
    register const uintptr_t *second __asm__("a1") = arguments;
    __asm__ volatile(".balign 16\n"
                     ".option push\n"
                     ".option norvc\n"
                     "slli x0, x0, 0x1f\n"
                     "ebreak\n"
                     "srai x0, x0, 7\n"
                     ".option pop"
                     : "+r"(result)
                     : "r"(second)
                     : "memory");
#endif
    return result;
}

static int open_as(const char *name, uintptr_t mode)
{
    uintptr_t length = 0;
    while (name[length] != 0)
        length++;
    return (int)service(OPEN, (const uintptr_t[]){(uintptr_t)name, mode, length});
}

int host_open(const char *name) { return open_as(name, FOR_READING); }

/* READ tells how many bytes were left over, and more than all if it failed. */
size_t host_read(int file, void *to, size_t n)
{
    size_t left = service(READ, (const uintptr_t[]){(uintptr_t)file, (uintptr_t)to, n});
    return left < n ? n - left : 0;
}

void host_write(const char *text, size_t n)
{
    static int console = -1;
    if (console < 0)
        console = open_as(":tt", FOR_WRITING);
    service(WRITE, (const uintptr_t[]){(uintptr_t)console, (uintptr_t)text, n});
}

void host_exit(int status)
{
    service(EXIT_EXTENDED, (const uintptr_t[]){APPLICATION_EXIT, (uintptr_t)status});
    for (;;)
        ;
}
