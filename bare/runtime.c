/* What compiled code calls and a machine without a C library may lack: memory copied, moved, set and compared, under C's names and under those
   of Arm's run-time ABI, and for a Cortex-M0+ the product of 64 bits and the quotient. Link this file, or leave it out where a library has
   them. */
#include <stdbool.h>
#include <stddef.h>
#include <stdint.h>

typedef uint32_t __attribute__((__may_alias__)) word;

/* Keeps a compiler from making a call of memcpy or memset out of the loop that is to be memcpy or memset. */
#define KEEP_LOOP() __asm__ volatile("" ::: "memory")

/* Declared here, since a compiler without a C library has no string.h. */
void *memcpy(void *to, const void *from, size_t n);
void *memmove(void *to, const void *from, size_t n);
void *memset(void *to, int value, size_t n);
int memcmp(const void *left, const void *right, size_t n);

/* Whole words if both begin at one, then bytes; upwards, so the parts may overlap if `to` is the lower one. */
void *memcpy(void *to, const void *from, size_t n)
{
    size_t i = 0;
    if (((uintptr_t)to | (uintptr_t)from) % sizeof(word) == 0)
        for (; n - i >= sizeof(word); i += sizeof(word)) {
            *(word *)((char *)to + i) = *(const word *)((const char *)from + i);
            KEEP_LOOP();
        }
    for (; i < n; i++) {
        ((char *)to)[i] = ((const char *)from)[i];
        KEEP_LOOP();
    }
    return to;
}

void *memmove(void *to, const void *from, size_t n)
{
    if ((uintptr_t)to <= (uintptr_t)from)
        return memcpy(to, from, n);
    while (n > 0) {
        n--;
        ((char *)to)[n] = ((const char *)from)[n];
        KEEP_LOOP();
    }
    return to;
}

void *memset(void *to, int value, size_t n)
{
    size_t i = 0;
    word four = (unsigned char)value * (word)0x01010101;
    if ((uintptr_t)to % sizeof(word) == 0)
        for (; n - i >= sizeof(word); i += sizeof(word)) {
            *(word *)((char *)to + i) = four;
            KEEP_LOOP();
        }
    for (; i < n; i++) {
        ((char *)to)[i] = (char)value;
        KEEP_LOOP();
    }
    return to;
}

int memcmp(const void *left, const void *right, size_t n)
{
    const unsigned char *a = left, *b = right;
    for (size_t i = 0; i < n; i++)
        if (a[i] != b[i])
            return a[i] < b[i] ? -1 : 1;
    return 0;
}

#ifdef __ARM_EABI__
/* Arm's names: 4 and 8 say that the places are so aligned; memset has its last two arguments in the other order. */
#define OF_ALIGNMENT(suffix)                                                                     \
    void __aeabi_memcpy##suffix(void *to, const void *from, size_t n);                           \
    void __aeabi_memmove##suffix(void *to, const void *from, size_t n);                          \
    void __aeabi_memset##suffix(void *to, size_t n, int value);                                  \
    void __aeabi_memclr##suffix(void *to, size_t n);                                             \
    void __aeabi_memcpy##suffix(void *to, const void *from, size_t n) { memcpy(to, from, n); }   \
    void __aeabi_memmove##suffix(void *to, const void *from, size_t n) { memmove(to, from, n); } \
    void __aeabi_memset##suffix(void *to, size_t n, int value) { memset(to, value, n); }         \
    void __aeabi_memclr##suffix(void *to, size_t n) { memset(to, 0, n); }
OF_ALIGNMENT()
OF_ALIGNMENT(4)
OF_ALIGNMENT(8)
#endif

#ifdef __ARM_ARCH_6M__
/* The product modulo 2^64 by products of 16 bits: this processor multiplies to 32 bits. */
uint64_t __aeabi_lmul(uint64_t a, uint64_t b);
uint64_t __aeabi_lmul(uint64_t a, uint64_t b)
{
    uint32_t a_low = (uint32_t)a, b_low = (uint32_t)b;
    uint32_t low = (a_low & 0xFFFF) * (b_low & 0xFFFF);
    uint32_t middle = (a_low >> 16) * (b_low & 0xFFFF) + (low >> 16);
    uint32_t other = (a_low & 0xFFFF) * (b_low >> 16) + (middle & 0xFFFF);
    uint32_t high = (a_low >> 16) * (b_low >> 16) + (middle >> 16) + (other >> 16);
    high += (uint32_t)(a >> 32) * b_low + a_low * (uint32_t)(b >> 32);
    return (uint64_t)high << 32 | other << 16 | (low & 0xFFFF);
}

/* The quotient, with the remainder in the upper 32 bits: bit by bit, since this processor does not divide. The heap does not divide either;
   programs in examples/ do. The divisor is not 0. */
uint64_t __aeabi_uidivmod(uint32_t n, uint32_t divisor);
uint64_t __aeabi_uidivmod(uint32_t n, uint32_t divisor)
{
    uint32_t quotient = 0, remainder = 0;
    for (int bit = 31; bit >= 0; bit--) {
        bool carry = remainder >> 31;
        remainder = remainder << 1 | (n >> bit & 1);
        if (carry || remainder >= divisor) {
            remainder -= divisor;
            quotient |= (uint32_t)1 << bit;
        }
    }
    return (uint64_t)remainder << 32 | quotient;
}

uint32_t __aeabi_uidiv(uint32_t n, uint32_t divisor);
uint32_t __aeabi_uidiv(uint32_t n, uint32_t divisor) { return (uint32_t)__aeabi_uidivmod(n, divisor); }
#endif
