/* Holds the functions of bare/runtime.c to the C library's, on places of every alignment and overlap and on random lengths. Its names have `bare_`
   before them here; the macros make it a file for a Cortex-M0+. */
#include <stdint.h>
#include <stdio.h>
#include <string.h>

#define memcpy bare_memcpy
#define memmove bare_memmove
#define memset bare_memset
#define memcmp bare_memcmp
#define __ARM_EABI__ 1
#define __ARM_ARCH_6M__ 1
#include "../../bare/runtime.c"
#undef memcpy
#undef memmove
#undef memset
#undef memcmp

enum { BYTES = 256, ROUNDS = 200000 };

static _Alignas(8) unsigned char ours[BYTES], theirs[BYTES], source[BYTES];
static uint64_t state = 1;

static uint64_t random_word(void)
{
    state ^= state << 13;
    state ^= state >> 7;
    state ^= state << 17;
    return state;
}

/* The sorts of calls: four by C's names (memset clears too), four by Arm's, and from ALIGNED on Arm's names for aligned places. */
enum { COPY, MOVE, SET, CLEAR, ALIGNED = 8, SORTS = 16 };

static void act(unsigned sort, void *to, const void *apart, const void *overlapping, size_t n, int value)
{
    switch (sort) {
    case 0: bare_memcpy(to, apart, n); break;
    case 1: bare_memmove(to, overlapping, n); break;
    case 2: bare_memset(to, value, n); break;
    case 3: bare_memset(to, 0, n); break;
    case 4: __aeabi_memcpy(to, apart, n); break;
    case 5: __aeabi_memmove(to, overlapping, n); break;
    case 6: __aeabi_memset(to, n, value); break;
    case 7: __aeabi_memclr(to, n); break;
    case 8: __aeabi_memcpy4(to, apart, n); break;
    case 9: __aeabi_memmove4(to, overlapping, n); break;
    case 10: __aeabi_memset4(to, n, value); break;
    case 11: __aeabi_memclr4(to, n); break;
    case 12: __aeabi_memcpy8(to, apart, n); break;
    case 13: __aeabi_memmove8(to, overlapping, n); break;
    case 14: __aeabi_memset8(to, n, value); break;
    default: __aeabi_memclr8(to, n);
    }
}

/* One call of a random sort, a product and a quotient; false if a byte or a number differs. */
static int agree(void)
{
    size_t bytes = random_word() % (BYTES / 2), to = random_word() % (BYTES / 2), from = random_word() % (BYTES / 2);
    int value = (int)(random_word() % 1024) - 512;
    unsigned sort = random_word() % SORTS;
    if (sort >= ALIGNED)
        to = to / 8 * 8, from = from / 8 * 8;
    for (int i = 0; i < BYTES; i++)
        ours[i] = theirs[i] = (unsigned char)random_word();
    act(sort, ours + to, source + from, ours + from, bytes, value);
    if (sort % 4 == COPY)
        memcpy(theirs + to, source + from, bytes);
    else if (sort % 4 == MOVE)
        memmove(theirs + to, theirs + from, bytes);
    else
        memset(theirs + to, sort % 4 == SET ? value : 0, bytes);
    uint64_t a = random_word() >> random_word() % 64, b = random_word() >> random_word() % 64;
    uint32_t n = (uint32_t)a, divisor = (uint32_t)b == 0 ? 1 : (uint32_t)b;
    if (__aeabi_lmul(a, b) != a * b || __aeabi_uidivmod(n, divisor) != ((uint64_t)(n % divisor) << 32 | n / divisor))
        return 0;
    if (__aeabi_uidiv(n, divisor) != n / divisor)
        return 0;
    int order = memcmp(ours, source, BYTES), bare_order = bare_memcmp(ours, source, BYTES);
    return memcmp(ours, theirs, BYTES) == 0 && bare_memcmp(ours, theirs, BYTES) == 0 && (order < 0) == (bare_order < 0);
}

int main(void)
{
    for (int i = 0; i < BYTES; i++)
        source[i] = (unsigned char)random_word();
    for (int round = 0; round < ROUNDS; round++)
        if (!agree()) {
            printf("bare/runtime.c differs from the C library in round %d\n", round);
            return 1;
        }
    puts("bare/runtime.c does what the C library does");
    return 0;
}
