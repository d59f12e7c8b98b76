/* The check and the questions store nothing through the pointers to region and record: here both stand in read-only memory, so that a
   store would end the program. On a heap with chunks of every kind, and on one that fails the check. */
#define _DEFAULT_SOURCE
#include <stdio.h>
#include <sys/mman.h>

#include "kruzhvela.h"

enum { WORDS = 64, PAGE = 4096 };

typedef struct {
    uint32_t region[WORDS];
    kz_record record;
} Heap;

/* The demonstration's heap, with chunks in use, a donor, a top and a chunk in a bin. False if a call is refused. */
static bool fill(Heap *h)
{
    const uint32_t table[] = {24, 32, 40, 128};
    kz_answer answer;
    uint32_t refused = kz_setup(h->region, WORDS, table, 4, 64, true, &h->record, &answer);
    for (uint32_t z = 16; z <= 64; z += 24)
        refused |= kz_allocate(h->region, WORDS, &h->record, z, &answer);
    return (refused | kz_free(h->region, WORDS, &h->record, 80, &answer)) == KZ_ACCEPTED;
}

/* The check, and every question about every place and bin. Returns how many were accepted. */
static unsigned look(const Heap *h)
{
    unsigned accepted = 0;
    kz_counts counts;
    kz_answer answer;
    accepted += kz_check(h->region, WORDS, &h->record, &counts) == KZ_ACCEPTED;
    for (uint32_t question = 0; question <= 10; question++)
        for (uint32_t place = 0; place <= 4 * WORDS; place++) {
            accepted += kz_ask_chunk(h->region, WORDS, &h->record, question, place, &answer) == KZ_ACCEPTED;
            accepted += kz_ask_bin(h->region, WORDS, &h->record, question, place, &answer) == KZ_ACCEPTED;
        }
    return accepted;
}

int main(void)
{
    Heap *heap = mmap(NULL, PAGE, PROT_READ | PROT_WRITE, MAP_PRIVATE | MAP_ANONYMOUS, -1, 0);
    if (heap == MAP_FAILED || !fill(heap) || mprotect(heap, PAGE, PROT_READ) != 0)
        return 1;
    unsigned whole = look(heap);
    if (mprotect(heap, PAGE, PROT_READ | PROT_WRITE) != 0)
        return 1;
    heap->region[0] = 4;
    if (mprotect(heap, PAGE, PROT_READ) != 0)
        return 1;
    unsigned damaged = look(heap);
    printf("%u looks accepted on a whole heap and %u on a damaged one, all in read-only memory\n", whole, damaged);
    return whole > 50 && damaged == 0 ? 0 : 1;
}
