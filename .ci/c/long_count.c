/* A count of words above 2^32 is not cut to 32 bits: each call refuses it, where with the lower 32 bits alone it would be accepted. (The
   region is shorter than it is said to be; a length that is not permitted is refused before a word is read.) */
#include <stdio.h>

#include "kruzhvela.h"

enum { WORDS = 64 };

static uint32_t region[WORDS];
static kz_record record, refused;
static kz_answer answer;
static kz_counts counts;

static bool is(uint32_t refusal, uint32_t expected) { return refusal == expected; }

int main(void)
{
    const uint32_t table[] = {24};
    const kz_length above = (kz_length)1 << 32;
    bool right = is(kz_setup(region, above + WORDS, table, 1, 0, true, &refused, &answer), KZ_REGION_LENGTH) &&
                 is(kz_setup(region, WORDS, table, above + 1, 0, true, &refused, &answer), KZ_BAD_TABLE) &&
                 is(kz_setup(region, WORDS, table, 1, 0, true, &record, &answer), KZ_ACCEPTED) &&
                 is(kz_check(region, above + WORDS, &record, &counts), KZ_HEAP_FAILS) &&
                 is(kz_allocate(region, above + WORDS, &record, 8, &answer), KZ_HEAP_FAILS) &&
                 is(kz_allocate_cleared(region, above + WORDS, &record, 8, 1, &answer), KZ_HEAP_FAILS) &&
                 is(kz_free(region, above + WORDS, &record, 0, &answer), KZ_HEAP_FAILS) &&
                 is(kz_reallocate(region, above + WORDS, &record, 0, 8, &answer), KZ_HEAP_FAILS) &&
                 is(kz_set_merge(region, above + WORDS, &record, false, &answer), KZ_HEAP_FAILS) &&
                 is(kz_ask_chunk(region, above + WORDS, &record, KZ_ASK_SIZE, 0, &answer), KZ_HEAP_FAILS) &&
                 is(kz_ask_bin(region, above + WORDS, &record, KZ_ASK_COUNT, 0, &answer), KZ_HEAP_FAILS) &&
                 is(kz_patrol(region, above + WORDS, &record, 1, &answer), KZ_HEAP_FAILS) &&
                 is(kz_check(region, WORDS, &record, &counts), KZ_ACCEPTED);
    puts(right ? "a count of words has 64 bits" : "a count of words is CUT to 32 bits");
    return !right;
}
