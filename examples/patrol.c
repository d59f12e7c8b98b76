/* The patrol in C: a heap of live strips, a bit flipped in a link, and the runs that mend it in idle time. Prints the lines of
   examples/patrol.stdout; ends with 1 if anything is not as these lines say. README.md says how to build an example. */
#include <stdio.h>
#include <string.h>

#include "kruzhvela.h"

enum { WORDS = 256, WORD_BYTES = 4, STRIPS = 6, CHUNKS_A_RUN = 4 };

typedef struct {
    uint32_t region[WORDS];
    kz_record record;
    kz_answer answer;
    kz_counts counts;
} Station;

static bool passes(Station *s)
{
    return kz_check(s->region, WORDS, &s->record, &s->counts) == KZ_ACCEPTED;
}

/* Allocates a strip and fills it: every word is the strip's number. Returns its block, 0 if the call is refused. */
static uint32_t take(Station *s, uint32_t number, uint32_t bytes)
{
    kz_allocate(s->region, WORDS, &s->record, bytes, &s->answer);
    uint32_t block = s->answer.offset;
    for (uint32_t i = 0; block != 0 && i < bytes / WORD_BYTES; i++)
        s->region[block / WORD_BYTES + i] = number;
    return block;
}

/* Six strips, of which the third is given back. Returns the block of the fifth, 0 if a call is refused. */
static uint32_t fill(Station *s)
{
    const uint32_t table[] = {24, 64, 256}, bytes[STRIPS] = {40, 120, 64, 24, 200, 80};
    uint32_t blocks[STRIPS];
    kz_setup(s->region, WORDS, table, sizeof table / sizeof table[0], 0, true, &s->record, &s->answer);
    for (uint32_t i = 0; i < STRIPS; i++)
        blocks[i] = take(s, i + 1, bytes[i]);
    bool accepted = kz_free(s->region, WORDS, &s->record, blocks[2], &s->answer) == KZ_ACCEPTED;
    return accepted && passes(s) ? blocks[4] : 0;
}

/* Runs of a few chunks, as a station makes them while it is idle, until the end chunk is handled. Returns their number, 0 if one is
   refused. */
static uint32_t patrol(Station *s)
{
    for (uint32_t runs = 1;; runs++) {
        if (kz_patrol(s->region, WORDS, &s->record, CHUNKS_A_RUN, &s->answer) != KZ_ACCEPTED)
            return 0;
        if (s->answer.value == 1)
            return runs;
    }
}

/* 0 if all goes as the lines say. */
static int play(Station *s, Station *before)
{
    uint32_t block = fill(s);
    if (block == 0)
        return 1;
    *before = *s;
    printf("%u chunks, %u bytes used\n", (unsigned)s->counts.chunks, (unsigned)s->counts.used);

    uint32_t *link = &s->region[block / WORD_BYTES - 2];
    printf("a bit flips in the forward link before block %u: %u", (unsigned)block, (unsigned)*link);
    *link ^= 1u << 10;
    printf(" becomes %u\n", (unsigned)*link);
    if (passes(s))
        return 1;
    printf("the check refuses: %u, %s\n", (unsigned)s->counts.refusal, kz_refusal_text(s->counts.refusal));

    uint32_t runs = patrol(s);
    if (runs == 0 || !passes(s))
        return 1;
    printf("%u runs of %d chunks, and the check passes\n", (unsigned)runs, CHUNKS_A_RUN);
    if (memcmp(s->region, before->region, sizeof s->region) != 0 || memcmp(&s->record, &before->record, sizeof s->record) != 0)
        return 1;
    puts("every word is as before");
    return 0;
}

int main(void)
{
    static Station station, before;
    if (play(&station, &before) != 0) {
        puts("this is not what the patrol promises");
        return 1;
    }
    return 0;
}
