/* The demonstration in C: sets up a heap of 64 words, makes nine calls and prints the heap chunk by chunk,
   the nine lines of crates/demo/stdout. README.md says how to build it. */
#include <stdio.h>

#include "kruzhvela.h"

enum { WORDS = 64 };

typedef struct {
    uint32_t region[WORDS];
    kz_record record;
    kz_answer answer;
} Station;

static uint32_t ask(Station *s, uint32_t question, uint32_t chunk)
{
    kz_ask_chunk(s->region, WORDS, &s->record, question, chunk, &s->answer);
    return s->answer.value;
}

/* At the end chunk there is none. */
static bool has_next(Station *s, uint32_t chunk)
{
    ask(s, KZ_ASK_NEXT, chunk);
    return s->answer.none == 0;
}

/* The block's offset, 0 if the call is refused. */
static uint32_t allocate(Station *s, uint32_t z)
{
    kz_allocate(s->region, WORDS, &s->record, z, &s->answer);
    return s->answer.offset;
}

static uint32_t free_block(Station *s, uint32_t block)
{
    return kz_free(s->region, WORDS, &s->record, block, &s->answer);
}

static void print_kind(Station *s, uint32_t chunk)
{
    if (chunk == 0)
        puts("start");
    else if (!has_next(s, chunk))
        puts("end");
    else if (ask(s, KZ_ASK_TYPE, chunk) == 1)
        puts("inuse");
    else if (chunk == s->record.donor)
        puts("donor");
    else if (chunk == s->record.top)
        puts("top");
    else
        printf("free %u\n", (unsigned)ask(s, KZ_ASK_BIN, chunk));
}

static void print_heap(Station *s)
{
    uint32_t chunk = 0;
    printf("%u %u %u\n", (unsigned)s->record.bytes, (unsigned)s->record.bins, (unsigned)s->record.used);
    for (;;) {
        printf("%u %u ", (unsigned)chunk, (unsigned)ask(s, KZ_ASK_SIZE, chunk));
        print_kind(s, chunk);
        if (!has_next(s, chunk))
            return;
        chunk = s->answer.value;
    }
}

/* Makes the calls; 1 at the first answer that differs from the demonstration's. */
static int play(Station *s)
{
    const uint32_t table[] = {24, 32, 40, 128};
    if (kz_setup(s->region, WORDS, table, sizeof table / sizeof table[0], 64, true, &s->record, &s->answer) != KZ_ACCEPTED)
        return 1;
    if (allocate(s, 16) != 16 || allocate(s, 17) != 80 || allocate(s, 40) != 112 || allocate(s, 64) != 160)
        return 1;
    if (allocate(s, 16) != 0 || s->answer.refusal != KZ_NO_ROOM)
        return 1;
    if (free_block(s, 80) != KZ_ACCEPTED || free_block(s, 112) != KZ_ACCEPTED || free_block(s, 112) != KZ_NOT_LIVE)
        return 1;
    return allocate(s, 16) != 80;
}

int main(void)
{
    static Station station;
    if (play(&station) != 0) {
        puts("an answer differs from the demonstration's");
        return 1;
    }
    print_heap(&station);
    return 0;
}
