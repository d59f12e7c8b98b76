/* The peer of the proved patrol, written by hand in C. It passes over the chunks at which all is right, in one loop that writes
   nothing. From the first chunk at which something is wrong it goes along twice: to see whether a link is beyond mending, then to
   write. */
#include <stdbool.h>
#include <stddef.h>
#include <stdint.h>
#include <string.h>

#include "kruzhvela.h"
#include "layout.h"

typedef struct {
    uint32_t *words;
    uint32_t end;
} Heap;

/* Where a run comes to. */
typedef struct {
    uint32_t place;
    bool ended, beyond;
} Run;

static inline uint32_t *word(Heap heap, uint32_t chunk, uint32_t number)
{
    return &heap.words[chunk / WORD_BYTES + number];
}

static inline uint32_t below(Heap heap, uint32_t chunk)
{
    return *word(heap, chunk, BACKWARD) & ~(uint32_t)FLAGS;
}

static inline uint32_t least(uint32_t chunk)
{
    return chunk == 0 ? HEADER_BYTES : LEAST_CHUNK;
}

static inline bool is_broken(Heap heap, uint32_t at, uint32_t link)
{
    if (link > heap.end || link % ALIGNMENT != 0 || link < at + least(at))
        return true;
    uint32_t between = below(heap, link);
    return between > at && between < link && *word(heap, between, FORWARD) == link;
}

/* The chunk above one whose link is broken; 0 if it is beyond mending. */
static uint32_t chunk_above(Heap heap, uint32_t broken)
{
    for (uint32_t at = heap.end;;) {
        uint32_t to = below(heap, at);
        if (to > at || at - to < least(to) || to < broken)
            return 0;
        if (to == broken)
            return at;
        at = to;
    }
}

static inline void mend(uint32_t *word, uint32_t value, bool writes)
{
    if (writes && *word != value)
        *word = value;
}

/* Handles chunks by the whole rule, with or without the writes. */
static Run go(Heap heap, uint32_t at, uint32_t chunks, bool writes)
{
    for (; chunks > 0; chunks--) {
        if (at == heap.end)
            return (Run){.ended = true};
        uint32_t next = *word(heap, at, FORWARD), back = *word(heap, at, BACKWARD);
        if (is_broken(heap, at, next)) {
            next = chunk_above(heap, at);
            if (next == 0)
                return (Run){.beyond = true};
        }
        mend(word(heap, at, FORWARD), next, writes);
        mend(word(heap, next, BACKWARD), at | (*word(heap, next, BACKWARD) & FLAGS), writes);
        if (at == 0)
            mend(word(heap, at, BACKWARD), back & FLAGS, writes);
        else if ((back & IN_USE) == 0)
            mend(word(heap, at, SIZE), next - at, writes);
        at = next;
    }
    return (Run){.place = at};
}

/* Passes over chunks above the start while all is right, and counts them off. A backward link that names the chunk below gives no
   sign of a skipped one, so that one comparison covers both. */
static inline uint32_t pass_over(Heap heap, uint32_t at, uint32_t *chunks)
{
    uint32_t left = *chunks, back = *word(heap, at, BACKWARD);
    while (left > 0 && at != heap.end) {
        uint32_t next = *word(heap, at, FORWARD);
        if (next > heap.end || next % ALIGNMENT != 0 || next < at + LEAST_CHUNK)
            break;
        uint32_t above = *word(heap, next, BACKWARD);
        if ((above & ~(uint32_t)FLAGS) != at || ((back & IN_USE) == 0 && *word(heap, at, SIZE) != next - at))
            break;
        at = next;
        back = above;
        left--;
    }
    *chunks = left;
    return at;
}

static inline bool start_is_right(Heap heap)
{
    uint32_t next = *word(heap, 0, FORWARD);
    return next <= heap.end && next % ALIGNMENT == 0 && next >= HEADER_BYTES && below(heap, next) == 0 && below(heap, 0) == 0;
}

static Run run(Heap heap, uint32_t at, uint32_t chunks)
{
    if (at == 0 && start_is_right(heap)) {
        at = *word(heap, 0, FORWARD);
        chunks--;
    }
    if (at != 0)
        at = pass_over(heap, at, &chunks);
    Run end = go(heap, at, chunks, false);
    if (!end.beyond)
        go(heap, at, chunks, true);
    return end;
}

static uint32_t refused(kz_answer *answer, uint32_t number)
{
    return answer->refusal = number;
}

uint32_t limit_patrol(uint32_t *words, size_t count, kz_record *record, uint32_t chunks, kz_answer *answer)
{
    uint32_t place = record->patrol;
    memset(answer, 0, sizeof *answer);
    if (chunks == 0)
        return refused(answer, KZ_RUN_SIZE);
    if (count < FEWEST_WORDS || count > MOST_WORDS || record->bytes != count / 2 * ALIGNMENT ||
        place % ALIGNMENT != 0 || place >= record->bytes)
        return refused(answer, KZ_HEAP_FAILS);
    Run end = run((Heap){words, record->bytes - HEADER_BYTES}, place, chunks);
    if (end.beyond)
        return refused(answer, KZ_BEYOND_MENDING);
    record->patrol = end.place;
    answer->value = end.ended;
    return KZ_ACCEPTED;
}
