/* The peer of the proved check, written by hand in C for speed: it tests the same conditions on the same words, with the same
   bitmap of marks, and gives the same answer (src/agree.rs holds it to that). No word and no mark has a bounds check of its own:
   each walk goes only to places that it has tested. */
#include <stdbool.h>
#include <stddef.h>
#include <stdint.h>
#include <string.h>

#include "kruzhvela.h"
#include "layout.h"

/* The bitmap has a bit for each aligned place of the largest heap. */
enum { WORD_BITS = 32, MARKS = MOST_WORDS * WORD_BYTES / ALIGNMENT / WORD_BITS };

/* A walk along the chain: the chunk that it is at, the one before, what it counted, and an or of all places that it came to. */
typedef struct {
    uint32_t at, before, chunks, ordinary, free, places;
} Walk;

/* A word of the chunk at a place, which may not be aligned: the walk of the chain tests that for all places together, at its end. */
static inline uint32_t word(const uint32_t *words, uint32_t chunk, uint32_t number)
{
    uint32_t value;
    memcpy(&value, (const char *)words + chunk + number * WORD_BYTES, sizeof value);
    return value;
}

/* Both loops go to their end, so that the compiler can test several places at a time. A bin count of 0 fails too: then the first
   size would have to be 0. */
static bool table_valid(const kz_record *record)
{
    const uint32_t *sizes = record->sizes, *heads = record->heads, *tails = record->tails;
    uint32_t bins = record->bins, wrong = 0;
    if (bins > KZ_MOST_BINS || sizes[0] != LEAST_CHUNK)
        return false;
    for (uint32_t i = 1; i < bins; i++)
        wrong |= sizes[i] % ALIGNMENT | (sizes[i] <= sizes[i - 1]);
    for (uint32_t i = bins; i < KZ_MOST_BINS; i++)
        wrong |= sizes[i] | heads[i] | tails[i];
    return wrong == 0;
}

static inline Walk step(Walk walk, uint32_t next)
{
    walk.chunks++;
    walk.places |= next;
    walk.before = walk.at;
    walk.at = next;
    return walk;
}

/* Goes over chunks in use and ordinary chunks, which it marks, to the chunk at `stop` or to the first chunk that is wrong. A
   backward link is compared whole, with its flags: with that of a chunk in use, then with that of a free one. */
static inline Walk walk_to(Walk walk, uint32_t stop, const uint32_t *words, uint32_t *marks)
{
    for (;;) {
        uint32_t at = walk.at, next = word(words, at, FORWARD);
        if (next > stop)
            return walk;
        uint32_t back = word(words, at, BACKWARD);
        if (next < at + LEAST_CHUNK)
            return walk;
        if (back != walk.before + IN_USE) {
            uint32_t size = next - at;
            if (back != walk.before || word(words, at, SIZE) != size)
                return walk;
            walk.free += size;
            walk.ordinary++;
            marks[at / ALIGNMENT / WORD_BITS] |= 1u << at / ALIGNMENT % WORD_BITS;
        }
        walk = step(walk, next);
    }
}

/* Donor and top are free and in no bin. */
static inline bool is_reserved(const uint32_t *words, uint32_t at, uint32_t before, uint32_t size)
{
    return word(words, at, BACKWARD) == before && word(words, at, SIZE) == size &&
           (word(words, at, NEXT_IN_BIN) | word(words, at, PREVIOUS_IN_BIN) | word(words, at, BIN)) == 0;
}

/* Goes along the chain from one known place to the next: the patrol's, the donor, the top. So no chunk between them has to be
   compared with these. */
static bool walk_chain(const uint32_t *words, const kz_record *record, uint32_t *marks, Walk *walked)
{
    uint32_t end = record->bytes - HEADER_BYTES, donor = record->donor, top = record->top;
    uint32_t patrol = record->patrol;
    bool patrol_met = patrol == 0 || patrol == donor || patrol == top || patrol == end;
    if (words[FORWARD] != HEADER_BYTES || words[BACKWARD] != IN_USE)
        return false;
    if (donor % ALIGNMENT != 0 || donor >= top || top > end - LEAST_CHUNK)
        return false;
    Walk walk = step((Walk){0}, HEADER_BYTES);
    while (walk.at <= top) {
        uint32_t stop = walk.at <= donor ? donor : top;
        if (!patrol_met && patrol >= walk.at && patrol < stop) {
            walk = walk_to(walk, patrol, words, marks);
            if (walk.at != patrol)
                return false;
            patrol_met = true;
        }
        walk = walk_to(walk, stop, words, marks);
        uint32_t at = walk.at, next = word(words, at, FORWARD), size = next - at;
        if (at != stop || next > (at == top ? end : top) || size < LEAST_CHUNK || !is_reserved(words, at, walk.before, size))
            return false;
        walk.free += size;
        walk = step(walk, next);
    }
    *walked = step(walk, end);
    return walk.at == end && word(words, end, FORWARD) == 0 && word(words, end, BACKWARD) == top + IN_USE && patrol_met &&
           walk.places % ALIGNMENT == 0;
}

/* The number of a place among the aligned ones. The low bits come on top, so that a place that is not aligned is above all. */
static inline uint32_t number_of(uint32_t place)
{
    return place / ALIGNMENT | place << (WORD_BITS - 3);
}

/* Goes along the bins' lists. Each member must be marked, so it is an ordinary chunk. No mark is cleared: a chunk that came twice
   would have two members before it, or two bins, but it names one of each. So if there are as many members as ordinary chunks,
   each of these is in a list. Sizes do not go down along a list, from the bin's own size on; so only the last can be too large
   for its bin. */
static bool walk_lists(const uint32_t *words, const kz_record *record, const uint32_t *marks, uint32_t ordinary)
{
    const uint32_t *sizes = record->sizes, *heads = record->heads, *tails = record->tails;
    uint32_t bins = record->bins, numbers = record->bytes / ALIGNMENT, met = 0;
    for (uint32_t bin = 0; bin < bins; bin++) {
        if ((heads[bin] | tails[bin]) == 0)
            continue;
        uint32_t size = sizes[bin], before = 0;
        for (uint32_t at = heads[bin]; at != 0;) {
            uint32_t number = number_of(at), least = size;
            if (number >= numbers)
                return false;
            if ((marks[number / WORD_BITS] >> number % WORD_BITS & 1) == 0)
                return false;
            size = word(words, at, SIZE);
            if (word(words, at, PREVIOUS_IN_BIN) != before || word(words, at, BIN) != bin * BIN_FACTOR || size < least)
                return false;
            met++;
            before = at;
            at = word(words, at, NEXT_IN_BIN);
        }
        if (tails[bin] != before || (bin + 1 < bins && size >= sizes[bin + 1]))
            return false;
    }
    return met == ordinary;
}

/* Every chunk but start and end is in use or free, so the used bytes are what the free ones leave. */
static bool passes(const uint32_t *words, size_t count, const kz_record *record, Walk *walk)
{
    uint32_t marks[MARKS];
    if (count < FEWEST_WORDS || count > MOST_WORDS || record->bytes != count / 2 * ALIGNMENT ||
        record->merge > 1 || !table_valid(record))
        return false;
    memset(marks, 0, sizeof marks);
    return walk_chain(words, record, marks, walk) &&
           record->used == record->bytes - 2 * HEADER_BYTES - walk->free &&
           walk_lists(words, record, marks, walk->ordinary);
}

uint32_t limit_check(const uint32_t *words, size_t count, const kz_record *record, kz_counts *counts)
{
    Walk walk;
    memset(counts, 0, sizeof *counts);
    if (!passes(words, count, record, &walk))
        return counts->refusal = KZ_HEAP_FAILS;
    counts->chunks = walk.chunks;
    counts->ordinary = walk.ordinary;
    counts->used = record->used;
    counts->free = walk.free;
    return KZ_ACCEPTED;
}
