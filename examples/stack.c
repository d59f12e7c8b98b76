/* The stack that each call takes on the machine at hand: the most over a random run of calls on a heap that fills and empties; and for
   kz_patrol what damage adds to it. The stack below a function is filled; then the function makes the call. How far down the stack was
   written, less what an empty function writes, is what the call took. */
#include <stdio.h>

#include "kruzhvela.h"

enum { WORDS = 16384, WORD_BYTES = 4, LEAST_CHUNK = 24, ROOM = 20000, GAP = 256, FILLED = 0x5A };
enum { STEPS = 4000, KEPT = 256, CHUNKS = 2500, BINS = 6 };

static uint32_t region[WORDS], sound[WORDS];
static kz_record record;
static kz_answer answer;
static kz_counts counts;

typedef void Call(void);

/* The arguments of the call that is measured. */
static const uint32_t table[BINS] = {24, 32, 40, 128, 512, 2048};
static uint32_t block, bytes, chunks, question, place;

static void nothing(void) {}
static void setup(void) { kz_setup(region, WORDS, table, BINS, 512, true, &record, &answer); }
static void allocate(void) { kz_allocate(region, WORDS, &record, bytes, &answer); }
static void allocate_cleared(void) { kz_allocate_cleared(region, WORDS, &record, bytes, 1, &answer); }
static void free_block(void) { kz_free(region, WORDS, &record, block, &answer); }
static void reallocate(void) { kz_reallocate(region, WORDS, &record, block, bytes, &answer); }
static void set_merge(void) { kz_set_merge(region, WORDS, &record, true, &answer); }
static void check(void) { kz_check(region, WORDS, &record, &counts); }
static void ask_chunk(void) { kz_ask_chunk(region, WORDS, &record, question, place, &answer); }
static void ask_bin(void) { kz_ask_bin(region, WORDS, &record, question, place, &answer); }
static void patrol(void) { kz_patrol(region, WORDS, &record, chunks, &answer); }

static const struct {
    const char *name;
    Call *call;
} calls[] = {{"kz_setup", setup},         {"kz_allocate", allocate},   {"kz_allocate_cleared", allocate_cleared}, {"kz_free", free_block},
             {"kz_reallocate", reallocate}, {"kz_set_merge", set_merge}, {"kz_check", check},                       {"kz_ask_chunk", ask_chunk},
             {"kz_ask_bin", ask_bin},       {"kz_patrol", patrol}};

enum { CALLS = sizeof calls / sizeof calls[0] };

/* The compiler must not know what is called, nor how much of an array is used: else it would change what lies on the stack. */
static Call *volatile called;
static volatile size_t lowest;
static volatile unsigned char *volatile bottom;

static bool all_within = true, all_mended = true;

/* Fills the stack below the caller, as far as a call may reach. */
static __attribute__((noinline)) void fill_below(void)
{
    unsigned char room[ROOM];
    bottom = (unsigned char *)((uintptr_t)room + lowest);
    for (size_t i = 0; i < ROOM; i++)
        bottom[i] = FILLED;
}

/* Makes the call from a place that the gap puts below the frame of the function that fills. */
static __attribute__((noinline)) void call_below(void)
{
    volatile unsigned char gap[GAP];
    gap[lowest] = 0;
    called();
    lowest = gap[lowest];
}

/* Bytes from the filled room's upper end down to the lowest that the call wrote, in words of 8. */
static __attribute__((noinline)) size_t depth(Call *call)
{
    size_t low = 0;
    called = call;
    fill_below();
    call_below();
    while (low < ROOM && bottom[low] == FILLED)
        low++;
    all_within = all_within && low > 0;
    return (ROOM - low + 7) / 8 * 8;
}

static uint32_t random_below(uint32_t bound)
{
    static uint32_t state = 1;
    state ^= state << 13;
    state ^= state >> 17;
    state ^= state << 5;
    return state % bound;
}

/* Chooses the arguments of the next call, and which one it is: mostly those that grant or free. */
static unsigned choose(const uint32_t *blocks)
{
    unsigned which = random_below(3) == 0 ? 5 + random_below(5) : 1 + random_below(4);
    bytes = 1 + random_below(random_below(8) == 0 ? 4096 : 200);
    block = blocks[random_below(KEPT)];
    chunks = 1 + random_below(64);
    question = 1 + random_below(which == 8 ? 3 : 9);
    place = which == 8 ? random_below(BINS) : question == KZ_ASK_CHUNK ? block : block - 8;
    return which;
}

/* Keeps the blocks that are live: a granted one in place of the one that moved, or of any that is not live. */
static void keep(unsigned which, uint32_t *blocks)
{
    if (answer.refusal != KZ_ACCEPTED || which < 1 || which > 4)
        return;
    for (uint32_t i = 0; i < KEPT; i++)
        if (blocks[i] == (which <= 2 ? 0 : block)) {
            blocks[i] = answer.offset;
            return;
        }
}

/* The most that each call takes in the run; its first call is setup. */
static void whole_heaps(void)
{
    static uint32_t blocks[KEPT];
    size_t most[CALLS] = {0}, empty = depth(nothing);
    for (uint32_t step = 0; step < STEPS; step++) {
        unsigned which = step == 0 ? 0 : choose(blocks);
        size_t taken = depth(calls[which].call) - empty;
        most[which] = taken > most[which] ? taken : most[which];
        keep(which, blocks);
    }
    check();
    printf("%u calls, at the end %u chunks, %u of them free and in bins\n", (unsigned)STEPS, (unsigned)counts.chunks, (unsigned)counts.ordinary);
    for (unsigned i = 0; i < CALLS; i++)
        printf("%s: %zu bytes of stack\n", calls[i].name, most[i]);
}

static void put_sound_words(void)
{
    for (uint32_t i = 0; i < WORDS; i++)
        region[i] = sound[i];
}

static bool has_sound_words(void)
{
    uint32_t i = 0;
    while (i < WORDS && region[i] == sound[i])
        i++;
    return i == WORDS;
}

/* Makes the backward link of the second block's chunk name no chunk, its flags kept. */
static void wrong_backward_link(void)
{
    put_sound_words();
    region[(8 + LEAST_CHUNK) / WORD_BYTES + 1] ^= 1u << 20;
}

/* Breaks so many forward links, evenly spread; the backward links stay whole. */
static void break_links(uint32_t broken)
{
    put_sound_words();
    for (uint32_t i = 0; i < broken; i++) {
        uint32_t chunk = 8 + LEAST_CHUNK * (i * (CHUNKS / 2 / broken));
        region[chunk / WORD_BYTES] = 1;
    }
}

/* Bytes of stack of a run from the start on a damaged heap. It must be accepted and leave the sound heap's words. */
static size_t run(uint32_t length, uint32_t count, const char *damage)
{
    chunks = length;
    record.patrol = 0;
    size_t taken = depth(patrol) - depth(nothing);
    bool mended = answer.refusal == KZ_ACCEPTED && has_sound_words();
    all_mended = all_mended && mended;
    printf("a run of %u chunks, %u %s: %zu bytes of stack%s\n", (unsigned)length, (unsigned)count, damage, taken, mended ? "" : ", and NOT mended");
    return taken;
}

static size_t with_broken(uint32_t length, uint32_t broken)
{
    break_links(broken);
    return run(length, broken, "broken forward links");
}

/* Blocks of the least size, all in use; false if one is refused. */
static bool fill(void)
{
    kz_setup(region, WORDS, table, 1, 0, true, &record, &answer);
    for (uint32_t i = 0; i < CHUNKS; i++)
        if (kz_allocate(region, WORDS, &record, 1, &answer) != KZ_ACCEPTED)
            return false;
    for (uint32_t i = 0; i < WORDS; i++)
        sound[i] = region[i];
    return true;
}

static void damaged_heaps(void)
{
    with_broken(1, 0);
    with_broken(16, 0);
    with_broken(2000, 0);
    wrong_backward_link();
    run(16, 1, "wrong backward links");
    wrong_backward_link();
    run(2000, 1, "wrong backward links");
    with_broken(2000, 1);
    size_t ten = with_broken(2000, 10), hundred = with_broken(2000, 100);
    printf("for each broken forward link: %zu bytes of stack\n", (hundred - ten) / 90);
}

int main(void)
{
    /* once before, so that what the calls need of libc is bound */
    setup();
    for (unsigned i = 1; i < CALLS; i++)
        calls[i].call();
    whole_heaps();
    if (!fill())
        return 1;
    damaged_heaps();
    if (!all_within)
        puts("a call took MORE stack than was filled");
    return !all_mended || !all_within;
}
