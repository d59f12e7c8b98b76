/* Every refusal in C, each by a call that gives it. Prints the lines of examples/refusals.stdout: a number, its name and its
   sentence; ends with 1 if a call gives a number without a name. docs/MANUAL.md has the operator's card (section 6), and README.md says
   how to build an example. */
#include <stdio.h>

#include "kruzhvela.h"

enum { WORDS = 64, BINS = 4 };

static const uint32_t table[BINS] = {24, 32, 40, 128};
static uint32_t region[WORDS];
static kz_record record;
static kz_answer answer;
static kz_counts counts;

#define NAMED(refusal)                                                                                                         \
    case refusal:                                                                                                              \
        return #refusal

/* A refusal's name, NULL for a number that names none. Two cases with one number do not compile: so none of these names is 9. */
static const char *name_of(uint32_t number)
{
    switch (number) {
        NAMED(KZ_REGION_LENGTH);
        NAMED(KZ_BAD_TABLE);
        NAMED(KZ_DONOR_SIZE);
        NAMED(KZ_HEAP_FAILS);
        NAMED(KZ_BLOCK_SIZE);
        NAMED(KZ_NOT_LIVE);
        NAMED(KZ_NO_ROOM);
        NAMED(KZ_NOT_THERE);
        NAMED(KZ_RUN_SIZE);
        NAMED(KZ_BEYOND_MENDING);
    case 9:
    default:
        return NULL;
    }
}

static bool named = true;

static void show(uint32_t number)
{
    const char *name = name_of(number);
    printf("%u %s: %s\n", (unsigned)number, name == NULL ? "names no refusal" : name, kz_refusal_text(number));
    named = named && name != NULL;
}

/* Setup with a region too short, a table that does not begin with 24, and a donor too small. */
static void setups(void)
{
    const uint32_t wrong[] = {32, 40};
    show(kz_setup(region, 9, table, BINS, 0, true, &record, &answer));
    show(kz_setup(region, WORDS, wrong, 2, 0, true, &record, &answer));
    show(kz_setup(region, WORDS, table, BINS, 16, true, &record, &answer));
}

/* A heap whose links do not lead up from the start, a block of 0 bytes, a double free, a block too large, and a bin too far. */
static void calls(void)
{
    kz_setup(region, WORDS, table, BINS, 0, true, &record, &answer);
    uint32_t link = region[0];
    region[0] = 4;
    show(kz_check(region, WORDS, &record, &counts));
    region[0] = link;
    show(kz_allocate(region, WORDS, &record, 0, &answer));
    kz_allocate(region, WORDS, &record, 16, &answer);
    uint32_t block = answer.offset;
    kz_free(region, WORDS, &record, block, &answer);
    show(kz_free(region, WORDS, &record, block, &answer));
    show(kz_allocate(region, WORDS, &record, 4 * WORDS, &answer));
    show(kz_ask_bin(region, WORDS, &record, KZ_ASK_COUNT, BINS, &answer));
}

/* A run of no chunks, and one that meets a broken link with no way back to it from the end. */
static void patrols(void)
{
    show(kz_patrol(region, WORDS, &record, 0, &answer));
    region[0] = 4;
    region[WORDS - 1] = 4 * WORDS;
    show(kz_patrol(region, WORDS, &record, 1, &answer));
}

int main(void)
{
    setups();
    calls();
    patrols();
    return named ? 0 : 1;
}
