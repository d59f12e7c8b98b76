/* Plays the stored vectors on the machine at hand: every call of the script crates/vectors/stdin, made with the archive that is linked. After
   each call a digest of the answer, the record and the region must be the number in the transcript crates/vectors/stdout, which a second
   implementation wrote. Run it from the repository's top.

   Where memory is short, compile with -DSPACE=N: heaps of more than N words are then left out, and counted. */
#include <stdio.h>

#include "kruzhvela.h"

#ifndef SPACE
#define SPACE 16400 /* more words than the largest region has: larger ones are played too, to be refused */
#endif

enum { MOST_ARGUMENTS = 64, MOST_SIZES = 40, BUFFER = 512, NO_BYTE = 256 };
enum { RECORD_WORDS = sizeof(kz_record) / sizeof(uint32_t), ANSWER_WORDS = 5 };

/* What an action of the script asks for; 1 to 9 and 12 are the ten calls. */
enum { REGION = 0, WRITE = 10, RECORD = 11, PATROL = 12 };

typedef struct {
    FILE *file;
    unsigned char bytes[BUFFER];
    size_t at, end;
} Source;

typedef struct {
    uint32_t space[SPACE];
    uint32_t words; /* of the region */
    bool too_large; /* for the space: its calls are left out */
    union {
        kz_record record;
        uint32_t words[RECORD_WORDS];
    } record;
    union {
        kz_answer answer;
        kz_counts counts;
        uint32_t words[ANSWER_WORDS];
    } answer;
} Heap;

static unsigned peek(Source *s)
{
    if (s->at == s->end) {
        s->at = 0;
        s->end = fread(s->bytes, 1, BUFFER, s->file);
    }
    return s->end == 0 ? NO_BYTE : s->bytes[s->at];
}

static bool is_digit(unsigned byte) { return byte >= '0' && byte <= '9'; }

/* Every byte that is no digit separates numbers; a comment goes from # to the end of its line. */
static void skip_to_digit(Source *s)
{
    bool comment = false;
    for (unsigned byte = peek(s); byte != NO_BYTE && (comment || !is_digit(byte)); byte = peek(s)) {
        comment = byte == '#' || (comment && byte != '\n');
        s->at++;
    }
}

/* The next number modulo 2^32; false if there is none. */
static bool next_number(Source *s, uint32_t *value)
{
    skip_to_digit(s);
    bool found = is_digit(peek(s));
    *value = 0;
    for (unsigned byte = peek(s); is_digit(byte); byte = peek(s)) {
        *value = *value * 10 + (byte - '0');
        s->at++;
    }
    return found;
}

/* An action: what it asks for, how many arguments follow, and those; false at the end. Arguments that are not given are 0. */
static bool next_action(Source *s, uint32_t *op, uint32_t *arguments)
{
    uint32_t count, value;
    if (!next_number(s, op))
        return false;
    next_number(s, &count);
    for (uint32_t i = 0; i < MOST_ARGUMENTS; i++)
        arguments[i] = 0;
    for (uint32_t i = 0; i < count && next_number(s, &value); i++)
        if (i < MOST_ARGUMENTS)
            arguments[i] = value;
    return true;
}

/* A region of numbers that look random, and an empty record. */
static void new_region(Heap *h, uint32_t words, uint32_t seed)
{
    h->too_large = words > SPACE;
    h->words = words < SPACE ? words : SPACE;
    for (uint32_t i = 0; i < h->words; i++) {
        seed = seed * 1664525u + 1013904223u;
        h->space[i] = seed;
    }
    for (uint32_t i = 0; i < RECORD_WORDS; i++)
        h->record.words[i] = 0;
}

static void call(Heap *h, uint32_t op, const uint32_t *arguments)
{
    uint32_t *region = h->space, sizes = arguments[2] < MOST_SIZES ? arguments[2] : MOST_SIZES;
    kz_record *record = &h->record.record;
    kz_answer *answer = &h->answer.answer;
    for (uint32_t i = 0; i < ANSWER_WORDS; i++)
        h->answer.words[i] = 0;
    switch (op) {
    case 1: kz_setup(region, h->words, arguments + 3, sizes, arguments[0], arguments[1] != 0, record, answer); break;
    case 2: kz_allocate(region, h->words, record, arguments[0], answer); break;
    case 3: kz_allocate_cleared(region, h->words, record, arguments[0], arguments[1], answer); break;
    case 4: kz_free(region, h->words, record, arguments[0], answer); break;
    case 5: kz_reallocate(region, h->words, record, arguments[0], arguments[1], answer); break;
    case 6: kz_set_merge(region, h->words, record, arguments[0] != 0, answer); break;
    case 7: kz_check(region, h->words, record, &h->answer.counts); break;
    case 8: kz_ask_chunk(region, h->words, record, arguments[0], arguments[1], answer); break;
    case 9: kz_ask_bin(region, h->words, record, arguments[0], arguments[1], answer); break;
    default: kz_patrol(region, h->words, record, arguments[0], answer);
    }
}

/* Where the digest of one row of words starts from that of another, the two count as one row. */
static uint32_t digest(uint32_t start, const uint32_t *words, uint32_t count)
{
    for (uint32_t i = 0; i < count; i++) {
        uint32_t mixed = start ^ words[i];
        start = (mixed << 5 | mixed >> 27) * 2654435761u;
    }
    return start;
}

static uint32_t digest_of(const Heap *h)
{
    uint32_t said = digest(2166136261u, h->answer.words, ANSWER_WORDS);
    return digest(digest(said, h->record.words, RECORD_WORDS), h->space, h->words);
}

static void set_word(uint32_t *words, uint32_t count, const uint32_t *arguments)
{
    if (arguments[0] < count)
        words[arguments[0]] = arguments[1];
}

/* How many calls were made and left out. False at the first digest that is not the transcript's, at an action that is none, and if script or
   transcript has more than the other. */
static bool play_script(Source *script, Source *transcript, uint32_t *calls, uint32_t *left_out)
{
    static Heap heap;
    uint32_t op, arguments[MOST_ARGUMENTS], expected;
    while (next_action(script, &op, arguments)) {
        if (op == REGION)
            new_region(&heap, arguments[0], arguments[1]);
        else if (op == WRITE)
            set_word(heap.space, heap.words, arguments);
        else if (op == RECORD)
            set_word(heap.record.words, RECORD_WORDS, arguments);
        else if (op > PATROL || !next_number(transcript, &expected))
            return false;
        else if (heap.too_large)
            ++*left_out;
        else {
            ++*calls;
            call(&heap, op, arguments);
            if (digest_of(&heap) != expected)
                return false;
        }
    }
    return !next_number(transcript, &expected);
}

int main(void)
{
    static Source script, transcript;
    uint32_t calls = 0, left_out = 0;
    script.file = fopen("crates/vectors/stdin", "r");
    transcript.file = fopen("crates/vectors/stdout", "r");
    if (script.file == NULL || transcript.file == NULL) {
        puts("the vectors can't be read: run this from the repository's top");
        return 1;
    }
    if (!play_script(&script, &transcript, &calls, &left_out)) {
        printf("line %u of the transcript is not what this heap gives\n", (unsigned)(calls + left_out));
        return 1;
    }
    printf("%u calls of the vectors agree with the transcript, %u left out\n", (unsigned)calls, (unsigned)left_out);
    return calls == 0;
}
