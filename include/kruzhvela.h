/**
 * @file kruzhvela.h
 * @brief Kruzhvela for C: a binned heap in one region of 32-bit words that the caller lends.
 *
 * crates/abi_c proves of every function here that the answer, the record and the region afterwards are those of the call's rule
 * (crates/rules/specs), for all arguments that meet these preconditions, which no proof covers:
 *
 * - Each pointer is not null, is aligned for uint32_t and points to what the declaration says: region to `words` words, table to
 *   `bins` words.
 * - Region, table, record and answer do not overlap, and nothing else writes them before the function returns.
 * - A bool holds 0 or 1.
 *
 * **Blocks.** A block is an offset in bytes from the region's first word, and a multiple of 8. As a pointer it is
 * `(char *)region + offset`: its alignment is the region's own, up to 8. Align the region to 8 (`_Alignas(8)`) if a block is to
 * hold a uint64_t or a double; more than 8 can't be had.
 *
 * **One caller at a time.** There is no lock and no state outside the arguments. A call on one heap must not begin before
 * another call on the same heap has returned, in another thread or in an interrupt handler: lock, or mask the interrupt. Calls on
 * different heaps may run at the same time. Between calls a caller may read and write its own live blocks at any time.
 *
 * **Cost.** Every function but kz_setup and kz_patrol checks the whole heap first: one walk of the chunks and one of the free
 * lists. docs/MANUAL.md, section 12, has the time by chunks, and docs/TARGETS.md the stack of each function on each processor.
 *
 * docs/MANUAL.md explains chunks, bins, donor, top and each call; the sections are named below.
 */
#ifndef KRUZHVELA_H
#define KRUZHVELA_H

#include <stdbool.h>
#include <stddef.h> /* not used here: callers may rely on it for size_t */
#include <stdint.h>

/** @name Version
 *  Of this header and of the archive that it belongs to.
 *  @{ */
#define KZ_VERSION_MAJOR 0 /**< Raised where programs have to be changed, from 1 on. */
#define KZ_VERSION_MINOR 3 /**< Raised where something is added; below 1.0.0 also where programs have to be changed. */
#define KZ_VERSION_PATCH 0 /**< Raised else. */
#define KZ_VERSION "0.3.0" /**< All three. */
/** @} */

/**
 * @brief A number of words: of a region, or of a bin table.
 *
 * The compiled functions take it in 64 bits on every machine, so these declarations are right on 32-bit machines too. A size_t
 * can be passed as it is.
 */
typedef uint64_t kz_length;

/** The most bins that a heap may have: the length of the record's three arrays. */
#define KZ_MOST_BINS 32

/**
 * @brief The record of a heap (manual 3.4).
 *
 * The caller keeps it between calls and need not read it. A caller that writes it damages the heap. Together with the region's
 * words it is the whole heap: both can be copied, stored, and used again at another address.
 */
typedef struct kz_record {
    uint32_t bytes;               /**< Heap bytes: those of the region, without an odd last word. */
    uint32_t bins;                /**< Number of bins. */
    uint32_t donor;               /**< The donor's place, 0 for none. */
    uint32_t top;                 /**< The top's place. */
    uint32_t merge;               /**< 1 if free coalesces, else 0. Any other value is damage: #KZ_HEAP_FAILS, but not from
                                       kz_patrol(), which does not read it. */
    uint32_t used;                /**< Used bytes: the sizes of the chunks of live blocks. */
    uint32_t sizes[KZ_MOST_BINS]; /**< The bin sizes, then zeros. */
    uint32_t heads[KZ_MOST_BINS]; /**< The first chunk of each bin, 0 for none. */
    uint32_t tails[KZ_MOST_BINS]; /**< The last chunk of each bin, 0 for none. */
    uint32_t patrol;              /**< The chunk that the patrol handles next. */
} kz_record;

/**
 * @brief The answer of every function but kz_check().
 *
 * A member that a call does not name is 0.
 */
typedef struct kz_answer {
    uint32_t refusal; /**< The number that the function returns: #KZ_ACCEPTED or the refusal. */
    uint32_t offset;  /**< The granted block. */
    uint32_t value;   /**< What a question tells; 1 if a run of the patrol handled the end chunk. */
    int32_t change;   /**< The change in used bytes. */
    uint32_t none;    /**< 1 where a question has no value to tell: there is none. */
} kz_answer;

/** @brief The answer of kz_check(). If the heap is refused, the four counts are 0. */
typedef struct kz_counts {
    uint32_t refusal;  /**< #KZ_ACCEPTED or #KZ_HEAP_FAILS. */
    uint32_t chunks;   /**< Chunks, start and end counted. */
    uint32_t ordinary; /**< Ordinary free chunks: those in bins. */
    uint32_t used;     /**< Used bytes. */
    uint32_t free;     /**< Free bytes: of ordinary chunks, donor and top. used + free + 16 are the heap bytes. */
} kz_counts;

/** @cond */
/* The compiled functions know these types as arrays of words, one after the other. */
#if defined(__cplusplus) && __cplusplus >= 201103L
#define KZ_LAID_OUT(type, words) static_assert(sizeof(type) == 4 * (words), "padding in " #type)
#elif defined(__STDC_VERSION__) && __STDC_VERSION__ >= 201112L
#define KZ_LAID_OUT(type, words) _Static_assert(sizeof(type) == 4 * (words), "padding in " #type)
#else
#define KZ_LAID_OUT(type, words) typedef char type##_laid_out[sizeof(type) == 4 * (words) ? 1 : -1]
#endif
KZ_LAID_OUT(kz_record, 7 + 3 * KZ_MOST_BINS);
KZ_LAID_OUT(kz_answer, 5);
KZ_LAID_OUT(kz_counts, 5);
#undef KZ_LAID_OUT
/** @endcond */

/** @name Questions about a chunk
 *  For kz_ask_chunk(), which is given the chunk's place; for #KZ_ASK_CHUNK the place is a block's. The answer is the value, or
 *  that there is none: then `none` is 1 and the value 0. A value of 0 with `none` 0 is real: the start chunk, the first bin, or a
 *  free chunk's type (manual 5.8).
 *  @{ */
#define KZ_ASK_BIN 1             /**< Its bin. None for start, end, donor, top and a chunk in use. */
#define KZ_ASK_BLOCK 2           /**< Its block. None for a free chunk, start and end. */
#define KZ_ASK_CHUNK 3           /**< The chunk of a live block. */
#define KZ_ASK_NEXT 4            /**< The chunk above it. None for the end. */
#define KZ_ASK_NEXT_IN_BIN 5     /**< None for the last of its bin's list, and where #KZ_ASK_BIN has none. */
#define KZ_ASK_PREVIOUS 6        /**< The chunk below it. None for the start. */
#define KZ_ASK_PREVIOUS_IN_BIN 7 /**< None for the first of its bin's list, and where #KZ_ASK_BIN has none. */
#define KZ_ASK_SIZE 8            /**< Its size in bytes. */
#define KZ_ASK_TYPE 9            /**< 0 free, 1 in use. */
/** @} */

/** @name Questions about a bin
 *  For kz_ask_bin(), which is given the bin's number, from 0.
 *  @{ */
#define KZ_ASK_COUNT 1 /**< How many chunks it has. */
#define KZ_ASK_FIRST 2 /**< Its first chunk. None if the bin is empty. */
#define KZ_ASK_LAST 3  /**< Its last chunk. None if the bin is empty. */
/** @} */

/** @name Refusals
 *  What every function returns. A refused call changes neither region nor record, except that a refused setup writes a record of
 *  zeros. Manual 6 has what to do about each (the operator's card). No call gives 9: the name that it had, KZ_NO_BIN_TAKES, is
 *  gone, and the number is not used again.
 *  @{ */
#define KZ_ACCEPTED 0        /**< The call was carried out. */
#define KZ_REGION_LENGTH 1   /**< Setup: under 10 or over 16,384 words. */
#define KZ_BAD_TABLE 2       /**< Setup: the bin table is not valid. */
#define KZ_DONOR_SIZE 3      /**< Setup: the donor is not 0, and is below 24, no multiple of 8, or above the heap bytes less 40. */
#define KZ_HEAP_FAILS 4      /**< The heap fails the check. */
#define KZ_BLOCK_SIZE 5      /**< The size, or the product, is 0 or over 65,488. */
#define KZ_NOT_LIVE 6        /**< There is no live block: a double free, or a place that was never a block. */
#define KZ_NO_ROOM 7         /**< No chunk of the heap can serve the size. */
#define KZ_NOT_THERE 8       /**< A question: no such chunk, live block, bin or question. */
#define KZ_RUN_SIZE 10       /**< Patrol: a run of no chunks. */
#define KZ_BEYOND_MENDING 12 /**< Patrol: a link is broken, and the way back from the end does not lead to it. */
/** @} */

#ifdef __cplusplus
extern "C" {
#endif

/**
 * @brief Says a refusal in words, for a log or a display.
 * @param refusal  what a function returned.
 * @return a sentence without a full stop; for a number that no function returns, that there is no such refusal.
 */
static inline const char *kz_refusal_text(uint32_t refusal)
{
    switch (refusal) {
    case KZ_ACCEPTED: return "accepted";
    case KZ_REGION_LENGTH: return "the region has too few or too many words";
    case KZ_BAD_TABLE: return "the bin table is not valid";
    case KZ_DONOR_SIZE: return "the donor's size is not permitted";
    case KZ_HEAP_FAILS: return "the heap fails the check";
    case KZ_BLOCK_SIZE: return "the block's size is not permitted";
    case KZ_NOT_LIVE: return "the block is not live";
    case KZ_NO_ROOM: return "no chunk can serve the request";
    case KZ_NOT_THERE: return "there is no such chunk, block, bin or question";
    case KZ_RUN_SIZE: return "a run of the patrol has no chunks";
    case KZ_BEYOND_MENDING: return "a broken link is beyond mending";
    default: return "there is no such refusal";
    }
}

/**
 * @brief Sets up a heap in a region (manual 5.1). Writes the record without reading it.
 *
 * A refused setup writes a record of zeros and leaves the region as it was. So if the region holds a heap already, keep a copy of
 * its record, or set up with a record of its own: with the old record the old heap is whole still.
 *
 * @param region  10 to 16,384 words. What they hold does not matter.
 * @param words   their number. An odd last word is never read or written.
 * @param table   ascending bin sizes, multiples of 8, the first 24.
 * @param bins    their number, 1 to #KZ_MOST_BINS. The table is copied into the record.
 * @param donor   bytes of the donor chunk, 0 for none. Small requests take from it before they split a chunk of a larger bin; any
 *                other request takes from it only if no bin and not the top can serve. The table begins with a run 24, 32, 40 ..
 *                without a gap; a request is small if its chunk (z + 8, rounded up to a multiple of 8, at least 24) is below the
 *                last size of that run.
 * @param merge   whether free coalesces a chunk with its free neighbours.
 * @param record  is written.
 * @param answer  is written; no member but the refusal is named.
 * @return #KZ_ACCEPTED, #KZ_REGION_LENGTH, #KZ_BAD_TABLE or #KZ_DONOR_SIZE.
 */
uint32_t kz_setup(uint32_t *region, kz_length words, const uint32_t *table, kz_length bins, uint32_t donor, bool merge,
                  kz_record *record, kz_answer *answer);

/**
 * @brief Allocates a block of z bytes (manual 5.2). The block's words stay as found.
 *
 * It comes from the bin of its size, a larger bin, the top or the donor, tried in this order; a small request (see kz_setup())
 * tries the donor before the larger bins. Donor and top serve only if 24 bytes of them remain.
 *
 * Best fit: a block from a bin is cut from a chunk that is large enough, and no chunk in any bin that is large enough is smaller.
 * If a chunk in a bin has exactly the size that the request needs, or the request is not small and some chunk in a bin is large
 * enough, the block does come from a bin. The same holds of kz_allocate_cleared(), and of kz_reallocate() where the block moves.
 * Not promised: a fit of donor and top. They are taken however large they are, the donor by a small request even where a larger
 * bin could serve. Nor which of several smallest chunks is taken, nor that later requests find more room because of the fit.
 *
 * @param region  the heap's words.
 * @param words   their number.
 * @param record  the heap's record.
 * @param z       1 to 65,488 bytes.
 * @param answer  `offset` is the block, `change` the bytes of its chunk.
 * @return #KZ_ACCEPTED, #KZ_HEAP_FAILS, #KZ_BLOCK_SIZE, or #KZ_NO_ROOM: no chunk of the heap can serve.
 */
uint32_t kz_allocate(uint32_t *region, kz_length words, kz_record *record, uint32_t z, kz_answer *answer);

/**
 * @brief Allocates a block of count times size bytes and sets every word of it to 0 (manual 5.3).
 * @param region  the heap's words.
 * @param words   their number.
 * @param record  the heap's record.
 * @param count   how many elements.
 * @param size    bytes of one. The exact product, not modulo 2^32, must be 1 to 65,488.
 * @param answer  as of kz_allocate().
 * @return as kz_allocate().
 */
uint32_t kz_allocate_cleared(uint32_t *region, kz_length words, kz_record *record, uint32_t count, uint32_t size,
                             kz_answer *answer);

/**
 * @brief Frees a block (manual 5.4). Block 0 is accepted and changes nothing.
 *
 * A double free is refused with #KZ_NOT_LIVE, unless a new block has been allocated at that offset in between.
 *
 * @param region  the heap's words.
 * @param words   their number.
 * @param record  the heap's record.
 * @param block   the block's offset.
 * @param answer  `change` is the bytes of its chunk, negative.
 * @return #KZ_ACCEPTED, #KZ_HEAP_FAILS or #KZ_NOT_LIVE.
 */
uint32_t kz_free(uint32_t *region, kz_length words, kz_record *record, uint32_t block, kz_answer *answer);

/**
 * @brief Resizes a block to z bytes (manual 5.5): it may move. Its contents stay, up to the smaller of both sizes.
 *
 * Block 0: as kz_allocate(). If the call is refused, the block stays as it is.
 *
 * @param region  the heap's words.
 * @param words   their number.
 * @param record  the heap's record.
 * @param block   the block's offset.
 * @param z       1 to 65,488 bytes.
 * @param answer  `offset` is the block, which may be another one; `change` the change in used bytes.
 * @return #KZ_ACCEPTED, #KZ_HEAP_FAILS, #KZ_BLOCK_SIZE, #KZ_NOT_LIVE or #KZ_NO_ROOM.
 */
uint32_t kz_reallocate(uint32_t *region, kz_length words, kz_record *record, uint32_t block, uint32_t z, kz_answer *answer);

/**
 * @brief Turns coalescing on or off for the calls that follow (manual 5.6). No chunk moves or joins by it.
 * @param region  the heap's words.
 * @param words   their number.
 * @param record  the heap's record.
 * @param on      the new setting.
 * @param answer  no member but the refusal is named.
 * @return #KZ_ACCEPTED or #KZ_HEAP_FAILS.
 */
uint32_t kz_set_merge(uint32_t *region, kz_length words, kz_record *record, bool on, kz_answer *answer);

/**
 * @brief Checks the whole heap and counts its chunks and bytes (manual 4, 5.7).
 *
 * Every other call but kz_setup() and kz_patrol() makes the same check first. It asks that the bins be in order of size. A heap
 * that older firmware filled may have a bin that is not: it is refused, and only kz_setup() makes the region usable again.
 *
 * The check and the questions store nothing through `region` and `record`: a test makes them with both in read-only memory.
 *
 * @param region  the heap's words.
 * @param words   their number.
 * @param record  the heap's record.
 * @param counts  is written.
 * @return #KZ_ACCEPTED or #KZ_HEAP_FAILS.
 */
uint32_t kz_check(const uint32_t *region, kz_length words, const kz_record *record, kz_counts *counts);

/**
 * @brief Answers a question about the chunk, or the live block, at a place (manual 5.8). Changes nothing.
 * @param region    the heap's words.
 * @param words     their number.
 * @param record    the heap's record.
 * @param question  #KZ_ASK_BIN to #KZ_ASK_TYPE.
 * @param place     a chunk's offset in bytes; for #KZ_ASK_CHUNK a block's.
 * @param answer    `value`, or `none`.
 * @return #KZ_ACCEPTED, #KZ_HEAP_FAILS, or #KZ_NOT_THERE: there is no such chunk, block or question.
 */
uint32_t kz_ask_chunk(const uint32_t *region, kz_length words, const kz_record *record, uint32_t question, uint32_t place,
                      kz_answer *answer);

/**
 * @brief Answers a question about a bin (manual 5.8). Changes nothing.
 * @param region    the heap's words.
 * @param words     their number.
 * @param record    the heap's record.
 * @param question  #KZ_ASK_COUNT, #KZ_ASK_FIRST or #KZ_ASK_LAST.
 * @param bin       the bin's number, from 0.
 * @param answer    `value`, or `none`.
 * @return #KZ_ACCEPTED, #KZ_HEAP_FAILS, or #KZ_NOT_THERE: there is no such bin or question.
 */
uint32_t kz_ask_bin(const uint32_t *region, kz_length words, const kz_record *record, uint32_t question, uint32_t bin,
                    kz_answer *answer);

/**
 * @brief One run of the patrol (manual 5.9, 9): handles the next chunks, and mends links and sizes.
 *
 * It goes up from the patrol's place in the record. The place is then the next chunk to be handled: after the end chunk the
 * start, where setup puts it too. The patrol is for damaged heaps, so the check is not made. On a heap that passes the check a run
 * only moves the place.
 *
 * At each chunk it mends the forward link if that is broken, the backward link of the chunk above, and the size if the chunk is
 * free. A forward link is broken if it leaves the heap, is no multiple of 8, goes up by less than 24 (8 from the start), or skips
 * a chunk: the place that it names has a backward link to a place between the two, whose own forward link names it. The link is
 * then found again by a walk down the backward links from the end.
 *
 * Take a heap that passed the check and then was damaged, its record whole. A full patrol from the start puts every word back
 * - if only backward links and free sizes were damaged, and no wrong backward link gives the sign of a skipped chunk;
 * - if one forward link was damaged and is broken, and all else is whole. Of two broken forward links nothing is promised.
 *
 * It does not mend flags, bin links, bin words, or a wrong forward link that is not broken. Such a link is believed: of all flips
 * of one bit in a forward link a fifth to a third make it name a place inside a chunk (counted on heaps of 20 to 2,000 blocks).
 * To mend the backward link above is then to write a word into that chunk, perhaps into a live block. The place there is nearly
 * always beyond mending: a run that comes to it is refused before it has written anything, but a run that ended just before it
 * has written the word. So make runs as large as the idle time allows, at best the whole heap, and call kz_check() after a patrol.
 *
 * A refused run writes nothing and keeps its place. After #KZ_BEYOND_MENDING shorter runs go on up to the broken chunk, no run
 * goes past it, and of all calls kz_setup() alone brings the place back to the start.
 *
 * Time grows with `chunks`, not with the heap, as long as no link is broken. The stack grows by each broken link that a run meets:
 * where the stack is small, that is the limit of a run (docs/TARGETS.md).
 *
 * @param region  the heap's words.
 * @param words   their number.
 * @param record  the heap's record; only its place of the patrol is written.
 * @param chunks  how many chunks to handle, at least 1.
 * @param answer  `value` is 1 if the end chunk was handled, else 0.
 * @return #KZ_ACCEPTED; #KZ_RUN_SIZE if chunks is 0; #KZ_HEAP_FAILS only if the region's length is not permitted, the recorded heap
 *         bytes are not those of that length, or the place is no multiple of 8 from 0 to the end chunk; #KZ_BEYOND_MENDING if the
 *         walk from the end meets a link that leaves the heap, goes down by less than 24 (8 to the start), or passes below the
 *         broken chunk.
 */
uint32_t kz_patrol(uint32_t *region, kz_length words, kz_record *record, uint32_t chunks, kz_answer *answer);

#ifdef __cplusplus
}
#endif

#endif
