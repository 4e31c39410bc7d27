/* The search memory in libcam_abi.a (`tools/build library`): its seven calls, one that accepts tables to go on with, and two
 * functions that give the lengths of what is lent.
 *
 * GEOMETRY. Four numbers: the kind, 0 for transposed, 1 for cascaded and 2 for segmented; the depth, 1 to 4096; the pattern width,
 * 1 to 12 bits, in kind 1 up to 27; and the set width, which is 1, but in kind 2 any number from 1 to 64 that is not above the depth.
 * The depth need not be a multiple of it: the last set has the addresses that are left, and no address from the depth on exists.
 *
 * RESULTS. Below CAM_ACCEPTED a result is the number of a refusal, and then nothing was changed. Any other is CAM_ACCEPTED and
 * the value that stands at each function.
 *
 * SLICES. The caller lends both tables with every call, and to all-match a match word: each is a pointer and a length in elements,
 * which must all be there. The pointer must be aligned and not null, at length 0 too, where the address of any variable of
 * the element's type will do. A slice that a call may write must not overlap another of the same call. Nothing else is asked: any
 * geometry, length, content, address and pattern may be passed, and what is bad is refused.
 *
 * LENGTHS, division rounding down as in C. The last two are what cam_indicator_words and cam_match_words give.
 *
 *     sets        (depth + set_width - 1) / set_width        each has set_width addresses, but for the last
 *     last set    depth - set_width * (sets - 1)             the addresses that are left to it: 1 to set_width
 *     row_words   (sets + 63) / 64                           a bit for every set
 *     stages      1; kind 1: (pattern_width + 8) / 9
 *     rows        1 << pattern_width; kind 1: 512 * (stages - 1) + (1 << (pattern_width - 9 * (stages - 1)))
 *     store       depth, numbers of 32 bits                  number a is what address a holds: a pattern, or CAM_EMPTY
 *     indicators  row_words * rows, words of 64 bits
 *     matches     (depth + 63) / 64, words of 64 bits        bit a % 64 of word a / 64 is that of address a
 *
 * INDICATORS. Bits are counted from the low end. Address a is one of set a / set_width, and set s has in row r
 *
 *     bit s % 64 of word row_words * r + s / 64
 *
 * The row of a pattern is its own number. Kind 1 cuts a pattern into stages (or slices): stage k is its bits 9 * k to
 * 9 * k + 8, as far as it has them, and its row there is 512 * k + the value of these bits. So a pattern has one row, in kind 1 one
 * in each stage. From an accepted clear or resume on, a bit is 1 exactly where an address of its set holds a pattern that has its
 * row. The bits past the last set, which fill up the last word of each row, are padding: cam_clear makes them 0, cam_resume accepts
 * them as 0 alone, no other call changes them, and the answers of the seven calls do not depend on them. */
#ifndef CAM_H
#define CAM_H

#include <stddef.h>
#include <stdint.h>

#ifdef __cplusplus
extern "C" {
#endif

#define CAM_ACCEPTED 256u

/* The refusals, in the order in which they are tested. The last three tell of tables that something other than these calls has
 * written since the clear, or that were never cleared. */
enum cam_refusal {
    CAM_BAD_GEOMETRY = 1, /* the four numbers are no geometry */
    CAM_BAD_LENGTHS = 2,  /* the store, the indicators or the match word has another length than above */
    CAM_BAD_ADDRESS = 3,  /* the address is not below the depth */
    CAM_BAD_PATTERN = 4,  /* the pattern has more bits than the pattern width */
    CAM_BAD_ENTRY = 5,    /* write, erase, read, but not next-match: the store has at the address neither CAM_EMPTY nor a pattern */
    CAM_FALSE_SET = 6,    /* kind 2: a set's bit is 1 in the pattern's row, and no address of the set holds the pattern; first-match
                           * tests the first bit that is 1 alone; next-match the first one after the bit of the address's own set,
                           * and only where that set gave no address; all-match every one */
    CAM_BAD_TABLES = 10   /* resume: no history leaves these tables */
};

/* The store's number for an empty address. */
#define CAM_EMPTY UINT32_C(4294967295)

/* The address in the value of a first-match or a next-match that found none. */
#define CAM_NONE 65535u

/* How many words the indicators of a geometry have, at most 262144. The only refusal is CAM_BAD_GEOMETRY. */
uint64_t cam_indicator_words(uint32_t kind, uint32_t depth, uint32_t pattern_width, uint32_t set_width);

/* How many words a match word has, at most 64. The only refusal is CAM_BAD_GEOMETRY. */
uint64_t cam_match_words(uint32_t kind, uint32_t depth, uint32_t pattern_width, uint32_t set_width);

/* Whether tables can be gone on with, such as those read back from a board. They are accepted exactly where every number of the
 * store is CAM_EMPTY or a pattern and every bit of the indicators is as said above for the store as it is: 1 where an address of
 * its set holds a pattern that has its row, else 0, and 0 in the padding. After that the seven calls answer and leave what they do
 * after a clear and the calls that wrote those entries. The value is 0; the refusals are CAM_BAD_GEOMETRY, CAM_BAD_LENGTHS and
 * CAM_BAD_TABLES. */
uint64_t cam_resume(uint32_t kind, uint32_t depth, uint32_t pattern_width, uint32_t set_width,
                    const uint32_t *store, size_t store_len, const uint64_t *indicators, size_t indicators_len);

/* Empties every address, whatever the tables held. The value is 0. */
uint64_t cam_clear(uint32_t kind, uint32_t depth, uint32_t pattern_width, uint32_t set_width,
                   uint32_t *store, size_t store_len, uint64_t *indicators, size_t indicators_len);

/* Puts a pattern at an address. The value is the former entry, CAM_EMPTY for empty. */
uint64_t cam_write(uint32_t kind, uint32_t depth, uint32_t pattern_width, uint32_t set_width,
                   uint32_t *store, size_t store_len, uint64_t *indicators, size_t indicators_len,
                   uint32_t address, uint32_t pattern);

/* Empties an address. The value is the former entry. */
uint64_t cam_erase(uint32_t kind, uint32_t depth, uint32_t pattern_width, uint32_t set_width,
                   uint32_t *store, size_t store_len, uint64_t *indicators, size_t indicators_len,
                   uint32_t address);

/* The value is the entry of an address. */
uint64_t cam_read(uint32_t kind, uint32_t depth, uint32_t pattern_width, uint32_t set_width,
                  const uint32_t *store, size_t store_len, const uint64_t *indicators, size_t indicators_len,
                  uint32_t address);

/* The lowest address that holds a pattern. The value is the address, or CAM_NONE, + 65,536 times the row words read + 2^32
 * times the entries compared: the three functions below take it apart. Entries are compared in kind 2 alone, a whole set at a
 * time: their number is after a hit there how many addresses its set has, so set_width, or less if the last set is shorter; it is 0 in
 * the other kinds and with CAM_NONE. */
uint64_t cam_first_match(uint32_t kind, uint32_t depth, uint32_t pattern_width, uint32_t set_width,
                         const uint32_t *store, size_t store_len, const uint64_t *indicators, size_t indicators_len,
                         uint32_t pattern);

/* The lowest address above a given one that holds a pattern. The value is the address, or CAM_NONE. What the store has at the given
 * address does not matter; in kind 2 the addresses above it in its set are compared whatever the set's bit is. A program walks
 * through all addresses that hold a pattern, ascending: cam_first_match, then cam_next_match from each one given, until CAM_NONE.
 *
 *     for (at = cam_first_match(.., pattern); at >= CAM_ACCEPTED && cam_address(at) != CAM_NONE;
 *          at = cam_next_match(.., cam_address(at), pattern)) { .. } */
uint64_t cam_next_match(uint32_t kind, uint32_t depth, uint32_t pattern_width, uint32_t set_width,
                        const uint32_t *store, size_t store_len, const uint64_t *indicators, size_t indicators_len,
                        uint32_t address, uint32_t pattern);

/* Every address that holds a pattern: its bit of the match word is 1, and every other bit 0. The value is their number. */
uint64_t cam_all_match(uint32_t kind, uint32_t depth, uint32_t pattern_width, uint32_t set_width,
                       const uint32_t *store, size_t store_len, const uint64_t *indicators, size_t indicators_len,
                       uint64_t *matches, size_t matches_len, uint32_t pattern);

/* The parts of a first-match's result: the address or CAM_NONE, the row words read, the entries compared. Of a next-match's result
 * the first is the address or CAM_NONE too, and the others are 0, since it has no counts. Only for a result of these two that is no
 * refusal; of any other number they mean nothing. */
static inline uint32_t cam_address(uint64_t result) { return (uint32_t)((result - CAM_ACCEPTED) % 65536); }
static inline uint32_t cam_words_read(uint64_t result) { return (uint32_t)((result - CAM_ACCEPTED) / 65536 % 65536); }
static inline uint32_t cam_entries_compared(uint64_t result) { return (uint32_t)((result - CAM_ACCEPTED) >> 32); }

#ifdef __cplusplus
}
#endif

#endif
