/* Every address that holds a pattern, one after the other, from C: a first-match, then a next-match from each address given. The
 * same addresses are the bits of an all-match. */
#include <inttypes.h>
#include <stdio.h>

#include "../crates/cam_abi/cam.h"

/* Segmented, with fifteen addresses in sets of four, of which the last has three; patterns of three bits, so eight rows, each of one
 * word. */
enum { KIND = 2, DEPTH = 15, PATTERN_WIDTH = 3, SET_WIDTH = 4, WORDS = 8, MATCH_WORDS = 1 };
#define MEMORY KIND, DEPTH, PATTERN_WIDTH, SET_WIDTH, store, DEPTH, indicators, WORDS

static uint32_t store[DEPTH];
static uint64_t indicators[WORDS], matches[MATCH_WORDS];

/* Whether the memory holds these entries and no others. 5 stands in sets 0, 1 and 3, in set 0 twice; 14 is the last address. */
static int filled(void) {
    static const uint32_t entries[][2] = {{14, 5}, {3, 5}, {4, 5}, {1, 5}, {2, 6}, {9, 6}};
    int good = cam_clear(MEMORY) >= CAM_ACCEPTED;
    for (size_t i = 0; i < sizeof entries / sizeof *entries; i++) {
        good = good && cam_write(MEMORY, entries[i][0], entries[i][1]) >= CAM_ACCEPTED;
    }
    return good;
}

/* Prints each address that holds the pattern, and gives their bits. A refusal ends the walk too: there is no address in it. */
static uint64_t walk(uint32_t pattern) {
    uint64_t bits = 0, at;
    printf("walk of %" PRIu32 ":", pattern);
    for (at = cam_first_match(MEMORY, pattern); at >= CAM_ACCEPTED && cam_address(at) != CAM_NONE;
         at = cam_next_match(MEMORY, cam_address(at), pattern)) {
        printf(" %" PRIu32, cam_address(at));
        bits |= UINT64_C(1) << cam_address(at);
    }
    if (at < CAM_ACCEPTED) {
        printf(" no %" PRIu64 "\n", at);
    } else {
        printf(" none\n");
    }
    return bits;
}

static void compare(uint32_t pattern) {
    uint64_t walked = walk(pattern), hits = cam_all_match(MEMORY, matches, MATCH_WORDS, pattern);
    if (hits < CAM_ACCEPTED) {
        printf("all-match of %" PRIu32 ": no %" PRIu64 "\n", pattern, hits);
    } else {
        const char *same = matches[0] == walked ? "the same" : "not the same";
        printf("all-match of %" PRIu32 ": %016" PRIx64 ", %s\n", pattern, matches[0], same);
    }
}

/* An address may be erased as soon as it is found, since a next-match does not look at what its address holds. */
static void erase_all(uint32_t pattern) {
    for (uint64_t at = cam_first_match(MEMORY, pattern); at >= CAM_ACCEPTED && cam_address(at) != CAM_NONE;
         at = cam_next_match(MEMORY, cam_address(at), pattern)) {
        cam_erase(MEMORY, cam_address(at));
    }
}

int main(void) {
    if (!filled()) {
        return 1;
    }
    compare(5);
    compare(6);
    compare(0);
    compare(8);
    erase_all(5);
    printf("5 erased\n");
    compare(5);
    compare(6);
    return 0;
}
