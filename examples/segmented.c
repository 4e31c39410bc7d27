/* A segmented memory of eight addresses in sets of two, from C: the commands of examples/listing.txt. The library says how long
 * the tables are. */
#include <inttypes.h>
#include <stdio.h>
#include <stdlib.h>

#include "../crates/cam_abi/cam.h"

enum { KIND = 2, DEPTH = 8, PATTERN_WIDTH = 2, SET_WIDTH = 2 };
#define GEOMETRY KIND, DEPTH, PATTERN_WIDTH, SET_WIDTH
#define MEMORY GEOMETRY, store, DEPTH, indicators, indicator_words

static uint32_t store[DEPTH];
static uint64_t *indicators, *matches;
static size_t indicator_words, match_words;

/* Whether a call was refused; if so its number is printed. */
static int refused(uint64_t result) {
    if (result < CAM_ACCEPTED) {
        printf("no %" PRIu64 "\n", result);
    }
    return result < CAM_ACCEPTED;
}

static void print_entry(uint64_t result) {
    if (refused(result)) {
        return;
    }
    if (result - CAM_ACCEPTED == CAM_EMPTY) {
        printf("was -\n");
    } else {
        printf("was %" PRIu64 "\n", result - CAM_ACCEPTED);
    }
}

static void print_match(uint64_t result) {
    if (refused(result)) {
        return;
    }
    if (cam_address(result) == CAM_NONE) {
        printf("none");
    } else {
        printf("at %" PRIu32, cam_address(result));
    }
    printf(" w %" PRIu32 " c %" PRIu32 "\n", cam_words_read(result), cam_entries_compared(result));
}

/* Whether the tables are there; the clear makes them those of an empty memory. */
static int made(void) {
    uint64_t of_indicators = cam_indicator_words(GEOMETRY), of_match = cam_match_words(GEOMETRY);
    if (refused(of_indicators) || refused(of_match)) {
        return 0;
    }
    indicator_words = (size_t)(of_indicators - CAM_ACCEPTED);
    match_words = (size_t)(of_match - CAM_ACCEPTED);
    indicators = calloc(indicator_words, sizeof *indicators);
    matches = calloc(match_words, sizeof *matches);
    return indicators && matches && !refused(cam_clear(MEMORY));
}

int main(void) {
    if (!made()) {
        return 1;
    }
    printf("words of the indicators %zu, of a match word %zu\n", indicator_words, match_words);
    print_entry(cam_write(MEMORY, 3, 1));
    print_entry(cam_write(MEMORY, 2, 1));
    print_entry(cam_write(MEMORY, 3, 2));
    print_match(cam_first_match(MEMORY, 1));
    print_match(cam_first_match(MEMORY, 2));
    uint64_t hits = cam_all_match(MEMORY, matches, match_words, 1);
    if (!refused(hits)) {
        printf("hits %" PRIu64 " %016" PRIx64 "\n", hits - CAM_ACCEPTED, matches[0]);
    }
    print_entry(cam_erase(MEMORY, 2));
    print_match(cam_first_match(MEMORY, 1));
    print_entry(cam_write(MEMORY, 8, 0));
    print_match(cam_first_match(MEMORY, 4));
    free(indicators);
    free(matches);
    return 0;
}
