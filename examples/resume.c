/* Tables that are saved to a file, loaded again and gone on with, from C; then tables that no history leaves, which are refused. The
 * file is a temporary one, so that nothing is left behind. */
#include <inttypes.h>
#include <stdio.h>
#include <string.h>

#include "../crates/cam_abi/cam.h"

/* Segmented, with eight addresses in sets of two; patterns of two bits, so four rows, each of one word. */
enum { KIND = 2, DEPTH = 8, PATTERN_WIDTH = 2, SET_WIDTH = 2, WORDS = 4 };
#define GEOMETRY KIND, DEPTH, PATTERN_WIDTH, SET_WIDTH
#define LENT(t) GEOMETRY, (t)->store, DEPTH, (t)->indicators, WORDS

struct tables {
    uint32_t store[DEPTH];
    uint64_t indicators[WORDS];
};

/* What a call gave: the number of its refusal, or an entry or address; CAM_EMPTY or CAM_NONE is what stands for nothing there. */
static void show(const char *call, uint64_t result, uint32_t nothing) {
    uint32_t value = nothing == CAM_NONE ? cam_address(result) : (uint32_t)(result - CAM_ACCEPTED);
    if (result < CAM_ACCEPTED) {
        printf("  %s: no %" PRIu64 "\n", call, result);
    } else if (value == nothing) {
        printf("  %s: -\n", call);
    } else {
        printf("  %s: %" PRIu32 "\n", call, value);
    }
}

static int saved(const struct tables *t, FILE *file) {
    return fwrite(t->store, sizeof *t->store, DEPTH, file) == DEPTH
           && fwrite(t->indicators, sizeof *t->indicators, WORDS, file) == WORDS;
}

static int loaded(struct tables *t, FILE *file) {
    rewind(file);
    return fread(t->store, sizeof *t->store, DEPTH, file) == DEPTH
           && fread(t->indicators, sizeof *t->indicators, WORDS, file) == WORDS;
}

/* The calls after the break. */
static void go_on(struct tables *t) {
    show("write 2 at 3", cam_write(LENT(t), 3, 2), CAM_EMPTY);
    show("first match of 1", cam_first_match(LENT(t), 1), CAM_NONE);
    show("first match of 2", cam_first_match(LENT(t), 2), CAM_NONE);
    show("erase 2", cam_erase(LENT(t), 2), CAM_EMPTY);
    show("first match of 1", cam_first_match(LENT(t), 1), CAM_NONE);
}

int main(void) {
    struct tables unbroken, again;
    FILE *file = tmpfile();
    if (!file || cam_clear(LENT(&unbroken)) < CAM_ACCEPTED) {
        return 1;
    }
    printf("before the break\n");
    show("write 1 at 2", cam_write(LENT(&unbroken), 2, 1), CAM_EMPTY);
    show("write 1 at 3", cam_write(LENT(&unbroken), 3, 1), CAM_EMPTY);
    if (!saved(&unbroken, file) || !loaded(&again, file) || cam_resume(LENT(&again)) < CAM_ACCEPTED) {
        return 1;
    }
    printf("resumed\n");
    go_on(&again);
    printf("without a break\n");
    go_on(&unbroken);
    int same = memcmp(again.store, unbroken.store, sizeof again.store) == 0
               && memcmp(again.indicators, unbroken.indicators, sizeof again.indicators) == 0;
    printf("tables %s\n", same ? "the same" : "not the same");

    /* Address 3 holds pattern 2, and no match would find it once the bit of its set is 0. */
    again.indicators[2] ^= 2;
    printf("a bit flipped: no %" PRIu64 "\n", cam_resume(LENT(&again)));
    printf("a word missing: no %" PRIu64 "\n", cam_resume(GEOMETRY, again.store, DEPTH, again.indicators, WORDS - 1));
    return fclose(file) != 0;
}
