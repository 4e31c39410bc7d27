/* A core that gives every answer of a job and leaves wrong indicators: it searches the store. It keeps no indicators at all,
 * or, compiled with STALE, sets the bits of what is written and takes none away. Lengths and geometry are not tested. */
#include "../../crates/cam_abi/cam.h"

#define SHAPE uint32_t kind, uint32_t depth, uint32_t width, uint32_t set
#define TABLES uint32_t *store, size_t entries, uint64_t *indicators, size_t words
#define READ_TABLES const uint32_t *store, size_t entries, const uint64_t *indicators, size_t words
#define UNUSED (void)kind, (void)depth, (void)width, (void)set, (void)entries, (void)indicators, (void)words

static uint32_t sets(uint32_t depth, uint32_t set) { return (depth + set - 1) / set; }

#ifdef STALE
static void mark(SHAPE, uint64_t *indicators, uint32_t address, uint32_t pattern) {
    uint32_t row_words = (sets(depth, set) + 63) / 64, own = address / set;
    uint32_t stages = kind == 1 ? (width + 8) / 9 : 1;
    for (uint32_t k = 0; k < stages; k++) {
        uint32_t row = kind == 1 ? 512 * k + (pattern >> (9 * k)) % 512 : pattern;
        indicators[row_words * row + own / 64] |= UINT64_C(1) << own % 64;
    }
}
#else
#define mark(...)
#endif

/* A job makes no use of the lengths. */
uint64_t cam_indicator_words(SHAPE) { return (void)kind, (void)depth, (void)width, (void)set, CAM_BAD_GEOMETRY; }
uint64_t cam_match_words(SHAPE) { return (void)kind, (void)depth, (void)width, (void)set, CAM_BAD_GEOMETRY; }

/* It goes on with any indicators, since it never looks at them. */
uint64_t cam_resume(SHAPE, READ_TABLES) {
    UNUSED;
    for (size_t a = 0; a < entries; a++) {
        if (store[a] != CAM_EMPTY && store[a] >> width) {
            return CAM_BAD_TABLES;
        }
    }
    return CAM_ACCEPTED;
}

uint64_t cam_clear(SHAPE, TABLES) {
    UNUSED;
    for (size_t a = 0; a < entries; a++) {
        store[a] = CAM_EMPTY;
    }
    for (size_t m = 0; m < words; m++) {
        indicators[m] = 0;
    }
    return CAM_ACCEPTED;
}

uint64_t cam_read(SHAPE, READ_TABLES, uint32_t address) {
    UNUSED;
    return address >= depth ? CAM_BAD_ADDRESS : (uint64_t)CAM_ACCEPTED + store[address];
}

static uint64_t replace(uint32_t *store, uint32_t address, uint32_t entry) {
    uint64_t former = store[address];
    store[address] = entry;
    return CAM_ACCEPTED + former;
}

uint64_t cam_write(SHAPE, TABLES, uint32_t address, uint32_t pattern) {
    UNUSED;
    if (address >= depth || pattern >> width) {
        return address >= depth ? CAM_BAD_ADDRESS : CAM_BAD_PATTERN;
    }
    mark(kind, depth, width, set, indicators, address, pattern);
    return replace(store, address, pattern);
}

uint64_t cam_erase(SHAPE, TABLES, uint32_t address) {
    UNUSED;
    return address >= depth ? CAM_BAD_ADDRESS : replace(store, address, CAM_EMPTY);
}

uint64_t cam_first_match(SHAPE, READ_TABLES, uint32_t pattern) {
    UNUSED;
    if (pattern >> width) {
        return CAM_BAD_PATTERN;
    }
    for (uint32_t a = 0; a < depth; a++) {
        if (store[a] == pattern) {
            uint32_t first = a / set * set, end = first + set < depth ? first + set : depth;
            uint64_t w = a / (64 * set) + 1, c = kind == 2 ? end - first : 0;
            return CAM_ACCEPTED + a + (w << 16) + (c << 32);
        }
    }
    return CAM_ACCEPTED + CAM_NONE + ((uint64_t)(sets(depth, set) + 63) / 64 << 16);
}

uint64_t cam_next_match(SHAPE, READ_TABLES, uint32_t address, uint32_t pattern) {
    UNUSED;
    if (address >= depth || pattern >> width) {
        return address >= depth ? CAM_BAD_ADDRESS : CAM_BAD_PATTERN;
    }
    uint32_t a = address + 1;
    while (a < depth && store[a] != pattern) {
        a++;
    }
    return CAM_ACCEPTED + (uint64_t)(a < depth ? a : CAM_NONE);
}

uint64_t cam_all_match(SHAPE, READ_TABLES, uint64_t *matches, size_t length, uint32_t pattern) {
    UNUSED;
    if (pattern >> width) {
        return CAM_BAD_PATTERN;
    }
    uint64_t hits = 0;
    for (size_t j = 0; j < length; j++) {
        matches[j] = 0;
    }
    for (uint32_t a = 0; a < depth; a++) {
        if (store[a] == pattern) {
            matches[a / 64] |= UINT64_C(1) << a % 64;
            hits++;
        }
    }
    return CAM_ACCEPTED + hits;
}
