/* A plain core with the functions of cam.h, for tests/core: it is right, and each slip is a change of one line. */
#include "cam.h"

#define STAGE 9u /* bits of a stage of kind 1 */

struct memory {
    uint32_t kind, depth, width, set;
    uint32_t *store;
    uint64_t *rows;
};

static int valid(uint32_t kind, uint32_t depth, uint32_t width, uint32_t set) {
    if (kind > 2 || depth < 1 || depth > 4096 || width < 1 || width > (kind == 1 ? 27u : 12u)) return 0;
    return kind == 2 ? set >= 1 && set <= 64 && set <= depth : set == 1;
}

static uint32_t sets(const struct memory *m) { return (m->depth + m->set - 1) / m->set; }

/* The address behind a set. The last set may be shorter than the others. */
static uint32_t end(const struct memory *m, uint32_t set) {
    uint32_t next = (set + 1) * m->set;
    return next < m->depth ? next : m->depth;
}

static uint32_t row_words(const struct memory *m) { return (sets(m) + 63) / 64; }

static uint32_t stages(const struct memory *m) { return m->kind == 1 ? (m->width + STAGE - 1) / STAGE : 1; }

static uint64_t all_rows(const struct memory *m) {
    uint32_t full = stages(m) - 1;
    return UINT64_C(512) * full + (UINT64_C(1) << (m->width - STAGE * full));
}

/* The row of stage k of a pattern. */
static uint64_t *row(const struct memory *m, uint32_t pattern, uint32_t k) {
    uint32_t value = m->kind == 1 ? pattern >> (STAGE * k) & 511 : pattern;
    return m->rows + (uint64_t)row_words(m) * (512 * k + value);
}

/* Word j of the pattern's row, of kind 1 all its rows joined, without bits that belong to no set. */
static uint64_t indicated(const struct memory *m, uint32_t pattern, uint32_t j) {
    uint32_t left = sets(m) - 64 * j;
    uint64_t word = left < 64 ? (UINT64_C(1) << left) - 1 : UINT64_MAX;
    for (uint32_t k = 0; k < stages(m); k++) word &= row(m, pattern, k)[j];
    return word;
}

/* The number of the first test that fails, up to the pattern; 0 if none does. */
static uint64_t refusal(const struct memory *m, size_t store_len, size_t rows_len, uint32_t address, uint32_t pattern) {
    if (!valid(m->kind, m->depth, m->width, m->set)) return CAM_BAD_GEOMETRY;
    if (store_len != m->depth || rows_len != row_words(m) * all_rows(m)) return CAM_BAD_LENGTHS;
    if (address >= m->depth) return CAM_BAD_ADDRESS;
    return pattern >> m->width ? CAM_BAD_PATTERN : 0;
}

static int held_beside(const struct memory *m, uint32_t address, uint32_t pattern) {
    uint32_t set = address / m->set;
    for (uint32_t a = set * m->set; a < end(m, set); a++)
        if (a != address && m->store[a] == pattern) return 1;
    return 0;
}

/* Puts an entry in the place of another, which it gives. */
static uint64_t replace(struct memory *m, uint32_t address, uint32_t entry) {
    uint32_t former = m->store[address], set = address / m->set;
    if (former != CAM_EMPTY && former >> m->width) return CAM_BAD_ENTRY;
    uint64_t bit = UINT64_C(1) << set % 64;
    for (uint32_t k = 0; k < stages(m); k++) {
        if (former != CAM_EMPTY && !held_beside(m, address, former)) row(m, former, k)[set / 64] &= ~bit;
        if (entry != CAM_EMPTY) row(m, entry, k)[set / 64] |= bit;
    }
    m->store[address] = entry;
    return CAM_ACCEPTED + (uint64_t)former;
}

#define FOUR uint32_t kind, uint32_t depth, uint32_t pattern_width, uint32_t set_width
#define LENT uint32_t *store, size_t store_len, uint64_t *indicators, size_t indicators_len
#define READ const uint32_t *store, size_t store_len, const uint64_t *indicators, size_t indicators_len
#define BEGIN(address, pattern) \
    struct memory m = {kind, depth, pattern_width, set_width, (uint32_t *)store, (uint64_t *)indicators}; \
    uint64_t number = refusal(&m, store_len, indicators_len, address, pattern); \
    if (number) return number

uint64_t cam_indicator_words(FOUR) {
    struct memory m = {kind, depth, pattern_width, set_width, 0, 0};
    return valid(kind, depth, pattern_width, set_width) ? CAM_ACCEPTED + row_words(&m) * all_rows(&m) : CAM_BAD_GEOMETRY;
}

uint64_t cam_match_words(FOUR) {
    return valid(kind, depth, pattern_width, set_width) ? CAM_ACCEPTED + (depth + 63) / 64 : CAM_BAD_GEOMETRY;
}

/* Whether every entry is empty, or a pattern whose bits are all 1. */
static int entries_shown(const struct memory *m) {
    for (uint32_t a = 0; a < m->depth; a++) {
        uint32_t entry = m->store[a], set = a / m->set;
        if (entry == CAM_EMPTY) continue;
        if (entry >> m->width) return 0;
        for (uint32_t k = 0; k < stages(m); k++)
            if (!(row(m, entry, k)[set / 64] >> set % 64 & 1)) return 0;
    }
    return 1;
}

/* Whether an address of the set holds a pattern that has the row. */
static int covered(const struct memory *m, const uint64_t *its_row, uint32_t set) {
    for (uint32_t a = set * m->set; a < end(m, set); a++)
        for (uint32_t k = 0; k < stages(m) && !(m->store[a] >> m->width); k++)
            if (row(m, m->store[a], k) == its_row) return 1;
    return 0;
}

/* Whether each bit that is 1 in word j of a row is that of a set which covers the row. */
static int bits_covered(const struct memory *m, const uint64_t *its_row, uint32_t j) {
    for (uint32_t b = 0; b < 64 && its_row[j] >> b; b++) {
        if (!(its_row[j] >> b & 1)) continue;
        if (64 * j + b >= sets(m)) return 0;
        if (!covered(m, its_row, 64 * j + b)) return 0;
    }
    return 1;
}

uint64_t cam_resume(FOUR, READ) {
    BEGIN(0, 0);
    if (!entries_shown(&m)) return CAM_BAD_TABLES;
    for (size_t i = 0; i < indicators_len; i++) {
        uint32_t j = i % row_words(&m);
        if (!bits_covered(&m, indicators + i - j, j)) return CAM_BAD_TABLES;
    }
    return CAM_ACCEPTED;
}

uint64_t cam_clear(FOUR, LENT) {
    BEGIN(0, 0);
    for (size_t a = 0; a < store_len; a++) store[a] = CAM_EMPTY;
    for (size_t i = 0; i < indicators_len; i++) indicators[i] = 0;
    return CAM_ACCEPTED;
}

uint64_t cam_write(FOUR, LENT, uint32_t address, uint32_t pattern) {
    BEGIN(address, pattern);
    return replace(&m, address, pattern);
}

uint64_t cam_erase(FOUR, LENT, uint32_t address) {
    BEGIN(address, 0);
    return replace(&m, address, CAM_EMPTY);
}

uint64_t cam_read(FOUR, READ, uint32_t address) {
    BEGIN(address, 0);
    uint32_t entry = store[address];
    return entry != CAM_EMPTY && entry >> pattern_width ? CAM_BAD_ENTRY : CAM_ACCEPTED + (uint64_t)entry;
}

/* A result of first-match, and with no counts of next-match. */
static uint64_t found(uint32_t address, uint32_t words, uint32_t compared) {
    return CAM_ACCEPTED + address + ((uint64_t)words << 16) + ((uint64_t)compared << 32);
}

uint64_t cam_first_match(FOUR, READ, uint32_t pattern) {
    BEGIN(0, pattern);
    uint32_t last = row_words(&m);
    for (uint32_t j = 0; j < last; j++) {
        uint64_t word = indicated(&m, pattern, j);
        if (word == 0) continue;
        uint32_t set = 0;
        while (!(word >> set & 1)) set++;
        uint32_t first = (64 * j + set) * set_width, length = end(&m, 64 * j + set) - first;
        if (kind != 2) return found(first, j + 1, 0);
        for (uint32_t i = 0; i < length; i++)
            if (store[first + i] == pattern) return found(first + i, j + 1, length);
        return CAM_FALSE_SET;
    }
    return found(CAM_NONE, last, 0);
}

/* The lowest address that holds the pattern, of those from one to before another; CAM_NONE if none does. */
static uint32_t lowest(const struct memory *m, uint32_t from, uint32_t behind, uint32_t pattern) {
    for (uint32_t a = from; a < behind; a++)
        if (m->store[a] == pattern) return a;
    return CAM_NONE;
}

uint64_t cam_next_match(FOUR, READ, uint32_t address, uint32_t pattern) {
    BEGIN(address, pattern);
    uint32_t own = address / set_width, at = lowest(&m, address + 1, end(&m, own), pattern);
    if (at != CAM_NONE) return found(at, 0, 0);
    for (uint32_t s = own + 1; s < sets(&m); s++) {
        if (!(indicated(&m, pattern, s / 64) >> s % 64 & 1)) continue;
        if (kind != 2) return found(s, 0, 0);
        at = lowest(&m, s * set_width, end(&m, s), pattern);
        return at == CAM_NONE ? CAM_FALSE_SET : found(at, 0, 0);
    }
    return found(CAM_NONE, 0, 0);
}

/* The addresses of a set that hold the pattern, marked in the match word if there is one. */
static uint32_t mark(const struct memory *m, uint32_t set, uint32_t pattern, uint64_t *matches) {
    uint32_t hits = 0;
    for (uint32_t a = set * m->set; a < end(m, set); a++) {
        if (m->kind == 2 && m->store[a] != pattern) continue;
        if (matches) matches[a / 64] |= UINT64_C(1) << a % 64;
        hits++;
    }
    return hits;
}

uint64_t cam_all_match(FOUR, READ, uint64_t *matches, size_t matches_len, uint32_t pattern) {
    BEGIN(0, 0);
    if (matches_len != (depth + 63) / 64) return CAM_BAD_LENGTHS;
    if (pattern >> pattern_width) return CAM_BAD_PATTERN;
    uint64_t hits = 0;
    for (uint32_t s = 0; s < sets(&m); s++)
        if (indicated(&m, pattern, s / 64) >> s % 64 & 1 && mark(&m, s, pattern, 0) == 0) return CAM_FALSE_SET;
    for (size_t i = 0; i < matches_len; i++) matches[i] = 0;
    for (uint32_t s = 0; s < sets(&m); s++)
        if (indicated(&m, pattern, s / 64) >> s % 64 & 1) hits += mark(&m, s, pattern, matches);
    return CAM_ACCEPTED + hits;
}
