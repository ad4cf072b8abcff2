/* Calls of the six entries with the answers that the header's text foretells, worked out before they were made. Decoding is
 * given the sample phrase on standard input, altered at places that docs/FORMAT.md names; that page foretells scores and sums.
 * The most units are asked for of such records too, and of some that are laid out here.
 * Prints how many of each entry came out as foretold; the exit status is 1 if one did not. */
#include <inttypes.h>
#include <math.h>
#include <stdio.h>
#include <string.h>

#include "tikuwero.h"

#define COUNT(list) (sizeof(list) / sizeof((list)[0]))
#define UNTOUCHED UINT32_C(0xdeadbeef)
#define NONE TIKUWERO_NONE

static int missed;

static uint64_t double_bits(double x)
{
    uint64_t bits;
    memcpy(&bits, &x, sizeof bits);
    return bits;
}

static uint32_t float_bits(float x)
{
    uint32_t bits;
    memcpy(&bits, &x, sizeof bits);
    return bits;
}

static void conclude(const char *entry, size_t held, size_t all)
{
    printf("%s: %zu of %zu as foretold\n", entry, held, all);
    missed += held != all;
}

/* Says which case is not as foretold; gives 1 for one that is. */
static size_t held(const char *entry, size_t i, int as_foretold, int32_t returned)
{
    if (!as_foretold)
        printf("%s, case %zu: returned %" PRId32 "\n", entry, i, returned);
    return as_foretold != 0;
}

/* ---- tikuwero_rate_s; frames past the eighth are 0 */

struct rate_case {
    uint32_t frames[8];
    size_t n;
    double default_s;
    int32_t returned;
    double rate; /* where 0 is returned */
};

static const struct rate_case rates[] = {
    {{0, 10, 30}, 3, 0.2, 0, 15 * 0.01},
    {{30, 0, 10}, 3, 0.2, 0, 15 * 0.01},
    {{60, 10, 30}, 3, 0.2, 0, 25 * 0.01},
    {{0, 1, 3, 7, 15}, 5, 0.2, 0, 3 * 0.01},
    {{0, 1, 2, 4}, 4, 0.2, 0, 1 * 0.01},
    {{0, 0, 1}, 3, 0.2, 0, 0.5 * 0.01},
    {{5, 5, 9}, 3, 0.2, 0, 2 * 0.01},
    {{5, 5, 5, 9}, 4, 0.2, 0, 0.2},
    {{5, 5}, 2, 0.3, 0, 0.3},
    {{7}, 1, -0.0, 0, -0.0},
    {{0}, 0, -1000000.0, 0, -1000000.0},
    {{0, 35}, 2, 0.2, 0, 35 * 0.01},
    {{4095, 0}, 2, 0.2, 0, 4095 * 0.01},
    {{0}, 64, 0.2, 0, 0.2},
    {{0}, 65, NAN, -TIKUWERO_SIZE, 0},
    {{4096}, 65, 0.2, -TIKUWERO_SIZE, 0},
    {{4096}, 1, NAN, -TIKUWERO_TRACK, 0},
    {{0, 10}, 2, NAN, -TIKUWERO_COST, 0},
    {{0, 10}, 2, INFINITY, -TIKUWERO_COST, 0},
    {{0}, 0, 1000000.5, -TIKUWERO_COST, 0},
};

static void foretell_rates(void)
{
    size_t as_foretold = 0;
    for (size_t i = 0; i < COUNT(rates); i++) {
        const struct rate_case *c = &rates[i];
        uint32_t frames[TIKUWERO_MAX_FRAMES + 1] = {0};
        memcpy(frames, c->frames, sizeof c->frames);
        double rate = -7.0;
        int32_t returned = tikuwero_rate_s(frames, c->n, c->default_s, &rate);
        double left = c->returned < 0 ? -7.0 : c->rate;
        int same = returned == c->returned && double_bits(rate) == double_bits(left);
        as_foretold += held("rate_s", i, same, returned);
    }
    conclude("rate_s", as_foretold, COUNT(rates));
}

/* ---- tikuwero_tbu_spans; frames past the fourth are 0 */

struct spans_case {
    uint32_t nuclei[4];
    size_t n;
    uint32_t bounds[4];
    size_t b;
    uint32_t lo_edge, hi_edge;
    size_t out_len;
    int32_t returned;
    uint32_t words[6]; /* two for each span */
};

static const struct spans_case spans[] = {
    {{10}, 1, {0}, 0, 12, 5, 8, 1, {10, 11}},
    {{10}, 1, {4, 14}, 2, 0, 20, 2, 1, {4, 14}},
    {{10}, 1, {14, 4, 4, 30}, 4, 0, 20, 8, 1, {4, 14}},
    {{10}, 1, {10}, 1, 2, 20, 8, 1, {2, 20}},
    {{13, 10, 13}, 3, {0}, 0, 5, 20, 4, 2, {5, 12, 12, 20}},
    {{10, 11}, 2, {0}, 0, 0, 20, 8, 2, {0, 11, 11, 20}},
    {{30, 20, 10}, 3, {0}, 0, 0, 40, 8, 3, {0, 15, 15, 25, 25, 40}},
    {{10, 20, 30}, 3, {25}, 1, 0, 40, 8, 3, {0, 15, 15, 25, 25, 40}},
    {{10, 20}, 2, {10, 15, 20}, 3, 0, 30, 8, 2, {0, 15, 15, 30}},
    {{10, 20}, 2, {12, 18}, 2, 0, 30, 8, 2, {0, 12, 18, 30}},
    {{10, 20}, 2, {20}, 1, 0, 30, 8, 2, {0, 15, 15, 30}},
    {{10, 20}, 2, {15}, 1, 12, 5, 8, 2, {10, 15, 15, 21}},
    {{4095}, 1, {0}, 0, 4095, 0, 8, 1, {4095, 4096}},
    {{10, 10}, 2, {0}, 0, 5, 20, 2, 1, {5, 20}},
    {{0}, 0, {9}, 1, 5, 20, 0, 0, {0}},
    {{10, 13}, 2, {0}, 0, 5, 20, 3, -TIKUWERO_DESK, {0}},
    {{0}, 0, {0}, 0, 4096, 20, 8, -TIKUWERO_TRACK, {0}},
    {{10}, 1, {4096}, 1, 5, 20, 0, -TIKUWERO_TRACK, {0}},
    {{4096}, 65, {0}, 0, 5, 20, 0, -TIKUWERO_SIZE, {0}},
    {{10}, 1, {0}, 65, 5, 20, 8, -TIKUWERO_SIZE, {0}},
};

static void foretell_spans(void)
{
    size_t as_foretold = 0;
    for (size_t i = 0; i < COUNT(spans); i++) {
        const struct spans_case *c = &spans[i];
        uint32_t nuclei[TIKUWERO_MAX_FRAMES + 1] = {0}, bounds[TIKUWERO_MAX_FRAMES + 1] = {0}, out[8], left[8];
        memcpy(nuclei, c->nuclei, sizeof c->nuclei);
        memcpy(bounds, c->bounds, sizeof c->bounds);
        for (size_t k = 0; k < COUNT(out); k++) {
            out[k] = UNTOUCHED;
            left[k] = c->returned > 0 && k < 2 * (size_t)c->returned ? c->words[k] : UNTOUCHED;
        }
        int32_t returned = tikuwero_tbu_spans(nuclei, c->n, bounds, c->b, c->lo_edge, c->hi_edge, out, c->out_len);
        int same = returned == c->returned && memcmp(out, left, sizeof out) == 0;
        as_foretold += held("tbu_spans", i, same, returned);
    }
    conclude("tbu_spans", as_foretold, COUNT(spans));
}

/* ---- the two calls on masks; a mask has so many frames, of which the text gives the first ones and, by its last
 * character, all after them */

struct mask {
    const char *text;
    size_t frames;
};

static uint8_t *filled(struct mask mask, uint8_t *frames)
{
    size_t last = strlen(mask.text) - 1;
    for (size_t i = 0; i < mask.frames; i++)
        frames[i] = (uint8_t)(mask.text[i < last ? i : last] - '0');
    return frames;
}

static uint8_t one_mask[TIKUWERO_MAX_MASK + 1], other_mask[TIKUWERO_MAX_MASK + 1];

struct joins_case {
    struct mask voice, pitched;
    uint32_t start, end;
    int32_t returned;
};

static const struct joins_case joins[] = {
    {{"1", 6}, {"1", 4}, 3, 3, 3},
    {{"1", 5}, {"1", 4}, 3, 3, 0},
    {{"1", 6}, {"1", 3}, 3, 3, 0},
    {{"1", 6}, {"1", 4}, 2, 3, 2},
    {{"1", 6}, {"1", 5}, 3, 4, 1},
    {{"1", 7}, {"1", 5}, 4, 3, 3},
    {{"11101", 10}, {"1", 10}, 3, 7, 2},
    {{"1", 10}, {"111101", 10}, 3, 5, 1},
    {{"1", 10}, {"111101", 10}, 8, 7, 0},
    {{"1", 10}, {"1", 40}, 7, 8, 1},
    {{"1", 0}, {"1", 0}, 0, 0, 0},
    {{"1", 2048}, {"1", 2048}, 3, 2045, 3},
    {{"1", 2048}, {"1", 2048}, 2046, 4095, 0},
    {{"11111111112", 11}, {"1", 20}, 3, 3, -TIKUWERO_TRACK},
    {{"1", 20}, {"12", 20}, 3, 3, -TIKUWERO_TRACK},
    {{"1", 20}, {"1", 20}, 3, 4096, -TIKUWERO_TRACK},
    {{"1", 2049}, {"2", 20}, 3, 4096, -TIKUWERO_SIZE},
    {{"1", 20}, {"1", 2049}, 3, 3, -TIKUWERO_SIZE},
};

static void foretell_joins(void)
{
    size_t as_foretold = 0;
    for (size_t i = 0; i < COUNT(joins); i++) {
        const struct joins_case *c = &joins[i];
        int32_t returned = tikuwero_joins(filled(c->voice, one_mask), c->voice.frames, filled(c->pitched, other_mask),
                                          c->pitched.frames, c->start, c->end);
        as_foretold += held("joins", i, returned == c->returned, returned);
    }
    conclude("joins", as_foretold, COUNT(joins));
}

struct tail_case {
    uint32_t start, end, next;
    struct mask pitched, vowel_speech;
    int32_t returned;
};

/* Pitch up to frame 9; in the second mask also at frame 15. */
#define PITCH_TO_9 {"11111111110", 20}
#define PITCH_AT_15 {"11111111110000010", 20}

static const struct tail_case tails[] = {
    {2, 12, NONE, PITCH_TO_9, {"1", 20}, 1},
    {2, 12, 16, PITCH_TO_9, {"1", 20}, 0},
    {2, 12, 20, PITCH_TO_9, {"1", 20}, 0},
    {2, 12, 4095, PITCH_TO_9, {"1", 20}, 0},
    {2, 12, NONE, PITCH_TO_9, {"1", 15}, 1},
    {2, 12, NONE, PITCH_TO_9, {"1", 14}, 0},
    {2, 12, 16, PITCH_TO_9, {"1", 15}, 1},
    {2, 12, 15, PITCH_TO_9, {"1", 15}, 0},
    {2, 12, 4095, PITCH_TO_9, {"1", 19}, 1},
    {2, 12, 5, PITCH_TO_9, {"1", 20}, 0},
    {2, 12, NONE, PITCH_TO_9, {"1111111111110", 20}, 0},
    {2, 12, NONE, PITCH_AT_15, {"1", 20}, 1},
    {2, 12, 18, PITCH_AT_15, {"1", 20}, 0},
    {2, 20, NONE, PITCH_AT_15, {"1", 20}, 0},
    {9, 10, NONE, PITCH_TO_9, {"1", 20}, 1},
    {9, 9, NONE, PITCH_TO_9, {"1", 20}, 0},
    {10, 15, NONE, PITCH_TO_9, {"1", 20}, 0},
    {12, 2, NONE, PITCH_TO_9, {"1", 20}, 0},
    {2, 4095, NONE, PITCH_TO_9, {"1", 2048}, 1},
    {2, 12, NONE, {"11111111110", 15}, {"1", 20}, 1},
    {2, 12, NONE, {"11111111110", 14}, {"1", 20}, 0},
    {2, 12, 17, {"11111111110", 15}, {"1", 20}, 0},
    {2, 12, 4096, PITCH_TO_9, {"1", 20}, -TIKUWERO_TRACK},
    {2, 12, NONE - 1, PITCH_TO_9, {"1", 20}, -TIKUWERO_TRACK},
    {4096, 12, NONE, PITCH_TO_9, {"1", 20}, -TIKUWERO_TRACK},
    {2, 12, NONE, PITCH_TO_9, {"12", 20}, -TIKUWERO_TRACK},
    {2, 12, 4096, PITCH_TO_9, {"2", 2049}, -TIKUWERO_SIZE},
};

static void foretell_tails(void)
{
    size_t as_foretold = 0;
    for (size_t i = 0; i < COUNT(tails); i++) {
        const struct tail_case *c = &tails[i];
        int32_t returned =
            tikuwero_creaky_tail(c->start, c->end, c->next, filled(c->pitched, one_mask), c->pitched.frames,
                                 filled(c->vowel_speech, other_mask), c->vowel_speech.frames);
        as_foretold += held("creaky_tail", i, returned == c->returned, returned);
    }
    conclude("creaky_tail", as_foretold, COUNT(tails));
}

/* ---- tikuwero_decode */

#define SAMPLE_BYTES 1376
#define CELLS TIKUWERO_WORK_CELLS
#define SPARE 4 /* cells that are lent beyond those needed, or not lent at all */
#define CHANGES 7

struct change {
    size_t at, bytes; /* 0 bytes: no change */
    uint64_t value;
};

/* The first fifteen words of an entry: id, score, pass, number of units, low and high half of the sum, then up to three units.
 * All after them are foretold to be 0. */
struct entry {
    uint32_t words[15];
};

struct decode_case {
    size_t record_len; /* bytes before the sample are 0 */
    size_t best_len, back_len, out_len;
    struct change changes[CHANGES];
    int32_t returned;
    struct entry entries[2];
};

#define LENT SAMPLE_BYTES, CELLS, CELLS, TIKUWERO_MAX_OUT
#define ENTRY_3 {{3, 0xc0100000, 0, 1, 0, 0xc0020000, 4, 14, 0}}
#define ENTRY_9 {{9, 0xc1000000, 4, 2, 0, 0xc0200000, 4, 4, NONE, 4, 4, NONE}}
#define NO_ENTRIES {{{0}}, {{0}}}

/* Changes of the sample, by the bits of what is put there. DURATION is that of 10 frames. */
#define NO_NUCLEI {1324, 4, 0}
#define SCORE(bits) {32, 4, bits}
#define PER_FRAME(bits) {84, 8, UINT64_C(bits)}
#define INSERTION(bits) {92, 8, UINT64_C(bits)}
#define UNVOICED(bits) {100, 4, bits}
#define DURATION_9(bits) {136, 8, UINT64_C(bits)}
#define DURATION(bits) {144, 8, UINT64_C(bits)}
#define UNITS_OF_9(k) {40, 4, k}
#define UNITS_OF_3(k) {64, 4, k}
/* A section's count and pointer, and what stands in the second duration table, from byte 712 on, which is not read without an
 * added stage: two columns, with the scores of candidates 9 and 3, which both have one unit then; three boundaries. */
#define SECTION(at, count, pointer) {at, 8, UINT64_C(pointer) << 32 | (count)}
#define SCORES(of_9, of_3) SECTION(1356, 2, 600), {712, 8, UINT64_C(of_3) << 32 | (of_9)}, UNITS_OF_9(1), {68, 1, 1}
#define BOUNDARIES_4_5_14 SECTION(1332, 3, 600), {712, 8, UINT64_C(5) << 32 | 4}, {720, 4, 14}

/* Entries with the sample's path, and those of one to three units without a path. */
#define UNIT_OF(id, llr, low, high) {{id, llr, 0, 1, low, high, 4, 14, 0}}
#define ONE_LOST(id, llr, pass, low, high) {{id, llr, pass, 1, low, high, 4, 4, NONE}}
#define TWO_LOST(id, llr, pass, low, high) {{id, llr, pass, 2, low, high, 4, 4, NONE, 4, 4, NONE}}
#define THREE_LOST(id, llr, pass, low, high) {{id, llr, pass, 3, low, high, 4, 4, NONE, 4, 4, NONE, 4, 4, NONE}}

static const struct decode_case decodes[] = {
    {LENT, {{0}}, 2, {ENTRY_3, ENTRY_9}},
    {SAMPLE_BYTES, CELLS + SPARE, CELLS + SPARE, 108, {{0}}, 2, {ENTRY_3, ENTRY_9}},
    {0, 0, 0, 0, {{0}}, -TIKUWERO_STUB, NO_ENTRIES},
    {63, CELLS, CELLS, 108, {{0}}, -TIKUWERO_STUB, NO_ENTRIES},
    {65536, CELLS, CELLS, 108, {{0}}, 2, {ENTRY_3, ENTRY_9}},
    {65537, CELLS, CELLS, 108, {{0}}, -TIKUWERO_STUB, NO_ENTRIES},
    {LENT, {{1312, 4, 2}, {0, 1, 2}}, -TIKUWERO_EDITION, NO_ENTRIES},
    {LENT, {{1316, 4, 2049}}, -TIKUWERO_SIZE, NO_ENTRIES},
    {LENT, {{1356, 4, 0}}, -TIKUWERO_SIZE, NO_ENTRIES},
    {LENT, {{1348, 4, 1}}, -TIKUWERO_SIZE, NO_ENTRIES},
    {LENT, {{1320, 4, 1313}}, -TIKUWERO_REACH, NO_ENTRIES},
    {LENT, {{0, 1, 2}}, -TIKUWERO_TRACK, NO_ENTRIES},
    {LENT, {{28, 4, 4}}, -TIKUWERO_TRACK, NO_ENTRIES},
    {LENT, {{84, 8, UINT64_C(0x7ff8000000000000)}, {1364, 4, 0}}, -TIKUWERO_COST, NO_ENTRIES},
    {LENT, {{1364, 4, 0}}, -TIKUWERO_BARE, NO_ENTRIES},
    {LENT, {{60, 4, 9}, {64, 4, 17}}, -TIKUWERO_TWICE, NO_ENTRIES},
    {LENT, {{40, 4, 17}}, -TIKUWERO_UNITS, NO_ENTRIES},
    {LENT, {{44, 1, 1}, {60, 4, 9}}, -TIKUWERO_COLUMN, NO_ENTRIES},
    {LENT, {{46, 1, 1}}, 2, {ENTRY_3, ENTRY_9}},
    {SAMPLE_BYTES, CELLS - 1, CELLS, 108, {{0}}, -TIKUWERO_DESK, NO_ENTRIES},
    {SAMPLE_BYTES, CELLS, CELLS - 1, 108, {{0}}, -TIKUWERO_DESK, NO_ENTRIES},
    {SAMPLE_BYTES, CELLS, CELLS, 107, {{0}}, -TIKUWERO_DESK, NO_ENTRIES},
    {SAMPLE_BYTES, CELLS, CELLS, 54, {{1364, 4, 1}}, 1, {ENTRY_9, {{0}}}},
    {SAMPLE_BYTES, CELLS, CELLS, 53, {{1364, 4, 1}}, -TIKUWERO_DESK, NO_ENTRIES},
    /* no speech: no pass, so k times the unvoiced score, and empty spans at 0 */
    {LENT, {{104, 8, UINT64_MAX}}, 2,
     {{{3, 0xc0800000, 4, 1, 0, 0xc0100000, 0, 0, NONE}},
      {{9, 0xc1000000, 4, 2, 0, 0xc0200000, 0, 0, NONE, 0, 0, NONE}}}},
    /* the only nucleus is outside the mask */
    {LENT, {{7, 1, 0}}, 2,
     {ONE_LOST(3, 0xc0800000, 5, 0, 0xc0100000), TWO_LOST(9, 0xc1000000, 5, 0, 0xc0200000)}},
    /* the unvoiced score is -0 and no nucleus within the mask: equal scores keep the record's order */
    {LENT, {{7, 1, 0}, UNVOICED(0x80000000)}, 2,
     {TWO_LOST(9, 0x80000000, 5, 0, 0x80000000), ONE_LOST(3, 0x80000000, 5, 0, 0x80000000)}},
    /* the score is 5.25, so that candidate 3 has -2 + (5.25 - 0.25) - 3 = +0, and candidate 9 has 2 * -0 */
    {LENT, {SCORE(0x40a80000), UNVOICED(0x80000000)}, 2,
     {UNIT_OF(3, 0, 0, 0), TWO_LOST(9, 0x80000000, 4, 0, 0x80000000)}},
    /* a frame costs nothing: 3 - 0.25 is left */
    {LENT, {PER_FRAME(0)}, 2, {UNIT_OF(3, 0x40300000, 0, 0x40060000), ENTRY_9}},

    /* The other passes with a path. Nucleus 15 is in no unit: -2 + (-4 - 0.25) - (3 + 2) = -11.25. Then no boundaries, but an
     * added stage, whose lists and scores share the bytes of others: anchor 7, with row 1, gives -2 + (3 + 0) - 3 = -2, and
     * anchor 14, which is in no unit, -2 + (-4 + 0) - 3 = -9. */
    {LENT, {{20, 4, 15}}, 2, {ENTRY_9, {{3, 0xc1340000, 3, 1, 0, 0xc0268000, 4, 14, NONE}}}},
    {LENT, {{1332, 4, 0}, SECTION(1340, 1, 1292), SECTION(1348, 2, 1288), {1360, 4, 1284}}, 2,
     {{{3, 0xc0000000, 1, 1, 0, 0xc0000000, 4, 14, 1}}, ENTRY_9}},
    {LENT, {{1332, 4, 0}, SECTION(1340, 1, 1284), SECTION(1348, 2, 1288), {1360, 4, 1284}}, 2,
     {ENTRY_9, {{3, 0xc1100000, 2, 1, 0, 0xc0220000, 4, 14, NONE}}}},

    /* Sums past the limits. Their scores are equal, so the record's order stands, whichever sum is the larger.
     * Without a path: 2 * 1,000,000 before 1 * 1,000,000 and behind it; 2 * -1,000,000 before 1 * -1,000,000 and behind it. */
    {LENT, {NO_NUCLEI, UNVOICED(0x49742400)}, 2,
     {TWO_LOST(9, 0x49742400, 5, 0, 0x413e8480), ONE_LOST(3, 0x49742400, 5, 0, 0x412e8480)}},
    {LENT, {NO_NUCLEI, UNVOICED(0x49742400), UNITS_OF_9(1), UNITS_OF_3(2)}, 2,
     {ONE_LOST(9, 0x49742400, 5, 0, 0x412e8480), TWO_LOST(3, 0x49742400, 5, 0, 0x413e8480)}},
    {LENT, {NO_NUCLEI, UNVOICED(0xc9742400)}, 2,
     {TWO_LOST(9, 0xc9742400, 5, 0, 0xc13e8480), ONE_LOST(3, 0xc9742400, 5, 0, 0xc12e8480)}},
    {LENT, {NO_NUCLEI, UNVOICED(0xc9742400), UNITS_OF_9(1), UNITS_OF_3(2)}, 2,
     {ONE_LOST(9, 0xc9742400, 5, 0, 0xc12e8480), TWO_LOST(3, 0xc9742400, 5, 0, 0xc13e8480)}},
    /* paths, with per_frame -1,000: 4,000 + (score - 0.25) + 6,000 is 1,008,999.75 for 999,000, 1,009,999.75 for 1,000,000 */
    {LENT, {PER_FRAME(0xc08f400000000000), SCORES(0x4973e580, 0x49742400)}, 2,
     {UNIT_OF(9, 0x49742400, 0x80000000, 0x412ecacf), UNIT_OF(3, 0x49742400, 0x80000000, 0x412ed29f)}},
    {LENT, {PER_FRAME(0xc08f400000000000), SCORES(0x49742400, 0x4973e580)}, 2,
     {UNIT_OF(9, 0x49742400, 0x80000000, 0x412ed29f), UNIT_OF(3, 0x49742400, 0x80000000, 0x412ecacf)}},
    /* paths, with per_frame 1,000: -1,010,000.25 for -1,000,000 and -1,009,000.25 for -999,000 */
    {LENT, {PER_FRAME(0x408f400000000000), SCORES(0xc9742400, 0xc973e580)}, 2,
     {UNIT_OF(9, 0xc9742400, 0x80000000, 0xc12ed2a0), UNIT_OF(3, 0xc9742400, 0x80000000, 0xc12ecad0)}},
    {LENT, {PER_FRAME(0x408f400000000000), SCORES(0xc973e580, 0xc9742400)}, 2,
     {UNIT_OF(9, 0xc9742400, 0x80000000, 0xc12ecad0), UNIT_OF(3, 0xc9742400, 0x80000000, 0xc12ed2a0)}},
    /* 2 * 1,000,000 without a path, before the path with 1,009,999.75; then a path with 1,000,000 itself */
    {LENT, {PER_FRAME(0xc08f400000000000), SCORE(0x49742400), UNVOICED(0x49742400)}, 2,
     {TWO_LOST(9, 0x49742400, 4, 0, 0x413e8480), UNIT_OF(3, 0x49742400, 0x80000000, 0x412ed29f)}},
    {LENT, {PER_FRAME(0), DURATION(0), SCORE(0x49742400)}, 2, {UNIT_OF(3, 0x49742400, 0, 0x412e8480), ENTRY_9}},

    /* Products, which are rounded to an f32 first: 3 * 0.1f, without a nucleus and with one; 3 * 999,999.9375, which is
     * 2,999,999.8125 before and 2,999,999.75 after; 2 * 2^-149, too small for a normal f32 */
    {LENT, {NO_NUCLEI, UNVOICED(0x3dcccccd), UNITS_OF_9(3)}, 2,
     {THREE_LOST(9, 0x3e99999a, 5, 0x40000000, 0x3fd33333), ONE_LOST(3, 0x3dcccccd, 5, 0xa0000000, 0x3fb99999)}},
    {LENT, {UNVOICED(0x3dcccccd), UNITS_OF_9(3), UNITS_OF_3(2)}, 2,
     {THREE_LOST(9, 0x3e99999a, 4, 0x40000000, 0x3fd33333), TWO_LOST(3, 0x3e4ccccd, 4, 0xa0000000, 0x3fc99999)}},
    {LENT, {NO_NUCLEI, UNVOICED(0x497423ff), UNITS_OF_9(3)}, 2,
     {THREE_LOST(9, 0x49742400, 5, 0xe0000000, 0x4146e35f), ONE_LOST(3, 0x497423ff, 5, 0xe0000000, 0x412e847f)}},
    {LENT, {NO_NUCLEI, UNVOICED(1)}, 2, {TWO_LOST(9, 2, 5, 0, 0x36b00000), ONE_LOST(3, 1, 5, 0, 0x36a00000)}},

    /* Zeros. With per_frame 0 a path starts with -0 and subtracts +0 at its end. Between them candidate 9 adds -0 + -0 and
     * candidate 3 0 + -0. With per_frame -0 and insertion_llr 2 it starts with +0: +0 + (-0 + -0) - -0 is +0. */
    {LENT, {PER_FRAME(0), DURATION(0x8000000000000000), SCORES(0x80000000, 0)}, 2,
     {UNIT_OF(3, 0, 0, 0), UNIT_OF(9, 0x80000000, 0, 0x80000000)}},
    {LENT,
     {PER_FRAME(0x8000000000000000), INSERTION(0x4000000000000000), DURATION(0x8000000000000000), SCORE(0x80000000)}, 2,
     {UNIT_OF(3, 0, 0, 0), ENTRY_9}},
    /* units 4..14 and 5..14, of which one gives -0 and one +0: these are equal, so the first is taken, with its own zero */
    {LENT, {BOUNDARIES_4_5_14, PER_FRAME(0), SCORE(0x80000000), DURATION(0x8000000000000000), DURATION_9(0)}, 2,
     {{{3, 0x80000000, 0, 1, 0, 0x80000000, 5, 14, 0}}, ENTRY_9}},
    {LENT, {BOUNDARIES_4_5_14, PER_FRAME(0), SCORE(0x80000000), DURATION(0), DURATION_9(0x8000000000000000)}, 2,
     {{{3, 0, 0, 1, 0, 0, 5, 14, 0}}, ENTRY_9}},

    /* Scores that are zeros with the sign of a sum that is none. 0 - 2^-150 and 2^-149 - 2^-150, each midway between two f32;
     * the f64 next to 0 as the duration, then for each of ten frames, subtracted and added */
    {LENT, {PER_FRAME(0), DURATION(0xb690000000000000), SCORES(0, 1)}, 2,
     {UNIT_OF(3, 0, 0, 0x36900000), UNIT_OF(9, 0x80000000, 0, 0xb6900000)}},
    {LENT, {PER_FRAME(0), DURATION(0x8000000000000001), SCORE(0)}, 2,
     {UNIT_OF(3, 0x80000000, 1, 0x80000000), ENTRY_9}},
    {LENT, {PER_FRAME(1), DURATION(0), SCORE(0)}, 2, {UNIT_OF(3, 0x80000000, 10, 0x80000000), ENTRY_9}},
    {LENT, {PER_FRAME(0x8000000000000001), DURATION(0), SCORE(0)}, 2, {UNIT_OF(3, 0, 10, 0), ENTRY_9}},
    /* the last two behind 2 * -0 and behind 2 * 0, with scores of the same bits */
    {LENT, {PER_FRAME(1), DURATION(0), SCORE(0), UNVOICED(0x80000000)}, 2,
     {TWO_LOST(9, 0x80000000, 4, 0, 0x80000000), UNIT_OF(3, 0x80000000, 10, 0x80000000)}},
    {LENT, {PER_FRAME(0x8000000000000001), DURATION(0), SCORE(0), UNVOICED(0)}, 2,
     {TWO_LOST(9, 0, 4, 0, 0), UNIT_OF(3, 0, 10, 0)}},

    /* Sums that an f32 cannot hold. 3 - 0.1; with per_frame 0.7, -2.8 + (1,000,000 - 1,000,000) - 0.7 * 6, which is next to -7,
     * and further off where score and duration are added one by one; -1 + 2^-31 and -1 + 2^-30, both -1 as an f32 */
    {LENT, {PER_FRAME(0), DURATION(0xbfb999999999999a)}, 2, {UNIT_OF(3, 0x4039999a, 0x33333333, 0x40073333), ENTRY_9}},
    {LENT, {PER_FRAME(0x3fe6666666666666), DURATION(0xc12e848000000000), SCORE(0x49742400)}, 2,
     {UNIT_OF(3, 0xc0e00000, 0xffffffff, 0xc01bffff), ENTRY_9}},
    {LENT, {PER_FRAME(0), DURATION(0xbff0000000000000), SCORES(0x30000000, 0x30800000)}, 2,
     {UNIT_OF(9, 0xbf800000, 0xffc00000, 0xbfefffff), UNIT_OF(3, 0xbf800000, 0xff800000, 0xbfefffff)}},
    {LENT, {PER_FRAME(0), DURATION(0xbff0000000000000), SCORES(0x30800000, 0x30000000)}, 2,
     {UNIT_OF(9, 0xbf800000, 0xff800000, 0xbfefffff), UNIT_OF(3, 0xbf800000, 0xffc00000, 0xbfefffff)}},
};

/* One byte more than a record may have; the sample stands at its end. */
static uint8_t sample[SAMPLE_BYTES], record[TIKUWERO_MAX_RECORD + 1];
static uint8_t *const altered_sample = record + sizeof record - SAMPLE_BYTES;
static double best[CELLS + SPARE];
static uint32_t back[CELLS + SPARE], out[TIKUWERO_MAX_OUT + SPARE];
static uint32_t foretold_out[TIKUWERO_MAX_OUT + SPARE];

static void put(uint8_t *at, struct change change)
{
    for (size_t i = 0; i < change.bytes; i++)
        at[change.at + i] = (uint8_t)(change.value >> 8 * i);
}

static const uint8_t *altered(size_t record_len, const struct change changes[CHANGES])
{
    memset(record, 0, sizeof record);
    memcpy(altered_sample, sample, SAMPLE_BYTES);
    for (size_t k = 0; k < CHANGES; k++)
        put(altered_sample, changes[k]);
    return record + sizeof record - record_len;
}

/* What is lent before a call; nothing of the output is foretold yet to be written. */
static void lend(void)
{
    for (size_t k = 0; k < COUNT(best); k++) {
        best[k] = -7.0;
        back[k] = UNTOUCHED;
    }
    for (size_t k = 0; k < COUNT(out); k++)
        out[k] = foretold_out[k] = UNTOUCHED;
}

/* The words of the entry at a place of the foretold output, all 0 at first. */
static uint32_t *foretold_entry(size_t place)
{
    uint32_t *words = foretold_out + place * TIKUWERO_ENTRY_WORDS;
    memset(words, 0, TIKUWERO_ENTRY_WORDS * sizeof *words);
    return words;
}

/* Every cell of the work areas and every word of the output. */
static int lent_as_foretold(int accepted)
{
    int same = memcmp(out, foretold_out, sizeof out) == 0;
    for (size_t i = 0; i < COUNT(best); i++) {
        int used = accepted && i < CELLS;
        same &= double_bits(best[i]) == (used ? 0 : double_bits(-7.0)) && back[i] == (used ? 0 : UNTOUCHED);
    }
    return same;
}

static size_t decode_held(size_t i, const struct decode_case *c)
{
    lend();
    for (int32_t k = 0; k < c->returned; k++)
        memcpy(foretold_entry((size_t)k), c->entries[k].words, sizeof c->entries[k].words);
    int32_t returned = tikuwero_decode(altered(c->record_len, c->changes), c->record_len, best, c->best_len, back,
                                       c->back_len, out, c->out_len);
    return held("decode", i, returned == c->returned && lent_as_foretold(returned > 0), returned);
}

/* The sample with sixteen candidates, which stand in the second duration table: candidate i has id i and 16 - i units. */
static void lay_out_sixteen(void)
{
    static const struct change section[CHANGES] = {SECTION(1364, 16, 600)};
    altered(SAMPLE_BYTES, section);
    for (uint32_t i = 0; i < 16; i++) {
        struct change candidate = {712 + 24 * i, 8, (uint64_t)(16 - i) << 32 | i};
        put(altered_sample, candidate);
    }
}

/* The last of them has the sample's path, and k units have k * -4: so the last is the best, and the others follow backwards.
 * The last entry has sixteen units, which go up to its last word. */
static void foretell_sixteen(void)
{
    static const struct entry with_path = ENTRY_3;
    static const uint32_t lost[3] = {4, 4, NONE};
    memcpy(foretold_entry(0), with_path.words, sizeof with_path.words);
    foretold_out[TIKUWERO_ENTRY_ID] = 15;
    for (uint32_t units = 2; units <= 16; units++) {
        uint32_t *words = foretold_entry(units - 1);
        words[TIKUWERO_ENTRY_ID] = 16 - units;
        words[TIKUWERO_ENTRY_LLR] = float_bits(-4.0f * (float)units);
        words[TIKUWERO_ENTRY_PASS] = TIKUWERO_NO_PATH;
        words[TIKUWERO_ENTRY_COUNT] = units;
        words[TIKUWERO_ENTRY_SUM_HIGH] = (uint32_t)(double_bits(-4.0 * units) >> 32);
        for (uint32_t k = 0; k < units; k++)
            memcpy(words + TIKUWERO_ENTRY_UNITS + 3 * k, lost, sizeof lost);
    }
}

/* An output that they fill to the last word, and one that is a word too short. */
static size_t sixteen_held(size_t out_len, int32_t foretold)
{
    lend();
    lay_out_sixteen();
    if (foretold > 0)
        foretell_sixteen();
    int32_t returned = tikuwero_decode(altered_sample, SAMPLE_BYTES, best, CELLS, back, CELLS, out, out_len);
    return held("decode of sixteen", out_len, returned == foretold && lent_as_foretold(returned > 0), returned);
}

static void foretell_decodes(void)
{
    size_t as_foretold = sixteen_held(864, 16) + sixteen_held(863, -TIKUWERO_DESK);
    for (size_t i = 0; i < COUNT(decodes); i++)
        as_foretold += decode_held(i, &decodes[i]);
    conclude("decode", as_foretold, 2 + COUNT(decodes));
}

/* ---- tikuwero_most_units; of each record four answers: nuclei relaxed, nuclei strict, added stage relaxed, added strict */

#define NO_BOUNDARY TIKUWERO_NO_BOUNDARY
#define NUCLEI_ONLY(relaxed, strict) {relaxed, strict, NO_BOUNDARY, NO_BOUNDARY}
#define REFUSED(number) {-(number), -(number), -(number), -(number)}

/* Whether the four are given, for each of some words other than 0. */
static size_t most_held(size_t i, const uint8_t *lent, size_t len, const int32_t most[4])
{
    static const uint32_t others[] = {1, 2, UINT32_C(0x80000000), UINT32_C(0xffffffff)};
    size_t as_foretold = 0;
    for (size_t k = 0; k < 4 * COUNT(others); k++) {
        uint32_t other = others[k / 4];
        int32_t returned = tikuwero_most_units(lent, len, k & 2 ? other : 0, k & 1 ? other : 0);
        as_foretold += held("most_units", i, returned == most[k % 4], returned);
    }
    return as_foretold == 4 * COUNT(others);
}

/* The sample, altered as for decoding. */
struct altered_case {
    size_t record_len;
    struct change changes[CHANGES];
    int32_t most[4];
};

static const struct altered_case alterations[] = {
    {SAMPLE_BYTES, {{0}}, NUCLEI_ONLY(1, 1)},
    {65536, {{0}}, NUCLEI_ONLY(1, 1)},
    {0, {{0}}, REFUSED(TIKUWERO_STUB)},
    {63, {{0}}, REFUSED(TIKUWERO_STUB)},
    {65537, {{0}}, REFUSED(TIKUWERO_STUB)},
    {SAMPLE_BYTES, {{1312, 4, 2}, {0, 1, 2}}, REFUSED(TIKUWERO_EDITION)},
    {SAMPLE_BYTES, {{1316, 4, 2049}}, REFUSED(TIKUWERO_SIZE)},
    {SAMPLE_BYTES, {{1356, 4, 0}}, REFUSED(TIKUWERO_SIZE)},
    {SAMPLE_BYTES, {{1348, 4, 1}}, REFUSED(TIKUWERO_SIZE)},
    {SAMPLE_BYTES, {{1320, 4, 1313}}, REFUSED(TIKUWERO_REACH)},
    {SAMPLE_BYTES, {{0, 1, 2}}, REFUSED(TIKUWERO_TRACK)},
    {SAMPLE_BYTES, {{28, 4, 4}}, REFUSED(TIKUWERO_TRACK)},
    {SAMPLE_BYTES, {{104, 4, 15}}, REFUSED(TIKUWERO_TRACK)},
    {SAMPLE_BYTES, {{84, 8, UINT64_C(0x7ff8000000000000)}, {1364, 4, 0}}, REFUSED(TIKUWERO_COST)},
    {SAMPLE_BYTES, {{1364, 4, 0}}, REFUSED(TIKUWERO_BARE)},
    {SAMPLE_BYTES, {{60, 4, 9}, {64, 4, 17}}, REFUSED(TIKUWERO_TWICE)},
    {SAMPLE_BYTES, {{40, 4, 17}}, REFUSED(TIKUWERO_UNITS)},
    {SAMPLE_BYTES, {{44, 1, 1}, {60, 4, 9}}, REFUSED(TIKUWERO_COLUMN)},
    {SAMPLE_BYTES, {{46, 1, 1}}, NUCLEI_ONLY(1, 1)},
};

/* A record laid out here, with one column and one candidate, of 4 units. */
struct frames {
    size_t n;
    uint32_t list[18];
};

struct laid_case {
    struct mask mask;
    struct frames nuclei, bounds, anchors, added_bounds;
    uint32_t speech_start, speech_end;
    int32_t most[4];
};

#define SIX_APART {0, 6, 12, 18, 24, 30, 36, 42, 48, 54, 60, 66, 72, 78, 84, 90, 96, 102}
#define ONES {"1", 120}
#define NO_ADDED {0}, {0}, 0, 24
#define BOTH_STAGES {1, {1}}, {5, SIX_APART}, {2, {1, 7}}, {4, SIX_APART}

static const struct laid_case laid_cases[] = {
    /* the header's example, which stays first */
    {{"1", 24}, {1, {1}}, {5, SIX_APART}, {1, {1}}, {0}, 0, 24, NUCLEI_ONLY(4, 1)},
    {ONES, BOTH_STAGES, 0, 24, {4, 1, 3, 2}},
    {ONES, {2, {1, 7}}, {4, SIX_APART}, {1, {1}}, {5, SIX_APART}, 0, 24, {3, 2, 4, 1}},
    /* no speech; no nucleus; an anchor on an unmarked frame, and where the mask has ended; none within the mask */
    {ONES, BOTH_STAGES, NONE, NONE, {4, 1, 3, 2}},
    {ONES, {0}, {5, SIX_APART}, {2, {1, 7}}, {4, SIX_APART}, 0, 24, {4, 0, 3, 2}},
    {{"111111101", 24}, BOTH_STAGES, 0, 24, {4, 1, 3, 1}},
    {{"1", 7}, BOTH_STAGES, 0, 24, {4, 1, 3, 1}},
    {{"1", 8}, BOTH_STAGES, 0, 24, {4, 1, 3, 2}},
    {{"0", 24}, BOTH_STAGES, 0, 24, {4, 0, 3, 0}},
    {{"1", 0}, BOTH_STAGES, NONE, NONE, {4, 0, 3, 0}},
    /* the highest count */
    {ONES, {0}, {16, SIX_APART}, NO_ADDED, NUCLEI_ONLY(15, 0)},
    {ONES, {0}, {17, SIX_APART}, NO_ADDED, NUCLEI_ONLY(16, 0)},
    {ONES, {0}, {18, SIX_APART}, NO_ADDED, NUCLEI_ONLY(16, 0)},
    {ONES, {15, SIX_APART}, {18, SIX_APART}, NO_ADDED, NUCLEI_ONLY(16, 15)},
    {ONES, {16, SIX_APART}, {18, SIX_APART}, NO_ADDED, NUCLEI_ONLY(16, 16)},
    {ONES, {17, SIX_APART}, {18, SIX_APART}, NO_ADDED, NUCLEI_ONLY(16, 16)},
    /* one boundary, and none */
    {ONES, {1, {1}}, {1, {0}}, NO_ADDED, NUCLEI_ONLY(0, 0)},
    {ONES, {1, {1}}, {0}, NO_ADDED, NUCLEI_ONLY(NO_BOUNDARY, NO_BOUNDARY)},
    {ONES, {0}, {0}, {1, {1}}, {1, {4095}}, 0, 24, {NO_BOUNDARY, NO_BOUNDARY, 0, 0}},
    /* units of 5, 6, 80 and 81 frames; boundaries past the mask */
    {ONES, {1, {3}}, {2, {3, 8}}, NO_ADDED, NUCLEI_ONLY(0, 0)},
    {ONES, {1, {3}}, {2, {3, 9}}, NO_ADDED, NUCLEI_ONLY(1, 1)},
    {ONES, {1, {3}}, {2, {3, 83}}, NO_ADDED, NUCLEI_ONLY(1, 1)},
    {ONES, {1, {3}}, {2, {3, 84}}, NO_ADDED, NUCLEI_ONLY(0, 0)},
    {ONES, {1, {4015}}, {2, {4015, 4095}}, NO_ADDED, NUCLEI_ONLY(1, 0)},
    /* anchors on the first boundary of a unit and on the last; two in a unit, then one of them unmarked */
    {ONES, {1, {10}}, {2, {10, 20}}, NO_ADDED, NUCLEI_ONLY(1, 1)},
    {ONES, {1, {20}}, {2, {10, 20}}, NO_ADDED, NUCLEI_ONLY(1, 0)},
    {ONES, {2, {10, 20}}, {2, {10, 20}}, NO_ADDED, NUCLEI_ONLY(1, 1)},
    {ONES, {1, {20}}, {3, {10, 20, 30}}, NO_ADDED, NUCLEI_ONLY(2, 1)},
    {ONES, {2, {10, 19}}, {2, {10, 20}}, NO_ADDED, NUCLEI_ONLY(0, 0)},
    {{"11111111110", 24}, {2, {9, 19}}, {2, {9, 20}}, NO_ADDED, NUCLEI_ONLY(1, 1)},
    /* units with gaps between them, and over a boundary in their midst */
    {ONES, {0}, {4, {0, 6, 7, 13}}, NO_ADDED, NUCLEI_ONLY(2, 0)},
    {ONES, {0}, {4, {0, 6, 100, 106}}, NO_ADDED, NUCLEI_ONLY(2, 0)},
    {ONES, {0}, {4, {0, 5, 10, 15}}, NO_ADDED, NUCLEI_ONLY(1, 0)},
    {ONES, {0}, {5, {0, 5, 10, 15, 20}}, NO_ADDED, NUCLEI_ONLY(2, 0)},
    {ONES, {2, {1, 13}}, {4, SIX_APART}, NO_ADDED, NUCLEI_ONLY(3, 2)},
    {ONES, {3, {1, 7, 9}}, {4, SIX_APART}, NO_ADDED, NUCLEI_ONLY(2, 1)},
};

/* Where the sections stand, the mask before them; what is not written is 0. */
enum {
    NUCLEI_AT = 256,
    BOUNDS_AT = 384,
    ANCHORS_AT = 512,
    ADDED_BOUNDS_AT = 640,
    SCORES_AT = 768,
    CANDIDATE_AT = 1024,
    COSTS_AT = 1048,
    TRAILER_AT = 2276,
    LAID_BYTES = 2340
};

static void put_word(size_t at, size_t value)
{
    struct change word = {at, 4, value};
    put(record, word);
}

/* A count and a pointer, from that word of the trailer on. */
static void point(size_t word, size_t count, size_t at)
{
    put_word(TRAILER_AT + 4 * word, count);
    put_word(TRAILER_AT + 4 * word + 4, TRAILER_AT - at);
}

static void put_frames(size_t word, const struct frames *frames, size_t at)
{
    point(word, frames->n, at);
    for (size_t i = 0; i < frames->n; i++)
        put_word(at + 4 * i, frames->list[i]);
}

static void lay_out(const struct laid_case *c)
{
    memset(record, 0, LAID_BYTES);
    put_word(TRAILER_AT, 1);
    point(1, c->mask.frames, 0);
    filled(c->mask, record);
    put_frames(3, &c->nuclei, NUCLEI_AT);
    put_frames(5, &c->bounds, BOUNDS_AT);
    put_frames(7, &c->anchors, ANCHORS_AT);
    put_frames(9, &c->added_bounds, ADDED_BOUNDS_AT);
    point(11, 1, SCORES_AT);
    point(13, 1, CANDIDATE_AT);
    put_word(CANDIDATE_AT + 4, 4);
    put_word(TRAILER_AT + 60, TRAILER_AT - COSTS_AT);
    put_word(COSTS_AT + 20, c->speech_start);
    put_word(COSTS_AT + 24, c->speech_end);
}

/* Decoding has no path for the 4 units of the header's example. */
static size_t example_held(void)
{
    lay_out(&laid_cases[0]);
    int32_t returned = tikuwero_decode(record, LAID_BYTES, best, CELLS, back, CELLS, out, TIKUWERO_MAX_OUT);
    int none = out[TIKUWERO_ENTRY_PASS] == TIKUWERO_NO_PATH && out[TIKUWERO_ENTRY_COUNT] == 4;
    return held("most_units, its example decoded", 0, returned == 1 && none, returned);
}

static void foretell_most_units(void)
{
    size_t as_foretold = example_held();
    for (size_t i = 0; i < COUNT(alterations); i++) {
        const struct altered_case *c = &alterations[i];
        as_foretold += most_held(i, altered(c->record_len, c->changes), c->record_len, c->most);
    }
    for (size_t i = 0; i < COUNT(laid_cases); i++) {
        lay_out(&laid_cases[i]);
        as_foretold += most_held(COUNT(alterations) + i, record, LAID_BYTES, laid_cases[i].most);
    }
    conclude("most_units", as_foretold, 1 + COUNT(alterations) + COUNT(laid_cases));
}

/* ---- the words */

static void foretell_words(void)
{
    static const char *const refusals[] = {"stub", "edition", "size",  "reach",  "track", "cost",
                                           "bare", "twice",   "units", "column", "desk"};
    static const char *const passes[] = {"nuclei-strict",  "count-strict", "count-relaxed",
                                         "nuclei-relaxed", "none",         "unvoiced"};
    size_t as_foretold = 0;
    for (int32_t i = 0; i < 11; i++)
        as_foretold += strcmp(tikuwero_refusal_word(-1 - i), refusals[i]) == 0;
    for (uint32_t i = 0; i < 6; i++)
        as_foretold += strcmp(tikuwero_pass_word(i), passes[i]) == 0;
    as_foretold += tikuwero_refusal_word(0) == NULL && tikuwero_refusal_word(5) == NULL;
    as_foretold += tikuwero_refusal_word(-12) == NULL && tikuwero_pass_word(6) == NULL;
    as_foretold += tikuwero_refusal_word(TIKUWERO_NO_BOUNDARY) == NULL;
    conclude("words", as_foretold, 20);
}

int main(void)
{
    if (fread(sample, 1, SAMPLE_BYTES, stdin) != SAMPLE_BYTES) {
        printf("standard input is not the sample phrase\n");
        return 1;
    }
    foretell_rates();
    foretell_spans();
    foretell_joins();
    foretell_tails();
    foretell_decodes();
    foretell_most_units();
    foretell_words();
    return missed != 0;
}
