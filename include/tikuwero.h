/* Tikuwero: the syllable decoder of a pocket trainer, a call that says how many units would have
 * fitted, and four calls on marks, spans and speaking rate.
 *
 * What each call returns, and what it leaves in the caller's memory, is proved for every input
 * (crates/tikuwero/specs), byte for byte but for one thing: of a double that held a NaN and that the
 * call does not write, that it still holds a NaN, and not which. (The two functions that give words
 * are plain C in this header and no part of the archive.) The proofs assume of the caller what no
 * function can test:
 *
 *   - no pointer is null, also where its length is 0, and each is aligned for its type;
 *   - behind a pointer with a length there are that many elements, not bytes; they can be read,
 *     and written where the pointer is not to const; their size in bytes is at most PTRDIFF_MAX;
 *   - memory that a call writes overlaps nothing else that is lent to the same call, and nobody
 *     else uses what is lent until the call returns.
 *
 * Every other input is answered. A value is 0 or more; TIKUWERO_NO_BOUNDARY is a value and no
 * refusal. A refusal is minus its number, -1 to -11 (TIKUWERO_STUB and those after it); then all lent
 * memory keeps its bytes (a NaN stays a NaN). The lowest number that applies is given, save that of a
 * record 8, 9 and 10 are tested candidate by candidate.
 *
 * No call allocates or keeps anything: there is no heap and no static variable, so that calls on
 * different memory may run at the same time. The archive needs memcpy and memset of the C library
 * and nothing else. It is for x86-64-v2. tikuwero_decode takes up to 11,968 bytes of stack and
 * tikuwero_most_units 3,600, whatever the record, with the return address and without what memcpy
 * and memset take (counted from the archive's instructions, not proved).
 *
 * A frame is 10 ms. A mask has a byte for each frame, 1 where the frame has the mark and else 0; a
 * frame past the mask's length has no mark. start..end are the frames from start up to but not
 * including end.
 */
#ifndef TIKUWERO_H
#define TIKUWERO_H

#include <stddef.h>
#include <stdint.h>

#ifdef __cplusplus
extern "C" {
#endif

/* The refusals. docs/FORMAT.md has the limits of a record. A record gives TIKUWERO_SIZE also where it
 * has no columns, or added boundaries but no anchors, and TIKUWERO_TRACK also where a list is not
 * strictly increasing or speech edges are bad. */
enum {
    TIKUWERO_STUB = 1,    /* the record has fewer than 64 or more than 65,536 bytes */
    TIKUWERO_EDITION = 2, /* the record's edition is not 1 */
    TIKUWERO_SIZE = 3,    /* a count or a length is over its limit */
    TIKUWERO_REACH = 4,   /* a section of the record is not wholly before the trailer */
    TIKUWERO_TRACK = 5,   /* a mask byte is above 1, or a frame above 4,095 */
    TIKUWERO_COST = 6,    /* a float is not finite or is outside its range */
    TIKUWERO_BARE = 7,    /* no candidates */
    TIKUWERO_TWICE = 8,   /* a candidate has the id of an earlier one */
    TIKUWERO_UNITS = 9,   /* a candidate has no units, or more than 16 */
    TIKUWERO_COLUMN = 10, /* a used column number is not below the number of columns */
    TIKUWERO_DESK = 11    /* a work area or an output is too short */
};

/* The word of a refusal, for what a call returned: "stub" for -TIKUWERO_STUB and so on. NULL for
 * every other number, the positive ones too. */
static inline const char *tikuwero_refusal_word(int32_t returned)
{
    switch (returned) {
    case -TIKUWERO_STUB: return "stub";
    case -TIKUWERO_EDITION: return "edition";
    case -TIKUWERO_SIZE: return "size";
    case -TIKUWERO_REACH: return "reach";
    case -TIKUWERO_TRACK: return "track";
    case -TIKUWERO_COST: return "cost";
    case -TIKUWERO_BARE: return "bare";
    case -TIKUWERO_TWICE: return "twice";
    case -TIKUWERO_UNITS: return "units";
    case -TIKUWERO_COLUMN: return "column";
    case -TIKUWERO_DESK: return "desk";
    default: return NULL;
    }
}

/* Sizes, in elements. */
#define TIKUWERO_MAX_RECORD 65536  /* bytes of a record */
#define TIKUWERO_MAX_CANDIDATES 16 /* candidates of a record */
#define TIKUWERO_MAX_UNITS 16      /* units of a candidate; tikuwero_most_units counts up to it */
#define TIKUWERO_WORK_CELLS 1088   /* cells of each work area */
#define TIKUWERO_ENTRY_WORDS 54    /* words of an entry */
#define TIKUWERO_MAX_OUT (TIKUWERO_MAX_CANDIDATES * TIKUWERO_ENTRY_WORDS)
#define TIKUWERO_MAX_FRAMES 64     /* frames of a list that is lent by itself */
#define TIKUWERO_MAX_MASK 2048     /* bytes of a mask */

/* The highest frame, and the word for none: no next nucleus, or a unit without an anchor. */
#define TIKUWERO_LAST_FRAME 4095
#define TIKUWERO_NONE UINT32_C(4294967295)

/* Words of an entry. tikuwero_decode says what the sum is, and how the score comes from it. From
 * TIKUWERO_ENTRY_UNITS on there are 16 triples start, end, row: row is that of the scores of the
 * unit's anchor (nuclei, then added anchors) or TIKUWERO_NONE. start..end is that anchor's span, as
 * tikuwero_tbu_spans has it for the anchors and boundaries of the stage; it may be other than the
 * frames that were scored as the unit. A unit without an anchor has its own frames, cut where its
 * neighbours' spans are. Triples past the number of units are 0. */
enum {
    TIKUWERO_ENTRY_ID = 0,
    TIKUWERO_ENTRY_LLR = 1, /* the score: the bits of a float */
    TIKUWERO_ENTRY_PASS = 2,
    TIKUWERO_ENTRY_COUNT = 3,    /* the number of units */
    TIKUWERO_ENTRY_SUM_LOW = 4,  /* the full sum: bits 0 to 31 of a double */
    TIKUWERO_ENTRY_SUM_HIGH = 5, /* and its bits 32 to 63, with the sign */
    TIKUWERO_ENTRY_UNITS = 6
};

/* What TIKUWERO_ENTRY_PASS holds: the pass that found a path, or why there is none. */
enum {
    TIKUWERO_NUCLEI_STRICT = 0,
    TIKUWERO_COUNT_STRICT = 1,
    TIKUWERO_COUNT_RELAXED = 2,
    TIKUWERO_NUCLEI_RELAXED = 3,
    TIKUWERO_NO_PATH = 4, /* no path, but a nucleus in the mask */
    TIKUWERO_UNVOICED = 5 /* no path and no nucleus in the mask */
};

/* The word of a pass: "nuclei-strict", "count-strict", "count-relaxed", "nuclei-relaxed", "none",
 * "unvoiced". NULL for every other number. */
static inline const char *tikuwero_pass_word(uint32_t pass)
{
    switch (pass) {
    case TIKUWERO_NUCLEI_STRICT: return "nuclei-strict";
    case TIKUWERO_COUNT_STRICT: return "count-strict";
    case TIKUWERO_COUNT_RELAXED: return "count-relaxed";
    case TIKUWERO_NUCLEI_RELAXED: return "nuclei-relaxed";
    case TIKUWERO_NO_PATH: return "none";
    case TIKUWERO_UNVOICED: return "unvoiced";
    default: return NULL;
    }
}

/* Decodes a phrase record of edition 1, as docs/FORMAT.md has it byte by byte.
 *
 * Returns M, the number of the record's candidates, 1 to 16. out then begins with M entries of
 * TIKUWERO_ENTRY_WORDS words; its words past them are untouched. The first TIKUWERO_WORK_CELLS
 * cells of best and of back are all-zero bits, whatever they were; cells past them are untouched.
 *
 * The sum of an entry is a double. With a path (passes 0 to 3) it is the sum of the whole path, as
 * docs/FORMAT.md has it. Without one (4 and 5) it is the number of units times the unvoiced score,
 * that product rounded to a float and then widened: with 0.1f, 3 units have 0x3fd3333340000000. It
 * is finite, no limit cuts it, and a zero keeps its own sign. With a path it differs from the sum
 * without any rounding by at most 2^-21, and no other path of the pass and the unit count is better
 * without rounding by more than 2^-20. Its bits are in two words of the entry, the low half first:
 *
 *     uint64_t low = entry[TIKUWERO_ENTRY_SUM_LOW], high = entry[TIKUWERO_ENTRY_SUM_HIGH];
 *     uint64_t bits = low | high << 32;
 *     double sum;
 *     memcpy(&sum, &bits, sizeof sum);
 *
 * The score (llr) is the sum, brought within -1,000,000 to 1,000,000 and then rounded to the nearest
 * float, ties to even. Entries stand in the order of their scores alone, best first (+0 before -0):
 * those with the same score bits keep the record's order, whatever their sums.
 *
 * Refuses with 1 to 11. 11: best_len or back_len is below TIKUWERO_WORK_CELLS, or out_len is below
 * M * TIKUWERO_ENTRY_WORDS; TIKUWERO_MAX_OUT words are enough for every record. */
int32_t tikuwero_decode(const uint8_t *record, size_t record_len, double *best, size_t best_len,
                        uint32_t *back, size_t back_len, uint32_t *out, size_t out_len);

/* What tikuwero_most_units returns for a stage without boundaries, in which nothing fits: test for it
 * first, for it is above every count. */
#define TIKUWERO_NO_BOUNDARY INT32_MAX

/* How many units would have fitted: the most that a path in one stage of a record has. It is for a
 * coach that reads "none" and wants to say that fewer syllables were heard than the word has.
 *
 * stage is 0 for the nuclei's stage, and every other word for the added one; strict is 0 for
 * relaxed, and every other word for strict. No word is refused. docs/FORMAT.md has the lists of the
 * two stages and, as "What decoding looks for", their paths. In short:
 *
 *   a path    starts at any boundary of the stage, goes on to later ones, by units or without,
 *             and may end at any;
 *   a unit    goes to a later boundary 6 to 80 frames on. Strict, it holds exactly one of the
 *             stage's anchors, and relaxed, none or one;
 *   it holds  the anchors from its first boundary up to but not including its last, but only those
 *             that are marked in the record's mask.
 *
 * Returns the number of units, 0 to TIKUWERO_MAX_UNITS. A path with so many exists and, below
 * TIKUWERO_MAX_UNITS, none with more; TIKUWERO_MAX_UNITS itself reads "that many or more". For each
 * smaller number there is a path too. One boundary alone gives 0. Where the stage has none, as the
 * added stage of a record without added anchors, there is no path: TIKUWERO_NO_BOUNDARY.
 *
 * Only the mask and the stage's own lists play a part in the count. The passes that decoding runs
 * over a record with speech and with a nucleus in its mask are the nuclei strict and, with added
 * anchors, the added stage strict and relaxed, or else the nuclei relaxed. Where it then says
 * TIKUWERO_NO_PATH of k units, this call says fewer than k, or TIKUWERO_NO_BOUNDARY, for each of those.
 * For a pass that is not run it can say k or more. With 24 frames, all marked, speech 0..24,
 * nucleus 1, boundaries 0, 6, 12, 18, 24, the added anchor 1 and no added boundaries, a candidate of
 * 4 units gets TIKUWERO_NO_PATH, for with added anchors there is no pass nuclei-relaxed. This call
 * says 4 for the nuclei relaxed, 1 for the nuclei strict and TIKUWERO_NO_BOUNDARY for the added stage.
 *
 * Refuses with 1 to 10, as tikuwero_decode does, and never with 11: only the record is lent. */
int32_t tikuwero_most_units(const uint8_t *record, size_t record_len, uint32_t stage,
                            uint32_t strict);

/* The speaking rate in seconds per syllable, from the frames of nuclei in any order, repeats kept.
 *
 * With the frames in ascending order, a gap is the difference of one frame to the next: n frames
 * have n - 1 gaps, 0 for a repeat. The median is the middle gap in ascending order or, of an even
 * number of gaps, half the sum of the middle two: frames 0, 10, 30 have the gaps 10 and 20 and the
 * median 15, so the rate 0.15.
 *
 * Returns 0, and *rate is median * 0.01, one product of doubles (which may be off a quotient by 100
 * in the last bit: 35 * 0.01 is not 0.35). It is default_s, to the bit, where there are fewer than
 * two frames or the median is 0.
 *
 * Refuses with 3: n above TIKUWERO_MAX_FRAMES; 5: a frame above TIKUWERO_LAST_FRAME; 6: default_s
 * not finite or outside -1,000,000 to 1,000,000; also where the frames alone give a rate. */
int32_t tikuwero_rate_s(const uint32_t *frames, size_t n, double default_s, double *rate);

/* The span of each nucleus: from the boundary below it to the boundary above it, or to the edges
 * where there is none. Both lists may stand in any order, a nucleus that is listed twice counts
 * once, and lo_edge may be above hi_edge.
 *
 * The span of nucleus f starts at the highest boundary below f, else at min(lo_edge, f), and ends
 * at the lowest boundary above f, else at max(hi_edge, f + 1). A boundary at f is neither. Nucleus
 * 10 without boundaries and with the edges 12 and 5 has 10..11. Where of two neighbouring nuclei
 * the left one's span ends above the right one's start, both become left + (right - left + 1) / 2,
 * in whole numbers: midway, rounded up. Nuclei 10 and 13 with the edges 5 and 20 have 5..12 and
 * 12..20. The other ends of the two spans stay what they are.
 *
 * Returns the number of spans, 0 to TIKUWERO_MAX_FRAMES. out then begins with two words for each,
 * its start and its end, by ascending nucleus; its words past them are untouched.
 *
 * Refuses with 3: n or b above TIKUWERO_MAX_FRAMES; 5: a frame or an edge above
 * TIKUWERO_LAST_FRAME, also where there is no nucleus; 11: out_len below two words for each
 * distinct nucleus. */
int32_t tikuwero_tbu_spans(const uint32_t *nuclei, size_t n, const uint32_t *bounds, size_t b,
                           uint32_t lo_edge, uint32_t hi_edge, uint32_t *out, size_t out_len);

/* Which edges of the span start..end the voice runs through, from one syllable into the next. The
 * masks may differ in length, and start may be above end.
 *
 * An edge e, be it start or end, is joined exactly if e >= 3, the frames e - 3 to e + 2 are all
 * marked in voice, and the frames e - 3 to e in pitched. So e + 3 <= v and e < p.
 *
 * Returns 1 where the start is joined and 2 where the end is, added: 0 to 3.
 *
 * Refuses with 3: v or p above TIKUWERO_MAX_MASK; 5: a mask byte above 1, or start or end above
 * TIKUWERO_LAST_FRAME. */
int32_t tikuwero_joins(const uint8_t *voice, size_t v, const uint8_t *pitched, size_t p,
                       uint32_t start, uint32_t end);

/* Whether the syllable start..end dies away in creak: after its last pitched frame come five or
 * more frames of unpitched vowel speech, which do not run on into the next nucleus. next is the
 * next nucleus's frame or TIKUWERO_NONE. The masks may differ in length, start may be above end,
 * and next may lie anywhere.
 *
 *   last     the last frame of start..end that is marked in pitched; where there is none, the
 *            answer is 0;
 *   stop     next, but p where next is TIKUWERO_NONE or above p;
 *   the run  the frames from last + 1 on, as long as they are below stop, marked in vowel_speech
 *            and not marked in pitched. It may go on past end;
 *   after    the frame right after the run: last + 1 plus the run's length.
 *
 * Returns 1 where the run has 5 frames or more and is not joined to the next nucleus, else 0. It is
 * joined exactly if there is a next nucleus and after is at or past stop or is marked in pitched.
 * So without a next nucleus only the run's length counts. With one, a run that reaches next, the
 * end of the pitch mask or a pitched frame is joined, and one that ends at an unpitched frame
 * without vowel speech is not.
 *
 * Refuses with 3: p or v above TIKUWERO_MAX_MASK; 5: a mask byte above 1, start or end above
 * TIKUWERO_LAST_FRAME, or next above it and not TIKUWERO_NONE. */
int32_t tikuwero_creaky_tail(uint32_t start, uint32_t end, uint32_t next, const uint8_t *pitched,
                             size_t p, const uint8_t *vowel_speech, size_t v);

#ifdef __cplusplus
}
#endif

#endif
