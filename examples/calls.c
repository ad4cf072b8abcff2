/* Makes each of the smaller calls once or twice, on worked examples and on the sample phrase, which
 * standard input has, and prints what comes back; then decodes that phrase and prints, of each
 * candidate, the score and the full sum. */
#include <inttypes.h>
#include <math.h>
#include <stdio.h>
#include <string.h>

#include "tikuwero.h"

static void rates(void)
{
    static const uint32_t frames[] = {60, 10, 30};
    double rate = -1.0;
    int32_t status = tikuwero_rate_s(frames, 3, 0.2, &rate);
    printf("rate %" PRId32 " %g\n", status, rate);
    rate = -1.0;
    status = tikuwero_rate_s(frames, 0, 0.2, &rate);
    printf("rate of no frames %" PRId32 " %g\n", status, rate);
    rate = -1.0;
    status = tikuwero_rate_s(frames, 3, NAN, &rate);
    printf("rate refused %" PRId32 " %g\n", status, rate);
}

static void spans(void)
{
    static const uint32_t nuclei[] = {13, 10, 13};
    uint32_t out[5] = {9, 9, 9, 9, 9};
    int32_t status = tikuwero_tbu_spans(nuclei, 3, nuclei, 0, 5, 20, out, 3);
    printf("spans refused %" PRId32 " %" PRIu32 "\n", status, out[0]);
    status = tikuwero_tbu_spans(nuclei, 3, nuclei, 0, 5, 20, out, 5);
    printf("spans %" PRId32, status);
    for (int i = 0; i < 5; i++)
        printf(" %" PRIu32, out[i]);
    printf("\n");
}

/* Twenty frames, all at voice level; pitch ends at frame 10, where creak sets in. */
static void marks(void)
{
    uint8_t voice[20], pitched[20];
    memset(voice, 1, sizeof voice);
    memset(pitched, 0, sizeof pitched);
    memset(pitched, 1, 10);
    printf("start joined %" PRId32 "\n", tikuwero_joins(voice, 20, pitched, 20, 6, 12));
    printf("end joined %" PRId32 "\n", tikuwero_joins(voice, 20, pitched, 20, 12, 6));
    int32_t alone = tikuwero_creaky_tail(2, 12, TIKUWERO_NONE, pitched, 20, voice, 20);
    int32_t before_nucleus = tikuwero_creaky_tail(2, 12, 16, pitched, 20, voice, 20);
    printf("creaky tail %" PRId32 " %" PRId32 "\n", alone, before_nucleus);
    voice[19] = 2;
    printf("joins refused %" PRId32 "\n", tikuwero_joins(voice, 20, pitched, 20, 6, 12));
}

/* The number that came back, but words for a stage without boundaries. */
static void print_most(const char *of, int32_t most)
{
    if (most == TIKUWERO_NO_BOUNDARY)
        printf("most units %s: no path\n", of);
    else
        printf("most units %s: %" PRId32 "\n", of, most);
}

/* Of the phrase's two candidates one has two units, for which there is no path. */
static void most_units(const uint8_t *record, size_t len)
{
    print_most("of nuclei, relaxed", tikuwero_most_units(record, len, 0, 0));
    print_most("of nuclei, strict", tikuwero_most_units(record, len, 0, 1));
    print_most("of the added stage", tikuwero_most_units(record, len, 1, 0));
    print_most("refused", tikuwero_most_units(record, 63, 0, 0));
}

/* The sum that stands in two words of an entry, as the header has it. */
static double sum_of(const uint32_t *entry)
{
    uint64_t low = entry[TIKUWERO_ENTRY_SUM_LOW], high = entry[TIKUWERO_ENTRY_SUM_HIGH];
    uint64_t bits = low | high << 32;
    double sum;
    memcpy(&sum, &bits, sizeof sum);
    return sum;
}

static float llr_of(const uint32_t *entry)
{
    float llr;
    memcpy(&llr, &entry[TIKUWERO_ENTRY_LLR], sizeof llr);
    return llr;
}

/* The words as they are, and what they are as numbers: nine digits tell floats apart, 17 doubles. */
static void print_entries(const uint8_t *record, size_t len)
{
    static double best[TIKUWERO_WORK_CELLS];
    static uint32_t back[TIKUWERO_WORK_CELLS];
    static uint32_t out[TIKUWERO_MAX_OUT];

    int32_t candidates = tikuwero_decode(record, len, best, TIKUWERO_WORK_CELLS, back,
                                         TIKUWERO_WORK_CELLS, out, TIKUWERO_MAX_OUT);
    for (int32_t i = 0; i < candidates; i++) { /* a refusal is below 0, and has no entries */
        const uint32_t *entry = out + i * TIKUWERO_ENTRY_WORDS;
        printf("candidate %" PRIu32 ": ", entry[TIKUWERO_ENTRY_ID]);
        printf("score %08" PRIx32 " %.9g, ", entry[TIKUWERO_ENTRY_LLR], llr_of(entry));
        printf("sum %08" PRIx32 "%08" PRIx32 " %.17g\n", entry[TIKUWERO_ENTRY_SUM_HIGH],
               entry[TIKUWERO_ENTRY_SUM_LOW], sum_of(entry));
    }
}

/* The phrase, and the same without speech and with an unvoiced score of 1,000,000, by which both
 * candidates have the highest score: their sums tell them apart. docs/FORMAT.md has the places. */
static void sums(uint8_t *record, size_t len)
{
    static const uint8_t million[] = {0x00, 0x24, 0x74, 0x49};
    print_entries(record, len);
    memcpy(record + 100, million, sizeof million);
    memset(record + 104, 0xff, 8);
    printf("without speech\n");
    print_entries(record, len);
}

int main(void)
{
    static uint8_t record[TIKUWERO_MAX_RECORD + 1];
    size_t len = fread(record, 1, sizeof record, stdin);
    rates();
    spans();
    marks();
    most_units(record, len);
    sums(record, len);
    return 0;
}
