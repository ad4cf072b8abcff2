/* Reads a phrase record from standard input and prints its listing. */
#include <inttypes.h>
#include <stdio.h>

#include "tikuwero.h"

static void print_unit(const uint32_t unit[3])
{
    printf("%" PRIu32 " %" PRIu32 " ", unit[0], unit[1]);
    if (unit[2] == TIKUWERO_NONE)
        printf("-\n");
    else
        printf("%" PRIu32 "\n", unit[2]);
}

static void print_entry(const uint32_t *entry)
{
    uint32_t count = entry[TIKUWERO_ENTRY_COUNT];
    printf("candidate %" PRIu32 " %08" PRIx32 " %s %" PRIu32 "\n", entry[TIKUWERO_ENTRY_ID],
           entry[TIKUWERO_ENTRY_LLR], tikuwero_pass_word(entry[TIKUWERO_ENTRY_PASS]), count);
    for (uint32_t i = 0; i < count; i++)
        print_unit(entry + TIKUWERO_ENTRY_UNITS + 3 * i);
}

int main(void)
{
    /* One byte more than a record may have, so that a longer one is refused and not cut. */
    static uint8_t record[TIKUWERO_MAX_RECORD + 1];
    static double best[TIKUWERO_WORK_CELLS];
    static uint32_t back[TIKUWERO_WORK_CELLS];
    static uint32_t out[TIKUWERO_MAX_OUT];

    size_t len = fread(record, 1, sizeof record, stdin);
    int32_t status = tikuwero_decode(record, len, best, TIKUWERO_WORK_CELLS, back,
                                     TIKUWERO_WORK_CELLS, out, TIKUWERO_MAX_OUT);
    if (status < 0) {
        printf("refused %" PRId32 "\n", -status);
        return 0;
    }
    printf("decoded %" PRId32 "\n", status);
    for (int32_t i = 0; i < status; i++)
        print_entry(out + i * TIKUWERO_ENTRY_WORDS);
    return 0;
}
