/* A host that knows nothing but the installed header: the total of the file on standard input, and its last item. */
#include <inttypes.h>
#include <stdio.h>

#include "refusals.h"
#include "sheet.h"

enum { ROOM = 4096 };
static uint8_t file[ROOM];
static uint64_t head[SHEET_HEAD_WORDS], entries[ROOM * SHEET_ENTRY_WORDS], apertures[ROOM * SHEET_APERTURE_WORDS];
static uint64_t macros[ROOM * SHEET_MACRO_WORDS];
static int64_t numbers[ROOM];

int main(void)
{
    size_t n = fread(file, 1, sizeof file, stdin);
    uint64_t place, unit, rounded, total;
    uint64_t number = sheet_read_as(SHEET_NEW_EDITION, SHEET_OLD_LETTERS, file, n, head, entries, ROOM * SHEET_ENTRY_WORDS, apertures,
                                    ROOM * SHEET_APERTURE_WORDS, macros, ROOM * SHEET_MACRO_WORDS, numbers, ROOM, &place, &unit, &rounded);
    if (number != SHEET_ACCEPTED) {
        printf("%" PRIu64 " at %" PRIu64 ": %s\n", number, place, refusal_sentence(number));
        return 1;
    }
    struct sheet_item last;
    if (sheet_total(head, entries, ROOM * SHEET_ENTRY_WORDS, apertures, ROOM * SHEET_APERTURE_WORDS, &total) != SHEET_ACCEPTED ||
        sheet_item(head, entries, ROOM * SHEET_ENTRY_WORDS, apertures, ROOM * SHEET_APERTURE_WORDS, total - 1, &last.kind) != SHEET_ACCEPTED)
        return 2;
    printf("%" PRIu64 " items, the last at %" PRId64 " %" PRId64 "\n", total, last.end_x, last.end_y);
    return 0;
}
