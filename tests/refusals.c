/* The refusals that no file gets, from C: 21 of words that are not a sheet, and 101 of numbers that name no edition or no rule of letters;
 * and that every number of docs/REFUSALS.md has a sentence of its own in host/refusals.h. The file stands on standard input. */
#include <string.h>

#include "refusals.h"
#include "store.h"

static int faults;

static void expect(const char *what, uint64_t number, uint64_t wanted)
{
    if (number == wanted)
        return;
    printf("refusals: %s is %" PRIu64 ", not %" PRIu64 "\n", what, number, wanted);
    faults++;
}

int main(void)
{
    static uint8_t file[65536];
    size_t n = fread(file, 1, sizeof file, stdin);
    struct room room = {sheet_entries_for(n), sheet_apertures_for(n), sheet_macros_for(n), n};
    struct store s = lent(room);
    uint64_t total;
    read_into(&s, plain_book, file, n);
    expect("a reading", s.number, SHEET_ACCEPTED);
    expect("a total", sheet_total(s.head, s.entries, s.entries_words, s.apertures, s.apertures_words, &total), SHEET_ACCEPTED);
    s.head[SHEET_HEAD_TOTAL]++;
    expect("the total of a store with a word changed",
           sheet_total(s.head, s.entries, s.entries_words, s.apertures, s.apertures_words, &total), SHEET_NOT_SHEET);
    read_into(&s, (struct book){3, SHEET_OLD_LETTERS}, file, n);
    expect("a third edition", s.number, SHEET_NO_BOOK);
    read_into(&s, (struct book){SHEET_NEW_EDITION, 0}, file, n);
    expect("no rule of letters", s.number, SHEET_NO_BOOK);
    for (uint64_t k = 1; k <= SHEET_NO_BOOK; k++) {
        int known = k <= 34 || k == SHEET_NO_BOOK;
        expect("whether a number has a sentence", refusal_sentence(k) != refusal_sentence(0), known);
        for (uint64_t j = 1; known && j < k; j++)
            expect("whether two numbers have one sentence", strcmp(refusal_sentence(k), refusal_sentence(j)) == 0, 0);
    }
    give_back(&s);
    return faults != 0;
}
