/* The book that a file is read by, its edition and its rule of letters, and the words that name it: for the sample host, the program mend
 * and the bench. */
#ifndef BOOK_H
#define BOOK_H

#include <string.h>

#include "sheet.h"

struct book {
    uint64_t edition, letters;
};

/* Where no word names another: document 01's. */
static const struct book plain_book = {SHEET_NEW_EDITION, SHEET_OLD_LETTERS};

/* Takes `--edition new|old` and `--letters old|new` out of the words; 0 where something else follows one of them. */
static inline int take_book(int *words, char **word, struct book *book)
{
    int kept = 0;
    for (int i = 0; i < *words; i++) {
        int edition = strcmp(word[i], "--edition") == 0;
        if (!edition && strcmp(word[i], "--letters") != 0) {
            word[kept++] = word[i];
            continue;
        }
        i++;
        int old = i < *words && strcmp(word[i], "old") == 0;
        if (!old && !(i < *words && strcmp(word[i], "new") == 0))
            return 0;
        if (edition)
            book->edition = old ? SHEET_OLD_EDITION : SHEET_NEW_EDITION;
        else
            book->letters = old ? SHEET_OLD_LETTERS : SHEET_NEW_LETTERS;
    }
    *words = kept;
    return 1;
}

#endif
