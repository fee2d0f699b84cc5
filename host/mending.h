/* A file mended into room that is lent for it: for the sample host, the program mend and the bench. */
#ifndef MENDING_H
#define MENDING_H

#include "store.h"

/* The mended file, what was changed, and its sheet; of what is not mended the number. */
struct mended {
    uint8_t *file;
    uint64_t *report;
    size_t file_room, report_words;
    struct store sheet;
    uint64_t number, bytes, changes;
};

/* Mends a file by a book, with this room for its sheet and enough for all else. */
static inline struct mended mend_with(struct book book, const uint8_t *file, size_t count, struct room room)
{
    struct mended m = {.file_room = sheet_mended_for(count), .report_words = sheet_changes_for(count) * SHEET_CHANGE_WORDS,
                       .sheet = lent(room)};
    struct store *s = &m.sheet;
    m.file = lend(m.file_room, sizeof *m.file);
    m.report = lend(m.report_words, sizeof *m.report);
    m.number = sheet_mend(book.edition, book.letters, file, count, m.file, m.file_room, m.report, m.report_words, s->head, s->entries,
                          s->entries_words, s->apertures, s->apertures_words, s->macros, s->macros_words, s->numbers,
                          s->numbers_count, &m.bytes, &m.changes, &s->unit, &s->rounded);
    return m;
}

static inline void give_back_mended(struct mended *m)
{
    free(m->file);
    free(m->report);
    give_back(&m->sheet);
}

#endif
