/* The rooms that a host lends, kept together: open a layer, ask it, close it. Over sheet.h, and like it for C and C++. */
#ifndef STORE_H
#define STORE_H

#include <stdio.h>
#include <stdlib.h>
#include <string.h>

#include "book.h"
#include "sheet.h"

/* How many entries, apertures, macros and numbers there is room for. */
struct room {
    size_t entries, apertures, macros, numbers;
};

/* What is lent to the reading, and what it answered. */
struct store {
    uint64_t head[SHEET_HEAD_WORDS];
    uint64_t *entries, *apertures, *macros;
    int64_t *numbers;
    size_t entries_words, apertures_words, macros_words, numbers_count;
    uint64_t number, place, unit, rounded;
};

/* Room for so many of that size, all 0 and never of no byte, since a slice of length 0 has a pointer too; null where there is none. */
static inline void *try_lend(size_t count, size_t size)
{
    return calloc(count ? count : 1, size);
}

static inline void *lend(size_t count, size_t size)
{
    void *p = try_lend(count, size);
    if (!p) {
        fprintf(stderr, "out of memory\n");
        exit(1);
    }
    return p;
}

static inline void give_back(struct store *s)
{
    free(s->entries);
    free(s->apertures);
    free(s->macros);
    free(s->numbers);
}

/* The rooms, some of them null where there is not so much. */
static inline struct store try_lent(struct room r)
{
    struct store s;
    memset(&s, 0, sizeof s);
    s.entries_words = r.entries * SHEET_ENTRY_WORDS;
    s.apertures_words = r.apertures * SHEET_APERTURE_WORDS;
    s.macros_words = r.macros * SHEET_MACRO_WORDS;
    s.numbers_count = r.numbers;
    s.entries = (uint64_t *)try_lend(s.entries_words, sizeof *s.entries);
    s.apertures = (uint64_t *)try_lend(s.apertures_words, sizeof *s.apertures);
    s.macros = (uint64_t *)try_lend(s.macros_words, sizeof *s.macros);
    s.numbers = (int64_t *)try_lend(s.numbers_count, sizeof *s.numbers);
    return s;
}

static inline int is_lent(const struct store *s)
{
    return s->entries && s->apertures && s->macros && s->numbers;
}

static inline struct store lent(struct room r)
{
    struct store s = try_lent(r);
    if (!is_lent(&s)) {
        fprintf(stderr, "out of memory\n");
        exit(1);
    }
    return s;
}

/* Reads a file by a book. */
static inline void read_into(struct store *s, struct book book, const uint8_t *file, size_t count)
{
    s->number = sheet_read_as(book.edition, book.letters, file, count, s->head, s->entries, s->entries_words, s->apertures,
                              s->apertures_words, s->macros, s->macros_words, s->numbers, s->numbers_count, &s->place, &s->unit,
                              &s->rounded);
}

/* A layer: a file, which stays where it is while the layer is open, and the rooms it was read into. */
struct layer {
    const uint8_t *file;
    size_t bytes;
    struct book book;
    struct store store;
};

/* Opens a layer: lends it room and reads it; store.number says whether it was accepted, or why not. Of entries, apertures and macros there is
 * room for every file of that length, of numbers at first for what layers seen so far use. 17 is answered by lending twice as many, until
 * they are enough; it stays where there is no more room to be had. */
static inline struct layer open_layer(uint64_t edition, uint64_t letters, const uint8_t *file, size_t bytes)
{
    struct layer l;
    struct room r = {0, 0, 0, 0};
    size_t most = 0;
    l.file = file;
    l.bytes = bytes;
    l.book.edition = edition;
    l.book.letters = letters;
    if (bytes <= SHEET_FILE_LIMIT) {
        most = sheet_numbers_for(bytes);
        r.entries = sheet_entries_for(bytes);
        r.apertures = sheet_apertures_for(bytes);
        r.macros = sheet_macros_for(bytes);
        r.numbers = bytes / 8 + 64 < most ? bytes / 8 + 64 : most;
    }
    for (;;) {
        l.store = try_lent(r);
        l.store.number = SHEET_ROOM;
        if (!is_lent(&l.store))
            return l;
        read_into(&l.store, l.book, file, bytes);
        if (l.store.number != SHEET_ROOM || r.numbers == most)
            return l;
        give_back(&l.store);
        r.numbers = r.numbers < most / 2 ? 2 * r.numbers : most;
    }
}

static inline void close_layer(struct layer *l)
{
    give_back(&l->store);
}

/* What the calls of sheet.h say of the layer. Asked of one that was not accepted they answer its number again, and set nothing. */
static inline uint64_t layer_items(const struct layer *l, uint64_t k, struct sheet_item *items, size_t slots)
{
    const struct store *s = &l->store;
    if (s->number != SHEET_ACCEPTED)
        return s->number;
    return sheet_items(s->head, s->entries, s->entries_words, s->apertures, s->apertures_words, k, &items->kind,
                       slots * SHEET_ITEM_WORDS);
}

static inline uint64_t layer_shape(const struct layer *l, uint64_t number, struct sheet_shape *shape)
{
    const struct store *s = &l->store;
    if (s->number != SHEET_ACCEPTED)
        return s->number;
    return sheet_shape(s->head, s->apertures, s->apertures_words, s->numbers, s->numbers_count, number, &shape->number);
}

static inline uint64_t layer_shape_record(const struct layer *l, uint64_t b, struct sheet_shape *shape)
{
    const struct store *s = &l->store;
    if (s->number != SHEET_ACCEPTED)
        return s->number;
    return sheet_shape_record(s->head, s->apertures, s->apertures_words, s->numbers, s->numbers_count, b, &shape->number);
}

static inline uint64_t layer_primitives(const struct layer *l, uint64_t number, size_t i, struct sheet_primitive *primitives, size_t slots)
{
    const struct store *s = &l->store;
    if (s->number != SHEET_ACCEPTED)
        return s->number;
    return sheet_primitives(s->head, s->apertures, s->apertures_words, s->numbers, s->numbers_count, number, i, &primitives->code,
                            slots * SHEET_PRIMITIVE_WORDS);
}

/* A file attribute by its name, a string that ends with 0. */
static inline uint64_t layer_attribute(const struct layer *l, const char *name, uint64_t *at, uint64_t *count)
{
    return sheet_file_attribute(l->book.edition, l->book.letters, l->file, l->bytes, (const uint8_t *)name, strlen(name), at, count);
}

/* Where the name and the value of a file attribute lie in the file. */
struct sheet_label {
    uint64_t name_at, name_bytes, value_at, value_bytes;
};

static inline uint64_t layer_label(const struct layer *l, size_t i, struct sheet_label *label)
{
    return sheet_label(l->book.edition, l->book.letters, l->file, l->bytes, i, &label->name_at, &label->name_bytes, &label->value_at,
                       &label->value_bytes);
}

#endif
