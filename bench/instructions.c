/* One reading of a file with the room that it uses, and the naive reader's, for whoever counts their instructions.
 *
 *   instructions [--edition new|old] [flat|coded|steps|FILE]
 *
 * Where no file is named it is a flat one of 200 KB. coded and steps are the same drawing as a film of the old edition: with a code before
 * every coordinate, as real films have it; or by steps from point to point, their trailing zeros left out. Prints how many bytes the file
 * has. The naive reader knows the newer edition alone. */
#include "naive.h"
#include "store.h"
#include "texts.h"

static const struct book newer = {SHEET_NEW_EDITION, SHEET_OLD_LETTERS};

static struct text whole(const char *name)
{
    struct text t = {0};
    char piece[65536];
    size_t n;
    FILE *in = fopen(name, "rb");
    if (!in)
        exit(1);
    while ((n = fread(piece, 1, sizeof piece, in)) != 0)
        add(&t, piece, n);
    fclose(in);
    return t;
}

/* The two that are counted: found by their names, so that they stay as they are. */
static __attribute__((noinline, noclone)) struct naive_list naive_counted(const uint8_t *file, size_t bytes)
{
    return naive_read(file, bytes);
}

static __attribute__((noinline, noclone)) void reading_counted(struct store *s, struct book book, const uint8_t *file, size_t bytes)
{
    read_into(s, book, file, bytes);
}

/* A reading in room for any file; a refusal ends the program. */
static struct store reading(struct text t, struct book book)
{
    struct store s = lent((struct room){.entries = sheet_entries_for(t.count),
                                        .apertures = sheet_apertures_for(t.count),
                                        .macros = sheet_macros_for(t.count),
                                        .numbers = t.count});
    read_into(&s, book, (const uint8_t *)t.at, t.count);
    if (s.number != SHEET_ACCEPTED) {
        fprintf(stderr, "refused %u at %u\n", (unsigned)s.number, (unsigned)s.place);
        exit(1);
    }
    return s;
}

/* Head words 2 to 5 say how much room a reading used (docs/SHEET.md). */
static struct room used(const struct store *s)
{
    return (struct room){.entries = s->head[2], .apertures = s->head[3], .macros = s->head[4], .numbers = s->head[5]};
}

/* A film must draw what the flat file does: all words of all entries but the places. */
static void same_drawing(const struct store *film, struct text flat_file)
{
    struct store s = reading(flat_file, newer);
    int same = film->head[SHEET_HEAD_ENTRIES] == s.head[SHEET_HEAD_ENTRIES];
    for (size_t i = 0; same && i < s.head[SHEET_HEAD_ENTRIES]; i++)
        same = memcmp(film->entries + i * SHEET_ENTRY_WORDS, s.entries + i * SHEET_ENTRY_WORDS, (SHEET_ENTRY_WORDS - 1) * 8) == 0;
    if (!same) {
        fprintf(stderr, "the film is another drawing\n");
        exit(1);
    }
    give_back(&s);
}

int main(int words, char **word)
{
    struct book book = plain_book;
    if (!take_book(&words, word, &book) || words > 2) {
        fputs("usage: instructions [--edition new|old] [flat|coded|steps|FILE]\n", stderr);
        return 2;
    }
    const char *what = words == 2 ? word[1] : "flat";
    int coded = strcmp(what, "coded") == 0, steps = strcmp(what, "steps") == 0, made = coded || steps || strcmp(what, "flat") == 0;
    struct text flat_file = flat(200000), t = !made ? whole(what) : coded || steps ? film_of(flat_file, steps) : flat_file;
    const uint8_t *file = (const uint8_t *)t.at;
    if (book.edition == SHEET_NEW_EDITION) {
        struct naive_list items = naive_counted(file, t.count);
        free(items.at);
    }
    struct store safe = reading(t, book), lean = lent(used(&safe));
    reading_counted(&lean, book, file, t.count);
    if (lean.number != SHEET_ACCEPTED)
        return 1;
    if (coded || steps)
        same_drawing(&lean, flat_file);
    printf("%zu\n", t.count);
    give_back(&safe);
    give_back(&lean);
    if (t.at != flat_file.at)
        free(flat_file.at);
    free(t.at);
    return 0;
}
