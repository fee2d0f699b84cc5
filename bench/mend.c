/* Times of mending, in one run, beside two readings of the mended file in the same room. Each time is the best of five. */
#include <inttypes.h>
#include <stdio.h>

#include "clock.h"
#include "mending.h"
#include "texts.h"

/* What is mended needs so much room, told by a reading with plenty. */
static struct room room_of(const struct mended *m)
{
    const uint64_t *h = m->sheet.head;
    struct room r = {h[SHEET_HEAD_ENTRIES], h[SHEET_HEAD_APERTURES], h[SHEET_HEAD_MACROS], h[SHEET_HEAD_NUMBERS]};
    return r;
}

static double measure(const char *name, const char *text, size_t count, double before)
{
    const uint8_t *file = (const uint8_t *)text;
    struct room plenty = {sheet_entries_for(count + 4), 4000, 100, 100000};
    struct mended first = mend_with(newer, file, count, plenty);
    if (first.number != SHEET_ACCEPTED)
        refuse(name, first.number);
    struct room r = room_of(&first);
    struct mended m = mend_with(newer, file, count, r);
    struct store s = lent(r), *t = &m.sheet;
    double mend = 1e9, read = 1e9;
    for (int i = 0; i < ROUNDS; i++) {
        double from = now();
        m.number = sheet_mend(newer.edition, newer.letters, file, count, m.file, m.file_room, m.report, m.report_words, t->head,
                              t->entries, t->entries_words, t->apertures, t->apertures_words, t->macros, t->macros_words,
                              t->numbers, t->numbers_count, &m.bytes, &m.changes, &t->unit, &t->rounded);
        double took = now() - from;
        mend = took < mend ? took : mend;
        from = now();
        read_into(&s, newer, m.file, (size_t)m.bytes);
        took = now() - from;
        read = took < read ? took : read;
        if (m.number != SHEET_ACCEPTED || s.number != SHEET_ACCEPTED)
            refuse(name, m.number);
    }
    printf("| %s | %.3g | %" PRIu64 " | %.1f | %.1f | %.2f |", name, 1e-6 * (double)count, m.changes, 1e3 * mend, 1e3 * read, mend / (2 * read));
    if (before > 0)
        printf(" %.2f |\n", mend / before);
    else
        printf(" |\n");
    give_back_mended(&first);
    give_back_mended(&m);
    give_back(&s);
    return mend;
}

/* An FS whose text ends in so many line ends, repeated, one repeat to each ten draws. */
static struct text repeats(int lines, int count)
{
    struct text t = {0};
    say(&t, "%FSLAX46Y46*");
    for (int i = 0; i < lines; i++)
        say(&t, "\n");
    say(&t, "%\n%MOMM*%\n%ADD10C,0.1*%\nD10*\nG01*\n");
    operation(&t, "02");
    for (int i = 0; i < count; i++) {
        say(&t, "%FSLAX46Y46*%\n");
        for (int k = 0; k < 10; k++)
            operation(&t, "01");
    }
    say(&t, "M02*\n");
    return t;
}

int main(int argc, char **argv)
{
    puts("| file | MB | changes | mending, ms | a reading of the mended file, ms | mending / two readings | to the row before |");
    puts("|---|---|---|---|---|---|---|");
    struct text half = flat(8000000), whole = flat(16000000);
    double before = measure("draws, as they are", half.at, half.count, 0);
    measure("twice as many", whole.at, whole.count, before);
    measure("cut off in its last command", whole.at, whole.count - 10, 0);
    say(&whole, "-- \nSent from my desk\n");
    measure("with a footer", whole.at, whole.count, 0);
    struct text few = repeats(100000, 10000), many = repeats(200000, 20000);
    before = measure("10,000 repeats of an FS with 100,000 line ends", few.at, few.count, 0);
    measure("twice of both", many.at, many.count, before);
    struct text layer = argc > 1 ? repeated(argv[1]) : (struct text){0};
    if (layer.count != 0)
        measure("KiCad layer, repeated, cut off", layer.at, layer.count - 10, 0);
    free(half.at);
    free(whole.at);
    free(few.at);
    free(many.at);
    free(layer.at);
    return 0;
}
