/* Times of the summary, in one run: beside the look at the store that every call begins with, the reading of the file, and a pass over the
 * items in C. Each time is the best of five. */
#include <inttypes.h>
#include <stdio.h>

#include "clock.h"
#include "store.h"
#include "texts.h"

enum { RUN = 65536, MOST = 1000000 };

static void define(struct text *t, int count)
{
    char line[64];
    for (int i = 0; i < count; i++)
        add(t, line, (size_t)sprintf(line, "%%ADD%dC,0.1*%%\n", 10000 + i));
}

static void apertures(struct text *t, int count)
{
    say(t, "%FSLAX46Y46*%\n%MOMM*%\nG01*\n");
    define(t, count);
}

/* So many draws and flashes, in runs of ten of one aperture. */
static void draws(struct text *t, int entries, int count)
{
    char line[64];
    for (int i = 0; i < entries; i++) {
        if (i % 10 == 0) {
            add(t, line, (size_t)sprintf(line, "D%d*\n", 10000 + chance(count)));
            operation(t, "02");
        }
        operation(t, i % 10 == 9 ? "03" : "01");
    }
}

static struct text flat_sheet(int entries, int count)
{
    struct text t = {0};
    apertures(&t, count);
    draws(&t, entries, count);
    say(&t, "M02*\n");
    return t;
}

/* The same in a block that is flashed twice. */
static struct text block_sheet(int entries, int count)
{
    struct text t = {0};
    apertures(&t, count);
    say(&t, "%ABD9000*%\n");
    draws(&t, entries, count);
    say(&t, "%AB*%\nD9000*\nX0Y0D03*\nX0Y5000000D03*\nM02*\n");
    return t;
}

/* Blocks `deep` in each other, each flashed ten times in the next, the last at the top level; beside so many apertures that are not used. */
static struct text nested_sheet(int deep, int unused)
{
    struct text t = {0};
    char line[64];
    say(&t, start);
    define(&t, unused);
    say(&t, "%ABD100*%\nD10*\n");
    for (int i = 0; i < 10; i++)
        operation(&t, "03");
    say(&t, "%AB*%\n");
    for (int h = 1; h < deep; h++) {
        add(&t, line, (size_t)sprintf(line, "%%ABD%d*%%\nD%d*\n", 100 + h, 99 + h));
        for (int i = 0; i < 10; i++)
            operation(&t, "03");
        say(&t, "%AB*%\n");
    }
    add(&t, line, (size_t)sprintf(line, "D%d*\nX0Y0D03*\nM02*\n", 99 + deep));
    return t;
}

/* A pass over the items, for the total's sake: what the summary would cost without the store. */
static double passing(const struct store *s, uint64_t total)
{
    struct sheet_item *items = lend(RUN, sizeof *items);
    int64_t least = 0;
    double from = now();
    for (uint64_t k = 0; k < total; k += RUN) {
        if (sheet_items(s->head, s->entries, s->entries_words, s->apertures, s->apertures_words, k, &items->kind,
                        RUN * SHEET_ITEM_WORDS) != SHEET_ACCEPTED)
            refuse("a run", k);
        for (size_t i = 0; i < RUN; i++)
            least = items[i].end_x < least ? items[i].end_x : least;
    }
    double took = now() - from;
    free(items);
    return least == INT64_MAX ? 0 : took;
}

static double measure(const char *name, struct text t, double before)
{
    struct room r = {sheet_entries_for(t.count), sheet_apertures_for(t.count), sheet_macros_for(t.count), 100000};
    struct store s = lent(r);
    double read = now();
    read_into(&s, newer, (const uint8_t *)t.at, t.count);
    read = now() - read;
    if (s.number != SHEET_ACCEPTED)
        refuse("a reading", s.number);
    size_t n = (size_t)s.head[SHEET_HEAD_APERTURES], words = sheet_scratch_for(n), rows = sheet_rows_for(n) * SHEET_ROW_WORDS;
    uint64_t *scratch = lend(words, sizeof *scratch), *out = lend(rows, sizeof *out), total = 0, counted = 0;
    double best = 1e9, look = 1e9;
    for (int i = 0; i < ROUNDS; i++) {
        double from = now();
        if (sheet_summary(s.head, s.entries, s.entries_words, s.apertures, s.apertures_words, scratch, words, out, rows) != SHEET_ACCEPTED)
            refuse("a summary", n);
        double took = now() - from;
        best = took < best ? took : best;
        from = now();
        if (sheet_total(s.head, s.entries, s.entries_words, s.apertures, s.apertures_words, &total) != SHEET_ACCEPTED)
            refuse("a total", n);
        took = now() - from;
        look = took < look ? took : look;
        if (best > 5)
            break;
    }
    for (size_t b = 0; b <= n; b++)
        counted += out[b * SHEET_ROW_WORDS];
    if (counted != total)
        refuse("counts that do not add up", counted);
    printf("| %s | %zu | %" PRIu64 " | %" PRIu64 " | %.3f | %.3f | %.1f | %.2f |", name, n, s.head[SHEET_HEAD_ENTRIES], total, 1e3 * best,
           1e3 * look, best / look, best / read);
    if (total <= MOST)
        printf(" %.2f |", best / passing(&s, total));
    else
        printf(" |");
    if (before > 0)
        printf(" %.2f |\n", best / before);
    else
        printf(" |\n");
    free(out);
    free(scratch);
    give_back(&s);
    free(t.at);
    return best;
}

int main(void)
{
    puts("| sheet | apertures | entries | items | ms | a look at the store, ms | summary / look | summary / reading | summary / pass over the items | to the row before |");
    puts("|---|---|---|---|---|---|---|---|---|---|");
    double once = measure("flat", flat_sheet(100000, 1000), 0);
    measure("flat, twice the entries", flat_sheet(200000, 1000), once);
    measure("flat, twice the apertures", flat_sheet(100000, 2000), once);
    once = measure("in a block, flashed twice", block_sheet(100000, 1000), 0);
    measure("in a block, twice the entries", block_sheet(200000, 1000), once);
    measure("in a block, twice the apertures", block_sheet(100000, 2000), once);
    once = measure("blocks 4 deep, ten each", nested_sheet(4, 0), 0);
    measure("blocks 8 deep, ten each", nested_sheet(8, 0), once);
    once = measure("blocks 8 deep, beside 2,000 apertures", nested_sheet(8, 2000), 0);
    measure("blocks 8 deep, beside 4,000 apertures", nested_sheet(8, 4000), once);
    return 0;
}
