/* Times of the calls for a host beside a naive C reader and a byte-classifying pass over the same bytes, in one run. Its one word, if
 * it has one, is a layer to repeat up to 16 MB. Each time is the best of five. */
#include <inttypes.h>
#include <stdio.h>
#include <time.h>

#include "naive.h"
#include "store.h"
#include "texts.h"

enum { ROUNDS = 5, RUN = 1024 };
static const struct book newer = {SHEET_NEW_EDITION, SHEET_OLD_LETTERS};

/* Processor time, so that other work on the machine counts for less. */
static double now(void)
{
    struct timespec t;
    clock_gettime(CLOCK_PROCESS_CPUTIME_ID, &t);
    return (double)t.tv_sec + 1e-9 * (double)t.tv_nsec;
}

/* A strip of 300 items, a block of three blocks of a hundred, stepped 300 by 4. */
static struct text panel(void)
{
    struct text t = {0};
    say(&t, start);
    say(&t, "%ABD20*%\nD10*\n");
    operation(&t, "02");
    for (int i = 0; i < 90; i++)
        operation(&t, "01");
    say(&t, "D11*\n");
    for (int i = 0; i < 10; i++)
        operation(&t, "03");
    say(&t, "%AB*%\n%ABD21*%\nD20*\nX0Y0D03*\n%LMX*%\n%LR90*%\nX5000000Y0D03*\n%LPC*%\n%LMN*%\nX0Y5000000D03*\n%LPD*%\n%LR0*%\n%AB*%\n");
    say(&t, "D21*\n%SRX300Y4I3.5J20*%\nX0Y0D03*\n%SR*%\nM02*\n");
    return t;
}

static struct text selects(int count, int apertures)
{
    struct text t = {0};
    char line[64];
    say(&t, "%FSLAX46Y46*%\n%MOMM*%\n");
    for (int i = 0; i < apertures; i++)
        add(&t, line, (size_t)sprintf(line, "%%ADD%dC,0.1*%%\n", 10000 + i));
    for (int i = 0; i < count; i++)
        add(&t, line, (size_t)sprintf(line, "D%d*\n", 10000 + chance(apertures)));
    say(&t, "M02*\n");
    return t;
}

static struct text names(int count)
{
    struct text t = {0};
    char line[64];
    say(&t, "%FSLAX46Y46*%\n%MOMM*%\n");
    for (int i = 0; i < count; i++)
        add(&t, line, (size_t)sprintf(line, "%%TFname%06d,v*%%\n", i));
    say(&t, "M02*\n");
    return t;
}

static double reading(struct text t, struct store *s)
{
    double best = 1e9;
    for (int i = 0; i < ROUNDS; i++) {
        double from = now();
        read_into(s, newer, (const uint8_t *)t.at, t.count);
        double took = now() - from;
        if (s->number != 0) {
            printf("refused %" PRIu64 " at %" PRIu64 "\n", s->number, s->place);
            exit(1);
        }
        best = took < best ? took : best;
    }
    return best;
}

/* The naive reader's time; its items must be those of the sheet. */
static double naive_reading(struct text t, const struct store *s)
{
    double best = 1e9;
    for (int i = 0; i < ROUNDS; i++) {
        double from = now();
        struct naive_list items = naive_read((const uint8_t *)t.at, t.count);
        double took = now() - from;
        best = took < best ? took : best;
        size_t total = s->head[SHEET_HEAD_TOTAL];
        struct sheet_item *run = lend(total * SHEET_ITEM_WORDS, 8);
        if (total != 0 && sheet_items(s->head, s->entries, s->entries_words, s->apertures, s->apertures_words, 0, &run->kind, total * SHEET_ITEM_WORDS) != 0)
            exit(1);
        if (i == 0 && (items.count != total || memcmp(items.at, run, total * sizeof *run) != 0)) {
            printf("the naive reader has other items\n");
            exit(1);
        }
        free(run);
        free(items.at);
    }
    return best;
}

static uint64_t sink;

static double classifying(struct text t)
{
    double best = 1e9;
    for (int i = 0; i < ROUNDS; i++) {
        double from = now();
        sink += classify((const uint8_t *)t.at, t.count);
        double took = now() - from;
        best = took < best ? took : best;
    }
    return best;
}

static struct store header_room(size_t n)
{
    return lent((struct room){sheet_entries_for(n), sheet_apertures_for(n), sheet_macros_for(n), n / 8});
}

static void readings(const char *name, struct text t)
{
    double mb = 1e-6 * (double)t.count;
    struct store wide = header_room(t.count);
    double with_room = reading(t, &wide);
    const uint64_t *h = wide.head;
    struct store s = lent((struct room){h[2], h[3], h[4], h[5]});
    give_back(&wide);
    double exact = reading(t, &s);
    double naive = naive_reading(t, &s), class = classifying(t);
    printf("| %s | %.3g | %" PRIu64 " | %.3g | %.3g | %.3g | %.2g | %.2g | %.3g | %.2g |\n", name, mb, s.head[2], mb / exact, mb / with_room,
           mb / naive, exact / naive, with_room / naive, mb / class, exact / class);
    give_back(&s);
    fflush(stdout);
}

/* ns for each item in runs of so many, and one by one in any order, beside the expanded array of the naive reader. */
static void items(const char *name, struct text t, int singles)
{
    struct store s = header_room(t.count);
    reading(t, &s);
    uint64_t total = s.head[SHEET_HEAD_TOTAL], one[SHEET_ITEM_WORDS];
    size_t sizes[] = {RUN, 65536};
    double run[2], best_single = 1e9, naive = naive_reading(t, &s) / (double)total;
    for (int i = 0; i < 2; i++) {
        uint64_t *out = lend(sizes[i] * SHEET_ITEM_WORDS, 8);
        run[i] = 1e9;
        for (int j = 0; j < ROUNDS; j++) {
            uint64_t last = total < 40 * sizes[i] ? total : 40 * sizes[i];
            double from = now();
            for (uint64_t k = 0; k < last; k += sizes[i])
                sink += sheet_items(s.head, s.entries, s.entries_words, s.apertures, s.apertures_words, k, out, sizes[i] * SHEET_ITEM_WORDS) + out[14];
            double took = (now() - from) / (double)last;
            run[i] = took < run[i] ? took : run[i];
        }
        free(out);
    }
    for (int j = 0; j < ROUNDS; j++) {
        double from = now();
        for (int i = 0; i < singles; i++)
            sink += sheet_item(s.head, s.entries, s.entries_words, s.apertures, s.apertures_words, seed % total, one) + (uint64_t)chance(2);
        double took = (now() - from) / singles;
        best_single = took < best_single ? took : best_single;
    }
    printf("| %s | %" PRIu64 " | %" PRIu64 " | %.0f | %.0f | %.0f | %.0f | %.1f |\n", name, s.head[2], total, 1e9 * run[0], 1e9 * run[1],
           1e9 * best_single, 1e9 * naive, run[1] / naive);
    give_back(&s);
    free(t.at);
    fflush(stdout);
}

/* A file and one of twice its bytes, every number of the same width in both: what the doubling costs. */
static void doubling(const char *name, struct text once, struct text twice)
{
    struct store s = header_room(once.count), d = header_room(twice.count);
    double a = reading(once, &s), b = reading(twice, &d), n = naive_reading(once, &s), m = naive_reading(twice, &d);
    printf("| %s | %.1f | %.1f | %.2f | %.1f | %.1f | %.2f |\n", name, 1e3 * a, 1e3 * b, b / a, 1e3 * n, 1e3 * m, m / n);
    give_back(&s);
    give_back(&d);
    fflush(stdout);
}

int main(int argc, char **argv)
{
    struct text file = flat(LIMIT);
    printf("Reading, MB/s; \"lean\" with the room that the file uses, \"safe\" with the room that the header gives for any file:\n\n"
           "| file | MB | entries | lean | safe | naive C | lean / naive, time | safe / naive, time | classify | lean / classify, time |\n"
           "|---|---|---|---|---|---|---|---|---|---|\n");
    readings("flat", file);
    if (argc > 1) {
        struct text layer = repeated(argv[1]);
        if (layer.count)
            readings("KiCad layer, repeated", layer);
        free(layer.at);
    }
    readings("strip panel", panel());
    printf("\nItems, ns for each:\n\n"
           "| file | entries | items | runs of 1,024 | runs of 65,536 | single call | naive C, reading and expanding | runs of 65,536 / naive |\n"
           "|---|---|---|---|---|---|---|---|\n");
    items("strip panel, depth 3", panel(), 20000);
    items("flat", file, 50);
    printf("\nWhat doubling costs, ms and ratio:\n\n"
           "| file | once | doubled | ratio | naive C, once | doubled | ratio |\n|---|---|---|---|---|---|---|\n");
    doubling("8 MB of draws", flat(LIMIT / 2), flat(LIMIT));
    doubling("100,000 selects over 5,000 apertures, then 200,000 over the same", selects(100000, 5000), selects(200000, 5000));
    doubling("100,000 selects over 5,000 apertures, then 200,000 over 10,000", selects(100000, 5000), selects(200000, 10000));
    doubling("100,000 TF", names(100000), names(200000));
    printf("\nMemory: %d bytes an entry, %d an aperture, %d a macro, 8 a number; %zu an item of a run.\n", SHEET_ENTRY_WORDS * 8,
           SHEET_APERTURE_WORDS * 8, SHEET_MACRO_WORDS * 8, sizeof(struct sheet_item));
    return sink == 1;
}
