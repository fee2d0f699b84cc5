/* What the slowest files of a size cost, for each command that can look at more than its own bytes, and what twice the size costs.
 *
 *   worst [KB]     the size of the smallest of three, 256 without it; the files of macros are a sixteenth of it, since they grow by squares
 */
#include "clock.h"
#include "store.h"
#include "texts.h"

/* As many TF of names of their own as so many bytes hold. */
static struct text names(size_t bytes)
{
    struct text t = {0};
    char line[64];
    say(&t, start);
    for (unsigned i = 0; t.count + 16 < bytes; i++)
        add(&t, line, (size_t)sprintf(line, "%%TF%x*%%", i + 0xa00000));
    say(&t, "M02*\n");
    return t;
}

/* Apertures for half of the bytes, selects of them for the other. */
static struct text selects(size_t bytes)
{
    struct text t = {0};
    char line[64];
    int apertures = 0;
    say(&t, start);
    while (t.count < bytes / 2)
        add(&t, line, (size_t)sprintf(line, "%%ADD%dC,1*%%", 1000000 + apertures++));
    while (t.count + 16 < bytes)
        add(&t, line, (size_t)sprintf(line, "D%d*", 1000000 + chance(apertures)));
    say(&t, "M02*\n");
    return t;
}

/* Blocks eight deep, one after the other: each opens and closes eight, and flashes the one inside it. */
static struct text blocks(size_t bytes)
{
    struct text t = {0};
    char line[64];
    int number = 1000;
    say(&t, start);
    while (t.count + 600 < bytes) {
        for (int i = 0; i < 8; i++)
            add(&t, line, (size_t)sprintf(line, "%%ABD%d*%%", number + i));
        say(&t, "D10*X0Y0D03*");
        for (int i = 7; i >= 0; i--)
            add(&t, line, (size_t)sprintf(line, "%%AB*%%D%d*X0Y0D03*", number + i));
        number += 8;
    }
    say(&t, "M02*\n");
    return t;
}

/* A macro for half of the bytes, and apertures by it for the other: of assignments alone, which keep no number. */
static struct text assignments(size_t bytes)
{
    struct text t = {0};
    char line[64];
    int number = 12;
    say(&t, start);
    say(&t, "%AMM*");
    while (t.count < bytes / 2)
        say(&t, "$1=1*");
    say(&t, "%");
    while (t.count + 16 < bytes)
        add(&t, line, (size_t)sprintf(line, "%%ADD%dM*%%", number++));
    say(&t, "M02*\n");
    return t;
}

/* Seconds of a reading in room for any file, the best of three. */
static double reading(struct text t)
{
    double best = 1e9;
    struct store s = lent((struct room){.entries = sheet_entries_for(t.count),
                                        .apertures = sheet_apertures_for(t.count),
                                        .macros = sheet_macros_for(t.count),
                                        .numbers = t.count});
    for (int i = 0; i < 3; i++) {
        double from = now();
        read_into(&s, newer, (const uint8_t *)t.at, t.count);
        double took = now() - from;
        if (s.number != SHEET_ACCEPTED)
            refuse("worst", s.number);
        best = took < best ? took : best;
    }
    give_back(&s);
    free(t.at);
    return best;
}

static void tell(const char *name, struct text (*made)(size_t), size_t bytes)
{
    double took[3];
    for (int i = 0; i < 3; i++)
        took[i] = reading(made(bytes << i));
    printf("| %s | %zu | %.2f | %.2f | %.2f | %.2f | %.2f |\n", name, bytes / 1024, 1e3 * took[0], 1e3 * took[1], took[1] / took[0],
           1e3 * took[2], took[2] / took[1]);
}

int main(int words, char **word)
{
    size_t bytes = (words > 1 ? (size_t)atoi(word[1]) : 256) * 1024;
    printf("| file | KB | ms | twice the size, ms | ratio | four times, ms | ratio |\n|---|---|---|---|---|---|---|\n");
    tell("draws", flat, bytes);
    tell("names set by TF", names, bytes);
    tell("selects over as many apertures", selects, bytes);
    tell("blocks eight deep", blocks, bytes);
    tell("apertures by a macro of assignments", assignments, bytes / 16);
    return 0;
}
