/* Times of looking up the apertures of 100,000 items over 5,000 apertures, in one run: every item's, as a host that keeps nothing asks, beside a
 * hash table in C from the number to the record. Each time is the best of five. */
#include <inttypes.h>
#include <stdio.h>
#include <time.h>

#include "store.h"
#include "texts.h"

enum { ROUNDS = 5, ITEMS = 100000, APERTURES = 5000, SLOTS = 16384 };

static double now(void)
{
    struct timespec t;
    clock_gettime(CLOCK_PROCESS_CPUTIME_ID, &t);
    return (double)t.tv_sec + 1e-9 * (double)t.tv_nsec;
}

static uint64_t asked[ITEMS], key[SLOTS], record_of[SLOTS];

static size_t slot(uint64_t number)
{
    size_t i = (number * 0x9E3779B97F4A7C15u) >> 50;
    while (key[i] && key[i] != number)
        i = (i + 1) % SLOTS;
    return i;
}

static uint64_t by_calls(const struct layer *l)
{
    struct sheet_shape shape;
    uint64_t sum = 0;
    for (size_t i = 0; i < ITEMS; i++) {
        if (layer_shape(l, asked[i], &shape) != SHEET_ACCEPTED)
            exit(1);
        sum += shape.number + shape.first;
    }
    return sum;
}

static uint64_t by_table(const struct layer *l)
{
    const struct store *s = &l->store;
    uint64_t sum = 0;
    for (uint64_t b = 0; b < APERTURES; b++) {
        size_t i = slot(s->apertures[b * SHEET_APERTURE_WORDS]);
        key[i] = s->apertures[b * SHEET_APERTURE_WORDS];
        record_of[i] = b;
    }
    for (size_t i = 0; i < ITEMS; i++) {
        const uint64_t *r = s->apertures + record_of[slot(asked[i])] * SHEET_APERTURE_WORDS;
        sum += r[0] + r[2];
    }
    memset(key, 0, sizeof key);
    return sum;
}

static double best(uint64_t (*look)(const struct layer *), const struct layer *l, uint64_t *sum)
{
    double least = 1e9;
    for (int i = 0; i < ROUNDS; i++) {
        double start = now();
        *sum = look(l);
        double took = now() - start;
        if (took < least)
            least = took;
    }
    return least;
}

int main(void)
{
    struct text t = {0};
    char line[64];
    uint64_t a, b;
    say(&t, "%FSLAX46Y46*%\n%MOMM*%\n");
    for (int i = 0; i < APERTURES; i++)
        add(&t, line, (size_t)sprintf(line, "%%ADD%dC,0.1*%%\n", 10000 + i));
    say(&t, "M02*\n");
    for (size_t i = 0; i < ITEMS; i++)
        asked[i] = 10000 + (uint64_t)chance(APERTURES);
    struct layer l = open_layer(SHEET_NEW_EDITION, SHEET_OLD_LETTERS, (const uint8_t *)t.at, t.count);
    if (l.store.number != SHEET_ACCEPTED)
        return 1;
    double calls = best(by_calls, &l, &a), table = best(by_table, &l, &b);
    if (a != b)
        return 1;
    printf("| apertures | items | by the call, ms | ns each | by a hash table, made and asked, ms | call / table |\n|---|---|---|---|---|---|\n");
    printf("| %d | %d | %.3f | %.0f | %.3f | %.1f |\n", APERTURES, ITEMS, 1e3 * calls, 1e9 * calls / ITEMS, 1e3 * table, calls / table);
    close_layer(&l);
    return 0;
}
