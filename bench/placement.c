/* Times of a placement list, in one run, beside a reading of the same file in the same room. Each time is the best of five. */
#include <inttypes.h>
#include <stdio.h>

#include "clock.h"
#include "store.h"
#include "texts.h"

/* So many components, each a main, four pins and an outline of four lines. */
static struct text components(int count)
{
    struct text t = {0};
    char line[256];
    say(&t, "%TF.FileFunction,Component,L1,Top*%\n%FSLAX46Y46*%\n%MOMM*%\nG01*\nG75*\n%TA.AperFunction,ComponentMain*%\n%ADD10C,0.3*%\n"
            "%TA.AperFunction,ComponentOutline,Body*%\n%ADD11C,0.1*%\n%TA.AperFunction,ComponentPin*%\n%ADD12C,0.2*%\n%TD*%\n");
    for (int i = 0; i < count; i++) {
        long x = chance(200000000), y = chance(200000000);
        add(&t, line, (size_t)sprintf(line, "D10*\n%%TO.C,R%d*%%\n%%TO.CRot,90*%%\n%%TO.CVal,4K7*%%\n%%TO.CFtp,R_0805*%%\n%%TO.CMnt,SMD*%%\nX%ldY%ldD03*\n", i, x, y));
        add(&t, line, (size_t)sprintf(line, "D11*\nX%ldY%ldD02*\nX%ldD01*\nY%ldD01*\nX%ldD01*\nY%ldD01*\nD12*\n", x, y, x + 1000000, y + 1000000, x, y));
        for (int k = 0; k < 4; k++)
            add(&t, line, (size_t)sprintf(line, "%%TO.P,R%d,%d*%%\nX%ldY%ldD03*\n", i, k + 1, x + k, y + k));
        say(&t, "%TD*%\n");
    }
    say(&t, "M02*\n");
    return t;
}

static double measure(const char *name, struct text t, double before)
{
    const uint8_t *file = (const uint8_t *)t.at;
    struct room r = {sheet_entries_for(t.count), 100, 1, 1000};
    struct store s = lent(r);
    size_t notes = sheet_notes_for(t.count) * SHEET_NOTE_WORDS, names = sheet_names_for(t.count) * SHEET_NAME_WORDS;
    size_t roles = sheet_roles_for(t.count) * SHEET_ROLE_WORDS, pins = t.count / 8 * SHEET_PIN_WORDS, room = 4 * t.count;
    uint64_t *a = lend(notes, 8), *b = lend(names, 8), *c = lend(roles, 8), *d = lend(pins, 8), number = 0, place, bytes = 0;
    uint8_t *list = lend(room, 1);
    double placing = 1e9, reading = 1e9;
    for (int i = 0; i < ROUNDS; i++) {
        double from = now();
        read_into(&s, newer, file, t.count);
        double took = now() - from;
        reading = took < reading ? took : reading;
        from = now();
        number = sheet_placement(newer.edition, newer.letters, file, t.count, s.head, s.entries, s.entries_words, s.apertures, s.apertures_words,
                                 s.macros, s.macros_words, s.numbers, s.numbers_count, a, notes, b, names, c, roles, d, pins, list, room,
                                 &place, &bytes);
        took = now() - from;
        placing = took < placing ? took : placing;
        if (number != SHEET_ACCEPTED || s.number != SHEET_ACCEPTED) {
            printf("%s: %" PRIu64 " at %" PRIu64 "\n", name, number, place);
            exit(1);
        }
    }
    printf("| %s | %.3g | %" PRIu64 " | %" PRIu64 " | %.1f | %.1f | %.2f |", name, 1e-6 * (double)t.count, s.head[SHEET_HEAD_TOTAL], bytes,
           1e3 * placing, 1e3 * reading, placing / reading);
    if (before > 0)
        printf(" %.2f |\n", placing / before);
    else
        printf(" |\n");
    give_back(&s);
    free(a);
    free(b);
    free(c);
    free(d);
    free(list);
    return placing;
}

int main(void)
{
    puts("| components | MB | items | bytes listed | the list, its reading among it, ms | a reading, ms | list / reading | to the row before |");
    puts("|---|---|---|---|---|---|---|---|");
    double before = 0;
    const int counts[] = {10000, 20000, 40000};
    for (int i = 0; i < 3; i++) {
        char name[32];
        sprintf(name, "%d", counts[i]);
        struct text t = components(counts[i]);
        before = measure(name, t, before);
        free(t.at);
    }
    return 0;
}
