/* The calls for a host, tried from C: widths, every number of either edition, zeros to the full length, damaged stores, items in any
 * order, rooms, many names, the short call. */
#include <inttypes.h>
#include <stddef.h>
#include <stdio.h>
#include <stdlib.h>
#include <string.h>
#include <sys/mman.h>
#include <unistd.h>

#include "../host/sheet.h"
#include "expect.h"

/* Words that end where the next page cannot be touched, so that a word past the end ends the program. */
static uint64_t *fenced(size_t words)
{
    size_t page = (size_t)sysconf(_SC_PAGESIZE), bytes = words * sizeof(uint64_t);
    size_t pages = (bytes + page - 1) / page + 1;
    uint8_t *p = mmap(NULL, (pages + 1) * page, PROT_READ | PROT_WRITE, MAP_PRIVATE | MAP_ANONYMOUS, -1, 0);
    if (p == MAP_FAILED || mprotect(p + pages * page, page, PROT_NONE) != 0) {
        printf("host: no memory\n");
        exit(1);
    }
    return (uint64_t *)(void *)(p + pages * page - bytes);
}

/* Rooms with guard words in front, since after them is a fence. */
enum { ENTRIES = 64, APERTURES = 32, MACROS = 16, NUMBERS = 200, GUARDS = 4, SLOTS = 3000 };
static const uint64_t garbage = UINT64_C(0xa5a5a5a5a5a5a5a5), guard = UINT64_C(0x5aff00ff00ff005a);

struct lent {
    uint64_t *head, *entries, *apertures, *macros, *numbers;
    size_t e, a, m, n;
    uint64_t number, place, unit, rounded;
};

static uint64_t *guarded(size_t words)
{
    uint64_t *p = fenced(words + GUARDS);
    for (size_t i = 0; i < GUARDS; i++)
        p[i] = guard;
    return p + GUARDS;
}

static int guards_hold(const uint64_t *p)
{
    for (size_t i = 1; i <= GUARDS; i++)
        if (p[-(ptrdiff_t)i] != guard)
            return 0;
    return 1;
}

static struct lent rooms(size_t e, size_t a, size_t m, size_t n)
{
    struct lent l = {guarded(SHEET_HEAD_WORDS), guarded(e), guarded(a), guarded(m), guarded(n), e, a, m, n, 0, 0, 0, 0};
    return l;
}

static void soil(uint64_t *p, size_t words)
{
    for (size_t i = 0; i < words; i++)
        p[i] = garbage;
}

static void soil_all(struct lent *l)
{
    soil(l->head, SHEET_HEAD_WORDS);
    soil(l->entries, l->e);
    soil(l->apertures, l->a);
    soil(l->macros, l->m);
    soil(l->numbers, l->n);
    l->place = l->unit = l->rounded = garbage;
}

static void all_guards_hold(const struct lent *l)
{
    expect(guards_hold(l->head) && guards_hold(l->entries) && guards_hold(l->apertures) && guards_hold(l->macros) &&
               guards_hold(l->numbers),
           "a guard word was written", l->number);
}

/* A reading by an edition and a rule of letters with so many words of each room. The rooms end at their fences, so the words lent are
 * their last ones. */
static void read_by(uint64_t edition, uint64_t letters, struct lent *l, const uint8_t *file, size_t bytes)
{
    soil_all(l);
    l->number = sheet_read_as(edition, letters, file, bytes, l->head, l->entries, l->e, l->apertures, l->a, l->macros, l->m,
                              (int64_t *)(void *)l->numbers, l->n, &l->place, &l->unit, &l->rounded);
    all_guards_hold(l);
}

/* The same by the short call, which names no edition: for its own test alone. */
static void read_short(uint64_t letters, struct lent *l, const uint8_t *file, size_t bytes)
{
    soil_all(l);
    l->number = sheet_read(letters, file, bytes, l->head, l->entries, l->e, l->apertures, l->a, l->macros, l->m,
                           (int64_t *)(void *)l->numbers, l->n, &l->place, &l->unit, &l->rounded);
    all_guards_hold(l);
}

static void read_with(struct lent *l, const uint8_t *file, size_t bytes)
{
    read_by(SHEET_NEW_EDITION, SHEET_OLD_LETTERS, l, file, bytes);
}

static int zeros(const uint64_t *p, size_t from, size_t to)
{
    for (size_t i = from; i < to; i++)
        if (p[i] != 0)
            return 0;
    return 1;
}

static int all_zeros(const struct lent *l)
{
    return zeros(l->head, 0, SHEET_HEAD_WORDS) && zeros(l->entries, 0, l->e) && zeros(l->apertures, 0, l->a) &&
           zeros(l->macros, 0, l->m) && zeros(l->numbers, 0, l->n);
}

static uint64_t items_at(const struct lent *l, uint64_t k, uint64_t *out, size_t words)
{
    return sheet_items(l->head, l->entries, l->e, l->apertures, l->a, k, out, words);
}

static uint64_t item_at(const struct lent *l, uint64_t k, uint64_t *out)
{
    return sheet_item(l->head, l->entries, l->e, l->apertures, l->a, k, out);
}

static uint64_t total_of(const struct lent *l, uint64_t *total)
{
    return sheet_total(l->head, l->entries, l->e, l->apertures, l->a, total);
}

/* Every number of a reading: the file, the number, the place. */
#define FS "%FSLAX36Y36*%"
#define MO "%MOMM*%"
#define PEN FS MO "%ADD10C,1*%D10*G01*"
#define BLOCKS "%ABD10*%%ABD11*%%ABD12*%%ABD13*%%ABD14*%%ABD15*%%ABD16*%%ABD17*%"
struct refusal {
    const char *file;
    uint64_t number, place;
};
static const struct refusal refusals[] = {
    {"G04 \x80*M02*", 2, 4},
    {"", 3, 0},
    {FS MO, 3, 20},
    {"G01", 3, 3},
    {"D9*", 4, 0},
    {FS MO "G74*M02*", 4, 20},
    {FS MO "D2147483648*M02*", 5, 20},
    {FS FS MO "M02*", 6, 13},
    {"G01*M02*", 6, 4},
    {FS MO "G37*M02*", 7, 20},
    {FS MO "D10*M02*", 8, 20},
    {FS MO "%AMa*1,1,1/0,0,0*%%ADD10a*%M02*", 9, 38},
    {FS MO "%ADD10R,0X1*%M02*", 10, 20},
    {FS MO "X0Y0D03*M02*", 11, 20},
    {PEN "G75*G02*X0Y0D02*X2Y0I0J0D01*M02*", 12, 55},
    {FS MO "G01*G36*X0Y0D02*X1Y0D01*G37*M02*", 13, 44},
    {FS MO "%ABD10*%%AB*%D10*%LS2*%X0Y0D03*M02*", 14, 43},
    {FS MO BLOCKS "%ABD18*%M02*", 15, 84},
    {FS MO "M02*\nG04*", 18, 25},
    {FS MO "%TFa*%%TFa*%M02*", 19, 26},
    {FS MO "G01*X0Y0D02*G36*D01*G37*M02*", 29, 36},
};

/* Those of the old edition, which has 30 and 31 and no 29; tests/films has more of them. */
#define FILM "%FSLAX24Y24*%G70*%ADD10C,.1*%G54D10*"
static const struct refusal old_refusals[] = {
    {"G4 \x80*M2*", 2, 3},
    {"", 3, 0},
    {FILM "M2", 3, 38},
    {FILM "G54*M2*", 4, 36},
    {FILM "X1234567Y0D2*M2*", 5, 36},
    {"%FSLAX24Y24*%M2*", 6, 13},
    {FILM "G36*M0*M2*", 7, 40},
    {FILM "G54D11*M2*", 8, 36},
    {FILM "%AMa*1,1,1/0,0,0*%%ADD12a*%M2*", 9, 54},
    {FILM "%ADD11R,0X1*%M2*", 10, 36},
    {FILM "X0Y0D2*G2X1Y1I-1J0D1*M2*", 11, 43},
    {FILM "X0Y0D2*G75*G2X2Y0I0J0D1*M2*", 12, 47},
    {FILM "G36X0Y0D2*G1X1Y0D1*G37*M2*", 13, 55},
    {FILM "%ABD11*%%AB*%D11*%LS2*%X0Y0D3*M2*", 14, 59},
    {FS MO BLOCKS "%ABD18*%M2*", 15, 84},
    {FILM "M2*\nG4*", 18, 40},
    {FILM "%TFa*%%TFa*%M2*", 19, 42},
    {"%FSLAX77Y77*%M2*", SHEET_UNREAD, 0},
    {FILM "%IPPOS*%M2*", SHEET_UNREAD, 36},
    {FILM "X0Y0D2*G2X2Y0I1J0D1*M2*", SHEET_QUADRANT, 43},
    {FILM "X0Y0D2*G2X2Y20I101J1D1*M2*", SHEET_QUADRANT, 43},
};

static void refused_by(uint64_t edition, struct lent *l, const struct refusal *r, size_t count)
{
    for (; count > 0; count--, r++) {
        read_by(edition, SHEET_OLD_LETTERS, l, (const uint8_t *)r->file, strlen(r->file));
        expect(l->number == r->number, "another number is due", r->number);
        expect(l->place == r->place, "another place is due", r->number);
        expect(l->unit == SHEET_NO_UNIT && l->rounded == 0 && all_zeros(l), "a refusal leaves something", r->number);
    }
}

static void every_refusal(void)
{
    struct lent l = rooms(ENTRIES * 15 + 7, APERTURES * 8 + 3, MACROS * 8 + 5, NUMBERS);
    refused_by(SHEET_NEW_EDITION, &l, refusals, sizeof refusals / sizeof refusals[0]);
    refused_by(SHEET_OLD_EDITION, &l, old_refusals, sizeof old_refusals / sizeof old_refusals[0]);
    uint8_t *large = malloc(SHEET_FILE_LIMIT + 1);
    if (!large)
        exit(1);
    memset(large, '\n', SHEET_FILE_LIMIT + 1);
    read_with(&l, large, SHEET_FILE_LIMIT + 1);
    expect(l.number == SHEET_TOO_LONG && l.place == 0 && l.unit == 0 && all_zeros(&l), "a byte too many is 1 at 0", l.number);
    read_with(&l, large, SHEET_FILE_LIMIT);
    expect(l.number == SHEET_ENDS && l.place == SHEET_FILE_LIMIT && all_zeros(&l), "the greatest length is read", l.number);
    free(large);
}

/* Eight blocks, one of ten flashes in another ten times and so on, are past 10^12 items with the last flash. */
static void too_many_items(void)
{
    struct lent l = rooms(200 * 15, 40 * 8, 0, 10);
    char file[8192] = FS MO "%ADD10C,1*%";
    char last[32];
    for (int b = 11; b <= 18; b++) {
        sprintf(file + strlen(file), "%%ABD%d*%%D%d*", b, b - 1);
        for (int i = 0; i < 10; i++)
            strcat(file, "X0Y0D03*");
        strcat(file, "%AB*%");
    }
    strcat(file, "%SRX100Y100I0J0*%D18*X0Y0D03*");
    size_t place = strlen(file);
    sprintf(last, "D10*X0Y0D03*%%SR*%%M02*");
    strcat(file, last);
    read_with(&l, (const uint8_t *)file, strlen(file));
    expect(l.number == SHEET_ITEMS && l.place == place + 4 && all_zeros(&l), "10^12 items and one more are 16", l.place);
}

/* A layer with everything that a store can hold: blocks in blocks, flipped, turned and clear; a repeat; a contour; a macro; arcs. */
static const char layer[] =
    FS MO "%TF.A,1*%%TAa,v*%%AMm*1,1,$1,0,0*21,1,1,2,0,0,45*%%ADD10C,0.5*%%ADD20m,2*%%TD*%%ADD21R,1X2*%\n"
    "G01*G75*%TOo,w*%%ABD11*%D10*X0Y0D02*X1000000Y0D01*X0Y2000000D03*G02*X5Y5I7J0D01*G01*%AB*%\n"
    "%ABD12*%D11*X10Y20D03*%LMX*%%LPC*%X30Y40D03*%LMN*%%LPD*%%LR90*%X50Y60D03*%LR0*%\n"
    "G36*X0Y0D02*X9Y0D01*X9Y9D01*X0Y0D01*G37*%AB*%\n"
    "D12*%LMXY*%X100Y200D03*%LMN*%%SRX3Y2I3.0J0.5*%D20*%LR30*%X1Y1D03*%LR0*%D12*%LPC*%X7Y8D03*%LPD*%\n"
    "G36*X0Y0D02*G03*X0Y0I4J0D01*G37*G01*%SR*%\nD10*X1Y2D02*X3Y4D01*M02*\n";

static struct lent read_layer(void)
{
    struct lent l = rooms(ENTRIES * 15, APERTURES * 8, MACROS * 8, NUMBERS);
    read_with(&l, (const uint8_t *)layer, strlen(layer));
    expect(l.number == SHEET_ACCEPTED && l.place == 0 && l.unit == SHEET_MM, "the layer is accepted", l.number * 1000 + l.place);
    expect(l.rounded == 0, "a short decimal is rounded", l.rounded);
    expect(zeros(l.entries, l.head[2] * 15, l.e) && zeros(l.apertures, l.head[3] * 8, l.a) && zeros(l.macros, l.head[4] * 8, l.m) &&
               zeros(l.numbers, l.head[5], l.n),
           "unused room is zero", 0);
    return l;
}

/* Decimals of more than six digits after the point, each counted once: three in the AM, however many AD take it, two in the AD, one each
 * in SR, LR and LS; none for the code, for `$1`, in the comment, in the macro's name or for zeros at the end. */
static void rounded_decimals(void)
{
    static const char file[] =
        FS MO "%AMm.1234567*0 0.1234567*$1=$1+0.1234567x2.00000000*1,1,0.0000005,\n0,0.1000000001*%"
        "%ADD10m.1234567,1*%%ADD11m.1234567,-0.1234567*%%ADD12C,1.0000001*%%SRX2Y1I0.12345678J1*%%SR*%%LR-89.9999999*%%LS0.9999995*%M02*";
    struct lent l = rooms(ENTRIES * 15, APERTURES * 8, MACROS * 8, NUMBERS);
    read_with(&l, (const uint8_t *)file, strlen(file));
    expect(l.number == SHEET_ACCEPTED && l.rounded == 8, "eight decimals are rounded", l.number * 1000 + l.rounded);
}

/* Rooms exactly right, and each one too small: 17, whole records counted. */
static void exact_rooms(const struct lent *known)
{
    const uint64_t *h = known->head;
    size_t need[4] = {h[2] * 15, h[3] * 8, h[4] * 8, h[5]};
    struct lent l = rooms(need[0], need[1], need[2], need[3]);
    read_with(&l, (const uint8_t *)layer, strlen(layer));
    expect(l.number == 0 && memcmp(l.head, h, 64) == 0, "the exact room is enough", l.number);
    expect(memcmp(l.entries, known->entries, need[0] * 8) == 0, "in the exact room the entries are the same", 0);
    for (int i = 0; i < 4; i++) {
        size_t less[4] = {need[0], need[1], need[2], need[3]};
        less[i]--;
        l = rooms(less[0], less[1], less[2], less[3]);
        read_with(&l, (const uint8_t *)layer, strlen(layer));
        expect(l.number == SHEET_ROOM && all_zeros(&l), "a room one too small is 17", (uint64_t)i);
    }
}

/* The items of a sheet one by one in a random order, and in runs, against one run of all. */
static void any_order(const struct lent *l)
{
    uint64_t total = garbage, one[SHEET_ITEM_WORDS + 2], state = 88172645463325252u;
    uint64_t *all = guarded(SLOTS * SHEET_ITEM_WORDS), *some = guarded(100 * SHEET_ITEM_WORDS);
    expect(total_of(l, &total) == 0 && total == l->head[7] && total > 40 && total < SLOTS, "the total is the head's", total);
    expect(items_at(l, 0, all, total * SHEET_ITEM_WORDS) == 0, "all items are answered", 0);
    for (int i = 0; i < 2000; i++) {
        state ^= state << 13, state ^= state >> 7, state ^= state << 17;
        uint64_t k = state % total, n = state / total % 90 + 1;
        soil(one, SHEET_ITEM_WORDS + 2);
        expect(item_at(l, k, one) == 0 && one[15] == garbage, "an item, and nothing after it", k);
        expect(memcmp(one, all + k * 15, 120) == 0, "an item is that of the run", k);
        uint64_t here = n < total - k ? n : total - k;
        soil(some, 100 * SHEET_ITEM_WORDS);
        expect(items_at(l, k, some, n * 15 + 5) == 0 && memcmp(some, all + k * 15, here * 120) == 0, "a run is that of the whole", k);
        expect(zeros(some, here * 15, n * 15 + 5) && some[n * 15 + 5] == garbage, "past the total a run is zeros", k);
    }
    soil(one, 17);
    expect(item_at(l, total, one) == SHEET_PAST && zeros(one, 0, 15) && one[15] == garbage, "an item past the total", total);
    expect(items_at(l, UINT64_MAX, some, 30) == SHEET_PAST && zeros(some, 0, 30), "a run past the total", total);
    soil(one, 17);
    expect(items_at(l, 0, one, 0) == 0 && one[0] == garbage, "no words for a run", 0);
    expect(items_at(l, 0, one, 14) == 0 && zeros(one, 0, 14) && one[14] == garbage, "words too short for an item", 14);
    soil(one, 17);
    expect(items_at(l, total, one, 14) == SHEET_PAST && zeros(one, 0, 14), "too short, and past the total", 14);
    soil(one, 17);
    expect(sheet_items(l->head, l->entries, 0, l->apertures, l->a, 0, one, 14) == SHEET_NOT_SHEET && zeros(one, 0, 14),
           "too short, and no sheet", 14);
}

/* The items that a store's own words put out, as docs/SHEET.md has it: each container entry by entry, copies written out. */
struct put {
    struct sheet_item items[SLOTS];
    size_t count;
};
struct pose {
    int flip, clear;
    uint64_t angle;
    int64_t x, y;
};

static void turn(int64_t *x, int64_t *y, int used, struct pose p)
{
    int64_t a = p.flip ? -*x : *x, b = *y, t;
    if (!used)
        return;
    for (uint64_t q = 0; q < p.angle / 90000000; q++)
        t = a, a = -b, b = t;
    *x = a + p.x, *y = b + p.y;
}

static struct sheet_item placed(struct sheet_item t, struct pose p)
{
    int arc = t.kind == 2 || t.kind == 3 || t.kind == 7 || t.kind == 8, region = t.kind >= 5;
    turn(&t.start_x, &t.start_y, t.kind != 4, p);
    turn(&t.end_x, &t.end_y, t.kind != 5, p);
    turn(&t.centre_x, &t.centre_y, arc, p);
    if (p.flip && arc)
        t.kind = t.kind == 2 ? 3 : t.kind == 3 ? 2 : t.kind == 7 ? 8 : 7;
    t.clear ^= (uint64_t)p.clear;
    if (!region) {
        t.angle = (p.flip ? p.angle + 360000000 - t.angle : p.angle + t.angle) % 360000000;
        t.flip ^= (uint64_t)p.flip;
    }
    return t;
}

static void put_out(struct put *out, const struct lent *l, uint64_t first, uint64_t count)
{
    for (uint64_t i = first; i < first + count; i++) {
        const uint64_t *w = l->entries + i * 15;
        size_t from = out->count;
        if (w[0] <= 8 && out->count < SLOTS) {
            struct sheet_item t = {w[0], w[2], w[3], w[4], w[5], w[6], (int64_t)w[7], (int64_t)w[8], (int64_t)w[9], (int64_t)w[10],
                                   (int64_t)w[11], (int64_t)w[12], w[13], w[14], w[14]};
            out->items[out->count++] = t;
        } else if (w[0] == 9) {
            const uint64_t *a = l->apertures + w[2] * 8;
            struct pose p = {(int)w[4], (int)w[3], w[5], (int64_t)w[9], (int64_t)w[10]};
            put_out(out, l, a[2], a[3]);
            for (size_t j = from; j < out->count; j++)
                out->items[j] = placed(out->items[j], p), out->items[j].outer = w[14];
        } else if (w[0] == 10) {
            for (uint64_t x = 0; x < w[7]; x++)
                for (uint64_t y = 0; y < w[8] && out->count < SLOTS; y++) {
                    struct pose p = {0, 0, 0, (int64_t)(x * w[11]), (int64_t)(y * w[12])};
                    size_t body = out->count;
                    put_out(out, l, w[2], w[6]);
                    for (size_t j = body; j < out->count; j++)
                        out->items[j] = placed(out->items[j], p);
                }
        }
    }
}

/* The row of the items with an aperture's number, or of contours and edges, by a pass over the items. */
static struct sheet_row pass(const struct put *out, int regions, uint64_t aperture)
{
    struct sheet_row r = {0, 0, 0, 0, 0};
    int some = 0;
    for (size_t i = 0; i < out->count; i++) {
        const struct sheet_item *t = &out->items[i];
        int64_t points[2][2] = {{t->start_x, t->start_y}, {t->end_x, t->end_y}};
        if (regions ? t->kind <= 4 : t->kind > 4 || t->aperture != aperture)
            continue;
        r.count++;
        for (int p = t->kind == 4 ? 1 : 0; p < (t->kind == 5 ? 0 : 2); p++, some = 1) {
            int64_t x = points[p][0], y = points[p][1];
            r.least_x = some && r.least_x < x ? r.least_x : x;
            r.least_y = some && r.least_y < y ? r.least_y : y;
            r.greatest_x = some && r.greatest_x > x ? r.greatest_x : x;
            r.greatest_y = some && r.greatest_y > y ? r.greatest_y : y;
        }
    }
    return r;
}

static uint64_t summary_of(const struct lent *l, uint64_t *scratch, size_t scratch_words, uint64_t *rows, size_t rows_words)
{
    soil(scratch, scratch_words);
    soil(rows, rows_words);
    return sheet_summary(l->head, l->entries, l->e, l->apertures, l->a, scratch, scratch_words, rows, rows_words);
}

enum { ROWS = (APERTURES + 2) * SHEET_ROW_WORDS + 2, SCRATCH = APERTURES * SHEET_SCRATCH_WORDS };

/* The summary of a store: 21 and zeros, or the rows of a pass over its expansion, and zeros after them. */
static void summed(const struct lent *l, const struct put *out)
{
    static uint64_t *scratch, *rows;
    if (!rows)
        scratch = guarded(SCRATCH), rows = guarded(ROWS);
    uint64_t number = summary_of(l, scratch, SCRATCH, rows, ROWS), n = l->head[3];
    expect(guards_hold(scratch) && guards_hold(rows), "a guard word was written", number);
    if (!out) {
        expect(number == SHEET_NOT_SHEET && zeros(rows, 0, ROWS), "a summary of no sheet is zeros", number);
        return;
    }
    expect(number == 0, "a sheet has its summary", number);
    for (uint64_t b = 0; b <= n; b++) {
        struct sheet_row r = pass(out, b == n, b < n ? l->apertures[b * 8] : 0);
        expect(memcmp(rows + b * SHEET_ROW_WORDS, &r, sizeof r) == 0, "a row is that of a pass over the items", b);
    }
    expect(zeros(rows, (n + 1) * SHEET_ROW_WORDS, ROWS), "spare rows are zeros", n);
}

/* A store as it stands: 21 and zeros in all calls, or its own expansion in all. */
static int answered(const struct lent *l, uint64_t *run, struct put *out)
{
    uint64_t total = garbage, number = total_of(l, &total), one[15];
    size_t words = SLOTS * SHEET_ITEM_WORDS;
    soil(run, words);
    soil(one, 15);
    if (number == SHEET_NOT_SHEET) {
        expect(total == 0, "a total of no sheet is 0", total);
        expect(items_at(l, 0, run, words) == SHEET_NOT_SHEET && zeros(run, 0, words), "a run of no sheet is zeros", 0);
        expect(item_at(l, 0, one) == SHEET_NOT_SHEET && zeros(one, 0, 15), "an item of no sheet is zeros", 0);
        summed(l, NULL);
        return 0;
    }
    expect(number == 0, "a store is a sheet or is 21", number);
    expect(items_at(l, 0, run, words) == (total ? 0 : SHEET_PAST), "a sheet has its items", total);
    out->count = 0;
    put_out(out, l, l->head[2] - l->head[6], l->head[6]);
    expect(out->count == (total < SLOTS ? total : SLOTS), "the total is that of the expansion", total);
    expect(memcmp(run, out->items, out->count * 120) == 0, "the items are those of the expansion", total);
    expect(item_at(l, total, one) == SHEET_PAST && zeros(one, 0, 15), "past the total", total);
    if (total != 0)
        expect(item_at(l, total - 1, one) == 0 && one[0] >= 1 && one[0] <= 8, "the last item", total);
    if (total < SLOTS)
        summed(l, out);
    return 1;
}

static void damaged(struct lent *l)
{
    static struct put out;
    uint64_t *run = guarded(SLOTS * SHEET_ITEM_WORDS);
    uint64_t *stores[3] = {l->head, l->entries, l->apertures};
    size_t words[3] = {8, l->head[2] * 15, l->head[3] * 8};
    unsigned sheets = 0, none = 0;
    expect(answered(l, run, &out), "the layer's store is a sheet", 0);
    for (int s = 0; s < 3; s++)
        for (size_t i = 0; i < words[s]; i++) {
            uint64_t was = stores[s][i];
            uint64_t now[] = {~was, was ^ 1, was + 1, was - 1, was ^ UINT64_C(0x8000000000000000), 0, 9, 10, UINT64_C(2000000000001)};
            for (size_t j = 0; j < sizeof now / sizeof now[0]; j++) {
                stores[s][i] = now[j];
                if (answered(l, run, &out))
                    sheets++;
                else
                    none++;
            }
            stores[s][i] = was;
        }
    struct lent short_store = *l;
    short_store.e = l->head[2] * 15 - 1;
    expect(!answered(&short_store, run, &out), "entries past the room are no sheet", 0);
    printf("host: %u damaged stores are sheets of their own, %u are none\n", sheets, none);
}

/* The layer's addresses, worked out from its text: of its block 12, three flashes of block 11 (three items each), a contour and its three
 * edges; at the top level a flash of block 12, six copies of a flash, a flash of block 12, a contour and its edge, and a line. */
static void addresses(const struct lent *l)
{
    static const uint64_t known[][1 + SHEET_ADDRESS_WORDS] = {
        {0, 0, 1, 1, 1}, {4, 0, 1, 2, 2}, {9, 0, 1, 4}, {12, 0, 1, 7}, {13, 1, 2}, {14, 1, 3, 1, 1},
        {27, 1, 4},      {28, 1, 5},      {29, 2, 2},   {108, 6, 5},   {109, 0, 6},
    };
    static const uint64_t nothing[][SHEET_ADDRESS_WORDS] = {
        {0},          {0, 1},    {0, 1, 8}, {0, 1, 4, 1}, {0, 1, 1, 4}, {0, 2}, {1, 1, 1, 1}, {7, 2},
        {1, 2, 0, 1}, {0, 6, 1}, {0, 7},    {1, 6},       {0, UINT64_MAX},  {UINT64_MAX, 2},
    };
    uint64_t w[SHEET_ADDRESS_WORDS + 1] = {0}, k, total = l->head[7];
    w[SHEET_ADDRESS_WORDS] = garbage;
    expect(total == 110, "the layer has 110 items", total);
    for (size_t i = 0; i < sizeof known / sizeof known[0]; i++) {
        expect(sheet_address(l->head, l->entries, l->e, l->apertures, l->a, known[i][0], w) == 0, "an item has an address", known[i][0]);
        expect(memcmp(w, known[i] + 1, SHEET_ADDRESS_WORDS * 8) == 0, "an address is that of the text", known[i][0]);
    }
    for (uint64_t n = 0; n < total; n++) {
        soil(w, SHEET_ADDRESS_WORDS);
        expect(sheet_address(l->head, l->entries, l->e, l->apertures, l->a, n, w) == 0, "every item has an address", n);
        expect(sheet_item_number(l->head, l->entries, l->e, l->apertures, l->a, w, &k) == 0 && k == n, "and comes back from it", n);
    }
    for (size_t i = 0; i < sizeof nothing / sizeof nothing[0]; i++)
        expect(sheet_item_number(l->head, l->entries, l->e, l->apertures, l->a, nothing[i], &k) == SHEET_NO_ADDRESS && k == 0,
               "an address that names nothing is 32", i);
    soil(w, SHEET_ADDRESS_WORDS);
    expect(sheet_address(l->head, l->entries, l->e, l->apertures, l->a, total, w) == SHEET_PAST && zeros(w, 0, SHEET_ADDRESS_WORDS),
           "the total has no address", total);
    soil(w, SHEET_ADDRESS_WORDS);
    expect(sheet_address(l->head, l->entries, 0, l->apertures, l->a, 0, w) == SHEET_NOT_SHEET && zeros(w, 0, SHEET_ADDRESS_WORDS),
           "no sheet, no address", 0);
    k = garbage;
    expect(sheet_item_number(l->head, l->entries, 0, l->apertures, l->a, w, &k) == SHEET_NOT_SHEET && k == 0, "no sheet, no item", k);
    expect(w[SHEET_ADDRESS_WORDS] == garbage, "nothing is written after an address", 0);
}

/* The layer's summary with exactly the room that it asks for, and with each room one word too small: 17, and zeros. */
static void summaries(const struct lent *l)
{
    size_t n = (size_t)l->head[3], room = sheet_rows_for(n) * SHEET_ROW_WORDS, words = sheet_scratch_for(n);
    uint64_t *scratch = guarded(words), *rows = guarded(room), *less = guarded(room - 1), count = 0;
    expect(summary_of(l, scratch, words, rows, room) == 0, "the room that is asked for is enough", n);
    for (size_t b = 0; b <= n; b++) {
        count += rows[b * SHEET_ROW_WORDS];
        expect(b == n || l->apertures[b * 8 + 1] != 6 || zeros(rows, b * SHEET_ROW_WORDS, (b + 1) * SHEET_ROW_WORDS),
               "a block's row is zeros", b);
    }
    expect(count == l->head[7], "the counts add up to the total", count);
    expect(summary_of(l, scratch, words, less, room - 1) == SHEET_ROOM && zeros(less, 0, room - 1), "rows one word too few are 17", n);
    expect(summary_of(l, scratch + 1, words - 1, rows, room) == SHEET_ROOM && zeros(rows, 0, room), "scratch one word too small is 17", n);
    expect(summary_of(l, scratch, words, rows, 0) == SHEET_ROOM && summary_of(l, scratch, 0, rows, room) == SHEET_ROOM, "no room is 17", n);
    expect(sheet_summary(l->head, l->entries, 0, l->apertures, l->a, scratch, 0, rows, 0) == SHEET_NOT_SHEET, "21 comes before 17", n);
}

static void ask_by(uint64_t edition, int of_aperture, const char *file, size_t place, const char *name, uint64_t number, uint64_t at,
                   uint64_t bytes)
{
    uint64_t a = garbage, b = garbage, n;
    const uint8_t *f = (const uint8_t *)file, *t = (const uint8_t *)name;
    if (of_aperture)
        n = sheet_aperture_attribute(edition, SHEET_OLD_LETTERS, f, strlen(file), place, t, strlen(name), &a, &b);
    else
        n = sheet_object_attribute(edition, SHEET_OLD_LETTERS, f, strlen(file), place, t, strlen(name), &a, &b);
    expect(n == number && a == at && b == bytes, "an attribute's answer", number);
}

static void ask(int of_aperture, const char *file, size_t place, const char *name, uint64_t number, uint64_t at, uint64_t bytes)
{
    ask_by(SHEET_NEW_EDITION, of_aperture, file, place, name, number, at, bytes);
}

static void attributes(void)
{
    size_t ad = (size_t)(strstr(layer, "%ADD10") - layer), ta = (size_t)(strstr(layer, "a,v*") - layer) + 2;
    size_t other = (size_t)(strstr(layer, "%ADD21") - layer), to = (size_t)(strstr(layer, "o,w*") - layer) + 2;
    size_t d01 = (size_t)(strstr(layer, "X1000000Y0D01*") - layer);
    ask(1, layer, ad, "a", 0, ta, 1);
    ask(1, layer, other, "a", SHEET_NOT_HELD, 0, 0);
    ask(1, layer, ad, "b", SHEET_NOT_HELD, 0, 0);
    ask(0, layer, d01, "o", 0, to, 1);
    ask(0, layer, d01 + 1, "o", SHEET_NO_COMMAND, 0, 0);
    ask(0, layer, SIZE_MAX, "o", SHEET_NO_COMMAND, 0, 0);
    ask(0, "G04 \x80*M02*", 0, "o", SHEET_BYTE, 0, 0);
    ask(0, "", 0, "", SHEET_ENDS, 0, 0);
    ask(0, "D9*M02*", 0, "o", SHEET_FORM, 0, 0);
    ask(0, "M02*x", 0, "o", SHEET_AFTER_END, 0, 0);
}

/* The two rules of letters, by either edition. */
static const char letters_file[] = "%FSLAX26Y26*%%MOMM*%G04 \303\251*%TO.C,\342\202\254*%X0Y0D02*M02*";

static void letters(uint64_t edition)
{
    const uint8_t *f = (const uint8_t *)letters_file;
    size_t bytes = sizeof letters_file - 1;
    uint64_t at, count, place;
    uint8_t digest[SHEET_DIGEST_BYTES];
    struct lent l = rooms(30, 16, 16, 4);
    read_by(edition, SHEET_OLD_LETTERS, &l, f, bytes);
    expect(l.number == SHEET_BYTE && l.place == 24 && all_zeros(&l), "a letter is 2 under the old rule", l.place);
    read_by(edition, SHEET_NEW_LETTERS, &l, f, bytes);
    expect(l.number == SHEET_ACCEPTED && l.unit == SHEET_MM, "and stands under the new one", l.number);
    expect(sheet_object_attribute(edition, SHEET_NEW_LETTERS, f, bytes, 38, (const uint8_t *)".C", 2, &at, &count) == 0 && at == 33 &&
               count == 3,
           "a value of three bytes", at);
    expect(sheet_signature(edition, SHEET_NEW_LETTERS, f, bytes, &place, digest) == SHEET_UNSIGNED && place == bytes - 4, "no signature",
           place);
}

/* Numbers of which one names no edition or no rule of letters: 101 from every call, before all else, and zeros in all that is lent.
 * tests/mending.c has the call that mends. */
static void no_book(uint64_t edition, uint64_t rule)
{
    const uint8_t *f = (const uint8_t *)letters_file;
    size_t bytes = sizeof letters_file - 1;
    uint64_t at = garbage, count = garbage, place = garbage, of = edition != 1 && edition != 2 ? edition : rule;
    uint8_t digest[SHEET_DIGEST_BYTES], zero[SHEET_DIGEST_BYTES] = {0};
    struct lent l = rooms(30, 16, 16, 4);
    memset(digest, 165, sizeof digest);
    read_by(edition, rule, &l, f, bytes);
    expect(l.number == SHEET_NO_BOOK && l.place == 0 && l.unit == 0 && l.rounded == 0 && all_zeros(&l), "no book, no reading", of);
    expect(sheet_object_attribute(edition, rule, f, bytes, 38, f, 1, &at, &count) == SHEET_NO_BOOK && at == 0 && count == 0, "nor a TO", of);
    at = count = garbage;
    expect(sheet_aperture_attribute(edition, rule, f, bytes, 38, f, 1, &at, &count) == SHEET_NO_BOOK && at == 0 && count == 0, "nor a TA", of);
    expect(sheet_signature(edition, rule, f, bytes, &place, digest) == SHEET_NO_BOOK && place == 0 && memcmp(digest, zero, sizeof zero) == 0,
           "nor a signature", of);
}

static void no_books(void)
{
    static const uint64_t none[] = {0, 3, 100, 101, UINT64_C(0x100000001), UINT64_MAX};
    for (size_t i = 0; i < sizeof none / sizeof none[0]; i++) {
        for (uint64_t known = 1; known <= 2; known++) {
            no_book(none[i], known);
            no_book(known, none[i]);
        }
        no_book(none[i], none[i]);
    }
}

/* A film in the old manner, its items worked out by hand: trailing zeros left out of four digits, so that `1` is 10 inches; steps from
 * point to point; a line by a rectangle; an arc of 90 degrees clockwise about (20, 10), whose I and J have no signs; its start as its end,
 * which is a line; a region whose contour starts where the arc ended. */
static const char film[] = "%FSTIX22Y22*%G70*%ADD10R,1X1*%%ADD11C,1*%G54D10*G1X1Y1D2*X0001D1*X-0001D2*D11*G2X1Y1I1J0D1*X0Y0I1J0D1*\n"
                           "G1*G36D1*G37*M2*";

static void films(void)
{
    static const int64_t inch = 1000000;
    const uint8_t *f = (const uint8_t *)film;
    size_t bytes = sizeof film - 1;
    struct lent l = rooms(5 * SHEET_ENTRY_WORDS, 2 * SHEET_APERTURE_WORDS, 0, 3);
    struct sheet_item items[6], want[6];
    memset(want, 0, sizeof want);
    read_by(SHEET_OLD_EDITION, SHEET_OLD_LETTERS, &l, f, bytes);
    expect(l.number == SHEET_ACCEPTED && l.place == 0 && l.unit == SHEET_INCH && l.rounded == 0, "the film is accepted",
           l.number * 1000 + l.place);
    expect(l.head[SHEET_HEAD_ENTRIES] == 5 && l.head[SHEET_HEAD_TOTAL] == 5, "it has five items", l.head[SHEET_HEAD_TOTAL]);
    static const char *const at[] = {"X0001D1*", "G2X1", "X0Y0I1", "G36D1", "G36D1"};
    for (int i = 0; i < 5; i++) {
        want[i].scale = 1000000;
        want[i].place = want[i].outer = (uint64_t)(strstr(film, at[i]) - film);
        want[i].start_x = want[i].end_x = want[i].start_y = want[i].end_y = 20 * inch;
    }
    want[0].kind = SHEET_LINE, want[0].aperture = 10;
    want[0].start_x = want[0].start_y = want[0].end_y = 10 * inch, want[0].end_x = 10 * inch + inch / 100;
    want[1].kind = SHEET_CW, want[1].aperture = 11;
    want[1].start_x = want[1].start_y = want[1].centre_y = 10 * inch, want[1].centre_x = 20 * inch;
    want[2].kind = SHEET_LINE, want[2].aperture = 11;
    want[3].kind = SHEET_CONTOUR_START, want[3].count = 1, want[3].end_x = want[3].end_y = 0;
    want[4].kind = SHEET_EDGE_LINE;
    expect(items_at(&l, 0, &items->kind, 6 * SHEET_ITEM_WORDS) == 0, "a film's items are answered", 0);
    for (uint64_t i = 0; i < 6; i++)
        expect(memcmp(&items[i], &want[i], sizeof want[i]) == 0, "a film's item is the one worked out", i);
    read_with(&l, f, bytes);
    expect(l.number == SHEET_FORM && l.place == 0 && all_zeros(&l), "by the newer edition it is 4", l.number);
    struct lent less = rooms(5 * SHEET_ENTRY_WORDS - 1, 2 * SHEET_APERTURE_WORDS, 0, 3);
    read_by(SHEET_OLD_EDITION, SHEET_OLD_LETTERS, &less, f, bytes);
    expect(less.number == SHEET_ROOM && less.place == want[3].place && all_zeros(&less), "a film in too little room is 17", less.place);
}

/* What else the old edition has of its own: codes with their operations in attribute calls, 30 there, and `M2`. */
static void old_calls(void)
{
    static const char file[] = "%TAa,v*%%TOo,w*%G36X0Y0D2*%TD*%G1X1Y1D1*M2*", unread[] = "%KOC*%M2*", note[] = "G4*M2*";
    size_t d1 = (size_t)(strstr(file, "G1X1") - file), g36 = (size_t)(strstr(file, "G36") - file);
    uint64_t place = garbage;
    uint8_t digest[SHEET_DIGEST_BYTES];
    ask_by(SHEET_OLD_EDITION, 1, "%TAa,v*%G36X0Y0D2*G1X1Y1D1*M2*", 18, "a", 0, 5, 1);
    ask_by(SHEET_OLD_EDITION, 1, file, d1, "a", SHEET_NOT_HELD, 0, 0);
    ask_by(SHEET_OLD_EDITION, 0, file, g36, "o", 0, 13, 1);
    ask_by(SHEET_NEW_EDITION, 0, file, g36, "o", SHEET_FORM, 0, 0);
    ask_by(SHEET_OLD_EDITION, 0, unread, 0, "o", SHEET_UNREAD, 0, 0);
    ask_by(SHEET_OLD_EDITION, 1, unread, 0, "o", SHEET_UNREAD, 0, 0);
    ask_by(SHEET_NEW_EDITION, 1, unread, 0, "o", SHEET_FORM, 0, 0);
    expect(sheet_signature(SHEET_OLD_EDITION, SHEET_OLD_LETTERS, (const uint8_t *)note, 6, &place, digest) == SHEET_UNSIGNED && place == 3,
           "M2 ends an old film", place);
    expect(sheet_signature(SHEET_OLD_EDITION, SHEET_OLD_LETTERS, (const uint8_t *)unread, 9, &place, digest) == SHEET_UNSIGNED && place == 6,
           "a signature gives no 30", place);
    expect(sheet_signature(SHEET_NEW_EDITION, SHEET_OLD_LETTERS, (const uint8_t *)note, 6, &place, digest) == SHEET_ENDS && place == 6,
           "and no file of the newer edition", place);
}

/* The most entries that a file of n bytes uses, in the room that the header gives for n bytes: flashes, contours of one edge, one contour
 * of many, and regions with lines between them, as short as the old edition writes them. */
static void most_entries(void)
{
    static const char *const unit[] = {"D3*", "D1*D2*", "D1*", "G36D1*G37D1*"}, *const end[] = {"M2*", "G37*M2*", "G37*M2*", "M2*"};
    static const char *const start[] = {"%ADD10C,0*%D10*X0Y0D2*", "G36X0Y0D2*", "G36X0Y0D2*", "%ADD10C,0*%D10*X0Y0D2*"};
    static const uint64_t each[] = {1, 2, 1, 3}, more[] = {0, 0, 1, 0};
    for (int i = 0; i < 4; i++) {
        char file[4096] = "%FSLAX06Y06*%G71*G1*";
        strcat(file, start[i]);
        for (int k = 0; k < 200; k++)
            strcat(file, unit[i]);
        strcat(file, end[i]);
        size_t n = strlen(file);
        struct lent l = rooms(sheet_entries_for(n) * SHEET_ENTRY_WORDS, sheet_apertures_for(n) * SHEET_APERTURE_WORDS, 0, 4);
        read_by(SHEET_OLD_EDITION, SHEET_OLD_LETTERS, &l, (const uint8_t *)file, n);
        expect(l.number == SHEET_ACCEPTED && l.head[SHEET_HEAD_ENTRIES] == 200 * each[i] + more[i], "the header's room is enough", l.number);
        expect(i == 3 || l.head[SHEET_HEAD_ENTRIES] > n / 4, "and a fourth of the bytes would not be", l.head[SHEET_HEAD_ENTRIES]);
    }
}

/* 150,000 names, more than the look keeps at a time in little room (decision 255): none of them set twice, or one, at any distance, with
 * all of the rest in the file between or after. The answer is the same in any room. */
static void many_names(void)
{
    enum { NAMES = 150000, EACH = 12 };
    static const int again[] = {0, 20, 65536, 65537, 131072, 140000, 149999, 149999}, of[] = {0, 10, 65535, 0, 65536, 70000, 0, 149998};
    static const size_t words[] = {7, 131071, 131072, NAMES * EACH / 3 * SHEET_ENTRY_WORDS};
    char *file = malloc(NAMES * EACH + 64);
    if (!file)
        exit(1);
    for (int i = 0; i < 8; i++) {
        size_t start = strlen(strcpy(file, FS MO)), at = start;
        for (int k = 0; k < NAMES; k++)
            at += (size_t)sprintf(file + at, "%%TFn%06d*%%", k == again[i] ? of[i] : k);
        at += (size_t)sprintf(file + at, "M02*");
        for (int r = 0; r < 4; r++) {
            struct lent l = rooms(words[r], 8, 8, 1);
            read_with(&l, (const uint8_t *)file, at);
            uint64_t place = again[i] ? start + (size_t)again[i] * EACH : 0;
            expect(l.number == (again[i] ? SHEET_FILE_ATTRIBUTE : SHEET_ACCEPTED) && l.place == place, "another name is set twice", l.place);
            expect(zeros(l.entries, 0, l.e), "names are left in the room for entries", words[r]);
        }
    }
    free(file);
}

/* The short call names no edition, and reads the old one (document 02, [10]). */
enum { SHORT_EDITION = SHEET_OLD_EDITION, OTHER_EDITION = 3 - SHORT_EDITION };

/* The short call answers as the long one does with that edition, on files that the two editions answer otherwise. */
static void short_call(void)
{
    static const char *const files[] = {
        FS MO "%ADD10C,1*%G54D10*M02*",
        "%FSLIX24Y24*%" MO "M02*",
        FS MO "G01*X0Y0D02*G36*D01*G37*M02*",
        FS MO "%IPPOS*%M02*",
    };
    static const uint64_t none[] = {0, 3, UINT64_MAX};
    size_t entries = 4 * SHEET_ENTRY_WORDS;
    struct lent s = rooms(entries, 8, 8, 4), l = rooms(entries, 8, 8, 4), o = rooms(entries, 8, 8, 4);
    for (size_t i = 0; i < sizeof files / sizeof files[0]; i++) {
        const uint8_t *f = (const uint8_t *)files[i];
        size_t n = strlen(files[i]);
        read_short(SHEET_OLD_LETTERS, &s, f, n);
        read_by(SHORT_EDITION, SHEET_OLD_LETTERS, &l, f, n);
        read_by(OTHER_EDITION, SHEET_OLD_LETTERS, &o, f, n);
        expect(s.number == l.number && s.place == l.place && s.unit == l.unit && s.rounded == l.rounded, "the short call's edition", i);
        expect(memcmp(s.head, l.head, SHEET_HEAD_WORDS * 8) == 0 && memcmp(s.entries, l.entries, l.e * 8) == 0 &&
                   memcmp(s.apertures, l.apertures, l.a * 8) == 0 && memcmp(s.macros, l.macros, l.m * 8) == 0 &&
                   memcmp(s.numbers, l.numbers, l.n * 8) == 0,
               "the short call's stores", i);
        expect(s.number != o.number, "the other edition answers otherwise", i);
    }
    for (size_t i = 0; i < sizeof none / sizeof none[0]; i++) {
        read_short(none[i], &s, (const uint8_t *)files[0], strlen(files[0]));
        expect(s.number == SHEET_NO_BOOK && s.place == 0 && s.unit == 0 && s.rounded == 0 && all_zeros(&s), "no letters, no reading", none[i]);
    }
}

/* The numbers that the proved code has for what the header names. */
static void constants(void)
{
    expect(SHEET_NEW_EDITION == 1 && SHEET_OLD_EDITION == 2, "editions by number", 0);
    expect(SHEET_OLD_LETTERS == 1 && SHEET_NEW_LETTERS == 2, "rules of letters by number", 0);
    expect(SHEET_OWN_MOVE == 29 && SHEET_UNREAD == 30 && SHEET_QUADRANT == 31 && SHEET_NO_BOOK == 101, "the later numbers", 0);
}

int main(void)
{
    test = "host";
    expect(sheet_entry_words() == SHEET_ENTRY_WORDS, "the width of an entry", sheet_entry_words());
    expect(sheet_aperture_words() == SHEET_APERTURE_WORDS, "the width of an aperture", sheet_aperture_words());
    expect(sheet_macro_words() == SHEET_MACRO_WORDS, "the width of a macro", sheet_macro_words());
    expect(sheet_item_words() == SHEET_ITEM_WORDS, "the width of an item", sheet_item_words());
    expect(sheet_row_words() == SHEET_ROW_WORDS, "the width of a row", sheet_row_words());
    expect(sheet_scratch_words() == SHEET_SCRATCH_WORDS, "the width of scratch", sheet_scratch_words());
    constants();
    every_refusal();
    too_many_items();
    rounded_decimals();
    struct lent l = read_layer();
    exact_rooms(&l);
    any_order(&l);
    addresses(&l);
    summaries(&l);
    damaged(&l);
    attributes();
    letters(SHEET_NEW_EDITION);
    letters(SHEET_OLD_EDITION);
    no_books();
    films();
    old_calls();
    most_entries();
    many_names();
    short_call();
    printf("host: %u tried, %u faults\n", tried, faults);
    return faults != 0;
}
