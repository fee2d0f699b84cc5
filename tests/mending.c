/* The call that mends, tried from C: exact rooms and rooms that are one short, every number, zeros to the full length, the sheet that it
 * leaves, and the mended file made again from the report alone. */
#include <inttypes.h>
#include <stdlib.h>
#include <string.h>

#include "../host/mending.h"
#include "expect.h"

/* So many bytes of room, words of report and records, all soiled. */
struct rooms {
    size_t bytes, words;
    struct room sheet;
};

static struct mended mended_in(struct book book, const uint8_t *file, size_t count, struct rooms r)
{
    struct mended m = {.file_room = r.bytes, .report_words = r.words, .sheet = lent(r.sheet)};
    struct store *s = &m.sheet;
    m.file = lend(r.bytes, 1);
    m.report = lend(r.words, sizeof *m.report);
    memset(m.file, 165, r.bytes);
    memset(m.report, 165, r.words * sizeof *m.report);
    memset(s->head, 165, sizeof s->head);
    memset(s->entries, 165, s->entries_words * sizeof *s->entries);
    memset(s->apertures, 165, s->apertures_words * sizeof *s->apertures);
    memset(s->macros, 165, s->macros_words * sizeof *s->macros);
    memset(s->numbers, 165, s->numbers_count * sizeof *s->numbers);
    m.bytes = m.changes = s->unit = s->rounded = 165;
    m.number = sheet_mend(book.edition, book.letters, file, count, m.file, m.file_room, m.report, m.report_words, s->head, s->entries,
                          s->entries_words, s->apertures, s->apertures_words, s->macros, s->macros_words, s->numbers,
                          s->numbers_count, &m.bytes, &m.changes, &s->unit, &s->rounded);
    return m;
}

static int zeros(const void *at, size_t from, size_t to)
{
    const uint8_t *p = at;
    for (size_t i = from; i < to; i++)
        if (p[i] != 0)
            return 0;
    return 1;
}

static int all_zeros(const struct mended *m)
{
    const struct store *s = &m->sheet;
    return m->bytes == 0 && m->changes == 0 && s->unit == 0 && s->rounded == 0 && zeros(m->file, 0, m->file_room) &&
           zeros(m->report, 0, m->report_words * 8) && zeros(s->head, 0, sizeof s->head) && zeros(s->entries, 0, s->entries_words * 8) &&
           zeros(s->apertures, 0, s->apertures_words * 8) && zeros(s->macros, 0, s->macros_words * 8) &&
           zeros(s->numbers, 0, s->numbers_count * 8);
}

/* The mended file from the original and the report alone. */
static size_t rebuilt(const uint8_t *file, size_t count, const struct mended *m, uint8_t *out)
{
    size_t at = 0, n = 0;
    for (size_t i = 0; i < m->changes; i++) {
        uint64_t kind = m->report[2 * i];
        size_t place = (size_t)m->report[2 * i + 1];
        memcpy(out + n, file + at, place - at);
        n += place - at;
        at = place;
        if (kind == SHEET_DROP_REPEAT) {
            at = (size_t)((const uint8_t *)memchr(file + place + 1, '%', count - place - 1) - file) + 1;
        } else if (kind == SHEET_ADD_END) {
            memcpy(out + n, "M02*", 4);
            n += 4;
        } else {
            at = count;
        }
    }
    memcpy(out + n, file + at, count - at);
    return n + count - at;
}

/* A mending that is refused: the number, and zeros in everything. */
static void refused(const char *what, uint64_t number, struct book book, const uint8_t *file, size_t count, struct rooms r)
{
    struct mended m = mended_in(book, file, count, r);
    expect(m.number == number, what, m.number);
    expect(all_zeros(&m), "a refusal leaves something", number);
    give_back_mended(&m);
}

#define FS "%FSLAX36Y36*%"
#define MO "%MOMM*%"
#define BODY "%ADD10C,1.2345678*%%AMa*1,1,1,0,0*%D10*G01*X0Y0D03*"
#define FILM "%FSTIX23Y23*%"
#define SHAPE "%ADD10C,1.2345678*%%AMa*1,1,1,0,0*%G54D10*G70*G1X1Y1D3*"
static const struct rooms enough = {400, 20, {8, 8, 8, 8}};
static const struct book newer = {SHEET_NEW_EDITION, SHEET_OLD_LETTERS}, old = {SHEET_OLD_EDITION, SHEET_OLD_LETTERS};

/* A file, its mended one and its changes, in exactly the room that they take; then with one less of each. */
static void mends(struct book book, const char *file, const char *mended, uint64_t changes)
{
    const uint8_t *f = (const uint8_t *)file;
    size_t count = strlen(file), n = strlen(mended);
    struct rooms exact = {n, (size_t)changes * 2, {1, 1, 1, 1}};
    struct mended m = mended_in(book, f, count, exact);
    struct store s = lent(exact.sheet);
    uint8_t again[400];
    read_into(&s, book, (const uint8_t *)mended, n);
    expect(m.number == SHEET_ACCEPTED && m.bytes == n && memcmp(m.file, mended, n) == 0, "it is mended", count);
    expect(m.changes == changes && rebuilt(f, count, &m, again) == n && memcmp(again, mended, n) == 0, "the report rebuilds it", count);
    expect(s.number == SHEET_ACCEPTED && m.sheet.unit == s.unit && m.sheet.rounded == s.rounded && m.sheet.rounded == 1, "its unit and its decimals", count);
    expect(memcmp(m.sheet.head, s.head, sizeof s.head) == 0 && memcmp(m.sheet.entries, s.entries, s.entries_words * 8) == 0 &&
               memcmp(m.sheet.apertures, s.apertures, s.apertures_words * 8) == 0 &&
               memcmp(m.sheet.macros, s.macros, s.macros_words * 8) == 0 && memcmp(m.sheet.numbers, s.numbers, s.numbers_count * 8) == 0,
           "the stores hold its sheet", count);
    give_back_mended(&m);
    give_back(&s);

    struct rooms less = exact;
    less.bytes--;
    refused("a byte less is 17", SHEET_ROOM, book, f, count, less);
    less = exact;
    if (changes > 0) {
        less.words--;
        refused("a word less is 17", SHEET_ROOM, book, f, count, less);
    }
    less = exact;
    less.sheet.entries = 0;
    refused("no room for an entry is 17", SHEET_ROOM, book, f, count, less);

    m = mended_in(book, f, count, enough);
    expect(m.number == SHEET_ACCEPTED && zeros(m.file, n, m.file_room) && zeros(m.report, 16 * (size_t)changes, m.report_words * 8),
           "zeros after", count);
    give_back_mended(&m);
}

int main(void)
{
    test = "mending";
    static const char broken[] = FS MO BODY "G99*" FS;
    static const uint64_t none[] = {0, 3, 33, 101, UINT64_C(0x100000001), UINT64_MAX};
    mends(newer, FS MO BODY "M02*\r\n", FS MO BODY "M02*\r\n", 0);
    mends(newer, FS MO BODY, FS MO BODY "M02*", 1);
    mends(newer, FS MO BODY "\r\n%AD", FS MO BODY "M02*", 2);
    mends(newer, FS "\n" MO FS BODY "\n" MO "\nM02*\nmail", FS "\n" MO BODY "\n\nM02*", 3);

    /* A film ends with `M2` or `M02`; what is added is `M02*`. In the newer edition `M2` is no end, and FS is not of its form. */
    mends(old, FILM SHAPE "M2*\r\n", FILM SHAPE "M2*\r\n", 0);
    mends(old, FILM SHAPE "M2*\nmail", FILM SHAPE "M2*", 1);
    mends(old, FILM SHAPE "\r\nM2", FILM SHAPE "M02*", 2);
    mends(old, FILM SHAPE FILM "G54D10*\n%AS", FILM SHAPE "G54D10*M02*", 3);
    static const char film[] = FILM SHAPE "M2*", unread[] = FILM SHAPE "%IPPOS*%M2*";
    refused("a film is none of the newer edition", SHEET_UNMENDED, newer, (const uint8_t *)film, strlen(film), enough);
    refused("what is 30 stays so", SHEET_UNMENDED, old, (const uint8_t *)unread, strlen(unread), enough);

    const uint8_t *f = (const uint8_t *)broken;
    struct rooms short_of_report = enough, short_of_all = enough;
    refused("a refused command stays", SHEET_UNMENDED, newer, f, strlen(broken), enough);
    short_of_report.words = 1;
    refused("33 comes before 17", SHEET_UNMENDED, newer, f, strlen(broken), short_of_report);
    short_of_all.bytes = 10;
    refused("where the mended file has no room, it is 17", SHEET_ROOM, newer, f, strlen(broken), short_of_all);
    refused("nothing at all is 33", SHEET_UNMENDED, newer, f, 0, enough);
    for (size_t i = 0; i < sizeof none / sizeof none[0]; i++)
        for (uint64_t known = 1; known <= 2; known++) {
            refused("no edition is 101", SHEET_NO_BOOK, (struct book){none[i], known}, f, strlen(broken), enough);
            refused("no rule of letters is 101", SHEET_NO_BOOK, (struct book){known, none[i]}, f, strlen(broken), enough);
        }

    /* The greatest length, and a byte more; M02 makes the first too long to be read. */
    uint8_t *large = lend(SHEET_FILE_LIMIT + 1, 1);
    struct rooms for_large = {SHEET_FILE_LIMIT + 4, 4, {1, 1, 1, 1}};
    memset(large, 'G', SHEET_FILE_LIMIT + 1);
    large[SHEET_FILE_LIMIT - 1] = '*';
    refused("a byte too many is 1", SHEET_TOO_LONG, newer, large, SHEET_FILE_LIMIT + 1, for_large);
    refused("a mended file that is too long is 33", SHEET_UNMENDED, newer, large, SHEET_FILE_LIMIT, for_large);
    free(large);

    uint8_t digest[SHEET_DIGEST_BYTES];
    static const uint8_t abc[] = {0x90, 0x01, 0x50, 0x98, 0x3c, 0xd2, 0x4f, 0xb0, 0xd6, 0x96, 0x3f, 0x7d, 0x28, 0xe1, 0x7f, 0x72};
    sheet_digest((const uint8_t *)"abc", 3, digest);
    expect(memcmp(digest, abc, sizeof abc) == 0, "RFC 1321's digest of abc", digest[0]);
    printf("mending: %u tried, %u faults\n", tried, faults);
    return faults != 0;
}
