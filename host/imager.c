/* The sample host: asks the proved reader about a layer file, and prints what it answers.
 * What a refusal means it says on standard error too, but for batch, mends and cuts.
 *
 *   imager list [--room E,A,M,N]        the listing's lines
 *   imager sheet [--room E,A,M,N]       sheet, unit, total, entries, apertures, macros, numbers used, decimals rounded
 *   imager items K COUNT                the listing's lines of those items
 *   imager address K                    address, the copy of item K and its positions
 *   imager number COPY [POSITION..]     number, that of the item with this address; positions not given are 0
 *   imager summary [--rows N]           a line for each aperture, its number first, and one for the regions: count, least x and y,
 *                                       greatest x and y
 *   imager numbers                      a line for each AD: its aperture, then the numbers kept, a code before each primitive's
 *   imager apertures                    a line for each aperture: its number, then C, R, O or P and the parameters, or macro and its
 *                                       primitives, each a field of its code and parameters parted by spaces, or block
 *   imager label                        a line for each file attribute: its name and its value
 *   imager attribute TA|TO PLACE NAME   attribute, place, length of the value (`attr` answers with attr)
 *   imager verify                       signed and the digest that the file bears
 *   imager placement [--out BYTES]      the placement list of a component layer, in room for so many bytes of it
 *   imager mend [--raw] [--room E,A,M,N]
 *                                       a line for each change, kind and place, then bytes, how many, MD5 of the mended file; or
 *                                       unchanged; with --raw the mended file
 *   imager mends [--room E,A,M,N]       for each file named on standard input: name, what mend answers on one line
 *   imager cuts COUNT [--room E,A,M,N]  for each of the last COUNT bytes of the file: its place, what mend answers of the file cut there
 *   imager batch [--room E,A,M,N]       for each file named on standard input: name, sheet or refusal, hash of its first 2000 lines
 *
 * The file stands on standard input but for batch and mends; fields are parted by tabs. A refusal prints refused, number and place; of an
 * attribute or a label, refused and number. Every mode takes --edition new|old and --letters old|new among its words: the newer edition and
 * the old letters where they are not said. */
#include <errno.h>
#include <inttypes.h>
#include <stdio.h>
#include <stdlib.h>
#include <string.h>

#include "mending.h"
#include "refusals.h"
#include "store.h"

enum { RUN = 65536, HASHED = 2000, LINE = 512, SHAPES = 64 };

/* Without --room, no more numbers than these: the header says why there is no room that is always enough. */
static const size_t most_numbers = (size_t)1 << 24;

struct bytes {
    uint8_t *at;
    size_t count;
};

static void fail(const char *what)
{
    fprintf(stderr, "imager: %s\n", what);
    exit(1);
}

/* The book that every mode reads by. */
static struct book book;

/* A stream's bytes, up to one more than a limit. */
static struct bytes bytes_of(FILE *in, size_t limit)
{
    struct bytes b = {NULL, 0};
    size_t room = 0, got = 1;
    while (got != 0 && b.count <= limit) {
        if (b.count == room) {
            room = room ? 2 * room : 65536;
            b.at = realloc(b.at, room);
            if (!b.at)
                fail("out of memory");
        }
        got = fread(b.at + b.count, 1, room - b.count, in);
        b.count += got;
    }
    if (ferror(in))
        fail("the file cannot be read");
    if (b.count > limit)
        b.count = limit + 1;
    return b;
}

/* As many of a file as tell whether it is too long to be read. */
static struct bytes all_of(FILE *in)
{
    return bytes_of(in, SHEET_FILE_LIMIT);
}

/* Room for any file of that length. */
static struct room room_for(size_t n)
{
    struct room r = {0, 0, 0, 0};
    if (n <= SHEET_FILE_LIMIT) {
        r.entries = sheet_entries_for(n);
        r.apertures = sheet_apertures_for(n);
        r.macros = sheet_macros_for(n);
        r.numbers = sheet_numbers_for(n) < most_numbers ? sheet_numbers_for(n) : most_numbers;
    }
    return r;
}

static struct store read_sheet(struct bytes file, const struct room *asked)
{
    struct store s = lent(asked ? *asked : room_for(file.count));
    read_into(&s, book, file.at, file.count);
    return s;
}

/* The items from k on, as many as `items` has slots for. */
static uint64_t run_of(const struct store *s, uint64_t k, struct sheet_item *items, size_t slots)
{
    return sheet_items(s->head, s->entries, s->entries_words, s->apertures, s->apertures_words, k, &items->kind,
                       slots * SHEET_ITEM_WORDS);
}

static int item_line(char *line, uint64_t k, const struct sheet_item *t)
{
    static const char *const kinds[] = {"none", "line",    "cw",        "ccw",     "flash",
                                        "contour", "edge-line", "edge-cw", "edge-ccw"};
    return snprintf(line, LINE,
                    "%" PRIu64 "\t%s\t%" PRIu64 "\t%s\t%" PRIu64 "\t%" PRIu64 "\t%" PRIu64 "\t%" PRId64 "\t%" PRId64 "\t%" PRId64
                    "\t%" PRId64 "\t%" PRId64 "\t%" PRId64 "\t%" PRIu64 "\t%" PRIu64 "\t%" PRIu64 "\n",
                    k, kinds[t->kind <= 8 ? t->kind : 0], t->aperture, t->clear ? "clear" : "dark", t->flip, t->angle, t->scale,
                    t->start_x, t->start_y, t->end_x, t->end_y, t->centre_x, t->centre_y, t->count, t->place, t->outer);
}

/* Hands the lines of items k up to `end` to a taker, run by run. */
static void each_line(const struct store *s, uint64_t k, uint64_t end, void (*take)(void *, const char *, size_t), void *with)
{
    size_t slots = end - k < RUN ? (size_t)(end - k) : RUN;
    struct sheet_item *items = lend(slots, sizeof *items);
    char line[LINE];
    while (k < end) {
        size_t m = end - k < slots ? (size_t)(end - k) : slots;
        if (run_of(s, k, items, m) != SHEET_ACCEPTED)
            fail("a run of items was refused");
        for (size_t i = 0; i < m; i++)
            take(with, line, (size_t)item_line(line, k + i, &items[i]));
        k += m;
    }
    free(items);
}

static void print_line(void *with, const char *line, size_t count)
{
    fwrite(line, 1, count, with);
}

/* FNV-1a, 64 bits. */
static void hash_line(void *with, const char *line, size_t count)
{
    uint64_t *hash = with;
    for (size_t i = 0; i < count; i++)
        *hash = (*hash ^ (uint8_t)line[i]) * UINT64_C(0x100000001b3);
}

static void print_refusal(const struct store *s, char part)
{
    printf("refused%c%" PRIu64 "%c%" PRIu64, part, s->number, part, s->place);
}

static void print_sheet(const struct store *s, char part)
{
    const uint64_t *h = s->head;
    if (s->number != SHEET_ACCEPTED) {
        print_refusal(s, part);
        return;
    }
    printf("sheet%c%s", part, s->unit == SHEET_MM ? "mm" : "inch");
    const uint64_t counts[] = {h[SHEET_HEAD_TOTAL],  h[SHEET_HEAD_ENTRIES], h[SHEET_HEAD_APERTURES],
                               h[SHEET_HEAD_MACROS], h[SHEET_HEAD_NUMBERS], s->rounded};
    for (size_t i = 0; i < sizeof counts / sizeof *counts; i++)
        printf("%c%" PRIu64, part, counts[i]);
}

/* A refusal's line, for the modes that have nothing else to say then. */
static int refused(const struct store *s)
{
    if (s->number == SHEET_ACCEPTED)
        return 0;
    print_refusal(s, '\t');
    putchar('\n');
    tell_refusal("imager", s->number);
    return 1;
}

static void list(const struct store *s)
{
    if (refused(s))
        return;
    printf("items\t%" PRIu64 "\n", s->head[SHEET_HEAD_TOTAL]);
    each_line(s, 0, s->head[SHEET_HEAD_TOTAL], print_line, stdout);
}

static void sheet(const struct store *s)
{
    if (refused(s))
        return;
    print_sheet(s, '\t');
    putchar('\n');
}

/* A number other than 0, with no place. */
static int answered(uint64_t number)
{
    if (number == SHEET_ACCEPTED)
        return 1;
    printf("refused\t%" PRIu64 "\t0\n", number);
    tell_refusal("imager", number);
    return 0;
}

static void items(const struct store *s, uint64_t k, uint64_t count)
{
    uint64_t total;
    if (refused(s))
        return;
    if (sheet_total(s->head, s->entries, s->entries_words, s->apertures, s->apertures_words, &total) != SHEET_ACCEPTED)
        fail("the store is no sheet");
    if (k >= total) {
        answered(SHEET_PAST);
        return;
    }
    each_line(s, k, count < total - k ? k + count : total, print_line, stdout);
}

static void address(const struct store *s, uint64_t k)
{
    uint64_t words[SHEET_ADDRESS_WORDS];
    if (refused(s) || !answered(sheet_address(s->head, s->entries, s->entries_words, s->apertures, s->apertures_words, k, words)))
        return;
    printf("address");
    for (int i = 0; i < SHEET_ADDRESS_WORDS; i++)
        printf("\t%" PRIu64, words[i]);
    putchar('\n');
}

static void item_number(const struct store *s, const uint64_t *words)
{
    uint64_t k;
    if (!refused(s) && answered(sheet_item_number(s->head, s->entries, s->entries_words, s->apertures, s->apertures_words, words, &k)))
        printf("number\t%" PRIu64 "\n", k);
}

/* The shape of aperture record b. */
static struct sheet_shape shape_of(const struct store *s, uint64_t b)
{
    struct sheet_shape shape;
    if (sheet_shape_record(s->head, s->apertures, s->apertures_words, s->numbers, s->numbers_count, b, &shape.number) != SHEET_ACCEPTED)
        fail("an aperture was refused");
    return shape;
}

/* Room for rows as asked for, or for as many as there are. */
static void summary(const struct store *s, const uint64_t *asked)
{
    if (refused(s))
        return;
    size_t apertures = (size_t)s->head[SHEET_HEAD_APERTURES], scratch_words = sheet_scratch_for(apertures);
    size_t count = asked ? (size_t)*asked : sheet_rows_for(apertures);
    uint64_t *scratch = lend(scratch_words, sizeof *scratch);
    struct sheet_row *rows = lend(count, sizeof *rows);
    if (answered(sheet_summary(s->head, s->entries, s->entries_words, s->apertures, s->apertures_words, scratch, scratch_words,
                               &rows->count, count * SHEET_ROW_WORDS)))
        for (size_t b = 0; b <= apertures; b++) {
            const struct sheet_row *r = &rows[b];
            if (b < apertures)
                printf("%" PRIu64, shape_of(s, b).number);
            else
                printf("regions");
            printf("\t%" PRIu64 "\t%" PRId64 "\t%" PRId64 "\t%" PRId64 "\t%" PRId64 "\n", r->count, r->least_x, r->least_y,
                   r->greatest_x, r->greatest_y);
        }
    free(rows);
    free(scratch);
}

/* The primitives of a macro's aperture, each handed to a taker. */
static void each_primitive(const struct store *s, const struct sheet_shape *shape, void (*take)(const struct store *, const struct sheet_primitive *))
{
    struct sheet_primitive primitives[SHAPES];
    for (size_t i = 0; i < shape->primitives; i += SHAPES) {
        if (sheet_primitives(s->head, s->apertures, s->apertures_words, s->numbers, s->numbers_count, shape->number, i, &primitives->code,
                             SHAPES * SHEET_PRIMITIVE_WORDS) != SHEET_ACCEPTED)
            fail("a run of primitives was refused");
        for (size_t j = 0; j < SHAPES && i + j < shape->primitives; j++)
            take(s, &primitives[j]);
    }
}

static void print_numbers(const struct store *s, char part, uint64_t first, uint64_t count)
{
    for (uint64_t j = 0; j < count; j++)
        printf("%c%" PRId64, part, s->numbers[first + j]);
}

static void primitive_numbers(const struct store *s, const struct sheet_primitive *p)
{
    printf("\t%" PRIu64, p->code);
    print_numbers(s, '\t', p->first, p->count);
}

static void primitive_field(const struct store *s, const struct sheet_primitive *p)
{
    printf("\t%" PRIu64, p->code);
    print_numbers(s, ' ', p->first, p->count);
}

/* A line for each AD. */
static void numbers(const struct store *s)
{
    if (refused(s))
        return;
    for (uint64_t b = 0; b < s->head[SHEET_HEAD_APERTURES]; b++) {
        struct sheet_shape shape = shape_of(s, b);
        if (shape.kind == SHEET_SHAPE_BLOCK) /* a block keeps no numbers */
            continue;
        printf("%" PRIu64, shape.number);
        if (shape.kind == SHEET_SHAPE_MACRO)
            each_primitive(s, &shape, primitive_numbers);
        else
            print_numbers(s, '\t', shape.first, shape.count);
        putchar('\n');
    }
}

/* A line for each aperture: by its number, as an item has it, the shape must be the one of its record. */
static void apertures(const struct store *s)
{
    static const char *const kinds[] = {"none", "C", "R", "O", "P", "macro", "block"};
    if (refused(s))
        return;
    for (uint64_t b = 0; b < s->head[SHEET_HEAD_APERTURES]; b++) {
        struct sheet_shape shape = shape_of(s, b), found;
        if (sheet_shape(s->head, s->apertures, s->apertures_words, s->numbers, s->numbers_count, shape.number, &found.number) !=
                SHEET_ACCEPTED || memcmp(&found, &shape, sizeof shape) != 0)
            fail("an aperture is not the one of its number");
        printf("%" PRIu64 "\t%s", shape.number, kinds[shape.kind <= 6 ? shape.kind : 0]);
        if (shape.kind == SHEET_SHAPE_MACRO)
            each_primitive(s, &shape, primitive_field);
        else
            print_numbers(s, '\t', shape.first, shape.count);
        putchar('\n');
    }
}

/* A line for each file attribute: its name and its value. */
static void label(struct bytes file)
{
    uint64_t at, count, value_at, value_count, number;
    for (size_t i = 0; (number = sheet_label(book.edition, book.letters, file.at, file.count, i, &at, &count, &value_at, &value_count)) ==
                       SHEET_ACCEPTED; i++) {
        fwrite(file.at + at, 1, count, stdout);
        putchar('\t');
        fwrite(file.at + value_at, 1, value_count, stdout);
        putchar('\n');
    }
    if (number != SHEET_NOT_HELD) {
        printf("refused\t%" PRIu64 "\n", number);
        tell_refusal("imager", number);
    }
}

static void attribute(struct bytes file, const char *mode, int of_aperture, size_t place, const char *name)
{
    const uint8_t *text = (const uint8_t *)name;
    uint64_t at, count, number;
    if (of_aperture)
        number = sheet_aperture_attribute(book.edition, book.letters, file.at, file.count, place, text, strlen(name), &at, &count);
    else
        number = sheet_object_attribute(book.edition, book.letters, file.at, file.count, place, text, strlen(name), &at, &count);
    if (number == SHEET_ACCEPTED) {
        printf("%s\t%" PRIu64 "\t%" PRIu64 "\n", mode, at, count);
        return;
    }
    printf("refused\t%" PRIu64 "\n", number);
    tell_refusal("imager", number);
}

/* A signature is judged whatever the file's length. */
static void verify(struct bytes file)
{
    uint8_t digest[SHEET_DIGEST_BYTES];
    uint64_t place, number = sheet_signature(book.edition, book.letters, file.at, file.count, &place, digest);
    if (number != SHEET_ACCEPTED) {
        printf("refused\t%" PRIu64 "\t%" PRIu64 "\n", number, place);
        tell_refusal("imager", number);
        return;
    }
    printf("signed\t");
    for (size_t i = 0; i < sizeof digest; i++)
        printf("%02x", digest[i]);
    putchar('\n');
}

/* A file's line of the batch. */
static void batch_line(const char *name, const struct room *room)
{
    FILE *in = fopen(name, "rb");
    uint64_t hash = UINT64_C(0xcbf29ce484222325);
    if (!in)
        fail(strerror(errno));
    struct bytes file = all_of(in);
    fclose(in);
    struct store s = read_sheet(file, room);
    printf("%s\t", name);
    print_sheet(&s, ' ');
    if (s.number == SHEET_ACCEPTED) {
        uint64_t total = s.head[SHEET_HEAD_TOTAL];
        each_line(&s, 0, total < HASHED ? total : HASHED, hash_line, &hash);
        printf("\t%016" PRIx64 "\n", hash);
    } else {
        printf("\t-\n");
    }
    give_back(&s);
    free(file.at);
}

/* For each file named on standard input, its line, written whole, so that several batches may write to one file. */
static void each_file(void (*tell)(const char *, const struct room *), const struct room *room)
{
    char *name = NULL;
    size_t size = 0;
    ssize_t n;
    setvbuf(stdout, NULL, _IOLBF, 65536);
    while ((n = getline(&name, &size, stdin)) >= 0) {
        if (n > 0 && name[n - 1] == '\n')
            name[n - 1] = 0;
        if (name[0])
            tell(name, room);
    }
    free(name);
}

/* What mending a file answers, its fields parted by one character and its lines by another. */
static void print_mended(const struct mended *m, char part, char line)
{
    static const char *const kinds[] = {"none", "drop-repeat", "add-end", "drop-tail", "drop-after-end"};
    uint8_t digest[SHEET_DIGEST_BYTES];
    if (m->number != SHEET_ACCEPTED) {
        printf("refused%c%" PRIu64 "%c0", part, m->number, part);
        return;
    }
    if (m->changes == 0) {
        printf("unchanged");
        return;
    }
    for (size_t i = 0; i < m->changes; i++) {
        const uint64_t *change = m->report + i * SHEET_CHANGE_WORDS;
        printf("%s%c%" PRIu64 "%c", kinds[change[0] <= 4 ? change[0] : 0], part, change[1], line);
    }
    sheet_digest(m->file, (size_t)m->bytes, digest);
    printf("bytes%c%" PRIu64 "%c", part, m->bytes, part);
    for (size_t i = 0; i < sizeof digest; i++)
        printf("%02x", digest[i]);
}

/* Room for the sheet as asked for, or for that of any mended file. */
static struct mended mended(const uint8_t *file, size_t count, const struct room *room)
{
    return mend_with(book, file, count, room ? *room : room_for(count > SHEET_FILE_LIMIT ? count : sheet_mended_for(count)));
}

static void mend(struct bytes file, int raw, const struct room *room)
{
    struct mended m = mended(file.at, file.count, room);
    if (raw && m.number == SHEET_ACCEPTED) {
        fwrite(m.file, 1, (size_t)m.bytes, stdout);
    } else {
        print_mended(&m, '\t', '\n');
        putchar('\n');
        if (m.number != SHEET_ACCEPTED)
            tell_refusal("imager", m.number);
    }
    give_back_mended(&m);
}

static void mends_line(const char *name, const struct room *room)
{
    FILE *in = fopen(name, "rb");
    if (!in)
        fail(strerror(errno));
    struct bytes file = all_of(in);
    fclose(in);
    struct mended m = mended(file.at, file.count, room);
    printf("%s\t", name);
    print_mended(&m, ' ', ' ');
    putchar('\n');
    give_back_mended(&m);
    free(file.at);
}

static void cuts(struct bytes file, uint64_t count, const struct room *room)
{
    for (size_t length = file.count > count ? file.count - (size_t)count : 0; length < file.count; length++) {
        struct mended m = mended(file.at, length, room);
        printf("%zu\t", length);
        print_mended(&m, ' ', ' ');
        putchar('\n');
        give_back_mended(&m);
    }
}

/* What a placement list is lent beside the stores, and what was answered. */
struct placed {
    uint64_t *notes, *names, *roles, *pins;
    uint8_t *list;
    size_t room;
    uint64_t number, place, bytes;
};

/* Lists a file's parts over a store and in room for so many bytes; pins is how many links are lent. */
static void place_into(struct placed *p, struct store *s, struct bytes file, size_t pins)
{
    size_t notes = sheet_notes_for(file.count) * SHEET_NOTE_WORDS, names = sheet_names_for(file.count) * SHEET_NAME_WORDS;
    size_t roles = sheet_roles_for(file.count) * SHEET_ROLE_WORDS, links = pins * SHEET_PIN_WORDS;
    p->notes = lend(notes, sizeof *p->notes);
    p->names = lend(names, sizeof *p->names);
    p->roles = lend(roles, sizeof *p->roles);
    p->pins = lend(links, sizeof *p->pins);
    p->list = lend(p->room, 1);
    p->number = sheet_placement(book.edition, book.letters, file.at, file.count, s->head, s->entries, s->entries_words, s->apertures,
                                s->apertures_words, s->macros, s->macros_words, s->numbers, s->numbers_count, p->notes, notes, p->names,
                                names, p->roles, roles, p->pins, links, p->list, p->room, &p->place, &p->bytes);
}

static void give_back_placed(struct placed *p)
{
    free(p->notes);
    free(p->names);
    free(p->roles);
    free(p->pins);
    free(p->list);
}

/* Without --out room is lent anew, four times as much, as long as the list does not fit. */
static void placement(struct bytes file, const uint64_t *out)
{
    enum { FIRST = 65536, MOST = 1 << 30 };
    struct store s = read_sheet(file, NULL);
    if (!refused(&s)) {
        uint64_t total = s.head[SHEET_HEAD_TOTAL];
        struct placed p = {.room = out ? (size_t)*out : FIRST};
        place_into(&p, &s, file, (size_t)(total < most_numbers ? total : most_numbers));
        while (!out && p.number == SHEET_ROOM && p.room < MOST) {
            size_t room = 4 * p.room;
            give_back_placed(&p);
            p = (struct placed){.room = room};
            place_into(&p, &s, file, (size_t)(total < most_numbers ? total : most_numbers));
        }
        if (p.number == SHEET_ACCEPTED) {
            fwrite(p.list, 1, (size_t)p.bytes, stdout);
        } else {
            printf("refused\t%" PRIu64 "\t%" PRIu64 "\n", p.number, p.place);
            tell_refusal("imager", p.number);
        }
        give_back_placed(&p);
    }
    give_back(&s);
}

static int usage(void)
{
    fputs("usage: imager list|sheet|batch|mends [--room E,A,M,N], mend [--raw] [--room E,A,M,N], cuts COUNT [--room E,A,M,N], items K COUNT, address K, number COPY [POSITION..], summary [--rows N], "
          "numbers, apertures, label, attribute TA|TO PLACE NAME, verify, placement [--out BYTES]; all with [--edition new|old] [--letters old|new]\n", stderr);
    return 2;
}

/* A number of digits alone, up to what a word holds. */
static int whole(const char *text, uint64_t *value)
{
    char *end;
    errno = 0;
    *value = strtoull(text, &end, 10);
    return text[0] >= '0' && text[0] <= '9' && *end == 0 && errno == 0;
}

static int is(const char *word, const char *other)
{
    return strcmp(word, other) == 0;
}

/* `--room E,A,M,N`, or nothing; 0 where the words are something else. */
static int room_in(int words, char **word, struct room *r, const struct room **room)
{
    *room = words != 0 ? r : NULL;
    return words == 0 || (words == 2 && is(word[0], "--room") &&
                          sscanf(word[1], "%zu,%zu,%zu,%zu", &r->entries, &r->apertures, &r->macros, &r->numbers) == 4);
}

/* The modes of mending. */
static int mending(const char *mode, int words, char **word)
{
    struct room r;
    const struct room *room;
    uint64_t count = 0;
    int raw = is(mode, "mend") && words > 0 && is(word[0], "--raw"), asks_cuts = is(mode, "cuts");
    if (asks_cuts && !(words > 0 && whole(word[0], &count)))
        return usage();
    if (!room_in(words - raw - asks_cuts, word + raw + asks_cuts, &r, &room))
        return usage();
    if (is(mode, "mends")) {
        each_file(mends_line, room);
        return 0;
    }
    struct bytes file = all_of(stdin);
    if (asks_cuts)
        cuts(file, count, room);
    else
        mend(file, raw, room);
    free(file.at);
    return 0;
}

/* The modes that may be given a room. */
static int with_room(const char *mode, int words, char **word)
{
    struct room r;
    const struct room *room;
    if (!room_in(words, word, &r, &room))
        return usage();
    if (is(mode, "batch")) {
        each_file(batch_line, room);
        return 0;
    }
    struct bytes file = all_of(stdin);
    struct store s = read_sheet(file, room);
    if (is(mode, "list"))
        list(&s);
    else
        sheet(&s);
    give_back(&s);
    free(file.at);
    return 0;
}

int main(int argc, char **argv)
{
    book = plain_book;
    if (!take_book(&argc, argv, &book))
        return usage();
    const char *mode = argc > 1 ? argv[1] : "";
    uint64_t k = 0, count = 0;
    if (is(mode, "list") || is(mode, "sheet") || is(mode, "batch"))
        return with_room(mode, argc - 2, argv + 2);
    if (is(mode, "mend") || is(mode, "mends") || is(mode, "cuts"))
        return mending(mode, argc - 2, argv + 2);
    if ((is(mode, "attribute") || is(mode, "attr")) && argc == 5 && (is(argv[2], "TA") || is(argv[2], "TO")) && whole(argv[3], &k)) {
        struct bytes file = all_of(stdin);
        attribute(file, mode, is(argv[2], "TA"), (size_t)k, argv[4]);
        free(file.at);
        return 0;
    }
    if (is(mode, "label") && argc == 2) {
        struct bytes file = all_of(stdin);
        label(file);
        free(file.at);
        return 0;
    }
    if (is(mode, "verify") && argc == 2) {
        struct bytes file = bytes_of(stdin, SIZE_MAX - 1);
        verify(file);
        free(file.at);
        return 0;
    }
    int some_bytes = argc == 4 && is(argv[2], "--out") && whole(argv[3], &count) && count < SIZE_MAX;
    if (is(mode, "placement") && (argc == 2 || some_bytes)) {
        struct bytes file = all_of(stdin);
        placement(file, some_bytes ? &count : NULL);
        free(file.at);
        return 0;
    }
    uint64_t words[SHEET_ADDRESS_WORDS] = {0};
    int asks_address = is(mode, "address") && argc == 3 && whole(argv[2], &k);
    int asks_number = is(mode, "number") && argc > 2 && argc - 2 <= SHEET_ADDRESS_WORDS;
    for (int i = 2; asks_number && i < argc; i++)
        asks_number = whole(argv[i], &words[i - 2]);
    int asks_items = is(mode, "items") && argc == 4 && whole(argv[2], &k) && whole(argv[3], &count);
    int some_rows = argc == 4 && is(argv[2], "--rows") && whole(argv[3], &count) && count < SHEET_FILE_LIMIT;
    int asks_summary = is(mode, "summary") && (argc == 2 || some_rows);
    int asks_apertures = is(mode, "apertures") && argc == 2;
    if (!asks_items && !asks_address && !asks_number && !asks_summary && !asks_apertures && !(is(mode, "numbers") && argc == 2))
        return usage();
    struct bytes file = all_of(stdin);
    struct store s = read_sheet(file, NULL);
    if (asks_items)
        items(&s, k, count);
    else if (asks_address)
        address(&s, k);
    else if (asks_number)
        item_number(&s, words);
    else if (asks_summary)
        summary(&s, some_rows ? &count : NULL);
    else if (asks_apertures)
        apertures(&s);
    else
        numbers(&s);
    give_back(&s);
    free(file.at);
    return 0;
}
