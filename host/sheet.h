/* The calls for a host program: a Gerber layer file read into room that the host lends, and what is on it.
 *
 * Link with libhost.a (`rt lib` in crates/host; x86-64 Linux). Every call is proved to meet the contract that stands with it in
 * crates/host/src/lib.rt; this page says the same in words. The words are those of docs/SHEET.md and of document 01.
 *
 * For all calls
 *   - Nothing is allocated, nothing is kept between calls, no call prints. What a call needs, the host lends.
 *   - A slice is two arguments, a pointer and then a length: bytes of `const uint8_t *`, words of `uint64_t *` or `int64_t *`. The
 *     pointer is not null and is aligned as its type asks, for a length of 0 too.
 *   - Nothing that is lent to be written overlaps anything else that is lent to the same call, and nobody else writes to any of it
 *     meanwhile. That is all that a call trusts its host in: any bytes, any words and any lengths are answered.
 *   - Every call that is given a file names its book: the edition (enum sheet_edition), but for sheet_read, and the rule of letters (enum
 *     sheet_letters). Where either is another number the answer is 101, before all else, and zeros in all that is lent to be written.
 *   - A call answers a number: 0, or why not (enum sheet_number). It sets everything that it was lent to be written, whatever it
 *     answers.
 *
 * A host that does not keep its rooms by itself includes store.h, which lends and frees them. A layer is then read, its items are walked in
 * runs, the shape of each is looked up once, and its label is taken:
 *
 *   struct sheet_item items[64];
 *   struct sheet_shape shape = {0};
 *   uint64_t at, count;
 *   struct layer l = open_layer(SHEET_NEW_EDITION, SHEET_OLD_LETTERS, file, n);
 *   for (uint64_t k = 0; layer_items(&l, k, items, 64) == SHEET_ACCEPTED; k += 64)
 *       for (size_t i = 0; i < 64 && items[i].kind != SHEET_ZERO_ITEM; i++) {
 *           if (items[i].aperture != shape.number)
 *               layer_shape(&l, items[i].aperture, &shape);
 *           expose(&items[i], &shape, l.store.numbers + shape.first);
 *       }
 *   if (layer_attribute(&l, ".FileFunction", &at, &count) == SHEET_ACCEPTED)
 *       print_label(file + at, count);
 *   close_layer(&l);
 */
#ifndef SHEET_H
#define SHEET_H

#include <stddef.h>
#include <stdint.h>

#ifdef __cplusplus
extern "C" {
#endif

/* Document 01, "Numbers the reader answers", and document 02; those from 100 on are the host calls' own. */
enum sheet_number {
    SHEET_ACCEPTED = 0,         /* accepted */
    SHEET_TOO_LONG = 1,         /* file longer than 16,777,216 bytes; place 0 */
    SHEET_BYTE = 2,             /* a byte outside 32 to 126, not a permitted CR or LF and in no permitted letter; place of that byte */
    SHEET_ENDS = 3,             /* file ends inside a command or before M02; place is the length */
    SHEET_FORM = 4,             /* command unknown or not of its form */
    SHEET_RANGE = 5,            /* number too long or outside its range; in the old edition also a point of 10^12 millionths or more in size */
    SHEET_FORMAT = 6,           /* FS or MO given twice, or missing at an operation or at M02 */
    SHEET_NOT_HERE = 7,         /* command not allowed here, or something open at M02 */
    SHEET_NAME = 8,             /* aperture or macro unknown, or its number or name taken; no aperture has the number asked */
    SHEET_EXPRESSION = 9,       /* macro expression: zero divisor, or any operation's result of 10^12 millionths or more in size */
    SHEET_PARAMETER = 10,       /* parameter outside its rule */
    SHEET_STATE = 11,           /* operation does not fit the state */
    SHEET_CENTRE = 12,          /* nonsensical arc centre; in the old edition of multi-quadrant arcs alone */
    SHEET_CONTOUR = 13,         /* contour not closed */
    SHEET_BLOCK = 14,           /* block flashed at a scale other than 1 or an angle not a multiple of 90 degrees */
    SHEET_DEEP = 15,            /* too deep */
    SHEET_ITEMS = 16,           /* a D01 or D03 takes the open block or, SR copies counted, the sheet past 10^12 items */
    SHEET_ROOM = 17,            /* room used up */
    SHEET_AFTER_END = 18,       /* any byte but CR or LF after M02, where 2 is not given; place of that byte */
    SHEET_FILE_ATTRIBUTE = 19,  /* file attribute name set twice */
    SHEET_PAST = 20,            /* item asked at or past the total, or primitive past an aperture's last */
    SHEET_NOT_SHEET = 21,       /* lent store is not a sheet */
    SHEET_NO_COMMAND = 22,      /* no command begins at the place asked */
    SHEET_NOT_HELD = 23,        /* attribute name not held there, or no file attribute of the name or number asked */
    SHEET_OTHER_DIGEST = 24,    /* the signature is not the digest of the file (document 02, [2]) */
    SHEET_UNSIGNED = 25,        /* no signature just before M02 */
    SHEET_PART_UNNAMED = 26,    /* in a placement list, a main or an outline without `.C`, or a pin without `.P`; place of the item ([4]) */
    SHEET_PART_REPEATS = 27,    /* the designator of a main repeats; place of its second main */
    SHEET_OUTLINE = 28,         /* an outline is not closed; place of its last item */
    SHEET_OWN_MOVE = 29,        /* in a region, a first D01 without a D02 since its G36; after 11 and before 12; of the newer edition alone
                                   (document 02, [7]) */
    SHEET_UNREAD = 30,          /* AS, MI, OF, SF, IP, IR, KO, LN or SM, or FS with 7 places, which are not read of the old book; right after
                                   4; of the old edition alone (document 02, [9]) */
    SHEET_QUADRANT = 31,        /* no centre of a single quadrant arc remains, or two tie; right after 12; of the old edition alone */
    SHEET_NO_ADDRESS = 32,      /* an address that names nothing (document 02, [12]) */
    SHEET_UNMENDED = 33,        /* a file that is still refused when mended, other than by 17 (document 02, [13]) */
    SHEET_NOT_COMPONENT = 34,   /* the layer's .FileFunction is not Component ([4]) */
    SHEET_NO_BOOK = 101         /* a number names no edition or no rule of letters; before all else, place 0 (decisions 420 and 514) */
};

/* Which edition of the format a file is read by: document 01's, or RS-274X of the old book (document 02, [9]). */
enum sheet_edition { SHEET_NEW_EDITION = 1, SHEET_OLD_EDITION = 2 };

/* Which letters may stand in the fields of TF, TA and TO and in the text of G04: of ASCII alone, or well-formed UTF-8 too (document 02,
 * [8]). A file that the old rule accepts, the new one accepts with the same sheet. */
enum sheet_letters { SHEET_OLD_LETTERS = 1, SHEET_NEW_LETTERS = 2 };

enum sheet_unit { SHEET_NO_UNIT = 0, SHEET_MM = 1, SHEET_INCH = 2 };

enum sheet_kind {
    SHEET_ZERO_ITEM = 0,
    SHEET_LINE = 1,
    SHEET_CW = 2,
    SHEET_CCW = 3,
    SHEET_FLASH = 4,
    SHEET_CONTOUR_START = 5,
    SHEET_EDGE_LINE = 6,
    SHEET_EDGE_CW = 7,
    SHEET_EDGE_CCW = 8
};

/* The widths of what is lent, in words of 64 bits. The functions answer the widths that the proved code has; tests/host.sh holds
 * the constants to them. */
#define SHEET_HEAD_WORDS 8
#define SHEET_ENTRY_WORDS 15
#define SHEET_APERTURE_WORDS 8
#define SHEET_MACRO_WORDS 8
#define SHEET_ITEM_WORDS 15
#define SHEET_ADDRESS_WORDS 10
#define SHEET_ROW_WORDS 5
#define SHEET_SCRATCH_WORDS 8
#define SHEET_SHAPE_WORDS 5
#define SHEET_PRIMITIVE_WORDS 3
#define SHEET_DIGEST_BYTES 16
#define SHEET_FILE_LIMIT 16777216

size_t sheet_entry_words(void);
size_t sheet_aperture_words(void);
size_t sheet_macro_words(void);
size_t sheet_item_words(void);
size_t sheet_row_words(void);
size_t sheet_scratch_words(void);
size_t sheet_shape_words(void);
size_t sheet_primitive_words(void);

/* Words of the head, of use to a host after an accepted reading. */
enum sheet_head_word {
    SHEET_HEAD_UNIT = 1,
    SHEET_HEAD_ENTRIES = 2,     /* entries, apertures, macros and numbers used */
    SHEET_HEAD_APERTURES = 3,
    SHEET_HEAD_MACROS = 4,
    SHEET_HEAD_NUMBERS = 5,
    SHEET_HEAD_TOTAL = 7        /* items of the sheet */
};

/* An item, as its fifteen words: a slot of the words lent to sheet_items or sheet_item can be read as one of these. Coordinates are
 * in millionths of the unit, angles in millionths of a degree, the scale in millionths; unused fields are 0. */
struct sheet_item {
    uint64_t kind;              /* enum sheet_kind */
    uint64_t aperture;          /* its number; 0 for a contour and its edges */
    uint64_t clear;             /* 1 if clear, 0 if dark */
    uint64_t flip;              /* 1 if flipped */
    uint64_t angle;
    uint64_t scale;
    int64_t start_x, start_y;
    int64_t end_x, end_y;
    int64_t centre_x, centre_y;
    uint64_t count;             /* a contour's edges */
    uint64_t place;             /* of the creating command in the file */
    uint64_t outer;             /* of the outermost flash that put it there; its own place when it is in no block */
};

#ifdef __cplusplus
static_assert(sizeof(struct sheet_item) == SHEET_ITEM_WORDS * sizeof(uint64_t), "an item is fifteen words");
#else
_Static_assert(sizeof(struct sheet_item) == SHEET_ITEM_WORDS * sizeof(uint64_t), "an item is fifteen words");
#endif

/* How many records to lend for a file of n bytes, so that reading never answers 17 for them, by either edition.
 *
 * Entries: n / 3. A D01 or D03, an SR opening and an AB opening take one entry each and have 3 bytes at least (`D1*`, of the old edition).
 * The D01 that starts a contour takes two. The second is covered by the command that ends the contour: a D02 or a G37 alone has 3 bytes at
 * least and takes none (`D2*`), and where G37 stands before an operation that takes one, the two have 6 (`G37D1*`). While a contour is
 * open, and only one is at a time, its second entry is covered by the FS (13 bytes), without which no D01 is reached. For a file of the
 * newer edition n / 4 is enough by the same count, since no command of it has fewer than 4 bytes (`D03*`).
 * The entries are also where the names of TF are looked up before the file is read (decision 255), two words each; a TF has 6 bytes at
 * least, so that n / 3 entries, and n / 4, hold them all, and fewer cost time and nothing else: where they hold fewer than 65,536 names
 * (8,739 entries), the look takes room of its own for as many, 1 MB of the stack. Every reading sets that aside, whether it is used or not.
 * Apertures: n / 8. An AB opening has 8 bytes at least (`%ABD10*%`), an AD 9 (`%ADD10a*%`).
 * Macros: n / 8. An AM has 8 bytes at least (`%AMa*0*%`).
 * Numbers: n / 2 + n * n / 72, and here a host may well lend fewer, and be answered 17. Each parameter of a standard template has a
 * separator and a digit: n / 2 numbers in all. An AD of a macro takes one number for each primitive and each of its parameters, each
 * of which has 2 bytes at least in the macro's text, and has itself 9 bytes: a macro of x bytes and as many AD as then fit are at
 * most (x / 2) * ((n - x) / 9) numbers, at most n * n / 72. Layers seen so far use fewer than n / 8.
 * The time of a reading grows with the file, up to a logarithm, but for one kind: a macro of assignments alone keeps no numbers, so that
 * no room bounds the apertures made by it. Of 64 KB that are half such a macro and half apertures a reading takes some 2.5 s, of 1 MB some
 * ten minutes (docs/BENCH.md): of strangers' files a host should bound the time, or the size. */
static inline size_t sheet_entries_for(size_t n) { return n / 3; }
static inline size_t sheet_apertures_for(size_t n) { return n / 8; }
static inline size_t sheet_macros_for(size_t n) { return n / 8; }
static inline size_t sheet_numbers_for(size_t n) { return n / 2 + n * n / 72; }

/* The reading by a named edition.
 *   edition                       the edition
 *   letters                       the rule of letters
 *   file, file_bytes              the file
 *   head                          SHEET_HEAD_WORDS words
 *   entries, entries_words        room for entries_words / SHEET_ENTRY_WORDS entries
 *   apertures, apertures_words    room for apertures_words / SHEET_APERTURE_WORDS apertures
 *   macros, macros_words          room for macros_words / SHEET_MACRO_WORDS macros
 *   numbers, numbers_count        room for so many numbers
 *   place, unit, rounded          one word each
 * Answers 0 (then unit is 1 mm or 2 inch, rounded how many decimals of the file have more than six digits after the point, each counted
 * once, place 0, and head, entries and apertures are a sheet; words not used are 0), or 1 to 19, 29 (newer edition), 30 or 31 (old edition)
 * or 101 (then place says where, unit and rounded are 0, and every word lent is 0 to its full length). */
uint64_t sheet_read_as(uint64_t edition, uint64_t letters, const uint8_t *file, size_t file_bytes, uint64_t *head, uint64_t *entries,
                       size_t entries_words, uint64_t *apertures, size_t apertures_words, uint64_t *macros, size_t macros_words,
                       int64_t *numbers, size_t numbers_count, uint64_t *place, uint64_t *unit, uint64_t *rounded);

/* The short call, which names no edition. Since this release it reads the old one, RS-274X (document 02, [10]); up to now it read the newer
 * one. For a file of the newer edition call sheet_read_as with SHEET_NEW_EDITION. Else it is sheet_read_as, word for word. */
uint64_t sheet_read(uint64_t letters, const uint8_t *file, size_t file_bytes, uint64_t *head, uint64_t *entries, size_t entries_words,
                    uint64_t *apertures, size_t apertures_words, uint64_t *macros, size_t macros_words, int64_t *numbers,
                    size_t numbers_count, uint64_t *place, uint64_t *unit, uint64_t *rounded);

/* The number of items of a sheet. The store may be any words: it is looked at first, in one pass over its records, here and in the calls
 * below.
 *   head                                                    SHEET_HEAD_WORDS words
 *   entries, entries_words, apertures, apertures_words      as they were lent to the reading, or copies of them
 *   total                                                   one word
 * Answers 0 and the total, or 21 and 0. */
uint64_t sheet_total(const uint64_t *head, const uint64_t *entries, size_t entries_words, const uint64_t *apertures,
                     size_t apertures_words, uint64_t *total);

/* Item k of a sheet, counted from 0.
 *   item    SHEET_ITEM_WORDS words
 * Answers 0; or 21, 20, in this order, and zeros. */
uint64_t sheet_item(const uint64_t *head, const uint64_t *entries, size_t entries_words, const uint64_t *apertures,
                    size_t apertures_words, uint64_t k, uint64_t *item);

/* Items k, k + 1, .. of a sheet: the cheap way to take many, since the store is looked at once.
 *   items, items_words    room for items_words / SHEET_ITEM_WORDS items, slot after slot
 * Answers 0 (slots past the total, and words after the last whole slot, are 0); or 21, 20, in this order, and zeros. Words that hold
 * no item are answered like any others, and are 0 (decision 281). */
uint64_t sheet_items(const uint64_t *head, const uint64_t *entries, size_t entries_words, const uint64_t *apertures,
                     size_t apertures_words, uint64_t k, uint64_t *items, size_t items_words);

/* Where an item stands, as an operator says it: "copy 212, second block, third item". An address is SHEET_ADDRESS_WORDS words: the copy,
 * counted from 1 in the order in which the copies are put out, 0 where the top position lies in no SR; then the chain of positions from
 * the top level through the blocks down to the item, each counted from 1, 0 where it goes unused. A position is one D01 or D03, two
 * where the D01 starts a contour; at the top level the body of each SR is counted once.
 *
 * The address of item k.
 *   address    SHEET_ADDRESS_WORDS words
 * Answers 0; or 21, 20, in this order, and zeros. */
uint64_t sheet_address(const uint64_t *head, const uint64_t *entries, size_t entries_words, const uint64_t *apertures,
                       size_t apertures_words, uint64_t k, uint64_t *address);

/* The number of the item with an address; this call and the one above undo each other.
 *   k    one word
 * Answers 0; or 21, 32, in this order, and 0 in k. */
uint64_t sheet_item_number(const uint64_t *head, const uint64_t *entries, size_t entries_words, const uint64_t *apertures,
                           size_t apertures_words, const uint64_t *address, uint64_t *k);

/* A row of the summary, as its five words: how many items, and the least and greatest x and y of their start and end points, in millionths
 * of the unit. The points of a flash are its end alone; a contour has none beside its edges', and no centre counts. Where there is no
 * point all four are 0. */
struct sheet_row {
    uint64_t count;
    int64_t least_x, least_y;
    int64_t greatest_x, greatest_y;
};

#ifdef __cplusplus
static_assert(sizeof(struct sheet_row) == SHEET_ROW_WORDS * sizeof(uint64_t), "a row is five words");
#else
_Static_assert(sizeof(struct sheet_row) == SHEET_ROW_WORDS * sizeof(uint64_t), "a row is five words");
#endif

/* How many rows, and how many words of scratch, to lend for the summary of a sheet with so many apertures
 * (head[SHEET_HEAD_APERTURES]), blocks among them. */
static inline size_t sheet_rows_for(size_t apertures) { return apertures + 1; }
static inline size_t sheet_scratch_for(size_t apertures) { return apertures * SHEET_SCRATCH_WORDS; }

/* The summary of a sheet: row b for the items of the whole expansion that have the number of aperture record b, zeros for a block and for
 * an aperture that is not used; after the rows of all records one for all contours and edges. It is worked out from the store: copies
 * and blocks cost nothing for each item that they put out.
 *   scratch, scratch_words    sheet_scratch_for(apertures) words, with anything in them, and nothing said of them afterwards
 *   rows, rows_words          room for rows_words / SHEET_ROW_WORDS rows, sheet_rows_for(apertures) at least
 * Answers 0 (words after the last row are 0; of a sheet that a reading left the counts add up to the total); or 21, 17, in this order,
 * and zeros in rows. 17 is for too few rows and for too little scratch. */
uint64_t sheet_summary(const uint64_t *head, const uint64_t *entries, size_t entries_words, const uint64_t *apertures,
                       size_t apertures_words, uint64_t *scratch, size_t scratch_words, uint64_t *rows, size_t rows_words);

/* What an aperture exposes, as its five words. Its numbers are among those that were lent to sheet_read_as: parameter j, with j below
 * `count`, is numbers[first + j], in millionths of the unit, of a degree, or of one. */
struct sheet_shape {
    uint64_t number;            /* the aperture's */
    uint64_t kind;              /* enum sheet_shape_kind */
    uint64_t first, count;      /* a template's parameters, in the order written; all numbers of a macro's primitives; 0 and 0 of a block */
    uint64_t primitives;        /* how many a macro's aperture has; else 0 */
};

/* A template's parameters: the first ones, then those that may be left out, a hole's diameter the last of them. */
enum sheet_shape_kind {
    SHEET_NO_SHAPE = 0,
    SHEET_SHAPE_C = 1,          /* a circle: diameter [, hole] */
    SHEET_SHAPE_R = 2,          /* a rectangle: width, height [, hole] */
    SHEET_SHAPE_O = 3,          /* an obround: width, height [, hole] */
    SHEET_SHAPE_P = 4,          /* a polygon: outer diameter, vertices (in millionths too) [, rotation [, hole]] */
    SHEET_SHAPE_MACRO = 5,      /* a macro's: sheet_primitives says which */
    SHEET_SHAPE_BLOCK = 6       /* a block, whose items sheet_items puts out itself: no item has its number */
};

/* A primitive of a macro's aperture, as its three words: parameter j, with j below `count`, is numbers[first + j], in millionths. */
struct sheet_primitive {
    uint64_t code;              /* enum sheet_code */
    uint64_t first, count;
};

/* What the parameters of each code are, in their order. Exposure is 0 or 1 (so 0 or 1000000), angles are in degrees. */
enum sheet_code {
    SHEET_NO_CODE = 0,
    SHEET_CODE_CIRCLE = 1,          /* exposure, diameter, centre x, centre y [, rotation] */
    SHEET_CODE_OUTLINE = 4,         /* exposure, n, start x, start y, n further points, the last of them the start again, rotation */
    SHEET_CODE_POLYGON = 5,         /* exposure, vertices, centre x, centre y, diameter, rotation */
    SHEET_CODE_THERMAL = 7,         /* centre x, centre y, outer diameter, inner diameter, gap, rotation */
    SHEET_CODE_VECTOR_LINE = 20,    /* exposure, width, start x, start y, end x, end y, rotation */
    SHEET_CODE_CENTER_LINE = 21     /* exposure, width, height, centre x, centre y, rotation */
};

#ifdef __cplusplus
static_assert(sizeof(struct sheet_shape) == SHEET_SHAPE_WORDS * sizeof(uint64_t), "a shape is five words");
static_assert(sizeof(struct sheet_primitive) == SHEET_PRIMITIVE_WORDS * sizeof(uint64_t), "a primitive is three words");
#else
_Static_assert(sizeof(struct sheet_shape) == SHEET_SHAPE_WORDS * sizeof(uint64_t), "a shape is five words");
_Static_assert(sizeof(struct sheet_primitive) == SHEET_PRIMITIVE_WORDS * sizeof(uint64_t), "a primitive is three words");
#endif

/* The aperture with a number: as an item has it. It is found by the links that the reading left, in no more steps than a number has bits, so
 * that it may be asked for every item. Of a store that a reading left it is what AD's rules worked out of the file. Any words may be lent: what
 * a lookup goes by is looked at, and nothing else (docs/SHEET.md).
 *   head, apertures, apertures_words      as they were lent to sheet_read_as, or copies of them
 *   numbers, numbers_count                likewise
 *   shape                                 SHEET_SHAPE_WORDS words
 * Answers 0 (first + count is then no more than numbers_count); or 21, 8 where no aperture has the number, in this order, and zeros. */
uint64_t sheet_shape(const uint64_t *head, const uint64_t *apertures, size_t apertures_words, const int64_t *numbers,
                     size_t numbers_count, uint64_t number, uint64_t *shape);

/* The aperture of record b, counted from 0 in the order in which the file defines them, up to head[SHEET_HEAD_APERTURES]: that of row b of
 * the summary. Answers as sheet_shape, 8 where there are no more records. */
uint64_t sheet_shape_record(const uint64_t *head, const uint64_t *apertures, size_t apertures_words, const int64_t *numbers,
                            size_t numbers_count, uint64_t b, uint64_t *shape);

/* Primitives i, i + 1, .. of the aperture with a number, in the order of the macro's blocks.
 *   primitives, primitives_words    room for primitives_words / SHEET_PRIMITIVE_WORDS primitives, slot after slot
 * Answers 0 (slots past the last, and words after the last whole slot, are 0; runs join as those of items do); or 21, 8, 20 where i is
 * not below its primitives, in this order, and zeros. */
uint64_t sheet_primitives(const uint64_t *head, const uint64_t *apertures, size_t apertures_words, const int64_t *numbers,
                          size_t numbers_count, uint64_t number, size_t i, uint64_t *primitives, size_t primitives_words);

/* The value of an attribute at the command that begins at a place of the file: TA (taken at AD, at an AB opening and at a contour's
 * first D01) or TO.
 *   edition                 the edition
 *   letters                 the rule of letters
 *   file, file_bytes        the file, any bytes
 *   place                   where a command begins, as the place of an item
 *   name, name_bytes        the attribute's name, with its leading point if it has one
 *   value_at, value_bytes   one word each: where the value lies in the file, and its length; 0 and 0 without one
 * Answers 0; or 1 to 4, 18, 22, 23, 30 (old edition) or 101, and zeros. */
uint64_t sheet_aperture_attribute(uint64_t edition, uint64_t letters, const uint8_t *file, size_t file_bytes, size_t place,
                                  const uint8_t *name, size_t name_bytes, uint64_t *value_at, uint64_t *value_bytes);
uint64_t sheet_object_attribute(uint64_t edition, uint64_t letters, const uint8_t *file, size_t file_bytes, size_t place,
                                const uint8_t *name, size_t name_bytes, uint64_t *value_at, uint64_t *value_bytes);

/* The value of a file attribute, TF, by its name: the first of that name, since a second is 19 where the file is read.
 *   edition                 the edition
 *   letters                 the rule of letters
 *   file, file_bytes        the file, any bytes
 *   name, name_bytes        the attribute's name, with its leading point if it has one
 *   value_at, value_bytes   one word each: where the value lies in the file, and its length; 0 and 0 without one
 * Answers 0; or 1 to 4, 18, 23, 30 (old edition) or 101, and zeros. */
uint64_t sheet_file_attribute(uint64_t edition, uint64_t letters, const uint8_t *file, size_t file_bytes, const uint8_t *name,
                              size_t name_bytes, uint64_t *value_at, uint64_t *value_bytes);

/* File attribute i, counted from 0 in file order: where its name and its value lie in the file. Each call goes over the file once.
 *   name_at, name_bytes, value_at, value_bytes    one word each
 * Answers 0; or 1 to 4, 18, 23 where there are no more, 30 (old edition) or 101, and zeros. */
uint64_t sheet_label(uint64_t edition, uint64_t letters, const uint8_t *file, size_t file_bytes, size_t i, uint64_t *name_at,
                     uint64_t *name_bytes, uint64_t *value_at, uint64_t *value_bytes);

/* Whether a file is signed: whether the `.MD5` just before M02 is the digest of what stands before it (document 02, [2]). In the old
 * edition M02 may be written `M2`.
 *   edition             the edition
 *   letters             the rule of letters
 *   file, file_bytes    the file, of any length
 *   place               one word: where it is refused, 0 where it is not
 *   digest              SHEET_DIGEST_BYTES bytes: the digest, zeros where the file is refused
 * Answers 0; or 2, 3, 24, 25 or 101. */
uint64_t sheet_signature(uint64_t edition, uint64_t letters, const uint8_t *file, size_t file_bytes, uint64_t *place, uint8_t *digest);

/* What mending changes (document 02, [13]), and where in the file: a later FS or MO with the text of the first is dropped, from its `%`;
 * a missing `M02*` is added after the last complete command; what follows that command is dropped; what follows M02 is dropped, from
 * after its `*`. */
enum sheet_change { SHEET_DROP_REPEAT = 1, SHEET_ADD_END = 2, SHEET_DROP_TAIL = 3, SHEET_DROP_AFTER_END = 4 };

/* How many bytes to lend for the mended file of a file of n bytes, and how many changes it has at most: a repeat has 4 bytes at least
 * (`%FS%`), and an end or a tail comes once. */
#define SHEET_CHANGE_WORDS 2
static inline size_t sheet_mended_for(size_t n) { return n + 4; }
static inline size_t sheet_changes_for(size_t n) { return n / 4 + 2; }

/* Mending: the file with all changes that apply is made, and read. In the old edition M02 may be written `M2`; what is added is `M02*`
 * in both.
 *   edition                       the edition
 *   letters                       the rule of letters
 *   file, file_bytes              the file, any bytes
 *   mended, mended_bytes          room for so many bytes of the mended file
 *   report, report_words          room for report_words / SHEET_CHANGE_WORDS changes, each its kind (enum sheet_change) and its place
 *   head .. numbers_count         as in sheet_read_as, for the sheet of the mended file: enough for sheet_mended_for(file_bytes) bytes
 *   bytes, changes                one word each: how many bytes the mended file has, and how many changes were made
 *   unit, rounded                 one word each, as in sheet_read_as
 * Answers 0 (then the stores hold the sheet of the mended file, the changes stand in the order of their places, and bytes and words not
 * used are 0; a file that is accepted as it is comes back unchanged, with no changes); or 1, 33, 17, in this order, or 101 (then all that
 * is lent to be written is 0). 17 is for stores, output or report that are too short. */
uint64_t sheet_mend(uint64_t edition, uint64_t letters, const uint8_t *file, size_t file_bytes, uint8_t *mended, size_t mended_bytes,
                    uint64_t *report, size_t report_words, uint64_t *head, uint64_t *entries, size_t entries_words,
                    uint64_t *apertures, size_t apertures_words, uint64_t *macros, size_t macros_words, int64_t *numbers,
                    size_t numbers_count, uint64_t *bytes, uint64_t *changes, uint64_t *unit, uint64_t *rounded);

/* The room of a placement list beside that of a reading, for a file of n bytes: a note for each D01 and D03, which has 3 bytes at least; a
 * name for each TO of `.C` or `.P` (`%TO.C*%`); a role for each AD or AB opening; and a link for each pin of the expansion whose designator
 * has a main. No more pins than the sheet has items, copies counted; where a host lends fewer it may be answered 17. */
#define SHEET_NOTE_WORDS 13
#define SHEET_NAME_WORDS 8
#define SHEET_ROLE_WORDS 8
#define SHEET_PIN_WORDS 2
static inline size_t sheet_notes_for(size_t n) { return n / 3; }
static inline size_t sheet_names_for(size_t n) { return n / 7; }
static inline size_t sheet_roles_for(size_t n) { return n / 8; }

/* The placement list of a component layer, for the assembly bench (document 02, [4]): a line for each main, with designator, x, y, rotation,
 * value, footprint and mount, parted by tabs, then one for each of its pins, a tab first, with number, x and y; x and y in millionths of the
 * unit. The file is read by the call itself.
 *   edition, letters              the edition and the rule of letters
 *   file, file_bytes              the file, any bytes
 *   head .. numbers_count         as in sheet_read_as
 *   notes, names, roles, pins     words of work room, with anything in them, and nothing said of them afterwards
 *   list, list_bytes              room for so many bytes of the list
 *   place, bytes                  one word each: where it is refused, 0 where it is not; how many bytes the list has
 * Answers 0 (then the list stands in its first bytes and zeros after it, and the stores hold the sheet); or what sheet_read_as answers with
 * its place; 34; 17 for work room that is too short; 26, 27 or 28 with the place of the first item at fault; 17 where the list does not
 * fit: in this order, or 101 before all (then the list is all zeros, bytes is 0, and the stores are as the reading leaves them). */
uint64_t sheet_placement(uint64_t edition, uint64_t letters, const uint8_t *file, size_t file_bytes, uint64_t *head, uint64_t *entries,
                         size_t entries_words, uint64_t *apertures, size_t apertures_words, uint64_t *macros, size_t macros_words,
                         int64_t *numbers, size_t numbers_count, uint64_t *notes, size_t notes_words, uint64_t *names, size_t names_words,
                         uint64_t *roles, size_t roles_words, uint64_t *pins, size_t pins_words, uint8_t *list, size_t list_bytes,
                         uint64_t *place, uint64_t *bytes);

/* The MD5 of some bytes (RFC 1321), to tell one file from another.
 *   digest    SHEET_DIGEST_BYTES bytes */
void sheet_digest(const uint8_t *bytes, size_t count, uint8_t *digest);

#ifdef __cplusplus
}
#endif
#endif
