/* A host that is written against host/sheet.h and host/store.h alone: it opens the layer on standard input, walks its items in runs, looks up what
 * each exposes, and takes the layer's labels. tests/shapes.sh compares what it prints with what was worked out by hand. */
#include <inttypes.h>

#include "store.h"

enum { RUN = 3 };

static void print_numbers(const struct layer *l, uint64_t first, uint64_t count)
{
    for (uint64_t j = 0; j < count; j++)
        printf(" %" PRId64, l->store.numbers[first + j]);
}

static void print_shape(const struct layer *l, const struct sheet_shape *shape)
{
    static const char letters[] = "-CROP";
    struct sheet_primitive p[RUN];
    if (shape->kind <= SHEET_SHAPE_P) {
        printf(" %c", letters[shape->kind]);
        print_numbers(l, shape->first, shape->count);
    }
    for (size_t i = 0; layer_primitives(l, shape->number, i, p, RUN) == SHEET_ACCEPTED; i += RUN)
        for (size_t j = 0; j < RUN && p[j].code != SHEET_NO_CODE; j++) {
            printf(" [%" PRIu64, p[j].code);
            print_numbers(l, p[j].first, p[j].count);
            putchar(']');
        }
    putchar('\n');
}

static void print_items(const struct layer *l)
{
    struct sheet_item items[RUN];
    struct sheet_shape shape = {0};
    for (uint64_t k = 0; layer_items(l, k, items, RUN) == SHEET_ACCEPTED; k += RUN)
        for (size_t i = 0; i < RUN && items[i].kind != SHEET_ZERO_ITEM; i++) {
            if (items[i].aperture != shape.number && layer_shape(l, items[i].aperture, &shape) != SHEET_ACCEPTED)
                exit(1);
            printf("item %" PRIu64 ": %s of %" PRIu64 ":", k + i, items[i].kind == SHEET_FLASH ? "flash" : "line", shape.number);
            print_shape(l, &shape);
        }
}

static void print_labels(const struct layer *l)
{
    struct sheet_label b;
    uint64_t at, count;
    for (size_t i = 0; layer_label(l, i, &b) == SHEET_ACCEPTED; i++)
        printf("label %zu: %.*s = %.*s\n", i, (int)b.name_bytes, (const char *)l->file + b.name_at, (int)b.value_bytes,
               (const char *)l->file + b.value_at);
    if (layer_attribute(l, ".FileFunction", &at, &count) == SHEET_ACCEPTED)
        printf("function: %.*s\n", (int)count, (const char *)l->file + at);
    else
        printf("function: none\n");
}

int main(void)
{
    static uint8_t file[65536];
    struct layer l = open_layer(SHEET_NEW_EDITION, SHEET_OLD_LETTERS, file, fread(file, 1, sizeof file, stdin));
    struct sheet_shape shape;
    uint64_t unknown;
    printf("layer: %" PRIu64 " at %" PRIu64 "\n", l.store.number, l.store.place);
    print_items(&l);
    print_labels(&l);
    unknown = layer_shape(&l, 999, &shape);
    if (l.store.number == SHEET_ACCEPTED)
        printf("aperture 999: %" PRIu64 ", %s\n", unknown, shape.kind || shape.count ? "not zeros" : "zeros");
    close_layer(&l);
    return 0;
}
