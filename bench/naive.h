/* A naive reader, to compare with: it trusts its file, looks for no fault that it does not fall over, and builds the expanded array of
 * items. Room grows by realloc. */
#include <stdint.h>
#include <stdlib.h>
#include <string.h>

#include "sheet.h"

struct naive_list {
    struct sheet_item *at;
    size_t count, room;
};

struct naive_aperture {
    uint64_t number;
    int is_block;
    struct naive_list block;
};

struct naive {
    struct naive_aperture *apertures;
    size_t count, room, current;
    struct naive_list levels[10];
    size_t open[10], depth;
    int64_t x, y;
    int mode, clear, flip, region, edges;
    size_t contour;
    uint64_t angle, scale, across, up;
    int64_t step_x, step_y;
};

static struct sheet_item *naive_add(struct naive_list *l)
{
    if (l->count == l->room) {
        l->room = l->room ? 2 * l->room : 256;
        l->at = realloc(l->at, l->room * sizeof *l->at);
        if (!l->at)
            exit(1);
    }
    return &l->at[l->count++];
}

static void naive_turn(int64_t *x, int64_t *y, int flip, uint64_t angle, int64_t dx, int64_t dy)
{
    int64_t a = flip ? -*x : *x, b = *y, t;
    for (uint64_t q = angle / 90000000; q > 0; q--)
        t = a, a = -b, b = t;
    *x = a + dx, *y = b + dy;
}

/* Copies of the items from..to of a list, placed, at the end of another; by a flash at a place, or by a repeat (-1). */
static void naive_place(struct naive_list *out, const struct naive_list *in, size_t from, size_t to, int flip, int clear, uint64_t angle,
                        int64_t dx, int64_t dy, int64_t flash)
{
    for (size_t i = from; i < to; i++) {
        struct sheet_item t = in->at[i];
        int arc = t.kind == 2 || t.kind == 3 || t.kind >= 7;
        if (t.kind != 4)
            naive_turn(&t.start_x, &t.start_y, flip, angle, dx, dy);
        if (t.kind != 5)
            naive_turn(&t.end_x, &t.end_y, flip, angle, dx, dy);
        if (arc)
            naive_turn(&t.centre_x, &t.centre_y, flip, angle, dx, dy);
        if (arc && flip)
            t.kind = t.kind == 2 ? 3 : t.kind == 3 ? 2 : t.kind == 7 ? 8 : 7;
        if (t.kind < 5) {
            t.angle = (flip ? angle + 360000000 - t.angle : angle + t.angle) % 360000000;
            t.flip ^= (uint64_t)flip;
        }
        t.clear ^= (uint64_t)clear;
        if (flash >= 0)
            t.outer = (uint64_t)flash;
        *naive_add(out) = t;
    }
}

static int64_t naive_number(const uint8_t **p)
{
    int64_t v = 0;
    int minus = **p == '-';
    if (**p == '-' || **p == '+')
        ++*p;
    while (**p >= '0' && **p <= '9')
        v = v * 10 + *(*p)++ - '0';
    return minus ? -v : v;
}

/* A decimal in millionths. */
static int64_t naive_decimal(const uint8_t **p)
{
    int minus = **p == '-', places = 6;
    int64_t v = naive_number(p) * (minus ? -1 : 1);
    if (**p == '.')
        for (++*p; **p >= '0' && **p <= '9'; ++*p)
            if (places > 0)
                v = v * 10 + **p - '0', places--;
    while (places-- > 0)
        v *= 10;
    return minus ? -v : v;
}

static size_t naive_find(const struct naive *s, uint64_t number)
{
    for (size_t i = 0; i < s->count; i++)
        if (s->apertures[i].number == number)
            return i;
    return 0;
}

static struct naive_aperture *naive_define(struct naive *s, uint64_t number)
{
    if (s->count == s->room) {
        s->room = s->room ? 2 * s->room : 64;
        s->apertures = realloc(s->apertures, s->room * sizeof *s->apertures);
        if (!s->apertures)
            exit(1);
    }
    struct naive_aperture a = {number, 0, {NULL, 0, 0}};
    s->apertures[s->count] = a;
    return &s->apertures[s->count++];
}

static void naive_operation(struct naive *s, const uint8_t *p, const uint8_t *file)
{
    const uint8_t *from = p;
    struct naive_list *out = &s->levels[s->depth];
    int64_t x = s->x, y = s->y, i = 0, j = 0;
    for (; *p != 'D'; ) {
        uint8_t c = *p++;
        int64_t v = naive_number(&p);
        if (c == 'X') x = v;
        if (c == 'Y') y = v;
        if (c == 'I') i = v;
        if (c == 'J') j = v;
    }
    int code = p[2] - '0';
    struct sheet_item t = {0, 0, (uint64_t)s->clear, 0, 0, 1000000, 0, 0, 0, 0, 0, 0, 0, (uint64_t)(from - file), (uint64_t)(from - file)};
    if (code == 1 || code == 3) {
        const struct naive_aperture *a = s->count ? &s->apertures[s->current] : NULL;
        if (code == 3 && a && a->is_block) {
            naive_place(out, &a->block, 0, a->block.count, s->flip, s->clear, s->angle, x, y, from - file);
        } else {
            if (s->region && s->edges == 0) {
                struct sheet_item c = t;
                c.kind = 5, c.start_x = s->x, c.start_y = s->y;
                s->contour = out->count;
                *naive_add(out) = c;
            }
            t.kind = code == 3 ? 4 : (uint64_t)s->mode + (s->region ? 5 : 0);
            if (!s->region) {
                t.aperture = a ? a->number : 0;
                t.flip = (uint64_t)s->flip, t.angle = s->angle, t.scale = s->scale;
            } else {
                s->edges++;
                out->at[s->contour].count = (uint64_t)s->edges;
            }
            if (code == 1)
                t.start_x = s->x, t.start_y = s->y;
            t.end_x = x, t.end_y = y;
            if (code == 1 && s->mode > 1)
                t.centre_x = s->x + i, t.centre_y = s->y + j;
            *naive_add(out) = t;
        }
    } else {
        s->edges = 0;
    }
    s->x = x, s->y = y;
}

static void naive_word(struct naive *s, const uint8_t *p, const uint8_t *file)
{
    if (p[0] == 'G') {
        int n = (p[1] - '0') * 10 + p[2] - '0';
        if (n >= 1 && n <= 3) s->mode = n;
        if (n == 36) s->region = 1, s->edges = 0;
        if (n == 37) s->region = 0, s->edges = 0;
    } else if (p[0] == 'D' && !(p[1] == '0' && p[3] == '*')) {
        p++;
        s->current = naive_find(s, (uint64_t)naive_number(&p));
    } else if (p[0] == 'X' || p[0] == 'Y' || p[0] == 'D') {
        naive_operation(s, p, file);
    }
}

static void naive_extended(struct naive *s, const uint8_t *p)
{
    if (p[0] == 'A' && p[1] == 'D') {
        p += 3;
        naive_define(s, (uint64_t)naive_number(&p));
    } else if (p[0] == 'A' && p[1] == 'B' && p[2] == 'D') {
        p += 3;
        naive_define(s, (uint64_t)naive_number(&p));
        s->open[++s->depth] = s->count - 1;
        memset(&s->levels[s->depth], 0, sizeof s->levels[0]);
    } else if (p[0] == 'A' && p[1] == 'B') {
        s->apertures[s->open[s->depth]].is_block = 1;
        s->apertures[s->open[s->depth]].block = s->levels[s->depth];
        s->depth--;
    } else if (p[0] == 'S' && p[1] == 'R' && p[2] == 'X') {
        p += 3, s->across = (uint64_t)naive_number(&p);
        p++, s->up = (uint64_t)naive_number(&p);
        p++, s->step_x = naive_decimal(&p);
        p++, s->step_y = naive_decimal(&p);
        memset(&s->levels[++s->depth], 0, sizeof s->levels[0]);
    } else if (p[0] == 'S' && p[1] == 'R') {
        struct naive_list body = s->levels[s->depth--];
        for (uint64_t x = 0; x < s->across; x++)
            for (uint64_t y = 0; y < s->up; y++)
                naive_place(&s->levels[s->depth], &body, 0, body.count, 0, 0, 0, (int64_t)x * s->step_x, (int64_t)y * s->step_y, -1);
        free(body.at);
    } else if (p[0] == 'L' && p[1] == 'P') {
        s->clear = p[2] == 'C';
    } else if (p[0] == 'L' && p[1] == 'M') {
        s->flip = p[2] == 'X' && p[3] != 'Y';
    } else if (p[0] == 'L' && p[1] == 'R') {
        p += 2, s->angle = (uint64_t)naive_decimal(&p);
    } else if (p[0] == 'L' && p[1] == 'S') {
        p += 2, s->scale = (uint64_t)naive_decimal(&p);
    }
}

/* The items of a file, each with room of its own; the caller frees them. */
static struct naive_list naive_read(const uint8_t *file, size_t bytes)
{
    static struct naive s;
    const uint8_t *p = file, *end = file + bytes;
    memset(&s, 0, sizeof s);
    s.scale = 1000000;
    while (p < end && p[0] != 'M') {
        if (*p == '\n' || *p == '\r') {
            p++;
        } else if (*p == '%') {
            naive_extended(&s, p + 1);
            p = (const uint8_t *)memchr(p + 1, '%', (size_t)(end - p - 1)) + 1;
        } else {
            naive_word(&s, p, file);
            p = (const uint8_t *)memchr(p, '*', (size_t)(end - p)) + 1;
        }
    }
    for (size_t i = 0; i < s.count; i++)
        free(s.apertures[i].block.at);
    free(s.apertures);
    return s.levels[0];
}

/* One pass that looks up a class for every byte and counts the classes. */
static inline uint64_t classify(const uint8_t *file, size_t bytes)
{
    static uint8_t class_of[256];
    uint64_t seen[8] = {0}, sum = 0;
    for (int c = 0; c < 256; c++)
        class_of[c] = c == '*' ? 1 : c == '%' ? 2 : c == '\n' || c == '\r' ? 3 : c >= '0' && c <= '9' ? 4 : c >= 32 && c <= 126 ? 5 : 6;
    for (size_t i = 0; i < bytes; i++)
        seen[class_of[file[i]]]++;
    for (int c = 0; c < 8; c++)
        sum = sum * 31 + seen[c];
    return sum;
}
