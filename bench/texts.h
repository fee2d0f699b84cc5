/* The files that are measured: a text that grows, a flat file of draws and its drawing as a film, a layer repeated. */
#include <stdint.h>
#include <stdio.h>
#include <stdlib.h>
#include <string.h>

enum { LIMIT = 16000000 };

struct text {
    char *at;
    size_t count, room;
};

static void add(struct text *t, const char *bytes, size_t n)
{
    if (t->count + n > t->room) {
        t->room = 2 * t->room + n + 4096;
        t->at = realloc(t->at, t->room);
        if (!t->at)
            exit(1);
    }
    memcpy(t->at + t->count, bytes, n);
    t->count += n;
}

static void say(struct text *t, const char *words)
{
    add(t, words, strlen(words));
}

static uint64_t seed = 1;
static int chance(int n)
{
    seed = seed * 6364136223846793005u + 1442695040888963407u;
    return (int)((seed >> 33) % (uint64_t)n);
}

static const char start[] = "%FSLAX46Y46*%\n%MOMM*%\n%ADD10C,0.1*%\n%ADD11R,1X2*%\nG01*\nG75*\n";

static void operation(struct text *t, const char *code)
{
    char line[64];
    add(t, line, (size_t)sprintf(line, "X%dY%dD%s*\n", chance(200000000), chance(200000000), code));
}

static inline struct text flat(size_t bytes)
{
    struct text t = {0};
    say(&t, start);
    say(&t, "D10*\n");
    operation(&t, "02");
    while (t.count < bytes)
        operation(&t, chance(10) ? "01" : "02");
    say(&t, "M02*\n");
    return t;
}

/* A step of so many millionths in ten digits, the zeros at its end left out. */
static inline void step(struct text *t, char letter, long size)
{
    char digits[32];
    int n = sprintf(digits, "%c%s%010ld", letter, size < 0 ? "-" : "", labs(size));
    while (digits[n - 1] == '0' && digits[n - 2] >= '0')
        n--;
    add(t, digits, (size_t)n);
}

/* The drawing of a flat file as a film of the old edition: with a code before every coordinate; or by steps, and codes of one digit. */
static inline struct text film_of(struct text flat_file, int steps)
{
    struct text t = {0};
    char line[64];
    long x = 0, y = 0;
    const char *at = flat_file.at, *end = at + flat_file.count;
    say(&t, steps ? "%FSTIX46Y46*%\n" : "%FSLAX46Y46*%\n");
    for (const char *next; at < end; at = next) {
        next = (const char *)memchr(at, '\n', (size_t)(end - at)) + 1;
        if (at[0] == 'X') {
            char *rest;
            long to_x = strtol(at + 1, &rest, 10), to_y = strtol(rest + 1, &rest, 10);
            if (steps) {
                step(&t, 'X', to_x - x);
                step(&t, 'Y', to_y - y);
                add(&t, line, (size_t)sprintf(line, "D%c*\n", rest[2]));
            } else {
                add(&t, line, (size_t)sprintf(line, "G01X%ldY%ldD0%c*\n", to_x, to_y, rest[2]));
            }
            x = to_x, y = to_y;
        } else if (memcmp(at, "%MOMM", 5) == 0) {
            say(&t, "G71*\n");
        } else if (at[0] == 'D') {
            say(&t, "G54");
            add(&t, at, (size_t)(next - at));
        } else if (memcmp(at, "%FS", 3) != 0) {
            add(&t, at, (size_t)(next - at));
        }
    }
    return t;
}

/* Everything of a layer up to the end of its aperture list, then the rest again and again. */
static inline struct text repeated(const char *name)
{
    struct text t = {0}, layer = {0};
    char piece[65536];
    size_t n;
    FILE *in = fopen(name, "rb");
    if (!in)
        return t;
    while ((n = fread(piece, 1, sizeof piece, in)) != 0)
        add(&layer, piece, n);
    fclose(in);
    add(&layer, "", 1);
    const char *list = strstr(layer.at, "G04 APERTURE END LIST*"), *end = strstr(layer.at, "M02*");
    if (!list || !end)
        return t;
    add(&t, layer.at, (size_t)(list - layer.at));
    while (t.count < LIMIT)
        add(&t, list, (size_t)(end - list));
    say(&t, "M02*\n");
    free(layer.at);
    return t;
}
