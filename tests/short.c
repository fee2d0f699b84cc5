/* short N [--edition new|old] [--letters old|new]: reads every string of up to N bytes as a file, over rooms of no record, and prints how
 * many there are and the FNV-1a hash of their numbers and places, a byte each, as `second short` does with the same words. */
#include <inttypes.h>
#include <stdio.h>
#include <stdlib.h>

#include "../host/book.h"

enum { LONGEST = 4 };

static uint64_t with_byte(uint64_t hash, uint64_t byte)
{
    return (hash ^ (byte & 255)) * 0x100000001b3;
}

/* The next string of the same length; 0 after the last. */
static int next(uint8_t *file, size_t length)
{
    while (length > 0)
        if (++file[--length] != 0)
            return 1;
    return 0;
}

int main(int words, char **word)
{
    struct book book = plain_book;
    int known = take_book(&words, word, &book);
    unsigned long longest = words == 2 ? strtoul(word[1], NULL, 10) : LONGEST + 1;
    if (!known || longest > LONGEST) {
        fprintf(stderr, "usage: short N [--edition new|old] [--letters old|new], N at most %d\n", LONGEST);
        return 2;
    }
    uint64_t head[SHEET_HEAD_WORDS], none[1], place, unit, rounded, hash = 0xcbf29ce484222325, count = 0;
    int64_t numbers[1];
    for (size_t length = 0; length <= longest; length++) {
        uint8_t file[LONGEST + 1] = {0};
        do {
            uint64_t number = sheet_read_as(book.edition, book.letters, file, length, head, none, 0, none, 0, none, 0, numbers, 0, &place,
                                            &unit, &rounded);
            hash = with_byte(with_byte(hash, number), place);
            count++;
        } while (next(file, length));
    }
    printf("short\t%lu\t%" PRIu64 "\t%016" PRIx64 "\n", longest, count, hash);
    return 0;
}
