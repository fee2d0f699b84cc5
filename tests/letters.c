/* letters N HALF: reads every string of up to N bytes from 128 up as a field, `%TFa,` string `*%`, by the newer edition and the new rule of
 * letters, over rooms of no record; half 1 are the strings whose first byte is below 192, half 2 the others, so that two processors can share
 * them. Such a file has no M02, and is refused with 2 at the fault or with 3. Prints for each length the half, how many strings there are, how
 * many of them without fault, and the FNV-1a hash of their numbers and places, a byte each, as `second letters N --letters new` does of
 * both halves. */
#include <inttypes.h>
#include <stdio.h>
#include <stdlib.h>
#include <string.h>

#include "../host/sheet.h"

enum { LONGEST = 4, HEAD = 5 };

static uint64_t with_byte(uint64_t hash, uint64_t byte)
{
    return (hash ^ (byte & 255)) * 0x100000001b3;
}

/* The next string of the same length, of bytes from 128 up; 0 after the last. */
static int next(uint8_t *text, size_t length)
{
    while (length > 0) {
        length--;
        if (text[length] < 255) {
            text[length]++;
            return 1;
        }
        text[length] = 128;
    }
    return 0;
}

static void all_of(size_t length, unsigned long half)
{
    uint64_t head[SHEET_HEAD_WORDS], none[1], place, unit, rounded, hash = 0xcbf29ce484222325, count = 0, good = 0;
    int64_t numbers[1];
    uint8_t file[HEAD + LONGEST + 2] = "%TFa,";
    memset(file + HEAD, 128, length);
    file[HEAD] = half == 1 ? 128 : 192;
    memcpy(file + HEAD + length, "*%", 2);
    do {
        uint64_t number = sheet_read_as(SHEET_NEW_EDITION, SHEET_NEW_LETTERS, file, HEAD + length + 2, head, none, 0, none, 0, none, 0,
                                        numbers, 0, &place, &unit, &rounded);
        hash = with_byte(with_byte(hash, number), place);
        count++;
        good += number != SHEET_BYTE;
    } while (next(file + HEAD, length) && (half == 2 || file[HEAD] < 192));
    printf("letters\t%zu\t%lu\t%" PRIu64 "\t%" PRIu64 "\t%016" PRIx64 "\n", length, half, count, good, hash);
}

int main(int words, char **word)
{
    unsigned long longest = words == 3 ? strtoul(word[1], NULL, 10) : LONGEST + 1, half = words == 3 ? strtoul(word[2], NULL, 10) : 0;
    if (longest > LONGEST || half < 1 || half > 2) {
        fprintf(stderr, "usage: letters N HALF, N at most %d, HALF 1 or 2\n", LONGEST);
        return 2;
    }
    for (size_t length = 1; length <= longest; length++)
        all_of(length, half);
    return 0;
}
