/* mend: takes a layer file on standard input and writes the mended file to standard output (document 02, [13]).
 *
 *   mend [--edition new|old] [--letters old|new] <FILE >MENDED
 *
 * The file is read by the newer edition and the old letters where nothing else is said.
 * What was done stands on standard error, a line for each change; a file that needs none comes back as it is. A file that cannot be
 * mended is not written at all: standard error says why, and the exit status is 1, as it is where a file cannot be read or written. */
#include <errno.h>
#include <inttypes.h>
#include <string.h>

#include "mending.h"
#include "refusals.h"

/* No more numbers than these are lent; sheet.h says why there is no room that is always enough. */
static const size_t most_numbers = (size_t)1 << 24;

static int fail(const char *what)
{
    fprintf(stderr, "mend: %s\n", what);
    return 1;
}

/* Standard input, or as much of it as tells that it is too long. */
static uint8_t *all_of_input(size_t *count)
{
    size_t room = SHEET_FILE_LIMIT + 1;
    uint8_t *file = lend(room, 1);
    *count = fread(file, 1, room, stdin);
    return file;
}

static struct room room_for(size_t n)
{
    struct room r = {sheet_entries_for(n), sheet_apertures_for(n), sheet_macros_for(n), sheet_numbers_for(n)};
    if (r.numbers > most_numbers)
        r.numbers = most_numbers;
    return r;
}

static void tell(uint64_t kind, uint64_t place, const uint8_t *file, size_t count)
{
    uint64_t gone = count - place;
    fprintf(stderr, "mend: at byte %" PRIu64 ": ", place);
    switch (kind) {
    case SHEET_DROP_REPEAT:
        fprintf(stderr, "%.2s stands there once more, word for word as the first time; the repeat is taken out\n",
                (const char *)file + place + 1);
        break;
    case SHEET_ADD_END:
        fprintf(stderr, "the file stops without its end; M02* is added after the last whole command\n");
        break;
    case SHEET_DROP_TAIL:
        fprintf(stderr, "what follows that command is no whole command; %" PRIu64 " byte%s taken off\n", gone, gone == 1 ? " is" : "s are");
        break;
    default:
        fprintf(stderr, "more follows the command that ends the file; %" PRIu64 " byte%s taken off\n", gone, gone == 1 ? " is" : "s are");
    }
}

static int refuse(uint64_t number)
{
    fprintf(stderr, "mend: not mended (%" PRIu64 "): %s\n", number, refusal_sentence(number));
    return 1;
}

int main(int argc, char **argv)
{
    struct book book = plain_book;
    if (!take_book(&argc, argv, &book) || argc != 1) {
        fputs("usage: mend [--edition new|old] [--letters old|new] <FILE >MENDED\n", stderr);
        return 2;
    }
    size_t count;
    uint8_t *file = all_of_input(&count);
    if (ferror(stdin))
        return fail("the file cannot be read");
    struct mended m = mend_with(book, file, count, room_for(count > SHEET_FILE_LIMIT ? 0 : sheet_mended_for(count)));
    if (m.number != SHEET_ACCEPTED)
        return refuse(m.number);
    for (size_t i = 0; i < m.changes; i++)
        tell(m.report[i * SHEET_CHANGE_WORDS], m.report[i * SHEET_CHANGE_WORDS + 1], file, count);
    if (m.changes == 0)
        fputs("mend: nothing to mend; the file is as it was\n", stderr);
    if (fwrite(m.file, 1, (size_t)m.bytes, stdout) != m.bytes || fflush(stdout) != 0)
        return fail(strerror(errno));
    give_back_mended(&m);
    free(file);
    return 0;
}
