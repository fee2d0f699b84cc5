/* What a refusal means, in a sentence for people: for the sample host and the program mend. docs/REFUSALS.md has a page on each. */
#ifndef REFUSALS_H
#define REFUSALS_H

#include <inttypes.h>
#include <stdio.h>

#include "sheet.h"

static const char *const refusal_sentences[] = {
    [SHEET_TOO_LONG] = "the file is longer than 16,777,216 bytes",
    [SHEET_BYTE] = "this byte may not stand here: a control character, a line end inside a command, or a letter beyond ASCII",
    [SHEET_ENDS] = "the file stops inside a command, or before its end, M02",
    [SHEET_FORM] = "this command is not known, or is not written in its form",
    [SHEET_RANGE] = "a number has too many digits, or lies outside its range",
    [SHEET_FORMAT] = "FS or MO is given twice, or is missing where it is needed",
    [SHEET_NOT_HERE] = "this command may not stand here, or a region, a block or a repeat is still open at M02",
    [SHEET_NAME] = "this aperture or macro is not defined, or its number or name is already taken",
    [SHEET_EXPRESSION] = "a macro divides by zero, or works out a number that is too large",
    [SHEET_PARAMETER] = "a parameter is outside its rule, or there are too many or too few of them",
    [SHEET_STATE] = "this cannot be drawn now: the point, the aperture, the mode, or I and J do not fit",
    [SHEET_CENTRE] = "the centre of the arc makes no sense",
    [SHEET_CONTOUR] = "the contour does not end where it began",
    [SHEET_BLOCK] = "a block is flashed scaled, or turned by other than quarter turns",
    [SHEET_DEEP] = "blocks, or the parentheses of a macro, are nested too deep",
    [SHEET_ITEMS] = "this makes more than 10^12 items",
    [SHEET_ROOM] = "the room that was lent is used up",
    [SHEET_AFTER_END] = "something follows M02, the end of the file",
    [SHEET_FILE_ATTRIBUTE] = "this file attribute is already set",
    [SHEET_PAST] = "there is no such item: items are counted from 0, and there are not so many",
    [SHEET_NOT_SHEET] = "the words that were lent are not a sheet that a reading left",
    [SHEET_NO_COMMAND] = "no command begins at the place asked",
    [SHEET_NOT_HELD] = "this attribute is not set at the command asked",
    [SHEET_OTHER_DIGEST] = "the signature is not that of this file: a byte was changed after it was signed",
    [SHEET_UNSIGNED] = "no signature stands just before M02",
    [SHEET_PART_UNNAMED] = "a component has no designator: .C is missing at its main or its outline, or .P at a pin",
    [SHEET_PART_REPEATS] = "the designator of this component is already taken",
    [SHEET_OUTLINE] = "the outline of this component is not closed",
    [SHEET_OWN_MOVE] = "this contour begins without a move of its own, a D02 since G36",
    [SHEET_UNREAD] = "this command of the old book is not read: AS, MI, OF, SF, IP, IR, KO, LN, SM, or FS with 7 places",
    [SHEET_QUADRANT] = "no centre of this single quadrant arc fits, or two fit alike",
    [SHEET_NO_ADDRESS] = "no item has this address",
    [SHEET_UNMENDED] = "it is broken in a way that may not be mended; ask the sender for it again",
    [SHEET_NOT_COMPONENT] = "this is not a component layer",
    [SHEET_NO_BOOK] = "the edition or the rule of letters is not known",
};

/* The sentence of a number, or of none that is known. */
static inline const char *refusal_sentence(uint64_t number)
{
    const char *sentence = number < sizeof refusal_sentences / sizeof *refusal_sentences ? refusal_sentences[number] : NULL;
    return sentence ? sentence : "a number that is not known here";
}

/* Tells on standard error why a file, or a question about it, was refused. */
static inline void tell_refusal(const char *program, uint64_t number)
{
    fprintf(stderr, "%s: refused with %" PRIu64 ": %s (docs/REFUSALS.md)\n", program, number, refusal_sentence(number));
}

#endif
