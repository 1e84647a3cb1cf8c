/* A library's answer as the harness takes it. Nothing else in compare/harness.c and compare/before.c knows the struct of the header.
 *
 * tools/same reads this twice: with include/hallviska.h for the archive after a change, and in compare/before.c for the one before it, with
 * the header that this archive came with, in which case OLDER is defined. When an answer gets one number more, `struct said` gets it, and
 * `ask` a line that takes it. An archive from before that has no such number: that line stands between `#ifndef OLDER` and `#endif`. The
 * number is then as the newer archive has said it, and so it is not compared. So it is with the field, which came with T-01; and where a
 * newer archive says 12 or 13, an older one has to say 2. Sheet 2, which came with T-03, is not for an archive from before: tools/same
 * leaves it out where it is told to.
 */
#ifndef ASK_H
#define ASK_H

#include "hallviska.h"

struct said {
    uint32_t refusal, line, field;
    uint64_t length;
};

static inline void ask(const uint8_t *sheet, size_t sheet_length, uint8_t *report, size_t room, struct said *said)
{
    struct hallviska_answer answer = hallviska_balance(sheet, sheet_length, report, room);
#ifndef OLDER
    said->refusal = answer.refusal;
    said->field = answer.field;
#else
    if (answer.refusal != 2 || (said->refusal != 12 && said->refusal != 13))
        said->refusal = answer.refusal;
#endif
    said->line = answer.line;
    said->length = answer.length;
}

/* The same of the archive before (compare/before.c). */
void ask_before(const uint8_t *sheet, size_t sheet_length, uint8_t *report, size_t room, struct said *said);

#endif
