/* The archive before a change, under a name of its own: tools/same links this with that archive, and hides every other name of the two. */
#include "ask.h"

void ask_before(const uint8_t *sheet, size_t sheet_length, uint8_t *report, size_t room, struct said *said)
{
    ask(sheet, sheet_length, report, room, said);
}
