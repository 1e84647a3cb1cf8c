/* A sheet as a table of numbers, for the fuzzer to change (compare/draft.c). */
#ifndef DRAFT_H
#define DRAFT_H

#include <stdint.h>

/* Written by compare/sheets. */
#include "table.h"

enum { ROWS_MOST = 64 };

/* Whether rows of this kind stand in a block, and the kind of the row that counts them. */
bool counted(enum kind kind);
enum kind count_of(enum kind kind);

struct draft {
    size_t rows[KINDS];
    long value[KINDS][ROWS_MOST][FIELDS_MOST];
};

/* Chance, the same for the same seed. */
struct dice {
    uint64_t state;
};
uint64_t thrown(struct dice *dice, uint64_t sides);

/* The number, or the nearest of eleven digits: two more than a sheet's numbers have, and few enough to be doubled and added up. */
long bounded(long value);

/* What can be read of a text. Lines of no kind are left out, and a single line that is missing is that of document 01's example. */
void read_draft(struct draft *draft, const uint8_t *text, size_t length);

/* The length of the draft's text, which is cut off at `most`. */
size_t write_draft(const struct draft *draft, uint8_t *text, size_t most);

/* Changes a number, a row or a block. */
void change_draft(struct draft *draft, struct dice *dice);

/* Brings the draft to keep the rules, but for one now and then. */
void repair_draft(struct draft *draft, struct dice *dice);

#endif
