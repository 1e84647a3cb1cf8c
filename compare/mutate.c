/* How the fuzzer comes from one sheet to another: by the numbers, by the lines, and by the bytes. */
#include <string.h>

#include "draft.h"
#include "fuzz.h"

enum { SHEET_MOST = 1 << 16 };

static struct draft draft, donor;

struct part {
    size_t from, to;
};

/* A line with its LF, by chance. */
static struct part some_line(const uint8_t *text, size_t length, struct dice *dice)
{
    size_t from = thrown(dice, length), to = from;
    while (from > 0 && text[from - 1] != '\n')
        from--;
    while (to < length && text[to] != '\n')
        to++;
    return (struct part){from, to < length ? to + 1 : to};
}

/* Puts `width` bytes in the place of a part. What no longer fits is lost at the end. */
static size_t replace(uint8_t *text, size_t length, size_t most, struct part part, const uint8_t *bytes, size_t width)
{
    size_t rest = length - part.to;
    if (width > most - part.from)
        width = most - part.from;
    if (rest > most - part.from - width)
        rest = most - part.from - width;
    memmove(text + part.from + width, text + part.to, rest);
    memcpy(text + part.from, bytes, width);
    return part.from + width + rest;
}

/* What stands where a number should, or where nothing should. */
static const char *const oddities[] = {"-0",  "00",   "01", "+1",   "-",  "",     " 1", "1 ",  "1.0", "0x1", "1000000000", "0000000001",
                                       "\r",  "\n",   "=",  ",",    ",,", "\r\n", "\t", "end", "é",   "1e3", "-1000000000", "0",
                                       "--1", "\xff", "#",  "end=1"};

static size_t put_oddity(uint8_t *text, size_t length, size_t most, struct dice *dice)
{
    /* nothing may follow the last line, so the end is a place of its own */
    size_t from = thrown(dice, 8) ? thrown(dice, length) : length, to = from == length ? from : from + thrown(dice, 2);
    uint64_t which = thrown(dice, sizeof oddities / sizeof *oddities + 1);
    /* half the time a whole number is replaced */
    if (from < length && thrown(dice, 2)) {
        while (from > 0 && text[from - 1] >= '-' && text[from - 1] <= '9')
            from--;
        while (to < length && text[to] >= '-' && text[to] <= '9')
            to++;
    }
    if (which == sizeof oddities / sizeof *oddities)
        return replace(text, length, most, (struct part){from, to}, (const uint8_t *)"", 1);
    return replace(text, length, most, (struct part){from, to}, (const uint8_t *)oddities[which], strlen(oddities[which]));
}

static size_t change_text(uint8_t *text, size_t length, size_t most, struct dice *dice)
{
    static uint8_t line[SHEET_MOST];
    if (length == 0)
        return replace(text, 0, most, (struct part){0, 0}, (const uint8_t *)"sheet=1\n", 8);
    struct part one = some_line(text, length, dice), other = some_line(text, length, dice);
    size_t width = one.to - one.from;
    memcpy(line, text + one.from, width);
    switch (thrown(dice, 16)) {
    case 0:
        return replace(text, length, most, one, line, 0);
    case 1:
    case 2:
        return replace(text, length, most, (struct part){other.from, other.from}, line, width);
    case 3:
        return replace(text, length, most, other, line, width);
    case 4:
        return thrown(dice, length + 1);
    case 5:
        return one.to;
    case 6:
        return replace(text, length, most, (struct part){length, length}, line, 1 + thrown(dice, width));
    case 7:
        /* up to the longest sheet and beyond it */
        if (thrown(dice, 32) == 0)
            for (size_t due = SHEET_LONGEST - 2 + thrown(dice, 5); length < due && length < most;)
                length = replace(text, length, most < due ? most : due, (struct part){one.to, one.to}, line, width);
        return length;
    default:
        return put_oddity(text, length, most, dice);
    }
}

/* Writes the draft, now and then with a fault in the text. */
static size_t finish(uint8_t *data, size_t most, struct dice *dice)
{
    repair_draft(&draft, dice);
    size_t size = write_draft(&draft, data, most);
    return thrown(dice, 12) ? size : change_text(data, size, most, dice);
}

size_t LLVMFuzzerCustomMutator(uint8_t *data, size_t size, size_t most, unsigned seed)
{
    struct dice dice = {seed};
    uint64_t way = thrown(&dice, 8);
    if (most > SHEET_MOST || way == 0)
        return LLVMFuzzerMutate(data, size, most);
    if (way == 1) {
        for (uint64_t changes = 1 + thrown(&dice, 2); changes > 0; changes--)
            size = change_text(data, size, most, &dice);
        return size;
    }
    read_draft(&draft, data, size);
    for (uint64_t changes = 1 + thrown(&dice, thrown(&dice, 4) ? 3 : 24); changes > 0; changes--)
        change_draft(&draft, &dice);
    return finish(data, most, &dice);
}

/* Some blocks and lines of one sheet in the place of another's. */
size_t LLVMFuzzerCustomCrossOver(const uint8_t *one, size_t one_size, const uint8_t *other, size_t other_size, uint8_t *out, size_t most,
                                 unsigned seed)
{
    struct dice dice = {seed};
    read_draft(&draft, one, one_size);
    read_draft(&donor, other, other_size);
    for (enum kind kind = SHEET; kind < KINDS; kind++)
        if (thrown(&dice, 3) == 0) {
            draft.rows[kind] = donor.rows[kind];
            memcpy(draft.value[kind], donor.value[kind], donor.rows[kind] * sizeof *donor.value[kind]);
        }
    return finish(out, most, &dice);
}
