/* A sheet as a table of numbers: read leniently, written in the sheet's order. */
#include "draft.h"

#include <stdio.h>
#include <stdlib.h>
#include <string.h>

enum kind count_of(enum kind kind)
{
    return kind == ANALYSED ? STAGES : kind - 1;
}

bool counted(enum kind kind)
{
    return kind > SHEET && forms[count_of(kind)].counts;
}

long bounded(long value)
{
    const long most = 99999999999;
    return value < -most ? -most : value > most ? most : value;
}

/* A stage of sheet 2 has the key of one of sheet 1, and more fields. */
static bool analysed(const char *line)
{
    size_t fields = 1;
    for (; *line; line++)
        fields += *line == ',';
    return fields >= forms[ANALYSED].fields;
}

static void read_row(struct draft *draft, const char *line)
{
    for (enum kind kind = SHEET; kind < KINDS; kind++) {
        size_t key = strlen(forms[kind].key);
        size_t most = counted(kind) ? ROWS_MOST : 1;
        if (strncmp(line, forms[kind].key, key) != 0 || line[key] != '=' || draft->rows[kind] == most)
            continue;
        if (kind == STAGE && analysed(line))
            continue;
        long *row = draft->value[kind][draft->rows[kind]++];
        const char *at = line + key + 1;
        for (size_t field = 0; field < forms[kind].fields; field++) {
            char *behind;
            row[field] = bounded(strtol(at, &behind, 10));
            at = *behind == ',' ? behind + 1 : behind;
        }
        return;
    }
}

void read_draft(struct draft *draft, const uint8_t *text, size_t length)
{
    memset(draft->rows, 0, sizeof draft->rows);
    for (size_t at = 0; at < length;) {
        char line[160];
        const uint8_t *behind = memchr(text + at, '\n', length - at);
        size_t width = behind ? (size_t)(behind - text) - at : length - at;
        size_t kept = width < sizeof line ? width : sizeof line - 1;
        memcpy(line, text + at, kept);
        line[kept] = '\0';
        read_row(draft, line);
        at += width + 1;
    }
    for (enum kind kind = SHEET; kind < KINDS; kind++)
        if (draft->rows[kind] == 0 && !counted(kind)) {
            memcpy(draft->value[kind][0], forms[kind].example, sizeof forms[kind].example);
            draft->rows[kind] = 1;
        }
}

/* A number's digits, at most 21 bytes. */
static size_t write_number(long value, uint8_t *text)
{
    uint8_t digits[20];
    size_t count = 0, at = 0;
    unsigned long rest = value < 0 ? -(unsigned long)value : (unsigned long)value;
    do
        digits[count++] = (uint8_t)('0' + rest % 10);
    while (rest /= 10);
    if (value < 0)
        text[at++] = '-';
    while (count)
        text[at++] = digits[--count];
    return at;
}

size_t write_draft(const struct draft *draft, uint8_t *text, size_t most)
{
    size_t at = 0;
    for (enum kind kind = SHEET; kind < KINDS; kind++)
        for (size_t row = 0; row < draft->rows[kind]; row++) {
            uint8_t line[16 + FIELDS_MOST * 22];
            size_t width = strlen(forms[kind].key);
            memcpy(line, forms[kind].key, width);
            for (size_t field = 0; field < forms[kind].fields; field++) {
                line[width++] = field == 0 ? '=' : ',';
                width += write_number(draft->value[kind][row][field], line + width);
            }
            line[width++] = '\n';
            if (width > most - at)
                width = most - at;
            memcpy(text + at, line, width);
            at += width;
        }
    return at;
}
