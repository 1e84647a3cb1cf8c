/* Holds the exported functions to their header: boundary SHEET..., each NAME.sheet with its answer beside it in NAME.report.
 *
 * Every sheet is handed over whole; an accepted one also torn at every byte, with every byte spoilt, and lengthened past the limit. Each
 * of these is tried in rooms around the length that its report needs. A page that may not be touched lies before and behind what is lent,
 * so that a single byte read or written outside ends the run, and the bytes around the report's room are looked at after each call.
 * It prints one line of counts, or the first difference and ends with status 1.
 */
#define _DEFAULT_SOURCE
#include <signal.h>
#include <stdarg.h>
#include <stdbool.h>
#include <stdio.h>
#include <stdlib.h>
#include <string.h>
#include <sys/mman.h>
#include <unistd.h>

#include "hallviska.h"

/* What callers of this version were compiled with. Whoever changes a struct or a refusal gives the header its next number, and this the new
 * layout; a function that is added brings its own. */
_Static_assert(HALLVISKA_VERSION == 1 && sizeof(struct hallviska_answer) == 24 && offsetof(struct hallviska_answer, refusal) == 0
                   && offsetof(struct hallviska_answer, line) == 4 && offsetof(struct hallviska_answer, field) == 8
                   && offsetof(struct hallviska_answer, length) == 16 && HALLVISKA_ACCEPTED == 0 && HALLVISKA_ANALYSIS == 14,
               "the layout or the refusals are another: HALLVISKA_VERSION has to grow");
_Static_assert(HALLVISKA_VERSION == 1 && sizeof(struct hallviska_mean) == 12 && offsetof(struct hallviska_mean, refusal) == 0
                   && offsetof(struct hallviska_mean, reading) == 4 && offsetof(struct hallviska_mean, mean) == 8
                   && HALLVISKA_READINGS_TAKEN == 0 && HALLVISKA_READINGS_LENGTH == 18 && HALLVISKA_READING_OUTSIDE == 20,
               "the layout or the refusals of the mean are another: HALLVISKA_VERSION has to grow");

enum { SHEET_LENT = 5 * 4096, REPORT_LENT = 4096, ROOM_MOST = HALLVISKA_REPORT_MOST };

/* What a sheet is due: the answer in a room that is large enough, and the report. */
struct due {
    uint32_t refusal, line, field;
    size_t length;
    uint8_t report[ROOM_MOST];
};

static uint8_t *sheet_lent, *report_lent;
static char where[300];
static unsigned long calls, accepted, refused, torn, spoilt, lengthened;

static _Noreturn void fail(const char *form, ...)
{
    va_list words;
    va_start(words, form);
    printf("boundary: %s: ", where);
    vprintf(form, words);
    printf("\n");
    va_end(words);
    exit(1);
}

/* Only what may be called from a signal's handler is called here. */
static void touched(int signal)
{
    static const char words[] = ": a byte outside what was lent is read or written\n";
    (void)signal;
    if (write(STDOUT_FILENO, where, strlen(where)) < 0 || write(STDOUT_FILENO, words, sizeof words - 1) < 0)
        _exit(2);
    _exit(1);
}

/* `length` bytes, a multiple of the page's, between two pages that may not be touched. */
static uint8_t *between_guards(size_t length)
{
    size_t page = (size_t)sysconf(_SC_PAGESIZE);
    uint8_t *begin = mmap(NULL, length + 2 * page, PROT_NONE, MAP_PRIVATE | MAP_ANONYMOUS, -1, 0);
    if (begin == MAP_FAILED || length % page != 0 || mprotect(begin + page, length, PROT_READ | PROT_WRITE) != 0) {
        perror("boundary: no guarded memory");
        exit(2);
    }
    return begin + page;
}

static bool all(const uint8_t *bytes, size_t length, uint8_t value)
{
    return length == 0 || (bytes[0] == value && memcmp(bytes, bytes + 1, length - 1) == 0);
}

/* One call with sheet and room both at the end or both at the beginning of their memory, so that each meets either guard. All other bytes
 * of the report's memory hold `fill`. */
static void call(const uint8_t *sheet, size_t length, const struct due *due, size_t room, bool at_end, uint8_t fill)
{
    bool fits = due->refusal != 0 || due->length <= room;
    uint32_t refusal = fits ? due->refusal : HALLVISKA_NO_ROOM;
    uint32_t line = fits ? due->line : 0, field = fits ? due->field : 0;
    size_t written = fits ? due->length : 0;
    uint8_t *lent_sheet = at_end ? sheet_lent + SHEET_LENT - length : sheet_lent;
    uint8_t *report = at_end ? report_lent + REPORT_LENT - room : report_lent;

    memcpy(lent_sheet, sheet, length);
    memset(report_lent, fill, REPORT_LENT);
    struct hallviska_answer answer = hallviska_balance(lent_sheet, length, report, room);
    calls++;

    if (answer.refusal != refusal || answer.line != line || answer.field != field || answer.length != written)
        fail("in a room of %zu: refusal %u, line %u, field %u, length %zu are due, not %u, %u, %u, %zu", room, (unsigned)refusal,
             (unsigned)line, (unsigned)field, written, (unsigned)answer.refusal, (unsigned)answer.line, (unsigned)answer.field,
             answer.length);
    if (memcmp(report, due->report, written) != 0)
        fail("in a room of %zu: another report than the one that is due", room);
    if (!all(report_lent, (size_t)(report - report_lent), fill))
        fail("in a room of %zu: a byte before the room has changed", room);
    if (!all(report + written, (size_t)(report_lent + REPORT_LENT - (report + written)), fill))
        fail("in a room of %zu: a byte after the %zu written has changed", room, written);
    if (memcmp(lent_sheet, sheet, length) != 0)
        fail("in a room of %zu: the sheet has changed", room);
}

/* `needed` is the length of the report of the whole sheet, so that what is torn from it is tried in the same rooms. */
static void try_rooms(const uint8_t *sheet, size_t length, const struct due *due, size_t needed)
{
    const size_t rooms[] = {0, 1, needed - 1, needed, needed + 1, ROOM_MOST};
    for (int i = 0; i < 6; i++) {
        /* Two fills at either end, for a byte that is written over by its like is not seen. */
        call(sheet, length, due, rooms[i], true, i % 2 ? 0x5a : 0xa5);
        call(sheet, length, due, rooms[i], false, i % 2 ? 0xa5 : 0x5a);
    }
}

static struct due refusal(uint32_t number, uint32_t line, uint32_t field)
{
    struct due due = {number, line, field, 0, {0}};
    return due;
}

/* What is due where an x stands for the byte at this place of a good sheet, in this line and field, the key being field 0: no key and no
 * number has an x in it. In a key, for `=` and for a comma the line is not the one that is due. Two lines run together have as many fields
 * as the first only where the second has a single one, and then the first one's last field is no number. */
static struct due spoiling(const uint8_t *sheet, size_t length, size_t at, uint32_t line, uint32_t field)
{
    if (sheet[at] == '\n') {
        const uint8_t *next = sheet + at + 1, *end = sheet + length;
        if (next == end)
            return refusal(HALLVISKA_TORN, line, 0);
        while (*next != '\n' && *next != ',')
            next++;
        return *next == ',' ? refusal(HALLVISKA_FORM, line, 0) : refusal(HALLVISKA_NUMBER, line, field);
    }
    if (field == 0 || sheet[at] == ',')
        return refusal(HALLVISKA_FORM, line, 0);
    return refusal(HALLVISKA_NUMBER, line, field);
}

/* A sheet that ends too early is refused 13 at the first line that is not complete. */
static void try_damaged(const char *name, const uint8_t *sheet, size_t length, size_t needed)
{
    static uint8_t other[HALLVISKA_SHEET_MOST + 1];
    uint32_t line = 1, field = 0;
    for (size_t at = 0; at < length; at++) {
        struct due due = refusal(HALLVISKA_TORN, line, 0);
        snprintf(where, sizeof where, "%s torn at byte %zu", name, at);
        try_rooms(sheet, at, &due, needed);
        torn++;

        snprintf(where, sizeof where, "%s spoilt at byte %zu", name, at);
        memcpy(other, sheet, length);
        other[at] = 'x';
        due = spoiling(sheet, length, at, line, field);
        try_rooms(other, length, &due, needed);
        spoilt++;
        line += sheet[at] == '\n';
        field = sheet[at] == '\n' ? 0 : field + (sheet[at] == '=' || sheet[at] == ',');
    }

    memset(other, '\n', sizeof other);
    memcpy(other, sheet, length);
    struct due after_end = refusal(HALLVISKA_TORN, line, 0), too_long = refusal(HALLVISKA_TOO_LONG, 0, 0);
    snprintf(where, sizeof where, "%s lengthened to %d bytes", name, HALLVISKA_SHEET_MOST);
    try_rooms(other, HALLVISKA_SHEET_MOST, &after_end, needed);
    snprintf(where, sizeof where, "%s lengthened to %d bytes", name, HALLVISKA_SHEET_MOST + 1);
    try_rooms(other, HALLVISKA_SHEET_MOST + 1, &too_long, needed);
    lengthened += 2;
}

static size_t read_file(const char *name, uint8_t *bytes, size_t most)
{
    FILE *file = fopen(name, "rb");
    if (!file)
        fail("cannot be read");
    size_t length = fread(bytes, 1, most, file);
    if (ferror(file) || fgetc(file) != EOF)
        fail("cannot be read, or is longer than %zu bytes", most);
    fclose(file);
    return length;
}

static void try_file(const char *name)
{
    static uint8_t sheet[HALLVISKA_SHEET_MOST + 1];
    struct due due = refusal(0, 0, 0);
    unsigned number, line, field;
    size_t stem = strlen(name) - (strlen(name) > 6 ? 6 : 0);
    char answer[256], text[ROOM_MOST + 1];

    snprintf(where, sizeof where, "%s", name);
    if (strcmp(name + stem, ".sheet") != 0 || stem + sizeof ".report" > sizeof answer)
        fail("is not called NAME.sheet");
    size_t length = read_file(name, sheet, sizeof sheet);
    snprintf(answer, sizeof answer, "%.*s.report", (int)stem, name);
    snprintf(where, sizeof where, "%s", answer);
    due.length = read_file(answer, due.report, sizeof due.report);
    if (due.length == 0)
        fail("is empty");

    snprintf(text, sizeof text, "%.*s", (int)due.length, (const char *)due.report);
    snprintf(where, sizeof where, "%s", name);
    if (sscanf(text, "refused=%u,%u,%u", &number, &line, &field) == 3) {
        due = refusal(number, line, field);
        try_rooms(sheet, length, &due, ROOM_MOST / 2);
        refused++;
    } else {
        try_rooms(sheet, length, &due, due.length);
        try_damaged(name, sheet, length, due.length);
        accepted++;
    }
}

int main(int argc, char **argv)
{
    signal(SIGSEGV, touched);
    signal(SIGBUS, touched);
    sheet_lent = between_guards(SHEET_LENT);
    report_lent = between_guards(REPORT_LENT);
    snprintf(where, sizeof where, "the version");
    if (hallviska_version() != HALLVISKA_VERSION)
        fail("the library says %u, and the header %d", (unsigned)hallviska_version(), HALLVISKA_VERSION);
    for (int i = 1; i < argc; i++)
        try_file(argv[i]);
    snprintf(where, sizeof where, "%d sheets", argc - 1);
    if (accepted == 0 || refused == 0)
        fail("an accepted one and a refused one are needed");
    printf("boundary: %lu calls as due: %lu sheets accepted, %lu refused, %lu torn, %lu spoilt, %lu lengthened\n",
           calls, accepted, refused, torn, spoilt, lengthened);
    return 0;
}
