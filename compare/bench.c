/* Times the library and the independent program on the same sheets, one after the other in turn.
 *
 *   bench FILE...                  a row for each file: its name, its bytes, the answer, nanoseconds of each of the two, and their ratio
 *   bench PASSES WHICH FILE        its sheets so many times to one of the two (0 the library, 1 the independent program) and nothing else,
 *                                  for counting what they take by other means
 *
 * A file is a sheet, or where its name ends in .stream many of them, as compare/sheets writes them out: they are put one after the other,
 * and the row is of a sheet on average, with the first one's answer. Of a stream 200 sheets are enough for counting.
 */
#include <stdio.h>
#include <stdlib.h>
#include <string.h>
#include <time.h>

#include "native.h"

typedef struct hallviska_answer balance(const uint8_t *sheet, size_t sheet_length, uint8_t *report, size_t report_length);

/* The independent program under the same promises (compare/second/src/export.rs). */
balance second_balance;

static balance *const both[2] = {native_balance, second_balance};

/* A round takes this long or longer for each of the two, and the fastest of so many rounds counts: what disturbs a round only slows it, and
 * among many short rounds some are not disturbed. */
enum { ROUND_NS = 500 * 1000, ROUNDS = 300, SHEETS_MOST = 4096, COUNTED = 200 };

static struct sheet {
    const uint8_t *text;
    size_t length;
} sheets[SHEETS_MOST];
static size_t count;
static uint8_t texts[1 << 24];
static uint8_t report[HALLVISKA_REPORT_MOST];
/* Where each answer goes, so that no call can be left out. */
static volatile size_t seen;

static size_t read_file(const char *path)
{
    FILE *file = fopen(path, "rb");
    size_t length = file ? fread(texts, 1, sizeof texts, file) : sizeof texts;
    if (length == sizeof texts || ferror(file)) {
        fprintf(stderr, "bench: cannot read %s\n", path);
        exit(2);
    }
    fclose(file);
    texts[length] = '\0';
    return length;
}

static void read_sheets(const char *path, size_t most)
{
    const char *kind = strrchr(path, '.');
    size_t length = read_file(path);
    sheets[0] = (struct sheet){texts, length};
    count = 1;
    if (!kind || strcmp(kind, ".stream") != 0)
        return;
    count = 0;
    for (const uint8_t *at = texts; at < texts + length && count < most; at += sheets[count++].length) {
        char *behind;
        sheets[count].length = strtoul((const char *)at, &behind, 10);
        sheets[count].text = at = (const uint8_t *)behind + 1;
        if (*behind != '\n' || sheets[count].length > (size_t)(texts + length - at)) {
            fprintf(stderr, "bench: %s is no stream\n", path);
            exit(2);
        }
    }
}

static void call(balance *one, long passes)
{
    for (; passes > 0; passes--)
        for (size_t at = 0; at < count; at++)
            seen = one(sheets[at].text, sheets[at].length, report, sizeof report).length;
}

static double nanoseconds(balance *one, long passes)
{
    struct timespec start, end;
    clock_gettime(CLOCK_MONOTONIC, &start);
    call(one, passes);
    clock_gettime(CLOCK_MONOTONIC, &end);
    return (double)(end.tv_sec - start.tv_sec) * 1e9 + (double)(end.tv_nsec - start.tv_nsec);
}

/* As many passes as take a round; many sheets may take longer in one. */
static long passes_of_round(balance *one)
{
    long passes = 1;
    while (nanoseconds(one, passes) < ROUND_NS)
        passes *= 2;
    return passes;
}

/* What both say of a sheet, or the end. */
static struct hallviska_answer agreed(const struct sheet *sheet, const char *path)
{
    uint8_t first[sizeof report];
    memset(first, 0, sizeof first);
    memset(report, 0, sizeof report);
    struct hallviska_answer answer = native_balance(sheet->text, sheet->length, first, sizeof first);
    struct hallviska_answer other = second_balance(sheet->text, sheet->length, report, sizeof report);
    if (answer.refusal != other.refusal || answer.line != other.line || answer.field != other.field || answer.length != other.length
        || memcmp(first, report, sizeof first) != 0) {
        fprintf(stderr, "bench: the two differ on %s\n", path);
        exit(1);
    }
    return answer;
}

static void measure(const char *path)
{
    size_t bytes = 0;
    read_sheets(path, SHEETS_MOST);
    struct hallviska_answer answer = agreed(&sheets[0], path);
    for (size_t at = 0; at < count; bytes += sheets[at++].length)
        agreed(&sheets[at], path);

    double best[2] = {0, 0};
    long passes[2] = {passes_of_round(both[0]), passes_of_round(both[1])};
    for (int round = 0; round < ROUNDS; round++)
        for (int which = 0; which < 2; which++) {
            double each = nanoseconds(both[which], passes[which]) / (double)passes[which] / (double)count;
            if (round == 0 || each < best[which])
                best[which] = each;
        }
    const char *name = strrchr(path, '/') ? strrchr(path, '/') + 1 : path;
    printf("%s %zu %u,%u,%u %.0f %.0f %.2f\n", name, bytes / count, (unsigned)answer.refusal, (unsigned)answer.line, (unsigned)answer.field,
           best[0], best[1], best[0] / best[1]);
}

int main(int words, char **word)
{
    if (words == 4 && atol(word[1]) > 0) {
        read_sheets(word[3], COUNTED);
        call(both[word[2][0] == '1'], atol(word[1]));
        return 0;
    }
    for (int at = 1; at < words; at++)
        measure(word[at]);
    return 0;
}
