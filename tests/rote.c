/* Stands in for the library where a test wants an answer of its own choosing: whatever the sheet, it gives the one in the file that the
 * environment names as ROTE, a report or `refused=NUMBER,LINE,FIELD`. The command can so be shown refusals that it never provokes and reports
 * that no library writes, on any processor and under its memory checker. It says that it is of the version that stands in ROTE_VERSION, or
 * of the header's.
 */
#include <stdio.h>
#include <stdlib.h>

#include "hallviska.h"

uint32_t hallviska_version(void)
{
    const char *version = getenv("ROTE_VERSION");
    return version ? (uint32_t)strtoul(version, NULL, 10) : HALLVISKA_VERSION;
}

struct hallviska_answer hallviska_balance(const uint8_t *sheet, size_t sheet_length, uint8_t *report, size_t report_length)
{
    struct hallviska_answer answer = {0, 0, 0, 0};
    unsigned number, line, field;
    const char *name = getenv("ROTE");
    FILE *file = name ? fopen(name, "rb") : NULL;
    if (!file) {
        fputs("rote: ROTE names no file\n", stderr);
        exit(9);
    }
    (void)sheet;
    (void)sheet_length;
    if (fscanf(file, "refused=%u,%u,%u", &number, &line, &field) == 3) {
        answer.refusal = number;
        answer.line = line;
        answer.field = field;
    } else {
        rewind(file);
        answer.length = fread(report, 1, report_length, file);
    }
    fclose(file);
    return answer;
}
