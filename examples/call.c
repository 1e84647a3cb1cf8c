/* The shortest way to call the library: call < SHEET prints the report, or in words why the sheet is refused.
 *
 *     cc call.c $(pkg-config --cflags --libs hallviska) -o call
 */
#include <hallviska.h>
#include <hallviska_words.h>
#include <inttypes.h>
#include <stdio.h>

/* One byte more than a sheet may have, so that a longer one is seen to be longer. */
static uint8_t sheet[HALLVISKA_SHEET_MOST + 1];
static uint8_t report[HALLVISKA_REPORT_MOST];

int main(void)
{
    if (hallviska_version() != HALLVISKA_VERSION) {
        fputs("call: the library is of another version than the header\n", stderr);
        return 2;
    }
    size_t length = fread(sheet, 1, sizeof sheet, stdin);
    if (ferror(stdin)) {
        perror("call");
        return 2;
    }
    struct hallviska_answer answer = hallviska_balance(sheet, length, report, sizeof report);
    if (answer.refusal != HALLVISKA_ACCEPTED) {
        printf("line %" PRIu32 ", field %" PRIu32 ": %s\n", answer.line, answer.field, hallviska_refusal_words(answer.refusal));
        return 1;
    }
    fwrite(report, 1, answer.length, stdout);
    return fflush(stdout) == 0 ? 0 : 2;
}
