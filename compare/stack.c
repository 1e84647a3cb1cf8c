/* How deep the stack goes: each call runs on a stack of its own, painted before.
 *
 *   stack FILE...     the most bytes that the library touched, and the sheet
 */
#include <stdio.h>
#include <stdlib.h>
#include <string.h>
#include <ucontext.h>

#include "hallviska.h"

enum { PAINT = 0xA5 };

static uint8_t stack[1 << 20];
static uint8_t sheet[1 << 16];
static size_t sheet_length;
static uint8_t report[HALLVISKA_REPORT_MOST];
static ucontext_t here, there;
/* The first run only enters the other stack and leaves it, so that what that takes can be left out. */
static int calls;

static void run(void)
{
    if (calls)
        hallviska_balance(sheet, sheet_length, report, sizeof report);
}

static size_t touched(int whether)
{
    calls = whether;
    memset(stack, PAINT, sizeof stack);
    getcontext(&there);
    there.uc_stack.ss_sp = stack;
    there.uc_stack.ss_size = sizeof stack;
    there.uc_link = &here;
    makecontext(&there, run, 0);
    swapcontext(&here, &there);
    size_t clean = 0;
    while (clean < sizeof stack && stack[clean] == PAINT)
        clean++;
    return sizeof stack - clean;
}

int main(int words, char **word)
{
    size_t most = 0;
    const char *where = "";
    for (int at = 1; at < words; at++) {
        FILE *file = fopen(word[at], "rb");
        if (!file || (sheet_length = fread(sheet, 1, sizeof sheet, file)) == sizeof sheet || ferror(file)) {
            fprintf(stderr, "stack: cannot read %s\n", word[at]);
            return 2;
        }
        fclose(file);
        size_t without = touched(0), with = touched(1);
        if (with - without > most) {
            most = with - without;
            where = word[at];
        }
    }
    printf("stack: %zu bytes at most, of %d sheets (%s)\n", most, words - 1, strrchr(where, '/') ? strrchr(where, '/') + 1 : where);
    return most < 64 * 1024 ? 0 : 1;
}
