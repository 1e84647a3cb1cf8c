/* Puts each input of the fuzzer to the library and to the independent program, and ends at the first difference (compare/fuzz).
 *
 * An input is a sheet. It goes to both in a room that every report fits in, and again in another: for an accepted sheet none, one byte too
 * few, exactly enough or some, for a refused one some. The sheet's bytes decide which, so that an input that once made a difference makes
 * it again, with nothing to be remembered besides.
 */
#include <stdbool.h>
#include <stdio.h>
#include <stdlib.h>
#include <string.h>
#include <sys/mman.h>
#include <unistd.h>

#include "fuzz.h"
#include "native.h"

struct hallviska_answer second_balance(const uint8_t *sheet, size_t sheet_length, uint8_t *report, size_t report_length);

enum { GUARD = 64, LEANING = 16, SHEET_MOST = 1 << 16, LENT = GUARD + LEANING + HALLVISKA_REPORT_MOST + GUARD, REFUSALS = 15 };

/* What lies in a room and around it before a call, from a place that changes from call to call: a byte that was written by chance as it
 * was is written otherwise in another call. */
static uint8_t filling[256 + LENT];
static uint8_t library_lent[LENT], second_lent[LENT];

/* Where sheets lie. Before and behind is a page that nobody may touch. */
static uint8_t *sheet_area, *sheet_end;

static uint64_t inputs, met[REFUSALS];

/* The compiler counts the branches that are taken here, the library's before the independent program's, and says of each where it is
 * and of what kind. Without its counters, as in compare/replay.c, all are null. */
extern uint8_t __start___sancov_cntrs[] __attribute__((weak)), __stop___sancov_cntrs[] __attribute__((weak));
extern const uintptr_t __start___sancov_pcs[][2] __attribute__((weak));
extern const char __executable_start[] __attribute__((weak));
#ifndef LIBRARY_EDGES
#define LIBRARY_EDGES 0
#endif
static const size_t library_edges = LIBRARY_EDGES;
static uint8_t *ever_taken;

static void tell_edges(const char *whose, size_t from, size_t to)
{
    size_t taken = 0;
    for (size_t edge = from; edge < to; edge++)
        taken += ever_taken[edge] != 0;
    printf("fuzz: %s: %zu of %zu edges\n", whose, taken, to - from);
}

/* The library's edges that nothing has taken, as places in the program's file. */
static void tell_missed(void)
{
    for (size_t edge = 0; edge < library_edges; edge++)
        if (!ever_taken[edge])
            printf("missed %#zx\n", (size_t)(__start___sancov_pcs[edge][0] - (uintptr_t)__executable_start));
}

static void tell_counts(void)
{
    size_t edges = (size_t)(__stop___sancov_cntrs - __start___sancov_cntrs);
    printf("fuzz: %llu inputs\n", (unsigned long long)inputs);
    for (int number = 0; number < REFUSALS; number++)
        printf("fuzz: %s %2d %12llu  %7.3f %%\n", number == 0 ? "accepted" : "refusal ", number, (unsigned long long)met[number],
               inputs ? 100.0 * (double)met[number] / (double)inputs : 0.0);
    if (edges) {
        tell_edges("library", 0, library_edges);
        tell_edges("independent program", library_edges, edges);
        if (getenv("FUZZ_MISSED"))
            tell_missed();
    }
}

int LLVMFuzzerInitialize(int *words, char ***word)
{
    (void)words, (void)word;
    size_t page = (size_t)sysconf(_SC_PAGESIZE);
    uint8_t *pages = mmap(NULL, page + SHEET_MOST + page, PROT_NONE, MAP_PRIVATE | MAP_ANONYMOUS, -1, 0);
    ever_taken = calloc((size_t)(__stop___sancov_cntrs - __start___sancov_cntrs) + 1, 1);
    if (pages == MAP_FAILED || SHEET_MOST % page != 0 || mprotect(pages + page, SHEET_MOST, PROT_READ | PROT_WRITE) != 0 || !ever_taken) {
        fputs("fuzz: no memory\n", stderr);
        exit(2);
    }
    sheet_area = pages + page;
    sheet_end = sheet_area + SHEET_MOST;
    for (size_t place = 0; place < sizeof filling; place++)
        filling[place] = (uint8_t)(place * 59 + 11);
    atexit(tell_counts);
    return 0;
}

static uint64_t digest(const uint8_t *bytes, size_t length)
{
    uint64_t sum = 0xcbf29ce484222325;
    for (size_t at = 0; at < length; at++)
        sum = (sum ^ bytes[at]) * 0x100000001b3;
    return sum ^ sum >> 29;
}

static void tell(const char *who, struct hallviska_answer answer, const uint8_t *report)
{
    fprintf(stderr, "%s: refusal %u, line %u, field %u, length %zu\n", who, answer.refusal, answer.line, answer.field, answer.length);
    if (answer.length <= HALLVISKA_REPORT_MOST)
        fwrite(report, 1, answer.length, stderr);
}

/* One sheet in one room. */
static struct hallviska_answer put(const uint8_t *text, size_t length, uint8_t *sheet, size_t room, uint64_t turn)
{
    const uint8_t *before = filling + turn % 256;
    size_t start = GUARD + turn / 256 % LEANING;
    size_t lent = start + room + GUARD;
    memcpy(sheet, text, length);
    memcpy(library_lent, before, lent);
    memcpy(second_lent, before, lent);

    struct hallviska_answer ours = native_balance(sheet, length, library_lent + start, room);
    bool sheet_kept = memcmp(sheet, text, length) == 0;
    struct hallviska_answer theirs = second_balance(sheet, length, second_lent + start, room);

    const char *fault = NULL;
    if (!sheet_kept)
        fault = "the sheet was written to";
    else if (ours.refusal != theirs.refusal || ours.line != theirs.line || ours.field != theirs.field || ours.length != theirs.length)
        fault = "the answers differ";
    else if (ours.refusal >= REFUSALS || ours.length > room)
        fault = "no such answer can be";
    else if (memcmp(library_lent, before, start) != 0)
        fault = "bytes before the room were written to";
    else if (memcmp(library_lent + start + ours.length, before + start + ours.length, lent - start - ours.length) != 0)
        fault = "bytes behind the report were written to";
    else if (memcmp(library_lent, second_lent, lent) != 0)
        fault = "the reports differ";
    if (fault) {
        fprintf(stderr, "fuzz: a difference: %s, in a room of %zu bytes\n", fault, room);
        tell("library", ours, library_lent + start);
        tell("second", theirs, second_lent + start);
        abort();
    }
    return ours;
}

int LLVMFuzzerTestOneInput(const uint8_t *data, size_t size)
{
    if (size > SHEET_MOST)
        return 0;
    uint64_t turn = digest(data, size);
    size_t some = turn / 65536 % (HALLVISKA_REPORT_MOST / 2);

    struct hallviska_answer answer = put(data, size, sheet_end - size, HALLVISKA_REPORT_MOST, turn);
    inputs++;
    met[answer.refusal]++;
    size_t rooms[] = {0, answer.length, answer.length - 1, some};
    bool accepted = answer.refusal == HALLVISKA_ACCEPTED;
    if (put(data, size, sheet_area, rooms[accepted ? turn % 4 : 3], turn + 1).refusal == HALLVISKA_NO_ROOM)
        met[HALLVISKA_NO_ROOM]++;
    for (uint8_t *counter = __start___sancov_cntrs, *taken = ever_taken; counter < __stop___sancov_cntrs; counter++, taken++)
        *taken |= *counter;
    return 0;
}
