/* Puts readings to the library and to the independent program, compiled for this processor (compare/logger).
 *
 *   logger every [FROM TO]     each of the 4,294,967,296 readings by itself, or those with the bits FROM to TO - 1; counts the answers
 *   logger bench FILE...       a row for each file of readings: its name, how many, the answer, nanoseconds of each of the two, their ratio
 *   logger PASSES WHICH FILE   its readings so many times to one of the two (0 the library, 1 the independent program) and nothing else,
 *                              for counting what they take by other means
 */
#include <stdbool.h>
#include <stdio.h>
#include <stdlib.h>
#include <string.h>
#include <time.h>

#include "hallviska.h"

typedef struct hallviska_mean mean_of(const uint8_t *readings, size_t length);

/* The independent program under the same promises (compare/second/src/export.rs). */
mean_of second_mean_of;

static mean_of *const both[2] = {hallviska_mean_of, second_mean_of};

/* A round takes this long or longer for each of the two, and the fastest of so many rounds counts: what disturbs a round only slows it, and
 * among many short rounds some are not disturbed. */
enum { ROUND_NS = 500 * 1000, ROUNDS = 300 };

static uint8_t bytes[1 << 16];
static size_t length;
/* Where each answer goes, so that no call can be left out. */
static volatile uint32_t seen;

static bool same(struct hallviska_mean one, struct hallviska_mean other)
{
    return one.refusal == other.refusal && one.reading == other.reading && one.mean == other.mean;
}

static int every(uint64_t from, uint64_t to)
{
    uint64_t taken = 0, refused[2] = {0, 0};
    for (uint64_t bits = from; bits < to; bits++) {
        const uint8_t four[4] = {(uint8_t)bits, (uint8_t)(bits >> 8), (uint8_t)(bits >> 16), (uint8_t)(bits >> 24)};
        struct hallviska_mean said = hallviska_mean_of(four, 4), other = second_mean_of(four, 4);
        bool known = said.refusal == 0 || said.refusal == HALLVISKA_READING_NOT_FINITE || said.refusal == HALLVISKA_READING_OUTSIDE;
        if (!same(said, other) || !known) {
            printf("logger: %08lx: the library says %u,%u,%d, and the independent program %u,%u,%d\n", (unsigned long)bits,
                   (unsigned)said.refusal, (unsigned)said.reading, (int)said.mean, (unsigned)other.refusal, (unsigned)other.reading,
                   (int)other.mean);
            return 1;
        }
        if (said.refusal == 0)
            taken++;
        else
            refused[said.refusal == HALLVISKA_READING_OUTSIDE]++;
    }
    printf("logger: %llu readings, each by itself, answered alike by both: %llu accepted, %llu refused 19, %llu refused 20\n",
           (unsigned long long)(to - from), (unsigned long long)taken, (unsigned long long)refused[0], (unsigned long long)refused[1]);
    return 0;
}

static void read_file(const char *path)
{
    FILE *file = fopen(path, "rb");
    length = file ? fread(bytes, 1, sizeof bytes, file) : sizeof bytes;
    if (length == sizeof bytes || ferror(file)) {
        fprintf(stderr, "logger: cannot read %s\n", path);
        exit(2);
    }
    fclose(file);
}

static void call(mean_of *one, long passes)
{
    for (; passes > 0; passes--)
        seen = (uint32_t)one(bytes, length).mean;
}

static double nanoseconds(mean_of *one, long passes)
{
    struct timespec start, end;
    clock_gettime(CLOCK_MONOTONIC, &start);
    call(one, passes);
    clock_gettime(CLOCK_MONOTONIC, &end);
    return (double)(end.tv_sec - start.tv_sec) * 1e9 + (double)(end.tv_nsec - start.tv_nsec);
}

static long passes_of_round(mean_of *one)
{
    long passes = 1;
    while (nanoseconds(one, passes) < ROUND_NS)
        passes *= 2;
    return passes;
}

static void measure(const char *path)
{
    read_file(path);
    struct hallviska_mean answer = hallviska_mean_of(bytes, length);
    if (!same(answer, second_mean_of(bytes, length))) {
        fprintf(stderr, "logger: the two differ on %s\n", path);
        exit(1);
    }
    double best[2] = {0, 0};
    long passes[2] = {passes_of_round(both[0]), passes_of_round(both[1])};
    for (int round = 0; round < ROUNDS; round++)
        for (int which = 0; which < 2; which++) {
            double each = nanoseconds(both[which], passes[which]) / (double)passes[which];
            if (round == 0 || each < best[which])
                best[which] = each;
        }
    const char *name = strrchr(path, '/') ? strrchr(path, '/') + 1 : path;
    printf("%s %zu %u,%u,%d %.1f %.1f %.2f\n", name, length / HALLVISKA_READING_BYTES, (unsigned)answer.refusal, (unsigned)answer.reading,
           (int)answer.mean, best[0], best[1], best[0] / best[1]);
}

int main(int words, char **word)
{
    if (words == 2 && strcmp(word[1], "every") == 0)
        return every(0, (uint64_t)1 << 32);
    if (words == 4 && strcmp(word[1], "every") == 0)
        return every(strtoull(word[2], NULL, 0), strtoull(word[3], NULL, 0));
    if (words == 4 && atol(word[1]) > 0) {
        read_file(word[3]);
        call(both[word[2][0] == '1'], atol(word[1]));
        return 0;
    }
    for (int at = 2; at < words; at++)
        measure(word[at]);
    return 0;
}
