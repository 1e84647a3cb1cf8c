/* Puts readings to the library and to the independent program (compare/second), and hands back what was said: logger. tests/readings starts it.
 *
 * A request comes on standard input: a number of 32 bits, how many bytes, and the bytes. The answer is three such numbers: refusal, reading
 * and mean. Each is put twice, with its last byte before a page that may not be touched and with its first byte behind one, at an address
 * of any alignment. The library sees the bytes in memory that can only be read, so that a single byte that is written, or read outside,
 * ends the run; what it is lent is written by another name of the same memory. Both calls and the independent program have to say the same.
 */
#define _GNU_SOURCE
#include <signal.h>
#include <stdbool.h>
#include <stdio.h>
#include <stdlib.h>
#include <string.h>
#include <sys/mman.h>
#include <unistd.h>

#include "hallviska.h"

enum { LENT = 32 * 4096 };

/* The independent program under the same promises (compare/second/src/export.rs). */
struct hallviska_mean second_mean_of(const uint8_t *readings, size_t length);

static uint8_t *lent;        /* as the library sees it: it can be read, and the pages around it cannot */
static uint8_t *underneath;  /* the same bytes, to write them */
static unsigned long requests;

static _Noreturn void fail(const char *why)
{
    fprintf(stderr, "logger: request %lu: %s\n", requests, why);
    exit(2);
}

/* Only what may be called from a signal's handler is called here. */
static void touched(int signal)
{
    static const char words[] = "logger: a byte is written, or one outside what was lent is read\n";
    (void)signal;
    _exit(write(STDERR_FILENO, words, sizeof words - 1) < 0 ? 3 : 2);
}

static void guard(void)
{
    size_t page = (size_t)sysconf(_SC_PAGESIZE);
    int file = memfd_create("readings", 0);
    uint8_t *pages = mmap(NULL, page + LENT + page, PROT_NONE, MAP_PRIVATE | MAP_ANONYMOUS, -1, 0);
    if (file < 0 || pages == MAP_FAILED || LENT % page != 0 || ftruncate(file, LENT) != 0)
        fail("no guarded memory");
    lent = mmap(pages + page, LENT, PROT_READ, MAP_SHARED | MAP_FIXED, file, 0);
    underneath = mmap(NULL, LENT, PROT_READ | PROT_WRITE, MAP_SHARED, file, 0);
    if (lent == MAP_FAILED || underneath == MAP_FAILED)
        fail("no guarded memory");
    signal(SIGSEGV, touched);
    signal(SIGBUS, touched);
}

static bool same(struct hallviska_mean one, struct hallviska_mean other)
{
    return one.refusal == other.refusal && one.reading == other.reading && one.mean == other.mean;
}

/* The bytes lie at this place of what is lent. */
static struct hallviska_mean said_at(size_t place, const uint8_t *bytes, size_t length)
{
    memcpy(underneath + place, bytes, length);
    struct hallviska_mean said = hallviska_mean_of(lent + place, length);
    if (memcmp(lent + place, bytes, length) != 0)
        fail("the readings have changed");
    return said;
}

int main(void)
{
    static uint8_t bytes[LENT];
    uint32_t length;
    guard();
    while (fread(&length, sizeof length, 1, stdin) == 1) {
        requests++;
        if (length > LENT || fread(bytes, 1, length, stdin) != length)
            fail("it cannot be put");
        /* A call takes less than a millisecond: one that takes a minute would never end. */
        alarm(60);
        struct hallviska_mean said = said_at(LENT - length, bytes, length);
        if (!same(said, said_at(0, bytes, length)))
            fail("at another place the library says something else");
        struct hallviska_mean second = second_mean_of(bytes, length);
        if (!same(said, second)) {
            fprintf(stderr, "logger: the library says %u,%u,%d, and compare/second %u,%u,%d\n", (unsigned)said.refusal,
                    (unsigned)said.reading, (int)said.mean, (unsigned)second.refusal, (unsigned)second.reading, (int)second.mean);
            fail("the two differ");
        }
        const uint32_t answer[3] = {said.refusal, said.reading, (uint32_t)said.mean};
        if (fwrite(answer, sizeof answer, 1, stdout) != 1)
            fail("nobody takes the answers");
    }
    alarm(0);
    return ferror(stdin) || fflush(stdout) != 0 ? 2 : 0;
}
