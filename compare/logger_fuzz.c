/* What libFuzzer calls for readings: the library and the independent program have to say the same (compare/logger fuzz). */
#include <stdio.h>
#include <stdlib.h>
#include <string.h>

#include "hallviska.h"

struct hallviska_mean second_mean_of(const uint8_t *readings, size_t length);

static unsigned long long calls, met[21];

static void tell(void)
{
    printf("fuzz: %llu inputs; %llu accepted, %llu refused 18, %llu refused 19, %llu refused 20\n", calls, met[0], met[18], met[19], met[20]);
}

int LLVMFuzzerInitialize(int *words, char ***word)
{
    (void)words;
    (void)word;
    return atexit(tell);
}

int LLVMFuzzerTestOneInput(const uint8_t *data, size_t size)
{
    /* The library takes a reference, which is never null. */
    static const uint8_t none[1];
    const uint8_t *readings = data ? data : none;
    struct hallviska_mean said = hallviska_mean_of(readings, size), other = second_mean_of(readings, size);
    if (said.refusal != other.refusal || said.reading != other.reading || said.mean != other.mean || said.refusal > 20) {
        fprintf(stderr, "fuzz: a difference: the library says %u,%u,%d, and the independent program %u,%u,%d\n", (unsigned)said.refusal,
                (unsigned)said.reading, (int)said.mean, (unsigned)other.refusal, (unsigned)other.reading, (int)other.mean);
        abort();
    }
    calls++;
    met[said.refusal]++;
    return 0;
}
