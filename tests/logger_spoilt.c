/* Stands in for the library and errs in one WAY where two readings come, so that tools/logger sees that its harness tells. Else it says what
 * the independent program says. */
#include "hallviska.h"

struct hallviska_mean second_mean_of(const uint8_t *readings, size_t length);

enum { READ_BEFORE = 1, READ_BEYOND, WRITE, MEAN, READING, REFUSAL, PLACE };

struct hallviska_mean hallviska_mean_of(const uint8_t *readings, size_t length)
{
    static volatile uint8_t seen;
    struct hallviska_mean said = second_mean_of(readings, length);
    if (length != 2 * HALLVISKA_READING_BYTES)
        return said;
    switch (WAY) {
    case READ_BEFORE:
        seen = readings[-1];
        break;
    case READ_BEYOND:
        seen = readings[length];
        break;
    case WRITE:
        /* as it was: the byte does not change, and still may not be written */
        *(volatile uint8_t *)(uintptr_t)readings = readings[0];
        break;
    case MEAN:
        said.mean += 1;
        break;
    case READING:
        said.reading += 1;
        break;
    case REFUSAL:
        said.refusal = HALLVISKA_READINGS_LENGTH;
        break;
    case PLACE:
        /* another answer where the bytes begin a page */
        said.mean += ((uintptr_t)readings & 4095) == 0;
        break;
    }
    (void)seen;
    return said;
}
