/* Shows the mean of a thermocouple logger's readings, or says why they are refused: logger FILE [SECONDS].
 *
 * SECONDS is the logger's interval, a whole number from 1 to 86400. Where it is given, a refused reading is shown with its time, counted
 * from the first reading. Exit status: 0 a mean is shown, 1 the readings are refused, 2 there is nothing to show.
 */
#include <inttypes.h>
#include <stdbool.h>
#include <stdio.h>
#include <stdlib.h>

#include "hallviska.h"
#include "hallviska_words.h"

enum { SHOWN = 0, REFUSED = 1, FAILED = 2 };
enum { BYTES_MOST = HALLVISKA_READINGS_MOST * HALLVISKA_READING_BYTES, DAY = 86400 };

/* The sign is printed apart, for -5 tenths are -0.5 and not 0.5. */
static void show_mean(size_t readings, int32_t tenths)
{
    int32_t size = tenths < 0 ? -tenths : tenths;
    printf("readings  %zu\n", readings);
    printf("mean      %s%" PRId32 ".%" PRId32 " degrees C\n", tenths < 0 ? "-" : "", size / 10, size % 10);
    printf("in a sheet it is written %" PRId32 "\n", tenths);
}

/* What the volunteer can do something about, in the volunteer's words. */
static const char *words(uint32_t refusal, size_t length)
{
    if (refusal != HALLVISKA_READINGS_LENGTH)
        return hallviska_reading_words(refusal);
    if (length == 0)
        return "the file is empty";
    return length > BYTES_MOST ? "there are more than 2,880 readings" : "the file is torn: its last reading has not all of its four bytes";
}

/* A reading stands as many intervals behind the first as there are readings before it. */
static void show_refusal(struct hallviska_mean answer, size_t length, unsigned long seconds)
{
    printf("refused %" PRIu32 "\n", answer.refusal);
    if (answer.reading == 0) {
        printf("%s\n", words(answer.refusal, length));
        return;
    }
    printf("reading %" PRIu32 " %s\n", answer.reading, words(answer.refusal, length));
    if (seconds != 0) {
        unsigned long long behind = (unsigned long long)seconds * (answer.reading - 1);
        printf("it was taken %llu:%02llu:%02llu after the first\n", behind / 3600, behind / 60 % 60, behind % 60);
    }
}

static bool read_file(const char *path, uint8_t *bytes, size_t most, size_t *length)
{
    FILE *file = fopen(path, "rb");
    if (!file)
        return false;
    *length = fread(bytes, 1, most, file);
    bool whole = !ferror(file);
    return fclose(file) == 0 && whole;
}

/* 0 where this is no interval. */
static unsigned long interval(const char *text)
{
    char *end;
    unsigned long seconds = strtoul(text, &end, 10);
    return text[0] < '0' || text[0] > '9' || *end != '\0' || seconds > DAY ? 0 : seconds;
}

int main(int count, char **word)
{
    /* One byte more than the most readings have, so that too many are seen to be too many. */
    static uint8_t bytes[BYTES_MOST + 1];
    size_t length = 0;
    unsigned long seconds = count == 3 ? interval(word[2]) : 0;

    if (count < 2 || count > 3 || (count == 3 && seconds == 0)) {
        fprintf(stderr, "logger FILE [SECONDS]: a file of readings, and the seconds from one to the next, 1 to 86400\n");
        return FAILED;
    }
    if (!read_file(word[1], bytes, sizeof bytes, &length)) {
        fprintf(stderr, "logger: %s cannot be read\n", word[1]);
        return FAILED;
    }
    if (hallviska_version() != HALLVISKA_VERSION) {
        fprintf(stderr, "logger: the library is of another version than the header\n");
        return FAILED;
    }
    struct hallviska_mean answer = hallviska_mean_of(bytes, length);
    if (answer.refusal == HALLVISKA_READINGS_TAKEN)
        show_mean(length / HALLVISKA_READING_BYTES, answer.mean);
    else
        show_refusal(answer, length, seconds);
    if (fflush(stdout) != 0 || ferror(stdout)) {
        fprintf(stderr, "logger: the answer cannot be shown\n");
        return FAILED;
    }
    return answer.refusal == HALLVISKA_READINGS_TAKEN ? SHOWN : REFUSED;
}
