/* Shows a report as a table, with each heat's share of the income. */
#include <inttypes.h>
#include <stdio.h>
#include <string.h>

#include "hallviska_words.h"
#include "show.h"

/* The heading of the group that a line begins, or none. */
static const char *heading(uint32_t line)
{
    switch (line) {
    case HALLVISKA_Q1: return "Heat that came in";
    case HALLVISKA_X1: return "Where it went";
    case HALLVISKA_USEFUL: return "What the firing was for";
    case HALLVISKA_EFF1: return "Of the burnt gas's heat";
    default: return NULL;
    }
}

/* Fourteen digits are more than any firing has. Two such figures together, times 10,000, still fit 64 bits, which `share` needs. */
enum { DIGITS_MOST = 14 };

/* Takes `text` off the front of the report. The report ends where its length says and has no 0 byte, so no string function will do. */
static bool take(const uint8_t **at, const uint8_t *end, const char *text)
{
    size_t length = strlen(text);
    if ((size_t)(end - *at) < length || memcmp(*at, text, length) != 0)
        return false;
    *at += length;
    return true;
}

static bool take_number(const uint8_t **at, const uint8_t *end, int64_t *number)
{
    bool negative = take(at, end, "-");
    int64_t size = 0;
    int digits = 0;
    while (*at < end && **at >= '0' && **at <= '9') {
        if (++digits > DIGITS_MOST)
            return false;
        size = 10 * size + (**at - '0');
        ++*at;
    }
    *number = negative ? -size : size;
    return digits > 0;
}

/* A command built for another edition of the library must say so, and not show figures under the wrong names. */
static bool parse(const uint8_t *report, size_t length, int64_t numbers[HALLVISKA_LINES])
{
    const uint8_t *at = report;
    const uint8_t *end = report + length;
    for (uint32_t i = 0; i < HALLVISKA_LINES; i++) {
        if (!take(&at, end, hallviska_line_key(i)) || !take(&at, end, "=") || !take_number(&at, end, &numbers[i]) || !take(&at, end, "\n"))
            return false;
    }
    return at == end;
}

/* The part of the whole in hundredths of a percent, to the nearest and halves to the even one, as the report's own figures are rounded:
 * whole numbers, so that every machine shows the same. */
static int64_t share(int64_t part, int64_t whole)
{
    int64_t size = 10000 * (part < 0 ? -part : part);
    int64_t rounded = size / whole, rest = size % whole;
    if (rest > whole - rest || (rest == whole - rest && rounded % 2 != 0))
        rounded++;
    return part < 0 ? -rounded : rounded;
}

/* The sign is printed apart, for -5 hundredths are -0.05 and not 0.05. */
static void show_percent(int64_t hundredths)
{
    int64_t size = hundredths < 0 ? -hundredths : hundredths;
    char text[32];
    snprintf(text, sizeof text, "%s%" PRId64 ".%02" PRId64, hundredths < 0 ? "-" : "", size / 100, size % 100);
    printf(" %12s\n", text);
}

/* A heat and its share of the income. Things colder than the air can bring in less than nothing, and there is no share of that. */
static void show_heat(int64_t heat, int64_t income)
{
    printf(" %14" PRId64, heat);
    if (income > 0)
        show_percent(share(heat, income));
    else
        printf(" %12s\n", "-");
}

static void show(const int64_t numbers[HALLVISKA_LINES])
{
    printf("Firing %-37" PRId64 " %14s %12s\n", numbers[HALLVISKA_FIRING], hallviska_line_unit(HALLVISKA_IN), "% of income");
    for (uint32_t i = HALLVISKA_FIRING + 1; i < HALLVISKA_LINES; i++) {
        if (heading(i)) {
            putchar('\n');
            show_name(heading(i));
        }
        printf("  %-8s%-34s", hallviska_line_key(i), hallviska_line_words(i));
        if (i < HALLVISKA_EFF1) {
            show_heat(numbers[i], numbers[HALLVISKA_IN]);
        } else {
            /* The library gives these two as shares already, in hundredths of a percent. */
            printf(" %14s", "");
            show_percent(numbers[i]);
        }
    }
    /* What a kiln that was lit warm took at this firing is neither line of the report. */
    putchar('\n');
    show_name("Of the heat in the kiln itself");
    printf("  %-8s%-34s", "x10-q8", "new: not there before it was lit");
    show_heat(numbers[HALLVISKA_X10] - numbers[HALLVISKA_Q8], numbers[HALLVISKA_IN]);
    puts("\nPercents are of all that came in (in); those of eff1 and eff2 are of the gas, burnt (q1).");
}

bool show_table(const uint8_t *report, size_t length)
{
    int64_t numbers[HALLVISKA_LINES];
    if (!parse(report, length, numbers))
        return false;
    show(numbers);
    return true;
}
