/* The command `hallviska`: shows the balance of each sheet as a table, or says in words why it is refused.
 *
 * It calls the proved library (include/hallviska.h) and works nothing out by itself but shares in percent. Its exit status is the greatest of
 * what its sheets give: 0 shown, 1 refused, 2 nothing to show.
 */
#define _POSIX_C_SOURCE 200809L
#include <errno.h>
#include <inttypes.h>
#include <stdio.h>
#include <stdlib.h>
#include <string.h>
#include <unistd.h>

#include "hallviska.h"
#include "show.h"

enum status { SHOWN = 0, REFUSED = 1, FAILED = 2 };

static const char usage[] = "usage: hallviska [--report] [--] [FILE...]\n"
                            "       hallviska --help | --version\n";

static const char help[] =
    "\n"
    "Shows where the heat of a firing went, from its sheet: a table, or in words why the\n"
    "sheet is refused, with its line. With no FILE, or for -, it reads standard input.\n"
    "Several files are shown one after the other, each below its name.\n"
    "\n"
    "  --report     the report, or refused=NUMBER,LINE,FIELD, as the program balance prints it\n"
    "  --help       this text\n"
    "  --version    the number of the header, and the library's\n"
    "\n"
    "Exit status: 0 every sheet is shown, 1 a sheet is refused, 2 for one there is nothing\n"
    "to show: it cannot be read, or what is shown cannot be written.\n"
    "Colours are for a terminal alone, and not where NO_COLOR is set.\n";

/* One byte more than a sheet may have: a longer file is cut there, and the library refuses it as too long. */
static uint8_t sheet[HALLVISKA_SHEET_MOST + 1];
static uint8_t report[HALLVISKA_REPORT_MOST];

/* What was shown before is written first, so that the two come in their order where both go to one place. */
static enum status failed(const char *name, const char *why)
{
    fflush(stdout);
    fputs("hallviska: ", stderr);
    put_word(name, stderr);
    fprintf(stderr, ": %s\n", why);
    return FAILED;
}

/* A full disk or a closed pipe shows itself only when the text is written out. */
static enum status written(enum status status)
{
    if (fflush(stdout) == 0 && !ferror(stdout))
        return status;
    fprintf(stderr, "hallviska: the answer could not be written: %s\n", strerror(errno));
    exit(FAILED);
}

/* What was read before a fault may look like a sheet, and a balance of half a sheet is worse than none. */
static bool read_sheet(const char *name, FILE *file, size_t *length)
{
    errno = 0;
    *length = fread(sheet, 1, sizeof sheet, file);
    if (!ferror(file))
        return true;
    failed(name, errno ? strerror(errno) : "cannot be read");
    return false;
}

static enum status show(const char *name, size_t length, bool as_report)
{
    struct hallviska_answer answer = hallviska_balance(sheet, length, report, sizeof report);
    if (answer.refusal != HALLVISKA_ACCEPTED) {
        if (as_report)
            printf("refused=%" PRIu32 ",%" PRIu32 ",%" PRIu32 "\n", answer.refusal, answer.line, answer.field);
        else
            show_refusal(answer, sheet, length);
        return REFUSED;
    }
    if (answer.length > sizeof report)
        return failed(name, "the library's report is longer than the room for it");
    if (as_report)
        fwrite(report, 1, answer.length, stdout);
    else if (!show_table(report, answer.length))
        return failed(name, "the library's report is not one that this command knows");
    return SHOWN;
}

/* Standard input ends once: whoever names it twice would hear that the second sheet is empty. */
static enum status show_input(bool as_report)
{
    static bool read_before;
    size_t length;
    if (read_before)
        return failed("-", "standard input has been read already");
    read_before = true;
    if (isatty(STDIN_FILENO))
        fputs("hallviska: reading a sheet from the terminal, up to Ctrl-D\n", stderr);
    return read_sheet("-", stdin, &length) ? show("-", length, as_report) : FAILED;
}

static enum status show_file(const char *name, bool as_report)
{
    size_t length;
    if (strcmp(name, "-") == 0)
        return show_input(as_report);
    FILE *file = fopen(name, "rb");
    if (!file)
        return failed(name, strerror(errno));
    bool whole = read_sheet(name, file, &length);
    fclose(file);
    return whole ? show(name, length, as_report) : FAILED;
}

/* All files in their order, whatever becomes of each. */
static enum status show_files(char **names, int count, bool as_report)
{
    enum status worst = SHOWN;
    for (int i = 0; i < count; i++) {
        if (count > 1) {
            if (i > 0)
                putchar('\n');
            show_name(names[i]);
        }
        enum status status = written(show_file(names[i], as_report));
        worst = status > worst ? status : worst;
    }
    return worst;
}

/* A library of another header may lay its answer out in another way: nothing else is asked of it then. */
static enum status same_version(void)
{
    uint32_t library = hallviska_version();
    if (library == HALLVISKA_VERSION)
        return SHOWN;
    fprintf(stderr, "hallviska: made for version %d of the library, which is version %" PRIu32 "\n", HALLVISKA_VERSION, library);
    return FAILED;
}

static enum status show_version(void)
{
    printf("hallviska %d, library %" PRIu32 "\n", HALLVISKA_VERSION, hallviska_version());
    return written(same_version());
}

static bool colours_wanted(void)
{
    const char *none = getenv("NO_COLOR"), *terminal = getenv("TERM");
    return isatty(STDOUT_FILENO) && !(none && *none) && !(terminal && strcmp(terminal, "dumb") == 0);
}

int main(int argc, char **argv)
{
    bool as_report = false;
    char *input[] = {"-"}, **names = argv + 1;
    int count = 0, at = 1;
    for (; at < argc && strcmp(argv[at], "--") != 0; at++) {
        if (argv[at][0] != '-' || argv[at][1] == '\0') {
            names[count++] = argv[at];
        } else if (strcmp(argv[at], "--report") == 0) {
            as_report = true;
        } else if (strcmp(argv[at], "--help") == 0) {
            printf("%s%s", usage, help);
            return written(SHOWN);
        } else if (strcmp(argv[at], "--version") == 0) {
            return show_version();
        } else {
            fputs("hallviska: no such option: ", stderr);
            put_word(argv[at], stderr);
            fprintf(stderr, "\n%s", usage);
            return FAILED;
        }
    }
    /* behind -- every word is a file */
    while (++at < argc)
        names[count++] = argv[at];
    if (same_version() != SHOWN)
        return FAILED;
    coloured = colours_wanted();
    if (count == 0) {
        names = input;
        count = 1;
    }
    return show_files(names, count, as_report);
}
