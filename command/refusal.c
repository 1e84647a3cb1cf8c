/* Shows a refusal in words, with the line of the sheet itself. */
#include <inttypes.h>
#include <stdio.h>
#include <string.h>

#include "hallviska_words.h"
#include "show.h"

bool coloured;

static const char bold[] = "\033[1m", red[] = "\033[31m", plain[] = "\033[0m";

static void begin(const char *colour)
{
    if (coloured)
        fputs(colour, stdout);
}

static void end(void)
{
    if (coloured)
        fputs(plain, stdout);
}

/* How many bytes the letter at the front of this text has, in UTF-8 and of any alphabet; 0 for a control or a byte that begins no letter.
 * Terminals take U+009B for the start of an escape as they take 033 [, so U+0080 to U+009F are controls too. */
static size_t letter(const unsigned char *text)
{
    if (text[0] < 0x80)
        return text[0] >= ' ' && text[0] != 127;
    size_t length = text[0] < 0xc2 ? 0 : text[0] < 0xe0 ? 2 : text[0] < 0xf0 ? 3 : text[0] < 0xf5 ? 4 : 0;
    for (size_t at = 1; at < length; at++) {
        if (text[at] < 0x80 || text[at] > 0xbf)
            return 0;
    }
    bool control = text[0] == 0xc2 && text[1] < 0xa0;
    bool longer_than_due = (text[0] == 0xe0 && text[1] < 0xa0) || (text[0] == 0xf0 && text[1] < 0x90);
    return control || longer_than_due ? 0 : length;
}

void put_word(const char *word, FILE *to)
{
    while (*word) {
        size_t length = letter((const unsigned char *)word);
        if (length != 0)
            fwrite(word, 1, length, to);
        else
            putc('?', to);
        word += length != 0 ? length : 1;
    }
}

void show_name(const char *name)
{
    begin(bold);
    put_word(name, stdout);
    end();
    putchar('\n');
}

/* Some bytes of the sheet, from `begin` up to but without `end`. */
struct piece {
    const uint8_t *begin, *end;
};

/* The piece of this number, counted from 1, where these bytes are parted by `between`. One that is not there is empty, at the end. */
static struct piece part(struct piece whole, int between, uint32_t number)
{
    const uint8_t *at;
    for (; number > 1 && whole.begin < whole.end; number--) {
        at = memchr(whole.begin, between, (size_t)(whole.end - whole.begin));
        whole.begin = at ? at + 1 : whole.end;
    }
    at = memchr(whole.begin, between, (size_t)(whole.end - whole.begin));
    return (struct piece){whole.begin, at ? at : whole.end};
}

/* The numbers before the first that is at fault have at most ten characters, so that a line of thirteen is marked before it is cut. */
enum { SHOWN_MOST = 160 };

/* The sheet's line, and a mark under the field where there is one. An empty field has a mark where it should begin. */
static void show_line(struct piece line, uint32_t field)
{
    size_t length = (size_t)(line.end - line.begin);
    size_t shown = length < SHOWN_MOST ? length : SHOWN_MOST;
    printf("  ");
    for (size_t at = 0; at < shown; at++)
        putchar(line.begin[at] >= ' ' && line.begin[at] <= '~' ? line.begin[at] : '?');
    puts(shown < length ? " ..." : "");
    if (field == 0)
        return;
    struct piece marked = part((struct piece){part(line, '=', 2).begin, line.end}, ',', field);
    size_t from = (size_t)(marked.begin - line.begin), to = (size_t)(marked.end - line.begin);
    printf("  %*s", (int)(from < shown ? from : shown), "");
    begin(red);
    putchar('^');
    while (++from < to && from < shown)
        putchar('^');
    end();
    putchar('\n');
}

/* The longest key has eight letters; one more is seen to be another. */
enum { KEY_MOST = 9 };

/* What the numbers of this line are, by its key; a line whose key no sheet has is not explained. */
static void show_due(struct piece line, uint32_t edition)
{
    struct piece key = part(line, '=', 1);
    size_t length = (size_t)(key.end - key.begin);
    char name[KEY_MOST + 1] = "";
    if (length > KEY_MOST || memchr(key.begin, '\0', length) != NULL)
        return;
    memcpy(name, key.begin, length);
    const char *words = hallviska_sheet_words(name, edition);
    if (strcmp(words, hallviska_sheet_words("", edition)) != 0)
        printf("  %s: %s\n", name, words);
}

void show_refusal(struct hallviska_answer answer, const uint8_t *sheet, size_t length)
{
    static const uint8_t analysed[] = "sheet=2\n";
    struct piece whole = {sheet, sheet + length};
    bool second = length >= sizeof analysed - 1 && memcmp(sheet, analysed, sizeof analysed - 1) == 0;
    begin(red);
    printf("Refused (%" PRIu32 ")", answer.refusal);
    if (answer.line != 0)
        printf(", line %" PRIu32, answer.line);
    if (answer.field != 0)
        printf(", field %" PRIu32, answer.field);
    end();
    printf(": %s.\n", hallviska_refusal_words(answer.refusal));
    struct piece line = part(whole, '\n', answer.line);
    if (answer.line == 0 || line.begin == line.end)
        return;
    show_line(line, answer.field);
    show_due(line, second ? 2 : 1);
}
