/* Puts sheets to the library and hands back all that it did: harness [DAMAGE]. The program `compare` starts it and talks to it.
 * With BEFORE defined it puts each of them to the library from before a change as well (tools/same).
 *
 * A batch comes on standard input: two numbers of 32 bits, how many bytes and how many requests; then the requests. A request is two
 * numbers, the sheet's length and the report's room, and the sheet. When a batch has come whole it is worked through, and then all its
 * answers are written: refusal, line, field, what was touched that should not have been, length and the room's size (64 bits each), and
 * all bytes of the room; and with BEFORE the other library's answer behind each. Numbers are as this processor has them, the lowest byte
 * first.
 *
 * DAMAGE is for seeing that the comparison fails when it should: one answer, after the first few hundred, is spoilt in the way it says,
 * or with `crash` the program ends at the first surface that is colder than its air.
 */
#include <stdbool.h>
#include <stdio.h>
#include <stdlib.h>
#include <string.h>
#include <sys/mman.h>
#include <unistd.h>

#include "ask.h"

enum { GUARD = 64, ROOM_MOST = 4096, SHEET_MOST = 65536, BATCH_MOST = 1 << 24, FIRST_SPOILT = 300 };

/* What an answer says besides the library's own. */
enum { UNTOUCHED = 0, TOUCHED_BEFORE = 1, TOUCHED_BEHIND = 2, TOUCHED_SHEET = 4 };

struct head {
    uint32_t refusal, line, field, touched;
    uint64_t length, room;
};

static uint8_t batch[BATCH_MOST];
static uint8_t lent[GUARD + 16 + ROOM_MOST + GUARD];
/* Where sheets lie. Before and behind it is a page that nobody may touch: whoever reads one byte too many ends there. */
static uint8_t *sheet_area, *sheet_end;

static const char *damage = "";
static uint64_t number;

static void fail(const char *why)
{
    fprintf(stderr, "harness: %s\n", why);
    exit(2);
}

/* The bytes that a room is filled with. They differ from call to call, so that a byte written by chance as it was is written otherwise
 * in another call. */
static uint8_t filling(uint64_t request, size_t place)
{
    return (uint8_t)(request * 167 + place * 59 + 11);
}

static uint8_t guarding(size_t place)
{
    return (uint8_t)(0xA5 ^ place);
}

static bool guarded(const uint8_t *from)
{
    for (size_t place = 0; place < GUARD; place++)
        if (from[place] != guarding(place))
            return false;
    return true;
}

static bool asked_for(const char *way)
{
    return strcmp(damage, way) == 0;
}

/* Spoils what the answer says, where it can be spoilt in the way asked for. */
static bool spoil_answer(struct head *head)
{
    static struct head last;
    struct head old = *head;
    bool accepted = head->refusal == 0;

    if (asked_for("refusal") && !accepted)
        head->refusal += 1;
    else if (asked_for("accepted") && !accepted)
        head->refusal = head->line = head->field = 0;
    else if (asked_for("line") && head->line > 0)
        head->line -= 1;
    else if (asked_for("field") && head->field > 0)
        head->field -= 1;
    else if (asked_for("length") && accepted)
        head->length -= 1;
    else if (asked_for("length-of-refused") && !accepted)
        head->length = 1;
    else if (asked_for("stale"))
        *head = (struct head){last.refusal, last.line, last.field, old.touched, last.length, old.room};
    last = old;
    return memcmp(head, &old, sizeof old) != 0;
}

/* Spoils bytes, or reads where nothing may be read, or ends. */
static bool spoil_bytes(struct head *head, uint8_t *report, uint8_t *sheet, size_t sheet_length)
{
    bool accepted = head->refusal == 0;

    if (asked_for("first-byte") && accepted)
        report[0] ^= 1;
    else if (asked_for("last-byte") && accepted)
        report[head->length - 1] ^= 1;
    else if (asked_for("byte-beyond") && accepted && head->room > head->length)
        report[head->length] ^= 1;
    else if (asked_for("room-of-refused") && !accepted && head->room > 0)
        report[head->room - 1] ^= 1;
    else if (asked_for("guard-before"))
        report[-1] ^= 1;
    else if (asked_for("guard-behind"))
        report[head->room] ^= 1;
    else if (asked_for("sheet") && sheet_length > 0)
        sheet[sheet_length - 1] ^= 1;
    else if (asked_for("read-before"))
        head->line += sheet_area[-1];
    else if (asked_for("read-beyond"))
        head->line += sheet_end[0];
    else if (asked_for("hang-up"))
        exit(0);
    else
        return false;
    return true;
}

/* A sheet and a room, where they lie for a call. */
struct loan {
    const uint8_t *text;
    uint8_t *sheet, *report;
    size_t sheet_length, room;
};

/* In turn the sheet's last byte is the last that can be read and its first the first, and the report lies at every alignment. */
static struct loan lend(const uint8_t *text, size_t sheet_length, size_t room)
{
    uint8_t *sheet = number % 3 == 0 ? sheet_area : sheet_end - sheet_length;
    uint8_t *report = lent + GUARD + number % 16;
    memcpy(sheet, text, sheet_length);
    for (size_t place = 0; place < GUARD; place++)
        report[(ptrdiff_t)place - GUARD] = report[room + place] = guarding(place);
    for (size_t place = 0; place < room; place++)
        report[place] = filling(number, place);
    return (struct loan){text, sheet, report, sheet_length, room};
}

static struct head headed(struct said said, size_t room)
{
    return (struct head){said.refusal, said.line, said.field, UNTOUCHED, said.length, room};
}

/* Sends what was said, and all that was done with what was lent. */
static void hand_back(struct head head, struct loan loan)
{
    if (!guarded(loan.report - GUARD))
        head.touched |= TOUCHED_BEFORE;
    if (!guarded(loan.report + loan.room))
        head.touched |= TOUCHED_BEHIND;
    if (memcmp(loan.sheet, loan.text, loan.sheet_length) != 0)
        head.touched |= TOUCHED_SHEET;
    if (fwrite(&head, sizeof head, 1, stdout) != 1 || (loan.room > 0 && fwrite(loan.report, loan.room, 1, stdout) != 1))
        fail("nobody takes the answers");
}

static void call(const uint8_t *text, size_t sheet_length, size_t room)
{
    struct loan loan = lend(text, sheet_length, room);
    struct said said;
    ask(loan.sheet, sheet_length, loan.report, room, &said);

    struct head head = headed(said, room);
    if (asked_for("crash") && said.refusal == HALLVISKA_COLDER)
        abort();
    if (*damage && number >= FIRST_SPOILT && (spoil_answer(&head) || spoil_bytes(&head, loan.report, loan.sheet, sheet_length)))
        damage = "";
    hand_back(head, loan);

#ifdef BEFORE
    /* The same bytes in the same places. */
    loan = lend(text, sheet_length, room);
    ask_before(loan.sheet, sheet_length, loan.report, room, &said);
    hand_back(headed(said, room), loan);
#endif
    number++;
}

static void work_through(size_t length, uint32_t requests)
{
    size_t at = 0;
    for (uint32_t done = 0; done < requests; done++) {
        uint32_t sizes[2];
        if (length - at < sizeof sizes)
            fail("a batch that is shorter than its requests");
        memcpy(sizes, batch + at, sizeof sizes);
        at += sizeof sizes;
        if (sizes[0] > SHEET_MOST || sizes[1] > ROOM_MOST || length - at < sizes[0])
            fail("a request that cannot be");
        call(batch + at, sizes[0], sizes[1]);
        at += sizes[0];
    }
    if (at != length)
        fail("a batch that is longer than its requests");
}

int main(int words, char **word)
{
    size_t page = (size_t)sysconf(_SC_PAGESIZE);
    uint8_t *pages = mmap(NULL, page + SHEET_MOST + page, PROT_NONE, MAP_PRIVATE | MAP_ANONYMOUS, -1, 0);
    if (pages == MAP_FAILED || SHEET_MOST % page != 0 || mprotect(pages + page, SHEET_MOST, PROT_READ | PROT_WRITE) != 0)
        fail("no memory for the sheet");
    sheet_area = pages + page;
    sheet_end = sheet_area + SHEET_MOST;
    if (words > 1)
        damage = word[1];

    uint32_t sizes[2];
    while (fread(sizes, sizeof sizes, 1, stdin) == 1) {
        if (sizes[0] > BATCH_MOST || fread(batch, 1, sizes[0], stdin) != sizes[0])
            fail("a batch that does not come whole");
        /* A batch takes less than a second: one that takes a minute would never end. */
        alarm(60);
        work_through(sizes[0], sizes[1]);
        alarm(0);
        if (fflush(stdout) != 0)
            fail("nobody takes the answers");
    }
    return ferror(stdin) ? 2 : 0;
}
