/* The balance of one firing of a gas-fired shuttle kiln, and the mean of a thermocouple logger's readings, for callers in C and C++.
 *
 * From the bytes of a sheet to the bytes of its report, or to a refusal; and by itself, at the end, from a logger's bytes to their mean. The rules of the sheet, the report's lines and the refusals are
 * those of document 01, as document 02 has changed them since; docs/RULES.md has them whole. The library is made for x86-64 Linux, by
 * `rt lib` in crates/hallviska; `tools/install` puts it, and this header, where compilers look. hallviska_words.h has words for all numbers here.
 */
#ifndef HALLVISKA_H
#define HALLVISKA_H

#include <stddef.h>
#include <stdint.h>

#ifdef __cplusplus
extern "C" {
#endif

/* Which header this is. The number grows by one with each change of a struct's layout, of what a function here means for some input, or of
 * the numbers of a function's refusals. It stays where only words or the inside of the library change, and where a function is added with what
 * is its own, as the readings' mean was: nobody who does not call it sees it, and with a library that has it not its caller does not link, or
 * is ended by the loader. A caller compares the number with what the library says, before any other call: where the two differ, the one was
 * made for another layout than the other, and a field could be read wrongly. The shared library bears it at the end of its name, so that the
 * loader compares it too. */
#define HALLVISKA_VERSION 1

/* The HALLVISKA_VERSION of the header that the library answers by. */
uint32_t hallviska_version(void);

/* The longest sheet, in bytes. Whoever reads a sheet from a file asks for one byte more, so that a longer one is seen to be longer. */
#define HALLVISKA_SHEET_MOST 16384

/* Room in which every report fits: 20 lines, each of a key of at most 7 characters, '=', at most 20 characters and LF, are 580 bytes. */
#define HALLVISKA_REPORT_MOST 1024

/* The report: these lines, all of them and always in this order, each KEY=NUMBER and LF. A number is 0, or digits without a leading zero,
 * with '-' before them where it is below 0. A heat is in whole kJ per tonne of fired ware. */
enum hallviska_line {
    HALLVISKA_FIRING = 0,        /* firing   the sheet's number of the firing */
    HALLVISKA_Q1 = 1,            /* q1       income, kJ/t: the gas, burnt */
    HALLVISKA_Q2 = 2,            /* q2       the gas, warm as it came */
    HALLVISKA_Q3 = 3,            /* q3       the setters, as they went in */
    HALLVISKA_Q5 = 4,            /* q5       the green ware, as it went in */
    HALLVISKA_Q8 = 5,            /* q8       the kiln, before it was lit */
    HALLVISKA_IN = 6,            /* in       all of it, summed before it is rounded */
    HALLVISKA_X1 = 7,            /* x1       expenditure, kJ/t: into the ware */
    HALLVISKA_X2 = 8,            /* x2       into the water of the ware */
    HALLVISKA_X3 = 9,            /* x3       into the clay as it turned */
    HALLVISKA_X5 = 10,           /* x5       into the setters */
    HALLVISKA_X7 = 11,           /* x7       up the chimney as hot flue gas */
    HALLVISKA_X8 = 12,           /* x8       up the chimney as CO, unburnt */
    HALLVISKA_X9 = 13,           /* x9       through roof, walls and floor */
    HALLVISKA_X10 = 14,          /* x10      into the kiln itself */
    HALLVISKA_X11 = 15,          /* x11      not accounted for, or misread: the income less all above */
    HALLVISKA_USEFUL = 16,       /* useful   heat that the ware needed, kJ/t */
    HALLVISKA_WITHSET = 17,      /* withset  the same with its setters, kJ/t */
    HALLVISKA_EFF1 = 18,         /* eff1     useful as a share of q1, in 0.01 % */
    HALLVISKA_EFF2 = 19          /* eff2     withset as a share of q1, in 0.01 % */
};

/* How many lines a report has. */
#define HALLVISKA_LINES 20

/* The refusals of docs/RULES.md, section 3, which also says in which order they are looked for. Where line and field are not 0, they are
 * the sheet's line and that line's field, each counted from 1. */
enum hallviska_refusal {
    HALLVISKA_ACCEPTED = 0,      /* no refusal: the report is written; line 0 */
    HALLVISKA_TOO_LONG = 1,      /* the sheet is longer than 16,384 bytes; line 0 */
    HALLVISKA_FORM = 2,          /* another key or number of fields than is due */
    HALLVISKA_RANGE = 3,         /* a field outside its range; a `sheet` other than 1 and 2, an `end` other than 1; has its field */
    HALLVISKA_MATERIAL = 4,      /* material 0 without a specific heat, or material 1..18 with one; has its field */
    HALLVISKA_GAS = 5,           /* the gas shares don't add to 10,000, or there is nothing in it for air to burn */
    HALLVISKA_SECTION = 6,       /* a section number given twice; a wall line for a section or a stage that isn't there */
    HALLVISKA_READ_TWICE = 7,    /* this section has been read in this stage already */
    HALLVISKA_NOT_READ = 8,      /* some section has no reading in some stage; line 0 */
    HALLVISKA_COLDER = 9,        /* a surface colder than the air near it */
    HALLVISKA_TOTAL_GAS = 10,    /* the gas of all stages outside 100..200,000; line 0 */
    HALLVISKA_NO_ROOM = 11,      /* the report is longer than `report_length`; line 0 */
    HALLVISKA_NUMBER = 12,       /* a field that is not in number form, an empty one too; has its field */
    HALLVISKA_TORN = 13,         /* a line without its LF, a sheet that ends too early, or bytes after `end` */
    HALLVISKA_ANALYSIS = 14      /* in a stage of sheet 2, CO, CO2 with SO2, and O2 are above 4,000 together */
};

struct hallviska_answer {
    uint32_t refusal;            /* one of enum hallviska_refusal */
    uint32_t line;               /* the sheet's line, counted from 1, or 0 for the whole sheet */
    uint32_t field;              /* the line's field, counted from 1: for 12 and 3 the leftmost at fault, for 4 the material's; or 0 */
    size_t length;               /* how many bytes of the report were written; 0 with every refusal */
};

/* Reads the `sheet_length` bytes at `sheet` and writes the report to `report`, where there is room for `report_length` bytes.
 *
 * The caller sees to it that
 *   - neither pointer is null, even where its length is 0: the library takes both as references, and a reference is never null.
 *     Any other pointer will do for no bytes. hallviska_balance_nullable, below, is for a caller that cannot promise it;
 *   - `sheet_length` bytes can be read at `sheet`, and `report_length` bytes read and written at `report`;
 *   - the two don't overlap, and nobody else writes to either, or reads the report, before the call returns.
 * Nothing is asked of what the bytes are: every sheet of every length has an answer. Neither needs to end in a 0 byte, and none is added.
 *
 * What comes back, for every input:
 *   - `refusal` 0, `line` 0, `field` 0 and `length`, the report's: report[0..length) is the report, the bytes from `length` on are as they were;
 *   - or `refusal` 1..14, its `line` and `field`, and `length` 0: no byte of the report's room has changed.
 * The same sheet gets the same answer in any room in which its report fits. In a smaller one an accepted sheet gets refusal 11, and a
 * refused sheet its own refusal, for 11 comes last. The sheet's bytes are only read.
 *
 * The call always returns. It waits for nothing, allocates and prints nothing, and keeps nothing from one call to the next, so that
 * several threads may call it at once, each with a report of its own. Its stack is not part of what is proved: it took up to 8,536 bytes
 * where it was measured, so a thread that calls it should have 64 KiB or more.
 */
struct hallviska_answer hallviska_balance(const uint8_t *sheet, size_t sheet_length, uint8_t *report, size_t report_length);

/* The same for a caller whose pointer may be null where its length is 0, as `data()` of an empty vector of C++ may: such a pointer is never
 * handed on. An empty sheet is then refused 13 at line 1, as any other is, and without room for a report an accepted sheet is refused 11.
 * A null pointer with a length above 0 stays the caller's fault. */
static inline struct hallviska_answer hallviska_balance_nullable(const uint8_t *sheet, size_t sheet_length, uint8_t *report,
                                                                 size_t report_length)
{
    const uint8_t no_sheet = 0;
    uint8_t no_report = 0;
    return hallviska_balance(sheet_length == 0 ? &no_sheet : sheet, sheet_length, report_length == 0 ? &no_report : report, report_length);
}

/* The most readings, and the bytes of one. Whoever reads them from a file asks for one byte more than all these, so that too many are seen
 * to be too many. */
#define HALLVISKA_READINGS_MOST 2880
#define HALLVISKA_READING_BYTES 4

/* The refusals of the readings. 18 comes before all else, whatever the bytes are; then that of the first reading that has one. */
enum hallviska_reading_refusal {
    HALLVISKA_READINGS_TAKEN = 0,       /* no refusal: the mean is there; reading 0 */
    HALLVISKA_READINGS_LENGTH = 18,     /* no byte, a number of bytes that is no multiple of 4, or more than 2,880 readings; reading 0 */
    HALLVISKA_READING_NOT_FINITE = 19,  /* an infinity, or not a number */
    HALLVISKA_READING_OUTSIDE = 20      /* rounds to less than -200 or to more than 18,000 tenths of a degree */
};

struct hallviska_mean {
    uint32_t refusal;                   /* one of enum hallviska_reading_refusal */
    uint32_t reading;                   /* the reading that is refused, counted from 1, or 0 */
    int32_t mean;                       /* in tenths of a degree Celsius, -200..18,000; 0 with every refusal */
};

/* Takes the `length` bytes at `readings`, four a reading, each an IEEE 754 binary32 number in degrees Celsius, least byte first. Each is
 * rounded to tenths, halves to the even one, and then their mean is rounded so.
 *
 * The caller sees to it that
 *   - the pointer is not null, even where `length` is 0: the library takes a reference, and a reference is never null. Any other pointer
 *     will do for no bytes, and no pointer needs to be aligned. hallviska_mean_of_nullable, below, is for a caller that cannot promise it;
 *   - `length` bytes can be read there, and nobody writes to them before the call returns.
 * Nothing is asked of what the bytes are: every string of every length has an answer.
 *
 * What comes back, for every input:
 *   - `refusal` 0, `reading` 0 and the mean;
 *   - or `refusal` 18, `reading` 0 and mean 0;
 *   - or `refusal` 19 or 20, its `reading` from 1 on and mean 0.
 * Nothing is written: the readings' bytes are only read, and there is nothing else that the caller lends.
 *
 * The call always returns. It waits for nothing, allocates and prints nothing, and keeps nothing from one call to the next, so that
 * several threads may call it at once, also with the same readings.
 */
struct hallviska_mean hallviska_mean_of(const uint8_t *readings, size_t length);

/* The same for a caller whose pointer may be null where its length is 0. */
static inline struct hallviska_mean hallviska_mean_of_nullable(const uint8_t *readings, size_t length)
{
    const uint8_t no_reading = 0;
    return hallviska_mean_of(length == 0 ? &no_reading : readings, length);
}

#ifdef __cplusplus
}
#endif

#endif
