/* Words for the numbers of hallviska.h, for whoever shows an answer to a clerk: a refusal, a line of the report, a line of the sheet.
 *
 * Header only, for C and C++; the command `hallviska` shows these. They are plain ASCII and never null: a number or a key that is not known
 * here has words too, since a program may be older than the library below it. No sentence begins with a capital or ends with a point.
 */
#ifndef HALLVISKA_WORDS_H
#define HALLVISKA_WORDS_H

#include <string.h>

#include "hallviska.h"

/* What a refusal means, as something that the clerk can mend. */
static inline const char *hallviska_refusal_words(uint32_t refusal)
{
    switch (refusal) {
    case HALLVISKA_ACCEPTED: return "the sheet is accepted";
    case HALLVISKA_TOO_LONG: return "the sheet is longer than 16,384 bytes";
    case HALLVISKA_FORM: return "this is not the line that is due here, or it has too few or too many numbers";
    case HALLVISKA_RANGE: return "a number is too small or too great";
    case HALLVISKA_MATERIAL: return "a listed material has its own specific heat, and material 0 needs one";
    case HALLVISKA_GAS: return "the shares of the gas do not add to 100 %, or there is nothing in it for air to burn";
    case HALLVISKA_SECTION: return "this section is listed twice, or this wall's section or stage is not listed";
    case HALLVISKA_READ_TWICE: return "this section has been read in this stage already";
    case HALLVISKA_NOT_READ: return "a section has not been read in every stage";
    case HALLVISKA_COLDER: return "the surface is colder than the air near it";
    case HALLVISKA_TOTAL_GAS: return "the gas of all stages is less than 10 or more than 20,000 cubic metres";
    case HALLVISKA_NO_ROOM: return "the report is longer than the room that this program has for it";
    case HALLVISKA_NUMBER: return "this is not written as a number should be";
    case HALLVISKA_TORN: return "the sheet ends before this line does, or goes on after its end";
    case HALLVISKA_ANALYSIS: return "CO, CO2 with SO2, and O2 are more than 40 % of the dry flue together";
    default: return "this program does not know that number";
    }
}

/* What a refusal of a logger's readings means (enum hallviska_reading_refusal). Those of one reading are said of it: "reading 7 is .." */
static inline const char *hallviska_reading_words(uint32_t refusal)
{
    switch (refusal) {
    case HALLVISKA_READINGS_TAKEN: return "the readings are taken";
    case HALLVISKA_READINGS_LENGTH: return "there is no reading, there are more than 2,880, or the last one has not all of its four bytes";
    case HALLVISKA_READING_NOT_FINITE: return "is no number, as where the wire is broken or the plug is loose";
    case HALLVISKA_READING_OUTSIDE: return "is below -20 or above 1,800 degrees C";
    default: return "has a fault that this program does not know";
    }
}

/* The key of a line of the report (enum hallviska_line). */
static inline const char *hallviska_line_key(uint32_t line)
{
    switch (line) {
    case HALLVISKA_FIRING: return "firing";
    case HALLVISKA_Q1: return "q1";
    case HALLVISKA_Q2: return "q2";
    case HALLVISKA_Q3: return "q3";
    case HALLVISKA_Q5: return "q5";
    case HALLVISKA_Q8: return "q8";
    case HALLVISKA_IN: return "in";
    case HALLVISKA_X1: return "x1";
    case HALLVISKA_X2: return "x2";
    case HALLVISKA_X3: return "x3";
    case HALLVISKA_X5: return "x5";
    case HALLVISKA_X7: return "x7";
    case HALLVISKA_X8: return "x8";
    case HALLVISKA_X9: return "x9";
    case HALLVISKA_X10: return "x10";
    case HALLVISKA_X11: return "x11";
    case HALLVISKA_USEFUL: return "useful";
    case HALLVISKA_WITHSET: return "withset";
    case HALLVISKA_EFF1: return "eff1";
    case HALLVISKA_EFF2: return "eff2";
    default: return "?";
    }
}

/* What a line of the report tells. The lines up to `in` are heat that came in, those up to `x11` are where it went. */
static inline const char *hallviska_line_words(uint32_t line)
{
    switch (line) {
    case HALLVISKA_FIRING: return "number of the firing";
    case HALLVISKA_Q1: return "the gas, burnt";
    case HALLVISKA_Q2: return "the gas, warm as it came";
    case HALLVISKA_Q3: return "the setters, as they went in";
    case HALLVISKA_Q5: return "the green ware, as it went in";
    case HALLVISKA_Q8: return "the kiln, before it was lit";
    case HALLVISKA_IN: return "all of it";
    case HALLVISKA_X1: return "into the ware";
    case HALLVISKA_X2: return "into the water of the ware";
    case HALLVISKA_X3: return "into the clay as it turned";
    case HALLVISKA_X5: return "into the setters";
    case HALLVISKA_X7: return "up the chimney as hot flue gas";
    case HALLVISKA_X8: return "up the chimney as CO, unburnt";
    case HALLVISKA_X9: return "through roof, walls and floor";
    case HALLVISKA_X10: return "into the kiln itself";
    case HALLVISKA_X11: return "not accounted for, or misread";
    case HALLVISKA_USEFUL: return "heat that the ware needed";
    case HALLVISKA_WITHSET: return "the same with its setters";
    case HALLVISKA_EFF1: return "the ware needed";
    case HALLVISKA_EFF2: return "the ware and its setters needed";
    default: return "this program does not know that line";
    }
}

/* In what a line of the report is counted. */
static inline const char *hallviska_line_unit(uint32_t line)
{
    if (line == HALLVISKA_FIRING)
        return "";
    if (line == HALLVISKA_EFF1 || line == HALLVISKA_EFF2)
        return "0.01 %";
    return line < HALLVISKA_LINES ? "kJ/t" : "?";
}

/* The fields of the sheet's line with this key, in their order and with their units, on a sheet of this edition: 1 or 2. */
static inline const char *hallviska_sheet_words(const char *key, uint32_t edition)
{
    static const char *const words[][2] = {
        {"sheet", "the edition, 1 or 2"},
        {"firing", "number of the firing"},
        {"product", "mass of the fired ware, 0.1 kg"},
        {"ambient", "base temperature, 0.1 C"},
        {"fuel", "heating value of the gas, kJ/m3; its temperature, 0.1 C"},
        {"gas", "shares of H2, N2, CO, O2, H2O, CO2, CH4, C2H4, C2H6, C3H8, C4H10, H2S, SO2, each 0.01 %"},
        {"air", "moisture of the air, 0.0001 kg per kg"},
        {"ware", "mass of the green ware, 0.1 kg; temperature going in, 0.1 C; highest temperature, 0.1 C; material; c, 0.0001 kJ/(kg C)"},
        {"water", "adsorbed, 0.1 kg; crystal water, 0.1 kg; temperature of the flue gas, 0.1 C"},
        {"clay", "mass of the clay, 0.1 kg"},
        {"stages", "how many lines `stage` follow"},
        {"setters", "how many lines `setter` follow"},
        {"setter", "mass, 0.1 kg; temperature going in, 0.1 C; material; c, 0.0001 kJ/(kg C)"},
        {"parts", "how many lines `part` follow"},
        {"part", "mass, 0.1 kg; material; c, 0.0001 kJ/(kg C); mean temperature before lighting, 0.1 C; the same at firing, 0.1 C"},
        {"sections", "how many lines `section` follow"},
        {"section", "number; place, 1 roof, 2 wall, 3 floor; area, 0.01 m2"},
        {"walls", "how many lines `wall` follow"},
        {"wall", "number of the section; stage; temperature of the surface, 0.1 C; of the air near it, 0.1 C"},
        {"end", "1, and nothing behind it"},
    };
    size_t i;
    if (strcmp(key, "stage") == 0)
        return edition == 2 ? "gas, 0.1 m3; excess air, 0.001; flue, 0.1 C; CO, 0.01 %; CO2 with SO2, 0.01 %; O2, 0.01 %; minutes"
                            : "gas, 0.1 m3; excess air, 0.001; flue, 0.1 C; CO, 0.01 %; minutes";
    for (i = 0; i < sizeof words / sizeof words[0]; i++)
        if (strcmp(key, words[i][0]) == 0)
            return words[i][1];
    return "this program does not know that line";
}

#endif
