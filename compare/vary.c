/* Changes to a draft of a sheet, and what makes it keep the rules again.
 *
 * Bytes changed at random seldom pass the form of a line, and a sheet with one number changed seldom keeps the rules that tie lines to each
 * other. Both are left to chance here too, but to a chance that is not small.
 */
#include "draft.h"

#include <string.h>

uint64_t thrown(struct dice *dice, uint64_t sides)
{
    dice->state += 0x9e3779b97f4a7c15;
    uint64_t mixed = (dice->state ^ dice->state >> 30) * 0xbf58476d1ce4e5b9;
    mixed = (mixed ^ mixed >> 27) * 0x94d049bb133111eb;
    return (mixed ^ mixed >> 31) % sides;
}

static long within(struct span span, struct dice *dice)
{
    return span.least + (long)thrown(dice, (uint64_t)(span.most - span.least) + 1);
}

/* Numbers at which something changes besides the limits: breaks, sums, lengths of numbers. */
static const long breaks[] = {0, 1, -1, 2, GAS_LEAST - 1, GAS_LEAST, 101, 199, 200, 210, 999, 1000, 1001, ANALYSED_MOST, ANALYSED_MOST + 1, 7999,
                              8000, 8001, 9999, SHARES_ALL + 1, GAS_MOST + 1, 999999, 1000000000, -999999999};

/* Halves are met where factors of 2 and 5 come together. */
static const long steps[] = {2, 4, 5, 8, 16, 25, 32, 50, 64, 100, 125, 250, 500, 625, 1000, 1250, 2500, 3125, 5000, 10000};

/* What is the most for some other field, or one beyond it. */
static long some_limit(struct dice *dice)
{
    const struct form *form = &forms[thrown(dice, KINDS)];
    return form->span[thrown(dice, form->fields)].most + (long)thrown(dice, 2);
}

static long another(long old, struct span span, struct dice *dice)
{
    switch (thrown(dice, 16)) {
    case 0:
        return span.least;
    case 1:
        return span.most;
    case 2:
        return span.least + (long)thrown(dice, 3) - 1;
    case 3:
        return span.most + (long)thrown(dice, 3) - 1;
    case 4:
        return thrown(dice, 3) ? breaks[thrown(dice, sizeof breaks / sizeof *breaks)] : some_limit(dice);
    case 5:
    case 6:
        return old + (long)thrown(dice, 7) - 3;
    case 7:
        return thrown(dice, 2) ? old * 2 : old / 2;
    case 8:
        return thrown(dice, 2) ? old * 10 : -old;
    case 9:
        return span.most >> thrown(dice, 30);
    case 10:
    case 11:
    case 12: {
        long step = steps[thrown(dice, sizeof steps / sizeof *steps)];
        return within(span, dice) / step * step;
    }
    default:
        return within(span, dice);
    }
}

static void fresh_row(long *row, enum kind kind, struct dice *dice)
{
    for (size_t field = 0; field < forms[kind].fields; field++)
        row[field] = within(forms[kind].span[field], dice);
}

static enum kind some_block(struct dice *dice)
{
    enum kind kind;
    do
        kind = (enum kind)thrown(dice, KINDS);
    while (!counted(kind));
    return kind;
}

static void change_block(struct draft *draft, struct dice *dice)
{
    enum kind kind = some_block(dice);
    long(*row)[FIELDS_MOST] = draft->value[kind];
    size_t *rows = &draft->rows[kind];
    size_t one = *rows ? thrown(dice, *rows) : 0, other = *rows ? thrown(dice, *rows) : 0;
    switch (thrown(dice, 8)) {
    case 0:
        if (*rows)
            memmove(row[one], row[one + 1], (--*rows - one) * sizeof *row);
        break;
    case 1: {
        long kept[FIELDS_MOST];
        memcpy(kept, row[one], sizeof kept);
        memcpy(row[one], row[other], sizeof kept);
        memcpy(row[other], kept, sizeof kept);
        break;
    }
    case 2:
        if (*rows)
            row[one][thrown(dice, forms[kind].fields)] = row[other][thrown(dice, forms[kind].fields)];
        break;
    case 3:
        for (size_t most = (size_t)within(forms[count_of(kind)].span[0], dice); *rows < most;)
            fresh_row(row[(*rows)++], kind, dice);
        break;
    case 4:
        if (*rows)
            *rows = 1 + thrown(dice, *rows);
        break;
    case 5:
        if (*rows && *rows < ROWS_MOST)
            memcpy(row[(*rows)++], row[one], sizeof *row);
        break;
    default:
        if (*rows < ROWS_MOST)
            fresh_row(row[(*rows)++], kind, dice);
    }
}

/* A gas of one, two or three kinds, or of all. */
static void change_gas(long *share, struct dice *dice)
{
    if (thrown(dice, 4) == 0) {
        for (size_t gas = 0; gas < forms[GAS].fields; gas++)
            share[gas] = (long)thrown(dice, 1500);
        return;
    }
    memset(share, 0, FIELDS_MOST * sizeof *share);
    for (uint64_t kinds = 1 + thrown(dice, 3); kinds > 0; kinds--)
        share[thrown(dice, forms[GAS].fields)] = (long)thrown(dice, kinds == 1 ? SHARES_ALL + 1 : SHARES_ALL / 2 + 1);
}

void change_draft(struct draft *draft, struct dice *dice)
{
    uint64_t way = thrown(dice, 16);
    if (way == 0) {
        change_gas(draft->value[GAS][0], dice);
        return;
    }
    if (way < 4) {
        change_block(draft, dice);
        return;
    }
    enum kind kind = thrown(dice, 2) ? (enum kind)thrown(dice, KINDS) : some_block(dice);
    if (draft->rows[kind] == 0)
        return;
    long *row = draft->value[kind][thrown(dice, draft->rows[kind])];
    long *value = &row[thrown(dice, forms[kind].fields)];
    if (way == 4)
        fresh_row(row, kind, dice);
    else
        *value = bounded(another(*value, forms[kind].span[value - row], dice));
}

static void repair_limits(struct draft *draft)
{
    for (enum kind kind = SHEET; kind < KINDS; kind++) {
        if (counted(kind) && (long)draft->rows[kind] > forms[count_of(kind)].span[0].most)
            draft->rows[kind] = (size_t)forms[count_of(kind)].span[0].most;
        for (size_t row = 0; row < draft->rows[kind]; row++)
            for (size_t field = 0; field < forms[kind].fields; field++) {
                long *value = &draft->value[kind][row][field];
                struct span span = forms[kind].span[field];
                *value = *value < span.least ? span.least : *value > span.most ? span.most : *value;
            }
    }
}

/* The fields of a stage that sheet 2 has and sheet 1 has not, behind CO and before the minutes. */
enum { CO = 3, PAIR = 4, OXYGEN = 5 };

/* All stages are of the sheet's edition. What an analyser would have read comes by chance. */
static void repair_edition(struct draft *draft, struct dice *dice)
{
    enum kind kind = draft->value[SHEET][0][0] == 2 ? ANALYSED : STAGE, other = kind == STAGE ? ANALYSED : STAGE;
    size_t rows = draft->rows[other];
    draft->rows[other] = 0;
    for (size_t row = 0; row < rows && draft->rows[kind] < ROWS_MOST; row++) {
        const long *from = draft->value[other][row];
        long *to = draft->value[kind][draft->rows[kind]++];
        fresh_row(to, kind, dice);
        memcpy(to, from, PAIR * sizeof *to);
        to[forms[kind].fields - 1] = from[forms[other].fields - 1];
    }
}

/* What is too much of all three goes from the greatest. */
static void repair_analyses(struct draft *draft)
{
    for (size_t row = 0; row < draft->rows[ANALYSED]; row++) {
        long *value = draft->value[ANALYSED][row];
        long surplus = value[CO] + value[PAIR] + value[OXYGEN] - ANALYSED_MOST;
        if (surplus > 0)
            value[value[PAIR] > value[OXYGEN] ? PAIR : OXYGEN] -= surplus;
    }
}

/* How many rows stand in the block of this kind. Stages of both kinds stand in one. */
static size_t in_block(const struct draft *draft, enum kind kind)
{
    return kind == STAGE || kind == ANALYSED ? draft->rows[STAGE] + draft->rows[ANALYSED] : draft->rows[kind];
}

static void repair_materials(struct draft *draft)
{
    for (enum kind kind = SHEET; kind < KINDS; kind++)
        for (size_t row = 0; forms[kind].material && row < draft->rows[kind]; row++) {
            long *material = &draft->value[kind][row][forms[kind].material];
            if (material[0] != 0)
                material[1] = 0;
            else if (material[1] == 0)
                material[1] = 10000;
        }
}

static void repair_gas(long *share)
{
    long sum = 0;
    for (size_t gas = 0; gas < forms[GAS].fields; gas++)
        sum += share[gas];
    for (size_t gas = 0; gas < forms[GAS].fields && sum > SHARES_ALL; gas++) {
        long less = sum - SHARES_ALL < share[gas] ? sum - SHARES_ALL : share[gas];
        share[gas] -= less;
        sum -= less;
    }
    /* methane takes the rest, so that there is something to burn */
    share[6] += SHARES_ALL - sum;
}

static void repair_sections(struct draft *draft)
{
    for (size_t row = 0; row < draft->rows[SECTION]; row++)
        for (size_t other = 0; other < row; other++)
            if (draft->value[SECTION][other][0] == draft->value[SECTION][row][0]) {
                draft->value[SECTION][row][0] = draft->value[SECTION][row][0] % forms[SECTION].span[0].most + 1;
                /* the next number may be taken as well */
                other = (size_t)-1;
            }
}

/* Each section is read once in each stage: what is read twice or nowhere is put where a reading is missing. */
static void repair_walls(struct draft *draft, struct dice *dice)
{
    bool read[ROWS_MOST][2 * ROWS_MOST + 1] = {{false}};
    bool idle[ROWS_MOST];
    size_t rounds = in_block(draft, STAGE), sections = draft->rows[SECTION], wall = 0;
    size_t readings = (size_t)forms[WALLS].span[0].most;
    if (rounds * sections > readings)
        sections = draft->rows[SECTION] = readings / rounds;
    for (size_t row = 0; row < draft->rows[WALL]; row++) {
        long *value = draft->value[WALL][row];
        size_t section = 0;
        while (section < sections && draft->value[SECTION][section][0] != value[0])
            section++;
        idle[row] = section == sections || value[1] < 1 || value[1] > (long)rounds || read[section][value[1]];
        if (!idle[row])
            read[section][value[1]] = true;
    }
    for (size_t section = 0; section < sections; section++)
        for (size_t stage = 1; stage <= rounds; stage++) {
            if (read[section][stage])
                continue;
            while (wall < draft->rows[WALL] && !idle[wall])
                wall++;
            if (wall == draft->rows[WALL])
                fresh_row(draft->value[WALL][draft->rows[WALL]++], WALL, dice);
            draft->value[WALL][wall][0] = draft->value[SECTION][section][0];
            draft->value[WALL][wall][1] = (long)stage;
            idle[wall++] = false;
        }
    size_t kept = 0;
    for (size_t row = 0; row < draft->rows[WALL]; row++)
        if (!idle[row])
            memmove(draft->value[WALL][kept++], draft->value[WALL][row], sizeof draft->value[WALL][row]);
    draft->rows[WALL] = kept;
}

static void repair_colder(struct draft *draft)
{
    for (size_t row = 0; row < draft->rows[WALL]; row++) {
        long *value = draft->value[WALL][row];
        if (value[2] < value[3])
            value[3] = value[2];
    }
}

static void repair_total(struct draft *draft)
{
    long left = GAS_MOST;
    for (enum kind kind = STAGE; kind <= ANALYSED; kind++)
        for (size_t row = 0; row < draft->rows[kind]; row++) {
            long *gas = &draft->value[kind][row][0];
            *gas = *gas > left ? left : *gas;
            left -= *gas;
        }
    if (left > GAS_MOST - GAS_LEAST)
        draft->value[draft->rows[STAGE] ? STAGE : ANALYSED][0][0] += left - (GAS_MOST - GAS_LEAST);
}

void repair_draft(struct draft *draft, struct dice *dice)
{
    for (enum kind kind = SHEET; kind < KINDS; kind++)
        while (counted(kind) && (long)in_block(draft, kind) < forms[count_of(kind)].span[0].least)
            fresh_row(draft->value[kind][draft->rows[kind]++], kind, dice);
    /* the report rounds by the ware's mass: a joule that is off shows a hundred times sooner where the ware is light */
    if (thrown(dice, 3) == 0)
        draft->value[PRODUCT][0][0] = forms[PRODUCT].span[0].least + (long)thrown(dice, 8);
    /* a rule is left broken about once in so many sheets */
    enum { SELDOM = 12 };
    if (thrown(dice, SELDOM))
        repair_edition(draft, dice);
    if (thrown(dice, SELDOM))
        repair_limits(draft);
    if (thrown(dice, SELDOM))
        repair_analyses(draft);
    if (thrown(dice, SELDOM))
        repair_materials(draft);
    if (thrown(dice, SELDOM))
        repair_gas(draft->value[GAS][0]);
    if (thrown(dice, SELDOM))
        repair_sections(draft);
    if (thrown(dice, SELDOM))
        repair_walls(draft, dice);
    if (thrown(dice, SELDOM))
        repair_colder(draft);
    if (thrown(dice, SELDOM))
        repair_total(draft);
    if (thrown(dice, SELDOM))
        for (enum kind kind = SHEET; kind < KINDS; kind++)
            if (counted(kind))
                draft->value[count_of(kind)][0][0] = (long)in_block(draft, kind);
}
