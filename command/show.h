/* What the command shows of an answer. Everything goes to standard output, but what is put where the caller says. */
#ifndef SHOW_H
#define SHOW_H

#include <stdbool.h>
#include <stdio.h>

#include "hallviska.h"

/* Colours are for a terminal alone: whoever starts the command says whether it is one. */
extern bool coloured;

/* A word of the command line, with a question mark for each byte that could move the terminal's cursor or is no text. */
void put_word(const char *word, FILE *to);

/* The same as one line, in bold where there are colours. */
void show_name(const char *name);

/* The report as a table with percents. False, and nothing shown, where it is not one that this command knows. */
bool show_table(const uint8_t *report, size_t length);

/* The refusal in words, with the line of the sheet, a mark under its field, and what that line has to have. */
void show_refusal(struct hallviska_answer answer, const uint8_t *sheet, size_t length);

#endif
