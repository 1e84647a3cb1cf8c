/* The library's function as the module has it that is compiled for the processor at hand (compare/module.sh).
 *
 * An answer is larger than two registers, so the module writes it through a pointer, which is its first argument. On x86-64 C does the same.
 * On aarch64 C hands that pointer over in a register of its own, so there the function is called by the module's way.
 */
#ifndef NATIVE_H
#define NATIVE_H

#include "hallviska.h"

#ifdef __aarch64__
void module_balance(struct hallviska_answer *answer, const uint8_t *sheet, size_t sheet_length, uint8_t *report, size_t report_length)
    __asm__("hallviska_balance");

static inline struct hallviska_answer native_balance(const uint8_t *sheet, size_t sheet_length, uint8_t *report, size_t report_length)
{
    struct hallviska_answer answer;
    module_balance(&answer, sheet, sheet_length, report, report_length);
    return answer;
}
#else
#define native_balance hallviska_balance
#endif

#endif
