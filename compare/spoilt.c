/* A library that spoils the answers of one REFUSAL in the way that SPOIL says, for seeing that tools/same finds it. `unspoilt_balance` is
 * the function of the library as it should be.
 */
#include "hallviska.h"

struct hallviska_answer unspoilt_balance(const uint8_t *sheet, size_t sheet_length, uint8_t *report, size_t report_length);

struct hallviska_answer hallviska_balance(const uint8_t *sheet, size_t sheet_length, uint8_t *report, size_t report_length)
{
    struct hallviska_answer answer = unspoilt_balance(sheet, sheet_length, report, report_length);
    if (answer.refusal == REFUSAL) {
        SPOIL;
    }
    return answer;
}
