/* Puts sheets to the library and to the independent program as the fuzzer does, but without it: the names of their files come on
 * standard input, one to a line. So what the fuzzer has found is put to the library as it is linked, on its own processor.
 */
#include <stdio.h>
#include <stdlib.h>
#include <string.h>

#include "fuzz.h"

int main(void)
{
    static uint8_t sheet[1 << 16];
    char name[4096];
    LLVMFuzzerInitialize(NULL, NULL);
    while (fgets(name, sizeof name, stdin)) {
        name[strcspn(name, "\n")] = '\0';
        FILE *file = fopen(name, "rb");
        if (!file) {
            perror(name);
            return 2;
        }
        size_t length = fread(sheet, 1, sizeof sheet, file);
        fclose(file);
        /* a difference ends the program: this is the last name then */
        fprintf(stderr, "%s\n", name);
        LLVMFuzzerTestOneInput(sheet, length);
    }
    return 0;
}
