/* What the parts of the fuzzer know of each other, and of the fuzzer's engine. */
#ifndef FUZZ_H
#define FUZZ_H

#include <stddef.h>
#include <stdint.h>

/* Called by the engine. */
int LLVMFuzzerInitialize(int *words, char ***word);
int LLVMFuzzerTestOneInput(const uint8_t *data, size_t size);
size_t LLVMFuzzerCustomMutator(uint8_t *data, size_t size, size_t most, unsigned seed);
size_t LLVMFuzzerCustomCrossOver(const uint8_t *one, size_t one_size, const uint8_t *other, size_t other_size, uint8_t *out, size_t most,
                                 unsigned seed);

/* The engine's own change of some bytes. */
size_t LLVMFuzzerMutate(uint8_t *data, size_t size, size_t most);

#endif
