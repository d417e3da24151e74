/*
 * Runs the fuzz target on each file named, without libFuzzer, with the areas on one side and on the other:
 * for the gate, and to try an input again.
 */
#include <stdint.h>
#include <stdio.h>
#include <stdlib.h>

int LLVMFuzzerInitialize(int *count, char ***arguments);
int LLVMFuzzerTestOneInput(const uint8_t *bytes, size_t length);

int main(int count, char **arguments)
{
    static uint8_t bytes[1 << 20];
    LLVMFuzzerInitialize(&count, &arguments);
    for (int at = 1; at < count; at++) {
        FILE *file = fopen(arguments[at], "rb");
        if (file == NULL) {
            perror(arguments[at]);
            return 1;
        }
        size_t length = fread(bytes, 1, sizeof bytes, file);
        fclose(file);
        LLVMFuzzerTestOneInput(bytes, length);
        bytes[0] ^= 8;
        LLVMFuzzerTestOneInput(bytes, length);
    }
    return 0;
}
