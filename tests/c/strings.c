/* Prints the string of each refusal, and of results that are none. Compiled as C and as C++. */
#include <stdio.h>

#include "shinglebar.h"

int main(void)
{
    uint64_t result;
    for (result = 0; result < 24; result++)
        printf("%lu %s\n", (unsigned long)result, shinglebar_refusal_string(result));
    printf("onward %s\n", shinglebar_refusal_string(SHINGLEBAR_RECEIVE_ONWARD));
    /* Its low 32 bits alone would be refusal 5. */
    printf("wide %s\n", shinglebar_refusal_string(((uint64_t)1 << 32) + 5));
    return 0;
}
