/* Reads a section 5 and says how its values are packed. */
#include "skogmund.h"
#include <stdio.h>
int main(void) {
    static const uint8_t five[21] = {0, 0, 0, 21, 5, 0, 0, 0, 3, 0, 0, 0, 0, 0, 0, 0x80, 1, 0, 0, 5, 0};
    int64_t v[SKOGMUND_VALUES];
    uint64_t refusal = skogmund_read(5, five, sizeof five, v, SKOGMUND_VALUES);
    if (refusal != 0)
        printf("refused %u\n", SKOGMUND_NUMBER(refusal));
    else
        printf("%d values of %d bits, E %d\n", (int)v[3], (int)v[8], (int)v[6]);
    return refusal != 0;
}
