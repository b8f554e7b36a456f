/* Lists the queue on standard input, as ./skogmund list does, by way of the library. */
#include "skogmund.h"
#include <stdio.h>

int main(void) {
    static uint8_t queue[65537], text[16384];
    uint64_t length = 0;
    size_t n = fread(queue, 1, sizeof queue, stdin);
    if (ferror(stdin) || skogmund_list(queue, n, text, sizeof text, &length, 1) != 0) {
        fputs("the queue can't be listed\n", stderr);
        return 1;
    }
    return fwrite(text, 1, length, stdout) == length ? 0 : 1;
}
