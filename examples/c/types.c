/* Reads type declarations from C and writes their T rows, as bin/types rows does: types < FILE.
 * Status: 0 done, 1 refused, 2 unreadable input or failed write. */
#include <stdio.h>

#include "pokhveti.h"

int main(void)
{
    static uint8_t text[POKHVETI_TEXT + 1]; /* one byte more tells a long text */
    uint8_t rows[POKHVETI_ROWS];
    size_t bytes, place;
    size_t length = fread(text, 1, sizeof text, stdin);
    if (ferror(stdin)) {
        perror("standard input");
        return 2;
    }
    uint32_t number = pokhveti_types(text, length, rows, sizeof rows, &bytes, &place);
    if (number != 0)
        printf("refused %u %zu\n", (unsigned)number, place);
    else
        fwrite(rows, 1, bytes, stdout);
    if (fflush(stdout) != 0 || ferror(stdout)) {
        perror("standard output");
        return 2;
    }
    return number != 0;
}
