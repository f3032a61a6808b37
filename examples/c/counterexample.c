/* Shows a message that fits one type of a network file and not another: counterexample FIRST SECOND < FILE, the numbers of two T rows.
 * Prints the message in hexadecimal, or `none`, or `refused N P`: the first line of what bin/counterexample prints.
 * Status: 0 done, 1 refused, 2 usage, unreadable input or failed write. */
#include <stdio.h>
#include <stdlib.h>
#include <string.h>

#include "pokhveti.h"

/* Reads the number of a row; whether it is one. */
static int read_row(const char *text, uint16_t *row)
{
    size_t digits = strspn(text, "0123456789");
    unsigned long number = strtoul(text, NULL, 10);
    if (digits == 0 || text[digits] != '\0' || number > UINT16_MAX) {
        fprintf(stderr, "counterexample: '%s' is no row number, 0 to 65535\n", text);
        return 0;
    }
    *row = (uint16_t)number;
    return 1;
}

static int show(const uint8_t *file, size_t length, uint16_t first, uint16_t second)
{
    uint8_t out[POKHVETI_OUT];
    size_t bytes, place;
    uint32_t number = pokhveti_counterexample(file, length, out, sizeof out, first, second, &bytes, &place);
    if (number != 0) {
        printf("refused %u %zu\n", (unsigned)number, place);
        return 1;
    }
    if (bytes == 0)
        fputs("none", stdout);
    for (size_t k = 0; k < bytes; k++)
        printf("%02x", out[k]);
    putchar('\n');
    return 0;
}

int main(int argc, char **argv)
{
    static uint8_t file[32769]; /* one byte more than a file may have tells a long one */
    uint16_t first, second;
    if (argc != 3) {
        fputs("usage: counterexample FIRST SECOND < FILE\n", stderr);
        return 2;
    }
    if (!read_row(argv[1], &first) || !read_row(argv[2], &second))
        return 2;
    size_t length = fread(file, 1, sizeof file, stdin);
    if (ferror(stdin)) {
        perror("counterexample: standard input");
        return 2;
    }
    int status = show(file, length, first, second);
    if (fflush(stdout) != 0 || ferror(stdout)) {
        perror("counterexample: standard output");
        return 2;
    }
    return status;
}
