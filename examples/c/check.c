/* Checks a network file from C and prints what bin/check prints: check < FILE.
 * With a path of ids as arguments it reads a message instead and prints the part at that path: check ID [ID [ID [ID]]] < MESSAGE.
 * Status: 0 accepted or read, 1 refused, 2 usage, unreadable input or failed write. */
#include <stdio.h>
#include <stdlib.h>
#include <string.h>

#include "pokhveti.h"

_Static_assert(sizeof(pokhveti_node) == 18, "a node's record has 18 bytes");

static const char *const basic_names[] = {"bool", "int", "double", "long", "string", "raw", "void"};

static int check(const uint8_t *file, size_t length)
{
    size_t place;
    uint32_t number = pokhveti_check(file, length, &place);
    if (number != 0) {
        printf("refused %u %zu\n", (unsigned)number, place);
        return 1;
    }
    pokhveti_node nodes[POKHVETI_NODES]; /* room for all nodes of any accepted file */
    size_t count;
    pokhveti_environments(file, length, nodes, sizeof nodes, &count);
    puts("accepted");
    for (size_t i = 0; i < count; i++) {
        const pokhveti_node *node = &nodes[i];
        printf("%d %c ", node->service, node->client ? 'C' : 'S');
        for (int k = 0; k < node->ids; k++)
            printf(k == 0 ? "%d" : ".%d", node->path[k]);
        printf(" %c %s\n", node->mandatory ? '!' : '?', basic_names[node->basic]);
    }
    return 0;
}

/* Reads the ids of a path; whether all are ids. */
static int read_path(int ids, char **texts, uint16_t *path)
{
    if (ids > 4) {
        fputs("check: a path has at most four ids\n", stderr);
        return 0;
    }
    for (int k = 0; k < ids; k++) {
        size_t digits = strspn(texts[k], "0123456789");
        unsigned long id = strtoul(texts[k], NULL, 10);
        if (digits == 0 || texts[k][digits] != '\0' || id > UINT16_MAX) {
            fprintf(stderr, "check: '%s' is no id, 0 to 65535\n", texts[k]);
            return 0;
        }
        path[k] = (uint16_t)id;
    }
    return 1;
}

static int part(const uint8_t *message, size_t length, const uint16_t *path)
{
    size_t start;
    size_t size = pokhveti_part(message, length, path[0], path[1], path[2], path[3], &start);
    printf("%zu bytes at %zu:", size, start);
    for (size_t k = 0; k < size; k++)
        printf(" %02x", message[start + k]);
    putchar('\n');
    return 0;
}

int main(int argc, char **argv)
{
    static uint8_t bytes[32769]; /* one more than a file may have tells a long one */
    uint16_t path[4] = {0};
    if (!read_path(argc - 1, argv + 1, path))
        return 2;
    size_t length = fread(bytes, 1, sizeof bytes, stdin);
    if (ferror(stdin)) {
        perror("check: standard input");
        return 2;
    }
    int status = argc == 1 ? check(bytes, length) : part(bytes, length, path);
    if (fflush(stdout) != 0 || ferror(stdout)) {
        perror("check: standard output");
        return 2;
    }
    return status;
}
