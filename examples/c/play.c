/* Runs a script of moves over a network from C and prints what bin/play prints: play NETWORK < SCRIPT. It knows the moves; the line
 * `state`, which bin/play has besides, is not one of them. Status: 0 done, 1 the network is refused, 2 usage, unreadable input, a line
 * that is no move or failed write. */
#include <stdio.h>
#include <stdlib.h>
#include <string.h>

#include "pokhveti.h"

enum { LONGEST_LINE = 4096, LONGEST_MESSAGE = 1024 };

static uint8_t file[32769]; /* one more than a file may have tells a long one */
static size_t length;
static uint8_t state[POKHVETI_STATE];
static uint8_t out[POKHVETI_OUT];

/* The words of the moves, how many numbers each names, the largest value of the last one, and whether a message follows. */
enum kind { LOCAL, RECEIVE, SEND, REPLY, OUTER_MESSAGE, OUTER_REPLY, CLOSE, KINDS };
static const struct {
    const char *word;
    int count;
    unsigned long last;
    int message;
} moves[KINDS] = {
    [LOCAL] = {"local", 3, UINT16_MAX, 0},
    [RECEIVE] = {"receive", 3, UINT16_MAX, 0},
    [SEND] = {"send", 4, UINT16_MAX, 0},
    [REPLY] = {"reply", 3, UINT16_MAX, 0},
    [OUTER_MESSAGE] = {"outer-message", 4, UINT32_MAX, 1},
    [OUTER_REPLY] = {"outer-reply", 3, UINT16_MAX, 1},
    [CLOSE] = {"close", 2, UINT16_MAX, 0},
};

/* A move as a line of the script names it. */
struct move {
    enum kind kind;
    unsigned long value[4];
    uint8_t message[LONGEST_MESSAGE];
    size_t bytes;
};

static const char *past_blanks(const char *text)
{
    return text + strspn(text, " \t");
}

/* Reads the bytes of a message; gives what is wrong, or NULL. */
static const char *read_message(const char *text, struct move *move)
{
    static const char digits[] = "0123456789abcdef0123456789ABCDEF";
    for (text = past_blanks(text); *text != '\0'; text = past_blanks(text + 2)) {
        const char *high = strchr(digits, text[0]);
        const char *low = text[1] == '\0' ? NULL : strchr(digits, text[1]);
        if (high == NULL)
            return "a message is in hexadecimal";
        if (low == NULL)
            return "each byte of a message has two hexadecimal digits";
        if (move->bytes == LONGEST_MESSAGE)
            return "a message of more than 1024 bytes";
        move->message[move->bytes++] = (uint8_t)((high - digits) % 16 << 4 | (low - digits) % 16);
    }
    return NULL;
}

/* Reads the move of a line; gives what is wrong, or NULL. */
static const char *read_move(const char *text, struct move *move)
{
    size_t word = strcspn(text = past_blanks(text), " \t");
    for (move->kind = LOCAL; move->kind < KINDS; move->kind++)
        if (strlen(moves[move->kind].word) == word && memcmp(text, moves[move->kind].word, word) == 0)
            break;
    if (move->kind == KINDS)
        return "no move of this name";
    text += word;
    int count = moves[move->kind].count;
    for (int k = 0; k < count; k++) {
        text = past_blanks(text);
        size_t digits = strspn(text, "0123456789");
        if (digits == 0)
            return "a number is missing";
        move->value[k] = strtoul(text, NULL, 10); /* ULONG_MAX where it does not fit */
        if (move->value[k] > (k == count - 1 ? moves[move->kind].last : UINT16_MAX))
            return "a number is too large";
        text += digits;
        if (*text != '\0' && *text != ' ' && *text != '\t')
            return "a number has digits alone";
    }
    if (moves[move->kind].message)
        return read_message(text, move);
    return *past_blanks(text) == '\0' ? NULL : "something follows the move";
}

static uint32_t make(const struct move *move, size_t *bytes)
{
    const unsigned long *value = move->value;
    uint16_t a = (uint16_t)value[0], b = (uint16_t)value[1], c = (uint16_t)value[2], d = (uint16_t)value[3];
    size_t place;
    switch (move->kind) {
    case LOCAL:
        return pokhveti_local(file, length, state, sizeof state, out, sizeof out, a, b, c, bytes, &place);
    case RECEIVE:
        return pokhveti_receive(file, length, state, sizeof state, out, sizeof out, a, b, c, bytes, &place);
    case SEND:
        return pokhveti_send(file, length, state, sizeof state, out, sizeof out, a, b, c, d, bytes, &place);
    case REPLY:
        return pokhveti_reply(file, length, state, sizeof state, out, sizeof out, a, b, c, bytes, &place);
    case OUTER_MESSAGE:
        return pokhveti_outer_message(file, length, state, sizeof state, out, sizeof out, move->message, move->bytes, a, b, c,
                                      (uint32_t)value[3], bytes, &place);
    case OUTER_REPLY:
        return pokhveti_outer_reply(file, length, state, sizeof state, out, sizeof out, move->message, move->bytes, a, b, c, bytes, &place);
    default:
        return pokhveti_close(file, length, state, sizeof state, out, sizeof out, a, b, bytes, &place);
    }
}

/* Makes the move of a line and prints it; gives what is wrong with the line, or NULL. */
static const char *play_line(const char *line)
{
    struct move move = {.bytes = 0};
    const char *wrong = read_move(line, &move);
    if (wrong != NULL)
        return wrong;
    size_t bytes;
    printf("%s: %u", line, (unsigned)make(&move, &bytes));
    if (bytes > 0)
        printf(" %zu ", bytes);
    for (size_t k = 0; k < bytes; k++)
        printf("%02x", out[k]);
    putchar('\n');
    return NULL;
}

/* Reads a line without its end into a buffer of LONGEST_LINE + 1 bytes; 1 for a line, 0 at the end; *wrong says what is wrong with it. */
static int read_line(char *line, const char **wrong)
{
    int next = getchar();
    if (next == EOF)
        return 0;
    size_t count = 0;
    for (; next != EOF && next != '\n'; next = getchar()) {
        if (next == '\0')
            *wrong = "a byte 0";
        else if (count == LONGEST_LINE)
            *wrong = "a line of more than 4096 bytes";
        if (*wrong != NULL)
            return 1;
        line[count++] = (char)next;
    }
    if (count > 0 && line[count - 1] == '\r')
        count--;
    line[count] = '\0';
    return 1;
}

/* Plays the script to its end or to the first line that is wrong. */
static int play(void)
{
    char line[LONGEST_LINE + 1];
    const char *wrong = NULL;
    for (unsigned long number = 1; read_line(line, &wrong); number++) {
        const char *text = past_blanks(line);
        if (wrong == NULL && *text != '\0' && *text != '#')
            wrong = play_line(line);
        if (wrong != NULL) {
            fflush(stdout);
            fprintf(stderr, "play: line %lu: %s\n", number, wrong);
            return 2;
        }
    }
    if (ferror(stdin)) {
        perror("play: standard input");
        return 2;
    }
    return 0;
}

/* Reads the network file; whether it could be read. */
static int read_file(const char *name)
{
    FILE *network = fopen(name, "rb");
    if (network == NULL) {
        perror(name);
        return 0;
    }
    length = fread(file, 1, sizeof file, network);
    int good = !ferror(network);
    if (!good)
        perror(name);
    fclose(network);
    return good;
}

int main(int argc, char **argv)
{
    if (argc != 2) {
        fputs("play: the argument is a network file\n", stderr);
        return 2;
    }
    if (!read_file(argv[1]))
        return 2;
    size_t place;
    int status = 1;
    uint32_t number = pokhveti_fresh(file, length, state, sizeof state, &place);
    if (number != 0)
        printf("refused %u %zu\n", (unsigned)number, place);
    else
        status = play();
    if (fflush(stdout) != 0 || ferror(stdout)) {
        perror("play: standard output");
        return 2;
    }
    return status;
}
