/* The checker of network files, the stepper, the message reader, the reader of type declarations and the message that breaks it of Pokhveti,
 * for C on x86-64.
 *
 * Link with libhost.a (README, "From C"). The library needs memcpy, memmove and memset, and neither a heap nor data of its own. The
 * functions keep no state, so they may be called from several threads at once. They are total: any bytes of any length are answered. No
 * pointer may be NULL, even where the length beside it is 0, and each is good for that length; a buffer that is lent for writing, and each
 * pointer to a single result, shares no byte with the bytes that are read or with another such buffer.
 *
 * Strings are well-formed UTF-8 (RFC 3629) of at most 16 bytes, wherever they stand; raw is any bytes. With another string a constant is
 * refused with 4, a state with 14, a message from outside with 17, and every part of such a message is empty.
 *
 * A service may be keyed (the last field of its S row is the id of an int child, else 0): its sessions 1 to 3 then go by the int of the message
 * that started them, and a message that names another session than its own is refused with 15 (pokhveti_send). A file with an input of such a
 * service whose request type has not that child, mandatory and an int, is refused with 23.
 *
 * Stack: check, environments and fresh stay within 2 MiB, types within 1 MiB, each move within 128 KiB, counterexample within 16 KiB, part within 4 KiB, on the deepest
 * networks that 256 rows allow, the deepest texts that 8,192 bytes allow and on every other input that was tried. That is measured (bin/compare stack), not proved: the proofs speak of a machine without a
 * stack. A thread needs as much beside what it takes itself. */
#ifndef POKHVETI_H
#define POKHVETI_H

#include <stddef.h>
#include <stdint.h>

#ifdef __cplusplus
extern "C" {
#endif

/* Checks a network file. Gives 0 for an accepted file, otherwise the number of the refusal, 2 to 13 or 23; *place is 0 for an accepted file,
 * otherwise the place of the refusal. */
uint32_t pokhveti_check(const uint8_t *file, size_t length, size_t *place);

/* A node of an environment: 18 bytes, without padding. */
typedef struct {
    uint8_t service;   /* row of the service */
    uint8_t client;    /* 0: the starter's environment, 1: the client's */
    uint8_t mandatory; /* 1: mandatory, 0: optional */
    uint8_t basic;     /* 0 bool, 1 int, 2 double, 3 long, 4 string, 5 raw, 6 void */
    uint8_t ids;       /* how many ids the path has, 1 to 6 */
    uint8_t zero;
    uint16_t path[6];  /* the ids; 0 after them */
} pokhveti_node;

/* An accepted file has at most this many nodes: four services, two environments each, 48 nodes in one. */
#define POKHVETI_NODES 384

/* Writes the nodes of an accepted file's environments, by service, the starter's before the client's, each in preorder. `size` is that of
 * the buffer in bytes. Gives 0 if all nodes were written, *count of them; the number of the refusal, 2 to 13 or 23, with *count 0; or 1 if the
 * buffer has no room for all nodes, of which there are *count. Unless it gives 0 nothing is written to the buffer. */
uint32_t pokhveti_environments(const uint8_t *file, size_t length, pokhveti_node *nodes, size_t size, size_t *count);

/* Reads a part of a message: the child at the path of four ids (0 after the last one). Gives the length of the child's encoding, which
 * starts at message[*start]; 0 with *start 0 where the child is missing or the path or the message is malformed. */
size_t pokhveti_part(const uint8_t *message, size_t length, uint16_t first, uint16_t second, uint16_t third, uint16_t fourth,
                     size_t *start);

/* Sizes of the two buffers of a move: the state has exactly so many bytes, the out buffer at least. */
#define POKHVETI_STATE 65536
#define POKHVETI_OUT 512

/* Writes the fresh state of an accepted file: the clients live, all else free. Gives 0, otherwise the number of the refusal, 1 to 13 or 23, with
 * its place in *place, and the state is left as it was. What a state's bytes mean is in docs/STATE.md; between two moves they belong to
 * the caller, who may copy or store them. They do not say which file they were made for: the caller passes the same file with each move. */
uint32_t pokhveti_fresh(const uint8_t *file, size_t length, uint8_t *state, size_t state_size, size_t *place);

/* The moves. Each gives 0 if it was made, otherwise the number of the refusal, 1 to 5, 14 to 19 or 22, with its place in *place (0 from 14 on),
 * and both buffers are left as they were. *bytes is how many bytes were written to the start of the out buffer, 0 if nothing went out; the
 * bytes past them stay. Services, rows and sessions count from 0: session 0 runs the service's client, 1 to 3 are started by messages. */

/* A ready assign, if or while. */
uint32_t pokhveti_local(const uint8_t *file, size_t length, uint8_t *state, size_t state_size, uint8_t *out, size_t out_size,
                        uint16_t service, uint16_t session, uint16_t row, size_t *bytes, size_t *place);

/* A ready input takes the oldest queued message of its operation. */
uint32_t pokhveti_receive(const uint8_t *file, size_t length, uint8_t *state, size_t state_size, uint8_t *out, size_t out_size,
                          uint16_t service, uint16_t session, uint16_t row, size_t *bytes, size_t *place);

/* A ready notification or solicit-response sends to the service at its location. The target is the session there that the message is queued
 * at, or a free one of 1 to 3 that it starts; to a location outside the file the target is 0 and the message goes to the out buffer. In a keyed
 * service the target is the live one of 1 to 3 with the message's key, or a free one where none has it; any other is 15, tried after 19, so that
 * a full queue is 16 and a message that does not fit 19 whatever the key. */
uint32_t pokhveti_send(const uint8_t *file, size_t length, uint8_t *state, size_t state_size, uint8_t *out, size_t out_size,
                       uint16_t service, uint16_t session, uint16_t row, uint16_t target, size_t *bytes, size_t *place);

/* A received request-response whose body is done answers the row that waits, or an outsider: then the reply number (four bytes, little-
 * endian) and the message go to the out buffer. */
uint32_t pokhveti_reply(const uint8_t *file, size_t length, uint8_t *state, size_t state_size, uint8_t *out, size_t out_size,
                        uint16_t service, uint16_t session, uint16_t row, size_t *bytes, size_t *place);

/* A message from outside to the input operation with this id; the target is as in a send. The reply number comes back with the reply; it is
 * ignored if the operation is one-way. */
uint32_t pokhveti_outer_message(const uint8_t *file, size_t length, uint8_t *state, size_t state_size, uint8_t *out, size_t out_size,
                                const uint8_t *outside, size_t outside_length, uint16_t service, uint16_t id, uint16_t target,
                                uint32_t reply_number, size_t *bytes, size_t *place);

/* A reply from outside to a row that waits for it. */
uint32_t pokhveti_outer_reply(const uint8_t *file, size_t length, uint8_t *state, size_t state_size, uint8_t *out, size_t out_size,
                              const uint8_t *outside, size_t outside_length, uint16_t service, uint16_t session, uint16_t row,
                              size_t *bytes, size_t *place);

/* A done session becomes free. Its queue is dropped: messages in it that were answered with 0 are lost, and whoever waits for their reply goes
 * on waiting. */
uint32_t pokhveti_close(const uint8_t *file, size_t length, uint8_t *state, size_t state_size, uint8_t *out, size_t out_size,
                        uint16_t service, uint16_t session, size_t *bytes, size_t *place);

/* A text of type declarations has at most so many bytes, and its rows go to a buffer of at least so many. */
#define POKHVETI_TEXT 8192
#define POKHVETI_ROWS 2048

/* Reads type declarations as text, as `type Lift : void { .load : double .clipped? : bool }`, and writes their rows of section T, 8 bytes each,
 * to the start of `rows` (docs/NETWORKS.md, "Types in a file of their own"). Gives 0, *bytes being how many bytes were written; the bytes past
 * them stay. Otherwise it gives the number of the refusal, with its place in *place, and the buffer is left as it was: 2 for a text that is too
 * long; 20 for a byte that stands nowhere in such texts and 21 for a broken declaration, a name declared twice or an unknown name, with the
 * place of the first offending byte (the text's length where it ends too soon); 1 for too small a buffer; 3 for more than 256 rows; 5 for a
 * type of more than 16 nodes or 4 levels, with the place that its row would have. */
uint32_t pokhveti_types(const uint8_t *text, size_t length, uint8_t *rows, size_t rows_size, size_t *bytes, size_t *place);

/* Given two rows of section T, each taken as a root, writes to the start of the out buffer (at least POKHVETI_OUT bytes) the message that fits
 * the first type and not the second: of all such messages that of the fewest nodes, and of these the one with the lowest bytes in order. Gives 0,
 * *bytes being the message's length, or 0 where there is none, which is exactly where the first type is a subtype of the second; the bytes past
 * it stay. Otherwise it gives the number of the refusal, with its place in *place, *bytes 0, and the buffer is left as it was: 1 for too small a
 * buffer, 2 to 5 for the file, 15 where a number is no row of section T. The file need not be accepted: 6 to 13 and 23 are not tried. */
uint32_t pokhveti_counterexample(const uint8_t *file, size_t length, uint8_t *out, size_t out_size, uint16_t first, uint16_t second,
                                 size_t *bytes, size_t *place);

#ifdef __cplusplus
}
#endif

#endif
