/* Buffers to lend: each ends at a page that nobody may touch, so that one byte too far is seen. */
#ifndef LENT_H
#define LENT_H

#include <stddef.h>
#include <stdint.h>

struct lent {
    uint8_t *bytes; /* NULL where len is 0 */
    size_t len;
    uint8_t *pages; /* all that was mapped, both guards too */
    size_t pages_len;
};

/* Where in the script we are, for the message of a fault. */
extern char lent_where[200];

/* A fault says where it happened, and ends the program with status 1. */
void lent_watch(void);

struct lent lend(size_t len, uint8_t fill);
struct lent lend_copy(const uint8_t *bytes, size_t len);

/* From here on a store into the buffer is a fault. */
void lent_keep(const struct lent *buffer);

/* Ends the program where a byte before the buffer was changed. */
void lent_return(struct lent *buffer);

#endif
