/*
 * lent.h: buffers between two pages that nothing may touch. A buffer ends flush with the second one, or begins flush with the
 * first; on its other side stand known bytes. One byte too far is a fault on the one side, and a changed byte on the other.
 */
#ifndef LENT_H
#define LENT_H

#include <stdint.h>
#include <stdio.h>
#include <stdlib.h>
#include <string.h>
#include <sys/mman.h>

enum { PAGE = 4096, FENCE = 256, FENCE_BYTE = 0xa5, FRESH_BYTE = 0xee };

struct lent {
    uint8_t *base; /* the pages between the two */
    size_t room;   /* their size in bytes */
    uint8_t *at;   /* what is lent of them */
    size_t len;
    int low; /* it begins flush with the first page */
};

static void make_room(struct lent *b, size_t most)
{
    b->room = (most + FENCE + PAGE - 1) / PAGE * PAGE;
    b->base = (uint8_t *)mmap(NULL, b->room + 2 * PAGE, PROT_NONE, MAP_PRIVATE | MAP_ANONYMOUS, -1, 0);
    if (b->base == MAP_FAILED || mprotect(b->base + PAGE, b->room, PROT_READ | PROT_WRITE) != 0) {
        perror("lent.h");
        exit(2);
    }
    b->base += PAGE;
    memset(b->base, FRESH_BYTE, b->room);
}

/* Lends len bytes; what they are stays open. */
static void lend(struct lent *b, size_t len, int low)
{
    b->low = low;
    b->len = len;
    b->at = low ? b->base : b->base + b->room - len;
    memset(low ? b->at + len : b->at - FENCE, FENCE_BYTE, FENCE);
}

/* Whether the bytes beside the buffer are as they were. */
static int fenced(const struct lent *b)
{
    static uint8_t fence[FENCE];
    if (fence[0] != FENCE_BYTE)
        memset(fence, FENCE_BYTE, FENCE);
    return memcmp(b->low ? b->at + b->len : b->at - FENCE, fence, FENCE) == 0;
}

#endif
