/* Bytes in guarded pages: one byte too far, to either side, traps. */
#define _GNU_SOURCE
#include <signal.h>
#include <stdio.h>
#include <stdlib.h>
#include <string.h>
#include <sys/mman.h>
#include <unistd.h>

#include "check.h"

/* a multiple of every page size that a processor with an emulator for x86-64 has */
#define PAGE ((size_t)65536)
#define SLACK 0xa5

enum edge edge;

static void die(const char *what)
{
    perror(what);
    exit(2);
}

/* address space of which `room` bytes after the first page can be touched */
static struct bytes reserve(size_t room, size_t all)
{
    struct bytes b;
    memset(&b, 0, sizeof b);
    b.all_len = all;
    void *p = mmap(NULL, all, PROT_NONE, MAP_PRIVATE | MAP_ANONYMOUS | MAP_NORESERVE, -1, 0);
    if (p == MAP_FAILED)
        die("mmap");
    b.all = p;
    b.room = b.all + PAGE;
    b.room_len = room;
    if (room > 0 && mprotect(b.room, room, PROT_READ | PROT_WRITE) != 0)
        die("mprotect");
    return b;
}

struct bytes lend(size_t len)
{
    size_t room = (len + PAGE - 1) / PAGE * PAGE;
    struct bytes b = reserve(room, room + 2 * PAGE);
    b.len = len;
    b.at = edge == AT_END ? b.room + room - len : b.room;
    if (len == 0 && edge == AT_END)
        b.at = NULL;
    memset(b.room, SLACK, room);
    if (len > 0)
        memset(b.at, 0, len);
    return b;
}

struct bytes lend_text(const char *text)
{
    struct bytes b = lend(strlen(text));
    if (b.len > 0)
        memcpy(b.at, text, b.len);
    return b;
}

struct bytes lend_huge(size_t open, size_t len)
{
    size_t room = (open + PAGE - 1) / PAGE * PAGE;
    struct bytes b = reserve(room, PAGE + room + len);
    b.len = len;
    b.at = b.room + room - open;
    memset(b.room, SLACK, room);
    if (open > 0)
        memset(b.at, 0, open);
    return b;
}

void give_back(struct bytes *b)
{
    size_t before, from;
    if (b->at != NULL && b->len <= b->room_len) {
        before = (size_t)(b->at - b->room);
        from = before + b->len;
    } else {
        before = b->len == 0 ? b->room_len : 0;
        from = b->room_len;
    }
    CHECK(all_are(b->room, before, SLACK));
    CHECK(all_are(b->room + from, b->room_len - from, SLACK));
    free(b->copy);
    if (munmap(b->all, b->all_len) != 0)
        die("munmap");
    memset(b, 0, sizeof *b);
}

void keep(struct bytes *b)
{
    if (b->copy == NULL && (b->copy = malloc(b->len + 1)) == NULL)
        die("malloc");
    if (b->len > 0)
        memcpy(b->copy, b->at, b->len);
}

bool kept(const struct bytes *b)
{
    return b->len == 0 || memcmp(b->copy, b->at, b->len) == 0;
}

bool all_are(const uint8_t *at, size_t len, uint8_t value)
{
    return len == 0 || (at[0] == value && memcmp(at, at + 1, len - 1) == 0);
}

void read_only(const struct bytes *b)
{
    if (b->room_len > 0 && mprotect(b->room, b->room_len, PROT_READ) != 0)
        die("mprotect");
}

/* ---- a trap ------------------------------------------------------------------------------------------------------------------ */

static void trapped(int number)
{
    static const char said[] = "TRAPPED: a byte outside the lent ones was touched. The group is the one after the last line above\n";
    (void)number;
    ssize_t n = write(STDOUT_FILENO, said, sizeof said - 1);
    (void)n;
    _exit(3);
}

void catch_traps(void)
{
    static uint8_t own[PAGE];
    stack_t stack;
    memset(&stack, 0, sizeof stack);
    stack.ss_sp = own;
    stack.ss_size = sizeof own;
    struct sigaction act;
    memset(&act, 0, sizeof act);
    act.sa_handler = trapped;
    act.sa_flags = SA_ONSTACK;
    if (sigaltstack(&stack, NULL) != 0 || sigaction(SIGSEGV, &act, NULL) != 0 || sigaction(SIGBUS, &act, NULL) != 0)
        die("sigaction");
}
