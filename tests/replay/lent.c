#define _DEFAULT_SOURCE
#include "lent.h"

#include <signal.h>
#include <stdio.h>
#include <stdlib.h>
#include <string.h>
#include <sys/mman.h>
#include <unistd.h>

/* what stands before a buffer in its first page */
enum { MARK = 0xA5 };

char lent_where[200];

static void fault(int number)
{
    static const char words[] = "through_c: a byte was touched that is not lent, or not lent to be changed, at ";
    (void)number;
    if (write(STDERR_FILENO, words, sizeof words - 1) < 0 || write(STDERR_FILENO, lent_where, strlen(lent_where)) < 0
        || write(STDERR_FILENO, "\n", 1) < 0)
        _exit(1);
    _exit(1);
}

void lent_watch(void)
{
    struct sigaction action;
    memset(&action, 0, sizeof action);
    action.sa_handler = fault;
    sigemptyset(&action.sa_mask);
    sigaction(SIGSEGV, &action, NULL);
    sigaction(SIGBUS, &action, NULL);
}

static size_t page(void)
{
    return (size_t)sysconf(_SC_PAGESIZE);
}

static void need(int held, const char *what)
{
    if (!held) {
        fprintf(stderr, "through_c: %s, at %s\n", what, lent_where);
        exit(1);
    }
}

struct lent lend(size_t len, uint8_t fill)
{
    struct lent made = {NULL, len, NULL, 0};
    size_t inner = (len + page() - 1) / page() * page();
    if (len == 0)
        return made;
    made.pages_len = inner + 2 * page();
    made.pages = mmap(NULL, made.pages_len, PROT_NONE, MAP_PRIVATE | MAP_ANONYMOUS, -1, 0);
    need(made.pages != MAP_FAILED, "no pages");
    need(mprotect(made.pages + page(), inner, PROT_READ | PROT_WRITE) == 0, "no writable pages");
    made.bytes = made.pages + page() + inner - len;
    memset(made.pages + page(), MARK, inner - len);
    memset(made.bytes, fill, len);
    return made;
}

struct lent lend_copy(const uint8_t *bytes, size_t len)
{
    struct lent made = lend(len, 0);
    if (len != 0)
        memcpy(made.bytes, bytes, len);
    return made;
}

void lent_keep(const struct lent *buffer)
{
    if (buffer->len != 0)
        need(mprotect(buffer->pages + page(), buffer->pages_len - 2 * page(), PROT_READ) == 0, "no pages to keep");
}

void lent_return(struct lent *buffer)
{
    if (buffer->len != 0) {
        const uint8_t *before = buffer->pages + page();
        while (before < buffer->bytes)
            need(*before++ == MARK, "a byte before a buffer was changed since it was lent");
        munmap(buffer->pages, buffer->pages_len);
    }
    memset(buffer, 0, sizeof *buffer);
}
