/* The C host: it keeps the block and the lent bytes, and carries out the commands of docs/REPLAY.md through the entries. */
#ifndef HOST_H
#define HOST_H

#include "fields.h"
#include "seamkettle.h"

struct host {
    struct lent block, memory, devices, journal;
    int wide; /* a table's count is over 255: the block's byte cannot hold it, and no entry can be asked */
};

/* One line of the script. */
struct job {
    struct host *host;
    struct fields fields;
    struct span expected; /* a command shortens it to what a C host can see */
    struct out got;
    uint64_t at; /* the line's number, from 1 */
};

/* What became of a line. Past BY_HOST: why nothing was compared. */
enum outcome {
    COMPARED,
    BY_HOST,    /* the host changed its own bytes: there is nothing to compare */
    UNREADABLE, /* a difference: the line was answered, and is no command here */
    NO_ENTRY,
    NO_COMMAND,
    BROKEN_TABLES, /* bytes, words and stores by themselves, on tables that are not valid */
    WIDE_COUNT,
    TOP_ADDRESS, /* kettle_read ends at 65,534 */
    LABEL_ROOM,  /* a label table longer than the entry's */
    OUTCOMES
};

typedef enum outcome command(struct job *job);

struct host host_fresh(void);
void host_return(struct host *h);
int host_tables_valid(const struct host *h);
void host_state_text(const struct host *h, struct out *o);

/* in host.c: what the host does to its own bytes */
command do_new, do_poke, do_regs, do_cursor, do_tables, do_state;
/* in machine.c */
command do_set, do_protect, do_device, do_load, do_loadn, do_read, do_step, do_run, do_back, do_forget;
/* in bytes.c */
command do_byte, do_word, do_put, do_putw;
/* in texts.c */
command do_asm, do_asmn, do_listing, do_print, do_decode;
/* in sources.c */
command do_text, do_textn;

/* `ok` or `no N`; what stands above the code, where nothing should, is shown too */
void say_answer(struct out *o, uint64_t answer);

void write_word(uint8_t *bytes, uint16_t w);

/* The words that a line ends with, and those that it says as COUNT and W; to be returned. 0 where there are no such fields. */
int lend_list(struct fields *f, struct lent *words);
int lend_copies(struct fields *f, struct lent *words);

/* the arguments that entries begin with */
#define LENT(b) (b).bytes, (b).len
#define WHOLE(h) LENT((h)->block), LENT((h)->memory), LENT((h)->devices), LENT((h)->journal)
#define NO_MEMORY(h) LENT((h)->block), LENT((h)->devices), LENT((h)->journal)

#endif
