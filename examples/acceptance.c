/*
 * acceptance: what a daemon at the end of a file link does with each file that lands.
 *
 *   acceptance [-s STEPS] [-w WORDS] PROGRAM.asm FILE...
 *
 * The site's program is assembled strictly and loaded once. Then, for each file, the machine starts anew from that state, sees the
 * file through a device, and runs at most STEPS steps (10,000 if not said otherwise). Without a FILE the program is only assembled
 * and loaded. With -w the program's words are taken out of the machine's memory again, into the file WORDS: seamkettle-source makes
 * a text of them. Exit status: 0 if all files were accepted, 1 if any was rejected, 2 on an error.
 *
 * What the program finds when it starts: B is the device's address, all other registers are 0. The device has 32 bytes, which is
 * how far a shift reaches, as in LDR A, [B #30]:
 *
 *   0 to 1    the file's length, its low 16 bits, low byte first
 *   2 to 3    the length's high 16 bits
 *   4 to 31   the file's first 28 bytes, zeros after a shorter file
 *
 * What it answers: it halts (MOV FLAGS, #1) with A = 1 for a file to accept. Everything else rejects the file: another A, a store
 * that failed, a refusal by the machine, more steps than allowed. So does a length of over 32 bits, without a run: neither cut
 * nor replaced by the largest number could it be told from the length of another file.
 */
#define _POSIX_C_SOURCE 200809L
#define _FILE_OFFSET_BITS 64

#include <errno.h>
#include <fcntl.h>
#include <stdio.h>
#include <stdlib.h>
#include <string.h>
#include <sys/stat.h>
#include <unistd.h>

#include "seamkettle.h"

enum {
    DEVICE_START = 0xF000, /* memory ends here, so that no program lies under the device */
    DEVICE_SIZE = 32,
    DEVICE_LENGTH = 0,
    DEVICE_FIRST = 4,
    FIRST_SIZE = DEVICE_SIZE - DEVICE_FIRST,
    RECORDS = 8, /* how many steps can be taken back */
    STEPS = 10000,
    TEXT_MOST = 1 << 20
};

enum { ALL_ACCEPTED = 0, SOME_REJECTED = 1, FAILED = 2 };

/* All that a machine is. It is copied whole to start anew. */
struct machine {
    uint8_t block[KETTLE_BLOCK_SIZE];
    uint8_t memory[DEVICE_START];
    uint8_t devices[DEVICE_SIZE];
    uint8_t journal[RECORDS * KETTLE_RECORD_SIZE];
};

/* Where the library finds its bytes. */
static struct kettle_machine lent(struct machine *m)
{
    struct kettle_machine k = {
        .block = m->block,
        .memory = m->memory,
        .memory_len = sizeof m->memory,
        .devices = m->devices,
        .devices_len = sizeof m->devices,
        .journal = m->journal,
        .journal_len = sizeof m->journal
    };

    return k;
}

/* The site's program. */
struct program {
    const char *name;
    uint8_t *text;
    size_t text_len, words_len;
};

/* ---- the program ---------------------------------------------------------------------------------------------------------- */

static int complain(const char *name, const char *what)
{
    fprintf(stderr, "%s: %s\n", name, what);
    return FAILED;
}

/* Reads all of a file of fewer than TEXT_MOST bytes into p->text. */
static int read_text(struct program *p)
{
    FILE *f = fopen(p->name, "rb");
    int failed;

    if (f == NULL)
        return complain(p->name, strerror(errno));
    p->text_len = fread(p->text, 1, TEXT_MOST, f);
    failed = ferror(f);
    if (fclose(f) != 0 || failed)
        return complain(p->name, "cannot be read");
    if (p->text_len == TEXT_MOST)
        return complain(p->name, "is too long for a program");
    return 0;
}

static void say_refused(const char *what, uint64_t answer)
{
    unsigned code = kettle_code_of(answer);

    fprintf(stderr, "%s refused %u %s (%s)\n", what, code, kettle_code_name(code), kettle_code_text(code));
}

/* Assembles the program into words, which must be no more than fit below the device: else this is KETTLE_PROGRAM_FULL. */
static int assemble(struct program *p, uint8_t *words, size_t words_room)
{
    uint64_t answer = kettle_assemble(p->text, p->text_len, 1, words, words_room);

    if (kettle_code_of(answer) != KETTLE_ACCEPTED) {
        fprintf(stderr, "%s:%llu:", p->name, (unsigned long long)kettle_line(answer));
        say_refused("", answer);
        return FAILED;
    }
    /* The word of such a line is 0, a NOOP: where a jump was meant, the machine goes on behind it. The assembler accepts that, so
       that a mistyped label is found here or nowhere. */
    if (kettle_open_references(answer) != 0) {
        fprintf(stderr, "%s: references to labels that are not defined: %u\n", p->name, kettle_open_references(answer));
        return FAILED;
    }
    p->words_len = kettle_words_len(answer);
    return 0;
}

static int refused(const struct program *p, const char *what, uint64_t answer)
{
    if (kettle_code_of(answer) == KETTLE_ACCEPTED)
        return 0;
    fprintf(stderr, "%s: ", p->name);
    say_refused(what, answer);
    return FAILED;
}

/* Makes the machine that every file starts from. */
static int prepare(struct machine *start, struct program *p)
{
    static uint8_t words[DEVICE_START];
    struct kettle_machine k = lent(start);

    if (assemble(p, words, sizeof words) != 0)
        return FAILED;
    memset(start, 0, sizeof *start);
    kettle_fresh(start->block, 0);
    if (refused(p, "the device was", kettle_machine_device(&k, DEVICE_START, DEVICE_SIZE)) != 0)
        return FAILED;
    if (refused(p, "loading was", kettle_machine_load(&k, words, p->words_len)) != 0)
        return FAILED;
    /* A load protects half of a program's bytes. A site whose programs store into themselves has to leave this out. */
    if (refused(p, "protection was", kettle_machine_protect_rest(&k, p->words_len)) != 0)
        return FAILED;
    return refused(p, "setting B was", kettle_machine_set_register(&k, KETTLE_B, DEVICE_START));
}

/* Takes the program's words out of the machine's memory, into a file. What stands after so many bytes is no program. */
static int take_out(struct machine *m, const struct program *p, const char *name)
{
    static uint8_t words[DEVICE_START];
    struct kettle_machine k = lent(m);
    FILE *f;
    size_t done;

    if (refused(p, "reading was", kettle_machine_read(&k, 0, p->words_len, words, sizeof words)) != 0)
        return FAILED;
    f = fopen(name, "wb");
    if (f == NULL)
        return complain(name, strerror(errno));
    done = fwrite(words, 1, p->words_len, f);
    if (fclose(f) != 0 || done != p->words_len)
        return complain(name, "cannot be written");
    return 0;
}

/* ---- a file --------------------------------------------------------------------------------------------------------------- */

struct file {
    const char *name;
    unsigned long long length;
    uint8_t first[FIRST_SIZE];
};

/* Reads n bytes. A file that has got shorter meanwhile is an error: it has not landed yet. */
static int read_first(int fd, struct file *file, size_t n)
{
    size_t done = 0;

    while (done < n) {
        ssize_t got = read(fd, file->first + done, n - done);

        if (got < 0 && errno == EINTR)
            continue;
        if (got < 0)
            return complain(file->name, strerror(errno));
        if (got == 0)
            return complain(file->name, "got shorter while it was read");
        done += (size_t)got;
    }
    return 0;
}

/* Takes the length and the first bytes of an open file. */
static int look_at(int fd, struct file *file)
{
    struct stat about;

    if (fstat(fd, &about) != 0)
        return complain(file->name, strerror(errno));
    if (!S_ISREG(about.st_mode))
        return complain(file->name, "is not a file");
    file->length = (unsigned long long)about.st_size;
    memset(file->first, 0, FIRST_SIZE);
    return read_first(fd, file, file->length < FIRST_SIZE ? (size_t)file->length : FIRST_SIZE);
}

static int open_and_look(struct file *file)
{
    /* not to wait, should it be a pipe */
    int fd = open(file->name, O_RDONLY | O_NONBLOCK);
    int status;

    if (fd < 0)
        return complain(file->name, strerror(errno));
    status = look_at(fd, file);
    if (close(fd) != 0)
        return complain(file->name, strerror(errno));
    return status;
}

/* Lends the file: the device's bytes are the host's own between two calls. */
static void lend(struct machine *m, const struct file *file)
{
    int i;

    for (i = 0; i < 4; i++)
        m->devices[DEVICE_LENGTH + i] = (uint8_t)(file->length >> 8 * i & 0xff);
    memcpy(m->devices + DEVICE_FIRST, file->first, FIRST_SIZE);
}

/* ---- what went wrong ------------------------------------------------------------------------------------------------------ */

/* Shows the instruction at an address: the word that is there, and what it says, where it says anything. */
static void show(const struct kettle_machine *k, const char *mark, uint16_t address)
{
    uint8_t bytes[2] = { 0, 0 }, text[KETTLE_PRINT_MOST];
    uint64_t found = kettle_machine_read(k, address, sizeof bytes, bytes, sizeof bytes);
    uint16_t word = kettle_word(bytes);

    if (kettle_bytes(found) != sizeof bytes) {
        printf("%s%04X, where no memory is\n", mark, (unsigned)address);
        return;
    }
    printf("%s%04X %04X", mark, (unsigned)address, (unsigned)word);
    found = kettle_print(word, text, sizeof text);
    if (kettle_code_of(found) == KETTLE_ACCEPTED)
        printf(" %.*s", (int)kettle_bytes(found), (const char *)text);
    putchar('\n');
}

/* Shows the last instructions, the oldest first, from the journal's records; then, after a refusal, the one that was refused,
 * marked. All this only reads. The program is protected, so that its words are those that ran. */
static void show_last(const struct kettle_machine *k, int with_refused)
{
    size_t n = 0;

    while (kettle_machine_record(k, n) != NULL)
        n++;
    while (n > 0)
        show(k, "    ", kettle_record_register(kettle_machine_record(k, --n), KETTLE_PC));
    if (with_refused)
        show(k, "  > ", kettle_register_of(k->block, KETTLE_PC));
}

/* ---- the verdict ---------------------------------------------------------------------------------------------------------- */

/* Runs the program on a file. A store that failed halts the machine too, whatever A is then. */
static int judge(struct machine *m, const struct file *file, uint32_t limit)
{
    struct kettle_machine k = lent(m);
    uint64_t answer = kettle_machine_run(&k, limit);
    unsigned steps = kettle_steps(answer), code = kettle_code_of(answer);
    int accepted = kettle_halted(m->block) && kettle_register_of(m->block, KETTLE_A) == 1;

    printf("%s %s (%u steps", accepted ? "accepted" : "rejected", file->name, steps);
    if (kettle_failed(m->block))
        printf(", a store failed)\n");
    else if (kettle_halted(m->block))
        printf(")\n");
    else if (code == KETTLE_ACCEPTED)
        printf(", no more are allowed)\n");
    else
        printf(", refused %u %s)\n", code, kettle_code_name(code));
    if (!kettle_halted(m->block))
        show_last(&k, code != KETTLE_ACCEPTED && !kettle_failed(m->block));
    return accepted ? ALL_ACCEPTED : SOME_REJECTED;
}

/* Takes a file from beginning to end. The machine is static because of its size; a thread needs one of its own. */
static int receive(const struct machine *start, const char *name, uint32_t limit)
{
    static struct machine m;
    struct file file;

    file.name = name;
    if (open_and_look(&file) != 0)
        return FAILED;
    if (file.length > 0xffffffff) {
        printf("rejected %s (0 steps, its length has over 32 bits)\n", name);
        return SOME_REJECTED;
    }
    m = *start;
    lend(&m, &file);
    return judge(&m, &file, limit);
}

/* ---- the command ---------------------------------------------------------------------------------------------------------- */

/* The worst that came of any file. */
static int receive_all(const struct machine *start, char **names, uint32_t limit)
{
    int worst = ALL_ACCEPTED;

    for (; *names != NULL; names++) {
        int status = receive(start, *names, limit);

        if (status > worst)
            worst = status;
    }
    return worst;
}

static int serve(struct program *p, const char *words_name, char **names, uint32_t limit)
{
    static struct machine start;

    if (read_text(p) != 0 || prepare(&start, p) != 0)
        return FAILED;
    if (words_name != NULL && take_out(&start, p, words_name) != 0)
        return FAILED;
    return receive_all(&start, names, limit);
}

static int with_program(const char *name, const char *words_name, char **names, uint32_t limit)
{
    struct program p = { name, NULL, 0, 0 };
    int status;

    p.text = malloc(TEXT_MOST);
    if (p.text == NULL)
        status = complain(name, "there is no memory for it");
    else
        status = serve(&p, words_name, names, limit);
    free(p.text);
    return status;
}

/* A number of steps, 1 to 4,294,967,295, or 0 for what is none. */
static uint32_t steps_of(const char *digits)
{
    unsigned long long n;

    if (*digits == '\0' || strspn(digits, "0123456789") != strlen(digits))
        return 0;
    errno = 0;
    n = strtoull(digits, NULL, 10);
    return errno != 0 || n > 0xffffffff ? 0 : (uint32_t)n;
}

int main(int argc, char **argv)
{
    uint32_t limit = STEPS;
    const char *words_name = NULL;
    int option;
    int status;

    if (kettle_version() != KETTLE_VERSION)
        return complain("libseamkettle.a", "is not of the version that this was compiled for");
    while ((option = getopt(argc, argv, "s:w:")) == 's' || option == 'w')
        if (option == 's')
            limit = steps_of(optarg);
        else
            words_name = optarg;
    if (option != -1 || limit == 0 || optind == argc) {
        fprintf(stderr, "usage: acceptance [-s STEPS] [-w WORDS] PROGRAM.asm FILE...\n");
        return FAILED;
    }
    status = with_program(argv[optind], words_name, argv + optind + 1, limit);
    /* A verdict that could not be written must not count as one. */
    if (fflush(stdout) != 0 || ferror(stdout))
        return complain("standard output", "cannot be written");
    return status;
}
