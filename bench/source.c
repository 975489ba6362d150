/*
 * source.c: how long text from words takes, by the number of words. Two kinds of words: each a random one that has a text, and each a jump to a
 * random even address of eleven bits, all of which are labels where they are inside the program. Prints nanoseconds of processor time
 * for a word, the least of some turns.
 *
 *   cc -O2 -Iinclude bench/source.c target/staticlib/libseamkettle.a -o target/source && target/source
 */
#define _POSIX_C_SOURCE 199309L
#include <stdio.h>
#include <stdlib.h>
#include <time.h>

#include "seamkettle.h"

enum { MOST = KETTLE_WORDS_MOST, TURNS = 9 };

static uint8_t words[2 * MOST], text[1 << 20];
static uint64_t state = 88172645463325252u;

static unsigned drawn(void)
{
    state ^= state << 13;
    state ^= state >> 7;
    state ^= state << 17;
    return (unsigned)(state >> 20);
}

static unsigned random_word(void)
{
    return drawn() & 65535;
}

static unsigned random_jump(void)
{
    return 6 | (drawn() % 1024 * 2) << 5;
}

static void fill(size_t count, unsigned (*word)(void))
{
    for (size_t i = 0; i < count;) {
        unsigned w = word();
        words[2 * i] = (uint8_t)w;
        words[2 * i + 1] = (uint8_t)(w >> 8);
        i += kettle_code_of(kettle_text(words + 2 * i, 2, text, sizeof text)) == 0;
    }
}

static double seconds(void)
{
    struct timespec t;
    clock_gettime(CLOCK_PROCESS_CPUTIME_ID, &t);
    return (double)t.tv_sec + 1e-9 * (double)t.tv_nsec;
}

static double nanoseconds(size_t count)
{
    double least = 1e9;
    for (int turn = 0; turn < TURNS; turn++) {
        double start = seconds();
        if (kettle_code_of(kettle_text(words, 2 * count, text, sizeof text)) != 0)
            exit(1);
        double took = seconds() - start;
        least = took < least ? took : least;
    }
    return 1e9 * least / (double)count;
}

int main(void)
{
    printf("| words | random words, ns a word | jumps, ns a word |\n|---|---|---|\n");
    for (size_t count = 1000; count <= MOST; count = count == 32000 ? MOST + 1 : 2 * count) {
        fill(count, random_word);
        double words_took = nanoseconds(count);
        fill(count, random_jump);
        printf("| %zu | %.0f | %.0f |\n", count, words_took, nanoseconds(count));
    }
    return 0;
}
