/*
 * host.c: how long a host like the daemon takes for its files. A program of some hundred steps sums the first 60 bytes of a file,
 * which are lent through a device; it is assembled and loaded once, and run for each file from the same block and memory. Prints
 * seconds of processor time for 1,000 files, by kettle_run and by single kettle_step calls, with journals of three lengths; the least of
 * five turns.
 *
 *   cc -O2 -Iinclude bench/host.c target/staticlib/libseamkettle.a -o target/host && target/host
 */
#define _POSIX_C_SOURCE 199309L
#include <stdio.h>
#include <stdlib.h>
#include <time.h>

#include "seamkettle.h"

enum { FILES = 1000, TURNS = 5, DEVICE = 2048, BYTES = 60 };

static const char program[] = "MOV B, #16\n"
                              "MSL B, [#0 #7]\n" /* 2,048 */
                              "MOV SP, #60\n"
                              "again:\n"
                              "LDB A, [B #0]\n"
                              "ADDR C, C, A\n"
                              "ADD B, #1\n"
                              "ADD M, #1\n"
                              "LT M, SP\n"
                              "CJP again\n"
                              "STR C, [SP #31]\n"
                              "MOV FLAGS, #1\n";

static uint8_t block[KETTLE_BLOCK_SIZE], memory[2048], devices[BYTES], journal[KETTLE_RECORD_SIZE * KETTLE_RECORD_MOST];
static uint8_t block_loaded[KETTLE_BLOCK_SIZE], memory_loaded[sizeof memory];
static size_t journal_len;
static uint64_t steps;

#define MACHINE block, sizeof block, memory, sizeof memory, devices, sizeof devices, journal, journal_len

static void fail(const char *what, uint64_t answer)
{
    fprintf(stderr, "host: %s: %u\n", what, kettle_code_of(answer));
    exit(1);
}

static void set_up(size_t records)
{
    static uint8_t words[256];
    uint64_t answer = kettle_assemble((const uint8_t *)program, sizeof program - 1, 1, words, sizeof words);
    if (kettle_code_of(answer))
        fail("assembly", answer);
    size_t words_len = kettle_words_len(answer);
    journal_len = records * KETTLE_RECORD_SIZE;
    kettle_fresh(block, 0);
    if ((answer = kettle_device(block, sizeof block, devices, sizeof devices, journal, journal_len, DEVICE, BYTES)) != 0)
        fail("device", answer);
    if ((answer = kettle_load(MACHINE, words, words_len)) != 0)
        fail("load", answer);
    memcpy(block_loaded, block, sizeof block);
    memcpy(memory_loaded, memory, sizeof memory);
}

static void next_file(unsigned number)
{
    memcpy(block, block_loaded, sizeof block);
    memcpy(memory, memory_loaded, sizeof memory);
    for (unsigned i = 0; i < BYTES; i++)
        devices[i] = (uint8_t)(number * 31 + i);
}

/* The program's answer is the sum of the bytes. */
static void look_at_sum(void)
{
    unsigned sum = 0;
    for (unsigned i = 0; i < BYTES; i++)
        sum += devices[i];
    if (kettle_word(memory + BYTES + 31) != sum)
        fail("sum", sum);
}

static void by_run(void)
{
    uint64_t answer = kettle_run(MACHINE, 100000);
    if (kettle_code_of(answer) != KETTLE_STOP)
        fail("run", answer);
    steps += kettle_steps(answer);
}

static void by_steps(void)
{
    uint64_t answer;
    while ((answer = kettle_step(MACHINE)) == KETTLE_ACCEPTED)
        steps++;
    if (answer != KETTLE_STOP)
        fail("step", answer);
}

static double seconds(void (*one)(void))
{
    double least = 1e9;
    for (int turn = 0; turn < TURNS; turn++) {
        struct timespec from, to;
        steps = 0;
        clock_gettime(CLOCK_PROCESS_CPUTIME_ID, &from);
        for (unsigned i = 0; i < FILES; i++) {
            next_file(i);
            one();
        }
        clock_gettime(CLOCK_PROCESS_CPUTIME_ID, &to);
        look_at_sum();
        double took = (double)(to.tv_sec - from.tv_sec) + (double)(to.tv_nsec - from.tv_nsec) / 1e9;
        least = took < least ? took : least;
    }
    return least;
}

int main(void)
{
    static const size_t records[] = {0, 64, KETTLE_RECORD_MOST};
    printf("records  steps a file  run, s  ns a step  single steps, s  ns a step\n");
    for (unsigned i = 0; i < sizeof records / sizeof *records; i++) {
        set_up(records[i]);
        double run = seconds(by_run), single = seconds(by_steps);
        double each = (double)steps / 1e9;
        printf("%7zu  %12llu  %6.4f  %9.1f  %15.4f  %9.1f\n", records[i], (unsigned long long)(steps / FILES), run, run / each,
               single, single / each);
    }
    return 0;
}
