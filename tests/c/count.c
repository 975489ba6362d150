/* Checks, counted; and the program: every group twice, with buffers at both edges of their pages. */
#include <stdio.h>
#include <string.h>

#include "check.h"

unsigned long long checks, failures;

static const char *doing = "";
static long with[3];

void during(const char *what, long a, long b, long c)
{
    doing = what;
    with[0] = a;
    with[1] = b;
    with[2] = c;
}

/* how much of it is shown */
static int first_line(void)
{
    return (int)strcspn(doing, "\n");
}

static bool fails(bool good)
{
    checks++;
    if (good)
        return false;
    failures++;
    if (failures == 21)
        printf("more than 20 failures, the rest is not shown\n");
    return failures <= 20;
}

void check_that(bool good, const char *what, const char *file, int line)
{
    if (fails(good))
        printf("%s:%d: not so: %s, with %.*s %ld %ld %ld\n", file, line, what, first_line(), doing, with[0], with[1], with[2]);
}

void check_number(uint64_t got, uint64_t want, const char *what, const char *file, int line)
{
    if (fails(got == want))
        printf("%s:%d: %s is 0x%llx and not 0x%llx, with %.*s %ld %ld %ld\n", file, line, what, (unsigned long long)got,
               (unsigned long long)want, first_line(), doing, with[0], with[1], with[2]);
}

/* xorshift, 64 bits */
uint32_t any_below(uint32_t below)
{
    static uint64_t x = 88172645463325252u;
    x ^= x << 13;
    x ^= x >> 7;
    x ^= x << 17;
    return (uint32_t)((x >> 32) % below);
}

static void group(const char *name, void (*test)(void))
{
    unsigned long long before = checks, bad = failures;
    for (int e = AT_START; e <= AT_END; e++) {
        edge = (enum edge)e;
        during(name, 0, 0, 0);
        test();
    }
    printf("%-60s %9llu checks%s\n", name, checks - before, failures == bad ? "" : ", FAILED");
    fflush(stdout);
}

int main(void)
{
    setvbuf(stdout, NULL, _IOLBF, 0);
    catch_traps();
    group("answers and blocks", test_answers);
    group("tables: registers, regions, devices", test_tables);
    group("programs: loading and reading out", test_programs);
    group("steps and runs", test_steps);
    group("every instruction, against a second interpreter", test_instructions);
    group("journals: records, step-back, forget", test_journals);
    group("steps, runs and step-backs in any order", test_walks);
    group("texts: plain, strict, refusals and their lines", test_texts);
    group("texts: how many words, labels, open references", test_limits);
    group("texts at random: each word says what its line says", test_meanings);
    group("listings", test_listings);
    group("the text of every word, against a second printer", test_prints);
    group("source for words, and the words of that source", test_sources);
    group("halted, failed, the rest protected; what hosts are told", test_helpers);
    group("records, beside step-backs", test_records);
    group("struct kettle_machine, beside the plain forms", test_wrappers);
    group("blocks and journals with damaged bytes", test_damage);
    group("lengths: nothing, odd ones, gigabytes", test_lengths);
    group("every code that a host can reach was seen", test_seen);
    printf("%llu checks, %llu failed\n", checks, failures);
    return failures != 0;
}
