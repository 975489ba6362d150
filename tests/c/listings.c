/* Listings, byte for byte. */
#include <string.h>

#include "check.h"

/* this listing exactly, into a buffer of its length and of others; and no byte where there is no room */
static void listing(const struct bytes *text, const char *want)
{
    size_t n = strlen(want);
    for (size_t len = n; len <= n + 3; len++) {
        struct bytes out = lend(len);
        NUMBER(list(text, &out), (uint64_t)n << 16);
        CHECK(memcmp(out.at, want, n) == 0);
        give_back(&out);
    }
    for (size_t len = 0; len < n; len += len + 40 < n ? 7 : 1) {
        struct bytes out = lend(len);
        NUMBER(list(text, &out), KETTLE_NO_ROOM);
        give_back(&out);
    }
}

static void listing_of(const char *source, const char *want)
{
    struct bytes text = lend_text(source);
    read_only(&text);
    during(source, 0, 0, 0);
    listing(&text, want);
    give_back(&text);
}

static void small_ones(void)
{
    listing_of("; poll\nagain:\nLDB A, B\nEQ A, #0\nCJP again\nMOV PC, C\n",
               "0000 0088 LDB A, B\n0002 0007 EQ A, #0\n0004 0005 CJP #0\n0006 02D1 MOV PC, C\nwords 4 open 0\n");
    listing_of("", "words 0 open 0\n");
    listing_of("DBG\nJMP x\nCALL y", "0000 0000 NOOP\n0002 0000 NOOP\n0004 0000 NOOP\nwords 3 open 2\n");
    listing_of("JMP A\n", "0000 0016 JMP A\nwords 1 open 0\n");
    listing_of("CJP A\n", "refused 32 line 1\n");
    listing_of("; A is a label too\nA:\nCALL A\n\nCJP A\nFOO\n", "refused 32 line 5\n");
    listing_of("CJP A B\n", "refused 22 line 1\n");
    listing_of("DBG\nJMP #2048\n", "refused 30 line 2\n");
    listing_of("FOO\n", "refused 22 line 1\n");
    listing_of("DBG\n\n\xc3\xa9\n", "refused 26 line 3\n");
}

static void long_ones(void)
{
    struct bytes text = lend(65536);
    memset(text.at, '\n', text.len);
    listing(&text, "words 0 open 0\n");
    give_back(&text);

    text = lend(65537);
    memset(text.at, 0xff, text.len);
    listing(&text, "refused 19 line 0\n"); /* 19 is found before 26 */
    give_back(&text);

    /* as many words as 65,536 bytes can say */
    static const struct {
        const char *line;
        size_t shown; /* the length of a line of its listing */
    } forms[] = {{"RET\n", 14}, {"DBG\n", 15}, {"LDR FLAGS, [FLAGS #31]\n", 33}, {"SQRTR FLAGS, FLAGS, FLAGS\n", 36}};
    for (size_t i = 0; i < sizeof forms / sizeof *forms; i++) {
        size_t len = strlen(forms[i].line), words = 65536 / len;
        during(forms[i].line, (long)words, 0, 0);
        text = lend(words * len);
        for (size_t k = 0; k < words; k++)
            memcpy(text.at + k * len, forms[i].line, len);
        struct bytes out = lend(KETTLE_LISTING_MOST);
        uint64_t answer = list(&text, &out);
        NUMBER(kettle_code_of(answer), KETTLE_ACCEPTED);
        size_t n = kettle_bytes(answer);
        NUMBER(n, words * forms[i].shown + strlen("words  open 0\n") + (words < 10000 ? 4 : 5));
        struct bytes fit = lend(n), tight = lend(n - 1);
        NUMBER(list(&text, &fit), answer);
        CHECK(memcmp(fit.at, out.at, n) == 0);
        NUMBER(list(&text, &tight), KETTLE_NO_ROOM);
        give_back(&fit);
        give_back(&tight);
        give_back(&out);
        give_back(&text);
    }
}

void test_listings(void)
{
    small_ones();
    long_ones();
}
