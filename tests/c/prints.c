/* What each of the 65,536 words says, against the second printer. */
#include <stdio.h>
#include <string.h>

#include "check.h"

enum { WORDS = 65536, ROOMS = KETTLE_PRINT_MOST + 5, CHUNK = 2048 };

/* ---- each word, in each room --------------------------------------------------------------------------------------------- */

/* a text is written where there is room for it; 4 to 6 come before 19 */
static void in_rooms(unsigned word, struct bytes *rooms, size_t *longest)
{
    struct said want;
    unsigned number = ref_print(&want, word);
    if (number == 0 && want.len > *longest)
        *longest = want.len;
    for (size_t len = 0; len < ROOMS; len++) {
        during("the word, in a room of", (long)word, (long)len, 0);
        uint64_t answer = print(word, &rooms[len]);
        if (number != 0) {
            NUMBER(answer, number);
        } else if (len < want.len) {
            NUMBER(answer, KETTLE_NO_ROOM);
        } else {
            NUMBER(answer, (uint64_t)want.len << 16);
            CHECK(memcmp(rooms[len].at, want.text, want.len) == 0);
        }
    }
    NUMBER(kettle_print((uint16_t)word, NULL, 0), number != 0 ? number : KETTLE_NO_ROOM);
}

static void every_word(void)
{
    struct bytes rooms[ROOMS];
    size_t longest = 0;
    for (size_t len = 0; len < ROOMS; len++)
        rooms[len] = lend(len);
    for (unsigned word = 0; word < WORDS; word++)
        in_rooms(word, rooms, &longest);
    for (size_t len = 0; len < ROOMS; len++)
        give_back(&rooms[len]);
    during("the longest text", (long)longest, 0, 0);
    CHECK(longest <= KETTLE_PRINT_MOST);
    if (edge == AT_END)
        printf("the longest text of a word has %zu bytes, of %d\n", longest, (int)KETTLE_PRINT_MOST);
}

/* ---- beside the listing -------------------------------------------------------------------------------------------------- */

/* a line of the listing: its address, a word, and that word's text, which is that of the word that its source came from too */
static const char *listed(const char *line, size_t place, unsigned word, struct bytes *out)
{
    unsigned at = 0, shown = 0;
    const char *end = strchr(line, '\n');
    CHECK(end != NULL && end > line + 10 && sscanf(line, "%4X %4X ", &at, &shown) == 2);
    if (end == NULL || end <= line + 10)
        return NULL;
    size_t n = (size_t)(end - line - 10);
    NUMBER(at, 2 * place);
    NUMBER(print(word, out), (uint64_t)n << 16);
    CHECK(n <= out->len && memcmp(out->at, line + 10, n) == 0);
    NUMBER(print(shown, out), (uint64_t)n << 16);
    CHECK(n <= out->len && memcmp(out->at, line + 10, n) == 0);
    return end + 1;
}

/* the source lines of these words that say something, and which they are */
static size_t sources(char *text, unsigned from, unsigned *words)
{
    size_t count = 0;
    struct said s;
    *text = 0;
    for (unsigned word = from; word < from + CHUNK; word++)
        if (ref_print(&s, word) == 0) {
            ref_line(&s, word);
            if ((word & 31) == 21) /* a CJP to a register, which is refused: JMP is printed the same */
                ref_print(&s, word);
            text += sprintf(text, "%s\n", s.text);
            words[count++] = word;
        }
    return count;
}

static void beside_listing(unsigned from, struct bytes *listing, struct bytes *out)
{
    static char text[CHUNK * SAID_MOST];
    static unsigned words[CHUNK];
    size_t count = sources(text, from, words);
    struct bytes lines = lend_text(text);
    during("the listing of the words from", (long)from, 0, 0);
    uint64_t answer = list(&lines, listing);
    NUMBER(kettle_code_of(answer), KETTLE_ACCEPTED);
    size_t n = kettle_bytes(answer);
    char total[SAID_MOST];
    snprintf(total, sizeof total, "words %zu open 0\n", count);
    CHECK(n >= strlen(total) && n < listing->len);
    listing->at[n] = 0;
    const char *line = (const char *)listing->at;
    for (size_t i = 0; i < count && line != NULL; i++) {
        during("the listing's line of the word", (long)words[i], (long)i, 0);
        line = listed(line, i, words[i], out);
    }
    CHECK(line != NULL && strcmp(line, total) == 0);
    give_back(&lines);
}

void test_prints(void)
{
    every_word();
    struct bytes listing = lend(KETTLE_LISTING_MOST), out = lend(KETTLE_PRINT_MOST);
    for (unsigned from = 0; from < WORDS; from += CHUNK)
        beside_listing(from, &listing, &out);
    give_back(&listing);
    give_back(&out);
}
