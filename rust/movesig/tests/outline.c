/* Outlines of random texts between pages that can be neither read nor written, so that a byte or a number read or
 * written outside of what was lent ends the program. The text cannot be written during a call, and all other bytes
 * near the buffer, the three numbers that are pending and the six must stay as they are. Where a length is 0, half of
 * the pointers are null. What is due is found by a plain loop over the tokens that movesig_next_token answers and the
 * doc comments that movesig_next_comment does. Then the same text is divided at random, and what the calls wrote is
 * joined and compared with one call. Built with -fsanitize=address,undefined by the tests, as C and as C++, and run on
 * random numbers that are always the same.
 *
 *     outline [ROUNDS]
 */
#define _DEFAULT_SOURCE
#include <movesig.h>
#include <stdio.h>
#include <stdlib.h>
#include <string.h>
#include <sys/mman.h>
#include <unistd.h>

#define ROUNDS 100000

/* The longest text that is made, and room for all its records. */
#define TEXT ((size_t)65540)
#define ROOM (TEXT / 2 * 22)

static uint64_t state = 88172645463325252u;

static uint64_t random_number(void)
{
    state ^= state << 13;
    state ^= state >> 7;
    state ^= state << 17;
    return state;
}

static size_t below(size_t bound)
{
    return (size_t)(random_number() >> 11) % bound;
}

static void fail(const char *what)
{
    printf("outline: %s\n", what);
    exit(1);
}

/* So many bytes between two pages that cannot be touched. */
struct region {
    uint8_t *bytes;
    size_t length;
};

static struct region region_of(size_t least)
{
    struct region made;
    size_t page = (size_t)sysconf(_SC_PAGESIZE);
    uint8_t *all;
    made.length = (least + page - 1) / page * page;
    all = (uint8_t *)mmap(NULL, made.length + 2 * page, PROT_NONE, MAP_PRIVATE | MAP_ANONYMOUS, -1, 0);
    if (all == MAP_FAILED || mprotect(all + page, made.length, PROT_READ | PROT_WRITE) != 0)
        fail("no memory");
    made.bytes = all + page;
    return made;
}

/* So many bytes of the region, at its end or at its start. */
static uint8_t *lend(struct region region, size_t length)
{
    return below(2) ? region.bytes : region.bytes + (region.length - length);
}

static void unchanged(const uint8_t *from, const uint8_t *to, uint8_t fill, const char *what)
{
    for (; from < to; from++)
        if (*from != fill)
            fail(what);
}

static const char *const words[] = {
    " fun ", " fun f", " struct S", " struct ", " const ", "f", "S_1", " C", "1_f", ";", "{", "}", "(", "public ", " ", "\n", "\r\n",
    "/** a */", "/// d\n", "/* b */", "// c\n", "/**/", "b\"x\"", "/*", "$", "b\"", "x\"", "b\"\xff\"", "\r",
};

/* The last words are faults, which most texts have none of. */
static size_t make_text(uint8_t *to)
{
    size_t length = 0, count = below(20) ? below(16) : below(400);
    size_t choice = sizeof words / sizeof *words - (below(4) ? 6 : 0);
    if (below(200) == 0) { /* about as long as texts whose records are longer */
        length = 65500;
        memset(to, ' ', length);
    }
    while (count-- > 0) {
        const char *word = words[below(choice)];
        size_t wide = strlen(word);
        if (length + wide > TEXT)
            break;
        memcpy(to + length, word, wide);
        length += wide;
    }
    return length;
}

/* What is asked. */
struct question {
    uint64_t edition;
    const uint8_t *text;
    size_t len, at;
    uint64_t limit, pending[3];
    size_t room;
};

/* What comes of it. */
struct outline {
    uint32_t number;
    uint64_t answer[6], pending[3];
    uint8_t *records;
};

static uint8_t *put(uint8_t *to, uint64_t number, size_t bytes)
{
    for (; bytes > 0; bytes--, number >>= 8)
        *to++ = (uint8_t)number;
    return to;
}

static int declares(uint64_t kind)
{
    return kind == MOVESIG_STRUCT || kind == MOVESIG_FUN || kind == MOVESIG_CONST;
}

/* The last doc comment of the gap from `at` on; where there is none it stays what it was. */
static void last_comment(const struct question *asked, size_t at, uint64_t comment[2])
{
    uint64_t answer[6];
    while (movesig_next_comment(asked->edition, asked->text, asked->len, at, answer) == 0 && answer[0] == 1) {
        comment[0] = answer[1];
        comment[1] = answer[2];
        at = (size_t)answer[2];
    }
}

static void refused(struct outline *due, const struct question *asked, uint32_t number, const uint64_t answer[6])
{
    due->number = number;
    memcpy(due->answer, answer, sizeof due->answer);
    memcpy(due->pending, asked->pending, sizeof due->pending);
}

/* What is due, by a loop over tokens. */
static void expect(const struct question *asked, struct outline *due)
{
    size_t at = asked->at, wide = asked->len > 65535 ? 4 : 2, size = 2 + 5 * wide, written = 0;
    uint64_t count = 0, full = 0, token[6], *pending = due->pending;
    uint32_t number = movesig_next_comment(asked->edition, asked->text, asked->len, at, token);
    if (number == 1 || number == 2 || number == 19) {
        refused(due, asked, number, token);
        return;
    }
    memcpy(pending, asked->pending, sizeof due->pending);
    if (!declares(pending[0]))
        pending[0] = 0;
    if (pending[1] > asked->len || pending[2] > asked->len)
        pending[1] = pending[2] = 0;
    for (; count < asked->limit; count++) {
        uint64_t comment[2];
        comment[0] = pending[1];
        comment[1] = pending[2];
        number = movesig_next_token(asked->edition, asked->text, asked->len, at, token);
        if (number != 0) {
            refused(due, asked, number, token);
            return;
        }
        if (token[0] == MOVESIG_EOF)
            break;
        last_comment(asked, at, comment);
        if (pending[0] != 0 && token[0] == MOVESIG_IDENTIFIER) {
            uint8_t *to = due->records + written;
            full = asked->room - written < size;
            if (full)
                break;
            to = put(put(put(put(to, size, wide), pending[0], 2), token[1], wide), token[2], wide);
            put(put(to, comment[0], wide), comment[1], wide);
            written += size;
        }
        pending[0] = declares(token[0]) ? token[0] : 0;
        if (token[0] == MOVESIG_SEMICOLON || token[0] == MOVESIG_L_BRACE || token[0] == MOVESIG_R_BRACE)
            comment[0] = comment[1] = 0;
        pending[1] = comment[0];
        pending[2] = comment[1];
        at = (size_t)token[2];
    }
    due->number = 0;
    due->answer[0] = full;
    due->answer[1] = count;
    due->answer[2] = written;
    due->answer[3] = at;
    due->answer[4] = due->answer[5] = 0;
}

static struct region texts, buffers, threes, sixes;
static size_t nulls;

/* Bytes that are lent, and those up to 64 on either side of them that are filled and watched. */
struct lent {
    uint8_t *bytes, *low, *high;
};

static struct lent lend_filled(struct region region, size_t length, uint8_t fill)
{
    struct lent made;
    uint8_t *end = region.bytes + region.length;
    made.bytes = lend(region, length);
    made.low = made.bytes - region.bytes < 64 ? region.bytes : made.bytes - 64;
    made.high = (size_t)(end - made.bytes) < length + 64 ? end : made.bytes + length + 64;
    memset(made.low, fill, (size_t)(made.high - made.low));
    return made;
}

static void watch(struct lent lent, size_t written, uint8_t fill, const char *what)
{
    unchanged(lent.low, lent.bytes, fill, what);
    unchanged(lent.bytes + written, lent.high, fill, what);
}

/* Makes the call, and tests that nothing beside what it may write has changed. */
static void ask(const struct question *asked, struct outline *found)
{
    uint8_t fill = (uint8_t)random_number();
    struct lent out = lend_filled(buffers, asked->room, fill);
    struct lent three = lend_filled(threes, 24, fill), six = lend_filled(sixes, 48, fill);
    uint8_t *buffer = asked->room == 0 && below(2) ? NULL : out.bytes;
    size_t written;
    memcpy(three.bytes, asked->pending, 24);
    found->number = movesig_outline(asked->edition, asked->text, asked->len, asked->at, asked->limit,
                                    (uint64_t *)(void *)three.bytes, buffer, asked->room,
                                    (uint64_t *)(void *)six.bytes);
    nulls += buffer == NULL;
    memcpy(found->answer, six.bytes, 48);
    memcpy(found->pending, three.bytes, 24);
    written = found->number == 0 ? (size_t)found->answer[2] : 0;
    if (written > asked->room)
        fail("more bytes than there is room for");
    if (written > 0)
        memcpy(found->records, out.bytes, written);
    watch(out, written, fill, "a byte beside the records was written");
    watch(three, 24, fill, "a byte beside the three numbers was written");
    watch(six, 48, fill, "a byte beside the six numbers was written");
}

static int same(const struct outline *due, const struct outline *found)
{
    return due->number == found->number && memcmp(due->answer, found->answer, 48) == 0 &&
           memcmp(due->pending, found->pending, 24) == 0 &&
           (due->number != 0 || memcmp(due->records, found->records, (size_t)due->answer[2]) == 0);
}

static uint64_t some_kind(void)
{
    static const uint64_t kinds[] = {0, 4, 54, 62, 64, 68, (uint64_t)-1, ((uint64_t)1 << 32) + 62};
    return below(4) ? below(2) ? 0 : 62 : below(2) ? below(69) : kinds[below(sizeof kinds / sizeof *kinds)];
}

static uint64_t some_number(size_t len)
{
    return below(4) ? below(len + 1) : below(2) ? len + below(3) : (uint64_t)-1 - below(3);
}

static void ask_about(struct question *asked)
{
    static const uint64_t editions[] = {0, 3, (uint64_t)-1, ((uint64_t)1 << 32) + 1};
    asked->edition = below(32) ? 1 + below(2) : editions[below(4)];
    asked->at = below(2) ? 0 : below(16) ? below(asked->len + 1) : (size_t)some_number(asked->len);
    asked->limit = below(8) ? below(12) : below(4) ? 100 + below(200) : (uint64_t)-1;
    asked->pending[0] = some_kind();
    asked->pending[1] = below(2) ? 0 : some_number(asked->len);
    asked->pending[2] = below(2) ? asked->pending[1] : some_number(asked->len);
    asked->room = below(3) ? below(60) : below(50) ? below(400) : below(ROOM + 1);
}

static uint8_t joined[ROOM];

/* Calls one after the other, each from the end and with what is pending of the one before, and with more room where
 * one was full: what they wrote, one behind the other, is what one call with the sum of their counts writes. */
static void divide(const struct question *whole, struct outline *found, struct outline *once)
{
    struct question part = *whole;
    size_t length = 0, sum = 0, turns;
    for (turns = 0; turns < 12; turns++) {
        part.limit = below(10);
        ask(&part, found);
        if (found->number != 0)
            break;
        memcpy(joined + length, found->records, (size_t)found->answer[2]);
        length += (size_t)found->answer[2];
        sum += (size_t)found->answer[1];
        part.at = (size_t)found->answer[3];
        memcpy(part.pending, found->pending, 24);
        part.room = found->answer[0] == 1 ? 22 + below(60) : below(60);
    }
    part = *whole;
    part.limit = sum;
    part.room = length;
    ask(&part, once);
    if (turns == 0)
        return;
    if (once->number != 0 || once->answer[0] != 0 || once->answer[1] != sum || once->answer[2] != length ||
        memcmp(once->records, joined, length) != 0)
        fail("the parts are not the whole");
}

int main(int words_given, char **given)
{
    static uint8_t made[TEXT], due_records[ROOM], found_records[ROOM];
    struct outline due, found;
    size_t round, rounds = ROUNDS, accepted = 0, records = 0, full = 0, wide = 0, rejected = 0;
    texts = region_of(TEXT);
    buffers = region_of(ROOM);
    threes = region_of(24);
    sixes = region_of(48);
    due.records = due_records;
    found.records = found_records;
    if (words_given > 1)
        rounds = (size_t)atol(given[1]);
    for (round = 0; round < rounds; round++) {
        struct question asked;
        uint8_t *lent;
        asked.len = make_text(made);
        lent = lend(texts, asked.len);
        memcpy(lent, made, asked.len);
        asked.text = asked.len == 0 && below(2) ? NULL : lent;
        nulls += asked.text == NULL;
        ask_about(&asked);
        if (mprotect(texts.bytes, texts.length, PROT_READ) != 0)
            fail("the text cannot be shut");
        expect(&asked, &due);
        ask(&asked, &found);
        if (!same(&due, &found))
            fail("another answer than the tokens and comments give");
        accepted += due.number == 0;
        rejected += due.number != 0;
        if (due.number == 0) {
            full += due.answer[0] == 1;
            records += (size_t)due.answer[2] / MOVESIG_ENTRY_SIZE(asked.len);
            wide += asked.len > 65535 && due.answer[2] > 0;
        }
        divide(&asked, &found, &due);
        if (mprotect(texts.bytes, texts.length, PROT_READ | PROT_WRITE) != 0)
            fail("the text cannot be opened");
    }
    printf("%lu accepted with %lu records, %lu full, %lu with long records; %lu refused; %lu null pointers\n",
           (unsigned long)accepted, (unsigned long)records, (unsigned long)full, (unsigned long)wide,
           (unsigned long)rejected, (unsigned long)nulls);
    if (accepted < rounds / 10 || records < rounds / 10 || full < rounds / 100 || rejected < rounds / 20 || nulls == 0)
        fail("too few of them");
    if (rounds >= 50000 && wide == 0)
        fail("no long records");
    return 0;
}
