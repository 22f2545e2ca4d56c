/* Asks the calls about random texts between pages that can be neither read nor written, so that a
 * byte read or written outside of what was lent ends the program. The text cannot be written
 * during a call, and all other bytes near the buffer and the six numbers must stay as they are. Where
 * a length is 0, half of the pointers are null. What is accepted is asked again with exactly the room that
 * it took, and with one byte less, which is refusal 4. Some texts have about 65,535 bytes, some trees about
 * 8,191 records, where a tree becomes wide, and some texts 1,048,575 bytes and one or two more. Built with
 * -fsanitize=address,undefined by the tests, as C and as C++, and run on random numbers that are always the
 * same.
 *
 *     boundary [ROUNDS]
 */
#define _DEFAULT_SOURCE
#include <movesig.h>
#include <stdio.h>
#include <stdlib.h>
#include <string.h>
#include <sys/mman.h>
#include <unistd.h>

#define ROUNDS 150000

/* Enough for the trees of the lists that are made here; more than any line. */
#define MOST_ROOM ((size_t)200000)

/* The longest of the texts that are not as long as a text may be. */
#define SHORTER ((size_t)65540)

static uint64_t state = 88172645463325252u;

static uint64_t random_number(void)
{
    state ^= state << 13;
    state ^= state >> 7;
    state ^= state << 17;
    return state;
}

static size_t below(size_t bound)
{
    return (size_t)(random_number() >> 11) % bound;
}

static void fail(const char *what)
{
    printf("boundary: %s\n", what);
    exit(1);
}

/* So many bytes between two pages that cannot be touched. */
struct region {
    uint8_t *bytes;
    size_t length;
};

static struct region region_of(size_t least)
{
    struct region made;
    size_t page = (size_t)sysconf(_SC_PAGESIZE);
    uint8_t *all;
    made.length = (least + page - 1) / page * page;
    all = (uint8_t *)mmap(NULL, made.length + 2 * page, PROT_NONE, MAP_PRIVATE | MAP_ANONYMOUS, -1, 0);
    if (all == MAP_FAILED || mprotect(all + page, made.length, PROT_READ | PROT_WRITE) != 0)
        fail("no memory");
    made.bytes = all + page;
    return made;
}

/* So many bytes of the region, at its end or at its start. */
static uint8_t *lend(struct region region, size_t length)
{
    return below(2) ? region.bytes : region.bytes + (region.length - length);
}

static const char *const words[] = {
    "a", "S", "u8", "mut", "0x1", "0x", "1u8", "1_0", "u256", "_", "true", "::", ":", "<", ">", ">>", ">=", "(", ")",
    "|", "||", ",", "&", "&mut ", "{", "}", "@", " ", "\t", "\r\n", "/*", "*/", "/**", "//",
    "b\"\\\"\"", "x\"", "\xff", "<u8>", "S {f: x}", "vector<u8>", "/// doc\n",
};

/* One word over and over, so many bytes. */
static size_t repeat_word(uint8_t *to, size_t due)
{
    const char *word = words[below(sizeof words / sizeof *words)];
    size_t wide = strlen(word), length;
    for (length = 0; length < due; length++)
        to[length] = (uint8_t)word[length % wide];
    return length;
}

/* An item, and blanks up to about 65,535 bytes: more than that, and its tree is wide. */
static size_t item_and_blanks(uint8_t *to)
{
    static const char *const items[] = {"a", "0x1::b", "@0x1", "a<u8>", "(x, S {f: y})", "|x|", "| |"};
    const char *item = items[below(sizeof items / sizeof *items)];
    size_t length = 65530 + below(10);
    memset(to, ' ', length);
    memcpy(to, item, strlen(item));
    return length;
}

/* A list whose tree has about 8,191 records: more than that, and it is wide. */
static size_t long_list(uint8_t *to)
{
    size_t fields = below(2), items = fields ? 2725 + below(10) : 4090 + below(10);
    const char *open = fields ? "S {" : "(";
    size_t length = strlen(open);
    memcpy(to, open, length);
    while (items-- > 0) {
        to[length++] = 'a';
        to[length++] = ',';
    }
    to[length++] = fields ? '}' : ')';
    return length;
}

static size_t make_text(uint8_t *to, size_t room)
{
    size_t length = 0, count, i, choice = below(4000);
    if (choice < 8)
        return repeat_word(to, 65530 + below(10));
    if (choice < 58)
        return item_and_blanks(to);
    if (choice < 108)
        return long_list(to);
    if (choice == 108) /* the longest, or too long */
        return repeat_word(to, MOVESIG_LONGEST + below(3));
    if (below(8) == 0) {
        length = below(40);
        for (i = 0; i < length; i++)
            to[i] = (uint8_t)random_number();
        return length;
    }
    count = below(24);
    for (i = 0; i < count; i++) {
        const char *word = words[below(sizeof words / sizeof *words)];
        size_t wide = strlen(word);
        if (length + wide > room)
            break;
        memcpy(to + length, word, wide);
        length += wide;
    }
    return length;
}

static size_t some_offset(size_t len)
{
    switch (below(8)) {
    case 0:
        return len;
    case 1:
        return len + 1 + below(3);
    case 2:
        return (size_t)-1 - below(3);
    case 3:
        return (size_t)1 << (16 + below(48));
    case 4:
    case 5:
        return 0;
    default:
        return below(len + 1);
    }
}

static size_t some_room(size_t len)
{
    size_t choice = below(1000);
    if (len > 5000 && below(2))
        return MOST_ROOM;
    return choice < 100 ? 0 : choice == 100 ? 65535 : choice == 101 ? MOST_ROOM : below(400);
}

static uint64_t some_kind(void)
{
    switch (below(16)) {
    case 0:
        return random_number();
    case 1:
        return 0;
    case 2:
        return 6;
    case 3:
        return ((uint64_t)1 << 32) + 3;
    default:
        return 1 + below(5);
    }
}

static uint64_t some_edition(void)
{
    switch (below(64)) {
    case 0:
        return random_number();
    case 1:
        return 0;
    case 2:
        return 3;
    case 3:
        return (uint64_t)-1;
    case 4:
        return ((uint64_t)1 << 32) + 2;
    default:
        return 1 + below(2);
    }
}

/* Whether the first refusals come as they should: 1, 2, 3 and 19 by what was asked, and no other number then; 21
 * of a read or a display that is not asked from 0. */
static int in_order(uint32_t number, int call, uint64_t kind, uint64_t edition, size_t len, size_t at)
{
    uint32_t due = len > MOVESIG_LONGEST ? 1 : at > len ? 2 : call >= 2 && (kind < 1 || kind > 5) ? 3 : 0;
    if (due == 0 && edition != MOVESIG_EDITION_1 && edition != MOVESIG_EDITION_2)
        due = 19;
    if (due != 0)
        return number == due;
    return number == 0 || (number >= 4 && number <= 14) || (call > 2 && number == 18) ||
           (call >= 2 && at > 0 && number == MOVESIG_NOTHING_STARTS);
}

static void unchanged(const uint8_t *from, const uint8_t *to, uint8_t fill, const char *what)
{
    for (; from < to; from++)
        if (*from != fill)
            fail(what);
}

static struct region buffers, numbers;
static size_t nulls;

/* What is asked: `call` is 0 for the token, 1 for the comment, 2 for a read, 3 for a display. */
struct question {
    int call;
    uint64_t kind, edition;
    const uint8_t *text;
    size_t len, at;
};

/* Asks with so much room, at the end or at the start of its region. Tests what every answer has, and copies its
 * numbers. */
static uint32_t ask(const struct question *asked, size_t room, uint64_t numbers_of[6])
{
    uint8_t fill = (uint8_t)random_number(), *out = lend(buffers, room);
    uint8_t *buffer = room == 0 && below(2) ? NULL : out;
    uint8_t *lent = lend(numbers, 6 * sizeof(uint64_t));
    uint64_t *answer = (uint64_t *)(void *)lent;
    uint8_t *low = out - buffers.bytes < 64 ? buffers.bytes : out - 64;
    uint8_t *end = buffers.bytes + buffers.length, *high;
    const uint8_t *text = asked->text;
    size_t written = 0, len = asked->len, at = asked->at;
    uint32_t number;
    high = (size_t)(end - out) < room + 64 ? end : out + room + 64;
    memset(low, fill, (size_t)(high - low));
    memset(numbers.bytes, fill, numbers.length);
    switch (asked->call) {
    case 0:
        number = movesig_next_token(asked->edition, text, len, at, answer);
        break;
    case 1:
        number = movesig_next_comment(asked->edition, text, len, at, answer);
        break;
    case 2:
        number = movesig_read(asked->kind, asked->edition, text, len, at, buffer, room, answer);
        break;
    default:
        number = movesig_display(asked->kind, asked->edition, text, len, at, buffer, room, answer);
        break;
    }
    nulls += asked->call >= 2 && buffer == NULL;
    if (!in_order(number, asked->call, asked->kind, asked->edition, len, at))
        fail("a number that is not due");
    if (number == 0 && asked->call >= 2)
        written = (size_t)answer[0];
    if (written > room || (asked->call == 3 && written > MOVESIG_LONGEST_LINE))
        fail("an answer longer than the room");
    if (number != 0 && (answer[0] > answer[1] || answer[1] > len || answer[2] > answer[3] || answer[3] > len ||
                        answer[4] != 0 || answer[5] != 0))
        fail("a refusal's places");
    if (number == MOVESIG_NOTHING_STARTS && (answer[0] != at || answer[1] != at || answer[2] != at || answer[3] != at))
        fail("another place than the offset");
    unchanged(low, out, fill, "a byte before the buffer was written");
    unchanged(out + written, high, fill, "a byte behind the answer was written");
    unchanged(numbers.bytes, lent, fill, "a byte before the six numbers was written");
    unchanged(lent + 48, numbers.bytes + numbers.length, fill, "a byte behind the six numbers was written");
    if (number == 0 && asked->call == 2 && (memcmp(out, "\4\0\143\0", 4) == 0) != (len > 65535 || written > 65535))
        fail("a tree in the other form");
    memcpy(numbers_of, answer, 6 * sizeof *answer);
    return number;
}

int main(int count, char **given)
{
    static uint8_t made[MOVESIG_LONGEST + 2];
    struct region shorter = region_of(SHORTER), longest = region_of(MOVESIG_LONGEST + 2);
    size_t accepted = 0, refused = 0, too_long = 0, nowhere = 0, wide = 0, round, rounds = ROUNDS;
    buffers = region_of(MOST_ROOM);
    numbers = region_of(48);
    if (count > 1)
        rounds = (size_t)atol(given[1]);
    for (round = 0; round < rounds; round++) {
        size_t len = make_text(made, 400), at = some_offset(len), room = some_room(len);
        uint64_t kind = some_kind(), edition = some_edition();
        struct region texts = len > SHORTER ? longest : shorter;
        uint8_t *lent_text = lend(texts, len);
        const uint8_t *text = len == 0 && below(2) ? NULL : lent_text;
        struct question asked = {0, kind, edition, text, len, at};
        memcpy(lent_text, made, len);
        nulls += text == NULL;
        if (mprotect(texts.bytes, texts.length, PROT_READ) != 0)
            fail("the text cannot be shut");
        for (; asked.call < 4; asked.call++) {
            uint64_t answer[6], again[6];
            uint32_t number = ask(&asked, room, answer);
            accepted += number == 0;
            refused += number != 0;
            too_long += number == MOVESIG_TEXT_TOO_LONG;
            nowhere += number == MOVESIG_NOTHING_STARTS;
            if (number != 0 || asked.call < 2)
                continue;
            wide += asked.call == 2 && (len > 65535 || answer[0] > 65535);
            if (ask(&asked, (size_t)answer[0], again) != 0 || memcmp(answer, again, sizeof again) != 0)
                fail("another answer where the room is exact");
            if (ask(&asked, (size_t)answer[0] - 1, again) != MOVESIG_NO_ROOM)
                fail("one byte too few is not refused with 4");
        }
        if (mprotect(texts.bytes, texts.length, PROT_READ | PROT_WRITE) != 0)
            fail("the text cannot be opened");
    }
    printf("%lu accepted, %lu of them wide trees; %lu refused, %lu of them with 1 and %lu with 21; %lu null pointers\n",
           (unsigned long)accepted, (unsigned long)wide, (unsigned long)refused, (unsigned long)too_long,
           (unsigned long)nowhere, (unsigned long)nulls);
    if (accepted < rounds || refused < rounds || nulls < rounds / 20)
        fail("too few of them");
    if (rounds >= 10000 && (too_long == 0 || nowhere == 0 || wide == 0))
        fail("no text too long, no offset at which nothing starts, or no wide tree");
    return 0;
}
