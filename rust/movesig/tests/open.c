/* Opens trees between pages that can be neither read nor written, so that a byte read outside of what was lent ends
 * the program: trees of random items, as they were read, damaged, cut and made up, over their texts and over others.
 * Tree and text cannot be written during a call, and all other bytes near the six numbers must stay as they are.
 * Where a length is 0, half of the pointers are null. What a read wrote must open and be walked over to its last
 * record; every answer must be one that the header allows; and the three calls must agree. Built with
 * -fsanitize=address,undefined by the tests, as C and as C++, and run on random numbers that are always the same.
 *
 *     open [ROUNDS]
 */
#define _DEFAULT_SOURCE
#include <movesig.h>
#include <stdio.h>
#include <stdlib.h>
#include <string.h>
#include <sys/mman.h>
#include <unistd.h>

#define ROUNDS 100000
#define MOST_TREE ((size_t)200000)
#define MOST_TEXT ((size_t)66000)

static uint64_t state = 88172645463325252u;

static uint64_t random_number(void)
{
    state ^= state << 13;
    state ^= state >> 7;
    state ^= state << 17;
    return state;
}

static size_t below(size_t bound)
{
    return (size_t)(random_number() >> 11) % bound;
}

static void fail(const char *what)
{
    printf("open: %s\n", what);
    exit(1);
}

/* So many bytes between two pages that cannot be touched. */
struct region {
    uint8_t *bytes;
    size_t length;
};

static struct region region_of(size_t least)
{
    struct region made;
    size_t page = (size_t)sysconf(_SC_PAGESIZE);
    uint8_t *all;
    made.length = (least + page - 1) / page * page;
    all = (uint8_t *)mmap(NULL, made.length + 2 * page, PROT_NONE, MAP_PRIVATE | MAP_ANONYMOUS, -1, 0);
    if (all == MAP_FAILED || mprotect(all + page, made.length, PROT_READ | PROT_WRITE) != 0)
        fail("no memory");
    made.bytes = all + page;
    return made;
}

/* A copy at the region's end or start; null or some pointer where there is nothing to copy. */
static const uint8_t *lent(struct region region, const uint8_t *bytes, size_t length)
{
    uint8_t *to = below(2) ? region.bytes : region.bytes + (region.length - length);
    if (length == 0 && below(2))
        return NULL;
    memcpy(to, bytes, length);
    return to;
}

static uint8_t text[MOST_TEXT];
static size_t len;
static uint8_t tree[MOST_TREE];
static size_t tree_len;

/* An item, something before it, and now and then so many blanks behind it that its tree is wide. */
static uint64_t make_text(void)
{
    static const char *const items[] = {
        "a", "0x1::b", "a::b::c", "@0x1", "@a", "12u8", "true", "x\"00\"", "b\"a\"", "a<u8, b<c>>", "&mut (a, &b)",
        "|a, b| c", "| | ()", "(a)", "((a, b), |c| d)", "x", "(x, S {f: y, g})", "S<a, (b)> {f: T {g}}", "|x, S {f}|",
        "| |", "()", "a::S {}", "0x1::a::S<u8> {f: x}", "a<a<a<a<a<a<a<a>>>>>>>",
    };
    const char *item = items[below(sizeof items / sizeof *items)];
    len = strlen(item);
    memcpy(text, item, len);
    if (below(16) == 0) { /* a list of many */
        size_t count = below(64) == 0 ? 4090 + below(10) : below(60);
        len = 0;
        text[len++] = '(';
        while (count-- > 0) {
            text[len++] = 'a';
            text[len++] = ',';
        }
        text[len++] = ')';
    }
    if (below(8) == 0) {
        size_t to = 65530 + below(10);
        memset(text + len, ' ', to - len);
        len = to;
    }
    return 1 + below(5);
}

static size_t some_length(void)
{
    return below(4) == 0 ? below(100) : (below(2) ? 8 : 14) * below(12);
}

/* Changes some bytes, cuts the tree, puts bytes behind it, or makes one up. */
static void damage(void)
{
    static const uint8_t kinds[] = {1, 2, 3, 4, 5, 6, 10, 11, 12, 13, 14, 15, 16, 20, 21, 22, 24, 25, 26, 30, 31};
    size_t count, i;
    switch (below(6)) {
    case 0:
        tree_len = below(tree_len + 1);
        return;
    case 1:
        count = some_length();
        for (i = 0; i < count && tree_len < MOST_TREE; i++)
            tree[tree_len++] = (uint8_t)random_number();
        return;
    case 2:
        tree_len = some_length();
        for (i = 0; i < tree_len; i++)
            tree[i] = below(2) ? 0 : below(2) ? kinds[below(sizeof kinds)] : (uint8_t)(8 * below(9));
        if (below(2) && tree_len >= 4)
            memcpy(tree, "\4\0\143\0", 4);
        return;
    default:
        for (count = 1 + below(4); count > 0 && tree_len > 0; count--)
            tree[below(tree_len)] = below(2) ? (uint8_t)random_number() : kinds[below(sizeof kinds)];
    }
}

static struct region trees, texts, numbers;
static size_t nulls;

/* What is asked: 0 to open, 1 for a child, 2 for one of an opened tree. */
static uint32_t ask(int call, const uint8_t *bytes, const uint8_t *over, uint64_t record, uint64_t index,
                    uint64_t numbers_of[6])
{
    uint8_t fill = (uint8_t)random_number();
    uint8_t *six = below(2) ? numbers.bytes : numbers.bytes + (numbers.length - 48), *byte;
    uint64_t *answer = (uint64_t *)(void *)six;
    uint32_t number;
    memset(numbers.bytes, fill, numbers.length);
    number = call == 0   ? movesig_open(bytes, tree_len, over, len, answer)
             : call == 1 ? movesig_child(bytes, tree_len, over, len, record, index, answer)
                         : movesig_opened_child(bytes, tree_len, record, index, answer);
    for (byte = numbers.bytes; byte < numbers.bytes + numbers.length; byte++)
        if ((byte < six || byte >= six + 48) && *byte != fill)
            fail("a byte beside the six numbers was written");
    memcpy(numbers_of, answer, 48);
    return number;
}

/* Whether a record can start there; the tree's end too, where one is due and no byte is left. */
static int can_start(uint64_t offset)
{
    int wide = tree_len >= 4 && memcmp(tree, "\4\0\143\0", 4) == 0;
    return wide ? offset >= 4 && (offset - 4) % 14 == 0 : offset % 8 == 0;
}

static int is_record(const uint64_t answer[6])
{
    return answer[0] == 1 && answer[5] == 0 && answer[1] < tree_len && can_start(answer[1]) &&
           strcmp(movesig_record_name(answer[2]), "unknown") != 0 && answer[3] <= answer[4] && answer[4] <= len;
}

static int is_none(const uint64_t answer[6])
{
    static const uint64_t zeros[6] = {0};
    return memcmp(answer, zeros, sizeof zeros) == 0;
}

/* Counts the records from this one on, by the call on opened trees; a record's children lie in it. */
static size_t walked(const uint8_t *bytes, uint64_t record, unsigned depth)
{
    uint64_t index, answer[6];
    size_t count = 1;
    if (depth > 300)
        fail("too deep a walk");
    for (index = 0;; index++) {
        if (ask(2, bytes, NULL, record, index, answer) != 0)
            fail("a child of an opened tree is refused");
        if (is_none(answer))
            return count;
        if (!is_record(answer) || answer[1] <= record)
            fail("a child that is no record behind its parent");
        count += walked(bytes, answer[1], depth + 1);
    }
}

static uint64_t some_number(void)
{
    switch (below(8)) {
    case 0:
        return random_number();
    case 1:
        return (uint64_t)-1 - below(3);
    case 2:
        return below(tree_len + 20);
    default:
        return below(2) ? 8 * below(12) : 4 + 14 * below(12);
    }
}

/* The three calls about one tree: how it is opened, and whether the others say the same. */
static uint32_t open_and_ask(const uint8_t *bytes, const uint8_t *over)
{
    uint64_t opened[6], answer[6], again[6], record = some_number(), index = below(8) == 0 ? some_number() : below(4);
    uint32_t number = ask(0, bytes, over, 0, 0, opened), child = ask(1, bytes, over, record, index, answer);
    if (ask(2, bytes, over, record, index, again) != 0 || (!is_none(again) && (again[0] != 1 || again[5] != 0)))
        fail("a child of bytes that need not be a tree");
    if (child != number)
        fail("a child is refused otherwise than its tree");
    if (number != 0) {
        if (memcmp(opened, answer, sizeof answer) != 0)
            fail("a child's refusal has another place");
        if (number < MOVESIG_TOO_DEEP || number > MOVESIG_NOT_ALLOWED)
            fail("a number that is not due");
        if (opened[0] != opened[1] || opened[0] != opened[2] || opened[0] != opened[3] || opened[4] != 0 ||
            opened[5] != 0 || opened[0] > (tree_len > 4 ? tree_len : 4) ||
            (number != MOVESIG_RECORD_UNFIT && !can_start(opened[0])))
            fail("a refusal's place");
        return number;
    }
    if (!is_record(opened) || opened[1] > 4)
        fail("the outermost record");
    if (memcmp(answer, again, sizeof again) != 0 || (!is_none(answer) && !is_record(answer)))
        fail("a child of an opened tree is another one");
    return 0;
}

int main(int count, char **given)
{
    size_t accepted = 0, refused[18] = {0}, wide = 0, round, rounds = ROUNDS;
    trees = region_of(MOST_TREE);
    texts = region_of(MOST_TEXT);
    numbers = region_of(48);
    if (count > 1)
        rounds = (size_t)atol(given[1]);
    for (round = 0; round < rounds; round++) {
        uint64_t answer[6], kind = make_text();
        size_t whole = len, turn;
        const uint8_t *over, *bytes;
        if (movesig_read(kind, 1 + below(2), text, len, 0, tree, sizeof tree, answer) != 0)
            continue;
        tree_len = (size_t)answer[0];
        for (turn = 0; turn < 4; turn++) {
            uint32_t number;
            if (mprotect(trees.bytes, trees.length, PROT_READ | PROT_WRITE) != 0 ||
                mprotect(texts.bytes, texts.length, PROT_READ | PROT_WRITE) != 0)
                fail("what is lent cannot be opened");
            if (turn == 1 && below(4) == 0)
                len = below(whole + 1);
            else if (turn > 0)
                damage();
            over = lent(texts, text, len);
            bytes = lent(trees, tree, tree_len);
            nulls += (over == NULL) + (bytes == NULL);
            if (mprotect(trees.bytes, trees.length, PROT_READ) != 0 ||
                mprotect(texts.bytes, texts.length, PROT_READ) != 0)
                fail("what is lent cannot be shut");
            number = open_and_ask(bytes, over);
            refused[number]++;
            if (turn > 0)
                continue;
            if (number != 0)
                fail("what a read wrote is refused");
            accepted++;
            wide += tree[0] == 4;
            if (tree_len < 2000 && walked(bytes, tree[0] == 4 ? 4 : 0, 0) != tree_len / (tree[0] == 4 ? 14 : 8))
                fail("a walk that misses records");
        }
    }
    printf("%lu trees of reads, %lu of them wide; of all %lu opened, refused with 14 to 17: %lu, %lu, %lu, %lu; %lu "
           "null pointers\n",
           (unsigned long)accepted, (unsigned long)wide, (unsigned long)refused[0], (unsigned long)refused[14],
           (unsigned long)refused[15], (unsigned long)refused[16], (unsigned long)refused[17], (unsigned long)nulls);
    if (accepted < rounds / 10 || wide < rounds / 200 || nulls == 0 || refused[15] < rounds / 50 ||
        refused[16] < rounds / 200 || refused[17] < rounds / 50)
        fail("too few of them");
    return 0;
}
