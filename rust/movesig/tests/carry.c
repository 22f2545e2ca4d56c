/* Carries random notes over random texts between pages that can be neither read nor written, so that a byte or
 * an entry read or written outside of what was lent ends the program. The text cannot be written during a call,
 * and all other bytes near the list and the six numbers must stay as they are. Where a length is 0, half of the
 * pointers are null. What is due is found by plain loops over the tokens that movesig_next_token answers in
 * each edition. Built with -fsanitize=address,undefined by the tests, as C and as C++, and run on random numbers
 * that are always the same.
 *
 *     carry [ROUNDS]
 */
#define _DEFAULT_SOURCE
#include <movesig.h>
#include <stdio.h>
#include <stdlib.h>
#include <string.h>
#include <sys/mman.h>
#include <unistd.h>

#define ROUNDS 100000

/* The longest text that is made, and the longest list. */
#define TEXT ((size_t)4096)
#define LIST ((size_t)100000)

static uint64_t state = 88172645463325252u;

static uint64_t random_number(void)
{
    state ^= state << 13;
    state ^= state >> 7;
    state ^= state << 17;
    return state;
}

static size_t below(size_t bound)
{
    return (size_t)(random_number() >> 11) % bound;
}

static void fail(const char *what)
{
    printf("carry: %s\n", what);
    exit(1);
}

/* So many bytes between two pages that cannot be touched. */
struct region {
    uint8_t *bytes;
    size_t length;
};

static struct region region_of(size_t least)
{
    struct region made;
    size_t page = (size_t)sysconf(_SC_PAGESIZE);
    uint8_t *all;
    made.length = (least + page - 1) / page * page;
    all = (uint8_t *)mmap(NULL, made.length + 2 * page, PROT_NONE, MAP_PRIVATE | MAP_ANONYMOUS, -1, 0);
    if (all == MAP_FAILED || mprotect(all + page, made.length, PROT_READ | PROT_WRITE) != 0)
        fail("no memory");
    made.bytes = all + page;
    return made;
}

/* So many bytes of the region, at its end or at its start. */
static uint8_t *lend(struct region region, size_t length)
{
    return below(2) ? region.bytes : region.bytes + (region.length - length);
}

static const char *const words[] = {
    "1_0", "1", "0x1_f", "0x", "_", "u16", "u256", "u8", "1u168", "a", " x\"00\"", " b\"a\"", " ", "\n", "// b\n", ">>",
    "&mut ", "x\"00\"", "\"", "/*", "$", "b\"", "\xff",
};

static size_t make_text(uint8_t *to)
{
    size_t length = 0, count = below(20) ? below(12) : below(400);
    /* the last words are faults, which most texts have none of */
    size_t choice = sizeof words / sizeof *words - (below(4) ? 6 : 0);
    while (count-- > 0) {
        const char *word = words[below(choice)];
        size_t wide = strlen(word);
        if (length + wide > TEXT)
            break;
        memcpy(to + length, word, wide);
        length += wide;
    }
    return length;
}

/* The tokens of a walk from 0 in an edition: start and end of each, EOF last; or how it is refused. */
struct walk {
    size_t start[TEXT + 1], end[TEXT + 1], count;
    uint32_t refused;
    uint64_t answer[6];
};

static void go(struct walk *walk, uint64_t edition, const uint8_t *text, size_t len)
{
    size_t at = 0;
    walk->count = 0;
    do {
        walk->refused = movesig_next_token(edition, text, len, at, walk->answer);
        if (walk->refused != 0)
            return;
        walk->start[walk->count] = (size_t)walk->answer[1];
        walk->end[walk->count] = at = (size_t)walk->answer[2];
        walk->count++;
    } while (walk->answer[0] != MOVESIG_EOF);
}

static struct walk old_walk, new_walk;

static int is_start(size_t note)
{
    size_t i;
    for (i = 0; i < old_walk.count; i++)
        if (old_walk.start[i] == note)
            return 1;
    return 0;
}

static size_t covering(size_t note, size_t len)
{
    size_t i, found = 0, start = 0;
    for (i = 0; i < new_walk.count; i++)
        if (new_walk.start[i] <= note && note < new_walk.end[i]) {
            start = new_walk.start[i];
            found++;
        }
    if (found != (size_t)(note != len))
        fail("a note that is not in exactly one token");
    return found ? start : len;
}

static size_t some_count(void)
{
    static const size_t counts[] = {0, 1, 2, 255, 256, 257, 300};
    if (below(2000) == 0)
        return LIST;
    return below(4) ? below(12) : counts[below(sizeof counts / sizeof *counts)];
}

/* Once in so many times any offset, else a token's start. */
static size_t some_note(size_t len, size_t times)
{
    if (below(times) == 0)
        return below(2) ? below(len + 3) : (size_t)-1 - below(2);
    return old_walk.count == 0 ? below(len + 1) : old_walk.start[below(old_walk.count)];
}

static void unchanged(const uint8_t *from, const uint8_t *to, uint8_t fill, const char *what)
{
    for (; from < to; from++)
        if (*from != fill)
            fail(what);
}

int main(int words_given, char **given)
{
    static uint8_t made[TEXT];
    static size_t before[LIST];
    struct region texts = region_of(TEXT), lists = region_of(LIST * sizeof(size_t)), numbers = region_of(48);
    size_t round, rounds = ROUNDS, accepted = 0, moved = 0, refused = 0, bad = 0, many = 0, nulls = 0;
    if (words_given > 1)
        rounds = (size_t)atol(given[1]);
    for (round = 0; round < rounds; round++) {
        size_t len = make_text(made), count = some_count(), times = below(3) ? LIST * LIST : 20, i, lowest;
        uint8_t fill = (uint8_t)random_number();
        uint8_t *lent_text = lend(texts, len), *lent = lend(lists, count * sizeof(size_t));
        uint8_t *low = lent - lists.bytes < 64 ? lists.bytes : lent - 64, *high = lent + count * sizeof(size_t);
        uint8_t *end = lists.bytes + lists.length, *stop = end - high < 64 ? end : high + 64;
        uint8_t *six = lend(numbers, 48);
        const uint8_t *text = len == 0 && below(2) ? NULL : lent_text;
        size_t *list = (size_t *)(void *)lent, *notes = count == 0 && below(2) ? NULL : list;
        uint64_t *answer = (uint64_t *)(void *)six;
        uint32_t number, due;
        uint64_t place[2];
        memcpy(lent_text, made, len);
        go(&old_walk, 1, text, len);
        go(&new_walk, 2, text, len);
        for (i = 0; i < count; i++)
            before[i] = some_note(len, times);
        memset(low, fill, (size_t)(stop - low));
        if (count > 0)
            memcpy(list, before, count * sizeof(size_t));
        memset(numbers.bytes, fill, numbers.length);
        if (mprotect(texts.bytes, texts.length, PROT_READ) != 0)
            fail("the text cannot be shut");
        number = movesig_carry(text, len, notes, count, answer);
        if (mprotect(texts.bytes, texts.length, PROT_READ | PROT_WRITE) != 0)
            fail("the text cannot be opened");
        nulls += (text == NULL) + (notes == NULL);
        unchanged(low, lent, fill, "a byte before the list was written");
        unchanged(high, stop, fill, "a byte behind the list was written");
        unchanged(numbers.bytes, six, fill, "a byte before the six numbers was written");
        unchanged(six + 48, numbers.bytes + numbers.length, fill, "a byte behind the six numbers was written");
        for (lowest = 0; lowest < count && lowest < MOVESIG_MOST_NOTES && is_start(before[lowest]);)
            lowest++;
        due = old_walk.refused ? old_walk.refused : new_walk.refused;
        place[0] = (old_walk.refused ? old_walk.answer : new_walk.answer)[0];
        place[1] = (old_walk.refused ? old_walk.answer : new_walk.answer)[1];
        if (due == 0 && lowest < count) {
            due = MOVESIG_NOT_A_TOKEN_START;
            place[0] = place[1] = lowest;
            bad++;
            many += lowest == MOVESIG_MOST_NOTES;
        }
        if (number != due)
            fail("another number");
        if (answer[4] != 0 || answer[5] != 0)
            fail("a number that is not 0");
        if (due != 0) {
            refused++;
            if (answer[0] != place[0] || answer[1] != place[1] || answer[2] != place[0] || answer[3] != place[1])
                fail("another place");
            if (count > 0 && memcmp(list, before, count * sizeof(size_t)) != 0)
                fail("a note of a refused call was moved");
            continue;
        }
        accepted++;
        if (answer[0] != count || answer[1] != 0 || answer[2] != 0 || answer[3] != 0)
            fail("other numbers of an accepted call");
        for (i = 0; i < count; i++) {
            if (list[i] != covering(before[i], len))
                fail("a note that was moved elsewhere");
            moved += list[i] != before[i];
        }
    }
    printf("%lu accepted, %lu notes moved; %lu refused, %lu of them with 20, %lu for the 257th; %lu null pointers\n",
           (unsigned long)accepted, (unsigned long)moved, (unsigned long)refused, (unsigned long)bad,
           (unsigned long)many, (unsigned long)nulls);
    if (accepted < rounds / 10 || refused < rounds / 10 || moved == 0 || bad < rounds / 100 || many == 0 || nulls == 0)
        fail("too few of them");
    return 0;
}
