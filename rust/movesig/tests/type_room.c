/* Room for the tree of a type. The words are pairs of an n and the length of a text. For each pair it writes
 * MOVESIG_TYPE_ROOM, and where there can be such a text it reads a type of n bytes in it, which has as many
 * records as one of n bytes can have: in front of blanks, and behind them, with just that room and with a byte
 * less. */
#include <movesig.h>
#include <stdio.h>
#include <stdlib.h>
#include <string.h>

/* Constants, whatever the numbers are, with arguments of any type. */
static uint8_t narrow[MOVESIG_TYPE_ROOM(8190, 65535)];
static uint8_t long_text[MOVESIG_TYPE_ROOM(1, 65536)];
static uint8_t long_type[MOVESIG_TYPE_ROOM(8190 + 1, 65535)];
static uint8_t longest[MOVESIG_TYPE_ROOM(MOVESIG_LONGEST, MOVESIG_LONGEST)];
static uint8_t longer[MOVESIG_TYPE_ROOM((size_t)-1, 1 ? 2 : 3)];

#define BEHIND 16 /* bytes behind the room, which nobody may write */

static uint8_t text[MOVESIG_LONGEST];
static uint8_t out[MOVESIG_TYPE_ROOM(MOVESIG_LONGEST, MOVESIG_LONGEST) + BEHIND];

static void fail(const char *what, size_t n, size_t len)
{
    printf("%s: %lu bytes in a text of %lu\n", what, (unsigned long)n, (unsigned long)len);
    exit(1);
}

/* `a`, `&a`, `(a)`, then `|a|a`, `|&a|a`, `|a,a|a`, `|&a,a|a` and so on. */
static void write_type(uint8_t *to, size_t n)
{
    size_t at = 0;
    if (n < 4) {
        memcpy(to, n == 1 ? "a" : n == 2 ? "&a" : "(a)", n);
        return;
    }
    to[at++] = '|';
    if (n % 2 == 1)
        to[at++] = '&';
    to[at++] = 'a';
    while (at < n - 2) {
        to[at++] = ',';
        to[at++] = 'a';
    }
    to[at++] = '|';
    to[at] = 'a';
}

/* The type stands at `start`, and is read from `at` on. */
static void read_it(uint64_t edition, size_t n, size_t len, size_t start, size_t at)
{
    /* three bytes alone have one record less */
    size_t room = MOVESIG_TYPE_ROOM(n, len), least = n == 3 ? MOVESIG_TYPE_ROOM(2, len) : room, count;
    uint64_t answer[6];
    memset(text, ' ', len);
    write_type(text + start, n);
    memset(out, 0xa5, room + BEHIND);
    if (movesig_read(MOVESIG_TYPE, edition, text, len, at, out, least - 1, answer) != MOVESIG_NO_ROOM)
        fail("a byte less", n, len);
    for (count = 0; count < room; count++)
        if (out[count] != 0xa5)
            fail("written before it is refused", n, len);
    if (movesig_read(MOVESIG_TYPE, edition, text, len, at, out, room, answer) != MOVESIG_ACCEPTED)
        fail("refused", n, len);
    if (answer[0] != least || answer[1] != MOVESIG_EOF || answer[2] != len || answer[3] != len)
        fail("another answer", n, len);
    for (count = least; count < room + BEHIND; count++)
        if (out[count] != 0xa5)
            fail("written behind the tree", n, len);
    /* who does not know n takes what there is from the offset on */
    if (MOVESIG_TYPE_ROOM(len - at, len) < least)
        fail("too little for the rest", n, len);
}

int main(int count, char **words)
{
    int word;
    if (sizeof narrow != 65528 || sizeof long_text != 32 || sizeof long_type != 114692 ||
        sizeof longest != 14680068 || sizeof longer != sizeof longest || MOVESIG_TYPE_ROOM((uint8_t)255, 5L) != 2048)
        return 2;
    for (word = 1; word + 1 < count; word += 2) {
        size_t n = strtoul(words[word], NULL, 10), len = strtoul(words[word + 1], NULL, 10);
        uint64_t edition;
        printf("%lu\n", (unsigned long)MOVESIG_TYPE_ROOM(n, len));
        if (n == 0 || n > len || len > MOVESIG_LONGEST)
            continue;
        for (edition = 1; edition <= 2; edition++) {
            read_it(edition, n, len, 0, 0);
            if (n == len)
                continue;
            read_it(edition, n, len, len - n, 0);
            read_it(edition, n, len, len - n, len - n);
        }
    }
    return 0;
}
