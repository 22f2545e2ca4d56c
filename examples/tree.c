/* The bytes of a stored tree, in C and C++: reads the type at the start of standard input and shows what
 * stands in front of its records, where it is wide, and then each record's head on a line of its own.
 *
 *     cc tree.c $(pkg-config --cflags --libs movesig) -o tree && printf 'a<u8>' | ./tree
 */
#include <movesig.h>
#include <stdio.h>

static uint8_t text[MOVESIG_LONGEST + 1];
static uint8_t tree[MOVESIG_TREE_ROOM(MOVESIG_LONGEST)];

static void show(size_t from, size_t to)
{
    printf("%4u  ", (unsigned)from);
    for (; from < to; from++)
        printf(" %02x", tree[from]);
    printf("\n");
}

int main(void)
{
    uint64_t answer[6];
    size_t len = fread(text, 1, sizeof text, stdin), at = 0, head = 8;
    uint32_t number = movesig_read(MOVESIG_TYPE, MOVESIG_EDITION_1, text, len, 0, tree, sizeof tree, answer);
    if (number != MOVESIG_ACCEPTED) {
        printf("refused %u: %s\n", (unsigned)number, movesig_reason(number));
        return 1;
    }
    /* A wide tree begins with 04 00 63 00. A narrow one begins with its length, which is 8 at least. */
    if (tree[0] == 4 && tree[1] == 0) {
        show(0, 4);
        at = 4;
        head = 14;
    }
    for (; at < answer[0]; at += head)
        show(at, at + head);
    return 0;
}
