/* A station's inner loop, in C and C++: opens a file, lists its tokens, then reads and displays
 * the type behind each colon. What is refused is shown with its number and place. The file is read as
 * one of edition 1.
 *
 * A read walks over the tokens from 0 to its offset, to see that one starts or ends there. Here the colon's
 * end is known from such a walk, so the text is lent from there on, which is read from 0 without one, and the
 * colon's end is added to the places.
 *
 *     cc station.c $(pkg-config --cflags --libs movesig) -o station && ./station coin.move
 */
#include <movesig.h>
#include <stdio.h>

#if MOVESIG_VERSION_MAJOR == 0 && MOVESIG_VERSION_MINOR < 8
#error "this header has no refusal 21"
#endif

/* The edition of Move that the file is written in. */
#define EDITION MOVESIG_EDITION_1

/* One byte more than a text may have, so that a longer file is refused and not cut. */
static uint8_t text[MOVESIG_LONGEST + 1];

/* Lent to every call; no call needs more. The tree's is 42 MB for the longest text, nearly all of it never
 * touched. */
static uint8_t tree[MOVESIG_TREE_ROOM(MOVESIG_LONGEST)];
static uint8_t line[MOVESIG_LONGEST_LINE];

/* Shows a refusal of what was read from `base` on. */
static void show_refusal(uint32_t number, const uint64_t answer[6], size_t base)
{
    printf("refused %u at %u..%u", (unsigned)number, (unsigned)(base + answer[0]), (unsigned)(base + answer[1]));
    if (answer[2] != answer[0] || answer[3] != answer[1])
        printf(", second place %u..%u", (unsigned)(base + answer[2]), (unsigned)(base + answer[3]));
    printf("\n");
}

/* A number of so many bytes, the low one first. */
static unsigned number_of(const uint8_t *at, size_t bytes)
{
    return bytes == 0 ? 0 : at[0] | number_of(at + 1, bytes - 1) << 8;
}

/* Reads the type behind the token that ends at `base`, shows its records and its line. */
static void show_type(size_t len, size_t base)
{
    const uint8_t *from = text + base;
    uint64_t answer[6];
    size_t length, record, width;
    uint32_t number = movesig_read(MOVESIG_TYPE, EDITION, from, len - base, 0, tree, sizeof tree, answer);
    if (number != MOVESIG_ACCEPTED) {
        show_refusal(number, answer, base);
        return;
    }
    length = (size_t)answer[0];
    number = movesig_display(MOVESIG_TYPE, EDITION, from, len - base, 0, line, sizeof line, answer);
    if (number != MOVESIG_ACCEPTED) {
        show_refusal(number, answer, base);
        return;
    }
    printf("type ");
    fwrite(line, 1, (size_t)answer[0], stdout);
    printf("\n");
    /* A wide tree begins with 04 00 63 00. A record is a head and its children follow, so this visits each,
     * parents first. */
    width = number_of(tree, 4) == 0x630004 ? 4 : 2;
    for (record = width == 4 ? 4 : 0; record < length; record += 2 + 3 * width)
        printf("  record %u at %u..%u\n", number_of(tree + record + width, 2),
               (unsigned)base + number_of(tree + record + width + 2, width),
               (unsigned)base + number_of(tree + record + 2 * width + 2, width));
}

int main(int count, char **words)
{
    uint64_t answer[6];
    size_t len, at;
    uint32_t number;
    FILE *file;
    if (count != 2) {
        fprintf(stderr, "usage: station FILE\n");
        return 2;
    }
    file = fopen(words[1], "rb");
    if (file == NULL) {
        perror(words[1]);
        return 2;
    }
    len = fread(text, 1, sizeof text, file);
    if (ferror(file)) {
        perror(words[1]);
        return 2;
    }
    fclose(file);

    /* Token after token, each from where the last one ended. */
    for (at = 0;; at = (size_t)answer[2]) {
        number = movesig_next_token(EDITION, text, len, at, answer);
        if (number != MOVESIG_ACCEPTED) {
            show_refusal(number, answer, 0);
            break;
        }
        printf("token %u at %u..%u\n", (unsigned)answer[0], (unsigned)answer[1], (unsigned)answer[2]);
        if (answer[0] == MOVESIG_EOF)
            break;
        if (answer[0] == MOVESIG_COLON)
            show_type(len, (size_t)answer[2]);
    }
    return number == MOVESIG_ACCEPTED ? 0 : 1;
}
