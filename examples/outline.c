/* The list at the left of a station, in C and C++: what a file declares, read 1,000 tokens a call, so that a large
 * file stops nothing else while it is read. What is refused is shown with its number and its place, behind what the
 * calls before it gave.
 *
 *     cc outline.c $(pkg-config --cflags --libs movesig) -o outline && ./outline vault.move
 */
#include <movesig.h>
#include <stdio.h>

#define TOKENS 1000

/* One byte more than a text may have, so that a longer file is refused and not cut. */
static uint8_t text[MOVESIG_LONGEST + 1];

/* Room for all records of a call in the longer layout: no two names stand side by side, so that every other token is
 * one at most. With less room a call may say full, and the next one goes on before that name. */
static uint8_t records[(TOKENS + 1) / 2 * MOVESIG_ENTRY_SIZE(MOVESIG_LONGEST)];

static unsigned long number_at(const uint8_t *from, size_t bytes)
{
    unsigned long number = 0;
    while (bytes-- > 0)
        number = number << 8 | from[bytes];
    return number;
}

/* One record. The text's length tells how wide its numbers are; the keyword has two bytes in both layouts. */
static void show(const uint8_t *record, size_t len)
{
    size_t wide = len <= 65535 ? 2 : 4;
    unsigned long keyword = number_at(record + wide, 2);
    const uint8_t *numbers = record + wide + 2;
    unsigned long start = number_at(numbers, wide), end = number_at(numbers + wide, wide);
    unsigned long comment = number_at(numbers + 2 * wide, wide), comment_end = number_at(numbers + 3 * wide, wide);
    /* A name is letters, digits and `_`, which may go to any screen. What a comment holds may not. */
    printf("%s %.*s at %lu..%lu", movesig_token_name(keyword), (int)(end - start), (const char *)text + start, start, end);
    if (comment_end > 0)
        printf(", comment at %lu..%lu", comment, comment_end);
    printf("\n");
}

int main(int words, char **word)
{
    uint64_t answer[6];
    uint64_t pending[3] = {0, 0, 0}; /* at the start of a file nothing is */
    size_t len, at = 0, record;
    FILE *file;
    if (words != 2) {
        fprintf(stderr, "usage: outline FILE\n");
        return 2;
    }
    file = fopen(word[1], "rb");
    if (file == NULL) {
        perror(word[1]);
        return 2;
    }
    len = fread(text, 1, sizeof text, file);
    if (ferror(file)) {
        perror(word[1]);
        return 2;
    }
    fclose(file);
    do {
        uint32_t number =
            movesig_outline(MOVESIG_EDITION_1, text, len, at, TOKENS, pending, records, sizeof records, answer);
        if (number != MOVESIG_ACCEPTED) {
            printf("refused %u at %u..%u\n", (unsigned)number, (unsigned)answer[0], (unsigned)answer[1]);
            return 1;
        }
        for (record = 0; record < answer[2]; record += MOVESIG_ENTRY_SIZE(len))
            show(records + record, len);
        at = (size_t)answer[3];
        /* Here a station looks after its screen. */
    } while (answer[0] == 1 || answer[1] == TOKENS);
    return 0;
}
