/* A station that keeps notes on the tokens of a file, in C and C++, when the file's package moves from edition 1
 * to edition 2: the notes are the offsets on the command line, and each is shown with the offset that it has
 * now. Either all of them move, or none does; what is refused is shown with its number and its place, or with
 * the note that it is about.
 *
 *     cc carry.c $(pkg-config --cflags --libs movesig) -o carry && ./carry coin.move 0 17
 */
#include <movesig.h>
#include <stdio.h>
#include <stdlib.h>

/* One byte more than a text may have, so that a longer file is refused and not cut. */
static uint8_t text[MOVESIG_LONGEST + 1];

/* The notes as they were, and the list that is lent. One more than may be carried, so that too many are refused
 * and not cut. */
static size_t old[MOVESIG_MOST_NOTES + 1], notes[MOVESIG_MOST_NOTES + 1];

int main(int words, char **word)
{
    uint64_t answer[6];
    size_t len, count, index;
    uint32_t number;
    FILE *file;
    if (words < 2) {
        fprintf(stderr, "usage: carry FILE OFFSET ...\n");
        return 2;
    }
    file = fopen(word[1], "rb");
    if (file == NULL) {
        perror(word[1]);
        return 2;
    }
    len = fread(text, 1, sizeof text, file);
    if (ferror(file)) {
        perror(word[1]);
        return 2;
    }
    fclose(file);
    for (count = 0; count < (size_t)words - 2 && count < sizeof notes / sizeof *notes; count++)
        notes[count] = old[count] = (size_t)strtoul(word[count + 2], NULL, 10);

    /* The call names both editions itself. */
    number = movesig_carry(text, len, notes, count, answer);
    if (number == MOVESIG_NOT_A_TOKEN_START) {
        /* Its place is an index of the list and no place of the text. */
        index = (size_t)answer[0];
        printf("refused 20: note %lu, at offset %lu\n", (unsigned long)index, (unsigned long)old[index]);
        return 1;
    }
    if (number != MOVESIG_ACCEPTED) {
        printf("refused %u at %u..%u\n", (unsigned)number, (unsigned)answer[0], (unsigned)answer[1]);
        return 1;
    }
    for (index = 0; index < count; index++)
        printf("note %lu: %lu -> %lu\n", (unsigned long)index, (unsigned long)old[index], (unsigned long)notes[index]);
    return 0;
}
