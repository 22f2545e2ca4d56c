/* A station that saved a tree beside its text and opens it another day, in C and C++: the outermost record and its
 * children are shown, each with its offset in the tree. A damaged tree is told by the record that is at fault.
 *
 *     cc open.c $(pkg-config --cflags --libs movesig) -o open && ./open a.tree a.move
 */
#include <movesig.h>
#include <stdio.h>

/* One byte more than a text or the tree of one may have, so that a longer file is refused and not cut. */
static uint8_t text[MOVESIG_LONGEST + 1], tree[MOVESIG_TREE_ROOM(MOVESIG_LONGEST) + 1];

/* The bytes of the file, as many as there is room for; 0 where it cannot be read. */
static int read_file(const char *name, uint8_t *to, size_t room, size_t *length)
{
    FILE *file = fopen(name, "rb");
    int done = 0;
    if (file != NULL) {
        *length = fread(to, 1, room, file);
        done = !ferror(file);
        fclose(file);
    }
    if (!done)
        perror(name);
    return done;
}

static void show(const uint64_t answer[6])
{
    printf("byte %lu: %s %lu..%lu\n", (unsigned long)answer[1], movesig_record_name(answer[2]),
           (unsigned long)answer[3], (unsigned long)answer[4]);
}

int main(int words, char **word)
{
    uint64_t answer[6], record, index;
    size_t tree_len, len;
    uint32_t number;
    if (words != 3) {
        fprintf(stderr, "usage: open TREEFILE FILE\n");
        return 2;
    }
    if (!read_file(word[1], tree, sizeof tree, &tree_len) || !read_file(word[2], text, sizeof text, &len))
        return 2;

    number = movesig_open(tree, tree_len, text, len, answer);
    if (number != MOVESIG_ACCEPTED) {
        /* But for 1 its place is a byte of the tree and no place of the text. */
        printf("refused %u at byte %lu of the tree: %s\n", (unsigned)number, (unsigned long)answer[0],
               movesig_reason(number));
        return 1;
    }
    show(answer);
    record = answer[1];
    /* Opened once, the tree is not tested again at each child. */
    for (index = 0; movesig_opened_child(tree, tree_len, record, index, answer) == 0 && answer[0] == 1; index++)
        show(answer);
    return 0;
}
