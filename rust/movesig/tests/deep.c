/* A library in place of the proved one, whose reads answer references inside one another, as many as the room
 * takes: far deeper than the items of today; and which opens every saved tree. .ci/packages builds the program with
 * it and lets it show such a tree, which must take no stack for a level. */
#include <movesig.h>

static uint8_t *put(uint8_t *to, uint64_t number, unsigned bytes)
{
    for (; bytes > 0; bytes--, number >>= 8)
        *to++ = (uint8_t)number;
    return to;
}

static uint32_t accepted(uint64_t answer[6], uint64_t length, uint64_t start, uint64_t end)
{
    answer[0] = length;
    answer[1] = MOVESIG_EOF;
    answer[2] = start;
    answer[3] = end;
    answer[4] = answer[5] = 0;
    return MOVESIG_ACCEPTED;
}

uint32_t movesig_read(uint64_t kind, uint64_t edition, const uint8_t *text, size_t len, size_t at, uint8_t *out,
                      size_t room, uint64_t answer[6])
{
    size_t records = (room - 4) / 14, left;
    (void)kind, (void)edition, (void)text;
    out = put(out, 0x630004, 4);
    for (left = records; left > 0; left--) {
        out = put(out, 14 * left, 4);
        out = put(out, left > 1 ? MOVESIG_REC_REF : MOVESIG_REC_TYPE, 2);
        out = put(out, at, 4);
        out = put(out, len, 4);
    }
    return accepted(answer, 4 + 14 * records, len, len);
}

uint32_t movesig_display(uint64_t kind, uint64_t edition, const uint8_t *text, size_t len, size_t at, uint8_t *line,
                         size_t room, uint64_t answer[6])
{
    (void)kind, (void)edition, (void)text, (void)len, (void)at, (void)line, (void)room;
    return accepted(answer, 0, 0, 0);
}

uint32_t movesig_next_token(uint64_t edition, const uint8_t *text, size_t len, size_t at, uint64_t answer[6])
{
    (void)edition, (void)text, (void)at;
    accepted(answer, MOVESIG_EOF, len, 0);
    answer[1] = len;
    return MOVESIG_ACCEPTED;
}

uint32_t movesig_next_comment(uint64_t edition, const uint8_t *text, size_t len, size_t at, uint64_t answer[6])
{
    (void)edition, (void)text, (void)len, (void)at;
    return accepted(answer, 0, 0, 0);
}

uint32_t movesig_outline(uint64_t edition, const uint8_t *text, size_t len, size_t at, uint64_t limit,
                         uint64_t pending[3], uint8_t *out, size_t room, uint64_t answer[6])
{
    (void)edition, (void)text, (void)len, (void)limit, (void)pending, (void)out, (void)room;
    accepted(answer, 0, 0, at);
    return MOVESIG_ACCEPTED;
}

uint32_t movesig_carry(const uint8_t *text, size_t len, size_t *notes, size_t count, uint64_t answer[6])
{
    (void)text, (void)len, (void)notes;
    return accepted(answer, count, 0, 0);
}

uint32_t movesig_opened_child(const uint8_t *tree, size_t tree_len, uint64_t record, uint64_t index,
                              uint64_t answer[6])
{
    (void)tree, (void)tree_len, (void)record, (void)index;
    return accepted(answer, 0, 0, 0);
}

uint32_t movesig_child(const uint8_t *tree, size_t tree_len, const uint8_t *text, size_t len, uint64_t record,
                       uint64_t index, uint64_t answer[6])
{
    (void)text, (void)len;
    return movesig_opened_child(tree, tree_len, record, index, answer);
}

uint32_t movesig_open(const uint8_t *tree, size_t tree_len, const uint8_t *text, size_t len, uint64_t answer[6])
{
    (void)tree, (void)tree_len, (void)text;
    accepted(answer, 1, MOVESIG_REC_REF, 0);
    answer[1] = 4;
    answer[4] = len;
    return MOVESIG_ACCEPTED;
}
