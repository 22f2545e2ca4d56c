/* The calls of the Move signature reader, for C and C++. See README.md.
 *
 * Six calls read a text of Move source: the next token, the next doc comment, an item as a stored
 * tree, an item as one line; movesig_carry, which moves notes on a text's tokens from edition 1 to
 * edition 2; and movesig_outline, which lists what a text declares, so many tokens a call. Three calls take a tree
 * that was saved beside its text: movesig_open opens it, movesig_child and movesig_opened_child give a child of one
 * of its records. All nine are proved: each answers every text, every offset, every buffer, every list of notes and
 * all bytes in the place of a tree as the definitions in crates/ say, stays inside the buffers it is lent, and
 * returns.
 *
 * WHAT EVERY CALL DOES
 *
 * It takes a text of `len` bytes at `text`, any bytes at all; movesig_opened_child alone takes none. The calls
 * that read it, for a token, a comment, an item, a line or an outline, take an offset `at` from which they read, and
 * the edition of Move that the text is written in (enum movesig_edition). movesig_carry takes neither: it reads the
 * whole text and names both editions itself. Nor do the three calls on saved trees: they read no tokens, and
 * take the `tree_len` bytes at `tree` that a read wrote once.
 * It returns 0 where it accepts, else the number of a refusal, and writes all six numbers of `answer`. What
 * they mean is told by the result alone, so look at it first: the numbers of a refused token call can be
 * those of an accepted EOF at 0. Compilers warn where a result is dropped (MOVESIG_NODISCARD).
 * No call allocates, keeps state between calls, writes elsewhere, prints, sets errno, reads past the
 * text or fails in any other way. Calls may run on several threads at once.
 *
 * WHAT THE CALLER SEES TO
 *
 * - `text` points to `len` bytes and `tree` to `tree_len` bytes that nobody writes during the call; `answer` to
 *   six numbers, aligned as uint64_t is, and `pending` to three such; `out` and `line` to `room` bytes; `notes` to
 *   `count` numbers, aligned as size_t is.
 * - `text`, `answer`, `pending` and the buffer, or the notes, do not overlap; nor does `answer` overlap `tree`.
 * - `answer` and `pending` are not null. `text` may be null, or any other pointer, where `len` is 0; `tree` where
 *   `tree_len` is 0; `out` and `line` where `room` is 0; `notes` where `count` is 0.
 * - The edition is the one that the text is written in. A wrong one is not noticed: most texts are read alike
 *   in both, and another answer need be no refusal. The value `65_535u16` read in edition 1 is `65`, followed by
 *   the name `_535u16`.
 * - Kind and edition stand in their order. Both are uint64_t, so a call with the two exchanged compiles, and
 *   where both numbers are 1 or 2 it is answered.
 * - The stack has room for the call: MOVESIG_STACK bytes are enough, beside what the thread needs itself.
 *
 * LIMITS
 *
 * A text has at most MOVESIG_LONGEST (1,048,575) bytes, a line at most MOVESIG_LONGEST_LINE (65,535). An
 * item has at most MOVESIG_LEVELS (64) levels. A tree is limited by its buffer alone, and
 * MOVESIG_TREE_ROOM(len) bytes are enough for every tree of a text of `len` bytes.
 * The tree of a type that spans n bytes, from its first byte to its last, has at most n + 1 records, and
 * MOVESIG_TYPE_ROOM(n, len) bytes are enough for it; who does not know n yet takes `len - at`.
 *
 * SPANS
 *
 * A span is a start and an end, counted in bytes from the first byte of the text, which is 0. `end` is
 * the first byte behind the span. Where start and end are equal the span is a place between two bytes.
 * The offset of a record is no place of the text: it counts the bytes of the TREE, from its first byte, which
 * is 0, those in front of a wide tree too.
 *
 * WHERE A READ OR A DISPLAY MAY BEGIN
 *
 * The token call, the comment call and the outline call read from any offset. A read and a display make sure
 * that `at` is a place where reading can begin: they walk over the tokens from 0, in the call's edition, and
 * `at` must be 0, the start or the end of a token of that walk, the text's end, the byte between the two of a
 * `>>`, or the start of the token at which the walk is refused. Where a token that the walk is refused for,
 * with 5, 7, 8 or 9, or a comment that is not closed, 6, starts before `at`, that refusal is the answer, and
 * its place may stand before `at`. Any other offset is refused with 21: one inside a token, a comment or
 * blanks, and one where a comment starts or ends and no token does. Start and end of every token that
 * movesig_next_token answers, from 0 and then each from the end of the one before, are allowed.
 * To go on behind an item, go on from the start of the token that follows it, which its read answers, and not
 * from that token's end: where a `>>` was split to end the item, the token that follows is none of the walk. Of
 * `a<b>>==c` the type `a<b>` is read and `>=`, 4 to 6, follows; 4 is allowed, 6 is not, since the walk from 0
 * has `>>`, `==` and `c`.
 *
 * What it costs: a read or a display takes the time of a token walk from 0 to `at`, and then its own; where that
 * walk is refused, the blanks and comments before the refusal are looked over once more. Over 1 MB of Move source
 * the walk takes some 2.6 ms, so 17,000 reads spread over it take more than 20 seconds.
 * The cure is to lend the text from a token's end on: `text + at` and `len - at` with offset 0, and to add
 * `at` to all places of the answer. Offset 0 is always allowed and nothing is walked. Where `at` is allowed,
 * it is the same item: the same tree, line or refusal, its places lower by `at`. What differs: the spans in
 * the tree count from there too; the form goes by the part that is lent, which may give a narrow tree where the
 * whole text gives a wide one; and refusal 1 looks at that part alone. Nobody looks then whether a token ends at
 * `at`: lend from ends that movesig_next_token answered. examples/station.c does so.
 *
 * REFUSALS
 *
 * A refused call answers { start, end, second start, second end, 0, 0 }: the span it is about, and a second
 * span, which is the first one again unless the list names another. It leaves what it was lent as it was: the
 * buffer, every byte, the notes and what is pending. (s, s) stands for a span without length at the byte or
 * token meant.
 * Two sorts of places are no places of the text, and nothing of it is to be pointed at for them. The i of 20 is
 * the index of a note in the list that was lent, counted from 0. The o of 15, 16, 17 and, from movesig_open and
 * movesig_child, of 14 is the offset of a record in the TREE that was lent.
 *
 * number  when                                                  span
 *   By what the caller asked:
 *   1     the text is longer than 1,048,575 bytes               (0, 0)
 *   2     `at` is past the text's end (`at` = `len` is not)     (0, 0)
 *   3     `kind` is no kind of item                             (0, 0)
 *  19     `edition` is neither 1 nor 2                          (0, 0)
 *  21     no token starts or ends at `at` (movesig_read and
 *         movesig_display alone)                                (at, at)
 *  20     a note starts no token of edition 1, or the list has
 *         more than 256 (movesig_carry alone)                   (i, i), the lowest such index
 *   4     the item is accepted, but its tree (movesig_read) or
 *         its line (movesig_display) is longer than `room`, or
 *         its line longer than 65,535 bytes                     (0, 0)
 *   By the text:
 *   5     no token starts with this byte                        (s, s) at the byte
 *   6     a block comment is not closed                         the innermost opener still open: 3 bytes
 *                                                               for a doc comment's, else 2
 *   7     x" without a closing quote in its line                from the token to the end of its line
 *   8     b" without a closing quote in its line                from the token to the end of its line
 *   9     a byte of 128 or more in a closed string              the first such byte
 *  10     another token was due                                 the token that stands there;
 *                                                               second, where a name begins with a number
 *                                                               and no `::` follows: the number
 *  11     a comma where an item of a list was due               (s, s) at the comma
 *  12     neither a comma nor the closing token behind an item  (s, s) at the token that stands there;
 *         of a list                                             second: (o, o) at the list's first byte
 *  13     no value (a number before `::` is none either)        the token
 *  14     more than 64 levels                                   the first token of the item at level 65
 *   By the text, for movesig_display alone:
 *  18     a string holds a byte below 32 or the byte 127        the first such byte
 *   By the tree, for movesig_open and movesig_child alone:
 *  15     a record does not fit: fewer bytes are left for it
 *         than a head has, its length is less than that or
 *         runs past its parent, or the outermost record is
 *         not all the bytes                                     (o, o) at the record
 *  16     its kind is none of enum movesig_record               (o, o) at the record
 *  17     its kind may not stand there, its end is before its
 *         start, or its span is not inside its parent's, the
 *         outermost one's not inside the text                   (o, o) at the record
 *         a child is missing                                    (o, o) at the parent
 *  14     more than 64 levels                                   (o, o) at the record at level 65
 *
 * They are tried in this order: 1, 2, 3, 19; then, for a read and a display whose `at` is not 0, the walk to
 * it: its 5 to 9, or 21; then 5 to 14 of what is read, whichever is met first; then 18; 4 last. movesig_carry
 * tries 1, then 5 to 9 of the whole text in edition 1, then in edition 2, and 20 last. movesig_outline tries 1,
 * 2 and 19, and then meets 5 to 9 among the tokens that it reads. movesig_open and movesig_child try 1, and then
 * the records, one after the other as they stand in the bytes: of each 15, 16, 17 and 14 in this order, then all
 * that is in it, and behind its last child whether one is missing.
 */
#ifndef MOVESIG_H
#define MOVESIG_H

#include <stddef.h>
#include <stdint.h>

#ifdef __cplusplus
extern "C" {
#endif

/* The most bytes of a text. */
#define MOVESIG_LONGEST 1048575

/* The most bytes of a line. A buffer for a line that is longer than this never changes an answer. */
#define MOVESIG_LONGEST_LINE 65535

/* Room for every tree of a text of `len` bytes: at most three records of 14 bytes for each byte, and four
 * bytes in front; 44,040,154 bytes for the longest text and for every `len` above, since a longer text is
 * refused. Most trees have far less. A constant where `len` is one; else `len` is evaluated twice. */
#define MOVESIG_TREE_ROOM(len) \
    (4 + 42 * ((size_t)(len) < MOVESIG_LONGEST ? (size_t)(len) : (size_t)MOVESIG_LONGEST))

/* Room for the tree of a type that spans `n` bytes, or fewer, in a text of `len` bytes: at most n + 1 records.
 * They have 8 bytes each, and for every n from 4 to 8,190 there is a type that takes all of that. In a text of
 * more than 65,535 bytes every tree is wide, and that of a type of more than 8,190 bytes may be: records of 14
 * bytes, and four bytes in front; 14,680,068 bytes for the longest text and for every `n` above. For
 * MOVESIG_TYPE alone: the other kinds need MOVESIG_TREE_ROOM. A constant where `n` and `len` are; else `n` is
 * evaluated up to three times. */
#define MOVESIG_TYPE_ROOM(n, len) \
    ((size_t)(len) <= 65535 && (size_t)(n) <= 8190 \
         ? 8 * ((size_t)(n) + 1) \
         : 4 + 14 * (((size_t)(n) < MOVESIG_LONGEST ? (size_t)(n) : (size_t)MOVESIG_LONGEST) + 1))

/* The most levels of an item. */
#define MOVESIG_LEVELS 64

/* The bytes of each record of the outline of a text of `len` bytes: 12, and 22 where it has more than 65,535. A
 * portion of n tokens has at most (n + 1) / 2 records. A constant where `len` is one. */
#define MOVESIG_ENTRY_SIZE(len) ((size_t)(len) <= 65535 ? (size_t)12 : (size_t)22)

/* The most notes that movesig_carry moves. */
#define MOVESIG_MOST_NOTES 256

/* Bytes of stack that are enough for any call. The most that was measured, over nests of every construct
 * and 1,000 at random, in texts of up to MOVESIG_LONGEST bytes, is 43,896; this is at least a fortieth more.
 * Measured, not proved: a test holds it to what is measured, and makes the calls in threads of this stack
 * beside their own. Put no buffer for a line or a tree on the same small stack. The three calls on saved trees
 * take less than 2,048 bytes, measured too. */
#define MOVESIG_STACK 49152

/* The version of this header and of the calls in it, by semantic versioning: before 1.0 another MINOR may
 * change answers or calls, from then on only another MAJOR. CHANGELOG.md says what changed for a station.
 * A station can compare it when it is compiled: the calls take an edition from MINOR 5 on, trees may be wide
 * from MINOR 6 on, a read or a display may be refused with 21 from MINOR 9 on, movesig_outline is there from MINOR 11
 * on, and the three calls on saved trees from MINOR 12 on. */
#define MOVESIG_VERSION_MAJOR 0
#define MOVESIG_VERSION_MINOR 12
#define MOVESIG_VERSION (MOVESIG_VERSION_MAJOR * 65536 + MOVESIG_VERSION_MINOR)

/* The library has its version in the name of a symbol too, movesig_version_0_12, whose value is
 * MOVESIG_VERSION. What includes this header and is compiled by gcc or clang refers to that symbol: with a
 * library of another version, whose calls may take other arguments, it is not linked (`undefined reference to
 * movesig_version_0_12`), and with a shared one not started (`undefined symbol`). A source file that wants
 * numbers and names from here and is linked without the library defines MOVESIG_NO_VERSION_CHECK before. */
#define MOVESIG_JOINED(word, major, minor) word##major##_##minor
#define MOVESIG_VERSIONED(word, major, minor) MOVESIG_JOINED(word, major, minor)
#define MOVESIG_VERSION_SYMBOL MOVESIG_VERSIONED(movesig_version_, MOVESIG_VERSION_MAJOR, MOVESIG_VERSION_MINOR)
extern const uint32_t MOVESIG_VERSION_SYMBOL;
#if defined(__GNUC__) && !defined(MOVESIG_NO_VERSION_CHECK)
#if defined(__has_attribute)
#if __has_attribute(retain)
#define MOVESIG_KEPT __attribute__((used, retain))
#endif
#endif
#ifndef MOVESIG_KEPT
#define MOVESIG_KEPT __attribute__((used))
#endif
static const uint32_t *const movesig_linked_version MOVESIG_KEPT = &MOVESIG_VERSION_SYMBOL;
#endif

/* In front of each call: a result that is dropped is warned of. Who means to drop one looks at it all the
 * same, `if (movesig_read(...)) {}`; a cast to void is enough for [[nodiscard]] and for clang, and not for
 * gcc's attribute. */
#if defined(__cplusplus) && __cplusplus >= 201703L
#define MOVESIG_NODISCARD [[nodiscard]]
#elif !defined(__cplusplus) && defined(__STDC_VERSION__) && __STDC_VERSION__ >= 202311L
#define MOVESIG_NODISCARD [[nodiscard]]
#elif defined(__GNUC__)
#define MOVESIG_NODISCARD __attribute__((warn_unused_result))
#else
#define MOVESIG_NODISCARD
#endif

/* What a call returns. */
enum movesig_result {
    MOVESIG_ACCEPTED = 0,
    MOVESIG_TEXT_TOO_LONG = 1,
    MOVESIG_START_PAST_END = 2,
    MOVESIG_NO_SUCH_KIND = 3,
    MOVESIG_NO_ROOM = 4,
    MOVESIG_NO_TOKEN = 5,
    MOVESIG_COMMENT_NOT_CLOSED = 6,
    MOVESIG_HEX_STRING_NOT_CLOSED = 7,
    MOVESIG_BYTE_STRING_NOT_CLOSED = 8,
    MOVESIG_STRING_NOT_ASCII = 9,
    MOVESIG_UNEXPECTED_TOKEN = 10,
    MOVESIG_COMMA_FOR_ITEM = 11,
    MOVESIG_LIST_NOT_CLOSED = 12,
    MOVESIG_NO_VALUE = 13,
    MOVESIG_TOO_DEEP = 14,
    MOVESIG_RECORD_UNFIT = 15,
    MOVESIG_NO_RECORD_KIND = 16,
    MOVESIG_NOT_ALLOWED = 17,
    MOVESIG_LINE_UNPRINTABLE = 18,
    MOVESIG_NO_SUCH_EDITION = 19,
    MOVESIG_NOT_A_TOKEN_START = 20,
    MOVESIG_NOTHING_STARTS = 21
};

/* The editions of Move that a text may be written in. They differ in numbers alone: in edition 2 a digit may
 * be followed by `_` as by a digit, and a number's type may be u16, u32 and u256 too. */
enum movesig_edition {
    MOVESIG_EDITION_1 = 1, /* 1000, 0x1f; 1u8, 1u64, 1u128 */
    MOVESIG_EDITION_2 = 2  /* 1_000, 0x1_f; 1u16, 1u32, 1u256 too */
};

/* The kinds of items, for movesig_read and movesig_display. */
enum movesig_item {
    MOVESIG_NAME = 1,      /* a, a::b, a::b::c; the first part may be a number */
    MOVESIG_VALUE = 2,     /* @0x1, @a, 1, 1u8, true, false, x"00", b"text" */
    MOVESIG_TYPE = 3,      /* a::b<T>, &T, &mut T, (), (T), (T, U), |T, U| V */
    MOVESIG_BIND_LIST = 4, /* x, or (x, S {f: y}) */
    MOVESIG_LAMBDA_BIND_LIST = 5 /* |x, y| */
};

/* The next token from `at` on, behind blanks and comments. Accepted: { kind, start, end, line feed, 0,
 * 0 }, the kind as in enum movesig_token; the line feed 1 where a line feed stands between `at` and the
 * token, inside comments too, else 0. At the end of the text it is MOVESIG_EOF at (len, len), each time.
 * Every other token has at least one byte, so asking again from `end` comes to the end.
 * Refusals 1, 2, 5 to 9 and 19. */
MOVESIG_NODISCARD
uint32_t movesig_next_token(uint64_t edition, const uint8_t *text, size_t len, size_t at, uint64_t answer[6]);

/* The first doc comment among the blanks and comments from `at` on, up to the next token. Accepted:
 * { 1, start, end, text start, text end, 0 }, the comment and its text, or { 0, 0, 0, 0, 0, 0 } where
 * there is none. Asking again from `end` gives the next one of the same gap. Refusals 1, 2, 6 and 19; where
 * a doc comment stands before a comment that is not closed, the doc comment is the answer. Comments are the
 * same in both editions; a number that is no edition is refused here too. */
MOVESIG_NODISCARD
uint32_t movesig_next_comment(uint64_t edition, const uint8_t *text, size_t len, size_t at, uint64_t answer[6]);

/* Reads the item of the kind (enum movesig_item) from `at` on and writes its tree into the first bytes
 * of the `room` bytes at `out`. Accepted: { length of the tree, kind, start and end of the token that
 * follows the item, 0, 0 }, the token's kind as in enum movesig_token; whether a line feed stands before it
 * is not told. Bytes of `out` past the tree stay as they are. Refusals 1 to 14, 19 and 21; where `at` may be
 * stands above.
 *
 * The tree is one record: its head, and then its children, each a record again. The length in a head is
 * that of the record with all its children; the kind is one of enum movesig_record; every number has its
 * low byte first. A tree has one of two forms.
 *
 *   narrow: the record alone.           wide: the four bytes 04 00 63 00, then the record.
 *     bytes 0 and 1   length              bytes 0 to 3     length
 *     bytes 2 and 3   kind                bytes 4 and 5    kind
 *     bytes 4 and 5   start               bytes 6 to 9     start
 *     bytes 6 and 7   end                 bytes 10 to 13   end
 *     from 8 on       children            from 14 on       children
 *
 * A tree is wide where the whole text has more than 65,535 bytes, or where the tree would have more than
 * 65,535 in the narrow form, 8 for each record; else it is narrow. The length of the tree counts the four
 * bytes in front. A narrow tree never begins with 04 00 63 00, so that its first four bytes tell the form.
 * Trees that earlier versions wrote are narrow and stay as they are, but for brackets round one type, which
 * are a record of their own, 16, and which trees written before version 0.2 do not have. */
MOVESIG_NODISCARD
uint32_t movesig_read(uint64_t kind, uint64_t edition, const uint8_t *text, size_t len, size_t at, uint8_t *out,
                      size_t room, uint64_t answer[6]);

/* Writes the item of the kind (enum movesig_item) from `at` on as one line into the first bytes of the `room`
 * bytes at `line`. Accepted: { length of the line, 0, 0, 0, 0, 0 }. No line end and no NUL is written: the line
 * is as long as the answer says, and bytes of `line` past it stay as they are. Refused as movesig_read is, but
 * with 4 by the line's length alone, not the tree's, and before it with 18. Every byte of a line is from 32 to
 * 126.
 *
 * The answer tells neither where the item ends nor what follows it. To go on behind an item, read it:
 * movesig_read from the same `at` answers the token that follows, and the next call is asked from that token's
 * start, which is allowed.
 *
 * Where the item's tree is accepted too, the line read from 0 as the same kind and in the same edition gives
 * the same tree but for the spans, and itself as its line. Of a wide tree more may differ: the line may be so
 * short that its tree is narrow, and then the form, and with it the lengths, are others; the records and their
 * kinds are the same.
 *
 * Leaves stand as spelled; then `@0x1`, `a::b`, `T<a, b>`, `& T`, `&mut T`, `()`, `(a, b)`, `|a, b| r`,
 * `| | r` without arguments, and `(T)` where brackets are written round one type, and only there;
 * bindings `x`, `S {f: x, g: y}`, `S<u8> {f: x}`; the lists `(x, y)` and `|x, y|`, empty `()` and `| |`. */
MOVESIG_NODISCARD
uint32_t movesig_display(uint64_t kind, uint64_t edition, const uint8_t *text, size_t len, size_t at, uint8_t *line,
                         size_t room, uint64_t answer[6]);

/* Carries notes from edition 1 to edition 2. A note is an offset at which a token of edition 1 starts, EOF
 * counted, whose start is `len`. Each of the `count` notes at `notes` becomes the start of the token of edition
 * 2 that covers it, and `len` stays `len`. All are moved, or none is: a refused call leaves the list as it was,
 * every entry. Accepted: { count, 0, 0, 0, 0, 0 }.
 *
 * It takes no edition, since it names both itself, and no offset: the whole text is read, in edition 1 and in
 * edition 2. `notes` may be null where `count` is 0, and overlaps neither the text nor the answer. Refusals 1,
 * 5 to 9 and 20: the text's come first, so that a text that edition 1 refuses is refused whatever the notes
 * are, and 20 last, for the lowest index whose note starts no token of edition 1. An index of 256 or more
 * (MOVESIG_MOST_NOTES) is such a one, whatever stands there. Edition 2 reads every text that edition 1 reads
 * to its end, so the refusals of the text are those of edition 1.
 *
 * Each note keeps its place in the list; the order is free, and notes may be equal. Of `1_000 a` the notes 1,
 * 0, 7, 6 become 0, 0, 7, 6: what was `1` and `_000` is one token, on which two notes meet, and both are kept.
 * No note moves forward, and of two notes none overtakes the other.
 *
 * What it costs: some four walks over the text's tokens, whatever the notes are; no buffer but the list. */
MOVESIG_NODISCARD
uint32_t movesig_carry(const uint8_t *text, size_t len, size_t *notes, size_t count, uint64_t answer[6]);

/* The outline of at most `limit` tokens from `at` on, EOF not counted: one record for each MOVESIG_STRUCT,
 * MOVESIG_FUN or MOVESIG_CONST with a MOVESIG_IDENTIFIER right behind it, in order, into the first bytes of the
 * `room` bytes at `out`. Accepted: { full, tokens read, bytes written, end, 0, 0 }; full is 1 where the call stopped
 * before a name whose record did not fit, else 0; end is that of the last token read, or `at` where none was. Bytes
 * of `out` past the records stay as they are. Refusals 1, 2, 19 and 5 to 9; a refusal that is met within the limit is
 * the whole answer, and tokens behind the limit are not looked at. It is refused neither with 4, since it stops
 * where it is full, nor with 21: it reads from any offset, as the token call does.
 *
 * A record has MOVESIG_ENTRY_SIZE(len) bytes. The whole text tells its layout, so that all records of a text have the
 * same one; nothing stands in front of them. Every number has its low byte first.
 *
 *   `len` at most 65,535: 12 bytes      `len` above: 22 bytes
 *     bytes 0 and 1    length, 12         bytes 0 to 3     length, 22
 *     bytes 2 and 3    keyword            bytes 4 and 5    keyword
 *     bytes 4 and 5    name's start       bytes 6 to 9     name's start
 *     bytes 6 and 7    name's end         bytes 10 to 13   name's end
 *     bytes 8 and 9    comment's start    bytes 14 to 17   comment's start
 *     bytes 10 and 11  comment's end      bytes 18 to 21   comment's end
 *
 * The keyword is its token's kind (enum movesig_token). The comment is the last doc comment before the name since
 * `at` or the last `;`, `{` or `}`, all of it; 0, 0 where there is none. Other tokens between comment and name do not
 * part them. Each line that begins with three slashes is a doc comment of its own, so that the last one counts.
 * movesig_next_comment from the comment's start answers its text.
 *
 * To go on: `pending` is { keyword, comment's start, comment's end }, handed in and handed back: the kind of the token
 * right before where that is one of the three keywords, else 0; and the last doc comment since the last `;`, `{` or
 * `}`, or 0, 0. At the start of a file hand in three zeros; then ask again with the same `pending` and the answered
 * end as `at`. The file ends where full is 0 and fewer tokens were read than `limit`. However a file that is readable
 * to its end is divided among calls that are not full, the records one after the other are those of a single call.
 * Where full is 1, nothing of the name is read, neither it nor a comment before it: ask on with more room, or with the
 * same buffer once its records are taken out. A limit of 0 reads nothing.
 * A keyword that is handed in and none of the three counts as 0. A comment that is handed in is taken as it is,
 * backwards too, and as 0, 0 where one of its numbers is past the text's end.
 *
 * What it costs: a walk over the tokens that are read. Where more than 1,024 bytes of records come of a limit of at
 * most 169 tokens, or more than 8,192 of a higher one, the tokens are walked over twice. */
MOVESIG_NODISCARD
uint32_t movesig_outline(uint64_t edition, const uint8_t *text, size_t len, size_t at, uint64_t limit,
                         uint64_t pending[3], uint8_t *out, size_t room, uint64_t answer[6]);

/* Opens a tree that was saved: tells whether the `tree_len` bytes at `tree` are a stored tree over the text.
 * What to save are the first bytes of `out`, as many as movesig_read answers, all of them. Accepted:
 * { 1, offset, kind, start, end, 0 } of the outermost record, its kind as in enum movesig_record, its span in the
 * text; its offset is 0, or 4 where the tree is wide. What movesig_read writes is accepted, in every kind and
 * edition, over the text that it was read from, and is the tree that it was. Refusals 1 and 14 to 17; the places
 * of the latter count bytes of the TREE.
 *
 * Accepted are the bytes of one record, narrow or wide, whose children may stand where they stand (enum
 * movesig_record) and are all there, with at most 64 levels, each span inside that of the record it belongs to
 * and the outermost one inside the text. The outermost record may be of any kind. Not looked at is what the
 * text spells, nor whether a tree has the form that a read would write today: trees that earlier versions wrote
 * open as they did. So another text that is long enough opens too: who wants to know that the text is the same
 * saves a sum of it beside the tree.
 *
 * A tree that was read from a part of a text, lent from a token's end on, opens over that part: its spans count
 * from there.
 *
 * Levels are counted by the records alone: the outermost record is level 1, and a type (10 to 16) or a field (24)
 * is one level deeper than the record it stands in, nothing else is.
 *
 * What it costs: each record is looked at once, whatever they are nested in; nothing of the text is read. */
MOVESIG_NODISCARD
uint32_t movesig_open(const uint8_t *tree, size_t tree_len, const uint8_t *text, size_t len, uint64_t answer[6]);

/* A child of a record of a saved tree: of the record at the offset `record` in the TREE, the child of the index,
 * counted from 0. Accepted: { 1, offset, kind, start, end, 0 }, or { 0, 0, 0, 0, 0, 0 } where there is none: past
 * the last child, in a record without any, and where no record starts, any number being allowed. Records start at
 * the multiples of 8, in a wide tree at 4 and each multiple of 14 behind it. Refused as movesig_open is: the
 * whole tree is opened each time, so who asks for many children opens it once and asks movesig_opened_child. */
MOVESIG_NODISCARD
uint32_t movesig_child(const uint8_t *tree, size_t tree_len, const uint8_t *text, size_t len, uint64_t record,
                       uint64_t index, uint64_t answer[6]);

/* The same in a tree that movesig_open accepted, and that nobody changed since: its answer is that of
 * movesig_child. It always returns 0. Nothing is tested, and it costs as many steps as the index. Of a tree that
 * was not opened the answer is some record that the lengths lead to, or none; no byte outside the tree is read. To
 * go over all children, ask for the first, and then go along the lengths in their heads, which are sound in a
 * tree that was opened; asking for each index in turn takes the square of their number. */
MOVESIG_NODISCARD
uint32_t movesig_opened_child(const uint8_t *tree, size_t tree_len, uint64_t record, uint64_t index,
                              uint64_t answer[6]);

/* The kinds of records of a tree. Behind each its children in order; `leaf` has none, and its spelling is
 * the bytes of its span. `first` is an address or a name; a chain is one of 3 to 5; a type one of 10 to
 * 16; a binding one of 20 to 22. */
enum movesig_record {
    MOVESIG_REC_NAME = 1,               /* leaf */
    MOVESIG_REC_ADDRESS = 2,            /* leaf: a number as a name's first part or behind `@` */
    MOVESIG_REC_ONE_PART = 3,           /* leaf: the chain `a` */
    MOVESIG_REC_TWO_PART = 4,           /* first, name: the chain `a::b` */
    MOVESIG_REC_THREE_PART = 5,         /* pair, name: the chain `a::b::c` */
    MOVESIG_REC_PAIR = 6,               /* first, name: the `a::b` of `a::b::c` */
    MOVESIG_REC_TYPE = 10,              /* chain, then its types: `a`, `a<T, U>` */
    MOVESIG_REC_REF = 11,               /* type: `&T` */
    MOVESIG_REC_REF_MUT = 12,           /* type: `&mut T` */
    MOVESIG_REC_FUNCTION = 13,          /* types, the result last: `|T, U| V` */
    MOVESIG_REC_UNIT = 14,              /* none, and no spelling: `()` */
    MOVESIG_REC_TUPLE = 15,             /* two types or more: `(T, U)` */
    MOVESIG_REC_BRACKETS = 16,          /* type: `(T)` */
    MOVESIG_REC_VARIABLE = 20,          /* leaf: `x` */
    MOVESIG_REC_STRUCT = 21,            /* chain, then its fields: `S {f: x}` */
    MOVESIG_REC_STRUCT_TYPED = 22,      /* chain, then its types, then its fields: `S<T> {f: x}` */
    MOVESIG_REC_FIELD = 24,             /* name, binding: `f: x`, also where `f` alone is written */
    MOVESIG_REC_BIND_LIST = 25,         /* bindings: `(x, y)` */
    MOVESIG_REC_LAMBDA_BIND_LIST = 26,  /* bindings: `|x, y|` */
    MOVESIG_REC_ADDRESS_VALUE = 30,     /* first: `@0x1` */
    MOVESIG_REC_NUMBER = 31,            /* leaf */
    MOVESIG_REC_TRUE = 32,              /* leaf */
    MOVESIG_REC_FALSE = 33,             /* leaf */
    MOVESIG_REC_HEX_STRING = 34,        /* leaf */
    MOVESIG_REC_BYTE_STRING = 35        /* leaf */
};

/* The kinds of tokens, in the order of `Tok` of the Move compiler's lexer. */
enum movesig_token {
    MOVESIG_EOF = 0, /* the end of the text */
    MOVESIG_NUM_VALUE = 1, /* 1, 0x1f */
    MOVESIG_NUM_TYPED_VALUE = 2, /* 1u8, 0x1fu64 */
    MOVESIG_BYTE_STRING_VALUE = 3, /* x"00", b"text" */
    MOVESIG_IDENTIFIER = 4,
    MOVESIG_EXCLAIM = 5, /* ! */
    MOVESIG_EXCLAIM_EQUAL = 6, /* != */
    MOVESIG_PERCENT = 7, /* % */
    MOVESIG_AMP = 8, /* & */
    MOVESIG_AMP_AMP = 9, /* && */
    MOVESIG_AMP_MUT = 10, /* &mut and one space, which belongs to it */
    MOVESIG_L_PAREN = 11, /* ( */
    MOVESIG_R_PAREN = 12, /* ) */
    MOVESIG_L_BRACKET = 13, /* [ */
    MOVESIG_R_BRACKET = 14, /* ] */
    MOVESIG_STAR = 15, /* * */
    MOVESIG_PLUS = 16, /* + */
    MOVESIG_COMMA = 17, /* , */
    MOVESIG_MINUS = 18, /* - */
    MOVESIG_PERIOD = 19, /* . */
    MOVESIG_PERIOD_PERIOD = 20, /* .. */
    MOVESIG_SLASH = 21, /* / */
    MOVESIG_COLON = 22, /* : */
    MOVESIG_COLON_COLON = 23, /* :: */
    MOVESIG_SEMICOLON = 24, /* ; */
    MOVESIG_LESS = 25, /* < */
    MOVESIG_LESS_EQUAL = 26, /* <= */
    MOVESIG_LESS_LESS = 27, /* << */
    MOVESIG_EQUAL = 28, /* = */
    MOVESIG_EQUAL_EQUAL = 29, /* == */
    MOVESIG_EQUAL_EQUAL_GREATER = 30, /* ==> */
    MOVESIG_LESS_EQUAL_EQUAL_GREATER = 31, /* <==> */
    MOVESIG_GREATER = 32, /* > */
    MOVESIG_GREATER_EQUAL = 33, /* >= */
    MOVESIG_GREATER_GREATER = 34, /* >> */
    MOVESIG_CARET = 35, /* ^ */
    MOVESIG_ABORT = 36, /* the keywords, as they are spelled: abort */
    MOVESIG_ACQUIRES = 37,
    MOVESIG_AS = 38,
    MOVESIG_BREAK = 39,
    MOVESIG_CONTINUE = 40,
    MOVESIG_COPY = 41,
    MOVESIG_ELSE = 42,
    MOVESIG_FALSE = 43,
    MOVESIG_IF = 44,
    MOVESIG_INVARIANT = 45,
    MOVESIG_LET = 46,
    MOVESIG_LOOP = 47,
    MOVESIG_MODULE = 48,
    MOVESIG_MOVE = 49,
    MOVESIG_NATIVE = 50,
    MOVESIG_PUBLIC = 51,
    MOVESIG_RETURN = 52,
    MOVESIG_SPEC = 53,
    MOVESIG_STRUCT = 54,
    MOVESIG_TRUE = 55,
    MOVESIG_USE = 56,
    MOVESIG_WHILE = 57,
    MOVESIG_L_BRACE = 58, /* { */
    MOVESIG_PIPE = 59, /* | */
    MOVESIG_PIPE_PIPE = 60, /* || */
    MOVESIG_R_BRACE = 61, /* } */
    MOVESIG_FUN = 62,
    MOVESIG_SCRIPT = 63,
    MOVESIG_CONST = 64,
    MOVESIG_FRIEND = 65,
    MOVESIG_NUM_SIGN = 66, /* # */
    MOVESIG_AT_SIGN = 67 /* @ */
};

/* Beside the calls, plain tables in C (c/names.c), which are not proved. Each string is there for good, and
 * is "unknown" for every number that is not in the list. */

/* The version of the library that was linked or loaded: MOVESIG_VERSION of its own header. */
uint32_t movesig_version(void);

/* What a call's result says, without the place: "unexpected token"; for 0 "accepted". */
const char *movesig_reason(uint32_t refusal);

/* The short name of a kind of item: "name", "value", "type", "binds" or "lambda". */
const char *movesig_item_name(uint64_t kind);

/* The name of a kind of record, for people: "one-part chain". */
const char *movesig_record_name(uint64_t kind);

/* The name of a kind of token in the Move compiler's lexer: "GreaterGreater". */
const char *movesig_token_name(uint64_t kind);

#ifdef __cplusplus
}
#endif

#endif
