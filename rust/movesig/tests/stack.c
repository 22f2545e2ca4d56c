/* How much stack the calls take: on nests of 64 levels and more, of each construct, alone, in the longest text,
 * and round a list that is so long that their tree is wide or that the text is the longest; and on random
 * nests of all constructs. MOVESIG_STACK is held to it: at least a fortieth more than what is measured, and at
 * most four tenths. The call that carries notes may take no more than a few registers beside what the token
 * call takes on the tokens of the same texts; an outline takes less than 12 KB. Trees that were read are opened too,
 * as they are and damaged: the three calls on them take at most 2 KB. The stack of a thread is painted, and what is
 * no longer paint was used. Then all is asked again in threads that have MOVESIG_STACK bytes beside their own: below
 * them lies a page that nobody may touch.
 *
 *     stack [ROUNDS]    so many random nests
 */
#define _DEFAULT_SOURCE
#include <movesig.h>
#include <pthread.h>
#include <stdio.h>
#include <stdlib.h>
#include <string.h>
#include <sys/mman.h>

#define PAGE ((size_t)4096)
#define STACK ((size_t)128 * 1024)
#define ROUNDS 1000
#define PAINT 0xa5
#define MORE_TO_CARRY 128
/* An outline has a buffer of its own of 8 KB, and takes less than this. */
#define MOST_OF_OUTLINES ((size_t)12 * 1024)
#define MOST_OF_TREES ((size_t)2048)
#define LONG_NAME "a_name_of_more_than_16_bytes" /* the table of classes is on the stack for such */

static uint8_t text[MOVESIG_LONGEST];
static size_t length; /* of the text */
static size_t stored; /* of the tree that was read last, in `out` */
static uint8_t out[MOVESIG_TREE_ROOM(MOVESIG_LONGEST)];
static uint8_t *stack; /* its lowest byte */
static size_t size;    /* its bytes: what the thread takes itself, and what a call may take */
static uint8_t *entry; /* where the thread stood when it made its call */
static uint32_t number;

/* Token after token, to the end of the text or a refusal. */
static void *token(void *given)
{
    uint64_t answer[6] = {0};
    entry = (uint8_t *)answer;
    do
        number = movesig_next_token(MOVESIG_EDITION_2, text, length, (size_t)answer[2], answer);
    while (number == 0 && answer[0] != MOVESIG_EOF);
    return given;
}

static void *comment(void *given)
{
    uint64_t answer[6];
    entry = (uint8_t *)answer;
    number = movesig_next_comment(MOVESIG_EDITION_2, text, length, 0, answer);
    return given;
}

static void *read_item(void *given)
{
    uint64_t answer[6];
    entry = (uint8_t *)answer;
    number = movesig_read(*(uint64_t *)given, MOVESIG_EDITION_2, text, length, 0, out, sizeof out, answer);
    return given;
}

static void *open_tree(void *given)
{
    uint64_t answer[6];
    entry = (uint8_t *)answer;
    number = movesig_open(out, stored, text, length, answer);
    return given;
}

/* Of the record that is `given` bytes behind the tree's first. */
static void *child(void *given)
{
    uint64_t answer[6];
    entry = (uint8_t *)answer;
    number = movesig_child(out, stored, text, length, *(uint64_t *)given, 1, answer);
    return given;
}

static void *opened_child(void *given)
{
    uint64_t answer[6];
    entry = (uint8_t *)answer;
    number = movesig_opened_child(out, stored, *(uint64_t *)given, 1, answer);
    return given;
}

static void *display_item(void *given)
{
    uint64_t answer[6];
    entry = (uint8_t *)answer;
    number = movesig_display(*(uint64_t *)given, MOVESIG_EDITION_2, text, length, 0, out, sizeof out, answer);
    return given;
}

/* Notes on the first byte of the text and on its end. */
static void *carry(void *given)
{
    static size_t notes[2];
    uint64_t answer[6];
    notes[0] = 0;
    notes[1] = length;
    entry = (uint8_t *)answer;
    number = movesig_carry(text, length, notes, 2, answer);
    return given;
}

/* The outline in one call, and in a call of few tokens. */
static void *outline_whole(void *given)
{
    uint64_t answer[6], pending[3] = {0, 0, 0};
    entry = (uint8_t *)answer;
    number = movesig_outline(MOVESIG_EDITION_2, text, length, 0, SIZE_MAX, pending, out, sizeof out, answer);
    return given;
}

static void *outline_few(void *given)
{
    uint64_t answer[6], pending[3] = {0, 0, 0};
    entry = (uint8_t *)answer;
    number = movesig_outline(MOVESIG_EDITION_2, text, length, 0, 100, pending, out, sizeof out, answer);
    return given;
}

/* The bytes of stack that a call takes, made by a thread of its own. */
static size_t used(void *(*work)(void *), uint64_t kind)
{
    pthread_attr_t with;
    pthread_t thread;
    const uint8_t *clean = stack;
    memset(stack, PAINT, size);
    pthread_attr_init(&with);
    if (pthread_attr_setstack(&with, stack, size) != 0 || pthread_create(&thread, &with, work, &kind) != 0) {
        printf("stack: no thread\n");
        exit(1);
    }
    pthread_join(thread, NULL);
    pthread_attr_destroy(&with);
    while (clean < entry && *clean == PAINT)
        clean++;
    return (size_t)(entry - clean);
}

/* What a nest has inside. */
enum inner { A_TYPE, A_BINDING };

struct nest {
    uint64_t kind;
    const char *before, *open;
    enum inner inner;
    const char *inside, *close, *behind;
};

static const struct nest nests[] = {
    {MOVESIG_TYPE, "", "(", A_TYPE, "u8", ")", ""},
    {MOVESIG_TYPE, "", "(u8, ", A_TYPE, "u8", ", u8)", ""},
    {MOVESIG_TYPE, "", "a<", A_TYPE, "u8", "> ", ""},
    {MOVESIG_TYPE, "", "a<", A_TYPE, "u8", ">", ""},
    {MOVESIG_TYPE, "", "a::b::c<u8, ", A_TYPE, "u8", "> ", ""},
    {MOVESIG_TYPE, "", "& ", A_TYPE, "u8", "", ""},
    {MOVESIG_TYPE, "", "&mut ", A_TYPE, "0x1_0::a::b", "", ""},
    {MOVESIG_TYPE, "", "| | ", A_TYPE, "u8", "", ""},
    {MOVESIG_TYPE, "", "|u8, u8| ", A_TYPE, "u8", "", ""},
    {MOVESIG_TYPE, "", "(|", A_TYPE, "u8", "| u8)", ""},
    {MOVESIG_BIND_LIST, "", "S{f:", A_BINDING, "x", "}", ""},
    {MOVESIG_BIND_LIST, "(x, ", "S<u8>{g, f:", A_BINDING, "0x1::a::S{}", "}", ")"},
    {MOVESIG_LAMBDA_BIND_LIST, "|", "S{f:", A_BINDING, "x", "}", "|"},
    {MOVESIG_LAMBDA_BIND_LIST, "|x, ", "S<u8>{g, f:", A_BINDING, "S<u8>{}", "}", "|"},
    {MOVESIG_BIND_LIST, "S<", "(", A_TYPE, "u8", ")", ">{}"},
    {MOVESIG_BIND_LIST, "(S<", "a<", A_TYPE, "a::" LONG_NAME, "> ", ">{})"},
    {MOVESIG_BIND_LIST, "(S{f:S<u8, ", "a<", A_TYPE, "u8", "> ", ">{}})"},
    {MOVESIG_LAMBDA_BIND_LIST, "|S<", "& ", A_TYPE, "a::b", "", ">{}|"},
};

/* Those on texts, and those on the trees that were read. */
enum call { TOKEN, COMMENT, READ, DISPLAY, CARRY, OUTLINE, OUTLINE_OF_FEW, OPEN, CHILD, OPENED_CHILD, CALLS };
#define TEXT_CALLS OPEN

static size_t most, most_of[CALLS], accepted, wide, opened, damaged;

static void measure_call(size_t call, void *(*work)(void *), uint64_t given)
{
    size_t bytes = used(work, given);
    if (bytes > most_of[call])
        most_of[call] = bytes;
    if (bytes > most)
        most = bytes;
}

/* How long the tree is, told by its outermost record. */
static size_t stored_length(int is_wide)
{
    return is_wide ? 4 + out[4] + 256 * ((size_t)out[5] + 256 * ((size_t)out[6] + 256 * (size_t)out[7]))
                   : out[0] + 256 * (size_t)out[1];
}

/* Opens the tree that was read last, and asks for a child, as it is and with a byte changed near its end. */
static void measure_opening(int is_wide)
{
    uint64_t record = is_wide ? 4 : 0;
    int turn;
    stored = stored_length(is_wide);
    for (turn = 0; turn < 2; turn++) {
        if (turn == 1)
            out[stored - 1 - stored % 13 % (stored < 40 ? stored : 40)] ^= 0x55;
        measure_call(OPEN, open_tree, record);
        opened += turn == 0 && number == 0;
        damaged += turn == 1 && number != 0;
        measure_call(CHILD, child, record);
        measure_call(OPENED_CHILD, opened_child, record);
    }
}

/* Asks all calls about the text. */
static void measure(uint64_t kind)
{
    static void *(*const calls[TEXT_CALLS])(void *) = {token, comment, read_item, display_item, carry,
                                                         outline_whole, outline_few};
    size_t call;
    for (call = 0; call < TEXT_CALLS; call++) {
        measure_call(call, calls[call], kind);
        if (call == READ && number == 0) {
            int is_wide = memcmp(out, "\4\0\143\0", 4) == 0;
            accepted++;
            wide += is_wide;
            measure_opening(is_wide);
        }
    }
}

/* Puts the word behind the text. */
static void put(const char *word)
{
    size_t bytes = strlen(word);
    memcpy(text + length, word, bytes);
    length += bytes;
}

/* A list of so many types, or of so many fields. */
static void put_list(enum inner inner, size_t items)
{
    put(inner == A_TYPE ? "(" : "S{");
    while (items-- > 0)
        put("a,");
    put(inner == A_TYPE ? ")" : "}");
}

/* One construct, so many levels of it, round its own leaf or, where there are to be items, a list of them. */
static void put_nest(const struct nest *nest, int levels, size_t items)
{
    int level;
    length = 0;
    put(nest->before);
    for (level = 0; level < levels; level++)
        put(nest->open);
    if (items == 0)
        put(nest->inside);
    else
        put_list(nest->inner, items);
    for (level = 0; level < levels; level++)
        put(nest->close);
    put(nest->behind);
}

/* Blanks up to the longest text. */
static void put_blanks(void)
{
    memset(text + length, ' ', MOVESIG_LONGEST - length);
    length = MOVESIG_LONGEST;
}

/* The nest alone, and round a list whose tree has more records than the narrow form takes; where it is about
 * as deep as can be, in the longest text; and round the longest list. */
static void measure_nest(const struct nest *nest, int levels)
{
    put_nest(nest, levels, 4100);
    measure(nest->kind);
    put_nest(nest, levels, 0);
    measure(nest->kind);
    if (levels > 60) {
        put_blanks();
        measure(nest->kind);
    }
    if (levels == (nest->close[0] == '|' ? 30 : 60)) { /* a function type in brackets is two levels */
        put_nest(nest, levels, 1);
        put_nest(nest, levels, (MOVESIG_LONGEST - length) / 2);
        put_blanks();
        measure(nest->kind);
    }
}

static uint64_t state;

static size_t below(size_t bound)
{
    state ^= state << 13;
    state ^= state >> 7;
    state ^= state << 17;
    return (size_t)(state >> 11) % bound;
}

struct pair {
    const char *open, *close;
};

/* Constructs of one kind of item, mixed: bindings first, then types inside the last of them. */
static void measure_mix(void)
{
    static const struct pair types[] = {
        {"(", ")"}, {"(u8,", ")"}, {"a<", "> "}, {"0x1::b::c<u8, ", "> "},
        {"& ", ""}, {"&mut ", ""}, {"|u8| ", ""}, {"(|", "| u8)"},
    };
    static const struct pair binds[] = {
        {"S{f:", "}"}, {"S<u8>{g, f:", "}"}, {"0x1::a::S{g,f:", "}"}, {"S{", "}"},
    };
    static const char *const leaves[] = {
        "u8", "0x1_0::a::b", "a::" LONG_NAME, "a::b<>", "()", "| | u8", "/* /** c */ */ u8", "/// c\n u8", "u8 /*", "0x",
        "x\"", "$", "S{}",
    };
    const char *close[80];
    size_t depth = 60 + below(5), bound = below(4) != 0 ? below(depth + 1) : 0, level, same = below(3);
    int lambda = bound != 0 && below(2);
    const struct pair *nest = types;
    length = 0;
    put(bound == 0 ? "" : lambda ? "|x, " : below(2) ? "(x, " : "");
    for (level = 0; level < depth; level++) {
        int last = bound != 0 && level + 1 == bound && bound < depth;
        if (level == 0 || level == bound || below(same * same * 8 + 1) == 0)
            nest = level < bound ? binds + below(sizeof binds / sizeof *binds)
                                 : types + below(sizeof types / sizeof *types);
        put(last ? "S<" : nest->open);
        close[level] = last ? ">{}" : nest->close;
    }
    put(leaves[below(sizeof leaves / sizeof *leaves)]);
    while (level-- > 0)
        put(close[level]);
    put(bound == 0 ? "" : lambda ? "|" : ")");
    measure(bound == 0 ? MOVESIG_TYPE : lambda ? MOVESIG_LAMBDA_BIND_LIST : MOVESIG_BIND_LIST);
}

/* Declarations up to the longest text, each with a doc comment in comments. */
static void measure_declarations(void)
{
    static const char piece[] = "/** /* /* a */ */ b */ // c\n/// d\npublic fun f const C struct S;";
    length = 0;
    while (length + sizeof piece <= MOVESIG_LONGEST)
        put(piece);
    measure(MOVESIG_TYPE);
}

/* Every nest, and so many at random, always the same ones. */
static void measure_all(long rounds)
{
    size_t i;
    int levels;
    most = accepted = wide = opened = damaged = 0;
    memset(most_of, 0, sizeof most_of);
    state = 88172645463325252u;
    for (i = 0; i < sizeof nests / sizeof *nests; i++)
        for (levels = 28; levels <= 66; levels++)
            measure_nest(&nests[i], levels);
    printf("nests: at most %lu bytes of stack, %lu read, %lu of them wide\n", (unsigned long)most,
           (unsigned long)accepted, (unsigned long)wide);
    while (rounds-- > 0)
        measure_mix();
    measure_declarations();
    printf("in all: at most %lu bytes of stack, %lu read; MOVESIG_STACK is %lu\n", (unsigned long)most,
           (unsigned long)accepted, (unsigned long)MOVESIG_STACK);
    printf("tokens %lu, comments %lu, reads %lu, displays %lu, notes carried %lu, outlines %lu and of few tokens %lu\n",
           (unsigned long)most_of[TOKEN], (unsigned long)most_of[COMMENT], (unsigned long)most_of[READ],
           (unsigned long)most_of[DISPLAY], (unsigned long)most_of[CARRY], (unsigned long)most_of[OUTLINE],
           (unsigned long)most_of[OUTLINE_OF_FEW]);
    printf("trees: opened %lu, a child %lu, a child of an opened one %lu; %lu opened, %lu damaged ones refused\n",
           (unsigned long)most_of[OPEN], (unsigned long)most_of[CHILD], (unsigned long)most_of[OPENED_CHILD],
           (unsigned long)opened, (unsigned long)damaged);
}

int main(int count, char **words)
{
    long rounds = count > 1 ? atol(words[1]) : ROUNDS;
    size_t before, own;
    uint8_t *place = mmap(NULL, PAGE + STACK, PROT_READ | PROT_WRITE, MAP_PRIVATE | MAP_ANONYMOUS, -1, 0);
    if (place == MAP_FAILED || mprotect(place, PAGE, PROT_NONE) != 0)
        return 1;
    stack = place + PAGE;
    size = STACK;
    measure_all(rounds);
    before = accepted;
    if (MOVESIG_STACK < most + most / 40 || MOVESIG_STACK > most + 4 * (most / 10)) {
        printf("MOVESIG_STACK should be between %lu and %lu\n", (unsigned long)(most + most / 40),
               (unsigned long)(most + 4 * (most / 10)));
        return 1;
    }
    if (most_of[CARRY] > most_of[TOKEN] + MORE_TO_CARRY) {
        printf("carrying notes takes more than the token call and %d bytes\n", MORE_TO_CARRY);
        return 1;
    }
    if (most_of[OUTLINE] >= MOST_OF_OUTLINES || most_of[OUTLINE_OF_FEW] >= MOST_OF_OUTLINES) {
        printf("an outline should take less than %lu\n", (unsigned long)MOST_OF_OUTLINES);
        return 1;
    }
    if (most_of[OPEN] > MOST_OF_TREES || most_of[CHILD] > MOST_OF_TREES || most_of[OPENED_CHILD] > MOST_OF_TREES) {
        printf("the calls on trees should take at most %lu\n", (unsigned long)MOST_OF_TREES);
        return 1;
    }
    if (opened != accepted || damaged < 100) {
        printf("every tree that was read should be opened, and 100 damaged ones refused\n");
        return 1;
    }
    /* what a thread takes before its call, in steps of its alignment */
    own = ((size_t)(stack + size - entry) + 63) / 64 * 64;
    size = own + MOVESIG_STACK;
    printf("in threads of %lu bytes and their own %lu:\n", (unsigned long)MOVESIG_STACK, (unsigned long)own);
    fflush(stdout);
    measure_all(rounds);
    return accepted == before && accepted > 100 && wide > 10 ? 0 : 1;
}
