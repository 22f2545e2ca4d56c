// A lexer in C behind the interface of the token call, over a table of 256 entries: what
// the machine gives to one who proves nothing. It is no part of the port. It answers the
// texts of bench/ as the Rust does, which the program makes sure of first.
#include <stdint.h>
#include <string.h>

enum { NAME = 1, DIGIT = 2, HEX = 4, BLANK = 8, LETTER = 16 };

#define L (NAME | LETTER)
#define H (NAME | LETTER | HEX)
#define D (NAME | DIGIT | HEX)

static const uint8_t CLASSES[256] = {
    ['\t'] = BLANK, ['\n'] = BLANK, [' '] = BLANK, ['_'] = L,
    ['0' ... '9'] = D,
    ['A' ... 'F'] = H, ['G' ... 'Z'] = L,
    ['a' ... 'f'] = H, ['g' ... 'z'] = L,
};

// The kind of each mark of one byte.
static const uint8_t SINGLE[256] = {
    ['!'] = 5, ['%'] = 7, ['&'] = 8, ['('] = 11, [')'] = 12, ['['] = 13, [']'] = 14,
    ['*'] = 15, ['+'] = 16, [','] = 17, ['-'] = 18, ['.'] = 19, ['/'] = 21, [':'] = 22,
    [';'] = 24, ['<'] = 25, ['='] = 28, ['>'] = 32, ['^'] = 35, ['{'] = 58, ['|'] = 59,
    ['}'] = 61, ['#'] = 66, ['@'] = 67,
};

typedef struct { const char *word; uint8_t len, kind; } Word;

static const Word KEYWORDS[26] = {
    {"abort", 5, 36}, {"acquires", 8, 37}, {"as", 2, 38}, {"break", 5, 39},
    {"const", 5, 64}, {"continue", 8, 40}, {"copy", 4, 41}, {"else", 4, 42},
    {"false", 5, 43}, {"friend", 6, 65}, {"fun", 3, 62}, {"if", 2, 44},
    {"invariant", 9, 45}, {"let", 3, 46}, {"loop", 4, 47}, {"module", 6, 48},
    {"move", 4, 49}, {"native", 6, 50}, {"public", 6, 51}, {"return", 6, 52},
    {"script", 6, 63}, {"spec", 4, 53}, {"struct", 6, 54}, {"true", 4, 55},
    {"use", 3, 56}, {"while", 5, 57},
};

static uint64_t keyword(const uint8_t *p, uint64_t n) {
    if (n < 2 || n > 9)
        return 4;
    for (int k = 0; k < 26; k++)
        if (KEYWORDS[k].word[0] == p[0] && KEYWORDS[k].len == n && !memcmp(KEYWORDS[k].word, p, n))
            return KEYWORDS[k].kind;
    return 4;
}

static uint64_t mark(const uint8_t *p, uint64_t left, uint64_t *len) {
    uint8_t a = p[0], b = left > 1 ? p[1] : 0;
    *len = 2;
    if (a == b) {
        if (a == '&') return 9;
        if (a == '.') return 20;
        if (a == ':') return 23;
        if (a == '<') return 27;
        if (a == '>') return 34;
        if (a == '|') return 60;
    }
    if (b == '=') {
        if (a == '!') return 6;
        if (a == '>') return 33;
        if (a == '<') {
            if (left > 3 && p[2] == '=' && p[3] == '>') { *len = 4; return 31; }
            return 26;
        }
        if (a == '=') {
            if (left > 2 && p[2] == '>') { *len = 3; return 30; }
            return 29;
        }
    }
    if (a == '&' && left > 4 && !memcmp(p, "&mut ", 5)) { *len = 5; return 10; }
    *len = 1;
    return SINGLE[a];
}

static uint64_t suffix(const uint8_t *p, uint64_t left) {
    if (left > 1 && p[0] == 'u') {
        if (p[1] == '8') return 2;
        if (left > 2 && p[1] == '6' && p[2] == '4') return 3;
        if (left > 3 && p[1] == '1' && p[2] == '2' && p[3] == '8') return 4;
    }
    return 0;
}

// The end of the block comment whose opener stands at i, or n.
static uint64_t block(const uint8_t *text, uint64_t n, uint64_t i) {
    uint64_t depth = 1;
    for (i += 2; i + 1 < n; i++) {
        if (text[i] == '/' && text[i + 1] == '*') { depth++; i++; }
        else if (text[i] == '*' && text[i + 1] == '/') { i++; if (--depth == 0) return i + 1; }
    }
    return n;
}

uint32_t anchor_next_token(const uint8_t *text, uint64_t n, uint64_t i, uint64_t *answer) {
    uint64_t kind, end;
    for (;;) {
        while (i < n && CLASSES[text[i]] & BLANK)
            i++;
        if (i + 1 >= n || text[i] != '/')
            break;
        if (text[i + 1] == '/') {
            const uint8_t *line = memchr(text + i, '\n', n - i);
            i = line ? (uint64_t)(line - text) : n;
        } else if (text[i + 1] == '*') {
            i = block(text, n, i);
        } else {
            break;
        }
    }
    end = i;
    if (i == n) {
        kind = 0;
    } else if (CLASSES[text[i]] & LETTER) {
        if ((text[i] == 'x' || text[i] == 'b') && i + 1 < n && text[i + 1] == '"') {
            end = i + 2;
            while (end < n && text[end] != '"')
                end += text[end] == '\\' ? 2 : 1;
            end++;
            kind = 3;
        } else {
            do end++; while (end < n && CLASSES[text[end]] & NAME);
            kind = keyword(text + i, end - i);
        }
    } else if (CLASSES[text[i]] & DIGIT) {
        uint8_t digits = DIGIT;
        if (text[i] == '0' && i + 1 < n && text[i + 1] == 'x') {
            end += 2;
            digits = HEX;
        }
        while (end < n && CLASSES[text[end]] & digits)
            end++;
        uint64_t type = suffix(text + end, n - end);
        kind = type ? 2 : 1;
        end += type;
    } else {
        uint64_t len;
        kind = mark(text + i, n - i, &len);
        end = i + len;
        if (kind == 0)
            return 5;
    }
    answer[0] = kind;
    answer[1] = i;
    answer[2] = end;
    answer[3] = answer[4] = answer[5] = 0;
    return 0;
}
