// Stack and time of the draft, unproved: a thread on a painted stack; texts as in the pilot's table.
#include <pthread.h>
#include <stdint.h>
#include <stdio.h>
#include <stdlib.h>
#include <string.h>
#include <sys/mman.h>
#include <time.h>
uint32_t movesig_exp(uint64_t form, uint64_t ed, const uint8_t *table, size_t n, const uint8_t *text, size_t len, size_t at, uint8_t *out, size_t room, uint64_t *answer);
static const uint8_t RUST[21] = {5,5,5,5,5,5,3,4,8,7,9,10,10,11,11,12,12,12,6,2,2};
static const uint8_t RISING[21] = {1,2,3,4,5,6,7,8,9,10,11,12,13,14,15,16,17,18,19,20,21};
static const char *OPS[21] = {"==","!="," <",">","<=",">=","||","&&","^","|"," & ","<<",">>","+","-","*","/","%","..","==>","<==>"};
struct job { const uint8_t *table; const uint8_t *text; size_t len; uint8_t *out; size_t room; int form; uint32_t n; uint64_t v[6]; double s; };
static double now(void) { struct timespec t; clock_gettime(CLOCK_THREAD_CPUTIME_ID, &t); return t.tv_sec + t.tv_nsec * 1e-9; }
static void *run(void *p) { struct job *j = p; double a = now(); j->n = movesig_exp(j->form, 1, j->table, 21, j->text, j->len, 0, j->out, j->room, j->v); j->s = now() - a; return 0; }
static void row(const char *name, const uint8_t *table, char *text, size_t len, int form) {
    static uint8_t *out; static size_t room = 64u << 20; if (!out) out = malloc(room);
    size_t size = 8u << 20; uint8_t *st = mmap(0, size, PROT_READ | PROT_WRITE, MAP_PRIVATE | MAP_ANONYMOUS, -1, 0); memset(st, 0xa5, size);
    pthread_attr_t at; pthread_attr_init(&at); pthread_attr_setstack(&at, st, size);
    struct job j = { table, (uint8_t *)text, len, out, room, form };
    pthread_t t; pthread_create(&t, &at, run, &j); pthread_join(t, 0);
    size_t i = 0; while (i < size && st[i] == 0xa5) i++;
    printf("%-44s %8zu bytes, form %d: number %u, %10zu stored, %7zu bytes of stack, %.4f s, %.1f ns a byte\n", name, len, form, j.n, (size_t)j.v[0], size - i, j.s, j.s / len * 1e9);
    munmap(st, size);
}
int main(void) {
    size_t most = 1048575; char *t = malloc(most + 4096); size_t n;
    row("a", RUST, "a", 1, 2);
    row("a + b", RUST, "a + b", 5, 2);
    for (int f = 0; f < 3; f++) { n = 0; while (n + 2 <= 2000) { t[n++] = 'a'; t[n++] = '+'; } t[n++] = 'a'; row("flat chain, 2 KB", RUST, t, n, f); }
    n = 0; while (n + 2 <= 60000) { t[n++] = 'a'; t[n++] = '+'; } t[n++] = 'a'; row("flat chain, 60 KB", RUST, t, n, 2);
    n = 0; while (n + 3 <= most) { t[n++] = 'a'; t[n++] = '+'; } t[n++] = 'a'; row("flat chain, 1 MB", RUST, t, n, 2);
    // 64 levels of 21 rising ranks
    n = 0; for (int l = 0; l < 63; l++) { for (int i = 0; i < 21; i++) { t[n++] = 'a'; size_t m = strlen(OPS[i]); memcpy(t + n, OPS[i], m); n += m; } t[n++] = '('; }
    for (int i = 0; i < 21; i++) { t[n++] = 'a'; size_t m = strlen(OPS[i]); memcpy(t + n, OPS[i], m); n += m; } t[n++] = 'a';
    for (int l = 0; l < 63; l++) t[n++] = ')';
    for (int f = 0; f < 3; f++) row("64 levels of 21 rising ranks", RISING, t, n, f);
    // 60 brackets in tails
    n = 0; for (int l = 0; l < 60; l++) { memcpy(t + n, "a+(", 3); n += 3; } while (n + 2 + 60 <= most) { t[n++] = 'a'; t[n++] = '+'; } t[n++] = 'a'; for (int l = 0; l < 60; l++) t[n++] = ')';
    row("60 brackets in tails, 1 MB", RUST, t, n, 2);
    n = 0; for (int l = 0; l < 60; l++) t[n++] = '('; while (n + 2 + 180 <= most) { t[n++] = 'a'; t[n++] = '+'; } t[n++] = 'a'; for (int l = 0; l < 60; l++) { memcpy(t + n, ")+b", 3); n += 3; }
    row("60 brackets as first operands, 1 MB", RUST, t, n, 2);
    n = 0; for (int l = 0; l < 60; l++) { for (int i = 0; i < 21; i++) { t[n++] = 'a'; size_t m = strlen(OPS[i]); memcpy(t + n, OPS[i], m); n += m; } t[n++] = '('; } while (n + 2 + 60 <= most) { t[n++] = 'a'; t[n++] = '+'; } t[n++] = 'a'; for (int l = 0; l < 60; l++) t[n++] = ')';
    row("60 brackets with 21 rising ranks each, 1 MB", RISING, t, n, 2);
    n = 0; for (int l = 0; l < 62; l++) { memcpy(t + n, "!(", 2); n += 2; } while (n + 2 + 80 <= 30000) { t[n++] = 'a'; t[n++] = '+'; } t[n++] = 'a'; for (int l = 0; l < 62; l++) t[n++] = ')';
    row("31 prefixes and brackets (refused: 14)", RUST, t, n, 2);
    n = 0; for (int l = 0; l < 31; l++) { memcpy(t + n, "!(", 2); n += 2; } while (n + 2 + 80 <= 30000) { t[n++] = 'a'; t[n++] = '+'; } t[n++] = 'a'; for (int l = 0; l < 31; l++) { memcpy(t + n, ")+c", 3); n += 3; }
    row("31 prefixes and brackets, 30 KB", RUST, t, n, 2);
    return 0;
}
