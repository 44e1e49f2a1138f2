// Reads a text of libraries into tables of rows with an index of names, as the catalog does, without any proof:
// the plain program that the catalog's time is held against. Usage: reading SIZE..
#include <stdint.h>
#include <stdio.h>
#include <stdlib.h>
#include <string.h>
#include <time.h>

typedef struct { uint64_t *words; size_t width, len; } Table;
typedef struct { const uint8_t *text; size_t pos, end; } Reader;
typedef struct { size_t start, end; } Span;
typedef struct { Table libs, needs, defs, inits, finis, cells; uint64_t *heads, *next; size_t rows, buckets; } Catalog;
typedef struct { int open, inward; Span name; size_t needs, defs, inits, finis, cells; uint64_t top; size_t line; } Draft;
enum Kind { REGISTER, NUMBER, CELL, WORD, ALL, INNER, MUST };
enum Target { CODE, INWARD, NEEDS, DEF, INIT, FINI };
typedef struct { const char *keyword; enum Target target; uint64_t code; int count; enum Kind kinds[4]; } Form;

static const Form forms[] = {
    {"inward", INWARD, 0, 0, {0}},
    {"needs", NEEDS, 0, 1, {WORD}},
    {"def", DEF, 0, 4, {WORD, WORD, CELL, INNER}},
    {"init", INIT, 0, 1, {CELL}},
    {"fini", FINI, 0, 1, {CELL}},
    {"word", CODE, 24, 1, {NUMBER}},
    {"ref", CODE, 25, 4, {WORD, WORD, NUMBER, MUST}},
    {"at", CODE, 27, 1, {CELL}},
    {"slot", CODE, 28, 2, {WORD, WORD}},
    {"name", CODE, 29, 1, {WORD}},
    {"set", CODE, 1, 2, {REGISTER, NUMBER}},
    {"get", CODE, 2, 3, {REGISTER, REGISTER, NUMBER}},
    {"sto", CODE, 3, 3, {REGISTER, NUMBER, REGISTER}},
    {"own", CODE, 4, 2, {REGISTER, CELL}},
    {"add", CODE, 5, 3, {REGISTER, REGISTER, REGISTER}},
    {"sub", CODE, 6, 3, {REGISTER, REGISTER, REGISTER}},
    {"mul", CODE, 7, 3, {REGISTER, REGISTER, REGISTER}},
    {"less", CODE, 8, 3, {REGISTER, REGISTER, REGISTER}},
    {"same", CODE, 9, 3, {REGISTER, REGISTER, REGISTER}},
    {"move", CODE, 10, 2, {REGISTER, REGISTER}},
    {"jump", CODE, 11, 1, {CELL}},
    {"if0", CODE, 12, 2, {REGISTER, CELL}},
    {"call", CODE, 13, 1, {CELL}},
    {"callr", CODE, 14, 1, {REGISTER}},
    {"ret", CODE, 15, 0, {0}},
    {"push", CODE, 16, 1, {REGISTER}},
    {"pop", CODE, 17, 1, {REGISTER}},
    {"out", CODE, 18, 1, {REGISTER}},
    {"in", CODE, 19, 1, {REGISTER}},
    {"open", CODE, 20, 3, {REGISTER, CELL, ALL}},
    {"find", CODE, 21, 3, {REGISTER, REGISTER, CELL}},
    {"close", CODE, 22, 1, {REGISTER}},
    {"end", CODE, 23, 1, {REGISTER}},
};

static int is(const uint8_t *text, Span w, const char *keyword) {
    size_t n = strlen(keyword);
    return w.end - w.start == n && memcmp(text + w.start, keyword, n) == 0;
}

// A keyword, at most 8 bytes, as one number; 0 for a longer word.
static uint64_t packed(const uint8_t *word, size_t n) {
    uint64_t p = 0;
    if (n > 8) return 0;
    for (size_t i = 0; i < n; i++) p = p << 8 | word[i];
    return p;
}

enum { FORMS = sizeof forms / sizeof *forms };
static uint64_t keywords[FORMS];

static int next_word(Reader *r, Span *w) {
    while (r->pos < r->end && r->text[r->pos] == 32) r->pos++;
    if (r->pos == r->end) return 0;
    w->start = r->pos;
    while (r->pos < r->end && r->text[r->pos] != 32) r->pos++;
    w->end = r->pos;
    return 1;
}

static int number(const uint8_t *text, Span w, uint64_t limit, uint64_t *out) {
    uint64_t n = 0;
    for (size_t i = w.start; i < w.end; i++) {
        uint8_t c = text[i];
        if (c < 48 || c > 57) return 0;
        if (n < limit) n = n * 10 + (c - 48);
    }
    *out = n;
    return n < limit;
}

static int choice(const uint8_t *text, Span w, const char *yes, const char *no, uint64_t *out) {
    *out = is(text, w, yes);
    return *out || is(text, w, no);
}

static uint64_t *push(Table *t) { return t->words + t->width * t->len++; }

static size_t bucket(const uint8_t *text, Span w, size_t buckets) {
    uint32_t h = 7;
    for (size_t i = w.start; i < w.end; i++) h = h * 31 + text[i];
    return h % buckets;
}

static int find(const Catalog *c, const uint8_t *text, Span w) {
    for (uint64_t k = c->heads[bucket(text, w, c->buckets)]; k; k = c->next[k - 1]) {
        const uint64_t *row = c->libs.words + 13 * (k - 1);
        if (row[1] - row[0] == w.end - w.start && memcmp(text + row[0], text + w.start, w.end - w.start) == 0) return 1;
    }
    return 0;
}

static int finish(Catalog *c, const uint8_t *text, const Draft *d) {
    if (!d->open) return 1;
    if (d->top > c->cells.len - d->cells) return 0;
    uint64_t row[13] = {d->name.start, d->name.end, d->inward, d->needs, c->needs.len, d->defs, c->defs.len,
                        d->inits, c->inits.len, d->finis, c->finis.len, d->cells, c->cells.len};
    memcpy(push(&c->libs), row, sizeof row);
    size_t h = bucket(text, d->name, c->buckets);
    c->next[c->libs.len - 1] = c->heads[h];
    c->heads[h] = c->libs.len;
    return 1;
}

static int operand(const uint8_t *text, Span w, enum Kind kind, uint64_t *out) {
    switch (kind) {
    case REGISTER: return number(text, w, 8, out);
    case NUMBER: return number(text, w, 4294967296u, out);
    case CELL: return number(text, w, 65536, out);
    case ALL: return choice(text, w, "all", "inner", out);
    case INNER: return choice(text, w, "inner", "all", out);
    case MUST: return choice(text, w, "must", "may", out);
    default: return 0;
    }
}

static int item(Catalog *c, Draft *d, size_t line, Reader *r, Span keyword) {
    const Form *form = NULL;
    uint64_t key = packed(r->text + keyword.start, keyword.end - keyword.start);
    for (int i = 0; i < FORMS && !form; i++)
        if (keywords[i] == key) form = &forms[i];
    if (!form || r->text[keyword.start] == 0) return 0;
    uint64_t words[8] = {0};
    size_t n = 0;
    Span w;
    for (int i = 0; i < form->count; i++) {
        if (!next_word(r, &w)) return 0;
        if (form->kinds[i] == WORD) {
            words[n++] = w.start;
            words[n++] = w.end;
            continue;
        }
        if (!operand(r->text, w, form->kinds[i], &words[n])) return 0;
        if (form->kinds[i] == CELL && words[n] + 1 > d->top) {
            d->top = words[n] + 1;
            d->line = line;
        }
        n++;
    }
    if (next_word(r, &w)) return 0;
    uint64_t *row;
    switch (form->target) {
    case INWARD: d->inward = 1; break;
    case NEEDS: memcpy(push(&c->needs), words, 2 * sizeof *words); break;
    case DEF: memcpy(push(&c->defs), words, 6 * sizeof *words); break;
    case INIT: *push(&c->inits) = words[0]; break;
    case FINI: *push(&c->finis) = words[0]; break;
    case CODE:
        row = push(&c->cells);
        row[0] = form->code + (form->code == 25 ? words[5] : 0);
        memcpy(row + 1, words, 5 * sizeof *words);
        if (c->cells.len - d->cells > 65535) return 0;
    }
    return 1;
}

// The number of the first line that is wrong, or 0.
static size_t read_text(Catalog *c, const uint8_t *text, size_t size) {
    Draft d = {0};
    size_t line = 1;
    for (size_t at = 0; at <= size; line++) {
        const uint8_t *stop = memchr(text + at, 10, size - at);
        size_t end = stop ? (size_t)(stop - text) : size;
        Reader r = {text, at, end};
        Span w, name;
        at = end + 1;
        if (!next_word(&r, &w) || text[w.start] == '#') continue;
        if (!is(text, w, "lib")) {
            if (!d.open || !item(c, &d, line, &r, w)) return line;
            continue;
        }
        if (!finish(c, text, &d)) return d.line;
        if (!next_word(&r, &name) || find(c, text, name) || next_word(&r, &w)) return line;
        d = (Draft){1, 0, name, c->needs.len, c->defs.len, c->inits.len, c->finis.len, c->cells.len, 0, 0};
    }
    return finish(c, text, &d) ? 0 : d.line;
}

static Catalog tables(uint64_t *work, size_t words) {
    size_t rows = words / 31;
    Catalog c = {.rows = rows};
    Table *all[] = {&c.libs, &c.needs, &c.defs, &c.cells, &c.inits, &c.finis};
    size_t widths[] = {13, 2, 6, 6, 1, 1};
    for (int i = 0; i < 6; i++) {
        *all[i] = (Table){work, widths[i], 0};
        work += widths[i] * rows;
    }
    c.next = work;
    c.heads = work + rows;
    c.buckets = words - 30 * rows;
    memset(c.heads, 0, c.buckets * sizeof *c.heads);
    return c;
}

// The same text as the other program's.
static size_t make(char *text, size_t size) {
    size_t n = 0;
    for (unsigned i = 0; n < size; i++) {
        unsigned p = i / 2;
        n += sprintf(text + n,
                     "lib l%u\nneeds l%u\ndef f%u 1 0 all\ninit 0\nset 0 %u\nown 1 7\nget 2 1 0\nadd 0 1 2\ncall 6\nret\n"
                     "slot f%u 1\nword %u\nref f%u - 3 may\nname l%u\n",
                     i, p, i, i, p, i, p, p);
    }
    return n;
}

static double now(void) {
    struct timespec t;
    clock_gettime(CLOCK_MONOTONIC, &t);
    return t.tv_sec + t.tv_nsec * 1e-9;
}

int main(int argc, char **argv) {
    for (int i = 0; i < FORMS; i++) keywords[i] = packed((const uint8_t *)forms[i].keyword, strlen(forms[i].keyword));
    for (int a = 1; a < argc; a++) {
        size_t size = strtoull(argv[a], NULL, 10);
        char *text = malloc(size + 1000);
        size_t n = make(text, size), words = 16 * n + 1024;
        uint64_t *work = malloc(words * sizeof *work);
        memset(work, 0, words * sizeof *work);
        double best = 1e9;
        size_t libraries = 0, cells = 0;
        for (int turn = 0; turn < 3; turn++) {
            double start = now();
            Catalog c = tables(work, words);
            if (read_text(&c, (const uint8_t *)text, n)) return 1;
            double took = now() - start;
            if (took < best) best = took;
            libraries = c.libs.len;
            cells = c.cells.len;
        }
        printf("bytes=%zu libraries=%zu cells=%zu ns-per-byte=%.2f\n", n, libraries, cells, best * 1e9 / n);
        free(work);
        free(text);
    }
    return 0;
}
