/* load FILE...: how long the engine takes to load each rule file, and this library to read its directives.
 * Rounds of each side in turn, the median of each; processor time, so that other programs do not count. */
#include "seclang.h"

#include <libgen.h>
#include <modsecurity/modsecurity.h>
#include <modsecurity/rules_set.h>
#include <stdio.h>
#include <stdlib.h>
#include <string.h>
#include <time.h>

enum { ROUNDS = 11, PASSES = 200, N = SECLANG_LIMIT, WORD = sizeof(uint64_t) };

static uint8_t text[N], scratch[N];
static uint64_t heads[SECLANG_DIRECTIVES_MOST(N) * SECLANG_DIRECTIVE_WORDS], values[SECLANG_VALUES_MOST];
static uint64_t variables[SECLANG_DIRECTIVES_VARIABLES_MOST(N) * SECLANG_VARIABLE_WORDS];
static uint64_t actions[SECLANG_DIRECTIVES_ACTIONS_MOST(N) * SECLANG_ACTION_WORDS];

/* Whole lines of a file, none of which a backslash carries on, as many as stay within the limit. */
struct piece {
    const uint8_t *at;
    size_t len;
    uint64_t number, needed[3];
};

struct file {
    const char *path;
    uint8_t *bytes;
    size_t len, count, refused;
    struct piece *pieces;
    double engine, ours;
    bool loads;
};

static double ran(void)
{
    struct timespec now;
    clock_gettime(CLOCK_PROCESS_CPUTIME_ID, &now);
    return (double)now.tv_sec * 1e3 + (double)now.tv_nsec / 1e6;
}

/* ---- ours */

/* From 2.7 on, as the engine asks for ids too. */
static uint64_t read_piece(const struct piece *p, const size_t words[3])
{
    return seclang_directives(p->at, p->len, true, text, p->len, scratch, p->len, heads, words[0], variables, words[1],
                              actions, words[2], values, SECLANG_VALUES_MOST);
}

/* What each piece comes to, and the room that it needs: what is lent is then as large as that. */
static void settle(struct piece *p)
{
    const size_t most[3] = {sizeof heads / WORD, sizeof variables / WORD, sizeof actions / WORD};
    p->number = p->len <= N ? read_piece(p, most) : SECLANG_TOO_LONG;
    memset(p->needed, 0, sizeof p->needed);
    if (p->number == SECLANG_READ) memcpy(p->needed, values, sizeof p->needed);
}

static double ours_once(const struct file *f)
{
    double began = ran();
    for (int pass = 0; pass < PASSES; pass++)
        for (const struct piece *p = f->pieces; p < f->pieces + f->count; p++) {
            const size_t words[3] = {(size_t)p->needed[0] * SECLANG_DIRECTIVE_WORDS,
                                     (size_t)p->needed[1] * SECLANG_VARIABLE_WORDS,
                                     (size_t)p->needed[2] * SECLANG_ACTION_WORDS};
            if (p->number != SECLANG_TOO_LONG && read_piece(p, words) != p->number) abort();
        }
    return (ran() - began) / PASSES;
}

/* ---- the engine */

static bool engine_loads(const struct file *f)
{
    const char *error = NULL;
    RulesSet *rules = msc_create_rules_set();
    bool fine = msc_rules_add_file(rules, f->path, &error) >= 0;
    if (!fine) fprintf(stderr, "%s: %s\n", f->path, error ? error : "refused");
    msc_rules_cleanup(rules);
    return fine;
}

static double engine_once(struct file *f)
{
    double began = ran();
    f->loads = engine_loads(f);
    return ran() - began;
}

/* ---- files */

static size_t logical_line(const uint8_t *at, size_t len)
{
    for (size_t i = 0; i < len; i++)
        if (at[i] == '\n' && (i == 0 || at[i - 1] != '\\') && (i < 2 || at[i - 1] != '\r' || at[i - 2] != '\\'))
            return i + 1;
    return len;
}

static void cut(struct file *f)
{
    f->pieces = calloc(f->len + 1, sizeof *f->pieces);
    for (size_t at = 0, line; at < f->len; at += line) {
        struct piece *last = f->count ? f->pieces + f->count - 1 : NULL;
        line = logical_line(f->bytes + at, f->len - at);
        if (last && last->len + line <= N) last->len += line;
        else f->pieces[f->count++] = (struct piece){.at = f->bytes + at, .len = line};
    }
    for (size_t i = 0; i < f->count; i++) {
        settle(f->pieces + i);
        f->refused += f->pieces[i].number != SECLANG_READ;
    }
}

/* The file's bytes; those past ASCII are made plain, as ours reads none of these. */
static void fetch(struct file *f, const char *path)
{
    FILE *in = fopen(path, "rb");
    if (!in) perror(path), exit(2);
    fseek(in, 0, SEEK_END);
    f->path = path, f->len = (size_t)ftell(in), f->bytes = malloc(f->len + 1);
    rewind(in);
    f->len = fread(f->bytes, 1, f->len, in);
    fclose(in);
    for (size_t i = 0; i < f->len; i++)
        if (f->bytes[i] > 127) f->bytes[i] = '?';
    cut(f);
}

static int by_size(const void *a, const void *b)
{
    double x = *(const double *)a, y = *(const double *)b;
    return (x > y) - (x < y);
}

static void time_both(struct file *f)
{
    double engine[ROUNDS], ours[ROUNDS];
    for (int round = 0; round < ROUNDS; round++) engine[round] = engine_once(f), ours[round] = ours_once(f);
    qsort(engine, ROUNDS, sizeof *engine, by_size);
    qsort(ours, ROUNDS, sizeof *ours, by_size);
    f->engine = engine[ROUNDS / 2], f->ours = ours[ROUNDS / 2];
}

int main(int argc, char **argv)
{
    double engine = 0, ours = 0;
    size_t bytes = 0, pieces = 0, refused = 0;
    ModSecurity *whole = msc_init();
    printf("| File | Bytes | Engine loads, ms | Ours reads, ms | Pieces, of them refused |\n|---|---|---|---|---|\n");
    for (int i = 1; i < argc; i++) {
        struct file f = {0};
        fetch(&f, argv[i]);
        time_both(&f);
        printf("| %s | %zu | %.3f%s | %.4f | %zu, %zu |\n", basename(argv[i]), f.len, f.engine,
               f.loads ? "" : " (refused)", f.ours, f.count, f.refused);
        engine += f.engine, ours += f.ours, bytes += f.len, pieces += f.count, refused += f.refused;
        free(f.pieces), free(f.bytes);
    }
    printf("| all | %zu | %.1f | %.3f | %zu, %zu |\n", bytes, engine, ours, pieces, refused);
    msc_cleanup(whole);
    return 0;
}
