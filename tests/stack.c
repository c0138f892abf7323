/* How much stack each function of include/seclang.h takes at most, in bytes, as a Markdown table.
 * A call runs on a thread whose stack is memory of our own that was painted: the deepest byte that is another
 * afterwards tells how far it came, in whole words, and what an empty call takes is left out. Arguments that are passed
 * on the stack count. Ends with 1 where an input of 1 MiB takes more than one of 16 KB, or a lookup more than 256 bytes.
 * tools/stack runs it. */
#define _POSIX_C_SOURCE 200809L
#include "seclang.h"

#include <pthread.h>
#include <stdio.h>
#include <stdlib.h>
#include <string.h>

enum { FULL = SECLANG_LIMIT, STACK = 1 << 18, GAP = 1 << 13, WORD = sizeof(uint64_t) };
static const size_t sizes[] = {200, 16384, FULL};
enum { SIZES = sizeof sizes / sizeof *sizes };

static uint8_t input[FULL], text[FULL + 3], scratch[FULL], out[SECLANG_LISTING_MOST(FULL)];
static uint64_t records[SECLANG_TOKENS_MOST(FULL) * SECLANG_TOKEN_WORDS], values[SECLANG_VALUES_MOST];
static uint64_t heads[SECLANG_DIRECTIVES_MOST(FULL) * SECLANG_DIRECTIVE_WORDS];
static uint64_t targets[SECLANG_DIRECTIVES_VARIABLES_MOST(FULL) * SECLANG_VARIABLE_WORDS];
static uint64_t acts[SECLANG_DIRECTIVES_ACTIONS_MOST(FULL) * SECLANG_ACTION_WORDS];
/* An index has as many bytes as the input, and its first word besides. */
#define PLACES(n) ((n) / (2 * WORD))
static uint64_t ids[SECLANG_INDEX_WORDS(PLACES(FULL))];
static _Alignas(4096) uint8_t stack[STACK];

/* What a call is asked: n bytes of input, with room for the most records or with none, and two numbers of its own: a
 * table, a test, a span, a count of words. */
struct asked {
    size_t n, room;
    uint64_t word, other;
};
typedef uint64_t call(const struct asked *);
typedef bool judgement(const struct asked *);

static void must(bool holds, const char *what)
{
    if (holds) return;
    fprintf(stderr, "tests/stack.c: %s\n", what);
    exit(2);
}

/* ---- the calls: each a function that does nothing else, so that it takes no stack of its own */

#define MOST(kind, width) (a->room * SECLANG_##kind##_MOST(a->n) * SECLANG_##width##_WORDS)
#define VALUES values, SECLANG_VALUES_MOST

static uint64_t nothing(const struct asked *a) { return a->word; }

static uint64_t tokens(const struct asked *a)
{
    return seclang_tokens(input, a->n, text, a->n, records, MOST(TOKENS, TOKEN), VALUES);
}

static uint64_t plain_tokens(const struct asked *a)
{
    return seclang_plain_tokens(input, a->n, text, a->n, records, MOST(TOKENS, TOKEN), VALUES);
}

static uint64_t next_token(const struct asked *a)
{
    return seclang_next_token(input, a->n, 0, 1, 1, true, text, a->n, VALUES);
}

/* With a word of 1 the package is one from 2.7 on. */
static uint64_t directives(const struct asked *a)
{
    return seclang_directives(input, a->n, a->word == 1, text, a->n, scratch, a->n, heads, MOST(DIRECTIVES, DIRECTIVE),
                              targets, MOST(DIRECTIVES_VARIABLES, VARIABLE), acts, MOST(DIRECTIVES_ACTIONS, ACTION),
                              VALUES);
}

static uint64_t parse_actions(const struct asked *a)
{
    return seclang_parse_actions(input, a->n, text, a->n, scratch, a->n, records, MOST(ACTIONS, ACTION), VALUES);
}

static uint64_t parse_setvar(const struct asked *a)
{
    return seclang_parse_setvar(input, a->n, text, a->n + 3, records, a->room * SECLANG_ACTION_WORDS, VALUES);
}

static uint64_t parse_variables(const struct asked *a)
{
    return seclang_parse_variables(input, a->n, text, a->n, records, MOST(VARIABLES, VARIABLE), VALUES);
}

static uint64_t parse_update_targets(const struct asked *a)
{
    return seclang_parse_update_targets(input, a->n, text, a->n, records, MOST(UPDATE_TARGETS, VARIABLE), VALUES);
}

static uint64_t parse_operator(const struct asked *a) { return seclang_parse_operator(input, a->n, VALUES); }

static uint64_t list_text(const struct asked *a)
{
    return seclang_list_text(input, a->n, text, a->n, records, MOST(TOKENS, TOKEN), out, SECLANG_LISTING_MOST(a->n),
                             VALUES);
}

/* With a word of 1 the records are none that a reader makes. */
static uint64_t write_listing(const struct asked *a)
{
    return seclang_write_listing(records + a->word, a->other, text, a->n, true, 1, 1, out,
                                 a->room * SECLANG_LISTING_MOST(a->n), VALUES);
}

/* With a word of 1 the first record is none that a reader makes. */
static uint64_t write_actions(const struct asked *a)
{
    return seclang_write_actions(records + a->word, a->other, text, a->n, out, a->room * FULL, VALUES);
}

static uint64_t write_refusal(const struct asked *a)
{
    return seclang_write_refusal(a->other, a->word, out, 40 * a->room, VALUES);
}

static uint64_t lookup(const struct asked *a) { return seclang_lookup(a->word, input, a->n); }
static uint64_t xml_target(const struct asked *a) { return seclang_xml_target(a->word, input, a->n); }
static uint64_t phase(const struct asked *a) { return seclang_phase(records, a->other); }
static bool grade(const struct asked *a) { return seclang_grade(records, a->other); }
static bool test(const struct asked *a) { return seclang_test(a->other, a->word); }
static bool matches(const struct asked *a) { return seclang_matches(a->room, a->other, a->word, a->word); }

static uint64_t index_add(const struct asked *a)
{
    return seclang_index_add(ids, SECLANG_INDEX_WORDS(PLACES(a->n)), records, a->other, a->word, VALUES);
}

/* All rules or all but a few, or one. */
static uint64_t index_remove(const struct asked *a)
{
    return seclang_index_remove(ids, SECLANG_INDEX_WORDS(PLACES(a->n)), a->room, 8 + a->word, UINT64_MAX, VALUES);
}

static uint64_t span_from_old(const struct asked *a) { return seclang_span_from_old(a->word, VALUES); }
static uint64_t span_to_old(const struct asked *a) { return seclang_span_to_old(a->word, VALUES); }
static uint64_t version(const struct asked *a) { return a->n ? 0 : seclang_version(); }

/* ---- the inputs */

/* A first part, another again and again with blanks where it does not fit, and a last one; the first alone where there
 * is no other. With it the number that a reader gives. */
struct sample {
    const char *first, *again, *last;
    uint64_t number;
};

#define RULE "SecRule ARGS|!ARGS:p \"!@rx a\\\"b\" \\\n  \"id:7,phase:2,\\\n  msg:'a, b',setvar:'tx.a=+%{b}',t:none\"\n"

static const struct sample texts[] = {
    {"", "x", "", 0},         {"", "\\", "", 0},     {"", "\n", "", 0},    {"", "\"\" ", "", 0},
    {"\"", "a\\\n  ", "", 0}, {"# ", "x", "", 0},    {"", "\x01 ", "", 0}, {"", RULE, "", 0},
    {"", "sec\n", "\f", 0},   {"", "a ", "\x80", 2}, {NULL, "", "", 0},
};

/* Rules have ids, so that 2.6 and 2.7 give one number, but for the one that misses its own. */
static const struct sample packages[] = {
    {"", RULE, "", 0},
    {"", "sec\n", "", 0},
    {"SecRule TX", "|!", " a id:7", 0},
    {"SecAction id:7", ",t:", "", 0},
    {"SecAction \"id:7,", "\\\n ", "deny\"", 0},
    {"SecAction \"id:7,msg:", "\\\"", "\"", 0},
    {"", "SecAction \"id:7,de\\\\\n  ny\"\n", "", 0},
    {"", "SecAction chain,id:7\nSecMarker m\nSecRule TX a\n", "", 0},
    {"", "\\", "", 0},
    {"", "sec\n", "SecAction log,bogus", SECLANG_UNKNOWN_ACTION},
    {"", RULE, "SecRule TX|x a", SECLANG_UNKNOWN_VARIABLE},
    {"", RULE, "SecRule TX @nope", SECLANG_UNKNOWN_OPERATOR},
    {"", "sec\n", "SecAction id", SECLANG_ARGUMENT_ABSENT},
    {"", RULE, "SecAction \"log,\\\n id:9x\"", SECLANG_ARGUMENT_UNREADABLE},
    {"", "sec\n", "SecAction id:99999999999999999999", SECLANG_ARGUMENT_TOO_LARGE},
    {"", "sec\n", "SecRule TX", SECLANG_WRONG_COUNT},
    {"", "sec\n", "x", SECLANG_UNTAKEN},
    {"", "sec\n", "\f", SECLANG_STOPPED},
    {"", RULE, "SecAction log,deny", SECLANG_ID_MISSING},
    {"", "sec\n", "\x80", SECLANG_NOT_ASCII},
    {NULL, "", "", 0},
};

static const struct sample lists[] = {
    {"", "t:,", "", 0},
    {"", "deny,\\\n ", "log", 0},
    {"", "\\\n", "", 0},
    {"", "setvar:'tx.a=+%{b}',", "", 0},
    {"", "msg:'a, b',", "", 0},
    {"msg:'", "x", "'", 0},
    {"setvar:'tx.", "a", "=5'", 0},
    {"", "ctl:a=b,initcol:c=d,expirevar:e=5,", "", 0},
    {"", "severity:'CRITICAL',id:7,status:403,skip:1,", "", 0},
    {"", "\\", "", SECLANG_UNKNOWN_ACTION},
    {"", "deny,", "bogus", SECLANG_UNKNOWN_ACTION},
    {"", "deny,", "id", SECLANG_ARGUMENT_ABSENT},
    {"", "deny,\\\n ", "id:9x", SECLANG_ARGUMENT_UNREADABLE},
    {"", "deny,", "id:99999999999999999999", SECLANG_ARGUMENT_TOO_LARGE},
    {"", "deny,", "\x80", SECLANG_NOT_ASCII},
    {NULL, "", "", 0},
};

/* Lists to be written back: all kinds of actions and of marks, an open bracket, a record that fails late, and many that
 * come to more than the limit. */
static const struct sample rewritten[] = {
    {"", "t:none,id:18446744073709551615,severity:'CRITICAL',skip:1,", "", 0},
    {"", "setvar:'tx.a=--9223372036854775808',setvar:!a,setvar:b='c',setvar:d=%{e},", "", 0},
    {"", "msg:\"it's\",ctl:a=b,initcol:c=d,expirevar:e=18446744073709551615,", "", 0},
    {"setvar:a=", "9", "", 0},
    {"setvar:'", "a'\"'", "", 0},
    {"redirect:", "(", "", 0},
    {"t:", "\\", "", 0},
    {"", "deny,", "expirevar:(a=5),log", 0},
    {"", "exec,", "", 0},
    {NULL, "", "", 0},
};

static const struct sample setvars[] = {
    {"", "a", "", 0},     {"tx.", "a", "=5", 0}, {"", ".", "", 0},   {"a=", "9", "", 0},   {"a=+", "%{", "", 0},
    {"!tx.", "a", "", 0}, {" ", " ", "", 0},     {"'", "a", "'", 0}, {"", "a", "\x80", 2}, {NULL, "", "", 0},
};

static const struct sample variables[] = {
    {"", "TX|", "", 0},     {"TX", "|!TX:k", "", 0},    {"", "&TX:/a/|", "", 0}, {"TX:", "a", "", 0},
    {"", "|", "", 0},       {"", "ARGS:p|", "nope", 7}, {"", "TX|", "!x", 0},    {"", "\\", "", 7},
    {"", "TX|", "\x80", 2}, {NULL, "", "", 0},
};

/* The last is an exclusion that is looked up. */
static const struct sample updates[] = {
    {"", "TX|", "", 0},   {"TX", "|!TX:k", "", 0},    {"", "&TX:/a/|", "", 0}, {"TX:", "a", "", 0},
    {"", "|", "", 0},     {"", "ARGS:p|", "nope", 7}, {"", "\\", "", 7},       {"", "TX|", "\x80", 2},
    {"", "TX|", "!x", 7}, {NULL, "", "", 0},
};

static const struct sample operators[] = {
    {"@rx ", "a", "", 0},         {"", "a ", "", 0},    {"", " ", "", 0},
    {"!@within ", "a b ", "", 0}, {"", "\\", "", 0},    {"@", "x", "", 8},
    {"! @", "pm", " a", 8},       {"", "a", "\x80", 2}, {NULL, "", "", 0},
};

static const struct sample names[] = {
    {"REQUEST_URI", NULL, "", 0},
    {"REQUEST_uri", NULL, "", 0},
    {"args", NULL, "", 0},
    {"REQBODY_PROCESSOR_ERROR_MSG", NULL, "", 0},
    {"rx", NULL, "", 0},
    {"EQ", NULL, "", 0},
    {"pmFromFile", NULL, "", 0},
    {"validateUTF8Encoding", NULL, "", 0},
    {"critical", NULL, "", 0},
    {"Debug", NULL, "", 0},
    {"", NULL, "", 0},
    {"nope", NULL, "", 0},
    {"", "x", "", 0},
    {NULL, "", "", 0},
};

/* Rules with the id 7, the last without one. */
static const struct sample rules[] = {
    {"id:7", NULL, "", 0}, {"", "deny,", "id:7", 0}, {"id:7", ",log", "", 0}, {"", "deny,", "", 0}, {NULL, "", "", 0},
};

static const struct sample selections[] = {
    {"/*", NULL, "", 0}, {"//@*", NULL, "", 0}, {"", NULL, "", 0},
    {"", " ", "", 0},    {"", "/", "", 0},      {NULL, "", "", 0},
};

static size_t fill(const struct sample *s, size_t size)
{
    const size_t first = strlen(s->first), wide = s->again ? strlen(s->again) : 0, last = strlen(s->last);
    memcpy(input, s->first, first);
    if (!wide) return first;
    memset(input + first, ' ', size - first);
    for (size_t at = first; at + wide + last <= size; at += wide) memcpy(input + at, s->again, wide);
    memcpy(input + size - last, s->last, last);
    return size;
}

/* An index that is full, or has places left: of ids from 8 on, so that 7 goes before them all; from 7 on; or of none
 * that ascend. */
static void fill_index(const struct asked *a)
{
    ids[0] = a->room ? PLACES(a->n) / 2 : PLACES(a->n);
    for (size_t k = 0; k < PLACES(a->n); k++) {
        const bool there = k < ids[0];
        ids[2 * k + 1] = there && a->word < 2 ? 8 - a->word + k : 0;
        ids[2 * k + 2] = there ? k : 0;
    }
}

/* ---- the functions */

/* A function and its inputs. The records that it is about come from a call before it, so many words to a record, which
 * is not counted; nor is what fills the memory again that it changes. It is asked with the words 0 to the last, and
 * gives each sample's number where it is a reader. At most it takes `most` bytes, where that is not 0. */
static const struct about {
    const char *name;
    call *call, *before;
    void (*again)(const struct asked *);
    judgement *judgement;
    const struct sample *samples;
    size_t width, last, most;
    bool reader;
} functions[] = {
    {.name = "seclang_version", .call = version},
    {.name = "seclang_next_token", .call = next_token, .samples = texts, .reader = true},
    {.name = "seclang_tokens", .call = tokens, .samples = texts, .reader = true},
    {.name = "seclang_plain_tokens", .call = plain_tokens, .samples = texts, .reader = true},
    {.name = "seclang_directives", .call = directives, .samples = packages, .last = 1, .reader = true},
    {.name = "seclang_parse_actions", .call = parse_actions, .samples = lists, .reader = true},
    {.name = "seclang_parse_setvar", .call = parse_setvar, .samples = setvars, .reader = true},
    {.name = "seclang_parse_variables", .call = parse_variables, .samples = variables, .reader = true},
    {.name = "seclang_parse_update_targets", .call = parse_update_targets, .samples = updates, .reader = true},
    {.name = "seclang_parse_operator", .call = parse_operator, .samples = operators, .reader = true},
    {.name = "seclang_lookup", .call = lookup, .samples = names, .last = 3, .most = 256},
    {.name = "seclang_test", .judgement = test},
    {.name = "seclang_xml_target", .call = xml_target, .samples = selections, .last = 3},
    {.name = "seclang_phase", .call = phase, .before = parse_actions, .samples = lists, .width = SECLANG_ACTION_WORDS},
    {.name = "seclang_grade",
     .judgement = grade,
     .before = parse_actions,
     .samples = lists,
     .width = SECLANG_ACTION_WORDS},
    {.name = "seclang_matches", .judgement = matches},
    {.name = "seclang_index_add",
     .call = index_add,
     .before = parse_actions,
     .again = fill_index,
     .samples = rules,
     .width = SECLANG_ACTION_WORDS,
     .last = 2},
    {.name = "seclang_index_remove", .call = index_remove, .again = fill_index, .samples = rules, .last = 2},
    {.name = "seclang_span_from_old", .call = span_from_old},
    {.name = "seclang_span_to_old", .call = span_to_old},
    {.name = "seclang_list_text", .call = list_text, .samples = texts},
    {.name = "seclang_write_listing",
     .call = write_listing,
     .before = tokens,
     .samples = texts,
     .width = SECLANG_TOKEN_WORDS,
     .last = 1},
    {.name = "seclang_write_actions",
     .call = write_actions,
     .before = parse_actions,
     .samples = rewritten,
     .width = SECLANG_ACTION_WORDS,
     .last = 1},
    {.name = "seclang_write_refusal", .call = write_refusal},
};
static const struct about empty = {.name = "nothing", .call = nothing};
enum { FUNCTIONS = sizeof functions / sizeof *functions };

/* ---- the stack */

struct started {
    const struct about *about;
    const struct asked *asked;
    uint64_t number;
    uint8_t *gap;
};

/* A thread's own start and end change some of its stack too, so that the call is made further down than they come. The
 * gap is told, since a compiler may leave out what nobody sees. */
static __attribute__((noinline)) void further_down(struct started *s)
{
    uint8_t gap[GAP];
    s->gap = gap;
    s->number = s->about->call ? s->about->call(s->asked) : s->about->judgement(s->asked);
    s->gap = NULL;
}

static void *start(void *s)
{
    further_down((struct started *)s);
    return NULL;
}

/* How far down a call comes. */
static size_t depth(struct started *s, uint8_t paint)
{
    pthread_attr_t how;
    pthread_t thread;
    size_t at = 0;
    if (s->about->again) s->about->again(s->asked);
    memset(stack, paint, STACK);
    must(pthread_attr_init(&how) == 0 && pthread_attr_setstack(&how, stack, STACK) == 0, "no thread on its own stack");
    must(pthread_create(&thread, &how, start, s) == 0 && pthread_join(thread, NULL) == 0, "no thread");
    pthread_attr_destroy(&how);
    while (at < STACK && stack[at] == paint) at++;
    must(STACK / 4 < at, "a call took most of its stack");
    return STACK - at;
}

/* Whether a reader gave a sample's number; only from 2.7 on is an id missed. */
static bool as_it_should(uint64_t number, const struct sample *sample, const struct asked *asked)
{
    const bool missed = sample->number == SECLANG_ID_MISSING && asked->word == 0;
    return number == (missed ? SECLANG_READ : sample->number);
}

/* What a call takes beyond an empty one. Two paints, since a byte may be written that is the paint itself. */
static size_t taken(const struct about *f, const struct sample *sample, const struct asked *asked)
{
    size_t deep = 0, least = 0;
    struct started s = {f, asked, 0, NULL}, none = {&empty, asked, 0, NULL};
    for (uint8_t paint = 0x5a; paint <= 0x5b; paint++) {
        const size_t here = depth(&s, paint), there = depth(&none, paint);
        deep = deep < here ? here : deep, least = least < there ? there : least;
    }
    must(GAP < least && least <= deep, "a thread comes further down than an empty call");
    must(!f->reader || !asked->room || as_it_should(s.number, sample, asked),
         "an input is read otherwise than it should be");
    return (deep - least + WORD - 1) / WORD * WORD;
}

/* ---- the table */

/* One input: with room and without, and for each word. */
static size_t of_input(const struct about *f, const struct sample *s, size_t n)
{
    size_t most = 0;
    for (size_t i = 0; i < 2 * (f->last + 1); i++) {
        struct asked asked = {n, 1, i / 2, 0};
        if (f->before && f->before(&asked) == SECLANG_READ) asked.other = values[0] * f->width;
        asked.room = i % 2;
        const size_t one = taken(f, s, &asked);
        most = most < one ? one : most;
    }
    return most;
}

/* All inputs of a size; those that are a first part alone are short ones. */
static size_t of_size(const struct about *f, size_t k)
{
    size_t most = 0;
    for (const struct sample *s = f->samples; s->first; s++) {
        if (!s->again && 0 < k) continue;
        const size_t one = of_input(f, s, fill(s, sizes[k]));
        most = most < one ? one : most;
    }
    return most;
}

/* A function that takes no input, with words at their edges. */
static size_t of_words(const struct about *f)
{
    static const uint64_t edges[] = {0, 1, 35, 65535, 65536, UINT64_C(1) << 32, UINT64_C(1) << 48, UINT64_MAX};
    size_t most = 0;
    for (size_t i = 0; i < 8 * 8; i++) {
        const struct asked asked = {0, i % 2, edges[i / 8], i % 8 / 2};
        const size_t one = taken(f, NULL, &asked);
        most = most < one ? one : most;
    }
    return most;
}

int main(void)
{
    bool grows = false, over = false;
    printf("| Function | Short | 16 KB | 1 MiB |\n|---|---|---|---|\n");
    for (const struct about *f = functions; f < functions + FUNCTIONS; f++) {
        size_t most[SIZES] = {0};
        if (!f->samples) {
            printf("| `%s` | %zu | | |\n", f->name, of_words(f));
            continue;
        }
        for (size_t k = 0; k < SIZES; k++) {
            most[k] = of_size(f, k);
            over = over || (f->most && f->most < most[k]);
        }
        printf("| `%s` | %zu | %zu | %zu |\n", f->name, most[0], most[1], most[2]);
        grows = grows || most[1] < most[2];
    }
    if (grows) fprintf(stderr, "tests/stack.c: an input of 1 MiB takes more stack than one of 16 KB\n");
    if (over) fprintf(stderr, "tests/stack.c: a lookup takes more stack than it may\n");
    return grows || over;
}
