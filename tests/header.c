/* Calls every function of include/seclang.h with answers that are known, and checks each of its names and bounds.
 * names.inc has a line for each enumerator of a name, as VARIABLE(ARGS): tools/test-c makes it out of the header. */
#include "seclang.h"

#include <ctype.h>
#include <inttypes.h>
#include <stdio.h>
#include <string.h>

/* The words that n bytes can need of each kind of record, and ONE action record. */
#define TOKENS_IN(n) (SECLANG_TOKENS_MOST(n) * SECLANG_TOKEN_WORDS)
#define HEADS_IN(n) (SECLANG_DIRECTIVES_MOST(n) * SECLANG_DIRECTIVE_WORDS)
#define TARGETS_IN(n) (SECLANG_DIRECTIVES_VARIABLES_MOST(n) * SECLANG_VARIABLE_WORDS)
#define ACTS_IN(n) (SECLANG_DIRECTIVES_ACTIONS_MOST(n) * SECLANG_ACTION_WORDS)
enum { ONE = SECLANG_ACTION_WORDS };

/* FULL is one byte past the limit. What is lent is all cleared at each call, so that short texts are lent a small part:
 * ROOM bytes, and the words that these can need. */
enum { FULL = SECLANG_LIMIT + 1, FULL_WORDS = TOKENS_IN(FULL) };
enum { ROOM = 1024, WORDS = TOKENS_IN(ROOM), HEADS = HEADS_IN(ROOM), TARGETS = TARGETS_IN(ROOM), ACTS = ACTS_IN(ROOM) };
enum { LINE = SECLANG_LISTING_MOST(ROOM) };

static uint8_t input[FULL], text[FULL + 3], scratch[FULL], out[SECLANG_LISTING_MOST(FULL)];
static uint64_t records[FULL_WORDS], values[SECLANG_VALUES_MOST];
static uint64_t heads[HEADS_IN(FULL)], targets[TARGETS_IN(FULL)], acts[ACTS_IN(FULL)];
static int checked, failed;

static void check(bool holds, const char *what, int line)
{
    checked++;
    if (holds) return;
    failed++;
    printf("tests/header.c:%d: %s\n", line, what);
}

#define CHECK(holds) check((holds), #holds, __LINE__)

/* ---- what is asked */

static const uint8_t *bytes(const char *s) { return (const uint8_t *)s; }

static uint64_t lookup(uint64_t table, const char *name) { return seclang_lookup(table, bytes(name), strlen(name)); }

/* Either of the two that give all tokens of a text. */
typedef uint64_t lexer(const uint8_t *, size_t, uint8_t *, size_t, uint64_t *, size_t, uint64_t *, size_t);

static uint64_t lexed(lexer *lex, const char *s)
{
    return lex(bytes(s), strlen(s), text, ROOM, records, WORDS, values, SECLANG_VALUES_MOST);
}

static uint64_t tokens(const char *s) { return lexed(seclang_tokens, s); }

static uint64_t actions(const char *s)
{
    return seclang_parse_actions(bytes(s), strlen(s), text, ROOM, scratch, ROOM, records, WORDS, values,
                                 SECLANG_VALUES_MOST);
}

static uint64_t setvar(const char *s)
{
    return seclang_parse_setvar(bytes(s), strlen(s), text, ROOM + 3, records, WORDS, values, SECLANG_VALUES_MOST);
}

static uint64_t variables(const char *s)
{
    return seclang_parse_variables(bytes(s), strlen(s), text, ROOM, records, WORDS, values, SECLANG_VALUES_MOST);
}

static uint64_t updates(const char *s)
{
    return seclang_parse_update_targets(bytes(s), strlen(s), text, ROOM, records, WORDS, values, SECLANG_VALUES_MOST);
}

static uint64_t operator_of(const char *s)
{
    return seclang_parse_operator(bytes(s), strlen(s), values, SECLANG_VALUES_MOST);
}

static uint64_t package(const char *s, bool from_2_7)
{
    return seclang_directives(bytes(s), strlen(s), from_2_7, text, ROOM, scratch, ROOM, heads, HEADS, targets, TARGETS,
                              acts, ACTS, values, SECLANG_VALUES_MOST);
}

static uint64_t directives(const char *s) { return package(s, false); }

/* ---- what is answered */

static bool first_values(uint64_t a, uint64_t b) { return values[0] == a && values[1] == b; }

static uint64_t span(uint64_t offset, uint64_t length) { return offset * SECLANG_SPAN_BASE + length; }

/* The same, and behind them a span in the input. */
static bool spanned_values(uint64_t a, uint64_t b, uint64_t offset, uint64_t length)
{
    return first_values(a, b) && values[2] == span(offset, length);
}

/* Whether the words of a token, an action and a variable record are these. */
static bool token(size_t k, uint64_t kind, uint64_t line, uint64_t column, uint64_t source, uint64_t said)
{
    const uint64_t want[SECLANG_TOKEN_WORDS] = {kind, line, column, source, said};
    return memcmp(records + k * SECLANG_TOKEN_WORDS, want, sizeof want) == 0;
}

static bool action(size_t k, uint64_t code, uint64_t number, uint64_t a, uint64_t source)
{
    const uint64_t want[SECLANG_ACTION_WORDS] = {code, number, a, 0, 0, 0, source};
    return memcmp(records + k * SECLANG_ACTION_WORDS, want, sizeof want) == 0;
}

static bool target(size_t k, uint64_t kind, uint64_t code, uint64_t counted, uint64_t selection, uint64_t said,
                   uint64_t source)
{
    const uint64_t want[SECLANG_VARIABLE_WORDS] = {kind, code, counted, selection, said, source};
    return memcmp(records + k * SECLANG_VARIABLE_WORDS, want, sizeof want) == 0;
}

static uint64_t action_word(size_t k, size_t word) { return records[k * SECLANG_ACTION_WORDS + word]; }

static bool shows(uint64_t span, const char *s)
{
    return SECLANG_SPAN_LENGTH(span) == strlen(s) && memcmp(text + SECLANG_SPAN_OFFSET(span), s, strlen(s)) == 0;
}

/* Whether the sources of so many records are these: offset and length by turns. */
static bool sources(const uint64_t *words, size_t width, size_t count, const uint64_t *want)
{
    bool same = true;
    for (size_t k = 0; k < count; k++) same = same && words[(k + 1) * width - 1] == span(want[2 * k], want[2 * k + 1]);
    return same;
}

/* All bytes of the text beyond a name, and all words of the records, are zero. */
static bool refused_name(const char *name)
{
    size_t n = strlen(name), i;
    bool zero = memcmp(text, name, n) == 0;
    for (i = n; i < ROOM; i++) zero = zero && text[i] == 0;
    for (i = 0; i < WORDS; i++) zero = zero && records[i] == 0;
    return zero;
}

/* ---- names */

enum letters { AS_IS, SMALL, MIXED };

static const char *in(enum letters how, const char *name)
{
    static char copy[64];
    size_t i;
    for (i = 0; name[i]; i++) {
        bool small = how == SMALL || (how == MIXED && i % 2 == 0);
        copy[i] = (char)(small ? tolower((unsigned char)name[i]) : name[i]);
    }
    copy[i] = 0;
    return copy;
}

static const char *with(const char *before, const char *name, const char *behind)
{
    static char joined[128];
    snprintf(joined, sizeof joined, "%s%s%s", before, name, behind);
    return joined;
}

static void check_variable(const char *name, uint64_t code)
{
    for (int how = AS_IS; how <= MIXED; how++) {
        check(lookup(SECLANG_TABLE_VARIABLES, in((enum letters)how, name)) == code, name, __LINE__);
        check(variables(in((enum letters)how, name)) == SECLANG_READ && records[1] == code, name, __LINE__);
    }
}

static void check_operator(const char *name, uint64_t code)
{
    for (int how = AS_IS; how <= MIXED; how++) {
        check(lookup(SECLANG_TABLE_OPERATORS, in((enum letters)how, name)) == code, name, __LINE__);
        check(operator_of(with("@", in((enum letters)how, name), " 1")) == SECLANG_READ && values[1] == code, name,
              __LINE__);
    }
}

static void check_severity(const char *name, uint64_t code)
{
    for (int how = AS_IS; how <= MIXED; how++) {
        check(lookup(SECLANG_TABLE_SEVERITIES, in((enum letters)how, name)) == code, name, __LINE__);
        check(actions(with("severity:", in((enum letters)how, name), "")) == SECLANG_READ && records[1] == code, name,
              __LINE__);
    }
}

/* An argument of 1 is one for every action. */
static void check_action(const char *name, uint64_t code)
{
    for (int how = AS_IS; how <= MIXED; how++) {
        bool read = actions(with("", in((enum letters)how, name), ":1")) == SECLANG_READ;
        bool capital_t = code == SECLANG_ACTION_T && how == AS_IS;
        check(read != capital_t && (!read || (values[0] == 1 && records[0] == code)), name, __LINE__);
    }
}

/* Its own name, if there is one, is another's. */
static void check_unnamed(const char *name, uint64_t code)
{
    check(lookup(SECLANG_TABLE_VARIABLES, name) != code, name, __LINE__);
}

#define VARIABLE(name) check_variable(#name, SECLANG_VARIABLE_##name), variable++, places[SECLANG_VARIABLE_##name]++;
#define UNNAMED(name) check_unnamed(#name, SECLANG_UNNAMED_##name), unnamed++, places[SECLANG_UNNAMED_##name]++;
#define OPERATOR(name) check_operator(#name, SECLANG_OPERATOR_##name), op++;
#define SEVERITY(name) check_severity(#name, SECLANG_SEVERITY_##name), severity++;
#define ACTION(name) check_action(#name, SECLANG_ACTION_##name), action++;

static void check_names(void)
{
    int variable = 0, unnamed = 0, op = 0, severity = 0, action = 0, places[92] = {0};
#include "names.inc"
    for (size_t i = 0; i < 92; i++) CHECK(places[i] == 1);
    CHECK(variable == 76 && unnamed == 16 && op == 39 && severity == 8 && action == 32);
    CHECK(lookup(SECLANG_TABLE_VARIABLES, "ARG") == SECLANG_UNKNOWN);
    CHECK(lookup(SECLANG_TABLE_OPERATORS, "") == SECLANG_UNKNOWN);
    CHECK(lookup(SECLANG_TABLE_SEVERITIES + 1, "ARGS") == SECLANG_UNKNOWN);
    CHECK(actions("setsid,setuid,deprecatevar,exec,append,prepend,proxy,pause,xmlns") == SECLANG_READ &&
          values[0] == 9);
    for (size_t i = 0; i < 9; i++) CHECK(records[i * SECLANG_ACTION_WORDS] == SECLANG_ACTION_NOAUDITLOG);
    CHECK(actions("sanitizematched") == SECLANG_READ && records[0] == SECLANG_ACTION_SANITISEMATCHED);
}

static void check_tests(void)
{
    int collections = 0, implemented = 0, needy = 0;
    for (uint64_t code = 0; code < 1000; code++) {
        collections += seclang_test(SECLANG_TEST_IS_COLLECTION, code);
        implemented += seclang_test(SECLANG_TEST_IS_IMPLEMENTED, code);
        needy += seclang_test(SECLANG_TEST_REQUIRES_ARGUMENT, code);
    }
    CHECK(collections == 25 && implemented == 44 && needy == 32);
    CHECK(seclang_test(SECLANG_TEST_IS_COLLECTION, SECLANG_VARIABLE_TX));
    CHECK(!seclang_test(SECLANG_TEST_IS_COLLECTION, SECLANG_VARIABLE_XML));
    CHECK(!seclang_test(SECLANG_TEST_REQUIRES_ARGUMENT, SECLANG_OPERATOR_DETECTSQLI));
    CHECK(!seclang_test(SECLANG_TEST_IS_IMPLEMENTED, SECLANG_UNKNOWN) && !seclang_test(3, 0));
    CHECK(seclang_xml_target(SECLANG_SELECTION_NONE, bytes("x"), 1) == SECLANG_XML_ALL);
    CHECK(seclang_xml_target(SECLANG_SELECTION_KEY, bytes(" /* "), 4) == SECLANG_XML_ELEMENTS);
    CHECK(seclang_xml_target(SECLANG_SELECTION_KEY, bytes("//@*"), 4) == SECLANG_XML_ATTRIBUTES);
    CHECK(seclang_xml_target(SECLANG_SELECTION_REGEX, bytes("/*"), 2) == SECLANG_XML_NEITHER);
}

/* ---- the lexers */

static const char rule[] = "SecRule ARGS \"@rx a\" # x\n \\\n\tsecy\n";

static void check_tokens(lexer *lex)
{
    CHECK(lexed(lex, rule) == SECLANG_READ && values[0] == 6 && values[1] == 20 && values[2] == strlen(rule) &&
          values[3] == 4 && values[4] == 1);
    CHECK(token(0, SECLANG_TOKEN_DIRECTIVE, 1, 1, span(0, 7), span(0, 7)));
    CHECK(token(1, SECLANG_TOKEN_WORD, 1, 9, span(8, 4), span(7, 4)));
    CHECK(token(2, SECLANG_TOKEN_QUOTED_STRING, 1, 14, span(13, 7), span(11, 5)));
    CHECK(token(3, SECLANG_TOKEN_COMMENT, 1, 22, span(21, 4), span(16, 0)));
    CHECK(token(4, SECLANG_TOKEN_DIRECTIVE, 3, 2, span(29, 4), span(16, 4)));
    CHECK(token(5, SECLANG_TOKEN_NEWLINE, 3, 6, span(33, 1), span(20, 0)));
    CHECK(shows(records[4 * SECLANG_TOKEN_WORDS + 4], "secy") && text[20] == 0 &&
          records[6 * SECLANG_TOKEN_WORDS] == 0);
    CHECK(lexed(lex, "a\fb") == SECLANG_READ && first_values(1, 1) && values[2] == 1 && values[3] == 1 &&
          values[4] == 2);
}

/* Where a lexer is easily wrong: a text, its tokens, what they say in a row, and where reading stops. */
static const struct awkward {
    const char *text;
    uint64_t tokens;
    const char *said;
    uint64_t place, line, column;
} awkward[] = {
    {"", 0, "", 0, 1, 1},
    {"a\\\rb", 2, "a\\b", 4, 1, 5},
    {"\\\r\r\n", 1, "", 4, 2, 1},
    {"\\\r\r\nsec", 2, "sec", 7, 2, 4},
    {"a\\\\\nb", 1, "a\\b", 5, 2, 2},
    {"\"\\\r\n\t\t x\"", 1, "x", 9, 2, 6},
    {"'\\\r\tx'", 1, "x", 6, 1, 7},
    {"a\vb", 1, "a", 1, 1, 2},
    {"a \vb", 1, "a", 2, 1, 3},
    {"\\\fsec", 0, "", 1, 1, 2},
    {"\\SecRule x", 2, "SecRulex", 10, 1, 11},
    {"\n\\ Include", 2, "Include", 10, 2, 10},
    {"\"a\\", 1, "a", 3, 1, 4},
    {"'\\", 1, "", 2, 1, 3},
    {"x \\\nsecy", 2, "xsecy", 8, 2, 5},
    {"#a\\\nsec", 2, "sec", 7, 2, 4},
    {"sec\\", 1, "sec\\", 4, 1, 5},
    {"a\"b\nc\"d", 3, "ab\ncd", 7, 2, 4},
    {"\rsec\r\n", 2, "sec", 6, 2, 1},
};
enum { AWKWARD = sizeof awkward / sizeof *awkward };

static void check_awkward(lexer *lex)
{
    for (const struct awkward *a = awkward; a < awkward + AWKWARD; a++) {
        const size_t n = strlen(a->said);
        const bool read = lexed(lex, a->text) == SECLANG_READ && first_values(a->tokens, n);
        check(read && memcmp(text, a->said, n + 1) == 0, a->text, __LINE__);
        check(values[2] == a->place && values[3] == a->line && values[4] == a->column, a->text, __LINE__);
    }
}

/* Too long, not ASCII, too short a buffer and too few records; what each leaves of lent memory. */
static void check_lexer_numbers(lexer *lex)
{
    memset(input, ' ', FULL);
    memset(text, 'x', FULL);
    records[0] = 77;
    CHECK(lex(input, FULL, text, FULL, records, WORDS, values, 10) == SECLANG_TOO_LONG && values[0] == SECLANG_LIMIT &&
          text[0] == 'x');
    CHECK(lex(bytes("a\x80"), 2, text, 0, records, 0, values, 10) == SECLANG_NOT_ASCII && values[0] == 1);
    CHECK(lex(bytes("ab"), 2, text, 1, records, WORDS, values, 10) == SECLANG_SHORT_BUFFER && values[0] == 0 &&
          text[0] == 'x' && records[0] == 77);
    CHECK(lex(bytes("a b"), 3, text, 3, records, 9, values, 10) == SECLANG_NO_ROOM && values[0] == 2 && text[0] == 0 &&
          text[3] == 'x' && records[0] == 0);
    CHECK(lex(input, SECLANG_LIMIT, text, SECLANG_LIMIT, records, 0, values, 10) == SECLANG_READ && text[0] == 0 &&
          text[SECLANG_LIMIT] == 'x');
}

static uint8_t plain_text[sizeof text];
static uint64_t plain_records[FULL_WORDS], plain_values[SECLANG_VALUES_MOST];

/* Whether both lexers give the same with the same room: the number, and every byte and word, also the next past what is
 * lent. */
static bool same(const uint8_t *s, size_t n, size_t text_len, size_t records_len, size_t values_len)
{
    const size_t wide = (records_len + (records_len < FULL_WORDS)) * sizeof *records;
    const size_t long_text = text_len + (text_len < sizeof text);
    uint64_t number, plain;
    memset(text, 'x', long_text), memset(plain_text, 'x', long_text);
    memset(records, 'x', wide), memset(plain_records, 'x', wide);
    memset(values, 'x', sizeof values), memset(plain_values, 'x', sizeof values);
    number = seclang_tokens(s, n, text, text_len, records, records_len, values, values_len);
    plain = seclang_plain_tokens(s, n, plain_text, text_len, plain_records, records_len, plain_values, values_len);
    return plain == number && memcmp(plain_text, text, long_text) == 0 && memcmp(plain_records, records, wide) == 0 &&
           memcmp(plain_values, values, sizeof values) == 0;
}

/* A text with the room that it needs, with more, one byte, word or record short, and none, of each buffer. */
static void check_same(const char *s)
{
    const size_t n = strlen(s), need = tokens(s) == SECLANG_READ ? (size_t)values[0] * SECLANG_TOKEN_WORDS : 0;
    const size_t texts[] = {n, n + 3, n ? n - 1 : 0, 0};
    const size_t words[] = {need, need + 7, need ? need - 1 : 0, need ? need - SECLANG_TOKEN_WORDS : 0, 0};
    const size_t kept[] = {5, SECLANG_VALUES_MOST, 4, 1, 0};
    for (size_t i = 0; i < 4; i++)
        for (size_t j = 0; j < 5; j++)
            for (size_t k = 0; k < 5; k++) check(same(bytes(s), n, texts[i], words[j], kept[k]), s, __LINE__);
}

static void check_lexers(void)
{
    lexer *const both[] = {seclang_tokens, seclang_plain_tokens};
    for (size_t i = 0; i < 2; i++) check_tokens(both[i]), check_awkward(both[i]), check_lexer_numbers(both[i]);
    for (size_t i = 0; i < AWKWARD; i++) check_same(awkward[i].text);
    check_same(rule);
    check_same("a\fb");
    check_same("ab \x80");
    check_same("\xff");
    memset(input, '\\', FULL);
    CHECK(same(input, FULL, FULL, 0, 10) && same(input, FULL, 0, WORDS, 1) && same(input, SECLANG_LIMIT, FULL, 5, 10));
}

static uint64_t step(const char *s, const uint64_t *cursor)
{
    return seclang_next_token(bytes(s), strlen(s), (size_t)cursor[0], (size_t)cursor[1], (size_t)cursor[2],
                              cursor[3] != 0, text, ROOM, values, SECLANG_VALUES_MOST);
}

/* Stepping from the first cursor gives the tokens of the whole. */
static void check_steps(void)
{
    uint64_t whole[6 * SECLANG_TOKEN_WORDS], cursor[4] = {0, 1, 1, true}, count = 0;
    CHECK(tokens(rule) == SECLANG_READ);
    memcpy(whole, records, sizeof whole);
    while (step(rule, cursor) == SECLANG_READ && values[0] == 1 && count < 6) {
        const uint64_t *one = whole + count++ * SECLANG_TOKEN_WORDS;
        CHECK(values[1] == one[0] && values[2] == one[1] && values[3] == one[2] &&
              values[4] == SECLANG_SPAN_OFFSET(one[3]));
        CHECK(values[5] == SECLANG_SPAN_LENGTH(one[4]) && values[6] == values[4] + SECLANG_SPAN_LENGTH(one[3]));
        memcpy(cursor, values + 6, sizeof cursor);
    }
    CHECK(count == 6 && values[0] == 0 && memcmp(values + 1, cursor, sizeof cursor) == 0 && cursor[0] == strlen(rule));
    cursor[0] = 0, cursor[3] = false;
    CHECK(step(rule, cursor) == SECLANG_READ && values[1] == SECLANG_TOKEN_WORD && values[2] == 4);
    cursor[0] = strlen(rule) + 1;
    CHECK(step(rule, cursor) == SECLANG_BAD_CURSOR && values[0] == 0);
}

/* A line or a column of 1 and of the most is read, and the numbers on either side are not. */
static void check_cursors(void)
{
    static const uint64_t edges[] = {0, 1, 1048577, 1048578, UINT32_MAX};
    for (size_t i = 0; i < 5; i++)
        for (size_t j = 0; j < 5; j++) {
            const uint64_t cursor[4] = {0, edges[i], edges[j], true};
            const bool good = 1 <= i && i <= 2 && 1 <= j && j <= 2;
            CHECK(step(rule, cursor) == (good ? SECLANG_READ : SECLANG_BAD_CURSOR));
            CHECK(good ? values[2] == edges[i] && values[3] == edges[j] : values[0] == 0);
        }
}

/* ---- actions */

static void check_actions(void)
{
    CHECK(actions("id:7,phase:2,deny,msg:'a, b'") == SECLANG_READ && first_values(4, 4));
    CHECK(action(0, SECLANG_ACTION_ID, 7, 0, span(0, 4)));
    CHECK(action(1, SECLANG_ACTION_PHASE, 2, 0, span(5, 7)));
    CHECK(action(2, SECLANG_ACTION_DENY, 0, 0, span(13, 4)));
    CHECK(action(3, SECLANG_ACTION_MSG, 0, span(0, 4), span(18, 10)) && shows(action_word(3, 2), "a, b"));
    CHECK(seclang_phase(records, (size_t)values[0] * SECLANG_ACTION_WORDS) == 2);
    CHECK(seclang_grade(records, (size_t)values[0] * SECLANG_ACTION_WORDS));
    CHECK(actions("redirect:'/x',skipAfter:'E'") == SECLANG_READ && shows(action_word(0, 2), "'/x'") &&
          shows(action_word(1, 2), "'E'"));
    CHECK(actions("ctl:a=b=c,initcol:IP=%{x}") == SECLANG_READ && shows(action_word(0, 2), "a") &&
          shows(action_word(0, 3), "b=c") && shows(action_word(1, 3), "%{x}"));
    CHECK(actions("expirevar:a=5,expirevar:b=x,t:none") == SECLANG_READ && action_word(0, 1) == 5 &&
          shows(action_word(0, 2), "a") && action_word(1, 1) == 0);
    CHECK(action(2, SECLANG_ACTION_T, 0, span(2, 4), span(28, 6)) && shows(action_word(2, 2), "none"));
    CHECK(actions("skip:4294967295,status:65535,maturity:255") == SECLANG_READ && action_word(0, 1) == UINT32_MAX &&
          action_word(1, 1) == 65535 && action_word(2, 1) == 255);
    CHECK(actions("id:18446744073709551615") == SECLANG_READ && records[1] == UINT64_MAX);
    CHECK(actions("de\\\nny,\\\n  pass") == SECLANG_READ && first_values(2, 0) &&
          memcmp(scratch, "deny,pass", 10) == 0);
    CHECK(seclang_phase(records, 0) == 2 && seclang_grade(records, 0));
    CHECK(actions("phase:9") == SECLANG_READ && seclang_phase(records, ONE) == 9 && !seclang_grade(records, ONE));
    CHECK(actions("phase:5") == SECLANG_READ && seclang_phase(records, ONE) == 5 && seclang_grade(records, ONE));
    for (records[1] = 0; records[1] <= 300; records[1]++)
        CHECK(seclang_grade(records, ONE) == (1 <= records[1] && records[1] <= 5));
    /* a word less is no record */
    CHECK(seclang_phase(records, ONE - 1) == 2 && seclang_grade(records, ONE - 1));
}

/* The source of a piece is in the list as it is given: over what is taken out of it, and without blanks at its ends. */
static void check_sources(void)
{
    static const uint64_t continued[] = {0, 6, 11, 4}, blank[] = {1, 4, 8, 3}, removed[] = {0, 8, 13, 3};
    static const uint64_t marked[] = {4, 5, 10, 2, 1, 2}, update[] = {4, 2, 0, 3};
    CHECK(SECLANG_AT_ACTION_SOURCE == 6 && SECLANG_AT_VARIABLE_SOURCE == 5);
    CHECK(actions("de\\\nny,\\\n  pass") == SECLANG_READ && sources(records, ONE, 2, continued));
    CHECK(actions(" deny , log") == SECLANG_READ && sources(records, ONE, 2, blank));
    CHECK(actions("de\\\r\n ny,,\\\r\tlog") == SECLANG_READ && sources(records, ONE, 2, removed));
    CHECK(variables(" !a|&TX:k|ip ") == SECLANG_READ && sources(records, SECLANG_VARIABLE_WORDS, 3, marked));
    CHECK(updates("!TX|ip") == SECLANG_READ && sources(records, SECLANG_VARIABLE_WORDS, 2, update));
    CHECK(setvar(" a=1\t") == SECLANG_READ && records[SECLANG_AT_ACTION_SOURCE] == span(1, 3));
    CHECK(setvar("\t \n") == SECLANG_READ && records[SECLANG_AT_ACTION_SOURCE] == span(3, 0));
    CHECK(setvar("") == SECLANG_READ && records[SECLANG_AT_ACTION_SOURCE] == span(0, 0));
    CHECK(setvar("'a'") == SECLANG_READ && records[SECLANG_AT_ACTION_SOURCE] == span(0, 3));
    CHECK(actions("log, bo\\\n gus:1 ") == SECLANG_UNKNOWN_ACTION && spanned_values(1, 5, 5, 10));
    CHECK(actions("log,\\\n id:x") == SECLANG_ARGUMENT_UNREADABLE && spanned_values(1, 2, 7, 4));
    CHECK(variables("TX| &Nope:k |!x") == SECLANG_UNKNOWN_VARIABLE && spanned_values(1, 4, 4, 7));
    CHECK(updates("TX|!x:y") == SECLANG_UNKNOWN_VARIABLE && spanned_values(1, 1, 3, 4));
    CHECK(operator_of(" !@nope a") == SECLANG_UNKNOWN_OPERATOR && spanned_values(3, 4, 3, 4));
    CHECK(operator_of("! @ rx") == SECLANG_UNKNOWN_OPERATOR && spanned_values(3, 0, 3, 0));
}

static bool sets(const char *s, uint64_t kind, int64_t number, const char *collection, const char *key,
                 const char *value)
{
    return setvar(s) == SECLANG_READ && values[0] == 1 && records[0] == SECLANG_ACTION_SETVAR &&
           records[1] == (uint64_t)number && records[4] == kind && shows(records[2], collection) &&
           shows(records[3], key) && (value ? shows(records[5], value) : records[5] == 0);
}

static void check_setvars(void)
{
    CHECK(sets("TX.a=b", SECLANG_VALUE_STRING, 0, "tx", "a", "b"));
    CHECK(sets("a=5", SECLANG_VALUE_INT, 5, "tx", "a", NULL));
    CHECK(sets("ip.a=+5", SECLANG_VALUE_INCREMENT, 5, "ip", "a", NULL));
    CHECK(sets("a=--5", SECLANG_VALUE_DECREMENT, -5, "tx", "a", NULL));
    CHECK(sets("!tx.a", SECLANG_VALUE_DELETE, 0, "tx", "a", NULL));
    CHECK(sets("a=%{b}", SECLANG_VALUE_MACRO, 0, "tx", "a", "%{b}"));
    CHECK(sets("a", SECLANG_VALUE_STRING, 0, "tx", "a", "1") && values[1] == 4);
    CHECK(actions("setvar:'tx.a=5'") == SECLANG_READ && records[0] == SECLANG_ACTION_SETVAR && records[1] == 5 &&
          records[4] == SECLANG_VALUE_INT);
}

/* ---- variables, operators, selectors */

static void check_targets(void)
{
    CHECK(variables("!ARGS:p|args|&TX:/^a/|ip:x") == SECLANG_READ && first_values(4, 9));
    CHECK(target(0, SECLANG_TARGET_VARIABLE, SECLANG_VARIABLE_ARGS, 0, SECLANG_SELECTION_NONE, 0, span(8, 4)));
    CHECK(target(1, SECLANG_TARGET_VARIABLE, SECLANG_VARIABLE_TX, 1, SECLANG_SELECTION_REGEX, span(0, 2), span(13, 8)));
    CHECK(target(2, SECLANG_TARGET_VARIABLE, SECLANG_VARIABLE_IP, 0, SECLANG_SELECTION_KEY, span(2, 1), span(22, 4)));
    CHECK(target(3, SECLANG_TARGET_EXCLUSION, 0, 0, 0, span(3, 6), span(0, 7)) &&
          shows(records[3 * SECLANG_VARIABLE_WORDS + 4], "ARGS:p"));
    CHECK(variables("!x") == SECLANG_READ && first_values(0, 0));
    CHECK(updates("!ARGS:p") == SECLANG_READ && first_values(1, 6) && records[0] == SECLANG_TARGET_EXCLUSION);
    CHECK(updates("TX|!x") == SECLANG_UNKNOWN_VARIABLE && spanned_values(1, 1, 3, 2) && refused_name("x"));
    CHECK(variables("ARGS:/a|b/") == SECLANG_UNKNOWN_VARIABLE && spanned_values(1, 2, 8, 2) && refused_name("b/"));
}

static void check_operators(void)
{
    CHECK(operator_of("!@rx  a b ") == SECLANG_READ && first_values(1, SECLANG_OPERATOR_RX) && values[2] == 6 &&
          values[3] == 3);
    CHECK(operator_of("a b") == SECLANG_READ && first_values(0, SECLANG_OPERATOR_RX) && values[2] == 0 &&
          values[3] == 3);
    CHECK(operator_of("@detectSQLi") == SECLANG_READ && first_values(0, SECLANG_OPERATOR_DETECTSQLI) && values[3] == 0);
    CHECK(operator_of("! @nope x") == SECLANG_UNKNOWN_OPERATOR && spanned_values(3, 4, 3, 4));
    CHECK(seclang_matches(false, 5, 9, 5) && !seclang_matches(false, 5, 9, 6));
    CHECK(seclang_matches(true, 5, 9, 9) && seclang_matches(true, 5, 9, 5) && !seclang_matches(true, 5, 9, 10) &&
          !seclang_matches(true, 9, 5, 7));
}

/* ---- whole directives */

static bool four_values(uint64_t a, uint64_t b, uint64_t c, uint64_t d)
{
    return first_values(a, b) && values[2] == c && values[3] == d;
}

static bool zero_words(const uint64_t *words, size_t n)
{
    for (size_t i = 0; i < n; i++)
        if (words[i] != 0) return false;
    return true;
}

/* Text holds a name, if any, and zeros, and all else that is lent is zero. */
static bool cleared(const char *name)
{
    bool zero = memcmp(text, name, strlen(name)) == 0;
    for (size_t i = strlen(name); i < ROOM; i++) zero = zero && text[i] == 0;
    for (size_t i = 0; i < ROOM; i++) zero = zero && scratch[i] == 0;
    return zero && zero_words(heads, HEADS) && zero_words(targets, TARGETS) && zero_words(acts, ACTS);
}

static bool head(size_t k, const uint64_t *want)
{
    return memcmp(heads + k * SECLANG_DIRECTIVE_WORDS, want, SECLANG_DIRECTIVE_WORDS * sizeof *want) == 0;
}

static void check_directives(void)
{
    const uint64_t rule_words[] = {
        SECLANG_DIRECTIVE_RULE, 1, span(0, 39), 0, 1, SECLANG_OPERATOR_PM, span(2, 1), 0, 3, 0, 1};
    const uint64_t marker[] = {SECLANG_DIRECTIVE_MARKER, 3, span(41, 13), span(7, 1), 0, 0, 0, 3, 0, 1, 0};
    const uint64_t acting[] = {SECLANG_DIRECTIVE_ACTION, 4, span(55, 13), 0, 0, 0, 0, 3, 0, 1, 1};
    const uint64_t defaults[] = {SECLANG_DIRECTIVE_DEFAULTS, 5, span(69, 20), 0, 0, 0, 0, 3, 0, 2, 1};
    static const uint64_t target_sources[] = {11, 4, 16, 4, 8, 2}, act_sources[] = {31, 8, 65, 3, 86, 3};
    const uint64_t unknown[] = {SECLANG_DIRECTIVE_UNKNOWN, 6, span(90, 11), span(8, 7), 0, 0, 0, 3, 0, 3, 0};
    memset(scratch, 'x', ROOM);
    CHECK(directives("SecRule !a|TX:k|ARGS \"!@pm x \" setvar:y\n\nSecMarker 'm'\nSECACTION log\nSecDefaultAction "
                     "log\nInclude a b") == SECLANG_READ);
    CHECK(four_values(5, 3, 3, 15) && memcmp(text, "kaxtxy1mInclude", 16) == 0);
    CHECK(head(0, rule_words) && head(1, marker) && head(2, acting) && head(3, defaults) && head(4, unknown));
    CHECK(heads[5 * SECLANG_DIRECTIVE_WORDS] == 0 && scratch[0] == 0 && scratch[ROOM - 1] == 0);
    CHECK(targets[0] == SECLANG_TARGET_VARIABLE && shows(targets[4], "k") &&
          shows(targets[2 * SECLANG_VARIABLE_WORDS + 4], "a"));
    CHECK(sources(targets, SECLANG_VARIABLE_WORDS, 3, target_sources) && sources(acts, ONE, 3, act_sources));
    CHECK(acts[0] == SECLANG_ACTION_SETVAR && shows(acts[2], "tx") && shows(acts[3], "y") && shows(acts[5], "1"));
    CHECK(shows(heads[SECLANG_AT_ARGUMENT], "x") && heads[SECLANG_AT_OPERATOR] == SECLANG_OPERATOR_PM &&
          heads[SECLANG_AT_NEGATED] == 1 && heads[SECLANG_AT_VARIABLES] == 3 && heads[SECLANG_AT_ACTIONS] == 1);
    CHECK(shows(heads[SECLANG_DIRECTIVE_WORDS + SECLANG_AT_NAME], "m") &&
          heads[SECLANG_DIRECTIVE_WORDS + SECLANG_AT_FIRST_VARIABLE] == 3 &&
          heads[SECLANG_DIRECTIVE_WORDS + SECLANG_AT_FIRST_ACTION] == 1);
    CHECK(heads[SECLANG_AT_KIND] == SECLANG_DIRECTIVE_RULE && heads[SECLANG_AT_LINE] == 1 &&
          SECLANG_SPAN_LENGTH(heads[SECLANG_AT_SPAN]) == 39);
    CHECK(directives("SecAction phase:5") == SECLANG_READ && four_values(1, 0, 1, 0) && seclang_grade(acts, ONE));
    CHECK(directives("SecAction phase:100") == SECLANG_READ && four_values(1, 0, 1, 0) && !seclang_grade(acts, ONE));
    CHECK(directives("") == SECLANG_READ && four_values(0, 0, 0, 0) && cleared(""));
}

/* A package's records are underlined there, over what lexer and normaliser take out: an escape that is read is two
 * bytes for one, and one that keeps its backslash two for two. */
static void check_package_sources(void)
{
    static const uint64_t kept[] = {11, 6, 18, 4}, read[] = {13, 4, 20, 3}, continued[] = {11, 9};
    static const uint64_t made[] = {11, 4, 20, 3}, whole[] = {11, 9}, bare[] = {10, 6, 20, 3}, marked[] = {13, 5, 20, 4, 9, 2};
    CHECK(directives("SecAction \"msg:a\\,deny\"") == SECLANG_READ && sources(acts, ONE, 2, kept));
    CHECK(directives("SecAction \"\\tdeny\\n,log \"") == SECLANG_READ && sources(acts, ONE, 2, read));
    CHECK(directives("SecAction \"de\\\\\n  ny\"") == SECLANG_READ && sources(acts, ONE, 1, continued));
    CHECK(directives("SecAction \"deny\\\\\\n,log\"") == SECLANG_READ && sources(acts, ONE, 2, made));
    CHECK(directives("SecAction \"msg:\\\"a\\\"\"") == SECLANG_READ && sources(acts, ONE, 1, whole));
    CHECK(directives("SecAction de\\\nny,\\\r\nlog") == SECLANG_READ && sources(acts, ONE, 2, bare));
    CHECK(directives("SecRule \"!a| &TX:k |ARGS\" a") == SECLANG_READ &&
          sources(targets, SECLANG_VARIABLE_WORDS, 3, marked));
}

static void check_faults(void)
{
    CHECK(directives("SecRule ARGS\f") == SECLANG_WRONG_COUNT && values[0] == 1 && cleared(""));
    CHECK(directives("SecRule ARGS \"@rx a\" \\\n# why\n\"deny\"") == SECLANG_UNTAKEN && values[0] == 3 && cleared(""));
    CHECK(directives("SecAction deny\n\f") == SECLANG_STOPPED && values[0] == 2 && cleared(""));
    CHECK(directives("SecAction Bogus\nSecRule x") == SECLANG_UNKNOWN_ACTION &&
          four_values(1, 0, 5, span(10, 5)) && cleared("bogus"));
    CHECK(directives("\nSecAction log,skipafter") == SECLANG_ARGUMENT_ABSENT &&
          four_values(2, 1, 9, span(15, 9)) && cleared("skipAfter"));
    CHECK(directives("SecRule TX|&Nope a") == SECLANG_UNKNOWN_VARIABLE && four_values(1, 1, 4, span(11, 5)) &&
          cleared("Nope"));
    CHECK(directives("SecRule ARGS \"\\t!@x\"") == SECLANG_UNKNOWN_OPERATOR && four_values(1, 3, 1, span(18, 1)) &&
          cleared(""));
    CHECK(directives("SecRule ARGS \"@a\\\n  b c\"") == SECLANG_UNKNOWN_OPERATOR &&
          four_values(1, 1, 2, span(15, 6)) && cleared(""));
    CHECK(directives("SecRule ARGS \"\\t@ x\"") == SECLANG_UNKNOWN_OPERATOR && four_values(1, 2, 0, span(17, 0)));
    CHECK(directives("SecAction \"log,\\tid\\\\\n :x \"") == SECLANG_ARGUMENT_UNREADABLE &&
          four_values(1, 1, 2, span(17, 8)) && cleared("id"));
}

/* ---- arguments of actions */

/* What a list is refused with, alone and in a package, there in quotation marks where a word would end within it. Its
 * last piece is the bad one. */
static void check_flaw(uint64_t number, const char *list, uint64_t piece, const char *name)
{
    const char *mark = strpbrk(list, "' ") ? "\"" : "", *comma = strrchr(list, ',');
    const uint64_t at = comma ? (uint64_t)(comma + 1 - list) : 0, len = strlen(list) - at, n = strlen(name);
    char package[160];
    snprintf(package, sizeof package, "SecAction %s%s%s", mark, list, mark);
    check(actions(list) == number && spanned_values(piece, n, at, len) && refused_name(name), list, __LINE__);
    check(directives(package) == number && four_values(1, piece, n, span(10 + strlen(mark) + at, len)) && cleared(name),
          package, __LINE__);
}

/* An action that reads a number: its largest is read, and the next one and those past every width are too large. */
static void check_width(const char *name, const char *most, const char *past)
{
    const char *unreadable[] = {":",   ":+",   ":-",   ":-1", ":-99999999999999999999", ":99999999999999999999x",
                                ":''", ":++1", ":1 2", ":x1"};
    check(actions(with(name, ":+00", most)) == SECLANG_READ && values[0] == 1, name, __LINE__);
    check_flaw(SECLANG_ARGUMENT_ABSENT, name, 0, name);
    for (size_t i = 0; i < sizeof unreadable / sizeof *unreadable; i++)
        check_flaw(SECLANG_ARGUMENT_UNREADABLE, with(name, unreadable[i], ""), 0, name);
    check_flaw(SECLANG_ARGUMENT_UNREADABLE, with("log,,", name, ":"), 1, name);
    check_flaw(SECLANG_ARGUMENT_TOO_LARGE, with(name, ":", past), 0, name);
    check_flaw(SECLANG_ARGUMENT_TOO_LARGE, with(name, ":00", past), 0, name);
    check_flaw(SECLANG_ARGUMENT_TOO_LARGE, with(name, ":+99999999999999999999", ""), 0, name);
}

static void check_widths(void)
{
    check_width("id", "18446744073709551615", "18446744073709551616");
    check_width("skip", "4294967295", "4294967296");
    check_width("status", "65535", "65536");
    check_width("phase", "255", "256");
    check_width("maturity", "255", "256");
    check_width("accuracy", "255", "256");
    check_width("severity", "255", "256");
}

static void check_flaws(void)
{
    const char *texts[] = {"redirect", "skipAfter", "setvar", "ctl", "initcol"};
    for (size_t i = 0; i < 5; i++) {
        check_flaw(SECLANG_ARGUMENT_ABSENT, texts[i], 0, texts[i]);
        CHECK(actions(with("", texts[i], ":")) == SECLANG_READ && values[0] == 1);
    }
    check_flaw(SECLANG_ARGUMENT_ABSENT, "log,SkipAfter", 1, "skipAfter");
    check_flaw(SECLANG_ARGUMENT_UNREADABLE, "id:'1'", 0, "id");
    check_flaw(SECLANG_ARGUMENT_UNREADABLE, "phase:logging", 0, "phase");
    check_flaw(SECLANG_ARGUMENT_UNREADABLE, "severity:fatal", 0, "severity");
    check_flaw(SECLANG_ARGUMENT_TOO_LARGE, "severity:300", 0, "severity");
    check_flaw(SECLANG_ARGUMENT_TOO_LARGE, "severity:'300'", 0, "severity");
    CHECK(directives("SecAction expirevar:a=99999999999999999999,setvar:b=+99999999999999999999") == SECLANG_READ &&
          four_values(1, 0, 2, 4));
    CHECK(acts[0] == SECLANG_ACTION_EXPIREVAR && acts[1] == 0);
    CHECK(acts[SECLANG_ACTION_WORDS + 1] == 1 && acts[SECLANG_ACTION_WORDS + 4] == SECLANG_VALUE_INCREMENT);
}

/* Too little of each buffer in turn: 3 touches nothing, 4 has all three counts. */
static void check_lent(void)
{
    const uint8_t *s = bytes("SecRule ARGS a deny");
    for (size_t lack = 0; lack < 3; lack++) {
        memset(acts, 1, sizeof acts);
        CHECK(seclang_directives(s, 19, false, text, 19, scratch, 19, heads, SECLANG_DIRECTIVE_WORDS - (lack == 0),
                                 targets, SECLANG_VARIABLE_WORDS - (lack == 1), acts, ONE - (lack == 2), values,
                                 10) == SECLANG_NO_ROOM &&
              first_values(1, 1) && values[2] == 1 && acts[0] == 0 && text[0] == 0);
    }
    memset(text, 'x', ROOM);
    memset(scratch, 'x', ROOM);
    CHECK(seclang_directives(s, 19, false, text, 18, scratch, 19, heads, 0, targets, 0, acts, 0, values, 10) ==
              SECLANG_SHORT_BUFFER &&
          values[0] == 0 && text[0] == 'x');
    CHECK(seclang_directives(s, 19, false, text, 19, scratch, 18, heads, 0, targets, 0, acts, 0, values, 10) ==
              SECLANG_SHORT_BUFFER &&
          scratch[0] == 'x');
    CHECK(seclang_directives(s, 19, false, text, 19, scratch, 19, heads, SECLANG_DIRECTIVE_WORDS, targets,
                             SECLANG_VARIABLE_WORDS, acts, ONE, values, 4) == SECLANG_READ &&
          four_values(1, 1, 1, 1) && text[0] == 'a' && text[1] == 0 && text[19] == 'x' && scratch[19] == 'x');
}

/* ---- listings */

static bool wrote(const char *s)
{
    return values[0] == strlen(s) && memcmp(out, s, strlen(s)) == 0 && out[strlen(s)] == 0;
}

static uint64_t list(const char *s)
{
    return seclang_list_text(bytes(s), strlen(s), text, ROOM, records, WORDS, out, LINE, values, SECLANG_VALUES_MOST);
}

static void check_listings(void)
{
    CHECK(list("SecRule ARGS \"@rx a\" # x\n") == SECLANG_READ);
    CHECK(wrote(
        "[[\"directive\",1,1,\"SecRule\"],[\"word\",1,9,\"ARGS\"],[\"string\",1,14,\"@rx a\"],[\"comment\",1,22]]\n"));
    CHECK(list("SecRule \xc3\xa9") == SECLANG_READ && wrote("[2,8]\n"));
    CHECK(list("a\f") == SECLANG_READ && wrote("[[\"word\",1,1,\"a\"],[\"stopped\",1,2]]\n"));
    CHECK(seclang_list_text(bytes("a"), 1, text, 1, records, 5, out, 18, values, 10) == SECLANG_NO_ROOM &&
          values[0] == 19 && out[0] == 0);
    CHECK(tokens("a") == SECLANG_READ);
    CHECK(seclang_write_listing(records, 5, text, 1, true, 3, 4, out, LINE, values, 10) == SECLANG_READ);
    CHECK(wrote("[[\"word\",1,1,\"a\"],[\"stopped\",3,4]]"));
    CHECK(seclang_write_listing(records, 5, text, 1, false, 3, 4, out, LINE, values, 10) == SECLANG_READ &&
          wrote("[[\"word\",1,1,\"a\"]]"));
    records[0] = 6;
    CHECK(seclang_write_listing(records, 5, text, 1, false, 0, 0, out, LINE, values, 10) == SECLANG_NO_TOKEN &&
          values[0] == 0);
    CHECK(SECLANG_NO_TOKEN == SECLANG_NOT_WRITTEN);
    CHECK(seclang_write_refusal(1, SECLANG_LIMIT, out, LINE, values, 10) == SECLANG_READ && wrote("[1,1048576]"));
    CHECK(seclang_write_refusal(1, SECLANG_LIMIT, out, 10, values, 10) == SECLANG_NO_ROOM && values[0] == 11);
}

/* ---- numbers, and what is left of lent memory */

static void check_numbers(void)
{
    uint64_t few[4] = {77, 77, 77, 77};
    CHECK(operator_of("a\x80") == SECLANG_NOT_ASCII && values[0] == 1);
    CHECK(seclang_parse_actions(bytes("deny"), 4, text, 4, scratch, 3, records, ONE, values, 10) ==
              SECLANG_SHORT_BUFFER &&
          values[0] == 0);
    CHECK(seclang_parse_setvar(bytes("a"), 1, text, 3, records, ONE, values, 10) == SECLANG_SHORT_BUFFER);
    CHECK(seclang_parse_actions(bytes("deny,pass"), 9, text, 9, scratch, 9, records, 2 * ONE - 1, values, 10) ==
              SECLANG_NO_ROOM &&
          values[0] == 2 && records[0] == 0);
    CHECK(actions("deny,,BOGUS,phase:x") == SECLANG_UNKNOWN_ACTION && spanned_values(1, 5, 6, 5) &&
          refused_name("bogus"));
    CHECK(actions("deny,SKIPAFTER") == SECLANG_ARGUMENT_ABSENT && spanned_values(1, 9, 5, 9) &&
          refused_name("skipAfter"));
    CHECK(seclang_next_token(bytes("a"), 1, 0, 1, 1, true, text, 1, values, SECLANG_VALUES_MOST) == SECLANG_READ);
    CHECK(values[0] == 1 && values[SECLANG_VALUES_MOST - 1] == 0);
    values[0] = 77;
    CHECK(seclang_next_token(bytes("a"), 1, 0, 1, 1, true, text, 1, values, SECLANG_VALUES_MOST - 1) == SECLANG_READ);
    CHECK(values[0] == 77);
    CHECK(seclang_parse_operator(bytes("@rx a"), 5, few, 3) == SECLANG_READ && few[0] == 77 && few[2] == 77);
    CHECK(seclang_parse_operator(bytes("@x"), 2, few, 2) == SECLANG_UNKNOWN_OPERATOR && few[0] == 77 && few[1] == 77);
    CHECK(seclang_parse_operator(bytes("@x"), 2, few, 4) == SECLANG_UNKNOWN_OPERATOR && few[0] == 1 && few[1] == 1 &&
          few[2] == span(1, 1) && few[3] == 77);
}

/* ---- span words of before */

typedef uint64_t conversion(uint64_t, uint64_t *, size_t);

/* What a conversion gives: the number, and one value where it fits, with nothing else touched. */
static bool gives(conversion *convert, uint64_t word, uint64_t number, uint64_t value)
{
    uint64_t few[3] = {77, 77, 77};
    const bool kept = convert(word, few, 0) == number && few[0] == 77;
    return kept && convert(word, few, 2) == number && few[0] == value && few[1] == 77 && few[2] == 77;
}

static void check_conversions(void)
{
    static const uint64_t halves[] = {0, 1, 2, 255, 256, 32767, 32768, 65534, 65535};
    static const uint64_t past[] = {65536, 65537, 131071, 1048576, UINT64_C(4294967295)};
    CHECK(SECLANG_SPAN_BASE == UINT64_C(4294967296) && SECLANG_OLD_SPAN_BASE == 65536 &&
          SECLANG_OLD_SPAN_MOST == 65535);
    for (size_t i = 0; i < 9; i++)
        for (size_t j = 0; j < 9; j++) {
            const uint64_t old = halves[i] * SECLANG_OLD_SPAN_BASE + halves[j], now = span(halves[i], halves[j]);
            CHECK(gives(seclang_span_from_old, old, SECLANG_READ, now));
            CHECK(gives(seclang_span_to_old, now, SECLANG_READ, old));
        }
    for (size_t i = 0; i < 5; i++)
        for (size_t j = 0; j < 9; j++) {
            CHECK(gives(seclang_span_from_old, past[i] * SECLANG_OLD_SPAN_BASE + halves[j], SECLANG_TOO_FAR, 0));
            CHECK(gives(seclang_span_to_old, span(past[i], halves[j]), SECLANG_TOO_FAR, 0));
            CHECK(gives(seclang_span_to_old, span(halves[j], past[i]), SECLANG_TOO_FAR, 0));
        }
    /* a word that a record does not use */
    CHECK(seclang_span_from_old(0, values, 1) == SECLANG_READ && values[0] == 0);
    CHECK(seclang_span_to_old(0, values, 1) == SECLANG_READ && values[0] == 0);
    CHECK(gives(seclang_span_from_old, UINT64_C(4294967296), SECLANG_TOO_FAR, 0));
    CHECK(gives(seclang_span_from_old, UINT64_MAX, SECLANG_TOO_FAR, 0));
    CHECK(gives(seclang_span_to_old, UINT64_MAX, SECLANG_TOO_FAR, 0));
}

/* ---- an input at the limit, and one byte more */

/* A word as long as the limit is one token. */
static void check_long_word(lexer *lex)
{
    memset(input, 'x', FULL);
    CHECK(lex(input, SECLANG_LIMIT, text, SECLANG_LIMIT, records, SECLANG_TOKEN_WORDS, values, 10) == SECLANG_READ);
    CHECK(first_values(1, SECLANG_LIMIT) && values[2] == SECLANG_LIMIT && values[3] == 1 &&
          values[4] == SECLANG_CURSOR_MOST);
    CHECK(token(0, SECLANG_TOKEN_WORD, 1, 1, span(0, SECLANG_LIMIT), span(0, SECLANG_LIMIT)));
    CHECK(memcmp(text, input, SECLANG_LIMIT) == 0);
}

/* Line feeds up to a last directive that ends at the limit. */
static uint64_t last_of_package(const char *s, bool from_2_7)
{
    const size_t n = strlen(s), at = SECLANG_LIMIT - n;
    memset(input, '\n', at);
    memcpy(input + at, s, n);
    return seclang_directives(input, SECLANG_LIMIT, from_2_7, text, SECLANG_LIMIT, scratch, SECLANG_LIMIT, heads, HEADS,
                              targets, TARGETS, acts, ACTS, values, SECLANG_VALUES_MOST);
}

static uint64_t last_directive(const char *s) { return last_of_package(s, false); }

/* Its line, and the spans of what was read and of what was refused, past all that an old span word could tell. */
static void check_long_package(void)
{
    const uint64_t most = SECLANG_LIMIT;
    CHECK(last_directive("SecRule TX a log,deny") == SECLANG_READ && four_values(1, 1, 2, 1));
    CHECK(heads[SECLANG_AT_LINE] == most - 20 && heads[SECLANG_AT_SPAN] == span(most - 21, 21));
    CHECK(targets[SECLANG_AT_VARIABLE_SOURCE] == span(most - 13, 2));
    CHECK(acts[SECLANG_AT_ACTION_SOURCE] == span(most - 8, 3) &&
          acts[ONE + SECLANG_AT_ACTION_SOURCE] == span(most - 4, 4));
    CHECK(last_directive("SecAction log,bogus") == SECLANG_UNKNOWN_ACTION &&
          four_values(most - 18, 1, 5, span(most - 5, 5)));
    CHECK(last_directive("SecRule TX @x") == SECLANG_UNKNOWN_OPERATOR &&
          four_values(most - 12, 1, 1, span(most - 1, 1)));
    CHECK(last_directive("SecRule x") == SECLANG_WRONG_COUNT && values[0] == most - 8);
    CHECK(last_of_package("SecAction deny", true) == SECLANG_ID_MISSING && values[0] == most - 13);
    CHECK(last_of_package("SecAction id:7", true) == SECLANG_READ && four_values(1, 0, 1, 0));
}

static bool painted(const void *at, size_t n)
{
    const uint8_t *byte = (const uint8_t *)at;
    return byte[0] == 'x' && memcmp(byte, byte + 1, n - 1) == 0;
}

/* Whether a number is 1 with the limit, and all that was lent is as it was. */
static bool too_long(uint64_t number)
{
    const bool told = number == SECLANG_TOO_LONG && values[0] == SECLANG_LIMIT;
    values[0] = 77;
    return told && painted(text, sizeof text) && painted(scratch, sizeof scratch) && painted(records, sizeof records) &&
           painted(heads, sizeof heads) && painted(targets, sizeof targets) && painted(acts, sizeof acts);
}

static void check_too_long(void)
{
    memset(input, 'x', FULL), memset(text, 'x', sizeof text), memset(scratch, 'x', sizeof scratch);
    memset(records, 'x', sizeof records), memset(heads, 'x', sizeof heads);
    memset(targets, 'x', sizeof targets), memset(acts, 'x', sizeof acts);
    CHECK(too_long(seclang_tokens(input, FULL, text, FULL, records, FULL_WORDS, values, 10)));
    CHECK(too_long(seclang_plain_tokens(input, FULL, text, FULL, records, FULL_WORDS, values, 10)));
    CHECK(too_long(seclang_next_token(input, FULL, 0, 1, 1, true, text, FULL, values, 10)));
    for (int from_2_7 = 0; from_2_7 < 2; from_2_7++)
        CHECK(too_long(seclang_directives(input, FULL, from_2_7, text, FULL, scratch, FULL, heads, HEADS_IN(FULL),
                                          targets, TARGETS_IN(FULL), acts, ACTS_IN(FULL), values, 10)));
    CHECK(too_long(seclang_parse_actions(input, FULL, text, FULL, scratch, FULL, records, FULL_WORDS, values, 10)));
    CHECK(too_long(seclang_parse_setvar(input, FULL, text, FULL + 3, records, FULL_WORDS, values, 10)));
    CHECK(too_long(seclang_parse_variables(input, FULL, text, FULL, records, FULL_WORDS, values, 10)));
    CHECK(too_long(seclang_parse_update_targets(input, FULL, text, FULL, records, FULL_WORDS, values, 10)));
    CHECK(too_long(seclang_parse_operator(input, FULL, values, 10)));
    CHECK(seclang_list_text(input, FULL, text, FULL, records, FULL_WORDS, out, LINE, values, 10) == SECLANG_READ &&
          wrote("[1,1048576]\n"));
    values[0] = SECLANG_LIMIT;
    CHECK(too_long(SECLANG_TOO_LONG));
}

static void check_limit(void)
{
    CHECK(SECLANG_LIMIT == 1048576 && SECLANG_CURSOR_MOST == 1048577);
    check_long_word(seclang_tokens), check_long_word(seclang_plain_tokens);
    check_long_package();
    check_too_long();
}

/* ---- an index of ids */

/* More words than most cases lend; a word that is not lent is painted. */
enum { LENT = 8 };
static uint64_t ids[LENT], wanted[LENT];

#define HIGH (UINT64_C(1) << 32)
#define HALF (UINT64_C(1) << 31)

static void lay(uint64_t *to, const uint64_t *words, size_t len)
{
    memset(to, 'x', sizeof ids);
    memcpy(to, words, len * sizeof *words);
}

/* Whether an index of so many words is this one, and nothing behind it was touched. */
static bool stands(const uint64_t *words, size_t len)
{
    lay(wanted, words, len);
    return memcmp(ids, wanted, sizeof ids) == 0;
}

static uint64_t add_by(const uint64_t *list, size_t words, uint64_t line, size_t len)
{
    memset(values, 'x', sizeof values);
    return seclang_index_add(ids, len, list, words, line, values, SECLANG_VALUES_MOST);
}

static uint64_t add_id(uint64_t id, uint64_t line, size_t len)
{
    const uint64_t list[ONE] = {SECLANG_ACTION_ID, id, 0, 0, 0, 0, 0};
    return add_by(list, ONE, line, len);
}

static uint64_t remove_ids(bool ranged, uint64_t start, uint64_t end, size_t len)
{
    memset(values, 'x', sizeof values);
    return seclang_index_remove(ids, len, ranged, start, end, values, SECLANG_VALUES_MOST);
}

/* Whether the values are these, two with 0 and else one, and no other was touched. */
static bool valued(uint64_t number, uint64_t a, uint64_t b)
{
    const size_t n = number == SECLANG_READ ? 2 : 1;
    return values[0] == a && (n == 1 || values[1] == b) && painted(values + n, sizeof values - n * sizeof *values);
}

/* So many words as an index, an id and a line to add; the number, its values, and the words afterwards. */
static const struct adding {
    size_t len;
    uint64_t before[LENT], id, line, number, a, b, after[LENT];
} addings[] = {
    {1, {0}, 7, 4, SECLANG_INDEX_FULL, 0, 0, {0}},
    {2, {0, 0}, 7, 4, SECLANG_INDEX_FULL, 0, 0, {0, 0}},
    {3, {1, 7, 4}, 7, 9, SECLANG_ID_TAKEN, 4, 0, {1, 7, 4}},
    {3, {1, 7, 4}, 9, 9, SECLANG_INDEX_FULL, 1, 0, {1, 7, 4}},
    {4, {1, 7, 4, 0}, 9, 9, SECLANG_INDEX_FULL, 1, 0, {1, 7, 4, 0}},
    {5, {2, 5, 1, 9, 2}, 7, 9, SECLANG_INDEX_FULL, 2, 0, {2, 5, 1, 9, 2}},
    {5, {1, 0, 9, 0, 0}, 0, 3, SECLANG_ID_TAKEN, 9, 0, {1, 0, 9, 0, 0}},
    {3, {1, 7, 0}, 7, 3, SECLANG_ID_TAKEN, 0, 0, {1, 7, 0}},
    {3, {1, 7, UINT64_MAX}, 7, 3, SECLANG_ID_TAKEN, UINT64_MAX, 0, {1, 7, UINT64_MAX}},
    /* the first, and one before, between and behind others */
    {3, {0, 0, 0}, 0, 0, SECLANG_READ, 1, 1, {1, 0, 0}},
    {6, {1, 7, 4, 0, 0, 0}, 5, UINT64_MAX, SECLANG_READ, 1, 2, {2, 5, UINT64_MAX, 7, 4, 0}},
    {7, {2, 5, 1, 9, 2, 0, 0}, 7, 3, SECLANG_READ, 1, 3, {3, 5, 1, 7, 3, 9, 2}},
    {5, {1, 7, 4, 0, 0}, UINT64_MAX, 3, SECLANG_READ, 1, 2, {2, 7, 4, UINT64_MAX, 3}},
    /* ids that a narrower field takes for one */
    {5, {1, 7, 4, 0, 0}, 7 + HALF, 5, SECLANG_READ, 1, 2, {2, 7, 4, 7 + HALF, 5}},
    {5, {1, 7, 4, 0, 0}, 7 + HIGH, 5, SECLANG_READ, 1, 2, {2, 7, 4, 7 + HIGH, 5}},
    {5, {1, 7 + HIGH, 4, 0, 0}, 7, 5, SECLANG_READ, 1, 2, {2, 7, 5, 7 + HIGH, 4}},
    {3, {1, 7 + HIGH, 4}, 7, 5, SECLANG_INDEX_FULL, 1, 0, {1, 7 + HIGH, 4}},
    {3, {1, 7 + HIGH, 4}, 7 + HIGH, 5, SECLANG_ID_TAKEN, 4, 0, {1, 7 + HIGH, 4}},
    {3, {1, UINT64_MAX, 4}, UINT32_MAX, 5, SECLANG_INDEX_FULL, 1, 0, {1, UINT64_MAX, 4}},
};

/* So many words as an index, and a selector; the rules removed, those left, and the words afterwards. */
static const struct removing {
    size_t len;
    uint64_t before[LENT];
    bool ranged;
    uint64_t start, end, a, b, after[LENT];
} removings[] = {
    {5, {2, 5, 1, 9, 2}, false, 5, 0, 1, 1, {1, 9, 2, 0, 0}},
    {5, {2, 5, 1, 9, 2}, false, 5, UINT64_MAX, 1, 1, {1, 9, 2, 0, 0}},
    {5, {2, 5, 1, 9, 2}, false, 7, 0, 0, 2, {2, 5, 1, 9, 2}},
    {8, {3, 5, 1, 7, 3, 9, 2, 0}, false, 7, 0, 1, 2, {2, 5, 1, 9, 2, 0, 0, 0}},
    {5, {2, 5, 1, 9, 2}, true, 9, 5, 0, 2, {2, 5, 1, 9, 2}},
    {5, {2, 5, 1, 9, 2}, true, 5, 9, 2, 0, {0, 0, 0, 0, 0}},
    {5, {2, 5, 1, 9, 2}, true, 6, 8, 0, 2, {2, 5, 1, 9, 2}},
    {5, {2, 5, 1, 9, 2}, true, 9, 9, 1, 1, {1, 5, 1, 0, 0}},
    {5, {2, 0, 1, UINT64_MAX, 2}, true, 0, UINT64_MAX, 2, 0, {0, 0, 0, 0, 0}},
    {5, {2, 7, 1, 7 + HIGH, 2}, false, 7, 0, 1, 1, {1, 7 + HIGH, 2, 0, 0}},
    {5, {2, 7, 1, 7 + HIGH, 2}, true, 8, HIGH + 6, 0, 2, {2, 7, 1, 7 + HIGH, 2}},
    {1, {0}, true, 0, UINT64_MAX, 0, 0, {0}},
    {2, {0, 0}, false, 0, 0, 0, 0, {0, 0}},
};

/* Words that are no index: none, a word beyond, ids that do not ascend, a count past the places. */
static const struct no_index {
    size_t len;
    uint64_t words[LENT];
} no_indexes[] = {
    {0, {0}},
    {2, {0, 1}},
    {3, {0, 0, 1}},
    {5, {0, 0, 0, 5, 0}},
    {6, {1, 7, 4, 0, 0, 9}},
    {5, {2, 5, 1, 5, 2}},
    {5, {2, 9, 1, 5, 2}},
    {5, {2, 5 + HIGH, 1, 9, 2}},
    {1, {1}},
    {2, {1, 7}},
    {3, {2, 5, 1}},
    {3, {HIGH, 0, 0}},
    {3, {UINT64_C(1) << 63, 0, 0}},
    {3, {UINT64_MAX, 5, 1}},
};

static const char *nth(const char *what, size_t k)
{
    static char said[64];
    snprintf(said, sizeof said, "%s, row %zu", what, k);
    return said;
}

static void check_index_rows(void)
{
    for (size_t k = 0; k < sizeof addings / sizeof *addings; k++) {
        const struct adding *r = addings + k;
        lay(ids, r->before, r->len);
        check(add_id(r->id, r->line, r->len) == r->number && valued(r->number, r->a, r->b) && stands(r->after, r->len),
              nth("adding", k), __LINE__);
    }
    for (size_t k = 0; k < sizeof removings / sizeof *removings; k++) {
        const struct removing *r = removings + k;
        lay(ids, r->before, r->len);
        check(remove_ids(r->ranged, r->start, r->end, r->len) == SECLANG_READ && valued(SECLANG_READ, r->a, r->b) &&
                  stands(r->after, r->len),
              nth("removing", k), __LINE__);
    }
}

static bool is_no_index(uint64_t number) { return number == SECLANG_NO_INDEX && valued(number, 0, 0); }

/* Refused by either call, whatever it is asked. */
static void check_no_index(void)
{
    for (size_t k = 0; k < sizeof no_indexes / sizeof *no_indexes; k++) {
        const uint64_t *words = no_indexes[k].words;
        const size_t len = no_indexes[k].len;
        lay(ids, words, len);
        check(is_no_index(add_id(5, 1, len)) && is_no_index(add_by(records, 0, 1, len)), nth("adding to no index", k),
              __LINE__);
        check(is_no_index(remove_ids(false, 5, 0, len)) && is_no_index(remove_ids(true, 0, UINT64_MAX, len)),
              nth("removing from no index", k), __LINE__);
        check(stands(words, len), nth("no index", k), __LINE__);
    }
}

/* A rule goes by its first id; what is no whole record, and records of any other code, are passed over. */
static void check_first_ids(void)
{
    static const uint64_t none[LENT] = {0}, nine[] = {1, 9, 3, 0, 0}, seven[] = {1, 7, 3, 0, 0};
    static const uint64_t odd[3 * ONE] = {0, 3, 0, 0, 0, 0, 0, 33, 4, 0, 0, 0, 0, 0, SECLANG_ACTION_ID, 7};
    lay(ids, none, 5);
    CHECK(actions("deny,phase:1") == SECLANG_READ && add_by(records, 2 * ONE, 3, 5) == SECLANG_READ);
    CHECK(valued(SECLANG_READ, 0, 0) && stands(none, 5));
    CHECK(add_by(records, 0, 3, 1) == SECLANG_READ && valued(SECLANG_READ, 0, 0));
    CHECK(actions("id:9,id:7") == SECLANG_READ && add_by(records, ONE - 1, 3, 5) == SECLANG_READ);
    CHECK(valued(SECLANG_READ, 0, 0) && stands(none, 5));
    CHECK(add_by(records, 2 * ONE, 3, 5) == SECLANG_READ && valued(SECLANG_READ, 1, 1) && stands(nine, 5));
    CHECK(add_by(records, ONE + 1, 4, 5) == SECLANG_ID_TAKEN && valued(SECLANG_ID_TAKEN, 3, 0) && stands(nine, 5));
    CHECK(actions("deny") == SECLANG_READ && add_by(records, ONE, 4, 3) == SECLANG_READ);
    CHECK(valued(SECLANG_READ, 0, 1) && stands(nine, 5));
    lay(ids, none, 5);
    CHECK(add_by(odd, 3 * ONE, 3, 5) == SECLANG_READ && valued(SECLANG_READ, 1, 1) && stands(seven, 5));
}

/* Values that do not fit are not stored; the index is as with room for them. */
static void check_index_values(void)
{
    static const uint64_t none[LENT] = {0}, seven[] = {1, 7, 3}, list[ONE] = {SECLANG_ACTION_ID, 7, 0, 0, 0, 0, 0};
    static const uint64_t other[ONE] = {SECLANG_ACTION_ID, 9, 0, 0, 0, 0, 0};
    uint64_t few[2] = {77, 77};
    lay(ids, none, 3);
    CHECK(seclang_index_add(ids, 3, list, ONE, 3, few, 1) == SECLANG_READ && few[0] == 77 && stands(seven, 3));
    CHECK(seclang_index_add(ids, 3, list, ONE, 4, few, 0) == SECLANG_ID_TAKEN && few[0] == 77);
    CHECK(seclang_index_add(ids, 3, other, ONE, 4, few, 0) == SECLANG_INDEX_FULL && few[0] == 77);
    CHECK(seclang_index_add(ids, 0, list, ONE, 4, few, 0) == SECLANG_NO_INDEX && few[0] == 77 && stands(seven, 3));
    CHECK(seclang_index_remove(ids, 0, false, 7, 0, few, 0) == SECLANG_NO_INDEX && few[0] == 77 && stands(seven, 3));
    CHECK(seclang_index_remove(ids, 3, false, 7, 0, few, 1) == SECLANG_READ && few[0] == 77 && stands(none, 3));
}

/* Full, one removed and another added: the same words as built afresh, in another order. */
static void check_freed_places(void)
{
    static const uint64_t none[LENT] = {0};
    uint64_t afresh[5];
    lay(ids, none, 5);
    CHECK(add_id(5, 1, 5) == SECLANG_READ && add_id(3, 8, 5) == SECLANG_READ && valued(SECLANG_READ, 1, 2));
    memcpy(afresh, ids, sizeof afresh);
    lay(ids, none, 5);
    CHECK(add_id(9, 2, 5) == SECLANG_READ && add_id(5, 1, 5) == SECLANG_READ);
    CHECK(add_id(3, 8, 5) == SECLANG_INDEX_FULL && valued(SECLANG_INDEX_FULL, 2, 0));
    CHECK(remove_ids(false, 9, 0, 5) == SECLANG_READ && valued(SECLANG_READ, 1, 1));
    CHECK(add_id(3, 8, 5) == SECLANG_READ && valued(SECLANG_READ, 1, 2) && stands(afresh, 5));
}

/* The rules of a package by the records that their directives tell, a second rule of one id among them. */
static void check_package_index(void)
{
    static const uint64_t none[LENT] = {0}, both[] = {2, 7, 2, 4294967303, 1, 0, 0};
    static const uint64_t numbers[] = {SECLANG_READ, SECLANG_READ, SECLANG_READ, SECLANG_ID_TAKEN};
    static const char s[] = "SecAction log,id:4294967303\nSecRule TX a id:7\nSecAction deny\nSecRule TX b id:7,id:9";
    CHECK(directives(s) == SECLANG_READ && values[0] == 4);
    lay(ids, none, 7);
    for (size_t k = 0; k < 4; k++) {
        const uint64_t *d = heads + k * SECLANG_DIRECTIVE_WORDS, *list = acts + d[SECLANG_AT_FIRST_ACTION] * ONE;
        CHECK(add_by(list, (size_t)d[SECLANG_AT_ACTIONS] * ONE, d[SECLANG_AT_LINE], 7) == numbers[k]);
    }
    CHECK(valued(SECLANG_ID_TAKEN, 2, 0) && stands(both, 7));
}

/* As many rules as there are places, whose ids differ in their upper halves alone, out of order. */
static void check_full_index(void)
{
    enum { MANY = 1000, MANY_WORDS = SECLANG_INDEX_WORDS(MANY) };
    static uint64_t many[MANY_WORDS], before[MANY_WORDS], list[ONE] = {SECLANG_ACTION_ID, 0, 0, 0, 0, 0, 0};
    for (uint64_t k = 0; k <= MANY; k++) {
        const bool fits = k < MANY;
        list[1] = (fits ? k * 617 % MANY : k) * HIGH + 7;
        CHECK(seclang_index_add(many, MANY_WORDS, list, ONE, k, values, 10) ==
              (fits ? SECLANG_READ : SECLANG_INDEX_FULL));
        CHECK(fits ? first_values(1, k + 1) : values[0] == MANY);
    }
    for (uint64_t k = 0; k < MANY; k++) {
        const uint64_t id = k * 617 % MANY, *pair = many + 1 + 2 * id;
        list[1] = id * HIGH + 7;
        CHECK(pair[0] == list[1] && pair[1] == k);
        CHECK(seclang_index_add(many, MANY_WORDS, list, ONE, 0, values, 10) == SECLANG_ID_TAKEN && values[0] == k);
    }
    memcpy(before, many, sizeof many);
    CHECK(seclang_index_remove(many, MANY_WORDS, true, 250 * HIGH, 750 * HIGH, values, 10) == SECLANG_READ);
    CHECK(first_values(500, 500) && many[0] == 500 && memcmp(many + 1, before + 1, 500 * sizeof *many) == 0);
    CHECK(memcmp(many + 501, before + 1501, 500 * sizeof *many) == 0);
    for (size_t i = 1001; i < MANY_WORDS; i++) CHECK(many[i] == 0);
    for (uint64_t k = 250; k < 750; k++) {
        list[1] = k * HIGH + 7;
        CHECK(seclang_index_add(many, MANY_WORDS, list, ONE, before[2 + 2 * k], values, 10) == SECLANG_READ);
    }
    CHECK(memcmp(many, before, sizeof many) == 0);
}

static void check_index(void)
{
    CHECK(SECLANG_INDEX_WORDS(0) == 1 && SECLANG_INDEX_WORDS(1 + 2) == 7);
    check_index_rows();
    check_no_index();
    check_first_ids();
    check_index_values();
    check_freed_places();
    check_package_index();
    check_full_index();
}

/* ---- packages before and from 2.7 on */

/* What short texts are lent is painted, so that it shows what a call leaves. */
static void paint(void)
{
    memset(text, 'x', ROOM), memset(scratch, 'x', ROOM), memset(values, 'x', sizeof values);
    memset(heads, 'x', HEADS * sizeof *heads), memset(targets, 'x', TARGETS * sizeof *targets);
    memset(acts, 'x', ACTS * sizeof *acts);
}

/* Whether 2.7 refuses a package for a rule in this line, with no other value, and all that is lent is zero. */
static bool misses(const char *s, uint64_t line)
{
    paint();
    return package(s, true) == SECLANG_ID_MISSING && values[0] == line &&
           painted(values + 1, sizeof values - sizeof *values) && cleared("");
}

/* All that a call leaves. */
struct left {
    uint64_t number, values[SECLANG_VALUES_MOST], heads[HEADS], targets[TARGETS], acts[ACTS];
    uint8_t text[ROOM], scratch[ROOM];
};

static void leave(struct left *left, const char *s, bool from_2_7)
{
    paint();
    left->number = package(s, from_2_7);
    memcpy(left->values, values, sizeof left->values), memcpy(left->heads, heads, sizeof left->heads);
    memcpy(left->targets, targets, sizeof left->targets), memcpy(left->acts, acts, sizeof left->acts);
    memcpy(left->text, text, sizeof left->text), memcpy(left->scratch, scratch, sizeof left->scratch);
}

/* Whether both give this number, and leave the same. */
static bool both(const char *s, uint64_t number)
{
    static struct left older, newer;
    leave(&older, s, false), leave(&newer, s, true);
    return newer.number == number && memcmp(&older, &newer, sizeof older) == 0;
}

static void check_ids(void)
{
    CHECK(misses("SecAction deny", 1) && directives("SecAction deny") == SECLANG_READ && four_values(1, 0, 1, 0));
    CHECK(misses("SecAction deny\nx", 1) && directives("SecAction deny\nx") == SECLANG_UNTAKEN && values[0] == 2);
    CHECK(both("SecAction id:0", SECLANG_READ) && four_values(1, 0, 1, 0) && acts[1] == 0);
    CHECK(both("SecAction chain,id:1\nSecMarker a\nSecAction deny", SECLANG_READ) && four_values(3, 0, 3, 1));
    CHECK(both("SecAction chain,id:1\nSecAction chain\nSecAction deny", SECLANG_READ) && four_values(3, 0, 4, 0));
    CHECK(misses("SecDefaultAction chain\nSecAction deny", 2));
    CHECK(directives("SecDefaultAction chain\nSecAction deny") == SECLANG_READ && four_values(2, 0, 2, 0));
    CHECK(both("SecAction id:1,chain", SECLANG_READ) && four_values(1, 0, 2, 0));
    CHECK(both("", SECLANG_READ) && both("SecMarker a\nSecDefaultAction log\nsec", SECLANG_READ));
    CHECK(both("secRULE TX a \"log,\\\n ID:7\"", SECLANG_READ) && four_values(1, 1, 2, 1));
    /* none of these is an id */
    CHECK(misses("SecRule ARGS a", 1) && misses("#\n\nSECaction ''", 3) && misses("SecAction \"msg:'id:1'\"", 1));
    CHECK(misses("SecRule TX id:1", 1) && misses("SecAction ctl:ruleRemoveById=1,setvar:id=1,t:id", 1));
}

static void check_chains(void)
{
    static const char *const between[] = {"",           "\n \n",      "# chain\n", "SecMarker a\n",
                                          "Include x\n", "sec # c\n", "SecDefaultAction log\n",
                                          "SecMarker a\n#\nSecDefaultAction id:9\nSecRuleEngine On\n"};
    char s[200];
    for (size_t i = 0; i < sizeof between / sizeof *between; i++) {
        snprintf(s, sizeof s, "SecRule TX a \"id:7,CHAIN\"\n%sSecRule TX b", between[i]);
        check(both(s, SECLANG_READ), s, __LINE__);
        snprintf(s, sizeof s, "SecRule TX a \"id:7,log\"\n%sSecAction chain", between[i]);
        check(package(s, true) == SECLANG_ID_MISSING && directives(s) == SECLANG_READ, s, __LINE__);
    }
    /* a rule that continues another hands on its own chain alone, and one with an id starts afresh */
    CHECK(misses("SecAction id:1,chain\nSecAction log\nSecAction deny", 3));
    CHECK(misses("SecAction id:1,chain\nSecRule TX a\nSecMarker chain\nSecRule TX b", 4));
    CHECK(misses("SecAction id:1,chain\nSecAction id:2\nSecAction deny", 3));
    CHECK(misses("SecAction chain", 1) && misses("SecAction chain\nSecAction deny", 1));
    CHECK(both("SecAction id:1,chain\nSecAction id:2,chain\nSecAction deny\nSecAction id:3", SECLANG_READ));
    CHECK(misses("SecAction id:1,msg:chain,t:chain\nSecAction deny", 2));
}

/* Of one directive the id is judged last, and of two the first one first. */
static void check_id_order(void)
{
    static const char after[][24] = {"SecRule x", "SecAction bogus", "SecRule nope a", "SecRule TX @x", "SecAction id",
                                     "SecAction id:x", "SecAction phase:256", "x", "\f"};
    static const uint64_t numbers[] = {13, 5, 7, 8, 10, 11, 12, 14, 15};
    char s[64];
    for (size_t i = 0; i < sizeof numbers / sizeof *numbers; i++) {
        check(both(after[i], numbers[i]), after[i], __LINE__);
        snprintf(s, sizeof s, "SecAction deny\n%s", after[i]);
        check(misses(s, 1) && directives(s) == numbers[i], s, __LINE__);
        snprintf(s, sizeof s, "SecAction id:7\n%s\nSecAction deny", after[i]);
        check(both(s, numbers[i]), s, __LINE__);
    }
    CHECK(both("SecAction deny log", SECLANG_WRONG_COUNT) && both("SecRule TX a log,bogus", SECLANG_UNKNOWN_ACTION));
    CHECK(misses("SecAction deny\f", 1) && both("SecAction id:1\f", SECLANG_STOPPED));
    CHECK(both("SecAction deny\n\x80", SECLANG_NOT_ASCII) && values[0] == 15);
}

/* With no room for a record, or little: 18 comes before 4, and behind 3. */
static void check_id_lent(void)
{
    const uint8_t *s = bytes("SecRule TX a deny"), *good = bytes("SecRule TX a id:7");
    for (size_t lack = 0; lack < 4; lack++) {
        const size_t d = SECLANG_DIRECTIVE_WORDS * (lack != 0), v = SECLANG_VARIABLE_WORDS - (lack == 1);
        const size_t a = ONE - (lack == 2);
        const bool fits = lack == 3;
        paint();
        CHECK(seclang_directives(s, 17, true, text, 17, scratch, 17, heads, d, targets, v, acts, a, values, 1) ==
              SECLANG_ID_MISSING);
        CHECK(values[0] == 1 && text[16] == 0 && text[17] == 'x' && scratch[16] == 0 && scratch[17] == 'x');
        CHECK(zero_words(heads, d) && painted(heads + d, sizeof *heads) && zero_words(targets, v) &&
              painted(targets + v, sizeof *targets) && zero_words(acts, a) && painted(acts + a, sizeof *acts));
        CHECK(seclang_directives(good, 17, true, text, 17, scratch, 17, heads, d, targets, v, acts, a, values, 10) ==
              (fits ? SECLANG_READ : SECLANG_NO_ROOM));
        CHECK(first_values(1, 1) && values[2] == 1 && text[0] == (fits ? 'a' : 0));
    }
    paint();
    CHECK(seclang_directives(s, 17, true, text, 17, scratch, 17, heads, 0, targets, 0, acts, 0, values, 0) ==
              SECLANG_ID_MISSING &&
          painted(values, sizeof values));
    paint();
    CHECK(seclang_directives(s, 17, true, text, 16, scratch, 17, heads, 0, targets, 0, acts, 0, values, 10) ==
              SECLANG_SHORT_BUFFER &&
          values[0] == 0 && painted(text, ROOM) && painted(scratch, ROOM));
}

static void check_versions(void)
{
    check_ids();
    check_chains();
    check_id_order();
    check_id_lent();
}

/* ---- action lists written back */

enum { SPELLED = 8192 };

/* The records and texts before a call, which only reads them. */
static uint64_t before_records[WORDS];
static uint8_t before_text[ROOM];

/* So many words of records written into so many bytes: all others are as they were, and what is read is not touched. */
static uint64_t spell_into(const uint64_t *list, size_t words, size_t room)
{
    size_t i;
    memset(out, 0x77, SPELLED);
    memset(values, 0x77, sizeof values);
    memcpy(before_records, list, words * sizeof *list);
    memcpy(before_text, text, ROOM);
    const uint64_t number = seclang_write_actions(list, words, text, ROOM, out, room, values, SECLANG_VALUES_MOST);
    bool kept = memcmp(before_records, list, words * sizeof *list) == 0 && memcmp(before_text, text, ROOM) == 0;
    for (i = room; i < SPELLED; i++) kept = kept && out[i] == 0x77;
    for (i = 1; i < SECLANG_VALUES_MOST; i++) kept = kept && values[i] == UINT64_C(0x7777777777777777);
    CHECK(kept);
    return number;
}

static bool zero_out(size_t from, size_t past)
{
    bool zero = true;
    for (size_t i = from; i < past; i++) zero = zero && out[i] == 0;
    return zero;
}

/* Written as `s`, with zeros beyond; exact room is enough, and one byte less is 4. */
static bool spelled_as(const uint64_t *list, size_t words, const char *s)
{
    const size_t n = strlen(s);
    bool fine = spell_into(list, words, SPELLED) == SECLANG_READ && wrote(s) && zero_out(n, SPELLED);
    fine = fine && spell_into(list, words, n) == SECLANG_READ && values[0] == n && memcmp(out, s, n) == 0;
    if (n == 0) return fine;
    return fine && spell_into(list, words, n - 1) == SECLANG_NO_ROOM && values[0] == n && zero_out(0, n - 1);
}

/* Refused with 19 and the number of a record, whatever room there is. */
static bool not_written(const uint64_t *list, size_t words, uint64_t record)
{
    const size_t rooms[] = {SPELLED, 3, 0};
    bool fine = true;
    for (size_t k = 0; k < 3; k++)
        fine = fine && spell_into(list, words, rooms[k]) == SECLANG_NOT_WRITTEN && values[0] == record &&
               zero_out(0, rooms[k]);
    return fine;
}

/* What was written last is read again as the records that stand there, sources aside. */
static bool read_again(size_t count)
{
    const size_t n = (size_t)values[0];
    bool fine = seclang_parse_actions(out, n, plain_text, ROOM, scratch, ROOM, plain_records, WORDS, values, 10) ==
                    SECLANG_READ &&
                values[0] == count && memcmp(plain_text, text, (size_t)values[1]) == 0;
    for (size_t k = 0; k < count * ONE; k++)
        fine = fine && (k % ONE == SECLANG_AT_ACTION_SOURCE || plain_records[k] == records[k]);
    return fine;
}

/* Lists that are read, and how they are written; NULL where the first record fails. */
static const struct spelling {
    const char *list, *spelled;
} spellings[] = {
    {"", ""},
    {"msg", "msg:''"},
    {"expirevar", "expirevar:=0"},
    {"redirect:", "redirect:"},
    {"ctl:", "ctl:="},
    {"t:", "t:"},
    {"exec:(a,b)", "noauditlog"},
    {"pause", "noauditlog"},
    {"setsid:x", "noauditlog"},
    {"SanitizeMatched", "sanitisematched"},
    {"skipAfter:x", "skipafter:x"},
    {"setvar:A", "setvar:'tx.A'"},
    {"setvar:a=1", "setvar:'tx.a=1'"},
    {"setvar:a=", "setvar:'tx.a='"},
    {"setvar:", "setvar:'tx.'"},
    {"setvar:a=--5", "setvar:'tx.a=--5'"},
    {"setvar:a=+x", "setvar:'tx.a=+1'"},
    {"setvar:a=+-9223372036854775808", "setvar:'tx.a=+-9223372036854775808'"},
    {"setvar:'!a=B.c=d'", "setvar:'!a=b.c=d'"},
    {"setvar:.", "setvar:'.'"},
    {"setvar:' a = '", "setvar:'tx. a = '"},
    {"setvar:a='x'", "setvar:\"tx.a='x'\""},
    {"msg:\"it's\",log", "msg:\"it's\",log"},
    {"msg:'\n\r '", "msg:'\n\r '"},
    {"ctl:(a,b),log", "ctl:(a,b)=,log"},
    {"redirect:'a,b',log", "redirect:'a,b',log"},
    {"setvar:\"a\"'b',log", "setvar:\"tx.\"a\"'b'\",log"},
    {"msg:'a\\',log", "msg:'a\\',log"},
    {"log,expirevar:'a=5'", "log,expirevar:'a=0"},
    {"msg:a'\"'b,log", NULL},
    {"expirevar:'a=5',log", NULL},
    {"expirevar:(a=5),log", NULL},
    {"t:\\\\\n\na", NULL},
    {"ID:+7, Phase:2 ,severity:'CRITICAL',t:none,skip:4294967295", "id:7,phase:2,severity:2,t:none,skip:4294967295"},
    {"deny,block,pass,allow,drop,chain,multimatch,capture,log,nolog,auditlog,noauditlog",
     "deny,block,pass,allow,drop,chain,multimatch,capture,log,nolog,auditlog,noauditlog"},
    {"tag:a,rev:\"b\",ver:'c',logdata:d,maturity:1,accuracy:2,status:403,initcol:IP=x",
     "tag:'a',rev:'b',ver:'c',logdata:'d',maturity:1,accuracy:2,status:403,initcol:IP=x"},
};

static void check_spellings(void)
{
    for (size_t k = 0; k < sizeof spellings / sizeof *spellings; k++) {
        const char *list = spellings[k].list, *want = spellings[k].spelled;
        check(actions(list) == SECLANG_READ, list, __LINE__);
        const size_t count = (size_t)values[0];
        const bool fine = want ? spelled_as(records, count * ONE, want) : not_written(records, count * ONE, 0);
        check(fine, list, __LINE__);
        if (!want || !fine) continue;
        check(spell_into(records, count * ONE, SPELLED) == SECLANG_READ && read_again(count), list, __LINE__);
    }
}

/* One record with its texts one behind the other; NULL where a word shows none. */
struct said {
    uint64_t code, number, kind;
    const char *a, *b, *c;
};

static size_t lay_text(uint64_t *word, const char *s, size_t at)
{
    if (!s) return at;
    *word = span(at, strlen(s));
    memcpy(text + at, s, strlen(s));
    return at + strlen(s);
}

static void lay_said(const struct said *said)
{
    size_t at = 5;
    memset(text, '#', ROOM);
    memset(records, 0, ONE * sizeof *records);
    records[0] = said->code;
    records[1] = said->number;
    records[4] = said->kind;
    at = lay_text(&records[2], said->a, at);
    at = lay_text(&records[3], said->b, at);
    lay_text(&records[5], said->c, at);
    /* the source may be any word */
    records[6] = UINT64_MAX;
}

enum { STRING = SECLANG_VALUE_STRING, INTEGER = SECLANG_VALUE_INT, REMOVAL = SECLANG_VALUE_DELETE };
enum { MACRO = SECLANG_VALUE_MACRO, SET = SECLANG_ACTION_SETVAR, MSG = SECLANG_ACTION_MSG };

/* Records that no reader makes, or that would be read back as others. */
static const struct said unwritten[] = {
    {SECLANG_ACTION_REDIRECT, 0, 0, "x ", NULL, NULL},
    {MSG, 0, 0, "x'", NULL, NULL},
    {SECLANG_ACTION_CTL, 0, 0, "a=", "b", NULL},
    {SET, (uint64_t)-5, INTEGER, "tx", "a", NULL},
    {SET, 0, STRING, "tx", "a", "5"},
    {SET, 0, STRING, "tx", "a", "01"},
    {SET, 0, STRING, "tx", "a", "+"},
    {SET, 0, STRING, "tx", "a", "%{"},
    {SET, 0, MACRO, "tx", "a", "x"},
    {SET, 0, STRING, "Tx", "a", "x"},
    {SET, 0, STRING, "t.x", "a", "x"},
    {SET, 0, STRING, "!tx", "a", "x"},
    {SET, 0, STRING, "tx", "a=b", "x"},
    {SECLANG_ACTION_PHASE, 256, 0, NULL, NULL, NULL},
    {SECLANG_ACTION_SKIP, UINT64_C(4294967296), 0, NULL, NULL, NULL},
    {SECLANG_ACTION_DENY, 1, 0, NULL, NULL, NULL},
    {SECLANG_ACTION_DENY, 0, 0, "x", NULL, NULL},
    {SECLANG_ACTION_DENY, 0, 0, NULL, "x", NULL},
    {SECLANG_ACTION_DENY, 0, 0, NULL, NULL, "x"},
    {SECLANG_ACTION_DENY, 0, STRING, NULL, NULL, NULL},
    {SET, 1, REMOVAL, "tx", "a", NULL},
    {0, 0, 0, NULL, NULL, NULL},
    {33, 0, 0, NULL, NULL, NULL},
    {SET, 0, 0, "tx", "a", NULL},
    {SET, 0, 7, "tx", "a", NULL},
    {MSG, 0, 0, "\x80", NULL, NULL},
};

static void check_unwritten(void)
{
    for (size_t k = 0; k < sizeof unwritten / sizeof *unwritten; k++) {
        lay_said(&unwritten[k]);
        check(not_written(records, ONE, 0), nth("unwritten", k), __LINE__);
    }
}

/* Removals, and the text 1 and the number 1, are told apart. */
static const struct written {
    struct said said;
    const char *spelled;
} written[] = {
    {{SET, 0, STRING, "tx", "a", "1"}, "setvar:'tx.a'"},
    {{SET, 1, INTEGER, "tx", "a", NULL}, "setvar:'tx.a=1'"},
    {{SET, 0, STRING, "tx", "a", ""}, "setvar:'tx.a='"},
    {{SET, 0, REMOVAL, "!tx", "a=b", NULL}, "setvar:'!!tx.a=b'"},
    {{SET, 0, MACRO, "tx", "a", "+%{b}"}, "setvar:'tx.a=+%{b}'"},
    {{SET, (uint64_t)-5, SECLANG_VALUE_DECREMENT, "tx", "a", NULL}, "setvar:'tx.a=--5'"},
    {{SECLANG_ACTION_PHASE, 255, 0, NULL, NULL, NULL}, "phase:255"},
    {{SECLANG_ACTION_EXPIREVAR, UINT64_MAX, 0, "a", NULL, NULL}, "expirevar:a=18446744073709551615"},
};

static void check_written(void)
{
    for (size_t k = 0; k < sizeof written / sizeof *written; k++) {
        lay_said(&written[k].said);
        check(spelled_as(records, ONE, written[k].spelled), nth("written", k), __LINE__);
    }
}

/* Two messages by their spans in a text of six bytes; NULL where a record fails, and which. */
static const struct layout {
    uint64_t first, length, next, next_length;
    const char *spelled;
    uint64_t record;
} layouts[] = {
    {0, 1, 1, 2, "msg:'a',msg:'bc'", 0},
    {3, 1, 4, 2, "msg:'d',msg:'ef'", 0},
    {6, 0, 6, 0, "msg:'',msg:''", 0},
    {0, 1, 2, 2, NULL, 1},
    {0, 2, 1, 2, NULL, 1},
    {2, 4, 6, 1, NULL, 1},
    {0, 1, 0, 0, NULL, 1},
    {7, 0, 7, 0, NULL, 0},
    {UINT32_MAX, UINT32_MAX, 0, 0, NULL, 0},
};

static void check_layouts(void)
{
    uint64_t two[2 * ONE] = {MSG, 0, 0, 0, 0, 0, 0, MSG, 0, 0, 0, 0, 0, 0};
    uint8_t small[] = {'a', 'b', 'c', 'd', 'e', 'f'};
    for (size_t k = 0; k < sizeof layouts / sizeof *layouts; k++) {
        const struct layout *l = &layouts[k];
        two[2] = span(l->first, l->length);
        two[ONE + 2] = span(l->next, l->next_length);
        memset(out, 0x77, LINE);
        const uint64_t number = seclang_write_actions(two, 2 * ONE, small, 6, out, LINE, values, 1);
        const bool fine = l->spelled ? number == SECLANG_READ && wrote(l->spelled) && zero_out(values[0], LINE)
                                     : number == SECLANG_NOT_WRITTEN && values[0] == l->record && zero_out(0, LINE);
        check(fine, nth("layouts", k), __LINE__);
    }
}

/* No records, words left over, and values that do not fit. */
static void check_unread_words(void)
{
    uint64_t value = 77;
    CHECK(spelled_as(records, 0, ""));
    CHECK(seclang_write_actions(records, 0, text, 0, out, 0, values, 1) == SECLANG_READ && values[0] == 0);
    CHECK(actions("deny,msg:a") == SECLANG_READ);
    for (size_t k = 2 * ONE; k < 3 * ONE; k++) records[k] = 33;
    for (size_t k = 0; k < ONE; k++) CHECK(spelled_as(records, 2 * ONE + k, "deny,msg:'a'"));
    CHECK(not_written(records, 3 * ONE, 2));
    for (size_t k = 0; k < ONE; k++) CHECK(spelled_as(records, k, ""));
    CHECK(seclang_write_actions(records, 2 * ONE, text, 1, out, 12, &value, 0) == SECLANG_READ && value == 77);
    CHECK(seclang_write_actions(records, 2 * ONE, text, 1, out, 11, &value, 0) == SECLANG_NO_ROOM && value == 77);
    CHECK(seclang_write_actions(records, 2 * ONE, text, 0, out, 12, &value, 0) == SECLANG_NOT_WRITTEN && value == 77);
    records[ONE] = 0;
    CHECK(seclang_write_actions(records, 2 * ONE, text, 1, out, 0, values, 1) == SECLANG_NOT_WRITTEN && values[0] == 1);
}

/* A rule out of a package, whose texts stand behind others, and a rule changed. */
static void check_rules_written(void)
{
    CHECK(directives("SecRule ARGS:k \"@rx a\" \"id:7,msg:b,setvar:c=d\"\nSecAction \"tag:'e',t:f\"") == SECLANG_READ);
    CHECK(spelled_as(acts, 3 * ONE, "id:7,msg:'b',setvar:'tx.c=d'"));
    CHECK(spelled_as(acts + 3 * ONE, 2 * ONE, "tag:'e',t:f"));
    CHECK(spelled_as(acts, 5 * ONE, "id:7,msg:'b',setvar:'tx.c=d',tag:'e',t:f"));
    acts[1] = 8;
    acts[ONE] = SECLANG_ACTION_LOGDATA;
    CHECK(spelled_as(acts, 3 * ONE, "id:8,logdata:'b',setvar:'tx.c=d'"));
    CHECK(directives("SecAction msg:a\nSecMarker m\nSecAction msg:b") == SECLANG_READ);
    CHECK(not_written(acts, 2 * ONE, 1));
}

/* `exec` so many times: the spelling passes the limit where the list is far from it. */
static uint64_t spell_execs(size_t times, size_t room)
{
    const size_t n = 5 * times - 1;
    for (size_t k = 0; k < times; k++) memcpy(input + 5 * k, "exec,", k + 1 < times ? 5 : 4);
    CHECK(seclang_parse_actions(input, n, text, n, scratch, n, records, times * ONE, values, 10) == SECLANG_READ);
    memset(out, 0x77, SECLANG_LIMIT);
    return seclang_write_actions(records, times * ONE, text, n, out, room, values, 10);
}

/* One message so long that its spelling has n bytes. */
static uint64_t spell_long(size_t n, size_t room)
{
    const uint64_t record[ONE] = {MSG, 0, n - 6, 0, 0, 0, 0};
    memset(text, 'y', n);
    memset(out, 0x77, SECLANG_LIMIT);
    return seclang_write_actions(record, ONE, text, n - 6, out, room, values, 10);
}

static void check_spelling_limit(void)
{
    CHECK(spell_execs(95325, SECLANG_LIMIT) == SECLANG_READ && values[0] == 1048574);
    CHECK(memcmp(out, "noauditlog,noauditlog,", 22) == 0 && memcmp(out + 1048563, ",noauditlog", 11) == 0);
    CHECK(zero_out(1048574, SECLANG_LIMIT));
    CHECK(spell_execs(95325, 1048573) == SECLANG_NO_ROOM && values[0] == 1048574 && zero_out(0, 1048573));
    CHECK(spell_execs(95326, SECLANG_LIMIT) == SECLANG_NOT_WRITTEN && values[0] == 95325 && zero_out(0, SECLANG_LIMIT));
    CHECK(spell_long(SECLANG_LIMIT, SECLANG_LIMIT) == SECLANG_READ && values[0] == SECLANG_LIMIT);
    CHECK(memcmp(out, "msg:'yy", 7) == 0 && memcmp(out + SECLANG_LIMIT - 3, "yy'", 3) == 0);
    CHECK(spell_long(SECLANG_LIMIT + 1, SECLANG_LIMIT) == SECLANG_NOT_WRITTEN && values[0] == 0);
    CHECK(zero_out(0, SECLANG_LIMIT));
}

static void check_writing(void)
{
    check_spellings();
    check_unwritten();
    check_written();
    check_layouts();
    check_unread_words();
    check_rules_written();
    check_spelling_limit();
}

/* ---- bounds */

/* n bytes of a first part, and then of another again and again; blanks where it does not fit. */
static void fill(size_t n, const char *first, const char *again)
{
    size_t at = strlen(first), wide = strlen(again);
    memset(input, again[0] == '\n' ? '\n' : ' ', n);
    if (at > n) return;
    memcpy(input, first, at);
    for (; at + wide <= n; at += wide) memcpy(input + at, again, wide);
}

/* What a call gives with room for so many records, and with room for one fewer. */
#define TIGHT(call, most, width)                                                  \
    do {                                                                          \
        size_t room = (most) * (width);                                           \
        CHECK((call) == SECLANG_READ && values[0] == (most));                     \
        room = room ? room - 1 : 0;                                               \
        CHECK((most) == 0 || ((call) == SECLANG_NO_ROOM && values[0] == (most))); \
    } while (0)

/* A listing with room for the most is never refused for room. */
static void check_listing_at(size_t n)
{
    CHECK(seclang_list_text(input, n, text, n, records, TOKENS_IN(n), out, SECLANG_LISTING_MOST(n), values, 10) ==
              SECLANG_READ &&
          out[1] != '4');
}

static void check_bounds_at(size_t n)
{
    fill(n, "", "\n");
    TIGHT(seclang_tokens(input, n, text, n, records, room, values, 10), SECLANG_TOKENS_MOST(n), SECLANG_TOKEN_WORDS);
    TIGHT(seclang_plain_tokens(input, n, text, n, records, room, values, 10), SECLANG_TOKENS_MOST(n),
          SECLANG_TOKEN_WORDS);
    CHECK(same(input, n, n, TOKENS_IN(n), 10));
    check_listing_at(n);
    fill(n, "", "\001\n");
    check_listing_at(n);
    fill(n, "t:", ",t:");
    TIGHT(seclang_parse_actions(input, n, text, n, scratch, n, records, room, values, 10), SECLANG_ACTIONS_MOST(n),
          SECLANG_ACTION_WORDS);
    fill(n, "TX", "|!");
    TIGHT(seclang_parse_variables(input, n, text, n, records, room, values, 10), SECLANG_VARIABLES_MOST(n),
          SECLANG_VARIABLE_WORDS);
    fill(n, "TX", "|TX");
    TIGHT(seclang_parse_update_targets(input, n, text, n, records, room, values, 10), SECLANG_UPDATE_TARGETS_MOST(n),
          SECLANG_VARIABLE_WORDS);
}

/* A package with many records of one kind: with room for the most it is read, with a word less than it needs it is not. */
static void check_crowded(size_t n, size_t which)
{
    size_t room[3] = {HEADS_IN(n), TARGETS_IN(n), ACTS_IN(n)};
    const size_t width[3] = {SECLANG_DIRECTIVE_WORDS, SECLANG_VARIABLE_WORDS, SECLANG_ACTION_WORDS};
    for (size_t less = 0; less < 2; less++) {
        const bool fits = less == 0 || values[which] == 0;
        if (!fits) room[which] = values[which] * width[which] - 1;
        CHECK(seclang_directives(input, n, false, text, n, scratch, n, heads, room[0], targets, room[1], acts, room[2],
                                 values, 10) == (fits ? SECLANG_READ : SECLANG_NO_ROOM));
    }
}

static void check_package_bounds_at(size_t n)
{
    fill(n, "sec", "\nsec");
    check_crowded(n, 0);
    fill(n, "", " ");
    if (n >= 11) fill(n - 1, "SecRule TX", "|!"), input[n - 1] = '"';
    check_crowded(n, 1);
    fill(n, "", " ");
    if (n >= 12) fill(n, "SecAction t:", ",t:");
    check_crowded(n, 2);
}

int main(void)
{
    CHECK(seclang_version() == SECLANG_VERSION);
    check_names();
    check_tests();
    check_lexers();
    check_steps();
    check_cursors();
    check_actions();
    check_setvars();
    check_sources();
    check_targets();
    check_operators();
    check_directives();
    check_package_sources();
    check_faults();
    check_widths();
    check_flaws();
    check_lent();
    check_listings();
    check_numbers();
    check_conversions();
    check_limit();
    check_index();
    check_versions();
    check_writing();
    for (size_t n = 0; n <= 100; n++) check_bounds_at(n), check_package_bounds_at(n);
    for (size_t n = 65533; n <= 65538; n++) check_bounds_at(n), check_package_bounds_at(n);
    for (size_t n = SECLANG_LIMIT - 5; n <= SECLANG_LIMIT; n++) check_bounds_at(n), check_package_bounds_at(n);
    printf("tests/header.c: %d checks, %d failed\n", checked, failed);
    return failed != 0;
}
