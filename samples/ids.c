/* ids FILE: the line, id and phase of each rule in a file, and which has an id that another has, with include/seclang.h alone.
 * cc -I include samples/ids.c FOLDER/libseclang.a -o ids, with FOLDER as tools/library prints it. */
#include "seclang.h"

#include <inttypes.h>
#include <stdio.h>
#include <string.h>

enum { ROOM = SECLANG_LIMIT + 1, WIDE = SECLANG_TOKEN_WORDS, TOKENS = SECLANG_TOKENS_MOST(ROOM) * WIDE };
static uint8_t input[ROOM], text[ROOM], texts[ROOM], scratch[ROOM];
static uint64_t tokens[TOKENS], actions[SECLANG_ACTIONS_MOST(ROOM) * SECLANG_ACTION_WORDS], values[SECLANG_VALUES_MOST];
static uint64_t ids[SECLANG_INDEX_WORDS(SECLANG_DIRECTIVES_MOST(ROOM))];

static void print_rule(uint64_t line, const uint8_t *list, size_t n)
{
    size_t room = SECLANG_ACTIONS_MOST(n) * SECLANG_ACTION_WORDS, words = 0;
    uint64_t number = seclang_parse_actions(list, n, texts, n, scratch, n, actions, room, values, SECLANG_VALUES_MOST);
    if (number == SECLANG_READ) words = (size_t)values[0] * SECLANG_ACTION_WORDS;
    else printf("%" PRIu64 ": refused with %" PRIu64 " at action %" PRIu64 "\n", line, number, values[0]);
    if (!words) return;
    /* A rule goes by its first id; 0 is one too. */
    const uint64_t *id = NULL;
    for (size_t at = words; at > 0; at -= SECLANG_ACTION_WORDS)
        if (actions[at - SECLANG_ACTION_WORDS] == SECLANG_ACTION_ID) id = &actions[at - SECLANG_ACTION_WORDS + 1];
    if (id) printf("%" PRIu64 ": id %" PRIu64 ", phase %" PRIu64 "\n", line, *id, seclang_phase(actions, words));
    else printf("%" PRIu64 ": no id, phase %" PRIu64 "\n", line, seclang_phase(actions, words));
    /* A call takes time by what is lent, so that is one place more than there are rules; behind are zeros. */
    number = seclang_index_add(ids, SECLANG_INDEX_WORDS((size_t)ids[0] + 1), actions, words, line, values, SECLANG_VALUES_MOST);
    if (number == SECLANG_ID_TAKEN) printf("%" PRIu64 ": the rule in line %" PRIu64 " has this id\n", line, values[0]);
}

static bool is(const uint64_t *token, const char *name)
{
    const uint8_t *at = text + SECLANG_SPAN_OFFSET(token[4]);
    return SECLANG_SPAN_LENGTH(token[4]) == strlen(name) && memcmp(at, name, strlen(name)) == 0;
}

int main(int argc, char **argv)
{
    FILE *file = argc == 2 ? fopen(argv[1], "rb") : NULL;
    if (!file) return fprintf(stderr, "ids: give one file that can be read\n"), 2;
    size_t n = fread(input, 1, ROOM, file);
    /* All that is lent is cleared, so that it is as much as n bytes can need and no more. */
    size_t room = SECLANG_TOKENS_MOST(n) * WIDE;
    uint64_t number = seclang_tokens(input, n, text, n, tokens, room, values, SECLANG_VALUES_MOST);
    if (number != SECLANG_READ) return printf("refused with %" PRIu64 ", %" PRIu64 "\n", number, values[0]), 1;
    /* A rule's arguments are the words and strings behind its name; the last, from the third on, is the action list. */
    for (uint64_t *t = tokens, *end = t + values[0] * WIDE, *rule = NULL; t < end; t += WIDE) {
        bool more = t + WIDE < end && (t[WIDE] == SECLANG_TOKEN_WORD || t[WIDE] == SECLANG_TOKEN_QUOTED_STRING);
        if (t[0] == SECLANG_TOKEN_DIRECTIVE) rule = t;
        if (!more && rule && (is(rule, "SecRule") ? t >= rule + 3 * WIDE : is(rule, "SecAction") && t > rule))
            print_rule(rule[1], text + SECLANG_SPAN_OFFSET(t[4]), SECLANG_SPAN_LENGTH(t[4]));
        if (!more) rule = NULL;
    }
    return 0;
}
