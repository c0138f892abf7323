/* This library's side, through include/seclang.h. */
#include "seclang.h"
#include "sides.h"

#include <inttypes.h>
#include <string.h>
#include <strings.h>

/* Room for all that a text at the limit holds: of the readers here the lexer needs the most words. */
enum { ROOM = SECLANG_LIMIT, WORDS = SECLANG_TOKENS_MOST(ROOM) * SECLANG_TOKEN_WORDS };
static uint8_t text[ROOM];
static uint8_t scratch[ROOM];
static uint64_t records[WORDS];
static uint64_t values[SECLANG_VALUES_MOST];

/* The bytes that a text is lent. All that is lent is cleared, so that it is no more than the text can need. */
static size_t lent(struct text input)
{
    return input.len < ROOM ? input.len : ROOM;
}

static struct text spanned(const uint8_t *texts, uint64_t span)
{
    return (struct text){texts + SECLANG_SPAN_OFFSET(span), (size_t)SECLANG_SPAN_LENGTH(span)};
}

static void quoted(FILE *said, uint64_t span)
{
    fputs(" `", said);
    escaped(said, spanned(text, span));
    fputc('`', said);
}

/* A refusal: its number, and the name that it leaves, or its first value. */
static bool refused(uint64_t number, FILE *said)
{
    bool flawed = SECLANG_ARGUMENT_ABSENT <= number && number <= SECLANG_ARGUMENT_TOO_LARGE;
    fprintf(said, "%" PRIu64, number);
    if (flawed || number == SECLANG_UNKNOWN_ACTION || number == SECLANG_UNKNOWN_VARIABLE)
        quoted(said, values[1]);
    else if (number != 0)
        fprintf(said, " at %" PRIu64, values[0]);
    return number != 0;
}

static bool variables_read(uint64_t number, FILE *said)
{
    if (refused(number, said))
        return false;
    fprintf(said, ": %" PRIu64 " records", values[0]);
    const uint64_t *end = records + values[0] * SECLANG_VARIABLE_WORDS;
    for (const uint64_t *record = records; record < end; record += SECLANG_VARIABLE_WORDS) {
        if (record[0] == 2)
            fputs(", not", said);
        else
            fprintf(said, ", %s%" PRIu64 "%s", record[2] ? "&" : "", record[1],
                    record[3] == 0 ? "" : record[3] == 1 ? " key" : " regex");
        if (record[0] == 2 || record[3] != 0)
            quoted(said, record[4]);
    }
    return true;
}

bool ours_variables(struct text list, FILE *said)
{
    size_t n = lent(list), words = SECLANG_VARIABLES_MOST(n) * SECLANG_VARIABLE_WORDS;
    return variables_read(
        seclang_parse_variables(list.at, list.len, text, n, records, words, values, SECLANG_VALUES_MOST), said);
}

bool ours_targets(struct text list, FILE *said)
{
    size_t n = lent(list), words = SECLANG_UPDATE_TARGETS_MOST(n) * SECLANG_VARIABLE_WORDS;
    return variables_read(
        seclang_parse_update_targets(list.at, list.len, text, n, records, words, values, SECLANG_VALUES_MOST), said);
}

bool ours_operator(struct text input, FILE *said)
{
    uint64_t number = seclang_parse_operator(input.at, input.len, values, SECLANG_VALUES_MOST);
    if (number == 8) {
        fputs("8 `", said);
        escaped(said, (struct text){input.at + values[0], (size_t)values[1]});
        fputc('`', said);
        return false;
    }
    if (refused(number, said))
        return false;
    fprintf(said, ": %s%" PRIu64 " `", values[0] ? "!" : "", values[1]);
    escaped(said, (struct text){input.at + values[2], (size_t)values[3]});
    fputc('`', said);
    return true;
}

static const char *const ACTIONS[] = {
    "?", "Deny", "Block", "Pass", "Allow", "Drop", "Redirect", "Chain", "Skip", "SkipAfter", "MultiMatch", "Id", "Phase",
    "Severity", "Msg", "Tag", "Rev", "Ver", "Maturity", "Accuracy", "LogData", "Status", "SetVar", "Capture", "InitCol",
    "ExpireVar", "Log", "NoLog", "AuditLog", "NoAuditLog", "SanitiseMatched", "Control", "Transformation"};
static const char *const VALUES[] = {"", " String", " Int", " Increment", " Decrement", " Delete", " Macro"};

/* One action: its name, its number where it has one, and its texts. */
static void tell_action(const uint64_t *record, FILE *said)
{
    uint64_t code = record[0];
    bool number = code == 8 || (11 <= code && code <= 13) || code == 18 || code == 19 || code == 21 || code == 25 ||
                  (code == 22 && 2 <= record[4] && record[4] <= 4);
    bool one = code == 6 || code == 9 || (14 <= code && code <= 17) || code == 20 || code == 25 || code == 32;
    bool two = code == 22 || code == 24 || code == 31;
    fputs(ACTIONS[code], said);
    if (one || two)
        quoted(said, record[2]);
    if (two)
        quoted(said, record[3]);
    fputs(VALUES[record[4]], said);
    if (record[4] == 1 || record[4] == 6)
        quoted(said, record[5]);
    if (number)
        fprintf(said, " %" PRIu64, record[1]);
}

bool ours_actions(struct text list, FILE *said)
{
    size_t n = lent(list), room = SECLANG_ACTIONS_MOST(n) * SECLANG_ACTION_WORDS;
    uint64_t number = seclang_parse_actions(list.at, list.len, text, n, scratch, n, records, room, values,
                                            SECLANG_VALUES_MOST);
    if (refused(number, said))
        return false;
    uint64_t count = values[0];
    for (uint64_t i = 0; i < count; i++) {
        fputs(i == 0 ? ": " : ", ", said);
        tell_action(records + i * SECLANG_ACTION_WORDS, said);
    }
    size_t words = (size_t)count * SECLANG_ACTION_WORDS;
    fprintf(said, "; phase %" PRIu64, seclang_phase(records, words));
    fputs(seclang_grade(records, words) ? "" : ", no grade", said);
    return true;
}

/* The tokens of a text have buffers of their own, since the readers of arguments write the others. */
static uint8_t token_text[ROOM];
static uint64_t tokens[WORDS];

static bool named(const struct directive *directive, const char *name)
{
    return directive->name.len == strlen(name) &&
           strncasecmp((const char *)directive->name.at, name, directive->name.len) == 0;
}

bool is_rule(const struct directive *directive)
{
    return named(directive, "SecRule") || named(directive, "SecAction") || named(directive, "SecDefaultAction");
}

static void add_part(struct directive *directive, const char *part, bool (*reader)(struct text, FILE *))
{
    directive->part[directive->parts] = part;
    directive->reader[directive->parts++] = reader;
}

static void give_readers(struct directive *directive)
{
    bool rule = named(directive, "SecRule");
    size_t count = directive->count;
    if (!is_rule(directive) || (rule ? count != 2 && count != 3 : count != 1))
        return;
    if (rule) {
        add_part(directive, "variables", ours_variables);
        add_part(directive, "operator", ours_operator);
    }
    if (!rule || count == 3)
        add_part(directive, "actions", ours_actions);
}

bool ours_directives(struct text input, struct directive *directives, size_t *count, FILE *said)
{
    *count = 0;
    size_t n = lent(input), room = SECLANG_TOKENS_MOST(n) * SECLANG_TOKEN_WORDS;
    uint64_t number =
        seclang_tokens(input.at, input.len, token_text, n, tokens, room, values, SECLANG_VALUES_MOST);
    if (refused(number, said))
        return false;
    fputs(": ", said);
    struct directive *open = NULL;
    const uint64_t *end = tokens + values[0] * SECLANG_TOKEN_WORDS;
    for (const uint64_t *token = tokens; token < end; token += SECLANG_TOKEN_WORDS) {
        struct text own = spanned(token_text, token[4]);
        fputc(" DWSCN"[token[0]], said);
        if (token[0] == 1 && *count < MOST_DIRECTIVES) {
            open = directives + (*count)++;
            *open = (struct directive){.name = own, .line = (size_t)token[1]};
        } else if (4 <= token[0])
            open = NULL;
        else if (open && open->count < MOST_ARGUMENTS)
            open->arguments[open->count++] = own;
    }
    bool whole = values[2] == input.len;
    if (!whole)
        fprintf(said, " stops at %" PRIu64, values[2]);
    for (size_t i = 0; i < *count; i++)
        give_readers(directives + i);
    return whole;
}

bool ours_text(struct text input, FILE *said)
{
    static struct directive directives[MOST_DIRECTIVES];
    size_t count;
    bool read = ours_directives(input, directives, &count, said);
    for (size_t i = 0; i < count; i++) {
        const struct directive *directive = directives + i;
        if (is_rule(directive) && directive->parts == 0) {
            fprintf(said, "; %zu arguments", directive->count);
            read = false;
        }
        for (size_t p = 0; p < directive->parts; p++) {
            fprintf(said, "; %s ", directive->part[p]);
            read = directive->reader[p](directive->arguments[p], said) && read;
        }
    }
    return read;
}
