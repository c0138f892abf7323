/* Asks the engine that firewalls run and this library the same questions, and prints both answers: a line for each,
 * its fields between tabs. compare/engine/run builds and runs it (README.md).
 *
 *   ask INPUTS              each line of the file: what it is, a tab, and the input with C's escapes;
 *                           with `request` the input is rules, and behind one more tab the address asked for
 *   ask --files FILE...     whole rule files, and each of their rules by itself */
#include "sides.h"

#include <stdlib.h>
#include <string.h>

int ask_files(int count, char **paths);

/* What an input is, the rule that the engine gets it in, and our reader of it. */
static const struct question {
    const char *what, *before, *behind;
    bool (*reader)(struct text, FILE *);
} QUESTIONS[] = {
    {"variables", "SecRule ", " \"@rx a\" \"id:1,phase:2,pass\"", ours_variables},
    {"targets", "SecRule ARGS \"@rx a\" \"id:1,phase:2,pass\"\nSecRuleUpdateTargetById 1 \"", "\"", ours_targets},
    {"operator", "SecRule ARGS \"", "\" \"id:1,phase:2,pass\"", ours_operator},
    {"action", "SecRule ARGS \"@rx a\" \"id:1,", "\"", ours_actions},
    {"actions", "SecRule ARGS \"@rx a\" \"", "\"", ours_actions},
    {"text", "", "", ours_text},
    {"request", "", "", ours_text},
};

/* The letters of C's escapes for the bytes 7 to 13, in order. */
static const char letters[] = "abtnvfr";

void escaped(FILE *out, struct text said)
{
    for (size_t i = 0; i < said.len; i++) {
        uint8_t byte = said.at[i];
        if (byte == '\\')
            fputs("\\\\", out);
        else if (7 <= byte && byte <= 13)
            fprintf(out, "\\%c", letters[byte - 7]);
        else if (byte < 32 || 127 <= byte)
            fprintf(out, "\\x%02x", byte);
        else
            fputc(byte, out);
    }
}

/* One byte of an input, and how many bytes of its spelling stand for it. */
static size_t unescaped(const char *at, uint8_t *byte)
{
    *byte = (uint8_t)at[0];
    if (at[0] != '\\' || at[1] == 0)
        return 1;
    const char *letter = strchr(letters, at[1]);
    *byte = letter ? (uint8_t)(7 + (letter - letters)) : (uint8_t)at[1];
    if (at[1] != 'x')
        return 2;
    char hex[3] = {at[2], at[2] ? at[3] : 0, 0};
    *byte = (uint8_t)strtoul(hex, NULL, 16);
    return 2 + strlen(hex);
}

static struct text input_of(const char *spelled)
{
    uint8_t *bytes = malloc(strlen(spelled) + 1);
    size_t len = 0;
    while (*spelled)
        spelled += unescaped(spelled, bytes + len++);
    return (struct text){bytes, len};
}

static struct text whole_rule(const struct question *question, struct text input)
{
    size_t before = strlen(question->before), behind = strlen(question->behind);
    uint8_t *rule = malloc(before + input.len + behind + 1);
    memcpy(rule, question->before, before);
    memcpy(rule + before, input.at, input.len);
    memcpy(rule + before + input.len, question->behind, behind);
    return (struct text){rule, before + input.len + behind};
}

static void put_question(const struct question *question, char *spelled)
{
    char *address = strcmp(question->what, "request") == 0 ? strchr(spelled, '\t') : NULL;
    if (address)
        *address++ = 0;
    struct text input = input_of(spelled);
    struct text rule = whole_rule(question, input);
    char *theirs, *own;
    size_t len;
    FILE *said = open_memstream(&theirs, &len);
    bool loads = address ? engine_runs(rule, address, said) : engine_loads(rule, NULL, said);
    fclose(said);
    said = open_memstream(&own, &len);
    bool read = question->reader(input, said);
    fclose(said);
    printf("%s\t%s\t%s%s%s\t%s\t%s\n", loads == read ? loads ? "both" : "neither" : loads ? "engine" : "ours",
           question->what, spelled, address ? " for " : "", address ? address : "", theirs, own);
    free(theirs);
    free(own);
    free((void *)rule.at);
    free((void *)input.at);
}

static int ask_line(char *line)
{
    line[strcspn(line, "\n")] = 0;
    char *tab = strchr(line, '\t');
    if (line[0] == 0 || line[0] == '#')
        return 0;
    if (tab)
        *tab = 0;
    for (size_t i = 0; tab && i < sizeof QUESTIONS / sizeof QUESTIONS[0]; i++) {
        if (strcmp(line, QUESTIONS[i].what) == 0) {
            put_question(QUESTIONS + i, tab + 1);
            return 0;
        }
    }
    fprintf(stderr, "ask: no such question: %s\n", line);
    return 1;
}

int main(int count, char **words)
{
    if (2 < count && strcmp(words[1], "--files") == 0)
        return ask_files(count - 2, words + 2);
    FILE *inputs = count == 2 ? fopen(words[1], "r") : NULL;
    if (inputs == NULL) {
        fprintf(stderr, "ask INPUTS, or ask --files FILE...\n");
        return 2;
    }
    printf("# ");
    engine_names_itself(stdout);
    printf("\ntaken by\twhat\tinput\tthe engine\tours\n");
    char *line = NULL;
    size_t room = 0;
    int wrong = 0;
    while (0 < getline(&line, &room, inputs))
        wrong |= ask_line(line);
    free(line);
    fclose(inputs);
    return wrong;
}
