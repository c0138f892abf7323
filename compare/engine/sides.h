/* The two sides that are asked: the engine that firewalls run, and this library. */
#ifndef SIDES_H
#define SIDES_H

#include <stdbool.h>
#include <stddef.h>
#include <stdint.h>
#include <stdio.h>

struct text {
    const uint8_t *at;
    size_t len;
};

/* Writes bytes with C's escapes, so that each answer is one line of ASCII. */
void escaped(FILE *out, struct text said);

/* What the engine answers to whole rules: does it load them, and what it says. It is asked in a process of its own, in
 * the folder named (NULL: where it stands), so that an input that ends it is an answer too. */
bool engine_loads(struct text rules, const char *folder, FILE *said);
bool engine_loads_file(const char *path, FILE *said);

/* What the engine does with a request for an address under these rules: does it load them, and which phase denies. */
bool engine_runs(struct text rules, const char *address, FILE *said);
void engine_names_itself(FILE *said);

/* What this library answers: is it read, and what was read or refused. */
bool ours_variables(struct text list, FILE *said);
bool ours_targets(struct text list, FILE *said);
bool ours_operator(struct text input, FILE *said);
bool ours_actions(struct text list, FILE *said);

/* One directive as its tokens have it, its line, and the reader of each argument: none where the directive is no rule or
 * its count of arguments is not a rule's. SecRule, SecAction and SecDefaultAction are called rules here. */
enum { MOST_ARGUMENTS = 64, MOST_PARTS = 3, MOST_DIRECTIVES = 1024 };
struct directive {
    struct text name, arguments[MOST_ARGUMENTS];
    size_t count, line, parts;
    const char *part[MOST_PARTS];
    bool (*reader[MOST_PARTS])(struct text, FILE *);
};

/* The directives of a text, up to MOST_DIRECTIVES, which stand until the next text is read; is it read to its end. */
bool ours_directives(struct text text, struct directive *directives, size_t *count, FILE *said);
bool is_rule(const struct directive *directive);

/* A whole text: its tokens by their kinds, and each argument of its rules by its own reader. */
bool ours_text(struct text text, FILE *said);

#endif
