/* Whole rule files: what the engine makes of a file, and of each rule in it alone, and what this library makes of each
 * part of each rule. A rule with `chain` is asked with those that it goes on in. */
#include "sides.h"

#include <ctype.h>
#include <libgen.h>
#include <stdlib.h>
#include <string.h>
#include <strings.h>

/* What is counted for a file, and for all. A group is a rule with its chain. */
struct tally {
    size_t files, files_loaded, files_read, rules, groups, loaded, whole, parts, read;
};

/* A place in a file that is being gone through: lines up to one that no backslash carries on. */
struct reading {
    const char *path;
    char *folder;
    size_t line;
    struct text group;
    bool chained;
    struct tally tally;
};

static struct text whole(const char *path)
{
    FILE *file = fopen(path, "rb");
    if (file == NULL) {
        perror(path);
        exit(2);
    }
    char *bytes, some[4096];
    size_t len;
    FILE *all = open_memstream(&bytes, &len);
    for (size_t n; 0 < (n = fread(some, 1, sizeof some, file));)
        fwrite(some, 1, n, all);
    fclose(all);
    fclose(file);
    return (struct text){(uint8_t *)bytes, len};
}

static size_t logical_line(struct text rest)
{
    size_t len = 0;
    while (len < rest.len) {
        bool feed = rest.at[len++] == '\n';
        size_t before = 2 <= len && rest.at[len - 2] == '\r' ? len - 2 : len - 1;
        if (feed && (before == 0 || rest.at[before - 1] != '\\'))
            break;
    }
    return len;
}

/* Does an argument have the word `chain`? Asked of the bytes, as our own reader may have refused the list. */
static bool chains(struct text list)
{
    for (size_t i = 0; i + 5 <= list.len; i++) {
        bool starts = i == 0 || !isalnum(list.at[i - 1]);
        bool ends = i + 5 == list.len || !isalnum(list.at[i + 5]);
        if (starts && ends && memcmp(list.at + i, "chain", 5) == 0)
            return true;
    }
    return false;
}

static void end_group(struct reading *reading)
{
    if (reading->group.len == 0)
        return;
    char *answer;
    size_t len;
    FILE *said = open_memstream(&answer, &len);
    bool loads = engine_loads(reading->group, reading->folder, said);
    fclose(said);
    reading->tally.groups++;
    reading->tally.loaded += loads;
    if (!loads)
        printf("%s:%zu\tengine\t%s\n", reading->path, reading->line, answer);
    free(answer);
    reading->group.len = 0;
}

static void ask_rule(struct reading *reading, const struct directive *rule, size_t line)
{
    bool good = rule->parts != 0;
    reading->tally.rules++;
    if (!good)
        printf("%s:%zu\tours\t%zu arguments\n", reading->path, line, rule->count);
    for (size_t p = 0; p < rule->parts; p++) {
        char *answer;
        size_t len;
        FILE *said = open_memstream(&answer, &len);
        bool read = rule->reader[p](rule->arguments[p], said);
        fclose(said);
        reading->tally.parts++;
        reading->tally.read += read;
        good = good && read;
        if (!read)
            printf("%s:%zu\tours\t%s %s\n", reading->path, line, rule->part[p], answer);
        free(answer);
    }
    reading->tally.whole += good;
    reading->chained = rule->count != 0 && chains(rule->arguments[rule->count - 1]);
}

/* A rule in a line whose tokens were refused: its name is read off the bytes, so that it counts. */
static bool starts_rule(struct text line)
{
    return (9 <= line.len && strncasecmp((const char *)line.at, "SecRule ", 8) == 0) ||
           (11 <= line.len && strncasecmp((const char *)line.at, "SecAction ", 10) == 0);
}

/* One logical line. Lines of one group stand one after another in the file, so that the group only grows. */
static void ask_line_of(struct reading *reading, struct text line, size_t number)
{
    static struct directive directives[MOST_DIRECTIVES];
    size_t count, len;
    char *answer;
    FILE *said = open_memstream(&answer, &len);
    bool read = ours_directives(line, directives, &count, said);
    fclose(said);
    if (!read)
        printf("%s:%zu\tours\ttokens %s\n", reading->path, number, answer);
    free(answer);
    bool rule = read ? count == 1 && is_rule(directives) : starts_rule(line);
    if (reading->chained && reading->group.len != 0)
        reading->group.len = (size_t)(line.at + line.len - reading->group.at);
    else if (rule) {
        end_group(reading);
        reading->group = line;
        reading->line = number;
    }
    if (rule && read)
        ask_rule(reading, directives, number + directives[0].line - 1);
    else if (rule) {
        reading->tally.rules++;
        reading->chained = chains(line);
    }
}

/* The file at once: does the engine load it, and are its tokens read here. */
static void ask_whole(struct reading *reading, struct text file, const char *path)
{
    char *theirs, *own;
    size_t len, count;
    static struct directive directives[MOST_DIRECTIVES];
    FILE *said = open_memstream(&theirs, &len);
    bool loads = engine_loads_file(path, said);
    fclose(said);
    said = open_memstream(&own, &len);
    bool read = ours_directives(file, directives, &count, said);
    fclose(said);
    reading->tally.files++;
    reading->tally.files_loaded += loads;
    reading->tally.files_read += read;
    printf("%s\tengine\t%s\n", reading->path, loads ? "loads" : theirs);
    printf("%s\tours\t%zu bytes: %s\n", reading->path, file.len, read ? "0" : own);
    free(theirs);
    free(own);
}

static struct tally ask_file(const char *path)
{
    struct text file = whole(path), rest = file;
    char *copy = strdup(path), *other = strdup(path);
    struct reading reading = {.path = basename(copy), .folder = dirname(other)};
    ask_whole(&reading, file, path);
    for (size_t number = 1; rest.len != 0;) {
        struct text line = {rest.at, logical_line(rest)};
        ask_line_of(&reading, line, number);
        for (size_t i = 0; i < line.len; i++)
            number += line.at[i] == '\n';
        rest = (struct text){rest.at + line.len, rest.len - line.len};
    }
    end_group(&reading);
    free(copy);
    free(other);
    free((void *)file.at);
    return reading.tally;
}

int ask_files(int count, char **paths)
{
    struct tally all = {0};
    for (int i = 0; i < count; i++) {
        struct tally one = ask_file(paths[i]);
        all.files += one.files;
        all.files_loaded += one.files_loaded;
        all.files_read += one.files_read;
        all.rules += one.rules;
        all.groups += one.groups;
        all.loaded += one.loaded;
        all.whole += one.whole;
        all.parts += one.parts;
        all.read += one.read;
    }
    printf("all\tengine\t%zu of %zu files load; %zu rules, with their chains %zu, of which %zu load\n",
           all.files_loaded, all.files, all.rules, all.groups, all.loaded);
    printf("all\tours\t%zu of %zu files are read at once; %zu of %zu rules are read; %zu of %zu parts\n",
           all.files_read, all.files, all.whole, all.rules, all.read, all.parts);
    return 0;
}
