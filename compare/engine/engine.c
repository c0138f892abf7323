/* The engine's side: libmodsecurity, through its own C interface. */
#include "sides.h"

#include <fcntl.h>
#include <modsecurity/modsecurity.h>
#include <modsecurity/intervention.h>
#include <modsecurity/rules_set.h>
#include <modsecurity/transaction.h>
#include <stdlib.h>
#include <string.h>
#include <sys/wait.h>
#include <unistd.h>

/* What is asked: rules as they stand or in a file, in a folder, and an address where a request is to be run. */
struct asked {
    const char *plain, *path, *folder, *address;
};

/* What the engine logged last, and of it the fields of a rule that say something. */
static char logged[65536];

static void keep_log(void *unused, const void *line)
{
    (void)unused;
    snprintf(logged, sizeof logged, "%s", (const char *)line);
}

static void tell_logged(void)
{
    static const char *const fields[] = {"rev", "msg", "data", "severity", "ver", "maturity", "accuracy"};
    for (size_t i = 0; i < sizeof fields / sizeof fields[0]; i++) {
        char head[32];
        snprintf(head, sizeof head, "[%s \"", fields[i]);
        char *from = strstr(logged, head);
        char *until = from ? strstr(from, "\"]") : NULL;
        char *value = from ? from + strlen(head) : NULL;
        if (until && until != value && strncmp(value, "0\"", 2) != 0)
            printf("; %s %.*s", fields[i], (int)(until - value), value);
    }
}

static bool denied(Transaction *request)
{
    ModSecurityIntervention what = {.status = 200};
    return msc_intervention(request, &what) != 0 && what.disruptive;
}

/* The phase that denies a request for the address, or 0. */
static int denying(ModSecurity *engine, RulesSet *rules, const char *address)
{
    Transaction *request = msc_new_transaction(engine, rules, NULL);
    msc_process_connection(request, "127.0.0.1", 1, "127.0.0.1", 80);
    msc_process_uri(request, address, "GET", "1.1");
    msc_process_request_headers(request);
    if (denied(request))
        return 1;
    msc_process_request_body(request);
    if (denied(request))
        return 2;
    msc_process_response_headers(request, 200, "HTTP 1.1");
    if (denied(request))
        return 3;
    msc_process_response_body(request);
    return denied(request) ? 4 : 0;
}

/* In a process of its own: loads the rules, and writes to `answer` the error, or the rules as the engine's own dump has
 * them, or what became of the request. What the engine prints while it loads goes nowhere. */
static void ask(const struct asked *asked, int answer)
{
    dup2(open("/dev/null", O_WRONLY), 1);
    if (asked->folder && chdir(asked->folder) != 0)
        _exit(3);
    ModSecurity *engine = msc_init();
    msc_set_log_cb(engine, keep_log);
    RulesSet *rules = msc_create_rules_set();
    const char *error = NULL;
    int loaded = asked->path ? msc_rules_add_file(rules, asked->path, &error)
                             : msc_rules_add(rules, asked->plain, &error);
    int phase = asked->address && 0 <= loaded ? denying(engine, rules, asked->address) : 0;
    fflush(stdout);
    dup2(answer, 1);
    if (loaded < 0)
        printf("E%s", error ? error : "no text");
    else if (asked->address) {
        printf(phase ? "Rloads; denies in phase %d" : "Rloads; passes", phase);
        tell_logged();
    } else {
        printf("L\n");
        fflush(stdout);
        msc_rules_dump(rules);
    }
    fflush(stdout);
    _exit(0);
}

/* The error without its head, which says where the rules came from, and without addresses in memory. */
static void tell_error(const char *answer, size_t len, FILE *said)
{
    const char *behind = strstr(answer, ". Line: ");
    const char *from = behind ? behind + 2 : answer;
    struct text error = {(const uint8_t *)from, len - (size_t)(from - answer)};
    while (error.len && strchr(" \n\r", error.at[error.len - 1]))
        error.len--;
    const char *address = strstr(from, "File: 0x");
    if (address) {
        size_t before = (size_t)(address - from);
        size_t digits = 8 + strspn(address + 8, "0123456789abcdef");
        escaped(said, (struct text){error.at, before});
        error = (struct text){error.at + before + digits, error.len - before - digits};
    }
    escaped(said, error);
}

/* The dump's places count from the connection and the address, which come before phase 1; a rule that is no SecRule has
 * its place in the text there for an id. */
static void tell_loaded(char *answer, FILE *said)
{
    int place = -1;
    for (char *line = strtok(answer, "\n"); line; line = strtok(NULL, "\n")) {
        char *id = strstr(line, "Rule ID: ");
        if (sscanf(line, "Phase: %d", &place) == 1 || id == NULL)
            continue;
        id += strlen("Rule ID: ");
        char *behind = strstr(id, "--"), *file = strstr(id, ">>:");
        fprintf(said, file ? "; line " : "; id ");
        id = file ? file + 3 : id;
        fprintf(said, "%.*s, ", behind ? (int)(behind - id) : (int)strlen(id), id);
        fprintf(said, place < 2 ? "before phase 1" : "phase %d", place - 1);
    }
}

/* All that a process wrote, and how it ended. */
static char *answer_of(const struct asked *asked, size_t *len, int *status)
{
    int ends[2];
    fflush(NULL);
    if (pipe(ends) != 0)
        exit(2);
    pid_t child = fork();
    if (child == 0)
        ask(asked, ends[1]);
    close(ends[1]);
    char *answer, some[4096];
    FILE *whole = open_memstream(&answer, len);
    for (ssize_t n; 0 < (n = read(ends[0], some, sizeof some));)
        fwrite(some, 1, (size_t)n, whole);
    fclose(whole);
    close(ends[0]);
    waitpid(child, status, 0);
    return answer;
}

static bool told(const struct asked *asked, FILE *said)
{
    size_t len;
    int status;
    char *answer = answer_of(asked, &len, &status);
    char first = answer[0];
    if (WIFSIGNALED(status))
        fprintf(said, "ends by signal %d", WTERMSIG(status));
    else if (first == 'L') {
        fprintf(said, "loads");
        tell_loaded(answer + 1, said);
    } else if (first == 'R')
        escaped(said, (struct text){(const uint8_t *)answer + 1, len - 1});
    else
        tell_error(answer + (len != 0), len ? len - 1 : 0, said);
    free(answer);
    return !WIFSIGNALED(status) && (first == 'L' || first == 'R');
}

/* The interface takes a text up to its first zero byte; a text with one goes through a file. */
bool engine_loads(struct text rules, const char *folder, FILE *said)
{
    char path[] = "/tmp/rulesXXXXXX";
    if (memchr(rules.at, 0, rules.len) == NULL) {
        char *plain = strndup((const char *)rules.at, rules.len);
        bool loads = told(&(struct asked){.plain = plain, .folder = folder}, said);
        free(plain);
        return loads;
    }
    int file = mkstemp(path);
    if (file < 0 || write(file, rules.at, rules.len) != (ssize_t)rules.len)
        exit(2);
    close(file);
    bool loads = told(&(struct asked){.path = path, .folder = folder}, said);
    unlink(path);
    return loads;
}

bool engine_runs(struct text rules, const char *address, FILE *said)
{
    char *plain;
    size_t len;
    FILE *whole = open_memstream(&plain, &len);
    fputs("SecRuleEngine On\n", whole);
    fwrite(rules.at, 1, rules.len, whole);
    fclose(whole);
    bool loads = told(&(struct asked){.plain = plain, .address = address}, said);
    free(plain);
    return loads;
}

bool engine_loads_file(const char *path, FILE *said)
{
    return told(&(struct asked){.path = path}, said);
}

void engine_names_itself(FILE *said)
{
    ModSecurity *engine = msc_init();
    fprintf(said, "%s", msc_who_am_i(engine));
    msc_cleanup(engine);
}
