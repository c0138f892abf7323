/* Reads one rule with the library and prints its tokens, its id, and what is wrong with a second one.
 * cc -I include compare/example.c FOLDER/libseclang.a -o example, with FOLDER as tools/library prints it. */
#include "seclang.h"

#include <inttypes.h>
#include <stdio.h>
#include <string.h>

static const char rule[] = "SecRule ARGS|!ARGS:token \"@rx (?i)union\" \"id:7,phase:2,deny,msg:'a, b'\"\n";

int main(void)
{
    uint8_t text[256];
    uint8_t scratch[256];
    uint64_t records[64];
    uint64_t values[10];

    uint64_t number = seclang_tokens((const uint8_t *)rule, strlen(rule), text, sizeof text, records, 64, values, 10);
    printf("tokens: number %" PRIu64 ", %" PRIu64 " records\n", number, values[0]);
    for (uint64_t i = 0; i < values[0]; i++) {
        const uint64_t *record = records + i * SECLANG_TOKEN_WORDS;
        printf("%" PRIu64 " %" PRIu64 ":%" PRIu64 " %.*s\n", record[0], record[1], record[2],
               (int)SECLANG_SPAN_LENGTH(record[4]), (const char *)text + SECLANG_SPAN_OFFSET(record[4]));
    }

    const char *list = "id:7,phase:2,deny,msg:'a, b'";
    number = seclang_parse_actions((const uint8_t *)list, strlen(list), text, sizeof text, scratch, sizeof scratch,
                                   records, 64, values, 10);
    size_t words = (size_t)values[0] * SECLANG_ACTION_WORDS;
    printf("actions: number %" PRIu64 ", phase %" PRIu64 ", grade %d\n", number, seclang_phase(records, words),
           seclang_grade(records, words));

    list = "deny,bogus";
    number = seclang_parse_actions((const uint8_t *)list, strlen(list), text, sizeof text, scratch, sizeof scratch,
                                   records, 64, values, 10);
    printf("actions: number %" PRIu64 ", piece %" PRIu64 ", %s at %" PRIu64 "\n", number, values[0], (const char *)text,
           SECLANG_SPAN_OFFSET(values[2]));
    return 0;
}
