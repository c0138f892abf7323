/* The readers of SecRule packages, proved: libseclang.a (tools/library makes it). This file alone is
 * enough to call them; samples/ids.c is a small program that does.
 *
 * Every call takes any bytes and any lent memory, returns, and refuses by number. Nothing is kept between calls, so
 * that threads may call at once; those that share an index take turns.
 *
 * WHAT A CALLER OWES. A pointer and a length stand for memory that is there for the whole call, aligned for its type,
 * and no memory that is written overlaps any other of the same call. A length of 0 still takes a pointer that is not
 * null. A bool is 0 or 1. Lengths of records and values are in words, not bytes. The library's number is the header's:
 * seclang_version() == SECLANG_VERSION.
 *
 * WHAT IS NEW IN VERSION 5. seclang_directives has one more parameter, `from_2_7` right behind `input_len`: with true
 * every rule that does not continue a chain must have an id, as ModSecurity asks for from 2.7 on, and 18 says which has
 * none; with false it does what it did in version 4. A host that calls it must choose for each package and be compiled
 * again; nothing else has changed. seclang_write_actions came to version 5 later, and 19 has a second name for it:
 * SECLANG_NOT_WRITTEN. In version 4 the limit became 1048576 bytes for 16384, a cursor's line and column
 * 1048577 for 16385, and a span word offset * 4294967296 + length for offset * 65536 + length. A host that was compiled
 * for version 3 takes spans apart wrongly; where it uses SECLANG_SPAN_OFFSET and SECLANG_SPAN_LENGTH its source need
 * not change for that. Span words that a host has stored become those of this version by seclang_span_from_old, and
 * seclang_span_to_old leads back. What is sized by SECLANG_LIMIT became 64 times as large: see how much to lend. In
 * version 3 action and variable records got one more word and 5, 7, 8 and 10 to 12 one more value, the last: the span
 * of what was read or refused. In version 2, 10 to 12 took the place of 6.
 *
 * NUMBERS AND VALUES. A reader returns a number and stores its values at the front of `values` where they fit whole;
 * no other word of `values` is touched, and none at all where they do not fit. SECLANG_VALUES_MOST words are enough
 * for every reader. The numbers are tried in the order 1, 2, 3, 9, then 5, 7, 8 and 10 to 12 at the first bad piece,
 * then 19, then 4. In a package 5, 7, 8, 10 to 15 and 18 come in the order of the text; of one directive 13 first, then
 * its variables, its operator and its actions, and 18 last. 16, 17 and 20 are for the two that keep an index of ids,
 * tried in the order 20, 16, 17, and 21 is for the two that convert span words; these four give no other but 0. No call
 * gives 6.
 *
 *   number  given exactly when                                values          text and records afterwards
 *   0       none below                                        by reader       what was read, and zeros beyond
 *   1       the input is over 1048576 bytes                   1048576         untouched
 *   2       a byte is 128 or more                             its place       untouched
 *   3       text or scratch is shorter than the input         0               untouched
 *   4       more records than fit (where something is         how many        all zero
 *           written: more bytes)
 *   5       unknown action                                    piece, length,  its name in small letters and zeros; zero
 *                                                             span
 *   7       unknown variable                                  as for 5        its name as written and zeros; zero
 *   8       unknown operator                                  place, length,  nothing is lent
 *                                                             span
 *   9       a cursor past the end, or a line or column that   0               untouched
 *           is 0 or above 1048577
 *   10      an action that must have an argument has none     as for 5        the action's name and zeros; zero
 *   11      an argument that says no number                   as for 5        as for 10
 *   12      an argument that is a number past its width       as for 5        as for 10
 *   13      a directive with a wrong count of arguments       line            all zero
 *   14      a word or string that no directive takes          line            all zero
 *   15      reading stopped early, and all before is good     line            all zero
 *   16      the rule's id stands already (indexes)            its line there  the index is as it was
 *   17      the rule's id is new, and there is no place       the places      the index is as it was
 *           for it (indexes)
 *   18      a rule that must have an id and has none          line            all zero
 *           (packages from 2.7 on)
 *   19      a record that no reader makes, or (action lists)  its number      all zero
 *           that is not read back as it would be written
 *   20      no index: no words at all, a count above the      0               the words are as they were
 *           places, ids that do not ascend strictly, or a
 *           word beyond that is not 0 (indexes)
 *   21      a span word whose offset or length is above       0               nothing is lent
 *           65535 (conversions)
 *
 * A place is counted from 0, and so is a piece, among those of a list that are not empty. The length is the name's. The
 * span is that of the piece in the input, for an editor to underline; of 8 the name's, and where no name stands behind
 * the `@` the place where it would, with length 0.
 * An argument stands behind a colon: `id` has none, and `id:` the empty one, which says no number. Nor does a sign
 * alone, a `-` before digits, or digits with any other byte among them, however large they are; a severity may be a
 * word of its table. Widths stand beside the actions below; a `+` before the digits does not count. A severity loses
 * the quotation marks at both ends first. The seconds of expirevar and the amounts of setvar are never refused.
 * seclang_directives gives 5, 7, 8 and 10 to 12 with the directive's line before these values; there the place of 8 is
 * in the operator's argument as it was read and the span in the package, 8 leaves all lent memory zero, and the values
 * of 4 are directive, variable and action records.
 *
 * RECORDS are whole u64 words. A text is told by a span, offset * 4294967296 + length, the offset into `text` unless
 * said; SECLANG_SPAN_OFFSET and SECLANG_SPAN_LENGTH take it apart. Texts have no zero byte at their end.
 *
 *   token, 5 words:     kind, line, column, span in the input, text. Comments and newlines have an empty text.
 *   action, 7 words:    code, number, a, b, value kind, c, source. Beside each action below stands which of the first
 *                       six it has; a, b and c are texts, and a word that an action does not have is 0. The value is
 *                       setvar's.
 *   variable, 6 words:  1, code, counted (`&`: 1, else 0), selection, text of the selection, source.
 *   exclusion, 6 words: 2, 0, 0, 0, text behind the `!`, source. They stand behind all variables; those of
 *                       seclang_parse_variables hold for every variable of the list.
 *   directive, 11 words: kind, line, span in the input from the first byte of its name to the last of its last
 *                       argument, name, negated (`!`: 1, else 0), operator's code, text of the operator's argument,
 *                       first variable record, variable records, first action record, action records. Beside each
 *                       kind below stands which of these it has; the last four stand for every kind, with the numbers
 *                       reached so far, and any other word is 0.
 *
 * A source is a span in the input: from the first byte to the last of the piece that the record was read from, blanks
 * at both ends left out and the marks `!` and `&` included. What is taken out of a piece on the way to its text, a
 * line's continuation above all, stays within its span. Of seclang_parse_setvar it is the input without blanks at
 * both ends; the input's length, with length 0, where nothing is left. Of seclang_directives the input is the
 * package, and the span runs from the byte there that the piece's first byte came from to the one that its last byte
 * came from. Two bytes that give one, as `\"` does, are both within it; an escape that keeps its backslash gives two
 * bytes, each from its own place: in `SecAction "msg:a\,deny"` the sources are 11 with length 6, the backslash the
 * last, and 18 with length 4.
 *
 * AN INDEX OF IDS tells which rules stand, and is u64 words too, which the caller keeps: how many rules it has, then id
 * and line of each by turns, ids strictly ascending, and zeros beyond. Its places are the whole pairs behind the first
 * word; a word that is left over is one beyond. Zeros, one or more, are the empty index, and more zeros behind an index
 * are more places. An id has 64 bits throughout, so that 7 and 7 + 2^32 are two, and 0 is an id. After any calls that
 * began with zeros the words are those of an index built afresh from the rules that stand, those accepted and not
 * removed since: a freed place is used again, and a new id gets 17 exactly when as many rules with ids stand as there
 * are places. That is proved (demands/specs/StandingRules.antt).
 *
 * HOW MUCH TO LEND. A text as long as the input is always enough (a setvar alone: three bytes more). For records,
 * SECLANG_TOKENS_MOST and the like say how many an input of n bytes can need at most: with room for these, 4 is never
 * given. That is proved (BoundLaws in the proofs of lexer, actions, variables and directives); that some input of each
 * length needs as many is tested, but for whole directives, where fewer may do. With less room, 4 says how many records
 * this input needs, and the call can be made again. An index with places for n rules has SECLANG_INDEX_WORDS(n) words,
 * and a package has no more rules than directive records. SECLANG_LIMIT bytes are enough for every action list that is
 * written.
 * Zeros are written to the end of what is lent, so a large buffer for a small input costs time. At the limit the most
 * is 40 MiB of token records, 24 of variables, 19 of actions and 16 of update targets, and 72 for the three buffers of
 * seclang_directives together. Rules as people write them need a small part of that: a record in six bytes is mostly
 * enough, and for a package a directive in 24, a variable in 16 and an action in 12. Lend that, and after 4 what it
 * says.
 */
#ifndef SECLANG_H
#define SECLANG_H

#include <stdbool.h>
#include <stddef.h>
#include <stdint.h>

#ifdef __cplusplus
extern "C" {
#endif

/* What stands between `made` and `end` is written by tools/header, from the tables that the proofs cite. */

/* The header's version, the longest input, a cursor's largest line and column, the code of a name that has none, the
 * base of a span, its base before version 4 and the largest offset and length that are converted, and how many words a
 * record has. */
/* made: sizes */
#define SECLANG_VERSION 5
#define SECLANG_LIMIT 1048576
#define SECLANG_CURSOR_MOST 1048577
#define SECLANG_UNKNOWN UINT64_MAX
#define SECLANG_SPAN_BASE UINT64_C(4294967296)
#define SECLANG_OLD_SPAN_BASE 65536
#define SECLANG_OLD_SPAN_MOST 65535
#define SECLANG_TOKEN_WORDS 5
#define SECLANG_ACTION_WORDS 7
#define SECLANG_VARIABLE_WORDS 6
#define SECLANG_DIRECTIVE_WORDS 11
/* end */

#define SECLANG_VALUES_MOST 10
#define SECLANG_SPAN_OFFSET(span) ((span) / SECLANG_SPAN_BASE)
#define SECLANG_SPAN_LENGTH(span) ((span) % SECLANG_SPAN_BASE)

/* The most records that n bytes can need: each byte a token (line feeds); `t:,t:,t:`; `TX|!|!`; `TX|TX|TX`. A setvar
 * alone is one. */
#define SECLANG_TOKENS_MOST(n) (n)
#define SECLANG_ACTIONS_MOST(n) (((n) + 1) / 3)
#define SECLANG_VARIABLES_MOST(n) ((n) / 2)
#define SECLANG_UPDATE_TARGETS_MOST(n) (((n) + 1) / 3)

/* No package of n bytes needs more records than these. */
#define SECLANG_DIRECTIVES_MOST(n) ((n) / 3)
#define SECLANG_DIRECTIVES_VARIABLES_MOST(n) ((n) / 2)
#define SECLANG_DIRECTIVES_ACTIONS_MOST(n) ((n) / 3)

/* The line of seclang_list_text for n bytes of text is never longer: proved for a text that is read, in
 * listing/proofs/BoundLaws (listing-most), and a line feed; the line of a refusal is shorter. */
#define SECLANG_LISTING_MOST(n) (39 * (n) + 31)

/* The words of an index with places for n rules. */
#define SECLANG_INDEX_WORDS(n) (2 * (n) + 1)

/* made: numbers */
enum seclang_number {
    SECLANG_READ = 0,
    SECLANG_TOO_LONG = 1,
    SECLANG_NOT_ASCII = 2,
    SECLANG_SHORT_BUFFER = 3,
    SECLANG_NO_ROOM = 4,
    SECLANG_UNKNOWN_ACTION = 5,
    SECLANG_UNKNOWN_VARIABLE = 7,
    SECLANG_UNKNOWN_OPERATOR = 8,
    SECLANG_BAD_CURSOR = 9,
    SECLANG_ARGUMENT_ABSENT = 10,
    SECLANG_ARGUMENT_UNREADABLE = 11,
    SECLANG_ARGUMENT_TOO_LARGE = 12,
    SECLANG_WRONG_COUNT = 13,
    SECLANG_UNTAKEN = 14,
    SECLANG_STOPPED = 15,
    SECLANG_ID_TAKEN = 16,
    SECLANG_INDEX_FULL = 17,
    SECLANG_ID_MISSING = 18,
    SECLANG_NO_TOKEN = 19,
    SECLANG_NO_INDEX = 20,
    SECLANG_TOO_FAR = 21
};
/* end */

/* What 19 is called where an action list is written. */
#define SECLANG_NOT_WRITTEN SECLANG_NO_TOKEN

/* made: tokens */
enum seclang_token {
    SECLANG_TOKEN_DIRECTIVE = 1,
    SECLANG_TOKEN_WORD = 2,
    SECLANG_TOKEN_QUOTED_STRING = 3,
    SECLANG_TOKEN_COMMENT = 4,
    SECLANG_TOKEN_NEWLINE = 5
};
/* end */

/* The first word of a directive's record. Names are compared in any letter case: SecRule, SecAction, SecMarker,
 * SecDefaultAction; every other directive is of the last kind, whatever its arguments, and keeps none of them. */
/* made: directives */
enum seclang_directive {
    SECLANG_DIRECTIVE_RULE = 1,     /* operator and its argument, variables, actions */
    SECLANG_DIRECTIVE_ACTION = 2,   /* actions */
    SECLANG_DIRECTIVE_MARKER = 3,   /* name: the argument as it stands */
    SECLANG_DIRECTIVE_DEFAULTS = 4, /* actions */
    SECLANG_DIRECTIVE_UNKNOWN = 5   /* name: the directive's own, as written */
};
/* end */

/* The places of the source in an action's record, and in that of a variable or an exclusion. */
#define SECLANG_AT_ACTION_SOURCE (SECLANG_ACTION_WORDS - 1)
#define SECLANG_AT_VARIABLE_SOURCE (SECLANG_VARIABLE_WORDS - 1)

/* The places of the words in a directive's record. */
enum seclang_directive_word {
    SECLANG_AT_KIND = 0,
    SECLANG_AT_LINE = 1,
    SECLANG_AT_SPAN = 2,
    SECLANG_AT_NAME = 3,
    SECLANG_AT_NEGATED = 4,
    SECLANG_AT_OPERATOR = 5,
    SECLANG_AT_ARGUMENT = 6,
    SECLANG_AT_FIRST_VARIABLE = 7,
    SECLANG_AT_VARIABLES = 8,
    SECLANG_AT_FIRST_ACTION = 9,
    SECLANG_AT_ACTIONS = 10
};

/* In all that follows, behind the prefix stands the name as a rule writes it, in capitals; in a rule, letter case does
 * not matter, but for `t:`, which is small. An action without a remark has its code alone. */
/* made: actions */
enum seclang_action {
    SECLANG_ACTION_DENY = 1,
    SECLANG_ACTION_BLOCK = 2,
    SECLANG_ACTION_PASS = 3,
    SECLANG_ACTION_ALLOW = 4,
    SECLANG_ACTION_DROP = 5,
    SECLANG_ACTION_REDIRECT = 6,         /* a, as written */
    SECLANG_ACTION_CHAIN = 7,
    SECLANG_ACTION_SKIP = 8,             /* number, at most 2^32 - 1 */
    SECLANG_ACTION_SKIPAFTER = 9,        /* a, as written */
    SECLANG_ACTION_MULTIMATCH = 10,
    SECLANG_ACTION_ID = 11,              /* number, at most 2^64 - 1 */
    SECLANG_ACTION_PHASE = 12,           /* number, at most 2^8 - 1 */
    SECLANG_ACTION_SEVERITY = 13,        /* number: at most 255, or a severity word's */
    SECLANG_ACTION_MSG = 14,             /* a, without quotation marks around it */
    SECLANG_ACTION_TAG = 15,             /* a, without quotation marks around it */
    SECLANG_ACTION_REV = 16,             /* a, without quotation marks around it */
    SECLANG_ACTION_VER = 17,             /* a, without quotation marks around it */
    SECLANG_ACTION_MATURITY = 18,        /* number, at most 2^8 - 1 */
    SECLANG_ACTION_ACCURACY = 19,        /* number, at most 2^8 - 1 */
    SECLANG_ACTION_LOGDATA = 20,         /* a, without quotation marks around it */
    SECLANG_ACTION_STATUS = 21,          /* number, at most 2^16 - 1 */
    SECLANG_ACTION_SETVAR = 22,          /* a the collection, b the key, and a value */
    SECLANG_ACTION_CAPTURE = 23,
    SECLANG_ACTION_INITCOL = 24,         /* a and b: before and behind the first = */
    SECLANG_ACTION_EXPIREVAR = 25,       /* a and number: before and behind the first = */
    SECLANG_ACTION_LOG = 26,
    SECLANG_ACTION_NOLOG = 27,
    SECLANG_ACTION_AUDITLOG = 28,
    SECLANG_ACTION_NOAUDITLOG = 29,      /* also setsid, setuid, deprecatevar, exec, append, prepend, proxy, pause, xmlns */
    SECLANG_ACTION_SANITISEMATCHED = 30, /* also sanitizematched */
    SECLANG_ACTION_CTL = 31,             /* a and b: before and behind the first = */
    SECLANG_ACTION_T = 32                /* a, as written */
};
/* end */

/* A setvar's value, by its value kind. */
/* made: values */
enum seclang_value {
    SECLANG_VALUE_STRING = 1,    /* c */
    SECLANG_VALUE_INT = 2,       /* number, in two's complement */
    SECLANG_VALUE_INCREMENT = 3, /* number, in two's complement */
    SECLANG_VALUE_DECREMENT = 4, /* number, in two's complement */
    SECLANG_VALUE_DELETE = 5,
    SECLANG_VALUE_MACRO = 6      /* c */
};
/* end */

/* The first word of a variable's or an exclusion's record, and the fourth. */
/* made: targets */
enum seclang_target {
    SECLANG_TARGET_VARIABLE = 1,
    SECLANG_TARGET_EXCLUSION = 2
};

enum seclang_selection {
    SECLANG_SELECTION_NONE = 0,
    SECLANG_SELECTION_KEY = 1,
    SECLANG_SELECTION_REGEX = 2
};
/* end */

/* made: variables */
enum seclang_variable {
    SECLANG_VARIABLE_ARGS = 0,
    SECLANG_VARIABLE_ARGS_GET = 1,
    SECLANG_VARIABLE_ARGS_POST = 2,
    SECLANG_VARIABLE_ARGS_NAMES = 3,
    SECLANG_VARIABLE_ARGS_GET_NAMES = 4,
    SECLANG_VARIABLE_ARGS_POST_NAMES = 5,
    SECLANG_VARIABLE_ARGS_COMBINED_SIZE = 6,
    SECLANG_VARIABLE_REQUEST_URI = 7,
    SECLANG_VARIABLE_REQUEST_URI_RAW = 8,
    SECLANG_VARIABLE_REQUEST_FILENAME = 9,
    SECLANG_VARIABLE_REQUEST_BASENAME = 10,
    SECLANG_VARIABLE_REQUEST_LINE = 11,
    SECLANG_VARIABLE_REQUEST_METHOD = 12,
    SECLANG_VARIABLE_REQUEST_PROTOCOL = 13,
    SECLANG_VARIABLE_REQUEST_HEADERS = 14,
    SECLANG_VARIABLE_REQUEST_HEADERS_NAMES = 15,
    SECLANG_VARIABLE_REQUEST_COOKIES = 16,
    SECLANG_VARIABLE_REQUEST_COOKIES_NAMES = 17,
    SECLANG_VARIABLE_REQUEST_BODY = 18,
    SECLANG_VARIABLE_REQUEST_BODY_LENGTH = 19,
    SECLANG_VARIABLE_QUERY_STRING = 20,
    SECLANG_VARIABLE_RESPONSE_STATUS = 21,
    SECLANG_VARIABLE_RESPONSE_PROTOCOL = 22,
    SECLANG_VARIABLE_RESPONSE_HEADERS = 23,
    SECLANG_VARIABLE_RESPONSE_HEADERS_NAMES = 24,
    SECLANG_VARIABLE_RESPONSE_BODY = 25,
    SECLANG_VARIABLE_RESPONSE_CONTENT_TYPE = 26,
    SECLANG_VARIABLE_RESPONSE_CONTENT_LENGTH = 27,
    SECLANG_VARIABLE_REMOTE_ADDR = 28,
    SECLANG_VARIABLE_REMOTE_PORT = 29,
    SECLANG_VARIABLE_REMOTE_HOST = 30,
    SECLANG_VARIABLE_REMOTE_USER = 31,
    SECLANG_VARIABLE_SERVER_ADDR = 32,
    SECLANG_VARIABLE_SERVER_PORT = 33,
    SECLANG_VARIABLE_SERVER_NAME = 34,
    SECLANG_VARIABLE_TX = 35,
    SECLANG_VARIABLE_SESSION = 36,
    SECLANG_VARIABLE_ENV = 37,
    SECLANG_VARIABLE_IP = 38,
    SECLANG_VARIABLE_GLOBAL = 39,
    SECLANG_VARIABLE_RESOURCE = 40,
    SECLANG_VARIABLE_USER = 41,
    SECLANG_VARIABLE_GEO = 42,
    SECLANG_VARIABLE_MATCHED_VAR = 43,
    SECLANG_VARIABLE_MATCHED_VARS = 44,
    SECLANG_VARIABLE_MATCHED_VAR_NAME = 45,
    SECLANG_VARIABLE_MATCHED_VARS_NAMES = 46,
    SECLANG_VARIABLE_TIME = 47,
    SECLANG_VARIABLE_TIME_EPOCH = 48,
    SECLANG_VARIABLE_TIME_DAY = 49,
    SECLANG_VARIABLE_TIME_HOUR = 50,
    SECLANG_VARIABLE_TIME_MIN = 51,
    SECLANG_VARIABLE_TIME_SEC = 52,
    SECLANG_VARIABLE_TIME_WDAY = 53,
    SECLANG_VARIABLE_TIME_MON = 54,
    SECLANG_VARIABLE_TIME_YEAR = 55,
    SECLANG_VARIABLE_FILES = 56,
    SECLANG_VARIABLE_FILES_SIZES = 57,
    SECLANG_VARIABLE_FILES_TMPNAMES = 58,
    SECLANG_VARIABLE_FILES_COMBINED_SIZE = 59,
    SECLANG_VARIABLE_FILES_NAMES = 60,
    SECLANG_VARIABLE_UNIQUE_ID = 61,
    SECLANG_VARIABLE_DURATION = 64,
    SECLANG_VARIABLE_MULTIPART_PART_HEADERS = 78,
    SECLANG_VARIABLE_XML = 79,
    SECLANG_VARIABLE_HIGHEST_SEVERITY = 81,
    SECLANG_VARIABLE_STATUS_LINE = 82,
    SECLANG_VARIABLE_FULL_REQUEST = 83,
    SECLANG_VARIABLE_FULL_REQUEST_LENGTH = 84,
    SECLANG_VARIABLE_AUTH_TYPE = 85,
    SECLANG_VARIABLE_REQBODY_PROCESSOR = 86,
    SECLANG_VARIABLE_REQBODY_ERROR = 87,
    SECLANG_VARIABLE_REQBODY_ERROR_MSG = 88,
    SECLANG_VARIABLE_REQBODY_PROCESSOR_ERROR = 89,
    SECLANG_VARIABLE_REQBODY_PROCESSOR_ERROR_MSG = 90,
    SECLANG_VARIABLE_MULTIPART_STRICT_ERROR = 91       /* the Rust's MultipartStrictCheck */
};

/* The codes that no name has: no reader gives them. */
enum seclang_unnamed {
    SECLANG_UNNAMED_INBOUND_ANOMALY_SCORE = 62,
    SECLANG_UNNAMED_OUTBOUND_ANOMALY_SCORE = 63,
    SECLANG_UNNAMED_MULTIPART_BOUNDARY_QUOTED = 65,
    SECLANG_UNNAMED_MULTIPART_BOUNDARY_WHITESPACE = 66,
    SECLANG_UNNAMED_MULTIPART_DATA_AFTER = 67,
    SECLANG_UNNAMED_MULTIPART_DATA_BEFORE = 68,
    SECLANG_UNNAMED_MULTIPART_FILE_LIMIT_EXCEEDED = 69,
    SECLANG_UNNAMED_MULTIPART_HEADER_FOLDING = 70,
    SECLANG_UNNAMED_MULTIPART_INVALID_HEADER_FOLDING = 71,
    SECLANG_UNNAMED_MULTIPART_INVALID_PART = 72,
    SECLANG_UNNAMED_MULTIPART_INVALID_QUOTING = 73,
    SECLANG_UNNAMED_MULTIPART_LF_LINE = 74,
    SECLANG_UNNAMED_MULTIPART_MISSING_SEMICOLON = 75,
    SECLANG_UNNAMED_MULTIPART_STRICT_ERROR = 76,
    SECLANG_UNNAMED_MULTIPART_UNMATCHED_BOUNDARY = 77,
    SECLANG_UNNAMED_WEBSERVER_ERROR_LOG = 80
};
/* end */

/* made: operators */
enum seclang_operator {
    SECLANG_OPERATOR_RX = 0,
    SECLANG_OPERATOR_PM = 1,
    SECLANG_OPERATOR_PMFROMFILE = 2,
    SECLANG_OPERATOR_PMF = 3,
    SECLANG_OPERATOR_STREQ = 4,
    SECLANG_OPERATOR_CONTAINS = 5,
    SECLANG_OPERATOR_CONTAINSWORD = 6,
    SECLANG_OPERATOR_BEGINSWITH = 7,
    SECLANG_OPERATOR_ENDSWITH = 8,
    SECLANG_OPERATOR_WITHIN = 9,
    SECLANG_OPERATOR_STRMATCH = 10,
    SECLANG_OPERATOR_EQ = 11,
    SECLANG_OPERATOR_NE = 12,
    SECLANG_OPERATOR_GT = 13,
    SECLANG_OPERATOR_GE = 14,
    SECLANG_OPERATOR_LT = 15,
    SECLANG_OPERATOR_LE = 16,
    SECLANG_OPERATOR_DETECTSQLI = 17,
    SECLANG_OPERATOR_DETECTXSS = 18,
    SECLANG_OPERATOR_VALIDATEURLENCODING = 19,
    SECLANG_OPERATOR_VALIDATEUTF8ENCODING = 20,
    SECLANG_OPERATOR_VALIDATEBYTERANGE = 21,
    SECLANG_OPERATOR_VALIDATEHASH = 22,
    SECLANG_OPERATOR_VALIDATEDTD = 23,
    SECLANG_OPERATOR_VALIDATESCHEMA = 24,
    SECLANG_OPERATOR_VERIFYCC = 25,
    SECLANG_OPERATOR_VERIFYSSN = 26,
    SECLANG_OPERATOR_VERIFYCPF = 27,
    SECLANG_OPERATOR_IPMATCH = 28,
    SECLANG_OPERATOR_IPMATCHFROMFILE = 29,
    SECLANG_OPERATOR_IPMATCHF = 30,
    SECLANG_OPERATOR_RBL = 31,
    SECLANG_OPERATOR_GEOLOOKUP = 32,
    SECLANG_OPERATOR_GSBLOOKUP = 33,
    SECLANG_OPERATOR_INSPECTFILE = 34,
    SECLANG_OPERATOR_FUZZYHASH = 35,
    SECLANG_OPERATOR_NOMATCH = 36,
    SECLANG_OPERATOR_UNCONDITIONALMATCH = 37,
    SECLANG_OPERATOR_RSUB = 38
};
/* end */

/* made: severities */
enum seclang_severity {
    SECLANG_SEVERITY_EMERGENCY = 0,
    SECLANG_SEVERITY_ALERT = 1,
    SECLANG_SEVERITY_CRITICAL = 2,
    SECLANG_SEVERITY_ERROR = 3,
    SECLANG_SEVERITY_WARNING = 4,
    SECLANG_SEVERITY_NOTICE = 5,
    SECLANG_SEVERITY_INFO = 6,
    SECLANG_SEVERITY_DEBUG = 7
};
/* end */

/* What seclang_lookup and seclang_test are asked, and what seclang_xml_target answers. */
/* made: asked */
enum seclang_table {
    SECLANG_TABLE_VARIABLES = 0,
    SECLANG_TABLE_OPERATORS = 1,
    SECLANG_TABLE_SEVERITIES = 2
};

enum seclang_test_code {
    SECLANG_TEST_IS_COLLECTION = 0,
    SECLANG_TEST_IS_IMPLEMENTED = 1,
    SECLANG_TEST_REQUIRES_ARGUMENT = 2
};

enum seclang_xml {
    SECLANG_XML_ELEMENTS = 0,
    SECLANG_XML_ATTRIBUTES = 1,
    SECLANG_XML_ALL = 2,
    SECLANG_XML_NEITHER = 3
};
/* end */

/* SECLANG_VERSION of the header that says what the library does. */
uint64_t seclang_version(void);

/* One token at a cursor. Numbers 0 to 3 and 9. A text is read from the cursor 0, 1, 1, true: place, line, column and
 * mark, which says that only whitespace has been read since the line began. At the mark a word that starts with `sec`,
 * or is `include`, in any letter case, is a directive. Each call's values have the next cursor. Lines and columns are
 * counted on from those of the cursor, whatever they are. `text` is asked to be as long as the input; the token's text
 * is written at its front and nothing beyond is touched. Values with 0: 1, kind, line, column, first byte, length of
 * the text, and the next cursor's place, line, column and mark; or 0 and the cursor where reading stands, when no
 * token is left: at the end, or at a vertical tab or a form feed where a token would start.
 * Every step reads the whole input for 1 and 2, so that stepping through a text takes time that grows with the square
 * of its length. seclang_tokens reads it once, and its time grows with the length alone. */
uint64_t seclang_next_token(const uint8_t *input, size_t input_len, size_t place, size_t line, size_t column, bool mark,
                            uint8_t *text, size_t text_len, uint64_t *values, size_t values_len);

/* All tokens of a text. Numbers 0 to 4. Values with 0: records, bytes of text, and the place, line and column where
 * reading stopped: the input's length, or a vertical tab or a form feed where a token would start. */
uint64_t seclang_tokens(const uint8_t *input, size_t input_len, uint8_t *text, size_t text_len, uint64_t *records,
                        size_t records_len, uint64_t *values, size_t values_len);

/* The same by a second lexer, for those who trust one that they can draw on paper: a table of byte classes and states,
 * and one byte at a step. On every call it gives what seclang_tokens gives, more slowly. */
uint64_t seclang_plain_tokens(const uint8_t *input, size_t input_len, uint8_t *text, size_t text_len, uint64_t *records,
                              size_t records_len, uint64_t *values, size_t values_len);

/* The directives of a package, with their arguments read. Numbers 0 to 5, 7, 8, 10 to 15 and 18. A directive takes the
 * words and strings up to the next newline, comment or directive, or the end, which a stop is too: SecRule two or
 * three, a list of variables, an operator and an action list, the last of which may be left out; SecAction and
 * SecDefaultAction an action list; SecMarker a name; any other as many as there are. `scratch` too is asked to be as
 * long as the input; past the numbers 1 to 3 it is all zero. Texts stand directive by directive: the name, its
 * variables and exclusions, the operator's argument, its actions. Sources, and the spans of what is refused, are in the
 * package. Values with 0: directive, variable and action records, bytes of text.
 * `from_2_7` says which ModSecurity the package is for: false is 2.6 and before, where a rule may do without an id, and
 * true is 2.7 and later, where 18 with its line refuses one that does. A rule is a SecRule or a SecAction, and 0 is an
 * id. The next rule behind one with `chain` continues it and needs no id, whatever other directives stand between the
 * two; it is continued in turn only where it has a `chain` itself. Nothing need stand behind a `chain`. Unless it is
 * 18, number, values and all that is lent are the same for both. */
uint64_t seclang_directives(const uint8_t *input, size_t input_len, bool from_2_7, uint8_t *text, size_t text_len,
                            uint8_t *scratch, size_t scratch_len, uint64_t *directives, size_t directives_len,
                            uint64_t *variables, size_t variables_len, uint64_t *actions, size_t actions_len,
                            uint64_t *values, size_t values_len);

/* An action list, as the text of its string token has it. Numbers 0 to 5 and 10 to 12. `scratch` too is asked to be
 * as long as the input; past the numbers 1 to 3 it holds the list without its line continuations and then zeros,
 * refused or not. Sources are in the list as it is given, continuations and all. Values with 0: records, bytes of
 * text. */
uint64_t seclang_parse_actions(const uint8_t *input, size_t input_len, uint8_t *text, size_t text_len, uint8_t *scratch,
                               size_t scratch_len, uint64_t *records, size_t records_len, uint64_t *values,
                               size_t values_len);

/* A setvar alone, what stands behind `setvar:`: one action record, whose source is the input without blanks at both
 * ends. Numbers 0 to 4. `text` is asked to be three bytes longer than the input. Values with 0: 1, bytes of text. */
uint64_t seclang_parse_setvar(const uint8_t *input, size_t input_len, uint8_t *text, size_t text_len, uint64_t *records,
                              size_t records_len, uint64_t *values, size_t values_len);

/* A list of variables, and of update targets. Numbers 0 to 4 and 7. The exclusions of the second are looked up too;
 * those of the first are kept as written, and with no variable there is no record at all. Values with 0: records,
 * bytes of text. */
uint64_t seclang_parse_variables(const uint8_t *input, size_t input_len, uint8_t *text, size_t text_len,
                                 uint64_t *records, size_t records_len, uint64_t *values, size_t values_len);
uint64_t seclang_parse_update_targets(const uint8_t *input, size_t input_len, uint8_t *text, size_t text_len,
                                      uint64_t *records, size_t records_len, uint64_t *values, size_t values_len);

/* An operator. Numbers 0 to 2 and 8. Values with 0: negated, code, and where its argument stands in the input and how
 * long it is; with 8: where its name stands and how long it is, and the same as a span. */
uint64_t seclang_parse_operator(const uint8_t *input, size_t input_len, uint64_t *values, size_t values_len);

/* A name's code in a table, by an enum seclang_table; SECLANG_UNKNOWN where it has none, and in any other table. */
uint64_t seclang_lookup(uint64_t table, const uint8_t *name, size_t name_len);

/* A test on a code, by an enum seclang_test_code: is the variable a collection, is it implemented, does the operator
 * need an argument. Any other test, and a code that names nothing: no. */
bool seclang_test(uint64_t test, uint64_t code);

/* What an XML selection asks for, an enum seclang_xml, by the selection's kind and text. */
uint64_t seclang_xml_target(uint64_t selection, const uint8_t *text, size_t text_len);

/* A rule's phase, its first one or else 2, and whether it has the house grade, out of action records: at most one id,
 * the id 1 or more, every phase 1 to 5, every severity at most 7, every maturity and accuracy 1 to 9. Words left over
 * are not read. */
uint64_t seclang_phase(const uint64_t *records, size_t records_len);
bool seclang_grade(const uint64_t *records, size_t records_len);

/* Whether a selector takes an id: start alone, or with `ranged` from start to end, both included. */
bool seclang_matches(bool ranged, uint64_t start, uint64_t end, uint64_t id);

/* Adds a rule to an index of ids, by the rule's action records and its directive's line, which may be any number.
 * Numbers 0, 16, 17 and 20. The rule goes by its first id; one without an id is accepted and not entered. Words left
 * over are not read. Values with 0: 1 where the rule was entered and else 0, and how many rules the index has now.
 * Rules of a package are its directives of the kinds SECLANG_DIRECTIVE_RULE and SECLANG_DIRECTIVE_ACTION; the last two
 * words of their records tell where the actions are.
 * Every call looks at the whole index for 20, so that building one of n rules takes time that grows with the square of
 * n. */
uint64_t seclang_index_add(uint64_t *index, size_t index_len, const uint64_t *actions, size_t actions_len,
                           uint64_t line, uint64_t *values, size_t values_len);

/* Removes the rules from an index whose ids a selector takes, as seclang_matches has it. Numbers 0 and 20. Values with
 * 0: how many rules were removed, and how many the index has now. */
uint64_t seclang_index_remove(uint64_t *index, size_t index_len, bool ranged, uint64_t start, uint64_t end,
                              uint64_t *values, size_t values_len);

/* A span word of version 3 or before, offset * SECLANG_OLD_SPAN_BASE + length, as one of this version, and back.
 * Numbers 0 and 21. Value: the word, or with 21, given exactly when its offset or length is above
 * SECLANG_OLD_SPAN_MOST, 0. An old word's length never is, and its offset may be any. Where a word is converted, the
 * other function gives it back. 0 stays 0, so that words of a record that are not used may be converted with the
 * rest. */
uint64_t seclang_span_from_old(uint64_t word, uint64_t *values, size_t values_len);
uint64_t seclang_span_to_old(uint64_t word, uint64_t *values, size_t values_len);

/* A text's listing, as JSON and a line feed, in `out`; `text` and `records` as seclang_tokens leaves them. A text that
 * is refused lists as [number,place]. Values: the bytes written, or with 4 needed. Unless it is 4, the number is 0. */
uint64_t seclang_list_text(const uint8_t *input, size_t input_len, uint8_t *text, size_t text_len, uint64_t *records,
                           size_t records_len, uint8_t *out, size_t out_len, uint64_t *values, size_t values_len);

/* The listing of token records with their text, without a line feed; with `early` it says where reading stopped.
 * Numbers 0, 4 and 19. Values with 0: the bytes written. */
uint64_t seclang_write_listing(const uint64_t *records, size_t records_len, const uint8_t *text, size_t text_len,
                               bool early, size_t line, size_t column, uint8_t *out, size_t out_len, uint64_t *values,
                               size_t values_len);

/* Action records with their text as an action list, in one fixed spelling. Numbers 0, 4 and 19. Reading what was
 * written gives the same records, sources aside. Values with 0: the bytes written, behind which zeros stand; with 4 the
 * bytes needed, and with 19 the first record that fails, counted from 0, and both leave `out` all zero. `records` and
 * `text` are only read.
 * A name is in small letters, the one that its code above goes by: exec and the like, which are read as noauditlog, are
 * written so. Where the action has more than its name, that stands behind a colon: a number in decimal, a severity too;
 * a text as it is, or of msg, tag, rev, ver and logdata in single marks, and in double ones where it has a single one.
 * ctl, initcol and expirevar always have their `=`. A setvar is in such marks whole: `!` before what is removed, the
 * collection, a dot and the key, then `=` and the value, which a removal and the text 1 alone do without; an amount
 * that is added or taken stands behind `+` or `-` with its own sign. Between two actions stands a comma alone.
 * `records` may be those of seclang_parse_actions, those of one directive of a package, with the package's text, or any
 * that a caller made or changed, whose texts stand one right behind the other, wherever the first begins. Words left
 * over are not read, and a source may be any word.
 * 19 is for the first record that no reader makes: a code or a value kind that is none, a number past its width, a
 * word that the action does not have and that is not 0, a text, be it empty, that does not begin where the one before
 * ends, or that is not in ASCII and within `text`. It is also for one that would be read back as another: a text
 * without marks that ends in a blank, one in marks that has a mark at an end, a comma outside of marks and brackets,
 * a backslash before a line's end, a mark or a bracket left open where another record follows, a setvar whose parts
 * or value would be taken for others. And for the one with which the spelling passes SECLANG_LIMIT bytes. A list that
 * was read is always written where no text of it has a quotation mark, a backslash, a comma or a round bracket, and
 * the spelling is within the limit. */
uint64_t seclang_write_actions(const uint64_t *records, size_t records_len, const uint8_t *text, size_t text_len,
                               uint8_t *out, size_t out_len, uint64_t *values, size_t values_len);

/* [number,place], without a line feed. Numbers 0 and 4. Values with 0: the bytes written. */
uint64_t seclang_write_refusal(uint64_t number, uint64_t place, uint8_t *out, size_t out_len, uint64_t *values,
                               size_t values_len);

#ifdef __cplusplus
}
#endif

#endif
