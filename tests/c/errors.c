/* Errors: each status and each reason is returned for some string, with its offset, and has its
 * own text and name; and their messages. The expected values are in rust/docs/GRAMMAR.md and in
 * rows of rust/tests/layers. */
#include "calls.h"

#include <stdio.h>
#include <string.h>

#define REASON(name) SEMVER_PARSER_REASON_##name
enum { REASONS = SEMVER_PARSER_REASON_NPM_BOUND_TOO_LARGE + 1 };

static bool is_status_seen[STATUSES];
static bool is_reason_seen[REASONS];

/* Invalid versions. */
static const struct {
    int dialect;
    const char *version;
    size_t offset;
    semver_parser_reason reason;
} versions[] = {
    {CARGO, "", 0, REASON(EMPTY)},
    {NPM, "  ", 2, REASON(EMPTY)},
    {CRATE_NPM, "", 0, REASON(EMPTY)},
    {CARGO, "1.2", 3, REASON(NOT_THREE_NUMBERS)},
    {NPM, "v", 1, REASON(NUMBER_EXPECTED)},
    {CARGO, "1..3", 2, REASON(NUMBER_EXPECTED)},
    {CRATE_CARGO, " 1.2", 4, REASON(NOT_THREE_NUMBERS)},
    {CARGO, "1.2.03", 5, REASON(LEADING_ZERO)},
    {CARGO, "1.2.3-a.007 ", 11, REASON(LEADING_ZERO)},
    {CARGO, "1.2.3-", 6, REASON(EMPTY_IDENTIFIER)},
    {CARGO, "1.2.3-a..b", 8, REASON(EMPTY_IDENTIFIER)},
    {CARGO, "1.x", 2, REASON(UNEXPECTED_CHARACTER)},
    {CARGO, "v1.2.3", 0, REASON(CARGO_V)},
    {CARGO, "1.2.3-\xC3\xA9", 6, REASON(UNEXPECTED_CHARACTER)},
    {CRATE_CARGO, "1.2.3\xFF", 5, REASON(UNEXPECTED_CHARACTER)},
    {CARGO, "18446744073709551616.0.0", 19, REASON(TOO_LARGE)},
    {NPM, "9007199254740992.0.0", 15, REASON(NPM_TOO_LARGE)},
    {CARGO, "1.2.3 x", 5, REASON(TEXT_AFTER)},
    {NPM, "1.2.3 x", 6, REASON(TEXT_AFTER)},
};

/* Invalid ranges, and ranges whose numbers are too large. */
static const struct {
    int dialect;
    const char *range;
    size_t offset;
    semver_parser_reason reason;
} ranges[] = {
    {CARGO, "", 0, REASON(EMPTY)},
    {CARGO, ">=", 2, REASON(NUMBER_EXPECTED)},
    {NPM, "1 - ", 4, REASON(NUMBER_EXPECTED)},
    {NPM, "|", 1, REASON(UNEXPECTED_END)},
    {CRATE_NPM, "1v", 1, REASON(UNEXPECTED_CHARACTER)},
    {CARGO, "1.2.3-a..b", 8, REASON(EMPTY_IDENTIFIER)},
    {CARGO, "1.2.3\xE2\x82", 5, REASON(NOT_UTF8)},
    {NPM, "\xFF", 0, REASON(NOT_UTF8)},
    {CARGO, "1.2.3-01", 8, REASON(LEADING_ZERO)},
    {CARGO, "1.2-a", 3, REASON(NOT_THREE_NUMBERS)},
    {CARGO, ">=1.2.3 <2", 8, REASON(CARGO_COMMAS)},
    {CARGO, "1, *", 3, REASON(CARGO_WILDCARD)},
    {CARGO, "1 || 2", 2, REASON(CARGO_BARS)},
    {CARGO, "1,1,1,1,1,1,1,1,1,1,1,1,1,1,1,1,1,1,1,1,1,1,1,1,1,1,1,1,1,1,1,1,1", 63,
     REASON(TOO_MANY_COMPARATORS)},
    {CARGO, "^v1", 1, REASON(CARGO_V)},
    {CARGO, "1.2.3 - 2", 6, REASON(CARGO_HYPHEN)},
    {NPM, ">=1.2.3, <2", 7, REASON(NPM_COMMA)},
    {CRATE_CARGO, "1.2.3,", 5, REASON(CRATE_COMMA)},
    {CRATE_NPM, "v1.2.3", 0, REASON(CRATE_V)},
    {CARGO, "=18446744073709551616", 1, REASON(TOO_LARGE)},
    {CRATE_NPM, "=18446744073709551616", 1, REASON(TOO_LARGE)},
    {NPM, "1 || =1.2.9007199254740992", 10, REASON(NPM_TOO_LARGE)},
    {CARGO, ">1.18446744073709551615", 3, REASON(BOUND_TOO_LARGE)},
    {NPM, "1 - 9007199254740991", 4, REASON(NPM_BOUND_TOO_LARGE)},
};

static void is_error(outcome told, int status, size_t index, size_t offset,
                     semver_parser_reason reason, const char *of) {
    check((int)told.status == status && told.index == index, "wrong error", of);
    check(told.offset == offset, "wrong offset", of);
    check(told.reason == reason, "wrong reason", of);
    is_status_seen[status] = true;
    is_reason_seen[reason] = true;
}

/* The error of a version is the same whether it is the first or the second argument. */
static void version_error_is(int dialect, const char *bytes, size_t offset,
                             semver_parser_reason reason) {
    text version = string(bytes);
    text range = string("*");
    text other = string("1.0.0");
    semver_parser_version parsed;
    bool answer = false;
    int32_t order = 0;
    is_error(parse(&version, dialect, &parsed), INVALID_VERSION, 0, offset, reason, bytes);
    is_error(satisfies(&version, &range, dialect, BY_DIALECT, &answer), INVALID_VERSION, 0, offset,
             reason, bytes);
    is_error(order_of(&version, &version, dialect, &order), INVALID_VERSION, 0, offset, reason,
             bytes);
    is_error(order_of(&other, &version, dialect, &order), INVALID_VERSION, 1, offset, reason,
             bytes);
    text_free(&version);
    text_free(&range);
    text_free(&other);
}

static void range_error_is(int dialect, const char *bytes, size_t offset,
                           semver_parser_reason reason) {
    text range = string(bytes);
    text version = string("1.0.0");
    bool is_large = reason == REASON(TOO_LARGE) || reason == REASON(NPM_TOO_LARGE)
                    || reason == REASON(BOUND_TOO_LARGE) || reason == REASON(NPM_BOUND_TOO_LARGE);
    int status = is_large ? NUMBER_TOO_LARGE : INVALID_RANGE;
    semver_parser_comparators *list = NULL;
    semver_parser_range *set = NULL;
    bool answer = false;
    is_error(satisfies(&version, &range, dialect, BY_DIALECT, &answer), status, 1, offset, reason,
             bytes);
    is_error(set_of(&range, dialect, INCLUDED, &set), status, 0, offset, reason, bytes);
    is_error(check_range(&range, dialect), status, 0, offset, reason, bytes);
    is_error(comparators_of(&range, dialect, true, &list), status, 0, offset, reason, bytes);
    text_free(&range);
    text_free(&version);
}

static void strings(void) {
    for (size_t at = 0; at < sizeof versions / sizeof *versions; at++) {
        version_error_is(versions[at].dialect, versions[at].version, versions[at].offset,
                         versions[at].reason);
    }
    for (size_t at = 0; at < sizeof ranges / sizeof *ranges; at++) {
        range_error_is(ranges[at].dialect, ranges[at].range, ranges[at].offset, ranges[at].reason);
    }
    text long_version = repeated("1.2.3-", "a", 251, "");
    text long_range = repeated("^1.2.3-", "a", 251, "");
    text long_zero = repeated("1.2.3-", "a", 3000, ".00");
    version_error_is(NPM, long_version.bytes, 256, REASON(TOO_LONG));
    range_error_is(NPM, long_range.bytes, 257, REASON(TOO_LONG));
    version_error_is(CARGO, long_zero.bytes, long_zero.length, REASON(LEADING_ZERO));
    text_free(&long_version);
    text_free(&long_range);
    text_free(&long_zero);
    text version = string("1.2.3");
    bool answer;
    is_error(satisfies(&version, &version, 4, BY_DIALECT, &answer), INVALID_ARGUMENT, 0, 0,
             REASON(NONE), "a dialect");
    is_error(satisfies(&version, &version, CARGO, BY_DIALECT, &answer), OK, 0, 0, REASON(NONE),
             "no error");
    text_free(&version);
}

/* An index that is too large, and reserved fields that aren't zero. */
static void arguments(void) {
    text range = string("^1.2");
    semver_parser_comparators *list = NULL;
    semver_parser_comparator one;
    check(comparators_of(&range, CARGO, true, &list).status == SEMVER_PARSER_OK, "no list", "^1.2");
    static const size_t indices[] = {2, 3, SIZE_MAX / sizeof(semver_parser_comparator), SIZE_MAX};
    for (size_t at = 0; at < sizeof indices / sizeof *indices; at++) {
        check(semver_parser_comparators_get(list, indices[at], &one)
                  == SEMVER_PARSER_INVALID_ARGUMENT,
              "an index that is too large", "^1.2");
    }
    semver_parser_comparators_free(list);
    text_free(&range);
    for (int at = 0; at < 6; at++) {
        semver_parser_options options = options_of(NPM, BY_DIALECT);
        semver_parser_error error;
        semver_parser_range *made = NULL;
        bool answer = true;
        options.reserved[at] = at % 2 == 0 ? 1 : INT32_MIN;
        check(semver_parser_satisfies(semver_parser_str("1"), semver_parser_str("^1 ^"), options,
                                      &answer, &error)
                      == SEMVER_PARSER_INVALID_ARGUMENT
                  && answer && error.status == SEMVER_PARSER_INVALID_ARGUMENT && error.offset == 0,
              "a reserved field is ignored", "satisfies");
        check(semver_parser_range_parse(semver_parser_str("^1"), options, &made, &error)
                      == SEMVER_PARSER_INVALID_ARGUMENT
                  && made == NULL,
              "a reserved field is ignored", "range_parse");
    }
}

static void message_of(const semver_parser_error *error, const text *of, bool caret,
                       const char *wanted);

/* Two ranges with different options: the error is about the second. */
static void two_ranges(void) {
    static const struct {
        int dialect;
        int rule;
        int status;
        const char *message;
    } others[] = {
        {CARGO, BY_DIALECT, DIFFERENT_DIALECTS, "the ranges have different dialects"},
        {CARGO, INCLUDED, DIFFERENT_DIALECTS, "the ranges have different dialects"},
        {NPM, INCLUDED, DIFFERENT_PRE_RELEASES,
         "the ranges have different rules for pre-releases"},
    };
    text of = string("^1.2");
    semver_parser_range *one = made_of("^1.2", NPM, BY_DIALECT);
    for (size_t at = 0; at < sizeof others / sizeof *others; at++) {
        semver_parser_range *other = made_of("^1.2", others[at].dialect, others[at].rule);
        semver_parser_range *made = NULL;
        bool answer = true;
        outcome told = combine(one, '|', other, &made);
        is_error(told, others[at].status, 1, 0, REASON(NONE), "two ranges");
        message_of(&told, &of, true, others[at].message);
        is_error(compare(one, '=', other, &answer), others[at].status, 1, 0, REASON(NONE),
                 "two ranges");
        check(made == NULL && answer, "an output of different options", "^1.2");
        semver_parser_range_free(other);
    }
    semver_parser_range_free(one);
    text_free(&of);
}

/* Requirements that are raised, and the errors, of which that of the version comes first. */
static void upgrades(void) {
    static const struct {
        int dialect;
        const char *range;
        const char *version;
        const char *upgraded;
    } raised[] = {
        {CARGO, "^1.2", "2.3.4", "^2.3"},
        {CARGO, ">= 1.2 , < 2.0.0", "2.3.0", ">= 1.2 , < 3.0.0"},
        {NPM, "~1.2 || ^2.0.0", "3.1.0", "~1.2 || ^2.0.0 || ^3.1.0"},
        {CARGO, "^3", "2.0.0", NULL},
    };
    static const struct {
        int dialect;
        const char *range;
        const char *version;
        int status;
        size_t index;
        size_t offset;
        semver_parser_reason reason;
    } refused[] = {
        {CARGO, "1 || 2", "1.2", INVALID_VERSION, 1, 3, REASON(NOT_THREE_NUMBERS)},
        {CARGO, "1 || 2", "3.0.0", INVALID_RANGE, 0, 2, REASON(CARGO_BARS)},
        {CARGO, "1.\xff", "1", INVALID_VERSION, 1, 1, REASON(NOT_THREE_NUMBERS)},
        {CARGO, "1.\xff", "3.0.0", INVALID_RANGE, 0, 2, REASON(NOT_UTF8)},
        {NPM, "1.x", "2.0.0-rc.1", CANNOT_UPGRADE, 0, 0, REASON(NONE)},
    };
    char *made = NULL;
    for (size_t at = 0; at < sizeof raised / sizeof *raised; at++) {
        semver_parser_status status = semver_parser_upgrade(
            semver_parser_str(raised[at].range), semver_parser_str(raised[at].version),
            options_of(raised[at].dialect, BY_DIALECT), &made, NULL);
        check(status == SEMVER_PARSER_OK
                  && (made == NULL ? raised[at].upgraded == NULL
                                   : raised[at].upgraded != NULL
                                         && strcmp(made, raised[at].upgraded) == 0),
              "another upgrade", raised[at].range);
        semver_parser_free(made);
    }
    for (size_t at = 0; at < sizeof refused / sizeof *refused; at++) {
        semver_parser_error error;
        semver_parser_status status = semver_parser_upgrade(
            semver_parser_str(refused[at].range), semver_parser_str(refused[at].version),
            options_of(refused[at].dialect, BY_DIALECT), &made, &error);
        check(status != SEMVER_PARSER_OK, "an upgrade", refused[at].range);
        if (status != SEMVER_PARSER_OK) {
            is_error(error, refused[at].status, refused[at].index, refused[at].offset,
                     refused[at].reason, refused[at].range);
        }
    }
}

/* What to underline for an error, and what was meant. */
static void spans(void) {
    static const struct {
        int dialect;
        const char *range;
        size_t start;
        size_t end;
        const char *meant;
    } rows[] = {
        {NPM, "=>1.2", 0, 2, ">=1.2"},
        {CARGO, "^01", 1, 3, "^1"},
        {NPM, ">=1.2, <2", 5, 6, ">=1.2 <2"},
        {CARGO, ">=1.2 <2", 6, 7, ">=1.2 , <2"},
        {CARGO, "1 || 2", 2, 4, NULL},
        {NPM, ">=", 2, 2, NULL},
        {NPM, "\xc3\xa4\xc3\xb6", 0, 4, NULL},
        {NPM, "1.\xff", 2, 3, NULL},
    };
    for (size_t at = 0; at < sizeof rows / sizeof *rows; at++) {
        semver_parser_string range = semver_parser_str(rows[at].range);
        semver_parser_error error;
        char *meant = NULL;
        check(semver_parser_check_range(range, rows[at].dialect, &error) != SEMVER_PARSER_OK,
              "a range", rows[at].range);
        semver_parser_span span = semver_parser_error_span(&error, range);
        check(span.start == rows[at].start && span.end == rows[at].end, "another span",
              rows[at].range);
        check(semver_parser_suggestion(&error, range, rows[at].dialect, &meant) == SEMVER_PARSER_OK
                  && (meant == NULL ? rows[at].meant == NULL
                                    : rows[at].meant != NULL
                                          && strcmp(meant, rows[at].meant) == 0),
              "another suggestion", rows[at].range);
        semver_parser_free(meant);
    }
}

/* Texts and names: each number has its own, in one line; other numbers have null. */
typedef const char *texts_of(int32_t number);

static void texts(texts_of *text, int32_t count, const char *kind) {
    static const int32_t others[] = {-1, INT32_MIN, INT32_MAX};
    check(text(count) == NULL, "a text of no number", kind);
    for (int at = 0; at < 3; at++) {
        check(text(others[at]) == NULL, "a text of no number", kind);
    }
    for (int32_t number = 0; number < count; number++) {
        const char *told = text(number);
        check(told != NULL && *told != 0 && strchr(told, '\n') == NULL, "no text", kind);
        for (int32_t other = 0; other < number && told != NULL; other++) {
            check(strcmp(told, text(other)) != 0, "a text of two numbers", told);
        }
    }
}

/* The names are those of README's options and of the table of cases. */
static void names(void) {
    static const char *const dialects[] = {"cargo", "npm", "crate-cargo", "crate-npm"};
    static const char *const of_rules[] = {"by-dialect", "included", "excluded"};
    static const char *const statuses[STATUSES] = {
        "ok", "invalid-range", "number-too-large", "invalid-version", "out-of-memory",
        "invalid-argument", "different-dialects", "different-pre-releases",
        "cannot-upgrade"};
    for (int at = 0; at < DIALECTS; at++) {
        check(strcmp(semver_parser_dialect_name(at), dialects[at]) == 0, "wrong name",
              dialects[at]);
    }
    for (int at = 0; at < RULES; at++) {
        check(strcmp(semver_parser_pre_releases_name(at), of_rules[at]) == 0, "wrong name",
              of_rules[at]);
    }
    for (int at = 0; at < STATUSES; at++) {
        check(strcmp(semver_parser_status_name(at), statuses[at]) == 0, "wrong name",
              statuses[at]);
    }
    check(strcmp(semver_parser_reason_name(REASON(LEADING_ZERO)), "leading-zero") == 0
              && strcmp(semver_parser_reason_name(REASON(NOT_UTF8)), "not-utf8") == 0
              && strcmp(semver_parser_reason_text(REASON(CARGO_BARS)),
                        "Cargo doesn't accept ||; npm does")
                     == 0,
          "wrong name of a reason", "leading-zero");
}

/* tests/c/refused.c makes functions return OUT_OF_MEMORY. */
static void all_are_returned(void) {
    is_status_seen[OUT_OF_MEMORY] = true;
    for (int status = 0; status < STATUSES; status++) {
        check(is_status_seen[status], "a status that isn't returned",
              semver_parser_status_text(status));
    }
    for (int reason = 0; reason < REASONS; reason++) {
        check(is_reason_seen[reason], "a reason that isn't returned",
              semver_parser_reason_text(reason));
    }
}

/* ---- the message of an error */

static void message_of(const semver_parser_error *error, const text *of, bool caret,
                       const char *wanted) {
    semver_parser_string string_of_error = {of->bytes, of->length};
    char *made = NULL;
    check(semver_parser_error_message(error, string_of_error, caret, &made) == SEMVER_PARSER_OK
              && made != NULL,
          "no message", wanted);
    check(made != NULL && strcmp(made, wanted) == 0, "wrong message", made);
    semver_parser_free(made);
}

/* A range, its message, and the lines with carets, which are what `{:#}` prints in Rust:
 * tests/messages.py compares more of them. */
static const struct {
    int dialect;
    const char *range;
    const char *message;
    const char *lines;
} messages[] = {
    {CARGO, "1 || 2", "invalid range \"1 || 2\" at offset 2: Cargo doesn't accept ||; npm does",
     "invalid range: Cargo doesn't accept ||; npm does\n"
     "    1 || 2\n"
     "      ^^"},
    {CARGO, ">=", "invalid range \">=\" at offset 2: a number is expected",
     "invalid range: a number is expected\n"
     "    >=\n"
     "      ^"},
    /* Quotes, and what isn't a printable character of ASCII, are escaped. */
    {NPM, "1\t\"", "invalid range \"1\\t\\\"\" at offset 2: unexpected character",
     "invalid range: unexpected character\n"
     "    1\\t\\\"\n"
     "       ^^"},
    {CARGO, "\xC3\xA9", "invalid range \"\\u{e9}\" at offset 0: unexpected character",
     "invalid range: unexpected character\n"
     "    \\u{e9}\n"
     "    ^^^^^^"},
    {NPM, "\xC2\xA0 1 \xF0\x9B\x84\xA3",
     "invalid range \"\\u{a0} 1 \\u{1b123}\" at offset 5: unexpected character",
     "invalid range: unexpected character\n"
     "    \\u{a0} 1 \\u{1b123}\n"
     "             ^^^^^^^^^"},
    {CARGO, "1.2.\xFF", "invalid range \"1.2.\\u{fffd}\" at offset 4: the string isn't UTF-8",
     "invalid range: the string isn't UTF-8\n"
     "    1.2.\\u{fffd}\n"
     "        ^^^^^^^^"},
    {CARGO, "^18446744073709551616",
     "number too large in range \"^18446744073709551616\" at offset 1: numbers are at most 2^64 - 1",
     "invalid range: numbers are at most 2^64 - 1\n"
     "    ^18446744073709551616\n"
     "     ^^^^^^^^^^^^^^^^^^^^"},
    {CARGO, "~1.18446744073709551615",
     "number too large in range \"~1.18446744073709551615\" at offset 3: the bound above this number "
     "is above 2^64 - 1",
     "invalid range: the bound above this number is above 2^64 - 1\n"
     "    ~1.18446744073709551615\n"
     "       ^^^^^^^^^^^^^^^^^^^^"},
    /* In a sentence, 32 bytes of a long string before the offset and after it are shown. */
    {NPM, "1.0.0 || 2.0.0 || 3.0.0 || 4.0.0 || 5.0.0, 6 || 7.0.0 || 8.0.0 || 9.0.0 || 10.0.0",
     "invalid range ...\"2.0.0 || 3.0.0 || 4.0.0 || 5.0.0, 6 || 7.0.0 || 8.0.0 || 9.0.0 |\"... at "
     "offset 41: npm separates comparators by spaces; Cargo takes commas",
     "invalid range: npm separates comparators by spaces; Cargo takes commas\n"
     "    1.0.0 || 2.0.0 || 3.0.0 || 4.0.0 || 5.0.0, 6 || 7.0.0 || 8.0.0 || 9.0.0 || 10.0.0\n"
     "                                             ^"},
};

static void messages_of_ranges(void) {
    for (size_t at = 0; at < sizeof messages / sizeof *messages; at++) {
        text range = string(messages[at].range);
        outcome told = check_range(&range, messages[at].dialect);
        message_of(&told, &range, false, messages[at].message);
        message_of(&told, &range, true, messages[at].lines);
        text_free(&range);
    }
}

static void other_messages(void) {
    text version = string("1.2.03");
    text empty = string("");
    text requirement = string("1.x\t");
    semver_parser_version parsed;
    semver_parser_error error = parse(&version, CARGO, &parsed);
    message_of(&error, &version, false,
               "invalid version \"1.2.03\" at offset 5: numbers and identifiers of digits may not "
               "have a leading zero");
    /* A string that isn't the one of the error: the offset is after its end. */
    message_of(&error, &empty, false,
               "invalid version \"\" at offset 5: numbers and identifiers of digits may not "
               "have a leading zero");
    message_of(&error, &empty, true,
               "invalid version: numbers and identifiers of digits may not have a leading zero\n"
               "    \n"
               "    ^");
    error = no_error;
    message_of(&error, &version, true, "no error");
    error.status = SEMVER_PARSER_OUT_OF_MEMORY;
    message_of(&error, &version, true, "out of memory");
    error.status = SEMVER_PARSER_INVALID_ARGUMENT;
    message_of(&error, &version, false, "invalid argument");
    /* A requirement that can't be raised is named in both messages, as in Rust. */
    error.status = SEMVER_PARSER_CANNOT_UPGRADE;
    for (int caret = 0; caret < 2; caret++) {
        message_of(&error, &requirement, caret,
                   "the requirement can't be raised to this version: \"1.x\\t\"");
    }
    text_free(&version);
    text_free(&empty);
    text_free(&requirement);
}

static void library_version(void) {
    check(strcmp(semver_parser_library_version(), SEMVER_PARSER_VERSION) == 0, "wrong version",
          "");
    check(semver_parser_library_version_number()
              == SEMVER_PARSER_VERSION_MAJOR * 1000000 + SEMVER_PARSER_VERSION_MINOR * 1000
                     + SEMVER_PARSER_VERSION_PATCH
              && semver_parser_library_version_number() == SEMVER_PARSER_VERSION_NUMBER,
          "wrong number of the version", "");
}

int main(void) {
    strings();
    arguments();
    two_ranges();
    upgrades();
    spans();
    all_are_returned();
    texts(semver_parser_status_text, STATUSES, "a status");
    texts(semver_parser_status_name, STATUSES, "the name of a status");
    texts(semver_parser_reason_text, REASONS, "a reason");
    texts(semver_parser_reason_name, REASONS, "the name of a reason");
    texts(semver_parser_dialect_name, DIALECTS, "a dialect");
    texts(semver_parser_pre_releases_name, RULES, "a rule");
    names();
    messages_of_ranges();
    other_messages();
    library_version();
    return finish("errors");
}
