/* The functions of the library, called with checks: each string is in its own block with nothing
 * after it that may be read, and an empty one is also passed at null; each output is followed by
 * guard bytes; each call is made without and with an `error`; and after an error outputs have to
 * be unchanged. Anything that isn't as the header says ends the program. */
#ifndef CALLS_H
#define CALLS_H

#include "../../rust/capi/include/semver_parser.h"
#include "texts.h"

/* Short names for the numbers in the header. The functions below take dialects and rules as
 * numbers, so that these may also be invalid. */
enum {
    CARGO = SEMVER_PARSER_DIALECT_CARGO,
    NPM = SEMVER_PARSER_DIALECT_NPM,
    CRATE_CARGO = SEMVER_PARSER_DIALECT_CRATE_CARGO,
    CRATE_NPM = SEMVER_PARSER_DIALECT_CRATE_NPM,
    DIALECTS = 4
};
enum {
    BY_DIALECT = SEMVER_PARSER_PRE_RELEASES_BY_DIALECT,
    INCLUDED = SEMVER_PARSER_PRE_RELEASES_INCLUDED,
    EXCLUDED = SEMVER_PARSER_PRE_RELEASES_EXCLUDED,
    RULES = 3
};
enum {
    OK = SEMVER_PARSER_OK,
    INVALID_RANGE = SEMVER_PARSER_INVALID_RANGE,
    NUMBER_TOO_LARGE = SEMVER_PARSER_NUMBER_TOO_LARGE,
    INVALID_VERSION = SEMVER_PARSER_INVALID_VERSION,
    OUT_OF_MEMORY = SEMVER_PARSER_OUT_OF_MEMORY,
    INVALID_ARGUMENT = SEMVER_PARSER_INVALID_ARGUMENT,
    DIFFERENT_DIALECTS = SEMVER_PARSER_DIFFERENT_DIALECTS,
    DIFFERENT_PRE_RELEASES = SEMVER_PARSER_DIFFERENT_PRE_RELEASES,
    CANNOT_UPGRADE = SEMVER_PARSER_CANNOT_UPGRADE,
    STATUSES = CANNOT_UPGRADE + 1
};

/* Counts and prints what is wrong. If there is something, `finish` returns 1. */
void check(bool holds, const char *what, const char *of);
int finish(const char *name);

semver_parser_options options_of(int dialect, int rule);

/* Makes a text: from a string, from bytes that may have zero bytes, or from a unit that is
 * repeated between two strings. */
text string(const char *bytes);
text string_of(const char *bytes, size_t length);
text repeated(const char *front, const char *unit, int count, const char *end);

/* A status, and the error that was filled in. After OK the other fields are 0. */
typedef semver_parser_error outcome;
static const outcome no_error = {SEMVER_PARSER_OK, SEMVER_PARSER_REASON_NONE, 0, 0, {0, 0, 0, 0}};

/* The functions of these names. The outputs are valid after OK. */
outcome parse(const text *version, int dialect, semver_parser_version *parsed);
outcome order_of(const text *version, const text *other, int dialect, int32_t *order);
outcome set_of(const text *range, int dialect, int rule, semver_parser_range **set);
outcome check_range(const text *range, int dialect);
outcome comparators_of(
    const text *range, int dialect, bool exact, semver_parser_comparators **comparators);

/* Whether a version satisfies a range: with semver_parser_satisfies and with a parsed range, for
 * a single version and in an array. All have to agree. */
outcome satisfies(const text *version, const text *range, int dialect, int rule, bool *answer);

/* Appends the comparators of a range. What is printed has to be what the list contains. */
outcome rewrite(const text *range, int dialect, bool exact, text *printed);

/* The set of a valid range, and what '|', '&' or '-' makes of two sets: null after an error. */
semver_parser_range *made_of(const char *range, int dialect, int rule);
semver_parser_range *combined(const semver_parser_range *set, char operation,
                            const semver_parser_range *other);
outcome combine(const semver_parser_range *set, char operation, const semver_parser_range *other,
                semver_parser_range **made);

/* Whether two sets are equal ('='), the first is a subset ('<'), or they are disjoint ('#'). */
outcome compare(const semver_parser_range *set, char operation, const semver_parser_range *other,
                bool *answer);

/* Appends what is printed for a set, and checks that the library ends it with a zero byte. */
void say_releases(text *to, const semver_parser_range *set);
void say_pre_releases(text *to, const semver_parser_range *set);
void say_lowest(text *to, const semver_parser_range *set);

/* Returns the operator of a comparator, as it is printed. */
const char *operator_text(semver_parser_op op);

#endif
