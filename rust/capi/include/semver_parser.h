/* Versions and ranges of Cargo, npm and the Rust crate semver-parser.
 *
 *     semver_parser_options npm = semver_parser_options_of(SEMVER_PARSER_DIALECT_NPM);
 *     semver_parser_string given[] = {semver_parser_str("1.9.0"), semver_parser_str("^1.2")};
 *     bool satisfies;
 *     semver_parser_error error;
 *     char *message;
 *     if (semver_parser_satisfies(given[0], given[1], npm, &satisfies, &error) != SEMVER_PARSER_OK
 *         && semver_parser_error_message(&error, given[error.index], false, &message)
 *             == SEMVER_PARSER_OK) {
 *         fprintf(stderr, "%s\n", message);
 *         semver_parser_free(message);
 *     }
 *
 * Compile with `pkg-config --cflags --libs semver_parser`. Each type and each function has a page
 * of the manual (man semver_parser_range, man semver_parser_satisfies); semver-ranges(7) explains
 * ranges. C99 or later, or C++11.
 *
 * STRINGS are UTF-8 with a length in bytes, and need no terminating zero. `data` may be null if
 * `length` is 0, and an array may be null if its `count` is 0. A `char *` that a function makes is
 * zero-terminated; semver_parser_free frees it.
 *
 * ERRORS. A function returns SEMVER_PARSER_OK or the status of an error. After an error its outputs
 * are unchanged, and `error`, which may be null, has the details; after OK, `error` is unchanged,
 * too. INVALID_ARGUMENT comes first, then the errors of the arguments from left to right.
 * OUT_OF_MEMORY is returned only by a function that allocates: one that makes or prints something,
 * combines ranges, or fills `error` for an invalid string. In the last case the status is then
 * OUT_OF_MEMORY instead of the status of the invalid string. The others don't allocate.
 *
 * THE CALLER MUST pass valid pointers, not null unless that is allowed, and not change what they
 * point to during a call. Threads may call concurrently, and read one range or list at once. Don't
 * call this library in a forked child of a multithreaded process, since it uses malloc, which POSIX
 * doesn't allow there.
 *
 * COMPATIBILITY. A minor version may add functions, statuses, reasons, dialects and rules, and give
 * a meaning to reserved fields. Treat a number that you don't know as an unknown error. These types
 * never change: semver_parser_string, semver_parser_version, semver_parser_comparator, and
 * semver_parser_term with the types of its fields.
 */
#ifndef SEMVER_PARSER_H
#define SEMVER_PARSER_H

#ifndef __cplusplus
#include <stdbool.h>
#endif
#include <stddef.h>
#include <stdint.h>
#include <string.h>

/* The version of this header, and its number for `#if`: 1.2.3 is 1002003. */
#define SEMVER_PARSER_VERSION_MAJOR 1
#define SEMVER_PARSER_VERSION_MINOR 0
#define SEMVER_PARSER_VERSION_PATCH 0
#define SEMVER_PARSER_VERSION "1.0.0"
#define SEMVER_PARSER_VERSION_NUMBER 1000000

/* Attributes, for compilers that have them. */
#if defined(__GNUC__)
#define SEMVER_PARSER_NONNULL(...) __attribute__((nonnull(__VA_ARGS__)))
#define SEMVER_PARSER_CHECKED(...) __attribute__((warn_unused_result, nonnull(__VA_ARGS__)))
#define SEMVER_PARSER_USED __attribute__((warn_unused_result))
#pragma GCC visibility push(default)
#else
#define SEMVER_PARSER_NONNULL(...)
#define SEMVER_PARSER_CHECKED(...)
#define SEMVER_PARSER_USED
#endif

#ifdef __cplusplus
extern "C" {
#endif

typedef struct {
    const char *data;
    size_t length;
} semver_parser_string;

/* Returns a string for a zero-terminated one, which it doesn't copy. */
SEMVER_PARSER_NONNULL(1)
static inline semver_parser_string semver_parser_str(const char *zero_terminated) {
    semver_parser_string string = {zero_terminated, strlen(zero_terminated)};
    return string;
}

/* Frees a `char *` that a function returned; null is allowed. */
void semver_parser_free(void *string);

/* ---- options */

/* The dialect in which strings are read (semver-ranges(7)). */
typedef int32_t semver_parser_dialect;
enum {
    /* Cargo: `1.2` is `>=1.2.0 <2.0.0`. Versions are those of SemVer 2.0.0. */
    SEMVER_PARSER_DIALECT_CARGO = 0,
    /* npm: `1.2` is `>=1.2.0 <1.3.0`. A version may have a `v` before it, and white space around
     * it. Numbers go up to 2^53 - 1, and versions have at most 256 characters. */
    SEMVER_PARSER_DIALECT_NPM = 1,
    /* The Rust crate in its Cargo mode, which isn't Cargo's dialect: `1.2` is `>=1.2.0 <1.3.0`. */
    SEMVER_PARSER_DIALECT_CRATE_CARGO = 2,
    /* The Rust crate in its npm mode, which isn't npm's dialect: `>1.2` is `>1.2.0`. */
    SEMVER_PARSER_DIALECT_CRATE_NPM = 3
};

/* Which pre-releases satisfy a range. */
typedef int32_t semver_parser_pre_releases;
enum {
    /* Those that Cargo and npm match by default: `^1.2.3-rc` contains 1.2.3-rc.1, not 1.3.0-rc. */
    SEMVER_PARSER_PRE_RELEASES_BY_DIALECT = 0,
    /* Every one within the bounds of the range. */
    SEMVER_PARSER_PRE_RELEASES_INCLUDED = 1,
    /* None. */
    SEMVER_PARSER_PRE_RELEASES_EXCLUDED = 2
};

typedef struct {
    semver_parser_dialect dialect;
    semver_parser_pre_releases pre_releases;
    /* Must be zero; otherwise functions return INVALID_ARGUMENT. */
    int32_t reserved[6];
} semver_parser_options;

/* Returns the options of a dialect with its default rule for pre-releases. */
static inline semver_parser_options semver_parser_options_of(semver_parser_dialect dialect) {
    semver_parser_options options;
    memset(&options, 0, sizeof options);
    options.dialect = dialect;
    return options;
}

/* Returns the name of a dialect or of a rule for pre-releases, or null if there is no such number.
 * The names are "cargo", "npm", "crate-cargo", "crate-npm"; "by-dialect", "included", "excluded".
 * Numbers count from 0. */
const char *semver_parser_dialect_name(semver_parser_dialect dialect);
const char *semver_parser_pre_releases_name(semver_parser_pre_releases pre_releases);

/* ---- errors */

typedef int32_t semver_parser_status;
enum {
    /* No error. */
    SEMVER_PARSER_OK = 0,
    /* The string is not a range in the dialect. */
    SEMVER_PARSER_INVALID_RANGE = 1,
    /* The string is a range in the dialect, but a number or a raised bound is above 2^64 - 1, or
     * above 2^53 - 1 in npm's dialect. */
    SEMVER_PARSER_NUMBER_TOO_LARGE = 2,
    /* The string is an invalid version in the dialect. */
    SEMVER_PARSER_INVALID_VERSION = 3,
    /* An allocation failed. */
    SEMVER_PARSER_OUT_OF_MEMORY = 4,
    /* An option doesn't exist, a reserved field isn't zero, an index is too large, or a range
     * doesn't have the version that is to be replaced. */
    SEMVER_PARSER_INVALID_ARGUMENT = 5,
    /* The second of two ranges has a different dialect than the first. */
    SEMVER_PARSER_DIFFERENT_DIALECTS = 6,
    /* The second of two ranges has the same dialect, but a different rule for pre-releases. */
    SEMVER_PARSER_DIFFERENT_PRE_RELEASES = 7,
    /* A requirement can't be written so that it contains a newer version. */
    SEMVER_PARSER_CANNOT_UPGRADE = 8
};

/* Why a string is an invalid version or range. For the reasons from CARGO_COMMAS to CRATE_V, what
 * is invalid in this dialect is valid in another one. */
typedef int32_t semver_parser_reason;
enum {
    /* No string is invalid: the status is OK, or that of an error that isn't about a string. */
    SEMVER_PARSER_REASON_NONE = 0,
    /* The string is empty, or only white space that the dialect allows there. */
    SEMVER_PARSER_REASON_EMPTY = 1,
    /* There are fewer than three numbers: the version `1.2`, the range `1.2-rc`. */
    SEMVER_PARSER_REASON_NOT_THREE_NUMBERS = 2,
    /* A number or a pre-release identifier of digits has a leading zero: `1.2.03`. */
    SEMVER_PARSER_REASON_LEADING_ZERO = 3,
    /* An identifier is empty: `1.2.3-`, `1.2.3-a..b`. */
    SEMVER_PARSER_REASON_EMPTY_IDENTIFIER = 4,
    /* This character isn't allowed there in a version or range: `1.x` as a version, `1.2.3.4`. */
    SEMVER_PARSER_REASON_UNEXPECTED_CHARACTER = 5,
    /* A number is above 2^64 - 1. */
    SEMVER_PARSER_REASON_TOO_LARGE = 6,
    /* A version is longer than npm's 256 characters, or a build identifier longer than 250. */
    SEMVER_PARSER_REASON_TOO_LONG = 7,
    /* A version is followed by something else: `1.2.3 x`. */
    SEMVER_PARSER_REASON_TEXT_AFTER = 8,
    /* A range isn't UTF-8: `offset` is that of the first invalid byte. */
    SEMVER_PARSER_REASON_NOT_UTF8 = 9,
    /* A number is expected: `>=`, `^1..2`. */
    SEMVER_PARSER_REASON_NUMBER_EXPECTED = 10,
    /* A range needs more at its end. */
    SEMVER_PARSER_REASON_UNEXPECTED_END = 11,
    /* Cargo separates comparators by commas: `>=1.2.3 <2`. */
    SEMVER_PARSER_REASON_CARGO_COMMAS = 12,
    /* Cargo allows `*` without a number before it only as the whole requirement: `1, *`. */
    SEMVER_PARSER_REASON_CARGO_WILDCARD = 13,
    /* Cargo doesn't allow `||`: `1 || 2`. */
    SEMVER_PARSER_REASON_CARGO_BARS = 14,
    /* Cargo doesn't allow a leading `v`, before a version or in a range: `v1.2.3`, `^v1`. */
    SEMVER_PARSER_REASON_CARGO_V = 15,
    /* Cargo doesn't have hyphen ranges: `1.2.3 - 2`. */
    SEMVER_PARSER_REASON_CARGO_HYPHEN = 16,
    /* npm separates comparators by spaces: `>=1.2.3, <2`. */
    SEMVER_PARSER_REASON_NPM_COMMA = 17,
    /* The crate doesn't allow commas: `1.2.3,`. */
    SEMVER_PARSER_REASON_CRATE_COMMA = 18,
    /* The crate doesn't allow a leading `v`, before a version or in a range. */
    SEMVER_PARSER_REASON_CRATE_V = 19,
    /* In npm's dialect, a number is above 2^53 - 1. */
    SEMVER_PARSER_REASON_NPM_TOO_LARGE = 20,
    /* Cargo allows at most 32 comparators. */
    SEMVER_PARSER_REASON_TOO_MANY_COMPARATORS = 21,
    /* The bound above a number of a range is above 2^64 - 1: `>1.18446744073709551615`. */
    SEMVER_PARSER_REASON_BOUND_TOO_LARGE = 22,
    /* In npm's dialect, the bound above a number of a range is above 2^53 - 1. */
    SEMVER_PARSER_REASON_NPM_BOUND_TOO_LARGE = 23
};

/* Where and why a call failed. */
typedef struct {
    semver_parser_status status;
    semver_parser_reason reason;
    /* The byte offset of the first character that isn't allowed there, or the length of the string
     * if something is missing at its end. After NUMBER_TOO_LARGE, the offset of the number that is
     * too large. */
    size_t offset;
    /* The index of the string or range of the call that the error is about: 0 for the first, 1 for
     * the second; for an array, the index in it. */
    size_t index;
    /* Zero. */
    uint64_t reserved[4];
} semver_parser_error;

/* Makes an English sentence for an error:
 * `invalid range "1 || 2" at offset 2: Cargo doesn't accept ||; npm does`. With `caret`, it makes
 * three lines for a terminal instead: `invalid range: Cargo doesn't accept ||; npm does`, then the
 * string, and below it carets under the span of semver_parser_error_span. The string and the
 * carets are indented by four spaces. `string` is the string of the call that `error->index`
 * refers to. The sentence has only a part of a long string, and the lines have all of it.
 * Characters other than the printable ones of ASCII are escaped: `\t`, `\u{2013}`, and
 * `\u{fffd}` for bytes that aren't UTF-8. If a requirement can't be raised, the sentence has the
 * requirement. For any other error that isn't about an invalid string, such as that of ranges in
 * different dialects, it is only the semver_parser_status_text, whatever `string` is.
 * semver_parser_free frees the message. */
SEMVER_PARSER_CHECKED(1, 4)
semver_parser_status semver_parser_error_message(
    const semver_parser_error *error, semver_parser_string string, bool caret, char **message);

/* A part of a string: the offset at which it begins, and the one after it. */
typedef struct {
    size_t start;
    size_t end;
} semver_parser_span;

/* Returns the part of a string to underline for an error: the characters of the same kind around
 * `error->offset`, such as a whole number or a whole operator. For a leading zero it is the number
 * that begins with it. It is empty only at the end of the string. `string` is the string of the
 * call that `error->index` refers to. If an error isn't about a string, the span is empty. */
SEMVER_PARSER_NONNULL(1)
semver_parser_span semver_parser_error_span(
    const semver_parser_error *error, semver_parser_string string);

/* Makes the valid string that may have been meant by the invalid one of an error, or null if none
 * is known: `>=1.2` for `=>1.2`. It differs from `string` only in the spans of errors. `string` is
 * the string of the call that `error->index` refers to, and `dialect` is that of the call. For an
 * error that isn't about a string, and for one that isn't UTF-8, it is null. semver_parser_free
 * frees it. */
SEMVER_PARSER_CHECKED(1, 4)
semver_parser_status semver_parser_suggestion(
    const semver_parser_error *error, semver_parser_string string, semver_parser_dialect dialect,
    char **suggestion);

/* Returns the name of a status or of a reason, or an English phrase for it, or null if there is no
 * such number. Names are for programs and logs, and never change: "invalid-range", "leading-zero".
 * Phrases are for people, and may change. */
const char *semver_parser_status_name(semver_parser_status status);
const char *semver_parser_status_text(semver_parser_status status);
const char *semver_parser_reason_name(semver_parser_reason reason);
const char *semver_parser_reason_text(semver_parser_reason reason);

/* Returns the version of the loaded library: "1.0.0", or 1000000 as a number. */
const char *semver_parser_library_version(void);
uint32_t semver_parser_library_version_number(void);

/* ---- versions, and whether one satisfies a range */

/* Checks whether a version satisfies a range: 1.9.0 satisfies `^1.2`. Build metadata is ignored.
 * Errors: INVALID_VERSION, INVALID_RANGE, NUMBER_TOO_LARGE. */
SEMVER_PARSER_CHECKED(4)
semver_parser_status semver_parser_satisfies(
    semver_parser_string version, semver_parser_string range, semver_parser_options options,
    bool *satisfies, semver_parser_error *error);

/* Checks that a string is a range. Errors: INVALID_RANGE, NUMBER_TOO_LARGE. */
SEMVER_PARSER_USED
semver_parser_status semver_parser_check_range(
    semver_parser_string range, semver_parser_dialect dialect, semver_parser_error *error);

/* A version. `pre` and `build` are parts of the string that was parsed, without `-` and `+`. */
typedef struct {
    uint64_t major;
    uint64_t minor;
    uint64_t patch;
    semver_parser_string pre;
    semver_parser_string build;
} semver_parser_version;

/* Parses a version: `1.2.3-rc.1+b5` gives 1, 2, 3, `rc.1` and `b5`. `pre` and `build` point into
 * the string that was parsed. Errors: INVALID_VERSION. */
SEMVER_PARSER_CHECKED(3)
semver_parser_status semver_parser_parse_version(
    semver_parser_string version, semver_parser_dialect dialect, semver_parser_version *parsed,
    semver_parser_error *error);

/* Compares two versions by precedence (SemVer 2.0.0, section 11): `order` is -1, 0 or 1. It is -1
 * for 1.0.0-rc and 1.0.0. Errors: INVALID_VERSION. */
SEMVER_PARSER_CHECKED(4)
semver_parser_status semver_parser_compare_versions(
    semver_parser_string version, semver_parser_string other, semver_parser_dialect dialect,
    int32_t *order, semver_parser_error *error);

/* ---- ranges that are read once */

typedef struct semver_parser_range semver_parser_range;

/* Reads a range. semver_parser_range_free frees it. Errors: INVALID_RANGE, NUMBER_TOO_LARGE. */
SEMVER_PARSER_CHECKED(3)
semver_parser_status semver_parser_range_parse(
    semver_parser_string string, semver_parser_options options, semver_parser_range **range,
    semver_parser_error *error);

/* Frees a range; null is allowed. */
void semver_parser_range_free(semver_parser_range *range);

/* Returns the options with which the range was read. Versions are read in their dialect. */
SEMVER_PARSER_NONNULL(1)
semver_parser_options semver_parser_range_options(const semver_parser_range *range);

/* Checks whether a version is in the range, like semver_parser_satisfies. Errors: INVALID_VERSION.
 */
SEMVER_PARSER_CHECKED(1, 3)
semver_parser_status semver_parser_range_contains(
    const semver_parser_range *range, semver_parser_string version, bool *contains,
    semver_parser_error *error);

/* Checks which of `count` versions are in the range. The array `contains` has an item for each of
 * them, and so has `statuses`, which may be null: its items become OK or INVALID_VERSION. An
 * invalid version isn't contained. The function doesn't allocate, and its own status is always
 * OK. */
SEMVER_PARSER_CHECKED(1)
semver_parser_status semver_parser_range_contains_each(
    const semver_parser_range *range, const semver_parser_string *versions, size_t count,
    bool *contains, semver_parser_status *statuses);

/* Finds the highest or lowest of those of `count` versions that are in the range. If several are
 * equal, it finds the first of them. The output `index` becomes its index, or `count` if none is in
 * the range. If `skip_invalid` is true, invalid versions are skipped; otherwise the first of them
 * is an error, INVALID_VERSION, and its index is in `error`. */
SEMVER_PARSER_CHECKED(1, 5)
semver_parser_status semver_parser_range_highest_of(
    const semver_parser_range *range, const semver_parser_string *versions, size_t count,
    bool skip_invalid, size_t *index, semver_parser_error *error);
SEMVER_PARSER_CHECKED(1, 5)
semver_parser_status semver_parser_range_lowest_of(
    const semver_parser_range *range, const semver_parser_string *versions, size_t count,
    bool skip_invalid, size_t *index, semver_parser_error *error);

/* Makes the range of the versions that are in either range, in both, or only in the first: the
 * difference of `^1.2` and `>=1.4` contains 1.2.0 and not 1.4.0. semver_parser_range_free frees
 * it. Both ranges must have the same options. Errors: DIFFERENT_DIALECTS, DIFFERENT_PRE_RELEASES.
 */
SEMVER_PARSER_CHECKED(1, 2, 3)
semver_parser_status semver_parser_range_union(
    const semver_parser_range *range, const semver_parser_range *other,
    semver_parser_range **made, semver_parser_error *error);
SEMVER_PARSER_CHECKED(1, 2, 3)
semver_parser_status semver_parser_range_intersection(
    const semver_parser_range *range, const semver_parser_range *other,
    semver_parser_range **made, semver_parser_error *error);
SEMVER_PARSER_CHECKED(1, 2, 3)
semver_parser_status semver_parser_range_difference(
    const semver_parser_range *range, const semver_parser_range *other,
    semver_parser_range **made, semver_parser_error *error);

/* Checks whether two ranges contain the same versions, whether every version in the first is in
 * the other, and whether no version is in both. Both ranges must have the same options. These
 * functions don't allocate, with or without `error`. Errors: DIFFERENT_DIALECTS,
 * DIFFERENT_PRE_RELEASES. */
SEMVER_PARSER_CHECKED(1, 2, 3)
semver_parser_status semver_parser_range_equal(
    const semver_parser_range *range, const semver_parser_range *other, bool *equal,
    semver_parser_error *error);
SEMVER_PARSER_CHECKED(1, 2, 3)
semver_parser_status semver_parser_range_is_subset(
    const semver_parser_range *range, const semver_parser_range *other, bool *is_subset,
    semver_parser_error *error);
SEMVER_PARSER_CHECKED(1, 2, 3)
semver_parser_status semver_parser_range_is_disjoint(
    const semver_parser_range *range, const semver_parser_range *other, bool *is_disjoint,
    semver_parser_error *error);

/* Returns whether a range contains no version: `>2.0.0 <1.0.0` contains none. */
SEMVER_PARSER_NONNULL(1)
bool semver_parser_range_is_empty(const semver_parser_range *range);

/* Makes a string of the lowest version of the dialect that is in the range, or null if there is
 * none: for `^1.2.0` it is 1.2.0. A version of npm's dialect has no number above 2^53 - 1.
 * semver_parser_free frees it. */
SEMVER_PARSER_CHECKED(1, 2)
semver_parser_status semver_parser_range_lowest_version(
    const semver_parser_range *range, char **version);

/* Makes a string of the releases in a range, or of the pre-releases in it: `>=1.2.0 <2.0.0`, `*`
 * for all, `<0.0.0-0` for none. Its syntax is npm's, whatever the dialect. To read the string
 * again, use SEMVER_PARSER_DIALECT_CRATE_NPM. Read the string of the releases with
 * PRE_RELEASES_EXCLUDED, and that of the pre-releases with PRE_RELEASES_INCLUDED; of the latter
 * only the pre-releases count. There is one exception: `*` means all pre-releases, but it is read
 * as a range that begins with 0.0.0, and so without the pre-releases of 0.0.0. semver_parser_free
 * frees the string. */
SEMVER_PARSER_CHECKED(1, 3)
semver_parser_status semver_parser_range_to_string(
    const semver_parser_range *range, bool pre_releases, char **string);

/* Makes a string that reads back, with the options of the range, as a range of the same versions,
 * in the syntax of its dialect: what can be written into a Cargo.toml or a package.json. It is null
 * if no such string was found: Cargo's syntax can't say a range with a gap. semver_parser_free
 * frees it. */
SEMVER_PARSER_CHECKED(1, 2)
semver_parser_status semver_parser_range_to_requirement(
    const semver_parser_range *range, char **requirement);

/* ---- comparators: the result of rewriting a range */

typedef struct semver_parser_comparators semver_parser_comparators;

typedef int32_t semver_parser_op;
enum {
    /* `<` */
    SEMVER_PARSER_OP_LESS = 0,
    /* `<=` */
    SEMVER_PARSER_OP_LESS_EQUAL = 1,
    /* `>` */
    SEMVER_PARSER_OP_GREATER = 2,
    /* `>=` */
    SEMVER_PARSER_OP_GREATER_EQUAL = 3,
    /* `=` */
    SEMVER_PARSER_OP_EQUAL = 4
};

/* A comparator. `range` says which of the ranges between `||` it belongs to, and counts from 0. A
 * version has to satisfy all comparators with the same `range`. `pre` is valid as long as the list
 * is. */
typedef struct {
    size_t range;
    semver_parser_op op;
    uint64_t major;
    uint64_t minor;
    uint64_t patch;
    semver_parser_string pre;
} semver_parser_comparator;

/* Rewrites a range to plain comparators: `^1.2` gives `>=` 1.2.0 and `<` 2.0.0-0. In the crate's
 * dialects the second is `<` 2.0.0, unless `exact` is true. The comparators determine which
 * releases satisfy the range; for pre-releases use semver_parser_range.
 * semver_parser_comparators_free frees them. Errors: INVALID_RANGE, NUMBER_TOO_LARGE. */
SEMVER_PARSER_CHECKED(4)
semver_parser_status semver_parser_comparators_of_range(
    semver_parser_string range, semver_parser_dialect dialect, bool exact,
    semver_parser_comparators **comparators, semver_parser_error *error);

/* Frees comparators; null is allowed. */
void semver_parser_comparators_free(semver_parser_comparators *comparators);

/* Returns the number of comparators in a list. */
SEMVER_PARSER_NONNULL(1)
size_t semver_parser_comparators_count(const semver_parser_comparators *comparators);

/* Gets the comparator at an index. An index that is too large is INVALID_ARGUMENT. */
SEMVER_PARSER_CHECKED(1, 3)
semver_parser_status semver_parser_comparators_get(
    const semver_parser_comparators *comparators, size_t index,
    semver_parser_comparator *comparator);

/* Makes a string of comparators: `>=1.2.0 <2.0.0-0 || >=3.0.0 <4.0.0-0`. semver_parser_free frees
 * it. */
SEMVER_PARSER_CHECKED(1, 2)
semver_parser_status semver_parser_comparators_to_string(
    const semver_parser_comparators *comparators, char **string);

/* ---- terms: the parts of a range as they are written */

/* The operator of a term. An operator that comparators have, too, has the same number as in
 * semver_parser_op. */
typedef int32_t semver_parser_operator;
enum {
    /* `<` */
    SEMVER_PARSER_OPERATOR_LESS = 0,
    /* `<=` */
    SEMVER_PARSER_OPERATOR_LESS_OR_EQUAL = 1,
    /* `>` */
    SEMVER_PARSER_OPERATOR_GREATER = 2,
    /* `>=` */
    SEMVER_PARSER_OPERATOR_GREATER_OR_EQUAL = 3,
    /* `=` */
    SEMVER_PARSER_OPERATOR_EQUAL = 4,
    /* `~`, or `~>` */
    SEMVER_PARSER_OPERATOR_TILDE = 5,
    /* `^` */
    SEMVER_PARSER_OPERATOR_CARET = 6,
    /* No operator: `1.2` */
    SEMVER_PARSER_OPERATOR_BARE = 7,
    /* The hyphen between two versions: `1.2 - 2.3` */
    SEMVER_PARSER_OPERATOR_HYPHEN = 8
};

typedef int32_t semver_parser_component_kind;
enum {
    /* The component isn't written: the third one of `1.2`. */
    SEMVER_PARSER_COMPONENT_NONE = 0,
    /* A number */
    SEMVER_PARSER_COMPONENT_NUMBER = 1,
    /* `x`, `X` or `*` */
    SEMVER_PARSER_COMPONENT_WILDCARD = 2
};

/* A component of a version. `number` is the number; a number above 2^64 - 1, which is possible only
 * after a wildcard, is given as 2^64 - 1. For a WILDCARD it is the character 'x', 'X' or '*', and
 * for NONE it is 0. */
typedef struct {
    semver_parser_component_kind kind;
    uint64_t number;
} semver_parser_component;

/* The version of a term: the bytes from `start` to before `end`, including a `v`. `pre` and `build`
 * are parts of the range's string, without `-` and `+`. */
typedef struct {
    size_t start;
    size_t end;
    bool has_v;
    semver_parser_component major;
    semver_parser_component minor;
    semver_parser_component patch;
    semver_parser_string pre;
    semver_parser_string build;
} semver_parser_partial_version;

/* A term: the bytes from `start` to before `end`. `range` is the number of `||` before it. `upper`
 * is the version after the hyphen of a hyphen range, and zero for other terms. */
typedef struct {
    size_t range;
    semver_parser_operator op;
    size_t start;
    size_t end;
    semver_parser_partial_version version;
    semver_parser_partial_version upper;
} semver_parser_term;

/* Reads the terms of a range in order: `^1.2 || 3.x` has two. `count` is set to their number. At
 * most `capacity` of them are written to `terms`, which may be null if `capacity` is 0. You may
 * replace the bytes of a version with another partial version that the dialect's grammar allows;
 * in Cargo's dialect it must have a number. The grammar then still allows the string, but one of
 * its numbers may be too large. Errors: INVALID_RANGE, NUMBER_TOO_LARGE. */
SEMVER_PARSER_CHECKED(5)
semver_parser_status semver_parser_terms_of_range(
    semver_parser_string range, semver_parser_dialect dialect, semver_parser_term *terms,
    size_t capacity, size_t *count, semver_parser_error *error);

/* Makes the string of a range in which a version of a term has the numbers of another version.
 * `written` is the version of the term, as semver_parser_terms_of_range returned it. The string
 * from which it was read must still be there. If the range is valid, and doesn't have this version
 * at this offset, the status is INVALID_ARGUMENT. Replace several versions of a range from the
 * last one to the first, so that the others stay where they are. The form of the version is kept:
 * how many components it has, its wildcards and its `v`. If it has three numbers, the pre-release
 * of the other version is written, too; the build metadata of the other version never is. If 3.1.4
 * replaces the last version of `^1.x || v2`, it becomes `^1.x || v3`. Check the result with
 * semver_parser_check_range, since a raised bound may be too large. semver_parser_free frees it.
 * Errors: INVALID_RANGE, NUMBER_TOO_LARGE, INVALID_VERSION. */
SEMVER_PARSER_CHECKED(2, 5)
semver_parser_status semver_parser_replace_version(
    semver_parser_string range, const semver_parser_partial_version *written,
    semver_parser_string version, semver_parser_dialect dialect, char **replaced,
    semver_parser_error *error);

/* Raises a requirement, so that it contains a newer version, and keeps how it is written: `^1.2`
 * and 2.3.4 give `^2.3`, and `~1.2 || ^2.0.0` and 3.1.0 give `~1.2 || ^2.0.0 || ^3.1.0`. The
 * string is null if the range has a version at or above the newer one, so nothing is ever lowered.
 * The terms after the last `||` are raised; operators, the number of components, wildcards, spaces
 * and lower bounds stay, except that a pre-release is written after three numbers. The error of the version, whose index is 1, comes before that of the
 * range. semver_parser_free frees the string. Errors: INVALID_VERSION, INVALID_RANGE,
 * NUMBER_TOO_LARGE, CANNOT_UPGRADE. */
SEMVER_PARSER_CHECKED(4)
semver_parser_status semver_parser_upgrade(
    semver_parser_string range, semver_parser_string version, semver_parser_options options,
    char **upgraded, semver_parser_error *error);

/* Returns how an operator of a term or of a comparator is written, or null if there is no such
 * number. BARE is written as an empty string. */
const char *semver_parser_operator_sign(semver_parser_operator op);

#ifdef __cplusplus
}
#endif

#if defined(__GNUC__)
#pragma GCC visibility pop
#endif
#undef SEMVER_PARSER_NONNULL
#undef SEMVER_PARSER_CHECKED
#undef SEMVER_PARSER_USED

#endif
