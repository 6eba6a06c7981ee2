/* Replays tables of cases with the C library: replay DIRECTORY.., where each directory has the files
 * stdin and stdout of a table. What the functions return is written as the table writes it, and
 * compared with the expected result. Exits with 1 if a row differs or a call has too few rows.
 *
 * Rows of calls that C doesn't have are skipped: tokens, steps of a parser, joined identifiers,
 * messages of errors, lines. For the error of a version in the crate's dialects, the table has
 * more than C returns; any of its names is right there if the version is invalid. */
#include "calls.h"
#include "table.h"

#include <inttypes.h>
#include <stdio.h>
#include <stdlib.h>
#include <string.h>

/* Writes what C returns for a row. Returns false if C returns less than the row has. */
typedef bool answering(text *to, const row *of, int dialect, int rule);

/* The prefix of calls for which the table has a checksum of the result. */
static const char sum[] = "sum-of-";

/* ---- versions */

/* Returns the name of an error of a version that a row begins with, or null. */
static const char *version_error(const char *expected) {
    static const char *const names[] = {"UnexpectedEnd", "UnexpectedToken(", "Lexer(",
                                        "MoreInput(", "unexpected-end", "unexpected-token",
                                        "unexpected-char", "more-input"};
    for (size_t at = 0; at < sizeof names / sizeof *names; at++) {
        if (strncmp(expected, names[at], strlen(names[at])) == 0) {
            return names[at];
        }
    }
    return NULL;
}

/* Prints the name that the row has, if it has one. For an error the table may have only a
 * checksum, which can't be computed here. */
static bool say_version_error(text *to, const row *of) {
    bool is_sum = strncmp(of->call, sum, strlen(sum)) == 0;
    bool is_named = version_error(of->expected) != NULL;
    text_say(to, "%s", is_named ? of->expected : "an invalid version");
    return !is_sum;
}

static bool say_read(text *to, const row *of, int dialect, int rule) {
    semver_parser_version parsed;
    (void)rule;
    if (parse(&of->of, dialect, &parsed).status == SEMVER_PARSER_OK) {
        say_fields(to, &parsed);
    } else {
        text_say(to, "none");
    }
    return true;
}

static bool say_version(text *to, const row *of, int dialect, int rule) {
    semver_parser_version parsed;
    bool is_invalid = parse(&of->of, dialect, &parsed).status != SEMVER_PARSER_OK;
    return is_invalid ? say_version_error(to, of) : say_read(to, of, dialect, rule);
}

static bool say_printed(text *to, const text *of, int dialect) {
    semver_parser_version parsed;
    if (parse(of, dialect, &parsed).status != SEMVER_PARSER_OK) {
        return false;
    }
    text_say(to, "%" PRIu64 ".%" PRIu64 ".%" PRIu64, parsed.major, parsed.minor, parsed.patch);
    if (parsed.pre.length > 0) {
        text_say(to, "-");
        text_add(to, parsed.pre.data, parsed.pre.length);
    }
    if (parsed.build.length > 0) {
        text_say(to, "+");
        text_add(to, parsed.build.data, parsed.build.length);
    }
    return true;
}

static bool say_version_text(text *to, const row *of, int dialect, int rule) {
    (void)rule;
    return say_printed(to, &of->of, dialect) || say_version_error(to, of);
}

static bool say_refused(text *to, const row *of, int dialect, int rule) {
    semver_parser_version parsed;
    outcome told = parse(&of->of, dialect, &parsed);
    (void)rule;
    if (told.status == SEMVER_PARSER_OK) {
        text_say(to, "a version");
    } else {
        text_say(to, "%zu: %s", told.offset, semver_parser_reason_name(told.reason));
    }
    return true;
}

/* ---- the comparators of a range */

/* The error of a range: by the name of its case, as a sentence, and as a word. */
enum { BY_NAME, BY_SENTENCE, BY_WORD };

static const char *range_error(semver_parser_status status, int how) {
    static const char *const invalid[] = {"NotARange", "not a range", "not-a-range"};
    static const char *const large[] = {"NumberTooLarge", "number too large", "number-too-large"};
    return status == SEMVER_PARSER_INVALID_RANGE      ? invalid[how]
           : status == SEMVER_PARSER_NUMBER_TOO_LARGE ? large[how]
                                                      : "wrong status";
}

static bool say_rewritten(text *to, const text *of, int dialect, bool exact, int how) {
    outcome told = rewrite(of, dialect, exact, to);
    if (told.status != SEMVER_PARSER_OK) {
        text_say(to, "%s", range_error(told.status, how));
    }
    return told.status == SEMVER_PARSER_OK;
}

static bool say_text(text *to, const row *of, int dialect, int rule) {
    (void)rule;
    say_rewritten(to, &of->of, dialect, false, BY_SENTENCE);
    return true;
}

static bool say_exact(text *to, const row *of, int dialect, int rule) {
    (void)rule;
    say_rewritten(to, &of->of, dialect, true, BY_SENTENCE);
    return true;
}

/* In the dialect of a tool, `exact` makes no difference. */
static bool say_by_tool(text *to, const row *of, int dialect, int rule) {
    text other = string("");
    (void)rule;
    say_rewritten(to, &of->of, dialect, false, BY_WORD);
    say_rewritten(&other, &of->of, dialect, true, BY_WORD);
    check(strcmp(to->bytes, other.bytes) == 0, "wrong range if exact", of->of.bytes);
    text_free(&other);
    return true;
}

static bool say_fields_of_range(text *to, const row *of, int dialect, int rule) {
    semver_parser_comparators *list = NULL;
    outcome told = comparators_of(&of->of, dialect, false, &list);
    size_t range = 0;
    (void)rule;
    if (told.status != SEMVER_PARSER_OK) {
        text_say(to, "%s", range_error(told.status, BY_NAME));
        return true;
    }
    text_say(to, dialect == CRATE_NPM ? "Npm" : "Cargo");
    for (size_t at = 0; at < semver_parser_comparators_count(list); at++) {
        semver_parser_comparator one;
        check(semver_parser_comparators_get(list, at, &one) == SEMVER_PARSER_OK, "no comparator",
              of->of.bytes);
        text_say(to, "%s %s%" PRIu64 ".%" PRIu64 ".%" PRIu64 "[", one.range != range ? " ||" : "",
                 operator_text(one.op), one.major, one.minor, one.patch);
        say_identifiers(to, one.pre.data, one.pre.length);
        text_say(to, "]");
        range = one.range;
    }
    semver_parser_comparators_free(list);
    return true;
}

static bool say_report(text *to, const row *of, int dialect, int rule) {
    const char *front = "version: ";
    (void)dialect;
    (void)rule;
    text_say(to, "%s", front);
    bool is_version = say_printed(to, &of->of, CRATE_CARGO);
    if (!is_version) {
        if (strncmp(of->expected, front, strlen(front)) != 0) {
            return false;
        }
        const char *word = version_error(of->expected + strlen(front));
        text_say(to, "%s", word != NULL ? word : "an invalid version");
    }
    text_say(to, "; cargo: ");
    bool cargo = say_rewritten(to, &of->of, CRATE_CARGO, false, BY_WORD);
    text_say(to, "; npm: ");
    bool npm = say_rewritten(to, &of->of, CRATE_NPM, false, BY_WORD);
    text_say(to, "; status %d", is_version || cargo || npm ? 0 : 1);
    return true;
}

static bool say_refused_range(text *to, const row *of, int dialect, int rule) {
    outcome told = check_range(&of->of, dialect);
    (void)rule;
    if (told.status == SEMVER_PARSER_OK) {
        text_say(to, "a range");
        return true;
    }
    text_say(to, "%zu: %s, %s", told.offset, range_error(told.status, BY_SENTENCE),
             semver_parser_reason_name(told.reason));
    return true;
}

/* ---- which versions satisfy a range */

/* Reads the next version of a list that is separated by spaces. Returns false after the last
 * one. */
static bool next_version(const char **list, text *version) {
    *list += strspn(*list, " ");
    size_t length = strcspn(*list, " ");
    *version = string_of(*list, length);
    *list += length;
    if (length == 0) {
        text_free(version);
    }
    return length > 0;
}

/* Returns whether a version is invalid in npm's dialect only because of a large number. */
static bool is_too_large(const text *version, int dialect) {
    const uint64_t most = 9007199254740991;
    semver_parser_version parsed;
    return dialect == NPM && parse(version, CARGO, &parsed).status == SEMVER_PARSER_OK
           && (parsed.major > most || parsed.minor > most || parsed.patch > most);
}

static bool say_satisfying(text *to, const row *of, int dialect, int rule) {
    text version;
    semver_parser_range *set = NULL;
    outcome told = set_of(&of->of, dialect, rule, &set);
    if (told.status != SEMVER_PARSER_OK) {
        text_say(to, "%s", range_error(told.status, BY_SENTENCE));
        return true;
    }
    semver_parser_range_free(set);
    for (const char *list = of->steps.bytes; next_version(&list, &version); text_free(&version)) {
        bool answer = false;
        told = satisfies(&version, &of->of, dialect, rule, &answer);
        if (told.status != SEMVER_PARSER_OK) {
            text_say(to, "%s ", semver_parser_status_text(told.status));
        } else if (answer) {
            say_printed(to, &version, dialect);
            text_say(to, " ");
        }
    }
    text_say(to, "end");
    return true;
}

/* Prints the same as the call `meant`, with a rule. */
static void say_meant_by(text *to, const row *of, int dialect, int rule) {
    text version;
    text_say(to, "means");
    for (const char *list = of->steps.bytes; next_version(&list, &version); text_free(&version)) {
        bool answer = false;
        outcome told = satisfies(&version, &of->of, dialect, rule, &answer);
        if (told.status == SEMVER_PARSER_INVALID_VERSION && is_too_large(&version, dialect)) {
            continue;
        }
        if (told.status != SEMVER_PARSER_OK) {
            to->length = 0;
            text_say(to, "%s", range_error(told.status, BY_WORD));
            text_free(&version);
            return;
        }
        if (answer) {
            text_say(to, " %s", version.bytes);
        }
    }
}

/* Returns the expected result without versions that are too large for npm and, for releases
 * only, without pre-releases. */
static text wanted_of(const char *expected, int dialect, bool releases) {
    text kept = string("");
    text word;
    for (const char *list = expected; next_version(&list, &word); text_free(&word)) {
        semver_parser_version parsed;
        bool is_pre_release =
            parse(&word, CARGO, &parsed).status == SEMVER_PARSER_OK && parsed.pre.length > 0;
        if (!is_too_large(&word, dialect) && !(releases && is_pre_release)) {
            text_say(&kept, "%s%s", kept.length > 0 ? " " : "", word.bytes);
        }
    }
    return kept;
}

static bool say_meant(text *to, const row *of, int dialect, int rule) {
    text by_rule = string("");
    text alone = string("");
    say_meant_by(&by_rule, of, dialect, rule);
    say_meant_by(&alone, of, dialect, EXCLUDED);
    text all = wanted_of(of->expected, dialect, false);
    text releases = wanted_of(of->expected, dialect, true);
    bool is_right =
        strcmp(by_rule.bytes, all.bytes) == 0 && strcmp(alone.bytes, releases.bytes) == 0;
    text_say(to, "%s", is_right ? of->expected : by_rule.bytes);
    text_free(&all);
    text_free(&releases);
    text_free(&alone);
    text_free(&by_rule);
    return true;
}

/* ---- sets */

static void say_lowest_or_none(text *to, const semver_parser_range *set) {
    if (semver_parser_range_is_empty(set)) {
        text_say(to, "none");
    }
    say_lowest(to, set);
}

/* Returns the set of a range, or prints its error. */
static semver_parser_range *read_set(text *to, const text *range, int dialect, int rule) {
    semver_parser_range *set = NULL;
    outcome told = set_of(range, dialect, rule, &set);
    if (told.status != SEMVER_PARSER_OK) {
        text_say(to, "%s", range_error(told.status, BY_SENTENCE));
    }
    return set;
}

static bool say_set(text *to, const row *of, int dialect, int rule) {
    semver_parser_range *set = read_set(to, &of->of, dialect, rule);
    if (set == NULL) {
        return true;
    }
    say_satisfying(to, of, dialect, rule);
    text_say(to, ", least ");
    say_lowest_or_none(to, set);
    text_say(to, ", least release ");
    semver_parser_range *releases = made_of(of->of.bytes, dialect, EXCLUDED);
    say_lowest_or_none(to, releases);
    text_say(to, ", empty %s", semver_parser_range_is_empty(set) ? "true" : "false");
    semver_parser_range_free(releases);
    semver_parser_range_free(set);
    return true;
}

/* What two sets contain: only the first, only the second, and both. */
static const char *const part_names[] = {"lost ", "gained ", "shared "};
typedef struct {
    semver_parser_range *of[5];
} parts;

static parts parts_of(semver_parser_range *first, semver_parser_range *second) {
    parts made = {{combined(first, '-', second), combined(second, '-', first),
                   combined(first, '&', second), first, second}};
    return made;
}

static void free_parts(parts *made) {
    for (int at = 0; at < 5; at++) {
        semver_parser_range_free(made->of[at]);
    }
}

static const char *word_of(bool holds) {
    return holds ? "true" : "false";
}

static bool say_pair(text *to, const row *of, int dialect, int rule) {
    semver_parser_range *first = read_set(to, &of->of, dialect, rule);
    semver_parser_range *second = first == NULL ? NULL : read_set(to, &of->steps, dialect, rule);
    if (second == NULL) {
        semver_parser_range_free(first);
        return true;
    }
    parts made = parts_of(first, second);
    for (int at = 0; at < 3; at++) {
        text_say(to, "%s%s", at == 0 ? "" : ", ", part_names[at]);
        say_lowest_or_none(to, made.of[at]);
    }
    bool within = false;
    bool same = false;
    check(compare(first, '<', second, &within).status == SEMVER_PARSER_OK
              && compare(first, '=', second, &same).status == SEMVER_PARSER_OK,
          "not compared", of->of.bytes);
    text_say(to, ", within %s, overlaps %s, same %s", word_of(within),
             word_of(!semver_parser_range_is_empty(made.of[2])), word_of(same));
    free_parts(&made);
    return true;
}

static void say_whole_set(text *to, const semver_parser_range *set) {
    say_releases(to, set);
    text_say(to, ", pre-releases ");
    say_pre_releases(to, set);
}

static bool say_whole(text *to, const row *of, int dialect, int rule) {
    semver_parser_range *set = read_set(to, &of->of, dialect, rule);
    if (set != NULL) {
        say_whole_set(to, set);
    }
    semver_parser_range_free(set);
    return true;
}

static bool say_whole_pair(text *to, const row *of, int dialect, int rule) {
    parts made = parts_of(made_of(of->of.bytes, dialect, rule),
                          made_of(of->steps.bytes, dialect, rule));
    for (int at = 0; at < 3; at++) {
        text_say(to, "%s%s", at == 0 ? "" : "; ", part_names[at]);
        say_whole_set(to, made.of[at]);
    }
    free_parts(&made);
    return true;
}

static bool say_highest(text *to, const row *of, int dialect, int rule) {
    semver_parser_range *set = read_set(to, &of->of, dialect, rule);
    if (set == NULL) {
        return true;
    }
    size_t most = of->steps.length + 1;
    semver_parser_string *versions =
        (semver_parser_string *)malloc(most * sizeof(semver_parser_string));
    size_t count = 0;
    for (const char *at = of->steps.bytes; versions != NULL && *(at += strspn(at, " ")) != 0;) {
        semver_parser_string next = {at, strcspn(at, " ")};
        versions[count++] = next;
        at += next.length;
    }
    size_t index = 0;
    check(semver_parser_range_highest_of(set, versions, count, true, &index, NULL)
              == SEMVER_PARSER_OK,
          "no highest version", of->of.bytes);
    if (index == count) {
        text_say(to, "none");
    } else {
        text_add(to, versions[index].data, versions[index].length);
    }
    free(versions);
    semver_parser_range_free(set);
    return true;
}

static bool say_upgraded(text *to, const row *of, int dialect, int rule) {
    semver_parser_string range = {of->of.bytes, of->of.length};
    semver_parser_string version = {of->steps.bytes, of->steps.length};
    char *made = NULL;
    semver_parser_status status =
        semver_parser_upgrade(range, version, options_of(dialect, rule), &made, NULL);
    if (status != SEMVER_PARSER_OK) {
        text_say(to, "%s%s", semver_parser_status_text(status),
                 status == SEMVER_PARSER_INVALID_RANGE ? ": not a range" : "");
    } else if (made == NULL) {
        text_say(to, "nothing to do");
    } else {
        text_say(to, "\"%s\"", made);
    }
    semver_parser_free(made);
    return true;
}

/* The row names the rule. */
static bool say_requirement(text *to, const row *of, int dialect, int rule) {
    if (strcmp(of->steps.bytes, "by-dialect") != 0) {
        rule = strcmp(of->steps.bytes, "included") == 0 ? INCLUDED : EXCLUDED;
    }
    semver_parser_range *range = read_set(to, &of->of, dialect, rule);
    if (range == NULL) {
        return true;
    }
    char *made = NULL;
    check(semver_parser_range_to_requirement(range, &made) == SEMVER_PARSER_OK,
          "no requirement", of->of.bytes);
    if (made == NULL) {
        text_say(to, "none");
    } else {
        text_say(to, "\"%s\"", made);
    }
    semver_parser_free(made);
    semver_parser_range_free(range);
    return true;
}

/* ---- calls of the table */

typedef struct {
    const char *name;
    answering *say;
    int dialect;
    int rule;
    /* The minimum number of rows, and how many passed and failed. */
    int least;
    int passed;
    int failed;
} table_call;

/* In both dialects of the crate. */
#define CRATE(name, say, rule, cargo, npm)                                                         \
    {name "-cargo", say, CRATE_CARGO, rule, cargo, 0, 0},                                          \
    {name "-npm", say, CRATE_NPM, rule, npm, 0, 0}
/* In both dialects, and with each rule. */
#define RULED(name, say, cargo, npm)                                                               \
    CRATE(name "releases", say, EXCLUDED, cargo, npm),                                             \
    CRATE(name "stated", say, BY_DIALECT, cargo, npm), CRATE(name "mean", say, INCLUDED, cargo, npm)
/* In the dialects of both tools. */
#define TOOLS(name, say, rule, cargo, npm)                                                         \
    {name "-as-cargo", say, CARGO, rule, cargo, 0, 0}, {name "-as-npm", say, NPM, rule, npm, 0, 0}

static table_call calls[] = {
    {"version", say_version, CRATE_CARGO, 0, 90, 0, 0},
    {"read", say_read, CRATE_NPM, 0, 100, 0, 0},
    {"version-text", say_version_text, CRATE_CARGO, 0, 1, 0, 0},
    {"cargo", say_fields_of_range, CRATE_CARGO, 0, 190, 0, 0},
    {"npm", say_fields_of_range, CRATE_NPM, 0, 60, 0, 0},
    {"from-str", say_text, CRATE_CARGO, 0, 200, 0, 0},
    {"report", say_report, CRATE_CARGO, 0, 3500, 0, 0},
    {"cargo-text", say_text, CRATE_CARGO, 0, 150, 0, 0},
    {"npm-text", say_text, CRATE_NPM, 0, 34, 0, 0},
    {"cargo-exact", say_exact, CRATE_CARGO, 0, 100, 0, 0},
    {"npm-exact", say_exact, CRATE_NPM, 0, 100, 0, 0},
    RULED("", say_satisfying, 100, 100),
    RULED("set-", say_set, 2, 90),
    RULED("pair-", say_pair, 24, 180),
    RULED("whole-", say_whole, 2, 120),
    RULED("whole-pair-", say_whole_pair, 2, 64),
    {"greatest-release", say_highest, CRATE_NPM, EXCLUDED, 10, 0, 0},
    {"greatest-stated", say_highest, CRATE_NPM, BY_DIALECT, 100, 0, 0},
    {"greatest-of-all", say_highest, CRATE_NPM, INCLUDED, 9, 0, 0},
    TOOLS("rewritten", say_by_tool, 0, 81, 340),
    TOOLS("meant", say_meant, BY_DIALECT, 90, 220),
    TOOLS("meant-with-all", say_meant, INCLUDED, 60, 100),
    TOOLS("version", say_read, 0, 60, 100),
    TOOLS("refused", say_refused, 0, 45, 30),
    {"refused-as-crate", say_refused, CRATE_NPM, 0, 15, 0, 0},
    TOOLS("refused-range", say_refused_range, 0, 85, 85),
    TOOLS("upgraded", say_upgraded, BY_DIALECT, 4, 14),
    TOOLS("requirement", say_requirement, BY_DIALECT, 12, 15),
    CRATE("refused-range-as-crate", say_refused_range, 0, 85, 85),
};
enum { CALLS = sizeof calls / sizeof *calls };

/* Returns the call of a row, or null, and whether its result is a checksum. */
static table_call *call_of(const char *name, bool *is_sum) {
    *is_sum = strncmp(name, sum, strlen(sum)) == 0;
    name += *is_sum ? strlen(sum) : 0;
    for (int at = 0; at < CALLS; at++) {
        if (strcmp(name, calls[at].name) == 0) {
            return &calls[at];
        }
    }
    return NULL;
}

static void replay(table_call *by, const row *of, bool is_sum) {
    text answer = string("");
    text shown = string("");
    bool is_whole = by->say(&answer, of, by->dialect, by->rule);
    if (is_sum) {
        text_say_sum(&shown, &answer);
    }
    const char *told = is_sum ? shown.bytes : answer.bytes;
    bool is_right = !is_whole || strcmp(told, of->expected) == 0;
    by->passed += is_whole && is_right;
    by->failed += !is_right;
    if (!is_right) {
        printf("%s %.200s\n  expected %.400s\n  returned %.400s\n", of->call, of->of.bytes,
               of->expected, told);
    }
    text_free(&answer);
    text_free(&shown);
}

int main(int count, char **arguments) {
    for (int at = 1; at < count; at++) {
        table rows = table_of_directory(arguments[at]);
        row next;
        while (next_row(&rows, &next)) {
            bool is_sum;
            table_call *by = call_of(next.call, &is_sum);
            if (by != NULL) {
                replay(by, &next, is_sum);
            }
            check(by != NULL || strstr(next.call, "-as-") == NULL, "not a call", next.call);
            row_free(&next);
        }
        table_free(&rows);
    }
    int passed = 0;
    for (int at = 0; at < CALLS; at++) {
        check(calls[at].failed == 0, "rows failed", calls[at].name);
        check(calls[at].passed >= calls[at].least, "few rows", calls[at].name);
        passed += calls[at].passed;
    }
    printf("rows: %d passed\n", passed);
    return finish("replay");
}
