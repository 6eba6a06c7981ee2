/* Which versions satisfy which ranges, in each dialect and by each rule for pre-releases: for
 * short and long strings, one by one and many at once; which error is returned first; and
 * invalid options. The expected values are in the tables of rust/docs/RANGES.md and of
 * rust/docs/MEANING.md. */
#include "calls.h"

#include <stdio.h>
#include <stdlib.h>
#include <string.h>

/* What is expected for a version and a range. */
enum { NO, YES, BAD_RANGE, TOO_LARGE, BAD_VERSION };

static int told_of(const text *version, const text *range, int dialect, int rule) {
    bool answer = false;
    outcome told = satisfies(version, range, dialect, rule, &answer);
    switch ((int)told.status) {
    case OK: return answer ? YES : NO;
    case INVALID_RANGE: check(told.index == 1, "an error of a range", range->bytes);
        return BAD_RANGE;
    case NUMBER_TOO_LARGE: check(told.index == 1, "an error of a range", range->bytes);
        return TOO_LARGE;
    case INVALID_VERSION: check(told.index == 0, "an error of a version", version->bytes);
        return BAD_VERSION;
    default: return -1;
    }
}

/* Returns a range with a long prefix, which contains the same versions above 0.0.7. */
static text after_a_front(int dialect, const char *range) {
    text made = repeated("", dialect == CARGO ? "          " : "=0.0.7 || ", 300, "");
    for (int at = 0; at < 20 && dialect == CARGO; at++) {
        text_say(&made, ">= 0.0.0 , ");
    }
    text_say(&made, "%s", range);
    return made;
}

/* Returns a version as a long string, if its dialect has one: Cargo's versions have no white
 * space, and npm's have at most 256 characters. */
static text long_version(int dialect, const char *version) {
    if (dialect == CARGO) {
        text front = string(version);
        text_say(&front, "+build");
        text made = repeated(front.bytes, ".--0000000", 300, "");
        text_free(&front);
        return made;
    }
    int count = dialect == NPM ? 256 - (int)strlen("\t\nv+build") - (int)strlen(version) : 3000;
    text made = repeated("\t\n", " ", count, dialect == NPM ? "v" : "");
    text_say(&made, "%s+build", version);
    return made;
}

static void satisfy(int dialect, int rule, const char *range, const char *version, int wanted) {
    text short_range = string(range);
    text short_version = string(version);
    check(told_of(&short_version, &short_range, dialect, rule) == wanted, "wrong result", range);
    /* The prefix matches nothing of 0.0.0, and build metadata is allowed only once. */
    if (strncmp(version, "0.0.0", 5) != 0 && strchr(version, '+') == NULL && wanted <= YES) {
        text long_range = after_a_front(dialect, range);
        text longer = long_version(dialect, version);
        check(told_of(&longer, &long_range, dialect, rule) == wanted,
              "wrong result for long strings", range);
        text_free(&long_range);
        text_free(&longer);
    }
    text_free(&short_range);
    text_free(&short_version);
}

static bool is_release(const char *version) {
    return strchr(version, '-') == NULL;
}

/* A range, a version, and what is expected in each dialect, by the default rule. */
static const struct {
    const char *range;
    const char *version;
    int wanted[DIALECTS];
} by_dialect[] = {
    {"* || =1.0.0-a", "1.0.0-a", {BAD_RANGE, NO, YES, YES}},
    {"=1.2 >=1.2.3-a", "1.2.3-b", {BAD_RANGE, YES, YES, YES}},
    {"=1.2, >=1.2.3-a", "1.2.3-b", {NO, BAD_RANGE, BAD_RANGE, BAD_RANGE}},
    {"<1.0 >=1.0.0-a", "1.0.0-b", {BAD_RANGE, NO, YES, YES}},
    {"<1.0, >=1.0.0-a", "1.0.0-b", {NO, BAD_RANGE, BAD_RANGE, BAD_RANGE}},
    {"1.2", "1.9.0", {YES, NO, NO, NO}},
    {">1.2", "1.2.9", {NO, NO, YES, YES}},
    {"1.2.3", "1.9.0", {YES, NO, YES, NO}},
    {"v1.2.3", "1.2.3", {BAD_RANGE, YES, BAD_RANGE, BAD_RANGE}},
    {"=v1", "1.2.3", {BAD_RANGE, YES, BAD_RANGE, BAD_RANGE}},
    {"1.2 || 3", "3.9.0", {BAD_RANGE, YES, YES, YES}},
    {">=1.2.3, <2", "1.9.0", {YES, BAD_RANGE, BAD_RANGE, BAD_RANGE}},
    {"^6.2.0--canary.10", "6.2.0--canary.14175.ab12.0", {YES, YES, BAD_VERSION, BAD_VERSION}},
    {"^6.2.0--canary.10", "6.2.0--canary.9.0", {NO, NO, BAD_VERSION, BAD_VERSION}},
    {"^10.4.2", "10.4.1--canary.3.0", {NO, NO, BAD_VERSION, BAD_VERSION}},
    {"=1.2.3-a", "1.2.3-a.01", {BAD_VERSION, BAD_VERSION, NO, NO}},
    {"=1.2.3-a--b", "1.2.3-a--b", {YES, YES, BAD_VERSION, BAD_VERSION}},
};

/* A range in a tool's dialect, and versions that satisfy it, or don't, by the default rule. */
static const struct {
    int dialect;
    const char *range;
    const char *in[4];
    const char *out[3];
} of_tools[] = {
    {CARGO, "^1.2.3-beta", {"1.2.3-rc", "1.2.3", "1.9.0", NULL}, {"1.3.0-rc", "2.0.0-0", NULL}},
    {CARGO, "^1.2, >=1.2.0-a", {"1.2.0-b", "1.2.0", NULL, NULL}, {"1.2.1-b", NULL, NULL}},
    {CARGO, "=1.2, >=1.2.0-a", {"1.2.0", NULL, NULL, NULL}, {"1.2.0-b", NULL, NULL}},
    {CARGO, "~1.2, >=1.2.0-a", {"1.2.0", NULL, NULL, NULL}, {"1.2.0-b", NULL, NULL}},
    {CARGO, "<=1.2, >=1.2.0-a", {"1.2.0", NULL, NULL, NULL}, {"1.2.0-b", NULL, NULL}},
    {CARGO, ">=1, >=1.0.0-a", {"1.0.0", NULL, NULL, NULL}, {"1.0.0-b", NULL, NULL}},
    {CARGO, ">=1, >=2.0.0-a", {"2.0.0-b", "2.0.0", NULL, NULL}, {"1.9.9", NULL, NULL}},
    {NPM, "^1.2.3-beta", {"1.2.3-rc", "1.2.3", "1.9.0", NULL}, {"1.3.0-rc", "2.0.0-0", NULL}},
    {NPM, "=1.2 >=1.2.3-a", {"1.2.3-b", "1.2.3", "1.2.9", NULL}, {"1.2.4-a", NULL, NULL}},
    {NPM, "<1.0 >=1.0.0-a", {NULL, NULL, NULL, NULL}, {"1.0.0-b", "1.0.0-a", "1.0.0"}},
    {NPM, ">=0 >=0.0.0-a", {"0.0.0-b", "0.0.0", "1.0.0", NULL}, {"0.0.0-0", "1.0.0-a", NULL}},
    {NPM, "* || =1.0.0-a", {"0.0.0", "1.0.0", NULL, NULL}, {"1.0.0-a", NULL, NULL}},
};

/* Checks the default rule, and releases only. */
static void satisfy_by_default(int dialect, const char *range, const char *version, int wanted) {
    bool counts = wanted > YES || is_release(version);
    satisfy(dialect, BY_DIALECT, range, version, wanted);
    satisfy(dialect, EXCLUDED, range, version, counts ? wanted : (int)NO);
}

static void tables(void) {
    for (size_t at = 0; at < sizeof by_dialect / sizeof *by_dialect; at++) {
        for (int dialect = 0; dialect < DIALECTS; dialect++) {
            satisfy_by_default(dialect, by_dialect[at].range, by_dialect[at].version,
                               by_dialect[at].wanted[dialect]);
        }
    }
    for (size_t at = 0; at < sizeof of_tools / sizeof *of_tools; at++) {
        for (int which = 0; which < 4 && of_tools[at].in[which] != NULL; which++) {
            satisfy_by_default(of_tools[at].dialect, of_tools[at].range, of_tools[at].in[which],
                               YES);
        }
        for (int which = 0; which < 3 && of_tools[at].out[which] != NULL; which++) {
            satisfy_by_default(of_tools[at].dialect, of_tools[at].range, of_tools[at].out[which],
                               NO);
        }
    }
}

/* A range and a version, and what is expected in both of the crate's dialects: for releases
 * only, by the default rule, and with all pre-releases within the bounds. */
static const struct {
    const char *range;
    const char *version;
    int wanted[3];
} of_crate[] = {
    {"^1.2.3-beta.4", "1.2.3-rc", {NO, YES, YES}},
    {"^1.2.3-beta.4", "1.9.0", {YES, YES, YES}},
    {"^1.2.3-beta.4", "1.2.3-beta.3", {NO, NO, NO}},
    {"^1.2.3-beta.4", "2.0.0-alpha", {NO, NO, NO}},
    {"^1.2.3-beta.4", "1.3.0-rc", {NO, NO, YES}},
    {">=1.2.3 <1.2.4-rc", "1.2.4-a", {NO, YES, YES}},
    {"=2.0.1-a || >=2.0.0", "2.0.1-b", {NO, NO, YES}},
    {"1.2.3-a - 2", "1.2.3-b", {NO, YES, YES}},
    {"1.2.3-a - 2", "2.0.0-b", {NO, NO, YES}},
    {"~1.2.*-a", "1.2.1-b", {NO, NO, YES}},
    {"<=1.2", "1.2.9", {YES, YES, YES}},
    {"<=1.2", "1.3.0-a", {NO, NO, NO}},
    {"^1 <=1.5", "1.6.0-rc", {NO, NO, NO}},
    {"~1", "1.0.0-a", {NO, NO, NO}},
    {"<*", "0.0.0-a", {NO, NO, YES}},
    {"=1.2.3-01", "1.2.3-01", {NO, NO, NO}},
    {">=1.0.0", "2.0.0-alpha", {NO, NO, YES}},
    {"<2.0.0", "2.0.0-alpha", {NO, NO, YES}},
    {"<=1.2.3", "1.2.0-a", {NO, NO, YES}},
    {"*", "1.0.0-a", {NO, NO, YES}},
    {"", "1.0.0", {YES, YES, YES}},
    {"^0.2 || 2.x", "2.5.0+b", {YES, YES, YES}},
    {"^0.2 || 2.x", "0.3.0", {NO, NO, NO}},
    {"^0.0.3", "0.0.4", {NO, NO, NO}},
    {"=1.2.3", " 1.2.3+b\n", {YES, YES, YES}},
};

static const int rules[] = {EXCLUDED, BY_DIALECT, INCLUDED};

static void ranges_of_the_crate(void) {
    for (size_t at = 0; at < sizeof of_crate / sizeof *of_crate; at++) {
        for (int rule = 0; rule < RULES; rule++) {
            satisfy(CRATE_CARGO, rules[rule], of_crate[at].range, of_crate[at].version,
                    of_crate[at].wanted[rule]);
            satisfy(CRATE_NPM, rules[rule], of_crate[at].range, of_crate[at].version,
                    of_crate[at].wanted[rule]);
        }
    }
}

/* Long identifiers in a range and in a version. Build metadata is ignored. */
static void long_identifiers(void) {
    static const struct {
        const char *front;
        const char *unit;
        const char *end;
        int wanted[3];
    } versions[] = {{"1.2.3-", "b", "+build", {NO, YES, YES}},
                    {"1.2.3-", "b", "b", {NO, YES, YES}},
                    {"1.2.3-", "a", "", {NO, NO, NO}},
                    {"1.2.3+", "b", "", {YES, YES, YES}}};
    text range = repeated("^1.2.3-", "b", 3000, "");
    for (size_t at = 0; at < sizeof versions / sizeof *versions; at++) {
        text version = repeated(versions[at].front, versions[at].unit, 3000, versions[at].end);
        for (int rule = 0; rule < RULES; rule++) {
            for (int dialect = CRATE_CARGO; dialect <= CRATE_NPM; dialect++) {
                check(told_of(&version, &range, dialect, rules[rule]) == versions[at].wanted[rule],
                      "wrong result for a long identifier", version.bytes);
            }
        }
        text_free(&version);
    }
    text_free(&range);
}

/* The error of the version, which is the first argument, is returned first. */
static void errors_in_order(void) {
    static const struct {
        const char *version;
        const char *range;
        int wanted;
    } rows[] = {{"1.2", "v1,", BAD_VERSION},
                {"", "<=18446744073709551615", BAD_VERSION},
                {"\xFF", "\xFF", BAD_VERSION},
                {"1.2.3", "v1,", BAD_RANGE},
                {"1.2.3", "\xFF", BAD_RANGE},
                {"1.2.3", "1.2.3\xE2\x82", BAD_RANGE},
                {"1.2.3", "<=18446744073709551615", TOO_LARGE},
                {"1.2.3", "<=18446744073709551615 |", BAD_RANGE},
                {"1.2.3\xED\xA0\x80", "1", BAD_VERSION},
                {"1.2.3 4", "1", BAD_VERSION}};
    for (size_t at = 0; at < sizeof rows / sizeof *rows; at++) {
        for (int which = 0; which < DIALECTS * RULES; which++) {
            satisfy(which / RULES, which % RULES, rows[at].range, rows[at].version,
                    rows[at].wanted);
        }
    }
}

/* More versions than fit any table, each with its index as a number; the first is invalid. */
static void many(int dialect) {
    enum { MANY = 3000 };
    static char strings[MANY][16];
    static semver_parser_string versions[MANY];
    static bool contains[MANY];
    static semver_parser_status statuses[MANY];
    for (int at = 0; at < MANY; at++) {
        versions[at].data = strings[at];
        versions[at].length = (size_t)snprintf(strings[at], sizeof strings[at], "1.%d.0", at);
    }
    versions[0].data = NULL;
    versions[0].length = 0;
    semver_parser_range *set = made_of("^1.1000", dialect, EXCLUDED);
    size_t index = 0;
    check(semver_parser_range_contains_each(set, versions, MANY, contains, statuses)
              == SEMVER_PARSER_OK,
          "no results for many", "^1.1000");
    for (int at = 0; at < MANY; at++) {
        check(contains[at] == (at >= 1000), "wrong result for many", strings[at]);
        check((int)statuses[at] == (at == 0 ? (int)INVALID_VERSION : (int)OK),
              "wrong status of many", strings[at]);
    }
    check(semver_parser_range_highest_of(set, versions, MANY, true, &index, NULL)
                  == SEMVER_PARSER_OK
              && index == MANY - 1,
          "wrong highest of many", "^1.1000");
    check(semver_parser_range_lowest_of(set, versions, MANY, true, &index, NULL)
                  == SEMVER_PARSER_OK
              && index == 1000,
          "wrong lowest of many", "^1.1000");
    check(semver_parser_range_contains_each(set, NULL, 0, NULL, NULL) == SEMVER_PARSER_OK,
          "no result for none", "^1.1000");
    semver_parser_range_free(set);
}

/* INVALID_ARGUMENT is returned first, for a number that isn't a dialect or a rule. */
static void no_such_options(void) {
    static const int numbers[] = {-1, 3, 4, 5, 20, 256, 65537, INT32_MAX, INT32_MIN};
    static const char *const strings[] = {"1", "", "v1", "\xFF", "<=18446744073709551615",
                                          "1.2.3-rc"};
    for (size_t at = 0; at < sizeof numbers / sizeof *numbers; at++) {
        for (size_t which = 0; which < sizeof strings / sizeof *strings; which++) {
            text of = string(strings[which]);
            text printed = string("");
            bool answer;
            int32_t order;
            semver_parser_version parsed;
            int number = numbers[at];
            check(satisfies(&of, &of, NPM, number, &answer).status
                      == SEMVER_PARSER_INVALID_ARGUMENT,
                  "a rule", of.bytes);
            number = number == 3 ? 4 : number;
            check(satisfies(&of, &of, number, at % 4, &answer).status
                          == SEMVER_PARSER_INVALID_ARGUMENT
                      && parse(&of, number, &parsed).status == SEMVER_PARSER_INVALID_ARGUMENT
                      && order_of(&of, &of, number, &order).status
                             == SEMVER_PARSER_INVALID_ARGUMENT
                      && rewrite(&of, number, true, &printed).status
                             == SEMVER_PARSER_INVALID_ARGUMENT,
                  "a dialect", of.bytes);
            text_free(&of);
            text_free(&printed);
        }
    }
}

int main(void) {
    tables();
    ranges_of_the_crate();
    long_identifiers();
    errors_in_order();
    for (int dialect = 0; dialect < DIALECTS; dialect++) {
        many(dialect);
    }
    no_such_options();
    return finish("rules");
}
