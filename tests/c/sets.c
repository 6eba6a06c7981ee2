/* Parsed ranges: how they are printed, combined and compared, ranges with different options, and
 * the highest and lowest version of a list. The expected values follow from
 * rust/docs/MEANING.md. */
#include "calls.h"

#include <stdlib.h>
#include <string.h>

typedef void printing(text *to, const semver_parser_range *set);

static void prints(const semver_parser_range *set, printing *print, const char *wanted) {
    text printed = string("");
    print(&printed, set);
    check(strcmp(printed.bytes, wanted) == 0, "printed otherwise", wanted);
    text_free(&printed);
}

static void set_prints(const char *range, int dialect, int rule, printing *print,
                       const char *wanted) {
    semver_parser_range *set = made_of(range, dialect, rule);
    prints(set, print, wanted);
    semver_parser_range_free(set);
}

/* ---- the lowest version */

#define MOST "18446744073709551615"
#define LAST MOST "." MOST "." MOST

static const int rules[] = {EXCLUDED, BY_DIALECT, INCLUDED};

/* A range and its lowest version: for releases only, by the default rule, and with all
 * pre-releases. An empty string means that there is none. */
static const struct {
    int dialect;
    const char *range;
    const char *lowest[RULES];
} lowest_versions[] = {
    {CRATE_CARGO, "^1.2.3", {"1.2.3", "1.2.3", "1.2.3"}},
    {CRATE_CARGO, "", {"0.0.0", "0.0.0", "0.0.0"}},
    {CRATE_NPM, "*", {"0.0.0", "0.0.0", "0.0.0"}},
    {CRATE_CARGO, "3.x || ^1.2 || >=2", {"1.2.0", "1.2.0", "1.2.0"}},
    {CRATE_CARGO, "<2.0.0", {"0.0.0", "0.0.0", "0.0.0-0"}},
    {CRATE_CARGO, ">1.0.0-rc.1", {"1.0.0", "1.0.0-rc.1.0", "1.0.0-rc.1.0"}},
    {CRATE_CARGO, ">1.2.3", {"1.2.4", "1.2.4", "1.2.4-0"}},
    {CRATE_NPM, "=1.2.3-rc.01+b", {"", "1.2.3-rc.1", "1.2.3-rc.1"}},
    {CRATE_NPM, "=2.0.1-a || >=2.0.0", {"2.0.0", "2.0.0", "2.0.0"}},
    {CRATE_NPM, "=1.9.9-a || >=2.0.0", {"2.0.0", "1.9.9-a", "1.9.9-a"}},
    {CRATE_NPM, ">2.0.0 <1.0.0", {"", "", ""}},
    {CRATE_NPM, "<0.0.0", {"", "", "0.0.0-0"}},
    {CRATE_NPM, ">0.0." MOST, {"0.1.0", "0.1.0", "0.1.0-0"}},
    {CRATE_NPM, ">" LAST, {"", "", ""}},
    {CRATE_NPM, "=0.0." MOST, {"0.0." MOST, "0.0." MOST, "0.0." MOST}},
    {CRATE_CARGO, ">1.2", {"1.2.1", "1.2.1", NULL}},
    {CRATE_NPM, "<1.0 >=1.0.0-a", {"", "1.0.0-a", NULL}},
    {CARGO, "1.2", {"1.2.0", "1.2.0", NULL}},
    {CARGO, ">1.2", {"1.3.0", "1.3.0", NULL}},
    {CARGO, "^1.2.3-beta", {"1.2.3", "1.2.3-beta", NULL}},
    {CARGO, "^1.2, >=1.2.0-a", {"1.2.0", "1.2.0-a", NULL}},
    {CARGO, "=1.2, >=1.2.0-a", {"1.2.0", "1.2.0", NULL}},
    {CARGO, ">=1, >=2.0.0-a", {"2.0.0", "2.0.0-a", NULL}},
    {CARGO, "<0.0.0", {"", "", NULL}},
    {NPM, ">1.2", {"1.3.0", "1.3.0", NULL}},
    {NPM, "v1.2.3", {"1.2.3", "1.2.3", NULL}},
    {NPM, "=1.2 >=1.2.3-a", {"1.2.3", "1.2.3-a", NULL}},
    {NPM, "<1.0 >=1.0.0-a", {"", "", NULL}},
    {NPM, ">=0 >=0.0.0-a", {"0.0.0", "0.0.0-a", NULL}},
    {NPM, "* || =1.0.0-a", {"0.0.0", "0.0.0", NULL}},
};

static void lowest(void) {
    for (size_t at = 0; at < sizeof lowest_versions / sizeof *lowest_versions; at++) {
        for (int rule = 0; rule < RULES && lowest_versions[at].lowest[rule] != NULL; rule++) {
            set_prints(lowest_versions[at].range, lowest_versions[at].dialect, rules[rule],
                       say_lowest, lowest_versions[at].lowest[rule]);
        }
    }
    /* Strings of each length around that of the first buffer. */
    for (int count = 40; count < 80; count++) {
        text near = repeated(">=1.2.3-", "a", count, "");
        set_prints(near.bytes, CRATE_CARGO, BY_DIALECT, say_lowest, near.bytes + 2);
        text_free(&near);
    }
    text identifier = repeated(">=1.2.3-", "a", 3000, "");
    set_prints(identifier.bytes, CRATE_CARGO, EXCLUDED, say_lowest, "1.2.3");
    set_prints(identifier.bytes, CRATE_CARGO, BY_DIALECT, say_lowest, identifier.bytes + 2);
    text_free(&identifier);
}

static void printed(void) {
    set_prints(">1.0.0-rc.1", CRATE_CARGO, EXCLUDED, say_releases, ">=1.0.0");
    set_prints(">1.0.0-rc.1", CRATE_CARGO, EXCLUDED, say_pre_releases, "<0.0.0-0");
    set_prints(">1.2.3 <2.0.0-0", CRATE_CARGO, INCLUDED, say_pre_releases, ">=1.2.4-0 <2.0.0-0");
    set_prints(">2 <1", NPM, INCLUDED, say_releases, "<0.0.0-0");
    set_prints("*", NPM, EXCLUDED, say_releases, "*");
    set_prints("^1.2", CARGO, BY_DIALECT, say_releases, ">=1.2.0 <2.0.0");
    text many = string("=0.0.1");
    text wanted = string("=0.0.1");
    for (int at = 2; at < 300; at++) {
        text_say(&many, " || =0.0.%d", 2 * at);
        text_say(&wanted, " || =0.0.%d", 2 * at);
    }
    set_prints(many.bytes, CRATE_NPM, BY_DIALECT, say_releases, wanted.bytes);
    text_free(&many);
    text_free(&wanted);
}

/* What is printed for a set can be parsed in the crate's npm mode to the same set: the releases
 * and the pre-releases, except `*`, which has only those above 0.0.0 there. */
static void reads_back(void) {
    static const char *const ranges[] = {"^1.2.3", ">1.0.0-rc.1", "=3.0.0-a || >5", "<*", ">2 <1",
                                         "*", ">=0.0.0-0", "<0.0.0-a.1 || =1.2.3-rc.0.b"};
    for (int at = 0; at < (int)(sizeof ranges / sizeof *ranges) * RULES; at++) {
        semver_parser_range *set = made_of(ranges[at / RULES], CRATE_NPM, at % RULES);
        text releases = string("");
        text pre_releases = string("");
        say_releases(&releases, set);
        say_pre_releases(&pre_releases, set);
        set_prints(releases.bytes, CRATE_NPM, EXCLUDED, say_releases, releases.bytes);
        if (strcmp(pre_releases.bytes, "*") != 0) {
            set_prints(pre_releases.bytes, CRATE_NPM, INCLUDED, say_pre_releases,
                       pre_releases.bytes);
        }
        text_free(&releases);
        text_free(&pre_releases);
        semver_parser_range_free(set);
    }
}

/* ---- two sets */

/* Two ranges, and the lowest version that only the first, only the second, and both contain, by
 * each rule. */
static const struct {
    int dialect;
    const char *ranges[2];
    const char *wanted[RULES][3];
} pairs[] = {
    {CRATE_CARGO, {"^1.2.3", "^1.2.3"}, {{"", "", "1.2.3"}, {"", "", "1.2.3"}, {"", "", "1.2.3"}}},
    {CRATE_NPM, {"1.2.3+a", "1.2.3+b"}, {{"", "", "1.2.3"}, {"", "", "1.2.3"}, {"", "", "1.2.3"}}},
    {CRATE_CARGO, {"", "*"}, {{"", "", "0.0.0"}, {"", "", "0.0.0"}, {"", "", "0.0.0"}}},
    {CRATE_CARGO, {">2 <1", ">3 <2"}, {{"", "", ""}, {"", "", ""}, {"", "", ""}}},
    {CRATE_CARGO, {"^1", ">2 <1"}, {{"1.0.0", "", ""}, {"1.0.0", "", ""}, {"1.0.0", "", ""}}},
    {CRATE_CARGO,
     {"^1", "^2"},
     {{"1.0.0", "2.0.0", ""}, {"1.0.0", "2.0.0", ""}, {"1.0.0", "2.0.0", ""}}},
    {CRATE_CARGO, {">=" LAST, ">" LAST}, {{LAST, "", ""}, {LAST, "", ""}, {LAST, "", ""}}},
    {CRATE_CARGO,
     {"^1.2.0", ">=1.4.0"},
     {{"1.2.0", "2.0.0", "1.4.0"}, {"1.2.0", "2.0.0", "1.4.0"}, {"1.2.0", "2.0.0-0", "1.4.0"}}},
    {CRATE_CARGO,
     {"<2.0.0", "<2.0.0-0"},
     {{"", "", "0.0.0"}, {"", "", "0.0.0"}, {"2.0.0-0", "", "0.0.0-0"}}},
    {CRATE_CARGO,
     {">1.0.0-rc.1", ">=1.0.0-rc.1"},
     {{"", "", "1.0.0"},
      {"", "1.0.0-rc.1", "1.0.0-rc.1.0"},
      {"", "1.0.0-rc.1", "1.0.0-rc.1.0"}}},
    {CRATE_NPM,
     {"=2.0.1-a || >=2.0.0", ">=2.0.0"},
     {{"", "", "2.0.0"}, {"2.0.1-a", "", "2.0.0"}, {"", "", "2.0.0"}}},
    {CRATE_NPM,
     {">=1.0.0-2 <1.0.0", ">=1.0.0-10 <1.0.0"},
     {{"", "", ""}, {"1.0.0-2", "", "1.0.0-10"}, {"1.0.0-2", "", "1.0.0-10"}}},
    {CRATE_NPM,
     {"=1.2.3-01", "=1.2.3-1"},
     {{"", "", ""}, {"", "", "1.2.3-1"}, {"", "", "1.2.3-1"}}},
    {CARGO, {"1.2", "^1.2"}, {{"", "", "1.2.0"}, {"", "", "1.2.0"}, {NULL, NULL, NULL}}},
    {NPM, {"1.2", "^1.2"}, {{"", "1.3.0", "1.2.0"}, {"", "1.3.0", "1.2.0"}, {NULL, NULL, NULL}}},
    {NPM, {">1.2", ">=1.3.0"}, {{"", "", "1.3.0"}, {"", "", "1.3.0"}, {NULL, NULL, NULL}}},
    {NPM, {"* || =1.0.0-a", "*"}, {{"", "", "0.0.0"}, {"", "", "0.0.0"}, {NULL, NULL, NULL}}},
    {CRATE_NPM,
     {"* || =1.0.0-a", "*"},
     {{"", "", "0.0.0"}, {"1.0.0-a", "", "0.0.0"}, {NULL, NULL, NULL}}},
    {CARGO,
     {"^1.2, >=1.2.0-a", "=1.2, >=1.2.0-a"},
     {{"1.3.0", "", "1.2.0"}, {"1.2.0-a", "", "1.2.0"}, {NULL, NULL, NULL}}},
    {CARGO, {"*", ">=0.0.0-a"}, {{"", "", "0.0.0"}, {"", "0.0.0-a", "0.0.0"}, {NULL, NULL, NULL}}},
};

static void compared_is(const semver_parser_range *one, const semver_parser_range *other,
                        bool within, bool same, const char *of) {
    bool is_subset = !within;
    bool equal = !same;
    check(compare(one, '<', other, &is_subset).status == SEMVER_PARSER_OK && is_subset == within,
          "wrong subset", of);
    check(compare(one, '=', other, &equal).status == SEMVER_PARSER_OK && equal == same,
          "wrong equality", of);
}

static void disjoint_is(const semver_parser_range *one, const semver_parser_range *other,
                        bool disjoint, const char *of) {
    bool is_disjoint = !disjoint;
    check(compare(one, '#', other, &is_disjoint).status == SEMVER_PARSER_OK
              && is_disjoint == disjoint,
          "disjoint, or not", of);
}

/* Checks the lowest version of what an operation makes of two sets, and that it is a set with
 * the same options. */
static void combined_is(const semver_parser_range *one, char operation,
                        const semver_parser_range *other, const char *wanted) {
    semver_parser_range *made = combined(one, operation, other);
    check(made != NULL, "not combined", wanted);
    prints(made, say_lowest, wanted);
    check(semver_parser_range_is_empty(made) == (wanted[0] == 0), "wrong emptiness", wanted);
    semver_parser_options options = semver_parser_range_options(made);
    semver_parser_options before = semver_parser_range_options(one);
    check(options.dialect == before.dialect && options.pre_releases == before.pre_releases,
          "other options", wanted);
    semver_parser_range_free(made);
}

static void two_sets(void) {
    for (size_t at = 0; at < sizeof pairs / sizeof *pairs; at++) {
        for (int rule = 0; rule < RULES && pairs[at].wanted[rule][0] != NULL; rule++) {
            const char *const *wanted = pairs[at].wanted[rule];
            const char *of = pairs[at].ranges[0];
            semver_parser_range *one = made_of(of, pairs[at].dialect, rules[rule]);
            semver_parser_range *other =
                made_of(pairs[at].ranges[1], pairs[at].dialect, rules[rule]);
            combined_is(one, '-', other, wanted[0]);
            combined_is(other, '-', one, wanted[1]);
            combined_is(one, '&', other, wanted[2]);
            compared_is(one, other, wanted[0][0] == 0, wanted[0][0] + wanted[1][0] == 0, of);
            compared_is(other, one, wanted[1][0] == 0, wanted[0][0] + wanted[1][0] == 0, of);
            compared_is(one, one, true, true, of);
            disjoint_is(one, other, wanted[2][0] == 0, of);
            disjoint_is(other, one, wanted[2][0] == 0, of);
            disjoint_is(one, one, semver_parser_range_is_empty(one), of);
            semver_parser_range_free(one);
            semver_parser_range_free(other);
        }
    }
}

static void releases_are(const semver_parser_range *one, char operation,
                         const semver_parser_range *other, const char *wanted) {
    semver_parser_range *made = combined(one, operation, other);
    prints(made, say_releases, wanted);
    semver_parser_range_free(made);
}

static void whole_sets(void) {
    semver_parser_range *one = made_of(">=1.0.0 <1.5.0", CRATE_CARGO, EXCLUDED);
    semver_parser_range *other = made_of(">=1.2.0 <2.0.0", CRATE_CARGO, EXCLUDED);
    releases_are(one, '|', other, ">=1.0.0 <2.0.0");
    releases_are(one, '&', other, ">=1.2.0 <1.5.0");
    releases_are(one, '-', other, ">=1.0.0 <1.2.0");
    releases_are(other, '-', one, ">=1.5.0 <2.0.0");
    semver_parser_range_free(one);
    semver_parser_range_free(other);
}

/* Returns the status of a function for two sets with these options: the dialects are compared
 * first. */
static int status_of_two(int one, int other) {
    if (one / RULES != other / RULES) {
        return DIFFERENT_DIALECTS;
    }
    return one == other ? OK : DIFFERENT_PRE_RELEASES;
}

/* Sets with different options are neither combined nor compared, even if they have the same
 * versions. */
static void other_options(void) {
    semver_parser_range *sets[DIALECTS * RULES];
    for (int at = 0; at < DIALECTS * RULES; at++) {
        sets[at] = made_of("=1.2.3", at / RULES, at % RULES);
    }
    for (int at = 0; at < DIALECTS * RULES * DIALECTS * RULES; at++) {
        const semver_parser_range *one = sets[at / (DIALECTS * RULES)];
        const semver_parser_range *other = sets[at % (DIALECTS * RULES)];
        int wanted = status_of_two(at / (DIALECTS * RULES), at % (DIALECTS * RULES));
        bool answers[3] = {false, false, true};
        for (int operation = 0; operation < 3; operation++) {
            check(compare(one, "=<#"[operation], other, &answers[operation]).status == wanted,
                  "other options are compared", "=1.2.3");
            semver_parser_range *made = NULL;
            check(combine(one, "|&-"[operation], other, &made).status == wanted
                      && (made != NULL) == (one == other),
                  "other options are combined", "=1.2.3");
            semver_parser_range_free(made);
        }
        check(answers[0] == (one == other) && answers[1] == (one == other)
                  && answers[2] == (one != other),
              "wrong result about other options", "=1.2.3");
    }
    for (int at = 0; at < DIALECTS * RULES; at++) {
        semver_parser_range_free(sets[at]);
    }
    semver_parser_range_free(NULL);
    semver_parser_comparators_free(NULL);
    semver_parser_free(NULL);
}

/* ---- the highest and the lowest version of a list */

/* Versions, which end with "", and the indices of the highest and the lowest: the first among
 * equal ones, or the number of versions if none is in the set. */
static const struct {
    int dialect;
    int rule;
    const char *range;
    const char *versions[8];
    size_t highest;
    size_t lowest;
} lists[] = {
    {CARGO, BY_DIALECT, "^1", {"0.9.0", "1.2.0", "1.10.0", "1.9.0", "2.0.0", ""}, 2, 1},
    {CARGO, BY_DIALECT, "^1", {"1.2.0+b", "1.2.0+a", "1.2.0", ""}, 0, 0},
    {CARGO, BY_DIALECT, "^1", {"0.1.0", "1.2.0+b", "1.2.0+z", "1.1.0+b", "1.1.0", ""}, 1, 3},
    {CARGO, BY_DIALECT, "^1", {"v1.5.0", "1.2", "1.2.0", "x", "1.3.0 ", ""}, 2, 2},
    {CARGO, BY_DIALECT, "^1", {"0.9.0", "2.0.0", "v1.0.0", ""}, 3, 3},
    {CARGO, BY_DIALECT, "^1", {""}, 0, 0},
    {NPM, BY_DIALECT, "^1", {"v1.5.0", "1.2", "1.2.0", " 1.5.0", ""}, 0, 2},
    {NPM, INCLUDED, ">=1.0.0-0", {"1.0.0-rc.1", "1.0.0", "1.0.0-alpha", ""}, 1, 2},
    {NPM, BY_DIALECT, ">=1.0.0-0", {"1.0.0-rc.1", "1.0.1-rc.1", "1.0.0-alpha.1", ""}, 0, 2},
    {NPM, EXCLUDED, ">=1.0.0-0", {"1.0.0-rc.1", "1.0.0-alpha.1", ""}, 2, 2},
    {CRATE_NPM, INCLUDED, "*", {"1.0.0-2", "1.0.0-01", "1.0.0-10", ""}, 1, 0},
    {CRATE_CARGO, INCLUDED, ">2 <1", {"1.0.0", "3.0.0", ""}, 2, 2},
};

/* Unless they are skipped, the first invalid version is the error, with its index. */
static void first_invalid_is(const semver_parser_range *set, const semver_parser_string *list,
                             size_t count) {
    semver_parser_dialect dialect = semver_parser_range_options(set).dialect;
    semver_parser_version parsed;
    semver_parser_error wanted = no_error;
    size_t first = 0;
    while (first < count
           && semver_parser_parse_version(list[first], dialect, &parsed, &wanted)
                  == SEMVER_PARSER_OK) {
        first++;
    }
    for (int lowest_one = 0; lowest_one < 2; lowest_one++) {
        semver_parser_error error = no_error;
        size_t index = SIZE_MAX;
        size_t skipping = SIZE_MAX;
        semver_parser_status status =
            lowest_one ? semver_parser_range_lowest_of(set, list, count, false, &index, &error)
                       : semver_parser_range_highest_of(set, list, count, false, &index, &error);
        semver_parser_status skipped =
            lowest_one ? semver_parser_range_lowest_of(set, list, count, true, &skipping, NULL)
                       : semver_parser_range_highest_of(set, list, count, true, &skipping, NULL);
        const char *of = first < count ? list[first].data : "no invalid version";
        check(skipped == SEMVER_PARSER_OK, "not skipped", of);
        check(first == count ? status == SEMVER_PARSER_OK && index == skipping
                             : status == SEMVER_PARSER_INVALID_VERSION && index == SIZE_MAX
                                   && error.status == status && error.index == first
                                   && error.offset == wanted.offset
                                   && error.reason == wanted.reason,
              "wrong invalid version", of);
    }
}

static void highest_and_lowest(void) {
    for (size_t at = 0; at < sizeof lists / sizeof *lists; at++) {
        semver_parser_range *set = made_of(lists[at].range, lists[at].dialect, lists[at].rule);
        semver_parser_string versions[8];
        size_t count = 0;
        for (; lists[at].versions[count][0] != 0; count++) {
            versions[count] = semver_parser_str(lists[at].versions[count]);
        }
        size_t index = 77;
        semver_parser_string *list = count == 0 ? NULL : versions;
        check(semver_parser_range_highest_of(set, list, count, true, &index, NULL)
                      == SEMVER_PARSER_OK
                  && index == lists[at].highest,
              "wrong highest version", lists[at].versions[0]);
        check(semver_parser_range_lowest_of(set, list, count, true, &index, NULL)
                      == SEMVER_PARSER_OK
                  && index == lists[at].lowest,
              "wrong lowest version", lists[at].versions[0]);
        first_invalid_is(set, list, count);
        semver_parser_range_free(set);
    }
}

/* More versions than are compared at once, with an invalid one at an index, or with none. The
 * highest is at `last`, and the lowest is after it. */
static void many_versions(size_t count, size_t invalid) {
    semver_parser_range *set = made_of("*", CARGO, BY_DIALECT);
    semver_parser_string *list = (semver_parser_string *)malloc(count * sizeof *list);
    size_t index = 77;
    semver_parser_error error;
    for (size_t at = 0; list != NULL && at < count; at++) {
        list[at] = semver_parser_str(at == invalid ? "1.0" : at % 2 == 0 ? "1.2.0" : "1.10.0+b");
    }
    bool skips = invalid < count;
    check(list != NULL
              && semver_parser_range_highest_of(set, list, count, skips, &index, &error)
                     == SEMVER_PARSER_OK
              && index == (invalid == 1 ? 3 : 1),
          "wrong highest of many", "1.10.0+b");
    check(list != NULL
              && semver_parser_range_lowest_of(set, list, count, skips, &index, &error)
                     == SEMVER_PARSER_OK
              && index == (invalid == 0 ? 2 : 0),
          "wrong lowest of many", "1.2.0");
    if (list != NULL) {
        first_invalid_is(set, list, count);
    }
    free(list);
    semver_parser_range_free(set);
}

int main(void) {
    lowest();
    printed();
    reads_back();
    two_sets();
    whole_sets();
    other_options();
    highest_and_lowest();
    for (size_t count = 4; count < 200; count++) {
        many_versions(count, count);
        many_versions(count, count % 7);
    }
    return finish("sets");
}
