/* How the four dialects read versions and ranges: the parts of versions, precedence, the
 * comparators of ranges as text and as fields, and terms. The expected values are in the tables
 * of rust/docs/RANGES.md, rust/docs/GRAMMAR.md, rust/docs/MEANING.md and rust/docs/CRATE.md. */
#include "calls.h"

#include <stdio.h>
#include <string.h>

/* ---- versions */

/* The offset and length of a part. */
typedef struct {
    size_t offset;
    size_t length;
} part;

/* A string, its parts if it is a version, and whether each dialect accepts it. */
enum { NO = INVALID_VERSION };
typedef struct {
    const char *bytes;
    uint64_t numbers[3];
    part pre;
    part build;
    int statuses[DIALECTS];
} version_by_dialect;

/* The highest number in a version in npm's dialect. */
#define MOST_OF_NPM 9007199254740991

static const version_by_dialect versions_by_dialect[] = {
    {"1.2.3", {1, 2, 3}, {0, 0}, {0, 0}, {OK, OK, OK, OK}},
    {"1.2.3-rc.1+b5", {1, 2, 3}, {6, 4}, {11, 2}, {OK, OK, OK, OK}},
    {"1.2.3-x-y.0a+01", {1, 2, 3}, {6, 6}, {13, 2}, {OK, OK, OK, OK}},
    {"1.0.0--a", {1, 0, 0}, {6, 2}, {0, 0}, {OK, OK, NO, NO}},
    {"1.0.0-a--b", {1, 0, 0}, {6, 4}, {0, 0}, {OK, OK, NO, NO}},
    {"1.0.0--", {1, 0, 0}, {6, 1}, {0, 0}, {OK, OK, NO, NO}},
    {"1.0.0-alpha-", {1, 0, 0}, {6, 6}, {0, 0}, {OK, OK, NO, NO}},
    {"1.0.0--01", {1, 0, 0}, {6, 3}, {0, 0}, {OK, OK, NO, NO}},
    {"1.0.0+--", {1, 0, 0}, {0, 0}, {6, 2}, {OK, OK, NO, NO}},
    {"6.2.0--canary.14175.ab12.0", {6, 2, 0}, {6, 20}, {0, 0}, {OK, OK, NO, NO}},
    {"1.2.3-01", {1, 2, 3}, {6, 2}, {0, 0}, {NO, NO, OK, OK}},
    {"1.2.3-a.00+b", {1, 2, 3}, {6, 4}, {11, 1}, {NO, NO, OK, OK}},
    {"1.2.3+01", {1, 2, 3}, {0, 0}, {6, 2}, {OK, OK, OK, OK}},
    {"v1.2.3", {1, 2, 3}, {0, 0}, {0, 0}, {NO, OK, NO, NO}},
    {"v1.2.3--a+b", {1, 2, 3}, {7, 2}, {10, 1}, {NO, OK, NO, NO}},
    {" 1.2.3 ", {1, 2, 3}, {0, 0}, {0, 0}, {NO, OK, OK, OK}},
    {"\t1.2.3-a+b\r\n", {1, 2, 3}, {7, 1}, {9, 1}, {NO, OK, OK, OK}},
    {" v1.2.3-a\n", {1, 2, 3}, {8, 1}, {0, 0}, {NO, OK, NO, NO}},
    {"\xC2\xA0"
     "1.2.3-a",
     {1, 2, 3},
     {8, 1},
     {0, 0},
     {NO, OK, NO, NO}},
    {"1.2.3+a\xC2\xA0", {1, 2, 3}, {0, 0}, {6, 1}, {NO, OK, NO, NO}},
    {"9007199254740991.0.0", {MOST_OF_NPM, 0, 0}, {0, 0}, {0, 0}, {OK, OK, OK, OK}},
    {"9007199254740992.0.0", {MOST_OF_NPM + 1, 0, 0}, {0, 0}, {0, 0}, {OK, NO, OK, OK}},
    {"0.0.18446744073709551615", {0, 0, UINT64_MAX}, {0, 0}, {0, 0}, {OK, NO, OK, OK}},
    {"18446744073709551616.0.0", {0, 0, 0}, {0, 0}, {0, 0}, {NO, NO, NO, NO}},
    {"vv1.2.3", {0, 0, 0}, {0, 0}, {0, 0}, {NO, NO, NO, NO}},
    {"v 1.2.3", {0, 0, 0}, {0, 0}, {0, 0}, {NO, NO, NO, NO}},
    {"01.2.3", {0, 0, 0}, {0, 0}, {0, 0}, {NO, NO, NO, NO}},
    {"", {0, 0, 0}, {0, 0}, {0, 0}, {NO, NO, NO, NO}},
    {"1.2", {0, 0, 0}, {0, 0}, {0, 0}, {NO, NO, NO, NO}},
    {"1.2.3-", {0, 0, 0}, {0, 0}, {0, 0}, {NO, NO, NO, NO}},
    {"1.2.3/", {0, 0, 0}, {0, 0}, {0, 0}, {NO, NO, NO, NO}},
    {"1.2.3 4", {0, 0, 0}, {0, 0}, {0, 0}, {NO, NO, NO, NO}},
    {"1.2.3\xFF", {0, 0, 0}, {0, 0}, {0, 0}, {NO, NO, NO, NO}},
};

static bool is_part(const semver_parser_string *one, const text *of, part wanted) {
    return one->length == wanted.length
           && (wanted.length == 0 || one->data == of->bytes + wanted.offset);
}

static void version_is(int dialect, const text *of, int status, const uint64_t *numbers, part pre,
                       part build) {
    semver_parser_version parsed;
    outcome told = parse(of, dialect, &parsed);
    check((int)told.status == status, "wrong status of a version", of->bytes);
    if (status == OK && told.status == SEMVER_PARSER_OK) {
        check(parsed.major == numbers[0] && parsed.minor == numbers[1]
                  && parsed.patch == numbers[2],
              "other numbers", of->bytes);
        check(is_part(&parsed.pre, of, pre), "wrong pre-release", of->bytes);
        check(is_part(&parsed.build, of, build), "wrong build", of->bytes);
    }
}

static void order_is(int dialect, const char *bytes, const char *other_bytes, int wanted) {
    text version = string(bytes);
    text other = string(other_bytes);
    int32_t order = 7;
    check(order_of(&version, &other, dialect, &order).status == SEMVER_PARSER_OK
              && order == wanted,
          "wrong order", bytes);
    check(order_of(&other, &version, dialect, &order).status == SEMVER_PARSER_OK
              && order == -wanted,
          "wrong order the other way around", bytes);
    text_free(&version);
    text_free(&other);
}

/* The error of the first of two invalid versions is returned. */
static void order_error_is(int dialect, const text *invalid) {
    text version = string("1.2.3-rc.1+b");
    int32_t order;
    semver_parser_version parsed;
    outcome alone = parse(invalid, dialect, &parsed);
    outcome first = order_of(invalid, &version, dialect, &order);
    outcome second = order_of(&version, invalid, dialect, &order);
    outcome both = order_of(invalid, invalid, dialect, &order);
    const outcome *all[] = {&first, &second, &both};
    for (int at = 0; at < 3; at++) {
        check(all[at]->status == SEMVER_PARSER_INVALID_VERSION
                  && all[at]->index == (size_t)(at == 1) && all[at]->offset == alone.offset
                  && all[at]->reason == alone.reason,
              "wrong error of an order", invalid->bytes);
    }
    text_free(&version);
}

static void versions(void) {
    for (size_t at = 0; at < sizeof versions_by_dialect / sizeof *versions_by_dialect; at++) {
        const version_by_dialect *row = &versions_by_dialect[at];
        text of = string(row->bytes);
        for (int dialect = 0; dialect < DIALECTS; dialect++) {
            version_is(dialect, &of, row->statuses[dialect], row->numbers, row->pre, row->build);
            if (row->statuses[dialect] == OK) {
                order_is(dialect, row->bytes, row->bytes, 0);
            } else {
                order_error_is(dialect, &of);
            }
        }
        text_free(&of);
    }
    /* A zero byte is treated like any other byte. */
    const part no_part = {0, 0};
    text zero = string_of("1.2.3\0", 6);
    for (int dialect = 0; dialect < DIALECTS; dialect++) {
        version_is(dialect, &zero, NO, NULL, no_part, no_part);
    }
    text_free(&zero);
}

/* Checks a version with a long part. */
static void long_part(int dialect, const char *front, const char *unit, int count, int status) {
    const uint64_t numbers[3] = {1, 2, 3};
    const part none = {0, 0};
    text of = repeated(front, unit, count, "");
    part whole = {6, of.length - 6};
    bool is_pre = front[5] == '-';
    version_is(dialect, &of, status, numbers, is_pre ? whole : none, is_pre ? none : whole);
    text_free(&of);
}

/* npm accepts at most 256 characters. A no-break space is one of them. */
static void long_versions(void) {
    const part none = {0, 0};
    const uint64_t numbers[3] = {1, 2, 3};
    for (int dialect = 0; dialect < DIALECTS; dialect++) {
        for (int count = 250; count <= 3000; count += count < 252 ? 1 : 2748) {
            int status = dialect == NPM && count > 250 ? (int)NO : (int)OK;
            long_part(dialect, "1.2.3-", "a", count, status);
            long_part(dialect, "1.2.3+", "0", count, status);
            text white = repeated("", " ", count + 1, "1.2.3");
            version_is(dialect, &white, dialect == CARGO ? (int)NO : status, numbers, none, none);
            text wide = repeated("v1.2.3", "\xC2\xA0", count, "");
            version_is(dialect, &wide, dialect == NPM ? status : (int)NO, numbers, none, none);
            text_free(&white);
            text_free(&wide);
        }
        long_part(dialect, "1.2.3--", "-", 240, dialect <= NPM ? (int)OK : (int)NO);
        if (dialect != NPM) {
            long_part(dialect, "1.2.3+z", ".0", 3000, OK);
        }
    }
}

/* ---- precedence */

/* Each is below those after it, by the examples in section 11 of SemVer 2.0.0 and by its rules:
 * numbers are compared as numbers, others in ASCII order, a number is below any other
 * identifier, and more identifiers are above fewer. */
static const char *const in_order[] = {
    "0.0.0-0", "0.0.0", "0.0.1", "1.0.0-0", "1.0.0-2", "1.0.0-10", "1.0.0-18446744073709551615",
    "1.0.0-18446744073709551616", "1.0.0-A", "1.0.0-alpha", "1.0.0-alpha.1", "1.0.0-alpha.beta",
    "1.0.0-beta", "1.0.0-beta.2", "1.0.0-beta.11", "1.0.0-rc.1", "1.0.0", "1.0.10", "1.2.0",
    "1.10.0", "2.0.0", "2.1.0", "2.1.1", "9007199254740991.0.0"};

/* In the dialects of the tools: a hyphen is below any letter and digit. */
static const char *const with_hyphens[] = {
    "1.0.0-1", "1.0.0-10", "1.0.0--", "1.0.0---", "1.0.0--1", "1.0.0--a", "1.0.0-a", "1.0.0-a-",
    "1.0.0-a--b", "1.0.0-a-b", "1.0.0", "6.2.0--canary.9.z", "6.2.0--canary.14175.ab12",
    "6.2.0--canary.14175.ab12.0", "6.2.0"};

static void are_in_order(int dialect, const char *const *versions_in_order, size_t count) {
    for (size_t at = 0; at < count; at++) {
        for (size_t after = at; after < count; after++) {
            order_is(dialect, versions_in_order[at], versions_in_order[after],
                     at == after ? 0 : -1);
        }
    }
}

static void precedence(void) {
    for (int dialect = 0; dialect < DIALECTS; dialect++) {
        are_in_order(dialect, in_order, sizeof in_order / sizeof *in_order);
        order_is(dialect, "1.2.3+a", "1.2.3+b.1", 0);
        order_is(dialect, "1.2.3-rc+z", "1.2.3+a", -1);
        if (dialect != CARGO) {
            order_is(dialect, " 1.2.3-a+b", "1.2.3-a\n", 0);
        }
        if (dialect >= CRATE_CARGO) {
            order_is(dialect, "1.0.0-2", "1.0.0-01", -1);
            order_is(dialect, "1.0.0-01", "1.0.0-18446744073709551616", -1);
            continue;
        }
        are_in_order(dialect, with_hyphens, sizeof with_hyphens / sizeof *with_hyphens);
    }
    order_is(NPM, " v1.2.3-a+b", "1.2.3-a\xC2\xA0", 0);
    order_is(NPM, "v1.2.3--a", "1.2.3-a", -1);
    text with_a = repeated("1.2.3-", "a", 3000, "");
    text with_b = repeated("1.2.3-", "a", 3000, "b");
    text built = repeated("1.0.0+", "a", 3000, "");
    order_is(CARGO, with_a.bytes, with_b.bytes, -1);
    order_is(CARGO, with_a.bytes, with_a.bytes, 0);
    order_is(CARGO, "1.0.0", built.bytes, 0);
    text_free(&with_a);
    text_free(&with_b);
    text_free(&built);
}

/* ---- the comparators of a range */

#define MOST "18446744073709551615"

/* A range, and its comparators in each dialect, with exact bounds, or the word for its error. */
typedef struct {
    const char *range;
    const char *rewritten[DIALECTS];
} rewriting;

static const char not_a_range[] = "not-a-range";
static const char too_large[] = "number-too-large";

/* The comparators are the same in all four dialects. */
#define IN_ALL(set)                                                                                \
    { set, set, set, set }
/* The same in npm's dialect and the crate's two; Cargo rejects the text. */
#define BUT_IN_CARGO(set)                                                                          \
    { not_a_range, set, set, set }
/* Only one dialect accepts the text. */
#define IN_CARGO(set)                                                                              \
    { set, not_a_range, not_a_range, not_a_range }
#define IN_NPM(set)                                                                                \
    { not_a_range, set, not_a_range, not_a_range }

static const rewriting rewritings[] = {
    {"1.2.3", {">=1.2.3 <2.0.0-0", "=1.2.3", ">=1.2.3 <2.0.0-0", "=1.2.3"}},
    {"1.2", {">=1.2.0 <2.0.0-0", ">=1.2.0 <1.3.0-0", ">=1.2.0 <1.3.0-0", ">=1.2.0 <1.3.0-0"}},
    {">1.2", {">=1.3.0", ">=1.3.0", ">1.2.0", ">1.2.0"}},
    {">1", {">=2.0.0", ">=2.0.0", ">1.0.0", ">1.0.0"}},
    {"<1.2", {"<1.2.0", "<1.2.0-0", "<1.2.0", "<1.2.0"}},
    {"<1", {"<1.0.0", "<1.0.0-0", "<1.0.0", "<1.0.0"}},
    {"<*", {not_a_range, "<0.0.0-0", "<0.0.0", "<0.0.0"}},
    {"1", IN_ALL(">=1.0.0 <2.0.0-0")},
    {"0", IN_ALL(">=0.0.0 <1.0.0-0")},
    {"0.0", {">=0.0.0 <0.1.0-0", ">=0.0.0 <0.1.0-0", ">=0.0.0 <0.1.0-0", ">=0.0.0 <0.1.0-0"}},
    {"1.2.*", IN_ALL(">=1.2.0 <1.3.0-0")},
    {"^1.2.3-beta.4", IN_ALL(">=1.2.3-beta.4 <2.0.0-0")},
    {"*", IN_ALL(">=0.0.0")},
    {"", BUT_IN_CARGO(">=0.0.0")},
    {">=1.2.3, <2", IN_CARGO(">=1.2.3 <2.0.0")},
    {"1.2 || 3", BUT_IN_CARGO(">=1.2.0 <1.3.0-0 || >=3.0.0 <4.0.0-0")},
    {"1.x - 2", BUT_IN_CARGO(">=1.0.0 <3.0.0-0")},
    {"v1.2.3", IN_NPM("=1.2.3")},
    {"^v1", IN_NPM(">=1.0.0 <2.0.0-0")},
    {"=v1", IN_NPM(">=1.0.0 <2.0.0-0")},
    {"1.2.3\n", IN_NPM("=1.2.3")},
    {"\xC2\xA0"
     "1.2.3",
     IN_NPM("=1.2.3")},
    {"v 1", IN_ALL(not_a_range)},
    {"1.2.3-01", {not_a_range, not_a_range, ">=1.2.3-1 <2.0.0-0", "=1.2.3-1"}},
    {">1." MOST, {too_large, too_large, ">1." MOST ".0", ">1." MOST ".0"}},
    {"<=" MOST, IN_ALL(too_large)},
};

static const char *error_word(semver_parser_status status) {
    return status == SEMVER_PARSER_INVALID_RANGE      ? not_a_range
           : status == SEMVER_PARSER_NUMBER_TOO_LARGE ? too_large
                                                      : "wrong status";
}

/* Returns a range without the pre-releases `0` of raised bounds, as the crate prints it if the
 * bounds aren't exact. */
static text with_plain_bounds(const char *range) {
    text made = string("");
    for (const char *at = range; *at != 0; at++) {
        if (strncmp(at, "-0", 2) == 0 && (at[2] == ' ' || at[2] == 0)) {
            at++;
        } else {
            text_add(&made, at, 1);
        }
    }
    return made;
}

static void is_rewritten(int dialect, bool exact, const text *of, const char *wanted) {
    text printed = string("");
    outcome told = rewrite(of, dialect, exact, &printed);
    check(strcmp(told.status == SEMVER_PARSER_OK ? printed.bytes : error_word(told.status), wanted)
              == 0,
          exact ? "wrong range" : "wrong range without exact bounds", of->bytes);
    text_free(&printed);
}

static void rewritten(void) {
    for (size_t at = 0; at < sizeof rewritings / sizeof *rewritings; at++) {
        text of = string(rewritings[at].range);
        for (int dialect = 0; dialect < DIALECTS; dialect++) {
            const char *exact = rewritings[at].rewritten[dialect];
            bool is_error = exact == not_a_range || exact == too_large;
            text plain = dialect <= NPM || is_error ? string(exact) : with_plain_bounds(exact);
            is_rewritten(dialect, true, &of, exact);
            is_rewritten(dialect, false, &of, plain.bytes);
            text_free(&plain);
        }
        text_free(&of);
    }
}

/* A requirement of Cargo has at most 32 comparators; in the other dialects there is no limit. */
static void many_comparators(void) {
    text comparators = string("");
    text wanted = string("");
    text ranges = string("");
    text wanted_ranges = string("");
    for (int at = 0; at < 32; at++) {
        text_say(&comparators, "%s%d.1.*", at > 0 ? " , " : "", at);
        text_say(&wanted, "%s>=%d.1.0 <%d.2.0-0", at > 0 ? " " : "", at, at);
    }
    is_rewritten(CARGO, true, &comparators, wanted.bytes);
    text_say(&comparators, ",1");
    is_rewritten(CARGO, true, &comparators, not_a_range);
    for (int at = 0; at < 300; at++) {
        text_say(&ranges, "%s%d.1", at > 0 ? "||" : "", at);
        text_say(&wanted_ranges, "%s>=%d.1.0 <%d.2.0-0", at > 0 ? " || " : "", at, at);
    }
    text plain = with_plain_bounds(wanted_ranges.bytes);
    for (int dialect = NPM; dialect < DIALECTS; dialect++) {
        is_rewritten(dialect, true, &ranges, wanted_ranges.bytes);
        is_rewritten(dialect, false, &ranges,
                     dialect == NPM ? wanted_ranges.bytes : plain.bytes);
    }
    text_say(&ranges, "||,");
    is_rewritten(NPM, true, &ranges, not_a_range);
    text_free(&plain);
    text_free(&comparators);
    text_free(&wanted);
    text_free(&ranges);
    text_free(&wanted_ranges);
}

/* In npm's dialect, the version of a comparator has at most 256 characters. */
static void long_identifiers(void) {
    /* Strings of each length around that of the first buffer. */
    for (int count = 40; count < 80; count++) {
        text near = repeated("=1.2.3-", "a", count, "");
        is_rewritten(CARGO, true, &near, near.bytes);
        text_free(&near);
    }
    for (int count = 250; count <= 3000; count += count < 251 ? 1 : 2749) {
        text of = repeated("=1.2.3-", "a", count, "");
        for (int dialect = 0; dialect < DIALECTS; dialect++) {
            const char *wanted = dialect == NPM && count > 250 ? not_a_range : of.bytes;
            is_rewritten(dialect, true, &of, wanted);
            is_rewritten(dialect, false, &of, wanted);
        }
        text_free(&of);
    }
}

/* ---- comparators */

typedef struct {
    size_t range;
    semver_parser_op op;
    uint64_t numbers[3];
    const char *pre;
} wanted_comparator;

static void comparators_are(int dialect, bool exact, const char *bytes,
                            const wanted_comparator *wanted, size_t count) {
    text of = string(bytes);
    semver_parser_comparators *list = NULL;
    check(comparators_of(&of, dialect, exact, &list).status == SEMVER_PARSER_OK
              && semver_parser_comparators_count(list) == count,
          "wrong number of comparators", bytes);
    for (size_t at = 0; at < count; at++) {
        semver_parser_comparator one;
        check(semver_parser_comparators_get(list, at, &one) == SEMVER_PARSER_OK, "no comparator",
              bytes);
        check(one.range == wanted[at].range, "wrong range", bytes);
        check(one.op == wanted[at].op, "wrong operator", bytes);
        check(one.major == wanted[at].numbers[0] && one.minor == wanted[at].numbers[1]
                  && one.patch == wanted[at].numbers[2],
              "other numbers", bytes);
        check(one.pre.length == strlen(wanted[at].pre)
                  && memcmp(one.pre.data, wanted[at].pre, one.pre.length) == 0,
              "wrong pre-release", bytes);
    }
    semver_parser_comparators_free(list);
    text_free(&of);
}

static void comparators(void) {
    static const wanted_comparator two_ranges[] = {
        {0, SEMVER_PARSER_OP_GREATER_EQUAL, {1, 2, 0}, ""},
        {0, SEMVER_PARSER_OP_LESS, {2, 0, 0}, "0"},
        {1, SEMVER_PARSER_OP_GREATER_EQUAL, {3, 0, 0}, ""},
        {1, SEMVER_PARSER_OP_LESS, {4, 0, 0}, "0"}};
    comparators_are(CRATE_NPM, true, "^1.2 || 3.x", two_ranges, 4);
    comparators_are(NPM, false, "^1.2 || 3.x", two_ranges, 4);
    static const wanted_comparator three[] = {
        {0, SEMVER_PARSER_OP_GREATER_EQUAL, {1, 2, 3}, "rc.1"},
        {0, SEMVER_PARSER_OP_LESS, {2, 0, 0}, "0"},
        {1, SEMVER_PARSER_OP_LESS, {2, 0, 0}, "a"}};
    comparators_are(CRATE_CARGO, true, "^1.2.3-rc.1 || <2.0.0-a", three, 3);
    comparators_are(NPM, false, "^1.2.3-rc.1 || <2.0.0-a", three, 3);
    const wanted_comparator one_range[] = {
        three[0], three[1], {0, SEMVER_PARSER_OP_LESS, {2, 0, 0}, "a"}};
    comparators_are(CARGO, false, "^1.2.3-rc.1, <2.0.0-a", one_range, 3);
    static const wanted_comparator stated[] = {{0, SEMVER_PARSER_OP_LESS, {1, 0, 0}, "a"},
                                               {0, SEMVER_PARSER_OP_LESS_EQUAL, {1, 0, 0}, ""},
                                               {0, SEMVER_PARSER_OP_GREATER, {1, 0, 0}, ""},
                                               {1, SEMVER_PARSER_OP_EQUAL, {1, 0, 0}, "b.10.c-d"}};
    comparators_are(CRATE_NPM, false, "<1.0.0-a <=1.0.0 >1.0.0||1.0.0-b.10.c-d+build", stated, 4);
    static const wanted_comparator long_numbers[] = {
        {0, SEMVER_PARSER_OP_EQUAL, {UINT64_MAX, 10, 100}, "x"},
        {1, SEMVER_PARSER_OP_GREATER_EQUAL, {0, 0, 0}, ""}};
    comparators_are(CRATE_NPM, true, MOST ".10.100-x ||", long_numbers, 2);
    static const wanted_comparator all[] = {{0, SEMVER_PARSER_OP_GREATER_EQUAL, {0, 0, 0}, ""}};
    comparators_are(CRATE_NPM, true, "", all, 1);
    comparators_are(CARGO, true, "*", all, 1);
}

/* ---- terms */

typedef struct {
    size_t range;
    semver_parser_operator op;
    const char *term;
    const char *version;
    const char *upper;
} wanted_term;

/* Returns whether the bytes between two offsets are a text. The text may be null for no bytes. */
static bool is_at(const char *bytes, size_t start, size_t end, const char *wanted) {
    if (wanted == NULL) {
        return start == 0 && end == 0;
    }
    return end - start == strlen(wanted) && memcmp(bytes + start, wanted, end - start) == 0;
}

static void terms_are(int dialect, const char *bytes, const wanted_term *wanted, size_t count) {
    semver_parser_term found[5];
    semver_parser_string of = semver_parser_str(bytes);
    size_t read = 77;
    check(semver_parser_terms_of_range(of, dialect, NULL, 0, &read, NULL) == SEMVER_PARSER_OK
              && read == count,
          "wrong number of terms", bytes);
    memset(found, 1, sizeof found);
    found[4].range = 88;
    check(semver_parser_terms_of_range(of, dialect, found, 4, &read, NULL) == SEMVER_PARSER_OK
              && read == count && found[4].range == 88,
          "other terms", bytes);
    for (size_t at = 0; at < count && at < 4; at++) {
        const semver_parser_term *it = &found[at];
        check(it->range == wanted[at].range && it->op == wanted[at].op, "wrong range", bytes);
        check(is_at(bytes, it->start, it->end, wanted[at].term), "wrong term", bytes);
        check(is_at(bytes, it->version.start, it->version.end, wanted[at].version),
              "wrong version", bytes);
        check(is_at(bytes, it->upper.start, it->upper.end, wanted[at].upper), "wrong upper version",
              bytes);
    }
}

/* Checks the parts of the version of the first term. */
static void parts_are(const char *bytes, bool has_v, const semver_parser_component *wanted,
                      const char *pre, const char *build) {
    semver_parser_term it;
    size_t count = 0;
    check(semver_parser_terms_of_range(
              semver_parser_str(bytes), SEMVER_PARSER_DIALECT_NPM, &it, 1, &count, NULL)
                  == SEMVER_PARSER_OK
              && it.version.has_v == has_v,
          "wrong v", bytes);
    const semver_parser_component found[] = {it.version.major, it.version.minor, it.version.patch};
    for (int at = 0; at < 3; at++) {
        check(found[at].kind == wanted[at].kind && found[at].number == wanted[at].number,
              "wrong component", bytes);
    }
    check(it.version.pre.length == strlen(pre)
              && memcmp(it.version.pre.data, pre, strlen(pre)) == 0,
          "wrong pre-release", bytes);
    check(it.version.build.length == strlen(build)
              && memcmp(it.version.build.data, build, strlen(build)) == 0,
          "wrong build", bytes);
}

/* Returns a version of a range: counted from 0, or in a hyphen range its second one. */
static semver_parser_partial_version version_of(
    semver_parser_dialect dialect, const char *range, size_t index, bool is_upper) {
    semver_parser_term found[4];
    size_t count = 0;
    memset(found, 0, sizeof found);
    check(semver_parser_terms_of_range(
              semver_parser_str(range), dialect, found, 4, &count, NULL)
                  == SEMVER_PARSER_OK
              && index < count,
          "no such term", range);
    return is_upper ? found[index].upper : found[index].version;
}

/* Checks a range in which a version is replaced by 3.1.4-rc.1+b5. */
static void replaced_is(
    semver_parser_dialect dialect, const char *range, size_t index, bool is_upper,
    const char *wanted) {
    char *made = NULL;
    const semver_parser_partial_version written = version_of(dialect, range, index, is_upper);
    semver_parser_status status = semver_parser_replace_version(
        semver_parser_str(range), &written, semver_parser_str("3.1.4-rc.1+b5"), dialect, &made,
        NULL);
    check(status == SEMVER_PARSER_OK && strcmp(made, wanted) == 0, "wrong replacement", range);
    semver_parser_free(made);
}

/* Checks that nothing is replaced: the range doesn't have the version, or the range or the other
 * version is invalid. */
static void not_replaced(
    const char *range, const semver_parser_partial_version *written, const char *version,
    semver_parser_status wanted, size_t wanted_index) {
    char *made = NULL;
    semver_parser_error error;
    memset(&error, 0, sizeof error);
    semver_parser_status status = semver_parser_replace_version(
        semver_parser_str(range), written, semver_parser_str(version), NPM, &made, &error);
    check(status == wanted && error.status == wanted && error.index == wanted_index && made == NULL,
          "wrong error of a replacement", range);
}

/* Checks that a range doesn't have the first version of another one. */
static void another_version(const char *range, const char *other) {
    const semver_parser_partial_version written = version_of(NPM, other, 0, false);
    not_replaced(range, &written, "2.0.0", SEMVER_PARSER_INVALID_ARGUMENT, 0);
}

static void replaced(void) {
    replaced_is(NPM, "v1.2 || >= 1.2.3-a+b", 0, false, "v3.1 || >= 1.2.3-a+b");
    replaced_is(NPM, "v1.2 || >= 1.2.3-a+b", 1, false, "v1.2 || >= 3.1.4-rc.1");
    replaced_is(NPM, "1.X - 2.*.x", 0, false, "3.X - 2.*.x");
    replaced_is(NPM, "1.X - 2.*.x", 0, true, "1.X - 3.*.x");
    replaced_is(CARGO, ">=1.2.0, <2", 1, false, ">=1.2.0, <3");
    const semver_parser_partial_version written = version_of(NPM, "^1.2", 0, false);
    not_replaced("^1.02", &written, "2.0.0", SEMVER_PARSER_INVALID_RANGE, 0);
    not_replaced("^9007199254740992", &written, "2.0.0", SEMVER_PARSER_NUMBER_TOO_LARGE, 0);
    not_replaced("^1.2", &written, "2.0", SEMVER_PARSER_INVALID_VERSION, 1);
    not_replaced("^1.02", &written, "2.0", SEMVER_PARSER_INVALID_RANGE, 0);
    not_replaced("1.2", &written, "2.0", SEMVER_PARSER_INVALID_ARGUMENT, 0);
    static const char *const others[][2] = {
        {"1.2", "^1.2"}, {"^1.2", "1.2"}, {"^1.2", "^1.22"}, {"1.2", "v1"}, {"^1.2", "^2.2"},
        {"^1.2", "^1.3"}, {"^1.2.3", "^1.2.4"}, {"^1.2", "^1.x"}, {"^1.x", "^1.X"},
        {"^1.2.3-a", "^1.2.3-b"}, {"^1.2.3+a", "^1.2.3+b"}, {"^1.2.3-a", "^1.2.3+a"}};
    for (size_t at = 0; at < sizeof others / sizeof *others; at++) {
        another_version(others[at][0], others[at][1]);
    }
    semver_parser_partial_version none = written;
    none.start = none.end = SIZE_MAX;
    not_replaced("^1.2", &none, "2.0.0", SEMVER_PARSER_INVALID_ARGUMENT, 0);
}

/* After a longer version, the other versions of a range are at other offsets; before it, they stay
 * where they are. */
static void several_replaced(void) {
    const char *const range = "1 || 2.0.0-a || 3";
    semver_parser_term found[3];
    size_t count;
    check(semver_parser_terms_of_range(semver_parser_str(range), NPM, found, 3, &count, NULL)
                  == SEMVER_PARSER_OK
              && count == 3,
          "no terms", range);
    const semver_parser_string version = semver_parser_str("10.0.0");
    char *longer = NULL;
    check(semver_parser_replace_version(
              semver_parser_str(range), &found[0].version, version, NPM, &longer, NULL)
                  == SEMVER_PARSER_OK
              && strcmp(longer, "10 || 2.0.0-a || 3") == 0,
          "wrong replacement", range);
    not_replaced(longer, &found[2].version, "4.0.0", SEMVER_PARSER_INVALID_ARGUMENT, 0);
    semver_parser_free(longer);
    char *last = NULL;
    for (size_t at = count; at-- > 0;) {
        char *made = NULL;
        check(semver_parser_replace_version(semver_parser_str(last == NULL ? range : last),
                                            &found[at].version, version, NPM, &made, NULL)
                  == SEMVER_PARSER_OK,
              "not replaced", range);
        semver_parser_free(last);
        last = made;
    }
    check(strcmp(last, "10 || 10.0.0 || 10") == 0, "wrong replacements", last);
    semver_parser_free(last);
}

static void terms(void) {
    static const wanted_term of_npm[] = {
        {0, SEMVER_PARSER_OPERATOR_CARET, "^ v1.2", "v1.2", NULL},
        {1, SEMVER_PARSER_OPERATOR_GREATER_OR_EQUAL, ">=3.0.0-rc.1", "3.0.0-rc.1", NULL},
        {1, SEMVER_PARSER_OPERATOR_LESS, "<4", "4", NULL},
        {2, SEMVER_PARSER_OPERATOR_HYPHEN, "1.2 - 2.x", "1.2", "2.x"},
        {3, SEMVER_PARSER_OPERATOR_BARE, "x", "x", NULL}};
    terms_are(NPM, "\t^ v1.2||>=3.0.0-rc.1 <4 || 1.2 - 2.x || x", of_npm, 5);
    static const wanted_term of_cargo[] = {
        {0, SEMVER_PARSER_OPERATOR_LESS_OR_EQUAL, "<= 2", "2", NULL},
        {0, SEMVER_PARSER_OPERATOR_EQUAL, "=1.5.*", "1.5.*", NULL},
        {0, SEMVER_PARSER_OPERATOR_GREATER, ">1", "1", NULL}};
    terms_are(CARGO, " <= 2 ,=1.5.*,>1 ", of_cargo, 3);
    static const wanted_term tilde[] = {{2, SEMVER_PARSER_OPERATOR_TILDE, "~> 1.X", "1.X", NULL}};
    terms_are(CRATE_NPM, " || ||~> 1.X", tilde, 1);
    terms_are(NPM, "", NULL, 0);
    enum { NO = SEMVER_PARSER_COMPONENT_NONE, NUMBER = SEMVER_PARSER_COMPONENT_NUMBER };
    static const semver_parser_component all[] = {{NUMBER, 1}, {NUMBER, 2}, {NUMBER, 3}};
    parts_are("<v1.2.3-rc.1+b.5", true, all, "rc.1", "b.5");
    static const semver_parser_component one[] = {{NUMBER, 10}, {NO, 0}, {NO, 0}};
    parts_are("~10", false, one, "", "");
    /* 2^64 after a wildcard, where a number is ignored. */
    static const semver_parser_component after[] = {
        {NUMBER, 1}, {SEMVER_PARSER_COMPONENT_WILDCARD, 'x'}, {NUMBER, UINT64_MAX}};
    parts_are("1.x.18446744073709551616", false, after, "", "");
    static const char *const signs[] = {"<", "<=", ">", ">=", "=", "~", "^", "", "-"};
    for (int at = 0; at < 9; at++) {
        check(strcmp(semver_parser_operator_sign(at), signs[at]) == 0, "wrong sign", signs[at]);
    }
    check(semver_parser_operator_sign(9) == NULL && semver_parser_operator_sign(-1) == NULL,
          "a sign", "of no operator");
}

int main(void) {
    versions();
    long_versions();
    precedence();
    rewritten();
    many_comparators();
    long_identifiers();
    comparators();
    terms();
    replaced();
    several_replaced();
    return finish("readings");
}
