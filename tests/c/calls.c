#include "calls.h"

#include <inttypes.h>
#include <stdio.h>
#include <stdlib.h>
#include <string.h>

enum { FILL = 0xA5, GUARDS = 16 };

static int failures;

void check(bool holds, const char *what, const char *of) {
    if (!holds) {
        printf("%s: %.200s\n", what, of);
        failures++;
    }
}

int finish(const char *name) {
    printf("%s: %s\n", name, failures == 0 ? "passed" : "failed");
    return failures == 0 ? 0 : 1;
}

static void require(bool holds, const char *what, const text *of) {
    if (!holds) {
        fprintf(stderr, "%s: %.200s\n", what, of->bytes);
        exit(1);
    }
}

semver_parser_options options_of(int dialect, int rule) {
    semver_parser_options made = semver_parser_options_of(dialect);
    made.pre_releases = rule;
    return made;
}

text string_of(const char *bytes, size_t length) {
    text made = {NULL, 0, 0};
    text_add(&made, bytes, length);
    return made;
}

text string(const char *bytes) {
    return string_of(bytes, strlen(bytes));
}

text repeated(const char *front, const char *unit, int count, const char *end) {
    text made = string(front);
    for (int at = 0; at < count; at++) {
        text_say(&made, "%s", unit);
    }
    text_say(&made, "%s", end);
    return made;
}

/* ---- strings and outputs */

static void *block(size_t length) {
    void *made = malloc(length != 0 ? length : 1);
    if (made == NULL) {
        fprintf(stderr, "no memory\n");
        exit(2);
    }
    return made;
}

/* Returns the bytes of a text in a block of their own. */
static semver_parser_string alone(const text *of) {
    char *bytes = (char *)block(of->length);
    memcpy(bytes, of->bytes, of->length);
    semver_parser_string made = {bytes, of->length};
    return made;
}

static bool is_filled(const void *with, size_t length) {
    const unsigned char *bytes = (const unsigned char *)with;
    for (size_t at = 0; at < length; at++) {
        if (bytes[at] != FILL) {
            return false;
        }
    }
    return true;
}

static void *output(size_t size) {
    return memset(block(size + GUARDS), FILL, size + GUARDS);
}

/* Copies an output to `to` if the call writes it, and frees it. */
static void take(void *made, size_t size, bool is_written, void *to, const text *of) {
    require(is_filled((char *)made + size, GUARDS), "a byte after an output", of);
    if (is_written && size > 0) {
        memcpy(to, made, size);
    } else if (!is_written) {
        require(is_filled(made, size), "an output that changes", of);
    }
    free(made);
}

/* ---- calls with an error */

typedef enum { PARSE, ORDER, SATISFIES, CONTAINS, CHECK, SET, COMPARATORS } function;

/* A call, and the size of its output. */
typedef struct {
    function which;
    size_t size;
    const text *strings[2];
    int dialect;
    int rule;
    bool exact;
    const semver_parser_range *set;
} call;

static semver_parser_status make(
    const call *it, const semver_parser_string *strings, void *out, semver_parser_error *error) {
    semver_parser_options options = options_of(it->dialect, it->rule);
    switch (it->which) {
    case PARSE:
        return semver_parser_parse_version(
            strings[0], options.dialect, (semver_parser_version *)out, error);
    case ORDER:
        return semver_parser_compare_versions(
            strings[0], strings[1], options.dialect, (int32_t *)out, error);
    case SATISFIES:
        return semver_parser_satisfies(strings[0], strings[1], options, (bool *)out, error);
    case CONTAINS: return semver_parser_range_contains(it->set, strings[0], (bool *)out, error);
    case CHECK: return semver_parser_check_range(strings[0], options.dialect, error);
    case SET:
        return semver_parser_range_parse(strings[0], options, (semver_parser_range **)out, error);
    case COMPARATORS: break;
    }
    return semver_parser_comparators_of_range(
        strings[0], options.dialect, it->exact, (semver_parser_comparators **)out, error);
}

/* Checks what the header says about the fields of an error. */
static void require_error(const call *it, const outcome *error) {
    const text *of = it->strings[0];
    semver_parser_reason reason = error->reason;
    for (int at = 0; at < 4; at++) {
        require(error->reserved[at] == 0, "a reserved field that isn't zero", of);
    }
    if (error->status == SEMVER_PARSER_INVALID_ARGUMENT) {
        require(error->index == 0 && error->offset == 0 && reason == 0, "more than known", of);
        return;
    }
    require(error->index == 0 || (error->index == 1 && it->strings[1] != NULL), "no such string",
            of);
    require(error->offset <= it->strings[error->index]->length, "an offset outside", of);
    require(reason >= SEMVER_PARSER_REASON_EMPTY
                && reason <= SEMVER_PARSER_REASON_NPM_BOUND_TOO_LARGE,
            "no reason", of);
    switch (error->status) {
    case SEMVER_PARSER_INVALID_VERSION:
        require(reason <= SEMVER_PARSER_REASON_TEXT_AFTER
                    || reason == SEMVER_PARSER_REASON_NUMBER_EXPECTED
                    || reason == SEMVER_PARSER_REASON_CARGO_V
                    || reason == SEMVER_PARSER_REASON_CRATE_V
                    || reason == SEMVER_PARSER_REASON_NPM_TOO_LARGE,
                "no reason of a version", of);
        break;
    case SEMVER_PARSER_NUMBER_TOO_LARGE:
        require(reason == SEMVER_PARSER_REASON_TOO_LARGE
                    || reason == SEMVER_PARSER_REASON_NPM_TOO_LARGE
                    || reason == SEMVER_PARSER_REASON_BOUND_TOO_LARGE
                    || reason == SEMVER_PARSER_REASON_NPM_BOUND_TOO_LARGE,
                "no reason of a number", of);
        break;
    default:
        require(error->status == SEMVER_PARSER_INVALID_RANGE
                    && reason != SEMVER_PARSER_REASON_TEXT_AFTER
                    && reason != SEMVER_PARSER_REASON_NPM_TOO_LARGE
                    && reason != SEMVER_PARSER_REASON_BOUND_TOO_LARGE
                    && reason != SEMVER_PARSER_REASON_NPM_BOUND_TOO_LARGE,
                "no reason of a range", of);
    }
}

static void free_made(const call *it, void *made) {
    if (it->which == SET) {
        semver_parser_range_free(*(semver_parser_range **)made);
    } else if (it->which == COMPARATORS) {
        semver_parser_comparators_free(*(semver_parser_comparators **)made);
    }
}

/* Moves the parts of a parsed version to where they are in another copy of the string. */
static void move_parts(semver_parser_version *parsed, const semver_parser_string *of,
                       const text *to) {
    semver_parser_string *parts[] = {&parsed->pre, &parsed->build};
    for (int at = 0; at < 2; at++) {
        size_t offset = parts[at]->length != 0 ? (size_t)(parts[at]->data - of->data) : 0;
        require(offset <= to->length && parts[at]->length <= to->length - offset,
                "a part outside of the string", to);
        require(offset == 0 || to->bytes[offset - 1] == "-+"[at], "a part after another sign", to);
        parts[at]->data = to->bytes + offset;
    }
}

static outcome call_once(const call *it, semver_parser_string *strings, bool asks, void *to) {
    void *out = output(it->size);
    semver_parser_error *error = (semver_parser_error *)output(sizeof *error);
    outcome told = no_error;
    semver_parser_status status = make(it, strings, out, asks ? error : NULL);
    bool is_ok = status == SEMVER_PARSER_OK;
    take(out, it->size, is_ok, to, it->strings[0]);
    take(error, sizeof *error, asks && !is_ok, &told, it->strings[0]);
    if (is_ok && it->which == PARSE) {
        move_parts((semver_parser_version *)to, &strings[0], it->strings[0]);
    }
    if (!is_ok && asks) {
        require(told.status == status, "wrong status in the error", it->strings[0]);
        require_error(it, &told);
    }
    told.status = status;
    return told;
}

/* Makes a call with and without an error, and with empty strings in blocks and at null. The last
 * of these calls gives the result. */
static outcome careful(const call *it, void *to) {
    semver_parser_string blocks[2] = {{NULL, 0}, {NULL, 0}};
    outcome last = no_error;
    for (int at = 0; at < 2 && it->strings[at] != NULL; at++) {
        blocks[at] = alone(it->strings[at]);
    }
    for (int pass = 0; pass < 4; pass++) {
        semver_parser_string strings[2] = {blocks[0], blocks[1]};
        for (int at = 0; at < 2 && pass % 2 == 0; at++) {
            strings[at].data = strings[at].length == 0 ? NULL : strings[at].data;
        }
        outcome told = call_once(it, strings, pass >= 2, to);
        require(pass == 0 || told.status == last.status, "wrong status", it->strings[0]);
        if (pass < 3 && told.status == SEMVER_PARSER_OK) {
            free_made(it, to);
        }
        last = told;
    }
    free((char *)blocks[0].data);
    free((char *)blocks[1].data);
    return last;
}

outcome parse(const text *version, int dialect, semver_parser_version *parsed) {
    call it = {PARSE, sizeof *parsed, {version, NULL}, dialect, 0, false, NULL};
    return careful(&it, parsed);
}

outcome order_of(const text *version, const text *other, int dialect, int32_t *order) {
    call it = {ORDER, sizeof *order, {version, other}, dialect, 0, false, NULL};
    return careful(&it, order);
}

outcome check_range(const text *range, int dialect) {
    call it = {CHECK, 0, {range, NULL}, dialect, 0, false, NULL};
    return careful(&it, NULL);
}

outcome set_of(const text *range, int dialect, int rule, semver_parser_range **set) {
    call it = {SET, sizeof *set, {range, NULL}, dialect, rule, false, NULL};
    return careful(&it, set);
}

outcome comparators_of(
    const text *range, int dialect, bool exact, semver_parser_comparators **comparators) {
    call it = {COMPARATORS, sizeof *comparators, {range, NULL}, dialect, 0, exact, NULL};
    return careful(&it, comparators);
}

/* ---- whether a version satisfies a range */

static bool is_same(const outcome *one, const outcome *other) {
    return one->status == other->status && one->offset == other->offset
           && one->reason == other->reason;
}

/* Checks a version in an array, alone and between two others: one at null, and an invalid
 * version. */
static void contains_in_array(
    const semver_parser_range *set, const text *version, const outcome *told, bool contains) {
    semver_parser_string own = alone(version);
    semver_parser_string versions[] = {{NULL, 0}, own, {"x", 1}};
    for (int first = 0; first < 2; first++) {
        size_t count = first == 0 ? 3 : 1;
        bool *answers = (bool *)output(count * sizeof *answers);
        semver_parser_status *statuses =
            (semver_parser_status *)output(count * sizeof *statuses);
        bool in[3];
        semver_parser_status of[3];
        semver_parser_status status = semver_parser_range_contains_each(
            set, versions + first, count, answers, first == 0 ? statuses : NULL);
        require(status == SEMVER_PARSER_OK, "no results for an array", version);
        take(answers, count * sizeof *answers, true, in, version);
        take(statuses, count * sizeof *statuses, first == 0, of, version);
        require(in[1 - first] == (told->status == SEMVER_PARSER_OK && contains),
                "wrong result for an array", version);
        require(first == 1
                    || (!in[0] && !in[2] && of[0] == SEMVER_PARSER_INVALID_VERSION
                        && of[1] == told->status && of[2] == SEMVER_PARSER_INVALID_VERSION),
                "wrong status of an array", version);
    }
    free((char *)own.data);
}

outcome satisfies(const text *version, const text *range, int dialect, int rule, bool *answer) {
    call it = {SATISFIES, sizeof *answer, {version, range}, dialect, rule, false, NULL};
    outcome told = careful(&it, answer);
    semver_parser_range *set = NULL;
    outcome made = set_of(range, dialect, rule, &set);
    outcome checked = check_range(range, dialect);
    require(is_same(&checked, &made)
                || (made.status == SEMVER_PARSER_INVALID_ARGUMENT && rule != 0),
            "wrong error of a check", range);
    if (made.status != SEMVER_PARSER_OK) {
        bool is_of_version = told.status == SEMVER_PARSER_INVALID_VERSION && told.index == 0;
        require(is_of_version || is_same(&made, &told), "wrong error of a set", range);
        require(is_of_version || told.index == (made.status != SEMVER_PARSER_INVALID_ARGUMENT),
                "wrong index", range);
        return told;
    }
    bool contains = false;
    call ask = {CONTAINS, sizeof contains, {version, NULL}, dialect, rule, false, set};
    outcome has = careful(&ask, &contains);
    require(is_same(&has, &told) && told.index == 0, "wrong error by a set", version);
    require(has.status != SEMVER_PARSER_OK || contains == *answer, "wrong result by a set",
            version);
    contains_in_array(set, version, &has, contains);
    semver_parser_options options = semver_parser_range_options(set);
    require((int)options.dialect == dialect && (int)options.pre_releases == rule, "other options",
            range);
    semver_parser_range_free(set);
    return told;
}

/* ---- comparators */

const char *operator_text(semver_parser_op op) {
    switch (op) {
    case SEMVER_PARSER_OP_LESS: return "<";
    case SEMVER_PARSER_OP_LESS_EQUAL: return "<=";
    case SEMVER_PARSER_OP_GREATER: return ">";
    case SEMVER_PARSER_OP_GREATER_EQUAL: return ">=";
    case SEMVER_PARSER_OP_EQUAL: return "=";
    }
    return "no operator";
}

/* Prints the comparators of a list, as the library should. */
static void say_listed(text *to, const semver_parser_comparators *list, const text *of) {
    size_t count = semver_parser_comparators_count(list);
    size_t range = 0;
    for (size_t at = 0; at <= count; at++) {
        semver_parser_comparator one;
        void *out = output(sizeof one);
        semver_parser_status status =
            semver_parser_comparators_get(list, at, (semver_parser_comparator *)out);
        require((status == SEMVER_PARSER_OK) == (at < count), "wrong end of a list", of);
        take(out, sizeof one, at < count, &one, of);
        if (at == count) {
            require(status == SEMVER_PARSER_INVALID_ARGUMENT, "wrong status after a list", of);
            break;
        }
        require(one.range == range || (at > 0 && one.range == range + 1), "a range out of turn",
                of);
        text_say(to, "%s%s%" PRIu64 ".%" PRIu64 ".%" PRIu64,
                 at == 0               ? ""
                 : one.range == range ? " "
                                      : " || ",
                 operator_text(one.op), one.major, one.minor, one.patch);
        range = one.range;
        if (one.pre.length > 0) {
            text_say(to, "-");
            text_add(to, one.pre.data, one.pre.length);
        }
    }
}

outcome rewrite(const text *range, int dialect, bool exact, text *printed) {
    semver_parser_comparators *list = NULL;
    outcome told = comparators_of(range, dialect, exact, &list);
    if (told.status != SEMVER_PARSER_OK) {
        return told;
    }
    text listed = string("");
    char *made = NULL;
    say_listed(&listed, list, range);
    require(semver_parser_comparators_to_string(list, &made) == SEMVER_PARSER_OK, "not printed",
            range);
    require(strcmp(made, listed.bytes) == 0, "printed otherwise than listed", range);
    text_add(printed, made, strlen(made));
    semver_parser_free(made);
    semver_parser_comparators_free(list);
    text_free(&listed);
    return told;
}

/* ---- sets */

semver_parser_range *made_of(const char *range, int dialect, int rule) {
    text of = string(range);
    semver_parser_range *set = NULL;
    require(set_of(&of, dialect, rule, &set).status == SEMVER_PARSER_OK, "no set", &of);
    text_free(&of);
    return set;
}

static semver_parser_status call_two(
    const semver_parser_range *set, char operation, const semver_parser_range *other, void *out,
    semver_parser_error *error) {
    semver_parser_range **made = (semver_parser_range **)out;
    bool *answer = (bool *)out;
    switch (operation) {
    case '|': return semver_parser_range_union(set, other, made, error);
    case '&': return semver_parser_range_intersection(set, other, made, error);
    case '-': return semver_parser_range_difference(set, other, made, error);
    case '=': return semver_parser_range_equal(set, other, answer, error);
    case '<': return semver_parser_range_is_subset(set, other, answer, error);
    default: return semver_parser_range_is_disjoint(set, other, answer, error);
    }
}

/* Calls a function of two sets, with an error or without. The error of different options has the
 * index of the second set, and no reason and no offset. */
static outcome of_two(const semver_parser_range *set, char operation,
                      const semver_parser_range *other, size_t size, bool asks, void *to) {
    text none = string("two sets");
    void *out = output(size);
    semver_parser_error *error = (semver_parser_error *)output(sizeof *error);
    outcome told = no_error;
    semver_parser_status status = call_two(set, operation, other, out, asks ? error : NULL);
    bool is_ok = status == SEMVER_PARSER_OK;
    take(out, size, is_ok, to, &none);
    take(error, sizeof *error, asks && !is_ok, &told, &none);
    if (asks && !is_ok) {
        require(told.status == status && told.index == 1, "wrong error of two sets", &none);
        require(told.reason == SEMVER_PARSER_REASON_NONE && told.offset == 0,
                "a reason of two sets", &none);
        for (int at = 0; at < 4; at++) {
            require(told.reserved[at] == 0, "a reserved field that isn't zero", &none);
        }
    }
    text_free(&none);
    told.status = status;
    return told;
}

outcome combine(const semver_parser_range *set, char operation, const semver_parser_range *other,
                semver_parser_range **made) {
    text none = string("two sets");
    semver_parser_range *first = NULL;
    outcome alone_told = of_two(set, operation, other, sizeof first, false, &first);
    outcome told = of_two(set, operation, other, sizeof *made, true, made);
    require(alone_told.status == told.status, "wrong status without an error", &none);
    semver_parser_range_free(first);
    text_free(&none);
    return told;
}

outcome compare(const semver_parser_range *set, char operation, const semver_parser_range *other,
                bool *answer) {
    text none = string("two sets");
    bool first = *answer;
    outcome alone_told = of_two(set, operation, other, sizeof first, false, &first);
    outcome told = of_two(set, operation, other, sizeof *answer, true, answer);
    require(alone_told.status == told.status && first == *answer,
            "wrong result without an error", &none);
    text_free(&none);
    return told;
}

semver_parser_range *combined(
    const semver_parser_range *set, char operation, const semver_parser_range *other) {
    text none = string("two sets");
    semver_parser_range *made = NULL;
    outcome told = combine(set, operation, other, &made);
    require((told.status == SEMVER_PARSER_OK) == (made != NULL), "no set of two", &none);
    text_free(&none);
    return made;
}

static void say_made(text *to, semver_parser_status status, char *made) {
    text none = string("a set");
    require(status == SEMVER_PARSER_OK, "not printed", &none);
    text_add(to, "", 0);
    if (made != NULL) {
        text_add(to, made, strlen(made));
    }
    semver_parser_free(made);
    text_free(&none);
}

void say_releases(text *to, const semver_parser_range *set) {
    char *made = NULL;
    semver_parser_status status = semver_parser_range_to_string(set, false, &made);
    say_made(to, status, made);
}

void say_pre_releases(text *to, const semver_parser_range *set) {
    char *made = NULL;
    semver_parser_status status = semver_parser_range_to_string(set, true, &made);
    say_made(to, status, made);
}

void say_lowest(text *to, const semver_parser_range *set) {
    char *made = NULL;
    semver_parser_status status = semver_parser_range_lowest_version(set, &made);
    check((made == NULL) == semver_parser_range_is_empty(set), "a lowest version of none", "a set");
    check(made == NULL || *made != 0, "an empty lowest version", "a set");
    say_made(to, status, made);
}
