#include "order_calls.h"
#include "../../rust/capi/include/semver_parser.h"

#include <stdio.h>
#include <stdlib.h>
#include <string.h>

static uint32_t state = 1;

void random_seed(uint32_t seed) {
    state = 2463534242U ^ (seed * 2654435761U);
    state += state == 0;
}

uint32_t random_below(uint32_t limit) {
    state ^= state << 13;
    state ^= state >> 17;
    state ^= state << 5;
    return state % limit;
}

/* ---- strings, by their indices */

static const struct {
    const char *bytes;
    size_t length;
} strings[] = {
#define STRING(bytes) {bytes, sizeof(bytes) - 1}
    STRING(""), STRING(" "), STRING("1.0.0"), STRING("1.2.3"), STRING("1.2.4"), STRING("1.10.0"),
    STRING("v1.2.3"), STRING(" 1.2.3 "), STRING("=1.2.3"), STRING("0.0.0"), STRING("0.0.0-0"),
    STRING("1.2.3-rc.1"), STRING("1.2.3-rc.1+b5"), STRING("1.2.3+b6"), STRING("2.0.0-alpha"),
    STRING("2.0.0"), STRING("3.1.0"), STRING("3.0.1-a"), STRING("9007199254740991.0.0"),
    STRING("18446744073709551615.1.2"), STRING("18446744073709551616.0.0"), STRING("1.2"),
    STRING("x"), STRING("1.2.03"), STRING("1.2.3-"), STRING("1.2.3 4"), STRING("\xc3\xa4"),
    STRING("1.2.3-\xc3\xa4"), STRING("\xed\xa0\x80"), STRING("1.2.3\xff"), STRING("1.2.3\0"),
    STRING("\0"), STRING("*"), STRING("1"), STRING("2"), STRING("^1.2"), STRING("^1.3"),
    STRING("~1.2.3"), STRING("1.x"), STRING(">=1.2.3 <2"), STRING(">=1.2.3, <2"),
    STRING("1.2.3 - 1.10"), STRING("1 || 2"), STRING("2 || 1"), STRING("<2.0.0-beta || >=3"),
    STRING("=1.2.3-rc.1"), STRING(">1.2.3-rc.1"), STRING(">1.2"), STRING(">=0"),
    STRING("<0.0.0-0"), STRING(">2 <1"), STRING("^0.0.3 || ^0.1"), STRING("1.2.3.4"),
    STRING(">>1"), STRING("^"), STRING("||"), STRING("1,"), STRING("latest"),
    STRING("^1.2.3-\xc3\xa4"), STRING("^1\xff"), STRING(">9007199254740991"),
    STRING(">18446744073709551615"), STRING("=18446744073709551616"),
#undef STRING
};
enum {
    SHORT = sizeof strings / sizeof *strings,
    VERSIONS = 32, /* The first of the short ones are versions, or nearly so. */
    LONG = 8,
    STRINGS = SHORT + LONG
};

/* Appends a string. The last ones are long. */
static void add_string(text *to, int index) {
    if (index < SHORT) {
        text_add(to, strings[index].bytes, strings[index].length);
        return;
    }
    static const char *const begins[LONG] = {"1.2.3-", "1.2.3-", "1.2.3-", "^1.2.3-",
                                             "^1.2.3-", "", "^1.2 || ", ""};
    static const char *const units[LONG] = {"a", "9", "ab", "a", "9", " ", "1.2.3 || ", "\xc3\xa4"};
    static const int counts[LONG] = {240, 3000, 800, 240, 800, 1100, 200, 700};
    int at = index - SHORT;
    text_add(to, begins[at], strlen(begins[at]));
    for (int count = 0; count < counts[at]; count++) {
        text_add(to, units[at], strlen(units[at]));
    }
    text_add(to, "1.2.3", at == 5 || at == 6 ? 5 : 0);
}

/* The strings of a call are at the same addresses as those of other calls, and are overwritten
 * after it: no result may depend on where a string was. */
static text blocks[2 + MOST_VERSIONS];

static semver_parser_string placed(int block, int index) {
    text *it = &blocks[block];
    it->length = 0;
    add_string(it, index);
    semver_parser_string string = {it->bytes, it->length};
    return string;
}

static void write_over(void) {
    for (size_t at = 0; at < sizeof blocks / sizeof *blocks; at++) {
        for (size_t index = 0; index < blocks[at].length; index++) {
            blocks[at].bytes[index] = '7';
        }
    }
}

/* ---- the ranges and lists that calls take */

/* A range is parsed from a string, or combined from two earlier ones. */
static struct {
    int string;
    int dialect;
    int rule;
    char operation;
    int one;
    int other;
} recipes[RECIPES];

static struct {
    int string;
    int dialect;
    bool exact;
} lists[LISTS];

static semver_parser_range *ranges[RECIPES];
static semver_parser_comparators *listed[LISTS];

/* Returns one of the strings that are valid ranges in each dialect, or nearly so. */
static int random_range(void) {
    int some = (int)random_below(12);
    return some == 0 ? (int)random_below(STRINGS) : VERSIONS + (int)random_below(20);
}

void make_recipes(void) {
    for (int at = 0; at < RECIPES; at++) {
        recipes[at].string = random_range();
        recipes[at].dialect = (int)random_below(4);
        recipes[at].rule = (int)random_below(3);
        recipes[at].operation = ' ';
        if (at >= 40 && random_below(3) == 0) {
            recipes[at].operation = "|&-"[random_below(3)];
            recipes[at].one = (int)random_below((uint32_t)at);
            recipes[at].other = (int)random_below((uint32_t)at);
        }
    }
    for (int at = 0; at < LISTS; at++) {
        lists[at].string = random_range();
        lists[at].dialect = (int)random_below(4);
        lists[at].exact = random_below(2) == 0;
    }
}

static semver_parser_options options_by(int dialect, int rule) {
    semver_parser_options options = semver_parser_options_of(dialect);
    options.pre_releases = rule;
    return options;
}

static semver_parser_status combine(
    char operation, const semver_parser_range *one, const semver_parser_range *other,
    semver_parser_range **made, semver_parser_error *error) {
    if (operation == '|') {
        return semver_parser_range_union(one, other, made, error);
    }
    if (operation == '&') {
        return semver_parser_range_intersection(one, other, made, error);
    }
    return semver_parser_range_difference(one, other, made, error);
}

/* Returns the range of a recipe, or the range `*` if it has none. */
static semver_parser_range *range_of(int recipe) {
    if (ranges[recipe] != NULL) {
        return ranges[recipe];
    }
    semver_parser_status status = SEMVER_PARSER_INVALID_RANGE;
    semver_parser_options options = options_by(recipes[recipe].dialect, recipes[recipe].rule);
    if (recipes[recipe].operation != ' ') {
        const semver_parser_range *one = range_of(recipes[recipe].one);
        const semver_parser_range *other = range_of(recipes[recipe].other);
        status = combine(recipes[recipe].operation, one, other, &ranges[recipe], NULL);
    } else {
        semver_parser_string string = placed(0, recipes[recipe].string);
        status = semver_parser_range_parse(string, options, &ranges[recipe], NULL);
    }
    if (status != SEMVER_PARSER_OK
        && semver_parser_range_parse(semver_parser_str("*"), options, &ranges[recipe], NULL)
               != SEMVER_PARSER_OK) {
        abort();
    }
    return ranges[recipe];
}

/* Returns the comparators of a list, or those of `1`. */
static semver_parser_comparators *list_of(int at) {
    if (listed[at] != NULL) {
        return listed[at];
    }
    semver_parser_string string = placed(0, lists[at].string);
    if (semver_parser_comparators_of_range(
            string, lists[at].dialect, lists[at].exact, &listed[at], NULL)
            != SEMVER_PARSER_OK
        && semver_parser_comparators_of_range(
               semver_parser_str("1"), lists[at].dialect, lists[at].exact, &listed[at], NULL)
               != SEMVER_PARSER_OK) {
        abort();
    }
    return listed[at];
}

static void free_range(int recipe) {
    semver_parser_range_free(ranges[recipe]);
    ranges[recipe] = NULL;
}

static void free_list(int at) {
    semver_parser_comparators_free(listed[at]);
    listed[at] = NULL;
}

void free_some(void) {
    free_range((int)random_below(RECIPES));
    free_list((int)random_below(LISTS));
}

void free_all(void) {
    for (int at = 0; at < RECIPES; at++) {
        free_range(at);
    }
    for (int at = 0; at < LISTS; at++) {
        free_list(at);
    }
    for (size_t at = 0; at < sizeof blocks / sizeof *blocks; at++) {
        text_free(&blocks[at]);
    }
}

/* ---- what is printed */

static void say_string(text *to, semver_parser_string string) {
    text_say(to, " \"");
    text_add(to, string.length == 0 ? "" : string.data, string.length);
    text_say(to, "\"");
}

static void say_static(text *to, const char *string) {
    text_say(to, " %s", string == NULL ? "null" : string);
}

/* The error before a call. After OK it has to be unchanged. */
static const semver_parser_error before = {77, 78, 79, 80, {81, 82, 83, 84}};

static void say_error(text *to, semver_parser_status status, const semver_parser_error *error) {
    text_say(to, "status %d, error %d %d %zu %zu", (int)status, (int)error->status,
             (int)error->reason, error->offset, error->index);
    for (int at = 0; at < 4; at++) {
        text_say(to, " %llu", (unsigned long long)error->reserved[at]);
    }
}

/* Prints what was made, if anything, and frees it. */
static void say_made(text *to, semver_parser_status status, char *made) {
    text_say(to, "status %d", (int)status);
    say_static(to, made);
    semver_parser_free(made);
}

static void say_range(text *to, semver_parser_status status, semver_parser_range *made) {
    text_say(to, "status %d", (int)status);
    if (made == NULL) {
        return;
    }
    char *strings_of[3] = {NULL, NULL, NULL};
    semver_parser_status statuses[3] = {
        semver_parser_range_to_string(made, false, &strings_of[0]),
        semver_parser_range_to_string(made, true, &strings_of[1]),
        semver_parser_range_lowest_version(made, &strings_of[2])};
    for (int at = 0; at < 3; at++) {
        text_say(to, "; ");
        say_made(to, statuses[at], strings_of[at]);
    }
    semver_parser_range_free(made);
}

/* ---- errors that are planted */

int planted;

const char *planted_name(int number) {
    static const char *const names[PLANTED + 1] = {
        "nothing", "a version is kept by its address and its length",
        "whether a version is in a range is kept for another range",
        "an error has the offset of the one before it"};
    return names[number];
}

static semver_parser_status parse_version(
    semver_parser_string version, int dialect, semver_parser_version *parsed,
    semver_parser_error *error) {
    static semver_parser_version last;
    static semver_parser_string of;
    static int by;
    if (planted == 1 && of.data == version.data && of.length == version.length && by == dialect) {
        *parsed = last;
        return SEMVER_PARSER_OK;
    }
    semver_parser_status status = semver_parser_parse_version(version, dialect, parsed, error);
    if (status == SEMVER_PARSER_OK) {
        last = *parsed;
        of = version;
        by = dialect;
    }
    return status;
}

static semver_parser_status range_contains(
    const semver_parser_range *range, semver_parser_string version, bool *contains,
    semver_parser_error *error) {
    static char last[100];
    static size_t length;
    static bool contained;
    bool is_short = version.length > 0 && version.length <= sizeof last;
    if (planted == 2 && is_short && length == version.length
        && memcmp(last, version.data, length) == 0) {
        *contains = contained;
        return SEMVER_PARSER_OK;
    }
    semver_parser_status status = semver_parser_range_contains(range, version, contains, error);
    if (status == SEMVER_PARSER_OK && is_short) {
        memcpy(last, version.data, version.length);
        length = version.length;
        contained = *contains;
    }
    return status;
}

static semver_parser_status check_range(
    semver_parser_string range, int dialect, semver_parser_error *error) {
    static semver_parser_error last;
    semver_parser_status status = semver_parser_check_range(range, dialect, error);
    if (planted == 3 && last.status == status && status != SEMVER_PARSER_OK) {
        error->offset = last.offset;
    }
    last = *error;
    return status;
}

/* ---- the calls: each makes one, with its strings at their addresses, and prints what it wrote */

static semver_parser_string first_of(const call *it) {
    return placed(0, it->strings[0]);
}

static semver_parser_string second_of(const call *it) {
    return placed(1, it->strings[1]);
}

static void satisfies(const call *it, text *to) {
    semver_parser_error error = before;
    bool is_in = it->flag;
    semver_parser_status status = semver_parser_satisfies(
        first_of(it), second_of(it), options_by(it->dialect, it->rule), &is_in, &error);
    say_error(to, status, &error);
    text_say(to, " %d", is_in);
}

static void checked_range(const call *it, text *to) {
    semver_parser_error error = before;
    semver_parser_status status = check_range(second_of(it), it->dialect, &error);
    say_error(to, status, &error);
}

static void parsed_version(const call *it, text *to) {
    semver_parser_error error = before;
    semver_parser_version parsed = {1, 2, 3, {NULL, 0}, {NULL, 0}};
    semver_parser_status status = parse_version(first_of(it), it->dialect, &parsed, &error);
    say_error(to, status, &error);
    text_say(to, " %llu %llu %llu", (unsigned long long)parsed.major,
             (unsigned long long)parsed.minor, (unsigned long long)parsed.patch);
    say_string(to, parsed.pre);
    say_string(to, parsed.build);
}

static void compared_versions(const call *it, text *to) {
    semver_parser_error error = before;
    int32_t order = 85;
    semver_parser_status status = semver_parser_compare_versions(
        first_of(it), second_of(it), it->dialect, &order, &error);
    say_error(to, status, &error);
    text_say(to, " %d", (int)order);
}

static void error_message(const call *it, text *to) {
    semver_parser_error error = before;
    char *message = NULL;
    semver_parser_string string = second_of(it);
    if (semver_parser_check_range(string, it->dialect, &error) == SEMVER_PARSER_OK) {
        error.status = SEMVER_PARSER_OUT_OF_MEMORY;
    }
    semver_parser_status status =
        semver_parser_error_message(&error, string, it->flag, &message);
    say_made(to, status, message);
    semver_parser_span span = semver_parser_error_span(&error, string);
    text_say(to, " %llu %llu", (unsigned long long)span.start, (unsigned long long)span.end);
    char *suggestion = NULL;
    status = semver_parser_suggestion(&error, string, it->dialect, &suggestion);
    say_made(to, status, suggestion);
}

static void names(const call *it, text *to) {
    int number = (int)it->index;
    say_static(to, semver_parser_dialect_name(number));
    say_static(to, semver_parser_pre_releases_name(number));
    say_static(to, semver_parser_status_name(number));
    say_static(to, semver_parser_status_text(number));
    say_static(to, semver_parser_reason_text(number));
    say_static(to, semver_parser_reason_name(number));
    say_static(to, semver_parser_library_version());
    text_say(to, " %u", (unsigned)semver_parser_library_version_number());
}

static void parsed_range(const call *it, text *to) {
    semver_parser_error error = before;
    semver_parser_range *made = NULL;
    semver_parser_status status = semver_parser_range_parse(
        second_of(it), options_by(it->dialect, it->rule), &made, &error);
    say_error(to, status, &error);
    say_range(to, status, made);
}

static void options(const call *it, text *to) {
    semver_parser_options by = semver_parser_range_options(range_of(it->ranges[0]));
    text_say(to, "%d %d", (int)by.dialect, (int)by.pre_releases);
}

static void contains(const call *it, text *to) {
    const semver_parser_range *range = range_of(it->ranges[0]);
    semver_parser_error error = before;
    bool is_in = it->flag;
    semver_parser_status status = range_contains(range, first_of(it), &is_in, &error);
    say_error(to, status, &error);
    text_say(to, " %d", is_in);
}

/* Returns the versions of a call, as an array. */
static const semver_parser_string *versions_of(const call *it) {
    static semver_parser_string versions[MOST_VERSIONS];
    for (size_t at = 0; at < it->count; at++) {
        versions[at] = placed(2 + (int)at, it->versions[at]);
    }
    return versions;
}

static void contains_each(const call *it, text *to) {
    const semver_parser_range *range = range_of(it->ranges[0]);
    bool are_in[MOST_VERSIONS] = {false};
    semver_parser_status statuses[MOST_VERSIONS] = {0};
    semver_parser_status status = semver_parser_range_contains_each(
        range, versions_of(it), it->count, are_in, it->flag ? statuses : NULL);
    text_say(to, "status %d", (int)status);
    for (size_t at = 0; at < it->count; at++) {
        text_say(to, " %d %d", are_in[at], (int)statuses[at]);
    }
}

static void outermost(const call *it, text *to) {
    const semver_parser_range *range = range_of(it->ranges[0]);
    semver_parser_error errors[2] = {before, before};
    size_t indices[2] = {86, 87};
    semver_parser_status status = semver_parser_range_highest_of(
        range, versions_of(it), it->count, it->flag, &indices[0], &errors[0]);
    say_error(to, status, &errors[0]);
    status = semver_parser_range_lowest_of(
        range, versions_of(it), it->count, it->flag, &indices[1], &errors[1]);
    say_error(to, status, &errors[1]);
    text_say(to, " %zu %zu", indices[0], indices[1]);
}

static void combined(const call *it, text *to) {
    const semver_parser_range *one = range_of(it->ranges[0]);
    const semver_parser_range *other = range_of(it->ranges[1]);
    semver_parser_error error = before;
    semver_parser_range *made = NULL;
    semver_parser_status status = combine("|&-"[it->index % 3], one, other, &made, &error);
    say_error(to, status, &error);
    say_range(to, status, made);
}

static void compared(const call *it, text *to) {
    const semver_parser_range *one = range_of(it->ranges[0]);
    const semver_parser_range *other = range_of(it->ranges[1]);
    bool said[3] = {it->flag, it->flag, it->flag};
    semver_parser_error errors[3] = {before, before, before};
    semver_parser_status statuses[3] = {
        semver_parser_range_equal(one, other, &said[0], &errors[0]),
        semver_parser_range_is_subset(one, other, &said[1], &errors[1]),
        semver_parser_range_is_disjoint(one, other, &said[2], &errors[2])};
    for (int at = 0; at < 3; at++) {
        say_error(to, statuses[at], &errors[at]);
        text_say(to, " %d ", said[at]);
    }
    text_say(to, "%d", semver_parser_range_is_empty(one));
}

static void printed(const call *it, text *to) {
    const semver_parser_range *range = range_of(it->ranges[0]);
    char *string = NULL;
    semver_parser_status status = semver_parser_range_to_string(range, it->flag, &string);
    say_made(to, status, string);
    string = NULL;
    status = semver_parser_range_lowest_version(range, &string);
    say_made(to, status, string);
    string = NULL;
    status = semver_parser_range_to_requirement(range, &string);
    say_made(to, status, string);
}

static void freed(const call *it, text *to) {
    free_range(it->ranges[0]);
    free_list(it->list);
    semver_parser_free(NULL);
    text_say(to, "freed");
}

static void say_list(text *to, const semver_parser_comparators *list, size_t index) {
    semver_parser_comparator got = {88, 89, 90, 91, 92, {NULL, 0}};
    char *string = NULL;
    semver_parser_status status = semver_parser_comparators_get(list, index, &got);
    text_say(to, "status %d, %zu of %zu: %d %llu %llu %llu", (int)status, got.range,
             semver_parser_comparators_count(list), (int)got.op, (unsigned long long)got.major,
             (unsigned long long)got.minor, (unsigned long long)got.patch);
    say_string(to, got.pre);
    status = semver_parser_comparators_to_string(list, &string);
    say_made(to, status, string);
}

static void comparators(const call *it, text *to) {
    semver_parser_error error = before;
    semver_parser_comparators *made = NULL;
    semver_parser_status status = semver_parser_comparators_of_range(
        second_of(it), it->dialect, it->flag, &made, &error);
    say_error(to, status, &error);
    if (status == SEMVER_PARSER_OK) {
        say_list(to, made, it->index);
    }
    semver_parser_comparators_free(made);
}

static void kept_comparators(const call *it, text *to) {
    say_list(to, list_of(it->list), it->index);
}

static void say_component(text *to, semver_parser_component of) {
    text_say(to, " %d:%llu", (int)of.kind, (unsigned long long)of.number);
}

static void say_partial(text *to, const semver_parser_partial_version *of) {
    text_say(to, " [%zu %zu %d", of->start, of->end, of->has_v);
    say_component(to, of->major);
    say_component(to, of->minor);
    say_component(to, of->patch);
    say_string(to, of->pre);
    say_string(to, of->build);
    text_say(to, "]");
}

/* Prints the terms of a range. A random number of them fits into the array. */
static void terms(const call *it, text *to) {
    semver_parser_term found[8];
    semver_parser_error error = before;
    size_t capacity = it->index % 8;
    size_t count = 77;
    semver_parser_status status = semver_parser_terms_of_range(
        second_of(it), it->dialect, found, capacity, &count, &error);
    say_error(to, status, &error);
    text_say(to, " %zu terms", count);
    if (status != SEMVER_PARSER_OK) {
        return;
    }
    for (size_t at = 0; at < count && at < capacity; at++) {
        const char *sign = semver_parser_operator_sign(found[at].op);
        text_say(to, "; %zu %s %zu %zu", found[at].range, sign, found[at].start, found[at].end);
        say_partial(to, &found[at].version);
        say_partial(to, &found[at].upper);
    }
}

/* Replaces the version of a term by another one; sometimes the version in the range is another one
 * than the given one. */
static void replaced(const call *it, text *to) {
    semver_parser_error error = before;
    char *string = NULL;
    semver_parser_term found;
    size_t count;
    memset(&found, 0, sizeof found);
    if (semver_parser_terms_of_range(second_of(it), it->dialect, &found, 1, &count, NULL)
            == SEMVER_PARSER_OK
        && it->flag) {
        found.version.start += it->index % 4;
    }
    semver_parser_status status = semver_parser_replace_version(
        second_of(it), &found.version, first_of(it), it->dialect, &string, &error);
    say_error(to, status, &error);
    say_made(to, status, string);
}

static void upgraded(const call *it, text *to) {
    semver_parser_error error = before;
    char *string = NULL;
    semver_parser_options options = semver_parser_options_of(it->dialect);
    semver_parser_status status =
        semver_parser_upgrade(second_of(it), first_of(it), options, &string, &error);
    say_error(to, status, &error);
    say_made(to, status, string);
}

/* Some functions are listed more than once, and are called more often. */
static const struct {
    const char *name;
    void (*make)(const call *it, text *to);
} functions[] = {
    {"satisfies", satisfies},
    {"check_range", checked_range},
    {"check_range", checked_range},
    {"parse_version", parsed_version},
    {"compare_versions", compared_versions},
    {"error_message, error_span and suggestion", error_message},
    {"names", names},
    {"range_parse", parsed_range},
    {"range_options", options},
    {"range_contains", contains},
    {"range_contains", contains},
    {"range_contains", contains},
    {"range_contains_each", contains_each},
    {"range_highest_of and lowest_of", outermost},
    {"range_union, intersection or difference", combined},
    {"range_equal, is_subset, is_disjoint and is_empty", compared},
    {"range_to_string, lowest_version and to_requirement", printed},
    {"free", freed},
    {"comparators_of_range", comparators},
    {"comparators_get and to_string", kept_comparators},
    {"terms_of_range and operator_sign", terms},
    {"replace_version", replaced},
    {"upgrade", upgraded},
};

size_t functions_count(void) {
    return sizeof functions / sizeof *functions;
}

const char *name_of(size_t function) {
    return functions[function].name;
}

void make_call(const call *it, text *to) {
    functions[it->function].make(it, to);
    write_over();
}

/* Returns another range, mostly with the same options, since otherwise the two can't be
 * combined. */
static int beside(int recipe) {
    for (int tries = 0; tries < 20; tries++) {
        int other = (int)random_below(RECIPES);
        if (recipes[other].dialect == recipes[recipe].dialect
            && recipes[other].rule == recipes[recipe].rule) {
            return other;
        }
    }
    return (int)random_below(RECIPES);
}

static int random_version(void) {
    return (int)random_below(random_below(6) == 0 ? STRINGS : VERSIONS);
}

/* Returns a dialect, rarely one that doesn't exist. */
static int random_dialect(void) {
    int some = (int)random_below(20) - 1;
    return some > 3 ? some % 4 : some;
}

/* Returns the same call with another string, version, option, range or list. */
static call changed(call it) {
    switch (random_below(8)) {
    case 0: it.strings[0] = random_version(); break;
    case 1: it.strings[1] = (int)random_below(STRINGS); break;
    case 2: it.versions[random_below(MOST_VERSIONS)] = random_version(); break;
    case 3: it.dialect = random_dialect(); break;
    case 4: it.flag = !it.flag; break;
    case 5:
    case 6: it.ranges[0] = beside(it.ranges[1]); break;
    default: it.list = (int)random_below(LISTS); break;
    }
    return it;
}

call random_call(size_t at, const call *before_it) {
    if (at % 2 == 1) {
        return changed(*before_it);
    }
    call it;
    memset(&it, 0, sizeof it);
    it.function = at / 2 % functions_count();
    it.strings[0] = random_version();
    it.strings[1] = (int)random_below(STRINGS);
    it.count = random_below(random_below(2) == 0 ? 4 : MOST_VERSIONS + 1);
    for (size_t index = 0; index < MOST_VERSIONS; index++) {
        it.versions[index] = random_version();
    }
    it.dialect = random_dialect();
    it.rule = (int)random_below(12) % 4;
    it.flag = random_below(2) == 0;
    it.ranges[0] = (int)random_below(RECIPES);
    it.ranges[1] = beside(it.ranges[0]);
    it.list = (int)random_below(LISTS);
    it.index = random_below(24);
    return it;
}
