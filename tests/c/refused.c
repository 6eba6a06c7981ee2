/* Lets each allocation of a function fail in turn. The function has to return OUT_OF_MEMORY, or,
 * without an `error`, the error that it returns with enough memory. It has to leave its outputs
 * unchanged, and free everything that it allocated. It may allocate only if the header says so.
 * Linked with -Wl,--wrap=malloc,--wrap=realloc,--wrap=free. */
#include "../../rust/capi/include/semver_parser.h"

#include <stdio.h>
#include <stdlib.h>
#include <string.h>

#ifdef __cplusplus
extern "C" {
#endif
void *__real_malloc(size_t size);
void *__real_realloc(void *block, size_t size);
void __real_free(void *block);
void *__wrap_malloc(size_t size);
void *__wrap_realloc(void *block, size_t size);
void __wrap_free(void *block);
#ifdef __cplusplus
}
#endif

/* ---- allocations: how many succeed (all if negative), and how many blocks exist */

static int granted = -1;
static bool refused;
static int blocks;

static bool is_granted(void) {
    if (granted == 0) {
        refused = true;
        return false;
    }
    granted--;
    return true;
}

void *__wrap_malloc(size_t size) {
    void *made = is_granted() ? __real_malloc(size) : NULL;
    blocks += made != NULL;
    return made;
}

void *__wrap_realloc(void *block, size_t size) {
    return is_granted() ? __real_realloc(block, size) : NULL;
}

void __wrap_free(void *block) {
    blocks -= block != NULL;
    __real_free(block);
}

static int failed;

static void check(bool holds, const char *what, const char *of, int request) {
    if (!holds) {
        printf("%s, request %d: %s\n", what, request, of);
        failed++;
    }
}

/* ---- the functions */

/* The arguments of a call, and its outputs: bytes, which are compared, with a pointer to what it
 * makes. */
typedef struct {
    semver_parser_string strings[2];
    semver_parser_options options;
    semver_parser_range *sets[2];
    semver_parser_comparators *list;
    const semver_parser_string *versions;
    semver_parser_error *error;
} arguments;

typedef union {
    unsigned char bytes[64];
    bool answers[4];
    int32_t order;
    size_t index;
    char *string;
    semver_parser_range *set;
    semver_parser_comparators *list;
    semver_parser_version version;
} outputs;

typedef semver_parser_status calling(const arguments *with, outputs *to);

static semver_parser_status satisfies(const arguments *with, outputs *to) {
    return semver_parser_satisfies(
        with->strings[0], with->strings[1], with->options, to->answers, with->error);
}

static semver_parser_status parse(const arguments *with, outputs *to) {
    return semver_parser_parse_version(
        with->strings[0], with->options.dialect, &to->version, with->error);
}

static semver_parser_status order(const arguments *with, outputs *to) {
    return semver_parser_compare_versions(
        with->strings[0], with->strings[1], with->options.dialect, &to->order, with->error);
}

static semver_parser_status make_set(const arguments *with, outputs *to) {
    return semver_parser_range_parse(with->strings[1], with->options, &to->set, with->error);
}

static semver_parser_status contains(const arguments *with, outputs *to) {
    return semver_parser_range_contains(
        with->sets[0], with->strings[0], to->answers, with->error);
}

static semver_parser_status contains_each(const arguments *with, outputs *to) {
    return semver_parser_range_contains_each(
        with->sets[0], with->versions, 4, to->answers, NULL);
}

static semver_parser_status highest(const arguments *with, outputs *to) {
    return semver_parser_range_highest_of(
        with->sets[0], with->versions, 4, true, &to->index, with->error);
}

static semver_parser_status lowest(const arguments *with, outputs *to) {
    return semver_parser_range_lowest_of(
        with->sets[0], with->versions, 4, true, &to->index, with->error);
}

static semver_parser_status unite(const arguments *with, outputs *to) {
    return semver_parser_range_union(with->sets[0], with->sets[1], &to->set, with->error);
}

static semver_parser_status intersect(const arguments *with, outputs *to) {
    return semver_parser_range_intersection(with->sets[0], with->sets[1], &to->set, with->error);
}

static semver_parser_status differ(const arguments *with, outputs *to) {
    return semver_parser_range_difference(with->sets[0], with->sets[1], &to->set, with->error);
}

static semver_parser_status equal(const arguments *with, outputs *to) {
    return semver_parser_range_equal(with->sets[0], with->sets[1], to->answers, with->error);
}

static semver_parser_status is_subset(const arguments *with, outputs *to) {
    return semver_parser_range_is_subset(with->sets[0], with->sets[1], to->answers, with->error);
}

static semver_parser_status is_empty(const arguments *with, outputs *to) {
    to->answers[0] = semver_parser_range_is_empty(with->sets[0]);
    return SEMVER_PARSER_OK;
}

static semver_parser_status lowest_version(const arguments *with, outputs *to) {
    return semver_parser_range_lowest_version(with->sets[0], &to->string);
}

static semver_parser_status print(const arguments *with, outputs *to) {
    return semver_parser_range_to_string(with->sets[0], true, &to->string);
}

static semver_parser_status is_disjoint(const arguments *with, outputs *to) {
    return semver_parser_range_is_disjoint(with->sets[0], with->sets[1], to->answers, with->error);
}

static semver_parser_status check_range(const arguments *with, outputs *to) {
    (void)to;
    return semver_parser_check_range(with->strings[1], with->options.dialect, with->error);
}

static semver_parser_status message(const arguments *with, outputs *to) {
    semver_parser_error error;
    memset(&error, 0, sizeof error);
    error.status = SEMVER_PARSER_INVALID_RANGE;
    error.reason = SEMVER_PARSER_REASON_CARGO_BARS;
    return semver_parser_error_message(&error, with->strings[1], true, &to->string);
}

static semver_parser_status message_of_upgrade(const arguments *with, outputs *to) {
    semver_parser_error error;
    memset(&error, 0, sizeof error);
    error.status = SEMVER_PARSER_CANNOT_UPGRADE;
    return semver_parser_error_message(&error, with->strings[1], false, &to->string);
}

static semver_parser_status make_list(const arguments *with, outputs *to) {
    return semver_parser_comparators_of_range(
        with->strings[1], with->options.dialect, true, &to->list, with->error);
}

static semver_parser_status terms(const arguments *with, outputs *to) {
    semver_parser_term found[4];
    return semver_parser_terms_of_range(
        with->strings[1], with->options.dialect, found, 4, &to->index, with->error);
}

static semver_parser_status replace(const arguments *with, outputs *to) {
    semver_parser_term found;
    size_t count;
    memset(&found, 0, sizeof found);
    if (semver_parser_terms_of_range(
            with->strings[1], with->options.dialect, &found, 1, &count, NULL)
        != SEMVER_PARSER_OK) {
        check(false, "no terms", with->strings[1].data, 0);
    }
    return semver_parser_replace_version(with->strings[1], &found.version, with->strings[0],
                                         with->options.dialect, &to->string, with->error);
}

static semver_parser_status print_list(const arguments *with, outputs *to) {
    return semver_parser_comparators_to_string(with->list, &to->string);
}

/* What a function makes, whether the header says that it allocates if there is no error, and
 * whether it has an `error`. */
enum { NOTHING, STRING, SET, LIST };
enum { MOST_REQUESTS = 1000 };
static const struct {
    calling *call;
    const char *name;
    int makes;
    bool allocates;
    bool has_error;
} functions[] = {
    {satisfies, "satisfies", NOTHING, false, true},
    {parse, "parse_version", NOTHING, false, true},
    {order, "compare_versions", NOTHING, false, true},
    {terms, "terms_of_range", NOTHING, false, true},
    {replace, "replace_version", STRING, true, true},
    {make_set, "range_parse", SET, true, true},
    {contains, "range_contains", NOTHING, false, true},
    {contains_each, "range_contains_each", NOTHING, false, false},
    {highest, "range_highest_of", NOTHING, false, true},
    {lowest, "range_lowest_of", NOTHING, false, true},
    {unite, "range_union", SET, true, true},
    {intersect, "range_intersection", SET, true, true},
    {differ, "range_difference", SET, true, true},
    {equal, "range_equal", NOTHING, false, true},
    {is_subset, "range_is_subset", NOTHING, false, true},
    {is_disjoint, "range_is_disjoint", NOTHING, false, true},
    {check_range, "check_range", NOTHING, false, true},
    {message, "error_message", STRING, true, false},
    {message_of_upgrade, "error_message", STRING, true, false},
    {is_empty, "range_is_empty", NOTHING, false, false},
    {lowest_version, "range_lowest_version", STRING, true, false},
    {print, "range_to_string", STRING, true, false},
    {make_list, "comparators_of_range", LIST, true, true},
    {print_list, "comparators_to_string", STRING, true, false},
};

static void free_made(int makes, outputs *made) {
    switch (makes) {
    case STRING: semver_parser_free(made->string); break;
    case SET: semver_parser_range_free(made->set); break;
    case LIST: semver_parser_comparators_free(made->list); break;
    default: break;
    }
}

/* ---- each allocation failing */

/* Makes a call in which this many allocations succeed. Returns whether one failed. */
static bool call_once(size_t which, const arguments *with, int request,
                      semver_parser_status wanted) {
    outputs to;
    outputs before;
    const char *name = functions[which].name;
    int kept = blocks;
    memset(&to, 0xA5, sizeof to);
    memset(&before, 0xA5, sizeof before);
    refused = false;
    granted = request;
    semver_parser_status status = functions[which].call(with, &to);
    granted = -1;
    bool is_error = wanted != SEMVER_PARSER_OK;
    bool runs_out = refused && (with->error != NULL || !is_error);
    check(status == (runs_out ? SEMVER_PARSER_OUT_OF_MEMORY : wanted)
              || (refused && is_error && status == wanted),
          "wrong status", name, request);
    if (status == SEMVER_PARSER_OK) {
        free_made(functions[which].makes, &to);
    } else {
        check(memcmp(&to, &before, sizeof to) == 0, "an output that changes", name, request);
    }
    bool tells = with->error != NULL && functions[which].has_error && status != SEMVER_PARSER_OK;
    check(!tells || with->error->status == status, "wrong status in the error", name, request);
    check(blocks == kept, "a block that isn't freed", name, request);
    return refused;
}

/* Makes a call with each of its allocations failing, with an error and without. Returns whether
 * it allocates. */
static bool call_all(size_t which, arguments *with, semver_parser_status wanted) {
    semver_parser_error error;
    bool any = false;
    for (int asks = 0; asks < 2; asks++) {
        int request = 0;
        with->error = asks != 0 ? &error : NULL;
        while (call_once(which, with, request, wanted) && request < MOST_REQUESTS) {
            request++;
        }
        bool allocates = request > 0;
        any = any || allocates;
        if (wanted == SEMVER_PARSER_OK) {
            check(allocates == functions[which].allocates, "it allocates, or doesn't",
                  functions[which].name, request);
        } else {
            check(!allocates || functions[which].allocates || asks != 0,
                  "it allocates without an error", functions[which].name, request);
        }
        check(request < MOST_REQUESTS, "too many allocations", functions[which].name, request);
    }
    return any;
}

/* Checks a string that gives an error, and the status of the functions for versions and ranges. */
static void errors_by(int dialect) {
    static const struct {
        const char *version;
        const char *range;
        semver_parser_status status;
    } rows[] = {{"1.2.3-rc.1.007/", "*", SEMVER_PARSER_INVALID_VERSION},
                {"1.2.3", "^1.2.3-rc.1 ^", SEMVER_PARSER_INVALID_RANGE},
                {"1.2.3", "=1.2.3-rc.1\xFF", SEMVER_PARSER_INVALID_RANGE},
                {"1.2.3", "=18446744073709551616", SEMVER_PARSER_NUMBER_TOO_LARGE}};
    for (size_t at = 0; at < sizeof rows / sizeof *rows; at++) {
        arguments with;
        memset(&with, 0, sizeof with);
        with.options.dialect = dialect;
        with.options.pre_releases = SEMVER_PARSER_PRE_RELEASES_INCLUDED;
        with.strings[0] = semver_parser_str(rows[at].version);
        with.strings[1] = semver_parser_str(rows[at].range);
        semver_parser_status made = semver_parser_range_parse(
            semver_parser_str("*"), with.options, &with.sets[0], NULL);
        check(made == SEMVER_PARSER_OK, "no set", "*", 0);
        for (size_t which = 0; which < sizeof functions / sizeof *functions; which++) {
            calling *call = functions[which].call;
            bool is_of_version = call == parse || call == contains || call == order;
            bool is_of_range = call == make_set || call == make_list || call == check_range;
            bool is_version = rows[at].status == SEMVER_PARSER_INVALID_VERSION;
            if (call == satisfies || (is_version ? is_of_version : is_of_range)) {
                call_all(which, &with, rows[at].status);
            }
        }
        semver_parser_range_free(with.sets[0]);
    }
}

/* Two sets with different options: no function of both allocates, with an error or without. */
static void different_by(int dialect) {
    static const struct {
        int dialects;
        int rule;
        semver_parser_status status;
    } rows[] = {{1, SEMVER_PARSER_PRE_RELEASES_INCLUDED, SEMVER_PARSER_DIFFERENT_DIALECTS},
                {0, SEMVER_PARSER_PRE_RELEASES_EXCLUDED, SEMVER_PARSER_DIFFERENT_PRE_RELEASES}};
    for (size_t at = 0; at < sizeof rows / sizeof *rows; at++) {
        arguments with;
        memset(&with, 0, sizeof with);
        for (int set = 0; set < 2; set++) {
            with.options.dialect = (dialect + set * rows[at].dialects) % 4;
            with.options.pre_releases =
                set == 0 ? SEMVER_PARSER_PRE_RELEASES_INCLUDED : rows[at].rule;
            semver_parser_status made = semver_parser_range_parse(
                semver_parser_str("^1.2.3-rc.1"), with.options, &with.sets[set], NULL);
            check(made == SEMVER_PARSER_OK, "no set", "^1.2.3-rc.1", 0);
        }
        for (size_t which = 0; which < sizeof functions / sizeof *functions; which++) {
            calling *call = functions[which].call;
            if (call == unite || call == intersect || call == differ || call == equal
                || call == is_subset || call == is_disjoint) {
                check(!call_all(which, &with, rows[at].status), "different options allocate",
                      functions[which].name, 0);
            }
        }
        semver_parser_range_free(with.sets[0]);
        semver_parser_range_free(with.sets[1]);
    }
}

/* Ranges of a set and of another one: short ones, and some that don't fit the first buffers. */
static void functions_by(int dialect, const char *range, const char *other) {
    const semver_parser_string versions[] = {
        {"1.2.3", 5}, {"1.2.3-rc.1.0/", 13}, {NULL, 0}, {"1.2.4", 5}};
    arguments with;
    memset(&with, 0, sizeof with);
    with.options.dialect = dialect;
    with.options.pre_releases = SEMVER_PARSER_PRE_RELEASES_INCLUDED;
    with.strings[0] = semver_parser_str("1.2.3-rc.2");
    with.strings[1] = semver_parser_str(range);
    with.versions = versions;
    bool is_made = semver_parser_range_parse(with.strings[1], with.options, &with.sets[0], NULL)
                       == SEMVER_PARSER_OK
                   && semver_parser_range_parse(semver_parser_str(other), with.options,
                                                 &with.sets[1], NULL)
                          == SEMVER_PARSER_OK
                   && semver_parser_comparators_of_range(with.strings[1], with.options.dialect,
                                                         true, &with.list, NULL)
                          == SEMVER_PARSER_OK;
    check(is_made, "not made", range, 0);
    for (size_t which = 0; is_made && which < sizeof functions / sizeof *functions; which++) {
        if (functions[which].call == order) {
            with.strings[1] = semver_parser_str("1.2.3-rc.10");
        }
        call_all(which, &with, SEMVER_PARSER_OK);
        with.strings[1] = semver_parser_str(range);
    }
    semver_parser_range_free(with.sets[0]);
    semver_parser_range_free(with.sets[1]);
    semver_parser_comparators_free(with.list);
}

int main(void) {
    char many[1024] = "=0.0.1-rc.1";
    char others[1024] = "=0.1.0-rc.1";
    for (int at = 1; at < 12; at++) {
        size_t length = strlen(many);
        snprintf(many + length, sizeof many - length, " || =0.0.%d-rc.%d.abcdef", 2 * at, at);
        length = strlen(others);
        snprintf(others + length, sizeof others - length, " || =0.1.%d-rc.%d.abcdef", 2 * at, at);
    }
    for (int dialect = SEMVER_PARSER_DIALECT_CARGO; dialect <= SEMVER_PARSER_DIALECT_CRATE_NPM;
         dialect++) {
        functions_by(dialect, "^1.2.3-rc.1", ">=1.4.0-a");
        if (dialect != SEMVER_PARSER_DIALECT_CARGO) {
            functions_by(dialect, many, others);
        }
        errors_by(dialect);
        different_by(dialect);
    }
    check(blocks == 0, "blocks that aren't freed", "at the end", blocks);
    printf("refused: %s\n", failed == 0 ? "passed" : "failed");
    return failed == 0 ? 0 : 1;
}
