/* Uses everything in the header, as a program in C or in C++ does: it is compiled with each
 * standard of both, with all warnings as errors. Two threads read one set and one list. */
#include "../../rust/capi/include/semver_parser.h"

#include <pthread.h>
#include <stdio.h>
#include <string.h>

#if SEMVER_PARSER_VERSION_NUMBER < 1000000 || SEMVER_PARSER_VERSION_NUMBER >= 2000000           \
    || SEMVER_PARSER_VERSION_MAJOR != 1 || SEMVER_PARSER_VERSION_MINOR < 0                         \
    || SEMVER_PARSER_VERSION_PATCH < 0
#error "the version of another library"
#endif

static semver_parser_options npm;

static bool is_string(semver_parser_string string, const char *wanted) {
    return string.length == strlen(wanted) && memcmp(string.data, wanted, string.length) == 0;
}

/* Returns whether a string that was made is as expected, and frees it. */
static bool is_made(semver_parser_status status, char *made, const char *wanted) {
    bool is_same = status == SEMVER_PARSER_OK && strcmp(made, wanted) == 0;
    semver_parser_free(made);
    return is_same;
}

static bool use_error(const semver_parser_error *error) {
    char *message = NULL;
    semver_parser_status status =
        semver_parser_error_message(error, semver_parser_str("1.2.03"), false, &message);
    return is_made(status, message,
                   "invalid version \"1.2.03\" at offset 5: numbers and identifiers of digits may "
                   "not have a leading zero")
           && strcmp(semver_parser_status_name(error->status), "invalid-version") == 0
           && strcmp(semver_parser_status_text(error->status), "invalid version") == 0
           && strcmp(semver_parser_reason_name(error->reason), "leading-zero") == 0
           && strlen(semver_parser_reason_text(error->reason)) > 0
           && strcmp(semver_parser_dialect_name(npm.dialect), "npm") == 0
           && strcmp(semver_parser_pre_releases_name(npm.pre_releases), "by-dialect") == 0;
}

static bool use_versions(void) {
    semver_parser_version version;
    semver_parser_error error;
    bool is_in = false;
    int32_t order = 0;
    if (semver_parser_parse_version(semver_parser_str("1.2.3-rc.1+b5"), SEMVER_PARSER_DIALECT_CARGO,
                                    &version, NULL)
            != SEMVER_PARSER_OK
        || version.major != 1 || version.minor != 2 || version.patch != 3
        || !is_string(version.pre, "rc.1") || !is_string(version.build, "b5")) {
        return false;
    }
    if (semver_parser_compare_versions(semver_parser_str("1.0.0-rc"), semver_parser_str("1.0.0"),
                                       SEMVER_PARSER_DIALECT_CRATE_NPM, &order, &error)
            != SEMVER_PARSER_OK
        || order != -1) {
        return false;
    }
    if (semver_parser_satisfies(semver_parser_str("1.9.0"), semver_parser_str("^1.2"), npm, &is_in,
                                &error)
            != SEMVER_PARSER_OK
        || !is_in) {
        return false;
    }
    return semver_parser_satisfies(semver_parser_str("1.2.03"), semver_parser_str("^1.2"), npm,
                                   &is_in, &error)
               == SEMVER_PARSER_INVALID_VERSION
           && error.status == SEMVER_PARSER_INVALID_VERSION && error.index == 0
           && error.offset == 5 && error.reason == SEMVER_PARSER_REASON_LEADING_ZERO
           && use_error(&error)
           && semver_parser_check_range(semver_parser_str("^1"), npm.dialect, NULL)
                  == SEMVER_PARSER_OK;
}

/* Calls the functions of a single set. */
static bool use_set(const semver_parser_range *set) {
    const semver_parser_string versions[] = {{"1.2.0", 5}, {NULL, 0}, {"1.9.0", 5}};
    semver_parser_status statuses[3];
    bool contains[3] = {false, false, false};
    size_t highest = 7;
    size_t lowest = 7;
    bool is_in = false;
    char *string = NULL;
    semver_parser_status status = semver_parser_range_lowest_version(set, &string);
    if (!is_made(status, string, "1.2.0")) {
        return false;
    }
    status = semver_parser_range_to_string(set, false, &string);
    if (!is_made(status, string, ">=1.2.0 <2.0.0")) {
        return false;
    }
    return semver_parser_range_options(set).dialect == SEMVER_PARSER_DIALECT_NPM
           && !semver_parser_range_is_empty(set)
           && semver_parser_range_contains(set, versions[0], &is_in, NULL) == SEMVER_PARSER_OK
           && is_in
           && semver_parser_range_contains_each(set, versions, 3, contains, statuses)
                  == SEMVER_PARSER_OK
           && contains[0] && !contains[1] && contains[2]
           && statuses[1] == SEMVER_PARSER_INVALID_VERSION
           && semver_parser_range_highest_of(set, versions, 3, true, &highest, NULL)
                  == SEMVER_PARSER_OK
           && semver_parser_range_lowest_of(set, versions, 3, true, &lowest, NULL)
                  == SEMVER_PARSER_OK
           && highest == 2 && lowest == 0;
}

static bool use_two_sets(const semver_parser_range *set) {
    semver_parser_range *made[3] = {NULL, NULL, NULL};
    bool equal = false;
    bool is_subset = false;
    bool is_disjoint = false;
    bool are_made = semver_parser_range_union(set, set, &made[0], NULL) == SEMVER_PARSER_OK
                    && semver_parser_range_intersection(set, set, &made[1], NULL)
                           == SEMVER_PARSER_OK
                    && semver_parser_range_difference(set, set, &made[2], NULL) == SEMVER_PARSER_OK
                    && semver_parser_range_equal(made[0], set, &equal, NULL) == SEMVER_PARSER_OK
                    && semver_parser_range_is_disjoint(made[2], set, &is_disjoint, NULL)
                           == SEMVER_PARSER_OK
                    && semver_parser_range_is_subset(made[1], set, &is_subset, NULL)
                           == SEMVER_PARSER_OK
                    && semver_parser_range_is_empty(made[2]);
    for (int at = 0; at < 3; at++) {
        semver_parser_range_free(made[at]);
    }
    return are_made && equal && is_subset && is_disjoint;
}

static bool use_list(const semver_parser_comparators *list) {
    semver_parser_comparator last;
    char *string = NULL;
    semver_parser_status status = semver_parser_comparators_to_string(list, &string);
    return is_made(status, string, ">=1.2.0 <2.0.0-0 || >=3.0.0 <4.0.0-0")
           && semver_parser_comparators_count(list) == 4
           && semver_parser_comparators_get(list, 3, &last) == SEMVER_PARSER_OK && last.range == 1
           && last.op == SEMVER_PARSER_OP_LESS && last.major == 4 && is_string(last.pre, "0")
           && semver_parser_comparators_get(list, 4, &last) == SEMVER_PARSER_INVALID_ARGUMENT;
}

static bool use_terms(void) {
    const semver_parser_string range = semver_parser_str("^1.2 || >=2.0.0-rc.1");
    semver_parser_term terms[2];
    size_t count = 0;
    char *made = NULL;
    bool is_read = semver_parser_terms_of_range(range, npm.dialect, terms, 2, &count, NULL)
                       == SEMVER_PARSER_OK
                   && count == 2 && terms[1].op == SEMVER_PARSER_OPERATOR_GREATER_OR_EQUAL
                   && strcmp(semver_parser_operator_sign(terms[1].op), ">=") == 0
                   && terms[1].version.major.kind == SEMVER_PARSER_COMPONENT_NUMBER
                   && is_string(terms[1].version.pre, "rc.1");
    semver_parser_status status = semver_parser_replace_version(
        range, &terms[1].version, semver_parser_str("3.1.4"), npm.dialect, &made, NULL);
    return is_read && is_made(status, made, "^1.2 || >=3.1.4");
}

/* What both threads read, and whether each got the right results. */
static semver_parser_range *shared_set;
static semver_parser_comparators *shared_list;

static void *use_shared(void *right) {
    bool is_right = true;
    for (int at = 0; at < 200; at++) {
        is_right = is_right && use_set(shared_set) && use_two_sets(shared_set)
                   && use_list(shared_list) && use_versions() && use_terms();
    }
    *(bool *)right = is_right;
    return NULL;
}

int main(void) {
    bool right[2] = {false, false};
    pthread_t other;
    npm = semver_parser_options_of(SEMVER_PARSER_DIALECT_NPM);
    bool passed =
        strcmp(semver_parser_library_version(), SEMVER_PARSER_VERSION) == 0
        && semver_parser_library_version_number() >= 1000000
        && semver_parser_range_parse(semver_parser_str("^1.2"), npm, &shared_set, NULL)
               == SEMVER_PARSER_OK
        && semver_parser_comparators_of_range(semver_parser_str("^1.2 || 3.x"), npm.dialect, false,
                                              &shared_list, NULL)
               == SEMVER_PARSER_OK
        && pthread_create(&other, NULL, use_shared, &right[0]) == 0;
    if (passed) {
        use_shared(&right[1]);
        passed = pthread_join(other, NULL) == 0 && right[0] && right[1];
    }
    semver_parser_range_free(shared_set);
    semver_parser_comparators_free(shared_list);
    printf("uses: %s\n", passed ? "passed" : "failed");
    return passed ? 0 : 1;
}
