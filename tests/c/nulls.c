/* Passes a null pointer with a length above 0 for each string and array. It isn't treated as
 * empty: the call ends by a segmentation fault at null, and no variable of the program changes.
 * Each call is made in a child process. */
#define _POSIX_C_SOURCE 200809L
#include "../../rust/capi/include/semver_parser.h"

#include <signal.h>
#include <stdio.h>
#include <stdlib.h>
#include <string.h>
#include <sys/wait.h>
#include <unistd.h>

static int failed;

static void check(bool holds, const char *what, const char *of) {
    if (!holds) {
        printf("%s: %s\n", what, of);
        failed++;
    }
}

/* ---- the calls, each with these options, and a set and a list made with them */

static semver_parser_options options;
static semver_parser_range *set;
static const semver_parser_string at_null = {NULL, 5};
static semver_parser_status status;
static bool answer;

static void satisfies_version(void) {
    status = semver_parser_satisfies(at_null, semver_parser_str("^1"), options, &answer, NULL);
}

static void satisfies_range(void) {
    status = semver_parser_satisfies(semver_parser_str("1.2.3"), at_null, options, &answer, NULL);
}

static void parsed_version(void) {
    semver_parser_version parsed;
    status = semver_parser_parse_version(at_null, options.dialect, &parsed, NULL);
}

static void compared_version(void) {
    int32_t order;
    status = semver_parser_compare_versions(
        at_null, semver_parser_str("1.2.3"), options.dialect, &order, NULL);
}

static void other_version(void) {
    int32_t order;
    status = semver_parser_compare_versions(
        semver_parser_str("1.2.3"), at_null, options.dialect, &order, NULL);
}

static void range_of_set(void) {
    semver_parser_range *made;
    status = semver_parser_range_parse(at_null, options, &made, NULL);
}

static void contained_version(void) {
    status = semver_parser_range_contains(set, at_null, &answer, NULL);
}

static void array_of_versions(void) {
    status = semver_parser_range_contains_each(set, NULL, 1, &answer, NULL);
}

static void version_in_array(void) {
    status = semver_parser_range_contains_each(set, &at_null, 1, &answer, NULL);
}

static void answers_of_array(void) {
    const semver_parser_string version = semver_parser_str("1.2.3");
    status = semver_parser_range_contains_each(set, &version, 1, NULL, NULL);
}

static void array_of_highest(void) {
    size_t index;
    status = semver_parser_range_highest_of(set, NULL, 1, true, &index, NULL);
}

static void version_of_lowest(void) {
    size_t index;
    status = semver_parser_range_lowest_of(set, &at_null, 1, false, &index, NULL);
}

static void checked_range(void) {
    status = semver_parser_check_range(at_null, options.dialect, NULL);
}

static void string_of_message(void) {
    semver_parser_error error;
    char *message;
    memset(&error, 0, sizeof error);
    error.status = SEMVER_PARSER_INVALID_RANGE;
    error.reason = SEMVER_PARSER_REASON_EMPTY;
    status = semver_parser_error_message(&error, at_null, true, &message);
}

static void range_of_comparators(void) {
    semver_parser_comparators *made;
    status = semver_parser_comparators_of_range(at_null, options.dialect, true, &made, NULL);
}

static const struct {
    void (*call)(void);
    const char *what;
} calls[] = {{satisfies_version, "the version of a range"},
             {satisfies_range, "the range of a version"},
             {parsed_version, "a version"},
             {compared_version, "the first of two versions"},
             {other_version, "the other of two versions"},
             {range_of_set, "the range of a set"},
             {contained_version, "the version of a set"},
             {array_of_versions, "an array"},
             {version_in_array, "a version in an array"},
             {answers_of_array, "the answers of an array"},
             {array_of_highest, "an array, for the highest"},
             {version_of_lowest, "a version in an array, for the lowest"},
             {checked_range, "a range that is checked"},
             {string_of_message, "the string of a message"},
             {range_of_comparators, "the range of comparators"}};

/* ---- in a child */

enum { RETURNED = 0, FAULT_AT_NULL = 77, FAULT_ELSEWHERE = 78, SOMETHING_CHANGED = 79 };

/* The beginning and end of the program's variables, from the linker. */
extern char __data_start[];
extern char _end[];

/* Returns a checksum of all of them, and of what a sanitizer puts between them. */
__attribute__((no_sanitize("address"))) static uint64_t sum_of_variables(void) {
    uint64_t sum = 0;
    for (const volatile char *at = __data_start; at < _end; at++) {
        sum = 31 * sum + (unsigned char)*at;
    }
    return sum;
}

/* The checksum before the call. It is in a block of its own, since otherwise it would include
 * itself. */
static uint64_t *sum_before;

/* The library uses another address of the lowest pages instead of null. Nothing is mapped there. */
enum { LOWEST_PAGES = 65536 };

static void end_by_fault(int signal, siginfo_t *information, void *context) {
    (void)signal;
    (void)context;
    if ((uintptr_t)information->si_addr >= LOWEST_PAGES) {
        _exit(FAULT_ELSEWHERE);
    }
    _exit(sum_of_variables() == *sum_before ? FAULT_AT_NULL : SOMETHING_CHANGED);
}

static void call_as_child(void (*call)(void)) {
    struct sigaction action;
    memset(&action, 0, sizeof action);
    action.sa_sigaction = end_by_fault;
    action.sa_flags = SA_SIGINFO;
    if (sigaction(SIGSEGV, &action, NULL) != 0) {
        _exit(1);
    }
    *sum_before = sum_of_variables();
    call();
    _exit(RETURNED);
}

static void ends_at_null(void (*call)(void), const char *what) {
    int ended = 0;
    pid_t child = fork();
    if (child == 0) {
        call_as_child(call);
    }
    check(child > 0 && waitpid(child, &ended, 0) == child && WIFEXITED(ended),
          "no child that ends", what);
    int code = WEXITSTATUS(ended);
    check(code != RETURNED, "null with a length is taken for an empty string", what);
    check(code != FAULT_ELSEWHERE, "a fault elsewhere than at null", what);
    check(code != SOMETHING_CHANGED, "a variable of the program changes", what);
    check(code == FAULT_AT_NULL, "no fault at null", what);
}

int main(void) {
    sum_before = (uint64_t *)malloc(sizeof *sum_before);
    check(sum_before != NULL, "no memory", "");
    for (int dialect = SEMVER_PARSER_DIALECT_CARGO; dialect <= SEMVER_PARSER_DIALECT_CRATE_NPM;
         dialect++) {
        options.dialect = dialect;
        status = semver_parser_range_parse(semver_parser_str("^1.2"), options, &set, NULL);
        check(status == SEMVER_PARSER_OK, "no set", "^1.2");
        for (size_t at = 0; at < sizeof calls / sizeof *calls; at++) {
            ends_at_null(calls[at].call, calls[at].what);
        }
        semver_parser_range_free(set);
    }
    free(sum_before);
    printf("nulls: %s\n", failed == 0 ? "passed" : "failed");
    return failed == 0 ? 0 : 1;
}
