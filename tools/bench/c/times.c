/* Times 1 to 6 versions that are matched with a range that is parsed once, and with
 * `semver_parser_satisfies` for each version: the best of many passes. */
#define _POSIX_C_SOURCE 200809L
#include "../../../rust/capi/include/semver_parser.h"

#include <stdio.h>
#include <string.h>
#include <time.h>

enum { PASSES = 100, CALLS = 1000, MOST = 6 };

static const char *const ranges[] = {"^1.2.3", ">=1.2.3, <2", "~1.2.3-rc.1"};
static const char *const versions[MOST] = {"1.4.0", "1.2.2", "2.0.0", "1.9.12", "0.8.1", "1.2.3"};

static double now(void) {
    struct timespec time;
    clock_gettime(CLOCK_MONOTONIC, &time);
    return (double)time.tv_sec * 1e9 + (double)time.tv_nsec;
}

static semver_parser_options cargo;
static bool answers[MOST];

/* A range that is parsed once, and below one that is parsed for each version. */
static bool ask_range(
    semver_parser_string range, const semver_parser_string *strings, size_t count) {
    semver_parser_range *set = NULL;
    bool is_ok = semver_parser_range_parse(range, cargo, &set, NULL) == SEMVER_PARSER_OK;
    for (size_t i = 0; is_ok && i < count; i++) {
        is_ok =
            semver_parser_range_contains(set, strings[i], &answers[i], NULL) == SEMVER_PARSER_OK;
    }
    semver_parser_range_free(set);
    return is_ok;
}

static bool ask_each(
    semver_parser_string range, const semver_parser_string *strings, size_t count) {
    bool is_ok = true;
    for (size_t i = 0; is_ok && i < count; i++) {
        is_ok = semver_parser_satisfies(strings[i], range, cargo, &answers[i], NULL)
                == SEMVER_PARSER_OK;
    }
    return is_ok;
}

typedef bool asking(semver_parser_string range, const semver_parser_string *strings, size_t count);

/* Returns the nanoseconds for matching a range with this many versions. */
static double time_of(asking *ask, const char *range, size_t count) {
    semver_parser_string strings[MOST];
    double best = 1e9;
    bool is_ok = true;
    for (size_t i = 0; i < MOST; i++) strings[i] = semver_parser_str(versions[i]);
    for (int pass = 0; pass < PASSES; pass++) {
        double begun = now();
        for (int call = 0; call < CALLS; call++) {
            is_ok &= ask(semver_parser_str(range), strings, count);
        }
        double taken = (now() - begun) / CALLS;
        best = taken < best ? taken : best;
    }
    return is_ok ? best : -1;
}

int main(void) {
    cargo = semver_parser_options_of(SEMVER_PARSER_DIALECT_CARGO);
    static asking *const ways[] = {ask_range, ask_each};
    printf("| ns by number of versions | 1 | 2 | 3 | 4 | 5 | 6 |\n");
    printf("|---|---|---|---|---|---|---|\n");
    for (size_t i = 0; i < 2 * sizeof ranges / sizeof *ranges; i++) {
        printf("| `%s`, %s |", ranges[i / 2], i % 2 == 0 ? "read once" : "read for each");
        for (size_t count = 1; count <= MOST; count++) {
            printf(" %.0f |", time_of(ways[i % 2], ranges[i / 2], count));
        }
        printf("\n");
    }
    return 0;
}
