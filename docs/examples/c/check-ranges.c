/* Checks lines of a range, a tab and a version, from standard input: prints each whose version
 * doesn't satisfy its range.
 *
 *     make
 *     printf '^1.2.0\t1.4.0\n^1.2.0\t2.0.0\n' | out/check-ranges [DIALECT]
 *
 * prints the second. What follows another tab is ignored, and printed with its line. A line that is
 * invalid is reported on standard error with its number, and with the offset and the reason. The
 * status is 0 if all lines hold, 1 if one doesn't, and 2 if one is invalid, the input can't be read
 * to its end, or the output can't be written: then the rest isn't checked, and that is reported.
 *
 * DIALECT is `npm`, the default, or `cargo`, with the pre-releases that the tool matches by
 * default; or `crate-npm` or `crate-cargo`, those of the Rust crate semver-parser, with each
 * pre-release within the bounds: 1.3.0-rc satisfies `^1.2.0`, and 2.0.0-rc doesn't. */
#define _POSIX_C_SOURCE 200809L
#include <errno.h>
#include <semver_parser.h>
#include <stdio.h>
#include <stdlib.h>
#include <string.h>

/* What a line comes to. The status is the highest but for STOPPED, which is INVALID to others. */
enum { HOLDS = 0, DOES_NOT_HOLD = 1, INVALID = 2, STOPPED = 3 };

/* A dialect, and which pre-releases satisfy a range. */
typedef struct {
    const char *name;
    semver_parser_dialect dialect;
    semver_parser_pre_releases pre_releases;
} dialect_by_name;

static const dialect_by_name dialects[] = {
    {"npm", SEMVER_PARSER_DIALECT_NPM, SEMVER_PARSER_PRE_RELEASES_BY_DIALECT},
    {"cargo", SEMVER_PARSER_DIALECT_CARGO, SEMVER_PARSER_PRE_RELEASES_BY_DIALECT},
    {"crate-npm", SEMVER_PARSER_DIALECT_CRATE_NPM, SEMVER_PARSER_PRE_RELEASES_INCLUDED},
    {"crate-cargo", SEMVER_PARSER_DIALECT_CRATE_CARGO, SEMVER_PARSER_PRE_RELEASES_INCLUDED},
};

static int output_error(unsigned long number) {
    fprintf(stderr, "line %lu: the output can't be written: %s\n", number, strerror(errno));
    return STOPPED;
}

/* Prints a line that doesn't hold. */
static int print(const char *line, size_t length, unsigned long number) {
    if (fwrite(line, 1, length, stdout) != length || putchar('\n') == EOF) {
        return output_error(number);
    }
    return DOES_NOT_HOLD;
}

/* Reports an error:
 * "line 1: invalid range "1 || 2" at offset 2: Cargo doesn't accept ||; npm does". */
static int report(const semver_parser_error *error, semver_parser_string of, unsigned long number) {
    char *message = NULL;
    semver_parser_status status = semver_parser_error_message(error, of, false, &message);
    fprintf(stderr, "line %lu: %s\n", number,
            status == SEMVER_PARSER_OK ? message : semver_parser_status_text(status));
    semver_parser_free(message);
    return INVALID;
}

/* Checks a line. */
static int check(
    const char *line, size_t length, unsigned long number, semver_parser_options options) {
    const char *end = line + length;
    const char *tab = memchr(line, '\t', length);
    if (tab == NULL) {
        fprintf(stderr, "line %lu: no tab\n", number);
        return INVALID;
    }
    const char *after = memchr(tab + 1, '\t', (size_t)(end - tab - 1));
    semver_parser_string range = {line, (size_t)(tab - line)};
    semver_parser_string version = {tab + 1, (size_t)((after != NULL ? after : end) - tab - 1)};
    bool satisfies;
    semver_parser_error error;
    if (semver_parser_satisfies(version, range, options, &satisfies, &error)
        != SEMVER_PARSER_OK) {
        return report(&error, error.index == 0 ? version : range, number);
    }
    return satisfies ? HOLDS : print(line, length, number);
}

/* Checks all lines, and returns the status. */
static int check_all(semver_parser_options options) {
    char *line = NULL;
    size_t room = 0;
    int status = HOLDS;
    unsigned long number = 0;
    while (status != STOPPED) {
        number++;
        errno = 0;
        ssize_t length = getline(&line, &room, stdin);
        if (length < 0) {
            break;
        }
        if (length > 0 && line[length - 1] == '\n') {
            length--;
        }
        int checked = check(line, (size_t)length, number, options);
        status = checked > status ? checked : status;
    }
    /* getline ends at the end of the input, and where it can't be read or there is no memory for
     * the line. */
    if (status != STOPPED && !feof(stdin)) {
        fprintf(stderr, "line %lu: the input can't be read: %s\n", number, strerror(errno));
        status = STOPPED;
    }
    free(line);
    if (status != STOPPED && fflush(stdout) != 0) {
        status = output_error(number - 1);
    }
    return status == STOPPED ? INVALID : status;
}

int main(int count, char **arguments) {
    const char *name = count == 1 ? "npm" : arguments[1];
    for (size_t at = 0; count <= 2 && at < sizeof dialects / sizeof *dialects; at++) {
        if (strcmp(name, dialects[at].name) == 0) {
            semver_parser_options options = semver_parser_options_of(dialects[at].dialect);
            options.pre_releases = dialects[at].pre_releases;
            return check_all(options);
        }
    }
    fprintf(stderr, "check-ranges [npm|cargo|crate-npm|crate-cargo] < lines\n");
    return INVALID;
}
