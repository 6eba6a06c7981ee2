/* The messages of the C library, with carets. main.rs says how calls are read and messages are
 * written. */
#include "../../rust/capi/include/semver_parser.h"

#include <stdio.h>
#include <stdlib.h>

enum { FIELDS = 4 };

static semver_parser_dialect dialect_of(const char *name) {
    semver_parser_dialect dialect = 0;
    while (strcmp(semver_parser_dialect_name(dialect), name) != 0) {
        dialect++;
    }
    return dialect;
}

static semver_parser_status call(char *const *fields, semver_parser_error *error) {
    semver_parser_string string = semver_parser_str(fields[2]);
    semver_parser_options options = semver_parser_options_of(dialect_of(fields[1]));
    semver_parser_version version;
    char *upgraded = NULL;
    semver_parser_status status;
    switch (fields[0][0]) {
    case 'v': return semver_parser_parse_version(string, options.dialect, &version, error);
    case 'r': return semver_parser_check_range(string, options.dialect, error);
    default:
        status = semver_parser_upgrade(
            string, semver_parser_str(fields[3]), options, &upgraded, error);
        semver_parser_free(upgraded);
        return status;
    }
}

int main(void) {
    char *fields[FIELDS] = {NULL, NULL, NULL, NULL};
    size_t sizes[FIELDS] = {0, 0, 0, 0};
    int at = 0;
    while (getdelim(&fields[at], &sizes[at], '\0', stdin) > 0) {
        semver_parser_error error;
        char *message = NULL;
        at = (at + 1) % FIELDS;
        if (at == 0 && call(fields, &error) != SEMVER_PARSER_OK) {
            semver_parser_string of = semver_parser_str(fields[error.index == 0 ? 2 : 3]);
            if (semver_parser_error_message(&error, of, true, &message) != SEMVER_PARSER_OK) {
                return 1;
            }
            fputs(message, stdout);
            semver_parser_free(message);
        }
        if (at == 0) {
            putchar('\0');
        }
    }
    for (at = 0; at < FIELDS; at++) {
        free(fields[at]);
    }
    return 0;
}
