/* Raises requirements by the C library: the same as by-rust.rs without an argument. */
#define _POSIX_C_SOURCE 200809L
#include <semver_parser.h>
#include <stdio.h>
#include <stdlib.h>
#include <string.h>

/* Reads up to the next zero byte. */
static bool read_field(char **field, size_t *capacity) {
    return getdelim(field, capacity, '\0', stdin) >= 0;
}

static const char *result(semver_parser_status status, const char *raised) {
    switch (status) {
    case SEMVER_PARSER_OK:
        return raised != NULL ? raised : "!none";
    case SEMVER_PARSER_INVALID_VERSION:
        return "!version";
    case SEMVER_PARSER_CANNOT_UPGRADE:
        return "!cannot";
    default:
        return "!range";
    }
}

int main(void) {
    char *fields[3] = {NULL, NULL, NULL};
    size_t capacities[3] = {0, 0, 0};
    while (read_field(&fields[0], &capacities[0])) {
        if (!read_field(&fields[1], &capacities[1]) || !read_field(&fields[2], &capacities[2])) {
            return 2;
        }
        semver_parser_dialect dialect = strcmp(fields[2], "npm") == 0
                                            ? SEMVER_PARSER_DIALECT_NPM
                                            : SEMVER_PARSER_DIALECT_CARGO;
        char *raised = NULL;
        semver_parser_status status = semver_parser_upgrade(
            semver_parser_str(fields[0]), semver_parser_str(fields[1]),
            semver_parser_options_of(dialect), &raised, NULL);
        fputs(result(status, raised), stdout);
        putchar('\0');
        semver_parser_free(raised);
    }
    for (int at = 0; at < 3; at++) {
        free(fields[at]);
    }
    return 0;
}
