/* Raises a requirement to a newer version, and keeps how it is written:
 *
 *     make
 *     out/raise-requirement '~1.2 || ^2.0' 3.1.4 [DIALECT]
 *
 * prints `~1.2 || ^2.0 || ^3.1`. A range that has this version or a higher one is printed as it is.
 * DIALECT is `npm`, the default, `cargo`, `crate-npm` or `crate-cargo`.
 *
 * The status is 0 if the range that is printed has the version or a higher one. It is 1 if the
 * requirement can't be raised, such as `1.x` to 2.0.0-rc.1, and 2 if an argument is invalid, an
 * allocation failed, or the output can't be written. */
#include <errno.h>
#include <semver_parser.h>
#include <stdio.h>
#include <string.h>

/* Reports an error: "invalid range "1 || 2" at offset 2: Cargo doesn't accept ||; npm does". */
static void report(
    semver_parser_status status, const semver_parser_error *error, const char *of) {
    char *message = NULL;
    if (status == SEMVER_PARSER_OUT_OF_MEMORY
        || semver_parser_error_message(error, semver_parser_str(of), false, &message)
            != SEMVER_PARSER_OK) {
        message = NULL;
    }
    fprintf(stderr, "%s\n", message != NULL ? message : semver_parser_status_text(status));
    semver_parser_free(message);
}

int main(int count, char **arguments) {
    static const char *const names[] = {"npm", "cargo", "crate-npm", "crate-cargo"};
    static const semver_parser_dialect dialects[] = {
        SEMVER_PARSER_DIALECT_NPM, SEMVER_PARSER_DIALECT_CARGO, SEMVER_PARSER_DIALECT_CRATE_NPM,
        SEMVER_PARSER_DIALECT_CRATE_CARGO};
    size_t at = 0;
    while (count == 4 && at < 4 && strcmp(arguments[3], names[at]) != 0) {
        at++;
    }
    if (count < 3 || count > 4 || at == 4) {
        fprintf(stderr, "raise-requirement RANGE VERSION [npm|cargo|crate-npm|crate-cargo]\n");
        return 2;
    }
    const char *given[] = {arguments[1], arguments[2]};
    char *raised = NULL;
    semver_parser_error error = {0};
    semver_parser_status status = semver_parser_upgrade(
        semver_parser_str(given[0]), semver_parser_str(given[1]),
        semver_parser_options_of(dialects[at]), &raised, &error);
    if (status != SEMVER_PARSER_OK) {
        report(status, &error, given[error.index]);
        return status == SEMVER_PARSER_CANNOT_UPGRADE ? 1 : 2;
    }
    /* It is null if nothing has to be raised. */
    bool is_written = puts(raised != NULL ? raised : given[0]) != EOF && fflush(stdout) == 0;
    semver_parser_free(raised);
    if (!is_written) {
        fprintf(stderr, "the output can't be written: %s\n", strerror(errno));
        return 2;
    }
    return 0;
}
