/* Prints the releases of a range with the installed library, for tests/installed-programs.sh and
 * tests/packages.sh. */
#include <semver_parser.h>
#include <stdio.h>

int main(void) {
    const semver_parser_options cargo = semver_parser_options_of(SEMVER_PARSER_DIALECT_CARGO);
    semver_parser_range *set = NULL;
    char *releases = NULL;
    if (semver_parser_range_parse(semver_parser_str("^1.2.3"), cargo, &set, NULL)
            != SEMVER_PARSER_OK
        || semver_parser_range_to_string(set, false, &releases) != SEMVER_PARSER_OK) {
        return 1;
    }
    puts(releases);
    semver_parser_free(releases);
    semver_parser_range_free(set);
    return 0;
}
