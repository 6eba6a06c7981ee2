/* Prints the size of each type of the header and the offset of each field. No flag of a compiler
 * may change these: tests/c-calls.sh compares the output with and without -fshort-enums. */
#include "../../rust/capi/include/semver_parser.h"

#include <stdio.h>

#define SIZE(type) printf("%s: %zu\n", #type, sizeof(type))
#define AT(type, field) printf("  %s: %zu\n", #field, offsetof(type, field))

int main(void) {
    SIZE(semver_parser_dialect);
    SIZE(semver_parser_pre_releases);
    SIZE(semver_parser_status);
    SIZE(semver_parser_reason);
    SIZE(semver_parser_op);
    SIZE(semver_parser_string);
    AT(semver_parser_string, data);
    AT(semver_parser_string, length);
    SIZE(semver_parser_options);
    AT(semver_parser_options, dialect);
    AT(semver_parser_options, pre_releases);
    AT(semver_parser_options, reserved);
    SIZE(semver_parser_error);
    AT(semver_parser_error, status);
    AT(semver_parser_error, reason);
    AT(semver_parser_error, offset);
    AT(semver_parser_error, index);
    AT(semver_parser_error, reserved);
    SIZE(semver_parser_version);
    AT(semver_parser_version, major);
    AT(semver_parser_version, minor);
    AT(semver_parser_version, patch);
    AT(semver_parser_version, pre);
    AT(semver_parser_version, build);
    SIZE(semver_parser_comparator);
    AT(semver_parser_comparator, range);
    AT(semver_parser_comparator, op);
    AT(semver_parser_comparator, major);
    AT(semver_parser_comparator, minor);
    AT(semver_parser_comparator, patch);
    AT(semver_parser_comparator, pre);
    SIZE(semver_parser_operator);
    SIZE(semver_parser_component_kind);
    SIZE(semver_parser_component);
    AT(semver_parser_component, kind);
    AT(semver_parser_component, number);
    SIZE(semver_parser_partial_version);
    AT(semver_parser_partial_version, start);
    AT(semver_parser_partial_version, end);
    AT(semver_parser_partial_version, has_v);
    AT(semver_parser_partial_version, major);
    AT(semver_parser_partial_version, minor);
    AT(semver_parser_partial_version, patch);
    AT(semver_parser_partial_version, pre);
    AT(semver_parser_partial_version, build);
    SIZE(semver_parser_term);
    AT(semver_parser_term, range);
    AT(semver_parser_term, op);
    AT(semver_parser_term, start);
    AT(semver_parser_term, end);
    AT(semver_parser_term, version);
    AT(semver_parser_term, upper);
    return 0;
}
