/* A table of cases, row by row: that of crates/replayed_cases, or that of rust/tests/layers. */
#ifndef TABLE_H
#define TABLE_H

#include "../../rust/capi/include/semver_parser.h"
#include "texts.h"

/* The files of the table, and where the next row begins in each. */
typedef struct {
    text rows;
    text answers;
    char *row_at;
    char *answer_at;
} table;

/* A row: its call, its text and its steps without escapes, and the expected result. */
typedef struct {
    const char *call;
    text of;
    text steps;
    const char *expected;
} row;

/* Reads the table from the files stdin and stdout of a directory. Exits if one can't be read. */
table table_of_directory(const char *directory);
void table_free(table *it);

/* Reads the next row, which the caller has to free, and returns whether there is one. Exits at a
 * line that isn't a row, and if one file ends before the other. */
bool next_row(table *of, row *next);
void row_free(row *it);

/* Writes identifiers, which are joined by dots, as the table does: with their kinds. */
void say_identifiers(text *to, const char *bytes, size_t length);

/* Writes the fields of a version. */
void say_fields(text *to, const semver_parser_version *parsed);

#endif
