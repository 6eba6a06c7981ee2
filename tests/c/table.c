#include "table.h"

#include <inttypes.h>
#include <stdio.h>
#include <stdlib.h>
#include <string.h>

/* Reads a file of a directory. */
static text text_in(const char *directory, const char *name) {
    text path = {NULL, 0, 0};
    text_say(&path, "%s%s", directory, name);
    text read = text_of_file(path.bytes);
    text_free(&path);
    return read;
}

table table_of_directory(const char *directory) {
    table made = {text_in(directory, "/stdin"), text_in(directory, "/stdout"), NULL, NULL};
    made.row_at = made.rows.bytes;
    made.answer_at = made.answers.bytes;
    return made;
}

void table_free(table *it) {
    text_free(&it->rows);
    text_free(&it->answers);
}

/* Returns the line at a position, ended by a zero byte, and moves the position after it. */
static char *next_line(char **at) {
    char *line = *at;
    char *end = strchr(line, '\n');
    if (end == NULL) {
        *at = line + strlen(line);
    } else {
        *end = 0;
        *at = end + 1;
    }
    return line;
}

bool next_row(table *of, row *next) {
    if (*of->row_at == 0 && *of->answer_at == 0) {
        return false;
    }
    char none[1] = {0};
    char *fields[4] = {next_line(&of->row_at), none, none, none};
    for (int field = 1; field < 4; field++) {
        char *tab = strchr(fields[field - 1], '\t');
        if (tab == NULL) {
            break;
        }
        *tab = 0;
        fields[field] = tab + 1;
    }
    const char *answer = next_line(&of->answer_at);
    size_t length = strlen(fields[0]);
    row made = {fields[1], {NULL, 0, 0}, {NULL, 0, 0}, NULL};
    if (length == 0 || fields[1] == none || strncmp(answer, fields[0], length) != 0
        || strncmp(answer + length, ": ", 2) != 0
        || !text_expand(&made.of, fields[2], strlen(fields[2]))
        || !text_expand(&made.steps, fields[3], strlen(fields[3]))) {
        fprintf(stderr, "not a row: %s, expected %s\n", fields[0], answer);
        exit(2);
    }
    made.expected = answer + length + 2;
    *next = made;
    return true;
}

void row_free(row *it) {
    text_free(&it->of);
    text_free(&it->steps);
}

/* Returns whether an identifier is a number: digits without a leading zero, up to 2^64 - 1. */
static bool is_number(const char *bytes, size_t length) {
    for (size_t at = 0; at < length; at++) {
        if (bytes[at] < '0' || bytes[at] > '9') {
            return false;
        }
    }
    if (length > 1 && bytes[0] == '0') {
        return false;
    }
    return length < 20 || (length == 20 && memcmp(bytes, "18446744073709551615", 20) <= 0);
}

void say_identifiers(text *to, const char *bytes, size_t length) {
    const char *end = bytes + length;
    while (length > 0) {
        const char *dot = (const char *)memchr(bytes, '.', (size_t)(end - bytes));
        const char *stop = dot != NULL ? dot : end;
        text_say(to, is_number(bytes, (size_t)(stop - bytes)) ? "Numeric(" : "AlphaNumeric(");
        text_add(to, bytes, (size_t)(stop - bytes));
        text_say(to, ")");
        if (dot == NULL) {
            return;
        }
        text_say(to, " ");
        bytes = dot + 1;
    }
}

void say_fields(text *to, const semver_parser_version *parsed) {
    text_say(to, "%" PRIu64 " %" PRIu64 " %" PRIu64 " pre[", parsed->major, parsed->minor,
             parsed->patch);
    say_identifiers(to, parsed->pre.data, parsed->pre.length);
    text_say(to, "] build[");
    say_identifiers(to, parsed->build.data, parsed->build.length);
    text_say(to, "]");
}
