#include "texts.h"

#include <stdarg.h>
#include <stdio.h>
#include <stdlib.h>
#include <string.h>

static void give_up(const char *why) {
    fprintf(stderr, "%s\n", why);
    exit(2);
}

/* Makes sure that there is capacity for bytes and a zero byte after them. */
static void grow(text *to, size_t length) {
    if (to->room - to->length <= length) {
        to->room = 2 * (to->length + length) + 64;
        to->bytes = (char *)realloc(to->bytes, to->room);
        if (to->bytes == NULL) {
            give_up("no memory");
        }
    }
}

void text_add(text *to, const char *bytes, size_t length) {
    grow(to, length);
    memcpy(to->bytes + to->length, bytes, length);
    to->length += length;
    to->bytes[to->length] = 0;
}

void text_say(text *to, const char *format, ...) {
    va_list arguments;
    va_start(arguments, format);
    int length = vsnprintf(NULL, 0, format, arguments);
    va_end(arguments);
    if (length < 0) {
        give_up("it can't be said");
    }
    grow(to, (size_t)length);
    va_start(arguments, format);
    vsnprintf(to->bytes + to->length, (size_t)length + 1, format, arguments);
    va_end(arguments);
    to->length += (size_t)length;
}

void text_free(text *it) {
    free(it->bytes);
    text none = {NULL, 0, 0};
    *it = none;
}

text text_of_file(const char *path) {
    FILE *file = fopen(path, "rb");
    if (file == NULL) {
        give_up(path);
    }
    text whole = {NULL, 0, 0};
    text_add(&whole, "", 0);
    char some[4096];
    size_t length;
    while ((length = fread(some, 1, sizeof some, file)) > 0) {
        text_add(&whole, some, length);
    }
    if (ferror(file)) {
        give_up(path);
    }
    fclose(file);
    return whole;
}

/* Appends a text without repetitions. `place` is its index in a list, or -1. */
static bool add_unescaped(text *to, const char *escaped, size_t length, long place) {
    for (size_t at = 0; at < length; at++) {
        if (escaped[at] != '\\') {
            text_add(to, escaped + at, 1);
            continue;
        }
        if (++at == length) {
            return false;
        }
        const char *marks = "nrt\\";
        const char *mark = strchr(marks, escaped[at]);
        if (escaped[at] == '#' && place >= 0) {
            text_say(to, "%ld", place);
        } else if (mark != NULL && *mark != 0) {
            text_add(to, &"\n\r\t\\"[mark - marks], 1);
        } else {
            return false;
        }
    }
    return true;
}

/* Appends what `count,unit,joiner` stands for. */
static bool add_repeated(text *to, const char *repeated, size_t length) {
    const char *unit = (const char *)memchr(repeated, ',', length);
    if (unit == NULL) {
        return false;
    }
    unit++;
    const char *joiner = (const char *)memchr(unit, ',', length - (size_t)(unit - repeated));
    if (joiner == NULL) {
        return false;
    }
    joiner++;
    size_t unit_length = (size_t)(joiner - 1 - unit);
    size_t joiner_length = length - (size_t)(joiner - repeated);
    long count = strtol(repeated, NULL, 10);
    for (long place = 0; place < count; place++) {
        if (place > 0 && !add_unescaped(to, joiner, joiner_length, -1)) {
            return false;
        }
        if (!add_unescaped(to, unit, unit_length, place)) {
            return false;
        }
    }
    return true;
}

/* Returns the beginning of the next `\(`, or the end. */
static const char *next_repeated(const char *at, const char *end) {
    while (at < end && !(at + 1 < end && at[0] == '\\' && at[1] == '(')) {
        at++;
    }
    return at;
}

bool text_expand(text *to, const char *escaped, size_t length) {
    const char *end = escaped + length;
    const char *at = next_repeated(escaped, end);
    text_add(to, "", 0);
    if (!add_unescaped(to, escaped, (size_t)(at - escaped), -1)) {
        return false;
    }
    while (at < end) {
        at += 2;
        const char *close = (const char *)memchr(at, ')', (size_t)(end - at));
        if (close == NULL || !add_repeated(to, at, (size_t)(close - at))) {
            return false;
        }
        at = next_repeated(close + 1, end);
        if (!add_unescaped(to, close + 1, (size_t)(at - close - 1), -1)) {
            return false;
        }
    }
    return true;
}

void text_say_sum(text *to, const text *answer) {
    uint32_t low = 1;
    uint32_t high = 0;
    for (size_t at = 0; at < answer->length; at++) {
        low = (low + (unsigned char)answer->bytes[at]) % 65521;
        high = (high + low) % 65521;
    }
    text_say(to, "%zu bytes, Adler-32 %04x%04x", answer->length, high, low);
}
