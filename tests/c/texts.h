/* Texts that grow, and the escapes of the table of cases. */
#ifndef TEXTS_H
#define TEXTS_H

#include <stdbool.h>
#include <stddef.h>
#include <stdint.h>

/* Bytes that grow at their end, followed by a zero byte. */
typedef struct {
    char *bytes;
    size_t length;
    size_t room;
} text;

/* Appends bytes, or what printf writes. Exits if memory runs out. */
void text_add(text *to, const char *bytes, size_t length);
void text_say(text *to, const char *format, ...) __attribute__((format(printf, 2, 3)));
void text_free(text *it);

/* Reads a whole file. Exits if it can't be read. */
text text_of_file(const char *path);

/* Appends what a text of the table stands for: `\n`, `\r`, `\t` and `\\` are characters, and
 * `\(3,a\#,.)` is `a0.a1.a2`. Returns false if it isn't well-formed. */
bool text_expand(text *to, const char *escaped, size_t length);

/* Appends what the table has for a long result: its length and its Adler-32 checksum. */
void text_say_sum(text *to, const text *answer);

#endif
