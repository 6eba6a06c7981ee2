/* Measures how much memory the functions that allocate hold at most for each byte of a range,
 * beyond the first 1,000 bytes: for ranges of many forms and lengths, in each dialect and with
 * each rule. It is linked with -Wl,--wrap=malloc,--wrap=realloc,--wrap=free, and counts
 * everything that the library allocates. */
#include "../../../rust/capi/include/semver_parser.h"

#include <stdio.h>
#include <stdlib.h>
#include <string.h>

/* ---- memory that is counted; the size of a block is stored before it */

enum { BEFORE = 16 };

static size_t held, most;

void *__real_malloc(size_t size);
void *__real_realloc(void *block, size_t size);
void __real_free(void *block);
void *__wrap_malloc(size_t size);
void *__wrap_realloc(void *block, size_t size);
void __wrap_free(void *block);

static void *counted(unsigned char *block, size_t size) {
    if (block == NULL) abort();
    held += size;
    most = held > most ? held : most;
    memcpy(block, &size, sizeof size);
    return block + BEFORE;
}

static size_t size_of(const unsigned char *block) {
    size_t size;
    memcpy(&size, block - BEFORE, sizeof size);
    return size;
}

void *__wrap_malloc(size_t size) {
    return counted(__real_malloc(size + BEFORE), size);
}

/* While a block is moved, both the old and the new one are held. */
void *__wrap_realloc(void *block, size_t size) {
    size_t old = size_of(block);
    void *made = counted(__real_realloc((unsigned char *)block - BEFORE, size + BEFORE), size);
    held -= old;
    return made;
}

void __wrap_free(void *block) {
    if (block == NULL) return;
    held -= size_of(block);
    __real_free((unsigned char *)block - BEFORE);
}

/* ---- functions, called with a valid range; what isn't counted is made before */

enum { LONGEST = 132000 };

static char text[LONGEST];
static semver_parser_string range = {text, 0};
static semver_parser_range *set;
static semver_parser_comparators *list;

static void begin(void) {
    most = held = 0;
}

static bool make_set(semver_parser_options options) {
    semver_parser_range_free(set);
    set = NULL;
    begin();
    return semver_parser_range_parse(range, options, &set, NULL) == SEMVER_PARSER_OK;
}

static bool make_list(semver_parser_options options) {
    semver_parser_comparators_free(list);
    list = NULL;
    begin();
    return semver_parser_comparators_of_range(range, options.dialect, true, &list, NULL)
           == SEMVER_PARSER_OK;
}

static bool print_list(semver_parser_options options) {
    char *string = NULL;
    if (!make_list(options)) return false;
    begin();
    bool is_ok = semver_parser_comparators_to_string(list, &string) == SEMVER_PARSER_OK;
    semver_parser_free(string);
    return is_ok;
}

static bool explain(semver_parser_options options) {
    semver_parser_error error;
    bool satisfies;
    if (range.length >= LONGEST) return false;
    text[range.length++] = '%';
    begin();
    bool is_error = semver_parser_satisfies(semver_parser_str("1.2.3"), range, options, &satisfies,
                                            &error) == SEMVER_PARSER_INVALID_RANGE;
    range.length--;
    return is_error;
}

/* Functions of a set, for each byte of the range or ranges that it is made from. */
static bool unite(semver_parser_options options) {
    semver_parser_range *made = NULL;
    if (!make_set(options)) return false;
    begin();
    bool is_ok = semver_parser_range_union(set, set, &made, NULL) == SEMVER_PARSER_OK;
    semver_parser_range_free(made);
    return is_ok;
}

static bool print_set(semver_parser_options options) {
    char *string = NULL;
    if (!make_set(options)) return false;
    begin();
    bool is_ok = semver_parser_range_to_string(set, false, &string) == SEMVER_PARSER_OK;
    semver_parser_free(string);
    return is_ok;
}

static const struct {
    const char *name;
    bool (*run)(semver_parser_options options);
    int ranges;
} calls[] = {{"range_parse", make_set, 1}, {"comparators_of_range", make_list, 1},
    {"comparators_to_string", print_list, 1}, {"satisfies, for an error", explain, 1},
    {"range_union", unite, 2}, {"range_to_string", print_set, 1}};

/* ---- ranges: equal terms, repeated in equal ranges; # is another number each time */

static const char *const terms[] = {"", "*", "1", "^1", "<1", ">1", "1.1.1-0", "^1.1.1-0",
    "~1.1.1-a", ">1.1.1-0", "1.1.1-0.0.0", "#", "~#", "<#", "#.1.1-0", "^#.1.1-a", ">#.1.1-0"};
static const size_t counts[] = {1, 2, 3, 5, 9, 33, 129, 257};
static const size_t times[] = {1, 2, 3, 9, 17, 129, 255, 509, 2049, 16385, 32769};

static size_t length;

static void add(const char *piece) {
    size_t size = strlen(piece);
    if (length + size <= LONGEST) memcpy(text + length, piece, size);
    length += size;
}

static void add_term(const char *term, int number) {
    char made[40];
    const char *at = strchr(term, '#');
    if (at == NULL) {
        add(term);
        return;
    }
    snprintf(made, sizeof made, "%.*s%d%s", (int)(at - term), term, number, at + 1);
    add(made);
}

/* Writes such a text, with a space or a comma between terms, and `||` or the same between
 * ranges. */
static void write_text(
    const char *term, size_t count, size_t often, const char *between, bool bars) {
    length = 0;
    for (size_t range = 0; range < often && length <= LONGEST; range++) {
        for (size_t i = 0; i < count; i++) {
            if (range + i > 0) add(i > 0 || !bars ? between : "||");
            add_term(term, (int)(2 * (range * count + i)));
        }
    }
}

/* ---- the most that a function holds */

static double rate;
static char shown[80];

/* Runs a function on the range, in each dialect and with each rule. */
static void run(size_t call, const char *term, size_t count, size_t often) {
    range.length = length;
    for (int at = 0; at < 12; at++) {
        semver_parser_options options = semver_parser_options_of(at / 3);
        options.pre_releases = at % 3;
        if (!calls[call].run(options) || most < 1000) continue;
        double found = (double)(most - 1000) / (double)length / calls[call].ranges;
        if (found <= rate) continue;
        rate = found;
        snprintf(shown, sizeof shown, "%zu ranges of %zu times `%s`", often, count, term);
    }
}

static void run_all(size_t call, const char *term, size_t count, size_t often) {
    static const char *const between[] = {" ", ","};
    for (int way = 0; way < 4; way++) {
        write_text(term, count, often, between[way / 2], way % 2 == 0);
        if (length > 0 && length <= LONGEST) run(call, term, count, often);
    }
}

int main(void) {
    printf("| function | bytes for each byte | of what |\n|---|---|---|\n");
    for (size_t call = 0; call < sizeof calls / sizeof *calls; call++) {
        rate = 0;
        for (size_t t = 0; t < sizeof terms / sizeof *terms; t++) {
            for (size_t c = 0; c < sizeof counts / sizeof *counts; c++) {
                for (size_t o = 0; o < sizeof times / sizeof *times; o++) {
                    run_all(call, terms[t], counts[c], times[o]);
                }
            }
        }
        printf("| `%s` | %.1f | %s |\n", calls[call].name, rate, shown);
    }
    return 0;
}
