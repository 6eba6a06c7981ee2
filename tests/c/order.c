/* Tests that what a function returns doesn't depend on earlier calls:
 *
 *     order COUNT SEED
 *
 * COUNT random calls are made, each in a child process that makes no other calls, except for
 * those that make the ranges and lists that it takes. Then one process makes them in random
 * order, each several times, while many ranges and lists exist, which are freed and made again.
 * Each call has to return the same as alone. Errors of this kind are planted, too, and each has
 * to be found. */
#define _POSIX_C_SOURCE 200809L
#include "order_calls.h"

#include <stdio.h>
#include <stdlib.h>
#include <string.h>
#include <sys/wait.h>
#include <unistd.h>

enum {
    TIMES = 60, /* how often each call is made */
    TRIES = 10  /* how often a planted error is looked for at most */
};

static call *calls;
static text *expected;
static size_t count;

static void give_up(const char *why) {
    perror(why);
    exit(2);
}

/* Appends what a child writes, and returns whether it exited with 0. */
static bool is_read(pid_t child, int from, text *to) {
    char some[4096];
    ssize_t length;
    text_add(to, "", 0);
    while ((length = read(from, some, sizeof some)) > 0) {
        text_add(to, some, (size_t)length);
    }
    close(from);
    int status = -1;
    return waitpid(child, &status, 0) == child && status == 0;
}

/* Runs a function in a child, and appends what it appends there. */
static bool in_child(void (*work)(text *said, size_t at), size_t at, text *to) {
    int ends[2];
    fflush(stdout);
    if (pipe(ends) != 0) {
        give_up("pipe");
    }
    pid_t child = fork();
    if (child < 0) {
        give_up("fork");
    }
    if (child > 0) {
        close(ends[1]);
        return is_read(child, ends[0], to);
    }
    close(ends[0]);
    text said = {NULL, 0, 0};
    text_add(&said, "", 0);
    work(&said, at);
    size_t written = 0;
    ssize_t length = 1;
    while (written < said.length && length > 0) {
        length = write(ends[1], said.bytes + written, said.length - written);
        written += length > 0 ? (size_t)length : 0;
    }
    _exit(written == said.length ? 0 : 2);
}

static void make_alone(text *said, size_t at) {
    make_call(&calls[at], said);
}

static void print_call(size_t at) {
    const call *it = &calls[at];
    printf("  %s: strings %d and %d, %zu versions, dialect %d, rule %d, flag %d, ranges %d and %d, "
           "list %d, index %zu\n",
           name_of(it->function), it->strings[0], it->strings[1], it->count, it->dialect, it->rule,
           it->flag, it->ranges[0], it->ranges[1], it->list, it->index);
}

/* Makes the calls in random order. At the first one that differs, appends its index, the index
 * of the one before it, and its output. */
static void make_sequence(text *said, size_t error) {
    planted = (int)error;
    size_t last = 0;
    for (size_t step = 0; step < TIMES * count; step++) {
        size_t at = random_below(3) == 0 ? (last ^ 1) % count : random_below((uint32_t)count);
        text got = {NULL, 0, 0};
        text_add(&got, "", 0);
        make_call(&calls[at], &got);
        bool is_same = got.length == expected[at].length
                       && memcmp(got.bytes, expected[at].bytes, got.length) == 0;
        if (!is_same) {
            text_say(said, "%zu %zu ", last, at);
            text_add(said, got.bytes, got.length);
        }
        text_free(&got);
        if (!is_same) {
            break;
        }
        free_some();
        last = at;
    }
    free_all();
}

/* Returns whether a sequence has a difference, which is printed. */
static bool differs(void) {
    text said = {NULL, 0, 0};
    size_t last = 0;
    size_t at = 0;
    int begin = 0;
    text_add(&said, "", 0);
    make_sequence(&said, 0);
    bool is_other = sscanf(said.bytes, "%zu %zu %n", &last, &at, &begin) == 2;
    if (is_other) {
        printf("order: after other calls a result differs. The last calls:\n");
        print_call(last);
        print_call(at);
        printf("returns: %s\nby itself: %s\n", said.bytes + begin, expected[at].bytes);
    }
    text_free(&said);
    return is_other;
}

/* Plants each error in a child. Returns how many aren't found. */
static int not_found(void) {
    int missing = 0;
    for (int error = 1; error <= PLANTED; error++) {
        text said = {NULL, 0, 0};
        for (int tries = 0; tries < TRIES && said.length == 0; tries++) {
            random_below(2); /* so the next child has another order */
            in_child(make_sequence, (size_t)error, &said);
        }
        if (said.length == 0) {
            printf("order: it isn't found that %s\n", planted_name(error));
            missing++;
        }
        text_free(&said);
    }
    return missing;
}

/* Makes the calls, each in a child. Returns whether all of these finish. */
static bool are_made_alone(void) {
    calls = (call *)calloc(count, sizeof *calls);
    expected = (text *)calloc(count, sizeof *expected);
    if (calls == NULL || expected == NULL) {
        give_up("memory");
    }
    for (size_t at = 0; at < count; at++) {
        calls[at] = random_call(at, at == 0 ? calls : calls + at - 1);
        if (!in_child(make_alone, at, &expected[at])) {
            printf("order: a call by itself ends early\n");
            print_call(at);
            return false;
        }
    }
    return true;
}

int main(int arguments, char **values) {
    if (arguments != 3) {
        return 2;
    }
    count = (size_t)atol(values[1]);
    random_seed((uint32_t)atol(values[2]));
    make_recipes();
    bool failed = !are_made_alone() || not_found() > 0 || differs();
    for (size_t at = 0; at < count; at++) {
        text_free(&expected[at]);
    }
    free(expected);
    free(calls);
    if (!failed) {
        printf("order of calls in C: %zu calls, %zu times in random order, seed %s; %d planted "
               "errors found; passed\n",
               count, TIMES * count, values[2], PLANTED);
    }
    return failed ? 1 : 0;
}
