/* Random calls of the functions in the header, as numbers, so that each can be made anywhere. */
#ifndef ORDER_CALLS_H
#define ORDER_CALLS_H

#include "texts.h"

enum { RECIPES = 240, LISTS = 60, MOST_VERSIONS = 40 };

/* A call: the index of its function, and the indices of the strings, options, ranges and lists
 * that it may take. */
typedef struct {
    size_t function;
    int strings[2];
    int versions[MOST_VERSIONS];
    size_t count;
    int dialect;
    int rule;
    bool flag;
    int ranges[2];
    int list;
    size_t index;
} call;

/* Random numbers from a seed: xorshift. */
uint32_t random_below(uint32_t limit);
void random_seed(uint32_t seed);

/* Makes the recipes of the ranges and lists that calls take, and then random calls by their
 * indices: every second one is the one before it with a change. */
void make_recipes(void);
call random_call(size_t at, const call *before_it);

/* Makes a call, and appends what it wrote. The ranges and lists that it takes are made if they
 * don't exist, and are kept until they are freed. */
void make_call(const call *it, text *to);
void free_some(void);
void free_all(void);

const char *name_of(size_t function);
size_t functions_count(void);

/* The number of the error that is planted, or 0. */
extern int planted;
enum { PLANTED = 3 };
const char *planted_name(int number);

#endif
