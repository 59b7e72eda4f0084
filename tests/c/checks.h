/* What the programs share that call the library from C: the lists of E4, and a line printed for each figure that is another. */
#include <inttypes.h>
#include <stdio.h>

#include "juniperprow.h"

#define COUNT(list) (sizeof(list) / sizeof((list)[0]))

/* A list and its count, or a null list with a count of 0 where the bit of `chosen` at this place is set. */
#define LIST(chosen, place, list) (chosen) >> (place) & 1 ? NULL : (list), (chosen) >> (place) & 1 ? 0 : COUNT(list)

/* E4: three accident years, Y = 1, weights 1, no openings. */
static const int64_t payments[JUNIPERPROW_AMOUNTS_LENGTH(3)] = {100, 60, 40, 80, 90, 50};
static const int64_t adjustments[JUNIPERPROW_AMOUNTS_LENGTH(3)] = {300, -40, -60, 380, 30, 250};
static const int64_t weights[JUNIPERPROW_WEIGHTS_LENGTH(3)] = {1, 1, 1};

static int failed = 0;

static inline void check(const char *what, int64_t answered, int64_t expected) {
    if (answered != expected) {
        printf("%s: %" PRId64 ", not %" PRId64 "\n", what, answered, expected);
        failed = 1;
    }
}

static inline void check_verdict(const char *what, juniperprow_verdict verdict, int64_t number, int64_t accident_year, int64_t development_year) {
    check(what, verdict.number, number);
    check("the accident year of that verdict", verdict.accident_year, accident_year);
    check("the development year of that verdict", verdict.development_year, development_year);
}

/* The status of a program; what it has seen is said where no figure was another. */
static inline int finished(const char *seen) {
    if (!failed) {
        printf("from C: %s\n", seen);
    }
    return failed;
}
