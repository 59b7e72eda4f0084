/*
 * How much stack each function of the library uses at most, in bytes.
 *
 * A call runs on a stack of its own that was filled with a pattern: the lowest word that is no longer the pattern tells how deep it went.
 * An empty function, called in the same way, tells how deep this program itself went before the call, which is taken off.
 * Each call is made with two patterns, so that a written word that is the pattern by chance is seen.
 *
 * Counted is all that is written from the call's return address on, by memcpy and memset of this machine's C library too.
 * Not counted are the caller's own frame and the arguments in it, signal handlers, and what the loader uses where it looks up
 * memcpy or memset in the midst of a call: link with -z now, so that it does so beforehand.
 *
 * The calls are made on triangles of every number of accident years: accepted ones with and without missing cells, for every unseen cell,
 * and one that each question refuses. The program fails where a call does not answer the number that is meant.
 */
#define _GNU_SOURCE
#include <stdbool.h>
#include <stdio.h>
#include <stdlib.h>
#include <string.h>
#include <sys/mman.h>
#include <ucontext.h>

#include "juniperprow.h"

enum { YEARS = JUNIPERPROW_LARGEST_YEARS, QUESTIONS = 13 };

/* The stack in words, and the words below it that nothing may touch. */
enum { WORDS = 8192, GUARD = 512 };

/* What a call is lent and asked for, and the number of the first question that this fails, or 0. */
static struct {
    int64_t number, years, cut, accident_year, development_year;
    size_t amounts_count, kinds_count, weights_count, openings_count, future_count, reserves_count, reserve_pairs_count;
    int64_t payments[JUNIPERPROW_AMOUNTS_LENGTH(YEARS)], adjustments[JUNIPERPROW_AMOUNTS_LENGTH(YEARS)];
    int64_t weights[JUNIPERPROW_WEIGHTS_LENGTH(YEARS)], openings[YEARS];
    int64_t future[JUNIPERPROW_FUTURE_LENGTH(YEARS)], reserves[JUNIPERPROW_RESERVES_LENGTH(YEARS)];
    /* The same amounts as a workbook has them. */
    uint8_t payment_kinds[JUNIPERPROW_AMOUNTS_LENGTH(YEARS)], adjustment_kinds[JUNIPERPROW_AMOUNTS_LENGTH(YEARS)];
    double payment_cells[JUNIPERPROW_AMOUNTS_LENGTH(YEARS)], adjustment_cells[JUNIPERPROW_AMOUNTS_LENGTH(YEARS)];
    double reserve_pairs[JUNIPERPROW_RESERVE_PAIRS_LENGTH(YEARS)];
} lent;

/* ---- The calls: how each is made with what is lent, and which questions it asks ---- */

typedef void any_function(void);

static int64_t reserve(any_function *function) {
    return ((typeof(juniperprow_reserve) *)function)(lent.years, lent.cut, lent.payments, lent.amounts_count, lent.adjustments, lent.amounts_count,
        lent.weights, lent.weights_count, lent.openings, lent.openings_count, lent.future, lent.future_count, lent.reserves, lent.reserves_count).number;
}

static int64_t workbook_reserve(any_function *function) {
    return ((typeof(juniperprow_workbook_reserve) *)function)(lent.years, lent.cut, lent.payment_kinds, lent.kinds_count, lent.payment_cells, lent.amounts_count,
        lent.adjustment_kinds, lent.kinds_count, lent.adjustment_cells, lent.amounts_count, lent.weights, lent.weights_count,
        lent.openings, lent.openings_count, lent.future, lent.future_count, lent.reserve_pairs, lent.reserve_pairs_count).number;
}

static int64_t single_cell(any_function *function) {
    return ((typeof(juniperprow_single_cell) *)function)(lent.years, lent.cut, lent.payments, lent.amounts_count, lent.adjustments, lent.amounts_count,
        lent.weights, lent.weights_count, lent.openings, lent.openings_count, lent.accident_year, lent.development_year).verdict.number;
}

static int64_t row_verdict(any_function *function) {
    return ((typeof(juniperprow_row_verdict) *)function)(lent.years, lent.payments, lent.amounts_count, lent.adjustments, lent.amounts_count,
        lent.accident_year).number;
}

#define FROM_1_TO(last) ((2 << (last)) - 2)
static struct {
    const char *name;
    any_function *function;
    int64_t (*make)(any_function *);
    /* The bit with a question's number is set where the question is asked. */
    int questions;
    /* The depth before the call, and the most that the call itself used. */
    size_t before, most;
} calls[] = {
    {"juniperprow_reserve", (any_function *)juniperprow_reserve, reserve, FROM_1_TO(9), 0, 0},
    {"juniperprow_row_verdict", (any_function *)juniperprow_row_verdict, row_verdict, 1 << 1 | 1 << 3 | 1 << 10, 0, 0},
    {"juniperprow_single_cell", (any_function *)juniperprow_single_cell, single_cell, FROM_1_TO(10), 0, 0},
    {"juniperprow_workbook_reserve", (any_function *)juniperprow_workbook_reserve, workbook_reserve, FROM_1_TO(9) | 1 << 11 | 1 << 12 | 1 << 13, 0, 0},
};
enum { CALLS = sizeof calls / sizeof calls[0] };

/* ---- The measurement ---- */

static const uint64_t patterns[] = {0xa5a5a5a5a5a5a5a5, 0x5a5a5a5a5a5a5a5a};
static uint64_t *stack;
static ucontext_t here, there;
static int64_t (*make)(any_function *);
static any_function *function;
static int64_t answered;
static int inputs = 0;

/* It is called with arguments that it does not read, which the calling convention allows. */
static void empty(void) {
}

static void make_call(void) {
    answered = make(function);
    swapcontext(&there, &here);
}

static void make_stack(void) {
    stack = mmap(NULL, (GUARD + WORDS) * sizeof stack[0], PROT_READ | PROT_WRITE, MAP_PRIVATE | MAP_ANONYMOUS, -1, 0);
    if (stack == MAP_FAILED || mprotect(stack, GUARD * sizeof stack[0], PROT_NONE) != 0 || getcontext(&there) != 0) {
        perror("a stack for the calls");
        exit(1);
    }
    stack += GUARD;
    there.uc_stack.ss_sp = stack;
    there.uc_stack.ss_size = WORDS * sizeof stack[0];
}

/* Makes the call on a stack with either pattern: the bytes from the top of the stack to the lowest word that it wrote. */
static size_t depth(void) {
    size_t lowest = WORDS, j, pattern;
    for (pattern = 0; pattern < 2; pattern++) {
        for (j = 0; j < WORDS; j++) {
            stack[j] = patterns[pattern];
        }
        makecontext(&there, make_call, 0);
        swapcontext(&here, &there);
        for (j = 0; j < lowest && stack[j] == patterns[pattern]; j++) {
        }
        lowest = j;
    }
    return (WORDS - lowest) * sizeof stack[0];
}

/* Makes every call with what is lent now. */
static void measure(void) {
    size_t call, used;
    for (call = 0; call < CALLS; call++) {
        const int64_t expected = calls[call].questions >> lent.number & 1 ? lent.number : 0;
        make = calls[call].make;
        if (calls[call].before == 0) {
            /* The return address belongs to the call that is measured, and this one has nothing else. */
            function = empty;
            calls[call].before = depth() - sizeof(void *);
        }
        function = calls[call].function;
        used = depth() - calls[call].before;
        if (answered != expected) {
            printf("%s with n = %d answers %d, not %d\n", calls[call].name, (int)lent.years, (int)answered, (int)expected);
            exit(1);
        }
        if (used > calls[call].most) {
            calls[call].most = used;
        }
    }
    inputs++;
}

/* ---- The triangles ---- */

/* The amounts as they are now, for a workbook. */
static void fill_cells(void) {
    size_t j;
    for (j = 0; j < lent.kinds_count; j++) {
        lent.payment_cells[j] = (double)lent.payments[j];
        lent.adjustment_cells[j] = (double)lent.adjustments[j];
    }
}

/* An accepted triangle whose rows start at 1,000 units and pay 10 a year, and its deepest cell. */
static void lend(int n, int cut) {
    int i, k;
    memset(&lent, 0, sizeof lent);
    lent.years = lent.accident_year = lent.development_year = n;
    lent.cut = cut;
    lent.amounts_count = lent.kinds_count = JUNIPERPROW_AMOUNTS_LENGTH(n);
    lent.weights_count = JUNIPERPROW_WEIGHTS_LENGTH(n);
    lent.openings_count = JUNIPERPROW_OPENINGS_LENGTH(cut);
    lent.future_count = JUNIPERPROW_FUTURE_LENGTH(n);
    lent.reserves_count = JUNIPERPROW_RESERVES_LENGTH(n);
    lent.reserve_pairs_count = JUNIPERPROW_RESERVE_PAIRS_LENGTH(n);
    for (i = 1; i <= n; i++) {
        for (k = 1; k <= n + 1 - i; k++) {
            const bool missing = i + k <= cut;
            lent.payments[JUNIPERPROW_AMOUNT_AT(n, i, k)] = missing ? 0 : 10;
            lent.adjustments[JUNIPERPROW_AMOUNT_AT(n, i, k)] = !missing && k == 1 ? 1000 : 0;
            lent.payment_kinds[JUNIPERPROW_AMOUNT_AT(n, i, k)] = lent.adjustment_kinds[JUNIPERPROW_AMOUNT_AT(n, i, k)] =
                missing ? JUNIPERPROW_BLANK : JUNIPERPROW_NUMBER;
            if (i + k <= n) {
                lent.weights[JUNIPERPROW_WEIGHT_AT(n, i, k)] = !missing;
            }
        }
    }
    for (i = 1; i < cut; i++) {
        lent.openings[JUNIPERPROW_OPENING_AT(i)] = 1000;
    }
    fill_cells();
}

/* Makes the triangle, or the workbook alone, such that the question is the first to refuse it. */
static void change(int question) {
    const int n = (int)lent.years;
    const size_t last = lent.amounts_count - 1;
    int i;
    lent.number = question;
    switch (question) {
        case 1: lent.years = n % 2 ? JUNIPERPROW_SMALLEST_YEARS - 1 : JUNIPERPROW_LARGEST_YEARS + 1; break;
        case 2: lent.cut = n % 2 ? 0 : n; break;
        case 3: lent.amounts_count--; break;
        case 4: lent.weights[lent.weights_count - 1] = 101; break;
        case 5: lent.adjustments[last] = 1000000001; break;
        case 6: lent.payments[last] = 1001; break;
        case 7: lent.weights[JUNIPERPROW_WEIGHT_AT(n, 1, 1)] = 1; break;
        case 8: lent.weights[JUNIPERPROW_WEIGHT_AT(n, 1, n - 1)] = 0; break;
        case 9:
            /* Accident year 1 alone has a weight at development year 1, where its outstanding grows from 1 to 999,999,991 units. */
            for (i = 2; i < n; i++) {
                lent.weights[JUNIPERPROW_WEIGHT_AT(n, i, 1)] = 0;
            }
            lent.adjustments[JUNIPERPROW_AMOUNT_AT(n, 1, 1)] = 11;
            lent.adjustments[JUNIPERPROW_AMOUNT_AT(n, 1, 2)] = 1000000000;
            lent.payments[JUNIPERPROW_AMOUNT_AT(n, n, 1)] = 0;
            lent.adjustments[JUNIPERPROW_AMOUNT_AT(n, n, 1)] = 1000000000;
            break;
        case 10: lent.accident_year = n + 1; break;
        case 11: lent.adjustment_kinds[last] = JUNIPERPROW_NUMBER + 1; break;
        case 13: lent.adjustment_kinds[last] = JUNIPERPROW_BLANK; break;
    }
    fill_cells();
    if (question == 12) {
        lent.adjustment_cells[last] = 0.5;
    }
}

/* Every unseen cell, and so every row but the oldest. */
static void every_cell(int n) {
    int i, k;
    for (i = 2; i <= n; i++) {
        for (k = n + 2 - i; k <= n; k++) {
            lent.accident_year = i;
            lent.development_year = k;
            measure();
        }
    }
}

int main(void) {
    int n, question;
    size_t call;
    make_stack();
    for (n = JUNIPERPROW_SMALLEST_YEARS; n <= JUNIPERPROW_LARGEST_YEARS; n++) {
        lend(n, 1);
        every_cell(n);
        lend(n, n - 1);
        every_cell(n);
        for (question = 1; question <= QUESTIONS; question++) {
            /* Only a triangle with a missing cell can have a weight there. */
            const int cut = question == 7 ? 2 : 1;
            if (cut < n) {
                lend(n, cut);
                change(question);
                measure();
            }
        }
    }
    printf("%-28s bytes\n", "stack of a call, at most");
    for (call = 0; call < CALLS; call++) {
        printf("%-28s %5zu\n", calls[call].name, calls[call].most);
    }
    printf("Measured on a stack filled with a pattern, less an empty call, on %d inputs with n from %d to %d, accepted and refused by each question.\n",
        inputs, (int)JUNIPERPROW_SMALLEST_YEARS, YEARS);
    return 0;
}
