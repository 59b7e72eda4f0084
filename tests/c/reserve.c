/* The call that fills both answer lists: E4, a refusal by each of questions 1 to 9, and null lists. Exits with 1 where a figure is another. */
#include "checks.h"

/* E7: E4 with Y = 2, so that cell (1, 1) is missing and accident year 1 has an opening. */
static int64_t cut_payments[JUNIPERPROW_AMOUNTS_LENGTH(3)] = {0, 60, 40, 80, 90, 50};
static int64_t cut_adjustments[JUNIPERPROW_AMOUNTS_LENGTH(3)] = {0, -40, -60, 380, 30, 250};
static int64_t cut_weights[JUNIPERPROW_WEIGHTS_LENGTH(3)] = {0, 1, 1};
static int64_t cut_openings[JUNIPERPROW_OPENINGS_LENGTH(2)] = {200};

static int64_t future[JUNIPERPROW_FUTURE_LENGTH(3)];
static int64_t reserves[JUNIPERPROW_RESERVES_LENGTH(3)];

static void check_cleared(const int64_t *list, size_t count) {
    size_t j;
    for (j = 0; j < count; j++) {
        check("a number of a cleared list", list[j], 0);
    }
}

/* E4: reserves 0, 96 and 114.4 units; the payments of year 3 are 60 and 54.4, its last adjustment is -81.6. */
static void accepted(void) {
    check_verdict("the verdict on E4",
        juniperprow_reserve(3, 1, payments, COUNT(payments), adjustments, COUNT(adjustments), weights, COUNT(weights), NULL, 0,
            future, COUNT(future), reserves, COUNT(reserves)),
        JUNIPERPROW_ACCEPTED, 0, 0);
    check("the paid reserve of year 1", reserves[JUNIPERPROW_RESERVES_AT(1) + JUNIPERPROW_PAID_RESERVE], 0);
    check("the paid reserve of year 2", reserves[JUNIPERPROW_RESERVES_AT(2) + JUNIPERPROW_PAID_RESERVE], 96 * JUNIPERPROW_ONE_UNIT);
    check("the incurred reserve of year 3", reserves[JUNIPERPROW_RESERVES_AT(3) + JUNIPERPROW_INCURRED_RESERVE], 114400000);
    check("the closing of year 3", reserves[JUNIPERPROW_RESERVES_AT(3) + JUNIPERPROW_CLOSING_OUTSTANDING], 0);
    check("the payment of cell (3, 2)", future[JUNIPERPROW_FUTURE_AT(3, 3, 2) + JUNIPERPROW_PAYMENT], 60 * JUNIPERPROW_ONE_UNIT);
    check("the payment of cell (3, 3)", future[JUNIPERPROW_FUTURE_AT(3, 3, 3) + JUNIPERPROW_PAYMENT], 54400000);
    check("the adjustment of cell (3, 3)", future[JUNIPERPROW_FUTURE_AT(3, 3, 3) + JUNIPERPROW_ADJUSTMENT], -81600000);
    check("the outstanding of cell (3, 3)", future[JUNIPERPROW_FUTURE_AT(3, 3, 3) + JUNIPERPROW_OUTSTANDING], 0);
}

/* E7 with one of its numbers changed. A refusal clears both lists. */
static void check_changed(int64_t *changed, int64_t value, int64_t number, int64_t accident_year, int64_t development_year) {
    const int64_t kept = *changed;
    *changed = value;
    check_verdict("the verdict on E7 with a number changed",
        juniperprow_reserve(3, 2, cut_payments, COUNT(cut_payments), cut_adjustments, COUNT(cut_adjustments), cut_weights, COUNT(cut_weights),
            cut_openings, COUNT(cut_openings), future, COUNT(future), reserves, COUNT(reserves)),
        number, accident_year, development_year);
    if (number != JUNIPERPROW_ACCEPTED) {
        check_cleared(future, COUNT(future));
        check_cleared(reserves, COUNT(reserves));
    }
    *changed = kept;
}

/* Questions 4 to 9; null lists have the first three. */
static void refused(void) {
    static const int64_t no_payments[] = {0, 0, 0}, growth[] = {1, 999999999, 1000000000};
    check_changed(&cut_openings[JUNIPERPROW_OPENING_AT(1)], 201, JUNIPERPROW_ACCEPTED, 0, 0);
    check_changed(&cut_weights[JUNIPERPROW_WEIGHT_AT(3, 2, 1)], 101, JUNIPERPROW_QUESTION_WEIGHT_RANGE, 2, 1);
    check_changed(&cut_adjustments[JUNIPERPROW_AMOUNT_AT(3, 2, 1)], 1000000001, JUNIPERPROW_QUESTION_AMOUNT_RANGE, 2, 1);
    check_changed(&cut_payments[JUNIPERPROW_AMOUNT_AT(3, 1, 1)], 1, JUNIPERPROW_QUESTION_AMOUNT_RANGE, 1, 1);
    check_changed(&cut_openings[JUNIPERPROW_OPENING_AT(1)], -1, JUNIPERPROW_QUESTION_OUTSTANDING_RANGE, 1, 1);
    check_changed(&cut_weights[JUNIPERPROW_WEIGHT_AT(3, 1, 1)], 1, JUNIPERPROW_QUESTION_WEIGHT_WHERE_MISSING, 1, 1);
    check_changed(&cut_weights[JUNIPERPROW_WEIGHT_AT(3, 1, 2)], 0, JUNIPERPROW_QUESTION_EXPOSURE_NOT_POSITIVE, 0, 2);
    /* An outstanding that grows from 1 to 1,000,000,000 in a year, applied to one of 1,000,000,000. */
    check_verdict("the verdict on a projected figure",
        juniperprow_reserve(2, 1, no_payments, COUNT(no_payments), growth, COUNT(growth), weights, 1, NULL, 0, future, 3, reserves, 6),
        JUNIPERPROW_QUESTION_PROJECTED_FIGURE_TOO_LARGE, 2, 2);
}

/* Every choice of E4's lists as null with a count of 0, and the number of the question that refuses it. */
static void null_lists(int64_t years, int64_t cut, int64_t number) {
    unsigned chosen;
    size_t j;
    for (chosen = 1; chosen < 32; chosen++) {
        for (j = 0; j < 9; j++) {
            future[j] = reserves[j] = 1;
        }
        check_verdict("the verdict on null lists",
            juniperprow_reserve(years, cut, LIST(chosen, 0, payments), LIST(chosen, 1, adjustments), LIST(chosen, 2, weights), NULL, 0,
                LIST(chosen, 3, future), LIST(chosen, 4, reserves)),
            number, 0, 0);
        check_cleared(LIST(chosen, 3, future));
        check_cleared(LIST(chosen, 4, reserves));
    }
}

int main(void) {
    accepted();
    refused();
    null_lists(1, 1, JUNIPERPROW_QUESTION_NUMBER_OF_YEARS);
    null_lists(3, 0, JUNIPERPROW_QUESTION_CUT);
    null_lists(3, 1, JUNIPERPROW_QUESTION_LIST_LENGTH);
    return finished("the verdicts and figures of both answer lists are document 01's");
}
