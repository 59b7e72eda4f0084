/* The call on a workbook: E1, E4, E7 and E10, pairs below 0, a refusal by each question, the order of 11 to 13, lengths and null lists. Exits with 1 where a figure is another. */
#include <math.h>
#include <string.h>

#include "checks.h"

/* More than any list of three years has. */
enum { ROOM = JUNIPERPROW_RESERVE_PAIRS_LENGTH(3) + 2 };

/* What the answer lists hold before a call, byte by byte. */
enum { UNWRITTEN = 0xa5 };

/* What a call lends, and its answer lists. */
typedef struct {
    int64_t years, cut;
    uint8_t payment_kinds[ROOM], adjustment_kinds[ROOM];
    double payments[ROOM], adjustments[ROOM];
    int64_t weights[ROOM], openings[ROOM], future[ROOM];
    double reserve_pairs[ROOM];
    size_t payment_kinds_count, payments_count, adjustment_kinds_count, adjustments_count, weights_count, openings_count;
    size_t future_count, reserve_pairs_count;
} workbook;

static workbook lent;

/* ---- Workbooks ---- */

/* Weights 1, every list with its length, and a blank at every missing cell. */
static void lend(int n, int cut, const double *payments, const double *adjustments) {
    size_t j;
    int i, k;
    memset(&lent, 0, sizeof lent);
    lent.years = n;
    lent.cut = cut;
    lent.payment_kinds_count = lent.payments_count = lent.adjustment_kinds_count = lent.adjustments_count = JUNIPERPROW_AMOUNTS_LENGTH(n);
    lent.weights_count = JUNIPERPROW_WEIGHTS_LENGTH(n);
    lent.openings_count = JUNIPERPROW_OPENINGS_LENGTH(cut);
    lent.future_count = JUNIPERPROW_FUTURE_LENGTH(n);
    lent.reserve_pairs_count = JUNIPERPROW_RESERVE_PAIRS_LENGTH(n);
    memcpy(lent.payments, payments, lent.payments_count * sizeof payments[0]);
    memcpy(lent.adjustments, adjustments, lent.adjustments_count * sizeof adjustments[0]);
    for (j = 0; j < lent.weights_count; j++) {
        lent.weights[j] = 1;
    }
    for (i = 1; i <= n; i++) {
        for (k = 1; i + k <= n + 1; k++) {
            const uint8_t kind = i + k > cut ? JUNIPERPROW_NUMBER : JUNIPERPROW_BLANK;
            lent.payment_kinds[JUNIPERPROW_AMOUNT_AT(n, i, k)] = lent.adjustment_kinds[JUNIPERPROW_AMOUNT_AT(n, i, k)] = kind;
        }
    }
}

static void lend_e4(void) {
    static const double e4_payments[] = {100, 60, 40, 80, 90, 50}, e4_adjustments[] = {300, -40, -60, 380, 30, 250};
    lend(3, 1, e4_payments, e4_adjustments);
}

/* E7: cell (1, 1) is missing and has weight 0, and accident year 1 has an opening. */
static void lend_e7(void) {
    static const double e7_payments[] = {0, 60, 40, 80, 90, 50}, e7_adjustments[] = {0, -40, -60, 380, 30, 250};
    lend(3, 2, e7_payments, e7_adjustments);
    lent.weights[JUNIPERPROW_WEIGHT_AT(3, 1, 1)] = 0;
    lent.openings[JUNIPERPROW_OPENING_AT(1)] = 200;
}

/* Where the cell (i, k) of a workbook of three years stands. */
static size_t at(int i, int k) {
    return (size_t)JUNIPERPROW_AMOUNT_AT(3, i, k);
}

/* ---- The call ---- */

/* A list and its count, or a null list with a count of 0 where the bit of `nulls` at this place is set. */
#define LENT(place, list) nulls >> (place) & 1 ? NULL : lent.list, nulls >> (place) & 1 ? 0 : lent.list##_count

static juniperprow_verdict call(unsigned nulls) {
    memset(lent.future, UNWRITTEN, sizeof lent.future);
    memset(lent.reserve_pairs, UNWRITTEN, sizeof lent.reserve_pairs);
    return juniperprow_workbook_reserve(lent.years, lent.cut, LENT(0, payment_kinds), LENT(1, payments), LENT(2, adjustment_kinds), LENT(3, adjustments),
        LENT(4, weights), LENT(5, openings), LENT(6, future), LENT(7, reserve_pairs));
}

/* All bytes are the same; zeros are then 0 and not minus zero. */
static void check_bytes(const char *what, const void *bytes, size_t count, int expected) {
    size_t j;
    for (j = 0; j < count; j++) {
        check(what, ((const unsigned char *)bytes)[j], expected);
    }
}

/* The answer lists hold zeros up to these counts and are left alone behind them. */
static void check_cleared(size_t future_count, size_t reserve_pairs_count) {
    check_bytes("a byte of a cleared future list", lent.future, future_count * sizeof lent.future[0], 0);
    check_bytes("a byte behind the future list", lent.future + future_count, (ROOM - future_count) * sizeof lent.future[0], UNWRITTEN);
    check_bytes("a byte of cleared pairs", lent.reserve_pairs, reserve_pairs_count * sizeof lent.reserve_pairs[0], 0);
    check_bytes("a byte behind the pairs", lent.reserve_pairs + reserve_pairs_count, (ROOM - reserve_pairs_count) * sizeof lent.reserve_pairs[0], UNWRITTEN);
}

static void check_refused(const char *what, int64_t number, int64_t accident_year, int64_t development_year) {
    check_verdict(what, call(0), number, accident_year, development_year);
    check_cleared(lent.future_count, lent.reserve_pairs_count);
}

/* Both lists are these, the pairs bit by bit. */
static void check_accepted(const char *what, const int64_t *expected_future, const double *expected_pairs) {
    size_t j;
    check_verdict(what, call(0), JUNIPERPROW_ACCEPTED, 0, 0);
    for (j = 0; j < lent.future_count; j++) {
        check("a number of its future list", lent.future[j], expected_future[j]);
    }
    for (j = 0; j < lent.reserve_pairs_count; j++) {
        check("a bit of a number of its pairs", memcmp(&lent.reserve_pairs[j], &expected_pairs[j], sizeof expected_pairs[j]), 0);
    }
}

/* ---- Accepted workbooks ---- */

/* E1: payment 48, adjustment -32, closing 0. E4: reserves 0, 96 and 114.4. E7: the future list of E6, whose last reserves are 124. And closings above 0. */
static void examples(void) {
    static const double e1_payments[] = {100, 60, 50}, e1_adjustments[] = {200, -40, 130};
    static const int64_t e1_future[] = {48000000, -32000000, 0};
    static const double e1_pairs[] = {0, 0, 0, 0, 0, 0, 48, 0, 48, 0, 0, 0};
    static const int64_t e4_future[] = {96000000, -144000000, 0, 60000000, -4000000, 136000000, 54400000, -81600000, 0};
    static const double e4_pairs[] = {0, 0, 0, 0, 0, 0, 96, 0, 96, 0, 0, 0, 114, 400000, 114, 400000, 0, 0};
    /* By the payments 90 and adjustments 30 of accident year 2 on its 300, and by 40 and -60 on 100. */
    static const int64_t e7_future[] = {96000000, -144000000, 0, 60000000, 20000000, 160000000, 64000000, -96000000, 0};
    static const double e7_pairs[] = {0, 0, 0, 0, 0, 0, 96, 0, 96, 0, 0, 0, 124, 0, 124, 0, 0, 0};
    /* E10: accident year 1 stays at 1,000,000,000, and 10 becomes 10,000,000,000. */
    static const double e10_payments[] = {0, 0, 0}, e10_adjustments[] = {1, 999999999, 10};
    static const int64_t e10_future[] = {0, INT64_C(9999999990000000), INT64_C(10000000000000000)};
    static const double e10_pairs[] = {0, 0, 1e9, 0, 1e9, 0, 0, 0, 1e10, 0, 1e10, 0};
    /* Accident year 1 falls from 3 to 1, so that -666,666 2/3 millionths are rounded on the 1 of year 2, and 333,333 stay open. */
    static const double third_adjustments[] = {3, -2, 1};
    static const int64_t third_future[] = {0, -666667, 333333};
    static const double third_pairs[] = {0, 0, 1, 0, 1, 0, 0, 0, 0, 333333, 0, 333333};
    lend(2, 1, e1_payments, e1_adjustments);
    check_accepted("the verdict on E1", e1_future, e1_pairs);
    lend_e4();
    check_accepted("the verdict on E4", e4_future, e4_pairs);
    check("the millionths of year 3's paid reserve",
        (int64_t)lent.reserve_pairs[JUNIPERPROW_RESERVE_PAIRS_AT(3) + 2 * JUNIPERPROW_PAID_RESERVE + JUNIPERPROW_MILLIONTHS], 400000);
    lend_e7();
    check_accepted("the verdict on E7", e7_future, e7_pairs);
    lend(2, 1, e10_payments, e10_adjustments);
    check_accepted("the verdict on E10", e10_future, e10_pairs);
    lend(2, 1, e10_payments, third_adjustments);
    check_accepted("the verdict on a closing of a third", third_future, third_pairs);

    /* What stands beside a blank is not read. */
    lend_e7();
    lent.payments[at(1, 1)] = NAN;
    lent.adjustments[at(1, 1)] = -INFINITY;
    check_accepted("the verdict on E7 with no number beside a blank", e7_future, e7_pairs);
    lent.payments[at(1, 1)] = 0.5;
    lent.adjustments[at(1, 1)] = 1e300;
    check_accepted("the verdict on E7 with other numbers beside a blank", e7_future, e7_pairs);
}

/*
 * Two years: the older pays -1 on its outstanding D, and -D - 1 closes it; the younger has 1.
 * Both reserves of the younger are then -1 / D units, which count down to the pair, and its closing is 0.
 * Payments that are minus zero are 0.
 */
static void pairs_below_zero(void) {
    static const struct {
        double outstanding;
        int64_t paid;
        double units, millionths;
    } rows[] = {{1, -1000000, -1, 0}, {2, -500000, -1, 500000}, {3, -333333, -1, 666667}, {1000000, -1, -1, 999999}};
    size_t j;
    for (j = 0; j < COUNT(rows); j++) {
        const double paid[] = {-0.0, -1, -0.0}, adjusted[] = {rows[j].outstanding, -rows[j].outstanding - 1, 1};
        const int64_t future[] = {rows[j].paid, rows[j].paid - JUNIPERPROW_ONE_UNIT, 0};
        const double pairs[] = {0, 0, 0, 0, 0, 0, rows[j].units, rows[j].millionths, rows[j].units, rows[j].millionths, 0, 0};
        lend(2, 1, paid, adjusted);
        check_accepted("the verdict on a reserve below 0", future, pairs);
    }
}

/* ---- Refused workbooks ---- */

/* E7 with one number changed, and what refuses it. */
static void check_payment(int i, int k, double payment, int64_t number) {
    lend_e7();
    lent.payments[at(i, k)] = payment;
    check_refused("the verdict on E7 with another payment", number, i, k);
}

static void check_adjustment(int i, int k, double adjustment, int64_t number) {
    lend_e7();
    lent.adjustments[at(i, k)] = adjustment;
    check_refused("the verdict on E7 with another adjustment", number, i, k);
}

/* Questions 4 to 9 as they are asked of other triangles; null lists have the first three. */
static void refused_as_others(void) {
    static const double no_payments[] = {0, 0, 0}, growth[] = {1, 999999999, 11};
    lend_e7();
    lent.weights[JUNIPERPROW_WEIGHT_AT(3, 2, 1)] = 101;
    check_refused("the verdict on a weight of 101", JUNIPERPROW_QUESTION_WEIGHT_RANGE, 2, 1);
    check_payment(2, 2, 1000000001, JUNIPERPROW_QUESTION_AMOUNT_RANGE);
    check_adjustment(3, 1, -1000000001, JUNIPERPROW_QUESTION_AMOUNT_RANGE);
    /* In range, so that it is the outstanding which is not. */
    check_payment(2, 2, 1000000000, JUNIPERPROW_QUESTION_OUTSTANDING_RANGE);
    lend_e7();
    lent.openings[JUNIPERPROW_OPENING_AT(1)] = -1;
    check_refused("the verdict on an opening of -1", JUNIPERPROW_QUESTION_OUTSTANDING_RANGE, 1, 1);
    lend_e7();
    lent.weights[JUNIPERPROW_WEIGHT_AT(3, 1, 1)] = 1;
    check_refused("the verdict on E12", JUNIPERPROW_QUESTION_WEIGHT_WHERE_MISSING, 1, 1);
    lend_e7();
    lent.weights[JUNIPERPROW_WEIGHT_AT(3, 1, 2)] = 0;
    check_refused("the verdict on an exposure of 0", JUNIPERPROW_QUESTION_EXPOSURE_NOT_POSITIVE, 0, 2);
    lend(2, 1, no_payments, growth);
    check_refused("the verdict on E11", JUNIPERPROW_QUESTION_PROJECTED_FIGURE_TOO_LARGE, 2, 2);
}

/* A whole number that is too large is left to question 5: beyond 1,000,000,000, beyond 53 bits, at both ends of 64 bits and far beyond. */
static void too_large(void) {
    static const double large[] = {1000000001, 9007199254740992.0, 9007199254740994.0, 9223372036854774784.0, 9223372036854775808.0,
        18446744073709551616.0, 36893488147419103232.0, 1e300};
    size_t j;
    for (j = 0; j < COUNT(large); j++) {
        check_payment(1, 2, large[j], JUNIPERPROW_QUESTION_AMOUNT_RANGE);
        check_payment(3, 1, -large[j], JUNIPERPROW_QUESTION_AMOUNT_RANGE);
        check_adjustment(2, 1, large[j], JUNIPERPROW_QUESTION_AMOUNT_RANGE);
        check_adjustment(1, 3, -large[j], JUNIPERPROW_QUESTION_AMOUNT_RANGE);
    }
}

/* Question 12: 4503599627370495.5 is the largest number that is not whole, and 4.9e-324 the smallest above 0. */
static void not_whole(void) {
    const double wrong[] = {0.5, -0.5, 0.99999999999999989, 999999999.5, 4503599627370495.5, -4503599627370495.5, 4.9e-324, 2.2e-308,
        INFINITY, -INFINITY, NAN, -NAN};
    size_t j;
    for (j = 0; j < COUNT(wrong); j++) {
        check_payment(1, 2, wrong[j], JUNIPERPROW_QUESTION_NUMBER_NOT_WHOLE);
        check_adjustment(3, 1, wrong[j], JUNIPERPROW_QUESTION_NUMBER_NOT_WHOLE);
    }
}

/* Questions 11 and 13, each by one kind of E7. */
static void check_kind(uint8_t *kinds, int i, int k, uint8_t kind, int64_t number) {
    kinds[at(i, k)] = kind;
    check_refused("the verdict on E7 with another kind", number, i, k);
}

static void wrong_kinds(void) {
    static const uint8_t unknown[] = {2, 3, 127, 128, 255};
    size_t j;
    for (j = 0; j < COUNT(unknown); j++) {
        lend_e7();
        check_kind(lent.payment_kinds, 2, 1, unknown[j], JUNIPERPROW_QUESTION_KIND_UNKNOWN);
        lend_e7();
        check_kind(lent.adjustment_kinds, 1, 1, unknown[j], JUNIPERPROW_QUESTION_KIND_UNKNOWN);
    }
    /* A blank where i + k is above Y, though a 0 there would be accepted. */
    lend_e7();
    check_kind(lent.payment_kinds, 1, 2, JUNIPERPROW_BLANK, JUNIPERPROW_QUESTION_BLANK_OR_NUMBER_MISPLACED);
    lend_e7();
    check_kind(lent.adjustment_kinds, 3, 1, JUNIPERPROW_BLANK, JUNIPERPROW_QUESTION_BLANK_OR_NUMBER_MISPLACED);
    /* A number at a missing cell, also where it is 0. */
    lend_e7();
    check_kind(lent.payment_kinds, 1, 1, JUNIPERPROW_NUMBER, JUNIPERPROW_QUESTION_BLANK_OR_NUMBER_MISPLACED);
    lend_e7();
    lent.adjustments[at(1, 1)] = -0.0;
    check_kind(lent.adjustment_kinds, 1, 1, JUNIPERPROW_NUMBER, JUNIPERPROW_QUESTION_BLANK_OR_NUMBER_MISPLACED);
}

/* Each of questions 4, 11, 12, 13 and 5 before the next, though the next would refuse a place that stands earlier; and payments before adjustments. */
static void order_of_questions(void) {
    lend_e7();
    lent.weights[JUNIPERPROW_WEIGHT_AT(3, 2, 1)] = -1;
    lent.payment_kinds[at(1, 1)] = 2;
    check_refused("the verdict on a weight before a kind", JUNIPERPROW_QUESTION_WEIGHT_RANGE, 2, 1);

    lend_e7();
    lent.adjustment_kinds[at(3, 1)] = 2;
    lent.payments[at(1, 2)] = 0.5;
    check_refused("the verdict on a kind before a number", JUNIPERPROW_QUESTION_KIND_UNKNOWN, 3, 1);
    lent.payment_kinds[at(3, 1)] = 2;
    lent.adjustment_kinds[at(1, 1)] = 2;
    check_refused("the verdict on a payment's kind before an adjustment's", JUNIPERPROW_QUESTION_KIND_UNKNOWN, 3, 1);
    lent.payment_kinds[at(1, 3)] = 2;
    check_refused("the verdict on the first of two kinds", JUNIPERPROW_QUESTION_KIND_UNKNOWN, 1, 3);

    lend_e7();
    lent.adjustments[at(3, 1)] = 0.5;
    lent.payment_kinds[at(1, 2)] = JUNIPERPROW_BLANK;
    check_refused("the verdict on a number before a blank", JUNIPERPROW_QUESTION_NUMBER_NOT_WHOLE, 3, 1);
    lent.payments[at(2, 2)] = NAN;
    check_refused("the verdict on a payment before an adjustment", JUNIPERPROW_QUESTION_NUMBER_NOT_WHOLE, 2, 2);
    lent.payments[at(2, 1)] = INFINITY;
    check_refused("the verdict on the first of two payments", JUNIPERPROW_QUESTION_NUMBER_NOT_WHOLE, 2, 1);

    lend_e7();
    lent.adjustment_kinds[at(3, 1)] = JUNIPERPROW_BLANK;
    lent.payments[at(1, 2)] = 1000000001;
    check_refused("the verdict on a blank before an amount", JUNIPERPROW_QUESTION_BLANK_OR_NUMBER_MISPLACED, 3, 1);
    lent.payment_kinds[at(2, 2)] = JUNIPERPROW_BLANK;
    check_refused("the verdict on a blank payment before a blank adjustment", JUNIPERPROW_QUESTION_BLANK_OR_NUMBER_MISPLACED, 2, 2);
    lent.payment_kinds[at(1, 1)] = JUNIPERPROW_NUMBER;
    check_refused("the verdict on the first of two misplaced", JUNIPERPROW_QUESTION_BLANK_OR_NUMBER_MISPLACED, 1, 1);

    lend_e7();
    lent.payments[at(1, 2)] = 1e300;
    lent.adjustments[at(2, 1)] = 0.5;
    check_refused("the verdict on a half before an amount", JUNIPERPROW_QUESTION_NUMBER_NOT_WHOLE, 2, 1);

    /* At one cell: a kind above 1 beside no number, and no number at a missing cell. */
    lend_e7();
    lent.payments[at(1, 1)] = NAN;
    lent.payment_kinds[at(1, 1)] = 2;
    check_refused("the verdict on a kind beside no number", JUNIPERPROW_QUESTION_KIND_UNKNOWN, 1, 1);
    lent.payment_kinds[at(1, 1)] = JUNIPERPROW_NUMBER;
    check_refused("the verdict on no number at a missing cell", JUNIPERPROW_QUESTION_NUMBER_NOT_WHOLE, 1, 1);
}

/* Each list of E7 one longer and one shorter than its length. */
static void wrong_lengths(void) {
    size_t *counts[] = {&lent.payment_kinds_count, &lent.payments_count, &lent.adjustment_kinds_count, &lent.adjustments_count,
        &lent.weights_count, &lent.openings_count, &lent.future_count, &lent.reserve_pairs_count};
    size_t j;
    for (j = 0; j < COUNT(counts); j++) {
        lend_e7();
        ++*counts[j];
        check_refused("the verdict on a list that is too long", JUNIPERPROW_QUESTION_LIST_LENGTH, 0, 0);
        lend_e7();
        --*counts[j];
        check_refused("the verdict on a list that is too short", JUNIPERPROW_QUESTION_LIST_LENGTH, 0, 0);
    }
}

/* Every choice of E7's lists as null with a count of 0, and the number of the question that refuses it. */
static void null_lists(int64_t years, int64_t cut, int64_t number) {
    unsigned nulls;
    for (nulls = 1; nulls < 256; nulls++) {
        lend_e7();
        lent.years = years;
        lent.cut = cut;
        check_verdict("the verdict on null lists", call(nulls), number, 0, 0);
        check_cleared(nulls >> 6 & 1 ? 0 : lent.future_count, nulls >> 7 & 1 ? 0 : lent.reserve_pairs_count);
    }
}

int main(void) {
    examples();
    pairs_below_zero();
    refused_as_others();
    too_large();
    not_whole();
    wrong_kinds();
    order_of_questions();
    wrong_lengths();
    null_lists(1, 2, JUNIPERPROW_QUESTION_NUMBER_OF_YEARS);
    null_lists(33, 2, JUNIPERPROW_QUESTION_NUMBER_OF_YEARS);
    null_lists(3, 0, JUNIPERPROW_QUESTION_CUT);
    null_lists(3, 3, JUNIPERPROW_QUESTION_CUT);
    null_lists(3, 2, JUNIPERPROW_QUESTION_LIST_LENGTH);
    return finished("the verdicts, figures and pairs of a workbook are those of documents 01 and 02");
}
