/* The call for one unseen cell alone: a cell of E4, one that is seen, and null lists. Exits with 1 where a figure is another. */
#include "checks.h"

static void check_figures(juniperprow_cell cell, int64_t payment, int64_t adjustment, int64_t outstanding) {
    check("its payment", cell.payment, payment);
    check("its adjustment", cell.adjustment, adjustment);
    check("its outstanding", cell.outstanding, outstanding);
}

static juniperprow_cell cell_of_e4(int64_t accident_year, int64_t development_year) {
    return juniperprow_single_cell(3, 1, payments, COUNT(payments), adjustments, COUNT(adjustments), weights, COUNT(weights), NULL, 0,
        accident_year, development_year);
}

/* Every choice of E4's lists as null with a count of 0, and the number of the question that refuses it. */
static void null_lists(int64_t years, int64_t cut, int64_t number) {
    unsigned chosen;
    for (chosen = 1; chosen < 8; chosen++) {
        const juniperprow_cell cell =
            juniperprow_single_cell(years, cut, LIST(chosen, 0, payments), LIST(chosen, 1, adjustments), LIST(chosen, 2, weights), NULL, 0, 3, 3);
        check_verdict("the verdict on a cell of null lists", cell.verdict, number, 0, 0);
        check_figures(cell, 0, 0, 0);
    }
}

int main(void) {
    const juniperprow_cell answered = cell_of_e4(3, 3), seen = cell_of_e4(3, 1);
    check_verdict("the verdict on cell (3, 3) alone", answered.verdict, JUNIPERPROW_ACCEPTED, 0, 0);
    check_figures(answered, 54400000, -81600000, 0);
    check_verdict("the verdict on cell (3, 1) alone", seen.verdict, JUNIPERPROW_QUESTION_CELL_OR_ACCIDENT_YEAR, 0, 0);
    check_figures(seen, 0, 0, 0);
    null_lists(1, 1, JUNIPERPROW_QUESTION_NUMBER_OF_YEARS);
    null_lists(3, 0, JUNIPERPROW_QUESTION_CUT);
    null_lists(3, 1, JUNIPERPROW_QUESTION_LIST_LENGTH);
    return finished("the verdicts and figures of a single cell are document 01's");
}
