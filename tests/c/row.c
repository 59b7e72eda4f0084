/* The verdict on one accident year's row: rows of E4, and null lists. Exits with 1 where a figure is another. */
#include "checks.h"

static juniperprow_verdict row_of_e4(int64_t accident_year) {
    return juniperprow_row_verdict(3, payments, COUNT(payments), adjustments, COUNT(adjustments), accident_year);
}

/* Every choice of E4's lists as null with a count of 0, and the number of the question that refuses it. */
static void null_lists(int64_t years, int64_t number) {
    unsigned chosen;
    for (chosen = 1; chosen < 4; chosen++) {
        check_verdict("the verdict on a row of null lists",
            juniperprow_row_verdict(years, LIST(chosen, 0, payments), LIST(chosen, 1, adjustments), 1), number, 0, 0);
    }
}

int main(void) {
    check_verdict("the verdict on row 3", row_of_e4(3), JUNIPERPROW_ACCEPTED, 0, 0);
    check_verdict("the verdict on row 4", row_of_e4(4), JUNIPERPROW_QUESTION_CELL_OR_ACCIDENT_YEAR, 0, 0);
    null_lists(1, JUNIPERPROW_QUESTION_NUMBER_OF_YEARS);
    null_lists(3, JUNIPERPROW_QUESTION_LIST_LENGTH);
    return finished("the verdicts on a row are document 01's");
}
