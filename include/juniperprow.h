/*
 * Outstanding-driven reserves of a run-off triangle.
 *
 * Terms
 *
 * There are n accident years, 1 (oldest) to n (youngest), and n development years, 1 to n.
 * The cell (i, k) is accident year i, development year k.
 * It is seen when i + k is at most n + 1, and unseen when i + k is above n + 1.
 * `years` is n and `cut` is Y: cells with i + k at most Y are missing and hold 0, or are blank in a workbook.
 * With Y = 1 nothing is missing.
 *
 * Lists that a call reads, in whole currency units
 *
 *   list         length         order
 *   payments     n (n + 1) / 2  S(i, k) of every seen cell, row after row, oldest accident year first
 *   adjustments  n (n + 1) / 2  T(i, k), the adjustment to the reported amount, in the same order
 *   weights      n (n - 1) / 2  w(i, k) of every cell with i + k at most n, row after row, oldest first
 *   openings     Y - 1          R(i, Y - i), the opening outstandings of i = 1 to Y - 1, oldest first
 *
 * In payments and adjustments the row of accident year i has n + 1 - i numbers,
 * and its first stands at (i - 1) (2 n + 2 - i) / 2, counted from 0.
 * In weights it has n - i numbers, and its first stands at (i - 1) (2 n - i) / 2.
 *
 * Lists that a workbook has besides
 *
 *   list              length         order
 *   payment_kinds     n (n + 1) / 2  of every payment, in its order: 0 where it is blank, 1 where it is a number
 *   adjustment_kinds  n (n + 1) / 2  of every adjustment, likewise
 *
 * Its payments and adjustments are 64-bit floating numbers that have to be whole; minus zero is 0.
 * Every missing cell has to be blank, and no other; the floating number beside a blank is not read.
 *
 * Lists that a call writes, in millionths of a unit
 *
 *   list         length           order
 *   future       3 n (n - 1) / 2  payment, adjustment, outstanding of every unseen cell with k at most n,
 *                                 row after row, oldest accident year first
 *   reserves     3 n              paid-based reserve, incurred-based reserve, closing outstanding
 *                                 of every accident year, oldest first
 *
 * In future the three numbers of the cell (i, k) start at
 * 3 ((i - 1) (i - 2) / 2 + k - (n + 2 - i)), counted from 0.
 *
 * The list that a call writes in place of reserves where it reads a workbook
 *
 *   list           length  order
 *   reserve_pairs  6 n     every number of reserves, in its order, as a pair of 64-bit floating numbers:
 *                          whole units, then the remaining millionths
 *
 * The whole units are rounded down, so that 0 to 999,999 millionths remain: -333,333 millionths are -1 and 666,667.
 * Both numbers are exact, and no zero is minus zero.
 *
 * Verdicts
 *
 * The questions are asked in the order of this table, each list in its order; the first no decides.
 * The place is the cell (accident_year, development_year).
 * Every number but 0 is a refusal; a later version may have numbers beyond these.
 *
 *   number  what is wrong                                                            place
 *   0       nothing, the call is accepted                                            (0, 0)
 *   1       n is not from 2 to 32                                                    (0, 0)
 *   2       Y is not from 1 to n - 1                                                 (0, 0)
 *   3       a list, read or written, does not have its length                        (0, 0)
 *   4       a weight is not from 0 to 100                                            its cell
 *   11      only for a workbook: the kind of a payment, or else of an adjustment,
 *           is above 1                                                               its cell
 *   12      only for a workbook: a payment, or else an adjustment, is a number
 *           that is not finite and whole                                             its cell
 *   13      only for a workbook: a payment, or else an adjustment, is blank where
 *           i + k is above Y, or a number where the cell is missing                  its cell
 *   5       a payment, or else an adjustment, is not from -1,000,000,000 to
 *           1,000,000,000, or is not 0 where the cell is missing                     its cell
 *   6       an opening or an observed outstanding is not from 0 to 1,000,000,000     its cell
 *   7       a weight is not 0 where i + k is at most Y                               its cell
 *   8       the exposure D(k) of a development year is not above 0                   (0, k)
 *   9       a projected payment, adjustment or outstanding is above
 *           10,000,000,000 units in size                                             its cell
 *   10      only for a single cell or a row: the cell is not an unseen one with
 *           i from 2 to n and k at most n, or the accident year is not from 1 to n   (0, 0)
 *
 * What a caller sees to
 *
 * Any numbers and any counts may be passed, infinities and NaN too: the call tests them, and nothing needs to be tested beforehand.
 * Each pointer must be aligned and valid for its count of numbers, for writing as well where the list is written.
 * Where a count is 0 the pointer may be null: nothing is read or written through it,
 * which is proved of the engine's source and tested of the compiled library.
 * The two answer lists must not overlap each other or any other list.
 * Where a workbook is read, the processor must be in the floating-point mode that C starts in:
 * rounding to nearest, and subnormal numbers not taken for zero (as -ffast-math and some thread libraries set it).
 *
 * What a call keeps to
 *
 * Nothing is allocated, and nothing is kept when the call returns.
 * A call uses less than 8,192 bytes of stack on x86-64, with what memcpy and memset of the C library use,
 * but juniperprow_workbook_reserve uses less than 16,384 bytes.
 * tools/stack measures that on accepted and refused triangles of every n. Signal handlers, and a loader that looks up those two in the first call, use stack besides.
 * Lists that a call reads are not altered.
 * Calls may run at the same time. They may read the same lists, but each writes answer lists of its own.
 */
#ifndef JUNIPERPROW_H
#define JUNIPERPROW_H

#include <stddef.h>
#include <stdint.h>

#ifdef __cplusplus
extern "C" {
#endif

/* The version of these declarations. */
#define JUNIPERPROW_VERSION_MAJOR 0
#define JUNIPERPROW_VERSION_MINOR 2
#define JUNIPERPROW_VERSION_PATCH 0

/* The smallest and the largest number of accident years n. */
#define JUNIPERPROW_SMALLEST_YEARS INT64_C(2)
#define JUNIPERPROW_LARGEST_YEARS INT64_C(32)

/* One currency unit in millionths. */
#define JUNIPERPROW_ONE_UNIT INT64_C(1000000)

/*
 * The lengths of the lists, and where a figure stands in its list, counted from 0.
 * Years and cells must be such as the list has; nothing is tested here.
 * With constant arguments each is a constant expression. An argument may be evaluated more than once.
 */
#define JUNIPERPROW_AMOUNTS_LENGTH(n) ((n) * ((n) + 1) / 2)
#define JUNIPERPROW_WEIGHTS_LENGTH(n) ((n) * ((n) - 1) / 2)
#define JUNIPERPROW_OPENINGS_LENGTH(cut) ((cut) - 1)
#define JUNIPERPROW_FUTURE_LENGTH(n) (3 * JUNIPERPROW_WEIGHTS_LENGTH(n))
#define JUNIPERPROW_RESERVES_LENGTH(n) (3 * (n))
#define JUNIPERPROW_RESERVE_PAIRS_LENGTH(n) (6 * (n))

/* In payments and adjustments and their kinds, in weights, and in openings. */
#define JUNIPERPROW_AMOUNT_AT(n, i, k) (((i) - 1) * (2 * (n) + 2 - (i)) / 2 + (k) - 1)
#define JUNIPERPROW_WEIGHT_AT(n, i, k) (((i) - 1) * (2 * (n) - (i)) / 2 + (k) - 1)
#define JUNIPERPROW_OPENING_AT(i) ((i) - 1)

/* In future: where the three numbers of the cell (i, k) start, and which of them is which. */
#define JUNIPERPROW_FUTURE_AT(n, i, k) (3 * (((i) - 1) * ((i) - 2) / 2 + (k) + (i) - (n) - 2))
enum { JUNIPERPROW_PAYMENT, JUNIPERPROW_ADJUSTMENT, JUNIPERPROW_OUTSTANDING };

/* In reserves: where the three numbers of accident year i start, and which of them is which. */
#define JUNIPERPROW_RESERVES_AT(i) (3 * ((i) - 1))
enum { JUNIPERPROW_PAID_RESERVE, JUNIPERPROW_INCURRED_RESERVE, JUNIPERPROW_CLOSING_OUTSTANDING };

/*
 * In reserve_pairs: where the six numbers of accident year i start, and which number of a pair is which.
 * The pair of the closing outstanding stands 2 * JUNIPERPROW_CLOSING_OUTSTANDING behind that start, and the others likewise.
 */
#define JUNIPERPROW_RESERVE_PAIRS_AT(i) (6 * ((i) - 1))
enum { JUNIPERPROW_UNITS, JUNIPERPROW_MILLIONTHS };

/* The kinds of a workbook's cell. */
enum { JUNIPERPROW_BLANK = 0, JUNIPERPROW_NUMBER = 1 };

/* The numbers of the questions, as the table of verdicts has them. */
enum {
    JUNIPERPROW_ACCEPTED = 0,
    JUNIPERPROW_QUESTION_NUMBER_OF_YEARS = 1,
    JUNIPERPROW_QUESTION_CUT = 2,
    JUNIPERPROW_QUESTION_LIST_LENGTH = 3,
    JUNIPERPROW_QUESTION_WEIGHT_RANGE = 4,
    JUNIPERPROW_QUESTION_AMOUNT_RANGE = 5,
    JUNIPERPROW_QUESTION_OUTSTANDING_RANGE = 6,
    JUNIPERPROW_QUESTION_WEIGHT_WHERE_MISSING = 7,
    JUNIPERPROW_QUESTION_EXPOSURE_NOT_POSITIVE = 8,
    JUNIPERPROW_QUESTION_PROJECTED_FIGURE_TOO_LARGE = 9,
    JUNIPERPROW_QUESTION_CELL_OR_ACCIDENT_YEAR = 10,
    JUNIPERPROW_QUESTION_KIND_UNKNOWN = 11,
    JUNIPERPROW_QUESTION_NUMBER_NOT_WHOLE = 12,
    JUNIPERPROW_QUESTION_BLANK_OR_NUMBER_MISPLACED = 13
};

/* The number of the question that was answered with no, or 0, and the place. */
typedef struct {
    int64_t number;
    int64_t accident_year;
    int64_t development_year;
} juniperprow_verdict;

/* The verdict on a single cell, and its three figures in millionths of a unit. */
typedef struct {
    juniperprow_verdict verdict;
    int64_t payment;
    int64_t adjustment;
    int64_t outstanding;
} juniperprow_cell;

/*
 * Projects the triangle and fills both answer lists. Asks questions 1 to 9.
 * On refusal every number of both answer lists is 0, whatever their counts.
 */
juniperprow_verdict juniperprow_reserve(
    int64_t years, int64_t cut,
    const int64_t *payments, size_t payments_count,
    const int64_t *adjustments, size_t adjustments_count,
    const int64_t *weights, size_t weights_count,
    const int64_t *openings, size_t openings_count,
    int64_t *future, size_t future_count,
    int64_t *reserves, size_t reserves_count);

/*
 * Projects the triangle of a workbook and fills both answer lists, with the figures of juniperprow_reserve.
 * Asks questions 1 to 4, then 11 to 13 of the cells, then 5 to 9 of the numbers that they hold.
 * On refusal every number of both answer lists is 0, and none minus zero, whatever their counts.
 */
juniperprow_verdict juniperprow_workbook_reserve(
    int64_t years, int64_t cut,
    const uint8_t *payment_kinds, size_t payment_kinds_count,
    const double *payments, size_t payments_count,
    const uint8_t *adjustment_kinds, size_t adjustment_kinds_count,
    const double *adjustments, size_t adjustments_count,
    const int64_t *weights, size_t weights_count,
    const int64_t *openings, size_t openings_count,
    int64_t *future, size_t future_count,
    double *reserve_pairs, size_t reserve_pairs_count);

/*
 * Answers one unseen cell alone, with the same three figures as in the future list.
 * Asks questions 1 to 9 of the whole triangle, then question 10 of the cell.
 * On refusal the three figures are 0.
 */
juniperprow_cell juniperprow_single_cell(
    int64_t years, int64_t cut,
    const int64_t *payments, size_t payments_count,
    const int64_t *adjustments, size_t adjustments_count,
    const int64_t *weights, size_t weights_count,
    const int64_t *openings, size_t openings_count,
    int64_t accident_year, int64_t development_year);

/*
 * Says whether the seen figures of one accident year can be taken from the two lists.
 * Asks questions 1, 3 and 10; the amounts themselves are not tested.
 * When accepted, the row is the part of either list that the table above describes.
 */
juniperprow_verdict juniperprow_row_verdict(
    int64_t years,
    const int64_t *payments, size_t payments_count,
    const int64_t *adjustments, size_t adjustments_count,
    int64_t accident_year);

#ifdef __cplusplus
}
#endif

#endif
