/* The header's lengths and places against cells counted in the order of the lists. Exits with 1 where one is another. */
#include "checks.h"

int main(void) {
    int n, i, k;
    for (n = JUNIPERPROW_SMALLEST_YEARS; n <= JUNIPERPROW_LARGEST_YEARS; n++) {
        int amounts = 0, weighted = 0, projected = 0, paired = 0;
        for (i = 1; i <= n; i++) {
            check("where the pairs of an accident year start", JUNIPERPROW_RESERVE_PAIRS_AT(i), paired);
            paired += 2 * (JUNIPERPROW_RESERVES_AT(i + 1) - JUNIPERPROW_RESERVES_AT(i));
            for (k = 1; k <= n; k++) {
                if (i + k > n + 1) {
                    check("where a future figure stands", JUNIPERPROW_FUTURE_AT(n, i, k), 3 * projected++);
                } else {
                    check("where an amount stands", JUNIPERPROW_AMOUNT_AT(n, i, k), amounts++);
                }
                if (i + k <= n) {
                    check("where a weight stands", JUNIPERPROW_WEIGHT_AT(n, i, k), weighted++);
                }
            }
        }
        check("the length of payments", JUNIPERPROW_AMOUNTS_LENGTH(n), amounts);
        check("the length of weights", JUNIPERPROW_WEIGHTS_LENGTH(n), weighted);
        check("the length of future", JUNIPERPROW_FUTURE_LENGTH(n), 3 * projected);
        check("the length of reserve pairs", JUNIPERPROW_RESERVE_PAIRS_LENGTH(n), paired);
    }
    return finished("the header's lengths and places are those of the lists");
}
