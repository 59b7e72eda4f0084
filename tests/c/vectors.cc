// The library as a C++ program calls it, with vectors: an empty one hands over a null pointer and a count of 0.
// Exits with 1 where an answer is another than document 01's.
#include <cstdio>
#include <vector>

#include "juniperprow.h"

using List = std::vector<int64_t>;

static juniperprow_verdict reserve(int64_t years, int64_t cut, const List &payments, const List &adjustments,
    const List &weights, const List &openings, List &future, List &reserves) {
    return juniperprow_reserve(years, cut, payments.data(), payments.size(), adjustments.data(), adjustments.size(),
        weights.data(), weights.size(), openings.data(), openings.size(), future.data(), future.size(), reserves.data(), reserves.size());
}

int main() {
    // E4, whose payment of cell (3, 3) is 54.4 units, and then no list at all.
    constexpr size_t n = 3;
    const List payments{100, 60, 40, 80, 90, 50}, adjustments{300, -40, -60, 380, 30, 250}, weights{1, 1, 1};
    List future(JUNIPERPROW_FUTURE_LENGTH(n)), reserves(JUNIPERPROW_RESERVES_LENGTH(n)), none;
    const juniperprow_verdict accepted = reserve(n, 1, payments, adjustments, weights, none, future, reserves);
    const juniperprow_verdict refused = reserve(n, 1, none, none, none, none, none, none);
    const int64_t payment = future[JUNIPERPROW_FUTURE_AT(n, n, n) + JUNIPERPROW_PAYMENT];
    if (accepted.number != JUNIPERPROW_ACCEPTED || payment != 54400000 || refused.number != JUNIPERPROW_QUESTION_LIST_LENGTH) {
        std::printf("numbers %d and %d, payment %ld\n", (int)accepted.number, (int)refused.number, (long)payment);
        return 1;
    }
    std::printf("calls from C++: empty vectors are answered as lists of length 0\n");
}
