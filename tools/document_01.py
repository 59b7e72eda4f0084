"""Document 01 worked with exact fractions, independently of the definitions in crates/method."""
from fractions import Fraction
from math import floor

UNIT = 1_000_000
LIMIT = 10_000_000_000 * UNIT
HALF = Fraction(1, 2)


def rows(values, m):
    """A list of m rows of m, m - 1, ... cells as a dictionary by (i, k)."""
    cells = [(i, k) for i in range(1, m + 1) for k in range(1, m + 2 - i)]
    return dict(zip(cells, values))


def first_year(y, i):
    """The year at whose end row i's outstanding is first known."""
    return y - i if i < y else 0


def outstandings(n, y, s, t, openings):
    """R(i, k) by cell, in the order in which question 6 asks; R(i, 0) = 0 of a later row is not asked and comes in too."""
    r = {}
    for i in range(1, n + 1):
        first = first_year(y, i)
        r[i, first] = openings[i - 1] if i < y else 0
        for k in range(first + 1, n + 2 - i):
            r[i, k] = r[i, k - 1] - s[i, k] + t[i, k]
    return r


def sums(n, s, t, w, r, k):
    """P(k), Q(k) and D(k). A product with weight 0 counts 0, also where R is unknown."""
    counted = [i for i in range(1, n - k + 1) if w[i, k] != 0]
    return tuple(sum(w[i, k] * x[i, year] for i in counted) for x, year in ((s, k + 1), (t, k + 1), (r, k)))


def half_up(x):
    return floor(x + HALF)


def figures(n, y, payments, adjustments, weights, openings, future, reserves):
    """The number, the place, and both lists where the call is accepted."""
    if not 2 <= n <= 32:
        return 1, (0, 0), None
    if not 1 <= y <= n - 1:
        return 2, (0, 0), None
    wanted = [n * (n + 1) // 2, n * (n + 1) // 2, n * (n - 1) // 2, y - 1, 3 * n * (n - 1) // 2, 3 * n]
    if [len(payments), len(adjustments), len(weights), len(openings), future, reserves] != wanted:
        return 3, (0, 0), None
    s, t, w = rows(payments, n), rows(adjustments, n), rows(weights, n - 1)
    for cell, weight in w.items():
        if not 0 <= weight <= 100:
            return 4, cell, None
    for amounts in (s, t):
        for cell, amount in amounts.items():
            if abs(amount) > 1_000_000_000 or (sum(cell) <= y and amount != 0):
                return 5, cell, None
    r = outstandings(n, y, s, t, openings)
    for cell, outstanding in r.items():
        if not 0 <= outstanding <= 1_000_000_000:
            return 6, cell, None
    for cell, weight in w.items():
        if sum(cell) <= y and weight != 0:
            return 7, cell, None
    ratios = {k: sums(n, s, t, w, r, k) for k in range(1, n)}
    for k, (_, _, d) in ratios.items():
        if d <= 0:
            return 8, (0, k), None
    written, reserved = [], []
    for i in range(1, n + 1):
        outstanding = r[i, n + 1 - i] * UNIT
        paid, incurred = 0, outstanding
        for k in range(n + 1 - i, n):
            p, q, d = ratios[k]
            payment = half_up(Fraction(outstanding * p, d))
            adjustment = half_up(Fraction(outstanding * q, d))
            outstanding += adjustment - payment
            if max(abs(payment), abs(adjustment), abs(outstanding)) > LIMIT:
                return 9, (i, k + 1), None
            paid += payment
            incurred += adjustment
            written += [payment, adjustment, outstanding]
        reserved += [paid, incurred, outstanding]
    return 0, (0, 0), (written, reserved)


def unrounded(n, y, payments, adjustments, weights, openings):
    """For an accepted triangle both lists of the unrounded method, and both of the allowances."""
    s, t, w = rows(payments, n), rows(adjustments, n), rows(weights, n - 1)
    r = outstandings(n, y, s, t, openings)
    exact, allowed = ([], []), ([], [])
    for i in range(1, n + 1):
        u, a = Fraction(r[i, n + 1 - i] * UNIT), Fraction(0)
        paid, incurred, paid_allowed, incurred_allowed = Fraction(0), u, Fraction(0), Fraction(0)
        for k in range(n + 1 - i, n):
            p, q, d = sums(n, s, t, w, r, k)
            payment, adjustment = u * p / d, u * q / d
            payment_allowed, adjustment_allowed = a * abs(p) / d + HALF, a * abs(q) / d + HALF
            u, a = u - payment + adjustment, a * (d - p + q) / d + 1
            exact[0].extend([payment, adjustment, u])
            allowed[0].extend([payment_allowed, adjustment_allowed, a])
            paid, incurred = paid + payment, incurred + adjustment
            paid_allowed, incurred_allowed = paid_allowed + payment_allowed, incurred_allowed + adjustment_allowed
        exact[1].extend([paid, incurred, u])
        allowed[1].extend([paid_allowed, incurred_allowed, a])
    return exact, allowed


def keeps_allowances(lists, exact, allowed):
    """Whether every figure of both lists is within its allowance of the unrounded method."""
    return all(
        abs(figure - target) <= allowance
        for kept in zip(lists, exact, allowed)
        for figure, target, allowance in zip(*kept)
    )
