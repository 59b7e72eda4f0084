#!/usr/bin/env python3
"""Prints what crates/runner must print, or with --cases the cases that it reads.

    tools/runner_stdout.py --cases > crates/runner/stdin
    tools/runner_stdout.py > crates/runner/stdout

Every answer comes from document_01.py, which works document 01 with exact fractions. Nothing of the engine is run.
"""
import sys

from document_01 import UNIT, figures, rows

LEAST, GREATEST = -2**63, 2**63 - 1
BILLION = 1_000_000_000
S1, T1 = [100, 60, 50], [200, -40, 130]
S4, T4 = [100, 60, 40, 80, 90, 50], [300, -40, -60, 380, 30, 250]
S7, T7, W7 = [0] + S4[1:], [0] + T4[1:], [0, 1, 1]
E4 = 3, 1, S4, T4, [1, 1, 1], []

CASES, LINES = [], []


# ---- A case, and the line that it must print

def case(call, tried, *fields, answer):
    CASES.append("|".join([call, tried] + [" ".join(map(str, field)) for field in fields]))
    LINES.append(f"{tried}: {answer}")


def amount(millionths):
    """In units with six decimals, and a comma between thousands."""
    sign = "-" if millionths < 0 else ""
    return f"{sign}{abs(millionths) // UNIT:,}.{abs(millionths) % UNIT:06}"


def refused(number, place):
    return f"refused by {number} at ({place[0]}, {place[1]})"


def accepted(names, values):
    return "accepted" + "".join(f", {name} {amount(value)}" for name, value in zip(names, values))


def reserve(tried, n, y, payments, adjustments, weights, openings, future=None, reserves=None, year=None):
    """The call that fills both lists. Prints an accident year's reserves, the youngest's unless said."""
    future = 3 * len(weights) if future is None else future
    reserves = 3 * (len(payments) - len(weights)) if reserves is None else reserves
    at = 3 * year - 3 if year else max(reserves - 3, 0)
    number, place, lists = figures(n, y, payments, adjustments, weights, openings, future, reserves)
    names = "paid", "incurred", "closing"
    answer = refused(number, place) + ", all zeros" if number else accepted(names, lists[1][at:at + 3])
    case("reserve", tried, [n, y], payments, adjustments, weights, openings, [future, reserves, at], answer=answer)


def cell(of, n, y, payments, adjustments, weights, openings, i, k):
    number, place, lists = figures(n, y, payments, adjustments, weights, openings, 3 * n * (n - 1) // 2, 3 * n)
    unseen = [(row, year) for row in range(2, n + 1) for year in range(n + 2 - row, n + 1)]
    if number == 0 and (i, k) not in unseen:
        number = 10
    if number:
        answer = refused(number, place) + ", all zeros"
    else:
        at = 3 * unseen.index((i, k))
        answer = accepted(("payment", "adjustment", "outstanding"), lists[0][at:at + 3])
    case("cell", f"{of}, cell ({i}, {k})", [n, y], payments, adjustments, weights, openings, [i, k], answer=answer)


def row(tried, n, payments, adjustments, named, i):
    length = n * (n + 1) // 2
    lengths_right = len(payments) == length and len(adjustments) == length
    number = 1 if not 2 <= n <= 32 else 3 if not lengths_right else 10 if not 1 <= i <= n else 0
    listed = rows({"payments": payments, "adjustments": adjustments}[named], n) if number == 0 else {}
    numbers = " ".join(f"{value:,}" for cell_of, value in listed.items() if cell_of[0] == i)
    answer = refused(number, (0, 0)) + ", empty" if number else f"accepted, {numbers}"
    case(named, tried, [n], payments, adjustments, [], [], [i], answer=answer)


# ---- Triangles

def cells(m):
    """The cells of m rows of m, m - 1, ... cells."""
    return [(i, k) for i in range(1, m + 1) for k in range(1, m + 2 - i)]


def full(n):
    """A full triangle: payments from 0 to 10, adjustments from 10 to 22, weights from 0 to 100."""
    payments = [37 * j % 11 for j in range(n * (n + 1) // 2)]
    adjustments = [10 + 37 * j % 13 for j in range(n * (n + 1) // 2)]
    weights = [(20 + 37 * j) % 101 for j in range(n * (n - 1) // 2)]
    return n, 1, payments, adjustments, weights, []


def only_last_diagonals(n):
    """The full triangle with Y = n - 1: openings, and the two newest diagonals."""
    _, _, payments, adjustments, _, _ = full(n)
    known = [i + k >= n for i, k in cells(n)]
    return (n, n - 1, [s * seen for s, seen in zip(payments, known)], [t * seen for t, seen in zip(adjustments, known)],
            [int(i + k == n) for i, k in cells(n - 1)], [1000 + i for i in range(1, n - 1)])


def greatest(n):
    """Every outstanding and weight at its greatest, and so D(1), P(1) and Q(1)."""
    payments = [BILLION * (k == 2) for _, k in cells(n)]
    adjustments = [BILLION * (k <= 2) for _, k in cells(n)]
    return n, 1, payments, adjustments, [100] * (n * (n - 1) // 2), []


# ---- The number of years, and the cut

reserve("n = 1", 1, 1, [5], [5], [], [])
reserve("n = 2", 2, 1, S1, T1, [1], [])
for year in (2, 17, 32):
    reserve(f"n = 32, accident year {year}", *full(32), year=year)
reserve("n = 32, greatest outstandings and weights", *greatest(32))
reserve("n = 33", *full(33))
for n in (0, -2, LEAST, GREATEST):
    reserve(f"n = {n}", n, 1, S1, T1, [1], [])

reserve("n = 3, Y = 0", 3, 0, S4, T4, [1, 1, 1], [])
reserve("n = 3, Y = 1", 3, 1, S4, T4, [1, 1, 1], [])
reserve("n = 3, Y = 2", 3, 2, S7, T7, W7, [200])
reserve("n = 3, Y = 3", 3, 3, S7, T7, W7, [200, 100])
reserve("n = 32, Y = 31", *only_last_diagonals(32))
for y in (-1, LEAST, GREATEST):
    reserve(f"n = 3, Y = {y}", 3, y, S4, T4, [1, 1, 1], [])

# ---- The range of a weight, an amount, an outstanding and a projected figure

for weight in (-1, 0, 100, 101, LEAST, GREATEST):
    reserve(f"w(1, 1) = {weight}", 3, 1, S4, T4, [weight, 1, 1], [])
for weight in (-1, 0, 100, 101):
    reserve(f"w(2, 1) = {weight}", 3, 1, S4, T4, [1, 1, weight], [])

for payment in (BILLION, BILLION + 1):
    reserve(f"S(1, 2) = {payment:,}", 2, 1, [0, payment, 0], [BILLION, 0, 5], [1], [])
for payment in (-BILLION, -BILLION - 1):
    reserve(f"S(1, 1) = {payment:,}", 2, 1, [payment, 0, 0], [0, 0, 5], [1], [])
for adjustment in (BILLION, BILLION + 1):
    reserve(f"T(1, 1) = {adjustment:,}", 2, 1, [0, 0, 0], [adjustment, 0, 5], [1], [])
for adjustment in (-BILLION, -BILLION - 1):
    reserve(f"T(1, 2) = {adjustment:,}", 2, 1, [0, 0, 0], [BILLION, adjustment, 5], [1], [])
for extreme in (LEAST, GREATEST):
    reserve(f"S(2, 1) = {extreme:,}", 2, 1, [0, 0, extreme], [100, 0, 5], [1], [])
    reserve(f"T(2, 1) = {extreme:,}", 2, 1, [0, 0, 0], [100, 0, extreme], [1], [])

for opening, adjustment in (-1, 5), (0, 5), (BILLION, -5), (BILLION + 1, -5), (LEAST, 5), (GREATEST, -5):
    reserve(f"opening {opening:,}", 3, 2, [0, 0, 1, 0, 0, 0], [0, adjustment, -1, 40, 0, 50], W7, [opening], year=2)
for outstanding in (-1, 0, BILLION, BILLION + 1):
    reserve(f"R(1, 2) = {outstanding:,}", 2, 1, [0, 0, 0], [100, outstanding - 100, 50], [1], [])

# With D(1) = 1,000,000 the next payment is exactly the outstanding times S(1, 2), in millionths.
# 100,000,000 × 100,000,000 is the limit in millionths, and 101,596,577 × 98,428,513 is one more.
# No accepted triangle projects an outstanding near the limit with a minus sign.
for where, outstanding, large, small in (
    ("at the limit", 100_000_000, 100_000_000, 99_000_000),
    ("one millionth beyond", 101_596_577, 98_428_513, 97_428_513),
):
    for figure, payment, adjustment in (
        ("payment", large, small),
        ("negative payment", -large, -small),
        ("adjustment", small, large),
        ("negative adjustment", -small, -large),
        ("outstanding", 0, small),
    ):
        reserve(f"{figure} {where}", 2, 1, [0, payment, 0], [UNIT, adjustment, outstanding], [1], [])

# ---- The lengths of the lists of E7, and the refusals that are left

for text, *lengths in (
    ("5 payments, of 6", 5, 6, 3, 1, 9, 9),
    ("7 payments, of 6", 7, 6, 3, 1, 9, 9),
    ("5 adjustments, of 6", 6, 5, 3, 1, 9, 9),
    ("7 adjustments, of 6", 6, 7, 3, 1, 9, 9),
    ("2 weights, of 3", 6, 6, 2, 1, 9, 9),
    ("4 weights, of 3", 6, 6, 4, 1, 9, 9),
    ("no opening, of 1", 6, 6, 3, 0, 9, 9),
    ("2 openings, of 1", 6, 6, 3, 2, 9, 9),
    ("every list of its length", 6, 6, 3, 1, 9, 9),
    ("8 future figures, of 9", 6, 6, 3, 1, 8, 9),
    ("10 future figures, of 9", 6, 6, 3, 1, 10, 9),
    ("8 reserves, of 9", 6, 6, 3, 1, 9, 8),
    ("10 reserves, of 9", 6, 6, 3, 1, 9, 10),
    ("1,584 future figures and 99 reserves, of 9 and 9", 6, 6, 3, 1, 1584, 99),
    ("no list at all", 0, 0, 0, 0, 0, 0),
):
    lists = [numbers[:m] for numbers, m in zip((S7 + [0], T7 + [0], W7 + [1], [200, 0]), lengths)]
    reserve(text, 3, 2, *lists, *lengths[4:])

reserve("missing S(1, 1) = 100", 3, 2, S4, T7, W7, [200])
reserve("missing T(1, 1) = 300", 3, 2, S7, T4, W7, [200])
reserve("missing w(1, 1) = 1", 3, 2, S7, T7, [1, 1, 1], [200])
reserve("R(3, 1) = -1", 3, 1, S4, T4[:5] + [49], [1, 1, 1], [])
reserve("D(1) = 0", 3, 1, S4, T4, [0, 1, 0], [])
reserve("D(2) = 0", 3, 1, S4, T4, [1, 0, 1], [])
# The outstandings of development year 4 are a thousand times those of year 3.
for text, youngest in ("every row within the limit", 10_000_000), ("the last row beyond the limit", 10_000_001):
    reserve(text, 4, 1, [0] * 10, [1, 0, 0, 999, 10, 0, 0, 20, 0, youngest], [1] * 6, [])

# ---- Single cells

for i, k in (
    (1, 3), (1, 4), (2, 2), (2, 3), (2, 4), (3, 1), (3, 2), (3, 3), (3, 4), (4, 1), (4, 2), (4, 3), (0, 3), (3, 0), (-3, 2), (3, -2),
    (LEAST, LEAST), (LEAST, 3), (3, LEAST), (GREATEST, GREATEST), (GREATEST, 3), (3, GREATEST), (LEAST, GREATEST), (GREATEST, LEAST),
):
    cell("E4", *E4, i, k)
for i, k in (2, 32), (32, 2), (32, 32):
    cell("n = 32", *full(32), i, k)
cell("E7", 3, 2, S7, T7, W7, [200], 3, 3)
cell("n = 33", 33, 1, S4, T4, [1, 1, 1], [], 3, 3)
cell("n = 3, Y = 3", 3, 3, S4, T4, [1, 1, 1], [], 3, 3)
cell("5 payments, of 6", 3, 1, S4[:5], T4, [1, 1, 1], [], 3, 3)
cell("w(1, 2) = 101", 3, 1, S4, T4, [1, 101, 1], [], 3, 3)
cell("S(2, 1) = 1,000,000,001", 3, 1, S4[:3] + [BILLION + 1] + S4[4:], T4, [1, 1, 1], [], 3, 3)
cell("R(3, 1) = -1", 3, 1, S4, T4[:5] + [49], [1, 1, 1], [], 3, 3)
cell("missing w(1, 1) = 1", 3, 2, S7, T7, [1, 1, 1], [200], 3, 3)
cell("D(1) = 0", 3, 1, S4, T4, [0, 1, 0], [], 9, 9)
cell("the last row beyond the limit", 4, 1, [0] * 10, [1, 0, 0, 999, 10, 0, 0, 20, 0, 10_000_001], [1] * 6, [], 2, 4)

# ---- Rows

for named in ("payments", "adjustments"):
    for i in (0, 1, 2, 3, 4, LEAST, GREATEST):
        row(f"E4, {named} of year {i}", 3, S4, T4, named, i)
_, _, S32, T32, _, _ = full(32)
row("n = 32, payments of year 31", 32, S32, T32, "payments", 31)
row("n = 32, adjustments of year 32", 32, S32, T32, "adjustments", 32)
row("n = 32, payments of year 33", 32, S32, T32, "payments", 33)
# A row's numbers have no range, so this also shows that the program reads and prints every 64-bit number.
row("n = 2, payments of year 1", 2, [LEAST, GREATEST, 0], T1, "payments", 1)
row("n = 1, payments of year 1", 1, [5], [5], "payments", 1)
row("n = 33, payments of year 0", 33, S4, T4, "payments", 0)
row("3 payments, of 6, adjustments of year 4", 3, S1, T4, "adjustments", 4)
row("3 adjustments, of 6, payments of year 1", 3, S4, T1, "payments", 1)

# ---- Example 1 of the 2008 paper, which the program holds itself: tables 4 and 5, cumulated, and the last column of table 6

TABLE_4 = """
1.216.632 1.347.072 1.786.877 2.281.606 2.656.224 2.909.307 3.283.388 3.587.549 3.754.403 3.921.258
798.924 1.051.912 1.215.785 1.349.939 1.655.312 1.926.210 2.132.833 2.287.311 2.567.056
1.115.636 1.387.387 1.930.867 2.177.002 2.513.171 2.931.930 3.047.368 3.182.511
1.052.161 1.321.206 1.700.132 1.971.303 2.298.349 2.645.113 3.003.425
808.864 1.029.523 1.229.626 1.590.338 1.842.662 2.150.351
1.016.862 1.251.420 1.698.052 2.105.143 2.385.339
948.312 1.108.791 1.315.524 1.487.577
917.530 1.082.426 1.484.405
1.001.238 1.376.124
841.930
"""
TABLE_5 = """
3.362.115 5.217.243 4.754.900 4.381.677 4.136.883 4.094.140 4.018.736 3.971.591 3.941.391 3.921.258
2.640.443 4.643.860 3.869.954 3.248.558 3.102.002 3.019.980 2.976.064 2.946.941 2.919.955
2.879.697 4.785.531 4.045.448 3.467.822 3.377.540 3.341.934 3.283.928 3.257.827
2.933.345 5.299.146 4.451.963 3.700.809 3.553.391 3.469.505 3.413.921
2.768.181 4.658.933 3.936.455 3.512.735 3.385.129 3.298.998
3.228.439 5.271.304 4.484.946 3.798.384 3.702.427
2.927.033 5.067.768 4.066.526 3.704.113
3.083.429 4.790.944 4.408.097
2.761.163 4.132.757
3.045.376
"""
TABLE_6 = "0 314.902 66.994 359.384 981.883 1.115.768 1.786.947 1.942.518 1.569.657 2.590.718"


def numbers_of(text):
    return [int(word.replace(".", "")) for word in text.split()]


def differences(table):
    """What each development year adds, row after row."""
    cumulated = [numbers_of(line) for line in table.strip().split("\n")]
    return [now - before for line in cumulated for before, now in zip([0] + line, line)]


number, _, lists = figures(10, 1, differences(TABLE_4), differences(TABLE_5), [1] * 45, [], 135, 30)
LINES.append("Example 1: " + ("refused" if number else "accepted"))
for i, (paper, computed) in enumerate(zip(numbers_of(TABLE_6), lists[1][::3]), 1):
    within = "within 10" if abs(computed - paper * UNIT) <= 10 * UNIT else "not within 10"
    LINES.append(f"Example 1, accident year {i}: paper {amount(paper * UNIT)}, computed {amount(computed)}, {within}")

print("\n".join(CASES if sys.argv[1:] == ["--cases"] else LINES))
