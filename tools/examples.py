#!/usr/bin/env python3
"""Prints the number, the place, both answer lists, the unrounded reserves and the reserve list's allowances of each
example in crates/method/specs/Examples.antt and OtherReadings.antt.

This is where the figures that document 01 does not print come from. Nothing in the gate runs it.
"""
from document_01 import figures, unrounded


def example(name, n, payments, adjustments, weights=None, y=1, openings=(), future=None, reserves=None):
    future = 3 * n * (n - 1) // 2 if future is None else future
    reserves = 3 * n if reserves is None else reserves
    weights = [1] * (n * (n - 1) // 2) if weights is None else weights
    number, place, lists = figures(n, y, payments, adjustments, weights, list(openings), future, reserves)
    print(f"{name}: {number} at {place}")
    if lists:
        print("  future  ", *lists[0])
        print("  reserves", *lists[1])
        exact, allowed = unrounded(n, y, payments, adjustments, weights, list(openings))
        print("  exact   ", *exact[1])
        print("  allowed ", *allowed[1])


def changed(values, at, value):
    return values[:at] + [value] + values[at + 1:]


S1, T1 = [100, 60, 50], [200, -40, 130]
S4, T4 = [100, 60, 40, 80, 90, 50], [300, -40, -60, 380, 30, 250]
S7, T7 = changed(S4, 0, 0), changed(T4, 0, 0)
ZEROS = [0] * 10
W4 = [0, 0, 1, 0, 1, 1]
S14 = [0, 0, 10, 5, 0, 20, 8, 30, 12, 40]
T14 = [0, 0, 4, -1, 0, 25, -3, 90, -10, 95]

example("E1", 2, S1, T1)
example("E2", 2, [0, 129, 0], [128, 1, 1])
example("E3", 2, [0, 127, 0], [128, -1, 1])
example("E4", 3, S4, T4)
example("E5", 3, S4, changed(T4, 2, -50))
example("E6", 3, S4, T4, [0, 1, 1])
example("E7", 3, S7, T7, [0, 1, 1], 2, [200])
example("E8", 3, S4, T4, [0, 1, 0])
example("E9", 2, S1, changed(T1, 0, 99))
example("E10", 2, [0, 0, 0], [1, 999_999_999, 10])
example("E11", 2, [0, 0, 0], [1, 999_999_999, 11])
example("E12", 3, S7, T7, [1, 1, 1], 2, [200])

example("X13: question 6 before question 7", 3, S7, T7, [1, 1, 1], 2, [-1])
example("X14: a cut of 3 with openings", 4, S14, T14, W4, 3, [50, 60])
example("X15: payments before adjustments", 3, changed(S4, 5, 1_000_000_001), changed(T4, 0, -1_000_000_001))
example("X16: missing before range, in list order", 4, changed(changed(ZEROS, 1, 7), 2, 1_000_000_001), ZEROS, W4, 3, [50, 60])
example("X17: range before missing, in list order", 4, changed(changed(ZEROS, 2, 1_000_000_001), 4, 7), ZEROS, W4, 3, [50, 60])
example("X18: row by row, not openings first", 4, changed(ZEROS, 2, 51), ZEROS, W4, 3, [50, -60])
example("X19: an opening, at its place", 4, ZEROS, ZEROS, W4, 3, [-50, 60])
example("X20: the payment alone too large", 2, [0, 909_090_910, 0], [1, 909_090_909, 11])
example("X21: the adjustment alone too large", 2, [0, 909_090_909, 0], [1, 909_090_910, 11])
example("X22: the outstanding alone too large", 2, [0, 0, 0], [1, 909_090_909, 11])
example("X23: a late row", 3, [0, 0, 0, 0, 0, 0], [1, 0, 0, 1, 999_999_999, 21])
example("X24: years out of range with wrong lists", 33, [], [], [], 0, [], 2, 1)
example("X25: the least 64-bit number of years", -2**63, [], [], [], -2**63, [], 0, 3)
example("X26: cut n", 2, S1, T1, None, 2, [5])
example("X27: the future list one short", 2, S1, T1, None, 1, [], 2, 6)
example("X28: a weight above 100", 3, S4, T4, [1, 101, 1])
example("X29: the least 64-bit payment", 2, [100, -2**63, 50], T1)
example("X30: one year", 1, [5], [5])
example("X31: the most years, cut 0", 32, [], [], [], 0, [], 0, 0)
example("X32: a weight below 0", 3, S4, T4, [1, 1, -1])
example("X33: both ends of an amount", 2, [-10**9, 0, 10**9], [0, -10**9, 10**9], [100])
example("X34: a payment one below the least", 2, changed(S1, 0, -10**9 - 1), T1)
example("X35: an outstanding one above the greatest", 2, [-1, 0, 0], [10**9, 0, 0])
example("X36: an opening one above the greatest", 4, ZEROS, ZEROS, W4, 3, [10**9, 10**9 + 1])
example("X37: a payment one millionth above the limit", 2, [0, 98_428_513, 0], [1_000_000, 97_428_513, 101_596_577])
example("X38: question 4 before question 5", 2, changed(S1, 0, 10**9 + 1), T1, [101])
example("X39: question 7 before question 8", 3, S7, T7, [1, 0, 1], 2, [200])
example("X40: no exposure in the last year", 3, S4, T4, [1, 0, 1])
example("X41: a weight too few", 3, S4, T4, [1, 1])
example("X42: an opening too many", 3, S4, T4, [1, 1, 1], 1, [0])
example("X43: the reserve list one too long", 2, S1, T1, None, 1, [], 3, 7)
example("X44: question 3 before question 4", 3, S4, T4, [101, 1])
example("X45: question 8 before question 9", 3, [0, 0, 0, 0, 0, 0], [1, 0, 0, 1, 999_999_999, 21], [1, 0, 1])
example("X46: question 9 row by row", 3, [0] * 6, [1, 0, 999_999_999, 1, 30, 10**9])
example("X47: both shares at the limit", 2, [0, 10**9, 0], [1, 10**9, 10])
example("X48: both shares at the limit, negative", 2, [0, -10**9, 0], [1, -10**9, 10])
example("X49: a negative payment too large", 2, [0, -909_090_910, 0], [1, -909_090_909, 11])
example("X50: a negative adjustment too large", 2, [0, -909_090_909, 0], [1, -909_090_910, 11])
example("X51: negative years", -3, S4, T4, [1, 1, 1], 1, [], 9, 9)
example("X52: a negative cut", 2, S1, T1, None, -1)
example("X53: weights of 2, 1 and 3", 3, S4, T4, [2, 1, 3])
example("X54: the same with a negative payment", 3, changed(S4, 2, -40), T4, [2, 1, 3])
example("X55: halves of endless ratios", 2, [0, -1, 0], [384, 5, 3])
example("X56: products past 64 bits", 2, [0, 400_000_000, 0], [10**9, -500_000_000, 10**9])
example("X57: an adjustment one millionth above the limit", 2, [0, 97_428_513, 0], [1_000_000, 98_428_513, 101_596_577])
example("X58: an outstanding one millionth above the limit", 2, [0, 0, 0], [1_000_000, 97_428_513, 101_596_577])
example("X59: a payment one millionth below the least", 2, [0, -98_428_513, 0], [1_000_000, -97_428_513, 101_596_577])
example("X60: question 9 in a second year", 3, [0] * 6, [1, 0, 999_999_999, 1, 0, 11])
example("X61: question 9 year by year", 3, [0, 0, 2, 0, 0, 0], [1, 0, 1, 1, 999_999_999, 20])
example("X62: a payment too few", 2, [100, 60], T1)
example("X63: a payment too many", 2, S1 + [0], T1)
example("X64: an adjustment too few", 2, S1, [200, -40])
example("X65: an adjustment too many", 2, S1, T1 + [0])
example("X66: a weight too many", 3, S4, T4, [1, 1, 1, 1])
example("X67: an opening too few", 3, S7, T7, [0, 1, 1], 2)
example("X68: the future list one too long", 2, S1, T1, None, 1, [], 4, 6)
example("X69: the reserve list one short", 2, S1, T1, None, 1, [], 3, 5)
example("X70: weights row by row", 3, S4, T4, [1, 101, -1])
example("X71: adjustments row by row", 3, S4, changed(changed(T4, 1, 10**9 + 1), 3, -10**9 - 1))
example("X72: an adjustment one below the least, in the last row", 3, S4, changed(T4, 5, -10**9 - 1))
example("X73: a missing payment below 0", 4, changed(ZEROS, 1, -7), ZEROS, W4, 3, [50, 60])
example("X74: a missing adjustment", 4, ZEROS, changed(ZEROS, 4, 7), W4, 3, [50, 60])
example("X75: the outstanding of the youngest year", 3, S4, changed(T4, 5, 49))
example("X76: an opening of 0", 3, S7, changed(T7, 1, 160), [0, 1, 1], 2, [0])
example("X77: an outstanding of 0 before the last year", 3, S4, changed(changed(T4, 0, 100), 1, 160), [0, 1, 1])
example("X78: a weight in a later missing row", 4, ZEROS, ZEROS, [0, 0, 1, 1, 1, 1], 3, [50, 60])
example("X79: missing weights row by row", 4, ZEROS, ZEROS, [0, 1, 1, 1, 1, 1], 3, [50, 60])
example("X80: no exposure in any year", 3, S4, T4, [0, 0, 0])
example("X81: reserves and outstandings from rounded movements", 3, [0, 1, 2, 0, 0, 0], [3, -1, 2, 0, 0, 1])
example("X82: no exposure in a middle year", 4, ZEROS, [10, 0, 0, 0, 10, 0, 0, 10, 0, 10], [1, 0, 1, 1, 0, 1])
example("X83: question 9 in a middle year", 4, changed(ZEROS, 3, 500_000_000), [1, 0, 999_999_999, -500_000_000, 0, 0, 0, 0, 0, 11])
example("X84: question 9 in a middle row", 4, changed(ZEROS, 3, 500_000_000), [1, 0, 999_999_999, -500_000_000, 0, 0, 0, 11, 0, 0])
