#!/usr/bin/env python3
"""Writes random texts of triangles, each with what the program reserve must print for it, and counts the outcomes.

    tools/random_texts.py SEED COUNT FOLDER

The texts are FOLDER/0001.csv and so on, the answers FOLDER/0001.expected.
About a third of the texts are as they should be. Each of the others has one fault: a number that a question refuses,
a mistake such as a spreadsheet or a hand makes in the rows and headings, or a mutation of the text's lines or bytes.
"""
import re
import sys
from collections import Counter, namedtuple
from dataclasses import dataclass
from pathlib import Path
from random import Random

from reserve_output import BYTE_ORDER_MARK, GREATEST, LEAST, LONGEST_TEXT, MOST_OPENINGS, printed

LIMIT = 1_000_000_000
FAULTLESS, REFUSED, MISTAKEN = 0.35, 0.25, 0.25  # the parts of the texts; the rest is mutated
TELLING_NUMBERS = [LEAST, LEAST + 1, -LIMIT - 1, -LIMIT, -1, 0, 1, 100, 101, LIMIT, LIMIT + 1, GREATEST - 1, GREATEST]
TELLING_CELLS = [
    "#REF!", "#N/A", "#DIV/0!", "####", "#", "# 5", "#5", "5# net", '"100"', '"1,000"', '"1,000', '" 1,0 "5', '""', '"', "(40)", "(1,000)", "\N{MINUS SIGN}40", "\N{EN DASH}40",
    "NA", "n/a", "ten", "e", "1E+06", "-1e6", "5 E", "100.00", "1,000", "1.000", "1'000", "1 000", "1\N{NO-BREAK SPACE}000", "+5", "--5", "-", ".", "5\t6",
    "", "-0", "007", "9" * 19, "-" + "9" * 40, "x" * 40, "7" * 39 + ".", "7" * 40 + ".", "\x01\x7f", "*", "?",
]
TELLING_BYTES = b"0123456789-+.,;\t #\r\n\0aZ_\"'()\xa0\xb2\xc3\xd9\xe2\xef\xff"


@dataclass
class Triangle:
    """Its lists row by row, None where a cell is missing. Without weights the list is None, without an asked cell the years are."""
    n: int
    cut: int
    payments: list
    adjustments: list
    weights: list
    openings: list
    asked: tuple


# A heading's words, and the cells of the rows under it.
Block = namedtuple("Block", "words rows")


# ---- The numbers of a triangle

def random_triangle(chance):
    n = chance.randint(2, 6) if chance.random() < 0.6 else chance.randint(2, 32)
    cut = chance.randint(2, n - 1) if n > 2 and chance.random() < 0.5 else 1
    payments, adjustments, openings = amounts(chance, n, cut)
    weights = weights_of(chance, n, cut) if chance.random() < 0.5 else None
    asked = unseen_cell(chance, n) if chance.random() < 0.2 else None
    return Triangle(n, cut, payments, adjustments, weights, openings, asked)


def amounts(chance, n, cut):
    """The rows of payments and of adjustments, and the openings. Every outstanding is in its range."""
    largest = 10 ** chance.choice([1, 3, 5, 6, 7, 8, 9, 9])
    wild = chance.random() < 0.15
    payments, adjustments, openings = [], [], []
    for i in range(1, n + 1):
        outstanding = chance.randint(0, largest) if i < cut else 0
        if i < cut:
            openings.append(outstanding)
        moved = [(None, None)] * max(0, min(cut - i, n + 1 - i))
        for k in range(len(moved) + 1, n + 2 - i):
            payment, adjustment = movement(chance, k, outstanding, largest, wild)
            outstanding += adjustment - payment
            moved.append((payment, adjustment))
        payments.append([payment for payment, _ in moved])
        adjustments.append([adjustment for _, adjustment in moved])
    return payments, adjustments, openings


def movement(chance, k, outstanding, largest, wild):
    if k == 1 or wild:
        adjustment = chance.randint(-outstanding, largest - outstanding) // chance.choice([1, 1000, largest])
        adjustment = max(adjustment, -outstanding)
    else:
        adjustment = chance.randint(-outstanding // 6, (largest - outstanding) // 20)
    left = outstanding + adjustment
    if chance.random() < 0.05:
        return chance.randint(left - largest, 0), adjustment
    return chance.randint(0, left // chance.choice([2, 3, 10])), adjustment


def weights_of(chance, n, cut):
    low, high = chance.choice([(1, 1), (0, 1), (0, 100), (1, 100)])
    return [[None if i + k <= cut else chance.randint(low, high) for k in range(1, n - i + 1)] for i in range(1, n)]


def unseen_cell(chance, n):
    i = chance.randint(2, n)
    return i, chance.randint(n + 2 - i, n)


# ---- What the questions refuse: each of these tells whether the triangle has a place for it

def replaced(chance, rows, numbers, missing=False):
    """One of the numbers in place of one that is there, or of one that is missing."""
    cells = [(row, at) for row in rows or [] for at, number in enumerate(row) if (number is None) == missing]
    if cells:
        row, at = chance.choice(cells)
        row[at] = chance.choice(numbers)
    return bool(cells)


def size_beyond(chance, triangle):
    """Question 1."""
    triangle.n = chance.choice([0, 1, 33, 34, 100])
    triangle.payments = triangle.adjustments = [[5]] * triangle.n
    return True


def cut_beyond(chance, triangle):
    """Question 2."""
    triangle.cut = chance.choice([0, -1, triangle.n, triangle.n + 1, 1000, LEAST, GREATEST])
    return True


def list_too_short(chance, triangle):
    """Question 3."""
    short = chance.choice([triangle.adjustments, triangle.weights or triangle.adjustments])
    del short[chance.randrange(len(short)):]
    return True


def openings_of_another_number(chance, triangle):
    """Question 3."""
    count = chance.choice([0, 1, triangle.cut, MOST_OPENINGS])
    triangle.openings = [chance.randint(0, 100) for _ in range(count)]
    return count != triangle.cut - 1


def weight_beyond(chance, triangle):
    """Question 4."""
    triangle.weights = triangle.weights or weights_of(chance, triangle.n, triangle.cut)
    return replaced(chance, triangle.weights, [-1, 101, 1000, LEAST, GREATEST], missing=chance.random() < 0.2)


def amount_beyond(chance, triangle):
    """Question 5."""
    amounts_of = chance.choice([triangle.payments, triangle.adjustments])
    return replaced(chance, amounts_of, [-LIMIT - 1, LIMIT + 1, 3 * LIMIT, LEAST, GREATEST], missing=chance.random() < 0.2)


def amount_where_missing(chance, triangle):
    """Question 5."""
    return replaced(chance, chance.choice([triangle.payments, triangle.adjustments]), [1, -1, 1234, -LIMIT, LIMIT], missing=True)


def paid_beyond_reported(chance, triangle):
    """Question 6."""
    return replaced(chance, triangle.payments, [1000, 1_000_000, LIMIT])


def outstanding_beyond(chance, triangle):
    """Question 6: the payment is negative, so that more than the adjustment is outstanding."""
    i = chance.randrange(triangle.n)
    seen = [k for k, payment in enumerate(triangle.payments[i]) if payment is not None]
    if seen:
        k = chance.choice(seen)
        triangle.payments[i][k], triangle.adjustments[i][k] = -chance.choice([1, 1000, LIMIT]), LIMIT
    return bool(seen)


def opening_beyond(chance, triangle):
    """Question 6."""
    return replaced(chance, [triangle.openings], [-1, -1234, LIMIT + 1, LEAST, GREATEST])


def weight_where_missing(chance, triangle):
    """Question 7."""
    triangle.weights = triangle.weights or weights_of(chance, triangle.n, triangle.cut)
    return replaced(chance, triangle.weights, [1, 50, 100], missing=True)


def development_without_weight(chance, triangle):
    """Question 8."""
    k = chance.randrange(triangle.n - 1)
    triangle.weights = weights_of(chance, triangle.n, triangle.cut)
    for row in triangle.weights[:triangle.n - 1 - k]:
        row[k] = 0
    return True


def growth_beyond(chance, triangle):
    """Question 9: nothing is paid, and the oldest outstanding, 1, grows to up to the limit in one year."""
    n = triangle.n
    triangle.cut, triangle.weights, triangle.openings = 1, None, []
    triangle.payments = [[0] * (n - i) for i in range(n)]
    triangle.adjustments = [[chance.randint(i, 2000)] + [0] * (n - i - 1) for i in range(n)]
    triangle.adjustments[0][:] = [1] + [0] * (n - 1)
    triangle.adjustments[0][chance.randrange(1, n)] = 10 ** chance.randint(8, 9) - 1
    return True


def cell_not_unseen(chance, triangle):
    """Question 10."""
    triangle.asked = tuple(chance.choice([0, 1, 2, triangle.n, triangle.n + 1, -1, 1234, LEAST, GREATEST]) for _ in range(2))
    return True


REFUSALS = [
    size_beyond, cut_beyond, list_too_short, openings_of_another_number, weight_beyond, amount_beyond, amount_beyond, amount_where_missing, amount_where_missing,
    paid_beyond_reported, outstanding_beyond, opening_beyond, weight_where_missing, development_without_weight, growth_beyond, cell_not_unseen,
]


def with_refusal(chance, triangle):
    while not chance.choice(REFUSALS)(chance, triangle):
        pass


# ---- Writing the rows and headings

def blocks_of(chance, triangle):
    blocks = [
        amount_block(chance, ["payments", "paid"], triangle.payments),
        amount_block(chance, ["adjustments", "incurred"], triangle.adjustments),
    ]
    if triangle.weights is not None:
        blocks.append(Block(["weights"], written_rows(chance, triangle.weights)))
    if triangle.openings:
        in_one_row = chance.random() < 0.5
        openings = [triangle.openings] if in_one_row else [[number] for number in triangle.openings]
        blocks.append(Block(["openings"], written_rows(chance, openings)))
    if triangle.cut != 1 or chance.random() < 0.2:
        blocks.append(Block(["cut", str(triangle.cut)], []))
    if triangle.asked:
        blocks.append(Block(["cell"] + [str(year) for year in triangle.asked], []))
    chance.shuffle(blocks)
    return blocks


def amount_block(chance, names, rows):
    nothing_missing = all(number is not None for row in rows for number in row)
    if nothing_missing and chance.random() < 0.4:
        return Block([chance.choice(names), chance.choice(["cumulated", "cumulative"])], written_rows(chance, cumulated(rows)))
    return Block([chance.choice(names), "incremental"], written_rows(chance, rows))


def cumulated(rows):
    return [[sum(row[:k]) for k in range(1, len(row) + 1)] for row in rows]


def written_rows(chance, rows):
    return [[written(chance, number) for number in row] for row in rows]


def written(chance, number):
    """A number, now and then with leading zeros. A missing one is mostly blank."""
    if number is None:
        return chance.choice(["", "", "", "0", "-0"])
    if chance.random() < 0.01:
        return f"{'-' * (number < 0)}00{abs(number)}"
    return str(number)


# ---- Mistakes in the rows and headings

def rows_of_a_block(chance, blocks):
    return chance.choice([block.rows for block in blocks if block.rows])


def cell_mistaken(chance, blocks):
    row = chance.choice(rows_of_a_block(chance, blocks))
    row[chance.randrange(len(row))] = chance.choice(TELLING_CELLS)


def cell_added(chance, blocks):
    chance.choice(rows_of_a_block(chance, blocks)).append(chance.choice(TELLING_CELLS))


def figures_far_apart(chance, blocks):
    """Where they are cumulated, their difference has just 64 bits or more."""
    row = rows_of_a_block(chance, blocks)[0]
    neighbours = chance.choice([(LEAST, 1), (LEAST, -1), (1, LEAST), (-1, GREATEST), (0, GREATEST), (LEAST, GREATEST), (GREATEST, LEAST)])
    row[:2] = [str(number) for number in neighbours]


def oldest_year_lost(chance, blocks):
    """The first row of every block but the openings, in whole or in part."""
    error = chance.choice(["", "", "#REF!", "#N/A", "####", '""'])
    for rows in (block.rows for block in blocks if block.rows and block.words != ["openings"]):
        lost = chance.choice([1, len(rows[0])])
        rows[0][:] = [error] * lost + rows[0][lost:] if error else ["", ""]


def accident_years_before(chance, blocks):
    label = chance.choice(["{}", '"{}"', "AY {}", "{}/x"])
    for at, row in enumerate(rows_of_a_block(chance, blocks)):
        row.insert(0, label.format(2001 + at))


def development_years_above(chance, blocks):
    rows = rows_of_a_block(chance, blocks)
    rows.insert(0, chance.choice([[], [""], ["year"], ["#"]]) + [str(k) for k in range(1, len(rows) + 1)])


def totals_below(chance, blocks):
    rows = rows_of_a_block(chance, blocks)
    rows.append(chance.choice([[], ["total"], ["Sum"], [""]]) + [str(chance.randint(0, 9999)) for _ in rows])


def zeros_below_the_diagonal(chance, blocks):
    rows = rows_of_a_block(chance, blocks)
    for row in rows:
        row += ["0"] * (len(rows) - len(row))


def figures_in_another_style(chance, blocks):
    """All figures of a block from some cell on, or its negative ones."""
    style = chance.choice(['"{}"', "{}.00", "{}.", "{:,}", "{}E+00", "+{}", "({})", "\N{MINUS SIGN}{}"])
    only_negative = style in ("({})", "\N{MINUS SIGN}{}")
    first = chance.randrange(3)
    for row in rows_of_a_block(chance, blocks):
        for at, cell in enumerate(row):
            if at >= first and cell and (not only_negative or cell[0] == "-"):
                row[at] = style.format(abs(int(cell)) if only_negative else int(cell))


def heading_mistaken(chance, blocks):
    words = chance.choice(blocks).words
    change = chance.randrange(5)
    if change == 0:
        words[0] = chance.choice(["payment", "reported", "year", "cut", "weight", "cell", "paid", "incurred"])
    elif change == 1:
        words[0] = chance.choice(['" ', '""', "'", "(", "1 "]) + words[0]
    elif change == 2:
        del words[1:]
    else:
        words.append(chance.choice(["cumulated", "Incremental", "net", "in", "3", "-2", "# net", "#net", "9" * 20, "x" * 30]))


def heading_doubled(chance, blocks):
    block = chance.choice(blocks)
    other = {"payments": "paid", "paid": "payments", "adjustments": "incurred", "incurred": "adjustments"}
    name = chance.choice([block.words[0], other.get(block.words[0], block.words[0])])
    blocks.insert(chance.randint(0, len(blocks)), Block([name] + block.words[1:], chance.choice([block.rows, [], [["5"]]])))


def openings_beyond_their_number(chance, blocks):
    """More than any triangle has, with a blank cell or a mistake among the last."""
    openings = [str(chance.randint(0, 100)) for _ in range(chance.randint(31, 36))]
    openings[chance.randint(29, len(openings) - 1)] = chance.choice(TELLING_CELLS)
    blocks[:] = [block for block in blocks if block.words[0] != "openings"] + [Block(["openings"], [openings[:20], openings[20:]])]


def cut_with_cumulated(chance, blocks):
    blocks[:] = [block for block in blocks if block.words[0] != "cut"] + [Block(["cut", "2"], [])]
    for block in blocks:
        if block.words[0] in ("payments", "paid", "adjustments", "incurred") and chance.random() < 0.6:
            block.words[1] = chance.choice(["cumulated", "cumulative"])


MISTAKES = 5 * [cell_mistaken] + 2 * [heading_mistaken, figures_in_another_style] + [
    cell_added, figures_far_apart, figures_far_apart, oldest_year_lost, accident_years_before, development_years_above, totals_below, zeros_below_the_diagonal,
    heading_doubled, openings_beyond_their_number, cut_with_cumulated,
]


# ---- Writing the text

def text_of(chance, blocks):
    separator = chance.choice(",;\t")
    wide = max(len(block.rows) for block in blocks) if chance.random() < 0.2 else 0
    lines, in_block = [], False
    for words, rows in blocks:
        written_lines = [written_heading(chance, words, separator, wide)] + [written_row(chance, row, separator, wide) for row in rows]
        for line in written_lines:
            lines += lines_passed_over(chance, separator, in_block) + [line + comment_behind(chance)]
            in_block = bool(rows)
    ending = chance.choice(["\n", "\n", "\r\n"])
    text = (ending.join(lines) + ending * (chance.random() < 0.9)).encode("utf-8")
    return (BYTE_ORDER_MARK if chance.random() < 0.1 else b"") + text


def written_heading(chance, words, separator, wide):
    gap = chance.choice([" ", " ", " ", "  ", separator, f'"{separator}"', '" "'])
    line = gap.join(words)
    if '"' in gap or chance.random() < 0.15:
        line = f'"{line}"'
    line = chance.choice(["", "", "", " ", separator]) + line + separator * max(0, wide - len(words))
    return line.upper() if chance.random() < 0.1 else line.capitalize() if chance.random() < 0.2 else line


def written_row(chance, row, separator, wide):
    """A row of cells, sometimes with spaces, filled up to the width of the text's rectangle."""
    cells = row + [""] * (wide - len(row))
    if chance.random() < 0.5:
        cells = [" " * chance.choice([0, 0, 1, 3]) + cell + " " * chance.choice([0, 0, 0, 2]) for cell in cells]
    return separator.join(cells)


def lines_passed_over(chance, separator, in_block):
    """Now and then a line that says nothing. One of separators does so only outside the blocks."""
    if chance.random() > 0.06:
        return []
    outside_blocks = [separator * 3, f" {separator} # none"]
    return [chance.choice(["", "   ", "# ", "# 1,2;3\tpayments", " # n\N{LATIN SMALL LETTER E WITH ACUTE} 1987"] + outside_blocks * (not in_block))]


def comment_behind(chance):
    return chance.choice([" # in euros, net; of recoveries", " # ", "  # # 5"]) if chance.random() < 0.05 else ""


# ---- Mutations of the lines and bytes

def line_inserted(chance, text):
    """Such as a line of separators, or one that would be a comment with a space behind its sign."""
    lines = text.split(b"\n")
    line = chance.choice(3 * [b",,", b" ;;; ", b"\t\t"] + [b" ;, ", b'"",""', b"#", b"#net", b"## net", b"##", b"#\tnet", b"12", b"net", b"\r"])
    lines.insert(chance.randint(0, len(lines)), line)
    return b"\n".join(lines)


def end_of_line_added(chance, text):
    """Such as a comment without its spaces, or a word behind a heading."""
    lines = text.split(b"\n")
    at = chance.randrange(len(lines))
    added = chance.choice([b"#", b"# net", b" #net", b" #", b";# net", b",# net", b" cumulated", b" 3", b'"', b"\r", b";;", b",,"])
    lines[at] = lines[at].rstrip(b"\r") + added
    return b"\n".join(lines)


def line_dropped(chance, text):
    lines = text.split(b"\n")
    del lines[chance.randrange(len(lines))]
    return b"\n".join(lines)


def line_doubled(chance, text):
    lines = text.split(b"\n")
    at, to = chance.randrange(len(lines)), chance.randint(0, len(lines))
    lines.insert(at if chance.random() < 0.5 else to, lines[at])
    return b"\n".join(lines)


def number_enlarged(chance, text):
    numbers = list(re.finditer(rb"[0-9]+", text))
    if not numbers:
        return text
    at = chance.choice(numbers).end()
    digits = chance.choice([1, 1, 2, 3, 6, 10, 19, 100])
    return text[:at] + bytes(chance.choice(b"0123456789") for _ in range(digits)) + text[at:]


def number_replaced(chance, text):
    """A number becomes one at the end of a range, which in a cumulated row may be too far from its neighbour."""
    numbers = list(re.finditer(rb"-?[0-9]+", text))
    if not numbers:
        return text
    found = chance.choice(numbers)
    return text[:found.start()] + str(chance.choice(TELLING_NUMBERS)).encode() + text[found.end():]


def byte_changed(chance, text):
    at = chance.randrange(len(text))
    return text[:at] + a_byte(chance) + text[at + 1:]


def byte_inserted(chance, text):
    at = chance.randint(0, len(text))
    return text[:at] + a_byte(chance) + text[at:]


def byte_removed(chance, text):
    at = chance.randrange(len(text))
    return text[:at] + text[at + 1:]


def a_byte(chance):
    return bytes([chance.choice(TELLING_BYTES) if chance.random() < 0.8 else chance.randrange(256)])


def carriage_returns_only(chance, text):
    return text.replace(b"\r", b"").replace(b"\n", b"\r")


def in_utf_16(chance, text):
    return text.decode("utf-8").encode(chance.choice(["utf-16", "utf-16-le", "utf-16-be"]))


def emptied(chance, text):
    """Nothing, or hardly anything."""
    return chance.choice(4 * [b""] + [b"\n", b" ", b"#", b"\0", b"5", BYTE_ORDER_MARK, BYTE_ORDER_MARK + b"# none", b"\xff\xfe", b"\xff"])


def filled_up(chance, text):
    """A comment that brings the text to the greatest length, or one beyond."""
    wanted = LONGEST_TEXT + chance.choice([0, 1])
    return text + b"\n# " + b"." * (wanted - len(text) - 3)


MUTATIONS = 3 * [line_inserted, end_of_line_added, byte_changed, byte_inserted, number_replaced] + 2 * [
    line_dropped, line_doubled, number_enlarged, byte_removed, emptied,
] + [carriage_returns_only, in_utf_16, filled_up]


# ---- The folder, and the outcomes

def random_text(chance):
    kind = chance.random()
    triangle = random_triangle(chance)
    if FAULTLESS < kind < FAULTLESS + REFUSED:
        with_refusal(chance, triangle)
    blocks = blocks_of(chance, triangle)
    if FAULTLESS + REFUSED < kind < FAULTLESS + REFUSED + MISTAKEN:
        chance.choice(MISTAKES)(chance, blocks)
    text = text_of(chance, blocks)
    return chance.choice(MUTATIONS)(chance, text) if kind > FAULTLESS + REFUSED + MISTAKEN else text


def outcome(answer):
    """What kind of answer it is: the sentences of a refusal without places, numbers and what was met."""
    first, *following = answer.decode("latin-1").removesuffix("\n").split("\n")
    if first.startswith("refused: "):
        expected = re.match(r"refused: (?:line [^:]*: )?(.*?)(?:, and met .*)?$", first).group(1)
        return " / ".join(["malformed", expected] + following)
    if first.startswith("refused"):
        return re.sub(r" at .*", " / ", first) + re.sub(r"-?[0-9,]*[0-9]", "_", following[0])
    return "accepted" + ", one cell" * (b"\nAccident year " in answer) + ", in parts" * (answer.count(b"\naccident year ") > 4)


def write_texts(seed, count, folder):
    """Writes the texts and their answers, and gives the outcomes with their numbers."""
    folder.mkdir(parents=True, exist_ok=True)
    outcomes = Counter()
    for number in range(1, count + 1):
        text = random_text(Random(f"{seed} {number}"))
        answer = printed(text)
        (folder / f"{number:04}.csv").write_bytes(text)
        (folder / f"{number:04}.expected").write_bytes(answer)
        outcomes[outcome(answer)] += 1
    return outcomes


if __name__ == "__main__":
    if len(sys.argv) != 4:
        sys.exit(__doc__)
    for kind, times in sorted(write_texts(int(sys.argv[1]), int(sys.argv[2]), Path(sys.argv[3])).items()):
        print(f"{times:6}  {kind}")
