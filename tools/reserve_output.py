#!/usr/bin/env python3
"""Prints what the program reserve must print for a text, as docs/FORMAT.md says.

    tools/reserve_output.py FILE
    tools/reserve_output.py --write

With --write it writes examples/NAME.expected for every examples/NAME.csv.
The figures come from document_01.py, which works document 01 with exact fractions. Nothing of the program is run.
A byte from 128 up that is shown as it was met is a character of latin-1 until it is printed.
"""
import re
import sys
from collections import namedtuple
from pathlib import Path

from document_01 import UNIT, figures, outstandings, rows, sums

LONGEST_TEXT = 65_536
LONGEST_MET = 40
LONGEST_LINE = 120
MOST_OPENINGS = 32
LEAST, GREATEST = -2**63, 2**63 - 1
AMOUNT_LIMIT = 1_000_000_000
BYTE_ORDER_MARK = b"\xef\xbb\xbf"
BLOCKS = "payments", "adjustments", "weights", "openings"
OTHER_NAMES = {"paid": "payments", "incurred": "adjustments"}
CUMULATED = [b"cumulated"], [b"cumulative"]
INCREMENTAL = [b"incremental"]

sys.set_int_max_str_digits(0)  # a text may hold a number of thousands of digits, which is then refused by name

# The content of a line has no comment, and no spaces around it. The cells are also as a message shows them.
# The words of a line that is no heading are None.
# A block is a heading with the words after its first and the rows under it.
Line = namedtuple("Line", "number content cells shown_cells words")
Block = namedtuple("Block", "heading words rows")
Triangle = namedtuple("Triangle", "n cut payments adjustments weights openings")


class Refused(Exception):
    """Its argument is the whole answer."""


# ---- Malformed texts

# The second line, by what was expected.
ADVICE = {
    "payments, adjustments, weights or openings before a row":
        "Headings of columns, and whatever else stands above the figures, begin with # and a space, without quotes.",
    "figures in this row":
        "An empty row of a spreadsheet is written like this: fill in its figures or take it out.",
    "payments, adjustments, weights, openings, cut, cell or a row of whole numbers":
        "A heading is such as paid cumulated. A row has figures only: no accident year, no word, no totals. Anything else begins with # and a space.",
    "cumulated or incremental, and nothing else, after this heading":
        "Cumulated figures are sums along their row so far, incremental ones those of one development year each.",
    "no further row":
        "There are as many rows as rows of payments, and of weights one less. A row of totals is left out.",
    "a whole number, for only a missing cell is blank":
        "Is there a row of totals or of development years? It counts as an accident year, and every row then wants one figure more.",
    "nothing, for the row ends before this cell":
        "A row has no accident year before its figures, no total behind them, and nothing below the diagonal, also no 0.",
}

# The second line for a cell that is no number: that of the first pattern with which the cell begins.
A_FIGURE = "a whole number, such as 1234 or -1234"
ADVICE_ON_FIGURES = [
    (rb"# |#\Z", "A comment has a space before its # and one after it."),
    (rb"#", "This is a spreadsheet's error: mend it in the spreadsheet and export again. A comment would have a space after its #."),
    (rb'"', "Figures stand without quotes, which thousands marks bring: set the cells' format to plain numbers and export again."),
    (rb"\(", "A negative figure has a - before it and no brackets."),
    (rb"\xe2", "A figure has no sign before it but the - of the keyboard."),
    (rb"[A-Za-z]", "A word is no figure. A cell is blank only where the cut says that it is missing."),
    (rb"[^Ee]*[Ee]", "Show the figure in full: no power of ten, no currency and no other letters."),
    (rb"", "Figures are whole units: digits, a - before them where they are negative, no decimals and no thousands marks."),
]


def malformed(expected, line, k=None):
    """Refuses a line, or its cell k."""
    met = line.content if k is None else cell_of(line.shown_cells, k)
    place = f"line {line.number:,}" if k is None else f"line {line.number:,}, cell {k:,}"
    raise Refused("\n".join([f"refused: {place}: expected {expected}, and met {shown(met)}"] + advice(expected, met)))


def cell_of(cells, k):
    """Cells that a line lacks at its end are blank."""
    return cells[k - 1] if k <= len(cells) else b""


def shown(met):
    if not met:
        return "a blank cell"
    start = re.sub(rb"[\x00-\x1f\x7f]", b"?", met[:LONGEST_MET].replace(b"\t", b" "))
    return start.decode("latin-1") + ("..." if len(met) > LONGEST_MET else "")


def advice(expected, met):
    """The second line, where there is one."""
    if expected == A_FIGURE:
        return [next(sentence for pattern, sentence in ADVICE_ON_FIGURES if re.match(pattern, met))]
    return [ADVICE[expected]] if expected in ADVICE else []


def refuse_unread(text):
    """The texts that are not read at all."""
    if len(text) > LONGEST_TEXT:
        raise Refused("refused: expected a text of at most 65,536 bytes")
    if not text:
        raise Refused("refused: expected a text, and met nothing: the file or the input is empty")
    if text[:2] in (b"\xff\xfe", b"\xfe\xff") or 0 in text[:2]:
        raise Refused("refused: expected a text in UTF-8, and met UTF-16 or no text\nSave it as CSV in UTF-8.")
    if b"\r" in text and b"\n" not in text:
        raise Refused("refused: expected lines that end with a line feed, and met carriage returns only\nSave it as CSV with the line ends of Windows or Linux.")


# ---- Lines

def contents(text):
    """What stands on each line, without its end and its comment."""
    *ended, last = text.removeprefix(BYTE_ORDER_MARK).split(b"\n")
    return [without_comment(line) for line in [line.removesuffix(b"\r") for line in ended] + [last]]


def without_comment(line):
    """A comment has no carriage return in it."""
    return re.split(rb"(?:^|(?<= ))# (?![^\r]*\r)", line, maxsplit=1)[0]


def separator_of(lines):
    """The first comma, semicolon or tab, or the comma where there is none."""
    found = re.search(rb"[,;\t]", b"\n".join(lines))
    return found.group() if found else b","


def read_lines(text):
    """The lines that are not empty. The empty ones count too."""
    lines = contents(text)
    separator = separator_of(lines)
    numbered = [(number, line.strip(b" ")) for number, line in enumerate(lines, 1)]
    return [
        Line(number, content, *cells_of(content, separator), words_of(content, separator))
        for number, content in numbered if content
    ]


def cells_of(content, separator):
    """The cells, and the same as they are shown: one that begins with a double quote goes on to the next double quote."""
    fields = content.split(separator)
    cells = [field.strip(b" ") for field in fields]
    rests = [separator.join(fields[at:]).lstrip(b" ") for at in range(len(fields))]
    quoted = [re.match(rb'"[^"]*"', rest) for rest in rests]
    return cells, [found.group() if found else cell for found, cell in zip(quoted, cells)]


def words_of(content, separator):
    """The words of a heading, None where the line is none."""
    if not re.match(rb'[ %b]*"?[A-Za-z]' % separator, content):
        return None
    return re.findall(rb'[^ "%b]+' % separator, content.lower())


# ---- Numbers

def whole_number(cell):
    """The number of any size that stands in a cell or a word, None where none does."""
    return int(cell) if re.fullmatch(rb"-?[0-9]+", cell) else None


def has_64_bits(number):
    return LEAST <= number <= GREATEST


def read_number(line, k):
    """The number in cell k of a line."""
    cell = cell_of(line.cells, k)
    if not cell:
        malformed("a whole number, for only a missing cell is blank", line, k)
    number = whole_number(cell)
    if number is None:
        malformed(A_FIGURE, line, k)
    if not has_64_bits(number):
        malformed("a number of at most 64 bits", line, k)
    return number


# ---- Headings

def read_headings(lines):
    """The blocks by the name of their heading. A row belongs to the heading next above it."""
    blocks, name = {}, None
    for line in lines:
        if line.words is not None:
            name = name_of(line)
            check_heading(name, line, blocks)
            blocks[name] = Block(line, line.words[1:], [])
        elif any(line.cells):
            if name not in BLOCKS:
                malformed("payments, adjustments, weights or openings before a row", line)
            blocks[name].rows.append(line)
        elif name in BLOCKS:
            malformed("figures in this row", line)
    return blocks


def name_of(heading):
    word = heading.words[0].decode("latin-1")
    return OTHER_NAMES.get(word, word)


def check_heading(name, line, blocks):
    after = line.words[1:]
    if name not in BLOCKS + ("cut", "cell"):
        malformed("payments, adjustments, weights, openings, cut, cell or a row of whole numbers", line)
    if name in blocks:
        malformed("this heading only once", line)
    if name in ("payments", "adjustments") and after not in (*CUMULATED, INCREMENTAL):
        malformed("cumulated or incremental, and nothing else, after this heading", line)
    if name in ("weights", "openings") and after:
        malformed("nothing after this heading", line)
    if name == "cut" and not are_numbers(after, 1):
        malformed("one whole number after cut", line)
    if name == "cell" and not are_numbers(after, 2):
        malformed("an accident year and a development year after cell", line)


def are_numbers(words, count):
    numbers = [whole_number(word) for word in words]
    return len(words) == count and all(number is not None and has_64_bits(number) for number in numbers)


def is_cumulated(block):
    return block.words in CUMULATED


# ---- Rows

def read_triangle(n, cut, blocks):
    """The lists of the text, which may be too short or, the openings, too long."""
    absent = Block(None, [], [])
    payments = read_block(blocks["payments"], n, cut)
    adjustments = read_block(blocks.get("adjustments", absent), n, cut)
    weights = read_block(blocks["weights"], n - 1, cut) if "weights" in blocks else usual_weights(n, cut)
    openings = []
    for line in blocks.get("openings", absent).rows:
        openings += read_openings(line, MOST_OPENINGS - len(openings))
    return Triangle(n, cut, payments, adjustments, weights, openings)


def usual_weights(n, cut):
    return [0 if i + k <= cut else 1 for i in range(1, n) for k in range(1, n - i + 1)]


def read_block(block, m, cut):
    """The numbers of at most m rows, of m, m - 1, ... numbers."""
    if is_cumulated(block) and cut > 1:
        malformed("incremental figures, for the cut is above 1", block.heading)
    numbers = []
    for i, line in enumerate(block.rows, 1):
        if i > m:
            malformed("no further row", line)
        numbers += read_row(line, i, m + 1 - i, cut, is_cumulated(block))
    return numbers


def read_row(line, i, length, cut, cumulated):
    """The row's numbers, or what each adds to the one before."""
    numbers, before = [], 0
    for k in range(1, length + 1):
        if i + k <= cut and not cell_of(line.cells, k):
            numbers.append(0)
            continue
        number = read_number(line, k)
        if not has_64_bits(number - before):
            malformed("a figure whose difference from the one before has at most 64 bits", line, k)
        numbers.append(number - before)
        before = number if cumulated else 0
    for k in range(length + 1, len(line.cells) + 1):
        if cell_of(line.cells, k):
            malformed("nothing, for the row ends before this cell", line, k)
    return numbers


def read_openings(line, room):
    """The openings of one row. Only behind its last number may a cell be blank."""
    last = max(k for k, cell in enumerate(line.cells, 1) if cell)
    openings = []
    for k in range(1, last + 1):
        if k > room:
            malformed("no further opening", line, k)
        openings.append(read_number(line, k))
    return openings


# ---- Refusals by a question

def refused_by(question, place, wrong, lines=()):
    """Refuses with what is wrong, and with the lines of the text that have it."""
    numbers = " and ".join(f"{line.number:,}" for line in lines)
    see = [f"See line{'s' * (len(lines) > 1)} {numbers}."] if lines else []
    raise Refused("\n".join([f"refused by question {question} at ({place[0]}, {place[1]})", wrong] + see))


def ask_size_and_cut(n, cut):
    """Questions 1 and 2, which come before any row is read."""
    question, place, _ = figures(n, cut, [], [], [], [], 0, 0)
    if question == 1:
        refused_by(1, place, f"The number of accident years is {n:,} and not from 2 to 32: it is the number of rows of payments.")
    if question == 2:
        refused_by(2, place, f"The cut is {cut:,} and not from 1 to {n - 1}, which is one less than the number of accident years.")


def ask_of_cell(n, i, k):
    """Question 10, which comes after all others."""
    if not (2 <= i <= n and n + 1 - i < k <= n):
        refused_by(10, (0, 0), f"Accident year {i:,} in development year {k:,} is not an unseen cell of this triangle.")


def refuse_triangle(question, place, triangle, blocks):
    """Questions 3 to 9."""
    i, k = place
    cell = f"accident year {i} in development year {k}"
    lines = []
    if question == 3:
        wrong = lengths_sentence(triangle)
    elif question in (4, 7):
        wrong, lines = weight_sentence(question, place, cell, triangle), [blocks["weights"].rows[i - 1]]
    elif question == 5:
        wrong, lines = amount_sentence(place, cell, triangle, blocks)
    elif question == 6:
        wrong, lines = outstanding_sentence(place, triangle, blocks)
    elif question == 8:
        wrong = exposure_sentence(k)
    else:
        wrong = f"The payment, adjustment or outstanding projected for {cell} is above 10,000,000,000 units in size."
    refused_by(question, place, wrong, lines)


def lengths_sentence(triangle):
    n, cut, *lists = triangle
    wanted = n * (n + 1) // 2, n * (n + 1) // 2, n * (n - 1) // 2, cut - 1
    lengths = [f"{name} {len(numbers)} of {length}" for name, numbers, length in zip(BLOCKS, lists, wanted)]
    return f"A block does not have its number of figures: {', '.join(lengths)}."


def weight_sentence(question, place, cell, triangle):
    weight = rows(triangle.weights, triangle.n - 1)[place]
    if question == 4:
        return f"The weight of {cell} is {weight:,} and not from 0 to 100."
    return f"The weight of {cell} is {weight:,} and not 0, though its years add up to no more than the cut."


def amount_sentence(place, cell, triangle, blocks):
    """Question 5 asks every payment first, so an adjustment is meant only where the cell's payment is right."""
    payment, adjustment = (rows(numbers, triangle.n)[place] for numbers in (triangle.payments, triangle.adjustments))
    payment_is_right = abs(payment) <= AMOUNT_LIMIT and (sum(place) > triangle.cut or payment == 0)
    name, figure = ("adjustment", adjustment) if payment_is_right else ("payment", payment)
    beyond = "from -1,000,000,000 to 1,000,000,000."
    within = "0, though the cell is missing: its years add up to no more than the cut."
    wanted = beyond if abs(figure) > AMOUNT_LIMIT else within
    return f"The {name} of {cell} is {figure:,} and not {wanted}", [blocks[f"{name}s"].rows[place[0] - 1]]


def outstanding_sentence(place, triangle, blocks):
    (i, k), (n, cut, payments, adjustments, _, openings) = place, triangle
    outstanding = outstandings(n, cut, rows(payments, n), rows(adjustments, n), openings)[place]
    if i + k == cut:
        wrong = f"The opening outstanding of accident year {i}, at the end of development year {k}, is {outstanding:,} and not from 0 to 1,000,000,000."
        return wrong, [blocks["openings"].heading]
    known = f"The outstanding of accident year {i} at the end of development year {k} is {outstanding:,}"
    excess = f": paid exceeds reported by {-outstanding:,} there." if outstanding < 0 else " and not from 0 to 1,000,000,000."
    return known + excess, [blocks[name].rows[i - 1] for name in ("payments", "adjustments")]


def exposure_sentence(k):
    nothing = f"its weighted outstandings give nothing to project from year {k} to year {k + 1}."
    return f"The exposure of development year {k} is not above 0: {nothing}"


# ---- What is printed of an accepted triangle

def how_read(cut, blocks):
    """How each block was read, a line each."""
    payments, adjustments = is_cumulated(blocks["payments"]), is_cumulated(blocks["adjustments"])
    return [
        f"Payments are read as {'cumulated' if payments else 'incremental'} figures.",
        f"Adjustments are read as {'cumulated figures, which are reported amounts' if adjustments else 'incremental figures'}.",
        "Weights are read as given." if "weights" in blocks else "Weights are not given: each is 1, or 0 where its cell is missing.",
    ] + (["Openings are read as given."] if cut > 1 else [])


def amount(millionths):
    """In units with six decimals."""
    sign = "-" if millionths < 0 else ""
    return f"{sign}{abs(millionths) // UNIT:,}.{abs(millionths) % UNIT:06}"


def table(title, corner, headings, entries, longest=None):
    """A table whose entries are rows, each with its name first, in parts where its lines are to be no longer than the longest."""
    width = max(len(entry) for row in [headings] + [row[1:] for row in entries] for entry in row)
    columns = (longest - len(corner)) // (2 + width) if longest else len(headings)

    def part(first):
        cells = [[row[0].rjust(len(corner))] + [entry.rjust(width) for entry in row[first:first + columns]] for row in [[corner] + headings] + entries]
        return "\n".join("  ".join(row) for row in cells)

    return title + "\n" + "\n\n".join(part(first) for first in range(1, len(headings) + 1, columns))


def unseen_cells(n):
    """In the order of the future list."""
    return [(i, k) for i in range(2, n + 1) for k in range(n + 2 - i, n + 1)]


def projected(n, future):
    """The payment, adjustment and outstanding of each unseen cell."""
    return {cell: future[3 * at:3 * at + 3] for at, cell in enumerate(unseen_cells(n))}


def triangle_table(title, n, seen, future):
    """The seen figures in units, None where missing, and the projected ones in millionths."""
    def entry(cell):
        if cell in future:
            return "*" + amount(future[cell])
        return "?" if seen[cell] is None else f"{seen[cell]:,}"

    years = range(1, n + 1)
    return table(f"{title} (* projected)", "accident year", [str(k) for k in years],
                 [[str(i)] + [entry((i, k)) for k in years] for i in years], LONGEST_LINE)


def triangle_tables(triangle, seen, future):
    n, cut = triangle.n, triangle.cut
    titles = "Payments of the year, in units", "Adjustments of the year, in units", "Outstandings at the end of the year, in units"
    first_known = cut + 1, cut + 1, cut  # the sum of a cell's years; the opening outstanding stands where it is the cut
    for at, (title, numbers, first) in enumerate(zip(titles, seen, first_known)):
        known = {(i, k): numbers[i, k] if i + k >= first else None for i in range(1, n + 1) for k in range(1, n + 2 - i)}
        yield triangle_table(title, n, known, {cell: three[at] for cell, three in future.items()})


def sums_table(triangle, seen):
    s, t, r = seen
    w = rows(triangle.weights, triangle.n - 1)
    entries = [[f"{k} to {k + 1}"] + [f"{total:,}" for total in sums(triangle.n, s, t, w, r, k)] for k in range(1, triangle.n)]
    return table("Sums of the ratios: payment ratio P / D, adjustment ratio Q / D", "development year", ["P", "Q", "D"], entries)


def reserves_table(n, r, reserves):
    lines = [[r[i, n + 1 - i]] + reserves[3 * i - 3:3 * i] for i in range(1, n + 1)]
    lines.append([sum(column) for column in zip(*lines)])
    names = [str(i) for i in range(1, n + 1)] + ["total"]
    return table("Reserves in units", "accident year",
                 ["last outstanding", "paid reserve", "incurred reserve", "closing outstanding"],
                 [[name, f"{last:,}"] + [amount(value) for value in three] for name, (last, *three) in zip(names, lines)])


def cell_answer(i, k, three):
    entries = [amount(value) for value in three]
    width = max(map(len, entries))
    names = "payment", "adjustment", "outstanding"
    lines = [f"{name:>11}  {entry:>{width}}" for name, entry in zip(names, entries)]
    return "\n".join([f"Accident year {i} in development year {k}, in units"] + lines)


# ---- The answer

def printed(text):
    """What the program prints for a text, both as bytes."""
    try:
        return f"{answer(text)}\n".encode("latin-1")
    except Refused as refusal:
        return f"{refusal}\n".encode("latin-1")


def answer(text):
    refuse_unread(text)
    blocks = read_headings(read_lines(text))
    n = len(blocks["payments"].rows) if "payments" in blocks else 0
    cut = int(blocks["cut"].words[0]) if "cut" in blocks else 1
    ask_size_and_cut(n, cut)
    triangle = read_triangle(n, cut, blocks)
    question, place, lists = figures(*triangle, 3 * n * (n - 1) // 2, 3 * n)
    if question:
        refuse_triangle(question, place, triangle, blocks)
    first = "\n".join([f"accepted: {n} accident years, cut {cut}"] + how_read(cut, blocks))
    return "\n\n".join([first, *tables(triangle, blocks, *lists)])


def tables(triangle, blocks, future, reserves):
    """The tables of an accepted triangle, or the one cell that the text asks for."""
    n, future = triangle.n, projected(triangle.n, future)
    if "cell" in blocks:
        i, k = map(int, blocks["cell"].words)
        ask_of_cell(n, i, k)
        return [cell_answer(i, k, future[i, k])]
    s, t = rows(triangle.payments, n), rows(triangle.adjustments, n)
    seen = s, t, outstandings(n, triangle.cut, s, t, triangle.openings)
    return [reserves_table(n, seen[2], reserves), *triangle_tables(triangle, seen, future), sums_table(triangle, seen)]


def write_expected(folder):
    for text in sorted(folder.glob("*.csv")):
        text.with_suffix(".expected").write_bytes(printed(text.read_bytes()))


if __name__ == "__main__":
    if len(sys.argv) != 2:
        sys.exit(__doc__)
    if sys.argv[1] == "--write":
        write_expected(Path(__file__).resolve().parent.parent / "examples")
    else:
        sys.stdout.buffer.write(printed(Path(sys.argv[1]).read_bytes()))
