#!/usr/bin/env python3
"""try_definitions.py [COUNT [SEED]]: the definitions of crates/method on random calls, against document_01.py.

Makes COUNT calls (100), works each by document_01.py, writes them as a table of examples into a copy of the
crates, and has the checker compute the definitions on the table. It succeeds only where every number, place and
list agrees, and every accepted figure keeps its allowance. Nothing in the gate runs it, since it wants Python.
"""
import random
import shutil
import subprocess
import sys
import tempfile
from collections import Counter
from pathlib import Path

from document_01 import figures, keeps_allowances, unrounded

TOP = Path(__file__).resolve().parent.parent
LEAST, MOST = -2**63, 2**63 - 1
AMOUNTS = [10**9, 10**9 + 1, -10**9 - 1, LEAST, MOST]


def accepted_looking(rng):
    """A call that fails no question before 8, with n up to 6."""
    n = rng.choice([2, 2, 3, 3, 4, 5, 6])
    cut = rng.choice([1, 1, 1, *range(1, n)])
    scale = rng.choice([1, 10, 1000, 10**6])
    payments, adjustments, openings = [], [], []
    for i in range(1, n + 1):
        outstanding = rng.randint(0, 20) * scale if i < cut else 0
        if i < cut:
            openings.append(outstanding)
        for k in range(1, n + 2 - i):
            if i + k <= cut:
                payments.append(0)
                adjustments.append(0)
                continue
            payment = rng.randint(-3, 30) * scale // rng.choice([1, 2, 3])
            adjustment = rng.randint(-5, 30) * scale // rng.choice([1, 2]) + (20 * scale if k == 1 else 0)
            if outstanding - payment + adjustment < 0:
                adjustment = payment - outstanding + rng.choice([0, 0, 1, 5])
            outstanding += adjustment - payment
            payments.append(payment)
            adjustments.append(adjustment)
    cells = [(i, k) for i in range(1, n) for k in range(1, n + 1 - i)]
    weights = [0 if i + k <= cut else rng.choice([1, 1, 1, 0, 2, 100, 7]) for i, k in cells]
    return [n, cut, payments, adjustments, weights, openings, 3 * n * (n - 1) // 2, 3 * n]


def damaged(rng, call):
    """The call with one thing changed, so that most questions are failed now and then."""
    n, cut, payments, adjustments, weights, openings, _, _ = call
    kind = rng.choice(["years", "cut", "length", "answer", "weight", "amount", "opening", "missing", "outstanding"])
    if kind == "years":
        call[0] = rng.choice([0, 1, 33, -2, n + 1, LEAST, MOST])
    elif kind == "cut":
        call[1] = rng.choice([0, -1, n, n + 1, LEAST, MOST])
    elif kind == "length":
        values = rng.choice([payments, adjustments, weights, openings])
        values.pop() if values and rng.random() < 0.5 else values.append(1)
    elif kind == "answer":
        call[rng.choice([6, 7])] += rng.choice([-1, 1, 2])
    elif kind == "weight":
        weights[rng.randrange(len(weights))] = rng.choice([-1, 101, LEAST, MOST])
    elif kind == "amount":
        values = rng.choice([payments, adjustments])
        values[rng.randrange(len(values))] = rng.choice(AMOUNTS)
    elif kind == "opening" and openings:
        openings[rng.randrange(len(openings))] = rng.choice([-1, 10**9, 10**9 + 1])
    elif kind == "missing":
        weights[0] = 1
    elif kind == "outstanding":
        payments[rng.randrange(len(payments))] += rng.randint(1, 40)
    return call


def whole(x):
    return f"pos {x}" if x >= 0 else f"minus {-x}"


def listed(values):
    return "(" + " ∷ ".join([*map(whole, values), "[]"]) + ")"


def row(name, call, number, place, lists):
    n, cut, payments, adjustments, weights, openings, future, reserves = call
    answer = lists or ([0] * future, [0] * reserves)
    return (
        f"abbrev pub {name} : Example\n{name} = record {{ triangle = triangle ({whole(n)}) {listed(payments)}"
        f" {listed(adjustments)} {listed(weights)} ({whole(cut)}) {listed(openings)}; future_room = {future};"
        f" reserves_room = {reserves}; wanted = record {{ number = {number}; accident_year = {whole(place[0])};"
        f" development_year = {whole(place[1])}; future = {listed(answer[0])}; reserves = {listed(answer[1])} }} }}\n"
    )


def main():
    count = int(sys.argv[1]) if len(sys.argv) > 1 else 100
    seed = int(sys.argv[2]) if len(sys.argv) > 2 else 1
    rng = random.Random(seed)
    numbers, rows, names = Counter(), [], [f"call_{at}" for at in range(count)]
    for name in names:
        call = accepted_looking(rng)
        if rng.random() < 0.5:
            call = damaged(rng, call)
        number, place, lists = figures(*call)
        if number == 0 and not keeps_allowances(lists, *unrounded(*call[:6])):
            sys.exit(f"a figure does not keep its allowance: {call}")
        numbers[number] += 1
        rows.append(row(name, call, number, place, lists))
    with tempfile.TemporaryDirectory() as folder:
        copy = Path(folder)
        for crate in ("integers", "method"):
            shutil.copytree(TOP / "crates" / crate, copy / "crates" / crate)
        (copy / "crates.txt").write_text("integers:\nmethod: integers\n")
        examples = copy / "crates/method/specs/Examples.antt"
        text = examples.read_text()
        table = f"\nabbrev pub random_calls : List Example\nrandom_calls = {' ∷ '.join([*names, '[]'])}\n"
        examples.write_text(text + "\n" + "\n".join(rows) + table)
        proof = copy / "crates/method/proofs/Examples.antt"
        text = proof.read_text().replace("specs.Examples.{", "specs.Examples.{random_calls, ")
        proof.write_text(text + "\npub random_calls_hold : Hold random_calls\nunfolding computed\nrandom_calls_hold = refl\n")
        run = subprocess.run(["rt", "check"], cwd=copy / "crates/method", capture_output=True, text=True)
    print(f"seed {seed}, calls by number:", dict(sorted(numbers.items())))
    if run.returncode != 0:
        print(run.stdout + run.stderr)
        sys.exit("the definitions and document_01.py differ")
    print(f"{count} calls agree")


main()
