#!/usr/bin/env python3
"""Makes one must-fail edit in a copy of the crates, and prints what was changed and where the checker refuses it.

    tools/try_edit.py CRATE EDIT          such as: tools/try_edit.py method halves_away_from_zero
    tools/try_edit.py CRATE FILE OLD NEW  an edit of your own: OLD, which stands once in crates/CRATE/FILE, becomes NEW

What crates/*/out hold of earlier checks is used, so that only the crate itself is proved again. Nothing here is changed.
The exit status is 0 where the edit is refused, 1 where it is accepted, and 2 where there is no such edit or no verdict.
"""
import re
import shutil
import subprocess
import sys
import tempfile
import textwrap
from pathlib import Path

REPOSITORY = Path(__file__).resolve().parent.parent
CRATES = REPOSITORY / "crates"

# In what the checker prints: the word before an error, the fact that it is about, a goal that is left open, and the modules before a name.
ERROR = re.compile(r" error(\[[a-z-]+\])?: ")
FACT = re.compile(r" error: `([^`]+)`")
OPEN = re.compile(r"it is not proved that .*\(`([^`]+)`\)")
MODULES = re.compile(r"\b(?:Rattle|Prim|borrow|denote|lib|mathlib|mir|native|types)(?:[.-][\w+-]+)*\.(?=[\w«◌])")


def wrong(message, names=()):
    """Says what is wrong and which names there are."""
    print("\n    ".join([message, *sorted(names)]), file=sys.stderr)
    sys.exit(2)


def pairs_of(lines, prefix=("old: ", "new: ")):
    """The texts to replace and what replaces them, in their order."""
    texts = [line[len(prefix[0]):] for line in lines if line.startswith(prefix)]
    return list(zip(texts[::2], texts[1::2]))


def crate_folder(crate):
    if not (CRATES / crate / "src").is_dir():
        wrong(f"There is no crate {crate}. There are:", (path.parent.name for path in CRATES.glob("*/src")))
    return CRATES / crate


def read_edit(crate, name):
    edits = {path.stem: path for path in crate_folder(crate).glob("must-fail/*.edit")}
    if name not in edits:
        wrong(f"{crate} has no edit {name}. It has:" if edits else f"{crate} has no edits.", edits)
    reason, file, *lines = edits[name].read_text().splitlines()
    return reason, file.removeprefix("file: "), pairs_of(lines)


def changed(crate, file, pairs):
    """The file's text with each text replaced."""
    folder = crate_folder(crate)
    if not (folder / file).is_file():
        files = (path for part in ("src", "specs", "proofs") for path in folder.glob(f"{part}/**/*.*"))
        wrong(f"{crate} has no file {file}. It has:", (str(path.relative_to(folder)) for path in files))
    text = (folder / file).read_text()
    for old, new in pairs:
        if text.count(old) != 1:
            wrong(f"crates/{crate}/{file} has this {text.count(old)} times, not once: {old}")
        text = text.replace(old, new)
    return text


def refusal(output):
    """Where the first fact stands that does not hold, in short the difference or the numbers that the checker shows, and what else does not hold."""
    lines = output.splitlines()
    # An error that only waits for another fact, or is of a name of the code as it was, comes last, after what is missing where a proof was made by the checker.
    errors = [at for at, line in enumerate(lines) if ERROR.search(line)]
    told = [at for at in errors if not re.search(" not checked: |was not admitted|that can be named from here", lines[at])]
    missing = [at for at, line in enumerate(lines) if line.startswith("note: ") and OPEN.search(line)]
    if not told + missing + errors:
        return output[-800:]
    start = end = (told + missing + errors)[0]
    while end + 1 < len(lines) and lines[end + 1].startswith("  "):
        end += 1
    whole = " ".join(line.strip() for line in lines[start:end + 1]).removeprefix("note: ")
    where, _, error = ERROR.sub(" ", whole, 1).partition(": ")
    # The difference after computing is the shorter one, and the whole types say no more.
    shown = re.split(r"(?<!:) expected type | It read |(?: `[^`]+`,?(?: \(of `[^`]+`\))?)+ do(?:es)? not unfold here", MODULES.sub("", error))[0]
    fact, printed, difference = shown.partition(": as printed, ")
    if printed:
        shown = f"{fact}: {difference.split(' computed as far as they go, ')[-1]}"
    shown = f"{where.removeprefix('./')}: {textwrap.shorten(shown, 700, placeholder=' ...')}"
    goal = OPEN.search(whole)
    wanted = [line.partition(" must prove: ")[2] for line in lines if goal and line.startswith(f"note: `{goal[1]}` of ")]
    if any(wanted):
        shown += f"\nIt must prove: {textwrap.shorten(MODULES.sub('', next(filter(None, wanted))), 700, placeholder=' ...')}"
    others = list(dict.fromkeys(fact[1] for at in told if (fact := FACT.search(lines[at]))))[1:]
    return f"{shown}\nNor do these hold: {', '.join(others)}" if others else shown


def try_edit(crate, reason, file, pairs):
    text = changed(crate, file, pairs)
    with tempfile.TemporaryDirectory() as folder:
        copy = Path(folder) / "repository"
        copy.mkdir()
        for name in ("crates", "crates.txt"):
            source = REPOSITORY / name
            try:
                if source.is_dir():
                    shutil.copytree(source, copy / name, symlinks=True)
                elif source.exists():
                    shutil.copy2(source, copy / name)
            except OSError as error:
                wrong(f"{name} could not be copied; does another check write it now? {str(error)[:300]}")
        (copy / "crates" / crate / file).write_text(text)
        print(f"{reason}\ncrates/{crate}/{file}")
        for old, new in pairs:
            print(f"  - {old.strip()}\n  + {new.strip()}")
        checked = subprocess.run(["rt", "check"], cwd=copy / "crates" / crate, capture_output=True, text=True)
        output = (checked.stdout + checked.stderr).replace(f"{copy}/", "")
    if checked.returncode > 1:
        wrong(f"The checker gave no verdict. {output[-800:]}")
    if checked.returncode == 0:
        sys.exit("The checker accepts it.")
    print(f"Refused at {refusal(output)}")


if __name__ == "__main__":
    if len(sys.argv) == 3:
        crate, name = sys.argv[1:]
        try_edit(crate, *read_edit(crate, name))
    elif len(sys.argv) == 5:
        crate, file, old, new = sys.argv[1:]
        try_edit(crate, "An edit of your own.", file, [(old, new)])
    elif sys.argv[1:] in (["-h"], ["--help"]):
        print(__doc__.strip())
    else:
        wrong(__doc__.strip())
