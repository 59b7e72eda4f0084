#!/usr/bin/env python3
"""Brings the names of this repository's own definitions and lemmas to today's spelling, after port.py: words in snake case, types and facts in upper camel case.

usage: tools/spelling.py [--docs]     at the top of the repository

It goes by text, over crates/*/specs, crates/*/proofs, the contracts in crates/*/src and the texts of crates/*/must-fail, and prints the names that would fall together in a file.
Names of the library, of Rattle's own goals and states, of src/, and text in strings are left. With --docs it turns the names in backquotes of README.md and docs/ in place of all that.
"""
import collections
import os
import re
import sys

# A name whose words are joined by dashes, or a name in lower camel case.
DASHED = re.compile(r"(?<![\w'₀-₉◌-])[A-Za-z_][\w'₀-₉]*(?:-[\w'₀-₉]+)+(?![\w'₀-₉]|-[\w◌])")
OPERATOR = re.compile(r"◌([a-z]+(?:-[a-z]+)+)◌")
IMPORT = re.compile(r"^\s*(?:ghost )?use ([^\s;{]+?)\.?\{([^}]*)\}", re.M)
# Names that would fall together with another.
OTHERWISE = {
    "Workbook-agrees": "EveryWorkbookAgrees",
    "Converted-by-cell": "ConvertedCellByCell",
    "Theorem-3-2": "Theorem3_2",
    "Theorem-3-2-of-every-accepted-triangle": "Theorem3_2OfEveryAcceptedTriangle",
    "Theorem-3-2-where-exposures-are-positive": "Theorem3_2WhereExposuresArePositive",
}

# Parts of names of lemmas, where the name of the library that they are about is spelled otherwise today.
PARTS = [(r"natAbs", "nat_abs"), (r"nat_abs_negℤ", "nat_abs_neg_ℤ"), (r"ltZ_(?=true|false)", "lt_z_")]


def files(kind):
    for folder, below, names in os.walk("crates"):
        below[:] = sorted(d for d in below if d != "out")
        for name in sorted(names):
            if name.endswith(kind):
                yield os.path.join(folder, name)


def read(path):
    with open(path, encoding="utf-8") as f:
        return f.read()


def of_a_function(path):
    """Whether the file is the proof of one function: crates/NAME/proofs/FUNCTION.../FILE."""
    parts = path.split(os.sep)
    return parts[2] == "proofs" and len(parts) > 4


def code(text, comment):
    return re.sub(re.escape(comment) + r".*", "", text)


def is_own(module):
    return module.startswith("Rattle.") and module.split(".")[1] in OWN_CRATES


def signature(text, name):
    """The text of a definition's type, over its lines, or None."""
    m = re.search(r"^([ ]*)(?:unfoldable |abbrev |pub )*(record |data )?" + re.escape(name) + r"(?![\w'-])([^\n]*)((?:\n\1[ ]+[^\n]*)*)", text, re.M)
    if not m or (":" not in m.group(3) and not m.group(2)):
        return None
    return (m.group(2) or "") + m.group(3) + m.group(4)


def makes_a_type(sig):
    if sig.startswith(("record", "data")):
        return True
    body = re.sub(r"\s+", " ", sig).strip()
    return bool(re.search(r"(→|:) Type( \d)?$", body))


def camel(name):
    return "".join(w[:1].upper() + w[1:] for w in name.split("-"))


def names_of_the_repository():
    library, own, types = set(), set(), set()
    for path in files((".antt", ".rt")):
        text = read(path)
        for m in IMPORT.finditer(text):
            if not is_own(m.group(1)):
                library |= {n.strip().split(" as ")[0] for n in m.group(2).split(",")}
    for path in files(".antt"):
        text = code(read(path), "--")
        for m in DASHED.finditer(text):
            name = m.group()
            if of_a_function(path) and not re.search(r"^\s*(?:unfoldable |abbrev |pub )*" + re.escape(name) + r"(?![\w'-])", text, re.M):
                continue
            if name not in library:
                own.add(name)
                if name not in types and name[0].isupper():
                    sig = signature(text, name)
                    if sig and makes_a_type(sig):
                        types.add(name)
        own |= set(OPERATOR.findall(text))
    # the modules that Rattle makes of a type's variants, and its goals and states
    own -= {n for n in own if re.match(r"(Need|After|At|In|Then|Else|Start)-", n) and n not in types}
    return {n: OTHERWISE.get(n) or (camel(n) if n in types else n.replace("-", "_")) for n in own}


def operators(text):
    return OPERATOR.sub(lambda m: "◌" + m.group(1).replace("-", "_") + "◌", text)


def turned(text, names):
    return operators(DASHED.sub(lambda m: names.get(m.group(), m.group()), text))


def turned_antt(text, names, imported):
    """A file of antt: names that it takes from the library stay, and those behind `tie.`; in comments, names in backquotes."""
    mine = {a: b for a, b in names.items() if a not in imported}

    def line(s):
        at = re.search(r"(^|\s)--(\s|$)", s)
        body, comment = (s[: at.start()], s[at.start() :]) if at else (s, "")
        body = DASHED.sub(lambda m: m.group() if body[: m.start()].endswith("tie.") else mine.get(m.group(), m.group()), operators(body))
        return body + re.sub(r"`[^`]*`", lambda m: turned(m.group(), mine), comment)

    return "\n".join(line(s) for s in text.split("\n"))


def turned_source(text, names):
    """A source: names in `ghost` lines and in clauses, not in strings; in comments, names in backquotes."""
    out, clause = [], False
    for s in text.split("\n"):
        if re.match(r"\s*(requires|ensures|ghost)\b", s):
            clause = True
        at = s.find("//")
        if re.match(r"\s*//", s):
            out.append(re.sub(r"`[^`]*`", lambda m: turned(m.group(), names), s))
            continue
        out.append(turned(s, names) if clause else s)
        if clause and (s.strip().endswith((";", "}")) and s.count("}") >= s.count("{") or s.strip() == "{"):
            clause = False
    return "\n".join(out)


def main():
    global OWN_CRATES
    OWN_CRATES = set(os.listdir("crates"))
    if "--docs" in sys.argv:
        names = dict(line.rstrip("\n").split("\t") for line in open("tools/spelling.txt", encoding="utf-8"))
        words = set()
        for path in files((".antt", ".rt")):
            words |= set(re.findall(r"[\w'₀-₉]+", read(path)))

        def name(m):
            # what port.py has turned stands in no table, but in the files
            snake = m.group().replace("-", "_")
            return names.get(m.group()) or (snake if snake in words else m.group())

        pages = ["README.md", "bench/run", "include/juniperprow.h"] + [os.path.join("docs", f) for f in os.listdir("docs") if f.endswith(".md") and f != "PORT.md"]
        pages += [os.path.join("docs/changes", f) for f in os.listdir("docs/changes")]
        for path in pages:
            text = read(path)
            new = re.sub(r"`[^`\n]*`", lambda m: m.group() if m.group().startswith(("`tools/", "`bash", "`rt ")) else re.sub(r" \.(?=[a-z])", ".", DASHED.sub(name, m.group())), text)
            if new != text:
                with open(path, "w", encoding="utf-8") as f:
                    f.write(new)
        return
    names = names_of_the_repository()
    back = collections.defaultdict(set)
    for a, b in names.items():
        back[b].add(a)
    for b, several in sorted(back.items()):
        if len(several) > 1:
            print("fall together:", b, sorted(several))
    for path in files(".antt"):
        text = read(path)
        imported = {n.strip().split(" as ")[0] for m in IMPORT.finditer(text) if not is_own(m.group(1)) for n in m.group(2).split(",")}
        words = set(re.findall(r"[\w'₀-₉]+", code(text, "--")))
        for name in {m.group() for m in DASHED.finditer(code(text, "--"))} - imported:
            if names.get(name) in words:
                print(f"already there: {path}: {name} would be {names[name]}")
        new = turned_antt(text, names, imported)
        for old, today in PARTS:
            new = re.sub(old, today, new)
        if new != text:
            with open(path, "w", encoding="utf-8") as f:
                f.write(new)
    for path in files(".rt"):
        text = read(path)
        new = turned_source(text, names)
        if new != text:
            with open(path, "w", encoding="utf-8") as f:
                f.write(new)
    for path in files(".edit"):
        text = read(path)
        antt = bool(re.search(r"^file: (specs|proofs)/", text, re.M))
        lines = [turned(s, names) if s.startswith(("old:", "new:")) and (antt or "⌝" in s or "ensures" in s or "requires" in s) else re.sub(r"`[^`]*`", lambda m: turned(m.group(), names), s) for s in text.split("\n")]
        new = "\n".join(lines)
        if new != text:
            with open(path, "w", encoding="utf-8") as f:
                f.write(new)
    with open("tools/spelling.txt", "w", encoding="utf-8") as f:
        f.writelines(f"{a}\t{b}\n" for a, b in sorted(names.items()))


main()
