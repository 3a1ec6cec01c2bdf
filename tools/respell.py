#!/usr/bin/env python3
"""Brings the repository's own definitions and lemmas to one spelling: snake case for all but types, facts and modules.

usage: python3 tools/respell.py [FOLDER]     rewrites crates/*/{src,specs,proofs,must-fail} of FOLDER (this folder)

A name that is defined in specs/ or proofs/ (at any level: definition, lemma, field, constructor, `let`) and has a dash
or a capital after a small letter is written with underscores. Left alone: names of Rattle's own (goals, steps and what
stands below `c`, `w`, `l` or `goal`), names that a file imports from the library, comments, strings, and Rust code.
Where a new name would fall together with another of the same file, MEANT gives another; what is left of such is printed.
"""

import os
import re
import sys

# names that would fall together with another
MEANT = {
    "sameSet": "is_same_set",
    "sameMove": "is_same_move",
    "sameMoves": "is_same_moves",
    "sameTask": "is_same_task",
    "share-at": "share_at_move",
    "bit-or": "bit_of_or",
    "bit-and": "bit_of_and",
    "bit-less": "bit_of_less",
    "countedCharge": "charge_if_counted",
    "singleEstimate": "estimate_by_singles",
    "pairEstimate": "estimate_by_pairs",
    "singlePlace": "place_of_single",
    "pairPlace": "place_of_pair",
    "answerText": "text_of_answer",
    "refusedText": "text_of_refusal",
    "planText": "text_of_plan",
    "noneText": "text_of_none",
    "fullText": "text_of_full",
    "pendingText": "text_of_pending",
}

WORD = re.compile(r"[^\s(){}\[\],;:.\"@]+")
DEFINED = re.compile(r"^\s*(?:abbrev |unfoldable |mutual )*(?:pub )?(?:data |record |ruleset |\| )?(?:pub )?([^\s:(){}.]+)(?:\s+[({].*[)}])*\s*:\s+(?!=)(\S+)")
BOUND = re.compile(r"(?:\blet |[({]|\bas (?=[^\s:(){}.,]+(?:[,}\s]|$)))([^\s:(){}.,]+)(?= [=:]|[,}]|$)")
ALIAS = re.compile(r" as (\w+)(?=[,}])")
IMPORT = re.compile(r"^\s*(?:ghost )?(?:pub )?use ([^;{]*)(?:\{([^}]*)\})?")
MADE = {"c", "w", "l", "goal"}
# ghost members of traits, which src/ declares
MEMBERS = {"atMost"}


def files(top, ends):
    for folder, dirs, names in os.walk(os.path.join(top, "crates")):
        dirs[:] = sorted(d for d in dirs if d != "out")
        for n in sorted(names):
            if n.endswith(ends):
                yield os.path.join(folder, n)


def read(path):
    with open(path, encoding="utf-8") as f:
        return f.read()


def odd(name):
    return name[0].isalpha() and ("-" in name or "′" in name or re.search(r"^[a-z].*[a-z0-9][A-Z]", name)) and not re.search(r"[^\w'′-]", name)


def respelt(name):
    if name in MEANT:
        return MEANT[name]
    name = name.replace("′", "'")
    if name[0].isupper():
        return re.sub(r"-(\w)", lambda m: m.group(1).upper(), name)
    name = re.sub(r"([a-z0-9])([A-Z])", lambda m: m.group(1) + "_" + m.group(2).lower(), name)
    return re.sub(r"_+", "_", name.replace("-", "_"))


def defined(top):
    """Names of the repository's own, the fields among them, and those that are bound by a let, by file."""
    names, fields, made, bound = set(MEMBERS), set(MEMBERS), set(), {}
    for p in files(top, ".antt"):
        for line in read(p).splitlines():
            if line.lstrip().startswith("--"):
                continue
            m = DEFINED.match(line)
            if m:
                if m.group(2).startswith("goal."):
                    made.add(m.group(1))
                    continue
                names.add(m.group(1))
                if line[0] == " ":
                    fields.add(m.group(1))
            bound.setdefault(p, set()).update(w for w in BOUND.findall(line) if not line.lstrip().startswith("use ") or f"as {w}" in line)
    return names - made, fields, bound


def foreign(text):
    """Names that a file takes from the library."""
    out = set()
    for line in text.splitlines():
        m = IMPORT.match(line)
        if m and re.match(r"(?:Rattle\.std\b|borrow\b|Prim\b|mathlib\b|lib\b)", m.group(1)):
            for part in re.split(r"[,\s]+", m.group(2) or ""):
                out.add(part)
    return out


def root(text, at):
    """The first name of the path that ends before the dot at `at`, and how many parts stand between."""
    i = at
    parts = 0
    while i > 0 and text[i] == ".":
        j = i
        while j > 0 and WORD.match(text[j - 1]):
            j -= 1
        if j == i:
            return "(", parts
        word = text[j:i]
        parts += 1
        i = j - 1
    return word.rstrip("'0123456789"), parts


def turned(text, names, fields, lets, skip, made):
    taken = names | lets

    def one(m):
        word = m.group(0)
        if word in skip or word not in taken or not odd(word):
            return word
        if m.start() > 0 and m.string[m.start() - 1] == ".":
            first, depth = root(m.string, m.start() - 1)
            if first in made and (depth < 2 or word not in fields):
                return word
            if word not in names:
                return word
        return respelt(word)

    return WORD.sub(one, text)


def code_parts(line, comment, quoted):
    """Splits a line into (is code, text): comments and, where quoted, strings are no code."""
    cut = len(line)
    if comment in line:
        for m in re.finditer(re.escape(comment), line):
            if not quoted or line[: m.start()].count('"') % 2 == 0:
                cut = m.start()
                break
    head, tail = line[:cut], line[cut:]
    parts = []
    if quoted:
        for i, piece in enumerate(head.split('"')):
            parts.append((i % 2 == 0, piece if i == 0 else '"' + piece))
    else:
        parts.append((True, head))
    return parts + [(False, tail)]


def main(argv):
    top = argv[0] if argv else "."
    names, fields, bound = defined(top)
    changed = 0
    for p in list(files(top, (".antt", ".rt", ".edit"))):
        text = read(p)
        skip = foreign(text)
        made = MADE if os.path.basename(p) in ("Answers.antt", "Invariants.antt") else set()
        lets = bound.get(p, set()) if p.endswith(".antt") else set(ALIAS.findall(text))
        lines = []
        for line in text.split("\n"):
            comment, quoted = ("--", False) if p.endswith(".antt") else ("//", True)
            if p.endswith(".antt") and not line.lstrip().startswith("--"):
                lines.append(turned(line, names, fields, lets, skip, made))
                continue
            lines.append("".join(turned(t, names, fields, lets, skip, made) if code else t for code, t in code_parts(line, comment, quoted)))
        new = "\n".join(lines)
        if new != text:
            before = set(WORD.findall(text))
            for w in sorted(before):
                if w in (names | lets) and odd(w) and w not in skip and respelt(w) in before:
                    print(f"look: {p}: {w} falls together with {respelt(w)}")
            with open(p, "w", encoding="utf-8") as f:
                f.write(new)
            changed += 1
    print(f"{changed} files respelt")
    return 0


if __name__ == "__main__":
    raise SystemExit(main(sys.argv[1:]))
