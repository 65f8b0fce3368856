#!/usr/bin/env python3
"""Brings the names of definitions and lemmas to one spelling: words in snake case, types in camel case, `'` for a prime.

usage: python3 tools/respell.py        at the top of the repository, once; prints the names that fall together

Names of functions, parameters, fields and types of src/ stay, and so do texts, inputs and outputs. A name that would fall
together with another one has its new spelling in OWN.
"""

import collections
import glob
import os
import re
import sys

# a name's new spelling where the rule's would fall together with another name
OWN = {
    "all-some": "all_some_lem",
    "are-tokens": "are_tokens_lem",
    "coefficient-at": "coefficient_at_lem",
    "first-place": "first_place_lem",
    "greatest-end": "greatest_end_lem",
    "least-end": "least_end_lem",
    "limit-checked": "limit_checked_lem",
    "places-from": "places_from_lem",
    "rule-at": "rule_at_lem",
    "rule-line": "rule_line_lem",
    "rules-from": "rules_from_lem",
    "terms-from": "terms_from_lem",
    "tokens-from": "tokens_from_lem",
    "twos-from": "twos_from_lem",
    "two-places": "two_places_lem",
    "verdict-answer": "verdict_answer_lem",
    "visits-from": "visits_from_lem",
    "cut-to": "cut_to_lem",
    "bit-and": "bit_and_lem",
    "bit-or": "bit_or_lem",
    "history-law": "history_law_lem",
    "passing-law": "passing_law_lem",
    "sweeps-law": "sweeps_law_lem",
    "place-count": "place_count_lem",
    "no-rule": "no_rule_lem",
    "T-from": "T_from",
    "Arc-consistent": "ArcConsistentSum",
    "in-range": "within_range",
    "noPlace": "place_none",
    "noRule": "rule_none",
    "somePlace": "place_some",
    "ruleLine": "rule_line_of",
    "atSecond": "at_second_of",
    "countFits": "field_count_fits",
    "placeAt": "place_of_term",
    "positionFrom": "position_after",
    "readExpansion": "expansion_read",
    "readGame": "game_read",
    "sumBook": "sum_book_of",
    "choiceBook": "choice_book_of",
    "sumLine": "sum_line_of",
    "pairLine": "pair_line_of",
    "apartLine": "apart_line_of",
    "lineKind": "kind_of_line",
    "lineRecord": "record_of_line",
    "nextLine": "line_next",
    "numberWithin": "number_in",
    "placeOn": "place_on_side",
    "readTokens": "tokens_read",
    "greatestProduct": "greatest_product_of",
    "leastProduct": "least_product_of",
    "isBound": "bound_test",
    "isName": "name_test",
    "isRuleLine": "rule_line_test",
    "isSum": "sum_test",
    "isTerm": "term_test",
    "areTerms": "terms_test",
    "areTwoPlaces": "two_places_test",
    "firstLine": "first_line_of",
    "lineTotal": "line_total_of",
    "place-getD": "place_get",
}

TOKEN = re.compile(r"[^\s(){}\[\].,;«»]+")
CAMEL = re.compile(r"[a-z][A-Za-z0-9_'-]*[A-Z][A-Za-z0-9_'-]*")
HEAD = r"\s*(?:(?:abbrev|unfoldable|pub|data|record|module)\s+)*"
SIGNED = re.compile(HEAD + r"([^\s(){}\[\].,;:]+)\s*(?:[({].*)?:(?![=:])(?:\s|$)")
NAMED = re.compile(r"\s*(?:(?:abbrev|unfoldable|pub)\s+)*(?:data|record)\s+([^\s(){}\[\].,;:]+)")
ANSWER = ("Answers.antt", "Invariants.antt", "Choices.antt", "Proof.antt")


def snake(name):
    """The new spelling by the rule."""
    if name in OWN:
        return OWN[name]
    name = name.replace("\u2032", "'")
    if name[:1].isupper():
        parts = name.split("-")
        return parts[0] + "".join(p[:1].upper() + p[1:] for p in parts[1:])
    name = name.replace("-", "_")
    return re.sub(r"(?<=[a-z0-9'])([A-Z])(?![A-Z])", lambda m: "_" + m.group(1).lower(), name)


def read(path):
    with open(path, encoding="utf-8") as f:
        return f.read()


def declared(paths):
    """The names that the repository's own definitions, fields and lemmas have, and the files that declare them."""
    names = collections.defaultdict(set)
    for path in paths:
        if os.path.basename(path) in ANSWER:
            continue
        for line in read(path).splitlines():
            if line.lstrip().startswith("--") or line.lstrip().startswith("use "):
                continue
            for m in (SIGNED.match(line), NAMED.match(line)):
                if m and not set(m.group(1)) & set("◌≡→=<>≤") and m.group(1) not in ("where", "let", "_"):
                    names[m.group(1)].add(path)
    return names


def turned(path, text, table):
    """The text with its own names respelled; the lines that take names of the library are left."""
    answer = os.path.basename(path) in ANSWER
    out = []
    for line in text.splitlines(keepends=True):
        bare = line.lstrip()
        if bare.startswith(("use ", "ghost use ", "pub use ")) and not re.search(r"use Rattle\.(?!std\b)", line):
            out.append(line)
            continue

        def one(m):
            word = m.group(0)
            before = line[m.start() - 1:m.start()]
            if word not in table:
                return word
            if answer and before == "." and not bare.startswith("use ") and word not in FIELDS:
                return word
            return table[word]

        out.append(TOKEN.sub(one, line))
    return "".join(out)


def clauses(text):
    """The parts of a source file that are clauses or ghost lines: their beginnings and ends."""
    parts = []
    for m in re.finditer(r"ghost use [^;]*;", text):
        parts.append(m.span())
    for m in re.finditer(r"\b(?:ensures|requires|also_owns|also_shares|decreases|invariant)\b[^{;]*\{|\bghost \w+\s*:\s*\{|\bghost \w+[^={;]*=\s*\{", text):
        depth, i = 1, m.end()
        while depth and i < len(text):
            depth += {"{": 1, "}": -1}.get(text[i], 0)
            i += 1
        parts.append((m.start(), i))
    return parts


def turned_source(path, text, table):
    spans = clauses(text)
    out, at = [], 0
    for a, b in sorted(spans):
        if a < at:
            continue
        out.append(text[at:a])
        out.append(turned(path, text[a:b], table))
        at = b
    out.append(text[at:])
    return "".join(out)


def main():
    antt = sorted(glob.glob("crates/*/specs/**/*.antt", recursive=True) + glob.glob("crates/*/proofs/**/*.antt", recursive=True))
    sources = sorted(glob.glob("crates/*/src/**/*.rt", recursive=True))
    names = declared(antt)
    for path in antt:
        for word in TOKEN.findall(read(path)):
            if CAMEL.fullmatch(word) and "-" not in word:
                names.setdefault(word, set()).add(path)
    table = {n: snake(n) for n in names if snake(n) != n}

    # names that fall together
    rust = collections.defaultdict(set)
    for path in sources:
        text = read(path)
        for m in re.finditer(r"\bfn (\w+)|\blet (?:mut )?(\w+)|\b(\w+): ", text):
            for w in m.groups():
                if w:
                    rust[w].add(path)
    library = set()
    for path in antt + sources:
        for m in re.finditer(r"use Rattle\.std\.[\w.]*\.\{([^}]*)\}", read(path)):
            library |= {w.strip() for w in m.group(1).split(",")}
    back = collections.defaultdict(set)
    for old, new in table.items():
        back[new].add(old)
    for new, olds in sorted(back.items()):
        why = []
        if len(olds) > 1:
            why.append("each other")
        if new in names:
            why.append("one that stands: " + " ".join(sorted({p.split("crates/")[1] for p in names[new]})[:3]))
        if new in library:
            why.append("the library's")
        if new in rust:
            why.append("src: " + " ".join(sorted({p.split("crates/")[1] for p in rust[new]})[:4]))
        if why:
            print(new, "from", ", ".join(f"{o} ({' '.join(sorted({p.split('crates/')[1] for p in names[o]})[:3])})" for o in sorted(olds)), "meets", "; ".join(why))

    if "--look" in sys.argv:
        return
    for path in antt:
        text = read(path)
        new = turned(path, text, table)
        if new != text:
            with open(path, "w", encoding="utf-8") as f:
                f.write(new)
    for path in sources:
        text = read(path)
        new = turned_source(path, text, table)
        if new != text:
            with open(path, "w", encoding="utf-8") as f:
                f.write(new)


def fields():
    """The names of record fields."""
    found = set()
    for path in glob.glob("crates/*/specs/**/*.antt", recursive=True) + glob.glob("crates/*/proofs/**/*.antt", recursive=True):
        inside = False
        for line in read(path).splitlines():
            if re.match(r"\s*(?:(?:abbrev|unfoldable|pub)\s+)*record\b.*where", line):
                inside = True
                continue
            if not line.strip():
                inside = False
            if inside:
                m = re.match(r"\s+pub\s+([^\s:]+)\s*:", line)
                if m:
                    found.add(m.group(1))
    return found


if __name__ == "__main__":
    FIELDS = fields()
    main()
