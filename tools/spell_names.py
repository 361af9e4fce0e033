#!/usr/bin/env python3
"""Brings the definitions and lemmas of specs/ and proofs/ to one spelling: facts and types in upper camel case
(Shows-true becomes ShowsTrue), everything else in snake case (check-result becomes check_result).

usage: tools/spell_names.py [--docs]     at the top of the repository, once; with --docs also in README.md and docs/

It renames what a file of specs/ or proofs/ declares under a name with a dash: definitions, records, their fields,
constructors and lemmas. Names that the prover makes of the code (goals, steps, loops) and local names stay. It prints
the names that would fall together with one that stood already, and leaves those to NAMED.
"""

import collections
import glob
import re
import sys

WORD = r"[\w'\-]"
DECLARED = re.compile(rf"^(\s*)((?:abbrev |unfoldable |pub |record |data )*)({WORD}+)(?: [({{].*)? : (.*)$")
ANTT = sorted(glob.glob("crates/*/specs/**/*.antt", recursive=True) + glob.glob("crates/*/proofs/**/*.antt", recursive=True))
RATTLE = sorted(glob.glob("crates/*/src/**/*.rt", recursive=True))

# Names that the rule alone would bring together with another.
NAMED = {}

# What the general script respelled already, since the library had the same spelling; for the pages of docs/ alone.
RESPELLED = """abs-neg after-both after-one all-any all-near all-pass all-replicate all-small all-true as-rows asked-is at-here at-low
at-place best-of block-inside block-start blocks-at blocks-more both-ends both-is branch-in branch-read branch-same branches-at
by-first check-sound cons-same copied-next counting-more end-of exact-none field-at first-by first-of first-passes first-taken
fits-sum follows-branch found-at from-zero front-length gathered-next gathered-none going-end going-more going-start header-at
header-of held-none holds-more holds-of holds-same if-none if-some in-block is-ok is-open le-not-lt length-pairs lines-from
lines-of low-first met-all more-by more-within natAbs-mul next-low next-of no-row none-between none-from none-so nth-left
nth-right number-more number-of ok-same one-more or-else pair-fits pair-is pair-parts pair-place paired-is part-at part-end
part-none part-of part-small part-step pass-all pass-on product-is put-whole read-table refusal-is refused-all room-next
room-whole row-at row-by row-more row-of row-step rows-are rows-few rows-in same-length sent-back set-front shares-of small-all
so-far some-share sound-none start-of starts-more starts-none sum-added sum-by sum-fits sum-is sum-more sum-of table-of
table-same tail-of taken-none target-small text-of then-ok told-at total-kept turn-small two-bytes value-none whole-from
whole-is whole-of whole-open wide-enough within-none word-below word-piece word-two zero-row""".split()


def read(path):
    with open(path, encoding="utf-8") as f:
        return f.read()


def respelled(name):
    if name in NAMED:
        return NAMED[name]
    if name[0].isupper():
        return "".join(part[:1].upper() + part[1:] for part in name.split("-"))
    return name.replace("-", "_")


def declared(texts):
    """The names with a dash that the files declare, and those of them that are fields or constructors."""
    names, fields, made = set(), set(), set()
    for text in texts.values():
        inside = False
        for line in text.split("\n"):
            if re.match(r"\s*(pub )?(record|data) ", line):
                inside = True
            elif line and not line.startswith(" "):
                inside = False
            m = DECLARED.match(line)
            if not m:
                continue
            name, type_ = m.group(3), m.group(4)
            if re.match(r"(goal|need)\.", type_):
                made.add(name)
            elif "-" in name:
                names.add(name)
                if inside and not re.search(r"record|data", m.group(2)):
                    fields.add(name)
    return names - made, fields - made


def aliases(text):
    """The words of a file that name a module."""
    found = set(re.findall(r"^(?:ghost )?use [\w.+'\-]+ as ([\w\-]+)", text, re.M))
    found |= {m.split(".")[-1] for m in re.findall(r"^(?:ghost )?use ([\w.+'\-]+);?$", text, re.M)}
    return found - {"goal"}


def turned(text, names, fields):
    modules = aliases(text)

    def one(m):
        parts = m.group(0).split(".")
        new = [parts[0] if parts[0] not in names else respelled(parts[0])]
        for part in parts[1:]:
            qualified = parts[0] in modules or parts[0] == "Rattle"
            new.append(respelled(part) if part in fields or part in names and qualified else part)
        return ".".join(new)

    return re.sub(rf"(?<!{WORD}){WORD}*(?:\.{WORD}+)+(?!{WORD})|(?<!{WORD}){WORD}+(?!{WORD})", one, text)


def only_clauses(text, names, fields):
    lines = []
    for line in text.split("\n"):
        s = line.strip()
        # a clause may run over several lines, and Rust's own lines have no name with a dash
        lines.append(line if s.startswith("//") or '"' in s and not re.match(r"(ghost|requires|ensures)", s) else turned(line, names, fields))
    return "\n".join(lines)


def main():
    texts = {p: read(p) for p in ANTT}
    sources = {p: read(p) for p in RATTLE}
    names, fields = declared(texts)
    words = collections.defaultdict(set)
    for p, text in (texts | sources).items():
        for w in re.findall(WORD + "+", text):
            words[w].add(p)
    for n in sorted(names):
        to = respelled(n)
        both = sorted(words[n] & words.get(to, set()))
        if both:
            print(f"falls together: {n} and {to} in {', '.join(both[:4])}")
    said = collections.defaultdict(list)
    for n in sorted(names):
        said[respelled(n)].append(n)
    for to, of in said.items():
        if len(of) > 1:
            print(f"falls together: {' and '.join(of)} as {to}")
    for p, text in texts.items():
        new = turned(text, names, fields)
        if new != text:
            open(p, "w", encoding="utf-8").write(new)
    for p, text in sources.items():
        new = only_clauses(text, names, fields)
        if new != text:
            open(p, "w", encoding="utf-8").write(new)
    if "--docs" in sys.argv:
        for p in sorted(glob.glob("README.md") + glob.glob("docs/*.md")):
            text = read(p)
            new = turned(text, names | set(RESPELLED), fields)
            if new != text:
                open(p, "w", encoding="utf-8").write(new)
    print(f"{len(names)} names")


main()
