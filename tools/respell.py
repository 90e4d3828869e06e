#!/usr/bin/env python3
"""Brings definitions and lemmas to the spelling of today's Rattle: words in snake case, and a lemma that would then have its definition's name gets _lem.

usage: tools/respell.py [FOLDER]    after port.py, once, at the top of the repository (or in FOLDER)

Names are those that the .antt files of crates/ declare: definitions, lemmas, fields and constructors that begin with a small letter and have a capital in a word.
Functions, fields and constants of src/ are in snake case already. Comments keep the words of the papers.
"""

import os
import re
import sys

# Words that the papers print, and that comments keep as printed.
PRINTED = {"callEvent", "toFOL"}
# A set of facts is a fact of each: spelled as a type.
FACTS = {"toFOL": "ToFol"}
# Lemmas that would have the name of a definition: their old spelling, and the files that have or bring in the lemma.
LEMMAS = {
    "same_view": "crates/calculus/proofs/Lists.antt",
    "known_only": "crates/cases/proofs/Cases.antt",
    "too_many": "crates/guideline/proofs/limits/Laws.antt",
    "taken_back": "crates/calculus/proofs/Cases.antt",
}
SEGMENT = re.compile(r"[A-Za-z_\u0370-\u03ff][\w']*")
DECLARED = re.compile(r"^\s*(?:(?:abbrev|unfoldable|pub) )*(?:data |record )?([^\s:(){}\[\].,;=]+)(?:\s*[({][^)}]*[)}])*\s*:(?:\s|$)")
HUMP = re.compile(r"[a-z0-9'][A-Z]")
# Aliases of imports, and a local name.
LOCAL = {"afterAtom", "afterCondition", "afterTrigger", "onTrees", "putTerm", "recordCount", "settleSecond"}


def snake(word):
    return FACTS.get(word) or re.sub(r"[A-Z]+", lambda m: "_" + m.group().lower(), word)


def files(top, endings):
    for folder, below, names in os.walk(os.path.join(top, "crates")):
        below[:] = sorted(d for d in below if d != "out")
        for name in sorted(names):
            if name.endswith(endings):
                yield os.path.join(folder, name)


def words(top):
    """The words of declared names that have a hump."""
    found = set()
    for path in files(top, (".antt",)):
        for line in open(path, encoding="utf-8"):
            m = DECLARED.match(line)
            if m and not line.startswith(("use ", "--", "unfolding ")):
                found |= {w for w in m.group(1).split("-") if w[:1].islower() and HUMP.search(w)}
    return found


def lemma(text, word):
    return re.sub(r"(?<![\w.'-])%s(?![\w.'-])" % word, word + "_lem", text)


def turned(line, mark, of):
    """The line with its names turned, a comment's printed words left."""
    at = line.find(mark)
    while at > 0 and line[at - 1] not in " \t":
        at = line.find(mark, at + 1)
    code, comment = (line, "") if at < 0 else (line[:at], line[at:])
    comment = SEGMENT.sub(lambda m: of.get(m.group(), m.group()) if m.group() not in PRINTED else m.group(), comment)
    return SEGMENT.sub(lambda m: of.get(m.group(), m.group()), code) + comment


def main():
    top = sys.argv[1] if len(sys.argv) > 1 else "."
    for word, home in LEMMAS.items():
        module = "Rattle." + home[len("crates/"):-len(".antt")].replace("/", ".")
        for path in files(top, (".antt",)):
            text = open(path, encoding="utf-8").read()
            if path.endswith(home) or re.search(r"use %s\.\{[^}]*\b%s\b" % (re.escape(module), word), text):
                new = lemma(text, word)
                if new != text:
                    open(path, "w", encoding="utf-8").write(new)
    of = {w: snake(w) for w in words(top) | LOCAL}
    taken = {}
    for w, s in sorted(of.items()):
        if s in taken:
            sys.exit(f"{w} and {taken[s]} fall together in {s}")
        taken[s] = w
    changed = 0
    for path in files(top, (".antt", ".rt", ".edit")):
        text = open(path, encoding="utf-8").read()
        mark = "//" if path.endswith(".rt") else "#" if path.endswith(".edit") else "--"
        new = "".join(turned(line, mark, of) for line in text.splitlines(keepends=True))
        if new != text:
            open(path, "w", encoding="utf-8").write(new)
            changed += 1
    print(f"{len(of)} words turned in {changed} files")


main()
