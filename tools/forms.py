#!/usr/bin/env python3
"""Counts forms of code in crates/*/src that a newer form may replace: `tools/forms.py [COMMIT]`, or of the files as they lie here; `-v` lists the places.

docs/DESIGN-PASS.md says what is counted for and what became of it."""
import collections
import re
import subprocess
import sys

def files(commit):
    if commit:
        names = subprocess.run(["git", "ls-tree", "-r", "--name-only", commit, "crates"], capture_output=True, text=True, check=True).stdout.split()
        for name in names:
            if re.fullmatch(r"crates/\w+/src/.*\.rt", name):
                yield name, subprocess.run(["git", "show", f"{commit}:{name}"], capture_output=True, text=True, check=True).stdout
    else:
        import glob
        for name in sorted(glob.glob("crates/*/src/**/*.rt", recursive=True)):
            yield name, open(name).read()

LINES = {
    "1 enums": r"^\s*(pub )?enum ",
    "1 sentinels, by their comments": r"^\s*//.*(\bor (the record count|n\b|64|1,024)|n where there is none|over 64 where|64 where|2 \^ 64|not 0\b|number 0\b|; 0 and 0 where)",
    "1 kinds as numbers, arms": r"^\s+[0-9]+(\.\.=[0-9]+)?( \| [0-9]+(\.\.=[0-9]+)?)* =>",
    "1 kinds as numbers, comparisons": r"(kind|\b[es]\[8 \* [^]]*\]|script\[8 \* [^]]*\]|kind\([a-z]+, [a-z]\)) (==|!=|<=) [0-9]+|mark (==|!=) [0-9]",
    "1 refusals as numbers": r"refus(ed|ing)\([0-9]+|number: [0-9]+|\.number (==|!=) 0",
    "3 while and loop": r"^\s*('\w+: )?(while|loop)\b",
    "4 conversions, comparisons, words and printing as functions": r"^\s*(pub )?fn (wide\w*|index|low|same_view|outcome_number|\w+_words|passed_word|resting|refused|refusing|tried|print\w*|put_number|put_word)\(",
    "6 lengths and places beside buffers": r"^\s+(n|count|depth|at): u(size|32),$|keys: &(mut )?\[u64\](, n: usize)?|st: &(mut )?\[u16\]|frames: &mut|(bodies|marks|numbers)(: &(mut )?\[|: \[)",
    "7 switches on a step": r"^\s*(pub )?enum Test|: Test\b|fn\(\w*\) ->|dyn Fn",
    "8 clause names with a number": r"^\s*(requires|ensures) (\w+_2|le_n|le_kind) \{",
}

FUNCTION = re.compile(r"^( *)(?:pub )?(?:extern \"C\" )?fn (\w+)(<[^(]*>)?\((.*?)\)( -> [^\n]*?)?(?:\n(.*?)^\1\{$| \{$)(.*?)^\1\}$", re.S | re.M)

def parameters(text):
    depth, out, part = 0, [], ""
    for letter in text:
        if letter in "<[(":
            depth += 1
        if letter in ">])":
            depth -= 1
        if letter == "," and depth == 0:
            out.append(part)
            part = ""
        else:
            part += letter
    return [p for p in out + [part] if p.strip()]

def main():
    words = [w for w in sys.argv[1:] if w != "-v"]
    told = "-v" in sys.argv
    lines = collections.defaultdict(list)
    facts = collections.defaultdict(set)
    shapes = collections.defaultdict(list)
    long = []
    for name, text in files(words[0] if words else None):
        crate = name.split("/")[1]
        for number, line in enumerate(text.split("\n"), 1):
            for what, form in LINES.items():
                if re.search(form, line):
                    lines[what].append(f"{name}: {line.strip()}")
        for match in FUNCTION.finditer(text):
            _, function, _, taken, _, clauses, body = match.groups()
            place = f"{crate}::{function}"
            if len(parameters(taken)) >= 6:
                long.append(f"{place} {len(parameters(taken))}")
            for fact in re.findall(r"(?:requires|ensures)(?: \w+)? \{ (.*) \}", clauses or ""):
                facts[fact].add(place)
            shape = re.sub(r"\b(u8|u16|u32|u64|usize)\b", "T", taken + body)
            shape = re.sub(r"[0-9][0-9_a-f]*", "N", re.sub(r"//.*", "", shape))
            shape = re.sub(r"\s+", " ", shape).strip()
            shapes[shape].append(place)
    rows = [(what, lines[what]) for what in LINES]
    rows.append(("2 functions that have another's text but for types and numbers", [" = ".join(v) for v in shapes.values() if len(v) > 1]))
    often = {fact: places for fact, places in facts.items() if len(places) >= 3}
    rows.append(("5 clauses that stand in three functions or more", [f"{len(p)}: {fact}: {' '.join(sorted(p))}" for fact, p in sorted(often.items(), key=lambda x: -len(x[1]))]))
    rows.append(("5 functions with six parameters or more", sorted(long)))
    for what, places in sorted(rows):
        print(f"{what}: {len(places)}")
        if told:
            for place in places:
                print("   ", place)

main()
