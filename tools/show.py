#!/usr/bin/env python3
"""Turns the text of a show into its two files and back, and says in words what a refusal means.

    show.py build DIR ...               writes DIR/show.scr from DIR/show.txt, and DIR/show.gl from DIR/guideline.txt
    show.py dump DIR ...                prints the text of DIR/show.scr and DIR/show.gl
    show.py check DIR ...               fails unless both texts give the stored bytes, and so does what dump prints
    show.py explain DIR NUMBER PLACE    prints a line that says where this refusal of the show lies, and what is wrong there
    show.py --help                      prints this text

A script's text has its records as kind:number, with blanks or line ends between. A guideline's text has a clause on each line:

    fact p0(3:1, 3:2)
    rule p1(x, z) :- p0(x, y), p1(y, z)
    log 1 after 0, 0 where t1 < t2, p0(x0, x1), x0 = x1, x0 != x2, no 2 since t1

p0 to p15 are predicates; x, y, z and w are a rule's variables 0 to 3. `log f after g, h` logs function f with triggers g and h. In its
conditions x0 and t0 are the argument and the time of the logged call, x1 and t1 those of the first trigger, and so on; `no 2 since t1` is true
if no call of function 2 lies strictly between t1 and t0. `after` and `where` may be left out. In both texts `#` starts a comment. A text need
not be a good show: that is for the engine to say. What gives no record at all is told with its line: `DIR/show.txt:3: not understood: 2;1`.

A refusal is explained at a line of the text, as in `show.txt:7: function name 3 is not defined`, if the text gives the stored bytes. If not,
it is explained at the record, counted from 0: `show.scr: record 4: function name 3 is not defined`.

The status is 0 if all went well, 1 if something is wrong with a file, 2 if the command is none of these.
"""
import pathlib
import re
import struct
import sys
from collections import namedtuple

import refusals

# One of a show's two files: the names of its text and of its bytes, what reads a line of the text, and what gives the text of the bytes.
Part = namedtuple("Part", "text file read dump")


class Fault(Exception):
    """What is wrong with a file, for its author to read."""


# ---- pieces of a text

# What stands for a number besides its digits: a rule's variable, and the sign that tells `!=` from `=`.
LETTERS = {"x": 0, "y": 1, "z": 2, "w": 3, "": 0, "!": 1}


def record(piece, *forms):
    """The record that a piece gives, by the first form that fits. A form has a pattern, and what makes the record of the pattern's groups."""
    # Blanks may stand anywhere but inside a number.
    close = re.sub(r"(?<!\d) | (?!\d)", "", piece)
    for pattern, make in forms:
        found = re.fullmatch(pattern, close, re.ASCII)
        if found:
            try:
                return make(*(LETTERS[group] if group in LETTERS else int(group) for group in found.groups()))
            except (struct.error, ValueError):
                break  # a number too large for its bytes
    raise ValueError(piece.strip())


def items(text):
    """What stands between commas, except for the commas inside brackets."""
    return re.split(r",(?![^(]*\))", text) if text else []


# ---- scripts: byte 0 the kind, bytes 4 to 7 the number


def read_records(line):
    form = (r"(\d+):(\d+)", lambda kind, number: struct.pack("<B3xI", kind, number))
    return [record(word, form) for word in line.split()]


def dump_script(data):
    return "".join(f"{kind}:{number}\n" for kind, number in struct.iter_unpack("<B3xI", data))


# ---- guidelines: four bytes, then two numbers

VARIABLES = "xyzw"


def pack(kind, one=0, two=0, three=0, first=0, second=0):
    return struct.pack("<4B2I4x", kind, one, two, three, first, second)


def atom(kind):
    return r"p(\d+)\(([xyzw]),([xyzw])\)", lambda predicate, i, j: pack(kind, predicate, i, j)


def call(kind):
    return r"(\d+)", lambda function: pack(kind, first=function)


FACT = (r"p(\d+)\((\d+):(\d+),(\d+):(\d+)\)", lambda predicate, kind, number, other, last: pack(1, predicate, kind, other, number, last))
CONDITIONS = [
    (r"t(\d+)<t(\d+)", lambda i, j: pack(6, 0, i, j)),
    (r"p(\d+)\(x(\d+),x(\d+)\)", lambda predicate, i, j: pack(7, predicate, i, j)),
    (r"x(\d+)(!?)=x(\d+)", lambda i, differs, j: pack(8, differs, i, j)),
    (r"no(\d+)sincet(\d+)", lambda function, i: pack(9, 0, i, first=function)),
]


def read_clause(line):
    word, _, rest = line.partition(" ")
    if word == "fact":
        return [record(rest, FACT)]
    if word == "rule":
        head, _, body = rest.partition(":-")
        return [record(head, atom(2))] + [record(item, atom(3)) for item in items(body)]
    if word == "log":
        calls, _, conditions = rest.partition("where")
        function, _, triggers = calls.partition("after")
        head = [record(function, call(4))] + [record(item, call(5)) for item in items(triggers)]
        return head + [record(item, *CONDITIONS) for item in items(conditions)]
    if line:
        raise ValueError(line)
    return []


def dump_clause(head, *rest):
    kind, one, i, j, first, second = head
    if kind == 1:
        return f"fact p{one}({i}:{first}, {j}:{second})\n"
    if kind == 2:
        atoms = [f"p{r[1]}({VARIABLES[r[2]]}, {VARIABLES[r[3]]})" for r in (head, *rest)]
        return f"rule {atoms[0]} :- {', '.join(atoms[1:])}\n"
    triggers = ", ".join(str(r[4]) for r in rest if r[0] == 5)
    forms = {6: "t{2} < t{3}", 7: "p{1}(x{2}, x{3})", 8: "x{2} {sign} x{3}", 9: "no {4} since t{2}"}
    conditions = ", ".join(forms[r[0]].format(*r, sign="!=" if r[1] else "=") for r in rest if r[0] != 5)
    return f"log {first}" + f" after {triggers}" * bool(triggers) + f" where {conditions}" * bool(conditions) + "\n"


def dump_guideline(data):
    clauses = []
    for values in struct.iter_unpack("<4B2I4x", data):
        if values[0] in (1, 2, 4):
            clauses.append([])
        clauses[-1].append(values)
    return "".join(dump_clause(*values) for values in clauses)


# ---- a folder with a show

SCRIPT = Part("show.txt", "show.scr", read_records, dump_script)
GUIDELINE = Part("guideline.txt", "show.gl", read_clause, dump_guideline)


def read_text(text, part, name):
    """The records that a text gives, each with its line."""
    found = []
    for number, line in enumerate(text.split("\n"), 1):
        line = " ".join(line.partition("#")[0].split())
        try:
            found += [(number, made) for made in part.read(line)]
        except ValueError as error:
            raise Fault(f"{name}:{number}: not understood: {str(error) or line}")
    return found


def read_source(path, part):
    # A byte that is no UTF-8 may stand in a comment. Anywhere else it is not understood.
    return read_text(path.read_text("utf-8-sig", "replace"), part, path)


def joined(found):
    return b"".join(made for _, made in found)


def text_of(path, part):
    """The text that gives the stored bytes: there is none where a spare byte is set or a record stands in no clause."""
    data = path.read_bytes()
    try:
        text = part.dump(data)
        if joined(read_text(text, part, path)) == data:
            return text
    except (LookupError, struct.error, Fault):
        pass
    raise Fault(f"{path}: has records that no text gives")


def do(command, folder, part):
    path, source = folder / part.file, folder / part.text
    if command == "build":
        path.write_bytes(joined(read_source(source, part)))
        return
    text = text_of(path, part)
    if command == "dump":
        print(f"# {path.name}\n{text}", end="")
    elif joined(read_source(source, part)) != path.read_bytes():
        raise Fault(f"{path}: is not what {source.name} gives")


# ---- a refusal


def stored(path):
    """A file as the listing reads it: a missing one as empty, and no more of one that is too long than shows it."""
    try:
        with open(path, "rb") as file:
            return file.read(8200)
    except FileNotFoundError:
        return b""


def line_of(folder, part, data, place):
    """The line of the text that gives a record; none where the text does not give these bytes."""
    try:
        found = read_source(folder / part.text, part)
    except (OSError, Fault):
        return None
    return found[place][0] if joined(found) == data else None


def explain(folder, number, place):
    script, guideline = stored(folder / SCRIPT.file), stored(folder / GUIDELINE.file)
    at, words = refusals.explain(number, place, script, guideline)
    if number not in range(1, 8) and number not in range(11, 18):
        return words  # of no file
    part, data = (SCRIPT, script) if number < 10 else (GUIDELINE, guideline)
    if number == 1 and not (folder / part.file).exists():
        words = "there is no such file, which reads as empty"
    if at is None:
        return f"{part.file}: {words}"
    line = line_of(folder, part, data, at)
    return f"{part.text}:{line}: {words}" if line else f"{part.file}: record {at}: {words}"


def main(arguments):
    command, *rest = arguments or [""]
    try:
        if "--help" in arguments or "-h" in arguments:
            print(__doc__.strip())
        elif command in ("build", "dump", "check") and rest:
            for folder in map(pathlib.Path, rest):
                for part in (SCRIPT, GUIDELINE):
                    do(command, folder, part)
        elif command == "explain" and len(rest) == 3 and all(re.fullmatch("[0-9]{1,10}", word) for word in rest[1:]):
            print(explain(pathlib.Path(rest[0]), int(rest[1]), int(rest[2])))
        else:
            print("usage:", __doc__.split("\n\n")[1], sep="\n", file=sys.stderr)
            return 2
    except Fault as error:
        print(error, file=sys.stderr)
        return 1
    except OSError as error:
        print(f"{error.filename or 'show.py'}: {error.strerror}", file=sys.stderr)
        return 1
    return 0


if __name__ == "__main__":
    sys.exit(main(sys.argv[1:]))
