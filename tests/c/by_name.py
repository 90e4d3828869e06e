#!/usr/bin/env python3
"""Prints C code by which the entries that a header declares are called by parameter name.

    by_name.py HEADER

For each prototype: a struct whose fields are its parameters, and a function that takes the struct and passes the fields in the prototype's order.
Two buffers whose names are exchanged in a prototype go unnoticed by a caller that goes by position; one that goes by these fields lends them the
wrong way round. A pointer must have its own length right after it, since an entry that takes the length of another buffer need not show it.
"""
import re
import sys


def prototypes(text):
    """Result, name and parameters of each entry; a parameter is its type and its name."""
    text = re.sub(r"/\*.*?\*/", "", text, flags=re.DOTALL)
    for result, entry, parameters in re.findall(r"^(\w+) (\w+)\(([^()]*)\);", text, re.MULTILINE):
        yield result, entry, [re.fullmatch(r"\s*(.*[ *])(\w+)", parameter).groups() for parameter in parameters.split(",")]


def unpaired(parameters):
    """The pointers that do not have their own length right after them."""
    following = [name for _, name in parameters[1:]] + [None]
    return [name for (kind, name), after in zip(parameters, following) if "*" in kind and after != f"{name}_len"]


def by_name(result, entry, parameters):
    fields = "".join(f"    {kind}{name};\n" for kind, name in parameters)
    passed = ", ".join(f"named.{name}" for _, name in parameters)
    return f"""
typedef struct {{
{fields}}} {entry}_named;

static {result} {entry}_by_name({entry}_named named) {{
    return {entry}({passed});
}}
"""


def main(path):
    with open(path) as header:
        found = list(prototypes(header.read()))
    for _, entry, parameters in found:
        if unpaired(parameters):
            sys.exit(f"{path}: {entry}: not followed by its length: {', '.join(unpaired(parameters))}")
    print('#include "lorgwin.h"\n' + "".join(by_name(*prototype) for prototype in found), end="")


if __name__ == "__main__":
    if len(sys.argv) != 2:
        sys.exit(__doc__)
    main(sys.argv[1])
