"""Refusals in words: what the bytes of a show have at a refusal's place, else what its number means."""

WORDS = {
    0: "nothing is refused",
    1: "the script's length is 0, no multiple of 8, or above the limit",
    2: "a script record of unknown kind, with a spare byte set or a number out of range",
    3: "a script record that cannot stand here, or the script ends too early",
    4: "a definition whose number is not the next, or a 129th",
    5: "a variable that no abstraction around it binds",
    6: "a function name that is not defined",
    7: "callEvent or emit where it may not stand, or over 1,024 records besides commands",
    11: "the guideline's length is no multiple of 16 or above the limit",
    12: "a guideline record of unknown kind, with a spare byte set or a field out of range",
    13: "a guideline record that its section or head does not allow, or a rule head with no atom",
    14: "a head variable that the rule's body does not bind",
    15: "a 65th value, a fifth atom, a fifth trigger or a ninth logged clause",
    16: "a condition that names a trigger its clause does not have",
    17: "a function that the script does not define",
    21: "the output is too short for the rewritten script",
    22: "the budget is above 1,000,000",
    23: "a lent buffer is too short",
}


def kind_of(records, at):
    """The kind of a record; none where no record is."""
    return records[at][0] if 0 <= at < len(records) else None


def number_of(record):
    """Bytes 4 to 7, in both files."""
    return int.from_bytes(record[4:8], "little")


def count(n, noun):
    return f"{n or 'no'} {noun}{'s' * (n > 1)}"


def wrong_length(data, size, most):
    if len(data) > size * most:
        return f"more than {most} records"
    if len(data) % size:
        return f"{len(data)} bytes, which is no multiple of {size}"


def misfit(fields):
    """The first field that is out of its range. A field is a name, a value, the least and the most that it may be."""
    for name, value, least, most in fields:
        if not least <= value <= most:
            return f"{name} {value}, where {f'{least} to {most} may' if least < most else f'{least} must'} stand"


# ---- scripts. Each function answers none where it does not find its fault.

# The kinds: the name, the largest number, and how many terms follow.
ANY = 2**32 - 1
KINDS = {
    1: ("variable", 1023, 0),
    2: ("function name", ANY, 0),
    3: ("constant", ANY, 0),
    4: ("abstraction", 65535, 1),
    5: ("application", 0, 2),
    6: ("callEvent", ANY, 2),
    7: ("emit", ANY, 2),
    8: ("definition", ANY, 1),
    9: ("sum", 0, 2),
    10: ("branch", 0, 3),
}


def name_of(record):
    name, most, _ = KINDS[record[0]]
    return f"{name} {number_of(record)}" if most else name


def definitions(records):
    return sum(record[0] == 8 for record in records)


def open_terms(records, at):
    """What is open before a record: where its definition or the main term began, and the abstractions around each term still to come in it.

    Between definitions nothing has begun; after the main term, which has begun, no term is to come."""
    began, around = None, []
    for i, record in enumerate(records[:at]):
        kind = record[0]
        if began is None:
            began, around = i, [0]
        elif kind == 8 or not around:
            raise LookupError("a record that cannot stand there")
        depth = around.pop()
        around += [depth + (kind in (4, 8))] * KINDS[kind][2]
        if kind_of(records, began) == 8 and not around:
            began = None
    return began, around


def script_length(data):
    return wrong_length(data, 8, 1024) or (None if data else "the file is empty")


def script_record(records, at):
    kind, *spare = records[at][:4]
    if kind not in KINDS:
        return f"kind {kind} is unknown"
    name, most, _ = KINDS[kind]
    return misfit([(f"byte {i} is", byte, 0, 0) for i, byte in enumerate(spare, 1)] + [(name, number_of(records[at]), 0, most)])


def script_order(records, at):
    began, around = open_terms(records, at)
    if at == len(records):
        if began is None:
            return "the script ends too early, with no main term"
        whole = name_of(records[began]) if records[began][0] == 8 else "the main term"
        return f"the script ends too early, inside {whole}" if around else None
    if around and records[at][0] == 8:
        return f"{name_of(records[at])} cannot stand here, inside a term"
    if began is not None and not around:
        return f"{name_of(records[at])} cannot stand here, after the main term"


def script_definition(records, at):
    before, number = definitions(records[:at]), number_of(records[at])
    if records[at][0] == 8 and before == 128:
        return "a 129th definition, where 128 are the most"
    if records[at][0] == 8 and number != before:
        return f"definition {number}, where definition {before} is the next"


def script_variable(records, at):
    began, around = open_terms(records, at)
    depth = around[-1] if around else 0
    if records[at][0] == 1 and number_of(records[at]) >= depth:
        counted = ", the definition counting as one" if around and records[began][0] == 8 else ""
        return f"{name_of(records[at])}, but {count(depth, 'abstraction')} {'are' if depth > 1 else 'is'} around it{counted}"


def script_function(records, at):
    if records[at][0] == 2 and number_of(records[at]) >= definitions(records):
        return f"{name_of(records[at])} is not defined"


def script_command(records, at):
    if records[at][0] in (6, 7):
        return f"{name_of(records[at])} may stand only in a rewritten script"


SCRIPT = {2: script_record, 3: script_order, 4: script_definition, 5: script_variable, 6: script_function, 7: script_command}

# ---- guidelines

# The kinds: what bytes 1 to 3 are, with the least and the most that each may be, and the byte from which on all are spare.
SPARE, PREDICATE, VALUE, VARIABLE, INDEX = (None, 0, 0), ("predicate", 0, 15), ("value kind", 2, 4), ("variable", 0, 3), ("index", 0, 4)
FIELDS = {
    1: (PREDICATE, VALUE, VALUE, 12),
    2: (PREDICATE, VARIABLE, VARIABLE, 4),
    3: (PREDICATE, VARIABLE, VARIABLE, 4),
    4: (SPARE, SPARE, SPARE, 8),
    5: (SPARE, SPARE, SPARE, 8),
    6: (SPARE, INDEX, INDEX, 4),
    7: (PREDICATE, INDEX, INDEX, 4),
    8: ((None, 0, 1), INDEX, INDEX, 4),
    9: (SPARE, INDEX, SPARE, 8),
}
CONDITIONS = (6, 7, 8, 9)


def following(records, at, kind):
    """The records of a kind in a row after a record."""
    end = at + 1
    while kind_of(records, end) == kind:
        end += 1
    return records[at + 1:end]


def guideline_length(data):
    return wrong_length(data, 16, 256)


def guideline_record(records, at):
    kind = records[at][0]
    if kind not in FIELDS:
        return f"kind {kind} is unknown"
    *fields, spare = FIELDS[kind]
    fields = [*enumerate(fields, 1), *((i, SPARE) for i in range(spare, 16))]
    return misfit((name or f"byte {i} is", records[at][i], least, most) for i, (name, least, most) in fields)


def guideline_order(records, at):
    before, kind = kind_of(records, at - 1), records[at][0]
    if kind == 1 and before not in (None, 1):
        return "a fact cannot stand after a rule or a logged clause"
    if kind == 2 and before not in (None, 1, 3):
        return "a rule cannot stand after a logged clause"
    if kind == 2 and kind_of(records, at + 1) != 3:
        return "a rule head with no atom"
    if kind == 3 and before not in (2, 3):
        return "an atom can stand only in a rule"
    if kind == 5 and before not in (4, 5):
        return "a trigger can stand only after a logged head or another trigger"
    if kind in CONDITIONS and before not in (4, 5, *CONDITIONS):
        return "a condition can stand only in a logged clause"


def guideline_variable(records, at):
    body = {variable for atom in following(records, at, 3) for variable in atom[2:4]}
    loose = [variable for variable in records[at][2:4] if variable not in body]
    if records[at][0] == 2 and loose:
        return f"head variable {loose[0]} ({'xyzw'[loose[0]]}) is in no atom of the rule"


def guideline_count(records, at):
    kind, before = records[at][0], records[:at + 1]
    values = {value for fact in before if fact[0] == 1 for value in ((fact[2], fact[4:8]), (fact[3], fact[8:12]))}
    fifth = all(kind_of(records, i) == kind for i in range(at - 4, at))
    if kind == 1 and len(values) > 64:
        return "a 65th value in the facts, where 64 are the most"
    if kind == 3 and fifth:
        return "a fifth atom, where 4 are the most"
    if kind == 5 and fifth:
        return "a fifth trigger, where 4 are the most"
    if kind == 4 and sum(record[0] == 4 for record in before) > 8:
        return "a ninth logged clause, where 8 are the most"


def guideline_index(records, at):
    head = max((i for i in range(at) if records[i][0] == 4), default=at)
    triggers = len(following(records, head, 5))
    above = [index for index in records[at][2:4] if index > triggers]
    if records[at][0] in CONDITIONS and above:
        return f"a condition on trigger {above[0]}, but its clause has {count(triggers, 'trigger')}"


def guideline_function(records, at, defined):
    if records[at][0] in (4, 5, 9) and number_of(records[at]) >= defined:
        return f"function {number_of(records[at])} is not in the script"


GUIDELINE = {12: guideline_record, 13: guideline_order, 14: guideline_variable, 15: guideline_count, 16: guideline_index, 17: guideline_function}

# ---- both


def records_in(data, size):
    return [data[i:i + size] for i in range(0, len(data) - size + 1, size)]


def explain(number, place, script, guideline):
    """The words for a refusal of these two files, and the record of which they speak if there is one."""
    general = WORDS.get(number, "unknown number")
    if number == 1:
        return None, script_length(script) or general
    if number == 11:
        return None, guideline_length(guideline) or general
    if number not in SCRIPT and number not in GUIDELINE:
        return None, general
    find, records = (SCRIPT[number], records_in(script, 8)) if number in SCRIPT else (GUIDELINE[number], records_in(guideline, 16))
    # The place of a rule head with no atom is the record after it. The head itself says more.
    if number == 13 and kind_of(records, place - 1) == 2 and kind_of(records, place) != 3:
        place -= 1
    defined = [definitions(records_in(script, 8))] if number == 17 else []
    try:
        words = find(records, place, *defined)
    except LookupError:  # the files are not those that were refused
        words = None
    return place if place < len(records) else None, words or general
