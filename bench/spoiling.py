"""Something wrong in a declaration: a key, a value, a text, a name that stands twice, a list that is too long.

What is spoiled may be right all the same, or wrong in several ways; `reading.py` tells what it is refused for. Observer
methods and events are spoiled more often than other parts.
"""

import copy

from texts import ANY, DEFAULT, Event

LISTS = ["qualifiers", "bindings", "params", "points", "methods", "producers", "disposers", "observers", "calls", "fires", "types"]
FURTHER = ["conditional", "fires", "params", "colour", "priority", "observers", "calls", "static", "specializes"]
VALUES = [1, True, "text", [], [1], {}, ["A", 1], [[]], "dependent", "", -0]
BAD_EVENTS = ["", "1", "A Q Q", "A  Q", " A", "A ", "A Default", "A Named", "A Any(m=1)", "A Q(m=1,m=2)", "A Q(m=)", "A.", "A\\tQ"]
GOOD_EVENTS = ["A", "Object Any", "A Named(a) Q(m=01,n=-0)", "x.Y a.R", "A Q(m=1) P Any"]
BAD_USES = [DEFAULT, ("Named", "a"), ("Named", "1"), ANY, ("Any", (("m", 1),)), ("Q", (("m", 1), ("m", 2))), ("1Q", ())]


def spoiled(chance, declaration):
    """A copy of a declaration in which one table is spoiled, now and then a second one too."""
    declaration = copy.deepcopy(declaration)
    for _ in range(chance.choice([1, 1, 1, 2])):
        tables = [table for table in tables_of(declaration) if table]
        inner = [table for table in tables if "conditional" in table or "fires" in table]
        spoil(chance, chance.choice(inner if inner and chance.random() < 0.6 else tables))
    return declaration


def tables_of(table):
    yield table
    for value in table.values():
        for entry in value if isinstance(value, list) else [value]:
            if isinstance(entry, dict):
                yield from tables_of(entry)


def spoil(chance, table):
    """Spoils a table by one of its keys or one that it may not have."""
    key = chance.choice(list(table))
    draw = chance.random()
    if draw < 0.1:
        del table[key]
    elif draw < 0.25:
        table[key] = chance.choice(VALUES)
    elif draw < 0.35:
        table[chance.choice(FURTHER)] = chance.choice(VALUES)
    elif draw < 0.45:
        table["name" if draw < 0.4 else "type"] = chance.choice(["1x", "a.b", "x" * 64, "x" * 65, "o", "Object", "a-b"])
    elif draw < 0.6 and "body" in table:
        table["fires"] = [chance.choice(BAD_EVENTS + GOOD_EVENTS) for _ in range(chance.randint(1, 2))]
    elif draw < 0.7:
        table["qualifiers"] = [chance.choice(BAD_USES) for _ in range(chance.randint(1, 2))]
    elif draw < 0.8 and "params" in table:
        table["params"] = [{"name": chance.choice(["at", "in"]), "type": "A"} for _ in range(2)]
    else:
        spoil_list(chance, table)


def spoil_list(chance, table):
    """Makes a list of a table longer: by an entry that it has, or to 32 or 33 entries; or lengthens an event so."""
    lists = [key for key in LISTS if table.get(key) and isinstance(table[key], list)]
    length = chance.choice([32, 33])
    if "body" in table and (not lists or chance.random() < 0.4):
        table["fires"] = [Event("A", tuple((f"Q{number}", ()) for number in range(length)))]
    elif lists:
        key = chance.choice(lists)
        table[key] = table[key] + [table[key][0]] if chance.random() < 0.5 else lengthened(table[key], length)


def lengthened(entries, length):
    """A list of so many entries, which differ where they have a name."""
    further = []
    for number in range(length - len(entries)):
        first = entries[0]
        if isinstance(first, dict):
            further.append({**first, "name": f"more{number}"})
        elif isinstance(first, Event) or isinstance(first, str):
            further.append(first if isinstance(first, Event) or "." in first else f"More{number}")
        else:
            further.append((f"More{number}", ()))
    return entries + further
