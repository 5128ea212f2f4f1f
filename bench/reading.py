"""A plain model of reading: for what the text of a declaration is refused, which lines are no commands, and what a batch says.

It is written from the rules of `docs/language.md` and `docs/refusals.md` and shares no code with the program. What counts
as TOML is `tomllib`'s word here. A declaration's text is judged condition by condition, each on the whole text. A byte
that is not UTF-8 is a lone surrogate in a text here, as `surrogateescape` reads it.
"""

import re
import tomllib

from texts import NOTIFIES

TEXT_LIMIT, LINE_LIMIT, LIST_LIMIT = 65_536, 4_096, 32
DECLARATIONS, EDITS = 2_048, 256
LEAST, GREATEST = -(2**63), 2**63 - 1
KINDS = ["type", "qualifier", "binding", "stereotype", "bean", "interceptor"]
BUILT_IN = {"type": ["Object"], "qualifier": ["Any", "Default", "Named"]}
SCOPES = ["dependent", "request", "application"]

# What a key may hold, each with the tables in it. A word that ends with `s` is that of a list.
PART = {"body*": "identifier", "calls": "calls", "fires": "events"}
POINT = {"name*": "identifier", "type*": "name", "qualifiers": "uses"}
ATTRIBUTES = {
    "types": "names",
    "qualifiers": "uses of beans",
    "named": "named",
    "scope": "scope",
    "stereotypes": "names",
    "alternative": "boolean",
}
KEYS = {
    "type": {"form": "form", "extends": "name", "implements": "names", "final": "boolean"},
    "qualifier": {"members": "member tables"},
    "binding": {"members": "member tables", "declares": "uses"},
    "stereotype": {
        "scope": "scope",
        "named": "boolean",
        "alternative": "boolean",
        "bindings": "uses",
        "stereotypes": "names",
    },
    "bean": {
        **ATTRIBUTES,
        "priority": "number",
        "specializes": "boolean",
        "bindings": "uses",
        "points": "point tables",
        "construct": "part",
        "post": "part",
        "pre": "part",
        "methods": "method tables",
        "producers": "producer tables",
        "disposers": "disposer tables",
        "observers": "observer tables",
    },
    "interceptor": {
        "priority": "number",
        "bindings": "uses",
        "points": "point tables",
        "around_invoke": "part",
        "around_construct": "part",
        "post": "part",
        "pre": "part",
    },
    "member": {"name*": "identifier", "default": "number", "binding": "boolean"},
    "point": POINT,
    "part": PART,
    "method": {"name*": "identifier", **PART, "bindings": "uses"},
    "producer": {
        "name*": "identifier",
        "type*": "name",
        **ATTRIBUTES,
        "static": "boolean",
        "bindings": "uses",
        "params": "point tables",
        **PART,
    },
    "disposer": {"name*": "identifier", "type*": "name", "qualifiers": "uses", "body*": "identifier"},
    "observer": {
        "name*": "identifier",
        "type*": "name",
        "qualifiers": "uses of observers",
        "priority": "number",
        "conditional": "boolean",
        "bindings": "uses",
        "params": "point tables",
        **PART,
    },
}
LISTS = ["names", "uses", "uses of beans", "uses of observers", "calls", "events"]


# Texts.


def bytes_of(text):
    return text.encode("utf-8", "surrogateescape")


def is_utf8(text):
    return not any("\ud800" <= letter <= "\udfff" for letter in text)


def is_identifier(text):
    return bool(re.fullmatch(r"[A-Za-z_][A-Za-z0-9_]{0,63}", text, re.ASCII))


def is_name(text):
    return len(text) <= 64 and all(is_identifier(piece) for piece in text.split("."))


def is_number(text):
    sign, digits = text.startswith("-"), text.removeprefix("-").lstrip("0")
    if not re.fullmatch(r"-?[0-9]+", text) or len(digits) > 19:
        return False
    return int(digits or "0") <= (-LEAST if sign else GREATEST)


def is_use(text):
    name, opened, rest = text.partition("(")
    if not opened:
        return is_name(name) and name != "Named"
    if not rest.endswith(")"):
        return False
    if name == "Named":
        return is_name(rest[:-1])
    pairs = [pair.partition("=") for pair in rest[:-1].split(",")]
    return is_name(name) and name not in ("Any", "Default") and all(is_identifier(m) and is_number(v) for m, _, v in pairs)


def name_of_use(text):
    return text.partition("(")[0]


def is_call(text):
    pieces = text.split(".")
    return len(pieces) == 2 and all(map(is_identifier, pieces))


def is_event(text):
    name, *uses = text.split(" ")
    return is_name(name) and all(is_use(use) and name_of_use(use) != "Default" for use in uses)


GRAMMARS = {
    "identifier": is_identifier,
    "name": is_name,
    "named": lambda text: text == "" or is_name(text),
    "names": is_name,
    "uses": is_use,
    "uses of beans": lambda text: is_use(text) and name_of_use(text) != "Named",
    "uses of observers": lambda text: is_use(text) and name_of_use(text) != "Default",
    "calls": is_call,
    "events": is_event,
}


def repeats(names):
    return len(set(names)) < len(names)


def repeats_member(use):
    _, opened, rest = use.partition("(")
    return bool(opened) and repeats([pair.partition("=")[0] for pair in rest.split(",")])


def uses_repeat(uses):
    return repeats([name_of_use(use) for use in uses]) or any(map(repeats_member, uses))


# Tables: one is told with the name of its row among `KEYS`.


def keys_of(row):
    """The keys of a table, what each holds, and whether it is required."""
    keys = {"kind": ("kind", True), "name": ("name", True)} if row in KINDS else {}
    return keys | {key.rstrip("*"): (held, key.endswith("*")) for key, held in KEYS[row].items()}


def is_list_of_tables(value):
    return isinstance(value, list) and all(isinstance(entry, dict) for entry in value)


def tables(table, row):
    """A table and all that are reached in it, each with its row."""
    yield table, row
    for key, (held, _) in keys_of(row).items():
        value = table.get(key)
        if held == "part" and isinstance(value, dict):
            yield from tables(value, "part")
        if held.endswith(" tables") and is_list_of_tables(value):
            for entry in value:
                yield from tables(entry, held.removesuffix(" tables"))


def values(all_tables):
    """Each value of some tables, with what its key holds."""
    for table, row in all_tables:
        for key, (held, _) in keys_of(row).items():
            if key in table:
                yield held, table[key]


def is_right_kind(held, value):
    if held == "boolean":
        return isinstance(value, bool)
    if held == "number":
        return isinstance(value, int) and not isinstance(value, bool)
    if held == "part":
        return isinstance(value, dict)
    if held.endswith(" tables"):
        return is_list_of_tables(value)
    if held in LISTS:
        return isinstance(value, list) and all(isinstance(entry, str) for entry in value)
    allowed = {"form": ["class", "interface"], "scope": SCOPES}.get(held)
    return isinstance(value, str) and (allowed is None or value in allowed)


def has_bad_text(held, value):
    grammar = GRAMMARS.get(held)
    return grammar is not None and not all(map(grammar, value if held in LISTS else [value]))


def stands_twice(held, value):
    """Whether a list has a name twice, or one of its uses or events a member or a qualifier."""
    if held.endswith(" tables"):
        return repeats([entry["name"] for entry in value])
    if held == "names":
        return repeats(value)
    if held == "events":
        return any(uses_repeat(event.split(" ")[1:]) for event in value)
    return held in LISTS and held != "calls" and uses_repeat(value)


def is_too_long(held, value):
    is_list = held in LISTS or held.endswith(" tables")
    return (is_list and len(value) > LIST_LIMIT) or (
        held == "events" and any(event.count(" ") > LIST_LIMIT for event in value)
    )


def has_params_named_as_points(table):
    points = {point["name"] for point in table.get("points", [])}
    holders = table.get("producers", []) + table.get("observers", [])
    return any(param["name"] in points for holder in holders for param in holder.get("params", []))


def has_far_number(value):
    """Whether a number is none of TOML: one of more than 64 bits."""
    if isinstance(value, dict):
        return any(map(has_far_number, value.values()))
    if isinstance(value, list):
        return any(map(has_far_number, value))
    return isinstance(value, int) and not LEAST <= value <= GREATEST


def table_of(text):
    """What TOML reads of a text, if it is TOML."""
    if not is_utf8(text):
        return None
    try:
        table = tomllib.loads(text.removeprefix("\ufeff"))
    except (tomllib.TOMLDecodeError, RecursionError):
        return None
    return None if has_far_number(table) else table


def refusal_of(text):
    """The refusal of a declaration's text, if it is refused."""
    if len(bytes_of(text)) > TEXT_LIMIT:
        return "refused E01 TooLong"
    table = table_of(text)
    if table is None:
        return "refused E02 NotToml"
    kind = table.get("kind")
    if not isinstance(kind, str) or kind not in KINDS:
        return "refused E03 UnknownKind"
    found = list(tables(table, kind))
    if any(set(inner) - set(keys_of(row)) for inner, row in found):
        return "refused E04 UnknownKey"
    if any(key not in inner for inner, row in found for key, (_, is_required) in keys_of(row).items() if is_required):
        return "refused E05 MissingKey"
    if not all(is_right_kind(held, value) for held, value in values(found)):
        return "refused E06 WrongKind"
    is_taken = table["name"] in BUILT_IN.get(kind, [])
    if is_taken or any(has_bad_text(held, value) for held, value in values(found)):
        return "refused E07 BadName"
    if any(stands_twice(held, value) for held, value in values(found)) or has_params_named_as_points(table):
        return "refused E08 Twice"
    return "refused E09 ListTooLong" if any(is_too_long(held, value) for held, value in values(found)) else None


# Lines.


def lines_of(text):
    """The lines of a text, each without one carriage return at its end."""
    return [line.removesuffix("\r") for line in text.removesuffix("\n").split("\n")]


def is_skipped(line):
    return not line.strip(" ") or line.startswith("#")


def says(line, word):
    """Whether a line says this word alone."""
    return line.strip(" ") == word and len(bytes_of(line)) <= LINE_LIMIT


class Open:
    """Whether some lines leave a put block or a batch open."""

    def __init__(self):
        self.put = False
        self.batch = False

    def read(self, line):
        if self.put:
            self.put = line != "."
        elif says(line, "put"):
            self.put = True
        elif says(line, "batch"):
            self.batch = True
        elif says(line, "end"):
            self.batch = False


def edits_of(lines):
    """The edits of a batch, from the lines behind the one that begins it: each the text of a declaration, or the kind and the
    name of one. There are none where a line spoils the batch, or where it has no end."""
    edits, text, is_spoiled = [], None, False
    for line in lines:
        if text is not None:
            text.append(line + "\n")
            if line == ".":
                edits.append("".join(text[:-1]))
                text = None
        elif says(line, "put"):
            text = []
        elif says(line, "end"):
            return None if is_spoiled else edits
        elif not is_skipped(line):
            word, *words = [word for word in line.split(" ") if word]
            if word == "drop" and is_command(line):
                edits.append(tuple(words))
            else:
                is_spoiled = True
    return None


def are_uses(words):
    return len(words) <= LIST_LIMIT and all(map(is_use, words)) and not uses_repeat(words)


def is_value(word):
    return word == "null" or is_number(word)


def is_place(words):
    if words in (["construct"], ["post"], ["pre"]):
        return True
    return len(words) == 2 and words[0] in ("method", "producer", "observer") and is_identifier(words[1])


def is_argument_of(words):
    """Whether words are a value, and behind it a type with uses."""
    return len(words) >= 2 and is_value(words[0]) and is_name(words[1]) and are_uses(words[2:])


def is_command(line):
    """Whether a line that is not skipped and begins no block is one of the command table."""
    word, *rest = [word for word in line.split(" ") if word]
    if len(bytes_of(line)) > LINE_LIMIT or not is_utf8(line):
        return False
    if word in ("choose", "observers", "lookup"):
        return len(rest) >= 1 and is_name(rest[0]) and are_uses(rest[1:])
    if word == "fire":
        return NOTIFIES and is_argument_of(rest)
    if word == "call":
        return len(rest) >= 1 and is_identifier(rest[0]) and is_argument_of(rest[1:])
    if word == "chain":
        return len(rest) >= 2 and is_name(rest[0]) and is_place(rest[1:])
    if word == "drop":
        return len(rest) == 2 and rest[0] in KINDS and is_name(rest[1])
    if word == "name":
        return len(rest) == 1 and is_name(rest[0])
    return [word, *rest] in (["report"], ["counts"], ["work"], ["stop"], ["request", "begin"], ["request", "end"])
