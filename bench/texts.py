"""Uses, events, declarations and the texts of them, for the model and for the scripts that `bench/compare` writes.

A use is a name with its members, `(name, ((member, value), ..))`, or `("Named", name)`. A declaration is a table as
`tomllib` reads it, but that its uses and events are read.
"""

from typing import NamedTuple

ANY, DEFAULT = ("Any", ()), ("Default", ())
# Whether runs notify observer methods, so that random scripts have these and events.
NOTIFIES = True
KEYS_OF_USES = ["qualifiers", "bindings", "declares"]


class Event(NamedTuple):
    """The type and the qualifiers of an event, which is printed with these and their members in byte order."""

    type: str
    uses: tuple

    def __str__(self):
        return " ".join([self.type, *map(text_of_use, sorted(map(ordered, self.uses)))])


def ordered(use):
    """The same use with its members in byte order."""
    return use if use[0] == "Named" else (use[0], tuple(sorted(use[1])))


def text_of_use(use):
    name, arguments = use
    if name == "Named":
        return f"Named({arguments})"
    if not arguments:
        return name
    return name + "(" + ",".join(f"{member}={value}" for member, value in arguments) + ")"


def text_of_event(event):
    """The text of an event as it was written."""
    return " ".join([event.type, *map(text_of_use, event.uses)])


def line_of(words, uses):
    """A command line."""
    return " ".join([*words, *map(text_of_use, uses)]) + "\n"


def text_of_put(declaration):
    return "put\n" + text_of_declaration(declaration) + ".\n"


def put_block(kind, name, *keys):
    """A block that declares something; each further key is a line."""
    return "\n".join(["put", f'kind = "{kind}"', f'name = "{name}"', *keys, "."]) + "\n"


def text_of_declaration(declaration):
    return "".join(f"{key} = {toml(value)}\n" for key, value in declaration.items())


def toml(value):
    if isinstance(value, bool):
        return "true" if value else "false"
    if isinstance(value, int):
        return str(value)
    if isinstance(value, str):
        return f'"{value}"'
    if isinstance(value, Event):
        return f'"{text_of_event(value)}"'
    if isinstance(value, tuple):
        return f'"{text_of_use(value)}"'
    if isinstance(value, list):
        return "[" + ", ".join(toml(entry) for entry in value) + "]"
    return "{" + ", ".join(f"{key} = {toml(entry)}" for key, entry in value.items()) + "}"


def read_use(text):
    name, _, arguments = text.removesuffix(")").partition("(")
    if name == "Named":
        return (name, arguments)
    pairs = [argument.split("=") for argument in arguments.split(",")] if arguments else []
    return (name, tuple((member, int(value)) for member, value in pairs))


def read_event(text):
    name, *uses = text.split(" ")
    return Event(name, tuple(map(read_use, uses)))


def read_table(table):
    """A table of a declaration, with its uses and events read."""
    read = {}
    for key, value in table.items():
        if key in KEYS_OF_USES:
            value = [read_use(use) for use in value]
        elif key == "fires":
            value = [read_event(event) for event in value]
        elif isinstance(value, dict):
            value = read_table(value)
        elif isinstance(value, list):
            value = [read_table(entry) if isinstance(entry, dict) else entry for entry in value]
        read[key] = value
    return read
