"""Deployments within the limits whose explanation costs most."""

import random
import string

from texts import put_block


def point(number, wanted, more=""):
    return f'{{ name = "p{number}", type = "{wanted}"{more} }}'


def points(each):
    return "points = [" + ", ".join(each) + "]"


def far(number):
    """Beans of 8 points each, whose types of 64 bytes are near to none of the types."""
    source = random.Random(1)
    word = lambda first: first + "".join(source.choice(string.ascii_lowercase) for _ in range(63))
    names = [word("T") for _ in range(number)]
    types = "".join(put_block("type", name) for name in names)
    return types + "".join(
        put_block("bean", name, points(point(k, word("W")) for k in range(8))) for name in names
    )


def of_one_interface(number, wanted):
    """Beans of one interface, each with these points."""
    script = put_block("type", "I", 'form = "interface"')
    for k in range(number):
        script += put_block("type", f"T{k}", 'implements = ["I"]') + put_block("bean", f"T{k}", points(wanted))
    return script


def ambiguous(number):
    """Beans of 4 points each, each ambiguous between all of them."""
    return of_one_interface(number, [point(k, "I") for k in range(4)])


def lacking(number):
    """Beans of a point each, for whose qualifier no bean fits."""
    return put_block("qualifier", "Q") + of_one_interface(number, [point(0, "I", ', qualifiers = ["Q"]')])


def circles(number):
    """Dependent beans of 8 points each, in circles."""
    types = "".join(put_block("type", f"T{k}") for k in range(number))
    return types + "".join(
        put_block("bean", f"T{k}", points(point(j, f"T{(k + j + 1) % number}") for j in range(8)))
        for k in range(number)
    )
