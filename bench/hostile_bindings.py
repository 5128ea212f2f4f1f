"""Deployments within the limits whose bindings cost most, each with edits that concern them."""

MOST = 32


def uses(names):
    return "[" + ", ".join(f'"{name}"' for name in names) + "]"


def put(*lines):
    return "put\n" + "\n".join(lines) + "\n.\n"


def bringing(number):
    """So many bindings, each of which declares the 32 after it."""
    for index in range(number):
        later = range(index + 1, min(index + 1 + MOST, number))
        yield put('kind = "binding"', f'name = "S{index}"', f'declares = {uses(f"S{k}" for k in later)}')


def typed(name, *lines):
    return put('kind = "type"', f'name = "{name}"') + put('kind = "bean"', f'name = "{name}"', *lines)


def class_and_method(number):
    """Bindings that bring others, at the class and at the method of one bean. (deployment, edits of it)"""
    bean = ('bindings = ["S0"]', 'methods = [{ name = "m", body = "echo", bindings = ["S0"] }]')
    edits = [
        next(bringing(1)).replace("[]", uses(f"S{k}" for k in range(1, min(1 + MOST, number)))),
        put('kind = "bean"', 'name = "T"', *bean),
    ]
    return "".join(bringing(number)) + typed("T", *bean), edits


def method_alone(number):
    """Bindings that bring others, at a method of a bean whose class has none."""
    bean = ('methods = [{ name = "m", body = "echo", bindings = ["S0"] }]',)
    first = put('kind = "binding"', 'name = "S0"', f'declares = {uses(f"S{k}" for k in range(1, min(1 + MOST, number)))}')
    edits = [first, put('kind = "bean"', 'name = "T"', *bean)]
    return "".join(bringing(number)) + typed("T", *bean), edits


def classes(number):
    """So many bindings that bring others, and so many beans whose classes have them."""
    beans = "".join(typed(f"T{k}", 'bindings = ["S0"]') for k in range(number))
    first = put('kind = "binding"', 'name = "S0"', f'declares = {uses(f"S{k}" for k in range(1, min(1 + MOST, number)))}')
    return "".join(bringing(number)) + beans, [first, put('kind = "bean"', 'name = "T0"', 'bindings = ["S0"]')]


def binding(name, *lines):
    return put('kind = "binding"', f'name = "{name}"', *lines)


def at_each_method(number, before, edited):
    """So many beans with 32 methods of the bindings B0 to B31 each, after the declarations of these."""
    bound = uses(f"B{k}" for k in range(MOST))
    methods = ", ".join(f'{{ name = "m{k}", body = "echo", bindings = {bound} }}' for k in range(MOST))
    lines = (f"methods = [{methods}]",)
    beans = "".join(typed(f"T{k}", *lines) for k in range(number))
    return before + beans, [edited, put('kind = "bean"', 'name = "T0"', *lines)]


def conflicting(number):
    """Beans with 32 methods of 32 bindings each that bring one binding with different members: each is at fault."""
    each = [binding(f"B{k}", f'declares = ["L(n={k})"]') for k in range(MOST)]
    return at_each_method(number, binding("L", 'members = [{ name = "n" }]') + "".join(each), each[0])


def conflicting_last(number):
    """The same, where each brings the same 32 and the last of the last differs alone: 1,056 uses at a place."""
    members = ['members = [{ name = "n", default = 0 }]']
    brought = [f"L{k}" for k in range(MOST)]
    each = [binding(f"B{k}", f"declares = {uses(brought)}") for k in range(MOST - 1)]
    each.append(binding(f"B{MOST - 1}", f"declares = {uses([*brought[:-1], f'L{MOST - 1}(n=1)'])}"))
    return at_each_method(number, "".join(binding(name, *members) for name in brought) + "".join(each), each[0])


def rounds_of(edits, rounds, command):
    """So many rounds of edits, with the command after each."""
    return "".join(edit + command for _ in range(rounds) for edit in edits)
