"""Deployments within the limits that cost most as they grow, each with edits of what all of it rests on."""

from hostile_bindings import put, uses

MOST = 32
BATCH = 256


def batched(text):
    """A deployment of put blocks, in batches."""
    blocks = [block + "\n.\n" for block in text.split("\n.\n")[:-1]]
    parts = [blocks[first : first + BATCH] for first in range(0, len(blocks), BATCH)]
    return "".join("batch\n" + "".join(part) + "end\n" for part in parts)


def declared(kind, name, *lines):
    return put(f'kind = "{kind}"', f'name = "{name}"', *lines)


def typed(name, extends=None, *lines):
    """A class, which may extend another, and its bean."""
    return declared("type", name, *extending(extends)) + declared("bean", name, *lines)


def extending(name):
    return [f'extends = "{name}"'] if name else []


def tables(key, rows):
    return f"{key} = [" + ", ".join(rows) + "]"


def point(name, required, *quals):
    return f'{{ name = "{name}", type = "{required}"' + (f", qualifiers = {uses(quals)}" if quals else "") + " }"


# Chains and circles.


def specializing(number, next_of, lines_of):
    """So many beans that specialize, and an edit of the last of them."""
    texts = [typed(f"T{k}", next_of(k), *lines_of(k)) for k in range(number)]
    return "".join(texts), [declared("bean", f"T{number - 1}", *lines_of(number - 1))]


def chain_of_beans(number):
    """A chain of beans that specialize."""
    next_of = lambda k: f"T{k + 1}" if k + 1 < number else None
    return specializing(number, next_of, lambda k: ["specializes = true"] if k + 1 < number else [])


def circle_of_beans(number):
    """A circle of beans that specialize."""
    return specializing(number, lambda k: f"T{(k + 1) % number}", lambda k: ["specializes = true"])


def chain_of_qualified_beans(number):
    """A chain of beans that specialize, with 32 qualifiers of its own each."""
    next_of = lambda k: f"T{k + 1}" if k + 1 < number else None
    own = lambda k: f"qualifiers = {uses(f'Q{k * MOST + q}' for q in range(MOST))}"
    return specializing(number, next_of, lambda k: ["specializes = true"] * (k + 1 < number) + [own(k)])


def specializing_one(number):
    """So many beans that specialize one, and an edit of this."""
    rest = "".join(typed(f"T{k}", "T", "specializes = true") for k in range(number))
    return typed("T") + rest, [declared("bean", "T")]


def types(number, next_of):
    return "".join(declared("type", f"T{k}", *extending(next_of(k))) for k in range(number))


def chain_of_types(number):
    """A chain of types by `extends`, and an edit of the last of it."""
    return types(number, lambda k: f"T{k + 1}" if k + 1 < number else None), [declared("type", f"T{number - 1}")]


def circle_of_types(number):
    """A circle of types by `extends`."""
    text = types(number, lambda k: f"T{(k + 1) % number}")
    return text, [declared("type", f"T{number - 1}", *extending("T0"))]


def chain_of_types_with_beans(number):
    """A chain of types with a bean each."""
    text, edits = chain_of_types(number)
    return text + "".join(declared("bean", f"T{k}") for k in range(number)), edits


def products_of_a_chain(number):
    """So many types in a chain, and so many beans with 32 products of the first of these."""
    text, edits = chain_of_types(number)
    made = tables("producers", [f'{{ name = "p{k}", type = "T0", body = "echo" }}' for k in range(MOST)])
    return text + "".join(typed(f"B{k}", None, made) for k in range(number)), edits


def interfaces(number):
    """Interfaces of the 32 after each, and an edit of the last."""
    texts = []
    for index in range(number):
        later = range(index + 1, min(index + 1 + MOST, number))
        lines = ['form = "interface"', f"implements = {uses(f'I{k}' for k in later)}"]
        texts.append(declared("type", f"I{index}", *lines))
    return "".join(texts), [texts[-1]]


def stereotypes(number):
    """Stereotypes of the 32 after each, and as many beans of 32 products with the first."""
    texts = []
    for index in range(number):
        later = range(index + 1, min(index + 1 + MOST, number))
        texts.append(declared("stereotype", f"S{index}", f"stereotypes = {uses(f'S{k}' for k in later)}"))
    product = lambda k: f'{{ name = "p{k}", type = "T", body = "echo", stereotypes = ["S0"] }}'
    made = tables("producers", [product(k) for k in range(MOST)])
    beans = "".join(typed(f"B{k}", None, made) for k in range(number))
    return declared("type", "T") + "".join(texts) + beans, [texts[-1]]


def bound(number):
    """A binding that so many beans have, and one interceptor."""
    interceptor = declared("interceptor", "I", "priority = 1", 'bindings = ["B"]', 'around_invoke = { body = "pass" }')
    beans = "".join(typed(f"T{k}", None, 'bindings = ["B"]') for k in range(number))
    return declared("binding", "B") + interceptor + beans, [declared("binding", "B")]


# Keys and their answers.


def events(number):
    """8 events that a body of each bean fires, and 8 observers of Object in each."""
    texts = []
    for bean in range(number):
        fires = uses(f"E{bean * 8 + k}" for k in range(8))
        methods = tables("methods", [f'{{ name = "m", body = "notify", fires = {fires} }}'])
        seen = tables("observers", [f'{{ name = "o{k}", type = "Object", body = "echo" }}' for k in range(8)])
        texts.append(typed(f"T{bean}", None, methods, seen))
    return "".join(texts), [declared("bean", "T0")]


def ambiguous_points(number):
    """8 points with qualifiers of their own in each of so many beans, each ambiguous between all."""
    qualifier = declared("qualifier", "Q", 'members = [{ name = "m", binding = false }]')
    texts = []
    for bean in range(number):
        points = [point(f"p{k}", "A", f"Q(m={bean * 8 + k})") for k in range(8)]
        lines = ['qualifiers = ["Q(m=0)"]', tables("points", points)]
        texts.append(typed(f"T{bean}", "A", *lines))
    return declared("type", "A") + qualifier + "".join(texts), [declared("type", "X")]


def dependent_points(number):
    """So many interceptors with 32 points of dependent beans each, around as many other dependent beans."""
    texts = [declared("binding", "B")]
    for index in range(number):
        points = [point(f"p{k}", f"D{(index + k) % number}") for k in range(MOST)]
        lines = ["priority = 1", 'bindings = ["B"]', tables("points", points), 'pre = { body = "pass" }']
        texts.append(declared("interceptor", f"I{index}", *lines))
    beans = "".join(typed(f"D{k}") + typed(f"C{k}", None, 'bindings = ["B"]') for k in range(number))
    return "".join(texts) + beans, [declared("type", "X")]


def intercepted_places(number):
    """So many interceptors around 11 places of so many beans, and an edit of one."""
    interceptor = lambda k: declared("interceptor", f"I{k}", f"priority = {k}", 'bindings = ["B"]', 'around_invoke = { body = "pass" }')
    methods = tables("methods", [f'{{ name = "m{k}", body = "echo" }}' for k in range(8)])
    beans = "".join(typed(f"T{k}", None, 'bindings = ["B"]', methods) for k in range(number))
    return declared("binding", "B") + "".join(interceptor(k) for k in range(number)) + beans, [interceptor(0)]


def told_apart(number):
    """So many beans of one interface that a qualifier tells apart, and a point for each."""
    texts = [declared("type", "I", 'form = "interface"'), declared("qualifier", "Q", 'members = [{ name = "n" }]')]
    for k in range(number):
        texts.append(declared("type", f"T{k}", 'implements = ["I"]'))
        texts.append(declared("bean", f"T{k}", f'qualifiers = ["Q(n={k})"]', tables("points", [point("p", "I", f"Q(n={k})")])))
    return "".join(texts), [texts[-1]]


def products_told_apart(number):
    """So many beans with 32 products of one type that a qualifier tells apart, and a point for each."""
    texts = [declared("type", "I", 'form = "interface"'), declared("qualifier", "Q", 'members = [{ name = "n" }]')]
    for bean in range(number):
        numbers = range(bean * MOST, (bean + 1) * MOST)
        made = [f'{{ name = "p{k}", type = "I", body = "echo", qualifiers = ["Q(n={k})"] }}' for k in numbers]
        points = [point(f"q{k}", "I", f"Q(n={k})") for k in numbers]
        texts.append(typed(f"T{bean}", None, tables("producers", made), tables("points", points)))
    return "".join(texts), [declared("bean", "T0")]


EDITS = {
    "a circle of beans that specialize": (circle_of_beans, [250, 500, 1_000]),
    "a chain of beans that specialize": (chain_of_beans, [250, 500, 1_000]),
    "such a chain with 32 qualifiers each": (chain_of_qualified_beans, [62, 125, 250]),
    "beans that specialize one": (specializing_one, [250, 500, 1_000]),
    "stereotypes of 32 others each, as many beans of 32 products": (stereotypes, [125, 250, 500]),
    "interfaces of 32 others each": (interfaces, [250, 500, 1_000]),
    "a circle of types": (circle_of_types, [500, 1_000, 2_000]),
    "a chain of types": (chain_of_types, [500, 1_000, 2_000]),
    "a chain of types with a bean each": (chain_of_types_with_beans, [250, 500, 1_000]),
    "a chain of types, as many beans of 32 products of the first": (products_of_a_chain, [62, 125, 250, 500]),
    "a binding of all beans, one interceptor": (bound, [250, 500, 1_000]),
    "8 events and 8 observers of Object in each bean": (events, [128, 256, 512]),
    "8 ambiguous points in each bean": (ambiguous_points, [128, 256, 512]),
    "interceptors of 32 dependent points around as many beans": (dependent_points, [128, 256, 512]),
    "interceptors around 11 places of as many beans": (intercepted_places, [100, 200, 400]),
    "beans that a qualifier tells apart, a point for each": (told_apart, [250, 500, 1_000]),
    "32 products in each bean that a qualifier tells apart": (products_told_apart, [32, 64, 128]),
}
