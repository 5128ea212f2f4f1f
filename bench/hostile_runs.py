"""Scripts within the limits whose runs cost most stack or memory."""

from texts import put_block

PRE_CHAIN = 2_040
DEEP = 31


def binding(name, declares=()):
    return put_block("binding", name, *listed("declares", declares))


def listed(key, names):
    return [f"{key} = [" + ", ".join(f'"{name}"' for name in names) + "]"] if names else []


def bean(name, *lines):
    """A bean with its class."""
    return put_block("type", name) + put_block("bean", name, *lines)


def interceptor(number, part):
    """One of the binding B."""
    return put_block("interceptor", f"I{number}", "priority = 1", 'bindings = ["B"]', part)


def pre_chain(count=PRE_CHAIN):
    """A lookup of a dependent bean with so many interceptors of its pre-destroy callback, each of which proceeds."""
    script = binding("B")
    for number in range(count):
        script += interceptor(number, 'pre = { body = "pass" }')
    return script + bean("T", 'bindings = ["B"]') + "lookup T\n"


def calls_through_interceptors(count=DEEP):
    """A call through as many interceptors as may be open."""
    script = binding("B")
    for number in range(count):
        script += interceptor(number, 'around_invoke = { body = "pass" }')
    return script + bean("T", 'bindings = ["B"]', 'methods = [{ name = "m", body = "echo" }]') + "call m 1 T\n"


def nested_dependents(count=DEEP):
    """A lookup of a dependent bean with a dependent bean with .., each with callbacks."""
    script = ""
    for number in range(count):
        point = [f'points = [{{ name = "p", type = "D{number + 1}" }}]'] if number + 1 < count else []
        script += bean(f"D{number}", *point, 'post = { body = "count" }', 'pre = { body = "count" }')
    return script + "lookup D0\n"


def nested_events(count=DEEP):
    """An event whose observer fires an event whose observer .."""
    script = ""
    for number in range(count):
        fires = f', fires = ["E{number + 1}"]' if number + 1 < count else ""
        body = "notify" if fires else "echo"
        observer = f'observers = [{{ name = "o", type = "E{number}", body = "{body}"{fires} }}]'
        script += put_block("type", f"E{number}") + bean(f"O{number}", observer)
    return script + "fire 1 E0\n"


def notified_trees(calls):
    """Notifications of a dependent bean with a tree of 993 instances: 992 for each call site."""
    points = "points = [" + ", ".join(f'{{ name = "p{n}", type = "%s" }}' for n in range(31)) + "]"
    observers = ", ".join(f'{{ name = "o{n}", type = "F", body = "echo" }}' for n in range(32))
    script = bean("Leaf") + bean("Branch", points.replace("%s", "Leaf"))
    script += bean("Root", points.replace("%s", "Branch"), f"observers = [{observers}]")
    fires = ", ".join(['"F"'] * 31)
    script += bean("F", 'scope = "application"', f'methods = [{{ name = "m", body = "notify", fires = [{fires}] }}]')
    sites = ", ".join(['"p.m"'] * calls)
    script += bean(
        "G",
        'scope = "application"',
        'points = [{ name = "p", type = "F" }]',
        f'methods = [{{ name = "m", body = "relay", calls = [{sites}] }}]',
    )
    return script + "call m 1 G\n"


def nested_toml(depth=79, parts=80):
    """Inline tables with dotted keys, as deep as `toml` lets them be: a text that is refused."""
    text = "1"
    for _ in range(depth):
        text = "{" + ".".join(["a"] * parts) + "=" + text + "}"
    return "\n".join(["put", "x=" + text, "."]) + "\n"
