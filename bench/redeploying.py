"""A deployment, and edits of it with a question after each, which `generate` writes over 480 declarations and over 1,920.

It has interfaces, each with a class and its application-scoped bean, which has points of the two interfaces before its own
and a method. Each tenth interface has a second class, whose bean is an alternative with a priority. The choice is one that
no point asks for, so nothing of the deployment wants it to be known; where an alternative is toggled it is one for which two
points ask. The same edits are measured with a report after each, too.
"""

import itertools

from texts import put_block

# So many interfaces are so many declarations.
INTERFACES = {480: 150, 1920: 600}
TENTH = 10
# How many beans have the stereotype, where there is one.
STEREOTYPED = 100
# The place of what is edited again and again: no tenth one.
EDITED = 75

# How many edits a script has, and of how many the instructions are counted. The list makes a new base after so many changes.
EDITS = 500
MEASURED = 64
CHOICE = "choose C3\n"
# The place of the alternative whose priority is edited, and the choice for its interface, for which two points ask.
TOGGLED = 70
TOGGLED_CHOICE = f"choose I{TOGGLED}\n"
REPORT = "report\n"
CALL = "call run 1 C3\n"


def interface(place, *keys):
    return put_block("type", f"I{place}", 'form = "interface"', *keys)


def bean(place, is_furnished=False):
    """The bean of a class. Where the deployment is furnished, some have a stereotype, and some a method with a binding."""
    points = [f'{{ name = "at{other}", type = "I{other}" }}' for other in (place - 1, place - 2) if other >= 0]
    bindings = ', bindings = ["Log"]' if is_furnished and place % TENTH == 0 else ""
    keys = ['scope = "application"', "points = [" + ", ".join(points) + "]"]
    keys += ['stereotypes = ["S"]'] * (is_furnished and place < STEREOTYPED)
    return put_block("bean", f"C{place}", *keys, f'methods = [{{ name = "run", body = "echo"{bindings} }}]')


def deployed(declarations, is_furnished=False):
    """The deployment of so many declarations."""
    for place in range(INTERFACES[declarations]):
        implements = f'implements = ["I{place}"]'
        yield interface(place)
        yield put_block("type", f"C{place}", implements)
        yield bean(place, is_furnished)
        if place % TENTH == 0:
            yield put_block("type", f"D{place}", implements)
            yield put_block("bean", f"D{place}", "alternative = true", "priority = 5")


def furnished(declarations):
    """The same where 100 beans have a stereotype, and the method of each tenth a binding, for which there is an interceptor."""
    yield put_block("stereotype", "S")
    yield put_block("binding", "Log")
    yield put_block("interceptor", "Scribe", "priority = 1", 'bindings = ["Log"]', 'around_invoke = { body = "pass" }')
    yield from deployed(declarations, is_furnished=True)


def with_face(declarations):
    """The same with one more interface, which no class implements."""
    yield put_block("type", "Face", 'form = "interface"')
    yield from deployed(declarations)


def equal_beans(declarations):
    """Puts of each bean in turn as it is."""
    return map(bean, itertools.cycle(range(INTERFACES[declarations])))


def changed_interfaces(_):
    """Puts of an interface that implements another, or does not."""
    return itertools.cycle([interface(EDITED, 'implements = ["Face"]'), interface(EDITED)])


def changed_stereotypes(_):
    """Puts of a stereotype that gives 100 beans a name, or does not."""
    return itertools.cycle([put_block("stereotype", "S", "named = true"), put_block("stereotype", "S")])


def drops_and_puts(_):
    """Drops of a bean that is chosen for two points, and puts of it."""
    return itertools.cycle([f"drop bean C{EDITED}\n", bean(EDITED)])


def toggled_alternatives(_):
    """Puts of an alternative with one priority and with another in turn."""
    return itertools.cycle([put_block("bean", f"D{TOGGLED}", "alternative = true", f"priority = {priority}") for priority in (6, 5)])


def switched_alternatives(_):
    """Puts of an alternative without a priority, so that it is disabled, and with one."""
    keys = [[], ["priority = 5"]]
    return itertools.cycle([put_block("bean", f"D{TOGGLED}", "alternative = true", *own) for own in keys])


def changed_interceptors(_):
    """Puts of the interceptor with one priority and with another in turn."""
    keys = ['bindings = ["Log"]', 'around_invoke = { body = "pass" }']
    return itertools.cycle([put_block("interceptor", "Scribe", f"priority = {priority}", *keys) for priority in (2, 1)])


# What is edited, by the beginning of a script's name: the deployment, the edits, and the question after each.
KINDS = {
    "equal_beans": (deployed, equal_beans, CHOICE),
    "changed_interfaces": (with_face, changed_interfaces, CHOICE),
    "changed_stereotypes": (furnished, changed_stereotypes, CHOICE),
    "drops_and_puts": (deployed, drops_and_puts, CHOICE),
    "toggled_alternatives": (deployed, toggled_alternatives, TOGGLED_CHOICE),
    "reported_beans": (deployed, equal_beans, REPORT),
    "reported_alternatives": (deployed, switched_alternatives, REPORT),
    "reported_drops_and_puts": (deployed, drops_and_puts, REPORT),
    "reported_interfaces": (with_face, changed_interfaces, REPORT),
    "reported_stereotypes": (furnished, changed_stereotypes, REPORT),
    "reported_interceptors": (furnished, changed_interceptors, REPORT),
    "called_beans": (deployed, equal_beans, CALL),
}
NAMES = [f"{kind}_{declarations}" for kind in KINDS for declarations in INTERFACES]


def begun(name):
    """The edits that deploy what a script edits, the further ones, without end, and the question after each of these."""
    kind, _, declarations = name.rpartition("_")
    deploys, edits, question = KINDS[kind]
    return deploys(int(declarations)), edits(int(declarations)), question


def script(name, in_batches):
    """The commands of a script: batches of the deployment, which a function makes, a report, and edits with a question each."""
    deployment, edits, question = begun(name)
    yield from in_batches(deployment)
    yield REPORT
    for edit in itertools.islice(edits, EDITS):
        yield edit
        yield question


def small_script(name, in_batches):
    """The pieces of a small script before those that are measured, and these. In both there are as many edits, each with a question."""
    deployment, edits, question = begun(name)
    pieces = [edit + question for edit in itertools.islice(edits, 2 * MEASURED)]
    return [*in_batches(deployment), REPORT, *pieces[:MEASURED]], pieces[MEASURED:]
