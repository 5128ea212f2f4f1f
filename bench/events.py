"""A plain model of observer methods: which are notified of an event, in which order, and their faults and those of events.

It is written from the rules of `docs/language.md` and `docs/faults.md` and shares no code with the program. Declarations
and covering are asked of the model in `bench/compare`, which uses it.
"""

from texts import ANY

PRIORITY = 2500


def parts_of(declaration):
    """Each table of a bean or an interceptor that names a body."""
    for value in declaration.values():
        if isinstance(value, dict):
            yield value
        elif isinstance(value, list):
            yield from (entry for entry in value if isinstance(entry, dict) and "body" in entry)


class Events:
    """The observer methods of the present declarations, which are asked of a model."""

    def __init__(self, model):
        self.model = model

    def observing(self, name, uses):
        """The observer methods of an event, each behind the bean that has it; those of one priority stay as declared."""
        model, types = self.model, self.model.types(name)
        enabled = {bean.ident for bean in model.beans() if bean.enabled}
        found = [
            (declaration, observer)
            for declaration in model.declarations
            if declaration["kind"] == "bean" and declaration["name"] in enabled
            for observer in declaration.get("observers", [])
            if observer["type"] in types
            and all(
                want == ANY or any(model.covers(have, want) for have in uses) for want in observer.get("qualifiers", [])
            )
        ]
        return sorted(found, key=lambda pair: pair[1].get("priority", PRIORITY))

    def observers(self, name, uses):
        """What the command answers."""
        found = self.observing(name, uses)
        return " ".join(["observers", *(f"{bean['name']}/{observer['name']}" for bean, observer in found)])

    # Faults.

    def faults_of_events(self, declaration):
        """What is wrong with the events that any part of a bean or an interceptor fires."""
        for part in parts_of(declaration):
            for event in part.get("fires", []):
                yield from self.model.unknown("type", [event.type])
                yield from self.model.faults_of_uses(event.uses)

    def faults_of_bean(self, declaration, managed):
        """What is wrong with the events and observer methods of a bean, of which the managed bean is given."""
        model, observers = self.model, declaration.get("observers", [])
        yield from self.faults_of_events(declaration)
        for observer in observers:
            for part in [observer, *observer.get("params", [])]:
                yield from model.unknown("type", [part["type"]])
                yield from model.faults_of_uses(part.get("qualifiers", []))
            if observer.get("conditional") and managed.scope == "dependent":
                yield "F09", f"observer {observer['name']}"
            if managed.enabled:
                for param in observer.get("params", []):
                    yield from model.faults_of_point(f"observer {observer['name']} param {param['name']}", param)
