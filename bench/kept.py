"""A plain model of known keys: which answers the container keeps over edits, and how many it has worked out.

A key is a question whose answer may be kept: which bean is chosen for a type and qualifiers, which interceptors a place of a
bean has, or which observer methods an event has. Declarations want the keys of their injection points, of the places of
beans and of events. A command evaluates keys, and each of these that is not known is work. Those that are wanted are known
from then on, until an edit after which they see something else or are not wanted.

What a key sees is compared as a whole, before an edit and after it. Nothing of this shares code with the program.
Declarations, beans, bindings and types are asked of the model in `bench/compare`, which uses it.
"""

from chains import CALLBACKS, places_of
from events import PRIORITY, parts_of
from texts import DEFAULT, ordered


def uses_of(uses):
    """Uses as they are written, in order."""
    return tuple(sorted(map(ordered, uses)))


def choice_key(name, uses):
    return "choice", name, uses_of(uses or [DEFAULT])


def chain_key(name, place):
    return "chain", name, place


def event_key(name, uses):
    return "event", name, uses_of(uses)


def points_of(declaration):
    """The injection points of a bean or an interceptor."""
    yield from declaration.get("points", [])
    for part in declaration.get("producers", []) + declaration.get("observers", []):
        yield from part.get("params", [])


class Kept:
    """The known keys and the work, command after command. The present declarations are asked of a model."""

    def __init__(self, model):
        self.model = model
        self.known = set()
        self.done = 0

    # Commands. Each evaluates its keys, and answers its text.

    def choose(self, name, uses):
        self.evaluate({choice_key(name, uses)})
        return self.model.choose(name, uses)

    def observers(self, name, uses):
        self.evaluate({event_key(name, uses)})
        return self.model.events.observers(name, uses)

    def chain(self, name, place):
        answer = self.model.chains.chain(name, place)
        if not answer.startswith("refused"):
            self.evaluate({chain_key(name, place)})
        return answer

    def report(self):
        self.evaluate(self.wanted())
        return self.model.report()

    def work(self):
        return f"work {self.done} known {len(self.known)}"

    def run(self, own):
        """Evaluates what a run evaluates: every wanted key, and its own key if there is one."""
        self.evaluate(self.wanted() | ({own} if own else set()))

    def evaluate(self, keys):
        self.done += len(keys - self.known)
        self.known |= keys & self.wanted()

    # Wanted keys.

    def wanted(self):
        return {key for declaration in self.model.declarations for key in self.wanted_by(declaration)}

    @staticmethod
    def wanted_by(declaration):
        """The keys that a declaration wants, enabled or not."""
        if declaration["kind"] not in ("bean", "interceptor"):
            return
        for point in points_of(declaration):
            yield choice_key(point["type"], point.get("qualifiers", []))
        for part in parts_of(declaration):
            for event in part.get("fires", []):
                yield event_key(event.type, event.uses)
        if declaration["kind"] == "bean":
            for place in places_of(declaration):
                yield chain_key(declaration["name"], place)

    # Edits.

    def keep(self, before):
        """Forgets, after an edit, what is not wanted any more or does not see what it saw before it."""
        after = self.seen()
        self.known = {key for key in self.known & self.wanted() if before[key] == after[key]}

    def seen(self):
        """What each known key sees of the present declarations."""
        beans = [bean for bean in self.model.beans() if bean.enabled]
        observers = self.ordered_observers({bean.ident for bean in beans})
        sees = {
            "choice": lambda name, uses: self.seen_by_choice(beans, name, uses),
            "chain": self.seen_by_chain,
            "event": lambda name, uses: self.seen_by_event(observers, name, uses),
        }
        return {key: sees[key[0]](*key[1:]) for key in self.known}

    def seen_by_choice(self, beans, name, uses):
        """The enabled beans that have the type, and the declarations of the qualifiers."""
        found = [
            (bean.ident, self.filled("qualifier", bean.qualifiers), bean.priority, bean.kept)
            for bean in beans
            if name in bean.types
        ]
        return found, [self.declared("qualifier", use[0]) for use in uses]

    def seen_by_chain(self, name, place):
        """The bindings of the place, what declares them, and the interceptors with a part for it that have one of their types."""
        declaration = self.model.find("bean", name)
        if declaration is None or place not in places_of(declaration):
            return None
        bindings = uses_of(self.model.chains.at(declaration, place))
        names, part = {use[0] for use in bindings}, CALLBACKS.get(place, "around_invoke")
        found = [
            interceptor
            for interceptor in self.model.chains.enabled()
            if part in interceptor and any(use[0] in names for use in interceptor.get("bindings", []))
        ]
        found.sort(key=lambda interceptor: interceptor["priority"])
        around = [(other["name"], self.filled("binding", uses_of(other["bindings"]))) for other in found]
        return bindings, {use: self.declared("binding", use) for use in names}, around

    def seen_by_event(self, observers, name, uses):
        """The observer methods of enabled beans that observe a type of the event, and the declarations of its qualifiers."""
        types = self.model.types(name)
        found = [
            (bean, observer["name"], self.filled("qualifier", uses_of(observer.get("qualifiers", []))))
            for bean, observer in observers
            if observer["type"] in types
        ]
        return found, [self.declared("qualifier", use[0]) for use in uses]

    def ordered_observers(self, enabled):
        """All observer methods of enabled beans in their order, each behind the name of its bean."""
        found = [
            (declaration["name"], observer)
            for declaration in self.model.declarations
            if declaration["kind"] == "bean" and declaration["name"] in enabled
            for observer in declaration.get("observers", [])
        ]
        return sorted(found, key=lambda pair: pair[1].get("priority", PRIORITY))

    def filled(self, kind, uses):
        """Uses with all of their members. Two that are filled to the same are two."""
        return [(use[0], self.model.filled(kind, use)) for use in uses]

    def declared(self, kind, name):
        """What the declaration of a qualifier or of a binding says, if there is one. Its members stay in their order."""
        found = self.model.find(kind, name)
        if found is None:
            return None
        members = found.get("members", [])
        said = [(member["name"], member.get("default"), member.get("binding", True)) for member in members]
        return said, uses_of(found.get("declares", []))
