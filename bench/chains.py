"""A plain model of interceptor bindings, of the chains around the places of a bean, and of the faults of both.

It is written from the rules of `docs/language.md` and `docs/faults.md` and shares no code with the program. Declarations,
uses and choices are asked of the model in `bench/compare`, which uses it.
"""

from texts import ordered

# The parts of an interceptor, and which of them stands around a place of a bean.
PARTS = ["around_invoke", "around_construct", "post", "pre"]
CALLBACKS = {"construct": "around_construct", "post": "post", "pre": "pre"}

# What a part of an interceptor may promise.
AT_INTERCEPTOR = "LOAD STORE CALL FIRE PROCEED FAIL"
ALLOWED = {"pre": "LOAD STORE PROCEED FAIL"}


def replaced(own, others):
    """Own bindings, and those of the others whose type no own one has."""
    names = {use[0] for use in own}
    return own | {use for use in others if use[0] not in names}


def places_of(declaration):
    """The places of a bean around which interceptors may stand, each with what declares it."""
    places = {place: declaration.get(place, {}) for place in CALLBACKS}
    for method in declaration.get("methods", []):
        places["method " + method["name"]] = method
    for producer in declaration.get("producers", []):
        if not producer.get("static"):
            places["producer " + producer["name"]] = producer
    for observer in declaration.get("observers", []):
        places["observer " + observer["name"]] = observer
    return places


class Chains:
    """The bindings and chains of the present declarations, which are asked of a model."""

    def __init__(self, model):
        self.model = model

    # Bindings.

    def closed(self, uses):
        """Uses of bindings, and all that the binding types among them declare."""
        found, left = set(), list(uses)
        while left:
            use = ordered(left.pop())
            if use not in found:
                found.add(use)
                declaration = self.model.find("binding", use[0])
                left.extend(declaration.get("declares", []) if declaration else [])
        return found

    def of_class(self, declaration):
        """The bindings of a bean: its own before those of its stereotypes."""
        stereotypes = self.model.stereotypes(declaration.get("stereotypes", []))
        given = [use for stereotype in stereotypes for use in stereotype.get("bindings", [])]
        return replaced(self.closed(declaration.get("bindings", [])), self.closed(given))

    def at(self, declaration, place):
        """The bindings of a place of a bean: its own before those of the class."""
        of_class = self.of_class(declaration)
        if place in CALLBACKS:
            return of_class
        return replaced(self.closed(places_of(declaration)[place].get("bindings", [])), of_class)

    def differ(self, uses):
        """Whether two bindings of one type have different members, those that are not binding included."""
        filled = {}
        for use in uses:
            filled.setdefault(use[0], []).append(self.model.filled("binding", use))
        return any(members != alike[0] for alike in filled.values() for members in alike)

    # Chains.

    def enabled(self):
        interceptors = [found for found in self.model.declarations if found["kind"] == "interceptor"]
        return [found for found in interceptors if "priority" in found]

    def around(self, declaration, place):
        """The interceptors around a place of a bean; those with one priority stay in the order of their declarations."""
        part, bindings = CALLBACKS.get(place, "around_invoke"), self.at(declaration, place)
        bound = [
            found
            for found in self.enabled()
            if part in found
            and found.get("bindings")
            and all(any(self.model.covers(have, want, "binding") for have in bindings) for want in found["bindings"])
        ]
        return sorted(bound, key=lambda found: found["priority"])

    def of_bean(self, declaration):
        """Each interceptor that stands around any place of a bean, once, in the order of chains."""
        names = {found["name"] for place in places_of(declaration) for found in self.around(declaration, place)}
        found = [interceptor for interceptor in self.enabled() if interceptor["name"] in names]
        return sorted(found, key=lambda interceptor: interceptor["priority"])

    def chain(self, bean, place):
        """What the command answers."""
        declaration = self.model.find("bean", bean)
        if declaration is None:
            return "refused E51 UnknownName"
        if place not in places_of(declaration):
            return "refused E54 NoMethod"
        return " ".join(["chain", *(found["name"] for found in self.around(declaration, place))])

    # Faults.

    def faults_of_binding(self, declaration):
        def follow(found):
            return [use[0] for use in found.get("declares", [])]

        yield from self.model.faults_of_uses(declaration.get("declares", []), "binding")
        if self.model.reaches_itself("binding", declaration["name"], follow):
            yield "F02", ""

    def faults_of_bean(self, declaration):
        """What is wrong with the bindings of a bean."""
        bound = [part for key in ("methods", "producers", "observers") for part in declaration.get(key, [])]
        for part in [declaration, *bound]:
            yield from self.model.faults_of_uses(part.get("bindings", []), "binding")
        if self.differ(self.of_class(declaration)):
            yield "F06", "class"
        for place in places_of(declaration):
            if place not in CALLBACKS and self.differ(self.at(declaration, place)):
                yield "F06", place

    def faults_of_interceptor(self, declaration):
        model, bindings, points = self.model, declaration.get("bindings", []), declaration.get("points", [])
        yield from model.faults_of_uses(bindings, "binding")
        yield from model.unknown("type", [point["type"] for point in points])
        for point in points:
            yield from model.faults_of_uses(point.get("qualifiers", []))
        if not bindings:
            yield "F11", ""
        visible = {point["name"]: point for point in points}
        for place in (place for place in PARTS if place in declaration):
            if model.is_unfit(declaration[place], ALLOWED.get(place, AT_INTERCEPTOR)):
                yield "F10", place
            if "priority" in declaration:
                yield from model.lost_calls(place, declaration[place], visible)
        if "priority" in declaration:
            for point in points:
                yield from model.faults_of_point(f"point {point['name']}", point)
