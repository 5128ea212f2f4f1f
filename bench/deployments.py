"""Random deployments without faults, and commands that run in them; `bench/compare` writes scripts of them.

Types have places in an order, and each has one bean, a managed one or a product. A dependent bean has points of
dependent beans behind it in the order alone, and of beans of the other scopes anywhere, so none needs itself before it
is made. A product stands before the bean that declares it. Half of the deployments have bindings and interceptors, which
proceed more often than not. The points of an interceptor are of beans of the other scopes, and of a helper: a dependent bean
around which no interceptor stands, and which has no points.

In half of the deployments some managed beans are specialized: by a bean of a type that extends theirs, which has their scope
and makes the same products, and this one maybe by a further one. The last of them is enabled, and stands for all.

Two thirds have observer methods and events, where runs notify them. The parameters of an observer method are of any
beans, since they are made at a notification; so a bean may be made for an event that is fired while it is made, until
the run is too deep.
"""

from batches import COUNTS, batch, counted, exchange, filling, is_full, long_batch, stray
from texts import ANY, DEFAULT, NOTIFIES, Event, line_of

METHODS = ["run", "add", "go"]
SCOPES = ["dependent", "dependent", "application", "request"]
# The bodies that a place allows, those oftener that do something.
PLAIN = ["unit", "zero", "echo", "count", "count", "relay", "relay", "flaky", "boom", "short", "notify"]
BEFORE_DESTRUCTION = ["unit", "count", "flaky", "boom", "spin", "zero"]
OF_CLASS = ["zero", "unit", "echo", "relay", "relay", "boom", "short"]
DISPOSING = ["unit", "boom", "zero"]
PROCEEDING = ["pass", "double", "guard", "retry", "swallow"]
AROUND_DESTRUCTION = ["pass", *PROCEEDING, *PROCEEDING, "short", "boom", "count", "flaky"]
AROUND = [*AROUND_DESTRUCTION, "pass", "relay", "relay", "relay"]
HELPER = "shop.Helper"
OBSERVING = ["echo", "unit", "count", "flaky", "relay", "relay", "notify", "boom"]

LOG, TX, AUDIT = "shop.Log", "shop.Tx", "shop.Audit"
BINDINGS = [
    {"kind": "binding", "name": LOG},
    {"kind": "binding", "name": TX, "members": [{"name": "level", "default": 1}]},
    {"kind": "binding", "name": AUDIT, "declares": [(TX, (("level", 2),))]},
]
# Of these a list has one at most, so that no two of one type differ.
ONE_OF = [(TX, ()), (TX, (("level", 1),)), (TX, (("level", 2),)), (AUDIT, ())]

WEB, RANK = "shop.Web", "shop.Rank"
FACE, SALE, SUB = "shop.Face", "shop.Sale", "shop.Sub"
EVENTS = [
    {"kind": "qualifier", "name": WEB},
    {"kind": "qualifier", "name": RANK, "members": [{"name": "n"}, {"name": "note", "default": 0, "binding": False}]},
    {"kind": "type", "name": FACE, "form": "interface"},
    {"kind": "type", "name": SALE, "implements": [FACE]},
    {"kind": "type", "name": SUB, "extends": SALE},
]
# The uses of events and of observer methods, of which one has those of one list, in any order.
FIRED = [[], [], [(WEB, ())], [(RANK, (("n", 1),))], [(RANK, (("note", 3), ("n", 2))), (WEB, ())], [ANY], [("Named", "x"), ANY]]
OBSERVED = [[], [], [], [ANY], [(WEB, ())], [(WEB, ()), ANY], [(RANK, (("n", 1), ("note", 7)))], [("Named", "x")]]


class Planner:
    """Plans a deployment: the scope of each bean, and who declares which product."""

    def __init__(self, chance):
        self.chance = chance
        self.names = [f"shop.T{number}" for number in range(chance.randint(2, 8))]
        self.scopes = {name: chance.choice(SCOPES) for name in self.names}
        # A product belongs to the next managed bean behind it.
        self.products = {name for name in self.names[:-1] if self.maybe(0.3)}
        self.never_ending = self.maybe(0.15)
        self.interceptors = [f"shop.I{number}" for number in range(self.chance.randint(1, 4))] if self.maybe(0.5) else []
        self.helped = bool(self.interceptors) and self.maybe(0.7)
        self.has_events = NOTIFIES and self.maybe(0.67)
        # Each specializing bean with the one that it specializes.
        self.specialized = {}
        if self.maybe(0.5):
            for name in self.names:
                if name not in self.products and self.maybe(0.4):
                    self.specialize(name)

    def maybe(self, chance):
        return self.chance.random() < chance

    def specialize(self, name):
        """Plans one or two beans behind each other that specialize this one."""
        for letter in "ab"[: self.chance.randint(1, 2)]:
            above = f"{name}{letter}"
            self.specialized[above] = name
            self.scopes[above] = self.scopes[name]
            name = above

    def first(self, name):
        """The bean that stands in the order of names for one that specializes it."""
        while name in self.specialized:
            name = self.specialized[name]
        return name

    def types_of(self, name):
        """The types by which the bean of a name is asked for, most often its own."""
        above = [other for other in self.specialized if self.first(other) == name]
        return [name] * (1 + 3 * len(above)) + above

    def owner(self, product):
        behind = self.names[self.names.index(product) + 1 :]
        return next(name for name in behind if name not in self.products)

    def declarations(self):
        """The types and bindings, and then the beans and interceptors in any order."""
        types = [{"kind": "type", "name": name} for name in self.names + [HELPER] * self.helped]
        types += [{"kind": "type", "name": name, "extends": other} for name, other in self.specialized.items()]
        found = [self.bean(name) for name in [*self.names, *self.specialized] if name not in self.products]
        found += [self.interceptor(name) for name in self.interceptors] + [self.helper()] * self.helped
        self.chance.shuffle(found)
        return types + EVENTS * self.has_events + (BINDINGS if self.interceptors else []) + found

    def event(self):
        """An event of one of the types of events, of `Object` or of the type of a bean."""
        name = self.chance.choice([FACE, SALE, SALE, SUB, SUB, SUB, "Object", self.chance.choice(self.names)])
        uses = self.chance.choice(FIRED)
        return Event(name, tuple(self.chance.sample(uses, len(uses))))

    def observers(self, name, points):
        """The observer methods of a bean: few, since each of them may fire, too."""
        return [self.observer(f"on{number}", name, points) for number in range(self.chance.choice([0, 1, 1, 2]))]

    def observer(self, word, name, points):
        dependent = [other for other in self.names if self.scopes[other] == "dependent"] + [HELPER] * self.helped
        types = [self.chance.choice(dependent if dependent and self.maybe(0.6) else self.names) for _ in range(2)]
        params = [{"name": f"for{number}", "type": other} for number, other in enumerate(types) if self.maybe(0.5)]
        observed = self.chance.choice([FACE, SALE, SALE, SUB, SUB, "Object", self.chance.choice(self.names)])
        observer = {"name": word, "type": observed, "qualifiers": self.chance.choice(OBSERVED), "params": params}
        if self.maybe(0.4):
            observer["priority"] = self.chance.choice([-1, 2499, 2500, 2501])
        if self.scopes[name] != "dependent" and self.maybe(0.3):
            observer["conditional"] = True
        return {**observer, **self.bindings(0.5), **self.part(points + params, OBSERVING)}

    def bindings(self, chance, more=0.5):
        """The key of a list of bindings, or none."""
        if not self.interceptors or not self.maybe(chance):
            return {}
        logged, further = self.maybe(0.7), self.maybe(more)
        uses = [(LOG, ())] * (logged or not further) + [self.chance.choice(ONE_OF)] * further
        return {"bindings": uses}

    def helper(self):
        """The bean of which interceptors have an instance for each point; some can't be made or destroyed without a failure."""
        declaration = {"kind": "bean", "name": HELPER, "points": []}
        for place, chance, bodies in [("construct", 0.2, PLAIN), ("post", 0.3, PLAIN), ("pre", 0.4, BEFORE_DESTRUCTION)]:
            if self.maybe(chance):
                declaration[place] = self.part([], bodies)
        declaration["methods"] = [{"name": method, **self.part([], PLAIN)} for method in METHODS]
        return declaration

    def interceptor(self, name):
        lasting = [other for other in self.names if self.scopes[other] != "dependent"]
        points = [{"name": "by", "type": self.chance.choice(lasting)}] if lasting and self.maybe(0.3) else []
        points += [{"name": f"aid{number}", "type": HELPER} for number in range(self.chance.randint(0, 2) * self.helped)]
        self.chance.shuffle(points)
        declaration = {"kind": "interceptor", "name": name, "points": points, **self.bindings(1, 0.3)}
        if self.maybe(0.9):
            declaration["priority"] = self.chance.choice([-1, 1, 1, 2])
        for place, chance, bodies in [
            ("around_invoke", 0.8, AROUND),
            ("around_construct", 0.4, AROUND),
            ("post", 0.4, AROUND),
            ("pre", 0.6, AROUND_DESTRUCTION),
        ]:
            if self.maybe(chance):
                declaration[place] = self.part(points if place != "pre" else [], bodies)
        return declaration

    def bean(self, name):
        points = self.points(self.first(name), "at", 3)
        declaration = {"kind": "bean", "name": name, "scope": self.scopes[name], "points": points, **self.bindings(0.8)}
        if name in self.specialized:
            declaration["specializes"] = True
        elif self.specialized and self.maybe(0.3):
            declaration["named"] = ""
        for place, chance, bodies in [
            ("construct", 0.3, PLAIN),
            ("post", 0.3, PLAIN),
            ("pre", 0.6, BEFORE_DESTRUCTION),
        ]:
            if self.maybe(chance):
                declaration[place] = self.part(points if place != "pre" else [], bodies)
        declaration["methods"] = [
            {"name": method, **self.part(points, PLAIN), **self.bindings(0.3)} for method in METHODS
        ]
        made = [product for product in sorted(self.products) if self.owner(product) == self.first(name)]
        declaration["producers"] = [self.producer(product, points) for product in made]
        declaration["disposers"] = [
            {"name": "drop_" + product[-2:], "type": product, "body": self.chance.choice(DISPOSING)}
            for product in made
            if self.maybe(0.5)
        ]
        if self.has_events:
            declaration["observers"] = self.observers(name, points)
        return declaration

    def producer(self, product, points):
        params = self.points(product, "in", 2)
        producer = {"name": "make_" + product[-2:], "type": product, "scope": self.scopes[product], "params": params}
        producer.update(self.bindings(0.3))
        if self.maybe(0.3):
            return {**producer, "static": True, **self.part(params, OF_CLASS)}
        return {**producer, **self.part(points + params, PLAIN)}

    def points(self, name, word, most):
        """Points that a bean may have: what is dependent stands behind it, and behind the bean that declares it."""
        place = self.names.index(name)
        first = self.names.index(self.owner(name)) if name in self.products else place
        allowed = [
            other
            for other in self.names
            if self.scopes[other] != "dependent" or self.names.index(other) > (place if word == "in" else first)
        ]
        chosen = [self.chance.choice(allowed) for _ in range(self.chance.randint(0, most))] if allowed else []
        types = [self.chance.choice(self.types_of(other)) for other in chosen]
        points = [{"name": f"{word}{number}", "type": other} for number, other in enumerate(types)]
        for point in points:
            if self.maybe(0.2):
                point["qualifiers"] = [("Any", ())]
        return points

    def part(self, points, bodies):
        spins = self.never_ending and bodies in (PLAIN, AROUND) and self.maybe(0.1)
        fires = [self.event() for _ in range(self.chance.choice([0, 0, 0, 1, 1, 2]))] if self.has_events else []
        notifies = fires and "relay" in bodies and self.maybe(0.4)
        body = "spin" if spins else "notify" if notifies else self.chance.choice(bodies)
        sites = [
            f"{point['name']}.{'value' if point['type'] in self.products else self.chance.choice(METHODS)}"
            for point in points
        ]
        calls = [self.chance.choice(sites) for _ in range(self.chance.randint(0, 3))] if sites else []
        return {"body": body, **({"calls": calls} if calls else {}), **({"fires": fires} if fires else {})}

    def faulty(self, declaration):
        """The same declaration with something wrong."""
        return {**declaration, "points": declaration["points"] + [{"name": "lost", "type": "shop.Nowhere"}]}


class Commander:
    """Random commands of a deployment, each with what the model answers."""

    def __init__(self, chance, model, text_of_put, touching):
        self.chance = chance
        self.model = model
        self.touching = touching
        self.planner = Planner(chance)
        self.text_of_put = text_of_put

    def put(self, declaration):
        return self.text_of_put(declaration), self.model.put(declaration)

    def script(self, length):
        beans = self.planner.declarations()
        if self.planner.maybe(0.2):
            steps = self.accepted([self.text_of_put(declaration) for declaration in beans])
        else:
            steps = [self.put(declaration) for declaration in beans]
        steps = counted(self.chance, self.model, steps)
        if self.planner.maybe(0.02):
            steps += filling(self.model, 0)
        steps.append(("report\n", self.model.kept.report()))
        if self.planner.interceptors:
            steps.extend(self.chain(name) for name in self.planner.names)
        changing = [found for found in beans if found["kind"] in ("bean", "interceptor")]
        # With as many declarations as there may be a run takes long where the program is checked as it runs.
        least, most = (3, 8) if is_full(self.model) else (10, 40)
        for _ in range(length * self.chance.randint(least, most)):
            steps += [self.command(), *self.touching.work(0.2)]
            if self.chance.random() < (0.3 if self.model.runs.live else 0.05):
                steps += [*counted(self.chance, self.model, self.edits(changing)), *self.touching.work(0.8)]
            steps += self.touching.more()
        return steps

    def command(self):
        if self.planner.has_events and self.planner.maybe(0.25):
            return self.command_of_event()
        runs, draw = self.model.runs, self.chance.random()
        name, uses, words = self.asked()
        if draw < 0.15:
            return "request begin\n", runs.begin_request()
        if draw < 0.22:
            return "request end\n", runs.end_request()
        if draw < 0.27:
            return "stop\n", runs.stop()
        if draw < 0.28:
            return COUNTS, self.model.records.counts()
        if draw < 0.32:
            return f"choose {name}{words}\n", self.model.kept.choose(name, uses)
        if draw < 0.36:
            return self.chain(name)
        if draw < 0.55:
            return f"lookup {name}{words}\n", runs.lookup(name, uses)
        method = "value" if name in self.planner.products else self.chance.choice(METHODS)
        if self.planner.maybe(0.05):
            method = self.chance.choice(["value", "gone"])
        argument = self.chance.choice([None, 0, 5, -7, 2**63 - 1])
        word = "null" if argument is None else argument
        return f"call {method} {word} {name}{words}\n", runs.call(method, argument, name, uses)

    def command_of_event(self):
        """An event, or a question for its observer methods; some name what is not declared, or `Default`."""
        name, uses = self.planner.event()
        uses = list(uses)
        if self.planner.maybe(0.06):
            uses.append(self.chance.choice([("Lost", ()), DEFAULT]))
        if self.planner.maybe(0.03):
            name = "shop.Nowhere"
        if self.planner.maybe(0.2):
            return line_of(["observers", name], uses), self.model.kept.observers(name, uses)
        argument = self.chance.choice([None, 0, 5, -7, 2**63 - 1])
        word = "null" if argument is None else str(argument)
        return line_of(["fire", word, name], uses), self.model.runs.fire(argument, name, uses)

    def chain(self, name):
        """A question for a chain; a product has none."""
        methods, observers = ["method " + method for method in METHODS], ["observer on0"] * self.planner.has_events
        place = self.chance.choice(["construct", "post", "pre", *methods, *observers])
        return f"chain {name} {place}\n", self.model.kept.chain(name, place)

    def asked(self):
        """A type and qualifiers, most often those of one bean."""
        name = self.chance.choice([*self.planner.names, *self.planner.specialized])
        draw = self.chance.random()
        if draw < 0.04:
            return "Object", [], ""
        if draw < 0.06:
            return "shop.Nowhere", [], ""
        if draw < 0.08:
            return name, [("Lost", ())], " Lost"
        if draw < 0.09:
            default = self.planner.first(name).removeprefix("shop.").lower()
            return name, [("Named", default)], f" Named({default})"
        if draw < 0.1:
            return name, [("Named", "nobody")], " Named(nobody)"
        return (name, [("Any", ())], " Any") if draw < 0.2 else (name, [], "")

    def edits(self, changing):
        """An edit of one of these declarations, which ends what is live by those from before; or one that is refused; or a
        batch."""
        if self.planner.maybe(0.45 if self.model.runs.live else 0.2):
            return self.batches(changing)
        place = self.chance.randrange(len(changing))
        present, draw = changing[place], self.chance.random()
        if draw < 0.2:
            return [self.put(present)]
        if draw < 0.55:
            changing[place] = self.anew(present)
            return [self.put(changing[place])]
        if draw < 0.65:
            return [self.refused()]
        if draw < 0.75 and present["kind"] == "interceptor":
            wrong = self.drop("interceptor", present["name"])
        elif draw < 0.9 and "specializes" in present:
            wrong = self.specializing_nothing(present)
        else:
            wrong = self.put(self.planner.faulty(present))
        return [wrong, *self.commands(), self.put(present)]

    def commands(self):
        """A few commands between two edits."""
        steps = self.touching.work(0.8)
        for _ in range(self.chance.randint(0, 2)):
            steps += [self.command(), *self.touching.work(0.2)]
        return steps

    def batches(self, changing):
        """A batch that puts some of these declarations, a few of them anew. Some it first drops, or puts with a fault; a few
        batches end behind this, and another one mends the declarations after some commands."""
        chosen = self.chance.sample(range(len(changing)), min(len(changing), self.chance.choice([0, 1, 1, 2, 2, 3, 4, 99])))
        after = list(changing)
        for place in chosen:
            after[place] = self.anew(changing[place]) if self.planner.maybe(0.6) else changing[place]
        puts = [self.text_of_put(after[place]) for place in chosen]
        wrong = [self.wrong(changing[place]) if self.planner.maybe(0.4) else "" for place in chosen]
        if any(wrong) and self.planner.maybe(0.25):
            steps = [batch(self.chance, self.model, wrong), *self.commands(), *self.accepted(puts)]
        elif self.planner.maybe(0.5):
            steps = [batch(self.chance, self.model, wrong + puts)]
        else:
            steps = [batch(self.chance, self.model, [text for pair in zip(wrong, puts) for text in pair])]
        if self.is_accepted(steps[-1]):
            changing[:] = after
        return steps

    def accepted(self, edits):
        """A batch of these edits, again until it is accepted."""
        steps = [batch(self.chance, self.model, edits)]
        while not self.is_accepted(steps[-1]):
            steps.append(batch(self.chance, self.model, edits))
        return steps

    @staticmethod
    def is_accepted(step):
        return step[1].split("\n")[-1] == "ok"

    def wrong(self, present):
        """An edit that drops a declaration, or puts it with a fault."""
        if self.planner.maybe(0.6):
            return f"drop {present['kind']} {present['name']}\n"
        return self.text_of_put(self.planner.faulty(present))

    def anew(self, present):
        """Another declaration of the same bean or interceptor: its bodies, its callbacks and its observer methods are others."""
        name = present["name"]
        if present["kind"] == "interceptor":
            return self.planner.interceptor(name)
        return self.planner.helper() if name == HELPER else self.planner.bean(name)

    def specializing_nothing(self, present):
        """Takes from a bean that it specializes another: it is gone, or disabled, or does not say so."""
        draw = self.chance.random()
        if draw < 0.3:
            return self.drop("bean", present["name"])
        return self.put({**present, **({"alternative": True} if draw < 0.8 else {"specializes": False})})

    def drop(self, kind, name):
        return f"drop {kind} {name}\n", self.model.drop(kind, name)

    def refused(self):
        """A drop, a put or a line that is refused, and ends nothing; or a batch that is very long, or where the list is full."""
        if is_full(self.model) and self.planner.maybe(0.6):
            return exchange(self.chance, self.model)
        if self.planner.maybe(0.15):
            return stray(self.chance) if self.planner.maybe(0.5) else long_batch(self.chance, self.model)
        if self.planner.maybe(0.5):
            return self.drop("bean", "shop.Nowhere")
        text = 'kind = "bean"\nname = "shop.Nowhere"\ncolour = "red"\n'
        return f"put\n{text}.\n", self.model.put_text(text)
