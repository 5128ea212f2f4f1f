"""Random declarations and commands, and the texts of them; `bench/compare` writes scripts of them."""

import random

from batches import COUNTS, batch, counted, cut_off, exchange, filling, is_full, long_batch, put_block, stray
from bodies import PROMISES
from chains import CALLBACKS, places_of
from chains import PARTS as PARTS_OF_INTERCEPTORS
from deployments import Commander
from spoiling import spoiled
from texts import ANY, DEFAULT, NOTIFIES, Event, line_of, text_of_declaration, text_of_put
from touching import Touching

TYPES = ["A", "B", "C", "D", "Shop", "x.Y"]
QUALIFIERS = ["Q", "P", "a.R"]
BINDINGS = ["Log", "a.Tx"]
STEREOTYPES = ["S", "U", "V", "W"]
INTERCEPTORS = ["I", "J", "A"]
PRODUCERS = ["p", "q", "make"]
OBSERVERS = ["o", "p", "seen"]
MEMBERS = ["m", "n"]
METHODS = ["run", "add", "value"]
SCOPES = ["dependent", "request", "application"]
NAMES = {
    "type": TYPES,
    "bean": TYPES,
    "qualifier": QUALIFIERS,
    "binding": BINDINGS,
    "stereotype": STEREOTYPES,
    "interceptor": INTERCEPTORS,
}
# The kinds of random declarations, those oftener of which more are wanted.
KINDS = ["type"] * 3 + ["qualifier", "binding"] + ["stereotype"] * 2 + ["interceptor"] * 3 + ["bean"] * 5


class Writer:
    """Random declarations, commands and their texts."""

    def __init__(self, seed, new_model, length=1):
        self.random = random.Random(seed)
        self.new_model = new_model
        self.length = length
        # The model of the latest script, and whether its end is cut.
        self.model = None
        self.is_cut = False
        # Whether most types extend another, and most beans specialize.
        self.specializes = False

    def maybe(self, chance):
        return self.random.random() < chance

    def some(self, names, most=3):
        return self.random.sample(names, self.random.randint(0, min(most, len(names))))

    def use(self, names, plain=0.5):
        name = self.random.choice(names)
        if name in ("Any", "Default") or self.maybe(plain):
            return (name, ())
        return (name, tuple((member, self.random.randint(0, 1)) for member in self.some(MEMBERS)))

    def uses(self):
        uses = [self.use(QUALIFIERS + ["Any", "Default"] if self.maybe(0.3) else QUALIFIERS) for _ in range(2)]
        return self.some(self.distinct(uses), 2)

    def bindings(self):
        """One use most often, or two, or none; now and then of a name that is built in for qualifiers alone."""
        most = self.random.choice([0, 1, 1, 1, 1, 1, 2, 2])
        uses = [self.use(BINDINGS + ["Any"] if self.maybe(0.05) else BINDINGS, 0.8) for _ in range(most)]
        if self.maybe(0.03):
            uses.append(("Named", self.random.choice("ab")))
        return self.distinct(uses)

    @staticmethod
    def distinct(uses):
        return list({use[0]: use for use in uses}.values())

    def attributes(self, declaration):
        keys = {
            "types": (0.3, lambda: self.some(TYPES)),
            "qualifiers": (0.5, self.uses),
            "named": (0.4, lambda: self.random.choice(["", "b", "c.d", "a"])),
            "scope": (0.2, lambda: self.random.choice(SCOPES)),
            "stereotypes": (0.4, lambda: self.some(STEREOTYPES, 2)),
            "alternative": (0.3, lambda: self.maybe(0.8)),
        }
        return self.with_keys(declaration, keys)

    def with_keys(self, declaration, keys):
        for key, (chance, value) in keys.items():
            if self.maybe(chance):
                declaration[key] = value()
        return declaration

    def member(self, name):
        keys = {"default": (0.5, lambda: self.random.randint(0, 1)), "binding": (0.4, lambda: self.maybe(0.5))}
        return self.with_keys({"name": name}, keys)

    def producer(self, name):
        declaration = self.attributes({"name": name, "type": self.random.choice(TYPES), **self.part()})
        keys = {
            "params": (0.4, lambda: [self.point(part, {}) for part in self.some(["in", "by"])]),
            "static": (0.2, lambda: self.maybe(0.8)),
            "bindings": (0.3, self.bindings),
        }
        return self.with_keys(declaration, keys)

    def body(self):
        return self.random.choice([*PROMISES, "unit", "relay", "nobody"])

    def calls(self):
        return [self.random.choice(["at", "to", "in", "by"]) + "." + name for name in self.some(METHODS)]

    def event(self):
        """An event, most often without qualifiers; its uses and their members stand in any order."""
        uses = self.asked() if self.maybe(0.5) else []
        self.random.shuffle(uses)
        return Event(self.type_of_event(), tuple(uses))

    def type_of_event(self):
        return self.random.choice(TYPES + ["Object"])

    def asked(self):
        """Uses that an observer method or an event may have."""
        uses = [use for use in self.uses() if use != DEFAULT]
        return uses + [("Named", self.random.choice("ab"))] * self.maybe(0.1)

    def fires(self):
        return [self.event() for _ in range(self.random.randint(0, 2))]

    def part(self):
        return self.with_keys({"body": self.body()}, {"calls": (0.4, self.calls), "fires": (0.3 * NOTIFIES, self.fires)})

    def observer(self, name):
        keys = {
            "qualifiers": (0.5, self.asked),
            "priority": (0.4, lambda: self.random.choice([-3, 2499, 2500, 2501])),
            "conditional": (0.3, lambda: self.maybe(0.8)),
            "bindings": (0.3, self.bindings),
            "params": (0.3, lambda: [self.point(part, {}) for part in self.some(["in", "by"])]),
        }
        return self.with_keys({"name": name, "type": self.type_of_event(), **self.part()}, keys)

    def point(self, name, more):
        return {"name": name, "type": self.random.choice(TYPES), "qualifiers": self.uses(), **more}

    def points(self):
        return [self.point(name, {}) for name in self.some(["at", "to"])]

    def method(self, name):
        return self.with_keys({"name": name, **self.part()}, {"bindings": (0.3, self.bindings)})

    def priority(self):
        return self.random.choice([-3, 0, 1, 2])

    def declaration(self, kind, name=None):
        declaration = {"kind": kind, "name": name or self.random.choice(NAMES[kind])}
        if kind == "bean":
            self.attributes(declaration)
        return self.with_keys(declaration, self.keys_of_bean() if kind == "bean" else self.keys(kind))

    def extended(self):
        """The type that another extends: often one of three, where many beans are to specialize the same ones."""
        return self.random.choice(TYPES[:3] if self.specializes and self.maybe(0.6) else TYPES)

    def keys(self, kind):
        """The keys of a declaration that is no bean, each with how likely it is and what makes its value."""
        return {
            "type": {
                "implements": (0.5, lambda: self.some(TYPES, 2)),
                "extends": (0.7 if self.specializes else 0.3, self.extended),
                "form": (0.3, lambda: self.random.choice(["class", "interface"])),
                "final": (0.4, lambda: self.maybe(0.8)),
            },
            "qualifier": {"members": (0.8, lambda: [self.member(name) for name in self.some(MEMBERS)])},
            "binding": {
                "members": (0.6, lambda: [self.member(name) for name in self.some(MEMBERS)]),
                "declares": (0.5, self.bindings),
            },
            "stereotype": {
                "scope": (0.3, lambda: self.random.choice(SCOPES)),
                "named": (0.3, lambda: self.maybe(0.8)),
                "alternative": (0.3, lambda: self.maybe(0.8)),
                "stereotypes": (0.5, lambda: self.some(STEREOTYPES, 2)),
                "bindings": (0.3, self.bindings),
            },
            "interceptor": {
                "priority": (0.8, self.priority),
                "bindings": (0.95, self.bindings),
                "points": (0.3, self.points),
                **{part: (0.6, self.part) for part in PARTS_OF_INTERCEPTORS},
            },
        }[kind]

    def keys_of_bean(self):
        return {
            "priority": (0.5, self.priority),
            "specializes": (0.8 if self.specializes else 0.2, lambda: self.maybe(0.9)),
            "bindings": (0.7, self.bindings),
            "producers": (0.5, lambda: [self.producer(name) for name in self.some(PRODUCERS, 2)]),
            "points": (0.4, self.points),
            "observers": (0.6 * NOTIFIES, lambda: [self.observer(name) for name in self.some(OBSERVERS)]),
            "disposers": (0.4, lambda: [self.point(name, {"body": self.body()}) for name in self.some(["drop", "end"])]),
            "methods": (0.6, lambda: [self.method(name) for name in self.some(METHODS)]),
            **{place: (0.2, self.part) for place in CALLBACKS},
        }

    def edit(self, model):
        """A line, put block or batch that edits the declarations, and its answer."""
        if self.maybe(0.12):
            return self.batch(model)
        if self.maybe(0.12):
            kind, name = self.dropped()
            return f"drop {kind} {name}\n", model.drop(kind, name)
        if self.maybe(0.12):
            text = self.spoiled_text()
            return put_block(text), model.put_text(text)
        return self.put(model, self.random.choice(KINDS))

    def put(self, model, kind, name=None):
        declaration = self.declaration(kind, name)
        return text_of_put(declaration), model.put(declaration)

    def dropped(self):
        """The kind and the name of any declaration."""
        kind = self.random.choice(list(NAMES))
        return kind, self.random.choice(NAMES[kind])

    def spoiled_text(self):
        """A bean or an interceptor of which something is wrong most often."""
        declaration = self.declaration(self.random.choice(["bean", "bean", "bean", "interceptor"]))
        return text_of_declaration(spoiled(self.random, declaration))

    def batch(self, model):
        """A batch, and its answer; now and then a very long one, or a line that is none."""
        draw = self.random.random()
        if is_full(model) and draw < 0.5:
            return exchange(self.random, model)
        if draw < 0.02:
            return long_batch(self.random, model)
        return stray(self.random) if draw < 0.06 else batch(self.random, model, self.edits(model))

    def edits(self, model):
        """Some edits of a batch, few of which are refused."""
        return [self.text_of_edit(model) for _ in range(self.random.choice([0, 1, 1, 2, 2, 3, 5]))]

    def text_of_edit(self, model):
        draw = self.random.random()
        if draw < 0.04:
            return put_block(self.spoiled_text())
        if draw < 0.75:
            return text_of_put(self.declaration(self.random.choice(KINDS)))
        kind, name = self.dropped()
        if model.declarations and draw < 0.97:
            present = self.random.choice(model.declarations)
            kind, name = present["kind"], present["name"]
        return f"drop {kind} {name}\n"

    def question(self, model):
        """A line that asks for a bean, for a chain, for the faults or for the counts, and its answer."""
        if self.maybe(0.04):
            return COUNTS, model.records.counts()
        if self.maybe(0.3):
            return "report\n", model.kept.report()
        if self.maybe(0.35):
            return self.question_of_chain(model)
        if self.maybe(0.35):
            name, uses = self.type_of_event(), self.asked() + [DEFAULT] * self.maybe(0.1)
            return line_of(["observers", name], uses), model.kept.observers(name, uses)
        if self.maybe(0.25):
            name = self.random.choice(["a", "b", "c.d", "make", "p", "q", "shop", "y", "d", "c"])
            return f"name {name}\n", model.named(name)
        name = self.random.choice(TYPES + ["Object", "Object"])
        uses = [ANY] if self.maybe(0.25) else self.uses()
        if self.maybe(0.1):
            uses.append(("Named", self.random.choice(["a", "b", "make"])))
        return line_of(["choose", name], uses), model.kept.choose(name, uses)

    def question_of_chain(self, model):
        """A line that asks for a chain, most often around a place that a bean has."""
        beans = [found for found in model.declarations if found["kind"] == "bean"]
        if beans and self.maybe(0.9):
            bean = self.random.choice(beans)
            name, places = bean["name"], list(places_of(bean))
        else:
            name, places = self.random.choice(TYPES), list(CALLBACKS)
        if self.maybe(0.1):
            places = ["method gone", "producer p", "observer o"]
        place = self.random.choice(places)
        return f"chain {name} {place}\n", model.kept.chain(name, place)

    def run(self, model):
        """A line that runs something, or begins or ends a context, and its answer."""
        word = self.random.choice(["lookup", "lookup", "call", "begin", "end", "stop"] + ["fire", "fire"] * NOTIFIES)
        if word == "begin":
            return "request begin\n", model.runs.begin_request()
        if word == "end":
            return "request end\n", model.runs.end_request()
        if word == "stop":
            return "stop\n", model.runs.stop()
        name, uses = self.random.choice(TYPES + ["Object"]), self.uses()
        if word == "lookup":
            return line_of(["lookup", name], uses), model.runs.lookup(name, uses)
        if word == "fire":
            return line_of(["fire", "1", name], uses), model.runs.fire(1, name, uses)
        return line_of(["call", "run", "1", name], uses), model.runs.call("run", 1, name, uses)

    def script(self):
        """The lines, put blocks and batches of a script, and their answers; half of the scripts are of a sound deployment, and
        the end of a few cuts what it ends with."""
        model = self.model = self.new_model()
        is_sound = self.maybe(0.5)
        touching = Touching(self.random, model, is_sound)
        if is_sound:
            steps = Commander(self.random, model, text_of_put, touching).script(self.length)
        else:
            steps = self.random_script(model, touching)
        steps += touching.work(0.5)
        self.is_cut = self.maybe(0.15)
        if self.is_cut:
            steps.append(cut_off(self.random, model, self.edits(model)))
        return steps

    def random_script(self, model, touching):
        """Half of these scripts begin with bindings and interceptors, so that their chains are seldom empty. A third begin with
        types that extend one another, often in circles, and with beans of these that specialize. In a few there are almost as
        many declarations as there may be.
        """
        begun = []
        self.specializes = self.maybe(0.33)
        if self.maybe(0.5):
            begun += [(kind, None) for kind in ["binding"] * 2 + ["interceptor"] * 3]
        if self.specializes:
            begun += [(kind, name) for kind in ["type", "bean"] for name in self.random.sample(TYPES, len(TYPES))]
        steps = [self.put(model, kind, name) for kind, name in begun]
        if self.maybe(0.02):
            steps += counted(self.random, model, filling(model, self.random.randint(0, 6)))
        for _ in range(self.length * self.random.randint(5, 25)):
            steps += [*counted(self.random, model, [self.edit(model)]), *touching.work(0.7)]
            for _ in range(self.random.randint(0, 4)):
                steps += [self.question(model), *touching.work(0.2)]
            for _ in range(self.random.randint(0, 1)):
                steps += [self.run(model), *touching.work(0.3)]
            steps += touching.more()
        return steps
