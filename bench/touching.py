"""Edits that touch some keys and not others, and questions for keys, in scripts that ask for the work.

`bench/compare` writes them among the other commands. They are made of the present declarations: some member, use,
priority, part or entry of one is another, or is none, or a declaration is dropped and put again as it is. A deployment without
faults is mended after them. Questions are for keys that are wanted, most often for those that are not known, and for others
that are almost the same.
"""

import copy

from batches import BAD_COMMAND, batch, is_full, put_block
from chains import CALLBACKS, PARTS, places_of
from reading import LIST_LIMIT
from spoiling import tables_of
from texts import ANY, DEFAULT, KEYS_OF_USES, Event, line_of, text_of_declaration, text_of_put

WORK = ["work\n"] * 30 + ["  work \n"]
NO_WORK = ["work now\n", "Work\n", "works\n"]
# How much oftener one of a kind is edited.
WEIGHTS = {"qualifier": 4, "binding": 4, "interceptor": 4, "bean": 3, "stereotype": 2, "type": 1}
# A declaration of the one kind may have the name of one of the other.
NAMESAKES = {"qualifier": "binding", "binding": "qualifier"}
LISTS = ["members", "points", "params", "methods", "producers", "observers"]
SCOPES = ["dependent", "request", "application"]


class Touching:
    """Writes what is asked about known keys among the other commands of a script."""

    def __init__(self, chance, model, mends):
        self.chance = chance
        self.model = model
        # Whether what an edit makes faulty is mended.
        self.mends = mends
        # Every key that was wanted when one was asked for.
        self.met = set()

    def maybe(self, chance):
        return self.chance.random() < chance

    def work(self, likely):
        """A question for the work, so likely, or none."""
        if not self.maybe(likely):
            return []
        if self.maybe(0.02):
            return [(self.chance.choice(NO_WORK), BAD_COMMAND)]
        return [(self.chance.choice(WORK), self.model.kept.work())]

    def more(self):
        """Some questions, and edits with questions after them; or nothing."""
        steps = []
        if self.maybe(0.8 if is_full(self.model) else 0.4):
            return steps
        for _ in range(self.chance.randint(0, 2)):
            steps += [self.question(), *self.work(0.5)]
        if self.maybe(0.3):
            steps += [("report\n", self.model.kept.report()), *self.work(0.3)]
        return steps + self.edited() if self.maybe(0.8) else steps

    # Edits.

    def edited(self):
        """An edit of some declarations, the work, some questions, and often the same declarations again as they were."""
        present = self.some_present()
        if not present:
            return []
        if present[0]["kind"] in NAMESAKES and self.maybe(0.08):
            return [self.put(self.namesake(present[0])), *self.work(0.9)]
        chained = [bean for bean in self.beans() if len(self.model.specialized.chain(bean)) > 1]
        if chained and self.maybe(0.12):
            return self.shared(self.chance.choice(chained))
        steps = [self.edit(present), *self.work(0.9)]
        for _ in range(self.chance.randint(0, 3)):
            steps += [self.question(), *self.work(0.5)]
        if self.maybe(0.4) or (self.mends and self.model.report() != "faults 0"):
            for declaration in present:
                steps += [self.put(declaration), *self.work(0.8)]
        return steps

    def some_present(self):
        """One declaration, or a few in their order."""
        found = [declaration for declaration in self.model.declarations if not declaration["name"].startswith("more.")]
        if not found:
            return []
        weights = [WEIGHTS[declaration["kind"]] for declaration in found]
        chosen = self.chance.choices(range(len(found)), weights, k=self.chance.choice([1] * 8 + [2, 3]))
        if self.maybe(0.1):
            kind = found[chosen[0]]["kind"]
            chosen = [place for place, declaration in enumerate(found) if declaration["kind"] == kind]
        return [found[place] for place in sorted(set(chosen))]

    def put(self, declaration):
        text = text_of_declaration(declaration)
        return put_block(text), self.model.put_text(text)

    def edit(self, present):
        """A put or a drop of one, or a batch in which all are changed, or changed and put back, or dropped and put again."""
        first, draw = present[0], self.chance.random()
        if len(present) == 1 and draw < 0.65:
            return self.put(self.changed(first))
        if len(present) == 1 and draw < 0.7:
            return self.drop_line(first), self.model.drop(first["kind"], first["name"])
        drops = [self.drop_line(declaration) for declaration in present]
        changed = [text_of_put(self.changed(declaration)) for declaration in present]
        puts = [text_of_put(declaration) for declaration in present]
        if draw < 0.75:
            return batch(self.chance, self.model, changed)
        if draw < 0.8:
            return batch(self.chance, self.model, changed + puts)
        again = puts if self.maybe(0.7) else changed
        if self.maybe(0.3):
            self.chance.shuffle(again)
        if self.maybe(0.5):
            self.chance.shuffle(drops)
        return batch(self.chance, self.model, drops + again)

    def beans(self):
        return [declaration for declaration in self.model.declarations if declaration["kind"] == "bean"]

    def shared(self, bean):
        """A bean and another one of its chain get one qualifier, written in one way or two, and lose it again."""
        declared = [found for found in self.model.declarations if found["kind"] == "qualifier"]
        members = {found["name"]: found.get("members", []) for found in declared}
        steps, other = [], self.chance.choice(self.model.specialized.chain(bean)[1:])
        if members:
            name = self.chance.choice(list(members))
            use = name, tuple((member["name"], 1) for member in members[name] if "default" not in member)
            for declaration in (other, bean):
                own = [kept for kept in declaration.get("qualifiers", []) if kept[0] != name] or [DEFAULT]
                shared = {**declaration, "qualifiers": own + self.spelt_otherwise("qualifier", [use])}
                steps += [self.put(shared), *self.work(0.8), ("report\n", self.model.kept.report()), *self.work(0.2)]
            for declaration in (bean, other):
                steps += [self.put(declaration), *self.work(0.9)]
        return steps

    @staticmethod
    def namesake(declaration):
        """A qualifier that has the name and the members of a binding, or the other way round."""
        shared = {key: value for key, value in declaration.items() if key != "declares"}
        return {**shared, "kind": NAMESAKES[declaration["kind"]]}

    @staticmethod
    def drop_line(declaration):
        return f"drop {declaration['kind']} {declaration['name']}\n"

    def changed(self, declaration):
        """The same declaration, most often with a change."""
        ways = {
            "type": [self.change_supertypes],
            "qualifier": [self.change_members] * 3 + [self.change_order],
            "binding": [self.change_members] * 3 + [self.change_uses, self.change_spelling, self.change_order],
            "stereotype": [self.change_flags, self.change_flags, self.change_uses, self.change_spelling],
            "interceptor": [self.change_priority, self.change_uses, self.change_part, self.change_spelling],
            "bean": [self.change_uses, self.change_flags, self.change_spelling] * 2
            + [self.change_priority, self.change_observer, self.change_event, self.change_order, self.change_entries],
        }[declaration["kind"]]
        changed = copy.deepcopy(declaration)
        for _ in range(self.chance.choice([0, 1, 1, 1, 1, 2])):
            self.chance.choice(ways)(changed)
        return changed

    def table_with(self, declaration, keys):
        """A table of a declaration that has one of these keys, and the key; now and then the declaration, where it has none."""
        found = [(table, key) for table in tables_of(declaration) for key in keys if key in table]
        return self.chance.choice(found) if found else (declaration, None)

    def change_members(self, declaration):
        """One more member or one fewer, or another default, or none, or another word on whether it counts."""
        members, draw = declaration.setdefault("members", []), self.chance.random()
        if not members or draw < 0.15:
            names = {member["name"] for member in members}
            members += [{"name": "more", "default": self.chance.randint(0, 2)}] if "more" not in names else []
            return
        member = self.chance.choice(members)
        if draw < 0.7:
            member["default"] = self.chance.randint(0, 2)
        elif draw < 0.76:
            member.pop("default", None)
        elif draw < 0.92:
            member["binding"] = self.maybe(0.5)
        else:
            members.remove(member)

    def change_uses(self, declaration):
        """Another list of qualifiers or of bindings in any table."""
        table, key = self.table_with(declaration, KEYS_OF_USES)
        if key is None:
            key = {"binding": "declares"}.get(declaration["kind"], "bindings")
        table[key] = self.other_uses("qualifier" if key == "qualifiers" else "binding", table.get(key, []))

    def other_uses(self, kind, uses):
        """Uses in another order, or written otherwise, or one more or one fewer."""
        uses, draw = list(uses), self.chance.random()
        declared = [found["name"] for found in self.model.declarations if found["kind"] == kind]
        further = [(name, ()) for name in declared if name not in {use[0] for use in uses}]
        if uses and draw < 0.15:
            self.chance.shuffle(uses)
        elif uses and draw < 0.55:
            place = self.chance.randrange(len(uses))
            uses[place] = self.respelt(kind, uses[place])
        elif uses and draw < 0.7:
            del uses[self.chance.randrange(len(uses))]
        elif further and len(uses) < LIST_LIMIT:
            uses.append(self.respelt(kind, self.chance.choice(further)))
        return uses

    def respelt(self, kind, use):
        """A use that writes one member more, as its default or otherwise, or one fewer, or another value."""
        members = self.members_of(kind, use)
        if not members:
            return use
        member, written = self.chance.choice(members), dict(use[1])
        if member["name"] in written and self.maybe(0.6):
            del written[member["name"]]
        else:
            written[member["name"]] = member.get("default", 0) if self.maybe(0.6) else self.chance.randint(0, 2)
        return use[0], tuple(written.items())

    def members_of(self, kind, use):
        """The declared members of a use."""
        return [] if use[0] == "Named" else (self.model.find(kind, use[0]) or {}).get("members", [])

    def change_spelling(self, declaration):
        """The same uses in one table, written otherwise: defaults written out or left out, and all in any order."""
        table, key = self.table_with(declaration, KEYS_OF_USES)
        if key is not None:
            table[key] = self.spelt_otherwise("qualifier" if key == "qualifiers" else "binding", table[key])

    def spelt_otherwise(self, kind, uses):
        spelt = []
        for use in uses:
            written = {} if use[0] == "Named" else dict(use[1])
            for member in self.members_of(kind, use):
                if "default" in member and self.maybe(0.5):
                    if member["name"] not in written:
                        written[member["name"]] = member["default"]
                    elif written[member["name"]] == member["default"]:
                        del written[member["name"]]
            spelt.append(use if use[0] == "Named" else (use[0], tuple(written.items())))
        return self.in_any_order(spelt)

    def change_priority(self, declaration):
        observers = declaration.get("observers", [])
        table = self.chance.choice(observers) if observers and self.maybe(0.5) else declaration
        if self.maybe(0.2):
            table.pop("priority", None)
        else:
            table["priority"] = self.chance.choice([-3, 0, 1, 2, 2500])

    def change_observer(self, bean):
        """Another type, priority or condition of an observer method, if there is one."""
        if bean.get("observers"):
            observer, draw = self.chance.choice(bean["observers"]), self.chance.random()
            if draw < 0.4:
                observer["conditional"] = not observer.get("conditional")
            elif draw < 0.8:
                observer["type"] = self.a_type()
            else:
                observer["priority"] = 2500

    def change_part(self, interceptor):
        """A part more, or one fewer, or one with another body."""
        part = self.chance.choice(PARTS)
        if part in interceptor and self.maybe(0.5):
            del interceptor[part]
        else:
            interceptor[part] = {"body": self.chance.choice(["pass", "swallow"])}

    def change_order(self, declaration):
        table, key = self.table_with(declaration, LISTS)
        if key is not None:
            self.chance.shuffle(table[key])

    def change_entries(self, declaration):
        table, key = self.table_with(declaration, LISTS)
        if key is not None and table[key]:
            table[key].remove(self.chance.choice(table[key]))

    def change_flags(self, declaration):
        """Another word on whether there is an alternative or a name, on the scope, or on what a bean specializes."""
        is_bean = declaration["kind"] == "bean"
        keys = ["alternative"] * 4 + ["named", "scope"] + ["specializes"] * is_bean
        key = self.chance.choice(keys)
        table, _ = self.table_with(declaration, ["type"]) if is_bean and self.maybe(0.3) else (declaration, None)
        if table is not declaration and table not in declaration.get("producers", []):
            table = declaration
        if key in table and self.maybe(0.5):
            del table[key]
        elif key == "named" and is_bean:
            table[key] = self.chance.choice(["", "a", "b"])
        elif key != "specializes" or table is declaration:
            table[key] = self.chance.choice(SCOPES) if key == "scope" else self.maybe(0.8)

    def change_event(self, declaration):
        """Another event of any part, or one more."""
        parts = [table for table in tables_of(declaration) if "fires" in table or ("body" in table and "type" not in table)]
        if parts:
            part = self.chance.choice(parts)
            uses = self.other_uses("qualifier", self.chance.choice(part.get("fires") or [Event("Object", ())]).uses)
            part["fires"] = [Event(self.a_type(), tuple(use for use in uses if use != DEFAULT))]

    def change_supertypes(self, declaration):
        if "extends" in declaration and self.maybe(0.3):
            del declaration["extends"]
        elif self.maybe(0.3):
            declaration["extends"] = self.a_type()
        elif declaration.get("implements") and self.maybe(0.5):
            declaration["implements"].pop()
        else:
            declaration["implements"] = [name for name in [self.a_type()] if name not in declaration.get("implements", [])]

    def a_type(self):
        names = [found["name"] for found in self.model.declarations if found["kind"] == "type"]
        names = [name for name in names if not name.startswith("more.")]
        return self.chance.choice([*names, "Object"])

    # Questions.

    def question(self):
        """A question for a key that is wanted, most often one that is not known, or that was wanted; or for almost such a key."""
        kept = self.model.kept
        wanted = kept.wanted()
        self.met |= wanted
        for keys in [wanted - kept.known] * self.maybe(0.5) + [self.met - wanted] * self.maybe(0.2) + [wanted]:
            if keys:
                key = self.chance.choice(sorted(keys, key=repr))
                break
        else:
            key = ("choice", self.a_type(), (DEFAULT,))
        return self.ask(*(self.almost(*key) if self.maybe(0.3) else key))

    def almost(self, word, name, rest):
        """A key that differs a little from this one, or not at all."""
        if word == "chain":
            return word, name, self.a_place(name)
        if self.maybe(0.2):
            return word, self.a_type(), rest
        uses = [use for use in rest if use != DEFAULT] if self.maybe(0.5) else list(rest)
        if self.maybe(0.5):
            return word, name, tuple(self.spelt_otherwise("qualifier", uses))
        uses = self.other_uses("qualifier", uses)
        further = self.chance.choice([ANY, DEFAULT, ("Named", "a")])
        is_further = len(uses) < LIST_LIMIT and self.maybe(0.3) and further[0] not in {use[0] for use in uses}
        return word, name, tuple(uses + [further] * is_further)

    def a_place(self, name):
        declaration = self.model.find("bean", name)
        places = list(places_of(declaration)) if declaration else list(CALLBACKS)
        return self.chance.choice([*places, "method gone"])

    def ask(self, word, name, rest):
        """The question for a key, with uses and members in any order."""
        kept = self.model.kept
        if word == "chain":
            return f"chain {name} {rest}\n", kept.chain(name, rest)
        uses = self.in_any_order([use for use in rest if rest != (DEFAULT,) or word == "event" or self.maybe(0.5)])
        if word == "event":
            return line_of(["observers", name], uses), kept.observers(name, uses)
        return line_of(["choose", name], uses), kept.choose(name, uses)

    def in_any_order(self, uses):
        """Uses and the members of each in any order."""
        uses = [use if use[0] == "Named" else (use[0], tuple(self.chance.sample(use[1], len(use[1])))) for use in uses]
        return self.chance.sample(uses, len(uses))
