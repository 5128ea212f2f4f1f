"""A plain model of records: how many of them edits compute.

A type declaration has one record, of its types, and a bean declaration one, of its beans. An edit computes the records of
new declarations, and those that read what it edits, by the declarations from before it. What a record reads is a kind and a
name, declared or not. It shares no code with the program. Declarations, types and closures are asked of the model in
`bench/compare`, which uses it.
"""


class Records:
    """Counts the records that edits compute, edit after edit. The present declarations are asked of a model."""

    def __init__(self, model):
        self.model = model
        self.computed = {"type": 0, "bean": 0}

    def counts(self):
        """What the command answers."""
        return f"counts closures {self.computed['type']} beans {self.computed['bean']}"

    def wanted(self):
        """The kind and the name of each declaration that has a record."""
        return {key for key in self.model.by_name if key[0] in self.computed}

    def left(self, edited):
        """The records that are wanted and read none of what is edited."""
        return {key for key in self.wanted() if not self.reads(*key) & edited}

    def add(self, left):
        """Counts the records that are wanted now and are not among those that an edit left."""
        for kind, _ in self.wanted() - left:
            self.computed[kind] += 1

    def reads(self, kind, name):
        """The kinds and the names that a record reads."""
        if kind == "type":
            return self.types(name)
        declaration = self.model.find("bean", name)
        producers = declaration.get("producers", [])
        found = {("bean", name)} | self.types(name) | self.bindings_of_class(declaration)
        for producer in producers:
            found |= self.types(producer["type"]) | self.stereotypes(producer)
        return found.union(*map(self.link, self.model.specialized.chain(declaration)))

    def types(self, name):
        return {("type", found) for found in self.model.types(name)}

    def stereotypes(self, attributes):
        """The stereotypes of a bean or a producer, and all that they reach."""
        names = attributes.get("stereotypes", [])
        found = self.model.closure("stereotype", names, lambda stereotype: stereotype.get("stereotypes", []))
        return {("stereotype", name) for name in found}

    def bindings_of_class(self, declaration):
        """The binding types of a bean and of its stereotypes, and all that they declare."""
        stereotypes = self.model.stereotypes(declaration.get("stereotypes", []))
        uses = [use for part in [declaration, *stereotypes] for use in part.get("bindings", [])]
        names = [use[0] for use in uses]
        found = self.model.closure("binding", names, lambda binding: [use[0] for use in binding.get("declares", [])])
        return {("binding", name) for name in found}

    def link(self, declaration):
        """What a bean of a chain adds: itself, its class, its stereotypes, and the bean of the type that its class extends."""
        name = declaration["name"]
        found = {("bean", name), ("type", name)} | self.stereotypes(declaration)
        extended = (self.model.find("type", name) or {}).get("extends")
        return found | {("bean", extended)} if declaration.get("specializes") and extended else found
