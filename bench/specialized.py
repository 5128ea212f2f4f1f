"""A plain model of specialization: the chains of beans, which of them are disabled by it, and its faults.

It is written from the rules of `docs/language.md` and `docs/faults.md` and shares no code with the program. Declarations and
beans are asked of the model in `bench/compare`, which uses it.
"""

import itertools


class Specialized:
    """Who specializes whom among the present declarations, which are asked of a model."""

    def __init__(self, model):
        self.model = model

    def next(self, declaration):
        """The bean that a bean specializes, if there is one."""
        if not declaration.get("specializes"):
            return None
        extended = (self.model.find("type", declaration["name"]) or {}).get("extends")
        return self.model.find("bean", extended) if extended else None

    def chain(self, declaration):
        """A bean, the bean that it specializes, the one that this specializes, and so on, ending before a repeat."""
        chain, met = [], set()
        while declaration and declaration["name"] not in met:
            chain.append(declaration)
            met.add(declaration["name"])
            declaration = self.next(declaration)
        return chain

    def replaced(self):
        """The names of the beans that another has in its chain, unless that one is an alternative without a priority."""
        return {
            found["name"]
            for declaration in self.model.declarations
            if declaration["kind"] == "bean"
            and ("priority" in declaration or not self.model.is_alternative(declaration))
            for found in self.chain(declaration)[1:]
        }

    # Faults.

    def faults_of_bean(self, declaration, beans):
        """What is wrong with a bean and the one that it specializes."""
        if not declaration.get("specializes"):
            return
        other = self.next(declaration)
        if other is None:
            yield "F27", ""
            return
        managed = {bean.ident: bean for bean in beans}
        own, specialized = managed[declaration["name"]], managed[other["name"]]
        for name in specialized.types - own.types:
            yield "F28", f"type {name}"
        if "named" in declaration and specialized.name is not None:
            yield "F29", ""

    def twice(self, beans):
        """The line of each two enabled beans that specialize one."""
        enabled = {bean.ident for bean in beans if bean.enabled}
        found = [bean for bean in self.model.declarations if bean["kind"] == "bean" and bean["name"] in enabled]
        chains = {bean["name"]: [link["name"] for link in self.chain(bean)] for bean in found}
        for first, second in itertools.combinations(chains, 2):
            if first not in chains[second] and second not in chains[first]:
                shared = [name for name in chains[first] if name in chains[second]]
                yield from (f"F30 bean {name} {first} {second}" for name in shared[:1])
