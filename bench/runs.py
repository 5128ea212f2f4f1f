"""A plain model of runs: instances, contexts, the bodies that the program stores, failures and limits, and traces.

It is written from the rules of `docs/language.md` and shares no code with the program. Recursion stands for frames and
creations inside each other, a generator for a body: it yields an act and is sent the answer, or has the failure thrown
into it, so each step of it is one time that the body is asked. `bench/compare` uses it.
"""

from bodies import BODIES, Failed
from chains import CALLBACKS
from kept import choice_key, event_key
from texts import DEFAULT, Event

DEPTH, STEPS, STEPS_BEFORE_DESTRUCTION, BUDGET, LIVE = 32, 64, 8, 20_000, 1024
NUMBERS = 2**64 - 1


def text_of_value(value):
    return "null" if value is None else str(value)


class Instance:
    """A contextual instance: of a bean, for a scope, for a point of another instance, or for none of these.

    A point is told by who has it, an interceptor or none, and its name.
    """

    def __init__(self, number, bean, owner, point):
        self.number = number
        self.bean = bean
        self.owner = owner
        self.point = point
        self.state = None
        self.states = {}
        self.is_ready = False

    def __str__(self):
        return f"{self.bean.ident}#{self.number}"

    def load(self, actor):
        """The state of the instance, or that of an interceptor for it."""
        return self.states.get(actor) if actor else self.state

    def store(self, actor, value):
        if actor:
            self.states[actor] = value
        else:
            self.state = value


class Seat:
    """Where a body runs: at a place of an instance, or of a class where there is none; an interceptor's where one is named.

    It has the points that the body sees by name, each with the instance that it belongs to and the interceptor that has it.
    """

    def __init__(self, holder, place, sites, actor=None):
        self.holder = holder
        self.place = place
        self.sites = sites
        self.actor = actor

    def __str__(self):
        return f"{self.holder} {self.place}" + (f" by {self.actor}" if self.actor else "")


class Invocation:
    """What is invoked at a place of an instance: the interceptors around it, and its own part, if there is one."""

    def __init__(self, seat, part, chain):
        self.seat = seat
        self.part = part
        self.chain = chain
        self.has_returned = False


class Notification:
    """What the dependent instances belong to that are made for the parameters of an observer method, while it is notified."""


class Runs:
    """What stands between the commands, and what they make of it. Declarations are asked of a model."""

    def __init__(self, model):
        self.model = model
        self.live = []
        self.given = 0
        self.is_active = False
        self.trace = []
        self.open = 0
        self.asked = 0
        self.ending = 0
        self.chosen = {}
        self.around = {}
        self.observing = {}

    def forget(self):
        """Forgets what was found of the declarations, which change."""
        self.chosen = {}
        self.around = {}
        self.observing = {}

    # Commands. Each answers its text, with the trace before it.

    def lookup(self, name, uses):
        return self.refusal(name, uses) or self.use(name, uses, lambda instance: instance.state)

    def call(self, method, argument, name, uses):
        refused = self.refusal(name, uses)
        if not refused and not self.has_method(self.bean_for(name, uses), method):
            refused = "refused E54 NoMethod"
        return refused or self.use(name, uses, lambda instance: self.invoke(instance, method, argument))

    def begin_request(self):
        if self.is_active:
            return "refused E40 RequestActive"
        self.is_active = True
        return "ok"

    def end_request(self):
        if not self.is_active:
            return "refused E41 NoRequest"
        self.begin()
        self.end("request")
        self.is_active = False
        return self.told("ok")

    def stop(self):
        self.begin()
        if self.is_active:
            self.end("request")
        self.end("application")
        self.is_active = False
        return self.told("ok")

    def fire(self, argument, name, uses):
        refused = self.refusal_of_names(name, uses)
        if not refused and DEFAULT in uses:
            refused = "refused E51 UnknownName"
        self.model.kept.run(None if refused else event_key(name, uses))
        if refused:
            return refused
        self.begin()
        try:
            self.notify(Event(name, tuple(uses)), argument)
        except Failed as failed:
            return self.told(f"failed {failed.failure}")
        return self.told("value null")

    def refusal_of_names(self, name, uses):
        faults = int(self.model.report().split("\n")[0].split()[1])
        if faults:
            return f"refused E50 Faulty {faults}"
        if list(self.model.unknown("type", [name])) or list(self.model.faults_of_uses(uses)):
            return "refused E51 UnknownName"
        return None

    def refusal(self, name, uses):
        refused = self.refusal_of_names(name, uses)
        self.model.kept.run(None if refused else choice_key(name, uses))
        if refused:
            return refused
        answer = self.model.choose(name, uses)
        if answer == "unsatisfied":
            return "refused E52 Unsatisfied"
        return "refused E53 Ambiguous" if answer.startswith("ambiguous") else None

    def use(self, name, uses, act):
        self.begin()
        bean = self.bean_for(name, uses)
        try:
            instance = self.create(bean, None, None) if bean.scope == "dependent" else self.obtain(bean)
            try:
                outcome = act(instance)
            finally:
                if bean.scope == "dependent":
                    self.destroy(instance)
        except Failed as failed:
            return self.told(f"failed {failed.failure}")
        return self.told(f"value {text_of_value(outcome)}")

    def begin(self):
        self.trace, self.open, self.asked, self.ending = [], 0, 0, 0

    def told(self, answer):
        return "\n".join([*("  " + entry for entry in self.trace), answer])

    # What the declarations say.

    def bean_for(self, name, uses):
        key = (name, repr(uses))
        if key not in self.chosen:
            ident = self.model.choose(name, uses).split()[1]
            self.chosen[key] = next(bean for bean in self.model.beans() if bean.ident == ident)
        return self.chosen[key]

    def declaration(self, bean):
        return self.model.find("bean", bean.ident.split("/")[0])

    def producer(self, bean):
        """The producer of a product; none of a managed bean."""
        _, _, name = bean.ident.partition("/")
        return next((found for found in self.declaration(bean).get("producers", []) if found["name"] == name), None)

    def has_method(self, bean, method):
        if self.producer(bean):
            return method == "value"
        return any(found["name"] == method for found in self.declaration(bean).get("methods", []))

    def chain(self, declaration, place):
        key = (declaration["name"], place)
        if key not in self.around:
            self.around[key] = self.model.chains.around(declaration, place)
        return self.around[key]

    def managed(self, declaration):
        return next(bean for bean in self.model.beans() if bean.ident == declaration["name"])

    def observers(self, event):
        """The observer methods of an event, each behind its declaration and its bean."""
        if event not in self.observing:
            found = self.model.events.observing(event.type, event.uses)
            self.observing[event] = [(declaration, self.managed(declaration), observer) for declaration, observer in found]
        return self.observing[event]

    # Creation.

    def find(self, bean):
        """The instance of a bean with a normal scope, ready or being created, if there is one."""
        return next((found for found in self.live if found.bean.ident == bean.ident and found.owner == bean.scope), None)

    def obtain(self, bean):
        """The instance of a bean with a normal scope, which is made where there is none."""
        if bean.scope == "request" and not self.is_active:
            raise Failed("NotActive")
        instance = self.find(bean)
        if instance and not instance.is_ready:
            raise Failed("Creating")
        return instance or self.create(bean, bean.scope, None)

    def create(self, bean, owner, point):
        if self.open >= DEPTH:
            raise Failed("Depth")
        if len(self.live) >= LIVE or self.given >= NUMBERS:
            raise Failed("Limit")
        self.given += 1
        instance = Instance(self.given, bean, owner, point)
        self.live.append(instance)
        self.trace.append(f"create {instance}")
        self.open += 1
        try:
            if self.producer(bean):
                self.produce(instance)
            else:
                self.construct(instance)
        except Failed as failed:
            self.trace.append(f"broken {instance} {failed.failure}")
            self.destroy_dependents(instance)
            self.live.remove(instance)
            raise
        finally:
            self.open -= 1
        self.trace.append(f"ready {instance}")
        instance.is_ready = True
        return instance

    def construct(self, instance):
        declaration = self.declaration(instance.bean)
        for interceptor in self.model.chains.of_bean(declaration):
            self.make_points(instance, interceptor["name"], interceptor.get("points", []))
        self.make_points(instance, None, declaration.get("points", []))
        constructor = self.invocation("construct", declaration.get("construct"), instance, declaration)
        self.go_on(constructor, None)
        if not constructor.has_returned:
            raise Failed("NotConstructed")
        self.go_on(self.invocation("post", declaration.get("post"), instance, declaration), None)

    def make_points(self, holder, actor, points):
        """What is dependent of the points that an interceptor or the holder has is made for it; of the others nothing is."""
        for point in points:
            bean = self.bean_for(point["type"], point.get("qualifiers", []))
            if bean.scope == "dependent":
                self.create(bean, holder, (actor, point["name"]))

    def produce(self, product):
        producer, declaration = self.producer(product.bean), self.declaration(product.bean)
        managed, declaring = self.managed(declaration), None
        if not producer.get("static"):
            declaring = self.create(managed, None, None) if managed.scope == "dependent" else self.obtain(managed)
        try:
            self.make_points(product, None, producer.get("params", []))
            place, params = f"producer {producer['name']}", self.sites(product, None, producer.get("params", []))
            if declaring:
                state = self.go_on(self.invocation(place, producer, declaring, declaration, params), None)
            else:
                state = self.frame(Seat(declaration["name"], place, params), producer, None)
        finally:
            if declaring and managed.scope == "dependent":
                self.destroy(declaring)
        if state is None and product.bean.scope != "dependent":
            raise Failed("IllegalProduct")
        product.state = state

    # Events.

    def notify(self, event, argument):
        """Notifies the observer methods of an event, up to the first that fails."""
        for declaration, bean, observer in self.observers(event):
            if self.is_skipped(bean, observer):
                self.trace.append(f"skip {bean.ident} observer {observer['name']}")
            else:
                self.notify_one(declaration, bean, observer, argument)

    def is_skipped(self, bean, observer):
        """Whether a bean has no request to be in, or no ready instance where its observer method is conditional."""
        if bean.scope == "request" and not self.is_active:
            return True
        instance = self.find(bean)
        return bool(observer.get("conditional")) and not (instance and instance.is_ready)

    def notify_one(self, declaration, bean, observer, argument):
        """What is made for the notification is destroyed behind it, also where it failed: the parameters, then the bean's own."""
        is_dependent, notification = bean.scope == "dependent", Notification()
        instance = self.create(bean, None, None) if is_dependent else self.obtain(bean)
        params = observer.get("params", [])
        try:
            self.make_points(notification, None, params)
            place, sites = f"observer {observer['name']}", self.sites(notification, None, params)
            self.go_on(self.invocation(place, observer, instance, declaration, sites), argument)
        finally:
            self.destroy_dependents(notification)
            if is_dependent:
                self.destroy(instance)

    # Calls.

    @staticmethod
    def sites(instance, actor, points):
        return {point["name"]: (instance, actor, point) for point in points}

    def invocation(self, place, part, instance, declaration, params=None):
        """What is invoked at a place of an instance, where these parameters are seen too."""
        sites = {**self.sites(instance, None, declaration.get("points", [])), **(params or {})}
        return Invocation(Seat(instance, place, sites), part, self.chain(declaration, place))

    def invoke(self, instance, method, argument):
        if self.producer(instance.bean):
            return instance.state
        declaration = self.declaration(instance.bean)
        part = next(found for found in declaration["methods"] if found["name"] == method)
        return self.go_on(self.invocation(f"method {method}", part, instance, declaration), argument)

    def fire_site(self, event, argument):
        self.trace.append(f"fire {text_of_value(argument)} {event}")
        self.notify(event, argument)
        return None

    def call_site(self, site, argument, sites):
        self.trace.append(f"call {site} {text_of_value(argument)}")
        name, method = site.split(".")
        holder, actor, point = sites[name]
        bean = self.bean_for(point["type"], point.get("qualifiers", []))
        if bean.scope == "dependent":
            target = next(found for found in self.live if found.owner is holder and found.point == (actor, name))
        else:
            target = self.obtain(bean)
        return self.invoke(target, method, argument)

    def go_on(self, invocation, argument, passed=0):
        """Goes on behind so many of the interceptors: to the next one, or to the part of the place."""
        seat = invocation.seat
        if passed < len(invocation.chain):
            interceptor = invocation.chain[passed]
            name = interceptor["name"]
            sites = self.sites(seat.holder, name, interceptor.get("points", []))
            part = interceptor[CALLBACKS.get(seat.place, "around_invoke")]

            def following(given):
                return self.go_on(invocation, given, passed + 1)

            return self.frame(Seat(seat.holder, seat.place, sites, name), part, argument, following)
        value = self.frame(seat, invocation.part, argument) if invocation.part else None
        invocation.has_returned = True
        return value

    def frame(self, seat, part, argument, following=None):
        """A frame of a body; that of an interceptor is given what it stands around."""
        counted = not self.ending
        if counted and self.open >= DEPTH:
            raise Failed("Depth")
        self.trace.append(f"enter {seat} arg {text_of_value(argument)}")
        self.open += counted
        body = BODIES[part["body"]](argument, len(part.get("calls", [])), len(part.get("fires", [])))
        try:
            value = self.ask(body, seat, part, following)
        except Failed as failed:
            self.trace.append(f"leave failed {failed.failure}")
            raise
        finally:
            self.open -= counted
        self.trace.append(f"leave {text_of_value(value)}")
        return value

    def ask(self, body, seat, part, following):
        """Asks a body until it returns or fails. Before a destruction it has fewer acts, and proceeds once."""
        is_before_destruction, proceeds, answer = seat.place == "pre", 0, None
        most = STEPS_BEFORE_DESTRUCTION if is_before_destruction else STEPS
        for answers in range(most + 1):
            if not self.ending:
                if self.asked >= BUDGET:
                    raise Failed("Budget")
                self.asked += 1
            try:
                act, given = body.throw(answer) if isinstance(answer, Failed) else body.send(answer)
            except StopIteration as returned:
                return returned.value
            proceeds += act == "proceed"
            if answers == most or (is_before_destruction and act == "proceed" and proceeds > 1):
                raise Failed("Steps")
            answer = self.do(act, given, seat, part, following)
        raise AssertionError

    def do(self, act, given, seat, part, following):
        """Does an act, and answers what the body is told: a value, or the failure that it is to hear."""
        if act == "load":
            self.trace.append(f"load {text_of_value(seat.holder.load(seat.actor))}")
            return seat.holder.load(seat.actor)
        if act == "store":
            self.trace.append(f"store {text_of_value(given)}")
            seat.holder.store(seat.actor, given)
            return None
        try:
            if act == "proceed":
                self.trace.append(f"proceed {text_of_value(given)}")
                answer = following(given)
            elif act == "fire":
                answer = self.fire_site(part["fires"][given[0]], given[1])
            else:
                answer = self.call_site(part["calls"][given[0]], given[1], seat.sites)
        except Failed as failed:
            self.trace.append(f"got failed {failed.failure}")
            return failed
        self.trace.append(f"got {text_of_value(answer)}")
        return answer

    # Destruction.

    def end(self, scope):
        for instance in sorted((found for found in self.live if found.owner == scope), key=self.by_number):
            self.destroy(instance)

    @staticmethod
    def by_number(instance):
        return -instance.number

    def destroy(self, instance):
        self.trace.append(f"destroy {instance}")
        self.ending += 1
        try:
            self.call_back(instance)
        except Failed:
            pass
        self.destroy_dependents(instance)
        self.ending -= 1
        self.trace.append(f"gone {instance}")
        self.live.remove(instance)

    def destroy_dependents(self, instance):
        for dependent in sorted((found for found in self.live if found.owner is instance), key=self.by_number):
            self.destroy(dependent)

    def call_back(self, instance):
        declaration, producer = self.declaration(instance.bean), self.producer(instance.bean)
        if producer is None:
            self.go_on(self.invocation("pre", declaration.get("pre"), instance, declaration), None)
        disposers = declaration.get("disposers", []) if producer else []
        for disposer in disposers:
            if self.model.matches(disposer, instance.bean):
                seat = Seat(declaration["name"], f"disposer {disposer['name']}", {})
                self.frame(seat, disposer, instance.state)
                return
