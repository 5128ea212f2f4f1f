"""The bodies that the program stores, those that worked rows have beside them, what they promise, and what a place allows.

A body is a generator: it yields an act and is sent the answer, or has the failure thrown into it. `bench/compare` uses
them, by `runs.py`.
"""

LEAST, GREATEST = -(2**63), 2**63 - 1


class Failed(Exception):
    """An outcome that is no value."""

    def __init__(self, failure):
        super().__init__(failure)
        self.failure = failure


def within(number):
    """The nearest number that may be."""
    return max(LEAST, min(GREATEST, number))


def next_of(value):
    """A value and 1, within what a number may be."""
    return within((value or 0) + 1)


# The stored bodies: each is given its argument, and how many call sites and events there are.
def unit(_argument, _calls, _fires):
    return None
    yield


def zero(_argument, _calls, _fires):
    return 0
    yield


def echo(argument, _calls, _fires):
    return argument
    yield


def short(_argument, _calls, _fires):
    return -1
    yield


def count(_argument, _calls, _fires):
    stored = next_of((yield "load", None))
    yield "store", stored
    return stored


def relay(argument, calls, _fires):
    for site in range(calls):
        argument = yield "call", (site, argument)
    return argument


def notify(argument, _calls, fires):
    for site in range(fires):
        yield "fire", (site, argument)
    return argument


def boom(_argument, _calls, _fires):
    raise Failed("User(9)")
    yield


def flaky(_argument, _calls, _fires):
    stored = next_of((yield "load", None))
    yield "store", stored
    if stored % 3 == 0:
        return stored
    raise Failed("User(3)")


def spin(_argument, _calls, _fires):
    while True:
        yield "load", None


# Bodies of interceptors alone.
def proceed(argument, _calls, _fires):
    return (yield "proceed", argument)


def double(argument, _calls, _fires):
    value = yield "proceed", argument
    return None if value is None else within(2 * value)


def guard(argument, _calls, _fires):
    if argument is not None and argument < 0:
        raise Failed("User(1)")
    return (yield "proceed", argument)


def retry(argument, _calls, _fires):
    for _ in range(2):
        try:
            return (yield "proceed", argument)
        except Failed:
            pass
    return (yield "proceed", argument)


def swallow(argument, _calls, _fires):
    try:
        return (yield "proceed", argument)
    except Failed:
        return None


# Bodies that make one act for ever, whatever is answered. Worked rows have them, and the program has not.
def stores_for_ever(_argument, _calls, _fires):
    while True:
        yield "store", 1


def calls_for_ever(argument, calls, _fires):
    while calls:
        try:
            yield "call", (0, argument)
        except Failed:
            pass


def fires_for_ever(argument, _calls, fires):
    while fires:
        try:
            yield "fire", (0, argument)
        except Failed:
            pass


def proceeds_for_ever(argument, _calls, _fires):
    while True:
        try:
            yield "proceed", argument
        except Failed:
            pass


BODIES = {
    "unit": unit,
    "zero": zero,
    "echo": echo,
    "short": short,
    "count": count,
    "relay": relay,
    "notify": notify,
    "boom": boom,
    "flaky": flaky,
    "spin": spin,
    "pass": proceed,
    "double": double,
    "guard": guard,
    "retry": retry,
    "swallow": swallow,
    "stores_for_ever": stores_for_ever,
    "calls_for_ever": calls_for_ever,
    "fires_for_ever": fires_for_ever,
    "proceeds_for_ever": proceeds_for_ever,
}

# What each body of the program promises, and what each further one of the rows does. Below is what a place of a bean allows.
PROMISES = {
    "unit": "",
    "zero": "",
    "echo": "",
    "short": "",
    "count": "LOAD STORE",
    "relay": "CALL FAIL",
    "notify": "FIRE FAIL",
    "pass": "PROCEED FAIL",
    "double": "PROCEED FAIL",
    "guard": "PROCEED FAIL",
    "retry": "PROCEED FAIL",
    "swallow": "PROCEED",
    "boom": "FAIL",
    "flaky": "LOAD STORE FAIL",
    "spin": "LOAD",
}
ROW_PROMISES = {
    "stores_for_ever": "STORE",
    "calls_for_ever": "CALL",
    "fires_for_ever": "FIRE",
    "proceeds_for_ever": "PROCEED",
}
AT_INSTANCE = "LOAD STORE CALL FIRE FAIL"
ALLOWED = {"pre": "LOAD STORE FAIL", "static producer": "CALL FIRE FAIL", "disposer": "FAIL"}
