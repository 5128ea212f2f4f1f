"""Random batches of edits: with lines among them that are skipped, a line that spoils them, or no end.

`bench/compare` writes them into scripts. What a batch answers the model reads from its lines.
"""

from reading import DECLARATIONS, EDITS, LINE_LIMIT, TEXT_LIMIT, edits_of, lines_of

NOT_UTF8 = "\udcff"
COUNTS = "counts\n"
BAD_COMMAND = "refused E20 BadCommand"
BEGINS = ["batch"] * 12 + ["  batch ", "batch".ljust(LINE_LIMIT)]
ENDS = ["end"] * 12 + [" end", "end  ", "end".ljust(LINE_LIMIT)]
SKIPPED = ["", "  ", "#", "# end", "#batch", "# " + "x" * LINE_LIMIT, " " * 2 * LINE_LIMIT, "#" + NOT_UTF8]
# Lines that are no edit: those of other commands, those that almost end a batch, and those that are too long or not UTF-8.
SPOILING = ["report", "counts", "work", "stop", "request begin", "request end", "choose Object", "lookup Object", "fire 1 Object", "name a"]
SPOILING += ["batch", " batch", "batch now", "end now", "End", "\tend", "end\r\r", " # end", "frob", ".", "put it", "Put"]
SPOILING += ["drop", "drop type", "drop type A B", "drop bear A", "drop type 1A", "Drop type A"]
SPOILING += ["end".ljust(LINE_LIMIT + 1), "put".rjust(LINE_LIMIT + 1), "drop type A".ljust(LINE_LIMIT + 1)]
SPOILING += [NOT_UTF8, "end" + NOT_UTF8, "drop type A" + NOT_UTF8]
# Texts of declarations that are refused, and those in which lines are text that would end or begin a batch elsewhere.
REFUSED = ["", "end\n", "batch\n", "put\nend\n", "kind =\n", 'kind = "bear"\n', 'kind = "type"\n', 'kind = "type"\nname = 1\n']
REFUSED += ['kind = "type"\nname = "A B"\n', 'kind = "type"\nname = "A"\ncolour = 1\n', f'kind = "{NOT_UTF8}"\n']
REFUSED += ['kind = "type"\nname = "A"\nimplements = ["B", "B"]\n', 'kind = "type"\nname = "Object"\n# end\n']
ABSENT = ["drop type Nowhere\n", "drop bean shop.Nowhere\n", "drop interceptor A.B\n"]


def put_block(text):
    return f"put\n{text}.\n"


def put_of_type(name, more=""):
    return put_block(text_of_type(name) + more)


def text_of_type(name):
    return f'kind = "type"\nname = "{name}"\n'


def refused_edit(chance):
    """An edit that is refused; now and then its text is as long as a text may be, or longer by a byte."""
    draw = chance.random()
    if draw < 0.4:
        return chance.choice(ABSENT)
    return put_block("#" * (TEXT_LIMIT - chance.randint(0, 1)) + "\n" if draw < 0.44 else chance.choice(REFUSED))


def text_of_batch(chance, edits):
    """A batch of edits, each a put block or a line. One in eight is spoiled."""
    edits = list(edits)
    if chance.random() < 0.12:
        edits.insert(chance.randint(0, len(edits)), chance.choice(SPOILING) + "\n")
    while chance.random() < 0.25:
        edits.insert(chance.randint(0, len(edits)), chance.choice(SKIPPED) + "\n")
    text = "".join([chance.choice(BEGINS) + "\n", *edits, chance.choice(ENDS) + "\n"])
    return text.replace("\n", "\r\n") if chance.random() < 0.05 else text


def answered(model, text):
    return text, model.batch(edits_of(lines_of(text)[1:]))


def batch(chance, model, edits):
    """A batch of these edits, and its answer. Now and then one more edit is in it, which is refused."""
    edits = list(edits)
    if chance.random() < 0.15:
        edits.insert(chance.randint(0, len(edits)), refused_edit(chance))
    return answered(model, text_of_batch(chance, edits))


def counted(chance, model, steps):
    """Steps of edits, and after some of them, batches above all, the counts of what edits computed."""
    asks = chance.random() < (0.6 if steps and steps[-1][0].lstrip(" ").startswith("batch") else 0.3)
    return [*steps, (COUNTS, model.records.counts())] if asks else steps


def long_batch(chance, model):
    """A batch of about as many edits as it may have, of which the first is refused, or none, and its answer."""
    edits = [put_of_type("shop.More"), put_of_type("shop.More", "final = true\n")] * EDITS
    if chance.random() < 0.4:
        edits[0] = chance.choice(ABSENT)
    return answered(model, text_of_batch(chance, edits[: EDITS + chance.choice([-1, 0, 1])]))


def filling(model, room):
    """Batches of puts of types, after which so many new declarations may be put, and their answers."""
    puts = [put_of_type(f"more.T{number}") for number in range(DECLARATIONS - room - len(model.declarations))]
    batches = ["".join(["batch\n", *puts[place : place + EDITS], "end\n"]) for place in range(0, len(puts), EDITS)]
    return [answered(model, text) for text in batches]


def is_full(model):
    return len(model.declarations) == DECLARATIONS


def exchange(chance, model):
    """Where the list is full, a batch of a drop and of puts of one or two new types in any order, or such a put; and its answer."""
    new = f"more.N{chance.randint(0, 1000)}"
    if chance.random() < 0.2:
        return put_of_type(new), model.put_text(text_of_type(new))
    dropped = chance.choice([found["name"] for found in model.declarations if found["name"].startswith("more.")])
    edits = [f"drop type {dropped}\n", put_of_type(new), *[put_of_type("shop.More")] * (chance.random() < 0.3)]
    chance.shuffle(edits)
    return batch(chance, model, edits)


def stray(chance):
    """A line that ends or begins a batch, or almost does so, where none is open and none begins, and its answer."""
    line = chance.choice(["end", " end ", "end now", "batch now", "Batch", "batch".ljust(LINE_LIMIT + 1)])
    return line + "\n", BAD_COMMAND


def cut_off(chance, model, edits):
    """What the end of a script cuts: the line feed behind a batch, its end, or that of a put block in it or by itself."""
    draw = chance.random()
    if draw < 0.3:
        return answered(model, text_of_batch(chance, edits).removesuffix("\n"))
    text = "".join(["batch\n", *edits]) if draw < 0.9 else ""
    if draw < 0.6:
        return text.removesuffix("\n") if draw < 0.45 else text, BAD_COMMAND
    return text + chance.choice(["put", "put\n", "put\nend\n", 'put\nkind = "type"\nname = "A"\nend']), BAD_COMMAND
