"""A container that was edited, and a new one that gets its declarations in one batch: both are asked the same questions.

So the program is its own second opinion: what it answers after edits, by what it kept of its answers, is what it answers from
nothing. The questions are the report, and one for each key that the declarations want. How much work they are is not asked.
"""

import subprocess

from reading import EDITS, bytes_of
from texts import line_of, text_of_put


def question_of(key):
    """The line that asks for a wanted key."""
    kind, name, rest = key
    if kind == "chain":
        return f"chain {name} {rest}\n"
    return line_of(["choose" if kind == "choice" else "observers", name], rest)


def questions_of(model):
    return "report\n" + "".join(sorted(map(question_of, model.kept.wanted())))


def batch_of(model):
    """One batch of the present declarations."""
    return "".join(["batch\n", *map(text_of_put, model.declarations), "end\n"])


def lines_of(program, source):
    run = subprocess.run([program, "-"], input=bytes_of(source), capture_output=True, check=False)
    return run.stdout.decode().splitlines()


def compare_anew(program, source, printed, model):
    """How many questions both answered alike, and none where they did not. The script is the source, whose answers are printed."""
    if not 0 < len(model.declarations) <= EDITS:
        return 0
    questions = questions_of(model)
    edited = lines_of(program, source + questions)[len(printed) :]
    new = lines_of(program, batch_of(model) + questions)[1:]
    if edited == new:
        return questions.count("\n")
    place = next((place for place, pair in enumerate(zip(edited, new)) if pair[0] != pair[1]), min(len(edited), len(new)))
    print(f"after edits {edited[place : place + 1]}, anew {new[place : place + 1]}")
    return None
