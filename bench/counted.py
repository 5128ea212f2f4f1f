"""Reads the counted rows of `crates/worked_rows/data`, whose README.md has their format. `bench/compare` uses it."""

import re

# What a backslash and a letter stand for. The byte 255 is as Python reads bytes that are not UTF-8.
ESCAPES = {"n": "\n", "r": "\r", "s": " ", "!": "\udcff"}


def meant(text, number):
    """What a text stands for at the time of this number."""
    return re.sub(r"\\(.)", lambda found: str(number) if found[1] == "#" else ESCAPES[found[1]], text)


def read_counted(lines):
    """The script of a counted row's lines, and the lines that it is to print."""
    script, wanted = [], []
    for line in lines:
        count, text = line.removeprefix("> ").split(" ", 1)
        if line.startswith("> "):
            wanted += text.split("\\n") * int(count)
        else:
            script += [meant(text, number) for number in range(1, int(count) + 1)]
    return "".join(script), wanted
