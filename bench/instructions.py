"""Counts the instructions of a command of each script that `generate --small` writes, by callgrind of valgrind.

That of a command is the whole run less the run without what is measured, by how many commands that is. Counts do not depend
on the machine's speed or on what else it does, so a growth of a tenth is one.
"""

import concurrent.futures
import os
import pathlib
import re
import subprocess
import sys
import tempfile

HERE = pathlib.Path(__file__).resolve().parent
TABLE = HERE / "instructions.txt"
GROWTH = 1.1
# Which numbers of declarations are compared, at the ends of the names of scripts.
SIZES = {"2048": "512", "1920": "480"}
TITLE = "# Instructions of a command, by `bench/run --instructions`: the script, the count, and why it grew where it did.\n"


def count(program, script):
    """The instructions of one run."""
    words = ["valgrind", "--tool=callgrind", "--callgrind-out-file=/dev/null", program, "--quiet", str(script)]
    done = subprocess.run(words, stdin=subprocess.DEVNULL, stdout=subprocess.DEVNULL, stderr=subprocess.PIPE)
    told = re.search(rb"Collected *: *(\d+)", done.stderr)
    if done.returncode != 0 or not told:
        sys.exit(f"{script.name}: status {done.returncode}: {done.stderr.decode(errors='replace')[-400:]}")
    return int(told[1])


def measured(program, folder):
    """The instructions of a command of each script, in the order of the scripts."""
    made = subprocess.run([sys.executable, str(HERE / "generate"), "--small", str(folder)], stdout=subprocess.PIPE, check=True)
    rows = [(name, int(pieces)) for name, pieces in map(str.split, made.stdout.decode().splitlines())]
    with concurrent.futures.ThreadPoolExecutor(os.cpu_count()) as pool:
        whole = [pool.submit(count, program, folder / name) for name, _ in rows]
        begun = [pool.submit(count, program, folder / f"{name}.begun") for name, _ in rows]
        return {name: (all_.result() - first.result()) // pieces for (name, pieces), all_, first in zip(rows, whole, begun)}


def kept_table():
    """The counts and the reasons that are kept."""
    rows = {}
    for line in TABLE.read_text().splitlines() if TABLE.exists() else []:
        if line and not line.startswith("#"):
            name, number, *reason = line.split(maxsplit=2)
            rows[name] = int(number), "".join(reason)
    return rows


def show(program, keeps):
    """Prints the counts beside those that are kept, and names what grew. With `--keep` these are kept from now on."""
    kept = kept_table()
    with tempfile.TemporaryDirectory() as temporary:
        now = measured(program, pathlib.Path(temporary))
    print(f"{'script':24}{'instructions':>14}{'kept':>14}{'ratio':>8}")
    for name, number in now.items():
        before = kept.get(name, (0, ""))[0]
        told = f"{before:>14,}{number / before:>8.2f}" if before else f"{'-':>14}{'-':>8}"
        print(f"{name:24}{number:>14,}{told}{'  GREW' if before and number > before * GROWTH else ''}")
    for name, number in now.items():
        edits, _, size = name.rpartition("_")
        if size in SIZES:
            small = f"{edits}_{SIZES[size]}"
            print(f"{name}: {number / now[small]:.2f} times {small}")
    if keeps:
        rows = [f"{name:24}{number:>12}  {kept.get(name, (0, ''))[1]}".rstrip() for name, number in now.items()]
        TABLE.write_text(TITLE + "\n".join(rows) + "\n")
