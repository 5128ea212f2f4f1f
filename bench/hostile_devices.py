"""What a program does where memory or a device fails, and what it keeps."""

import os
import pathlib
import resource
import subprocess

PAGES_PER_MB = 1_048_576 // os.sysconf("SC_PAGESIZE")
OUT_OF_MEMORY = b"error: out of memory\n"
WRITE_FAILED = b"error: write failed\n"


class Session:
    """A `container_script` that reads commands from a pipe."""

    def __init__(self, program):
        words = [program, "--quiet", "-"]
        self.process = subprocess.Popen(words, stdin=subprocess.PIPE, stdout=subprocess.PIPE)

    def ask(self, commands):
        """Runs commands that answer a line each, and `work` after them."""
        self.process.stdin.write(commands.encode() + b"work\n")
        self.process.stdin.flush()
        while not self.process.stdout.readline().startswith(b"work "):
            pass

    def resident(self):
        """The memory in MB that it has now."""
        pages = pathlib.Path(f"/proc/{self.process.pid}/statm").read_text().split()[1]
        return int(pages) / PAGES_PER_MB

    def end(self):
        self.process.stdin.close()
        self.process.wait()


def kept_after_run(program, script):
    """The memory before a run that needs much, and after the command that follows it."""
    session = Session(program)
    deployment, run = script.rsplit("\n", 2)[:2]
    session.ask(deployment + "\nreport\n")
    before = session.resident()
    session.ask(run + "\n")
    after = session.resident()
    session.end()
    return before, after


def kept_after_names(program, rounds):
    """The memory after a round in which a type is put and dropped, and after so many with a name of its own each."""
    session = Session(program)
    session.ask(renamed(0))
    before = session.resident()
    for first in range(1, rounds, 1_000):
        session.ask("".join(renamed(number) for number in range(first, min(first + 1_000, rounds))))
    after = session.resident()
    session.end()
    return before, after


def renamed(number):
    return f'put\nkind = "type"\nname = "N{number}"\n.\ndrop type N{number}\n'


def limited(words, size):
    """How a program ends whose address space has a limit, in bytes: by itself with its text or its message, or else."""
    limit = lambda: resource.setrlimit(resource.RLIMIT_AS, (size, size))
    ended = subprocess.run(words, stdout=subprocess.DEVNULL, stderr=subprocess.PIPE, preexec_fn=limit)
    return ended.returncode in (0, 1) or (ended.returncode == 4 and ended.stderr == OUT_OF_MEMORY)


def odd_limits(words, least, most, step):
    """Of some limits of the address space those at which a program ends otherwise than by itself."""
    return [size for size in range(least, most, step) if not limited(words, size)]


def tells_failed_write(words):
    """Whether a program whose output cannot be written says so, with status 3."""
    with open("/dev/full", "wb") as full:
        ended = subprocess.run(words, stdout=full, stderr=subprocess.PIPE)
    return ended.returncode == 3 and ended.stderr == WRITE_FAILED
