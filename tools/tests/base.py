"""What the tests of the tools share: where things stand, how a program is called, and the cases of transcripts."""
import glob
import os
import re
import subprocess
import sys

HERE = os.path.dirname(os.path.abspath(__file__))
TOOLS = os.path.dirname(HERE)
ROOT = os.path.dirname(TOOLS)
NDC = os.environ.get("NDC") or sys.exit("run: NDC names no program: these tests never run over an unproved one")
EXAMPLES = sorted(glob.glob(f"{ROOT}/examples/*.ndc"))


def read(name):
    with open(name) as it:
        return it.read()


def call(*words, given=None, status=0):
    done = subprocess.run(words, input=given, capture_output=True, text=True)
    assert done.returncode == status, f"{' '.join(words)}: status {done.returncode}\n{done.stdout}{done.stderr}"
    return done.stdout


def tool(name, *words, **named):
    return call(f"{TOOLS}/{name}", *words, **named)


def refused(name, *words, given=None, status=2):
    """What a tool tells on standard error where it ends with a status, with no trace of Python in it."""
    done = subprocess.run([f"{TOOLS}/{name}", *words], input=given, capture_output=True, text=True)
    assert done.returncode == status and "Traceback" not in done.stderr, f"{name} {' '.join(words)}: status {done.returncode}\n{done.stdout}{done.stderr}"
    return done.stderr


def same(got, wanted):
    assert got == wanted, f"got:\n{got}\nwanted:\n{wanted}"


def holds(part, text):
    assert part in text, f"not told: {part}\ntold:\n{text}"


class Case:
    """A transcript of the repository: its words, its input, the line of its fault and its status."""

    def __init__(self, lines):
        of = {mark: [it[2:] for it in lines if it.startswith(mark + " ")] for mark in "=$!?"}
        self.name, self.words, self.told, self.status = lines[0], (of["$"] or [""])[0].split(), "".join(of["!"]), int((of["?"] or ["0"])[0])
        self.given = "".join(map(given_by, (it for it in lines if it.startswith(">"))))


def given_by(line):
    """The input that a line of a transcript gives, each byte as a character."""
    if line.startswith(">x"):
        return bytes.fromhex(line[2:]).decode("latin-1")
    if line.startswith(">-"):
        return line[3:]
    if line.startswith(">*"):
        count, text = line[3:].split(" ", 1)
        return (text + "\n") * int(count)
    return line[2:] + "\n"


def cases_of(name):
    """The cases of a file of transcripts."""
    with open(name, encoding="latin-1", newline="") as it:
        parts = it.read().split("\n\n")
    for part in parts:
        lines = [it for it in part.split("\n") if it and not it.startswith("#")]
        if lines:
            yield Case(lines)


def all_cases():
    for name in sorted(glob.glob(f"{ROOT}/crates/ndc_cases/data/*.cases")):
        yield from cases_of(name)
