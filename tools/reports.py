"""Scripts and reports of ndc, as the tools beside this file read them."""
import os
import re
import subprocess
import sys
import tempfile

HERE = os.path.dirname(os.path.abspath(__file__))
# The program: what NDC names, else ./ndc beside the tools' folder.
PROGRAM = os.environ.get("NDC") or os.path.join(os.path.dirname(HERE), "ndc")
MOST_LINES = 100_000
# The first words of lines that change nothing.
READING = {"domain", "members", "levels", "gaps", "history", "branches", "current", "state", "dump", "compare", "letters", "progress"}
ANSWER = re.compile(r"(\d+) (ok|refused)(?: (.*))?\Z")


class Refused(Exception):
    """The program took the script for none, or could not run it: its status and its line."""

    def __init__(self, status, line):
        super().__init__(line)
        self.status = status


class Answer:
    """What one line of a script came to."""

    def __init__(self, number, outcome, rest):
        self.number, self.outcome, self.rest, self.further = number, outcome, rest, []

    @property
    def fields(self):
        return self.rest.split(" ") if self.rest else []

    @property
    def text(self):
        return " ".join([self.outcome, *self.fields])

    @property
    def lines(self):
        """The answer without its number, and the lines after it."""
        return [self.text, *self.further]


# What ./ndc tells where it is not built begins so, and is no fault. It is handed on once, at once.
NOTICES = ("ndc: not built: ", "ndc: older than ")
handed_on = set()


def told_by(stream):
    """The lines of a program's standard error, the last of which tells of its fault; notices are handed on as they come."""
    faults = []
    for line in stream:
        text = line.decode("ascii", "replace").rstrip("\n")
        if not text.startswith(NOTICES):
            faults.append(text)
        elif text not in handed_on:
            handed_on.add(text)
            print(text, file=sys.stderr, flush=True)
    return [it for it in faults if it.startswith("ndc: ")]


def report_of(script, words=(), program=None):
    """Runs a script (its text) and returns the report's text."""
    with tempfile.TemporaryFile() as given, tempfile.TemporaryFile() as report:
        given.write(script.encode("latin-1"))
        given.seek(0)
        with subprocess.Popen([program or PROGRAM, "run", *words], stdin=given, stdout=report, stderr=subprocess.PIPE) as run:
            told = told_by(run.stderr)
        if run.returncode:
            raise Refused(run.returncode, told[-1] if told else f"ndc: ended with status {run.returncode}")
        report.seek(0)
        return report.read().decode("ascii", "replace")


def answers_of(report):
    """Takes a report apart: the answers in order, and the lines of indexers."""
    answers, indexes = [], []
    for line in report.splitlines():
        found = ANSWER.match(line)
        if found:
            answers.append(Answer(int(found[1]), found[2], found[3] or ""))
        elif line.startswith("index "):
            indexes.append(line)
        elif answers:
            answers[-1].further.append(line)
    return answers, indexes


def words_of(line):
    """The words of a line; none where it is skipped."""
    words = line.split(" ")
    words = [it for it in words if it]
    return [] if words and words[0].startswith("#") else words


def header_length(lines):
    """How many lines the header has, skipped ones among them."""
    last = 0
    for place, line in enumerate(lines):
        words = words_of(line)
        if words and words[0] not in ("ndc", "increment", "shards", "limit", "cluster"):
            return last
        if words:
            last = place + 1
    return last


def units_of(lines):
    """The lines of a body, each by itself and a burst as one, without those that are skipped."""
    units, burst = [], None
    for line in lines:
        words = words_of(line)
        if not words:
            continue
        if burst is not None:
            burst.append(line)
            if words[0] == "end":
                units.append(burst)
                burst = None
        elif words[0] == "burst":
            burst = [line]
        else:
            units.append([line])
    return units + ([burst] if burst else [])


def clusters_of(lines):
    """The clusters' names, in the header's order."""
    return [words_of(it)[1] for it in lines[: header_length(lines)] if words_of(it)[:1] == ["cluster"] and len(words_of(it)) == 3]


def members_of(lines):
    """The increment, and the clusters' names and initial versions, as the header has them."""
    header = [words_of(it) for it in lines[: header_length(lines)]]
    increment = next((it[1] for it in header if it[:1] == ["increment"]), "")
    return increment, [(it[1], it[2]) for it in header if it[:1] == ["cluster"]]


def read_script(name):
    """The text of a file, or of standard input where the name is -; each byte is a character."""
    if name == "-":
        return sys.stdin.buffer.read().decode("latin-1")
    with open(name, encoding="latin-1", newline="") as it:
        return it.read()


def end(refused):
    """Ends a tool as the program would have ended."""
    print(refused, file=sys.stderr)
    sys.exit(refused.status)


def status_of(main):
    """Runs a tool, and returns its status. A reader that has seen enough ends it without a word, a file that is not there with 2."""
    try:
        status = main()
        sys.stdout.flush()
        return status
    except BrokenPipeError:
        os.dup2(os.open(os.devnull, os.O_WRONLY), sys.stdout.fileno())
        return 1
    except OSError as fault:
        print(f"{os.path.basename(sys.argv[0])}: {fault.filename}: {fault.strerror}", file=sys.stderr)
        return 2
