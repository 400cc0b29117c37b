"""What tools/lint tells of a fault, and which word of a list is nearest to one."""
import difflib

MOST_BYTES = 16_777_216
SHOWN = 100


class Fault:
    """The place of a fault, its cause as the program names it, and why: the line's number, and the key of a batch where the
    program tells that; which columns of the line (counted from 0), where it is some of them; further lines, and whether they
    show the place themselves."""

    def __init__(self, number, cause, why, columns=None, further=(), key=None, is_shown=False):
        self.number, self.cause, self.why, self.columns, self.key = number, cause, why, columns, key
        self.further, self.is_shown = list(further), is_shown

    @property
    def told(self):
        """As the program tells it, without its name and what the input is to be."""
        return f"batch {self.key}: {self.cause}" if self.key else f"line {self.number}: {self.cause}"


def excerpt(line, columns):
    """The part of a line around some columns, and a line that marks them."""
    start, stop = columns
    first = max(0, min(start - SHOWN // 2, len(line) - SHOWN))
    shown = "".join(it if " " <= it <= "~" else "?" for it in line[first : first + SHOWN])
    before, after = "..." if first else "", "..." if first + SHOWN < len(line) else ""
    marks = "^" * max(1, min(stop, first + SHOWN) - start)
    return [before + shown + after, " " * (len(before) + start - first) + marks]


def text_of(name, fault, lines):
    """The lines that tell of a fault: of which file, where, the cause, why, and the place itself."""
    column = f":{fault.columns[0] + 1}" if fault.columns else ""
    of = f"batch {fault.key}: " if fault.key else ""
    told = [f"{name}:{fault.number}{column}: {of}{fault.cause}: {fault.why}"]
    if fault.columns and not fault.is_shown and fault.number <= len(lines):
        told += excerpt(lines[fault.number - 1], fault.columns)
    told += fault.further
    return "\n    ".join(told)


def nearest(word, words):
    """The word of a list that another one was perhaps meant to be; None where none is near."""
    alike = [it for it in words if it.lower() == word.lower()]
    return (alike or difflib.get_close_matches(word.lower(), sorted(words), n=1, cutoff=0.6) or [None])[0]


def with_nearest(told, word, words):
    """What is told of a word, with the nearest one of a list after it."""
    near = nearest(word, words)
    return f"{told}; the nearest is `{near}`" if near else told


def number_fault(word, name, low, high):
    """Why a word is no number of a range; None where it is one."""
    if word[:1] in ("+", "-") and word[1:].isdigit():
        return f"`{word}` has a sign; {name} is a number, {low:,} to {high:,}"
    if not (word.isascii() and word.isdigit()):
        return f"`{word}` is no number; {name} is {low:,} to {high:,}, in decimal digits alone"
    if word[0] == "0" and word != "0":
        return f"`{word}` has a leading zero; {name} is written without"
    if not low <= int(word[:30]) <= high:
        return f"{word if len(word) <= 30 else 'the number'} is out of its range: {name} is {low:,} to {high:,}"
    return None


def lines_of(text):
    """The lines of a text; an empty rest after the last newline is none."""
    lines = text.split("\n")
    return lines[:-1] if lines[-1] == "" else lines
