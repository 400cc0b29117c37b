"""Reads a script as `ndc run` reads it, and tells of each fault why it is one."""
import re
import unicodedata

from faults import Fault, lines_of, nearest, number_fault, with_nearest
from reports import MOST_LINES

MOST_WORD = 200
MOST_INCREMENT = 10**12
HEADER = ("ndc 1", "increment I", "shards S", "limit L")
COMMANDS = {
    "start": "C D W TYPE", "signal": "C D W NAME INPUT", "cancel": "C D W", "terminate": "C D W REASON", "decide": "C D W",
    "respond": "C D W ACTION ..", "faildecision": "C D W CAUSE", "timeoutdecision": "C D W", "actstart": "C D W ID",
    "actdone": "C D W ID RESULT", "actfail": "C D W ID REASON", "acttimeout": "C D W ID", "fire": "C D W ID",
    "childstart": "C D W ID", "childdone": "C D W ID RESULT", "childfail": "C D W ID REASON",
}
OTHERS = {
    "register": "C D ACTIVE DAYS CLUSTER ..", "retain": "C D DAYS", "join": "C D CLUSTER", "failover": "C D TARGET",
    "domains": "TO FROM", "domain": "C D", "members": "C D", "pull": "READER SOURCE", "lose": "READER SOURCE SHARD PLACE",
    "repeat": "READER SOURCE SHARD PLACE", "move": "READER SOURCE SHARD PLACE PLACE", "work": "C", "rewind": "READER SOURCE",
    "trim": "SOURCE", "levels": "READER SOURCE SHARD", "gaps": "C", "resend": "C", "bootstrap": "READER SOURCE", "settle": "",
    "history": "C D W", "branches": "C D W", "current": "C D W", "state": "C D W", "dump": "C D W", "compare": "C C D W",
    "handover": "C D TARGET", "complete": "C D", "reset": "C D W EVENT", "damage": "READER SOURCE SHARD PLACE CUT",
    "letters": "READER", "purge": "READER", "mergeletters": "READER", "beat": "C D W ID DETAILS", "sync": "TO FROM",
    "progress": "C D W ID", "burst": "C",
}
LONGER_PULL = "READER SOURCE SHARD COUNT"
ACTIONS = {
    "activity": "ID TYPE", "timer": "ID", "untimer": "ID", "child": "ID TYPE", "marker": "NAME", "complete": "RESULT",
    "fail": "REASON", "canceled": "", "continue": "TYPE",
}
CLOSING = ("complete", "fail", "canceled", "continue")
CLUSTERS = {"C", "TO", "FROM", "READER", "SOURCE", "TARGET", "ACTIVE", "CLUSTER"}
RANGES = {"DAYS": (1, 1_000), "PLACE": (0, 1_000_000), "COUNT": (0, 1_000_000), "CUT": (0, 1_000_000), "EVENT": (1, 1_000_000)}
DIFFERENT = (("READER", "SOURCE"), ("TO", "FROM"))


class Word(str):
    """A word of a line, with the column where it begins."""

    def __new__(cls, text, column):
        it = super().__new__(cls, text)
        it.column = column
        return it

    @property
    def columns(self):
        return self.column, self.column + len(self)


def words_in(line):
    return [Word(it[0], it.start()) for it in re.finditer("[^ ]+", line)]


class Wrong(Exception):
    """Why a line is none of the language, at these columns."""

    def __init__(self, why, columns, wanted=None, cause="BadLine"):
        super().__init__(why)
        self.why, self.columns, self.cause = why, columns, cause
        self.further = [f"wanted: {wanted}"] if wanted else []


# ---------------------------------------------------------------- bytes

def character_at(line, column):
    """The name of the character whose first byte stands at a column, where it is one of UTF-8."""
    for length in (1, 2, 3, 4):
        try:
            text = line[column : column + length].encode("latin-1").decode("utf-8")
            return f"U+{ord(text):04X} {unicodedata.name(text, '')}".strip(), length
        except UnicodeDecodeError:
            continue
    return None, 1


def byte_fault(number, line):
    """Why a line has a byte that no line may have, as a sentence and columns; None where it has none."""
    found = re.search("[^ -~]", line)
    if not found:
        return None
    column, byte = found.start(), ord(found[0])
    if number == 1 and line.startswith("\xef\xbb\xbf"):
        return "the file begins with a byte-order mark; `sed -i '1s/^\\xef\\xbb\\xbf//' FILE` takes it away", (0, 3)
    if number == 1 and line[:2] in ("\xff\xfe", "\xfe\xff"):
        return "the file is written in UTF-16; `iconv -f UTF-16 -t ASCII` writes it in ASCII", (0, 2)
    if found[0] == "\r" and column == len(line) - 1:
        return "the line ends with a carriage return, as other systems end lines; `tr -d '\\r'` takes them all away", (column, column + 1)
    if found[0] == "\t":
        return "a tab stands here; words stand between spaces", (column, column + 1)
    name, length = character_at(line, column) if byte >= 0x80 else (None, 1)
    what = f"the character {name}" if name else f"the byte 0x{byte:02x}"
    return f"{what} stands here; a line, a comment too, holds the bytes from the space to `~` alone", (column, column + length)


def long_word_fault(words):
    for word in words:
        if len(word) > MOST_WORD:
            return f"a word of {len(word):,} bytes; at most {MOST_WORD} are allowed", word.columns
    return None


# ---------------------------------------------------------------- the header

class Header:
    """The header as far as it has been read."""

    def __init__(self):
        self.read, self.increment, self.shards, self.members = 0, None, None, []

    @property
    def is_past_limit(self):
        return self.read == len(HEADER)

    @property
    def names(self):
        return [name for name, _ in self.members]

    def take(self, number, words):
        """Reads a header line; raises Wrong where it is not the one wanted."""
        if self.is_past_limit:
            return self.take_cluster(words)
        wanted = HEADER[self.read]
        if words[0] != wanted.split(" ")[0]:
            why = other_text(words) if number == 1 else None
            why = why or with_nearest(f"the header goes on with `{wanted}`, and not with `{words[0]}`", words[0], [wanted.split(" ")[0]])
            raise Wrong(why, words[0].columns, wanted, "BadHeader")
        if len(words) != 2:
            raise wrong_count(words, wanted.split(" ")[1:], wanted, "BadHeader")
        getattr(self, f"take_{words[0]}")(words[1])
        self.read += 1
        return None

    def take_ndc(self, word):
        if word != "1":
            raise Wrong(f"the language has the number 1, and not {word}", word.columns, "ndc 1", "BadHeader")

    def take_increment(self, word):
        plain = number_fault(word, "I", 0, 10**18 - 1)
        if plain or len(word) > 18:
            raise Wrong(plain or "an increment has at most 18 digits", word.columns, "increment I", "BadHeader")
        if not 1 <= int(word) <= MOST_INCREMENT:
            raise Wrong(number_fault(word, "the increment", 1, MOST_INCREMENT), word.columns, None, "IncrementLimit")
        self.increment = int(word)

    def take_shards(self, word):
        self.shards = ranged(word, "S", 1, 64, "shards S")

    def take_limit(self, word):
        ranged(word, "L", 10, 204_800, "limit L")

    def take_cluster(self, words):
        wanted = "cluster NAME INITIAL"
        if len(words) != 3:
            raise wrong_count(words, ["NAME", "INITIAL"], wanted, "BadHeader")
        why = number_fault(words[2], "INITIAL", 0, 10**18 - 1)
        if why:
            raise Wrong(why, words[2].columns, wanted, "BadHeader")
        self.check_member(words[1], words[2])
        self.members.append((str(words[1]), int(words[2])))

    def check_member(self, name, initial):
        if len(self.members) == 8:
            raise Wrong("this is the ninth cluster, and there are at most 8", name.columns, None, "TooMany")
        if name in self.names:
            raise Wrong(f"`{name}` is the name of a cluster above", name.columns, None, "SameName")
        for other, version in self.members:
            if version == int(initial):
                raise Wrong(f"{initial} is the initial version of {other}; initial versions differ", initial.columns, None, "SameInitial")
        if int(initial) >= self.increment:
            raise Wrong(f"an initial version is below the increment, which is {self.increment:,}", initial.columns, None, "NotBelowIncrement")


def ranged(word, name, low, high, wanted):
    why = number_fault(word, name, low, high)
    if why:
        raise Wrong(why, word.columns, wanted, "BadHeader")
    return int(word)


def other_text(words):
    """What else than a script the first line begins; None where it may be one."""
    if words[0] == "dump":
        return "this is a dump, which `ndc rebuild` and `ndc inspect` read, and no script"
    if words[0].startswith("{"):
        return "this is a batch of a dump, and no script"
    if words[0].isdigit() and words[1:2] in (["ok"], ["refused"]):
        return "this is a report, which a script gives, and no script"
    return None


# ---------------------------------------------------------------- lines of the body

def wrong_count(words, operands, wanted, cause="BadLine"):
    """What is wrong with a line that has too few words, or too many."""
    given = words[1:]
    if len(given) < len(operands):
        end = words[-1].columns[1]
        return Wrong(f"{operands[len(given)]} is missing", (end, end + 1), wanted, cause)
    extra = given[len(operands)]
    if extra.startswith("#"):
        return Wrong("no comment stands after words; it has a line of its own", extra.columns, wanted, cause)
    if any('"' in it for it in given):
        return Wrong(f"`{extra}` is a word too many; there are no quotes, and a name has no space in it", extra.columns, wanted, cause)
    return Wrong(f"`{extra}` is a word too many", extra.columns, wanted, cause)


def first_word_fault(word, in_burst, clusters):
    """Why a word begins no line."""
    every = [*COMMANDS, *OTHERS, "end"]
    if word in ("cluster", *(it.split(" ")[0] for it in HEADER)):
        why = f"`{word}` begins a line of the header, which has ended above"
    elif word == "end":
        why = "`end` stands after a `burst` alone"
    elif word in ACTIONS:
        why = f"`{word}` is an action of `respond`, and begins no line"
    elif word in clusters:
        why = f"`{word}` is a cluster; a line begins with what it does"
    elif word.isdigit():
        why = f"`{word}` begins no line; a line of a script has no number, a report's has"
    else:
        why = with_nearest(f"no line begins with `{word}`", word, list(COMMANDS) + ["end"] if in_burst else every)
    return Wrong(why, word.columns)


def form_of(words):
    """The operands that a line of this word and length has."""
    word = words[0]
    if word == "pull" and len(words) > 3:
        return LONGER_PULL.split(" ")
    return ({**COMMANDS, **OTHERS}[word]).split()


def check_operands(words, header):
    """The form of a line: how many words, their ranges, which differ. Gives the places of its clusters."""
    form = form_of(words)
    wanted = " ".join([words[0], *form])
    if words[0] == "pull":
        wanted = "pull READER SOURCE, or pull READER SOURCE SHARD COUNT"
    has_rest = form[-1:] == [".."]
    fixed = form[:-2] if has_rest else form
    if len(words) - 1 < len(fixed) or (not has_rest and len(words) - 1 > len(fixed)):
        raise wrong_count(words, fixed, wanted)
    for name, word in zip(fixed, words[1:]):
        low, high = (0, header.shards - 1) if name == "SHARD" else RANGES.get(name, (None, None))
        why = number_fault(word, name, low, high) if high is not None else None
        if why:
            raise Wrong(why, word.columns, wanted)
    check_differ(words, fixed, wanted)
    clusters = [word for name, word in zip(fixed, words[1:]) if name in CLUSTERS]
    if words[0] == "register":
        clusters += check_members(words[5:], wanted)
    if words[0] == "respond":
        check_actions(words[4:])
    return clusters


def check_differ(words, names, wanted):
    pairs = [*DIFFERENT, *([("C", "TARGET")] if words[0] == "handover" else [])]
    for one, two in pairs:
        if one in names and two in names:
            first, second = words[1 + names.index(one)], words[1 + names.index(two)]
            if first == second:
                raise Wrong(f"{one} and {two} differ, and both are `{first}`", second.columns, wanted)


def check_members(words, wanted):
    for place, word in enumerate(words):
        if word in words[:place]:
            raise Wrong(f"`{word}` is listed twice among the members", word.columns, wanted)
    return words


def check_actions(words):
    """The actions of a respond line."""
    rest = list(words)
    while rest:
        word, operands = rest[0], ACTIONS.get(rest[0])
        if operands is None:
            raise Wrong(with_nearest(f"there is no action `{word}`", word, ACTIONS), word.columns, "one of " + ", ".join(ACTIONS))
        form = operands.split()
        if len(rest) - 1 < len(form):
            end = rest[-1].columns[1]
            raise Wrong(f"{form[len(rest) - 1]} of the action `{word}` is missing", (end, end + 1), " ".join([word, *form]))
        rest = rest[1 + len(form) :]
        if rest and word in CLOSING:
            raise Wrong(f"`{word}` closes the run, and nothing stands after it; here is `{rest[0]}`", rest[0].columns)


def check_clusters(words, header):
    for word in words:
        if word not in header.names:
            near = nearest(word, header.names)
            why = f"the header has no cluster `{word}`" + (f"; the nearest is `{near}`" if near else "")
            raise Wrong(why, word.columns, "one of " + ", ".join(header.names), "UnknownName")


# ---------------------------------------------------------------- the script

class Reader:
    """Reads a script line by line."""

    def __init__(self):
        self.header, self.in_header, self.burst = Header(), True, None

    def cause_of_bytes(self, first):
        """The cause of a line with a byte or word that no line may have."""
        if not self.in_header:
            return "BadLine"
        if not self.header.is_past_limit or first == "cluster":
            return "BadHeader"
        return "BadLine" if self.header.members else "NoClusters"

    def fault_of(self, number, line):
        """The fault of a line, or None."""
        try:
            self.take(number, line)
        except Wrong as wrong:
            return Fault(number, wrong.cause, wrong.why, wrong.columns, wrong.further)
        return None

    def take(self, number, line):
        words, bad = words_in(line), byte_fault(number, line)
        if bad:
            raise Wrong(*bad, cause=self.cause_of_bytes(words[0] if words else ""))
        if not words or words[0].startswith("#"):
            return
        bad = long_word_fault(words)
        if bad:
            raise Wrong(*bad, cause=self.cause_of_bytes(words[0]))
        if self.in_header and self.is_header_line(words):
            self.header.take(number, words)
        elif self.burst is not None:
            self.take_in_burst(words)
        else:
            self.take_line(words)

    def is_header_line(self, words):
        """Whether the header goes on with this line; it ends before the first that is no cluster line."""
        if not self.header.is_past_limit or words[0] == "cluster":
            return True
        if not self.header.members:
            why = with_nearest(f"the header has no cluster yet, and this line begins with `{words[0]}`", words[0], ["cluster"])
            raise Wrong(why, words[0].columns, "cluster NAME INITIAL", "NoClusters")
        self.in_header = False
        return False

    def take_line(self, words):
        if words[0] not in COMMANDS and words[0] not in OTHERS:
            raise first_word_fault(words[0], False, self.header.names)
        clusters = check_operands(words, self.header)
        if words[0] == "burst":
            self.burst = words[1]
        check_clusters(clusters, self.header)

    def take_in_burst(self, words):
        if words[0] == "end" and len(words) == 1:
            self.burst = None
            return
        if words[0] == "end":
            raise wrong_count(words, [], "end")
        if words[0] in OTHERS:
            raise Wrong(f"`{words[0]}` is no command to a workflow, and a burst holds nothing else; `end` ends it", words[0].columns)
        if words[0] not in COMMANDS:
            raise first_word_fault(words[0], True, self.header.names)
        check_operands(words, self.header)
        if words[1] != self.burst:
            raise Wrong(f"the burst is at `{self.burst}`, and so is each line of it; this one is at `{words[1]}`", words[1].columns)

    def fault_at_end(self, number, is_empty):
        """The fault of a text that ends here, or None."""
        if not self.header.is_past_limit:
            wanted = HEADER[self.header.read]
            why = "the input is empty" if is_empty else f"the text ends, and the header goes on with `{wanted}`"
            return Fault(number, "BadHeader", why, None, [f"wanted: {wanted}"])
        if not self.header.members:
            return Fault(number, "NoClusters", "the text ends, and the header has no cluster", None, ["wanted: cluster NAME INITIAL"])
        if self.burst is not None:
            return Fault(number, "BadLine", f"the text ends, and the burst at `{self.burst}` has no `end`", None, ["wanted: end"])
        return None


def script_faults(text):
    """The faults of a script in turn, the first of which the program tells. The first one of the header is the last one told."""
    reader, lines = Reader(), lines_of(text)
    for number, line in enumerate(lines[:MOST_LINES], 1):
        fault = reader.fault_of(number, line)
        if fault:
            yield fault
            if reader.in_header:
                return
    if len(lines) > MOST_LINES:
        yield Fault(MOST_LINES + 1, "LineLimit", f"the script has {len(lines):,} lines, and {MOST_LINES:,} are the most", None)
        return
    last = reader.fault_at_end(len(lines) + 1, not text)
    if last:
        yield last
