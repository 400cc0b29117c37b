"""Reads one line of a dump as the batch that it is, or tells why it is the text of none."""
import json
import re

from faults import nearest
from replay import run_text

MOST_ID = 10**12
MOST_VERSION = 10**13
MOST_DEPTH = 127
NAME = re.compile("[!-~]{1,200}")
HYPHENATED = re.compile("[0-9a-f]{8}-[0-9a-f]{4}-[0-9a-f]{4}-[0-9a-f]{4}-[0-9a-f]{12}")
# The keys of each object, with what they hold; those that may be missing end with a question mark.
BATCH = {
    "carrier?": "an object", "domain": "a name", "events": "an array", "parent": "null or an object", "run": "a run", "task": "a task",
    "version": "a version", "workflow": "a name",
}
KEY = {"task": "a task", "version": "a version"}
ORIGIN = {"event": "an event's id", "run": "a run", "version": "a version"}
EVENT = {"eventId": "an event's id", "eventType": "a kind", "version": "a version"}
NAMES = {
    "WorkflowExecutionStarted": "workflowType", "WorkflowExecutionSignaled": "input signalName", "WorkflowExecutionCancelRequested": "",
    "WorkflowExecutionCompleted": "result", "WorkflowExecutionFailed": "reason", "WorkflowExecutionCanceled": "",
    "WorkflowExecutionTerminated": "reason", "WorkflowExecutionContinuedAsNew": "workflowType", "DecisionTaskScheduled": "",
    "DecisionTaskStarted": "", "DecisionTaskCompleted": "", "DecisionTaskFailed": "cause", "DecisionTaskTimedOut": "",
    "ActivityTaskScheduled": "activityId activityType", "ActivityTaskStarted": "activityId", "ActivityTaskCompleted": "activityId result",
    "ActivityTaskFailed": "activityId reason", "ActivityTaskTimedOut": "activityId", "TimerStarted": "timerId", "TimerFired": "timerId",
    "TimerCanceled": "timerId", "StartChildWorkflowExecutionInitiated": "workflowId workflowType", "ChildWorkflowExecutionStarted": "workflowId",
    "ChildWorkflowExecutionCompleted": "result workflowId", "ChildWorkflowExecutionFailed": "reason workflowId", "MarkerRecorded": "markerName",
}
RANGES = {"a task": (1, MOST_ID), "an event's id": (1, MOST_ID), "a version": (0, MOST_VERSION)}


class Wrong(Exception):
    """A cause, why it stands at a line, in which columns; or the name of the key at which it stands."""

    def __init__(self, cause, why, columns=None, further=(), name=None):
        super().__init__(why)
        self.cause, self.why, self.columns, self.further, self.name = cause, why, columns, further, name

    def find(self, line):
        """Looks for the columns of the key; a key that stands several times in the line is told by its place alone."""
        key = f'"{self.name}":'
        if self.name and line.count(key) == 1:
            self.columns = line.index(key), line.index(key) + len(key) - 1


# ---------------------------------------------------------------- JSON

class Number:
    """A number as it is written."""

    def __init__(self, text):
        self.text = text
        if float(text) in (float("inf"), float("-inf")):
            raise Wrong("NotJson", f"the number {text[:20]} is greater than a float of 64 bits can be")

    @property
    def value(self):
        """The whole number that it is; None where it has a sign, a fraction or an exponent, or more than 64 bits."""
        is_whole = self.text.isdigit() and len(self.text) <= 20 and int(self.text) < 2**64
        return int(self.text) if is_whole else None


class Object(dict):
    """An object; of a key that stands twice the last value counts."""

    def __init__(self, pairs):
        super().__init__(pairs)
        names = [name for name, _ in pairs]
        self.twice = next((it for it in names if names.count(it) > 1), None)


def no_constant(text):
    raise Wrong("NotJson", f"`{text}` is no value of JSON")


READER = json.JSONDecoder(object_pairs_hook=Object, parse_int=Number, parse_float=Number, parse_constant=no_constant)


def depth_of(text):
    """How deep brackets and braces go that stand outside of texts."""
    depth = most = 0
    for mark in re.findall(r'[\[\]{}]', re.sub(r'"(?:[^"\\]|\\.)*"', "", text)):
        depth += 1 if mark in "[{" else -1
        most = max(most, depth)
    return most


def texts_in(value):
    if isinstance(value, str):
        yield value
    elif isinstance(value, dict):
        for name, one in value.items():
            yield name
            yield from texts_in(one)
    elif isinstance(value, list):
        for one in value:
            yield from texts_in(one)


def json_of(line):
    """What a line (its bytes as characters) is as JSON."""
    try:
        text = line.encode("latin-1").decode("utf-8")
    except UnicodeDecodeError as fault:
        raise Wrong("NotJson", "a byte stands here that UTF-8 does not have here", (fault.start, fault.start + 1)) from None
    if depth_of(text) > MOST_DEPTH:
        raise Wrong("NotJson", f"arrays and objects stand in one another more than {MOST_DEPTH} deep")
    try:
        value = READER.decode(text)
    except json.JSONDecodeError as fault:
        column = len(text[: fault.pos].encode("utf-8"))
        raise Wrong("NotJson", f"this is no JSON from here on ({fault.msg.lower().removesuffix(' at')})", (column, column + 1)) from None
    if any(re.search("[\ud800-\udfff]", it) for it in texts_in(value)):
        raise Wrong("NotJson", "half of a pair of \\u escapes stands alone")
    return value


# ---------------------------------------------------------------- batches as they are written

def kind_of(value):
    return "null" if value is None else {bool: "true or false", str: "a text", Number: "a number", list: "an array", Object: "an object"}[type(value)]


def has_kind(value, wanted):
    if wanted in ("a name", "a run", "a kind"):
        return isinstance(value, str)
    if wanted in RANGES:
        return isinstance(value, Number) and value.value is not None
    return kind_of(value) in wanted.split(" or ") or kind_of(value) == wanted


def is_run_text(text):
    """Whether a text is one from which a UUID is read."""
    hexed = "[0-9A-Fa-f]"
    dashed = f"{hexed}{{8}}-{hexed}{{4}}-{hexed}{{4}}-{hexed}{{4}}-{hexed}{{12}}"
    return re.fullmatch(f"{hexed}{{32}}|{dashed}|\\{{{dashed}\\}}|[uU][rR][nN]:[uU][uU][iI][dD]:{dashed}", text) is not None


def run_of(text):
    """The key that a run's id is: version and task."""
    digits = re.sub("[^0-9a-f]", "", text.lower().removeprefix("urn:uuid:"))
    return int(digits[:16], 16), int(digits[16:], 16)


def range_fault(name, value, wanted):
    """Why a member is out of its range; None where it is in it."""
    if wanted == "a name" and not NAME.fullmatch(value):
        return f"the text of `{name}` is no name: 1 to 200 bytes from `!` to `~`"
    if wanted == "a kind" and value not in NAMES:
        near = nearest(value, NAMES)
        return f"there is no kind of event `{value[:60]}`" + (f"; the nearest is `{near}`" if near else "")
    if wanted == "a run":
        version, task = run_of(value) if is_run_text(value) else (0, 0)
        if not is_run_text(value):
            return f"`{name}` is no UUID: {value[:60]}"
        if version > MOST_VERSION or not 1 <= task <= MOST_ID:
            return f"`{name}` is the id of no run: its left half is a version, to {MOST_VERSION:,}, its right one a task, 1 to {MOST_ID:,}"
    low, high = RANGES.get(wanted, (None, None))
    if high is not None and not low <= value.value <= high:
        return f"`{name}` is {value.text}; {wanted} is {low:,} to {high:,}"
    return None


def check_object(value, keys, place):
    """The tests of one object, in turn; `place` says which one it is."""
    if not isinstance(value, Object):
        raise Wrong("WrongKind", f"{place} is {kind_of(value)}, and no object")
    wanted = {it.removesuffix("?"): kind for it, kind in keys.items()}
    check_keys(value, [it for it in keys if not it.endswith("?")], wanted, place)
    for name, one in value.items():
        if not has_kind(one, wanted[name]):
            raise Wrong("WrongKind", f"`{name}` of {place} is {told_of(one)}, and wanted is {wanted[name]}", name=name)
    for name, one in value.items():
        why = range_fault(name, one, wanted[name])
        if why:
            raise Wrong("Range", f"{why} (in {place})", name=name)


def check_keys(value, needed, wanted, place):
    """Whether a key of an object is missing, and then whether there is one that it does not have."""
    missing, extra = [it for it in needed if it not in value], [it for it in value if it not in wanted]
    if missing:
        near = nearest(missing[0], extra)
        raise Wrong("MissingKey", f"{place} lacks the key `{missing[0]}`" + (f"; it has a key `{near}`" if near else ""), name=near)
    if extra:
        form = " in a dump of form 1" if extra[0] == "carrier" else ""
        why = f"{place} has the key `{extra[0][:60]}`, which is one too many{form}; its keys are " + ", ".join(sorted(wanted))
        raise Wrong("ExtraKey", why, name=extra[0])


def told_of(value):
    """What a value is, where it is not what is wanted."""
    if isinstance(value, Number):
        return f"the number {value.text[:30]}, with a sign, a fraction, an exponent or more than 64 bits"
    return kind_of(value)


def event_keys(kind):
    keys = {**EVENT, **{name: "a name" for name in NAMES[kind].split()}}
    if kind == "WorkflowExecutionSignaled":
        keys["origin?"] = "an object"
    if kind == "WorkflowExecutionContinuedAsNew":
        keys["newExecutionRunId"] = "a run"
    return keys


def check_event(value, place):
    """An event, and its origin. Its kind is looked at first, since the other keys go by it."""
    if not isinstance(value, Object):
        raise Wrong("WrongKind", f"{place} is {kind_of(value)}, and no object")
    check_object(Object([(name, one) for name, one in value.items() if name == "eventType"]), {"eventType": "a kind"}, place)
    check_object(value, event_keys(value["eventType"]), place)
    if "origin" in value:
        check_object(value["origin"], ORIGIN, f"the origin of {place}")


def check_walk(value, form):
    """The batch, its carrier, its parent, its events in order."""
    check_object(value, BATCH if form == 2 else {it: wanted for it, wanted in BATCH.items() if it != "carrier?"}, "the batch")
    if "carrier" in value:
        check_object(value["carrier"], KEY, "the carrier")
    if value["parent"] is not None:
        check_object(value["parent"], KEY, "the parent")
    for place, event in enumerate(value["events"], 1):
        check_event(event, f"event {place} of the array")


def plain(name, value):
    """A value that was checked, with whole numbers, and runs as they are printed."""
    if isinstance(value, Number):
        return value.value
    if isinstance(value, dict):
        return {it: plain(it, one) for it, one in value.items()}
    if isinstance(value, list):
        return [plain(None, it) for it in value]
    if name in ("run", "newExecutionRunId"):
        return run_text(run_of(value))
    return value


def twice_in(value):
    """A key that stands twice in some object."""
    parts = value.values() if isinstance(value, dict) else value if isinstance(value, list) else ()
    own = value.twice if isinstance(value, Object) else None
    return own or next(filter(None, map(twice_in, parts)), None)


def check_canonical(line, value, made):
    printed = json.dumps(made, separators=(",", ":"), sort_keys=True)
    if printed == line:
        return
    column = next((it for it, (one, two) in enumerate(zip(line, printed)) if one != two), min(len(line), len(printed)))
    why = "from here on it is written otherwise than a batch is printed"
    if twice_in(value):
        why += f"; the key `{twice_in(value)}` stands twice"
    elif line.rstrip("\r") == printed:
        why += "; a carriage return ends the line, and `tr -d '\\r'` takes them all away"
    raise Wrong("NotCanonical", why, (column, column + 1), [f"wanted from there: {printed[column:column + 60]}"])


def batch_in(line, form):
    """The batch that a line is the text of, as an object with whole numbers."""
    value = json_of(line)
    try:
        check_walk(value, form)
    except Wrong as wrong:
        wrong.find(line)
        raise
    made = plain(None, value)
    check_canonical(line, value, made)
    return made
