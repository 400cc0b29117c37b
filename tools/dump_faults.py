"""Reads a dump as `ndc rebuild` reads it, and tells of its first fault why it is one."""
import re

from batch_texts import Wrong, batch_in, run_of
from faults import Fault, lines_of
from replay import State, Unfit, run_text, view_lines


# ---------------------------------------------------------------- batches by themselves

class Batch:
    """A batch that was read: its key, its parent's and its carrier's keys, its run and events; and its line's number."""

    def __init__(self, made, number):
        self.number, self.key, self.run = number, key_in(made), run_of(made["run"])
        self.parent, self.carrier = (key_in(made[it]) if made.get(it) else None for it in ("parent", "carrier"))
        self.events, self.domain, self.workflow = made["events"], made["domain"], made["workflow"]

    @property
    def first(self):
        return self.events[0]["eventId"]

    @property
    def last(self):
        return self.events[-1]["eventId"]

    def origin_of(self, event):
        """The event that a signal first was: run, id, version."""
        origin = event.get("origin")
        return (run_of(origin["run"]), origin["event"], origin["version"]) if origin else (self.run, event["eventId"], event["version"])

    @property
    def signals(self):
        return [it for it in self.events if it["eventType"] == "WorkflowExecutionSignaled"]


def key_in(value):
    return value["version"], value["task"]


def named(key):
    return f"{key[0]}.{key[1]}"


def event_text(origin):
    return f"event {origin[1]}@{origin[2]} of run {run_text(origin[0])}"


def check_batch(it):
    """What is wrong with a batch by itself, in the program's order."""
    if not it.events:
        raise Wrong("NoEvents", "the batch has no event")
    for one, two in zip(it.events, it.events[1:]):
        if two["eventId"] != one["eventId"] + 1:
            raise Wrong("IdsNotConsecutive", f"after event {one['eventId']} comes {two['eventId']}; ids rise by one")
    for event in it.events:
        if event["version"] != it.key[0]:
            raise Wrong("MixedVersions", f"event {event['eventId']} has version {event['version']}, and its batch {it.key[0]}")
    check_first(it)
    if it.parent and (it.parent[0] > it.key[0] or it.parent[1] >= it.key[1]):
        why = "a parent's version is not above that of the batch, and its task is below"
        raise Wrong("BadParent", f"the parent of {named(it.key)} is {named(it.parent)}; {why}")
    if it.carrier and it.parent:
        raise Wrong("BadCarrier", "the batch has a carrier and a parent; a carried batch begins a run, and has no parent")
    if it.carrier and it.carrier != (it.key[0], it.key[1] - 1):
        before = f"the batch just before, {it.key[0]}.{it.key[1] - 1}"
        raise Wrong("BadCarrier", f"the carrier {named(it.carrier)} of {named(it.key)} is not {before}")


def check_first(it):
    if not it.parent and it.first != 1:
        raise Wrong("BadFirst", f"the batch has no parent, so it begins a run with event 1; its first event is {it.first}")
    if not it.parent and it.run != it.key:
        raise Wrong("BadFirst", f"the batch has no parent, so its run is named by its key {named(it.key)}; it names {run_text(it.run)}")
    if it.parent and it.first < 2:
        raise Wrong("BadFirst", "the batch has a parent, so its first event is not event 1")


# ---------------------------------------------------------------- batches beside the others

class Set:
    """All batches of a dump, in the order of their keys."""

    def __init__(self, batches):
        self.batches = batches
        self.by_key = {it.key: it for it in batches}

    def along_paths(self, begin, step):
        """Goes along all paths, in the order of keys: what stands after a batch is made by `step` of what stands after its
        parent, which is copied where several batches have that parent."""
        left, after = {}, {}
        for it in self.batches:
            left[it.parent] = left.get(it.parent, 0) + 1
        for it in self.batches:
            left[it.parent] -= 1
            before = begin() if it.parent is None else after[it.parent].copy() if left[it.parent] else after.pop(it.parent)
            after[it.key] = step(it, before)
        return after


def goes_on_as(batch, run):
    last = batch.events[-1]
    return last["eventType"] == "WorkflowExecutionContinuedAsNew" and run_of(last["newExecutionRunId"]) == run


class Unsound(Exception):
    """A cause, and why it stands at a batch."""

    def __init__(self, batch, cause, why):
        super().__init__(why)
        self.batch, self.cause, self.why = batch, cause, why


def check_parents(of):
    for it in of.batches:
        if it.parent and it.parent not in of.by_key:
            raise Unsound(it, "MissingParent", f"its parent {named(it.parent)} is not in the dump")


def check_formed(of):
    for it in (one for one in of.batches if one.parent):
        parent = of.by_key[it.parent]
        if parent.run != it.run:
            runs = f"is of run {run_text(parent.run)}, and it is of run {run_text(it.run)}"
            raise Unsound(it, "NotWellFormed", f"its parent {named(it.parent)} {runs}")
        if parent.last + 1 != it.first:
            raise Unsound(it, "NotWellFormed", f"its parent {named(it.parent)} ends with event {parent.last}, and it begins with event {it.first}")


def check_chains(of):
    last = {}
    for it in of.batches:
        before = last.get((it.run, it.key[0]))
        if before and it.parent != before:
            why = f"{named(before)} is of the same run and version, and is not its parent"
            raise Unsound(it, "SplitVersion", f"{why}: batches of one run and version form one chain")
        last[it.run, it.key[0]] = it.key


def check_origins(of):
    def step(it, seen):
        for event in it.signals:
            origin = it.origin_of(event)
            if origin in seen:
                why = f"event {event['eventId']} is the signal of {event_text(origin)}, and so is {seen[origin]}"
                raise Unsound(it, "OriginTwice", f"{why} on the path to it")
            seen[origin] = f"event {event['eventId']} of batch {named(it.key)}"
        return seen

    of.along_paths(dict, step)


def check_copies(of):
    events = {(it.run, event["eventId"], event["version"]): event for it in of.batches for event in it.events}
    for it in of.batches:
        for event in it.signals:
            first = events.get(it.origin_of(event))
            if "origin" in event and first is not None:
                check_copy(it, event, first)


def check_copy(batch, event, first):
    told = f"event {event['eventId']} repeats {event_text(batch.origin_of(event))}, "
    if first["eventType"] != "WorkflowExecutionSignaled" or "origin" in first:
        copy = " that is a copy itself" if "origin" in first else ""
        raise Unsound(batch, "OriginUnfit", told + f"which is no original signal but a {first['eventType']}{copy}")
    for name in ("signalName", "input"):
        if event[name] != first[name]:
            raise Unsound(batch, "OriginUnfit", told + f"whose `{name}` is {first[name]}, and not {event[name]}")


def check_replay(of):
    """The state after each batch; a state that an event does not fit ends the search, since no smaller key has one."""
    def step(it, state):
        try:
            for event in it.events:
                state.apply(event)
        except Unfit as why:
            raise Unsound(it, "BadReplay", f"event {event['eventId']}, {event['eventType']}: {why}") from None
        return state

    of.along_paths(State, step)


def check_carriers(of):
    for it in (one for one in of.batches if one.carrier):
        carrier = of.by_key.get(it.carrier)
        if carrier is None:
            raise Unsound(it, "CarrierUnfit", f"its carrier {named(it.carrier)} is not in the dump")
        if not goes_on_as(carrier, it.run):
            raise Unsound(it, "CarrierUnfit", f"its carrier {named(it.carrier)} does not end by continuing as run {run_text(it.run)}")


# ---------------------------------------------------------------- the dump

def heading_of(lines):
    """The form, the domain and the workflow that the first line names."""
    first = lines[0] if lines else ""
    found = re.fullmatch("dump ([12]) ([!-~]{1,200}) ([!-~]{1,200})", first)
    if found:
        return int(found[1]), found[2], found[3]
    wanted = ["wanted: dump 2 DOMAIN WORKFLOW"]
    raise Wrong("BadFrame", heading_fault(first), (0, max(1, len(first))), wanted)


def heading_fault(first):
    """Why a line begins no dump."""
    words = first.split()
    if not first:
        return "the input is empty, or its first line is"
    if first.startswith("\xef\xbb\xbf"):
        return "the file begins with a byte-order mark; `sed -i '1s/^\\xef\\xbb\\xbf//' FILE` takes it away"
    if first.endswith("\r"):
        return "the line ends with a carriage return, as other systems end lines; `tr -d '\\r'` takes them all away"
    if words[:1] == ["ndc"] or first.startswith("#"):
        return "this is a script, which `ndc run` reads, and no dump"
    if words[1:2] in (["ok"], ["refused"]) and words[0].isdigit():
        return "this is a report; `sed -n '/^dump /,/^end$/p'` cuts a dump out of it"
    if words[:1] == ["dump"] and words[1:2] not in (["1"], ["2"]):
        return "there are the forms 1 and 2 of a dump"
    if words[:1] == ["dump"] and len(words) == 4 and words != first.split(" "):
        return "single spaces stand between the words, and none at the ends"
    if words[:1] == ["dump"] and len(words) != 4:
        return "a domain and a workflow stand after the form, and nothing else"
    return "the first line of a dump tells its form, domain and workflow, names of 1 to 200 bytes from `!` to `~`"


def read_batches(lines, heading):
    """The batches after the first line, up to a line that begins otherwise; raises Wrong, with the line's number set."""
    form, domain, workflow = heading
    batches = []
    for number, line in enumerate(lines[1:], 2):
        if not line.startswith("{"):
            break
        try:
            it = Batch(batch_in(line, form), number)
            check_batch(it)
            check_place(it, batches[-1] if batches else None, domain, workflow)
        except Wrong as wrong:
            wrong.number = number
            raise
        batches.append(it)
    return batches


def check_place(it, before, domain, workflow):
    if (it.domain, it.workflow) != (domain, workflow):
        raise Wrong("Foreign", f"the batch is of {it.domain} {it.workflow}, and the dump of {domain} {workflow}")
    if before and it.key == before.key:
        raise Wrong("SameKey", f"the line before has the key {named(it.key)} too")
    if before and it.key < before.key:
        raise Wrong("BadOrder", f"{named(it.key)} stands after {named(before.key)}; batches stand in the order of their keys")


def check_set(of, form):
    """The causes of a batch beside the others, in the program's order; form 1 has no carriers."""
    tests = [check_parents, check_formed, check_chains, check_origins, check_copies, check_replay]
    for test in tests + ([check_carriers] if form == 2 else []):
        test(of)


def view_fault(of, lines, text):
    """The first line after the batches that is not what they show."""
    first, wanted = len(of.batches) + 1, view_lines(of)
    for place, line in enumerate(wanted):
        number = first + place + 1
        stands = lines[first + place] if first + place < len(lines) else None
        if stands != line:
            return differing(number, stands, line)
        if number == len(lines) and not text.endswith("\n"):
            return Fault(number, "BadView", "the line has no line end", (len(line), len(line) + 1))
    if len(lines) > first + len(wanted):
        return Fault(first + len(wanted) + 1, "BadView", "something stands after the line `end`", (0, 1))
    return None


def differing(number, stands, wanted):
    """What differs in a line that is not the wanted one."""
    if stands is None:
        return Fault(number, "BadView", "a line is missing", None, [f"wanted: {wanted}"])
    pairs = list(zip(stands.split(" "), wanted.split(" ")))
    place = next((it for it, (one, two) in enumerate(pairs) if one != two), len(pairs))
    column = len(" ".join(stands.split(" ")[:place])) + (1 if place else 0)
    if stands.split(" ")[0] != wanted.split(" ")[0]:
        why = f"another line stands here than the batches show; a `{wanted.split(' ')[0]}` line is wanted"
    elif place < len(pairs):
        why = f"the batches show `{pairs[place][1]}`, and not `{pairs[place][0]}`"
    else:
        why = "the line is shorter, or longer, than what the batches show"
    word = stands.split(" ")[place] if place < len(stands.split(" ")) else ""
    marks = " " * (len("stands: ") + column) + "^" * max(1, len(word))
    return Fault(number, "BadView", why, (column, column + 1), [f"stands: {stands}", marks, f"wanted: {wanted}"], is_shown=True)


def dump_fault(text):
    """The first fault of a dump, which is the one that the program tells; None where it has none."""
    lines = lines_of(text)
    try:
        heading = heading_of(lines)
        if len(lines) < 2 or not lines[1].startswith("{"):
            column = None if len(lines) < 2 else (0, 1)
            return Fault(2, "BadFrame", "no batch stands after the first line", column, ['wanted: {"domain":..'])
        batches = read_batches(lines, heading)
        of = Set(batches)
        check_set(of, heading[0])
    except Wrong as wrong:
        return Fault(getattr(wrong, "number", 1), wrong.cause, wrong.why, wrong.columns, wrong.further)
    except Unsound as unsound:
        it = unsound.batch
        return Fault(it.number, unsound.cause, unsound.why, None, key=named(it.key))
    return view_fault(of, lines, text)
