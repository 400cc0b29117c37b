"""Messages that nobody vouches for, handed to a node: what comes of each, and why it is refused. The node is A's; B writes with
2, 12, 22 and so on. A has started a workflow (1.1, events 1 and 2), taken the signal ping (1.2, event 3) and started its decision
(1.3, event 4); B's signal pong goes after 1.2 too (2.3, event 4)."""

import json
import os
import sys
import uuid

from base import ROOT, same

sys.path.insert(0, f"{ROOT}/examples/node")

from nodes import Node  # noqa: E402

NODE = os.environ.get("NDC_NODE") or f"{ROOT}/crates/ndc_node_tool/out/ndc_node_tool"
HEADER = "ndc 1\nincrement 10\nshards 1\nlimit 100\ncluster A 1\ncluster B 2\n"
COMMON = {"clusters": [{"initial": 1, "name": "A"}, {"initial": 2, "name": "B"}], "increment": 10, "limit": 100, "shards": 1}
RUN = "00000000-0000-0001-0000-000000000001"


def compact(value):
    return json.dumps(value, separators=(",", ":"), sort_keys=True)


def run_of(version, task):
    return str(uuid.UUID(int=version * 2**64 + task))


def key(text):
    """`VERSION.TASK` as a key; nothing for nothing."""
    if text is None:
        return None
    version, task = text.split(".")
    return {"task": int(task), "version": int(version)}


def signal(number, version, name, origin=None):
    event = {"eventId": number, "eventType": "WorkflowExecutionSignaled", "input": "x", "signalName": name, "version": version}
    if origin:
        event["origin"] = {"event": origin[0], "run": RUN, "version": origin[1]}
    return event


def plain(number, version, kind):
    return {"eventId": number, "eventType": kind, "version": version}


def batch(at, parent, events, run=RUN, workflow="w1", carrier=None):
    one = {"domain": "alpha", "events": events, "parent": key(parent), "run": run, "workflow": workflow, **key(at)}
    if carrier:
        one["carrier"] = key(carrier)
    return one


def message(one, history, second=None):
    return {"batch": one, "history": [{"id": number, "version": version} for number, version in history], "second": second}


def signaled(at, parent, number, name, history, origin=None):
    """A message of one signal after a parent."""
    return message(batch(at, parent, [signal(number, int(at.split(".")[0]), name, origin)]), history)


def after(task, number, name, origin=None):
    """B's signal after its batch just before."""
    return signaled(f"2.{task}", f"2.{task - 1}", number, name, [(3, 1), (number, 2)], origin)


def begun(task, workflow="w1", more=(), before=None):
    """A batch of B that the one just before carries: the first one of a run."""
    events = [{"eventId": 1, "eventType": "WorkflowExecutionStarted", "version": 2, "workflowType": "order"}, plain(2, 2, "DecisionTaskScheduled"), *more]
    return batch(f"2.{task}", None, events, run_of(2, task), workflow, f"2.{before or task - 1}")


def carrier(task, parent, number, next_task, second=None):
    """A message of B in which a decision goes on as the run of a task, with what it brings."""
    events = [plain(number, 2, "DecisionTaskStarted"), plain(number + 1, 2, "DecisionTaskCompleted")]
    events.append({"eventId": number + 2, "eventType": "WorkflowExecutionContinuedAsNew", "newExecutionRunId": run_of(2, next_task), "version": 2, "workflowType": "order"})
    history = [(number - 1, 1), (number + 2, 2)] if parent.startswith("1.") else [(3, 1), (number + 2, 2)]
    return message(batch(f"2.{task}", parent, events), history, second)


PONG = signaled("2.3", "1.2", 4, "pong", [(3, 1), (4, 2)])


class Scene:
    """A node of A with the forked history."""

    def __init__(self):
        self.node = Node(NODE, HEADER, "A")
        lines = ["register alpha A 7 A B", "start alpha w1 order", "signal alpha w1 ping x", "decide alpha w1"]
        same([self.node.say(line) for line in lines], ["ok 1", "ok 1.1", "ok 1.2", "ok 1.3"])
        same(self.told(PONG), "learned 2.3")

    def shown(self):
        return self.node.line("dump alpha w1")[1:] + self.node.line("gaps")[1:]

    def told(self, *messages):
        """What comes of messages: what became learned, what was put off, and the letters that they became."""
        texts = [compact(one) for one in messages]
        frame = {"body": {"messages": texts}, "format": 1, "from": "B", "header": COMMON, "kind": "served", "to": "A"}
        before = len(self.node.line("letters")) - 1
        waits = self.node.line("gaps")[1:]
        self.node.learned.clear()
        answer = self.node.say(f"hear {compact(frame)}")
        assert answer.startswith("ok"), answer
        came = []
        keys = [json.loads(line.split(" ", 2)[2]) for line in self.node.learned]
        if keys:
            came.append("learned " + " ".join(f"{one['version']}.{one['task']}" for one in keys))
        came += [" ".join(["put off", line.split()[3], "for", line.split()[-1]]) for line in self.node.line("gaps")[1:] if line not in waits]
        letters = self.node.line("letters")[1:]
        came += [line.split(" ", 3)[3] for line in letters[before:]]
        return "; ".join(came) or "known"

    def hear(self, kind, body):
        """What is answered to a frame of B."""
        self.node.take_frames()
        return self.node.say(f"hear {compact({'body': body, 'format': 1, 'from': 'B', 'header': COMMON, 'kind': kind, 'to': 'A'})}")

    def polled(self, read, done, epoch=0, before=None):
        """B polls: how far it has read and is done, and the key of the entry before that."""
        shards = [{"done": done, "epoch": epoch, "key": key(before), "read": read}]
        return self.hear("poll", {"all": [], "largest": 1_000_000, "late": [], "shards": shards})

    def is_behind(self):
        return self.node.say("status").endswith("behind")

    def asks(self, kind):
        """The bodies of the frames of this kind that A has for B."""
        self.node.take_frames()
        self.node.line("ask B")
        frames = [json.loads(text) for text in self.node.take_frames()]
        return [frame["body"] for frame in frames if frame["kind"] == kind]

    def refused(self, one, why):
        """A message becomes a letter for this cause, and the node shows what it showed."""
        before = self.shown()
        same(self.told(one), why)
        same(self.shown(), before)


def refused(one, why):
    Scene().refused(one, why)


def test_messages_that_are_none():
    last = 100_000_000_000
    refused(signaled(f"2.{last + 1}", "2.3", 5, "late", [(3, 1), (5, 2)]), "NotAdmitted(Fault(OutOfRange))")
    same(Scene().told(signaled(f"2.{last}", "2.3", 5, "late", [(3, 1), (5, 2)])), f"learned 2.{last}")
    refused(carrier(last, "2.3", 5, last + 1, begun(last + 1)), "NotAdmitted(Fault(SecondOutOfRange))")
    refused(signaled("3.4", "2.3", 5, "whose", [(3, 1), (4, 2), (5, 3)]), "NotAdmitted(Fault(NoWriter))")
    refused(message(begun(5), [(2, 2)]), "NotAdmitted(Fault(Carried))")
    refused(carrier(4, "2.3", 5, 5), "NotAdmitted(Fault(LacksSecond))")
    refused({**after(4, 5, "late"), "second": begun(5)}, "NotAdmitted(Fault(ExtraSecond))")
    refused(carrier(4, "2.3", 5, 5, begun(5, "w2")), "NotAdmitted(Fault(Foreign))")
    refused(carrier(4, "2.3", 5, 5, begun(6)), "NotAdmitted(Fault(NotCarried))")


def test_messages_of_own_versions():
    refused(signaled("1.4", "1.3", 5, "lost", [(5, 1)]), "NotAdmitted(OwnVersion)")
    refused(signaled("11.4", "2.3", 5, "mine", [(3, 1), (4, 2), (5, 11)]), "NotAdmitted(OwnVersion)")
    same(Scene().told(signaled("12.4", "2.3", 5, "theirs", [(3, 1), (4, 2), (5, 12)])), "learned 12.4")
    refused(after(4, 5, "lost", (5, 1)), "NotAdmitted(OwnOrigin)")
    same(Scene().told(after(4, 5, "theirs", (9, 12))), "learned 2.4")
    scene = Scene()
    scene.refused(after(5, 6, "lost", (5, 1)), "NotAdmitted(OwnOrigin)")
    same(scene.told(after(5, 6, "ping", (3, 1))), "put off 2.5 for 2.4")
    refused(carrier(4, "2.3", 5, 5, begun(5, more=[signal(3, 2, "lost", (5, 1))])), "NotAdmitted(OwnOrigin)")


def rival(version, task, waits):
    return f"NotAdmitted(Rival {{ key: BatchKey {{ version: {version}, task: {task} }}, waits: {waits} }})"


def test_messages_under_keys_of_others():
    refused(signaled("2.3", "1.2", 4, "song", [(3, 1), (4, 2)]), rival(2, 3, "false"))
    refused(signaled("1.2", "1.1", 3, "song", [(3, 1)]), rival(1, 2, "false"))
    scene = Scene()
    same(scene.told(after(5, 6, "first")), "put off 2.5 for 2.4")
    scene.refused(after(5, 6, "other"), rival(2, 5, "true"))
    refused(carrier(2, "1.1", 3, 3, begun(3)), rival(2, 3, "false"))
    scene = Scene()
    same(scene.told(signaled("2.6", "2.4", 6, "waits", [(3, 1), (6, 2)])), "put off 2.6 for 2.4")
    scene.refused(carrier(5, "2.3", 5, 6, begun(6)), rival(2, 6, "true"))
    scene = Scene()
    same(scene.told(carrier(4, "2.3", 5, 5, begun(5))), "learned 2.4 2.5")
    same(scene.told(carrier(4, "2.3", 5, 5, begun(5))), "known")
    scene.refused(carrier(4, "2.3", 5, 5, begun(5, more=[signal(3, 2, "ping", (3, 1))])), rival(2, 5, "false"))


def test_messages_that_came_before():
    scene = Scene()
    before = scene.shown()
    same(scene.told(PONG), "known")
    same(scene.told(after(5, 6, "waits")), "put off 2.5 for 2.4")
    same(scene.told(after(5, 6, "waits")), "known")
    assert before != scene.shown()


def test_messages_that_do_not_fit():
    def misfit(why):
        return f"NotAdmitted(Misfit({why}))"

    def forbidden(number, rule):
        return misfit(f"BadReplay {{ id: {number}, rule: {rule} }}")

    refused(signaled("2.4", "1.2", 4, "fork", [(3, 1), (4, 2)]), misfit("IllFormed"))
    refused(message(batch("2.4", "2.3", [plain(5, 2, "DecisionTaskCompleted")]), [(3, 1), (5, 2)]), forbidden(5, "Task"))
    refused(after(4, 6, "hole"), misfit("IllFormed"))
    refused(after(4, 4, "twice"), "NotAdmitted(History)")
    refused(message(batch("2.4", "2.3", [plain(5, 2, "DecisionTaskStarted")], run_of(2, 1)), [(3, 1), (5, 2)]), misfit("ParentUnfit"))
    refused(after(4, 5, "pong", (4, 2)), forbidden(5, "Origin"))
    twice = [signal(5, 2, "theirs", (9, 12)), signal(6, 2, "theirs", (9, 12))]
    refused(message(batch("2.4", "2.3", twice), [(3, 1), (6, 2)]), forbidden(6, "Origin"))
    refused(after(4, 5, "ping", (2, 1)), misfit("OriginUnfit"))
    refused(after(4, 5, "song", (3, 1)), misfit("OriginUnfit"))
    scene = Scene()
    same(scene.told(after(4, 5, "bell", (5, 12))), "learned 2.4")
    scene.refused(signaled("12.5", "2.3", 5, "gong", [(3, 1), (4, 2), (5, 12)]), misfit("OriginUnfit"))
    refused(carrier(4, "2.3", 5, 9, begun(5)), misfit("CarrierUnfit"))
    refused(carrier(4, "2.3", 5, 5, begun(5, more=[signal(3, 2, "song", (3, 1))])), misfit("OriginUnfit"))


def test_messages_with_other_histories():
    for history in [[(3, 1), (4, 2)], [(3, 1), (6, 2)], [(5, 1)], [(4, 2), (5, 12)], [], [(2, 1), (5, 2)], [(5, 2)]]:
        refused(signaled("2.4", "2.3", 5, "late", history), "NotAdmitted(History)")
    scene = Scene()
    same(scene.told(signaled("2.5", "2.4", 6, "late", [(2, 1), (6, 2)])), "put off 2.5 for 2.4")
    same(scene.told(after(4, 5, "a")), "learned 2.4; NotAdmitted(History)")


def test_messages_that_wait():
    scene = Scene()
    same(scene.told(after(6, 7, "c")), "put off 2.6 for 2.5")
    same(scene.told(after(5, 6, "b")), "put off 2.5 for 2.4; put off 2.6 for 2.4")
    same(scene.told(after(4, 5, "a")), "learned 2.4 2.5 2.6")
    scene = Scene()
    scene.told(message(batch("2.5", "2.4", [plain(6, 2, "DecisionTaskCompleted")]), [(3, 1), (6, 2)]))
    scene.told(after(6, 7, "c"))
    same(scene.told(after(4, 5, "a")), "learned 2.4; put off 2.6 for 2.5; NotAdmitted(Misfit(BadReplay { id: 6, rule: Task }))")
    same(scene.told(after(5, 6, "b")), "learned 2.5 2.6")
    scene = Scene()
    same(scene.told(carrier(5, "2.4", 6, 6, begun(6))), "put off 2.5 for 2.4; put off 2.6 for 2.4")
    same(scene.told(after(4, 5, "a")), "learned 2.4 2.5 2.6")
    scene = Scene()
    same(scene.told(carrier(5, "2.4", 6, 9, begun(6))), "put off 2.5 for 2.4; put off 2.6 for 2.4")
    same(scene.told(after(4, 5, "a")), "learned 2.4; NotAdmitted(Misfit(CarrierUnfit))")
    scene = Scene()
    scene.told(signaled("2.6", "2.4", 6, "late", [(3, 1), (6, 2)]))
    scene.told(signaled("2.5", "2.4", 6, "early", [(3, 1), (6, 2)]))
    same(scene.told(after(4, 5, "a")), "learned 2.4 2.5; NotAdmitted(Misfit(IllFormed))")


def test_texts_that_are_no_messages():
    scene = Scene()
    frame = {"body": {"messages": ["{}", compact(after(4, 5, "a"))]}, "format": 1, "from": "B", "header": COMMON, "kind": "served", "to": "A"}
    same(scene.node.say(f"hear {compact(frame)}"), "ok 1 0 1")
    same(len(scene.node.learned), 2)


LOST = signaled("1.4", "1.3", 5, "lost", [(5, 1)])
SIGNAL = "signal alpha w1 late x"


def recalled(*messages, last=True, after=None):
    return {"after": after, "handovers": [], "last": last, "messages": [compact(one) for one in messages], "records": []}


def test_readers_that_know_more():
    for levels in [{"read": 4, "done": 3}, {"read": 4, "done": 4}, {"read": 3, "done": 3, "before": "1.9"}, {"read": 0, "done": 0, "epoch": 1}]:
        scene = Scene()
        assert not scene.is_behind()
        scene.polled(**levels)
        assert scene.is_behind(), levels
        same(scene.node.say(SIGNAL), "refused BehindItsPast")
    scene = Scene()
    scene.polled(3, 3, before="1.3")
    assert not scene.is_behind()


def test_a_recall():
    scene = Scene()
    scene.polled(4, 4)
    same(scene.asks("recall"), [])
    scene.hear("recalled", recalled(LOST))
    assert scene.is_behind()
    scene.polled(0, 0, epoch=1)
    same(scene.asks("recall"), [{"after": None, "largest": 1_048_576}])
    same(scene.hear("recalled", recalled(LOST, last=False)), "ok 1 0 0")
    assert scene.is_behind()
    place = {"key": key("1.4"), "shard": 0, "workflow": "w1"}
    spot = {"domain": "alpha", "place": place}
    same(scene.asks("recall"), [{"after": spot, "largest": 1_048_576}])
    same(scene.hear("recalled", recalled(LOST)), "ok 0 0 0")
    assert scene.is_behind()
    same(scene.hear("recalled", recalled(after=spot)), "ok 0 0 0")
    assert not scene.is_behind()
    same(scene.node.say(SIGNAL), "refused NeedsFailover")
    same(scene.node.say("reset alpha w1 3"), "refused NeedsFailover")
    same(scene.node.say("beat alpha w1 a1 half"), "refused NeedsFailover")
    same(scene.node.say("failover alpha A"), "ok 11")
    assert scene.node.say(SIGNAL).startswith("ok 11.")


def test_what_came_back_is_told_again():
    scene = Scene()
    scene.polled(4, 4)
    scene.polled(0, 0, epoch=1)
    scene.hear("recalled", recalled(LOST))
    scene.polled(0, 0, epoch=1)
    (entries,) = [json.loads(text)["body"] for text in scene.node.take_frames()]
    same([json.loads(one["message"])["batch"]["task"] for one in entries["entries"]], [1, 2, 3, 4])
    same([entries[name] for name in ("epoch", "from", "next")], [1, 0, 4])


def test_messages_of_own_versions_that_may_be_lost():
    scene = Scene()
    scene.node.line("loaded")
    same(scene.node.say(SIGNAL), "refused Awaiting")
    same(scene.told(LOST), "known")
    assert scene.is_behind()
    same(len(scene.node.line("letters")), 1)
    scene = Scene()
    scene.node.line("loaded")
    scene.polled(3, 3, before="1.3")
    same(scene.told(LOST), "NotAdmitted(OwnVersion)")
    assert not scene.is_behind()


def test_entries_with_a_hole_before_them():
    scene = Scene()
    entry = {"message": compact(after(4, 5, "a")), "place": 7}
    body = {"entries": [entry], "epoch": 0, "from": 7, "late": [], "next": 8, "shard": 0}
    same(scene.hear("entries", body), "ok 0 0 0")
    same(scene.hear("entries", {**body, "from": 0}), "ok 1 0 0")
