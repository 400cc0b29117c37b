"""The state that events leave, and the lines of a dump that its batches show."""

CLOSING = {
    "WorkflowExecutionCompleted": "completed", "WorkflowExecutionFailed": "failed", "WorkflowExecutionCanceled": "canceled",
    "WorkflowExecutionTerminated": "terminated", "WorkflowExecutionContinuedAsNew": "continued",
}
# What stands in a list of the state, and by which attribute.
LISTS = {
    "ActivityTask": ("activity", "activityId"), "Timer": ("timer", "timerId"),
    "StartChildWorkflowExecution": ("child", "workflowId"), "ChildWorkflowExecution": ("child", "workflowId"),
}
ADDING = ("ActivityTaskScheduled", "TimerStarted", "StartChildWorkflowExecutionInitiated")
STARTING = ("ActivityTaskStarted", "ChildWorkflowExecutionStarted")
ENDING_STARTED = ("ActivityTaskCompleted", "ActivityTaskFailed", "ChildWorkflowExecutionCompleted", "ChildWorkflowExecutionFailed")
ENDING = ("ActivityTaskTimedOut", "TimerFired", "TimerCanceled")
ENDING_DECISION = ("DecisionTaskCompleted", "DecisionTaskFailed", "DecisionTaskTimedOut")
# The kinds that need that no decision is pending.
FREE = (*(it for it in CLOSING if it != "WorkflowExecutionTerminated"), "DecisionTaskScheduled", *ADDING, "TimerCanceled", "MarkerRecorded")


class Unfit(Exception):
    """Why an event may not follow."""


class State:
    """What the events of a branch leave."""

    def __init__(self):
        self.next, self.status, self.decision, self.signals, self.cancel = 1, None, None, 0, False
        self.pending = {"activity": {}, "timer": {}, "child": {}}

    def copy(self):
        made = State()
        made.next, made.status, made.decision, made.signals, made.cancel = self.next, self.status, self.decision, self.signals, self.cancel
        made.pending = {kind: dict(them) for kind, them in self.pending.items()}
        return made

    def apply(self, event):
        """Applies an event whose id goes on; raises Unfit where the table does not allow it."""
        kind = event["eventType"]
        self.check_run(kind)
        if kind in FREE and self.decision:
            raise Unfit(f"a decision is pending, {pending_text(self.decision)}, and this event needs that none is")
        if kind.startswith("DecisionTask"):
            self.apply_decision(kind, event["eventId"])
        elif kind in (*ADDING, *STARTING, *ENDING_STARTED, *ENDING):
            self.apply_pending(kind, event)
        elif kind == "WorkflowExecutionSignaled":
            self.signals += 1
        elif kind == "WorkflowExecutionCancelRequested":
            self.cancel = True
        elif kind != "MarkerRecorded":
            self.status = CLOSING.get(kind, "open")
        self.next = event["eventId"] + 1

    def check_run(self, kind):
        if (kind == "WorkflowExecutionStarted") != (self.next == 1):
            raise Unfit("event 1 of a run is WorkflowExecutionStarted, and no other event is")
        if self.next > 1 and self.status != "open":
            raise Unfit(f"the run is closed ({self.status}), and nothing follows")

    def apply_decision(self, kind, event_id):
        if kind == "DecisionTaskScheduled":
            self.decision = (event_id, None)
        elif kind == "DecisionTaskStarted":
            if not self.decision or self.decision[1]:
                raise Unfit("the decision is started already" if self.decision else "no decision is scheduled")
            self.decision = (self.decision[0], event_id)
        else:
            if not self.decision or not self.decision[1]:
                raise Unfit("the decision is only scheduled" if self.decision else "no decision is pending")
            self.decision = None

    def apply_pending(self, kind, event):
        what, attribute = next(it for begin, it in LISTS.items() if kind.startswith(begin))
        name, them = event[attribute], self.pending[what]
        if kind in ADDING:
            if name in them:
                raise Unfit(f"the {what} {name} is pending already, {pending_text(them[name])}")
            them[name] = (event["eventId"], None)
            return
        if name not in them:
            raise Unfit(f"no {what} {name} is pending")
        if kind in STARTING:
            if them[name][1]:
                raise Unfit(f"the {what} {name} is started already, {pending_text(them[name])}")
            them[name] = (them[name][0], event["eventId"])
            return
        if kind in ENDING_STARTED and not them[name][1]:
            raise Unfit(f"the {what} {name} is pending and not started, {pending_text(them[name])}")
        del them[name]

    @property
    def text(self):
        lists = {kind: ",".join(map(pending_text, them.values())) or "-" for kind, them in self.pending.items()}
        decision, cancel = pending_text(self.decision) if self.decision else "-", "yes" if self.cancel else "no"
        pending = f"activities={lists['activity']} timers={lists['timer']} children={lists['child']}"
        return f"next={self.next} decision={decision} {pending} signals={self.signals} cancel={cancel}"


def pending_text(it):
    return f"{it[0]}+{it[1]}" if it[1] else str(it[0])


class Shown:
    """What a branch shows: its last batch, the last event of each version, its state."""

    def __init__(self):
        self.tip, self.history, self.state = None, {}, State()

    def copy(self):
        made = Shown()
        made.tip, made.history, made.state = self.tip, dict(self.history), self.state.copy()
        return made

    def with_batch(self, batch):
        for event in batch.events:
            self.state.apply(event)
        self.tip = batch
        self.history[batch.key[0]] = batch.last
        return self

    def lines(self, is_current):
        items = ",".join(f"{last}@{version}" for version, last in sorted(self.history.items()))
        return [f"branch {self.tip.key[0]}.{self.tip.key[1]} {items}" + (" current" if is_current else ""), "state " + self.state.text]


def run_text(run):
    digits = "%016x%016x" % run
    return "-".join((digits[:8], digits[8:12], digits[12:16], digits[16:20], digits[20:]))


def view_lines(of):
    """The lines after the batches of a sound set: runs with their branches and states, and the end."""
    parents = {it.parent for it in of.batches}
    runs = {}
    for key, shown in sorted(of.along_paths(Shown, lambda batch, before: before.with_batch(batch)).items()):
        if key not in parents:
            runs.setdefault(shown.tip.run, []).append(shown)
    current_run = max(runs, key=lambda run: runs[run][-1].tip.key)
    lines = []
    for run, branches in sorted(runs.items()):
        status, is_current = branches[-1].state.status, run == current_run
        status = "zombie" if status == "open" and not is_current else status
        lines.append(f"run {run_text(run)} {status}" + (" current" if is_current else ""))
        for shown in branches:
            lines += shown.lines(shown is branches[-1])
    return lines + ["end"]
