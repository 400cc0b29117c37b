"""Tests of what ndc_explain tells of many dumps, against a second program: the rows and the batches of all dumps are computed
here from the dumps' lines, and the explanation of all together is that of one dump which is made of these batches."""
import json
import os
import re
import subprocess

from base import EXAMPLES, NDC, ROOT, TOOLS, call, read, same

EXPLAIN = os.environ.get("NDC_EXPLAIN") or f"{ROOT}/crates/ndc_explain_tool/out/ndc_explain_tool"
EXPLAINED = [it for it in EXAMPLES if re.search(r"^dump ", read(it), re.M)]
NAMES = ("activityId", "timerId", "workflowId", "name", "markerName", "signalName", "workflowType", "activityType", "result", "reason", "input")


def dumps_and_words(script):
    """The input and the words that `tools/dumps` makes of a script."""
    return call(f"{TOOLS}/dumps", script), call(f"{TOOLS}/dumps", "--words", script).split()


def explained(given, *words):
    """What is told of an input, with the status that its lines ask for."""
    done = subprocess.run([EXPLAIN, *words], input=given, capture_output=True, text=True)
    left = re.search(r"^(re-drive: |unsound: |signal .* waits: )", done.stdout, re.M)
    assert (done.returncode, done.stderr) == (1 if left else 0, ""), done
    return done.stdout


def parts_of(given):
    """The dumps of an input, each with its cluster, and the clusters that it names."""
    parts, clusters, cluster = [], [], None
    for line in given.splitlines():
        if line.startswith("cluster "):
            cluster = line.split(" ")[1]
            clusters.append(cluster)
        elif line.startswith("dump "):
            parts.append((cluster, [line]))
        else:
            parts[-1][1].append(line)
    return parts, list(dict.fromkeys(clusters))


def batches_of(lines):
    """The batches of a dump by their keys, each with its line."""
    found = {}
    for line in lines:
        if line.startswith("{"):
            batch = json.loads(line)
            found[batch["version"], batch["task"]] = (batch, line)
    return found


def key_text(key, members, increment):
    writer = next((name for name, initial in members if key[0] % increment == initial % increment), None)
    return f"{key[0]}.{key[1]}" + (f" by {writer}" if writer else "")


def event_text(event):
    names = " ".join(event[it] for it in NAMES if it in event)
    return f"event {event['eventId']}@{event['version']} {event['eventType']}" + (f" {names}" if names else "")


def rows_of(own, all_batches, clusters, members, increment):
    """The lines of a workflow before its explanation, of dumps with numbers, clusters and batches."""
    name = [f"dump {number} of {cluster}" if cluster else f"dump {number}" for number, cluster, _ in own]
    yield from (f"{it}: {len(batches)} of {len(all_batches)} batches" for it, (_, _, batches) in zip(name, own))
    yield from (f"cluster {it}: no dump" for it in clusters if it not in {cluster for _, cluster, _ in own})
    for it, (_, _, batches) in zip(name, own):
        for key in sorted(set(all_batches) - set(batches)):
            events = "".join(f"; {event_text(event)}" for event in all_batches[key][0]["events"])
            yield f"{it} lacks batch {key_text(key, members, increment)}{events}"


def sections_of(given, words):
    """What is to be told of each workflow, where no key has two contents."""
    parts, clusters = parts_of(given)
    members = [(name, int(initial)) for name, initial in (it.split("=") for it in words[1].split(","))]
    workflows = {}
    for number, (cluster, lines) in enumerate(parts, 1):
        workflows.setdefault(lines[0], []).append((number, cluster, batches_of(lines[1:])))
    for head, own in workflows.items():
        all_batches = {key: it for _, _, batches in reversed(own) for key, it in batches.items()}
        bare = "".join(f"{line}\n" for line in [head, *(all_batches[key][1] for key in sorted(all_batches))])
        alone = explained(bare, "--bare", *words).splitlines()
        yield [alone[0], *rows_of(own, all_batches, clusters, members, int(words[3])), *alone[1:]]


def test_many_dumps_as_a_second_program_tells_them():
    seen = 0
    for name in EXPLAINED:
        given, words = dumps_and_words(name)
        told = explained(given, *words).split("\n\n")
        same([it.splitlines() for it in told[1:]], list(sections_of(given, words)))
        parts, clusters = parts_of(given)
        assert told[0].startswith(f"dumps {len(parts)} clusters {len(clusters)} workflows {len(told) - 1} "), told[0]
        seen += len(parts)
    assert seen >= 9, f"only {seen} dumps"


def test_dumps_of_all_clusters_at_each_line():
    """A forced failover, cut off after each of its lines: both clusters' dumps, told together."""
    name = f"{ROOT}/examples/forced-failover.ndc"
    lines, seen = read(name).splitlines(), 0
    words = call(f"{TOOLS}/dumps", "--words", name).split()
    for count in range(20, len(lines), 4):
        script = "".join(it + "\n" for it in [*lines[:count], "dump A orders w1", "dump B orders w1"])
        given = call(f"{TOOLS}/dumps", "-", given=script)
        told = explained(given, *words).split("\n\n")
        same([it.splitlines() for it in told[1:]], list(sections_of(given, words)))
        seen += "lacks" in told[1]
    assert seen >= 5, seen


def test_explained_examples():
    """Each example that dumps has beside it what is told of its dumps."""
    for name in EXPLAINED:
        given, words = dumps_and_words(name)
        same(explained(given, *words), read(name.removesuffix(".ndc") + ".explained"))
    told = read(f"{ROOT}/examples/forced-failover.explained")
    for line in (
        "re-drive: event 10@1 ActivityTaskCompleted charge txn-4711 in batch 1.6 by A; beside it: event 10@2 ActivityTaskTimedOut charge in batch 2.6 by B",
        "re-drive: event 18@1 ActivityTaskCompleted ship parcel-9 in batch 1.12 by A; beside it: nothing",
        "on both: event 17@1 TimerFired deadline in batch 1.11 by A; beside it: event 15@2 TimerFired deadline in batch 2.10 by B",
        "only current: event 17@2 ActivityTaskCompleted charge2 txn-9000 in batch 2.11 by B",
    ):
        assert line + "\n" in told, line
    assert "Decision" not in "".join(it for it in told.splitlines() if not it.startswith("dump"))


def test_a_view_of_many_dumps_is_read_again():
    for name in EXPLAINED:
        given, words = dumps_and_words(name)
        done = subprocess.run([EXPLAIN, "view"], input=given, capture_output=True, text=True)
        assert done.returncode in (0, 1) and done.stderr == "", done
        same(sorted(re.findall(r"cluster \S+\ndump .*?^end\n", done.stdout, re.M | re.S)), sorted(re.findall(r"cluster \S+\ndump .*?^end\n", given, re.M | re.S)))
