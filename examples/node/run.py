#!/usr/bin/env python3
"""examples/node/run.py PROGRAM

Three data centres joined by pipes: losses, repeats, any order, a failover on both sides of a partition, a graceful handover,
a member that joins after all readers have let go, a stop and a start from what was kept, with a last unit that was not kept
whole, a start from what was kept earlier, after which the others give back what was lost, and frames that are none. It ends with equal dumps, or says where it does not."""

import os
import shutil
import sys
import tempfile

from nodes import Network

DOMAIN, WORKFLOW = "D", "order-1"


def expect(what, is_so):
    print(f"{'ok  ' if is_so else 'FAIL'} {what}")
    if not is_so:
        raise SystemExit(1)


def same(network, names, workflow=WORKFLOW):
    dumps = [network.dump(name, DOMAIN, workflow) for name in names]
    return dumps[0] and all(dump == dumps[0] for dump in dumps)


def losses(network):
    a = network.nodes["A"]
    expect("a domain of two members is registered", a.say(f"register {DOMAIN} A 7 A B") == "ok 1")
    expect("a workflow is started", a.say(f"start {DOMAIN} {WORKFLOW} order").startswith("ok"))
    for number in range(20):
        a.line(f"signal {DOMAIN} {WORKFLOW} s{number} x")
        network.round(loss=0.4, repeat=0.3, shuffled=True)
    expect("frames were lost, came twice and in any order: both members have the same", network.settle() and same(network, ["A", "B"]))
    expect("what was told was not told to who is no member", not network.dump("C", DOMAIN, WORKFLOW))


def partition(network):
    a, b = network.nodes["A"], network.nodes["B"]
    expect("B takes over while A is cut off", b.say(f"failover {DOMAIN} B") == "ok 2")
    expect("A goes on", a.say(f"signal {DOMAIN} {WORKFLOW} lost x").startswith("ok"))
    expect("B goes on beside it", b.say(f"signal {DOMAIN} {WORKFLOW} kept y").startswith("ok"))
    network.settle()
    expect("after the partition both show the same", same(network, ["A", "B"]))
    branches = a.line(f"branches {DOMAIN} {WORKFLOW}")
    tips = [line.split() for line in branches if line.startswith("branch ")]
    current = [words[1] for words in tips if words[-1] == "current"]
    expect("there are two branches, and that of B is current", len(tips) == 2 and len(current) == 1 and current[0].startswith("2."))
    expect("A writes no more", a.say(f"signal {DOMAIN} {WORKFLOW} late x").startswith("refused NotActive"))


def handover(network):
    a, b = network.nodes["A"], network.nodes["B"]
    answer = b.say(f"handover {DOMAIN} A")
    expect("B begins to hand the domain over", answer.startswith("ok"))
    expect("B writes no more", b.say(f"signal {DOMAIN} {WORKFLOW} late x").startswith("refused NotActive"))
    expect("A knows of no handover yet", a.say(f"complete {DOMAIN}").startswith("refused NoHandover"))
    network.round()
    network.round()
    expect("A completes it", a.say(f"complete {DOMAIN}") == answer)
    expect("A writes", a.say(f"signal {DOMAIN} {WORKFLOW} again z").startswith("ok"))
    expect("all members have the same", network.settle() and same(network, ["A", "B"]))


def late_member(network):
    a = network.nodes["A"]
    dropped = [network.nodes[name].say("trim") for name in network.names()]
    expect("the queues are trimmed", any(answer != "ok 0" for answer in dropped))
    expect("C becomes a member", a.say(f"join {DOMAIN} C") == "ok")
    network.settle()
    expect("it is brought what was written before", same(network, ["A", "B", "C"]))


def next_unit(path):
    """The number of the unit that is to be appended next: the one after the last, or after those that the store counts."""
    with open(path, encoding="ascii") as kept:
        lines = [line.split() for line in kept]
    numbers = [int(words[1]) for words in lines if words[0] in ("store", "end")]
    return numbers[-1] + 1


def restart(network):
    a = network.store("A")
    network.nodes["A"].line(f"signal {DOMAIN} {WORKFLOW} kept z")
    network.settle()
    before = network.dump("A", DOMAIN, WORKFLOW)
    expect("a node ends", network.stop("A") == 0)
    number = next_unit(a)
    with open(a, "ab") as store:
        store.write(f"unit {number}\nsignal D order-1 torn".encode())
    network.start("A")
    expect("it begins as it was, without a unit that was not kept whole", network.dump("A", DOMAIN, WORKFLOW) == before)
    expect("it writes nothing before all others have polled", network.nodes["A"].say(f"signal {DOMAIN} {WORKFLOW} early z") == "refused Awaiting")
    network.settle()
    expect("then it writes", network.nodes["A"].say(f"signal {DOMAIN} {WORKFLOW} more z").startswith("ok"))
    network.settle()
    expect("all members have the same", same(network, ["A", "B", "C"]))
    network.stop("A")
    network.start("A")
    expect("the caller may vouch for what was kept", network.nodes["A"].say("force") == "ok")
    expect("then it writes at once", network.nodes["A"].say(f"signal {DOMAIN} {WORKFLOW} vouched z").startswith("ok"))
    expect("and all members have the same", network.settle() and same(network, ["A", "B", "C"]))


def recall(network):
    a = network.store("A")
    shutil.copy(a, a + ".earlier")
    for number in range(3):
        network.nodes["A"].line(f"signal {DOMAIN} {WORKFLOW} lost-{number} z")
    network.settle()
    before = network.dump("A", DOMAIN, WORKFLOW)
    network.stop("A")
    shutil.copy(a + ".earlier", a)
    network.start("A")
    expect("a node begins from what was kept earlier: it has lost what it wrote since", network.dump("A", DOMAIN, WORKFLOW) != before)
    network.round()
    expect("others know more of it than itself: it writes nothing", network.nodes["A"].say(f"signal {DOMAIN} {WORKFLOW} old z") == "refused BehindItsPast")
    expect("it asks the others for what it lacks, and has it again", network.settle() and network.dump("A", DOMAIN, WORKFLOW) == before)
    expect("it does not write with a version that it used before", network.nodes["A"].say(f"signal {DOMAIN} {WORKFLOW} old z") == "refused NeedsFailover")
    expect("it fails over to itself", network.nodes["A"].say(f"failover {DOMAIN} A").startswith("ok"))
    expect("and writes", network.nodes["A"].say(f"signal {DOMAIN} {WORKFLOW} new z").startswith("ok"))
    expect("all members have the same", network.settle() and same(network, ["A", "B", "C"]) and network.dump("A", DOMAIN, WORKFLOW) != before)


def strangers(network):
    a = network.nodes["A"]
    network.ask("B", "A")
    frames = [frame for _, frame, _ in network.flight]
    network.flight = []
    poll = frames[0]
    cases = {
        "no frame": "{}",
        "a frame that is cut": poll[:-1],
        "a frame for another node": poll.replace('"to":"A"', '"to":"C"'),
        "a frame of the node itself": poll.replace('"from":"B"', '"from":"A"'),
        "a frame of another network": poll.replace('"increment":10', '"increment":20'),
        "a frame with other shards": poll.replace('"shards":[{', '"shards":[{"done":0,"epoch":0,"key":null,"read":0},{'),
    }
    before = network.status("A")
    for what, frame in cases.items():
        expect(f"{what} is refused", a.say(f"hear {frame}").startswith("refused"))
    expect("and nothing has changed", network.status("A") == before)


def main():
    with tempfile.TemporaryDirectory() as stores:
        network = Network(os.path.abspath(sys.argv[1]), ["A", "B", "C"], stores=stores)
        losses(network)
        partition(network)
        handover(network)
        late_member(network)
        restart(network)
        recall(network)
        strangers(network)
        expect("all nodes end", network.close() == [0, 0, 0])


if __name__ == "__main__":
    main()
