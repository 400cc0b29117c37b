"""The scripts that bench/measure runs: each function gives the lines of one, of about so many lines."""

import itertools
import random

NAMES = "ABCDEFGH"


def header(clusters, shards, limit):
    yield from ("ndc 1", "increment 10", f"shards {shards}", f"limit {limit}")
    for number, name in enumerate(NAMES[:clusters], 1):
        yield f"cluster {name} {number}"


def domain(clusters):
    """One domain, registered at A, that all other clusters know of."""
    yield "register A alpha A 7"
    for name in NAMES[1:clusters]:
        yield f"domains {name} A"


def begun(clusters, shards, limit):
    return [*header(clusters, shards, limit), *domain(clusters)]


def signals(size):
    """One workflow that only grows."""
    yield from begun(2, 1, 204800)
    yield "start A alpha w1 order"
    for at in range(size):
        yield f"signal A alpha w1 ping s{at}"


def starts(size):
    """A workflow a line, in one shard."""
    yield from begun(1, 1, 1000)
    for at in range(size):
        yield f"start A alpha w{at} order"


def alternating(size):
    """Two clusters write one workflow with versions that alternate, and a third one learns both."""
    lines = begun(3, 1, 204800) + ["start A alpha w1 order"]
    for reader in "BC":
        lines += [f"pull {reader} A", f"work {reader}"]
    for at in itertools.count():
        if len(lines) >= size:
            return lines[:size]
        here, there = ("A", "B") if at % 2 == 0 else ("B", "A")
        lines += [f"failover {here} alpha {there}", f"failover {here} alpha {here}"]
        lines += [f"signal {here} alpha w1 ping v{at}", f"pull C {here}", "work C"]


def settlements(size):
    """A start and a settlement each, in a large world with little in it."""
    yield from begun(8, 64, 204800)
    for at in range(size // 2):
        yield f"start A alpha w{at} order"
        yield "settle"


def mixed(size):
    """Of all kinds of lines some, as many an hour of a large and busy world has them."""
    choose = random.Random(20)
    domains = [f"d{at}" for at in range(4)]
    writer = {name: "A" for name in domains}
    lines = list(header(8, 64, 2000))
    lines += [f"register A {name} A 30" for name in domains] + [f"domains {name} A" for name in NAMES[1:]]
    kinds = {"signal": 34, "pull": 12, "work": 11, "start": 10, "failover": 8, "decide": 7, "respond": 9, "domains": 4,
             "trim": 1, "resend": 1, "gaps": 1, "branches": 1, "compare": 1, "reset": 1, "settle": 0.1}
    for kind in choose.choices(list(kinds), list(kinds.values()), k=size - len(lines)):
        name = choose.choice(domains)
        cluster = writer[name] if choose.random() < 0.6 else choose.choice(NAMES)
        other = choose.choice([it for it in NAMES if it != cluster])
        place = f"{cluster} {name} w{choose.randrange(200)}"
        if kind == "failover":
            writer[name] = other
            cluster = other if choose.random() < 0.7 else cluster
        lines.append({
            "signal": f"signal {place} ping v{len(lines)}", "pull": f"pull {cluster} {other}", "work": f"work {other}",
            "start": f"start {place} order", "failover": f"failover {cluster} {name} {other}", "decide": f"decide {place}",
            "respond": f"respond {place} activity a{choose.randrange(50)} pay", "domains": f"domains {cluster} {other}",
            "trim": f"trim {cluster}", "resend": f"resend {cluster}", "gaps": f"gaps {cluster}", "branches": f"branches {place}",
            "compare": f"compare {cluster} {other} {name} w{choose.randrange(200)}", "reset": f"reset {place} 4", "settle": "settle",
        }[kind])
    return lines


def strays(size):
    """Many workflows, each with a signal on either side of a conflict, and a cluster that works after each failover."""
    count = size // 8
    yield from begun(8, 64, 1000)
    for at in range(count):
        yield f"start A alpha w{at} order"
    yield from ("pull B A", "work B", "failover B alpha B")
    for cluster in "BA":
        for at in range(count):
            yield f"signal {cluster} alpha w{at} ping {cluster}"
    yield from ("pull C A", "work C", "pull C B", "work C")
    for at in range(count):
        yield f"failover C alpha {'ABC'[at % 3]}"
        yield "work C"
    for at in range(count):
        yield f"signal B alpha w{at} ping x"
        yield "work B"
    yield from ("pull B A", "work B", "settle")


def put_off(size):
    """A long chain that waits for its first batch, which was lost and is sent again."""
    yield from begun(2, 1, 204800)
    yield "start A alpha w1 order"
    for at in range(size // 2):
        yield f"signal A alpha w1 ping v{at}"
    yield from ("pull B A", "lose B A 0 0", "work B", "gaps B")
    for line in ("pull B A", "work B"):
        yield from itertools.repeat(line, size // 4)
    yield from ("resend B", "compare A B alpha w1")


def activities(size):
    """Activities that beat, with their reports read at another cluster."""
    lines = begun(2, 1, 204800) + ["start A alpha w1 order", "decide A alpha w1"]
    lines += ["respond A alpha w1 " + " ".join(f"activity a{at} pay" for at in range(3000)), "pull B A", "work B"]
    for at in itertools.count():
        if len(lines) >= size:
            return lines[:size]
        name = f"a{at % 3000}"
        lines += [f"signal A alpha w1 ping v{at}", f"actstart A alpha w1 {name}", "pull B A", "work B"]
        lines += [f"beat A alpha w1 {name} d{at}", "sync B A", f"progress B alpha w1 {name}"]


def turns(size):
    """Two runs of a workflow that take turns as its current one at a third cluster."""
    lines = begun(3, 1, 204800) + ["start A alpha w1 order"]
    lines += [f"signal A alpha w1 ping v{at}" for at in range(size // 3)]
    lines += ["failover B alpha B", "start B alpha w1 order"]
    lines += [f"signal B alpha w1 ping v{at}" for at in range(size // 3)]
    lines += ["pull C A", "work C", "pull C B", "work C"]
    for at in itertools.count():
        if len(lines) >= size:
            return lines[:size]
        here, there = ("A", "B") if at % 2 == 0 else ("B", "A")
        lines += [f"failover {here} alpha {there}", f"failover {here} alpha {here}", f"signal {here} alpha w1 ping t{at}"]
        lines += [f"pull C {here}", "work C"]


def resets(size):
    """500 resets of a run with many signals."""
    yield from begun(2, 1, 204800)
    yield from ("start A alpha w1 order", "decide A alpha w1", "respond A alpha w1")
    for at in range(size):
        yield f"signal A alpha w1 ping v{at}"
    yield "reset A alpha w1 4"
    for last in range(size + 7, size + 7 + 3 * 499, 3):
        yield from ("decide A alpha w1", "respond A alpha w1", f"reset A alpha w1 {last}")
    yield from ("settle", "compare A B alpha w1")


def domains(size):
    """Many domains, each registered and failed over."""
    yield from header(3, 1, 1000)
    for at in range(size // 2):
        yield f"register A d{at} A 7"
        yield f"failover A d{at} {'ABC'[at % 3]}"
    yield from ("domains B A", "settle")


def bursts(size):
    """Rounds of 2,000 jobs."""
    yield from begun(2, 64, 1000)
    for first in range(0, size, 2000):
        yield "burst A"
        for at in range(first, first + 2000):
            yield f"start A alpha w{at} order"
        yield from ("end", "pull B A", "work B")


def dump(size):
    """The dump of one workflow of so many batches."""
    yield from signals(size)
    yield "dump A alpha w1"
