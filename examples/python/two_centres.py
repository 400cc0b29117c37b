#!/usr/bin/env python3
"""two_centres.py LIBRARY SCRIPT

Two data centres, each a node of the C library (a shared object), do what a script asks of its
clusters A and B. `settle` has them exchange frames, at first with losses, until nothing changes;
`# restart NAME` ends a node and loads it from what was kept. Prints the answers to the lines `dump`,
numbered as in the script: what `ndc run` prints of them."""

import random
import sys

from ndc import Library, Node, told

NAMES = [b"A", b"B"]
HEADER = [b"ndc", b"increment", b"shards", b"limit", b"cluster"]
LOSSY_ROUNDS, LOSS = 5, 0.4


class Centre:
    """A node, what was kept of it, and what an index was told."""

    def __init__(self, library, header, name):
        self.library, self.name, self.index = library, name, set()
        self.node = Node(library, header, name)
        unit, self.kept = self.node.store()
        self.node.stored(unit)

    def keep(self):
        """Keeps the units that are not stored, and answers whether there was one."""
        unit = None
        for unit, text in self.node.changes():
            self.kept += text
            self.node.stored(unit)
        return unit is not None

    def do(self, call, *given):
        """Makes a call, keeps what it changed, and indexes what was learned: whether it changed
        anything, and the answer."""
        code, answer = call(*given)
        has_changed = self.keep()
        self.index.update(told(answer, b"learned"))
        return has_changed, answer

    def restart(self):
        """The node ends, with a unit half written, and is loaded."""
        self.node.close()
        torn = b"unit 9"
        self.node = Node(self.library, kept=self.kept + torn)
        if self.node.dropped != len(torn):
            raise SystemExit("what was not written whole is not dropped")
        self.keep()


class Network:
    """Centres, and the line between them."""

    def __init__(self, library, header):
        self.centres = {name: Centre(library, header, name) for name in NAMES}
        self.random = random.Random(1)

    def deliver(self, frames, loss):
        """Brings frames to where they go, unless they are lost: whether any changed a node, and what
        is answered."""
        has_changed, answers = False, []
        for sender, to, frame in frames:
            if self.random.random() < loss:
                continue
            changed, answer = self.centres[to].do(self.centres[to].node.hear, frame)
            has_changed |= changed
            answers += [(to, sender, text) for text in told(answer, b"frame")]
        return has_changed, answers

    def round(self, loss):
        """Each centre asks each other one, and answers go back: whether any node changed."""
        frames, has_changed = [], False
        for name, centre in self.centres.items():
            for to in NAMES:
                if to != name:
                    _, answer = centre.do(centre.node.ask, to)
                    frames += [(name, to, text) for text in told(answer, b"frame")]
        while frames:
            changed, frames = self.deliver(frames, loss)
            has_changed |= changed
        return has_changed

    def exchange(self):
        for _ in range(LOSSY_ROUNDS):
            self.round(LOSS)
        while self.round(0):
            pass

    def settle(self):
        self.exchange()
        for centre in self.centres.values():
            centre.do(centre.node.line, b"reapply")
        self.exchange()


def run(library, script):
    """Does what the lines of a script ask for, and prints the answers to those that show a dump."""
    lines = script.splitlines(keepends=True)
    header = b"".join(line for line in lines if line.split()[0] in HEADER)
    network = Network(library, header)
    for number, line in enumerate(lines, 1):
        words = line.split()
        if words[:2] == [b"#", b"restart"]:
            network.centres[words[2]].restart()
        elif words[0] == b"settle":
            network.settle()
        elif len(words) > 2 and words[1] in NAMES and words[0] != b"cluster":
            centre = network.centres[words[1]]
            _, answer = centre.do(centre.node.line, b" ".join([words[0], *words[2:]]))
            what = answer[answer.index(b" ok") :] if words[0] == b"dump" else b""
            sys.stdout.buffer.write(b"%d%s" % (number, what) if what else b"")
    for name, centre in network.centres.items():
        told_of = f"{len(centre.index)} batches for an index, {len(centre.kept)} bytes are kept"
        print(f"{name.decode()}: {told_of}", file=sys.stderr)


def main():
    if len(sys.argv) != 3:
        sys.exit(__doc__)
    with open(sys.argv[2], "rb") as script:
        run(Library(sys.argv[1]), script.read())


if __name__ == "__main__":
    main()
