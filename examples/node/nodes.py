"""Data centres as processes: each is the program of ndc_node_tool, driven by lines."""

import collections
import random
import re
import subprocess


class Node:
    """One process, and the name of its cluster."""

    def __init__(self, program, header, name, store=None):
        self.name = name
        self.frames = []
        self.learned = []
        words = [program, store] if store else [program]
        self.process = subprocess.Popen(words, stdin=subprocess.PIPE, stdout=subprocess.PIPE, stderr=subprocess.DEVNULL)
        self.process.stdin.write(f"{header}node {name}\n".encode())

    def line(self, text):
        """The lines that answer a line, without the last one, a dot. Frames to be sent and batches that became learned are kept aside."""
        self.process.stdin.write(text.encode() + b"\n")
        self.process.stdin.flush()
        answer = []
        while True:
            line = self.process.stdout.readline().decode()
            if not line:
                raise SystemExit(f"{self.name} ended, after: {text[:300]}")
            line = line.rstrip("\n")
            if line == ".":
                return answer
            if line.startswith("frame "):
                self.frames.append(line[6:])
            elif line.startswith("learned "):
                self.learned.append(line[8:])
            else:
                answer.append(line)

    def say(self, text):
        """The words of the first line of an answer, without the number of the line."""
        return self.line(text)[0].split(" ", 1)[1]

    def take_frames(self):
        frames, self.frames = self.frames, []
        return frames

    def close(self):
        self.process.stdin.close()
        return self.process.wait()


class Network:
    """Nodes, and the frames that are on their way between them."""

    def __init__(self, program, names, shards=2, limit=1000, increment=10, seed=1, stores=None):
        self.random = random.Random(seed)
        self.program = program
        self.stores = stores
        clusters = "".join(f"cluster {name} {number + 1}\n" for number, name in enumerate(names))
        self.header = f"ndc 1\nincrement {increment}\nshards {shards}\nlimit {limit}\n{clusters}"
        self.nodes = {}
        for name in names:
            self.start(name)
        self.flight = []
        self.heard = collections.Counter()

    def store(self, name):
        """The file in which a node keeps what it is told."""
        return f"{self.stores}/{name}" if self.stores else None

    def start(self, name):
        """A node begins, from its file where it has one. Frames that were on their way may still come."""
        self.nodes[name] = Node(self.program, self.header, name, self.store(name))

    def stop(self, name):
        """A node ends."""
        return self.nodes[name].close()

    def names(self):
        return list(self.nodes)

    def ask(self, name, to):
        """A node says what it would say to another one: the frames are on their way."""
        node = self.nodes[name]
        node.line(f"ask {to}")
        self.flight += [(to, frame, name) for frame in node.take_frames()]

    def hear(self, to, frame, sender):
        """A node hears a frame: its answers are on their way to who sent it."""
        node = self.nodes[to]
        kind = re.search(r'"kind":"(\w+)","to":"\w*"}$', frame)
        self.heard[kind and kind[1]] += 1
        answer = node.say(f"hear {frame}")
        self.flight += [(sender, text, to) for text in node.take_frames()]
        return answer

    def deliver(self, loss=0.0, repeat=0.0, shuffled=False):
        """All that is on its way comes, or is lost, or comes twice, in turn or in any order. What is answered is on its way then."""
        flight, self.flight = self.flight, []
        if shuffled:
            self.random.shuffle(flight)
        answers = []
        for to, frame, sender in flight:
            if self.random.random() < loss:
                continue
            answers.append(self.hear(to, frame, sender))
            if self.random.random() < repeat:
                answers.append(self.hear(to, frame, sender))
        return answers

    def round(self, **faults):
        """Each node asks each other one, and what is on its way comes, three times over."""
        for name in self.nodes:
            for to in self.nodes:
                if to != name:
                    self.ask(name, to)
        answers = []
        for _ in range(3):
            answers += self.deliver(**faults)
        return answers

    def settle(self, rounds=40):
        """Rounds without faults, with reapplication, until nothing is said that changes anything, and no node lacks something of its own."""
        for _ in range(rounds):
            before = [self.status(name) for name in self.nodes]
            self.round()
            for name in self.nodes:
                self.nodes[name].line("reapply")
            is_same = before == [self.status(name) for name in self.nodes]
            if is_same and not self.flight and not any(self.is_behind(name) for name in self.nodes):
                return True
        return False

    def status(self, name):
        return self.nodes[name].line("status")[1:]

    def is_behind(self, name):
        """Whether a node has found itself behind its past."""
        return "behind" in self.nodes[name].say("status")

    def dump(self, name, domain, workflow):
        return self.nodes[name].line(f"dump {domain} {workflow}")[1:]

    def close(self):
        return [node.close() for node in self.nodes.values()]
