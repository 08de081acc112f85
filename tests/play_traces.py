"""Plays traces with the player and holds its answers to the plain machine's: seeded ones of every kind, every state of three actions and one instrument
with every request, lines that are nearly a frame, and input that comes in pieces. What is played is counted by what it is.

With --frees-at-once the player is one that frees an aborted action at once, so that no trace aborts an owner."""

import collections
import os
import random
import sys

import plain_model
import traces
from programs import Program, cut, cut_at_every_place

LINES = 10000
SEEDS = range(1, 4)
REFUSED_LINES = os.path.join(os.path.dirname(os.path.abspath(__file__)), "..", "traces", "refused_lines.hex")

SEEDED = "seeded"
WALK = "of the walk over every state of 3 actions and 1 instrument"
NEARLY = "around lines that are nearly a frame"
ENDS = "at ends of input"
IN_PIECES = "in pieces"


def data_of(text):
    """A trace's bytes."""
    return text.encode("latin-1")


def read_trace(path):
    with open(path, "rb") as file:
        return file.read().decode("latin-1")


def random_pieces(data, seed):
    """The data in pieces of random sizes."""
    sizes = random.Random(seed)
    pieces = []
    while data:
        size = sizes.choice([1, 2, 3, 5, 7, 100, 4096])
        pieces.append(data[:size])
        data = data[size:]
    return pieces


def first_difference(one, other):
    for n, (a, b) in enumerate(zip(one.split("\n"), other.split("\n"))):
        if a != b:
            return "line %d: '%s', the model '%s'" % (n + 1, a, b)
    return "lengths %d and %d" % (len(one), len(other))


def small_requests():
    """Every request on the numbers 0 to 2 and instrument 0."""
    lines = []
    for n in range(3):
        lines += ["01%02x" % n, "05%02x" % n, "06%02x" % n, "03%02x00" % n, "04%02x00" % n, "07%02x00" % n]
        lines += ["02%02x%02x" % (n, p) for p in range(3)]
    return lines


def signature(machine):
    return (tuple(sorted((k, tuple(v)) for k, v in machine.ancestors.items())), tuple(sorted(machine.running)),
            tuple(sorted((a, tuple(sorted(aborted))) for a, aborted in machine.draining.items())),
            tuple(sorted(machine.readers[0])), tuple(sorted(machine.writers[0])))


def reached(way):
    machine = plain_model.Plain()
    for line in way:
        machine.line(line)
    return machine


def small_states(requests):
    """A shortest way to every state that the requests reach."""
    ways = {signature(plain_model.Plain()): []}
    left = collections.deque([[]])
    while left:
        way = left.popleft()
        for line in requests(reached(way)):
            machine = reached(way + [line])
            if signature(machine) not in ways:
                ways[signature(machine)] = way + [line]
                left.append(way + [line])
    return list(ways.values())


def every_small_state(drains):
    """One trace: each state that three actions and one instrument reach, each request on it, and back to an empty bench."""
    def requests(machine):
        return [line for line in small_requests() if drains or not traces.begins_draining(machine, line)]

    made = traces.Said(drains)
    for way in small_states(requests):
        for line in requests(reached(way)):
            made.say(*way, line)
            made.free_all()
    return made.text()


def ends_of_input():
    """Input that ends without 0a behind each line of refused_lines.hex, and behind good ones; no input, and no characters."""
    yield from ["", "\n", "\n\n", "0101\n0501", "0101\n\n"]
    for line in read_trace(REFUSED_LINES).split("\n"):
        yield "0101\n" + line


class Held:
    """A program, the model that says what it has to write, whether what it aborts drains, and how many lines of which sort it was held to."""

    def __init__(self, path, model, drains=True):
        self.program = Program(path)
        self.model = model
        self.drains = drains
        self.counts = collections.Counter()
        self.answers = collections.Counter()
        self.failures = 0

    def compare(self, sort, name, written, expected):
        lines = expected.split("\n")[:-1]
        self.counts[sort] += len(lines)
        self.answers.update(line[:2] for line in lines)
        written = written.decode("latin-1")
        if written != expected:
            print("FAILED: %s: %s" % (name, first_difference(written, expected)))
            self.failures += 1

    def whole(self, sort, name, text):
        self.compare(sort, name, self.program.on(data_of(text)), self.model(text))

    def pieces(self, name, text, pieces):
        self.compare(IN_PIECES, name, self.program.on_pieces(pieces), self.model(text))

    def cut_everywhere(self, name, text):
        """A trace that ends with an empty bench, cut at every place."""
        expected = self.model(text)
        if self.model(text + text) != expected + expected:
            raise ValueError("%s does not end with an empty bench" % name)
        pieces = cut_at_every_place(data_of(text))
        self.compare(IN_PIECES, name, self.program.on_pieces(pieces), expected * len(text))

    def all(self, seeds):
        for kind in traces.KINDS:
            for seed in seeds:
                self.whole(SEEDED, "%s %d" % (kind, seed), traces.trace(kind, seed, LINES, self.drains))
        self.whole(WALK, "every state of 3 actions and 1 instrument", every_small_state(self.drains))
        for name, lines in traces.NEARLY_FRAMES.items():
            self.whole(NEARLY, name, traces.shown(lines(), self.drains))
        for text in ends_of_input():
            self.whole(ENDS, "end of input behind %r" % text, text)
        damaged = traces.trace("damaged", 9, 4000, self.drains)
        self.pieces("damaged trace in pieces", damaged, random_pieces(data_of(damaged), 9))
        refused = read_trace(REFUSED_LINES)
        self.pieces("refused lines byte by byte", refused, cut(data_of(refused), 1))
        self.cut_everywhere("refused lines cut at every place", refused)

    def conclude(self, name):
        """Says what was held, and ends."""
        spread = " ".join("%s:%d" % pair for pair in sorted(self.answers.items()))
        counts = ", ".join("%d lines %s" % (count, sort) for sort, count in self.counts.items())
        print("%s: %s: %d lines against the model (answers %s)" % ("ok" if self.failures == 0 else "FAILED", name, sum(self.counts.values()), spread))
        print("%s: %s: %s; %d failures" % ("ok" if self.failures == 0 else "FAILED", name, counts, self.failures))
        sys.exit(1 if self.failures else 0)


def main():
    held = Held(sys.argv[1], plain_model.play, drains=sys.argv[2:] != ["--frees-at-once"])
    held.all(SEEDS)
    held.conclude("player")


if __name__ == "__main__":
    main()
