"""Traces for the player: seeded ones, each of a kind that puts weight on one part of the rules, and lines that are nearly a frame.

A character of a trace is one byte: its code is the byte's value.
"""

import random
import re

from plain_model import Plain, lines_of

MALFORMED = ["", "0", "01", "0A01", "010", "0101\r", "01010101", "0001", "0701", "zz", "0 01", "0301", "01 01", "x" * 300]


def begins_draining(machine, line):
    """Whether a line aborts an action that owns something, by itself or through its descendants."""
    if not re.fullmatch("06[0-9a-f]{2}", line):
        return False
    a = int(line[2:], 16)
    return a in machine.running and machine.own_something(machine.with_descendants(a))


class Said:
    """Lines, and a plain machine that has played them. Where `drains` is false a line that begins draining is left out, so that the lines are also for a
    player that frees an aborted action at once."""

    def __init__(self, drains=True):
        self.machine = Plain()
        self.drains = drains
        self.lines = []

    def say(self, *lines):
        """Says the lines; one that has a byte 0a in it is two."""
        for line in (part for line in lines for part in line.split("\n")):
            if self.drains or not begins_draining(self.machine, line):
                self.machine.line(line)
                self.lines.append(line)

    def free_all(self):
        """Says what empties the bench: the deepest action commits until none runs, and what drains is quiet."""
        while self.machine.running:
            self.say("05%02x" % self.deepest())
        for a in sorted(self.machine.draining):
            self.say(*("07%02x%02x" % (a, i) for i in self.machine.instruments_of(a)))

    def deepest(self):
        return max(sorted(self.machine.running), key=lambda k: len(self.machine.ancestors[k]))

    def text(self, last_end="\n"):
        return "\n".join(self.lines) + last_end


class Trace(Said):
    """Seeded lines, of which most make sense to the machine."""

    def __init__(self, seed, numbers, instruments, drains):
        super().__init__(drains)
        self.random = random.Random(seed)
        self.numbers = numbers
        self.instruments = instruments

    def number(self):
        return self.random.randrange(self.numbers)

    def runner(self):
        running = sorted(self.machine.running)
        return self.random.choice(running) if running else self.number()

    def leaf(self):
        leaves = sorted(k for k in self.machine.running if not self.machine.has_running_child(k))
        return self.random.choice(leaves) if leaves else self.number()

    def low(self):
        return self.deepest() if self.machine.running else self.number()

    def quiet(self):
        """A draining owner loses one of its instruments."""
        if self.machine.draining:
            a = self.random.choice(sorted(self.machine.draining))
            self.say("07%02x%02x" % (a, self.random.choice(self.machine.instruments_of(a))))

    def quiet_elsewhere(self):
        """Quiet is said of a draining owner, of one that was aborted with it or of any number, and at an instrument of that owner or at any."""
        a, i = self.number(), self.random.randrange(self.instruments)
        if self.machine.draining:
            owner = self.random.choice(sorted(self.machine.draining))
            a = self.random.choice([owner, self.random.choice(sorted(self.machine.draining[owner])), a])
            i = self.random.choice([i, self.random.choice(self.machine.instruments_of(owner))])
        self.say("07%02x%02x" % (a, i))

    def step(self, weights, parent):
        kind = self.random.choices(range(11), weights)[0]
        if kind == 0:
            self.say("01%02x" % self.number())
        elif kind == 1:
            self.say("02%02x%02x" % (self.number(), parent()))
        elif kind in (2, 3):
            actor = self.leaf() if self.random.random() < 0.8 else self.runner()
            self.say("%02x%02x%02x" % (kind + 1, actor, self.random.randrange(self.instruments)))
        elif kind == 4:
            self.say("05%02x" % self.leaf())
        elif kind == 5:
            self.say("06%02x" % self.runner())
        elif kind == 6:
            self.say("05%02x" % self.runner())
        elif kind == 7:
            self.say(self.random.choice(MALFORMED))
        elif kind == 8:
            self.quiet()
        elif kind == 9:
            self.quiet_elsewhere()
        else:
            code = self.random.randrange(1, 8)
            numbers = [self.random.choice([0, 63, 64, 127, 128, 255, self.random.randrange(256)]) for _ in range(2)]
            self.say("%02x%02x" % (code, numbers[0]) if code in (1, 5, 6) else "%02x%02x%02x" % (code, *numbers))


# kind: numbers, instruments, weights of (top, sub, read, write, commit leaf, abort, commit any, malformed, quiet, quiet elsewhere, any numbers), and how
# a parent is chosen
KINDS = {
    "mixed": (64, 128, (6, 16, 34, 30, 10, 1, 1, 1, 12, 0, 1), Trace.runner),
    "shallow": (16, 20, (10, 10, 30, 30, 12, 4, 2, 1, 12, 1, 1), Trace.runner),
    "deep": (64, 30, (2, 30, 20, 20, 8, 1, 1, 1, 14, 1, 1), Trace.low),
    "siblings": (64, 12, (3, 25, 25, 25, 15, 2, 2, 1, 8, 1, 1), Trace.runner),
    "conflicts": (10, 2, (10, 15, 30, 30, 10, 3, 2, 1, 4, 1, 1), Trace.runner),
    "aborts": (40, 40, (5, 25, 20, 20, 20, 8, 2, 1, 20, 2, 1), Trace.runner),
    "numbers_again": (5, 6, (20, 20, 20, 20, 15, 10, 5, 2, 20, 5, 2), Trace.runner),
    "draining": (14, 8, (6, 20, 20, 20, 4, 10, 1, 1, 14, 8, 1), Trace.runner),
    "damaged": (20, 20, (10, 15, 20, 20, 10, 3, 2, 30, 6, 2, 30), Trace.runner),
}


def trace(kind, seed, lines, drains=True):
    numbers, instruments, weights, parent = KINDS[kind]
    made = Trace(seed, numbers, instruments, drains)
    while len(made.lines) < lines:
        made.step(weights, lambda: parent(made))
    return made.text("\n" if seed % 2 == 0 else "")


def without_draining(text):
    """A trace without its lines that begin draining."""
    made = Said(drains=False)
    made.say(*lines_of(text))
    return made.text("\n" if text.endswith("\n") else "")


# Lines that are nearly a frame: a bench on which each of these frames changes something, and lines that show what there is
START = ["0101", "020201", "040205", "0104", "040408", "0604"]
FRAMES = ["0103", "020302", "030206", "040207", "0502", "0602", "070408"]
SHOWING = ["030205", "030305", "040105", "020404", "0109", "040906", "040907", "040908"]


def shown(lines, drains=True):
    """A trace of the lines: each finds the bench of START, and what it leaves is shown before all is freed again."""
    made = Said(drains)
    for line in lines:
        made.say(*START, line, *SHOWING)
        made.free_all()
    return made.text()


def every_byte_at_every_place():
    """Each frame with each place changed to each byte, and each byte put in at each place."""
    for frame in FRAMES:
        for at in range(len(frame) + 1):
            for byte in map(chr, range(256)):
                yield frame[:at] + byte + frame[at:]
                if at < len(frame):
                    yield frame[:at] + byte + frame[at + 1:]


def every_code():
    """Each code with none, one, two and three numbers."""
    for code in range(256):
        for numbers in ("", "03", "0302", "0206", "0408", "020600"):
            yield "%02x%s" % (code, numbers)


def padded(lengths):
    """Each frame brought to each length with digits 0 behind it and before it, and behind it with itself over and over."""
    for frame in FRAMES:
        for length in lengths:
            if length > len(frame):
                yield frame.ljust(length, "0")
                yield frame.rjust(length, "0")
                yield (frame * length)[:length]


def every_length():
    """Up to 530 digits: a count of 8 bits that wraps takes 260 and 516 for 4, and 262 and 518 for 6."""
    return padded(range(531))


def thousands_of_digits():
    """Lengths that a count of 12 to 16 bits takes for a frame's, or that come close to a buffer's."""
    return padded([extra + size for extra in (4, 6) for size in (1024, 4096, 8184, 8192, 65536)])


def thousands_of_characters():
    """Long lines of other bytes, and frames in the middle of them."""
    for byte in "\0\r x\x80\xff":
        for length in (260, 8190, 8191, 8192, 8193, 65540):
            yield byte * length
            yield (byte * length)[4:] + "0103"
            yield "0103" + (byte * length)[4:]


NEARLY_FRAMES = {
    "every byte at every place": every_byte_at_every_place,
    "every code": every_code,
    "every length": every_length,
    "thousands of digits": thousands_of_digits,
    "thousands of characters": thousands_of_characters,
}
