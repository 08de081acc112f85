"""The plain machine of document 01, and of order 2 in document 02, for playing traces: sets of running owners and of one draining owner for each abort.

Written from the paragraph on the plain machine and the tables of requests and answers, and not from the set form: an action keeps the list of its
ancestors from the moment it is opened; commit of a sub replaces it by its parent in every set; a top's commit takes out the top. Abort puts the aborted
action, as a draining owner, in the place of itself and its descendants; where they own nothing they are gone at once. What is quiet loses that owner, and
with its last set it and all that was aborted with it are gone.
"""

NUMBERS = 64
INSTRUMENTS = 128
DIGITS = "0123456789abcdef"


class Plain:
    def __init__(self):
        self.ancestors = {}  # of each running or committed number, the parent first
        self.running = set()
        self.draining = {}  # of each draining owner, the numbers that were aborted with it and that it keeps in use
        self.readers = [set() for _ in range(INSTRUMENTS)]
        self.writers = [set() for _ in range(INSTRUMENTS)]

    def copy(self):
        other = Plain()
        other.ancestors = dict(self.ancestors)
        other.running = set(self.running)
        other.draining = dict(self.draining)
        other.readers = [set(owners) for owners in self.readers]
        other.writers = [set(owners) for owners in self.writers]
        return other

    def has_running_child(self, a):
        return any(self.ancestors[k][:1] == [a] for k in self.running)

    def in_use(self, n):
        return n in self.ancestors or any(n in aborted for aborted in self.draining.values())

    def with_descendants(self, a):
        return {k for k in self.ancestors if k == a or a in self.ancestors[k]}

    def instruments_of(self, owner):
        return [i for i in range(INSTRUMENTS) if owner in self.readers[i] or owner in self.writers[i]]

    def own_something(self, actions):
        return not all(actions.isdisjoint(owners) for owners in self.readers + self.writers)

    def take_out(self, gone):
        for k in gone:
            del self.ancestors[k]
        self.running -= gone
        for owners in self.readers + self.writers:
            owners -= gone

    def open_top(self, n):
        if n >= NUMBERS:
            return 1
        if self.in_use(n):
            return 3
        self.ancestors[n] = []
        self.running.add(n)
        return 0

    def open_sub(self, n, p):
        if n >= NUMBERS or p >= NUMBERS:
            return 1
        if self.in_use(n):
            return 3
        if p not in self.running:
            return 4
        self.ancestors[n] = [p] + self.ancestors[p]
        self.running.add(n)
        return 0

    def ask(self, a, i, writing):
        if a >= NUMBERS:
            return 1
        if i >= INSTRUMENTS:
            return 2
        if a not in self.running:
            return 4
        if self.has_running_child(a):
            return 5
        conflicting = self.writers[i] | self.readers[i] if writing else self.writers[i]
        if not all(h == a or h in self.ancestors[a] for h in conflicting):
            return 6
        (self.writers if writing else self.readers)[i].add(a)
        return 0

    def commit(self, a):
        if a >= NUMBERS:
            return 1
        if a not in self.running:
            return 4
        if self.has_running_child(a):
            return 5
        if not self.ancestors[a]:
            self.take_out(self.with_descendants(a))
            return 0
        parent = self.ancestors[a][0]
        self.running.remove(a)
        for owners in self.readers + self.writers:
            if a in owners:
                owners.remove(a)
                owners.add(parent)
        return 0

    def abort(self, a):
        if a >= NUMBERS:
            return 1
        if a not in self.running:
            return 4
        aborted = self.with_descendants(a)
        left = [owners for owners in self.readers + self.writers if not aborted.isdisjoint(owners)]
        self.take_out(aborted)
        if left:
            self.draining[a] = aborted
        for owners in left:
            owners.add(a)
        return 0

    def quiet(self, a, i):
        if a >= NUMBERS:
            return 1
        if i >= INSTRUMENTS:
            return 2
        if a not in self.draining or a not in self.readers[i] | self.writers[i]:
            return 10
        self.readers[i].discard(a)
        self.writers[i].discard(a)
        if not self.own_something({a}):
            del self.draining[a]
        return 0

    def line(self, text):
        """The answer to one line, without its 0a."""
        if len(text) not in (4, 6) or any(c not in DIGITS for c in text):
            return 8
        code, *numbers = (int(text[k:k + 2], 16) for k in range(0, len(text), 2))
        if len(numbers) == 1:
            request = {1: self.open_top, 5: self.commit, 6: self.abort}.get(code)
        else:
            request = {2: self.open_sub, 3: lambda a, i: self.ask(a, i, False), 4: lambda a, i: self.ask(a, i, True), 7: self.quiet}.get(code)
        return 8 if request is None else request(*numbers)


def lines_of(trace):
    """The lines of a trace: the last may lack its 0a if it has at least one character."""
    lines = trace.split("\n")
    return lines[:-1] if lines[-1] == "" else lines


def play(trace):
    """What the player writes for a trace."""
    machine = Plain()
    return "".join("%02x\n" % machine.line(line) for line in lines_of(trace))
