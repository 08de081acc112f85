"""The traces that programs are held to: those of traces/ have the models' answers and reasons, the frames of traces.py change the bench that they find, and
the seeded traces come often enough to each case of draining."""

import collections
import glob
import os
import sys

import plain_model
import reasons_model
import traces

FOLDER = os.path.join(os.path.dirname(os.path.abspath(__file__)), "..", "traces")
LINES = 5000
OFTEN = 20

CASES = [
    "a subtree drains",
    "a subtree of several drains",
    "a subtree in no set is freed",
    "the parent of a draining one drains",
    "the parent of a draining one commits",
    "quiet, and more is left",
    "quiet, and all is free",
    "quiet when the parent has ended",
    "quiet at another instrument",
    "quiet of a member",
    "quiet of a running one",
    "quiet of another number",
    "opening a draining number",
    "opening under a draining number",
    "a draining number acts",
    "blocked by draining owners alone",
    "a number that drained is opened again",
]


def read(path):
    with open(path, "rb") as file:
        return file.read().decode("latin-1")


def failed_named():
    for path in sorted(glob.glob(os.path.join(FOLDER, "*.hex"))):
        text = read(path)
        for model, kind in ((plain_model.play, "answers"), (reasons_model.explain, "reasons")):
            if model(text) != read(path[:-len("hex")] + kind):
                yield f"{os.path.basename(path)}: other {kind} than the model's"


def failed_frames():
    """Each frame, with an empty line before it or behind it too, is accepted on the bench of START, and leaves nothing that isn't freed."""
    start = len(traces.START)
    for frame in traces.FRAMES:
        for line in (frame, "\n" + frame, frame + "\n"):
            machine = plain_model.Plain()
            answers = [machine.line(said) for said in plain_model.lines_of(traces.shown([line]))]
            accepted = answers[:start] == [0] * start and 0 in answers[start:start + line.count("\n") + 1]
            if not accepted or machine.ancestors or machine.draining:
                yield f"frame {line!r}: not accepted, or something is left"


class Followed:
    """A plain machine and what was seen of draining: whose child each draining owner was, and which numbers ever drained."""

    def __init__(self, seen):
        self.machine = plain_model.Plain()
        self.parents = {}
        self.drained = set()
        self.seen = seen

    def draining_children(self, a):
        return [head for head in self.machine.draining if self.parents[head] == a]

    def cases(self, code, a, other, answer, before):
        """The cases that a request has come to; `before` is the machine as it stood."""
        after = self.machine
        members = {k for aborted in before.draining.values() for k in aborted}
        if code in (1, 2) and answer == 3 and a in members:
            yield "opening a draining number"
        if code == 2 and answer == 4 and other in members:
            yield "opening under a draining number"
        if code in (1, 2) and answer == 0 and a in self.drained:
            yield "a number that drained is opened again"
        if code in (3, 4) and answer == 6 and self.blocked_by_draining(code, a, other):
            yield "blocked by draining owners alone"
        if code in (3, 4, 5, 6) and answer == 4 and a in members:
            yield "a draining number acts"
        if code == 5 and answer == 0 and self.draining_children(a):
            yield "the parent of a draining one commits"
        if code == 6 and answer == 0:
            yield "a subtree drains" if a in after.draining else "a subtree in no set is freed"
            if len(after.draining.get(a, ())) > 1:
                yield "a subtree of several drains"
            if a in after.draining and self.draining_children(a):
                yield "the parent of a draining one drains"
        if code == 7 and answer == 0:
            yield "quiet, and more is left" if a in after.draining else "quiet, and all is free"
            if self.parents[a] is not None and self.parents[a] not in after.running:
                yield "quiet when the parent has ended"
        if code == 7 and answer == 10:
            yield ("quiet at another instrument" if a in before.draining else "quiet of a member" if a in members
                   else "quiet of a running one" if a in before.running else "quiet of another number")

    def blocked_by_draining(self, code, a, i):
        owners = self.machine.writers[i] | self.machine.readers[i] if code == 4 else self.machine.writers[i]
        return all(h == a or h in self.machine.ancestors[a] or h in self.machine.draining for h in owners)

    def line(self, text):
        before = self.machine.copy()
        answer = self.machine.line(text)
        for a in set(self.machine.draining) - set(before.draining):
            self.parents[a] = next(iter(before.ancestors[a]), None)
            self.drained |= self.machine.draining[a]
        if answer != 8:
            code, a, *rest = (int(text[k:k + 2], 16) for k in range(0, len(text), 2))
            self.seen.update(self.cases(code, a, rest[0] if rest else None, answer, before))


def seen_in_seeded():
    seen = collections.Counter()
    for kind in traces.KINDS:
        followed = Followed(seen)
        for line in plain_model.lines_of(traces.trace(kind, 1, LINES)):
            followed.line(line)
    return seen


def main():
    failures = [*failed_named(), *failed_frames()]
    seen = seen_in_seeded()
    failures += [f"seeded traces: {case}: only {seen[case]} times" for case in CASES if seen[case] < OFTEN]
    for failure in failures:
        print(failure)
    if "--coverage" in sys.argv[1:]:
        print("\n".join(f"{seen[case]:6} {case}" for case in CASES))
    print(f"{len(glob.glob(os.path.join(FOLDER, '*.hex')))} named traces, {len(traces.FRAMES)} frames, {len(CASES)} cases of draining at least "
          f"{min(seen[case] for case in CASES)} times each in {LINES * len(traces.KINDS)} seeded lines, {len(failures)} failures")
    sys.exit(1 if failures else 0)


if __name__ == "__main__":
    main()
