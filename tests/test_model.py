"""The model on the sessions that document 01 marks (P) and on those of order 2, with the answers that the documents give them; on unsound records of each
rule; and beside the plain machine on every state that three actions and one instrument reach, with every request, each of them sound and saved as itself."""

import sys

import saved_model
from model import (ABORT, COMMIT, COMMITTED, DRAINING, FREE, OPEN_SUB, OPEN_TOP, QUIET, READ, RUNNING, WRITE, Record, heir, request, sound)
from plain_model import Plain


def top(n):
    return OPEN_TOP, n, None


def sub(n, p):
    return OPEN_SUB, n, p


def read(a, i):
    return READ, a, i


def write(a, i):
    return WRITE, a, i


def commit(a):
    return COMMIT, a, None


def abort(a):
    return ABORT, a, None


def quiet(a, i):
    return QUIET, a, i


# Each session starts from an empty bench: requests with their answers. Where the documents give none, the request is accepted.
SESSIONS = {
    "precedence": [(read(0, 0), 4), (read(0, 128), 2), (read(64, 128), 1)],
    "edge of numbers": [(top(63), 0), (top(64), 1)],
    "under itself": [(sub(7, 7), 4), (top(7), 0), (sub(7, 7), 3)],
    "two readers": [(top(1), 0), (top(9), 0), (read(1, 5), 0), (read(9, 5), 0), (write(1, 5), 6)],
    "edge of instruments": [(top(1), 0), (top(9), 0), (write(1, 127), 0), (write(9, 127), 6), (write(9, 128), 2)],
    "whole trace": [(top(1), 0), (sub(2, 1), 0), (sub(3, 1), 0), (write(2, 5), 0), (read(3, 5), 6), (commit(2), 0),
                    (read(3, 5), 0), (write(3, 5), 0), (commit(1), 5), (abort(3), 0), (write(1, 5), 6), (commit(1), 0),
                    (top(3), 3), (quiet(3, 5), 0), (top(3), 0)],
    "commit reaches nephews": [(top(1), 0), (sub(2, 1), 0), (sub(3, 1), 0), (sub(4, 3), 0), (write(2, 5), 0),
                               (write(4, 5), 6), (commit(2), 0), (write(4, 5), 0)],
    "no parent/child parallelism": [(top(1), 0), (sub(2, 1), 0), (read(1, 5), 5), (commit(1), 5), (abort(1), 0)],
    "abort keeps an ancestor's lock": [(top(1), 0), (write(1, 5), 0), (sub(2, 1), 0), (write(2, 5), 0), (abort(2), 0),
                                       (top(9), 0), (write(9, 5), 6)],
    "what a committed child took drains": [(top(1), 0), (sub(2, 1), 0), (sub(3, 2), 0), (write(3, 5), 0), (commit(3), 0),
                                           (abort(2), 0), (top(9), 0), (write(9, 5), 6), (quiet(2, 5), 0), (write(9, 5), 0)],
    "committed number stays in use": [(top(1), 0), (sub(2, 1), 0), (commit(2), 0), (top(2), 3), (commit(1), 0),
                                      (top(2), 0)],
    "what is in no set is freed": [(top(1), 0), (sub(2, 1), 0), (abort(1), 0), (top(1), 0), (top(2), 0)],
    "a subtree drains as one": [(top(1), 0), (sub(2, 1), 0), (sub(3, 1), 0), (write(2, 5), 0), (abort(1), 0), (top(3), 3),
                                (quiet(2, 5), 10), (quiet(1, 4), 10), (quiet(1, 5), 0), (top(3), 0), (top(2), 0), (top(1), 0)],
    "a drained child has left the tree": [(top(1), 0), (sub(2, 1), 0), (write(2, 5), 0), (abort(2), 0), (abort(1), 0), (top(1), 0),
                                          (quiet(2, 5), 0), (top(2), 0)],
    "a child drains, then its parent": [(top(1), 0), (sub(2, 1), 0), (write(2, 5), 0), (abort(2), 0), (read(1, 6), 0), (abort(1), 0),
                                        (quiet(1, 5), 10), (quiet(2, 6), 10), (quiet(1, 6), 0), (top(1), 0), (top(2), 3), (write(1, 5), 6),
                                        (quiet(2, 5), 0), (write(1, 5), 0)],
    "a commit leaves drained children": [(top(1), 0), (sub(2, 1), 0), (write(2, 5), 0), (abort(2), 0), (commit(1), 0), (top(2), 3),
                                         (quiet(2, 5), 0), (top(2), 0)],
    "an ancestor is blocked too": [(top(1), 0), (write(1, 5), 0), (sub(2, 1), 0), (write(2, 5), 0), (abort(2), 0), (write(1, 5), 6),
                                   (quiet(2, 5), 0), (write(1, 5), 0)],
    "a draining reader": [(top(1), 0), (read(1, 5), 0), (abort(1), 0), (top(2), 0), (read(2, 5), 0), (write(2, 5), 6)],
    "instrument by instrument": [(top(1), 0), (read(1, 5), 0), (write(1, 5), 0), (read(1, 127), 0), (abort(1), 0), (quiet(1, 5), 0),
                                 (quiet(1, 5), 10), (top(1), 3), (quiet(1, 127), 0), (quiet(1, 127), 10), (top(1), 0)],
    "precedence of quiet": [(quiet(0, 0), 10), (quiet(64, 128), 1), (quiet(0, 128), 2)],
    "a draining number is neither free nor running": [(top(1), 0), (sub(2, 1), 0), (read(2, 5), 0), (abort(1), 0), (top(2), 3), (sub(2, 1), 3),
                                                      (sub(3, 1), 4), (read(1, 5), 4), (write(2, 5), 4), (commit(1), 4), (abort(2), 4)],
    "nobody is quiet who runs or has committed": [(top(1), 0), (sub(2, 1), 0), (write(2, 5), 0), (quiet(2, 5), 10), (commit(2), 0),
                                                  (quiet(2, 5), 10), (quiet(1, 5), 10)],
    "parents of larger numbers": [(top(1), 0), (sub(9, 1), 0), (sub(3, 9), 0), (sub(5, 3), 0), (read(5, 7), 0), (abort(1), 0), (top(3), 3),
                                  (quiet(1, 7), 0), (top(9), 0)],
}


def answers_of(session):
    record = Record()
    given = []
    for (kind, x, y), _ in session:
        answer, record = request(record, kind, x, y)
        given.append(answer)
    return given


def changed(states=(), parents=(), heads=(), reads=(), writes=()):
    """A record with a running top 1, under it a running 2 and a committed 3, and then with these changes; a number with a head drains."""
    record = Record()
    for n, state in [(1, RUNNING), (2, RUNNING), (3, COMMITTED)] + list(states):
        record.states[n] = state
    for n, parent in [(2, 1), (3, 1)] + list(parents):
        record.parents[n] = parent
    for n, head in heads:
        record.states[n] = DRAINING
        record.heads[n] = head
    for i, n in reads:
        record.reads[i].add(n)
    for i, n in writes:
        record.writes[i].add(n)
    return record


UNSOUND = {
    "a state 4": changed(states=[(10, 4)]),
    "a state 255": changed(states=[(10, 255)]),
    "a parent 64": changed(states=[(10, RUNNING)], parents=[(10, 64)]),
    "a parent 254": changed(states=[(10, RUNNING)], parents=[(10, 254)]),
    "a committed top": changed(states=[(10, COMMITTED)]),
    "a free number with a parent": changed(parents=[(10, 1)]),
    "a free number in a read set": changed(reads=[(0, 10)]),
    "a free number in a write set": changed(writes=[(127, 63)]),
    "a parent that is free": changed(states=[(10, RUNNING)], parents=[(10, 11)]),
    "a ring of two": changed(states=[(10, RUNNING), (11, RUNNING)], parents=[(10, 11), (11, 10)]),
    "its own parent": changed(states=[(63, RUNNING)], parents=[(63, 63)]),
    "a running one under a committed one": changed(states=[(10, RUNNING)], parents=[(10, 3)]),
    "a ring of all": changed(states=[(n, RUNNING) for n in range(64)], parents=[(n, (n + 1) % 64) for n in range(64)]),
    "draining under nobody": changed(states=[(10, DRAINING)], writes=[(5, 10)]),
    "draining in no set": changed(heads=[(10, 10)]),
    "a group in no set beside one in a set": changed(heads=[(10, 10), (11, 10), (20, 20)], writes=[(5, 20)]),
    "draining under a free number": changed(heads=[(10, 11)], writes=[(5, 10)]),
    "draining under a running number": changed(heads=[(10, 1)], writes=[(5, 10)]),
    "draining under a committed number": changed(heads=[(10, 3)], writes=[(5, 10)]),
    "draining under one that drains under another": changed(heads=[(10, 11), (11, 12), (12, 12)], writes=[(5, 10), (5, 12)]),
    "two that drain under each other": changed(heads=[(10, 11), (11, 10)], writes=[(5, 10), (5, 11)]),
    "draining under 64": changed(heads=[(10, 64)], writes=[(5, 10)]),
    "a draining number with a parent": changed(heads=[(10, 10)], parents=[(10, 1)], writes=[(5, 10)]),
    "a running number under a draining one": changed(heads=[(10, 10)], states=[(11, RUNNING)], parents=[(11, 10)], writes=[(5, 10)]),
    "a committed number under a draining one": changed(heads=[(10, 10)], states=[(11, COMMITTED)], parents=[(11, 10)], writes=[(5, 10)]),
}

SOUND = {
    "an empty bench": Record(),
    "a top and two subs": changed(),
    "a chain of all": changed(states=[(n, RUNNING) for n in range(64)],
                              parents=[(n, n + 1) for n in range(63)]),
    "two tops in one write set": changed(states=[(9, RUNNING)], writes=[(5, 1), (5, 9)]),
    "draining": changed(heads=[(10, 10)], reads=[(5, 10)]),
    "a member in a set and its head in none": changed(heads=[(10, 11), (11, 11)], writes=[(127, 10)]),
    "two groups at one instrument": changed(heads=[(10, 11), (11, 11), (63, 63)], writes=[(5, 11), (5, 63)]),
    "all drain under 0": changed(heads=[(n, 0) for n in range(64)], parents=[(2, None), (3, None)], reads=[(0, 63)]),
}

ALL_KINDS = [top(20), sub(21, 2), read(2, 7), write(2, 7), commit(2), abort(1), quiet(10, 5)]


def refuses_all(record):
    before = record.copy()
    replies = [request(record, kind, x, y) for kind, x, y in ALL_KINDS]
    return all(answer == 7 and after is record for answer, after in replies) and record == before


# Every state that three actions and one instrument reach

SMALL = range(3)
SMALL_REQUESTS = [asked for n in SMALL for asked in [top(n), *(sub(n, p) for p in SMALL), read(n, 0), write(n, 0), commit(n), abort(n), quiet(n, 0)]]


def asked_of(machine, kind, x, y):
    """What the plain machine answers, asked by a trace line."""
    return machine.line(f"{kind:02x}{x:02x}" + ("" if y is None else f"{y:02x}"))


def says_the_same(machine, record):
    """The plain machine has the same numbers in use, running and draining as the record, and its owners are the heirs of the record's."""
    in_use = {n for n, state in enumerate(record.states) if state != FREE}
    running = {n for n in in_use if record.states[n] == RUNNING}
    draining = {a: {n for n in in_use if record.heads[n] == a} for a in in_use if record.heads[a] == a}
    owners = [{heir(record, n) for n in numbers} if numbers else numbers for numbers in record.reads + record.writes]
    return (in_use == set(machine.ancestors).union(*machine.draining.values()) and running == machine.running and draining == machine.draining
            and owners == machine.readers + machine.writers)


def saved_as_itself(record):
    text = saved_model.text_of(record)
    return saved_model.load(text) == (0, record) and saved_model.save(record, len(text)) == (0, text)


def signature(record):
    return tuple(record.parents), tuple(record.states), tuple(record.heads), frozenset(record.reads[0]), frozenset(record.writes[0])


def walk():
    """Goes to every state, nearest first, and asks every request there: how many states and requests there are, and what failed."""
    seen = {signature(Record())}
    left = [(Record(), Plain())]
    requests, failed = 0, []
    for record, machine in left:
        if not sound(record) or not saved_as_itself(record):
            failed.append(f"state {saved_model.text_of(record)}: unsound, or saved as another")
        for kind, x, y in SMALL_REQUESTS:
            answer, after = request(record, kind, x, y)
            following = machine.copy()
            requests += 1
            if asked_of(following, kind, x, y) != answer or not says_the_same(following, after):
                failed.append(f"state {saved_model.text_of(record)}, request {kind} {x} {y}: the plain machine says something else than {answer}")
            if signature(after) not in seen:
                seen.add(signature(after))
                left.append((after, following))
    return len(seen), requests, failed


def main():
    failures = 0
    for name, session in SESSIONS.items():
        expected = [answer for _, answer in session]
        if answers_of(session) != expected:
            failures += 1
            print(f"session {name}: expected {expected}, the model gives {answers_of(session)}")
    for name, record in UNSOUND.items():
        if sound(record) or not refuses_all(record):
            failures += 1
            print(f"unsound record, {name}: not refused")
    for name, record in SOUND.items():
        if not sound(record):
            failures += 1
            print(f"sound record, {name}: not taken")
    states, requests, failed = walk()
    failures += len(failed)
    for failure in failed[:3]:
        print(failure)
    print(f"{len(SESSIONS)} sessions, {len(UNSOUND)} unsound and {len(SOUND)} sound records, {requests} requests on the {states} states of three actions and "
          f"one instrument beside the plain machine, {failures} failures")
    sys.exit(1 if failures else 0)


if __name__ == "__main__":
    main()
