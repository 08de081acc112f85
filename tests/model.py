"""A plain model of the bench lock table, written from document 01, and order 2 of document 02, alone: sets and loops, no words and no bytes.

A record may hold anything that a bench record can hold, so that refusals of unsound records can be played too. Requests have the numbers of
their trace codes.
"""

NUMBERS = 64
INSTRUMENTS = 128

FREE, RUNNING, COMMITTED, DRAINING = 0, 1, 2, 3

OPEN_TOP, OPEN_SUB, READ, WRITE, COMMIT, ABORT, QUIET = 1, 2, 3, 4, 5, 6, 7

ACCEPTED = 0
NUMBER_ABOVE_63 = 1
INSTRUMENT_ABOVE_127 = 2
NUMBER_NOT_FREE = 3
NOT_RUNNING = 4
RUNNING_CHILD = 5
NOT_GRANTED = 6
NOT_SOUND = 7
NOT_DRAINING = 10


class Record:
    """parents[n]: the parent's number, or None. states[n]: free, running, committed, draining, or a number that means nothing. heads[n]: the aborted
    action that a draining number drains under; None for all others. reads[i] and writes[i]: the sets of numbers of instrument i."""

    def __init__(self):
        self.parents = [None] * NUMBERS
        self.states = [FREE] * NUMBERS
        self.heads = [None] * NUMBERS
        self.reads = [set() for _ in range(INSTRUMENTS)]
        self.writes = [set() for _ in range(INSTRUMENTS)]

    def copy(self):
        other = Record()
        other.parents = list(self.parents)
        other.states = list(self.states)
        other.heads = list(self.heads)
        other.reads = [set(owners) for owners in self.reads]
        other.writes = [set(owners) for owners in self.writes]
        return other

    def __eq__(self, other):
        return (self.parents == other.parents and self.states == other.states and self.heads == other.heads
                and self.reads == other.reads and self.writes == other.writes)


# Sound records


def states_mean_something(record):
    return all(state in (FREE, RUNNING, COMMITTED, DRAINING) for state in record.states)


def in_any_set(record):
    """The numbers that stand in some set."""
    return set().union(*record.reads, *record.writes)


def tops_run(record):
    """Rule 1, of numbers that don't drain."""
    for n in range(NUMBERS):
        if record.states[n] == COMMITTED and record.parents[n] is None:
            return False
    return True


def free_numbers_are_bare(record):
    """Rule 2."""
    in_a_set = in_any_set(record)
    for n in range(NUMBERS):
        if record.states[n] == FREE and (record.parents[n] is not None or n in in_a_set):
            return False
    return True


def parents_are_in_use(record):
    """Rule 3, the parents themselves; none of them drains."""
    for parent in record.parents:
        if parent is not None:
            if not 0 <= parent < NUMBERS or record.states[parent] in (FREE, DRAINING):
                return False
    return True


def reaches_a_top(record, n):
    """Rule 3, the way up from n: at most 63 steps from parent to parent."""
    for _ in range(63):
        if record.parents[n] is None:
            return True
        n = record.parents[n]
    return record.parents[n] is None


def parents_of_running_run(record):
    """Rule 4."""
    for n in range(NUMBERS):
        parent = record.parents[n]
        if record.states[n] == RUNNING and parent is not None and record.states[parent] != RUNNING:
            return False
    return True


def draining_left_the_tree(record):
    """A draining number has no parent, and it alone has a head."""
    for n in range(NUMBERS):
        if record.states[n] == DRAINING and record.parents[n] is not None:
            return False
        if record.states[n] != DRAINING and record.heads[n] is not None:
            return False
    return True


def drains_under_itself(record, a):
    return record.states[a] == DRAINING and record.heads[a] == a


def heads_drain_under_themselves(record):
    for n in range(NUMBERS):
        if record.states[n] == DRAINING:
            head = record.heads[n]
            if head is None or not 0 <= head < NUMBERS or not drains_under_itself(record, head):
                return False
    return True


def group(record, a):
    """All numbers that drain under a."""
    return {n for n in range(NUMBERS) if record.states[n] == DRAINING and record.heads[n] == a}


def groups_stand_in_sets(record):
    """Of each group some number stands in some set."""
    in_a_set = in_any_set(record)
    return all(group(record, a) & in_a_set for a in range(NUMBERS) if drains_under_itself(record, a))


def sound(record):
    return (states_mean_something(record) and tops_run(record) and free_numbers_are_bare(record)
            and parents_are_in_use(record)
            and all(reaches_a_top(record, n) for n in range(NUMBERS))
            and parents_of_running_run(record)
            and draining_left_the_tree(record) and heads_drain_under_themselves(record) and groups_stand_in_sets(record))


# Actions and owners, on sound records


def ancestors(record, n):
    """The parent, its parent, and so on. n is not among them."""
    found = []
    while record.parents[n] is not None:
        n = record.parents[n]
        found.append(n)
    return found


def heir(record, n):
    """The nearest running one among n and its ancestors; of a draining number the aborted action."""
    if record.states[n] == DRAINING:
        return record.heads[n]
    for candidate in [n] + ancestors(record, n):
        if record.states[candidate] == RUNNING:
            return candidate
    raise ValueError("a number of a sound record has an heir")


def has_running_child(record, n):
    for child in range(NUMBERS):
        if record.parents[child] == n and record.states[child] == RUNNING:
            return True
    return False


def family(record, a):
    """a and all its descendants."""
    return {n for n in range(NUMBERS) if n == a or a in ancestors(record, n)}


def in_line(record, numbers, asker):
    """Whether the heir of each of the numbers is the asker or an ancestor of it."""
    line = [asker] + ancestors(record, asker)
    return all(heir(record, n) in line for n in numbers)


# Requests


def numbers_of(kind, x, y):
    """The action numbers that a request names."""
    if kind == OPEN_SUB:
        return [x, y]
    return [x]


def acting_number(kind, x, y):
    """The number that has to run, if any."""
    if kind in (OPEN_TOP, QUIET):
        return None
    if kind == OPEN_SUB:
        return y
    return x


def granted(record, kind, a, i):
    if kind == READ:
        return in_line(record, record.writes[i], a)
    return in_line(record, record.writes[i] | record.reads[i], a)


def answer(record, kind, x, y=None):
    if not sound(record):
        return NOT_SOUND
    if any(n > 63 for n in numbers_of(kind, x, y)):
        return NUMBER_ABOVE_63
    if kind in (READ, WRITE, QUIET) and y > 127:
        return INSTRUMENT_ABOVE_127
    if kind in (OPEN_TOP, OPEN_SUB) and record.states[x] != FREE:
        return NUMBER_NOT_FREE
    acting = acting_number(kind, x, y)
    if acting is not None and record.states[acting] != RUNNING:
        return NOT_RUNNING
    if kind in (READ, WRITE, COMMIT) and has_running_child(record, acting):
        return RUNNING_CHILD
    if kind in (READ, WRITE) and not granted(record, kind, x, y):
        return NOT_GRANTED
    if kind == QUIET and not (drains_under_itself(record, x) and group(record, x) & (record.reads[y] | record.writes[y])):
        return NOT_DRAINING
    return ACCEPTED


def free_all(record, numbers):
    """The numbers become free and leave all sets."""
    for n in numbers:
        record.states[n] = FREE
        record.parents[n] = None
        record.heads[n] = None
    for owners in record.reads + record.writes:
        owners -= numbers


def abort(record, a):
    """The numbers of a's subtree drain under a if any of them stands in any set; else they become free."""
    aborted = family(record, a)
    if not aborted & in_any_set(record):
        free_all(record, aborted)
        return
    for n in aborted:
        record.states[n] = DRAINING
        record.parents[n] = None
        record.heads[n] = a


def quiet(record, a, i):
    """All that drains under a leaves the sets of i, and becomes free when none of it is left in any set."""
    draining = group(record, a)
    record.reads[i] -= draining
    record.writes[i] -= draining
    if not draining & in_any_set(record):
        free_all(record, draining)


def change(record, kind, x, y):
    """What an accepted request does to the record."""
    if kind == OPEN_TOP:
        record.states[x] = RUNNING
        record.parents[x] = None
    elif kind == OPEN_SUB:
        record.states[x] = RUNNING
        record.parents[x] = y
    elif kind == READ:
        record.reads[y].add(x)
    elif kind == WRITE:
        record.writes[y].add(x)
    elif kind == COMMIT and record.parents[x] is not None:
        record.states[x] = COMMITTED
    elif kind == COMMIT:
        free_all(record, family(record, x))
    elif kind == ABORT:
        abort(record, x)
    else:
        quiet(record, x, y)


def request(record, kind, x, y=None):
    """The answer and the next record; a refused request hands back the record as it came."""
    given = answer(record, kind, x, y)
    if given != ACCEPTED:
        return given, record
    following = record.copy()
    change(following, kind, x, y)
    return given, following
