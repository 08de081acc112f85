"""A reader of saved texts, written from the rules alone.

load(text) gives the answer number of a load (0, 7 or 8) and, for 0, the bench that the text describes.
save(bench) writes a bench's text.
"""

from functools import lru_cache

NUMBERS = 64
INSTRUMENTS = 128
NO_PARENT = 0xFF
RUNNING = 1
COMMITTED = 2
DRAINING = 3
DIGITS = b"0123456789abcdef"

ACCEPTED = 0
UNSOUND = 7
MALFORMED = 8


class Malformed(Exception):
    """The text has a shape that no saved bench has."""


class Bench:
    """The numbers that aren't free, each with its state and with its parent or, if it drains, the aborted action; and the sets that aren't empty."""

    def __init__(self):
        self.actions = {}
        self.read_sets = {}
        self.write_sets = {}


def refuse_unless(shape_holds, clause):
    """Refuses the text, for the reason that the clause names."""
    if not shape_holds:
        raise Malformed(clause)


def lines_of(text):
    """The lines of a text, each ended by 0a, without that byte."""
    refuse_unless(not text.translate(None, DIGITS + b"\n"), "a byte is neither 0a nor a digit")
    if not text:
        return []
    refuse_unless(text[-1] == 0x0A, "the last 0a is missing")
    return text[:-1].split(b"\n")


@lru_cache(maxsize=4096)
def members(sixteen_digits):
    """The numbers in a set written as 16 digits with bit 63 leftmost."""
    found = set()
    for place, digit in enumerate(sixteen_digits):
        value = DIGITS.index(digit)
        top_bit = 63 - 4 * place
        for below_top, weight in enumerate((8, 4, 2, 1)):
            if value & weight:
                found.add(top_bit - below_top)
    return frozenset(found)


def byte_at(line, place):
    """The byte that two digits of a line write, counted in bytes from the left."""
    return 16 * DIGITS.index(line[2 * place]) + DIGITS.index(line[2 * place + 1])


def last(numbers_read):
    """The number read last, or one below all where none was read."""
    return next(reversed(numbers_read), -1)


def read_action(line, bench):
    """Takes a line 11 nn ss pp into the bench."""
    refuse_unless(len(line) == 8, "an 11 frame has another length")
    number, state, above = byte_at(line, 1), byte_at(line, 2), byte_at(line, 3)
    refuse_unless(number < NUMBERS, "nn is above 63")
    refuse_unless(state in (RUNNING, COMMITTED, DRAINING), "ss is none of 01, 02 and 03")
    refuse_unless(above < NUMBERS or above == NO_PARENT, "pp is neither below 64 nor ff")
    refuse_unless(not bench.read_sets, "an 11 frame stands after a 12 frame")
    refuse_unless(number > last(bench.actions), "action numbers do not rise")
    bench.actions[number] = (state, None if above == NO_PARENT else above)


def read_instrument(line, bench):
    """Takes a line 12 ii with its two sets into the bench."""
    refuse_unless(len(line) == 4 + 16 + 16, "a 12 frame has another length")
    instrument = byte_at(line, 1)
    refuse_unless(instrument < INSTRUMENTS, "ii is above 127")
    refuse_unless(instrument > last(bench.read_sets), "instruments do not rise")
    readers, writers = members(line[4:20]), members(line[20:36])
    refuse_unless(readers or writers, "both sets of a 12 frame are empty")
    bench.read_sets[instrument] = readers
    bench.write_sets[instrument] = writers


def bench_of(text):
    """The bench that a well-shaped text describes."""
    bench = Bench()
    for line in lines_of(text):
        if line.startswith(b"11"):
            read_action(line, bench)
        elif line.startswith(b"12"):
            read_instrument(line, bench)
        else:
            refuse_unless(False, "a line is neither an 11 frame nor a 12 frame")
    return bench


def in_the_tree(bench):
    """The numbers that don't drain, each with its state and parent: those that rules 1, 3 and 4 speak of."""
    return {number: (state, parent) for number, (state, parent) in bench.actions.items() if state != DRAINING}


def tops_run(bench):
    """Rule 1: a top action is running."""
    return all(state == RUNNING for state, parent in in_the_tree(bench).values() if parent is None)


def free_numbers_stand_nowhere(bench):
    """Rule 2: a free number stands in no set."""
    in_use = set(bench.actions)
    sets = list(bench.read_sets.values()) + list(bench.write_sets.values())
    return all(one_set <= in_use for one_set in sets)


def parents_lead_to_a_top(bench):
    """Rule 3: each parent isn't free, nor does it drain, and at most 63 steps from parent to parent reach a top action."""
    tree = in_the_tree(bench)
    for number in tree:
        here = number
        steps = 0
        while tree[here][1] is not None:
            here = tree[here][1]
            steps += 1
            if here not in tree or steps > 63:
                return False
    return True


def running_stand_under_running(bench):
    """Rule 4: a running action's parent, if any, is running."""
    for state, parent in bench.actions.values():
        if state == RUNNING and parent is not None:
            if parent not in bench.actions or bench.actions[parent][0] != RUNNING:
                return False
    return True


def draining_groups(bench):
    """The numbers that drain, together with those that drain under the same one."""
    groups = {}
    for number, (state, head) in bench.actions.items():
        if state == DRAINING:
            groups.setdefault(head, set()).add(number)
    return groups


def heads_drain_under_themselves(bench):
    """The aborted action that a number drains under is one, and drains under itself."""
    return all(head in numbers for head, numbers in draining_groups(bench).items())


def groups_stand_somewhere(bench):
    """Of all numbers that drain under one action, one stands in a set."""
    standing = frozenset().union(*bench.read_sets.values(), *bench.write_sets.values())
    return all(standing & numbers for numbers in draining_groups(bench).values())


SOUND_RULES = {
    "rule 1": tops_run,
    "rule 2": free_numbers_stand_nowhere,
    "rule 3": parents_lead_to_a_top,
    "rule 4": running_stand_under_running,
    "draining heads": heads_drain_under_themselves,
    "draining groups": groups_stand_somewhere,
}


def load(text):
    """The answer to a load of the text, and the loaded bench, which is empty unless the answer is 0."""
    try:
        bench = bench_of(text)
    except Malformed:
        return MALFORMED, Bench()
    if not all(rule(bench) for rule in SOUND_RULES.values()):
        return UNSOUND, Bench()
    return ACCEPTED, bench


@lru_cache(maxsize=4096)
def digits_of_set(numbers):
    """A set as 16 digits, bit 63 leftmost."""
    return "%016x" % sum(2**number for number in numbers)


def save(bench):
    """The text of a bench: its numbers that aren't free, then its instruments with a set that isn't empty."""
    lines = []
    for number in range(NUMBERS):
        if number in bench.actions:
            state, above = bench.actions[number]
            lines.append("11%02x%02x%02x\n" % (number, state, NO_PARENT if above is None else above))
    for instrument in range(INSTRUMENTS):
        readers = bench.read_sets.get(instrument, frozenset())
        writers = bench.write_sets.get(instrument, frozenset())
        if readers or writers:
            lines.append("12%02x%s%s\n" % (instrument, digits_of_set(readers), digits_of_set(writers)))
    return "".join(lines).encode("ascii")


def reload(text):
    """The answer to a load of the text, and for 0 the text saved again."""
    answer, bench = load(text)
    return answer, save(bench) if answer == ACCEPTED else None


def broken_by(text):
    """What a text is refused for: the clause that makes it malformed, or every rule of sound records that it breaks."""
    try:
        bench = bench_of(text)
    except Malformed as refusal:
        return [str(refusal)]
    return [name for name, rule in SOUND_RULES.items() if not rule(bench)]
