"""A plain model of lists of requests, written from order 3 of document 02 alone, over the model of single requests; seeded lists on seeded benches; and a
text form of them, with what a program that plays them has to write.

A record of a list is (kind, first number, second number, answer), of any numbers from 0 on.

    python3 lists_model.py input|answers|sums [seed [count [kind bits]]]

writes seeded lists as text, what their calls answer, or the sums of what the calls leave.

The text has one thing a line, fields apart by one space, all numbers hexadecimal and of as many digits as shown:

    e                               the bench is empty
    t kkkkkkkk xxxxxxxx yyyyyyyy    a single request on the bench: kind and numbers; nothing is written for it
    p nn vv                         the parent of nn becomes vv: 00 for none, else one more than a number that need not be below 64
    s nn vv                         the state of nn becomes vv: 00 free, 01 running, 02 committed, 03 + h draining under h, above 66 (42) nothing
    r ii nn                         nn enters the read set of ii
    w ii nn                         nn enters the write set of ii
    l cccccccc                      a call with a list of so many records, which are the next so many lines:
    kkkkkkkk xxxxxxxx yyyyyyyy aa   kind, numbers, and what stands in the place for the answer before the call

A list goes on with the bench that the call before it left, unless `e` comes between. Bytes of parents and states are those of tests/expected_anything.py.
"""

import sys
from collections import namedtuple

from expected_anything import folded, parent_of, set_state, values_of
from model import ABORT, COMMIT, OPEN_SUB, OPEN_TOP, QUIET, READ, WRITE, Record, request

LONGEST = 32

KINDS = (OPEN_TOP, OPEN_SUB, READ, WRITE, COMMIT, ABORT, QUIET)
KINDS_OF_ONE_NUMBER = (OPEN_TOP, COMMIT, ABORT)

MALFORMED = 8
LIST_TOO_LONG = 11


def play_single(bench, kind, x, y):
    """The answer at a place and the next bench. Kind comes before all that the bench says; a spare number isn't looked at."""
    if kind not in KINDS:
        return MALFORMED, bench
    if kind in KINDS_OF_ONE_NUMBER:
        return request(bench, kind, x)
    return request(bench, kind, x, y)


def play_list(bench, records):
    """The call's answer, the list and the bench as they are then. What was given stays as it is."""
    if len(records) > LONGEST:
        return LIST_TOO_LONG, list(records), bench
    played = []
    for kind, x, y, _ in records:
        given, bench = play_single(bench, kind, x, y)
        played.append((kind, x, y, given))
    return 0, played, bench


# Seeded lists. What is drawn depends on the seed alone, never on a bench, and each draw stands on a line of its own.

Lent = namedtuple("Lent", "bench records")
Lent.__doc__ = """A list and the bench that it is played on: None for the one that the list before left, else a Bench."""

Bench = namedtuple("Bench", "trace changes")
Bench.__doc__ = """An empty bench that has played a trace of (kind, x, y), all of kinds 1 to 7, and has then been changed by (letter, byte, byte) as in the text."""


class Generator:
    """A linear congruential generator: a 64-bit word becomes 6364136223846793005 times itself plus 1442695040888963407, without what is above 64 bits; a draw
    takes this step first and is then the word's upper 31 bits, modulo the bound. The seed is the first word."""

    def __init__(self, seed):
        self.word = seed % 2 ** 64

    def below(self, bound):
        self.word = (self.word * 6364136223846793005 + 1442695040888963407) % 2 ** 64
        return self.word // 2 ** 33 % bound


SIZES = [*range(41), 1000]

NUMBERS = [3, 6, 12, 64]
INSTRUMENTS = [1, 2, 4, 128]

# Which requests a number below 32 stands for: those of a trace, and those of a list, where 0 is a kind outside 1 to 7.
TRACE_CHOICES = [OPEN_TOP] * 6 + [OPEN_SUB] * 8 + [READ] * 6 + [WRITE] * 6 + [COMMIT] * 2 + [ABORT] + [QUIET] * 3
LIST_CHOICES = [OPEN_TOP] * 5 + [OPEN_SUB] * 7 + [READ] * 5 + [WRITE] * 5 + [COMMIT] * 2 + [ABORT] * 2 + [QUIET] * 4 + [0] * 2

# Kinds outside 1 to 7 that a byte can hold: the edges, digits read as decimal or shifted, and a kind with a higher bit set.
OUTSIDE_BYTE = [0, 8, 9, 10, 15, 16, 17, 18, 32, 65, 129, 130, 133, 135, 254, 255]
# What else 32 bits can hold: most are a kind for a program that looks at 8, 16 or 31 of them.
OUTSIDE_WORD = [256, 257, 258, 259, 260, 261, 262, 263, 65535, 65537, 65542, 16777219, 2147483649, 2147483655, 4294967294, 4294967295]

# What makes a number a far one: it is one of the first eight, or the second eight are added to a near one.
EDGES = [63, 64, 127, 128, 255, 256, 2147483647, 4294967295]
ADDED = [64, 128, 192, 256, 65536, 16777216, 2147483648, 4294967040]


WAYS = 12


def changes_of(way, n, m, i, byte):
    """One of twelve ways to change a record. The first ten leave none sound, the others some; the byte is below 189."""
    letter = "wr"[byte % 2]
    return [
        [("s", n, 67 + byte)],                                   # a state that means nothing
        [("p", n, 65 + byte)],                                   # a parent above 63
        [("p", n, n + 1)],                                       # its own parent
        [("p", n, m + 1), ("p", m, n + 1)],                      # a ring of two
        [("s", n, 2), ("p", n, 0)],                              # a committed top
        [("s", n, 0), ("p", n, m + 1)],                          # a free number with a parent
        [("s", n, 0), (letter, i, n)],                           # a free number in a set
        [("s", n, 1), ("p", n, m + 1), ("s", m, byte % 2 * 2)],  # a running number under a free or a committed one
        [("s", n, 3 + m), ("s", m, byte % 3)],                   # a number that drains under one that doesn't
        [("s", n, 3 + m), ("s", m, 3 + n)],                      # two that drain under each other
        [("s", n, 3 + n)],                                       # a number drains under itself, in a set or in none
        [(letter, i, n), (letter, i, m)],                        # two numbers enter a set
    ][way]


class Drawer:
    """Draws requests of some numbers and some instruments, scattered over the table: place k of them is (k * stride + shift) modulo 64 or 128."""

    def __init__(self, generator, kind_bits):
        self.generator = generator
        self.outside = OUTSIDE_BYTE if kind_bits == 8 else OUTSIDE_BYTE + OUTSIDE_WORD
        self.numbers = NUMBERS[generator.below(4)]
        self.instruments = INSTRUMENTS[generator.below(4)]
        self.stride = generator.below(64) * 2 + 1
        self.shift = generator.below(128)

    def number(self, place):
        return (place * self.stride + self.shift) % 64

    def instrument(self, place):
        return (place * self.stride + self.shift) % 128

    def maybe_far(self, near, bound):
        """The near number or, in one case of the bound, a far one."""
        if self.generator.below(bound) != 0:
            return near
        way = self.generator.below(16)
        return EDGES[way] if way < 8 else (near + ADDED[way - 8]) % 4294967296

    def numbers_of(self, kind):
        """The two numbers; the second is an instrument for read, write and quiet, and a number else. A spare one is far in one case of two."""
        first = self.number(self.generator.below(self.numbers))
        first = self.maybe_far(first, 24)
        if kind in (READ, WRITE, QUIET):
            second = self.instrument(self.generator.below(self.instruments))
        else:
            second = self.number(self.generator.below(self.numbers))
        second = self.maybe_far(second, 2 if kind in KINDS_OF_ONE_NUMBER else 24)
        return first, second

    def trace(self):
        """First a forest, each parent at one of the `reach` places before its child, then up to 60 requests."""
        planted = self.generator.below(self.numbers + 1)
        reach = self.generator.below(4) + 1
        asked = []
        for place in range(planted):
            back = self.generator.below(reach) + 1
            if back > place:
                asked.append((OPEN_TOP, self.number(place), 0))
            else:
                asked.append((OPEN_SUB, self.number(place), self.number(place - back)))
        for _ in range(self.generator.below(61)):
            kind = TRACE_CHOICES[self.generator.below(32)]
            first, second = self.numbers_of(kind)
            asked.append((kind, first, second))
        return asked

    def changes(self):
        """A way to change a record, of two places that are never the same."""
        place = self.generator.below(self.numbers)
        other = (place + 1 + self.generator.below(self.numbers - 1)) % self.numbers
        i = self.instrument(self.generator.below(self.instruments))
        byte = self.generator.below(189)
        way = self.generator.below(WAYS)
        return changes_of(way, self.number(place), self.number(other), i, byte)

    def record(self):
        kind = LIST_CHOICES[self.generator.below(32)]
        if kind == 0:
            kind = self.outside[self.generator.below(len(self.outside))]
        first, second = self.numbers_of(kind)
        before = self.generator.below(12)
        return kind, first, second, before


def drawn_lists(seed, count, kind_bits=32):
    """Lists of all sizes in turn. In one case of three, and first of all, a list has a bench of its own, of which one in three is changed. With 8 kind bits
    no kind is above 255."""
    generator = Generator(seed)
    lists = []
    for turn in range(count):
        bench = None
        if generator.below(3) == 0 or turn == 0:
            drawer = Drawer(generator, kind_bits)
            trace = drawer.trace()
            bench = Bench(trace, drawer.changes() if generator.below(3) == 0 else [])
        lists.append(Lent(bench, [drawer.record() for _ in range(SIZES[turn % len(SIZES)])]))
    return lists


# Benches


def change(record, letter, at, value):
    """Does to a record what a line of the text says."""
    if letter == "p":
        record.parents[at] = parent_of(value)
    elif letter == "s":
        set_state(record, at, value)
    elif letter == "r":
        record.reads[at].add(value)
    else:
        record.writes[at].add(value)


def made_bench(bench):
    record = Record()
    for kind, x, y in bench.trace:
        _, record = play_single(record, kind, x, y)
    record = record.copy()
    for letter, at, value in bench.changes:
        change(record, letter, at, value)
    return record


def played(lists, player=play_list):
    """For each list the bench it finds, and what its call gives: answer, list and bench."""
    after = Record()
    for bench, records in lists:
        before = after if bench is None else made_bench(bench)
        call, given, after = player(before, records)
        yield before, call, given, after


# Text


def text_of(lists):
    lines = []
    for bench, records in lists:
        if bench is not None:
            lines.append("e")
            lines += ["t %08x %08x %08x" % asked for asked in bench.trace]
            lines += ["%s %02x %02x" % changed for changed in bench.changes]
        lines.append("l %08x" % len(records))
        lines += ["%08x %08x %08x %02x" % record for record in records]
    return "".join(line + "\n" for line in lines)


def lists_of(text):
    """The lists of a text that text_of wrote."""
    lists = []
    bench = None
    lines = iter(text.splitlines())
    for line in lines:
        letter, *fields = line.split(" ")
        values = tuple(int(field, 16) for field in fields)
        if letter == "e":
            bench = Bench([], [])
        elif letter == "t":
            bench.trace.append(values)
        elif letter == "l":
            records = [tuple(int(field, 16) for field in next(lines).split(" ")) for _ in range(values[0])]
            lists.append(Lent(bench, records))
            bench = None
        else:
            bench.changes.append((letter, *values))
    return lists


def answers_line(call, given):
    """The call's answer and, unless the list was too long, the answer at each place."""
    answers = [call] if call == LIST_TOO_LONG else [call] + [answer for *_, answer in given]
    return " ".join("%02x" % answer for answer in answers)


def answer_lines(lists, player=play_list):
    for _, call, given, _ in played(lists, player):
        yield answers_line(call, given) + "\n"


def expected(lists):
    """What a program that plays the lists has to write: a line for each of them."""
    return "".join(answer_lines(lists))


def sum_lines(lists, player=play_list):
    """For each call eight digits for all that it leaves: the sum, as tests/expected_anything.py folds it, of the call's answer, the four numbers of each record,
    and the bench."""
    for _, call, given, after in played(lists, player):
        yield "%08x\n" % folded(0, [call] + [number for record in given for number in record] + values_of(after))


def expected_sums(lists):
    """What a program has to write that writes sums instead: these see the rest of the list and the bench too."""
    return "".join(sum_lines(lists))


def main():
    writers = {"input": text_of, "answers": expected, "sums": expected_sums}
    what, *numbers = sys.argv[1:]
    seed, count, kind_bits = [int(number) for number in numbers] + [1, 840, 32][len(numbers):]
    sys.stdout.write(writers[what](drawn_lists(seed, count, kind_bits)))


if __name__ == "__main__":
    main()
