"""Holds the program `reload` to the reader of reload_model.py: the answer, and for an accepted text the text saved again, exactly.

Good texts, texts that break each rule of sound records, texts of every other shape, and the longest text with every place damaged. Each group of texts
names the answer that the document gives to it, so that the reader is held to the document too; the reader and writer of saved_model.py have to agree.
"""

import collections
import random
import sys

import model
import reload_model
import saved_model
from programs import Program, cut

GOOD, UNSOUND, MALFORMED = 0, 7, 8
NUMBERS = range(64)
INSTRUMENTS = range(128)
RUNNING, COMMITTED, DRAINING = 1, 2, 3
TOP = 0xff
DIGITS = "0123456789abcdef"


def action(number, state, parent):
    return "11%02x%02x%02x\n" % (number, state, parent)


def instrument(number, readers, writers):
    """The line of an instrument with the sets of these numbers."""
    return "12%02x%016x%016x\n" % (number, sum(1 << n for n in readers), sum(1 << n for n in writers))


def tops(numbers):
    return "".join(action(n, RUNNING, TOP) for n in numbers)


def family(parents, state=RUNNING):
    """Actions that all have this state, with their parents by number."""
    return "".join(action(n, state, parents[n]) for n in sorted(parents))


def group(head, numbers):
    """Numbers that drain under a head."""
    return "".join(action(n, DRAINING, head) for n in numbers)


def chain(numbers, first_parent):
    """Parents by number: each number stands under the one before it in the list."""
    return dict(zip(numbers, [first_parent] + list(numbers[:-1])))


ALL_TOPS = tops(NUMBERS)
ALL_INSTRUMENTS = "".join(instrument(i, NUMBERS, NUMBERS) for i in INSTRUMENTS)
# Tops, numbers that drain under 61 and numbers that drain under 62, in turn.
LONGEST = "".join(action(n, DRAINING, n % 3 + 60) if n % 3 else action(n, RUNNING, TOP) for n in NUMBERS) + ALL_INSTRUMENTS
TOP_1 = action(1, RUNNING, TOP)
SHORT = TOP_1 + action(2, RUNNING, 1) + action(3, DRAINING, 3) + instrument(5, [1, 2], [2, 3])


# Good texts


def good_edges():
    """Every number, parent and instrument once at least, longest chains, and the longest text."""
    yield ""
    yield ALL_TOPS
    yield ALL_TOPS + ALL_INSTRUMENTS
    yield LONGEST
    yield SHORT
    for n in NUMBERS:
        other = (n * 37 + 5) % 64
        yield tops([n])
        yield group(n, [n]) + instrument(n, [n], [])
        yield group(n, NUMBERS) + instrument(n, [], [other])
        yield group(n, NUMBERS) + ALL_INSTRUMENTS
        if other != n:
            for state in (RUNNING, COMMITTED):
                yield "".join(sorted([action(n, RUNNING, TOP), action(other, state, n)]))
            for standing in (n, other):
                yield "".join(sorted([action(n, DRAINING, n), action(other, DRAINING, n)])) + instrument(64 + n, [], [standing])
            yield "".join(sorted([action(n, DRAINING, n), action(other, RUNNING, TOP)])) + instrument(64 + n, [n], [other])
        yield tops([n]) + instrument(n, [n], [])
        yield tops([n]) + instrument(64 + n, [], [n])
    for i in INSTRUMENTS:
        yield ALL_TOPS + instrument(i, NUMBERS, [])
        yield ALL_TOPS + instrument(i, [], NUMBERS)
    for order in (list(NUMBERS), list(NUMBERS)[::-1]):
        deep = chain(order, TOP)
        yield family(deep)
        yield "".join(action(n, RUNNING if n == order[0] else COMMITTED, deep[n]) for n in NUMBERS)
        yield family(deep) + ALL_INSTRUMENTS


def some_of(chance, numbers):
    share = chance.random()
    return [n for n in numbers if chance.random() < share]


def forest(chance, order):
    """States and parents by number: nothing runs under a committed one."""
    lone = chance.random()
    states, parents = {}, {}
    for at, n in enumerate(order):
        if at == 0 or chance.random() < lone:
            parents[n], states[n] = TOP, RUNNING
        else:
            parents[n] = chance.choice(order[:at])
            states[n] = COMMITTED if states[parents[n]] == COMMITTED else chance.choice([RUNNING, COMMITTED])
    return states, parents


def draining(chance, numbers):
    """The heads of some of the numbers, by number: each drains under itself or under one that was chosen before it."""
    heads = {}
    for n in some_of(chance, chance.sample(numbers, len(numbers))):
        firsts = sorted(set(heads.values()))
        heads[n] = chance.choice(firsts) if firsts and chance.random() < 0.7 else n
    return heads


def sound_bench(chance):
    """A text of a random sound bench: a forest, and groups that drain, of each of which one number stands in a set."""
    order = chance.sample(NUMBERS, chance.randrange(65))
    states, parents = forest(chance, order)
    heads = draining(chance, [n for n in NUMBERS if n not in states])
    order += heads
    readers = {i: set(some_of(chance, order)) for i in some_of(chance, INSTRUMENTS)}
    writers = {i: set(some_of(chance, order)) for i in some_of(chance, INSTRUMENTS)}
    for head in sorted(set(heads.values())):
        member = chance.choice([n for n in heads if heads[n] == head])
        chance.choice([readers, writers]).setdefault(chance.choice(INSTRUMENTS), set()).add(member)
    lines = [action(n, DRAINING, heads[n]) if n in heads else action(n, states[n], parents[n]) for n in sorted(order)]
    for i in INSTRUMENTS:
        if readers.get(i) or writers.get(i):
            lines.append(instrument(i, readers.get(i, ()), writers.get(i, ())))
    return "".join(lines)


def sound_benches(count):
    chance = random.Random(1)
    return [sound_bench(chance) for _ in range(count)]


def benches_after_requests(count):
    """Texts of benches that random requests lead to."""
    chance = random.Random(2)
    for _ in range(count):
        record = model.Record()
        for _ in range(chance.randrange(120)):
            kind = chance.choice([1, 2, 2, 2, 3, 3, 4, 4, 5, 6, 7])
            _, record = model.request(record, kind, chance.randrange(12), chance.randrange(12))
        yield saved_model.text_of(record).decode()


# Texts that break a rule of sound records


def committed_tops():
    for n in NUMBERS:
        yield action(n, COMMITTED, TOP)
        yield tops(range(n)) + action(n, COMMITTED, TOP) + tops(range(n + 1, 64))


def free_numbers_in_sets():
    for n in NUMBERS:
        others = [k for k in NUMBERS if k != n]
        for readers, writers in (([n], []), ([], [n]), (NUMBERS, others), (others, NUMBERS)):
            yield tops(others) + instrument(n, readers, writers)
    for i in INSTRUMENTS:
        yield TOP_1 + instrument(i, [1, 7], [1])
        yield TOP_1 + instrument(i, [1], [1, 7])
        yield instrument(i, [0], [])


def free_parents():
    for n in NUMBERS:
        free = (n + 1) % 64
        for state in (RUNNING, COMMITTED):
            yield action(n, state, free)
            yield "".join(action(k, state, free) if k == n else action(k, RUNNING, TOP) for k in NUMBERS if k != free)


def rings():
    """Own parents, rings of every length, rings with a way into them and beside sound actions, running and committed."""
    for state in (RUNNING, COMMITTED):
        for n in NUMBERS:
            yield action(n, state, n)
            yield "".join(action(k, state, n) if k == n else action(k, RUNNING, TOP) for k in NUMBERS)
            yield family(chain([n, (n + 1) % 64], (n + 1) % 64), state)
        for length in range(1, 65):
            ring = list(range(64 - length, 64))
            yield family(chain(ring, ring[-1]), state)
            yield tops(range(64 - length)) + family(chain(ring, ring[-1]), state)
            way = list(range(64 - length))
            yield family({**chain(way, 63), **chain(ring, ring[-1])}, state)


def running_under_committed():
    for n in NUMBERS:
        above, top = (n + 21) % 64, (n + 42) % 64
        lines = [action(top, RUNNING, TOP), action(above, COMMITTED, top), action(n, RUNNING, above)]
        yield "".join(sorted(lines))
        yield "".join(sorted([action(above, COMMITTED, TOP), action(n, RUNNING, above)]))
        deep = chain(list(NUMBERS), TOP)
        if 0 < n < 63:
            yield "".join(action(k, COMMITTED if k == n else RUNNING, deep[k]) for k in NUMBERS)


def under_draining():
    """A running and a committed number under one that drains."""
    for n in NUMBERS:
        other = (n + 13) % 64
        for state in (RUNNING, COMMITTED):
            yield "".join(sorted([action(n, DRAINING, n), action(other, state, n)])) + instrument(5, [n], [other])


def other_heads():
    """Draining under nobody, or under a number that is free, runs, has committed or drains under another; two that drain under each other."""
    for n in NUMBERS:
        other, third = (n + 21) % 64, (n + 42) % 64
        standing = instrument(n, [n], [])
        yield action(n, DRAINING, TOP) + standing
        yield action(n, DRAINING, other) + standing
        for lines in (
            [action(other, RUNNING, TOP)],
            [action(third, RUNNING, TOP), action(other, COMMITTED, third)],
            [action(other, DRAINING, n)],
            [action(other, DRAINING, third), action(third, DRAINING, third)],
        ):
            numbers = [int(line[2:4], 16) for line in lines]
            yield "".join(sorted(lines + [action(n, DRAINING, other)])) + instrument(n, [n], numbers)


def groups_in_no_set():
    """Groups of one, of two and of all, and one in no set beside others that stand in sets."""
    for n in NUMBERS:
        other = (n + 1) % 64
        yield group(n, [n])
        yield group(n, sorted([n, other]))
        yield group(n, NUMBERS)
        yield "".join(action(k, DRAINING, k) for k in NUMBERS) + instrument(n, [k for k in NUMBERS if k != n], [other])
        yield "".join(action(k, DRAINING, n) if k == n else action(k, RUNNING, TOP) for k in NUMBERS) + instrument(n, [other], [])


UNSOUND_KINDS = [
    ("committed top", "rule 1", committed_tops),
    ("free number in a set", "rule 2", free_numbers_in_sets),
    ("free parent", "rule 3", free_parents),
    ("ring or own parent", "rule 3", rings),
    ("running under committed", "rule 4", running_under_committed),
    ("running or committed under draining", "rule 3", under_draining),
    ("draining under no head", "draining heads", other_heads),
    ("draining in no set", "draining groups", groups_in_no_set),
]


# Texts of another shape: each clause of the document's sentence


def other_bytes():
    """Every byte but 0a and the digits, in an action's and an instrument's frame."""
    for byte in range(256):
        if byte != 0x0a and chr(byte) not in DIGITS:
            for at in (0, byte % 8, 8, len(SHORT) - 37 + byte % 36, len(SHORT) - 1):
                yield SHORT[:at] + chr(byte) + SHORT[at + 1:]
            yield SHORT + chr(byte)
            yield chr(byte)
    for wrong in ("110101FF\n", "110101fF\n", "113F01ff\n", TOP_1[:-1] + "\r\n"):
        yield wrong


def other_lengths(line):
    """A frame of every other length up to 80 digits, and of lengths that a count of 8 bits, or of 12, takes for the right one; two frames on one line."""
    frame = line[:-1]
    code, rest = frame[:2], frame[2:]
    before = TOP_1 if code == "12" else ""
    for length in list(range(2, 81)) + [len(frame) + wrap for wrap in (256, 512, 4096)]:
        if length != len(frame):
            yield before + frame[:length].ljust(length, "0") + "\n"
            yield before + code + rest[:length - 2].rjust(length - 2, "0") + "\n"
    yield frame + action(2, RUNNING, TOP)
    yield frame + line


def numbers_above_63():
    for n in range(64, 256):
        yield action(n, RUNNING, TOP)
        yield TOP_1 + action(n, RUNNING, 1)


def instruments_above_127():
    for i in range(128, 256):
        yield TOP_1 + instrument(i, [1], [])


def other_parents():
    for parent in range(64, 255):
        yield action(1, RUNNING, parent)
        yield TOP_1 + action(2, COMMITTED, parent)
        yield action(1, DRAINING, parent) + instrument(5, [1], [])


def other_states():
    for state in range(256):
        if state not in (RUNNING, COMMITTED, DRAINING):
            yield action(1, state, TOP)
            yield TOP_1 + action(2, state, 1)
            yield action(1, state, 1) + instrument(5, [1], [])


def other_codes():
    for code in range(256):
        if code not in (0x11, 0x12):
            yield "%02x0101ff\n" % code
            yield TOP_1 + "%02x" % code + instrument(5, [1], [])[2:]
            yield "%02x01\n" % code
    yield "\n"
    yield "\n\n"
    yield "\n" + TOP_1
    yield TOP_1 + "\n"
    yield TOP_1 + "\n" + action(2, RUNNING, 1)
    yield "1\n"


def actions_behind_instruments():
    for n in NUMBERS:
        if n != 1:
            yield TOP_1 + instrument(5, [1], []) + action(n, RUNNING, TOP)
        yield instrument(5, [n], []) + action(n, RUNNING, TOP)
    yield LONGEST + TOP_1


def actions_out_of_order():
    for n in NUMBERS:
        yield tops([n, n])
        yield tops(NUMBERS[:n + 1]) + action(n, RUNNING, TOP)
        for lower in {0, n // 2, n - 1}:
            if 0 <= lower < n:
                yield tops([n, lower])


def instruments_out_of_order():
    for i in INSTRUMENTS:
        line = instrument(i, [1], [])
        yield TOP_1 + line + line
        yield TOP_1 + line + instrument(i, [], [1])
        for lower in {0, i // 2, i - 1}:
            if 0 <= lower < i:
                yield TOP_1 + line + instrument(lower, [1], [])


def empty_sets():
    for i in INSTRUMENTS:
        yield TOP_1 + instrument(i, [], [])
        yield instrument(i, [], [])


def missing_ends():
    yield LONGEST[:-1]
    yield "1"
    for text in sound_benches(100):
        if text:
            yield text[:-1]
            yield text + "0"
            yield text + TOP_1[:-1]


def malformed_and_unsound():
    """Both malformed and unsound: 8 comes first, wherever the malformed line stands."""
    for unsound in (action(1, COMMITTED, TOP), action(1, RUNNING, 1), action(1, RUNNING, 2), TOP_1 + instrument(5, [2], [])):
        for wrong in ("\n", "0\n", action(0, 4, TOP), action(64, RUNNING, TOP), instrument(128, [1], []), "x"):
            yield unsound + wrong
            yield wrong + unsound


def too_long():
    """One byte more than the longest text, and more than that."""
    for byte in range(256):
        yield LONGEST + chr(byte)
    for more in ("\n" * 2, TOP_1, LONGEST, "0" * 100000, "\n" * 100000, LONGEST * 20):
        yield LONGEST + more


MALFORMED_KINDS = [
    ("other byte", "a byte is neither 0a nor a digit", other_bytes),
    ("other length of an 11 frame", "an 11 frame has another length", lambda: other_lengths(TOP_1)),
    ("other length of a 12 frame", "a 12 frame has another length", lambda: other_lengths(instrument(5, [1], [1]))),
    ("number above 63", "nn is above 63", numbers_above_63),
    ("instrument above 127", "ii is above 127", instruments_above_127),
    ("other parent", "pp is neither below 64 nor ff", other_parents),
    ("other state", "ss is none of 01, 02 and 03", other_states),
    ("other code", "a line is neither an 11 frame nor a 12 frame", other_codes),
    ("11 after 12", "an 11 frame stands after a 12 frame", actions_behind_instruments),
    ("actions out of order", "action numbers do not rise", actions_out_of_order),
    ("instruments out of order", "instruments do not rise", instruments_out_of_order),
    ("both sets empty", "both sets of a 12 frame are empty", empty_sets),
    ("no last 0a", "the last 0a is missing", missing_ends),
    ("malformed and unsound", None, malformed_and_unsound),
    ("too long", None, too_long),
]


# Damaged texts


def changed(text, at, byte):
    return text[:at] + chr(byte) + text[at + 1:]


def next_digit(character):
    """The digit one above; 0 for f and for a line's end."""
    return ord(DIGITS[(DIGITS.find(character) + 1) % 16])


def longest_damaged():
    """The longest text with each of its places changed twice: to the next digit, and to a seeded byte that is no digit."""
    chance = random.Random(3)
    others = [byte for byte in range(256) if chr(byte) not in DIGITS]
    for at, was in enumerate(LONGEST):
        yield changed(LONGEST, at, next_digit(was))
        yield changed(LONGEST, at, chance.choice([byte for byte in others if byte != ord(was)]))


def longest_shortened():
    """The longest text without one byte, at 300 seeded places and both ends, and only its first bytes, cut at every line and 300 seeded places."""
    chance = random.Random(4)
    for at in [0, len(LONGEST) - 1] + [chance.randrange(len(LONGEST)) for _ in range(300)]:
        yield LONGEST[:at] + LONGEST[at + 1:]
    for at in [chance.randrange(len(LONGEST)) for _ in range(300)]:
        yield LONGEST[:at]
    for at, character in enumerate(LONGEST):
        if character == "\n":
            yield LONGEST[:at + 1]


def short_damaged():
    """A short text with every place changed to every digit and to 0a, and with each of these put in at every place; every place taken out."""
    for at in range(len(SHORT) + 1):
        for byte in DIGITS + "\n":
            yield SHORT[:at] + byte + SHORT[at:]
            if at < len(SHORT):
                yield changed(SHORT, at, ord(byte))
        yield SHORT[:at] + SHORT[at + 1:]


def damaged(chance, text):
    """A text with a byte or a line changed, taken out, put in, doubled or moved."""
    kind = chance.randrange(8)
    at = chance.randrange(len(text) + 1)
    lines = text.splitlines(keepends=True)
    if kind == 0:
        return changed(text, at, chance.randrange(256))
    if kind in (1, 2):
        return changed(text, at, ord(chance.choice(DIGITS)))
    if kind == 3:
        return text[:at] + text[at + 1:]
    if kind == 4:
        return text[:at] + chr(chance.randrange(256)) + text[at:]
    if kind == 5 and lines:
        del lines[chance.randrange(len(lines))]
    elif kind == 6 and lines:
        lines.insert(chance.randrange(len(lines)), chance.choice(lines))
    elif lines:
        one, other = chance.randrange(len(lines)), chance.randrange(len(lines))
        lines[one], lines[other] = lines[other], lines[one]
    return "".join(lines)


def benches_damaged(count):
    chance = random.Random(5)
    for text in sound_benches(count):
        for _ in range(4):
            yield damaged(chance, text)


# Holding


def written(answer, text):
    """What `reload` has to write for an answer and, where it is accepted, the text saved again."""
    return b"%02x\n" % answer + (text if answer == GOOD else b"")


def written_by_rules(text):
    return written(*reload_model.reload(text))


def written_by_records(text):
    """The same from the reader and writer over the model's records."""
    answer, record = saved_model.load(text)
    return written(answer, saved_model.text_of(record) if answer == GOOD else b"")


class Held:
    """The program, and what was seen of it."""

    def __init__(self, path):
        self.program = Program(path)
        self.answers = collections.Counter()
        self.failures = 0

    def fail(self, name, number, why):
        print("FAILED: %s, text %d: %s" % (name, number, why))
        self.failures += 1

    def group(self, name, texts, wanted=None, broken=None):
        """Each text of a group: the document's answer for the group and the rule or clause that it breaks, if it has one, and what the readers and the
        program make of it. Three failures are enough for a group."""
        enough = self.failures + 3
        for number, text in enumerate(texts, 1):
            if self.failures >= enough:
                return
            data = text.encode("latin-1")
            expected = written_by_rules(data)
            answer = int(expected[:2], 16)
            self.answers[answer] += 1
            if wanted is not None and answer != wanted:
                self.fail(name, number, "the document's answer is %d, the reader's %d" % (wanted, answer))
            if answer == GOOD and expected != b"00\n" + data:
                self.fail(name, number, "the reader saves another text")
            if broken is not None and broken not in reload_model.broken_by(data):
                self.fail(name, number, "another rule or clause is broken: %s" % reload_model.broken_by(data))
            if written_by_records(data) != expected:
                self.fail(name, number, "the two readers differ")
            output = self.program.on(data)
            if output != expected:
                self.fail(name, number, "the program writes %s, expected %s" % (output[:40], expected[:40]))

    def in_pieces(self, text, sizes):
        """The same output however the text comes."""
        data = text.encode("latin-1")
        expected = written_by_rules(data)
        for size in sizes:
            if self.program.on_pieces(cut(data, size)) != expected:
                self.fail("in pieces", size, "another output than for the whole text")


def main():
    held = Held(sys.argv[1])
    held.group("edges of good texts", good_edges(), GOOD)
    held.group("random sound benches", sound_benches(400), GOOD)
    held.group("benches after requests", benches_after_requests(60), GOOD)
    for name, rule, texts in UNSOUND_KINDS:
        held.group(name, texts(), UNSOUND, rule)
    for name, clause, texts in MALFORMED_KINDS:
        held.group(name, texts(), MALFORMED, clause)
    held.group("longest text damaged", longest_damaged())
    held.group("longest text shortened", longest_shortened())
    held.group("short text damaged", short_damaged())
    held.group("random benches damaged", benches_damaged(400))
    held.in_pieces(SHORT, range(1, len(SHORT)))
    held.in_pieces(LONGEST, [1, 2, 9, 37, 1000, 4096])
    held.in_pieces(LONGEST + "\n", [1, 37, 4096])
    held.in_pieces(changed(LONGEST, 5311, ord("0")), [1, 37, 4096])
    spread = ", ".join("%d times %02d" % (count, answer) for answer, count in sorted(held.answers.items()))
    print("%s: reload: %d texts against two readers (%s), every place of the longest damaged twice, %d failures"
          % ("ok" if held.failures == 0 else "FAILED", sum(held.answers.values()), spread, held.failures))
    sys.exit(1 if held.failures else 0)


if __name__ == "__main__":
    main()
