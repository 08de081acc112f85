"""What the program `damage` has to write, worked out by the model and the reader and writer beside it: the same benches, texts and damage, and the
same sums of what comes back.

With --coverage it writes, for each line of drawn damage, how long the texts were and what answers each kind of damage got.
"""

import sys

import model
import saved_model
from expected_anything import following, state_byte

# Sums


def folded(total, values):
    for value in values:
        total = (total * 31 + value) % 4294967291
    return total


def halves(word):
    return [word % 4294967296, word // 4294967296]


def values_of(record):
    """Parents (0 for none, else one more than the number) and states (3 more than the head's number for draining) number by number, then the sets
    instrument by instrument; numbers and instruments that have none of them are left out."""
    values = []
    for n, (parent, state) in enumerate(zip(record.parents, record.states)):
        if parent is not None or state:
            values += [n] + halves(0 if parent is None else parent + 1) + halves(state_byte(record, n))
    for i, (reads, writes) in enumerate(zip(record.reads, record.writes)):
        if reads or writes:
            values += [i] + halves(saved_model.as_number(reads)) + halves(saved_model.as_number(writes))
    return values


class Tally:
    def __init__(self, total):
        self.answers = {0: 0, 7: 0, 8: 0}
        self.saved_again = 0
        self.total = total

    def load(self, text):
        answer, record = saved_model.load(text)
        self.answers[answer] += 1
        if answer == model.ACCEPTED and saved_model.save(record, saved_model.LONGEST_TEXT) == (0, text):
            self.saved_again += 1
        self.total = folded(self.total, [answer] + values_of(record))
        return answer

    def show(self, of):
        counts = " ".join(str(count) for count in self.answers.values())
        return f"{of} {counts} {self.saved_again} {self.total:08x}"


# Benches


def played(*requests):
    record = model.Record()
    for request in requests:
        answer, record = model.request(record, *request)
        assert answer == model.ACCEPTED
    return record


def one_top():
    return played((model.OPEN_TOP, 63))


def middle_of_the_trace():
    return played((model.OPEN_TOP, 1), (model.OPEN_SUB, 2, 1), (model.OPEN_SUB, 3, 1), (model.WRITE, 2, 5), (model.COMMIT, 2),
                  (model.READ, 3, 5))


def both_ends():
    return played((model.OPEN_TOP, 0), (model.WRITE, 0, 0), (model.OPEN_TOP, 63), (model.READ, 63, 127), (model.WRITE, 63, 127),
                  (model.OPEN_SUB, 1, 0), (model.OPEN_SUB, 62, 63))


def two_groups():
    """Beside a running top, 2 and 3 drain under 2, and 9 under itself."""
    return played((model.OPEN_TOP, 1), (model.OPEN_SUB, 2, 1), (model.OPEN_SUB, 3, 2), (model.WRITE, 3, 5), (model.READ, 3, 6), (model.ABORT, 2),
                  (model.OPEN_TOP, 9), (model.READ, 9, 6), (model.ABORT, 9))


def full():
    opened = [(model.OPEN_TOP, 0)] + [(model.OPEN_SUB, k + 1, k // 2) for k in range(63)]
    locked = []
    for i in range(128):
        locked.append((model.READ, i % 32 + 32, i))
        if i % 3 == 0:
            locked.append((model.WRITE, i % 32 + 32, i))
    committed = [(model.COMMIT, n) for n in range(32, 64) if n % 5 == 0]
    aborted = [(model.ABORT, n) for n in range(32, 64) if n % 5 == 1]
    return played(*opened, *locked, *committed, *aborted)


def unsound():
    record = full()
    record.states[0] = model.COMMITTED
    return record


# Which requests a number below 16 stands for.
CHOICES = [model.OPEN_TOP] * 2 + [model.OPEN_SUB] * 4 + [model.READ] * 3 + [model.WRITE] * 3 + [model.COMMIT, model.ABORT] + [model.QUIET] * 2


def walked(record, x, requests):
    for _ in range(requests):
        choice = following(x)
        first = following(choice)
        x = following(first)
        kind = CHOICES[choice % 16]
        second = x % 16 * 4 + 3 if kind == model.OPEN_SUB else x % 8 * 18 + 1
        _, record = model.request(record, kind, first % 16 * 4 + 3, second)
    return record, x


# Save on both sides of its edges

BUFFER = 5320
FILLED_WITH = 170


def save_into(record, room):
    answer, written = saved_model.save(record, room)
    buffer = written + bytes([FILLED_WITH]) * (BUFFER - len(written))
    return f"{answer:02x} {len(written)} {buffer.count(FILLED_WITH)} {folded(0, buffer):08x}"


def edges():
    cases = [(full(), 5311), (full(), 5312), (full(), 5320), (full(), 0), (model.Record(), 0), (model.Record(), 5320), (one_top(), 8),
             (one_top(), 9), (both_ends(), 109), (both_ends(), 110), (unsound(), 5320), (unsound(), 5311), (unsound(), 0)]
    return [save_into(record, room) for record, room in cases]


# One byte changed

VALUES = b"0123456789abcdef/:@AFG`g\n\r \x00\xff"


def changes_of(record, stride, total):
    _, text = saved_model.save(record, saved_model.LONGEST_TEXT)
    tally = Tally(total)
    for place in range(0, len(text), stride):
        for value in VALUES:
            tally.load(text[:place] + bytes([value]) + text[place + 1:])
    return tally.show(len(text)), tally.total


def changes(total):
    lines = []
    on_a_walk, _ = walked(model.Record(), 1, 100)
    for record, stride in [(one_top(), 1), (middle_of_the_trace(), 1), (both_ends(), 1), (two_groups(), 1), (on_a_walk, 1), (full(), 41)]:
        line, total = changes_of(record, stride, total)
        lines.append(line)
    return lines, total


# Drawn damage


def byte_of(x):
    """In eight cases one of any value, one 0a, and else a digit."""
    if x % 8 == 0:
        return bytes([x // 8 % 256])
    if x % 8 == 1:
        return b"\n"
    return b"%x" % (x // 8 % 16)


def place_of(x, below):
    return x % below if below else 0


def line_at(text, place):
    """Where the line begins that has this place, and where it ends, behind its 0a."""
    start = text.rfind(b"\n", 0, place) + 1
    end = text.find(b"\n", place) + 1
    return start, end if end else len(text)


def byte_changed(text, x, y):
    if text == b"":
        return text
    place = place_of(x, len(text))
    return text[:place] + byte_of(y) + text[place + 1:]


def cut(text, x, y):
    return text[:place_of(x, len(text))]


def line_doubled(text, x, y):
    start, end = line_at(text, place_of(x, len(text)))
    return text[:end] + text[start:]


def line_removed(text, x, y):
    start, end = line_at(text, place_of(x, len(text)))
    return text[:start] + text[end:]


def lines_swapped(text, x, y):
    lines = [line_at(text, place_of(drawn, len(text))) for drawn in (x, y)]
    (start, end), (other_start, other_end) = sorted(lines)
    if start == other_start:
        return text
    return text[:start] + text[other_start:other_end] + text[end:other_start] + text[start:end] + text[other_end:]


def byte_inserted(text, x, y):
    place = place_of(x, len(text))
    return text[:place] + byte_of(y) + text[place:]


def byte_removed(text, x, y):
    place = place_of(x, len(text))
    return text[:place] + text[place + 1:]


# The kinds of damage, each with how often it is done.
DAMAGE = [(byte_changed, 1)] * 3 + [(byte_changed, 2)] * 2 + [(byte_changed, 3), (cut, 1), (line_doubled, 1), (line_removed, 1),
          (lines_swapped, 1), (byte_inserted, 1), (byte_removed, 1)]


def damaged(text, x):
    """The text with damage of a drawn kind, that kind, and the last drawn number."""
    x = following(x)
    damage, times = DAMAGE[x % 12]
    for _ in range(times):
        first = following(x)
        x = following(first)
        text = damage(text, first, x)
    return text, damage, x


BLOCKS = 26
BENCHES_A_BLOCK = 200
BENCHES_A_WALK = 50
DAMAGE_A_BENCH = 20


def block(x, total):
    """Texts of benches on walks from an empty bench, two requests from one to the next: what came of them, the last drawn number, and for each
    text its length, its kind of damage and its answer."""
    tally = Tally(total)
    seen = []
    for k in range(BENCHES_A_BLOCK):
        if k % BENCHES_A_WALK == 0:
            record = model.Record()
        record, x = walked(record, x, 2)
        _, text = saved_model.save(record, 512)
        for _ in range(DAMAGE_A_BENCH):
            left, damage, x = damaged(text, x)
            seen.append((len(text), damage.__name__, tally.load(left)))
    return tally, x, seen


def reached(seen):
    lengths = [length for length, _, _ in seen]
    answers = {}
    for _, damage, answer in seen:
        counts = answers.setdefault(damage, {0: 0, 7: 0, 8: 0})
        counts[answer] += 1
    by_damage = ", ".join(f"{damage} {list(counts.values())}" for damage, counts in sorted(answers.items()))
    return f"lengths {min(lengths)} to {max(lengths)}, mean {sum(lengths) // len(lengths)}; {by_damage}"


def main():
    wants_coverage = "--coverage" in sys.argv[1:]
    for line in edges():
        print(line)
    lines, total = changes(0)
    for line in lines:
        print(line)
    x = 1
    for number in range(1, BLOCKS + 1):
        tally, x, seen = block(x, total)
        total = tally.total
        print(tally.show(number) + (" : " + reached(seen) if wants_coverage else ""))


if __name__ == "__main__":
    main()
