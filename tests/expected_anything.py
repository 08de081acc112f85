"""What the program `anything` has to write, worked out by the model: the same numbers, records and requests, and the same sums of what comes back.

With --coverage it writes, for each line, what the records and requests reached.
"""

import sys

import model


def following(x):
    """The generator's next number, below 2,147,483,647."""
    return x % 2147483647 * 48271 % 2147483647


def word(x):
    """A 64-bit word of a drawn number."""
    return x % 2147483647 * 8589934583


def far(x):
    """A 32-bit number of a drawn one."""
    return x % 2147483647 * 4099 % 4294967296


# Records as they lie in the program: bytes and words


def members(bits):
    return {n for n in range(64) if bits // 2 ** n % 2 == 1}


def as_word(numbers):
    if not numbers:
        return 0
    return sum(2 ** n for n in numbers)


def as_byte(parent):
    """A parent's byte: 0 for none and else one more than its number."""
    return 0 if parent is None else parent + 1


def parent_of(byte):
    return None if byte == 0 else byte - 1


def state_byte(record, n):
    """A state's byte: that of draining is 3 more than the head's number."""
    return model.DRAINING + record.heads[n] if record.states[n] == model.DRAINING else record.states[n]


def set_state(record, n, byte):
    """Number n gets the state of a byte; one above 66 means nothing."""
    drains = model.DRAINING <= byte < model.DRAINING + 64
    record.states[n] = model.DRAINING if drains else byte
    record.heads[n] = byte - model.DRAINING if drains else None


# The kinds of records


def random_bytes(x):
    """Kind 0: every byte and every word is drawn."""
    record = model.Record()
    for n in range(64):
        x = following(x)
        record.parents[n] = parent_of(x % 256)
        x = following(x)
        set_state(record, n, x % 256)
    for i in range(128):
        x = following(x)
        record.reads[i] = members(word(x))
        x = following(x)
        record.writes[i] = members(word(x))
    return record, x


def few_numbers(x):
    """Kind 1: numbers 0 to 2 with drawn states and parents, sound or not, and drawn sets of instrument 0. In four cases of eight a number drains, in
    three of them under itself."""
    record = model.Record()
    for n in range(3):
        x = following(x)
        set_state(record, n, [0, 1, 1, 2, 3 + n, 3 + n, 3 + n, 3 + x // 8 % 3][x % 8])
        x = following(x)
        if x % 5 == 0:
            record.parents[n] = parent_of(x // 5 % 4)
    x = following(x)
    if x % 2 == 0:
        record.reads[0] = members(x // 2 % 8)
    x = following(x)
    if x % 4 == 0:
        record.writes[0] = members(x // 4 % 8)
    return record, x


def drawn_state(x, parent_state):
    """A sub's state: committed under a committed parent, and else in one case of eight."""
    if parent_state == model.COMMITTED or x % 8 == 1:
        return model.COMMITTED
    return model.RUNNING


def planted(x):
    """Up to 64 numbers, scattered over the table, in a forest: place k of the forest is number (k * stride + shift) % 64, and its parent stands
    at one of the `reach` places before it. Then up to twelve more in groups of three, the last perhaps smaller, which drain under their first; that one
    stands in the read set of an instrument."""
    record = model.Record()
    x = following(x)
    count = x % 65
    x = following(x)
    stride = x % 32 * 2 + 1
    x = following(x)
    shift = x % 64
    x = following(x)
    reach = x % 6 + 1
    for k in range(count):
        n = (k * stride + shift) % 64
        x = following(x)
        between = x % reach
        x = following(x)
        record.states[n] = model.RUNNING
        if between < k and x % 16 != 0:
            parent = ((k - between - 1) * stride + shift) % 64
            record.parents[n] = parent
            record.states[n] = drawn_state(x, record.states[parent])
    x = following(x)
    for k in range(count, min(count + x % 13, 64)):
        n = (k * stride + shift) % 64
        if (k - count) % 3 == 0:
            head = n
            x = following(x)
            record.reads[x % 8].add(head)
        set_state(record, n, model.DRAINING + head)
    return record, x


def forest(x):
    """Kind 2: a sound record, a forest with sets of one or two numbers in use at instruments 0 to 7."""
    record, x = planted(x)
    for i in range(8):
        x = following(x)
        n = x % 64
        if record.states[n] != model.FREE:
            record.writes[i].add(n)
        x = following(x)
        n = x % 64
        if record.states[n] != model.FREE:
            record.reads[i].add(n)
        x = following(x)
        n = x % 64
        if record.states[n] != model.FREE and x % 3 == 0:
            record.reads[i].add(n)
    return record, x


def parent_byte(x):
    """Any up to 67, or one of those around 64, the last that names a number."""
    if x % 2 == 0:
        return x // 2 % 68
    return x // 2 % 8 + 60


def changed_state(x):
    """The byte of a state: any up to 69, the last of which mean nothing, or one of the first five."""
    if x % 2 == 0:
        return x // 2 % 70
    return x // 2 % 5


def changed_forest(x):
    """Kind 3: such a record with one byte or one word changed, after which it may be sound or not."""
    record, x = forest(x)
    place = following(x)
    x = following(place)
    if place % 4 == 0:
        record.parents[place // 4 % 64] = parent_of(parent_byte(x))
    elif place % 4 == 1:
        set_state(record, place // 4 % 64, changed_state(x))
    elif place % 4 == 2:
        record.reads[place // 4 % 128] = {x % 64}
    else:
        record.writes[place // 4 % 128] = {x % 64}
    return record, x


def fresh_record(kind, x):
    """Kinds 4 and 5 are walks from an empty bench."""
    makers = {0: random_bytes, 1: few_numbers, 2: forest, 3: changed_forest}
    if kind in makers:
        return makers[kind](x)
    return model.Record(), x


# The requests

# For each kind: how many requests a record is asked, and below which number and which instrument most requests stay.
REQUESTS_A_RECORD = [4, 4, 5, 4, 1000, 1000]
NUMBERS = [64, 4, 64, 64, 10, 64]
INSTRUMENTS = [128, 2, 10, 10, 4, 12]

# Which requests a number below 16 stands for.
CHOICES = ([model.OPEN_TOP] + [model.OPEN_SUB] * 4 + [model.READ] * 3 + [model.WRITE] * 3 + [model.COMMIT] + [model.ABORT]
           + [model.QUIET] * 3)


def near_or_far(x, below, chance):
    """A number below the bound, or in one case of 40 one that may be anywhere."""
    if chance % 40 == 0:
        return far(x)
    return x % below


def aimed(fits, n, chance):
    """In three cases of four where n names a number, the first that fits from n on, going round."""
    if n < 64 and chance % 4 != 0:
        for step in range(64):
            if fits((n + step) % 64):
                return (n + step) % 64
    return n


def drawn_request(record, kind, x):
    """A request with its two numbers, of which the second may have no meaning, and the generator as it stands then. Most requests are those of a running
    number, and most quiet is that of one that drains under itself."""
    def runs(n):
        return record.states[n] == model.RUNNING

    def drains(n):
        return record.states[n] == model.DRAINING and record.heads[n] == n

    choice = following(x)
    first = following(choice)
    second = following(first)
    chance = following(second)
    request = CHOICES[choice % 16]
    below = INSTRUMENTS[kind] if request in (model.READ, model.WRITE, model.QUIET) else NUMBERS[kind]
    first = near_or_far(first, NUMBERS[kind], chance)
    second = near_or_far(second, below, chance // 64)
    if request == model.OPEN_SUB:
        second = aimed(runs, second, chance // 4096)
    elif request == model.QUIET:
        first = aimed(drains, first, chance // 4096)
    elif request != model.OPEN_TOP:
        first = aimed(runs, first, chance // 4096)
    return request, first, second, chance


# What is written


def folded(total, values):
    for value in values:
        total = (total * 31 + value) % 4294967291
    return total


def values_of(record):
    """Parents and states number by number, then the sets instrument by instrument, each word's lower half before its upper half."""
    values = []
    for n in range(64):
        values += [as_byte(record.parents[n]), state_byte(record, n)]
    for i in range(128):
        for owners in (record.reads[i], record.writes[i]):
            bits = as_word(owners)
            values += [bits % 4294967296, bits // 4294967296]
    return values


BLOCK = 1000
BLOCKS_OF_KIND = [1, 4, 5, 4, 4, 4]


ANSWERS = [*range(8), 10]


def block(kind, x, total, coverage):
    """1,000 requests: the counts of the answers 0 to 7 and 10, and the generator and the sum as they stand then."""
    counts = dict.fromkeys(ANSWERS, 0)
    record = model.Record()
    for turn in range(BLOCK):
        if turn % REQUESTS_A_RECORD[kind] == 0:
            record, x = fresh_record(kind, x)
        before = record
        request, first, second, x = drawn_request(record, kind, x)
        given, record = model.request(record, request, first, second)
        if coverage is not None:
            coverage.append((before, request, first, given, record))
        counts[given] += 1
        soundness = 1 if model.sound(record) else 0
        total = folded(total, [given, soundness] + values_of(record))
    return list(counts.values()), x, total


def reached(coverage):
    """How many sound records, how many of them drain, the deepest one, families of more than one that were committed or aborted, the largest of them, aborts
    that drain, and how often quiet left something and freed all."""
    records = [before for before, *_ in coverage if model.sound(before)]
    draining = sum(1 for record in records if model.DRAINING in record.states)
    depth = max((len(model.ancestors(record, n)) for record in records for n in range(64)), default=0)
    ended = [len(model.family(before, first)) for before, request, first, given, after in coverage
             if given == 0 and after.states[first] != model.COMMITTED and request in (model.COMMIT, model.ABORT)]
    drained = sum(1 for _, request, first, given, after in coverage
                  if given == 0 and request == model.ABORT and after.states[first] == model.DRAINING)
    quiet = [after.states[first] for _, request, first, given, after in coverage if given == 0 and request == model.QUIET]
    subs = sum(1 for _, request, first, given, after in coverage
               if given == 0 and request == model.COMMIT and after.states[first] == model.COMMITTED)
    return (f"sound {len(records)} draining {draining} deepest {depth} committed subs {subs} ended {len(ended)} "
            f"families {sum(1 for size in ended if size > 1)} largest {max(ended, default=0)} drained {drained} "
            f"quiet {quiet.count(model.DRAINING)} freed {quiet.count(model.FREE)}")


def main():
    wants_coverage = "--coverage" in sys.argv[1:]
    x, total = 1, 0
    for kind, blocks in enumerate(BLOCKS_OF_KIND):
        for _ in range(blocks):
            coverage = [] if wants_coverage else None
            counts, x, total = block(kind, x, total, coverage)
            line = " ".join(str(n) for n in [kind] + counts) + f" {total:08x}"
            print(line if coverage is None else line + " : " + reached(coverage))


if __name__ == "__main__":
    main()
