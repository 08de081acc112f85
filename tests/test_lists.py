"""The model of lists: on cases with the answers that order 3 and its readings give them; on the sessions and the records of tests/test_model.py; beside the plain
machine; cut in two anywhere; and two apart lists in either order. The seeded lists reach every answer of every kind and every size, and they tell apart the
model from players that look right and aren't."""

import re
import sys

import traces
from lists_model import (KINDS, KINDS_OF_ONE_NUMBER, OUTSIDE_BYTE, OUTSIDE_WORD, SIZES, WAYS, Bench, Drawer, Generator, Lent, answer_lines, change, changes_of,
                         drawn_lists, expected, expected_sums, lists_of, made_bench, play_list, play_single, played, sum_lines, text_of)
from model import ABORT, COMMIT, OPEN_SUB, OPEN_TOP, QUIET, READ, WRITE, Record, request, sound
from plain_model import Plain, lines_of
from test_model import SESSIONS, SOUND, UNSOUND, abort, commit, quiet, read, sub, top, write

# Numbers that a spare place may hold
SPARE = [0, 1, 5, 63, 64, 127, 128, 255, 256, 2 ** 31, 2 ** 32 - 1]

OUTSIDE = [0, 8, 9, 255, 256, 257, 2 ** 16 + 1, 2 ** 31 + 7, 2 ** 32 - 1]


def record(asked, spare=0, before=9):
    kind, x, y = asked
    return kind, x, spare if y is None else y, before


def records(*asked):
    return [record(one) for one in asked]


def kind(number, x=1, y=5):
    return number, x, y


def answers_of(given):
    return [answer for *_, answer in given]


def bench_after(*asked):
    return play_list(Record(), records(*asked))[2]


A_TREE = [top(1), sub(2, 1), write(2, 5)]
DRAINING = bench_after(*A_TREE, abort(2))

# Name: a bench, the requests of a list, the call's answer and those at its places; None where the list is too long.
CASES = {
    "no records": (Record(), [], 0, []),
    "no records on an unsound bench": (UNSOUND["a ring of two"], [], 0, []),
    "one that is accepted": (Record(), [top(63)], 0, [0]),
    "one that is refused": (Record(), [top(64)], 0, [1]),
    "all refused": (Record(), [commit(0), read(0, 128), read(64, 128), quiet(0, 0), kind(8)], 0, [4, 2, 1, 10, 8]),
    "kinds 1 and 8 on an unsound bench": (UNSOUND["a state 4"], [kind(1), kind(8)], 0, [7, 8]),
    "kinds 8 and 1 on an unsound bench": (UNSOUND["a state 4"], [kind(8), kind(1)], 0, [8, 7]),
    "7 before 1 and 2": (UNSOUND["a committed top"], [top(64), read(64, 128), quiet(0, 128), kind(0, 64, 128)], 0, [7, 7, 7, 8]),
    "8 before 1 to 6": (Record(), [kind(8, 64, 128), kind(0, 0, 0), kind(2 ** 32 - 1, 2 ** 32 - 1, 2 ** 32 - 1)], 0, [8, 8, 8]),
    "numbers beyond 32 bits": (Record(), [top(2 ** 40), top(1), read(1, 2 ** 40), kind(2 ** 40 + 3), quiet(1, 2 ** 64)], 0, [1, 0, 2, 8, 2]),
    "31 records": (Record(), [top(n) for n in range(31)], 0, [0] * 31),
    "32 records": (Record(), [top(n) for n in range(32)], 0, [0] * 32),
    "33 records": (Record(), [top(n) for n in range(33)], 11, None),
    "64 records": (Record(), [top(n) for n in range(64)], 11, None),
    "1,000 records": (Record(), [top(n % 64) for n in range(1000)], 11, None),
    "32 times the same": (Record(), [top(7)] * 32, 0, [0] + [3] * 31),
    "32 malformed ones": (Record(), [kind(0)] * 32, 0, [8] * 32),
    "33 malformed ones": (Record(), [kind(0)] * 33, 11, None),
    "32 on an unsound bench": (UNSOUND["its own parent"], [top(0)] * 32, 0, [7] * 32),
    "33 on an unsound bench": (UNSOUND["its own parent"], [top(0)] * 33, 11, None),
    "33 malformed ones on an unsound bench": (UNSOUND["its own parent"], [kind(255)] * 33, 11, None),
    "256 records": (Record(), [top(0)] * 256, 11, None),
    "288 records": (Record(), [top(0)] * 288, 11, None),
    "65,536 records": (Record(), [top(0)] * 65536, 11, None),
    # After the refused one the rest goes on, and finds the bench as it was before it.
    "1 doesn't stop the rest": (Record(), [*A_TREE, top(64), read(2, 5)], 0, [0, 0, 0, 1, 0]),
    "2 doesn't stop the rest": (Record(), [*A_TREE, write(2, 128), write(2, 127)], 0, [0, 0, 0, 2, 0]),
    "3 doesn't stop the rest": (Record(), [*A_TREE, sub(2, 1), commit(2)], 0, [0, 0, 0, 3, 0]),
    "4 doesn't stop the rest": (Record(), [*A_TREE, abort(3), sub(3, 2)], 0, [0, 0, 0, 4, 0]),
    "5 doesn't stop the rest": (Record(), [*A_TREE, commit(1), commit(2), commit(1)], 0, [0, 0, 0, 5, 0, 0]),
    "6 doesn't stop the rest": (Record(), [*A_TREE, top(9), read(9, 5), read(9, 6)], 0, [0, 0, 0, 0, 6, 0]),
    "8 doesn't stop the rest": (Record(), [*A_TREE, kind(8), commit(2)], 0, [0, 0, 0, 8, 0]),
    "10 doesn't stop the rest": (DRAINING, [quiet(1, 5), quiet(2, 4), quiet(2, 5), quiet(2, 5), top(2)], 0, [10, 10, 0, 10, 0]),
    "refused first and accepted last": (Record(), [commit(1), top(1), commit(1), commit(1)], 0, [4, 0, 0, 4]),
    # What the whole list knows isn't known at its first place.
    "opened later in the list": (Record(), [sub(2, 1), top(1), sub(2, 1)], 0, [4, 0, 0]),
    "freed within the list": (Record(), [top(1), abort(1), top(1), write(1, 5), abort(1), top(1), quiet(1, 5), top(1)], 0, [0, 0, 0, 0, 0, 3, 0, 0]),
    "an upgrade within the list": (Record(), [top(1), top(9), read(1, 5), read(9, 5), write(1, 5), commit(9), write(1, 5)], 0, [0, 0, 0, 0, 6, 0, 0]),
    "two tops in one write set": (SOUND["two tops in one write set"], [read(9, 5), abort(9), read(2, 5), quiet(9, 5), read(2, 5)], 0, [6, 0, 6, 0, 0]),
}

EVERY_KIND = [top(20), sub(21, 2), read(2, 7), write(2, 7), commit(2), abort(1), quiet(10, 5)]


def purely(bench, lent):
    """What a call gives; the list and the bench that it was given must stay, and of the list it gives only answers may differ."""
    bench_before, lent_before = bench.copy(), list(lent)
    call, given, after = play_list(bench, lent)
    if bench != bench_before or lent != lent_before:
        raise AssertionError("what was given has changed")
    if [one[:3] for one in given] != [one[:3] for one in lent]:
        raise AssertionError("more than the answers has changed")
    if call == 11 and (given != lent or after != bench):
        raise AssertionError("a list that was too long, or its bench, has changed")
    if call not in (0, 11) or (call == 11) != (len(lent) > 32):
        raise AssertionError("the call's answer")
    if not sound(bench) and after != bench:
        raise AssertionError("an unsound bench has changed")
    return call, given, after


# Each check gives how much it has looked at, and what failed.


def check_cases():
    failed = []
    for name, (bench, asked, call, answers) in CASES.items():
        lent = records(*asked)
        given_call, given, _ = purely(bench, lent)
        wanted = lent if answers is None else [one[:3] + (answer,) for one, answer in zip(lent, answers, strict=True)]
        if (given_call, given) != (call, wanted):
            failed.append(f"case {name}: expected {call} {answers}, the model gives {given_call} {answers_of(given)}")
    return len(CASES), failed


def check_sessions():
    """Each session as one list: its answers, and the bench that single requests leave."""
    failed = []
    for name, session in SESSIONS.items():
        call, given, after = purely(Record(), [record(asked) for asked, _ in session])
        bench = Record()
        for (number, x, y), _ in session:
            _, bench = request(bench, number, x, y)
        if call != 0 or answers_of(given) != [answer for _, answer in session] or after != bench:
            failed.append(f"session {name} as a list: {answers_of(given)}")
    return len(SESSIONS), failed


def check_unsound():
    """On each unsound record every kind gets 7 and every other kind 8, wherever in the list."""
    failed = []
    for name, bench in UNSOUND.items():
        lent = [one for asked, outside in zip(EVERY_KIND + EVERY_KIND[:2], OUTSIDE, strict=True) for one in records(asked, kind(outside))]
        call, given, _ = purely(bench, lent)
        if call != 0 or answers_of(given) != [7, 8] * len(OUTSIDE):
            failed.append(f"unsound record, {name}: {answers_of(given)}")
    return len(UNSOUND), failed


def check_kinds():
    """A kind outside 1 to 7 gets 8 on each sound record, and its bench stays; each other doesn't get it."""
    failed = []
    for name, bench in SOUND.items():
        for number in OUTSIDE:
            _, given, after = purely(bench, records(kind(number)))
            if answers_of(given) != [8] or after != bench:
                failed.append(f"kind {number} on the sound record, {name}: {answers_of(given)}")
        for number in KINDS:
            if 8 in answers_of(purely(bench, records(kind(number)))[1]):
                failed.append(f"kind {number} on the sound record, {name}: 8")
    return len(SOUND) * (len(OUTSIDE) + len(KINDS)), failed


def check_spare():
    """Kinds 1, 5 and 6, accepted and refused, with every second number: answer and bench are the same, and the number stays."""
    failed, looked = [], 0
    benches = [Record(), bench_after(*A_TREE), DRAINING, UNSOUND["a state 4"]]
    for bench in benches:
        for asked in [top(5), top(1), top(64), commit(2), commit(1), commit(64), abort(1), abort(2), abort(64)]:
            _, [(*_, answer)], after = purely(bench, [record(asked)])
            for spare in SPARE:
                looked += 1
                if purely(bench, [record(asked, spare)]) != (0, [(*record(asked, spare)[:3], answer)], after):
                    failed.append(f"spare number {spare} of request {asked}")
    return looked, failed


def check_places():
    """Whatever stands in a place before the call, the answer is the same."""
    lent = records(*A_TREE, commit(1), kind(8))
    failed = [f"a place that held {before}" for before in range(256)
              if answers_of(purely(Record(), [one[:3] + (before,) for one in lent])[1]) != [0, 0, 0, 5, 8]]
    return 256, failed


def as_line(number, x, y):
    """The trace line of a record; a number that is too long for it becomes 255, which has the same answer."""
    if number not in KINDS:
        return ""
    fields = [number, min(x, 255)] + ([] if number in KINDS_OF_ONE_NUMBER else [min(y, 255)])
    return "".join("%02x" % field for field in fields)


def check_beside_plain(lists):
    """Lists on benches that a trace has reached: the plain machine gives the same answers, line by line."""
    failed, looked = [], 0
    machine = None
    for turn, ((bench, lent), (_, call, given, _)) in enumerate(zip(lists, played(lists))):
        if bench is not None:
            machine = None if bench.changes else Plain()
            for asked in bench.trace if machine else []:
                machine.line(as_line(*asked))
        if machine and call == 0:
            looked += len(given)
            if [machine.line(as_line(*one[:3])) for one in lent] != answers_of(given):
                failed.append(f"seeded list {turn}: the plain machine says something else")
    return looked, failed


def as_record(line):
    """The record of a trace line; a malformed one has kind 0."""
    if re.fullmatch("0[156][0-9a-f]{2}|0[2347][0-9a-f]{4}", line):
        values = [int(line[at:at + 2], 16) for at in range(0, len(line), 2)]
        return (*values, 2 ** 32 - 1, 9)[:3] + (9,)
    return 0, 0, 0, 9


def check_traces():
    """Traces of each kind in lists of 1 to 32 lines: the plain machine gives the same answers."""
    failed, looked = [], 0
    for seed, name in enumerate(traces.KINDS):
        generator = Generator(seed)
        lines = lines_of(traces.trace(name, seed, 600))
        bench, machine = Record(), Plain()
        at = 0
        while at < len(lines):
            part = lines[at:at + 1 + generator.below(32)]
            at += len(part)
            _, given, bench = purely(bench, [as_record(line) for line in part])
            looked += len(part)
            if [machine.line(line) for line in part] != answers_of(given):
                failed.append(f"trace {name} up to line {at}: the plain machine says something else")
    return looked, failed


def check_cuts(lists):
    """A list played in one call gives what two calls give, wherever it is cut; so do as many calls as it has records."""
    failed, looked = [], 0
    for turn, (bench, call, given, after) in enumerate(played(lists)):
        if call != 0:
            continue
        lent = lists[turn].records
        for at in range(len(lent) + 1):
            looked += 1
            first, before_cut, between = play_list(bench, lent[:at])
            second, behind_cut, last = play_list(between, lent[at:])
            if (first, second) != (0, 0) or before_cut + behind_cut != given or last != after:
                failed.append(f"seeded list {turn} cut at {at}")
        singly, last = [], bench
        for one in lent:
            _, [alone], last = play_list(last, [one])
            singly.append(alone)
        if singly != given or last != after:
            failed.append(f"seeded list {turn} record by record")
    return looked, failed


# Two lists are apart if they and the bench keep their numbers in families apart, and their instruments too, but for some that are only read.


def apart_request(generator, side, spare):
    """A request of a side: its numbers are even or odd; of instruments some are its own, and some are shared and never written."""
    number = [OPEN_TOP, OPEN_SUB, OPEN_SUB, READ, READ, WRITE, WRITE, COMMIT, ABORT, QUIET, QUIET, 8][generator.below(12)]
    x = generator.below(4) * 2 + side
    y = generator.below(4) * 2 + side
    i = generator.below(2) * 3
    shared = generator.below(3) == 0
    odd = generator.below(20)
    if odd == 0:
        x += 64
    if number in (READ, WRITE, QUIET):
        y = i + (2 if shared and number != WRITE else side) + (126 if odd == 1 else 0)
    elif number in KINDS_OF_ONE_NUMBER:
        y = spare
    return number, x, y


def check_apart():
    """In either order of calls each list gets the same answers, and the bench is the same. Lists that aren't apart must not all do so."""
    failed, looked, met, differ = [], 0, set(), 0
    for seed in range(400):
        generator = Generator(seed)
        bench = Record()
        for _ in range(generator.below(60)):
            asked = apart_request(generator, generator.below(2), 0)
            _, bench = play_single(bench, *asked)
        if seed % 10 == 0:
            bench = bench.copy()
            bench.states[generator.below(64)] = 200
        # A spare number of one side names a number of the other.
        sizes = [generator.below(34), generator.below(34)]
        sides = [[(*apart_request(generator, side, 3 - side), 9) for _ in range(sizes[side])] for side in (0, 1)]
        mixed = [[(*apart_request(generator, generator.below(2), 0), 9) for _ in range(size)] for size in sizes]
        for pair in (sides, mixed):
            *first, between = purely(bench, pair[0])
            *second, one_way = purely(between, pair[1])
            *second_again, between = purely(bench, pair[1])
            *first_again, other_way = purely(between, pair[0])
            same = (first, second, one_way) == (first_again, second_again, other_way)
            if pair is mixed:
                differ += not same
                continue
            looked += 1
            met.update(answers_of(first[1]) if first[0] == 0 else [11])
            if not same:
                failed.append(f"apart lists of seed {seed}: {first} {second} or {second_again} {first_again}")
    if met != {0, 1, 2, 3, 4, 5, 6, 7, 8, 10, 11}:
        failed.append(f"apart lists meet only {sorted(met)}")
    if differ < 100:
        failed.append(f"lists that aren't apart differ only {differ} times")
    return looked, failed


# What the seeded lists reach

POSSIBLE = {
    OPEN_TOP: {0, 1, 3, 7},
    OPEN_SUB: {0, 1, 3, 4, 7},
    READ: {0, 1, 2, 4, 5, 6, 7},
    WRITE: {0, 1, 2, 4, 5, 6, 7},
    COMMIT: {0, 1, 4, 5, 7},
    ABORT: {0, 1, 4, 7},
    QUIET: {0, 1, 2, 7, 10},
}


def check_reached(lists, kinds_outside):
    """Every answer of every kind and no other, every size on sound and on unsound benches, and outside kinds on both. A first and a last place of a list
    of 32 are accepted and refused."""
    answers = {number: set() for number in KINDS}
    outside, outside_on, sizes, ends = set(), set(), set(), set()
    changed_sound = 0
    for (bench, lent), (before, call, given, _) in zip(lists, played(lists)):
        is_sound = sound(before)
        changed_sound += bench is not None and bool(bench.changes) and is_sound
        sizes.add((len(lent), is_sound))
        if call == 11:
            continue
        for number, _, _, answer in given:
            if number in KINDS:
                answers[number].add(answer)
            else:
                outside.add((number, answer))
                outside_on.add(is_sound)
        if len(given) == 32:
            ends |= {(0, given[0][3] == 0), (31, given[31][3] == 0)}
    failed = [f"kind {number}: answers {sorted(answers[number])}, not {sorted(POSSIBLE[number])}" for number in KINDS if answers[number] != POSSIBLE[number]]
    if outside != {(number, 8) for number in kinds_outside} or len(outside_on) != 2:
        failed.append(f"kinds outside: {sorted(outside)}")
    if sizes != {(size, is_sound) for size in SIZES for is_sound in (False, True)}:
        failed.append("some size isn't played on a sound or on an unsound bench")
    if len(ends) != 4:
        failed.append("a first or a last place of 32 is always accepted, or never")
    if changed_sound == 0:
        failed.append("no change leaves a bench sound")
    return sum(map(len, answers.values())), failed


def check_changes():
    """The first ten ways to change a record leave none sound, and each of the others some and some not: on benches that traces have reached."""
    failed, looked = [], 0
    left_sound = {way: set() for way in range(WAYS)}
    for seed in range(60):
        generator = Generator(seed)
        drawer = Drawer(generator, 8)
        trace = drawer.trace() if seed else []
        reached = made_bench(Bench(trace, []))
        for way in range(WAYS):
            for byte in (0, 1, 2, generator.below(189), 188):
                n, m = drawer.number(generator.below(3)), drawer.number(3 + generator.below(3))
                bench = reached.copy()
                for changed in changes_of(way, n, m, drawer.instrument(generator.below(2)), byte):
                    change(bench, *changed)
                looked += 1
                left_sound[way].add(sound(bench))
    for way, given in left_sound.items():
        if given != ({False} if way < 10 else {False, True}):
            failed.append(f"way {way} to change a record leaves benches of which sound is {given}")
    return looked, failed


def check_text(lists, kind_bits):
    """A text gives its lists again, has no field that is too wide, and is answered by one line a list."""
    text = text_of(lists)
    failed = []
    if lists_of(text) != lists:
        failed.append("the text gives other lists")
    line = "e|t( [0-9a-f]{8}){3}|[psrw] [0-9a-f]{2} [0-9a-f]{2}|l [0-9a-f]{8}|" + ("0{6}[0-9a-f]{2}" if kind_bits == 8 else "[0-9a-f]{8}")
    line += "( [0-9a-f]{8}){2} [0-9a-f]{2}"
    failed += [f"line {one!r} of the text" for one in text.splitlines() if not re.fullmatch(line, one)]
    for (_, lent), one in zip(lists, expected(lists).splitlines(), strict=True):
        if not re.fullmatch("0b" if len(lent) > 32 else "00( 0[0-8a]){%d}" % len(lent), one):
            failed.append(f"line {one!r} for a list of {len(lent)}")
    if not re.fullmatch("([0-9a-f]{8}\n){%d}" % len(lists), expected_sums(lists)):
        failed.append("sums are written in another way")
    return text.count("\n"), failed


def check_written():
    """A text and what is written for it, whole."""
    lists = [
        Lent(Bench([(OPEN_TOP, 1, 0), (OPEN_SUB, 2, 1)], []), [(WRITE, 2, 5, 9), (COMMIT, 1, 2 ** 32 - 1, 0), (8, 0, 0, 0), (READ, 2, 128, 3)]),
        Lent(None, []),
        Lent(None, [(OPEN_TOP, n, 0, 11) for n in range(33)]),
        Lent(None, [(OPEN_TOP, 0, 64, 11), (ABORT, 2, 0, 11), (QUIET, 2, 6, 11), (QUIET, 2, 5, 11)]),
        Lent(Bench([], [("s", 63, 255)]), [(OPEN_TOP, 1, 0, 0), (8, 0, 0, 0)]),
    ]
    start = ("e\nt 00000001 00000001 00000000\nt 00000002 00000002 00000001\nl 00000004\n00000004 00000002 00000005 09\n00000005 00000001 ffffffff 00\n"
             "00000008 00000000 00000000 00\n00000003 00000002 00000080 03\nl 00000000\nl 00000021\n00000001 00000000 00000000 0b\n")
    end = "e\ns 3f ff\nl 00000002\n00000001 00000001 00000000 00\n00000008 00000000 00000000 00\n"
    text = text_of(lists)
    failed = [] if text.startswith(start) and text.endswith(end) else ["a text is written in another way"]
    if expected(lists) != "00 00 05 08 02\n00\n0b\n00 00 00 0a 00\n00 07 08\n":
        failed.append(f"answers are written as {expected(lists)!r}")
    return len(lists), failed


def check_generator():
    """The first draws below 2^31, for programs that use the same generator."""
    drawn = {0: [167951807, 218396424, 1299921937], 1: [908834774, 1093944153, 1392341196], 2 ** 64 - 1: [1574552488, 1490332343, 1207502677]}
    failed = []
    for seed, wanted in drawn.items():
        generator = Generator(seed)
        given = [generator.below(2 ** 31) for _ in wanted]
        if given != wanted:
            failed.append(f"draws of seed {seed}: {given}")
    return sum(map(len, drawn.values())), failed


# Players that look right and aren't. Each has to be told apart by the answers alone, or where it says so by the sums.


def player(limit=32, single=play_single, stops=(), backwards=False, shared=True):
    """A player like the model's, with one thing of another kind. `stops`: answers behind which nothing is played."""
    def play(bench, lent):
        if len(lent) > limit:
            return 11, list(lent), bench
        given = list(lent)
        now = bench
        for at in reversed(range(len(lent))) if backwards else range(len(lent)):
            number, x, y, _ = lent[at]
            answer, after = single(now, number, x, y)
            now = after if shared else bench
            given[at] = (number, x, y, answer)
            if answer in stops:
                break
        return 0, given, after if not shared and lent else now
    return play


def unsound_before_kind(bench, number, x, y):
    return play_single(bench, number, x, y) if sound(bench) else (7, bench)


def kind_cut_to(bits):
    return lambda bench, number, x, y: play_single(bench, number % 2 ** bits, x, y)


def numbers_cut_to(bits):
    return lambda bench, number, x, y: play_single(bench, number, x % 2 ** bits, y % 2 ** bits)


def spare_looked_at(above):
    def single(bench, number, x, y):
        answer, after = play_single(bench, number, x, y)
        return (1, bench) if answer in (0, 3, 4, 5) and number in KINDS_OF_ONE_NUMBER and y > above else (answer, after)
    return single


def as_no_op(answer_for_outside):
    return lambda bench, number, x, y: play_single(bench, number, x, y) if number in KINDS else (answer_for_outside, bench)


def without(number_left_out):
    return lambda bench, number, x, y: (8, bench) if number == number_left_out else play_single(bench, number, x, y)


def plays_32_of_longer(bench, lent):
    call, given, after = play_list(bench, lent[:32])
    return (11 if len(lent) > 32 else call), given + lent[32:], after


def marks_longer(bench, lent):
    call, given, after = play_list(bench, lent)
    return call, [one[:3] + (11,) for one in given] if call == 11 else given, after


def unsound_before_longer(bench, lent):
    return play_list(bench, lent) if sound(bench) else (7, list(lent), bench)


def unsound_call(bench, lent):
    call, given, after = play_list(bench, lent)
    return 7 if call == 0 and not sound(bench) else call, given, after


def malformed_call(bench, lent):
    call, given, after = play_list(bench, lent)
    return 8 if call == 0 and 8 in answers_of(given) else call, given, after


def last_answer_as_call(bench, lent):
    call, given, after = play_list(bench, lent)
    return given[-1][3] if call == 0 and given else call, given, after


def one_place_late(bench, lent):
    call, given, after = play_list(bench, lent)
    if call == 11:
        return call, given, after
    answers = [0] + answers_of(given)[:-1]
    return call, [one[:3] + (answer,) for one, answer in zip(lent, answers)], after


def bench_lost(bench, lent):
    call, given, _ = play_list(bench, lent)
    return call, given, bench


def all_or_nothing(bench, lent):
    call, given, after = play_list(bench, lent)
    return call, given, after if call == 0 and not any(answers_of(given)) else bench


def places_only_if_refused(bench, lent):
    call, given, after = play_list(bench, lent)
    return call, [new if new[3] != 0 else old for old, new in zip(lent, given)], after


def places_only_if_accepted(bench, lent):
    call, given, after = play_list(bench, lent)
    return call, [new if new[3] == 0 else old for old, new in zip(lent, given)], after


def clears_spare(bench, lent):
    call, given, after = play_list(bench, lent)
    return call, [(number, x, 0 if number in KINDS_OF_ONE_NUMBER else y, answer) for number, x, y, answer in given], after


def clears_malformed(bench, lent):
    call, given, after = play_list(bench, lent)
    return call, [one if one[0] in KINDS else (0, *one[1:]) for one in given], after


WRONG = {
    "at most 31": player(limit=31),
    "at most 33": player(limit=33),
    "any length": player(limit=10 ** 9),
    "stops at any refusal": player(stops=range(1, 11)),
    "stops at a malformed one": player(stops=[8]),
    "stops at an unsound bench": player(stops=[7]),
    "stops at 6": player(stops=[6]),
    "stops at 10": player(stops=[10]),
    "backwards": player(backwards=True),
    "each on the first bench": player(shared=False),
    "7 before 8": player(single=unsound_before_kind),
    "a kind cut to 3 bits": player(single=kind_cut_to(3)),
    "a kind cut to 4 bits": player(single=kind_cut_to(4)),
    "a kind cut to 7 bits": player(single=kind_cut_to(7)),
    "a spare number above 63 refused": player(single=spare_looked_at(63)),
    "a spare number above 127 refused": player(single=spare_looked_at(127)),
    "numbers cut to 6 bits": player(single=numbers_cut_to(6)),
    "numbers cut to 7 bits": player(single=numbers_cut_to(7)),
    "numbers cut to 8 bits": player(single=numbers_cut_to(8)),
    "numbers cut to 16 bits": player(single=numbers_cut_to(16)),
    "numbers cut to 31 bits": player(single=numbers_cut_to(31)),
    "0 for a kind outside": player(single=as_no_op(0)),
    "no quiet": player(single=without(QUIET)),
    "32 of a longer list played": plays_32_of_longer,
    "7 before 11": unsound_before_longer,
    "7 for the call": unsound_call,
    "8 for the call": malformed_call,
    "the last answer for the call": last_answer_as_call,
    "answers one place late": one_place_late,
    "the bench lost": bench_lost,
    "all or nothing": all_or_nothing,
    "places written for refusals only": places_only_if_refused,
    "places written for grants only": places_only_if_accepted,
}

# Those that only kinds above 255 tell apart
WRONG_FOR_WORDS = {
    "a kind cut to 8 bits": player(single=kind_cut_to(8)),
    "a kind cut to 16 bits": player(single=kind_cut_to(16)),
    "a kind cut to 31 bits": player(single=kind_cut_to(31)),
}

# Those that answer well
WRONG_BY_SUMS = {
    "11 at each place of a longer list": marks_longer,
    "a spare number set to 0": clears_spare,
    "a kind outside set to 0": clears_malformed,
}


def check_wrong(lists, wrong, lines):
    right = list(lines(lists))
    failed = [f"not told apart: {name}" for name, play in wrong.items() if all(one == other for one, other in zip(lines(lists, play), right, strict=True))]
    if list(lines(lists, player())) != right:
        failed.append("a player with nothing wrong is told apart")
    return len(wrong), failed


def main():
    lists = drawn_lists(1, 840)
    narrow = drawn_lists(1, 840, kind_bits=8)
    checks = {
        "cases": check_cases(),
        "sessions as lists": check_sessions(),
        "unsound records": check_unsound(),
        "kinds on sound records": check_kinds(),
        "spare numbers": check_spare(),
        "places": check_places(),
        "records beside the plain machine": check_beside_plain(lists),
        "lines of traces beside the plain machine": check_traces(),
        "cuts": check_cuts(lists[:252]),
        "pairs of apart lists": check_apart(),
        "answers of kinds reached": check_reached(lists, OUTSIDE_BYTE + OUTSIDE_WORD),
        "with kinds of a byte": check_reached(narrow, OUTSIDE_BYTE),
        "changes": check_changes(),
        "lines of text": check_text(lists, 32),
        "and with kinds of a byte": check_text(narrow, 8),
        "lists written whole": check_written(),
        "draws": check_generator(),
        "wrong players": check_wrong(narrow, WRONG, answer_lines),
        "for words": check_wrong(lists, WRONG_FOR_WORDS, answer_lines),
        "by sums": check_wrong(narrow, WRONG_BY_SUMS, sum_lines),
    }
    failures = 0
    for _, failed in checks.values():
        failures += len(failed)
        for failure in failed[:3]:
            print(failure)
    print(", ".join(f"{looked} {name}" for name, (looked, _) in checks.items()) + f", {failures} failures")
    sys.exit(1 if failures else 0)


if __name__ == "__main__":
    main()
