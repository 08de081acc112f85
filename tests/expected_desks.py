"""What the program `desks` has to write, worked out by the model: the same drawn lists, each request by itself, and the same sums of what comes back."""

import model
from expected_anything import far, folded, following, set_state, as_byte, as_word, state_byte

MALFORMED = 8

KINDS = [model.OPEN_TOP] * 2 + [model.OPEN_SUB] * 3 + [model.READ] * 3 + [model.WRITE] * 3 + [model.COMMIT] + [model.ABORT] + [model.QUIET] * 2

LISTS, LISTS_A_LINE = 240, 30


def call(record, requests):
    """The answers to a list of kinds and numbers, each request on the record that the one before it left, and the record at the end."""
    answers = []
    for kind, first, second in requests:
        if model.OPEN_TOP <= kind <= model.QUIET:
            answer, record = model.request(record, kind, first, second)
        else:
            answer = MALFORMED
        answers.append(answer)
    return answers, record


def near_or_far(x, below):
    """A number below the bound, or in one case of 24 one that may be anywhere."""
    return far(x) if x // 64 % 24 == 0 else x % below


def drawn_request(x):
    """A kind and its two numbers, a spare one of any size, and the generator as it stands then."""
    choice = following(x)
    first = following(choice)
    second = following(first)
    kind = KINDS[choice % 16] if choice % 16 < 15 else choice // 16 % 256
    if kind == model.OPEN_SUB:
        other = near_or_far(second, 5)
    elif kind in (model.READ, model.WRITE, model.QUIET):
        other = near_or_far(second, 3)
    else:
        other = far(second)
    return (kind, near_or_far(first, 5), other), second


def sparse_values(record):
    """Where a number or an instrument holds anything: its place and what it holds, each as a word's lower half and upper half."""
    pairs = [(n, as_byte(record.parents[n]), state_byte(record, n)) for n in range(model.NUMBERS)]
    pairs += [(i, as_word(record.reads[i]), as_word(record.writes[i])) for i in range(model.INSTRUMENTS)]
    values = []
    for place, first, second in pairs:
        if first or second:
            values += [place, first % 4294967296, first // 4294967296, second % 4294967296, second // 4294967296]
    return values


def every_kind(record):
    answers, _ = call(record, [(kind, 0, 4294967295) for kind in range(32)])
    print("".join(f"{answer:02x}" for answer in answers))


def main():
    every_kind(model.Record())
    unsound = model.Record()
    set_state(unsound, 5, model.COMMITTED)
    every_kind(unsound)
    record, x, total = model.Record(), 1, 0
    for first in range(0, LISTS, LISTS_A_LINE):
        counts = [0] * 11
        for _ in range(LISTS_A_LINE):
            x = following(x)
            if not model.sound(record):
                record = model.Record()
            if x % 4 == 0:
                record = record.copy()
                set_state(record, x // 4 % 5, x // 32 % 70)
            requests = []
            for _ in range(32):
                request, x = drawn_request(x)
                requests.append(request)
            answers, record = call(record, requests)
            total = folded(total, [0, 1 if model.sound(record) else 0])
            for request, answer in zip(requests, answers):
                counts[answer] += 1
                total = folded(total, [*request, answer])
            total = folded(total, sparse_values(record))
        print(first, *counts, f"{total:08x}")


if __name__ == "__main__":
    main()
