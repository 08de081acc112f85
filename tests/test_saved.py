"""The readers and writers on the saved form of document 01 and of order 2: each clause of what has another shape, texts that break a rule, and round
trips."""

import sys

import model
import reload_model
from model import ABORT, COMMIT, COMMITTED, DRAINING, OPEN_SUB, OPEN_TOP, QUIET, READ, RUNNING, WRITE, Record, request
from saved_model import LONGEST_TEXT, load, save, text_of

NO_NUMBERS = "0" * 16
NUMBER_1 = "0000000000000002"
NUMBER_2 = "0000000000000004"
NUMBER_63 = "8" + "0" * 15

TOP_0 = "110001ff\n"
TOP_1 = "110101ff\n"
SUB_2 = "11020101\n"
COMMITTED_2 = "11020201\n"
DRAINING_1 = "11010301\n"
DRAINING_2_UNDER_1 = "11020301\n"
READ_BY_1 = "1205" + NUMBER_1 + NO_NUMBERS + "\n"
WRITTEN_BY_1 = "1206" + NO_NUMBERS + NUMBER_1 + "\n"

# Well-shaped texts of sound records.
ACCEPTED = {
    "the empty text": "",
    "a top": TOP_1,
    "the last number": "113f01ff\n",
    "a sub that runs": TOP_1 + SUB_2,
    "a committed sub": TOP_1 + COMMITTED_2,
    "a parent above its child": "11020103\n110301ff\n",
    "the last number as a parent": "1101013f\n113f01ff\n",
    "a read set": TOP_1 + READ_BY_1,
    "a write set": TOP_1 + WRITTEN_BY_1,
    "the first and the last instrument": TOP_1 + "1200" + NUMBER_1 + NO_NUMBERS + "\n127f" + NO_NUMBERS + NUMBER_1 + "\n",
    "bit 63 leftmost": "113f01ff\n1200" + NUMBER_63 + NUMBER_63 + "\n",
    "two tops in one write set": TOP_0 + TOP_1 + "1205" + NO_NUMBERS + "0000000000000003\n",
    "numbers and instruments rise apart": "112001ff\n1200" + "0000000100000000" + NO_NUMBERS + "\n",
    "a draining number": DRAINING_1 + READ_BY_1,
    "a group, its head in a set": DRAINING_1 + DRAINING_2_UNDER_1 + WRITTEN_BY_1,
    "a group, its head in no set": DRAINING_1 + DRAINING_2_UNDER_1 + "1205" + NUMBER_2 + NO_NUMBERS + "\n",
    "a head above its group": "11010302\n11020302\n" + READ_BY_1,
    "two groups beside a top": TOP_0 + DRAINING_1 + "11020302\n" + "1205" + NUMBER_1 + NUMBER_2 + "\n",
    "the last number drains": "113f033f\n127f" + NO_NUMBERS + NUMBER_63 + "\n",
}

# Texts of another shape, by the clauses of the document's sentence.
MALFORMED = {
    "a letter g": "1101g1ff\n",
    "a large letter": "110101FF\n",
    "a space": "1101 1ff\n",
    "a carriage return": "110101ff\r\n",
    "a byte 0": "110101f\0\n",
    "a byte 255": b"110101f\xff\n",
    "the byte before 0": "11010/ff\n",
    "the byte after 9": "11010:ff\n",
    "the byte before a": "110101f`\n",
    "an 11 frame of 7 digits": "110101f\n",
    "an 11 frame of 9 digits": "110101ff0\n",
    "an 11 frame of 10 digits": "110101ff00\n",
    "an 11 frame of 36 digits": "110101ff" + "0" * 28 + "\n",
    "a 12 frame of 35 digits": TOP_1 + READ_BY_1[:-2] + "\n",
    "a 12 frame of 37 digits": TOP_1 + READ_BY_1[:-1] + "0\n",
    "a 12 frame of 8 digits": TOP_1 + "12050002\n",
    "an empty line": "\n",
    "an empty line before": "\n" + TOP_1,
    "an empty line between": TOP_0 + "\n" + TOP_1,
    "an empty line behind": TOP_1 + "\n",
    "an unknown code": "100101ff\n",
    "an unknown code of 36 digits": TOP_1 + "13" + READ_BY_1[2:],
    "a trace line": "0101\n",
    "a line of one digit": "1\n",
    "number 64": "114001ff\n",
    "number 255": "11ff01ff\n",
    "instrument 128": TOP_1 + "1280" + NUMBER_1 + NO_NUMBERS + "\n",
    "instrument 255": TOP_1 + "12ff" + NUMBER_1 + NO_NUMBERS + "\n",
    "parent 64": "11010140\n",
    "parent 254": "110101fe\n",
    "state 00": "110100ff\n",
    "state 04": "110104ff\n",
    "state 04 under itself": "11010401\n" + READ_BY_1,
    "draining under 64": "11010340\n" + READ_BY_1,
    "draining under 254": "110103fe\n" + READ_BY_1,
    "state 11": "110111ff\n",
    "an 11 frame after a 12 frame": TOP_1 + READ_BY_1 + "110201ff\n",
    "a 12 frame first": "1205" + NUMBER_1 + NO_NUMBERS + "\n" + TOP_1,
    "a number twice": TOP_1 + TOP_1,
    "numbers that fall": TOP_1 + TOP_0,
    "an instrument twice": TOP_1 + READ_BY_1 + READ_BY_1,
    "instruments that fall": TOP_1 + WRITTEN_BY_1 + READ_BY_1,
    "both sets empty": TOP_1 + "1205" + NO_NUMBERS + NO_NUMBERS + "\n",
    "no last 0a": TOP_1[:-1],
    "no last 0a behind a set": TOP_1 + READ_BY_1[:-1],
    "two frames without 0a between": TOP_0[:-1] + TOP_1,
    "a malformed line of an unsound text": "110102ff\n\n",
}

# Well-shaped texts that break a rule.
UNSOUND = {
    "rule 1, a committed top": "110102ff\n",
    "rule 2, a free number in a read set": TOP_1 + "1205" + NUMBER_2 + NO_NUMBERS + "\n",
    "rule 2, a free number in a write set": TOP_1 + "1205" + NO_NUMBERS + NUMBER_63 + "\n",
    "rule 2, a set of an empty table": READ_BY_1,
    "rule 3, a parent that is free": "11020101\n",
    "rule 3, its own parent": "11010101\n",
    "rule 3, a ring of two": "11010102\n11020101\n",
    "rule 3, a ring of all": "".join(f"11{n:02x}01{(n + 1) % 64:02x}\n" for n in range(64)),
    "rule 4, a running one under a committed one": TOP_1 + COMMITTED_2 + "11030102\n",
    "draining under nobody": "110103ff\n" + READ_BY_1,
    "draining in no set": DRAINING_1,
    "a group in no set": DRAINING_1 + DRAINING_2_UNDER_1,
    "a group in no set beside one in a set": DRAINING_1 + "11020302\n" + READ_BY_1,
    "draining under a free number": DRAINING_2_UNDER_1 + "1205" + NUMBER_2 + NO_NUMBERS + "\n",
    "draining under a running number": TOP_1 + DRAINING_2_UNDER_1 + "1205" + NUMBER_2 + NO_NUMBERS + "\n",
    "draining under one that drains under another": "11010302\n11020303\n11030303\n" + READ_BY_1 + WRITTEN_BY_1,
    "two that drain under each other": "11010302\n" + DRAINING_2_UNDER_1 + READ_BY_1,
    "a running one under a draining one": DRAINING_1 + SUB_2 + READ_BY_1,
    "a committed one under a draining one": DRAINING_1 + COMMITTED_2 + READ_BY_1,
}


def as_bytes(text):
    return text if isinstance(text, bytes) else text.encode("ascii")


def played(*requests):
    record = Record()
    for kind, x, *y in requests:
        answer, record = request(record, kind, x, *y)
        assert answer == 0, (kind, x, y)
    return record


def full():
    """All numbers and sets at all instruments; two of three numbers drain, in two groups."""
    record = Record()
    for n in range(64):
        record.states[n] = DRAINING if n % 3 else RUNNING
        record.heads[n] = n % 3 + 60 if n % 3 else None
    for i in range(128):
        record.reads[i] = set(range(64))
        record.writes[i] = {63 - i % 64}
    return record


def changed(record, n, state):
    other = record.copy()
    other.states[n] = state
    return other


# Records with their texts, as the document writes them.
TEXTS = {
    "an empty bench": (Record(), ""),
    "a top": (played((OPEN_TOP, 1)), TOP_1),
    "a committed sub's lock stays its own": (
        played((OPEN_TOP, 1), (OPEN_SUB, 2, 1), (WRITE, 2, 6), (COMMIT, 2)),
        TOP_1 + COMMITTED_2 + "1206" + NO_NUMBERS + NUMBER_2 + "\n"),
    "a read by the write owner": (
        played((OPEN_TOP, 1), (WRITE, 1, 5), (READ, 1, 5)),
        TOP_1 + "1205" + NUMBER_1 + NUMBER_1 + "\n"),
    "nothing is left of an aborted top that owned nothing": (played((OPEN_TOP, 1), (OPEN_SUB, 2, 1), (ABORT, 1)), ""),
    "an aborted top drains": (played((OPEN_TOP, 1), (OPEN_SUB, 2, 1), (WRITE, 2, 6), (ABORT, 1)),
                              DRAINING_1 + DRAINING_2_UNDER_1 + "1206" + NO_NUMBERS + NUMBER_2 + "\n"),
    "an aborted sub drains beside its parent": (played((OPEN_TOP, 1), (OPEN_SUB, 2, 1), (WRITE, 2, 6), (ABORT, 2)),
                                                TOP_1 + "11020302\n1206" + NO_NUMBERS + NUMBER_2 + "\n"),
    "one of two instruments is quiet": (played((OPEN_TOP, 1), (READ, 1, 5), (WRITE, 1, 6), (ABORT, 1), (QUIET, 1, 6)), DRAINING_1 + READ_BY_1),
    "nothing is left once all is quiet": (played((OPEN_TOP, 1), (READ, 1, 5), (ABORT, 1), (QUIET, 1, 5)), ""),
}

# Saves with the answer and how many bytes are written.
SAVES = {
    "full into 5,311 bytes": (full(), 5311, 9, 0),
    "full into 5,312 bytes": (full(), 5312, 0, 5312),
    "full into more": (full(), 6000, 0, 5312),
    "empty into 0 bytes": (Record(), 0, 0, 0),
    "a top into 8 bytes": (played((OPEN_TOP, 1)), 8, 9, 0),
    "a top into 9 bytes": (played((OPEN_TOP, 1)), 9, 0, 9),
    "unsound into 5,312 bytes": (changed(full(), 0, COMMITTED), 5312, 7, 0),
    "unsound into 0 bytes: 7 before 9": (changed(full(), 0, COMMITTED), 0, 7, 0),
}


def failed_loads(texts, expected):
    """The texts with another answer by one of the readers, or, refused, with another record than an empty one, or, accepted, with another text saved again."""
    failed = []
    for name, text in texts.items():
        answer, record = load(as_bytes(text))
        if answer != expected or (answer != 0 and record != Record()):
            failed.append(f"load, {name}: expected {expected}, the reader gives {answer}")
        again = as_bytes(text) if expected == model.ACCEPTED else None
        if reload_model.reload(as_bytes(text)) != (expected, again):
            failed.append(f"reload, {name}: expected {expected}, the other reader gives {reload_model.reload(as_bytes(text))}")
    return failed


def failed_saves():
    failed = []
    for name, (record, room, answer, count) in SAVES.items():
        given, written = save(record, room)
        if (given, len(written)) != (answer, count):
            failed.append(f"save, {name}: expected {answer} and {count} bytes, the writer gives {given} and {len(written)}")
    for name, (record, text) in TEXTS.items():
        if text_of(record) != as_bytes(text):
            failed.append(f"text, {name}: the writer gives {text_of(record)}")
    return failed


def failed_round_trips():
    """What was saved loads as the same record, and what is accepted is saved again as the same text."""
    failed = []
    records = {name: record for name, (record, _) in TEXTS.items()}
    for name, record in list(records.items()) + [("full", full())]:
        if load(save(record, LONGEST_TEXT)[1]) != (0, record):
            failed.append(f"round trip, {name}: another record")
    for name, text in ACCEPTED.items():
        if save(load(as_bytes(text))[1], LONGEST_TEXT) != (0, as_bytes(text)):
            failed.append(f"round trip, {name}: another text")
    return failed


def main():
    failures = (failed_loads(ACCEPTED, model.ACCEPTED) + failed_loads(MALFORMED, 8) + failed_loads(UNSOUND, model.NOT_SOUND)
                + failed_saves() + failed_round_trips())
    for failure in failures:
        print(failure)
    print(f"{len(ACCEPTED)} accepted, {len(MALFORMED)} malformed and {len(UNSOUND)} unsound texts, {len(SAVES) + len(TEXTS)} saves, "
          f"{len(failures)} failures")
    sys.exit(1 if failures else 0)


if __name__ == "__main__":
    main()
