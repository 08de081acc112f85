"""A plain reader and writer of the saved form, written from document 01, and order 2 of document 02, alone, over the model's records."""

from functools import lru_cache

import model

MALFORMED = 8
NO_ROOM = 9

LONGEST_TEXT = 64 * 9 + 128 * 37

DIGITS = b"0123456789abcdef"
LINE_END = b"\n"

# How many digits the frames of an action and of an instrument have.
ACTION_DIGITS = 8
INSTRUMENT_DIGITS = 36

STATES = (model.RUNNING, model.COMMITTED, model.DRAINING)
NO_PARENT = 0xff


# Sets as numbers: number n is bit n


@lru_cache(maxsize=4096)
def bits_together(owners):
    return sum(2 ** n for n in owners)


@lru_cache(maxsize=4096)
def bits_apart(number):
    return frozenset(n for n in range(number.bit_length()) if number >> n & 1)


def as_number(owners):
    return bits_together(frozenset(owners))


def as_set(number):
    return set(bits_apart(number))


# Writing


def action_line(record, n):
    """The line of a number: its state, and its parent or the aborted action that it drains under."""
    above = record.heads[n] if record.states[n] == model.DRAINING else record.parents[n]
    return f"11{n:02x}{record.states[n]:02x}{NO_PARENT if above is None else above:02x}\n"


def instrument_line(record, i):
    return f"12{i:02x}{as_number(record.reads[i]):016x}{as_number(record.writes[i]):016x}\n"


def text_of(record):
    actions = [action_line(record, n) for n in range(model.NUMBERS) if record.states[n] != model.FREE]
    instruments = [instrument_line(record, i) for i in range(model.INSTRUMENTS) if record.reads[i] or record.writes[i]]
    return "".join(actions + instruments).encode("ascii")


def save(record, room):
    """The answer and the bytes that a buffer of `room` bytes gets at its start."""
    if not model.sound(record):
        return model.NOT_SOUND, b""
    text = text_of(record)
    if room < len(text):
        return NO_ROOM, b""
    return model.ACCEPTED, text


# Reading: each way of having another shape is a function of its own


def lacks_last_line_end(text):
    return text != b"" and not text.endswith(LINE_END)


def has_other_bytes(line):
    """A byte that is neither 0a nor a digit 0-9 or a-f."""
    return line.translate(None, DIGITS) != b""


def has_other_length(line):
    """A frame of another length than its code asks for; an empty line and an unknown code are none of the two frames."""
    if line[:2] == b"11":
        return len(line) != ACTION_DIGITS
    if line[:2] == b"12":
        return len(line) != INSTRUMENT_DIGITS
    return True


def action_out_of_range(line):
    """nn above 63, ss other than 01, 02 or 03, or pp neither below 64 nor ff."""
    n, state, above = bytes.fromhex(line[2:].decode("ascii"))
    return n > 63 or state not in STATES or (above >= 64 and above != NO_PARENT)


def instrument_out_of_range(line):
    """ii above 127, or both sets empty."""
    return int(line[2:4], 16) > 127 or int(line[4:], 16) == 0


def breaks_the_order(line, before):
    """An 11 frame after a 12 frame, or a number that isn't above that of the frame of its kind before."""
    if before[:2] == line[:2]:
        return int(line[2:4], 16) <= int(before[2:4], 16)
    return before[:2] == b"12"


def malformed_line(line, before):
    """Whether a line has another shape; `before` is the well-shaped line above it, or none."""
    if has_other_bytes(line) or has_other_length(line):
        return True
    if line[:2] == b"11":
        if action_out_of_range(line):
            return True
    elif instrument_out_of_range(line):
        return True
    return before is not None and breaks_the_order(line, before)


def malformed(text):
    if lacks_last_line_end(text):
        return True
    before = None
    for line in text.split(LINE_END)[:-1]:
        if malformed_line(line, before):
            return True
        before = line
    return False


def record_in(text):
    """The record that a well-shaped text says."""
    record = model.Record()
    for line in text.split(LINE_END)[:-1]:
        number = int(line[2:4], 16)
        if line[:2] == b"11":
            state, above = int(line[4:6], 16), int(line[6:8], 16)
            record.states[number] = state
            place = record.heads if state == model.DRAINING else record.parents
            place[number] = None if above == NO_PARENT else above
        else:
            record.reads[number] = as_set(int(line[4:20], 16))
            record.writes[number] = as_set(int(line[20:], 16))
    return record


def load(text):
    """The answer and the loaded record; an empty one where the text is refused: 8 for the whole text, then 7."""
    if malformed(text):
        return MALFORMED, model.Record()
    record = record_in(text)
    if not model.sound(record):
        return model.NOT_SOUND, model.Record()
    return model.ACCEPTED, record
