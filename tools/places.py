#!/usr/bin/env python3
"""Counts the places in crates/*/src that docs/DESIGN-PASS.md speaks of, a point at a time: tools/places.py [POINT] prints
each place, and without a point how many there are of each. It reads text, so it finds candidates; the page says which stay."""
import collections
import glob
import os
import re
import sys

os.chdir(os.path.join(os.path.dirname(os.path.abspath(__file__)), ".."))

ANSWERS = ("ACCEPTED NO_SUCH_ACTION NO_SUCH_INSTRUMENT NOT_FREE NOT_RUNNING HAS_RUNNING_CHILD NOT_GRANTED UNSOUND MALFORMED "
           "NO_ROOM NOT_DRAINING TOO_LONG").split()
CODES = "OPEN_TOP OPEN_SUB READ WRITE COMMIT ABORT QUIET".split()
GROUPS = [("parents", "states"), ("actions", "owners"), ("reads", "writes"), ("code", "x", "y"), ("count", "value"), ("text", "at")]


def sources():
    for path in sorted(glob.glob("crates/*/src/*.rt")):
        with open(path) as file:
            yield path, [line.rstrip("\n") for line in file]


def is_code(line):
    return not re.match(r"\s*(//|ghost use|use |pub use)", line)


def functions():
    """Each function: its file, line, name, parameters, result and body."""
    for path, lines in sources():
        at = 0
        while at < len(lines):
            head = re.match(r"\s*(?:pub(?:\(crate\))? )?(?:const )?(?:extern \"C\" )?fn (\w+)", lines[at])
            if not head:
                at += 1
                continue
            indent = len(lines[at]) - len(lines[at].lstrip())
            end = at
            while end < len(lines) and not re.match(r" {%d}\}" % indent, lines[end]):
                if lines[end].endswith("}") and end > at and lines[end].strip().startswith("fn"):
                    break
                end += 1
            text = "\n".join(lines[at:end + 1])
            body_at = next((k for k in range(at, end + 1) if re.match(r" {%d}\{$" % indent, lines[k])), at)
            signature = " ".join(line.strip() for line in lines[at:body_at + (1 if body_at == at else 0)])
            yield path, at + 1, head.group(1), signature, "\n".join(lines[body_at:end + 1]), text
            at = end + 1


def point_1():
    """Numbers for answers and requests, flags beside values, results with a number that stands for none."""
    for path, lines in sources():
        for number, line in enumerate(lines, 1):
            if is_code(line) and re.search(r"\b(%s)\b" % "|".join(ANSWERS + CODES), line):
                yield path, number, "number of an answer or a request", line.strip()
            if re.match(r"\s+(pub(\(crate\))? )?\w+: bool,$", line) and not re.match(r"^    \w+: bool,$", line) or \
               re.match(r"^    (pub(\(crate\))? )?\w+: bool,$", line) and in_struct(lines, number - 1):
                yield path, number, "flag in a record", line.strip()
            if is_code(line) and re.search(r"\b(answer|kind|code|letter|mark)\b\)? (==|!=|<|<=|>) \d|\b(answer|kind|code|letter) (==|!=) b'", line):
                yield path, number, "kind or answer by a number", line.strip()
            if re.match(r"// .*\b(16 for any other|and 64 where|64 or more where|; 64 where|256 where one|0 where there is none|no bytes where)", line):
                yield path, number, "number that stands for none", line.strip()


def in_struct(lines, at):
    while at >= 0 and lines[at].startswith("    "):
        at -= 1
    return at >= 0 and bool(re.search(r"\bstruct\b", lines[at]))


def point_2():
    """Functions of one shape: the same tokens but for names and numbers, of four lines or more."""
    shapes = collections.defaultdict(list)
    for path, number, name, signature, body, text in functions():
        if body.count("\n") < 4:
            continue
        shape = re.sub(r"\s+", " ", re.sub(r"\b\d\w*\b|b'.'|b\"[^\"]*\"", "0", re.sub(r"\b(?!(?:if|else|for|while|return|let|mut|in|match|as)\b)[A-Za-z_]\w*\b", "n", re.sub(r"//.*", "", body))))
        shapes[shape].append((path, number, name))
    for group in shapes.values():
        if len(group) > 1:
            for path, number, name in group:
                yield path, number, "one of %d" % len(group), name


def point_3():
    """Loops that count or index by hand."""
    for path, lines in sources():
        for number, line in enumerate(lines, 1):
            if re.search(r"^\s*while ", line):
                yield path, number, "while", line.strip()
            loop = re.match(r"(\s*)for (\w+) in (.+) \{$", line)
            if loop and ".." in loop.group(3):
                used = []
                for later in lines[number:]:
                    if later.startswith(loop.group(1) + "}"):
                        break
                    used.append(later)
                if re.search(r"\[[^\]]*\b%s\b[^\]]*\]" % loop.group(2), "\n".join(used)):
                    yield path, number, "index", line.strip()


def point_4():
    """Conversions, comparisons, copies and printing by hand."""
    for path, number, name, signature, body, text in functions():
        if re.match(r"(same|begins_with|wide|put_|all_from|words_from|bytes_from|show|digits?$|digit|two_digits|put_answer|clear_(bytes|words)$)", name):
            yield path, number, "function", name
    for path, lines in sources():
        for number, line in enumerate(lines, 1):
            if is_code(line) and re.search(r"\bwide\(", line) and "fn wide" not in line:
                yield path, number, "call of wide", line.strip()


def point_5():
    """Functions that take parameters which travel together."""
    for path, number, name, signature, body, text in functions():
        names = re.findall(r"(\w+): ", signature.split("->")[0])
        for group in GROUPS:
            if all(word in names for word in group):
                yield path, number, " ".join(group), name


def point_6():
    """Buffers with a length beside them, several arrays in one, arrays that go together."""
    for path, lines in sources():
        for number, line in enumerate(lines, 1):
            array = re.match(r"\s+(pub(\(crate\))? )?\w+: \[\w+; \d+\],$", line)
            if array and in_struct(lines, number - 1):
                yield path, number, "array in a record", line.strip()
            if is_code(line) and re.search(r"\[(LINES|GROUPS|PLACES|WRITES|RUNNING|64|128|192) \+|\[(LINES|RUNNING)\]", line):
                yield path, number, "part of an array", line.strip()


def point_7():
    """Parameters that switch what is done, and chains of tests of one value."""
    for path, number, name, signature, body, text in functions():
        for word in re.findall(r"(\w+): bool", signature.split("->")[0]):
            yield path, number, "flag " + word, name
        tests = collections.Counter(re.findall(r"if (\w+) == ", body))
        for word, times in tests.items():
            if times > 2:
                yield path, number, "%d tests of %s" % (times, word), name


def point_8():
    """Answers of proofs: files, lines, and `let`s that a file repeats."""
    for path in sorted(glob.glob("crates/*/proofs/**/Answers.antt", recursive=True)):
        with open(path) as file:
            lines = file.read().split("\n")
        repeated = collections.Counter(line.strip() for line in lines if line.strip().startswith("let "))
        times = max(repeated.values(), default=0)
        yield path, len(lines), "answers" + (", a let %d times" % times if times > 1 else ""), ""


POINTS = {"1": point_1, "2": point_2, "3": point_3, "4": point_4, "5": point_5, "6": point_6, "7": point_7, "8": point_8}


def main():
    if len(sys.argv) > 1:
        for place in POINTS[sys.argv[1]]():
            print("%s:%d: %s: %s" % place)
        return
    for point, places in POINTS.items():
        found = list(places())
        kinds = collections.Counter(re.sub(r"\d+", "N", place[2]) if point in "2" else place[2] for place in found)
        line = ", ".join("%d %s" % (n, kind) for kind, n in sorted(kinds.items(), key=lambda pair: -pair[1])[:6])
        print("point %s: %d places (%s)" % (point, len(found), line))


main()
