#!/usr/bin/env python3
"""Brings the repository's own definitions, fields, constructors, lemmas and variables to snake case.

usage: tools/respell.py [--check] [FOLDER]

It is the second half of the move to today's Rattle and runs once, right after the kit's port.py (docs/PORT.md): `tooHigh` becomes `too_high`, a lemma
`opens-no-other` becomes `opens_no_other`. What a file imports from the kit's libraries, what stands behind a dot but for fields and constructors of the
repository's own, names that Rattle makes (`tie.Need-..`), module paths, strings and the names of Rust items stay. Two names that fall together in a file
are named and nothing is written; LEMMAS says which of the two gets another name.
"""

import os
import re
import sys

# a lemma whose new name is taken by what it speaks of, or by another lemma
LEMMAS = {
    "blocked-in": "blocked_in_lem",
    "bytes-put": "bytes_put_lem",
    "bytes_fit": "bytes_fit_lem",
    "child-in-tree": "child_in_tree_lem",
    "code_read": "code_read_lem",
    "drains-under": "drains_under_lem",
    "family-owns": "family_owns_lem",
    "group-by": "group_by_lem",
    "head-known": "head_known_lem",
    "held-for": "held_for_lem",
    "in-family": "in_family_lem",
    "in-tree": "in_tree_lem",
    "line-for": "line_for_lem",
    "member-somewhere": "member_somewhere_lem",
    "named-text": "named_text_lem",
    "no-group": "no_group_lem",
    "number_read": "number_read_lem",
    "owners-fit": "owners_fit_lem",
    "pair-of": "pair_of_lem",
    "plain-of": "plain_of_lem",
    "quick-effect": "quick_effect_lem",
    "reads-long": "reads_long_lem",
    "rest-fits": "rest_fits_lem",
    "right-once": "right_once_lem",
    "sets-left": "sets_left_lem",
    "sound-image": "sound_image_lem",
    "sound-with": "sound_with_lem",
    "stand-at": "stand_at_lem",
    "stand-somewhere": "stand_somewhere_lem",
    "stands-nowhere": "stands_nowhere_lem",
    "stands_at": "stands_at_lem",
    "too_long": "too_long_lem",
    "whole-requests": "whole_requests_lem",
    "writes-long": "writes_long_lem",
}

TOKEN = re.compile(r"[^\s(){}.;,@\"«»\[\]\\]+")
CAMEL = re.compile(r"^[a-z][a-z0-9]*[A-Z]")
DASHED = re.compile(r"^[a-z][\w'₀-₉]*(-[\w'₀-₉]+)+$")
MADE = re.compile(r"^(invariant|decreases)-")
SIGNATURE = re.compile(r"^\s*(?:(?:abbrev|unfoldable|pub|data|record)\s+)*([^\s(){};:,.]+)(?:\s+[({].*?)?\s+:\s")
RESERVED = set(
    "data record deriving module where use mod pub package open as unfoldable abbrev axiom unfold unfolding ruleset mutual infix infixl infixr elim let in do Type"
    " search assumption simp rw omega cc grind hlevel ground tt absurd Unit".split()
)


def snake(name):
    return re.sub(r"(?<=[a-z0-9'])([A-Z])", lambda m: "_" + m.group(1).lower(), name)


def texts(top, endings):
    for folder, dirs, files in os.walk(os.path.join(top, "crates")):
        dirs[:] = sorted(d for d in dirs if d not in ("out", "must-fail", "data"))
        for f in sorted(files):
            if f.endswith(endings):
                yield os.path.join(folder, f)


def read(path):
    with open(path, encoding="utf-8") as f:
        return f.read()


def own_crates(top):
    return set(os.listdir(os.path.join(top, "crates")))


IMPORT = re.compile(r"^\s*(?:pub )?(?:ghost )?use ([^\s{;]+?)(?:\.?\{([^}]*)\})?(?: as (\S+?))?;?$", re.M)


def foreign(text, own):
    """The names that a file imports from the kit's libraries or from what Rattle makes."""
    names = set()
    for m in IMPORT.finditer(text):
        parts = m.group(1).split(".")
        ours = parts[0] == "Rattle" and len(parts) > 1 and parts[1] in own and not re.search(r"\.(Tie|Statement|Goals|Given|Reads|Code|Lts|contracts|declared)\b", m.group(1))
        if not ours and m.group(2):
            for it in m.group(2).split(","):
                names |= set(it.split())
    return names


def split_comment(line, mark):
    at = line.find(mark)
    return (line, "") if at < 0 else (line[:at], line[at:])


def renamed(token, own_names, shut):
    if token in shut or MADE.match(token):
        return token
    new = token
    if CAMEL.match(new):
        new = snake(new)
    if DASHED.match(token) and token in own_names:
        new = new.replace("-", "_")
    return LEMMAS.get(token, new) if token in own_names else new


def turn(text, mark, own_names, shut, said, own):
    lines = []
    # modules of the repository's own that the file names: what stands behind their dot is renamed too
    modules = set()
    for m in IMPORT.finditer(text):
        parts = m.group(1).split(".")
        if parts[0] == "Rattle" and len(parts) > 1 and parts[1] in own and not m.group(2):
            modules.add(m.group(3) or parts[-1])
    for line in text.split("\n"):
        body, comment = split_comment(line, mark)

        def each(m):
            token, before = m.group(0), body[: m.start()]
            if before.count('"') % 2:
                return token
            if before.endswith(".") and not re.search(r"[λ∃][^.]*\.$", before):
                if CAMEL.match(token):
                    return snake(token)
                head = re.search(r"([\w'₀-₉-]+)\.$", before)
                return renamed(token, own_names, shut) if head and head.group(1) in modules and not line.lstrip().startswith(("use ", "pub use ", "ghost use ")) else token
            if mark == "//" and "-" not in token and not CAMEL.match(token):
                new = token
            else:
                new = renamed(token, own_names, shut)
            said.setdefault(new, set()).add(token)
            return new

        body = TOKEN.sub(each, body)
        comment = re.sub(r"`([^`\s]+)`", lambda m: "`" + TOKEN.sub(lambda t: renamed(t.group(0), own_names, shut) if "-" in t.group(0) else t.group(0), m.group(1)) + "`", comment)
        comment = re.sub(r"\b[a-z][a-z0-9]*[A-Z][A-Za-z0-9]*\b", lambda m: snake(m.group(0)), comment)
        lines.append(body + comment)
    return "\n".join(lines)


def main(argv):
    check = "--check" in argv
    rest = [a for a in argv if not a.startswith("-")]
    top = rest[0] if rest else "."
    own = own_crates(top)
    antt = {p: read(p) for p in texts(top, ".antt")}
    own_names = set()
    for text in antt.values():
        shut = foreign(text, own)
        for line in text.split("\n"):
            line, _ = split_comment(line, "--")
            m = SIGNATURE.match(line)
            if m and not re.search(r": tie\.(Need|invariant|decreases)-", line):
                own_names.add(m.group(1))
            # what binds a variable: λ, let, arguments of a signature, patterns of an equation
            for m in re.finditer(r"(?:λ|let|elim)\s+([^.=:]*)[.=:]|[({]([^(){}:]+)\s:\s|^\s*([^:]*?)\s=(?:\s|$)", line):
                for part in m.groups():
                    if part:
                        own_names |= set(t for t in TOKEN.findall(part) if DASHED.match(t) and t not in shut)
            m = re.match(r"^\s*(?:pub )?use .* as (\S+)$", line)
            if m:
                own_names.add(m.group(1))
        own_names -= set(t for t in own_names if MADE.match(t))
    # answers of a Proof.antt have the names that Rattle makes: they stay for the move to Answers.antt
    for p, text in antt.items():
        if p.endswith("Proof.antt"):
            for m in re.finditer(r"^(\S+) : tie\.Need-", text, re.M):
                own_names.discard(m.group(1))
    bad, out = 0, {}
    for p, text in antt.items():
        said, shut = {}, foreign(text, own)
        new = turn(text, "--", own_names, shut, said, own)
        for it, olds in sorted(said.items()):
            if len(olds) > 1:
                print(f"falls together: {p}: {it}: {' '.join(sorted(olds))}")
                bad += 1
            if it in RESERVED and olds != {it}:
                print(f"reserved: {p}: {it}: {' '.join(sorted(olds))}")
                bad += 1
        if new != text:
            out[p] = new
    functions = {f for p in texts(top, ".rt") for f in re.findall(r"\bfn (\w+)", read(p))}
    for p in texts(top, ".rt"):
        text, said = read(p), {}
        new = turn(text, "//", own_names, foreign(text, own), said, own)
        for it, olds in sorted(said.items()):
            # a definition may have the name of the function that it says the result of
            if len(olds) > 1 and it not in functions:
                print(f"falls together: {p}: {it}: {' '.join(sorted(olds))}")
                bad += 1
        if new != text:
            out[p] = new
    print(f"respell: {len(own_names)} names of the repository's own, {len(out)} files to change, {bad} that fall together")
    if bad or check:
        return 1 if bad else 0
    for p, text in out.items():
        with open(p, "w", encoding="utf-8") as f:
            f.write(text)
    return 0


if __name__ == "__main__":
    raise SystemExit(main(sys.argv[1:]))
