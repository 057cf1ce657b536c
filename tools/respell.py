#!/usr/bin/env python3
"""Spells the repository's own definitions and lemmas as today's Rattle does: `patchFloats` is `patch_floats`.

usage: tools/respell.py [FOLDER]

Run once, right after Rattle's own scripts. A name in camel case turns wherever it stands in specs/ and proofs/, in the
clauses, `ghost use` items and comments of src/, in the edits of must-fail/ and tests/wrong/, and in the code spans of
docs/. What src/ itself declares, quoted text and numerals stay. A name that would meet another one of the same file is
printed, and stays everywhere.
"""
import glob
import os
import re
import sys

TOKEN = re.compile(r"(?<![\w'])[A-Za-z_][\w']*(?:-[\w'*+≤<≡∷]+)*")
CAMEL = re.compile(r"^[a-z][A-Za-z0-9_₀-₉']*$")
HUMP = re.compile(r"(?<=[a-z0-9])(?=[A-Z])")
QUIET = re.compile(r'"(?:[^"\\\n]|\\.)*"')
# Lemmas that have the name which their definition gets.
LEMMAS = {w: w + "_lem" for w in ("apart_by", "found_number", "new_by", "pair_fits", "plain_fits")}
# Fields of records beside which a definition of a module that is named in front of it may stand.
FIELDS = {"grid_h", "grid_w"}
# A function of src/, which no clause can name: its name is free for a definition.
CALLED = re.compile(r"(?<![\w.])(?:use [^;]*;|(?:\w+::)*\w+(?=\())")
RUST = re.compile(r"//[^\n]*|\"(?:[^\"\\]|\\.)*\"|(?:requires|ensures)\*?\s*(?:\w+\s*)?\{|ghost\s+use\b[^;]*;")


def snake(word):
    word = re.sub(r"getD(?![a-z])", "get_or", word)
    return re.sub(r"(?<=[a-z0-9])[A-Z]", lambda m: "_" + m[0].lower(), word)


def parts(token):
    return token.split("-")


def is_camel(word):
    return bool(CAMEL.match(word)) and bool(HUMP.search(word))


def turned(text, table):
    def one(m):
        if m[0] in LEMMAS and text[m.start() - 1 : m.start()] not in tuple(".:`"):
            return LEMMAS[m[0]]
        return "-".join(table.get(p, p) for p in parts(m[0]))

    return TOKEN.sub(one, text)


def outside(pattern, text, keep, turn):
    out, at = [], 0
    for m in pattern.finditer(text):
        out += [turn(text[at : m.start()]), keep(m)]
        at = m.end()
    return "".join(out) + turn(text[at:])


def clause(text, at):
    """The end of the clause whose brace ends just before `at`."""
    depth = 1
    while depth:
        depth += {"{": 1, "}": -1}.get(text[at], 0)
        at += 1
    return at


def pieces(text):
    """The parts of a Rust file, each with whether names turn there."""
    at = 0
    while True:
        m = RUST.search(text, at)
        if not m:
            yield False, text[at:]
            return
        yield False, text[at : m.start()]
        end = m.end()
        if m[0].endswith("{") and not m[0].startswith(("/", '"')):
            end = clause(text, end)
        yield not m[0].startswith('"'), text[m.start() : end]
        at = end


def antt(text, table):
    return outside(QUIET, text, lambda m: m[0], lambda t: turned(t, table))


def rust(text, table):
    return "".join(turned(t, table) if ours else t for ours, t in pieces(text))


def spans(text, table):
    return re.sub(r"`[^`\n]+`", lambda m: turned(m[0], table), text)


def words(text):
    return {p for m in TOKEN.finditer(text) for p in parts(m[0])}


def whole(text):
    """The names of a file; what stands behind a dot is a field's or a module's, and meets nothing."""
    return {m[0] for m in TOKEN.finditer(text) if text[m.start() - 1 : m.start()] != "." or any(map(is_camel, parts(m[0])))}


def main(top):
    os.chdir(top)
    proofs = sorted(glob.glob("crates/*/specs/**/*.antt", recursive=True) + glob.glob("crates/*/proofs/**/*.antt", recursive=True))
    sources = sorted(glob.glob("crates/*/src/**/*.rt", recursive=True))
    edits = sorted(glob.glob("crates/*/must-fail/*.edit") + glob.glob("tests/wrong/*/*.edit"))
    pages = sorted(glob.glob("docs/*.md"))
    text = {f: open(f, encoding="utf-8").read() for f in proofs + sources + edits + pages}
    table = {}
    for f in proofs:
        code = re.sub(r"--[^\n]*", " ", QUIET.sub(" ", text[f]))
        table.update({w: snake(w) for w in words(code) if is_camel(w)})
    for f in sources:
        code = " ".join(t for ours, t in pieces(text[f]) if ours and not t.startswith("//"))
        table.update({w: snake(w) for w in words(code) if is_camel(w)})
    stay = set()
    for f in proofs + sources:
        here = re.sub(r"(?m)(?:^|(?<=\s))(?:--|//)[^\n]*", " ", QUIET.sub(" ", text[f]))
        if f.endswith(".rt"):
            here = CALLED.sub(" ", here)
        here = whole(here)
        seen = {}
        for t in here:
            new = "-".join(table.get(p, p) for p in parts(t))
            if new in seen and seen[new] != t and new not in FIELDS and new not in LEMMAS:
                both = {seen[new], t}
                print("meets: %s: %s" % (f, " and ".join(sorted(both))))
                stay.update(p for b in both for p in parts(b) if p in table)
            seen[new] = t
    for w in stay:
        del table[w]
    for f in proofs:
        text[f] = antt(text[f], table)
    for f in sources:
        text[f] = rust(text[f], table)
    for f in edits:
        text[f] = antt(text[f], table)
    for f in pages:
        text[f] = spans(text[f], table)
    for f, t in text.items():
        with open(f, "w", encoding="utf-8") as file:
            file.write(t)
    print("%d names turned, %d stay" % (len(table), len(stay)))


if __name__ == "__main__":
    main(sys.argv[1] if len(sys.argv) > 1 else os.path.join(os.path.dirname(os.path.abspath(__file__)), ".."))
