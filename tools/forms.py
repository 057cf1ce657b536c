#!/usr/bin/env python3
"""Counts places of older forms in crates/*/src: forms.py [--list POINT] [--at FOLDER] [--page FILE]

With --page it prints nothing and ends with 1 where the last column of FILE's table does not have the counts of points 1 to 7.

1 enum    enums of two variants of which one holds nothing but a refusal, a reason or nothing, and structs with a bool beside values
2 alike   functions of three lines or more whose bodies are the same once names, numbers and types are taken out
3 loop    `while` and `loop`, and `for` over an index that only reads one slice in order
4 hand    functions that turn one type into another, or compare or print, by hand
5 fact    facts that stand in the `requires` of three or more functions; functions of eight parameters or more
6 length  parameters that hand on a buffer and how many of its elements count
7 switch  functions that ask a bool parameter or field which step to run
8 proof   lines of proofs, answers, invariants, lemmas
"""
import collections
import pathlib
import re
import sys

args = sys.argv[1:]
root = pathlib.Path(args[args.index("--at") + 1]) if "--at" in args else pathlib.Path(__file__).resolve().parents[1]
wanted = args[args.index("--list") + 1] if "--list" in args else None


def sources():
    for file in sorted(root.glob("crates/*/src/**/*.rt")):
        yield file.relative_to(root), file.read_text()


HEAD = re.compile(r"^( *)(?:pub(?:\(crate\))? )?(?:const )?(?:unsafe )?(?:extern \"C\" )?fn (\w+)", re.M)


def functions():
    """Place, name, head (to the opening brace of the body), clauses and body of each function."""
    for file, text in sources():
        for found in HEAD.finditer(text):
            indent = found.group(1)
            end = text.find(f"\n{indent}}}", found.start())
            if end < 0:
                continue
            whole = text[found.start():end]
            opened = whole.find(f"\n{indent}{{\n")
            if opened < 0:
                opened = whole.find("{\n")
                head, body = whole[:opened], whole[opened + 2:]
            else:
                head, body = whole[:opened], whole[opened + len(indent) + 3:]
            clause = re.search(r"\n *(requires|ensures)", head)
            signature, clauses = (head[:clause.start()], head[clause.start():]) if clause else (head, "")
            line = text.count("\n", 0, found.start()) + 1
            yield f"{file}:{line}", found.group(2), signature, clauses, body


def enums():
    for file, text in sources():
        for found in re.finditer(r"^(?:pub(?:\(crate\))? )?(enum|struct) (\w+)[^{\n]*\{\n(.*?)^\}", text, re.M | re.S):
            kind, name, body = found.groups()
            body = re.sub(r"//[^\n]*", "", body)
            place = f"{file}:{text.count(chr(10), 0, found.start()) + 1} {name}"
            if kind == "enum":
                flat = re.sub(r"\{[^}]*\}", "{}", body)
                variants = [v.strip() for v in flat.split(",") if v.strip()]
                if len(variants) == 2 and any("(" in v or "{" in v for v in variants):
                    yield place
            elif re.search(r": bool,", body) and len(re.findall(r":", body)) > 1:
                yield place


def alike():
    groups = collections.defaultdict(list)
    for place, name, _, _, body in functions():
        lines = [l for l in body.split("\n") if l.strip() and not l.strip().startswith("//")]
        if len(lines) < 3:
            continue
        shape = re.sub(r"\b\w+\b", lambda m: m.group(0) if m.group(0) in KEPT else "x", "\n".join(l.strip() for l in lines))
        groups[shape].append(f"{place} {name}")
    for group in groups.values():
        if len(group) > 1:
            yield "  ".join(group)


KEPT = {"if", "else", "for", "while", "loop", "match", "return", "let", "mut", "in", "as", "break", "Ok", "Err", "Some", "None"}


def loops():
    for file, text in sources():
        lines = text.split("\n")
        for i, line in enumerate(lines):
            if re.match(r"\s*(while\b.*|loop) \{$", line):
                yield f"{file}:{i + 1} {line.strip()}"
            found = re.match(r"(\s*)for (\w+) in 0\.\.(\w+)\.len\(\) \{$", line)
            if found:
                end = next(j for j in range(i + 1, len(lines)) if re.match(found.group(1) + r"\}", lines[j]))
                inner = "\n".join(lines[i + 1:end])
                inner = re.sub(r"\b" + found.group(3) + r"\[" + found.group(2) + r"\]", "", inner)
                if not re.search(r"\b" + found.group(2) + r"\b", inner):
                    yield f"{file}:{i + 1} {line.strip()}"


def hand():
    for place, name, signature, _, body in functions():
        result = signature.split("->")[-1].strip() if "->" in signature else ""
        if re.search(r"(^|_)(same|equal|equals|eq|less|number|letter|clone|print|outer|inner|settings)(_|$)", name) and result:
            yield f"{place} {name} -> {result}"


def facts():
    where = collections.defaultdict(set)
    for place, name, signature, clauses, _ in functions():
        for requires in re.findall(r"requires[^{]*\{(.*?)\}\n", clauses + "\n", re.S):
            for fact in requires.split("×"):
                word = re.match(r"[\s(]*([A-Z]\w+)\b", fact)
                if word:
                    where[place.split("/")[1] + " " + word.group(1)].add(place + " " + name)
        count = len(re.findall(r"\w+: ", signature))
        if count >= 8:
            yield f"{place} {name}: {count} parameters"
    for word, places in sorted(where.items()):
        if len(places) > 2:
            yield f"{word}: in {len(places)} functions"


def lengths():
    for place, name, signature, _, _ in functions():
        flat = re.sub(r"\s+", " ", signature)
        if re.search(r"\w+: &(mut )?\[[^;\]]+\], (\w+: usize, )?(n|len|count|total): usize", flat):
            yield f"{place} {name}"


def switches():
    bools = set()
    for _, text in sources():
        bools |= set(re.findall(r"\b(\w+): bool\b", text))
    for place, name, signature, _, body in functions():
        own = set(re.findall(r"\b(\w+): bool\b", signature))
        if re.search(r"if !?\(?(\w+)\.(" + "|".join(sorted(bools | {"zz"})) + r")\b(?!\()", body):
            yield f"{place} {name}"
        elif any(re.search(rf"if !?{b}\b(?!\()", body) for b in own):
            yield f"{place} {name}"


def proofs():
    for kind, pattern in (("Answers", "**/Answers.antt"), ("Invariants", "**/Invariants.antt"), ("lemmas", "**/*.antt")):
        files = [f for f in root.glob("crates/*/proofs/" + pattern)]
        if kind == "lemmas":
            files = [f for f in files if f.name not in ("Answers.antt", "Invariants.antt", "Proof.antt", "Lib.antt")]
        yield f"{kind}: {len(files)} files, {sum(f.read_text().count(chr(10)) for f in files)} lines"


POINTS = [("1", enums), ("2", alike), ("3", loops), ("4", hand), ("5", facts), ("6", lengths), ("7", switches), ("8", proofs)]
page = pathlib.Path(args[args.index("--page") + 1]).read_text() if "--page" in args else None
stale = []
for point, places in POINTS:
    found = list(places())
    if page is not None:
        row = re.search(rf"^\| {point} \|.*\| (\d+) \|$", page, re.M)
        if point != "8" and (not row or int(row.group(1)) != len(found)):
            stale.append(f"{point}: {len(found)} places")
    elif wanted == point:
        print("\n".join(found))
    elif wanted is None:
        print(point, "; ".join(found) if point == "8" else len(found))
if stale:
    sys.exit("tools/forms.py: not what the page says: " + ", ".join(stale))
