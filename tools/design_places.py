#!/usr/bin/env python3
"""Lists the places in src/ that docs/DESIGN-PASS.md counts, point by point.

    tools/design_places.py            the numbers alone
    tools/design_places.py POINT ..   the places of these points (1a, 1b, 1c, 1d, 2, 3, 4, 5a, 5b, 6, 7, 8)
"""
import os
import re
import subprocess
import sys
from collections import defaultdict

ROOT = subprocess.check_output(["git", "rev-parse", "--show-toplevel"], text=True, cwd=os.path.dirname(os.path.abspath(__file__))).strip()

# A function: its attributes, head, clauses and body.
HEAD = re.compile(r"^(?P<indent> *)(?:pub(?:\(crate\))? )?(?:extern \"C\" )?fn (?P<name>\w+)(?P<generic><[^(]*>)?\(", re.M)
# What is asked of a cell, an operand or a builtin by a number for its kind.
KIND = re.compile(r"^(?:t|ta|tb|tc|want|op|kind|word): u(?:16|32|size)$|^n: u32$|^natural: bool$")


def sources():
    for folder, _, names in sorted(os.walk(f"{ROOT}/crates")):
        if "/src" in folder:
            for name in sorted(names):
                if name.endswith(".rt"):
                    path = f"{folder}/{name}"
                    with open(path, encoding="utf-8") as file:
                        yield os.path.relpath(path, ROOT), file.read()


def proofs():
    for folder, _, names in sorted(os.walk(f"{ROOT}/crates")):
        if "/proofs" in folder:
            for name in sorted(names):
                if name.endswith(".antt"):
                    with open(f"{folder}/{name}", encoding="utf-8") as file:
                        yield os.path.relpath(f"{folder}/{name}", ROOT), file.read()


def closing(text, at, pair):
    depth = 0
    for i in range(at, len(text)):
        depth += (text[i] == pair[0]) - (text[i] == pair[1])
        if depth == 0:
            return i
    return len(text)


def functions():
    for path, text in sources():
        bare = re.sub(r"//[^\n]*", lambda m: " " * len(m[0]), text)
        for found in HEAD.finditer(bare):
            end = closing(bare, found.end() - 1, "()")
            params = [p.strip() for p in re.split(r",(?![^<(\[]*[>)\]])", bare[found.end() : end]) if p.strip()]
            # The body begins at the first brace that stands at the head's own indent, or ends the head's line.
            brace = re.compile(rf"(?:^{found['indent']}\{{|\{{)$", re.M).search(bare, end)
            clauses = bare[end:brace.start()] if brace else ""
            result = re.match(r"\)\s*->\s*([^\n{]+)", clauses)
            body = bare[brace.start() : closing(bare, brace.end() - 1, "{}") + 1] if brace else ""
            line = bare.count("\n", 0, found.start("name")) + 1
            yield path, line, found["name"], params, result[1].strip() if result else "()", clauses, body


def enums():
    for path, text in sources():
        for found in re.finditer(r"^(?:pub )?enum (\w+) \{\n(.*?)^\}", text, re.M | re.S):
            variants = re.findall(r"^    (\w+)(\([^\n]*\)|\b)", found[2], re.M)
            yield path, text.count("\n", 0, found.start()) + 1, found[1], variants


def structs():
    for path, text in sources():
        for found in re.finditer(r"^(?:pub )?struct (\w+)(?:<[^>]*>)? \{\n(.*?)^\}", text, re.M | re.S):
            yield path, text.count("\n", 0, found.start()) + 1, found[1], re.findall(r"^    (?:pub )?(\w+): ([^\n]+),", found[2], re.M)


def point_1a():
    """enums with a case that refuses by a number, or of two cases of which one holds nothing"""
    for path, line, name, variants in enums():
        refuses = any(v in ("Refused",) for v, _ in variants)
        two = len(variants) == 2 and any(not held for _, held in variants)
        if refuses or two:
            yield f"{path}:{line} {name}"


def point_1b():
    """functions that give a refusal as a u8"""
    for path, line, name, _, result, _, body in functions():
        if result == "u8" and re.search(r"check|refus|otherwise|write_all", name):
            yield f"{path}:{line} {name}"


def point_1c():
    """structs with a flag, a refusal's number or an answer beside a value"""
    for path, line, name, fields in structs():
        flags = [f for f, _ in fields if f in ("refusal", "found", "done", "answer", "some", "half")]
        if flags and len(fields) > 1:
            yield f"{path}:{line} {name}: {', '.join(flags)}"


def point_1d():
    """parameters that take a kind, a type, an opcode or a word as a number"""
    for path, line, name, params, _, _, _ in functions():
        kinds = [p for p in params if KIND.match(p) and not p.startswith("natural")]
        if kinds:
            yield f"{path}:{line} {name}: {', '.join(kinds)}"


def shape(body):
    """A body with its names by the order in which they first stand, and its numbers alike."""
    seen = {}
    words = re.findall(r"\w+|[^\w\s]", body)
    keep = {"if", "else", "return", "match", "let", "mut", "while", "loop", "for", "in", "break", "as", "as", "true", "false", "self", "Ok", "Err", "Some", "None"}
    given = []
    for word in words:
        if re.match(r"\d", word):
            given.append("0")
        elif re.match(r"\w", word) and word not in keep:
            given.append(f"v{seen.setdefault(word, len(seen))}")
        else:
            given.append(word)
    return " ".join(given)


def point_2():
    """functions whose bodies are alike but for names and numbers, of twelve words or more"""
    groups = defaultdict(list)
    for path, line, name, _, _, _, body in functions():
        if len(re.findall(r"\w+", body)) >= 12:
            groups[shape(body)].append(f"{path}:{line} {name}")
    for places in groups.values():
        if len(places) > 1:
            yield " = ".join(places)


def point_3():
    """loops by `while` or `loop`"""
    for path, text in sources():
        for i, line in enumerate(text.split("\n"), 1):
            if re.match(r"\s*(?:let \w+ = )?(?:while |loop \{)", line):
                yield f"{path}:{i} {line.strip()}"


def point_4():
    """functions that compare fields, cast or map case by case"""
    for path, line, name, params, result, _, body in functions():
        inner = body.strip()[1:-1].strip()
        compares = name.startswith("same_") and result == "bool"
        casts = re.fullmatch(r"\w+ as \w+", inner)
        if compares or casts:
            yield f"{path}:{line} {name}"


def point_5a():
    """parameters of the same names that stand together in five functions or more"""
    together = defaultdict(list)
    sets = [("defs: &[u8]", "count: usize"), ("buf", "at"), ("out", "at"), ("file", "recorded"), ("file", "cells", "store", "entities"), ("a", "b", "c"), ("ta", "a", "tb", "b")]
    for path, line, name, params, _, _, _ in functions():
        for names in sets:
            if all(any(p == n or p.split(":")[0].strip() == n for p in params) for n in names):
                together[names].append(f"{path}:{line} {name}")
    for names, places in together.items():
        if len(places) >= 5:
            for place in places:
                yield f"({', '.join(names)}) {place}"


def point_5b():
    """requires that stand alike in three functions or more"""
    same = defaultdict(list)
    for path, line, name, _, _, clauses, _ in functions():
        for clause in re.findall(r"requires (?:\w+ )?\{ (.*) \}", clauses):
            same[clause].append(f"{path}:{line} {name}")
    for clause, places in same.items():
        if len(places) >= 3:
            yield f"{len(places)} times {{ {clause} }}: {', '.join(places)}"


def point_6():
    """numbers that say how much of a lent slice counts, and fixed arrays that a program reads into"""
    for path, line, name, params, _, clauses, body in functions():
        names = [p.split(":")[0].strip() for p in params]
        if re.search(r"\* n ≤ length|count ≤ length|\{ 4 \* count ≤", clauses) and {"n", "count"} & set(names):
            yield f"{path}:{line} {name}: {', '.join(names)}"
        for found in re.finditer(r"let mut (\w+) = \[0u?\w*; (\w+)", body):
            yield f"{path}:{line} {name}: [{found[1]}; {found[2]}]"


def point_7():
    """a `match` or a row of `if`s that chooses which function to call, of three arms or more"""
    for path, line, name, _, _, _, body in functions():
        arms = len(re.findall(r"=>\s*(?:\{\s*)?(?:return )?\w+(?:::\w+)*\(", body))
        tests = len(re.findall(r"if \w+ == \d+ \{", body))
        if arms >= 3 or tests >= 3:
            yield f"{path}:{line} {name}"


def point_8():
    """answers of goals in proofs/"""
    for path, text in proofs():
        for found in re.finditer(r"^(?:abbrev )?pub (\S+) : goal\.", text, re.M):
            yield f"{path} {found[1]}"


POINTS = {"1a": point_1a, "1b": point_1b, "1c": point_1c, "1d": point_1d, "2": point_2, "3": point_3, "4": point_4, "5a": point_5a, "5b": point_5b, "6": point_6, "7": point_7, "8": point_8}


def main():
    asked = sys.argv[1:]
    for key, point in POINTS.items():
        places = list(point())
        if not asked:
            print(f"{key:3} {len(places):5}  {point.__doc__}")
        elif key in asked:
            print(f"{key}: {point.__doc__}: {len(places)}", *places, sep="\n    ")


if __name__ == "__main__":
    main()
