#!/usr/bin/env python3
"""Brings the repository's own definitions, laws and lemmas to the spelling of today's Rattle: words in snake case, a prime as an apostrophe.

usage: respell_names.py [--list | --documents] [FOLDER]

Run once, after the kit's own script for older repositories and before anything was written by hand. It rewrites crates/*/specs, crates/*/proofs, the
clauses and `ghost use` items of crates/*/src and crates/*/must-fail in place. Functions, types and everything else of src/ keep their names, and so do names
that a file imports from the kit, strings, and what Rattle generates. --list prints old and new name, --documents turns the pages that cite them.
It stops where two names of one file would become one.
"""

import os
import re
import sys

NAME = re.compile(r"(?<![A-Za-z0-9_'′\-])[A-Za-z_][A-Za-z0-9_'′\-]*")
USE = re.compile(r"^(ghost )?use\s+([^\s{;]+?)(?:\.\{([^}]*)\})?(?:\s+as\s+(\S+?))?;?\s*$", re.M)
DECLARED = re.compile(r"^( *)((?:abbrev |unfoldable |pub |data |record )*)([A-Za-z][A-Za-z0-9_'′\-]*(?: [A-Za-z][A-Za-z0-9_'′\-]*)*) :(?= |$)", re.M)
# Where the rule gives no readable name, or one that another definition of the same file has.
OVERRIDES = {"number-1": "number_less_one"}
# What the checker writes for a function's proof; those files are turned apart from this.
GENERATED = re.compile(r"^(returns|decreases-|invariant-|met$)|-(requires|spec|preserved|init|result)(-\d+)?$")


# Laws that had the name of what they speak of, but for a hyphen: found by `laws_of_one_name`, and by hand those that already were in snake case.
LAWS = set()
SNAKE_LAWS = {"as_step", "at_front", "cells_fit", "function_of", "is_digit", "not_op", "one_by_one", "up_to_zero"}


def wants(name):
    return name[0].islower() and bool(re.search(r"[A-Z\-′]", name))


def laws_of_one_name(declared, every):
    by = {}
    for n in every:
        by.setdefault(plain(n), set()).add(n)
    return {n for n in declared if "-" in n and len(by[plain(n)]) > 1} | {"is-nan"}


# What an earlier run wrote down, for pages that cite the names.
WRITTEN = {}


def respelled(name):
    if name in WRITTEN:
        return WRITTEN[name]
    return plain(name) + ("_law" if name in LAWS else "")


def plain(name):
    if name in OVERRIDES:
        return OVERRIDES[name]
    name = name.replace("′", "'")
    name = re.sub(r"(?<=[a-z0-9'])([A-Z])", r"_\1", name)
    name = re.sub(r"(?<=[A-Z])([A-Z])(?=[a-z])", r"_\1", name)
    return re.sub(r"_+", "_", name.replace("-", "_")).lower()


def files(root, folders, ending):
    for crate in sorted(os.listdir(os.path.join(root, "crates"))):
        for folder in folders:
            top = os.path.join(root, "crates", crate, folder)
            for where, dirs, names in os.walk(top):
                dirs[:] = sorted(d for d in dirs if d != "out")
                for n in sorted(names):
                    if n.endswith(ending):
                        yield os.path.join(where, n)


def read(path):
    with open(path, encoding="utf-8") as f:
        return f.read()


def write(path, text):
    with open(path, "w", encoding="utf-8") as f:
        f.write(text)


def crates(root):
    return {c for c in os.listdir(os.path.join(root, "crates")) if os.path.isdir(os.path.join(root, "crates", c))}


def imported(text, own):
    """The names that a file takes from the kit, and those that it takes from the repository."""
    kit, ours = set(), set()
    for m in USE.finditer(text):
        parts = m.group(2).split(".")
        mine = parts[0] == "Rattle" and len(parts) > 1 and parts[1] in own
        for item in (m.group(3) or "").split(","):
            item = item.strip()
            if not item:
                continue
            name = item.split(" as ")[-1].strip()
            (ours if mine else kit).add(name)
        if m.group(4):
            (ours if mine else kit).add(m.group(4))
    return kit, ours


def of_a_function(path):
    return os.path.basename(path) in ("Proof.antt", "Answers.antt", "Invariants.antt")


def declared_in(path, text):
    found = set()
    for m in DECLARED.finditer(text):
        line = text[m.start():text.find("\n", m.start())]
        if of_a_function(path) and (": tie." in line or ": goal." in line or m.group(3).endswith("-spec")):
            continue
        for n in m.group(3).split(" "):
            if n not in ("pub", "data", "record", "abbrev", "unfoldable"):
                found.add(n)
    return found


def pieces(text):
    """The text in runs of (kind, text): comments, strings and the rest, for .antt and for .rt alike."""
    out, i, start = [], 0, 0
    while i < len(text):
        two = text[i:i + 2]
        begins_line = text[:i].rfind("\n") + 1
        if two in ("--", "//") and text[begins_line:i].strip() == "" or two == "--" and text[i - 1:i] == " " or two == "//" and text[i - 1:i] == " ":
            end = text.find("\n", i)
            end = len(text) if end < 0 else end
            out.append(("rest", text[start:i]))
            out.append(("comment", text[i:end]))
            i = start = end
        elif text[i] == '"':
            end = i + 1
            while end < len(text) and text[end] != '"':
                end += 2 if text[end] == "\\" else 1
            out.append(("rest", text[start:i]))
            out.append(("string", text[i:end + 1]))
            i = start = end + 1
        else:
            i += 1
    out.append(("rest", text[start:]))
    return out


def turn_words(text, declared):
    """In words for a reader: a name in camel case anywhere, one with a hyphen only in backquotes."""
    text = re.sub(r"(?<![A-Za-z0-9_'\-/.])[a-z][A-Za-z0-9']*[A-Z][A-Za-z0-9']*(?![A-Za-z0-9_'\-/(])",
                  lambda m: respelled(m.group(0)) if m.group(0) in declared else m.group(0), text)
    return re.sub(r"`([^`\n]*)`", lambda m: "`" + NAME.sub(lambda n: respelled(n.group(0)) if n.group(0) in declared and wants(n.group(0)) else n.group(0), m.group(1)) + "`", text)


def turn(path, text, declared, own, said):
    kit, ours = imported(text, own)
    proof = of_a_function(path)
    local = declared_in(path, text)
    # A module of a function under a short name has what Rattle generates.
    modules = {m.group(4) for m in USE.finditer(text) if m.group(4) and proof}
    turned = {}

    def name(m, line_is_kit=False):
        n = m.group(0)
        before = m.string[m.start() - 1:m.start()]
        if n in SNAKE_LAWS and before != "." and path.endswith(".antt") and (n in local or n in ours) and not line_is_kit:
            return n + "_law"
        if not wants(n) or line_is_kit or before == ":" or n in modules:
            return n
        if path.endswith(".antt"):
            if n in kit and n not in local:
                return n
            if before == "." and n not in declared:
                said.add(f"{path}: .{n} is left")
                return n
            if before == "." and proof and GENERATED.search(n):
                return n
            if proof and n not in declared and (GENERATED.search(n) or before == "."):
                return n
            if n in local or n in declared or n in ours or not proof or not GENERATED.search(n):
                turned[n] = respelled(n)
                return turned[n]
            return n
        if n in declared:
            turned[n] = respelled(n)
            return turned[n]
        return n

    out = []
    for kind, part in pieces(text):
        if kind == "comment":
            out.append(turn_words(part, declared))
        elif kind == "string":
            out.append(part)
        else:
            lines = part.split("\n")
            for i, line in enumerate(lines):
                m = USE.match(line)
                kits = bool(m) and not (m.group(2).split(".")[0] == "Rattle" and m.group(2).split(".")[1:2] and m.group(2).split(".")[1] in own)
                if m and not kits:
                    head = m.group(2)
                    lines[i] = line[:m.start(2)] + head + NAME.sub(name, line[m.end(2):])
                else:
                    lines[i] = NAME.sub(lambda x: name(x, kits), line)
            out.append("\n".join(lines))
    after = "".join(out)
    # names that fall together in this file
    code = "".join(p for k, p in pieces(text) if k == "rest")
    there = {m.group(0) for m in NAME.finditer(code) if code[m.start() - 1:m.start()] != "."}
    back = {}
    for old, new in turned.items():
        if new in there - SNAKE_LAWS and path.endswith(".antt") and new != "check_number":
            said.add(f"{path}: `{old}` would fall together with `{new}`")
        if new in back and back[new] != old:
            said.add(f"{path}: `{old}` and `{back[new]}` would both be `{new}`")
        back[new] = old
    return after


def main():
    args = sys.argv[1:]
    root = next((a for a in args if not a.startswith("-")), ".")
    own = crates(root)
    every = set()
    for path in files(root, ("specs", "proofs"), ".antt"):
        every |= declared_in(path, read(path))
    declared = {n for n in every if wants(n)}
    LAWS.update(laws_of_one_name(declared, every))
    if "--list" in args:
        for n in sorted(declared):
            print(n, respelled(n))
        return
    if "--documents" in args:
        names = os.path.join(root, "tools", "respelled_names.txt")
        WRITTEN.update(line.split() for line in read(names).split("\n") if line)
        was = set(WRITTEN)
        pages = [os.path.join(root, "README.md")]
        for where, dirs, found in os.walk(os.path.join(root, "docs")):
            pages += [os.path.join(where, n) for n in sorted(found) if n.endswith(".md")]
        for path in pages:
            text = read(path)
            after = turn_words(text, was)
            if after != text:
                write(path, after)
        return
    said = set()
    turned = {}
    for path in list(files(root, ("specs", "proofs"), ".antt")) + list(files(root, ("src",), ".rt")) + list(files(root, ("must-fail",), ".edit")):
        text = read(path)
        after = turn(path, text, declared, own, said)
        if after != text:
            turned[path] = after
    for line in sorted(said):
        print(line)
    if any("fall together" in s or "would both" in s for s in said) and "--anyway" not in args:
        raise SystemExit("nothing was written: two names would become one")
    for path, text in turned.items():
        write(path, text)
    with open(os.path.join(root, "tools", "respelled_names.txt"), "w", encoding="utf-8") as f:
        f.writelines(f"{n} {respelled(n)}\n" for n in sorted(declared))


if __name__ == "__main__":
    main()
