#!/usr/bin/env python3
"""Of an older Rattle, for the proof files that had landed with it (docs/PORT.md): today's proofs name each step, and have no paths to fill in.

Writes the paths of a proof. A fact that was learnt earlier in a function is named by a path, `c .before .before .check-cell .ensures`, and the paths
of a whole proof move when a line of the code does. So a proof may be written without them:

    c@check-cell .ensures    the fact of that name that is nearest before `c`
    c@@After-does            the place of that name, to be handed to a lemma
    @close NAME-spec ..      as the last line: the closing definition. What was proved above stands in its place, and the other needs are left to the
                             search. `..` is what stands before the needs, as the invariant and the measure of a loop

    python3 tools/fill_proof.py CRATE FUNCTION
    python3 tools/fill_proof.py --empty CRATE FUNCTION

The first fills crates/CRATE/proofs/../FUNCTION/Proof.antt, by what `rt dev CRATE --generated` says of the function. The file is put aside while that runs, since
the prover doesn't read `@`. The second turns a proof's paths back into names: before a change of the code, so that they can be filled again after it.
"""
import glob
import os
import re
import subprocess
import sys

GENERATED = "target/generated"

# What the first place of every function has beside what is generated for it.
AT_START = {"pre", "args", "good", "κs"}


def one(pattern):
    found = glob.glob(pattern, recursive=True)
    if len(found) != 1:
        sys.exit(f"fill_proof: {len(found)} files are {pattern}")
    return found[0]


def generate(crate, proof):
    """Generates the texts of the crate without this proof."""
    aside = proof + ".aside"
    os.rename(proof, aside)
    try:
        subprocess.run(["rt", "dev", crate, "--generated", GENERATED], capture_output=True, check=False)
    finally:
        os.rename(aside, proof)


def places(path):
    """The places of a function, each with its fields and the place before it; and the place at which each need is asked."""
    fields, before, needs, place, need = {}, {}, {}, None, None
    with open(path) as lines:
        for line in lines:
            if match := re.match(r" +pub record (\S+) : Type", line):
                place = match.group(1)
                fields[place] = set()
            elif (match := re.match(r" +pub (\S+) : ?(\S*)", line)) and place:
                fields[place].add(match.group(1))
                if match.group(1) == "before":
                    before[place] = match.group(2)
            elif match := re.match(r" +(Need-\S+) =\s*(?:\(c : (\S+)\) →.*)?$", line):
                need, place = match.group(1), None
                if match.group(2):
                    needs[need] = match.group(2)
            elif (match := re.match(r" +\(c : (\S+)\) →", line)) and need not in needs:
                needs[need] = match.group(1)
    fields["Start"] = fields.get("Start", set()) | AT_START
    return fields, before, needs


def path(start, before, wanted):
    """`c .before ..` from a place to the nearest one that is wanted."""
    place, steps = start, 0
    while not wanted(place):
        if place not in before:
            sys.exit(f"fill_proof: nothing before {start} is what was asked for")
        place, steps = before[place], steps + 1
    return "c" + " .before" * steps


def filled(text, fields, before, needs):
    """The text with its paths. The type of `c` is in the signature above."""
    lines, start = [], None
    for line in text.split("\n"):
        if match := re.match(r"\S+ : tie\.(Need-\S+)", line):
            start = needs[match.group(1)]
        elif match := re.match(r"\S+ : \(c : tie\.([^ )]+)", line):
            start = match.group(1)
        line = re.sub(r"\bc@@([^\s()]+)", lambda m: path(start, before, lambda p: p == m.group(1)), line)
        line = re.sub(r"\bc@([^\s()@.]+)", lambda m: path(start, before, lambda p: m.group(1) in fields[p]) + " ." + m.group(1), line)
        lines.append(line)
    return "\n".join(lines)


def named(match, start, fields, before):
    """A path as a name, where filling the name would give the path again."""
    steps, field = match.group(1).count(".before"), match.group(2)
    place = start
    for _ in range(steps):
        place = before[place]
    if field and field in fields[place] and path(start, before, lambda p: field in fields[p]).count(".before") == steps:
        return f"c@{field}"
    if steps:
        return f"c@@{place}" + (f" .{field}" if field else "")
    return match.group(0)


def emptied(text, fields, before, needs):
    """The text with names for its paths, and no closing definition."""
    lines, start = [], None
    for line in text.split("\n"):
        if match := re.match(r"pub (\S+-spec) : ", line):
            spec = text[text.index(line) :]
            lines.append(f"@close {match.group(1)}" + "".join(" " + word for word in re.findall(r"\b(?:Inv|μ)-\S+", spec)) + "\n")
            break
        if match := re.match(r"\S+ : tie\.(Need-\S+)", line):
            start = needs[match.group(1)]
        elif match := re.match(r"\S+ : \(c : tie\.([^ )]+)", line):
            start = match.group(1)
        lines.append(re.sub(r"\bc((?: \.before)*)(?: \.([^\s().]+))?(?=[\s().])", lambda m: named(m, start, fields, before), line + " ").rstrip() if start else line)
    return "\n".join(lines)


def closed(text, order):
    """The text with its closing definition."""
    match = re.search(r"^@close (\S+)(.*)$", text, re.M)
    if not match:
        return text
    proved = {need: name for name, need in re.findall(r"^(\S+) : tie\.(Need-\S+)", text, re.M)}
    searched = {True: "(λ c κs. search needs)", False: "(λ c. search needs)"}
    words = [proved.get(need) or searched["-requires" in need] for need in order]
    lines = ["    (tie.spec" + match.group(2)]
    for word in words:
        if len(lines[-1]) + len(word) > 150:
            lines.append("   ")
        lines[-1] += " " + word
    name = match.group(1)
    definition = [f"pub {name} : {{M : Type 1}} → statement M", f"{name} =", "    tie.close", *lines]
    return text[: match.start()] + "\n".join(definition) + ")\n"


def main():
    empty = sys.argv[1] == "--empty"
    crate, function = sys.argv[1 + empty : 3 + empty]
    proof = one(f"crates/{crate}/proofs/**/{function}/Proof.antt")
    generate(crate, proof)
    folder = f"{GENERATED}/Rattle·{crate}·proofs/**/{function}"
    with open(proof) as file:
        text = file.read()
    with open(one(f"{folder}/Tie.antt")) as file:
        order = re.findall(r"^abbrev pub (Need-\S+) :", file.read(), re.M)
    found = places(one(f"{folder}/Lts.antt"))
    text = emptied(text, *found) if empty else closed(filled(text, *found), order)
    with open(proof, "w") as file:
        file.write(text)


if __name__ == "__main__":
    main()
