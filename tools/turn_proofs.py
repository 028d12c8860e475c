#!/usr/bin/env python3
"""Turns the proof files of an older Rattle, Proof.antt over a `Tie`, to Invariants.antt and Answers.antt.

usage: turn_proofs.py NAMES.json CRATE_FOLDER CRATE

NAMES.json is what `rattle check --generated DIR --old-names` writes for the crate. What can't be turned is left as it is and named; an answer
that may be wrong is marked `-- look:`. It proves nothing.
"""

import json
import os
import re
import sys

WORD = r"[A-Za-z0-9_'\-₀-₉]+"
START_FIELDS = {"args", "requires", "ranges", "lifetimes", "well_formed", "type_inv", "utf8", "auto"}


def norm(s):
    return s.replace("_", "-")


def blocks(text):
    """The declarations of a file: lists of lines, each begun by a line at the margin that is no body."""
    out, cur = [], []
    for line in text.split("\n"):
        if line.strip() == "" and not cur:
            continue
        if line.strip() == "":
            out.append(cur)
            cur = []
        else:
            cur.append(line)
    if cur:
        out.append(cur)
    return out


def split_args(s):
    """The arguments of an application, by brackets."""
    out, depth, cur = [], 0, ""
    for ch in s:
        if ch in "([{":
            depth += 1
        if ch in ")]}":
            depth -= 1
        if ch in " \n" and depth == 0:
            if cur:
                out.append(cur)
            cur = ""
        else:
            cur += ch
    if cur:
        out.append(cur)
    return out


def member(path, names):
    """A path into nested pairs, `1.1.0`, as the name of what stands there."""
    k = 0
    while k < len(path) and path[k] == "1":
        k += 1
    if k < len(path) and path[k] == "0" and k < len(names):
        return [names[k]] + path[k + 1:]
    if k == len(names) - 1 and k > 0:
        return [names[k]] + path[k:]
    return path


def parts(body):
    """The members of a tuple, nested pairs on the right laid flat."""
    body = body.strip()
    if not (body.startswith("(") and body.endswith(")")):
        return [body]
    inner, depth, out, cur = body[1:-1], 0, [], ""
    for ch in inner:
        depth += (ch in "([{") - (ch in ")]}")
        if depth < 0:
            return [body]
        if ch == "," and depth == 0:
            out.append(cur.strip())
            cur = ""
        else:
            cur += ch
    out.append(cur.strip())
    if len(out) == 1:
        return [body]
    out = [x for x in out if x]
    return out[:-1] + parts(out[-1]) if len(parts(out[-1])) > 1 else out


class Function:
    def __init__(self, data):
        self.places = data["places"]
        self.new_places = data["places_by_name"]
        self.arms = data["arms"]
        self.typed = data["typed"]
        self.needs = data["needs"]
        self.asked = data["asked_at"]
        self.loops = data["loops"]
        self.changed = data["changed"]
        self.index = {p[0]: i for i, p in enumerate(self.places)}
        self.params = data["params"]
        self.pre = (data.get("pre") or {}).get("fields") or []
        self.clauses = [c.get("fields") if isinstance(c, dict) else c for c in data["clauses"]]
        self.asks = data["asked"]

    def chain(self, i):
        while i is not None:
            yield i
            parent = self.places[i][1]
            i = self.index.get(parent) if parent else None

    def place(self, name):
        for p in self.places:
            if norm(p[0]) == norm(name):
                return self.index[p[0]]
        return None

    def need(self, name):
        n = norm(name)
        best = None
        for k, (old, new) in enumerate(self.needs):
            o = norm(old)
            if n == o or n.endswith("-" + o):
                if best is None or len(o) > len(norm(self.needs[best][0])):
                    best = k
        return best

    def path(self, at, steps, said):
        """The path `.a.b` of c, without its `before`, as today's."""
        rest = steps.split(".")[1:]
        while rest and rest[0] == "before":
            rest = rest[1:]
        if not rest:
            return None
        first = norm(rest[0])
        if rest[0] == "requires" and self.pre:
            rest = ["requires"] + member(rest[1:], self.pre)
        if rest[0] in START_FIELDS or first in {norm(x) for x in START_FIELDS}:
            return "c." + ".".join(rest)
        chain = list(self.chain(at))
        # arms: `shape.given.1` is today's `in-Cells.is`
        for i in chain:
            arm = self.arms[i]
            if not arm:
                continue
            name, _, fields = arm
            for field, step, path in fields:
                if name == "in_default" and rest[1:2] == ["rest"] and norm(step) == first:
                    return "c." + ".".join([name, "in_default-own"] + rest[1:])
                if norm(step) == first and path and rest[1:1 + len(path)] == path:
                    return "c." + ".".join([name, field] + rest[1 + len(path):])
        if first in ("slice-known", "shared-slice-known") or first.rstrip("0123456789") in ("slice-known", "shared-slice-known"):
            for i in chain:
                for var, step in self.typed[i]:
                    if norm(step) == first and rest[1:2] == ["given"]:
                        return "c." + ".".join(["type_inv", var] + rest[2:])
        for i in chain:
            old, new = self.places[i][2]
            if norm(old) == first:
                tail = ["type_inv" if x == "type-inv" else x for x in rest[1:]]
                callee = self.places[i][3]
                if tail[:1] in (["new"], ["auto"]) and self.params.get(callee):
                    tail = tail[:1] + member(tail[1:], self.params[callee])
                if tail[:1] == ["ensures"] and self.clauses[i]:
                    tail = tail[:1] + member(tail[1:], self.clauses[i])
                if new.startswith("if-not-") and tail in (["true"], ["false"]):
                    return "(ap not c." + ".".join([new] + tail) + ")"
                if new == "in_default" and tail[:1] == ["rest"]:
                    tail = ["in_default-own"] + tail
                return "c." + ".".join([new] + tail)
        if rest[0].endswith("_law"):
            return self.path(at, "." + ".".join([rest[0][:-4]] + rest[1:]), said)
        said.append(f"no step `{rest[0]}`")
        return "c." + ".".join(rest)


def turn(path, names, crate, below, said):
    text = open(path, encoding="utf-8").read()
    folder = os.path.relpath(os.path.dirname(path), os.path.join(below, "proofs"))
    key = f"Rattle-{crate}-proofs.{folder.replace('/', '.')}.Lts"
    if key not in names:
        said.append("no names for " + key)
        return None
    f = Function(names[key])
    if "tie.spec" not in text:
        said.append("a proof by hand")
        return None
    header, uses, decls = [], [], []
    for b in blocks(text):
        code = [l for l in b if not l.lstrip().startswith("--")]
        if code and all(l.startswith("use ") for l in code):
            for l in b:
                (uses if l.startswith("use ") else header).append(l)
        elif b and any(l.startswith("use ") for l in b):
            for l in b:
                (uses if l.startswith("use ") else header).append(l)
        else:
            decls.append(b)
    helpers, answers, invariants, plain, spec = {}, {}, [], [], None
    order = {}
    for b in decls:
        comments = [l for l in b if l.startswith("--")]
        code = [l for l in b if not l.startswith("--")]
        if not code:
            plain.append(b)
            continue
        joined = "\n".join(code)
        m = re.match(r"(abbrev |pub |unfoldable )*(" + WORD + r") :\s*(.*)", code[0])
        if not m:
            plain.append(b)
            continue
        name = m.group(2)
        if "tie.spec" in joined:
            spec = joined
            continue
        if re.match(r"tie\.(invariant|decreases)", m.group(3)):
            invariants.append((name, comments, code))
            continue
        n = re.match(r"tie\.Need-(" + WORD + r")", m.group(3))
        if n:
            order[name] = n.group(1)
            answers[name] = (n.group(1), comments, code)
            continue
        if re.match(r"\(\w+ : tie\.", m.group(3)) or re.match(r"tie\." + WORD + r" →", m.group(3)) or (m.group(3) == "" and len(code) > 1 and "tie." in code[1]):
            helpers[name] = (comments, code)
            continue
        plain.append(b)

    out_answers = []
    opens = []

    def body_of(code):
        """(unfolding lines, parameters, body) of a declaration's lines after its type."""
        k = 1
        while k < len(code) and code[k].startswith(" "):
            k += 1
        unfolding = []
        while k < len(code) and code[k].startswith("unfolding"):
            unfolding.append(code[k])
            k += 1
        rest = "\n".join(code[k:])
        m = re.match(r"(" + WORD + r")((?: [^=\n]*)?) =\s*", rest)
        if not m:
            return unfolding, [], rest
        return unfolding, m.group(2).split(), rest[m.end():]

    def inline(body, var, at, local_said, depth=0):
        """Paths of var turned, helpers brought in as `let`s."""
        lets = []
        used = []
        # A place under a name: today each step is reached from the goal's own place.
        while True:
            m = re.search(r"let (\w+) = " + re.escape(var) + r"(?:\.before)+ in\s+", body)
            if not m:
                break
            body = body[:m.start()] + re.sub(r"(?<![\w.'\-])" + m.group(1) + r"(?![\w'\-])", var, body[m.end():])

        def helper_call(m):
            name = m.group(1)
            if name not in used:
                used.append(name)
            return name + "'"

        def bare(text):
            return re.sub(r"\((" + WORD + r")\)", lambda m: m.group(1) if m.group(1)[:-1] in used else m.group(0), text)

        for name in helpers:
            pat = re.compile(r"(?<![\w.'\-])(" + re.escape(name) + r") (?:" + re.escape(var) + r"(?:\.before)*(?![\w.'\-])|\(" + re.escape(var) + r"(?:\.before)*\))")
            body = bare(pat.sub(helper_call, body))
        pathre = re.compile(r"(?<![\w.'\-])" + re.escape(var) + r"((?:\." + WORD + r")+)")

        def sub(m):
            p = f.path(at, m.group(1), local_said)
            if p is None:
                local_said.append(f"a whole place `{m.group(0)}`")
                return m.group(0)
            return p

        body = pathre.sub(sub, body)
        if var != "c":
            body = re.sub(r"(?<![\w.'\-])" + re.escape(var) + r"(?![\w'\-])", "c", body)
        for name in used:
            comments, code = helpers[name]
            k = 1
            head = code[0]
            while k < len(code) and code[k].startswith(" "):
                head += "\n" + code[k]
                k += 1
            t = re.match(r"(?:abbrev |pub )*" + re.escape(name) + r" :\s*(?:\((\w+) : tie\.(" + WORD + r")[^)]*\)|tie\.(" + WORD + r"))\s*→\s*(.*)", head, re.S)
            unfolding, params, hb = body_of(code)
            if not t or not params:
                local_said.append(f"helper `{name}` is not read")
                continue
            typ = t.group(4)
            if len(params) > 1:
                hb = "λ " + " ".join(params[1:]) + ". " + hb
            hat = at
            typ2, l1 = inline(typ, t.group(1) or "c", hat, local_said, depth + 1)
            hb2, l2 = inline(hb, params[0], hat, local_said, depth + 1)
            for x in l1 + l2:
                if x not in lets:
                    lets.append(x)
            for u in unfolding:
                for w in u.split()[1:]:
                    if w not in opens:
                        opens.append(w)
            lets.append(f"let {name}' : {typ2.strip()} = {hb2.strip()} in")
        return body, lets

    def emit(k, params, body, unfolding, comments):
        old, new = f.needs[k]
        at = f.place(f.asked[k][0]) if k < len(f.asked) else None
        local = []
        var = params[0] if params else "c"
        opens.clear()
        b, lets = inline(body, var, at, local, 0)
        have = {w for u in unfolding for w in u.split()[1:]}
        more = [w for w in opens if w not in have]
        if more:
            unfolding = ["unfolding " + " ".join([w for u in unfolding for w in u.split()[1:]] + more)]
        fields = f.asks.get(old)
        if fields and not b.strip().startswith("let "):
            ps = parts(b)
            while len(ps) < len(fields) and len(parts(ps[0])) > 1:
                ps = parts(ps[0]) + ps[1:]
            if len(ps) == len(fields):
                b = "record { " + "; ".join(f"{n} = {x}" for n, x in zip(fields, ps)) + " }"
            else:
                local.append("the clauses " + ", ".join(fields))
        # `c κs`: today's goals at a call have no second argument
        text = ""
        for c in comments:
            text += c + "\n"
        for s in dict.fromkeys(local):
            text += f"-- look: {s}\n"
            said.append(f"{new}: {s}")
        text += f"pub {new} : goal.{new}\n"
        for u in unfolding:
            text += u + "\n"
        if lets:
            text += f"{new} c =\n" + "".join(f"    {l}\n" for l in lets) + "    " + b.strip() + "\n"
        elif "\n" in b.strip():
            text += f"{new} c =\n    " + b.strip() + "\n"
        else:
            text += f"{new} c = {b.strip()}\n"
        out_answers.append((k, text))

    done = set()
    unplaced = {}
    for name, (need, comments, code) in answers.items():
        k = f.need(need)
        unfolding, params, body = body_of(code)
        if not params:
            m = re.match(r"λ ([^.]*)\.\s*", body)
            if m:
                params = m.group(1).split()
                body = body[m.end():]
        if re.fullmatch(r"\(?search rules\)?", body.strip()) and not unfolding:
            continue
        if k is None:
            unplaced[name] = (unfolding, params, body, comments)
            continue
        if not params:
            # a name of a lemma: applied
            body = f"({body.strip()}) c"
        done.add(k)
        emit(k, params, body, unfolding, comments)
    # answers written in place
    if spec:
        opened = [l for l in spec.split("\n") if l.startswith("unfolding")]
        m = re.search(r"tie\.spec\s+(.*)\)\s*$", spec, re.S)
        inner = m.group(1)
        depth = 0
        for i, ch in enumerate(inner):
            if ch == "(":
                depth += 1
            if ch == ")":
                depth -= 1
                if depth < 0:
                    inner = inner[:i]
                    break
        args = [a for a in split_args(inner)]
        args = [a for a in args if not re.match(r"(invariant|decreases)-", a)]
        for li in range(len(f.loops)):
            for kind in ("invariant", "decreases"):
                m = re.match(r"\(λ ([^.]*)\.\s*(.*)\)$", args[0], re.S) if args else None
                if m and len(m.group(1).split()) == len(f.loops[li][1]) + sum(f.changed[li]):
                    n = f"{kind}-{f.loops[li][0][0]}"
                    invariants.append((n, [], [f"abbrev {n} : tie.{n}", f"{n} {m.group(1)} = {m.group(2)}"]))
                    args = args[1:]
        anchors = []
        for i, a in enumerate(args):
            if a in order:
                k = f.need(order[a])
                if k is not None:
                    anchors.append((i, k))
        anchors = [(-1, -1)] + anchors + [(len(args), len(f.needs))]
        for (i0, k0), (i1, k1) in zip(anchors, anchors[1:]):
            exact = (i1 - i0) == (k1 - k0)
            for i in range(i0 + 1, i1):
                a = args[i]
                if a in unplaced:
                    k = k0 + (i - i0)
                    if k < len(f.needs) and k not in done:
                        done.add(k)
                        u, params, body, comments = unplaced.pop(a)
                        emit(k, params, body, u, comments + ([] if exact else ["-- look: its goal was guessed"]))
                    continue
                m = re.match(r"\(λ ([^.]*)\.\s*(.*)\)$", a, re.S)
                if not m:
                    continue
                k = k0 + (i - i0) if exact or i - i0 <= (k1 - k0) - 1 else None
                if re.fullmatch(r"\(?search rules\)?", m.group(2).strip()) and not (opened and k is not None and k < len(f.needs) and f.needs[k][0].startswith("returns")):
                    continue
                if k is None or k >= len(f.needs):
                    said.append(f"no goal for `{a[:60]}`")
                    continue
                if k in done:
                    said.append(f"two answers for {f.needs[k][1]}")
                    continue
                done.add(k)
                comments = [] if exact else ["-- look: its goal was guessed"]
                if not exact:
                    said.append(f"{f.needs[k][1]}: guessed")
                emit(k, m.group(1).split(), m.group(2), opened, comments)
    for name in unplaced:
        said.append(f"no goal for `{name}`")
    out_answers.sort()
    mod = f"Rattle.{crate}.proofs.{folder.replace('/', '.')}"
    turned = "\n".join(t for _, t in out_answers)
    simple = re.sub(r"not-(?:true|false) (?:_|c\.[^ ()]*) \(ap not (c\.[^ ()]*)\)", r"\1", turned)
    simple = re.sub(r"\((c\.[^ ()]*)\)", r"\1", simple)
    if simple != turned:
        out_answers = [(0, simple)]
    kept = [u for u in uses if ".Tie as " not in u and ".Statement.{" not in u]
    inv = ""
    if invariants:
        lines = []
        for name, comments, code in invariants:
            unfolding, params, body = body_of(code)
            which = [l for l in range(len(f.loops))]
            old = name.split("-", 1)[1]
            li = next((l for l in which if norm(f.loops[l][0][0]) == norm(old)), None)
            if li is None:
                said.append(f"no loop for {name}")
                continue
            new = f.loops[li][0][1]
            vars_ = f.loops[li][1]
            changed = f.changed[li]
            names_ = {}
            for i, p in enumerate(params):
                if i < len(vars_):
                    names_[p] = f"l.initial.{vars_[i]}" if changed[i] else f"l.{vars_[i]}"
                else:
                    cv = [v for v, c in zip(vars_, changed) if c]
                    if i - len(vars_) < len(cv):
                        names_[p] = f"l.{cv[i - len(vars_)]}"
                    else:
                        said.append(f"{name}: more parameters than variables")
            body = re.sub(r"(?<![\w.'\-₀])(" + WORD + r")(?![\w'\-₀])", lambda m: names_.get(m.group(1), m.group(1)), body)
            kind = name.split("-")[0]
            lines += comments + [f"abbrev pub {kind}-{new} : goal.{kind}-{new}"] + unfolding + [f"{kind}-{new} l = " + body.strip() if "\n" not in body.strip() else f"{kind}-{new} l =\n    " + body.strip(), ""]
        inv = "\n".join(header + kept + [f"use {mod}.Given as goal", ""] + lines).rstrip("\n") + "\n"
    everything = "\n".join(t for _, t in out_answers)
    there = "\n".join(uses)
    if "(ap not c." in everything:
        words = [w for w in ("ap",) if not re.search(r"[{ ]" + w + r"[,}]", there)]
        if words:
            kept.append("use Rattle.std.proofs.Common.{ap}")
        if not re.search(r"[{ ]not[,}]", there):
            kept.append("use Rattle.std.specs.Prelude.{not}")
    ans = ""
    if out_answers or plain:
        ans = "\n".join(header + kept + [f"use {mod}.Goals as goal", ""])
        for b in plain:
            ans += "\n" + "\n".join(b) + "\n"
        for _, t in out_answers:
            ans += "\n" + t
        ans = re.sub(r"\n{3,}", "\n\n", ans)
    return inv, ans


def main():
    names = json.load(open(sys.argv[1], encoding="utf-8"))
    below, crate = sys.argv[2], sys.argv[3]
    for where, dirs, files in os.walk(os.path.join(below, "proofs")):
        dirs.sort()
        if "Proof.antt" not in files:
            continue
        path = os.path.join(where, "Proof.antt")
        said = []
        try:
            made = turn(path, names, crate, below, said)
        except Exception as e:
            said.append(f"failed: {e!r}")
            made = None
        for s in said:
            print(f"{os.path.relpath(path, below)}: {s}")
        if made is None:
            continue
        inv, ans = made
        if inv:
            open(os.path.join(where, "Invariants.antt"), "w", encoding="utf-8").write(inv)
        if ans:
            open(os.path.join(where, "Answers.antt"), "w", encoding="utf-8").write(ans)
        os.remove(path)


if __name__ == "__main__":
    main()
