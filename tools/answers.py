#!/usr/bin/env python3
"""Turns proof files that close a function need by need (Proof.antt over Tie) into Invariants.antt and Answers.antt.

usage: tools/answers.py NAMES CRATE [FUNCTION..]

NAMES is the names.json that `rt check --generated DIR --old-names` writes for the crate, CRATE its folder below crates/. Each proofs/F/Proof.antt that is read
is replaced by the two files; one that has a form that is not known (a section, a recursion) stays, with a line `left:`. A need that is answered by
`search rules` or `omega arith` alone gets no answer, since the check tries these itself.
"""
import json
import os
import re
import sys

SEP = r"\s(){}.;,@\"«»\[\]\\"
TOKEN = re.compile(rf"[^{SEP}]+")
TRIVIAL = {"search rules", "omega arith", "search (rules)"}


def snake(name):
    return re.sub(r"(?<=[a-z0-9])[A-Z]", lambda m: "_" + m[0].lower(), name)


def norm(name):
    return re.sub(r"[-_·]", "", re.sub(r"^(overflow|nonzero)[-_]", "", name)).lower()


def blocks(text):
    """Top-level declarations, each with the comments above it."""
    out, now = [], []
    for line in text.split("\n"):
        starts = line and not line[0].isspace()
        if starts and line.startswith("--"):
            if now and not all(l.startswith("--") for l in now):
                out.append(now)
                now = []
            now.append(line)
        elif starts and re.match(r"(use|module|mutual) ", line):
            if now:
                out.append(now)
            now = [line]
        elif starts and re.match(r"(?:abbrev |pub |unfoldable |data |record )*([^\s:]+) :", line):
            if now and not all(l.startswith("--") for l in now):
                out.append(now)
                now = []
            now.append(line)
        else:
            now.append(line)
    if now:
        out.append(now)
    return ["\n".join(b).rstrip() for b in out if "\n".join(b).strip()]


def split_tuple(s):
    """The parts of `(a, b)`; None for anything else."""
    s = s.strip()
    if not s.startswith("(") or not s.endswith(")"):
        return None
    depth, parts, now = 0, [], ""
    for i, ch in enumerate(s):
        if ch in "([{":
            depth += 1
            if depth == 1:
                continue
        if ch in ")]}":
            depth -= 1
            if depth == 0:
                if i != len(s) - 1:
                    return None
                break
        if ch == "," and depth == 1:
            parts.append(now)
            now = ""
        else:
            now += ch
    if now.strip():
        parts.append(now)
    return [p.strip() for p in parts] if len(parts) > 1 else None


def behind_lets(s):
    """What stands before and behind the `let .. in` at the front."""
    at, depth, lets, end = 0, 0, 0, 0
    for m in re.finditer(r"[()\[\]{}]|(?<![^\s()])(?:let|in)(?![^\s()])", s):
        x = m[0]
        if x in "([{":
            depth += 1
        elif x in ")]}":
            depth -= 1
        elif depth == 0 and x == "let":
            if lets == 0 and s[end : m.start()].strip():
                break
            lets += 1
        elif depth == 0 and x == "in" and lets:
            lets -= 1
            if lets == 0:
                end = m.end()
    return s[:end], s[end:]


def as_record(e, names, lemmas=()):
    front, rest = behind_lets(e)
    tactic = re.match(rf"\s*(rw|simp) (\([^()]*(?:\([^()]*\)[^()]*)*\)|[^{SEP}]+(?:\.[^{SEP}]+)*) (\(.*\))\s*\Z", rest, re.S)
    if tactic and split_tuple(tactic[3]) and len(split_tuple(tactic[3])) == len(names):
        parts = [f"{tactic[1]} {tactic[2]} {x if x[0] == '(' else '(' + x + ')'}" for x in split_tuple(tactic[3])]
        inner = ";\n".join(f"      {n} = {p}" for n, p in zip(names, parts))
        return front + ("\n    " if "\n" in front else " " if front else "") + "record {\n" + inner + ";\n    }"
    if not split_tuple(rest) and " ".join(rest.split()) not in TRIVIAL:
        m = re.match(rf"\s*([^{SEP}]+) (\(.*\)|[^{SEP}]+(?:\.[^{SEP}]+)*)\s*\Z", rest, re.S)
        for b in lemmas:
            d = re.search(rf"(?m)^{re.escape(m[1])} (\S+) = (\(.*\))\s*\Z", b, re.S) if m else None
            if d:
                rest = re.sub(rf"(?<![^{SEP}]){re.escape(d[1])}(?![^{SEP}])", lambda x: m[2], d[2])
                break
        else:
            parts = [rest.strip()] * len(names) if rest.strip().startswith(("absurd ", "search (")) else []
            for i in range(0 if parts else len(names)):
                parts.append(f"({rest.strip()})" + "".join(".1" for _ in range(i)) + (".0" if i < len(names) - 1 else ""))
            inner = ";\n".join(f"      {n} = {p}" for n, p in zip(names, parts))
            return front + ("\n    " if front else "") + "record {\n" + inner + ";\n    }"
    parts, now = [], rest
    for _ in names[1:]:
        p = split_tuple(now)
        if not p:
            return e
        if len(p) > 2 and len(p) == len(names) - len(parts):
            parts += p
            now = None
            break
        if len(p) != 2:
            return e
        parts.append(p[0])
        now = p[1]
        if not split_tuple(now):
            break
    if now is not None:
        more = len(names) - len(parts)
        if more == 1:
            parts.append(now)
        else:
            for i in range(more):
                parts.append(now.strip() + ".1" * i + (".0" if i < more - 1 else ""))
    if len(parts) != len(names):
        return e
    inner = ";\n".join(f"      {n} = {p}" for n, p in zip(names, parts))
    return front + ("\n    " if "\n" in front else " " if front else "") + "record {\n" + inner + ";\n    }"


def clauses_of(src, fn):
    """The names of the `requires` of a function, in their order; [] for none or one."""
    m = re.search(rf"\bfn {re.escape(fn)}\b[^;{{]*?\)(.*?)\n\{{\n", src, re.S)
    if not m:
        return []
    names = re.findall(r"(?m)^\s*requires (\w+) \{", m[1])
    return names


def flat(text):
    """A section over one place as declarations that take it."""

    def turn(m):
        var, place, body = m[1], m[2], m[3]
        lines = [l[2:] if l.startswith("  ") else l for l in body.split("\n")]
        inner = "\n".join(lines)
        names = re.findall(r"(?m)^(?:abbrev |pub )*([^\s:]+) : ", inner)
        out, current = [], None
        for l in lines:
            d = re.match(r"((?:abbrev |pub )*)([^\s:]+) : (.*)", l)
            if d and not l.startswith("--"):
                current = d[2]
                l = f"{d[1]}{d[2]} : ({var} : {place}) → {d[3]}"
                head, tail = l.split(" → ", 1)
                for n in names:
                    tail = re.sub(rf"(?<![^{SEP}])(?<!\.){re.escape(n)}(?![^{SEP}])", f"({n} {var})", tail)
                l = head + " → " + tail
            elif current and re.match(rf"{re.escape(current)}(?= |$)", l):
                args, _, tail = l[len(current) :].partition("=")
                for n in names:
                    tail = re.sub(rf"(?<![^{SEP}])(?<!\.){re.escape(n)}(?![^{SEP}])", f"({n} {var})", tail)
                l = f"{current} {var}{args}={tail}"
            elif current and not l.startswith(("--", "unfolding")):
                for n in names:
                    l = re.sub(rf"(?<![^{SEP}])(?<!\.){re.escape(n)}(?![^{SEP}])", f"({n} {var})", l)
            out.append(l)
        return "\n".join(out)

    text = re.sub(r"(?m)^module _ \((\S+) : (tie\.[^()]*)\) where\n((?:(?:  .*)?\n)+)", turn, text + "\n")
    # (start c).x of a place that is the same
    return re.sub(r"(?m)^((?:abbrev |pub )*\S+) : \(\S+ : (tie\.[^()]*)\) → (tie\.\S+[^\n→]*)$", r"\1 : \2 → \3", text)


def by_position(names):
    """`.1.0` and the like for each of several clauses."""
    out = {}
    for i, n in enumerate(names):
        last = i == len(names) - 1
        out[n] = ".1" * i + ("" if last and i else ".0")
    return out


def lib_text(crate):
    text = ""
    for top, _, fs in os.walk(f"crates/{crate}/src"):
        for f in fs:
            if f.endswith(".rt"):
                text += open(os.path.join(top, f), encoding="utf-8").read() + "\n"
    return text


ARGUMENT = r"(?:\([^()]*\)|[\w+-]*calls|[\w+-]*_at|at-measure|[\w-]+\.Post|invariant-[^\s()]+|decreases-[^\s()]+)"


def cycle(path, crate, names, all_src):
    """The proofs of functions that call one another, in one section over the measure t."""
    rel = os.path.relpath(os.path.dirname(path), f"crates/{crate}/proofs")
    module = rel.replace("/", ".")
    text = open(path, encoding="utf-8").read()
    aliases = dict(re.findall(rf"(?m)^use Rattle\.{crate}\.proofs\.{re.escape(module)}\.Lts-(\S+) as (\S+)$", text))
    if not aliases:
        return "a cycle that is not known"
    head, _, rest = text.partition("module _ (t : ℕ) where\n")
    section, _, _ = rest.partition("\npub +")
    section = "\n".join(l[2:] if l.startswith("  ") else l for l in section.split("\n"))
    section = re.sub(r"(?m)^abbrev [^\n]*(?:calls|_at|at-measure) : [^\n]*\n[^\n]*\n", "", section)
    all_inv, all_out, said = [], [], []
    for fn, alias in aliases.items():
        s = head + "\n" + section + "\n"
        for name, body in re.findall(rf"(?m)^abbrev (\S+) : Type 0\n\1 = ({re.escape(alias)}\.\S+)[^\n]*$", section):
            s = re.sub(rf"(?m)^abbrev {re.escape(name)} : Type 0\n[^\n]*\n", "", s)
            s = re.sub(rf"(?<![^{SEP}])(?<!\.){re.escape(name)}(?![^{SEP}])", body.replace(alias + ".", "tie."), s)
        s = re.sub(rf"(?<![^{SEP}]){re.escape(alias)}\.([A-Z][\w-]*)(?: {ARGUMENT})*", r"tie.\1", s)
        s = re.sub(rf"(?<![^{SEP}]){re.escape(alias)}\.(invariant|decreases)", r"tie.\1", s)
        for other in aliases.values():
            if other != alias:
                # the other functions' declarations
                parts = blocks(s)
                s = "\n\n".join(b for b in parts if not re.search(rf"(?<![^{SEP}]){re.escape(other)}\.(?:Need|invariant|decreases|[A-Z])", b) or b.startswith("use "))
                for name, _ in re.findall(rf"(?m)^abbrev (\S+) : Type 0\n\1 = ({re.escape(other)}\.\S+)", section):
                    s = "\n\n".join(b for b in blocks(s) if not re.search(rf"\(\S+ : {re.escape(name)}\)", b) and f"abbrev {name} :" not in b)
        s = re.sub(r"(?m)^abbrev μ-[^\n]*\n[^\n]*\n", "", s)
        inv, out, uses, left, lemmas = convert(path, crate, names, all_src, fn=fn, text=s, key=f"Rattle-{crate}-proofs.{module}.Lts-{fn}", prefix=(fn + "-") if len(aliases) > 1 else "")
        all_inv += inv
        all_out += out
        said += left
    measures = re.findall(r"(?m)^μ-(\S+) κs a = ([^\n]*)$", head)
    where = f"Rattle.{crate}.proofs.{module}"
    comment = "\n".join(l for l in head.split("\n") if l.startswith("--") and head.index(l) < head.index("use "))
    keep = [u for u in uses if not re.search(r"\.(Reads|Kinds|Kinds\.\{In\}|Tie|PlainCycle)\b|\.Lts-|\{statement\}", u)]
    folder = os.path.dirname(path)
    with open(os.path.join(folder, "Invariants.antt"), "w", encoding="utf-8") as f:
        f.write(comment + "\n" + "\n".join(keep + [f"use {where}.Given as goal"]) + "\n\n" + "\n\n".join([f"-- {a}: {b}\nabbrev pub decreases-{fn} : goal.decreases-{fn}\ndecreases-{fn} l = ?" for (a, b), fn in zip(measures, aliases)] + all_inv) + "\n")
    with open(os.path.join(folder, "Answers.antt"), "w", encoding="utf-8") as f:
        f.write("\n".join(keep + [f"use {where}.Goals as goal"]) + "\n\n" + "\n\n".join(lemmas + all_out) + "\n")
    os.remove(path)
    return "\n".join(said + [f"left: {path}: the measures"])


def convert(path, crate, names, all_src, fn=None, text=None, key=None, prefix=""):
    rel = os.path.relpath(os.path.dirname(path), f"crates/{crate}/proofs")
    module = rel.replace("/", ".")
    in_cycle = text is not None
    key = key or f"Rattle-{crate}-proofs.{module}.Lts"
    if key not in names:
        return f"no {key} in the list of names"
    it = names[key]
    text = flat(text if in_cycle else open(path, encoding="utf-8").read())
    for old in set(re.findall(r"(?m)^ *(?:abbrev |pub )*([a-z]\w*[a-z0-9][A-Z][\w-]*) : ", text)):
        text = TOKEN.sub(lambda m: snake(m[0]) if m[0] == old else m[0], text)
    if re.search(r"(?m)^(module|mutual) ", text):
        return "a section"
    fn = fn or rel.split("/")[-1]
    src_file = f"crates/{crate}/src/" + ("/".join(rel.split("/")[:-1]) + ".rt" if "/" in rel else "")
    src = all_src
    if "/" in rel and os.path.exists(src_file):
        src = open(src_file, encoding="utf-8").read()
    own = it["pre"]["fields"] if it["pre"] and it["pre"].get("fields") else clauses_of(src, fn)
    labels = {}
    for p in it["places"]:
        if p[2][0]:
            labels[norm(p[2][0])] = p[2][1]
    for (old, new), _ in it["loops"]:
        labels[norm(old)] = new
    needs = {norm(a): b for a, b in it["needs"]}
    asked = {norm(k): v for k, v in it["asked"].items() if v and len(v) > 1}
    renamed = dict(x.split(" ") and (tuple(x.split(" ")), y.split(" ")) for x, y in it["args"] if len(x.split(" ")) == 2)
    fields = {p[2][1]: dict(p[4]) for p in it["places"] if p[4]}
    arms = {}
    for a in it["arms"]:
        if a:
            for field, label, steps in a[2]:
                if steps:
                    arms[norm(label), tuple(steps)] = (a[0], field)
    params = {p[2][1]: it["params"].get(p[3], []) for p in it["places"] if p[3]}
    loops = {norm(l[0][0]): (l[0][1], l[1], ch) for l, ch in zip(it["loops"], it["changed"])}
    # what several clauses of a callee are called, by label
    callee = {}
    for p, cl in zip(it["places"], it["clauses"]):
        if cl and p[2][1] and len(cl.get("fields") or []) > 1:
            callee[p[2][1]] = cl["fields"]

    head, uses, inv, dec, need, helper, order = [], [], {}, {}, [], {}, []
    problems = []
    for b in blocks(text):
        body = "\n".join(l for l in b.split("\n") if not l.startswith("--")).strip()
        if not body:
            head.append(b)
            continue
        if body.startswith("use "):
            comment = [l for l in b.split("\n") if l.startswith("--")]
            head += comment
            uses += [l for l in body.split("\n") if l.startswith("use ")]
            continue
        m = re.match(r"(?:abbrev |pub |unfoldable )*([^\s:]+) :\s*(.*)", body, re.S)
        if not m:
            return "a block that is not known: " + body[:60]
        name, rest = m[1], m[2]
        t = re.match(r"tie\.(invariant|decreases)-(\S+)\s*\n(.*)", rest, re.S)
        if t:
            (inv if t[1] == "invariant" else dec)[t[2]] = (name, t[3], b)
            continue
        t = re.match(r"tie\.Need-(\S+)((?: \S+)*)[ ]*\n(.*)", rest, re.S)
        if t:
            need.append((name, t[1], t[3], b))
            continue
        if re.search(r"tie\.close", body):
            continue
        if re.match(r"\S*(invariant|decreases)", name) and "tie." in rest:
            return "an invariant of a form that is not known"
        helper[name] = b
        order.append(name)

    def strip_args(s):
        return re.sub(r"tie\.([A-Za-z][^\s()]*)((?: (?:invariant|decreases)-[^\s()]+| Inv\S*| μ\S*)*)", r"tie.\1", s)

    def fix(expr, roots):
        """The text of an answer, with places flattened. roots: names that stand for the record."""
        e = strip_args(expr)
        for _ in range(6):
            e = re.sub(r"\(([^\s().]+)((?:\.before)*)\)(?=[\s)]|$)", r"\1\2", plain(e)) if same else e
        roots = set(roots) | {"c"}
        changed = True
        while changed:
            changed = False
            m = re.search(r"let (\S+) : tie\.\S+ = (?:search rules|assumption rules|search \(rules\)) in\s*", e)
            if m:
                roots.add(m[1])
                e = e[: m.start()] + e[m.end() :]
                changed = True
                continue
            for m in re.finditer(r"let (\S+)(?: : tie\.\S+)? = \(?([^\s.()]+)((?:\.before)*)\)? in\s*", e):
                if m[2] in roots:
                    roots.add(m[1])
                    e = e[: m.start()] + e[m.end() :]
                    changed = True
                    break
        for r in roots:
            e = re.sub(rf"(?<![^{SEP}])(?<!\.){re.escape(r)}(?:\.before)+(?![\w-])", r, e)
        e = plain(e)
        for r in roots - {"c"}:
            # a variable of that name that a λ binds is another one
            e = re.sub(rf"λ (?:[^\s().]+ )*{re.escape(r)}(?: [^\s().]+)*\. (?:[^()]|\((?:[^()]|\((?:[^()]|\([^()]*\))*\))*\))*",
                       lambda y: re.sub(rf"(?<![^{SEP}])(?<!\.){re.escape(r)}(?![^{SEP}])(?!\.[a-z])", "bound-" + r, y[0]), e)
            e = re.sub(rf"(?<![^{SEP}])(?<!\.){re.escape(r)}(?![^{SEP}])(?! =)", "c", e)
            e = e.replace("bound-" + r, r)
        # a name for a path is written out, so that the path's new names are found
        while True:
            m = None
            for x in re.finditer(rf"let ([^{SEP}]+) = (c(?:\.[^{SEP}]+)+) in\s*", e):
                steps = x[2].split(".")[1:]
                if len(steps) == 1 and steps[0] not in ("fits", "ranges") or len(steps) == 2 and steps[1] in ("auto", "kept", "new", "last") or len(steps) == 2 and steps[1] == "ensures" and labels.get(norm(steps[0])) in callee or in_cycle and steps in (["requires", "1"], ["pre", "1"]):
                    m = x
                    break
            if not m:
                break
            e = e[: m.start()] + re.sub(rf"(?<![^{SEP}])(?<!\.){re.escape(m[1])}(?![^{SEP}])", lambda x: m[2], e[m.end() :])
        def chain(m):
            parts = m[0].split(".")
            if len(parts) > 2 and ("." + parts[1], "." + parts[2]) in renamed:
                parts[2] = renamed["." + parts[1], "." + parts[2]][1][1:]
            out = ["c"]
            i = 1
            if len(parts) > 1:
                parts[1] = {"fits": "ranges", "well-formed": "well_formed", "good": "well_formed"}.get(parts[1], parts[1])
            for k in range(len(parts), 2, -1):
                hit = arms.get((norm(parts[1]), tuple(parts[2:k])))
                if hit:
                    return ".".join(["c", *hit, *parts[k:]])
            while i < len(parts):
                p = parts[i]
                if i == 1 and p == "pre":
                    p = "requires"
                if i == 1 and norm(p) in labels and p not in ("args", "requires", "ranges"):
                    p = labels[norm(p)]
                    out.append(p)
                    if p in callee and i + 2 < len(parts) and parts[i + 1] == "ensures":
                        pos = by_position(callee[p]) if isinstance(callee[p], list) else {}
                        restp = "." + ".".join(parts[i + 2 :])
                        for n, q in sorted(pos.items(), key=lambda x: -len(x[1])):
                            if restp == q or restp.startswith(q + "."):
                                out += ["ensures", n] + [x for x in restp[len(q) :].split(".") if x]
                                return ".".join(out)
                    i += 1
                    continue
                if i == 1 and p == "requires" and in_cycle and parts[2:] == ["0"]:
                    return "c.MEASURE"
                if i == 1 and p == "requires" and in_cycle and parts[2:3] == ["1"]:
                    parts = parts[:2] + parts[3:]
                if i == 1 and p == "requires" and len(own) > 1:
                    restp = "." + ".".join(parts[2:])
                    hit = False
                    for n, q in sorted(by_position(own).items(), key=lambda x: -len(x[1])):
                        if restp == q or restp.startswith(q + "."):
                            out += ["requires", n] + [x for x in restp[len(q) :].split(".") if x]
                            hit = True
                            break
                    if hit:
                        return ".".join(out)
                if i == 2 and out[1] not in ("args", "requires", "ranges"):
                    p = {"left": "false", "taken": "true", "inv": "invariant", "type-inv": "type_inv", "ok": "type_inv"}.get(p, p)
                    if out[1] in params:
                        p = {"last": "new", "kept": "auto"}.get(p, p)
                    p = fields.get(out[1], {}).get(p, p)
                    if p in ("new", "auto") and out[1] in params:
                        n = 0
                        while i + 1 + n < len(parts) and parts[i + 1 + n] == "1":
                            n += 1
                        # the last of several stands at the end of the nest or before it
                        end = i + 1 + n
                        if end < len(parts) and parts[end] == "0":
                            end += 1
                        if n < len(params[out[1]]) and end > i + 1:
                            out += [p, params[out[1]][n]] + parts[end:]
                            return ".".join(out)
                out.append(p)
                i += 1
            return ".".join(out)

        e = re.sub(rf"(?<![^{SEP}])(?<!\.)c(?:\.[^{SEP}]+)+", chain, e)
        e = e.replace(", c.MEASURE", "")
        e = re.sub(rf"not-(?:true|false) _ (c\.[^{SEP}]+\.(?:true|false))-raw(?![^{SEP}])", r"\1", e)
        # the test of `!x` says what it says of x, but where x is a field

        def plain_test(m):
            n = re.match(r"c\.if-not-(\w+)", m[1])
            return m[0] if n and re.search(rf"!{n[1]}\.\w", src) else m[1]

        e = re.sub(rf"not-(?:true|false) _ (c\.[^{SEP}]+\.(?:true|false))(?![^{SEP}])", plain_test, e)
        e = re.sub(r"\((c\.\S+\.(?:true|false))\)", r"\1", e)
        return e

    helpers = {}
    implicit, implicit_front = {}, {}
    lemmas = []
    same = set()
    for name in list(order):
        body = "\n".join(l for l in helper[name].split("\n") if not l.startswith("--")).strip()
        body = strip_args(body)
        if re.match(rf"(?:abbrev |pub )*(\S+) : tie\.\S+ → tie\.\S+\n\S+ (\S+) = (?:\2(?:\.before)*|search rules)\Z", body):
            same.add(name)
            order.remove(name)

    def plain(s):
        for k in same:
            s = re.sub(rf"\({re.escape(k)} ([^{SEP}]+(?:\.before)*)\)", r"\1", s)
            s = re.sub(rf"(?<![^{SEP}])(?<!\.)(?<!λ ){re.escape(k)} (?=[^{SEP}=≡∙→×])", "", s)
        return s

    for name in order:
        b = helper[name]
        body = "\n".join(l for l in b.split("\n") if not l.startswith("--")).strip()
        if "tie." not in body:
            lemmas.append(b)
            continue
        body = re.sub(r"\A((?:abbrev |pub )*\S+) : (tie\.\S+) → ", r"\1 : (no-name : \2) → ", strip_args(body))
        m = re.match(r"(?:abbrev |pub )*(\S+) : \((\S+) : tie\.[^()]*\)((?: [({][^(){}]*[)}])*)\s*→\s*(.*?)\n(unfolding [^\n]*\n)?(\S+) (\S+)((?: [^\s=]+)*) =\s*(.*)\Z", body, re.S)
        if not m or m[1] != m[6] or "\n" + name + " " in m[9]:
            problems.append(f"helper {name}")
            lemmas.append(b)
            continue
        typ = fix((m[3].strip() + " → " if m[3] else "") + m[4], {m[2]})
        bod = fix(m[9], {m[7]})
        if m[2] != "c":
            typ = re.sub(rf"(?<![^{SEP}])(?<!\.){re.escape(m[2])}(?![^{SEP}])", "c", typ)
        args = m[8].split()
        typ = typ.strip()
        while True:
            im = re.match(r"\{([^{}:]*) : ([^{}]*)\} (?:→ )?", typ)
            if not im:
                break
            implicit[name] = implicit.get(name, []) + im[1].split()
            typ = re.sub(r"\A\{([^{}]*)\}", r"(\1)", typ, count=1)
            typ = re.sub(r"\A(\([^()]*\)) (?!→)", r"\1 → ", typ)
            rest_of = typ.partition(" → ")[2]
            implicit_front[name] = implicit_front.get(name, "") + typ[: len(typ) - len(rest_of)]
            typ = rest_of
        typ = implicit_front.get(name, "") + typ
        args = implicit.get(name, []) + [x for x in args if not x.startswith("{")]
        helpers[name] = (typ, args, bod, (m[5] or "").strip())

    def with_helpers(e):
        """The helpers that an answer uses, bound in front of it."""
        used, unf = [], []

        def visit(n):
            if n in used:
                return
            for k in helpers:
                if k != n and re.search(rf"(?<![^{SEP}])(?<!\.){re.escape(k)}(?![^{SEP}])", helpers[n][2] + " " + helpers[n][0]):
                    visit(k)
            used.append(n)
            if helpers[n][3]:
                unf.append(helpers[n][3])

        for k in helpers:
            if re.search(rf"(?<![^{SEP}])(?<!\.){re.escape(k)}(?![^{SEP}])", e):
                visit(k)

        def calls(s):
            for k in helpers:
                s = re.sub(rf"\(({re.escape(k)}) c\)(?=[.\s)]|$)", r"\1", s)
                s = re.sub(rf"(?<![^{SEP}]){re.escape(k)} c(?![^{SEP}]|\.)", k, s)
                s = re.sub(rf"(?<![^{SEP}]){re.escape(k)} \(c\)", k, s)
                if implicit.get(k):
                    s = re.sub(rf"(?<![^{SEP}])(?<!\.){re.escape(k)}(?![^{SEP}])", lambda m: k + " _" * len(implicit[k]), s)
            return s

        front = []
        for k in used:
            typ, args, bod, _ = helpers[k]
            lam = f"λ {' '.join(args)}. " if args else ""
            front.append(f"let {k} : {calls(' '.join(typ.split()))} = {lam}{calls(bod)} in")
        return front, calls(e), unf

    own_use = [u for u in uses if not re.search(r"\.(Statement|Tie)\b", u)]
    where = f"Rattle.{crate}.proofs.{module}"
    # ---- invariants
    inv_out = []
    for old, (name, rest, b) in list(inv.items()) + list(dec.items()):
        kind = "invariant" if old in inv and inv[old][0] == name else "decreases"
        if norm(old) not in loops:
            return f"a loop {old} that is not known"
        new, variables, changed = loops[norm(old)]
        m = re.match(r"(?:unfolding [^\n]*\n)?\S+((?: [^\s=]+)*) =\s*(.*)\Z", rest, re.S)
        if not m:
            return f"an invariant that is not known: {name}"
        args = m[1].split()
        expect = [("initial." if ch else "", v) for v, ch in zip(variables, changed)] + [("", v) for v, ch in zip(variables, changed) if ch]
        still = [v for v, ch in zip(variables, changed) if not ch]
        if len(args) != len(expect):
            return f"{name} has {len(args)} arguments, not {len(expect)}: {variables} {changed}"
        bits = fields.get(new, {})
        to = {a: f"l.{p}{v}" for a, (p, v) in zip(args, expect)}
        still += list(bits)
        # a variable that the invariant binds itself keeps its name
        bound = set(" ".join(re.findall(r"λ ((?:[^\s().]+ )*[^\s().]+)\. ", m[2])).split())
        text_of = m[2]
        for x in bound & set(to):
            text_of = re.sub(rf"(\(λ (?:[^\s().]+ )*){re.escape(x)}((?: [^\s().]+)*\. (?:[^()]|\((?:[^()]|\([^()]*\))*\))*\))",
                             lambda y: re.sub(rf"(?<![^{SEP}])(?<!\.){re.escape(x)}(?![^{SEP}])", "bound-" + x, y[0]).replace(f"{x}.", f"bound-{x}.") if False else re.sub(rf"(?<![^{SEP}])(?<!\.){re.escape(x)}(?![^{SEP}])", "bound-" + x, y[0]), text_of)
        body = re.sub(rf"(?<![^{SEP}])(?<!\.)[^{SEP}]+", lambda x: to.get(x[0], x[0]), text_of).replace("bound-", "")
        for v in still:
            body = re.sub(rf"\(to_z w\d+ l\.{re.escape(v)}\)", f"l.{v}", body)
            body = re.sub(rf"to_z w\d+ l\.{re.escape(v)}(?![^{SEP}])", f"l.{v}", body)
        comment = "\n".join(l for l in b.split("\n") if l.startswith("--"))
        new = prefix + new
        inv_out.append((comment + "\n" if comment else "") + f"abbrev pub {kind}-{new} : goal.{kind}-{new}\n{kind}-{new} l = {body.strip()}")
    # ---- answers
    out, seen = [], set()
    skipped = []
    for i, (name, old, rest, b) in enumerate(need):
        older = {"loopholds": "loopinit", "loopless": "loopsmaller", "loopagain": "looppreserved"}
        new = needs.get(norm(name)) or needs.get(norm(old)) or needs.get(re.sub(r"^(loopholds|loopless|loopagain)", lambda m: older[m[1]], norm(old)))
        if new is None:
            skipped.append(old)
            continue
        if new in seen:
            continue
        seen.add(new)
        m = re.match(r"((?:unfolding [^\n]*\n)?)\S+((?: [^\s=]+)*) =\s*(.*)\Z", rest, re.S)
        if not m:
            return f"an answer that is not known: {name}"
        args = m[2].split()
        roots = {args[0]} if args else {"c"}
        e = fix(m[3], roots)
        if args and args[0] != "c":
            e = re.sub(rf"(?<![^{SEP}])(?<!\.){re.escape(args[0])}(?![^{SEP}])", "c", e)
        more = [x for x in args[1:] if x != "κs" and x != "_"]
        front, e, unf = with_helpers(e)
        if more:
            e = f"λ {' '.join(more)}.\n    {e.strip()}"
        names_of = asked.get(norm(name)) or asked.get(norm(old)) or asked.get(norm(new))
        if names_of:
            e = fix(as_record(e, names_of, lemmas), {"c"})
        if " ".join(e.split()) in TRIVIAL and not m[1]:
            continue
        u = [x[len("unfolding ") :] for x in unf] + ([m[1].strip()[len("unfolding ") :]] if m[1] else [])
        u = [x for x in dict.fromkeys(" ".join(u).split()) if x not in same and x not in helpers]
        line = "unfolding " + " ".join(u) + "\n" if u else ""
        comment = "\n".join(l for l in b.split("\n") if l.startswith("--"))
        sep = "\n    " if front or "\n" in e else " "
        text_e = ("\n    ".join(front + [""])).rstrip(" ") if front else ""
        if front:
            e2 = text_e + "    " + e.strip() if not text_e.endswith("\n    ") else text_e + e.strip()
            e2 = "\n    ".join(front) + "\n    " + e.strip()
        else:
            e2 = e.strip()
        new = prefix + new
        out.append((comment + "\n" if comment else "") + f"pub {new} : goal.{new}\n{line}{new} {'t ' if in_cycle else ''}c ={sep}{e2}")
    if in_cycle:
        return inv_out, out, own_use, [f"left: {path}: {p}" for p in problems] + ([f"gone: {path}: {' '.join(skipped)}"] if skipped else []), lemmas
    shared = []
    inv_text = " ".join(inv_out)
    again = True
    while again:
        again = False
        for b in lemmas:
            n = re.search(r"(?m)^(?:abbrev |pub |unfoldable |data |record )*([^\s:]+)", "\n".join(l for l in b.split("\n") if not l.startswith("--")))[1]
            if b not in shared and re.search(rf"(?<![^{SEP}])(?<!\.){re.escape(n)}(?![^{SEP}])", inv_text + " ".join(shared)):
                shared.append(b)
                again = True
    lemmas_here = [b for b in lemmas if b not in shared]
    shared_names, public = [], []
    for b in [x for x in lemmas if x in shared]:
        ls = b.split("\n")
        for i, l in enumerate(ls):
            if not l.startswith("--"):
                if not re.match(r"(?:abbrev |unfoldable )*pub |pub ", l):
                    ls[i] = re.sub(r"^((?:abbrev |unfoldable )?)", r"\1pub ", l)
                shared_names.append(re.search(r"^(?:abbrev |pub |unfoldable |data |record )*([^\s:]+)", l)[1])
                break
        public.append("\n".join(ls))
    folder = os.path.dirname(path)
    header = "\n".join(h for h in head if h.strip())
    header = (header + "\n") if header else ""
    left = [f"left: {path}: {p}" for p in problems]
    if inv_out:
        with open(os.path.join(folder, "Invariants.antt"), "w", encoding="utf-8") as f:
            f.write(header + "\n".join(own_use + [f"use {where}.Given as goal"]) + "\n\n" + "\n\n".join(public + inv_out) + "\n")
    if out:
        body = "\n\n".join(lemmas_here + out)
        if shared_names:
            own_use = own_use + [f"use {where}.Invariants.{{{', '.join(shared_names)}}}"]
        with open(os.path.join(folder, "Answers.antt"), "w", encoding="utf-8") as f:
            f.write(("" if inv_out else header) + "\n".join(own_use + [f"use {where}.Goals as goal"]) + "\n\n" + body + "\n")
    os.remove(path)
    if not inv_out and not out and not os.listdir(folder):
        os.rmdir(folder)
    if skipped:
        left.append(f"gone: {path}: {' '.join(skipped)}")
    return "\n".join(left) or None


def main():
    names = json.load(open(sys.argv[1], encoding="utf-8"))
    crate = sys.argv[2]
    only = set(sys.argv[3:])
    all_src = lib_text(crate)
    for top, folders, files in os.walk(f"crates/{crate}/proofs"):
        folders.sort()
        if "Proof.antt" in files:
            p = os.path.join(top, "Proof.antt")
            if only and os.path.basename(top) not in only:
                continue
            said = (cycle if os.path.basename(top).startswith("+") else convert)(p, crate, names, all_src)
            if said:
                print(said if said.startswith(("left:", "gone:")) else f"left: {p}: {said}")


main()
