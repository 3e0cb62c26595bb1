#!/usr/bin/env python3
"""Counts the places of docs/DESIGN-PASS.md in crates/*/src, point by point; with a point's number it lists them."""
import collections
import glob
import re
import sys

WHICH = sys.argv[1] if len(sys.argv) > 1 else None
FILES = {p: open(p, encoding="utf-8").read() for p in sorted(glob.glob("crates/*/src/**/*.rt", recursive=True))}


def line_of(text, at):
    return text.count("\n", 0, at) + 1


def functions():
    """Each function: file, line, name, parameters, what lies between them and the body, body."""
    for path, text in FILES.items():
        for m in re.finditer(r"\bfn ([a-z_0-9]+)\s*(<[^>(]*>)?\(", text):
            depth, i = 1, m.end()
            while depth:
                depth += {"(": 1, ")": -1}.get(text[i], 0)
                i += 1
            params = re.sub(r"\s+", " ", text[m.end():i - 1]).strip().rstrip(",")
            head_end = text.find("\n{", i)
            body_end = text.find("\n}", head_end)
            yield path, line_of(text, m.start()), m.group(1), params, text[i:head_end], text[head_end:body_end]


FUNCTIONS = list(functions())


def show(point, title, places):
    print(f"{point}  {title}: {len(places)}")
    if WHICH == point:
        for place in places:
            print("     ", place)


def declared(word):
    for path, text in FILES.items():
        for m in re.finditer(rf"^(?:pub )?{word} (\w+)[^{{;]*\{{(.*?)^\}}", text, re.M | re.S):
            yield f"{path}:{line_of(text, m.start())} {m.group(1)}", m.group(2)


def clean(body):
    return re.sub(r"//[^\n]*", "", body)


# 1: own enums with a variant that holds nothing beside ones that hold something, or that is a refusal; flags with a value beside; numbers for kinds, refusals
enums = []
for name, body in declared("enum"):
    variants = re.findall(r"^\s*(\w+)(\([^)]*\))?,", clean(body), re.M)
    if any(v[1] for v in variants) and (len(variants) <= 3 and any(not v[1] for v in variants) or any(v[0] == "Refused" for v in variants)):
        enums.append(name)
show("1a", "own enums of the shape of Option or Result", enums)
show("1b", "structs with a flag", [n for n, b in declared("struct") if re.search(r"\w+: bool", clean(b))])
show("1c", "numbers for kinds and refusals",
     [f"{p}:{n} {f}" for p, n, f, params, head, body in FUNCTIONS
      if re.search(r"_cause$", f) and "-> u32" in head and "extern" not in f or re.search(r"\b(cause|kind|command|reason): u(8|32)\b", params)]
     + [n for n, b in declared("struct") if re.search(r"\b(number|cause|kind|reason|command|status): u(8|32)\b", clean(b))])

# 3: loops that count an index
loops = []
for path, text in FILES.items():
    for m in re.finditer(r"^( *)while ([^\n]*)\{\n(.*?)^\1\}", text, re.M | re.S):
        counted = [v for v in re.findall(r"\b([a-z]\w*)\b", m.group(2)) if re.search(rf"^\s*{v} [+-]= 1;", m.group(3), re.M)]
        if counted:
            loops.append(f"{path}:{line_of(text, m.start())} {counted[0]}")
show("3", "loops that count an index", loops)
show("3b", "other `while` loops", [f"{p}:{line_of(t, m.start())} {m.group(1)}" for p, t in FILES.items()
                                   for m in re.finditer(r"^ *while ([^\n]*)\{$", t, re.M)
                                   if not any(l.startswith(f"{p}:{line_of(t, m.start())} ") for l in loops)])

# 4: least and greatest by hand, tests by early return, copies by hand
hand = []
for p, n, f, params, head, body in FUNCTIONS:
    if re.search(r"if (\w+) <=? (\w+) \{ (\1|\2) \} else \{ (\1|\2) \}", body):
        hand.append(f"{p}:{n} {f} (least or greatest)")
    if "-> bool" in head and re.search(r"return (true|false|\w+ <=? \w+)", body) and "while" not in body and "for " not in body:
        hand.append(f"{p}:{n} {f} (a test)")
    if re.search(r"while[^\n]*\{\n\s*\w+\[[^\n]*\] = \w+\[\w+\];\n\s*\w+ \+= 1;\n", body):
        hand.append(f"{p}:{n} {f} (a copy)")
show("4", "order, tests and copies by hand", hand)

# 5: what many contracts say; parameters that travel together
facts = collections.Counter()
for p, n, f, params, head, body in FUNCTIONS:
    for clause in re.findall(r"requires(?: \w+)? \{(.*?)\}\s*(?=requires|ensures|$)", re.sub(r"\s+", " ", head)):
        for part in clause.split("×"):
            part = part.strip(" ()")
            if re.match(r"[A-Z]\w+ ", part):
                facts[part] += 1
show("5a", "facts in the requires of three or more functions", [f"{v} {k}" for k, v in facts.most_common() if v >= 3])
show("5b", "functions with more than seven parameters", [f"{p}:{n} {f} ({params.count(':')})" for p, n, f, params, _, _ in FUNCTIONS
                                                          if params.count(":") > 7 and "capi/" not in p])

# 6: a buffer with a place beside it, lists with their lengths beside, searches by hand
show("6a", "a buffer and a place in it", [f"{p}:{n} {f}" for p, n, f, params, _, _ in FUNCTIONS if re.search(r"buf: &mut \[u8\], at: usize", params)])
show("6b", "lists with their lengths beside them", [f"{p}:{n} {f}" for p, n, f, params, _, _ in FUNCTIONS
                                                    if re.search(r"lists: &.*counts: &|near: &.*nears: &", params)])
show("6c", "searches by halves", [f"{p}:{line_of(t, m.start())}" for p, t in FILES.items() for m in re.finditer(r"while low(?: \+ 1)? < high", t)])

# 7: a flag that says which step to run
show("7", "flags that say which step to run", [f"{p}:{n} {f}" for p, n, f, params, _, _ in FUNCTIONS if re.search(r"\b\w+: bool\b", params)])
