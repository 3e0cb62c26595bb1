#!/usr/bin/env python3
"""Spells the repository's own definitions and lemmas as today's Rattle does: words in snake case.

usage: tools/respell.py [--list]      at the top of the repository, once, behind port.py

    frameSizes  ->  frame_sizes        a definition or a lemma, wherever it stands, also as a part of a name, as in leZ-true
    if-true     ->  if_true            a definition or a field of specs/ whose name has a dash

A lemma's dashes stay: they part what it is about. It goes over .rt, .antt and .edit files below crates/. A name that would meet another one is listed as
`meets:` and stays. --list writes nothing. A second run changes nothing.
"""
import collections
import os
import re
import sys

TOKEN = re.compile(r"[^\s(){}.;,@\"«»\[\]\\`|]+")
DECLARED = re.compile(r"(?m)^ *(?:(?:abbrev|unfoldable|pub|data|record|ruleset) )*([^\s(){}.;,@\"«»\[\]\\:]+)(?: [({][^\n]*?[)}])* : ")
# Lemmas of specs/ that are no words: a lemma's dashes stay.
STAY = {"Line-at"}
# Names that would fall together with one that is respelled: the crate's files, the name and another for it.
FALL = [
    (r"decimal/proofs/Reading\.antt", "after_minus", "numbered_after"),
    (r"(lists/proofs/Sorting|front/proofs/(Members|Activity))\.antt", "insert_all", "all-insert"),
    (r"(windows/proofs/(Shared|Theorems)|timed/proofs/Week)\.antt", "is_open", "is-open"),
    (r"(counter/proofs/Totals|slots/proofs/Slots|timed_counter/proofs/Trials|walker/proofs/Focuses)\.antt", "size_in", "size-slot"),
    (r"commands/proofs/Numbers\.antt", "value_in", "value_of_number"),
    (r"paging/(specs|proofs)/Theorems\.antt", "run-values", "values_of_run"),
]


def files():
    for top, folders, names in os.walk("crates"):
        folders[:] = sorted(d for d in folders if d != "out")
        for name in sorted(names):
            if name.endswith((".rt", ".antt", ".edit")):
                yield os.path.join(top, name)


def snake(name):
    return re.sub(r"(?<=[a-z0-9])[A-Z]", lambda m: "_" + m[0].lower(), name)


def is_camel(part):
    return re.match(r"[a-z][a-z0-9_]*[A-Z]", part) is not None


def new_name(name, of_specs):
    parts = name.split("-")
    new = "-".join(snake(p) if is_camel(p) else p for p in parts)
    if of_specs and "-" in new and re.fullmatch(r"[a-z0-9_-]+", new) and name not in STAY:
        new = new.replace("-", "_")
    return new


def main():
    read = {f: open(f, encoding="utf-8").read() for f in files()}
    texts = dict(read)
    for where, old, new in FALL:
        for f in texts:
            if re.fullmatch("crates/" + where, f):
                texts[f] = TOKEN.sub(lambda m: new if m[0] == old else m[0], texts[f])
    declared = collections.defaultdict(set)
    for f, text in texts.items():
        if f.endswith(".antt") and not f.endswith("/Proof.antt"):
            for m in DECLARED.finditer(text):
                declared[m[1]].add(f)
    names = {}
    for name, where in declared.items():
        of_specs = any(re.match(r"crates/[^/]+/specs/", f) for f in where)
        new = new_name(name, of_specs)
        if new != name:
            names[name] = new
    tokens = {f: set(TOKEN.findall(text)) for f, text in texts.items()}
    # A name that would meet another one in some file stays in all of them.
    back = collections.defaultdict(list)
    for old, new in names.items():
        back[new].append(old)
    for old, new in sorted(names.items()):
        if len(back[new]) > 1:
            print("meets:", old, new, "and", [o for o in back[new] if o != old])
            continue
        both = [f for f in texts if old in tokens[f] and new in tokens[f]]
        if both:
            print("meets:", old, new, "in", *both[:4])
    if "--list" in sys.argv[1:]:
        print(len(names), "names")
        return
    for f, text in texts.items():
        new = TOKEN.sub(lambda m: names.get(m[0], m[0]), text)
        if new != read[f]:
            with open(f, "w", encoding="utf-8") as out:
                out.write(new)


main()
