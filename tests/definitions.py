"""The definitions that contracts lead to, whether the table of PROMISES.md has each, and whether it has the sentences of the papers that stand at definitions, word
for word (tests/documents). A contract is read by its words: those that its file
takes from specs/ are definitions, and so on through the definitions' own words."""
import re
from glob import glob

from cited import CRATES, bare, read

WORD = r"[A-Za-z][\w'→-]*"
# Whose contracts are the promises: all that is exported to C, and these calls for programs in Rattle.
CALLS = {
    "plan_code": ["check_plan"],
    "sweep_code": ["make_order", "check_order"],
    "rows_code": ["row", "row_common"],
    "nearest_code": ["nearest"],
    "pairs_code": ["apart_pair"],
    "crossings_code": ["class_of"],
    "windows_code": ["row_hours"],
    "pager": ["fresh_ticket", "fetch_page", "timed_page"],
    "runner": ["run_all", "timed_run"],
    "rounds_code": ["round"],
    "crossing_report_code": ["crossing_report"],
    "reader": ["read"],
    "writer": ["write"],
    "survey_code": ["cover_records"],
    "reporting_code": ["report"],
    "commands_code": ["command"],
    "arguments_code": ["text_source", "second_source"],
}


def taken(text):
    """The names that a file takes from definitions, each with its crate and file."""
    found = {}
    for crate, file, names in re.findall(r"use Rattle\.(\w+)\.specs\.([\w.-]+)\.\{([^}]*)\}", text):
        found.update({name.strip().strip("◌"): (crate, file) for name in names.split(",")})
    return found


def defined(text):
    """The definitions of a file with their bodies. A record that says nothing, whose fields are values, is none."""
    found = {}
    parts = re.split(r"^ *(?=(?:abbrev |unfoldable |opaque )+pub |pub (?:record|data) |module )|^(?=pub )", bare(text), flags=re.M)
    for part in parts:
        match = re.match(r"(?:abbrev |unfoldable |opaque |pub )*(record |data |module )?([^\s:(){}]+)", part)
        if match and match[1] != "module " and (match[1] is None or "≡" in part):
            found[match[2].strip("◌")] = part
    return found


def led_to():
    """Each definition that a contract leads to, with its crate and file."""
    files = {tuple(path[7:-5].replace("/specs/", " ").replace("/", ".").split(" ")): read(path) for path in glob("crates/*/specs/**/*.antt", recursive=True)}
    names = {key: defined(text) for key, text in files.items()}
    uses = {key: taken(text) for key, text in files.items()}
    seen, due = set(), []

    def lead(text, known, own):
        for word in set(re.findall(WORD, text)):
            key = own if own and word in names[own] else known.get(word)
            if key in names and word in names[key] and (key, word) not in seen:
                seen.add((key, word))
                due.append((key, word))

    for crate in ["capi", "program", *CALLS]:
        found = set()
        for path in glob(f"crates/{crate}/src/**/*.rt", recursive=True):
            text = read(path)
            for name, contract in re.findall(r'pub (?:extern "C" )?fn (\w+)(\(.*?)\n\{', bare(text), re.S):
                if crate not in CALLS or name in CALLS[crate]:
                    found.add(name)
                    lead(contract, taken(text), None)
        assert found >= set(CALLS.get(crate, [])), f"{crate}: no {set(CALLS[crate]) - found}"
    while due:
        key, word = due.pop()
        lead(names[key][word], uses[key], key)
    return seen


def missing():
    """What the table does not have, and what it has that is no definition of its crate."""
    text = read("docs/PROMISES.md")
    table = text.split("| crate | definitions")[1].split("\n\n")[0]
    has, whole, faults = {}, {}, []
    for row in table.split("\n")[2:]:
        crates, cell = row.strip("| ").split(" | ", 1)
        named = [part.split(" — ")[0] for part in cell.split(" · ")]
        for crate in crates.split(", "):
            has[crate] = set(re.findall(r"`([^`]+)`", " ".join(named)))
            whole[crate] = set(re.findall(r"\b[A-Z]\w+", " ".join(part for part in named if "all of" in part)))
            if crate not in CRATES:
                faults.append(f"docs/PROMISES.md: no crate {crate}")
    there = {crate: set() for crate in CRATES}
    for path in glob("crates/*/specs/**/*.antt", recursive=True):
        there[path.split("/")[1]].update(defined(read(path)))
    for (crate, file), name in sorted(led_to()):
        if name not in has.get(crate, ()) and file not in whole.get(crate, ()):
            faults.append(f"docs/PROMISES.md: the table of definitions has no `{name}` of {crate}, {file}")
    for crate, names in has.items():
        for name in sorted(names - there[crate]):
            faults.append(f"docs/PROMISES.md: {crate} has no definition `{name}`")
    return faults


def unquoted():
    """What a comment of specs/ quotes from a paper, as `01: ".."` or `02, Q-5: ".."`, and PROMISES.md has not; two dots leave words out."""

    def plain(text):
        return re.sub(r"\s+", " ", text).strip(" .;:,")

    promises = plain(read("docs/PROMISES.md"))
    for path in sorted(glob("crates/*/specs/**/*.antt", recursive=True)):
        comments = re.sub(r"\n *-- ?", " ", re.sub(r"^(?! *--).*$", "", read(path), flags=re.M))
        for quote in re.findall(r'\b0[12](?:, Q-\d+)?: [^"\n]{0,60}"([^"]*)"', comments):
            for part in re.split(r" ?\.\.,? |(?<=[a-z0-9])\. ", quote):
                if plain(part) not in promises:
                    yield f"docs/PROMISES.md: {path} quotes what it has not: {part}"
