"""What the pages of the repository cite, held against it (tests/documents): names and files in backticks, the fields of records, the definitions that contracts
lead to, crates, must-fail edits, and decisions by their numbers."""
import os
import re
from glob import glob

NAME = r"[A-Za-z_][\w'→-]*"
# Words in backticks that name nothing of the repository, and names of before that a page tells of.
FOREIGN = set("M- cargo gcc clang awk numpy python3 rt pkg-config F PATH OVERLAY_PAGE_AREA OVERLAY_RUN_GROUND overlay_fresh_cursor".split())
MADE = ("target/", "usr/", "7", "first.c", "first.cpp", "first.py", "src/records.rt", "proofs/Records.antt")


def read(path):
    with open(path, encoding="utf-8") as file:
        return file.read()


def listed():
    """The files of the repository, without what is built."""
    found = []
    for folder, folders, names in os.walk("."):
        folders[:] = [name for name in folders if name not in ("target", "out", ".git", "__pycache__")]
        found += [os.path.join(folder, name)[2:] for name in names]
    return sorted(found)


FILES = listed()
FOLDERS = {path[:i] for path in FILES for i, c in enumerate(path) if c == "/"}
CRATES = {path.split("/")[1] for path in FILES if path.startswith("crates/")}


def bare(text):
    """Code without its comments."""
    text = re.sub(r"/\*.*?\*/", " ", text, flags=re.S)
    return re.sub(r"(^|\s)(--|//|#(?!define|\[))[^\n]*", r"\1", text)


def words(start):
    """The names that stand in the code below a folder."""
    code = [p for p in FILES if p.startswith(start) and p.endswith((".antt", ".rt", ".rs", ".c", ".h", ".py", ".edit"))]
    text = " ".join(bare(read(path)) for path in code if path != "tests/cited.py")
    return set(re.findall(NAME, text)) | set(re.findall(r"\w+", text))


WORDS = words("") | CRATES
OF_CRATE = {crate: words(f"crates/{crate}/") for crate in CRATES}


def is_path(path):
    """Whether it is a file or a folder: of the repository, of a crate, or the end of one's name; an edit may leave out must-fail/ and its ending."""
    path = path.removeprefix("./").removeprefix("/").rstrip("/")
    crate, _, rest = path.partition("/")
    ways = [path, f"crates/{path}", f"crates/{crate}/must-fail/{rest}.edit", f"crates/{path}.antt"]
    if path.startswith(MADE) or any(way in FOLDERS or way in FILES for way in ways):
        return True
    ending = re.compile("(.*/)?" + re.escape(path).replace(r"\*", "[^/]*"))
    return any(ending.fullmatch(p) for p in FILES) or any(ending.fullmatch(f) for f in FOLDERS)


def wrong(span):
    """What is wrong with a citation; nothing where it is there, or is none."""
    if re.fullmatch(NAME + r"(::\w+)+", span):
        crate, *names = span.split("::")
        return [f"no name `{span}`"] if crate not in WORDS or not set(names) <= OF_CRATE.get(crate, WORDS) else []
    if re.fullmatch(r"[\w.*+-]*(/[\w.*+-]*)+|[\w-]+\.(antt|rt|rs|c|cpp|h|py|plan|md|txt|windows|edit|geojson)", span):
        placeholder = re.search(r"\b(CRATE|FILE|MOD|F|NAME)\b", span)
        return [] if placeholder or is_path(span) else [f"no file `{span}`"]
    if re.fullmatch(NAME + r"\.\.\.", span):
        return [] if any(word.startswith(span[:-3]) for word in WORDS) else [f"no name `{span}`"]
    if re.fullmatch(rf"\.?{NAME}(\.{NAME})*|\({NAME} \.\.\)(\.{NAME})+", span):
        return [f"no name `{name}`" for name in re.findall(NAME, span) if name not in WORDS | FOREIGN]
    folders = r"(?:crates|docs|tests|examples|include|python|rust|programs|bench)/[\w./-]*\w"
    return [f"no file `{path}`" for path in re.findall(folders, span) if not is_path(path)]


def records():
    """The records of the definitions: the fields of each, and of the records that its fields name."""
    fields, types = {}, {}
    for path in glob("crates/*/specs/**/*.antt", recursive=True):
        for match in re.finditer(r"^( *)(?:pub )?(?:record|data) (\S+)(.*?)(?=^\1\S|\Z)", bare(read(path)), re.S | re.M):
            name, body = match[2], match[3]
            fields.setdefault(name, set()).update(re.findall(r"^ +(?:pub )?([^\s:(){}]+) :", body, re.M))
            types.setdefault(name, set()).update(re.findall(NAME, body))
    for path in glob("crates/*/src/**/*.rt", recursive=True):
        for match in re.finditer(r"pub (?:struct|enum) (\w+) \{(.*?)\n\}", read(path), re.S):
            fields.setdefault(match[1], set()).update(re.findall(r"\w+", match[2]))

    def below(name, seen):
        if name not in fields or name in seen:
            return set()
        seen.add(name)
        return fields[name].union(*(below(other, seen) for other in types.get(name, ())))

    return {name: below(name, set()) for name in fields}


RECORDS = records()


def wrong_fields(line):
    """`Record`: `field`, `field`: those that the record and the records in it do not have."""
    for match in re.finditer(r"`(\w+)`: ((?:`[^`]+`(?: \([^()]*\))?(?:, and |, | and )?)+)", line):
        names = [re.search(NAME, span) for span in re.findall(r"`([^`]+)`", re.sub(r"\([^()]*\)", "", match[2]))]
        for name in (name[0] for name in names if name):
            if match[1] in RECORDS and name not in RECORDS[match[1]] and not name[0].isupper():
                yield f"`{match[1]}` has no `{name}`"


def cited(page):
    """What is wrong on a page, by line."""
    fenced = False
    for number, line in enumerate(read(page).split("\n"), 1):
        fenced ^= line.startswith("```")
        if fenced or line.startswith(("    ", "```")):
            continue
        found = [fault for span in re.findall(r"`([^`]+)`", line) for fault in wrong(span)]
        yield from (f"{page}:{number}: {fault}" for fault in found + list(wrong_fields(line)))


def crates():
    """README.md names every crate, and in its table of promise and code nothing else; before or behind a definition stands its crate."""
    text = read("README.md")
    yield from (f"README.md: no word of the crate {crate}" for crate in sorted(CRATES) if not re.search(rf"\b{crate}\b", text))
    table = re.search(r"^\| promise \| code \|\n(.*?)^$", text, re.S | re.M)[1]
    for name in re.findall(r"`(\w+)`", re.sub(r"\([^()]*\)", "", table)):
        if name not in CRATES:
            yield f"README.md: `{name}` is no crate"
    for page in ("docs/PROMISES.md", "docs/DECISIONS.md"):
        for first, second in re.findall(r"(?:\| |; |— )([a-z_]+), (?=`)|`[\w.]+` \(([a-z_]+)[,)]", read(page)):
            if (first or second) not in CRATES:
                yield f"{page}: {first or second} is no crate"


def edits():
    """Every must-fail edit stands in PROMISES.md, and none twice in crates."""
    text = read("docs/PROMISES.md")
    for path in glob("crates/*/must-fail/*.edit"):
        _, crate, _, name = path.split("/")
        if f"`{crate}/{name[:-5]}`" not in text:
            yield f"docs/PROMISES.md: no word of the edit {path}"


def decisions():
    """Decisions are numbered from 1 on, and each that is cited is there."""
    numbers = [int(n) for n in re.findall(r"^(\d+)\. \*\*", read("docs/DECISIONS.md"), re.M)]
    if numbers != list(range(1, len(numbers) + 1)):
        yield "docs/DECISIONS.md: not numbered in order"
    for path in FILES:
        if path.endswith((".md", ".antt", ".rt", ".rs", ".py", ".c", ".h", ".edit", ".txt")) and not path.startswith("docs/landings/"):
            for number in re.findall(r"DECISIONS(?:\.md`?)?,? (\d+)", read(path)):
                if int(number) not in numbers:
                    yield f"{path}: no decision {number}"
