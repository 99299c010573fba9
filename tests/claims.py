"""Whether docs/CLAIMS.md and its chapters, docs/claims/*.md, close. It fails where

- what a chapter cites is not there: a definition, theorem or contract, a must-fail edit, a test;
- a must-fail edit, or a theorem on a page of theorems (specs/ or proofs/Theorems.antt), is there that no chapter cites;
- an entry is said by what the reading path does not list;
- a statement on the reading path uses a definition of ours that the path does not list;
- a refusal has another name or number in `answer/src/refusal.rt` than in include/tahliruz.h.

The reading path is the section of that name in the index: `crate/path.antt` puts a whole file on it, `crate/path.antt#name` a
single name, and `{a,b}` stands for each of a and b. A chapter begins with its key, lines "- `Name` is `crate/path`", and then
cites `Name#name`; `crate/name.edit`, a file below tests/ or examples/, `listings/name` (tests/listings) or a program of second/.
"""
import re
import sys
from pathlib import Path

import sources
from sources import CRATES

INDEX = Path("docs/CLAIMS.md")
CHAPTERS = Path("docs/claims")
WIDTH = 120
# the parts of an entry, in order; `met by` has functions inside the library, and not every entry has one
PARTS = ("says", "met by", "rules out", "shown by")
# words of the language, which may stand among citations
LANGUAGE = ("requires", "ensures", "extern")

faults = []
# the declarations that some entry is said by
said = set()


def fault(where, what):
    faults.append(f"{where}: {what}")


def quoted(text):
    return re.findall(r"`([^`]+)`", text)


# ---- the index
def section(title):
    found = re.search(rf"^## {title}\n(.*?)(?=^## |\Z)", INDEX.read_text(), re.M | re.S)
    if not found:
        sys.exit(f"{INDEX}: no section {title!r}")
    return found.group(1)


def expanded(text):
    found = re.match(r"(.*?)\{(.*)\}(.*)", text, re.S)
    return [found[1] + part.strip() + found[3] for part in found[2].split(",")] if found else [text]


class ReadingPath:
    """The whole files and the single names, each with its file, that the index lists."""

    def __init__(self):
        self.whole, self.single = set(), set()
        for text in (one for each in quoted(section("The reading path")) for one in expanded(each)):
            if re.search(r"\.(antt|rt)(#|$)", text):
                self.add(*text.partition("#")[::2])

    def add(self, file, name):
        path = CRATES / file
        if not path.exists():
            fault(INDEX, f"the reading path names a file that is not there: {path}")
        elif not name:
            self.whole.add(path)
        elif not sources.read(path).owner(name):
            fault(INDEX, f"the reading path names what {path} does not declare: {name}")
        else:
            self.single.add((path, name))

    def lists(self, path, name):
        return path in self.whole or (path, name) in self.single

    def statements(self):
        """Of a whole file the public ones; what they use of their own file is followed."""
        public = [d for path in sorted(self.whole) for d in sources.read(path).declared.values() if d.public]
        return public + [sources.read(path).owner(name) for path, name in sorted(self.single)]


def check_closed(reading):
    left, seen = reading.statements(), set()
    while left:
        statement = left.pop(0)
        if statement in seen:
            continue
        seen.add(statement)
        for path, name in sorted(sources.uses(statement)):
            used = sources.read(path).owner(name) if path.exists() else None
            if not used:
                fault(statement.path, f"{statement.name} uses {name}, and {path} does not declare it")
            elif not reading.lists(path, name):
                fault(statement.path, f"{statement.name} uses {name} of {path}, which the reading path does not list")
            elif path == statement.path:
                left.append(used)
    return len(seen)


def check_chapters_listed():
    listed = set(re.findall(r"\]\(claims/([a-z-]+\.md)\)", section("Chapters")))
    there = {path.name for path in CHAPTERS.glob("*.md")}
    for name in sorted(listed ^ there):
        fault(INDEX, f"chapter {name} is " + ("listed and not there" if name in listed else "not listed"))


# ---- chapters
class Chapter:
    def __init__(self, path):
        self.path = path
        head, _, self.body = path.read_text().partition("\n## ")
        self.key = dict(re.findall(r"^- `([^`]+)` is `([^`]+)`", head, re.M))
        self.used = set()

    def fault(self, what):
        fault(self.path, what)

    def entries(self):
        """Each entry as its sentence and its parts."""
        for sentence, parts in re.findall(r"^\*\*([^*]+)\*\*\n((?:(?:- |  )[^\n]*\n?)*)", self.body, re.M):
            yield " ".join(sentence.split()), dict(re.findall(r"^- ([a-z ]+): (.*?)(?=^- |\Z)", parts, re.M | re.S))

    def declaration(self, citation):
        """The file of a citation `Name#name`, and the declaration that the name belongs to; None where it is not there."""
        key, _, name = citation.partition("#")
        self.used.add(key)
        path = CRATES / self.key.get(key, "")
        if key not in self.key:
            self.fault(f"`{citation}`: the chapter's key has no {key}")
        elif path.is_file() and not sources.read(path).cited(name):
            self.fault(f"`{citation}`: {path} does not declare {name}")
        elif path.is_file():
            return path, sources.read(path).cited(name).name
        return None

    def check_citation(self, citation):
        if "#" in citation:
            self.declaration(citation)
        elif citation.endswith(".edit"):
            if not edit_path(citation).exists():
                self.fault(f"no such must-fail edit: {citation}")
        elif citation in self.key:
            self.used.add(citation)
        elif re.fullmatch(r"[\w./-]*[a-z][\w./-]*", citation) and citation not in LANGUAGE and not is_test(citation):
            self.fault(f"`{citation}` is neither a test, a program nor a name of the key")

    def check_key(self):
        for name, path in self.key.items():
            if not (CRATES / path).is_file():
                self.fault(f"the key names a file that is not there: {path}")
            if name not in self.used:
                self.fault(f"the key has {name}, which nothing cites")


def edit_path(citation):
    crate, _, name = citation.partition("/")
    return CRATES / crate / "must-fail" / name


def is_test(citation):
    places = (citation, f"tests/{citation}.expected", f"second/src/bin/{citation}", f"second/src/bin/{citation}.rs")
    return any(Path(place).exists() for place in (*places, f"crates/{citation}"))


def check_entry(chapter, sentence, parts, reading):
    if tuple(parts) != tuple(part for part in PARTS if part in parts or part != "met by"):
        chapter.fault(f"{sentence}: its parts are {', '.join(parts)}")
        return
    if ";" not in parts["rules out"]:
        chapter.fault(f"{sentence}: it rules out one answer, not two")
    if not quoted(parts["says"]):
        chapter.fault(f"{sentence}: it cites nothing that says it")
    for citation in (c for c in quoted(parts["says"]) if "#" in c):
        found = chapter.declaration(citation)
        said.add(found)
        if found and not reading.lists(*found):
            chapter.fault(f"{sentence}: it is said by `{citation}`, which the reading path does not list")


def check_chapter(path, reading):
    chapter = Chapter(path)
    entries = list(chapter.entries())
    if len(entries) != len(re.findall(r"^\*\*", chapter.body, re.M)):
        chapter.fault("a sentence in bold has no parts below it")
    for sentence, parts in entries:
        check_entry(chapter, sentence, parts, reading)
        for citation in (c for part in ("says", "met by", "shown by") for c in quoted(parts.get(part, ""))):
            chapter.check_citation(citation)
    for citation in quoted(chapter.body):
        if "#" in citation:
            chapter.declaration(citation)
    chapter.check_key()
    return len(entries)


def check_edits_cited():
    cited = {edit_path(c) for path in CHAPTERS.glob("*.md") for c in quoted(path.read_text()) if c.endswith(".edit")}
    for path in sorted(set(CRATES.glob("*/must-fail/*.edit")) - cited):
        fault(path, "no chapter cites this must-fail edit")
    return len(cited)


def check_theorems_cited():
    for path in sorted(path for folder in ("specs", "proofs") for path in CRATES.glob(f"*/{folder}/Theorems.antt")):
        for theorem in sources.read(path).declared.values():
            if theorem.public and (path, theorem.name) not in said:
                fault(path, f"no entry is said by {theorem.name}")


def check_refusals():
    """The names and numbers of refusals in C's header are those of `Refusal`, and what a number is stands in its match."""
    numbers = re.search(r"^enum tahliruz_number \{(.*?)^\};", Path("include/tahliruz.h").read_text(), re.M | re.S)[1]
    header = re.findall(r"^    TAHLIRUZ_(\w+) = (\d+)", numbers, re.M)
    here = re.findall(r"^ +Refusal::(\w+) => (\d+),", (CRATES / "answer/src/refusal.rt").read_text(), re.M)
    if {(name.title().replace("_", ""), number) for name, number in header} - {("Done", "0")} != set(here):
        fault(CRATES / "answer/src/refusal.rt", "its names and numbers are not those of include/tahliruz.h")


def check_width(path):
    for number, line in enumerate(path.read_text().splitlines(), 1):
        if len(line) > WIDTH:
            fault(f"{path}:{number}", f"{len(line)} columns, {WIDTH} at most")


def main():
    reading = ReadingPath()
    statements = check_closed(reading)
    check_chapters_listed()
    chapters = sorted(CHAPTERS.glob("*.md"))
    entries = sum(check_chapter(path, reading) for path in chapters)
    edits = check_edits_cited()
    check_theorems_cited()
    check_refusals()
    for path in (INDEX, *chapters):
        check_width(path)
    for line in dict.fromkeys(faults):
        print(line)
    if faults:
        sys.exit(1)
    print(f"{INDEX}: {entries} entries, {edits} must-fail edits; {statements} statements on the reading path use nothing outside it")


main()
