"""What the files below crates/ declare, what each declaration states, and which names of ours a statement uses.

A statement is what a reader has to believe: the type of a theorem, not its proof; a definition (`abbrev`, `unfoldable`), a
record or a data type whole; a Rattle function's types and contract, not its body; a struct or enum whole.
"""
import re
from functools import lru_cache
from pathlib import Path

CRATES = Path("crates")
# crates below `Rattle.` that are the toolchain's
TOOLCHAIN = {"std"}
# ends of names, in specifications and in Rattle; «» may stand around a name
BREAKS = re.compile(r"[\s(){}\[\];,:&<>\"«»]+")


class Declaration:
    def __init__(self, path, name, public, text):
        self.path, self.name, self.public, self.text = path, name, public, text
        self.clauses = ""  # what a Rattle function requires and ensures, in names of specifications
        self.parts = []  # constructors and variants, which are read with it
        self.fields = []  # fields, which are cited, and used only by values whose type is named elsewhere
        self.bound = set()  # parameters and fields of Rattle, which hide a name that is imported


class Source:
    """The declarations of a file, and what its `use` lines mean: a name is (path, name), a module's alias is a path.

    In Rattle a function may have the name of a definition: `ghost use` gives names to clauses, `use` gives types to signatures.
    """

    def __init__(self, path):
        self.path = path
        self.declared, self.names, self.modules, self.types = {}, {}, {}, {}

    def declare(self, name, public, text):
        self.declared[name] = Declaration(self.path, name, public, text)
        self.names |= {word: (self.path, name) for word in words_of(name) if word != name}
        return self.declared[name]

    def owner(self, name):
        """The declaration that has this name or a constructor of this name, or None."""
        found = self.declared.get(name)
        return found or next((d for d in self.declared.values() if name in d.parts), None)

    def cited(self, name):
        """The declaration that a citation of this name means: it may name a field too."""
        return self.owner(name) or next((d for d in self.declared.values() if name in d.fields), None)


def words_of(name):
    """What stands for a name where it is used: of a mixfix name the words between its gaps."""
    return [word for word in name.split("◌") if word]


@lru_cache(maxsize=None)
def read(path):
    lines = [uncommented(line, "--" if path.suffix == ".antt" else "//") for line in path.read_text().splitlines()]
    source = Source(path)
    if path.suffix == ".antt":
        read_specification(source, [line for line in lines if line.strip()], "")
    else:
        read_rattle(source, lines)
    return source


def uncommented(line, mark):
    return re.sub(r"(^|\s)" + mark + r".*", "", re.sub(r'"(\\.|[^"\\])*"', '""', line)).rstrip()


# ---- specifications
SIGNATURE = re.compile(r"\s*((?:(?:unfoldable|abbrev|pub)\s+)*)([^\s:()]+)\s*:(\s|$)")
TYPE = re.compile(r"\s*((?:pub\s+)?)(data|record)\s+([^\s(){}]+)")


def read_specification(source, lines, telescope):
    """Reads the declarations of one indentation; those of a `module _ (..) where` state what stands in its brackets too."""
    last, defines = None, False
    for block in blocks(lines):
        first, text = block[0], "\n".join(block)
        word = first.split()[0]
        if word == "use":
            read_use(source, text)
        elif word == "module":
            end = next(i for i, line in enumerate(block) if line.endswith("where"))
            read_specification(source, block[end + 1 :], telescope + "\n".join(block[: end + 1]).replace("module _", ""))
        elif TYPE.match(first):
            read_type(source, block, telescope)
        elif SIGNATURE.match(first):
            marks, name, _ = SIGNATURE.match(first).groups()
            last = source.declare(name, "pub" in marks, telescope + "\n" + text)
            defines = "abbrev" in marks or "unfoldable" in marks
        elif defines and word not in ("unfolding", "pub", "mod") and not word.startswith("infix"):
            last.text += "\n" + text  # a clause of what was declared last


def blocks(lines):
    """Each line with the deeper ones below it. A closing bracket belongs to what it closes."""
    block = []
    for line in lines:
        if block and indent(line) <= indent(block[0]) and not line.lstrip().startswith(("}", ")")):
            yield block
            block = []
        block.append(line)
    if block:
        yield block


def indent(line):
    return len(line) - len(line.lstrip())


def read_type(source, block, telescope):
    public, kind, name = TYPE.match(block[0]).groups()
    declaration = source.declare(name, bool(public), telescope + "\n" + "\n".join(block))
    parts = [SIGNATURE.match(inner[0]).group(2) for inner in blocks(block[1:]) if SIGNATURE.match(inner[0])]
    if kind == "data":
        declaration.parts = parts
    else:
        declaration.fields = parts


USE = re.compile(r"use\s+([^\s{]+?)\.?(?:\{(.*)\}|\s+as\s+(\S+))?\s*;?$", re.S)


def read_use(source, text):
    module, names, alias = USE.match(text.strip()).groups()
    path, owner = module_path(source.path, module)
    if path is None:
        return
    if names is None:
        source.modules[alias or module.split(".")[-1]] = path
        return
    for real, local in listed(names):
        # a variant belongs to its enum
        for word in words_of(local):
            source.names[word] = (path, owner or real)


def listed(names):
    """The names between the braces of a `use` line, each with the name that it has here."""
    for name in filter(None, (part.strip() for part in names.split(","))):
        real, _, local = name.partition(" as ")
        yield real.strip(), (local or real).strip()


def module_path(user, module):
    """Where a module of ours stands, and, of a struct or enum, its name; (None, None) of the toolchain's."""
    parts = module.split(".")
    if parts[0] == "Rattle":
        crate, folder, inner = parts[1], parts[2], parts[3:]
        if crate in TOOLCHAIN:
            return None, None
        if inner[0] == "declared":
            inner = [part for part in inner[1:] if part != "TheVariants"]
            return rattle_path(crate, inner[:-1]), inner[-1]
        return CRATES / crate / folder / ("/".join(inner) + ".antt"), None
    beside = user.with_suffix("") / ("/".join(parts) + ".antt")
    return (beside, None) if beside.exists() else (None, None)


# ---- Rattle
# a clause, and the name that it may have
CLAUSE = re.compile(r"\s+(requires|ensures)(\s+\w+)?\s+(?={)")
ITEM = re.compile(r'(pub\s+)?(?:extern\s+""\s+)?(?:const\s+)?(fn|struct|enum|const|type)\s+(\w+)')


# a block of methods; of a trait's methods the trait is not looked at
IMPL = re.compile(r"impl(?:<[^>]*>)?\s+(?:[\w:<>, '&\[\]]+\s+for\s+)?(\w+)")


def read_rattle(source, lines):
    crate = source.path.parts[1]
    owner = None
    for number, line in enumerate(lines):
        text = "".join(lines[number:]).partition(";")[0] if "use " in line else ""
        if line.startswith("ghost use "):
            read_use(source, text.removeprefix("ghost "))
        elif re.match(r"(pub )?use ", line):
            read_rattle_use(source, crate, text)
        elif IMPL.match(line):
            owner = IMPL.match(line).group(1)
        elif line == "}":
            owner = None
        elif owner and ITEM.match(line.removeprefix("    ")):
            read_item(source, [re.sub(r"\bSelf\b", owner, inner.removeprefix("    ")) for inner in lines[number:]], owner)
        elif ITEM.match(line):
            read_item(source, lines[number:])


def read_rattle_use(source, crate, text):
    module, _, names = re.sub(r"^(pub )?use ", "", text).rstrip(" }").partition("{")
    parts = module.split("::")
    names = names or parts[-1]
    if parts[0] == "crate" or not (CRATES / parts[0]).exists():
        parts = [crate] + parts[parts[0] == "crate" :]
    path = rattle_path(parts[0], parts[1:-1])
    if path and path.exists():
        for real, local in listed(names):
            source.types[local] = (path, real)


def rattle_path(crate, modules):
    if modules:
        return CRATES / crate / "src" / ("/".join(modules) + ".rt")
    return next((p for p in (CRATES / crate / "src" / n for n in ("lib.rt", "main.rt")) if p.exists()), None)


def read_item(source, lines, owner=None):
    """Of a method the type is its owner; two methods of one name in a file are told apart by it."""
    public, kind, name = ITEM.match(lines[0]).groups()
    if name in source.declared and owner:
        name = f"{owner}::{name}"
    if kind in ("const", "type"):
        source.declare(name, bool(public), lines[0])
        return
    last = {"fn": lambda line: re.match(r"(\S.* )?{$", line), "struct": lambda line: line.endswith(("}", ";"))}
    ends = last.get(kind, lambda line: line == "}")
    end = next(i for i, line in enumerate(lines) if ends(line))
    clauses = next((i for i, line in enumerate(lines[:end]) if CLAUSE.match(line)), end + 1)
    declaration = source.declare(name, bool(public), "\n".join(lines[:clauses]))
    declaration.bound = set(re.findall(r"(\w+):(?!:)", declaration.text))
    declaration.clauses = "\n".join(CLAUSE.sub("", line) for line in lines[clauses:end])
    inner = [re.match(r"\s+(?:pub )?(\w+)", line) for line in lines[1:end]]
    if kind == "enum":
        declaration.parts = [match.group(1) for match in inner if match]
    elif kind == "struct":
        declaration.fields = [match.group(1) for match in inner if match]


# ---- what a statement uses
def uses(declaration):
    """The names of ours in a statement, each as (path, name of the declaration that it belongs to).

    Fields (`.answer`) are left out: a field is read of a value, and the value's type is that of a name in some statement.
    """
    source = read(declaration.path)
    for text, names in ((declaration.text, source.names | source.types), (declaration.clauses, source.types | source.names)):
        for word in set(BREAKS.split(text)):
            yield from meaning(source, declaration, names, word.rstrip("."))


def meaning(source, declaration, names, word):
    head, _, rest = word.partition(".")
    if head in declaration.bound:
        return
    if rest and head in source.modules:
        name = rest.split(".")[0]
        yield source.modules[head], owner_name(source.modules[head], name)
    elif head in names:
        path, name = names[head]
        yield path, owner_name(path, name)
    elif head != declaration.name.split("::")[-1] and source.owner(head):
        yield source.path, owner_name(source.path, head)


def owner_name(path, name):
    found = read(path).owner(name) if path.exists() else None
    return found.name if found else name
