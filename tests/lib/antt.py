"""The declarations of the .antt files: their names, statements and fields, and to which file a name leads through the `use` lines."""
import functools
import re
from pathlib import Path
from typing import NamedTuple

from source import split_at
from tree import crates, exists, kept, text_of

COMMENT = re.compile(r"(^|(?<=\s))--(\s.*|$)")
WORD = re.compile(r"[^\s(){}\[\],;⟨⟩`]+")
MODIFIERS = r"(?:(?:pub|abbrev|unfoldable|opaque) )*"
SIGNATURE = re.compile(rf"^(?P<front>{MODIFIERS})(?P<name>[^\s(){{}}]+) :(?=\s|$)")
RECORD = re.compile(rf"^(?P<front>{MODIFIERS})(?P<kind>record|data) (?P<name>\S+)")


def plain(text):
    return " ".join(text.split())


class Declaration(NamedTuple):
    """`sections` are the heads of the modules that it stands in, whose parameters are its own; `text` is all of it, `statement` what stands behind its colon."""
    file: str
    name: str
    kind: str
    front: str
    sections: tuple
    statement: str
    text: str

    def is_definition(self):
        """Whether its text is part of what it says, and not a proof."""
        return self.kind != "signature" or "abbrev" in self.front or "unfoldable" in self.front or "/specs/" in self.file

    def fields(self):
        """The names and types of a record's fields."""
        lines = self.text.split(" where ", 1)[1] if self.kind == "record" and " where " in self.text else ""
        return [tuple(part.split(" : ", 1)) for part in lines.split("\n") if " : " in part]

    def field_names(self):
        return [field.split()[-1] for field, _ in self.fields()]

    def binders(self):
        """The names of its explicit parameters, those of its sections first."""
        heads = [section.removeprefix("module _").removesuffix("where") for section in self.sections]
        own = self.text.split("\n")[0].split(self.name, 1)[1].rsplit(" : Type", 1)[0] if self.kind == "record" else ""
        return [name for head in [*heads, own] for name in explicit(head)]

    def shown(self):
        """What is kept of it, in the order in which it is read."""
        return [*self.sections, *(self.text if self.is_definition() else f"{self.front}{self.name} : {self.statement}").split("\n")]


def explicit(head):
    """The names that the round brackets of a head bind."""
    names, at = [], 0
    while (at := head.find("(", at)) >= 0:
        depth, end = 0, at
        while True:
            depth += {"(": 1, ")": -1}.get(head[end], 0)
            end += 1
            if depth == 0:
                break
        names += head[at + 1:end - 1].split(" : ")[0].split()
        at = end
    return names


def blocks(lines):
    """Lines that belong together: one, and those below it that are indented further."""
    found = []
    for line in lines:
        if not line.strip():
            continue
        if found and indent(line) > indent(found[-1][0]):
            found[-1].append(line)
        else:
            found.append([line])
    return found


def indent(line):
    return len(line) - len(line.lstrip())


def declared(file, lines, sections):
    """The declarations of some lines; a proof or a body belongs to the signature above it."""
    found, opened = [], None
    for block in blocks(lines):
        first = block[0].strip()
        if first.startswith("module "):
            end = next(at for at, line in enumerate(block) if line.rstrip().endswith(" where"))
            head = plain(" ".join(block[:end + 1]))
            found += declared(file, block[end + 1:], (*sections, head))
            opened = None
        elif head := RECORD.match(first):
            start = next((at for at, line in enumerate(block) if line.rstrip().endswith(" where")), len(block) - 1)
            parts = [plain(" ".join(part)) for part in blocks(block[start + 1:])]
            text = "\n".join([plain(" ".join(block[:start + 1])) + " ", *parts])
            found.append(Declaration(file, head["name"], head["kind"], head["front"], sections, "", text))
            opened = None
        elif head := SIGNATURE.match(first):
            whole = plain(" ".join(block))
            found.append(Declaration(file, head["name"], "signature", head["front"], sections, whole.split(" :", 1)[1].strip(), whole))
            opened = len(found) - 1
        elif opened is not None and not re.match(r"(?:pub )?(?:use|mod|infix\w?|ruleset) ", first):
            before = found[opened]
            found[opened] = before._replace(text=before.text + "\n" + plain(" ".join(block)))
        else:
            opened = None
    return found


@kept
def declarations(file):
    """A file's declarations by their names."""
    return declarations_in(file, text_of(file))


@functools.lru_cache(maxsize=None)
def declarations_in(file, text):
    lines = [COMMENT.sub("", line).rstrip() for line in text.splitlines()]
    return {one.name: one for one in declared(file, lines, ())}


@kept
def file_of(module):
    """The file that a module's name says, or nothing where the toolchain makes it or the kit has it."""
    parts = re.match(r"Rattle\.([a-z_0-9]+)\.((?:specs|proofs)\.\S+)$", module)
    path = parts and f"crates/{parts.group(1)}/" + parts.group(2).replace(".", "/") + ".antt"
    return path if path and exists(path) else None


@kept
def imports(file):
    """What the `use` lines of an .antt file or, with `ghost`, of a source bring: names, each with its module and its name there, and modules by another name."""
    return imports_in(text_of(file))


@functools.lru_cache(maxsize=None)
def imports_in(text):
    names, modules = {}, {}
    for module, listed in re.findall(r"^ *(?:ghost )?use ([^\n;:{]+?)(?:\.\{([^}]*)\})? *(?:;|$)", text, re.M):
        if listed:
            for part in listed.split(","):
                own, _, other = " ".join(part.split()).partition(" as ")
                names[other or own] = (module, own)
        else:
            module, _, other = module.strip().partition(" as ")
            modules[other.strip() or module.split(".")[-1]] = module
    return names, modules


def resolve(file, word):
    """The declaration that a word of a file means: one of its own, or one that a `use` line brings; nothing where the tree has none."""
    if file.endswith(".antt") and word in declarations(file):
        return declarations(file)[word]
    names, modules = imports(file)
    front, _, last = word.partition(".")
    module, name = names.get(word) or ((modules[front], last) if front in modules and last else (None, None))
    path = module and file_of(module)
    return declarations(path).get(name) if path else None


def words(text):
    """The words of a text, also the parts of operators; of a projection it and what it is of, as `s.now` and `s`."""
    return [part for word in WORD.findall(text) for part in dict.fromkeys([word, word.split(".")[0]]) if part]


def cited(declaration):
    """The declarations that one's kept text names."""
    text = "\n".join(declaration.shown())
    return [one for word in dict.fromkeys(words(text)) if (one := resolve(declaration.file, word)) and one != declaration]


def closed(found, follows):
    """Declarations and all that they name, as far as `follows` lets it."""
    seen, open_ones = {}, list(found)
    while open_ones:
        one = open_ones.pop()
        key = (one.file, one.name)
        if key not in seen:
            seen[key] = one
            open_ones += [other for other in cited(one) if follows(other)]
    return seen


# ---- the files

def listed_modules(folder):
    """The files that a folder's Lib.antt lists."""
    root = f"{folder}/Lib.antt"
    return re.findall(r"^pub mod (\w+)", text_of(root), re.M) if exists(root) else []


def demand_files():
    """The files of crates/demands/proofs that are proved."""
    return [f"crates/demands/proofs/{name}.antt" for name in listed_modules("crates/demands/proofs")]


def spec_files():
    """The definitions: the files of specs/ in the order of the crates and of their lists, those of specs/inner/ too."""
    found = []
    for crate in crates():
        folder = f"crates/{crate}/specs"
        for name in listed_modules(folder):
            inner = f"{folder}/{name}"
            found += sorted(str(path) for path in Path(inner).glob("*.antt")) if name == "inner" else [f"{inner}.antt"]
    return found


# ---- a statement's parts

def without_brackets(text):
    text = text.strip()
    while text.startswith("("):
        depth = 0
        for at, sign in enumerate(text):
            depth += {"(": 1, ")": -1}.get(sign, 0)
            if depth == 0:
                break
        if at != len(text) - 1:
            return text
        text = text[1:-1].strip()
    return text


def applied(text):
    """A function's name and its arguments."""
    return [part for part in split_at(text, " ") if part]


def said(statement):
    """What a statement says at last, behind its premises, and these."""
    *premises, last = split_at(statement, " → ")
    return without_brackets(last), premises


def parts_of(text):
    """The parts of a product."""
    return [without_brackets(part) for part in split_at(without_brackets(text), " × ")]
