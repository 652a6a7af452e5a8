"""The functions of the sources: what each is called, its parameters, whether it is public, and what it asks of its caller."""
import functools
import re
from typing import NamedTuple, Optional

from tree import ARCHIVE, crates, exists, is_library, kept, libraries, sources, text_of


class Function(NamedTuple):
    """`path` is CRATE::.. as it is called, `exported` whether C can call it, `asks` its `requires`, `grounds` the comment line 'Asks:' above it."""
    crate: str
    path: str
    public: bool
    exported: bool
    asks: Optional[str]
    grounds: Optional[str]
    parameters: tuple
    returns: Optional[str]
    contract: str
    file: str

    def module(self):
        """The name under which a theorem imports its contract."""
        return f"Rattle.{self.crate}.specs.contracts." + ".".join(self.path.split("::")[1:])

    def names(self):
        """What its theorems are called, less '_decided' and '_tied': with the crate in front where two crates have a function of that name."""
        name = "_".join(part.lower() for part in self.path.split("::")[1:])
        return [name, f"{SHORT.get(self.crate, self.crate)}_{name}"]

    def written(self):
        """The parameters behind which it writes."""
        return [name for name, kind in self.parameters if re.match(r"&(?:'\w+ )?mut ", kind)]


# what the theorems call a crate whose name is longer
SHORT = {"hex_text": "hex"}

HEAD = re.compile(r'^(?P<indent> *)(?P<pub>pub )?(?:unsafe )?(?P<extern>extern "C" )?fn (?P<name>\w+)')


def contract_after(lines, at):
    """The lines from a function's head to the brace that opens its body, as one text."""
    taken = []
    for line in lines[at:]:
        if line.strip() == "{":
            break
        taken.append(line.strip())
        if line.rstrip().endswith("{") and "requires" not in line and "ensures" not in line:
            break
    return " ".join(taken)


def split_at(text, mark):
    """A text's parts between a mark that stands inside no bracket."""
    return list(parts_between(text, mark))


@functools.lru_cache(maxsize=None)
def parts_between(text, mark):
    parts, depth, start, at = [], 0, 0, 0
    while at < len(text):
        if text[at] in "([{⟨":
            depth += 1
        elif text[at] in ")]}⟩":
            depth -= 1
        elif depth == 0 and text.startswith(mark, at):
            parts.append(text[start:at])
            at += len(mark)
            start = at
            continue
        at += 1
    return tuple(part.strip() for part in parts + [text[start:]])


def inside(text, at):
    """What stands between the round bracket at an index and its partner, and the index behind it."""
    depth = 0
    for end in range(at, len(text)):
        depth += {"(": 1, ")": -1}.get(text[end], 0)
        if depth == 0:
            return text[at + 1:end], end + 1
    return text[at + 1:], len(text)


def parameters_of(contract, owner):
    """The names and types of a head's parameters, and the type that it returns."""
    listed, behind = inside(contract, contract.index("(", contract.index("fn ")))
    found = []
    for part in split_at(listed, ","):
        name, _, kind = part.removeprefix("mut ").partition(":")
        if name.endswith("self"):
            name, kind = "self", name.removesuffix("self") + owner
        if part:
            found.append((name.strip(), kind.strip()))
    returned = re.match(r" *-> ([^{]+?)(?= requires| ensures| \{|$)", contract[behind:])
    return tuple(found), returned and returned.group(1)


def grounds_above(lines, at):
    """The comment line 'Asks:' among the comments and attributes directly above a line."""
    for line in reversed(lines[:at]):
        line = line.strip()
        if not line.startswith(("//", "#[")):
            return None
        if line.startswith("// Asks: "):
            return line.removeprefix("// Asks: ")
    return None


def functions_of_file(crate, file, prefix, open_module):
    lines = text_of(file).splitlines()
    owner, found = None, []
    for at, line in enumerate(lines):
        if opens := re.match(r"impl(?:<[^>]*>)? (\w+)", line):
            owner = opens.group(1)
        elif line.startswith("}"):
            owner = None
        if not (head := HEAD.match(line)):
            continue
        parts = prefix + ([owner] if owner else []) + [head["name"]]
        contract = contract_after(lines, at)
        asks = re.search(r"\brequires \{ (.*?) \}(?= ensures|$)", contract)
        found.append(Function(
            crate, "::".join(parts), bool(head["pub"]) and open_module, bool(head["extern"]), asks and asks.group(1), grounds_above(lines, at),
            *parameters_of(contract, owner), contract, str(file)))
    return found


def functions_of(crate):
    root = f"crates/{crate}/src/" + ("lib.rt" if is_library(crate) else "main.rt")
    found = functions_of_file(crate, root, [crate], crate in libraries())
    for public, name in re.findall(r"^(pub )?mod (\w+);", text_of(root), re.M):
        found += functions_of_file(crate, f"crates/{crate}/src/{name}.rt", [crate, name], bool(public) and crate in libraries())
    return found


@kept
def functions():
    return [function for crate in crates() for function in functions_of(crate)]


@kept
def public():
    """The public functions of the libraries. Those of the archive are some of them once more (archived.py)."""
    return [function for function in functions() if function.public and function.crate != ARCHIVE]


# ---- what a source calls

LINE_COMMENT = re.compile(r"//.*")


def imported(source):
    """What the `use` lines of a source name: the name that stands in the source, and the path that it is."""
    found = {}
    for path in re.findall(r"^ *(?:pub )?use ([^;]+);", source, re.M):
        found.update(leaves("", path))
    return found


def leaves(prefix, path):
    """The names that one `use` path brings, also by braces, by `as` and by `self`."""
    path = " ".join(path.split())
    if "{" in path:
        front, _, rest = path.partition("{")
        found = {}
        for part in split_at(rest.rsplit("}", 1)[0], ","):
            found.update(leaves(prefix + front, part) if part else {})
        return found
    whole, _, renamed = (prefix + path).partition(" as ")
    whole = whole.strip().removesuffix("::self")
    return {(renamed.strip() or whole.split("::")[-1]): whole}


@functools.lru_cache(maxsize=None)
def calls(source, crate, modules):
    """The paths that a source names with a call or hands on, resolved through its `use` lines, and the methods that it calls. A `*` brings every name of its module."""
    code = re.sub(r"\s*::\s*", "::", LINE_COMMENT.sub("", source))
    names = imported(code)
    stars = [path.removesuffix("::*") for path in names.values() if path.endswith("::*")]
    body = re.sub(r"^ *(?:pub )?(?:ghost )?use [^;]+;", "", code, flags=re.M)
    paths = set()
    for word in re.findall(r"(?<![\w:.])(?:\w+::)*\w+", body):
        first, _, rest = word.partition("::")
        if first in ("crate", "self", "super"):
            first, rest = crate, rest
        tail = f"::{rest}" if rest else ""
        paths.add(names[first] + tail if first in names else first + tail)
        paths.update(f"{star}::{word}" for star in stars)
        paths.update(f"{crate}::{module}{word}" for module in modules)
    return paths, set(re.findall(r"\.(\w+)\(", body))


@kept
def handed_on():
    """What a crate names again by `pub use`: the path under which it stands there, and the one that it is."""
    found = {}
    for crate in crates():
        for file in sources(crate):
            for path in re.findall(r"^ *pub use ([^;]+);", LINE_COMMENT.sub("", text_of(file)), re.M):
                found.update({f"{crate}::{name}": whole for name, whole in leaves("", path).items()})
    return found


def followed(path):
    """A path through what is named again, to what it is."""
    for _ in handed_on():
        path = handed_on().get(path, path)
    return path


def called_by(function, file, crate):
    """Whether a source calls a function, by its path, by a name that a `use` line gives it, unqualified in its own crate, or as a method."""
    modules = ("", *(f"{name}::" for name in re.findall(r"^(?:pub )?mod (\w+);", text_of(file), re.M))) if crate == function.crate else ()
    paths, methods = calls(text_of(file), crate, modules)
    return function.path in {followed(path) for path in paths} or (is_method(function) and function.path.split("::")[-1] in methods)


def is_method(function):
    return any(name == "self" for name, _ in function.parameters)


def callers_outside(function, crates_outside):
    return [file for crate in crates_outside for file in sources(crate) if exists(file) and called_by(function, file, crate)]
