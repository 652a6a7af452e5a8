"""What a reader must believe: the definitions of specs/, and of specs/inner/ those that a public contract or a kept statement reaches. The lists of docs/PROOFS.md are made of them.

  listed  each of these files says at its head what it is about; docs/PROOFS.md names each file that states a demand, and no file that is not there
"""
import re

import antt
import source
import statements
from report import Case
from tree import crates, exists, text_of


def first_sentence(file):
    """What the comment at a file's head says of it, up to its first full stop."""
    lines = []
    for line in text_of(file).splitlines():
        if not line.startswith("--"):
            break
        lines.append(line.removeprefix("--").strip())
    return re.split(r"(?<=\.)\s", " ".join(lines))[0].removesuffix(".")


def size(file):
    """A file's lines that are neither blank, a comment nor a `use` line."""
    return sum(1 for line in text_of(file).splitlines() if line.strip() and not line.strip().startswith("--") and not re.match(r"\s*(?:pub )?use ", line))


def is_inner(file):
    return "/specs/inner/" in file


def contracts():
    """The definitions that the public contracts name."""
    return [one for function in source.public() for word in dict.fromkeys(antt.words(function.contract)) if (one := antt.resolve(function.file, word))]


def reached(found):
    """The files that some declarations reach, through definitions alone."""
    return {file for file, _ in antt.closed(found, lambda other: other.is_definition())}


def by_contracts():
    return reached(contracts())


def by_statements():
    return reached([antt.declarations(file)[name] for file, names in statements.collected().items() for name in names])


def files():
    """The files to be believed."""
    there = by_contracts() | by_statements()
    return [file for file in antt.spec_files() if not is_inner(file) or file in there]


def defined(file):
    return ", ".join(f"`{one.name}`" for one in antt.declarations(file).values() if "pub" in one.front)


def table():
    there = by_contracts()
    rows = ["| file | lines | what it is about | what it defines | used by |", "|---|---|---|---|---|"]
    return rows + [f"| `{file}` | {size(file)} | {first_sentence(file)} | {defined(file)} | {'contracts' if file in there else 'theorems'} |" for file in files()]


def lines():
    return sum(size(file) for file in files())


def counts():
    """How many lines that is, how much of it is inner, and how many definitions of proofs/ the statements use beside them."""
    inner = [file for file in files() if is_inner(file)]
    beside = [name for file, names in statements.collected().items() if "/proofs/" in file for name in names if antt.declarations(file)[name].is_definition()]
    return [
        f"{len(files())} files, {lines():,} lines. {len(inner)} of the files, and {sum(size(file) for file in inner)} of the lines, are of `specs/inner/`.",
        f"Beside these the statements use {len(beside)} definitions of `proofs/`, most of them the records of what is promised: all of them stand in docs/STATEMENTS.md.",
    ]


def inner_table():
    contracts_reach, statements_reach = by_contracts(), by_statements()

    def reach(file):
        return "a public contract" if file in contracts_reach else "a statement" if file in statements_reach else "neither"
    rows = ["| file | reached by | what it is about |", "|---|---|---|"]
    return rows + [f"| `{file}` | {reach(file)} | {first_sentence(file)} |" for file in antt.spec_files() if is_inner(file)]


NUMBER = re.compile(r"(?<=How many lines must be believed\?\*\* )\d[\d,]*\d")


def cases():
    for file in files():
        yield Case("listed", f"{file}: what it is about", None if first_sentence(file) else "no comment at its head")
    guide = text_of("docs/PROOFS.md")
    for file in antt.demand_files():
        yield Case("listed", f"docs/PROOFS.md: {file}", None if re.search(rf"`{re.escape(file.rsplit('/', 1)[1])}`", guide) else "no word of it")
    for name in sorted(set(re.findall(r"`((?:crates/)?[a-z\w/.]+\.antt)`", guide))):
        if re.search("NAME|^logic/", name):
            continue
        there = exists(name) if "/" in name else any(exists(f"crates/{crate}/{part}/{name}") for crate in crates() for part in ("proofs", "specs", "specs/inner"))
        yield Case("listed", f"docs/PROOFS.md: {name}", None if there else "there is no such file")
    said = NUMBER.search(text_of("docs/DECISIONS.md"))
    yield Case("listed", "docs/DECISIONS.md: how many lines must be believed", None if said and said.group() == f"{lines():,}" else f"they are {lines():,}")
