"""What nothing names: public laws, and names in `use` lines."""
import re
from collections import Counter
from pathlib import Path

import source
from tree import text_of

COMMENT = re.compile(r"(--|//).*")
WORD = re.compile(r"\[\]|[^\s(){}\[\],;.⟨⟩⟦⟧`]+")


def words_of(text):
    return Counter(word for line in text.splitlines() for word in WORD.findall(COMMENT.sub("", line)))


def names_it(name, words):
    """Whether a text's words have a name, or all parts of an operator's."""
    parts = [part for part in name.split("◌") if part] if name.startswith("◌") or name.endswith("◌") else [name]
    return bool(words[name]) or (bool(parts) and all(words[part] for part in parts))


def without_own(name, text):
    """A file's text without the declaration of a name: from its signature on, as far as lines are indented or are its clauses."""
    kept, inside = [], False
    for line in text.splitlines():
        own = re.match(rf"(?:(?:pub|abbrev|unfoldable) )*{re.escape(name)}(?= |$)", line)
        inside = bool(own) or (inside and (not line or line[0] == " " or line.startswith("unfolding ")))
        if not inside:
            kept.append(line)
    return "\n".join(kept)


def written():
    """The sources and the .antt files, without what rt makes in out/."""
    return [path for path in sorted(Path("crates").glob("*/*/**/*")) if path.suffix in (".antt", ".rt") and path.parts[2] in ("src", "specs", "proofs")]


def laws():
    watched = {f"{name}_{suffix}" for f in source.public() for name in f.names() for suffix in ("decided", "tied")}
    files = {path: text_of(path) for path in written()}
    words = {path: words_of(text) for path, text in files.items()}
    documents = "\n".join(text_of(path) for path in [Path("README.md"), *sorted(Path("docs").rglob("*.md"))] if path.name != "STATEMENTS.md")
    for path, text in files.items():
        if len(path.parts) != 4 or path.parts[2] != "proofs" or path.suffix != ".antt":
            continue
        for name in re.findall(r"^(?:abbrev |unfoldable )*pub (?:abbrev |unfoldable )*(?!mod |record |data |use )(\S+) :", text, re.M):
            elsewhere = any(names_it(name, words[other]) for other in files if other != path)
            if elsewhere or name in watched or f"`{name}`" in documents:
                continue
            here = names_it(name, words_of(without_own(name, text)))
            print(f"{path}: {name}: " + ("only its own file names it" if here else "nothing names it"))


def uses():
    for path in written():
        if path.name == "Lib.antt":
            continue
        text = text_of(path)
        lines = re.findall(r"^ *(?:pub )?(?:ghost )?use [^\n]*", text, re.M)
        rest = words_of(re.sub(r"^ *(?:ghost )?use [^\n]*", "", text, flags=re.M).replace("::", " "))
        for line in lines:
            if line.strip().startswith("pub "):
                continue
            listed = re.search(r"\{(.*)\}", line)
            last = [line.rstrip(";").split()[-1].replace("::", ".").split(".")[-1]]
            for name in [part.split()[-1] for part in listed.group(1).split(",") if part.strip()] if listed else last:
                if not names_it(name, rest):
                    print(f"{path}: use {name}: not used")
