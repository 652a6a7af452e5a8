#!/usr/bin/env python3
"""Spells the repository's own definitions and lemmas in snake case: `all-three` and `allThree` become `all_three`. Types, modules, the names that Rattle makes and the library's stay.

  tools/snake-names.py            says what it would rename
  tools/snake-names.py --write    renames it in crates/ and docs/

A name is the repository's own where specs/, or a file right in proofs/, defines it: as a definition, a field, a local one or another name for a module. Where two would fall together,
the definition of specs/ has the plain name, a lemma gets `_law` behind it, another name for a module `_fn`.
"""
import re
import subprocess
import sys
from pathlib import Path

TOP = Path(__file__).resolve().parent.parent
# beside the page that rt names first
LIBRARY = Path(subprocess.run(["rt", "doc"], capture_output=True, text=True, check=True).stdout.strip()).parent / "rattle"
TOKEN = re.compile(r"(?<![\w'’-])[a-z][\w'≡≢⊎-]*")
HEAD = re.compile(r"^\s*(?:abbrev |unfoldable |pub |ruleset )*([a-z][\w'≡≢⊎-]*) (?:\{[^}]*\} |\([^)]*\) )*: ")
ALIAS = re.compile(r"\bas ([a-z][\w'-]*)")
IMPORT = re.compile(r"\buse (Rattle\.[\w.'-]+)\.\{([^}]*)\}")


# Where a lemma already has the plain name, the definition gets a longer one.
LONGER = {"endBefore": "end_before_entry", "lastLine": "ending_line", "tooLong": "is_too_long", "tooShort": "is_too_short", "firstNumber": "number_of_first", "bothIn": "are_both_in", "noEnd": "has_no_end", "refusedBy": "refused_with"}


def snake(name):
    if name in LONGER:
        return LONGER[name]
    return re.sub(r"(?<=[a-z0-9])(?=[A-Z])", "_", name.replace("-", "_")).lower()


def sources():
    return [*sorted(TOP.glob("crates/*/specs/**/*.antt")), *sorted(TOP.glob("crates/*/proofs/**/*.antt")), *sorted(TOP.glob("crates/*/src/**/*.rt"))]


def defining(path):
    return path.suffix == ".antt" and ("/specs/" in str(path) or path.parent.name == "proofs")


def defined(texts):
    """The names that are defined, each with its kind: 0 in specs/, 1 in proofs/, 2 another name for a module, 3 a field or a local one."""
    own = {}
    for path, text in texts.items():
        if not defining(path):
            continue
        for line in text.splitlines():
            head = HEAD.match(line)
            if head:
                kind = 3 if line[0] == " " else 0 if "/specs/" in str(path) else 1
                own[head[1]] = min(own.get(head[1], 9), kind)
    for path, text in texts.items():
        if path.suffix == ".antt":
            for found in ALIAS.finditer(text):
                own.setdefault(found[1], 2)
    return own


def library_names():
    names = set()
    for path in LIBRARY.rglob("*.antt"):
        names |= set(TOKEN.findall(path.read_text(encoding="utf-8", errors="replace")))
    return names


def chosen(own):
    """The new name of each that changes; no two of them are one."""
    taken = {name for name in own if snake(name) == name and own[name] < 2}
    changed = {}
    for name in sorted(own, key=lambda name: (own[name], name)):
        new = snake(name)
        if new == name:
            continue
        if new in taken:
            new += ("_law", "_law", "_fn", "_here")[own[name]]
        while new in taken:
            new += "_2"
        taken.add(new)
        changed[name] = new
    return changed


def here(path, text, shared, crates):
    """Those of the names that the library has too which this file defines or takes from a crate of the repository."""
    found = set()
    if defining(path):
        found |= {head[1] for line in text.splitlines() if (head := HEAD.match(line))} & shared
    for module, names in IMPORT.findall(text):
        if module.split(".")[1] in crates:
            found |= {name.strip().split(" ")[0] for name in names.split(",")} & shared
    return found


def main():
    write = sys.argv[1:] == ["--write"]
    texts = {path: path.read_text(encoding="utf-8") for path in sources()}
    crates = {path.name for path in TOP.glob("crates/*")}
    own = defined(texts)
    changed = chosen(own)
    shared = set(changed) & library_names()
    plain = {name: new for name, new in changed.items() if name not in shared}
    for name, new in sorted(changed.items()):
        if new != snake(name):
            print(f"falls together: {name} -> {new}")
    print(f"{len(changed)} names, {len(shared)} of them the library's too")
    for path, text in texts.items():
        now = plain | {name: changed[name] for name in here(path, text, shared, crates)}
        tokens = set(TOKEN.findall(text))
        for name in sorted(tokens & set(now)):
            if now[name] in tokens and path.suffix == ".antt":
                print(f"{path.relative_to(TOP)}: it has {now[name]} beside {name}")
        if write:
            path.write_text(TOKEN.sub(lambda found: now.get(found[0], found[0]), text), encoding="utf-8")
    if write:
        for path in [TOP / "README.md", *TOP.glob("docs/**/*.md")]:
            text = path.read_text(encoding="utf-8")
            span = lambda found: TOKEN.sub(lambda word: plain.get(word[0], word[0]), found[0])
            path.write_text(re.sub(r"`[^`\n]+`", span, text), encoding="utf-8")


main()
