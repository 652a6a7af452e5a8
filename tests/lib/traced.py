"""docs/TRACE.md: each name that a row cites is there; and, where docs/PROOFS.md has the table of wrong definitions that are refused, each row has a line in it."""
import re
from collections import Counter

from report import Case
from tree import exists, text_of

TABLE = re.compile(r"^#+ Wrong definitions that are refused$(.*?)(?=^#|\Z)", re.M | re.S)


def rows():
    """The rows: id, what is promised, what shows it."""
    return re.findall(r"^\| (\w+) \| (.+?) \| (.+?) \|$", text_of("docs/TRACE.md"), re.M)[1:]


def cited(shown):
    return re.findall(r"`([^`]+)` `([^`]+)`", shown)


def declared_in_antt(name, file):
    words = r"(?:(?:pub|abbrev|unfoldable|opaque|record|data|ruleset|module) )*"
    return re.search(rf"^ *{words}{re.escape(name)}(?= |$)[^=\n]*(?::|where)", file, re.M)


def declared_in_code(name, file):
    owner, _, last = name.rpartition("::")
    if owner:
        block = re.search(rf"^impl {owner} \{{$(.*?)^\}}", file, re.M | re.S)
        file = block.group(1) if block else ""
    return re.search(rf"\b(?:fn|struct|enum|const|mod) {re.escape(last)}\b", file)


def cited_wrong(path, name):
    if not exists(path):
        return f"there is no {path}"
    file = text_of(path)
    plain = re.fullmatch(r"[^\s.]+", name)
    if plain and path.endswith(".antt"):
        found = declared_in_antt(name, file)
    elif plain and path.endswith(".rt"):
        found = declared_in_code(name, file)
    else:
        found = re.search(rf"(?<!\w){re.escape(name)}(?!\w)", file)
    return None if found else f"{path} has no {name}"


def refused():
    """The lines of the table of wrong definitions, by the ids of their rows, or nothing where there is no such table: the wrong definition, and what refuses it."""
    table = TABLE.search(text_of("docs/PROOFS.md"))
    if not table:
        return None
    lines = re.findall(r"^\| ([\w, ]+?) \| (.*) \| (.*) \|$", table.group(1), re.M)
    return {name: (wrong, by) for ids, wrong, by in lines for name in ids.split(", ")}


def refused_wrong(line):
    """What is wrong with a row's line: there is none; a name that it cites is not there; or it cites none and does not say in brackets that there is none."""
    if line is None:
        return "it has no line in the table"
    wrong, by = line
    if not cited(by) and not wrong.startswith("["):
        return "it names no theorem, and does not say so in brackets"
    return "; ".join(fault for path, word in cited(by) if (fault := cited_wrong(path, word)))


def cases(quick):
    for name, count in Counter(row[0] for row in rows()).items():
        if count > 1:
            yield Case("trace", f"docs/TRACE.md, {name}", "it has more than one row")
    for name, _, shown in rows():
        if shown == "open":
            if not quick:
                yield Case("trace", f"docs/TRACE.md, {name}", "open: nothing shows it yet")
            continue
        faults = [wrong for path, word in cited(shown) if (wrong := cited_wrong(path, word))]
        rest = re.sub(r"`[^`]+` `[^`]+`(; )?", "", shown)
        if rest or not cited(shown):
            faults.append(f"no `path` `name` pairs: {rest}")
        yield Case("trace", f"docs/TRACE.md, {name}", "; ".join(faults))
    if (found := refused()) is not None:
        for name, _, _ in rows():
            yield Case("refused", f"docs/PROOFS.md, {name}: a wrong definition that is refused", refused_wrong(found.get(name)))
