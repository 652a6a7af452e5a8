"""docs/STATEMENTS.md: what is promised, word for word, so that a change of it is read as a change. It holds every theorem and record of crates/demands, every declaration that a row of
docs/TRACE.md names, and the definitions in proofs/ that these use.

  kept    the file is as the tree has it
"""
import textwrap

import antt
import traced
from report import Case
from tree import crates, exists, text_of

FILE = "docs/STATEMENTS.md"
WIDTH = 160

FRONT = """# What is promised, word for word

The whole statement of every theorem of `crates/demands` (the demands, and of each public function that its contract decides everything and is tied to a demand), the fields of every record that
one of them promises, every declaration in an `.antt` file that a row of docs/TRACE.md names, and the definitions in `proofs/` that these use: of a theorem what stands between its name and its
proof, of a definition all of it. White space and comments are left out. `tests/promises --write` makes this file and the gate compares it, so that whoever changes a promise changes a line here.
"""


def named_in_trace():
    """The declarations that the rows of docs/TRACE.md name; of a field its record."""
    pairs = {pair for _, _, shown in traced.rows() for pair in traced.cited(shown) if pair[0].endswith(".antt") and exists(pair[0])}
    return [one for path, name in sorted(pairs) for one in antt.declarations(path).values() if name in (one.name, *one.field_names())]


def demanded():
    return [one for file in antt.demand_files() for one in antt.declarations(file).values() if "pub" in one.front]


def collected():
    """What is kept, by file."""
    found = antt.closed(demanded() + named_in_trace(), lambda other: "/proofs/" in other.file and other.is_definition())
    by_file = {}
    for file, name in found:
        by_file.setdefault(file, set()).add(name)
    order = {crate: at for at, crate in enumerate(crates())}
    return {file: by_file[file] for file in sorted(by_file, key=lambda file: (order[file.split("/")[1]], file))}


def wrapped(line, indent):
    """A line at an indent, broken where it is long, but never in front of a projection."""
    joined = line.replace(" .", "\0.")
    broken = textwrap.fill(joined, WIDTH, initial_indent=indent, subsequent_indent=indent + "    ", break_long_words=False, break_on_hyphens=False)
    return broken.replace("\0", " ")


def section(file, names):
    lines, heads = [f"## {file}", "", "```"], ()
    for one in antt.declarations(file).values():
        if one.name not in names:
            continue
        if one.sections != heads:
            lines += [wrapped(head, "  " * depth) for depth, head in enumerate(one.sections)]
        heads = one.sections
        front, *rest = one.shown()[len(heads):]
        lines.append(wrapped(front, "  " * len(heads)))
        lines += [wrapped(line, "  " * (len(heads) + (one.kind != "signature"))) for line in rest]
    return "\n".join(lines + ["```", ""])


def fresh():
    return FRONT + "\n" + "\n".join(section(file, names) for file, names in collected().items())


def cases():
    there = text_of(FILE) if exists(FILE) else ""
    yield Case("kept", f"{FILE}: each statement is as it was", None if there == fresh() else "stale: run tests/promises --write and read the difference")
