"""What the documents only repeat: tables between markers, and docs/STATEMENTS.md, which is all made."""
import sys
from pathlib import Path

import asking
import believed
import edits
import statements
import weak
from report import Case
from tree import text_of

TABLES = [
    ("docs/PROOFS.md", "believed", believed.table),
    ("docs/PROOFS.md", "lines", believed.counts),
    ("docs/PROOFS.md", "inner", believed.inner_table),
    ("docs/EDITS.md", "edits", edits.table),
    ("docs/EDITS.md", "mixed", edits.mixed_table),
    ("docs/EDITS.md", "weak", weak.table),
    ("docs/REQUIRES.md", "asks", asking.table),
]


def with_table(document, name, rows):
    """A document's text with the lines between its two markers written again; nothing where a marker is missing."""
    start, end = f"<!-- {name}: written by tests/promises --write -->\n", f"<!-- {name}: end -->\n"
    text = text_of(document)
    if text.count(start) != 1 or text.count(end) != 1:
        return None
    before, rest = text.split(start)
    after = rest.split(end)[1]
    return before + start + "\n".join(rows) + "\n" + end + after


def cases():
    for document, name, table in TABLES:
        fresh = with_table(document, name, table())
        stale = None if fresh == text_of(document) else "stale: run tests/promises --write"
        yield Case("written", f"{document}, '{name}'", "its markers are missing" if fresh is None else stale)


def write():
    for document, name, table in TABLES:
        fresh = with_table(document, name, table())
        if fresh is None:
            sys.exit(f"{document} has no markers for '{name}'")
        Path(document).write_text(fresh, encoding="utf-8")
    Path("docs/DECISIONS.md").write_text(believed.NUMBER.sub(f"{believed.lines():,}", text_of("docs/DECISIONS.md")), encoding="utf-8")
    Path(statements.FILE).write_text(statements.fresh(), encoding="utf-8")
