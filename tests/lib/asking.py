"""What a function asks of its caller: listed with its grounds, never in front of an outsider.

  open    no exported function and no function of a program asks anything
  calls   none of them calls a function that does, however its `use` lines name it
  grounds a function that asks says why that is met, and docs/REQUIRES.md lists it
"""
import re

import source
from report import Case
from tree import outside, text_of


def table():
    rows = ["| function | asks | in words, and why it is met |", "|---|---|---|"]
    return rows + [f"| `{f.path}` | `{f.asks}` | {f.grounds or ''} |" for f in source.functions() if f.asks]


def cases():
    for function in source.functions():
        if function.exported or function.crate in outside():
            kind = "an exported function" if function.exported else "a function that stands outside"
            yield Case("open", f"{function.path}: it asks nothing", function.asks and f"{kind} asks something of its caller: {function.asks}")
        elif function.asks and function.public:
            places = source.callers_outside(function, outside())
            yield Case("calls", f"{function.path}: nothing outside calls it", ", ".join(places) and f"{', '.join(places)} calls it, and what stands there must be asked nothing")
    yield from listed()


def listed():
    rows = set(re.findall(r"^\| `([\w:]+)` \|", text_of("docs/REQUIRES.md"), re.M))
    for function in source.functions():
        what = f"{function.path}: what it asks of its caller"
        if function.asks:
            faults = [] if function.grounds else ["no comment line '// Asks: ..' above it"]
            faults += [] if function.path in rows else ["docs/REQUIRES.md does not list it"]
            yield Case("grounds", what, "; ".join(faults))
        elif function.grounds:
            yield Case("grounds", what, "a comment line 'Asks:', and no `requires`")
    for path in sorted(rows - {f.path for f in source.functions() if f.asks}):
        yield Case("grounds", f"{path}: what it asks of its caller", "docs/REQUIRES.md lists it, and it has no `requires`")
