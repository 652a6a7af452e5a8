"""A case: what is looked at, by which rule, and what is wrong with it, or nothing."""
from collections import Counter
from typing import NamedTuple, Optional

tally = Counter()


class Case(NamedTuple):
    rule: str
    what: str
    wrong: Optional[str]


def report(cases):
    for case in cases:
        tally["failed" if case.wrong else "passed"] += 1
        print(f"FAILED: {case.what}: {case.wrong}" if case.wrong else f"ok: {case.what}")
