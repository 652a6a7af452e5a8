r"""The weakenings of crates/demands/weak: edits of theorems and contracts that the prover accepts, and that a rule must refuse. Each is `# RULE: what is weaker`, then replacements with
the files' paths in the repository; `\n` in them is the end of a line. They are made in memory, all rules are asked, and the named one must find a fault that is not there without the edit."""
import re
from pathlib import Path

import asking
import promised
import statements
from edits import replaced, replacements
from report import Case
from tree import changed, text_of

# asked by these rules, and by each of them at least one weakening must be refused
RULES = {"form", "view", "names", "asks", "nothing", "itself", "silent", "empty", "open", "calls", "kept"}


def asked():
    yield from promised.cases()
    yield from asking.cases()
    yield from statements.cases()


def faults():
    return {(case.rule, case.what) for case in asked() if case.wrong}


class Weakening:
    def __init__(self, path):
        lines = text_of(path).splitlines()
        head = re.match(r"# (\w+): (.+)$", lines[0])
        self.label, self.rule, self.what = path.stem, head and head.group(1), head and head.group(2)
        self.pairs = [(file, old.replace("\\n", "\n"), new.replace("\\n", "\n")) for file, old, new in replacements(lines)]

    def wrong(self, before):
        """What is wrong with it: the rule that it names does not refuse it."""
        if self.rule not in RULES:
            return "its first line is not '# RULE: what is weaker'"
        texts, wrong = replaced(self.pairs, "")
        if wrong:
            return wrong
        with changed(texts):
            found = {rule for rule, what in faults() - before}
        return None if self.rule in found else f"no case of the rule '{self.rule}' fails; these do: {', '.join(sorted(found)) or 'none'}"


def all_of_them():
    return [Weakening(path) for path in sorted(Path("crates/demands/weak").glob("*.edit"))]


def cases():
    before = faults()
    for each in all_of_them():
        yield Case("weak", f"demands/weak/{each.label}: refused by rule", each.wrong(before))
    for rule in sorted(RULES - {each.rule for each in all_of_them()}):
        yield Case("weak", f"crates/demands/weak: the rule '{rule}'", "no weakening tries it")


def table():
    rows = ["| what is weaker | refused by | edit, in crates/demands/weak/ |", "|---|---|---|"]
    return rows + [f"| {each.what} | `{each.rule}` | `{each.label}` |" for each in all_of_them()]
