"""What the theorems on the public functions say, by rule: a whole statement is read, not its head. Each function has a theorem that its contract decides everything and one that
ties it to the demand. The rules, by their names:

  form    the statement is the form that is due, of this function's own contract
  view    two outcomes are compared whole or, of a reference, by what is `seen`, and by nothing less
  names   a statement binds a call's arguments by the names of the function's head, in its order, and speaks of them by these alone
  asks    a theorem of a function that asks says what it asks, to the letter
  nothing no statement, promise or field is Unit, and none has a premise that is never met
  itself  none says that something equals itself, and no promise holds an outcome against an outcome
  silent  a promise speaks of the result and of all that is written, and so do the fields of its record
  empty   a promised record has fields
"""
import re

import antt
import source
from report import Case
from tree import kept


UNITS = {"Unit", "Unit {0}", "⊤", "tt"}
VIEWS = {"(λ κs r. r)", "(λ κs r. seen r)"}
ORIGINS = {
    "Decided": "crates/base/proofs/Decided.antt",
    "DecidedAs": "crates/base/proofs/Decided.antt",
    "seen": "crates/base/proofs/Decided.antt",
    "Promised": "crates/base/proofs/Promise.antt",
    "DecidedAsking": "crates/demands/proofs/Asking.antt",
    "PromisedAsking": "crates/demands/proofs/Asking.antt",
    "named": "crates/demands/proofs/Named.antt",
    "met": "crates/demands/proofs/Named.antt",
    "saying": "crates/demands/proofs/Named.antt",
    "Twice": "crates/base/proofs/Promise.antt",
    "Both": "crates/demands/proofs/Named.antt",
    "AllThree": "crates/demands/proofs/Named.antt",
}


class Refused(Exception):
    """A statement breaks a rule."""

    def __init__(self, rule, wrong):
        super().__init__(wrong)
        self.rule, self.wrong = rule, wrong


def case(what, look, *given):
    try:
        look(*given)
    except Refused as refused:
        return Case(refused.rule, what, refused.wrong)
    return Case("", what, None)


# ---- where a theorem stands, and its form

def theorem(function, suffix):
    """A function's theorem and the name under which its file has the function."""
    wrong = f"no theorem {function.names()[0]}_{suffix}"
    for file in antt.demand_files():
        for name in function.names():
            found = antt.declarations(file).get(f"{name}_{suffix}")
            # where a definition has the name, another one stands for the function
            for alias in (name, f"{name}_fn", f"{name}_law", f"{name}_here"):
                if found is not None and antt.imports(file)[1].get(alias) == function.module():
                    return found, alias
            if found is not None:
                wrong = f"{found.name} stands in a file that has no 'use {function.module()} as {name}'"
    raise Refused("form", wrong)


def takes(found, name, head, more):
    """The arguments of a statement behind the function's own, where it is `head` of that function's contract and has `more` of them."""
    got = antt.applied(found.statement)
    own = [f"{name}.ended", f"(λ M 𝓤 𝓛. {name}.clauses 𝓛)", f"(λ M 𝓤 𝓛. {name}.spec 𝓛)"]
    if got[:4] != [head, *own] or len(got) != 4 + more or found.sections or "pub" not in found.front:
        raise Refused("form", f"{found.name} is not '{' '.join([head, *own])}' with {more} more")
    from_its_file(found, head)
    return got[4:]


def from_its_file(found, word):
    origin = antt.resolve(found.file, word)
    if origin is None or origin.file != ORIGINS[word]:
        raise Refused("form", f"{found.name}: {word} is not the one of {ORIGINS[word]}")


# ---- a contract decides everything

def decided(function):
    found, name = theorem(function, "decided")
    if function.asks:
        met, view = takes(found, name, "DecidedAsking", 2)
        as_asked(found, function, met)
    elif found.statement.startswith("DecidedAs "):
        (view,) = takes(found, name, "DecidedAs", 1)
    else:
        takes(found, name, "Decided", 0)
        view = "(λ κs r. r)"
    if view not in VIEWS:
        raise Refused("view", f"{found.name} compares {view}, which is none of {', '.join(sorted(VIEWS))}")
    if "seen" in view:
        from_its_file(found, "seen")


def as_asked(found, function, met):
    """What a theorem says that its function asks is the function's `requires`, to the letter; what stands behind a `&mut` has to the theorem, which binds it at entry, one value."""
    _, said = bound(found, function, met, "met")
    asked = antt.plain(function.asks)
    for name in function.written():
        asked = re.sub(rf"(?<![\w'.]){name}\.old\b", f"{name}.now", asked)
    if said != asked:
        raise Refused("asks", f"{found.name} says that it asks '{said}', and it asks '{antt.plain(function.asks)}'")


# ---- the names of a call

def bound(found, function, text, word):
    """What is said of a call, where it stands as `word (λ _ NAMES. ..)` with the names of the function's head, and those of the outcome."""
    opened = re.match(rf"\({word} \(λ _ ([^.]*)\. (.*)\)\)$", text)
    if not opened:
        raise Refused("form", f"{found.name}: '{text}' is not '({word} (λ _ NAMES. ..))'")
    from_its_file(found, word)
    names = opened.group(1).split()
    return in_order(found, function, names, word == "met"), opened.group(2)


def in_order(found, function, names, entry_alone):
    """The names of an outcome's parts, where a call's names are those of the function's head, each with a subscript or none; `_` stands for what is not spoken of."""
    if function is None:
        raise Refused("names", f"{found.name} speaks of a call of no public function")
    head = [name for name, _ in function.parameters]
    exits = [f"{name}'" if name in function.written() else "_" for name in head]
    due = head if entry_alone else [*head, "r" if function.returns else "_", *exits]
    bare = [name.strip("«»'₂₃₄") + ("'" if name.endswith("'") else "") for name in names]
    if len(bare) != len(due) or any(name not in (own, "_") for name, own in zip(bare, due)):
        raise Refused("names", f"{found.name} names a call of {function.path} '{' '.join(names)}', and not '{' '.join(due)}'")
    return [name for name in names[len(head):] if name != "_"]


def named(found):
    """Each call that a statement speaks of has the names of its function's head, and no part of it is taken by its place."""
    functions = {alias: by_module().get(module) for alias, module in antt.imports(found.file)[1].items()}
    outcomes = dict(re.findall(r"\((\S+) : Outcome (\S+)\.ended ", found.statement))
    for alias, one, other in re.findall(r"^Twice (\S+)\.ended \(λ M 𝓤 𝓛\. [^()]*\) \(λ x (\S+) y (\S+)\. ", found.statement):
        from_its_file(found, "Twice")
        outcomes |= {one: alias, other: alias}
    if together := re.match(r"(Both|AllThree) ((?:\S+\.ended \(λ M 𝓤 𝓛\. [^()]*\) )+)\(λ ([^.]*)\. ", found.statement):
        from_its_file(found, together[1])
        outcomes |= dict(zip(together[3].split()[1::2], re.findall(r"(\S+)\.ended ", together[2])))
    for outcome, names in re.findall(r"saying (?:\([^()]*\)|\S+) (\S+) \(λ _ ([^.]*)\.", found.statement):
        from_its_file(found, "saying")
        in_order(found, functions.get(outcomes.get(outcome)), names.split(), False)
    for alias, names in re.findall(r"^(?:Promised|PromisedAsking) (\S+)\.ended .*?\(named \(λ _ ([^.]*)\.", found.statement):
        in_order(found, functions.get(alias), names.split(), False)
    taken = "|".join([r"\bargs[₂₃₄]?\.[01]", r"\(λ x o\. ", *(rf"(?<![\w'.]){re.escape(each)}\.[01]" for each in outcomes)])
    if placed := re.search(taken, found.statement):
        raise Refused("names", f"{found.name} takes a part of a call by its place, '{placed.group()}', and not by a name")


@kept
def by_module():
    return {function.module(): function for function in source.public()}


# ---- a contract is tied to a demand

def tied(function):
    found, name = theorem(function, "tied")
    if function.asks:
        met, promise = takes(found, name, "PromisedAsking", 2)
        as_asked(found, function, met)
    else:
        (promise,) = takes(found, name, "Promised", 1)
    outcome, body = bound(found, function, promise, "named")
    for part in antt.parts_of(body):
        promised(found.file, found.name, part, outcome)
    for part in (["r"] if function.returns else []) + [f"{each}'" for each in function.written()]:
        if part not in outcome or part not in antt.words(body):
            raise Refused("silent", f"{found.name} does not speak of {'the result' if part == 'r' else 'what stands behind ' + part[:-1] + ' at exit'}")


def promised(file, name, text, outcome):
    """A promise says something of an outcome, whose parts have these names."""
    says(name, text)
    words = antt.words(text)
    if not any(part in words for part in outcome):
        raise Refused("silent", f"{name} promises '{text}', and that speaks of no outcome")
    sides = antt.split_at(text, " ≡ ")
    if len(sides) > 1:
        if sum(any(part in antt.words(side) for part in outcome) for side in sides) > 1:
            raise Refused("itself", f"{name} promises '{text}', and both sides speak of the outcome")
        return
    if antt.said(text)[1]:
        raise Refused("form", f"{name} promises something under a premise: '{text}'")
    head, *given = antt.applied(text)
    record = antt.resolve(file, head)
    if record is None or record.kind != "record":
        raise Refused("form", f"{name} promises '{head} ..', which is neither an equation nor a record of the tree")
    filled(name, record)
    for binder, what in zip(record.binders(), given):
        if any(part in antt.words(what) for part in outcome):
            speaks(name, record, binder)
        inner = antt.without_brackets(what)
        if inner.startswith("λ ") and (bound := re.match(r"λ (\w+)\. (.*)", inner)) and bound.group(1) not in antt.words(bound.group(2)):
            raise Refused("silent", f"{name}: '{inner}' does not speak of {bound.group(1)}")
        other = antt.resolve(file, antt.applied(inner)[0])
        if other is not None and other.kind == "record" and what.startswith("("):
            filled(name, other)
            for missing in other.binders()[len(antt.applied(inner)) - 1:]:
                speaks(name, other, missing)


def filled(name, record):
    """A promised record has fields, and each says something."""
    if not record.fields():
        raise Refused("empty", f"{name} promises {record.name}, which has no field")
    for field, kind in record.fields():
        says(f"{name}: the field {field.split()[-1]} of {record.name}", kind)


def speaks(name, record, binder):
    """Some field of a record speaks of a parameter."""
    if not any(binder in antt.words(kind) for _, kind in record.fields()):
        raise Refused("silent", f"{name} hands the outcome to {record.name} as {binder}, of which no field speaks")


# ---- what every statement is held to

def says(name, statement):
    """A statement says something: it is not Unit, not that something equals itself, and no premise is never met."""
    last, premises = antt.said(statement)
    for part in antt.parts_of(last):
        sides = [antt.without_brackets(side) for side in antt.split_at(part, " ≡ ")]
        if part in UNITS:
            raise Refused("nothing", f"{name} says {part}")
        if len(sides) == 2 and sides[0] == sides[1]:
            raise Refused("itself", f"{name} says that '{sides[0]}' equals itself")
    if any(antt.without_brackets(premise) == "⊥" for premise in premises):
        raise Refused("nothing", f"{name} has the premise ⊥")


def cases():
    for function in source.public():
        yield case(f"{function.path}: its contract decides everything", decided, function)
        yield case(f"{function.path}: its contract is tied to the demand", tied, function)
    for file in antt.demand_files():
        for found in antt.declarations(file).values():
            if found.kind == "record":
                yield case(f"{file}, {found.name}: each field says something", filled, found.name, found)
            elif "pub" in found.front and not found.is_definition():
                yield case(f"{file}, {found.name}: it says something", says, found.name, found.statement)
                yield case(f"{file}, {found.name}: calls have the names of the sources", named, found)


