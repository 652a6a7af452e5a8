"""The edits of crates/NAME/must-fail, and whether each was refused at a fact; and those of crates/NAME/mixed, which must not compile.

rt says of an edit that it is refused, and where first. Here each is checked once more, over the libraries that rt has left, for all that the prover says of it; that is kept in
target/edits, and made again where anything that it was made from has changed.
"""
import functools
import hashlib
import os
import re
import shutil
import tempfile
from collections import Counter
from concurrent.futures import ThreadPoolExecutor
from contextlib import contextmanager
from pathlib import Path

import kit
import source
from report import Case
from traced import declared_in_antt
from tree import crates, exists, text_of


class Edit:
    """An .edit file: its replacements, and the wrong answers that they make: each a function, where it is refused, and what is wrong with it, from the
    lines `# CRATE::FN: ..`, refused in the function's own proof, or `# CRATE::FN, in PLACE: ..`, refused in the proof of the function PLACE, which it
    calls, at the theorem PLACE, or, where PLACE is FN/GOAL, at that goal of a function's proof, as `returns-then-at-s`, what its way out there has to show. One file may
    hold several with different places: then one check of the crate refuses them all, and what it does not come to is tried by itself."""

    def __init__(self, path):
        self.path, self.crate, self.label = path, path.parts[1], path.stem
        lines = text_of(path).splitlines()
        self.groups = groups(lines)
        self.answers = [answer for answers, _ in self.groups for answer in answers]
        self.pairs = replacements(lines)

    def name(self):
        return f"{self.crate}/{self.label}"

    def text_wrong(self):
        """What is wrong with the edit as it is written."""
        if not self.answers:
            return "it has no line '# CRATE::FUNCTION: what is wrong'"
        for about, place, _ in self.answers:
            if not self.is_about(about):
                return f"there is no {about}"
            if not self.has_place(place):
                return f"there is no {place}"
        if len({place for _, place, _ in self.answers}) < len(self.answers):
            return "two wrong answers in one place"
        return replaced(self.pairs, f"crates/{self.crate}/")[1]

    def is_about(self, about):
        """A function of its crate or, where it has none, a definition."""
        if any(f.path == about for f in source.functions()):
            return about.startswith(f"{self.crate}::")
        return self.declares("specs", about.split("::")[-1])

    def has_place(self, place):
        """A function of its crate or a need of its proof, a definition or a theorem."""
        return self.is_about(f"{self.crate}::{place.split('/')[0]}") or self.declares("proofs", place)

    def of_code(self):
        """The functions that its wrong answers of code are about, one for each: an answer that changes a definition, a law or a contract is none, and an answer in a
        function's own code is none where the same file changes that function's contract or definition: it was not tried under the real one."""
        texts, code, other = {}, [], set()
        for answers, pairs in self.groups:
            changes = [self.change(texts, *pair) for pair in pairs]
            if set(changes) == {"code"} and not any(what.startswith("a contract") for _, _, what in answers):
                code += [(about, f"{self.crate}::{place.split('/')[0]}") for about, place, _ in answers]
            else:
                other.update(about for about, _, _ in answers)
        return [about for about, place in code if place not in other]

    def change(self, texts, file, old, new):
        """What a replacement changes, after those before it: code, or something that the code is held against."""
        where = f"crates/{self.crate}/{file}"
        text = texts.get(file) or (text_of(where) if exists(where) else "")
        line = text[:text.find(old)].count("\n")
        texts[file] = text.replace(old, new, 1)
        return "code" if file.startswith("src/") and line not in promising(text) else "promise"

    def declares(self, folder, name):
        files = Path(f"crates/{self.crate}/{folder}").glob("**/*.antt")
        return any(declared_in_antt(name, text_of(file)) for file in files)


HEAD = re.compile(r"# ([\w:]+)(?:, in ([\w:/-]+))?: (.+)$")


def parsed(lines):
    """What an edit's lines say, in order: the head of a wrong answer, or a replacement, a triple of file, old text and new text."""
    file, old = None, None
    for line in lines:
        if head := HEAD.match(line):
            yield head, None
        elif line.startswith("file: "):
            file = line.removeprefix("file: ")
        elif line.startswith("old: "):
            old = line.removeprefix("old: ")
        elif line.startswith("new:"):
            yield None, (file, old, line.removeprefix("new:").removeprefix(" "))


def replacements(lines):
    return [pair for _, pair in parsed(lines) if pair]


def groups(lines):
    """The wrong answers of an edit's lines, each a function, a place and what is wrong, with the replacements that make them: heads that follow each other have
    theirs together."""
    found = []
    for head, pair in parsed(lines):
        if head and (not found or found[-1][1]):
            found.append(([], []))
        if head:
            found[-1][0].append((head[1], head[2] or head[1].split("::", 1)[-1], head[3]))
        elif found:
            found[-1][1].append(pair)
    return found


def promising(text):
    """The numbers of a source's lines that say what a function promises or asks, or bring names for that: from `requires`, `ensures` or `ghost` to the body."""
    found, inside = set(), False
    for at, line in enumerate(text.splitlines()):
        inside = (inside or bool(re.match(r" *(requires|ensures|ghost)\b", line))) and line.strip() != "{"
        if inside:
            found.add(at)
        inside = inside and not line.startswith("ghost use ")
    return found


def replaced(pairs, folder):
    """The texts of the files that an edit changes, and what is wrong with it: each old text stands once in its file."""
    texts = {}
    for file, old, new in pairs:
        where = folder + file
        text = texts.get(where) or (text_of(where) if exists(where) else "")
        if text.count(old) != 1:
            return texts, f"its text 'old: {old}' does not stand once in {file}"
        texts[where] = text.replace(old, new)
    return texts, None if pairs else "it replaces nothing"


def in_folder(folder):
    return [Edit(path) for crate in crates() for path in sorted(Path(f"crates/{crate}/{folder}").glob("*.edit"))]


# ---- how an edit was refused

# An error of a log: its place in the crate and its words, up to the next line that is not indented; the declaration that it is in is left out.
ERROR = re.compile(r"^(?:\./)?(\S+?):\d+:\d+: error(?:\[[\w-]+\])?: (?:`[^`\n]+`: )?(.*(?:\n  .*)*)", re.M)
# What only follows from a declaration above that was refused.
FOLLOWS = re.compile(r"`[^`]+` (was not admitted|cannot be unfolded because it was not admitted)|\d+ declarations? that depends? on `[^`]+`")
# A fact that was looked at and was not shown: a procedure or a rewriting step that does not reach its goal, or a proof of another statement.
FACT = re.compile(r"`(search|grind|omega|cc|simp|rw|grw|decide)`( |: )|expected type `[^`]*`,?\s+but this has type `")
# What is refused before any fact is looked at, whatever else is said.
FORM = re.compile(r"has no field|not in scope(?! here| at this)|that can be named from here|has \d+ binders?, but its type has room")
# An answer to a goal that has another name now, since the name says which test leads there: the goal is looked at without it.
RENAMED = re.compile(r"(?:`[^`]+`: )?module `Rattle\.\w+\.proofs\.[\w.]+\.Goals` has no `")
LOST = re.compile(r"record `Rattle\.\w+\.proofs\.[\w.-]+` has no field `")
# A name that a proof file has of a test or of a call, and those that are there now.
NAMED = re.compile(r"^(?:\./)?(proofs/\S+?\.antt):\d+:\d+: error: .*has no field `([\w-]+)` \(nearest: ([^)]*)\)", re.M)
# The same of a goal that no proof file answers: the proof that the toolchain makes is refused there.
NEED = re.compile(r"^note: \S+:\d+:\d+: it is not proved that ", re.M)
# Such a function without a proof, and why: the search does not show a goal, or a function that it calls is not proved.
NO_PROOF = re.compile(r"^fn (\S+): no proof: ((?!.*(?:`search` did not prove|it calls `[^`]+`(?:(?:, | and )`[^`]+`)*, which (?:is|are) not proved)).*)", re.M)
# The place in the code that a proof speaks of is another one: the code's shape changed.
PLACE = re.compile(r"expected type `Rattle\.[^` ]*\.Lts\.[^` ]*[` ]")


@functools.lru_cache(maxsize=None)
def stamp_of(crate):
    """What a check of a crate is made from, as one number: the kit, the crate's files and the libraries below it; nothing where one of these is not there."""
    if not kit.are_built(crate):
        return None
    files = [Path(f"{kit.kit()}/KIT-ID"), *(Path(f"{kit.library(name)}/format") for name in kit.below(crate))]
    files += [path for part in kit.PARTS for path in sorted(Path(f"crates/{crate}/{part}").rglob("*")) if path.is_file()]
    return hashlib.sha256(b"".join(str(path).encode() + path.read_bytes() for path in files)).hexdigest()


# Of a crate whose edits are tried, the folder with what a check of it as it stands has proved: each try begins with a copy of that.
SEEDS = {}


@contextmanager
def seeded(crate):
    """Keeps such a folder while the crate's edits are tried."""
    with tempfile.TemporaryDirectory() as seed:
        kept = Path(f"crates/{crate}/out/incremental")
        if kept.is_dir():
            linked(kept, f"{seed}/seed")
        status, _ = kit.changed(crate, {}, "--jobs", "1", "--incremental", f"{seed}/seed")
        if status == 0:
            SEEDS[crate] = f"{seed}/seed"
        try:
            yield
        finally:
            SEEDS.pop(crate, None)


@contextmanager
def begun(crate):
    """The words for a check that begins so."""
    if crate not in SEEDS:
        yield ()
        return
    with tempfile.TemporaryDirectory() as room:
        linked(SEEDS[crate], f"{room}/kept")
        yield "--incremental", f"{room}/kept"


def linked(folder, to):
    """A copy of such a folder, what was proved by links where these can be made: a check replaces such a file, and changes none."""
    def copy(one, other):
        try:
            return os.link(one, other) if one.endswith(".oantt") else shutil.copy2(one, other)
        except OSError:
            return shutil.copy2(one, other)
    shutil.copytree(folder, to, copy_function=copy)


def try_crate(crate):
    """Tries all edits of a crate that are not kept."""
    edits = [edit for edit in in_folder("must-fail") if edit.crate == crate]
    if not kit.are_built(crate) or not [edit for edit in edits if log_of(edit, edit.pairs, (), edit.label, True) is None]:
        for edit in edits:
            refusal_wrong(edit, False)
        return
    with seeded(crate):
        for edit in edits:
            refusal_wrong(edit, False)


def log_of(edit, pairs, words, name, quick):
    """All that the prover says of an edit, or of some of its replacements; nothing where its libraries are not there, or, if it is to be quick, where it was not tried.
    A proof file speaks of a test by a name that is made from the test's text, which the edit may have changed. Where nothing else of that function is refused, it is tried
    again with the name that the test has now."""
    texts, wrong = replaced(pairs, f"crates/{edit.crate}/")
    if wrong or stamp_of(edit.crate) is None:
        return None
    texts = {file.removeprefix(f"crates/{edit.crate}/"): text for file, text in texts.items()}
    for again in range(4):
        log = checked(edit, texts, words, f"{name}-again-{again}" if again else name, quick)
        follow = following(edit.crate, texts, log) if log else {}
        if not follow:
            break
        texts |= follow
    return log


def following(crate, texts, log):
    """The proof files that name a test or a call which has another name now, with that name."""
    found = {}
    for file, old, nearest in NAMED.findall(log):
        if refused_beside(file, crate, log):
            continue
        text = found.get(file) or texts.get(file) or text_of(f"crates/{crate}/{file}")
        # one that is new, and of these the one that begins most like it
        names = [name for name in re.findall(r"\.([\w-]+)", nearest) if name.removeprefix("if-") not in text]
        new = max(names, key=lambda name: len(os.path.commonprefix([name, old])), default=None)
        if new and re.search(rf"(?<![\w-]){re.escape(old)}(?![\w-])", text):
            found[file] = re.sub(rf"(?<!\w){re.escape(old.removeprefix('if-'))}(?![\w-])", new.removeprefix("if-"), text)
    return found


def checked(edit, changed, words, name, quick):
    """All that the prover says of a crate in which some files have other texts, kept by that name."""
    stamp, kept = stamp_of(edit.crate), Path(f"target/edits/{edit.crate}/{name}.log")
    first = hashlib.sha256(repr((stamp, sorted(changed.items()), words)).encode()).hexdigest() + "\n"
    there = kept.read_text(encoding="utf-8") if kept.exists() else ""
    if not there.startswith(first) and not quick:
        with begun(edit.crate) as over:
            status, said = kit.changed(edit.crate, changed, "--jobs", "1", *words, *over)
        there = f"{first}status={status}\n{said}"
        kept.parent.mkdir(parents=True, exist_ok=True)
        kept.with_suffix(".part").write_text(there, encoding="utf-8")
        kept.with_suffix(".part").rename(kept)
    return there.removeprefix(first) if there.startswith(first) else None


def errors_of(log):
    return [(place, words) for place, words in ERROR.findall(log) if not FOLLOWS.match(words)]


def refused_beside(file, crate, log):
    """Whether something else of the function that a proof file is about is refused, at a fact or at a goal that no file answers."""
    own = file.rpartition("/")[0]
    others = [words for place, words in errors_of(log) if place.startswith(own + "/") and not error_wrong(place, words)]
    return bool(others or needs_of(f"{crate}::{own.removeprefix('proofs/').replace('/', '::')}", log))


def is_renamed(place, words, crate, log):
    """Whether an error only says that a goal, a test or a call has another name now, since the code is another one, and the function is refused for more than that."""
    return bool(RENAMED.match(words) or LOST.match(words)) and refused_beside(place, crate, log)


def error_wrong(place, words):
    """What is wrong with an error that follows from no other: it stands outside the proofs, or names no fact."""
    first = words.splitlines()[0][:160]
    if not place.startswith("proofs/"):
        return f"refused in {place}, before a proof: {first}"
    if not FACT.search(words) or FORM.search(words) or PLACE.search(words):
        return f"refused in {place}, and not at a fact: {first}"
    return None


def log_wrong(log, last, crate):
    """What is wrong with a log: the prover did not refuse what was tried, or not at a fact alone."""
    lines = log.splitlines()
    if lines[0] != "status=1" or not re.match(last, lines[-1]):
        return [f"the prover did not refuse it: {lines[0]}, {lines[-1][:160]}"]
    faults = [wrong for place, words in errors_of(log) if not is_renamed(place, words, crate, log) and (wrong := error_wrong(place, words))]
    faults += [f"{name} has no proof: {why[:160]}" for name, why in NO_PROOF.findall(log)]
    return faults if errors_of(log) or NEED.search(log) else [*faults, "its log names no fact"]


def refusal_wrong(edit, quick):
    """What is wrong with how an edit was refused. Right is: each error that does not just follow from another stands in a proof and names a fact
    that was not shown, and the function that the edit is about is not proved. A name, a field or a form that is not there is refused before any
    fact is looked at."""
    log = log_of(edit, edit.pairs, (), edit.label, quick)
    if log is None:
        return "it was not tried"
    faults = log_wrong(log, "logic=not-proved", edit.crate)
    for about, place, what in edit.answers:
        # an edit that weakens a contract leaves the function proved, and is refused at the theorem that its contract decides everything; one of a definition may
        # change the function of that name along
        is_stated = what.startswith("a contract") or (edit.declares("specs", about.split("::")[-1]) and not is_function(edit.crate, place))
        if f"\nfn {about}: proved\n" in log and not is_stated:
            faults.append(f"{about} is still proved")
        elif (len(edit.answers) > 1 or place != about.split("::", 1)[-1]) and not refused_at(f"{edit.crate}::{place}", log):
            faults += alone_wrong(edit, about, place, quick)
    return "; ".join(faults)


def is_function(crate, place):
    return any(f.path == f"{crate}::{place.split('/')[0]}" for f in source.functions())


def alone_wrong(edit, about, place, quick):
    """What is wrong with a wrong answer that is tried by itself, since in the check of its file a function that it calls was refused before."""
    pairs = next(pairs for answers, pairs in edit.groups if (about, place) in [answer[:2] for answer in answers])
    function = place.split("/")[0]
    words = ("--only", function) if is_function(edit.crate, place) else ()
    name = f"{edit.label}-{place}".replace("/", "-").replace("::", "-")
    log = log_of(edit, pairs, words, name, quick)
    if log is None:
        return [f"{about} is not refused at {place}, and was not tried alone"]
    faults = log_wrong(log, r"only=\d+ proved=\d+" if words else "logic=not-proved", edit.crate)
    return faults if refused_at(f"{edit.crate}::{place}", log) else [*faults, f"{about} is not refused at {place}"]


def needs_of(path, log):
    """The notes on goals that are not shown which a log has above its line on a function."""
    before = log.partition(f"\nfn {path}: ")[0]
    return [note for note in before[before.rfind("\nfn ") + 1:].splitlines() if NEED.match(note)]


def refused_at(path, log):
    """Whether a function's own proof was refused, and not just that of a function that it calls, or one goal of it; or a theorem of that name."""
    name = path.split("::", 1)[1]
    function, _, goal = name.partition("/")
    path, own = path.partition("/")[0], "proofs/" + function.replace("::", "/") + "/"
    no_proof = re.search(rf"^fn {path}: no proof: .*`search` did not prove (.*)", log, re.M)
    if goal:
        answered = re.search(rf"^(?:\./)?{own}\S+?:\d+:\d+: error(?:\[[\w-]+\])?: `{re.escape(goal)}`: ", log, re.M)
        return answered or (no_proof and f"`{goal}`" in no_proof[1]) or any(f"`{goal}`" in note for note in needs_of(path, log))
    if no_proof or needs_of(path, log) or any(place.startswith(own) for place, _ in errors_of(log)):
        return True
    return re.search(rf"^(?:\./)?proofs/\S+?:\d+:\d+: error(?:\[[\w-]+\])?: `{re.escape(name)}`: ", log, re.M)


def cases(quick):
    edits = in_folder("must-fail")
    if not quick:
        # crates side by side, as many as there are processors, those with the most to try first; each log is kept
        count = Counter({edit.crate: 0 for edit in edits})
        for edit in edits:
            count[edit.crate] += len(edit.answers)
        with ThreadPoolExecutor(len(os.sched_getaffinity(0))) as pool:
            list(pool.map(try_crate, [crate for crate, _ in count.most_common()]))
    for edit in edits:
        if edit.label.startswith("mixed_"):
            yield Case("edit", f"{edit.name()}: the edit", f"it belongs in crates/{edit.crate}/mixed/: code that does not compile never reaches the prover")
            continue
        yield Case("edit", f"{edit.name()}: the edit", edit.text_wrong())
        if quick and log_of(edit, edit.pairs, (), edit.label, True) is None:
            continue
        yield Case("edit", f"{edit.name()}: refused at a fact", refusal_wrong(edit, quick))
    yield from counted_cases(edits)
    yield from mixed_cases(quick)


def counted_cases(edits):
    """Each public contract has two wrong answers of code or more; docs/DECISIONS.md lists those that can have none, and these have two of another kind."""
    code = Counter(about for edit in edits for about in edit.of_code())
    every = Counter(about for edit in edits for about, _, _ in edit.answers)
    listed = excused()
    for f in source.public():
        count = (every if f.path in listed else code)[f.path]
        yield Case("edit", f"{f.path}: two wrong answers of code or more", None if count >= 2 else f"{count}")
    for path in listed:
        public = any(f.path == path for f in source.public())
        yield Case("edit", f"{path}: listed as one without wrong answers of code", None if public and code[path] < 2 else "it is no public function, or has two")


def excused():
    """The functions that docs/DECISIONS.md names under its question for them."""
    _, _, behind = text_of("docs/DECISIONS.md").partition("- **Which public contracts have no wrong answers of code?**")
    return re.findall(r"`(\w+(?:::\w+)+)`", behind.partition("\n- **")[0])


# ---- what does not compile

MISMATCH = re.compile(r"error\[mismatched-types\]: expected `(\w+)`, found `(\w+)`")


def compiled(edit):
    """What the compiler says of an edit."""
    texts, _ = replaced(edit.pairs, f"crates/{edit.crate}/")
    status, said = kit.changed(edit.crate, {file.removeprefix(f"crates/{edit.crate}/"): text for file, text in texts.items()})
    return status, [line for line in said.splitlines() if ": error" in line]


def mixed_wrong(edit):
    """What is wrong with an edit of crates/CRATE/mixed: the compiler must refuse it, and only because a feature number was wanted and a profile
    number stands there, or the other way round."""
    status, errors = compiled(edit)
    if status == 0 or not errors:
        return "it compiles"
    for error in errors:
        types = MISMATCH.search(error)
        if not types or set(types.groups()) != {"Feature", "Profile"}:
            return "refused for another reason: " + re.sub(r"^\S*: error", "error", error)
    return None


def mixed_cases(quick):
    for edit in in_folder("mixed"):
        wrong = edit.text_wrong()
        yield Case("mixed", f"{edit.name()}: the edit", wrong)
        if not wrong and kit.are_built(edit.crate):
            yield Case("mixed", f"{edit.name()}: a feature number and a profile number do not mix", mixed_wrong(edit))
        elif not wrong and not quick:
            yield Case("mixed", f"{edit.name()}: a feature number and a profile number do not mix", "the libraries below its crate are not there")


# ---- the tables of docs/EDITS.md

def table():
    place = {f.path: at for at, f in enumerate(source.functions())}
    rows = ["| function | wrong answer | edit, in its crate's must-fail/ |", "|---|---|---|"]
    wrong = [(crates().index(edit.crate), place.get(about, 0), edit.label, about, what) for edit in in_folder("must-fail") for about, _, what in edit.answers]
    return rows + [f"| `{about}` | {what} | `{label}` |" for _, _, label, about, what in sorted(wrong)]


def mixed_table():
    rows = ["| where | what is mixed | edit, in its crate's mixed/ |", "|---|---|---|"]
    return rows + [f"| `{about}` | {what} | `{edit.label}` |" for edit in in_folder("mixed") for about, _, what in edit.answers]
