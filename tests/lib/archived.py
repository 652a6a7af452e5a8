"""The archive is the library of the exported functions once more: each of its functions has the parameters and the contract of the library's function of that name, calls it and does
nothing else, and each public function of the library is there."""
import re

import source
from report import Case
from tree import ARCHIVE, ARCHIVED, exists, text_of


def head_of(function):
    """A function's head and contract as one text, without what makes it an export."""
    return re.sub(r"\s+", " ", re.sub(r'\bpub (?:extern "C" )?', "", function.contract)).replace(",)", ")").replace("( ", "(").replace(", )", ")")


def body_of(function):
    """What stands between the braces behind a function's head, as one text."""
    text = text_of(function.file)
    found = re.search(rf"\bfn {re.escape(function.path.split('::')[-1])}\b.*?^\{{$(.*?)^\}}", text, re.M | re.S) or re.search(rf"\bfn {re.escape(function.path.split('::')[-1])}\b[^\n]*\{{$(.*?)^\}}", text, re.M | re.S)
    return re.sub(r"\s+", "", found[1]) if found else ""


def cases():
    if not exists(f"crates/{ARCHIVE}/src/lib.rt"):
        return
    library = {f.path.split("::", 1)[1]: f for f in source.public() if f.crate == ARCHIVED}
    archive = {f.path.split("::", 1)[1]: f for f in source.functions() if f.crate == ARCHIVE}
    for name in sorted(library.keys() | archive.keys()):
        yield Case("archived", f"{ARCHIVE}::{name}: it is {ARCHIVED}::{name}, for C", wrong_with(library.get(name), archive.get(name), name))


def wrong_with(of_library, of_archive, name):
    if of_library is None or of_archive is None:
        return f"{ARCHIVE if of_archive is None else ARCHIVED} has no such function"
    if not of_archive.exported:
        return "it is not exported"
    if head_of(of_library) != head_of(of_archive):
        return "its head or its contract is another one"
    called = f"{ARCHIVED}::{name}({','.join(parameter for parameter, _ in of_archive.parameters)})"
    if body_of(of_archive).rstrip(";").replace(",)", ")") != called:
        return f"its body is not {called}"
    return None
