"""The files of the tree, as they stand or, while a weakening is tried, with its replacements; and the crates in their order."""
import functools
from contextlib import contextmanager
from pathlib import Path

_changed = {}
_caches = []


def kept(function):
    """A function of the tree whose value is kept until a file is changed."""
    cached = functools.lru_cache(maxsize=None)(function)
    _caches.append(cached)
    return cached


@contextmanager
def changed(texts):
    """The tree with some files' texts replaced, in memory alone."""
    _changed.update(texts)
    forget()
    try:
        yield
    finally:
        _changed.clear()
        forget()


def forget():
    for cached in _caches:
        cached.cache_clear()


def text_of(path):
    path = str(path)
    return _changed[path] if path in _changed else Path(path).read_text(encoding="utf-8")


def exists(path):
    return str(path) in _changed or Path(path).exists()


# ---- the crates

# the static library, whose functions are those of a crate once more
ARCHIVE, ARCHIVED = "abi_c", "abi"


def in_order(lines):
    return [line.split(":")[0].split()[0] for line in lines if ":" in line and not line.startswith("#")]


@kept
def crates():
    return in_order(text_of("crates.txt").splitlines())


@kept
def libraries():
    """What stands in front of the programs: what the programs share prints or is constant, and promises nothing."""
    lines = text_of("crates.txt").splitlines()
    return in_order(lines[:lines.index("# programs and what they share")])


def outside():
    """What an outsider or a person calls: the exported functions, the programs and what these share."""
    return [crate for crate in crates() if crate in (ARCHIVE, ARCHIVED) or crate not in libraries()]


def is_library(crate):
    return exists(f"crates/{crate}/src/lib.rt")


def sources(crate):
    return [str(path) for path in sorted(Path(f"crates/{crate}/src").glob("**/*.rt"))]
