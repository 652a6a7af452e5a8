"""The public functions are those that the toolchain lists in what it writes of a proved library."""
import json
from pathlib import Path

import kit
import source
from report import Case
from tree import ARCHIVE, libraries


def listed(crate):
    """The functions of a library's interface; nothing where there is none."""
    file = Path(f"{kit.library(crate)}/interface/toolchain/mir.json")
    return {name for name, _ in json.loads(file.read_text(encoding="utf-8")) if name.startswith(f"{crate}::")} if file.is_file() else None


def cases(quick):
    for crate in libraries():
        if crate == ARCHIVE:
            continue
        found = listed(crate)
        if found is None and quick:
            continue
        here = {f.path for f in source.public() if f.crate == crate}
        wrong = "rt has left no proved library" if found is None else ", ".join(sorted(here ^ found))
        yield Case("proved", f"{crate}: its public functions are those that the toolchain lists", wrong)
