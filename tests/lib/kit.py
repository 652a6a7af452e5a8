#!/usr/bin/env python3
"""What is asked of rt's kit beside rt: the words that rt calls rattle with for a crate of this repository, over the libraries that rt has built. They stand in crates/NAME/out, where
`rt ci`, `rt check`, `rt lib` and `rt run` leave them.

  kit.py words CRATE   prints them, a line each: for `rattle check` and `rattle build`, called in the crate's folder
  kit.py below CRATE   prints the crates of this repository that it stands on, lowest first
  kit.py built CRATE   ends with 0 where the libraries of these are there, else with 1
"""
import os
import re
import shutil
import subprocess
import sys
import tempfile

TOP = os.path.dirname(os.path.dirname(os.path.dirname(os.path.abspath(__file__))))
PARTS = ("src", "specs", "proofs")


def kit():
    """The folder of the kit, which is the one that rt stands in."""
    return os.path.dirname(os.path.dirname(os.path.realpath(shutil.which("rt") or "rt")))


def listed():
    """The lines of crates.txt: of each crate whether it is a static library, and the crates that its line names."""
    with open(f"{TOP}/crates.txt", encoding="utf-8") as file:
        lines = [line.split("#")[0] for line in file]
    rows = [re.fullmatch(r"(\w+)( +staticlib)? *:(.*)", line.strip()) for line in lines if line.strip()]
    return {row[1]: (bool(row[2]), row[3].split()) for row in rows}


def below(crate):
    """The crates that it stands on, each behind those that it uses."""
    found, known = [], listed()

    def add(name):
        for other in known[name][1]:
            add(other)
        if name not in found:
            found.append(name)

    for name in known[crate][1]:
        add(name)
    return found


def out(crate):
    return f"{TOP}/crates/{crate}/out"


def library(crate):
    return f"{out(crate)}/rlib/{crate}.rlib"


def root_of(crate):
    return "src/main.rt" if os.path.isfile(f"{TOP}/crates/{crate}/src/main.rt") else "src/lib.rt"


def words(crate):
    made, (is_static, named) = kit(), listed()[crate]
    found = ["--crate-name", crate, root_of(crate), "--extern", f"std={made}/rlibs/std.rlib", "-L", f"dependency={made}/rlibs"]
    for name in named:
        found += ["--extern", f"{name}={library(name)}"]
    for name in below(crate):
        found += ["-L", f"dependency={out(name)}/rlib"]
    found += ["--antt-project", f"{made}/rattle/logic/antt-project.json", "--logic-built", f"{made}/logic_built", "--links", f"{crate}="]
    return found + (["--crate-type", "staticlib"] if is_static else [])


def are_built(crate):
    """Whether each library that it stands on is there."""
    return all(os.path.isfile(f"{library(name)}/format") for name in below(crate))


def changed(crate, texts, *more):
    """What rattle says of a crate in which some files have other texts, of a check that proves nothing, or of what `more` asks for: its status, and its lines."""
    with tempfile.TemporaryDirectory() as room:
        for part in PARTS:
            if os.path.isdir(f"{TOP}/crates/{crate}/{part}"):
                shutil.copytree(f"{TOP}/crates/{crate}/{part}", f"{room}/{part}")
        for file, text in texts.items():
            with open(f"{room}/{file}", "w", encoding="utf-8") as written:
                written.write(text)
        command = [f"{kit()}/bin/rattle", "check", *words(crate), *(more or ("--jobs", "1", "--only", ""))]
        ran = subprocess.run(command, cwd=room, stdin=subprocess.DEVNULL, stdout=subprocess.PIPE, stderr=subprocess.STDOUT, text=True, errors="replace", check=False)
        return ran.returncode, ran.stdout


def main():
    if sys.argv[1] == "built":
        sys.exit(not are_built(sys.argv[2]))
    print("\n".join({"words": words, "below": below}[sys.argv[1]](sys.argv[2])))


if __name__ == "__main__":
    main()
