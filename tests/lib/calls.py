#!/usr/bin/env python3
"""The exported functions as the header declares them, and two C files made from that: one that keeps the calls of a program on a tape, with what they were handed and
what they gave, and one that makes the calls of a tape again and compares. `calls.py record` and `calls.py replay` print them, `calls.py names` the functions."""
import os, re, sys

HEADER = os.path.join(os.path.dirname(os.path.abspath(__file__)), "../../include/gcf.h")
NUMBERS = {"uint8_t": 1, "uint16_t": 2, "uint32_t": 4, "uint64_t": 8, "bool": 1, "char": 1}


def plain(text):
    """The header without its comments and the bodies of its inline functions."""
    text = re.sub(r"/\*.*?\*/", "", text, flags=re.S)
    text = re.sub(r"^static inline[^\n]*\}$", "", text, flags=re.M)
    return re.sub(r"^static inline[^{]*\{.*?^\}$", "", text, flags=re.S | re.M)


def structs(text):
    """Of each struct its fields, a type and a name each; under both names where it has two."""
    found = {}
    for tag, body, alias in re.findall(r"struct (gcf_\w+) \{(.*?)\}\s*(\w*);", text, flags=re.S):
        fields = [(" ".join(f.split()[:-1]).removeprefix("struct "), f.split()[-1]) for f in body.split(";") if f.strip()]
        found[tag] = found[alias or tag] = fields
    return found


def leaves(kind, place, known):
    """The numbers that a value of a type is made of, each as C names it."""
    kind = kind.removeprefix("struct ")
    if kind in NUMBERS:
        return [place]
    return [leaf for inner, name in known[kind] for leaf in leaves(inner, f"{place}.{name}", known)]


def functions(text):
    """Of each function its name, the type that it gives and its arguments: (what, type, name), where what is in, out, told or number."""
    found = []
    for gives, name, inside in re.findall(r"^((?:struct )?\w+) (gcf_\w+)\(([^()]*)\);", text, flags=re.M):
        words = [" ".join(word.split()) for word in inside.split(",")]
        split = [re.match(r"(const )?(.*?) ?(\*?)(\w+)$", word).groups() for word in words if word != "void"]
        arguments, k = [], 0
        while k < len(split):
            const, kind, star, argument = split[k]
            counted = k + 1 < len(split) and split[k + 1][3] in (f"{argument}_bytes", f"{argument}_count")
            arguments.append(("in" if const else "out" if counted else "told" if star else "number", kind, argument))
            assert not star or counted or not const, f"{name}: {argument} has no count behind it"
            k += 2 if star and counted else 1
        found.append((name, gives, arguments))
    return found


def handed(arguments):
    """The arguments as they stand in a call."""
    return ", ".join({"in": f"{n}, {n}_count", "out": f"{n}, {n}_count", "told": f"&{n}"}.get(what, n) for what, _, n in arguments)


def declared(arguments):
    """The arguments as they are declared."""
    ways = {"in": "const {0} *{1}, uint64_t {1}_count", "out": "{0} *{1}, uint64_t {1}_count", "told": "{0} *{1}", "number": "{0} {1}"}
    return ", ".join(ways[what].format(kind, name) for what, kind, name in arguments) or "void"


def record(known, found):
    """The file for the program whose calls are kept: linked with --wrap of each name."""
    lines = ['#include "tape.h"', '#include "gcf.h"']
    for number, (name, gives, arguments) in enumerate(found):
        call = f"__real_{name}({handed(arguments).replace('&', '')})"
        lines += [f"{gives} __real_{name}({declared(arguments)});", f"{gives} __wrap_{name}({declared(arguments)});"]
        lines += [f"{gives} __wrap_{name}({declared(arguments)})", "{", "    uint64_t size = 0;"]
        lines += [f"    size += {n}_count * sizeof *{n};" for what, _, n in arguments if what in ("in", "out")]
        lines += [f"    if (!tape_begin({number}, size)) {'{ ' + call + '; return; }' if gives == 'void' else 'return ' + call + ';'}"]
        for what, kind, n in arguments:
            if what in ("in", "out"):
                lines += [f"    tape_put({n}_count);", f"    tape_bytes({n}, {n}_count * sizeof *{n});"]
            elif what == "number":
                lines += [f"    tape_put({leaf});" for leaf in leaves(kind, n, known)]
        lines += [f"    {'' if gives == 'void' else gives + ' given = '}{call};"]
        lines += [f"    tape_bytes({n}, {n}_count * sizeof *{n});" for what, _, n in arguments if what == "out"]
        lines += [f"    tape_put({leaf});" for what, kind, n in arguments if what == "told" for leaf in leaves(kind, f"(*{n})", known)]
        lines += [] if gives == "void" else [f"    tape_put({leaf});" for leaf in leaves(gives, "given", known)]
        lines += ["    tape_end();"] + ([] if gives == "void" else ["    return given;"]) + ["}", ""]
    return lines


def replay(known, found):
    """The file for the program that makes the calls again."""
    lines = ['#include "tape.h"', '#include "gcf.h"', ""]
    for number, (name, gives, arguments) in enumerate(found):
        lines += [f"static void call_{number}(void)", "{"]
        for what, kind, n in arguments:
            if what in ("in", "out"):
                lines += [f"    uint64_t {n}_count = tape_take();", f"    {kind} *{n} = tape_buffer({n}_count * sizeof *{n}, sizeof *{n});"]
            elif what == "told":
                lines += [f"    {kind} {n};", f"    tape_fill(&{n}, sizeof {n});"]
            else:
                lines += [f"    {kind} {n};"] + [f"    {leaf} = tape_take();" for leaf in leaves(kind, n, known)]
        lines += ["    tape_before();"]
        lines += [f"    {'' if gives == 'void' else gives + ' given = '}{name}({handed(arguments)});", "    tape_after();"]
        lines += [f"    tape_same_bytes({n}, {n}_count * sizeof *{n});" for what, _, n in arguments if what == "out"]
        lines += [f"    tape_same({leaf});" for what, kind, n in arguments if what == "told" for leaf in leaves(kind, n, known)]
        lines += [] if gives == "void" else [f"    tape_same({leaf});" for leaf in leaves(gives, "given", known)]
        lines += ["}", ""]
    names = ", ".join(f'{{"{name}", call_{number}}}' for number, (name, _, _) in enumerate(found))
    return lines + [f"const struct tape_call tape_calls[] = {{{names}}};", f"const unsigned tape_kinds = {len(found)};"]


def main():
    text = plain(open(HEADER).read())
    known, found = structs(text), functions(text)
    print("\n".join({"record": lambda: record(known, found), "replay": lambda: replay(known, found), "names": lambda: [f[0] for f in found]}[sys.argv[1]]()))


main()
