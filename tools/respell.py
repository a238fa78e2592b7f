#!/usr/bin/env python3
"""Brings the definitions' and lemmas' own names to one spelling: snake case, types in camel case, a dash only where it joins the names
of two definitions or follows a type's.

usage: tools/respell.py [--list]     over crates/ of the working folder

Names are those declared in specs/ and in the lemma files of proofs/. A name that would fall together with another one that its files
already have gets _lem. Functions of src/, exported names, strings, inputs and outputs are not touched: none of them has a dash or a hump.
--list prints the old and the new names and writes nothing.
"""

import os
import re
import sys

DELIMITERS = re.compile(r"""([\s(){}\[\],;.:"`])""")
DECLARED = re.compile(r"^\s*(?:(?:abbrev|unfoldable|axiom|infix[lr]? \d+)\s+)?(?:pub\s+)?(?:data\s+|record\s+)?([^\s:{}().]+)\s*(?:\{[^}]*\}\s*)*:(?:\s|$)")
SOURCES = re.compile(r"\.(antt|rt|edit)$")
# Functions of the library whose names a lemma's name joins by a dash.
STANDARD = set("length take drop map get_or set append mem sum reverse sub_list slice_index concat".split())
# A declaration of a function's proof, which the toolchain names.
MADE = re.compile(r":\s*(?:tie|goal)\.")
# Lemmas and local definitions that stand where a definition's name would fall on theirs.
APART = {
    "crates/network/proofs/Runs.antt": ("after_check", "after_check_lem"),
    "crates/pulses/proofs/Exact.antt": ("record_of", "record_shown"),
}
# Names that would fall together with a definition's, a condition's or a function's, which keep theirs, and those that hold the older
# name of get_or.
FIXED = {
    "driven-at-start": "driven_from_start",
    "renumbered-listing": "listing_renumbered",
    "node-count": "counts_nodes",
    "module-count": "counts_modules",
    "event-count": "counts_events",
    "watched-count": "counts_watched",
    "getD-listed": "get_or-listed",
    "getD-mem": "get_or-mem",
    "getD-allBytes": "get_or-all_bytes",
    "get_d_map": "get_or-map_within",
    "get_d_default": "get_or-default",
    "some-tick": "some_tick",
    "none-counted": "none_counted",
    "given-worked": "given_worked",
    "pending-worked": "pending_worked",
    "horizonOutside": "is_horizon_outside",
    "onLoop": "is_on_loop",
    "inOrder": "in_order",
    "noneRead": "nothing_read",
}
# Words that the language keeps, or that the operators of the library use.
KEPT = re.compile(r"^(?:returns|if◌then◌else◌)")


def files(top):
    for folder, folders, names in os.walk(os.path.join(top, "crates")):
        folders[:] = sorted(f for f in folders if f != "out")
        for name in sorted(names):
            if SOURCES.search(name):
                yield os.path.join(folder, name)


def declarations(path, text):
    """The names that a file of definitions or lemmas declares."""
    if not path.endswith(".antt"):
        return
    for line in text.splitlines():
        found = DECLARED.match(line)
        if found and not MADE.search(line) and not line.lstrip().startswith("--") and not KEPT.match(found.group(1)):
            yield found.group(1)


def humps(part):
    """alreadyDriven: already_driven; a part that begins with a capital, a type's name, stays."""
    if part[:1].isupper():
        return part
    return re.sub(r"([a-z0-9])([A-Z])", lambda m: m.group(1) + "_" + m.group(2).lower(), part)


def groups(parts, functions):
    """The parts of a name as names of definitions, or of a type first; None where they are not."""
    if not parts:
        return []
    for n in range(len(parts), 0, -1):
        head = "_".join(parts[:n])
        if head in functions or n == 1 and len(head) > 1 and head[0].isupper() and head[1].islower():
            rest = groups(parts[n:], functions)
            if rest is not None:
                return [head] + rest
    return None


def respelled(name, functions):
    parts = [humps(p) for p in name.split("-")]
    if len(parts) > 1 and parts[0][1:2].islower() and parts[0][0].isupper():
        return "-".join([parts[0], "_".join(parts[1:])])
    return "-".join(groups(parts, functions) or ["_".join(parts)])


def main(arguments):
    top = "."
    texts = {p: open(p, encoding="utf-8").read() for p in files(top)}
    for path, (name, other) in APART.items():
        path = os.path.join(top, path)
        if path in texts:
            texts[path] = "".join(other if w == name else w for w in DELIMITERS.split(texts[path]))
    tokens = {p: set(DELIMITERS.split(t)) for p, t in texts.items()}
    declared, definitions = set(), set(STANDARD)
    for p, t in texts.items():
        names = set(declarations(p, t))
        declared |= names
        if "/specs/" in p:
            definitions |= {humps(n) for n in re.findall(r"(?m)^(?:abbrev|unfoldable) pub ([^\s:{}()]+)", t) if "-" not in n}
    turned = {}
    for name in sorted(declared):
        new = FIXED.get(name) or respelled(name, definitions)
        if new != name:
            turned[name] = new
    # Two names that fall together in a file: the definition has the plain name, a lemma gets _lem. A free word of a file is a variable
    # or a name there, which a name turned into it would be taken for; a field, a path or a function of src/ is not.
    code = {p: re.sub(r"(?m)--.*$", "", t) for p, t in texts.items() if p.endswith(".antt")}
    words = {p: set(DELIMITERS.split(re.sub(r"\.[\w'-]+", " ", t))) for p, t in code.items()}
    taken = {}
    for old in sorted(turned, key=lambda n: ("-" in n, n)):
        new = turned[old]
        own = [p for p in code if old in tokens[p]]
        while old not in FIXED and any(new in words[p] or (p, new) in taken for p in own):
            new += "_lem" if not new.endswith("_lem") else "'"
        turned[old] = new
        for p in own:
            taken[p, new] = old
    if "--list" in arguments:
        for old, new in turned.items():
            print(old, new)
        return 0
    changed = 0
    for p, t in texts.items():
        made = "".join(turned.get(w, w) for w in DELIMITERS.split(t))
        if made != open(p, encoding="utf-8").read():
            with open(p, "w", encoding="utf-8") as f:
                f.write(made)
            changed += 1
    print(f"{len(turned)} names, {changed} files")
    return 0


if __name__ == "__main__":
    raise SystemExit(main(sys.argv[1:]))
