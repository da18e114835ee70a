#!/usr/bin/env python3
"""Brings this repository's own definitions and lemmas to snake case, as `placeAt` to `place_at`.

usage: python3 tools/respell.py [--list]      at the top, once, right after the kit's port.py

Words of code, types, modules, strings of programs, inputs and outputs keep their names. --list prints the names, old and new, and the new
ones that stood already, which may fall together.
"""

import os
import re
import sys

CAMEL = re.compile(r"(?<![\w'])([a-z][a-z0-9]*(?:[A-Z][a-zA-Z0-9]*)+)(?![\w'])")
# Names bound in one lemma, and the standard library's.
KEPT = {"hF", "hM"}
# Where the plain form is taken, by the standard library or by a field.
TAKEN = {"ltZ": "z_lt", "leZ": "z_le", "eqZ": "z_eq", "minZ": "z_min", "maxZ": "z_max", "inOrder": "in_their_order"}
# Laws whose name port.py brought to that of a definition in the same file: there they keep their hyphens.
LAWS = ["as_seen", "from_end", "high_across", "labels_in", "laid_out", "last_on", "mask_of", "no_pin", "on_sides", "out_of_range", "place_at",
        "reach_of", "same_place"]


def snake(name):
    if name in KEPT:
        return name
    if name in TAKEN:
        return TAKEN[name]
    return re.sub(r"([A-Z]+)", lambda m: "_" + m.group(1).lower(), name)


def with_laws(path, text):
    """The text of a file under proofs/, its own laws and those it imports under names that no definition gets."""
    if not path.endswith(".antt") or "/proofs/" not in path:
        return text
    for law in LAWS:
        here = re.search(r"(?m)^ *(pub |unfoldable )*" + law + r" :", text)
        taken = re.search(r"use Rattle\.\w+\.proofs\.[\w.]+\{[^}]*(?<![\w.'-])" + law + r"(?![\w'-])", text)
        if here or taken:
            text = re.sub(r"(?<![\w.'-])" + law + r"(?![\w'-])", law.replace("_", "-"), text)
    return text


def texts():
    for folder, dirs, files in os.walk("crates"):
        dirs[:] = sorted(d for d in dirs if d != "out")
        for file in sorted(files):
            if file.endswith((".rt", ".antt", ".edit")):
                yield os.path.join(folder, file)


def main():
    old = {}
    words = {}
    for path in texts():
        with open(path, encoding="utf-8") as f:
            text = f.read()
        for m in CAMEL.finditer(text):
            old[m.group(1)] = snake(m.group(1))
        if path.endswith(".antt"):
            for w in re.findall(r"[a-z][a-z0-9_]*", text):
                words.setdefault(w, set()).add(path)
    if "--list" in sys.argv:
        for name, new in sorted(old.items()):
            there = sorted(words.get(new, ()))
            print(name, new, *(["stands already:", *there[:4], f"({len(there)})"] if there and name != new else []))
        twice = {}
        for name, new in old.items():
            twice.setdefault(new, []).append(name)
        for new, names in twice.items():
            if len(names) > 1:
                print("fall together:", new, *names)
        return
    for path in texts():
        with open(path, encoding="utf-8") as f:
            text = f.read()
        new = CAMEL.sub(lambda m: snake(m.group(1)), with_laws(path, text))
        if new != text:
            with open(path, "w", encoding="utf-8") as f:
                f.write(new)


main()
