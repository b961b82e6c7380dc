#!/usr/bin/env python3
"""Brings the repository's own definitions and lemmas to the spelling of today's Rattle: words in snake case.

usage: python3 tools/respell.py        at the top of the repository, once, after the kit's port.py
       python3 tools/respell.py -n     tells what it would rename and changes nothing

A definition of specs/ or of a file of proofs/ in camel case with a small first letter goes to snake case. In a lemma's name a
dash stays before the name of a definition (`day_list-length`) and becomes `_` before a plain word (`elem_here`). Names of
functions of src/, strings, inputs and outputs keep their spelling. A new name that stands already is told and left."""
import collections
import glob
import re
import sys

TOKEN = re.compile(r"[^\s(){}\[\].,;:`\"]+")
SIGNATURE = re.compile(r"^( {0,8})((?:unfoldable |abbrev |pub )*)([^\s:(){},;]+)((?: \{ℓ\})?) :(?:\s|$)")
# Words of the library that a lemma is about.
LIBRARY = set("append length take drop map reverse eqb leb ltb cond min max get_or set elem and or not".split())
# `first_of` is a tactic now; the others are parameters of modules.
FIXED = {"first_of": "first_cause", "hasSession": "has_session", "numbersAfter": "numbers_after", "sessionCall": "session_call"}
# Lemmas to which port.py gave the name that a definition has now: back to their dash.
DASHED = {"high_after": "crates/history/proofs/Simulation.antt", "name_in": "crates/naming/proofs/*.antt crates/loader/proofs/*.antt"}
TEXTS = ["README.md", "CONTRIBUTING.md"] + ["docs/%s.md" % n for n in "ARCHITECTURE DECISIONS FORMAT READING RULES".split()]


def snake(word):
    return re.sub(r"(?<=[a-z0-9])([A-Z])(?=[a-z0-9']|$)", lambda m: "_" + m.group(1).lower(), word)


def files():
    return sorted(glob.glob("crates/*/specs/*.antt") + glob.glob("crates/*/proofs/**/*.antt", recursive=True)
                  + glob.glob("crates/*/src/**/*.rt", recursive=True) + glob.glob("crates/*/must-fail/*.edit"))


def definitions():
    found = collections.defaultdict(set)
    for path in glob.glob("crates/*/specs/*.antt") + glob.glob("crates/*/proofs/*.antt"):
        for line in open(path, encoding="utf-8"):
            m = SIGNATURE.match(line)
            if m:
                found[m.group(3)].add("specs" if "/specs/" in path else "proofs")
    return found


def in_answers():
    found = set()
    for path in glob.glob("crates/*/proofs/*/**/*.antt", recursive=True):
        for line in open(path, encoding="utf-8"):
            m = SIGNATURE.match(line)
            if m and re.search(r"[a-z0-9][A-Z]", m.group(3)):
                found.add(m.group(3))
    return found


def renamings():
    own = definitions()
    turned = {}
    for name in list(own) + sorted(in_answers()):
        if name[0].islower() and re.search(r"[a-z0-9][A-Z]", name.split("-")[0]):
            turned[name.split("-")[0]] = snake(name.split("-")[0])
    specs = {turned.get(n, n) for n, where in own.items() if "specs" in where}
    names = {}
    for name in list(own) + sorted(in_answers()):
        parts = [turned.get(p, snake(p) if p[0].islower() else p) if p else p for p in name.split("-")]
        new = parts[0]
        for part in parts[1:]:
            new += ("-" if part in specs or part in LIBRARY else "_") + part
        if new != name and "-" not in name[:1]:
            names[name] = new
    names.update(FIXED)
    return names


def main():
    for name, paths in DASHED.items():
        for path in [path for pattern in paths.split() for path in glob.glob(pattern)]:
            text = open(path, encoding="utf-8").read()
            open(path, "w", encoding="utf-8").write(TOKEN.sub(lambda m: name.replace("_", "-") if m.group(0) == name else m.group(0), text))
    names = renamings()
    whole, loose = collections.Counter(), collections.defaultdict(set)
    for path in files():
        text = open(path, encoding="utf-8").read()
        whole.update(TOKEN.findall(text))
        if path.endswith(".antt"):
            for m in TOKEN.finditer(text):
                if text[m.start() - 1:m.start()] not in (".", ":") and text[m.end():m.end() + 1] != ".":
                    loose[m.group(0)].add(path)
    for old in sorted(names, key=lambda n: ("-" in n, n)):
        new = names[old]
        # A definition may have the name of the function that answers it; no two definitions, and no variable beside one.
        clash = whole[new] if "-" in old else loose[new] & loose[old]
        if clash or sum(new == n for o, n in names.items() if o != old and ("-" not in o or "-" in old)):
            print("left: %s, since %s stands already" % (old, new))
            del names[old]
    if "-n" in sys.argv:
        for old in sorted(names):
            print("%s\t%s" % (old, names[old]))
        return
    changed = 0
    for path in files() + TEXTS:
        text = open(path, encoding="utf-8").read()
        name = lambda m: names.get(m.group(0), m.group(0))
        if path.endswith(".md"):
            new = re.sub(r"`[^`\n]+`", lambda m: TOKEN.sub(name, m.group(0)), text)
        elif path.endswith(".rt"):
            new = "".join(part if i % 2 else TOKEN.sub(name, part) for i, part in enumerate(re.split(r"(\"(?:[^\"\\]|\\.)*\")", text)))
        else:
            new = TOKEN.sub(name, text)
        if new != text:
            open(path, "w", encoding="utf-8").write(new)
            changed += 1
    print("%d names, %d files" % (len(names), changed))


main()
