#!/usr/bin/env python3
"""docs/RULES.md and docs/READING.md held against the definitions in crates/*/specs.

docs/rules.py --check   each definition that RULES.md names stands in the file named beside it; RULES.md names every definition that
                        the contract of an entry point of READING.md rests on; READING.md names every file of definitions, and no
                        document names one that is not there; the causes in RULES.md, call by call, are those of causes.txt.
docs/rules.py --write   puts the file of each definition that has moved right in RULES.md.
"""
import glob
import os
import re
import sys

ROOT = os.path.dirname(os.path.dirname(os.path.abspath(__file__)))
sys.path.insert(0, ROOT)
sys.dont_write_bytecode = True
import causes
DEFINITION = re.compile(r"^\s*(?:unfoldable|abbrev) pub (\S+) :|^pub (?:record|data) (\S+)")
IMPORT = re.compile(r"^(?:ghost |pub )?use Rattle\.([a-z_]+)\.specs\.(\w+)(?:\.\{([^}]*)\}| as (\w+))")
WORD = re.compile(r"[^\s(){}\[\].,;`]+")
CITED = re.compile(r"\[`([a-z_]+/specs/\w+\.antt)`: ((?:`[^`]+`(?:, )?)+)\]")
FILE = re.compile(r"`(?:crates/)?([a-z_]+/specs/\w+\.antt)`")
TRIED = re.compile(r"^\| `(\w+)` \| (\d+(?:, \d+)*) \|$", re.M)
# Documents that speak of what is so now; landing notes and decisions speak of their day.
NOW = ["README.md", "CONTRIBUTING.md", "docs/READING.md", "docs/FORMAT.md", "docs/ARCHITECTURE.md"]

FAULTS = []


def fault(words):
    FAULTS.append(words)


def read(path):
    with open(os.path.join(ROOT, path), encoding="utf-8") as file:
        return file.read()


def paths(pattern):
    return sorted(os.path.relpath(path, ROOT) for path in glob.glob(os.path.join(ROOT, pattern)))


def imports(text):
    """Which file each imported name comes from."""
    where = {}
    for line in text.splitlines():
        if match := IMPORT.match(line):
            crate, module, names, alias = match.groups()
            for name in [name.strip() for name in names.split(",")] if names else [alias]:
                source, _, here = name.partition(" as ")
                where[here or source] = (f"{crate}/specs/{module}.antt", source)
    return where


def named(word, file, where, known):
    """The definition that a word means in a file: its own, or an imported one, which may have been handed on."""
    here = where.get(word, (file, word))
    while here not in known and os.path.exists(os.path.join(ROOT, "crates", here[0])):
        further = imports(read("crates/" + here[0])).get(here[1])
        if further is None:
            return None
        here = further
    return here if here in known else None


def definitions():
    """Every definition by file and name, with the definitions that its text names."""
    texts = {}
    for path in paths("crates/*/specs/*.antt"):
        file = path.removeprefix("crates/")
        name = None
        for line in read(path).splitlines():
            if match := DEFINITION.match(line):
                name = match.group(1) or match.group(2)
                texts[file, name] = []
            if name and not line.lstrip().startswith("--"):
                texts[file, name].append(line)
    rests = {}
    for (file, name), lines in texts.items():
        where = imports(read("crates/" + file))
        words = {word for line in lines for word in WORD.findall(line)}
        rests[file, name] = {named(word, file, where, texts) for word in words} - {None, (file, name)}
    return rests


def contracts(reading, known):
    """The definitions that the contracts of READING.md's entry points cite."""
    table = reading.split("## Contracts")[1].split("\n## ")[0]
    entries = [entry for line in table.splitlines() if line.startswith("| `") for entry in re.findall(r"`([\w:]+)`", line.split(" | ")[0])]
    cited = set()
    for entry in entries:
        crate, _, function = entry.rpartition("::")
        sources = [read(path) for path in paths(f"crates/{crate or 'capi'}/src/*.rt")]
        heads = [(text, match.group(1)) for text in sources
                 for match in re.finditer(rf"\bfn {function}\b((?:(?!\bfn ).)*?)\n *{{\n", text, re.S) if " ensures " in match.group(1)]
        if len(heads) != 1:
            fault(f"READING.md: `{entry}` is no function with a contract")
            continue
        text, head = heads[0]
        where = imports(text)
        cited |= {named(word, "", where, known) for word in WORD.findall(head) if word in where}
    return cited - {None}


def rested_on(reading, rests):
    """All definitions that the contracts of READING.md's entry points rest on."""
    wanted, left = set(), contracts(reading, rests)
    while left:
        wanted |= left
        left = {below for above in left for below in rests[above]} - wanted
    return wanted


def moved(rules, known, wanted):
    """RULES.md with the file that each definition has now. Where two files define the name, that of the contracts is meant."""
    def bracket(match):
        file, names = match.group(1), re.findall(r"`([^`]+)`", match.group(2))
        groups = []
        for name in names:
            there = file
            if (file, name) not in known:
                found = [f for f, n in wanted if n == name] or [f for f, n in known if n == name]
                there = found[0] if len(found) == 1 else file
            if groups and groups[-1][0] == there:
                groups[-1][1].append(name)
            else:
                groups.append((there, [name]))
        return " ".join(f"[`{f}`: {', '.join(f'`{n}`' for n in ns)}]" for f, ns in groups)
    return CITED.sub(bracket, rules)


def check():
    rules, reading, rests = read("docs/RULES.md"), read("docs/READING.md"), definitions()
    cited = {(file, name) for file, names in CITED.findall(rules) for name in re.findall(r"`([^`]+)`", names)}
    for file, name in sorted(cited - rests.keys()):
        fault(f"RULES.md: {file} has no definition {name}")
    wanted = rested_on(reading, rests)
    for file, name in sorted(wanted - cited):
        fault(f"RULES.md names no rule for {file} {name}, which a contract rests on")
    files = {path.removeprefix("crates/") for path in paths("crates/*/specs/*.antt") if not path.endswith("/Lib.antt")}
    for file in sorted(files - set(FILE.findall(reading))):
        fault(f"READING.md does not name {file}")
    for document in NOW:
        for file in sorted(set(FILE.findall(read(document))) - files):
            fault(f"{document}: there is no {file}")
    told = {call: [int(number) for number in numbers.split(", ")] for call, numbers in TRIED.findall(rules)}
    for call in causes.read_table(read("causes.txt")).calls:
        if told.pop(call.name, None) != call.numbers[1:]:
            fault(f"RULES.md has other causes for {call.name} than causes.txt: {call.numbers[1:]}")
    for call in told:
        fault(f"RULES.md has causes for {call}, which is no call of causes.txt")
    for words in FAULTS:
        print(words)
    print(f"{len(cited)} definitions named by RULES.md, {len(wanted)} rested on by contracts, {len(FAULTS)} faults")
    return 1 if FAULTS else 0


if sys.argv[1:] == ["--check"]:
    sys.exit(check())
elif sys.argv[1:] == ["--write"]:
    known = definitions()
    text = moved(read("docs/RULES.md"), known, rested_on(read("docs/READING.md"), known))
    with open(os.path.join(ROOT, "docs/RULES.md"), "w", encoding="utf-8") as file:
        file.write(text)
else:
    sys.exit(__doc__)
