#!/usr/bin/env python3
"""Counts the places that docs/DESIGN-PASS.md speaks of, point by point, in the sources of the crates.

usage: docs/places.py [FOLDER]      the counts, and where they are, of this checkout or of another
       docs/places.py --short [..]  the counts alone

A place is kept where a comment `Kept:` stands in its item, the lines between two empty ones, or in the file's first; such a comment that
speaks of the casts or the facts of this file keeps all of these. Beside each count stands how many of the places are kept.
"""

import re
import sys
from collections import defaultdict
from pathlib import Path
from typing import Dict, Iterator, List, NamedTuple, Set, Tuple

ROOT = Path(__file__).resolve().parent.parent


class Place(NamedTuple):
    file: str
    line: int
    text: str
    kept: bool


class Source(NamedTuple):
    file: str
    text: str  # as it stands
    code: str  # without comments, as many lines
    kept: Set[int]  # the lines of the items that are kept
    all_kept: Set[str]  # "casts", "facts": those of the whole file are kept


class Function(NamedTuple):
    source: Source
    name: str
    comment: str
    head: str
    body: str
    start: int


def sources(root: Path) -> List[Source]:
    found = []
    for path in sorted((root / "crates").glob("*/src/**/*.rt")):
        text = path.read_text()
        code = re.sub(r"(?m)^(\s*)//.*$", r"\1", text)
        found.append(Source(str(path.relative_to(root)), text, code, kept_lines(text), set(ALL_KEPT.findall(text))))
    return found


ALL_KEPT = re.compile(r"// Kept: the (casts|facts) of this file\b")


def kept_lines(text: str) -> Set[int]:
    kept: Set[int] = set()
    start = 1
    for item in text.split("\n\n"):
        end = start + item.count("\n") + 1
        if "// Kept:" in ALL_KEPT.sub("", item):
            if start == 1:
                return set(range(1, text.count("\n") + 2))
            kept |= set(range(start, end))
        start = end + 1
    return kept


def place(source: Source, start: int, text: str) -> Place:
    line = source.code.count("\n", 0, start + len(text) - len(text.lstrip())) + 1
    return Place(source.file, line, " ".join(text.split())[:90], line in source.kept)


def loops(all_sources: List[Source]) -> List[Place]:
    """The words `while` and `loop` outside of texts."""
    text = re.compile(r'b?"(?:\\.|[^"\\])*"')
    bare = [s._replace(code=text.sub(lambda m: re.sub(r"[^\n]", " ", m[0]), s.code)) for s in all_sources]
    return matches(bare, r"\b(?:while|loop)\b")


def matches(all_sources: List[Source], pattern: str, in_files: str = "") -> List[Place]:
    return [
        place(source, match.start(), match.group(0))
        for source in all_sources
        if re.search(in_files, source.file)
        for match in re.finditer(pattern, source.code)
    ]


def functions(source: Source) -> Iterator[Function]:
    for match in re.finditer(r"(?m)^ *(?:pub(?:\(\w+\))? )?(?:extern \"C\" )?fn (\w+)", source.code):
        open_at = body_start(source.code, match.end())
        if open_at < 0:
            continue
        end = closing(source.code, open_at)
        before = source.text[: offset_of_line(source.text, source.code.count("\n", 0, match.start()))]
        comment = re.search(r"((?:^ *(?://|#\[).*\n)*)\Z", before, re.M)
        yield Function(
            source,
            match[1],
            comment[1] if comment else "",
            source.code[match.start() : open_at],
            source.code[open_at:end],
            match.start(),
        )


def offset_of_line(text: str, line: int) -> int:
    at = 0
    for _ in range(line):
        at = text.index("\n", at) + 1
    return at


def body_start(code: str, at: int) -> int:
    """The brace that opens the body: the first one that is alone on its line, or ends the line of the head."""
    clause = re.compile(r"\b(?:requires|ensures\*?)\b[^{;]*\{")
    while True:
        brace = code.find("{", at)
        stop = code.find(";", at)
        if brace < 0 or (0 <= stop < brace and "[" not in code[at:stop]):
            return -1
        found = clause.search(code, at)
        if found and found.end() - 1 == brace:
            at = closing(code, brace)
            continue
        return brace


def closing(code: str, brace: int) -> int:
    depth = 0
    for i in range(brace, len(code)):
        if code[i] == "{":
            depth += 1
        elif code[i] == "}":
            depth -= 1
            if depth == 0:
                return i + 1
    return len(code)


def enums(source: Source) -> Iterator[Tuple[int, str, str]]:
    for match in re.finditer(r"\benum (\w+)[^{;]*\{", source.code):
        end = closing(source.code, match.end() - 1)
        yield match.start(), match[1], source.code[match.end() : end]


NONE = {"Bad", "Failed", "Missing", "Nothing", "NoCall", "Unknown", "Refused", "Wrong", "NotEmpty", "WrongLength", "No"}


def own_results(all_sources: List[Source]) -> List[Place]:
    found = []
    for source in all_sources:
        for start, name, body in enums(source):
            variants = re.findall(r"(?m)^\s*(\w+)", body)
            if NONE & set(variants):
                found.append(place(source, start, f"enum {name}"))
    return found


def flags(all_sources: List[Source]) -> List[Place]:
    return matches(all_sources, r"(?m)^ +pub (?:number: u16|is_\w+: bool|begins: bool|passed: bool),")


CODES = r"(?m)^(?:pub )?const (?:%s): (?:u8|u16|u32|i32) ="
CODE_NAMES = {
    r"base/src/causes": r"[A-Z_]+",
    r"calls/src/lib": r"START|SESSION|ANNOUNCE|KINDS",
    r"fields/src/lib": r"DAY_TAG|SERIES_TAG",
    r"lookup(?:_c)?/src/lib": r"OUTSIDE",
    r"phrases/src/lib": r"CALL|PUT",
    r"commands/src/table": r"(?!FORMS|LISTED)[A-Z_]+",
    r"commands/src/options": r"[A-Z_]+",
    r"guard/src/": r"[A-Z_]+",
    r"terminal/src/": r"DAY|CLOSE|MONTH|PRICE|DONE|REFUSED|TROUBLE",
    r"system/src/errors": r"E[A-Z]+",
    r"audit/src/lib": r"ROW_COUNT",
}


def codes(all_sources: List[Source]) -> List[Place]:
    return [found for file, names in CODE_NAMES.items() for found in matches(all_sources, CODES % names, file)]


SENTINEL = re.compile(
    r"where (?:there is |there are )?none|where there is no |0 where|; 0 |0 past|none where|or the end|or the number of all|the length where"
    r"|\bor 0\b|Answers? false where|False where|`\w+` where there is|where it (?:is|does) not|where that (?:is trouble|fails)|told already",
    re.I,
)


def all_functions(all_sources: List[Source]) -> Iterator[Function]:
    for source in all_sources:
        yield from functions(source)


def sentinels(all_sources: List[Source]) -> List[Place]:
    """Functions whose comment speaks of a value that stands for none, or of trouble that was told, and that answer no Option or Result."""
    found = []
    for f in all_functions(all_sources):
        result = re.search(r"->\s*([^{]*?)\s*(?:requires|ensures|where|$)", f.head, re.S)
        kind = result[1].strip() if result else ""
        if kind and not re.match(r"(?:io::)?(?:Option|Result)\b", kind) and SENTINEL.search(f.comment):
            found.append(place(f.source, f.start, f"{f.name} -> {kind}"))
    return found


def troubles(all_sources: List[Source]) -> List[Place]:
    """Functions that answer by a number or a bool that trouble was told."""
    trouble = r"\bTROUBLE\b|(?:complain\w*|fail|trouble|not_run)\([^;]*;\s*(?:return )?(?:false|0)\b"
    return [
        place(f.source, f.start, f.name)
        for f in all_functions(all_sources)
        if re.search(r"-> (?:bool|i32|usize|u32)\b", f.head) and re.search(trouble, f.body)
    ]


def twins(all_sources: List[Source]) -> List[Place]:
    """Functions whose bodies are the same but for names, numbers and texts."""
    groups: Dict[str, List[Place]] = defaultdict(list)
    for source in all_sources:
        for f in functions(source):
            names: Dict[str, str] = {}
            shape = []
            for token in re.findall(r'b?"(?:\\.|[^"\\])*"|b?\'(?:\\.|[^\'\\])\'|\w+|[^\s\w]', f.body):
                if re.match(r"[a-z_]\w*$", token) and token not in KEYWORDS:
                    token = names.setdefault(token, f"n{len(names)}")
                elif re.match(r"b?['\"0-9]|[A-Z_]+$", token):
                    token = "c"
                shape.append(token)
            if 14 <= len(shape):
                groups[" ".join(shape)].append(place(source, f.start, f.name))
    return [found for group in groups.values() if 1 < len(group) for found in group]


KEYWORDS = set("let mut if else while for in match return as fn pub use struct enum impl self true false".split())


def parameters(f: Function) -> int:
    inner = f.head[f.head.index("(") + 1 :]
    inner = re.split(r"\)\s*(?:->|requires|ensures|$)", inner)[0]
    inner = re.sub(r"<[^<>]*>|\[[^\[\]]*\]", "", inner)
    return len([part for part in inner.split(",") if part.strip()])


def crowded(all_sources: List[Source]) -> List[Place]:
    return [
        place(f.source, f.start, f"{f.name}, {parameters(f)} parameters")
        for f in all_functions(all_sources)
        if "(" in f.head and 6 <= parameters(f)
    ]


def casts(all_sources: List[Source]) -> List[Place]:
    return with_all_kept("casts", all_sources, matches(all_sources, r"\bas (?:u8|u16|u32|u64|usize|i32|i64)\b"))


def with_all_kept(what: str, all_sources: List[Source], found: List[Place]) -> List[Place]:
    files = {source.file for source in all_sources if what in source.all_kept}
    return [place._replace(kept=place.kept or place.file in files) for place in found]


def repeated_facts(all_sources: List[Source]) -> List[Place]:
    """The conjuncts of `requires` that three or more functions share, each place of them."""
    facts: Dict[str, List[Place]] = defaultdict(list)
    for source in all_sources:
        for f in functions(source):
            for clause in re.findall(r"requires\s*\w*\s*\{(.*)\}", f.head):
                for fact in clause.split("×"):
                    fact = re.sub(r"^[\s(]+|[\s)]+$", "", fact)
                    fact = re.sub(r"\.(?:now|old)\b", "", fact)
                    if fact:
                        facts[fact].append(place(source, f.start, f"{f.name}: {fact}"))
    return with_all_kept("facts", all_sources, [found for group in facts.values() if 3 <= len(group) for found in group])


POINTS = [
    ("1", "own enums of the shape of Option or Result", own_results),
    ("1", "a number or a flag with a value beside it, in a struct", flags),
    ("1", "numbers and letters for kinds, refusals, statuses", codes),
    ("1", "values that stand for none or for trouble", sentinels),
    ("1", "functions that answer told trouble by a bool or a number", troubles),
    ("2", "functions alike but for names, numbers and texts", twins),
    ("3", "while and loop", loops),
    ("4", "numbers taken apart or put together by hand", lambda s: matches(s, r"% 256\)? as u8|/ 256\)? as u8|256 \* \(")),
    ("4", "comparisons by hand", lambda s: matches(s, r"\bfn (?:same|is_same\w*|same_\w+|less|more|lower|higher|first_byte|is_digit|begins)\b")),
    ("4", "casts", casts),
    ("5", "facts that three or more functions require", repeated_facts),
    ("5", "functions of six parameters or more", crowded),
    ("6", "a buffer and where to go on in it", lambda s: matches(s, r"\bout: &mut \[u8\]|\bbuffer: &mut \[u8\]")),
    ("6", "a buffer whose length is kept beside it", lambda s: matches(s, r"let mut \w+ = (?:system::(?:large_)?buffer\(\)|\[0(?:u8)?; \w+\])")),
    ("6", "parallel lists of calls", lambda s: matches(s, r"\bkinds: &(?:mut )?\[u8\]|\bcounts: &(?:mut )?\[u8\]|\bpool: &(?:mut )?\[\[u32; 2\]\]|pairs: &\[\[u32; 2\]\]")),
    ("7", "switches on a number that says what to do", lambda s: matches(s, r"\bmatch (?:command|what|kind|letter|number|which|place|form)\b|\bif (?:command|kind|what|which|form|change) ==")),
]


def main(arguments: List[str]) -> None:
    short = "--short" in arguments
    folders = [argument for argument in arguments if argument != "--short"]
    if len(folders) > 1:
        sys.exit(__doc__)
    all_sources = sources(Path(folders[0]) if folders else ROOT)
    for point, what, count in POINTS:
        found = count(all_sources)
        kept = sum(where.kept for where in found)
        print(f"point {point}: {len(found):4} {kept:4} kept  {what}")
        if not short:
            for where in found:
                print(f"    {where.file}:{where.line}: {where.text}{' (kept)' if where.kept else ''}")


if __name__ == "__main__":
    main(sys.argv[1:])
