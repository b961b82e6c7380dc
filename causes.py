#!/usr/bin/env python3
"""Makes from causes.txt what header, bindings, code and tests say of causes and of calls' numbers.

usage: ./causes.py          writes it
       ./causes.py --check  fails where a file says something else, and shows what
"""

import difflib
import re
import sys
from configparser import ConfigParser
from configparser import Error as ParserError
from pathlib import Path
from textwrap import wrap
from typing import Callable, Dict, List, NamedTuple, Optional, Set, Tuple

ROOT = Path(__file__).resolve().parent
TABLE = "causes.txt"
MADE = "Made from causes.txt by causes.py."
WIDTH = 100


class Wrong(Exception):
    """Something in the table, or in a file that is to hold a part of it."""


# The table


class Value(NamedTuple):
    """What is told beside a cause's number."""

    name: str
    type: str
    meaning: str


class Cause(NamedTuple):
    number: int
    name: str
    words: str
    header: str
    values: List[Value]
    told: str

    def title(self) -> str:
        """SESSION_DAY as SessionDay."""
        return title_of(self.name)

    def tells_date(self) -> Optional[str]:
        """The value that is told as a date."""
        date = re.search(r"{(\w+):date}", self.told)
        return date and date[1]


class Call(NamedTuple):
    name: str
    text: str
    numbers: List[int]

    def title(self) -> str:
        return title_of(self.name)


class Table(NamedTuple):
    causes: List[Cause]
    calls: List[Call]


def title_of(name: str) -> str:
    return "".join(word.capitalize() for word in name.split("_"))


def sentence(words: str) -> str:
    return words[0].upper() + words[1:] + "."


def read_table(text: str) -> Table:
    parser = ConfigParser(interpolation=None, delimiters=("=",), comment_prefixes=("#",))
    try:
        parser.read_string(text, TABLE)
    except ParserError as error:
        raise Wrong(str(error)) from None
    sections = [name for name in parser.sections() if name != "calls"]
    causes = sorted(read_cause(name, dict(parser[name])) for name in sections)
    for one, next_one in zip(causes, causes[1:]):
        if one.number == next_one.number:
            raise Wrong(f"{TABLE}: two causes have the number {one.number}")
    for what in ("name", "words"):
        if len({getattr(cause, what) for cause in causes}) < len(causes):
            raise Wrong(f"{TABLE}: two causes have the same {what}")
    if not parser.has_section("calls") or not causes:
        raise Wrong(f"{TABLE}: there are no causes or no calls")
    known = {cause.number for cause in causes}
    calls = [read_call(name, " ".join(text.split()), known) for name, text in parser["calls"].items()]
    for cause in causes:
        if not any(cause.number in call.numbers for call in calls):
            raise Wrong(f"{TABLE}: no call tries {cause.number}")
    return Table(causes, calls)


def read_cause(section: str, fields: Dict[str, str]) -> Cause:
    head = re.fullmatch(r"(\d+) ([A-Z][A-Z_]*[A-Z])", section)
    if not head:
        raise Wrong(f"{TABLE}: [{section}] is neither [calls] nor a number and a name")
    other = set(fields) - {"words", "header", "values", "told"}
    if other or "words" not in fields or ("values" in fields) != ("told" in fields):
        raise Wrong(f"{TABLE}: [{section}] needs words, may have header, or values and told with them")
    words, header, told = (" ".join(fields.get(name, "").split()) for name in ("words", "header", "told"))
    values = [read_value(section, line) for line in fields.get("values", "").splitlines() if line]
    names = re.findall(r"{(\w+)(?::date)?}", told)
    if re.search(r'["\\{}]', words + re.sub(r"{\w+(:date)?}", "", told)) or told.count(":date") > 1:
        raise Wrong(f"{TABLE}: [{section}] has a sign in its words that cannot stand there")
    if set(names) != {value.name for value in values}:
        raise Wrong(f"{TABLE}: [{section}] tells other values than it has")
    return Cause(int(head[1]), head[2], words, header or sentence(words), values, told)


def read_value(section: str, line: str) -> Value:
    value = re.fullmatch(r"([a-z_]+) (u16|u32), (.+)", line)
    if not value:
        raise Wrong(f"{TABLE}: [{section}]: a value is as in 'month u16, the first such month'")
    return Value(*value.groups())


def read_call(name: str, text: str, known: Set[int]) -> Call:
    if not re.fullmatch(r"[a-z_]+", name) or re.search(r"[.:*]", text):
        raise Wrong(f"{TABLE}: {name} is no call, or its line has more than one sentence")
    numbers: List[int] = []
    for first, last in re.findall(r"\b(\d+)(?: to (\d+))?", text):
        for number in range(int(first), int(last or first) + 1):
            if number not in known | {0}:
                raise Wrong(f"{TABLE}: {name} has {number}, which is no cause")
            if number not in numbers:
                numbers.append(number)
    return Call(name, text, numbers)


# C


def replaced_once(what: str, pattern: str, new: Callable, text: str) -> str:
    """The text with the one place that the pattern matches made anew."""
    text, count = re.subn(pattern, new, text, flags=re.DOTALL)
    if count != 1:
        raise Wrong(f"{what} is there {count} times, not once")
    return text


def c_comment(text: str, indent: str) -> str:
    # The end stands with the last word.
    lines = wrap(
        f"{text}\0*/",
        WIDTH - 3,
        initial_indent=f"{indent}/* ",
        subsequent_indent=f"{indent} * ",
        break_long_words=False,
        break_on_hyphens=False,
    )
    return "\n".join(lines).replace("\0", " ")


def header(table: Table, text: str) -> str:
    parts = [
        f"{c_comment(cause.header, '    ')}\n    SINDHOPUL_CAUSE_{cause.name} = {cause.number}"
        for cause in table.causes
    ]
    enum = ",\n".join(["enum {\n    SINDHOPUL_ACCEPTED = 0"] + parts) + "\n};\n"
    text = replaced_once(
        "the header's enum", r"enum {\n    SINDHOPUL_ACCEPTED.*?\n};\n", lambda _: enum, text
    )
    for call in table.calls:
        text = header_call(call, text)
    if text.count("Numbers:") != len(table.calls):
        raise Wrong(f"the header tells the numbers of a call that {TABLE} does not have")
    return text


def header_call(call: Call, text: str) -> str:
    """The header with the numbers in the comment of a call made anew."""

    def comment(match: re.Match) -> str:
        told = replaced_once(
            f"'Numbers:' in the comment of sindhopul_{call.name}",
            r"Numbers:[^.:]*",
            lambda _: f"Numbers: {call.text}",
            " ".join(re.sub(r"\n \*", "", match[1]).split()),
        )
        return f"{c_comment(told, '')}\n{match[2]}"

    name = f"sindhopul_{call.name}"
    return replaced_once(
        f"the comment of {name} in the header",
        rf"/\* ((?:(?!\*/).)*) \*/\n(\w+ {name}\()",
        comment,
        text,
    )


# Rust, laid out as rustfmt does it


def rust_comment(text: str, indent: str) -> List[str]:
    return wrap(text, WIDTH, initial_indent=f"{indent}/// ", subsequent_indent=f"{indent}/// ")


def rust_fields(head: str, fields: List[str], tail: str, indent: str) -> List[str]:
    """A variant with values for its fields: on one line where it is short."""
    if not fields:
        return [f"{indent}{head}{tail}"]
    inner = ", ".join(fields)
    if len(inner) <= 18 and len(f"{indent}{head} {{ {inner} }}{tail}") <= WIDTH:
        return [f"{indent}{head} {{ {inner} }}{tail}"]
    return [f"{indent}{head} {{", *(f"{indent}    {field}," for field in fields), f"{indent}}}{tail}"]


def rust_pattern(cause: Cause) -> str:
    names = ", ".join(value.name for value in cause.values)
    return f"Self::{cause.title()}" + (f" {{ {names} }}" if names else "")


def rust_string(text: str, indent: str) -> str:
    """A string, over several lines where it is long. The last one is followed by a comma."""
    lines = wrap(
        text,
        WIDTH - len(indent) - 3,
        break_long_words=False,
        break_on_hyphens=False,
    )
    return f'{indent}"' + f" \\\n{indent} ".join(lines) + '"'


def rust_display(cause: Cause) -> List[str]:
    """The arm that writes a cause's words."""
    indent, inner, innermost = 12 * " ", 16 * " ", 20 * " "
    head = f"{indent}{rust_pattern(cause)} =>"
    if not cause.values:
        call = f'f.write_str("{cause.words}")'
        if len(f"{head} {call},") <= WIDTH:
            return [f"{head} {call},"]
        if len(f"{inner}{call}") <= WIDTH:
            return [f"{head} {{", f"{inner}{call}", f"{indent}}}"]
        return [f"{head} f.write_str(", f"{rust_string(cause.words, inner)},", f"{indent}),"]
    date = cause.tells_date()
    words = re.sub(r"{\w+:date}", "{year}-{month_of_year:02}", cause.told)
    before = (
        [f"{inner}let (year, month_of_year) = (2000 + {date} / 12, {date} % 12 + 1);"] if date else []
    )
    arguments = f'f, "{words}"'
    if len(arguments) <= 60:
        if not date and len(f"{head} write!({arguments}),") <= WIDTH:
            return [f"{head} write!({arguments}),"]
        written = [f"{inner}write!({arguments})"]
    else:
        written = [f"{inner}write!(", f"{innermost}f,", rust_string(words, innermost), f"{inner})"]
    return [f"{head} {{", *before, *written, f"{indent}}}"]


def rust_refusal(table: Table, _: str) -> str:
    lines = f"""\
// {MADE}

use std::error::Error;
use std::fmt::{{self, Display, Formatter}};

/// Why a call was refused. Nothing was changed by it.
///
/// The causes have the names of `include/sindhopul.h`, and their order is that of their numbers,
/// from {table.causes[0].number} to {table.causes[-1].number}. Where several hold, the header says for each call which is told.
#[derive(Debug, Clone, Copy, PartialEq, Eq, Hash)]
#[non_exhaustive]
pub enum Refusal {{""".splitlines()
    for cause in table.causes:
        lines += rust_comment(f"{cause.number}: {cause.words}.", "    ")
        lines.append(f"    {cause.title()}" + (" {" if cause.values else ","))
        for value in cause.values:
            lines += rust_comment(sentence(value.meaning), "        ")
            lines.append(f"        {value.name}: {value.type},")
        lines += ["    },"] if cause.values else []
    lines += """\
}

impl Refusal {
    /// What a call's number tells, with the values beside it.
    pub(crate) fn unless_accepted(number: u16, values: &[u32]) -> Result<(), Self> {
        Err(match number {
            0 => return Ok(()),""".splitlines()
    for cause in table.causes:
        fields = [
            f"{value.name}: values[{place}]" + (" as u16" if value.type == "u16" else "")
            for place, value in enumerate(cause.values)
        ]
        lines += rust_fields(f"{cause.number} => Self::{cause.title()}", fields, ",", 12 * " ")
    lines += """\
            _ => unreachable!("no call returns {number}"),
        })
    }

    /// The cause's number, as the C interface returns it.
    pub fn number(self) -> u16 {
        match self {""".splitlines()
    for cause in table.causes:
        values = " { .. }" if cause.values else ""
        lines.append(f"            Self::{cause.title()}{values} => {cause.number},")
    lines += """\
        }
    }
}

impl Display for Refusal {
    fn fmt(&self, f: &mut Formatter) -> fmt::Result {
        write!(f, "refused ({}): ", self.number())?;
        match *self {""".splitlines()
    for cause in table.causes:
        lines += rust_display(cause)
    lines += """\
        }
    }
}

impl Error for Refusal {}

#[cfg(test)]
mod tests;""".splitlines()
    return "\n".join(lines) + "\n"


def rust_numbers(call: Call, head: str, tail: str, indent: str) -> List[str]:
    """What stands before and behind the numbers of a call, and they in between."""
    inner = ", ".join(map(str, call.numbers))
    if len(f"[{inner}]") <= 60 and len(f"{indent}{head}&[{inner}]{tail}") <= WIDTH:
        return [f"{indent}{head}&[{inner}]{tail}"]
    rows = wrap(
        f"{inner},", WIDTH, initial_indent=f"{indent}    ", subsequent_indent=f"{indent}    "
    )
    return [f"{indent}{head}&[", *rows, f"{indent}]{tail}"]


def host_calls(table: Table, _: str) -> str:
    lines = f"""\
//! The calls of the C interface and the numbers that they return.

// {MADE}

#[derive(Debug, Clone, Copy, PartialEq, Eq, PartialOrd, Ord)]
pub enum Call {{""".splitlines()
    lines += [f"    {call.title()}," for call in table.calls]
    lines += f"""\
}}

impl Call {{
    pub const ALL: [Self; {len(table.calls)}] = [""".splitlines()
    lines += [f"        Self::{call.title()}," for call in table.calls]
    lines += """\
    ];

    pub fn name(self) -> &'static str {
        match self {""".splitlines()
    lines += [f'            Self::{call.title()} => "{call.name}",' for call in table.calls]
    lines += """\
        }
    }

    /// The numbers that the call can return, causes in the order in which they are tried.
    pub fn numbers(self) -> &'static [u16] {
        match self {""".splitlines()
    for call in table.calls:
        lines += rust_numbers(call, f"Self::{call.title()} => ", ",", 12 * " ")
    lines += ["        }", "    }", "}"]
    return "\n".join(lines) + "\n"


def independent_numbers(table: Table, _: str) -> str:
    lines = f"""\
//! The numbers that each call of the C interface returns.

// {MADE}

pub const NUMBERS: [(&str, &[u16]); {len(table.calls)}] = [""".splitlines()
    for call in table.calls:
        short = f'"{call.name}", &[{", ".join(map(str, call.numbers))}]'
        if len(short) <= 60:
            lines.append(f"    ({short}),")
        else:
            lines += ["    (", f'        "{call.name}",']
            lines += rust_numbers(call, "", ",", 8 * " ") + ["    ),"]
    return "\n".join(lines + ["];"]) + "\n"


# Python, up to 100 signs a line


def python_string(text: str, head: str, indent: str) -> List[str]:
    """A string behind a head, in brackets over several lines where it is long."""

    def quoted(part: str) -> str:
        return f'f"{part}"' if "{" in part else f'"{part}"'

    if len(f"{indent}{head}{quoted(text)}") <= WIDTH:
        return [f"{indent}{head}{quoted(text)}"]
    lines = [""]
    for word in text.split():
        if len(f"{indent}    {quoted(f'{lines[-1]}{word} ')}") > WIDTH:
            lines.append("")
        lines[-1] += f"{word} "
    lines[-1] = lines[-1].rstrip()
    return [f"{indent}{head}(", *(f"{indent}    {quoted(line)}" for line in lines), f"{indent})"]


def python_class(cause: Cause) -> List[str]:
    lines = ["", "", f"class {cause.title()}Refused(Refused):", f"    number = {cause.number}"]
    lines += python_string(cause.words, "words = ", "    ")
    if not cause.values:
        return lines
    names = [value.name for value in cause.values]
    typed = ", ".join(f"{name}: int" for name in names)
    lines += [
        f"    _values = {len(names)}",
        "",
        f"    def __init__(self, {typed}) -> None:",
        f"        super().__init__({', '.join(names)})",
    ]
    for value in cause.values:
        lines.append(f"        self.{value.name} = {value.name}")
        lines.append(f'        """{sentence(value.meaning)}"""')
    lines += ["", "    def __str__(self) -> str:"]
    date = cause.tells_date()
    if date:
        lines.append(f'        date = f"{{2000 + self.{date} // 12}}-{{self.{date} % 12 + 1:02}}"')
    told = re.sub(r"{\w+:date}", "{date}", re.sub(r"{(\w+)}", r"{self.\1}", cause.told))
    return lines + python_string(f"refused ({{self.number}}): {told}", "return ", "        ")


def python_refusals(table: Table, _: str) -> str:
    lines = f'''\
"""An exception for each cause of include/sindhopul.h, with the header's names."""

# {MADE}

from typing import ClassVar, Dict, Type


class Refused(Exception):
    """A call was refused, and nothing was changed by it."""

    number: ClassVar[int]
    """The cause's number, as the C interface returns it."""

    words: ClassVar[str]
    """The cause in words."""

    # How many values are told beside the number.
    _values: ClassVar[int] = 0

    def __str__(self) -> str:
        return f"refused ({{self.number}}): {{self.words}}"'''.splitlines()
    for cause in table.causes:
        lines += python_class(cause)
    lines += '''\


_CAUSES: Dict[int, Type[Refused]] = {cause.number: cause for cause in Refused.__subclasses__()}


def raise_unless_accepted(number: int, *values: int) -> None:
    """Raises what a call's number tells, with the values beside it."""
    if number != 0:
        cause = _CAUSES[number]
        raise cause(*values[: cause._values])'''.splitlines()
    return "\n".join(lines) + "\n"


def python_exports(table: Table, text: str) -> str:
    """The package's own names stay, and all refusals are among them."""
    refusals = {f"{cause.title()}Refused" for cause in table.causes} | {"Refused"}
    imports = "".join(f"    {name},\n" for name in sorted(refusals))
    text = replaced_once(
        "the import of refusals",
        r"(from \.refusals import \(\n).*?(\)\n)",
        lambda match: f"{match[1]}{imports}{match[2]}",
        text,
    )

    def exports(match: re.Match) -> str:
        others = [name for name in re.findall(r'"(\w+)"', match[2]) if not name.endswith("Refused")]
        names = sorted(refusals.union(others))
        return match[1] + "".join(f'    "{name}",\n' for name in names) + match[3]

    return replaced_once("__all__", r"(__all__ = \[\n)(.*?)(\]\n)", exports, text)


# Rattle


def rattle_variant(cause: Cause) -> str:
    """The variant of a cause, with the types of what is told beside it."""
    types = ", ".join(value.type for value in cause.values)
    return f"{cause.title()}({types})" if types else cause.title()


def rattle_pattern(cause: Cause, held: str) -> str:
    """The pattern of a cause; what is told beside it is held by this name."""
    return f"Cause::{cause.title()}({held})" if cause.values else f"Cause::{cause.title()}"


def rattle_value(cause: Cause, number: str) -> str:
    """The variant that a number tells, without what is told beside it."""
    return f"{cause.title()}({number})" if cause.values else cause.title()


def rattle_causes(table: Table, _: str) -> str:
    causes = table.causes
    lines = [f"// The causes of refusals, each with what is told beside it. {MADE}"]
    lines += [
        "ghost use Rattle.std.specs.Prelude.{◌≡◌};",
        "ghost use Rattle.base.specs.Numbers.{number_of, month_of, beside_of, NamesCause};",
        "",
        "use std::fmt;",
        "use std::fmt::Display;",
        "",
        "#[derive(Clone, Copy, PartialEq, Eq, Debug)]",
        "pub enum Cause {",
    ]
    for cause in causes:
        lines += [f"    // {sentence(cause.words)}", f"    {rattle_variant(cause)},"]
    lines += [
        "}",
        "",
        "// A number that no cause has.",
        "#[derive(Clone, Copy, PartialEq, Eq, Debug)]",
        "pub struct NoCause;",
        "",
        "impl Cause {",
        "    pub fn number(self) -> u16",
        "        ensures { result ≡ number_of self }",
        "    {",
        "        match self {",
    ]
    lines += [f"            {rattle_pattern(cause, '_')} => {cause.number}," for cause in causes]
    lines += [
        "        }",
        "    }",
        "",
        "    // The month that is told beside the number; 0 where none is.",
        "    // Kept: no Option, since what C gets has 0 where none is told: each of its conversions would add `unwrap_or(0)`.",
        "    pub fn month(self) -> u16",
        "        ensures { result ≡ month_of self }",
        "    {",
        "        match self {",
        "            Cause::CalendarMonth(month) => month,",
        "            _ => 0,",
        "        }",
        "    }",
        "",
        "    // The month or the place that is told beside the number; 0 where none is.",
        "    // Kept: no Option, since `Contents` has 0 where none is told, and its conversion would add `unwrap_or(0)`.",
        "    pub fn beside(self) -> u32",
        "        ensures { result ≡ beside_of self }",
        "    {",
        "        match self {",
    ]
    for cause in causes:
        if cause.values:
            value = cause.values[0]
            told = value.name if value.type == "u32" else f"u32::from({value.name})"
            lines += [f"            {rattle_pattern(cause, value.name)} => {told},"]
    lines += [
        "            _ => 0,",
        "        }",
        "    }",
        "}",
        "",
        "impl TryFrom<u32> for Cause {",
        "    type Error = NoCause;",
        "",
        "    ghost try_from_gives = { NamesCause };",
        "",
        "    // What is told beside a cause, no number tells.",
        "    // Kept: a number is matched, since here it becomes a cause.",
        "    fn try_from(number: u32) -> Result<Cause, NoCause> {",
        "        match number {",
    ]
    lines += [f"            {cause.number} => Ok(Cause::{rattle_value(cause, '0')})," for cause in causes]
    lines += [
        "            _ => Err(NoCause),",
        "        }",
        "    }",
        "}",
        "",
        "impl Display for Cause {",
        "    fn fmt<W: fmt::Write>(&self, f: &mut fmt::Formatter<W>) -> fmt::Result {",
        "        f.write_str(match self {",
    ]
    for cause in causes:
        head, words = f"            {rattle_pattern(cause, '_')} =>", f'"{cause.words}",'
        fits = len(head) + 1 + len(words) <= WIDTH
        lines += [f"{head} {words}"] if fits else [head, f"                {words}"]
    lines += ["        })", "    }", "}"]
    return "\n".join(lines) + "\n"


def rattle_numbers(table: Table, _: str) -> str:
    causes = table.causes
    names = ", ".join(cause.title() for cause in causes)
    lines = [
        f"-- The numbers of the causes, and what is told beside them. {MADE}",
        "-- Assumes nothing.",
        "use Rattle.std.specs.Prelude.{◌≡◌, ◌≢◌, ℕ, Result, Ok, Err, MatchResult}",
        "use Rattle.base.specs.declared.causes.Cause.{Cause}",
        f"use Rattle.base.specs.declared.causes.Cause.TheVariants.{{{names}}}",
        "use Rattle.base.specs.declared.causes.NoCause.{NoCause}",
        "",
        "abbrev pub number_of : Cause → ℕ",
    ]
    lines += [f"number_of {antt_pattern(cause, '_')} = {cause.number}" for cause in causes]
    lines += ["", "-- the month that a calendar's cause tells; 0 where none is told", "abbrev pub month_of : Cause → ℕ"]
    for cause in causes:
        held, month = ("month", "month") if cause.name == "CALENDAR_MONTH" else ("_", "0")
        lines += [f"month_of {antt_pattern(cause, held)} = {month}"]
    lines += ["", "-- the month or the place; 0 where nothing is told", "abbrev pub beside_of : Cause → ℕ"]
    for cause in causes:
        value = "value" if cause.values else "0"
        lines += [f"beside_of {antt_pattern(cause, 'value')} = {value}"]
    lines += [
        "",
        "-- the number that a result tells: its cause's, or 0",
        "abbrev pub number_in : {A : Type 0} → Result A Cause → ℕ",
        "number_in (Ok _) = 0",
        "number_in (Err cause) = number_of cause",
        "",
        "-- what a number is read as: the cause that has it, or that none has it",
        "abbrev pub NamesCause : ℕ → Result Cause NoCause → Type 0",
        "NamesCause n r = MatchResult r (λ cause. number_of cause ≡ n) (λ _. (cause : Cause) → number_of cause ≢ n)",
    ]
    return "\n".join(lines) + "\n"


def rattle_laws(table: Table, _: str) -> str:
    names = ", ".join(cause.title() for cause in table.causes)
    lines = [
        f"-- No cause has the number 0, and a month is told beside 13 alone. {MADE}",
        "-- Assumes nothing.",
        "use mathlib.Core.Path.{◌≡◌, refl}",
        "use Prim.Native.Nat.{◌≤◌}",
        "use native.Mathlib.Omega.{arith}",
        "use Rattle.base.specs.Numbers.{number_of, month_of}",
        "use Rattle.base.specs.declared.causes.Cause.{Cause}",
        f"use Rattle.base.specs.declared.causes.Cause.TheVariants.{{{names}}}",
        "",
        "pub number-from : (cause : Cause) → 11 ≤ number_of cause",
    ]
    lines += [f"number-from {antt_pattern(cause, '_')} = omega arith" for cause in table.causes]
    lines += ["", "pub month-beside : (cause : Cause) → (number_of cause ≡ 13 → ⊥) → month_of cause ≡ 0"]
    for cause in table.causes:
        law = "absurd (other refl)" if cause.name == "CALENDAR_MONTH" else "refl"
        lines += [f"month-beside {antt_pattern(cause, '_')} other = {law}"]
    return "\n".join(lines) + "\n"


def antt_pattern(cause: Cause, held: str) -> str:
    return f"({cause.title()} {held})" if cause.values else cause.title()


FILES: Dict[str, Callable[[Table, str], str]] = {
    "include/sindhopul.h": header,
    "bindings/rust/src/refusal.rs": rust_refusal,
    "bindings/python/sindhopul/refusals.py": python_refusals,
    "bindings/python/sindhopul/__init__.py": python_exports,
    "crates/base/src/causes.rt": rattle_causes,
    "crates/base/specs/Numbers.antt": rattle_numbers,
    "crates/base/proofs/NumberLaws.antt": rattle_laws,
    "tests/host/tests/archives/run/calls.rs": host_calls,
    "independent/src/numbers.rs": independent_numbers,
}


def made() -> List[Tuple[str, str, str]]:
    """The path of each file, its text as it is and as it is to be."""
    table = read_table((ROOT / TABLE).read_text())
    texts = []
    for path, make in FILES.items():
        file = ROOT / path
        text = file.read_text() if file.exists() else ""
        texts.append((path, text, make(table, text)))
    return texts


def main(arguments: List[str]) -> None:
    if arguments not in ([], ["--check"]):
        sys.exit(__doc__)
    try:
        changed = [texts for texts in made() if texts[1] != texts[2]]
    except Wrong as wrong:
        sys.exit(f"causes.py: {wrong}")
    for path, old, new in changed:
        if arguments:
            lines = old.splitlines(True), new.splitlines(True)
            sys.stderr.writelines(difflib.unified_diff(*lines, path, f"{path} by {TABLE}"))
        else:
            (ROOT / path).write_text(new)
            print(path)
    if arguments and changed:
        sys.exit(f"causes.py: {TABLE} says something else: edit {TABLE}, then run ./causes.py")


if __name__ == "__main__":
    main(sys.argv[1:])
