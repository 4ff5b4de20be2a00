#!/usr/bin/env python3
"""The declarations of the heap for C, wherever they stand: all must say what crates/heap_c/src/lib.rt says.

Those of include/heap.h, rust/src/c.rs and tests/library/library.py are compared by name, type, order and the parameters' names;
the header's `refused by` lists with crates/theorems/specs/Numbered.antt, its constants with the crates and the heap for Rust.
"""
import ctypes
import re
import sys
from pathlib import Path
from typing import Iterator, NamedTuple
from unittest import mock

ROOT = Path(__file__).resolve().parents[2]
sys.path += [str(ROOT / "tests" / folder) for folder in ("library", "documents")]

import library
from numbered import NUMBERED, lists

SOURCE = "crates/heap_c/src/lib.rt"
HEADER = "include/heap.h"
RUST = "rust/src/c.rs"
PYTHON = "tests/library/library.py"
SIZES = "crates/image/src/sizes.rt"
RUST_SIZES = "rust/src/collector.rs"
VALUE = "crates/value/src/lib.rt"

# the lists of Numbered.antt; a function that answers a length is not refused
REFUSALS = {
    "heap_words": "",
    "heap_scratch": "",
    "heap_new": "new_numbers",
    "heap_alloc": "call_numbers allocs",
    "heap_read": "call_numbers reads",
    "heap_write": "call_numbers writes",
    "heap_report": "report_numbers",
    "heap_figure": "command_numbers figure",
}
# what the functions named _formed do not ask
OF_AN_IMAGE = {1, 2}
# the functions that make the words of `out`
FIELDS = {
    "CELL": ("crates/value/src/lib.rt", "From<Words> for [u64; 3]"),
    "ALLOC": (SOURCE, "Reply<7> for Allocation"),
    "REPORT": ("crates/report/src/lib.rt", "From<Statistics> for [u64; 11]"),
    "FIGURE": (SOURCE, "Reply<2> for Figure"),
}
RUST_BOUNDS = {"N": "nursery_cells", "T": "threshold", "S": "elder_slots", "C": "elder_cells"}


class Parameter(NamedTuple):
    """Without a name where the file has none: a slice's count in Rattle, all in Python."""

    kind: str
    name: str = ""


class Function(NamedTuple):
    takes: list[Parameter]
    answers: str


Functions = dict[str, Function]
Constants = dict[str, int]


class Unread(Exception):
    """A text that is not understood."""


def text_of(file: str) -> str:
    return (ROOT / file).read_text()


def only(file: str, pattern: str, text: str) -> str:
    """The pattern's group at its one match."""
    found = re.findall(pattern, text, re.S | re.M)
    if len(found) != 1:
        raise Unread(f"{file}: {len(found)} matches of {pattern}, not one")
    return found[0]


def without_comments(text: str) -> str:
    return re.sub(r"//[^\n]*", "", text)


def parts(listed: str) -> list[str]:
    """Between commas; the last may end in one."""
    return [" ".join(part.split()) for part in listed.split(",") if part.strip()]


# ---- Kinds of parameters: u64, i64, u8, const words, mut words, mut words[7]; any other is the file's own text

# what ctypes says of all words
POINTER = "pointer"


def words(writes: object, length: object = "") -> str:
    return ("mut words" if writes else "const words") + (f"[{length}]" if length else "")


def is_same(kind: str, wanted: str) -> bool:
    return kind == wanted or kind == POINTER and " words" in wanted


# ---- Rattle


def in_rattle() -> Functions:
    text = without_comments(text_of(SOURCE))
    found = re.findall(r'#\[unsafe\(no_mangle\)\]\s+pub extern "C" fn (\w+)\(([^)]*)\) -> (\S+)', text)
    if len(found) != text.count("no_mangle"):
        raise Unread(f"{SOURCE}: {text.count('no_mangle')} functions are marked no_mangle, {len(found)} understood")
    return {name: Function(rattle_parameters(listed), answers) for name, listed, answers in found}


def rattle_parameters(listed: str) -> list[Parameter]:
    """A slice is a pointer and a count, a reference to an array a pointer."""
    parameters = []
    for part in parts(listed):
        name, _, kind = part.partition(": ")
        if slice_of := re.fullmatch(r"&(mut )?\[u64\]", kind):
            parameters += [Parameter(words(slice_of[1]), name), Parameter("u64")]
        elif array := re.fullmatch(r"&(mut )?\[u64; (\d+)\]", kind):
            parameters.append(Parameter(words(array[1], array[2]), name))
        else:
            parameters.append(Parameter(kind, name))
    return parameters


# ---- C

C_TYPES = {"uint64_t": "u64", "int64_t": "i64", "uint8_t": "u8"}
ENUM = re.compile(r"enum \{([^}]*)\};")
DECLARED = re.compile(r"(\w+) (\w+)\(([^)]*)\);")


def in_c(constants: Constants) -> Functions:
    text = re.sub(r"^#.*|^extern \"C\" \{$|^\}$", "", without_comments(text_of(HEADER)), flags=re.M)
    if rest := DECLARED.sub("", ENUM.sub("", text)).split():
        raise Unread(f"{HEADER}: {' '.join(rest)}")
    return {
        name: Function([c_parameter(part, constants) for part in parts(listed)], C_TYPES.get(answers, answers))
        for answers, name, listed in DECLARED.findall(text)
    }


def c_parameter(text: str, constants: Constants) -> Parameter:
    if number := re.fullmatch(r"(\w+) (\w+)", text):
        return Parameter(C_TYPES.get(number[1], number[1]), number[2])
    if pointer := re.fullmatch(r"(const )?uint64_t \*(\w+)", text):
        return Parameter(words(not pointer[1]), pointer[2])
    if array := re.fullmatch(r"(const )?uint64_t (\w+)\[(\w+)\]", text):
        return Parameter(words(not array[1], constants.get(array[3], array[3])), array[2])
    return Parameter(text)


def c_constants() -> Constants:
    """One without a number is one above the last."""
    constants: Constants = {}
    for listed in ENUM.findall(without_comments(text_of(HEADER))):
        value = -1
        for part in parts(listed):
            name, _, number = part.partition(" = ")
            value = int(number) if number else value + 1
            constants[name] = value
    return constants


def c_refusals() -> dict[str, list[int]]:
    """The lists stand on the line above their function."""
    listed = re.findall(r"^// refused by: ([\d ]+)\n\w+ (\w+)\(", text_of(HEADER), re.M)
    return {name: [int(number) for number in numbers.split()] for numbers, name in listed}


# ---- Rust


def in_rust() -> Functions:
    text = without_comments(text_of(RUST))
    arrays = dict(re.findall(r"pub type (\w+) = \[u64; (\d+)\];", text))
    block = only(RUST, r'^mod declared \{.*?extern "C" \{\n(.*?)^    \}$', text)
    declared = re.compile(r"pub fn (\w+)\(([^)]*)\) -> (\S+);")
    if rest := declared.sub("", block).split():
        raise Unread(f"{RUST}: {' '.join(rest)}")
    return {
        name: Function([rust_parameter(part, arrays) for part in parts(listed)], answers)
        for name, listed, answers in declared.findall(block)
    }


def rust_parameter(text: str, arrays: dict[str, str]) -> Parameter:
    name, _, kind = text.partition(": ")
    if pointer := re.fullmatch(rf"\*(?:(mut)|const) ({'|'.join(('u64', *arrays))})", kind):
        return Parameter(words(pointer[1], arrays.get(pointer[2], "")), name)
    return Parameter(kind, name)


# ---- Python

CTYPES = {ctypes.c_uint64: "u64", ctypes.c_int64: "i64", ctypes.c_uint8: "u8", ctypes.c_void_p: POINTER}


def loaded() -> library.Library:
    """Over a library that has every name."""
    with mock.patch("ctypes.CDLL"):
        return library.Library(Path())


def in_python() -> Functions:
    return {
        name: Function([Parameter(CTYPES.get(kind, str(kind))) for kind in function.argtypes], CTYPES.get(function.restype, ""))
        for name, function in loaded().functions.items()
    }


def python_constants() -> Constants:
    made = loaded()
    lent = {"CELL": made.cell, "ALLOC": made.allocation, "REPORT": made.statistics, "FIGURE": made.figured}
    return {f"HEAP_{name}_WORDS": out.slice[1] for name, out in lent.items()}


# ---- Declarations compared


def missing(files: dict[str, Functions]) -> Iterator[str]:
    having = {name: file for file, functions in files.items() for name in functions}
    for file, functions in files.items():
        for name in sorted(having.keys() - functions.keys()):
            yield f"{file}: {name} is missing, which {having[name]} has"


def differences(file: str, ours: Functions, other: str, theirs: Functions) -> Iterator[str]:
    """Of the functions that both files have."""
    for name in sorted(ours.keys() & theirs.keys()):
        (takes, answers), wanted = ours[name], theirs[name]
        if len(takes) != len(wanted.takes):
            yield f"{file}: {name} takes {len(takes)} parameters, {len(wanted.takes)} in {other}"
        for number, (mine, right) in enumerate(zip(takes, wanted.takes), 1):
            place = f"{file}: {name}, parameter {number} ({mine.name or right.name or 'a count'})"
            if not is_same(mine.kind, right.kind):
                yield f"{place} is {mine.kind}, {right.kind} in {other}"
            if mine.name and right.name and mine.name != right.name:
                yield f"{place} is named {right.name} in {other}"
        if answers != wanted.answers:
            yield f"{file}: {name} answers {answers or 'something else'}, {wanted.answers} in {other}"


def declarations_apart(files: dict[str, Functions]) -> list[str]:
    apart = list(missing(files))
    for file in (HEADER, RUST, PYTHON):
        apart += differences(file, files[file], SOURCE, files[SOURCE])
    # a count has a name in these two alone
    return apart or list(differences(RUST, files[RUST], HEADER, files[HEADER]))


# ---- Refusals compared


def refusals_apart(functions: Functions) -> Iterator[str]:
    known, stated = {"": []} | lists(), c_refusals()
    if len(stated) != text_of(HEADER).count("refused by:"):
        yield f"{HEADER}: a `refused by` without numbers, or without a function on the next line"
    for name in functions:
        listed = REFUSALS.get(name.removesuffix("_formed"))
        if listed not in known:
            yield f"{HEADER}: {name} is refused by {stated.get(name, [])}, and no list of {NUMBERED} is known for it"
            continue
        wanted = sorted(set(known[listed]) - (OF_AN_IMAGE if name.endswith("_formed") else set()))
        if stated.get(name, []) != wanted:
            yield f"{HEADER}: {name} is refused by {stated.get(name, [])}, {wanted} in {NUMBERED}"


# ---- Constants compared


def path_of(expression: str, lets: dict[str, str]) -> str:
    """`y.cells`, after `let y = s.nursery`, is `nursery.cells`: a parameter's name is left out."""
    head, _, field = re.findall(r"\w+(?:\.\w+)*", expression.removesuffix(" as u64").removesuffix(".cast_unsigned()"))[-1].partition(".")
    before = path_of(lets[head], lets) if head in lets else ""
    return ".".join(part for part in (before, field) if part)


def fields(file: str, made_by: str) -> list[str]:
    """Of the array that the impl's function makes; a pointer's are named as they are."""
    body = only(file, rf"^impl {re.escape(made_by)} \{{\n[^}}]*\}};\n\n(?:    #\[[^\n]*\n)?    fn [^{{]*\{{\n(.*?)^    \}}", text_of(file))
    lets = dict(re.findall(r"let (\w+) = (.+);", body))
    made = parts(only(file, r"^        \[(.*)\]$", body))
    return [path_of(part, lets).removeprefix("pointer.").replace(".", "_").upper() for part in made]


def crate_constants() -> Constants:
    kinds = only(VALUE, r"^enum Kind \{\n(.*?)^\}", text_of(VALUE))
    constants = {f"HEAP_KIND_{name.upper()}": int(number) for name, number in re.findall(r"(\w+) = (\d+),", kinds)}
    most = only(SIZES, r"^const MOST: Sizes = Sizes \{\n(.*?)^\}", text_of(SIZES))
    roots = re.findall(r"^pub const (ROOTS): u64 = (\d+);", text_of(SIZES), re.M)
    for name, number in re.findall(r"(\w+): (\d+),", most) + roots:
        constants[f"HEAP_MOST_{name.upper()}"] = int(number)
    for name, place in FIELDS.items():
        constants |= {f"HEAP_{name}_{field}": at for at, field in enumerate([*fields(*place), "WORDS"])}
    return constants


def rust_constants() -> Constants:
    text = text_of(RUST_SIZES)
    largest = only(RUST_SIZES, r"const LARGEST: Self = Self \{(.*?)\};", text)
    bounds = {f"HEAP_MOST_{name}": int(only(RUST_SIZES, rf"{field}: (\d+)", largest)) for name, field in RUST_BOUNDS.items()}
    return bounds | {"HEAP_MOST_ROOTS": int(only(RUST_SIZES, r"const MOST_ROOTS: u64 = (\d+);", text))}


def constants_apart(constants: Constants) -> Iterator[str]:
    crates = crate_constants()
    for name in sorted(constants.keys() | crates.keys()):
        if constants.get(name) != crates.get(name):
            yield f"{HEADER}: {name} is {constants.get(name, 'not there')}, {crates.get(name, 'not there')} in the crates"
    for file, others in ((RUST_SIZES, rust_constants()), (PYTHON, python_constants())):
        for name, number in others.items():
            if constants.get(name) != number:
                yield f"{file}: {number}, but {name} is {constants.get(name, 'not there')} in {HEADER}"


def main() -> None:
    try:
        constants = c_constants()
        files = {SOURCE: in_rattle(), HEADER: in_c(constants), RUST: in_rust(), PYTHON: in_python()}
        apart = [*declarations_apart(files), *refusals_apart(files[SOURCE]), *constants_apart(constants)]
    except Unread as unread:
        sys.exit(f"declarations: not understood: {unread}")
    if apart:
        sys.exit("\n".join(f"declarations: {line}" for line in apart))
    print(f"declarations: {len(files[SOURCE])} functions agree in {len(files)} files, and {len(constants)} constants")


if __name__ == "__main__":
    main()
