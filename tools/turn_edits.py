#!/usr/bin/env python3
"""Brings the must-fail edits to the spelling of today's sources: crates/*/must-fail/*.edit and tests/edits/*/*.edit.

Run at the top of the repository. An edit is always turned from its text at LANDED, so a second run changes nothing. Words go to snake
case, as tools/respell.py has them; paths, operators that are named, and projections (`x .f` is `x.f`) are turned by rule. BY_HAND has
what needs more, as an import whose line is no longer there.

Then it says which edits cannot be applied: each `old:` is to stand once in its file. `turn_edits.py --check` says only that.
"""
import glob
import re
import subprocess
import sys

from respell import WORD, CAMEL, snake

LANDED = "80cafc81c29254af69242f63216a2eece167b2e4"
PRELUDE = "Rattle.std.specs.Prelude."
RULES = [
    (r"Rattle·(\w+)(·specs)?\.specs\.", r"Rattle.\1.specs."),
    # (the prelude has no foldr)
    (r"\b(mathlib\.Core\.(Bool|List)|Prim\.Native\.Nat|lib\.(Dec|ListN))\.(?!foldr\b)", PRELUDE),
    # an operator by its name
    (r"(?<=[.{ ])_([^\s\w.,{}()]+)_(?=[ ,}])", r"◌\1◌"),
    ("′", "'"),
    (r"\bgetD\b", "get_or"),
    # projections: tight, and without brackets around one
    (r"(?<=[\w')]) \.(?=\w)", "."),
    (r"(?<!\w)\(([\w']+(?:\.[\w']+)+)\)", r"\1"),
]
# by the edit's crate and name: texts of it at LANDED, and what is written for them
LIST = "use mathlib.Core.List.{List}"
PUT = "use lib.ListN.{getD, replicate, set as put}"
BY_HAND = {
    "model/nine_before_three": {
        "use mathlib.Core.Bool.{Bool, _&&_}": PRELUDE + "{Bool, ◌&&◌,",
        "use mathlib.Core.Bool.{Bool, true, cond, _&&_}": PRELUDE + "{Bool, true, cond, ◌&&◌,",
    },
    "model/report_keeps_what_registers_hold": {
        LIST: PRELUDE + "{Bool, ◌&&◌, List,",
        "use mathlib.Core.List.{List, []}": PRELUDE + "{Bool, ◌&&◌, List, [],",
    },
    "model/report_promotes_what_registers_hold": {
        LIST: PRELUDE + "{Bool, ◌&&◌, List,",
        "use mathlib.Core.List.{List, []}": PRELUDE + "{Bool, ◌&&◌, List, [],",
    },
    "model/last_register_is_no_root": {
        LIST: PRELUDE + "{Bool, ◌&&◌, List,",
        "use mathlib.Core.List.{List, _++_}": PRELUDE + "{Bool, ◌&&◌, List, ◌++◌,",
        PUT: "get_or, replicate, set as put}",
        "use lib.ListN.{getD, take, drop, replicate, set as put}": "get_or, take, drop, replicate, set as put}",
    },
    "model/registers_above_7_not_changed": {
        LIST: PRELUDE + "{Bool, ◌&&◌, List,",
        "use mathlib.Core.List.{List, _++_}": PRELUDE + "{Bool, ◌&&◌, List, ◌++◌,",
        PUT: "get_or, replicate, set as put}",
        "use lib.ListN.{getD, take, drop, replicate, set as put}": "get_or, take, drop, replicate, set as put}",
    },
    "model/masks_below_128_only": {
        "use lib.ListN.{getD, set, replicate}": "get_or, set, replicate}",
        "use lib.ListN.{getD, set, take, replicate}": "get_or, set, take, replicate}",
    },
    "heap/read_over_the_first": {
        "    let got = libc::read(STDIN_FILENO, &mut file[len..]);": "    match rt.stdin().read(&mut file[len..]) {",
        "    let got = libc::read(STDIN_FILENO, &mut file[0..]);": "    match rt.stdin().read(&mut file[0..]) {",
    },
    # the clause stands twice in the file now: the wrong one stands before it, and it is a comment
    "reader/read_at_says_start": {
        "    ensures { λ found. ⌜ nextAnswer found ≡ nextAt (now (file .entry)) at ⌝ }": """\
pub fn read_at(file: &[u8], at: usize) -> Next
new: pub fn read_at(file: &[u8], at: usize) -> Next ensures { next_answer result ≡ next_at file.now 0 } /*
old:     let mut reader = Reader::new(file, at);""",
        "    ensures { λ found. ⌜ nextAnswer found ≡ nextAt (now (file .entry)) 0 ⌝ }": "*/ { let mut reader = Reader::new(file, at);",
    },
    "reader/reader_of_no_bytes": {
        "        ensures { λ r. ⌜ (r .file ≡ file .entry) × (r .at ≡ at) ⌝ }": "ensures { (result.file ≡ file.entry) × (result.at ≡ at) }",
        "        ensures { λ r. ⌜ (length (now (r .file)) ≡ 0) × (r .at ≡ at) ⌝ }": "ensures { (length result.file.now ≡ 0) × (result.at ≡ at) }",
    },
}


def turned(text):
    for old, new in RULES:
        text = re.sub(old, new, text)
    return WORD.sub(lambda m: snake(m.group()) if CAMEL.match(m.group()) else m.group(), text)


def turn(path):
    text = subprocess.run(["git", "show", f"{LANDED}:{path}"], capture_output=True, text=True, check=True).stdout
    own = dict(BY_HAND.get(re.sub(r"^(crates|tests/edits)/|must-fail/|\.edit$", "", path), {}))
    lines = []
    for line in text.split("\n"):
        key, colon, rest = line.partition(": ")
        if key in ("old", "new"):
            rest = own.pop(rest) if rest in own else turned(rest)
        lines.append(key + colon + rest)
    if own:
        sys.exit(f"{path}: BY_HAND has texts that are not in it: {own}")
    return "\n".join(lines)


def fault(path):
    """Why the edit cannot be applied, or nothing."""
    with open(path, encoding="utf-8") as file:
        lines = file.read().split("\n")
    crate = re.sub(r"^(crates|tests/edits)/", "", path).split("/")[0]
    name = f"crates/{crate}/{lines[0].removeprefix('file: ')}"
    with open(name, encoding="utf-8") as file:
        source = whole = file.read()
    old = ""
    for line in lines[1:]:
        if line.startswith("old: "):
            old = line[5:]
            if source.count(old) != 1:
                return f"{source.count(old)} times in {name}: {old}"
        elif line.startswith("new:"):
            source = source.replace(old, line[4:].removeprefix(" "))
    return "it changes nothing" if source == whole else ""


def main():
    edits = sorted(glob.glob("crates/*/must-fail/*.edit") + glob.glob("tests/edits/*/*.edit"))
    if "--check" not in sys.argv:
        for path in edits:
            text = turn(path)
            with open(path, "w", encoding="utf-8") as file:
                file.write(text)
    faults = [(path, why) for path in edits if (why := fault(path))]
    for path, why in faults:
        print(f"{path}: {why}")
    print(f"{len(edits)} edits, of which {len(faults)} cannot be applied")


if __name__ == "__main__":
    main()
