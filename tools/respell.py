#!/usr/bin/env python3
"""Brings this repository's own words to snake case: definitions, fields and lemmas that port.py leaves in camel case, and fields of
specs/ that have a dash. In sources, definitions, proofs; `respell.py --list` prints the names.

Run once, at the top of the repository, after port.py. Types and modules keep their capitals, names from src/ their spelling. A word may
be spelled like the function whose contract cites it. Where a lemma would fall together with a word, the lemma has `_lem` (LEMMAS).
It stops, and changes nothing, where two other names would fall together.
"""
import glob
import re
import sys

# lemmas and variables that have the snake case of a word beside them: they get a name of their own first
LEMMAS = {
    "all_valid": "all_valid_lem",
    "alloc_on": "alloc_on_lem",
    "last_line": "last_line_lem",
    "the_heap": "the_heap_lem",
    "sum_fits": "sum_fits_lem",
    "too_long": "too_long_lem",
    "one_cell": "one_cell_lem",
    "same_answer": "same_answer_lem",
    "not_yet": "is_first",
}
# port.py has turned these where they stand alone, and not where they are a part of a lemma's name
PARTS = {"cellsOf", "movesOf", "onlyIf", "getD"}
WORD = re.compile(r"(?<![\w'])(?:[^\W\d][\w']*|\d\w*)")
CAMEL = re.compile(r"[a-z][a-z0-9_']*[A-Z]")
DASHED = re.compile(r"(?<![\w'.-])[a-z][\w']*(?:-[\w']+)+(?![\w'-])")
FIELD = re.compile(r"^ +(?:pub )?([a-z][\w']*(?:-[a-z][\w']*)+) :")


def snake(name):
    return re.sub(r"([a-z0-9'])([A-Z])", r"\1_\2", re.sub(r"([A-Z])([A-Z][a-z])", r"\1_\2", name)).lower()


def crates():
    with open("crates.txt") as f:
        return [line.split(":")[0].split()[0] for line in f if line.strip() and not line.startswith("#")]


def read(files):
    text = {}
    for f in files:
        with open(f, encoding="utf-8") as handle:
            text[f] = handle.read()
    return text


def names(text, own):
    """The words to turn, each with its new spelling, and those that fall together."""
    foreign, camel, defined, functions, dashed = set(), set(), set(), set(), set()
    prefix = tuple(f"Rattle.{c}." for c in own)
    for f, t in text.items():
        if f.endswith(".rt"):
            functions.update(re.findall(r"\bfn (\w+)", t))
            continue
        for line in t.split("\n"):
            use = re.match(r"\s*(?:pub )?use (\S+?)\.\{(.*)\}", line)
            if use and not use.group(1).startswith(prefix):
                foreign.update(w for item in use.group(2).split(",") for w in WORD.findall(item.split(" as ")[0]))
            field = "/specs/" in f and FIELD.match(line)
            if field:
                dashed.add(field.group(1))
        words = WORD.findall(t)
        defined.update(words)
        camel.update(w for w in words if CAMEL.match(w))
    camel = {w for w in camel - foreign if not re.match(r"(mut|shr|uint|walk|slice)_.*[A-Z]", w)}
    to = {w: snake(w) for w in sorted(camel)}
    fallen = [w for w, s in to.items() if s in defined and w not in PARTS and s not in LEMMAS and s not in functions]
    fallen += [w for w, s in to.items() if list(to.values()).count(s) > 1]
    return to, {d: d.replace("-", "_") for d in sorted(dashed)}, fallen


def turn(text, to, dashed, with_lemmas):
    if with_lemmas:
        text = WORD.sub(lambda m: LEMMAS.get(m.group(), m.group()), text)
    text = re.sub(r"(?<![\w'-])[a-z][\w']*(?:-[a-z][\w']*)+(?![\w'-])", lambda m: dashed.get(m.group(), m.group()), text)
    return WORD.sub(lambda m: to.get(m.group(), m.group()), text)


def main():
    own = crates()
    antt = [f for c in own for k in ("specs", "proofs") for f in glob.glob(f"crates/{c}/{k}/**/*.antt", recursive=True)]
    rt = [f for c in own for f in glob.glob(f"crates/{c}/src/**/*.rt", recursive=True)]
    text = read(sorted(antt + rt))
    to, dashed, fallen = names(text, own)
    if "--list" in sys.argv:
        print("\n".join(f"{a} {b}" for a, b in {**to, **dashed}.items()))
    if fallen:
        sys.exit("names fall together: " + ", ".join(fallen))
    if "--list" not in sys.argv:
        for f, t in text.items():
            new = turn(t, to, dashed, f.endswith(".antt"))
            if new != t:
                with open(f, "w", encoding="utf-8") as handle:
                    handle.write(new)


if __name__ == "__main__":
    main()
