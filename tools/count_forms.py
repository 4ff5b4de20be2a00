#!/usr/bin/env python3
"""Counts the places of older forms in crates/*/src, for docs/DESIGN-PASS.md.

    count_forms.py [COMMIT]     in the files of a commit, else in those of the work tree
    count_forms.py -v [COMMIT]  with each place

1 own answers: enums with a case for a refusal or for nothing; structs that hold a flag or an answer beside a value; refusals by number.
2 twins: functions whose bodies have the same tokens but for names and numbers.
3 loops: each `while`.
4 by hand: functions that convert between two types of the repository, or compare or print a value.
5 a `requires` that stands three times or more; parameters that stand side by side in three functions or more.
6 a count beside a slice.
7 a flag that chooses a step.
8 answers written out, of them those that are one search; steps reached through the step before; own lemmas (by files of proofs/)."""
import re
import subprocess
import sys
from collections import defaultdict
from pathlib import Path

ROOT = Path(__file__).resolve().parents[1]
SOURCE = re.compile(r"crates/\w+/src/.*\.rt$")
PROOF = re.compile(r"crates/(?!model/|theorems/)\w+/proofs/.*\.antt$")
NOTHING = r"Refused|Invalid|Gap|Nothing|No|Unknown|End|Malformed"
KEEP = set("let mut if else return match while for in as true false fn self Self".split())


def git(*words):
    return subprocess.run(["git", "-C", ROOT, *words], capture_output=True, text=True, check=True).stdout


def read(commit, wanted):
    if commit is None:
        paths = git("ls-files", "--cached", "--others", "--exclude-standard", "crates").split()
        return {p: (ROOT / p).read_text() for p in paths if wanted.match(p) and (ROOT / p).exists()}
    return {p: git("show", f"{commit}:{p}") for p in git("ls-tree", "-r", "--name-only", commit, "crates").split() if wanted.match(p)}


def functions(files):
    for path, text in files.items():
        for m in re.finditer(r'^( *)(?:pub(?:\([a-z]+\))? )?(?:extern "C" )?fn (\w+)', text, re.M):
            end = text.find(f"\n{m[1]}}}\n", m.end())
            item = text[m.start():end]
            at = item.find(f"\n{m[1]}{{\n")
            head, body = (item[:at], item[at + len(m[1]) + 2:]) if at >= 0 else item.split("{\n", 1)
            yield path, m[2], head, re.sub(r"//.*", "", body)


def skeleton(body):
    return tuple(t if t in KEEP or not t[0].isalnum() and t[0] != "_" else "_" for t in re.findall(r"\w+|[^\s\w]", body))


def main():
    words = [w for w in sys.argv[1:] if w != "-v"]
    verbose = "-v" in sys.argv
    commit = words[0] if words else None
    files = read(commit, SOURCE)
    every = list(functions(files))
    name = lambda path, fn: f"{path.split('/')[1]}::{fn}"

    def show(point, what, places):
        print(f"{point}  {len(places):4}  {what}")
        if verbose:
            for place in places:
                print("           ", place)

    enums, pairs, numbers, whiles = [], [], [], []
    for path, text in files.items():
        for m in re.finditer(r"^ *(?:pub )?enum (\w+)[^{]*\{(.*?)^ *\}", text, re.M | re.S):
            if re.search(rf"^ +({NOTHING})\b", m[2], re.M):
                enums.append(f"{path}: {m[1]}")
        for m in re.finditer(r"^ *(?:pub )?struct (\w+)[^{]*\{(.*?)^ *\}", text, re.M | re.S):
            if re.search(r"\b(answer: |question: u64|\w+: bool)", m[2]) and m[2].count(":") > 1:
                pairs.append(f"{path}: {m[1]}")
        for i, line in enumerate(text.splitlines(), 1):
            if re.search(r"Refused\(\w+\)|refused\(\d+,", line):
                numbers.append(f"{path}:{i}: {line.strip()}")
            if re.search(r"\bwhile\b", line.split("//")[0]):
                whiles.append(f"{path}:{i}: {line.strip()}")
    show(1, "own enums with a case for a refusal or for nothing", enums)
    show(1, "structs with an answer or a flag beside a value", pairs)
    show(1, "lines that refuse by a number, or hand one on", numbers)

    twins = defaultdict(list)
    for path, fn, _, body in every:
        s = skeleton(body)
        if len(s) >= 7:
            twins[s].append(name(path, fn))
    groups = [", ".join(fns) for fns in twins.values() if len(fns) > 1]
    show(2, "groups of functions whose bodies are alike but for names and numbers", groups)
    show(3, "while loops", whiles)

    hands = r"encode|decode|signed|unsigned|words|biased|is_at|before|nothing|number|digit|minus|width|decimal|spaced|magnitude|\w+_words|\w+_text|word|each_spaced|line|text|narrow|widen|copy"
    show(4, "functions that convert, compare, copy or print by hand", [name(p, f) for p, f, _, _ in every if re.fullmatch(hands, f)])

    clauses, beside = defaultdict(list), defaultdict(list)
    for path, fn, head, _ in every:
        for m in re.finditer(r"^ +requires (?:\w+ )?(\{.*\})$", head, re.M):
            clauses[m[1]].append(name(path, fn))
        signature = head.split("requires")[0].split("ensures")[0]
        parameters = re.findall(r"(\w+): (&mut \[u64\]|&\[u64\]|\w+)[,)]", re.sub(r",\s*\)", ")", signature))
        for a in range(len(parameters) - 2):
            beside[tuple(n for n, _ in parameters[a:a + 3])].append(name(path, fn))
        counts = [n for n, t in parameters if t == "usize" and n in ("count", "mask_count")]
        beside.setdefault("count", []).extend(name(path, fn) for _ in counts)
        flags = [n for n, t in parameters if t == "bool" and n in ("into", "out", "collected")] + [n for n, _ in parameters if n == "left"]
        beside.setdefault("flag", []).extend(f"{name(path, fn)}: {n}" for n in flags)
    counted, flagged = beside.pop("count"), beside.pop("flag")
    show(5, "clauses that stand in three contracts or more", [f"{len(v)} {k}" for k, v in clauses.items() if len(v) > 2])
    show(5, "three parameters side by side in three functions or more", [f"{len(v)} {', '.join(k)}" for k, v in beside.items() if len(v) > 2])
    show(6, "counts beside a slice", counted)
    show(7, "flags that choose a step", flagged)

    answers, searches, before, lemmas = [], [], [], []
    for path, text in read(commit, PROOF).items():
        if path.endswith("/Answers.antt"):
            answers += [f"{path}: {m}" for m in re.findall(r"^(?:pub )?([\w-]+) : goal\.", text, re.M)]
            searches += [f"{path}: {m}" for m in re.findall(r"^([\w-]+)(?: \w+)* c =\s+(?:search|grind|omega) \([^()]*\)$", text, re.M)]
            before += [f"{path}: {m}" for m in re.findall(r"^.*\bc\.before\b.*$", text, re.M)]
        elif "/Invariants." not in path:
            lemmas += [f"{path}: {m}" for m in re.findall(r"^ *(?:pub )?([\w'-]+) : ", text, re.M) if not m.startswith("invariant")]
    show(8, "answers written out", answers)
    show(8, "of them one call of a tactic", searches)
    show(8, "steps reached through the step before", before)
    show(8, "lemmas and their helpers", lemmas)


main()
