#!/usr/bin/env python3
"""Writes the last part of docs/DESIGN-PASS.md: signatures, clauses and definitions that changed since the commit in its first line, old and
new one under the other, as the toolchain's port/contracts.py finds them. Run at the top of the repository."""
import json
import subprocess
import sys
import tempfile
from collections import defaultdict
from pathlib import Path

ROOT = Path(__file__).resolve().parents[1]
PAGE = ROOT / "docs/DESIGN-PASS.md"
HEAD = "## Old and new, side by side"
TOOL = "/opt/rattle/port/contracts.py"


def compared(commit):
    with tempfile.TemporaryDirectory() as old:
        archive = subprocess.run(["git", "-C", ROOT, "archive", commit, "crates"], capture_output=True, check=True).stdout
        subprocess.run(["tar", "x", "-C", old], input=archive, check=True)
        return json.loads(subprocess.run([sys.executable, TOOL, old, str(ROOT), "--json"], capture_output=True, text=True, check=True).stdout)


def main():
    page = PAGE.read_text()
    found = compared(page.split()[0])
    crates = defaultdict(lambda: defaultdict(list))

    def place(item):
        crate, file, *names = item.split()
        return crate, "::".join([stem for stem in [Path(file).stem] if stem not in ("lib", "main")] + names)

    def tight(signature):
        return " ".join(signature.split()).replace("( ", "(").replace(", )", ")")

    for item, old, new in found["signatures changed"]:
        crate, name = place(item)
        crates[crate][name] += [f"- {name}{tight(old)}", f"+ {name}{tight(new)}"]
    for item, *clauses in found["contracts changed"]:
        crate, name = place(item)
        (asked, promised, asks, promises) = ([" ".join(f"{n} {{ {c} }}".split()) for n, c in side] for side in clauses)
        for word, old, new in (("requires", asked, asks), ("ensures", promised, promises)):
            crates[crate][name] += [f"- {name} {word} {c}" for c in old if c not in new] + [f"+ {name} {word} {c}" for c in new if c not in old]
    for crate, name, old, new in found["definitions"]["changed"]:
        crates[crate]["~" + name] += [f"- {' '.join(t.split())}" for t in old] + [f"+ {' '.join(t.split())}" for t in new]
    order = [line.split()[0].rstrip(":") for line in (ROOT / "crates.txt").read_text().splitlines() if line and line[0] != "#"]
    lines = [HEAD, "", "By `python3 tools/contract_changes.py`. A function that is not here has the signature and the clauses that it had, under new names of its",
             "arguments at most; one that went stands above."]
    for crate in sorted(crates, key=order.index):
        lines += ["", f"**{crate}**", "", "```diff", *(line for name in crates[crate] for line in crates[crate][name]), "```"]
    PAGE.write_text(page.split(HEAD)[0] + "\n".join(lines) + "\n")


main()
