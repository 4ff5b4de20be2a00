"""Facts about the model that `rt check` proves by computing, in a repository of the model and one crate of facts."""
import re
import shutil
import subprocess
import sys
from pathlib import Path

# definitions outside the model that it computes with and that have to be opened by name
LIBRARY = ("lib.Ieee.of_bits",)

COMPARING = """\
same : List ℕ → List ℕ → Bool
same [] [] = true
same [] (y ∷ ys) = false
same (x ∷ xs) [] = false
same (x ∷ xs) (y ∷ ys) = eqb x y && same xs ys
"""


def definitions(model: Path) -> list[str]:
    """What a computation with the model may have to open."""
    names = list(LIBRARY)
    for path in sorted(model.glob("specs/**/*.antt")):
        module = ".".join(path.relative_to(model).with_suffix("").parts)
        found = re.findall(r"^\s*unfoldable pub (\S+)", path.read_text(), re.M)
        names += [f"Rattle.model.{module}.{name}" for name in found]
    return names


class Workbench:
    """The facts stand below a header that they compute with; `opened` names its definitions."""

    def __init__(self, folder: Path, model: Path, header: str, opened: str):
        self.folder = folder
        self.header = header
        self.unfolding = f"unfolding {opened} " + " ".join(definitions(model))
        shutil.copytree(model, folder / "crates" / "model", ignore=shutil.ignore_patterns("must-fail", "out"))
        (folder / "crates.txt").write_text("model:\nrows: model\n")
        rows = folder / "crates" / "rows"
        (rows / "src").mkdir(parents=True)
        (rows / "proofs").mkdir()
        (rows / "src" / "lib.rt").write_text("pub fn one() -> u64 {\n    1\n}\n")
        (rows / "proofs" / "Lib.antt").write_text("pub mod Rows\n")

    def check(self, facts: list[str]) -> str:
        """What the checker says of the facts row0, row1, …; nothing if all hold."""
        rows = (f"row{index} : {fact}\n{self.unfolding}\nrow{index} = refl\n" for index, fact in enumerate(facts))
        (self.folder / "crates" / "rows" / "proofs" / "Rows.antt").write_text("\n".join((self.header, *rows)))
        done = subprocess.run(["rt", "check"], cwd=self.folder / "crates" / "rows", capture_output=True, text=True)
        return done.stdout + done.stderr if done.returncode else ""

    def failing(self, facts: list[str]) -> list[int]:
        """The numbers of the facts that do not hold."""
        said = self.check(facts)
        found = [int(number) for number in re.findall(r"error: `row(\d+)`", said)]
        if said and len(found) != said.count(": error"):
            sys.exit(f"model: not checked\n{said}")
        for line in re.findall(r"That run had the line `(unfolding [^`]*)`", said):
            if shut := set(line.split()) - set(self.unfolding.split()):
                sys.exit(f"model: it computes with {' '.join(shut)}, which LIBRARY in {__file__} should name")
        return found

    def computed(self, numbers: list[str], digits: int) -> list[list[int] | None]:
        """Each number in groups of so many digits behind its leading 1, the last group first. They are read off what the checker
        says of wrong facts; None where it says nothing."""
        said = self.check([f"{number} ≡ 0" for number in numbers])
        found: list[list[int] | None] = []
        for message in re.findall(r"error: `row\d+`(.*?)(?=error: `row|\Z)", said, re.S):
            shown = re.search(rf"computed as far as they go.*?[ `]1((?:\d{{{digits}}})*)[ `]", message, re.S)
            found.append([int(group) for group in re.findall(rf"\d{{{digits}}}", shown[1])[::-1]] if shown else None)
        return found
