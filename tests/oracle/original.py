"""The published collector after the edits of edits.toml, compiled as a library.

The published files are looked for in the folder GC_SOURCE (default: ../shared/docs, from the repository's root).
"""
import hashlib
import os
import subprocess
import sys
import tomllib
from pathlib import Path
from typing import Callable, Iterable

HERE = Path(__file__).resolve().parent
ROOT = HERE.parents[1]
EDITS = HERE / "edits.toml"
PUBLISHED = {name: f"src--gc--src--{name}.txt" for name in ("lib.rs", "generation.rs")}


def published() -> dict[str, str]:
    folder = Path(os.environ.get("GC_SOURCE", ROOT / ".." / "shared" / "docs"))
    texts = {}
    for name, stored_as in PUBLISHED.items():
        try:
            texts[name] = (folder / stored_as).read_text()
        except OSError as problem:
            sys.exit(f"oracle: no published {name} ({problem}); set GC_SOURCE to the folder that has {stored_as}")
    return texts


def edited(texts: dict[str, str]) -> dict[str, str]:
    for edit in tomllib.loads(EDITS.read_text())["edit"]:
        file, old, wanted = edit["file"], edit["old"], edit.get("times", 1)
        found = texts[file].count(old)
        if found != wanted:
            sys.exit(f"oracle: edit '{edit['name']}' does not fit: old text {found} times in {file}, not {wanted}")
        texts[file] = texts[file].replace(old, edit["new"])
    return texts


def rustc(*words: str | Path) -> None:
    if subprocess.run(["rustc", "--edition", "2021", "-C", "opt-level=3", "-C", "overflow-checks=on", *words]).returncode:
        sys.exit("oracle: not compiled")


def library(out: Path, beside: Iterable[Path], *words: str) -> Path:
    """Compiled from the edited text with these files beside it, and with these words for rustc."""
    sources = out / "gc"
    sources.mkdir(parents=True, exist_ok=True)
    for name, text in edited(published()).items():
        (sources / name).write_text(text)
    for path in beside:
        (sources / path.name).write_text(path.read_text())
    compiled = out / "libgc.rlib"
    # the lints of the published text are its authors' affair
    kind = ("--crate-type", "rlib", "--crate-name", "gc", "--cap-lints", "allow")
    rustc(*kind, *words, "-o", compiled, sources / "lib.rs")
    return compiled


def unless_same(product: Path, inputs: Iterable[Path], make: Callable[[], None]) -> None:
    """Makes the product if it is not there, or if these files, the published ones or the compiler have changed since."""
    version = subprocess.run(["rustc", "--version"], check=True, capture_output=True).stdout
    own = [path.name.encode() + path.read_bytes() for path in (Path(__file__), EDITS, *sorted(inputs))]
    parts = [version, *map(str.encode, published().values()), *own]
    same = hashlib.sha256(b"".join(hashlib.sha256(part).digest() for part in parts)).hexdigest()
    stamp = product.with_name(product.name + ".inputs")
    if not (product.exists() and stamp.exists() and stamp.read_text() == same):
        stamp.unlink(missing_ok=True)
        make()
        stamp.write_text(same)
