"""The Rust front end (rust/), compiled by cargo with the heap's library in it."""
import subprocess
import sys
from pathlib import Path

HERE = Path(__file__).resolve().parent
# the published collector
sys.path.insert(0, str(HERE.parent / "oracle"))
FOLDER = HERE.parents[1] / "rust"


def library() -> Path:
    if subprocess.run(["cargo", "build", "--quiet", "--release", "--offline", "--lib"], cwd=FOLDER).returncode:
        sys.exit("the front end is not compiled")
    return FOLDER / "target" / "release" / "libgc.rlib"
