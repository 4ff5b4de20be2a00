"""The command program from Python."""
import subprocess
import sys
from functools import cache
from pathlib import Path

HERE = Path(__file__).resolve().parent
ROOT = HERE.parents[1]
# the oracle and what is made for it: commands, generator
sys.path.insert(0, str(ROOT / "tests" / "oracle"))

PROGRAM = ROOT / "target" / "bin" / "heap"


@cache
def built() -> Path:
    """Where crates/ is newer it is built first, by `build`, which explains a failure itself."""
    if status := subprocess.run([ROOT / "build", "heap"], stdin=subprocess.DEVNULL).returncode:
        sys.exit(status)
    return PROGRAM


def listing(file: bytes) -> bytes:
    """What the program prints; anything on standard error, or an exit status, is a failure."""
    done = subprocess.run([built()], input=file, capture_output=True)
    if done.returncode or done.stderr:
        return b"exit status %d: %s" % (done.returncode, done.stderr)
    return done.stdout
