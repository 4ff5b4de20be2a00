#!/usr/bin/env python3
"""./heap as people call it: every form of input, every mistake, each with its exit status and what stands on both outputs; and when
it builds, seen with a stand-in for `rt`, which notes each call."""
import os
import re
import shutil
import subprocess
import sys
import tempfile
from pathlib import Path
from typing import Iterator, NamedTuple

from program import ROOT, built

from cases import CASES, numbered

FILE, LINES = CASES["C1"]
LISTING = numbered(LINES).encode()
# seconds; nothing is proved here
LONGEST = 30
OUTPUT_CLOSED, INPUT_CLOSED = "exec >&-;", "exec <&-;"


class Done(NamedTuple):
    status: int
    out: bytes
    said: str


class Wrong(Exception):
    """./heap did something else than it should."""


def ran(script: Path, *words: str, given: bytes = b"", before: str = "", **options) -> Done:
    """./heap with these words; `before` is done by the shell that calls it."""
    shell = ["bash", "-c", f'{before} exec "$@"', "bash", script, *words]
    try:
        done = subprocess.run(shell, input=given, capture_output=True, timeout=LONGEST, **options)
    except subprocess.TimeoutExpired as late:
        raise Wrong(f"no end after {LONGEST} s: {words}") from late
    return Done(done.returncode, done.stdout, done.stderr.decode())


def wants(name: str, done: Done, status: int, out: bytes = b"", said: str = "") -> None:
    """`said` is part of the one message; without it there must be none."""
    right = done.status == status and done.out == out and said in done.said and bool(said) == bool(done.said)
    if not right:
        raise Wrong(f"{name}: wanted status {status}, '{said}' said and\n{out.decode()}but there was {done}")


def inputs(heap: Path, folder: Path) -> Iterator[str]:
    """Files and standard input that are run."""

    def stored(name: str, content: bytes) -> str:
        (folder / name).write_bytes(content)
        return str(folder / name)

    def runs(name: str, *words: str, given: bytes = b"", out: bytes = LISTING, **options) -> str:
        wants(name, ran(heap, *words, given=given, **options), 0, out)
        return name

    yield runs("the example", str(ROOT / "examples" / "c1.hex"))
    yield runs("a file as it is", stored("c1", FILE))
    yield runs("standard input", given=FILE)
    yield runs("standard input by its name", "-", given=FILE)
    yield runs("a name that begins with a dash", "--", "-c1", cwd=Path(stored("-c1", FILE)).parent)
    yield runs("a name with blanks", stored("a b\\n.hex", FILE.hex(" ").encode()))
    yield runs("capital digits", stored("c1.HEX", FILE.hex().upper().encode()))
    yield runs("a byte a line, with remarks", stored("l.hex", FILE.hex("\n").replace("\n", "\t# zz\r\n").encode()))
    yield runs("an empty file", stored("empty", b""), out=b"")
    yield runs("hexadecimal text of no byte", stored("e.hex", b"# nothing\n"), out=b"")
    yield runs("a refusal is an answer", given=b"R", out=b"1 no 14\n")
    yield runs("variables of the caller's", given=FILE, env=os.environ | dict.fromkeys(("text", "words", "file", "said", "is_hex"), "R"))
    yield runs("a shell that follows POSIX", given=FILE, env=os.environ | {"POSIXLY_CORRECT": "1"})
    yield runs("a file that is too long", stored("long.hex", b"52" * 70_000), out=b"1 no 12\n")
    yield runs("hexadecimal digits in a file that is not .hex", stored("c1.txt", FILE.hex().encode()), out=b"1 no 12\n")
    (folder / "link").symlink_to(heap)
    wants("by a link", ran(folder / "link", given=FILE), 0, LISTING)
    yield "by a link"


def mistakes(heap: Path, folder: Path) -> Iterator[str]:
    """What is refused before anything is built: a message, nothing printed, status 2."""

    def refuses(name: str, said: str, *words: str, **options) -> str:
        wants(name, ran(heap, *words, **options), 2, said=said)
        return name

    def unreadable(name: str, text: bytes, place: str) -> str:
        (folder / "bad.hex").write_bytes(text)
        return refuses(name, f"bad.hex:{place}: ", str(folder / "bad.hex"))

    yield refuses("a missing file", "missing.hex: No such file", "missing.hex")
    yield refuses("another missing file", "missing: No such file", "missing")
    yield refuses("no name", "a file has a name", "")
    yield refuses("a folder", "is a folder", str(folder))
    yield refuses("a missing file, POSIX", "No such file", "missing", env=os.environ | {"POSIXLY_CORRECT": "1"})
    yield refuses("an unknown option", "unknown option --page", "--page")
    yield refuses("a short one", "unknown option -x", "-x", str(ROOT / "examples" / "c1.hex"))
    yield refuses("two files", "one file at a time", "a", "b")
    yield refuses("standard input closed", "standard input is closed", before=INPUT_CLOSED)
    yield refuses("standard output closed", "standard output is closed", before=OUTPUT_CLOSED)
    yield refuses("help without an output", "standard output cannot be written", "--help", before=OUTPUT_CLOSED)
    yield unreadable("a digit too many", b"4e 0400\n  4E0", "2:5")
    yield unreadable("digits apart", b"4 e", "1:1")
    yield unreadable("a digit by itself before a remark", b"52\n\n5# 2", "3:1")
    yield unreadable("a letter", b"zz", "1:1")
    yield unreadable("a letter behind a digit", b"# zz\n52 5g", "2:5")
    yield unreadable("a prefix", b"0x52", "1:2")
    yield unreadable("a byte beyond ASCII", b"52 \xc3\xa9", "1:4")
    yield unreadable("a byte order mark", b"\xef\xbb\xbf52", "1:1")
    yield unreadable("a zero byte", b"52\0zz", "1:3")


def failures(heap: Path) -> Iterator[str]:
    """Reads and writes that fail while it runs: status 1."""
    wants("a folder as input", ran(heap, before="exec <.;"), 1, said="standard input: ")
    yield "a folder as input"
    full = ran(heap, given=FILE, before="exec >/dev/full;")
    wants("no room for the output", full, 1, said="standard output: ")
    yield "no room for the output"
    # more than a pipe holds
    gone = ran(heap, given=b"R" * 65536, before="exec > >(head -n 1 >/dev/null);")
    wants("the reader has gone", gone, 1)
    yield "the reader has gone"


# as rt does, it works in the crate's folder, and leaves a program that would be the same
RT = """#!/bin/sh
crate=${PWD##*/}
cd ../..
echo "$@" >>rt.log
echo "rt: stand-in at work"
[ ! -e broken ] || exit 1
[ ! -e meanwhile ] || { sleep 0.1; touch crates/heap/src/main.rt; }
printf '#!/bin/sh\\n[ $# = 0 ] || echo %s "$@"; cat; %s\\n' "$crate" "$(cat says 2>/dev/null)" >made
chmod +x made
mkdir -p "crates/$crate/out"
cmp -s made "crates/$crate/out/$crate" || cp made "crates/$crate/out/$crate"
[ ! -e wrong ] || exit 1
[ ! -e killed ] || kill -9 $PPID
"""
# a second line of the table of subcommands, below the first
FIRST = re.compile("^ *\"\\$1\" '' heap .*\n", re.M)
SECOND = "  \"$1\" page pages 'WHO WHEN' 'a page'\n"


class Repository:
    """The scripts over two crates, whose programs print their words and what they read, and an rt that notes its calls. The second
    is that of a subcommand."""

    def __init__(self, folder: Path):
        self.folder, self.heap = folder, folder / "heap"
        for script in ("heap", "build"):
            shutil.copy(ROOT / script, folder)
        table, count = FIRST.subn(lambda line: line[0] + SECOND, self.heap.read_text())
        if count != 1:
            raise Wrong("the table of subcommands has no first line")
        self.heap.write_text(table)
        for crate in ("pages", "heap"):
            self.source = folder / "crates" / crate / "src" / "main.rt"
            self.source.parent.mkdir(parents=True)
            self.source.write_text("")
        (folder / "crates.txt").write_text("heap:\npages:\n")
        (folder / "tools").mkdir()
        self.rt = folder / "tools" / "rt"
        self.rt.write_text(RT)
        self.rt.chmod(0o755)
        elsewhere = (part for part in os.environ["PATH"].split(":") if not (Path(part) / "rt").exists())
        self.path = os.environ | {"PATH": ":".join((str(folder / "tools"), *elsewhere))}

    def ran(self, *words: str) -> Done:
        return ran(self.heap, *words, given=b"given\n", env=self.path)

    def builds(self) -> int:
        log = self.folder / "rt.log"
        return len(log.read_text().splitlines()) if log.exists() else 0

    def wants(self, name: str, builds: int, *words: str, status: int = 0, out: bytes = b"given\n", said: str = "") -> str:
        """What it does, and how often anything was built by then."""
        wants(name, self.ran(*words), status, out, said)
        if self.builds() != builds:
            raise Wrong(f"{name}: built {self.builds()} times, and not {builds}")
        return name


def building(folder: Path) -> Iterator[str]:
    made = Repository(folder)
    at_work = "stand-in at work"
    yield made.wants("a mistake builds nothing", 0, "--none", status=2, out=b"", said="--none")
    yield made.wants("a missing file builds nothing", 0, "missing", status=2, out=b"", said="missing")
    if b"Exit status" not in made.ran("--help").out or made.builds():
        raise Wrong("help builds, or is none")
    yield made.wants("first use builds", 1, said=at_work)
    yield made.wants("the second does not", 1)
    os.utime(made.source)
    yield made.wants("a file of crates/ is newer", 2, said=at_work)
    yield made.wants("and then no more", 2)
    os.utime(folder / "crates.txt")
    yield made.wants("crates.txt is newer", 3, said=at_work)
    (made.source.parent / "new.rt").write_text("")
    yield made.wants("a file is new", 4, said=at_work)
    (made.source.parent / "new.rt").unlink()
    yield made.wants("a file is gone", 5, said=at_work)
    os.utime(made.heap)
    yield made.wants("a script is newer", 5)
    os.utime(made.source)
    (folder / "meanwhile").write_text("")
    yield made.wants("a file is written while it builds", 6, said=at_work)
    (folder / "meanwhile").unlink()
    yield made.wants("and is built the next time", 7, said=at_work)
    os.utime(made.source)
    (folder / "broken").write_text("")
    yield made.wants("a failed build", 8, status=2, out=b"", said="was not built")
    yield made.wants("and again, though there is a program", 9, status=2, out=b"", said="was not built")
    (folder / "broken").rename(folder / "wrong")
    (folder / "says").write_text("true")
    yield made.wants("a program that is made and found wrong", 10, status=2, out=b"", said="was not built")
    yield made.wants("is not run the next time", 11, status=2, out=b"", said="was not built")
    (folder / "wrong").rename(folder / "killed")
    (folder / "says").write_text("true; true")
    yield made.wants("a build that is killed", 12, status=2, out=b"", said=at_work)
    (folder / "killed").unlink()
    yield made.wants("begins again", 13, said=at_work)
    (folder / "crates" / "heap" / "out" / "kept").write_text("")
    yield made.wants("what rt keeps is newer", 13)
    (folder / "target" / "bin" / "heap").unlink()
    shutil.rmtree(folder / "crates" / "heap" / "out")
    subprocess.run([made.rt, "run"], cwd=folder / "crates" / "heap", stdout=subprocess.DEVNULL, check=True)
    yield made.wants("a program that rt made by itself", 14)
    os.utime(made.source)
    made.rt.rename(folder / "gone")
    yield made.wants("no toolchain", 14, status=2, out=b"", said="not on the path")
    (folder / "gone").rename(made.rt)
    (folder / "says").write_text("echo standard output: no room >&2")
    made.ran()
    yield made.wants("the program says that it failed", 15, status=1, said="standard output: no room")
    os.utime(made.source)
    (folder / "says").write_text("kill -9 $$")
    made.ran()
    yield made.wants("the program is ended", 16, status=1, said="ended by signal 9")
    (folder / "target" / "bin" / "heap").write_bytes(b"\x7fELF of another machine")
    yield made.wants("a program of another machine", 16, status=2, out=b"", said="cannot be run here")


def subcommands(folder: Path) -> Iterator[str]:
    made = Repository(folder)
    (folder / "a.hex").write_text("41")
    (folder / "page").write_bytes(b"a file\n")
    made.ran("page", "me", "now")
    yield made.wants("a subcommand of standard input", 1, "page", "me", "now", out=b"pages me now\ngiven\n")
    yield made.wants("of a file", 1, "page", "me", "now", str(folder / "a.hex"), out=b"pages me now\nA")
    yield made.wants("with a word too few", 1, "page", "me", status=2, out=b"", said="WHO WHEN")
    yield made.wants("with a file too many", 1, "page", "me", "now", "a", "b", status=2, out=b"", said="one file at a time")
    yield made.wants("a file of its name", 2, str(folder / "page"), out=b"a file\n", said="stand-in at work")
    if b"./heap page WHO WHEN [FILE]" not in made.ran("--help").out:
        raise Wrong("the help does not have all subcommands")


def main() -> None:
    built()
    heap, names = ROOT / "heap", []
    with tempfile.TemporaryDirectory() as folder:
        files, one, other = (Path(folder) / name for name in ("files", "one", "other"))
        for each in (files, one, other):
            each.mkdir()
        try:
            for some in (inputs(heap, files), mistakes(heap, files), failures(heap), building(one), subcommands(other)):
                names.extend(some)
        except Wrong as wrong:
            sys.exit(f"command line: {wrong}")
    print(f"command line: {len(names)} ways to call ./heap are answered as they should be")


if __name__ == "__main__":
    main()
