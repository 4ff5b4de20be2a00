#!/usr/bin/env python3
"""What the documents name is there. Prints file and line of each miss.

    tests/documents/names.py

- A link leads to a file, and its anchor to a heading.
- A path, or a file's name in backticks, is one of the repository. NAME, EDIT and the like stand for any; target/ is left out.
- In docs/DEMANDS.md `crate/edit` is an edit. Names right before a file in brackets, as in `a`, `b` and `c` (M/File), are words of
  that file; M/, S/ and P/ are model's specs, theorems' specs and theorems' proofs. A sentence in quotes at the beginning of a row
  stands in the request, or in document 01 or 02.
- In the documents of NAMED a name in backticks is a word of the code; in an indented block one with _, :: or a capital inside is.
  The parts of a::b or Record.field are words of one file, and of one of the crate's if a is a crate.

The code is all but documents and edits, without comments, and the published Rust. The Rust, the request and documents 01 and 02 lie
in GC_SOURCE, or ../shared/docs. Where they are not, PUBLISHED stands for the Rust, and sentences are not looked up."""
import os
import re
import sys
from collections.abc import Iterator
from functools import cache
from pathlib import Path

ROOT = Path(__file__).resolve().parents[2]
SOURCE = Path(os.environ.get("GC_SOURCE", ROOT.parent / "shared/docs"))
DOCUMENTS = ("README.md", "CONTRIBUTING.md", "docs/*.md", "docs/changes/*.md", "tests/*/README.md")
NAMED = ("docs/ARCHITECTURE.md", "docs/DEMANDS.md", "docs/DECISIONS.md", "docs/TRUSTED.md", "docs/GLOSSARY.md", "CONTRIBUTING.md")
DEMANDS = "docs/DEMANDS.md"
SHORT = {"M/": "crates/model/specs/", "S/": "crates/theorems/specs/", "P/": "crates/theorems/proofs/"}

# names of the published Rust that documents cite, and that stand nowhere else in the repository
PUBLISHED = set("clear_all dec dec_all inc on_write remembered_masks should_collect update_ptr update_remappings".split())
PUBLISHED_FILES = {"lib.rs", "generation.rs", "error.rs", "01-scope.md", "02-change-requests.md"}

NAME = r"[A-Za-z_][\w']*(?:-[\w']+)*"
SPAN = re.compile(r"`([^`]+)`")
LINK = re.compile(r"\[[^\]]*\]\(([^)\s]+)\)")
PATH = re.compile(r"(?<![\w/.-])(?:crates|tests|rust|examples|include|docs)/[\w./*+-]*")
FILE = re.compile(r"[\w.*+-]+(?:/[\w.*+-]+)*\.(?:antt|rt|rs|py|toml|txt|md|hex|h|c|edit)")
ANY = re.compile(r"\b(?:NAME|FILE|EDIT|FUNCTION|R-n)\b")
# what begins as a file in brackets, and what can be read as one, behind its names
BRACKET = re.compile(r"\(`?(?:[MSP]|crates|tests|rust|include)/[^()]*\)")
READ = re.compile(r"\(`?([MSP]/\w+|[\w/.+-]+)`?\)")
NAMES = re.compile(r"(?:`[^`]+`(?:, and |, or |, | and | or ))*`[^`]+` \Z")
BLOCK = re.compile(r"(?<![\w/.:-])(\w*_\w+|[a-z]+[A-Z]\w*|\w+(?:::\w+)+)(?![\w/]|::|[.-]\w)")
COMMENT = {".rt": r"//.*", ".rs": r"//.*", ".antt": r"(?:^|(?<=\s))--(?=\s|$).*"}


# ---- What there is


@cache
def files() -> list[str]:
    """The repository's, without what is built."""
    found = []
    for folder, inner, names in os.walk(ROOT):
        inner[:] = [name for name in inner if name not in (".git", "target", "out", "__pycache__")]
        found += [str(Path(folder, name).relative_to(ROOT)) for name in names]
    return sorted(found)


def words(text: str, antt: bool = False) -> set[str]:
    """A quote is a part of antt's names alone."""
    text = text if antt else text.replace("'", " ")
    return {*re.findall(NAME, text), *re.findall(r"[A-Za-z_][\w']*", text)}


@cache
def code() -> dict[str, set[str]]:
    """The words of each file that is no document, with the names that lead to it."""
    found = {}
    for name in files():
        path = Path(name)
        if path.suffix in (".md", ".edit") or path.name == Path(__file__).name or path.parts[0] == "docs":
            continue
        text = re.sub(COMMENT.get(path.suffix, r"\Z"), "", (ROOT / name).read_text(errors="replace"), flags=re.M)
        found[name] = {*words(text, path.suffix == ".antt"), *path.parts, path.stem}
    rust = {path.name: words(re.sub(COMMENT[".rs"], "", path.read_text())) for path in SOURCE.glob("src--*.rs.txt")}
    return found | (rust or {"published": PUBLISHED})


@cache
def everything() -> set[str]:
    return set().union(*code().values())


@cache
def edits() -> set[str]:
    found = (Path(name).parts for name in files() if name.endswith(".edit"))
    return {f"{parts[1] if parts[0] == 'crates' else parts[2]}/{parts[-1][:-5]}" for parts in found}


@cache
def crates() -> set[str]:
    return {name.split("/")[1] for name in files() if name.startswith("crates/")}


@cache
def headings(document: Path) -> set[str]:
    """As anchors."""
    found = re.findall(r"^#+ (.*)", document.read_text(), re.M)
    return {re.sub(r"[^\w\- ]", "", heading.lower()).replace(" ", "-") for heading in found}


@cache
def sentences() -> str:
    papers = ("MISSION.md", "01-scope.md", "02-change-requests.md")
    texts = [(SOURCE / name).read_text() for name in papers if (SOURCE / name).is_file()]
    return " ".join(" ".join(texts).split())


# ---- What is not there


def links(document: str, line: str) -> Iterator[str]:
    for target in LINK.findall(SPAN.sub("", line)):
        name, _, anchor = target.partition("#")
        path = (ROOT / document).parent / name if name else ROOT / document
        if "://" in target:
            continue
        if not path.exists():
            yield f"the link leads nowhere: {target}"
        elif anchor and anchor not in headings(path.resolve()):
            yield f"no heading has the anchor: {target}"


def paths(line: str) -> Iterator[str]:
    for name in (found.rstrip("./") for found in PATH.findall(line)):
        if "/target/" not in name + "/" and not any(ROOT.glob(ANY.sub("*", name))):
            yield f"no such path: {name}"
    for name in (word for span in SPAN.findall(line) for word in span.split() if FILE.fullmatch(word) and not PATH.match(word)):
        pattern = re.compile("(?:.*/)?" + re.escape(ANY.sub("*", name)).replace(r"\*", "[^/]*"))
        if name not in PUBLISHED_FILES and not name.startswith("target/") and not any(map(pattern.fullmatch, files())):
            yield f"no such file: {name}"
    for name in re.findall(r"`((?:src|specs|proofs)/\w+)`", line):
        if not any(found.split("/", 2)[2].rpartition(".")[0] == name for found in files() if found.startswith("crates/")):
            yield f"no crate has it: {name}"


def demands(line: str) -> Iterator[str]:
    for name in SPAN.findall(line):
        if re.fullmatch(r"[a-z_]+/\w+", name) and name.split("/")[0] in crates() and name not in edits():
            yield f"no such edit: {name}"
    for bracket in BRACKET.finditer(line):
        file, names = READ.fullmatch(bracket[0]), NAMES.search(line, 0, bracket.start())
        if not file or not names:
            yield f"cannot be read: {bracket[0]}, " + ("with no name before it" if file else "as one file")
            continue
        name = SHORT[file[1][:2]] + file[1][2:] + ".antt" if file[1][:2] in SHORT else file[1]
        there = [found for path, found in code().items() if path == name or path.startswith(name + "/")]
        if not there:
            yield f"no such file: {file[1]}"
            continue
        for span in SPAN.findall(names[0]):
            missing = [word for word in re.findall(NAME, span) if not any(word in found for found in there)]
            if missing:
                yield f"{', '.join(missing)} of `{span}` does not stand in {file[1]}"
    for sentence in re.findall(r'^\| "([^|]*)"', line):
        if sentences() and " ".join(sentence.split()) not in sentences():
            yield f"no sentence of the request, or of document 01 or 02: {sentence}"


def is_known(name: str) -> bool:
    """Whether a name, or all parts of one of several, stand in the code."""
    parts = re.split(r"::|\.", name)
    if len(parts) == 1:
        return name in everything()
    inside = f"crates/{parts[0]}/src/" if parts[0] in crates() else ""
    return any(found.issuperset(parts) for path, found in code().items() if path.startswith(inside))


def names(line: str) -> Iterator[str]:
    for name in BLOCK.findall(SPAN.sub(" ", line)) if line.startswith("    ") else []:
        if not is_known(name):
            yield f"no such name: {name}"
    for span in SPAN.findall(line):
        single = re.fullmatch(rf"\.?({NAME}(?:(?:::|\.){NAME})*)(?:\(.*\)|<.*>)?", span)
        if single and not FILE.fullmatch(span):
            found = [single[1]] if len(single[1]) > 1 else []
        else:
            found = re.findall(rf"(?<![^\s(\[{{,;])({NAME}(?:::{NAME})*)(?![^\s)\]}},;:])", span)
            found = [name for name in found if re.search(r"^[A-Z]\w|_|[a-z][A-Z]|::|[a-z]-|-[a-z]", name)]
        yield from (f"no such name: {name}" for name in found if not is_known(name))


def lines(document: str) -> Iterator[tuple[int, str]]:
    """With their numbers, without fenced blocks; one that ends inside backticks together with the next."""
    fenced, text = False, ""
    for number, line in enumerate((ROOT / document).read_text().split("\n"), 1):
        if line.startswith("```"):
            fenced = not fenced
        elif not fenced:
            text = f"{text} {line.strip()}" if text else line
            if not line.strip() or text.count("`") % 2 == 0:
                yield number, text
                text = ""


def misses(document: str) -> Iterator[tuple[int, str]]:
    for number, line in lines(document):
        found = [*links(document, line), *paths(line)] + ["a backtick without its pair"] * (line.count("`") % 2)
        found += demands(line) if document == DEMANDS else []
        found += names(line) if document in NAMED else []
        yield from ((number, miss) for miss in dict.fromkeys(found))


def main() -> int:
    documents = sorted({str(path.relative_to(ROOT)) for pattern in DOCUMENTS for path in ROOT.glob(pattern)})
    found = [f"{document}:{number}: {miss}" for document in documents for number, miss in misses(document)]
    rust = set().union(*(words(path.read_text()) for path in SOURCE.glob("src--*.rs.txt")))
    if rust:
        found += [f"{Path(__file__).name}: PUBLISHED has {name}, which the Rust has not" for name in sorted(PUBLISHED - rust)]
    print(*found, sep="\n", end="\n" if found else "")
    print(f"documents: {len(documents)} read, {len(found)} names that are not there")
    return 1 if found else 0


if __name__ == "__main__":
    sys.exit(main())
