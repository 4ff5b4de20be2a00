"""Tries wrong definitions on the table of cases, many in one run of the prover. A crate is made of the model in which each wrong
definition has its own copy of its file, of the files that rest on it and of the table. In the copy `all-rows` says that
`every rows` is false: the number 0 has the type `Told (every rows)`, and `Told` of true is no type of numbers. (`≡ false` by `refl` says
the same, and takes twice as long.) Where that is proved, a row refuses the definition. Where it is not, a second crate says
that `every rows` is true: where that is proved, the table accepts it."""
import os
import pathlib
import re
import signal
import subprocess
import tempfile

REFUSED, UNTYPED, ACCEPTED, UNENDED = "refused by a row", "does not type", "accepted", "does not end"
TABLE = "Cases"
NOT_TOLD = "`all-rows`: the numeral `0` is checked against `Told (every rows)`"
FACT = ("all-rows : every rows ≡ true\nunfolding ", "all-rows = refl")
# what a change may name for the first time in its file
IMPORTED = ["take", "ltb", "leb", "eqb", "true", "false", "[]", *(f"◌{op}◌" for op in ("+", "-", "*", "/", "%", "&&", "||"))]
SECONDS = 120  # for a run of the prover, and a quarter of it for each wrong definition in it

# The rows that most often tell a wrong definition of a file apart. They are put first: of a wrong definition only the rows up to the
# first wrong one are computed
FIRST = {
    "Records": ["cases", "access_rows", "cell_rows"],
    "Barrier": ["limit_rows", "access_rows"],
    "Heap": ["room_rows", "size_rows"],
    "Image": ["cases", "room_rows", "form_rows", "size_rows"],
    "Nursery": ["nursery_rows", "limit_rows"],
    "Elder": ["log_rows", "elder_rows", "room_rows"],
    "Collector": ["access_rows", "report_rows", "log_rows"],
    "Calls": ["asked_rows", "report_rows", "size_rows"],
    "Figure": ["figure_rows"],
    "Command": ["command_rows"],
    "Run": ["command_rows"],
    "Listing": ["command_rows"],
}


class Model:
    def __init__(self, folder, names):
        self.folder = folder
        self.source = (folder / "src/lib.rt").read_text()
        self.text = {name: (folder / f"specs/{name}.antt").read_text() for name in names}
        self.text[TABLE] = (folder / f"proofs/{TABLE}.antt").read_text()
        uses = {name: set(re.findall(r"^use Rattle\.model\.specs\.(\w+)\.", text, re.M)) for name, text in self.text.items()}
        # the files that rest on a file, itself among them
        self.above = {name: {name} for name in self.text}
        for name in self.text:
            for other in self.text:
                if uses[other] & self.above[name]:
                    self.above[name].add(other)


def imports(text, new):
    """The text with `use` lines for what a change names for the first time"""
    lines = ""
    for name in IMPORTED:
        word = name.strip("◌")
        used = re.search(rf"(?<!\S)\(?{re.escape(word)}(?!\S)" if not word.isalpha() else rf"\b{word}\b", new)
        if used and not re.search(rf"^use \S+\{{(?:.*, )?{re.escape(name)}(?:, .*)?\}}$", text, re.M):
            lines += f"use Rattle.std.specs.Prelude.{{{name}}}\n"
    return re.sub(r"^use ", lines + "use ", text, count=1, flags=re.M)


def changed(text, mutant):
    return imports(text[:mutant.start] + mutant.new + text[mutant.end:], mutant.new)


def told(text, value):
    """The table, with the fact that `every rows` is this value"""
    told = f"Told : Bool → Type 0\nTold true = {'ℕ' if value == 'true' else 'Bool'}\nTold false = {'ℕ' if value == 'false' else 'Bool'}\n\n"
    for part in FACT:
        if text.count(part) != 1:
            raise SystemExit(f"Cases.antt: {part!r} is looked for, and not there once")
    return text.replace(FACT[0], f"{told}all-rows : Told (every rows)\nunfolding Told ").replace(FACT[1], "all-rows = 0")


def in_order(lists, first):
    return " ++ ".join(first + [name for name in lists if name not in first])


def build(model, mutants, value, folder):
    """The crate: the files of the model, and of each mutant those that its change reaches"""
    specs, proofs = folder / "specs", folder / "proofs"
    for part in (specs, proofs, folder / "src"):
        part.mkdir(parents=True)
    (folder / "src/lib.rt").write_text(model.source)
    modules = [name for name in model.text if name != TABLE]
    for name in modules:
        (specs / f"{name}.antt").write_text(model.text[name])
    for k, mutant in enumerate(mutants):
        reached = [name for name in model.text if name in model.above[mutant.file] or name == TABLE]
        for name in reached:
            text = changed(model.text[name], mutant) if name == mutant.file else model.text[name]
            text = re.sub(r"(?<=^use Rattle\.model\.specs\.)(\w+)(?=\.)", lambda m: f"M{k}{m[0]}" if m[0] in reached else m[0], text, flags=re.M)
            if name == TABLE:
                text = told(text, value)
                text = re.sub(r"(?<=^rows = ).*$", lambda m: in_order(m[0].split(" ++ "), FIRST.get(mutant.file, [])), text, flags=re.M)
            (proofs if name == TABLE else specs).joinpath(f"M{k}{name}.antt").write_text(text)
            modules += [f"M{k}{name}"] * (name != TABLE)
    (specs / "Lib.antt").write_text("".join(f"pub mod {name}\n" for name in modules))
    (proofs / "Lib.antt").write_text("".join(f"pub mod M{k}{TABLE}\n" for k in range(len(mutants))))


def checked(folder, seconds):
    """What the prover says of a crate, or nothing if it takes longer"""
    run = subprocess.Popen(["rt", "check", folder.name], cwd=folder, stdout=subprocess.PIPE, stderr=subprocess.STDOUT, text=True, start_new_session=True)
    try:
        return run.communicate(timeout=seconds)[0]
    except subprocess.TimeoutExpired:
        os.killpg(run.pid, signal.SIGKILL)
        run.communicate()
        return ""


def proved(model, mutants, value):
    """For each mutant: True if the fact of its table is proved, False if it is not, None if the prover cannot tell (its table
    is more than it can compute), UNTYPED if another declaration is refused. Nothing at all if the prover did not end"""
    with tempfile.TemporaryDirectory() as temporary:
        folder = pathlib.Path(temporary) / "model"
        build(model, mutants, value, folder)
        said = checked(folder, SECONDS * (1 + len(mutants) / 4))
    if not re.search(r"^logic=", said, re.M):
        return None
    facts = [True] * len(mutants)
    for file, message in re.findall(r"^\./(?:specs|proofs)/(\w+)\.antt:\d+:\d+: error: (.*)", said, re.M):
        copy = re.fullmatch(r"M(\d+)([A-Z]\w+)", file)
        if not copy:
            raise SystemExit(f"{file}: {message}")
        k = int(copy[1])
        if copy[2] != TABLE or not message.startswith("`all-rows`: "):
            facts[k] = UNTYPED
        elif facts[k] is True:
            facts[k] = False if message.startswith(NOT_TOLD) else None
    return facts


def verdicts(model, mutants, value="false"):
    """What the table says of each; `value` is what `every rows` is expected to be"""
    first = proved(model, mutants, value)
    if first is None:
        if len(mutants) == 1:
            return [UNENDED]
        half = len(mutants) // 2
        return verdicts(model, mutants[:half], value) + verdicts(model, mutants[half:], value)
    name, other = ((REFUSED, ACCEPTED) if value == "false" else (ACCEPTED, REFUSED))
    found = [name if v is True else UNENDED if v is None else v for v in first]
    left = [k for k, v in enumerate(found) if v is False]
    second = proved(model, [mutants[k] for k in left], "true" if value == "false" else "false") if left else []
    for place, k in enumerate(left):
        found[k] = other if second and second[place] is True else UNENDED
    return found
