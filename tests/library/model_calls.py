#!/usr/bin/env python3
"""The library against the definitions: model_calls.py SEED COUNT [--library FILE] [--model FOLDER]

COUNT random scenarios of library calls (scenarios.py) become facts about the model's `call`, which `rt check` proves by
computing: the same answers, in the clear, and the same digest of image and roots after each call. Every question from 1 to 11,
and 15, must have refused some call. Where a fact does not hold, its scenario is made as short as possible and shown with both results.
"""
import argparse
import sys
import tempfile
from collections import Counter
from pathlib import Path

from library import ROOT, Broken, Library, built

from scenarios import Scenario, play
from shorten import shortened
from steps import FACTOR, PRIME, Gave, World, digest, listed
from workbench import COMPARING, Workbench

QUESTIONS = (*range(1, 12), 15)
# a word or a digest has at most so many decimal digits, and so many of them are printed whole in a message of the checker
DIGITS, SHOWN = 20, 5

HEADER = f"""\
-- Scenarios of library calls as facts about the model.
use Rattle.std.specs.Prelude.{{◌≡◌, refl, Bool, true, false, ◌&&◌, cond, List, [], ◌∷◌, ◌++◌, ℕ, ◌+◌, ◌*◌, ◌%◌, eqb, leb, take, drop, replicate, set}}
use Rattle.model.specs.Res.{{Res, ok, refuse}}
use Rattle.model.specs.Records.{{Ptr}}
use Rattle.model.specs.Heap.{{Sizes, in_bounds}}
use Rattle.model.specs.Image.{{image_length}}
use Rattle.model.specs.Figure.{{Figure, figure as figure_of}}
use Rattle.model.specs.Calls.{{Outcome, Call, allocs, reads, writes, call, report_call, new_call, scratch_length}}

{COMPARING}
data Step : Type 0 where
  put : ℕ → ℕ → Step
  new : ℕ → ℕ → ℕ → ℕ → Step
  alloc : List ℕ → ℕ → ℕ → ℕ → Step
  read : ℕ → ℕ → ℕ → Step
  write : ℕ → ℕ → ℕ → List ℕ → Step
  report : Step
  figure : ℕ → Step
  measure : ℕ → ℕ → ℕ → ℕ → ℕ → Step

digest : ℕ → List ℕ → ℕ
digest d [] = d
digest d (w ∷ ws) = digest ((d * {FACTOR} + w + 1) % {PRIME}) ws

sizes : ℕ → ℕ → ℕ → ℕ → Sizes
sizes n t s c = record {{ n = n; t = t; s = s; c = c }}

pointer : ℕ → ℕ → ℕ → Ptr
pointer h b o = record {{ heap = h; base = b; off = o }}

lengths : ℕ → ℕ → ℕ → ℕ → ℕ → List ℕ
lengths n t s c r =
    cond (in_bounds (sizes n t s c)) (image_length (sizes n t s c)) 0
    ∷ cond (in_bounds (sizes n 0 s c) && leb r 4096) (scratch_length (sizes n 0 s c) r) 0
    ∷ []

figure_words : Res Figure → Res (List ℕ)
figure_words (ok f) = ok (cond f.negative 1 0 ∷ f.thousandths ∷ [])
figure_words (refuse q) = refuse q

did : Step → List ℕ → Outcome
did (put i x) w = record {{ answer = ok []; image = set w i x; roots = [] }}
did (new n t s c) w = new_call (sizes n t s c) w
did (alloc roots k scratch amount) w = call (allocs (roots ++ replicate k 0) scratch amount) w
did (read h b o) w = call (reads (pointer h b o)) w
did (write h b o value) w = call (writes (pointer h b o) value) w
did report w = report_call w
did (figure bits) w = record {{ answer = figure_words (figure_of bits); image = w; roots = [] }}
did (measure n t s c r) w = record {{ answer = ok (lengths n t s c r); image = w; roots = [] }}

-- the question's number, or 0, the answer's words and more
given : Res (List ℕ) → List ℕ → List ℕ
given (refuse q) more = q ∷ []
given (ok ws) more = 0 ∷ (ws ++ more)

left : Outcome → List ℕ
left o = given o.answer (digest (digest 1 o.image) o.roots ∷ [])

shown : Step → Outcome → List ℕ
shown (put i x) o = given o.answer []
shown (new n t s c) o = left o
shown (alloc roots k scratch amount) o = left o
shown (read h b o) x = given x.answer []
shown (write h b o value) x = left x
shown report o = left o
shown (figure bits) o = given o.answer []
shown (measure n t s c r) o = given o.answer []

and_then : (Outcome → List ℕ) → (List ℕ → List ℕ) → Outcome → List ℕ
and_then now next o = now o ++ next o.image

run : List Step → List ℕ → List ℕ
run [] w = digest 1 w ∷ []
run (s ∷ steps) w = and_then (shown s) (run steps) (did s w)

-- the answers alone
answers : List Step → List ℕ → List ℕ
answers [] w = []
answers (s ∷ steps) w = and_then (λ o. given o.answer []) (answers steps) (did s w)

-- the image in the end
final : List Step → List ℕ → List ℕ
final [] w = w
final (s ∷ steps) w = final steps (did s w).image

-- the numbers one behind the other, the first lowest, below a leading 1
digits : List ℕ → ℕ
digits [] = 1
digits (x ∷ xs) = x + {10**DIGITS} * digits xs
"""
OPENED = "same digest sizes pointer lengths figure_words did given left shown and_then run answers final digits"


def ours(library: Library, scenario: Scenario) -> tuple[list[Gave], tuple[int, ...]]:
    """What every step gave, and the image in the end."""
    world = World(library, scenario.length, scenario.fill)
    return [world.take(step) for step in scenario.steps], world.image.words()


def model_term(function: str, scenario: Scenario) -> str:
    steps = " ∷ ".join((*(step.term() for step in scenario.steps), "[]"))
    return f"{function} ({steps}) (replicate {scenario.length} {scenario.fill})"


def agrees(library: Library, scenario: Scenario) -> str:
    gave, image = ours(library, scenario)
    numbers = [number for one in gave for number in (*one.answer, *one.digest)]
    return f"same ({model_term('run', scenario)}) {listed((*numbers, digest(image)))} ≡ true"


def failing(bench: Workbench, library: Library, scenarios: list[Scenario]) -> list[int]:
    """The numbers of the scenarios whose results differ."""
    return bench.failing([agrees(library, scenario) for scenario in scenarios])


def computed(bench: Workbench, term: str, count: int) -> list[int | str]:
    """At most so many numbers of a list, read off what the checker says; `…` where it says nothing."""
    parts = [f"digits (take {SHOWN} (drop {at} ({term})))" for at in range(0, count, SHOWN)]
    return [number for part in bench.computed(parts, DIGITS) for number in (["…"] * SHOWN if part is None else part)]


def show(bench: Workbench, library: Library, scenario: Scenario) -> None:
    gave, image = ours(library, scenario)
    print(f"from {scenario.length} words {scenario.fill}:")
    for step in scenario.steps:
        print(f"  {step.term()}")
    numbers = [number for one in gave for number in one.answer]
    print("answers of the library:", *numbers)
    print("answers of the model:  ", *computed(bench, model_term("answers", scenario), len(numbers) + SHOWN))
    for index, (left, right) in enumerate(zip(image, computed(bench, model_term("final", scenario), len(image)))):
        if left != right:
            print(f"word {index} of the image in the end: {left} by the library, {right} by the model")


def played(seed: int, count: int, library: Library) -> tuple[list[Scenario], Counter[int]]:
    scenarios, questions = [], Counter()
    for index in range(count):
        try:
            player = play(seed, index, library)
        except Broken as broken:
            sys.exit(f"library: scenario {index} of seed {seed}: {broken}")
        scenarios.append(player.scenario)
        questions.update(player.world.questions)
    return scenarios, questions


def main() -> None:
    parser = argparse.ArgumentParser(description=__doc__, formatter_class=argparse.RawDescriptionHelpFormatter)
    parser.add_argument("seed", type=int)
    parser.add_argument("count", type=int)
    parser.add_argument("--library", type=Path, metavar="FILE", help="built already; otherwise it is built now")
    parser.add_argument("--model", type=Path, metavar="FOLDER", default=ROOT / "crates" / "model")
    options = parser.parse_args()
    library = Library(options.library or built())
    scenarios, questions = played(options.seed, options.count, library)
    if missing := [question for question in QUESTIONS if not questions[question]]:
        sys.exit(f"library: no call was refused by {missing}")
    with tempfile.TemporaryDirectory() as folder:
        bench = Workbench(Path(folder), options.model, HEADER, OPENED)
        if different := failing(bench, library, scenarios):
            print(f"library: {len(different)} of {len(scenarios)} scenarios differ from the model; one of them, shortened:")
            shortest = min((scenarios[index] for index in different), key=lambda scenario: len(scenario.steps))
            steps = shortened(
                shortest.steps,
                lambda some: failing(bench, library, [shortest._replace(steps=left) for left in some]),
            )
            show(bench, library, shortest._replace(steps=steps))
            sys.exit(1)
    refusals = ", ".join(f"{question}: {questions[question]}" for question in QUESTIONS)
    print(f"library: {len(scenarios)} scenarios, {questions.total()} calls agree with the model")
    print(f"library: {questions[0]} answered; refused by {refusals}")


if __name__ == "__main__":
    main()
