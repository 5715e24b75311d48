"""Wrong models, by which the comparison is seen to work.

    python3 wrong.py PROGRAM [FIRST_SEED] [HISTORIES]

Each wrong model is the model with one small change of one rule. The program plays the aimed
histories and HISTORIES random ones (60 by itself), until each wrong model has come to a reply that
isn't the program's. Each is printed with the first history that shows it; the status is 1 where
one is shown by none. What it needs is what `compare` needs.
"""

import argparse
import sys
import tempfile
from typing import List, Optional

import compare  # which makes the model's modules found
import wrong_grants
import wrong_keys
import wrong_steps
import wrong_views
from program import Program
from record import History
from registry import Registry
from wrong_rules import ALL, WrongRule

# importing them enters their wrong models in ALL
FAMILIES = (wrong_steps, wrong_views, wrong_keys, wrong_grants)


def shows(history: History, replies: List[List[str]]) -> bool:
    """Whether the model, as it is now, answers a line otherwise than the program did."""
    registry: Optional[Registry] = None
    try:
        for lines, found in zip(history.runs, replies):
            registry = Registry() if registry is None else registry.opened_again()
            if [registry.answer(line.moment, line.text) for line in lines] != found:
                return True
    except (LookupError, RecursionError, ValueError):
        return True  # a wrong model may come to facts that no right one has
    return False


def search(program: Program, first_seed: int, number: int) -> List[WrongRule]:
    """Plays histories until all wrong models are shown; gives those that aren't."""
    hidden = list(ALL)
    for history in compare.all_histories(first_seed, number):
        replies = program.play(history)
        for wrong in list(hidden):
            with wrong.in_force():
                shown = shows(history, replies)
            if shown:
                print(f"{wrong.title}: {history.title}", flush=True)
                hidden.remove(wrong)
        if not hidden:
            break
    return hidden


def main() -> int:
    """Reads the words of the command line."""
    parser = argparse.ArgumentParser(description="Shows that wrong models are seen.")
    parser.add_argument("program")
    parser.add_argument("first_seed", nargs="?", type=int, default=1)
    parser.add_argument("histories", nargs="?", type=int, default=60)
    words = parser.parse_args()
    with tempfile.TemporaryDirectory() as folder:
        hidden = search(Program(words.program, folder), words.first_seed, words.histories)
    for wrong in hidden:
        print(f"{wrong.title}: not seen")
    print(f"wrong models {len(ALL)}, seen {len(ALL) - len(hidden)}")
    return int(bool(hidden))


if __name__ == "__main__":
    sys.exit(main())
