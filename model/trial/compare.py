"""Compares the program with the model, reply by reply and byte by byte.

    python3 compare.py PROGRAM [FIRST_SEED] [HISTORIES] [--counts] [--together N]

PROGRAM is the registry's program. It plays the aimed histories and then HISTORIES random ones
(100 by itself) from FIRST_SEED on (1 by itself), with a clock that is handed to it, and each reply
has to be the model's. The first differences are printed with the history, the line, the clock,
what was wanted and what was found; the status is 1 where there is one. With --counts the answers
to each operation are counted, and those named that never came. With --together N the program
answers up to N lines together.

It needs python3 (3.8 or later, nothing beside its own library), `cc` for the clock, and a program
that is linked dynamically, since the clock is put before the one of the C library.
"""

import argparse
import os
import sys
import tempfile
from itertools import zip_longest
from typing import Iterator, List, NamedTuple

# the model is in the folder above
sys.path.insert(0, os.path.dirname(os.path.dirname(os.path.abspath(__file__))))

import aimed
import counts
import histories
from program import Program
from record import History, Line

SHOWN = 5
LONGEST_SHOWN = 2000
NO_LINE = Line(0, "none", "nothing")


class Difference(NamedTuple):
    """A reply that isn't the one wanted."""

    history: str
    run: int
    place: int
    line: Line
    found: str

    def show(self) -> None:
        """Prints all that is needed to look into it."""
        print(f"{self.history}: run {self.run}, line {self.place}, clock {self.line.moment}")
        for name, text in [
            ("line  ", self.line.text), ("wanted", self.line.wanted), ("found ", self.found),
        ]:
            print(f"  {name} {text[:LONGEST_SHOWN]}")


def differences(history: History, replies: List[List[str]]) -> Iterator[Difference]:
    """Where the replies of the program aren't those that the history wants."""
    for run, (lines, found) in enumerate(zip(history.runs, replies), start=1):
        pairs = zip_longest(lines, found, fillvalue=None)
        for place, (line, reply) in enumerate(pairs, start=1):
            if line is None or reply != line.wanted:
                yield Difference(
                    history.title, run, place, line or NO_LINE, reply or "nothing"
                )


def all_histories(first_seed: int, number: int) -> Iterator[History]:
    """The aimed ones and then random ones."""
    yield from aimed.histories()
    for seed in range(first_seed, first_seed + number):
        yield histories.history(seed)


def compare(program: Program, first_seed: int, number: int, count: bool) -> int:
    """Plays all, prints what there is to say, and gives the number of differences."""
    played = requests = different = 0
    answers = counts.Answers()
    for history in all_histories(first_seed, number):
        played += 1
        for line in history.lines():
            requests += 1
            answers.add(line)
        for difference in differences(history, program.play(history)):
            different += 1
            if different <= SHOWN:
                difference.show()
    if count:
        answers.show()
    print(f"histories {played}, requests {requests}, differences {different}")
    return different


def main() -> int:
    """Reads the words of the command line."""
    parser = argparse.ArgumentParser(description="Compares the program with the model.")
    parser.add_argument("program")
    parser.add_argument("first_seed", nargs="?", type=int, default=1)
    parser.add_argument("histories", nargs="?", type=int, default=100)
    parser.add_argument("--counts", action="store_true")
    parser.add_argument("--together", type=int, default=0)
    words = parser.parse_args()
    with tempfile.TemporaryDirectory() as folder:
        program = Program(words.program, folder, words.together)
        return int(compare(program, words.first_seed, words.histories, words.counts) > 0)


if __name__ == "__main__":
    sys.exit(main())
