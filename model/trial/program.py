"""The program under trial: its journal, its input, and the clock that it is given."""

import os
import subprocess
from pathlib import Path
from typing import List

from record import History, Line

CLOCK_SOURCE = Path(__file__).with_name("clock.c")


class Program:
    """A program that is linked dynamically, with the clock shim before it."""

    def __init__(self, path: str, folder: str, together: int = 0) -> None:
        """Where a number is given, up to so many lines are answered together."""
        self.words = ["apply"] + (["--together", str(together)] if together else [])
        self.path = str(Path(path).resolve())
        self.folder = Path(folder)
        self.shim = self.folder / "clock.so"
        command = ["cc", "-O1", "-shared", "-fPIC", "-o", self.shim, CLOCK_SOURCE, "-ldl"]
        subprocess.run([str(word) for word in command], check=True)

    def play(self, history: History) -> List[List[str]]:
        """The replies of each run of a history, over one new journal."""
        journal = self.folder / "journal"
        if journal.exists():
            journal.unlink()
        subprocess.run([self.path, str(journal), "init"], check=True, cwd=self.folder)
        return [self.run(journal, lines) for lines in history.runs]

    def run(self, journal: Path, lines: List[Line]) -> List[str]:
        """The replies to the lines of one run.

        Behind each line stand one of no bytes and one of a CR: both are skipped, without a reply
        and without a reading of the clock. Where the program ends with another status than 0, that
        is told behind the replies.
        """
        readings = self.folder / "clock.txt"
        readings.write_text("".join(f"{line.moment}\n" for line in lines))
        environment = dict(os.environ, CLOCK_LIST=str(readings), LD_PRELOAD=str(self.shim))
        done = subprocess.run(
            [self.path, str(journal), *self.words],
            input="".join(f"{line.text}\n\n\r\n" for line in lines).encode(),
            stdout=subprocess.PIPE,
            env=environment,
            cwd=self.folder,
            check=False,
        )
        replies = done.stdout.decode().split("\n")[:-1]
        return replies + ([f"ended with status {done.returncode}"] if done.returncode else [])
