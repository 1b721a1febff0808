"""What a script tried, what failed, and what it left out and why: counted, and told in its last line.

Each script of this folder ends with a line `SCRIPT: 12 run, 0 failed, 1 left out`, which tests/program reads.
"""
from __future__ import annotations

import pathlib
import re
import signal
import sys
import traceback
from collections.abc import Callable, Iterable
from dataclasses import dataclass, field

from wire import PROGRAM, is_built

HERE = str(pathlib.Path(__file__).parent)
LAST = re.compile(r"(?m)^[\w/]+: (\d+) run, (\d+) failed, (\d+) left out$")


@dataclass
class Counts:
    """How many parts were run, how many of them failed, and how many were left out."""

    run: int = 0
    failed: int = 0
    left_out: int = 0

    def add(self, other: Counts) -> None:
        self.run += other.run
        self.failed += other.failed
        self.left_out += other.left_out

    def __str__(self) -> str:
        return f"{self.run} run, {self.failed} failed, {self.left_out} left out"


@dataclass
class Tally:
    """The counts of one script, which prints each failure as soon as it is found."""

    script: str
    counts: Counts = field(default_factory=Counts)

    def tried(self, wrong: Iterable[str]) -> None:
        """One part was run, and this is wrong in it."""
        self.counts.run += 1
        found = list(wrong)
        self.counts.failed += bool(found)
        for line in found:
            print(line, flush=True)

    def runs(self, part: Callable[..., Iterable[str]], *given: object) -> None:
        """Runs a part; one that ends by an exception has failed."""
        try:
            self.tried(part(*given))
        except Exception as error:  # each failure is told, and what is left is tried
            frames = traceback.extract_tb(error.__traceback__)
            at = [frame for frame in frames if frame.filename.startswith(HERE)][-1]
            place = f"line {at.lineno} of {pathlib.Path(at.filename).name}"
            self.tried([f"{getattr(part, '__name__', part)} ended by {type(error).__name__} in {place}: {error}"])

    def leaves_out(self, what: str, why: str) -> None:
        self.counts.left_out += 1
        print(f"left out: {what}: {why}", flush=True)

    def close(self) -> int:
        """Prints the last line, and answers the status of the script. Where nothing was tried or left out, as where a
        name is no part's, it has failed."""
        if not self.counts.run and not self.counts.left_out:
            self.tried(["nothing was tried"])
        print(f"{self.script}: {self.counts}")
        return 1 if self.counts.failed else 0


def told(output: str) -> Counts | None:
    """What the last such line of a script says, if it has one."""
    lines = LAST.findall(output)
    return Counts(*(int(number) for number in lines[-1])) if lines else None


def give_up(script: str, why: str) -> None:
    """Ends a script that can't begin: one line, and a failure."""
    print(f"{script}: {why}")
    print(f"{script}: {Counts(1, 1, 0)}")
    sys.exit(1)


def takes_program(script: str) -> None:
    """Ends the script with one line and a failure where the program isn't built."""
    if not is_built():
        give_up(script, f"{PROGRAM} is not there: make builds it")


def status_of(main: Callable[[], int]) -> int:
    """The status of a script. Where nobody reads on, as behind `| head`, it clears up as after any exception, and ends
    by SIGPIPE, without a word."""
    try:
        try:
            return main()
        finally:
            sys.stdout.flush()
    except BrokenPipeError:
        signal.signal(signal.SIGPIPE, signal.SIG_DFL)
        print(flush=True)
        raise  # it was another pipe
