"""How bench/run measures: programs between pipes, the least of several turns, and the room of a process."""
from __future__ import annotations

import os
import signal
import subprocess
import sys
import time
from collections.abc import Callable, Hashable, Mapping
from typing import NoReturn, TypeVar

HERE = os.path.dirname(os.path.abspath(__file__))
TOP = os.path.dirname(HERE)
OUT = os.path.join(HERE, "out")
GUARD = os.environ.get("DERGUARD", os.path.join(TOP, "crates/derguard/out/derguard"))
WALK = os.environ.get("BENCH_WALK", os.path.join(TOP, "crates/conformance/out/conformance"))
TURNS = int(os.environ.get("BENCH_TURNS", "5"))
SECONDS = float(os.environ.get("BENCH_SECONDS", "0.3"))
page: list[str] = []
# What a measurement is called in a table of them.
Name = TypeVar("Name", bound=Hashable)
# A title, and under it a name, a ratio and its aim, if it has one.
Bar = tuple[str, float, float | None]
Chart = tuple[str, list[Bar]]


def put(line: str) -> None:
    """Prints a line. Where nobody reads on, as behind `| head`, the run ends without a word, as if by SIGPIPE."""
    try:
        print(line, flush=True)
    except BrokenPipeError:
        os.dup2(os.open(os.devnull, os.O_WRONLY), sys.stdout.fileno())
        sys.exit(128 + signal.SIGPIPE)


def say(line: str = "") -> None:
    """Prints a line, which is one of the page too."""
    put(line)
    page.append(line)


def give_up(why: str) -> NoReturn:
    sys.exit(f"bench/run: {why}")


def compile_c(program: str, *words: str) -> None:
    subprocess.run([os.environ.get("CC", "cc"), "-O2", "-o", program, *words], check=True)


class Work:
    """A folder with the modules, policies, frames and small programs of one run."""

    def __init__(self, place: str) -> None:
        self.place = place
        compile_c(self.path("strict"), os.path.join(HERE, "peer.c"), os.path.join(HERE, "strict.c"))
        for tool in ("feed", "held"):
            compile_c(self.path(tool), os.path.join(HERE, tool + ".c"))

    def path(self, name: str) -> str:
        return os.path.join(self.place, name)

    def put(self, name: str, contents: str | bytes) -> str:
        with open(self.path(name), "wb") as file:
            file.write(contents if isinstance(contents, bytes) else contents.encode())
        return self.path(name)


# ---- streams

class Stream:
    """Copies of a file of frames through a program: `cat`, `derguard run`, or one that is compared with it.

    All of them must go, or, where the status is 1, some of each copy must stay."""

    def __init__(self, work: Work, frames: str, words: list[str], status: int = 0,
                 reports_to_a_pipe: bool = False) -> None:
        self.feed, self.frames, self.words = work.path("feed"), frames, words
        self.status, self.reports_to_a_pipe = status, reports_to_a_pipe

    def seconds(self, count: int) -> float:
        """From the start of the program until it and what feeds and reads it have ended."""
        begin = time.perf_counter()
        feed = subprocess.Popen([self.feed, self.frames, str(count)], stdout=subprocess.PIPE)
        reports = subprocess.PIPE if self.reports_to_a_pipe else subprocess.DEVNULL
        program = subprocess.Popen(self.words, stdin=feed.stdout, stdout=subprocess.DEVNULL, stderr=reports)
        feed.stdout.close()
        if self.reports_to_a_pipe:
            reader = subprocess.Popen(["cat"], stdin=program.stderr, stdout=subprocess.DEVNULL)
            program.stderr.close()
            reader.wait()
        if program.wait() != (self.status if count else 0) or feed.wait():
            give_up(f"{' '.join(self.words)} ended with {program.returncode}, feed with {feed.wait()}")
        return time.perf_counter() - begin

    def writes(self, count: int = 4000) -> float:
        """How many writes the program makes for one copy, while copies are there to read, as the kernel counts them."""
        with open(self.frames, "rb") as file:
            copies = file.read() * count
        nowhere = {"stdout": subprocess.DEVNULL, "stderr": subprocess.DEVNULL}
        program = subprocess.Popen(self.words, stdin=subprocess.PIPE, **nowhere)
        before = writes_so_far(program.pid)
        program.stdin.write(copies)
        program.stdin.flush()
        made = writes_so_far(program.pid) - before
        program.stdin.close()
        program.wait()
        return made / count

    def copies(self) -> int:
        """So many that a measurement takes about SECONDS."""

        def least(count: int) -> float:
            return min(self.seconds(count) for _ in range(2))

        start, count = least(0), 16
        while (taken := least(count) - start) < SECONDS / 4:
            count *= 4
        return max(1, int(count * SECONDS / taken))


class FileStream(Stream):
    """Copies of a file of frames that lie in a file, through `run`; what goes out is put to a pipe, or to a file."""

    def __init__(self, work: Work, frames: str, words: list[str], to_a_file: bool) -> None:
        super().__init__(work, frames, words)
        self.input, self.output, self.to_a_file = work.path("many.frames"), work.path("many.out"), to_a_file

    def seconds(self, count: int) -> float:
        with open(self.input, "wb") as file:
            subprocess.run([self.feed, self.frames, str(count)], stdout=file, check=True)
        begin = time.perf_counter()
        with open(self.input, "rb") as file, open(self.output, "wb") as out:
            program = subprocess.Popen(self.words, stdin=file, stdout=out if self.to_a_file else subprocess.PIPE)
            if not self.to_a_file:
                subprocess.run(["cat"], stdin=program.stdout, stdout=subprocess.DEVNULL, check=True)
            if program.wait():
                give_up(f"{' '.join(self.words)} ended with {program.returncode}")
        return time.perf_counter() - begin


def writes_so_far(process: int) -> int:
    """The writes that a process made so far, once it makes no more for a twentieth of a second."""
    made = -1
    while made != (made := writes_now(process)):
        time.sleep(0.05)
    return made


def writes_now(process: int) -> int:
    with open(f"/proc/{process}/io") as file:
        return next(int(line.split()[1]) for line in file if line.startswith("syscw:"))


def nanoseconds(streams: Mapping[Name, Stream]) -> dict[Name, float]:
    """For each stream those of one copy: the least of TURNS turns, in each of which every stream has its turn, less
    the least that the same program takes without a frame."""
    counts = {name: stream.copies() for name, stream in streams.items()}
    full, empty = {name: [] for name in streams}, {name: [] for name in streams}
    for _ in range(TURNS):
        for name, stream in streams.items():
            empty[name].append(stream.seconds(0))
            full[name].append(stream.seconds(counts[name]))
    taken = {name: min(full[name]) - min(empty[name]) for name in streams}
    return {name: taken[name] / counts[name] * 1e9 if taken[name] > 0 else float("nan") for name in streams}


# ---- in process

def walk_ns(declared: str, rules: list[str], octets: bytes, text: str) -> float:
    """Nanoseconds of one walk, as `conformance` measures them: the least of its rounds."""
    stream = text.encode() + b"\0" + octets
    times = max(1, min(20_000, 4_000_000 // (len(octets) + 20)))
    done = subprocess.run([WALK, str(times), declared, *rules], input=stream, capture_output=True)
    if done.returncode:
        give_up(f"conformance {declared} ended with {done.returncode}: {done.stderr.decode()}")
    return float(done.stdout.split()[-1]) / times


def peer_ns(program: str, case: str, file: str) -> float:
    done = subprocess.run([program, "time", case, file], capture_output=True, text=True)
    if done.returncode:
        give_up(f"{program} time {case} ended with {done.returncode}")
    return float(done.stdout)


def in_turn(measures: Mapping[Name, Callable[[], float]]) -> dict[Name, float]:
    """The least of TURNS turns of each, one after the other."""
    found = {name: [] for name in measures}
    for _ in range(TURNS):
        for name, measure in measures.items():
            found[name].append(measure())
    return {name: min(times) for name, times in found.items()}


# ---- a process from its start to its end

LONGEST = 3


def loads_soon(what: str, path: str) -> bool:
    """Whether a policy is loaded within LONGEST; where it isn't, what is measured over it is left out with a line."""
    try:
        subprocess.run([GUARD, "check", path], stdout=subprocess.DEVNULL, timeout=LONGEST, check=True)
    except subprocess.TimeoutExpired:
        say(f"{what}: left out, since loading takes more than {LONGEST} s.\n")
        return False
    return True


def seconds_and_room(work: Work, words: list[str]) -> tuple[float, float]:
    """Seconds, and the MiB that the process itself held at most: bench/held.c starts it and asks the kernel."""
    done = subprocess.run([work.path("held"), *words], stdin=subprocess.DEVNULL, capture_output=True, text=True)
    if done.returncode:
        give_up(f"{' '.join(words)} ended with {done.returncode}")
    seconds, room, starter = done.stdout.split()
    if int(room) <= int(starter):
        give_up(f"the room of {' '.join(words)} is below that of what started it, {starter} KiB")
    return float(seconds), int(room) / 1024
