"""Guards side by side, each with a stream of its own from a file; and `cat` in their place."""
from __future__ import annotations

import os
import subprocess
import time

from measure import GUARD, TOP, Chart, Work, in_turn, say
from messages import frame, order

FRAMES = 4_000_000
RUN = [GUARD, "run", os.path.join(TOP, "examples", "orders.toml")]


def seconds(path: str, many: int, words: list[str]) -> float:
    """Until so many processes of this command, each with the file, have ended."""
    begin = time.perf_counter()
    guards = []
    for _ in range(many):
        with open(path, "rb") as file:
            guards.append(subprocess.Popen(words, stdin=file, stdout=subprocess.DEVNULL))
    for guard in guards:
        guard.wait()
    return time.perf_counter() - begin


def processes(work: Work) -> list[Chart]:
    """A table of one guard to as many as there are processors."""
    one = frame("order", order([7]))
    frames, path = work.put("one.frame", one), work.path("many.frames")
    with open(path, "wb") as file:
        subprocess.run([work.path("feed"), frames, str(FRAMES)], stdout=file, check=True)
    say("### Processes side by side\n")
    say(f"`run`, each with {FRAMES:,} frames of {len(one)} octets from a file, all of which go; loading is counted.\n")
    say("| processes | million frames a second, together | `cat` in the place of each |\n|---|---|---|")
    counts = range(1, (os.cpu_count() or 1) + 1)
    times = in_turn({(many, name): lambda many=many, words=words: seconds(path, many, words)
                     for many in counts for name, words in (("run", RUN), ("cat", ["cat"]))})
    for many in counts:
        run, cat = (many * FRAMES / times[many, name] / 1e6 for name in ("run", "cat"))
        say(f"| {many} | {run:.1f} | {cat:.1f} |")
    say()
    return []
