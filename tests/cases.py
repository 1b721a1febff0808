"""Long lists of cases for tests/hostile: which of them are tried, at how many at once, and what came."""
from __future__ import annotations

import collections
import concurrent.futures
import os
import random
from collections.abc import Callable, Iterable, Sequence
from dataclasses import dataclass
from typing import Any

import wire
from tally import Tally
from wire import Answer

SEED = 20


@dataclass
class Trial:
    """What is chosen, the library that breaks things, and what came."""

    tally: Tally
    faulty: str = ""
    is_whole: bool = False
    is_brief: bool = False


TRIAL = Trial(Tally("tests/hostile"))


def differs(case: str, wanted: object, got: object) -> str:
    """Tells of a case whose answer is another one; the case is counted where it is tried."""
    TRIAL.tally.counts.failed += 1
    print(f"differs: {case}\n  wanted {wanted!r}\n  got    {got!r}", flush=True)
    return "DIFFERS"


def call(words: Sequence[Any], stream: bytes = b"", faults: dict[str, str] | None = None) -> Answer:
    environment = dict(os.environ, **(faults or {}))
    if faults is not None:
        environment["LD_PRELOAD"] = TRIAL.faulty
    return wire.call(list(words), stream, env=environment)


def some_of(numbers: Iterable[Any], first: int, last: int, between: int) -> list[Any]:
    """All of a list where it is short or all are asked for; else its first, its last and a seeded part of the rest."""
    numbers = list(numbers)
    if TRIAL.is_brief:
        first, last, between = first // 8, last // 8, between // 8
    if TRIAL.is_whole or len(numbers) <= first + last + between:
        return numbers
    middle = numbers[first : len(numbers) - last]
    return numbers[:first] + sorted(random.Random(SEED).sample(middle, between)) + numbers[len(numbers) - last :]


def over(title: str, cases: Sequence[Any], tried: Callable[[Any], str], before: str = "") -> None:
    """Calls `tried` on each case, as many at once as there are processors, and prints how often it answers what."""
    with concurrent.futures.ThreadPoolExecutor(os.cpu_count()) as pool:
        counts = collections.Counter(pool.map(tried, cases))
    TRIAL.tally.counts.run += len(cases)
    said = ", ".join(f"{many} {what}" for what, many in counts.most_common())
    print(f"| {title} | {before}{len(cases)} | {said} |", flush=True)


def is_so(case: str, wanted: object, got: object) -> None:
    """One case by itself."""
    TRIAL.tally.counts.run += 1
    if wanted != got:
        differs(case, wanted, got)


def changes(size: int, name: str) -> list[tuple[int, int]]:
    """Places, and what the octet there becomes: eight of each."""
    r = random.Random(f"{SEED}/{name}")
    return [(at, r.randrange(0, 256)) for at in range(size) for _ in range(8)]


def changed(octets: bytes, change: tuple[int, int]) -> bytes:
    at, octet = change
    return octets[:at] + bytes([octet]) + octets[at + 1 :]
