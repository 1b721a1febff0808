"""Trials of the program as a process: a folder to work in, calls at the top of the repository, and what differs."""
from __future__ import annotations

import hashlib
import os
import pathlib
import resource
import subprocess
import threading
import tomllib
import zlib
from collections.abc import Callable
from dataclasses import dataclass, field
from typing import IO, Any

from wire import EXAMPLES, PASSES, PROGRAM, TOP, Answer, call

POLICY = "examples/orders.toml"
PAYMENTS = "examples/payments/payments.toml"
FULL = pathlib.Path("/dev/full")


def digest_note(path: str) -> str:
    """The note of the number of a policy's texts: each behind its length as eight octets."""
    policy = TOP / path
    listed = tomllib.loads(policy.read_text())["modules"]
    digest = hashlib.sha256()
    for text in (policy.read_bytes(), *((policy.parent / name).read_bytes() for name in listed)):
        digest.update(len(text).to_bytes(8, "big") + text)
    return f"derguard: digest {digest.hexdigest()}\n"


def octets_of(given: str | bytes) -> bytes:
    return given.encode() if isinstance(given, str) else given


@dataclass
class Trial:
    """What is tried in a folder of its own: how many cases, what is wrong in which, and what was left out."""

    folder: pathlib.Path
    cases: int = 0
    failed: int = 0
    left_out: list[str] = field(default_factory=list)

    def file(self, name: str, contents: str | bytes) -> pathlib.Path:
        """A file in the folder."""
        path = self.folder / name
        path.write_bytes(octets_of(contents))
        return path

    def holds(self, title: str, wrong: list[str]) -> None:
        """One case, and what is wrong in it."""
        self.cases += 1
        self.failed += bool(wrong)
        for line in wrong:
            print(f"{title}: {line}", flush=True)

    def compare(self, title: str, got: Answer, status: int, out: str | bytes = b"", err: str | bytes = b"") -> None:
        """One case: its status, and what goes to both outputs."""
        pairs = (("output", got.out, octets_of(out)), ("report", got.err, octets_of(err)))
        differ = [pair for pair in pairs if pair[1] != pair[2]]
        wrong = [f"{name} {found[:400]!r}, and not {wanted[:400]!r}" for name, found, wanted in differ]
        if got.status != status:
            wrong.append(f"status {got.status}, and not {status}")
        self.holds(title, wrong)

    def leave_out(self, title: str, why: str) -> None:
        self.left_out.append(f"{title}: {why}")
        print(f"left out: {title}: {why}", flush=True)


def run(*words: Any, stream: bytes = b"", **how: Any) -> Answer:
    """The program's answer, at the top of the repository."""
    return call(list(words), stream, cwd=TOP, **how)


def run_from(place: pathlib.Path, *words: Any, out: IO[bytes] | int = subprocess.PIPE) -> Answer:
    """The answer where standard input is a file or a folder that is opened, and standard output maybe a device."""
    descriptor = os.open(TOP / place, os.O_RDONLY)
    try:
        how = {"cwd": TOP, "stdin": descriptor, "stdout": out, "stderr": subprocess.PIPE, "timeout": 300}
        done = subprocess.run([PROGRAM, *words], **how)
    finally:
        os.close(descriptor)
    return Answer(done.returncode, done.stdout or b"", done.stderr)


def made(script: str, lines: str) -> bytes:
    """What a script of examples/ makes of lines."""
    words = ["sh", EXAMPLES / script]
    return subprocess.run(words, input=lines.encode(), stdout=subprocess.PIPE, check=True).stdout


def one_frame() -> bytes:
    """The frame of an order that goes."""
    return made("make-frames", f"north south order {PASSES}\n")


def payments_frames(*numbers: int) -> bytes:
    """The frames of these lines of payments.txt, counted from 1."""
    lines = (EXAMPLES / "payments/payments.txt").read_text().splitlines()
    return made("make-frames", "".join(f"{lines[number - 1]}\n" for number in numbers))


def bounded(mebioctets: int) -> Callable[[], None]:
    """Bounds the addresses of a process that is started."""
    size = mebioctets * 2**20
    return lambda: resource.setrlimit(resource.RLIMIT_AS, (size, size))


def run_much(words: list[Any], block: bytes, times: int, mebioctets: int) -> tuple[Answer, bytes]:
    """The answer to a stream of so many blocks, in so few addresses: sums in the place of what goes out, and of what
    comes in."""
    pipes = {"stdin": subprocess.PIPE, "stdout": subprocess.PIPE, "stderr": subprocess.PIPE}
    process = subprocess.Popen([PROGRAM, *words], cwd=TOP, preexec_fn=bounded(mebioctets), **pipes)
    came, given = Sum(), Sum()

    def feed() -> None:
        try:
            for _ in range(times):
                process.stdin.write(block)
            process.stdin.close()
        except BrokenPipeError:
            pass

    feeding = threading.Thread(target=feed, daemon=True)
    feeding.start()
    while octets := process.stdout.read1(2**20):
        came.add(octets)
    for _ in range(times):
        given.add(block)
    err = process.stderr.read()
    return Answer(process.wait(), came.text(), err), given.text()


class Sum:
    """How many octets there were, with a sum of them."""

    def __init__(self) -> None:
        self.count, self.sum = 0, 0

    def add(self, octets: bytes) -> None:
        self.count += len(octets)
        self.sum = zlib.crc32(octets, self.sum)

    def text(self) -> bytes:
        return b"%d octets with the sum %08x" % (self.count, self.sum)
