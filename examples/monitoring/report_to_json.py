#!/usr/bin/env python3
"""Turns the lines of a guard's report on standard input into lines of JSON, each with the time of its coming.

    derguard run POLICY < frames 2>&1 > passed | report_to_json.py
    ... | report_to_json.py --to FILE

A line is an object. It has `time`, in UTC, and by the kind of line:

    a frame       `frame`, `link` (of mux), `from`, `to`, `message` and `verdict`; and by the verdict
                  `rule` (denied-by), `module`, `line`, `column` and `path` (outside-type),
                  `code`, `offset` and `path` (undecodable), or
                  `violations`, a list of `rule`, `module`, `line`, `column` and `path` (not-allowed)
    a fault       `fault`, as "F4 TornFrame", and `link` where it is that of a link
    a note        `note`, and the numbers that it has by their names, as `frames`, `passed`, `denied` and `digest`
    another line  `text`

A last line without its end has `cut` too. Each line is written before the next one is read. With --to they are appended
to FILE, and where FILE is another file than before, since it was renamed or taken away, it is opened anew: so a file is
rotated by renaming it, and no line is lost. Where a line can't be written this ends with status 3, and the guard with
it, since nobody reads its report any more.
"""
from __future__ import annotations

import argparse
import io
import json
import os
import re
import sys
from collections.abc import Iterable
from dataclasses import dataclass
from datetime import datetime, timezone
from typing import Any, Protocol

Fields = dict[str, Any]

NUMBERED = re.compile(r"(?:link (?P<link>\d+) )?(?P<frame>\d+) (?P<rest>.*)", re.S)
NAMES = r"(?P<from>[\w.-]+)>(?P<to>[\w.-]+) (?P<message>[\w.-]+)"
ROUTE = re.compile(rf"{NAMES} (?P<verdict>\S+)(?: (?P<rest>.*))?", re.A | re.S)
SITE = r"(?P<module>[A-Za-z0-9-]+):(?P<line>\d+):(?P<column>\d+) (?P<path>\$\S*)"
OUTSIDE = re.compile(SITE)
UNDECODABLE = re.compile(r"(?P<code>\w+) at (?P<offset>\d+) (?P<path>\$\S*)")
VIOLATION = re.compile(rf"(?P<rule>[\w.-]+) {SITE}")
DENIED = re.compile(r"(?P<rule>[\w.-]+)")
LINK_FAULT = re.compile(r"link (?P<link>\d+) (?P<fault>F\d \w+)")
# What begins after `derguard: ` where it is a fault, and a note that is made of names and numbers.
FAULT = re.compile(r"[A-Z]\d+ [A-Z]\w+.*|no-memory|bad record|cannot read .*")
COUNTS = re.compile(r"(?:policy read again, )?[a-z-]+ \d+(?:, [a-z]+ \d+)*")
COUNT = re.compile(r"([a-z-]+) (\d+)")
DIGEST = re.compile(r"(?:the old policy stays, )?digest (?P<digest>[0-9a-f]{64})")
ALONE = {"bad-header", "no-memory"}
PLAIN = {"pass", "no-rule", "unknown-message"}
NUMBERS = {"link", "frame", "line", "column", "offset"}


def fields_in(found: re.Match[str]) -> Fields:
    """What the named groups of a pattern found, with numbers as numbers."""
    named = {name: text for name, text in found.groupdict().items() if name != "rest" and text is not None}
    return {name: int(text) if name in NUMBERS else text for name, text in named.items()}


def violations_in(text: str) -> list[Fields] | None:
    """Each rule that doesn't allow a message, with the constraint that the message fails."""
    found = [VIOLATION.fullmatch(part) for part in text.split(", ")]
    return None if None in found else [fields_in(each) for each in found if each]


def details_of(verdict: str, text: str | None) -> Fields | None:
    """What stands behind the name of a verdict, or None where that is no verdict's text."""
    if verdict in PLAIN:
        return {} if text is None else None
    if verdict == "not-allowed" and text:
        found = violations_in(text)
        return {"violations": found} if found else None
    patterns = {"outside-type": OUTSIDE, "undecodable": UNDECODABLE, "denied-by": DENIED}
    details = patterns[verdict].fullmatch(text) if verdict in patterns and text else None
    return fields_in(details) if details else None


def frame_in(text: str) -> Fields | None:
    """The fields of a line that is reported of a frame."""
    numbered = NUMBERED.fullmatch(text)
    if not numbered:
        return None
    if numbered["rest"] in ALONE:
        return fields_in(numbered) | {"verdict": numbered["rest"]}
    route = ROUTE.fullmatch(numbered["rest"])
    details = details_of(route["verdict"], route["rest"]) if route else None
    return None if route is None or details is None else fields_in(numbered) | fields_in(route) | details


def said_in(text: str) -> Fields:
    """The fields of what comes after `derguard: `, a fault or a note."""
    if FAULT.fullmatch(text):
        return {"fault": text}
    if digest := DIGEST.fullmatch(text):
        return {"note": text} | fields_in(digest)
    counts = COUNT.findall(text) if COUNTS.fullmatch(text) else []
    return {"note": text} | {name: int(number) for name, number in counts}


def fields_of(text: str) -> Fields:
    """The fields of a line, without its end."""
    if frame := frame_in(text):
        return frame
    if fault := LINK_FAULT.fullmatch(text):
        return fields_in(fault)
    if text.startswith("derguard: "):
        return said_in(text.removeprefix("derguard: "))
    return {"text": text}


class Output(Protocol):
    """Where lines go."""

    def write(self, octets: bytes) -> None: ...


@dataclass
class Stream:
    """An output that stays the same. Nothing is held back, so what can't be written is known at once."""

    stream: io.FileIO

    def write(self, octets: bytes) -> None:
        while octets:
            octets = octets[self.stream.write(octets) :]


class NamedFile:
    """A file that is opened anew once its name stands for another one, or for none."""

    def __init__(self, path: str) -> None:
        self.path = path
        self.open()

    def open(self) -> None:
        self.file = io.FileIO(self.path, "ab")
        self.identity = self.identity_of(os.fstat(self.file.fileno()))

    @staticmethod
    def identity_of(status: os.stat_result) -> tuple[int, int]:
        return status.st_dev, status.st_ino

    def is_there(self) -> bool:
        try:
            return self.identity_of(os.stat(self.path)) == self.identity
        except FileNotFoundError:
            return False

    def write(self, octets: bytes) -> None:
        if not self.is_there():
            self.file.close()
            self.open()
        Stream(self.file).write(octets)


def now() -> str:
    return datetime.now(timezone.utc).isoformat(timespec="microseconds").replace("+00:00", "Z")


def convert(lines: Iterable[bytes], output: Output) -> None:
    """Writes an object for each line as it comes."""
    for octets in lines:
        fields = {"time": now()} | fields_of(octets.removesuffix(b"\n").decode(errors="backslashreplace"))
        if not octets.endswith(b"\n"):
            fields["cut"] = True
        output.write(json.dumps(fields).encode() + b"\n")


def main() -> int:
    about = argparse.ArgumentParser(description=__doc__, formatter_class=argparse.RawDescriptionHelpFormatter)
    about.add_argument("--to", metavar="FILE")
    given = about.parse_args()
    try:
        output: Output = Stream(io.FileIO(1, "wb", closefd=False))
        if given.to:
            output = NamedFile(given.to)
        convert(iter(sys.stdin.buffer.readline, b""), output)
    except OSError as fault:
        print(f"report_to_json.py: {fault}", file=sys.stderr)
        return 3
    return 0


if __name__ == "__main__":
    sys.exit(main())
