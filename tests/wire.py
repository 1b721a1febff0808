"""What goes over a wire, for the scripts beside this file, and calls of the program that is built.

An element is a tag, a length and contents, by DER. A frame is a message with its three names, a record a piece of one
link's stream, as docs/FORMATS.md says. A packet is what examples/deployment carries: four octets of length, and a
message.
"""
from __future__ import annotations

import contextlib
import functools
import os
import pathlib
import shutil
import signal
import socket
import subprocess
import sys
import time
from collections.abc import Callable, Iterator
from typing import Any, NamedTuple

TOP = pathlib.Path(__file__).resolve().parent.parent
EXAMPLES = TOP / "examples"
PROGRAM = pathlib.Path(os.environ.get("DERGUARD", TOP / "crates/derguard/out/derguard")).resolve()
LIBRARY = pathlib.Path(os.environ.get("LIBRARY", TOP / "out/library")).resolve()

# The example policy, a message that it lets pass from north to south, and one that stays.
ORDERS = EXAMPLES / "orders.toml"
ROUTE = ("north", "south", "order")
PASSES = "300B800105810101A403020107"
STAYS = "300E80010581010082010BA403020107"

# The longest message and the longest piece of a record.
LONGEST = 1_048_576
PIECE, END, RELOAD = 0, 1, 2
# The state of a socket that accepts connections, as /proc/net/tcp has it.
LISTEN = "0A"
UNIVERSAL, APPLICATION, CONTEXT = 0x00, 0x40, 0x80


def copied(source: pathlib.Path, target: pathlib.Path) -> pathlib.Path:
    """Copies a folder into one that is there or isn't, where its files can be written also if here they can't."""
    shutil.copytree(source, target, dirs_exist_ok=True)
    for path in (target, *target.rglob("*")):
        path.chmod(path.stat().st_mode | 0o200)
    return target


class Answer(NamedTuple):
    """What a process ended with."""

    status: int
    out: bytes
    err: bytes


class Record(NamedTuple):
    """A record of a stream with many links."""

    kind: int
    link: int
    contents: bytes


class BadRecord(ValueError):
    """A stream ends inside a record, or has one that is no piece where only pieces may come."""


def length(size: int) -> bytes:
    """The length octets of so many contents octets, as few as there can be (X.690 10.1)."""
    if size < 128:
        return bytes([size])
    digits = size.to_bytes((size.bit_length() + 7) // 8, "big")
    return bytes([0x80 | len(digits)]) + digits


def element(tag: int, contents: bytes, constructed: bool = False, leading: int = CONTEXT) -> bytes:
    """An element; `leading` is the class in its identifier octets, context-specific where nothing is said."""
    first = leading | (0x20 if constructed else 0)
    if tag < 31:
        identifier = bytes([first | tag])
    else:
        digits, rest = [tag & 127], tag >> 7
        while rest:
            digits.append(0x80 | rest & 127)
            rest >>= 7
        identifier = bytes([first | 31] + digits[::-1])
    return identifier + length(len(contents)) + contents


def names(sender: str, receiver: str, message: str) -> bytes:
    """The three names of a frame, each after its length."""
    return b"".join(bytes([len(name)]) + name.encode() for name in (sender, receiver, message))


def frame(sender: str, receiver: str, message: str, contents: bytes) -> bytes:
    """A frame: its length in four octets, three names, and the message."""
    return packet(names(sender, receiver, message) + contents)


def order(digits: str) -> bytes:
    """The frame of an order from north to south, whose message has these hexadecimal digits."""
    return frame(*ROUTE, bytes.fromhex(digits))


def frame_ends(stream: bytes) -> list[int]:
    """Where each whole frame of a stream ends."""
    ends, at = [], 0
    while at + 4 <= len(stream):
        at += 4 + int.from_bytes(stream[at : at + 4], "big")
        if at > len(stream):
            break
        ends.append(at)
    return ends


def record(kind: int, link: int = 0, contents: bytes = b"") -> bytes:
    return bytes([kind]) + link.to_bytes(2, "big") + packet(contents)


def piece(link: int, octets: bytes) -> bytes:
    """A record with a piece of this link's stream."""
    return record(PIECE, link, octets)


def records_in(stream: bytes) -> Iterator[Record]:
    """The records of a stream; one that is cut short is the error BadRecord."""
    at = 0
    while at < len(stream):
        size = int.from_bytes(stream[at + 3 : at + 7], "big")
        end = at + 7 + size
        if at + 7 > len(stream) or end > len(stream):
            raise BadRecord(f"the record at {at} of {len(stream)} octets is cut short")
        yield Record(stream[at], int.from_bytes(stream[at + 1 : at + 3], "big"), stream[at + 7 : end])
        at = end


def by_link(stream: bytes) -> dict[int, bytes]:
    """What the pieces of a stream of records hold, link by link; a record that is no piece is the error BadRecord."""
    found: dict[int, bytes] = {}
    for each in records_in(stream):
        if each.kind != PIECE:
            raise BadRecord(f"a record of link {each.link} is no piece")
        found[each.link] = found.get(each.link, b"") + each.contents
    return found


def packet(contents: bytes) -> bytes:
    """Contents after their length in four octets."""
    return len(contents).to_bytes(4, "big") + contents


def packets_of(connection: socket.socket) -> Iterator[bytes]:
    """The packets that come, to the end of the connection."""
    with contextlib.suppress(OSError), connection.makefile("rb") as stream:
        while header := stream.read(4):
            yield header + stream.read(int.from_bytes(header, "big"))


def free_port() -> int:
    """A port of loopback on which nothing listens."""
    with socket.create_server(("127.0.0.1", 0)) as listener:
        return listener.getsockname()[1]


def hold(address: str, port: int = 0) -> socket.socket:
    """Keeps a port of an address, any one where none is said, from whatever takes a free one: only who names it, and
    allows its reuse as socat and HAProxy do, can listen there."""
    held = socket.socket()
    held.setsockopt(socket.SOL_SOCKET, socket.SO_REUSEADDR, 1)
    try:
        held.bind((address, port))
    except OSError:
        held.close()
        raise
    return held


def is_listening(address: str, port: int, process: int | str = "self") -> bool:
    """Whether something accepts connections at a port, in the network of a process."""
    number = int.from_bytes(socket.inet_aton(address), sys.byteorder)
    lines = pathlib.Path(f"/proc/{process}/net/tcp").read_text().splitlines()[1:]
    return [f"{number:08X}:{port:04X}", LISTEN] in ([line.split()[1], line.split()[3]] for line in lines)


def waits_until(holds: Callable[[], bool], seconds: float = 60) -> bool:
    """Whether something comes to hold within so many seconds."""
    until = time.monotonic() + seconds
    while not holds() and time.monotonic() < until:
        time.sleep(0.05)
    return holds()


def call(words: list[Any], stream: bytes = b"", seconds: float = 300, **how: Any) -> Answer:
    """What the program answers to these words and this standard input; `how` is of `subprocess.run`."""
    done = subprocess.run([PROGRAM, *words], input=stream, capture_output=True, timeout=seconds, **how)
    return Answer(done.returncode, done.stdout, done.stderr)


def heed_signals() -> None:
    """What whoever calls this ignores, as nohup does, isn't ignored by the program."""
    for number in (signal.SIGHUP, signal.SIGTERM, signal.SIGINT, signal.SIGUSR1, signal.SIGUSR2):
        signal.signal(number, signal.SIG_DFL)


def is_built() -> bool:
    return os.access(PROGRAM, os.X_OK)


@functools.cache
def has_sanitizer() -> bool:
    """Whether the program is one of `make unproved`, whose checks of memory take time, addresses and growths."""
    return is_built() and b"__asan_init" in PROGRAM.read_bytes()


def so_many(count: int) -> int:
    """As many, or a part of them where the program is an unproved one, which is slow."""
    return count // 20 if has_sanitizer() else count
