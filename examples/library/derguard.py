"""The guard in this process, by ctypes over libderguard.so.

    import derguard
    policy = derguard.Policy.from_file("orders.toml")
    policy.passes("north", "south", "order", message)        # True or False
    policy.verdict("north", "south", "order", message)       # 'pass', or why it is stopped

    link = derguard.Link()
    for piece in pieces:
        out.write(link.feed(policy, piece))                  # the frames that pass
        log.write(link.reports())                            # a line for each other one
    link.end()

The library is looked for where DERGUARD_LIBRARY says, and else as the system looks for libderguard.so.0. An object may
go from thread to thread; one call at a time uses it, which a lock of its own sees to. It takes Python 3.8 or later.
"""
import ctypes
import os
import threading
from pathlib import Path
from typing import Any, Callable, Iterable, List, Union

try:
    import tomllib
except ImportError:  # before Python 3.11
    tomllib = None

Name = Union[str, bytes]

(OK, REFUSED, OUT_OF_MEMORY, NO_POLICY, NO_LINK, BAD_NAMES, TOO_SMALL, FRAME_TOO_LONG, WRITE_FAILED, CLOSED,
 TORN_FRAME) = range(11)

#: The most octets that a link holds of a frame that isn't whole.
LONGEST_HELD = 1_048_579


class Error(Exception):
    """What a call answered that didn't do what it was asked; `status` is its number."""

    def __init__(self, status: int, text: str) -> None:
        super().__init__(text)
        self.status = status


class _Octets(ctypes.Structure):
    _fields_ = [("octets", ctypes.c_char_p), ("length", ctypes.c_size_t)]


class _Handle(ctypes.Structure):
    _fields_ = [("at", ctypes.c_void_p)]


def _load_library() -> ctypes.CDLL:
    library = ctypes.CDLL(os.environ.get("DERGUARD_LIBRARY", "libderguard.so.0"))
    handle, octets, count = ctypes.POINTER(_Handle), [ctypes.c_char_p, ctypes.c_size_t], ctypes.POINTER(ctypes.c_size_t)
    number, answer = ctypes.c_uint32, ctypes.c_bool
    told = octets + [count]
    for name, result, words in [
        ("version", number, told),
        ("load", number, [handle, ctypes.POINTER(_Octets), ctypes.c_size_t] + octets + told),
        ("passes", answer, [handle] + octets * 2),
        ("passes_from", answer, [handle] + octets * 4),
        ("verdict", number, [handle] + octets * 2 + told),
        ("verdict_from", number, [handle] + octets * 4 + told),
        ("share", number, [handle, handle]),
        ("free", None, [handle]),
        ("link_open", number, [handle]),
        ("link_feed", number, [handle, handle] + octets + told),
        ("link_reports", number, [handle] + told),
        ("link_end", number, [handle]),
        ("link_free", None, [handle]),
    ]:
        call = getattr(library, "derguard_" + name)
        call.restype, call.argtypes = result, words
    return library


_library = _load_library()


def _octets(name: Name) -> bytes:
    return name.encode() if isinstance(name, str) else bytes(name)


def _pairs(*parts: bytes) -> List[Any]:
    """A pointer and a length for each of these."""
    return [word for part in parts for word in (part, len(part))]


def _told(call: Callable[..., int], *words: Any, room: int = 200) -> bytes:
    """The text that a call gives, asked for again where there was too little room."""
    while True:
        out, needed = ctypes.create_string_buffer(room or 1), ctypes.c_size_t()
        status = call(*words, out, room, needed)
        if status == OK:
            return out.raw[: needed.value]
        if status != TOO_SMALL:
            raise Error(status, f"status {status}")
        room = needed.value


def version() -> str:
    """The version of the library."""
    return _told(_library.derguard_version).decode()


class Policy:
    """A policy, or none: nothing passes where none was loaded."""

    def __init__(self) -> None:
        self._handle = _Handle()
        self._lock = threading.Lock()

    @classmethod
    def from_texts(cls, modules: Iterable[bytes], text: bytes) -> "Policy":
        """The policy that a text says over ASN.1 modules, one in each text. `Error` has the first fault."""
        policy = cls()
        policy.load(modules, text)
        return policy

    @classmethod
    def from_file(cls, path: Union[str, Path]) -> "Policy":
        """The policy of a file, with the modules that it lists, whose paths begin at its folder."""
        if tomllib is None:
            raise RuntimeError("Python 3.11 or later reads which modules a policy lists; use from_texts")
        path = Path(path)
        text = path.read_bytes()
        names = tomllib.loads(text.decode()).get("modules", [])
        return cls.from_texts([(path.parent / name).read_bytes() for name in names], text)

    def load(self, modules: Iterable[bytes], text: bytes) -> None:
        """Loads another policy. What is in force stays where the texts say none."""
        modules = [bytes(module) for module in modules]
        array = (_Octets * len(modules))(*((module, len(module)) for module in modules))
        fault, needed = ctypes.create_string_buffer(1000), ctypes.c_size_t()
        with self._lock:
            status = _library.derguard_load(
                self._handle, array, len(modules), text, len(text), fault, len(fault), needed
            )
        if status == REFUSED:
            raise Error(status, fault.raw[: needed.value].decode(errors="replace"))
        if status != OK:
            raise Error(status, "out of memory")

    def passes(self, sender: Name, receiver: Name, name: Name, message: bytes) -> bool:
        """Whether a message passes from a sender to a receiver under its name."""
        words = _pairs(_octets(sender), _octets(receiver), _octets(name), bytes(message))
        with self._lock:
            return _library.derguard_passes_from(self._handle, *words)

    def passes_as_framed(self, names: bytes, message: bytes) -> bool:
        """The same with the three names as a frame's header has them, each after one octet with its length."""
        with self._lock:
            return _library.derguard_passes(self._handle, *_pairs(bytes(names), bytes(message)))

    def verdict(self, sender: Name, receiver: Name, name: Name, message: bytes) -> str:
        """'pass', or why a message is stopped, as the program reports it."""
        words = _pairs(_octets(sender), _octets(receiver), _octets(name), bytes(message))
        with self._lock:
            return _told(_library.derguard_verdict_from, self._handle, *words).decode()

    def share(self) -> "Policy":
        """One more owner of the same policy, so that two threads can ask it at the same time."""
        other = Policy()
        with self._lock:
            status = _library.derguard_share(self._handle, other._handle)
        if status != OK:
            raise Error(status, f"status {status}")
        return other

    def __del__(self) -> None:
        _library.derguard_free(self._handle)


class Link:
    """A stream of frames, fed in pieces; its frames are numbered from 1."""

    def __init__(self) -> None:
        self._handle = _Handle()
        self._lock = threading.Lock()
        status = _library.derguard_link_open(self._handle)
        if status != OK:
            raise Error(status, "out of memory")

    def feed(self, policy: Policy, piece: bytes) -> bytes:
        """The frames that end in the piece and pass. `Error` closes the link; its `sent` has those before the fault."""
        piece = bytes(piece)
        room = len(piece) + 4096
        while True:
            out, written = ctypes.create_string_buffer(room), ctypes.c_size_t()
            with self._lock, policy._lock:
                status = _library.derguard_link_feed(
                    policy._handle, self._handle, piece, len(piece), out, room, written
                )
            if status == OK:
                return out.raw[: written.value]
            if status != TOO_SMALL:
                error = Error(status, f"status {status}")
                error.sent = out.raw[: written.value]
                raise error
            room = len(piece) + LONGEST_HELD

    def reports(self) -> bytes:
        """The report lines that weren't fetched before."""
        with self._lock:
            return _told(_library.derguard_link_reports, self._handle)

    def end(self) -> None:
        """Says that the stream has ended; `Error` where it ended within a frame."""
        with self._lock:
            status = _library.derguard_link_end(self._handle)
        if status != OK:
            raise Error(status, f"status {status}")

    def __del__(self) -> None:
        _library.derguard_link_free(self._handle)
