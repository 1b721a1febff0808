"""Frames from packets, and packets from frames: the adapter between a protocol and the guard.

A packet of this protocol is four octets of length, the high one first, and one message. The names in a frame are those
that are given here, by whoever knows from where the packets come; nothing in a packet says them. Octets go on as they
come, and only the few octets of a header are held. With a packet that is too long for a frame the stream is over. Of a
stream that ends inside a packet the guard has what there is, and says F4.
"""
from __future__ import annotations

LONGEST = 1_048_576


class Framing:
    """Takes the octets of packets as they come, and gives those of frames."""

    def __init__(self, sender: str, receiver: str, message: str) -> None:
        names = [name.encode("ascii") for name in (sender, receiver, message)]
        self.names = b"".join(bytes([len(name)]) + name for name in names)
        self.header = b""
        self.left = 0
        self.fault: str | None = None

    def feed(self, octets: bytes) -> bytes:
        """What goes to the guard of these octets; nothing once the stream has a fault."""
        out = []
        while octets and not self.fault:
            if self.left:
                out.append(octets[: self.left])
                octets, self.left = octets[self.left :], self.left - len(out[-1])
                continue
            wanted = 4 - len(self.header)
            self.header, octets = self.header + octets[:wanted], octets[wanted:]
            if len(self.header) == 4:
                size, self.header = int.from_bytes(self.header, "big"), b""
                if size + len(self.names) > LONGEST:
                    self.fault = f"a packet of {size} octets"
                    break
                out.append((size + len(self.names)).to_bytes(4, "big") + self.names)
                self.left = size
        return b"".join(out)

    def end(self) -> str | None:
        """What is wrong with the stream, if it is over now, or None."""
        torn = "the stream ended inside a packet" if self.left or self.header else None
        return self.fault or torn


class Unframing:
    """Takes the octets of frames as they come, and gives those of packets. What comes has gone through the guard."""

    def __init__(self) -> None:
        self.header = b""
        self.left = 0

    def feed(self, octets: bytes) -> bytes:
        """What goes on of these octets."""
        out = []
        while octets:
            if self.left:
                out.append(octets[: self.left])
                octets, self.left = octets[self.left :], self.left - len(out[-1])
                continue
            self.header, octets = self.header + octets[:1], octets[1:]
            names_end = end_of_names(self.header)
            if names_end is not None:
                self.left = int.from_bytes(self.header[:4], "big") - (names_end - 4)
                out.append(self.left.to_bytes(4, "big"))
                self.header = b""
        return b"".join(out)


def end_of_names(octets: bytes) -> int | None:
    """Where the three names at the front of a frame end, or None where they aren't there yet."""
    at = 4
    for _ in range(3):
        if len(octets) <= at:
            return None
        at += 1 + octets[at]
    return at if len(octets) >= at else None


def address_of(text: str) -> tuple[str, int]:
    """The host and the port of HOST:PORT."""
    host, _, port = text.rpartition(":")
    if not host or not port.isdigit():
        raise ValueError(f"{text} is not HOST:PORT")
    return host.strip("[]"), int(port)
