"""Asks a guard what becomes of messages: ask.py POLICY FROM TO MESSAGE HEX.."""
from __future__ import annotations

import struct
import subprocess
import sys


class Guard:
    """A guard that is asked, one message after the other."""

    def __init__(self, policy: str) -> None:
        pipe = subprocess.PIPE
        self.process = subprocess.Popen(["derguard", "ask", policy], stdin=pipe, stdout=pipe)

    def verdict(self, sender: str, receiver: str, name: str, octets: bytes) -> str:
        """`pass`, or why the message stays."""
        names = b"".join(struct.pack("B", len(part)) + part.encode() for part in (sender, receiver, name))
        self.process.stdin.write(struct.pack(">I", len(names + octets)) + names + octets)
        self.process.stdin.flush()
        line = self.process.stdout.readline().decode()
        if not line.endswith("\n"):
            raise RuntimeError("the guard has ended")
        return line.rstrip("\n").split(" ", 3)[-1]


if __name__ == "__main__":
    policy, sender, receiver, name, *messages = sys.argv[1:]
    guard = Guard(policy)
    for digits in messages:
        print(guard.verdict(sender, receiver, name, bytes.fromhex(digits)))
