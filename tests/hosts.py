"""Hosts with guards as examples/deployment sets them up, and HAProxy before them, for tests/balanced.

Nothing here goes by how fast a machine is. Ports are kept before they are listened on. What begins is waited for until
it accepts connections, what ends until it doesn't. HAProxy has so much patience with a check that no busy machine makes
it call a host down, and what waits for HAProxy has more.
"""
from __future__ import annotations

import contextlib
import os
import pathlib
import re
import signal
import socket
import subprocess
import sys
from collections.abc import Sequence
from typing import NamedTuple

from wire import EXAMPLES, PROGRAM, copied, hold, is_listening, waits_until

HERE = EXAMPLES / "deployment"
RAILWAY = EXAMPLES / "railway"
PATH = f"{pathlib.Path(sys.executable).parent}:{os.environ['PATH']}"
ENVIRONMENT = {**os.environ, "PATH": PATH, "DERGUARD": str(PROGRAM), "PYTHONDONTWRITEBYTECODE": "1"}
# Seconds: how long HAProxy waits for an answer, and how long anything here is waited for, which is longer.
PATIENCE, WAIT = 30, 120
# The ports of the example, where a network is the trial's own.
LINK, CHECK = 7001, 7003


def kept_ports(addresses: Sequence[str]) -> list[list[socket.socket]]:
    """Two ports that nothing else takes at any of these addresses: for each, what keeps it at each address."""
    found: list[list[socket.socket]] = []
    while len(found) < 2:
        kept = [hold(addresses[0])]
        try:
            kept += [hold(address, kept[0].getsockname()[1]) for address in addresses[1:]]
            found.append(kept)
        except OSError:  # it is another's at one of them
            kept[0].close()
    return found


class Host:
    """A machine with guards, as README.md of the example sets it up, at an address of loopback. Guards of links are at
    the first of its ports, and what HAProxy asks is at the second."""

    prefix: Sequence[str] = ()
    process: int | str = "self"

    def __init__(self, name: str, folder: pathlib.Path, address: str, ports: Sequence[int], centre: str) -> None:
        self.name, self.folder, self.address, self.ports = name, folder, address, ports
        self.running: list[subprocess.Popen[bytes]] = []
        copied(RAILWAY, folder / "railway")
        (folder / "reports").mkdir()
        (folder / "link.conf").write_text(
            "POLICY=railway/railway.toml\nHERE=train-47\nTHERE=centre\nOUT=position\nBACK=authority\n"
            f"CONNECT={centre}\nREPORTS=reports\n"
        )

    def come(self) -> None:
        programs = f"{HERE}/guard-link link.conf", f"{PROGRAM} run railway/railway.toml"
        for port, program in zip(self.ports, programs):
            words = ["socat", "-t", "30", f"TCP-LISTEN:{port},bind={self.address},reuseaddr,fork", f"EXEC:{program}"]
            with open(self.folder / "said", "ab") as said:
                how = {"cwd": self.folder, "env": ENVIRONMENT, "stderr": said, "start_new_session": True}
                self.running.append(subprocess.Popen([*self.prefix, *words], **how))
        waits_until(lambda: all(self.listening()), WAIT)

    def go(self) -> None:
        for process in self.running:
            with contextlib.suppress(ProcessLookupError):
                os.killpg(process.pid, signal.SIGKILL)
            process.wait()
        self.running = []
        waits_until(lambda: not any(self.listening()), WAIT)

    end = go

    def listening(self) -> list[bool]:
        return [is_listening(self.address, port, self.process) for port in self.ports]

    def take_slow_policy(self) -> list[str]:
        """A new policy in one step: positions of fast trains stay."""
        new = self.folder / "new"
        copied(self.folder / "railway", new)
        rules = (new / "rail-rules.asn1").read_text().replace("Authority, Order", "Authority, Order, Position")
        slow = "SlowPosition ::= Position (WITH COMPONENTS {..., speed (0..160)})\nEND"
        (new / "rail-rules.asn1").write_text(rules.replace("END", slow))
        text = (new / "railway.toml").read_text()
        rule = 'module = "RailMessages"\ntype = "Position"\n\n[[rule]]'
        text = text.replace(rule, rule.replace("Messages", "Rules").replace('"Pos', '"SlowPos'))
        (new / "railway.toml").write_text(text)
        checked = subprocess.run([PROGRAM, "check", new / "railway.toml"], capture_output=True, text=True)
        (self.folder / "railway").rename(self.folder / "old")
        new.rename(self.folder / "railway")
        return [] if checked.stdout == "ok: messages 3, rules 4\n" else [f"the new policy: {checked.stderr}"]

    def files(self) -> list[pathlib.Path]:
        """The reports of all connections, a file for each direction."""
        return list((self.folder / "reports").iterdir())

    def reports(self) -> str:
        return "".join(path.read_text() for path in self.files())


class Apart(Host):
    """A host in a namespace of its own, which goes away as a cable does that is pulled."""

    def __init__(self, name: str, folder: pathlib.Path, number: int, centre_port: int) -> None:
        self.holder = subprocess.Popen(["unshare", "--net", "sleep", "infinity"])
        self.process = self.holder.pid
        self.prefix = ["nsenter", "-t", str(self.process), "-n"]
        own = os.readlink("/proc/self/ns/net")
        waits_until(lambda: os.readlink(f"/proc/{self.process}/ns/net") != own, WAIT)
        near, far = f"10.77.{number}.1", f"10.77.{number}.2"
        for words in (
            ["ip", "link", "add", name, "type", "veth", "peer", "name", "out", "netns", str(self.process)],
            ["ip", "addr", "add", f"{near}/24", "dev", name],
            ["ip", "link", "set", name, "up"],
            [*self.prefix, "ip", "addr", "add", f"{far}/24", "dev", "out"],
            [*self.prefix, "ip", "link", "set", "out", "up"],
        ):
            subprocess.run(words, check=True)
        super().__init__(name, folder, far, (LINK, CHECK), f"{near}:{centre_port}")

    def come(self) -> None:
        subprocess.run(["ip", "link", "set", self.name, "up"], check=True)
        if not self.running:
            super().come()

    def go(self) -> None:
        subprocess.run(["ip", "link", "set", self.name, "down"], check=True)

    def end(self) -> None:
        super().go()
        self.holder.kill()
        self.holder.wait()


class Standing(NamedTuple):
    """What HAProxy says of a host: its state, how many connections it has, and what came of its last check."""

    state: str = ""
    connections: int = 0
    check: str = ""

    def is_checked(self) -> bool:
        """Whether it is up since a check, and not since nothing was asked yet."""
        return self.state == "UP" and self.check == "L7OK"


class Balancer:
    """HAProxy with the example's file, with other addresses and more patience: a host that is called down, or is about
    to be, is asked again soon, and an answer as long as the right one is judged as soon as it is there."""

    def __init__(self, folder: pathlib.Path, servers: list[tuple[str, str]], check_port: int | None) -> None:
        self.kept, self.folder = hold("127.0.0.1"), folder
        self.port = self.kept.getsockname()[1]
        text = (HERE / "haproxy.cfg").read_text()
        named = re.search(r"(?ms)^    server host-a .*\Z", text).group()
        for old, new in (
            ("bind :7001", f"bind 127.0.0.1:{self.port}"),
            ("connect port 7003", f"connect port {check_port}" if check_port else "connect"),
            ("/run/haproxy/admin.sock", f"{folder}/admin.sock"),
            ("    user haproxy\n    group haproxy\n", ""),
            ("inter 2s", "inter 2s fastinter 200ms downinter 200ms"),
            ("timeout connect 3s", f"timeout connect {PATIENCE}s"),
            ("expect rbinary", "expect min-recv 34 rbinary"),
            ("timeout check 3s", f"timeout check {PATIENCE}s"),
            (named, "".join(f"    server {name} {address}\n" for name, address in servers)),
        ):
            assert text.count(old) == 1, old
            text = text.replace(old, new)
        (folder / "haproxy.cfg").write_text(text)
        with open(folder / "log", "wb") as log:
            words = ["haproxy", "-db", "-f", folder / "haproxy.cfg"]
            self.process = subprocess.Popen(words, stdout=log, stderr=log)

    def ask(self, command: str) -> str:
        with socket.socket(socket.AF_UNIX) as admin:
            admin.connect(str(self.folder / "admin.sock"))
            admin.sendall(command.encode() + b"\n")
            return admin.makefile().read()

    def stands(self, name: str) -> Standing:
        """How a host stands, or nothing of it where HAProxy doesn't answer yet."""
        with contextlib.suppress(OSError):
            head, *lines = [line.split(",") for line in self.ask("show stat").removeprefix("# ").splitlines() if line]
            for line in lines:
                said = dict(zip(head, line))
                if (said["pxname"], said["svname"]) == ("guards", name):
                    return Standing(said["status"], int(said["scur"]), said["check_status"].removeprefix("* "))
        return Standing()

    def log(self) -> str:
        return (self.folder / "log").read_text()

    def remarks(self) -> str:
        """The lines of its log that speak of hosts, and not of a connection."""
        return " ".join(line for line in self.log().splitlines() if line.startswith("Server "))

    def end(self) -> None:
        self.process.terminate()
        self.process.wait()
        self.kept.close()
