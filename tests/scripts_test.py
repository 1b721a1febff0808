"""Tests of what the scripts of this folder share, and of when tests/limits fails. No program is called."""
from __future__ import annotations

import contextlib
import io
import os
import pathlib
import signal
import socket
import subprocess
import sys
import tempfile
import unittest
from unittest import mock

sys.dont_write_bytecode = True
HERE = pathlib.Path(__file__).resolve().parent
sys.path[:0] = [str(HERE), str(HERE.parent / "tools")]

import tally
import wire
from loading import script


class Wire(unittest.TestCase):
    def test_elements_have_the_fewest_length_octets(self) -> None:
        # X.690 8.1.2.4 and 8.1.3.5: the number of a tag from 31 on, and lengths from 128 on
        self.assertEqual(wire.element(2, b"\5", leading=wire.UNIVERSAL), bytes.fromhex("020105"))
        self.assertEqual(wire.element(300, b"", True)[:4], bytes.fromhex("BF822C00"))
        self.assertEqual(wire.length(127), b"\x7f")
        self.assertEqual(wire.length(128), bytes.fromhex("8180"))
        self.assertEqual(wire.length(65_536), bytes.fromhex("83010000"))

    def test_frames_are_those_of_the_example(self) -> None:
        stream = (wire.EXAMPLES / "orders.frames").read_bytes()
        self.assertTrue(stream.startswith(wire.order(wire.PASSES)))
        self.assertEqual(wire.frame_ends(stream)[0], len(wire.order(wire.PASSES)))
        self.assertEqual(wire.frame_ends(stream[:-1]), wire.frame_ends(stream)[:-1])

    def test_records(self) -> None:
        stream = wire.piece(3, b"ab") + wire.piece(4, b"") + wire.piece(3, b"c")
        self.assertEqual(wire.by_link(stream), {3: b"abc", 4: b""})
        self.assertEqual(wire.record(wire.RELOAD), bytes.fromhex("02000000000000"))
        for bad in (stream[:-1], stream[:3], stream + wire.record(wire.END, 3)):
            with self.assertRaises(wire.BadRecord):
                wire.by_link(bad)

    def test_what_is_copied_can_be_written(self) -> None:
        with tempfile.TemporaryDirectory() as top:
            source, target = pathlib.Path(top, "a"), pathlib.Path(top, "b")
            source.mkdir()
            (source / "file").write_text("text")
            for path, mode in ((source / "file", 0o444), (source, 0o555)):
                path.chmod(mode)
            wire.copied(source, target)
            self.assertEqual([path.stat().st_mode & 0o777 for path in (target, target / "file")], [0o755, 0o644])
            source.chmod(0o755)

    def test_a_free_port_is_free(self) -> None:
        self.assertGreater(wire.free_port(), 1023)

    def test_a_port_that_is_kept_is_left_to_who_names_it(self) -> None:
        with wire.hold("127.0.0.1") as held:
            port = held.getsockname()[1]
            self.assertFalse(wire.is_listening("127.0.0.1", port))
            with socket.socket() as other, self.assertRaises(OSError):
                other.bind(("127.0.0.1", port))
            with socket.create_server(("127.0.0.1", port)):  # it allows the reuse of its address
                self.assertTrue(wire.is_listening("127.0.0.1", port))
                self.assertFalse(wire.is_listening("127.0.0.2", port))
            self.assertFalse(wire.is_listening("127.0.0.1", port))


class Counting(unittest.TestCase):
    def test_what_a_script_says_at_its_end_is_read(self) -> None:
        counts = tally.Counts(12, 1, 2)
        self.assertEqual(tally.told(f"a line\ntests/links: {counts}\n"), counts)
        self.assertIsNone(tally.told("no such line\n"))

    def test_a_part_that_ends_by_an_exception_has_failed(self) -> None:
        counted = tally.Tally("tests/none")
        with contextlib.redirect_stdout(io.StringIO()):
            counted.runs(lambda: [])
            counted.runs(lambda: wire.by_link(b"\0"))
        self.assertEqual((counted.counts.run, counted.counts.failed), (2, 1))


class Limits(unittest.TestCase):
    def failed(self, *came: tuple[float, float, int, str], text: str = "M", name: str = "a text") -> int:
        """How many lines say what is wrong where `check` comes to this, one call after the other."""
        limits = script("tests/limits")
        took = [limits.Measured(*each) for each in came]
        with mock.patch.object(limits, "measured", side_effect=took), contextlib.redirect_stdout(io.StringIO()):
            return len(limits.within(name, {"m.asn1": text}, limits.Aim(1, 300), 2))

    def test_twice_the_aim_may_be_taken_and_no_more(self) -> None:
        self.assertEqual(self.failed((2.0, 600, 0, "ok")), 0)
        self.assertEqual(self.failed((0.1, 601, 0, "ok")), 1)
        self.assertEqual(self.failed((2.1, 10, 0, "ok"), (2.2, 10, 0, "ok")), 1)
        self.assertEqual(self.failed((9.0, 10, 0, "ok"), (1.9, 10, 0, "ok")), 0)

    def test_an_answer_must_come_of_a_text_that_can_be_read(self) -> None:
        self.assertEqual(self.failed((0.1, 10, 2, "derguard: S3 TooLarge 1:4:1")), 0)
        self.assertEqual(self.failed((0.1, 10, -9, "")), 1)
        self.assertEqual(self.failed((0.1, 10, 3, "derguard: no-memory")), 1)
        self.assertEqual(self.failed((0.1, 10, 2, "derguard: P1 Unexpected 1:1:1")), 1)
        self.assertEqual(self.failed((0.1, 10, 0, "ok"), text="M" * 1_048_577), 1)

    def test_aims_are_of_texts_that_are_there(self) -> None:
        limits = script("tests/limits")
        names = [name for name, _ in limits.greatest_texts()]
        self.assertEqual(len(names), len(set(names)))
        self.assertEqual(sorted({*limits.AIMS, limits.NO_MODULE} - set(names)), [])


SCRIPT = """
import subprocess, sys
from tally import Tally, give_up, status_of, told

def main():
    tally = Tally("tests/none")
    try:
        {}
        return tally.close()
    finally:
        print("cleared up", file=sys.stderr)

sys.exit(status_of(main))
"""


class OutputNobodyReads(unittest.TestCase):
    def came(self, line: str, unbuffered: str = "", is_read: bool = False) -> tuple[int, list[str]]:
        """The status of a script that has this line, and what it says of faults."""
        reads, writes = os.pipe()
        with open(reads) as reader, open(writes, "w") as writer:
            if not is_read:
                reader.close()
            how = {"cwd": HERE, "env": {**os.environ, "PYTHONUNBUFFERED": unbuffered}}
            words = [sys.executable, "-B", "-c", SCRIPT.format(line)]
            done = subprocess.run(words, stdout=writer, stderr=subprocess.PIPE, text=True, **how)
        return done.returncode, done.stderr.splitlines()

    def test_a_script_clears_up_and_ends_by_sigpipe(self) -> None:
        for line in ("tally.tried(['wrong'])", "tally.runs(told, None)", "pass", "give_up('a', 'b')"):
            self.assertEqual(self.came(line), (-signal.SIGPIPE, ["cleared up"]), line)
        self.assertEqual(self.came("print('a' * 100_000)", "1"), (-signal.SIGPIPE, ["cleared up"]))

    def test_output_that_is_read_and_other_pipes_are_as_ever(self) -> None:
        self.assertEqual(self.came("tally.tried([])", is_read=True), (0, ["cleared up"]))
        self.assertEqual(self.came("pass", is_read=True), (1, ["cleared up"]))  # where nothing was tried
        self.assertEqual(self.came("tally.tried(['wrong'])", is_read=True), (1, ["cleared up"]))
        status, lines = self.came("raise BrokenPipeError", is_read=True)
        self.assertEqual((status, lines[0], lines[-1]), (1, "cleared up", "BrokenPipeError"))

    def test_each_script_ends_so(self) -> None:
        scripts = [path for path in HERE.iterdir() if path.is_file() and not path.suffix]
        texts = {path.name: path.read_text() for path in scripts}
        python = {name: text for name, text in texts.items() if text.startswith("#!/usr/bin/env python3")}
        self.assertIn("docs", python)
        self.assertEqual([name for name, text in python.items() if "sys.exit(status_of(main))" not in text], [])


if __name__ == "__main__":
    unittest.main()
