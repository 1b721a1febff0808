"""Tests of the scripts in tools/, on small texts."""
from __future__ import annotations

import contextlib
import io
import os
import pathlib
import signal
import subprocess
import sys
import tempfile
import unittest
from typing import Any
from unittest import mock

sys.dont_write_bytecode = True
sys.path.insert(0, str(pathlib.Path(__file__).resolve().parent))

import crates
import rows
import trying
from loading import TOP, script

SOME_ROWS = """# by hand
@type INTEGER => ok
1 => 020101
# slow
| a line in front of it
\\[1000000*2\\] => V8

# slow 2
@input 00 => ok
run => 0
5 => 020105
"""
ANSWERED = """lexer/marks.rows: 458 rows
lexer/faults.rows:9: a => L1 BadCharacter
    answered: no token
lexer/faults.rows: 21 rows, 1 with another answer
"""


class Crates(unittest.TestCase):
    def test_each_crate_has_those_that_it_stands_on(self) -> None:
        with tempfile.TemporaryDirectory() as top:
            pathlib.Path(top, "crates.txt").write_text("# a comment: none\nlow: core\n\nhigh #note: low core\n")
            self.assertEqual(crates.listed(pathlib.Path(top)), {"low": ["core"], "high": ["low", "core"]})


class Rows(unittest.TestCase):
    def test_marked_rows_are_left_out_and_the_others_keep_their_numbers(self) -> None:
        text, count = rows.without_slow(SOME_ROWS)
        self.assertEqual(count, 3)
        kept = [(number, line) for number, line in enumerate(text.split("\n"), 1) if rows.is_row(line)]
        self.assertEqual(kept, [(2, "@type INTEGER => ok"), (3, "1 => 020101"), (11, "5 => 020105")])
        self.assertNotIn("| a line", text)

    def test_a_wrong_row_is_told_with_both_answers(self) -> None:
        place = "crates/conformance/data/lexer/faults.rows:9: a"
        wanted = f"{place}\n    expected: L1 BadCharacter\n    answered: no token"
        self.assertEqual(rows.wrong_rows("conformance", ANSWERED), [wanted])

    def test_numbers_of_rows_are_those_of_stdout_but_for_what_was_left_out(self) -> None:
        stdout = "a/b.rows: 10 rows\na/c.rows: 4 rows\na/d.rows: 3 rows, 20 octet strings, 0 differ\n3 files, 14 rows\n"
        out, files = stdout.replace("10 rows", "8 rows"), ["a/b.rows", "a/d.rows"]
        some, none = (rows.LaidOut(TOP, files, left_out) for left_out in ({"a/b.rows": 2}, {}))
        self.assertEqual(rows.other_counts("conformance", stdout, out, some), [])
        self.assertEqual(len(rows.other_counts("conformance", stdout, out, none)), 1)
        self.assertEqual(len(rows.other_counts("conformance", stdout, out.replace("20 octet", "21 octet"), none)), 2)
        self.assertEqual(rows.answered(out, some), 8)

    def test_each_file_is_in_one_part(self) -> None:
        data = TOP / "crates/conformance_types/data"
        with tempfile.TemporaryDirectory() as folder:
            parts = rows.laid_out(data, pathlib.Path(folder), 3)
            files = sorted(file for part in parts for file in part.files)
            self.assertEqual(files, sorted(str(path.relative_to(data)) for path in data.rglob("*.rows")))
            self.assertEqual(len(list(parts[0].folder.rglob("*.rows"))), len(files))

    def test_marks_of_the_repository_stand_above_rows(self) -> None:
        for path in sorted(TOP.glob("crates/*/data/**/*.rows")):
            text = path.read_text()
            marks = [int(found.group(1) or 1) for line in text.split("\n") if (found := rows.MARK.fullmatch(line))]
            self.assertEqual(rows.without_slow(text)[1], sum(marks), path)


class Quick(unittest.TestCase):
    def came(self, out: str, err: str = "", status: int = 0) -> Any:
        """What comes of the rows of conformance_types where `rt try` answers this."""
        quick, told = script("tools/quick"), trying.Tried(status, out, err)
        with mock.patch.multiple(trying.Unproved, __init__=lambda *_: None, is_there=lambda *_: True,
                                 run=lambda *_: told):
            return quick.rows_of("conformance_types")()

    def test_rows_that_are_as_written_pass(self) -> None:
        place, lines = TOP / "crates/conformance_types", []
        for line in (place / "stdout").read_text().splitlines():
            if found := rows.COUNT.fullmatch(line):
                less = rows.without_slow((place / "data" / found.group(1)).read_text())[1]
                line = f"{found.group(1)}: {int(found.group(2)) - less} rows"
            lines.append(line)
        came = self.came("\n".join(lines))
        self.assertTrue(came.passed, came.said)

    def test_a_wrong_row_and_a_program_that_is_stopped_fail(self) -> None:
        self.assertIn("answered: no token", self.came(ANSWERED, status=1).said)
        came = self.came("", "error: no such function\nrun=none proved=no\n", 1)
        self.assertFalse(came.passed)
        self.assertIn("no such function", came.said)


class Try(unittest.TestCase):
    def test_what_rt_says_of_each_case_is_told_apart(self) -> None:
        told = trying.Tried(0, "== 1\npass\n== 2\n", "case=1 run=ended status=0 proved=no\n"
                            "2 a>b c no-rule\ncase=2 run=ended status=1 proved=no\ncases=2 ended=2 proved=no\n")
        self.assertEqual(script("tools/try").answers(told), (["pass\n", ""], ["", "2 a>b c no-rule\n"]))


class Version(unittest.TestCase):
    def test_it_is_written_to_each_place(self) -> None:
        version = script("tools/version")
        with tempfile.TemporaryDirectory() as folder:
            top = pathlib.Path(folder)
            for name in ["VERSION", "CHANGELOG.md", *(file for file, _, _ in version.PLACES)]:
                (top / name).parent.mkdir(parents=True, exist_ok=True)
                (top / name).write_text((TOP / name).read_text())
            self.assertEqual(version.wrong_in(top), [])
            version.write(top, "27.3.1")
            self.assertEqual(version.wrong_in(top), ["CHANGELOG.md doesn't begin with 27.3.1"])
            (top / "VERSION").write_text("27.3.2\n")
            self.assertEqual(len(version.wrong_in(top)), 1 + len(version.PLACES) + 1)


class Packages(unittest.TestCase):
    def test_each_line_has_a_name_a_package_and_a_use(self) -> None:
        packages = script("tools/packages")
        needs = packages.needs(packages.LIST.read_text())
        self.assertIn("socat", [need.package for need in needs])
        self.assertTrue(all(need.use for need in needs))

    def test_a_command_and_a_folder_are_looked_for(self) -> None:
        packages = script("tools/packages")
        is_there = [need.is_there() for need in packages.needs("sh a b\n/t*p c d\nno-such-command e f\n/no/such g h\n")]
        self.assertEqual(is_there, [True, True, False, False])


class Text(unittest.TestCase):
    def test_lines(self) -> None:
        text = script("tools/text")
        self.assertEqual(list(text.wrong_lines("docs/A.md", "one\ntwo\n")), [])
        self.assertEqual(len(list(text.wrong_lines("docs/A.md", "one \ntwo"))), 2)
        self.assertEqual(len(list(text.wrong_lines("tools/a", f"{'x' * 121}\n"))), 1)
        self.assertEqual(list(text.wrong_lines("docs/A.md", f"{'x' * 121}\n")), [])
        self.assertEqual(len(list(text.wrong_lines("examples/a", f"#!/bin/sh\n# {'x' * 121}\n"))), 1)

    def test_python(self) -> None:
        text = script("tools/text")
        self.assertEqual(len(list(text.wrong_python("a", "import os, sys\nprint(sys.path)\n"))), 1)
        self.assertEqual(len(list(text.wrong_python("a", "def f(:\n"))), 1)

    def test_functions_say_their_types_and_fit_on_a_screen(self) -> None:
        text, body = script("tools/text"), "    pass\n"
        self.assertEqual(list(text.wrong_python("a", f"def f(self, a: int, *b: str) -> None:\n{38 * body}")), [])
        self.assertEqual(len(list(text.wrong_python("a", f"def f() -> None:\n{39 * body}"))), 1)
        for head in ("f(a) -> None", "f(a: int)", "f(*, a) -> None", "f(**a) -> None"):
            self.assertEqual(len(list(text.wrong_python("a", f"def {head}:\n{body}"))), 1, head)

    def test_code_outside_crates(self) -> None:
        text = script("tools/text")
        self.assertEqual(list(text.wrong_places(["crates/guard_der/src/lib.rt"])), [])
        self.assertEqual(len(list(text.wrong_places(["bench/a.rt", "crates/guard_der/src/A.antt"]))), 2)


class Edits(unittest.TestCase):
    def test_pairs(self) -> None:
        edits = script("tools/edits")
        with tempfile.NamedTemporaryFile("w", suffix=".edit") as file:
            file.write("file: src/lib.rt\nold: a < b\nnew: a <= b\nold: c\nnew:\n")
            file.flush()
            found = edits.pairs(pathlib.Path(file.name))
        self.assertEqual([(it[0], it[1]) for it in found], [("src/lib.rt", "a < b"), ("src/lib.rt", "c")])

    def test_what_a_list_says_stays_beside_new_commits(self) -> None:
        edits = script("tools/edits")
        with tempfile.TemporaryDirectory() as top:
            edits.TOP = pathlib.Path(top)
            folder = edits.TOP / "crates/a/edits"
            folder.mkdir(parents=True)
            for name in ("one", "two"):
                (folder / f"{name}.edit").write_text("")
            (folder / "refused.txt").write_text("promised: something: else\ngone: 1\none: 2\n")
            edits.write_list("a", {"two": "3"})
            self.assertEqual(edits.list_of("a"), {"promised": "something: else", "one": "2", "two": "3"})

    def test_what_refuses_a_wrong_body_may_have_colons(self) -> None:
        edits = script("tools/edits")
        with tempfile.TemporaryDirectory() as top:
            edits.REFUSERS = pathlib.Path(top, "must-fail.txt")
            edits.REFUSERS.write_text("# a comment (c): none\na b (c, d): x: says so (8.1)\n")
            self.assertEqual(edits.refusers(), {"a b": (["c", "d"], "x: says so (8.1)")})


class Costs(unittest.TestCase):
    def test_a_change_is_paid_by_the_crates_above(self) -> None:
        costs = script("tools/costs")
        with tempfile.TemporaryDirectory() as top:
            costs.TOP, costs.FIGURES = pathlib.Path(top), pathlib.Path(top, "costs.txt")
            (costs.TOP / "crates.txt").write_text("low: other\nmiddle #note: low\ntop: middle low other\n")
            costs.FIGURES.write_text("# a comment\nlow 5 1.5 2\n")
            self.assertEqual(costs.above("low"), ["middle", "top"])
            self.assertEqual(costs.costs(), {"low": costs.Cost(5, 1.5, 2)})

    def test_a_crate_without_a_line_is_named_and_a_line_without_a_crate_is_wrong(self) -> None:
        costs = script("tools/costs")
        known = {"low": costs.Cost(5, 1.5, 2)}
        out, err = io.StringIO(), io.StringIO()
        with contextlib.redirect_stdout(out), contextlib.redirect_stderr(err):
            self.assertEqual(costs.checked(known, ["low", "top"]), 0)
            self.assertEqual(costs.checked(known, ["top"]), 1)
        self.assertEqual(out.getvalue(), "tools/costs.txt has low, and crates.txt doesn't\n")
        self.assertTrue(err.getvalue().endswith("costs.txt): top\n"))
        with self.assertRaises(costs.BadLine):
            costs.cost_in(3, "low 5 1.5")


class Definitions(unittest.TestCase):
    def test_first_sentence(self) -> None:
        definitions = script("tools/definitions")
        with tempfile.NamedTemporaryFile("w", suffix=".antt") as file:
            file.write("-- What goes (X.680 8.\n-- and 31). More of it.\nuse A\n")
            file.flush()
            said = definitions.first_sentence(pathlib.Path(file.name))
        self.assertEqual(said, "What goes (X.680 8. and 31)")


class Graph(unittest.TestCase):
    def test_an_arrow_that_a_longer_way_says_is_left_out(self) -> None:
        graph = script("tools/graph")
        used = graph.without_detours({"a": {"b", "c"}, "b": {"c"}, "c": set()})
        self.assertEqual(used, {"a": {"b"}, "b": {"c"}, "c": set()})

    def test_a_file_is_below_all_that_use_it(self) -> None:
        graph = script("tools/graph")
        used = {"a": {"b"}, "b": {"d"}, "c": {"d"}, "d": set()}
        rows = graph.layers(["a", "b", "c", "d"], used)
        self.assertEqual(rows, [["a", "c"], ["b"], ["d"]])
        places = graph.placed(*graph.with_bends(rows, used))
        self.assertEqual({name for name in places if "|" not in name}, set(used))
        self.assertEqual([name for name in places if "|" in name], ["c|d|1"])

    def test_arrows_cross_where_they_must_and_places_are_apart(self) -> None:
        graph = script("tools/graph")
        rows, steps = [["a", "b"], ["c", "d"]], {"a": {"d"}, "b": {"c"}}
        self.assertEqual(graph.crossings(rows, steps), 1)
        self.assertEqual(graph.crossings(graph.in_order(rows, steps), steps), 0)
        self.assertEqual(graph.apart([0, 0, 5], [2, 2]), [-1, 1, 5])


class Closed(io.StringIO):
    """An output that nobody reads."""

    def write(self, _: str) -> int:
        raise BrokenPipeError

    def reconfigure(self, **_: str) -> None:
        pass


class OutputNobodyReads(unittest.TestCase):
    def test_scripts_with_long_output_end_by_sigpipe(self) -> None:
        for called in ("edits --list", "edits --gate", "claims", "costs", "definitions", "packages", "version"):
            name, *options = called.split()
            reads, writes = os.pipe()
            os.close(reads)
            words = [TOP / "tools" / name, *options]
            with open(writes, "w") as writer:
                done = subprocess.run(words, stdout=writer, stderr=subprocess.PIPE, text=True)
            self.assertEqual((done.returncode, done.stderr), (-signal.SIGPIPE, ""), called)

    def test_edits_ends_the_command_whose_lines_it_prints(self) -> None:
        edits = script("tools/edits")
        with contextlib.redirect_stdout(Closed()), self.assertRaises(BrokenPipeError):
            with subprocess.Popen(["yes"], stdout=subprocess.PIPE, text=True) as started:
                list(edits.printed(started))
        self.assertEqual(started.returncode, -signal.SIGTERM)

    def test_quick_ends_what_it_called(self) -> None:
        quick = script("tools/quick")
        parts = {"text": lambda: quick.Came(True, "")}
        with contextlib.redirect_stdout(Closed()), mock.patch("sys.argv", ["quick", "text"]), \
                mock.patch.multiple(quick, PARTS=parts, ended=mock.DEFAULT) as ends:
            quick.main()
        ends["ended"].assert_called_once_with(signal.SIGPIPE, None)


if __name__ == "__main__":
    unittest.main()
