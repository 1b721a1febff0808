"""What can't go, drafts, the command line, and whole modules."""

from __future__ import annotations

import contextlib
import io
import json
import tempfile
import tomllib
import unittest
from pathlib import Path
from unittest import mock

from test_lower import CLASS, Case, lower

import main
import report
from reading_modules import read_modules
from tokens import Fault, cut


class Holes(Case):
    def test_what_cannot_go(self) -> None:
        self.cannot("A ::= SEQUENCE {a ANY OPTIONAL}", "ANY holds a value of any type")
        self.cannot("A ::= SEQUENCE {a UTCTime}", "UTCTime under its universal tag isn't in the profile")
        self.cannot("A ::= SEQUENCE {a B}", "B isn't defined in M")
        self.cannot("A ::= CHOICE {}", "no alternative of the CHOICE stays")
        self.cannot("A ::= SEQUENCE {a NULL OPTIONAL, b NULL}", "the tags of a and b can't be told apart")

    def test_draft(self) -> None:
        body = "A ::= SEQUENCE {a B OPTIONAL, c SEQUENCE OF ANY} B ::= SEQUENCE {x ALG.&Params ({Set})}"
        body += CLASS + "Set ALG ::= {rsa | dsa}"
        draft = report.as_draft(lower([self.text(body)], "A", leave=True))
        self.assertIn('"M.A.a" = "leave-out"', draft)
        self.assertIn('"M.A.c.*" = "leave-out"', draft)
        self.assertIn('# object sets have: "NULL", "M.Dss"', draft)
        again = report.as_draft(lower([self.text(body)], "A", draft, leave=True))
        self.assertEqual(tomllib.loads(again), tomllib.loads(draft))
        result = lower([self.text(body)], "A", draft)
        self.assertEqual((result.status, result.messages[0].mark), (0, "tighter"))
        self.assertIn("c SEQUENCE (SIZE (0)) OF NULL}", result.texts[0].text)

    def drafted(self, body: str, toml: str = "") -> str:
        with tempfile.TemporaryDirectory() as folder:
            Path(folder, "a.asn1").write_text(self.text(body))
            Path(folder, "b.toml").write_text(toml)
            files = ["--bindings", f"{folder}/b.toml", "--draft", f"{folder}/d.toml", f"{folder}/a.asn1"]
            self.assertEqual(main.run(main.parser().parse_args(["--message", "A", *files])), 0)
            return Path(folder, "d.toml").read_text()

    def test_draft_beside_a_hole_that_needs_a_type(self) -> None:
        """What else has to go is drafted at once; what goes by the same hole alone isn't left out."""
        body = "A ::= SEQUENCE {a [0] ANY OPTIONAL, b B, c C OPTIONAL, n [1] SEQUENCE {p UTCTime OPTIONAL, d D}, e E}\n"
        body += "B ::= SEQUENCE {x ANY OPTIONAL, y ANY}\nC ::= SET {b B, z [3] ANY OPTIONAL, f F OPTIONAL}"
        body += "\nD ::= SEQUENCE OF UTCTime\nE ::= SEQUENCE {x INTEGER y NULL}\nF ::= SET {g D, h ANY}"
        draft = self.drafted(body)
        wanted = {f"M.{place}": "leave-out" for place in ("A.a", "A.n.p", "B.x", "C.f", "C.z", "D.*")}
        self.assertEqual(tomllib.loads(draft)["bind"], wanted)
        self.assertIn("\n# A can't go without a type here:\n# M.B.y (", draft)
        self.assertIn("a comma is missing before y\n# mend the text, or bind each component that", draft)
        filled = draft.replace('# "M.B.y" = ".."', '"M.B.y" = "NULL"') + '"M.A.e" = "NULL"\n'
        result = lower([self.text(body)], "A", filled)
        self.assertEqual((result.messages[0].mark, result.messages[0].causes), ("neither", []))
        self.assertEqual(tomllib.loads(self.drafted(body, filled)), tomllib.loads(filled))

    def test_draft_where_more_cannot_be_known(self) -> None:
        real = main.lower

        def once(*words: object) -> main.Result:
            if len(words) > 4:
                raise Fault("too deep")
            return real(*words)

        with mock.patch.object(main, "lower", once):
            draft = self.drafted("A ::= SEQUENCE {a ANY, b UTCTime OPTIONAL}")
        self.assertTrue(draft.endswith("the types that are missing here are there: too deep\n"))
        self.assertEqual(tomllib.loads(draft)["bind"], {})

    def test_holes_inside_a_choice_that_goes(self) -> None:
        """What takes the last alternatives along is named too, so that the author sees where a type would help."""
        body = "A ::= SEQUENCE {a B OPTIONAL} B ::= CHOICE {x ANY, y C} C ::= UTCTime"
        draft = report.as_draft(lower([self.text(body)], "A", leave=True))
        self.assertIn('"M.A.a" = "leave-out"', draft)
        holes = [line.split(" ")[1] for line in draft.split("\n") if line.startswith("# M.")]
        self.assertEqual(holes, ["M.B", "M.B.x", "M.C"])

    def test_draft_and_folder_in_one_call(self) -> None:
        """The draft leaves the hole out; what is written to the folder doesn't, as nobody has said so."""
        with tempfile.TemporaryDirectory() as folder, contextlib.redirect_stderr(io.StringIO()) as said:
            Path(folder, "a.asn1").write_text(self.text("A ::= SEQUENCE {a ANY OPTIONAL, b NULL}"))
            files = ["--draft", f"{folder}/draft.toml", "-o", folder, f"{folder}/a.asn1"]
            with contextlib.redirect_stdout(io.StringIO()) as told:
                status = main.run(main.parser().parse_args(["--message", "A", *files]))
            report_text = Path(folder, "lowering.json").read_text()
            self.assertIn('"M.A.a" = "leave-out"', Path(folder, "draft.toml").read_text())
        self.assertEqual((status, told.getvalue()), (2, "A: can't\n"))
        self.assertIn("M.A.a: ANY holds a value of any type", said.getvalue())
        self.assertEqual([message["mark"] for message in json.loads(report_text)["messages"]], ["can't"])

    def test_presence_of_what_is_left_out(self) -> None:
        body = "A ::= B (WITH COMPONENTS {..., q PRESENT}) B ::= SEQUENCE {q ANY OPTIONAL}"
        self.cannot(body, "q, which is left out, has to be there", toml='[bind]\n"B.q" = "leave-out"')

    def test_faults_of_bindings(self) -> None:
        with self.assertRaises(Fault):
            lower([self.text("A ::= SEQUENCE {a ANY}")], "A", '[bind]\n"C.a" = "NULL"')
        with self.assertRaises(Fault):
            lower([self.text("A ::= SEQUENCE {a ANY}")], "A", '[bind]\n"A.a" = "leave-out"')


class Once(Case):
    """The reports list a cause and a change once with their place, however often what has them is lowered."""

    left = "the bindings leave it out"
    vendor = "vendor [5] OPEN.&Type"

    def causes(self, body: str, toml: str = "", names: str = "A", leave: bool = False) -> list[tuple[str, str]]:
        """The places and causes of what can't go, whatever tags are; no line of the reports is there twice."""
        told: list[list[tuple[str, str]]] = []
        for tags in ("EXPLICIT", "IMPLICIT", "AUTOMATIC"):
            result = lower([self.text(f"{body}\nOPEN ::= CLASS {{&Type}}", tags)], names, toml, leave)
            lines = [line for line in report.as_markdown(result).split("\n") if line.startswith(("- ", "| "))]
            self.assertEqual(lines, list(dict.fromkeys(lines)), tags)
            held = json.loads(report.as_json(result))
            told.append([(cause["place"], cause["cause"]) for cause in held["left_out"]])
            for message in result.messages:
                said = [(str(cause.place), cause.why) for cause in message.causes]
                self.assertEqual(said, list(dict.fromkeys(said)), tags)
                ids = [change.number for change in message.changes]
                self.assertEqual(ids, list(dict.fromkeys(ids)), tags)
        self.assertEqual(told, [told[0]] * len(told))
        return told[0]

    def test_lists_that_go_to_a_module_beside(self) -> None:
        """Under AUTOMATIC TAGS a list whose tagged parts went is lowered again, into a module of its own."""
        forms = ("CHOICE {a NULL, %s}", "SEQUENCE {a NULL, %s OPTIONAL}", "SET {a NULL, %s OPTIONAL}")
        for form in (form % self.vendor for form in forms):
            found = self.causes(f"A ::= {form}", '[bind]\n"A.vendor" = "leave-out"')
            self.assertEqual(found, [("M.A.vendor", self.left)], form)
            nested = f"A ::= SEQUENCE {{b [0] SEQUENCE OF {form}}}"
            found = self.causes(nested, '[bind]\n"A.b.*.vendor" = "leave-out"')
            self.assertEqual(found, [("M.A.b.*.vendor", self.left)], nested)

    def test_definitions_with_parameters(self) -> None:
        head = "A ::= SEQUENCE {p [0] P{NULL}, q [1] P{INTEGER}}\nP{T} ::= "
        for form, place in (
            (f"CHOICE {{t [0] T, {self.vendor}}}", "P.vendor"),
            (f"SEQUENCE {{t [0] T, {self.vendor} OPTIONAL}}", "P.vendor"),
            ("SET {t [0] T, l [1] SEQUENCE OF OPEN.&Type}", "P.l.*"),
        ):
            found = self.causes(head + form, f'[bind]\n"{place}" = "leave-out"')
            self.assertEqual(found, [(f"M.{place}", self.left)], form)
        found = self.causes(f"{head}SEQUENCE {{t [0] T, {self.vendor}, n [n] NULL}}")
        wanted = [("M.P.vendor", "OPEN . &Type holds a value of any type"), ("M.P.n", "n isn't defined in M")]
        self.assertEqual(found, wanted)

    def test_recursions(self) -> None:
        toml = '[bind]\n"A.vendor" = "leave-out"'
        found = self.causes(f"A ::= CHOICE {{a [0] NULL, l [1] SEQUENCE OF A, {self.vendor}}}", toml)
        self.assertEqual(found, [("M.A.vendor", self.left)])
        body = "A ::= SEQUENCE {a [0] A OPTIONAL, b [1] B OPTIONAL}\nB ::= SEQUENCE {x NULL y NULL}"
        self.assertEqual(self.causes(body, leave=True), [("M.B", "a comma is missing before y")])

    def test_components_of(self) -> None:
        body = "A ::= SEQUENCE {x NULL, COMPONENTS OF B, y B}\nB ::= SEQUENCE {p NULL, vendor OPEN.&Type OPTIONAL}"
        self.assertEqual(self.causes(body, '[bind]\n"B.vendor" = "leave-out"'), [("M.B.vendor", self.left)])

    def test_each_use_has_its_own_cause(self) -> None:
        """What two uses of a place lack is told of both, and of each message what it lacks itself."""
        body = "A ::= P{ANY}\nB ::= P{UTCTime}\nP{T} ::= SEQUENCE {t [0] EXPLICIT T}"
        first, second = "ANY holds a value of any type", "UTCTime under its universal tag isn't in the profile"
        self.assertEqual(self.causes(body, names="A B"), [("M.P.t", first), ("M.P.t", second)])
        messages = lower([self.text(body)], "A B").messages
        self.assertEqual([[cause.why for cause in one.causes] for one in messages], [[first], [second]])

    def test_counts(self) -> None:
        """A message's line counts changes as the table lists them: one for each place, of whatever definitions."""
        body = f"A ::= SEQUENCE {{p [0] P{{NULL}}, q [1] P{{INTEGER}}}}\nP{{T}} ::= SEQUENCE {{t [0] T, {self.vendor} "
        body += "OPTIONAL, w [6] OPEN.&Type OPTIONAL, ...}\nOPEN ::= CLASS {&Type}"
        result = lower([self.text(body)], "A", '[bind]\n"P.vendor" = "leave-out"\n"P.w" = "leave-out"')
        wanted = ["tighter: extension-mark (1 of them)", "tighter: left-out (2 of them)"]
        self.assertEqual(sorted(result.messages[0].reasons()), wanted)
        table = report.as_markdown(result).split("## Changes")[1].split("## What")[0]
        self.assertEqual([table.count(f"| {step} |") for step in ("extension-mark", "left-out")], [1, 2])


class Modules(Case):
    def test_imports(self) -> None:
        first = (
            "M { iso(1) foo bar(baz) } DEFINITIONS IMPLICIT TAGS ::= BEGIN\nEXPORTS A, B; -- exports\nIMPORTS\n"
            "  -- from N\n"
            "  B, C -- the C\n    FROM N { iso standard 1 }\n  d, E FROM P someOid WITH SUCCESSORS;\n"
            "A ::= SEQUENCE { b B, c [1] N.C OPTIONAL, e E, f N.F DEFAULT d }\nEND\n"
        )
        second = "N DEFINITIONS ::= BEGIN EXPORTS ; IMPORTS d FROM P; "
        second += "B ::= [3] NULL C ::= NULL F ::= INTEGER (0..d) END"
        third = "P DEFINITIONS ::= BEGIN d INTEGER ::= 3 E ::= NULL END"
        result = lower([first, second, third], "M.A")
        texts = {text.name: text.text for text in result.texts}
        expected = (
            "M DEFINITIONS IMPLICIT TAGS ::= BEGIN\nEXPORTS A; -- exports\nIMPORTS\n  -- from N\n  B, C, F -- the C\n"
            "    FROM N { iso standard 1 } E FROM P;\nA ::= SEQUENCE { b B, c [1] C OPTIONAL, e E, f F DEFAULT 3 }\n"
            "END\n"
        )
        self.assertEqual(texts["M"], expected)
        self.assertIn("EXPORTS B, C, F;", texts["N"])
        self.assertEqual(result.messages[0].mark, "same")

    def test_messages_are_exported(self) -> None:
        """A module of rules imports them, whatever the original exports."""
        text = "M DEFINITIONS ::= BEGIN EXPORTS B; A ::= SEQUENCE {b B, c C} B ::= NULL C ::= INTEGER END"
        self.assertIn("EXPORTS B, A;", lower([text], "A").texts[0].text)
        self.assertIn("EXPORTS A;", lower([text.replace("EXPORTS B", "EXPORTS")], "A").texts[0].text)

    def test_comments_of_imports(self) -> None:
        """A comment behind a clause stays once, whether the next clause stays or goes."""
        head = "M DEFINITIONS ::= BEGIN IMPORTS B FROM N -- of N\n D FROM P {1 2} -- of P\n; A ::= "
        others = ["N DEFINITIONS ::= BEGIN B ::= NULL END", "P DEFINITIONS ::= BEGIN D ::= INTEGER END"]
        both = lower([head + "SEQUENCE {b B, d D} END", *others], "A").texts[0].text
        self.assertIn("IMPORTS B FROM N -- of N\n D FROM P {1 2} -- of P\n;", both)
        one = lower([head + "SEQUENCE {b B} END", *others], "A").texts[0].text
        self.assertIn("IMPORTS B FROM N -- of N\n ;", one)

    def test_name_that_is_taken(self) -> None:
        first = "M DEFINITIONS ::= BEGIN A ::= SEQUENCE {b N.B, c B} B ::= INTEGER END"
        second = "N DEFINITIONS ::= BEGIN B ::= NULL END"
        result = lower([first, second], "A")
        self.assertIn("SEQUENCE {b B-of-N, c B}", result.texts[0].text)
        self.assertIn("B-of-N ::= B", result.texts[1].text)

    def test_what_cannot_be_read(self) -> None:
        body = 'ERR MACRO ::= BEGIN TYPE NOTATION ::= "P" type END\nfoo ERR P INTEGER ::= 5\nA ::= NULL\n'
        body += 'Bad ::= SEQUENCE {a INTEGER b NULL}'
        result = self.gives(body, "A ::= NULL", "same")
        self.assertEqual([name for name, _ in result.unread], ["foo", "Bad"])

    def test_place_of_what_cannot_be_read(self) -> None:
        """A cause has the place where reading stopped, and not that of the definition."""
        for body, why in (
            ("A ::= SEQUENCE {\n  a INTEGER (0..5\n}", "0.asn1:4:1: M.A: ) is missing before }"),
            ("A ::= B\nB INTEGER ::= {1 |\n 2 3}", "0.asn1:4:4: M.B: } is missing before 3"),
        ):
            result = lower([self.text(body)], "A")
            self.assertEqual(result.messages[0].reasons(), [why])
            held = json.loads(report.as_json(result))
            at = [(one["line"], one["column"]) for one in (*held["left_out"], *held["unread"])]
            self.assertEqual(at, [at[0]] * 2)

    def test_faults(self) -> None:
        with self.assertRaises(Fault) as caught:
            read_modules(cut("a.asn1", "M DEFINITIONS ::= BEGIN\n  A ::= 'x'B\nEND"))
        shown = caught.exception.shown().split("\n")
        self.assertEqual(shown[0], "a.asn1:2:9: string isn't closed")
        self.assertEqual(shown[2].index("^"), shown[1].index("'x'B"))

    def test_two_texts_of_one_module(self) -> None:
        with self.assertRaises(Fault):
            lower(["M DEFINITIONS ::= BEGIN A ::= NULL END", "M DEFINITIONS ::= BEGIN A ::= INTEGER END"], "A")


class Size(unittest.TestCase):
    def test_no_more_than_can_be_read(self) -> None:
        """Nothing proves this tool, so whoever trusts what it writes has to be able to read all of it."""
        folder = Path(main.__file__).parent
        files = [path for path in folder.glob("*.py") if not path.name.startswith("test_")]
        texts = [path.read_text(encoding="utf-8") for path in (*files, folder / "derguard-lower")]
        lines = [line for text in texts for line in text.split("\n") if line.strip()]
        self.assertLessEqual(len(lines), 3000, "lines of the tool that hold something, its tests aside")


if __name__ == "__main__":
    unittest.main()
