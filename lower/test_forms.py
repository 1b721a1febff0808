"""Forms that come seldom: constraints of elements and of what is excepted, parameters, objects, arcs, words, faults."""

from __future__ import annotations

import contextlib
import io
import os
import signal
import subprocess
import sys
import tempfile
import textwrap
import unittest
from pathlib import Path

from test_lower import Case, lower

import main
import report
from bindings import read_bindings
from tokens import Fault


class Constraints(Case):
    def test_elements(self) -> None:
        body = "A ::= B (WITH COMPONENT (0..5, ...))\nB ::= SEQUENCE OF INTEGER"
        self.gives(body, "A ::= B (WITH COMPONENT (0..5))\nB ::= SEQUENCE OF INTEGER", "tighter")

    def test_elements_of_a_list_that_stays_empty(self) -> None:
        body = "A ::= B (WITH COMPONENT (NULL))\nB ::= SEQUENCE OF ANY"
        expected = "A ::= B\nB ::= SEQUENCE (SIZE (0)) OF NULL"
        self.gives(body, expected, "tighter", toml='[bind]\n"B.*" = "leave-out"')

    def test_all_except(self) -> None:
        self.gives("A ::= INTEGER (ALL EXCEPT 5)", "A ::= INTEGER (ALL EXCEPT 5)", "same")
        self.gives("A ::= INTEGER (ALL EXCEPT B)\nB ::= INTEGER (1, ...)", "A ::= INTEGER", "looser")
        body = "A ::= B (ALL EXCEPT WITH COMPONENTS {..., q (1..5)})\nB ::= SEQUENCE {q INTEGER}"
        self.gives(body, body, "same")

    def test_open_ends(self) -> None:
        self.gives("A ::= INTEGER (1<..5)", "A ::= INTEGER (1<..5)", "same")
        self.gives("A ::= INTEGER (MIN<..5)", "A ::= INTEGER", "looser")

    def test_named_numbers_as_ends(self) -> None:
        body = "A ::= B (x..y)\nB ::= INTEGER {x(1), y(n)}\nn INTEGER ::= 2"
        self.gives(body, "A ::= B (x..y)\nB ::= INTEGER {x(1), y(2)}", "same")

    def test_lists_that_must_not_be_empty(self) -> None:
        with self.assertRaises(Fault):
            lower([self.text("A ::= SEQUENCE (SIZE (1..2)) OF ANY")], "A", '[bind]\n"A.*" = "leave-out"')


class Parameters(Case):
    def test_type_in_a_constraint(self) -> None:
        body = "A ::= P {C}\nP {T} ::= INTEGER (T | 9)\nC ::= INTEGER (1..3)"
        self.gives(body, "A ::= P\nP ::= INTEGER (C | 9)\nC ::= INTEGER (1..3)", "same")

    def test_type_with_a_constraint_or_default(self) -> None:
        body = "A ::= P {C}\nP {T} ::= SEQUENCE {x T (1..2), y T DEFAULT 5}\nC ::= INTEGER"
        self.gives(body, "A ::= P\nP ::= SEQUENCE {x C (1..2), y C DEFAULT 5}\nC ::= INTEGER", "same")

    def test_objects_by_the_default_syntax(self) -> None:
        body = "A ::= SEQUENCE {x K.&Type ({S}{@y}), y K.&id ({S})}\nK ::= CLASS {&id INTEGER, &Type}\n"
        body += "o K ::= {&id 5, &Type NULL}\nS K ::= {o}"
        expected = "A ::= SEQUENCE {x NULL, y INTEGER}"
        result = self.gives(body, expected, "looser", toml='[bind]\n"A.x" = "NULL"')
        self.assertIn(("bound", "same"), self.steps(result))

    def test_empty_extensible_set(self) -> None:
        body = "A ::= SEQUENCE {x K.&Type ({S}{@y}), y INTEGER}\nK ::= CLASS {&id INTEGER, &Type}\nS K ::= {...}"
        self.gives(body, "A ::= SEQUENCE {x NULL, y INTEGER}", "tighter", toml='[bind]\n"A.x" = "NULL"')


class Tags(Case):
    def test_class_context(self) -> None:
        self.gives("A ::= [CONTEXT 5] NULL", "A ::= [ 5] NULL", "same")

    def test_tag_of_another_module(self) -> None:
        first = "M DEFINITIONS IMPLICIT TAGS ::= BEGIN IMPORTS C FROM N; A ::= x < C END"
        other = "N DEFINITIONS ::= BEGIN C ::= CHOICE {x [5] SEQUENCE {r NULL}, y NULL} END"
        result = lower([first, other], "A")
        texts = {text.name: text.text for text in result.texts}
        self.assertIn("A ::= [5] EXPLICIT C-x", texts["M"])
        self.assertIn("C-x ::= SEQUENCE {r NULL}", texts["N"])
        self.assertEqual(result.messages[0].mark, "same")

    def test_tags_of_alternatives(self) -> None:
        body = "A ::= SEQUENCE {a ANY}\nB ::= CHOICE {p [2] NULL, q [3] NULL}"
        expected = "A ::= SEQUENCE {a CHOICE {null [1] NULL, b B}}\nB ::= CHOICE {p [2] NULL, q [3] NULL}"
        self.gives(body, expected, "tighter", toml='[bind]\n"A.a" = ["[1] NULL", "B"]')

    def test_alternatives_under_an_implicit_tag(self) -> None:
        with self.assertRaises(Fault):
            body = "A ::= SEQUENCE {a [0] IMPLICIT UTCTime}"
            lower([self.text(body)], "A", '[bind]\n"A.a" = ["NULL", "INTEGER"]')


class Values(Case):
    def test_arcs(self) -> None:
        body = "A ::= OBJECT IDENTIFIER ({itu-t recommendation x 509} | {iso n 5} | { iso(1) 2  3 })\nn INTEGER ::= 3"
        expected = "A ::= OBJECT IDENTIFIER ({itu-t(0) recommendation(0) x(24) 509} | "
        expected += "{iso(1) n(3) 5} | { iso(1) 2  3 })"
        self.gives(body, expected, "same")

    def test_strings_one_after_another(self) -> None:
        body = 'A ::= IA5String ({"ab", "c""d"} | {{0,0,0,65}, "b", {4,3}})'
        self.gives(body, 'A ::= IA5String ("abc""d" | "AbC")', "same")

    def test_value_of_another_module(self) -> None:
        first = "M DEFINITIONS ::= BEGIN A ::= SEQUENCE {a INTEGER DEFAULT N.n} END"
        result = lower([first, "N DEFINITIONS ::= BEGIN n INTEGER ::= 7 END"], "A")
        self.assertIn("SEQUENCE {a INTEGER DEFAULT 7}", result.texts[0].text)
        self.assertEqual(result.messages[0].mark, "same")


class Contents(Case):
    """Values of strings and times that something else stands for (X.690 8.23.8, 8.23.9, 11.7 and 11.8)."""

    def test_wide_strings(self) -> None:
        body = 'A ::= SEQUENCE {a [0] IMPLICIT BMPString ("ab" | ("c")), '
        body += 'b [1] IMPLICIT UniversalString (SIZE (1..2)) (v)}\nv UniversalString ::= "x"'
        expected = "A ::= SEQUENCE {a [0] IMPLICIT OCTET STRING ('00610062'H | '0063'H), "
        expected += "b [1] IMPLICIT OCTET STRING (SIZE (4 | 8)) ('00000078'H)}"
        self.gives(body, expected, "same")

    def test_times(self) -> None:
        body = 'A ::= SEQUENCE {a [0] IMPLICIT UTCTime ("991231235959Z"), '
        expected = body.replace("UTCTime", "VisibleString")
        body += 'b [1] IMPLICIT GeneralizedTime ("20201231235959.5Z")}'
        self.gives(body, expected + 'b [1] IMPLICIT VisibleString ("20201231235959.5Z")}', "same")

    def test_what_cannot_be_said(self) -> None:
        """An alphabet of octets, a character outside the plane, a time that DER writes otherwise, and what is open."""
        for kind, text in (
            ('BMPString (FROM ("a".."z"))', "OCTET STRING"),
            ('BMPString ("a", ...)', "OCTET STRING"),
            ('BMPString ("\U0001F600")', "OCTET STRING"),
            ('BMPString ("a" | "b") (FROM ("a"))', "OCTET STRING ('0061'H | '0062'H)"),
            ('TeletexString ("a")', "OCTET STRING"),
            ('UTCTime ("9912312359Z")', 'VisibleString (SIZE (13)) (FROM ("0".."9" | "Z"))'),
            ('GeneralizedTime ("20201231235959.50Z")', 'VisibleString (SIZE (15..MAX)) (FROM ("0".."9" | "." | "Z"))'),
        ):
            self.gives(f"A ::= [0] IMPLICIT {kind}", f"A ::= [0] IMPLICIT {text}", "looser")


    def test_alphabets(self) -> None:
        """Octets have no alphabet: FROM goes and is named, SIZE beside it stays."""
        body = 'A ::= [0] BMPString (SIZE (1..2) ^ FROM ("a".."z"))'
        result = self.gives(body, "A ::= [0] OCTET STRING (SIZE (2 | 4))", "looser", "IMPLICIT")
        said = "and others; kept in part or not at all: "
        self.assertTrue(result.changes[0].why.endswith(f'{said}FROM ( "a" .. "z" )'))
        body = 'A ::= [0] B\nB ::= T61String (SIZE (1..4)) (FROM ("0".."9", ...))'
        result = lower([self.text(body, "IMPLICIT")], "A")
        lost = said + 'SIZE ( 1 .. 4 ), FROM ( "0" .. "9" , ... )'
        self.assertTrue(result.changes[0].why.endswith(lost))

    def test_sizes_that_are_closed(self) -> None:
        """What isn't declared behind `...` is refused; before a further constraint additions go."""
        body, size = "A ::= [0] BMPString (SIZE (1..2, ..., 3))", "(SIZE (2 | 4 | 6))"
        result = self.gives(body, f"A ::= [0] OCTET STRING {size}", "neither", "IMPLICIT")
        self.assertIn(("extension-mark", "tighter"), self.steps(result))
        expected = "A ::= [0] OCTET STRING (SIZE (2 | 4)) (SIZE (2 | 4 | 6 | 8))"
        self.gives(f"{body} (SIZE (1..4))", expected, "looser", "IMPLICIT")


class Faults(Case):
    def says(self, why: str, *words: str) -> None:
        """The words of a command line, behind those of a module that has A and P, are answered by this fault."""
        with tempfile.TemporaryDirectory() as folder, self.assertRaises(Fault) as caught:
            Path(folder, "a.asn1").write_text(self.text("A ::= NULL\nP {T} ::= T"))
            Path(folder, "b.asn1").write_text("N DEFINITIONS ::= BEGIN A ::= NULL END")
            files = [f"{folder}/{word}" if word.endswith(".asn1") else word for word in words]
            main.run(main.parser().parse_args(files))
        self.assertIn(why, caught.exception.shown())

    def test_words(self) -> None:
        self.says("no message is named", "-o", "x", "a.asn1")
        self.says("neither -o FOLDER nor --draft FILE", "--message", "A", "a.asn1")
        self.says("A is in more than one module: M, N; write Module.A", "--message=A", "-o", "x", "a.asn1", "b.asn1")
        why = "P is no type without parameters: write a module with Mine ::= P{..}, and name Mine"
        self.says(why, "--message", "P", "-o", "x", "a.asn1")
        self.says("no module has the name Q", "--message", "Q.A", "-o", "x", "a.asn1")
        self.says("cannot read nowhere: ", "--message", "A", "-o", "x", "nowhere")

    def test_definitions(self) -> None:
        self.cannot("A ::= NULL\nA ::= INTEGER", "A is defined twice")
        self.cannot("A ::= ENUMERATED {...}", "the ENUMERATED has no items")

    def test_files_of_bindings(self) -> None:
        wrong = {
            "x = 1": "x is no key of bindings",
            "depth = 9": "what depth has is of the wrong kind",
            "looser = [1]": "what looser has is of the wrong kind",
            "depths = 5": "what depths has is of the wrong kind",
            '[bind]\n"A.a" = []': "what bind has is of the wrong kind",
            "depth": "b.toml: ",
        }
        with tempfile.TemporaryDirectory() as folder:
            for text, why in wrong.items():
                Path(folder, "b.toml").write_text(text)
                with self.assertRaises(Fault) as caught:
                    read_bindings(f"{folder}/b.toml")
                self.assertIn(why, caught.exception.shown())

    def test_place_in_bindings(self) -> None:
        with self.assertRaises(Fault) as caught:
            lower([self.text("A ::= SEQUENCE {a ANY}")], "A", 'depth = 1\n[bind]\n"A.a" = "SEQUENCE"')
        self.assertEqual(caught.exception.shown().split("\n")[0].split(" ")[0], "bindings.toml:3:1:")


class Uses(Case):
    """Each use of a definition with parameters is judged by its own object set."""

    head = "IMPLICIT"
    first = """OP ::= CLASS { &code INTEGER UNIQUE, &Arg OPTIONAL } WITH SYNTAX { [ARG &Arg] CODE &code }
A1 ::= SEQUENCE { a INTEGER }
A2 ::= SEQUENCE { b BOOLEAN }
o1 OP ::= { ARG A1 CODE 1 }
o2 OP ::= { ARG A2 CODE 2 }
"""
    uses = "P1 ::= Par{{o1}}\nP2 ::= Par{{o2}}\nQ1 ::= SEQUENCE { x Par{{o1}} }"
    plain = first + "Par{OP:S} ::= SEQUENCE { arg OP.&Arg ({S}) OPTIONAL }\n" + uses
    coded = first + "Par{OP:S} ::= SEQUENCE { code OP.&code ({S}), arg OP.&Arg ({S}{@code}) OPTIONAL }\n" + uses

    def marks(self, body: str, names: str, toml: str = '[bind]\n"Par.arg" = "A1"') -> list[str]:
        return [message.mark for message in lower([self.text(body)], names, toml).messages]

    def test_a_mark_for_each_use(self) -> None:
        self.assertEqual(self.marks(self.plain, "P1 P2 Q1"), ["same", "neither", "same"])
        self.assertEqual(self.marks(self.plain, "P2 P1"), ["neither", "same"])
        self.assertEqual(self.marks(self.coded, "P2 P1"), ["neither", "looser"])
        both = "\nT1 ::= [1] P1\nT2 ::= [1] P2\n"
        both += "B ::= CHOICE { x SEQUENCE {COMPONENTS OF T1}, y [0] SEQUENCE {COMPONENTS OF T2} }"
        self.assertEqual(self.marks(self.plain + both, "B"), ["neither"])

    def test_one_text_where_the_marks_are_equal(self) -> None:
        text = lower([self.text(self.plain)], "P1 Q1", '[bind]\n"Par.arg" = "A1"').texts[0].text
        self.assertIn("P1 ::= Par\nQ1 ::= SEQUENCE { x Par }", text)

    def test_the_draft_lists_the_types_of_all_uses(self) -> None:
        draft = report.as_draft(lower([self.text(self.coded)], "P1 P2", leave=True))
        self.assertIn('# object sets have: "M.A1", "M.A2"', draft)

    def test_types_are_compared_by_what_names_mean(self) -> None:
        for text in ("A1", "M.A1", "C1"):
            toml = f'[bind]\n"Par.arg" = "{text}"'
            self.assertEqual(self.marks(self.plain + "\nC1 ::= A1", "P1 P2", toml), ["same", "neither"], text)
        body = self.plain.replace("A2 ::= SEQUENCE { b BOOLEAN }", "A2 ::= SEQUENCE { a INTEGER }")
        both = lower([self.text(body + "\nP3 ::= Par{{o1 | o2}}")], "P3", '[bind]\n"Par.arg" = "A2"')
        self.assertEqual((both.messages[0].mark, both.job.holes["M.Par.arg"].candidates), ("same", ["M.A1", "M.A2"]))
        other = "N DEFINITIONS EXPLICIT TAGS ::= BEGIN IMPORTS OP FROM M;\nA1 ::= NULL A3 ::= M.A1 A4 ::= INTEGER\n"
        other += "P3 ::= M.Par{{o3 | o4}} o3 OP ::= {ARG SEQUENCE OF A1 CODE 3} o4 OP ::= {CODE 4} END"
        body, toml = self.text(self.plain), '[bind]\n"Par.arg" = "SEQUENCE OF A1"'
        result = lower([body, other], "P3", toml)
        self.assertEqual(result.job.holes["M.Par.arg"].candidates, ["SEQUENCE OF N.A1"])
        self.assertEqual(result.messages[0].mark, "neither")
        toml = toml.replace("SEQUENCE OF A1", "N.A3")
        self.assertEqual([message.mark for message in lower([body, other], "P1", toml).messages], ["same"])


class Says(Case):
    """What the tool says names places, and what to do."""

    head = "IMPLICIT"

    def run_in(self, folder: str, body: str, *words: str, toml: str = "") -> tuple[int, str, str]:
        """The status of a call over a module, what it says, and what it says of faults."""
        Path(folder, "a.asn1").write_text(self.text(body))
        Path(folder, "b.toml").write_text(toml)
        files = ["-o", f"{folder}/o", "--bindings", f"{folder}/b.toml", f"{folder}/a.asn1"]
        with contextlib.redirect_stdout(io.StringIO()) as told, contextlib.redirect_stderr(io.StringIO()) as said:
            status = main.run(main.parser().parse_args([*words, *files]))
        return status, told.getvalue(), said.getvalue()

    def test_output_that_nobody_reads(self) -> None:
        """Behind `| head` it ends by SIGPIPE, once all is written."""
        reads, writes = os.pipe()
        os.close(reads)
        with tempfile.TemporaryDirectory() as folder, open(writes, "w", encoding="utf-8") as writer:
            Path(folder, "a.asn1").write_text(self.text("A ::= NULL"))
            words = [sys.executable, "-B", str(Path(main.__file__).with_name("derguard-lower"))]
            words += ["--message", "A", "-o", f"{folder}/o", f"{folder}/a.asn1"]
            done = subprocess.run(words, stdout=writer, stderr=subprocess.PIPE, text=True, check=False)
            self.assertTrue(Path(folder, "o", "lowering.json").is_file())
        self.assertEqual((done.returncode, done.stderr), (-signal.SIGPIPE, ""))

    def test_the_fault_on_the_page(self) -> None:
        body = "Message ::= SEQUENCE {\n  number INTEGER (0..5,\n  text UTF8String }"
        with tempfile.TemporaryDirectory() as folder:
            said = self.run_in(folder, body, "--message", "Message")[2].replace(f"{folder}/", "")
        self.assertIn(textwrap.indent(said, "    "), Path(main.__file__).with_name("README.md").read_text("utf-8"))

    def nested(self, more: int) -> str:
        """A nests 22 deep down to a CHOICE in a list, and behind that `more` levels that can be left out."""
        levels = [f"L{n} ::= SEQUENCE {{ n{n} L{n + 1}, x NULL }}" for n in range(1, 20)]
        levels += ["L20 ::= SEQUENCE OF CHOICE { o O1, z NULL }"]
        levels += [f"O{n} ::= SEQUENCE {{ m{n} O{n + 1} OPTIONAL }}" for n in range(1, more)]
        return "\n".join(["A ::= SEQUENCE { a L1 }", *levels, f"O{more} ::= NULL"])

    def test_deepest_path(self) -> None:
        result = lower([self.text(self.nested(13))], "A", leave=False)
        why = result.messages[0].causes[0].why
        deepest = ".".join(["a", *(f"n{n}" for n in range(1, 20)), "*.o", *(f"m{n}" for n in range(1, 13))])
        self.assertEqual(why, f"it is nested 35 deep, and the guard takes 32; deepest: {deepest}")
        draft = report.as_draft(lower([self.text(self.nested(13))], "A", leave=True))
        self.assertIn('"M.O10.m10" = "leave-out"', draft)
        self.assertEqual(lower([self.text(self.nested(13))], "A", draft).messages[0].mark, "tighter")

    def test_alternatives_with_one_tag(self) -> None:
        body = "A ::= SEQUENCE {a ANY}\nB ::= SEQUENCE {}\nC ::= SEQUENCE {}"
        with self.assertRaises(Fault) as caught:
            lower([self.text(body)], "A", '[bind]\n"A.a" = ["NULL", "M.B", "M.C"]')
        self.assertIn("have to differ: M.B and M.C begin with [UNIVERSAL 16]; bind one type, and", caught.exception.why)

    def test_what_is_not_signed(self) -> None:
        body = "A ::= SEQUENCE {a [0] IMPLICIT UTCTime, b OCTET STRING (CONTAINING NULL), c B}\n"
        body += "B ::= OCTET STRING (CONTAINING NULL)"
        with tempfile.TemporaryDirectory() as folder:
            said = self.run_in(folder, body, "--message", "A", toml='looser = ["A.b"]')
        self.assertEqual(said[:2], (1, "A: looser, not signed: time at M.A.a; containing at M.B\n"))

    def test_places_that_go_through_references(self) -> None:
        body = "A ::= SEQUENCE {b B OPTIONAL}\nB ::= SEQUENCE OF SEQUENCE {c ANY OPTIONAL}"
        toml = '[bind]\n"B.*.c" = "leave-out"\n"A.b.*.c" = "NULL"\n"A.x.y" = "NULL"'
        with tempfile.TemporaryDirectory() as folder:
            said = self.run_in(folder, body, "--message", "A", toml=toml)[2]
        start = "no message reaches A.b.*.c, which the bindings name: a place begins at the definition that has the "
        self.assertIn(f"{start}component: M.B.*.c\n", said)
        self.assertIn("no message reaches A.x.y, which the bindings name: a place begins at the definition", said)

    def test_texts_of_an_earlier_call(self) -> None:
        """Those that an earlier call wrote and this one doesn't are removed; files of others stay."""
        with tempfile.TemporaryDirectory() as folder:
            self.run_in(folder, "A ::= NULL\nB ::= ANY", "--message", "A")
            Path(folder, "o", "mine.asn1").write_text("")
            said = self.run_in(folder, "A ::= NULL\nB ::= ANY", "--message", "B")[2]
            self.assertEqual(sorted(path.name for path in Path(folder, "o").glob("*.asn1")), ["mine.asn1"])
            self.assertIn(f"{folder}/o/M.asn1, which an earlier call wrote, is removed", said)


class Texts(Case):
    def test_latin_1(self) -> None:
        """A comment in Latin-1 comes out in UTF-8."""
        with tempfile.TemporaryDirectory() as folder, contextlib.redirect_stdout(io.StringIO()):
            Path(folder, "a.asn1").write_bytes("M DEFINITIONS ::= BEGIN -- é\nA ::= NULL END".encode("latin-1"))
            words = ["--message", "A", "-o", f"{folder}/o", f"{folder}/a.asn1"]
            self.assertEqual(main.run(main.parser().parse_args(words)), 0)
            self.assertIn("-- é\nA ::= NULL", Path(folder, "o", "M.asn1").read_text("utf-8"))

    def test_headers(self) -> None:
        text = 'M {iso 1} "/iso/1" DEFINITIONS XER INSTRUCTIONS ::= BEGIN EXPORTS ALL;\nA ::= NULL\n'
        text += "ENCODING-CONTROL XER GLOBAL-DEFAULTS END"
        made = lower([text], "A").texts[0].text
        self.assertEqual(made, "M {iso 1} DEFINITIONS ::= BEGIN EXPORTS ALL;\nA ::= NULL\nEND\n")


if __name__ == "__main__":
    unittest.main()
