"""Small modules for each construct, with the text that lowering makes of them and its mark."""

from __future__ import annotations

import os
import subprocess
import sys
import tempfile
import tomllib
import unittest
from pathlib import Path

sys.path.insert(0, str(Path(__file__).parent))

import main
from bindings import Bindings
from library import Library
from reading_modules import read_modules
from report import Result
from tokens import Fault, cut

CLASS = """
ALG ::= CLASS { &id OBJECT IDENTIFIER UNIQUE, &Params OPTIONAL, &len INTEGER DEFAULT 5 }
  WITH SYNTAX { OID &id [PARMS &Params] [LEN &len] }
Identifier {ALG:Set} ::= SEQUENCE { id ALG.&id ({Set}), p ALG.&Params ({Set}{@id}) OPTIONAL }
rsa ALG ::= { OID {1 2 1} PARMS NULL }
dsa ALG ::= { OID {1 2 2} PARMS Dss LEN 7 }
Dss ::= SEQUENCE { q INTEGER }
"""
VERSIONS = "(WITH COMPONENTS {..., b PRESENT} | WITH COMPONENTS {..., b ABSENT, c ABSENT, d (5)})"


def lower(texts: list[str], names: str, toml: str = "", leave: bool = False) -> Result:
    library = Library()
    for number, text in enumerate(texts):
        for module in read_modules(cut(f"{number}.asn1", text)):
            library.add(module)
    bindings = Bindings("bindings.toml", toml, **tomllib.loads(toml))
    bindings.check(library)
    messages = main.wanted(library, names.split())
    result = main.lower(library, bindings, messages, leave)
    if "DERGUARD" in os.environ:
        accepted(result)
    return result


def accepted(result: Result) -> None:
    """Asks the guard, where the environment names it."""
    with tempfile.TemporaryDirectory() as folder:
        main.write(result, Path(folder), False)
        asked = [os.environ["DERGUARD"], "check", f"{folder}/policy.toml"]
        said = subprocess.run(asked, capture_output=True, text=True, check=False)
        if said.returncode:
            raise AssertionError(said.stderr + "".join(text.text for text in result.texts))


class Case(unittest.TestCase):
    head = "EXPLICIT"

    def text(self, body: str, tags: str | None = None) -> str:
        return f"M DEFINITIONS {tags or self.head} TAGS ::= BEGIN\n{body}\nEND\n"

    def gives(
        self, body: str, expected: str, mark: str, tags: str | None = None, names: str = "A", toml: str = ""
    ) -> Result:
        """The body is lowered to the text that is expected, and each message has the mark."""
        result = lower([self.text(body, tags)], names, toml)
        texts = {text.name: text.text for text in result.texts}
        self.assertEqual(texts.get("M"), self.text(expected, tags))
        self.assertEqual({message.mark for message in result.messages}, {mark})
        return result

    def cannot(self, body: str, why: str, tags: str | None = None, toml: str = "") -> None:
        result = lower([self.text(body, tags)], "A", toml)
        self.assertEqual(result.messages[0].mark, "can't")
        self.assertIn(why, [cause.why for cause in result.messages[0].causes])
        self.assertEqual(result.status, 2)

    def steps(self, result: Result) -> set[tuple[str, str]]:
        return {(change.step, change.mark) for change in result.changes}


class Same(Case):
    def test_nothing_to_do(self) -> None:
        body = "-- of A\nA ::= SEQUENCE {  -- it has\n  a INTEGER (1..5), /* b */ b  [1] B OPTIONAL }\n"
        body += "B ::= OCTET STRING (SIZE (1..4))"
        self.gives(body, body, "same")

    def test_only_what_is_reached(self) -> None:
        self.gives("B ::= NULL\nA ::= SEQUENCE {c C}\nC ::= NULL\nD ::= A", "A ::= SEQUENCE {c C}\nC ::= NULL", "same")

    def test_numbers(self) -> None:
        body = "A ::= SEQUENCE {a [n] INTEGER {one(m)} (one), b BIT STRING {x(n)}}\nn INTEGER ::= 4\nm INTEGER ::= -1"
        self.gives(body, "A ::= SEQUENCE {a [4] INTEGER {one(-1)} (one), b BIT STRING {x(4)}}", "same")

    def test_numbers_that_the_guard_does_not_take(self) -> None:
        body = "A ::= SEQUENCE {a INTEGER {x(1), y(1), z(2)} DEFAULT y, b BIT STRING {p(0), q(65536)}}"
        self.gives(body, "A ::= SEQUENCE {a INTEGER {x(1), z(2)} DEFAULT 1, b BIT STRING {p(0)}}", "same")

    def test_object_identifiers(self) -> None:
        body = "A ::= SEQUENCE {a OBJECT IDENTIFIER DEFAULT {us x(3) 4}}\n"
        body += "us OBJECT IDENTIFIER ::= {iso member-body us(840)}"
        self.gives(body, "A ::= SEQUENCE {a OBJECT IDENTIFIER DEFAULT {iso(1) member-body(2) us(840) x(3) 4}}", "same")

    def test_low_lines_and_names(self) -> None:
        body = "A ::= SEQUENCE {a_b B_c, e ENUMERATED {X, y_z}}\nB_c ::= SET OF x NULL"
        self.gives(body, "A ::= SEQUENCE {a-b B-c, e ENUMERATED {x, y-z}}\nB-c ::= SET OF NULL", "same")

    def test_unnamed_components(self) -> None:
        expected = "A ::= SEQUENCE {unnamed-1 INTEGER, unnamed-2 NULL OPTIONAL}"
        self.gives("A ::= SEQUENCE {INTEGER, NULL OPTIONAL}", expected, "same")

    def test_items_by_reference(self) -> None:
        body = "A ::= SEQUENCE {a E DEFAULT e, b INTEGER (0..n), c INTEGER DEFAULT n}\nE ::= ENUMERATED {x}\n"
        expected = "A ::= SEQUENCE {a E DEFAULT x, b INTEGER (0..n), c INTEGER DEFAULT n}\nE ::= ENUMERATED {x}\n"
        values = "n I ::= y\nI ::= INTEGER {y(5)}"
        self.gives(f"{body}e E ::= x\n{values}", f"{expected}{values}", "same")

    def test_strings_in_braces(self) -> None:
        self.gives('A ::= SEQUENCE {a IA5String DEFAULT {4,1}}', 'A ::= SEQUENCE {a IA5String DEFAULT "A"}', "same")
        body = "A ::= SEQUENCE {a IA5String DEFAULT {1000000000, 5}}"
        self.gives(body, "A ::= SEQUENCE {a IA5String OPTIONAL}", "looser")

    def test_value_set(self) -> None:
        self.gives("A INTEGER ::= {1 | 2 | 5..7}", "A ::= INTEGER (1 | 2 | 5..7)", "same")

    def test_selection(self) -> None:
        self.gives("A ::= x < C C ::= CHOICE {x [5] IMPLICIT NULL, y NULL}", "A ::= [5] IMPLICIT NULL", "same")

    def test_presence_words(self) -> None:
        body = "B ::= SEQUENCE {p NULL, q INTEGER DEFAULT 7, r NULL OPTIONAL}\n"
        body += "A ::= B (WITH COMPONENTS {p PRESENT, q PRESENT, r ABSENT})"
        expected = "A ::= B (WITH COMPONENTS {p, q (ALL EXCEPT 7), r ABSENT})"
        self.gives(body, body.split("A ::=")[0] + expected, "same")

    def test_contained_type(self) -> None:
        body = "A ::= INTEGER (INTEGER (1..3) | 7)"
        self.gives(body, "A ::= INTEGER (A-Contained | 7)\n\nA-Contained ::= INTEGER (1..3)", "same")

    def test_iso_string(self) -> None:
        self.gives('A ::= ISO646String ("a")', 'A ::= VisibleString ("a")', "same")

    def test_universal_tag(self) -> None:
        self.gives("A ::= [1] IMPLICIT [UNIVERSAL 8] IMPLICIT SEQUENCE {}", "A ::= [1] IMPLICIT SEQUENCE {}", "same")


class Closing(Case):
    def test_sequence(self) -> None:
        self.gives("A ::= SEQUENCE {a NULL, ..., -- more\n  ...}", "A ::= SEQUENCE {a NULL -- more\n  }", "tighter")

    def test_choice(self) -> None:
        body = "A ::= CHOICE {a NULL, ... ! 5, [[ b [1] NULL ]], ...}"
        self.gives(body, "A ::= CHOICE {a NULL, b [1] NULL}", "tighter")

    def test_implied(self) -> None:
        body = "A ::= SEQUENCE {a ENUMERATED {b}}"
        result = lower([f"M DEFINITIONS EXTENSIBILITY IMPLIED ::= BEGIN {body} END"], "A")
        self.assertIn(f"M DEFINITIONS ::= BEGIN\n{body}", result.texts[0].text.replace("BEGIN A", "BEGIN\nA"))
        self.assertEqual([change.mark for change in result.changes], ["tighter", "tighter"])

    def test_constraints(self) -> None:
        body = 'A ::= SEQUENCE {a INTEGER (1..5, ..., 7), b IA5String (SIZE (1..2, ...)) (FROM ("a", ...)), '
        body += 'c INTEGER (1 !2)}'
        expected = 'A ::= SEQUENCE {a INTEGER (1..5 | 7), b IA5String (SIZE (1..2)) (FROM ("a")), c INTEGER (1)}'
        self.gives(body, expected, "tighter")

    def test_additions_go_with_a_further_constraint(self) -> None:
        body = "A ::= SEQUENCE {n W (5..15), l L (SIZE (2..6)), m B}\nW ::= INTEGER (0..9, ..., 10..19)\n"
        body += 'L ::= IA5String (SIZE (1..4, ..., 5..9)) (FROM ("a", ..., "b"))\n'
        body += "B ::= C (WITH COMPONENTS {w (1..12)})\nC ::= SEQUENCE {w W}"
        expected = "A ::= SEQUENCE {n W (0..9) (5..15), l L (FROM (\"a\")) (SIZE (2..6)), m B}\n"
        expected += "W ::= INTEGER (0..9 | 10..19)\n"
        expected += 'L ::= IA5String (SIZE (1..4)) (FROM ("a" | "b"))\n'
        expected += "B ::= C (WITH COMPONENTS {w ((0..9) ^ (1..12))})\nC ::= SEQUENCE {w W}"
        self.gives(body, expected, "tighter")

    def test_additions_of_a_contained_type(self) -> None:
        body = "A ::= INTEGER (B | 50)\nB ::= INTEGER (0..9, ..., 12)"
        self.gives(body, "A ::= INTEGER ((B ^ (0..9)) | 50)\nB ::= INTEGER (0..9 | 12)", "tighter")

    def test_characters_that_the_type_does_not_have(self) -> None:
        body = 'A ::= PrintableString (FROM ("0123*" | "*".."-" | "a".."z" | MIN.."9" | "x"..MAX))'
        self.gives(body, 'A ::= PrintableString (FROM ("0123" | "+,-" | "a".."z" | MIN.."9" | "x"..MAX))', "same")

    def test_enumeration_numbers(self) -> None:
        body = "A ::= ENUMERATED {a, c(2), ..., b, d(7), e}"
        self.gives(body, "A ::= ENUMERATED {a(0), c(2), b(1), d(7), e(8)}", "tighter")

    def test_enumeration_second_root(self) -> None:
        self.gives("A ::= ENUMERATED {a, ..., b, ..., c}", "A ::= ENUMERATED {a(0), b(2), c(1)}", "tighter")

    def test_one_addition(self) -> None:
        body, expected = "A ::= SEQUENCE {a NULL, ..., b BOOLEAN}", "A ::= SEQUENCE {a NULL, b BOOLEAN OPTIONAL}"
        result = self.gives(body, expected, "tighter")
        self.assertIn(("addition", "tighter"), self.steps(result))

    def test_versions(self) -> None:
        body = "A ::= SEQUENCE {a NULL, ..., [[ b BOOLEAN, c [1] NULL OPTIONAL ]], d INTEGER DEFAULT 5}"
        expected = "A ::= SEQUENCE {a NULL, b BOOLEAN OPTIONAL, c [1] NULL OPTIONAL, d INTEGER DEFAULT 5}"
        self.gives(body, f"{expected} {VERSIONS}", "tighter")

    def test_addition_left_out(self) -> None:
        body = "A ::= SEQUENCE {a NULL, ..., [[ b ANY, c [1] NULL OPTIONAL ]], d INTEGER}"
        self.gives(body, "A ::= SEQUENCE {a NULL}", "tighter", toml='[bind]\n"A.b" = "leave-out"')

    def test_versions_that_cannot_be_said(self) -> None:
        body = "A ::= SEQUENCE {..., [[ b NULL, d [1] IA5String DEFAULT {0,5} ]]}"
        expected = "A ::= SEQUENCE { b NULL OPTIONAL, d [1] IA5String OPTIONAL}"
        result = lower([self.text(body)], "A")
        self.assertIn(("default", "looser"), self.steps(result))
        self.assertEqual(result.messages[0].mark, "neither")
        self.assertIn(expected.replace("{ b", "{ b"), result.texts[0].text)


class Tags(Case):
    head = "AUTOMATIC"

    def test_second_root(self) -> None:
        body = "A ::= SEQUENCE {a NULL, ..., b NULL OPTIONAL, ..., c NULL}"
        self.gives(body, "A ::= SEQUENCE {a [0] NULL, b [2] NULL OPTIONAL, c [1] NULL}", "tighter")

    def test_left_out(self) -> None:
        body = "A ::= SEQUENCE {a ANY OPTIONAL, b NULL, c CHOICE {d NULL}}"
        expected = "A ::= SEQUENCE { b [1] NULL, c [2] CHOICE {d NULL}}"
        self.gives(body, expected, "tighter", toml='[bind]\n"A.a" = "leave-out"')

    def test_components_of(self) -> None:
        body = "A ::= SEQUENCE {COMPONENTS OF B, x NULL}\nB ::= SEQUENCE {p INTEGER, ..., s NULL}"
        self.gives(body, "A ::= SEQUENCE {p INTEGER, x NULL}", "same")

    def test_components_of_other_default(self) -> None:
        first = "M DEFINITIONS EXPLICIT TAGS ::= BEGIN IMPORTS B FROM N; A ::= SEQUENCE {COMPONENTS OF B, "
        first += "x [9] NULL} END"
        other = "N DEFINITIONS AUTOMATIC TAGS ::= BEGIN B ::= SEQUENCE {p INTEGER, q SEQUENCE {r NULL}, "
        other += "s CHOICE {t NULL}} END"
        result = lower([first, other], "A")
        texts = {text.name: text.text for text in result.texts}
        expected = "SEQUENCE {p [0] IMPLICIT INTEGER, q [1] IMPLICIT B-q, s [2] B-s, x [9] NULL}"
        self.assertIn(expected.replace("[2] B-s", "[2] B-s"), texts["M"])
        self.assertIn("B-q ::= SEQUENCE {r NULL}", texts["N"])
        self.assertEqual(result.messages[0].mark, "same")

    def test_selection(self) -> None:
        body = "A ::= SEQUENCE {a x < C, b NULL}\nC ::= CHOICE {y NULL, x INTEGER}"
        self.gives(body, "A ::= SEQUENCE {a [0] INTEGER, b [1] NULL}", "same")

    def test_all_that_is_tagged_is_left_out(self) -> None:
        result = lower([self.text("A ::= SEQUENCE {a [5] ANY OPTIONAL, b NULL}")], "A", '[bind]\n"A.a" = "leave-out"')
        texts = {text.name: text.text for text in result.texts}
        self.assertIn("A ::= A-List", texts["M"])
        self.assertIn("A-List ::= SEQUENCE { b NULL}", texts["M-Untagged"])

    def test_parameter_under_a_tag(self) -> None:
        body = "A ::= B {NULL}\nB {T} ::= SEQUENCE {t [0] T, u [1] INTEGER}"
        self.gives(body, "A ::= B\nB ::= SEQUENCE {t [0] EXPLICIT NULL, u [1] INTEGER}", "same")

    def test_implicit_before_choice(self) -> None:
        self.gives("A ::= [0] IMPLICIT CHOICE {a NULL}", "A ::= [0] EXPLICIT CHOICE {a NULL}", "neither")

    def test_open_type_is_explicit(self) -> None:
        body = "A ::= SEQUENCE {a [0] ANY}"
        self.gives(body, "A ::= SEQUENCE {a [0] EXPLICIT NULL}", "tighter", toml='[bind]\n"A.a" = "NULL"')


class Losses(Case):
    def test_named_bits(self) -> None:
        self.gives("A ::= BIT STRING {a(0)} (SIZE (4))", "A ::= BIT STRING {a(0)}", "looser")
        self.gives("A ::= BIT STRING {a(0)} (SIZE (4..MAX))", "A ::= BIT STRING {a(0)}", "same")

    def test_containing(self) -> None:
        self.gives("A ::= OCTET STRING (CONTAINING NULL) (SIZE (2))", "A ::= OCTET STRING (SIZE (2))", "looser")

    def test_user_defined(self) -> None:
        self.gives("A ::= INTEGER (CONSTRAINED BY {})", "A ::= INTEGER", "looser")

    def test_union_goes_whole(self) -> None:
        self.gives('A ::= IA5String (PATTERN "a" | "b")', "A ::= IA5String", "looser")

    def test_intersection_keeps_the_rest(self) -> None:
        self.gives('A ::= IA5String (FROM (ALL EXCEPT "q") ^ SIZE (1))', "A ::= IA5String (SIZE (1))", "looser")

    def test_except_what_was_closed(self) -> None:
        self.gives("A ::= INTEGER (0..9 EXCEPT B)\nB ::= INTEGER (1, ...)", "A ::= INTEGER (0..9)", "looser")

    def test_limit(self) -> None:
        self.gives(f"A ::= INTEGER (0..{2**128})", "A ::= INTEGER (0..MAX)", "tighter")
        self.gives(f"A ::= INTEGER (n..0) n INTEGER ::= -{2**128}", "A ::= INTEGER (MIN..0)", "tighter")

    def test_contained_type_of_another_base(self) -> None:
        self.gives("A ::= UTF8String (PrintableString | \"a\")", "A ::= UTF8String", "looser")

    def test_times(self) -> None:
        body = "A ::= SEQUENCE {a [0] IMPLICIT UTCTime, b [1] IMPLICIT B}\nB ::= GeneralizedTime"
        expected = (
            'A ::= SEQUENCE {a [0] IMPLICIT VisibleString (SIZE (13)) (FROM ("0".."9" | "Z")), '
            'b [1] IMPLICIT VisibleString (SIZE (15..MAX)) (FROM ("0".."9" | "." | "Z"))}'
        )
        self.gives(body, expected, "looser")

    def test_strings(self) -> None:
        body = "A ::= SEQUENCE {a BMPString (SIZE (1..2)), b UniversalString (SIZE (1..99)), "
        body += "c T61String (SIZE (2..5)), d GeneralString}"
        expected = "A ::= SEQUENCE {a OCTET STRING (SIZE (2 | 4)), b OCTET STRING (SIZE (4..396)), "
        expected += "c OCTET STRING (SIZE (2..MAX)), d OCTET STRING}"
        self.gives(body, expected, "looser", "AUTOMATIC")

    def test_external(self) -> None:
        result = lower([self.text("A ::= [0] IMPLICIT EXTERNAL")], "A")
        self.assertEqual(result.messages[0].mark, "tighter")
        self.assertIn("encoding CHOICE {octet-aligned [1] IMPLICIT OCTET STRING", result.texts[0].text)

    def test_signature(self) -> None:
        body = "A ::= SEQUENCE {a BIT STRING {b(0)} (SIZE (4)), c OCTET STRING (CONTAINING NULL)}"
        self.assertEqual(lower([self.text(body)], "A").status, 1)
        self.assertEqual(lower([self.text(body)], "A", 'looser = ["A.a"]').status, 1)
        self.assertEqual(lower([self.text(body)], "A", 'looser = ["A.a", "containing"]').status, 0)


class Recursions(Case):
    def test_choice(self) -> None:
        body = "A ::= CHOICE {leaf NULL, not [1] A, all [2] SEQUENCE OF A, some [3] SET SIZE (1..2) OF A}"
        expected = (
            "A ::= CHOICE {leaf NULL, not [1] A-1, all [2] SEQUENCE OF A-1, some [3] SET SIZE (1..2) OF A-1}\n\n"
            "A-1 ::= CHOICE {leaf NULL, all [2] SEQUENCE (SIZE (0)) OF NULL}"
        )
        self.gives(body, expected, "tighter", toml='[depths]\n"A" = 1')

    def test_two_definitions(self) -> None:
        body = "A ::= SEQUENCE {b B OPTIONAL}\nB ::= SEQUENCE {a A}"
        expected = "A ::= SEQUENCE {b B OPTIONAL}\nB ::= SEQUENCE {a A-1}"
        result = lower([self.text(body)], "A", "depth = 1")
        self.assertIn("A-1 ::= SEQUENCE {}", result.texts[0].text.replace("{ }", "{}"))
        self.assertTrue(expected.split("\n")[0] in result.texts[0].text)

    def test_by_a_parameter(self) -> None:
        body = "A ::= P {A}\nP {T} ::= SEQUENCE {x T OPTIONAL}"
        result = lower([self.text(body)], "A", "depth = 1")
        self.assertEqual(result.messages[0].mark, "tighter")
        self.assertEqual(result.texts[0].text.count("SEQUENCE"), 2)

    def test_less_depth_where_limits_ask_for_it(self) -> None:
        parts = ", ".join(f"c{k} [{k}] A" for k in range(60))
        result = lower([self.text(f"A ::= CHOICE {{leaf NULL, {parts}}}")], "A")
        self.assertEqual(result.messages[0].mark, "tighter")
        self.assertNotIn("A-3", result.texts[0].text)

    def test_without_an_end(self) -> None:
        self.cannot("A ::= SEQUENCE {a A}", "A is written out 3 times inside itself")


class Objects(Case):
    def test_fields_and_parameters(self) -> None:
        body = "A ::= SEQUENCE {x Identifier {{Set}}}" + CLASS + "Set ALG ::= {rsa | dsa, ...}"
        expected = "A ::= SEQUENCE {x Identifier}\nIdentifier ::= SEQUENCE { id OBJECT IDENTIFIER }"
        self.gives(body, expected, "neither", toml='[bind]\n"Identifier.p" = "leave-out"')

    def test_alternatives(self) -> None:
        body = "A ::= SEQUENCE {x Identifier {{Set}}}" + CLASS + "Set ALG ::= {rsa | dsa, ...}"
        result = lower([self.text(body)], "A", '[bind]\n"Identifier.p" = ["NULL", "Dss"]')
        self.assertIn("p CHOICE {null NULL, dss Dss} OPTIONAL", result.texts[0].text)
        self.assertIn(("bound", "neither"), self.steps(result))

    def test_alternatives_under_automatic_tags(self) -> None:
        body = "A ::= SEQUENCE {x Identifier {{Set}}}" + CLASS + "Set ALG ::= {rsa | dsa, ...}"
        result = lower([self.text(body, "AUTOMATIC")], "A", '[bind]\n"Identifier.p" = ["NULL", "Dss"]')
        texts = {text.name: text.text for text in result.texts}
        self.assertIn("p Identifier-Alternatives OPTIONAL", texts["M"])
        self.assertIn("Identifier-Alternatives ::= CHOICE {null NULL, dss Dss}", texts["M-Untagged"])

    def test_tags_of_alternatives(self) -> None:
        with self.assertRaises(Fault):
            lower([self.text("A ::= SEQUENCE {a ANY}")], "A", '[bind]\n"A.a" = ["NULL", "NULL"]')

    def test_all_objects_have_one_type(self) -> None:
        body = "A ::= SEQUENCE {x ALG.&Params ({Set}{@y}), y NULL}" + CLASS + "Set ALG ::= {rsa}"
        self.gives(body, "A ::= SEQUENCE {x NULL, y NULL}", "same", toml='[bind]\n"A.x" = "NULL"')

    def test_class_parameters(self) -> None:
        body = "A ::= Any {ALG, {Set}}\nAny {C, C:Set} ::= SEQUENCE {id C.&id ({Set}), p C.&Params ({Set}{@id})}"
        body += CLASS + "Set ALG ::= {rsa}"
        expected = "A ::= Any\nAny ::= SEQUENCE {id OBJECT IDENTIFIER, p NULL}"
        self.gives(body, expected, "looser", toml='[bind]\n"Any.p" = "NULL"')

    def test_type_constraint(self) -> None:
        body = "A ::= SEQUENCE {x [0] ALG.&Params (Dss)}" + CLASS
        expected = "A ::= SEQUENCE {x [0] EXPLICIT Dss}\nDss ::= SEQUENCE { q INTEGER }"
        self.gives(body, expected + "\n", "same", "IMPLICIT")

    def test_object_parameters(self) -> None:
        body = "A ::= B {dsa} B {ALG:alg} ::= SEQUENCE {x alg.&Params, n INTEGER (0..alg.&len)}" + CLASS
        result = lower([self.text(body)], "A")
        self.assertIn("B ::= SEQUENCE {x Dss, n INTEGER (0..7)}", result.texts[0].text)
        self.assertEqual(result.messages[0].mark, "same")

    def test_instances_that_are_equal_are_one(self) -> None:
        body = "A ::= SEQUENCE {x P {NULL, 5}, y P {INTEGER, 6}, z P {NULL, 5}} P {T, "
        body += "INTEGER:n} ::= SEQUENCE (SIZE (0..n)) OF T"
        result = lower([self.text(body)], "A")
        self.assertEqual(result.texts[0].text.count("::= SEQUENCE (SIZE"), 2)
        self.assertIn("x P, y P-INTEGER, z P}", result.texts[0].text)


if __name__ == "__main__":
    unittest.main()
