"""Cuts module texts into tokens that keep their places, and the white space and comments before them."""

from __future__ import annotations

import re
from collections.abc import Iterable
from dataclasses import dataclass, field
from pathlib import Path

STRINGS = frozenset("""BMPString GeneralString GraphicString IA5String ISO646String NumericString PrintableString
    T61String TeletexString UniversalString UTF8String VideotexString VisibleString ObjectDescriptor""".split())
TIMES = frozenset("GeneralizedTime UTCTime DATE DATE-TIME DURATION TIME TIME-OF-DAY".split())
SINGLE = STRINGS | TIMES | set("""ANY BOOLEAN ENUMERATED EXTERNAL INTEGER NULL OID-IRI REAL
    RELATIVE-OID RELATIVE-OID-IRI""".split())
RESERVED = SINGLE | set("""ABSENT ABSTRACT-SYNTAX ALL APPLICATION AUTOMATIC BEGIN BIT BY CHARACTER CHOICE CLASS
    COMPONENT COMPONENTS CONSTRAINED CONTAINING DEFAULT DEFINITIONS EMBEDDED ENCODED ENCODING-CONTROL END EXCEPT
    EXPLICIT EXPORTS EXTENSIBILITY FALSE FROM IDENTIFIER IMPLICIT IMPLIED IMPORTS INCLUDES INSTANCE INSTRUCTIONS
    INTERSECTION MAX MIN MINUS-INFINITY NOT-A-NUMBER OBJECT OCTET OF OPTIONAL PATTERN PDV PLUS-INFINITY PRESENT
    PRIVATE SEQUENCE SET SETTINGS SIZE STRING SYNTAX TAGS TRUE TYPE-IDENTIFIER UNION UNIQUE UNIVERSAL WITH""".split())
TOKEN = re.compile(
    r"""&?[A-Za-z](?:-?[A-Za-z0-9_])* | [0-9]+(?:\.[0-9]+)? | "(?:[^"]|"")*" | '[0-9A-Fa-f\s]*'[BH]
      | ::= | \.\.\. | \.\. | \[\[ | \]\] | [][{}(),;:|^<>.!@=*+/$\#-]""",
    re.VERBOSE,
)
SPACE = re.compile(r"[\s\u00a0\ufeff]+|--(?:(?!--)[^\n\r])*(?:--|(?=[\n\r])|\Z)|/\*")
NESTED = re.compile(r"/\*|\*/")
Edit = tuple[int, int, str]


@dataclass(frozen=True, slots=True)
class Token:
    """A piece of text, empty at the end; `space` is what is before it."""

    text: str
    space: str
    start: int


class Fault(Exception):
    """Something wrong, at a place of a text where it has one."""

    def __init__(self, why: str, source: Source | None = None, start: int = 0) -> None:
        super().__init__(why)
        self.why, self.source, self.start = why, source or Source("", ""), start

    def place(self) -> tuple[str, int, int]:
        """File, line and column, from 1."""
        text, start = self.source.text, self.start
        return self.source.path, text.count("\n", 0, start) + 1, start - text.rfind("\n", 0, start)

    def shown(self) -> str:
        """The fault with its line and a caret below."""
        path, line, column = self.place()
        number, text = f"{line:>6} | ", self.source.text.split("\n")[line - 1].expandtabs(1)
        caret = f"{' ' * (len(number) - 2)}| {' ' * (column - 1)}^"
        return f"{path}:{line}:{column}: {self.why}\n{number}{text}\n{caret}" if path else self.why


@dataclass(eq=False)
class Source:
    """A text, with its tokens where it is one of modules."""

    path: str
    text: str
    tokens: list[Token] = field(default_factory=list)

    def fault(self, index: int, why: str) -> Fault:
        return Fault(why, self, self.tokens[min(index, len(self.tokens) - 1)].start)

    def between(self, a: int, b: int) -> str:
        """The text of the tokens from a up to b, on one line and without comments."""
        return " ".join(token.text for token in self.tokens[a:b])

    def emit(self, a: int, b: int, edits: Iterable[Edit] = ()) -> str:
        """The text of the tokens from a up to b, some of them replaced; comments before what goes stay."""
        out, at = list[str](), a
        for begin, end, text in [*sorted(edits, key=lambda edit: edit[:2]), (b, b, "")]:
            out += [(token.space if k > a else "") + token.text for k, token in enumerate(self.tokens[at:begin], at)]
            space = self.tokens[begin].space if a < begin < end else ""
            if text or has_comment(space):
                out.append(space + text)
            at = end
        return "".join(out)


def has_comment(space: str) -> bool:
    return "--" in space or "/*" in space


def read_file(path: str) -> Source:
    """A file's text in UTF-8, or else in Latin-1, cut into tokens."""
    try:
        octets = Path(path).read_bytes()
        text = octets.decode("utf-8")
    except OSError as error:
        raise Fault(f"cannot read {path}: {error.strerror}") from error
    except UnicodeDecodeError:
        text = octets.decode("latin-1")
    return cut(path, text)


def cut(path: str, text: str) -> Source:
    """Cuts a text into tokens; the last one is the end, with what is before it. Comments in /* and */ may be nested."""
    text = text.replace("\r\n", "\n").replace("\r", "\n").replace("\x1a", " ")
    source, at = Source(path, text), 0
    while not source.tokens or source.tokens[-1].text:
        begin, opened = at, list[int]()
        while found := NESTED.search(text, at) if opened else SPACE.match(text, at):
            if found.group() == "/*":
                opened.append(found.start())
            elif opened:
                opened.pop()
            at = found.end()
        if opened:
            raise Fault("the comment that is opened here isn't closed", source, opened[0])
        if (found := TOKEN.match(text, at)) is None and at < len(text):
            what = "string isn't closed" if text[at] in "\"'" else f"character {text[at]!r} can't stand here"
            raise Fault(what, source, at)
        source.tokens.append(Token(found.group() if found else "", text[begin:at], at))
        at += len(source.tokens[-1].text)
    return source


def unquoted(text: str) -> str:
    return text[1:-1].replace('""', '"')


def quoted(text: str) -> str:
    return '"' + text.replace('"', '""') + '"'
