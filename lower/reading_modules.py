"""Reads modules, types, values and constraints (X.680 to X.683, and the ANY of X.208); macros are skipped."""

import re
from collections.abc import Callable
from functools import cache
from typing import Any, TypeVar

from tokens import RESERVED, SINGLE, Fault, Source
from tree import ClassField, Component, Constrained, Constraint, Definition, Element, Import, Item, ListOf, Module, Node
from tree import Part, Plain, Reference, Selection, Set, Span, Structure, Tagged, Type, Value

PAIRS = ("OCTET STRING", "BIT STRING", "OBJECT IDENTIFIER", "CHARACTER STRING", "EMBEDDED PDV", "INSTANCE OF")
VALUE_WORDS = ("TRUE", "FALSE", "NULL", "PLUS-INFINITY", "MINUS-INFINITY", "NOT-A-NUMBER")
ENDS = ("MIN", "MAX")
VALUE_MARKS = {"{": "braces", '"': "string", "'": "bits"}
OPENING = {"{": 1, "(": 1, "[": 1, "[[": 2, "}": -1, ")": -1, "]": -1, "]]": -2}
BUILT_IN_CLASSES = ("TYPE-IDENTIFIER", "ABSTRACT-SYNTAX")
IDENTIFIER = re.compile(r"\{(?: (?:[0-9]+|\)|\((?= [0-9])|[a-z][A-Za-z0-9-]*))+ \}")
OUTSIDE = ("BEGIN", "END", "IMPORTS", "EXPORTS", "DEFINITIONS")
FORMLESS = {"PATTERN": "constraint", "SETTINGS": "constraint", "CONSTRAINED": "user-defined"}
FORMLESS |= {"CONTAINING": "containing", "ENCODED": "containing"}
N = TypeVar("N", bound=Node)
T = TypeVar("T")


class Reader:
    """A place in a source's tokens, and what can be read there."""

    def __init__(self, source: Source, at: int = 0) -> None:
        self.source, self.tokens, self.at = source, source.tokens, at

    def text(self, ahead: int = 0) -> str:
        return self.tokens[min(self.at + ahead, len(self.tokens) - 1)].text

    def is_upper(self, ahead: int = 0) -> bool:
        """Whether a word with a capital is here that isn't reserved."""
        return self.text(ahead)[:1].isupper() and self.text(ahead) not in RESERVED

    def is_lower(self, ahead: int = 0) -> bool:
        return self.text(ahead)[:1].islower()

    def here(self) -> str:
        return self.text() or "the end of the text"

    def fault(self, why: str) -> Fault:
        return self.source.fault(self.at, why)

    def next(self) -> str:
        """Goes past a token, and says what it was."""
        self.at += 1
        return self.text(-1)

    def word(self, what: str) -> str:
        if not self.text()[:1].isalpha():
            raise self.fault(f"{what} is missing")
        return self.next()

    def take(self, *choices: str) -> str:
        """Goes past the first of these that is here, each of one or more words, and says which it was, if any."""
        for choice in choices:
            words = choice.split()
            if all(self.text(ahead) == word for ahead, word in enumerate(words)):
                self.at += len(words)
                return choice
        return ""

    def need(self, *words: str) -> None:
        for word in words:
            if not self.take(word):
                raise self.fault(f"{word} is missing before {self.here()}")

    def skip_braces(self) -> tuple[int, int]:
        """Goes past a token, or past a group in braces or parentheses."""
        depth, begin = 0, self.at
        while depth > 0 or self.at == begin:
            if not self.text():
                raise self.source.fault(begin, f"{self.tokens[begin].text} isn't closed")
            depth += OPENING.get(self.next(), 0)
        return begin, self.at

    def skip_to(self, *marks: str, end: int | None = None) -> tuple[int, int]:
        """Goes past all tokens and groups before one of the marks, or up to a token."""
        begin = self.at
        while self.text() not in marks and (end is None or self.at < end):
            self.skip_braces()
        return begin, self.at

    def skip_past(self, mark: str, why: str) -> tuple[int, int]:
        begin = self.at
        while self.next() != mark:
            if not self.text(-1):
                raise self.source.fault(begin, why)
        return begin, self.at

    def node(self, kind: type[N], begin: int, /, **held: Any) -> N:
        """A node of the tokens up to here; what it holds is read before it is made."""
        return kind(source=self.source, a=begin, b=self.at, **held)

    def listed(self, one: Callable[[], T]) -> list[T]:
        """What stands in braces, with commas between."""
        found: list[T] = []
        self.need("{")
        while not self.take("}"):
            found.append(one())
            if self.text() != "}":
                self.need(",")
        return found

    def value(self, *ends: str) -> Value:
        """A value, or one of these ends; a value in braces is kept as its tokens."""
        begin, text, name, module, inner = self.at, self.text(), "", None, None
        form = VALUE_MARKS.get(text[:1], "name")
        if form != "name":
            self.skip_braces()
        elif self.take("-") or text[:1].isdigit():
            if not self.text()[:1].isdigit():
                raise self.fault("a number is missing")
            form = "number" if self.next().isdigit() else "real"
        elif text in ends or text in VALUE_WORDS and self.text(1) != ":":
            form, name = "word", self.next()
        elif self.is_lower():
            name = self.next()
            if self.take(":"):
                form, inner = "chosen", self.value()
            elif self.text() == "." and self.text(1)[:1] == "&":
                form, self.at = "field", self.at + 2
            elif self.text() == "{":
                form, _ = "parameters", self.skip_braces()
        elif self.is_upper() and self.text(1) == "." and self.is_lower(2):
            module, name, self.at = text, self.text(2), self.at + 3
        elif text[:1].isalpha():
            form, _ = "typed", self.type()
            self.need(":")
            inner = self.value()
        else:
            raise self.fault(f"a value can't begin with {self.here()}")
        return self.node(Value, begin, form=form, name=name, module=module, inner=inner)

    # constraints

    def constraint(self, bare: bool = False) -> Constraint:
        """A constraint in parentheses, or (with `bare`) SIZE where none stand round it."""
        begin = self.at
        if bare and self.text() == "SIZE":
            return self.node(Constraint, begin, root=self.set(), bare=True)
        self.need("(")
        node = self.set_with_mark()
        self.need(")")
        node.a, node.b = begin, self.at
        return node

    def set_with_mark(self) -> Constraint:
        """A set with what may follow it: `...`, a second set, an exception."""
        begin, root = self.at, self.set()
        marked = bool(self.take(", ..."))
        more = self.set() if marked and self.take(",") else None
        self.skip_exception()
        return self.node(Constraint, begin, root=root, marked=marked, more=more)

    def skip_exception(self) -> None:
        if self.take("!"):
            self.value()

    def set(self) -> Set:
        begin, unions = self.at, list[list[Element]]()
        if self.take("ALL EXCEPT"):
            return self.node(Set, begin, unions=unions, all_except=self.element())
        while not unions or self.take("|", "UNION"):
            unions.append([])
            while not unions[-1] or self.take("^", "INTERSECTION"):
                unions[-1].append(self.element())
                unions[-1][-1].minus = self.element() if self.take("EXCEPT") else None
        return self.node(Set, begin, unions=unions)

    def element(self) -> Element:
        node, word = self.node(Element, self.at), self.text()
        is_table = word == "{" and (self.text(1) in ("...", "@") or self.is_upper(1) and self.text(2) != ":")
        if self.take("("):
            node.form, node.group = "group", self.set()
            self.need(")")
        elif found := self.take("SIZE", "FROM", "WITH COMPONENT"):
            node.form, node.constraint = found.split()[-1].lower(), self.constraint()
        elif self.take("WITH COMPONENTS"):
            node.form, node.partial = "components", self.text(1) == "..."
            node.parts = self.listed(self.part)[node.partial :]
        elif is_table or word in FORMLESS:
            node.form, node.step = "dropped", FORMLESS.get(word, "table")
            self.skip_formless(is_table)
        elif self.take("INCLUDES") or self.text() == "[" or self.begins_type():
            node.form, node.type = "type", self.type()
        else:
            node.form, node.values = "single", [self.value(*ENDS)]
            less = self.take("<")
            if less or self.text() == "..":
                self.need("..")
                node.form, node.marks = "range", f"{less}..{self.take('<')}"
                node.values.append(self.value(*ENDS))
        node.b = self.at
        return node

    def begins_type(self) -> bool:
        """Whether a word is here that begins a type, and no value."""
        word = self.text()
        is_word = word in VALUE_WORDS and self.text(1) != "(" or word in ENDS
        return word[:1].isupper() and not is_word and not (self.text(1) == "." and self.is_lower(2))

    def part(self) -> Part:
        begin = self.at
        if not (self.is_lower() or self.text() == "..." and self.text(-1) == "{"):
            raise self.fault("the name of a component is missing")
        name = self.next()
        constraint = self.constraint() if self.text() == "(" else None
        return self.node(Part, begin, name=name, constraint=constraint, word=self.take("PRESENT", "ABSENT", "OPTIONAL"))

    def skip_formless(self, is_table: bool) -> None:
        """Goes past a constraint that the profile has no form for."""
        held: dict[str, Callable[[], object]] = {"PATTERN": self.value, "SETTINGS": self.value}
        held |= {"CONSTRAINED BY": self.skip_braces, "CONTAINING": self.type, "ENCODED BY": self.value}
        for words, one in held.items():
            if self.take(words):
                one()
        while is_table and self.text() == "{":
            self.skip_braces()

    # types

    def type(self) -> Type:
        begin, constraints = self.at, list[Constraint]()
        if self.take("["):
            if self.is_upper() and self.text(1) == ":":
                raise self.fault("an encoding prefix can't be lowered")
            kind, number = self.take("UNIVERSAL", "APPLICATION", "PRIVATE", "CONTEXT"), self.value()
            self.need("]")
            mode = self.take("IMPLICIT", "EXPLICIT")
            return self.node(Tagged, begin, kind=kind, number=number, mode=mode, inner=self.type())
        node = self.base()
        bare = isinstance(node, Plain | Reference)
        while self.text() == "(" or self.text() == "SIZE" and bare and not constraints:
            constraints.append(self.constraint(True))
        return self.node(Constrained, begin, inner=node, constraints=constraints) if constraints else node

    def base(self) -> Type:
        begin, word = self.at, self.text()
        if self.take("SEQUENCE", "SET", "CHOICE"):
            if word == "CHOICE" or self.text() == "{":
                return self.structure(begin, word)
            size = self.constraint(True) if self.text() in ("SIZE", "(") else None
            self.need("OF")
            element = self.at if self.is_lower() and self.text(1) not in ("<", ".") else None
            self.at += element is not None
            return self.node(ListOf, begin, word=word, size=size, name=element, inner=self.type())
        if self.is_lower() and self.text(1) == "<":
            self.at += 2
            return self.node(Selection, begin, alternative=word, inner=self.type())
        if not (name := self.take(*PAIRS) or (self.next() if word in SINGLE else "")):
            return self.reference()
        if name == "ANY" and self.take("DEFINED"):
            self.need("BY")
            self.at += 1
        self.at += name == "INSTANCE OF"
        listed = word == "ENUMERATED" or self.text() == "{" and word in ("INTEGER", "BIT")
        return self.node(Plain, begin, word=name, items=self.listed(self.item) if listed else [])

    def reference(self) -> Reference:
        begin, name, module, fields = self.at, self.text(), None, list[str]()
        if not (self.is_upper() or name in BUILT_IN_CLASSES or self.is_lower() and self.text(1) == "."):
            raise self.fault(f"a type can't begin with {self.here()}")
        self.at += 1
        while self.take("."):
            if self.text()[:1] == "&":
                fields.append(self.next())
            else:
                module, name = name, self.word("a name")
        if name[0].islower() and not fields:
            raise self.fault(f"{name} is no type")
        arguments = self.listed(self.argument) if self.text() == "{" and not fields else None
        return self.node(Reference, begin, name=name, module=module, fields=fields, arguments=arguments or None)

    def argument(self) -> tuple[int, int]:
        if self.text() == ",":
            raise self.fault("an argument is missing")
        return self.skip_to(",", "}")

    def item(self) -> Item:
        begin, number = self.at, None
        if self.take("..."):
            self.skip_exception()
            return self.node(Item, begin, name="", number=None)
        name = self.word("a name")
        if self.take("("):
            number = self.value()
            self.need(")")
        if self.text() == "," and self.text(1) == "}":
            self.at += 1
            raise self.fault("a name is missing after the comma")
        return self.node(Item, begin, name=name, number=number)

    def structure(self, begin: int, word: str) -> Structure:
        """X.680 25 and 29; commas are asked for between components alone."""
        group, inside, items, marks = 0, 0, list[Component](), list[Node]()
        self.need("{")
        while not self.take("}"):
            start = self.at
            if self.take("..."):
                self.skip_exception()
                marks.append(self.node(Node, start))
            elif self.take("[["):
                self.at += 2 if self.text().isdigit() and self.text(1) == ":" else 0
                inside = group = group + 1
            elif self.take("]]"):
                inside = 0
            elif not self.take(","):
                of = word != "CHOICE" and bool(self.take("COMPONENTS OF"))
                is_field = self.text(1) == "." and self.text(2)[:1] == "&"
                named = not of and self.is_lower() and self.text(1) != "<" and not is_field
                held: dict[str, Any] = {"name": self.next() if named else "", "type": self.type()}
                held["presence"] = "" if of else self.take("OPTIONAL", "DEFAULT")
                held["default"] = self.value() if held["presence"] == "DEFAULT" else None
                held |= {"of": of, "named": named, "markers": len(marks), "group": inside}
                items.append(self.node(Component, start, **held))
                if self.text() not in (",", "}", "]]"):
                    raise self.fault(f"a comma is missing before {self.here()}")
        for number, item in enumerate((item for item in items if not item.named and not item.of), 1):
            item.name = f"unnamed-{number}"
        return self.node(Structure, begin, word=word, items=items, marks=marks)

    # modules and assignments

    def module(self) -> Module:
        node = self.node(Module, self.at, name=self.word("the name of a module"))
        node.cuts.append(self.skip_identifier())
        if self.text()[:1] == '"':
            node.cuts.append(self.skip_braces())
        self.need("DEFINITIONS")
        node.cuts.append(self.skip_to("EXPLICIT", "IMPLICIT", "AUTOMATIC", "EXTENSIBILITY", "::="))
        if default := self.take("EXPLICIT", "IMPLICIT", "AUTOMATIC"):
            node.default = default
            self.need("TAGS")
        node.implied = bool(self.take("EXTENSIBILITY IMPLIED"))
        node.cuts.append((self.at - 2 * node.implied, self.at))
        self.need("::=", "BEGIN")
        node.body = self.at
        if self.text() == "EXPORTS":
            node.exports = self.skip_past(";", "; is missing")
        if self.text() == "IMPORTS":
            node.imports = self.imports(node)
        while not self.take("END"):
            if not self.text():
                raise self.fault("END is missing")
            if self.text() == "ENCODING-CONTROL":
                self.skip_past("END", "END is missing")
                self.at -= 1
            else:
                self.definition(node)
        node.b = self.at
        return node

    def skip_identifier(self) -> tuple[int, int]:
        """Goes past what is in braces after a module's name, and says what of it the profile doesn't have."""
        begin, end = self.skip_braces() if self.text() == "{" else (self.at, self.at)
        return end if IDENTIFIER.fullmatch(self.source.between(begin, end)) else begin, end

    def imports(self, node: Module) -> tuple[int, int]:
        begin, end = self.skip_past(";", "; is missing after IMPORTS")
        self.at = start = begin + 1
        symbols: list[int] = []
        while self.at < end - 1:
            if self.take("FROM"):
                module, after = self.word("the name of a module"), self.at
                by_name = self.is_lower() and self.text(1) not in (",", "FROM")
                self.at += (3 if self.text(1) == "." else 1) if by_name else 0
                cut, _ = self.skip_identifier()
                self.at += 2 if self.text() == "WITH" else 0
                held = {"module": module, "module_at": after - 1, "cut": (after if by_name else cut, self.at)}
                node.clauses.append(self.node(Import, start, symbols=symbols, **held))
                symbols, start = [], self.at
            elif self.text()[0].isalpha():
                symbols.append(self.at)
                self.at += 1
            else:
                self.skip_braces()
        node.imported = {self.tokens[k].text: clause.module for clause in node.clauses for k in clause.symbols}
        self.at = end
        return begin, end

    def definition(self, module: Module) -> None:
        """One assignment; where it can't be read, all up to what looks like the next one."""
        begin, name = self.at, self.text()
        node = self.node(Definition, begin, module=module, name=name)
        try:
            self.assignment(node)
            if self.text() and not self.text()[0].isalpha() and node.kind != "macro":
                raise self.fault(f"{self.here()} can't stand here")
        except Fault as fault:
            if not name[:1].isalpha():
                raise
            self.at = begin
            node = self.node(Definition, begin, module=module, name=name, kind="unread", unread=fault)
            assigned = self.next() == "::="
            while self.text() and not (self.text() == "END" or assigned and self.begins_assignment()):
                assigned = self.next() == "::=" or assigned
        node.b = self.at
        module.definitions.append(node)
        if (first := module.named.get(name)) is None or first.kind in ("unread", "macro"):
            module.named[name] = node
        elif node.kind not in ("unread", "macro") and first.text() != node.text():
            module.twice[name] = node

    def begins_assignment(self) -> bool:
        """Whether a line begins here with a word, and `::=` comes before another such line."""
        begins_line = "\n" in self.tokens[self.at].space
        if not self.text()[:1].isalpha() or not begins_line or self.text() in OUTSIDE:
            return False
        for ahead, token in enumerate(self.tokens[self.at + 1 : self.at + 14], 1):
            if token.text == "::=":
                return True
            begins = ahead > 1 and "\n" in token.space and self.text(ahead + 1) == "::="
            if begins and token.text[:1].isupper():
                return False
        return False

    def assignment(self, node: Definition) -> None:
        if self.text(1) == "MACRO":
            node.kind, _ = "macro", self.skip_past("END", "END is missing")
            return
        if not node.name[:1].isalpha() or node.name in OUTSIDE:
            raise self.fault(f"an assignment can't begin with {self.here()}")
        self.at += 1
        node.parameters = self.listed(self.parameter) if self.text() == "{" else None
        if self.take("::= CLASS"):
            node.kind, node.fields = "class", {field.name: field for field in self.listed(self.class_field)}
            node.syntax = self.skip_braces() if self.take("WITH SYNTAX") else None
            return
        is_type, node.type = self.take("::="), self.type()
        if is_type:
            return
        self.need("::=")
        begin = self.at
        if node.name[0].islower():
            node.kind, node.value = "value", self.value()
        elif self.text() != "{":
            raise self.fault("{ is missing")
        else:
            node.kind, _ = "set", self.skip_braces()
        node.body = (begin, self.at)

    def parameter(self) -> tuple[str, Type | None]:
        governor = None
        if self.text(1) not in (",", "}"):
            governor = self.type()
            self.need(":")
        return self.word("the name of a parameter"), governor

    def class_field(self) -> ClassField:
        if self.text()[:1] != "&":
            raise self.fault("a field of the class is missing")
        found = ClassField(self.next(), "type")
        if self.text()[:1] == "&":
            found.kind = "variable"
        elif self.text() not in (",", "}", "OPTIONAL", "DEFAULT"):
            found.kind, found.type = "set" if found.name[1].isupper() else "fixed", self.type()
        self.skip_to(",", "}")
        return found


def read_modules(source: Source) -> list[Module]:
    reader, found = Reader(source), list[Module]()
    while reader.text() or not found:
        if not reader.text():
            raise reader.fault("the text has no module")
        found.append(reader.module())
    return found


@cache
def type_at(span: Span) -> Type | None:
    """The type that tokens are, if they are one; the same tree each time."""
    reader = Reader(*span[:2])
    try:
        tree = reader.type()
    except Fault:
        return None
    return tree if reader.at == span[2] else None
