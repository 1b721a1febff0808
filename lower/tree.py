"""The trees of modules."""

from __future__ import annotations

from dataclasses import dataclass, field
from typing import dataclass_transform

from tokens import Edit, Fault, Source

Span = tuple[Source, int, int]


@dataclass_transform(kw_only_default=True)
@dataclass(eq=False, kw_only=True)
class Node:
    """What is made of the tokens of a source from `a` up to `b`; each kind of it is a dataclass too."""

    source: Source
    a: int
    b: int

    def __init_subclass__(cls) -> None:
        dataclass(eq=False, kw_only=True)(cls)

    def text(self) -> str:
        return self.source.between(self.a, self.b)

    def fault(self, why: str) -> Fault:
        return self.source.fault(self.a, why)

    def emit(self, *edits: Edit) -> str:
        return self.source.emit(self.a, self.b, edits)

    def by(self, text: str) -> Edit:
        """An edit that puts a text in the place of this."""
        return self.a, self.b, text


class Value(Node):
    """`form` is number, real, string, bits, word, name, braces, chosen, field, parameters or typed."""

    form: str
    name: str = ""
    module: str | None = None
    inner: Value | None = None


class Element(Node):
    """A part of a set of values. `form` is group, size, from, component, components, single, range, type or dropped."""

    form: str = ""
    group: Set | None = None
    constraint: Constraint | None = None
    values: list[Value] = field(default_factory=list)
    type: Type | None = None
    partial: bool = False
    parts: list[Part] = field(default_factory=list)
    step: str = ""
    marks: str = ""
    minus: Element | None = None


class Part(Node):
    """A component in WITH COMPONENTS."""

    name: str
    constraint: Constraint | None
    word: str


class Set(Node):
    """A union of intersections, or ALL EXCEPT an element."""

    unions: list[list[Element]]
    all_except: Element | None = None


class Constraint(Node):
    """A constraint in parentheses, or a SIZE without them (`bare`); `more` is the set after `...`."""

    root: Set
    marked: bool = False
    more: Set | None = None
    bare: bool = False


class Type(Node):
    """`word` is that of a type by words, of a SEQUENCE, SET or CHOICE, and of a list; else it is empty."""

    word: str = ""


class Tagged(Type):
    kind: str
    number: Value
    mode: str
    inner: Type


class Constrained(Type):
    inner: Type
    constraints: list[Constraint]


class Item(Node):
    """A named number, bit or item; or `...` where the name is empty."""

    name: str
    number: Value | None


class Plain(Type):
    """A type by its words alone, with the list of names that follows it; also ANY and INSTANCE OF."""

    items: list[Item] = field(default_factory=list)


class Component(Node):
    """A component or alternative; COMPONENTS OF where `of` says so.

    `markers` counts the `...` before it, `group` numbers the version brackets that it stands in, from 1."""

    name: str
    type: Type
    of: bool
    named: bool
    presence: str
    default: Value | None
    markers: int
    group: int


class Structure(Type):
    items: list[Component]
    marks: list[Node]


class ListOf(Type):
    inner: Type
    size: Constraint | None
    name: int | None


class Reference(Type):
    """A type by name, with a module, arguments, or fields of a class or object."""

    name: str
    module: str | None = None
    fields: list[str] = field(default_factory=list)
    arguments: list[tuple[int, int]] | None = None


class Selection(Type):
    alternative: str
    inner: Type


@dataclass(eq=False)
class ClassField:
    """`kind` is type, fixed (a value or object), variable, or set (of values or objects)."""

    name: str
    kind: str
    type: Type | None = None


class Definition(Node):
    """An assignment. `kind` is type, value, set, class, macro or unread; objects are values of a class. A parameter has
    a name and a governor."""

    module: Module
    name: str
    kind: str = "type"
    parameters: list[tuple[str, Type | None]] | None = None
    type: Type | None = None
    value: Value | None = None
    body: tuple[int, int] = (0, 0)
    fields: dict[str, ClassField] = field(default_factory=dict)
    syntax: tuple[int, int] | None = None
    unread: Fault | None = None

    def fault(self, why: str) -> Fault:
        """A fault of this; of one that couldn't be read at the token that stopped its reader."""
        return Fault(why, self.unread.source, self.unread.start) if self.unread else super().fault(why)


class Import(Node):
    """A clause of IMPORTS: the tokens of its symbols and of its module, and what has to be cut behind that."""

    symbols: list[int]
    module: str
    module_at: int
    cut: tuple[int, int]


class Module(Node):
    """`cuts` are parts of its head that the profile doesn't have."""

    name: str
    default: str = "EXPLICIT"
    implied: bool = False
    cuts: list[tuple[int, int]] = field(default_factory=list)
    body: int = 0
    exports: tuple[int, int] | None = None
    imports: tuple[int, int] | None = None
    clauses: list[Import] = field(default_factory=list)
    definitions: list[Definition] = field(default_factory=list)
    named: dict[str, Definition] = field(default_factory=dict)
    twice: dict[str, Definition] = field(default_factory=dict)
    imported: dict[str, str] = field(default_factory=dict)
