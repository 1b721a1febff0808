"""What lowering works with: places, scopes, changes, what comes out, and what can't go."""

from __future__ import annotations

from collections.abc import Iterable
from dataclasses import dataclass, field
from typing import NamedTuple

from tree import Constrained, Definition, Module, Node, Span, Type

SAME, TIGHTER, LOOSER, NEITHER, CANT = MARKS = "same", "tighter", "looser", "neither", "can't"


class Place(NamedTuple):
    """A definition, and the way to a part of it: components by name, `*` for elements."""

    definition: Definition
    path: tuple[str, ...] = ()

    def down(self, step: str) -> Place:
        return Place(self.definition, (*self.path, step))

    def __str__(self) -> str:
        return ".".join((self.definition.module.name, self.definition.name, *self.path))


@dataclass(eq=False)
class Change:
    """A change; or the root of what can't go, with the places that it takes, and the types that objects have there."""

    place: Place
    node: Node
    step: str
    why: str
    mark: str = CANT
    original: str = ""
    replacement: str = ""
    takes: dict[str, None] = field(default_factory=dict)
    candidates: list[str] = field(default_factory=list)
    number: int = 0
    signed: bool = False


class CannotGo(Exception):
    """A type that can't be lowered. `ends` says that a recursion ends here: what stands round it may leave it out."""

    def __init__(self, causes: list[Change], ends: bool = False) -> None:
        self.causes, self.ends = list(dict.fromkeys(causes)), ends
        self.step = "recursion" if ends else "left-out"
        super().__init__(self.causes[0].why)


class NoValue(Exception):
    """A value, or a part of what EXCEPT takes away, that the profile has no notation for."""


class Actual(NamedTuple):
    """What stands for a dummy parameter, by its governor: tokens, in the scope that they were written in."""

    governor: Type | None
    span: Span
    scope: Scope


@dataclass(eq=False)
class Scope:
    """How the names of a text are read: its module, what stands for parameters, and the level in a recursion."""

    module: Module
    actuals: dict[str, Actual] = field(default_factory=dict)
    level: int = 0
    group: int = -1
    governor: Type | None = None

    def actual(self, name: str, module: str | None) -> Actual | None:
        return self.actuals.get(name) if module is None else None

    def key(self) -> tuple[object, ...]:
        """What tells the outputs of a definition apart: its level, and what stands for its parameters."""
        held = [(scope, source.between(a, b)) for _, (source, a, b), scope in self.actuals.values()]
        return self.level, *((scope.module.name, text, scope.key()) for scope, text in held)


Typed = tuple[Scope, Type]
# How a SEQUENCE, SET or CHOICE was lowered: presence words of the components that stay, and those that went with why.
Shape = tuple[dict[str, str], dict[str, list[Change]]]


@dataclass(eq=False)
class Output:
    """A definition that goes out; `stop` where it can't."""

    module: Module
    name: str
    origin: Definition
    place: Place
    text: str = ""
    scope: Scope | None = None
    choice: bool = False
    uses: dict[Output, None] = field(default_factory=dict)
    changes: dict[object, Change] = field(default_factory=dict)
    imports: dict[str, Output] = field(default_factory=dict)
    stop: CannotGo | None = None

    def costs(self) -> set[tuple[Place, str, str]]:
        return {(change.place, change.step, change.mark) for change in self.changes.values() if change.mark != SAME}


def reached(roots: Iterable[Output]) -> list[Output]:
    """All that some outputs use, themselves first."""
    found = dict.fromkeys(roots)
    todo = list(found)
    while todo:
        new = [used for used in todo.pop().uses if used not in found]
        found |= dict.fromkeys(new)
        todo += new
    return list(found)


class Lowered(NamedTuple):
    """A type's text, and whether it is an untagged CHOICE."""

    text: str
    choice: bool = False


class Site(NamedTuple):
    """Where a type stands: its place, and whether an implicit tag takes the place of its own; `free` for bindings."""

    place: Place
    implicit: bool = False
    free: bool = True


def strip(node: Type) -> Type:
    """A type without the constraints after it."""
    return strip(node.inner) if isinstance(node, Constrained) else node
