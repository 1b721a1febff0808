"""What an author says in TOML: types for holes, what is left out, depths of recursions, signatures of changes."""

import re
import tomllib
from collections.abc import Callable
from dataclasses import dataclass, field
from pathlib import Path
from typing import Any

from job import Change, Place
from library import Library
from reading_modules import Reader
from tokens import Fault, Source, cut
from tree import Definition, Type

LEAVE_OUT = "leave-out"


def is_list(held: object) -> bool:
    return isinstance(held, list) and all(isinstance(text, str) for text in held)


def is_bound(held: object) -> bool:
    return isinstance(held, str) or bool(held) and is_list(held)


KINDS: dict[str, Callable[[Any], bool]] = {
    "depth": lambda held: type(held) is int and 0 <= held <= 8,
    "looser": is_list,
    "bind": lambda held: isinstance(held, dict) and all(map(is_bound, held.values())),
    "depths": lambda held: isinstance(held, dict) and all(map(KINDS["depth"], held.values())),
}


@dataclass
class Bindings:
    path: str = ""
    text: str = ""
    depth: int | None = None
    looser: list[str] = field(default_factory=list)
    bind: dict[str, str | list[str]] = field(default_factory=dict)
    depths: dict[str, int] = field(default_factory=dict)
    used: set[str] = field(default_factory=set)
    trees: dict[str, Type] = field(default_factory=dict)

    def at(self, place: Place) -> str | list[str] | None:
        full = str(place)
        key = full if full in self.bind else full.removeprefix(place.definition.module.name + ".")
        found = self.bind.get(key)
        self.used |= {key} if found is not None else set()
        return found if found is None or found == LEAVE_OUT or isinstance(found, list) else [found]

    def leaves_out(self, place: Place) -> bool:
        return self.at(place) == LEAVE_OUT

    def depth_of(self, definitions: list[Definition], otherwise: int) -> int:
        """The depth of a recursion that has these definitions."""
        names = [name for d in definitions for name in (f"{d.module.name}.{d.name}", d.name) if name in self.depths]
        self.used.update(names[:1])
        return self.depths[names[0]] if names else otherwise if self.depth is None else self.depth

    def parsed(self, place: Place, text: str) -> Type:
        if text not in self.trees:
            try:
                reader = Reader(cut(self.path, text))
                self.trees[text] = reader.type()
                if reader.text():
                    raise reader.fault(f"{reader.text()} can't stand here")
            except Fault as fault:
                raise self.fault(place, f"{text!r} is no type: {fault.why}") from fault
        return self.trees[text]

    def fault(self, place: Place | str, why: str) -> Fault:
        """A fault of an entry, with the line that has it."""
        names = [f'"{place}"', *(f'"{short}"' for short in str(place).split(".", 1)[1:])]
        if (found := re.search("|".join(map(re.escape, names)), self.text)) is None:
            return Fault(f"{self.path}: {place}: {why}")
        return Fault(why, Source(self.path, self.text), found.start())

    def signs(self, change: Change) -> bool:
        """Whether the author takes a change that widens."""
        full = f"{change.place}."
        places = (full, full.split(".", 1)[1])
        return any(name == change.step or any(p.startswith(f"{name}.") for p in places) for name in self.looser)

    def check(self, library: Library) -> None:
        for name in (*self.bind, *self.depths):
            self.way(library, name)

    def way(self, library: Library, name: str) -> Place:
        """The place that a name says; a fault where it begins with nobody's name, or that of more than one module."""
        first, *path = name.split(".")
        if path and first in library.modules and path[0] in library.modules[first].named:
            return Place(library.modules[first].named[path[0]], tuple(path[1:]))
        modules = [module for module in library.modules.values() if first in module.named]
        if len(modules) != 1:
            many = f"{first} is in more than one module: {', '.join(module.name for module in modules)}"
            raise self.fault(name, many if modules else f"nothing has the name {name}")
        return Place(modules[0].named[first], tuple(path))


def read_bindings(path: str) -> Bindings:
    """Bindings from a file; a Fault where it is none."""
    try:
        text = Path(path).read_text(encoding="utf-8")
        table = tomllib.loads(text)
    except OSError as error:
        raise Fault(f"cannot read {path}: {error.strerror}") from error
    except (UnicodeDecodeError, tomllib.TOMLDecodeError) as error:
        raise Fault(f"{path}: {error}") from error
    for key, held in table.items():
        if key not in KINDS:
            raise Fault(f"{path}: {key} is no key of bindings: they are {', '.join(KINDS)}")
        if not KINDS[key](held):
            raise Fault(f"{path}: what {key} has is of the wrong kind")
    return Bindings(path, text, **table)
