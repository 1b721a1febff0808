"""The modules that were given, and what a name in one of them stands for (X.680 clauses 13 to 15)."""

import re
from collections.abc import Iterator
from dataclasses import dataclass, field, fields

from reading_modules import BUILT_IN_CLASSES, read_modules
from tokens import RESERVED, cut
from tree import Definition, Item, Module, Node, Plain, Reference, Type, Value

BUILT_IN = """Built-In DEFINITIONS ::= BEGIN
TYPE-IDENTIFIER ::= CLASS {&id OBJECT IDENTIFIER UNIQUE, &Type} WITH SYNTAX {&Type IDENTIFIED BY &id} END"""
BUILT_IN_CLASS = read_modules(cut("", BUILT_IN))[0].definitions[0]


def spelled(name: str) -> str:
    """A name without low lines, which the profile doesn't have."""
    new = re.sub("-+", "-", name.replace("_", "-").rstrip("-"))
    return new + "-1" if new in RESERVED else new


@dataclass
class Library:
    modules: dict[str, Module] = field(default_factory=dict)

    def add(self, module: Module) -> None:
        """Takes a module in; of two texts of one module the first counts, if they are equal."""
        known = self.modules.setdefault(module.name, module)
        if [d.text() for d in known.definitions] != [d.text() for d in module.definitions]:
            raise module.fault(f"another module has the name {module.name}: {known.source.path}")

    def find(self, module: Module, name: str, source: str | None = None) -> Definition | str:
        """The definition that a name stands for in a module, or why there is none; `source` is what is before `.`."""
        if source in self.modules:
            return self.modules[source].named.get(name) or f"module {source} has no {name}"
        if source is not None:
            return f"there is no module {source}, which has {name}"
        seen = set()
        while name not in module.named:
            wanted = module.imported.get(name) if module.name not in seen else None
            if wanted not in self.modules:
                found = [m.named[name] for m in self.modules.values() if name in m.named and m is not module]
                why = f"there is no module {wanted}, which has {name}"
                return found[0] if len(found) == 1 else why if wanted else f"{name} isn't defined in {module.name}"
            seen.add(module.name)
            module = self.modules[wanted]
        return module.named[name]

    def known(self, module: Module, name: str, source: str | None, *kinds: str) -> Definition | None:
        """The definition of one of these kinds that a name stands for, if there is one."""
        found = self.find(module, name, source)
        return found if isinstance(found, Definition) and found.kind in kinds else None

    def class_of(self, module: Module, name: str, source: str | None = None) -> Definition | None:
        """The class that a name stands for, if it names one."""
        for _ in range(20):
            found = self.known(module, name, source, "class", "type")
            found = BUILT_IN_CLASS if name in BUILT_IN_CLASSES else found
            if found is None or found.kind == "class":
                return found
            if found.parameters or not isinstance(found.type, Reference) or found.type.fields:
                return None
            module, name, source = found.module, found.type.name, found.type.module
        return None

    def is_type(self, definition: Definition) -> bool:
        """Whether an assignment that looks like one of a type or value set is one: no class, and no set of objects."""
        if definition.kind == "type":
            return self.class_of(definition.module, definition.name) is None
        return definition.kind == "set" and self.governs(definition.module, definition.type) is None

    def governs(self, module: Module, node: Node | None) -> Definition | None:
        """The class that a governor names, if it names one."""
        if not isinstance(node, Reference) or node.arguments is not None:
            return None
        return self.class_of(module, node.name, node.module)


def children(node: Node) -> Iterator[Node]:
    for held in (getattr(node, entry.name) for entry in fields(node)):
        for part in held if isinstance(held, list) else [held]:
            yield from (one for one in (part if isinstance(part, list) else [part]) if isinstance(one, Node))


def item_named(base: Type | None, node: Value) -> Item | None:
    """The item, named number or bit of a type that a value is by its name."""
    items = base.items if isinstance(base, Plain) and node.form == "name" and node.module is None else []
    return next((item for item in items if item.name == node.name), None)
