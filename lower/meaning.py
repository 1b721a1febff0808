"""What names stand for, and what goes out for definitions: recursions, types, objects, tags, outputs, changes."""

import re
from collections.abc import Callable, Iterable, Iterator

from job import SAME, Actual, CannotGo, Change, Lowered, Output, Place, Scope, Shape, Site, Typed, strip
from library import BUILT_IN_CLASS, spelled
from reading_modules import Reader, read_modules, type_at
from recursion import Recursion
from tokens import Edit, Fault, cut
from tree import ClassField, Component, Constrained, Definition, Item, ListOf, Module, Node, Reference, Span, Structure
from tree import Tagged, Type, Value

Way = tuple[Scope, Type, Place | None]
Object = tuple[Scope, dict[str, Span]]
Objects = list[Object | str]
Mark = tuple[dict[Output, None], dict[object, Change], dict[str, Output]]


class Outputs:
    """One run over a library. `here` is the output that is made; with `leave_out` all that can be left out is. Each
    place of `given` has a type that stands in for one of the author's. A definition is read in the scope of what goes
    out for it, where that is there."""

    definition: Callable[[Output, Scope], Lowered]
    type: Callable[[Scope, Type, Site], Lowered]
    here: Output

    def __init__(
        self, recursion: Recursion, leave_out: bool, refused: dict[str, str], given: Iterable[Place] = ()
    ) -> None:
        self.library, self.bindings, self.recursion = recursion.library, recursion.bindings, recursion
        self.leave_out, self.refused = leave_out, refused
        self.given = {place: f"[PRIVATE {number}] EXPLICIT NULL" for number, place in enumerate(given)}
        self.outputs: dict[object, Output] = {}
        self.building: list[Output] = []
        self.names: dict[str, set[str]] = {}
        self.original: dict[str, dict[str, str]] = {}
        self.local: dict[tuple[Module, Output], Output] = {}
        self.shapes: dict[tuple[Type, Scope], Shape] = {}
        self.dropped: set[Item] = set()
        self.empty: set[tuple[ListOf, Scope]] = set()
        self.holes: dict[str, Change] = {}
        self.left: dict[str, dict[Change, None]] = {}
        self.once: dict[object, Change] = {}

    # types

    def base(self, scope: Scope, node: Type, tags: bool = True) -> Way:
        """Follows references: the type that is meant, where it stands, without constraints and (with `tags`) tags."""
        *_, found = self.way(scope, node, tags)
        return found

    def way(self, scope: Scope, node: Type, tags: bool = True) -> Iterator[Way]:
        """A type, and all that is on the way to what it stands for."""
        place: Place | None = None
        for _ in range(100):
            yield scope, node, place
            inner = node.inner if isinstance(node, Constrained) or isinstance(node, Tagged) and tags else None
            if not (found := (scope, inner, place) if inner else self.step(scope, node)):
                return
            scope, node, place = found

    def step(self, scope: Scope, node: Type) -> Way | None:
        """What a reference stands for, one step on; None where it is no reference, or nothing is known of it."""
        if not isinstance(node, Reference):
            return None
        if node.fields:
            found = self.class_field(scope, node)
            return (*found, None) if isinstance(found, tuple) else None
        if actual := scope.actual(node.name, node.module):
            held = type_at(actual.span)
            return (actual.scope, held, None) if held else None
        definition = self.library.known(scope.module, node.name, node.module, "type", "set")
        if definition is None or definition.type is None:
            return None
        there = self.entered(scope, node, definition)
        known = self.outputs.get((definition, *there.key()))
        return known.scope if known and known.scope else there, definition.type, Place(definition)

    def entered(self, scope: Scope, node: Reference, definition: Definition) -> Scope:
        """The scope of a definition that a reference names: what stands for its parameters, and its level."""
        actuals: dict[str, Actual] = {}
        for (name, governor), (a, b) in zip(definition.parameters or [], node.arguments or []):
            words = [token.text for token in node.source.tokens[a:b] if token.text not in "{}"]
            handed = scope.actuals.get(words[0]) if len(words) == 1 else None
            actuals[name] = handed or Actual(governor, (node.source, a, b), scope)
        group = self.recursion.groups.get(definition, -1)
        level = scope.level + (definition in self.recursion.heads) if 0 <= group == scope.group else 0
        return Scope(definition.module, actuals, level, group)

    def place_of(self, way: Place) -> Place | None:
        """The place of what is found where a way goes on through references; None where nothing is."""
        place, scope = Place(way.definition), Scope(way.definition.module)
        node = way.definition.type
        for step in way.path:
            scope, node, through = self.base(scope, node) if node else (scope, None, None)
            items = {item.name: item.type for item in node.items} if isinstance(node, Structure) else {}
            node = node.inner if isinstance(node, ListOf) and step == "*" else items.get(step)
            place = (through or place).down(step)
        return place if node else None

    # tags

    def is_automatic(self, scope: Scope, node: Structure) -> bool:
        """Whether a list is tagged automatically (X.680 25.7, 29.5): by its root, as it is written."""
        root = [item for item in node.items if item.markers != 1 and not item.of]
        return scope.module.default == "AUTOMATIC" and not any(isinstance(item.type, Tagged) for item in root)

    def is_explicit(self, scope: Scope, node: Tagged) -> bool:
        """Whether a tag is explicit (X.680 31.2.7): by default, or as there is no tag to be replaced."""
        if node.mode:
            return node.mode == "EXPLICIT" or self.untagged(scope, node.inner)
        return scope.module.default == "EXPLICIT" or self.has_no_tag(scope, node.inner)

    def has_no_tag(self, scope: Scope, node: Type) -> bool:
        """Whether a type is an untagged CHOICE, an open type or a dummy parameter."""
        node = strip(node)
        dummy = isinstance(node, Reference) and not node.fields and scope.actual(node.name, node.module)
        return bool(dummy) or self.untagged(scope, node)

    def untagged(self, scope: Scope, node: Type) -> bool:
        """Whether a type is an untagged CHOICE or an open type, also by a parameter."""
        _, base, _ = self.base(scope, node, tags=False)
        return base.word in ("CHOICE", "ANY") or isinstance(base, Reference) and bool(base.fields)

    def is_open(self, scope: Scope, node: Type) -> bool:
        inner = strip(node)
        is_field = isinstance(inner, Reference) and inner.fields
        return self.class_field(scope, inner) == "open" if is_field else inner.word == "ANY"

    # classes and objects

    def governs(self, scope: Scope, node: Node | None) -> Definition | None:
        """The class that a governor names, also by a dummy parameter."""
        if isinstance(node, Reference) and (actual := scope.actual(node.name, node.module)):
            return self.governs(actual.scope, type_at(actual.span))
        return self.library.governs(scope.module, node)

    def class_field(self, scope: Scope, node: Reference) -> Typed | str | None:
        """What a field is: its type and scope, `open` where it holds any type, None where it isn't known."""
        if node.name[0].islower():
            setting = self.object_field(scope, node, node.fields[0])
            tree = type_at(setting[1]) if setting else None
            return (setting[0], tree) if setting and tree else None
        held, field = self.governs(scope, node), None
        for number, name in enumerate(node.fields):
            if number:
                held = self.library.governs(held.module, field.type) if held and field else None
            field = held.fields.get(name) if held else None
        if field and field.kind in ("type", "variable"):
            return "open"
        if held is None or field is None or field.type is None or self.library.governs(held.module, field.type):
            return None
        return Scope(held.module), field.type

    def object_field(self, scope: Scope, node: Reference | Value, field: str) -> tuple[Scope, Span] | None:
        actual = scope.actuals.get(node.name)
        held = self.governs(scope, actual.governor) if actual else BUILT_IN_CLASS
        found = self.object_of(scope, held, (node.source, node.a, node.a + 1)) if held else None
        return (found[0], found[1][field]) if found and field in found[1] else None

    def named_by(self, scope: Scope, held: Definition, span: Span, kind: str) -> tuple[Scope, Definition, Span] | None:
        """What a name of an object (a value) or set of objects stands for: its scope, its class and its tokens."""
        source, a, b = span
        word, module = source.tokens[b - 1].text, source.tokens[a].text if b == a + 3 else None
        if actual := scope.actual(word, module):
            return actual.scope, held, actual.span
        found = self.library.known(scope.module, word, module, kind)
        if found is None or found.parameters is not None:
            return None
        its = held if kind == "set" else self.library.governs(found.module, found.type)
        return (Scope(found.module), its, (found.source, *found.body)) if its else None

    def object_of(self, scope: Scope, held: Definition, span: Span, deep: int = 0) -> Object | None:
        """The object that tokens stand for: a name, or settings in braces."""
        if span[0].tokens[span[1]].text == "{":
            fields = settings(held, span)
            return None if fields is None else (scope, fields)
        found = self.named_by(scope, held, span, "value") if deep <= 20 else None
        return self.object_of(*found, deep + 1) if found else None

    def object_set(self, scope: Scope, held: Definition, span: Span, deep: int = 0) -> Objects:
        """The objects of a set, `...` where it is extensible, and nothing in the place of what can't be followed."""
        reader, end, found = Reader(*span[:2]), span[2], list[Object | str]()
        end -= bool(reader.take("{"))
        while reader.at < end:
            part = (reader.source, *reader.skip_to("|", "UNION", ",", end=end))
            word, length = reader.text(-1), part[2] - part[1]
            reader.at += 1
            if length == 1 and word == "...":
                found.append("...")
            elif deep > 20 or length <= 0:
                found.append("")
            elif word[0].isupper() and length in (1, 3):
                other = self.named_by(scope, held, part, "set")
                found += self.object_set(*other, deep + 1) if other else [""]
            else:
                found.append(self.object_of(scope, held, part) or "")
        return found

    def table_of(self, scope: Scope, node: Type) -> tuple[Objects, str] | None:
        """The object set that an open type is constrained by, and its field."""
        inner = strip(node)
        if not isinstance(node, Constrained) or not isinstance(inner, Reference) or not inner.fields:
            return None
        held = self.governs(scope, inner)
        for element in (c.root.unions[0][0] for c in node.constraints if held and c.root.unions):
            if held and element.step == "table":
                span = Reader(node.source, element.a).skip_braces()
                return self.object_set(scope, held, (node.source, *span)), inner.fields[-1]
        return None

    def candidates(self, scope: Scope, node: Type) -> list[Typed]:
        """The types that objects of a table have for an open type."""
        found, name = self.table_of(scope, node) or ([], "")
        known = [one for one in found if isinstance(one, tuple) and name in one[1]]
        return [(there, tree) for there, fields in known if (tree := type_at(fields[name]))]

    def full_text(self, scope: Scope, tree: Type) -> str:
        """A type's text, with the modules of the definitions that it names."""
        words = [token.text for token in tree.source.tokens[tree.a : tree.b]]
        for node in self.recursion.references(tree):
            is_plain = not (node.module or node.name in scope.actuals)
            found = self.library.find(scope.module, node.name) if is_plain else ""
            if isinstance(found, Definition):
                words[node.a - tree.a] = f"{found.module.name}.{found.name}"
        return " ".join(words).replace(" . ", ".")

    def meant(self, scope: Scope, tree: Type) -> object:
        """What tells types apart: the text that names lead to, and how that is read where names or tags are in it."""
        for _ in range(100):
            scope, tree, *_ = self.step(scope, tree) or (scope, tree)
        text = self.full_text(scope, tree)
        own = scope.key()[1:] if set(text.split()) & scope.actuals.keys() else ()
        return text, *((scope.module, own) if re.search(r"[\[{]|(?<![\w-])[a-z]", text) else ())

    # what goes out

    def output(self, definition: Definition, scope: Scope | None = None) -> Output:
        """What goes out for a definition, maybe that for other parameters with equal text and marks; or CannotGo."""
        scope = scope or Scope(definition.module, group=self.recursion.groups.get(definition, -1))
        key = (definition, *scope.key())
        if (found := self.outputs.get(key)) is None:
            out = self.outputs[key] = Output(definition.module, "", definition, Place(definition), scope=scope)
            self.fill(out, lambda: self.definition(out, scope))
            others = self.outputs.values() if scope.actuals and not out.stop else ()
            same = [other for other in others if other.name and (other.origin, other.text) == (definition, out.text)]
            same = [other for other in same if other.costs() == out.costs()]
            found = self.outputs[key] = same[0] if same else out
            found.changes |= {known: change for known, change in out.changes.items() if known not in found.changes}
            found.uses |= out.uses
            if not same and not out.stop:
                out.name = self.free_name(out.module, definition.name, scope)
            if out.name and not scope.level and not scope.actuals:
                before, self.here = self.here, out
                self.renamed(definition, Site(out.place), out.name)
                self.here = before
        if found in self.building:
            raise self.stop(found.place, definition, "recursion", f"{definition.name} contains itself", True)
        if found.stop is not None:
            raise found.stop
        return found

    def fill(self, out: Output, make: Callable[[], Lowered]) -> None:
        """Runs what makes an output, with that output as the one that changes belong to."""
        self.building.append(out)
        self.here = out
        try:
            if str(out.place) in self.refused:
                raise self.stop(out.place, out.origin, "limit", self.refused[str(out.place)])
            out.text, out.choice = make()
        except CannotGo as stop:
            out.stop = stop
            for cause in stop.causes:
                cause.takes[str(out.place)] = None
        finally:
            self.building.pop()
            self.here = self.building[-1] if self.building else out

    def extra(self, key: object, home: Module, site: Site, name: str, make: Callable[[], Lowered]) -> Lowered:
        """A definition of its own in a module, for a type that is written inside another one."""
        if (out := self.outputs.get(key)) is None:
            out = self.outputs[key] = Output(home, "", self.here.origin, site.place)
            self.fill(out, make)
            out.text = f" ::= {out.text}"
            out.name = "" if out.stop else self.free_name(home, name)
        if out.stop is not None:
            raise out.stop
        return Lowered(self.refer(out), out.choice)

    def helper(self, scope: Scope, node: Type, site: Site, name: str) -> Lowered:
        """A type by the name of a definition of its own, in the module that it was written in."""
        inside = Site(site.place, free=False)
        return self.extra((node, scope), scope.module, site, name, lambda: self.type(scope, node, inside))

    def aside(self, make: Callable[[], Lowered], site: Site, name: str) -> Lowered:
        """A text without tags of its own; under AUTOMATIC TAGS it goes to a module beside, where nothing tags it."""
        if self.here.module.default != "AUTOMATIC":
            return make()
        home = f"{spelled(self.here.module.name)}-Untagged"
        if home not in self.library.modules:
            self.library.add(read_modules(cut("", f"{home} DEFINITIONS EXPLICIT TAGS ::= BEGIN END"))[0])
        key, name = ("aside", self.here, site.place), f"{self.here.origin.name}-{name}"
        return self.extra(key, self.library.modules[home], site, name, make)

    # names

    def free_name(self, module: Module, name: str, scope: Scope | None = None) -> str:
        """A name that nothing else in the module has; a definition's own name comes first."""
        used, scope = self.names.setdefault(module.name, set()), scope or Scope(module)
        if module.name not in self.original:
            self.original[module.name] = {spelled(other): other for other in (*module.named, *module.imported)}
        original = self.original[module.name]
        wanted = spelled(name) + (f"-{scope.level}" if scope.level else "")

        def taken(found: str) -> bool:
            return found in used or original.get(found, name) != name or scope.level > 0 and found in original

        if taken(wanted) and scope.actuals:
            spans = [actual.span for actual in scope.actuals.values()]
            words = [token.text for source, a, b in spans for token in source.tokens[a:b] if token.text[0].isalpha()]
            wanted = spelled(f"{wanted}-{words[0] if len(words) == 1 else self.here.origin.name}")
        found, number = wanted, 2
        while taken(found):
            found, number = f"{wanted}-{number}", number + 1
        used.add(found)
        return found

    def refer(self, out: Output) -> str:
        """The name of an output in the module that is written, which imports it if need be: by another name, that is
        defined beside it, where the module has its own name already."""
        module = self.here.module
        found = out if out.module is module else self.local.get((module, out))
        if found is None:
            found, name = out, f"{out.name}-of-{out.module.name}"
            original = module.imported.get(out.origin.name) and out.origin.name == out.name
            others = {used.name for (m, o), used in self.local.items() if m is module and o is not out}
            own = out.name in module.named or out.name in self.names.setdefault(module.name, set())
            if own and not original or out.name in others:
                found = Output(out.module, self.free_name(out.module, name), out.origin, out.place)
                found.text, found.uses, found.choice = f" ::= {out.name}", {out: None}, out.choice
                self.outputs["alias", out, module] = found
            self.local[module, out] = found
        if found.module is not module:
            self.here.imports[found.name] = found
        self.here.uses[found] = None
        return found.name

    # changes, and what can't go

    def note(
        self, site: Site, node: Node, step: str, why: str, mark: str = SAME, new: str = "", old: str | None = None
    ) -> None:
        """Writes a change down for the output that is made; SAME leaves values and encodings as they are. Outputs of
        one definition share the changes in which they are alike."""
        original = node.text() if old is None else old
        key = (site.place, node.source, node.a, step, original, mark)
        change = self.once.setdefault((key, why, new), Change(site.place, node, step, why, mark, original, new))
        self.here.changes.setdefault(key, change)

    def renamed(self, node: Definition | Item | Component, site: Site, name: str) -> list[Edit]:
        """What writes another name at the beginning of a node, where its own isn't that."""
        if name == node.name or not node.text().startswith(node.name):
            return []
        self.note(site, node, "text", "the profile has no such name", new=name, old=node.name)
        return [(node.a, node.a + 1, name)]

    def mark(self) -> Mark:
        """What the output in the making has so far, for `back`, which takes back what came after it."""
        return dict(self.here.uses), dict(self.here.changes), dict(self.here.imports)

    def back(self, mark: Mark) -> None:
        self.here.uses, self.here.changes, self.here.imports = mark

    def hole(self, site: Site, node: Node, kind: str, why: str, candidates: Iterable[Typed] = ()) -> CannotGo:
        stop = self.stop(site.place, node, kind, why)
        hole = self.holes.setdefault(str(site.place), stop.causes[0])
        texts = [self.full_text(there, tree) for there, tree in candidates]
        hole.candidates = list(dict.fromkeys(hole.candidates + texts))
        return stop

    def stop(self, place: Place, node: Node, kind: str, why: str, ends: bool = False) -> CannotGo:
        """Why a part can't go. A part that is lowered again, as at another depth of a recursion, with other parameters
        or into a module beside, has the cause that it had."""
        return CannotGo([self.once.setdefault((place, kind, why), Change(place, node, kind, why))], ends)

    def unless_left_out(self, site: Site, node: Node, fixed: str, make: Callable[[], Lowered]) -> Lowered | CannotGo:
        """What is made of a part; or why it is left out, where nothing says that it has to be there (`fixed`)."""
        mark, place, leaves = self.mark(), str(site.place), site.free and self.bindings.leaves_out(site.place)
        try:
            if leaves:
                raise self.stop(site.place, node, "left-out", "the bindings leave it out")
            if spelled(place) in self.refused:
                raise self.stop(site.place, node, "limit", self.refused[spelled(place)])
            return make()
        except CannotGo as stop:
            self.back(mark)
            if fixed and leaves:
                raise self.bindings.fault(site.place, fixed) from stop
            if fixed or not site.free or not (stop.ends or self.leave_out or leaves):
                raise
            if not stop.ends:
                self.left.setdefault(place, {}).update(dict.fromkeys(stop.causes))
            for cause in stop.causes:
                cause.takes[place] = None
            return stop


def settings(held: Definition, span: Span) -> dict[str, Span] | None:
    """What an object in braces says of each field, by the default syntax or by that of its class."""
    source, a, b = span
    reader, found = Reader(source, a), dict[str, Span]()
    if source.tokens[a + 1].text[:1] == "&":
        return dict(reader.listed(lambda: (reader.next(), (source, *reader.skip_to(",", "}")))))
    reader.at += 1
    try:
        if held.syntax is not None:
            match(Reader(held.source, held.syntax[0] + 1), held.syntax[1] - 1, held.fields, reader, found)
    except Fault:
        return None
    return found if reader.at == b - 1 else None


def match(rule: Reader, end: int, fields: dict[str, ClassField], reader: Reader, found: dict[str, Span]) -> None:
    """Reads settings by the syntax of a class, up to a token of that; a Fault where they don't follow it."""
    while rule.at < end:
        text, begin, (a, b) = rule.text(), reader.at, rule.skip_braces()
        if text == "[":
            tried = dict[str, Span]()
            try:
                match(Reader(rule.source, a + 1), b - 1, fields, reader, tried)
                found |= tried
            except Fault:
                reader.at = begin
        elif text[:1] == "&":
            field, in_braces = fields.get(text), reader.text() == "{"
            if field is None or field.kind == "set" and not in_braces:
                raise reader.fault(f"there is no setting of {text}")
            (reader.type if field.kind == "type" else reader.skip_braces if in_braces else reader.value)()
            found[text] = (reader.source, begin, reader.at)
        else:
            reader.need(text)
