"""Lowers definitions and types, each by its form: references, holes, tags, simple types, components, lists."""

import re
from collections.abc import Callable
from dataclasses import replace
from typing import Any

from bindings import LEAVE_OUT
from job import LOOSER, NEITHER, SAME, TIGHTER, CannotGo, Lowered, NoValue, Output, Scope, Site, strip
from library import spelled
from reading_modules import Reader, type_at
from structures import WHY_EXPLICIT, Parts, Structures, brace_list
from tokens import TIMES, Edit, Fault, unquoted
from tree import Constrained, Constraint, Element, Item, ListOf, Node, Plain, Reference, Selection
from tree import Set, Structure, Tagged, Type, Value
from values import LARGEST, LEAST, OUTSIDE, Sizes, Work, union

OPEN = ("ANY", "INSTANCE OF")
WIDE = {"BMPString": 2, "UniversalString": 4}
DER_TIMES = {"UTCTime": r"\d{12}Z", "GeneralizedTime": r"\d{14}(\.\d*[1-9])?Z"}
FORMS = dict.fromkeys(TIMES, "VisibleString") | {
    "UTCTime": 'VisibleString (SIZE (13)) (FROM ("0".."9" | "Z"))',
    "GeneralizedTime": 'VisibleString (SIZE (15..MAX)) (FROM ("0".."9" | "." | "Z"))',
    "OID-IRI": "UTF8String",
    "RELATIVE-OID-IRI": "UTF8String",
    "RELATIVE-OID": "OCTET STRING (SIZE (1..MAX))",
    "EXTERNAL": "SEQUENCE {direct-reference OBJECT IDENTIFIER OPTIONAL, indirect-reference INTEGER OPTIONAL, "
    "encoding CHOICE {octet-aligned [1] IMPLICIT OCTET STRING, arbitrary [2] IMPLICIT BIT STRING}} "
    "(WITH COMPONENTS {..., direct-reference PRESENT} | WITH COMPONENTS {..., indirect-reference PRESENT})",
}
CLOSED = "closed: items that aren't declared are refused"
NATURAL = {
    "BOOLEAN": 1, "INTEGER": 2, "BIT STRING": 3, "OCTET STRING": 4, "NULL": 5, "OBJECT IDENTIFIER": 6, "ENUMERATED": 10,
    "UTF8String": 12, "SEQUENCE": 16, "SET": 17, "NumericString": 18, "PrintableString": 19, "IA5String": 22,
    "VisibleString": 26, "ISO646String": 26,
}  # fmt: skip
Tags = set[tuple[str, int]]


class Job(Structures):
    def definition(self, out: Output, scope: Scope) -> Lowered:
        """The text after the definition's name."""
        node, site = out.origin, Site(out.place)
        if out.place in self.given and node.kind != "value":
            return Lowered(f" ::= {self.given[out.place]}")
        if node.type is None or node.kind == "type" and not self.library.is_type(node):
            why = node.unread.why if node.unread else f"{node.name} is a class or a macro"
            raise self.stop(out.place, node, "unread", why)
        if node.name in node.module.twice:
            raise self.stop(out.place, node.module.twice[node.name], "text", f"{node.name} is defined twice")
        lowered = self.type(scope, node.type, Site(out.place, free=node.kind != "value"))
        start, edits = node.type.a - 1, [node.type.by(lowered.text)]
        if node.kind == "set":
            try:
                reader = Reader(node.source, node.body[0] + 1)
                held = reader.set_with_mark()
                reader.need("}")
            except Fault as fault:
                node.unread = fault
                raise self.stop(out.place, node, "unread", fault.why) from fault
            text = Work(self, scope, (scope, node.type), site).of((scope, node.type)).whole(held, node)
            self.note(site, node, "expansion", "a value set is a constrained type")
            return Lowered(f" ::= {lowered.text}{'' if text is None else f' ({text})'}", lowered.choice)
        if node.value is not None:
            start += 1
            try:
                edits.append(node.value.by(self.value(scope, node.value, (scope, node.type))))
            except NoValue as stop:
                raise self.stop(out.place, node, "value", str(stop)) from stop
        return Lowered(node.source.tokens[start].space + node.source.emit(start, node.b, edits), lowered.choice)

    def type(self, scope: Scope, node: Type, site: Site) -> Lowered:
        """A type's text in the module that is written."""
        if site.free and site.place in self.given:
            return Lowered(self.given[site.place])
        if isinstance(node, Tagged):
            return self.tagged(scope, node, site)
        if site.free and (bound := self.bound(scope, node, site)):
            return bound
        site = site._replace(free=False)
        by_another = isinstance(node, Reference) and (node.fields or scope.actual(node.name, node.module))
        substitute = self.substitute(scope, node, site) if site.implicit and not by_another else None
        return substitute or BY_FORM[type(node)](self, scope, node, site)

    def constrained(self, scope: Scope, node: Constrained, site: Site) -> Lowered:
        if self.is_open(scope, node.inner):
            match node.constraints:
                case [Constraint(root=Set(unions=[[Element(type=Type() as held, minus=None)]]))]:
                    self.note(site, node, "expansion", "an open type that holds values of one type alone")
                    return self.type(scope, held, Site(site.place, free=False))
            raise self.open_type(scope, node, site)
        lowered, governor = self.type(scope, node.inner, site), (scope, node.inner)
        edits = [node.inner.by(lowered.text + self.rooted_parent(governor, site))]
        for c in node.constraints:
            edits.append(c.by(self.constraint(scope, c, governor, site, c is not node.constraints[-1])))
        return Lowered(node.emit(*edits), lowered.choice)

    def reference(self, scope: Scope, node: Reference, site: Site) -> Lowered:
        if node.fields:
            return self.field(scope, node, site)
        if actual := scope.actual(node.name, node.module):
            if (tree := type_at(actual.span)) is None:
                raise self.stop(site.place, node, "parameters", f"what stands for {node.name} is no type")
            return self.portable(actual.scope, tree, site, f"{self.here.origin.name}-{node.name}")
        if isinstance(definition := self.library.find(scope.module, node.name, node.module), str):
            raise self.hole(site, node, "missing", definition)
        if node.module is not None:
            self.note(site, node, "import", "an import in place of a module's name", new=definition.name)
        elif node.name not in scope.module.named and node.name not in scope.module.imported:
            why = f"the module doesn't have the name: taken from {definition.module.name}"
            self.note(site, node, "import", why, SAME, definition.name, node.name)
        wanted, given = len(definition.parameters or []), len(node.arguments or [])
        if node.arguments is not None and wanted != given:
            raise self.stop(site.place, node, "parameters", f"{definition.name} has {wanted} parameters, not {given}")
        there = self.entered(scope, node, definition)
        if 0 <= there.group == scope.group:
            depth = self.bindings.depth_of(self.recursion.members[there.group], self.recursion.depth)
            if there.level > depth:
                why = f"{definition.name} is written out {scope.level} times inside itself"
                raise self.stop(site.place, node, "recursion", why, True)
            if there.level > scope.level:
                why, name = f"a recursion, written out to the depth {depth}", f"{definition.name}-{there.level}"
                self.note(site, node, "recursion", why, TIGHTER, name)
        out = self.output(definition, there)
        if node.arguments is not None:
            self.note(site, node, "expansion", "the parameters are written out", new=out.name)
        return Lowered(self.refer(out), out.choice)

    def field(self, scope: Scope, node: Reference, site: Site) -> Lowered:
        if (found := self.class_field(scope, node)) is None:
            raise self.hole(site, node, "missing", f"{node.text()} isn't known")
        if isinstance(found, str):
            raise self.open_type(scope, node, site)
        self.note(site, node, "expansion", "the type of the field is written out")
        return self.portable(*found, site, f"{node.name}-{node.fields[-1][1:]}")

    def selection(self, scope: Scope, node: Selection, site: Site) -> Lowered:
        there, base, _ = self.base(scope, node.inner)
        if isinstance(base, Structure) and base.word == "CHOICE":
            for number, item in enumerate(base.items):
                if item.name == node.alternative:
                    self.note(site, node, "expansion", "the alternative's type is written out", new=item.type.text())
                    held = self.portable(there, item.type, site, f"{node.inner.text()}-{item.name}")
                    mode = "EXPLICIT" if self.has_no_tag(there, item.type) else "IMPLICIT"
                    return Lowered(f"[{number}] {mode} {held.text}") if self.is_automatic(there, base) else held
        raise self.hole(site, node, "selection", f"{node.text()}: there is no such alternative")

    # what stands in a hole

    def open_type(self, scope: Scope, node: Type, site: Site) -> CannotGo:
        why = f"{strip(node).text()} holds a value of any type"
        return self.hole(site, node, "open", why, self.candidates(scope, node))

    def bound(self, scope: Scope, node: Type, site: Site) -> Lowered | None:
        if (binding := self.bindings.at(site.place)) is None:
            return None
        if binding == LEAVE_OUT:
            raise self.bindings.fault(site.place, "nothing can be left out here")
        types = [self.bindings.parsed(site.place, text) for text in binding]
        mark, why = self.bound_mark(scope, node, types)
        inside = Scope(site.place.definition.module, scope.actuals, scope.level, scope.group)
        lowered = self.alternatives(inside, types, site._replace(free=False))
        self.hole(site, node, "open", "a type of the bindings stands here", self.candidates(scope, node))
        self.note(site, node, "bound", why, mark, " | ".join(binding))
        return lowered

    def bound_mark(self, scope: Scope, node: Type, types: list[Type]) -> tuple[str, str]:
        """How a type of the bindings compares with what stood in its place."""
        if not self.is_open(scope, node):
            return NEITHER, "the author's type stands here, and nothing compares it with the original"
        if (table := self.table_of(scope, node)) is None:
            if isinstance(node, Constrained):
                return NEITHER, "the constraints of the open type aren't judged"
            return TIGHTER, "the author's type in place of any type"
        found, name = table
        if found and all(one == "..." for one in found):
            return TIGHTER, "the author's type in place of any type: the object set is empty and extensible"
        is_complete = all(one == "..." or isinstance(one, tuple) and name in one[1] for one in found)
        theirs = {self.meant(there, tree) for there, tree in self.candidates(scope, node)}
        if is_complete and len(types) == 1 and theirs == {self.meant(scope, types[0])}:
            return TIGHTER if "..." in found else SAME, "the type of each object that is declared"
        return NEITHER, "which type goes with which object isn't judged"

    def alternatives(self, scope: Scope, types: list[Type], site: Site) -> Lowered:
        """The type of the bindings for a hole; a CHOICE where there is more than one."""
        if len(types) == 1:
            return self.type(scope, types[0], site)
        seen: dict[tuple[str, int], str] = {}
        for tree in types:
            text, tags = self.full_text(scope, tree), self.first_tags(scope, tree)
            why = f"those of {text} aren't known" if tags is None else ""
            for kind, number in seen.keys() & (tags or set()):
                why = f"{seen[kind, number]} and {text} begin with [{f'{kind} {number}'.strip()}]"
                why += "; bind one type, and lower once for each in a folder of its own"
            if why:
                raise self.bindings.fault(site.place, f"the tags of the alternatives have to differ: {why}")
            seen |= dict.fromkeys(tags or (), text)
        if site.implicit:
            raise self.bindings.fault(site.place, "an implicit tag is here, and a CHOICE can't have one")

        def make() -> Lowered:
            parts: dict[str, str] = {}
            for tree in types:
                inner = tree
                while isinstance(inner, Tagged | Constrained):
                    inner = inner.inner
                words = [token.text for token in inner.source.tokens[inner.a : inner.b] if token.text[:1].isalpha()]
                name = spelled(inner.name) if isinstance(inner, Reference) else "-".join(words[:2]).lower()
                name = name[0].lower() + name[1:]
                name = name if name not in parts else f"{name}-{len(parts) + 1}"
                parts[name] = self.portable(scope, tree, Site(site.place, free=False), name).text
            return Lowered(f"CHOICE {{{', '.join(f'{name} {text}' for name, text in parts.items())}}}", True)

        return self.aside(make, site, "Alternatives")

    def first_tags(self, scope: Scope, node: Type) -> Tags | None:
        """The tags that a type can begin with; None where they aren't known."""
        there, base, _ = self.base(scope, node, tags=False)
        if isinstance(base, Tagged):
            return {(base.kind, self.number(there, base.number))}
        if isinstance(base, Structure) and base.word == "CHOICE":
            if self.is_automatic(there, base):
                return {("", number) for number in range(len(base.items))}
            tags = [self.first_tags(there, item.type) for item in base.items]
            return None if None in tags else {tag for held in tags for tag in held or ()}
        return {("UNIVERSAL", NATURAL[base.word])} if base.word in NATURAL else None

    def needed_number(self, scope: Scope, value: Value, site: Site, node: Node) -> int:
        try:
            return self.number(scope, value)
        except NoValue as stop:
            raise self.stop(site.place, node, "number", str(stop)) from stop

    # tags

    def tagged(self, scope: Scope, node: Tagged, site: Site) -> Lowered:
        """A tag of the class UNIVERSAL goes where another tag replaces it, or where it is the type's own."""
        number, explicit = self.needed_number(scope, node.number, site, node), self.is_explicit(scope, node)
        edits = self.renumbered(node.number, node, site, number)
        if node.kind == "UNIVERSAL":
            _, base, _ = self.base(scope, node.inner, tags=False)
            if explicit or not (site.implicit or NATURAL.get(base.word) == number):
                raise self.hole(site, node, "universal", f"the tag [UNIVERSAL {number}] is the standard's own")
            self.note(site, node, "text", "the tag isn't sent, or is the type's own", old=f"[UNIVERSAL {number}]")
            return self.type(scope, node.inner, site)
        if node.kind == "CONTEXT":
            edits.append((node.number.a - 1, node.number.a, ""))
        held = self.type(scope, node.inner, Site(site.place, not explicit, site.free))
        text, mode = held.text, "EXPLICIT" if explicit else "IMPLICIT"
        read_as = held.choice or self.here.module.default == "EXPLICIT"
        if not node.mode and read_as != explicit:
            text = f"{mode} {text}"
            why = WHY_EXPLICIT if explicit else "what the tag is has to be written here"
            self.note(site, node, "automatic-tags", why, new=mode, old="")
        elif explicit and node.mode == "IMPLICIT":
            why = "no implicit tag can stand here, so the word has no meaning: EXPLICIT is what compilers take it for"
            self.note(site, node, "tag", why, NEITHER, mode, node.mode)
            edits.append((node.number.b + 1, node.number.b + 2, mode))
        return Lowered(node.emit(*edits, node.inner.by(text)))

    def portable(self, scope: Scope, node: Type, site: Site, name: str) -> Lowered:
        """A type's text for a module other than the one that it was written in."""
        inner = strip(node)
        is_simple = isinstance(inner, Reference) or isinstance(inner, Plain) and not inner.items
        if scope.module is self.here.module or is_simple:
            return self.type(scope, node, site)
        if not isinstance(node, Tagged):
            return self.helper(scope, node, site, name)
        mode = "EXPLICIT" if self.is_explicit(scope, node) else "IMPLICIT"
        number = self.needed_number(scope, node.number, site, node)
        held = self.portable(scope, node.inner, Site(site.place, mode == "IMPLICIT", site.free), name)
        kind = f"{node.kind} " if node.kind not in ("", "CONTEXT") else ""
        return Lowered(f"[{kind}{number}] {mode} {held.text}")

    # types by their words

    def plain(self, scope: Scope, node: Plain, site: Site) -> Lowered:
        if node.word in OPEN:
            raise self.hole(site, node, "open", f"{node.word} holds a value of any type")
        if node.word in OUTSIDE:
            raise self.hole(site, node, OUTSIDE[node.word], f"{node.word} under its universal tag isn't in the profile")
        if node.word == "ISO646String":
            self.note(site, node, "string", "another name of the same type", new="VisibleString")
            return Lowered("VisibleString")
        held = [(item, item.number) for item in node.items if item.number is not None]
        written = {item: self.needed_number(scope, number, site, item) for item, number in held}
        numbers = self.closed_numbers(scope, node, site, written) if node.word == "ENUMERATED" else {}
        return Lowered(self.names_of(node, site, written, numbers))

    def closed_numbers(self, scope: Scope, node: Plain, site: Site, written: dict[Item, int]) -> dict[Item, int]:
        """The numbers of items (X.680 20), also of those after `...`; none where closing leaves all as they are."""
        items = [item for item in node.items if item.name]
        marks = [k for k, item in enumerate(node.items) if not item.name]
        if not items:
            raise self.hole(site, node, "empty", "the ENUMERATED has no items")
        if not marks and scope.module.implied:
            self.note(site, node, "extension-mark", CLOSED, TIGHTER, old="EXTENSIBILITY IMPLIED")
        additions = node.items[marks[0] + 1 : marks[1] if len(marks) > 1 else None] if marks else []
        root = [item for item in items if item not in additions]
        used = {written[item] for item in root if item in written}
        following = (n for n in range(10**6) if n not in used)
        meant = written | {item: next(following) for item in root if item not in written}
        used, least = {meant[item] for item in root}, 0
        for item in additions:
            if item not in meant:
                meant[item] = next(n for n in range(least, 10**6) if n not in used)
            least = max(least, meant[item] + 1)
        following = (n for n in range(10**6) if n not in written.values())
        if all(meant[item] == (written[item] if item in written else next(following)) for item in items):
            return {}
        self.note(site, node, "enumeration", "numbers are written, as closing would change them")
        return meant

    def names_of(self, node: Plain, site: Site, written: dict[Item, int], numbers: dict[Item, int]) -> str:
        """A type with its list of names, numbers as numbers and without `...`. A named number or bit goes where the
        guard wouldn't take it: a second of its name or number, or a large one."""
        parts, seen = Parts(), set[str | int | None]()
        for item in node.items:
            number, name, text = written.get(item), spelled(item.name), ""
            is_large = number is not None and not LEAST <= number <= (65_535 if node.word == "BIT STRING" else LARGEST)
            is_needless = is_large or number is not None and bool(seen & {name, number})
            if not item.name:
                self.note(site, item, "extension-mark", CLOSED, TIGHTER, old="...")
            elif is_needless and node.word != "ENUMERATED":
                self.dropped.add(item)
                self.note(site, item, "number", "a name says nothing of messages, and the guard doesn't take this one")
            else:
                seen |= {name, number}
                edits = self.renamed(item, site, name[0].lower() + name[1:])
                if item.number is not None and number is not None:
                    edits += self.renumbered(item.number, item, site, number)
                text = item.emit(*edits) + (f"({numbers[item]})" if item in numbers and not item.number else "")
            parts[item.a] = (item.b, text)
        brace = next((k for k in range(node.a, node.b) if node.source.tokens[k].text == "{"), node.b)
        has_parts = any(text for _, text in parts.values())
        return brace_list(node, brace, parts) if has_parts else node.source.emit(node.a, brace)

    def renumbered(self, value: Value, node: Node, site: Site, number: int) -> list[Edit]:
        if (written := value.text().replace(" ", "")) == str(number):
            return []
        self.note(site, node, "number", "the profile has no references here", new=str(number), old=written)
        return [value.by(str(number))]

    def substitute(self, scope: Scope, node: Type, site: Site) -> Lowered | None:
        """What holds the contents of a type that is outside the profile, where an implicit tag hides its own."""
        way = list(self.way(scope, node, tags=False))
        word = way[-1][1].word
        if not (kind := OUTSIDE.get(word, "")) or kind == "external" and word != "EXTERNAL":
            return None
        parts = [(there, part) for there, part, _ in reversed(way) if isinstance(part, Constrained)]
        held = [(there, constraint) for there, part in parts for constraint in part.constraints]
        text = FORMS.get(word, "OCTET STRING")
        if kind == "external":
            why = "EXTERNAL as its SEQUENCE, without a descriptor and without a single type"
            self.note(site, node, kind, why, NEITHER if held else TIGHTER, text)
            return self.aside(lambda: Lowered(text), site, "External")
        lost, has_values, width = list[str](), False, WIDE.get(word, 0)
        for there, c, part in ((at, c, part) for at, c in held for part in intersected(c.root)):
            rooted = c is not held[-1][1]
            values = "" if c.marked else self.contents(there, part, word)
            sizes = self.sizes(there, part, rooted) if kind == "string" and not c.marked else None
            limits = octet_sizes(sizes, width) if sizes else ""
            if limits and not rooted and "..." in part.text():
                self.note(site, part, "extension-mark", "closed: other sizes are refused", TIGHTER)
            text = "VisibleString" if values and kind == "time" and not has_values else text
            text += f" ({values})" if values else limits
            has_values = has_values or bool(values)
            lost += [] if values or sizes and width else [(c if c.marked else part).text()]
        mark, why = LOOSER, f"all contents that {word} can have, and others"
        if has_values and not lost:
            mark, why = SAME, "the contents of these values"
        why += f"; kept in part or not at all: {', '.join(lost)}" if lost else ""
        self.note(site, node, "time" if kind == "time" else "string", why, mark, text)
        return Lowered(text)

    def contents(self, scope: Scope, node: Set, word: str) -> str:
        """A set of single values as octets, or as times in the form of DER; nothing where it isn't such a set."""
        try:
            values = [self.string(scope, part.values[0]) if part.form == "single" else "" for part in union(node)]
        except NoValue:
            return ""
        texts = [unquoted(value) for value in values]
        if word in DER_TIMES:
            return " | ".join(values) if all(re.fullmatch(DER_TIMES[word], text) for text in texts) else ""
        is_known = word in WIDE and all(value[:1] == '"' for value in values)
        if not is_known or any(ord(c) >= 256 ** WIDE[word] for text in texts for c in text):
            return ""
        return " | ".join(f"'{''.join(f'{ord(c):0{2 * WIDE[word]}X}' for c in text)}'H" for text in texts)


BY_FORM: dict[type[Type], Callable[[Job, Scope, Any, Site], Lowered]] = {
    Constrained: Job.constrained, Structure: Job.structure, ListOf: Job.list_of,
    Plain: Job.plain, Selection: Job.selection, Reference: Job.reference,
}  # fmt: skip


def intersected(node: Set) -> list[Set]:
    """The parts of an intersection that is the whole of a set, each as a set of its own."""
    parts = node.unions[0] if len(node.unions) == 1 else []
    ends = [(part, (part.minus or part).b) for part in parts]
    return [replace(node, a=part.a, b=end, unions=[[part]]) for part, end in ends] or [node]


def octet_sizes(sizes: Sizes, width: int) -> str:
    """SIZE in octets where it was in characters; of strings with escapes only the least length is kept."""
    least = min(low for low, _ in sizes)
    if not width:
        return f" (SIZE ({least}..MAX))" if least > 0 else ""
    parts = [f"{width * low}..{'MAX' if high is None else width * high}" for low, high in sizes]
    if all(high is not None and high - low < 8 for low, high in sizes):
        parts = [str(width * count) for low, high in sizes for count in range(low, (high or 0) + 1)]
    return f" (SIZE ({' | '.join(parts)}))"
