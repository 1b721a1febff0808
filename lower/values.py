"""Lowers values (X.680 17, 32, 41) and constraints (X.680 49 to 51, X.682)."""

from __future__ import annotations

import re
from collections.abc import Callable
from contextlib import suppress
from dataclasses import dataclass, replace

from job import LOOSER, SAME, TIGHTER, CannotGo, NoValue, Scope, Site, Typed, reached
from library import item_named, spelled
from meaning import Outputs
from reading_modules import Reader, type_at
from tokens import STRINGS, TIMES, Edit, cut, quoted, unquoted
from tree import Constrained, Constraint, Element, ListOf, Node, Part, Plain, Reference, Set, Structure, Type, Value

Arcs = list[tuple[str, int]]
ITU_ARCS = ("recommendation", "question", "administration", "network-operator", "identified-organization")
ISO_ARCS = ("standard", "registration-authority", "member-body", "identified-organization")
WELL_KNOWN: dict[tuple[int, ...], dict[str, int]] = {
    (): {"itu-t": 0, "ccitt": 0, "itu-r": 0, "iso": 1, "joint-iso-itu-t": 2, "joint-iso-ccitt": 2},
    (0,): {name: number for number, name in enumerate(ITU_ARCS)},
    (0, 0): {chr(ord("a") + number): number + 1 for number in range(26)},
    (1,): {name: number for number, name in enumerate(ISO_ARCS)},
    (2,): {"ds": 5, "asn1": 1},
}
ALPHABETS = {
    "NumericString": "[0-9 ]*", "PrintableString": "[A-Za-z0-9 '()+,./:=?-]*", "IA5String": "[\\x00-\\x7f]*",
    "VisibleString": "[ -~]*", "ISO646String": "[ -~]*", "UTF8String": "[^\\n\\r]*",
}  # fmt: skip
LEAST, LARGEST = -(2**127), 2**127 - 1
LIMIT = "integers have 128 bits with their sign"
Sizes = list[tuple[int, int | None]]
NUMBER = Plain(source=cut("", "INTEGER"), a=0, b=1, word="INTEGER")
OUTSIDE = dict.fromkeys(STRINGS - ALPHABETS.keys(), "string") | dict.fromkeys(TIMES, "time")
OUTSIDE |= dict.fromkeys(("REAL", "RELATIVE-OID", "OID-IRI", "RELATIVE-OID-IRI"), "other")
OUTSIDE |= dict.fromkeys(("EXTERNAL", "EMBEDDED PDV", "CHARACTER STRING"), "external")
KINDS = dict.fromkeys(OUTSIDE, "outside") | dict.fromkeys(ALPHABETS, "string")
KINDS |= {"INTEGER": "number", "BIT STRING": "bits", "OCTET STRING": "bits"}
DROPPED = {"containing": "contents aren't looked into", "table": "tables aren't looked up"}


class Constraints(Outputs):
    def value(self, scope: Scope, node: Value, governor: Typed) -> str:
        """A value's text in the module that is written; NoValue where the profile has none."""
        there, base, _ = self.base(*governor)
        if node.form == "braces":
            return self.braces(scope, node, there, base)
        if node.form == "name":
            return self.named(scope, node, there, base)
        if node.form == "field":
            return self.value(*self.referred(scope, node), governor)
        if node.form == "chosen" and node.inner is not None:
            held = base.items if isinstance(base, Structure) and base.word == "CHOICE" else []
            for item in (item for item in held if item.name == node.name):
                return f"{spelled(node.name)} : {self.value(scope, node.inner, (there, item.type))}"
            raise NoValue(f"{node.name} is no alternative")
        fits = {
            "string": base.word in ALPHABETS and re.fullmatch(ALPHABETS[base.word], unquoted(node.text())),
            "word": base.word == ("NULL" if node.name == "NULL" else "BOOLEAN"),
            "number": base.word == "INTEGER",
            "bits": base.word in ("BIT STRING", "OCTET STRING"),
        }
        if not (fits.get(node.form) or node.form in fits and isinstance(base, Reference)):
            raise NoValue(f"{node.text()[:60]} is no value of the type")
        return within_limits(self.number(scope, node)) if node.form == "number" else node.text()

    def referred(self, scope: Scope, node: Value) -> tuple[Scope, Value]:
        """What a reference, a parameter or a field of an object stands for as a value, and its scope."""
        if node.form == "field":
            if not (setting := self.object_field(scope, node, node.source.tokens[node.b - 1].text)):
                raise NoValue(f"{node.text()} isn't known")
            return setting[0], Reader(*setting[1][:2]).value()
        if actual := scope.actual(node.name, node.module):
            return actual.scope, Reader(*actual.span[:2]).value()
        found = self.library.find(scope.module, node.name, node.module)
        if isinstance(found, str) or found.kind != "value" or found.value is None or found.type is None:
            raise NoValue(found if isinstance(found, str) else f"{node.name} is no value that can be written")
        return Scope(found.module, governor=found.type), found.value

    def followed(self, scope: Scope, node: Value) -> tuple[Scope, Value]:
        """What a value stands for where all references are followed; a named number is its number."""
        for _ in range(30):
            if node.form not in ("name", "field"):
                return scope, node
            there, base, _ = self.base(scope, scope.governor) if scope.governor is not None else (scope, None, None)
            item = item_named(base, node)
            scope, node = (there, item.number) if item and item.number else self.referred(scope, node)
        raise NoValue(f"{node.text()} contains itself")

    def number(self, scope: Scope, node: Value) -> int:
        _, found = self.followed(scope, node)
        if found.form != "number":
            raise NoValue(f"{node.text()} is no number")
        return int(found.text().replace(" ", ""))

    def string(self, scope: Scope, node: Value) -> str:
        """The string in quotes that a value is, MIN or MAX."""
        _, found = self.followed(scope, node)
        if found.form not in ("string", "braces", "word"):
            raise NoValue(f"{node.text()} is no string")
        return string_in_braces(found) if found.form == "braces" else found.text()

    def named(self, scope: Scope, node: Value, there: Scope, base: Type) -> str:
        if base.word in ("INTEGER", "ENUMERATED") and (item := item_named(base, node)):
            dropped = item.number if item in self.dropped else None
            return str(self.number(there, dropped)) if dropped else spelled(node.name)
        if base.word != "INTEGER":
            return self.value(*self.referred(scope, node), (there, base))
        found = within_limits(self.number(scope, node))
        definition = self.library.known(scope.module, node.name, node.module, "value")
        keeps_name = spelled(node.name) == node.name and node.name not in scope.actuals
        if definition and definition.module is self.here.module and keeps_name:
            with suppress(CannotGo):
                return self.refer(self.output(definition))
        return found

    def braces(self, scope: Scope, node: Value, there: Scope, base: Type) -> str:
        if base.word == "OBJECT IDENTIFIER":
            arcs, text = self.arcs(scope, node), node.text().replace(" ( ", "(").replace(" )", ")")
            if len(arcs) < 2:
                raise NoValue(f"{node.text()} has fewer than two arcs")
            if re.fullmatch(r"\{( (\d+|[a-z][A-Za-z0-9-]*\(\d+\)))+ \}", text):
                return node.emit()
            return "{" + " ".join(f"{name}({arc})" if name else str(arc) for name, arc in arcs) + "}"
        if base.word == "BIT STRING":
            words = [token.text for token in node.source.tokens[node.a + 1 : node.b - 1]]
            if any(word.isdigit() for word in words):
                raise NoValue(f"{node.text()} has bits by number")
            names = [spelled(word) for word in words if word[0].isalpha()]
            return "{" + ", ".join(name[0].lower() + name[1:] for name in names) + "}"
        if base.word.endswith("String"):
            return string_in_braces(node)
        if not isinstance(base, ListOf | Structure) or base.word == "CHOICE":
            raise NoValue(f"{node.text()[:60]} is no value of the profile")
        parts, walk = [], Reader(node.source, node.a + 1)
        _, gone = self.shapes.get((base, there), ({}, {}))
        while walk.at < node.b - 1:
            part, name = Reader(node.source, walk.skip_to(",", end=node.b - 1)[0]), ""
            walk.at += 1
            kind = base.inner if isinstance(base, ListOf) else None
            if isinstance(base, Structure):
                name = part.next()
                kind = next((item.type for item in base.items if item.name == name), None)
            if name in gone or kind is None:
                raise NoValue(f"{name} is left out" if kind else f"there is no component {name}")
            parts.append(f"{spelled(name)} {self.value(scope, part.value(), (there, kind))}".strip())
        return f"{{{', '.join(parts)}}}"

    def arcs(self, scope: Scope, node: Value, deep: int = 0) -> Arcs:
        """The arcs of an object identifier, with their names where they have one."""
        named_as, (scope, node) = node.name, self.followed(scope, node)
        if node.form == "number":
            return [(spelled(named_as), self.number(scope, node))]
        if node.form != "braces" or deep > 30:
            raise NoValue(f"{node.text()} is no object identifier")
        arcs, reader = Arcs(), Reader(node.source, node.a + 1)
        while reader.at < node.b - 1:
            word = reader.next()
            if reader.take("("):
                arcs.append((spelled(word) if word[0].islower() else "", self.number(scope, reader.value())))
                reader.need(")")
            elif word.isdigit():
                arcs.append(("", int(word)))
            else:
                known = WELL_KNOWN.get(tuple(arc for _, arc in arcs), {})
                is_defined = word in scope.actuals or not isinstance(self.library.find(scope.module, word), str)
                arc = reader.node(Value, reader.at - 1, form="name", name=word)
                by_standard = word in known and not is_defined
                arcs += [(word, known[word])] if by_standard else self.arcs(scope, arc, deep + 1)
        return arcs

    # constraints

    def constraint(self, scope: Scope, node: Constraint, governor: Typed, site: Site, rooted: bool = False) -> str:
        """A constraint's text; nothing where no part of it stays. With `rooted` additions after `...` don't count."""
        root = Work(self, scope, governor, site, rooted).of(governor).whole(node)
        is_plain = not node.bare and node.root.b == node.b - 1
        return "" if root is None else node.emit(node.root.by(root)) if is_plain else f"({root})"

    def rooted_parent(self, governor: Typed, site: Site) -> str:
        """The root of the constraint that a type ends with, where it has additions: they don't count in a type that is
        constrained further, nor in one that is contained (X.680 50.8)."""
        for scope, node, _ in self.way(*governor):
            match node:
                case ListOf(size=Constraint() as last) | Constrained(constraints=[*_, last]):
                    return f" {self.constraint(scope, last, (scope, node), site, True)}" if has_additions(last) else ""
        return ""

    def sizes(self, scope: Scope, node: Set, rooted: bool = False) -> Sizes | None:
        """The ranges of a set of numbers, None above for no limit; None where it isn't plain to see."""
        with suppress(NoValue):
            return [size for e in union(node) for size in self.element_sizes(scope, e, rooted)]
        return None

    def element_sizes(self, scope: Scope, node: Element, rooted: bool) -> Sizes:
        if node.form == "size" and node.constraint is not None:
            parts = union(node.constraint.root) + union(None if rooted else node.constraint.more)
            return [size for part in parts for size in self.element_sizes(scope, part, rooted)]
        known = {"MAX": None, "MIN": 0}
        ends = [known[v.name] if v.name in known else self.number(scope, v) for v in node.values]
        if not ends or "<" in node.marks or ends[0] is None:
            raise NoValue(f"{node.text()} is no range of sizes")
        return [(ends[0], ends[-1])]


@dataclass(frozen=True)
class Work:
    """Lowers the sets of values of one constraint of a type. In `exact` nothing may be left out."""

    job: Constraints
    scope: Scope
    governor: Typed
    site: Site
    rooted: bool = False
    exact: bool = False
    kind: str = ""

    def of(self, governor: Typed) -> Work:
        """What lowers constraints of another type."""
        there, base, _ = self.job.base(*governor)
        has_names = isinstance(base, Plain) and base.word == "BIT STRING" and base.items
        kind = "list" if isinstance(base, ListOf) else "named bits" if has_names else KINDS.get(base.word, "")
        return replace(self, governor=(there, base), kind=kind)

    def drop(self, node: Node, why: str, step: str = "constraint", mark: str = LOOSER) -> str | None:
        """Leaves a part out, which widens the type where no other mark is given."""
        if self.exact:
            raise NoValue(why)
        self.job.note(self.site, node, step, why, mark)
        return None

    def whole(self, held: Constraint, node: Node | None = None) -> str | None:
        """A set with the one after its `...`, closed: values that aren't declared are refused."""
        if held.marked and self.exact:
            raise NoValue("`...` in it")
        if held.marked:
            why = "closed: values that aren't declared are refused"
            self.job.note(self.site, node or held, "extension-mark", why, TIGHTER)
        sets = [held.root] + ([held.more] if held.more is not None and not self.rooted else [])
        texts = [text for text in map(self.set, sets) if text is not None]
        if len(texts) < len(sets):
            return None
        return texts[0] if len(sets) == 1 else " | ".join(f"({t})" if t.startswith("ALL") else t for t in texts)

    def set(self, node: Set) -> str | None:
        """The text of a set; None where nothing is left that restricts anything."""
        if node.all_except is not None:
            text = self.minus(node.all_except)
            return None if text is None else f"ALL EXCEPT {text}"
        edits, is_whole = list[Edit](), True
        for parts in node.unions:
            kept = [text for part in parts if (text := self.difference(part)) is not None]
            is_whole = is_whole and bool(kept)
            ends = [(part.a, (part.minus or part).b) for part in parts]
            if len(kept) == len(parts):
                edits += [(a, b, text) for (a, b), text in zip(ends, kept)]
            else:
                edits.append((ends[0][0], ends[-1][1], " ^ ".join(kept)))
        return node.emit(*edits) if is_whole else None

    def difference(self, node: Element) -> str | None:
        text, minus = self.element(node), self.minus(node.minus) if node.minus is not None else None
        if minus is None:
            return text
        return f"ALL EXCEPT {minus}" if text is None else f"{text} EXCEPT {minus}"

    def minus(self, node: Element) -> str | None:
        """What is excepted: it is left out as a whole where it can't be said exactly."""
        mark = self.job.mark()
        try:
            return replace(self, exact=True).element(node)
        except NoValue as stop:
            self.job.back(mark)
            return self.drop(node, f"EXCEPT is left out: {stop}")

    def element(self, node: Element) -> str | None:
        if node.form == "group" and node.group is not None:
            inner = self.set(node.group)
            return None if inner is None else node.emit(node.group.by(inner))
        if self.kind == "outside":
            return self.drop(node, "the type is outside the profile, and so is a constraint of it")
        if node.form == "dropped":
            is_empty = node.step == "table" and node.text().replace(" ", "").startswith("{...}")
            why = DROPPED.get(node.step, "the profile has no such constraint")
            return self.drop(node, why, node.step, SAME if is_empty else LOOSER)
        try:
            if node.form == "single":
                return self.job.value(self.scope, node.values[0], self.governor)
            lower: Callable[[Element], str | None] = getattr(self, f"{node.form}_element")
            return lower(node)
        except NoValue as stop:
            return self.drop(node, str(stop))

    def size_element(self, node: Element) -> str | None:
        if self.kind == "named bits" and node.constraint is not None:
            sizes = self.job.sizes(self.scope, node.constraint.root)
            mark = SAME if any(high is None for _, high in sizes or []) else LOOSER
            return self.drop(node, "trailing zeros of named bits count for nothing", "named-bits", mark)
        if self.kind not in ("string", "bits", "list"):
            return self.drop(node, "SIZE doesn't go with this type")
        return self.of((self.scope, NUMBER)).nested(node)

    def nested(self, node: Element) -> str | None:
        """An element by a constraint in parentheses that it holds."""
        assert node.constraint is not None
        inner = self.whole(node.constraint)
        return None if inner is None else f"{node.source.emit(node.a, node.constraint.a)} ({inner})"

    def from_element(self, node: Element) -> str | None:
        held, word = node.constraint, self.governor[1].word
        if self.kind != "string" or held is None:
            return self.drop(node, "FROM doesn't go with this type")
        texts: list[str] = []
        with suppress(NoValue):
            parts = union(held.root) + ([] if self.rooted else union(held.more))
            texts = [self.characters(part, word) for part in parts]
        if not texts or held.marked and self.exact:
            return self.drop(node, "the profile has FROM of strings and ranges alone")
        if held.marked:
            self.job.note(self.site, node, "extension-mark", "closed: others are refused", TIGHTER)
        return f"FROM ({' | '.join(texts)})"

    def characters(self, node: Element, kind: str) -> str:
        """A string or range of FROM, without characters that its type doesn't have anyhow."""
        if node.form not in ("single", "range") or "<" in node.marks:
            raise NoValue(f"{node.text()} is no string or range")
        ends = [self.job.string(self.scope, value) for value in node.values]
        text, alphabet = "..".join(ends), re.compile(ALPHABETS[kind])
        if ends[0] == "MIN" or ends[-1] == "MAX" or alphabet.fullmatch("".join(map(unquoted, ends))):
            return text
        first, last = unquoted(ends[0]), unquoted(ends[-1])
        if len(ends) == 2 and (len(first), len(last)) != (1, 1):
            raise NoValue(f"{node.text()} isn't a range of characters")
        found = "".join(map(chr, range(ord(first), ord(last) + 1))) if len(ends) == 2 else first
        return quoted("".join(c for c in found if alphabet.fullmatch(c)))

    def component_element(self, node: Element) -> str | None:
        scope, base = self.governor
        if not isinstance(base, ListOf) or (base, scope) in self.job.empty:
            mark = SAME if isinstance(base, ListOf) else LOOSER
            return self.drop(node, "WITH COMPONENT of a list that stays empty", mark=mark)
        return self.of((scope, base.inner)).nested(node)

    def components_element(self, node: Element) -> str | None:
        scope, base = self.governor
        if not isinstance(base, Structure) or (base, scope) not in self.job.shapes:
            return self.drop(node, "WITH COMPONENTS of a type that isn't known")
        parts = [text for part in node.parts if (text := self.part(part, base, scope, node.partial)) is not None]
        return f"WITH COMPONENTS {{{'..., ' if node.partial else ''}{', '.join(parts)}}}" if parts else None

    def part(self, node: Part, base: Structure, scope: Scope, partial: bool) -> str | None:
        """One component of WITH COMPONENTS; presence words go where the guard takes them alone."""
        (words, gone), name = self.job.shapes[base, scope], spelled(node.name)
        if node.name in gone:
            if node.word == "PRESENT" or not node.word and not partial:
                why = f"{node.name}, which is left out, has to be there"
                raise self.job.stop(self.site.place, node, "left-out", why)
            return None
        item = next((item for item in base.items if item.name == node.name), None)
        if node.name not in words or item is None:
            return self.drop(node, f"the type has no component {node.name}")
        held = self.inside(node.constraint, (scope, item.type)) if node.constraint is not None else ""
        presence = "CHOICE" if base.word == "CHOICE" else words[node.name]
        if presence == "OPTIONAL" or presence == "CHOICE" and node.word != "OPTIONAL":
            parts = [word for word in (name, held, node.word) if word]
            return " ".join(parts) if len(parts) > 1 or not partial else None
        if node.word:
            self.job.note(self.site, node, "presence", f"{node.name} isn't OPTIONAL", new=name)
        if presence == "DEFAULT" and node.word in ("PRESENT", "ABSENT") and item.default is not None:
            try:
                value = self.job.value(scope, item.default, (scope, item.type))
                held += f" ({value})" if node.word == "ABSENT" else f" (ALL EXCEPT {value})"
            except NoValue as stop:
                self.drop(node, f"{node.name} has a default that can't be written: {stop}", "presence")
        return f"{name} {held.strip()}".strip() if held or not partial else None

    def inside(self, node: Constraint, governor: Typed) -> str:
        """The constraint of a component, which leaves additions of its type out."""
        if self.exact:
            text = replace(self.of(governor), rooted=False).whole(node)
            return "" if text is None else f"({text})"
        held = self.job.constraint(self.scope, node, governor, self.site)
        parent = self.job.rooted_parent(governor, self.site).strip()
        return f"({parent} ^ {held})" if parent and held else parent or held

    def range_element(self, node: Element) -> str | None:
        """A range of numbers; an end beyond the guard's integers is as good as none."""
        (low, high), (there, base) = node.values, self.governor
        if self.kind != "number" or "<" in node.marks and (low.name == "MIN" or high.name == "MAX"):
            return self.drop(node, "the profile has no such range")
        edits: list[Edit] = []
        for value in (value for value in node.values if value.form != "word"):
            item = item_named(base, value)
            number = self.job.number(there, item.number) if item and item.number else self.job.number(self.scope, value)
            if text := "MAX" if number > LARGEST else "MIN" if number < LEAST else "":
                self.job.note(self.site, value, "limit", LIMIT, TIGHTER, text)
            edits.append(value.by(text or self.job.value(self.scope, value, self.governor)))
        return node.emit(*edits)

    def type_element(self, node: Element) -> str | None:
        held, job = node.type, self.job
        assert held is not None
        is_name = isinstance(held, Reference)
        if is_name and held.name in self.scope.actuals and held.module is None:
            return self.dummy(node, held.name)
        if is_name and held.fields:
            return self.drop(node, DROPPED["table"], "table")
        (there, base), (its, inner, _) = self.governor, job.base(self.scope, held)
        same = inner is base and (its is there or isinstance(base, Plain))
        if isinstance(inner, Plain) and isinstance(base, Plain) and base.word not in ("ENUMERATED", "BIT STRING"):
            same = inner.word == base.word
        if not same:
            return self.drop(node, "the type in it is made otherwise than the type that it constrains")
        try:
            if is_name and held.arguments is None:
                text = job.type(self.scope, held, Site(self.site.place, free=False)).text
            else:
                text = job.helper(self.scope, held, self.site, f"{self.site.place.definition.name}-Contained").text
        except CannotGo as stop:
            return self.drop(node, f"the type in it can't go: {stop}")
        used = reached(out for out in job.here.uses if out.name == text) if self.exact else []
        if any(change.mark != SAME for out in used for change in out.changes.values()):
            raise NoValue(f"{text} isn't the same as in the original")
        root = job.rooted_parent((self.scope, held), self.site)
        text = node.emit(held.by(text))
        return f"({text} ^{root})" if root else text

    def dummy(self, node: Element, name: str) -> str | None:
        """A dummy parameter in a constraint: a set of values, or a type."""
        governor, (source, a, b), scope = self.scope.actuals[name]
        if self.job.governs(self.scope, governor) is not None:
            return self.drop(node, DROPPED["table"], "table")
        inside, reader, tree = replace(self, scope=scope, rooted=False), Reader(source, a), type_at((source, a, b))
        if reader.take("{"):
            held = inside.whole(reader.set_with_mark(), node)
            return None if held is None else f"({held})"
        if tree is None:
            return self.drop(node, f"what stands for {node.text()} isn't known")
        return inside.type_element(Element(source=source, a=a, b=b, form="type", type=tree))


def union(node: Set | None) -> list[Element]:
    """The elements of a union that has no other parts; groups are looked into."""
    unions = node.unions if node is not None else []
    if node is not None and node.all_except or any(len(parts) > 1 or parts[0].minus for parts in unions):
        raise NoValue("it isn't plain to see what the set has")
    return [part for parts in unions for part in (union(parts[0].group) if parts[0].form == "group" else parts)]


def has_additions(node: Constraint) -> bool:
    """Whether a constraint has values after `...`, also in a SIZE or FROM."""
    parts = [part for union in node.root.unions for part in union]
    parts += [part for e in parts if e.group is not None for union in e.group.unions for part in union]
    inner = [e.constraint for e in parts if e.form in ("size", "from") and e.constraint is not None]
    return node.more is not None or any(map(has_additions, inner))


def within_limits(number: int) -> str:
    if not LEAST <= number <= LARGEST:
        raise NoValue(LIMIT)
    return str(number)


def string_in_braces(node: Node) -> str:
    """The string in quotes that strings and characters by number make (X.680 41.8): {4, 1} and {0, 0, 0, 65} are A."""
    text, numbers = "", list[int]()
    for word in (token.text for token in node.source.tokens[node.a : node.b]):
        code = 32
        if word[0] == '"':
            text += unquoted(word)
        elif word.isdigit():
            numbers.append(int(word))
        elif word == "}" and numbers:
            in_table = 16 * numbers[0] + numbers[-1] if len(numbers) == 2 else 0
            code = numbers[-1] if numbers[:-1] == [0, 0, 0] else in_table
            text, numbers = text + (chr(code) if code < 127 else ""), []
        if word[0].isalpha() or not 32 <= code < 127:
            raise NoValue(f"{node.text()[:60]} has no notation in quotes")
    return quoted(text)
