"""Lowers SEQUENCE, SET, CHOICE and lists (X.680 25 to 30)."""

import re
from dataclasses import dataclass
from functools import partial

from job import LOOSER, NEITHER, TIGHTER, CannotGo, Change, Lowered, NoValue, Place, Scope, Site
from library import spelled
from tokens import Edit, has_comment
from tree import Component, ListOf, Node, Reference, Structure, Tagged
from values import Constraints

WHY_EXPLICIT = (
    "a tag before a parameter or an open type is EXPLICIT (X.680 31.2.7), though some compilers take it for IMPLICIT"
)
Parts = dict[int, tuple[int, str]]
MOST_VERSIONS = 12


@dataclass(eq=False)
class Entry:
    """A component as it goes out, where it has a text. `tag` is what automatic tagging gives it, `wraps` whether that
    is explicit, `whole` a COMPONENTS OF that stays, `holder` what has its place in the list."""

    item: Component
    scope: Scope
    place: Place
    holder: Component
    tag: int | None = None
    foreign: bool = False
    whole: bool = False
    wraps: bool = False
    version: int = 0
    text: str = ""
    choice: bool = False

    @property
    def mandatory(self) -> bool:
        return self.version > 0 and not self.item.presence


class Structures(Constraints):
    def structure(self, scope: Scope, node: Structure, site: Site) -> Lowered:
        """A group of additions in brackets is a version, and so is each addition outside."""
        automatic, before = self.is_automatic(scope, node), self.mark()
        entries = self.expanded(scope, node, site, automatic)
        version, group = 0, 0
        for entry in (entry for entry in entries if entry.holder.markers == 1 and node.word != "CHOICE"):
            version += not entry.holder.group or entry.holder.group != group
            entry.version, group = version, entry.holder.group
        if automatic:
            number_entries(entries)
        if node.marks or scope.module.implied:
            mark, old = (node.marks[0], "...") if node.marks else (node, "EXTENSIBILITY IMPLIED")
            self.note(site, mark, "extension-mark", "closed: what isn't declared is refused", TIGHTER, old=old)
        presence, gone = self.shapes[node, scope] = dict[str, str](), dict[str, list[Change]]()
        ended = self.lower_entries(node, gone, entries)
        kept = [entry for entry in entries if entry.text]
        if node.word == "CHOICE" and not kept:
            empty = self.stop(site.place, node, "empty", "no alternative of the CHOICE stays").causes
            raise CannotGo(empty + [cause for causes in gone.values() for cause in causes], ended)
        bare = all(entry.whole or entry.tag is None and not entry.text.startswith("[") for entry in kept)
        if not automatic and self.here.module.default == "AUTOMATIC" and kept and bare:
            self.back(before)
            return self.aside(lambda: self.structure(scope, node, site), site, "List")
        write = self.writes_tags(node, site, automatic, entries)
        texts: dict[int, list[str]] = {}
        for entry in kept:
            texts.setdefault(entry.holder.a, []).append(self.entry_text(entry, write))
            if not entry.whole:
                presence[entry.item.name] = entry.item.presence or ("OPTIONAL" if entry.version else "")
        parts: Parts = {item.a: (item.b, ", ".join(texts.get(item.a, []))) for item in [*node.items, *node.marks]}
        text = brace_list(node, node.a + 1, parts)
        return Lowered(text + self.version_rule(node, site, entries), node.word == "CHOICE")

    def lower_entries(self, node: Structure, gone: dict[str, list[Change]], entries: list[Entry]) -> bool:
        """Lowers the components, and says whether one of them goes where a recursion ends."""
        causes, ends, ended, gone_from = list[Change](), False, False, 0
        for entry in entries:
            item, place = entry.item, entry.place
            if gone_from and entry.version >= gone_from:
                gone[item.name], why = [], "left out: an addition of an earlier version is left out"
                self.note(Site(place), item, "left-out", why, TIGHTER)
                continue
            entry.wraps = not isinstance(item.type, Tagged) and self.has_no_tag(entry.scope, item.type)
            site = Site(place, entry.tag is not None and not entry.wraps, not entry.whole)
            fixed = "" if node.word == "CHOICE" or entry.version or item.presence else f"{item.name} is mandatory"
            name = f"{place.definition.name}-{item.name}" if entry.foreign else ""
            lower = partial(self.portable, name=name) if entry.foreign else self.type
            try:
                found = self.unless_left_out(site, item, fixed, partial(lower, entry.scope, item.type, site))
            except CannotGo as stop:
                causes, ends = causes + stop.causes, ends or stop.ends
                continue
            if isinstance(found, Lowered):
                entry.text, entry.choice = found
                continue
            ended |= found.ends
            gone[item.name] = [] if found.ends else found.causes
            why = f"left out: {'a recursion ends' if found.ends else found}"
            self.note(site, item, found.step, why, TIGHTER)
            gone_from = entry.version if entry.mandatory else gone_from
        if causes:
            raise CannotGo(causes, ends)
        return ended

    def expanded(self, scope: Scope, node: Structure, site: Site, automatic: bool) -> list[Entry]:
        """The components in the order of the text, COMPONENTS OF written out where the guard wouldn't take it."""
        entries: list[Entry] = []
        for item in node.items:
            held = item.type
            if not item.of:
                entries.append(Entry(item, scope, site.place.down(item.name), item))
                continue
            there, target, place = self.base(scope, held)
            if not isinstance(target, Structure) or target.word != node.word:
                raise self.hole(site, item, "components-of", f"COMPONENTS OF {held.text()}: it is no {node.word}")
            theirs = self.is_automatic(there, target)
            differs = automatic or theirs or isinstance(self.base(scope, held, tags=False)[1], Tagged)
            differs = differs or any(part.markers == 1 for part in target.items)
            if isinstance(held, Reference) and not (held.fields or held.name in scope.actuals or differs):
                entries.append(Entry(item, scope, site.place, item, whole=True))
                continue
            self.note(site, item, "expansion", "COMPONENTS OF is written out")
            inner = self.expanded(there, target, Site(place or site.place), theirs)
            inner = [entry for entry in inner if entry.holder.markers != 1]
            if theirs and not automatic:
                number_entries(inner)
            for entry in inner:
                entry.holder = item
                entry.foreign |= there.module is not scope.module
            entries += inner
        return entries

    def writes_tags(self, node: Structure, site: Site, automatic: bool, entries: list[Entry]) -> bool:
        """Whether automatic tags have to be written, since the guard would give others."""
        if all(entry.tag is None for entry in entries):
            return False
        kept = [entry for entry in entries if entry.text]
        differs = not automatic or len(kept) < len(entries) or self.here.module.default != "AUTOMATIC"
        differs = differs or [entry.tag for entry in kept] != list(range(len(kept)))
        differs = differs or any(entry.choice != entry.wraps or entry.text.startswith("[") for entry in kept)
        for entry in kept:
            if entry.wraps and not entry.choice:
                self.note(Site(entry.place), entry.item, "automatic-tags", WHY_EXPLICIT, new="EXPLICIT", old="")
        if differs:
            self.note(site, node, "automatic-tags", "automatic tags are written: the guard would give others", old="")
        return differs

    def entry_text(self, entry: Entry, write: bool) -> str:
        item, site, text = entry.item, Site(entry.place), entry.text
        if write and entry.tag is not None:
            text = text if entry.wraps else re.sub(r"^\[[^]]*\] IMPLICIT ", "", text)
            read_as = entry.choice or self.here.module.default == "EXPLICIT"
            mode = "" if entry.wraps == read_as else "EXPLICIT " if entry.wraps else "IMPLICIT "
            text = f"[{entry.tag}] {mode}{text}"
        if not (item.named or entry.whole):
            text = f"{item.name} {text}"
            self.note(site, item, "text", "a component without a name", new=item.name)
        edits = [*self.renamed(item, site, spelled(item.name)), item.type.by(text)]
        if item.default is not None:
            try:
                edits.append(item.default.by(self.value(entry.scope, item.default, (entry.scope, item.type))))
            except NoValue as stop:
                edits.append((item.type.b, item.b, "OPTIONAL"))
                self.note(site, item.default, "default", f"the default can't be written: {stop}", LOOSER, "OPTIONAL")
        return item.emit(*edits) + (" OPTIONAL" if entry.mandatory else "")

    def version_rule(self, node: Structure, site: Site, entries: list[Entry]) -> str:
        """The constraint that additions come with all that is mandatory in earlier versions and in their own."""
        if not (made := [entry for entry in entries if entry.mandatory and entry.text]):
            return ""
        rules, exact = "", len(made) <= MOST_VERSIONS
        try:
            for version in sorted({entry.version for entry in made}):
                own = [f"{spelled(entry.item.name)} PRESENT" for entry in made if entry.version == version]
                absent: list[str] = []
                for item, scope in ((e.item, e.scope) for e in entries if e.version >= version and e.text):
                    default = item.default and self.value(scope, item.default, (scope, item.type))
                    absent.append(f"{spelled(item.name)} {f'({default})' if default else 'ABSENT'}")
                rule = f" (WITH COMPONENTS {{..., {', '.join(own)}}} | WITH COMPONENTS {{..., {', '.join(absent)}}})"
                rules += rule if len(absent) > 1 else ""
        except NoValue:
            exact = False
        text = rules if exact else ""
        names, how = ", ".join(entry.item.name for entry in made), "with a constraint that keeps the versions"
        why = f"mandatory additions become OPTIONAL, {how if exact else 'each of them by itself'}"
        self.note(site, node, "addition", why, TIGHTER if exact else NEITHER, f"OPTIONAL{text}", names)
        return text

    def list_of(self, scope: Scope, node: ListOf, site: Site) -> Lowered:
        edits: list[Edit] = []
        if node.size is not None:
            text = self.constraint(scope, node.size, (scope, node), site)
            edits.append(node.size.by(text[1:-1] if node.size.bare else text))
        if node.name is not None:
            edits.append((node.name, node.name + 1, ""))
            why = "the profile has no names of elements"
            self.note(site, node, "text", why, old=node.source.tokens[node.name].text)
        inside, text = Site(site.place.down("*")), f"{node.word} (SIZE (0)) OF NULL"
        sizes = self.sizes(scope, node.size.root) if node.size is not None else [(0, None)]
        fixed = "" if any(low <= 0 for low, _ in sizes or []) else "the list can't be empty"
        found = self.unless_left_out(inside, node.inner, fixed, lambda: self.type(scope, node.inner, inside))
        if isinstance(found, Lowered):
            return Lowered(node.emit(*edits, node.inner.by(found.text)))
        self.empty.add((node, scope))
        self.note(inside, node, found.step, "only the empty list stays", TIGHTER, text)
        return Lowered(text)


def brace_list(node: Node, brace: int, parts: Parts) -> str:
    """A type's text with its list in braces: the parts that have a text, commas between them, and comments."""
    tokens, at, is_pending = node.source.tokens, brace + 1, False
    out = [node.source.emit(node.a, brace), tokens[brace].space, "{"]
    last = max((a for a, (_, text) in parts.items() if text), default=-1)
    while at < node.b - 1:
        after, text = parts.get(at, (at + 1, ""))
        is_comma = tokens[at].text == "," and is_pending and at not in parts and at < last
        text = "," if is_comma else text
        if text or has_comment(tokens[at].space):
            out.append(tokens[at].space + text)
        is_pending = not is_comma and (is_pending or bool(text))
        at = after
    return "".join(out) + tokens[node.b - 1].space + "}"


def number_entries(entries: list[Entry]) -> None:
    """Automatic tags: first those of the root, then those of additions (X.680 25.8)."""
    for number, entry in enumerate(sorted(entries, key=lambda entry: entry.holder.markers == 1)):
        entry.tag = number
