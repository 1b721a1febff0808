"""Looks at lowered texts by rules of the guard that lowering alone doesn't keep: limits, names, numbers, tags."""

from collections.abc import Iterator

from bindings import Bindings
from job import Output, Scope
from library import Library, children
from lowering import Job, Tags
from meaning import Recursion
from reading_modules import read_modules
from report import Text
from tokens import Fault, cut
from tree import Component, Constrained, Definition, Element, ListOf, Node, Plain, Reference, Set, Structure, Tagged
from tree import Type

MOST_NODES, MOST_COMPONENTS, DEEPEST, LARGEST_TAG, MOST_MODULES = 100_000, 64, 32, 268_435_455, 64
# What the guard would refuse: an output, why, whether less depth may help (and how deep it is nested, if that is why),
# and the place of the innermost part without which the deepest path isn't too deep.
Finding = tuple[Output, str, int, str]
# The path to the deepest part of a type: names, how deep each is by itself, and its place where it can be left out.
Path = tuple[tuple[str, int, str], ...]
# How large a type is, as the guard counts: types, constraints, how deep it is nested, and that path.
Measure = tuple[int, int, int, Path]


class Checker:
    """Measures the definitions of modules; `here` is the output that is looked at."""

    def __init__(self, texts: list[Text]) -> None:
        self.library = Library()
        self.job = Job(Recursion(self.library, Bindings(), [], 0), False, {})
        self.outputs = {(text.name, out.name): out for text in texts for out in text.outputs}
        self.measured: dict[Definition, Measure] = {}
        self.findings: list[Finding] = []
        self.here: Output | None = None

    def find(self, wrong: object, why: str, size: int = 0, cut: str = "") -> None:
        if wrong and self.here is not None:
            self.findings.append((self.here, why, size, cut))

    def definition(self, definition: Definition) -> Measure:
        if definition not in self.measured:
            before, self.here = self.here, self.outputs.get((definition.module.name, definition.name))
            self.measured[definition] = (0, 0, 0, ())
            self.find(definition.unread, f"the lowered text can't be read: {definition.unread}")
            if definition.type is not None:
                place = str(self.here.place) if self.here else ""
                self.measured[definition] = self.type(Scope(definition.module), definition.type, place)
            nodes, _, depth, path = self.measured[definition]
            why = f"it is nested {depth} deep, and the guard takes {DEEPEST}; deepest: {'.'.join(p[0] for p in path)}"
            cuts = [place for _, its, place in path if place and depth - its <= DEEPEST]
            self.find(depth > DEEPEST, why, depth, *cuts[-1:])
            self.find(nodes > MOST_NODES, f"it has {nodes} types, and the guard takes {MOST_NODES}", 1)
            self.here = before
        return self.measured[definition]

    def type(self, scope: Scope, node: Type, place: str) -> Measure:
        if isinstance(node, Tagged | Constrained | ListOf):
            is_list = isinstance(node, ListOf)
            inner = f"{place}.*" if is_list else place
            nodes, constraints, depth, path = self.type(scope, node.inner, inner)
            constraints += sum(weigh(child) for child in children(node) if child is not node.inner)
            path = (("*", depth, ""), *path) if is_list else path
            if isinstance(node, Tagged):
                number = int(node.number.text())
                self.find(number > LARGEST_TAG, f"the tag {number} is above {LARGEST_TAG}")
                depth += self.job.is_explicit(scope, node)
            return nodes + is_list, constraints, depth + is_list, path
        if isinstance(node, Structure):
            return self.structure(scope, node, place)
        if isinstance(node, Plain):
            numbers = [item.number.text() for item in node.items if item.number]
            is_clear = is_set([item.name for item in node.items]) and is_set(numbers)
            self.find(not is_clear, "two of its names or numbers are equal")
            return 1, 0, 1, ()
        definition = self.library.find(scope.module, node.name) if isinstance(node, Reference) else ""
        if isinstance(definition, Definition):
            return self.definition(definition)
        self.find(definition, definition)
        return 0, 0, 0, ()

    def structure(self, scope: Scope, node: Structure, place: str) -> Measure:
        automatic, total, all_constraints, deepest = self.job.is_automatic(scope, node), 1, 0, 0
        tags, path = list[tuple[Component, Tags]](), Path()
        for number, (item, there) in enumerate(self.flat(scope, node)):
            here = f"{place}.{item.name}"
            nodes, constraints, depth, inner = self.type(there, item.type, here)
            total, all_constraints = total + nodes, all_constraints + constraints + 2 * (item.default is not None)
            depth += automatic and self.job.untagged(there, item.type)
            if depth > deepest:
                can_go = item in node.items and (item.presence or node.word == "CHOICE")
                deepest, path = depth, ((item.name, depth, here if can_go else ""), *inner)
            tags.append((item, {("", number)} if automatic else self.job.first_tags(there, item.type) or set()))
        self.find(len(tags) > MOST_COMPONENTS, f"it has {len(tags)} components, and the guard takes {MOST_COMPONENTS}")
        self.find(not is_set([item.name for item, _ in tags]), "two components have one name")
        clash = clashing(node.word, tags)
        self.find(clash, f"the tags of {' and '.join(clash)} can't be told apart")
        return total, all_constraints, deepest + 1, path

    def flat(self, scope: Scope, node: Structure, deep: int = 0) -> Iterator[tuple[Component, Scope]]:
        """The components, with those of COMPONENTS OF in their places."""
        for item in node.items:
            there, base, _ = self.job.base(scope, item.type)
            if not item.of:
                yield item, scope
            elif isinstance(base, Structure) and deep < DEEPEST:
                yield from self.flat(there, base, deep + 1)

    def too_large(self) -> list[Finding]:
        """The largest definitions, where all together are too large: as many as have to go."""
        held = sorted(self.measured.items(), key=lambda pair: -pair[1][0] - pair[1][1])
        total, constraints = sum(size[0] for _, size in held), sum(size[1] for _, size in held)
        modules, found = len(self.library.modules), list[Finding]()
        why = f"the definitions have {total} types, {constraints} constraints and {modules} modules together, and"
        why = f"{why} the guard takes {MOST_NODES} and {MOST_MODULES}; this is among the largest of them"
        for definition, (nodes, its, *_) in held:
            if max(total, constraints) > MOST_NODES or modules > MOST_MODULES and not found:
                found.append((self.outputs[definition.module.name, definition.name], why, 1, ""))
                total, constraints = total - nodes, constraints - its
        return found


def is_set(names: list[str]) -> bool:
    return len(set(names)) == len(names)


def weigh(node: Node) -> int:
    """How many constraints and values the guard counts in a tree; parentheses alone add none."""
    own = 0
    if isinstance(node, Set):
        own = (len(node.unions) > 1) + (node.all_except is not None) + sum(len(parts) > 1 for parts in node.unions)
    elif isinstance(node, Element):
        own = {"group": 0, "single": 2, "type": 2}.get(node.form, 1) + (node.minus is not None)
    return own + sum(map(weigh, children(node)))


def clashing(word: str, parts: list[tuple[Component, Tags]]) -> list[str]:
    """Two components that can't be told apart (X.680 25.6, 27.3, 29.3)."""
    for k, (first, tags) in enumerate(parts):
        for second, others in parts[k + 1 :]:
            if (word != "SEQUENCE" or first.presence) and tags & others:
                return [first.name, second.name]
            if word == "SEQUENCE" and not second.presence:
                break
    return []


def check(texts: list[Text]) -> list[Finding]:
    checker = Checker(texts)
    for text in texts:
        try:
            for module in read_modules(cut(f"{text.name}.asn1", text.text)):
                checker.library.add(module)
        except Fault as fault:
            return [(text.outputs[0], f"lowered text: {fault.shown()}", 0, "")]
    for definition in (definition for module in checker.library.modules.values() for definition in module.definitions):
        checker.definition(definition)
    return checker.findings or checker.too_large()
