"""Which definitions contain themselves, and where each circle of them is cut."""

from collections.abc import Iterator

from bindings import Bindings
from job import Place
from library import Library, children
from tree import Component, Constrained, Definition, ListOf, Node, Reference, Tagged, Type

Graph = dict[Definition, list[Definition]]


class Recursion:
    """`heads` are definitions of each group so that each circle has one: again and again that which most others use."""

    def __init__(self, library: Library, bindings: Bindings, messages: list[Definition], depth: int) -> None:
        self.library, self.bindings, self.depth = library, bindings, depth
        self.heads: set[Definition] = set()
        graph, todo = Graph(), list(messages)
        while todo:
            definition = todo.pop()
            if definition not in graph:
                kind = definition.type if definition.kind in ("type", "set") else None
                found = self.references(kind, Place(definition)) if kind else ()
                graph[definition] = list(dict.fromkeys(used for node in found for used in self.named(node, definition)))
                todo += graph[definition]
        self.members = circles(graph)
        self.groups = {d: number for number, group in enumerate(self.members) for d in group}
        left = list(self.members)
        while left:
            circle = left.pop()
            head = max(circle, key=lambda d: (sum(d in graph[u] for u in circle), -circle.index(d)))
            self.heads.add(head)
            rest = [definition for definition in circle if definition is not head]
            left += circles({d: [used for used in graph[d] if used in rest] for d in rest})

    def references(self, node: Node, place: Place | None = None) -> Iterator[Reference]:
        """The references in a tree; where it has a place, those of the bindings stand for what they replace."""
        is_place = isinstance(node, Type) and not isinstance(node, Tagged | Constrained)
        binding = self.bindings.at(place) if place and is_place else None
        if place and binding is not None:
            for text in binding if isinstance(binding, list) else []:
                yield from self.references(self.bindings.parsed(place, text))
            return
        if isinstance(node, Reference):
            yield node
        for child in children(node):
            step = child.name if isinstance(child, Component) and not child.of else ""
            step = "*" if isinstance(node, ListOf) and child is node.inner else step
            yield from self.references(child, place.down(step) if place and step else place)

    def named(self, node: Reference, home: Definition) -> Iterator[Definition]:
        """The definitions that a reference names, with its arguments and the type of its field."""
        tokens, words = node.source.tokens, [(node.module, node.name)]
        for k in (k for a, b in node.arguments or [] for k in range(a, b)):
            if tokens[k].text[:1].isupper() and tokens[k + 1].text != ".":
                words.append((tokens[k - 2].text if tokens[k - 1].text == "." else None, tokens[k].text))
        dummies = [name for name, _ in home.parameters or []]
        found = [self.library.known(home.module, name, of, "type", "set") for of, name in words if name not in dummies]
        yield from (used for used in found if used)
        held = self.library.class_of(home.module, node.name, node.module) if node.fields else None
        field = held.fields.get(node.fields[0]) if held else None
        if held and field and field.kind == "fixed" and field.type is not None:
            for reference in self.references(field.type):
                yield from self.named(reference, held)


def circles(graph: Graph) -> list[list[Definition]]:
    """The sets of definitions that reach each other (Tarjan's strongly connected components), those alone left out."""
    order: dict[Definition, int] = {}
    stack, found = list[Definition](), list[list[Definition]]()

    def visit(node: Definition) -> int:
        """The first on the stack that a definition reaches, by its order; those off it are last."""
        low = order[node] = len(order)
        stack.append(node)
        for used in graph[node]:
            low = min(low, order[used] if used in order else visit(used))
        if low == order[node]:
            at = stack.index(node)
            group, stack[at:] = stack[at:], []
            order.update(dict.fromkeys(group, len(graph)))
            if len(group) > 1 or node in graph[node]:
                found.append(group)
        return low

    for node in graph:
        if node not in order:
            visit(node)
    return found
