"""What a run made: the texts of modules, the reports for people and programs, bindings to start from."""

import json
from collections import Counter, defaultdict
from dataclasses import dataclass, field
from typing import Any

from job import CANT, LOOSER, MARKS, NEITHER, SAME, Change, Output, Place, reached
from library import spelled
from lowering import Job
from tokens import Fault, has_comment
from tree import Definition, Module


@dataclass
class Text:
    module: Module
    name: str
    outputs: list[Output] = field(default_factory=list)
    needed: set[str] = field(default_factory=set)
    text: str = ""


def texts(modules: list[Module], roots: list[Output]) -> list[Text]:
    """The texts of all modules that some outputs reach; these are exported, since rules are made of them."""
    held = {module: Text(module, spelled(module.name)) for module in modules}
    outputs = reached(roots)
    for out in outputs:
        held[out.module].outputs.append(out)
    for used in (*roots, *(used for out in outputs for used in out.imports.values())):
        held[used.module].needed.add(used.name)
    found = [text for text in held.values() if text.outputs]
    for text in found:
        text.text = whole(text)
    return found


def whole(text: Text) -> str:
    module, tokens = text.module, text.module.source.tokens
    before = tokens[module.a].space.replace("\ufeff", "").lstrip("\n")
    edits = [(module.a, module.a + 1, spelled(module.name)), *((a, b, "") for a, b in module.cuts)]
    parts = [before, module.source.emit(module.a, module.body, edits), exports(text), imports(text)]
    for definition in module.definitions:
        own = [out for out in text.outputs if out.origin is definition]
        own.sort(key=lambda out: out.name != spelled(definition.name))
        for number, out in enumerate(own):
            space = tokens[definition.a].space if not number else "\n\n"
            parts.append(f"{space if space.strip() or chr(10) in space else chr(10)}{out.name}{out.text}")
    parts += [f"\n\n{out.name}{out.text}" for out in text.outputs if out.origin.module != module]
    end = tokens[module.b - 1].space
    parts.append((end if "\n" in end else "\n") + "END\n")
    return "".join(parts).replace("\u00a0", " ").replace("\x0c", "\n")


def exports(text: Text) -> str:
    if text.module.exports is None:
        return ""
    source, (a, b) = text.module.source, text.module.exports
    if source.tokens[a + 1].text == "ALL":
        return source.tokens[a].space + source.emit(a, b)
    names = {out.name for out in text.outputs}
    symbols = [(token.space, spelled(token.text)) for token in source.tokens[a + 1 : b] if token.text[:1].isalpha()]
    kept = [(space, name) for space, name in symbols if name in names]
    kept += [(" ", name) for name in sorted(text.needed - {name for _, name in kept})]
    return f"{source.tokens[a].space}EXPORTS{','.join(space + name for space, name in kept)};"


def imports(text: Text) -> str:
    wanted = defaultdict[str, dict[str, None]](dict)
    for name, used in (pair for out in text.outputs for pair in out.imports.items()):
        wanted[spelled(used.module.name)][name] = None
    if not wanted:
        return ""
    module, tokens = text.module, text.module.source.tokens
    parts = [tokens[module.imports[0]].space if module.imports else "\n\n", "IMPORTS"]
    symbols = [(clause, k, spelled(tokens[k].text)) for clause in module.clauses for k in clause.symbols]
    stay = {k: name for clause, k, name in symbols if name in wanted[spelled(clause.module)]}
    for clause in module.clauses:
        names, kept = wanted[spelled(clause.module)], [k for k in clause.symbols if k in stay]
        if names and kept:
            held = [tokens[k].space + stay[k] for k in kept]
            held += [f" {name}" for name in names if name not in [stay[k] for k in kept]]
            names.clear()
            edits = [(clause.module_at, clause.module_at + 1, spelled(clause.module)), (*clause.cut, "")]
            origin = module.source.emit(clause.module_at - 1, clause.b, edits)
            parts.append(",".join(held) + tokens[clause.module_at - 1].space + origin)
            after = tokens[clause.b].space
            parts.append(after if has_comment(after) and clause.b not in stay else "")
    parts += [f"\n    {', '.join(names)}\n        FROM {source}" for source, names in wanted.items() if names]
    return "".join(parts) + ";"


HEAD = """# What lowering costs

Marks: *same* has the values of the original, *tighter* fewer, *looser* more,
*neither* refuses some and lets others pass, *can't* isn't there.

## Messages
"""
COLUMNS = """
## Changes

| place in the file | place | step | original | what stands for it | mark | why |
|---|---|---|---|---|---|---|"""


@dataclass
class Message:
    """A wanted message: its definition, and what goes out for it or why nothing does."""

    name: str
    definition: Definition
    out: Output | None = None
    causes: list[Change] = field(default_factory=list)
    changes: list[Change] = field(default_factory=list)
    mark: str = CANT

    @property
    def unsigned(self) -> str:
        """Which changes that widen aren't signed, by their steps and places; empty where all are."""
        found: dict[str, dict[str, None]] = {}
        for change in (one for one in self.changes if one.mark in (LOOSER, NEITHER) and not one.signed):
            found.setdefault(change.step, {})[str(change.place)] = None
        shown = {step: [*list(places)[:4], f"{len(places) - 4} more"][: len(places)] for step, places in found.items()}
        held = "; ".join(f"{step} at {', '.join(places)}" for step, places in shown.items())
        return f", not signed: {held}" if held else ""

    def reasons(self) -> list[str]:
        """Of what a message's mark comes, one line for each kind of change."""
        if self.mark == CANT:
            return list(dict.fromkeys(f"{at(cause)}: {cause.place}: {cause.why}" for cause in self.causes))
        counted = Counter((change.mark, change.step) for change in self.changes if change.mark != SAME)
        return [f"{mark}: {step} ({count} of them)" for (mark, step), count in counted.items()]


@dataclass
class Result:
    job: Job
    messages: list[Message]
    texts: list[Text]
    changes: list[Change] = field(default_factory=list)

    @property
    def status(self) -> int:
        return max((2 if one.mark == CANT else int(one.unsigned != "") for one in self.messages), default=0)

    @property
    def unread(self) -> list[tuple[str, Fault]]:
        """The assignments that couldn't be read: their names, and why."""
        held = [one for module in self.job.library.modules.values() for one in module.definitions]
        return [(one.name, one.unread) for one in held if one.unread]

    def collect(self) -> None:
        """Numbers the changes that messages reach, and joins their marks."""
        found = dict.fromkeys(one for text in self.texts for out in text.outputs for one in out.changes.values())
        self.changes = sorted(found, key=lambda change: tuple(where(change).values()))
        for number, change in enumerate(self.changes, 1):
            change.number, change.signed = number, self.job.bindings.signs(change)
        for message in self.messages:
            if message.out is not None:
                reach = (one for out in reached([message.out]) for one in out.changes.values())
                message.changes = list(dict.fromkeys(reach))
                marks = {MARKS.index(change.mark) for change in message.changes}
                message.mark = MARKS[min(sum(marks), 3)]  # tighter (1) and looser (2) make neither (3)

    def roots(self) -> list[Change]:
        """The root causes of all that can't go, each with what it takes along."""
        found = [cause for message in self.messages for cause in message.causes]
        stops = [out.stop for out in self.job.outputs.values() if out.stop is not None]
        found += [cause for stop in stops for cause in stop.causes if cause.step != "recursion"]
        return list(dict.fromkeys(found + [cause for causes in self.job.left.values() for cause in causes]))

    def policy(self, many: bool) -> str:
        """A policy with the messages and no rule; of many messages those that no other one contains."""
        lines = ["# Made by derguard-lower: the messages that were lowered. Rules are still to be written.", ""]
        lines.append(f"modules = [{', '.join(quoted(f'{text.name}.asn1') for text in self.texts)}]")
        inner = {used for text in self.texts for out in text.outputs for used in out.uses} if many else set()
        for message in self.messages:
            if message.out is not None and message.out not in inner:
                lines += ["", "[[message]]", f'name = "{spelled(message.name)[-63:]}"']
                lines += [f'module = "{spelled(message.out.module.name)}"', f'type = "{message.out.name}"']
        return "\n".join(lines) + "\n"


def quoted(held: object) -> str:
    return json.dumps(held, ensure_ascii=False)


def where(found: Change | Fault) -> dict[str, Any]:
    """The place in a file of a change, a cause, or what couldn't be read."""
    fault = found.node.fault(found.why) if isinstance(found, Change) else found
    return dict(zip(("file", "line", "column"), fault.place()))


def at(found: Change | Fault) -> str:
    return ":".join(map(str, where(found).values()))


def as_json(result: Result) -> str:
    messages: list[dict[str, object]] = [
        {"name": one.name, "module": spelled(one.out.module.name) if one.out else ""}
        | {"type": one.out.name if one.out else "", "source": str(Place(one.definition)), "mark": one.mark}
        | {"signed": not one.unsigned, "changes": [change.number for change in one.changes]}
        | {"causes": one.reasons()}
        for one in result.messages
    ]
    words = ("step", "original", "replacement", "mark", "why", "signed")
    changes = [
        {"id": change.number, **where(change), "module": change.place.definition.module.name}
        | {"place": str(change.place), **{word: getattr(change, word) for word in words}}
        for change in result.changes
    ]
    left_out = [
        {"place": str(cause.place), **where(cause), "cause": cause.why, "takes": list(cause.takes)}
        for cause in result.roots()
    ]
    holes: list[dict[str, object]] = []
    for cause in result.job.holes.values():
        binding = result.job.bindings.at(cause.place)
        bound = " | ".join(binding) if isinstance(binding, list) else binding
        holes.append({"place": str(cause.place), **where(cause), "kind": cause.step, "bound": bound})
        holes[-1]["candidates"] = cause.candidates
    files = [(text.name, text.module.source.path) for text in result.texts]
    modules = [{"name": name, "source": path, "output": f"{name}.asn1"} for name, path in files]
    unread = [where(fault) | {"why": f"{name}: {fault.why}"} for name, fault in result.unread]
    held = {"status": result.status, "messages": messages, "changes": changes, "left_out": left_out, "holes": holes}
    return json.dumps(held | {"modules": modules, "unread": unread}, indent=1, ensure_ascii=False) + "\n"


def as_markdown(result: Result) -> str:
    lines = [HEAD]
    for message in result.messages:
        signed = "" if message.mark not in (LOOSER, NEITHER) else message.unsigned or ", signed"
        head = f"- **{message.name}**: *{message.mark}*{signed}"
        lines += [head, *map("  - {}".format, message.reasons())]
    lines.append(COLUMNS)
    for change in sorted(result.changes, key=lambda change: change.mark == SAME):
        cells = [at(change), str(change.place), change.step, cell(change.original), cell(change.replacement)]
        lines.append(f"| {' | '.join([*cells, change.mark, cell(change.why, 200)])} |")
    causes = [cause for cause in result.roots() if cause.takes]
    lines += ["", "## What can't go, and what goes with it", ""] if causes else []
    for cause in causes:
        lines += [f"- {at(cause)}: {cause.place}: {cause.why}", *map("  - {}".format, cause.takes)]
    lines += ["", "## Assignments that couldn't be read", ""] if result.unread else []
    lines += [f"- {at(fault)}: {name}: {fault.why}" for name, fault in result.unread]
    return "\n".join(lines) + "\n"


def cell(text: str, most: int = 90) -> str:
    short = " ".join(text.split())
    short = short if len(short) <= most else short[: most - 3] + "..."
    return short.replace("|", "\\|").replace("<", "&lt;")


def as_draft(result: Result, *later: Result) -> str:
    """Bindings to start from: what was left out, also in runs as if the author had written types, and the holes that
    took it along."""
    kept, told = result.job.bindings, set[Change]()
    lines = ["# Bindings for derguard-lower. A type in the place of \"leave-out\", at the hole itself, lets it stay."]
    lines += [] if kept.depth is None else [f"depth = {kept.depth}"]
    lines += ["", "# changes that widen, to be signed by their place or step:"]
    wide = [change for one in (result, *later) for change in one.changes if change.mark in (LOOSER, NEITHER)]
    lines += [*dict.fromkeys(f"#   {change.place}  ({change.step})" for change in wide)]
    lines += [f"looser = [{', '.join(map(quoted, kept.looser))}]", "", "[bind]"]
    lines += [f"{quoted(name)} = {quoted(held)}" for name, held in kept.bind.items()]
    gone = {change.place: one.job for one in (*later, result) for change in one.changes if change.step == "left-out"}
    for place, job in gone.items():
        if causes := {} if kept.leaves_out(place) else job.left.get(str(place), {}):
            lines += ["", *(line for cause in causes for line in hole_lines(job, cause))]
            lines.append(f'{quoted(str(place))} = "leave-out"')
            told |= causes.keys()
    for message in result.messages:
        for cause in (cause for cause in message.causes if cause not in told):
            lines += ["", f"# {message.name} can't go without a type here:", *hole_lines(result.job, cause)]
            unread = "# mend the text, or bind each component that has this type"
            lines.append(unread if cause.step == "unread" else f"# {quoted(str(cause.place))} = \"..\"")
            told.add(cause)
    if kept.depths:
        lines += ["", "[depths]", *(f"{quoted(name)} = {depth}" for name, depth in kept.depths.items())]
    return "\n".join(lines) + "\n"


def hole_lines(job: Job, cause: Change) -> list[str]:
    lines = [f"# {cause.place} ({at(cause)}): {' '.join(cause.why.split())[:600]}"]
    held = ", ".join(quoted(" ".join(text.split())) for text in job.holes.get(str(cause.place), cause).candidates)
    return [*lines, f"# object sets have: {held}"] if held else lines
