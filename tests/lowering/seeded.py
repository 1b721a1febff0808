"""Seeded random values of small modules, and of what derguard-lower made of them, against Erlang's compiler."""
import collections
import dataclasses
import pathlib
import random
import re
import time
import tomllib

from . import codec, converter, guard

HERE = pathlib.Path(__file__).resolve().parent
WIDE = ("same", "looser")
NARROW = ("same", "tighter")
MOST = 20


@dataclasses.dataclass
class Outcome:
    """What a run found: numbers by their name, what differs, and what was left out and why."""

    counts: collections.Counter = dataclasses.field(default_factory=collections.Counter)
    differ: list[str] = dataclasses.field(default_factory=list)
    left_out: list[str] = dataclasses.field(default_factory=list)
    steps: collections.Counter = dataclasses.field(default_factory=collections.Counter)

    def tell(self) -> None:
        """Prints what was left out, and the numbers."""
        for line in sorted(set(self.left_out)):
            print(f"left out: {line}")
        for what, many in sorted(self.counts.items()):
            print(f"  {many:7} {what}")
        if self.steps:
            print(f"  steps: {', '.join(f'{step} {many}' for step, many in sorted(self.steps.items()))}")


@dataclasses.dataclass(frozen=True)
class Words:
    """How much is tried of a case: a seed, values a message and side, seconds, and whether asn1c is asked too."""

    seed: str
    values: int
    seconds: float
    with_asn1c: bool


@dataclasses.dataclass
class Case:
    """A module and the codecs of both sides: the original as Erlang reads it, and what was lowered."""

    name: str
    messages: list[dict]
    original: codec.Codec
    lowered_codec: codec.Codec
    lowered: guard.Lowered
    policy: pathlib.Path
    lists: pathlib.Path
    knows_lowered: bool
    converter: converter.Converter | None

    def number(self, message: dict) -> int:
        """The place of a message among those that were lowered."""
        return list(self.lowered.messages).index(message["type"])


def cases() -> list[dict]:
    return tomllib.loads((HERE / "cases.toml").read_text())["case"]


def edited(text: str, edits: list[list[str]]) -> str:
    for old, new in edits:
        if old not in text:
            raise ValueError(f"{old} isn't in the module")
        text = text.replace(old, new)
    return text


def prepared(entry: dict, work: pathlib.Path, with_asn1c: bool, outcome: Outcome) -> Case | None:
    """Lowers the module of an entry and compiles both sides; None where that ends the case."""
    name, place = entry["module"], work / entry["module"]
    place.mkdir(parents=True, exist_ok=True)
    source = HERE / "modules" / f"{name}.asn1"
    bindings = None
    if "bindings" in entry:
        bindings = place / "bindings.toml"
        bindings.write_text(entry["bindings"])
    types = [message["type"] for message in entry["messages"]]
    lowered = guard.lower([source], types, place / "lowered", bindings)
    absent = [kind for kind in types if lowered.messages.get(kind, {}).get("mark", "can't") == "can't"]
    if absent:
        outcome.differ.append(f"{name}: {', '.join(absent)} didn't go: {lowered.said}")
        return None
    fault = guard.check(place / "lowered" / "policy.toml") or guard.check(guard.open_policy(lowered))
    if fault:
        outcome.differ.append(f"{name}: derguard refuses what was made: {fault}")
        return None
    texts = codec.modules_of(edited(source.read_text(), entry.get("codec", [])))
    third = converted(entry, texts, place / "asn1c", outcome) if with_asn1c else None
    return compiled(name, entry["messages"], lowered, texts, place, outcome, third)


def compiled(
    name: str, messages: list[dict], lowered: guard.Lowered, texts: list[tuple[str, str]], place: pathlib.Path,
    outcome: Outcome, third: converter.Converter | None = None,
) -> Case | None:
    """Both sides of a case through Erlang's compiler, built in the folder above; None where it refuses the original."""
    outcome.steps.update(change["step"] for change in lowered.report["changes"])
    original, other = codec.Codec(place / "original", place.parent), codec.Codec(place / "other", place.parent)
    policies = guard.open_policy(lowered), guard.listing(lowered)
    case = Case(name, messages, original, other, lowered, *policies, True, third)
    fault = original.compile(in_order(texts))
    if fault:
        outcome.left_out.append(f"{name}: Erlang refuses the original: {fault[:300]}")
        close(case)
        return None
    made = [(one["name"], (lowered.folder / one["output"]).read_text()) for one in lowered.report["modules"]]
    fault = other.compile(in_order(made))
    if fault:
        outcome.left_out.append(f"{name}: Erlang refuses what was made: {fault[:300]}")
        case.knows_lowered = False
    return case


def close(case: Case) -> None:
    case.original.close()
    case.lowered_codec.close()


def converted(
    entry: dict, texts: list[tuple[str, str]], place: pathlib.Path, outcome: Outcome
) -> converter.Converter | None:
    """The program of asn1c for the original, if it makes one that is right."""
    if "asn1c" in entry:
        outcome.left_out.append(f"{entry['module']}: asn1c: {entry['asn1c']}")
        return None
    program = converter.Converter(place)
    fault = program.compile(texts, entry["messages"][0]["type"].rsplit(".", 1)[1])
    if fault:
        outcome.left_out.append(f"{entry['module']}: asn1c refuses the original: {fault}")
    outcome.counts["modules that asn1c compiled"] += not fault
    return None if fault else program


def in_order(modules: list[tuple[str, str]]) -> list[tuple[str, str]]:
    """Modules with those that they import before them."""
    names, done = dict(modules), []

    def add(name: str) -> None:
        text = names.pop(name, None)
        if text is not None:
            for other in re.findall(r"\bFROM\s+([A-Z][\w-]*)", text):
                add(other)
            done.append((name, text))

    for name, _ in modules:
        add(name)
    return done


def try_original(case: Case, message: dict, mark: str, seed: int, count: int, outcome: Outcome) -> None:
    """Values of the original, through the guard."""
    kind, name = message["type"], f"message-{case.number(message)}"
    values, failed = case.original.values(kind, seed, count)
    outcome.counts["values that Erlang couldn't make"] += len(failed)
    if len(failed) > count / 2:
        outcome.left_out.append(f"{kind}: {len(failed)} of {count} values couldn't be made: {failed[0][:200]}")
    said = guard.verdicts(case.policy, [(name, value.octets) for value in values])
    passed = said.count("pass")
    outcome.counts["values of originals"] += len(values)
    outcome.counts["of them passed"] += passed
    if mark in WIDE:
        for value, verdict in zip(values, said):
            if verdict != "pass":
                outcome.differ.append(f"{kind} is {mark}, but {value.octets.hex().upper()} is {verdict}")
    elif values and not passed and not message.get("rare"):
        none = f"none of {len(values)} values of the original passes, as {said[0]}"
        outcome.differ.append(f"{kind} is {mark}, and {none}")


def try_lowered(case: Case, message: dict, mark: str, seed: int, count: int, outcome: Outcome) -> None:
    """Values of the lowered type, encoded by the guard and decoded by the original's codec."""
    kind, made, name = message["type"], case.lowered.messages[message["type"]], f"message-{case.number(message)}"
    values, failed = case.lowered_codec.values(f"{made['module']}.{made['type']}", seed, count, notation=True)
    outcome.counts["lowered values that Erlang couldn't make"] += len(failed)
    if len(failed) > count / 2:
        outcome.left_out.append(f"{kind}, lowered: {len(failed)} of {count} values couldn't be made: {failed[0][:200]}")
    octets, fault = guard.encode_all(case.lists, case.number(message), [value.notation for value in values])
    if fault:
        outcome.differ.append(f"{kind}: values of the lowered type: {fault}")
        return
    agreed = []
    for value, one, verdict in zip(values, octets, guard.verdicts(case.policy, [(name, one) for one in octets])):
        if verdict.startswith("outside-type"):
            outcome.counts["lowered values outside a constraint"] += 1
            continue
        outcome.counts["values of lowered types"] += 1
        if one != value.octets or verdict != "pass":
            both = f"derguard {one.hex()} {verdict}, Erlang {value.octets.hex()}"
            outcome.differ.append(f"{kind}: {value.notation}: {both}")
        elif agrees(case, message, mark, value, outcome):
            agreed.append(one)
    if case.converter and mark in NARROW:
        outcome.counts["of them also through asn1c"] += len(agreed)
        differ = case.converter.differ(kind, agreed)
        outcome.differ += [f"{kind} is {mark}, but asn1c of {one.hex().upper()}: {came}" for one, came in differ]


def agrees(case: Case, message: dict, mark: str, value: codec.Value, outcome: Outcome) -> bool:
    """Whether the original's codec has the same value of the octets."""
    said = case.original.same(message["type"], value.octets, value.term, message.get("again", True))
    judged = said == "ok" or said.startswith("unjudged")
    judged = judged or not message.get("terms", True) and said.startswith("other value")
    outcome.counts["of them values of the original"] += judged
    outcome.counts["of them with a constraint that can't be judged"] += said.startswith("unjudged")
    if mark in NARROW and not judged:
        which = f"{value.octets.hex().upper()} of {value.notation}"
        outcome.differ.append(f"{message['type']} is {mark}, but {which}: {said}")
    return judged


def try_written(case: Case, message: dict, mark: str, outcome: Outcome) -> None:
    """Values that the case lists."""
    kind, name = message["type"], f"message-{case.number(message)}"
    wanted = [(bytes.fromhex(digits), True, "") for digits in message.get("passed", [])]
    for text, why in message.get("refused", []):
        octets, fault = (bytes.fromhex(text), "") if not text.startswith("#") else case.original.encode(kind, text)
        fault = fault or case.original.decodes(kind, octets)
        if fault:
            outcome.differ.append(f"{kind}: the original has no {text} ({why}): {fault}")
        else:
            wanted.append((octets, False, why))
    if mark in NARROW:
        wanted += [(bytes.fromhex(text), False, why) for text, why in message.get("outside", [])]
    said = guard.verdicts(case.policy, [(name, octets) for octets, _, _ in wanted])
    for (octets, passes, why), verdict in zip(wanted, said):
        outcome.counts["values worked out by hand"] += 1
        if (verdict == "pass") != passes:
            outcome.differ.append(f"{kind}: {octets.hex().upper()} ({why or 'has to pass'}): {verdict}")


def try_messages(case: Case, seed: str, count: int, outcome: Outcome) -> None:
    """All messages of a case, from one seed."""
    for message in case.messages:
        kind = message["type"]
        mark = case.lowered.messages[kind]["mark"]
        number = random.Random(f"{seed}/{kind}").getrandbits(30)
        try_original(case, message, mark, number, count, outcome)
        if case.knows_lowered:
            try_lowered(case, message, mark, number + 1, count, outcome)


def try_case(entry: dict, work: pathlib.Path, words: Words, outcome: Outcome) -> None:
    """An entry with one seed, and with others of it until its time is over."""
    begin = time.monotonic()
    case = prepared(entry, work, words.with_asn1c, outcome)
    if not case:
        return
    for message in case.messages:
        mark = case.lowered.messages[message["type"]]["mark"]
        outcome.counts[f"messages {mark}"] += 1
        if mark not in message["marks"]:
            outcome.differ.append(f"{message['type']} is {mark}, and not {' or '.join(message['marks'])}")
        try_written(case, message, mark, outcome)
    turn, differ = 0, len(outcome.differ)
    while turn == 0 or (time.monotonic() - begin < words.seconds and len(outcome.differ) < differ + MOST):
        try_messages(case, words.seed if turn == 0 else f"{words.seed}/{turn}", words.values, outcome)
        turn += 1
    outcome.counts["rounds"] += turn
    close(case)
