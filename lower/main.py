"""The command line of derguard-lower."""

import argparse
import json
import signal
import sys
import threading
from collections.abc import Iterable
from pathlib import Path

import checks
import report
from bindings import Bindings, read_bindings
from job import CannotGo, Place
from library import Library, spelled
from lowering import Job
from meaning import Recursion
from reading_modules import read_modules
from report import Message, Result
from tokens import Fault, read_file
from tree import Definition

DEPTH, MOST_RUNS, MOST_CUTS = 3, 40, 20


def parser() -> argparse.ArgumentParser:
    about = "Lowers published ASN.1 modules into the profile of derguard, and says what each change costs."
    words = argparse.ArgumentParser(prog="derguard-lower", description=about)
    message = "a type that is sent as a message"
    words.add_argument("--message", action="append", default=[], metavar="NAME", help=message)
    words.add_argument("--bindings", metavar="FILE", help="what the author says of holes, depths and losses")
    words.add_argument("--draft", metavar="FILE", help="write bindings to start from")
    words.add_argument("-o", "--output", metavar="FOLDER", help="where texts, policy and report go")
    words.add_argument("modules", nargs="+", metavar="MODULES", help="files of modules")
    return words


def wanted(library: Library, names: list[str]) -> dict[str, Definition]:
    """The definitions of the messages by the names of those; `*` stands for all types."""
    found: list[Definition] = []
    for name in names:
        module, _, last = name.rpartition(".")
        modules = [library.modules[module]] if module in library.modules else list(library.modules.values())
        if module and module not in library.modules:
            raise Fault(f"no module has the name {module}")
        if last == "*":
            first = [d for m in modules for d in m.definitions if m.named[d.name] is d and d.name[0].isupper()]
            found += [d for d in first if d.parameters is None and library.is_type(d)]
            continue
        if not (held := [m.named[last] for m in modules if last in m.named]):
            raise Fault(f"no module defines {name}")
        if len(held) > 1:
            where = ", ".join(definition.module.name for definition in held)
            raise Fault(f"{name} is in more than one module: {where}; write Module.{name}")
        if held[0].kind not in ("type", "set", "unread") or held[0].parameters is not None:
            hint = f": write a module with Mine ::= {name}{{..}}, and name Mine" if held[0].parameters else ""
            raise held[0].fault(f"{name} is no type without parameters{hint}")
        found += held
    short = [definition.name for definition in dict.fromkeys(found)]
    return {d.name if short.count(d.name) == 1 else f"{d.module.name}.{d.name}": d for d in found}


def lower(
    library: Library, bindings: Bindings, wanted: dict[str, Definition], leave: bool, given: Iterable[Place] = ()
) -> Result:
    """Lowers with less and less depth, and without what the guard would refuse, until it refuses nothing."""
    refused: dict[str, str] = {}
    recursion = Recursion(library, bindings, list(wanted.values()), DEPTH)
    for _ in range(MOST_RUNS):
        job = Job(recursion, leave, refused, given)
        messages = [Message(name, definition) for name, definition in wanted.items()]
        for message in messages:
            try:
                message.out = job.output(message.definition)
            except CannotGo as stop:
                message.causes = stop.causes
        roots = dict.fromkeys(message.out for message in messages if message.out is not None)
        result = Result(job, messages, report.texts(list(library.modules.values()), list(roots)))
        if not (findings := checks.check(result.texts)):
            result.collect()
            return result
        deepest, why, size, cut = max(findings, key=lambda finding: finding[2])
        if size and bindings.depth is None and recursion.depth > 0 and recursion.members:
            recursion.depth -= 1
        elif leave and cut and spelled(cut) not in refused and len(refused) < MOST_CUTS:
            refused[spelled(cut)] = f"{deepest.origin.name}: {why}"
        else:
            refused |= {str(out.place): why for out, why, _, _ in findings}
    raise Fault("the guard's limits aren't met after many attempts")


def draft(library: Library, bindings: Bindings, wanted: dict[str, Definition]) -> str:
    """Bindings to start from. Messages that need types of the author are lowered once more as if these were there, to
    see what else has to be left out; where that has a fault, the draft says so."""
    result = lower(library, bindings, wanted, True)
    stuck = {message.name: message.definition for message in result.messages if message.causes}
    given = dict.fromkeys(cause.place for message in result.messages for cause in message.causes)
    try:
        return report.as_draft(result, *([lower(library, bindings, stuck, True, given)] if stuck else []))
    except Fault as fault:
        later = "# What else has to be left out is known once the types that are missing here are there"
        return f"{report.as_draft(result)}\n{later}: {fault.why}\n"


def write(result: Result, folder: Path, many: bool) -> None:
    files = {f"{text.name}.asn1": text.text for text in result.texts}
    files |= {"policy.toml": result.policy(many), "lowering.md": report.as_markdown(result)}
    folder.mkdir(parents=True, exist_ok=True)
    try:
        listed = json.loads((folder / "lowering.json").read_text("utf-8"))["modules"]
        earlier = {folder / Path(str(module["output"])).name for module in listed if module["output"] not in files}
    except (OSError, ValueError, KeyError, TypeError):
        earlier = set()
    read = {Path(module.source.path).resolve() for module in result.job.library.modules.values()}
    for path in sorted(path for path in earlier if path.is_file() and path.suffix == ".asn1"):
        if path.resolve() not in read:
            path.unlink()
            print(f"derguard-lower: {path}, which an earlier call wrote, is removed", file=sys.stderr)
    for name, text in (files | {"lowering.json": report.as_json(result)}).items():
        (folder / name).write_text(text, encoding="utf-8")


def run(words: argparse.Namespace) -> int:
    if not words.message:
        raise Fault("no message is named: --message NAME")
    if not words.output and not words.draft:
        raise Fault("neither -o FOLDER nor --draft FILE is there")
    library = Library()
    for module in (module for path in words.modules for module in read_modules(read_file(path))):
        library.add(module)
    bindings = read_bindings(words.bindings) if words.bindings else Bindings()
    bindings.check(library)
    messages = wanted(library, words.message)
    if words.draft:
        Path(words.draft).write_text(draft(library, bindings, messages), encoding="utf-8")
    if not words.output:
        return 0
    result = lower(library, bindings, messages, False)
    write(result, Path(words.output), any(name.rpartition(".")[2] == "*" for name in words.message))
    for message in result.messages:
        print(f"{message.name}: {message.mark}{message.unsigned}")
    for name, cause in ((one.name, cause) for one in result.messages for cause in one.causes[:3]):
        fault = cause.node.fault(f"{cause.place}: {cause.why}")
        print(f"derguard-lower: {name} can't go: {fault.shown()}", file=sys.stderr)
    for name in (name for name in (*bindings.bind, *bindings.depths) if name not in bindings.used):
        way = bindings.way(library, name)
        place = result.job.place_of(way)
        why = f"no message reaches {name}, which the bindings name"
        why += "" if place == way else ": a place begins at the definition that has the component"
        why += "" if place in (way, None) else f": {place}"
        print(f"derguard-lower: {why}", file=sys.stderr)
    return result.status


def main() -> int:
    """Runs the command line in a thread whose stack is large enough for nested types."""
    if hasattr(signal, "SIGPIPE"):
        signal.signal(signal.SIGPIPE, signal.SIG_DFL)  # where nobody reads on, as behind `| head`, this ends
    words = parser().parse_args()
    statuses: list[int] = []

    def work() -> None:
        try:
            statuses.append(run(words))
        except Fault as fault:
            print(f"derguard-lower: {fault.shown()}", file=sys.stderr)
        except OSError as error:
            print(f"derguard-lower: cannot write {error.filename}: {error.strerror}", file=sys.stderr)

    sys.setrecursionlimit(200_000)
    threading.stack_size(512 * 1024 * 1024)
    thread = threading.Thread(target=work)
    thread.start()
    thread.join()
    return statuses[0] if statuses else 2
