"""What derguard-lower makes of published modules: how many go as they stand, lowered, and with holes left out."""
import collections
import concurrent.futures
import dataclasses
import json
import pathlib
import re
import shutil
import subprocess
import time

from . import codec, corpus, guard, seeded, walks

SLOW = 20.0
FORMS = ("as they stand", "lowered", "left out")
NOTHING = "no message"
MOST = 40


@dataclasses.dataclass
class Found:
    """What came of one module in one form; going counts those of its types that can be lowered."""

    whole: bool
    seconds: float
    cause: str
    fault: str = ""
    types: int = 0
    going: int = 0


def stands(files: list[pathlib.Path], folder: pathlib.Path) -> Found:
    """Whether the guard accepts a module with its imports as they are."""
    folder.mkdir(parents=True)
    names = []
    for number, file in enumerate(files):
        names.append(f"m{number}.asn1")
        shutil.copy(file, folder / names[-1])
    policy = folder / "policy.toml"
    policy.write_text(f"modules = {json.dumps(names)}\n")
    begin = time.monotonic()
    fault = guard.check(policy)
    return Found(not fault, time.monotonic() - begin, " ".join(fault.split()[1:4]))


def call(words: list[str], seconds: float) -> tuple[int, str, float]:
    """derguard-lower with these words: status, what it said, seconds; status -1 where it took too long."""
    begin = time.monotonic()
    try:
        done = subprocess.run([guard.LOWER, *words], capture_output=True, text=True, errors="replace", timeout=seconds)
    except subprocess.TimeoutExpired:
        return -1, "too slow", seconds
    return done.returncode, done.stderr, time.monotonic() - begin


def lowered(words: list[str], files: list[pathlib.Path], folder: pathlib.Path) -> Found:
    """Whether all messages of the words can be lowered."""
    status, said, seconds = call([*words, "-o", str(folder), *map(str, files)], 3 * SLOW)
    fault = ""
    if "Traceback" in said or status not in (0, 1, 2):
        fault = "too slow" if status == -1 else "crash " + (said.strip().splitlines() or ["nothing said"])[-1]
    elif (folder / "policy.toml").is_file():
        refused = guard.check(folder / "policy.toml")
        fault = f"refused {refused}" if refused else ""
    elif status < 2:
        fault = "nothing was written"
    cause, report, marks = said.strip()[:200], folder / "lowering.json", []
    if report.is_file():
        read = json.loads(report.read_text())
        marks = [message["mark"] for message in read["messages"]]
        causes = collections.Counter(cause["cause"] for cause in read["left_out"])
        cause = "; ".join(f"{one} {many}" for one, many in causes.most_common(3))
        fault = fault or ("" if marks else NOTHING)
    return Found(status in (0, 1) and not fault, seconds, cause, fault, len(marks), len(marks) - marks.count("can't"))


def measured(module: corpus.Module, modules: list[corpus.Module], folder: pathlib.Path) -> dict[str, Found]:
    """A module in each of the three forms."""
    shutil.rmtree(folder, ignore_errors=True)
    folder.mkdir(parents=True)
    files, draft = corpus.put_down(modules, folder / "texts"), folder / "draft.toml"
    words = ["--message", f"{module.name}.*"]
    first = lowered(words, files, folder / "lowered")
    found = {FORMS[0]: stands(files, folder / "stands"), FORMS[1]: first, FORMS[2]: first}
    if not first.whole:
        status, said, seconds = call([*words, "--draft", str(draft), *map(str, files)], 3 * SLOW)
        crash = f"crash {said.strip().splitlines()[-1]}" if "Traceback" in said else ""
        found[FORMS[2]] = Found(False, seconds, said.strip()[:200], crash)
        if draft.is_file():
            found[FORMS[2]] = lowered([*words, "--bindings", str(draft)], files, folder / "left-out")
    return found


def tried(
    module: corpus.Module, modules: list[corpus.Module], folder: pathlib.Path, words: seeded.Words,
    outcome: seeded.Outcome,
) -> None:
    """Random values of the messages of a module that were lowered, where Erlang compiles it."""
    place = next(folder / name for name in ("left-out", "lowered") if (folder / name / "lowering.json").is_file())
    report = json.loads((place / "lowering.json").read_text())
    messages = {message["source"]: message for message in report["messages"]}
    lowered = guard.Lowered(place, report["status"], "", messages, report)
    texts = [(other.name, corpus.text_of(other.file)[other.begin : other.end]) for other in modules]
    going = [kind for kind, message in messages.items() if message["mark"] != "can't"]
    wanted = [{"type": kind, "terms": False, "rare": True} for kind in going[:MOST]]
    case = seeded.compiled(module.name, wanted, lowered, texts, folder / "codec", outcome) if wanted else None
    if case:
        outcome.counts["published messages"] += len(wanted)
        seeded.try_messages(case, words.seed, words.values, outcome)
        seeded.close(case)


def table(results: dict[str, dict[str, Found]], groups: list[corpus.Specification]) -> str:
    """The table: whole modules, and specifications that are whole."""
    places = {group.name: [f"{group.name}/{module.name}" for module in group.modules] for group in groups}
    known = [[place for place in found if place in results] for found in places.values()]
    known = [found for found in known if found]
    types = sum(found[FORMS[1]].types for found in results.values())
    lines = [f"| form | modules, of {len(results)} | specifications, of {len(known)} | types, of {types} |"]
    lines.append("|---|---|---|---|")
    for form in FORMS:
        whole = {place for place, found in results.items() if found[form].whole}
        entire = sum(whole.issuperset(found) for found in known)
        going = sum(found[form].going for found in results.values())
        lines.append(f"| {form} | {len(whole)} | {entire} | {going or '-'} |")
    return "\n".join(lines)


def summary(results: dict[str, dict[str, Found]]) -> tuple[str, int]:
    """What is at fault, and how often each cause is in the way."""
    wrong, causes = [], collections.Counter()
    for place, forms in results.items():
        for form, found in forms.items():
            if found.fault:
                wrong.append(f"{place}, {form}: {found.fault}")
            elif form != FORMS[0] and found.seconds > SLOW:
                wrong.append(f"{place}, {form}: {found.seconds:.0f} s")
        if not forms[FORMS[2]].whole:
            causes[re.sub(r"\d+$", "", forms[FORMS[2]].cause.split(";")[0]).strip()[:60]] += 1
    lines = [f"at fault: {line}" for line in wrong]
    lines += [f"in the way: {many:4} {cause}" for cause, many in causes.most_common(12)]
    return "\n".join(lines), len(wrong)


def run(cache: pathlib.Path, only: list[str], words: seeded.Words, jobs: int) -> int:
    """Fetches, measures so many modules at a time and prints; the status is 1 where something crashed, was refused, was
    slow or differs."""
    outcome = seeded.Outcome()
    corpus.fetch(cache)
    groups, known = corpus.specifications(cache)
    groups = [group for group in groups if not only or group.name in only]
    wanted = [(group, module) for group in groups for module in group.modules]
    needed = [corpus.needed(module, known[group.name]) for group, module in wanted]
    folders = [cache / "work" / group.name.replace(" ", "-") / module.name for group, module in wanted]
    results: dict[str, dict[str, Found]] = {}
    with concurrent.futures.ThreadPoolExecutor(jobs) as pool:
        came = pool.map(measured, [module for _, module in wanted], needed, folders)
        for (group, module), modules, folder, found in zip(wanted, needed, folders, came):
            place, faults = f"{group.name}/{module.name}", {one.fault for one in found.values() if one.fault}
            whole = [form for form in FORMS if found[form].whole]
            print(f"{place}: {', '.join(whole) or '-'} {', '.join(faults)}".rstrip(), flush=True)
            if NOTHING not in faults:
                results[place] = found
            if words.values and (folder / "lowered/lowering.json").is_file():
                codec.build(folder)
                tried(module, modules, folder, words, outcome)
    (cache / "results.json").write_text(json.dumps(results, default=dataclasses.asdict, indent=1))
    text, wrong = summary(results)
    print(table(results, groups), text, sep="\n")
    walks.try_fetched(cache / corpus.DISSECTORS / "goose/goose.asn", cache / "work/goose-policy", outcome)
    for line in outcome.differ:
        print(f"differs: {line}")
    outcome.tell()
    return 1 if wrong or outcome.differ else 0
