"""The tool's own tests, and the examples that begin with a published module: what it makes of that, and their cases."""
import os
import pathlib
import re
import shlex
import subprocess
import sys
import tempfile

from . import guard
from .seeded import Outcome

COMMAND = re.compile(r"^```sh norun\n(derguard-lower .*?)^```", re.S | re.M)


def try_own_tests(outcome: Outcome) -> None:
    """The small modules of lower/test_*.py, for each construct: the program accepts what each becomes."""
    words = [sys.executable, "-B", "-m", "unittest", "discover", "-q", "-s", str(guard.TOP / "lower")]
    settings = {**os.environ, "DERGUARD": str(guard.PROGRAM)}
    done = subprocess.run(words, capture_output=True, text=True, env=settings)
    if done.returncode:
        outcome.differ.append(f"lower/test_*.py: {done.stderr.strip()}")


def pages() -> list[pathlib.Path]:
    """The pages of examples that call derguard-lower."""
    found = sorted((guard.TOP / "examples").glob("*/README.md"))
    return [page for page in found if COMMAND.search(page.read_text())]


def try_walk(page: pathlib.Path, outcome: Outcome) -> None:
    """The call of a page writes what is there, and the cases of its example come out as wanted."""
    example, command = page.parent, COMMAND.search(page.read_text()).group(1)
    words = shlex.split(command.replace("\\\n", " "))[1:]
    outcome.counts["examples lowered again"] += 1
    kept = guard.TOP / words[words.index("-o") + 1]
    with tempfile.TemporaryDirectory() as folder:
        words[words.index("-o") + 1] = folder
        done = subprocess.run([guard.LOWER, *words], cwd=guard.TOP, capture_output=True, text=True, timeout=60)
        if done.returncode:
            outcome.differ.append(f"{example.name}: status {done.returncode}: {done.stderr.strip()}")
        made = {path.name: path.read_text() for path in pathlib.Path(folder).iterdir() if path.suffix != ".json"}
    there = {path.name: path.read_text() for path in kept.iterdir() if path.suffix != ".json"}
    for name in sorted(made.keys() | there.keys()):
        if made.get(name) != there.get(name):
            outcome.differ.append(f"{example.name}: {name} isn't what the command of the page writes")
    try_cases(example / f"{example.name}.toml", outcome)


def try_cases(policy: pathlib.Path, outcome: Outcome) -> None:
    done = subprocess.run([guard.PROGRAM, "test", str(policy), "--cover"], capture_output=True, text=True, timeout=120)
    if done.returncode or not re.fullmatch(r"ok: cases \d+\n", done.stdout):
        outcome.differ.append(f"{policy}: {(done.stdout + done.stderr).strip()}")


def try_fetched(module: pathlib.Path, folder: pathlib.Path, outcome: Outcome) -> None:
    """The example whose module is fetched, over a module that is there."""
    script = guard.TOP / "examples/goose/make-policy"
    settings = {**os.environ, "LOWER": str(guard.LOWER)}
    made = subprocess.run([script, folder, module], capture_output=True, text=True, env=settings)
    if made.returncode:
        outcome.differ.append(f"goose: {(made.stdout + made.stderr).strip()}")
    else:
        try_cases(folder / "goose.toml", outcome)
