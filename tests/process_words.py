"""What the program answers to words, texts and messages, as a process over the files of examples/."""
from __future__ import annotations

import os
import shutil
import subprocess

from process import POLICY, Trial, run
from wire import EXAMPLES, PASSES, PROGRAM, STAYS, TOP, Answer, has_sanitizer

ROUTE = ["--from", "north", "--to", "south", "--message", "order"]
ZERO = "/dev/zero"
COMMANDS = ("", "check", "decide", "show", "encode", "test", "compare", "run", "ask", "mux")
BUILT_IN = "pass\nnot-allowed low First:3:18 $\npass\nundecodable BooleanContents at 5 $.urgent\n"
BOTH_FAIL = "not-allowed small Orders:8:45 $.qty, wide Orders:9:44 $.qty\n"


def words(trial: Trial) -> None:
    """No words, check and decide."""

    def tries(title: str, status: int, out: str, err: str, *given: object) -> None:
        trial.compare(title, run(*given), status, out, err)

    decide = ["decide", POLICY, *ROUTE]
    strict = ["decide", "examples/strict.toml", *ROUTE]
    bad_words, missing = "derguard: bad words\n", "derguard: cannot read examples/none.toml\n"
    tries("no words", 0, BUILT_IN, "")
    tries("check", 0, "ok: messages 1, rules 1\n", "", "check", POLICY)
    tries("a file that is missing", 2, "", missing, "check", "examples/none.toml")
    tries("a message that goes", 0, "pass\n", "", *decide, PASSES)
    tries("one that stays", 1, "not-allowed small Orders:8:45 $.qty\n", "", *decide, STAYS)
    tries("half an octet", 2, "", "derguard: bad hex\n", *decide, "30B")
    tries("a word that is not UTF-8", 2, "", bad_words, "check", os.fsdecode(b"\xff"))
    tries("a denying rule", 1, "denied-by big\n", "", *strict, "300D8003015F90810101A403020107")
    tries("two allowing rules", 1, BOTH_FAIL, "", *strict, STAYS)


def texts(trial: Trial) -> None:
    """Policies and modules that are no texts, are missing, or stand beside the policy."""
    octets = trial.file("octets.toml", b'modules = ["\xff"]\n')
    trial.compare("a policy that is not UTF-8", run("check", octets), 2, "", "derguard: Q1 Toml\n")
    alone = trial.file("alone.toml", 'modules = ["orders.asn1"]\n')
    wanted = f"derguard: cannot read {trial.folder}/orders.asn1\n"
    trial.compare("a module that is missing", run("check", alone), 2, "", wanted)
    shutil.copy(EXAMPLES / "orders.asn1", trial.folder)
    trial.compare("modules beside the policy", run("check", alone), 0, "ok: messages 0, rules 0\n")
    trial.compare("a folder", run("check", trial.folder), 2, "", f"derguard: cannot read {trial.folder}\n")


def obstacles(trial: Trial) -> None:
    """What is in the way at a path, as the system tells it."""
    last = "Nothing can be read at this path. Module files are looked for in the folder of the policy."
    lost = trial.folder / "lost.toml"
    lost.symlink_to(trial.folder / "nowhere.toml")
    found = {trial.folder / "none.toml": "There is no file.", trial.folder: "There is a folder in place of a file.",
             lost: "There is a link, and nothing where it leads."}
    for path, said in found.items():
        wanted = f"derguard: cannot read {path}\n  {said}\n  {last}\n"
        trial.compare(said, run("check", path, "--explain"), 2, "", wanted)


def endless(trial: Trial) -> None:
    """Files without an end: no more is read of one than it may have, and an octet."""
    (trial.folder / "zero.asn1").symlink_to(ZERO)
    module = trial.file("zero.toml", 'modules = ["zero.asn1"]\n')
    trial.compare("an endless module", run("check", module), 2, "", "derguard: L7 TextTooLong 1\n")
    got = run("show", POLICY, "--message", "order", "--der", ZERO)
    trial.compare("an endless message", got, 2, "", "derguard: message too long\n")
    if has_sanitizer():
        trial.leave_out("an endless policy", "an unproved program takes too long for 64 MiB")
        return
    for words in (["check", ZERO], ["test", POLICY, ZERO]):
        trial.compare(f"endless: {words[0]}", run(*words), 2, "", f"derguard: too large {ZERO}\n")


def version(trial: Trial) -> None:
    """The version is that of the file VERSION."""
    number = (TOP / "VERSION").read_text().strip()
    trial.compare("the version", run("--version"), 0, f"derguard {number}\n")


def help_(trial: Trial) -> None:
    """The example in the help of each command runs."""
    for command in COMMANDS:
        told = run("help", *command.split()).out.decode()
        examples = [line.removeprefix("  derguard ") for line in told.splitlines() if line.startswith("  derguard ")]
        trial.holds(f"help {command}", [] if examples else ["no example"])
        for example in examples:
            how = {"cwd": TOP, "stdin": subprocess.DEVNULL, "capture_output": True, "timeout": 60}
            done = subprocess.run(["sh", "-c", f'"$0" {example}', PROGRAM], **how)
            is_refused = any(line.startswith(b"derguard: ") for line in done.stderr.splitlines())
            wrong = [f"status {done.returncode}"] if done.returncode > 1 or is_refused else []
            trial.holds(f"help {command}: {example}", wrong)


def places(trial: Trial) -> None:
    """A fault with its place, of files on a disk."""
    module = trial.file("undefined.asn1", "Orders DEFINITIONS ::= BEGIN\nOrder ::= Quantity\nEND\n")
    policy = trial.file("undefined.toml", 'modules = ["undefined.asn1"]\n')
    fault = "derguard: N2 Undefined 1:2:11\n"
    meaning = "The name means nothing in this module. Assign it here, or import it; look for a misspelling."
    shown = f"  {module}:2:11\n  | Order ::= Quantity\n  |           ^\n  Quantity\n  {meaning}\n"
    trial.compare("a fault with its place", run("check", policy, "--explain"), 2, "", fault + shown)
    trial.compare("the fault alone", run("check", policy), 2, "", fault)


def refused_words(trial: Trial) -> None:
    """What clap says isn't compared, but where it goes."""
    for given in (["--help"], ["help"], ["decide", "--help"]):
        got = run(*given)
        trial.compare(" ".join(given), Answer(got.status, got.out[:0], got.err), 0)
        trial.holds(f"{' '.join(given)}: its text", [] if got.out else ["nothing is printed"])
    for given in (["pass"], ["check"]):
        got = run(*given)
        trial.compare(" ".join(given), Answer(got.status, got.out, got.err[:10]), 2, "", "derguard: ")
