"""derguard and derguard-lower, as programs."""
import dataclasses
import json
import os
import pathlib
import re
import subprocess

TOP = pathlib.Path(__file__).resolve().parent.parent.parent
PROGRAM = pathlib.Path(os.environ.get("DERGUARD", TOP / "crates/derguard/out/derguard")).resolve()
LOWER = pathlib.Path(os.environ.get("LOWER", TOP / "lower/derguard-lower")).resolve()
ROUTE = ("a", "b")


@dataclasses.dataclass
class Lowered:
    """What derguard-lower made: its status, what it said, and each message with its mark by the original's name."""

    folder: pathlib.Path
    status: int
    said: str
    messages: dict[str, dict]
    report: dict
    seconds: float = 0.0


def lower(sources: list[pathlib.Path], messages: list[str], folder: pathlib.Path, bindings: pathlib.Path | None = None,
          seconds: float = 120) -> Lowered:
    """Lowers modules for some messages into a folder."""
    words = [word for message in messages for word in ("--message", message)]
    words += ["--bindings", str(bindings)] if bindings else []
    words += ["-o", str(folder), *map(str, sources)]
    done = subprocess.run([LOWER, *words], capture_output=True, text=True, timeout=seconds)
    place = folder / "lowering.json"
    report = json.loads(place.read_text()) if place.is_file() else {"messages": []}
    found = {message["source"]: message for message in report["messages"]}
    return Lowered(folder, done.returncode, (done.stdout + done.stderr).strip(), found, report)


def check(policy: pathlib.Path, seconds: float = 300) -> str:
    """The fault of a policy or its modules, or nothing."""
    try:
        words = [PROGRAM, "check", str(policy)]
        done = subprocess.run(words, capture_output=True, text=True, errors="replace", timeout=seconds)
    except subprocess.TimeoutExpired:
        return f"derguard: not done after {seconds} s"
    return "" if done.returncode == 0 else done.stderr.strip()


def open_policy(lowered: Lowered) -> pathlib.Path:
    """A policy with each message that went, `message-0` and so on in their order, and a rule that allows all of it."""
    text = f"modules = {json.dumps([module['output'] for module in lowered.report['modules']])}\n"
    for number, message in enumerate(lowered.messages.values()):
        if message["mark"] != "can't":
            where = f'module = "{message["module"]}"\ntype = "{message["type"]}"\n'
            text += f'\n[[message]]\nname = "message-{number}"\n{where}\n[[rule]]\nname = "rule-{number}"\n'
            text += 'effect = "allow"\n'
            text += f'from = "{ROUTE[0]}"\nto = "{ROUTE[1]}"\nmessage = "message-{number}"\n{where}'
    path = lowered.folder / "open.toml"
    path.write_text(text)
    return path


def verdicts(policy: pathlib.Path, messages: list[tuple[str, bytes]]) -> list[str]:
    """What becomes of messages in one stream: `pass`, or the text of the line."""
    stream = b""
    for name, octets in messages:
        body = b"".join(bytes([len(word)]) + word.encode() for word in (*ROUTE, name)) + octets
        stream += len(body).to_bytes(4, "big") + body
    done = subprocess.run([PROGRAM, "run", str(policy)], input=stream, capture_output=True, timeout=300)
    if done.returncode > 1:
        raise RuntimeError(done.stderr.decode(errors="replace"))
    said = ["pass"] * len(messages)
    for line in done.stderr.decode(errors="replace").splitlines():
        number, _, text = re.match(r"(\d+) (\S+ \S+) (.*)$", line).groups()
        said[int(number) - 1] = text
    return said


def listing(lowered: Lowered) -> pathlib.Path:
    """A policy whose messages are lists of the lowered ones, `list-0` and so on in their order, for `encode_all`."""
    folder = lowered.folder / "lists"
    folder.mkdir(exist_ok=True)
    modules = lowered.report["modules"]
    texts = {module["name"]: (lowered.folder / module["output"]).read_text().rstrip() for module in modules}
    policy = f"modules = {json.dumps([f'{name}.asn1' for name in texts])}\n"
    for number, message in enumerate(lowered.messages.values()):
        if message["mark"] != "can't":
            home = message["module"]
            texts[home] = f"{texts[home].removesuffix('END')}List-Of-{number} ::= SEQUENCE OF {message['type']}\nEND"
            policy += f'[[message]]\nname = "list-{number}"\nmodule = "{home}"\ntype = "List-Of-{number}"\n'
    for name, text in texts.items():
        (folder / f"{name}.asn1").write_text(text + "\n")
    (folder / "policy.toml").write_text(policy)
    return folder / "policy.toml"


def elements(octets: bytes) -> list[bytes]:
    """The elements of a SEQUENCE OF in DER."""
    found, at = [], head(octets, 0)[0]
    while at < len(octets):
        contents, size = head(octets, at)
        found.append(octets[at : contents + size])
        at = contents + size
    return found


def head(octets: bytes, at: int) -> tuple[int, int]:
    """Where the contents of an element begin, and their length."""
    at += 1
    if octets[at - 1] & 31 == 31:
        while octets[at] & 128:
            at += 1
        at += 1
    many = octets[at] & 127 if octets[at] & 128 else 0
    return at + 1 + many, int.from_bytes(octets[at + 1 : at + 1 + many], "big") if many else octets[at]


def encode_all(policy: pathlib.Path, number: int, notations: list[str]) -> tuple[list[bytes], str]:
    """The octets of values of a message, all in one call, and what was said if it failed."""
    words = [PROGRAM, "encode", str(policy), "--message", f"list-{number}"]
    done = subprocess.run(words, input=("{" + ", ".join(notations) + "}").encode(), capture_output=True, timeout=300)
    if done.returncode > 1:
        return [], done.stderr.decode(errors="replace").strip()
    return elements(bytes.fromhex(done.stdout.decode().strip())), ""
