"""Erlang's ASN.1 compiler, in a process that answers lines (codec.erl), and asn1c's programs."""
import base64
import dataclasses
import pathlib
import re
import shutil
import subprocess

HERE = pathlib.Path(__file__).resolve().parent
HEADER = re.compile(r"(?m)^([A-Z][\w-]*)[^\n]*\bDEFINITIONS\b")


@dataclasses.dataclass(frozen=True)
class Value:
    """A value that was encoded: its octets, and the term that they decode to; its notation where that was asked for."""

    octets: bytes
    term: str
    notation: str = ""


def modules_of(text: str) -> list[tuple[str, str]]:
    """The modules of a text with their names; each ends with a line END."""
    found = []
    for part in re.split(r"(?m)(?<=^END$)", text):
        header = HEADER.search(part)
        if header:
            found.append((header.group(1), part))
    return found


def missing() -> list[str]:
    """Which of the Debian packages that are needed aren't there."""
    wanted = [("erlc", "erlang-base"), ("erl", "erlang-base")]
    lacking = sorted({package for program, package in wanted if not shutil.which(program)})
    if lacking:
        return [*lacking, "erlang-asn1"]
    asked = "halt(case code:lib_dir(asn1) of {error, _} -> 1; _ -> 0 end)."
    return ["erlang-asn1"] if subprocess.run(["erl", "-noshell", "-eval", asked]).returncode else []


def build(folder: pathlib.Path) -> None:
    """Compiles the Erlang side into a folder."""
    subprocess.run(["erlc", "-o", str(folder), str(HERE / "codec.erl")], check=True)


class Codec:
    """The compiler over modules in a folder of their own; beams is where `build` put the Erlang side."""

    def __init__(self, folder: pathlib.Path, beams: pathlib.Path) -> None:
        self.folder = folder
        folder.mkdir(parents=True, exist_ok=True)
        self.process = subprocess.Popen(
            ["erl", "-noshell", "+S", "1", "-pa", str(beams), "-run", "codec", "main"], cwd=folder,
            stdin=subprocess.PIPE, stdout=subprocess.PIPE, stderr=subprocess.DEVNULL,
            text=True, encoding="utf-8", errors="replace",
        )

    def ask(self, *words: object) -> list[str]:
        self.process.stdin.write(" ".join(map(str, words)) + "\n")
        self.process.stdin.flush()
        lines = []
        while (line := self.process.stdout.readline()) != ".\n":
            if not line:
                raise RuntimeError(f"Erlang ended at {words[:3]}")
            lines.append(line.rstrip("\n"))
        return lines

    def close(self) -> None:
        self.process.stdin.close()
        self.process.wait(30)

    def compile(self, texts: list[tuple[str, str]]) -> str:
        """What is wrong with the modules, or nothing."""
        for name, text in texts:
            (self.folder / f"{name}.asn1").write_text(text)
        said = self.ask("compile", *[f"{name}.asn1" for name, _ in texts])
        return "; ".join(line for line in said if line.startswith(("refused", "error")))

    def values(self, kind: str, seed: int, count: int, notation: bool = False) -> tuple[list[Value], list[str]]:
        """Random values of a type, and why others couldn't be made."""
        found, failed = [], []
        for line in self.ask("texts" if notation else "values", *kind.rsplit(".", 1), seed, count):
            if not line.startswith("value "):
                failed.append(line.removeprefix("failed "))
                continue
            octets, term, *rest = line.split(" ")[1:]
            found.append(Value(bytes.fromhex(octets), term, base64.b64decode(rest[0]).decode() if rest else ""))
        return found, failed

    def encode(self, kind: str, term: str) -> tuple[bytes, str]:
        """The octets of a value in Erlang's syntax, and what was wrong with it if there are none."""
        said = self.ask("encode", *kind.rsplit(".", 1), base64.b64encode(term.encode()).decode())[0]
        is_fine = said.startswith("octets ")
        return (bytes.fromhex(said.removeprefix("octets ")), "") if is_fine else (b"", said)

    def decodes(self, kind: str, octets: bytes) -> str:
        """Nothing where the octets are a value of the type, else why not."""
        said = self.ask("decode", *kind.rsplit(".", 1), octets.hex())
        return "" if said == ["ok"] else said[0]

    def same(self, kind: str, octets: bytes, term: str, encodes: bool = True) -> str:
        """What it says of octets that should be the value of a term, and with `encodes` what that is encoded to."""
        return self.ask("same" if encodes else "equal", *kind.rsplit(".", 1), octets.hex(), term)[0]
