"""Programs that asn1c makes of modules: they decode BER, look at constraints, and encode in DER."""
import pathlib
import re
import shutil
import subprocess


def missing() -> list[str]:
    """Which of the Debian packages that are needed aren't there."""
    return [package for program, package in (("asn1c", "asn1c"), ("cc", "gcc")) if not shutil.which(program)]


class Converter:
    """A program that reads and writes all types of modules."""

    def __init__(self, folder: pathlib.Path) -> None:
        self.folder = folder
        self.program = folder / "converter"
        folder.mkdir(parents=True, exist_ok=True)

    def compile(self, texts: list[tuple[str, str]], kind: str) -> str:
        """What is wrong with the modules, or nothing; kind is one of their types."""
        for name, text in texts:
            (self.folder / f"{name}.asn1").write_text(text)
        words = ["asn1c", "-fcompound-names", "-fwide-types", "-pdu=all", *[f"{name}.asn1" for name, _ in texts]]
        made = subprocess.run(words, cwd=self.folder, capture_output=True, text=True, errors="replace")
        if made.returncode:
            return (made.stderr.strip().splitlines() or ["nothing said"])[-1]
        sources = sorted(path.name for path in self.folder.glob("*.c"))
        words = ["cc", "-w", "-O0", "-I.", "-DASN_PDU_COLLECTION", f"-DPDU={kind}", "-o", "converter", *sources]
        built = subprocess.run(words, cwd=self.folder, capture_output=True, text=True)
        return "" if built.returncode == 0 else built.stderr.strip().splitlines()[-1]

    def again(self, kind: str, octets: list[bytes]) -> tuple[bytes, str]:
        """What it encodes of octets that it has decoded, one behind the other, and what it said."""
        names = []
        for number, one in enumerate(octets):
            names.append(f"value-{number}")
            (self.folder / names[-1]).write_bytes(one)
        words = [str(self.program), "-p", re.sub(r".*\.", "", kind), "-iber", "-oder", "-c", *names]
        done = subprocess.run(words, cwd=self.folder, capture_output=True)
        return done.stdout, done.stderr.decode(errors="replace").strip()

    def differ(self, kind: str, octets: list[bytes]) -> list[tuple[bytes, str]]:
        """Those octets that it refuses or encodes otherwise, each with what came instead."""
        if not octets or self.again(kind, octets)[0] == b"".join(octets):
            return []
        found = []
        for one in octets:
            came, said = self.again(kind, [one])
            if came != one:
                found.append((one, came.hex().upper() or said))
        return found
