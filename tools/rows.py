"""Files of rows for a run without proof: those of a crate, without the rows that are marked as too slow for it.

In a file of rows `# slow` stands above a row that takes seconds or minutes under the checks of `rt try`, and
`# slow 3` above three of them. They are left out here, each line of them an empty one, so that all others keep
their numbers; the gate, which builds the program of proved code, tries them.
"""
from __future__ import annotations

import pathlib
import re
from dataclasses import dataclass, field

MARK = re.compile(r"# slow(?: (\d+))?")
COUNT = re.compile(r"([\w/]+\.rows): (\d+) rows")
WALKED = re.compile(r"([\w/]+\.rows): (\d+) rows, (\d+) octet strings, (\d+) differ")
COUNT_HEAD = re.compile(r"(?m)^([\w/]+\.rows): (\d+) rows(?:$|, \d+ with)")
WRONG = re.compile(r"(?m)^([\w/]+\.rows):(\d+): (.*)\n    answered: (.*)$")


@dataclass
class LaidOut:
    """A folder with a crate's data/, in which some files have their rows and all others are empty; and how many rows
    were left out of those files."""

    folder: pathlib.Path
    files: list[str] = field(default_factory=list)
    left_out: dict[str, int] = field(default_factory=dict)


def is_row(line: str) -> bool:
    return bool(line) and not line.startswith("|") and line != "#" and not line.startswith("# ") and "=>" in line


def without_slow(text: str) -> tuple[str, int]:
    """The text without its marked rows and the lines in front of them, and how many rows those are."""
    left, lines, count = 0, [], 0
    for line in text.split("\n"):
        mark = MARK.fullmatch(line)
        left = int(mark.group(1) or 1) if mark else left
        is_comment = line == "#" or line.startswith("# ")
        lines.append("" if left and not is_comment else line)
        if left and is_row(line):
            left, count = left - 1, count + 1
    return "\n".join(lines), count


def laid_out(data: pathlib.Path, folder: pathlib.Path, many: int) -> list[LaidOut]:
    """So many copies of the folder data/, each with its part of the files of rows, without what is marked."""
    made = [LaidOut(folder / str(number)) for number in range(many)]
    paths = sorted(path for path in data.rglob("*") if path.is_file() and path.suffix != ".md")
    for number, path in enumerate(paths):
        name = str(path.relative_to(data))
        for place, one in enumerate(made):
            target = one.folder / "data" / name
            target.parent.mkdir(parents=True, exist_ok=True)
            if path.suffix != ".rows":
                target.write_bytes(path.read_bytes())
            elif number % many != place:
                target.touch()
            else:
                text, one.left_out[name] = without_slow(path.read_text())
                target.write_text(text)
                one.files.append(name)
    return made


def wrong_rows(crate: str, out: str) -> list[str]:
    """Each row with another answer: its place and text, what is written, and what was answered."""
    found = []
    for file, number, row, answered in WRONG.findall(out):
        question, _, expected = row.partition("=>")
        place = f"crates/{crate}/data/{file}:{number}: {question.strip()}"
        found.append(f"{place}\n    expected: {expected.strip()}\n    answered: {answered}")
    return found


def other_counts(crate: str, stdout: str, out: str, laid: LaidOut) -> list[str]:
    """Where the file `stdout` of the crate, which the gate compares, says another number of rows or octet strings."""
    said, wrong = out.splitlines(), []
    for line in stdout.splitlines():
        file = line.partition(":")[0]
        walked, counted, less = WALKED.fullmatch(line), COUNT.fullmatch(line), laid.left_out.get(file, 0)
        if file not in laid.files or walked and less:
            continue
        wanted = f"{file}: {int(counted.group(2)) - less} rows" if counted and less else line
        if wanted not in said:
            of_file = [each for each in said if each.startswith(f"{file}: ")]
            now = [each for each in of_file if bool(WALKED.match(each)) == bool(walked)]
            beside = f", of which {less} are left out here" if less else ""
            wrong.append(f"crates/{crate}/stdout says `{line}`{beside}; the program says {now or 'nothing of it'}")
    return wrong


def answered(out: str, laid: LaidOut) -> int:
    """How many rows of these files were answered."""
    return sum(int(number) for file, number in COUNT_HEAD.findall(out) if file in laid.files)
