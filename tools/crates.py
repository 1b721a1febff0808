"""The crates of the repository, as crates.txt lists them."""
from __future__ import annotations

import pathlib
import re


def listed(top: pathlib.Path) -> dict[str, list[str]]:
    """Each crate, from the bottom up, with those that it stands on, of which some are the toolchain's."""
    lines = re.findall(r"(?m)^(\w+)[^:\n]*:(.*)$", (top / "crates.txt").read_text())
    return {name: words.split() for name, words in lines}
