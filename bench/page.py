"""What was measured, on what, and when; and the plot."""
from __future__ import annotations

import datetime
import hashlib
import os
import subprocess

from measure import GUARD, TOP, WALK, Chart, give_up, put


def program(path: str) -> str:
    """The path, size and digest of a program."""
    if not os.path.exists(path):
        return f"{os.path.basename(path)}, not built"
    with open(path, "rb") as file:
        octets = file.read()
    shown = os.path.relpath(path, TOP) if path.startswith(TOP + os.sep) else path
    return f"{shown}, {len(octets):,} octets, sha256 {hashlib.sha256(octets).hexdigest()[:16]}"


def commit() -> str:
    words = ["git", "-C", TOP, "describe", "--always", "--dirty", "--abbrev=12"]
    return subprocess.run(words, capture_output=True, text=True).stdout.strip() or "no repository"


def load() -> str:
    return f"{os.getloadavg()[0]:.2f}"


def busy() -> bool:
    return os.getloadavg()[0] > 1


def about() -> list[str]:
    """Lines that name a run: a page that shows its figures repeats them."""
    if not os.access(GUARD, os.X_OK):
        give_up(f"{GUARD} isn't there: `make` builds it, or DERGUARD says where it is")
    with open("/proc/cpuinfo") as file:
        models = [line.split(":")[1].strip() for line in file if line.startswith("model name")]
    compiler = subprocess.run([os.environ.get("CC", "cc"), "--version"], capture_output=True, text=True).stdout
    return [
        f"- program: {program(GUARD)}",
        f"- walk in process: {program(WALK)}",
        f"- sources: commit {commit()}",
        f"- machine: {os.cpu_count()} processors, {(models or ['an unknown one'])[0]}",
        f"- kernel: {os.uname().sysname} {os.uname().release}; C compiler: {compiler.splitlines()[0]}",
        f"- date: {datetime.datetime.now(datetime.timezone.utc):%Y-%m-%d %H:%M} UTC; load before: {load()}",
    ]


HEAD = """# Figures of one run

Written by `bench/run --keep`. docs/PERFORMANCE.md says what is measured and what the figures mean."""


def keep(lines: list[str], picture: str) -> None:
    """Writes bench/figures.md and bench/figures.svg anew."""
    bench = os.path.join(TOP, "bench")
    with open(os.path.join(bench, "figures.md"), "w") as file:
        file.write("\n".join([HEAD, "", *lines, ""]))
    with open(os.path.join(bench, "figures.svg"), "w") as file:
        file.write(picture)
    put("bench/run: bench/figures.md and bench/figures.svg have these figures")


def plot(charts: list[Chart]) -> str:
    """Bars of ratios, one chart above the other, as SVG; a line marks the aim of a bar."""
    rows = [(title, bar) for title, bars in charts for bar in [None, *bars] if bar is None or bar[1] > 0]
    height, at, parts = 26 * len(rows) + 20, 30, []
    for title, bar in rows:
        if bar is None:
            parts.append(f'<text x="10" y="{at}" font-weight="bold">{title}</text>')
        else:
            parts += a_bar(at, *bar)
        at += 26
    return (f'<svg xmlns="http://www.w3.org/2000/svg" width="860" height="{height}" font-family="sans-serif" '
            f'font-size="13"><rect width="860" height="{height}" fill="white"/>{"".join(parts)}</svg>\n')


def a_bar(at: int, name: str, ratio: float, aim: float | None) -> list[str]:
    wide = min(ratio, 12) * 40
    parts = [
        f'<text x="290" y="{at}" text-anchor="end">{name}</text>',
        f'<rect x="300" y="{at - 12}" width="{wide:.0f}" height="15" fill="#4878a8"/>',
        f'<text x="{306 + wide:.0f}" y="{at}">{ratio:.2f}</text>',
    ]
    if aim:
        across = f"{300 + aim * 40:.0f}"
        ends = f'x1="{across}" x2="{across}" y1="{at - 15}" y2="{at + 6}"'
        parts.append(f'<line {ends} stroke="#c03030" stroke-width="2"/>')
    return parts
