"""Two decoders that others wrote, in process and on the same pipe, in one run with the guard, C by hand and `cat`."""
from __future__ import annotations

import concurrent.futures
import glob
import os
import shutil
import subprocess
import textwrap

from measure import (GUARD, HERE, OUT, WALK, Chart, Stream, Work, compile_c, in_turn, nanoseconds, peer_ns, say,
                     walk_ns)
from messages import CASES, frame, module, policy_of

SKELETONS = os.environ.get("ASN1C_SKELETONS", "/usr/share/asn1c")
CRATES = os.environ.get("CARGO_REGISTRY", "/usr/share/cargo/registry")
AIM = 1.2
LESS = {
    "C": "C by hand (bench/strict.c): DER strictly and one rule of one type; names are stepped over, and there is no "
         "policy and no report.",
    "asn1c": "{}: BER, so other encodings of a value are taken too; the constraints but those in WITH COMPONENTS "
             "(order's and bulk's rules aren't tested), no item of ENUMERATED, no policy and no report.",
    "asn1": "{}: DER by the types; no constraint, no item of ENUMERATED, no SET, no policy and no report.",
}


class Missing(Exception):
    """Why a decoder isn't measured."""


def version(package: str) -> str:
    words = ["dpkg-query", "-W", "-f", "${Package} ${Version}", package]
    try:
        return subprocess.run(words, capture_output=True, text=True, check=True).stdout
    except (OSError, subprocess.CalledProcessError):
        raise Missing(f"the Debian package {package} isn't installed") from None


def fresh(name: str) -> str:
    """An empty folder of this name."""
    place = os.path.join(OUT, "peers", name)
    shutil.rmtree(place, ignore_errors=True)
    os.makedirs(place)
    return place


def asn1c(program: str) -> str:
    """The code that asn1c makes of the module Bench, with -O2."""
    said, place, cc = version("asn1c"), fresh("asn1c"), os.environ.get("CC", "cc")
    with open(os.path.join(place, "bench.asn1"), "w") as file:
        file.write(module())
    words = ["asn1c", "-fcompound-names", "-S", SKELETONS, "bench.asn1"]
    subprocess.run(words, cwd=place, check=True, capture_output=True)
    os.remove(os.path.join(place, "converter-sample.c"))
    words = [cc, "-O2", "-w", "-I", place, "-c"]
    sources = sorted(glob.glob(os.path.join(place, "*.c")))
    with concurrent.futures.ThreadPoolExecutor(os.cpu_count()) as pool:
        list(pool.map(lambda source: subprocess.run([*words, source], cwd=place, check=True), sources))
    objects = glob.glob(os.path.join(place, "*.o"))
    own = [os.path.join(HERE, name) for name in ("peer.c", "peer_asn1c.c")]
    compile_c(program, "-w", "-I", place, "-I", HERE, *own, *objects)
    return f"{said} (with -O2 and its constraint check)"


def asn1(program: str) -> str:
    """The crate `asn1`, from the sources that Debian installs; nothing is fetched."""
    said = version("librust-asn1-dev")
    if not shutil.which("cargo"):
        raise Missing("there is no cargo")
    place, target = fresh("asn1"), os.path.join(OUT, "peers", "target")
    environment = {**os.environ, "CARGO_TARGET_DIR": target}
    shutil.copytree(os.path.join(HERE, "peer_asn1"), place, dirs_exist_ok=True)
    sources = ['source.crates-io.replace-with="debian"', f'source.debian.directory="{CRATES}"']
    words = ["cargo", "--config", sources[0], "--config", sources[1], "build", "--offline", "--release", "--quiet"]
    built = subprocess.run(words, cwd=place, env=environment, capture_output=True, text=True)
    if built.returncode:
        raise Missing(f"cargo doesn't build it from {CRATES}: {(built.stderr.splitlines() or ['no word'])[0]}")
    compile_c(program, os.path.join(HERE, "peer.c"), os.path.join(target, "release", "libpeer_asn1.a"))
    return f"{said} ({subprocess.run(['rustc', '--version'], capture_output=True, text=True).stdout.strip()})"


def built(work: Work) -> tuple[dict[str, str], list[str]]:
    """The programs that could be built, and a line for each that is compared with or left out."""
    programs, lines = {"C": work.path("strict")}, [LESS["C"]]
    for name, build in (("asn1c", asn1c), ("asn1", asn1)):
        try:
            lines.append(LESS[name].format(build(work.path("peer-" + name))))
            programs[name] = work.path("peer-" + name)
        except (Missing, subprocess.CalledProcessError) as why:
            lines.append(f"{name}: left out, since {why}.")
    return programs, lines


def of(peer: str, case: str) -> str:
    """What the peer calls its reader of this message: C has two of a text, and the one by lanes is the faster."""
    return "text-avx2" if (peer, case) == ("C", "text") else case


def has(program: str, case: str) -> bool:
    """Whether it has a reader of this message."""
    return subprocess.run([program, "pipe", case], stdin=subprocess.DEVNULL).returncode == 0


def peers(work: Work) -> list[Chart]:
    """What each checks less, and a table in process and on a pipe."""
    programs, lines = built(work)
    say("### Beside decoders that others wrote\n")
    say("What each checks less than the guard:\n")
    for line in lines:
        say(textwrap.fill(f"- {line}", 120, subsequent_indent="  "))
    work.put("bench.asn1", module())
    path = work.put("bench.toml", policy_of("bench.asn1", CASES))
    readers = {name: {case for case in CASES if has(program, case)} for name, program in programs.items()}
    in_process(work, programs, readers)
    on_a_pipe(work, programs, readers, path)
    return []


def row(name: str, octets: int, columns: list[str], times: dict[str, float]) -> None:
    say(f"| {name} | {octets} | " + " | ".join(f"{times[c]:.1f}" if c in times else "-" for c in columns) + " |")


def heading(first: str, columns: list[str]) -> None:
    say(f"\n| {first} | " + " | ".join(f"{column}, ns" for column in columns) + " |")
    say("|---" * (len(columns) + 2) + "|")


def in_process(work: Work, programs: dict[str, str], readers: dict[str, set[str]]) -> None:
    columns = ["walk", *programs]
    heading("a message in process | octets", columns)
    for name, (declared, rules, octets) in CASES.items():
        file = work.put(name + ".der", octets)
        measures = {peer: lambda peer=peer: peer_ns(programs[peer], of(peer, name), file)
                    for peer in programs if name in readers[peer]}
        if os.path.exists(WALK):
            measures["walk"] = lambda: walk_ns(declared, rules, octets, module())
        row(name, len(octets), columns, in_turn(measures))


def on_a_pipe(work: Work, programs: dict[str, str], readers: dict[str, set[str]], path: str) -> None:
    columns = ["cat", "derguard run", *programs]
    heading("a frame on a pipe | octets", columns)
    shares = []
    for name, (_, _, octets) in CASES.items():
        one = frame(name, octets)
        words = {"cat": ["cat"], "derguard run": [GUARD, "run", path]}
        words |= {peer: [programs[peer], "pipe", of(peer, name)] for peer in programs if name in readers[peer]}
        file = work.put(name + ".frame", one)
        times = nanoseconds({who: Stream(work, file, said) for who, said in words.items()})
        row(name, len(one), columns, times)
        shares.append(f"{name} {times['derguard run'] / times['C']:.2f}")
    say(f"\n`derguard run` beside C on a pipe, of which the aim is {AIM} at most: {', '.join(shares)}.\n")
