"""Frames of one kind and nothing else: what goes, and each reason for which a frame stays."""
from __future__ import annotations

import os
import subprocess

from measure import GUARD, TOP, Chart, Stream, Work, give_up, nanoseconds, say
from messages import ALPHABETS, TEXT, TEXT_WRONG_AT_ITS_END, alphabets_module, frame, name_of, order, policy_of

ORDERS = os.path.join(TOP, "examples", "orders.toml")
STRICT = os.path.join(TOP, "examples", "strict.toml")
SMALL = order([7])
GOES = frame("order", SMALL)
NOT_ALLOWED = frame("order", order([7], quantity=11))

# What it is called, what it may cost at most beside one that goes, the word of its report line (none where it goes),
# the policy, the frames.
Kind = tuple[str, int | None, str | None, str, bytes]
KINDS: list[Kind] = [
    ("goes", None, None, ORDERS, GOES),
    ("bad header", 4, "bad-header", ORDERS, frame("ord r", SMALL)),
    ("unknown-message", 4, "unknown-message", ORDERS, frame("ordre", SMALL)),
    ("undecodable: an octet after the message", 10, "undecodable", ORDERS, frame("order", SMALL + b"\0")),
    ("no-rule", 4, "no-rule", ORDERS, frame("order", SMALL, "south", "north")),
    ("not-allowed", 10, "not-allowed", ORDERS, NOT_ALLOWED),
    ("outside-type", 10, "outside-type", ORDERS, frame("order", order([7], id=100_000))),
    ("denied-by", 4, "denied-by", STRICT, frame("order", order([7], id=95_000, quantity=2))),
    ("one that goes and one that is not allowed, for both", None, "not-allowed", ORDERS, GOES + NOT_ALLOWED),
]


def texts(work: Work) -> list[Kind]:
    """A text of a million characters under one alphabet written in two ways: it goes, and it stays for its last one."""
    work.put("alphabets.asn1", alphabets_module())
    path = work.put("alphabets.toml", policy_of("alphabets.asn1", ALPHABETS))
    kinds = []
    for what, written in (("text, ranges", '"0".."9" \\| "A".."F"'), ("text, a string", '"0123456789ABCDEF"')):
        for becomes, word, octets in (("goes", None, TEXT), ("stays", "not-allowed", TEXT_WRONG_AT_ITS_END)):
            name = f"a text of 1,000,000 under `FROM ({written})` that {becomes}"
            kinds.append((name, None, word, path, frame(name_of(what), octets)))
    return kinds


def is_as_said(words: list[str], frames: bytes, word: str | None) -> None:
    """One copy of the frames gives this report and no other."""
    done = subprocess.run(words, input=frames, capture_output=True)
    lines = done.stderr.decode().splitlines()
    if [word in line.split() for line in lines] != ([True] if word else []):
        give_up(f"{' '.join(words)} reports {lines} where {word or 'nothing'} was meant")


# An option that tells more, and what `run` with it may cost at most beside `run` without: for frames that go, and for
# those that aren't allowed.
TELLING = [("--verbose", 1.05, 1.1), ("--counts", 1.02, 1.02), ("--json", None, None)]


def telling(work: Work) -> None:
    """The same frames with an option that tells more, beside the same without."""
    say("With an option that tells more, the reports to `/dev/null`:\n")
    say("| option | frames | `run`, ns a frame | with the option | times | aim |")
    say("|---|---|---|---|---|---|")
    for option, going, staying in TELLING:
        more = [option] + [work.path("counts.prom")] * (option == "--counts")
        for name, frames, status, aim in (("goes", GOES, 0, going), ("not-allowed", NOT_ALLOWED, 1, staying)):
            file = work.put("flood.frames", frames)
            words = {told: [GUARD, "run", ORDERS] + told * more for told in (False, True)}
            times = nanoseconds({told: Stream(work, file, words[told], status, False) for told in words})
            share = f"{times[True] / times[False]:.2f}"
            say(f"| `{option}` | {name} | {times[False]:.0f} | {times[True]:.0f} | {share} | {aim or '-'} |")
    say()


def flood(work: Work) -> list[Chart]:
    """A table of the kinds, and one of what tells more of them."""
    say("### A flood of one kind\n")
    say("`run`, nanoseconds a frame, with the reports to `/dev/null` and to a pipe that `cat` reads.\n")
    say("| frames | octets | ns a frame | ns a frame, reports to a pipe | times one that goes | aim | writes |")
    say("|---|---|---|---|---|---|---|")
    goes = None
    for name, aim, word, path, frames in KINDS + texts(work):
        words, file = [GUARD, "run", path], work.put("flood.frames", frames)
        is_as_said(words, frames, word)
        status = 1 if word else 0
        times = nanoseconds({piped: Stream(work, file, words, status, piped) for piped in (False, True)})
        goes = goes or times[False]
        share = f"{times[False] / goes:.1f}" if len(frames) < 1000 else "-"
        writes = f"{Stream(work, file, words).writes():.3f}" if len(frames) < 1000 else "-"
        say(f"| {name} | {len(frames)} | {times[False]:.0f} | {times[True]:.0f} | {share} | {aim or '-'} | {writes} |")
    say()
    telling(work)
    return []
