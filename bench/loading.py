"""`derguard check`: seconds, and the room of the program itself."""
from __future__ import annotations

import os
from collections.abc import Iterator

from measure import GUARD, TOP, TURNS, Chart, Work, say, seconds_and_room
from messages import LENGTHS, lengths_module, module, policy, policy_of


# What a policy is called, its path, and the aim.
Loaded = tuple[str, str, str]


def loading(work: Work) -> list[Chart]:
    """A table of policies."""
    say("### Loading (`derguard check`)\n")
    say("| policy | seconds | MiB held at most | aim |\n|---|---|---|---|")
    for what, path, aim in [*examples(), *large(work)]:
        measured = [seconds_and_room(work, [GUARD, "check", path])]
        while len(measured) < TURNS and sum(m[0] for m in measured) < 3:
            measured.append(seconds_and_room(work, [GUARD, "check", path]))
        say(f"| {what} | {min(m[0] for m in measured):.4f} | {max(m[1] for m in measured):.1f} | {aim} |")
    say()
    return []


def examples() -> Iterator[Loaded]:
    """The policies of examples/."""
    for name, file, aim in (("orders", "orders.toml", "-"), ("minimal", "minimal/policy.toml", "-"),
                            ("railway", "railway/railway.toml", "-"), ("payments", "payments/payments.toml", "0.02 s")):
        yield f"the example {name}", os.path.join(TOP, "examples", file), aim


def large(work: Work) -> Iterator[Loaded]:
    """Policies near what a limit lets."""
    types = "\n".join(f"T{n} ::= INTEGER (0..{n})" for n in range(34_000))
    work.put("large.asn1", f"Bench DEFINITIONS AUTOMATIC TAGS ::= BEGIN\n{types}\nEND\n")
    yield ("a module of 1 MiB, 34,000 types",
           work.put("large.toml", policy(["large.asn1"], [("t", "T9")], [])), "-")
    work.put("lengths.asn1", lengths_module())
    yield "a set of 30,000 sizes", work.put("lengths.toml", policy_of("lengths.asn1", LENGTHS)), "-"
    work.put("bench.asn1", module())
    messages = [(f"m{n}", "Order") for n in range(100)]
    rules = [(f"r{n}", f"s{n % 7}", "south", f"m{n % 100}", "Small") for n in range(10_000)]
    yield "10,000 rules over 100 messages", work.put("rules.toml", policy(["bench.asn1"], messages, rules)), "1 s"
    work.put("tree.asn1", tree())
    rules = [(f"r{n}", "north", "south", "c", "C") for n in range(255)]
    yield ("255 rules of a type of 92,000 nodes",
           work.put("tree.toml", policy(["tree.asn1"], [("c", "C")], rules)), "5 s, 1 GB")


def tree() -> str:
    """A SEQUENCE of 22 SEQUENCEs of 64 SEQUENCEs of 64 numbers."""

    def level(name: str, many: int, part: str) -> str:
        return f"{name} ::= SEQUENCE {{{', '.join(f'c{n} {part}' for n in range(many))}}}"

    levels = level("A", 64, "INTEGER"), level("B", 64, "A"), level("C", 22, "B")
    return "\n".join(["Bench DEFINITIONS AUTOMATIC TAGS ::= BEGIN", *levels, "END", ""])
