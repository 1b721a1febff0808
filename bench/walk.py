"""One call of the walk in process, beside C for the one type and a copy of the octets."""
from __future__ import annotations

import os

from measure import WALK, Chart, Work, in_turn, loads_soon, peer_ns, say, walk_ns
from messages import (ALPHABETS, CASES, LENGTHS, alphabets_module, element, lengths_module, module, number, policy_of)

AIMS = {"order": 1.3, "bulk": 0.6, "nest": 1.1, "text": 1.4, "set": 3, "set-of": 1.5}


def walk(work: Work) -> list[Chart]:
    """A table of messages, what many rules and items cost, and a set in two ways; nothing where no walk is built."""
    if not os.path.exists(WALK):
        say("The walk in process: left out, since crates/conformance isn't built (`rt run` in that folder).\n")
        return []
    say("### The walk beside C written for the one type\n")
    say("| message | octets | walk, ns | C, ns | walk / C | aim | copy, ns |\n|---|---|---|---|---|---|---|")
    found = []
    for name, (declared, rules, octets) in CASES.items():
        case, file = "text-avx2" if name == "text" else name, work.put(name + ".der", octets)
        times = in_turn({
            "walk": lambda: walk_ns(declared, rules, octets, module()),
            "c": lambda: peer_ns(work.path("strict"), case, file),
            "copy": lambda: peer_ns(work.path("strict"), "copy", file),
        })
        ratio, aim = times["walk"] / times["c"], AIMS.get(name)
        say(f"| {name} | {len(octets)} | {times['walk']:.1f} | {times['c']:.1f} | {ratio:.2f} | {aim or '-'} "
            f"| {times['copy']:.1f} |")
        found.append((name, ratio, aim))
    say()
    many_rules()
    many_items()
    spelled(work)
    return [("The walk, times C written for the one type", found)]


def many_rules() -> None:
    octets = element(2, number(70_000))
    times = in_turn({many: lambda many=many: walk_ns("Number", [f"R{n}" for n in range(many)], octets, ranges(many))
                     for many in (1, 127)})
    say(f"127 rules with a range on one number, the most that a table takes: {times[127]:.1f} ns, "
        f"{times[127] / times[1]:.1f} times as long as one (aim 3).\n")


def ranges(rules: int) -> str:
    lines = "\n".join(f"R{n} ::= Number ({n}..{n + 100_000})" for n in range(rules))
    return f"Bench DEFINITIONS AUTOMATIC TAGS ::= BEGIN\nNumber ::= INTEGER\n{lines}\nEND\n"


def many_items() -> None:
    octets = {many: element(10, number(2 * many - 2)) for many in (2, 70_000)}
    times = in_turn({many: lambda many=many: walk_ns("Items", [], octets[many], items(many)) for many in octets})
    say(f"The last of 70,000 items, no two of them side by side: {times[70_000]:.1f} ns, "
        f"{times[70_000] / times[2]:.1f} times as long as the last of two.\n")


def items(many: int) -> str:
    lines = ",".join(f"a{letters(n)}({2 * n})" for n in range(many))
    return f"Bench DEFINITIONS AUTOMATIC TAGS ::= BEGIN\nItems ::= ENUMERATED {{{lines}}}\nEND\n"


def letters(n: int) -> str:
    """A number in letters, so that the names of 70,000 items leave room for their numbers in a mebioctet."""
    return (letters(n // 26) if n >= 26 else "") + chr(ord("a") + n % 26)


def spelled(work: Work) -> None:
    """The same set written in two ways, one after the other."""
    kinds = {name: (*case, alphabets_module()) for name, case in ALPHABETS.items()}
    work.put("lengths.asn1", lengths_module())
    if loads_soon("A set of 30,000 sizes", work.put("lengths.toml", policy_of("lengths.asn1", LENGTHS))):
        kinds |= {name: (*case, lengths_module()) for name, case in LENGTHS.items()}
    say("| the walk over, and the set of its rule as written | walk, ns |\n|---|---|")
    for name, (declared, rules, octets, text) in kinds.items():
        say(f"| {name} | {walk_ns(declared, rules, octets, text):.1f} |")
    say()
