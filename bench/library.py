"""`derguard_passes`, called from C, beside the walk in process and what others wrote."""
from __future__ import annotations

import os

from measure import TOP, WALK, Chart, Work, compile_c, in_turn, peer_ns, say, walk_ns
from messages import CASES, module, name_of, policy_of
from peers import built, has, of

LIBRARY = os.path.join(os.environ.get("LIBRARY", os.path.join(TOP, "out/library")), "libderguard.a")
AIM = 15


def library(work: Work) -> list[Chart]:
    """A table of messages; nothing where the library isn't built."""
    if not os.path.exists(LIBRARY):
        say("The library: left out, since it isn't built (`make library`).\n")
        return []
    cases = {name: CASES[name] for name in ("order", "bulk", "nest", "text")}
    os.environ["MODULE"] = work.put("bench.asn1", module())
    os.environ["POLICY"] = work.put("bench.toml", policy_of("bench.asn1", cases))
    here = os.path.dirname(os.path.abspath(__file__))
    compile_c(work.path("library"), "-I" + os.path.join(TOP, "include"), os.path.join(here, "peer.c"),
              os.path.join(here, "peer_library.c"), LIBRARY)
    others, _ = built(work)
    say(f"### The library, called from C\n\nThe aim is {AIM} ns over the walk, on a route that a rule gives.\n")
    columns = ["derguard_passes", "walk", *others]
    say("| message | octets | " + " | ".join(f"{column}, ns" for column in columns) + " | over the walk |")
    say("|---" * (len(columns) + 3) + "|")
    for name, (declared, rules, octets) in cases.items():
        file = work.put(name + ".der", octets)
        measures = {"derguard_passes": lambda: peer_ns(work.path("library"), name_of(name), file)}
        if os.path.exists(WALK):
            measures["walk"] = lambda: walk_ns(declared, rules, octets, module())
        for other, program in others.items():
            if has(program, name):
                measures[other] = lambda other=other: peer_ns(others[other], of(other, name), file)
        times = in_turn(measures)
        over = f"{times['derguard_passes'] - times['walk']:.1f}" if "walk" in times else "-"
        told = " | ".join(f"{times[column]:.1f}" if column in times else "-" for column in columns)
        say(f"| {name} | {len(octets)} | {told} | {over} |")
    say()
    return []
