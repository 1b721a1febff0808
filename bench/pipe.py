"""`derguard run` on frames from a pipe, beside `cat`; and growth with what a policy and a message hold."""
from __future__ import annotations

from measure import GUARD, Chart, FileStream, Stream, Work, loads_soon, nanoseconds, say
from messages import (ALPHABETS, CASES, LENGTHS, Case, alphabets_module, element, frame, lengths_module, module,
                      name_of, number, numbers, order, policy, policy_of)

AIMS = {"order": 4, "bulk": 1.4, "nest": 3, "text": 1.2}


def pipe(work: Work) -> list[Chart]:
    """A table of messages on a pipe, and then those of files and of sets in two ways."""
    say("### `derguard run` on a pipe, beside `cat`\n")
    say("| frames | octets of one | run, ns a frame | cat, ns a frame | run / cat | aim | run, MB/s |")
    say("|---|---|---|---|---|---|---|")
    work.put("bench.asn1", module())
    path, found = work.put("bench.toml", policy_of("bench.asn1", CASES)), []
    for name, (_, _, octets) in CASES.items():
        one = frame(name, octets)
        frames = work.put(name + ".frame", one)
        times = nanoseconds({"run": Stream(work, frames, [GUARD, "run", path]), "cat": Stream(work, frames, ["cat"])})
        ratio, aim = times["run"] / times["cat"], AIMS.get(name)
        say(f"| {name} | {len(one)} | {times['run']:.1f} | {times['cat']:.1f} | {ratio:.2f} | {aim or '-'} "
            f"| {len(one) * 1e3 / times['run']:.0f} |")
        found.append((name, ratio, aim))
    say()
    files(work, path)
    spelled(work)
    return [("`run` on a pipe, times `cat`", found)]


def files(work: Work, path: str) -> None:
    """The same frames where they lie in a file, into a pipe and into a file."""
    columns = "`run` from a pipe into `/dev/null`, ns a frame | from a file into a pipe | from a file into a file"
    say(f"| frames | {columns} |")
    say("|---|---|---|---|")
    for name in ("order", "text"):
        frames, words = work.path(name + ".frame"), [GUARD, "run", path]
        times = nanoseconds({"pipe": Stream(work, frames, words), **{
            to_a_file: FileStream(work, frames, words, to_a_file) for to_a_file in (False, True)}})
        say(f"| {name} | {times['pipe']:.1f} | {times[False]:.1f} | {times[True]:.1f} |")
    say()


def spelled(work: Work) -> None:
    """The same set written in two ways, one after the other."""
    work.put("alphabets.asn1", alphabets_module())
    work.put("lengths.asn1", lengths_module())
    alphabets = work.put("alphabets.toml", policy_of("alphabets.asn1", ALPHABETS))
    lengths = work.put("lengths.toml", policy_of("lengths.asn1", LENGTHS))
    times = spelled_times(work, ALPHABETS, alphabets)
    if loads_soon("A set of 30,000 sizes", lengths):
        times |= spelled_times(work, LENGTHS, lengths)
    say("| frames that go, and the set of their rule as written | run, ns a frame | times the line before |")
    say("|---|---|---|")
    before = None
    for what, taken in times.items():
        say(f"| {what} | {taken:.1f} | {'-' if before is None else f'{taken / before:.2f}'} |")
        before = taken if before is None else None
    say()


def spelled_times(work: Work, cases: dict[str, Case], path: str) -> dict[str, float]:
    frames = {what: work.put(name_of(what) + ".frame", frame(name_of(what), octets))
              for what, (_, _, octets) in cases.items()}
    return nanoseconds({what: Stream(work, file, [GUARD, "run", path]) for what, file in frames.items()})


# ---- growth

def growth(work: Work) -> list[Chart]:
    """A table of what grows, each from its least to its most."""
    say("### Growth\n")
    say("| what grows | from | to | ns of one, from | ns of one, to | times as long |\n|---|---|---|---|---|---|")
    work.put("bench.asn1", module())
    path = work.put("bench.toml", policy_of("bench.asn1", CASES))
    small, found = frame("order", CASES["order"][2]), []

    def row(what: str, ends: tuple[int, int], streams: list[Stream], per: tuple[int, int] = (1, 1)) -> None:
        times = nanoseconds(dict(enumerate(streams)))
        first, last = (times[at] / per[at] for at in (0, 1))
        say(f"| {what} | {ends[0]} | {ends[1]} | {first:.1f} | {last:.1f} | {last / first:.2f} |")
        found.append((f"{what}, {ends[0]} to {ends[1]}", last / first, None))

    def stream(octets: bytes, policy_file: str, command: str = "run") -> Stream:
        return Stream(work, work.put(f"growth-{len(octets)}", octets), [GUARD, command, policy_file])

    lists = [frame("bulk", order(numbers(many, 32_768))) for many in (256, 2560, 25_600, 256_000)]
    for one, other in zip(lists, lists[1:]):
        row("octets of a message", (len(one), len(other)), [stream(octets, path) for octets in (one, other)])
    for what, most, make, octets in (
        ("rules on the route", 255, with_rules, FREE),
        ("senders of a message", 255, with_senders, FREE),
        ("messages of a policy", 10_000, with_messages, small),
    ):
        made = [work.put(f"{name_of(what)}-{many}.toml", make(many)) for many in (1, most)]
        row(what, (1, most), [stream(octets, file) for file in made])
    links = [stream(on_links(many, small), path, "mux") for many in (1, 16)]
    row("links of `mux`, all in use", (1, 16), links, (1, 16))
    say()
    return [("Growth: times as long", found)]


FREE = frame("free", element(0x30, element(0x80, number(5)) + element(0x81, number(1))))


def with_rules(many: int) -> str:
    rules = [(f"r{n}", "north", "south", "free", "Free") for n in range(many)]
    return policy(["bench.asn1"], [("free", "Free")], rules)


def with_senders(many: int) -> str:
    others = [(f"r{n}", f"s{n}", "south", "free", "Free") for n in range(many - 1)]
    return policy(["bench.asn1"], [("free", "Free")], [("r", "north", "south", "free", "Free"), *others])


def with_messages(many: int) -> str:
    messages = [("order", "Order")] + [(f"m{n}", "Order") for n in range(many - 1)]
    return policy(["bench.asn1"], messages, [("r", "north", "south", "order", "Small")])


def on_links(many: int, one: bytes) -> bytes:
    """One frame for each link, each in a record of its own."""
    return b"".join(b"\0" + link.to_bytes(2, "big") + len(one).to_bytes(4, "big") + one for link in range(many))
