"""Calls examples/library/derguard.py. The words are a file of frames, and two of what the program makes of them."""
from __future__ import annotations

import pathlib
import sys
import threading
from collections.abc import Callable

sys.path.insert(0, "examples/library")
sys.dont_write_bytecode = True
import derguard

ROUTE = ("north", "south", "order")
NAMES = b"\5north\5south\5order"
GOOD = bytes.fromhex("300B800105810101A403020107")
GREAT = bytes.fromhex("300E80010581010082010BA403020107")
module, text = (pathlib.Path("examples", name).read_bytes() for name in ("orders.asn1", "orders.toml"))
stream, out, reports = (pathlib.Path(word).read_bytes() for word in sys.argv[1:])


def refusal(call: Callable[..., object], *words: object) -> tuple[int, str]:
    """The status and text of the error that a call raises."""
    try:
        call(*words)
    except derguard.Error as error:
        return error.status, str(error)
    raise SystemExit(f"{call} raised no error")


assert derguard.version() == pathlib.Path("VERSION").read_text().strip()
policy = derguard.Policy()
assert not policy.passes(*ROUTE, GOOD)
assert refusal(policy.verdict, *ROUTE, GOOD)[0] == derguard.NO_POLICY
assert refusal(policy.share)[0] == derguard.NO_POLICY
policy.load([module], text)
assert policy.passes(*ROUTE, GOOD) and not policy.passes(*ROUTE, GREAT)
assert policy.passes_as_framed(NAMES, GOOD) and not policy.passes_as_framed(NAMES + b"x", GOOD)
assert policy.verdict(*ROUTE, GOOD) == "pass"
assert policy.verdict(*ROUTE, GREAT) == "not-allowed small Orders:8:45 $.qty"
assert refusal(policy.verdict, "no name", "south", "order", GOOD)[0] == derguard.BAD_NAMES
status, fault = refusal(policy.load, [], text)
assert status == derguard.REFUSED and fault.startswith("Q"), fault
assert policy.passes(*ROUTE, GOOD)

other = policy.share()
del policy


def judge(mine: derguard.Policy) -> None:
    """Judges a thousand times and more, beside other threads."""
    for _ in range(2000):
        assert mine.passes(*ROUTE, GOOD) and not mine.passes(*ROUTE, GREAT)


threads = [threading.Thread(target=judge, args=(each,)) for each in (other, other, other.share(), other.share())]
for thread in threads:
    thread.start()
for thread in threads:
    thread.join()

for size in (1, 7, 100, len(stream)):
    link = derguard.Link()
    pieces = [stream[at : at + size] for at in range(0, len(stream), size)]
    assert b"".join(link.feed(other, piece) for piece in pieces) == out
    assert link.reports() == reports and link.reports() == b""
    link.end()
    assert refusal(link.end)[0] == derguard.CLOSED
    assert refusal(link.feed, other, b"x")[0] == derguard.CLOSED
link = derguard.Link()
link.feed(other, stream[:5])
assert refusal(link.end)[0] == derguard.TORN_FRAME
assert refusal(derguard.Link().feed, other, b"\xff\xff\xff\xff")[0] == derguard.FRAME_TOO_LONG
if derguard.tomllib:
    assert derguard.Policy.from_file("examples/orders.toml").passes(*ROUTE, GOOD)
