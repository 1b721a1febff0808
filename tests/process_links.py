"""What the program does of many links in one stream of records, as a process."""
from __future__ import annotations

import os
import pathlib
import random
import shutil
import subprocess
from collections.abc import Callable

from process import PAYMENTS, POLICY, Trial, digest_note, made, one_frame, payments_frames, run, run_from, run_much
from process_streams import WRITE_FAILED, into_full
from wire import EXAMPLES, PROGRAM, TOP, Answer, by_link, has_sanitizer, piece, waits_until

LINKS = EXAMPLES / "payments/payments.mux"
TWO_REPORTS = """link 1 2 clearing>bank status not-allowed said-why PaymentRules:29:21 $
link 0 2 bank>clearing transfer not-allowed small PaymentRules:9:99 $.money.amount, sealed PaymentRules:13:3 $.seal
"""
DIGEST = digest_note(PAYMENTS)
READ_AGAIN = "derguard: policy read again, messages 3, rules 5\n" + DIGEST
TOTALS = "derguard: frames 6, passed 4, denied 2\nderguard: not-allowed 2\n"


def records(*pieces: tuple[int, bytes]) -> bytes:
    """What the script of examples/ makes of pieces of links."""
    return made("make-records", "".join(f"piece {link} {octets.hex()}\n" for link, octets in pieces))


def of_payments(*pairs: tuple[int, int]) -> bytes:
    """A record for each pair of a link and a line of payments.txt, with its frame."""
    return records(*((link, payments_frames(line)) for link, line in pairs))


def links(trial: Trial) -> None:
    """Two links of a family, what its notes say with a new policy between, and a record that is cut short."""
    stream = LINKS.read_bytes()
    is_made = made("make-records", (EXAMPLES / "payments/payments-links.txt").read_text()) == stream
    trial.holds("payments.mux", [] if is_made else ["not what its script makes"])
    quiet = run_from(LINKS, "mux", PAYMENTS)
    trial.compare("two links of a family", quiet, 1, of_payments((0, 1), (1, 5), (0, 2), (1, 7)), TWO_REPORTS)
    first, rest = quiet.err.decode().split("\n", 1)
    noted = f"{DIGEST}{first}\n{READ_AGAIN}{rest}{TOTALS}"
    trial.compare("notes of links", run_from(LINKS, "mux", PAYMENTS, "--verbose"), 1, quiet.out, noted)
    got, out = run("mux", PAYMENTS, stream=stream[:1100]), of_payments((0, 1), (1, 5), (0, 2))
    trial.compare("a record that is cut short", got, 3, out, TWO_REPORTS + "derguard: bad record\n")


def while_changing(folder: pathlib.Path, change: Callable[[], object]) -> Answer:
    """What comes of two links while the policy is changed. The change comes when the first frame is out, so the old one
    has been read; the record that asks for the new one comes after the change."""
    for name in ("orders.toml", "orders.asn1"):
        shutil.copyfile(EXAMPLES / name, folder / name)
    one, out, err = one_frame(), folder / "out", folder / "err"
    with open(out, "wb") as to_out, open(err, "wb") as to_err:
        how = {"cwd": TOP, "stdin": subprocess.PIPE, "stdout": to_out, "stderr": to_err}
        process = subprocess.Popen([PROGRAM, "mux", folder / "orders.toml"], **how)
        process.stdin.write(records((0, one[:20]), (1, one)))
        process.stdin.flush()
        waits_until(lambda: out.stat().st_size > 0, 10)
        change()
        process.stdin.write(made("make-records", f"reload\npiece 0 {one[20:].hex()}\n"))
        process.stdin.close()
        status = process.wait(60)
    return Answer(status, out.read_bytes(), err.read_bytes())


def new_policies(trial: Trial) -> None:
    """A policy that is read again after its file changed, is gone, is bad, or is the same."""
    policy, one = trial.folder / "orders.toml", one_frame()
    text = (EXAMPLES / "orders.toml").read_text()
    wide = text.replace('"small"', '"wide"').replace('"Small"', '"Wide"')
    first, both = records((1, one)), records((1, one), (0, one))
    stops = "link 0 1 north>south order not-allowed wide Orders:9:44 $.qty\n"

    def changing(title: str, status: int, out: bytes, err: str, change: Callable[[], object]) -> None:
        trial.compare(title, while_changing(trial.folder, change), status, out, err)

    changing("a policy that changed", 1, first, stops, lambda: policy.write_text(wide))
    changing("a policy that is gone", 2, both, f"derguard: cannot read {policy}\n", policy.unlink)
    changing("a policy that is bad", 2, both, "derguard: Q1 Toml\n", lambda: policy.write_text("="))
    changing("a policy that is the same", 0, both, "", lambda: None)
    stream = trial.file("one", first)
    into_full(trial, "records into a full device", stream, 3, WRITE_FAILED, "mux", POLICY)


def sixteen_links(trial: Trial) -> None:
    """Pieces of sixteen links, cut and mixed by a generator of numbers with the seed 7: on each link five frames that
    pass, whose 175 octets go out."""
    numbers, one, lines = random.Random(7), one_frame(), []
    left = {link: one * 5 for link in range(16)}
    while left:
        link = numbers.choice(sorted(left))
        size = numbers.randrange(60)
        lines.append(f"piece {link} {left[link][:size].hex()}\n")
        left[link] = left[link][size:]
        if not left[link]:
            del left[link]
            lines.append(f"end {link}\n")
    got = run("mux", POLICY, stream=made("make-records", "".join(lines)))
    trial.compare("sixteen links, cut and mixed", Answer(got.status, b"", got.err), 0)
    went = by_link(got.out)
    wrong = [f"link {link}: other octets went out" for link in range(16) if went.get(link) != one * 5]
    trial.holds("what goes out of sixteen links", wrong)


def many_records(trial: Trial) -> None:
    """Many records in constant memory: 2^14 of them, 64 times or as many as DERGUARD_RECORDS says, in 96 megabytes of
    addresses."""
    if has_sanitizer():
        trial.leave_out("many records", "the checks of an unproved program take more addresses")
        return
    times, one = int(os.environ.get("DERGUARD_RECORDS", "64")), one_frame()
    got, given = run_much(["mux", POLICY], (piece(1, one) + piece(0, one)) * 2**13, times, 96)
    trial.compare("many records", got, 0, given)
