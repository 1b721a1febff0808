"""What the program does of streams of frames, as a process: what goes out, what is reported, and how devices fail."""
from __future__ import annotations

import os
import subprocess
import time

from process import FULL, PAYMENTS, POLICY, Trial, digest_note, made, one_frame, payments_frames
from process import run, run_from, run_much
from wire import EXAMPLES, PASSES, PROGRAM, TOP, Answer, has_sanitizer, piece

ORDERS_STREAM = EXAMPLES / "orders.frames"
REPORTS = """2 north>south order not-allowed small Orders:8:45 $.qty
3 south>north order no-rule
4 north>south ordre unknown-message
5 north>south order undecodable MissingComponent at 8 $.lines
"""
PAYMENTS_REPORTS = """\
3 bank>clearing transfer not-allowed small PaymentRules:9:99 $.money.amount, sealed PaymentRules:13:3 $.seal
4 bank>clearing transfer denied-by listed
6 clearing>bank status not-allowed said-why PaymentRules:29:21 $
9 bank>clearing inquiry no-rule
10 bank>clearing transfer outside-type PaymentBasics:22:21 $.money.amount
11 clearing>bank status undecodable SetOfOrder at 78 $.reasons[1]
"""
REASONS = "unknown-message", "undecodable", "not-allowed", "no-rule"
WRITE_FAILED = "derguard: F2 WriteFailed\n"
NONE_YET = "derguard: frames 0, passed 0, denied 0\n"
DIGEST = digest_note(POLICY)


def sent() -> bytes:
    """What goes out of the example stream."""
    return made("make-frames", f"north south order {PASSES}\n" * 2)


def streams(trial: Trial) -> None:
    """The example stream, none, one frame, a torn one, and a policy that is none."""
    one = one_frame()
    trial.compare("the example stream", run_from(ORDERS_STREAM, "run", POLICY), 1, sent(), REPORTS)
    trial.compare("no frames", run("run", POLICY), 0)
    trial.compare("one frame", run("run", POLICY, stream=one), 0, one)
    trial.compare("a torn frame", run("run", POLICY, stream=one[:34]), 3, "", "derguard: F4 TornFrame\n")
    none = trial.file("none.toml", "modules = 1\n")
    trial.compare("no policy", run("run", none, stream=one), 2, "", "derguard: Q3 MissingKey top modules\n")


def notes(trial: Trial) -> None:
    """Notes behind the reports, and behind a fault."""
    totals = "derguard: frames 6, passed 2, denied 4\n" + "".join(f"derguard: {reason} 1\n" for reason in REASONS)
    got = run_from(ORDERS_STREAM, "run", POLICY, "--verbose")
    trial.compare("notes of a stream", got, 1, sent(), DIGEST + REPORTS + totals)
    fault = f"{DIGEST}derguard: F4 TornFrame\nderguard: frame 1, octets 34\n{NONE_YET}"
    got = run("run", POLICY, "--verbose", stream=one_frame()[:34])
    trial.compare("notes of a torn frame", got, 3, "", fault)


def system(trial: Trial) -> None:
    """What the system says: an output that is full, a folder to read from, and no policy."""
    no_policy, no_file = trial.folder / "no.toml", "No such file or directory (os error 2)"
    is_folder = f"{DIGEST}derguard: F5 ReadFailed\nderguard: standard input: Is a directory (os error 21)\n{NONE_YET}"
    is_full = f"{DIGEST}{WRITE_FAILED}derguard: standard output failed\n"
    is_full += f"derguard: standard output: No space left on device (os error 28)\n{NONE_YET}"
    inputs = {"run": trial.file("one", one_frame()), "mux": trial.file("record", piece(0, one_frame()))}
    for command, stream in inputs.items():
        into_full(trial, f"{command} with a full output", stream, 3, is_full, command, POLICY, "--verbose")
        got = run_from(trial.folder, command, POLICY, "--verbose")
        trial.compare(f"{command} from a folder", got, 3, "", is_folder)
        missing = f"derguard: cannot read {no_policy}\nderguard: {no_policy}: {no_file}\n"
        trial.compare(f"{command} without a policy", run(command, no_policy, "--verbose"), 2, "", missing)


def into_full(trial: Trial, title: str, stream: os.PathLike, status: int, err: str, *words: object) -> None:
    """One case of an output that takes nothing."""
    if not os.access(FULL, os.W_OK):
        trial.leave_out(title, f"{FULL} is not there")
        return
    with open(FULL, "wb") as full:
        trial.compare(title, run_from(stream, *words, out=full), status, "", err)


def family(trial: Trial) -> None:
    """The message family of four modules: of eleven frames five pass."""
    trial.compare("check of a family", run("check", PAYMENTS), 0, "ok: messages 3, rules 5\n")
    got = run_from(EXAMPLES / "payments/payments.frames", "run", PAYMENTS)
    trial.compare("a family", got, 1, payments_frames(1, 2, 5, 7, 8), PAYMENTS_REPORTS)


def slow_writer(trial: Trial) -> None:
    """A slow writer that cuts anywhere."""
    stream, cut = ORDERS_STREAM.read_bytes(), 0
    pipes = {"stdin": subprocess.PIPE, "stdout": subprocess.PIPE, "stderr": subprocess.PIPE}
    process = subprocess.Popen([PROGRAM, "run", POLICY], cwd=TOP, **pipes)
    for size in (1, 2, 3, 5, 7, 11, 13, 17, 19, 23, 29, 31, 37, 500):
        process.stdin.write(stream[cut : cut + size])
        process.stdin.flush()
        cut += size
        time.sleep(0.02)
    out, err = process.communicate(timeout=60)
    trial.compare("a slow writer", Answer(process.returncode, out, err), 1, sent(), REPORTS)


def devices(trial: Trial) -> None:
    """A full device, a reader that goes away, and standard error that is closed: no signal ends the program."""
    one = one_frame()
    single, many = trial.file("one", one), trial.file("many", one * 24 * 256)
    into_full(trial, "a full device", single, 3, WRITE_FAILED, "run", POLICY)
    into_full(trial, "check on a full device", single, 3, WRITE_FAILED, "check", POLICY)
    with open(many, "rb") as stream:
        how = {"cwd": TOP, "stdin": stream, "stdout": subprocess.PIPE, "stderr": subprocess.PIPE}
        process = subprocess.Popen([PROGRAM, "run", POLICY], **how)
    first = process.stdout.read(10)
    process.stdout.close()
    err = process.stderr.read()
    trial.compare("a reader that goes away", Answer(process.wait(60), first, err), 3, one[:10], WRITE_FAILED)
    # The frame that goes in front of the report is out, and nothing else.
    words = ["sh", "-c", '"$0" run "$1" < "$2" 2>&-', PROGRAM, POLICY, ORDERS_STREAM]
    done = subprocess.run(words, cwd=TOP, capture_output=True, timeout=60)
    got = Answer(done.returncode, done.stdout, done.stderr)
    trial.compare("standard error that is closed", got, 3, one)


def never_blocking(trial: Trial) -> None:
    """Descriptors that don't block (O_NONBLOCK): what isn't there yet, and room that isn't, is waited for."""
    one = one_frame()
    ends = os.pipe()
    os.set_blocking(ends[0], False)
    pipes = {"cwd": TOP, "stdout": subprocess.PIPE, "stderr": subprocess.PIPE}
    process = subprocess.Popen([PROGRAM, "run", POLICY], stdin=ends[0], **pipes)
    os.close(ends[0])
    for part in (one[:9], one[9:]):
        time.sleep(0.2)
        os.write(ends[1], part)
    os.close(ends[1])
    out, err = process.communicate(timeout=60)
    trial.compare("an input that doesn't block", Answer(process.returncode, out, err), 0, one)
    # More than a pipe holds, with a reader that is late.
    many, ends = trial.file("many", one * 6000), os.pipe()
    os.set_blocking(ends[1], False)
    with open(many, "rb") as stream:
        how = {"cwd": TOP, "stdin": stream, "stdout": ends[1], "stderr": subprocess.PIPE}
        process = subprocess.Popen([PROGRAM, "run", POLICY], **how)
    os.close(ends[1])
    time.sleep(0.5)
    with open(ends[0], "rb") as reader:
        out = reader.read()
    err = process.stderr.read()
    trial.compare("an output that doesn't block", Answer(process.wait(60), out, err), 0, one * 6000)


def many_frames(trial: Trial) -> None:
    """Many frames that pass, in constant memory: blocks of a megabyte, 64 of them or as many as DERGUARD_BLOCKS says,
    in 64 megabytes of addresses."""
    if has_sanitizer():
        trial.leave_out("many frames", "the checks of an unproved program take more addresses")
        return
    times = int(os.environ.get("DERGUARD_BLOCKS", "64"))
    got, given = run_much(["run", POLICY], one_frame() * 24 * 256 * 5, times, 64)
    trial.compare("many frames", got, 0, given)
