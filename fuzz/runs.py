#!/usr/bin/env python3
"""Random calls of the program, judged by a judge that is written apart from it. A call is made of a seed and a number (cases.py): a
description of up to 40 streams, a file, branches of a file, its lines in groups, a case of three numbers, a ledger; files that are there or not, folders, named pipes, a full
disk, outputs that fail. What is printed, the status and the files that are left are compared with what the documents say
(judge.py), and each ledger that is printed is audited by the program too. Prints the seed, and each case that is wrong. As root it
goes on as nobody, so that there are files that it may not read.

usage: fuzz/runs.py [--seed S] [--first N] [--cases N] [--minutes M] [--lie NAME] [--until-found] [--seconds N] [--quiet]

FLUME has the words that call the program; else it is the proved one where it is built, or is built unproved."""
import argparse, pathlib, signal, subprocess, sys, tempfile, time

sys.path.insert(0, str(pathlib.Path(__file__).resolve().parent))
import judge, lies, outside, printed
from cases import case_of
from described import Refused, plan_of
from program import become_nobody, words_in
from streams import Merged
from words import command_of


# The most bytes of one read of a list.
OF_LISTS = 4_096


def settings():
    parser = argparse.ArgumentParser(description="Random calls of the program, judged.")
    parser.add_argument("--seed", default=str(time.time_ns()))
    parser.add_argument("--first", type=int, default=0)
    parser.add_argument("--cases", type=int, default=1_000_000_000)
    parser.add_argument("--minutes", type=float, default=1_000_000.0)
    parser.add_argument("--lie", choices=sorted(lies.LIES))
    parser.add_argument("--until-found", action="store_true")
    parser.add_argument("--seconds", type=int, default=outside.SECONDS)
    parser.add_argument("--quiet", action="store_true")
    return parser.parse_args()


def meets(case, call):
    """Tells the judge of the call that fails, once the description is read."""
    command = command_of(case.words)
    if not case.trip or command is None:
        return
    if command[0] in ("tee", "eval"):
        outside.trip(case, call, command[1] if command[0] == "tee" else 4_096)
    elif isinstance(case.source, bytes):
        try:
            plan = plan_of(case.source)
        except Refused:
            return
        is_list = plan.listing and plan.listing.path == case.trip[0]
        outside.trip(case, call, OF_LISTS if is_list else plan.numbers["chunk"])


def audit_of(program, out):
    """What the program's own audit prints of the ledger that stands last in an output."""
    at = out.rfind(b"\nledger ") + 1 if not out.startswith(b"ledger ") else 0
    ran = subprocess.run([*program, "audit"], input=out[at:], capture_output=True, timeout=outside.SECONDS)
    return ran.stdout


def is_run(call, seen):
    command = command_of(call.words)
    return command is not None and command[0] in ("cat", "run", "tee", "eval") and seen.status in (0, 1, 7) and call.out_told and call.out_limit is None


def wrongs_of(place, number, case, lie):
    """What is wrong with a case."""
    try:
        call, seen = place.seen(case)
    except outside.Hung:
        return [f"it didn't end within {outside.SECONDS} seconds"], None
    meets(case, call)
    if lie:
        seen = lies.LIES[lie](call, seen)
    told = judge.wrongs(call, seen)
    if not told and not lie and number % 3 == 0 and is_run(call, seen) and (verdict := audit_of(place.program, seen.out)) != b"audit ok\n":
        told = [f"the program's own audit says {verdict!r}"]
    return told, seen


def report(number, case, told, seen):
    print(f"case {number} is wrong: {b' '.join(case.words)!r}, output {case.out}, trip {case.trip}")
    for it in told[:10]:
        print(f"  {it[:600]}")
    print(f"  status {seen.status if seen else None}")
    print("  " + repr(case.source)[:3_000])
    print("  " + repr({path: it[:200] for path, it in case.files.items()})[:2_000], flush=True)


class Count:
    """What was seen so far."""

    def __init__(self):
        self.begin, self.cases, self.wrong, self.statuses = time.monotonic(), 0, 0, {}

    def take(self, told, seen):
        key = seen.status if seen else "hung"
        self.cases, self.wrong, self.statuses[key] = self.cases + 1, self.wrong + bool(told), self.statuses.get(key, 0) + 1

    def tell(self):
        statuses = dict(sorted(self.statuses.items(), key=str))
        print(f"{self.cases} cases, {self.wrong} wrong, {time.monotonic() - self.begin:.0f} s, by status {statuses}, {Merged.given_up} searches given up", flush=True)


def judge_all(asked, place, count):
    """Judges the cases, until enough was seen or the script is told to stop."""
    for number in range(asked.first, asked.first + asked.cases):
        if time.monotonic() - count.begin > 60 * asked.minutes:
            return
        case = case_of(asked.seed, number)
        told, seen = wrongs_of(place, number, case, asked.lie)
        count.take(told, seen)
        if told and not asked.quiet:
            report(number, case, told, seen)
        if told and asked.until_found:
            return
        if count.cases % 500 == 0:
            count.tell()


def main():
    asked, count = settings(), Count()
    outside.SECONDS = asked.seconds
    signal.signal(signal.SIGTERM, signal.default_int_handler)
    with tempfile.TemporaryDirectory(dir="/dev/shm") as name:
        folder = pathlib.Path(name)
        program = words_in(folder)
        (folder / "case").mkdir()
        become_nobody(folder)
        print(f"seed {asked.seed}", flush=True)
        try:
            judge_all(asked, outside.Outside(program, folder / "case"), count)
        except KeyboardInterrupt:
            print("stopped")
        count.tell()
    sys.exit(1 if count.wrong else 0)


main()
