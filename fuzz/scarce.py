#!/usr/bin/env python3
"""Random calls of the program where something is scarce. Without threads all is judged as in fuzz/runs.py. With few descriptors, or
little memory, a file may fail to be opened, or the call may end with status 5; then it is judged that each stream printed a front
of what it may give, whole where it is done, that the ledger is in order, and that the status is one of those.

usage: fuzz/scarce.py threads|descriptors|memory [--seed S] [--cases N]

FLUME as in fuzz/runs.py. Memory is made scarce by a limit of addresses, which the proved program alone can meet: one that was built
unproved carries a checker of memory, which takes far more (fuzz/refused.py refuses single requests)."""
import argparse, os, pathlib, random, resource, shlex, sys, tempfile, time

sys.path.insert(0, str(pathlib.Path(__file__).resolve().parent))
import judge, outside, printed
from branched import Tee, answers
from cases import case_of
from described import Refused, plan_of
from judge import MEMORY, Run, Seen
from program import become_nobody, words_in
from streams import Reading
from words import command_of


class Short(Run):
    """A run of which any file may fail to be opened, and which may find no memory."""

    def wrongs(self):
        if self.seen.status in (4, 5):
            return self.wrongs_of_short_front()
        try:
            self.frames, self.ends, self.events = self.whole()
        except printed.NotPrinted as error:
            return [str(error), f"status {self.seen.status}"]
        verdict = judge.ledgers.verdict(self.events)
        told = [f"the ledger: {verdict}"] if verdict != "audit ok" else self.wrong_status() + self.wrong_halts() + self.wrong_order()
        for k, (given, _) in enumerate(self.given[: self.count]):
            text, end = b"".join(self.of(k)), self.ends[k]
            if self.streams[k].to is None and not self.may_give(k, given, text, end):
                told.append(f"stream {k} can't give {text[:80]!r} and end {end}")
        return told

    def may_give(self, k, given, text, end):
        """Whether the stream may give this. Of one with a text for its fault it isn't told where that came."""
        return self.streams[k].on_fault is not None or given.allows(text, end if end == "done" else "halted")

    def wrongs_of_short_front(self):
        told = [] if self.seen.status == 4 or not self.call.err_told or self.seen.err == MEMORY else [f"standard error was told {self.seen.err!r}"]
        frames, _ = printed.frames_of(self.seen.out)
        for k in {k for k, _ in frames}:
            text = b"".join(payload for by, payload in frames if by == k)
            if k >= len(self.streams) or not self.given[k][0].allows(text, "halted") and self.streams[k].on_fault is None:
                told.append(f"stream {k} can't give {text[:80]!r}")
        return told


def wrongs_of_branched_front(call, seen, command):
    """What is wrong with what `tee` or `eval` printed before it found no memory, or no output."""
    if command[0] == "tee":
        return Tee(call, seen, *command[1:]).wrong_front()
    path, group, steps = command[3], command[2], command[4]
    texts, _ = answers(call.readings.get(path, Reading(fault="open")), group, steps)
    return [] if any(it.startswith(seen.out) for it in texts) else [f"no front of an answer: {seen.out[:80]!r}"]


def wrongs_of_short(call, seen):
    """What is wrong with a call for which something was scarce."""
    command = command_of(call.words)
    if command is None or seen.status in (2, 3, 6):
        return judge.wrongs(call, seen) if seen.status != 5 else []
    if seen.status not in (0, 1, 4, 5, 7):
        return [f"status {seen.status}, {seen.err[:300]!r}"]
    if command[0] in ("tee", "eval") and seen.status in (4, 5):
        return wrongs_of_branched_front(call, seen, command)
    if command[0] != "run":
        return judge.wrongs(call, seen) if seen.status == 0 else []
    try:
        plan = plan_of(call.source)
    except (Refused, TypeError):
        return [] if seen.status == 5 else [f"a refused description ended with {seen.status}"]
    plan.numbers["max_open"] = command[1] or plan.numbers["max_open"]
    return Short(call, seen, plan).wrongs()


def prepare(place, what, dice):
    """Makes it scarce."""
    if what == "threads":
        place.limits = {resource.RLIMIT_NPROC: 0}
    elif what == "descriptors":
        place.limits = {resource.RLIMIT_NOFILE: dice.choice([4, 5, 6, 7, 7, 8, 8, 9, 12])}
    else:
        place.limits = {resource.RLIMIT_AS: dice.randrange(4_000_000, 12_000_000)}


def main():
    parser = argparse.ArgumentParser(description="Random calls of the program where something is scarce.")
    parser.add_argument("what", choices=["threads", "descriptors", "memory"])
    parser.add_argument("--seed", default=str(time.time_ns()))
    parser.add_argument("--cases", type=int, default=1_000)
    asked, wrong, statuses = parser.parse_args(), 0, {}
    if asked.what == "memory" and len(shlex.split(os.environ.get("FLUME", ""))) > 1:
        sys.exit("only the proved program can be run in little memory")
    with tempfile.TemporaryDirectory(dir="/dev/shm") as name:
        folder = pathlib.Path(name)
        program = words_in(folder)
        (folder / "case").mkdir()
        become_nobody(folder)
        print(f"seed {asked.seed}", flush=True)
        place, dice = outside.Outside(program, folder / "case"), random.Random(asked.seed)
        for number in range(asked.cases):
            case = case_of(asked.seed, number)
            case.trip = None
            prepare(place, asked.what, dice)
            if asked.what != "threads":
                case.out = ("pipe",)
            try:
                call, seen = place.seen(case)
                lines = judge.wrongs(call, seen) if asked.what == "threads" else wrongs_of_short(call, seen)
                if place.limits.get(resource.RLIMIT_NOFILE, 9) < 6:
                    lines = [] if (seen.status, seen.out, seen.err) == (4, b"", b"") else [f"status {seen.status} without three descriptors"]
                statuses[seen.status] = statuses.get(seen.status, 0) + 1
            except outside.Hung:
                lines = ["it didn't end"]
            wrong += bool(lines)
            for it in lines:
                print(f"case {number}, {place.limits}: {it[:300]}", flush=True)
    print(f"{asked.what}: {asked.cases} cases, {wrong} wrong, by status {dict(sorted(statuses.items()))}")
    sys.exit(1 if wrong else 0)


if __name__ == "__main__":
    main()
