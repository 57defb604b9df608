"""Judges one call of the program by what was printed, its status and the files that it left, against docs/FORMAT.md, docs/LEDGER.md
and the tables of README.md. It tells what is wrong, and nothing of how the program works stands here."""
import dataclasses

import ledgers, printed
from branched import Tee, answers
from described import Refused, plan_of
from giving import Giving, listing_of
from streams import Reading, Given, given_by
from steps import BYTES, none_of
from words import command_of

WORDS, MEMORY = b"flume: bad command line\n", b"flume: out of memory\n"


@dataclasses.dataclass
class Writing:
    """What a file that is written takes: whether it can be opened, how many bytes it takes, whether what was written can't be made
    safe, and whether it can be read back."""

    opens: bool = True
    limit: int = None
    unsafe: bool = False
    read_back: bool = True
    may_fail: bool = False


@dataclasses.dataclass
class Call:
    """A call of the program and the outside that it meets. `source` is None where it can't be read. `out_limit` is how many bytes
    the output takes, None where it takes all, and `out_told` whether all that it took is known."""

    words: list
    source: bytes
    readings: dict
    writings: dict
    out_limit: int = None
    out_told: bool = True
    err_told: bool = True
    # The paths of which a read may give less than was asked for.
    unsteady: frozenset = frozenset()


@dataclasses.dataclass
class Seen:
    """What was seen of it. `wrote` has what each path that may be written holds, None where nothing is there, and `held` what it held
    before. `changed` names what else changed."""

    status: int
    out: bytes
    err: bytes
    wrote: dict
    held: dict
    changed: list


def wrongs(call, seen):
    """What is wrong with the call, a line each."""
    told = [f"{path} changed" for path in seen.changed]
    command = command_of(call.words)
    if command is None:
        return told + refused(call, seen, 2, WORDS)
    if command[0] == "run":
        return told + of_run(call, seen, command[1])
    untouched = nothing_written(seen)
    if command[0] == "cat":
        return told + untouched + of_cat(call, seen, command[1], command[2])
    if command[0] == "gen":
        return told + untouched + of_text(call, seen, 0, summary(*command[1:]))
    if command[0] == "tee":
        return told + untouched + of_tee(call, seen, *command[1:])
    if command[0] == "eval":
        return told + untouched + of_eval(call, seen, *command[2:])
    return told + untouched + of_audit(call, seen)


def nothing_written(seen):
    return [f"{path} was written" for path in seen.wrote if seen.wrote[path] != seen.held[path]]


def refused(call, seen, status, line):
    """What is wrong where nothing is to be done and this be told."""
    told = [f"status {seen.status} and not {status}"] if seen.status != status else []
    if seen.out:
        told.append(f"a refused call printed {seen.out[:80]!r}")
    return told + standard_error(call, seen, line) + nothing_written(seen)


def standard_error(call, seen, line=b""):
    if call.err_told and seen.err != line:
        return [f"standard error was told {seen.err[:200]!r} and not {line!r}"]
    return []


def of_text(call, seen, status, text):
    """What is wrong where just this is to be printed."""
    limit = len(text) if call.out_limit is None else call.out_limit
    wanted, status = (text, status) if limit >= len(text) else (text[:limit], 4)
    told = [f"status {seen.status} and not {status}"] if seen.status != status and call.out_told else []
    if seen.out != wanted if call.out_told else not text.startswith(seen.out):
        told.append(f"it printed {seen.out[:200]!r} and not {wanted[:200]!r}")
    return told + standard_error(call, seen)


def summary(seed, streams, lines):
    """The summary of a case."""
    numbers = [(seed + 17 * k + 379 * i) % 1000 for k in range(streams) for i in range(lines)]
    digits = [it // 100 + it // 10 % 10 + 2 * (it % 10) for it in range(1000)]
    told = {"frames": streams * -(-lines // 1024), "bytes": 6 * len(numbers), "digits": sum(digits[it] for it in numbers)}
    told |= {"acquire": streams + 1, "lease": streams, "cancel": streams, "close": streams + 1, "final": streams + 1}
    return b"gen %d %d %d\n" % (seed, streams, lines) + b"".join(b"%s %d\n" % (it.encode(), told[it]) for it in told)


def of_audit(call, seen):
    """What is wrong with an audit."""
    if call.source is None:
        return refused(call, seen, 6, b"flume: cannot read the ledger\n")
    if len(call.source) > 524_288:
        return refused(call, seen, 3, b"flume: ledger refused size\n")
    try:
        verdict = ledgers.verdict(ledgers.read(call.source))
    except ledgers.BadText as error:
        return refused(call, seen, 3, f"flume: ledger refused {error}\n".encode())
    return of_text(call, seen, 0 if verdict == "audit ok" else 1, verdict.encode() + b"\n")


def of_cat(call, seen, chunk, path):
    """What is wrong with `cat`, which has one output."""
    reading = call.readings.get(path, Reading(fault="open"))
    content, wanted = reading.content, b""
    pieces = [content[at : at + chunk] for at in range(0, len(content), chunk)]
    if path in call.unsteady:
        pieces = [it for _, it in printed.frames_of(seen.out)[0]]
        if any(len(it) > chunk for it in pieces) or call.out_limit is None and call.out_told and b"".join(pieces) != content:
            return ["the frames aren't the pieces of a pipe"]
        if call.out_limit is not None or not call.out_told:
            return []
    for piece in pieces:
        wanted += b"0 %d\n%s\n" % (len(piece), piece)
    end, exit = ("done", "succeeded") if not reading.fault else (f"fault {reading.fault}", "errored")
    events = [f"0 close 0 {exit}"] if reading.fault == "open" else ["0 acquire 0 0", f"0 close 0 {exit}", f"0 final 0 {exit} ok"]
    wanted += "\n".join([f"end 0 {end}", f"ledger {len(events)}", *events, ""]).encode()
    return of_text(call, seen, 1 if reading.fault else 0, wanted)


def of_tee(call, seen, chunk, path, chains):
    """What is wrong with `tee`."""
    tee = Tee(call, seen, chunk, path, chains)
    told = standard_error(call, seen)
    return told + (tee.wrongs_of_front() if seen.status == 4 or not call.out_told else tee.wrongs_of_whole())


def of_eval(call, seen, group, path, steps):
    """What is wrong with `eval`, whose number of hands changes nothing that is printed."""
    texts, status = answers(call.readings.get(path, Reading(fault="open")), group, steps)
    told = [of_text(call, seen, status, it) for it in texts]
    return [] if [] in told else told[0]


def of_run(call, seen, max_open):
    """What is wrong with `run`."""
    if call.source is None:
        return refused(call, seen, 6, b"flume: cannot read the description\n")
    try:
        plan = plan_of(call.source)
    except Refused as refusal:
        return refused(call, seen, 3, f"flume: description refused {refusal}\n".encode())
    plan.numbers["max_open"] = max_open or plan.numbers["max_open"]
    run = Run(call, seen, plan)
    if seen.status == 4 or not call.out_told:
        return run.wrongs_of_front()
    return run.wrongs_of_whole()


class Run:
    """A run of an accepted description. Its rows are numbered tables first, then the list, and then stream by stream."""

    def __init__(self, call, seen, plan):
        self.call, self.seen, self.plan = call, seen, plan
        self.described = len(plan.streams)
        lines, list_end = listing_of(plan, self.reading)
        self.streams = plan.streams + [dataclasses.replace(plan.listing.stream, path=it) for it in lines]
        self.count = self.described
        self.rows = [("outer", path) for path in plan.tables + ([plan.listing.path] if plan.listing else [])]
        self.rows_of = []
        for k, stream in enumerate(self.streams):
            paths = [it for it in (stream.to, stream.path, stream.second) if it is not None]
            self.rows_of.append(list(range(len(self.rows), len(self.rows) + len(paths))))
            self.rows += [(k, it) for it in paths]
        self.giving = Giving(plan, self.reading, lines, list_end)
        self.given = [self.given_by(k, it) for k, it in enumerate(self.streams)]

    def reading(self, path):
        return self.call.readings.get(path, Reading(fault="open"))

    def writing(self, path):
        return self.call.writings.get(path, Writing(opens=False))

    def given_by(self, k, stream):
        """What the stream of this number may give, and how its body ends."""
        if k >= self.giving.leased:
            return Given(BYTES, b"", "halted"), None
        if stream.to is not None and not self.writing(stream.to).opens:
            return Given(stream.kind, none_of(stream.kind), "fault open"), "fault open"
        readings = [self.reading(it) for it in (stream.path, stream.second) if it is not None]
        return given_by(stream, readings, self.giving.tables)

    def wrongs_of_whole(self):
        """What is wrong with an output that was not cut."""
        try:
            self.frames, self.ends, self.events = self.whole()
        except printed.NotPrinted as error:
            return [str(error), f"status {self.seen.status}"]
        verdict = ledgers.verdict(self.events)
        if verdict != "audit ok":
            return [f"the ledger: {verdict}"]
        told = standard_error(self.call, self.seen) + self.wrong_status() + self.wrong_frames() + self.wrong_halts() + self.wrong_order()
        told += self.wrong_outer()
        for k in range(self.count):
            told += self.wrong_output(k, self.ends[k]) + self.wrong_events(k)
        return told

    def whole(self):
        """The frames, the ends and the events: of the list each stream that has a lease has an end."""
        told = printed.whole(self.seen.out, ["outer", *range(self.described)], range(self.described, len(self.streams)))
        self.count = len(told[1]) - 1
        leases = {it[2] for it in told[2] if it[:2] == ("outer", "lease")}
        if not set(range(self.described, self.count)) <= leases or any(it >= self.count for it in leases):
            raise printed.NotPrinted(f"{self.count} streams have ends, and {sorted(leases)} leases")
        return told

    def wrong_status(self):
        faulty = any(it.startswith("fault") for it in self.ends.values())
        unclean = any(it[1] == "final" and it[4] == "fault" for it in self.events)
        wanted = 1 if faulty else 7 if unclean else 0
        told = [f"status {self.seen.status} and not {wanted}"] if self.seen.status != wanted else []
        if self.call.out_limit is not None and len(self.seen.out) > self.call.out_limit:
            told.append("more was printed than the output takes")
        for event in self.events:
            if event[1] == "final":
                is_lost = self.writing(self.rows[event[2]][1]).unsafe if event[2] in self.written_rows() else False
                if is_lost != (event[4] == "fault"):
                    told.append(f"the Final of row {event[2]} says {event[4]}")
        return told

    def written_rows(self):
        return {rows[0] for rows, it in zip(self.rows_of, self.streams) if it.to is not None}

    def of(self, k):
        """The payloads of a stream, in order."""
        return [payload for by, payload in self.frames if by == k]

    def wrong_frames(self):
        """Frames that are too many, of a stream that prints none, or of another length than reads and groups give."""
        take, told = self.plan.numbers["take"], []
        if take is not None and len(self.frames) > take:
            told.append(f"{len(self.frames)} frames were printed of at most {take}")
        for k, stream in enumerate(self.streams):
            payloads = self.of(k)
            if stream.to is not None and payloads:
                told.append(f"stream {k} is written to a file, and was printed")
            if not stream.steps and not stream.second and not stream.on_fault and stream.path not in self.call.unsteady:
                told += [f"stream {k} has a frame of {len(it)} bytes" for it in payloads[:-1] if len(it) != self.plan.numbers["chunk"]]
                told += [f"stream {k} has a frame of {len(it)} bytes" for it in payloads[-1:] if len(it) > self.plan.numbers["chunk"]]
            told += self.split_frames(k, stream, payloads)
        return told

    def split_frames(self, k, stream, payloads):
        """Frames that end within an element."""
        given, at = self.given[k][0], 0
        if not isinstance(given, Given):
            return [f"stream {k} has a frame that ends within a line" for it in payloads if not it.endswith(b"\n")]
        for it in payloads:
            at += len(it)
            if at not in given.bounds:
                return [f"stream {k} has a frame that ends within an element"]
        return []

    def wrong_halts(self):
        """Streams that were halted without a cause, or began behind a stop."""
        take, frames = self.plan.numbers["take"], len(self.frames)
        cancels = {by for by, what, *words in self.events if what == "cancel"}
        faulty = [k for k, end in self.ends.items() if end.startswith("fault")]
        told = []
        for who, end in self.ends.items():
            until = None if who == "outer" else self.streams[who].until
            if end == "halted" and frames != take and not faulty and until not in cancels - {"outer", None}:
                told.append(f"{who} was halted without a cause")
        began = {by for by, *_ in self.events} - {"outer"}
        if take == 0 and began:
            told.append("a stream began though no frame was wanted")
        if self.plan.numbers["max_open"] == 1:
            stops = [k for k in faulty if k != "outer"] + ([self.frames[-1][0]] if frames and frames == take else [])
            told += [f"stream {k} began behind the stop of {j}" for j in stops for k in began if k > j]
            told += [f"stream {k} began behind its until" for k in began for j in cancels if j == self.streams[k].until and j < k]
            behind = next((at for at, it in enumerate(self.events) if it[:3] == ("outer", "close", 0) and it[3] != "succeeded"), len(self.events))
            early = {by for by, *_ in self.events[:behind]}
            told += [f"stream {k} began behind the end of the outer one" for k in began - early]
        return told

    def wrong_order(self):
        """Streams that began before their turn, or too many at a time."""
        told, open_now, first = [], set(), {}
        for place, (by, what, *words) in enumerate(self.events):
            first.setdefault((by, what, words[0] if what in ("lease", "close") else None), place)
        for place, (by, what, *words) in enumerate(self.events):
            if by == "outer":
                continue
            if by not in open_now and (by, "cancel", None) in first and first[by, "cancel", None] >= place:
                open_now.add(by)
                ahead = min(first.get(it, place) for it in (("outer", "lease", by + 1), ("outer", "close", 0)))
                if first.get(("outer", "lease", by), place) >= place or ahead >= place:
                    told.append(f"stream {by} began before its turn")
            if len(open_now) > self.plan.numbers["max_open"]:
                told.append(f"{len(open_now)} streams are open at place {place}")
            if what == "cancel":
                open_now.discard(by)
        return told

    def wrong_outer(self):
        """What is wrong with the outer stream's end and its events."""
        end, exit = self.ends["outer"], {"done": "succeeded", "halted": "canceled"}.get(self.ends["outer"], "errored")
        is_root = lambda it: it[:3] == ("outer", "close", 0)
        gives = [it for it in self.events if it[0] == "outer" and it[1] not in ("final", "cancel") and not is_root(it)]
        cancels = [it for it in self.events if it[:2] == ("outer", "cancel")]
        told, is_none = [], self.plan.numbers["take"] == 0
        if end not in ({"halted"} if is_none else {self.giving.end, "halted"}):
            told.append(f"the outer stream ended {end} and not {self.giving.end}")
        # It is halted where a stream is wanted of it: behind a lease, or before it gave anything where nothing is wanted at all.
        fits = gives == self.giving.events if end != "halted" else gives == self.giving.events[: len(gives)] and (gives[-1][1] == "lease" if gives else is_none)
        if not fits:
            told.append(f"the outer stream gave {gives[-3:]} behind {len(gives[:-3])} others, of {len(self.giving.events)}")
        if [it for it in self.events if is_root(it)] != [("outer", "close", 0, exit)]:
            told.append("the outer stream closed otherwise")
        if any(it[3] != "canceled" for it in cancels):
            told.append("the outer stream cancelled with another exit than canceled")
        return told

    def wrong_output(self, k, end):
        """What is wrong with what the stream printed or wrote, where it ended so."""
        stream, (given, _) = self.streams[k], self.given[k]
        began = any(it[0] == k for it in self.events)
        if stream.to is None:
            text = b"".join(self.of(k))
            return [] if given.allows(text, end) and (began or not text) else [f"stream {k} can't give {text[:80]!r}.. and end {end}"]
        writing, wrote = self.writing(stream.to), self.seen.wrote.get(stream.to)
        acquired = (k, "acquire", self.rows_of[k][0], 0) in self.events
        if not acquired:
            held = self.seen.held.get(stream.to)
            return [f"{stream.to} changed, and was not acquired"] if wrote != held and writing.read_back else []
        return self.wrong_file(k, end, given, writing, wrote)

    def wrong_file(self, k, end, given, writing, wrote):
        """What is wrong with a file that was opened to be written."""
        if end == "fault write":
            if writing.limit is None and not writing.may_fail:
                return [f"stream {k} ended {end}, and no write fails"]
            if not writing.read_back:
                return []
            is_full = writing.may_fail or writing.limit == len(wrote)
            return [] if is_full and given.allows(wrote, "cut") else [f"stream {k} wrote {wrote[:80]!r}.. and ended {end}"]
        if not writing.read_back:
            possible = end == "halted" or end in given.ends()
            return [] if possible and (writing.limit != 0 or given.allows(b"", end)) else [f"stream {k} ended {end}"]
        return [] if wrote is not None and given.allows(wrote, end) else [f"stream {k} wrote {(wrote or b'')[:80]!r}.. and ended {end}"]

    def wrong_events(self, k):
        """What is wrong with the events of a stream, but for the Finals of tables behind its Cancel."""
        events = [it[1:] for it in self.events if it[0] == k and not (it[1] == "final" and it[2] not in self.rows_of[k])]
        end = self.ends[k]
        if end == "halted":
            exits = {it[2] for it in events if it[0] == "cancel" or it[:2] == ("close", 0)}
            rows = [it[1] for it in events if it[0] == "acquire"]
            fits = rows == self.rows_of[k][: len(rows)] and all(self.opens(it) for it in rows) and len(exits) < 2
            return [] if fits else [f"the events of stream {k}, which was halted, don't fit"]
        finals = {it[1]: it[3] for it in events if it[0] == "final"}
        return [] if any(events == it for it in self.possible_events(k, end, finals)) else [f"the events of stream {k}, which ended {end}, don't fit: {events}"]

    def opens(self, row):
        who, path = self.rows[row]
        return self.writing(path).opens if row in self.written_rows() else self.reading(path).fault != "open"

    def possible_events(self, k, end, finals):
        """The lists of events that a stream may have that ended so."""
        stream, rows = self.streams[k], self.rows_of[k]
        opened = rows[: next((at for at, row in enumerate(rows) if not self.opens(row)), len(rows))]
        written, own = (opened[:1], opened[1:]) if stream.to is not None else ([], opened)
        exit = "succeeded" if end == "done" else "errored"
        final = lambda rows, exit: [("final", row, exit, finals.get(row, "ok")) for row in reversed(rows)]
        ended = lambda rows: [("close", 0, exit), *final(rows, exit), ("cancel", k, exit)]
        begun = [("acquire", row, 0) for row in written]
        if stream.on_fault is None or stream.to is not None and not written:
            return [begun + [("acquire", row, 0) for row in own] + ended(opened)]
        begun += [("open", 1, 0)] + [("acquire", row, 1) for row in own]
        body = self.given[k][1]
        exits = ("succeeded", "errored") if body is None or end == "fault write" else ("succeeded" if body == "done" else "errored",)
        lists = [begun + [("close", 1, it), *final(own, it)] + ended(written) for it in exits]
        return lists + ([begun + ended(opened)] if end == "fault write" else [])

    def wrongs_of_front(self):
        """What is wrong with an output that was cut: where it could not all be written, or not all was read back."""
        told = standard_error(self.call, self.seen)
        out, limit = self.seen.out, self.call.out_limit
        if self.seen.status not in (0, 1, 4, 7) or self.seen.status == 4 and limit is None and self.call.out_told:
            told.append(f"status {self.seen.status}")
        if self.call.out_told and limit is not None and len(out) != limit:
            told.append(f"{len(out)} bytes were printed, and the output takes {limit}")
        self.frames, at = printed.frames_of(out)
        further, fits = printed.rest_of(out[at:])
        texts = {k: [b"".join(self.of(k)), "halted"] for k, _ in self.frames}
        if further:
            text = texts.setdefault(further[0], [b"", "halted"])
            text[:] = text[0] + further[1], "cut"
        if not fits or any(k >= len(self.streams) or self.streams[k].to is not None for k in texts):
            return [*told, f"no front of an output: {out[at : at + 80]!r}"]
        for k, (text, end) in texts.items():
            if not self.given[k][0].allows(text, end):
                told.append(f"stream {k} can't give {text[:80]!r}")
        for k, stream in enumerate(self.plan.streams):
            if stream.to is not None:
                told += self.wrong_front_file(k, stream.to)
        return told

    def wrong_front_file(self, k, path):
        """What is wrong with a file that was written, where it isn't told how its stream ended."""
        wrote, held, writing = self.seen.wrote.get(path), self.seen.held.get(path), self.writing(path)
        if wrote == held or not writing.read_back:
            return []
        fits = writing.opens and wrote is not None and self.given[k][0].allows(wrote, "cut")
        return [] if fits else [f"stream {k} can't have written {(wrote or b'')[:80]!r}"]
