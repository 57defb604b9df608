"""Judges a call of `tee` or `eval`, whose words have steps, against docs/COMMANDS.md and docs/FORMAT.md. What the steps give is in
steps.py and streams.py."""
import printed
from steps import BYTES, TAKES, payloads, through
from streams import Given, Reading

EXITS = {"done": "succeeded", "halted": "canceled"}


def given_by(steps, content, end):
    """The kind, the elements and the end of what the steps give of bytes that end so."""
    kind, given = BYTES, content
    for step in steps:
        given, end = through(step, kind, given, end, [])
        kind = TAKES[step[0]][kind]
    return kind, given, end


def events_of(who, is_open, exit):
    """The events of one file that is read."""
    return [f"{who} acquire 0 0", f"{who} close 0 {exit}", f"{who} final 0 {exit} ok"] if is_open else [f"{who} close 0 {exit}"]


def answers(reading, group, steps):
    """The texts that `eval` may print, of which only the exits differ, and its status."""
    if reading.fault == "open":
        lines, end = (), "fault open"
    else:
        lines, end = through(("lines",), BYTES, reading.content, f"fault {reading.fault}" if reading.fault else "done", [])
    frames, exits = b"", {EXITS.get(end, "errored")}
    for at in range(0, len(lines), group):
        kind, given, how = given_by(steps, b"".join(it + b"\n" for it in lines[at : at + group]), "done")
        payload = b"".join(payloads(kind, given))
        frames += b"0 %d\n%s\n" % (len(payload), payload) if payload else b""
        if how != "done":
            # How far the file was read by then isn't told.
            end, exits = how, exits | {"canceled"}
            break
    texts = []
    for exit in sorted(exits):
        events = events_of("0", reading.fault != "open", exit)
        texts.append(frames + "\n".join([f"end 0 {end}", f"ledger {len(events)}", *events, ""]).encode())
    return texts, 0 if end == "done" else 1


class Tee:
    """A call of `tee`. Branches that are halted, or whose output was cut, gave a front of what their steps give."""

    def __init__(self, call, seen, chunk, path, chains):
        self.call, self.seen, self.chunk, self.path, self.chains = call, seen, chunk, path, chains
        self.reading = call.readings.get(path, Reading(fault="open"))
        self.names = ["outer", *range(len(chains))]
        content = b"" if self.reading.fault == "open" else self.reading.content
        self.given = [Given(*given_by(it, content, "cut" if self.reading.fault else "done")) for it in chains]

    def of(self, k):
        return [payload for by, payload in self.frames if by == k]

    def wrongs_of_whole(self):
        """What is wrong with an output that was not cut."""
        try:
            self.frames, self.ends, self.events = printed.whole(self.seen.out, self.names)
        except printed.NotPrinted as error:
            return [str(error), f"status {self.seen.status}"]
        told = [f"branch {k} can't give {b''.join(self.of(k))[:80]!r} and end {self.ends[k]}" for k in self.names[1:] if not self.fits(k)]
        return told + self.wrong_reader() + self.wrong_status() + self.wrong_frames()

    def is_any_faulty(self):
        return any(self.ends[k].startswith("fault") for k in self.names[1:])

    def fits(self, k):
        text, end = b"".join(self.of(k)), self.ends[k]
        if end == "done" and self.ends["outer"] != "done":
            return False
        may_halt = self.reading.fault or any(it.startswith("fault") for it in self.ends.values())
        return self.given[k].allows(text, end) and (end != "halted" or bool(may_halt))

    def wrong_reader(self):
        """What is wrong with the end of the reader, or with the ledger, which is its own."""
        end, wanted = self.ends["outer"], f"fault {self.reading.fault}" if self.reading.fault else "done"
        told = [] if end == wanted or end == "halted" and self.is_any_faulty() else [f"the reader ended {end} and not {wanted}"]
        events = events_of("outer", self.reading.fault != "open", EXITS.get(end, "errored"))
        text = "\n".join([f"ledger {len(events)}", *events, ""]).encode()
        return told if self.seen.out.endswith(b"\n" + text) else [*told, f"the ledger isn't {events}"]

    def wrong_status(self):
        wanted = 1 if any(it.startswith("fault") for it in self.ends.values()) else 0
        told = [f"status {self.seen.status} and not {wanted}"] if self.seen.status != wanted else []
        if self.call.out_limit is not None and len(self.seen.out) > self.call.out_limit:
            told.append("more was printed than the output takes")
        return told

    def wrong_frames(self):
        """Frames that end within an element, or that aren't what one read gave."""
        told = []
        for k, steps in enumerate(self.chains):
            at, sizes = 0, [len(it) for it in self.of(k)]
            for size in sizes:
                at += size
                if at not in self.given[k].bounds:
                    told.append(f"branch {k} has a frame that ends within an element")
            if not steps and self.path not in self.call.unsteady and (any(it != self.chunk for it in sizes[:-1]) or any(it > self.chunk for it in sizes)):
                told.append(f"branch {k} has frames of {sizes[:8]} bytes")
        return told

    def wrongs_of_front(self):
        """What is wrong where the output was cut."""
        told, out, limit = [], self.seen.out, self.call.out_limit
        if self.seen.status not in (0, 1, 4) or self.seen.status == 4 and limit is None and self.call.out_told:
            told.append(f"status {self.seen.status}")
        if self.call.out_told and limit is not None and len(out) != limit:
            told.append(f"{len(out)} bytes were printed, and the output takes {limit}")
        return told + self.wrong_front()

    def wrong_front(self):
        """What is wrong with an output that was cut."""
        out = self.seen.out
        self.frames, at = printed.frames_of(out)
        further, fits = printed.rest_of(out[at:])
        texts = {k: [b"".join(self.of(k)), "halted"] for k, _ in self.frames}
        if further:
            text = texts.setdefault(further[0], [b"", "halted"])
            text[:] = text[0] + further[1], "cut"
        if not fits or any(k >= len(self.chains) for k in texts):
            return [f"no front of an output: {out[at : at + 80]!r}"]
        return [f"branch {k} can't give {text[:80]!r}" for k, (text, end) in texts.items() if not self.given[k].allows(text, end)]
