"""Lies about a call: each changes what was seen of it, where it can, and the judge has to see that."""
import re

import ledgers, printed
from judge import Seen


class Told:
    """The parts of an output, which a lie changes."""

    def __init__(self, out):
        self.frames, at = printed.frames_of(out)
        rest = out[at:].decode("latin-1").split("\n")
        self.ends = [it for it in rest if it.startswith("end ")]
        self.events = rest[len(self.ends) + 1 : -1]

    def text(self):
        frames = b"".join(b"%d %d\n%s\n" % (k, len(payload), payload) for k, payload in self.frames)
        return frames + "\n".join([*self.ends, f"ledger {len(self.events)}", *self.events, ""]).encode("latin-1")

    def places(self, *words):
        """Where events stand that have one of these words second."""
        return [place for place, it in enumerate(self.events) if it.split(" ")[1] in words]

    def faulty(self):
        return {it.split(" ")[1] for it in self.ends if " fault " in it}


def of_output(lie):
    """A lie about a whole output of a run."""

    def told(call, seen):
        is_run = call.words[:1] == [b"run"] and seen.status in (0, 1, 7) and call.out_told and call.out_limit is None
        if not is_run:
            return seen
        parts = Told(seen.out)
        lie(parts)
        return Seen(seen.status, parts.text(), seen.err, seen.wrote, seen.held, seen.changed)

    return told


def number_of_another(told):
    """A frame under another stream's number."""
    streams = len(told.ends) - 1
    if told.frames and streams > 1:
        k, payload = told.frames[-1]
        told.frames[-1] = ((k + 1) % streams, payload)


def lost_frame(told):
    """The last frame is missing."""
    told.frames = told.frames[:-1]


def unfinished_line(told):
    """What a faulty stream had begun is printed."""
    for place in range(len(told.frames) - 1, -1, -1):
        if str(told.frames[place][0]) in told.faulty():
            told.frames[place] = (told.frames[place][0], told.frames[place][1] + b"a")
            return


def empty_line(told):
    """A line end gives an empty line more."""
    told.frames = [(k, payload.replace(b"\n", b"\n\n", 1)) for k, payload in told.frames]


def bytes_in_turn(told):
    """Two neighbouring bytes of a frame change their places."""
    told.frames = [(k, payload[1::-1] + payload[2:]) for k, payload in told.frames]


def nothing_printed(told):
    """No frame, and each stream halted."""
    told.frames, told.ends = [], [re.sub("(end [0-9]+) .*", r"\1 halted", it) for it in told.ends]


def done_for_halted(told):
    """Each stream that was halted is done."""
    told.ends = [it.replace("halted", "done") for it in told.ends]


def done_for_fault(told):
    """Each stream that failed is done."""
    told.ends = [re.sub("fault .*", "done", it) for it in told.ends]


def another_fault(told):
    """A fault under another name."""
    others = {"open": "read", "uneven": "nofield", "badpath": "toomany", "toomany": "badpath"}
    told.ends = [re.sub(r"fault (\w+)", lambda it: f"fault {others.get(it[1], it[1])}", it) for it in told.ends]


def no_final(told):
    """A row is never finalized."""
    for place in told.places("final")[-1:]:
        told.events.pop(place)


def final_twice(told):
    """A row is finalized twice."""
    for place in told.places("final")[:1]:
        told.events.insert(place, told.events[place])


def finals_in_turn(told):
    """Finals stand in the order of acquisition."""
    for place in told.places("final"):
        if place + 1 in told.places("final") and told.events[place].split(" ")[0] == told.events[place + 1].split(" ")[0]:
            told.events[place : place + 2] = told.events[place + 1], told.events[place]
            return


def all_succeeded(told):
    """Every finalizer is told that all went well."""
    told.events = [re.sub("errored|canceled", "succeeded", it) for it in told.events]


def no_lease(told):
    """Nothing is leased, and the tables are open to the end."""
    told.events = [it for it in told.events if it.split(" ")[1] not in ("lease", "cancel")]


def outer_to_the_end(told):
    """The outer stream goes on until all streams have ended, and closes its tables itself."""
    closes = [it for it in told.events if it.startswith("outer close")]
    told.events = [it for it in told.events if it not in closes] + closes


def leased_in_the_root(told):
    """Every stream is leased in the root."""
    told.events = [re.sub(r"^(outer lease \d+) .*", r"\1 0", it) for it in told.events]


def left_to_the_root(told):
    """No scope of a group or of the list is closed but by the Close of the root."""
    told.events = [it for it in told.events if not re.match("outer close [1-9]", it)]


def all_at_once(told):
    """All streams begin before any ends."""
    told.events.sort(key=lambda it: it.split(" ")[1] in ("close", "final", "cancel") and not it.startswith("outer"))


def of_status(call, seen):
    """The status is 0, whatever came."""
    return Seen(0, seen.out, seen.err, seen.wrote, seen.held, seen.changed)


def of_files(call, seen):
    """Each file that was written lacks its last byte."""
    wrote = {path: it[:-1] if it and it != seen.held[path] else it for path, it in seen.wrote.items()}
    return Seen(seen.status, seen.out, seen.err, wrote, seen.held, seen.changed)


def of_refusals(call, seen):
    """A refusal is told with another number."""
    return Seen(seen.status, seen.out, seen.err.replace(b"refused 4", b"refused 3"), seen.wrote, seen.held, seen.changed)


def of_audits(call, seen):
    """Every ledger is well."""
    return Seen(0, b"audit ok\n", b"", seen.wrote, seen.held, seen.changed) if call.words[:1] == [b"audit"] and seen.status == 1 else seen


def of_cut_outputs(call, seen):
    """Where the output can take no more, one byte is printed more."""
    return Seen(seen.status, seen.out + b"0", seen.err, seen.wrote, seen.held, seen.changed) if seen.status == 4 else seen


LIES = {it.__name__: of_output(it) for it in (
    number_of_another, lost_frame, unfinished_line, empty_line, bytes_in_turn, nothing_printed, done_for_halted, done_for_fault,
    another_fault, no_final, final_twice, finals_in_turn, all_succeeded, no_lease, outer_to_the_end, leased_in_the_root, left_to_the_root,
    all_at_once)}
LIES |= {it.__name__: it for it in (of_status, of_files, of_refusals, of_audits, of_cut_outputs)}
