"""What was printed, taken apart: the frames, the ends, and the events of the ledger."""
import re

import ledgers


class NotPrinted(Exception):
    """Why the bytes are no output of a run."""


def frames_of(out):
    """The frames, each the stream and the payload, and the place behind the last one that is whole."""
    frames, at = [], 0
    while head := re.compile(rb"(0|[1-9][0-9]*) ([1-9][0-9]*)\n").match(out, at):
        behind = head.end() + int(head[2])
        if out[behind : behind + 1] != b"\n":
            break
        frames.append((int(head[1]), out[head.end() : behind]))
        at = behind + 1
    return frames, at


def whole(out, streams, further=()):
    """The frames, the ends and the events of a whole output, where these are its streams in order, and behind them some of the
    further ones, from the first on."""
    frames, at = frames_of(out)
    ends = {}
    for who in [*streams, *further]:
        found = re.compile(rb"end (\w+) (done|halted|fault [a-z0-9]+)\n").match(out, at)
        if who in further and not found:
            break
        if not found or found[1] != str(who).encode():
            raise NotPrinted(f"no end of {who} stands at byte {at}: {out[at : at + 60]!r}")
        ends[who], at = found[2].decode(), found.end()
    try:
        events = ledgers.read(out[at:])
    except ledgers.BadText as error:
        raise NotPrinted(f"no ledger stands at byte {at}, {error}") from None
    if any(k not in ends for k, _ in frames):
        raise NotPrinted("a frame is of no stream")
    return frames, ends, events


def rest_of(rest):
    """Of what stands behind the whole frames of an output that was cut: the stream and the front of the payload of a further frame,
    None where there is none of it, and whether it may be the front of the ends and the ledger."""
    head = re.compile(rb"(0|[1-9][0-9]*) ([1-9][0-9]*)\n").match(rest)
    if head:
        return (int(head[1]), rest[head.end() : head.end() + int(head[2])]), len(rest) - head.end() <= int(head[2])
    if re.fullmatch(rb"(0|[1-9][0-9]*)?( ([1-9][0-9]*)?)?", rest):
        return None, True
    lines = rest.split(b"\n")
    fits = re.compile(rb"end (outer|[0-9]+) (done|halted|fault [a-z0-9]+)|ledger [0-9]+|(outer|[0-9]+) [a-z]+ [0-9]+( \w+){0,2}")
    return None, all(fits.fullmatch(it) for it in lines[:-1]) and b"end ".startswith(rest[:4]) and lines[-1].replace(b" ", b"").isalnum() | (not lines[-1])
