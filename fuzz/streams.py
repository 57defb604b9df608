"""What a stream of a description may give, read off docs/FORMAT.md: all that it gives and how it ends where nothing stops it, and
which fronts of that where something does. A stream that merges two files may give what one of many orders makes; whether a text is
of one of them is searched for."""
import dataclasses

from steps import BYTES, LINES, ROWS, TAKES, none_of, part, payloads, through, whole


@dataclasses.dataclass(frozen=True)
class Reading:
    """What a file gives: its bytes, and the fault behind them, `open` where it can't be opened."""

    content: bytes = b""
    fault: str = None


class Given:
    """The elements and the end of a stream that gives just these."""

    def __init__(self, kind, elements, end):
        self.end = end
        self.parts = payloads(kind, elements)
        self.text = b"".join(self.parts)
        self.bounds, at = {0}, 0
        for it in self.parts:
            at += len(it)
            self.bounds.add(at)

    def ends(self):
        return {self.end}

    def allows(self, text, end):
        """Whether the stream may have given this text and ended so: `halted` stands for any whole elements of the front, `cut` for
        any bytes of it."""
        if end == "cut":
            return self.text.startswith(text)
        if end == "halted":
            return self.text.startswith(text) and len(text) in self.bounds
        return end == self.end and text == self.text


class Chain:
    """Steps over elements that come one by one. Of each step is kept the input that it saw."""

    def __init__(self, steps, kind, tables):
        self.steps, self.tables, self.kinds = steps, tables, []
        for step in steps:
            self.kinds.append(kind)
            kind = TAKES[step[0]][kind]
        self.kind = kind

    def begin(self):
        return tuple(none_of(kind) for kind in self.kinds)

    def push(self, seen, given, stop):
        """What the steps saw when these elements came behind those that they saw, and then, where `stop` is told, that end; what they
        give of it; and how the whole ends, None where it may go on."""
        after = []
        for step, kind, old in zip(self.steps, self.kinds, seen):
            new = old + given
            if step[0] == "take":
                given = new[len(old) : step[1]]
                stop = "done" if len(new) >= step[1] else stop
            else:
                before = part(step, kind, old, self.tables)[0]
                made, fault = part(step, kind, new, self.tables)
                if not fault and stop == "done":
                    made, fault = whole(step, kind, new, self.tables)
                given, stop = made[len(before) :], f"fault {fault}" if fault else stop
            after.append(new)
        return tuple(after), given, stop

    def memory(self, seen):
        """What later answers depend on of what was seen."""
        return tuple(self.memory_of(*it) for it in zip(self.steps, seen))

    @staticmethod
    def memory_of(step, seen):
        if step[0] == "changes":
            return seen[-1:]
        if step[0] == "chunk":
            return seen[len(seen) - len(seen) % step[1] :]
        return len(seen) if step[0] in ("take", "drop", "count", "number", "intersperse") else None


class Merged:
    """What a stream that merges two files may give: the elements of both in any order through the steps behind, and a text in place
    of a fault."""

    # So many places of a search are looked at before it is given up, which counts as allowed.
    most = 100_000
    given_up = 0

    def __init__(self, chain, left, right, stand_in):
        self.chain, self.sides, self.stand_in = chain, (left, right), stand_in

    def ends(self):
        """The ends that the stream may have when nothing stops it, and maybe some that the search then refuses."""
        return {"done"} if self.stand_in is not None else {self.sides[0][1], self.sides[1][1], "done", "fault nofield"}

    def allows(self, text, end):
        """As of what is given in one order."""
        return Search(self, text, end).finds()


class Search:
    """The search for an order of two sides that makes a text and an end. A place of it is how far each side is, what the steps saw,
    how far the text is, and how all ended by then, if it did."""

    def __init__(self, merged, text, end):
        self.chain, self.sides, self.stand_in, self.most = merged.chain, merged.sides, merged.stand_in, merged.most
        self.text, self.end = text, end

    def taken(self, given, at):
        """How far the text is behind these elements, or None where they differ. Of a front only what it has is compared."""
        for it in payloads(self.chain.kind, given):
            rest = self.text[at : at + len(it)]
            if it != rest:
                is_front = self.end == "cut" and it.startswith(rest) or self.end == "halted" and not rest
                return len(self.text) if is_front and at + len(rest) == len(self.text) else None
            at += len(it)
        return at

    def finds(self):
        seen, given, stop = self.chain.push(self.chain.begin(), (), None)
        waiting, known = [((0, 0), seen, self.taken(given, 0), stop)], set()
        while waiting:
            places, seen, at, stop = waiting.pop()
            key = places, self.chain.memory(seen), at, stop
            if at is None or key in known:
                continue
            known.add(key)
            if self.is_end(places, seen, at, stop):
                return True
            if len(known) > self.most:
                Merged.given_up += 1
                return True
            if stop is None:
                waiting += self.further(places, seen, at)
        return False

    def further(self, places, seen, at):
        """Where the next element of either side leads."""
        for side in (0, 1):
            element = self.sides[side][0][places[side] : places[side] + 1]
            if element:
                now, given, stop = self.chain.push(seen, element, None)
                yield (places[0] + (side == 0), places[1] + (side == 1)), now, self.taken(given, at), stop

    def stops(self, places, seen, stop):
        """How all may end here, with what the steps still give then."""
        if stop is not None:
            yield stop, ()
            return
        ended = [end for (given, end), place in zip(self.sides, places) if place == len(given)]
        for end in {it for it in ended if it != "done"} | ({"done"} if ended == ["done", "done"] else set()):
            _, given, stop = self.chain.push(seen, (), end)
            yield stop, given

    def is_end(self, places, seen, at, stop):
        """Whether the text and the end may be these."""
        if self.end in ("halted", "cut") and at == len(self.text):
            return True
        for how, given in self.stops(places, seen, stop):
            if how != "done" and self.stand_in is not None:
                how, given = "done", given + self.stand_in
            if self.taken(given, at) == len(self.text) and self.end in (how, "halted", "cut"):
                return True
        return False


def stand_in_of(stream):
    """The elements of the text that stands in for a fault, or None where there is no such text."""
    if stream.on_fault is None:
        return None
    return {BYTES: stream.on_fault, LINES: (stream.on_fault,), ROWS: ((stream.on_fault,),)}[stream.kind]


def side_of(stream, reading, tables):
    """The kind, the elements and the end of one file through the steps."""
    kind, given, end = BYTES, reading.content, f"fault {reading.fault}" if reading.fault else "done"
    for step in stream.steps:
        given, end = through(step, kind, given, end, tables)
        kind = TAKES[step[0]][kind]
    return kind, given, end


def joined(join, left, right):
    """The elements and the end of two files that are appended or zipped."""
    (given, end), (others, other_end) = left, right
    if join == "append":
        return (given, end) if end != "done" else (given + others, other_end)
    return tuple(zip(given, others)), end if len(given) <= len(others) else other_end


def body_of(stream, readings, tables):
    """The kind, the elements and the end of the stream before any text stands in for a fault; None where the two are merged."""
    for reading in readings:
        if reading.fault == "open":
            return stream.kind, none_of(stream.kind), "fault open"
    kind, given, end = side_of(stream, readings[0], tables)
    if stream.join == "merge":
        return None
    if stream.join:
        given, end = joined(stream.join, (given, end), side_of(stream, readings[1], tables)[1:])
        kind = ROWS if stream.join == "zip" else kind
    for step in stream.after:
        given, end = through(step, kind, given, end, tables)
        kind = TAKES[step[0]][kind]
    return kind, given, end


def given_by(stream, readings, tables):
    """What the stream may give, of what its files give, and how its body ends: None where that isn't told."""
    stand_in, body = stand_in_of(stream), body_of(stream, readings, tables)
    if body is None:
        kind, *left = side_of(stream, readings[0], tables)
        right = side_of(stream, readings[1], tables)[1:]
        return Merged(Chain(stream.after, kind, tables), tuple(left), right, stand_in), None
    kind, given, end = body
    if end != "done" and stand_in is not None:
        return Given(kind, given + stand_in, "done"), end
    return Given(kind, given, end), end
