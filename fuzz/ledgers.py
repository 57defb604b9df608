"""The rules of docs/LEDGER.md for a ledger's text, as facts about the places of its events: which text is one, which events are
lawful, whether they are in order, and whether all was ended."""
import re

EXITS = ("succeeded", "errored", "canceled")
NUMBER = "(0|[1-9][0-9]*)"
BY = f"(outer|{NUMBER})"
SPELLED = {
    "open": re.compile(f"{BY} open {NUMBER} {NUMBER}\n"),
    "acquire": re.compile(f"{BY} acquire {NUMBER} {NUMBER}\n"),
    "lease": re.compile(f"{BY} lease {NUMBER} {NUMBER}\n"),
    "cancel": re.compile(f"{BY} cancel {NUMBER} ({'|'.join(EXITS)})\n"),
    "close": re.compile(f"{BY} close {NUMBER} ({'|'.join(EXITS)})\n"),
    "final": re.compile(f"{BY} final {NUMBER} ({'|'.join(EXITS)}) (ok|fault)\n"),
}


class BadText(Exception):
    """What is wrong with a text: `line I` or `count S F`."""


def event_of(line):
    """The event that a line tells: who notes it (`outer` or a number), what, and its words; None where the line is none."""
    kind = line.split(" ")[1] if " " in line else ""
    found = SPELLED[kind].fullmatch(line) if kind in SPELLED else None
    if not found:
        return None
    words = [int(it) if it.isdigit() else it for it in line[:-1].split(" ")]
    if any(type(it) is int and it >= 2**32 for it in words):
        return None
    return tuple(words)


def lines_of(text):
    """The lines, cut after each line feed. What stands behind the last one is a line too, and so is a text of no bytes."""
    lines = text.split("\n")
    return [it + "\n" for it in lines[:-1]] + ([lines[-1]] if lines[-1] or len(lines) == 1 else [])


def read(data):
    """The events of a ledger's text."""
    head, *lines = lines_of(data.decode("latin-1"))
    found = re.fullmatch(f"ledger {NUMBER}\n", head)
    if not found or int(found[1]) >= 2**64:
        raise BadText("line 0")
    events = [event_of(it) for it in lines]
    if None in events:
        raise BadText(f"line {events.index(None) + 1}")
    if int(found[1]) != len(events):
        raise BadText(f"count {int(found[1])} {len(events)}")
    return events


class Front:
    """The front of a ledger, by the places at which things stand in it."""

    def __init__(self):
        self.length = 0
        self.parent, self.closed, self.acquired, self.final = {}, {}, {}, {}
        self.lease, self.cancel, self.by = {}, {}, {}
        self.rows_of, self.children = {}, {}
        # Of each stream the rows that its last Close or Cancel has still to be followed by directly, each with whether it may be
        # left out, and the exit.
        self.expected = {}

    def is_open(self, k, s):
        """Whether the scope is the root or was opened by the stream, and neither it nor one around it is closed."""
        while s != 0:
            if (k, s) in self.closed or (k, s) not in self.parent:
                return False
            s = self.parent[k, s]
        return (k, 0) not in self.closed

    def is_around(self, k, outer, s):
        """Whether the scope is this one or one around it."""
        while s != outer and s != 0:
            s = self.parent[k, s]
        return s == outer

    def covers(self, j, row):
        """Whether the lease for the stream covers the row."""
        place, k, s = self.lease[j]
        at, by, t, closed = self.acquired[row]
        if by != k or at > place or closed is not None and closed < place:
            return False
        return self.is_around(k, t, s) or t != 0 and self.parent[k, t] == s

    def leases_on(self, row):
        return [j for j in self.lease if self.covers(j, row)]

    def is_handed(self, row):
        _, _, _, closed = self.acquired[row]
        return closed is not None and row not in self.final and all(j in self.cancel for j in self.leases_on(row))

    def is_lawful(self, event):
        """Whether the event may stand next."""
        k, what, *words = event
        if what == "open":
            return words[0] != 0 and (k, words[0]) not in self.parent and self.is_open(k, words[1])
        if what == "acquire":
            return words[0] not in self.acquired and self.is_open(k, words[1])
        if what == "lease":
            return words[0] not in self.lease and k != words[0] and self.is_open(k, words[1])
        if what == "close":
            return self.is_open(k, words[0])
        if what == "final":
            row = words[0]
            if row not in self.acquired or not self.is_handed(row):
                return False
            return self.acquired[row][1] == k or any(self.cancel[j] == k for j in self.leases_on(row))
        return self.may_cancel(k, words[0])

    def may_cancel(self, k, j):
        if j not in self.lease or j in self.cancel:
            return False
        if k == j:
            return all(row in self.final for row in self.rows_of.get(j, ()))
        return k == self.lease[j][1] and j not in self.by

    def teardown(self, k, s):
        """The rows that a Close of the scope takes down, in order."""
        rows = []
        for child in reversed(self.children.get((k, s), [])):
            if (k, child) not in self.closed:
                rows += self.teardown(k, child)
        return rows + [row for row in reversed(self.rows_of.get(k, [])) if self.acquired[row][2] == s and self.acquired[row][3] is None]

    def keeps_order(self, event):
        """Whether the event may stand next in its stream's own list: a Final of the rows still expected, in their order, with the
        exit, none left out that no lease covers; or another event where nothing is left that has to come."""
        k, what, *words = event
        rows, exit = self.expected.get(k, ([], None))
        if what != "final":
            return all(may_lack for _, may_lack in rows)
        for place, (row, may_lack) in enumerate(rows):
            if row == words[0]:
                self.expected[k] = (rows[place + 1 :], exit)
                return exit == words[1]
            if not may_lack:
                return False
        return False

    def note(self, event):
        """Takes in an event that is lawful."""
        k, what, *words = event
        place, self.length = self.length, self.length + 1
        self.by.setdefault(k, place)
        if what != "final":
            self.expected[k] = ([], None)
        if what == "open":
            self.parent[k, words[0]] = words[1]
            self.children.setdefault((k, words[1]), []).append(words[0])
        elif what == "acquire":
            self.acquired[words[0]] = (place, k, words[1], None)
            self.rows_of.setdefault(k, []).append(words[0])
        elif what == "lease":
            self.lease[words[0]] = (place, k, words[1])
        elif what == "cancel":
            self.cancel[words[0]] = k
            rows = [row for row in reversed(self.rows_of.get(self.lease[words[0]][1], [])) if self.covers(words[0], row)]
            self.expected[k] = ([(row, True) for row in rows], words[1])
        elif what == "close":
            rows = self.teardown(k, words[0])
            self.expected[k] = ([(row, bool(self.leases_on(row))) for row in rows], words[1])
            for row in rows:
                self.acquired[row] = self.acquired[row][:3] + (place,)
            self.closed[k, words[0]] = place
        elif what == "final":
            self.final[words[0]] = k

    def is_complete(self):
        """Whether each row has its Final, each lease its Cancel, and each scope and each root of a stream with a row its Close."""
        roots = {(by, 0) for _, by, _, _ in self.acquired.values()}
        return (
            all(row in self.final for row in self.acquired)
            and all(j in self.cancel for j in self.lease)
            and all(self.is_closed(k, s) for k, s in [*self.parent, *roots])
        )

    def is_closed(self, k, s):
        return not self.is_open(k, s)


def verdict(events):
    """What an audit is to print of the events."""
    front = Front()
    for place, event in enumerate(events):
        if not front.is_lawful(event):
            return f"audit line {place} legal"
        if not front.keeps_order(event):
            return f"audit line {place} ordered"
        front.note(event)
    return "audit ok" if front.is_complete() else "audit end complete"
