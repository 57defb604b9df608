#!/usr/bin/env python3
"""The rules of a ledger, as `flume audit` judges them: reads a ledger's text, and prints `audit ok`, or the first line that breaks a rule and
which, or that not all was ended. It goes through the events once, with a dictionary for what is noted. It takes any text to be well spelled."""
import sys


class Ledger:
    def __init__(self):
        self.parent, self.kids, self.rows = {}, {}, {}  # by stream and scope; kids and rows in order
        self.shut, self.own = {}, set()  # where a scope was closed, and those with a Close of their own
        self.row, self.lease, self.noted = {}, {}, {}  # by row; by stream; how many leases stand of each stream
        self.final, self.canceled, self.begun, self.acquired = set(), {}, set(), {}
        self.due = {}  # by stream: what may still end, the next one last; its exit; whether only lent rows may be left out

    def usable(self, by, scope):
        return (scope == 0 or (by, scope) in self.parent) and (by, scope) not in self.shut

    def torn(self, by, scope, place):
        """The rows that a Close takes down, the first one last."""
        rows, left = [], [scope]
        while left:
            scope = left.pop()
            self.shut[by, scope] = place
            rows += self.rows.get((by, scope), [])
            left += [k for k in reversed(self.kids.get((by, scope), [])) if (by, k) not in self.own]
        return rows

    def covers(self, stream, row):
        (by, scope, place), (owner, home, at) = self.lease[stream], self.row[row]
        if by != owner or at > place or self.shut.get((by, home), place) < place:
            return False
        if self.parent.get((by, home)) == scope:
            return True
        while scope is not None and scope != home:
            scope = self.parent.get((by, scope))
        return scope == home

    def holders(self, row):
        owner, _, at = self.row[row]
        return [k for k in reversed(self.noted.get(owner, [])) if self.lease[k][2] > at and self.covers(k, row)]

    def may_follow(self, by, act, a, b):
        if act == "open":
            return a != 0 and (by, a) not in self.parent and self.usable(by, b)
        if act == "acquire":
            return a not in self.row and self.usable(by, b)
        if act == "lease":
            return a not in self.lease and by != str(a) and self.usable(by, b)
        if act == "close":
            return self.usable(by, a)
        if act == "cancel":
            if a not in self.lease or a in self.canceled:
                return False
            ended = by == str(a) and all(r in self.final for r in self.acquired.get(by, []))
            return ended or (self.lease[a][0] == by and str(a) not in self.begun)
        if a not in self.row or a in self.final or self.row[a][:2] not in self.shut:
            return False
        holders = self.holders(a)
        return all(k in self.canceled for k in holders) and (self.row[a][0] == by or any(self.canceled[k] == by for k in holders))

    def in_order(self, by, act, a, exit, place):
        due, end, strict = self.due.get(by, ([], None, False))
        if act == "final":
            while due and due[-1] != a and not (strict and not self.holders(due[-1])):
                due.pop()
            return exit == end and bool(due) and due.pop() == a
        if strict and not all(self.holders(r) for r in due):
            return False
        if act == "close":
            self.due[by] = (self.torn(by, a, place), exit, True)
        elif act == "cancel":
            maker, _, at = self.lease[a]
            kept = [r for r in self.acquired.get(maker, []) if self.row[r][2] < at and self.covers(a, r)]
            self.due[by] = (kept, exit, False)
        else:
            self.due[by] = ([], None, False)
        return True

    def note(self, by, act, a, b, place):
        self.begun.add(by)
        if act == "open":
            self.parent[by, a] = b
            self.kids.setdefault((by, b), []).append(a)
        elif act == "acquire":
            self.row[a] = (by, b, place)
            self.rows.setdefault((by, b), []).append(a)
            self.acquired.setdefault(by, []).append(a)
        elif act == "lease":
            self.lease[a] = (by, b, place)
            self.noted.setdefault(by, []).append(a)
        elif act == "cancel":
            self.canceled[a] = by
        elif act == "close":
            self.own.add((by, a))
        else:
            self.final.add(a)

    def complete(self):
        rooted = all((by, 0) in self.shut for by, _, _ in self.row.values())
        return rooted and len(self.final) == len(self.row) and len(self.canceled) == len(self.lease) and all(s in self.shut for s in self.parent)


def verdict(lines):
    ledger = Ledger()
    for place, line in enumerate(lines):
        by, act, a, *more = line.split()
        a, b = int(a), int(more[0]) if act in ("open", "acquire", "lease") else None
        if not ledger.may_follow(by, act, a, b):
            return f"audit line {place} legal"
        if not ledger.in_order(by, act, a, more[0], place):
            return f"audit line {place} ordered"
        ledger.note(by, act, a, b, place)
    return "audit ok" if ledger.complete() else "audit end complete"


print(verdict(sys.stdin.read().splitlines()[1:]))
