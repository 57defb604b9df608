"""What the outer stream of a run gives, read off docs/FORMAT.md and docs/LEDGER.md."""
from steps import BYTES, dictionary_of, through


def listing_of(plan, reading):
    """The paths that the plan's list gives streams, and how it ends. `reading` says what a path's file gives."""
    if not plan.listing:
        return [], None
    read = reading(plan.listing.path)
    given, end = read.content, f"fault {read.fault}" if read.fault else "done"
    if end == "fault open":
        return [], end
    for step in ("utf8", "lines"):
        given, end = through((step,), BYTES, given, end, [])
    paths = []
    for line in given:
        if len(paths) == plan.listing.most:
            return paths, "fault toomany"
        if not 1 <= len(line) <= 1_024 or line.decode() in [it.to for it in plan.streams]:
            return paths, "fault badpath"
        paths.append(line.decode())
    return paths, end


class Giving:
    """What the outer stream does where nothing stops it: what it notes as it reads tables and the list and gives streams, and how it
    ends."""

    def __init__(self, plan, reading, lines, list_end):
        self.plan, self.reading, self.events, self.tables, self.leased, self.end = plan, reading, [], [], 0, None
        counts = [sum(it) for it in zip(*plan.groups)] or [0, 0]
        self.part(0, len(plan.tables) - counts[0], len(plan.streams) - counts[1])
        for scope, (tables, streams) in enumerate(plan.groups, 1):
            self.child(scope, lambda: self.part(scope, tables, streams))
        if plan.listing:
            self.child(len(plan.groups) + 1, lambda: self.list(len(plan.groups) + 1, lines, list_end))
        self.end = self.end or "done"

    def note(self, *event):
        self.events.append(("outer", *event))

    def fail(self, fault):
        self.end = f"fault {fault}"

    def child(self, scope, inside):
        """A child of the root, in which this stands."""
        if self.end is None:
            self.note("open", scope, 0)
            inside()
        if self.end is None:
            self.note("close", scope, "succeeded")

    def lease(self, scope, count):
        for _ in range(count):
            self.note("lease", self.leased, scope)
            self.leased += 1

    def part(self, scope, tables, streams):
        """Tables and streams that stand together."""
        for path in self.plan.tables[len(self.tables) : len(self.tables) + tables]:
            reading = self.reading(path)
            if reading.fault == "open":
                return self.fail("open")
            self.note("acquire", len(self.tables), scope)
            found = reading.fault or dictionary_of(reading.content)
            if len(reading.content) > 16_777_216:
                found = "toolarge"
            if type(found) is str:
                return self.fail(found)
            self.tables.append(found)
        self.lease(scope, streams)

    def list(self, scope, lines, end):
        """The list, of which these lines are given streams, and which ends so."""
        if end == "fault open":
            return self.fail("open")
        self.note("acquire", len(self.plan.tables), scope)
        self.lease(scope, len(lines))
        self.end = end if end != "done" else None
