#!/usr/bin/env python3
"""Prints a ledger that keeps the rules, of one shape, with as many events as fit into the largest text that `flume audit` accepts;
with `half` behind the shape, the ledger of half as many parts; with `small`, that of a twentieth.

usage: bench/ledgers.py SHAPE [half | small]
"""
import sys

MOST = 524288
OK = "succeeded"


def streams(n):
    """Streams side by side, each with a row of its own."""
    yield from (f"outer lease {k} 0" for k in range(n))
    yield f"outer close 0 {OK}"
    for k in range(n):
        yield f"{k} acquire {k} 0"
        yield f"{k} close 0 {OK}"
        yield f"{k} final {k} {OK} ok"
        yield f"{k} cancel {k} {OK}"


def tables(n):
    """Streams side by side over eight tables, which end with the last stream."""
    yield from (f"outer acquire {r} 0" for r in range(8))
    yield from (f"outer lease {k} 0" for k in range(n))
    yield f"outer close 0 {OK}"
    for k in range(n):
        yield f"{k} close 0 {OK}"
        yield f"{k} cancel {k} {OK}"
    yield from (f"{n - 1} final {r} {OK} ok" for r in reversed(range(8)))


def rows(n):
    """Rows in one scope."""
    yield from (f"0 acquire {r} 0" for r in range(n))
    yield f"0 close 0 {OK}"
    yield from (f"0 final {r} {OK} ok" for r in reversed(range(n)))


def turns(n):
    """Scopes one after the other, each with a row."""
    for s in range(1, n + 1):
        yield f"0 open {s} 0"
        yield f"0 acquire {s} {s}"
        yield f"0 close {s} {OK}"
        yield f"0 final {s} {OK} ok"
    yield f"0 close 0 {OK}"


def nested(n):
    """Scopes within one another, each with a row, closed at once."""
    for s in range(1, n + 1):
        yield f"0 open {s} {s - 1}"
        yield f"0 acquire {s} {s}"
    yield f"0 close 0 {OK}"
    yield from (f"0 final {s} {OK} ok" for s in reversed(range(1, n + 1)))


def lent(n):
    """As many rows as leases, each of which covers every row."""
    yield from (f"outer acquire {r} 0" for r in range(n))
    yield from (f"outer lease {k} 0" for k in range(n))
    yield f"outer close 0 {OK}"
    yield from (f"{k} cancel {k} {OK}" for k in range(n))
    yield from (f"{n - 1} final {r} {OK} ok" for r in reversed(range(n)))


def deep(n):
    """Scopes within one another, and as many rows in the innermost."""
    yield from (f"0 open {s} {s - 1}" for s in range(1, n + 1))
    yield from (f"0 acquire {r} {n}" for r in range(n))
    yield f"0 close 0 {OK}"
    yield from (f"0 final {r} {OK} ok" for r in reversed(range(n)))


def below(n):
    """Rows of scopes within one another, of which the innermost is leased, all ended behind the lease's Cancel."""
    for s in range(1, n + 1):
        yield f"outer open {s} {s - 1}"
        yield f"outer acquire {s} {s}"
    yield f"outer lease 0 {n}"
    yield f"outer close 0 {OK}"
    yield f"0 cancel 0 {OK}"
    yield from (f"0 final {s} {OK} ok" for s in reversed(range(1, n + 1)))


def beside(n):
    """Rows in one scope, which end while as many leases of another scope, noted behind them, are in force."""
    yield "outer open 1 0"
    yield from (f"outer acquire {r} 1" for r in range(n))
    yield "outer open 2 0"
    yield from (f"outer lease {k} 2" for k in range(n))
    yield f"outer close 1 {OK}"
    yield from (f"outer final {r} {OK} ok" for r in reversed(range(n)))
    yield f"outer close 0 {OK}"
    yield from (f"{k} cancel {k} {OK}" for k in range(n))


def beside_each(n):
    """The same with each row in a scope of its own."""
    for s in range(3, n + 3):
        yield f"outer open {s} 0"
        yield f"outer acquire {s} {s}"
    yield "outer open 1 0"
    yield "outer open 2 1"
    yield from (f"outer lease {k} 2" for k in range(n))
    for s in range(3, n + 3):
        yield f"outer close {s} {OK}"
        yield f"outer final {s} {OK} ok"
    yield f"outer close 0 {OK}"
    yield from (f"{k} cancel {k} {OK}" for k in range(n))


def before(n):
    """The same where the leases lie below the rows' scope, and are noted in front of the rows."""
    yield "outer open 1 0"
    yield "outer open 2 1"
    yield from (f"outer lease {k} 2" for k in range(n))
    yield from (f"outer acquire {r} 1" for r in range(n))
    yield "outer open 3 0"
    yield f"outer lease {n} 3"
    yield f"outer close 1 {OK}"
    yield from (f"outer final {r} {OK} ok" for r in reversed(range(n)))
    yield f"outer close 0 {OK}"
    yield from (f"{k} cancel {k} {OK}" for k in range(n + 1))


def ladder(n):
    """Scopes within one another, each leased and then with a row, closed from the innermost out while the leases are in force."""
    yield from (f"outer open {s} {s - 1}" for s in range(1, n + 1))
    yield from (f"outer lease {s} {s}" for s in range(1, n + 1))
    yield from (f"outer acquire {s} {s}" for s in range(1, n + 1))
    yield f"outer lease {n + 1} 0"
    for s in reversed(range(1, n + 1)):
        yield f"outer close {s} {OK}"
        if s > 1:
            yield f"outer final {s} {OK} ok"
    yield f"outer close 0 {OK}"
    yield from (f"{s} cancel {s} {OK}" for s in range(1, n + 2))
    yield f"{n + 1} final 1 {OK} ok"


def waiting(n):
    """Rows that wait for one lease, behind which another stream noted as many, when an event of their stream asks whether
    they may."""
    yield "outer open 1 0"
    yield from (f"outer acquire {r} 1" for r in range(n))
    yield "outer lease 0 1"
    yield from (f"0 lease {k} 0" for k in range(1, n + 1))
    yield f"outer close 1 {OK}"
    yield f"outer acquire {n} 0"
    yield f"0 close 0 {OK}"
    yield from (f"{k} cancel {k} {OK}" for k in range(1, n + 1))
    yield f"0 cancel 0 {OK}"
    yield from (f"0 final {r} {OK} ok" for r in reversed(range(n)))
    yield f"outer close 0 {OK}"
    yield f"outer final {n} {OK} ok"


def waiting_beside(n):
    """The same where the stream of the rows itself noted the leases behind it, of another scope."""
    yield "outer open 1 0"
    yield from (f"outer acquire {r} 1" for r in range(n))
    yield "outer lease 0 1"
    yield "outer open 2 0"
    yield from (f"outer lease {k} 2" for k in range(1, n + 1))
    yield f"outer close 1 {OK}"
    yield f"outer acquire {n} 0"
    yield f"0 cancel 0 {OK}"
    yield from (f"0 final {r} {OK} ok" for r in reversed(range(n)))
    yield f"outer close 0 {OK}"
    yield f"outer final {n} {OK} ok"
    yield from (f"{k} cancel {k} {OK}" for k in range(1, n + 1))


def begun(n):
    """Streams that began before as many rows were acquired, and cancel their leases behind them."""
    yield from (f"outer lease {k} 0" for k in range(n))
    yield from (f"{k} open 1 0" for k in range(n))
    yield from (f"outer acquire {r} 0" for r in range(n))
    yield f"outer close 0 {OK}"
    yield from (f"outer final {r} {OK} ok" for r in reversed(range(n)))
    for k in range(n):
        yield f"{k} close 0 {OK}"
        yield f"{k} cancel {k} {OK}"


def nested_leases(n):
    """Leases of the innermost of scopes within one another, each canceled before those in front of it, over a row in each."""
    for s in range(1, n + 1):
        yield f"outer open {s} {s - 1}"
        yield f"outer acquire {s} {s}"
    yield from (f"outer lease {k} {n}" for k in range(n))
    yield f"outer close 0 {OK}"
    yield from (f"{k} cancel {k} {OK}" for k in reversed(range(n)))
    yield from (f"0 final {s} {OK} ok" for s in reversed(range(1, n + 1)))


def children(n):
    """A lease of a scope covers the rows of as many children, which close one by one."""
    for s in range(1, n + 1):
        yield f"outer open {s} 0"
        yield f"outer acquire {s} {s}"
        yield f"outer lease {s} 0"
    yield from (f"outer close {s} {OK}" for s in range(1, n + 1))
    yield f"outer close 0 {OK}"
    yield from (f"{k} cancel {k} {OK}" for k in range(1, n + 1))
    yield from (f"{n} final {s} {OK} ok" for s in reversed(range(1, n + 1)))


SHAPES = {
    f.__name__: f
    for f in (
        streams, tables, rows, turns, nested, lent, deep,
        below, beside, beside_each, before, ladder, waiting, waiting_beside, begun, nested_leases, children,
    )
}


def text(shape, n):
    events = list(shape(n))
    return "".join(line + "\n" for line in [f"ledger {len(events)}", *events])


def most_parts(shape):
    low, high = 1, MOST
    while high - low > 1:
        middle = (low + high) // 2
        low, high = (middle, high) if len(text(shape, middle)) <= MOST else (low, middle)
    return low


if len(sys.argv) < 2 or sys.argv[1] not in SHAPES:
    sys.exit(f"{__doc__}\nSHAPE is one of {', '.join(SHAPES)}")
shape = SHAPES[sys.argv[1]]
parts = most_parts(shape)
size = sys.argv[2] if len(sys.argv) > 2 else ""
sys.stdout.write(text(shape, parts // {"half": 2, "small": 20}.get(size, 1)))
