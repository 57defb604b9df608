#!/usr/bin/env python3
"""A long run, of which neither memory nor descriptors may grow: four streams read named pipes that are fed without an end through
lines, a filter, numbers, records and a lookup, one is written to a file that is emptied now and then, and calls of all sorts begin
and end beside it. Memory and descriptors are looked at each second. Fails where the second half of the run has more of either than
the first had at most, but for a twentieth.

usage: fuzz/soak.py [MINUTES]    5 where that isn't told

FLUME as in fuzz/runs.py."""
import os, pathlib, re, subprocess, sys, tempfile, threading, time

sys.path.insert(0, str(pathlib.Path(__file__).resolve().parent))
import ledgers
from program import words_in

DESCRIPTION = """max_open = 4
queue = 4
[[table]]
name = "t"
path = "t"
[[stream]]
path = "p0"
steps = ["utf8", "lines", "filter 7", "number"]
[[stream]]
path = "p1"
steps = ["lossy", "hex"]
[[stream]]
path = "p2"
steps = ["lines", "changes", "upper", "intersperse -"]
with = "p3"
join = "merge"
after = ["drop 5", "chunk 3"]
[[stream]]
path = "p4"
to = "w"
"""
TEXT = b"".join(b"%d,some text that is read again and again\n" % it for it in range(1_000))


def feed(path, until, counts, place):
    """Feeds a pipe until that time, not faster than a megabyte a second."""
    with open(path, "wb", buffering=0) as pipe:
        while time.monotonic() < until:
            pipe.write(TEXT)
            counts[place] += len(TEXT)
            time.sleep(0.05)


def look(process):
    """The memory of a process in KiB, and how many descriptors it has."""
    status = pathlib.Path(f"/proc/{process}/status").read_text()
    return int(re.search(r"VmRSS:\s+(\d+)", status)[1]), len(os.listdir(f"/proc/{process}/fd"))


def take(pipe, printed):
    """Takes what is printed, of which the last bytes are kept."""
    while piece := os.read(pipe, 65_536):
        printed[0] += len(piece)
        printed[1] = (printed[1] + piece)[-4_000:]


def soak(program, folder, minutes):
    """Runs the streams so long, and gives what was seen each second."""
    until, counts, printed = time.monotonic() + 60 * minutes, [0] * 5, [0, b""]
    (folder / "t").write_bytes(b"1,one\n2,two\n")
    for it in range(5):
        os.mkfifo(folder / f"p{it}")
    running = subprocess.Popen([*program, "run"], cwd=folder, stdin=subprocess.PIPE, stdout=subprocess.PIPE)
    running.stdin.write(DESCRIPTION.encode())
    running.stdin.close()
    threads = [threading.Thread(target=feed, args=(folder / f"p{it}", until, counts, it), daemon=True) for it in range(5)]
    threads.append(threading.Thread(target=take, args=(running.stdout.fileno(), printed), daemon=True))
    for it in threads:
        it.start()
    seen = []
    while time.monotonic() < until - 1:
        time.sleep(1)
        seen.append(look(running.pid))
        if (folder / "w").exists() and (folder / "w").stat().st_size > 50_000_000:
            os.truncate(folder / "w", 0)
    for it in threads:
        it.join()
    return running.wait(), seen, sum(counts), printed


def main():
    minutes = float(sys.argv[1]) if len(sys.argv) > 1 else 5.0
    os.environ["ASAN_OPTIONS"] = "quarantine_size_mb=1"
    with tempfile.TemporaryDirectory(dir="/dev/shm") as name:
        program = words_in(pathlib.Path(name))
        folder = pathlib.Path(name) / "case"
        folder.mkdir()
        status, seen, read, printed = soak(program, folder, minutes)
    half = len(seen) // 2
    told, growth = [], {}
    for what, values in (("KiB of memory", [it[0] for it in seen]), ("descriptors", [it[1] for it in seen])):
        first, second = max(values[:half]), max(values[half:])
        growth[what] = f"at most {first} in the first half and {second} in the second"
        if second > first + first // 20:
            told.append(f"{what} grew")
    events = ledgers.read(printed[1][printed[1].rindex(b"\nledger ") + 1 :])
    if status != 0 or ledgers.verdict(events) != "audit ok":
        told.append(f"status {status}, {ledgers.verdict(events)}")
    print(f"{minutes:g} minutes, {read} bytes read, {printed[0]} printed, {len(seen)} looks: {growth}{', '.join(['', *told])}")
    sys.exit(1 if told else 0)


main()
