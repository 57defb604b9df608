#!/usr/bin/env python3
"""How much the largest descriptions take: of each its bytes, the time by the clock and of a processor, the peak of memory, and the
status. It asserts nothing but the statuses; the numbers are for a reader.

usage: fuzz/largest.py [NAME ..]

FLUME as in fuzz/runs.py. Needs GNU time as /usr/bin/time."""
import pathlib, subprocess, sys, tempfile, time

sys.path.insert(0, str(pathlib.Path(__file__).resolve().parent))
from program import words_in

MOST_OF_RECORDS = 16_777_216


def streams(count, entry, top=""):
    return (top + f"[[stream]]\n{entry}\n" * count).encode()


def full(text):
    """The text, and a comment up to the most bytes that a description may have."""
    return text + b"#" * (1_048_575 - len(text)) + b"\n"


STEPS = "steps = ['lines'" + ", 'filter a'" * 15 + "]"
DESCRIPTIONS = {
    "nothing": (b"", 0),
    "a comment of 1,048,576 bytes": (full(b""), 0),
    "a byte more": (full(b"") + b"\n", 3),
    "arrays 80 deep": (b"table = " + b"[" * 80 + b"]" * 80, 3),
    "1,024 streams": (streams(1_024, "path = 'small'"), 0),
    "1,024 streams, one at a time": (streams(1_024, "path = 'small'", "max_open = 1\n"), 0),
    "1,024 streams, 64 at a time": (streams(1_024, "path = 'small'", "max_open = 64\n"), 0),
    "1,024 streams of 16 steps": (full(streams(1_024, f"path = 'small'\n{STEPS}", "max_open = 64\n")), 0),
    "1,024 streams of two files, each with a text and a file": (b"".join(b"[[stream]]\npath = 'small'\nwith = 'small'\njoin = 'append'\non_fault = 'x'\nto = 'to%d'\n" % it for it in range(1_024)), 0),
    "a list of 1,024 lines, 64 streams at a time": (b"version = 2\nmax_open = 64\n[list]\npath = 'paths'\nmax = 1024\n", 0),
    "a line more": (b"version = 2\nmax_open = 64\n[list]\npath = 'paths'\nmax = 1023\n", 1),
    "16 groups of 64 streams": (b"version = 2\n" + (b"[[group]]\n" + b"[[group.stream]]\npath = 'small'\n" * 64) * 16, 0),
    "1,025 streams": (streams(1_025, "path = 'small'"), 3),
    "a table of 16,777,216 bytes": (b"[[table]]\nname = 't'\npath = 'records'\n", 0),
    "a stream of records of 16,777,216 bytes": (streams(1, "path = 'records'\nsteps = ['csv', 'count']"), 0),
    "a line of 1,048,576 bytes": (streams(1, "path = 'line'\nsteps = ['lines']"), 0),
    "64 lines of 1,048,576 bytes at a time": (streams(64, "path = 'line'\nsteps = ['lines', 'count']", "max_open = 64\n"), 0),
    "a key of 80 parts, 6,000 times": (b"".join(b"%sk%d = 1\n" % (b"a." * 79, it) for it in range(6_000)), 3),
    "90,000 keys": (b"".join(b"k%d = 1\n" % it for it in range(90_000)), 3),
    "64 pieces of 65,536 bytes wait": (streams(64, "path = 'line'", "max_open = 64\nqueue = 64\nchunk = 65536\n"), 0),
}


def measure(program, folder, text):
    """The status, the seconds by the clock and of a processor, and the peak of memory in KiB."""
    begin = time.monotonic()
    (folder / "described").write_bytes(text)
    with open(folder / "described", "rb") as given:
        words = ["/usr/bin/time", "-o", folder / "used", "-f", "%U %S %M", *program, "run"]
        ran = subprocess.run(words, cwd=folder, stdin=given, stdout=subprocess.DEVNULL, stderr=subprocess.DEVNULL)
    *_, user, system, peak = (folder / "used").read_text().split()
    return ran.returncode, time.monotonic() - begin, float(user) + float(system), int(peak)


def main():
    wrong = 0
    with tempfile.TemporaryDirectory(dir="/dev/shm") as name:
        program = words_in(pathlib.Path(name))
        folder = pathlib.Path(name) / "case"
        folder.mkdir()
        (folder / "small").write_bytes(b"a\n" * 10)
        (folder / "paths").write_bytes(b"small\n" * 1_024)
        (folder / "line").write_bytes(b"x" * 1_048_576)
        (folder / "records").write_bytes((b"".join(b"%07d,%07d\n" % (it, it) for it in range(MOST_OF_RECORDS // 16 + 1)))[:MOST_OF_RECORDS])
        print("| description | bytes | status | s by the clock | s of a processor | peak, KiB |\n|---|---|---|---|---|---|")
        for title, (text, wanted) in DESCRIPTIONS.items():
            if len(sys.argv) == 1 or any(it in title for it in sys.argv[1:]):
                status, clock, spent, peak = measure(program, folder, text)
                wrong += status != wanted
                print(f"| {title} | {len(text):,} | {status}{'' if status == wanted else ' and not ' + str(wanted)} | {clock:.2f} | {spent:.2f} | {peak:,} |", flush=True)
    sys.exit(1 if wrong else 0)


main()
