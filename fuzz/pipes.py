#!/usr/bin/env python3
"""Named pipes that block: one that nobody writes for a while, one that nobody reads, an output that nobody takes, a stream that is
to stop while it waits. What comes then is judged as in fuzz/runs.py; a call that waits is to take next to no time of a processor.
Prints a line for each.

usage: fuzz/pipes.py [SECONDS]"""
import os, pathlib, resource, subprocess, sys, tempfile, threading, time

sys.path.insert(0, str(pathlib.Path(__file__).resolve().parent))
import judge
from judge import Call, Seen, Writing
from program import words_in
from streams import Reading

LINES = b"".join(b"line %d\n" % it for it in range(200))
# More than a pipe holds.
LONG = LINES * 60


def write_late(path, wait, content):
    """Writes the content to a pipe once that time is over, the second half of it later still."""
    time.sleep(wait)
    with open(path, "wb", buffering=0) as pipe:
        try:
            pipe.write(content[: len(content) // 2])
            time.sleep(wait / 4)
            pipe.write(content[len(content) // 2 :])
        except BrokenPipeError:
            pass


def read_late(path, wait, taken):
    """Reads a pipe once that time is over."""
    with open(path, "rb", buffering=0) as pipe:
        time.sleep(wait)
        while piece := pipe.read(4_096):
            taken.append(piece)


def scenarios(wait):
    """Of each: what it is, the description, the pipes that are written and read, and whether standard output is taken late."""
    stream = '[[stream]]\npath = "{}"\nsteps = ["lines", "number"]\n'.format
    return [
        ("a pipe that nobody writes for a while", stream("in"), True, False, False),
        ("beside a stream that ends", "max_open = 2\n" + stream("in") + stream("f"), True, False, False),
        ("before a stream that has to wait", "max_open = 1\n" + stream("in") + stream("f"), True, False, False),
        ("a stream that is to end with another while it waits", stream("f") + stream("in") + "until = 0\n", True, False, False),
        ("a fault beside a stream that waits", stream("in") + stream("none"), True, False, False),
        ("a file to write that nobody reads for a while", '[[stream]]\npath = "long"\nto = "out"\n', False, True, False),
        ("an output that nobody takes for a while", "chunk = 1024\n" + stream("long") * 4, False, False, True),
    ]


def run(program, folder, wait, scenario):
    """Runs a scenario, and gives what is wrong, how long it took, and the processor's time."""
    title, text, writes, reads, is_late = scenario
    (folder / "f").write_bytes(LINES)
    (folder / "long").write_bytes(LONG)
    taken, threads = [], []
    if writes:
        os.mkfifo(folder / "in")
        threads.append(threading.Thread(target=write_late, args=(folder / "in", wait, LINES), daemon=True))
    if reads:
        os.mkfifo(folder / "out")
        threads.append(threading.Thread(target=read_late, args=(folder / "out", wait, taken), daemon=True))
    for it in threads:
        it.start()
    before, begin = resource.getrusage(resource.RUSAGE_CHILDREN), time.monotonic()
    running = subprocess.Popen([*program, "run"], cwd=folder, stdin=subprocess.PIPE, stdout=subprocess.PIPE, stderr=subprocess.PIPE)
    running.stdin.write(text.encode())
    running.stdin.close()
    if is_late:
        time.sleep(wait)
    out, err = running.stdout.read(), running.stderr.read()
    running.wait(60 + 10 * wait)
    took, after = time.monotonic() - begin, resource.getrusage(resource.RUSAGE_CHILDREN)
    for it in threads:
        it.join(10)
    call = Call([b"run"], text.encode(), {"f": Reading(LINES), "in": Reading(LINES), "long": Reading(LONG)}, {"out": Writing()})
    call.unsteady = {"in"}
    told = judge.wrongs(call, Seen(running.returncode, out, err, {"out": b"".join(taken)} if reads else {}, {"out": b""}, []))
    for it in folder.iterdir():
        it.unlink()
    return told, took, after.ru_utime + after.ru_stime - before.ru_utime - before.ru_stime


def main():
    wait, wrong = float(sys.argv[1]) if len(sys.argv) > 1 else 3.0, 0
    with tempfile.TemporaryDirectory(dir="/dev/shm") as name:
        program = words_in(pathlib.Path(name))
        folder = pathlib.Path(name) / "case"
        folder.mkdir()
        for scenario in scenarios(wait):
            told, took, spent = run(program, folder, wait, scenario)
            wrong += bool(told)
            print(f"{scenario[0]}: {took:.1f} s, {1000 * spent:.0f} ms of a processor{', wrong' if told else ''}")
            for it in told:
                print(f"  {it[:300]}", flush=True)
    sys.exit(1 if wrong else 0)


main()
