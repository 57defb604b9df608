#!/usr/bin/env python3
"""Calls `eval` over a text of many lines with 1, 2, 3, 7 and 64 hands and groups of 1, 2, 255, 256 and 65,536 lines, and compares what
is printed byte for byte: over all numbers of hands, and, where the steps don't look beyond a line, with what `run` prints of the same
file by one stream. And `tee` with sixteen branches over 8 MB, of which each is to print what `run` prints of a stream with its steps,
and the empty one what `cat` does. Prints how many calls were made, and what differs. With fewer lines the file of `tee` is smaller
too; with the proved program on a machine where nothing else runs all takes some minutes.

usage: fuzz/hands.py [LINES]

FLUME as in fuzz/runs.py."""
import json, pathlib, random, subprocess, sys, tempfile

sys.path.insert(0, str(pathlib.Path(__file__).resolve().parent))
from program import words_in

SECONDS = 1_800
HANDS = [1, 2, 3, 7, 64]
GROUPS = [1, 2, 255, 256, 65_536]
# Steps that make the same of lines in whatever groups, and some that don't.
EVEN = ["", "lines|filter e", "utf8|lines|upper", "csv|field 1", "lossy|lines"]
UNEVEN = ["lines|number", "lines|count", "lines|take 3", "lines|changes", "lines|intersperse -"]
BRANCHES = ["", "hex", "utf8", "lossy", "lines", "lines|count", "lines|number", "lines|filter e", "lines|upper", "lines|chunk 3", "lines|drop 9", "lines|take 9", "lines|changes", "utf8|lines|filter 7", "csv|field 1", "csv|field 0"]


def printed(program, words, folder, source=b""):
    ran = subprocess.run([*program, *words], cwd=folder, input=source, capture_output=True, timeout=SECONDS)
    return ran.stdout, ran.returncode, ran.stderr


def payloads(out):
    """The payloads of each stream, one behind the other, and what stands behind the frames."""
    found, at = {}, 0
    while not out.startswith(b"end ", at):
        line = out.index(b"\n", at)
        stream, size = map(int, out[at:line].split())
        found.setdefault(stream, []).append(out[line + 1 : line + 1 + size])
        at = line + 2 + size
    return {stream: b"".join(parts) for stream, parts in found.items()}, out[at:]


def run_of(program, folder, steps):
    """What `run` prints of the file by one stream with these steps."""
    named = [f"{json.dumps(it)}" for it in steps.split("|") if it]
    source = f'[[stream]]\npath = "a"\nsteps = [{", ".join(named)}]\n'.encode()
    return payloads(printed(program, ["run"], folder, source)[0])[0].get(0, b"")


def ends(tail):
    return [line for line in tail.split(b"\n") if line.startswith(b"end ")]


def evaluations(program, folder, text):
    told, calls = [], 0
    (folder / "a").write_bytes(text)
    for steps in EVEN + UNEVEN:
        alone = run_of(program, folder, steps) if steps in EVEN else None
        for group in GROUPS:
            whole = None
            for hands in HANDS:
                got = printed(program, ["eval", "--jobs", str(hands), "--group", str(group), "a", steps], folder)
                calls += 1
                if whole is not None and got != whole:
                    told.append(f"eval {steps!r}, groups of {group}: {hands} hands print otherwise than 1")
                whole = whole or got
            found, tail = payloads(whole[0])
            if whole[1:] != (0, b"") or ends(tail) != [b"end 0 done"]:
                told.append(f"eval {steps!r}, groups of {group}: status {whole[1]}, {whole[2]!r}, {tail[:100]!r}")
            if alone is not None and found.get(0, b"") != alone:
                told.append(f"eval {steps!r}, groups of {group}: other payloads than those of run")
    return told, calls


def branches(program, folder, text):
    told = []
    (folder / "a").write_bytes(text)
    out, status, err = printed(program, ["tee", "a", *BRANCHES], folder)
    found, tail = payloads(out) if status == 0 else ({}, out)
    if status or err or ends(tail) != [b"end outer done", *(b"end %d done" % k for k in range(16))]:
        told.append(f"tee: status {status}, {err!r}, {tail[:400]!r}")
    for k, steps in enumerate(BRANCHES):
        if found.get(k, b"") != run_of(program, folder, steps):
            told.append(f"tee: branch {k}, {steps!r}, prints otherwise than run")
    cat = payloads(printed(program, ["cat", "a"], folder)[0])[0].get(0, b"")
    if found.get(0, b"") != cat:
        told.append("tee: the branch without steps prints otherwise than cat")
    return told, 2 + len(BRANCHES)


def main():
    lines = int(sys.argv[1]) if len(sys.argv) > 1 else 100_000
    dice = random.Random(7)
    words = [b"one", b"two", b"three", b"seven", b"eleven", b""]
    text = b"".join(b"%d,%s,%s\n" % (k, dice.choice(words), dice.choice(words)) for k in range(lines))
    long = b"".join(b"%d,%s\n" % (k, dice.choice(words)) for k in range(9 * lines))[: 8 << 20].rpartition(b"\n")[0] + b"\n"
    with tempfile.TemporaryDirectory() as name:
        folder = pathlib.Path(name)
        program = words_in(folder)
        told, calls = branches(program, folder, long)
        more, others = evaluations(program, folder, text)
    print(f"{calls + others} calls")
    if told + more:
        print(*told, *more, sep="\n")
        sys.exit(1)


main()
