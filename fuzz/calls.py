#!/usr/bin/env python3
"""Fails each call that the program makes on its files and its outputs, one after the other (strace -e inject): each open, read,
write, close and fsync, also by a mere interruption, which has to change nothing. What is printed, the status and the files are judged
as in fuzz/runs.py, and by strace's own log each file that was opened is closed once. Prints how many calls were failed, and what is
wrong.

usage: fuzz/calls.py

FLUME as in fuzz/runs.py. Needs strace."""
import os, pathlib, re, subprocess, sys, tempfile

sys.path.insert(0, str(pathlib.Path(__file__).resolve().parent))
import judge, outside
from cases import Case
from described import plan_of
from judge import Writing
from program import words_in
from streams import Reading
from words import command_of

LONG = b"x" * 10_000
TABLE = '[[table]]\nname = "t"\npath = "t.csv"\n'
FILES = {"t.csv": b"k,v\n", "a.csv": b"k\nz\n", "a": b"hello\n", "p": b"a\nb\nc\n", "q": b"1\n2\n", "l": b"ab\ncd", "long": LONG, "paths": b"p\nq\n"}
# A group with a table, and a list; what its lines name stands in comments.
PARTS = '[[group]]\n[[group.table]]\nname = "t"\npath = "t.csv"\n[[group.stream]]\npath = "a.csv"\nsteps = ["csv", "lookup t 0"]\n[list]\npath = "paths"\n# path = "p"\n# path = "q"\n'
CALLS = {
    "a lookup": TABLE + '[[stream]]\npath = "a.csv"\nsteps = ["csv", "lookup t 0"]\n',
    "two tables": TABLE + '[[table]]\nname = "u"\npath = "p"\n',
    "a file that is written": '[[stream]]\npath = "a"\nto = "to1"\n',
    "a text for a fault": '[[stream]]\npath = "l"\nsteps = ["lines"]\non_fault = "lost"\n',
    "two files": 'max_open = 1\n[[stream]]\npath = "p"\nsteps = ["lines"]\nwith = "q"\njoin = "zip"\n',
    "three streams": 'max_open = 2\nchunk = 3000\n[[stream]]\npath = "long"\nto = "to1"\n[[stream]]\npath = "a"\n[[stream]]\npath = "p"\nto = "to2"\nsteps = ["lines", "number"]\n',
    "a group and a list": "version = 2\nmax_open = 1\n" + PARTS,
    "cat": ["cat", "a"],
    "branches of a file": ["tee", "--chunk", "4", "p", "lines", "utf8|lines|count"],
    "lines in groups": ["eval", "--jobs", "2", "--group", "1", "p", "lines|number"],
}
ERRORS = {"openat": ["EACCES", "EMFILE"], "read": ["EIO", "EINTR"], "write": ["ENOSPC", "EINTR"], "close": ["EIO"], "fdatasync": ["EIO", "EINVAL"]}
WITH_PRINTED = {"printed": ["write"], "described": ["read"]}


class Traced(outside.Outside):
    """A folder in which a case is called with a call on a path failing, the nth, with an error. Its input and its output are files."""

    def traced(self, case, path, call, nth, error):
        self.make(case)
        (self.folder / "described").write_bytes(case.source)
        log = self.folder.parent / "log"
        inject = ["-e", f"inject={call}:error={error}:when={nth}"] if call else []
        paths = ["-P", str(self.folder / path), "-P", path] if path else []
        words = ["strace", "-f", "--quiet=all", "-o", log, *paths, "-e", "trace=openat,read,write,close,fdatasync,fsync", *inject, *self.program, *case.words]
        told = outside.told_of(case)
        held = {it: self.held(it) for it in told.writings}
        with open(self.folder / "described", "rb") as given, open(self.folder / "printed", "wb") as printed:
            ran = subprocess.run(words, cwd=self.folder, stdin=given, stdout=printed, stderr=subprocess.PIPE, timeout=outside.SECONDS)
        out = (self.folder / "printed").read_bytes()
        for it in ("described", "printed"):
            (self.folder / it).unlink()
        wrote = {it: self.held(it) for it in told.writings}
        seen = judge.Seen(ran.returncode, out, ran.stderr, wrote, held, self.changed(case))
        self.remove(case)
        return told, seen, log.read_text()


def tell(told, case, path, call, nth, error):
    """Tells the judge what fails. An interruption, and what is no failure of a close, changes nothing."""
    if error == "EINTR" or call == "close" or error == "EINVAL":
        return
    command = command_of(case.words)
    chunk = {"run": lambda: plan_of(case.source).numbers["chunk"], "tee": lambda: command[1]}.get(command[0], lambda: 4_096)()
    if path == "printed":
        told.out_limit, told.out_told = 0, False
    elif path == "described":
        told.source = None
    elif call == "openat":
        told.readings[path], told.writings[path] = Reading(fault="open"), Writing(opens=False)
    elif call == "read":
        told.readings[path] = Reading(told.readings[path].content[: (nth - 1) * chunk], "read")
    elif call == "write":
        told.writings[path] = Writing(may_fail=True)
    else:
        told.writings[path] = Writing(unsafe=True)


def closes(log, path):
    """How often the path was opened, and how often that descriptor was closed, by strace's log of its calls alone."""
    opened = len(re.findall(r"openat\([^\n]*\) = \d|openat resumed>[^\n]*\) = \d", log))
    return opened, len(re.findall(r"\bclose\(", log))


def wrongs(told, seen, call, path, log):
    """What is wrong with a call of which one call failed."""
    lines = judge.wrongs(told, seen)
    if path == "printed" and call and seen.status != 4 and not told.out_told:
        lines.append(f"status {seen.status} and not 4")
    if path not in ("printed", "described", None):
        opened, closed = closes(log, path)
        if opened != closed:
            lines.append(f"{path} was opened {opened} times and closed {closed} times")
    return lines


def each(place, name, case):
    """Fails each call on each path in turn. Gives how many were failed, and how many runs were wrong."""
    failed = wrong = 0
    paths = re.findall(r'"(\S+)"', " ".join(re.findall("path = .*|to = .*|with = .*", case.source.decode()))) or list(case.files)
    for path in [*dict.fromkeys(paths), "printed", *(["described"] if case.source else [])]:
        for call in WITH_PRINTED.get(path, ERRORS):
            for error in ERRORS[call]:
                for nth in range(1, 100):
                    told, seen, log = place.traced(case, path, call, nth, error)
                    if "(INJECTED)" not in log:
                        break
                    failed += 1
                    tell(told, case, path, call, nth, error)
                    lines = wrongs(told, seen, call, path, log)
                    wrong += bool(lines)
                    for it in lines:
                        print(f"{name}: {call} {nth} on {path} with {error}: {it[:300]}", flush=True)
    return failed, wrong


def main():
    failed = wrong = 0
    with tempfile.TemporaryDirectory(dir="/dev/shm") as name:
        folder = pathlib.Path(name)
        program = words_in(folder)
        (folder / "case").mkdir()
        place = Traced(program, folder / "case")
        for title, made in CALLS.items():
            words, text = (["run"], made) if isinstance(made, str) else (made, "")
            files = {path: it for path, it in FILES.items() if path in words or f'"{path}"' in text}
            case = Case([it.encode() for it in words], text.encode(), files)
            told, seen, _ = place.traced(case, None, None, 0, None)
            for it in judge.wrongs(told, seen):
                print(f"{title}: {it}")
                wrong += 1
            one, more = each(place, title, case)
            failed, wrong = failed + one, wrong + more
            print(f"{title}: {one} calls failed in turn, {more} wrong", flush=True)
    print(f"{failed} calls failed in turn, {wrong} wrong")
    sys.exit(1 if wrong else 0)


if __name__ == "__main__":
    main()
