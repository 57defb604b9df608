#!/usr/bin/env python3
"""Refuses each request for memory of the proved program in turn, once for each run of a call: the first, the second and so on, until
one has fewer. A library of a few lines of C, which gcc makes and the loader puts in front of the system's, counts the requests, refuses
one, and notes which files were opened and closed. The call may end as ever, or with status 5, or with 4 where its output was to be
written from that memory; then each stream of `run`, `tee` and `eval` printed a front of what it gives, as fuzz/scarce.py judges it,
and each file that was opened was closed once. Prints how many requests were refused in each call, and what is wrong.

usage: fuzz/refused.py [NAME ..]

FLUME as in fuzz/runs.py, of the proved program. Needs gcc."""
import collections, pathlib, subprocess, sys, tempfile

sys.path.insert(0, str(pathlib.Path(__file__).resolve().parent))
import judge, outside
from calls import FILES, PARTS, TABLE
from cases import Case
from program import words_in
from scarce import wrongs_of_short

REFUSING = r"""
#define _GNU_SOURCE
#include <dlfcn.h>
#include <fcntl.h>
#include <stdarg.h>
#include <stdio.h>
#include <stdlib.h>
#include <sys/syscall.h>
#include <unistd.h>

extern void *__libc_malloc(size_t), *__libc_realloc(void *, size_t);
static long asked, refused = -1;
static int notes = -1;

__attribute__((constructor)) static void begin(void) {
  const char *nth = getenv("REFUSED"), *path = getenv("NOTES");
  if (path) notes = open(path, O_WRONLY | O_CREAT | O_APPEND | O_CLOEXEC, 0666);
  if (nth) refused = atol(nth);
  asked = 0;
}
static int is_refused(void) { return __sync_add_and_fetch(&asked, 1) == refused; }
void *malloc(size_t size) { return is_refused() ? NULL : __libc_malloc(size); }
void *realloc(void *old, size_t size) { return is_refused() ? NULL : __libc_realloc(old, size); }
static void note(char what, int file, const char *path) {
  char line[4400];
  int length = snprintf(line, sizeof line, "%c %d %s\n", what, file, path);
  if (notes >= 0 && length > 0 && write(notes, line, length) < 0) abort();
}
int open(const char *path, int flags, ...) {
  va_list more;
  va_start(more, flags);
  int mode = flags & O_CREAT ? va_arg(more, int) : 0;
  va_end(more);
  int file = openat(AT_FDCWD, path, flags, mode);
  if (file >= 0) note('o', file, path);
  return file;
}
int close(int file) {
  int (*next)(int) = (int (*)(int))dlsym(RTLD_NEXT, "close");
  note('c', file, "");
  return next(file);
}
void _exit(int status) {
  note('n', asked < 1000000 ? (int)asked : 1000000, "");
  syscall(SYS_exit_group, status);
  __builtin_unreachable();
}
"""
CALLS = {
    "lookup": TABLE + '[[stream]]\npath = "a.csv"\nsteps = ["csv", "lookup t 0"]\n',
    "written": '[[stream]]\npath = "a"\nto = "to1"\n',
    "caught": '[[stream]]\npath = "l"\nsteps = ["lines"]\nwith = "."\njoin = "append"\non_fault = "lost"\n',
    "five": 'max_open = 1\n[[stream]]\npath = "a"\n[[stream]]\npath = "p"\n[[stream]]\npath = "long"\n[[stream]]\npath = "a.csv"\n[[stream]]\npath = "t.csv"\n',
    "side by side": 'max_open = 3\n' + TABLE + '[[stream]]\npath = "a.csv"\nsteps = ["csv", "lookup t 0"]\n[[stream]]\npath = "p"\nsteps = ["lines", "number"]\n[[stream]]\npath = "q"\n',
    "groups": 'version = 2\nmax_open = 3\n[[stream]]\npath = "a"\nto = "to1"\n[[group]]\n' + PARTS,
    "cat": ["cat", "--chunk", "3", "a"],
    "tee": ["tee", "--chunk", "4", "p", "lines", "utf8|lines|count"],
    "eval": ["eval", "--jobs", "2", "--group", "1", "p", "lines|number"],
    "gen": ["gen", "7", "2", "3"],
    "rotate": ["rotate", "--bytes", "2", "a", "to"],
    "audit": ["audit"],
}
# (what `audit` reads; `run` reads its description)
LEDGER = "ledger 3\nouter lease 0 0\n0 close 0 succeeded\n0 cancel 0 succeeded\n"


def files_of(notes):
    """How often each file was opened, and each of those descriptors closed, by the notes; and how many requests there were."""
    held, opened, closed, asked = {}, collections.Counter(), collections.Counter(), 0
    for line in notes.splitlines():
        what, number, path = line.split(" ", 2)
        if what == "o":
            held[number] = path
            opened[path] += 1
        elif what == "c" and number in held:
            closed[held.pop(number)] += 1
        elif what == "n":
            asked = int(number)
    del opened["/"], closed["/"]
    return opened, closed, asked


def each(place, program, folder, name, case):
    """Refuses each request in turn. Gives how many there were, and how many runs were wrong."""
    wrong, nth, statuses = 0, 0, collections.Counter()
    while True:
        nth += 1
        notes = folder / "notes"
        notes.unlink(missing_ok=True)
        place.program = ["env", f"LD_PRELOAD={folder / 'refusing.so'}", f"REFUSED={nth}", f"NOTES={notes}", *program]
        call, seen = place.seen(case)
        if not notes.exists():
            print(f"{name}: nothing was noted", flush=True)
            return nth, wrong + 1
        opened, closed, asked = files_of(notes.read_text())
        if asked < nth:
            print(f"{name}: {nth - 1} requests refused in turn, statuses {dict(sorted(statuses.items()))}, {wrong} wrong", flush=True)
            return nth - 1, wrong
        statuses[seen.status] += 1
        # (the judge doesn't know what `rotate` writes)
        lines = wrongs_of_short(call, seen) if name != "rotate" or seen.status not in (0, 5) else []
        if opened != closed:
            lines.append(f"opened {dict(opened)}, closed {dict(closed)}, status {seen.status}")
        wrong += bool(lines)
        for it in lines:
            print(f"{name}: request {nth}: {it[:300]}", flush=True)


def main():
    refused = wrong = 0
    with tempfile.TemporaryDirectory(dir="/dev/shm") as made:
        folder = pathlib.Path(made)
        folder.chmod(0o755)
        (folder / "refusing.c").write_text(REFUSING)
        subprocess.run(["gcc", "-O1", "-shared", "-fPIC", "-o", folder / "refusing.so", folder / "refusing.c", "-ldl"], check=True)
        program = words_in(folder)
        (folder / "case").mkdir()
        place = outside.Outside(program, folder / "case")
        for name, made in CALLS.items():
            if sys.argv[1:] and name not in sys.argv[1:]:
                continue
            words, text = (["run"], made) if isinstance(made, str) else (made, LEDGER if name == "audit" else "")
            files = {path: it for path, it in FILES.items() if path in words or f'"{path}"' in text}
            one, more = each(place, program, folder, name, Case([it.encode() for it in words], text.encode(), files))
            refused, wrong = refused + one, wrong + more
    print(f"{refused} requests refused in turn, {wrong} wrong")
    return wrong > 0


if __name__ == "__main__":
    sys.exit(main())
