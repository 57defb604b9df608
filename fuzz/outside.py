"""The outside of a case: its files are made in a folder of its own, the program is called there, and what it leaves is read."""
import os, pathlib, resource, shutil, signal, subprocess, tempfile, threading, time

from judge import Call, Seen, Writing
from streams import Reading

# Beside other work a call may take long.
SECONDS = 300
# strace's names of a device's acts, and the error of each.
ACTS = {"open": ("openat", "EACCES"), "read": ("read", "EIO"), "write": ("write", "ENOSPC"), "close": ("fsync,fdatasync", "EIO")}


class Hung(Exception):
    """The program didn't end in time."""


class Feeder(threading.Thread):
    """Writes the bytes to a named pipe once somebody reads it, in pieces, maybe slowly."""

    def __init__(self, path, content, size, is_slow):
        super().__init__(daemon=True)
        self.path, self.content, self.size, self.is_slow, self.is_over = path, content, size, is_slow, False

    def run(self):
        pipe = None
        while pipe is None and not self.is_over:
            try:
                pipe = os.open(self.path, os.O_WRONLY | os.O_NONBLOCK)
            except OSError:
                time.sleep(0.0005)
        if pipe is None:
            return
        os.set_blocking(pipe, True)
        try:
            for at in range(0, len(self.content), self.size):
                os.write(pipe, self.content[at : at + self.size])
                if self.is_slow and at < 20 * self.size:
                    time.sleep(0.001)
        except OSError:
            pass
        os.close(pipe)


class Taker(threading.Thread):
    """Reads a named pipe, to the end of the call or until it has so many bytes."""

    def __init__(self, path, most):
        super().__init__(daemon=True)
        self.pipe, self.most, self.is_over, self.content = os.open(path, os.O_RDONLY | os.O_NONBLOCK), most, False, b""

    def run(self):
        while True:
            was_over = self.is_over
            try:
                piece = os.read(self.pipe, 65_536)
            except BlockingIOError:
                piece = b""
            self.content += piece
            if self.most is not None and len(self.content) >= self.most or was_over and not piece:
                break
            if not piece:
                time.sleep(0.0005)
        os.close(self.pipe)


# What a value of a description may be in place of another one, the name of an output too.
SPOILED = "x"


def is_plain(path):
    return not path.startswith("/") and "\0" not in path and "/" not in path


class Outside:
    """A folder in which a case is called."""

    # What the program may have of the system, by resource: nothing is told of those that aren't here.
    limits = {}

    def __init__(self, program, folder):
        self.program, self.folder = program, pathlib.Path(folder)

    def make(self, case):
        """Makes the files of the case."""
        self.threads = []
        for path, content in {**case.files, **case.locked}.items():
            (self.folder / path).write_bytes(content)
        for path in case.locked:
            (self.folder / path).chmod(0)
        for path in case.folders:
            (self.folder / path).mkdir()
        for path, target in case.links.items():
            (self.folder / path).symlink_to(target)
        for path, (content, size, is_slow) in case.pipes.items():
            os.mkfifo(self.folder / path)
            self.threads.append(Feeder(self.folder / path, content, size, is_slow))
        self.takers = {}
        for path, most in case.taken.items():
            os.mkfifo(self.folder / path)
            self.takers[path] = Taker(self.folder / path, most)
        for it in [*self.threads, *self.takers.values()]:
            it.start()

    def remove(self, case):
        for path in case.locked:
            (self.folder / path).chmod(0o600)
        for it in self.folder.iterdir():
            shutil.rmtree(it) if it.is_dir() and not it.is_symlink() else it.unlink()

    def words(self, case):
        """The words that call the program."""
        if not case.trip:
            return [*self.program, *case.words]
        path, act, nth = case.trip
        calls, error = ACTS[act]
        traced = f"{calls}" if act != "open" else "openat"
        paths = ["-P", path, "-P", str(self.folder / path)]
        return ["strace", "-f", "--quiet=all", "-o", "/dev/null", *paths, "-e", f"trace={traced}", "-e", f"inject={traced}:error={error}:when={nth}+", *self.program, *case.words]

    def call(self, case):
        """Calls the program, and gives its status and what it printed on both outputs."""
        kind, *numbers = case.out
        before = None
        if kind == "limit" or kind == "closed" or self.limits:
            before = lambda: self.narrow(kind, numbers)
        out = {"full": lambda: os.open("/dev/full", os.O_WRONLY), "limit": lambda: os.open(self.folder / "printed", os.O_RDWR | os.O_CREAT)}.get(kind, lambda: subprocess.PIPE)()
        err = os.open("/dev/full", os.O_WRONLY) if case.err == "full" else subprocess.PIPE
        given = os.open("/" if case.source == "closed" else self.folder, os.O_RDONLY) if case.source in (None, "closed") else subprocess.PIPE
        running = subprocess.Popen(self.words(case), cwd=self.folder, stdin=given, stdout=out, stderr=err, preexec_fn=before, restore_signals=kind != "limit", start_new_session=True)
        for it in (out, err, given):
            if it != subprocess.PIPE:
                os.close(it)
        try:
            if kind == "leaves":
                printed, told = self.leave(running, case, *numbers)
            else:
                printed, told = running.communicate(case.source if given == subprocess.PIPE else None, timeout=SECONDS)
        except subprocess.TimeoutExpired:
            os.killpg(running.pid, signal.SIGKILL)
            running.communicate()
            raise Hung from None
        if kind == "limit":
            printed = (self.folder / "printed").read_bytes()
            (self.folder / "printed").unlink()
        return running.returncode, printed or b"", told or b""

    def narrow(self, kind, numbers):
        """What the new process does before it is the program."""
        for it, most in self.limits.items():
            resource.setrlimit(it, (most, most))
        if kind == "closed":
            os.close(1)
        elif kind == "limit":
            signal.signal(signal.SIGXFSZ, signal.SIG_IGN)
            resource.setrlimit(resource.RLIMIT_FSIZE, (numbers[0], numbers[0]))

    @staticmethod
    def leave(running, case, most):
        """Hands in the source, reads so many bytes of standard output, and closes it."""
        def feed():
            try:
                running.stdin.write(case.source)
                running.stdin.close()
            except OSError:
                pass

        feeding = threading.Thread(target=feed, daemon=True)
        if running.stdin:
            feeding.start()
        killer = threading.Timer(SECONDS, os.killpg, (running.pid, signal.SIGKILL))
        killer.start()
        printed = b""
        while len(printed) < most and (piece := os.read(running.stdout.fileno(), most - len(printed))):
            printed += piece
        running.stdout.close()
        told = running.stderr.read() if running.stderr else b""
        running.wait()
        if running.stdin:
            feeding.join()
        killer.cancel()
        if running.returncode == -signal.SIGKILL:
            raise subprocess.TimeoutExpired("flume", SECONDS)
        return printed, told

    def held(self, path):
        """What a file holds, None where it is none or can't be read."""
        try:
            return (self.folder / path).read_bytes() if is_plain(path) and (self.folder / path).is_file() else None
        except OSError:
            return None

    def seen(self, case):
        """Makes the case's files, calls the program, and tells what was seen and what the call met."""
        self.make(case)
        try:
            call = told_of(case)
            held = {path: self.held(path) for path in call.writings}
            status, out, err = self.call(case)
            for it in [*self.threads, *self.takers.values()]:
                it.is_over = True
                it.join()
            wrote = {path: self.takers[path].content if path in self.takers else self.held(path) for path in call.writings}
            held |= {path: b"" for path in self.takers}
            return call, Seen(status, out, err, wrote, held, self.changed(case))
        finally:
            for it in [*self.threads, *self.takers.values()]:
                it.is_over = True
            self.remove(case)

    def changed(self, case):
        """What stands in the folder, that isn't written, otherwise than it did."""
        known = {*case.folders, *case.links, *case.pipes, *case.taken, *case.locked}
        targets = {it for path, it in case.links.items() if path.startswith("to")}
        told = []
        for it in self.folder.iterdir():
            if it.name.startswith("to") or it.name in known or it.name in targets or it.name == SPOILED:
                continue
            if not it.is_file() or it.read_bytes() != case.files.get(it.name):
                told.append(it.name)
        return told + [it for it in case.files if not (self.folder / it).exists()]


def told_of(case):
    """What the case's outside gives and takes, for the judge."""
    limit = case.out[1] if case.out[0] == "limit" else None
    readings = {path: Reading(content) for path, content in case.files.items()}
    readings |= {path: Reading(fault="open") for path in case.locked}
    readings |= {path: Reading(fault="read") for path in [*case.folders, "/proc/self/mem"]}
    readings |= {path: readings[target] for path, target in case.links.items() if target in readings}
    readings |= {path: Reading(content) for path, (content, _, _) in case.pipes.items()}
    readings["/dev/null"] = Reading()
    writings = {it: Writing(limit=limit) for it in [*(f"to{it}" for it in range(1, 80)), SPOILED]}
    writings |= {path: Writing(opens=False) for path in [*case.folders, *case.locked]}
    writings |= {"/dev/full": Writing(limit=0, read_back=False), "/dev/null": Writing(read_back=False)}
    writings |= {path: Writing(read_back=most is None, may_fail=most is not None) for path, most in case.taken.items()}
    source = None if case.source == "closed" else case.source
    call = Call(case.words, source, readings, writings)
    call.unsteady = set(case.pipes)
    call.err_told = case.err == "pipe"
    call.out_limit = {"full": 0, "closed": 0}.get(case.out[0], limit)
    call.out_told = case.out[0] != "leaves"
    return call


def trip(case, call, chunk):
    """Tells the judge of the call that fails: reads of so many bytes come before it."""
    path, act, nth = case.trip
    reading = call.readings.get(path)
    if act == "open":
        call.readings[path] = Reading(fault="open")
        if path in call.writings:
            call.writings[path] = Writing(opens=False)
    elif act == "read" and reading and not reading.fault:
        before = (nth - 1) * chunk
        reads = -(-len(reading.content) // chunk) + 1
        if nth <= reads:
            call.readings[path] = Reading(reading.content[:before], "read")
    elif act == "write" and path in call.writings:
        call.writings[path].limit = 0
    elif act == "close" and path in call.writings:
        call.writings[path].unsafe = True
