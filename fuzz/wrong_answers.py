#!/usr/bin/env python3
"""Shows that the judge of random calls sees something: makes wrong bodies of the program without building it. In a copy of the unproved
program, whose functions stand each for themselves, one that answers yes or no is made to answer always no, or always yes, and
fuzz/runs.py looks for what that changes. Prints for each how many cases it took, and what was wrong; at the end those that weren't
found, which a reader has to look at: an answer may be one that is always given.

usage: fuzz/wrong_answers.py [--cases N] [--minutes M] [WORD ..]    functions whose name has one of the words; all where none is told

FLUME as in fuzz/runs.py, of a program that was built unproved (`rt try`). Needs nm and readelf, for x86-64."""
import argparse, os, pathlib, re, shlex, subprocess, sys, tempfile

sys.path.insert(0, str(pathlib.Path(__file__).resolve().parent))
from program import top, words_in

CRATES = {it.name for it in (top / "crates").iterdir()} - {"device_port"}
# mov eax, 0 or 1; ret
ANSWERS = {"no": bytes.fromhex("b800000000c3"), "yes": bytes.fromhex("b801000000c3")}


def questions():
    """The names of the functions of the sources that answer yes or no, with their crates."""
    found = set()
    for file in top.glob("crates/*/src/*.rt"):
        if file.parent.parent.name in CRATES:
            for name in re.findall(r"\bfn (\w+)(?:<[^>(]*>)?\([^{;]*?\) -> bool\b", file.read_text()):
                found.add((file.parent.parent.name, name))
    return found


def places_of(program):
    """Where each of these functions stands in the file, by the name that the program has for it."""
    asked, loads = questions(), []
    for line in subprocess.run(["readelf", "-lW", program], capture_output=True, text=True).stdout.splitlines():
        if line.split()[:1] == ["LOAD"]:
            offset, address, _, size = (int(it, 16) for it in line.split()[1:5])
            loads.append((address, size, offset))
    places = {}
    for line in subprocess.run(["nm", program], capture_output=True, text=True).stdout.splitlines():
        words = line.split(" ", 2)
        if len(words) != 3 or words[1] not in "tT":
            continue
        plain = words[2].split("::<")[0].split("::")
        if (plain[0], plain[-1]) in asked and "fn" not in plain:
            address = int(words[0], 16)
            places[words[2]] = next(address - begin + offset for begin, size, offset in loads if begin <= address < begin + size)
    return places


def look(words, name, answer, asked):
    """Whether the judge finds the wrong body, and what it says."""
    env = {**os.environ, "FLUME": shlex.join(words)}
    call = [sys.executable, top / "fuzz/runs.py", "--seed", "answers", "--until-found", "--seconds", "60"]
    call += ["--cases", str(asked.cases), "--minutes", str(asked.minutes)]
    ran = subprocess.run(call, env=env, capture_output=True, text=True)
    lines = [it.strip() for it in ran.stdout.splitlines() if it.startswith("  ")]
    took = ran.stdout.splitlines()[-1].split(", by")[0] if ran.stdout else ran.stderr[-300:]
    print(f"{name} always answers {answer}: {took}: {lines[0][:120] if lines else 'NOT FOUND'}", flush=True)
    return ran.returncode == 1


def main():
    parser = argparse.ArgumentParser(description="Functions of the program that always answer the same, judged.")
    parser.add_argument("--cases", type=int, default=2_000)
    parser.add_argument("--minutes", type=float, default=10)
    parser.add_argument("words", nargs="*")
    asked, tried, missed = parser.parse_args(), 0, []
    with tempfile.TemporaryDirectory() as name:
        words = words_in(pathlib.Path(name))
        right = pathlib.Path(words[-1]).read_bytes()
        for function, place in sorted(places_of(words[-1]).items()):
            if asked.words and not any(it in function for it in asked.words):
                continue
            for answer, code in ANSWERS.items():
                pathlib.Path(words[-1]).write_bytes(right[:place] + code + right[place + len(code) :])
                tried += 1
                if not look(words, function, answer, asked):
                    missed.append(f"{function} ({answer})")
    print(f"{tried} wrong bodies, {tried - len(missed)} found; not found: {', '.join(missed) or 'none'}")


main()
