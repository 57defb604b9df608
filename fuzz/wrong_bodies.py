#!/usr/bin/env python3
"""Shows that the judge of random calls sees something: builds the program with a wrong body, unproved, and looks how soon
fuzz/runs.py finds that it is wrong. The wrong bodies are the edits that the proof has to refuse (crates/NAME/must-fail), applied to
a clone. A build takes some minutes, one after the other. Prints for each how many cases it took; fails where one isn't found. One
at which the checker of the unproved program stops in the call that shows it built is found too.

usage: fuzz/wrong_bodies.py [--keep FOLDER] [--minutes M] [EDIT ..]"""
import argparse, os, pathlib, shlex, shutil, subprocess, sys, tempfile

from program import examples_of, top

EDITS = [
    "pull_turns/must-fail/take_reads_on.edit",
    "scope_tree/must-fail/finalizes_in_order_of_acquisition.edit",
    "text_pipes/must-fail/cut_line_end_gives_an_empty_line.edit",
    "collector/must-fail/one_more_is_open_than_may_be.edit",
    "pull_turns/must-fail/merge_ends_with_its_first_side.edit",
    "collector/must-fail/frames_under_the_first_number.edit",
    "pull_turns/must-fail/unfinished_line_comes_out.edit",
    "pull_turns/must-fail/into_passes_over_a_failed_write.edit",
    "pull_stepper/must-fail/every_scope_is_told_succeeded.edit",
    "flume_cli/must-fail/always_answers_7.edit",
]


def apply(clone, edit):
    """Applies an edit to a clone: pairs of a text that stands once in a file, and what stands in its place."""
    crate, file, old = clone / "crates" / edit.split("/")[0], None, None
    for line in (clone / "crates" / edit).read_text().splitlines():
        word, _, rest = line.partition(": ")
        if word == "file":
            file = crate / rest.strip()
        elif word == "old":
            old = rest
        elif word == "new":
            text = file.read_text()
            if text.count(old) != 1:
                sys.exit(f"{edit}: `{old}` stands {text.count(old)} times in {file}")
            file.write_text(text.replace(old, rest))


def build(edit, folder):
    """The words that call the program with this wrong body; None where the checker stopped at its first call."""
    clone = folder / "clone"
    subprocess.run(["git", "clone", "-q", "--local", top, clone], check=True)
    apply(clone, edit)
    (folder / "built").mkdir()
    try:
        words = examples_of(clone).unproved_in(folder / "built")
    except SystemExit as it:
        faults = [line for line in str(it).splitlines() if line.startswith("checked: fault")]
        if not faults:
            raise
        print(f"{edit}: at its first call\n  {faults[0][:160]}", flush=True)
        words = None
    shutil.rmtree(clone)
    return words


def look(edit, words, minutes):
    """Whether the judge finds the wrong body, and what it says."""
    env = {**os.environ, "FLUME": shlex.join(words)}
    call = [sys.executable, top / "fuzz/runs.py", "--seed", edit, "--minutes", str(minutes), "--until-found"]
    ran = subprocess.run(call, env=env, capture_output=True, text=True)
    lines = [it for it in ran.stdout.splitlines() if it.startswith("  ")]
    print(f"{edit}: {ran.stdout.splitlines()[-1] if ran.stdout else ran.stderr[-500:]}")
    print(f"  {lines[0].strip()[:160] if lines else 'NOT FOUND'}", flush=True)
    return ran.returncode == 1


def main():
    parser = argparse.ArgumentParser(description="Wrong bodies of the program, judged.")
    parser.add_argument("--keep", type=pathlib.Path)
    parser.add_argument("--minutes", type=float, default=10)
    parser.add_argument("edits", nargs="*", default=EDITS)
    asked, missed = parser.parse_args(), 0
    for edit in asked.edits or EDITS:
        with tempfile.TemporaryDirectory() as name:
            words = build(edit, pathlib.Path(name))
            if words is None:
                continue
            if asked.keep:
                words[-1] = str(shutil.copy(words[-1], asked.keep / edit.replace("/", ".")))
            missed += not look(edit, words, asked.minutes)
    sys.exit(1 if missed else 0)


if __name__ == "__main__":
    main()
