"""What the words of a call mean, read off README.md and docs/COMMANDS.md."""
import re

from described import Refused, kind_behind, step_of
from steps import BYTES

# The options of each command: the least and the most of the number, and the one that stands for none.
OPTIONS = {
    "cat": {"--chunk": (1, 65_536, 4_096)},
    "run": {"--max-open": (1, 64, None)},
    "tee": {"--chunk": (1, 65_536, 4_096)},
    "eval": {"--jobs": (1, 64, 4), "--group": (1, 65_536, 256)},
    "gen": {},
    "audit": {},
}
GEN = ((0, 4_294_967_295), (1, 64), (0, 100_000))


def number_of(text, least, most):
    """A number as Rust's u64 reads it, within limits, or None."""
    return int(text) if re.fullmatch(r"\+?[0-9]+", text, re.A) and least <= int(text) <= most else None


def parted(words, options):
    """The arguments, and the values of each option, or None where a word is refused."""
    arguments, values, at = [], {it: [] for it in options}, 0
    while at < len(words):
        word, at = words[at], at + 1
        name, _, value = word.partition("=")
        if word == "--":
            return arguments + words[at:], values
        if word in options:
            if at == len(words) or words[at].startswith("-") and len(words[at]) > 1:
                return None
            values[word].append(words[at])
            at += 1
        elif name in options and name != word:
            values[name].append(value)
        elif word.startswith("-") and len(word) > 1:
            return None
        else:
            arguments.append(word)
    return arguments, values


def chain_of(word):
    """The steps of a word, or None where it means none."""
    try:
        steps = [step_of(it, {}, (0, 0)) for it in word.split("|")] if word else []
        kind_behind(steps, BYTES, 0, 0)
    except Refused:
        return None
    return steps if len(steps) <= 16 and [it[0] for it in steps].count("intersperse") < 2 else None


def is_path(text):
    return 1 <= len(text.encode()) <= 1_024


def command_of(words):
    """The command with what it is told, or None where the words mean nothing. The words are bytes."""
    try:
        words = [it.decode("utf-8") for it in words]
    except UnicodeDecodeError:
        return None
    if not words or words[0] not in OPTIONS:
        return None
    name, options = words[0], OPTIONS[words[0]]
    found = parted(words[1:], options)
    if found is None or any(len(it) > 1 for it in found[1].values()):
        return None
    arguments, values = found
    numbers = [number_of(values[it][0], least, most) if values[it] else missing for it, (least, most, missing) in options.items()]
    if any(number is None and values[it] for it, number in zip(options, numbers)):
        return None
    if name == "gen":
        numbers = [number_of(it, *limits) for it, limits in zip(arguments, GEN)]
        return ("gen", *numbers) if len(arguments) == 3 and None not in numbers else None
    if name in ("run", "audit"):
        return (name, *numbers) if not arguments else None
    if not arguments or not is_path(arguments[0]):
        return None
    if name == "cat":
        return ("cat", *numbers, arguments[0]) if len(arguments) == 1 else None
    chains = [chain_of(it) for it in arguments[1:]]
    if not 1 <= len(chains) <= (16 if name == "tee" else 1) or None in chains:
        return None
    return (name, *numbers, arguments[0], chains if name == "tee" else chains[0])
