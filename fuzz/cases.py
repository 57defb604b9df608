"""Random calls of the program and the files that they meet, each made of a seed and a number."""
import dataclasses, json, random

import ledgers
from steps import BYTES, LINES, ROWS, TAKES


@dataclasses.dataclass
class Case:
    """A call and its outside. `pipes` are named pipes that are read, with what is written to them in which pieces; `taken` those
    that are written, with how many bytes their reader takes, None for all. `out` is where standard output goes: `pipe`, `full` (a
    full disk), `closed`, `limit` (a file that takes so many bytes, as each file does then) or `leaves` (a reader that goes away behind
    so many). `trip` is a call that is to fail: a path, an act and which of them."""

    words: list
    source: object = b""
    files: dict = dataclasses.field(default_factory=dict)
    folders: list = dataclasses.field(default_factory=list)
    links: dict = dataclasses.field(default_factory=dict)
    locked: dict = dataclasses.field(default_factory=dict)
    pipes: dict = dataclasses.field(default_factory=dict)
    taken: dict = dataclasses.field(default_factory=dict)
    out: tuple = ("pipe",)
    err: str = "pipe"
    trip: tuple = None


class Dice(random.Random):
    def chance(self, one_in):
        return self.randrange(one_in) == 0

    def few(self, most):
        """A number below or at this one, small ones more often."""
        return min(int(self.expovariate(3.0 / (most + 1))), most)


def text_of(dice):
    """Lines of a few letters, with each sort of line end."""
    letters, ends = dice.choice([b"ab", b"kxyz", b"ERO r"]), dice.choice([[b"\n"], [b"\n"], [b"\r\n", b"\n", b"\r"]])
    body = b"".join(bytes(dice.choices(letters, k=dice.few(8))) + dice.choice(ends) for _ in range(dice.few(24)))
    return body + bytes(dice.choices(letters, k=dice.few(5)))


def field_of(dice):
    field = bytes(dice.choices(b"kvz019", k=dice.few(4)))
    if dice.chance(6):
        field = b'"' + field + dice.choice([b",", b"\n", b'""', b"\r\n", b""]) + b'"'
    return b'"' + field if dice.chance(80) else field + b'"' if dice.chance(80) else field


def records_of(dice):
    """Records, now and then one of another length, or with a quote where none is expected."""
    width, end = 1 + dice.few(3), dice.choice([b"\n", b"\n", b"\r\n", b"\r"])
    rows = []
    for _ in range(dice.few(dice.choice([6, 20, 40]))):
        fields = [field_of(dice) for _ in range(width + (dice.choice([-1, 1]) if dice.chance(40) else 0))]
        rows.append(b",".join(fields) + (end * 2 if dice.chance(15) else end))
    data = (b"\xef\xbb\xbf" if dice.chance(20) else b"") + b"".join(rows)
    return data + b"\xff" if dice.chance(40) else data


def characters_of(dice):
    """Characters of each length, now and then bytes that are none."""
    good = [b"a", b"Z", b"\n", "é".encode(), "€".encode(), "𝄞".encode()]
    bad = [b"\xff", b"\xe2\x82", b"\xf0\x9d", b"\xc0\x80", b"\xed\xa0\x80", b"\xf4\x90\x80\x80", b"\x80"]
    return b"".join(dice.choice(bad if dice.chance(30) else good) for _ in range(dice.few(60)))


def long_of(dice):
    """Many bytes, often as many as some reads give."""
    size = dice.choice([4_095, 4_096, 4_097, 8_192, dice.randrange(20_000), dice.choice([1, 2, 3]) * 1_024 * 4])
    unit = dice.choice([b"x", b"ab\n", b"k,v\n", bytes(dice.choices(range(256), k=40)), b"0123456789abcdef"])
    return (unit * (size // len(unit) + 1))[:size]


def content_of(dice, flavour=None):
    makers = {"text": text_of, "records": records_of, "characters": characters_of, "long": long_of}
    if flavour is None:
        flavour = dice.choice(["text"] * 4 + ["records"] * 2 + ["characters", "long", "bytes", "empty"])
    if flavour == "bytes":
        return bytes(dice.choices(range(256), k=dice.few(50)))
    return makers[flavour](dice) if flavour in makers else b""


def argument_of(dice, name, tables):
    """A step's argument, within its limits."""
    if name in ("take", "drop", "chunk"):
        number = dice.choice([dice.few(6), dice.few(40), dice.few(64)]) if name != "chunk" else 1 + dice.few(8)
        return f" {number:0{dice.randrange(1, 4)}}"
    if name == "field":
        return f" {dice.few(3)}"
    if name == "lookup":
        return f" {dice.choice(tables)} {dice.few(2)}"
    if name == "filter":
        return " " + dice.choice(["a", "b", "E", "x", "ER", " ", "é"])
    return " " + dice.choice(["-", "", "--", "a"]) if name == "intersperse" else ""


def steps_of(dice, kind, most, tables, used):
    """Steps of which each takes what the one before it gives, and the kind of what the last one gives."""
    steps, favourites = [], {BYTES: ["lines"] * 8 + ["csv"] * 5 + ["utf8"] * 2, LINES: [], ROWS: ["lookup"] * 3 + ["field"] * 2}
    for _ in range(dice.few(most)):
        names = [it for it in TAKES if kind in TAKES[it]] + favourites[kind]
        name = dice.choice(names)
        if name == "lookup" and not tables or name == "intersperse" and name in used:
            continue
        used.add(name)
        steps.append(name + argument_of(dice, name, tables))
        kind = TAKES[name][kind]
    return steps, kind


def spelled(dice, text):
    """A text as TOML has it."""
    if not any(it in text for it in "'\n\r\t\0") and text.isprintable() and dice.chance(2):
        return f"'{text}'"
    return json.dumps(text, ensure_ascii=dice.chance(2)).replace("\x7f", "\\u007f")


def value_of(dice, value):
    if isinstance(value, list):
        return "[" + ", ".join(value_of(dice, it) for it in value) + "]"
    if isinstance(value, dict):
        return "{" + ", ".join(f"{key} = {value_of(dice, it)}" for key, it in value.items()) + "}"
    return spelled(dice, value) if isinstance(value, str) else json.dumps(value)


def entries_of(dice, name, them):
    """Arrays of tables of this name, each with its arrays behind its values."""
    lines = []
    for it in them:
        lines.append(f"[[{name}]]" + (" # one more" if dice.chance(9) else ""))
        inner = {key: value for key, value in it.items() if is_entries(value) and not dice.chance(12)}
        lines += [f"{key} = {value_of(dice, value)}" for key, value in dice.sample(list(it.items()), len(it)) if key not in inner]
        for key, value in dice.sample(list(inner.items()), len(inner)):
            lines += entries_of(dice, f"{name}.{key}", value)
    return lines


def is_entries(value):
    return isinstance(value, list) and value and all(isinstance(it, dict) for it in value)


def document_of(dice, described):
    """The text of a description."""
    top = described.top
    lines = [f"{key} = {value_of(dice, value)}" for key, value in dice.sample(list(top.items()), len(top))]
    entries = [("table", described.tables), ("stream", described.streams), ("group", described.groups), ("list", described.listing)]
    dice.shuffle(entries)
    for name, them in entries:
        if them is None or not them and not dice.chance(80 if name == "group" and top.get("version") != 2 else 4):
            continue
        if isinstance(them, dict) and not dice.chance(6):
            lines += [f"[{name}]", *(f"{key} = {value_of(dice, value)}" for key, value in dice.sample(list(them.items()), len(them)))]
        elif not is_entries(them) or dice.chance(12):
            lines.insert(0, f"{name} = {value_of(dice, them)}")
        else:
            lines += entries_of(dice, name, them)
    end = "\r\n" if dice.chance(20) else "\n"
    return end.join([*lines, ""]).encode()


@dataclasses.dataclass
class Text:
    """What stands in a description: values of the top, its tables and streams, its groups, and its list where it has one."""

    top: dict
    tables: list
    streams: list
    groups: list = dataclasses.field(default_factory=list)
    listing: dict = None

    def all(self, name):
        """All tables or streams in their order."""
        lists = [group.get(name) for group in self.groups]
        return getattr(self, f"{name}s") + [it for made in lists if isinstance(made, list) for it in made if isinstance(it, dict)]


class Described:
    """A description that is being made, and the files that it meets."""

    def __init__(self, dice):
        self.dice, self.case = dice, Case([b"run"])
        self.written, self.count = 0, 0

    def name(self):
        self.count += 1
        return f"f{self.count}"

    def put(self, flavour=None, is_small=False):
        """The path of a file that is there, mostly a new one."""
        known = [path for path, it in self.case.files.items() if not is_small or len(it) < 120]
        if known and self.dice.chance(4):
            return self.dice.choice(known)
        path = self.name()
        content = content_of(self.dice, flavour)
        self.case.files[path] = content[:100] if is_small else content
        return path

    def source(self, flavour, is_small):
        """The path of something to read: mostly of a file, and else of what can't be read, or of a pipe."""
        dice, case = self.dice, self.case
        path, sort = self.name(), dice.randrange(60)
        if sort == 0:
            return dice.choice([path, f"no/{path}", path + "\0", "f" * 300])
        if sort == 1:
            case.folders.append(path)
        elif sort == 2:
            case.locked[path] = content_of(dice, flavour)
        elif sort == 3:
            target = self.put(flavour, is_small)
            case.links[path] = "nothing" if target.startswith("to") else target
        elif sort in (4, 5):
            content = content_of(dice, flavour)
            case.pipes[path] = (content[:100] if is_small else content, 1 + dice.few(2_000), dice.chance(3))
        elif sort == 6:
            return dice.choice(["/dev/null", "/proc/self/mem"])
        else:
            return self.put(flavour, is_small)
        return path

    def target(self):
        """The path of something to write: mostly of a file, new or not, and else of what fails or is none."""
        dice, case = self.dice, self.case
        self.written += 1
        path, sort = f"to{self.written}", dice.randrange(24)
        if sort < 4:
            case.files[path] = b"what it held before\n" * dice.few(20)
        elif sort == 4:
            return f"no/{path}"
        elif sort == 5:
            case.folders.append(path)
        elif sort == 6:
            case.locked[path] = b"locked"
        elif sort in (7, 8):
            return "/dev/full" if "/dev/full" not in self.devices else path
        elif sort == 9:
            return "/dev/null" if "/dev/null" not in self.devices else path
        elif sort == 10:
            case.taken[path] = None if dice.chance(2) else 1 + dice.few(50)
        elif sort == 11:
            case.links[path] = f"target{self.written}"
        return path

    devices = ()

    def listing(self, names):
        """A list's keys. Its lines are mostly files, and now and then no path, or too many."""
        dice = self.dice
        steps, _ = steps_of(dice, BYTES, 4, names, set())
        flavour = "records" if "csv" in steps and not dice.chance(8) else None
        paths = [self.source(flavour, False) for _ in range(dice.few(dice.choice([3, 8, 30])))]
        lines = [it.replace("\0", "_").encode() for it in paths]
        if dice.chance(8):
            lines.insert(dice.randrange(len(lines) + 1), dice.choice([b"", b"x" * 1_025, b"\xff", b"to1", b"no", b"\xe2\x82"]))
        end = dice.choice([b"\n", b"\n", b"\r\n", b"\r"])
        content = end.join(lines) + (end if lines and not dice.chance(4) else b"")
        path = self.name()
        if dice.chance(6):
            self.case.pipes[path] = (content, 1 + dice.few(20), dice.chance(2))
        elif dice.chance(30):
            path = dice.choice([path, self.source(None, False)])
        else:
            self.case.files[path] = content
        entry = {"path": path}
        if steps or dice.chance(3):
            entry["steps"] = steps
        if dice.chance(3):
            entry["on_fault"] = dice.choice(["lost", "", "a,b"])
        if dice.chance(2):
            entry["max"] = dice.choice([len(lines) or 1, max(1, len(lines) - 1), len(lines) + 1, 64, 900])
        return entry

    def stream(self, k, count, tables):
        """A stream's keys."""
        dice, used = self.dice, set()
        steps, kind = steps_of(dice, BYTES, 5, tables, used)
        has_records, joins = any(it == "csv" for it in steps), [it for it in ("append", "zip", "merge") if it != "zip" or kind == LINES]
        joins = [it for it in joins if it != "merge" or kind != BYTES]
        join = dice.choice(joins) if dice.chance(4) else None
        flavour = "records" if has_records and not dice.chance(8) else None
        is_small = join == "merge"
        entry = {"path": self.source(flavour, is_small)}
        if steps or dice.chance(3):
            entry["steps"] = steps
        if join:
            entry |= {"with": self.source(flavour, is_small), "join": join}
            after, kind = steps_of(dice, ROWS if join == "zip" else kind, 4, tables, used)
            if after:
                entry["after"] = after
        if dice.chance(4):
            entry["on_fault"] = dice.choice(["lost", "", "a,b", 'q"q', "é\n"])
        if dice.chance(6):
            entry["to"] = self.target()
            self.devices = (*self.devices, entry["to"])
        if count > 1 and dice.chance(8):
            entry["until"] = dice.choice([it for it in range(count) if it != k])
        return entry

    def table(self, name):
        """A table's keys."""
        dice = self.dice
        if dice.chance(40):
            return {"name": name, "path": self.source("records", False)}
        path, keys = self.name(), dice.sample(["k", "v", "z", "0", "1", "9", "kv", "01", ""], dice.few(8))
        width = 0 if dice.chance(30) else 1
        self.case.files[path] = b"".join(b",".join([it.encode(), b"w" + it.encode(), b"more"][: 1 + width * (1 + dice.chance(9))]) + b"\n" for it in keys)
        return {"name": name, "path": path}

    def made(self):
        """A description. Of one with groups the last tables and streams are theirs."""
        dice = self.dice
        top, names = {}, [f"t{it}" for it in range(dice.few(3))]
        for key, values in {"max_open": [1, 1, 2, 3, 64], "queue": [1, 2, 64], "chunk": [1, 2, 3, 7, 16, 100, 4_096, 65_536], "version": [1]}.items():
            if dice.chance(2):
                top[key] = dice.choice(values)
        if dice.chance(6):
            top["take"] = dice.few(12)
        is_second = dice.chance(3)
        if is_second:
            top["version"] = 2
        count = dice.few(40) if dice.chance(12) else dice.few(5)
        parts = 1 + (dice.few(dice.choice([3, 3, 16])) if is_second else 0)
        tables, streams = sorted(dice.randrange(parts) for _ in names), sorted(dice.randrange(parts) for _ in range(count))
        seen = lambda part: [name for name, it in zip(names, tables) if it in (0, part)]
        made = [([], []) for _ in range(parts)]
        for name, part in zip(names, tables):
            made[part][0].append(self.table(name))
        for k, part in enumerate(streams):
            made[part][1].append(self.stream(k, count, seen(part)))
        groups = [{key: it for key, it in zip(("table", "stream"), them) if it or dice.chance(6)} for them in made[1:]]
        text = Text(top, *made[0], groups, self.listing(seen(0)) if is_second and not dice.chance(3) else None)
        largest = max([len(it) for it in self.case.files.values()], default=0)
        if top.get("chunk", 4_096) * 600 < largest:
            top["chunk"] = 1 + largest // 600
        return text


def spoiled(dice, text):
    """Changes one value, so that the description is mostly refused."""
    values = [None and 0, "x", 4.5, True, [], ["lines"], {"a": 1}, -1, 0, 65, 70_000, 2**40, "a" * 1_025, "", ["lines", "frob"], [1]]
    top, tables, streams = text.top, text.all("table"), text.all("stream") or [{"path": "f1"}]
    lists = [text.listing] if text.listing else []
    entry = dice.choice([top, *(tables[:2]), *streams[:3], *streams[:3], *text.groups[:2], *lists])
    keys = ["path", "steps", "with", "join", "after", "on_fault", "to", "until", "name", "x"]
    keys = ["version", "max_open", "queue", "chunk", "take", "group", "list", "x"] if entry is top else ["table", "stream", "x"] if entry in text.groups else keys + ["max"] * 4 if entry in lists else keys
    sort = dice.randrange(6)
    if sort == 0 and entry:
        entry.pop(dice.choice(list(entry)))
    elif sort == 1 and entry is not top and isinstance(entry.get("steps"), list):
        bad = ["frob", "lines ", "take", "take x", "take 1234567890", "chunk 0", "chunk 65", "lookup t0", "lookup nope 0", "lookup t0 x", "utf8", "csv", "filter ", "hex", "count", "intersperse a", "intersperse b", "number"]
        entry["steps"] = entry["steps"] + dice.choices(bad, k=dice.choice([1, 1, 2, 3, 17]))
    elif sort == 2 and entry is not top:
        entry["to"] = dice.choice([it["path"] for it in streams if isinstance(it.get("path"), str)] or ["f1"])
    elif sort == 3 and entry is not top:
        entry["until"] = dice.choice([-1, 0, 1, 2, len(streams), 2**40])
    else:
        value = dice.choice(values)
        key = dice.choice(keys)
        if entry is not top or key not in ("group", "list") or not getattr(text, {"group": "groups", "list": "listing"}[key]):
            entry[key] = 0 if value is None else value


def bytes_spoiled(dice, text):
    """A text of which some bytes are others, or too many."""
    sort = dice.randrange(5)
    if sort == 0:
        return text + dice.choice([b"\xff", b"# \xe2\x82\n", b"[[", b"chunk =", b"x = 1\nx = 1\n", b"= 3\n"])
    if sort == 1:
        return text + b"#" * (1_048_575 - len(text) + dice.randrange(4)) + b"\n"
    if sort == 2:
        return dice.choice([b"[stream]\n", b"[table]\n", b"stream = 1\n", b"stream = [1]\n", b"table = [[]]\n"]) + (text if dice.chance(2) else b"")
    if sort == 3:
        return b"chunk = 4.0\n" + text
    return b"\xef\xbb\xbf" + text if dice.chance(2) else text[: dice.randrange(len(text) + 1)].rstrip(b"\r")


def outside_of(dice, case):
    """Where the outputs go, and which call fails."""
    sort = dice.randrange(40)
    if sort == 0:
        case.out = ("full",)
    elif sort == 1:
        case.out = ("closed",)
    elif sort in (2, 3, 4):
        case.out = ("limit", dice.choice([dice.few(40), dice.few(400), dice.few(5_000)]))
    elif sort in (5, 6):
        case.out = ("leaves", dice.choice([dice.few(40), dice.few(400), dice.few(5_000)]))
    if dice.chance(40):
        case.err = "full"
    if dice.chance(60):
        case.source = dice.choice([None, "closed"])
    return case


def lines_of(case, listing):
    """The paths that a list names."""
    path = listing.get("path") if listing else None
    content = case.files.get(path) or case.pipes.get(path, (b"",))[0] if isinstance(path, str) else b""
    return content.decode("latin-1").splitlines()


def trip_of(dice, case, text):
    """A call on a file that only one stream or table has, or the list, which is to fail."""
    tables, streams = text.all("table"), text.all("stream") + ([text.listing] if text.listing else [])
    paths = [it[key] for it in [*tables, *streams] for key in ("path", "with", "to") if isinstance(it.get(key), str)]
    paths += lines_of(case, text.listing)
    once = [it for it in paths if paths.count(it) == 1 and it not in case.links.values() and it not in case.links]
    sources, targets = [it for it in once if it in case.files and not it.startswith("to")], [it for it in once if it.startswith("to") and it not in case.taken]
    if targets and dice.chance(2):
        case.trip = (dice.choice(targets), dice.choice(["open", "write", "close"]), 1)
    elif sources:
        path, act = dice.choice(sources), dice.choice(["open", "read", "read", "read"])
        is_table = path in [it.get("path") for it in tables]
        case.trip = (path, act, 1 if is_table or act == "open" else 1 + dice.few(3))


def run_of(dice, words):
    """A call of `run`."""
    made = Described(dice)
    text = made.made()
    case = made.case
    case.words = words
    if dice.chance(9):
        spoiled(dice, text)
    if dice.chance(20):
        trip_of(dice, case, text)
    case.source = document_of(dice, text)
    if dice.chance(25):
        case.source = bytes_spoiled(dice, case.source)
    return outside_of(dice, case)


def option_of(dice, name, numbers):
    number = dice.choice(numbers)
    return dice.choice([[f"--{name}", f"{number}"], [f"--{name}={number}"], []])


def words_of_run(dice):
    words = ["run", *(option_of(dice, "max-open", [1, 2, 64, "+3", "007"]) if dice.chance(4) else [])]
    if dice.chance(60):
        words = dice.choice([["run", "x"], ["run", "--max-open", "65"], ["run", "--max-open=0"], ["run", "--max-open"], ["run", "--"], ["run", "--max-open=2", "--max-open=3"]])
    return [it.encode() for it in words]


def cat_of(dice):
    made = Described(dice)
    path = made.source(None, False)
    option = option_of(dice, "chunk", [1, 2, 3, 4_096, 65_536, 65_537, 0, "+7", "010", "x"])
    words = [["cat", *option, path], ["cat", path, *option], ["cat", *option, "--", path], ["cat"], ["cat", path, "x"], ["cat", "-x"], ["cat", ""]]
    chosen = dice.choice(words[:3] * 4 + words[3:])
    largest = max(map(len, made.case.files.values()), default=0)
    if largest > 2_000:
        chosen = ["cat", path]
    made.case.words = [it.replace("\0", "_").encode() for it in chosen]
    return outside_of(dice, made.case)


def chain_of(dice):
    """The word of some steps, now and then one that means none."""
    if dice.chance(60):
        return dice.choice(["frob", "lookup t 0", "|", "lines|", "lines|lines", "count|hex", "take", "intersperse a|intersperse b", "field 0", "|".join(["take 1"] * 17)])
    return "|".join(steps_of(dice, BYTES, 4, [], set())[0])


def trip_of_one(dice, case, path):
    """An open or a read of the one file is to fail."""
    if path in case.files and dice.chance(4):
        act = dice.choice(["open", "read", "read", "read"])
        case.trip = (path, act, 1 if act == "open" else 1 + dice.few(4))


def branched_of(dice, name):
    """A call of `tee` or of `eval`."""
    made = Described(dice)
    path = made.source(dice.choice([None, None, "text", "records"]), False).replace("\0", "_")
    largest = max(map(len, made.case.files.values()), default=0)
    if name == "tee":
        options = option_of(dice, "chunk", [4_096, 65_536, "+4096"] if largest > 2_000 else [1, 2, 3, 7, 100, 4_096, 65_537, 0, "x"])
        chains = [chain_of(dice) for _ in range(1 + dice.few(dice.choice([3, 3, 17])))]
    else:
        options = option_of(dice, "jobs", [1, 1, 2, 3, 7, 64, 65, "+2"]) + option_of(dice, "group", [100, 256] if largest > 2_000 else [1, 2, 3, 7, 255, 256, 65_536, 65_537, 0])
        chains = [chain_of(dice)]
    words = [[name, *options, path, *chains], [name, path, *options, *chains], [name, path, *chains, *options], [name, *options, "--", path, *chains], [name, path], [name, *options, path, *chains, "-x"]]
    chosen = dice.choice(words[:4] * 8 + words[4:])
    made.case.words = [it.encode() for it in chosen]
    trip_of_one(dice, made.case, path)
    return outside_of(dice, made.case)


def gen_of(dice):
    numbers = [dice.choice([0, 7, 999, 2**32 - 1, 2**32, dice.randrange(2**32)]), dice.choice([1, 2, 3, 8, 64, 65, 0]), dice.choice([0, 1, 3, 1_024, 1_025, dice.few(3_000), 100_001])]
    if numbers[1] > 8 or numbers[2] > 1_025 and numbers[2] < 100_001:
        numbers[1:] = min(numbers[1], 16) if numbers[1] < 65 else 65, min(numbers[2], 20)
    words = [f"{it}" for it in numbers]
    if dice.chance(10):
        words = dice.choice([words[:2], words + ["1"], [*words[:2], "x"], ["-1", *words[1:]], ["--", *words], ["+1", *words[1:]]])
    return outside_of(dice, Case([b"gen", *(it.encode() for it in words)]))


def events_of(dice):
    """The events of a ledger: lawful ones, each chosen of many, and at the end all that ends what was begun."""
    front, events = ledgers.Front(), []
    names, size = ["outer", *range(dice.randrange(1, 4))], dice.few(40)

    def take(event):
        if front.is_lawful(event) and front.keeps_order(event):
            front.note(event)
            events.append(event)

    def ending():
        exit = dice.choice(ledgers.EXITS)
        return dice.choice([(dice.choice(names), "close", dice.randrange(4), exit), (dice.choice(names), "cancel", dice.randrange(4), exit)])

    def finals():
        for k in names:
            for row, _ in list(front.expected.get(k, ([], None))[0]):
                take((k, "final", row, front.expected[k][1], dice.choice(["ok", "ok", "fault"])))

    for _ in range(size * 4):
        k, row, scope = dice.choice(names), dice.randrange(8), dice.randrange(4)
        take(dice.choice([(k, "open", dice.randrange(1, 4), scope), (k, "acquire", row, scope), (k, "acquire", row, 0), (k, "lease", dice.randrange(4), scope)]))
        if dice.chance(12):
            take(ending())
        finals()
    for _ in range(60):
        take(ending())
        finals()
    return events


def events_spoiled(dice, events):
    """The same with one event or a word of it changed."""
    events, at = list(events), dice.randrange(len(events))
    sort = dice.randrange(5)
    if sort == 0:
        events.pop(at)
    elif sort == 1:
        events.insert(dice.randrange(len(events)), events[at])
    elif sort == 2:
        events.insert(dice.randrange(len(events)), events.pop(at))
    elif sort == 3:
        event = list(events[at])
        event[2] = dice.randrange(5)
        events[at] = tuple(event)
    else:
        events[at] = (dice.choice(["outer", 0, 1, 2]), *events[at][1:])
    return events


def audit_of(dice):
    events = events_of(dice)
    for _ in range(dice.choice([0, 1, 1, 2])):
        events = events_spoiled(dice, events) if events else events
    lines = [" ".join(map(str, it)) for it in events]
    text = "\n".join([f"ledger {len(lines) + (dice.choice([1, -1]) if dice.chance(20) else 0)}", *lines, ""])
    if dice.chance(8):
        at = dice.randrange(len(text))
        text = dice.choice([text[:at], text[:at] + dice.choice([" ", "\n", "0", "x", "\r", "é"]) + text[at:], text[:at] + text[at + 1 :], text.replace(" 0", " 00", 1), text.replace(" 1", " 4294967296", 1)])
    case = Case([b"audit"], text.encode())
    if dice.chance(30):
        case.words = [b"audit", dice.choice([b"x", b"--", b"-x"])]
    return outside_of(dice, case)


def case_of(seed, number):
    """The case of this number."""
    dice = Dice(f"{seed}/{number}")
    sort = dice.randrange(130)
    if sort >= 100:
        return branched_of(dice, "tee" if sort < 115 else "eval")
    if sort < 74:
        return run_of(dice, words_of_run(dice))
    if sort < 84:
        return cat_of(dice)
    if sort < 86:
        return gen_of(dice)
    if sort < 98:
        return audit_of(dice)
    words = [[], ["x"], ["CAT", "f1"], ["run", "--help"], ["--help"], ["cat", "--chunk", "1", "--chunk", "2", "f1"], ["gen"]]
    return Case([it.encode() for it in dice.choice(words)] if not dice.chance(6) else [b"cat", b"\xff"])
