"""What a description means, or the number, stream and step of its refusal, read off docs/FORMAT.md: the table that `tomllib` reads is
gone through in the order that stands there. Texts that TOML 1.1 has beyond 1.0 aren't read as the program reads them."""
import dataclasses, re, tomllib

from steps import BYTES, LINES, ROWS, TAKES

MOST = 1_048_576
NUMBERS = {"version": (1, 2, 1), "max_open": (1, 64, 4), "queue": (1, 64, 16), "chunk": (1, 65_536, 4_096), "take": (0, 1_000_000_000, None)}
ARRAYS = {"table": 8, "stream": 1_024}
MOST_GROUPS, MOST_LISTED, LISTED = 16, 1_024, 64
WITH_NUMBER = {"field": 0, "take": 0, "drop": 0, "chunk": 1}
WITH_TEXT = {"filter": (1, 1_024), "intersperse": (0, 64)}
STREAM_KEYS = ("path", "steps", "with", "join", "after", "on_fault", "to", "until")
LIST_KEYS = ("path", "steps", "on_fault", "max")


class Refused(Exception):
    """A refusal: its number, and the stream and the step where it has them."""

    def __str__(self):
        names = ("", " stream", " step")
        return "".join(f"{name} {number}" for name, number in zip(names, self.args) if number is not None)[1:]


@dataclasses.dataclass
class Stream:
    path: str
    steps: list
    second: str = None
    join: str = None
    after: list = dataclasses.field(default_factory=list)
    on_fault: bytes = None
    to: str = None
    until: int = None
    kind: str = BYTES


@dataclasses.dataclass
class Listing:
    """A list: its file, what each of its streams is but for the path, and the most lines."""

    path: str
    stream: Stream
    most: int


@dataclasses.dataclass
class Plan:
    """`tables` and `streams` are those of the top and behind them those of each group. `groups` has for each group how many of both it
    has."""

    numbers: dict
    tables: list
    streams: list
    groups: list = dataclasses.field(default_factory=list)
    listing: Listing = None


def is_number(value):
    return type(value) is int


def number_of(text, least=0, most=999_999_999):
    """A step's number, or None."""
    if not re.fullmatch("[0-9]{1,9}", text) or not least <= int(text) <= most:
        return None
    return int(text)


def argument_of(name, text, names, where):
    """A step with its argument. `names` are those of the tables that it may look up, with their numbers."""
    if name in WITH_NUMBER:
        number = number_of(text, WITH_NUMBER[name], 64 if name == "chunk" else 999_999_999)
        if number is None:
            raise Refused(4, *where)
        return name, number
    if name in WITH_TEXT:
        least, most = WITH_TEXT[name]
        if not least <= len(text.encode()) <= most:
            raise Refused(4, *where)
        return name, text.encode()
    table, space, digits = text.partition(" ")
    number = number_of(digits)
    if not space or number is None:
        raise Refused(4, *where)
    if table not in names:
        raise Refused(7, *where)
    return name, names[table], number


def step_of(text, names, where):
    """The step that a text tells."""
    name, space, rest = text.partition(" ")
    takes_one = name in WITH_NUMBER or name in WITH_TEXT or name == "lookup"
    if name not in TAKES or takes_one != bool(space):
        raise Refused(5, *where)
    return argument_of(name, rest, names, where) if takes_one else (name,)


def kind_behind(steps, kind, first, k):
    """The kind of what the steps give, of which the first has this number."""
    for place, step in enumerate(steps, first):
        if kind not in TAKES[step[0]]:
            raise Refused(6, k, place)
        kind = TAKES[step[0]][kind]
    return kind


def kind_of(stream, k):
    """The kind of what the stream gives."""
    kind = kind_behind(stream.steps, BYTES, 0, k)
    if stream.join:
        takes = {"append": (BYTES, LINES, ROWS), "merge": (LINES, ROWS), "zip": (LINES,)}[stream.join]
        if kind not in takes:
            raise Refused(6, k, len(stream.steps))
        kind = ROWS if stream.join == "zip" else kind
    return kind_behind(stream.after, kind, len(stream.steps) + 1, k)


def check_text(value, least, most, k):
    """The value of a key that has to be a text of so many bytes."""
    if type(value) is not str:
        raise Refused(3, k)
    if not least <= len(value.encode()) <= most:
        raise Refused(4, k)


def check_value(key, value, k, count):
    """One of a stream's keys but for the steps themselves."""
    if key in ("path", "with", "to"):
        check_text(value, 1, 1_024, k)
    elif key == "on_fault":
        check_text(value, 0, 1_024, k)
    elif key == "join":
        check_text(value, 0, MOST, k)
        if value not in ("append", "zip", "merge"):
            raise Refused(4, k)
    elif key == "until":
        if not is_number(value):
            raise Refused(3, k)
        if not 0 <= value < count or value == k:
            raise Refused(8, k)
    elif type(value) is not list or any(type(it) is not str for it in value):
        raise Refused(3, k)


def stream_of(entry, k, count, names):
    """The stream of this number."""
    if set(entry) - set(STREAM_KEYS):
        raise Refused(2, k)
    steps = {"steps": [], "after": []}
    for key in STREAM_KEYS:
        if key == "path" and key not in entry:
            raise Refused(3, k)
        if key not in entry:
            continue
        check_value(key, entry[key], k, count)
        if key in steps:
            first = 0 if key == "steps" else len(steps["steps"]) + 1
            steps[key] = [step_of(text, names, (k, place)) for place, text in enumerate(entry[key], first)]
    both = steps["steps"] + steps["after"]
    if ("with" in entry) != ("join" in entry) or steps["after"] and "with" not in entry:
        raise Refused(4, k)
    if len(both) > 16 or [it[0] for it in both].count("intersperse") > 1:
        raise Refused(4, k)
    on_fault = entry["on_fault"].encode() if "on_fault" in entry else None
    stream = Stream(entry["path"], steps["steps"], entry.get("with"), entry.get("join"), steps["after"], on_fault, entry.get("to"), entry.get("until"))
    stream.kind = kind_of(stream, k)
    return stream


def listing_of(entry, k, names):
    """The list, which has this number where a stream has its own."""
    if set(entry) - set(LIST_KEYS):
        raise Refused(2, k)
    if "path" not in entry:
        raise Refused(3, k)
    steps = []
    for key in LIST_KEYS[:3]:
        if key in entry:
            check_value(key, entry[key], k, 0)
        if key == "steps":
            steps = [step_of(text, names, (k, place)) for place, text in enumerate(entry.get(key, []))]
    most = entry.get("max", LISTED)
    if not is_number(most):
        raise Refused(3, k)
    if not 1 <= most <= MOST_LISTED or k + most > ARRAYS["stream"]:
        raise Refused(4, k)
    if len(steps) > 16 or [it[0] for it in steps].count("intersperse") > 1:
        raise Refused(4, k)
    stream = Stream(None, steps, on_fault=entry["on_fault"].encode() if "on_fault" in entry else None)
    stream.kind = kind_of(stream, k)
    return Listing(entry["path"], stream, most)


def check_tables(entries, most=None):
    """An array of tables, of at most so many."""
    if type(entries) is not list or any(type(it) is not dict for it in entries):
        raise Refused(3)
    if most is not None and len(entries) > most:
        raise Refused(4)


def top_of(document):
    """The numbers of the top, once all its values are of their types and within their limits."""
    is_second = is_number(document.get("version")) and document["version"] == 2
    if set(document) - set(NUMBERS) - set(ARRAYS) - ({"group", "list"} if is_second else set()):
        raise Refused(2)
    for key, (least, most, _) in NUMBERS.items():
        if key in document and not is_number(document[key]):
            raise Refused(3)
        if key in document and not least <= document[key] <= most:
            raise Refused(4)
    for key, most in {**ARRAYS, "group": MOST_GROUPS}.items():
        check_tables(document.get(key, []), most)
    if type(document.get("list", {})) is not dict:
        raise Refused(3)
    return {key: document.get(key, missing) for key, (_, _, missing) in NUMBERS.items()}


def parts_of(document):
    """The arrays of the top and of each group, once these are what they are to be."""
    groups = document.get("group", [])
    for group in groups:
        if set(group) - set(ARRAYS):
            raise Refused(2)
        for key in ARRAYS:
            check_tables(group.get(key, []))
    parts = [tuple(it.get(key, []) for key in ARRAYS) for it in [document, *groups]]
    if any(sum(len(it[place]) for it in parts) > most for place, most in enumerate(ARRAYS.values())):
        raise Refused(4)
    return parts


def tables_of(entries):
    """The names and the paths of the tables."""
    names = []
    for entry in entries:
        if set(entry) - {"name", "path"}:
            raise Refused(2)
        for key in ("name", "path"):
            if type(entry.get(key)) is not str:
                raise Refused(3)
            fits = re.fullmatch("[a-z0-9_]{1,32}", entry[key]) if key == "name" else 1 <= len(entry[key].encode()) <= 1_024
            if not fits or key == "name" and entry[key] in names:
                raise Refused(4)
        names.append(entry["name"])
    return names, [entry["path"] for entry in entries]


def plan_of(data):
    """The plan that the bytes describe, or a refusal."""
    if len(data) > MOST:
        raise Refused(9)
    try:
        text = data.decode("utf-8")
    except UnicodeDecodeError:
        raise Refused(10) from None
    try:
        document = tomllib.loads(text.removeprefix("\ufeff"))
    except tomllib.TOMLDecodeError:
        raise Refused(1) from None
    numbers, parts = top_of(document), parts_of(document)
    names, tables = tables_of([entry for entries, _ in parts for entry in entries])
    count, streams, first = sum(len(entries) for _, entries in parts), [], 0
    of_top = {name: place for place, name in enumerate(names[: len(parts[0][0])])}
    for own, entries in parts:
        seen = of_top | {name: first + place for place, name in enumerate(names[first : first + len(own)])}
        streams += [stream_of(entry, k, count, seen) for k, entry in enumerate(entries, len(streams))]
        first += len(own)
    listing = listing_of(document["list"], count, of_top) if "list" in document else None
    read = tables + [listing.path if listing else None] + [it.path for it in streams] + [it.second for it in streams]
    for k, stream in enumerate(streams):
        if stream.to is not None and stream.to in read + [it.to for it in streams if it is not stream]:
            raise Refused(4, k)
    return Plan(numbers, tables, streams, [(len(own), len(entries)) for own, entries in parts[1:]], listing)
