"""What each step gives, read off docs/FORMAT.md and as slow as it is plain. An input is bytes, a tuple of lines, or a tuple of rows,
which are tuples of fields. A step has what it gives of an input of which more may come (`part`), and of a whole one (`whole`): the
elements, and the name of a fault or None."""
import codecs

BYTES, LINES, ROWS = "bytes", "lines", "rows"
MOST_OF_A_LINE = 1_048_576
MOST_OF_RECORDS = 16_777_216
MOST_OF_A_VALUE = 1_024

# What each step takes, and what it gives where that is another kind.
TAKES = {
    "utf8": {BYTES: BYTES}, "lossy": {BYTES: BYTES}, "upper": {BYTES: BYTES, LINES: LINES}, "hex": {BYTES: LINES},
    "lines": {BYTES: LINES}, "csv": {BYTES: ROWS}, "field": {ROWS: LINES}, "lookup": {ROWS: ROWS}, "filter": {LINES: LINES},
    "changes": {LINES: LINES, ROWS: ROWS}, "number": {LINES: LINES}, "intersperse": {LINES: LINES},
    "count": {BYTES: LINES, LINES: LINES, ROWS: LINES},
    **{name: {kind: kind for kind in (BYTES, LINES, ROWS)} for name in ("take", "drop", "chunk")},
}


def none_of(kind):
    """An input of no elements."""
    return b"" if kind == BYTES else ()


def capitals(text):
    """The bytes with a to z as A to Z."""
    return bytes(it - 32 if 97 <= it <= 122 else it for it in text)


def text_part(data):
    """The longest front that is UTF-8, and `malformed` where nothing can make the rest so."""
    try:
        data.decode("utf-8")
    except UnicodeDecodeError as error:
        return data[: error.start], None if error.reason == "unexpected end of data" else "malformed"
    return data, None


def text_whole(data):
    text, fault = text_part(data)
    return text, fault or ("truncated" if text != data else None)


def mended(data, is_whole):
    """The bytes with each maximal part that is no UTF-8 as U+FFFD; what may still become a character is held back."""
    return codecs.getincrementaldecoder("utf-8")("replace").decode(data, is_whole).encode()


def lines_of(data, is_whole):
    """The lines that ended, and at the end of the input the rest too; `longline` where one has too many bytes."""
    lines, begin, at = [], 0, 0
    while at < len(data):
        if data[at] in b"\r\n":
            lines.append(data[begin:at])
            at += 2 if data[at : at + 2] == b"\r\n" else 1
            begin = at
            continue
        at += 1
        if at - begin > MOST_OF_A_LINE:
            return tuple(lines), "longline"
    if is_whole and begin < len(data):
        lines.append(data[begin:])
    return tuple(lines), None


def dump(data, is_whole):
    """A line of hexadecimal digits for each sixteen bytes, and at the end one for the rest."""
    rest = len(data) if is_whole else len(data) - len(data) % 16
    return tuple(data[at : min(at + 16, rest)].hex().encode() for at in range(0, rest, 16))


def field_at(data, at):
    """The field that begins at this place, and the place behind it. Behind a closing quote, and behind a quote within a field that
    began without one, stands what stands there."""
    field, quoted = bytearray(), data[at : at + 1] == b'"'
    at += quoted
    while at < len(data):
        byte = data[at : at + 1]
        if quoted and byte == b'"':
            if data[at + 1 : at + 2] != b'"':
                quoted, at = False, at + 1
                continue
            at += 1
        elif not quoted and byte in (b",", b"\r", b"\n"):
            break
        field += byte
        at += 1
    return bytes(field), at


def records_of(data):
    """All records: fields with commas between, lines that aren't empty, a byte order mark at the begin left out."""
    rows, at = [], 3 if data[:3] == b"\xef\xbb\xbf" else 0
    while at < len(data):
        if data[at] in b"\r\n":
            at += 1
            continue
        fields = []
        while True:
            field, at = field_at(data, at)
            fields.append(field)
            if data[at : at + 1] != b",":
                break
            at += 1
        rows.append(tuple(fields))
    return rows


def rows_of(data):
    """The rows of a whole input, up to the first of another length than the first one."""
    if len(data) > MOST_OF_RECORDS:
        return (), "toolarge"
    if text_whole(data)[1]:
        return (), "notutf8"
    rows = records_of(data)
    for place, row in enumerate(rows):
        if len(row) != len(rows[0]):
            return tuple(rows[:place]), "uneven"
    return tuple(rows), None


def dictionary_of(data):
    """What a table's bytes say of each key, or the name of its fault."""
    if len(data) > MOST_OF_RECORDS:
        return "toolarge"
    if text_whole(data)[1]:
        return "notutf8"
    rows = records_of(data)
    if rows and len(rows[0]) < 2:
        return "nofield"
    if any(len(row) != len(rows[0]) for row in rows):
        return "uneven"
    if any(len(row[1]) > MOST_OF_A_VALUE for row in rows):
        return "toolarge"
    values = {}
    for row in rows:
        values.setdefault(row[0], row[1])
    return values


def each_row(rows, place, made):
    """What is made of the field at this place of each row, up to the first row that doesn't have it."""
    given = []
    for row in rows:
        if place >= len(row):
            return tuple(given), "nofield"
        given.append(made(row, row[place]))
    return tuple(given), None


def between(lines, text):
    """The text between each two of the lines."""
    return tuple(it for line in lines for it in (text, line))[1:]


def part(step, kind, given, tables):
    """What the step gives of an input of which more may come."""
    name, argument = step[0], step[-1]
    count = len(given)
    if name == "utf8":
        return text_part(given)
    if name == "lines":
        return lines_of(given, False)
    if name in ("field", "lookup"):
        made = (lambda row, field: field) if name == "field" else (lambda row, field: row + (tables[step[1]].get(field, b""),))
        return each_row(given, argument, made)
    if name == "csv":
        return (), "toolarge" if count > MOST_OF_RECORDS else None
    given = {
        "lossy": lambda: mended(given, False),
        "upper": lambda: capitals(given) if kind == BYTES else tuple(map(capitals, given)),
        "hex": lambda: dump(given, False),
        "drop": lambda: given[argument:],
        "filter": lambda: tuple(line for line in given if argument in line),
        "changes": lambda: tuple(it for at, it in enumerate(given) if at == 0 or it != given[at - 1]),
        "number": lambda: tuple(b"%d %s" % it for it in enumerate(given)),
        "count": lambda: (),
        "intersperse": lambda: between(given, argument),
        "chunk": lambda: given[: count - count % argument],
    }[name]()
    return given, None


def whole(step, kind, given, tables):
    """What the step gives of a whole input."""
    name = step[0]
    ended = {
        "utf8": lambda: text_whole(given),
        "lossy": lambda: (mended(given, True), None),
        "hex": lambda: (dump(given, True), None),
        "lines": lambda: lines_of(given, True),
        "csv": lambda: rows_of(given),
        "count": lambda: ((b"%d" % len(given),), None),
        "chunk": lambda: (given, None),
    }.get(name)
    return ended() if ended else part(step, kind, given, tables)


def through(step, kind, given, end, tables):
    """What the step gives of a run with these elements and this end, and how that ends: `done`, `cut`, or a fault's name behind
    `fault `."""
    if step[0] == "take":
        return (given[: step[1]], "done") if len(given) >= step[1] else (given, end)
    made, fault = part(step, kind, given, tables)
    if not fault and end == "done":
        made, fault = whole(step, kind, given, tables)
    return made, f"fault {fault}" if fault else end


def quoted(field):
    """A field as the writer of records has it."""
    return b'"' + field.replace(b'"', b'""') + b'"' if any(it in field for it in b',"\r\n') else field


def payloads(kind, given):
    """The bytes that are printed of each element."""
    if kind == BYTES:
        return [given[at : at + 1] for at in range(len(given))]
    if kind == LINES:
        return [line + b"\n" for line in given]
    return [(b'""' if row == (b"",) else b",".join(map(quoted, row))) + b"\n" for row in given]
