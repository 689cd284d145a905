"""A model of the engine on whole lists, by which its files are judged.

A query is a Python value (`Query`) beside its canonical text; no SQL is read here. `Epochs` says, for the lines of the parts and the
cuts of the epochs, what each epoch reads, takes, shows and keeps, and what its files hold, byte for byte. `cuts_of_run` says which
cuts a run plans. The rules are those of docs/SEMANTICS.md and docs/FORMATS.md.

Nothing goes from epoch to epoch: the rows of an epoch are computed from all rows that were accepted up to it, and its watermark and its
state likewise. Queries without state (Plain), with groups, with DEDUPLICATE and with JOIN are known. Where a run is stopped by something else than a
line or a key (a log that is too short, a disk that fails), the model says nothing.

Values are None for NULL, bool, int, datetime (in UTC, without a zone) and str.
"""
import collections
import dataclasses
import datetime
import enum
import functools
import itertools
import json
import operator
import re
import typing

Kind = enum.Enum("Kind", "BIGINT STRING TIMESTAMP BOOLEAN")
Mode = enum.Enum("Mode", "APPEND UPDATE COMPLETE")
Function = enum.Enum("Function", "COUNT SUM MIN MAX")
Direction = enum.Enum("Direction", "ASC DESC")
Outer = enum.Enum("Outer", "NEITHER LEFT RIGHT")

ORIGIN = datetime.datetime(1970, 1, 1)
MICROSECOND = datetime.timedelta(microseconds=1)
LONGEST = 1_048_576  # bytes of a line, and of a text that || makes
SNAPSHOTS = 10  # each version whose number ends in 9 has a snapshot
BEHIND = 20  # a snapshot so many versions behind the last commit takes the place of what is older


@dataclasses.dataclass(frozen=True)
class Window:
    """WINDOW(column, 'size', 'slide')."""

    column: str
    size: datetime.timedelta
    slide: datetime.timedelta


@dataclasses.dataclass(frozen=True)
class Aggregate:
    """A function of a group's rows; COUNT(*) has no argument."""

    function: Function
    argument: typing.Callable | None = None


@dataclasses.dataclass(frozen=True)
class Join:
    """JOIN of a second stream. `keys` has the pairs of columns that are equal, the left one first; `bound` the spans of a right row's time after
    the left row's, from the least to the greatest; and `rest` the other conditions of ON, from the left."""

    stream: str
    columns: dict
    keys: tuple
    outer: Outer = Outer.NEITHER
    event: str | None = None
    delay: datetime.timedelta | None = None
    bound: tuple | None = None
    rest: tuple = ()


@dataclasses.dataclass(frozen=True)
class Query:
    """A query over one stream, or over two that are joined.

    Expressions are functions: WHERE and arguments of a row (by the names of columns; of a joined row, with its stream's name and a point before
    each), HAVING and items of a `Group`; items of a query without groups of a row. `group` has the names of columns and windows of GROUP BY;
    it is empty where there are aggregates and no GROUP BY, and None where there are none. `distinct` has the columns of DEDUPLICATE, or is None.
    `aggregates` are those of SELECT from the left, then those of HAVING.
    """

    text: str
    columns: dict
    items: dict
    mode: Mode
    stream: str = "s"
    event: str | None = None
    delay: datetime.timedelta | None = None
    where: typing.Callable | None = None
    group: tuple | None = None
    distinct: tuple | None = None
    aggregates: tuple = ()
    having: typing.Callable | None = None
    order: tuple = ()
    join: Join | None = None

    def sources(self):
        """What is known of its streams."""
        return [self] if self.join is None else [self, self.join]

    def keeps_state(self):
        return self.group is not None or self.distinct is not None or self.join is not None

    def closes(self):
        """Whether it has rows to show when the watermark rises."""
        if self.join is not None:
            return self.join.outer is not Outer.NEITHER
        return self.group is not None and self.mode is Mode.APPEND

    def closing_time(self, key):
        """The time of a key: when it is past, the key is closed. A key without a time stays open."""
        if self.mode is Mode.COMPLETE or self.event is None:
            return None
        parts = self.group or self.distinct or ()
        for part, value in zip(parts, key):
            if isinstance(part, Window) and part.column == self.event:
                return value + part.size
        for part, value in zip(parts, key):
            if part == self.event:
                return value
        return None


# ---- evaluation


class Overflow(Exception):
    """A result outside the range of its type."""


def compare(left, sign, right):
    """A comparison: NULL where a side is."""
    signs = {"=": operator.eq, "<>": operator.ne, "<": operator.lt, "<=": operator.le, ">": operator.gt, ">=": operator.ge}
    return None if left is None or right is None else signs[sign](order_of(left), order_of(right))


def compute(left, sign, right):
    """Arithmetic and ||: NULL where a side is. A span stands right of a time."""
    if left is None or right is None:
        return None
    if sign == "||":
        return short(left + right)
    if isinstance(left, datetime.datetime):
        return shifted(left, right if sign == "+" else -right)
    if sign in ("DIV", "%"):
        quotient = abs(left) // abs(right) * (1 if (left < 0) == (right < 0) else -1)
        return bigint(quotient if sign == "DIV" else left - right * quotient)
    return bigint({"+": operator.add, "-": operator.sub, "*": operator.mul}[sign](left, right))


def conjunction(left, right):
    """left AND right(); the right side is not asked where the left is FALSE."""
    if left is False:
        return False
    other = right()
    return False if other is False else None if left is None or other is None else True


def disjunction(left, right):
    """left OR right(); the right side is not asked where the left is TRUE."""
    if left is True:
        return True
    other = right()
    return True if other is True else None if left is None or other is None else False


def negation(value):
    """NOT."""
    return None if value is None else not value


def bigint(number):
    if not -(2**63) <= number < 2**63:
        raise Overflow
    return number


def shifted(time, span):
    try:
        return time + span
    except OverflowError:
        raise Overflow from None


def short(text):
    if len(text.encode()) > LONGEST:
        raise Overflow
    return text


class Group:
    """What HAVING and the items of SELECT see of a group: group["k"], group["window_start"], and group[0] for the first aggregate."""

    def __init__(self, query, key, rows):
        self.values = {}
        for part, value in zip(query.group, key):
            if isinstance(part, Window):
                self.values["window_start"] = value
                self.values["window_end"] = value + part.size
            else:
                self.values[part] = value
        for at, aggregate in enumerate(query.aggregates):
            self.values[at] = aggregated(aggregate.function, [row[at] for row in rows])

    def __getitem__(self, name):
        value = self.values[name]
        return bigint(value) if type(value) is int else value


def aggregated(function, values):
    """An aggregate of all the values of its argument; a sum is exact."""
    present = [value for value in values if value is not None]
    if function is Function.COUNT:
        return len(present)
    if not present:
        return None
    if function is Function.SUM:
        return sum(present)
    return min(present, key=order_of) if function is Function.MIN else max(present, key=order_of)


def windows_of(time, size, slide):
    """The starts of the windows that contain a time: half open, aligned to 1970."""
    last = time - (time - ORIGIN) % slide
    starts = itertools.takewhile(lambda start: start + size > time, (last - k * slide for k in itertools.count()))
    return sorted(starts)


# ---- values: their order, their bytes, their texts


def rank(value):
    """NULL, truth values, numbers, times, texts."""
    return 0 if value is None else [bool, int, datetime.datetime, str].index(type(value)) + 1


def order_of(value):
    """The place of a value in the order of all values; texts stand by their bytes."""
    return rank(value), value.encode() if isinstance(value, str) else 0 if value is None else value


def row_order(values):
    return [order_of(value) for value in values]


def micros(time):
    return (time - ORIGIN) // MICROSECOND


def key_bytes(values):
    """The bytes of a list of values; numbers have the highest byte first."""
    return b"".join(map(value_bytes, values))


def value_bytes(value):
    kind = bytes([rank(value)])
    if value is None:
        return kind
    if isinstance(value, bool):
        return kind + bytes([value])
    if isinstance(value, str):
        return kind + field(value.encode())
    return kind + ((value if isinstance(value, int) else micros(value)) + 2**63).to_bytes(8, "big")


def field(content):
    return len(content).to_bytes(4, "big") + content


def partition_of(key, partitions):
    """FNV-1a of 64 bits over the key's bytes, modulo the number of partitions."""
    hashed = 14695981039346656037
    for byte in key:
        hashed = (hashed ^ byte) * 1099511628211 % 2**64
    return hashed % partitions


def stamp(time):
    """A time as records, rows and lines of output have it."""
    return "none" if time is None else time.isoformat() + "Z"


def json_text(value):
    return json.dumps(stamp(value) if isinstance(value, datetime.datetime) else value, ensure_ascii=False)


def row_text(names, row):
    return "{" + ",".join(f"{json_text(name)}:{json_text(value)}" for name, value in zip(names, row)) + "}\n"


def record(*lines):
    return "".join(line + "\n" for line in ("v1", *lines, "end")).encode()


# ---- lines


class BadLine(Exception):
    """A line that is no row, with its cause."""


TIME = re.compile("([0-9]{4}-[0-9]{2}-[0-9]{2}T(?:[01][0-9]|2[0-3]):[0-9]{2}:[0-9]{2})([.][0-9]{1,6})?Z")


def time_of(text):
    """The time that a text is, if it is one."""
    found = TIME.fullmatch(text)
    if not found or not "1000" <= text[:4] <= "9000":
        return None
    try:
        return datetime.datetime.fromisoformat(found[1] + (found[2] or ".0").ljust(7, "0"))
    except ValueError:
        return None


def number_of(digits):
    """An integer, or the float that one outside 64 bits and `-0` are."""
    number = int(digits)
    return float_of(digits) if digits == "-0" or not -(2**63) <= number < 2**63 else number


def float_of(digits):
    number = float(digits)
    if abs(number) == float("inf"):
        raise ValueError
    return number


def no_number(word):
    raise ValueError(word)


def refuse_halves(found):
    """Half of a pair of surrogates is no character, so no UTF-8 has it."""
    json_text(found).encode()


def whole_object(fields):
    """An object none of whose fields has half a pair, those included that stand again behind."""
    refuse_halves(fields)
    return dict(fields)


def json_of(line):
    """The JSON that a line is. Lines that nest more than 127 deep, which serde_json refuses, are not asked for here."""
    hook = whole_object if b"\\u" in line else None
    try:
        found = json.loads(line.decode(), parse_int=number_of, parse_float=float_of, parse_constant=no_number, object_pairs_hook=hook)
        if hook:
            refuse_halves(found)
    except ValueError:
        raise BadLine("NotJson") from None
    return found


def value_of(kind, found):
    """What a field that is there and not null is in a column, or None where it is of another type."""
    if kind is Kind.TIMESTAMP:
        return time_of(found) if isinstance(found, str) else None
    return found if type(found) is {Kind.BIGINT: int, Kind.STRING: str, Kind.BOOLEAN: bool}[kind] else None


def read_line(source, line):
    """The row of a line (without its end) of a stream, by the names of columns; None where it is of blanks alone."""
    if len(line) > LONGEST:
        raise BadLine("TooLong")
    if not line.strip(b" \t\r"):
        return None
    found = json_of(line)
    if not isinstance(found, dict):
        raise BadLine("NotObject")
    row = {}
    for name, kind in source.columns.items():
        row[name] = None if found.get(name) is None else value_of(kind, found[name])
        if row[name] is None and found.get(name) is not None:
            raise BadLine(f"WrongType {name}")
    if source.event is not None and row[source.event] is None:
        raise BadLine("NoEventTime")
    return row


def found_in(source, line):
    """The row of a line, None, or what is wrong with it."""
    try:
        return read_line(source, line)
    except BadLine as bad:
        return bad


# ---- epochs


# What is handed on of a row: the key of one of its groups, the time of that key, and the arguments of the aggregates. With DEDUPLICATE the
# key has the row's values in the columns, and without groups or DEDUPLICATE no values; the values are then the row that is shown.
Fed = collections.namedtuple("Fed", "key time values")

# What is handed on of a row to a join: its stream, its join key, its event time where the join has a bound, its row and its place.
Paired = collections.namedtuple("Paired", "stream key time row epoch part offset")


def keys_of(group, row):
    """The keys of the groups in which a row is: one for each of its windows."""
    parts = []
    for part in group:
        if not isinstance(part, Window):
            parts.append([row[part]])
        else:
            time = row[part.column]
            parts.append([] if time is None else windows_of(time, part.size, part.slide))
    return list(itertools.product(*parts))


def fed_by(query, row):
    """What is handed on of a row: WHERE is evaluated, and where it is TRUE the arguments of the aggregates, or else the items."""
    if query.where and query.where(row) is not True:
        return []
    if query.group is None:
        key = tuple(row[name] for name in query.distinct or ())
        return [Fed(key, query.closing_time(key), tuple(item(row) for item in query.items.values()))]
    values = tuple(one.argument(row) if one.argument else True for one in query.aggregates)
    return [Fed(key, query.closing_time(key), values) for key in keys_of(query.group, row)]


def paired_by(query, stream, row, *place):
    """What is handed on of a row to a join."""
    source = query.sources()[stream]
    key = tuple(row[pair[stream]] for pair in query.join.keys)
    return Paired(stream, key, row[source.event] if query.join.bound else None, row, *place)


def joined(query, left, right):
    """A row of both streams; NULLs stand in place of a row that is not there."""
    rows = [row.row if row else dict.fromkeys(source.columns) for source, row in zip(query.sources(), (left, right))]
    return {f"{source.stream}.{name}": value for source, row in zip(query.sources(), rows) for name, value in row.items()}


def are_candidates(query, left, right):
    """Whether a left and a right row have the same keys, none of them NULL, and meet the bound."""
    if left.key != right.key or None in left.key:
        return False
    return query.join.bound is None or left.time + query.join.bound[0] <= right.time <= left.time + query.join.bound[1]


def is_on(query, row):
    """The rest of ON, of a joined row."""
    return functools.reduce(conjunction, [functools.partial(one, row) for one in query.join.rest], True) is True


def last_time(query, row):
    """The last time that a partner may have, if there is one."""
    if query.join.bound is None:
        return None
    return row.time + query.join.bound[1] if row.stream == 0 else row.time - query.join.bound[0]


def is_past(time, watermark):
    """A row of a past time is late, and a key of a past time is closed and forgotten. Without a time or a watermark nothing is past."""
    return time is not None and watermark is not None and time <= watermark


def is_above(watermark, other):
    return watermark is not None and (other is None or watermark > other)


def grouped(rows):
    """The values of the rows of each key."""
    groups = {}
    for row in rows:
        groups.setdefault(row.key, []).append(row.values)
    return groups


def by_epoch(method):
    """Keeps what a method answered, so that it is computed once."""

    @functools.wraps(method)
    def answer(self, *of):
        known = self.known.setdefault(method.__name__, {})
        if of not in known:
            known[of] = method(self, *of)
        return known[of]

    return answer


class Epochs:
    """The epochs of a query: `parts` has the lines of each part, and `cuts` for each epoch one end for each part. Of a join the parts of the
    left stream come first; `lefts` says how many they are."""

    def __init__(self, query, parts, cuts, partitions=1, lefts=None):
        self.query, self.parts, self.cuts, self.partitions = query, parts, cuts, partitions
        self.known = {}
        self.lefts = len(parts) if lefts is None else lefts
        self.found = [
            [found_in(query.sources()[self.place(at)[0]], line) for line in part[:end]]
            for at, (part, end) in enumerate(zip(parts, self.begin(len(cuts))))
        ]

    def place(self, at):
        """The stream of a part, and which of its parts it is."""
        return (0, at) if at < self.lefts else (1, at - self.lefts)

    def begin(self, e):
        """How many lines of each part the epochs before this one cover."""
        return self.cuts[e - 1] if e > 0 else (0,) * len(self.parts)

    # -- what an epoch reads

    def read(self, e):
        """The lines of an epoch, in order: stream, part, offset, and what is found there."""
        for at, (begin, end) in enumerate(zip(self.begin(e), self.cuts[e])):
            for offset in range(begin, end):
                yield *self.place(at), offset, self.found[at][offset]

    @by_epoch
    def seen(self, e, stream=0):
        """The greatest event time of all rows of a stream before the epoch, those that WHERE drops and late ones too."""
        event = self.query.sources()[stream].event
        if event is None:
            return None
        rows = [
            row
            for at, (part, end) in enumerate(zip(self.found, self.begin(e)))
            for row in part[:end]
            if self.place(at)[0] == stream and isinstance(row, dict)
        ]
        return max((row[event] for row in rows), default=None)

    def watermark(self, e):
        """By the epochs before this one: the least of the streams that have one. Before epoch 0 there is none."""
        delays = {stream: source.delay for stream, source in enumerate(self.query.sources()) if source.event is not None}
        seen = {stream: self.seen(e, stream) for stream in delays}
        return None if not delays or None in seen.values() else min(seen[stream] - delays[stream] for stream in delays)

    @by_epoch
    def line_fault(self, e):
        """The first line that is bad or overflows."""
        for stream, part, offset, found in self.read(e):
            name = self.query.sources()[stream].stream
            try:
                if isinstance(found, BadLine):
                    return f"stopped 4 BadLine {name} {part} {offset} {found}"
                if found is not None and self.query.join is None:
                    fed_by(self.query, found)
            except Overflow:
                return f"stopped 5 Overflow {name} {part} {offset}"
        return None

    @by_epoch
    def fed(self, e):
        if self.query.join is not None:
            return [paired_by(self.query, stream, row, e, *place) for stream, *place, row in self.read(e) if row is not None]
        return [fed for *_, row in self.read(e) if row is not None for fed in fed_by(self.query, row)]

    @by_epoch
    def on_time(self, e):
        return [row for row in self.fed(e) if not is_past(row.time, self.watermark(e))]

    def accepted(self, e):
        """All rows of the epochs up to this one that were not late in their own."""
        return [row for epoch in range(e + 1) for row in self.on_time(epoch)]

    # -- what it shows

    def considered(self, e):
        """The rows of the keys that the epoch considers: in Append those that it closes first, in Update those with a row of the epoch,
        in Complete all."""
        before, now = self.watermark(e - 1), self.watermark(e)
        touched = {row.key for row in self.on_time(e)}
        is_due = {
            Mode.APPEND: lambda row: is_past(row.time, now) and not is_past(row.time, before),
            Mode.UPDATE: lambda row: row.key in touched,
            Mode.COMPLETE: lambda row: True,
        }[self.query.mode]
        return [row for row in self.accepted(e) if is_due(row)]

    def firsts(self, e):
        """The rows of the epoch that are no repeats: no accepted row before them has their key."""
        rows, old = self.accepted(e), len(self.accepted(e - 1))
        first = {row.key: at for at, row in reversed(list(enumerate(rows)))}
        return [row for at, row in enumerate(rows) if at >= old and at == first[row.key]]

    @by_epoch
    def candidates(self, e):
        """The left and right rows of the epochs up to this one that may be partners, with what ON says of each pair: TRUE or not, or Overflow."""
        rights = collections.defaultdict(list)
        for row in self.accepted(e):
            if row.stream == 1:
                rights[row.key].append(row)
        found = []
        for left, right in ((left, right) for left in self.accepted(e) if left.stream == 0 for right in rights[left.key]):
            if are_candidates(self.query, left, right):
                try:
                    found.append((left, right, is_on(self.query, joined(self.query, left, right))))
                except Overflow as excess:
                    found.append((left, right, excess))
        return found

    def partnered(self, e):
        """The rows that have a partner."""
        return {place_of(row) for *pair, on in self.candidates(e) if on is True for row in pair}

    def is_over(self, row, e):
        return e >= 0 and is_past(last_time(self.query, row), self.watermark(e))

    def alone(self, e):
        """The rows of an outer side without a partner that are over in this epoch first."""
        outer = {Outer.NEITHER: None, Outer.LEFT: 0, Outer.RIGHT: 1}[self.query.join.outer]
        partnered = self.partnered(e)
        rows = [row for row in self.accepted(e) if row.stream == outer and place_of(row) not in partnered]
        return [row for row in rows if self.is_over(row, e) and not self.is_over(row, e - 1)]

    def joined_rows(self, e):
        """What the epoch considers: the pairs whose later row is its own, and the rows without a partner. Of each its key, and the row that is
        shown or Overflow."""
        own = [(left, right, on) for left, right, on in self.candidates(e) if e in (left.epoch, right.epoch)]
        shown = [(left.key, on) for left, _, on in own if isinstance(on, Overflow)]
        pairs = [(left.key, joined(self.query, left, right)) for left, right, on in own if on is True]
        alone = [(row.key, joined(self.query, *((row, None) if row.stream == 0 else (None, row)))) for row in self.alone(e)]
        for key, row in pairs + alone:
            try:
                if self.query.where is None or self.query.where(row) is True:
                    shown.append((key, tuple(item(row) for item in self.query.items.values())))
            except Overflow as excess:
                shown.append((key, excess))
        return shown

    @by_epoch
    def shown(self, e):
        """The row that each key shows, or Overflow; of a query without groups the epoch's rows, with DEDUPLICATE those that are no
        repeats."""
        if self.query.join is not None:
            return self.joined_rows(e)
        if self.query.group is None:
            return [(row.key, row.values) for row in (self.fed(e) if self.query.distinct is None else self.firsts(e))]
        shown = []
        for key, rows in grouped(self.considered(e)).items():
            group = Group(self.query, key, rows)
            try:
                if self.query.having is None or self.query.having(group) is True:
                    shown.append((key, tuple(item(group) for item in self.query.items.values())))
            except Overflow as excess:
                shown.append((key, excess))
        return shown

    def key_fault(self, e):
        """The least key that overflows."""
        faults = [key for key, row in self.shown(e) if isinstance(row, Overflow)]
        if not faults:
            return None
        return f"stopped 5 Overflow key [{','.join(map(json_text, min(faults, key=row_order)))}]"

    def fault(self, e):
        """What stops a run at this epoch, if something does: the line that is told."""
        return self.line_fault(e) or self.key_fault(e)

    def rows(self, e):
        """The rows of an epoch without a fault, in the order of its sink file: by ORDER BY, then value by value from the left."""
        rows = sorted((row for _, row in self.shown(e)), key=row_order)
        for name, direction in reversed(self.query.order):
            at = list(self.query.items).index(name)
            rows.sort(key=lambda row: order_of(row[at]), reverse=direction is Direction.DESC)
        return rows

    # -- what it keeps

    @by_epoch
    def state(self, e):
        """For each partition the keys that are kept after the epoch, with the totals of all their rows, as bytes; with DEDUPLICATE there are
        no totals. Before epoch 0 there are none."""
        states = [{} for _ in range(self.partitions if self.query.keeps_state() else 0)]
        if self.query.join is not None:
            partnered = self.partnered(e)
            for row in self.accepted(e):
                if not self.is_over(row, e):
                    value = key_bytes(row.row.values()) + bytes([place_of(row) in partnered])
                    states[partition_of(key_bytes(row.key), self.partitions)][place_bytes(row)] = value
            return states
        kept = [row for row in self.accepted(e) if not is_past(row.time, self.watermark(e))] if states else []
        for key, rows in grouped(kept).items():
            name = key_bytes(key)
            totals = (total_bytes(one.function, [row[at] for row in rows]) for at, one in enumerate(self.query.aggregates))
            states[partition_of(name, self.partitions)][name] = b"".join(totals)
        return states

    def changes(self, e):
        """The entries of each partition's delta: keys with their new value, or with None where they go."""
        for old, new in zip(self.state(e - 1), self.state(e)):
            yield [(key, new.get(key)) for key in sorted(old.keys() | new.keys()) if old.get(key) != new.get(key)]

    def deltas(self, e):
        for partition, change in enumerate(self.changes(e)):
            entries = [b"\0" + field(key) if value is None else b"\1" + field(key) + field(value) for key, value in change]
            yield state_file(b"SSQDELT1", partition, e, entries)

    def snapshots(self, e):
        for partition, state in enumerate(self.state(e)):
            entries = [field(key) + field(value) for key, value in sorted(state.items())]
            yield state_file(b"SSQSNAP1", partition, e, entries)

    # -- its files

    def meta(self):
        text = self.query.text
        counts = [self.lefts, len(self.parts) - self.lefts][: len(self.query.sources())]
        parts = [f"parts {stream} {count}" for stream, count in enumerate(counts)]
        return record(f"partitions {self.partitions}", *parts, f"query {len(text.encode())}", text)

    def plan(self, e):
        ends = [f"part {' '.join(map(str, self.place(at)))} {end}" for at, end in enumerate(self.cuts[e])]
        return record(f"plan {e}", f"watermark {stamp(self.watermark(e))}", *ends)

    def commit(self, e):
        sources = enumerate(self.query.sources())
        seen = [f"seen {stream} {stamp(self.seen(e + 1, stream))}" for stream, source in sources if source.event is not None]
        return record(f"commit {e}", *seen)

    def sink(self, e):
        names = list(self.query.items)
        return "".join(row_text(names, row) for row in self.rows(e)).encode()

    def files(self, e):
        """Each file that an epoch without a fault may have, by its path."""
        files = {f"offsets/{e}": self.plan(e), f"commits/{e}": self.commit(e), f"sink/{e}": self.sink(e)}
        files |= {f"state/{p}/{e}.delta": content for p, content in enumerate(self.deltas(e))}
        if has_snapshot(e):
            files |= {f"state/{p}/{e}.snapshot": content for p, content in enumerate(self.snapshots(e))}
        return files

    # -- what a run tells

    def told(self, e):
        lines = len(list(self.read(e)))
        return f"epoch {e} lines {lines} watermark {stamp(self.watermark(e))} rows {len(self.rows(e))}"

    def output(self, first=0):
        """What a run writes that acknowledges the epochs from the first one on."""
        told = []
        for e in range(first, len(self.cuts)):
            if self.fault(e):
                return told + [self.fault(e)]
            told.append(self.told(e))
        return told + [f"done epochs {len(self.cuts)}"]

    def next_cut(self, most=None):
        """The cut of the epoch that a round plans next, which saw the lines that are there; None where it plans no more. `most` are the
        lines that an epoch takes of a part."""
        e = len(self.cuts)
        if e and self.fault(e - 1):
            return None
        ends = tuple(min(len(part), begin + (most or len(part))) for part, begin in zip(self.parts, self.begin(e)))
        return ends if ends != self.begin(e) or self.is_closing(e) else None

    def is_closing(self, e):
        """Whether an epoch without lines has something to do: the query closes, and the watermark has risen."""
        return self.query.closes() and is_above(self.watermark(e), self.watermark(e - 1))


def place_of(row):
    """Which row it is."""
    return row.stream, row.part, row.offset


def place_bytes(row):
    """The bytes under which a row of a join is kept."""
    place = row.epoch.to_bytes(4, "big") + row.part.to_bytes(4, "big") + row.offset.to_bytes(8, "big")
    return bytes([row.stream]) + key_bytes(row.key) + place


def total_bytes(function, values):
    """What is kept of an aggregate."""
    total = aggregated(function, values)
    count = sum(value is not None for value in values).to_bytes(8, "big")
    if function is Function.COUNT:
        return count
    if function is Function.SUM:
        return count + (total or 0).to_bytes(16, "big", signed=True)
    return value_bytes(total)


def state_file(head, partition, version, entries):
    sizes = partition.to_bytes(4, "big") + version.to_bytes(4, "big") + len(entries).to_bytes(8, "big")
    return head + sizes + b"".join(entries)


def cuts_of_run(query, rounds, most=None, cuts=(), lefts=None):
    """The cuts of all epochs after a run of these rounds, before which those of `cuts` were planned. A round is the lines of each part as
    they were when it began."""
    cuts = list(cuts)
    for parts in rounds:
        while cut := Epochs(query, parts, cuts, lefts=lefts).next_cut(most):
            cuts.append(cut)
    return cuts


# ---- which files of the state are there


def has_snapshot(version):
    return version % SNAPSHOTS == SNAPSHOTS - 1


def floor_of(snapshots, commits):
    """The newest of some snapshots that are so far behind that older files may go; -1 where there is none."""
    return max((version for version in snapshots if version + BEHIND <= commits - 1), default=-1)


def delta_may_be(version, plans, commits):
    """Whether a checkpoint of so many plans and commits may have the deltas of a version."""
    return version <= commits and version < plans


def snapshot_may_be(version, commits):
    return version < commits and has_snapshot(version)


def needed_deltas(snapshots, commits):
    """The versions whose deltas a partition with these snapshots has to have."""
    return range(floor_of(snapshots, commits) + 1, commits)


def state_at_end(commits):
    """The versions of a partition's deltas and snapshots when a run is done."""
    snapshots = [version for version in range(commits) if has_snapshot(version)]
    floor = floor_of(snapshots, commits)
    return list(range(floor + 1, commits)), [version for version in snapshots if version >= floor]
