#!/usr/bin/env python3
"""Runs random queries over random logs, and judges every file that they leave, and what is told of them.

    python3 tests/queries.py [QUERIES] [SEED] [--shape plain|group|dedup|join]      (100, of groups; `make` builds bin/ssq)

Each query has other expressions in its items and in WHERE, another mode and another watermark; each with groups other keys, windows, aggregates,
HAVING and ORDER BY; each with DEDUPLICATE other columns; each join another kind, key, bound and rest of ON. It runs up to three times, over logs
of up to three parts that grow in between, in one to twelve partitions, with a cap or none. Some rows are late, some lines bad, and some results
overflow. Of a twentieth of the queries the logs take several of the blocks in which logs are read. What each run has to print, its status, each
file of the checkpoint, and what `show`, `status` and `explain` write before and after each run are computed from the logs (tests/model.py), and
compared byte for byte.

It is not part of the gate, since it takes minutes.
"""
import argparse
import collections
import dataclasses
import datetime
import enum
import functools
import json
import pathlib
import random
import shutil
import subprocess
import sys
import tempfile
import time
import typing

import model
from model import Aggregate, Direction, Epochs, Function, Join, Kind, Mode, Outer, Overflow, Query, Window
from model import compare, compute, conjunction, disjunction, negation

SSQ = pathlib.Path(__file__).resolve().parent.parent / "bin" / "ssq"
COLUMNS = {"ts": Kind.TIMESTAMP, "k": Kind.STRING, "v": Kind.BIGINT, "b": Kind.BOOLEAN, "u": Kind.TIMESTAMP}
SECOND = datetime.timedelta(seconds=1)
START = datetime.datetime(2024, 1, 1)
MOST = 2**63 - 1
BLOCK = 262_144  # the bytes of a log that are read at once
TEXTS = ["a", "b", "c", "", 'q"\\\n', "é", None]
LITERALS = {
    Kind.BIGINT: [*range(10)] * 4 + [MOST],
    Kind.STRING: [*TEXTS[:-1], "it's", "é'"],
    Kind.TIMESTAMP: [START, START + 20 * SECOND, START + datetime.timedelta(seconds=5, milliseconds=500)],
    Kind.BOOLEAN: [False, True],
}
TIME_FIELD = b'"ts":"2024-01-01T00:00:00Z"'
ODD_FIELDS = [  # most are bad
    b'"v":"x"',
    b'"v":1.0',
    b'"v":-0',
    b'"v":9223372036854775808',
    b'"v":1.0,"v":1',
    b'"k":1',
    b'"b":"true"',
    b'"u":"0999-12-31T23:59:59Z"',
    b'"u":"2023-02-29T00:00:00Z"',
    b'"x":1e999',
    b'"x":1e999,"x":1',
    b'"x":"\\ud800"',
    b'"x":"\\ud800","x":1',
    b'"x":[{"\\udc00":1}],"x":1',
    b'"x":"\\ud83d\\ude00"',
    b'"k":"\xff"',
]
ODD_LINES = [b"{", b"[]", b'["\\ud800"]', b'{"ts":null}', b'{"ts":"0999-12-31T23:59:59Z"}']
ODD_LINES += [b"{" + field + b"," + TIME_FIELD + b"}" for field in ODD_FIELDS]


# ---- expressions


class Level(enum.IntEnum):
    """How tightly the grammar binds a part of an expression."""

    OR = 0
    AND = 1
    NOT = 2
    COMPARISON = 3
    SUM = 4
    PRODUCT = 5
    MINUS = 6
    OPERAND = 7


@dataclasses.dataclass
class Term:
    """A part of a query's text, which is canonical, its value and its type."""

    text: str
    value: typing.Callable
    kind: Kind = Kind.BIGINT
    level: Level = Level.OPERAND

    def under(self, level):
        """Its text where the grammar has this level: in brackets where another tree would be read without them."""
        return self.text if self.level >= level else f"({self.text})"


def named(name, kind):
    """A column, as the query and the model's rows name it."""
    return Term(name, lambda row: row[name], kind)


def literal(value):
    """A number that is not negative, a truth value, a time or a text."""
    if isinstance(value, bool):
        return Term(str(value).upper(), lambda row: value, Kind.BOOLEAN)
    if isinstance(value, int):
        return Term(str(value), lambda row: value)
    if isinstance(value, str):
        doubled = value.replace("'", "''")
        return Term(f"'{doubled}'", lambda row: value, Kind.STRING)
    return Term(f"TIMESTAMP '{model.stamp(value)}'", lambda row: value, Kind.TIMESTAMP)


def span(number, unit):
    """An INTERVAL, which stands right of a time and a sign; `unit` is seconds, minutes, hours or days."""
    return Term(f"INTERVAL '{number} {unit}'", lambda row: datetime.timedelta(**{unit: number}))


def computed(left, sign, right):
    """Arithmetic, or || of texts."""
    level = Level.PRODUCT if sign in ("*", "DIV", "%") else Level.SUM
    text = f"{left.under(level)} {sign} {right.under(level + 1)}"
    return Term(text, lambda row: compute(left.value(row), sign, right.value(row)), left.kind, level)


def minus(term):
    return Term(f"- {term.under(Level.MINUS)}", lambda row: compute(0, "-", term.value(row)), level=Level.MINUS)


def truth(text, value, level):
    return Term(text, value, Kind.BOOLEAN, level)


def compared(left, sign, right):
    text = f"{left.under(Level.SUM)} {sign} {right.under(Level.SUM)}"
    return truth(text, lambda row: compare(left.value(row), sign, right.value(row)), Level.COMPARISON)


def between(term, least, most):
    """BETWEEN, which does not evaluate its right end where the term is below its left one."""

    def is_between(row):
        value = term.value(row)
        return conjunction(compare(value, ">=", least.value(row)), lambda: compare(value, "<=", most.value(row)))

    text = f"{term.under(Level.SUM)} BETWEEN {least.under(Level.SUM)} AND {most.under(Level.SUM)}"
    return truth(text, is_between, Level.COMPARISON)


def is_null(term):
    return truth(f"{term.under(Level.SUM)} IS NULL", lambda row: term.value(row) is None, Level.COMPARISON)


def is_not_null(term):
    return truth(f"{term.under(Level.SUM)} IS NOT NULL", lambda row: term.value(row) is not None, Level.COMPARISON)


def opposite(term):
    """NOT."""
    return truth(f"NOT {term.under(Level.NOT)}", lambda row: negation(term.value(row)), Level.NOT)


def both(left, right):
    """AND."""
    text = f"{left.under(Level.AND)} AND {right.under(Level.NOT)}"
    return truth(text, lambda row: conjunction(left.value(row), lambda: right.value(row)), Level.AND)


def either(left, right):
    """OR."""
    text = f"{left.under(Level.OR)} OR {right.under(Level.AND)}"
    return truth(text, lambda row: disjunction(left.value(row), lambda: right.value(row)), Level.OR)


@dataclasses.dataclass
class Maker:
    """Makes expressions over some columns."""

    chance: random.Random
    columns: dict

    def column(self, kind=None):
        name = self.chance.choice([name for name, own in self.columns.items() if kind in (None, own)])
        return named(name, self.columns[name])

    def literal(self, kind):
        if kind is Kind.BIGINT and self.chance.random() < 0.05:
            return computed(minus(literal(MOST)), "-", literal(1))  # the least one
        return literal(self.chance.choice(LITERALS[kind]))

    def term(self, kind=None, height=2):
        """An expression of a type, or of any, that has at most so many operators one in the other."""
        kind = kind or self.chance.choice(list(Kind))
        if height == 0 or self.chance.random() < 0.2:
            return self.column(kind) if self.chance.random() < 0.75 else self.literal(kind)
        makers = {Kind.BIGINT: self.number, Kind.STRING: self.text, Kind.TIMESTAMP: self.time, Kind.BOOLEAN: self.truth}
        return makers[kind](height - 1)

    def number(self, height):
        term, divisor = self.term(Kind.BIGINT, height), literal(self.chance.choice([1, 2, 3, 7]))
        sign = self.chance.choice(["+", "-", "*", "DIV", "%", "minus"])
        if sign == "minus":
            return minus(term)
        if sign in ("DIV", "%"):
            return computed(term, sign, self.chance.choice([divisor, minus(divisor)]))
        return computed(term, sign, self.term(Kind.BIGINT, height))

    def text(self, height):
        return computed(self.term(Kind.STRING, height), "||", self.term(Kind.STRING, height))

    def time(self, height):
        far = span(*self.chance.choice([(5, "seconds"), (90, "minutes"), (36, "hours"), (366, "days")]))
        return computed(self.term(Kind.TIMESTAMP, height), self.chance.choice("+-"), far)

    def truth(self, height):
        kind = self.chance.choice(list(Kind))
        one, other, third = (self.term(kind, height) for _ in range(3))
        sign = self.chance.choice(["=", "<>", "<", "<=", ">", ">="])
        makers = [
            lambda: compared(one, sign, other),
            lambda: between(one, other, third),
            lambda: self.chance.choice([is_null, is_not_null])(one),
            lambda: opposite(self.term(Kind.BOOLEAN, height)),
            lambda: self.chance.choice([both, either])(self.term(Kind.BOOLEAN, height), self.term(Kind.BOOLEAN, height)),
            self.guarded,
        ]
        return self.chance.choice(makers)()

    def guarded(self):
        """A condition with a part that overflows on just the rows on which it is not to be evaluated."""
        number, edge = self.column(Kind.BIGINT), literal(self.chance.randrange(1, 8))
        above = compared(computed(number, "+", computed(literal(MOST), "-", edge)), "<", literal(MOST))
        below = minus(computed(computed(number, "-", literal(MOST)), "-", edge))
        makers = [
            lambda: either(compared(number, ">", edge), above),
            lambda: both(compared(number, "<=", edge), above),
            lambda: between(number, edge, below),
        ]
        return self.chance.choice(makers)()

    def condition(self):
        """Mostly one that most rows meet."""
        number = self.column(Kind.BIGINT)
        common = either(is_null(number), compared(number, ">", literal(self.chance.randrange(8))))
        return self.chance.choice([common, self.guarded(), self.term(Kind.BOOLEAN, 3), either(self.term(Kind.BOOLEAN), common)])

    def where(self):
        """What stands after FROM, and its value: None where there is no WHERE."""
        if self.chance.random() < 0.3:
            return "", None
        condition = self.condition()
        return f" WHERE {condition.text}", condition.value

    def rest(self):
        """A condition of ON that is no AND, no equality and no BETWEEN by itself: those would be more conditions, a key and a bound."""
        number = [self.term(Kind.BIGINT), self.term(Kind.BIGINT)]
        common = compared(number[0], self.chance.choice(["<", "<=", "<>"]), number[1])
        condition = self.term(Kind.BOOLEAN)
        return self.chance.choice([common, opposite(condition), either(condition, common), is_not_null(condition)])


# ---- queries


@dataclasses.dataclass
class Draft:
    """A query that is made: its aggregates so far, in the order of SELECT and HAVING, and its items with their texts."""

    maker: Maker
    aggregates: list = dataclasses.field(default_factory=list)
    items: dict = dataclasses.field(default_factory=dict)
    texts: list = dataclasses.field(default_factory=list)

    @property
    def chance(self):
        return self.maker.chance

    def aggregate(self):
        """One aggregate more, as a term of a group."""
        function, at = self.chance.choice([*Function, Function.SUM]), len(self.aggregates)
        argument = self.maker.term(Kind.BIGINT if function is Function.SUM else None)
        if function is Function.COUNT and self.chance.random() < 0.5:
            self.aggregates.append(Aggregate(function))
            return Term("COUNT(*)", lambda group: group[at])
        self.aggregates.append(Aggregate(function, argument.value))
        kind = Kind.BIGINT if function is Function.COUNT else argument.kind
        return Term(f"{function.name}({argument.text})", lambda group: group[at], kind)

    def add(self, name, term):
        self.texts.append(term.text if term.text == name else f"{term.text} AS {name}")
        self.items[name] = term.value

    def add_key(self, part):
        """Shows a part of the key: a window by its start, its end or both."""
        if isinstance(part, Window):
            names = self.chance.choice([["window_start"], ["window_end"], ["window_start", "window_end"]])
        else:
            names = [part]
        for name in names:
            own = f"own_{name}" if self.chance.random() < 0.2 else name
            self.add(own, Term(name, lambda group, name=name: group[name]))

    def add_aggregate(self, name):
        term = self.aggregate()
        if term.kind is Kind.BIGINT and self.chance.random() < 0.25:
            term = computed(term, "+", literal(self.chance.choice([1, MOST // 2, MOST - 40])))
        self.add(name, term)

    def having(self):
        """A comparison of a number, which now and then overflows."""
        term = self.aggregate()
        while term.kind is not Kind.BIGINT:
            self.aggregates.pop()
            term = self.aggregate()
        if self.chance.random() < 0.2:
            term = computed(term, "*", literal(MOST // 4))
        return compared(term, ">", literal(self.chance.randrange(6)))


def made_group(chance):
    """Some columns, and a window or none."""
    group = chance.sample(list(COLUMNS), chance.randrange(3))
    if chance.random() < 0.7:
        slide = chance.choice([5, 7, 10])
        size = slide * chance.randrange(1, 4) + chance.choice([0, 0, chance.randrange(slide)])
        group.append(Window(chance.choice(["ts", "ts", "u"]), size * SECOND, slide * SECOND))
    chance.shuffle(group)
    return tuple(group)


def has_time(group):
    return any(part == "ts" or isinstance(part, Window) and part.column == "ts" for part in group)


def group_text(part):
    return f"WINDOW({part.column}, '{part.size // SECOND} seconds', '{part.slide // SECOND} seconds')" if isinstance(part, Window) else part


def stream_text(delay, stream="s"):
    watermark = f" WATERMARK FOR ts DELAY '{delay} seconds'" if delay else ""
    columns = ", ".join(f"{name} {kind.name}" for name, kind in COLUMNS.items())
    return f"CREATE STREAM {stream} ({columns}) FROM '{stream}'{watermark}; "


def made_grouped(chance):
    mode, delay, group = chance.choice(list(Mode)), chance.choice([None, 1, 5, 10, 30]), made_group(chance)
    if mode is Mode.APPEND and not (delay and has_time(group)):
        return made_grouped(chance)
    maker = Maker(chance, COLUMNS)
    draft = Draft(maker)
    for part in group:
        if mode is Mode.UPDATE or chance.random() < 0.8:
            draft.add_key(part)
    for at in range(chance.randrange(0 if draft.items else 1, 4)):
        draft.add_aggregate(f"a{at}")
    having = draft.having() if mode is not Mode.UPDATE and chance.random() < 0.4 else None
    where_text, where = maker.where()
    order = [(name, chance.choice(list(Direction))) for name in chance.sample(list(draft.items), min(2, len(draft.items)))]
    order = order if mode is Mode.COMPLETE and chance.random() < 0.7 else []
    text = [
        f"{stream_text(delay)}SELECT {', '.join(draft.texts)} FROM s{where_text}",
        f" GROUP BY {', '.join(map(group_text, group))}" if group else "",
        f" HAVING {having.text}" if having else "",
        f" ORDER BY {', '.join(name + ' DESC' * (way is Direction.DESC) for name, way in order)}" if order else "",
        f" OUTPUT {mode.name};",
    ]
    return Query(
        text="".join(text),
        columns=COLUMNS,
        items=draft.items,
        mode=mode,
        event="ts" if delay else None,
        delay=delay * SECOND if delay else None,
        where=where,
        group=group,
        aggregates=tuple(draft.aggregates),
        having=having.value if having else None,
        order=tuple(order),
    )


def made_rowwise(chance, distinct=()):
    """Items of each row that WHERE leaves. With columns of DEDUPLICATE, of the first row of each key; an item may overflow also on a row that is
    late or a repeat."""
    mode, delay = chance.choice([Mode.APPEND, Mode.UPDATE]), chance.choice([None, 1, 5, 10, 30])
    maker = Maker(chance, COLUMNS)
    draft = Draft(maker)
    for name in chance.sample(list(COLUMNS), chance.randrange(3)):
        draft.add(name, named(name, COLUMNS[name]))
    for at in range(chance.randrange(0 if draft.items else 1, 5)):
        draft.add(f"a{at}", maker.term(height=3))
    where_text, where = maker.where()
    repeats = f" DEDUPLICATE BY {', '.join(distinct)}" if distinct else ""
    return Query(
        text=f"{stream_text(delay)}SELECT {', '.join(draft.texts)} FROM s{where_text}{repeats} OUTPUT {mode.name};",
        columns=COLUMNS,
        items=draft.items,
        mode=mode,
        event="ts" if delay else None,
        delay=delay * SECOND if delay else None,
        where=where,
        distinct=distinct or None,
    )


def made_distinct(chance):
    return made_rowwise(chance, tuple(chance.sample(list(COLUMNS), chance.randrange(1, 4))))


def shifted_time(by):
    """The left row's time, and a span after it or before."""
    left = named("l.ts", Kind.TIMESTAMP)
    return computed(left, "-" if by < 0 else "+", span(abs(by), "seconds")) if by else left


def made_joined(chance):
    """Rows of two streams. ON has up to two equalities, a bound or none, and up to two conditions more, which may overflow."""
    outer, delays = chance.choice(list(Outer)), [chance.choice([None, 5, 10, 30]) for _ in "lr"]
    bound = (-chance.choice([0, 0, 5, 20]), chance.choice([0, 5, 10, 40])) if None not in delays and chance.random() < 0.8 else None
    if outer is not Outer.NEITHER and not bound:
        return made_joined(chance)
    maker = Maker(chance, {f"{stream}.{name}": kind for stream in "lr" for name, kind in COLUMNS.items()})
    keys = chance.sample(["k", "b", "v", "u"], chance.choice([0, 1, 1, 2]))
    rest = [maker.rest() for _ in range(chance.choice([0, 0, 1, 2]))]
    conditions = [compared(named(f"l.{name}", COLUMNS[name]), "=", named(f"r.{name}", COLUMNS[name])) for name in keys]
    if bound:
        conditions.append(between(named("r.ts", Kind.TIMESTAMP), *map(shifted_time, bound)))
    conditions += rest
    if not conditions:
        return made_joined(chance)
    draft = Draft(maker)
    for at in range(chance.randrange(1, 5)):
        draft.add(f"a{at}", maker.term())
    where_text, where = maker.where()
    words = {Outer.NEITHER: "JOIN", Outer.LEFT: "LEFT JOIN", Outer.RIGHT: "RIGHT JOIN"}[outer]
    text = [
        *map(stream_text, delays, "lr"),
        f"SELECT {', '.join(draft.texts)} FROM l {words} r ON {functools.reduce(both, conditions).text}{where_text} OUTPUT APPEND;",
    ]
    events = ["ts" if delay else None for delay in delays]
    spans = [delay * SECOND if delay else None for delay in delays]
    near = bound and tuple(by * SECOND for by in bound)
    pairs = tuple((name, name) for name in keys)
    return Query(
        text="".join(text),
        columns=COLUMNS,
        items=draft.items,
        mode=Mode.APPEND,
        stream="l",
        event=events[0],
        delay=spans[0],
        join=Join("r", COLUMNS, pairs, outer, events[1], spans[1], near, tuple(term.value for term in rest)),
        where=where,
    )


MAKERS = {"plain": made_rowwise, "group": made_grouped, "dedup": made_distinct, "join": made_joined}


# ---- logs


def made_line(chance, number, wild):
    """A line whose time is up to 15 seconds from its neighbours'; of a wild log some are bad or great."""
    if chance.random() < 0.04:
        return b" \t"
    if wild and chance.random() < 0.004:
        return chance.choice(ODD_LINES)
    at = START + datetime.timedelta(seconds=number // 2 + chance.randrange(-15, 15), milliseconds=chance.choice([0, 0, 0, 500]))
    v = chance.choice([None, *range(-3, 20)])
    if wild and chance.random() < 0.01:
        v = chance.choice([MOST, -MOST - 1, MOST // 2, -MOST // 3])
    u = chance.choice([None, model.stamp(START + chance.randrange(40) * SECOND)])
    line = {"ts": model.stamp(at), "k": chance.choice(TEXTS), "v": v, "b": chance.choice([True, False, None]), "u": u}
    present = {name: value for name, value in line.items() if value is not None or chance.random() < 0.5}
    return json.dumps(present, ensure_ascii=chance.random() < 0.5).encode()


def padded_line(chance, line, size, wild):
    """A line of a long log that so far has so many bytes: a tenth are padded with blanks, which change nothing, but make a wild one too long now and
    then. Of some the line feed ends the block that is begun, or begins the next one."""
    if chance.random() < 0.9:
        return line
    room = BLOCK - size % BLOCK
    lengths = [chance.randrange(60_000) for _ in range(6)] + [BLOCK - 1, BLOCK, room - 1, room, room - 1, room, model.LONGEST]
    if wild and chance.random() < 0.05:
        lengths = [model.LONGEST + 1]
    return line.ljust(chance.choice(lengths))


# ---- runs


def wanted_files(epochs):
    """Each file that a run leaves that was let end, and the number of commits. Of an epoch that stops by a key the partitions in which
    no key overflows have written what changed. Of the state there is what upkeep leaves of the committed epochs."""
    files, commits = {"metadata": epochs.meta()}, 0
    for e in range(len(epochs.cuts)):
        if epochs.fault(e):
            files[f"offsets/{e}"] = epochs.plan(e)
            if not epochs.line_fault(e):
                keys = [key for key, row in epochs.shown(e) if isinstance(row, Overflow)]
                stopped = {model.partition_of(model.key_bytes(key), epochs.partitions) for key in keys}
                files |= {f"state/{p}/{e}.delta": delta for p, delta in enumerate(epochs.deltas(e)) if p not in stopped}
            break
        files |= epochs.files(e)
        commits += 1
    deltas, snapshots = model.state_at_end(commits)
    left = {f"{version}.{kind}" for kind, versions in (("delta", [*deltas, commits]), ("snapshot", snapshots)) for version in versions}
    return {name: content for name, content in files.items() if not name.startswith("state/") or name.rsplit("/", 1)[1] in left}, commits


def found_files(root):
    """The files of a checkpoint, with those that are left aside, which there are none of once a run has ended."""
    return {str(path.relative_to(root)): path.read_bytes() for path in root.rglob("*") if path.is_file()}


# ---- what is told of a query and its checkpoint


def table_of(epochs, commits):
    """What `show` writes of the sink files of so many epochs."""
    query = epochs.query
    if query.group is None or query.mode is Mode.APPEND:
        return b"".join(map(epochs.sink, range(commits)))
    if query.mode is Mode.COMPLETE:
        return epochs.sink(commits - 1) if commits else b""
    last = {key: row for e in range(commits) for key, row in epochs.shown(e)}
    return "".join(model.row_text(query.items, row) for row in sorted(last.values(), key=model.row_order)).encode()


def status_of(epochs, commits):
    """What `status` writes of so many commits."""
    planned = len(epochs.cuts)
    lines = [f"partitions {epochs.partitions}", f"planned {planned}", f"committed {commits}"]
    lines.append(f"watermark {model.stamp(epochs.watermark(planned - 1))}")
    lines += [f"part {' '.join(map(str, epochs.place(at)))} {end}" for at, end in enumerate(epochs.begin(planned))]
    return "".join(line + "\n" for line in lines).encode()


def late_by(query):
    """The time of the query's keys or rows, as `explain` calls it."""
    if query.join is not None:
        return "both" if query.join.bound else "none"
    parts = query.group or query.distinct or ()
    if any(isinstance(part, Window) and part.column == query.event for part in parts):
        return "window_end"
    return query.event if query.event in parts else "none"


def explained(query):
    """What `explain` writes."""
    shape = "Join" if query.join else "Dedup" if query.distinct else "Plain" if query.group is None else "Group"
    closes = "yes" if query.closes() else "no"
    return f"{query.text}\nshape {shape} mode {query.mode.name.title()} late {late_by(query)} closes {closes}\n".encode()


@dataclasses.dataclass
class Trial:
    """One query with its logs, run after run."""

    folder: pathlib.Path
    chance: random.Random
    shape: str

    def __post_init__(self):
        self.query = MAKERS[self.shape](self.chance)
        counts = [0 if self.chance.random() < 0.05 else self.chance.randrange(1, 4) for _ in self.query.sources()]
        self.logs, self.lefts = [[] for _ in range(sum(counts))], counts[0]
        self.partitions = self.chance.choice([1, 1, 1, 2, 2, 3, 3, 5, 5, 12])
        self.wild, self.long = self.chance.random() < 0.4, self.chance.random() < 0.05
        self.cuts, self.commits = [], 0
        (self.folder / "q.sql").write_text(self.query.text)

    def grow(self):
        for part, log in enumerate(self.logs):
            stream, number = (0, part) if part < self.lefts else (1, part - self.lefts)
            path = self.folder / f"{self.query.sources()[stream].stream}.{number}.jsonl"
            with path.open("ab") as file:
                for _ in range(self.chance.randrange(40)):
                    line = made_line(self.chance, len(log), self.wild)
                    log.append(padded_line(self.chance, line, file.tell(), self.wild) if self.long else line)
                    file.write(log[-1] + b"\n")

    def run(self):
        """One run, judged. Its epochs."""
        most = self.chance.choice([None, 1, 3, 7, 20])
        self.cuts = model.cuts_of_run(self.query, [self.logs], most, self.cuts, self.lefts)
        epochs = Epochs(self.query, self.logs, self.cuts, self.partitions, self.lefts)
        done = subprocess.run([SSQ, "run", "q.sql", *self.options(most)], cwd=self.folder, stdout=subprocess.PIPE, stderr=subprocess.STDOUT)
        output = epochs.output(self.commits)
        told = "".join(f"{line}\n" for line in output)
        assert done.stdout.decode() == told, f"told\n{done.stdout.decode()}\nand not\n{told}"
        status = 0 if output[-1].startswith("done") else int(output[-1].split()[1])
        assert done.returncode == status, f"status {done.returncode}, and not {status}"
        wanted, self.commits = wanted_files(epochs)
        self.judge_files(wanted)
        self.judge_answers(table_of(epochs, self.commits), status_of(epochs, self.commits))
        self.judge_files(wanted)
        return epochs

    def options(self, most):
        """Partitions are asked for where the run would take others without."""
        options = ["--rounds", self.chance.choice("12")] + (["--max-lines", str(most)] if most else [])
        kept = self.partitions if (self.folder / "checkpoint").exists() else 1
        return options if kept == self.partitions and self.chance.random() < 0.5 else options + ["--partitions", str(self.partitions)]

    def judge_files(self, wanted):
        found = found_files(self.folder / "checkpoint")
        for name in sorted(wanted.keys() | found.keys()):
            assert found.get(name) == wanted.get(name), f"{name} holds\n{found.get(name)}\nand not\n{wanted.get(name)}"

    def judge_answers(self, table=b"", status=b"no checkpoint\n"):
        """What is told between runs; before the first there is no checkpoint."""
        for verb, wanted in ("show", table), ("status", status), ("explain", explained(self.query)):
            done = subprocess.run([SSQ, verb, "q.sql"], cwd=self.folder, stdout=subprocess.PIPE, stderr=subprocess.STDOUT)
            assert done.returncode == 0, f"{verb} ends with status {done.returncode}"
            assert done.stdout == wanted, f"{verb} tells\n{done.stdout.decode()}\nand not\n{wanted.decode()}"


def trial(folder, chance, shape):
    """What came of a query, in numbers."""
    own = Trial(folder, chance, shape)
    own.judge_answers()
    assert not (folder / "checkpoint").exists(), "a checkpoint is there before the first run"
    for _ in range(chance.randrange(1, 4)):
        own.grow()
        epochs = own.run()
    done = range(own.commits)
    late = sum(len(epochs.fed(e)) - len(epochs.on_time(e)) for e in done)
    closing = sum(epochs.begin(e) == epochs.cuts[e] for e in done)
    blocks = sum(sum(map(len, log)) // BLOCK for log in own.logs)
    return collections.Counter(epochs=own.commits, late=late, closing=closing, stopped=len(own.cuts) - own.commits, blocks=blocks)


def main():
    words = argparse.ArgumentParser(description="Runs random queries, and judges what they leave.")
    words.add_argument("queries", nargs="?", type=int, default=100)
    words.add_argument("seed", nargs="?", type=int, default=int(time.time()))
    words.add_argument("--shape", choices=list(MAKERS), default="group")
    ask = words.parse_args()
    found = collections.Counter()
    for seed in range(ask.seed, ask.seed + ask.queries):
        folder = pathlib.Path(tempfile.mkdtemp(prefix="ssq-queries-"))
        try:
            found += trial(folder, random.Random(seed), ask.shape)
        except AssertionError as wrong:
            sys.exit(f"seed {seed}: {wrong}; what is left is in {folder}")
        shutil.rmtree(folder)
    print(f"{ask.queries} queries from seed {ask.seed} on, {found['epochs']} epochs, each file and answer right; {found['blocks']} full blocks of logs,")
    print(f"{found['late']} rows late, {found['closing']} epochs without lines, {found['stopped']} queries stopped by a line or a key")


if __name__ == "__main__":
    main()
