#!/usr/bin/env python3
"""Tests the model by which the engine is judged (tests/model.py).

    python3 tests/test_model.py

The values that are expected were worked by hand from the rules, or come from elsewhere (FNV-1a's own test values); none of them was
computed by the model. So were the sink files of the examples, which are compared too.
"""
import dataclasses
import datetime
import pathlib
import unittest

from model import (
    Aggregate,
    BadLine,
    Direction,
    Epochs,
    Function,
    Join,
    Kind,
    Mode,
    Outer,
    Overflow,
    Query,
    Window,
    compare,
    compute,
    conjunction,
    cuts_of_run,
    disjunction,
    key_bytes,
    partition_of,
    read_line,
    row_order,
    state_at_end,
    time_of,
    windows_of,
)

ROOT = pathlib.Path(__file__).resolve().parent.parent
LEAST, MOST = -(2**63), 2**63 - 1
COUNT = Aggregate(Function.COUNT)


def total(column, function=Function.SUM):
    return Aggregate(function, lambda row: row[column])


def minutes(number):
    return datetime.timedelta(minutes=number)


def at(time, **more):
    """A line whose event time is this time of the first day of 2024."""
    values = "".join(f',"{name}":{value}' for name, value in more.items())
    return f'{{"ts":"2024-01-01T{time}:00Z"{values}}}'.encode()


def lines(*texts):
    return [text.encode() for text in texts]


def run(query, *parts, most=None, partitions=1, lefts=None):
    """The epochs after one round over these parts."""
    return Epochs(query, parts, cuts_of_run(query, [parts], most, lefts=lefts), partitions, lefts)


FILTER = Query(
    text="CREATE STREAM s (id BIGINT, v BIGINT) FROM 's'; SELECT id, v + 1 AS w FROM s WHERE v > 10 OUTPUT APPEND;",
    columns={"id": Kind.BIGINT, "v": Kind.BIGINT},
    where=lambda row: compare(row["v"], ">", 10),
    items={"id": lambda row: row["id"], "w": lambda row: compute(row["v"], "+", 1)},
    mode=Mode.APPEND,
)


def counted(size, slide=None):
    """The rows of each window of so many minutes, in Append."""
    spans = f"'{size} minutes'" + (f", '{slide} minutes'" if slide else "")
    return Query(
        text="CREATE STREAM s (ts TIMESTAMP) FROM 's' WATERMARK FOR ts DELAY '10 minutes'; "
        f"SELECT window_start, COUNT(*) AS n FROM s GROUP BY WINDOW(ts, {spans}) OUTPUT APPEND;",
        columns={"ts": Kind.TIMESTAMP},
        event="ts",
        delay=minutes(10),
        group=(Window("ts", minutes(size), minutes(slide or size)),),
        aggregates=(COUNT,),
        items={"window_start": lambda group: group["window_start"], "n": lambda group: group[0]},
        mode=Mode.APPEND,
    )


def summed(where):
    """The sum of each key, in Update."""
    return Query(
        text="CREATE STREAM s (k STRING, v BIGINT) FROM 's'; "
        f"SELECT k, SUM(v) AS t FROM s {'WHERE v > 0 ' if where else ''}GROUP BY k OUTPUT UPDATE;",
        columns={"k": Kind.STRING, "v": Kind.BIGINT},
        where=(lambda row: compare(row["v"], ">", 0)) if where else None,
        group=("k",),
        aggregates=(total("v"),),
        items={"k": lambda group: group["k"], "t": lambda group: group[0]},
        mode=Mode.UPDATE,
    )


def ordered(name, direction):
    """The rows of each key, in Complete."""
    return Query(
        text="CREATE STREAM s (k STRING) FROM 's'; "
        f"SELECT k, COUNT(*) AS n FROM s GROUP BY k ORDER BY {name}{' DESC' if direction is Direction.DESC else ''} OUTPUT COMPLETE;",
        columns={"k": Kind.STRING},
        group=("k",),
        aggregates=(COUNT,),
        items={"k": lambda group: group["k"], "n": lambda group: group[0]},
        order=((name, direction),),
        mode=Mode.COMPLETE,
    )


def distinct(*columns, **more):
    """The rows without repeats in these columns, in Append."""
    return Query(
        text="CREATE STREAM s (id BIGINT, ts TIMESTAMP, src STRING) FROM 's' WATERMARK FOR ts DELAY '10 minutes'; "
        f"SELECT id, src FROM s DEDUPLICATE BY {', '.join(columns)} OUTPUT APPEND;",
        columns={"id": Kind.BIGINT, "ts": Kind.TIMESTAMP, "src": Kind.STRING},
        event="ts",
        delay=minutes(10),
        distinct=columns,
        items={"id": lambda row: row["id"], "src": lambda row: row["src"]},
        mode=Mode.APPEND,
        **more,
    )


VISITS = Query(
    text="CREATE STREAM visits (ts TIMESTAMP, page STRING) FROM 'visits' WATERMARK FOR ts DELAY '5 minutes'; "
    "SELECT window_start, window_end, page, COUNT(*) AS n FROM visits GROUP BY WINDOW(ts, '10 minutes'), page OUTPUT APPEND;",
    columns={"ts": Kind.TIMESTAMP, "page": Kind.STRING},
    event="ts",
    delay=minutes(5),
    group=(Window("ts", minutes(10), minutes(10)), "page"),
    aggregates=(COUNT,),
    items={
        "window_start": lambda group: group["window_start"],
        "window_end": lambda group: group["window_end"],
        "page": lambda group: group["page"],
        "n": lambda group: group[0],
    },
    mode=Mode.APPEND,
)
SALES = Query(
    text="CREATE STREAM sales (shop STRING, cents BIGINT) FROM 'sales'; "
    "SELECT shop, COUNT(*) AS n, SUM(cents) AS total FROM sales WHERE cents <> 0 GROUP BY shop OUTPUT UPDATE;",
    columns={"shop": Kind.STRING, "cents": Kind.BIGINT},
    where=lambda row: compare(row["cents"], "<>", 0),
    group=("shop",),
    aggregates=(COUNT, total("cents")),
    items={"shop": lambda group: group["shop"], "n": lambda group: group[0], "total": lambda group: group[1]},
    mode=Mode.UPDATE,
)
GAMES = Query(
    text="CREATE STREAM games (player STRING, points BIGINT) FROM 'games'; "
    "SELECT player, SUM(points) AS total, MAX(points) AS best FROM games GROUP BY player HAVING COUNT(*) > 1 "
    "ORDER BY total DESC, best DESC OUTPUT COMPLETE;",
    columns={"player": Kind.STRING, "points": Kind.BIGINT},
    group=("player",),
    aggregates=(total("points"), total("points", Function.MAX), COUNT),
    having=lambda group: compare(group[2], ">", 1),
    items={"player": lambda group: group["player"], "total": lambda group: group[0], "best": lambda group: group[1]},
    order=(("total", Direction.DESC), ("best", Direction.DESC)),
    mode=Mode.COMPLETE,
)


PAYMENTS = Query(
    text="CREATE STREAM payments (ts TIMESTAMP, id BIGINT, cents BIGINT) FROM 'payments' WATERMARK FOR ts DELAY '5 minutes'; "
    "SELECT id, ts, cents FROM payments WHERE cents > 0 DEDUPLICATE BY id, ts OUTPUT APPEND;",
    columns={"ts": Kind.TIMESTAMP, "id": Kind.BIGINT, "cents": Kind.BIGINT},
    event="ts",
    delay=minutes(5),
    where=lambda row: compare(row["cents"], ">", 0),
    distinct=("id", "ts"),
    items={"id": lambda row: row["id"], "ts": lambda row: row["ts"], "cents": lambda row: row["cents"]},
    mode=Mode.APPEND,
)
CLICKS = Query(
    text="CREATE STREAM impressions (ts TIMESTAMP, ad BIGINT, page STRING) FROM 'impressions' WATERMARK FOR ts DELAY '10 minutes'; "
    "CREATE STREAM clicks (ts TIMESTAMP, ad BIGINT, visitor STRING) FROM 'clicks' WATERMARK FOR ts DELAY '5 minutes'; "
    "SELECT impressions.ad AS ad, page, visitor, impressions.ts AS shown, clicks.ts AS clicked FROM impressions JOIN clicks "
    "ON impressions.ad = clicks.ad AND clicks.ts BETWEEN impressions.ts AND impressions.ts + INTERVAL '1 hour' OUTPUT APPEND;",
    columns={"ts": Kind.TIMESTAMP, "ad": Kind.BIGINT, "page": Kind.STRING},
    stream="impressions",
    event="ts",
    delay=minutes(10),
    join=Join(
        "clicks",
        {"ts": Kind.TIMESTAMP, "ad": Kind.BIGINT, "visitor": Kind.STRING},
        (("ad", "ad"),),
        Outer.NEITHER,
        "ts",
        minutes(5),
        (minutes(0), minutes(60)),
    ),
    items={
        "ad": lambda row: row["impressions.ad"],
        "page": lambda row: row["impressions.page"],
        "visitor": lambda row: row["clicks.visitor"],
        "shown": lambda row: row["impressions.ts"],
        "clicked": lambda row: row["clicks.ts"],
    },
    mode=Mode.APPEND,
)
UNPAID = Query(
    text="CREATE STREAM orders (ts TIMESTAMP, id BIGINT, cents BIGINT) FROM 'orders' WATERMARK FOR ts DELAY '5 minutes'; "
    "CREATE STREAM payments (ts TIMESTAMP, id BIGINT) FROM 'payments' WATERMARK FOR ts DELAY '5 minutes'; "
    "SELECT orders.id AS id, cents, payments.ts AS paid FROM orders LEFT JOIN payments "
    "ON orders.id = payments.id AND payments.ts BETWEEN orders.ts AND orders.ts + INTERVAL '30 minutes' WHERE payments.ts IS NULL OUTPUT APPEND;",
    columns={"ts": Kind.TIMESTAMP, "id": Kind.BIGINT, "cents": Kind.BIGINT},
    stream="orders",
    event="ts",
    delay=minutes(5),
    join=Join(
        "payments",
        {"ts": Kind.TIMESTAMP, "id": Kind.BIGINT},
        (("id", "id"),),
        Outer.LEFT,
        "ts",
        minutes(5),
        (minutes(0), minutes(30)),
    ),
    where=lambda row: row["payments.ts"] is None,
    items={"id": lambda row: row["orders.id"], "cents": lambda row: row["orders.cents"], "paid": lambda row: row["payments.ts"]},
    mode=Mode.APPEND,
)
# Each folder of examples/: its query, the lines of a part that its epochs take, and its streams.
EXAMPLES = {
    "clicks": (CLICKS, 2, "impressions", "clicks"),
    "dedup": (PAYMENTS, 4, "payments"),
    "first": (FILTER, 2, "s"),
    "leaders": (GAMES, 6, "games"),
    "totals": (SALES, 4, "sales"),
    "unpaid": (UNPAID, 2, "orders", "payments"),
    "windows": (VISITS, 4, "visits"),
}


class Plain(unittest.TestCase):
    def test_rows_are_filtered(self):
        epochs = run(FILTER, lines('{"id":1,"v":11}', '{"id":2,"v":5}', '{"id":3,"v":20}'), most=2)
        self.assertEqual(
            epochs.output(),
            ["epoch 0 lines 2 watermark none rows 1", "epoch 1 lines 1 watermark none rows 1", "done epochs 2"],
        )
        self.assertEqual(epochs.meta(), f"v1\npartitions 1\nparts 0 1\nquery 104\n{FILTER.text}\nend\n".encode())
        self.assertEqual(
            epochs.files(0),
            {
                "offsets/0": b"v1\nplan 0\nwatermark none\npart 0 0 2\nend\n",
                "commits/0": b"v1\ncommit 0\nend\n",
                "sink/0": b'{"id":1,"w":12}\n',
            },
        )
        self.assertEqual(epochs.sink(1), b'{"id":3,"w":21}\n')

    def test_an_epoch_that_is_planned_keeps_its_cut(self):
        log = lines('{"id":1,"v":11}', '{"id":2,"v":5}', '{"id":3,"v":20}', '{"id":4,"v":30}')
        before = cuts_of_run(FILTER, [[log[:3]]], 2)
        epochs = Epochs(FILTER, [log], cuts_of_run(FILTER, [[log]], None, before))
        self.assertEqual(
            epochs.output(1),
            ["epoch 1 lines 1 watermark none rows 1", "epoch 2 lines 1 watermark none rows 1", "done epochs 3"],
        )
        self.assertEqual(epochs.sink(1), b'{"id":3,"w":21}\n')
        self.assertEqual(epochs.sink(2), b'{"id":4,"w":31}\n')

    def test_the_fault_is_the_first_line_in_the_order_of_parts(self):
        first = lines('{"id":1,"v":11}', '{"id":2,"v":12}', '{"id":3,"v":9223372036854775807}')
        second = [b'{"id":4,"v":1}'] * 5 + [b"{"]
        epochs = run(FILTER, first, second)
        self.assertEqual(epochs.output(), ["stopped 5 Overflow s 0 2"])
        self.assertEqual(epochs.plan(0), b"v1\nplan 0\nwatermark none\npart 0 0 3\npart 0 1 6\nend\n")
        again = cuts_of_run(FILTER, [[first, second]], None, epochs.cuts)
        self.assertEqual(again, epochs.cuts)

    def test_blanks_are_no_row_and_a_bad_line_stops(self):
        log = lines("", " \t ", '{"id":1,"v":11,"x":[1.5]}', '{"id":"7","v":1}')
        epochs = run(FILTER, log, most=3)
        self.assertEqual(epochs.output(), ["epoch 0 lines 3 watermark none rows 1", "stopped 4 BadLine s 0 3 WrongType id"])


class Append(unittest.TestCase):
    LATER = "epoch 2 lines 1 watermark 2024-01-01T12:06:00Z rows 1"

    def test_a_window_closes_and_a_late_row_is_left_out(self):
        for partitions in 1, 3:
            epochs = run(counted(5), [at("12:03"), at("12:16"), at("12:02")], [at("12:04")], most=1, partitions=partitions)
            self.assertEqual(
                epochs.output(),
                [
                    "epoch 0 lines 2 watermark none rows 0",
                    "epoch 1 lines 1 watermark 2024-01-01T11:54:00Z rows 0",
                    "epoch 2 lines 1 watermark 2024-01-01T12:06:00Z rows 1",
                    "done epochs 3",
                ],
            )
            self.assertEqual(epochs.sink(2), b'{"window_start":"2024-01-01T12:00:00Z","n":2}\n')
        self.assertEqual(
            epochs.plan(2), b"v1\nplan 2\nwatermark 2024-01-01T12:06:00Z\npart 0 0 3\npart 0 1 1\nend\n"
        )
        self.assertEqual(epochs.commit(2), b"v1\ncommit 2\nseen 0 2024-01-01T12:16:00Z\nend\n")

    def test_a_window_is_closed_at_its_end(self):
        epochs = run(counted(5), [at("12:03"), at("12:15"), at("12:02")], [at("12:04")], most=1)
        self.assertEqual(epochs.output()[2], "epoch 2 lines 1 watermark 2024-01-01T12:05:00Z rows 1")
        self.assertEqual(epochs.sink(2), b'{"window_start":"2024-01-01T12:00:00Z","n":2}\n')

    def test_an_epoch_without_lines_closes(self):
        log = [at("12:03"), at("12:16")]
        epochs = run(counted(5), log, most=1)
        self.assertEqual(
            epochs.output(),
            [
                "epoch 0 lines 1 watermark none rows 0",
                "epoch 1 lines 1 watermark 2024-01-01T11:53:00Z rows 0",
                "epoch 2 lines 0 watermark 2024-01-01T12:06:00Z rows 1",
                "done epochs 3",
            ],
        )
        self.assertEqual(epochs.sink(2), b'{"window_start":"2024-01-01T12:00:00Z","n":1}\n')
        again = Epochs(counted(5), [log], cuts_of_run(counted(5), [[log]], 1, epochs.cuts))
        self.assertEqual(again.output(3), ["done epochs 3"])

    def test_a_row_is_late_for_one_of_its_windows(self):
        epochs = run(counted(10, 5), [at("12:22"), at("12:07"), at("12:30")], most=1)
        self.assertEqual(
            epochs.output(),
            [
                "epoch 0 lines 1 watermark none rows 0",
                "epoch 1 lines 1 watermark 2024-01-01T12:12:00Z rows 0",
                "epoch 2 lines 1 watermark 2024-01-01T12:12:00Z rows 0",
                "epoch 3 lines 0 watermark 2024-01-01T12:20:00Z rows 1",
                "done epochs 4",
            ],
        )
        self.assertEqual([epochs.sink(e) for e in range(3)], [b"", b"", b""])
        self.assertEqual(epochs.sink(3), b'{"window_start":"2024-01-01T12:05:00Z","n":1}\n')

    def test_a_sum_has_to_fit_only_where_it_is_shown(self):
        query = Query(
            text="",
            columns={"ts": Kind.TIMESTAMP, "v": Kind.BIGINT},
            event="ts",
            delay=minutes(10),
            group=(Window("ts", minutes(5), minutes(5)),),
            aggregates=(total("v"),),
            items={"window_start": lambda group: group["window_start"], "t": lambda group: group[0]},
            mode=Mode.APPEND,
        )
        log = [at("12:01", v=MOST), at("12:02", v=1), at("12:03", v=-5), at("12:20", v=0)]
        epochs = run(query, log, most=1)
        self.assertEqual(epochs.output()[-2:], ["epoch 4 lines 0 watermark 2024-01-01T12:10:00Z rows 1", "done epochs 5"])
        self.assertEqual(epochs.sink(4), b'{"window_start":"2024-01-01T12:00:00Z","t":9223372036854775803}\n')

    def test_what_is_closed_is_forgotten(self):
        epochs = run(counted(5), [at("12:03"), at("12:16")], most=1)
        sizes = [[len(state) for state in epochs.state(e)] for e in range(3)]
        self.assertEqual(sizes, [[1], [2], [1]])
        key = "03" + (2**63 + 1704110400 * 10**6).to_bytes(8, "big").hex()  # 2024-01-01T12:00:00Z
        head = "53535144454c5431" + "00000000" + "00000002" + "0000000000000001"
        self.assertEqual(next(epochs.deltas(2)).hex(), head + "00" + "00000009" + key)


    def test_the_event_time_is_a_key(self):
        query = dataclasses.replace(
            counted(5), group=("ts",), items={"ts": lambda group: group["ts"], "n": lambda group: group[0]}
        )
        epochs = run(query, [at("12:00"), at("12:10"), at("12:00"), at("12:01")], most=1)
        watermarks = [line.split()[5] for line in epochs.output()[:-1]]
        self.assertEqual(watermarks, ["none", "2024-01-01T11:50:00Z"] + ["2024-01-01T12:00:00Z"] * 2)
        self.assertEqual(epochs.sink(2), b'{"ts":"2024-01-01T12:00:00Z","n":1}\n')
        self.assertEqual([epochs.sink(e) for e in (0, 1, 3)], [b""] * 3)
        self.assertEqual(len(epochs.state(3)[0]), 2)

    def test_what_having_hides_is_never_shown(self):
        query = dataclasses.replace(counted(5), having=lambda group: compare(group[0], ">", 1))
        epochs = run(query, [at("12:03"), at("12:06"), at("12:07"), at("12:30")], most=1)
        self.assertEqual(epochs.output()[-2:], ["epoch 4 lines 0 watermark 2024-01-01T12:20:00Z rows 1", "done epochs 5"])
        self.assertEqual(epochs.sink(4), b'{"window_start":"2024-01-01T12:05:00Z","n":2}\n')
        self.assertEqual(epochs.state(4)[0].keys(), {key_bytes([datetime.datetime(2024, 1, 1, 12, 30)])})


class Update(unittest.TestCase):
    def test_a_late_row_changes_nothing(self):
        query = dataclasses.replace(counted(5), mode=Mode.UPDATE)
        epochs = run(query, [at("12:03"), at("12:16"), at("12:02"), at("12:17")], most=1)
        self.assertEqual(
            [epochs.sink(e) for e in range(4)],
            [
                b'{"window_start":"2024-01-01T12:00:00Z","n":1}\n',
                b'{"window_start":"2024-01-01T12:15:00Z","n":1}\n',
                b"",
                b'{"window_start":"2024-01-01T12:15:00Z","n":2}\n',
            ],
        )
        self.assertEqual(epochs.output()[-1], "done epochs 4")

    def test_windows_over_another_column_have_no_time(self):
        window = Window("u", minutes(5), minutes(5))
        columns = {"ts": Kind.TIMESTAMP, "u": Kind.TIMESTAMP}
        query = dataclasses.replace(counted(5), mode=Mode.UPDATE, columns=columns, group=(window,))
        log = [at("12:03", u='"2024-01-01T12:00:00Z"'), at("13:00"), at("13:00", u='"2024-01-01T12:01:00Z"')]
        epochs = run(query, log, most=1)
        self.assertEqual([len(epochs.rows(e)) for e in range(3)], [1, 0, 1])
        self.assertEqual(epochs.sink(2), b'{"window_start":"2024-01-01T12:00:00Z","n":2}\n')

    def test_the_keys_with_new_rows_are_shown(self):
        log = lines('{"k":"a","v":2}', '{"k":"a","v":0}', '{"k":"a","v":3}')
        epochs = run(summed(True), log, most=1)
        self.assertEqual([epochs.sink(e) for e in range(3)], [b'{"k":"a","t":2}\n', b"", b'{"k":"a","t":5}\n'])
        delta = next(epochs.deltas(0))
        self.assertEqual(len(delta), 63)
        self.assertEqual(
            delta.hex(),
            "53535144454c5431" + "00000000" + "00000000" + "0000000000000001"
            "01" + "00000006" + "040000000161" + "00000018" + "0000000000000001" + "00000000000000000000000000000002",
        )
        self.assertEqual(next(epochs.deltas(1)).hex(), "53535144454c5431" + "00000000" + "00000001" + "0000000000000000")
        self.assertEqual(
            next(epochs.snapshots(2)).hex(),
            "535351534e415031" + "00000000" + "00000002" + "0000000000000001"
            "00000006" + "040000000161" + "00000018" + "0000000000000002" + "00000000000000000000000000000005",
        )

    def test_a_key_overflows_where_it_is_shown(self):
        log = lines('{"k":"a","v":9223372036854775807}', '{"k":"a","v":1}', '{"k":"a","v":-5}')
        epochs = run(summed(False), log, most=1)
        self.assertEqual(epochs.output(), ["epoch 0 lines 1 watermark none rows 1", 'stopped 5 Overflow key ["a"]'])
        self.assertEqual(len(epochs.cuts), 2)

    def test_the_least_key_is_the_fault(self):
        log = [f'{{"k":{k},"v":9223372036854775807}}'.encode() for k in ['"b"', "null", '"a"', '"b"', "null", '"a"']]
        self.assertEqual(run(summed(False), log).output(), ["stopped 5 Overflow key [null]"])
        bad = run(summed(False), log + [b"7"])
        self.assertEqual(bad.output(), ["stopped 4 BadLine s 0 6 NotObject"])


class Complete(unittest.TestCase):
    LOG = lines('{"k":"b"}', "{}", '{"k":"a"}', '{"k":null}', '{"k":"b"}')

    def test_order_comes_first(self):
        epochs = run(ordered("n", Direction.DESC), self.LOG)
        self.assertEqual(epochs.sink(0), b'{"k":null,"n":2}\n{"k":"b","n":2}\n{"k":"a","n":1}\n')

    def test_null_comes_last_in_descending_order(self):
        epochs = run(ordered("k", Direction.DESC), self.LOG)
        self.assertEqual(epochs.sink(0), b'{"k":"b","n":2}\n{"k":"a","n":1}\n{"k":null,"n":2}\n')
        self.assertEqual(run(ordered("k", Direction.ASC), self.LOG).sink(0)[:9], b'{"k":null')

    def test_all_keys_are_shown_and_kept(self):
        epochs = run(ordered("k", Direction.ASC), self.LOG, most=2)
        self.assertEqual([len(epochs.rows(e)) for e in range(3)], [2, 3, 3])
        self.assertEqual([len(epochs.state(e)[0]) for e in range(3)], [2, 3, 3])

    def test_nothing_is_late(self):
        query = Query(
            text="",
            columns={"ts": Kind.TIMESTAMP},
            event="ts",
            delay=minutes(10),
            group=(),
            aggregates=(COUNT, total("ts", Function.MIN), total("ts", Function.MAX)),
            having=lambda group: compare(group[0], ">", 1),
            items={"n": lambda group: group[0], "lo": lambda group: group[1], "hi": lambda group: group[2]},
            mode=Mode.COMPLETE,
        )
        epochs = run(query, [at("12:30"), at("13:00"), at("12:00")], most=1)
        self.assertEqual(epochs.sink(0), b"")
        self.assertEqual(epochs.sink(2), b'{"n":3,"lo":"2024-01-01T12:00:00Z","hi":"2024-01-01T13:00:00Z"}\n')
        self.assertEqual(epochs.plan(2), b"v1\nplan 2\nwatermark 2024-01-01T12:50:00Z\npart 0 0 3\nend\n")


class Distinct(unittest.TestCase):
    FIRST = [at("12:00", id=1, src='"a"'), at("12:00", id=1, src='"c"'), at("12:20", id=2, src='"d"'), at("12:00", id=1, src='"f"')]
    SECOND = [at("12:00", id=1, src='"b"')]
    SINKS = [b'{"id":1,"src":"a"}\n', b"", b'{"id":2,"src":"d"}\n', b""]

    def test_repeats_and_late_rows_are_left_out(self):
        for partitions in 1, 3:
            epochs = run(distinct("id", "ts"), self.FIRST, self.SECOND, most=1, partitions=partitions)
            self.assertEqual(
                epochs.output(),
                [
                    "epoch 0 lines 2 watermark none rows 1",
                    "epoch 1 lines 1 watermark 2024-01-01T11:50:00Z rows 0",
                    "epoch 2 lines 1 watermark 2024-01-01T11:50:00Z rows 1",
                    "epoch 3 lines 1 watermark 2024-01-01T12:10:00Z rows 0",
                    "done epochs 4",
                ],
            )
            self.assertEqual([epochs.sink(e) for e in range(4)], self.SINKS)

    def test_keys_are_kept_until_their_time_is_past(self):
        epochs = run(distinct("id", "ts"), self.FIRST, self.SECOND, most=1)
        one = "02" + (2**63 + 1).to_bytes(8, "big").hex() + "03" + (2**63 + 1704110400 * 10**6).to_bytes(8, "big").hex()  # 1, 12:00
        two = "02" + (2**63 + 2).to_bytes(8, "big").hex() + "03" + (2**63 + 1704111600 * 10**6).to_bytes(8, "big").hex()  # 2, 12:20
        entries = ["01" + "00000012" + one + "00000000"], [], ["01" + "00000012" + two + "00000000"], ["00" + "00000012" + one]
        for e, changed in enumerate(entries):
            head = "53535144454c5431" + "00000000" + f"{e:08x}" + f"{len(changed):016x}"
            self.assertEqual(next(epochs.deltas(e)).hex(), head + "".join(changed))

    def test_a_key_without_the_event_time_is_kept_for_good(self):
        epochs = run(distinct("id"), self.FIRST, self.SECOND, most=1)
        self.assertEqual([epochs.sink(e) for e in range(4)], self.SINKS)
        self.assertEqual([len(epochs.state(e)[0]) for e in range(4)], [1, 1, 2, 2])

    def test_a_row_at_the_watermark_is_late(self):
        late = [at("12:20", id=1, src='"a"'), at("12:10", id=2, src='"b"'), at("12:11", id=3, src='"c"')]
        epochs = run(distinct("id", "ts"), late, most=1)
        self.assertEqual([epochs.sink(e) for e in range(3)], [b'{"id":1,"src":"a"}\n', b"", b'{"id":3,"src":"c"}\n'])

    def test_nulls_are_equal_and_a_row_that_where_drops_is_no_first(self):
        log = [at("12:00", src='"a"'), at("12:00", src='"b"'), at("12:00", id=7, src='"c"'), at("12:00", id=7, src='"d"')]
        epochs = run(distinct("id", where=lambda row: compare(row["src"], "<>", "c")), log)
        self.assertEqual(epochs.sink(0), b'{"id":null,"src":"a"}\n{"id":7,"src":"d"}\n')


def paired(outer=Outer.NEITHER, rest=(), where=None):
    """The ids of impressions `l`, with those of clicks `r` of one id within an hour after each."""
    columns = {"ts": Kind.TIMESTAMP, "id": Kind.BIGINT, "v": Kind.BIGINT}
    return Query(
        text="",
        columns=columns,
        stream="l",
        event="ts",
        delay=minutes(10),
        join=Join("r", columns, (("id", "id"),), outer, "ts", minutes(10), (minutes(0), minutes(60)), rest),
        where=where,
        items={"l": lambda row: row["l.id"], "r": lambda row: row["r.id"]},
        mode=Mode.APPEND,
    )


def row_bytes(side, number, epoch, offset):
    """The bytes of a row of part 0 that is kept, with their length."""
    return "0000001a" + side + "02" + (2**63 + number).to_bytes(8, "big").hex() + f"{epoch:08x}" + "00000000" + f"{offset:016x}"


def kept_bytes(seconds, number, met):
    """What is kept of a row: its time, so many seconds after 1970, its id, NULL, and whether it met a partner."""
    return "00000014" + "03" + (2**63 + seconds * 10**6).to_bytes(8, "big").hex() + "02" + (2**63 + number).to_bytes(8, "big").hex() + "00" + met


class Joined(unittest.TestCase):
    LEFT = [at("12:00", id=1), at("12:40", id=2), at("12:45", id=3)]
    RIGHT = [at("12:50", id=9), at("12:55", id=9), at("12:56", id=9), at("13:00", id=1)]

    def test_a_pair_is_shown_with_its_later_row(self):
        for partitions in 1, 3:
            epochs = run(paired(), self.LEFT, self.RIGHT, most=1, partitions=partitions, lefts=1)
            self.assertEqual(
                epochs.output(),
                [
                    "epoch 0 lines 2 watermark none rows 0",
                    "epoch 1 lines 2 watermark 2024-01-01T11:50:00Z rows 0",
                    "epoch 2 lines 2 watermark 2024-01-01T12:30:00Z rows 0",
                    "epoch 3 lines 1 watermark 2024-01-01T12:35:00Z rows 1",
                    "done epochs 4",
                ],
            )
            self.assertEqual(epochs.sink(3), b'{"l":1,"r":1}\n')

    def test_the_records_name_both_streams(self):
        epochs = run(paired(), self.LEFT, self.RIGHT, most=1, lefts=1)
        self.assertEqual(epochs.meta(), b"v1\npartitions 1\nparts 0 1\nparts 1 1\nquery 0\n\nend\n")
        self.assertEqual(epochs.plan(3), b"v1\nplan 3\nwatermark 2024-01-01T12:35:00Z\npart 0 0 3\npart 1 0 4\nend\n")
        self.assertEqual(epochs.commit(3), b"v1\ncommit 3\nseen 0 2024-01-01T12:45:00Z\nseen 1 2024-01-01T13:00:00Z\nend\n")

    def test_rows_are_kept_with_whether_they_met_a_partner(self):
        epochs = run(paired(), self.LEFT, self.RIGHT, most=1, lefts=1)
        first = ["01" + row_bytes("00", 1, 0, 0) + kept_bytes(1704110400, 1, "00"), "01" + row_bytes("01", 9, 0, 0) + kept_bytes(1704113400, 9, "00")]
        last = ["01" + row_bytes("00", 1, 0, 0) + kept_bytes(1704110400, 1, "01"), "01" + row_bytes("01", 1, 3, 3) + kept_bytes(1704114000, 1, "01")]
        for e, changed in (0, first), (3, last):
            self.assertEqual(next(epochs.deltas(e)).hex(), "53535144454c5431" + "00000000" + f"{e:08x}" + f"{2:016x}" + "".join(changed))

    def test_a_left_row_without_a_partner_is_shown_when_its_bound_is_past(self):
        epochs = run(paired(Outer.LEFT), [at("12:00", id=1), at("13:30", id=2)], [at("13:30", id=9)], most=1, lefts=1)
        self.assertEqual([epochs.sink(e) for e in range(3)], [b"", b"", b'{"l":1,"r":null}\n'])
        self.assertEqual(epochs.output(2), ["epoch 2 lines 0 watermark 2024-01-01T13:20:00Z rows 1", "done epochs 3"])
        self.assertEqual([[key[0] for key in sorted(epochs.state(e)[0])] for e in range(3)], [[0, 1], [0, 0, 1], [0, 1]])

    def test_a_right_row_without_a_partner_is_shown_when_its_bound_is_past(self):
        epochs = run(paired(Outer.RIGHT), [at("12:00", id=9), at("13:30", id=9)], [at("12:00", id=1), at("13:30", id=2)], most=1, lefts=1)
        self.assertEqual([epochs.sink(e) for e in range(3)], [b"", b"", b'{"l":null,"r":1}\n'])

    def test_null_is_no_key(self):
        epochs = run(paired(), [at("12:00", id="null")], [at("12:00", id="null")], lefts=1)
        self.assertEqual(epochs.sink(0), b"")

    def test_a_partner_that_where_drops_is_a_partner(self):
        query = paired(Outer.LEFT, where=lambda row: compare(row["r.v"], ">", 1))
        epochs = run(query, [at("12:00", id=1), at("14:00", id=2)], [at("12:30", id=1, v=1), at("14:00", id=3)], most=1, lefts=1)
        self.assertEqual([epochs.sink(e) for e in range(3)], [b"", b"", b""])

    def test_a_pair_whose_on_overflows_is_a_fault(self):
        query = paired(rest=(lambda row: compare(compute(row["l.v"], "+", row["r.v"]), ">", 0),))
        left = [at("12:00", id=2, v=MOST), at("12:00", id=1, v=MOST)]
        self.assertEqual(run(query, left, [at("12:00", id=1, v=1), at("12:00", id=2, v=1)], lefts=1).fault(0), "stopped 5 Overflow key [1]")
        self.assertEqual(run(query, left, [at("12:00", id=1, v=-1)], lefts=1).sink(0), b'{"l":1,"r":1}\n')


class Examples(unittest.TestCase):
    def judge(self, name, query, most, *streams):
        folder = ROOT / "examples" / name
        logs = [folder / f"{stream}.0.jsonl" for stream in streams]
        self.assertEqual((folder / "query.sql").read_text().split(), query.text.split())
        self.assertEqual(sorted(folder.glob("*.jsonl")), sorted(logs))
        words = (folder / "words").read_text().split()
        self.assertEqual(words[words.index("--max-lines") + 1], str(most))
        epochs = run(query, *(log.read_bytes().split(b"\n")[:-1] for log in logs), most=most, lefts=1)
        kept = {int(path.name): path.read_bytes() for path in (folder / "sink").iterdir()}
        self.assertEqual({e: epochs.sink(e) for e in range(len(epochs.cuts))}, kept)

    def test_none_is_left_out(self):
        folders = {folder.name for folder in (ROOT / "examples").iterdir() if folder.is_dir()}
        self.assertEqual(EXAMPLES.keys(), folders)

    def test_each_has_these_sink_files(self):
        for name, example in EXAMPLES.items():
            with self.subTest(name):
                self.judge(name, *example)


class State(unittest.TestCase):
    def test_old_files_go(self):
        self.assertEqual(state_at_end(31), (list(range(10, 31)), [9, 19, 29]))
        self.assertEqual(state_at_end(60), (list(range(40, 60)), [39, 49, 59]))
        self.assertEqual(state_at_end(9), (list(range(9)), []))

    def test_keys_have_bytes(self):
        self.assertEqual(key_bytes([1, None, "a"]).hex(), "02" + "8000000000000001" + "00" + "04" + "00000001" + "61")
        self.assertEqual(key_bytes([True, False]).hex(), "01010100")
        self.assertEqual(key_bytes([LEAST, -1]).hex(), "02" + "0000000000000000" + "02" + "7fffffffffffffff")

    def test_keys_have_places(self):
        found = [partition_of(key, count) for key, count in [(b"", 64), (b"a", 64), (b"foobar", 64), (b"a", 1)]]
        self.assertEqual(found, [37, 12, 40, 0])
        self.assertEqual(partition_of(b"foobar", 2**64), 0x85944171F73967E8)


class Values(unittest.TestCase):
    def test_windows_contain_their_time(self):
        epoch, second = datetime.datetime(1970, 1, 1), datetime.timedelta(seconds=1)
        cases = [
            ((420, 600, 300), [0, 300]),
            ((-1e-6, 300, 300), [-300]),
            ((0, 600, 180), [-540, -360, -180, 0]),
        ]
        for (time, size, slide), starts in cases:
            found = windows_of(epoch + time * second, size * second, slide * second)
            self.assertEqual(found, [epoch + start * second for start in starts])

    def test_times_are_read(self):
        self.assertEqual(time_of("2024-01-01T00:00:00Z"), datetime.datetime(2024, 1, 1))
        self.assertEqual(time_of("1970-01-01T00:00:00.5Z"), datetime.datetime(1970, 1, 1, microsecond=500000))
        for text in "2024-02-30T00:00:00Z", "2024-01-01T24:00:00Z", "2024-01-01T00:00:60Z", "0999-01-01T00:00:00Z", "2024-01-01T00:00:00":
            self.assertIsNone(time_of(text), text)

    def test_numbers_are_computed(self):
        self.assertEqual([compute(-7, "DIV", 2), compute(-7, "%", 2), compute(LEAST, "%", -1)], [-3, -1, 0])
        self.assertIsNone(compute(None, "+", 1))
        for left, sign, right in (MOST, "+", 1), (LEAST, "-", 1), (2**62, "*", 2), (LEAST, "DIV", -1):
            self.assertRaises(Overflow, compute, left, sign, right)

    def test_logic_is_three_valued(self):
        overflows = lambda: compute(MOST, "+", 1)
        self.assertIs(conjunction(False, overflows), False)
        self.assertIs(disjunction(True, overflows), True)
        self.assertIs(conjunction(None, lambda: False), False)
        self.assertIs(disjunction(None, lambda: True), True)
        self.assertIsNone(conjunction(None, lambda: True))
        self.assertIsNone(disjunction(None, lambda: False))
        self.assertIsNone(compare(None, "=", None))

    def test_values_stand_in_order(self):
        values = [None, False, True, LEAST, 0, MOST, datetime.datetime(2024, 1, 1), "", "B", "a", "é", "\uffff", "\U0001f600"]
        self.assertEqual(sorted(reversed(values), key=lambda value: row_order([value])), values)

    def test_lines_are_read(self):
        columns = {"n": Kind.BIGINT, "k": Kind.STRING, "b": Kind.BOOLEAN, "ts": Kind.TIMESTAMP}
        query = Query(text="", columns=columns, items={}, mode=Mode.APPEND, event="ts")
        found = read_line(query, b'{"n":1,"n":2,"ts":"2024-01-01T00:00:00Z","b":false,"x":[1.5],"k":null}')
        self.assertEqual(found, {"n": 2, "k": None, "b": False, "ts": datetime.datetime(2024, 1, 1)})
        whole = read_line(query, b'{"ts":"2024-01-01T00:00:00Z","k":"a","k":"\\ud83d\\ude00"}')
        self.assertEqual(whole["k"], "\U0001f600")
        causes = {
            b"": None,
            b" " * 1_048_577: "TooLong",
            b"{": "NotJson",
            b'{"x":1e999}': "NotJson",
            b'{"x":NaN}': "NotJson",
            b'{"x":"\\ud800"}': "NotJson",
            b'{"x":"\\ud800","x":1}': "NotJson",
            b'{"x":["\\ud800"],"x":1}': "NotJson",
            b'["\\ud800"]': "NotJson",
            b'{"x":"\xff"}': "NotJson",
            b"[]": "NotObject",
            b'{"k":1,"n":true}': "WrongType n",
            b'{"n":-0}': "WrongType n",
            b'{"n":1.0}': "WrongType n",
            b'{"n":9223372036854775808}': "WrongType n",
            b'{"n":1,"b":0}': "WrongType b",
            b'{"ts":"2024-01-01"}': "WrongType ts",
            b'{"n":1}': "NoEventTime",
        }
        for line, cause in causes.items():
            try:
                self.assertIsNone(read_line(query, line))
                self.assertIsNone(cause, line)
            except BadLine as bad:
                self.assertEqual(str(bad), cause, line)


if __name__ == "__main__":
    unittest.main()
