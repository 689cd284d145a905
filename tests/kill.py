#!/usr/bin/env python3
"""Kills runs of the built program at random moments, and judges every file that they leave.

    python3 tests/kill.py [RUNS] [SEED] [--shape plain|group|dedup|join] [--epochs N] [--seconds S]      (200 killed runs, plain; `make` builds bin/ssq)

A query with a watermark reads three parts, to which a writer appends while runs of many rounds go over them and between the
runs. Each run is killed (SIGKILL) after a random time, from the first millisecond on, so that openings are hit too, and the
next one begins on what is left: one to five killed runs for each checkpoint, then one that is let end by itself. One that has
ended before its kill is judged as the last one is, and not counted as killed.

- plain: WHERE and SELECT.
- group: overlapping windows and a key with NULLs, in Append, Update and Complete in turn, over three partitions. Some rows are late,
  some of them for one of their windows alone.
- dedup: rows without repeats, in Append by a key and the event time, so that keys are forgotten, and in Update by the key and another
  column, so that none is. Repeats come within an epoch and later, with other values.
- join: two parts of a left stream and one of a right, over three partitions: left, right and inner joins within a bound, and an inner join
  without one, whose rows are kept for good. Keys are NULL now and then, and some rows are late.

After each run the plans are read, to learn the cuts, and nothing else is taken from the program: what each plan, commit, sink
file and file of the state has to hold, and each line that was printed, is computed from the logs (tests/model.py), and compared
byte for byte. Plans and commits that were there stay. Each epoch whose line was printed has its commit and its sink file. A run prints
the lines of the epochs that it commits, in order and from the first one on: a killed one those of each round after which it planned
an epoch, one that ends by itself all. Of the state each delta is there that the next run needs, and no file that may not be. After the
last run each line of the logs is in exactly one epoch, no window is left to be closed, and of the state there is exactly what upkeep
leaves. Every second kill of a query that keeps state waits for a moment at which upkeep is due; it is told how many left a snapshot to
be made or a file to be removed.

It is not part of the gate, since it takes minutes and its timing is the machine's. A killed process loses nothing that the
system had taken from it, so this shows crashes of the program, and not of the machine. Those are proved over a disk that does what
the trait says, and tests/power.py shows that a real folder is asked for it.
"""
import argparse
import collections
import dataclasses
import datetime
import itertools
import json
import pathlib
import random
import re
import shutil
import signal
import subprocess
import sys
import tempfile
import threading
import time

import model
from model import Aggregate, Direction, Function, Join, Kind, Mode, Outer, Query, Window, compare, compute, disjunction

SSQ = pathlib.Path(__file__).resolve().parent.parent / "bin" / "ssq"
COLUMNS = {"ts": Kind.TIMESTAMP, "k": Kind.STRING, "v": Kind.BIGINT}
STREAM = "CREATE STREAM s (ts TIMESTAMP, k STRING, v BIGINT) FROM 's'"
WATERMARK = " WATERMARK FOR ts DELAY '10 seconds'"
SECOND = datetime.timedelta(seconds=1)
START = datetime.datetime(2024, 1, 1)
CAP = 10  # lines of a part in an epoch
LINES = 80 * CAP  # of each part


@dataclasses.dataclass
class Job:
    """A query over some parts and partitions."""

    name: str
    query: Query
    parts: int
    partitions: int = 1
    rights: int = 0  # parts of the second stream, which are among `parts`
    lines: int = LINES  # of each part
    cap: int = CAP

    def logs(self, folder):
        sources, lefts = [source.stream for source in self.query.sources()], self.parts - self.rights
        parts = [(0, part) for part in range(lefts)] + [(1, part) for part in range(self.rights)]
        return [folder / f"{sources[stream]}.{part}.jsonl" for stream, part in parts]

    def words(self):
        return ["--max-lines", str(self.cap), *(["--partitions", str(self.partitions)] if self.partitions > 1 else [])]

    def epochs(self, logs, cuts):
        return model.Epochs(self.query, logs, cuts, self.partitions, self.parts - self.rights)


def plain_job():
    query = Query(
        text=f"{STREAM}{WATERMARK}; SELECT k, v + 1 AS w, ts FROM s WHERE v > 10 OUTPUT APPEND;",
        columns=COLUMNS,
        event="ts",
        delay=10 * SECOND,
        where=lambda row: compare(row["v"], ">", 10),
        items={"k": lambda row: row["k"], "w": lambda row: compute(row["v"], "+", 1), "ts": lambda row: row["ts"]},
        mode=Mode.APPEND,
    )
    return Job("three parts with a watermark", query, 3)


def group_job(mode):
    """Windows of 20 seconds, one every 10, and a key. HAVING stands where it may, and ORDER BY. In Update a row may change no total of
    its key."""
    having = " HAVING COUNT(*) > 1" if mode is not Mode.UPDATE else ""
    order = " ORDER BY n DESC, k DESC" if mode is Mode.COMPLETE else ""
    query = Query(
        text=f"{STREAM}{WATERMARK}; "
        "SELECT window_end, k, COUNT(v) AS n, SUM(v * 3) AS t, MIN(v) AS lo, MAX(ts) AS last FROM s WHERE v IS NULL OR v > 3 "
        f"GROUP BY WINDOW(ts, '20 seconds', '10 seconds'), k{having}{order} OUTPUT {mode.name};",
        columns=COLUMNS,
        event="ts",
        delay=10 * SECOND,
        where=lambda row: disjunction(row["v"] is None, lambda: compare(row["v"], ">", 3)),
        group=(Window("ts", 20 * SECOND, 10 * SECOND), "k"),
        aggregates=(
            Aggregate(Function.COUNT, lambda row: row["v"]),
            Aggregate(Function.SUM, lambda row: compute(row["v"], "*", 3)),
            Aggregate(Function.MIN, lambda row: row["v"]),
            Aggregate(Function.MAX, lambda row: row["ts"]),
            *([Aggregate(Function.COUNT)] if having else []),
        ),
        having=(lambda group: compare(group[4], ">", 1)) if having else None,
        items={
            "window_end": lambda group: group["window_end"],
            "k": lambda group: group["k"],
            "n": lambda group: group[0],
            "t": lambda group: group[1],
            "lo": lambda group: group[2],
            "last": lambda group: group[3],
        },
        order=(("n", Direction.DESC), ("k", Direction.DESC)) if order else (),
        mode=mode,
    )
    return Job(mode.name, query, parts=3, partitions=3)


def dedup_job(mode):
    """In Append the keys are by the event time and forgotten; in Update they are not, and kept for good."""
    columns = ("k", "ts") if mode is Mode.APPEND else ("k", "v")
    query = Query(
        text=f"{STREAM}{WATERMARK}; SELECT v, ts, k FROM s WHERE v IS NULL OR v > 3 DEDUPLICATE BY {', '.join(columns)} OUTPUT {mode.name};",
        columns=COLUMNS,
        event="ts",
        delay=10 * SECOND,
        where=lambda row: disjunction(row["v"] is None, lambda: compare(row["v"], ">", 3)),
        distinct=columns,
        items={"v": lambda row: row["v"], "ts": lambda row: row["ts"], "k": lambda row: row["k"]},
        mode=mode,
    )
    return Job(mode.name, query, parts=3, partitions=3)


def join_job(outer, bound=(-10 * SECOND, 20 * SECOND)):
    """Rows of `l` and `r` of one key, and within the bound where there is one."""
    words = {Outer.NEITHER: "JOIN", Outer.LEFT: "LEFT JOIN", Outer.RIGHT: "RIGHT JOIN"}[outer]
    near = " AND r.ts BETWEEN l.ts - INTERVAL '10 seconds' AND l.ts + INTERVAL '20 seconds'" if bound else ""
    streams = "; ".join(STREAM.replace("STREAM s", f"STREAM {name}").replace("'s'", f"'{name}'") + WATERMARK for name in "lr")
    query = Query(
        text=f"{streams}; SELECT l.k AS key, l.v AS a, r.v + 1 AS b, l.ts AS t, r.ts AS u FROM l {words} r ON l.k = r.k{near} AND l.v < r.v "
        "WHERE l.v IS NULL OR r.v IS NULL OR l.v > 3 OUTPUT APPEND;",
        columns=COLUMNS,
        stream="l",
        event="ts",
        delay=10 * SECOND,
        join=Join("r", COLUMNS, (("k", "k"),), outer, "ts", 10 * SECOND, bound, (lambda row: compare(row["l.v"], "<", row["r.v"]),)),
        where=lambda row: disjunction(disjunction(row["l.v"] is None, lambda: row["r.v"] is None), lambda: compare(row["l.v"], ">", 3)),
        items={
            "key": lambda row: row["l.k"],
            "a": lambda row: row["l.v"],
            "b": lambda row: compute(row["r.v"], "+", 1),
            "t": lambda row: row["l.ts"],
            "u": lambda row: row["r.ts"],
        },
        mode=Mode.APPEND,
    )
    return Job(f"{words} {'within a bound' if bound else 'without a bound'}", query, parts=3, partitions=3, rights=1, lines=LINES // 5)


def made_line(chance, number):
    """A line whose time is up to 20 seconds from its neighbours', and lacks its columns now and then."""
    if chance.random() < 0.05:
        return "  \n"
    at = START + datetime.timedelta(seconds=number + chance.randrange(-20, 20), milliseconds=chance.choice([0, 0, 250]))
    line = {"ts": model.stamp(at), "k": chance.choice(["a", "b", "c", None]), "v": chance.choice([None, *range(30)]), "x": [number]}
    return json.dumps({name: value for name, value in line.items() if value is not None or chance.random() < 0.5}) + "\n"


class Writer(threading.Thread):
    """Appends its text to each log, in pieces, some of which end within a line."""

    def __init__(self, logs, lines, chance):
        super().__init__(daemon=True)
        self.chance, self.done = random.Random(chance.random()), threading.Event()
        self.left = {log: "".join(made_line(chance, n) for n in range(lines)).encode() for log in logs}
        for log in logs:
            log.touch()

    def append(self, log, size):
        with open(log, "ab", buffering=0) as file:
            file.write(self.left[log][:size])
        self.left[log] = self.left[log][size:]

    def run(self):
        while any(self.left.values()) and not self.done.is_set():
            self.append(self.chance.choice(list(self.left)), self.chance.randrange(1, 1500))
            time.sleep(self.chance.random() * 0.01)
        for log in self.left:
            self.append(log, len(self.left[log]))


class Checkpoint:
    """A checkpoint that runs work on, with what they told and planned so far."""

    def __init__(self, folder, job):
        self.folder, self.job = folder, job
        self.told, self.cuts = [], []
        self.commits = self.untold = 0  # how many there were when it was judged last, and how many of them that run did not tell
        self.wanted, self.lines = {}, []  # each file that its epochs may have, and the line that tells each epoch
        (folder / "q.sql").write_text(job.query.text + "\n")

    def files(self):
        """The files of the epochs, by their paths."""
        root = self.folder / "checkpoint"
        paths = (path for kind in ("offsets", "commits", "sink", "state") for path in (root / kind).rglob("*"))
        return {str(path.relative_to(root)): path.read_bytes() for path in paths if path.is_file()}

    def judge(self, output, is_done=False):
        """Checks what a run printed, which may have ended by itself, and each file that is there, against the logs. The epochs, and the
        number of commits."""
        files = self.files()
        counts = {kind: sum(name.startswith(kind) for name in files) for kind in ("offsets", "commits", "sink")}
        plans, commits, sinks = counts.values()
        names = [f"{kind}/{number}" for kind, count in counts.items() for number in range(count)]
        assert sorted(name for name in files if not name.startswith("state")) == sorted(names), f"epochs have gaps: {sorted(files)}"
        assert plans - 1 <= commits <= plans and commits <= sinks <= plans, f"{counts}"

        texts = [files[f"offsets/{e}"].decode() for e in range(plans)]
        cuts = [tuple(map(int, re.findall(r"^part \d+ \d+ (\d+)$", text, re.M))) for text in texts]
        assert cuts[: len(self.cuts)] == self.cuts, "a cut that was planned has changed"

        logs = [log.read_bytes().split(b"\n")[:-1] for log in self.job.logs(self.folder)]
        epochs = self.job.epochs(logs, cuts)
        self.judge_cuts(epochs)
        meta = self.folder / "checkpoint" / "metadata"
        assert meta.read_bytes() == epochs.meta() if meta.exists() else not files, "metadata"
        for e in range(len(self.cuts), plans):
            assert epochs.fault(e) is None, epochs.fault(e)
            self.wanted |= epochs.files(e)
            self.lines.append(epochs.told(e))
        self.cuts = cuts
        for name, content in files.items():
            assert name in self.wanted, f"{name} is no file of these epochs"
            assert content == self.wanted[name], f"{name} holds\n{legible(name, content)}\nand not\n{legible(name, self.wanted[name])}"
        self.judge_state(files, plans, commits)
        self.judge_output(output, commits, is_done)
        self.commits = commits
        return epochs, commits

    def judge_cuts(self, epochs):
        """Each epoch that is new has lines of its parts, of none more than it may; or it has none, and is there to close windows."""
        for e in range(len(self.cuts), len(epochs.cuts)):
            begin, end = epochs.begin(e), epochs.cuts[e]
            assert len(end) == self.job.parts, f"cut {e}: {end}"
            assert all(a <= b <= min(a + self.job.cap, len(part)) for a, b, part in zip(begin, end, epochs.parts)), f"cut {e}: {end}"
            assert begin != end or epochs.is_closing(e), f"epoch {e} has nothing to do"

    def judge_state(self, files, plans, commits):
        """No file of the state is there that may not be, and each that the next run needs is."""
        for partition, (deltas, snapshots) in enumerate(self.versions(files)):
            for version in deltas:
                assert model.delta_may_be(version, plans, commits), f"delta {version} of {partition}, with {commits} commits"
            for version in snapshots:
                assert model.snapshot_may_be(version, commits), f"snapshot {version} of {partition}, with {commits} commits"
            lacking = set(model.needed_deltas(snapshots, commits)) - set(deltas)
            assert not lacking, f"deltas {sorted(lacking)} of {partition} are not there, with {commits} commits"

    def judge_end(self, commits):
        """What upkeep leaves of the state is there, and nothing else."""
        for partition, versions in enumerate(self.versions(self.files())):
            assert versions == model.state_at_end(commits), f"state {partition}: {versions}"

    def is_in_upkeep(self, commits):
        """Of the committed epochs a snapshot is left to be made, or a file to be removed."""
        found = self.versions(self.files())
        return any(([e for e in deltas if e < commits], snapshots) != model.state_at_end(commits) for deltas, snapshots in found)

    def versions(self, files):
        """The versions of the deltas and of the snapshots of each partition that keeps state."""
        for partition in range(self.job.partitions if self.job.query.keeps_state() else 0):
            found = [re.fullmatch(rf"state/{partition}/(\d+)[.](delta|snapshot)", name) for name in files]
            yield tuple(sorted(int(name[1]) for name in found if name and name[2] == kind) for kind in ("delta", "snapshot"))

    def judge_output(self, output, commits, is_done):
        """It tells each epoch that was committed since the last run, in order, and then that all is done. Where the run did not end by itself
        the end of that may be missing; what is missing is told by no later run, since it is committed."""
        assert commits >= self.commits and commits > max(self.told, default=-1), f"{commits} commits of {self.commits}, and told {self.told[-1:]}"
        new = self.lines[self.commits : commits]
        wanted = "".join(f"{line}\n" for line in [*new, f"done epochs {commits}"])
        assert (output == wanted) if is_done else wanted.startswith(output), f"it told\n{output}\nand not\n{wanted}"
        told = min(output.count("\n"), len(new))
        self.told += range(self.commits, self.commits + told)
        self.untold = len(new) - told

    def judge_rounds(self, epochs, planned):
        """A run after `planned` plans told each epoch of a round that has ended. That of an epoch has, where it took less of a part than it
        might, and there is a later one with more of that part."""
        for e in range(planned, len(epochs.cuts) - 1):
            parts = zip(epochs.begin(e), epochs.cuts[e], epochs.cuts[-1])
            is_over = any(end < begin + self.job.cap and end < last for begin, end, last in parts)
            assert not is_over or e in self.told, f"the round of epoch {e} is over, and it is not told: {epochs.cuts[planned:]}, {self.told[-1:]}"


def legible(name, content):
    return content.hex() if name.startswith("state") else content.decode()


def started(folder, job, out, *more):
    return subprocess.Popen([SSQ, "run", "q.sql", *job.words(), *more], cwd=folder, stdout=out)


def wait_for_upkeep(folder, chance):
    """Waits until an epoch is committed after which a snapshot is due, for a second at most, and then a little: a run of a million rounds
    that find nothing may end after two."""
    commits = folder / "checkpoint" / "commits"
    done = len(list(commits.iterdir())) if commits.exists() else 0
    due = next(filter(model.has_snapshot, itertools.count(done + 10 * chance.randrange(3))))
    end = time.monotonic() + 1
    while not (commits / str(due)).exists() and time.monotonic() < end:
        time.sleep(0.0003)
    time.sleep(0.02 * chance.random())


def killed_run(folder, job, chance, longest):
    """Runs until a random moment; of a query that keeps state every second run until upkeep is due. What it printed, and whether it ended by
    itself before."""
    with open(folder / "out", "w+") as out:
        run = started(folder, job, out, "--rounds", "1000000")
        if job.query.keeps_state() and chance.random() < 0.5:
            wait_for_upkeep(folder, chance)
        else:
            time.sleep(chance.choice([0.002, 0.02, 0.3, 1.0]) * longest * chance.random())
        run.send_signal(signal.SIGKILL)
        status = run.wait()
        out.seek(0)
        output = out.read()
        assert status in (-signal.SIGKILL, 0), f"status {status}: {output[-200:]}"
        return output, status == 0


def whole_run(folder, job):
    """Runs to the end. What it printed."""
    run = started(folder, job, subprocess.PIPE)
    output = run.communicate()[0].decode()
    assert run.returncode == 0, output
    return output


def last_run(checkpoint):
    """Runs to the end over logs that grow no more, and judges all that is there then. The epochs."""
    epochs, commits = checkpoint.judge(whole_run(checkpoint.folder, checkpoint.job), is_done=True)
    assert len(epochs.cuts) == commits, f"{len(epochs.cuts)} plans, and {commits} commits"
    assert epochs.next_cut() is None, f"not each line is in an epoch, or a window is left to be closed: {epochs.cuts[-1:]}"
    checkpoint.judge_end(commits)
    return epochs


def trial(folder, job, kills, chance, longest):
    """One checkpoint: runs that are killed, and a last one. What came of it, in numbers."""
    checkpoint = Checkpoint(folder, job)
    writer = Writer(job.logs(folder), job.lines, chance)
    writer.start()
    found = collections.Counter()
    for _ in range(kills):
        output, is_done = killed_run(folder, job, chance, longest)
        planned = len(checkpoint.cuts)
        epochs, commits = checkpoint.judge(output, is_done)
        checkpoint.judge_rounds(epochs, planned)
        found["killed"] += not is_done
        found["opened"] += len(epochs.cuts) - commits
        found["upkeep"] += checkpoint.is_in_upkeep(commits)
    found["early"] = len(checkpoint.told)
    writer.done.set()
    writer.join()
    epochs = last_run(checkpoint)
    plans = found["epochs"] = len(epochs.cuts)
    found["late"] = sum(len(epochs.fed(e)) - len(epochs.on_time(e)) for e in range(plans))
    found["equal"] = sum(row.time is not None and row.time == epochs.watermark(e) for e in range(plans) for row in epochs.fed(e))
    found["repeats"] = sum(len(epochs.on_time(e)) - len(epochs.shown(e)) for e in range(plans) if job.query.distinct)
    if job.query.join:
        found["alone"] = sum(len(epochs.alone(e)) for e in range(plans))
        found["pairs"] = sum(on is True for *_, on in epochs.candidates(plans - 1))
    found["closing"] = sum(epochs.begin(e) == epochs.cuts[e] for e in range(plans))
    return found


def refusal_of(job):
    """What the program says of a query that it does not take, over logs without lines."""
    folder = pathlib.Path(tempfile.mkdtemp(prefix="ssq-kill-"))
    (folder / "q.sql").write_text(job.query.text + "\n")
    for log in job.logs(folder):
        log.touch()
    run = started(folder, job, subprocess.PIPE)
    output = run.communicate()[0].decode()
    shutil.rmtree(folder)
    return output if run.returncode else None


JOBS = {  # the queries of each shape
    "plain": [plain_job()],
    "group": [group_job(mode) for mode in Mode],
    "dedup": [dedup_job(mode) for mode in (Mode.APPEND, Mode.UPDATE)],
    "join": [*map(join_job, (Outer.LEFT, Outer.RIGHT, Outer.NEITHER)), join_job(Outer.NEITHER, None)],
}
MANY = {"group": "groups in each mode", "dedup": "rows without repeats", "join": "joins of each kind"}


def jobs_taken(shape):
    """The queries of the shape, none of which may be refused."""
    jobs = JOBS[shape]
    refusal = next(filter(None, map(refusal_of, jobs)), None)
    if refusal:
        sys.exit(f"the query is not taken: {refusal}")
    return jobs


def asked():
    words = argparse.ArgumentParser(description="Kills runs of bin/ssq at random moments, and judges what they leave.")
    words.add_argument("runs", nargs="?", type=int, default=200)
    words.add_argument("seed", nargs="?", type=int, default=int(time.time()))
    words.add_argument("--shape", choices=["plain", *MANY], default="plain")
    words.add_argument("--epochs", type=int, default=LINES // CAP, help="of each checkpoint, about so many; of a join a fifth")
    words.add_argument("--seconds", type=float, default=1.0, help="after which a run is killed at the latest")
    return words.parse_args()


def main():
    ask = asked()
    chance = random.Random(ask.seed)
    jobs = jobs_taken(ask.shape)
    for job in jobs:
        job.lines = job.lines * ask.epochs * CAP // LINES
    runs, found = 0, collections.Counter()
    for number in itertools.count():
        if runs >= ask.runs:
            break
        job = jobs[number % len(jobs)]
        kills = min(chance.randrange(1, 6), ask.runs - runs)
        folder = pathlib.Path(tempfile.mkdtemp(prefix="ssq-kill-"))
        try:
            found += trial(folder, job, kills, chance, ask.seconds)
        except AssertionError as wrong:
            sys.exit(f"checkpoint {number} ({job.name}) of seed {ask.seed}: {wrong}; what is left is in {folder}")
        shutil.rmtree(folder)
        runs += kills
    over = MANY.get(ask.shape, jobs[0].name)
    print(f"{found['killed']} of {runs} runs killed over {over}, seed {ask.seed}: {number} checkpoints, {found['early']} epochs told before a kill,")
    print(f"{found['opened']} planned and not committed at a kill, {found['epochs']} epochs in all, each file right")
    if ask.shape in MANY:
        print(f"{found['late']} rows late, {found['equal']} of them at the watermark itself, {found['closing']} epochs without lines,")
        print(f"{found['upkeep']} kills left a snapshot to be made or a file to be removed")
    if ask.shape == "dedup":
        print(f"{found['repeats']} rows were repeats")
    if ask.shape == "join":
        print(f"{found['pairs']} pairs, and {found['alone']} rows over without a partner")
    if not found["killed"]:
        sys.exit("each run ended by itself before it was killed, so this shows nothing")


if __name__ == "__main__":
    main()
