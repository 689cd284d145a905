#!/usr/bin/env python3
"""Tries the refusals of the built program in real folders: the line that is told, the status, and that no file is changed.

    python3 tests/refusals.py      (`make` builds bin/ssq; ten seconds on a machine that does nothing else)

Runs leave checkpoints of a few queries. For each refusal one of these is copied, something is changed in the copy, and one command is run
there twice. First what it writes has to be the line that the rules give, and nothing else; then its output goes to /dev/full, which leaves a
refusal its status. Behind both the folder is what it was before them. The lines are worked out from docs/SEMANTICS.md ("What a run writes",
"Opening a checkpoint" and those on `show` and `status`) and docs/FORMATS.md, and never from what the program answers.

The checks come in an order. So there is a folder in which each of them would be answered, and the faults are mended one by one, the first
one first: each time the next one is told.

Last, runs get ever more memory. Each does its work or says that memory ran out, and in the second case a run with memory makes of what is left
there what it has to be. Which queries are refused at which byte is tried in the crates' own tests, and here by a few. It is not part of the gate.
"""
import dataclasses
import itertools
import os
import pathlib
import resource
import shutil
import subprocess
import sys
import tempfile

SSQ = pathlib.Path(__file__).resolve().parent.parent / "bin" / "ssq"
RUN, SHOW, EXPLAIN, STATUS = (f"{command} q.sql" for command in ("run", "show", "explain", "status"))
NO_MEMORY = b"stopped 10 NoMemory\n"
STEP = 256 << 10  # bytes of memory by which one run has more than the one before
MOST = 1 << 30  # bytes of memory that are enough for each run here


# ---- queries and the checkpoints that runs leave of them


@dataclasses.dataclass(eq=False)
class Job:
    """A query with its logs, and how a run goes over them. Without words none does, and there is no checkpoint."""

    query: str
    logs: dict
    words: str | None = None
    epochs: int = 0

    def begin(self, folder):
        folder.mkdir()
        (folder / "q.sql").write_text(self.query)
        for name, lines in self.logs.items():
            (folder / name).write_text("".join(line + "\n" for line in lines))
        if self.words is not None:
            done = ssq(folder, f"{RUN} {self.words}")
            assert done.returncode == 0 and done.stdout.endswith(f"done epochs {self.epochs}\n".encode()), f"{self.query[:160]}: {done.stdout[:160]}"


def at(seconds, **more):
    """A line whose time is so many seconds after noon."""
    values = "".join(f',"{name}":"{value}"' for name, value in more.items())
    return f'{{"ts":"2024-01-01T12:{seconds // 60:02}:{seconds % 60:02}Z"{values}}}'


STREAM = "CREATE STREAM s (id BIGINT, v BIGINT) FROM 's'; "
FILTER = STREAM + "SELECT id, v + 1 AS w FROM s WHERE v > 10 OUTPUT APPEND;"
FILTERED = {"s.0.jsonl": ['{"id":1,"v":11}', '{"id":2,"v":5}', '{"id":3,"v":20}']}
EVENTS = "CREATE STREAM s (ts TIMESTAMP, k STRING) FROM 's' WATERMARK FOR ts DELAY '10 seconds'; "
COUNTS = EVENTS + "SELECT k, COUNT(*) AS n FROM s GROUP BY k OUTPUT UPDATE;"
SIDES = "".join(f"CREATE STREAM {side} (id BIGINT) FROM '{side}'; " for side in "lr")

FRESH = Job(FILTER, FILTERED)
PLAIN = Job(FILTER, FILTERED, "--max-lines 2", 2)  # epochs of 2 lines and of 1
GROUP = Job(COUNTS, {"s.0.jsonl": [at(0, k="a"), at(60, k="b"), at(120, k="a")]}, "--max-lines 1 --partitions 2", 3)
BOARD = Job(COUNTS.replace("UPDATE", "COMPLETE"), GROUP.logs, GROUP.words, 3)
LONG = Job(COUNTS, {"s.0.jsonl": [at(n, k=f"k{n}") for n in range(20)]}, "--max-lines 1", 20)  # with the snapshots 9 and 19
JOIN = Job(
    SIDES + "SELECT l.id AS one FROM l JOIN r ON l.id = r.id OUTPUT APPEND;",
    {"l.0.jsonl": ['{"id":1}'], "r.0.jsonl": ['{"id":1}', '{"id":2}']},
    "",
    1,
)


# ---- what is changed in a folder


def write(path, content):
    def change(folder):
        (folder / path).parent.mkdir(parents=True, exist_ok=True)
        (folder / path).write_bytes(content if isinstance(content, bytes) else content.encode())

    return change


def edit(path, change):
    """Another content, made of the one that is there."""
    return lambda folder: (folder / path).write_bytes(change((folder / path).read_bytes()))


def exchange(path, old, new):
    """Some text in place of one that stands there once."""

    def change(content):
        assert content.count(old.encode()) == 1, f"{path} has no one {old!r}: {content}"
        return content.replace(old.encode(), new.encode())

    return edit(path, change)


def remove(path):
    def change(folder):
        shutil.rmtree(folder / path) if (folder / path).is_dir() else (folder / path).unlink()

    return change


def instead(path, make):
    """Something else at this path, whatever is there."""

    def change(folder):
        place = folder / path
        if place.exists():
            remove(path)(folder)
        place.parent.mkdir(exist_ok=True)
        make(place)

    return change


def file_instead(path):
    return instead(path, pathlib.Path.touch)


def folder_instead(path):
    return instead(path, pathlib.Path.mkdir)


def unreadable(path):
    """A file that opens and cannot be read: the first page of a process is not there."""
    return instead(path, lambda place: place.symlink_to("/proc/self/mem"))


def parts_up_to(stream, last):
    def change(folder):
        for part in range(1, last + 1):
            (folder / f"{stream}.{part}.jsonl").touch()

    return change


def kept(name):
    return f"checkpoint/{name}"


# ---- the refusals: the line, the words, and what is changed before


def words_refused():
    words = [
        *("", "walk q.sql", "RUN q.sql", "help", "--help", "-h", "--version", "-V", "help run", "run --help", "--"),
        *("run", "show", "explain", "status", "run q.sql q.sql", "run -q.sql", "run --rounds 1 --", "run \udcff.sql"),
        *(f"{command} {more}" for command in (SHOW, EXPLAIN, STATUS) for more in ("q.sql", "--rounds 1", "--partitions 1")),
        *(f"{RUN} --partitions {count}" for count in ("0", "65", "+0", "-1", "1.0", "0x1", "")),
        *(f"{RUN} --max-lines {count}" for count in ("0", "1099511627777", "=1")),
        *(f"{RUN} --rounds {count}" for count in ("0", "1000001", "18446744073709551617", "")),
        *(f"{RUN} --{option} 1 --{option}=1" for option in ("partitions", "max-lines", "rounds")),
        *("gen", "gen 1", "gen 1 1 1", "gen 65537 1", "gen -1 1", "gen 0 0", "gen 0 10000001"),
    ]
    return [("stopped 2 Usage", word) for word in words]


def queries_refused():
    for command in (RUN, SHOW, EXPLAIN, STATUS):
        yield "stopped 3 Expected at 0", command, remove("q.sql")
        yield "stopped 3 Expected at 0", command.replace("q.sql", "-- -q.sql")
        yield "stopped 3 TooLong at 65536", command, write("q.sql", FILTER.ljust(65537))
        yield f"stopped 3 NotUtf8 at {len(FILTER)}", command, write("q.sql", FILTER.encode() + b"\xff")
        yield f"stopped 3 UnknownName at {len(STREAM + 'SELECT ')}", command, exchange("q.sql", "SELECT id", "SELECT x")
        yield "stopped 3 CompleteNeedsAggregate", command, exchange("q.sql", "APPEND", "COMPLETE")
        yield "stopped 6 LogFault", command, unreadable("q.sql")


def malformed(command, *names):
    """These files, each malformed in each of some ways."""
    ways = [lambda content: b"", lambda content: content[:-1], lambda content: content + b"\n", lambda content: b"V" + content[1:]]
    return [(f"stopped 9 Damaged {name}", command, edit(kept(name), way)) for name in names for way in ways]


def damaged(name, command, *changes):
    return f"stopped 9 Damaged {name}", command, *changes


def records_refused(command):
    """The record of the job, the plans and the commits of PLAIN, as `run` and `status` check them."""
    yield from malformed(command, "metadata", "offsets/0", "offsets/1", "commits/0", "commits/1")
    yield damaged("metadata", command, remove(kept("metadata")))
    for old, new in (
        ("partitions 1", "partitions 0"),
        ("partitions 1", "partitions 65"),
        ("partitions 1", "partitions 01"),
        ("parts 0 1", "parts 0 65"),
        ("parts 0 1", "parts 1 1"),
        ("parts 0 1\n", ""),
        ("parts 0 1\n", "parts 0 1\nparts 1 1\n"),
        ("query 104", "query 103"),
    ):
        yield damaged("metadata", command, exchange(kept("metadata"), old, new))
    yield f"stopped 9 OtherQuery {FILTER}", command, exchange("q.sql", "10", "11")

    yield damaged("offsets/0", command, remove(kept("offsets/0")))
    yield damaged("offsets/2", command, write(kept("offsets/7"), "v1\nplan 7\nwatermark none\npart 0 0 3\nend\n"))
    for old, new in (
        ("plan 0", "plan 1"),
        ("part 0 0 2\n", ""),
        ("part 0 0 2\n", "part 0 0 2\npart 0 1 0\n"),
        ("part 0 0 2", "part 0 0 02"),
        ("watermark none", "watermark 2024-01-01T12:00:00Z"),
    ):
        yield damaged("offsets/0", command, exchange(kept("offsets/0"), old, new))
    yield damaged("offsets/1", command, exchange(kept("offsets/0"), "part 0 0 2", "part 0 0 4"))  # the next end falls

    yield damaged("commits/0", command, remove(kept("commits/0")))
    yield damaged("commits/1", command, remove(kept("offsets/1")))  # a commit without its plan
    yield damaged("commits/2", command, write(kept("commits/2"), "v1\ncommit 2\nend\n"))
    yield damaged("commits/0", command, exchange(kept("commits/0"), "commit 0", "commit 1"))
    yield damaged("commits/1", command, exchange(kept("commits/1"), "end", "seen 0 none\nend"))


def watermarks_refused(command):
    """Those of GROUP: its plans have none, 11:59:50 and 12:00:50."""
    yield damaged("offsets/0", command, exchange(kept("offsets/0"), "none", "2024-01-01T11:59:50Z"))
    yield damaged("offsets/1", command, exchange(kept("offsets/1"), "11:59:50Z", "11:59:51Z"))
    yield damaged("offsets/1", command, exchange(kept("offsets/1"), "11:59:50Z", "11:59:50.000000Z"))
    yield damaged("offsets/2", command, exchange(kept("offsets/2"), "2024-01-01T12:00:50Z", "none"))
    yield damaged("offsets/1", command, exchange(kept("commits/0"), "12:00:00Z", "12:00:00.000001Z"))
    yield damaged("offsets/2", command, exchange(kept("commits/1"), "2024-01-01T12:01:00Z", "none"))
    yield damaged("commits/1", command, exchange(kept("commits/1"), "seen 0 2024-01-01T12:01:00Z\n", ""))


def plain_refused():
    """The rest of what a run of PLAIN finds."""
    yield "stopped 11 Full parts s 65", RUN, parts_up_to("s", 64)
    yield "stopped 9 OtherPartitions 1 4", RUN + " --partitions 4"
    yield "stopped 9 OtherParts s 1 2", RUN, parts_up_to("s", 1)
    yield "stopped 9 OtherParts s 1 64", RUN, parts_up_to("s", 63)
    yield "stopped 9 OtherParts s 1 0", RUN, remove("s.0.jsonl")
    yield "stopped 9 LogShort s 0 3 2", RUN, exchange("s.0.jsonl", FILTERED["s.0.jsonl"][2] + "\n", "")
    yield "stopped 9 LogShort s 0 3 2", RUN, edit("s.0.jsonl", lambda content: content[:-1])
    yield "stopped 9 LogShort s 0 3 0", RUN, write("s.0.jsonl", "")
    yield "stopped 6 LogFault", RUN, unreadable("s.0.jsonl")
    for name in ("sink/0", "sink/1"):
        yield damaged(name, RUN, remove(kept(name)))
    for name in ("sink/2", "sink/7", "state/0/0.delta", "state/0/1.snapshot"):
        yield damaged(name, RUN, write(kept(name), ""))
    yield damaged("sink/2", RUN, remove(kept("commits/1")), write(kept("sink/2"), ""))


def state_refused():
    """Files of the state of GROUP, which has the deltas 0 to 2 of the partitions 0 and 1."""
    yield from malformed(RUN, *(f"state/{partition}/{version}.delta" for partition in range(2) for version in range(3)))
    for name in ("state/0/0.delta", "state/0/2.delta", "state/1/1.delta"):
        yield damaged(name, RUN, remove(kept(name)))
    for name in ("state/2/0.delta", "state/0/3.delta", "state/1/3.snapshot"):  # of no partition, and of no plan
        yield damaged(name, RUN, write(kept(name), ""))
    yield damaged("state/0/1.snapshot", RUN, write(kept("state/0/1.snapshot"), ""))
    yield damaged("state/2/0.delta", RUN, *(write(kept(name), "") for name in ("state/0/3.snapshot", "state/2/0.delta")))
    yield damaged("state/0/2.delta", RUN, write(kept("state/0/2.delta"), ""), remove(kept("state/1/0.delta")))
    yield damaged("state/0/0.delta", RUN, write(kept("state/0/0.delta"), ""), remove(kept("state/0/1.delta")))


def snapshots_refused():
    """Of LONG the newest snapshot is loaded; that of version 9, where it is missing, is made of its deltas."""
    yield from malformed(RUN, "state/0/19.snapshot")
    lacking, empty, gone = remove(kept("state/0/9.snapshot")), write(kept("state/0/3.delta"), ""), remove(kept("state/0/5.delta"))
    yield damaged("state/0/3.delta", RUN, lacking, empty)
    yield damaged("state/0/5.delta", RUN, lacking, empty, gone)


def tables_refused():
    """What `show` finds in PLAIN: the record of the job, and each sink file, before it writes a row."""
    yield from malformed(SHOW, "metadata")
    yield damaged("metadata", SHOW, remove(kept("metadata")))
    yield f"stopped 9 OtherQuery {FILTER}", SHOW, exchange("q.sql", "10", "11")
    yield damaged("sink/0", SHOW, remove(kept("sink/0")))
    yield damaged("sink/1", SHOW, write(kept("sink/1"), "?"), write(kept("sink/3"), ""))
    yield damaged("sink/2", SHOW, write(kept("sink/3"), "?"))
    for name in ("sink/0", "sink/1"):
        for text in (
            '{"id":1,"w":"12"}\n',
            '{"id":1,"w":12}',
            '{"id":1, "w":12}\n',
            '{"w":12,"id":1}\n',
            '{"id":1}\n',
            '{"id":1,"w":12,"x":1}\n',
            '{"id":1,"w":9223372036854775808}\n',
            '{"id":1,"w":012}\n',
            '{"id":1,"w":-0}\n',
            '{"id":1,"w":12}\n\n',
        ):
            yield damaged(name, SHOW, write(kept(name), text))


def disk_refused():
    """What stands in PLAIN where something of another kind has to be."""
    disk_fault = "stopped 7 DiskFault"
    for command, files, folders in (
        (RUN, ["", "offsets", "commits", "sink", "state"], ["metadata", "offsets/0", "offsets/1", "commits/0", "commits/1"]),
        (SHOW, ["", "sink"], ["metadata", "sink/0", "sink/1"]),
        (STATUS, ["", "offsets", "commits"], ["metadata", "offsets/0", "offsets/1", "commits/0", "commits/1"]),
    ):
        for name in files:
            yield disk_fault, command, file_instead(kept(name))
        for name in folders:
            yield disk_fault, command, folder_instead(kept(name))
    yield disk_fault, RUN, folder_instead(kept("aside/0"))
    yield damaged("sink/2", RUN, folder_instead(kept("sink/2")))


def joins_refused():
    """Of two streams the left one is told first."""
    right, left = parts_up_to("r", 1), parts_up_to("l", 2)
    yield "stopped 9 OtherParts r 1 2", RUN, right
    yield "stopped 9 OtherParts l 1 3", RUN, right, left
    yield "stopped 11 Full parts r 65", RUN, parts_up_to("r", 64), left
    yield "stopped 9 LogShort r 0 2 0", RUN, write("r.0.jsonl", "")
    yield "stopped 9 LogShort l 0 1 0", RUN, write("r.0.jsonl", ""), write("l.0.jsonl", "")
    yield f"stopped 9 OtherQuery {JOIN.query}", RUN, write("q.sql", FILTER)


# Faults of a run over GROUP, in the order in which they are told: the line, what is changed, and the words where they are the fault.
ORDER = [
    ("stopped 2 Usage", None, "walk q.sql"),
    (f"stopped 3 Expected at {len(COUNTS) - 1}", write("q.sql", COUNTS[:-1]), None),
    (f"stopped 3 UnknownName at {len(EVENTS + 'SELECT ')}", write("q.sql", COUNTS.replace("SELECT k", "SELECT x")), None),
    ("stopped 3 HavingInUpdate", write("q.sql", COUNTS.replace(" OUTPUT", " HAVING COUNT(*) > 1 OUTPUT")), None),
    ("stopped 11 Full parts s 65", parts_up_to("s", 64), None),
    ("stopped 6 LogFault", unreadable("s.0.jsonl"), None),
    ("stopped 9 Damaged metadata", remove(kept("metadata")), None),
    (f"stopped 9 OtherQuery {COUNTS}", write("q.sql", COUNTS.replace("AS n", "AS m")), None),
    ("stopped 9 OtherPartitions 2 3", None, f"{RUN} --partitions 3"),
    ("stopped 9 OtherParts s 1 2", parts_up_to("s", 1), None),
    ("stopped 9 Damaged offsets/2", write(kept("offsets/2"), ""), None),
    ("stopped 9 Damaged commits/1", remove(kept("commits/1")), None),
    ("stopped 9 Damaged offsets/0", exchange(kept("offsets/0"), "none", "2024-01-01T11:59:50Z"), None),
    ("stopped 9 Damaged sink/0", remove(kept("sink/0")), None),
    ("stopped 9 Damaged state/2/0.delta", write(kept("state/2/0.delta"), ""), None),
    ("stopped 9 LogShort s 0 3 0", write("s.0.jsonl", ""), None),
    ("stopped 9 Damaged state/1/0.delta", remove(kept("state/1/0.delta")), None),
]


def in_order():
    """For each fault of ORDER a refusal with it and all that come after it. What they change is changed from the last one on, so that the first has its way."""
    for first, (line, _, _) in enumerate(ORDER):
        faults = ORDER[first:]
        words = next((words for _, _, words in faults if words), RUN)
        yield line, words, *(change for _, change, _ in reversed(faults) if change)


REFUSALS = [
    *((job, refusal) for job in (FRESH, PLAIN) for refusal in (*words_refused(), *queries_refused())),
    (FRESH, ("stopped 11 Full parts s 65", RUN, parts_up_to("s", 64))),
    (FRESH, ("stopped 6 LogFault", RUN, unreadable("s.0.jsonl"))),
    *((PLAIN, refusal) for command in (RUN, STATUS) for refusal in records_refused(command)),
    *((GROUP, refusal) for command in (RUN, STATUS) for refusal in watermarks_refused(command)),
    *((PLAIN, refusal) for refusal in (*plain_refused(), *tables_refused(), *disk_refused())),
    *((GROUP, refusal) for refusal in state_refused()),
    (GROUP, ("stopped 7 DiskFault", RUN, folder_instead(kept("state/1/1.delta")))),
    *((LONG, refusal) for refusal in snapshots_refused()),
    (BOARD, damaged("sink/0", SHOW, write(kept("sink/0"), "?"))),
    *((JOIN, refusal) for refusal in joins_refused()),
    *((GROUP, refusal) for refusal in in_order()),
]


# ---- trying them


def ssq(folder, words, out=subprocess.PIPE, memory=None):
    """What came of a command, with so many bytes of memory where they are said."""
    limit = (lambda: resource.setrlimit(resource.RLIMIT_AS, (memory, memory))) if memory else None
    return subprocess.run([SSQ, *words.split()], cwd=folder, stdout=out, stderr=subprocess.PIPE, preexec_fn=limit)


def contents(folder):
    """What is in a folder, by paths: the bytes of files, where links lead, and None for folders."""
    paths = {str(path.relative_to(folder)): path for path in folder.rglob("*")}
    return {
        name: os.readlink(path) if path.is_symlink() else path.read_bytes() if path.is_file() else None
        for name, path in paths.items()
    }


class Trials:
    """Copies of checkpoints, in which commands are tried."""

    def __init__(self, base):
        self.base, self.begun, self.numbers = base, {}, itertools.count()

    def folder(self, job, *changes):
        """A new copy of what a run of the job leaves, in which this is changed."""
        if job not in self.begun:
            self.begun[job] = self.base / f"begun-{next(self.numbers)}"
            job.begin(self.begun[job])
        folder = self.base / str(next(self.numbers))
        shutil.copytree(self.begun[job], folder)
        for change in changes:
            change(folder)
        return folder

    def judge_refusal(self, job, line, words, *changes):
        folder, status = self.folder(job, *changes), int(line.split()[1])
        before, done = contents(folder), ssq(folder, words)
        assert done.stdout == f"{line}\n".encode() and not done.stderr, f"told {done.stdout}, and on standard error {done.stderr}"
        assert done.returncode == status, f"its status is {done.returncode}"
        with open("/dev/full", "wb") as full:
            done = ssq(folder, words, full)
        assert done.returncode == status and not done.stderr, f"where the output fails the status is {done.returncode}, on standard error {done.stderr}"
        assert contents(folder) == before, f"changed: {[name for name, _ in before.items() ^ contents(folder).items()]}"
        shutil.rmtree(folder)

    def judge_output(self, words):
        """A command that has nothing to do but to tell something, over an output that is full and over one that nobody reads."""
        folder = self.folder(PLAIN)
        before = contents(folder)
        reader, closed = os.pipe()
        os.close(reader)
        with open("/dev/full", "wb") as full, open(closed, "wb") as unread:
            for out in full, unread:
                done = ssq(folder, words, out)
                assert done.returncode == 8, f"where the output fails the status of {words} is {done.returncode}"
        assert contents(folder) == before, f"{words} has changed a file"

    def judge_untold(self):
        """An epoch whose line could not be told is done, and no later run tells it."""
        folder = self.folder(PLAIN, write("s.0.jsonl", "".join(line + "\n" for line in [*FILTERED["s.0.jsonl"], '{"id":4,"v":30}'])))
        with open("/dev/full", "wb") as full:
            done = ssq(folder, RUN, full)
        assert done.returncode == 8, f"where the output fails the status is {done.returncode}"
        done = ssq(folder, RUN)
        assert (done.stdout, done.returncode) == (b"done epochs 3\n", 0), f"the next run told {done.stdout}"
        assert (folder / kept("sink/2")).read_bytes() == b'{"id":4,"w":31}\n', "its sink file"

    # -- runs with little memory

    def least_memory(self):
        """With which the program begins. With less there is no process that could tell something."""
        return next(memory for memory in range(STEP, MOST, STEP) if ssq(self.base, "", memory=memory).stdout)

    def starved(self, words, job, *changes, status=0):
        """What came of a command with ever more memory, each in a folder of its own, up to the first that has enough."""
        for refused, memory in enumerate(range(self.least_memory(), MOST, STEP)):
            folder = self.folder(job, *changes)
            done = ssq(folder, words, memory=memory)
            assert done.returncode in (status, 10), f"{words} with {memory} bytes: {done}"
            yield folder, done
            shutil.rmtree(folder)
            if done.returncode == status:
                assert refused, f"{words} has enough with {memory} bytes, so this shows nothing"
                return
        raise AssertionError(f"{words} has too little with {MOST} bytes")

    def judge_starved_runs(self, job, lines, told, sink):
        """Runs with one epoch more, of these lines, and after each a run with memory. How many had too little."""
        more = edit("s.0.jsonl", lambda content: content + "".join(line + "\n" for line in lines).encode())
        end, refused = f"done epochs {job.epochs + 1}\n".encode(), 0
        for folder, done in self.starved(RUN, job, more):
            assert done.stdout in ([NO_MEMORY, told + NO_MEMORY] if done.returncode else [told + end]), f"told {done.stdout}"
            whole = ssq(folder, RUN)
            missing = [end] if done.stdout.startswith(told) else [end, told + end]
            assert whole.stdout in missing and whole.returncode == 0, f"the next run told {whole.stdout}"
            assert (folder / kept(f"sink/{job.epochs}")).read_text() == sink, "its sink file is another"
            refused += done.returncode == 10
        return refused

    def judge_starved_tables(self, job):
        """`show` over the one sink file of a job. How many had too little memory."""
        refused = 0
        for folder, done in self.starved(SHOW, job):
            table = (folder / kept("sink/0")).read_bytes()
            assert done.stdout == (NO_MEMORY if done.returncode else table), f"told {done.stdout[:100]}"
            refused += done.returncode == 10
        return refused

    def judge_starved_refusals(self, job, line, *changes):
        """Runs that are refused. The line of a refusal may be missing where memory ran out for it. How many had too little."""
        before, status, refused = contents(self.folder(job, *changes)), int(line.split()[1]), 0
        for folder, done in self.starved(RUN, job, *changes, status=status):
            assert done.stdout in ([f"{line}\n".encode()] if done.returncode == status else [NO_MEMORY, b""]), f"told {done.stdout[:100]}"
            assert contents(folder) == before, "a file is changed"
            refused += done.returncode == 10
        return refused


def judge_memory(trials):
    """How many commands had too little."""
    rows, keys = range(20_000), [f"k{number}" for number in range(1000)]
    filtered = [f'{{"id":{number},"v":20}}' for number in rows]
    shown = "".join(f'{{"id":{number},"w":21}}\n' for number in rows)
    counted = "".join(f'{{"k":"{key}","n":1}}\n' for key in sorted(keys))
    long = Job(f"CREATE STREAM s (k STRING) FROM 's'; SELECT k FROM s WHERE k > '{'x' * 60_000}' OUTPUT APPEND;", {}, "")
    return (
        trials.judge_starved_runs(PLAIN, filtered, b"epoch 2 lines 20000 watermark none rows 20000\n", shown)
        + trials.judge_starved_runs(GROUP, [at(130, k=key) for key in keys], b"epoch 3 lines 1000 watermark 2024-01-01T12:01:50Z rows 1000\n", counted)
        + trials.judge_starved_tables(Job(FILTER, {"s.0.jsonl": filtered}, "", 1))
        + trials.judge_starved_refusals(long, f"stopped 9 OtherQuery {long.query}", exchange("q.sql", " > ", " < "))
    )


def main():
    wrong, memory = 0, "/dev/shm" if os.path.isdir("/dev/shm") else None  # where no sync takes time
    with tempfile.TemporaryDirectory(prefix="ssq-refusals-", dir=memory) as base:
        trials = Trials(pathlib.Path(base))
        for job, (line, words, *changes) in REFUSALS:
            try:
                trials.judge_refusal(job, line, words, *changes)
            except AssertionError as found:
                wrong += 1
                print(f"{line!r} is to be told by {words!r} over {job.query}: {found}")
        for words in (RUN, SHOW, EXPLAIN, STATUS, "gen 1 100"):
            trials.judge_output(words)
        trials.judge_untold()
        starved = judge_memory(trials)
    if wrong:
        sys.exit(f"{wrong} of {len(REFUSALS)} refusals are not as stated")
    print(f"{len(REFUSALS)} refusals, each as stated, and outputs that fail; {starved} commands with too little memory")


if __name__ == "__main__":
    main()
