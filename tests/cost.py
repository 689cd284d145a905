#!/usr/bin/env python3
"""Measures the built program in a real folder.

    python3 tests/cost.py [FOLDER]      (`make` builds bin/ssq; device calls are counted where strace is there)

- What an epoch costs over 1 and over 8 parts, 10 lines of each, at epochs 100, 1000 and 4000: microseconds and device calls
  over 50 epochs, less what opening costs.
- What opening costs there: a run with nothing new.
- What an epoch and an opening cost, and how large the state's files are, with 100,000 groups of which 10 change in each epoch, there.
- 1,000,000 lines of one part in one epoch, whose rows have to be right.

Checkpoints lie in new folders inside FOLDER; without one, where temporary files lie. In a folder of memory (/dev/shm) the disk's
syncs cost nothing. It is not part of the gate.
"""
import collections
import json
import os
import pathlib
import shutil
import subprocess
import sys
import tempfile
import time

SSQ = pathlib.Path(__file__).resolve().parent.parent / "bin" / "ssq"
QUERY = (
    "CREATE STREAM s (id BIGINT, v BIGINT) FROM 's';\n"
    "SELECT id, v + 1 AS w FROM s WHERE v > 10 OUTPUT APPEND;\n"
)
CALLS = "openat,rename,renameat,renameat2,fsync,fdatasync,write,read,unlink,mkdir,lseek,pread64,getdents64,statx,newfstatat,fstat"
GROUPS = "CREATE STREAM s (id BIGINT, v BIGINT) FROM 's';\nSELECT id, COUNT(*) AS n, SUM(v) AS t FROM s GROUP BY id OUTPUT UPDATE;\n"
KEYS = 100_000
EPOCHS = 50
LINES = 10  # of each part in an epoch
MANY = 1_000_000


class Work:
    """A folder with a query and the logs of its parts."""

    def __init__(self, place, parts, query=QUERY):
        self.folder = pathlib.Path(tempfile.mkdtemp(prefix="ssq-cost-", dir=place))
        self.logs = [self.folder / f"s.{part}.jsonl" for part in range(parts)]
        (self.folder / "q.sql").write_text(query)
        self.grow(0)

    def __enter__(self):
        return self

    def __exit__(self, *fault):
        shutil.rmtree(self.folder)

    def grow(self, lines, step=1, numbers=MANY):
        """Adds lines to each part, with ids so far apart, below so many."""
        text = "".join(json.dumps({"id": n * step % numbers, "v": n % 23}, separators=(",", ":")) + "\n" for n in range(lines))
        for log in self.logs:
            with open(log, "a") as file:
                file.write(text)

    def run(self, *words, before=()):
        """Runs to the end: seconds, and what it used."""
        start = time.perf_counter()
        run = subprocess.Popen([*before, SSQ, "run", "q.sql", *words], cwd=self.folder, stdout=subprocess.PIPE, text=True)
        output = run.stdout.read()
        _, status, used = os.wait4(run.pid, 0)
        seconds = time.perf_counter() - start
        if status != 0:
            sys.exit(f"it stopped: {output[-200:]}")
        return seconds, used

    def run_epochs(self, **how):
        return self.run("--max-lines", str(LINES), **how)

    def calls(self):
        """The device calls of a run, by name."""
        trace = self.folder / "trace"
        self.run_epochs(before=["strace", "-f", "-e", "trace=" + CALLS, "-o", trace])
        return collections.Counter(line.split()[1].split("(")[0] for line in trace.read_text().splitlines() if "(" in line)


def measure_epochs(place, parts):
    with Work(place, parts) as work:
        done = 0
        for at in (100, 1000, 4000):
            work.grow(LINES * (at - done))
            work.run_epochs()
            opening = min(work.run_epochs()[0] for _ in range(5))
            work.grow(LINES * EPOCHS)
            some = work.run_epochs()[0]
            print(f"{parts} parts, at epoch {at}: {(some - opening) / EPOCHS * 1e6:.0f} us an epoch, {opening * 1e3:.1f} ms to open")
            done = at + EPOCHS
            if shutil.which("strace"):
                idle = work.calls()
                work.grow(LINES * EPOCHS)
                calls = work.calls() - idle
                done += EPOCHS
                print("  device calls an epoch:", {name: round(count / EPOCHS, 2) for name, count in sorted(calls.items())})


def measure_state(place):
    with Work(place, 1, GROUPS) as work:
        work.grow(KEYS)
        seconds, used = work.run()
        print(f"{KEYS} groups in one epoch: {seconds:.2f} s, {used.ru_maxrss / 1024:.0f} MB of memory")
        done = 1
        for at in (100, 1000, 4000):
            work.grow(LINES * (at - done), step=9973, numbers=KEYS)
            work.run_epochs()
            opening = min(work.run_epochs()[0] for _ in range(5))
            work.grow(LINES * EPOCHS, step=9973, numbers=KEYS)
            some = work.run_epochs()[0]
            files = [file.stat().st_size for file in (work.folder / "checkpoint" / "state").rglob("*") if file.is_file()]
            print(
                f"{KEYS} groups, at epoch {at}: {(some - opening) / EPOCHS * 1e6:.0f} us an epoch of {LINES} groups, {opening * 1e3:.1f} ms to open, "
                f"{len(files)} files of the state with {sum(files) / 1e6:.2f} MB"
            )
            done = at + EPOCHS


def measure_lines(place):
    with Work(place, 1) as work:
        work.grow(MANY)
        seconds, used = work.run()
        size = work.logs[0].stat().st_size
        wanted = "".join(f'{{"id":{n},"w":{n % 23 + 1}}}\n' for n in range(MANY) if n % 23 > 10)
        if (work.folder / "checkpoint" / "sink" / "0").read_text() != wanted:
            sys.exit(f"the rows of {MANY} lines are not those that the query asks for")
        print(
            f"{MANY} lines ({size / 1e6:.0f} MB) in one epoch: {seconds:.2f} s, {used.ru_utime + used.ru_stime:.2f} s of processor, "
            f"{seconds / MANY * 1e9:.0f} ns a line, {used.ru_maxrss / 1024:.0f} MB of memory"
        )


def main():
    place = sys.argv[1] if len(sys.argv) > 1 else None
    for parts in (1, 8):
        measure_epochs(place, parts)
    measure_state(place)
    measure_lines(place)


if __name__ == "__main__":
    main()
