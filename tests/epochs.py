#!/usr/bin/env python3
"""Measures what an epoch costs over 10,000 and over 1,000,000 groups.

    python3 tests/epochs.py [FOLDER [PAIRS]]      (`make` builds bin/ssq; it needs two processors with nothing else on them)

A program runs over each state, both on the same processor, and only one of them at a time: the other is halted. Ten lines are added to
the log of one, and the time is taken until the program has told their epoch, which it does when all of it is settled; then to the log of
the other. Which one is first is drawn. So both epochs of a pair have the same machine and the same disk, and nothing runs beside them.
Epochs after which a snapshot is due are not counted: the program goes on there until the snapshot is made and older files are gone, and
then both stand still (REST seconds of the environment, 0.5).

It tells the median of the pairs' ratios and their geometric mean, each with where 95 of 100 drawings anew lie, and milliseconds.
Checkpoints lie in new folders inside FOLDER; without one, where temporary files lie. It is not part of the gate.
"""
import functools
import math
import os
import pathlib
import random
import shutil
import signal
import statistics
import subprocess
import sys
import tempfile
import time

SSQ = pathlib.Path(__file__).resolve().parent.parent / "bin" / "ssq"
QUERY = "CREATE STREAM e (k STRING, v BIGINT) FROM 'e';\nSELECT k, COUNT(*) AS n, SUM(v) AS t FROM e GROUP BY k OUTPUT UPDATE;\n"
SIZES = (10_000, 1_000_000)
REST = float(os.environ.get("REST", "0.5"))
PAGE = 4096  # what a log grows by within a page is seen all at once
TURNS = 400  # of a run, which has a million rounds


def line(key, value):
    """24 bytes, whatever the key."""
    return '{"k":"k%07d","v":%d}\n' % (key, 10 + value % 90)


class Job:
    """A folder with a state of so many groups, and the program that goes on there, on its processor."""

    def __init__(self, place, groups, seed, processor):
        self.folder = pathlib.Path(tempfile.mkdtemp(prefix="ssq-epochs-", dir=place))
        self.checkpoint = self.folder / "checkpoint"
        self.groups, self.random, self.times = groups, random.Random(seed), []
        self.processor, self.program = processor, None
        (self.folder / "q.sql").write_text(QUERY)
        with open(self.folder / "e.0.jsonl", "w") as log:
            log.writelines(line(key, key) for key in self.random.sample(range(groups), groups))
            log.write(" " * (PAGE - 1 - log.tell() % PAGE) + "\n")
        subprocess.run([SSQ, "run", "q.sql"], cwd=self.folder, stdout=subprocess.DEVNULL, check=True)
        self.log = os.open(self.folder / "e.0.jsonl", os.O_WRONLY | os.O_APPEND)
        self.epoch = 1

    def begin(self):
        words, place = [SSQ, "run", "q.sql", "--rounds", "1000000"], functools.partial(os.sched_setaffinity, 0, {self.processor})
        self.program = subprocess.Popen(words, cwd=self.folder, stdout=subprocess.PIPE, preexec_fn=place)
        os.set_blocking(self.program.stdout.fileno(), False)
        self.add_lines()
        self.program.send_signal(signal.SIGSTOP)

    def end(self):
        self.program.kill()
        self.program.wait()

    def add_lines(self):
        """Adds ten lines, and waits until their epoch is told: milliseconds, and whether a snapshot was due."""
        lines = "".join(line(self.random.randrange(self.groups), n) for n in range(10))
        lines = (lines[:-1] + " " * (255 - len(lines[:-1])) + "\n").encode()
        told, wanted = self.program.stdout.fileno(), b"epoch %d lines 10 " % self.epoch
        is_due = self.epoch % 10 == 9
        began = time.perf_counter_ns()
        os.write(self.log, lines)
        while True:
            try:
                words = os.read(told, PAGE)
                break
            except BlockingIOError:
                pass
        took = (time.perf_counter_ns() - began) / 1e6
        if not words.startswith(wanted):
            sys.exit(f"{words} is told, and not the epoch {self.epoch} with ten lines")
        if is_due:
            while not (self.checkpoint / f"state/0/{self.epoch}.snapshot").exists():
                if self.program.poll() is not None:
                    sys.exit(f"the program ended with status {self.program.returncode} before the snapshot of epoch {self.epoch} was made")
            time.sleep(0.02)
        self.epoch += 1
        return took, is_due

    def take_turn(self):
        self.program.send_signal(signal.SIGCONT)
        time.sleep(0.001)
        took, is_due = self.add_lines()
        self.program.send_signal(signal.SIGSTOP)
        if is_due:
            time.sleep(REST)
        return took, is_due


def spread(logs, of):
    """A figure of ratios, and where 95 of 100 drawings anew of their blocks of twenty lie."""
    blocks = [logs[at : at + 20] for at in range(0, len(logs), 20)]
    draws = random.Random(1)
    drawn = sorted(of([x for block in draws.choices(blocks, k=len(blocks)) for x in block]) for _ in range(1000))
    return "%.3f (%.3f to %.3f)" % tuple(map(math.exp, (of(logs), drawn[25], drawn[974])))


def main(place, pairs):
    processors = sorted(os.sched_getaffinity(0))
    if len(processors) < 2:
        sys.exit("it needs two processors")
    feeder, programs = processors[:2]
    os.sched_setaffinity(0, {feeder})
    draws, jobs = random.Random(1), [Job(place, groups, groups, programs) for groups in SIZES]
    try:
        os.sync()
        counted = 0
        while counted < pairs:
            for job in jobs:
                job.begin()
            for _ in range(TURNS):
                order = draws.sample(jobs, 2)
                took = {job: job.take_turn() for job in order}
                if not any(is_due for _, is_due in took.values()):
                    for job in jobs:
                        job.times.append(took[job][0])
                    counted += 1
                if counted == pairs:
                    break
            for job in jobs:
                job.end()
    finally:
        for job in jobs:
            if job.program:
                job.end()
            shutil.rmtree(job.folder)
    few, many = (job.times for job in jobs)
    logs = [math.log(y / x) for x, y in zip(few, many)]
    print(f"{pairs} pairs of epochs of 10 lines, over {SIZES[0]:,} and {SIZES[1]:,} groups")
    print("ratios: median", spread(logs, statistics.median), "geometric mean", spread(logs, statistics.mean))
    for name, figure in (("median", statistics.median), ("mean", statistics.mean), ("fastest tenth", lambda times: statistics.quantiles(times, n=10)[0])):
        print("%s: %.4f and %.4f ms" % (name, figure(few), figure(many)))


if __name__ == "__main__":
    if len(sys.argv) > 3:
        sys.exit(__doc__)
    main(sys.argv[1] if len(sys.argv) > 1 else None, int(sys.argv[2]) if len(sys.argv) > 2 else 900)
