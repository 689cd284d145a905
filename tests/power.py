#!/usr/bin/env python3
"""Loses the power at moments of runs of the built program, and judges what the next run makes of what may be left.

    python3 tests/power.py [SHARE] [SEED] [--shape plain|group|dedup|join] [--ends SHARE] [--images N] [--epochs N]      (0.1 of the moments, plain)

strace has to be there (for this script alone), and bin/ssq (`make` builds it). The queries are those of tests/kill.py. Runs go over logs that grow.
Some are broken: killed in front of a sync, or a sync, or a call that writes, renames, removes or makes a file or a folder, fails, for which the run has to
stop and to say so. The first three always are. The next one begins on names that are not synced; after some the
power is lost, and the next one begins on what may be left.

strace tells each call by which a run makes, writes, renames, removes and syncs files and folders, and these are played on a model of a file system.
After a power loss a name may be, by itself, what it was when its folder was last synced, or anything that it was since; a new folder is a name in
the one above. A file has its bytes if it was synced after its last write, and else what was synced, nothing, zeros, or any front of what was written.

Behind a share of the calls that change, sync or print something images are made of that: the least, which is settled, the most, which is the folder as it
was, and some that are drawn. In each of them the epochs whose line was printed before have their plan, sink file and commit, and each file is what it may
be, byte for byte (tests/model.py). From a share of them (--ends, all) a run goes on over the whole logs to the end, and is judged as that of tests/kill.py is.

So this shows, of the runs that it made, that the program asks a real folder for the syncs that it needs, and in the right order. It does not show that a
file system keeps what it synced, nor that it does so in a sync after one that failed. It is not part of the gate, since it takes minutes. That it can
fail is seen with --forget files, --forget folders or --forget with a folder (., checkpoint, checkpoint/sink ..): the model then passes over those syncs.
"""
import argparse
import collections
import dataclasses
import operator
import os
import pathlib
import posixpath
import random
import re
import shutil
import signal
import subprocess
import sys
import tempfile
import time

import model
from kill import MANY, SSQ, Checkpoint, Job, jobs_taken, last_run, made_line

PLAYED = "openat,close,write,fsync,fdatasync,rename,renameat,renameat2,unlink,unlinkat,rmdir,mkdir,mkdirat"
STRANGE = "open,creat,pwrite64,writev,pwritev,pwritev2,truncate,ftruncate,fallocate,link,linkat,symlink,symlinkat,sendfile,copy_file_range,dup,dup2,dup3,chdir"
LONGEST = 1 << 24  # bytes of a text in a trace
RUNS = 6  # over one checkpoint
BREAKS = ["fsync:signal=KILL"] * 5 + ["fsync:error=EIO"] * 3 + ["write:error=ENOSPC", "rename:error=EIO", "unlink:error=EIO", "mkdir:error=ENOSPC"]
FIRST = ["fsync:signal=KILL:when=7", "fsync:error=EIO:when=3", "fsync:error=EIO:when=20"]  # in the first epoch, in the opening, after some commits
FAULTS = {7: "DiskFault", 8: "OutFault"}
LEAST, MOST = operator.itemgetter(0), operator.itemgetter(-1)
CAP = 3  # lines of a part in an epoch: few, since each image is run on and judged to the end


# A call that went well: its texts (paths, or what is written), and its other words.
Call = collections.namedtuple("Call", "name texts words result")


def traced(trace):
    """The calls of a trace that went well. One that waited is told in two lines; one in front of which the run was killed has no result."""
    begun = {}
    for line in trace.read_text().splitlines():
        process, text = line.split(maxsplit=1)
        if text.endswith("<unfinished ...>"):
            begun[process] = text.removesuffix("<unfinished ...>")
            continue
        text = re.sub(r"^<\.\.\. \w+ resumed>", lambda _: begun.pop(process), text)
        if found := re.fullmatch(r"(\w+)\((.*)\) += (\d+)", text):
            assert '"...' not in text, f"a text is cut off: {text[:80]}"
            texts = [bytes.fromhex(hexed.replace("\\x", "")) for hexed in re.findall('"([^"]*)"', found[2])]
            yield Call(found[1], texts, re.sub('"[^"]*"', "", found[2]), int(found[3]))


class File:
    """A file's bytes as they were written, and as they were when it was last synced."""

    def __init__(self, content=b""):
        self.written = self.synced = content

    def sync(self):
        self.synced = self.written

    def options(self, chance):
        """What a power loss may leave of it: the least first, and last what was written."""
        size = len(self.written)
        torn = [] if self.synced == self.written else [b"", bytes(size), self.written[: chance.randrange(size + 1)]]
        return [self.synced, *torn, self.written]


class Folder(dict):
    """For each name what it was at the folder's last sync, and then what it was since. None is a name that is not there."""

    def sync(self):
        now = {name: was[-1:] for name, was in self.items() if was[-1] is not None}
        self.clear()
        self.update(now)


def paths(call):
    assert call.words.count("AT_FDCWD") == ("at" in call.name) * len(call.texts), f"a path begins elsewhere: {call}"
    return [posixpath.normpath(text.decode()) for text in call.texts]


class Machine:
    """A folder in which runs make files and folders. What was there before them is not known here, and not changed."""

    def __init__(self, forget, image=(), output=b""):
        """It starts on an image, in which all is settled."""
        self.root, self.forget, self.output, self.opened = Folder(), forget, output, {}
        for path in sorted(image):
            node = Folder() if image[path] is None else File(image[path])
            self.at(posixpath.dirname(path))[posixpath.basename(path)] = [node]

    def at(self, path):
        node = self.root
        for name in path.split("/") if path not in (".", "") else []:
            node = node.get(name, [None])[-1] if isinstance(node, Folder) else None
        return node

    def put(self, path, node):
        self.at(posixpath.dirname(path)).setdefault(posixpath.basename(path), [None]).append(node)

    def play(self, call):
        """Whether it changed, synced or printed something."""
        assert call.name in PLAYED.split(","), f"the model does not know {call}"
        number = call.words.split(",")[0].strip()
        if call.name == "openat":
            self.open(call, *paths(call))
        elif call.name == "close":
            self.opened.pop(number, None)
        elif call.name == "write" and number == "1":
            self.output += call.texts[0][: call.result]
        elif call.name == "write":
            self.opened[number][1].written += call.texts[0][: call.result]
        elif call.name in ("fsync", "fdatasync"):
            path, node = self.opened[number]
            if self.forget not in (path, "files" if isinstance(node, File) else "folders"):
                node.sync()
        elif call.name.startswith("rename"):
            old, new = paths(call)
            self.put(new, self.at(old))
            self.put(old, None)
        else:
            self.put(*paths(call), Folder() if call.name.startswith("mkdir") else None)
        return call.name not in ("openat", "close") or "O_CREAT" in call.words

    def open(self, call, path):
        is_written = re.search("O_WRONLY|O_RDWR|O_CREAT", call.words)
        assert not is_written or "O_CREAT" in call.words and "O_TRUNC" in call.words, f"the model writes a file from its start alone, not {call}"
        if is_written:
            self.put(path, self.at(path) or File())
            self.at(path).written = b""
        if self.at(path) is not None:
            self.opened[str(call.result)] = path, self.at(path)

    def told(self):
        return [int(epoch) for epoch in re.findall(rb"^epoch (\d+) .*\n", self.output, re.M)]

    def image(self, pick, chance):
        """What is there, by paths: the bytes of files, and None for folders. A file has one content, under whatever names it is there."""
        image, contents, left = {}, {}, [("", self.root)]
        while left:
            above, folder = left.pop()
            for name, was in sorted(folder.items()):
                path, node = above + name, pick(was)
                if isinstance(node, File):
                    image[path] = contents[node] = contents[node] if node in contents else pick(node.options(chance))
                elif node is not None:
                    image[path] = None
                    left.append((path + "/", node))
        return image


def write_image(folder, image):
    for path in sorted(image):
        (folder / path).mkdir() if image[path] is None else (folder / path).write_bytes(image[path])


def without_aside(image):
    return {path: content for path, content in image.items() if "/aside/" not in path}


def fresh(folder):
    shutil.rmtree(folder, ignore_errors=True)
    folder.mkdir()
    return folder


class Epochs(model.Epochs):
    """Keeps what it computed of each epoch, since many images ask for it."""

    files, told, fault = map(model.by_epoch, (model.Epochs.files, model.Epochs.told, model.Epochs.fault))


@dataclasses.dataclass
class KnownJob(Job):
    """A job over logs of which only the ends grow. What was computed for some cuts is right for others too, as far as they are the same."""

    made: dict = dataclasses.field(default_factory=dict)

    def epochs(self, logs, cuts):
        of = tuple(cuts), tuple(map(len, logs))
        if of not in self.made:
            epochs = Epochs(self.query, logs, cuts, self.partitions, self.parts - self.rights)
            others = ((len(os.path.commonprefix([cuts, other.cuts])), other.known) for other in self.made.values())
            same, known = max(others, key=operator.itemgetter(0), default=(0, {}))
            epochs.known = {name: {of: answer for of, answer in answers.items() if of[0] < same} for name, answers in known.items()}
            self.made[of] = epochs
        return self.made[of]


class Trial:
    """Runs over one checkpoint, and what came of them, in numbers."""

    def __init__(self, base, job, chance, ask):
        self.base, self.job, self.chance, self.ask = base, job, chance, ask
        self.machine, self.judged, self.found = Machine(ask.forget), set(), collections.Counter()
        self.folder, self.whole = fresh(base / "real"), fresh(base / "whole")
        for log in job.logs(self.whole):
            log.write_text("".join(made_line(chance, n) for n in range(job.lines)))
        self.checkpoint = Checkpoint(self.folder, job)

    def go(self):
        for run in range(1, RUNS + 1):
            self.grow(run / RUNS)
            if self.run(self.broken(run)) and self.chance.random() < 0.5:
                self.start_again()
        self.found["epochs"] = len(last_run(self.checkpoint).cuts)

    def grow(self, share):
        """Each log gets about so much of its text; its last line may be there in part."""
        for whole, log in zip(self.job.logs(self.whole), self.job.logs(self.folder)):
            text = whole.read_bytes()
            end = len(text) if share == 1 else max(0, int(len(text) * share) - self.chance.randrange(100))
            with open(log, "ab") as file:
                file.write(text[file.tell() : end])

    def broken(self, run):
        """How a run is broken: at which of its calls of one kind, if it comes to it, and by what. Some are not, nor is the last one."""
        if run <= len(FIRST):
            return FIRST[run - 1]
        if run == RUNS or self.chance.random() < 0.2:
            return None
        return f"{self.chance.choice(BREAKS)}:when={self.chance.randrange(1, self.chance.choice([10, 100]))}"

    def run(self, broken):
        """A run, broken so, and the images of its moments. Whether it was broken."""
        trace, breaks = self.base / "trace", ["-e", f"inject={broken}"] if broken else []
        words = ["strace", "-f", "-xx", "-s", str(LONGEST), "-o", trace, "-e", f"trace={PLAYED},{STRANGE}", *breaks]
        done = subprocess.run([*words, SSQ, "run", "q.sql", *self.job.words()], cwd=self.folder, stdout=subprocess.PIPE)
        printed, failed = done.stdout.decode(), "(INJECTED)" in trace.read_text()
        if failed:
            assert done.returncode == 7 or done.returncode == 8 and broken.startswith("write"), f"{broken} was not told: {done.returncode} {printed}"
            lines, stop, end = printed.rpartition(f"stopped {done.returncode} {FAULTS[done.returncode]}\n")
            assert stop and not end or done.returncode == 8, f"{broken} was told as {printed}"  # where the output fails, no more than a front is written
            printed = lines if stop else printed
        else:
            assert done.returncode in (0, -signal.SIGKILL if broken else 0), printed
        self.checkpoint.judge(printed, is_done=done.returncode == 0)
        if done.returncode == 7:  # the commit of the last epoch may be there and not settled
            assert self.checkpoint.untold <= 1, f"{self.checkpoint.untold} epochs that {broken} left are not told: {printed}"
        self.found.update(runs=1, killed=int(done.returncode < 0), failed=int(failed))
        self.machine.opened, before = {}, len(self.machine.output)
        for call in traced(trace):
            if self.machine.play(call):
                self.found["calls"] += 1
                if self.chance.random() < self.ask.share:
                    self.lose_power(call)
        assert self.machine.output[before:] == done.stdout, "the trace has not all that was printed"
        there = {str(path.relative_to(self.folder)): path.read_bytes() if path.is_file() else None for path in self.folder.glob("checkpoint/**/*")}
        assert self.machine.image(MOST, self.chance) == {"checkpoint": None} | there, "the folder is not what the calls of the trace make"
        return done.returncode != 0

    def start_again(self):
        """The machine itself starts again, on what a power loss left."""
        image = self.machine.image(self.chance.choice, self.chance)
        self.machine = Machine(self.ask.forget, image, self.machine.output)
        shutil.rmtree(self.folder / "checkpoint")
        write_image(self.folder, image)
        self.checkpoint = Checkpoint(self.folder, self.job)
        self.checkpoint.told = self.machine.told()
        self.checkpoint.judge("")
        self.found["again"] += 1

    def lose_power(self, call):
        """Images of this moment, each of which is judged if none was like it, except for files aside."""
        self.found["moments"] += 1
        now, told = without_aside(self.machine.image(MOST, self.chance)), self.machine.told()
        for pick in (LEAST, MOST, *[self.chance.choice] * self.ask.images):
            image = self.machine.image(pick, self.chance)
            self.found.update(images=1, other=without_aside(image) != now)
            known = hash(repr((without_aside(image), told)))
            if known not in self.judged:
                self.judged.add(known)
                try:
                    self.judge(image, told)
                except AssertionError as wrong:
                    write_image(fresh(self.base / "left"), image)
                    raise AssertionError(f"after {call.name} {call.texts[-1:]} of run {self.found['runs']}: {wrong}") from None

    def judge(self, image, told):
        """It keeps what was told, each of its files is right, and a run that goes on from it ends well."""
        folder = fresh(self.base / "image")
        checkpoint = Checkpoint(folder, self.job)
        for whole, log in zip(self.job.logs(self.whole), self.job.logs(folder)):
            os.link(whole, log)
        write_image(folder, image)
        files = checkpoint.files()
        for name in (f"{kind}/{epoch}" for epoch in told for kind in ("offsets", "sink", "commits")):
            assert files.get(name) == self.checkpoint.wanted[name], f"its epoch was told, and {name} has {files.get(name)}"
        checkpoint.told = list(told)
        epochs, commits = checkpoint.judge("")
        upkeep = checkpoint.is_in_upkeep(commits)
        self.found.update(judged=1, opened=len(epochs.cuts) - commits, upkeep=upkeep, empty=not files)
        if self.chance.random() < self.ask.ends:
            self.found["ended"] += 1
            last_run(checkpoint)


def asked():
    words = argparse.ArgumentParser(description="Loses the power at moments of runs of bin/ssq, and judges what is made of what may be left.")
    words.add_argument("share", nargs="?", type=float, default=0.1, help="of the moments; 1 for each")
    words.add_argument("seed", nargs="?", type=int, default=int(time.time()))
    words.add_argument("--shape", choices=["plain", *MANY], default="plain")
    words.add_argument("--ends", type=float, default=1, help="the share of images from which a run goes on")
    words.add_argument("--images", type=int, default=3, help="that are drawn for a moment")
    words.add_argument("--epochs", type=int, default=34, help="of each checkpoint, about so many")
    words.add_argument("--forget", help=argparse.SUPPRESS)
    return words.parse_args()


def main():
    ask = asked()
    if not shutil.which("strace"):
        sys.exit("strace is not there, which tells the calls of a run: this test cannot do without it")
    chance, found, start = random.Random(ask.seed), collections.Counter(), time.monotonic()
    memory = "/dev/shm" if os.path.isdir("/dev/shm") else None  # where no sync takes time
    for job in jobs_taken(ask.shape):
        job = KnownJob(job.name, job.query, job.parts, job.partitions, job.rights, ask.epochs * CAP, CAP)
        base = pathlib.Path(tempfile.mkdtemp(prefix="ssq-power-", dir=memory))
        trial = Trial(base, job, chance, ask)
        try:
            trial.go()
        except AssertionError as wrong:
            sys.exit(f"{job.name}, seed {ask.seed}, {dict(trial.found)}: {wrong}; what is left is in {base}")
        shutil.rmtree(base)
        found += trial.found
    print(f"{found['runs']} runs over {MANY.get(ask.shape, job.name)}, seed {ask.seed}: {found['killed']} killed in front of a sync, {found['failed']} stopped by a call that failed,")
    print(f"{found['again']} of them with the machine, {found['epochs']} epochs in all, {found['calls']} calls that change, sync or print something")
    print(f"{found['moments']} moments, {found['images']} images, {found['other']} other than the folder as it was, {found['judged']} unlike each other:")
    print(f"{found['opened']} with an epoch planned and not committed, {found['upkeep']} with upkeep to be done, {found['empty']} without a file")
    print(f"{found['ended']} run on to the end, each file right, {time.monotonic() - start:.0f} seconds")
    if not found["other"]:
        sys.exit("no image is other than the folder as it was, so this shows nothing")
    if not (found["killed"] and found["failed"]):
        sys.exit("no run was killed or none was stopped by a call that failed, so this shows too little")


if __name__ == "__main__":
    main()
