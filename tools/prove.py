#!/usr/bin/env python3
"""Proves the program with all crates below it, and links it, or proves every crate, and says so, a line for each crate:

    tools/prove.py [--all] [PROCESSORS]

It takes all processors, or as many as are named. What is proved stays in crates/NAME/out, where `rt check`, `rt run` and this find it; the program is
crates/ssq_main/out/ssq_main. A crate that fails is shown with what the prover said of it.

It calls the toolchain's own steps (`rtlib` beside `rt`). `rt all check` with `rt run` does the same, but reads the sources of the whole tree anew for each
crate that no other uses, and for each sum of a crate those of all crates below it, which near the top takes longer than a proof.
"""
import functools
import os
import pathlib
import shutil
import signal
import sys
import tempfile
import time
from concurrent.futures import FIRST_COMPLETED, ThreadPoolExecutor, wait

sys.dont_write_bytecode = True
import kit  # noqa: E402, F401
import rtlib  # noqa: E402

TOP = pathlib.Path(__file__).resolve().parent.parent
PROGRAM = "ssq_main"

# A crate's sum is made once, before it is proved. It is made anew after that, and a library whose files changed meanwhile is not kept.
sum_now = rtlib.Crate.stamp
rtlib.Crate.stamp = functools.cache(sum_now)


def spelled(seconds):
    return f"{int(seconds) // 60} min {int(seconds) % 60} s" if seconds >= 60 else f"{int(seconds)} s"


def is_built(crate):
    """Tells whether a library is built from what stands there, and over the libraries below it as they now are."""
    stamps = [pathlib.Path(f"{it.folder}/out/rlib/stamp") for it in [crate, *crate.below()]]
    return crate.is_built() and all(stamps[0].stat().st_mtime_ns >= it.stat().st_mtime_ns for it in stamps)


def build(crate, flags):
    """Proves a library and builds it as the gate does, which is less to write and to read: what is above it loads its statements alone."""
    if is_built(crate):
        return 0
    stamp = crate.stamp()
    shutil.rmtree(os.path.dirname(crate.rlib), ignore_errors=True)
    os.makedirs(os.path.dirname(crate.rlib))
    status = crate.call(rtlib.RATTLE, "build", *crate.words(flags), "--statements", "-o", crate.rlib)
    if not status and sum_now(crate) != stamp:
        print("a file of it was changed while it was proved: run this again", file=crate.out)
        return 1
    if not status:
        pathlib.Path(f"{crate.folder}/out/rlib/stamp").write_text(stamp, encoding="utf-8")
    return status


def link(crate, flags):
    """Proves, compiles and links a program, as `rt run` does, and leaves it in its folder out/."""
    program = f"out/{crate.name}"
    status = crate.compile(flags, f"{program}.o")
    if status:
        return status
    words = ["--target", "x86_64-unknown-linux-gnu", "--toolchain", f"{rtlib.KIT}/toolchain", "-o", program, f"{program}.o"]
    return crate.call(f"{rtlib.KIT}/bin/rattle-link", *words, f"{rtlib.KIT}/c/libos_c.a", f"{rtlib.KIT}/c/liblibc_c.a")


def prove(crate, is_used, links):
    """Proves a crate over the libraries below it: its status, what was said, and the seconds that it took."""
    began = time.monotonic()
    os.makedirs(f"{crate.folder}/out", exist_ok=True)
    one_job = ["--jobs", "1"]
    with tempfile.TemporaryFile("w+", errors="replace") as crate.out:
        if is_used:
            status = build(crate, one_job)
        elif links and crate.is_program:
            status = link(crate, one_job)
        else:
            status = crate.check(one_job)
        crate.out.seek(0)
        return status, crate.out.read(), time.monotonic() - began


def prove_all(crates, links, processors):
    """Proves the crates, each when those below it are; of those that can begin, the one with most crates above it first."""
    began, used = time.monotonic(), {below for it in crates for below in it.deps}
    above = {crate: sum(crate in it.below() for it in crates) for crate in crates}
    waiting, running, proved, failed = set(crates), {}, set(), []
    with ThreadPoolExecutor(processors) as pool:
        while waiting or running:
            ready = [it for it in waiting if proved.issuperset(it.below())]
            while ready and len(running) < processors:
                crate = max(ready, key=above.get)
                ready.remove(crate)
                waiting.remove(crate)
                running[pool.submit(prove, crate, crate in used, links)] = crate
            if not running:
                break
            for ended in wait(running, return_when=FIRST_COMPLETED).done:
                crate = running.pop(ended)
                status, said, took = ended.result()
                if status:
                    failed.append(crate)
                    print(f"== {crate.name} is not proved ({status})\n{said}", flush=True)
                    continue
                proved.add(crate)
                now = spelled(time.monotonic() - began)
                print(f"{len(proved):3} of {len(crates)}  {crate.name} in {spelled(took)}, {now} after the start", flush=True)
    if waiting:
        print("not tried, since a crate below is not proved:", *sorted(it.name for it in waiting))
    return 1 if failed else 0


def main(words):
    links = "--all" not in words
    numbers = [int(it) for it in words if it != "--all"]
    processors = numbers[0] if numbers else len(os.sched_getaffinity(0))
    crates = rtlib.crates_below(str(TOP))
    if links:
        program = next(it for it in crates if it.name == PROGRAM)
        crates = [*program.below(), program]
    # The guard ends what was started, however this ends, and has to begin before a thread does.
    rtlib.guarded()
    signal.signal(signal.SIGINT, signal.SIG_DFL)
    held = rtlib.lock(crates)
    status = prove_all(crates, links, processors)
    for it in held:
        os.close(it)
    return status


if __name__ == "__main__":
    sys.exit(main(sys.argv[1:]))
