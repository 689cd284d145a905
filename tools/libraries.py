#!/usr/bin/env python3
"""Shares built libraries between clones of this repository that lie in one folder.

    tools/libraries.py take CLONE                    copies into CLONE what a clone beside it has built
    tools/libraries.py share FOLDER [SECONDS]        does so for all clones in FOLDER, again and again (25)
    tools/libraries.py build CLONE SLOTS CRATE..     builds CRATE.. and all below them for CLONE, as committed, SLOTS crates
                                                     at a time

A built library, crates/NAME/out/rlib, has a file `stamp`, a sum of the crate and of all below it: where a clone has the same contents, it is
good there too. Copies are hard links, since a clone's libraries come to 4 GB. `build` works in clones of its own beside CLONE (slot0,
slot1, ..), because two runs of `rt` in one clone wait for each other's locks.
"""
import argparse
import os
import pathlib
import shutil
import subprocess
import sys
import time

sys.dont_write_bytecode = True
import kit  # noqa: E402, F401
import rtlib  # noqa: E402

sum_of = rtlib.Crate.stamp


def remembered(crate):
    """The sum of a crate, which rtlib computes anew for each crate above."""
    if "remembered" not in crate.__dict__:
        crate.remembered = sum_of(crate)
    return crate.remembered


rtlib.Crate.stamp = remembered


def crates_of(clone):
    """The crates of a clone, by name, as its crates.txt now has them."""
    rtlib.listed.cache_clear()
    return {crate.name: crate for crate in rtlib.crates_below(str(clone))}


def clones_in(folder):
    return sorted(it.parent for it in folder.glob("*/crates.txt"))


def stamp_in(clone, name):
    try:
        return (clone / "crates" / name / "out/rlib/stamp").read_text()
    except OSError:
        return None


def built_in(folder):
    """Which clone has the library of a crate with this stamp."""
    found = {}
    for clone in clones_in(folder):
        for crate in (clone / "crates").iterdir():
            if stamp := stamp_in(clone, crate.name):
                found.setdefault((crate.name, stamp), clone)
    return found


def link(source, clone, name):
    """Takes the library of a crate over from another clone."""
    out = clone / "crates" / name / "out"
    out.mkdir(exist_ok=True)
    new = out / f"rlib.new{os.getpid()}"
    shutil.rmtree(new, ignore_errors=True)
    try:
        shutil.copytree(source / "crates" / name / "out/rlib", new, copy_function=os.link)
        shutil.rmtree(out / "rlib", ignore_errors=True)
        new.rename(out / "rlib")
        return True
    except OSError:
        shutil.rmtree(new, ignore_errors=True)
        return False


def take(clone, built):
    """Takes over all that fits, and names it."""
    stamps = {name: crate.stamp() for name, crate in crates_of(clone).items()}
    wanted = [name for name, stamp in stamps.items() if stamp_in(clone, name) != stamp and built.get((name, stamp), clone) != clone]
    return [name for name in wanted if link(built[name, stamps[name]], clone, name)]


def build(clone, slots, targets):
    """Builds the targets and all below them, the longest way up first."""
    if subprocess.run(["git", "-C", clone, "status", "--porcelain", "crates", "crates.txt"], stdout=subprocess.PIPE, check=True).stdout:
        sys.exit(f"{clone} has changes that are not committed, and what would be built is its HEAD")
    crates = crates_of(clone)
    below = {name: [it.name for it in crate.below() if it.name in crates] for name, crate in crates.items()}
    stamps = {name: crate.stamp() for name, crate in crates.items()}
    wanted = set(targets).union(*(below[it] for it in targets))
    above = {name: sum(name in below[it] for it in wanted) for name in wanted}
    free, running, done, failed = [clone.parent / f"slot{at}" for at in range(slots)], {}, set(), set()
    for slot in free:
        if not slot.exists():
            subprocess.run(["git", "clone", "-q", clone, slot], check=True)
        subprocess.run(["git", "-C", slot, "fetch", "-q", clone, "HEAD"], check=True)
        subprocess.run(["git", "-C", slot, "reset", "-q", "--hard", "FETCH_HEAD"], check=True)
    while len(done) + len(failed) < len(wanted):
        for name, (process, slot) in list(running.items()):
            if process.poll() is not None:
                del running[name]
                free.append(slot)
                (done if stamp_in(slot, name) == stamps[name] else failed).add(name)
                print(time.strftime("%H:%M:%S"), name, "built" if name in done else "FAILED", flush=True)
        built = built_in(clone.parent)
        done |= {name for name in wanted - failed - running.keys() if (name, stamps[name]) in built}
        failed |= {name for name in wanted - done if failed.intersection(below[name])}
        ready = [it for it in wanted - done - failed - running.keys() if done.issuperset(below[it])]
        for name, slot in zip(sorted(ready, key=above.get, reverse=True), list(free)):
            free.remove(slot)
            for low in below[name]:
                if stamp_in(slot, low) != stamps[low]:
                    link(built[low, stamps[low]], slot, low)
            with open(slot / f"{name}.log", "w") as log:
                running[name] = subprocess.Popen(["rt", "lib", "--jobs", "1"], cwd=slot / "crates" / name, stdout=log, stderr=log), slot
        time.sleep(1)
    take(clone, built_in(clone.parent))
    return failed


def share(folder, seconds):
    """Takes over in each clone of a folder what fits, again and again."""
    while True:
        built = built_in(folder)
        for clone in clones_in(folder):
            try:
                taken = take(clone, built)
            except (OSError, SystemExit):  # its files are being changed: it has its turn the next time
                continue
            if taken:
                print(time.strftime("%H:%M:%S"), clone.name, "took", *taken, flush=True)
        time.sleep(seconds)


def folder(path):
    return pathlib.Path(path).resolve()


def main():
    parser = argparse.ArgumentParser(description=__doc__, formatter_class=argparse.RawDescriptionHelpFormatter)
    verbs = parser.add_subparsers(dest="verb", required=True)
    verb = verbs.add_parser("take")
    verb.add_argument("clone", type=folder)
    verb = verbs.add_parser("share")
    verb.add_argument("folder", type=folder)
    verb.add_argument("seconds", type=float, nargs="?", default=25)
    verb = verbs.add_parser("build")
    verb.add_argument("clone", type=folder)
    verb.add_argument("slots", type=int)
    verb.add_argument("crates", nargs="+", metavar="crate")
    words = parser.parse_args()
    if words.verb == "take":
        print(*take(words.clone, built_in(words.clone.parent)))
    elif words.verb == "share":
        share(words.folder, words.seconds)
    else:
        sys.exit(bool(build(words.clone, words.slots, words.crates)))


if __name__ == "__main__":
    main()
