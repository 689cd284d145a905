#!/usr/bin/env python3
"""Checks a whole crate from nothing, over the libraries that another clone has built, and tells what each of its functions cost:

    cd crates/NAME; ../../tools/module_cost.py CLONE [MOST]

`Lts` is the borrow checker's part of a function, which grows with the statements of its MIR (each `?` brings some eight, and the drops at its exit), `Proof` what `search` does,
`Tie` what joins the two. A module's file is written when it is checked, so a module took the time since the file before; these times are by the clock, and are scaled so that they add up to
the processor time of the whole. At another load they differ by some tenths, on another machine by more: take before and after in the same hour. It proves nothing for the gate.
"""
import collections
import pathlib
import re
import resource
import subprocess
import sys
import tempfile

import over_sources

PARTS = "Answers Code Given Goals Invariants Key Kinds Layout Lts Met Mir Named Proof Reads Statement Symbol TheLink Tie View".split()
MODULE = re.compile(rf"Rattle-\w+-proofs\.(.+?)\.({'|'.join(PARTS)})(?:[-.].*)?\.oantt")


def modules(folder):
    """The modules that a check wrote, in their order, each with the seconds since the one before it."""
    files = sorted((path.stat().st_mtime_ns, path.name) for path in pathlib.Path(folder).rglob("*.oantt"))
    return [(name, (now - before) / 1e9) for (before, _), (now, name) in zip(files, files[1:])]


def main(clone, most):
    crate = over_sources.crate_here()
    built = over_sources.libraries(crate, clone)
    print("over sources:", *[it.name for it in crate.below() if it.name not in built], flush=True)
    with tempfile.TemporaryDirectory() as kept:
        command = [over_sources.RATTLE, "check", *over_sources.words(crate, built), "--incremental", kept]
        ran = subprocess.run(command, stdout=subprocess.PIPE, stderr=subprocess.STDOUT, text=True)
        found = modules(kept)
    used = resource.getrusage(resource.RUSAGE_CHILDREN)
    processor, clock = used.ru_utime + used.ru_stime, sum(took for _, took in found)
    print(*ran.stdout.splitlines()[-2:], sep="\n")
    functions, parts = collections.defaultdict(collections.Counter), collections.Counter()
    for name, took in found:
        took *= processor / clock
        if its := MODULE.fullmatch(name):
            functions[its[1]][its[2]] += took
        parts[its[2] if its else "rest"] += took
    print(f"{processor:.0f} s in all:", *[f"{part} {took:.0f}" for part, took in parts.most_common(8)])
    for name, cost in sorted(functions.items(), key=lambda it: -it[1].total())[:most]:
        print(f"{cost.total():6.1f} s ", *[f"{part} {cost[part]:5.1f} " for part in ("Lts", "Proof", "Tie")], name)
    return ran.returncode


if __name__ == "__main__":
    if len(sys.argv) < 2:
        sys.exit(__doc__)
    sys.exit(main(pathlib.Path(sys.argv[1]).resolve(), int(sys.argv[2]) if len(sys.argv) > 2 else 25))
