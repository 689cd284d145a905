#!/usr/bin/env python3
"""Checks functions of a crate over the sources of the crates below it, or over libraries that another clone has built.

    cd crates/NAME; ../../tools/over_sources.py [--libraries CLONE] FUNCTION..

`rt check` first builds the library of each crate below, also with `--only`, and a crate with an open proof has none. This builds nothing: lower crates
are read from their sources, their contracts are taken as they stand, and the goals of `?` are printed. `holes=0` and no error is the verdict.

A crate whose files are the same in CLONE (src, specs and proofs), and all below it, is read from its library there: a run of `rt ci` in CLONE leaves one for
each crate that it proved, also while it goes on. What is read from sources costs a check of each of its functions that is reached: over nothing but
sources that is 2 GB in the middle of the tree, 8 GB and a thousand functions for ssq_run, over libraries a minute. It proves nothing for the gate.
"""
import os
import pathlib
import subprocess
import sys

sys.dont_write_bytecode = True
import kit  # noqa: E402, F401
import rtlib  # noqa: E402

RATTLE = rtlib.RATTLE


def crate_here():
    """The crate of the current folder."""
    here = os.getcwd()
    return rtlib.Crate(here, rtlib.root_above(here) or here, {})


def files(crate):
    """The files of a crate by their paths in it."""
    paths = [path for part in ("src", "specs", "proofs") for path in (crate / part).rglob("*") if path.is_file()]
    return {path.relative_to(crate): path.read_bytes() for path in paths}


def libraries(crate, clone):
    """The libraries of the clone for the crates below that are the same there, by the crates' names."""
    found = {}
    for dep in crate.below():
        there = clone / "crates" / dep.name
        library = there / "out/rlib" / f"{dep.name}.rlib"
        if library.is_dir() and all(it.name in found for it in dep.deps) and files(pathlib.Path(dep.folder)) == files(there):
            found[dep.name] = library
    return found


def words(crate, built):
    """How rattle is called: the kit's libraries, those that are built, and the sources of the rest."""
    kit = {"core", *crate.of_kit, *[it for dep in crate.below() for it in dep.of_kit]}
    said = ["--crate-name", crate.name, "src/main.rt" if crate.is_program else "src/lib.rt"]
    for name in sorted(kit):
        said += ["--extern", f"{name}={rtlib.KIT}/rlibs/{name}.rlib"]
    said += ["-L", f"dependency={rtlib.KIT}/rlibs"]
    for dep in crate.below():
        if dep.name in built:
            said += ["--extern", f"{dep.name}={built[dep.name]}", "-L", f"dependency={built[dep.name].parent}"]
        else:
            uses = dict.fromkeys(["core", *dep.of_kit, *[it.name for it in dep.deps]])
            said += ["--lib", f"{dep.name}:{','.join(uses)}={dep.folder}/src/lib.rt"]
    said += ["--antt-project", f"{rtlib.KIT}/rattle/logic/antt-project.json", "--logic-built", f"{rtlib.KIT}/logic_built"]
    return said + ["--links", f"{crate.name}=", "--jobs", "1", "--allow-holes"]


def main():
    names, clone = sys.argv[1:], None
    if names[:1] == ["--libraries"]:
        clone, names = pathlib.Path(names[1]).resolve(), names[2:]
    if not names:
        sys.exit(__doc__)
    crate = crate_here()
    built = libraries(crate, clone) if clone else {}
    print("over sources:", *[dep.name for dep in crate.below() if dep.name not in built], flush=True)
    only = [word for name in names for word in ("--only", name)]
    return subprocess.call([RATTLE, "check", *words(crate, built), *only])


if __name__ == "__main__":
    sys.exit(main())
