#!/usr/bin/env python3
"""Asks of a checkout what the gate refuses before it proves anything, in half a minute.

    tools/gate_text.py [CHECKOUT]

Names folders with files that nothing reads, crates with a use that stands for something else than the library's own, with another layout than
`rt fmt` gives, and must-fail edits that cannot be applied. The last line counts them; the status is 1 where there is one.
It reads the toolchain's own rules (`rt` and `rtlib` beside it), so it holds for the kit that is installed.
"""
import importlib.machinery
import importlib.util
import os
import re
import sys

sys.dont_write_bytecode = True
import kit  # noqa: E402
root = os.path.abspath(sys.argv[1] if len(sys.argv) > 1 else ".")
sys.argv = ["rt"]
os.chdir(root)
loader = importlib.machinery.SourceFileLoader("rt_command", str(kit.FOLDER / "rt"))
rt = importlib.util.module_from_spec(importlib.util.spec_from_loader("rt_command", loader))
loader.exec_module(rt)
import rtlib  # noqa: E402

rtlib.stop = rt.stop
crates = rtlib.crates_below(root)
found = []
for name in sorted(it.name for it in os.scandir(root) if it.is_dir() and it.name != ".git"):
    try:
        rtlib.stop_on_unread(f"{root}/{name}", crates)
    except SystemExit:
        found.append(f"{name}/: files that nothing reads")
for crate in crates:
    checks = {
        "links": lambda: rtlib.stop_on_links(crate.folder),
        "text": lambda: rtlib.stop_on_text(crate, "verdict"),
        "words": lambda: rt.stop_on_words(crate),
    }
    for what, check in checks.items():
        try:
            check()
        except SystemExit:
            found.append(f"{crate.name}: {what}")
    if rtlib.fmt(crate.folder, "--check", open(os.devnull, "w")):
        found.append(f"{crate.name}: layout")
    code = rtlib.code_of(crate.folder)
    if re.search(rt.RENAMES, code) or re.search(rt.IGNORED, code):
        found.append(f"{crate.name}: renames std, or ignores a test")
    good, bad = rt.edits_of(crate)
    found += [f"{edit}: no edit" for edit in bad]
    found += [f"{edit}: {why}" for edit in good if (why := rt.read_edit(edit, crate.folder)[1])]
print(*found, sep="\n", end="\n" if found else "")
print(f"{len(found)} found")
sys.exit(bool(found))
