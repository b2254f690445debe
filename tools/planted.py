#!/usr/bin/env python3
"""Tries the planted bugs that the gate does not: the edits in tools/planted/NAME/, as `rt must-fail` tries those in crates/NAME/must-fail/.

Run at the top of the repository, with the names of crates or with none for all. It works on a copy and changes nothing here. Each bug
has to be refused, with its first error in src/; the last line says how many were.
"""

import pathlib
import shutil
import subprocess
import sys
import tempfile


def folders(top):
    """The folders of edits, one for each crate that has some."""
    return sorted(it for it in (top / "tools" / "planted").iterdir() if it.is_dir())


def copied(top, room):
    """A copy of the repository whose must-fail edits are the planted ones."""
    skipped = shutil.ignore_patterns("out", "target", ".git")
    place = pathlib.Path(room) / "copy"
    shutil.copytree(top, place, ignore=skipped)
    for crate in (place / "crates").iterdir():
        shutil.rmtree(crate / "must-fail", ignore_errors=True)
    for edits in folders(place):
        edits.rename(place / "crates" / edits.name / "must-fail")
    return place


def main(names):
    top = pathlib.Path.cwd()
    crates = names or [it.name for it in folders(top)]
    wanted = sum(len(list(top.glob(f"tools/planted/{it}/*.edit"))) for it in crates)
    with tempfile.TemporaryDirectory() as room:
        place = copied(top, room)
        run = subprocess.run(["rt", "must-fail", *crates], cwd=place, text=True, stdout=subprocess.PIPE, stderr=subprocess.STDOUT)
    tried = [it for it in run.stdout.splitlines() if it.startswith("rt: must-fail ")]
    refused = [it for it in tried if ": refused, as it must be: note: src/" in it]
    for line in tried:
        if line not in refused:
            print(line)
    print(f"{len(refused)} of {wanted} planted bugs are refused, first in src/")
    return 0 if len(refused) == wanted else 1


if __name__ == "__main__":
    sys.exit(main(sys.argv[1:]))
