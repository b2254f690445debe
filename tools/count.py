#!/usr/bin/env python3
"""Prints the table of figures in docs/ARCHITECTURE.md: lines of code, definitions and proofs, and how many bugs are planted.

Run at the top of the repository. Lines that are blank or a comment do not count, and neither do tests.
"""

import pathlib


def lines(files, comment):
    """How many lines of the files are neither blank nor a comment."""
    kept = (line.strip() for file in files for line in file.read_text().splitlines())
    return sum(1 for line in kept if line and not line.startswith(comment))


def figures(top, name):
    """Code, definitions, proofs, edits in the gate and edits beside it, of a crate."""
    crate = top / "crates" / name
    code = [file for file in crate.glob("src/**/*.rt") if file.name != "tests.rt"]
    edits = len(list(crate.glob("must-fail/*.edit")))
    beside = len(list((top / "tools" / "planted" / name).glob("*.edit")))
    return lines(code, "//"), lines(crate.glob("specs/**/*.antt"), "--"), lines(crate.glob("proofs/**/*.antt"), "--"), edits, beside


def row(name, code, specs, proofs, edits, beside):
    """A line of the table. Where there is next to no code, a proof is not counted by it."""
    share = f"{proofs / code:.2f}" if code > 1 else "-"
    return f"| {name} | {code} | {specs} | {proofs} | {share} | {edits} | {beside} |"


def main():
    top = pathlib.Path.cwd()
    crates = [line.split(":")[0].strip() for line in (top / "crates.txt").read_text().splitlines() if ":" in line and not line.startswith("#")]
    found = {name: figures(top, name) for name in crates}
    for name, numbers in found.items():
        print(row(f"`{name}`", *numbers))
    print(row("all", *(sum(column) for column in zip(*found.values()))))


if __name__ == "__main__":
    main()
