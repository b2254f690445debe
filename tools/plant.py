#!/usr/bin/env python3
"""Plants bugs in the code of the crates, and says which of them the check refuses.

    tools/plant.py [--list] [--verbose] [--bugs N] [--skip N] [--items PATTERN] CRATE ..

Every function with a body and every constant of the named crates (tests left out) is an item. Of each the tool plants N bugs (4), of
as many kinds as the text allows, and never in a contract, a specification, a proof or a test. A body is proved against the contracts of
what it calls, and never against their bodies; so one check carries one bug in each of many functions. A constant is read by bodies:
its bug shares a check with no bug in one of these, and where a type or a signature names it, with no other bug at all.

A bug is refused "at src" where the check complains at a line of its function, or at a clause of its trait, and "first at proofs" where
the complaint is about the function's own proof file alone. What does not compile counts for nothing, and the item's next bug takes its
place. Where all complaints are of an overflow or an index, this is said. A survivor is tried once more, alone.

What can be wrong with a body is in plant_operators.py. Bugs that it does not find stand in tools/planted/NAME.bugs: a line with the
item's name as --list prints it, and below it pairs of lines `- OLD` and `+ NEW`, OLD standing once in the item. The work is done in a
copy of the repository; nothing here changes.
"""

import argparse
import os
import pathlib
import re
import shutil
import signal
import subprocess
import sys
import tempfile
import time
from collections import namedtuple

sys.dont_write_bytecode = True  # leaves nothing beside the sources

from plant_items import add_by_hand, items_of  # noqa: E402
from plant_operators import bugs_of  # noqa: E402

LIMIT = 1500  # seconds that one check may take
NOTE = re.compile(r"^note: src/(\S+?):(\d+):\d+: (it is not proved that [^`]*)", re.M)
JUDGED = re.compile(r"^fn (\S+): ", re.M)
ERROR = re.compile(r"^(?:error: )?src/(\S+?):(\d+):\d+: error(.*)", re.M)
PROOF = re.compile(r"^(?:error: )?\./proofs/(\S+?)(?:/(?:Answers|Invariants|Proof))?\.antt:\S* error(.*)", re.M)
UNPROVED = re.compile(r"^fn (\S+): no proof: (?!it calls|it waits)(.*)", re.M)
RANGE = re.compile(r"fits|below|within what|the index|divisor|starts at or before")

Verdict = namedtuple("Verdict", "item bug where what")  # where: src, "src, range only", proofs, nowhere
WAYS = ("src", "proofs", "nowhere")


def check(place, limit=LIMIT):
    """The text that `rt check` prints in a crate's folder, and whether it ended by itself."""
    run = subprocess.Popen(["rt", "check"], cwd=place, text=True, stdout=subprocess.PIPE, stderr=subprocess.STDOUT, start_new_session=True)
    try:
        return run.communicate(timeout=limit)[0], True
    except subprocess.TimeoutExpired:
        os.killpg(run.pid, signal.SIGKILL)
        return run.communicate()[0], False


class Crate:
    """A crate in the copy: its items with the bugs that each can still be given, and the texts of its files."""

    def __init__(self, top, copy, name):
        self.name, self.place, self.results = name, copy / "crates" / name, []
        self.texts = {it.name: it.read_text() for it in sorted((self.place / "src").glob("*.rt"))}
        everywhere = [it.read_text() for it in sorted(top.glob("crates/*/src/*.rt"))]
        self.items, known = items_of(self.texts, everywhere)
        for item in self.items:
            item.bugs = bugs_of(item, known)
        by_hand = top / "tools" / "planted" / f"{name}.bugs"
        add_by_hand(self.items, by_hand.read_text() if by_hand.exists() else "")

    def write(self, picks=()):
        """Writes the files with these bugs, and with no others."""
        for file, text in self.texts.items():
            bugs = sorted((bug for item, bug in picks if item.file == file), key=lambda bug: -bug.start)
            for bug in bugs:
                text = text[: bug.start] + bug.padded(text) + text[bug.end :]
            path = self.place / "src" / file
            if path.read_text() != text:
                path.write_text(text)


def claims(item):
    """The items that must hold no other bug while this one holds one: itself, and all that read it where it is a constant."""
    return {item.name} | set(item.readers)


def rounds_of(items):
    """Items put together for checks: no two that touch the same one, and one that everything reads is alone."""
    rounds = []
    for item in items:
        mine = claims(item)
        for picks, taken in rounds:
            if not (item.alone or taken & mine or picks[0].alone):
                picks.append(item)
                taken |= mine
                break
        else:
            rounds.append(([item], set(mine)))
    return [picks for picks, _ in rounds]


def lines_in(found, item):
    """Those of the places found in a log that lie in an item."""
    return [it for it in found if it[0] == item.file and item.first <= int(it[1]) <= item.last]


def is_of(path, item):
    """Whether a path of a log, of a proof file or of a function, is that of an item: `from` of `From<Level> for u8` is U8FromLevel::from."""
    *_, place, fn = ["", *(it for it in re.split(r"[/:]+", path) if it)]
    trait, _, kind = item.owner.rpartition(" for ")
    kind = re.match(r"\w*", kind)[0] or item.file.removesuffix(".rt")
    words = [it[0].upper() + it[1:] for it in re.findall(r"\d+|\w\w+", trait.split("::")[-1].replace("()", "Unit").replace("&[", "ref slice "))]
    whole = ("Any" if len(kind) == 1 else kind[0].upper() + kind[1:]) + "".join(words)
    return fn == item.fn and place == (whole if words else kind)


def notes_of(crate, log, item):
    """What a log says is not proved of a function: at its lines, or at a clause of its trait and before the line that judges it."""
    parts = JUDGED.split(log)
    named = [note for text, name in zip(parts[::2], parts[1::2]) if is_of(name, item) for note in NOTE.findall(text)]
    return lines_in(NOTE.findall(log), item) + [it for it in named if not any(lines_in([it], other) for other in crate.items)]


def verdict(crate, item, bug, log):
    """What a log says of a bug."""
    readers = [item, *item.read_in]
    here = [note for it in readers for note in notes_of(crate, log, it)] or (NOTE.findall(log) if item.alone else [])
    if here:
        ranged = all(RANGE.search(note[2]) for note in here)
        return Verdict(item, bug, "src, range only" if ranged else "src", here[0][2].strip(" ("))
    for where, found in (("proofs", PROOF), ("src", UNPROVED)):
        for path, what in found.findall(log):
            if item.alone or any(is_of(path, it) for it in readers):
                return Verdict(item, bug, where, f"{path}: {what}"[:160])
    return Verdict(item, bug, "nowhere", "")


def attempt(crate, items, say):
    """One check with the next bug of each of these items; bugs that do not compile make room for the next ones."""
    picks, checks, began = [(it, it.next_bug()) for it in items], 0, time.time()
    while picks := [(item, bug) for item, bug in picks if bug]:
        crate.write(picks)
        (log, ended), checks = check(crate.place), checks + 1
        errors = ERROR.findall(log)
        broken = {item.name for item, _ in picks if any(lines_in(errors, it) for it in (item, *item.read_in)) or (item.alone and errors)}
        if broken:
            picks = [(item, item.next_bug() if item.name in broken else bug) for item, bug in picks]
            continue
        if ended and (NOTE.search(log) or "logic=proved" in log or PROOF.search(log) or UNPROVED.search(log)):
            say(f"  {len(picks)} bugs compiled in check {checks}, {time.time() - began:.0f} s")
            return [verdict(crate, item, bug, log) for item, bug in picks]
        say(f"  a check of {len(picks)} bugs ended in a way that says nothing: {log.strip().splitlines()[-1:]}")
        if len(picks) > 1:
            return [it for half in halves(picks) for it in attempt_again(crate, half, say)]
        picks = [(item, item.next_bug()) for item, _ in picks]
    return []


def halves(picks):
    middle = len(picks) // 2
    return picks[:middle], picks[middle:]


def attempt_again(crate, picks, say):
    """The same bugs again, fewer at once."""
    for item, bug in picks:
        item.put_back(bug)
    return attempt(crate, [item for item, _ in picks], say)


def alone(crate, found, say):
    """A survivor tried once more, with no other bug."""
    found.item.put_back(found.bug)
    again = attempt(crate, [found.item], say)
    return again[0] if again else found


def told(found):
    bug, item = found.bug, found.item
    return f"{item.name} line {bug.line(item.text)} [{bug.kind}] {bug.told(item.text)}"


def assert_proved(crate):
    """Stops the tool where a crate is not proved as it stands: then a check would say nothing of a bug."""
    crate.write()
    log, _ = check(crate.place)
    if "logic=proved" not in log:
        raise SystemExit(f"{crate.name} is not proved as it stands:\n{log[-2000:]}")


def try_one_each(crate, number, verbose, say):
    """Tries one more bug of each item of a crate, and prints what became of them."""
    for items in rounds_of([it for it in crate.items if it.has_bugs()]):
        found = [alone(crate, it, say) if it.where == "nowhere" else it for it in attempt(crate, items, say)]
        crate.results += found
        counts = [sum(it.where.startswith(way) for it in found) for way in WAYS]
        say(f"{crate.name} bug {number + 1}: {len(found)} tried, {counts[0]} refused at src, {counts[1]} at proofs, {counts[2]} survived")
        for it in found:
            if verbose or not it.where.startswith("src"):
                say(f"  {'SURVIVED' if it.where == 'nowhere' else it.where}: {told(it)}   {it.what}")
    crate.write()


def report(crate, say):
    """The counts of a crate, its survivors, what was refused first at proofs, and the items with fewer than three bugs."""
    results = crate.results
    ways = {way: [it for it in results if it.where.startswith(way)] for way in WAYS}
    ranged = sum(it.where == "src, range only" for it in results)
    say(f"== {crate.name}: {len(crate.items)} items, {len(results)} bugs planted, {len(ways['src'])} refused at src ({ranged} by range alone), "
        f"{len(ways['proofs'])} refused first at proofs, {len(ways['nowhere'])} survived")
    for way, name in (("nowhere", "survived"), ("proofs", "first at proofs")):
        for it in ways[way]:
            say(f"   {name}: {told(it)}")
    for item in crate.items:
        tried = sum(it.item is item for it in results)
        if tried < 3:
            say(f"   {tried} bugs: {item.name}{'' if item.bugs else ' (nothing in it can be changed)'}")


def copied(top, place, name):
    """A copy of a crate and of those that it uses, with what earlier checks kept, and without must-fail edits."""
    lines = dict(line.split(":") for line in (top / "crates.txt").read_text().splitlines() if not line.startswith("#"))
    wanted = [name]
    for crate in wanted:
        wanted += [it for it in lines[crate].split() if it in lines and it not in wanted]
        shutil.copytree(top / "crates" / crate, place / "crates" / crate, ignore=shutil.ignore_patterns("must-fail"))
    (place / "crates.txt").write_text("".join(f"{it}:{lines[it]}\n" for it in wanted))
    return place


def main():
    parser = argparse.ArgumentParser(description=__doc__.splitlines()[0])
    parser.add_argument("--list", action="store_true", help="print all bugs, in the order in which they would be tried")
    parser.add_argument("--verbose", action="store_true", help="print each bug with its verdict")
    parser.add_argument("--bugs", type=int, default=4, help="how many bugs an item gets")
    parser.add_argument("--skip", type=int, default=0, help="how many bugs of each item are passed over first")
    parser.add_argument("--items", help="a pattern: only items whose names it matches")
    parser.add_argument("crates", nargs="+", metavar="CRATE")
    options = parser.parse_args()
    top = pathlib.Path(__file__).resolve().parent.parent
    with tempfile.TemporaryDirectory() as room:
        places = {name: top if options.list else copied(top, pathlib.Path(room) / name, name) for name in options.crates}
        crates = [Crate(top, place, name) for name, place in places.items()]
        for crate in crates:
            crate.items = [it for it in crate.items if re.search(options.items or "", it.name)]
            for item in crate.items:
                item.at = options.skip
        if options.list:
            list_bugs(crates)
        else:
            try_all(crates, options, lambda line: print(line, flush=True))


def list_bugs(crates):
    for crate in crates:
        for item in crate.items:
            print(f"{crate.name} {item.name}: {len(item.bugs)} bugs")
            for bug in item.bugs:
                print(f"    [{bug.kind}] {bug.told(item.text)}")


def try_all(crates, options, say):
    """One bug of each item of every crate, then a second of each, and so on."""
    for crate in crates:
        assert_proved(crate)
    for number in range(options.bugs):
        for crate in crates:
            try_one_each(crate, number, options.verbose, say)
            if number + 1 == options.bugs:
                report(crate, say)


if __name__ == "__main__":
    sys.exit(main())
