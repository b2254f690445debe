#!/usr/bin/env python3
"""Brings the names of this repository's definitions and lemmas to one spelling: words in snake case, types in camel case,
and a dash only between two names, as in `length-words_of`. Run once at the top of the repository, after the script of the older kit that respells the library's words.

It goes by whole names: no function of src/, string, input or output has one of these. `behind-set` and `shown-set` stay, since
their dash joins two names."""

import glob
import re
import sys

# Names that are not just the old one with `_` for `-`.
OTHERWISE = {
    "All-set": "AllSet",
    "Byte-order": "ByteOrder",
    "Closed-for-good": "ClosedForGood",
    "None-loads": "NoneLoads",
    "Reads-back": "ReadsBack",
    "Side-by-side": "SideBySide",
    "Words-found": "WordsFound",
    "behind-put": "behind-put_word",
    "feed-all-append": "feed_all-append",
    "length-put": "length-put_word",
    "words-length": "length-words_of",
}

# Definitions, lemmas, fields and parameters, by crate.
PLAIN = """
memory: byte-in byte-kept byte-order frames-in shown-laws shown-past word-put word-shown words-past words-put
scanner: after-group after-lead after-step bytes-of-words fed-byte feed-all feed-all-means from-clean no-load
scanner: passing-decides step-means words-none
text: a-digit after-word after-words before-blank before-letter behind-first blank-apart blank-length blanks-stop
text: command-part decimal-back digit-back digit-of digits-back digits-read hex-bytes hex-digit hexadecimal-back
text: hexadecimal-more hexadecimal-one last-digit leading-front leading-stop letters-of letters-stop line-text no-pair
text: number-means number-of-means numeral-back odd-none onto-more pairs-back puts-behind reads-on-means rest-found
text: shown-text then-none wants-memory
script: after-reading answer-of answer-text cannot-read command-of decimal-at ends-before frames-for hexadecimal-at
script: is-scan keyword-of kind-name kind-of line-feed memory-of preset-answer scan-of supplied-laws supplied-size
script: supplied-words zero-at zeros-shown zeros-words
policy: after-a after-all after-b all-open all-open-means append-only-after append-only-laws append-only-opens by-region
policy: cleared-closes cleared-pastes closed-for-good closed-where count-a count-b first-open flags-fall free-after
policy: free-laws free-opens in-first in-none in-second is-span kept-open kind-laws mark-ends mark-rises none-clear
policy: one-region open-from opens-a opens-b pair-after pair-count pair-laws pair-opens permitted-decides
policy: permitted-last permitted-means region-0 set-closes shown-both tells-second write-once-after write-once-laws
policy: write-once-opens
"""

# Names that port.py gave to definitions, where docs/ still has the old ones.
IN_DOCS = {name: name.replace("-", "_") for name in ["left-open", "number-of", "word-at", "words-of"]}

NAMES = dict(OTHERWISE)
for line in PLAIN.split("\n"):
    for name in line.split()[1:]:
        NAMES[name] = name.replace("-", "_")

TOKEN = re.compile(r"(?<![\w'.·-])[A-Za-z][\w']*(?:-[\w']+)+")
# Behind a dot only a field of ours is respelled: most such paths are steps of a proof, whose names the kit makes.
FIELD = re.compile(r"(?<=\.)(?:no-load|tells-second)(?![\w'-])")


def respell(text, names):
    def turn(found):
        return names.get(found.group(0), found.group(0))

    out = []
    for line in text.split("\n"):
        new = FIELD.sub(turn, TOKEN.sub(turn, line))
        # The list of names at the head of a file keeps its columns.
        entry = re.match(r"(--   \S+(?:, \S+)*)(  +)(\S.*)$", new)
        if entry and len(new) != len(line):
            width = len(re.match(r"--   \S+(?:, \S+)*  +", line).group(0))
            new = entry.group(1).ljust(width) + entry.group(3)
        out.append(new)
    return "\n".join(out)


def by_its_own_name(text):
    """The library's `All` over a list's structure, under its own name."""
    if "AllByRecursion as All" not in text:
        return text
    text = text.replace("AllByRecursion as All", "AllByRecursion")
    return re.sub(r"(?<![\w'.-])All(?![\w'-])", "AllByRecursion", text)


def main():
    files = glob.glob("crates/*/specs/**/*.antt", recursive=True)
    files += glob.glob("crates/*/proofs/**/*.antt", recursive=True)
    files += glob.glob("crates/*/src/**/*.rt", recursive=True)
    for file in files:
        old = open(file).read()
        new = by_its_own_name(respell(old, NAMES))
        if new != old:
            open(file, "w").write(new)
    in_docs = {**NAMES, **IN_DOCS}
    for file in glob.glob("docs/*.md") + ["README.md"]:
        old = open(file).read()
        new = re.sub(r"`([A-Za-z-]+)`", lambda m: "`" + in_docs.get(m.group(1), m.group(1)) + "`", old)
        if new != old:
            open(file, "w").write(new)
    return 0


if __name__ == "__main__":
    sys.exit(main())
