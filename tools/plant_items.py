"""The items of Rattle files, their tokens, and bugs as stretches of text with other text in their place: for tools/plant.py."""

import re
from collections import namedtuple
from dataclasses import dataclass, field

TOKENS = re.compile(
    r"""(?P<space>\s+|//[^\n]*)|(?P<text>b?"(?:\\.|[^"\\])*")|(?P<char>b?'(?:\\.[^']*|[^'\\])')|(?P<life>'\w+)|(?P<number>\d\w*)
    |(?P<word>[^\W\d]\w*)|(?P<sign>\.\.=|\.\.|->|=>|::|&&|\|\||<<=|>>=|<<|>>|[-+*/%&|^=!<>]=|.)""",
    re.X | re.S,
)
CLOSERS = {"(": ")", "[": "]", "{": "}"}

Token = namedtuple("Token", "kind text start end")


class Bug(namedtuple("Bug", "kind start end new")):
    """New text for a stretch of a file."""

    def padded(self, text):
        """The new text with as many lines as the old, so that a place in a log is the place in the file."""
        return self.new + "\n" * (text.count("\n", self.start, self.end) - self.new.count("\n"))

    def line(self, text):
        return text.count("\n", 0, self.start) + 1

    def told(self, text):
        """The change as it is printed: old and new with some of the line on each side, in one line."""
        before = text[max(text.rfind("\n", 0, self.start), self.start - 40) + 1 : self.start].lstrip()
        after = re.match(r"[^\n]{0,30}", text[self.end :])[0]
        plain = lambda it: re.sub(r"\s+", " ", before + it + after).strip()
        return f"`{plain(text[self.start : self.end])}` -> `{plain(self.new)}`"


@dataclass(eq=False)
class Item:
    """A function with a body, or a constant, and the bugs that it can be given."""

    file: str
    owner: str  # the head of the impl or trait that it stands in
    fn: str
    text: str  # of its file
    tokens: list  # of its body
    result: str = ""
    params: str = ""
    constant: bool = False
    alone: bool = False
    first: int = 0
    last: int = 0
    bugs: list = field(default_factory=list)
    read_in: list = field(default_factory=list)  # of a constant: the functions that read it
    at: int = 0  # how many of the bugs were taken
    by_hand: int = 0  # how many of them stand in a file

    @property
    def name(self):
        return f"{self.file} {self.owner + '::' if self.owner else ''}{self.fn}"

    @property
    def readers(self):
        return [it.name for it in self.read_in]

    def has_bugs(self):
        return self.at < len(self.bugs)

    def next_bug(self):
        """The next bug, or nothing when all were taken."""
        self.at += 1
        return self.bugs[self.at - 1] if self.at <= len(self.bugs) else None

    def put_back(self, bug):
        """Makes a bug the next one again."""
        self.bugs.insert(self.at, bug)


def tokenize(text):
    return [Token(it.lastgroup, it[0], it.start(), it.end()) for it in TOKENS.finditer(text) if it.lastgroup != "space"]


def close(toks, i):
    """The index of the bracket that closes the one at i."""
    depth = 0
    for k in range(i, len(toks)):
        if toks[k].text in CLOSERS:
            depth += 1
        elif toks[k].text in CLOSERS.values():
            depth -= 1
            if depth == 0:
                return k
    return len(toks) - 1


def until(toks, i, ends, top=None):
    """The index of the first of these signs from i on that stands in no bracket opened behind i."""
    top = len(toks) if top is None else top
    while i < top and toks[i].text not in ends:
        i = close(toks, i) + 1 if toks[i].text in CLOSERS else i + 1
    return min(i, top)


def raw(text, toks, lo, hi):
    """The text of the tokens from lo up to hi."""
    return text[toks[lo].start : toks[hi - 1].end] if lo < hi else ""


# --- items


def header(text, toks, i):
    """What an impl or a trait is of, and the index of its opening brace."""
    j = i + 1
    if toks[j].text == "<":
        depth = 0
        while True:
            depth += {"<": 1, ">": -1, ">>": -2}.get(toks[j].text, 0)
            j += 1
            if depth <= 0:
                break
    brace = until(toks, j, {"{"})
    name = re.sub(r"<(?:'\w+(?:, )?)+>", "", raw(text, toks, j, until(toks, j, {"{", "where"})))
    return name.split(":")[0] if toks[i].text == "trait" else name, brace


def head(toks, i):
    """The index at which an item begins with its attributes, by that of its `fn`."""
    while i and (toks[i - 1].text in ("pub", "#", "const", "unsafe") or toks[i - 1].text in (")", "]")):
        i -= 1
        depth = 0
        while toks[i].text in (")", "]") or depth:
            depth += (toks[i].text in CLOSERS.values()) - (toks[i].text in CLOSERS)
            if not depth:
                break
            i -= 1
    return i


def function(file, owner, text, toks, i):
    """The function whose `fn` stands at i, or nothing where it has no body, and the index behind it."""
    opened = until(toks, i, {"("})
    j, params = close(toks, opened) + 1, raw(text, toks, opened + 1, close(toks, opened))
    stop = until(toks, j, {"{", ";", "requires", "ensures", "where"})
    result = raw(text, toks, j + 1, stop) if toks[j].text == "->" else ""
    while toks[j].text not in "{;":
        if toks[j].text in ("requires", "ensures"):
            j = until(toks, j, {"{"})
        j = close(toks, j) + 1 if toks[j].text in CLOSERS else j + 1
    if toks[j].text == ";":
        return None, j + 1
    end = close(toks, j)
    lines = [text.count("\n", 0, at) + 1 for at in (toks[head(toks, i)].start, toks[end].end)]
    return Item(file, owner, toks[i + 1].text, text, toks[j : end + 1], result, params, first=lines[0], last=lines[1]), end + 1


def constant(file, owner, text, toks, i):
    """The constant at i, and the index behind it."""
    end = until(toks, i, {";"})
    equals = until(toks, i, {"="}, end)
    lines = [text.count("\n", 0, at) + 1 for at in (toks[i].start, toks[end].end)]
    result, value = raw(text, toks, i + 3, equals), toks[equals + 1 : end]
    return Item(file, owner, toks[i + 1].text, text, value, result, constant=True, first=lines[0], last=lines[1]), end + 1


def items_in(file, text):
    """The items of a file."""
    toks, found, owners, i = tokenize(text), [], [], 0
    while i < len(toks):
        word, before = toks[i].text, toks[i - 1].text if i else ";"
        while owners and i > owners[-1][1]:
            owners.pop()
        owner = owners[-1][0] if owners else ""
        if word == "ghost":
            i = until(toks, i, {";", ",", "}"})
        elif word in ("impl", "trait") and before in (";", "}", "{", "]", "pub", ")", "unsafe"):
            head, brace = header(text, toks, i)
            owners.append((head, close(toks, brace)))
            i = brace
        elif word == "fn" and toks[i + 1].kind == "word":
            item, i = function(file, owner, text, toks, i)
            found += [item] if item else []
            continue
        elif word in ("const", "static") and before in (";", "}", "{", "]", "pub", ")") and toks[i + 2].text == ":":
            item, i = constant(file, owner, text, toks, i)
            found.append(item)
            continue
        i += 1
    return found


def items_of(texts, everywhere):
    """The items of a crate but those of tests, and what is known of all crates."""
    tests = set(re.findall(r"#\[cfg\(test\)\]\s*mod (\w+);", "".join(texts.values()))) | {"tests"}
    items = [it for file, text in texts.items() if file.removesuffix(".rt") not in tests for it in items_in(file, text)]
    for item in (it for it in items if it.constant):
        find_readers(item, items, texts)
    return items, Known([*everywhere, *texts.values()], items)


def find_readers(item, items, texts):
    """Who reads a constant: bodies, by its own name or by constants made of it; it is alone where anything else names it."""
    names, fixed = {item.fn}, False
    while not fixed:
        more = {it.fn for it in items if it.constant and names & {token.text for token in it.tokens}}
        fixed, names = more <= names, names | more
    naming = lambda toks: sum(token.text in names for token in toks)
    item.read_in = [it for it in items if it is not item and naming(it.tokens)]
    inside = sum(naming(it.tokens) for it in items) + len([it for it in items if it.constant and it.fn in names])
    clean = [re.sub(r"\buse [^;]*;", "", text) for file, text in texts.items() if file != "tests.rt"]
    item.alone = sum(naming(tokenize(text)) for text in clean) > inside


def add_by_hand(items, text):
    """Puts hand-written bugs before the others."""
    by_name, item, old = {it.name: it for it in items}, None, None
    for line in text.splitlines():
        if line.startswith("- "):
            old = line[2:]
        elif line.startswith("+ ") and item:
            lo, hi = item.tokens[0].start, item.tokens[-1].end
            if item.text.count(old, lo, hi) != 1:
                raise SystemExit(f"{item.name}: `{old}` stands there {item.text.count(old, lo, hi)} times, and not once")
            at = item.text.index(old, lo)
            item.bugs.insert(item.by_hand, Bug("by hand", at, at + len(old), line[2:].replace("\\n", "\n")))
            item.by_hand += 1
        elif line.strip() and not line.startswith("#"):
            if line.strip() not in by_name:
                raise SystemExit(f"there is no item {line.strip()}")
            item = by_name[line.strip()]


class Known:
    """What the operators know of all crates: variants of enums, fields of structs, and functions of one signature."""

    def __init__(self, texts, items):
        self.variants, self.fields, self.alike = {}, {}, {}
        for text in texts:
            toks = tokenize(text)
            for i, token in enumerate(toks[:-1]):
                if token.text in ("enum", "struct") and toks[i + 1].kind == "word":
                    self.learn(token.text, toks[i + 1].text, toks, until(toks, i, {"{", ";", "("}))
        for item in items:
            self.alike.setdefault((item.file, item.owner, re.sub(r"\w+:", "", item.params), item.result), []).append(item.fn)

    def learn(self, what, name, toks, i):
        end, members, k = close(toks, i), [], i + 1
        while toks[i].text == "{" and k < end:
            stop = until(toks, k, {","}, end)
            words = [j for j in range(k, stop) if toks[j].kind == "word" and toks[j].text != "pub" and toks[j - 1].text not in ("(", "[")]
            if toks[k].text != "ghost" and words:
                following = toks[words[0] + 1].text
                members.append((toks[words[0]].text, following if following in "({" else ""))
            k = stop + 1
        if what == "enum":
            self.variants[name] = members
        else:
            self.fields[name] = [member for member, _ in members]
