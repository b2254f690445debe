"""What can be wrong with a body: the operators of tools/plant.py, each of which finds bugs of one kind or a few by a body's tokens.

Whether a bug compiles is left to the check: an operator only looks at the text.
"""

import re
import zlib
from itertools import zip_longest

from plant_items import CLOSERS, Bug, close, raw, tokenize, until

# Kinds whose bugs seldom show anything new, or seldom compile: they are tried last.
LAST = ["cut down", "plain value", "variable"]
KEYWORDS = set("as break const continue else false fn for if impl in let loop match mut pub ref return self Self true unsafe use while move".split())
BOUNDS = {"<": "<=", "<=": "<", ">": ">=", ">=": ">", "==": "!=", "!=": "=="}
SIGNS = {"+": "-", "-": "+", "*": "+", "/": "*", "%": "/", "<<": ">>", ">>": "<<", "&": "|", "|": "&", "+=": "-=", "-=": "+="}
METHODS = {
    "min": "max", "max": "min", "is_some": "is_none", "is_none": "is_some", "is_ok": "is_err", "is_err": "is_ok", "first": "last",
    "to_le_bytes": "to_be_bytes", "from_le_bytes": "from_be_bytes", "any": "all", "checked_mul": "checked_add", "checked_add": "checked_mul",
    "take_while": "skip_while", "strip_suffix": "strip_prefix", "copy_from_slice": "clone_from_slice",
}
NUMBERS = ("u8", "u16", "u32", "u64", "usize")
PLAIN = {
    "bool": ["true", "false"], "fmt::Result": ["Ok(())"], "&[u8]": ['b""'], "&[u64]": ["&[]"],
    **{number: ["0", "1"] for number in NUMBERS},
}


class Body:
    """The tokens of an item with their text, and what is known of the crates."""

    def __init__(self, item, known):
        self.item, self.known, self.toks, self.text = item, known, item.tokens, item.text
        self.lo, self.hi = (0, len(self.toks)) if item.constant else (1, len(self.toks) - 1)
        self.types = dict(re.findall(r"(\w+): ([^,]+)", item.params))

    def each(self):
        """Each token with its index, and the texts of those on its two sides."""
        toks = self.toks
        for i in range(self.lo, self.hi):
            yield i, toks[i], toks[i - 1].text if i else "", toks[i + 1].text if i + 1 < len(toks) else ""

    def apart(self, i):
        """Whether a sign has blanks on both sides, as signs between two operands have."""
        return self.text[self.toks[i].start - 1].isspace() and self.text[self.toks[i].end].isspace()

    def counts(self, name):
        """Whether a variable may be a number: a parameter of another type is not."""
        return self.types.get(name, "u64") in NUMBERS

    def differ(self, one, two):
        """Whether two variables are parameters of two types."""
        return one in self.types and two in self.types and self.types[one] != self.types[two]

    def raw(self, lo, hi):
        return raw(self.text, self.toks, lo, hi)

    def bug(self, kind, lo, hi, new):
        """Tokens from lo up to hi replaced."""
        return Bug(kind, self.toks[lo].start, self.toks[hi - 1].end, new)

    def in_pattern(self, i):
        """Whether a token stands in a pattern: in brackets behind which there is `=>`, `=` or `|`."""
        while (opened := self.back(i, set()) - 1) >= 0:
            after = self.toks[min(close(self.toks, opened) + 1, len(self.toks) - 1)].text
            if after not in (")", "}", ",") or self.toks[opened].text == "{" and self.toks[opened - 1].kind != "word":
                return after in ("=>", "=", "|")
            i = opened
        return False

    def swap(self, kind, one, two):
        """Two stretches of tokens in each other's place."""
        new = self.raw(*two) + self.text[self.toks[one[1] - 1].end : self.toks[two[0]].start] + self.raw(*one)
        return self.bug(kind, one[0], two[1], new)

    def parts(self, i):
        """The stretches between the commas of a bracket."""
        end, k, found = close(self.toks, i), i + 1, []
        while k < end:
            stop = until(self.toks, k, {","}, end)
            found.append((k, stop))
            k = stop + 1
        return found

    def back(self, i, ends):
        """The index behind the last of these signs before i that stands in no bracket closed before i, or behind an opening one."""
        depth, k = 0, i - 1
        while k >= 0:
            sign = self.toks[k].text
            if depth == 0 and (sign in ends or sign in CLOSERS):
                return k + 1
            depth += (sign in CLOSERS.values()) - (sign in CLOSERS)
            k -= 1
        return 0

    def statement(self, i):
        """The index of the first token of the statement that ends before i."""
        depth, k = 0, i - 1
        while k >= 0:
            sign, after = self.toks[k].text, self.toks[min(k + 1, len(self.toks) - 1)]
            if depth == 0 and (sign in CLOSERS or sign == ";" or (sign == "}" and k + 1 < i and (after.kind == "word" or after.text in "*("))):
                if not (sign == "}" and after.text == "else"):
                    return k + 1
            depth += (sign in CLOSERS.values()) - (sign in CLOSERS)
            k -= 1
        return 0


def signs(body):
    """Wrong bounds, wrong signs, and the other of `&&` and `||`."""
    for i, token, before, after in body.each():
        for kind, table in (("bound", BOUNDS), ("arithmetic", SIGNS), ("and or", {"&&": "||", "||": "&&"})):
            if token.text in table and body.apart(i) and before not in CLOSERS and before not in ("=", "=>", "return", ","):
                yield body.bug(kind, i, i + 1, table[token.text])
        if token.text == "..=":
            yield body.bug("bound", i, i + 1, "..")
        if token.text == ".." and after not in ("}", "]", ")", "self") and before not in ("{", ","):
            yield body.bug("bound", i, i + 1, "..=")


def constants(body):
    """Another number, a named constant and one, and `true` for `false`."""
    for i, token, before, after in body.each():
        if token.kind == "number" and before != ".":
            value = int(re.sub(r"_|u\d+$|usize$", "", token.text), 0)
            shown = hex if token.text.startswith("0x") else str
            for other in {value + 1, value + 2, max(value - 1, 0), 0, value * 2 + 1} - {value}:
                yield body.bug("constant", i, i + 1, shown(other))
        if token.kind == "word" and re.fullmatch(r"[A-Z][A-Z_]{2,}", token.text) and after != ":" and before != "::":
            yield body.bug("constant", i, i + 1, f"({token.text} + 1)")
            yield body.bug("constant", i, i + 1, f"({token.text} - 1)")
        if token.text in ("true", "false"):
            yield body.bug("flipped", i, i + 1, "false" if token.text == "true" else "true")


def swaps(body):
    """Two arguments, two parts of a tuple or a list, or two fields in each other's place."""
    for i, token, before, after in body.each():
        macro = token.text == "(" and before == "!"
        if token.text in ("(", "["):
            parts = body.parts(i)[2 if macro else 0 :]
            for one, two in zip(parts, parts[1:]):
                its, other = body.raw(*one), body.raw(*two)
                if its != other and its and other and not body.differ(its, other):
                    yield body.swap("swap", one, two)
        if token.text == "{" and (before[:1].isupper() or before == ">"):
            parts = [it for it in body.parts(i) if it[1] > it[0] and body.toks[it[0]].kind == "word"]
            for one, two in zip(parts, parts[1:]):
                yield from fields_swapped(body, one, two)


def fields_swapped(body, one, two):
    """The values of two fields of a literal or a pattern, swapped: a field without a value stands for `name: name`."""
    split = lambda it: (body.raw(it[0], it[0] + 1), body.raw(it[0] + 2, it[1]) or body.raw(it[0], it[0] + 1))
    (name, value), (other, its) = split(one), split(two)
    if value != its and not body.differ(value, its):
        between = body.text[body.toks[one[1] - 1].end : body.toks[two[0]].start]
        yield body.bug("swap", one[0], two[1], f"{name}: {its}{between}{other}: {value}")


def statements(body):
    """A statement, a loop or a question left out."""
    for i, token, before, after in body.each():
        if token.text == ";" and before not in ("[", ";"):
            first = body.statement(i)
            if body.toks[first].text not in ("let", "return", "const", "use") and body.toks[first - 1].text in (";", "{", "}"):
                yield body.bug("question" if before == "?" else "dropped", first, i + 1, "")
        if token.text in ("if", "for", "while") and before in ("{", "}", ";"):
            end = close(body.toks, until(body.toks, i, {"{"}))
            if end + 1 < len(body.toks) and body.toks[end + 1].text != "else":
                yield body.bug("question" if "return" in body.raw(i, end) else "dropped", i, end + 1, "")


def sides(body):
    """One side of `&&` or `||` left out."""
    ends = {";", ",", "=", "=>", "return", "if", "while", "|", "&&", "||"}
    for i, token, before, after in body.each():
        if token.text in ("&&", "||") and body.apart(i) and before not in ("(", "="):
            left, right = body.back(i, ends), until(body.toks, i + 1, {";", ",", "{", "}", ")", "]", "=>", "else", "&&", "||"})
            yield body.bug("question", left, i + 1, "")
            yield body.bug("question", i, right, "")


def negations(body):
    """A condition turned into its opposite."""
    toks = body.toks
    for i, token, before, after in body.each():
        if token.text in ("if", "while") and after != "let":
            stop = until(toks, i + 1, {"{", "=>"})
            yield body.bug("negated", i + 1, stop, f"!({body.raw(i + 1, stop)})")
        if token.text == "!" and (toks[i - 1].end < token.start or before in CLOSERS) and body.text[token.end] not in "= ":
            yield body.bug("negated", i, i + 1, "")
    if body.item.result == "bool" and (tail := body.statement(body.hi)) < body.hi:
        yield body.bug("negated", tail, body.hi, f"!({body.raw(tail, body.hi)})")


def arms(body):
    """An arm of a match with the value of another, or left out where a last one takes all."""
    for i, token, before, after in body.each():
        if token.text == "match":
            found = arms_of(body, until(body.toks, i + 1, {"{"}))
            for k, (first, value, end, _) in enumerate(found):
                for step in range(1, min(len(found), 4)):
                    other = found[(k + step) % len(found)]
                    if body.raw(value, end) != body.raw(*other[1:3]):
                        yield body.bug("arm", value, end, body.raw(*other[1:3]))
                if len(found) > 1 and k + 1 < len(found) and body.toks[found[-1][0]].text == "_":
                    yield body.bug("missed case", first, found[k][3], "")


def arms_of(body, brace):
    """The arms of a match: where the pattern begins, the value begins and ends, and the next arm begins."""
    toks, end, k, found = body.toks, close(body.toks, brace), brace + 1, []
    while k < end:
        value = until(toks, k, {"=>"}, end) + 1
        if value > end:
            break
        block = close(toks, value) + 1 if toks[value].text == "{" else None
        stop = block if block and toks[block].text != "." else until(toks, value, {","}, end)
        following = stop + 1 if toks[stop].text == "," else stop
        found.append((k, value, stop, following))
        k = following
    return found


def variants(body):
    """Another variant of an enum, or another error; nothing, where there was something."""
    for i, token, before, after in body.each():
        members = body.known.variants.get(token.text)
        if members and after == "::" and i + 2 < body.hi:
            names = [it[0] for it in members]
            here = body.toks[i + 2].text
            shape = dict(members).get(here)
            error = "error" if re.search("Fault|Bad|Refusal|Lack|Unread", token.text) else "variant"
            others = [it for it in names[names.index(here) + 1 :] + names if dict(members)[it] == shape] if here in names else []
            for other in [it for it in others if it != here][:2]:
                yield body.bug(error, i + 2, i + 3, other)
        if token.text == "Some" and after == "(" and before in ("return", "=>", "{", "}", ";"):
            end = close(body.toks, i + 1) + 1
            yield body.bug("variant", i, end, "None")


def places(body):
    """A value one too high, or cut down, where it is an argument, a field or an index."""
    for i, token, before, after in body.each():
        if token.kind == "word" and token.text not in KEYWORDS and token.text[0].islower() and body.counts(token.text) and not body.in_pattern(i):
            if before in ("(", ",", "[") and after in (",", ")", "]", "..", ".."):
                yield body.bug("off by one", i, i + 1, f"{token.text} + 1")
                yield body.bug("cut down", i, i + 1, f"{token.text} / 2")
            if before in ("{", ",") and after in (",", "}"):
                yield body.bug("off by one", i, i + 1, f"{token.text}: {token.text} + 1")
                yield body.bug("cut down", i, i + 1, f"{token.text}: {token.text} / 2")
        if token.text == "]" and body.toks[i - 1].text != "[" and ";" not in body.raw(body.back(i, set()), i):
            yield body.bug("off by one", i, i + 1, " + 1]")
        if token.text == "as" and after in ("usize", "u64", "u32", "u16") and body.types.get(before) != "u8":
            yield body.bug("cut down", i, i + 2, f"as u8 as {after}")
    if body.item.result in NUMBERS and (tail := body.statement(body.hi)) < body.hi:
        yield body.bug("off by one", tail, body.hi, f"({body.raw(tail, body.hi)}) + 1")


def fields(body):
    """Another field of the same struct, or the other part of a pair."""
    for i, token, before, after in body.each():
        if before == "." and after != "(" and token.kind == "word":
            own = body.known.fields.get(re.sub(r"\W.*", "", body.item.owner.split(" for ")[-1])) if body.toks[i - 2].text == "self" else None
            for members in [own] if own else body.known.fields.values():
                at = members.index(token.text) if token.text in members else 0
                for other in (members[(at + 1) % len(members)], members[at - 1]) if token.text in members and len(members) > 1 else ():
                    yield body.bug("field", i, i + 1, other)
        if before == "." and token.text in ("0", "1") and body.toks[i - 2].text != "self":
            yield body.bug("field", i, i + 1, "1" if token.text == "0" else "0")


def calls(body):
    """Another function of the same signature, or a method that does the opposite."""
    alike = [names for key, names in body.known.alike.items() if key[:2] == (body.item.file, body.item.owner) or not key[1]]
    for i, token, before, after in body.each():
        if token.kind == "word" and after in ("(", "::"):
            for names in (it for it in alike if token.text in it):
                for other in [it for it in names if it not in (token.text, body.item.fn)][:2]:
                    yield body.bug("call", i, i + 1, other)
            if token.text in METHODS and after == "(":
                yield body.bug("call", i, i + 1, METHODS[token.text])


def letters(body):
    """A changed letter of a text, two values of it swapped, or one shown otherwise."""
    for i, token, before, after in body.each():
        if token.kind == "text":
            plain = [it.start() for it in re.finditer(r"[^\W_]|[-:,]", re.sub(r"\{[^}]*\}|\\.", lambda it: "_" * len(it[0]), token.text))]
            plain = [it for it in plain if token.text[:1] != "b" or it > 1]
            for at in {plain[-1], plain[len(plain) // 2], plain[0]} if plain else ():
                yield Bug("letter", token.start + at, token.start + at + 1, chr(ord(token.text[at]) + (-1 if token.text[at] in "zZ9" else 1)))
            held = list(re.finditer(r"\{\w+\}", token.text))
            for one, two in zip(held, held[1:]):
                between = token.text[one.end() : two.start()]
                yield Bug("swap", token.start + one.start(), token.start + two.end(), two[0] + between + one[0])
            for it in re.finditer(r"\{\w*(:\w+)\}", token.text):
                yield Bug("format", token.start + it.start(1), token.start + it.end(1), "")
        if token.kind == "char" and (letter := re.fullmatch(r"b?'(.)'", token.text)):
            yield body.bug("letter", i, i + 1, token.text.replace(letter[1], chr(ord(letter[1]) + 1)))
        if token.kind == "char" and token.text[-3:-1] in (r"\n", r"\r", r"\t", r"\0"):
            yield body.bug("letter", i, i + 1, token.text[:-3] + {r"\n": r"\t", r"\r": r"\n", r"\t": r"\n", r"\0": r"\n"}[token.text[-3:-1]] + "'")


def tails(body):
    """A plain value of the type of the result in the place of the last expression."""
    result, tail = body.item.result, body.statement(body.hi)
    values = list(PLAIN.get(result, []))
    if result.startswith("Option<"):
        values = ["None"]
    if made := re.match(r"Result<(\(\)|u64|bool|Option<.*>), \w+>$", result):
        values = [f"Ok({ {'()': '()', 'u64': '0', 'bool': 'false'}.get(made[1], 'None')})"]
    values += [f"{result}::{name}" for name, shape in body.known.variants.get(result, []) if not shape][:2]
    for value in values if tail < body.hi else []:
        yield body.bug("plain value", tail, body.hi, value)


def variables(body):
    """Another variable in the place of one."""
    named = lambda toks: [it.text for it in toks if it.kind == "word" and it.text[0].islower() and it.text not in KEYWORDS]
    given = re.findall(r"(\w+):(?!:)", body.item.params)
    made = [body.toks[i].text for i, _, before, after in body.each() if body.toks[i].kind == "word" and before in ("let", "mut", "for")]
    local = [it for it in dict.fromkeys(given + made) if it in set(named(body.toks)) | set(given)]
    for i, token, before, after in body.each():
        if token.text in local and before not in (".", "let", "mut", "for", "::") and after not in ("(", ":", "::", "!"):
            at = local.index(token.text)
            for other in [it for it in dict.fromkeys(local[at + 1 :] + local[:at]) if not body.differ(it, token.text)]:
                shown = f"{token.text}: {other}" if before in ("{", ",") and after in (",", "}") else other
                yield body.bug("variable", i, i + 1, shown)


OPERATORS = [signs, constants, swaps, statements, sides, negations, arms, variants, places, fields, calls, letters, tails, variables]


def bugs_of(item, known):
    """The bugs of an item in the order in which they are tried: one of each kind, then a second of each, and so on."""
    mark = lambda *of: zlib.crc32(repr((item.name, *of)).encode())
    body, kinds = Body(item, known), {}
    made = lambda bug: re.sub(r"\s+", "", item.text[item.tokens[0].start : bug.start] + bug.new + item.text[bug.end : item.tokens[-1].end])
    bugs = {made(it): it for operator in OPERATORS for it in operator(body)}
    bugs.pop(re.sub(r"\s+", "", item.text[item.tokens[0].start : item.tokens[-1].end]), None)
    for bug in bugs.values():
        kinds.setdefault(bug.kind, []).append(bug)
    order = sorted(kinds, key=lambda kind: (LAST.index(kind) if kind in LAST else -1, mark(kind)))
    piles = [sorted(kinds[kind], key=lambda bug: mark(bug.start - item.tokens[0].start, bug.new)) for kind in order]
    return [bug for row in zip_longest(*piles) for bug in row if bug]
