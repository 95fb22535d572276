"""Reads sources of this repository for guards: their tokens, functions, `impl`s and arms.

Comments, attributes, contracts and ghost code are left out.
"""
import re
import sys
from typing import NamedTuple

OPEN, CLOSE = set("([{"), set(")]}")
TOKEN = re.compile(
    r"""(?P<skip>\s+|//[^\n]*|/\*.*?\*/)|(?P<text>b?"(?:\\.|[^"\\])*"|b?'(?:\\.[^']*|[^\\'])')"""
    r"""|(?P<name>\w+)|(?P<sign>::|=>|->|==|!=|<=|>=|.)""",
    re.DOTALL,
)


class Token(NamedTuple):
    """A piece of a source, and the line that it stands in."""

    text: str
    line: int
    begin: int
    end: int


class Source:
    """The tokens of a source without attributes, contracts and ghost code, and what stands where."""

    def __init__(self, name, text):
        self.name, self.text = name, text
        self.tokens = plain_tokens(text)
        self.partner = partners(self.tokens)

    def is_at(self, at, *texts):
        """Whether the tokens from here on have these texts."""
        return [it.text for it in self.tokens[at:at + len(texts)]] == list(texts)

    def until(self, at, *texts):
        """The first place from here on with one of these texts, outside brackets that open after here."""
        while at < len(self.tokens) and self.tokens[at].text not in texts and self.tokens[at].text not in CLOSE:
            at = self.partner[at] + 1 if self.tokens[at].text in OPEN else at + 1
        return at

    def names(self, first, end):
        """The texts of these places."""
        return [it.text for it in self.tokens[first:end]]


def plain_tokens(text):
    """The tokens of a source that are code."""
    tokens, line, at = [], 1, 0
    for it in TOKEN.finditer(text):
        if it.lastgroup != "skip":
            tokens.append(Token(it[0], line, it.start(), it.end()))
        line += it[0].count("\n")
    kept, partner = [], partners(tokens)
    texts = [it.text for it in tokens]
    while at < len(tokens):
        if texts[at] == "#" and "[" in texts[at + 1:at + 3]:
            at = partner[texts.index("[", at)] + 1
        elif texts[at] in ("requires", "ensures"):
            at = partner[texts.index("{", at)] + 1
        elif texts[at] == "ghost":
            while texts[at] not in {";", ","} | CLOSE:
                at = partner[at] + 1 if texts[at] in OPEN else at + 1
            at += texts[at] not in CLOSE
        else:
            kept.append(tokens[at])
            at += 1
    return kept


def partners(tokens):
    """The place of the bracket that closes each that opens."""
    opened, partner = [], {}
    for at, it in enumerate(tokens):
        if it.text in OPEN:
            opened.append(at)
        elif it.text in CLOSE:
            partner[opened.pop()] = at
    return partner


def type_name(texts):
    """The name of a type: the last one of its path, before what it is of."""
    names = []
    for it in texts:
        if it == "<" and names:
            break
        if re.match(r"[A-Za-z_]", it) and it not in ("dyn", "mut"):
            names.append(it)
    return names[-1] if names else ""


def error_of(texts):
    """The name of the error of a type `Result<_, E>`, or nothing."""
    if texts[:2] != ["Result", "<"]:
        return ""
    depth, last = 0, 0
    for at, it in enumerate(texts):
        depth += (it in OPEN or it == "<") - (it in CLOSE or it == ">")
        if it == "," and depth == 1:
            last = at + 1
        if it == ">" and depth == 0:
            break
    return type_name(texts[last:at]) if last else ""


def impls_of(source):
    """The `impl`s of a source: where it begins and ends, its trait with what that is of, and its type."""
    for at, it in enumerate(source.tokens):
        if it.text == "impl" and source.names(at - 1, at) in ([], ["}"], [";"], ["{"]):
            body = source.until(at, "{")
            head = source.names(at + 1, body)
            if head[0] == "<":
                depth = 0
                for end, of in enumerate(head):
                    depth += (of == "<") - (of == ">")
                    if depth == 0:
                        break
                head = head[end + 1:]
            trait, of = (head[:head.index("for")], head[head.index("for") + 1:]) if "for" in head else ([], head)
            yield body, source.partner[body], trait, type_name(of)


def functions_of(source):
    """The functions of a source: where the body begins and ends, the type that they are of, the name, the error."""
    impls = list(impls_of(source))
    for at, it in enumerate(source.tokens):
        if it.text == "fn" and not source.is_at(at + 1, "("):
            body = source.until(at, "{", ";")
            head = source.names(at, body)
            result = head[len(head) - head[::-1].index("->"):] if "->" in head else []
            owner = next((of for first, end, _, of in impls if first < at < end), "")
            yield body, source.partner.get(body, body), owner, source.tokens[at + 1].text, error_of(result)


def arms_of(source):
    """The arms of a source: where the scrutinee, the pattern and the body begin and end."""
    for at, it in enumerate(source.tokens):
        if it.text != "match":
            continue
        opens = source.until(at + 1, "{")
        first, end = opens + 1, source.partner[opens]
        while first < end:
            arrow = source.until(first, "=>")
            guard = source.until(first, "if", "=>")
            if source.is_at(arrow + 1, "{"):
                last = source.partner[arrow + 1] + 1
            else:
                last = source.until(arrow + 1, ",", "=>")
            if not source.is_at(arrow, "=>") or source.is_at(last, "=>"):
                sys.exit(f"{source.name}:{source.tokens[first].line}: an arm that can't be read")
            yield (at + 1, opens), (first, guard), (arrow + 1, last)
            first = last + source.is_at(last, ",")
