"""The text of src/: brackets, types, type parameters, clauses and ghost members."""
import re
from typing import NamedTuple

from files import fail, words_of

CLOSING = {"(": ")", "[": "]", "{": "}", "<": ">"}
# A type, a constant or a trait, with the path that leads to it, but no associated type that is set;
# and a macro that is called.
NAME = re.compile(r"(?<![\w':])(?:\w+::)*[A-Z]\w*(?:::\w+)*(?![\w:]| = )")
MACRO = re.compile(r"(?<![\w:])(?:\w+::)*\w+!")


class RustType(str):
    """A type or the value of a constant, as src/ writes it."""

    def names(self):
        return [*NAME.findall(self), *MACRO.findall(self)]


def closing(text, at):
    """Where the bracket at this place closes."""
    opens, closes, depth, n = text[at], CLOSING[text[at]], 0, at
    while n < len(text):
        if text[n] == '"':
            n = re.compile(r'"(?:\\.|[^"\\])*"', re.S).match(text, n).end()
            continue
        depth += text[n] == opens
        depth -= text[n] == closes and not (closes == ">" and text[n - 1] in "-=")
        if depth == 0:
            return n
        n += 1
    fail(f"no end: {text[at:at + 60]}")


def split_text(text, mark):
    """The parts of a text between the marks that are in no bracket."""
    parts, depth, start = [], 0, 0
    for n, char in enumerate(text):
        depth += char in CLOSING
        depth -= char in CLOSING.values() and not (char == ">" and text[n - 1] in "-=")
        if char == mark and depth == 0:
            parts.append(text[start:n].strip())
            start = n + 1
    parts.append(text[start:].strip())
    return [part for part in parts if part]


def paths_in(tree):
    """Each name that the tree of a `use` line brings, with its path."""
    if tree.endswith("}"):
        front, inside = tree[:-1].split("{", 1)
        for part in split_text(inside, ","):
            yield from paths_in(front + part)
        return
    path, _, name = tree.partition(" as ")
    steps = path.split("::")
    if steps[-1] == "self":
        steps.pop()
    yield name or steps[-1], tuple(steps)


# ---- type parameters


class Generics(NamedTuple):
    """The bounds of type parameters, and the types that they are by default."""
    bounds: dict
    defaults: dict


def generics_in(text):
    bounds, defaults = {}, {}
    for part in split_text(text, ","):
        said, *default = split_text(part, "=")
        name, _, of = said.partition(":")
        name = name.strip().removeprefix("const ")
        if not name.startswith("'"):
            bounds[name] = [RustType(bound) for bound in split_text(of, "+")]
            if default:
                defaults[name] = RustType(default[0])
    return Generics(bounds, defaults)


def generics_from(text, at):
    """The type parameters at this place, if there are any, and where they end."""
    if at < len(text) and text[at] == "<":
        end = closing(text, at)
        return generics_in(text[at + 1:end]), end + 1
    return Generics({}, {}), at


# ---- functions


CLAUSE = re.compile(r"\b(requires|ensures|ghost)\*?(?: (\w+))? \{")


class Clause(NamedTuple):
    kind: str
    name: str
    words: list
    first: int
    last: int


class Head(NamedTuple):
    """A function up to its body, or to the semicolon in place of one."""
    generics: dict
    params: dict
    result: RustType
    clauses: list
    last: int  # the last line of the signature; the clauses follow


def head_from(text, at, line):
    """The head of a function from the end of its name on. The text begins at this line."""
    generics, at = generics_from(text, at)
    end = closing(text, at)
    params = params_in(text[at + 1:end])
    clauses, body = clauses_from(text, end + 1, line)
    signature = text[:clauses[0][1] if clauses else body].rstrip()
    result, _, where = signature[end + 1:].partition("where")
    generics.bounds.update(generics_in(where).bounds)
    return Head(generics.bounds, params, RustType(result), [clause for clause, _ in clauses],
                line + signature.count("\n"))


def params_in(text):
    params = {}
    for part in split_text(text, ","):
        got = re.match(r"(?:mut )?(\w+): (.*)", part, re.S)
        if got:
            params[got[1]] = RustType(got[2])
        elif re.search(r"\bself$", part):
            params["self"] = RustType("Self")
    return params


def clauses_from(text, at, line):
    """The clauses of a function from here on with where each begins, and where its body does."""
    clauses, depth = [], 0
    while depth or text[at] not in "{;":
        got = None if depth else CLAUSE.match(text, at)
        if got:
            end = closing(text, got.end() - 1)
            of = [line + text.count("\n", 0, n) for n in (at, got.end(), end)]
            words = words_of(text[got.end():end], of[1])
            clauses.append((Clause(got[1], got[2] or "", words, of[0], of[2]), at))
            at = end
        depth += (text[at] in "([") - (text[at] in ")]")
        at += 1
    return clauses, at


# ---- ghost members


GHOST = re.compile(r"(?m)^[ \t]*(?:pub(?:\([a-z]+\))? )?ghost (\w+)(?=:| =)")
GHOST_TERM = re.compile(r"\s*(:|=|by) \{")


class Ghost(NamedTuple):
    """A ghost field, or a ghost member of a trait or an impl: its type and its value, where they
    are given, and its places in the text and its lines."""
    name: str
    kind: list
    value: list
    start: int
    end: int
    lines: range


def ghosts_in(text, line):
    """The ghost fields or members in a text, which begins at this line."""
    found = []
    for got in GHOST.finditer(text):
        terms, end = {}, got.end()
        while mark := GHOST_TERM.match(text, end):
            stop = closing(text, mark.end() - 1)
            terms[mark[1]] = words_of(text[mark.end():stop], line + text.count("\n", 0, mark.end()))
            end = stop + 1
        first, last = (line + text.count("\n", 0, n) for n in (got.start(), end))
        found.append(Ghost(got[1], terms.get(":"), terms.get("=") or terms.get("by"), got.start(),
                           end, range(first, last + 1)))
    return found
