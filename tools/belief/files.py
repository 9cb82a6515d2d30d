"""The definitions of specs/, by their lines, and what they share with the items of src/."""
import re
import sys
from pathlib import Path
from functools import lru_cache
from typing import NamedTuple

TOP = Path(__file__).resolve().parent.parent.parent


def fail(text):
    sys.exit(f"believed: {text}")


# ---- terms


WORD = re.compile(
    r"""(?P<text>"(?:\\.|[^"\\])*") | (?P<impl>⟦<\w+(?:<[^>]*>)?\ as\ \w+>⟧)
      | (?P<nil>\[\]) | (?P<mark>[(){}\[\],;]) | (?P<word>[^\s(){}\[\],;"⟦⟧]+)""", re.X)

NUMBER = re.compile(r"^(0x[0-9a-fA-F_]+|[0-9][0-9_]*)$")
PLAIN = re.compile(r"^[^\W\d][\w'?-]*$|^_$")


class Word(str):
    """A word, and its line in the file."""
    line = None


def words_of(text, first=0):
    words = []
    for got in WORD.finditer(text):
        words.append(Word(got[0]))
        words[-1].line = first + text.count("\n", 0, got.start())
    return words


def code_of(line, mark="--"):
    """The line without its comment."""
    inside = False
    for i, char in enumerate(line):
        if char == '"' and (i == 0 or line[i - 1] != "\\"):
            inside = not inside
        if not inside and line.startswith(mark, i) and (i == 0 or line[i - 1].isspace()):
            return line[:i]
    return line


def split_at(words, mark):
    """The parts between the marks that are in no bracket."""
    parts, depth = [[]], 0
    for word in words:
        depth += (word in "([{") - (word in ")]}")
        if word == mark and depth == 0:
            parts.append([])
        else:
            parts[-1].append(word)
    return parts


def pieces_of_operator(name):
    return [piece for piece in name.split("◌") if piece]


# ---- definitions


class Said(NamedTuple):
    """Some words of a definition. The kinds: `head` (its names are bound in what follows), `term`,
    `signature`, `clause` (of a function of specs/), `contract` (a term over `params`, which have
    types of src/), `rust` (names of src/) and `default` (the default of a type parameter, and a
    bound of it)."""
    kind: str
    words: list
    params: dict = {}
    premise: bool = False


class Definition:
    """A definition of specs/, or an item of src/. `parts` has the lines (from 0) of each part, by
    its name: the head is None, and a record's fields and a function's clauses have theirs."""

    def __init__(self, file, name, form):
        self.file, self.name, self.form = file, name, form
        self.scope = file  # where its names are looked up
        self.parts = {}  # name -> set of lines
        self.words = {}  # name -> list of Said
        self.params = None  # the module of parameters around it
        self.fields = {}  # name -> its type
        self.makers = {}  # constructors: name -> the types of their arguments, in order
        self.names = []  # what is bound in all of it
        self.generics = {}  # a type parameter -> its bounds

    def lines(self, parts):
        return set().union(*(self.parts[part] for part in parts))


class File:
    """What an .antt and an .rt file have in common: names that its `use` lines bring."""

    def __init__(self, path, comment):
        self.path, self.comment = path, comment
        self.crate = path.relative_to(TOP / "crates").parts[0]
        self.text = path.read_text().splitlines()
        self.names = {}  # name -> (module path, the name there)
        self.modules = {}  # name -> module path
        self.operators = {}  # a piece of an operator -> its whole name
        self.definitions = {}

    def bring(self, line):
        """A line of `use`."""
        got = re.match(r"\s*(?:pub )?(?:ghost )?use ([\w.]+?)\.?(?:\{(.*)\})?(?: as (\w+))?;?\s*$",
                       line)
        if not got:
            fail(f"{self.path}: not understood: {line}")
        path = tuple(got[1].split("."))
        if got[2] is None:
            self.modules[got[3] or path[-1]] = path
            return
        for entry in got[2].split(","):
            if entry.strip():
                name, _, other = entry.strip().partition(" as ")
                self.known(other or name, (path, name))

    def known(self, name, where):
        self.names[name] = where
        if "◌" in name:
            for piece in pieces_of_operator(name):
                self.operators[piece] = name

    def short(self):
        return self.path.relative_to(TOP / "crates" / self.crate).as_posix()

    def is_comment(self, n):
        return self.text[n].strip().startswith(self.comment)

    def is_code(self, n):
        line = self.text[n].strip()
        return bool(line) and not line.startswith((self.comment, "#["))

    def code(self, first, last):
        return "\n".join(code_of(self.text[n], self.comment) for n in range(first, last + 1))

    def comments_above(self, n):
        """The comment lines right above a line."""
        above = set()
        while n > 0 and (self.is_comment(n - 1) or self.text[n - 1].strip().startswith("#[")):
            n -= 1
            above.add(n)
        return above


class Antt(File):
    """A file of specs/."""

    def __init__(self, path):
        super().__init__(path, "--")
        self.params = None
        self.last = None
        self.others = set()  # the lines that are of no definition: `use`, `mod` and `module`
        self.pending = []  # an operator's infix line comes before its definition
        for first, last in self.chunks():
            self.chunk(first, last)

    def indent(self, n):
        return len(self.text[n]) - len(self.text[n].lstrip())

    def chunks(self):
        """The lines of each definition's signature, of each of its clauses, and of each `use`."""
        starts, base = [], 0
        for n, line in enumerate(self.text):
            code = code_of(line)
            if not code.strip():
                continue
            if self.indent(n) == 0:
                base = 0
            if self.indent(n) <= base and not re.match(r"\s*[})]", code):
                starts.append(n)
                if re.match(r"module\b", code):
                    base = 2
        for n, first in enumerate(starts):
            last = (starts[n + 1] if n + 1 < len(starts) else len(self.text)) - 1
            while not code_of(self.text[last]).strip():
                last -= 1
            yield first, last

    def chunk(self, first, last):
        code = self.code(first, last).strip()
        if self.indent(first) == 0:
            self.params = None
        if re.match(r"((pub )?(use|mod)|module) ", code):
            self.others |= {*range(first, last + 1)}
        if re.match(r"(pub )?use ", code):
            self.bring(" ".join(code.split()))
        elif re.match(r"(pub )?mod ", code):
            pass
        elif re.match(r"module ", code):
            self.module_around(first, last, words_of(code, first))
        elif re.match(r"infix[lr]? ", code):
            self.pending = [*self.comments_above(first), *range(first, last + 1)]
        elif got := re.match(r"(?:pub )?(record|data) (\S+)", code):
            self.data(first, last, got[1], got[2])
        elif got := re.match(r"(?:abbrev |unfoldable )?(?:pub )?(\S+) :", code):
            self.begin(first, last, got[1], "function")
            words = words_of(code, first)
            self.last.words[None] = [Said("signature", words[words.index(":") + 1:])]
        else:
            self.clause(first, last, words_of(code, first))

    def module_around(self, first, last, words):
        """A module of parameters, which each definition in it cites."""
        self.params = Definition(self, f"module of line {first + 1}", "module")
        self.params.parts[None] = {*range(first, last + 1)} | self.comments_above(first)
        self.params.words[None] = [Said("head", words[2:-1])]
        self.definitions[self.params.name] = self.params

    def begin(self, first, last, name, form):
        self.last = Definition(self, name, form)
        lines = {*range(first, last + 1)} | self.comments_above(first) | {*self.pending}
        self.pending = []
        self.last.parts[None] = lines
        self.last.params = self.params
        self.definitions[name] = self.last
        if "◌" in name:
            self.known(name, (self.module(), name))

    def module(self):
        return ("Rattle", self.crate, "specs", *self.path.relative_to(
            TOP / "crates" / self.crate / "specs").with_suffix("").parts)

    def clause(self, first, last, words):
        if not self.last:
            fail(f"{self.path}:{first + 1}: not understood: {self.text[first]}")
        name = self.last.name
        own = pieces_of_operator(name) if "◌" in name else [name]
        if words[0] == "unfolding":
            self.last.parts[None] |= {*range(first, last + 1)}
            return
        if words[0] != name and not ("◌" in name and own[0] in words):
            fail(f"{self.path}:{first + 1}: no clause of {name}")
        case = f"case {len(self.last.parts)}"
        self.last.words[case] = [Said("clause", words)]
        self.last.parts[case] = {*range(first, last + 1)} | self.comments_above(first)

    def data(self, first, last, form, name):
        """A record or a data type: its head up to `where`, and its fields or constructors."""
        head = first
        while not re.search(r"\bwhere$", code_of(self.text[head]).rstrip()):
            head += 1
        self.begin(first, head, name, form)
        it = self.last
        head_words = words_of(self.code(first, head), first)
        it.words[None] = [Said("head", head_words[head_words.index(name) + 1:-1])]
        inside = [n for n in range(head + 1, last + 1) if code_of(self.text[n]).strip()]
        starts = [n for n in inside if self.indent(n) == self.indent(inside[0])]
        for n, start in enumerate(starts):
            end = (starts[n + 1] if n + 1 < len(starts) else last + 1) - 1
            while not code_of(self.text[end]).strip():
                end -= 1
            named, words = self.code(start, end).strip().split(" :", 1)
            lines = {*range(start, end + 1)} | self.comments_above(start)
            words = words_of(words, start)
            for field in named.removeprefix("pub ").split():
                if form == "record":
                    it.parts[field] = lines
                    it.words[field] = [Said("term", words)]
                    it.fields[field] = words
                else:
                    it.parts[None] |= lines
                    it.words[None].append(Said("term", words))
                    it.makers[field] = argument_types(words)


def argument_types(words):
    """The types of a constructor's arguments, in order: what is before its last arrow."""
    types = []
    for part in split_at(words, "→")[:-1]:
        if part and part[0] in "({" and ":" in part:
            colon = part.index(":")
            names = [w for w in part[:colon] if w not in "({"]
            types += [part[colon + 1:]] * len(names)
        else:
            types.append(part)
    return types


@lru_cache(maxsize=None)
def antt_file(path):
    return Antt(path)


@lru_cache(maxsize=None)
def kit_crates():
    """The libraries of the kit that crates.txt names."""
    names = {"std", "core", "alloc"}
    for line in crate_lines():
        names |= {name for name in line.split(":")[1].split()}
    return {name for name in names if not is_own(name)}


@lru_cache(maxsize=None)
def crate_lines():
    lines = (TOP / "crates.txt").read_text().splitlines()
    return [line for line in lines if line and line[0] != "#"]


@lru_cache(maxsize=None)
def is_own(crate):
    """Whether a crate is one of this repository."""
    return (TOP / "crates" / crate).is_dir()
