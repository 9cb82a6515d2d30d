"""What a definition cites: its words, and which names are bound among them."""
import re
from functools import lru_cache
from typing import NamedTuple

from files import NUMBER, PLAIN, Antt, Definition, fail, pieces_of_operator, split_at
from names import is_kit, resolve_in, resolve_own, resolve_rust
from rust import Rust, implementation_in
from text import RustType

# words of the language itself
# `omega` proves arithmetic in the files ThreadMemories, which hold proofs of a trait's laws.
BUILT_IN = set("→ × ⊥ ¬ Unit tt absurd Type record let in as : = λ do ← _ where | {0} omega".split())
# the states of what a reference points to
STATES = set("now old new entry exit".split())
# what a clause reads off a value of the kit: such a state, the elements of a list
KIT_FIELDS = STATES | {"items"}


class KitType(NamedTuple):
    """A type of the kit, of which no field is known."""
    crate: str
    name: str
    fields = {}


def kit_type(got):
    """The type of the kit that a name refers to. Those of std have the fields of KIT_FIELDS."""
    return KitType(*got[1]) if got and got[0] == "kit" and got[1][0] != "std" else None


class Cites:
    """What a part of a definition cites. What is put into a field, as in `record { f = .. }`, is
    cited where something reads that field."""

    def __init__(self):
        self.definitions = {}  # definition -> whether it is only cited where it is promised
        self.members = set()  # (definition or None, field)
        self.kit = set()
        self.lemmas = set()  # names of proofs/
        self.labels = []  # (definition or None, field, what is put there, its words)

    def take(self, is_read):
        """These with what is put into fields that are read; and the words of the others."""
        whole, others = Cites(), []
        whole.add(self)
        for kind, field, cites, words in self.labels:
            if not is_read(kind, field):
                others += words
                continue
            inner, more = cites.take(is_read)
            others += more
            whole.add(inner)
        return whole, others

    def add(self, other):
        for it, promised in other.definitions.items():
            self.definitions[it] = self.definitions.get(it, True) and promised
        self.members |= other.members
        self.kit |= other.kit
        self.lemmas |= other.lemmas


class Frame:
    """A bracket that is open, or the whole: the names that are bound in it."""

    def __init__(self, kind, cites=None, record=None):
        self.kind, self.cites, self.record = kind, cites, record
        self.names, self.head, self.count, self.binds = {}, None, 0, None


class Reader:
    """Goes through the words of a term, and keeps which names are bound where."""

    def __init__(self, it):
        self.file, self.own, self.generics = it.scope, it, it.generics
        self.cites = Cites()
        self.frames = [Frame("top")]
        self.where = f"{it.file.crate}/{it.file.short()}, {it.name}"

    # names

    def bound(self, name):
        for frame in reversed(self.frames):
            if name in frame.names:
                return frame.names[name]
        return None

    def look(self, name):
        """What a name that is not bound refers to, or None."""
        name = name.strip("«»")
        got = resolve_own(self.file, name) if isinstance(self.file, Antt) else None
        if got:
            return got
        if name in self.file.names:
            return resolve_in(*self.file.names[name])
        if name in self.file.operators:
            whole = self.file.operators[name]
            return resolve_in(*self.file.names[whole])
        if isinstance(self.file, Rust):
            return resolve_rust(self.file, name)
        return None

    def look_from(self, word):
        """The same for a name that may follow that of a module."""
        head, _, rest = word.partition(".")
        if rest and head in self.file.modules:
            return resolve_in(self.file.modules[head], rest.split(".")[0])
        return self.look(head)

    def cite(self, got, promised=True):
        if got[0] == "kit":
            self.cites.kit.add(got[1])
        elif got[0] == "proofs":
            self.cites.lemmas.add(got[1])
        else:
            promised = promised and not self.premise
            it = got[0]
            self.cites.definitions[it] = self.cites.definitions.get(it, True) and promised

    def unknown(self, word):
        fail(f"{self.where}: {word} is not known here")

    # types

    def type_head(self, words):
        """The definition at the head of a type, if there is one."""
        if isinstance(words, RustType):
            return self.type_named(words)
        words = [word for word in words if word != "("]
        if not words or not re.match(r"[^\W\d«]", words[0]) or "→" in words or "×" in words:
            return None
        return self.as_type(None if self.bound(words[0]) else self.look_from(words[0]))

    def type_named(self, kind):
        """The same of a type as src/ writes it."""
        names = [name for name in kind.names() if name not in self.generics]
        return self.as_type(resolve_rust(self.file, names[0])) if len(names) == 1 else None

    def as_type(self, got):
        if not got or is_kit(got):
            return kit_type(got)
        if got[0].form == "function":
            return meaning_of(got[0])
        if got[0].form == "alias":
            return Reader(got[0]).type_named(got[0].kind)
        return value_of_model(got[0]) if got[0].form in ("record", "type", "model") else None

    def fields_of(self, kind, fields):
        """Goes along fields from a value of this type, or of an unknown one."""
        for field in fields:
            if kind and field in kind.fields:
                self.cites.members.add((kind, field))
                kind = kind_of_field(kind, field)
            elif isinstance(kind, KitType):
                if field not in STATES and not NUMBER.match(field):
                    self.cites.kit.add((kind.crate, f"{kind.name}.{field}"))
                kind = None
            elif not kind or field not in STATES:
                self.cites.members.add((None, field))
                kind = None
        return kind

    def result_of(self, got):
        """The type of what a function gives."""
        if not got or is_kit(got) or got[0].form != "function" or got[1]:
            return None
        return Reader(got[0]).type_head(split_at(signature_of(got[0]), "→")[-1])

    # binders

    def bind(self, name, kind=None):
        if name != "_":
            self.frames[-1].names[name.strip("«»")] = (kind, False)

    def binder_at(self, words, k):
        """Of a bracket at k that binds names: the names, and where the colon is."""
        j = k + 1
        while j < len(words) and PLAIN.match(words[j].strip("«»")):
            j += 1
        is_binder = k + 1 < j < len(words) and words[j] == ":"
        return (words[k + 1:j], j) if is_binder else (None, k)

    def closing(self, words, k):
        depth = 0
        for j in range(k, len(words)):
            depth += (words[j] in "([{") - (words[j] in ")]}")
            if depth == 0:
                return j
        self.unknown(words[k])

    def lambda_at(self, words, k):
        """Binds what is between a λ and its dot, and returns where the body begins."""
        while True:
            word = words[k]
            if word == ".":
                return k + 1
            if word in "({":
                end = self.closing(words, k)
                names, colon = self.binder_at(words, k)
                if names:
                    self.term(words[colon + 1:end])
                    kind = self.type_head(words[colon + 1:end])
                    for name in names:
                        self.bind(name, kind)
                else:
                    self.pattern(words[k + 1:end], [])
                k = end + 1
                continue
            for name in [word.rstrip(".")]:
                self.bind(name)
            k += 1
            if word.endswith("."):
                return k

    # terms

    def term(self, words):
        """Reads a term. What it binds is bound in it alone."""
        self.frames.append(Frame("term"))
        self.open_term(words)
        self.frames.pop()

    def open_term(self, words):
        """Reads words whose names are bound in what follows too."""
        depth, k = len(self.frames), 0
        while k < len(words):
            k = self.step(words, k)
        if len(self.frames) != depth:
            fail(f"{self.where}: brackets")

    def step(self, words, k):
        word, frame = words[k], self.frames[-1]
        following = words[k + 1] if k + 1 < len(words) else ""
        if word in "([{" and len(word) == 1:
            return self.open(words, k)
        if word in ")]}" and len(word) == 1:
            return self.close(following, k)
        if word == "λ" or word.startswith("λ"):
            return self.lambda_at(words, k + 1)
        if word == "elim":
            self.unknown("elim")
        if word == "let":
            return self.let(words, k)
        if word == "in" and frame.kind == "let":
            self.frames.pop()
            for name, kind in frame.binds:
                self.bind(name, kind)
            return k + 1
        if following == "←":
            self.bind(word)
            return k + 2
        if word in ";,":
            return self.next_part(word, k)
        if frame.kind == "fields" and frame.count == 0 and following == "=":
            return self.label(words, k)
        if frame.kind == "implicit" and following == "=":
            frame.count += 1
            return k + 2
        frame.count += 1
        self.name(words, k)
        return k + 1

    def next_part(self, mark, k):
        """What is before a comma or a semicolon binds nothing after it."""
        frame = self.frames[-1]
        frame.count = 0 if mark == ";" else 2
        frame.head, frame.names = None, {}
        if mark == ";" and frame.kind == "fields":
            self.cites = frame.cites
        return k + 1

    def label(self, words, k):
        """What is put into a field is kept apart."""
        frame, field, end = self.frames[-1], str(words[k]), k
        frame.count += 1
        depth = 0
        while depth >= 0 and not (depth == 0 and words[end] == ";"):
            end += 1
            depth += (words[end] in "([{") - (words[end] in ")]}")
        put = Cites()
        inside = words[k:end + 1] if words[end] == ";" else words[k:end]
        frame.cites.labels.append((frame.record, field, put, inside))
        self.cites = put
        self.expected = kind_of_field(frame.record, field) if frame.record else None
        return k + 2

    def let(self, words, k):
        """Opens a frame for what is put into names, which are bound after its `in`."""
        k += 1
        if words[k] == "(":
            end = self.closing(words, k)
            names = [w for w in words[k + 1:end] if PLAIN.match(w)]
        else:
            end, names = k, [words[k]]
        kind = None
        k = end + 1
        if words[k] == ":":
            equals = words.index("=", k)
            self.term(words[k + 1:equals])
            kind = self.type_head(words[k + 1:equals])
            k = equals
        self.frames.append(Frame("let"))
        self.frames[-1].binds = [(name, kind) for name in names]
        return k + 1

    def open(self, words, k):
        kind = words[k]
        self.frames[-1].count += 1
        if kind == "{":
            kind = "fields" if self.record_waits else "implicit"
            self.record_waits = False
        names, colon = self.binder_at(words, k)
        frame = Frame(kind, self.cites, self.record_kind if kind == "fields" else None)
        self.frames.append(frame)
        if names and kind != "fields":
            end = self.closing(words, k)
            frame.binds = (names, self.type_head(words[colon + 1:end]))
            return colon + 1
        return k + 1

    premise = False  # whether what is read is assumed, and not promised
    record_waits = False  # whether the next brace has fields, and of which record, if that is known
    record_kind = expected = None
    in_head = False

    def close(self, following, k):
        frame = self.frames.pop()
        if frame.kind == "fields":
            self.cites = frame.cites
        if frame.binds:
            for name in frame.binds[0]:
                self.bind(name, frame.binds[1])
        if following.startswith(".") and len(following) > 1:
            kind = self.result_of(frame.head) if frame.kind == "(" else None
            self.fields_of(kind, [f for f in following.split(".") if f])
        return k + 1

    def promised_at(self, words, k):
        """Whether no arrow follows in this bracket or in those around it."""
        depth = level = 0
        for word in words[k + 1:]:
            depth += (word in "([{") - (word in ")]}") if len(word) == 1 else 0
            level = min(level, depth)
            if depth == level and word in ("→", "↔"):
                return False
        return not self.in_head and "¬" not in words[:k] and "↔" not in words[:k]

    def name(self, words, k):
        """One word that is no bracket: a name with its fields, an operator, a number or a text."""
        word = words[k]
        if word == "record":
            self.record_waits = True
            is_expected = isinstance(self.expected, Definition) and (k == 0 or words[k - 1] == "=")
            self.record_kind = self.expected if is_expected else None
        if word[0] == '"' or word in BUILT_IN or NUMBER.match(word) or word == ".":
            return
        if word == "do":
            self.cite(self.look(">>=") or self.unknown("do"))
            return
        if word.startswith("⟦"):
            self.implementation(word)
            return
        if word.startswith("."):
            return  # read where its bracket closed
        head, *fields = [word] if not re.match(r"[^\W\d«]", word) else word.split(".")
        if self.bound(head):
            kind, own = self.bound(head)
            if own:
                self.cites.members.add((self.own, head))
            self.fields_of(kind, fields)
        elif head in self.generics:
            if fields:
                self.generic(head, fields)
        else:
            self.free(head, fields, self.promised_at(words, k))

    def free(self, head, fields, promised):
        """A name that is not bound."""
        frame = self.frames[-1]
        if head in self.file.modules and fields:
            got = resolve_in(self.file.modules[head], fields[0])
            fields = fields[1:]
        else:
            got = self.look(head)
        if not got:
            self.unknown(".".join([head, *fields]))
        if frame.count == 1:
            frame.head = got
        if fields and not is_kit(got) and fields[0] in got[0].makers:
            fields = fields[1:]
        self.cite(got, promised)
        self.fields_of(KitType(*got[1]) if got[0] == "kit" else self.result_of(got), fields)

    def generic(self, head, fields):
        """A ghost member of a bound, as `S.left` under `S: Source`."""
        bounds = [resolve_rust(self.file, name) for bound in self.generics[head]
                  for name in bound.names()]
        for got in bounds:
            own = None if not got or is_kit(got) else trait_with(got[0], fields[0])
            if own:
                self.cite(got)
                self.cite((own, None))
                return
        kits = [got for got in bounds if got and is_kit(got)]
        self.cite(kits[0] if kits else self.unknown(f"{head}.{fields[0]}"))

    def implementation(self, word):
        kind, trait = re.match(r"⟦<(\w+).* as (\w+)>⟧", word).groups()
        got = self.look(kind)
        of = resolve_rust(self.file, trait) or resolve_rust(got[0].file, trait)
        self.cite(of or self.unknown(word))
        if not is_kit(of):
            self.cite((implementation(got[0], of[0]), None))

    # patterns

    def pattern(self, words, kinds):
        """Binds the variables of a list of patterns; `kinds` are their types."""
        k, n = 0, 0
        while k < len(words):
            word = words[k]
            kind = kinds[n] if n < len(kinds) else None
            if word == "(":
                end = self.closing(words, k)
                self.inner_pattern(words[k + 1:end], kind)
                k, n = end + 1, n + 1
                continue
            if word == "{":
                end = self.closing(words, k)
                self.pattern(words[k + 1:end] if "=" not in words[k:end] else words[k + 3:end], [])
                k = end + 1
                continue
            n += self.one(word, kind)
            k += 1

    def inner_pattern(self, words, kind):
        parts = split_at(words, ",")
        if len(parts) > 1:
            for part in parts:
                self.pattern(part, [])
            return
        maker = self.constructor(words[0]) if words else None
        if not maker:
            self.pattern(words, [])
            return
        self.cite(maker)
        types = [] if is_kit(maker) else maker[0].makers.get(maker[1], [])
        self.pattern(words[1:], [Reader(maker[0]).type_head(kind) for kind in types])

    def constructor(self, word):
        """A constructor, if the word is one."""
        if word in ("(", "{", ",") or NUMBER.match(word):
            return None
        head, *fields = word.split(".") if PLAIN.match(word.split(".")[0]) else [word]
        if fields and head in self.file.modules:
            return resolve_in(self.file.modules[head], fields[0])
        got = self.look(head)
        return got if got and (is_kit(got) or got[1]) else None

    def one(self, word, kind):
        """A pattern of one word. Returns how many arguments it is: 0 or 1."""
        if NUMBER.match(word) or word in ("_", ",", ":"):
            return 1
        maker = self.constructor(word)
        if maker:
            self.cite(maker)
            return 0 if not PLAIN.match(word.split(".")[-1]) and word != "[]" else 1
        if not PLAIN.match(word.strip("«»")):
            self.unknown(word)
        self.bind(word, kind)
        return 1

    # parts

    def clause(self, words):
        """A clause of a function: its patterns, and its body."""
        sides = split_at(words, "=")
        left, right = sides[0], words[len(sides[0]) + 1:]
        signature = signature_of(self.own)
        kinds = [self.type_head(part) for part in split_at(signature, "→")]
        self.frames.append(Frame("clause"))
        if "◌" in self.own.name:
            self.pattern([w for w in left if w not in pieces_of_operator(self.own.name)], kinds)
        else:
            self.pattern(left[1:], [] if "{" in signature[:1] else kinds)
        self.expected = self.result_of((self.own, None))
        self.term(right)
        self.frames.pop()

    def contract(self, said):
        """A term over parameters, of which the types are cited that it names."""
        self.frames.append(Frame("contract"))
        named = {word.split(".")[0] for word in said.words}
        for name, kind in said.params.items():
            self.bind(name, self.type_head(kind))
            if name in named and isinstance(kind, RustType):
                self.rust(kind.names())
        self.term(said.words)
        self.frames.pop()

    def rust(self, names):
        """Names of src/; those of type parameters cite nothing."""
        for name in names:
            if name.split("::")[0] not in ("Self", *self.generics):
                self.cite(resolve_rust(self.file, name) or self.unknown(name))

    def read(self, said):
        self.premise = said.premise
        if said.kind == "head":
            self.open_term(said.words)
        elif said.kind == "clause":
            self.clause(said.words)
        elif said.kind == "contract":
            self.contract(said)
        elif said.kind == "rust":
            self.rust(said.words)
        elif said.kind == "default":
            for it in impls_by_default(self.file, *said.words):
                self.cite((it, None))
        else:
            self.term(said.words)


def signature_of(it):
    return it.words[None][0].words


def trait_with(trait, member):
    """The trait that has this ghost member: this one or one below it."""
    if member in trait.fields:
        return trait
    for bound in trait.supers:
        got = resolve_rust(trait.scope, bound.names()[0])
        found = None if not got or is_kit(got) else trait_with(got[0], member)
        if found:
            return found
    return None


def value_of_model(it):
    """What clauses see in place of a type."""
    if it.form != "model":
        return it
    got = Reader(it).look(it.value)
    return got[0] if got and not is_kit(got) else None


@lru_cache(maxsize=None)
def meaning_of(it):
    """The type that a function of one clause names, as an abbreviation of it."""
    cases = [part for part in it.parts if part]
    if len(cases) != 1 or [*split_at(signature_of(it), "→")[-1]] != ["Type", "0"]:
        return None
    return Reader(it).type_head(split_at(it.words[cases[0]][0].words, "=")[1])


@lru_cache(maxsize=None)
def kind_of_field(it, field):
    return Reader(it).type_head(it.fields[field])


def impls_by_default(file, kind, bound):
    """The impls of a bound and its supertraits for the type that a parameter is by default."""
    of, trait = (resolve_rust(file, name.names()[0]) for name in (kind, bound))
    queue = [trait]
    while queue:
        trait = queue.pop()
        if trait and not is_kit(trait):
            yield implementation(of[0], trait[0])
            queue += [resolve_rust(trait[0].scope, below.names()[0]) for below in trait[0].supers]


def implementation(kind, trait):
    """The ghost members that a type has for a trait."""
    crates = tuple(dict.fromkeys((kind.file.crate, trait.file.crate)))
    return implementation_in(crates, kind.name, trait.name)


@lru_cache(maxsize=None)
def cites_of(it, part):
    """What a part of a definition cites."""
    reader = Reader(it)
    for name in it.names:
        reader.bind(name)
    if it.params:
        reader.open_term(it.params.words[None][0].words)
        reader.cite((it.params, None))
    if it.form == "record":
        reader.in_head = True
        reader.read(it.words[None][0])
        reader.in_head = False
        if part is None:
            return reader.cites
        reader.cites = Cites()
        for field in fields_before(it, part):
            reader.frames[0].names[field] = (kind_of_field(it, field), True)
    for said in it.words[part]:
        reader.read(said)
    return reader.cites


def fields_before(it, part):
    """The fields of a record that the type of this one may name."""
    fields = [*it.fields]
    return [field for field in fields[:fields.index(part)]
            if it.fields[field] is not it.fields[part]]
