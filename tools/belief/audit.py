"""A second look by other means, so that no definition is missed: each word of what is kept is
looked up as if nothing were bound. What it refers to has to be kept, unless the same definition has
a binder of that name."""
import re
from functools import lru_cache

from files import NUMBER, PLAIN, TOP, antt_file, fail, split_at
from names import is_kit
from reading import BUILT_IN, Reader, cites_of, fields_before, impls_by_default
from text import RustType


def bound_in(kind, words):
    """Each name that some binder among these words may bind, wherever it is."""
    names = set()
    for k, word in enumerate(words):
        following = words[k + 1] if k + 1 < len(words) else ""
        if word == "λ":
            end = next(j for j in range(k, len(words)) if words[j].endswith("."))
            names |= {w.rstrip(".") for w in words[k + 1:end + 1]}
        elif word == "let":
            names.add(following)
        elif following == "←":
            names.add(word)
        elif following == ":":
            j = k
            while j >= 0 and PLAIN.match(words[j]):
                names.add(words[j])
                j -= 1
    if kind == "clause":
        names |= {w for w in split_at(words, "=")[0][1:] if PLAIN.match(w)}
    return {name for name in names if PLAIN.match(name)}


def is_constructor(reader, name):
    got = reader.look(name)
    return bool(got) and (is_kit(got) or bool(got[1]))


def is_label(words, k):
    return k > 0 and words[k - 1] in ("{", ";") and k + 1 < len(words) and words[k + 1] == "="


def stands_for(reader, word):
    """What a word refers to if nothing is bound: a definition, or 'kit'."""
    got = reader.look_from(word) if re.match(r"[^\W\d«]", word) else reader.look(word)
    if not got:
        fail(f"{reader.where}: {word} refers to nothing")
    return "kit" if is_kit(got) else got[0]


def named_by(it, part, is_read):
    """The definitions that a part names, by this look."""
    left_out = {id(word) for word in cites_of(it, part).take(is_read)[1]}
    found = {got for word, got in names_of(it, part) if id(word) not in left_out}
    found |= {it.params} if it.params else set()
    return {got for got in found if got != "kit" and got is not it}


@lru_cache(maxsize=None)
def names_of(it, part):
    """The words of a part that are names, with what each refers to."""
    reader, found = Reader(it), []
    for said in it.words[part]:
        is_rust = said.kind in ("rust", "default")
        kinds = said.words if is_rust else [said.params.get(w.split(".")[0]) for w in said.words]
        names = [name for kind in kinds for name in names_in(kind, is_rust)]
        found += [(name, stands_for(reader, name)) for name in names if not is_parameter(it, name)]
        if said.kind == "default":
            found += [(said.words[0], impl) for impl in impls_by_default(it.scope, *said.words)]
        if is_rust:
            continue
        bound = {name for name in bound_around(it, part, said) if not is_constructor(reader, name)}
        for k, word in enumerate(said.words):
            head = word.split(".")[0]
            if not (is_label(said.words, k) or is_plain_mark(word) or head in bound
                    or word.rstrip(".") in bound):
                names = names_at(it, head) if head in it.generics else [word]
                found += [(word, stands_for(reader, name)) for name in names]
    return found


def names_in(kind, is_name):
    """The names in a type of src/; what is no such type may be a name itself."""
    if isinstance(kind, RustType):
        return kind.names()
    return [kind] if is_name else []


def names_at(it, parameter):
    """The traits that bound a type parameter."""
    return [name for bound in it.generics[parameter] for name in bound.names()]


def is_parameter(it, name):
    return name.split("::")[0] in ("Self", *it.generics)


def bound_around(it, part, said):
    """Each name that is bound in some words or around them."""
    bound = {*it.names, *said.params, *bound_in(said.kind, said.words)}
    if it.form == "record" and part:
        bound |= {*fields_before(it, part)}
    if said is not it.words[None][0]:
        heads = [head for head in it.words[None] if head.kind == "head"]
        bound |= {name for head in heads for name in bound_in("head", head.words)}
    if it.params:
        bound |= bound_in("head", it.params.words[None][0].words)
    return bound


def is_plain_mark(word):
    """Whether a word is no name: a bracket, a number, a text, a field or a word of the language."""
    return (word in BUILT_IN or word in ("elim", "do", ";", ",") or word in list("()[]{}")
            or word[0] in '".⟦' or bool(NUMBER.match(word)))


def fields_named_by(it, part):
    """The other fields of its record that a field names."""
    named = set()
    for said in it.words[part]:
        own = set(fields_before(it, part)) - bound_in(said.kind, said.words)
        named |= {word.split(".")[0] for word in said.words} & own
    return named


def audit(belief):
    """Fails where something is named and not kept; returns what is named."""
    named = set(belief.starts)
    for it, parts in belief.kept.items():
        for part in parts:
            for other in named_by(it, part, belief.is_read):
                if other not in belief.kept:
                    fail(f"{it.name} names {other.name}, which is not listed")
                named.add(other)
            if it.form == "record":
                missed = fields_named_by(it, part) - set(parts) if part else ()
                if missed:
                    fail(f"{it.name} names {', '.join(missed)}, which are not listed")
    return named


def test(beliefs):
    """That this look would see each definition that was missed, and that each line of specs/ is
    one of a definition that is understood."""
    for belief in beliefs:
        missed = set(belief.kept) - audit(belief)
        if missed:
            fail(f"would not be missed: {', '.join(it.name for it in missed)}")
    for path in sorted(TOP.glob("crates/*/specs/**/*.antt")):
        file = antt_file(path)
        lines = set(file.others)
        for it in file.definitions.values():
            lines |= it.lines(it.parts)
            for part in it.parts:
                cites_of(it, part)
        for n in range(len(file.text)):
            if file.is_code(n) and n not in lines:
                fail(f"{path}:{n + 1}: of no definition")
