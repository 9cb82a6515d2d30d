"""The items of src/, by their lines: types, constants, traits, impls, macros and public calls."""
import re
from copy import copy
from functools import lru_cache

from files import TOP, Definition, File, Said, code_of, fail
from text import (RustType, generics_from, generics_in, ghosts_in, head_from, paths_in, split_text)

ITEM = re.compile(r'\s*(?:pub(?:\([\w ]+\))? )?(?:unsafe |const (?=fn )|extern "C" )*'
                  r"(enum|struct|union|const|static|trait|fn|type|macro_rules!) (\w+)")
FORMS = {"enum": "type", "struct": "type", "union": "type", "static": "const", "type": "alias",
         "macro_rules!": "macro"}


class Rust(File):
    """A file of src/."""

    def __init__(self, path):
        super().__init__(path, "//")
        self.uses = {}  # name -> its path, the crate first
        self.children = set()  # the modules that it declares
        text = "\n".join(code_of(line, "//") for line in self.text)
        for got in re.finditer(r"^ghost use [^;]*;", text, re.M):
            self.bring(" ".join(got[0].split()))
        for got in re.finditer(r"^(?:pub(?:\([a-z]+\))? )?use ([^;]*);", text, re.M):
            self.uses.update(paths_in("".join(re.split(r"(?<! as)\s+(?!as )", got[1]))))
        for got in re.finditer(r"^(?:pub(?:\([a-z]+\))? )?mod (\w+);", text, re.M):
            self.children.add(got[1])

    def block_from(self, start):
        """The last line of the item that starts here."""
        depth, seen = 0, False
        for n in range(start, len(self.text)):
            code = re.sub(r'"(?:\\.|[^"\\])*"', '""', code_of(self.text[n], "//"))
            for char in code:
                depth += (char in "{([") - (char in "})]")
                seen = seen or char == "{"
                if depth == 0 and (char == ";" or char == "}" and seen):
                    return n
        fail(f"{self.path}:{start + 1}: no end")


@lru_cache(maxsize=None)
def rust_file(path):
    return Rust(path)


@lru_cache(maxsize=None)
def rust_items(crate):
    """Where the crate's items are declared: (form, name) -> list of (file, line)."""
    items = {}
    for path in sorted((TOP / "crates" / crate / "src").rglob("*.rt")):
        file = rust_file(path)
        for n, line in enumerate(file.text):
            got = ITEM.match(line)
            if got and (got[1] != "type" or not line[0].isspace()):
                items.setdefault((FORMS.get(got[1], got[1]), got[2]), []).append((file, n))
            if re.match(r"(?:unsafe )?impl\b", line):
                _, trait, kind = impl_header(file, n)
                items.setdefault((f"impl {trait}", kind), []).append((file, n))
    return items


def impl_header(file, start):
    """The type parameters of an impl, its trait or none, and its type."""
    end = next(n for n in range(start, len(file.text)) if "{" in file.text[n])
    text = file.code(start, end)
    text = " ".join(text[text.index("impl") + 4:].split("{")[0].split())
    generics, at = generics_from(text, 0)
    said, _, where = text[at:].partition(" where ")
    generics.bounds.update(generics_in(where).bounds)
    names = [re.match(r"\s*(?:\w+::)*(\w*)", part)[1] for part in said.split(" for ")]
    return generics, names[0] if len(names) > 1 else "", names[-1]


@lru_cache(maxsize=None)
def rust_definition(crate, form, name, module=()):
    """A declared item; where several have the name, the one in this module."""
    found = rust_items(crate).get((form, name), [])
    inside = ([(f, n) for f, n in found if module_of(f)[-len(module):] == module]
              or [(f, n) for f, n in found if is_within(module_of(f), module)])
    if module and inside:
        found = inside
    if len(found) > 1:
        found = [(f, n) for f, n in found if f.text[n].startswith("pub ")]
    if len(found) != 1:
        fail(f"{crate}: {len(found)} items {form} {name}, in module {'.'.join(module) or 'any'}")
    return rust_item(form, name, *found[0])


def module_of(file):
    return file.path.with_suffix("").parts


def is_within(parts, module):
    """Whether a module is below this one, which may re-export its items."""
    return any(parts[n:n + len(module)] == module for n in range(len(parts)))


@lru_cache(maxsize=None)
def rust_item(form, name, file, start):
    it = Definition(file, name, form)
    end = file.block_from(start)
    lines = [n for n in range(start, end + 1) if not re.match(r"\s*ghost use ", file.text[n])]
    it.parts[None] = {*lines} | file.comments_above(start)
    it.words[None] = []
    text = re.sub(r"#\[[^\]]*\]", "", file.code(start, end))
    at = text.index(name) + len(name)
    if form == "macro":
        it.words[None] = [Said("rust", RustType(text[at:]).names())]
    elif form in ("const", "alias"):
        value_item(it, text[at:])
    elif form == "trait":
        trait_item(it, text, at, start)
    else:
        type_item(it, text, at, start)
    return it


def value_item(it, text):
    """A constant, or another name of a type."""
    called = re.search(r"(?<![\w!])[a-z_]\w*\(", text)
    if called:
        fail(f"{it.file.path}: the value of {it.name} calls {called[0][:-1]}, "
             "which is not followed")
    kind, _, value = text.partition("=")
    it.kind = RustType(value.strip(" ;"))
    it.words[None] = [Said("rust", [*RustType(kind).names(), *it.kind.names()])]


# ---- types


def type_item(it, text, at, line):
    """A struct or an enum, or the model by which clauses see it."""
    generics, at = generics_from(text, at)
    it.generics = generics.bounds
    it.words[None] = bounds_said(generics)
    models = rust_items(it.file.crate).get(("impl Model", it.name), [])
    if models and model_of(it, *models[0]):
        return
    ghosts = ghosts_in(text, line)
    for ghost in reversed(ghosts):
        text = text[:ghost.start] + text[ghost.end:].lstrip().removeprefix(",")
    body = body_of(text[at:])
    if re.search(r"\benum\b", text[:at]):
        for part in split_text(body, ","):
            maker = re.match(r"\w+", part)[0]
            it.makers[maker] = [kind for _, kind in members_in(body_of(part[len(maker):]))]
    else:
        it.fields.update(members_in(body))
    it.fields.update((ghost.name, ghost.kind) for ghost in ghosts)
    kinds = [*it.fields.values(), *(kind for kinds in it.makers.values() for kind in kinds)]
    it.words[None] += [Said("rust", kind.names()) for kind in kinds if isinstance(kind, RustType)]
    for ghost in ghosts:
        it.words[None] += [Said("contract", words, it.fields)
                           for words in (ghost.kind, ghost.value) if words]


def body_of(text):
    """What is in the first brackets of a type or a variant."""
    got = re.match(r"[^({=;]*?[({](.*)[)}]", text, re.S)
    return got[1] if got else ""


def members_in(text):
    """The fields that a text declares, by their names or numbers, with their types."""
    for n, part in enumerate(split_text(text, ",")):
        got = re.match(r"(?:pub(?:\([\w ]+\))? )?(?:(\w+): )?(.*)", part, re.S)
        yield got[1] or str(n), RustType(got[2])


def bounds_said(generics):
    """The bounds of type parameters, and their impls for the types that these are by default."""
    names = [name for bounds in generics.bounds.values() for bound in bounds
             for name in bound.names()]
    said = [Said("rust", names, premise=True)]
    for name, kind in generics.defaults.items():
        said.append(Said("rust", kind.names()))
        said += [Said("default", [kind, bound]) for bound in generics.bounds[name]]
    return said


def model_of(it, file, start):
    """Takes the impl of a type's model in: by its `ghost Value` clauses see the type, and else by
    its fields, of which the model says what they own."""
    end = file.block_from(start)
    ghosts = {ghost.name: ghost for ghost in ghosts_in(file.code(start, end), start)}
    it.scope = scope_of(file, start, end)
    if "Value" in ghosts:
        it.form, it.file = "model", file
        it.parts[None] = {start, *ghosts["Value"].lines}
        it.words[None].append(Said("term", ghosts["Value"].value))
        it.value = ghosts["Value"].value[0]
        return True
    if file is not it.file:
        fail(f"{file.path}: the model of {it.name} is in another file than the type")
    it.parts[None] |= {start}.union(*(ghost.lines for ghost in ghosts.values()))
    it.words[None] += [Said("term", ghost.value) for ghost in ghosts.values()]
    return False


def scope_of(file, start, end):
    """The names that an impl or a trait sees, with those of its own `ghost use` lines."""
    scope = copy(file)
    scope.names, scope.modules = dict(file.names), dict(file.modules)
    scope.operators = dict(file.operators)
    for got in re.finditer(r"\bghost use [^;]*;", file.code(start, end)):
        scope.bring(" ".join(got[0].split()))
    return scope


# ---- traits and impls


def trait_item(it, text, at, line):
    """A trait: the traits below it, its ghost members, and the clauses of its methods."""
    generics, at = generics_from(text, at)
    front = text[at:text.index("{", at)]
    supers, _, where = front.partition(" where ")
    it.supers = [RustType(bound) for bound in split_text(supers.strip().removeprefix(":"), "+")]
    generics.bounds.update(generics_in(where).bounds)
    it.generics, it.names = generics.bounds, ["Self"]
    it.scope = scope_of(it.file, line, it.file.block_from(line))
    it.words[None] = bounds_said(generics)
    it.words[None].append(Said("rust", [name for bound in it.supers for name in bound.names()]))
    for got in re.finditer(r"(?m)^[ \t]*type (\w+)([^;]*);", text):
        it.fields[got[1]] = RustType(got[2])
        it.words[None].append(Said("rust", it.fields[got[1]].names()))
    members = [(ghost.start, ghost) for ghost in ghosts_in(text, line)]
    members += [(got.start(), head_from(text, got.end(), line))
                for got in re.finditer(r"(?m)^[ \t]*(?:[a-z]+ )*fn \w+", text)]
    for _, member in sorted(members, key=lambda one: one[0]):
        if hasattr(member, "clauses"):
            it.words[None] += contracts_of(member, it.fields)
        else:
            it.words[None] += [Said("contract", words, dict(it.fields), True)
                               for words in (member.kind, member.value) if words]
            it.fields[member.name] = member.kind


def contracts_of(head, members):
    """The clauses of a method, over its parameters and the ghost members above it."""
    params = {**members, **head.params, "result": head.result}
    return [Said("contract", clause.words, params, True) for clause in head.clauses]


def impls_named(crate, name):
    """The impls that the check gives this name: that of the type, then of the trait."""
    return [(kind, form[5:]) for form, kind in rust_items(crate)
            if form.startswith("impl ") and kind + form[5:] == name]


def implementation_in(crates, kind, trait):
    """The ghost members that a type has for a trait, by an impl in one of these crates."""
    found = [one for crate in crates for one in rust_items(crate).get((f"impl {trait}", kind), [])]
    if len(found) != 1:
        fail(f"{', '.join(crates)}: {len(found)} impls of {trait} for {kind}")
    return impl_item(*found[0])


@lru_cache(maxsize=None)
def impl_item(file, start):
    end = file.block_from(start)
    generics, trait, kind = impl_header(file, start)
    it = Definition(file, f"{trait} for {kind}", "impl")
    it.scope = scope_of(file, start, end)
    it.generics, it.names = generics.bounds, ["Self"]
    types = [n for n in range(start, end) if re.match(r"    type \w+ = ", file.text[n])]
    ghosts = ghosts_in(file.code(start, end), start)
    it.parts[None] = {start, *types}.union(*(ghost.lines for ghost in ghosts))
    it.words[None] = [Said("rust", [trait]), *bounds_said(generics)]
    it.words[None] += [Said("rust", RustType(file.text[n].partition("=")[2]).names())
                       for n in types]
    it.words[None] += [Said("term", ghost.value) for ghost in ghosts if ghost.value]
    return it


# ---- public calls


@lru_cache(maxsize=None)
def call_definition(crate, name, owner=None, module=None):
    """A public call or a law: its signature, and each clause as a part."""
    found = [(f, n) for f, n in rust_items(crate).get(("fn", name), [])
             if f.text[n].lstrip().startswith("pub ")
             and (not module or module in module_of(f))]
    found = [(f, n, *around(f, n)) for f, n in found]
    own = [one for one in found if one[3] == (owner or "")]
    found = own if owner or own else found
    if len(found) != 1:
        fail(f"{crate}: {len(found)} public functions {name}")
    file, start, generics, kind = found[0]
    it = Definition(file, name, "call")
    text = file.code(start, len(file.text) - 1)
    head = head_from(text, re.search(r"\bfn \w+", text).end(), start)
    it.generics = {**generics, **head.generics}
    params = {**head.params, "result": head.result}
    if "self" in params:
        params["self"] = RustType(kind)
    it.parts[None] = {*range(start, head.last + 1)} | file.comments_above(start)
    bounds = [name for of in it.generics.values() for bound in of for name in bound.names()]
    result = [kind if name == "Self" else name for name in head.result.names()]
    it.words[None] = [Said("rust", bounds, premise=True), Said("rust", result)]
    for clause in head.clauses:
        lines = {*range(clause.first, clause.last + 1)}
        part = part_name(it, clause)
        it.parts[part] = lines | file.comments_above(clause.first) - it.parts[None]
        it.words[part] = [Said("contract", clause.words, params, clause.kind != "ensures")]
    return it


def around(file, start):
    """The type parameters of the impl around a function, and its type; or nothing."""
    if not file.text[start][0].isspace():
        return {}, ""
    while file.text[start][:1] in ("", " "):
        start -= 1
    if not re.match(r"(?:unsafe )?impl\b", file.text[start]):
        return {}, ""
    generics, _, kind = impl_header(file, start)
    return generics.bounds, kind


def part_name(it, clause):
    """A name for a clause, which no other of its function has."""
    named = clause.name if clause.name and clause.kind == "ensures" else \
        f"{clause.kind} {clause.name}".strip()
    count = 1
    name = named
    while name in it.parts:
        count += 1
        name = f"{named} {count}"
    return name
