"""What a name refers to: a definition of specs/, an item of src/, or a word of the kit."""
from functools import lru_cache

from files import TOP, antt_file, fail, is_own, kit_crates
from rust import implementation_in, impls_named, rust_definition, rust_items

# what std brings into each file of src/
PRELUDE = set("""Option Some None Result Ok Err Vec String Box Drop Clone Copy Send Sync Sized Fn
    FnMut FnOnce Iterator IntoIterator From Into HostRuntime""".split())


@lru_cache(maxsize=None)
def resolve_in(path, name):
    """The name in a module: a definition and a constructor or None, or 'kit' or 'proofs' and the
    crate with the word."""
    if path[0] != "Rattle":
        return "kit", (path[0], name)
    crate, inside = path[1], path[2:]
    if not is_own(crate):
        return "kit", (crate, name)
    if inside[:2] == ("specs", "declared"):
        return resolve_declared(crate, inside[2:], name)
    if inside[:2] == ("specs", "contracts"):  # what the check makes of a type or an impl
        if inside[-1] == "TheImpl":
            return implementation_named(crate, inside[-2]), None
        return resolve_declared(crate, inside[2:], inside[-1])
    if inside[0] == "proofs":
        return "proofs", (crate, name)
    home = TOP.joinpath("crates", crate, *inside)
    if not home.with_suffix(".antt").exists():
        return antt_file(home.parent.with_suffix(".antt")).definitions[home.name], name
    file = antt_file(home.with_suffix(".antt"))
    got = resolve_own(file, name)
    if not got and name not in file.names:
        fail(f"{file.path}: no {name}")
    return got or resolve_in(*file.names[name])


def resolve_own(file, name):
    if name in file.definitions:
        return file.definitions[name], None
    for it in file.definitions.values():
        if name in it.makers:
            return it, name
    return None


def resolve_declared(crate, inside, name):
    if inside[-1] == "TheConstants":
        return rust_definition(crate, "const", name), None
    if inside[-1] == "TheVariants":
        return rust_definition(crate, "type", inside[-2], tuple(inside[:-2])), name
    if ("alias", name) in rust_items(crate):
        return rust_definition(crate, "alias", name, tuple(inside[:-1])), None
    return rust_definition(crate, "type", name, tuple(inside[:-1])), None


def implementation_named(crate, name):
    found = impls_named(crate, name)
    if len(found) != 1:
        fail(f"{crate}: {len(found)} impls {name}")
    return implementation_in((crate,), *found[0])


def is_kit(got):
    """Whether a name refers to no definition that can be listed."""
    return got[0] in ("kit", "proofs")


def resolve_rust(file, name):
    """A name of Rust or a path, as a file of src/ sees it."""
    is_macro = name.endswith("!")
    head, *rest = name.rstrip("!").split("::")
    path = [*file.uses.get(head, (head,)), *rest]
    if len(path) == 1:
        return resolve_bare(file, head, is_macro)
    if path[0] in file.children:
        path.insert(0, "self")
    crate = file.crate if is_inside(file, path[0]) else path[0]
    if is_own(crate):
        return (declared(crate, path[-1], tuple(path[1:-1]), is_macro)
                or declared(crate, path[-2], tuple(path[1:-2]), is_macro))
    return ("kit", (crate, path[-1])) if crate in kit_crates() else None


def is_inside(file, head):
    """Whether a path that begins so stays in the crate of the file."""
    return head in ("crate", "self", "super") or ("type", head) in rust_items(file.crate)


def resolve_bare(file, name, is_macro):
    """A name that no `use` line brings: that of the file or its crate, or one of std's prelude."""
    own = declared(file.crate, name, (), is_macro, file)
    if not own and (is_macro or name in PRELUDE):
        return "kit", ("std", name + "!" * is_macro)
    return own or declared(file.crate, name, (), is_macro)


def declared(crate, name, module, is_macro, file=None):
    """An item of this name; where a file is given, one that is declared in it."""
    for form in ("macro",) if is_macro else ("type", "alias", "const", "trait"):
        found = rust_items(crate).get((form, name), [])
        if any(file in (None, of) for of, _ in found):
            return rust_definition(crate, form, name,
                                   file.path.with_suffix("").parts if file else module), None
    return None
