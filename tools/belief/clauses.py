"""The clauses that a word of the command line or a promise names."""
import re

from audit import audit
from closure import Belief
from files import TOP, antt_file, fail, is_own
from names import resolve_own
from rust import call_definition, module_of, rust_items


def start_of(word):
    """The definition and the parts that a word names. With a clause that a call promises go those
    that it requires."""
    got = re.match(r"(\w+)::(?:([a-z]\w*)::)?(?:([A-Z]\w*)::)?(\w+)(?:\.(\w+))?$", word)
    if not got or not is_own(got[1]):
        fail(f"no clause: {word}")
    crate, module, owner, name, inner = got.groups()
    path = TOP / "crates" / crate / "specs" / f"{name}.antt"
    if path.exists() and inner and not module and not owner:
        found = resolve_own(antt_file(path), inner)
        if not found:
            fail(f"{path}: no {inner}")
        return found[0], [part for part in found[0].parts if part]
    it = call_definition(crate, name, owner, module)
    if inner and inner not in it.parts:
        fail(f"{name} has no clause {inner}")
    wanted = [part for part in it.parts if part and (inner in (None, part) or is_required(part))]
    return it, wanted


def words_for(word):
    """The calls that a word names. `CRATE::laws` names the public functions of src/laws.rt,
    `CRATE::MODULE::laws` those of that module's, and `CRATE::exports` those that C calls."""
    where, _, rest = word.rpartition("::")
    crate, _, module = where.partition("::")
    if rest not in ("laws", "exports") or not is_own(crate):
        return [word]
    found = [f"{where}::{name}" for (form, name), places in rust_items(crate).items()
             if form == "fn" and any(is_one_of(rest, *place) for place in places
                                     if not module or module in module_of(place[0]))]
    return found or fail(f"{where} has no {rest}")


def is_one_of(group, file, n):
    line = file.text[n]
    return line.startswith('pub extern "C" fn' if group == "exports" else "pub fn") and (
        group == "exports" or file.path.stem == "laws")


def is_required(part):
    return part.split()[0] == "requires"


def belief_of(clauses, chosen):
    """The closure of these clauses; the parts that are named of one call are taken together."""
    starts = {}
    for word in [one for word in clauses for one in words_for(word)]:
        it, parts = start_of(word)
        starts.setdefault(it, []).extend(parts)
    belief = Belief(list(starts.items()), chosen)
    audit(belief)
    return belief
