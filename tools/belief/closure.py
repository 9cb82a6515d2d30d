"""What some clauses cite, directly or through other definitions."""
import sys
from functools import lru_cache

from files import NUMBER, fail, split_at
from names import is_kit
from reading import KIT_FIELDS, Reader, cites_of, signature_of

# ---- what is cited


class Belief:
    """The closure of some clauses: definitions with the parts of each that are kept."""

    def __init__(self, clauses, chosen):
        self.chosen = {name: fields.split() for name, fields in chosen.items()}
        self.met = {}  # a name of `chosen` -> the definition that it refers to
        self.kept = {}  # definition -> list of parts
        self.starts = [it for it, _ in clauses]
        for it, parts in clauses:
            for part in [None, *parts]:
                self.keep(it, part)
        self.follow()
        self.ordered = self.order()
        self.check()

    def choice(self, it):
        """What is read of a definition of which not all is, or None."""
        for name in (it.name, f"{it.file.path.stem}.{it.name}"):
            choice = self.chosen.get(name)
            if choice and it.form == ("function" if choice[0][0] == "-" else "record"):
                if self.met.setdefault(name, it) is not it:
                    fail(f"{name} is {it.file.path} and {self.met[name].file.path}")
                return choice
        return [] if is_data(it) else None

    def keep(self, it, part):
        parts = self.kept.setdefault(it, [])
        if part not in parts:
            parts.append(part)
            self.grown = True

    def keep_whole(self, it):
        choice = self.choice(it)
        if it.form == "call":
            fail(f"{it.name} is cited")
        if choice is None:
            parts = it.parts
        elif it.form == "record":
            parts = [None, *choice]
        else:
            parts = [part for part in it.parts if not is_case_of(it, part, choice)]
            if len(it.parts) - len(parts) < len(choice):
                fail(f"{it.name} has no clauses for all of {' '.join(choice)}")
        for part in parts:
            if part not in it.parts:
                fail(f"{it.name} has no field {part}")
            self.keep(it, part)

    def is_partial(self, it):
        return it.form == "record" and self.choice(it) is not None

    def follow(self):
        """Keeps what is cited until nothing is new. Only what is put into fields may cite more when
        other fields are read, so all else is followed once."""
        self.grown = True
        self.members, self.kit, followed = {}, set(), set()
        while self.grown:
            self.grown = False
            for it, part in [(it, part) for it, parts in self.kept.items() for part in parts]:
                if (it, part) not in followed:
                    self.follow_part(it, part)
                    if not cites_of(it, part).labels:
                        followed.add((it, part))
            for it in [it for it in self.kept if self.is_partial(it)]:
                for kind in (None, it):
                    for field in self.members.get(kind, ()):
                        if field in it.fields:
                            self.keep(it, field)

    def follow_part(self, it, part):
        cites = self.cites(it, part)
        for crate, word in cites.lemmas:
            fail(f"{it.file.crate}/{it.file.short()}: {it.name} names {word}, which is of proofs/ "
                 f"of {crate}: a reader would have to read a proof")
        self.kit |= cites.kit
        for kind, field in cites.members:
            self.members.setdefault(kind, set()).add(field)
        for other in cites.definitions:
            self.keep_whole(other)

    def cites(self, it, part):
        return cites_of(it, part).take(self.is_read)[0]

    def is_read(self, kind, field):
        """Whether something reads this field of a record; of an unknown one, of any."""
        kinds = [kind] if kind else [it for it in self.kept if field in it.fields]
        return any(not self.is_partial(it) or field in self.kept.get(it, ()) for it in kinds)

    def lines(self, it, parts):
        """The lines of these parts, without those of fields that nothing reads."""
        lines = it.lines(parts)
        for part in parts:
            others = cites_of(it, part).take(self.is_read)[1]
            words = [word for said in it.words.get(part, ()) for word in said.words]
            for line in {word.line for word in others} - {None}:
                on_line = [w for w in words if getattr(w, "line", None) == line]
                if len(on_line) == sum(w.line == line for w in others):
                    lines.discard(line)
        return lines

    def order(self):
        """The definitions, each after those that it cites, except in cycles."""
        done, seen = [], set()

        def visit(it):
            if it in seen:
                return
            seen.add(it)
            for part in self.kept[it]:
                for other in self.cites(it, part).definitions:
                    visit(other)
            done.append(it)

        sys.setrecursionlimit(10000)
        for it in self.starts:
            visit(it)
        return done

    def check(self):
        """Each field that is read off a value is one of a kept definition, or of the kit."""
        known = set(KIT_FIELDS)
        for it, parts in self.kept.items():
            known |= set(parts) if it.form == "record" else set(it.fields)
        for field in set().union(*self.members.values()):
            if not NUMBER.match(field) and field not in known:
                fail(f"the field {field} is of no definition that is kept")
        for name in self.chosen:
            if name not in self.met:
                fail(f"{name} is cited nowhere")
        for it in self.premises():
            if it.form == "record" and self.choice(it):
                fail(f"{it.name} is a premise: it can't be read in part")

    def premises(self):
        """What is cited where it is no promise, and what that cites."""
        found, queue = set(), []
        for it, parts in self.kept.items():
            for part in parts:
                queue += [other for other, promised in self.cites(it, part).definitions.items()
                          if not promised]
        while queue:
            it = queue.pop()
            if it not in found:
                found.add(it)
                for part in self.kept[it]:
                    queue += self.cites(it, part).definitions
        return found


def is_case_of(it, part, left_out):
    """Whether the part is a clause for one of these constructors."""
    if part is None:
        return False
    words = split_at(it.words[part][0].words, "=")[0]
    return any("-" + word.split(".")[-1] in left_out for word in words)


RELATIONS = set("≡ ≢ ≤ < ⊎ ↔ ⊥ ¬".split())
DATA = set("ℕ Bool List Option".split())


@lru_cache(maxsize=None)
def is_data(it):
    """Whether a record of specs/ is one of values, and says nothing: no field is a claim."""
    return it.form == "record" and all(is_data_type(it, words) for words in it.fields.values())


def is_data_type(it, words):
    if RELATIONS & set(words):
        return False
    last = [word for word in split_at(words, "→")[-1] if word != "("]
    if last[0] in DATA:
        return True
    got = Reader(it).look(last[0])
    if not got or is_kit(got):
        return False
    if got[0].form == "function":
        return is_alias_of_data(got[0])
    return got[0].form in ("type", "alias", "model", "data") or is_data(got[0])


def is_alias_of_data(it):
    cases = [part for part in it.parts if part]
    if [*signature_of(it)] != ["Type", "0"] or len(cases) != 1:
        return False
    return is_data_type(it, it.words[cases[0]][0].words[2:])
