"""The page docs/TRUST.md."""
from clauses import belief_of
from printing import counted, sum_of, table, words_by_crate, wrapped
from promises import PRINTED, PROMISES
from trusted import trusted

HEAD = """# What must be believed

`tools/believed` prints this page.

The kit proves that a clause holds. A reader must judge whether it says what is wanted, by the
definitions and types that it cites, down to words of the kit. `tools/believed --text NAME` prints
these for a promise.

**What is listed.** The clauses of a promised call, all that it requires, its parameters' types and
the traits that bound them; then whatever a listed definition cites: a trait with its supertraits, a
constant with its value's macros, a type with its ghost fields. A record that makes a claim is read
whole, or the fields that a promise names ("read in part"). Of a record that only holds values, the
fields that a listed definition reads are listed; of a type with a model, only the line that names
the model.

*Lines* are lines of what is listed, without comments and imports; *New* counts those that no row
above has."""


def lines_of(beliefs):
    """The lines that some promises read of each definition."""
    lines = {}
    for belief in beliefs:
        for it, parts in belief.kept.items():
            lines.setdefault(it, set()).update(belief.lines(it, parts))
    return lines


def totals(beliefs):
    """How much each promise reads, and how much of that none above it does."""
    rows, before = [], {}
    for promise, belief in beliefs:
        lines = lines_of([belief])
        new = sum(counted(it, of - before.get(it, set()))[0] for it, of in lines.items())
        code, _ = sum_of(belief, belief.kept.items())
        rows.append((f"`{promise.name}`", code, new))
        for it, of in lines.items():
            before.setdefault(it, set()).update(of)
    code = sum(counted(it, of)[0] for it, of in before.items())
    rows.append((f"all {len(beliefs)}", code, ""))
    return table(["Name", "Lines", "New"], rows)


def clauses_line(promise):
    """The clauses, and what is read in part. What all promises on a printed history read in part
    is said for the first of them."""
    line = "Clauses: " + ", ".join(f"`{word}`" for word in by_type(promise.clauses)) + "."
    chosen, above = promise.chosen, []
    first = next(it for it in PROMISES if PRINTED.items() <= it.chosen.items())
    if PRINTED.items() <= chosen.items() and promise is not first:
        chosen = {name: of for name, of in chosen.items() if first.chosen.get(name) != of}
        above = [f"as for `{first.name}`, but"]
    read = [f"`{name}` ({', '.join(fields.split())})" for name, fields in chosen.items()
            if fields[0] != "-"]
    left = [f"`{name}` without {', '.join(f[1:] for f in fields.split())}"
            for name, fields in chosen.items() if fields[0] == "-"]
    said = " ".join([*above, "; ".join(read + left)])
    return line + (f" Read in part: {said}." if chosen else "")


def by_type(clauses):
    """The clauses, the calls of one type in one path."""
    calls = {}
    for word in clauses:
        owner, call = word.rsplit("::", 1)
        is_type = owner.split("::")[-1][0].isupper()
        calls.setdefault(owner if is_type else word, []).append(call)
    for owner, names in calls.items():
        if owner in clauses:
            yield owner
        else:
            yield f"{owner}::{names[0] if len(names) == 1 else '{' + ','.join(names) + '}'}"


def section(promise):
    return ["", f"## {promise.head}: `{promise.name}`", promise.said.rstrip(), "",
            wrapped(clauses_line(promise))]


def page():
    beliefs = [(promise, belief_of(promise.clauses, promise.chosen)) for promise in PROMISES]
    lines = [HEAD, "", *totals(beliefs)]
    for promise in PROMISES:
        lines += section(promise)
    kit = set().union(*(belief.kit for _, belief in beliefs))
    return "\n".join([*lines, "", *trusted(), wrapped(kit_said(kit))]) + "\n"


def kit_said(kit):
    said = ", ".join(f"{len(words)} of `{crate}`" for crate, words in words_by_crate(kit))
    return f"**Words of the kit.** The definitions cite {said}."
