"""Definitions as they are printed: counted and named."""


def count(belief, it, parts):
    """Lines of code, and lines of code and comments."""
    return counted(it, belief.lines(it, parts))


def counted(it, lines):
    code = sum(it.file.is_code(n) for n in lines)
    return code, code + sum(it.file.is_comment(n) for n in lines)


def sum_of(belief, kept):
    return tuple(map(sum, zip(*(count(belief, it, parts) for it, parts in kept)))) or (0, 0)


def shown(belief, it, parts):
    """A definition's name, with what is read of it where that is not all."""
    choice = belief.choice(it)
    if it.form == "function" and choice:
        return f"`{it.name}` without {', '.join(c[1:] for c in choice)}"
    some = [part for part in it.parts if part and part in parts]
    if it.form in ("record", "call") and set(parts) != set(it.parts) and some:
        return f"`{it.name}` ({', '.join(some)})"
    return f"`{it.name}`"


def lines_of_words(text, first="", more="", width=100):
    """The words of a text in lines of at most so many bytes, the first of which begins with `first`
    and the others with `more`."""
    lines = [first]
    for word in text.split():
        is_new = lines[-1] in (first, more)
        longer = lines[-1] + word if is_new else f"{lines[-1]} {word}"
        if len(longer.encode()) <= width or lines[-1] == more:
            lines[-1] = longer
        else:
            lines.append(more + word)
    return lines


def wrapped(text):
    return "\n".join(lines_of_words(text))


def table(heads, rows):
    """A table. Where the last cell of a row is long it goes on in rows with no other cell."""
    lines = ["| " + " | ".join(heads) + " |", "|" + "---|" * len(heads)]
    for *cells, last in rows:
        front = "".join(f"| {cell} " for cell in cells)
        more = "| " * len(cells)
        said = lines_of_words(str(last).replace("|", "\\|"), front + "| ", more + "| ", 98)
        lines += [f"{line.rstrip()} |" for line in said]
    return lines


def words_by_crate(kit):
    """The words of the kit by their libraries, std first."""
    crates = {}
    for crate, word in kit:
        crates.setdefault(crate, set()).add(word)
    for crate in sorted(crates, key=lambda name: (name != "std", name)):
        yield crate, sorted(crates[crate])


def kit_line(kit):
    said = [f"of `{crate}` " + " ".join(f"`{word}`" for word in words)
            for crate, words in words_by_crate(kit)]
    return wrapped("Words of the kit: " + "; ".join(said) + ".")
