"""What judges rows of tests/*.runs and the drawn scripts: a heap that frees nothing, and a reader of
jobs. Both are written after docs/FORMAT.md, and share nothing with what is proved.
"""

REGISTERS = 16


class Plain:
    """The heap that never frees, by docs/FORMAT.md."""

    def __init__(self, version, blocks, live, size, shared):
        self.version, self.blocks, self.live, self.size = version, blocks, live, size
        self.words = 4 if version == 1 else 8
        self.named = (version, blocks, live, size, shared)
        self.objects = {(1, 0): ["array", [None] * shared]}
        self.registers = [("ref", (1, 0))] + [None] * (REGISTERS - 1)
        self.made = 0
        self.rate = next(p for p in range(1, 10**6)
                         if live + 2 * (-(-2 * blocks // p) + size) <= blocks)

    def line(self):
        return "open %d blocks %d live %d object %d shared %d" % self.named

    def taken(self, kind, length):
        """The blocks of an object."""
        return blocks_of("f" if kind == "record" else "e", length, self.words)

    def live_blocks(self):
        seen = set()
        todo = [v[1] for v in self.registers if v and v[0] == "ref"] + [(1, 0)]
        while todo:
            name = todo.pop()
            if name not in seen:
                seen.add(name)
                todo += [v[1] for v in self.objects[name][1] if v and v[0] == "ref"]
        of_registers = 5 if self.version == 1 else 3
        return of_registers + sum(self.taken(k, len(f))
                                  for k, f in (self.objects[n] for n in seen))

    def make(self, kind, d, length):
        taken = self.taken(kind, length)
        if d >= REGISTERS or taken > self.size or length > 65535:
            return OUT
        self.made += 1
        name = (0, self.made)
        self.objects[name] = [kind, [None] * length]
        self.registers[d] = ("ref", name)
        return "new 0.%d work %d" % (self.made, self.rate * taken)

    def field(self, s, i):
        """The fields of the object in a register, or why there is no field i."""
        value = self.registers[s]
        if value is None:
            return None, "null"
        if value[0] == "int":
            return None, "kind"
        fields = self.objects[value[1]][1]
        return (fields, None) if i < len(fields) else (None, "range")

    def ask(self, word, *n):
        registers = {"set": n[:1], "nil": n[:1], "mov": n, "same": n, "len": n, "say": n,
                     "get": n[:2], "put": (n[0], n[-1]), "swap": (n[0], n[-1]),
                     "cas": (n[0], n[2:] and n[2] or 0, n[-1]), "idle": ()}.get(word, ())
        if any(r >= REGISTERS for r in registers):
            return OUT
        if self.version == 1 and word in ("swap", "cas", "idle"):
            return OUT
        r = self.registers
        if word in ("new", "arr"):
            return self.make("record" if word == "new" else "array", *n)
        if word == "set":
            if n[1] >= 2**62:
                return OUT
            r[n[0]] = ("int", n[1])
            return "ok"
        if word == "nil":
            r[n[0]] = None
            return "ok"
        if word == "mov":
            r[n[0]] = r[n[1]]
            return "ok"
        if word == "same":
            return "yes" if r[n[0]] == r[n[1]] else "no"
        if word == "say":
            return text(r[n[0]])
        if word == "len":
            fields, why = self.field(n[0], -1)
            return why or "len %d" % len(fields)
        if word == "idle":
            return OUT if n[0] > 131070 else "idle work %d" % n[0]
        s, i = (n[1], n[2]) if word == "get" else (n[0], n[1])
        fields, why = self.field(s, i)
        if why:
            return why
        old = fields[i]
        if word == "get":
            r[n[0]] = old
            return text(old)
        if word == "put":
            fields[i] = r[n[2]]
            return "ok"
        if word == "swap":
            fields[i], r[n[2]] = r[n[2]], old
            return text(old)
        if old != r[n[2]]:
            return "no"
        fields[i] = r[n[3]]
        return "yes"


OUT = "refused: out of bounds: this heap allows no such operand or command; correct the call"


def text(value):
    if value is None:
        return "nil"
    return "int %d" % value[1] if value[0] == "int" else "ref %d.%d" % value[1]


# The numbers of a header, each with the least and the largest, in their order.
NAMES = (("threads", 1, 16), ("blocks", 1, 65535), ("live", 0, 65535), ("object", 1, 1024),
         ("shared", 0, 1024))
# The commands, each with the kinds of its operands: a register r, a number n, the length f of a
# record or e of an array, units u. The last three are of version 2 alone.
WORDS = {b"new": "rf", b"arr": "re", b"set": "rn", b"nil": "r", b"mov": "rr", b"get": "rrn",
         b"put": "rnr", b"len": "r", b"same": "rr", b"say": "r"}
WIDE_WORDS = {b"swap": "rnr", b"cas": "rnrr", b"idle": "u"}


def number(token):
    """The number that a token spells, or None."""
    leading = len(token) > 1 and token[:1] == b"0"
    if not 1 <= len(token) <= 19 or leading or any(byte not in b"0123456789" for byte in token):
        return None
    return int(token)


def blocks_of(kind, length, words):
    """The blocks of a record or an array of this length, with so many payload words a block."""
    if kind == "f":
        return max(1, -(-length // (words - 1)))
    level = total = max(1, -(-length // words))
    while level > 1:
        level = -(-level // words)
        total += level
    return total


class Reader:
    """Reads a job line by line, and says why a line is wrong."""

    def __init__(self):
        self.wide = False
        self.threads = self.object = 0
        # How many lines `thread` there were, and commands after the last; whether `end` was read.
        self.begun = self.commands = 0
        self.ended = False

    def header(self, tokens):
        names = [name.encode() for name, _, _ in NAMES]
        if len(tokens) != 12 or tokens[0] != b"rtheap" or tokens[1] not in (b"1", b"2") \
                or tokens[2::2] != names:
            return "header"
        numbers = [number(token) for token in tokens[3::2]]
        if None in numbers:
            return "number"
        self.wide = tokens[1] == b"2"
        self.threads, self.object = numbers[0], numbers[3]
        small = all(least <= n <= most for n, (_, least, most) in zip(numbers, NAMES))
        return None if small else "size"

    def line(self, tokens):
        if self.ended:
            return "end"
        if tokens[0] == b"thread":
            return self.thread(tokens)
        if tokens[0] == b"end":
            return self.end(tokens)
        kinds = WORDS.get(tokens[0]) or (self.wide and WIDE_WORDS.get(tokens[0]))
        return self.command(tokens[1:], kinds) if kinds else "word"

    def thread(self, tokens):
        if len(tokens) != 2:
            return "count"
        n = number(tokens[1])
        if n is None:
            return "number"
        if n != self.begun or self.begun == self.threads:
            return "order"
        self.begun += 1
        self.commands = 0
        return None

    def end(self, tokens):
        if len(tokens) != 1:
            return "count"
        if self.begun != self.threads:
            return "order"
        self.ended = True
        return None

    def command(self, operands, kinds):
        if self.begun == 0:
            return "order"
        if len(operands) != len(kinds):
            return "count"
        numbers = [number(token) for token in operands]
        if None in numbers:
            return "number"
        operands = list(zip(kinds, numbers))
        if any(kind == "r" and n >= REGISTERS for kind, n in operands):
            return "register"
        if self.commands == 131072 or not all(self.is_in_size(kind, n) for kind, n in operands):
            return "size"
        self.commands += 1
        return None

    def is_in_size(self, kind, n):
        if kind in "fe":
            return n <= 65535 and blocks_of(kind, n, 8 if self.wide else 4) <= self.object
        return n < {"r": REGISTERS, "n": 2**62, "u": 131071}[kind]


def first_wrong(text):
    """The number of the first wrong line of a text, from 1, and why; None if it is a job."""
    lines = text.split(b"\n")
    if not lines[-1]:
        lines.pop()
    if not lines:
        return 1, "header"
    reader = Reader()
    for at, line in enumerate(lines, 1):
        tokens = line.split(b" ")
        why = reader.header(tokens) if at == 1 else reader.line(tokens)
        if why:
            return at, why
    return None if reader.ended else (len(lines) + 1, "end")
