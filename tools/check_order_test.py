#!/usr/bin/env python3
"""Tests tools/check_order.py, which runs this for `--test`.

Right orders are accepted: those of examples/, and drawn ones. A drawn order is made by a plain heap
of Python lists, or by `rtheap replay` if that is built. Spoiled orders are refused, at the line
that was changed if that can't be right: each spoil below says why it never is. A sample of them
gets the answers of `ordercheck`, if that is built. Jobs and orders of tests/*.runs get the answers
that they have there.
"""
import random
import re
import subprocess
import sys
from pathlib import Path

import check_order

TOP = Path(__file__).resolve().parent.parent
REPLIES = ["ok", "nil", "null", "kind", "range", "yes", "no", "len 7", "int 7", "ref 0.77",
           "new 0.77 work 7", "new 0.1", "full 1", "idle work 131071", "len", ""]
# Headers without version, and their rates. In the first no drawn job can have a `full`.
HEAPS = [("threads 4 blocks 4096 live 2000 object 16 shared 64", 9),
         ("threads 2 blocks 32 live 20 object 2 shared 4", 32)]


class Box:
    """An object of the plain heap."""

    def __init__(self, name, is_array, length, words):
        self.name, self.fields, self.blocks = name, [None] * length, 0
        level = list(range(length)) or [0]
        while True:  # cuts the fields into blocks, and these into blocks of links
            size = words if is_array else words - 1
            level = [level[at:at + size] for at in range(0, len(level), size)]
            self.blocks += len(level)
            if len(level) == 1 or not is_array:
                return


def shown(value):
    if isinstance(value, Box):
        return f"ref {value.name}"
    return "nil" if value is None else f"int {value}"


class Plain:
    """A plain heap, which draws commands and answers them."""

    def __init__(self, rand, version, heap, rate):
        numbers = [int(word) for word in heap.split() if word.isdigit()]
        self.rand, self.version, self.rate, self.limit = rand, version, rate, numbers[2]
        self.threads, self.most, self.words = numbers[0], numbers[3], 4 * version
        shared = Box(f"{self.threads}.0", True, numbers[4], self.words)
        self.registers = [[shared] + [None] * 15 for _ in range(self.threads)]
        self.of_registers = Box("", True, 16, self.words).blocks * self.threads
        self.made, self.all = [0] * self.threads, self.of_registers + shared.blocks

    def live(self):
        """The blocks of registers and of what they reach."""
        seen = []

        def see(value):
            if isinstance(value, Box) and value not in seen:
                seen.append(value)
                for field in value.fields:
                    see(field)
        for register in sum(self.registers, []):
            see(register)
        return self.of_registers + sum(box.blocks for box in seen)

    def allocate(self, t, is_full):
        """An allocation, its reply (none for a `full`) and its work; `nil` if it does not fit."""
        d, is_array = self.rand.randrange(1, 16), self.rand.random() < 0.4
        length = self.rand.choice([0, 1, 2, 3, 4, 5] + [7, 8, 9, 15, 16, 17, 40] * (self.most > 2))
        box = Box(f"{t}.{self.made[t] + 1}", is_array, length, self.words)
        if box.blocks > self.most or self.most > 2 and self.all + box.blocks > self.limit:
            self.registers[t][d] = None
            return f"nil {d}", "ok", None
        if not is_full:
            self.made[t] += 1
            self.all += box.blocks
            self.registers[t][d] = box
        command = f"{'arr' if is_array else 'new'} {d} {length}"
        return command, None if is_full else f"new {box.name}", self.rate * box.blocks

    def other(self, t):
        """A command that allocates nothing, and its reply."""
        r, rand = self.registers[t], self.rand
        a, b, d = rand.randrange(16), rand.randrange(16), rand.randrange(1, 16)
        i = rand.choice([0, 0, 1, 2, 3, 7, 16, 2**62 - 1])
        word = rand.choice(["set", "nil", "mov", "same", "say", "len", "get", "get", "put", "put"]
                           + ["swap", "cas", "cas", "idle"] * (self.version == 2))
        operands = {"set": (d, i), "nil": (d,), "mov": (d, a), "same": (a, b), "say": (a,),
                    "idle": (i % 100,), "len": (a,), "get": (d, a, i), "put": (a, i, b),
                    "swap": (a, i, d), "cas": (a, i, b, d)}[word]
        replies = {"same": "yes" if r[a] == r[b] else "no", "say": shown(r[a]),
                   "idle": f"idle work {i % 100}"}
        if word in ("set", "nil", "mov"):
            r[d] = {"set": i, "nil": None, "mov": r[a]}[word]
            replies[word] = "ok"
        reply = replies.get(word) or self.field(r, word, a, i, b, d)
        return " ".join(map(str, (word, *operands))), reply

    def field(self, r, word, a, i, b, d):
        """Does a command on the object in register a, and returns the reply."""
        if not isinstance(r[a], Box):
            return "null" if r[a] is None else "kind"
        fields = r[a].fields
        if word == "len":
            return f"len {len(fields)}"
        if not i < len(fields):
            return "range"
        old = fields[i]
        if word == "put":
            fields[i] = r[b]
        elif word == "swap":
            fields[i], r[d] = r[d], fields[i]
        elif word == "get":
            r[d] = fields[i]
        elif old == r[b]:
            fields[i] = r[d]
        return {"put": "ok", "cas": "yes" if old == r[b] else "no"}.get(word, shown(old))


def drawn(rand, version, heap, rate, count):
    """A job's lines, those of an order of it, and each `full` that is not licensed, with its
    place."""
    plain = Plain(rand, version, heap, rate)
    traces, order, wrong = [[] for _ in range(plain.threads)], ["start 1"], []
    live, total = [plain.live()], 0
    for _ in range(count):
        if rand.random() < 0.07:
            order.append(f"start {len(live) + 1}")
            live.append(plain.live())
        t, cycle = rand.randrange(plain.threads), max(1, len(live) - 1)
        may_be_full = live[cycle - 1] > plain.limit
        if rand.random() < 0.4:
            command, reply, work = plain.allocate(t, may_be_full and rand.random() < 0.5)
            if work is None:
                order.append(f"{t} {reply}")
            else:
                full = f"{t} full {cycle} work {work}"
                wrong += [] if may_be_full else [(len(order), full)]
                order.append(f"{t} {reply} work {work}" if reply else full)
                total += work
        else:
            command, reply = plain.other(t)
            total += int(reply.split()[-1]) if command.startswith("idle") else 0
            order.append(f"{t} {reply}")
        traces[t].append(command)
    order.append(f"end cycles {len(live)} work {total}")
    job = [f"rtheap {version} {heap}"]
    for t, trace in enumerate(traces):
        job += [f"thread {t}", *trace]
    return [*job, "end"], order, wrong


def spoils(order, rand, most):
    """Wrong orders made from a right one: what was done, the lines, and the line that is wrong, if
    it must be that one."""
    places = sorted(rand.sample(range(len(order)), min(most, len(order))))
    for k in places:
        line, before = order[k], order[:k]
        starts = sum(it.startswith("start") for it in before)
        for what, new, is_here in [*line_spoils(line, starts), *more_or_fewer(line)]:
            yield what, [*before, *new, *order[k + 1:]], k + 1 if is_here else None
        if line.startswith("start"):
            yield from start_spoils(order, k, starts + 1)
        # The first of two entries of a thread that change places is wrong: without `full`s only one
        # reply is right, and here it is another.
        thread = line.split(" ")[0]
        after = [j for j in range(k + 1, len(order)) if order[j].split(" ")[0] == thread]
        j = after[0] if after and thread.isdigit() else k
        if order[j] != line and " full " not in line + order[j]:
            changed = [*before, order[j], *order[k + 1:j], line, *order[j + 1:]]
            yield "thread's order", changed, k + 1


def line_spoils(line, starts):
    """Changes of a line. Only one reply is right, and only one work; a `full` replies only to an
    allocation, and names one cycle. No line has a second spelling."""
    t, _, reply = line.partition(" ")
    cycle = max(1, starts - 1)
    if t.isdigit():
        for other in REPLIES:
            if other != reply:
                yield "reply", [f"{t} {other}"], True
        if not re.match("new|full", reply):
            yield "full to no allocation", [f"{t} full {cycle} work 0"], True
    found = re.fullmatch(r"(.*) work (\d+)", line)
    if found:
        for work in {0, 1, int(found[2]) - 1, int(found[2]) + 1} - {int(found[2])}:
            yield "work", [f"{found[1]} work {work}"], True
        yield "no work", [found[1]], True
        if re.match("new|full", reply):
            for wrong in (0, cycle + 1, cycle + 2):
                yield "full of another cycle", [f"{t} full {wrong} work {found[2]}"], True
    for text in (line + " ", " " + line, line + "\r", "0" + line, line.upper(), line + " 0",
                 line.replace(" ", "  ", 1), line.replace(" ", "\t", 1), ""):
        yield "spelling", [text], True


def more_or_fewer(line):
    """Dropped, repeated, and given to another thread: a right order has as many entries of a thread
    as that has commands, counts its starts, and has its totals once."""
    yield "dropped", [], False
    yield "repeated", [line, line], False
    t, _, reply = line.partition(" ")
    if t.isdigit():
        yield "other thread", [f"{int(t) ^ 1} {reply}"], False


def start_spoils(order, k, c):
    """Starts that are moved: before the one before it, after the totals, or across a `full`, which
    then names another cycle than the previous one (from cycle 3 on)."""
    rest = [*order[:k], *order[k + 1:]]
    yield "start after the totals", [*rest, order[k]], None
    yield "start of another number", [*order[:k], f"start {c + 1}", *order[k + 1:]], k + 1
    if c == 1:
        yield "start 1 is not first", [order[1], order[0], *order[2:]], 1
        return
    before = order.index(f"start {c - 1}")
    yield "start before the last one", [*rest[:before], order[k], *rest[before:]], before + 1
    after = order.index(f"start {c + 1}") if f"start {c + 1}" in order else len(order)
    fulls = [j for j in range(before, after) if " full " in order[j]]
    for j in fulls if c > 2 else []:
        if j < k:
            yield "start before a full", [*rest[:j], order[k], *rest[j:]], j + 2
        elif j == [it for it in fulls if it > k][0]:
            yield "start after a full", [*rest[:j], order[k], *rest[j:]], j


def with_starts(lines):
    """What `run` prints of one thread, or of threads that do not meet, with starts put in: as late
    as its `full`s and its totals allow."""
    order, count = ["start 1"], 1
    for line in lines:
        found = re.search(r" full (\d+) |^end cycles (\d+) ", line)
        due = int(found[2] or found[1]) + (found[1] not in (None, "1")) if found else count
        order += [f"start {c}" for c in range(count + 1, due + 1)]
        count = max(count, due)
        order.append(line)
    return order


def examples():
    """The orders of examples/: their names, and the lines of job and order."""
    for path in sorted(TOP.glob("examples/*.trace")):
        words = path.with_suffix(".words")
        if path.with_suffix(".status").exists():
            continue
        lines = path.with_suffix(".out").read_text().splitlines()
        if not words.exists():
            yield path.name, path.read_text().splitlines(), with_starts(lines)
        elif words.read_text().startswith("replay"):
            yield path.name, path.read_text().splitlines(), lines


def replays(rand):
    """Orders that `rtheap replay` prints for drawn jobs, if it is built."""
    program = TOP / "crates/rtheap/out/rtheap"
    for k in range(24 if program.exists() else 0):
        job = drawn(rand, 1 + k % 2, *HEAPS[k // 2 % 2], 120)[0]
        schedule = ["robin", "serial", str(k)][k % 3]
        ran = subprocess.run([program, "replay", schedule, "1000000"], input="\n".join(job),
                             stdout=subprocess.PIPE, text=True)
        if ran.returncode != 8:
            yield f"replay {k}", job, ran.stdout.splitlines()


def rows():
    """The rows of one line in tests/*.runs: words, input, and status with output."""
    for path in sorted(TOP.glob("tests/*.runs")):
        texts, words = {}, ""
        for line in path.read_text().splitlines():
            columns = [column.strip(" ") for column in re.split(r" \|(?= )", line)]
            if line.startswith("text "):
                name, texts[name] = line[5:].split(" = ", 1)
            elif line.startswith("$ "):
                words = line[2:]
            elif len(columns) in (3, 4) and line[0] not in "#<>" and "\\" not in line:
                for name in reversed(texts):
                    for at in (-2, -1):
                        columns[at] = columns[at].replace("{%s}" % name, texts[name])
                yield " ".join([words, *columns[1:-2]]), columns[-2].replace("/", "\n"), columns[-1]


def row_fault(words, text, due):
    """Whether a row has another answer than it wants; None if it cannot be judged so."""
    status, said = check_order.answer(text.encode())
    job, end, after = text.partition("\nend\n")
    if words == "ordercheck" or words == "rtheap plan" and due[0] in "34" and not after:
        return [str(status), *said.split(":")[:1]] != [due[0], due[2:].split(": ")[1]]
    if words == "rtheap plan" and due[0] == "0":
        return due != f"0 rate {check_order.rate_of(check_order.job_of(text.splitlines())[0])}"
    is_whole = ".." not in due.split("/")  # `..` is any lines
    if re.match("rtheap replay .* .", words) and due[0] == "0" and is_whole:
        order = due[2:].replace("/", "\n")
        return check_order.answer(f"{job}{end}{order}".encode())[0] != 0
    return None


class Tester:
    """Counts what passed, and keeps what failed."""

    def __init__(self):
        self.failed, self.accepted, self.refused, self.compared = [], 0, {}, 0
        self.program = TOP / "crates/ordercheck/out/ordercheck"

    def right(self, name, job, order):
        self.accepted += 1
        if wrong := check_order.wrong_order(*check_order.job_of(job)[:2], order):
            self.failed.append(f"{name} is refused: {wrong}")

    def wrong(self, name, job, order, what, at):
        self.refused[what] = self.refused.get(what, 0) + 1
        wrong = check_order.wrong_order(*self.parsed, order)
        if not wrong or at not in (None, wrong[0]):
            self.failed.append(f"{name}, {what} in line {at}: {wrong}\n" + "\n".join(order))
        elif self.program.exists() and sum(self.refused.values()) % 50 == 0:
            self.compare(name, job, order, wrong)

    def compare(self, name, job, order, wrong):
        ran = subprocess.run([self.program], input="\n".join([*job, *order, ""]).encode(),
                             stdout=subprocess.PIPE)
        self.compared += 1
        if ran.stdout.decode() != f"rt_check: order line {wrong[0]}\n":
            self.failed.append(f"{name}: {wrong}, and ordercheck prints {ran.stdout.decode()}")

    def order(self, rand, name, job, order, most, unlicensed=()):
        """Tests a right order, and wrong ones made from it."""
        self.parsed = check_order.job_of(job)[:2]
        self.right(name, job, order)
        for what, lines, at in spoils(order, rand, most):
            self.wrong(name, job, lines, what, at)
        for k, full in unlicensed:
            self.wrong(name, job, [*order[:k], full, *order[k + 1:]], "full not licensed", k + 1)
        moved = [k for k, line in enumerate(order) if re.match("start", line) and k]
        if moved and not any(" full " in line for line in order):
            k = rand.choice(moved)  # its cycle may start anywhere between the two others
            at = rand.randrange(max([0] + [j for j in moved if j < k]) + 1,
                                min([len(order) - 1] + [j for j in moved if j > k]))
            rest = [*order[:k], *order[k + 1:]]
            self.right(f"{name}, start moved", job, [*rest[:at], order[k], *rest[at:]])


def main():
    rand, tester = random.Random(1), Tester()
    for name, job, order in examples():
        tester.order(rand, name, job, order, 8)
    for k in range(24):
        job, order, unlicensed = drawn(rand, 1 + k % 2, *HEAPS[k // 2 % 2], 120)
        tester.order(rand, f"drawn order {k}", job, order, 5, unlicensed[:5])
    for name, job, order in replays(rand):
        tester.order(rand, name, job, order, 5)
    none = ["rtheap 1 threads 1 blocks 64 live 20 object 2 shared 0", "thread 0", "end"]
    tester.order(rand, "no command", none, ["start 1", "end cycles 1 work 0"], 2)
    tester.wrong("no command", none, ["end cycles 0 work 0"], "no start", 1)
    for count, wanted in ((131072, "order line 1"), (131073, "line 131075")):
        text = "\n".join([*none[:2], *["nil 1"] * count, "end"])
        if check_order.answer(text.encode())[1].split(":")[0] != wanted:
            tester.failed.append(f"a trace of {count} commands: {wanted} is due")
    answers = [(words, text, due, row_fault(words, text, due)) for words, text, due in rows()]
    tester.failed += [f"{words}\n{text}wanted {due}" for words, text, due, bad in answers if bad]
    if tester.failed:
        print("tools/check_order.py: the test failed:", *tester.failed[:5], sep="\n")
        return 1
    print(f"tools/check_order.py: {tester.accepted} orders accepted,"
          f" {sum(tester.refused.values())} spoiled ones refused"
          f" ({tester.compared} as by ordercheck),"
          f" {sum(bad is False for *_, bad in answers)} rows of tests/*.runs right")
    return 0


if __name__ == "__main__":
    sys.exit(main())
