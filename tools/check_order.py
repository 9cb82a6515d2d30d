#!/usr/bin/env python3
"""Judges an order against the heap that never frees, as docs/SEMANTICS.md (2, 3) defines it.

usage: { cat JOB; ./rtheap replay SCHEDULE T < JOB; } | tools/check_order.py
       tools/check_order.py --test    tests itself (tools/check_order_test.py)
       tools/check_order.py --help    prints this

It prints `rt_check: ok`, or the first wrong line and why. Statuses are those of `ordercheck`: 0
right, 2 usage, 3 no job, 4 no rate, 9 wrong. It judges each thread's commands, replies, works and
`full`s, and the totals. It has no model of the collector: later starts may be anywhere. What
`rtheap run` prints has no order and can't be judged. It needs Python 3.9, no kit, no other file.
"""
import re
import subprocess
import sys
from collections import namedtuple

NUMBER = "(0|[1-9][0-9]{0,18})"
# The operands of each command: r a register, n an index or a number, l a length, u units.
OPERANDS = {"new": "rl", "arr": "rl", "set": "rn", "put": "rnr", "get": "rrn", "mov": "rr",
            "same": "rr", "len": "r", "nil": "r", "say": "r"}
OF_VERSION_2 = {"swap": "rnr", "cas": "rnrr", "idle": "u"}
MOST = {"r": 15, "n": 2**62 - 1, "l": 65535, "u": 131070}

Config = namedtuple("Config", "width threads blocks live object shared")
Object = namedtuple("Object", "blocks fields")


class Refused(Exception):
    """A status, and why."""


def record_blocks(width, fields):
    """Blocks: one word of each is a link, the others are fields; a record has at least one."""
    return max(1, -(-fields // (width - 1)))


def array_blocks(width, elements):
    """Blocks: leaves, at least one, and above more than one an array of links to them."""
    leaves = max(1, -(-elements // width))
    return 1 if leaves == 1 else leaves + array_blocks(width, leaves)


def blocks_of(width, command):
    """Blocks: those that a command asks for; only an allocation asks for any."""
    sizes = {"new": record_blocks, "arr": array_blocks}
    return sizes[command[0]](width, command[2]) if command[0] in sizes else 0


def rate_of(c):
    """Rate: the least whole number P, at least 1, with L + 2(ceil(2m/P) + n b) <= m."""
    if c.threads * array_blocks(c.width, 16) + array_blocks(c.width, c.shared) > c.live:
        raise Refused(4, "live limit too small")
    for p in range(1, 2 * c.blocks + 1):
        if c.live + 2 * (-(-2 * c.blocks // p) + c.threads * c.object) <= c.blocks:
            return p
    raise Refused(4, "no rate")


class Graph:
    """Start graph: register 0 of each thread refers to the shared array; all else is nil. A value
    is None (nil), a number, or an object's name (t, s). No object is ever removed."""
    def __init__(self, c):
        shared = (c.threads, 0)
        self.width, self.made = c.width, [0] * c.threads
        self.objects = {shared: Object(array_blocks(c.width, c.shared), [None] * c.shared)}
        self.registers = [[shared] + [None] * 15 for _ in range(c.threads)]


def value_text(value):
    """Reply: how a value is shown."""
    shown = "ref %d.%d" % value if isinstance(value, tuple) else f"int {value}"
    return "nil" if value is None else shown


def step(graph, t, command):
    """Step: does to the graph what a command of thread t does, and returns the reply. `null`,
    `kind` and `range` are tested in this order, and change nothing."""
    (word, *n), r = command, graph.registers[t]
    if word in ("new", "arr"):
        graph.made[t] += 1
        name = r[n[0]] = (t, graph.made[t])
        graph.objects[name] = Object(blocks_of(graph.width, command), [None] * n[1])
        return "new %d.%d" % name
    if word in ("set", "nil", "mov"):
        r[n[0]] = n[1] if word == "set" else r[n[1]] if word == "mov" else None
        return "ok"
    if word == "same":
        return "yes" if r[n[0]] == r[n[1]] else "no"
    if word in ("say", "idle"):
        return value_text(r[n[0]]) if word == "say" else "idle"
    s, i = n[1:] if word == "get" else (n + [None])[:2]
    if not isinstance(r[s], tuple):
        return "null" if r[s] is None else "kind"
    fields = graph.objects[r[s]].fields
    if word == "len":
        return f"len {len(fields)}"
    if i >= len(fields):
        return "range"
    old = fields[i]
    if word == "cas" and old != r[n[2]]:
        return "no"
    if word != "get":
        fields[i] = r[n[-1]]
    if word in ("get", "swap"):
        r[n[0] if word == "get" else n[2]] = old
    return {"put": "ok", "cas": "yes"}.get(word) or value_text(old)


def reachable(graph):
    """Reachable: the least set with the names in registers and in fields of its objects."""
    found, todo = set(), [value for registers in graph.registers for value in registers]
    while todo:
        value = todo.pop()
        if isinstance(value, tuple) and value not in found:
            found.add(value)
            todo += graph.objects[value].fields
    return found


def live_blocks(graph):
    """Live blocks: those of all registers, and of all reachable objects."""
    of_registers = len(graph.registers) * array_blocks(graph.width, 16)
    return of_registers + sum(graph.objects[name].blocks for name in reachable(graph))


class History:
    """History: what the definitions ask of the items so far."""
    def __init__(self, c, traces):
        self.graph = Graph(c)  # Replay: the graph that the steps of all entries leave
        self.left = [trace[::-1] for trace in traces]  # what follows each Part, reversed
        self.live, self.work = [], 0  # the live blocks at each start, and the sum of the works


def right_work(c, rate, command):
    """Right work: P k for an allocation of k blocks, u for `idle u`, 0 for any other command."""
    return command[1] if command[0] == "idle" else rate * blocks_of(c.width, command)


def licensed(c, history, command):
    """Licensed: an allocation may be answered `full c`, c being the previous cycle (1 in cycle 1),
    if more than L blocks were live when that started. Returns this reply, if so."""
    cycle = max(1, len(history.live) - 1)
    return blocks_of(c.width, command) and history.live[cycle - 1] > c.live and f"full {cycle}"


def entry_text(t, reply, work):
    """Text: the line of an entry, with its work for `new`, `full` and `idle`."""
    return f"{t} {reply}" + (f" work {work}" if reply[:4] in ("new ", "full", "idle") else "")


def totals_text(history):
    """Text: the last line."""
    return f"end cycles {len(history.live)} work {history.work}"


def wrong_entry(c, rate, history, t, line):
    """Legal: an entry is of its thread's next command, with right work and the reply of the step on
    the replay, or a licensed `full`, which changes nothing. Adds it, or returns what is wrong."""
    if not history.left[t]:
        return f"thread {t} has no command left"
    command = history.left[t].pop()
    work = right_work(c, rate, command)
    history.work += work
    full = licensed(c, history, command)
    if full and line == entry_text(t, full, work):
        return None
    due = entry_text(t, step(history.graph, t, command), work)
    return None if line == due else f"`{' '.join(map(str, command))}` gives `{due}`"


def wrong_order(c, traces, lines):
    """Run: the first item is a start, the starts count up, each entry may come, and the totals end
    the order when no command is left. Returns the first line that is wrong, and why, or None."""
    rate, history = rate_of(c), History(c, traces)
    for number, line in enumerate(lines, 1):
        word = line.split(" ")[0]
        if line == f"start {len(history.live) + 1}":
            history.live.append(live_blocks(history.graph))
        elif history.live and word in map(str, range(c.threads)):
            if why := wrong_entry(c, rate, history, int(word), line):
                return number, why
        elif history.live and not any(history.left) and line == totals_text(history):
            return (number + 1, "nothing follows the totals") if lines[number:] else None
        else:
            left = sum(map(len, history.left))
            return number, f"before it are {len(history.live)} starts; {left} commands are left"
    return len(lines) + 1, "the totals are missing"


def config_of(line):
    """Configuration: the version and the five numbers of a job's first line, in their ranges."""
    form = "rtheap ([12]) threads N blocks N live N object N shared N"
    if found := re.fullmatch(form.replace("N", NUMBER), line):
        version, *numbers = map(int, found.groups())
        ranges = [(1, 16), (1, 65535), (0, 65535), (1, 1024), (0, 1024)]
        if all(low <= x <= high for x, (low, high) in zip(numbers, ranges)):
            return Config(4 * version, *numbers)
    raise Refused(3, "line 1")


def command_of(c, line):
    """Command: a word of this version and its operands, each in its range; or None."""
    word, *operands = line.split(" ")
    kinds = {**OPERANDS, **(OF_VERSION_2 if c.width == 8 else {})}.get(word, "")
    if not kinds or not re.fullmatch(word + f" {NUMBER}" * len(kinds), line):
        return None
    command = (word, *map(int, operands))
    is_in_range = all(x <= MOST[kind] for kind, x in zip(kinds, command[1:]))
    return command if is_in_range and blocks_of(c.width, command) <= c.object else None


def job_of(lines):
    """Job: a header, for each thread its line and commands, and `end`; at most 2^24 bytes."""
    c, traces = config_of((lines or [""])[0]), []
    for number, line in enumerate(lines[1:] + [""], 2):
        command = command_of(c, line)
        if command and traces and len(traces[-1]) < 131072:
            traces[-1].append(command)
        elif line == f"thread {len(traces)}" and len(traces) < c.threads:
            traces.append([])
        elif line == "end" and len(traces) == c.threads and len("\n".join(lines[:number])) < 2**24:
            return c, traces, lines[number:]
        else:
            raise Refused(3, f"line {number}")


def answer(data):
    """The status and the text for the bytes of a job and an order."""
    lines = data.decode("latin-1").split("\n")
    try:
        wrong = wrong_order(*job_of(lines if lines[-1] else lines[:-1]))
    except Refused as refused:
        return refused.args
    return (9, "order line %d: %s" % wrong) if wrong else (0, "ok")


def main(words):
    if words == ["--test"]:
        return subprocess.call([sys.executable, "-B", __file__.replace(".py", "_test.py")])
    if words:
        print(__doc__.strip())
        return 0 if words == ["--help"] else 2
    status, text = answer(sys.stdin.buffer.read())
    print(f"rt_check: {text}")
    return status


if __name__ == "__main__":
    sys.exit(main(sys.argv[1:]))
