"""Makes the readings of a simulated plant, and judges what `plantrun` printed for them.

    plantrun.py make SEED TICKS            prints readings
    plantrun.py judge TICKS READINGS TOLD  prints figures, or the first line that is wrong (status 1)

The judge is four small programs, one for each thread: each line has to be what its thread does next
by what it was answered before. Lines are in the order of stamps, which threads draw when an
operation has returned. So an operation took effect at a moment between the line of its thread
before and its own, and its answer has to be what the tag was at such a moment. A tag is changed by
one thread alone, so it is enough to look at each tag by itself.
"""
import bisect
import sys

PLACES, SENSORS, SET_POINT, ACKNOWLEDGED, OUTPUT, LISTED, KEPT, RING = 48, 4, 4, 5, 9, 10, 14, 32
SCAN = 5  # ticks from one scan of the alarms to the next, and from one reading that is kept
SPAN, FULL, GAIN, SCALE = 1_000_000, 1_000, 8, 16_384
LIMITS = [
    (100_000, 900_000, 20_000),
    (200_000, 700_000, 10_000),
    (0, 800_000, 30_000),
    (50_000, 950_000, 5_000),
]


class Wrong(Exception):
    """A line that does not follow from those before it."""


def make(seed, ticks):
    """Values that wander between 0 and 1,000,000, with peaks that raise alarms. Some are bad, and
    alarms are acknowledged at times."""
    state = seed * 2 + 1

    def drawn(below):
        nonlocal state
        state = (state * 6364136223846793005 + 1442695040888963407) % 2**64
        return (state >> 33) % below

    values = [400_000, 450_000, 500_000, 550_000]
    for tick in range(ticks):
        if tick % 1000 == 0:
            print(tick, SET_POINT, 300_000 + drawn(400_000), 1)
        for sensor in range(SENSORS):
            if (tick + sensor) % SCAN == 0:
                step = drawn(60_001) - 30_000
                values[sensor] = min(max(values[sensor] + step, 0), SPAN)
                value = SPAN - drawn(30_000) if drawn(20) == 0 else values[sensor]
                print(tick, sensor, value, 0 if drawn(50) == 0 else 1)
        if drawn(20) == 0:
            print(tick, ACKNOWLEDGED + drawn(SENSORS), 1, 1)


def good_value(tag):
    """The value of a tag whose word is odd, at most SPAN."""
    return min(tag[0], SPAN) if tag is not None and tag[1] % 2 == 1 else None


def wants(wanted, operation):
    if operation != wanted:
        raise Wrong(f"wanted {' '.join(map(str, wanted))}")


def input_thread(readings, counts):
    """Writes the readings, each with the number of its line."""
    for number, (_, tag, value, good) in enumerate(readings, 1):
        operation, _ = yield
        wants(("write", tag, value, number * 2 + good), operation)
        counts["readings"] += 1


def control_thread(ticks, counts):
    """At each tick reads the sensor and the set point, and writes the output; and once at the end."""
    integral = output = 0
    for tick in range(ticks + 1):
        operation, answer = yield
        wants(("read", 0), operation)
        measured = good_value(answer)
        operation, answer = yield
        wants(("read", SET_POINT), operation)
        wanted = good_value(answer)
        good = 0
        if measured is not None and wanted is not None:
            good = 1
            output = min(max((GAIN * (wanted - measured) + integral) // SCALE, 0), FULL)
            stuck = output == FULL if measured < wanted else output == 0
            if not stuck:
                integral = min(max(integral + wanted - measured, 0), FULL * SCALE)
        operation, _ = yield
        wants(("write", OUTPUT, output, tick * 2 + good), operation)
        counts["outputs"] += 1


def alarms_thread(ticks, counts):
    """At each scan looks at each alarm, and raises, acknowledges or clears it."""
    for _ in range(0, ticks, SCAN):
        for alarm, (low, high, dead) in enumerate(LIMITS):
            operation, listed = yield
            wants(("read", LISTED + alarm), operation)
            operation, answer = yield
            wants(("read", alarm), operation)
            value = good_value(answer)
            operation, told = yield
            wants(("read", ACKNOWLEDGED + alarm), operation)
            word = told[1] if told is not None else 0
            if listed is None:
                if value is not None and not low <= value <= high:
                    operation, _ = yield
                    wants(("write", LISTED + alarm, 1, word), operation)
                    counts["raised"] += 1
            elif listed[0] == 1:
                if word > listed[1]:
                    operation, _ = yield
                    wants(("write", LISTED + alarm, 2, word), operation)
                    counts["acknowledged"] += 1
            elif value is not None and low + dead <= value <= high - dead:
                operation, _ = yield
                wants(("clear", LISTED + alarm), operation)
                counts["cleared"] += 1


def history_thread(ticks, counts):
    """Keeps readings of sensor 0 in a ring, and reads the ring at the end."""
    ring = [None] * RING
    for number, _ in enumerate(range(0, ticks, SCAN)):
        operation, answer = yield
        wants(("read", 0), operation)
        if answer is not None:
            operation, _ = yield
            wants(("write", KEPT + number % RING, *answer), operation)
            ring[number % RING] = answer
            counts["kept"] += 1
    for place, reading in enumerate(ring):
        operation, answer = yield
        wants(("read", KEPT + place), operation)
        if answer != reading:
            raise Wrong(f"the ring has {reading}")


def numbers_of(words):
    """Numbers as they are printed: digits, with no 0 in front of others."""
    numbers = tuple(map(int, words))
    if list(map(str, numbers)) != words:
        raise Wrong("a number is not spelled as it is printed")
    return numbers


def parsed(line):
    """The thread, the operation and the answer of a line."""
    front, _, back = line.partition(" was ")
    thread, kind, *others = front.split(" ")
    numbers = numbers_of(others)
    if {"write": 3, "clear": 1, "read": 1}.get(kind) != len(numbers) or numbers[0] >= PLACES:
        raise Wrong("no operation")
    answer = None if back == "none" else numbers_of(back.split(" "))
    if answer is not None and len(answer) != 2:
        raise Wrong("no answer")
    return thread, (kind, *numbers), answer


class Tag:
    """A tag that one thread changes and others read: its values, each with the lines between which it
    was written, and how many values there had been, at least, at each read."""

    def __init__(self):
        self.values, self.begun, self.done = [None], [-1], [-1]
        self.read_at, self.seen = [-1], [0]

    def write(self, begun, done, value):
        self.values.append(value)
        self.begun.append(begun)
        self.done.append(done)

    def is_answer(self, begun, done, answer):
        """Whether a read between these lines may have this answer. Notes the earliest value."""
        least = max(
            bisect.bisect_right(self.done, begun) - 1,
            self.seen[bisect.bisect_right(self.read_at, begun) - 1],
        )
        for number in range(least, bisect.bisect_left(self.begun, done)):
            if self.values[number] == answer:
                self.read_at.append(done)
                self.seen.append(max(number, self.seen[-1]))
                return True
        return False


def written_tags(lines):
    """The tags of the input, by its lines."""
    tags = [Tag() for _ in range(OUTPUT)]
    before = 0
    for number, line in enumerate(lines, 1):
        if line.startswith("input write ") and " was " in line:
            _, operation, _ = parsed(line)
            if operation[1] >= OUTPUT:
                raise Wrong("this tag is not the input's")
            tags[operation[1]].write(before, number, operation[2:])
            before = number
    return tags


def judge(ticks, readings, lines):
    """Reads the lines one after the other, twice, and prints figures."""
    counts = dict.fromkeys(
        ["readings", "outputs", "raised", "acknowledged", "cleared", "kept"], 0
    )
    taken = []
    for reading in readings:
        if reading[0] >= ticks:
            break
        taken.append(reading)
    threads = {
        "input": input_thread(taken, counts),
        "control": control_thread(ticks, counts),
        "alarms": alarms_thread(ticks, counts),
        "history": history_thread(ticks, counts),
    }
    ended = set()

    def go_on(name, item):
        """Lets a thread go on until it wants its next operation."""
        try:
            threads[name].send(item)
        except StopIteration:
            ended.add(name)

    for name in threads:
        go_on(name, None)
    tags = written_tags(lines())
    own = [None] * PLACES
    begun = dict.fromkeys(threads, 0)
    operations = 0
    told = lines()
    for number, line in enumerate(told, 1):
        if " was " not in line:
            last = line
            break
        name, operation, answer = parsed(line)
        if name in ended or name not in threads:
            raise Wrong("this thread does no more")
        place = operation[1]
        if name == "input" or place >= OUTPUT:
            if answer != own[place]:
                raise Wrong(f"the tag was {own[place]}")
        elif not tags[place].is_answer(begun[name], number, answer):
            raise Wrong("the tag was never so meanwhile")
        if operation[0] == "write":
            own[place] = operation[2:]
        elif operation[0] == "clear":
            own[place] = None
        begun[name] = number
        go_on(name, (operation, answer))
        operations += 1
    else:
        raise Wrong("there are no figures")
    if ended != set(threads):
        raise Wrong(f"not ended: {', '.join(sorted(set(threads) - ended))}")
    figures = judge_figures(last, told, ticks, counts["readings"])
    print(f"judged {operations} operations:", ", ".join(f"{k} {v}" for k, v in counts.items()))
    for line in figures:
        print(line)


def judge_figures(first, told, ticks, readings):
    """The lines at the end: the figures of each thread, and the cycles."""
    lines = [first, *told]
    names = ["input", "control", "alarms", "history"]
    if len(lines) != 5 or not lines[4].startswith("end cycles "):
        raise Wrong("wanted four lines of figures, and the cycles")
    for name, line in zip(names, lines):
        done = readings if name == "input" else ticks
        words = line.split(" ")
        if words[:4] != [name, "ticks", str(done), "late"] or words[5] != "longest":
            raise Wrong(f"wanted {name} ticks {done} late .. longest .., not {line}")
    return lines


def main():
    mode, *words = sys.argv[1:]
    if mode == "make":
        make(int(words[0]), int(words[1]))
        return 0
    ticks = int(words[0])
    readings = [tuple(map(int, line.split(" "))) for line in open(words[1], encoding="ascii")]
    number = 0

    def lines():
        nonlocal number
        number = 0
        for line in open(words[2], encoding="ascii"):
            number += 1
            if not line.endswith("\n"):
                raise Wrong("no line feed")
            yield line[:-1]

    try:
        judge(ticks, readings, lines)
    except (Wrong, ValueError) as wrong:
        print(f"line {number}: {wrong}")
        return 1
    return 0


if __name__ == "__main__":
    sys.exit(main())
