#!/usr/bin/env python3
"""Tests rtheap.py over the shared object that RTHEAP_LIBRARY names."""
import gc
import re
import threading
import unittest
from pathlib import Path

import rtheap
from rtheap import Error, Group, Heap, Name, Status, command

ABI = Path(__file__).resolve().parent.parent.parent / "c" / "abi.txt"


class Interface(unittest.TestCase):
    """The module and c/abi.txt say the same."""

    def setUp(self):
        self.lines = ABI.read_text().splitlines()

    def test_statuses(self):
        kept = {name: int(number, 0) for name, number in
                re.findall(r"^constant RTHEAP_(\w+) (\w+)$", "\n".join(self.lines), re.M)}
        statuses = {name: number for name, number in kept.items()
                    if name in ("OK", "NOT_DONE") or name.startswith("ERR_")}
        self.assertEqual(statuses, {it.name: it.value for it in Status})

    def test_sizes(self):
        structs = {"": rtheap._Handle, "_group": rtheap._Handle, "_worker": rtheap._Handle,
                   "_config": rtheap._Config, "_value": rtheap._Value, "_reply": rtheap._Reply,
                   "_command": rtheap.Command, "_statistics": rtheap._Statistics,
                   "_error": rtheap._Error}
        for name, struct in structs.items():
            self.assertIn(f"struct rtheap{name} {rtheap.ctypes.sizeof(struct)}", self.lines)
            for field, *_ in struct._fields_:
                offset = getattr(struct, field).offset
                self.assertIn(f"field rtheap{name}.{field} {offset}", self.lines)

    def test_functions(self):
        functions = {line.split()[1].split("(")[0]: line.count(",") + 1 for line in self.lines
                     if line.startswith("function ")}
        for name, arguments in rtheap._CALLS.items():
            self.assertEqual(functions[f"rtheap_{name}"], len(arguments), name)
        for name, arguments in rtheap._COMMANDS.items():
            self.assertEqual(functions[f"rtheap_cmd_{name}"], len(arguments), name)


class Heaps(unittest.TestCase):
    def refused(self, status, call, *arguments, **named):
        with self.assertRaises(Error) as caught:
            call(*arguments, **named)
        self.assertEqual(caught.exception.status, status)
        return caught.exception

    def test_commands(self):
        with Heap(blocks=64, live=20, shared=4) as heap:
            heap.record(1, fields=2)
            heap.array(2, elements=3)
            self.assertIsInstance(heap.say(1), Name)
            self.assertEqual(heap.len(2), 3)
            heap.set(3, 2 ** 62 - 1)
            heap.put(1, 1, 3)
            self.assertEqual(heap.get(4, 1, 1), 2 ** 62 - 1)
            self.assertIsNone(heap.get(4, 1, 0))
            self.assertIs(heap.same(3, 3), True)
            self.assertIs(heap.same(3, 4), False)
            heap.mov(4, 3)
            self.assertIs(heap.cas(1, 1, 4, 2), True)
            self.assertIs(heap.cas(1, 1, 4, 2), False)
            self.assertEqual(heap.swap(1, 1, 3), heap.say(2))
            heap.nil(1)
            heap.idle(5)
            s = heap.statistics()
            self.assertEqual((s.commands, s.objects, s.fulls), (17, 2, 0))
            self.assertEqual(s.units, 2 * s.rate + 5)

    def test_numbers(self):
        with Heap(blocks=64, live=20, object=2) as heap:
            heap.record(1, fields=10)
            heap.put_numbers(1, 2, 2, [5, 6, 7])
            self.assertEqual(heap.get_numbers(2, 1, 2, 3), [5, 6, 7])
            self.refused(Status.ERR_NOT_NUMBER, heap.get_numbers, 2, 1, 1, 2)

    def test_reads(self):
        with Heap(blocks=64, live=20, shared=4) as heap:
            heap.record(1, fields=2)
            heap.set(2, 1250)
            heap.put(1, 1, 2)
            heap.put(0, 3, 1)
            before = heap.statistics()
            self.assertEqual(heap.peek(2), 1250)
            self.assertEqual(heap.peek(1, 1), 1250)
            self.assertEqual(heap.peek(0, 3, 1), 1250)
            self.assertIsNone(heap.peek(0, 3, 0))
            self.assertEqual(heap.statistics(), before)
            error = self.refused(Status.ERR_RANGE, heap.peek, 0, 3, 2)
            self.assertEqual((error.argument, error.value), ("place in indices", 1))
            self.refused(Status.ERR_NIL, heap.peek, 3, 0)

    def test_saves(self):
        with Heap(blocks=64, live=20, shared=4) as heap:
            heap.record(1, fields=2)
            heap.set(2, 1250)
            heap.put(1, 1, 2)
            heap.put(0, 3, 1)
            self.assertIn("1: record 2 [nil, 1250]\n", heap.text())
            self.assertIn("digraph heap {", heap.dot())
            saved = heap.save()
        with Heap.load(saved, blocks=64, live=20) as heap:
            self.assertEqual(heap.peek(0, 3, 1), 1250)
            self.assertEqual(heap.save(), saved)
        self.refused(Status.ERR_TORN, Heap.load, saved[:-1], blocks=64, live=20)
        self.refused(Status.ERR_NOT_SAVED, Heap.load, b"", blocks=64, live=20)
        heap = Heap(blocks=64, live=20)
        heap.close()
        self.refused(Status.ERR_CLOSED, heap.save)

    def test_refusals(self):
        error = self.refused(Status.ERR_RATE, Heap, blocks=20, live=20)
        self.assertEqual((error.argument, error.value, error.least), ("blocks", 20, 24))
        self.assertIn("at least 24", str(error))
        heap = Heap(blocks=64, live=20)
        error = self.refused(Status.ERR_BOUNDS, heap.set, 16, 1)
        self.assertEqual((error.argument, error.value, error.most), ("d", 16, 15))
        self.refused(Status.ERR_NIL, heap.get, 1, 2, 0)
        for number in (-1, 2 ** 64):
            self.assertRaises(OverflowError, heap.set, 1, number)
        self.assertRaises(OverflowError, heap.set, 2 ** 32 + 1, 1)
        heap.close()
        self.refused(Status.ERR_CLOSED, heap.nil, 1)
        self.refused(Status.ERR_CLOSED, heap.close)

    def test_full(self):
        with Heap(blocks=64, live=20) as heap:
            def grow():
                for _ in range(1000):
                    heap.record(1, 2)
                    heap.put(1, 0, 2)
                    heap.mov(2, 1)
            self.refused(Status.ERR_FULL, grow)
            self.assertEqual(heap.statistics().fulls, 1)

    def test_many(self):
        """A heap that nobody refers to is closed."""
        for _ in range(2000):
            Heap(blocks=4096, live=100).set(1, 1)
        gc.collect()


class Groups(unittest.TestCase):
    def test_threads(self):
        group = Group(threads=3, blocks=512, live=128, shared=2)
        workers = [group.attach() for _ in range(3)]
        self.assertEqual([it.thread() for it in workers], [0, 1, 2])
        workers[0].ask(command.set(1, 0))
        workers[0].ask(command.put(0, 0, 1))
        threads = [threading.Thread(target=self.count, args=[it]) for it in workers]
        for thread in threads:
            thread.start()
        for thread in threads:
            thread.join()
        self.assertEqual(workers[0].ask(command.get(1, 0, 0)), 300)
        workers[1].follow(workers[0].stamp())
        for worker in workers[1:]:
            group.give_back(worker)
        with self.assertRaises(Error) as caught:
            group.finish()
        self.assertEqual(caught.exception.status, Status.ERR_WORKERS_OUT)
        group.give_back(workers[0])
        self.assertGreaterEqual(group.finish(), 1)

    @staticmethod
    def count(worker):
        """Adds 1 to element 0 of the shared array, a hundred times."""
        for _ in range(100):
            stored = False
            while not stored:
                old = worker.ask(command.get(1, 0, 0))
                worker.ask(command.set(2, old + 1))
                stored = worker.ask(command.cas(0, 0, 1, 2))

    def test_replies(self):
        group = Group(threads=1, blocks=64, live=20, shared=2)
        worker = group.attach()
        self.assertIsInstance(worker.ask(command.record(1, 3)), Name)
        self.assertEqual(worker.ask(command.len(1)), 3)
        self.assertIsNone(worker.ask(command.get(2, 1, 0)))
        self.assertIs(worker.ask(command.same(1, 1)), True)
        with self.assertRaises(Error) as caught:
            worker.ask(command.get(1, 1, 3))
        self.assertEqual(caught.exception.argument, "i")
        worker.close()
        group.close()


if __name__ == "__main__":
    unittest.main()
