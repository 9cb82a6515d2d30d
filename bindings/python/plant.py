#!/usr/bin/env python3
"""Keeps the last 40 readings, one a line, as records on a heap, and prints them at the end."""
import sys

import rtheap

KEPT = 40
ARRAY, RECORD, NUMBER = 0, 1, 2  # registers


def keep(heap, place, reading):
    heap.record(RECORD, fields=1)
    heap.set(NUMBER, reading)
    heap.put(RECORD, 0, NUMBER)
    heap.put(ARRAY, place, RECORD)


def reading_at(heap, place):
    heap.get(RECORD, ARRAY, place)
    return heap.get(NUMBER, RECORD, 0)


def main():
    # At most 50 blocks are live: 3 of registers, 6 of the array, 40 readings and the next one.
    with rtheap.Heap(blocks=128, live=50, shared=KEPT) as heap:
        count = 0
        for line in sys.stdin:
            keep(heap, count % KEPT, int(line))
            count += 1
        for i in range(max(count - KEPT, 0), count):
            print(reading_at(heap, i % KEPT))


if __name__ == "__main__":
    try:
        main()
    except (ValueError, OverflowError) as wrong:
        sys.exit(f"plant: a line is no number: {wrong}")
    except rtheap.Error as error:
        sys.exit(f"plant: {error}")
