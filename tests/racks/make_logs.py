#!/usr/bin/env python3
"""Makes the logs of the stored run of `racks`: two masts that hear the same two parents.

early.log: on from the beginning; its dish for parent 1 fails for a while in the middle.
late.log:  switched on later, with less memory and a folded carrier.

usage: make_logs.py DIRECTORY
"""

import os
import sys

TICKS = 10_000  # the length of a frame
SLOTS = 9
FRAMES = 11
START = 1_000_000  # of frame 0
FIRST = [990_000, 991_500]  # arrivals of the parents' first packets
EVERY = [2_000, 5_000]  # ticks between a parent's packets, by its rate
TIMED = 5  # every fifth packet has a time

CONFIG = """ticks backlog copies tsid
10000 4 1 7

parent rate
0 20304000
1 8121600

parent pid out kind service
0 256 512 pass 0
1 257 513 pass 0
"""


def packet(parent, index):
    """Two of three packets of parent 0 and all of parent 1 have a row."""
    pid = 300 if parent == 0 and index % 3 == 2 else 256 + parent
    head = bytes([0x47, pid >> 8, pid & 0xFF, 0x10 | index % 16])
    return head + bytes([parent, index]) + b"\xff" * 182


def stream():
    """Arrival, parent, time or none, and packet, of both parents in order of arrival."""
    end = START + FRAMES * TICKS + 10_000
    found = []
    for parent in (0, 1):
        for index in range((end - FIRST[parent]) // EVERY[parent]):
            arrival = FIRST[parent] + index * EVERY[parent]
            found.append((arrival, parent, index % TIMED == 0, packet(parent, index)))
    return sorted(found)


class Mast:
    def __init__(self, entries, carrier, first_record):
        self.lines = [f"power {entries}", f"carrier 0 {carrier} {(SLOTS + 1) * 189}"]
        self.record, self.waiting = first_record, []
        self.heard = [None, None]
        self.give_records()

    def give_records(self):
        while len(self.waiting) < 2 and self.record < FRAMES:
            start = START + self.record * TICKS
            self.lines.append(f"record {self.record} {start} {SLOTS}")
            self.waiting.append(start)
            self.record += 1

    def hear(self, arrival, parent, timed, data):
        self.lines.append(f"hear {parent} {arrival if timed else '-'} {data.hex()}")
        if timed or self.heard[parent] is not None:
            self.heard[parent] = arrival
        while self.waiting and None not in self.heard and min(self.heard) >= self.waiting[0] + TICKS:
            self.waiting.pop(0)
            self.lines += ["frame 0", "empty 0"]
            self.give_records()

    def lose(self, parent):
        self.lines.append(f"loss {parent}")
        self.heard[parent] = None


def main():
    folder = sys.argv[1]
    early, late = Mast(40, "strip", 0), Mast(24, "folded", 4)
    lost = False
    for arrival, parent, timed, data in stream():
        # the dish of the early mast fails from 1,036,000 to 1,047,000
        if parent == 1 and 1_036_000 <= arrival < 1_047_000:
            if not lost:
                early.lose(1)
                lost = True
        else:
            early.hear(arrival, parent, timed, data)
        if arrival >= 1_035_000:
            late.hear(arrival, parent, timed, data)
    for name, text in (("mux.conf", CONFIG), ("early.log", "\n".join(early.lines) + "\n"), ("late.log", "\n".join(late.lines) + "\n")):
        with open(os.path.join(folder, name), "w") as file:
            file.write(text)


main()
