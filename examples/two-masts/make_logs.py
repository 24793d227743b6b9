#!/usr/bin/env python3
"""Makes the site logs of two masts that hear the same two parents.

early.log: on from the beginning; its dish for parent 1 fails for a while in the middle.
late.log:  switched on later, with less memory.

Both hand the same packets with the same times: every 50th packet of a parent has one.
Needs parent0.ts and parent1.ts of make_streams.py, at least 1,700 packets each.
"""

import argparse
import heapq
import os

from make_streams import PACKET, PACKET_TICKS, rates_of

CONFIG = os.path.join(os.path.dirname(os.path.abspath(__file__)), "mux.conf")
FRAME_TICKS = 2_700_000  # as in mux.conf
SLOTS = 120
RECORDS = 24  # frames that the controllers announce: 0 to 23
AHEAD = 3  # records that wait
START = 27_001_000_000  # of frame 0
FIRST = [27_000_000_000, 27_000_812_345]  # times of the parents' first packets
TIMED_EVERY = 50


class Stream:
    """A parent's packets, with the times that they are handed with and their arrivals."""

    def __init__(self, path, rate, first):
        with open(path, "rb") as file:
            self.data = file.read()
        self.rate, self.first = rate, first

    def time(self, index):
        return self.first + index * PACKET_TICKS // self.rate

    def arrivals(self, parent):
        """Arrival, parent, index, time or none, and packet, for each packet."""
        for index in range(len(self.data) // PACKET):
            after = index % TIMED_EVERY
            arrival = self.time(index - after) + after * PACKET_TICKS // self.rate
            time = None if after else arrival
            yield arrival, parent, index, time, self.data[index * PACKET:(index + 1) * PACKET]


class Mast:
    """Writes the log of one adapter."""

    def __init__(self, entries, first_record):
        self.lines = [f"power {entries}", f"carrier 0 strip {SLOTS * PACKET}"]
        self.next_record = first_record
        self.records = []
        self.anchors = [None, None]  # times of the first anchors since power-up or loss
        self.heard_to = [None, None]
        self.give_records()

    def give_records(self):
        while len(self.records) < AHEAD and self.next_record < RECORDS:
            start = START + self.next_record * FRAME_TICKS
            self.lines.append(f"record {self.next_record} {start} {SLOTS}")
            self.records.append(start)
            self.next_record += 1

    def hear(self, parent, arrival, time, packet):
        self.lines.append(f"hear {parent} {'-' if time is None else time} {packet.hex()}")
        if time is None and self.anchors[parent] is None:
            return
        if self.anchors[parent] is None:
            self.anchors[parent] = time
        self.heard_to[parent] = arrival
        while self.records and self.is_heard(self.records[0] + FRAME_TICKS):
            self.frame()

    def is_heard(self, moment):
        return all(heard_to is not None and heard_to >= moment for heard_to in self.heard_to)

    def frame(self):
        """Asks for a frame; a skip lets go of every record before the latest anchor."""
        self.lines += ["frame 0", "tally", "bytes 0", "empty 0"]
        latest = max(self.anchors)
        if self.records[0] < latest:
            self.records = [start for start in self.records if start >= latest]
        else:
            self.records.pop(0)
        self.give_records()

    def miss(self, parent):
        """A packet that does not come; the first of a hole is a loss."""
        if self.heard_to[parent] is not None:
            self.lines.append(f"loss {parent}")
            self.anchors[parent] = self.heard_to[parent] = None


def log_of(streams, mast, missed):
    """Hands packets by arrival until no record waits."""
    arrivals = (stream.arrivals(parent) for parent, stream in enumerate(streams))
    for arrival, parent, index, time, packet in heapq.merge(*arrivals):
        if index in missed[parent]:
            mast.miss(parent)
        else:
            mast.hear(parent, arrival, time, packet)
        if not mast.records:
            return "\n".join(mast.lines) + "\n"
    raise SystemExit("the streams are too short")


def early(streams):
    """Misses packets 660 to 799 of parent 1."""
    return log_of(streams, Mast(entries=1_120, first_record=0), [range(0), range(660, 800)])


def late(streams):
    """Begins with packet 303 of parent 0 and packet 237 of parent 1."""
    return log_of(streams, Mast(entries=496, first_record=4), [range(303), range(237)])


def main():
    parser = argparse.ArgumentParser(description="Makes early.log and late.log.")
    parser.add_argument("--streams", default=".", metavar="DIR", help="where the streams are (.)")
    parser.add_argument("--out", default=".", metavar="DIR", help="where the logs go (.)")
    args = parser.parse_args()
    os.makedirs(args.out, exist_ok=True)
    streams = [
        Stream(os.path.join(args.streams, f"parent{parent}.ts"), rate, FIRST[parent])
        for parent, rate in enumerate(rates_of(CONFIG))
    ]
    for name, make in (("early", early), ("late", late)):
        with open(os.path.join(args.out, f"{name}.log"), "w", encoding="ascii") as log:
            log.write(make(streams))


if __name__ == "__main__":
    main()
