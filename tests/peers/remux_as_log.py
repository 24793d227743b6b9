#!/usr/bin/env python3
"""A remux job as a site log, run on the model: what remux should write and count.

    remux_as_log.py CONFIG PARENT0.ts [PARENT1.ts ..] -o OUT [--log LOG] [options of remux]

Writes the multiplex to OUT, the log to LOG, and prints the counters line. For small jobs.
"""

import argparse
import struct
import sys

from site_model import LATEST, PACKET_TICKS, RECORDS, STUFFING, Config, Site

TIMED_EVERY = 1000
STAMP = 1 << 30
PLACE = {"strip": 188, "folded": 189}


def packets_of(data, rate, first):
    """The time of the first packet, and the stream: packets, each with a time or none."""
    if has_sync(data, 0, 188):
        first = 0 if first is None else first
        count = len(data) // 188
        return first, [
            (data[188 * i:188 * i + 188],
             None if i % TIMED_EVERY else first + i * PACKET_TICKS // rate)
            for i in range(count)
        ]
    if not has_sync(data, 4, 192):
        sys.exit("neither kind of file")
    stamps = [struct.unpack_from(">I", data, at)[0] % STAMP for at in range(0, len(data) - 191, 192)]
    times = [stamps[0] if first is None else first]
    for before, stamp in zip(stamps, stamps[1:]):
        times.append(times[-1] + (stamp - before) % STAMP)
    return times[0], [(data[192 * i + 4:192 * i + 192], time) for i, time in enumerate(times)]


def has_sync(data, at, step):
    return len(data) > at and all(byte == 0x47 for byte in data[at:at + 2 * step + 1:step])


class Parent:
    """What a remux program knows of a parent without asking the adapter."""

    def __init__(self, packets, rate):
        self.packets = iter(packets)
        self.rate = rate
        self.lose()

    def lose(self):
        self.anchor = self.heard_to = self.start = None
        self.count = 0

    def took(self, time):
        if time is not None:
            self.anchor, self.count = time, 0
        elif self.anchor is None:
            return
        else:
            self.count += 1
        self.heard_to = self.anchor + self.count * PACKET_TICKS // self.rate
        self.start = self.anchor if self.start is None else self.start


class Job:
    def __init__(self, args, config):
        self.args, self.config = args, config
        self.site = Site(config)
        self.log = []
        self.out = bytearray()
        self.count = dict.fromkeys(
            "heard passed unpatchable held 7 8 9 lost skipped followed added put stuffing dropped"
            .split(), 0)
        times, misses = dict(args.time), dict(args.miss)
        self.parents, firsts = [], []
        for number, (path, rate) in enumerate(zip(args.parents, config.rates)):
            with open(path, "rb") as file:
                first, packets = packets_of(file.read(), rate, times.get(number))
            firsts.append(first)
            self.parents.append(Parent(packets[misses.get(number, 0):], rate))
        self.start = max(firsts) if args.start is None else args.start
        self.given, self.waiting = 0, []

    def call(self, *words):
        line = " ".join(map(str, words))
        self.log.append(line)
        return self.site.answer(line)

    def run(self):
        parents, slots = len(self.parents), self.args.slots
        entries = self.args.entries or self.config.backlog + 4096 * parents
        self.call("power", entries)
        self.call("carrier", 0, self.args.carrier, slots * PLACE[self.args.carrier])
        done = 0
        while done != self.args.frames:
            self.give_records()
            if not self.waiting:
                return
            for number in range(parents):
                self.hear_parent(number, self.waiting[0] + self.config.ticks)
            answer = self.call("frame", 0)
            if answer.startswith("refused"):
                return
            if self.args.verbose:
                print(answer)
            done += 1
            self.framed(*answer.split(" "))

    def give_records(self):
        while len(self.waiting) < RECORDS:
            start = self.start + self.given * self.config.ticks
            if start > LATEST:
                return
            self.call("record", self.given, start, self.args.slots)
            self.waiting.append(start)
            self.given += 1

    def hear_parent(self, number, end):
        parent = self.parents[number]
        while parent.heard_to is None or parent.heard_to < end:
            packet, time = next(parent.packets, (None, None))
            if packet is None:
                return
            answer = self.call("hear", number, "-" if time is None else time, packet.hex())
            self.count["heard"] += 1
            if answer.startswith("refused"):
                self.refused(number, answer[-1])
            else:
                parent.took(time)
                words = {"passed over": "passed", "dropped": "unpatchable", "held": "held"}
                self.count[words[answer]] += 1

    def refused(self, number, refusal):
        if refusal == "9":
            self.call("loss", number)
        self.count[refusal] += 1
        self.count["lost"] += 1
        self.parents[number].lose()

    def framed(self, word, *rest):
        self.count[word] += 1
        if word == "skipped":
            moment = max(parent.start for parent in self.parents)
            self.waiting = [start for start in self.waiting if start >= moment]
        else:
            moment = self.waiting.pop(0) + self.config.ticks
            self.count["dropped"] += int(rest[-1])
        for parent in self.parents:
            parent.start = moment
        if word == "added":
            packets = self.site.carriers[0].packets
            self.count["put"] += len(packets)
            self.count["stuffing"] += packets.count(STUFFING)
            self.out += bytes.fromhex(self.call("bytes", 0))
            self.call("empty", 0)

    def counters(self):
        words = [f"{name} {count}" for name, count in self.count.items() if not name.isdigit()]
        words.insert(4, "refused " + " ".join(str(self.count[number]) for number in "789"))
        return " ".join(words)


def main():
    parser = argparse.ArgumentParser()
    parser.add_argument("config")
    parser.add_argument("parents", nargs="+")
    parser.add_argument("-o", dest="out", required=True)
    parser.add_argument("--log")
    parser.add_argument("--slots", type=int, default=1000)
    parser.add_argument("--start", type=int)
    parser.add_argument("--frames", type=int, default=-1)
    parser.add_argument("--carrier", choices=PLACE, default="strip")
    parser.add_argument("--entries", type=int)
    parser.add_argument("--time", type=int, nargs=2, action="append", default=[])
    parser.add_argument("--miss", type=int, nargs=2, action="append", default=[])
    parser.add_argument("-v", dest="verbose", action="store_true")
    args = parser.parse_args()
    with open(args.config, encoding="ascii") as text:
        job = Job(args, Config(text.read()))
    job.run()
    with open(args.out, "wb") as out:
        out.write(job.out)
    if args.log:
        with open(args.log, "w", encoding="ascii") as log:
            log.write("\n".join(job.log) + "\n")
    print(job.counters())


if __name__ == "__main__":
    main()
