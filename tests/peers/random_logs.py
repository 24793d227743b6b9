#!/usr/bin/env python3
"""Random site logs, with the answers of the model.

    random_logs.py --out DIR [--seed N] [--count LOGS] [--calls CALLS] [--long]
        writes DIR/N.conf, DIR/N.log and DIR/N.answers for each seed
    random_logs.py --program PROGRAM ...
        also runs PROGRAM CONFIG LOG on each and compares what it prints

A log is a run of a site with accidents of every kind. With --long a log goes on for
100,002 packets without a time (some 40 MB), so that the count behind an anchor ends.
"""

import argparse
import os
import random
import subprocess
import sys
from collections import Counter

import random_parts
from site_model import COUNTED, LATEST, PACKET_TICKS, STUFFING, Config, Site


class Log:
    """Draws calls one by one; looks into the model to see what is worth calling."""

    def __init__(self, rng, config):
        self.rng, self.config = rng, config
        self.site = Site(config)
        self.lines, self.answers = [], []
        self.accidents = rng.choice([0, 0.001, 0.01, 0.1])
        self.slots = rng.randint(config.copies, config.copies + 60)
        self.begin_anew()
        self.offset = [rng.randint(0, config.ticks) for _ in config.rates]
        self.pmt_pids = [
            {row.pid for row in config.rows if row.parent == parent and row.kind == "pmt"}
            for parent in range(len(config.rates))
        ]

    def begin_anew(self):
        """Chooses a record that need not follow."""
        number = self.rng.choice([0, self.rng.randrange(1 << 32), (1 << 32) - 9])
        late = LATEST - 20 * self.config.ticks
        self.next_record = (number, self.rng.choice([0, self.rng.randint(0, 1 << 40), late]))

    def call(self, *words):
        line = " ".join(map(str, words))
        self.lines.append(line)
        self.answers.append(self.site.answer(line))
        return self.answers[-1]

    def draw(self, calls):
        backlog, parents = self.config.backlog, len(self.config.rates)
        entries = backlog + parents * self.rng.choice([1, 5, 50, 50, 50, 5_000])
        self.call("power", entries if self.rng.random() < 0.95 else backlog + parents - 1)
        for number in range(3):
            self.make_carrier(number, self.rng.choice([self.slots, 2 * self.slots, 3, 0]))
        while len(self.lines) < calls:
            if self.rng.random() < self.accidents:
                self.rng.choice(self.ACCIDENTS)(self)
            elif self.rng.random() < 0.03:
                self.rng.choice(self.QUESTIONS)(self)
            else:
                self.regular()

    def regular(self):
        """What a controller does: records ahead, then packets, then the frame."""
        if self.next_record[1] > LATEST:
            self.begin_anew()
        if len(self.site.adapter.records) < self.rng.randint(1, 8):
            self.record()
        lagging = self.lagging()
        if lagging is None:
            self.frame()
        elif self.hear(lagging) == "refused 9" and self.rng.random() < 0.5:
            self.call("loss", lagging)

    def frame(self):
        """Asks for a frame; a carrier that is too small is replaced."""
        carrier = self.rng.randrange(2)
        self.call("empty", carrier)
        if self.call("frame", carrier) == "refused 14":
            self.make_carrier(carrier, self.slots + 60)

    def make_carrier(self, number, places):
        kind = self.rng.choice(["strip", "folded"])
        self.call("carrier", number, kind, 189 * places + self.rng.randint(0, 188))

    def lagging(self):
        """A parent that is not heard up to the end of the oldest record, if any."""
        adapter = self.site.adapter
        end = adapter.records[0][1] + self.config.ticks if adapter.records else LATEST
        lagging = [
            parent for parent, hearing in enumerate(adapter.hearings)
            if hearing.heard_to is None or hearing.heard_to < end
        ]
        return self.rng.choice(lagging) if lagging else None

    def hear(self, parent):
        hearing = self.site.adapter.hearings[parent]
        time = "-"
        if hearing.anchor is None:
            if self.rng.random() < 0.7:
                time = max(0, self.next_record[1] - self.offset[parent])
        elif self.rng.random() < 0.1:
            packet_ticks = PACKET_TICKS // self.config.rates[parent]
            time = hearing.heard_to + self.rng.choice([1, packet_ticks, self.rng.randint(1, 3_000)])
        return self.hand(parent, time, self.packet(parent))

    def hand(self, parent, time, packet):
        return self.call("hear", parent, time, packet.hex() or "-")

    def packet(self, parent):
        return random_parts.packet(self.rng, parent, self.pmt_pids[parent])

    def record(self):
        number, start = self.next_record
        answer = self.call("record", number, start, self.slots)
        self.next_record = ((number + 1) % (1 << 32), start + self.config.ticks)
        return answer

    def parent(self):
        return self.rng.randrange(len(self.config.rates))

    # Accidents

    def lose(self):
        self.call("loss", self.parent())

    def unknown_parent(self):
        number = len(self.config.rates) + self.rng.choice([0, 1, 250])
        if self.rng.random() < 0.5:
            self.call("loss", number)
        else:
            self.hand(number, "-", self.packet(0))

    def bad_packet(self):
        parent = self.parent()
        time = self.rng.choice(["-", self.rng.randrange(1 << 62)])
        self.hand(parent, time, random_parts.bad_packet(self.rng, self.packet(parent)))

    def wrong_time(self):
        parent = self.parent()
        heard_to = self.site.adapter.hearings[parent].heard_to or 1
        time = self.rng.choice([heard_to, heard_to - 1, 0, LATEST + 1, (1 << 64) - 1])
        self.hand(parent, time, self.packet(parent))

    def flood(self):
        """One parent runs ahead, so that its line may be full."""
        parent = self.parent()
        for _ in range(self.rng.choice([10, 150])):
            self.hear(parent)

    def odd_record(self):
        number, start = self.next_record
        odd = [
            (number, start, self.config.copies - 1), (number, start, 4_097),
            (number, LATEST + 1, self.slots), (number, start, 4_096),
            (self.rng.randrange(1 << 32), start, self.slots), (number, start + 1, self.slots),
        ]
        self.call("record", *self.rng.choice(odd))

    def many_records(self):
        """More than wait; the first that is refused is given again."""
        for _ in range(9):
            before = self.next_record
            if self.record() == "refused 11":
                self.next_record = before

    def change_slots(self):
        self.slots = self.rng.randint(self.config.copies, self.config.copies + 60)

    def early_frame(self):
        self.call("frame", self.rng.randrange(3))

    def run_on(self):
        """Frames are asked for until none is there."""
        while not self.call("frame", self.rng.randrange(3)).startswith("refused"):
            pass

    # Questions

    def put(self):
        packet = self.rng.choice([STUFFING, self.packet(0)])
        packet = random_parts.bad_packet(self.rng, packet) if self.rng.random() < 0.2 else packet
        for _ in range(self.rng.choice([1, 1, 2, 2, 2, 2, 2, 300])):
            self.call("put", 2, packet.hex() or "-")

    def empty(self):
        self.call("empty", self.rng.randrange(3))

    def read(self):
        carrier = self.rng.randrange(3)
        held = len(self.site.carriers[carrier].packets)
        self.call("read", carrier, self.rng.choice([0, held, self.rng.randint(0, held + 1)]))

    def ask(self):
        carrier = self.rng.randrange(3)
        self.call(self.rng.choice(["free", "bytes"]), carrier)
        self.call("tally")

    ACCIDENTS = [lose, unknown_parent, bad_packet, wrong_time, flood, odd_record, many_records,
                 change_slots, early_frame, run_on]
    QUESTIONS = [put, empty, read, ask, ask, ask]

    def count_out(self):
        """An anchor, and then packets without a time until the count ends."""
        self.call("power", self.config.backlog + len(self.config.rates))
        self.hand(0, 5, STUFFING)
        for _ in range(COUNTED + 1):
            self.hand(0, "-", STUFFING)
        self.hand(0, "-", STUFFING)


def write(path, text):
    with open(path, "w", encoding="ascii") as file:
        file.write(text)


def agrees(program, stem):
    done = subprocess.run([program, stem + ".conf", stem + ".log"], capture_output=True, check=False)
    with open(stem + ".answers", "rb") as answers:
        return done.returncode == 0 and done.stdout == answers.read()


def main():
    parser = argparse.ArgumentParser()
    parser.add_argument("--out", default=".")
    parser.add_argument("--seed", type=int, default=1)
    parser.add_argument("--count", type=int, default=1)
    parser.add_argument("--calls", type=int, default=3_000)
    parser.add_argument("--program")
    parser.add_argument("--long", action="store_true")
    args = parser.parse_args()
    os.makedirs(args.out, exist_ok=True)
    seen = Counter()
    for seed in range(args.seed, args.seed + args.count):
        rng = random.Random(seed)
        text = random_parts.config(rng)
        log = Log(rng, Config(text))
        log.count_out() if args.long else log.draw(args.calls)
        stem = os.path.join(args.out, str(seed))
        write(stem + ".conf", text)
        write(stem + ".log", "\n".join(log.lines) + "\n")
        write(stem + ".answers", "\n".join(log.answers) + "\n")
        seen.update(kind_of(answer) for answer in log.answers)
        if args.program and not agrees(args.program, stem):
            sys.exit(f"seed {seed}: the answers differ")
    print(", ".join(f"{kind}: {count}" for kind, count in sorted(seen.items())))


def kind_of(answer):
    """An answer without its values."""
    word = answer.split(" ")[0]
    return "bytes" if word.startswith("47") else answer if word == "refused" else word


if __name__ == "__main__":
    main()
