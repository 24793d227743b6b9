#!/usr/bin/env python3
"""Random jobs for a remux program, compared with the model to the byte.

    random_jobs.py PROGRAM [--seed N] [--count JOBS]

Bytes, the line of each frame and the counters line must be equal.
"""

import argparse
import os
import random
import struct
import subprocess
import sys
import tempfile

import random_parts
from site_model import PACKET_TICKS, Config

HERE = os.path.dirname(os.path.abspath(__file__))


def stream(rng, config, parent, is_timed):
    """The bytes of a file: mostly good packets, with accidents."""
    pmt_pids = {row.pid for row in config.rows if row.parent == parent and row.kind == "pmt"}
    accidents = rng.choice([0, 0.0005, 0.01 if is_timed else 0])
    stamp = rng.randrange(1 << 32)
    step = PACKET_TICKS // config.rates[parent]
    data = bytearray()
    for index in range(rng.choice([1, 1_200, 3_000, 5_000])):
        packet = random_parts.packet(rng, parent, pmt_pids)
        if index > 2 and rng.random() < accidents:
            packet = rng.choice([b"\x00" + packet[1:], packet[:1] + b"\xff" + packet[2:]])
        if is_timed:
            stamp += 0 if rng.random() < accidents else rng.randint(step // 2, 3 * step // 2)
            high = rng.randrange(4) << 30
            data += struct.pack(">I", high | stamp % (1 << 30))
        data += packet
    return bytes(data)


def options(rng, config, is_timed):
    """Options of remux; the times of a job lie near each other."""
    parents = range(len(config.rates))
    base = rng.choice([0, 7, rng.randint(0, 1 << 40), (1 << 60) - 300_000])
    mean = sum(config.rates) * config.ticks // PACKET_TICKS
    slots = max(config.copies, min(4_096, rng.choice([mean // 2, mean, 2 * mean, 3 * mean])))
    words = ["--slots", slots]
    if rng.random() < 0.3:
        words += ["--carrier", "folded"]
    if rng.random() < 0.3:
        words += ["--frames", rng.randint(1, 60)]
    if rng.random() < 0.3:
        words += ["--start", base + rng.choice([0, rng.randint(0, 300_000)])]
    if rng.random() < 0.3:
        words += ["--entries", config.backlog + len(parents) * rng.randint(1, 120)]
    for parent in parents:
        if base or is_timed or rng.random() < 0.3:
            words += ["--time", parent, base + rng.choice([0, rng.randint(0, 200_000)])]
        if rng.random() < 0.3:
            words += ["--miss", parent, rng.choice([1, rng.randint(0, 700)])]
    return [str(word) for word in words]


def run(command, out):
    """Status, lines and bytes of a run."""
    done = subprocess.run(command + ["-o", out], capture_output=True, text=True, check=False)
    with open(out, "rb") as file:
        return done.returncode, done.stdout, file.read()


def job(rng, folder, program):
    """Runs one job on both; tells whether they agree, and the counters."""
    path = os.path.join(folder, "mux.conf")
    text = random_parts.config(rng)
    with open(path, "w", encoding="ascii") as file:
        file.write(text)
    config = Config(text)
    words = [path]
    is_timed = rng.random() < 0.4
    for parent in range(len(config.rates)):
        words.append(os.path.join(folder, f"parent{parent}.ts"))
        with open(words[-1], "wb") as file:
            file.write(stream(rng, config, parent, is_timed))
    words += options(rng, config, is_timed) + ["-v"]
    model = [sys.executable, os.path.join(HERE, "remux_as_log.py")]
    expected = run(model + words, os.path.join(folder, "model.ts"))
    got = run([program] + words, os.path.join(folder, "program.ts"))
    return expected == got, expected[1].splitlines()[-1:], words


def main():
    parser = argparse.ArgumentParser()
    parser.add_argument("program")
    parser.add_argument("--seed", type=int, default=1)
    parser.add_argument("--count", type=int, default=20)
    args = parser.parse_args()
    totals = {}
    for number in range(args.seed, args.seed + args.count):
        folder = tempfile.mkdtemp()
        agree, counters, words = job(random.Random(number), folder, args.program)
        if not agree:
            print(" ".join(words))
            sys.exit(f"seed {number}: differs; the files are in {folder}")
        subprocess.run(["rm", "-r", folder], check=True)
        add_up(totals, counters[0].split(" "))
    print(f"{args.count} jobs agree;", " ".join(f"{name} {total}" for name, total in totals.items()))


def add_up(totals, words):
    """Adds the counters; the three refusals go by their numbers."""
    at = words.index("refused")
    words[at:at + 4] = ["7", words[at + 1], "8", words[at + 2], "9", words[at + 3]]
    for name, count in zip(words[::2], words[1::2]):
        totals[name] = totals.get(name, 0) + int(count)


if __name__ == "__main__":
    main()
