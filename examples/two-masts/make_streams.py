#!/usr/bin/env python3
"""Makes the two parent streams of this example, the same ones for the same seed.

Each parent carries three services. A stream is made of units of 100 packets: a PAT, an
SDT, a PMT for each service, the elementary streams by their weights, and null packets, in
an order that changes from unit to unit. The first stream of a service carries its PCR.

Units are built up to a block of 1,024; longer streams repeat the block, with PCRs
and PTSs that run on. Sixteen units close every continuity counter, so the seam does not show.
"""

import argparse
import os
import random
import struct

PACKET = 188
UNIT = 100
BLOCK_UNITS = 1024
PACKET_TICKS = 40_608_000_000  # 188 x 8 x 27,000,000: ticks of a packet, times its rate
PCR_EVERY = 8  # packets of a stream that carries the PCR
PTS_LEAD = 18_000  # 200 ms of 90 kHz
NULL = bytes([0x47, 0x1F, 0xFF, 0x10]) + b"\xff" * 184
STAMP = 1 << 30

VIDEO, AUDIO, TEXT = 0x02, 0x03, 0x06  # stream types
STREAM_ID = {VIDEO: 0xE0, AUDIO: 0xC0, TEXT: 0xBD}
LANGUAGE = bytes([0x0A, 4]) + b"eng\x00"
TELETEXT = bytes([0x56, 5]) + b"eng" + bytes([0x09, 0x00])
COPYRIGHT = bytes([0x0D, 4]) + b"TEST"

# For each parent its services: number, PID of the PMT, and the streams as
# (PID, stream type, descriptors, packets in a unit).
PARENTS = [
    [
        (101, 256, [(257, VIDEO, b"", 30), (258, AUDIO, LANGUAGE, 6)]),
        (102, 272, [(273, VIDEO, b"", 26), (274, AUDIO, LANGUAGE, 6), (275, TEXT, TELETEXT, 3)]),
        (103, 288, [(289, VIDEO, b"", 10), (290, AUDIO, LANGUAGE, 4)]),
    ],
    [
        (201, 256, [(257, VIDEO, COPYRIGHT, 44), (258, AUDIO, LANGUAGE, 8)]),
        (202, 272, [(274, AUDIO, LANGUAGE, 14)]),
        (203, 304, [(305, VIDEO, b"", 12), (306, AUDIO, LANGUAGE, 5)]),
    ],
]

CRC_TABLE = []
for byte in range(256):
    register = byte << 24
    for _ in range(8):
        register = (register << 1 ^ (0x04C11DB7 if register >> 31 else 0)) & 0xFFFFFFFF
    CRC_TABLE.append(register)


def crc32(data):
    register = 0xFFFFFFFF
    for byte in data:
        register = (register << 8 & 0xFFFFFFFF) ^ CRC_TABLE[register >> 24 ^ byte]
    return register


def section_packet(pid, table, extension, body, private=0xB0):
    """A packet with one section; its continuity counter is 0."""
    length = 5 + len(body) + 4
    assert length <= 180
    section = struct.pack(">BHHBBB", table, private << 8 | length, extension, 0xC1, 0, 0) + body
    section += struct.pack(">I", crc32(section))
    packet = struct.pack(">BHBB", 0x47, 0x4000 | pid, 0x10, 0) + section
    return packet.ljust(PACKET, b"\xff")


def pat(parent):
    body = b"".join(struct.pack(">HH", number, 0xE000 | pmt) for number, pmt, _ in PARENTS[parent])
    return section_packet(0, 0, parent + 1, body)


def sdt(parent):
    body = struct.pack(">HB", 0x2000 + parent, 0xFF)
    for number, _, _ in PARENTS[parent]:
        name = b"Service %d" % number
        descriptor = bytes([0x48, 3 + len(name), 1, 0, len(name)]) + name
        body += struct.pack(">HBH", number, 0xFC, 0x8000 | len(descriptor)) + descriptor
    return section_packet(17, 0x42, parent + 1, body, private=0xF0)


def pmt(service):
    number, pid, streams = service
    body = struct.pack(">HH", 0xE000 | streams[0][0], 0xF000)
    for stream, kind, descriptors, _ in streams:
        body += struct.pack(">BHH", kind, 0xE000 | stream, 0xF000 | len(descriptors)) + descriptors
    return section_packet(pid, 2, number, body)


def pcr_bytes(index, rate):
    base, extension = divmod(index * PACKET_TICKS // rate, 300)
    return (((base & 0x1FFFFFFFF) << 6 | 63) << 9 | extension).to_bytes(6, "big")


def pts_bytes(index, rate):
    pts = index * PACKET_TICKS // rate // 300 + PTS_LEAD & 0x1FFFFFFFF
    return bytes([
        0x21 | pts >> 29 & 0x0E,
        pts >> 22 & 0xFF,
        0x01 | pts >> 14 & 0xFE,
        pts >> 7 & 0xFF,
        0x01 | pts << 1 & 0xFE,
    ])


def pes_head(kind, room):
    """The head of a PES packet, without its PTS; a video's length is left open."""
    length = 0 if kind == VIDEO else room - 6
    return struct.pack(">IHBBB", 0x100 | STREAM_ID[kind], length, 0x80, 0x80, 5)


class Elementary:
    """An elementary stream whose packets are drawn one by one."""

    def __init__(self, stream, has_pcr):
        self.pid, self.kind, _, self.weight = stream
        self.has_pcr = has_pcr
        self.drawn = 0

    def next(self, block, clocks, index, rng):
        """Appends a packet; notes where its PCR and its PTS stand."""
        starts = self.drawn % self.weight == 0
        pcr = self.has_pcr and self.drawn % PCR_EVERY == 0
        at = len(block)
        control = (0x30 if pcr else 0x10) | self.drawn & 15
        block += struct.pack(">BHB", 0x47, (0x4000 if starts else 0) | self.pid, control)
        if pcr:
            block += b"\x07\x10" + bytes(6)
            clocks.append((at + 6, index, pcr_bytes))
        if starts:
            block += pes_head(self.kind, self.room())
            clocks.append((len(block), index, pts_bytes))
            block += bytes(5)
        block += rng.randbytes(at + PACKET - len(block))
        self.drawn += 1

    def room(self):
        """Payload bytes of the packets from this one to the end of the unit."""
        packets = range(self.drawn, self.drawn + self.weight)
        return sum(176 if self.has_pcr and i % PCR_EVERY == 0 else 184 for i in packets)


class Table:
    """A packet that is sent again and again, its continuity counter counting on."""

    def __init__(self, packet):
        self.packets = [packet[:3] + bytes([0x10 | i]) + packet[4:] for i in range(16)]
        self.drawn = 0

    def next(self, block, clocks, index, rng):
        block += self.packets[self.drawn & 15]
        self.drawn += 1


class Null:
    def next(self, block, clocks, index, rng):
        block += NULL


def unit_of(parent):
    """The sources of a unit's packets."""
    unit = [Table(pat(parent)), Table(sdt(parent))]
    for service in PARENTS[parent]:
        unit.append(Table(pmt(service)))
        for number, stream in enumerate(service[2]):
            unit += [Elementary(stream, number == 0)] * stream[3]
    assert len(unit) <= UNIT
    return unit + [Null()] * (UNIT - len(unit))


def make_block(parent, packets, rng):
    """At most a block of units, and where its clocks stand."""
    sources = unit_of(parent)
    block, clocks = bytearray(), []
    for unit in range(min(BLOCK_UNITS, -(-packets // UNIT))):
        rng.shuffle(sources)
        for place, source in enumerate(sources):
            source.next(block, clocks, unit * UNIT + place, rng)
    return block, clocks


def set_clocks(block, clocks, first, rate):
    for at, index, clock in clocks:
        value = clock(first + index, rate)
        block[at:at + len(value)] = value


def with_stamps(block, count, first, rate, time):
    """The first packets of a block, each with the four bytes of its arrival before it."""
    times = (time + i * PACKET_TICKS // rate for i in range(first, first + count))
    stamps = struct.pack(f">{count}I", *(time % STAMP for time in times))
    stamped = bytearray(192 * count)
    for lane in range(4):
        stamped[lane::192] = stamps[lane::4]
    for lane in range(PACKET):
        stamped[4 + lane::192] = block[lane:count * PACKET:PACKET]
    return stamped


def make_stream(path, parent, packets, rate, seed, timed, time):
    block, clocks = make_block(parent, packets, random.Random(f"{seed} {parent}"))
    size = len(block) // PACKET
    with open(path, "wb") as out:
        for first in range(0, packets, size):
            count = min(size, packets - first)
            set_clocks(block, clocks, first, rate)
            if timed:
                out.write(with_stamps(block, count, first, rate, time))
            else:
                out.write(memoryview(block)[:count * PACKET])


def rates_of(config):
    """The parents' rates in a configuration text."""
    with open(config, encoding="ascii") as text:
        table = text.read().split("\n\n")[1]
    return [int(line.split(" ")[1]) for line in table.splitlines()[1:]]


def arguments():
    here = os.path.dirname(os.path.abspath(__file__))
    parser = argparse.ArgumentParser(description="Makes parent0.ts and parent1.ts.")
    parser.add_argument("--seed", type=int, default=1, help="what the streams are drawn from (1)")
    parser.add_argument("--packets", type=int, default=20_000, help="packets of each parent (20000)")
    parser.add_argument("--seconds", type=int, help="in place of --packets: how long each parent lasts")
    parser.add_argument("--out", default=".", metavar="DIR", help="where the files go (.)")
    parser.add_argument("--config", default=os.path.join(here, "mux.conf"),
                        help="the configuration that has the rates (mux.conf beside this program)")
    parser.add_argument("--timed", action="store_true", help="192-byte packets, each with its arrival")
    parser.add_argument("--time", type=int, nargs=2, default=[0, 0], metavar="TICKS",
                        help="with --timed: arrivals of the first packets (0 0)")
    return parser.parse_args()


def main():
    args = arguments()
    os.makedirs(args.out, exist_ok=True)
    for parent, rate in enumerate(rates_of(args.config)[:2]):
        packets = args.packets if args.seconds is None else args.seconds * rate // (8 * PACKET)
        path = os.path.join(args.out, f"parent{parent}.ts")
        make_stream(path, parent, packets, rate, args.seed, args.timed, args.time[parent])


if __name__ == "__main__":
    main()
