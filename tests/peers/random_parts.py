"""Random configurations and packets, for tests that compare programs with the model."""

import struct

from site_model import crc32

SERVICES = range(1, 65_536)


def config(rng, parents=None):
    """A configuration text that is right, with few PIDs and short frames."""
    parents = parents or rng.randint(1, 4)
    ticks = rng.choice([10_000, 12_345, 40_000, 100_000])
    lines = ["ticks backlog copies tsid",
             f"{ticks} {rng.choice([1, 2, 3, 8, 30])} {rng.randint(1, 5)} {rng.randrange(65_536)}",
             "", "parent rate"]
    for parent in range(parents):
        lines.append(f"{parent} {rng.choice([100_000_000, 40_000_000, 33_333_333, 12_345_678])}")
    lines += ["", "parent pid out kind service"]
    outs = rng.sample(range(32, 8_191), 64)
    services = rng.sample(SERVICES, 42)
    for parent in range(parents):
        for pid in rng.sample(pids(parent), rng.randint(2, 7)):
            is_pmt = bool(services) and rng.random() < 0.4
            kind = f"pmt {services.pop()}" if is_pmt else "pass 0"
            lines.append(f"{parent} {pid} {outs.pop()} {kind}")
    return "\n".join(lines) + rng.choice(["", "\n"])


def pids(parent):
    """The PIDs that a parent's packets have."""
    return [0, 16, 100 + parent, 256, 257, 4_095, 8_190]


def packet(rng, parent, pmt_pids):
    """A good packet; under the PID of a PMT mostly a PMT."""
    pid = rng.choice(pids(parent) + [8_191])
    if pid in pmt_pids and rng.random() < 0.9:
        return pmt_packet(rng, parent, pid)
    head = struct.pack(">BHB", 0x47, rng.choice([0, 0x2000, 0x4000]) | pid, rng.randrange(256))
    return head + rng.randbytes(184)


def bad_packet(rng, good):
    """Not 188 bytes, no sync byte, or the error indicator set."""
    return rng.choice([
        b"", good[:187], good + b"\x00", bytes([good[0] ^ 1]) + good[1:],
        good[:1] + bytes([good[1] | 0x80]) + good[2:],
    ])


def pmt_packet(rng, parent, pid):
    """A PMT that can be patched, or one with a fault."""
    section = pmt_section(rng, parent)
    fault = rng.randrange(24)
    if fault in FAULTS:
        section = FAULTS[fault](rng, section)
    section += crc32(section).to_bytes(4, "big")
    if fault == 10:
        section = section[:-1] + bytes([section[-1] ^ 1 << rng.randrange(8)])
    flags = 0x4000 | rng.choice([0, 0x2000])
    control = 0x10 | rng.randrange(16)
    pointer = 0
    if fault == 11:
        flags ^= 0x4000
    elif fault == 12:
        control ^= rng.choice([0x10, 0x20, 0x40, 0x80])
    elif fault == 13:
        pointer = rng.randint(1, 255)
    data = struct.pack(">BHBB", 0x47, flags | pid, control, pointer) + section
    filling = rng.randbytes(188) if rng.random() < 0.3 else b"\xff" * 188
    return (data + filling)[:188]


def with_byte(at, change):
    """A fault in one byte of a section."""
    def fault(rng, section):
        return section[:at] + bytes([change(rng, section[at])]) + section[at + 1:]
    return fault


FAULTS = {
    1: with_byte(0, lambda rng, byte: rng.choice([0, 1, 3, 66])),
    2: with_byte(1, lambda rng, byte: byte ^ 0x80),
    3: with_byte(1, lambda rng, byte: byte ^ rng.randint(1, 15)),
    4: with_byte(2, lambda rng, byte: rng.randrange(256)),
    5: with_byte(6, lambda rng, byte: rng.randint(1, 255)),
    6: with_byte(7, lambda rng, byte: rng.randint(1, 255)),
    7: with_byte(11, lambda rng, byte: rng.randrange(256)),
    8: with_byte(-1, lambda rng, byte: rng.randrange(256)),
    9: lambda rng, section: section[:12],
}


def pmt_section(rng, parent):
    """A section without its CRC; of any length that is allowed, and sometimes one more."""
    room = rng.choice([rng.randint(13, 180), 180, 181, 13])
    body = rng.randbytes(2) + bytes([rng.randrange(256), 0, 0])
    clock = rng.choice(pids(parent) + [8_191])
    left = room - 13
    length = rng.choice([0, rng.randint(0, left)])
    body += struct.pack(">HH", rng.randrange(8) << 13 | clock, rng.randrange(16) << 12 | length)
    body += rng.randbytes(length)
    left -= length
    while left >= 5:
        length = rng.choice([0, rng.randint(0, left - 5), left - 5])
        if 0 < left - 5 - length < 5:
            length = left - 5
        pid = rng.choice(pids(parent) + [7_777])
        body += bytes([rng.randrange(256)])
        body += struct.pack(">HH", rng.randrange(8) << 13 | pid, rng.randrange(16) << 12 | length)
        body += rng.randbytes(length)
        left -= 5 + length
    return struct.pack(">BH", 2, 0x8000 | rng.randrange(8) << 12 | len(body) + 4) + body
