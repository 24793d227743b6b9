#!/usr/bin/env python3
"""Shows PAT and PMT packets that the crate `psi` makes to a reader that knows nothing of it, and compares what it reads.

    tools/build psi_tests && python3 tests/peers/psi_tables.py

The packets are printed by target/bin/psi_tests; the reader is tshark (Debian package `tshark`), which decodes program association and
program map sections and verifies their CRC. Not part of the gate: without tshark it says so and ends with status 2.
"""
import os
import shutil
import subprocess
import sys
import tempfile

ROOT = os.path.join(os.path.dirname(os.path.abspath(__file__)), "..", "..")
PROGRAM = os.path.join(ROOT, "target", "bin", "psi_tests")
TSID = 0x8765

# parent, PID, out, kind, service
ROWS = [
    (0, 0x100, 0x200, "pmt", 0x1234),
    (0, 0x101, 0x201, "pass", 0),
    (0, 0x102, 0x1FFE, "pass", 0),
    (1, 0x100, 0x204, "pmt", 65535),
    (1, 0x101, 0x205, "pass", 0),
]

# PMT packets as parents send them: parent, the packet's head and section without CRC, in hex
# (two streams and one without a row; PCR without a row and no stream that has one; descriptors)
PMTS = [
    (0, "47410010" "00" "02b01d0007c30000e101f000" "1be101f000" "06e999f000" "0fe102f000"),
    (1, "4741001a" "00" "02b0120001c10000e333f000" "1be222f000"),
    (1, "4741001b" "00" "02b01c0001d50000e101f006" "0904" "0b00e500" "1be101f003" "520107"),
]


def crc(data):
    value = 0xFFFFFFFF
    for byte in data:
        value ^= byte << 24
        for _ in range(8):
            value = (value << 1 ^ (0x04C11DB7 if value >> 31 else 0)) & 0xFFFFFFFF
    return value


def packet(text):
    data = bytearray.fromhex(text)
    data[6:8] = (int.from_bytes(data[6:8], "big") & 0xF000 | len(data) - 4).to_bytes(2, "big")
    section = bytes(data[5:])
    return (bytes(data) + crc(section).to_bytes(4, "big")).ljust(188, b"\xFF")


def printed():
    """What the program prints for the map: the PAT, the patched PMTs, stuffing."""
    lines = ["map"] + ["row %d %d %d %s %d" % r for r in ROWS] + [f"pat 9 {TSID}"]
    lines += [f"deliver {parent} {packet(text).hex()}" for parent, text in PMTS] + ["blank"]
    out = subprocess.run([PROGRAM], input="\n".join(lines) + "\n", capture_output=True, text=True, check=True).stdout.split("\n")
    return [bytes.fromhex(line.split()[-1]) for line in out if line]


def read(packets, fields):
    """What tshark reads of each packet: a dictionary of lists of numbers."""
    with tempfile.NamedTemporaryFile(suffix=".ts") as file:
        file.write(b"".join(packets))
        file.flush()
        command = ["tshark", "-r", file.name, "-o", "mpeg_sect.verify_crc:TRUE", "-T", "fields", "-E", "aggregator=,"]
        for field in fields:
            command += ["-e", field]
        out = subprocess.run(command, capture_output=True, text=True, check=True).stdout
    rows = [line.split("\t") for line in out.split("\n") if line.strip()]
    return [{f: [int(v, 0) for v in cell.split(",") if v] for f, cell in zip(fields, row)} for row in rows]


EXPECTED = [
    {
        "mp2t.pid": [0], "mpeg_pat.tsid": [TSID], "mpeg_pat.prog_num": [0x1234, 65535], "mpeg_pat.prog_map_pid": [0x200, 0x204],
        "mpeg_sect.crc.status": [1],
    },
    {
        "mp2t.pid": [0x200], "mpeg_pmt.pg_num": [0x1234], "mpeg_pmt.pcr_pid": [0x201], "mpeg_pmt.stream.type": [0x1B, 0x0F],
        "mpeg_pmt.stream.elementary_pid": [0x201, 0x1FFE], "mpeg_sect.crc.status": [1],
    },
    {
        "mp2t.pid": [0x204], "mpeg_pmt.pg_num": [65535], "mpeg_pmt.pcr_pid": [8191], "mpeg_pmt.stream.type": [],
        "mpeg_pmt.stream.elementary_pid": [], "mpeg_sect.crc.status": [1],
    },
    {
        "mp2t.pid": [0x204], "mpeg_pmt.pg_num": [65535], "mpeg_pmt.pcr_pid": [0x205], "mpeg_pmt.stream.type": [0x1B],
        "mpeg_pmt.stream.elementary_pid": [0x205], "mpeg_pmt.prog_info_len": [6], "mpeg_pmt.stream.es_info_len": [3],
        "mpeg_sect.crc.status": [1],
    },
]


def main():
    if shutil.which("tshark") is None:
        print("tshark is not installed (Debian package `tshark`): nothing was compared")
        return 2
    if not os.path.exists(PROGRAM):
        print("target/bin/psi_tests is not there: run `tools/build psi_tests` first")
        return 2
    packets = printed()
    tables, blank = packets[:-1], packets[-1]
    if len(tables) != len(EXPECTED):
        print(f"the program printed {len(tables)} tables, expected {len(EXPECTED)}")
        return 1
    fields = sorted({f for e in EXPECTED for f in e})
    # a damaged copy of the PAT comes last, so that a reader that calls every CRC right is found out
    damaged = tables[0][:20] + bytes([tables[0][20] ^ 1]) + tables[0][21:]
    got = read(tables + [blank] * 20 + [damaged], fields)
    wrong = 0
    for number, expected in enumerate(EXPECTED):
        for field, values in expected.items():
            if got[number][field] != values:
                wrong += 1
                print(f"table {number}: {field} is {got[number][field]}, expected {values}")
    if got[-1]["mpeg_sect.crc.status"] == [1]:
        wrong += 1
        print("the reader calls the CRC of a damaged PAT right")
    print(f"{len(EXPECTED)} tables, {sum(map(len, EXPECTED))} fields read by tshark, {wrong} wrong")
    return 1 if wrong else 0


sys.exit(main())
