#!/usr/bin/env python3
"""Makes the vectors of crates/psi_tests: its stdin, and what it must write.

    python3 tests/psi/vectors.py          writes crates/psi_tests/stdin and crates/psi_tests/stdout

The answers are computed here, by a second implementation that shares nothing with the crate: tables are taken apart with
struct-like readers over bytes, and the CRC is a division of polynomials over whole numbers.
"""
import os

POLY = 0x104C11DB7


def crc(data):
    """Remainder of (data + all-ones start) * x^32 by the polynomial."""
    n = len(data)
    value = int.from_bytes(data, "big") << 32
    value ^= 0xFFFFFFFF << (8 * n)
    for bit in range(8 * n + 31, 31, -1):
        if value >> bit & 1:
            value ^= POLY << (bit - 32)
    return value & 0xFFFFFFFF


def sealed(data):
    return data + crc(data).to_bytes(4, "big")


def good(p):
    return len(p) == 188 and p[0] == 0x47 and p[1] < 0x80


class Row:
    def __init__(self, parent, pid, out, kind, service=0):
        self.parent, self.pid, self.out, self.kind, self.service = parent, pid, out, kind, service

    def line(self):
        return f"row {self.parent} {self.pid} {self.out} {self.kind} {self.service}"


def find(rows, parent, pid):
    for n, r in enumerate(rows):
        if (r.parent, r.pid) == (parent, pid):
            return n
    return None


def out_of(rows, parent, pid):
    n = find(rows, parent, pid)
    return None if n is None else rows[n].out


def with_pid(p, pid):
    head = int.from_bytes(p[1:3], "big")
    return p[:1] + ((head & 0xE000) | pid).to_bytes(2, "big") + p[3:]


def pat(counter, tsid, rows):
    pmts = [r for r in rows if r.kind == "pmt"]
    if len(pmts) > 42:
        return None
    loop = b"".join(r.service.to_bytes(2, "big") + (0xE000 | r.out).to_bytes(2, "big") for r in pmts)
    section = b"\x00" + (0xB000 | (len(loop) + 9)).to_bytes(2, "big") + tsid.to_bytes(2, "big") + b"\xC1\x00\x00" + loop
    packet = bytes([0x47, 0x40, 0x00, 0x10 | counter % 16, 0x00]) + sealed(section)
    return packet.ljust(188, b"\xFF")


def patch(rows, row, p):
    b1, b3 = p[1], p[3]
    if not b1 & 0x40 or b3 & 0xC0 or b3 & 0x30 != 0x10 or p[4] != 0:
        return None
    s = p[5:]
    length = int.from_bytes(s[1:3], "big") & 0xFFF
    if s[0] != 2 or not s[1] & 0x80 or not 13 <= length <= 180:
        return None
    s = s[: 3 + length]
    if s[6] or s[7] or crc(s[:-4]) != int.from_bytes(s[-4:], "big"):
        return None
    info = int.from_bytes(s[10:12], "big") & 0xFFF
    if 12 + info > len(s) - 4:
        return None
    loop, kept = s[12 + info : -4], b""
    while loop:
        if len(loop) < 5:
            return None
        n = 5 + (int.from_bytes(loop[3:5], "big") & 0xFFF)
        if n > len(loop):
            return None
        entry, loop = loop[:n], loop[n:]
        pid = int.from_bytes(entry[1:3], "big")
        out = out_of(rows, row.parent, pid & 0x1FFF)
        if out is not None:
            kept += entry[:1] + (pid & 0xE000 | out).to_bytes(2, "big") + entry[3:]
    pcr = int.from_bytes(s[8:10], "big")
    new_pcr = out_of(rows, row.parent, pcr & 0x1FFF)
    body = row.service.to_bytes(2, "big") + s[5:8] + (pcr & 0xE000 | (8191 if new_pcr is None else new_pcr)).to_bytes(2, "big") + s[10 : 12 + info] + kept
    section = s[:1] + (int.from_bytes(s[1:3], "big") & 0xF000 | len(body) + 4).to_bytes(2, "big") + body
    return (with_pid(p[:3], row.out) + p[3:5] + sealed(section)).ljust(188, b"\xFF")


def deliver(rows, parent, p):
    if not good(p):
        return "bad"
    n = find(rows, parent, int.from_bytes(p[1:3], "big") & 0x1FFF)
    if n is None:
        return "unmapped"
    row = rows[n]
    y = with_pid(p, row.out) if row.kind == "pass" else patch(rows, row, p)
    return "unpatchable" if y is None else f"{n} {y.hex()}"


# --- making packets


def stream(kind, pid, info=b"", flags=7, info_flags=15, length=None):
    n = len(info) if length is None else length
    return bytes([kind]) + (flags << 13 | pid).to_bytes(2, "big") + (info_flags << 12 | n).to_bytes(2, "big") + info


def section(streams=b"", info=b"", table=2, flags=0xB, program=7, version=0xC1, number=0, last=0, pcr_flags=7, pcr=0x101, info_flags=15, info_length=None, length=None, spoil=0):
    n = len(info) if info_length is None else info_length
    body = program.to_bytes(2, "big") + bytes([version, number, last]) + (pcr_flags << 13 | pcr).to_bytes(2, "big") + (info_flags << 12 | n).to_bytes(2, "big") + info + streams
    size = len(body) + 4 if length is None else length
    data = bytes([table]) + (flags << 12 | size).to_bytes(2, "big") + body
    return data + (crc(data) ^ spoil).to_bytes(4, "big")


def packet(data, pid=0x100, b1=0x40, b3=0x10, pointer=0, sync=0x47, behind=b""):
    head = bytes([sync, b1 | pid >> 8, pid & 0xFF, b3, pointer])
    return (head + data + behind).ljust(188, b"\xFF")[:188]


def filler(n, seed):
    """n bytes of descriptors, at most 255 in each."""
    out = b""
    while n:
        k = min(n - 2, 100) if n >= 2 else 0
        if n == 1:
            return out + b"\x00"
        if n - 2 - k == 1:
            k -= 1
        out += bytes([0x80 + seed, k]) + bytes((seed * 7 + i * 5) & 0xFF for i in range(k))
        n -= 2 + k
    return out


def config(copies, tsid, rows):
    """A configuration text of two parents, in hex."""
    text = f"ticks backlog copies tsid\n2700000 4 {copies} {tsid}\n\nparent rate\n0 40000000\n1 20000000\n\nparent pid out kind service\n"
    return (text + "".join(r.line()[4:] + "\n" for r in rows)).encode().hex()


MAP = [
    Row(0, 0x100, 0x200, "pmt", 0x1234),
    Row(0, 0x101, 0x201, "pass"),
    Row(0, 0x102, 0x1FFE, "pass"),
    Row(0, 0x103, 32, "pass"),
    Row(1, 0x104, 0x204, "pass"),
    Row(1, 0x100, 0x205, "pmt", 65535),
    Row(0, 0, 0x206, "pass"),
    Row(0, 0x1FFE, 0x207, "pass"),
    Row(1, 0x101, 0x208, "pass"),
]

VIDEO, AUDIO = stream(0x1B, 0x101), stream(0x0F, 0x102, b"\x0a\x04eng\x00")


def pmt_cases():
    yield "one stream", packet(section(VIDEO))
    yield "two streams, descriptors", packet(section(VIDEO + AUDIO))
    yield "a stream without a row between two with one", packet(section(VIDEO + stream(0x06, 0x999, b"\x56\x00") + AUDIO))
    yield "a stream without a row at the end", packet(section(VIDEO + stream(0x06, 0x999)))
    yield "no streams", packet(section())
    yield "every stream without a row", packet(section(stream(2, 0x300) + stream(3, 0x301, b"\x52\x01\x00")))
    yield "many streams", packet(section(b"".join(stream(k, 0x101 + k % 5) for k in range(33))))
    yield "the same PID twice", packet(section(VIDEO + VIDEO))
    yield "a stream under the PID of the PMT itself", packet(section(stream(5, 0x100)))
    yield "PID 0 and PID 8,190", packet(section(stream(5, 0) + stream(5, 0x1FFE)))
    yield "a stream of PID 8,191", packet(section(stream(5, 0x1FFF) + VIDEO))
    yield "a stream whose row is another parent's", packet(section(stream(5, 0x104) + VIDEO))
    yield "PCR_PID with a row", packet(section(VIDEO, pcr=0x102))
    yield "PCR_PID without a row", packet(section(VIDEO, pcr=0x555))
    yield "PCR_PID 8,191", packet(section(VIDEO, pcr=0x1FFF))
    yield "program descriptors", packet(section(VIDEO, info=b"\x09\x04\x0b\x00\xe5\x00\x05\x04HDMV"))
    yield "section_length 13", packet(section(pcr=0x101))
    yield "section_length 180, by program descriptors", packet(section(VIDEO, info=filler(162, 3)))
    yield "section_length 180, by stream descriptors", packet(section(stream(0x1B, 0x101, filler(162, 4))))
    yield "section_length 180, by streams alone and one descriptor", packet(section(b"".join(stream(6, 0x102) for _ in range(32)) + stream(6, 0x101, b"\x52\x00")))
    yield "section_length 181", packet(section(VIDEO, info=filler(163, 3)))
    yield "section_length 181 that says 180", packet(section(VIDEO, info=filler(163, 3), length=180))
    yield "section_length 12", packet(sealed(bytes.fromhex("02b00c0007c10000e101f0")))
    yield "section_length 4,095", packet(section(VIDEO, length=4095))
    yield "section_length 0", packet(section(VIDEO, length=0))
    yield "table_id 0", packet(section(VIDEO, table=0))
    yield "table_id 3", packet(section(VIDEO, table=3))
    yield "section_syntax_indicator 0", packet(section(VIDEO, flags=3))
    yield "section_number 1", packet(section(VIDEO, number=1))
    yield "last_section_number 1", packet(section(VIDEO, last=1))
    yield "program descriptors that just fit", packet(section(info=filler(20, 1)))
    yield "program descriptors one too long", packet(section(info=filler(20, 1), info_length=21))
    yield "program_info_length 4,095", packet(section(VIDEO, info_length=4095))
    yield "stream descriptors that just fit", packet(section(VIDEO + stream(6, 0x102, filler(10, 2))))
    yield "stream descriptors one too long", packet(section(VIDEO + stream(6, 0x102, filler(10, 2), length=11)))
    yield "stream descriptors one too short", packet(section(VIDEO + stream(6, 0x102, filler(10, 2), length=9)))
    yield "ES_info_length 4,095", packet(section(stream(6, 0x102, length=4095)))
    yield "four bytes behind the last stream", packet(section(VIDEO + b"\x1b\xe1\x01\xf0"))
    yield "one byte behind the last stream", packet(section(VIDEO + b"\x1b"))
    yield "a wrong bit in the CRC", packet(section(VIDEO, spoil=1))
    yield "another wrong bit in the CRC", packet(section(VIDEO, spoil=1 << 31))
    yield "scrambling 1", packet(section(VIDEO), b3=0x50)
    yield "scrambling 2", packet(section(VIDEO), b3=0x90)
    yield "scrambling 3", packet(section(VIDEO), b3=0xD0)
    yield "adaptation control 0", packet(section(VIDEO), b3=0x00)
    yield "adaptation control 2", packet(section(VIDEO), b3=0x20)
    yield "adaptation control 3", packet(section(VIDEO), b3=0x30)
    yield "no payload start", packet(section(VIDEO), b1=0x00)
    yield "pointer 1", packet(b"\xFF" + section(VIDEO), pointer=1)
    yield "pointer 1 with a section right behind it", packet(section(VIDEO), pointer=1)
    yield "zeros behind the section", packet(section(VIDEO + AUDIO), behind=bytes(150))
    yield "another section behind the section", packet(section(VIDEO), behind=section(AUDIO))
    yield "reserved bits 0", packet(section(stream(0x1B, 0x101, b"\x52\x01\x07", flags=0, info_flags=0), flags=8, version=0x01, pcr_flags=0, info_flags=0))
    yield "reserved bits 1, and the zero bit", packet(section(VIDEO, flags=15))
    yield "reserved bits mixed", packet(section(stream(0x1B, 0x101, flags=5, info_flags=0xC), flags=0xE, version=0x40, pcr_flags=2, info_flags=0x4))
    yield "version 31, not yet current", packet(section(VIDEO, version=0xFE))
    yield "transport priority and counter 15", packet(section(VIDEO), b1=0x60, b3=0x1F)
    yield "stream types 0 and 255", packet(section(stream(0, 0x101) + stream(255, 0x102)))
    yield "error indicator", packet(section(VIDEO), b1=0xC0)
    yield "another sync byte", packet(section(VIDEO), sync=0x46)
    yield "187 bytes", packet(section(VIDEO))[:-1]
    yield "189 bytes", packet(section(VIDEO)) + b"\xFF"
    yield "no row", packet(section(VIDEO), pid=0x105)


def main():
    stdin, stdout = [], []

    def say(line, answer):
        stdin.append(line)
        if answer is not None:
            stdout.append(answer)

    def note(text):
        say(f"# {text}", f"# {text}")

    def hexed(data):
        return data.hex() if data else "-"

    note("CRC-32: the check value of the polynomial's catalogues, nothing, a PAT and a PMT as a common multiplexer writes them, and the same with their CRC")
    published = [bytes.fromhex("00b00d0001c100000001f000"), bytes.fromhex("02b0170001c10000e100f0001be100f0000fe101f000")]
    assert crc(b"123456789") == 0x0376E6E7
    assert crc(published[0]) == 0x2AB104B2 and crc(published[1]) == 0x2F44B99B
    for data in [b"123456789", b"", *published, *map(sealed, published), bytes(range(256)), b"\x00", b"\xFF" * 4]:
        say(f"crc {hexed(data)}", f"{crc(data):08x}")

    blank = bytes([0x47, 0x1F, 0xFF, 0x10]) + b"\xFF" * 184
    note("stuffing: itself, and packets that differ from it in one bit, one byte or their length")
    say("blank", blank.hex())
    for data in [blank, blank[:3] + b"\x11" + blank[4:], blank[:-1] + b"\xFE", b"\x47\x1F\xFF\x10" + bytes(184), blank[:-1], blank + b"\xFF", b""]:
        say(f"stuffing {hexed(data)}", str(data == blank).lower())

    note("heads: start, PID, scrambling, adaptation and counter")
    names = ["Reserved", "Payload", "Field", "Both"]
    for b1, b2, b3 in [(0x40, 0x00, 0x10), (0x1F, 0xFF, 0xFF), (0x7F, 0xFE, 0x2A), (0x21, 0x02, 0x81), (0x00, 0x11, 0x7C)]:
        p = bytes([0x47, b1, b2, b3]) + bytes(184)
        say(f"head {p.hex()}", f"{str(bool(b1 & 0x40)).lower()} {(b1 & 31) << 8 | b2} {b3 >> 6} {names[b3 >> 4 & 3]} {b3 & 15}")
    for p in [b"", b"\x47" * 3, blank[:-1], blank + b"\x00", b"\x46" + blank[1:], bytes([0x47, 0x80]) + blank[2:]]:
        say(f"head {hexed(p)}", "bad")

    note("changed PIDs: all 13 bits, and no other")
    for p in [blank, bytes([0x47, 0x60, 0x00, 0xD5]) + bytes(range(184))]:
        for pid in [0, 32, 0x1555, 8191]:
            say(f"pid {pid} {p.hex()}", with_pid(p, pid).hex())
    say(f"pid 5 {blank[:-1].hex()}", "bad")

    note("PAT: no service, one, 42 and 43")
    say("map", None)
    passes = [Row(0, 0x40 + k, 0x400 + k, "pass") for k in range(3)]
    for n in [0, 1, 42, 43]:
        rows = passes[:1] + [Row(k % 4, 0x1000 + k, 0x1F00 + 3 * k, "pmt", 1 + k * 1500) for k in range(n)] + passes[1:]
        say("map", None)
        for r in rows:
            say(r.line(), None)
        answer = pat(3, 0x8765, rows)
        say("pat 3 34661", "none" if answer is None else answer.hex())
    note("PAT: the copies of frames 5 and 8, two in a frame, count 10, 11, 0 and 1")
    say("map", None)
    for r in MAP:
        say(r.line(), None)
    for f in [5, 8]:
        for i in [0, 1]:
            answer = pat(f * 2 + i, 1, MAP)
            assert answer[3] & 15 == {(5, 0): 10, (5, 1): 11, (8, 0): 0, (8, 1): 1}[f, i]
            say(f"pat {f * 2 + i} 1", answer.hex())

    note("rows: by parent and PID together")
    for parent, pid in [(0, 0x100), (1, 0x100), (2, 0x100), (0, 0x104), (1, 0x104), (0, 0x1FFE), (0, 8191), (1, 0x101)]:
        n = find(MAP, parent, pid)
        say(f"find {parent} {pid}", "none" if n is None else str(n))

    note("packets under a `pass` row: scrambled, with adaptation field, anything")
    for b1, b3 in [(0x41, 0x10), (0x01, 0xF7), (0x61, 0x2F)]:
        p = bytes([0x47, b1, 0x01, b3]) + bytes((i * 3) & 0xFF for i in range(184))
        say(f"deliver 0 {p.hex()}", deliver(MAP, 0, p))
        say(f"deliver 2 {p.hex()}", deliver(MAP, 2, p))

    count = 0
    for name, p in pmt_cases():
        note(f"PMT: {name}")
        answer = deliver(MAP, 0, p)
        say(f"deliver 0 {p.hex()}", answer)
        count += 1
        if answer[0].isdigit():
            again = bytes.fromhex(answer.split()[1])
            keeps = [Row(0, 0x200, 0x200, "pmt", 0x1234)] + [Row(0, r.out, r.out, "pass") for r in MAP if r.parent == 0 and r.kind == "pass"]
            assert deliver(keeps, 0, again) == f"0 {again.hex()}", name
    note("PMT: under the row of another parent")
    p = packet(section(stream(0x1B, 0x101) + stream(0x0F, 0x104), pcr=0x104))
    say(f"deliver 1 {p.hex()}", deliver(MAP, 1, p))
    note("PMT: patched once more, under a map that keeps its PIDs")
    again = bytes.fromhex(deliver(MAP, 0, packet(section(VIDEO + AUDIO))).split()[1])
    say("map", None)
    for r in [Row(3, 0x200, 0x200, "pmt", 0x1234), Row(3, 0x201, 0x201, "pass"), Row(3, 0x1FFE, 0x1FFE, "pass")]:
        say(r.line(), None)
    say(f"deliver 3 {again.hex()}", f"0 {again.hex()}")
    assert count >= 40

    note("by a configuration: PAT copies of frames 5 and 8 and of the last frame, two in a frame; and one with `pass` rows alone")
    mapped = [Row(0, 0x100, 0x200, "pmt", 0x1234), Row(0, 0x101, 0x201, "pass"), Row(1, 0x100, 0x202, "pmt", 9), Row(1, 0x102, 0x203, "pass")]
    text = config(2, 7, mapped)
    for f in [5, 8, 4294967295]:
        for i in [0, 1]:
            say(f"copy {text} {f} {i}", pat(f * 2 + i, 7, mapped).hex())
    alone = [Row(0, 0x40, 0x41, "pass")]
    say(f"copy {config(16, 65535, alone)} 3 15", pat(3 * 16 + 15, 65535, alone).hex())
    services = [Row(k % 2, 0x400 + k, 0x1000 + k, "pmt", 100 + k) for k in range(42)]
    say(f"copy {config(1, 0, services)} 1 0", pat(1, 0, services).hex())
    note("by a configuration: rows, and packets under them")
    for parent, pid in [(0, 0x100), (1, 0x100), (1, 0x101), (1, 0x102), (9, 0x100)]:
        n = find(mapped, parent, pid)
        say(f"number {text} {parent} {pid}", "none" if n is None else str(n))
    for parent, p in [
        (0, packet(section(VIDEO + AUDIO))),
        (1, packet(section(VIDEO + stream(3, 0x102), pcr=0x102))),
        (1, packet(section(VIDEO, spoil=2))),
        (0, packet(section(VIDEO), pid=0x101)),
        (1, packet(section(VIDEO), pid=0x101)),
        (0, packet(section(VIDEO), b1=0xC0)),
    ]:
        say(f"hear {text} {parent} {p.hex()}", deliver(mapped, parent, p))

    folder = os.path.join(os.path.dirname(__file__), "..", "..", "crates", "psi_tests")
    for file, lines in [("stdin", stdin), ("stdout", stdout)]:
        with open(os.path.join(folder, file), "w") as f:
            f.write("\n".join(lines) + "\n")
    print(f"{len(stdin)} lines, {count} PMT packets")


main()
