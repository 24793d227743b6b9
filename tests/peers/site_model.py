#!/usr/bin/env python3
"""A model of a site: adapter, carriers and tally, straight from the rules.

    site_model.py CONFIG LOG

reads a checked configuration and a site log and prints the answer of each call. It is
written to be read, not to be fast: lines are lists, and nothing is shared with the
programs that it is compared with.
"""

import sys

LATEST = 1 << 60
LAST_NUMBER = (1 << 32) - 1
PACKET_TICKS = 40_608_000_000
COUNTED = 100_000
LINE = 4_096
RECORDS = 8
SLOTS = 4_096
NULL_PID = 0x1FFF
STUFFING = bytes([0x47, 0x1F, 0xFF, 0x10]) + b"\xff" * 184


class Fault(Exception):
    """A log that is not one."""


class Refused(Exception):
    """A call refused with a number."""

    def __init__(self, number):
        super().__init__(number)
        self.number = number


# The configuration


class Row:
    def __init__(self, line):
        parent, pid, out, self.kind, service = line.split(" ")
        self.parent, self.pid, self.out = int(parent), int(pid), int(out)
        self.service = int(service)


class Config:
    def __init__(self, text):
        frames, parents, rows = (table.splitlines()[1:] for table in text.split("\n\n"))
        self.ticks, self.backlog, self.copies, self.tsid = map(int, frames[0].split(" "))
        self.rates = [int(line.split(" ")[1]) for line in parents]
        self.rows = [Row(line) for line in rows]

    def row(self, parent, pid):
        for row in self.rows:
            if (row.parent, row.pid) == (parent, pid):
                return row
        return None

    def out(self, parent, pid):
        row = self.row(parent, pid)
        return None if row is None else row.out


# Packets and tables


def crc32(data):
    """Bit by bit."""
    register = 0xFFFFFFFF
    for byte in data:
        for place in range(7, -1, -1):
            leaves = register >> 31
            register = register << 1 & 0xFFFFFFFF
            if leaves != byte >> place & 1:
                register ^= 0x04C11DB7
    return register


def is_good(packet):
    return len(packet) == 188 and packet[0] == 0x47 and not packet[1] & 0x80


def low(bits, data, at):
    """The low bits of the two bytes at a place."""
    return int.from_bytes(data[at:at + 2], "big") & (1 << bits) - 1


def with_low(bits, data, at, value):
    """The two bytes at a place, with other low bits."""
    high = int.from_bytes(data[at:at + 2], "big") >> bits << bits
    return (high | value).to_bytes(2, "big")


def with_pid(packet, pid):
    return packet[:1] + with_low(13, packet, 1, pid) + packet[3:]


def sealed(section):
    return section + crc32(section).to_bytes(4, "big")


def filled(packet):
    return packet.ljust(188, b"\xff")


def pat_copy(config, frame, copy):
    rows = [row for row in config.rows if row.kind == "pmt"]
    section = bytes([0, 0xB0, 9 + 4 * len(rows)]) + config.tsid.to_bytes(2, "big")
    section += bytes([0xC1, 0, 0])
    for row in rows:
        section += row.service.to_bytes(2, "big") + (0xE000 | row.out).to_bytes(2, "big")
    count = (frame * config.copies + copy) % 16
    return filled(bytes([0x47, 0x40, 0, 0x10 | count, 0]) + sealed(section))


def section_of(packet):
    """The whole PMT section in a packet, or none."""
    starts = packet[1] & 0x40 and packet[3] & 0xF0 == 0x10 and packet[4] == 0
    length = low(12, packet, 6)
    section = packet[5:8 + length]
    if not starts or not 13 <= length <= 180:
        return None
    if section[0] != 2 or not section[1] & 0x80 or section[6] or section[7]:
        return None
    return section if crc32(section) == 0 else None


def streams_of(loop):
    """The entries that fill a loop exactly, or none."""
    streams = []
    while loop:
        length = 5 + low(12, loop, 3)
        if len(loop) < 5 or len(loop) < length:
            return None
        streams.append(loop[:length])
        loop = loop[length:]
    return streams


def patched(config, row, packet):
    """A PMT packet under its row, or none."""
    section = section_of(packet)
    if section is None:
        return None
    descriptors = 12 + low(12, section, 10)
    if descriptors > len(section) - 4:
        return None
    streams = streams_of(section[descriptors:-4])
    if streams is None:
        return None
    kept = b""
    for stream in streams:
        out = config.out(row.parent, low(13, stream, 1))
        if out is not None:
            kept += stream[:1] + with_low(13, stream, 1, out) + stream[3:]
    clock = config.out(row.parent, low(13, section, 8))
    clock = NULL_PID if clock is None else clock
    body = row.service.to_bytes(2, "big") + section[5:8] + with_low(13, section, 8, clock)
    body += section[10:descriptors] + kept
    head = section[:1] + with_low(12, section, 1, len(body) + 4)
    return filled(with_pid(packet, row.out)[:5] + sealed(head + body))


# Carriers


class Carrier:
    """A list of packets; a kind of carrier says what of it is in bytes."""

    def __init__(self, room):
        self.room = room
        self.empty()

    def empty(self):
        self.packets = []
        self.used = b""
        self.pending = 0

    def capacity(self):
        return self.room // self.place

    def free(self):
        return (self.room - len(self.used)) // self.place

    def put(self, packet):
        if len(packet) != 188 or packet[0] != 0x47:
            raise Refused(15)
        if self.free() == 0:
            raise Refused(16)
        self.packets.append(packet)
        self.keep(packet)


class Strip(Carrier):
    place = 188

    def keep(self, packet):
        self.used += packet


class Folded(Carrier):
    place = 189

    def keep(self, packet):
        if packet == STUFFING and self.pending < 255:
            self.pending += 1
        else:
            self.used += packet + bytes([self.pending])
            self.pending = 0


# The adapter


class Hearing:
    """A parent, with or without an anchor."""

    def __init__(self):
        self.lose()

    def lose(self):
        self.anchor = self.start = self.heard_to = None
        self.count = 0
        self.line = []

    def let_go_before(self, moment):
        self.line = [waiting for waiting in self.line if waiting[0] >= moment]


def doubt_after(doubt, admitted, is_data, size):
    """What a slot makes of the doubt."""
    doubt = min(size, doubt + admitted)
    return max(0, doubt - 1) if is_data else doubt


def pat_slots(slots, copies):
    return {i * slots // copies: i for i in range(copies)}


def slot_end(start, slots, ticks, slot):
    return start + (slot + 1) * ticks // slots


class Adapter:
    def __init__(self, config, entries):
        self.config = config
        self.is_small = entries < config.backlog + len(config.rates)
        self.line_size = min(LINE, (entries - config.backlog) // len(config.rates))
        self.hearings = [Hearing() for _ in config.rates]
        self.records = []
        self.last = None
        self.fall_out_of_step()

    def fall_out_of_step(self):
        self.backlog = []
        self.step = "out"
        self.doubt = None

    def lose(self, parent):
        self.hearings[parent].lose()
        self.fall_out_of_step()

    def look(self, parent=0):
        if self.is_small:
            raise Refused(5)
        if parent >= len(self.hearings):
            raise Refused(6)

    def hear(self, parent, time, packet):
        self.look(parent)
        if not is_good(packet):
            self.lose(parent)
            raise Refused(7)
        hearing = self.hearings[parent]
        if self.is_mistimed(hearing, time):
            self.lose(parent)
            raise Refused(8)
        if hearing.anchor is None and time is None:
            return "passed over"
        anchor, count = (hearing.anchor, hearing.count + 1) if time is None else (time, 0)
        arrival = anchor + count * PACKET_TICKS // self.config.rates[parent]
        start = time if hearing.start is None else hearing.start
        answer, leaves = self.sorted_out(parent, packet, arrival >= start)
        if answer == "held":
            if len(hearing.line) == self.line_size:
                raise Refused(9)
            hearing.line.append((arrival, parent, leaves))
        hearing.anchor, hearing.count = anchor, count
        hearing.start, hearing.heard_to = start, arrival
        return answer

    def is_mistimed(self, hearing, time):
        if time is None:
            return hearing.anchor is not None and hearing.count == COUNTED
        return time > LATEST or hearing.heard_to is not None and time <= hearing.heard_to

    def sorted_out(self, parent, packet, is_wanted):
        """The answer to a packet, and what of it would wait."""
        row = self.config.row(parent, low(13, packet, 1))
        if row is None or not is_wanted:
            return "passed over", None
        if row.kind == "pass":
            return "held", with_pid(packet, row.out)
        leaves = patched(self.config, row, packet)
        return ("dropped", None) if leaves is None else ("held", leaves)

    def loss(self, parent):
        self.look(parent)
        self.lose(parent)
        return "lost"

    def record(self, number, start, slots):
        self.look()
        if not self.config.copies <= slots <= SLOTS or start > LATEST:
            raise Refused(10)
        record = (number, start, slots)
        follows = self.last is not None and (number, start) == (
            self.last[0] + 1, self.last[1] + self.config.ticks)
        if follows and len(self.records) == RECORDS:
            raise Refused(11)
        self.last = record
        if follows:
            self.records.append(record)
            return "queued"
        self.records = [record]
        self.fall_out_of_step()
        return "anew"

    def frame(self, carrier):
        self.look()
        if not self.records:
            raise Refused(12)
        if any(hearing.anchor is None for hearing in self.hearings):
            raise Refused(13)
        number, start, slots = self.records[0]
        latest = max(hearing.start for hearing in self.hearings)
        if start < latest:
            self.records = [record for record in self.records if record[1] >= latest]
            self.let_go_before(latest)
            self.fall_out_of_step()
            return f"skipped {number}"
        end = start + self.config.ticks
        if any(hearing.heard_to < end for hearing in self.hearings):
            raise Refused(13)
        if self.step == "in" and carrier.free() < slots:
            raise Refused(14)
        if self.step == "out":
            self.let_go_before(start)
            self.step, self.doubt = "following", self.config.backlog
        answer = self.place(carrier)
        self.records.pop(0)
        self.let_go_before(end)
        return answer

    def let_go_before(self, moment):
        """Packets before a moment go, and every from-time becomes that moment."""
        for hearing in self.hearings:
            hearing.let_go_before(moment)
            hearing.start = moment

    def place(self, carrier):
        number, start, slots = self.records[0]
        pats = pat_slots(slots, self.config.copies)
        waiting = sorted(entry for hearing in self.hearings for entry in hearing.line)
        placed, dropped, was_clear = [], 0, False
        for slot in range(slots):
            end = slot_end(start, slots, self.config.ticks, slot)
            admitted = 0
            while waiting and waiting[0][0] < end:
                packet = waiting.pop(0)[2]
                admitted += 1
                if len(self.backlog) < self.config.backlog:
                    self.backlog.append(packet)
                else:
                    dropped += 1
            if slot in pats:
                placed.append(pat_copy(self.config, number, pats[slot]))
            else:
                placed.append(self.backlog.pop(0) if self.backlog else STUFFING)
            if self.step == "following":
                self.doubt = doubt_after(self.doubt, admitted, slot not in pats, self.config.backlog)
                was_clear = was_clear or self.doubt == 0
        if self.step == "in":
            for packet in placed:
                carrier.put(packet)
            return f"added {number} dropped {dropped}"
        if was_clear:
            self.step, self.doubt = "in", None
        return f"followed {number} dropped {dropped}"


# The tally


class Tally:
    """What the doubt must be, told by calls and answers alone."""

    def __init__(self, config):
        self.config = config
        self.value = "blank"
        self.anchors = [None] * len(config.rates)
        self.counts = [0] * len(config.rates)
        self.held = [[] for _ in config.rates]
        self.records = {}

    def told(self):
        return f"count {self.value}" if isinstance(self.value, int) else self.value

    def heard(self, parent, time, answer):
        if answer in ("refused 7", "refused 8"):
            self.lost(parent)
        if answer.startswith("refused") or time is None and self.anchors[parent] is None:
            return
        if time is None:
            self.counts[parent] += 1
        else:
            self.anchors[parent], self.counts[parent] = time, 0
        if answer == "held":
            after = self.counts[parent] * PACKET_TICKS // self.config.rates[parent]
            self.held[parent].append(self.anchors[parent] + after)

    def lost(self, parent):
        self.anchors[parent] = None
        self.held[parent] = []
        self.value = "blank"

    def recorded(self, number, start, slots, answer):
        if answer in ("anew", "queued"):
            self.records[number] = (start, slots)
        if answer == "anew":
            self.value = "blank"

    def framed(self, answer):
        word, *rest = answer.split(" ")
        if word == "skipped":
            self.value = "blank"
        elif word == "followed" and self.value != "clear":
            self.follow(*self.records[int(rest[0])])

    def follow(self, start, slots):
        doubt = self.config.backlog if self.value == "blank" else self.value
        pats = pat_slots(slots, self.config.copies)
        arrivals = sorted(arrival for held in self.held for arrival in held if arrival >= start)
        for slot in range(slots):
            end = slot_end(start, slots, self.config.ticks, slot)
            admitted = sum(arrival < end for arrival in arrivals)
            arrivals = arrivals[admitted:]
            doubt = doubt_after(doubt, admitted, slot not in pats, self.config.backlog)
            if doubt == 0:
                self.value = "clear"
                return
        self.value = doubt


# The log


def number_of(word, most=(1 << 64) - 1):
    if not word.isascii() or not word.isdigit() or int(word) > most:
        raise Fault(f"{word} is no number from 0 to {most}")
    return int(word)


def packet_of(word):
    if word == "-":
        return b""
    try:
        return bytes.fromhex(word)
    except ValueError:
        raise Fault("no hexadecimal digits") from None


class Site:
    """One adapter with its carriers: takes the lines of a log and tells the answers."""

    KINDS = {"strip": Strip, "folded": Folded}

    def __init__(self, config):
        self.config = config
        self.adapter = None
        self.tally = Tally(config)
        self.carriers = {}

    def answer(self, line):
        call, *words = line.split(" ")
        if call not in self.CALLS:
            raise Fault(f"no call {call}")
        if self.adapter is None and call != "power":
            raise Fault("power comes first")
        try:
            return self.CALLS[call](self, *words)
        except TypeError:
            raise Fault(f"wrong number of fields for {call}") from None

    def carrier(self, word):
        number = number_of(word, 15)
        if number not in self.carriers:
            raise Fault(f"no carrier {number}")
        return self.carriers[number]

    def power(self, entries):
        self.adapter = Adapter(self.config, number_of(entries))
        self.tally = Tally(self.config)
        self.carriers = {}
        return "on"

    def make_carrier(self, word, kind, room):
        if kind not in self.KINDS:
            raise Fault(f"no carrier is {kind}")
        carrier = self.KINDS[kind](number_of(room))
        self.carriers[number_of(word, 15)] = carrier
        return f"capacity {carrier.capacity()}"

    def hear(self, parent, time, packet):
        parent = number_of(parent)
        time = None if time == "-" else number_of(time)
        answer = told(self.adapter.hear, parent, time, packet_of(packet))
        self.tally.heard(parent, time, answer)
        return answer

    def loss(self, parent):
        parent = number_of(parent)
        answer = told(self.adapter.loss, parent)
        if answer == "lost":
            self.tally.lost(parent)
        return answer

    def record(self, number, start, slots):
        record = number_of(number, LAST_NUMBER), number_of(start), number_of(slots)
        answer = told(self.adapter.record, *record)
        self.tally.recorded(*record, answer)
        return answer

    def frame(self, word):
        answer = told(self.adapter.frame, self.carrier(word))
        self.tally.framed(answer)
        return answer

    def put(self, word, packet):
        answer = told(self.carrier(word).put, packet_of(packet))
        return answer or "put"

    def empty(self, word):
        self.carrier(word).empty()
        return "emptied"

    def read(self, word, index):
        packets, index = self.carrier(word).packets, number_of(index)
        return packets[index].hex() if index < len(packets) else "none"

    def free(self, word):
        carrier = self.carrier(word)
        return f"free {carrier.free()} of {carrier.capacity()}"

    def used(self, word):
        return self.carrier(word).used.hex() or "-"

    def tell_tally(self):
        return self.tally.told()

    CALLS = {
        "power": power, "carrier": make_carrier, "hear": hear, "loss": loss, "record": record,
        "frame": frame, "put": put, "empty": empty, "read": read, "free": free, "bytes": used,
        "tally": tell_tally,
    }


def told(call, *arguments):
    try:
        return call(*arguments)
    except Refused as refused:
        return f"refused {refused.number}"


def calls_in(text):
    """The lines of a log that are calls, with their numbers."""
    for number, line in enumerate(text.split("\n"), 1):
        if line and not line.startswith("#"):
            yield number, line


def main():
    if len(sys.argv) != 3:
        sys.exit("usage: site_model.py CONFIG LOG")
    with open(sys.argv[1], encoding="ascii") as config, open(sys.argv[2], encoding="ascii") as log:
        site = Site(Config(config.read()))
        for number, line in calls_in(log.read()):
            try:
                print(site.answer(line))
            except Fault as fault:
                sys.exit(f"site_model: line {number}: {fault}")


if __name__ == "__main__":
    main()
