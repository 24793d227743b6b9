#!/usr/bin/env python3
# A second check of configuration texts, to hold `sischeck` to: config_check.py [FILE] prints the line of one text;
# config_check.py --against PROGRAM COUNT compares the lines of COUNT altered texts with what PROGRAM prints.
import random
import subprocess
import sys

HEAD = b"ticks backlog copies tsid"
PARENTS = b"parent rate"
MAP = b"parent pid out kind service"


class Refused(Exception):
    def __init__(self, refusal, line, field=0):
        self.told = "refused %d line %d field %d" % (refusal, line, field)


def number(field, low, high, line, place):
    """The number in a field, which lies from low to high."""
    digits = 1 <= len(field) <= 10 and all(0x30 <= b <= 0x39 for b in field)
    if not digits or (len(field) > 1 and field[0] == 0x30):
        raise Refused(2, line, place)
    n = int(field)
    if n < low or n > high:
        raise Refused(3, line, place)
    return n


def fields(bytes_, count, line):
    parts = bytes_.split(b" ")
    if len(parts) != count:
        raise Refused(2, line)
    return parts


class Lines:
    def __init__(self, text):
        self.lines = text.split(b"\n")
        if self.lines[-1] == b"":
            self.lines.pop()
        self.read = 0

    def ended(self):
        return self.read == len(self.lines)

    def peek(self):
        return None if self.ended() else self.lines[self.read]

    def take(self):
        self.read += 1
        return self.lines[self.read - 1]

    def names(self, words):
        if self.ended():
            raise Refused(1, len(self.lines) + 1)
        if self.take() != words:
            raise Refused(1, self.read)

    def first(self):
        """The first line of values of a table has to be there."""
        if self.ended() or self.peek() == b"":
            raise Refused(3, self.read + 1)


def head(lines):
    lines.names(HEAD)
    lines.first()
    n = lines.read + 1
    values = fields(lines.take(), 4, n)
    for k, (low, high) in enumerate([(10000, 40000000), (1, 1024), (1, 16), (0, 65535)]):
        number(values[k], low, high, n, k + 1)
    if lines.ended():
        raise Refused(1, lines.read + 1)
    if lines.take() != b"":
        raise Refused(3, lines.read)


def parents(lines):
    lines.names(PARENTS)
    lines.first()
    count = 0
    while True:
        if lines.ended():
            raise Refused(1, lines.read + 1)
        line = lines.take()
        if line == b"":
            return count
        if count == 4:
            raise Refused(3, lines.read)
        values = fields(line, 2, lines.read)
        number(values[0], count, count, lines.read, 1)
        number(values[1], 100000, 100000000, lines.read, 2)
        count += 1


def rows(lines):
    lines.names(MAP)
    lines.first()
    found, pmts = [], 0
    while not lines.ended():
        line = lines.take()
        n = lines.read
        if len(found) == 64:
            raise Refused(3, n)
        values = fields(line, 5, n)
        parent = number(values[0], 0, 3, n, 1)
        pid = number(values[1], 0, 8190, n, 2)
        out = number(values[2], 32, 8190, n, 3)
        if values[3] not in (b"pass", b"pmt"):
            raise Refused(2, n, 4)
        low, high = (1, 65535) if values[3] == b"pmt" else (0, 0)
        service = number(values[4], low, high, n, 5)
        if values[3] == b"pmt":
            pmts += 1
            if pmts == 43:
                raise Refused(3, n)
        found.append((n, parent, pid, out, service))
    return found


def clashes(found, listed):
    pairs, outs, services = set(), set(), set()
    for n, parent, pid, out, service in found:
        if parent >= listed or (parent, pid) in pairs or out in outs or service in services:
            raise Refused(4, n)
        pairs.add((parent, pid))
        outs.add(out)
        if service > 0:
            services.add(service)


def told(text):
    """The line for a text."""
    try:
        if len(text) > 16384:
            raise Refused(1, 0)
        lines = Lines(text)
        head(lines)
        listed = parents(lines)
        found = rows(lines)
        clashes(found, listed)
        return "ok parents %d rows %d" % (listed, len(found))
    except Refused as refused:
        return refused.told


def sample(rng):
    """A right text, mostly."""
    listed = rng.randint(1, 4)
    lines = [HEAD, b"%d %d %d %d" % (rng.choice([10000, 2700000, 40000000]), rng.randint(1, 1024), rng.randint(1, 16), rng.randint(0, 65535)), b"", PARENTS]
    lines += [b"%d %d" % (p, rng.choice([100000, 40000000, 100000000])) for p in range(listed)]
    lines += [b"", MAP]
    for i in range(rng.choice([1, 2, 3, 5, 41, 42, 43, 63, 64, 65])):
        pmt = rng.random() < 0.7
        lines.append(b"%d %d %d %s %d" % (rng.randrange(listed), 100 + i, 2000 + i, b"pmt" if pmt else b"pass", 1 + i if pmt else 0))
    return lines


WORDS = [b"", b"0", b"1", b"2", b"3", b"4", b"00", b"01", b"9999", b"10000", b"40000000", b"40000001", b"1024", b"1025", b"16", b"17", b"65535", b"65536", b"99999", b"100000", b"100000000", b"100000001", b"8190", b"8191", b"31", b"32", b"9999999999", b"10000000000", b"pass", b"pmt", b"Pass", b"-1", b"1\r", b"100", b"2000"]


def alter(rng, lines):
    """One change of a field, of a line or of the order of lines."""
    at = rng.randrange(len(lines))
    how = rng.randrange(8)
    if how < 4:
        parts = lines[at].split(b" ")
        parts[rng.randrange(len(parts))] = rng.choice(WORDS)
        lines[at] = b" ".join(parts)
    elif how == 4:
        lines.insert(at, rng.choice([b"", lines[rng.randrange(len(lines))]]))
    elif how == 5:
        del lines[at]
    elif how == 6:
        lines[at] = rng.choice([b" " + lines[at], lines[at] + b" ", lines[at] + b"\r", lines[at].replace(b" ", b"  ", 1), b""])
    else:
        del lines[at:]
    return lines or [b""]


def altered(rng):
    lines = sample(rng)
    for _ in range(rng.choice([0, 1, 1, 1, 2, 3])):
        lines = alter(rng, lines)
    text = b"\n".join(lines) + rng.choice([b"", b"\n", b"\n", b"\n\n"])
    if rng.random() < 0.02:
        text += bytes(rng.choice(b"1 \n") for _ in range(16383 + rng.randrange(4) - len(text)))
    return text[: rng.randrange(len(text) + 1)] if rng.random() < 0.1 else text


def compare(program, count):
    rng = random.Random(1)
    seen = {}
    for _ in range(count):
        text = altered(rng)
        run = subprocess.run([program], input=text, stdout=subprocess.PIPE)
        line = run.stdout.decode().rstrip("\n")
        kind = "ok" if line.startswith("ok") else line[:9]
        seen[kind] = seen.get(kind, 0) + 1
        if line != told(text):
            sys.exit("%r: %s, here %s" % (text, line, told(text)))
    print("%d texts, no difference: %s" % (count, sorted(seen.items())))


if __name__ == "__main__":
    if sys.argv[1:2] == ["--against"]:
        compare(sys.argv[2], int(sys.argv[3]))
    else:
        source = open(sys.argv[1], "rb") if len(sys.argv) > 1 else sys.stdin.buffer
        print(told(source.read()))
