#!/usr/bin/env python3
"""Compares the frames that two masts both added.

    common_frames.py ANSWERS_A ANSWERS_B
        answers to two site logs that ask for the bytes after each frame, each from a strip
    common_frames.py --slots N LINES_A OUT_A LINES_B OUT_B
        what remux -v printed in two runs, and the strips that it wrote

Prints how many frames each added and how many of them both; status 1 if they differ or
if there is none.
"""

import re
import sys

ADDED = re.compile(r"added (\d+) dropped \d+")


def from_answers(path):
    """Frame number to bytes; the bytes are the first answer with a packet after the frame's."""
    frames, number = {}, None
    with open(path, encoding="ascii") as answers:
        for answer in answers:
            added = ADDED.match(answer)
            if added:
                number = added[1]
            elif number is not None and answer.startswith("47"):
                frames[number] = bytes.fromhex(answer)
                number = None
    return frames


def from_run(lines, out, slots):
    with open(lines, encoding="ascii") as text:
        numbers = ADDED.findall(text.read())
    with open(out, "rb") as file:
        return {number: file.read(slots * 188) for number in numbers}


def main():
    words = sys.argv[1:]
    if len(words) == 2:
        sites = [from_answers(path) for path in words]
    elif len(words) == 6 and words[0] == "--slots":
        sites = [from_run(*files, int(words[1])) for files in (words[2:4], words[4:6])]
    else:
        sys.exit(__doc__)
    common = sites[0].keys() & sites[1].keys()
    differ = sorted((number for number in common if sites[0][number] != sites[1][number]), key=int)
    print(f"added {len(sites[0])} and {len(sites[1])}, both {len(common)}, differ {len(differ)}")
    if differ or not common:
        sys.exit(1)


if __name__ == "__main__":
    main()
