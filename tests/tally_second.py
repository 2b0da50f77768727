#!/usr/bin/env python3
"""The tally over recordings once more, written from the rules alone and sharing nothing with the library: tally_second.py FILE..

It writes the lines of the program `tally`, and on standard error what that says of a file that it does not take."""
import os
import sys

from listing_second import Recording

LARGEST = 4294967295
# the most bytes of a file: a sync word and a recording at the limit
MOST = 65538
# a name is told by so many bytes at the most
NAME = 4096


def outcome(unit):
    """What becomes of a unit: 0 sound, 1 a parity bit was hit, 2 repaired, 3 not repairable."""
    parity, data = unit[:8], unit[8:]
    padded = data + [0] * (256 - len(data))
    grid = [[padded[4 * row + column // 16] >> 15 - column % 16 & 1 for column in range(64)] for row in range(64)]
    said = [parity[place // 16] >> 15 - place % 16 & 1 for place in range(128)]
    rows = [row for row in range(64) if sum(grid[row]) % 2 != said[row]]
    columns = [column for column, bits in enumerate(zip(*grid)) if sum(bits) % 2 != said[64 + column]]
    if len(rows) + len(columns) < 2:
        return len(rows) + len(columns)
    below = len(rows) == len(columns) == 1 and 4 * rows[0] + columns[0] // 16 < len(data)
    return 2 if below else 3


def count(found, asked):
    return [found.count(x) for x in asked]


def numbers(recording):
    """The thirty numbers of one recording."""
    images = [c for c in recording.chunks if c.kind == 0]
    health = [c for c in recording.chunks if c.kind == 1]
    payloads = [recording.words[c.at + 2:c.end] for c in images]
    units = [payload[i:i + 264] for payload in payloads for i in range(0, len(payload), 264)]
    types = [recording.sound_type(at) for c in health for at in range(c.at + 2, c.end, 32)]
    ends = [line.split()[-1] if line.startswith('frame') else 'stray' for line in recording.pieces()]
    return (
        [1, len(recording.words), recording.skipped]
        + count([c.camera for c in images], range(4)) + [len(health)]
        + count(ends, ['complete', 'cut', 'stray'])
        + count(types, range(1, 16))
        + count([outcome(unit) for unit in units], range(4)))


def added(tally, sync, words):
    """The number of a refusal and zeros, or 0 and the tally with one recording more."""
    if len(words) > MOST // 2 - 1:
        return 1, [0] * 30
    sums = [a + b for a, b in zip(tally, numbers(Recording(sync, words)))]
    return (0, sums) if max(sums) <= LARGEST else (7, [0] * 30)


def words_of(content):
    return [content[i] << 8 | content[i + 1] for i in range(0, len(content), 2)]


def with_file(tally, name):
    """The tally with a file, and what is said of a file that is not taken."""
    try:
        with open(name, 'rb') as file:
            content = file.read(MOST + 1)
    except OSError:
        return tally, 'cannot be read'
    if len(content) not in range(2, MOST + 1, 2):
        return tally, 'refused 1'
    sync, *words = words_of(content)
    refusal, new = added(tally, sync, words)
    return (tally, 'refused %d' % refusal) if refusal else (new, None)


def main():
    tally = [0] * 30
    for name in sys.argv[1:]:
        tally, said = with_file(tally, name)
        if said:
            sys.stderr.buffer.write(b'tally: %s: %s\n' % (os.fsencode(name)[:NAME], said.encode()))
    print('\n'.join(map(str, tally)))


if __name__ == '__main__':
    main()
