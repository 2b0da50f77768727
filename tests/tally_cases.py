#!/usr/bin/env python3
"""Writes the inputs of the tally's tests into a folder: NAME.rec, the bytes of each file, always the same ones.

Where it is known from the making what a file alone must give, NAME.out has the lines. What the others must give is the answer of tally_second.py. The files
example_first.rec, example_second.rec and example_limit.rec are those that the programs keep beside their code."""
import binascii
import pathlib
import random
import sys

import listing_cases
from listing_cases import LIMIT, data, health, packet
from listing_second import Recording

SYNC = 0x5AF3
# the data words of FORMAT's example of a unit
SIX = [0x1234, 0x8001, 0x00FF, 0x0F0F, 0x0007, 0x6000]


def unit(words):
    """The data words as a unit: the parity of 64 rows of 64 bits, then of their columns, in 8 words before them."""
    padded = words + [0] * (256 - len(words))
    rows = [padded[4 * r] << 48 | padded[4 * r + 1] << 32 | padded[4 * r + 2] << 16 | padded[4 * r + 3] for r in range(64)]
    columns, odd = 0, 0
    for row in rows:
        columns ^= row
        odd = odd << 1 | bin(row).count('1') % 2
    return [line >> shift & 0xFFFF for line in (odd, columns) for shift in (48, 32, 16, 0)] + words


def flipped(whole, *bits):
    """The unit with these bits flipped: (word, bit), the parity words counted too."""
    whole = list(whole)
    for word, bit in bits:
        whole[word] ^= 1 << bit
    return whole


def row_bit(row):
    return row // 16, 15 - row % 16


def column_bit(column):
    return 4 + column // 16, 15 - column % 16


def data_bit(row, column):
    return 8 + 4 * row + column // 16, 15 - column % 16


def image(sync, camera, *units):
    payload = [word for whole in units for word in whole]
    return [sync, camera << 13 | len(payload)] + payload


def thirty(words, skipped=0, chunks=(0, 0, 0, 0, 0), complete=0, cut=0, strays=0, types=(), units=(0, 0, 0, 0)):
    """The lines of a tally of one recording; the sync word stands before its words."""
    packets = [list(types).count(kind) for kind in range(1, 16)]
    numbers = [1, len(words) - 1, skipped, *chunks, complete, cut, strays, *packets, *units]
    return ''.join('%d\n' % n for n in numbers)


def examples():
    first = [SYNC, 7]
    first += image(SYNC, 1, unit(SIX)) + health(SYNC, [packet(4), packet(10)])
    first += image(SYNC, 2, flipped(unit(SIX), column_bit(17))) + health(SYNC, [packet(5, sound=False)])
    first += image(SYNC, 0, flipped(unit(SIX), data_bit(1, 17)))
    # a header that nothing confirms
    first += [SYNC, 0x2009]
    first += image(SYNC, 3, flipped(unit(SIX), data_bit(0, 0), data_bit(1, 17)))
    # a spare type, and one that is not permitted
    first += health(SYNC, [packet(8), packet(0x0010), packet(0x0011)])
    yield 'example_first', first, thirty(first, 3, (1, 1, 1, 1, 3), 1, 2, 1, [4, 8, 10], (1, 1, 1, 1))

    sync = 0x1234
    sky = [i * i // 5 % 1024 for i in range(256)]
    second = [sync] + image(sync, 3, flipped(unit(sky), data_bit(63, 63))) + image(sync, 0, unit([1]))
    second += health(sync, [packet(6), packet(1), packet(15), packet(1)])
    # no continuation joins a unit that is not whole
    second += image(sync, 1, flipped(unit(sky), row_bit(63)), unit([2])) + image(sync, 0, unit([3]))
    second += image(sync, 3, flipped(unit([4]), column_bit(0))) + image(sync, 0, unit([5]))
    # its end was lost
    second += image(sync, 2, unit([6, 7])) + [0, sync]
    yield 'example_second', second, thirty(second, 14, (3, 1, 0, 2, 1), 1, 2, 2, [1, 1, 6, 15], (4, 2, 1, 0))

    # every one of the thirty numbers is there
    limit = [SYNC, 7] + image(SYNC, 1, unit([1]))
    for types in (4, 1, 2, 3), range(5, 9), range(9, 13), (13, 14, 15, 15):
        limit += health(SYNC, [packet(kind) for kind in types])
    limit += image(SYNC, 2, flipped(unit([1]), row_bit(0))) * 2 + image(SYNC, 3, flipped(unit([1]), data_bit(0, 15))) * 3
    limit += image(SYNC, 0, flipped(unit([1]), row_bit(0), row_bit(1))) + image(SYNC, 0, unit([1])) * 5
    yield 'example_limit', limit, thirty(limit, 1, (6, 1, 2, 3, 4), 1, 5, 6, [*range(1, 16), 15], (6, 2, 3, 1))


def damage(k):
    """Damage to a unit of k data words: the bits that flip, and what becomes of it: sound, parity-hit, repaired, not repairable."""
    last, first = (k - 1) // 4, data_bit(0, 5)
    end = 16 * ((k - 1) % 4) + 15
    yield 0, []
    for place in 0, 1, 15, 16, 63:
        yield 1, [row_bit(place)]
        yield 1, [column_bit(place)]
    for bit in first, data_bit(last, end), data_bit(last, 0):
        yield 2, [bit]
    # two in a row; with the row's own parity, with the column's, and with both
    yield 3, [first, data_bit(0, 6)]
    yield 1, [first, row_bit(0)]
    yield 1, [first, column_bit(5)]
    yield 0, [first, row_bit(0), column_bit(5)]
    # parity bits that cross in the last word that was sent, and past it
    yield 2, [row_bit(last), column_bit(end)]
    if end < 63:
        yield 3, [row_bit(last), column_bit(end + 1)]
    if last < 63:
        yield 3, [row_bit(last + 1), column_bit(0)]
    yield 3, [row_bit(0), row_bit(63)]
    yield 3, [column_bit(0), column_bit(63)]
    yield 3, [first, row_bit(1)]
    yield 3, [first, column_bit(6)]
    # in two rows: of one column, and of two
    if last > 0:
        yield 3, [first, data_bit(last, 5)]
        yield 3, [first, data_bit(last, 6)]


def units():
    """A chunk for each damage, of units with k data words; then all of them in chunks of whole units."""
    rng = random.Random(20031101)
    for k in 1, 3, 4, 5, 17, 100, 253, 255, 256:
        words, found = [SYNC], [0] * 4
        for becomes, bits in damage(k):
            words += image(SYNC, 1, flipped(unit([rng.randrange(4096) for _ in range(k)]), *bits))
            found[becomes] += 1
        yield 'units_%d' % k, words, thirty(words, chunks=(0, sum(found), 0, 0, 0), cut=sum(found), units=found)
    words, found, row = [SYNC], [0] * 4, []
    for becomes, bits in damage(256):
        row.append(flipped(unit([rng.randrange(4096) for _ in range(256)]), *bits))
        found[becomes] += 1
    words += image(SYNC, 0, *row[:10]) + image(SYNC, 0, *row[10:], unit([9]))
    found[0] += 1
    yield 'units_whole', words, thirty(words, chunks=(2, 0, 0, 0, 0), strays=2, units=found)


def packets():
    """Packets of every type, sound and not, after a complete frame, in a cut one and alone; spare types, and types that are not permitted."""
    every = [packet(kind, fill=kind) for kind in range(1, 16)]
    broken = [packet(kind, sound=False) for kind in range(1, 16)]
    others = [packet(kind) for kind in (0, 16, 32, 0xFFF0, 17, 31, 0x0101, 0x8001)]
    # a CRC that was taken over word 1 too, while that was 0
    covered = packet(3, fill=5)
    covered[1] = binascii.crc_hqx(data([3, 0] + covered[2:]), 0xFFFF)
    words = [SYNC] + health(SYNC, every + broken) + health(SYNC, others + [covered])
    words += image(SYNC, 2, unit([1])) + health(SYNC, [packet(5)] + every)
    words += image(SYNC, 2, unit([1])) + health(SYNC, [packet(4)] + every)
    words += image(SYNC, 3, unit([1])) + health(SYNC, [packet(6, sound=False)] + every) + health(SYNC, [packet(6)])
    types = [*range(1, 16)] * 4 + [5, 4, 6]
    yield 'packets', words, thirty(words, 0, (0, 0, 2, 1, 6), 1, 2, 0, types, (3, 0, 0, 0))


def damaged_unit(rng, length):
    """A unit of so many words, with up to three bits flipped."""
    whole = unit([rng.choice([0, 1, 0xFFFF, rng.randrange(65536)]) for _ in range(length - 8)])
    return flipped(whole, *[(rng.randrange(length), rng.randrange(16)) for _ in range(rng.choice([0, 0, 1, 1, 1, 2, 3]))])


def any_packet(rng):
    kind = rng.choice([rng.randrange(1, 16), rng.randrange(1, 16), rng.randrange(1, 16), 16 * rng.randrange(4096), rng.randrange(65536)])
    return packet(kind, rng.randrange(4) > 0, rng.randrange(65536))


def filled(rng, words):
    """The recording with true units in its image chunks, some of them damaged, and packets of all types in some of its health chunks."""
    words = list(words)
    for chunk in Recording(words[0], words[1:]).chunks:
        payload = []
        while chunk.kind == 0 and len(payload) < chunk.size:
            payload += damaged_unit(rng, min(264, chunk.size - len(payload)))
        # the first packet may complete a frame, and stays
        if chunk.kind == 1:
            payload = words[chunk.at + 3:chunk.at + 35]
            while len(payload) < chunk.size:
                payload += any_packet(rng)
        words[chunk.at + 3:chunk.end + 1] = payload
    return words


def mixtures():
    """The listing's mixtures, each with its own sync word, filled."""
    rng = random.Random(20031102)
    for name, content in listing_cases.cases():
        if name.startswith('mixture'):
            yield name, filled(rng, [content[i] << 8 | content[i + 1] for i in range(0, len(content), 2)]), None


def limits():
    """Recordings at the limit: in longest image chunks, in longest health chunks, in shortest chunks."""
    rng = random.Random(20031103)
    images = image(SYNC, 2, *[[0] * 264] * 31) * 4
    packs = health(SYNC, [packet(9)] * 255) * 4
    short = image(SYNC, 3, [0] * 9) * (LIMIT // 11)
    for name, words in {'images': images, 'packets': packs, 'shortest': short}.items():
        yield 'limit_' + name, filled(rng, [SYNC] + [0] * (LIMIT - len(words)) + words), None


def cases():
    yield 'nothing', [SYNC], thirty([SYNC])
    yield 'one_sync_word', [SYNC, SYNC], thirty([SYNC, SYNC], skipped=1)
    for family in examples, units, packets, mixtures, limits:
        yield from family()


def main():
    target = pathlib.Path(sys.argv[1])
    for name, words, lines in cases():
        (target / (name + '.rec')).write_bytes(data(words))
        if lines:
            (target / (name + '.out')).write_text(lines)


if __name__ == '__main__':
    main()
