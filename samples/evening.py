#!/usr/bin/env python3
"""Makes the sample recording evening.rec: python3 samples/evening.py >samples/evening.rec

Three frames of an evening with a poor link: the first is whole, the second lost its health packet's CRC, the third lost its end. The sync word stands
first, as the listing takes it. Units have true parity and packets true CRCs, but for the damage."""
import binascii
import sys

SYNC = 0x5AF3


def unit(data):
    """8 parity words, then the data: even parity of rows of four words and of their 64 columns."""
    bits = [[word >> (15 - b) & 1 for word in data[4 * r:4 * r + 4] for b in range(16)] for r in range((len(data) + 3) // 4)]
    bits = [row + [0] * (64 - len(row)) for row in bits]
    rows = [sum(row) % 2 for row in bits] + [0] * (64 - len(bits))
    columns = [sum(row[c] for row in bits) % 2 for c in range(64)]
    parity = [sum(bit << (15 - i) for i, bit in enumerate(line[16 * w:16 * w + 16])) for line in (rows, columns) for w in range(4)]
    return parity + data


def image(camera, units):
    payload = [word for u in units for word in u]
    return [SYNC, camera << 13 | len(payload)] + payload


def health(*packets):
    payload = [word for p in packets for word in p]
    return [SYNC, 1 << 15 | len(payload)] + payload


def packet(kind, time, words):
    rest = [time] + words + [0] * (29 - len(words))
    return [kind, binascii.crc_hqx(b''.join(w.to_bytes(2, 'big') for w in [kind] + rest), 0xFFFF)] + rest


def sky(seed, n):
    """A smooth made-up sky, n words."""
    return [(seed * 37 + i * i // 5) % 1024 for i in range(n)]


def observation(camera, frame, time):
    # frame number; period and exposure; mode 2, normal; compression on; region map 1
    return packet(3 + camera, time, [frame, 0x0404, 0x0200, 0xC000, 0x1000])


def evening():
    words = sky(9, 5)  # the end of a chunk whose beginning was lost
    words += image(1, [unit(sky(1, 256)), unit(sky(2, 256))]) + image(0, [unit(sky(3, 256))]) + image(0, [unit(sky(4, 40))])
    words += health(observation(1, 811, 0x6000), packet(8, 0x6001, [0x55AA] * 24))
    damaged = observation(2, 812, 0x6010)
    damaged[3] ^= 0x0100
    words += image(2, [unit(sky(5, 256))]) + health(damaged)
    words += [SYNC, 0x0108] + sky(6, 30)  # a continuation, most of it lost
    words += image(0, [unit(sky(7, 1))])
    words += image(3, [unit(sky(8, 256)), unit(sky(9, 17))])
    return [SYNC] + words


sys.stdout.buffer.write(b''.join(w.to_bytes(2, 'big') for w in evening()))
