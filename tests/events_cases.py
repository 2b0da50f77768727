#!/usr/bin/env python3
"""Makes event packets, always the same ones, and writes one of these to standard output:

    limits      a packet on each side of each limit, and each refusal in its several forms; a piece of a packet comes last. It is the stored stdin.
    refusals    for each of these the number that refuses it, 0 where it is accepted: a number to a line
    mixed       packets of every count, with and without noise in the bytes that are not looked at, and damaged ones"""
import binascii
import random
import struct
import sys

# the bytes that are not looked at, the unused slots aside
IGNORED = [6, 7, 8, 9, 10, 11, 13, 18, 276, 277]
LAST_SECOND = 0xFFFFFFFF


def sealed(body):
    return bytes(body) + binascii.crc_hqx(bytes(body), 0xFFFF).to_bytes(2, 'big')


def packet(slots=(), count=None, sequence=1, start=1000, ident=0x03EE, top=3, length=273, kind=1):
    """A packet of slots (detector, flags, second, sixteenth, signal). Where no count is said, all of them are used."""
    head = struct.pack('>HHH6xBxIxB', ident, top << 14 | sequence, length, kind, start, len(slots) if count is None else count)
    rest = b''.join(struct.pack('>BBH', d << 3 | f, s, x << 12 | v) for d, f, s, x, v in slots)
    return sealed((head + rest).ljust(278, b'\0'))


def changed(whole, at, byte):
    """With another byte at a place, and the CRC as it was."""
    return whole[:at] + bytes([byte]) + whole[at + 1:]


def noisy(whole, noise):
    """With the bytes of NOISE where nothing is looked at, and the right CRC."""
    body = bytearray(whole[:-2])
    for at in IGNORED + list(range(20 + 4 * body[19], 276)):
        body[at] = next(noise)
    return sealed(body)


def ones():
    while True:
        yield 0xFF


def of_detector(detector):
    return (detector, 2, 3, 4, 5)


def accepted():
    # the example of FORMAT
    yield packet([(3, 0, 1, 8, 1234), (23, 5, 255, 15, 4095)], sequence=7, start=1000)
    yield packet()
    yield packet([(i % 24, i % 8, 4 * i, i % 16, 65 * i) for i in range(64)])
    yield packet([(23, 7, 255, 15, 4095)], sequence=16383, start=LAST_SECOND)
    yield packet([(0, 0, 0, 0, 0)], sequence=0, start=0)
    # the last detector, in the first slot and in the last
    yield packet([of_detector(23)] + 62 * [of_detector(0)] + [of_detector(23)])
    # detectors above 23, in unused slots
    yield packet(64 * [of_detector(24)], count=0)
    yield packet([of_detector(1)] + 63 * [of_detector(31)], count=1)
    yield packet(63 * [of_detector(2)] + [of_detector(24)], count=63)
    yield noisy(packet(), ones())
    yield noisy(packet([of_detector(3)]), ones())


def refused():
    """Each with its number."""
    one = packet([of_detector(1)])
    for ident in 0x13EE, 0x03EF, 0x0300, 0x83EE, 0xEE03:
        yield 9, packet(ident=ident)
    for top in 0, 1, 2:
        yield 9, packet(top=top)
    for length in 0, 17, 272, 274, 280, 0x8111:
        yield 9, packet(length=length)
    # a bit of the CRC, of each kind of field, and of what is not looked at
    for at in 279, 278, 3, 12, 14, 17, 19, 20, 21, 22, 23, 6, 11, 13, 18, 24, 275, 276, 277:
        yield 5, changed(one, at, one[at] ^ 1)
    for kind in 0, 2, 129, 255:
        yield 7, packet(kind=kind)
    for count in 65, 128, 255:
        yield 7, packet(64 * [of_detector(1)], count=count)
    for detector in 24, 31:
        yield 7, packet([of_detector(detector)])
    yield 7, packet(63 * [of_detector(0)] + [of_detector(24)])
    # more than one cause: the first of 9, 5, 7
    yield 9, changed(packet(ident=0x13EE), 279, 0)
    yield 9, packet([of_detector(24)], length=272, kind=2)
    yield 5, changed(packet([of_detector(24)], count=65, kind=2), 279, 0)


def limits():
    """Packets with their numbers."""
    return [(0, whole) for whole in accepted()] + list(refused()) + [(1, packet()[:279])]


def mixed():
    rng = random.Random(20081022)

    def some(count):
        slots = [(rng.randrange(24), rng.randrange(8), rng.randrange(256), rng.randrange(16), rng.randrange(4096)) for _ in range(count)]
        start = rng.choice([0, 1, LAST_SECOND - 255, LAST_SECOND, 2 ** rng.randrange(32), rng.randrange(2 ** 32)])
        return packet(slots, sequence=rng.randrange(16384), start=start)

    def bytes_at_random():
        while True:
            yield rng.randrange(256)

    for count in range(65):
        yield some(count)
        yield noisy(some(count), bytes_at_random())
    # damaged: some bits flip, and the CRC is as it was or made anew
    for n in range(120):
        body = bytearray(some(rng.randrange(65)))
        for _ in range(rng.randrange(1, 4)):
            # anywhere, in the header, in the data type or the count, or in a detector
            at = rng.choice([rng.randrange(280), rng.randrange(6), rng.choice([12, 19]), 20 + 4 * rng.randrange(64)])
            body[at] ^= 1 << rng.randrange(8)
        yield bytes(body) if n % 3 == 0 else sealed(body[:-2])


def main():
    made = {
        'limits': lambda: b''.join(whole for _, whole in limits()),
        'refusals': lambda: b''.join(b'%d\n' % number for number, _ in limits()),
        'mixed': lambda: b''.join(mixed()),
    }
    sys.stdout.buffer.write(made[sys.argv[1]]())


if __name__ == '__main__':
    main()
