#!/usr/bin/env python3
"""Writes the inputs of the listing's tests into a folder: NAME.rec, the bytes of each.

The cases that were worked out by hand stand in tests/listing: NAME.hex has the input's bytes, NAME.out the lines that the program must write. The
others are made here, always the same ones; what they must give is the answer of listing_second.py."""
import binascii
import pathlib
import random
import sys

LIMIT = 32768


def data(words):
    return b''.join(w.to_bytes(2, 'big') for w in words)


def image(sync, camera, size, fill=0):
    return [sync, camera << 13 | size] + [fill] * size


def packet(kind, sound=True, fill=0):
    rest = [fill] * 30
    crc = binascii.crc_hqx(data([kind] + rest), 0xFFFF)
    return [kind, crc if sound else crc ^ 1] + rest


def health(sync, packets):
    payload = [w for p in packets for w in p]
    return [sync, 0x8000 | len(payload)] + payload


def mixture(rng):
    """A recording of some pieces of each kind, with skipped words here and there, and damage."""
    sync = rng.choice([0x5AF3, 0x5AF3, 0x0000, 0x2009, 0x8020, 0xFFFF])
    words = []
    for _ in range(rng.randrange(1, 14)):
        kind = rng.randrange(12)
        if kind < 2:
            words += image(sync, rng.randrange(1, 4), rng.choice([9, 264, 264, 528, 273, 100]), rng.choice([0, 0, sync, 0x2009]))
        elif kind < 4:
            words += image(sync, 0, rng.choice([9, 264, 264, 528, 20]), rng.choice([0, 7]))
        elif kind < 7:
            # a frame with its health chunk, sound for the most part
            camera = rng.randrange(1, 4)
            sizes = [264] * rng.randrange(0, 3) + [rng.choice([9, 264, 270])]
            for first, size in enumerate(sizes):
                words += image(sync, 0 if first else camera, size)
            if rng.randrange(4) == 0:
                words += [sync, 0x0009]
            words += health(sync, [packet(3 + camera, rng.randrange(5) > 0), packet(8, False)])
        elif kind < 9:
            kinds = [rng.choice([4, 5, 6, 1, 16, 17, 0]) for _ in range(rng.randrange(1, 4))]
            words += health(sync, [packet(k, rng.randrange(4) > 0) for k in kinds])
        elif kind == 9:
            # a legal header that nothing confirms
            words += [sync, rng.choice([0x0009, 0x2009, 0x8020])]
        elif kind == 10:
            words += [rng.choice([0, sync, 0x2009, 0x8020, rng.randrange(65536)]) for _ in range(rng.randrange(1, 9))]
        elif words:
            # the last chunk is cut, or a bit changes
            if rng.randrange(2):
                del words[-rng.randrange(1, 5):]
            else:
                words[rng.randrange(len(words))] ^= 1 << rng.randrange(16)
    return [sync] + words[:LIMIT]


def cases():
    sync = 0x5AF3
    short = image(sync, 1, 9)
    yield 'limit_shortest_chunks', data([sync] + short * (LIMIT // 11) + [0] * (LIMIT % 11))
    yield 'limit_confirmed_to_the_end', data([sync] + [0] * (LIMIT % 11) + short * (LIMIT // 11))
    yield 'limit_noise', data([sync] + [0x1234] * LIMIT)
    yield 'limit_sync_words', data([sync] * (LIMIT + 1))
    yield 'limit_headers_unconfirmed', data([sync] + ([sync, 0x2100] * LIMIT)[:LIMIT])
    yield 'limit_longest_chunks', data([sync] + (image(sync, 2, 8184) * 4) + [sync, 0x8000 | 0x0020] + packet(5)[:22])
    long = (image(sync, 3, 264) + image(sync, 0, 264)) * 40 + health(sync, [packet(6)])
    yield 'limit_long_frames', data(([sync] + long * 2)[:LIMIT + 1])
    yield 'limit_many_runs', data(([sync] + (short + health(sync, [packet(4)])) * 800)[:LIMIT + 1])
    yield 'limit_many_gaps', data(([sync] + (short + [sync, 0x0009]) * 2600)[:LIMIT + 1])
    yield 'limit_last_byte', data([sync] + [0] * LIMIT)
    yield 'one_byte_too_many', data([sync] + [0] * LIMIT) + b'\0'
    yield 'one_word_too_many', data([sync] + [0] * (LIMIT + 1))
    yield 'far_too_many', b'\x5a\xf3' * 100000
    yield 'odd', data([sync] + short) + b'\x5a'
    yield 'one_byte', b'\x5a'
    rng = random.Random(20031104)
    for n in range(60):
        yield 'mixture_%02d' % n, data(mixture(rng))


def spelled(text):
    """The bytes of a .hex file: words and bytes in hexadecimal, N*WORD for N of them, and # before a remark."""
    tokens = ' '.join(line.split('#')[0] for line in text.splitlines()).split()
    parts = [token.split('*') for token in tokens]
    return b''.join(bytes.fromhex(part[-1]) * (int(part[0]) if len(part) == 2 else 1) for part in parts)


def main():
    target = pathlib.Path(sys.argv[1])
    for name, content in cases():
        (target / (name + '.rec')).write_bytes(content)
    for path in sorted(pathlib.Path(__file__).parent.glob('listing/*.hex')):
        (target / (path.stem + '.rec')).write_bytes(spelled(path.read_text()))


if __name__ == '__main__':
    main()
