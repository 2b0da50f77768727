#!/usr/bin/env python3
"""Writes the inputs of the comparison's tests into a folder: NAME.first and NAME.second, the bytes of two files.

They are made from those of the listing, always the same ones; what they must give is the answer of compare_second.py."""
import pathlib
import random
import sys

import listing_cases
from listing_cases import LIMIT, data, health, image, packet

SYNC = 0x5AF3


def edited(rng, words):
    """The words as another station might hear them: the sync word, and a few of the others changed, lost or come between."""
    words = list(words)
    for _ in range(rng.randrange(1, 4)):
        at = rng.randrange(1, len(words) + 1)
        change = rng.randrange(4)
        if change == 0:
            words[at:at] = [rng.randrange(65536)] * rng.randrange(1, 4)
        elif change == 1:
            del words[at:at + rng.choice([1, 2, 40])]
        elif change == 2:
            words += image(words[0], 0, rng.choice([9, 264]))
        elif at < len(words):
            words[at] ^= 1 << rng.randrange(16)
    return words[:LIMIT + 1]


def edits():
    """Mixtures beside themselves, edited."""
    rng = random.Random(20031110)
    for number in range(30):
        words = listing_cases.mixture(rng)
        yield 'edited_%02d' % number, data(words), data(edited(rng, words))


def neighbours():
    """The listing's mixtures, in twos of one sync word; and some beside the very next, whatever its sync word."""
    mixtures = [content for name, content in listing_cases.cases() if name.startswith('mixture')]
    latest = {}
    for number, content in enumerate(mixtures):
        if content[:2] in latest:
            yield 'neighbours_%02d' % number, latest.pop(content[:2]), content
        else:
            latest[content[:2]] = content
    for number in range(0, len(mixtures) - 1, 8):
        yield 'as_they_come_%02d' % number, mixtures[number], mixtures[number + 1]


def single_differences():
    """One chunk beside another, of which one word is different: the header word, then one of the payload."""
    sizes = image(SYNC, 1, 9), image(SYNC, 1, 10)
    cameras = image(SYNC, 1, 9), image(SYNC, 2, 9)
    for name, (one, other) in {'sizes': sizes, 'cameras': cameras}.items():
        yield name, data([SYNC] + one), data([SYNC] + other)
    chunk = health(SYNC, [packet(5), packet(6)])
    for offset in (2, 33, len(chunk) - 1):
        other = list(chunk)
        other[offset] ^= 0x0100
        yield 'word_%d' % offset, data([SYNC] + image(SYNC, 3, 20) + chunk), data([SYNC] + image(SYNC, 3, 20) + other)


def limits():
    """Recordings at the limit: all in shortest chunks, which makes the most pairs, in longest ones, and in none."""
    full = {name: content for name, content in listing_cases.cases() if name.startswith('limit')}
    most = full['limit_confirmed_to_the_end']
    longest = full['limit_longest_chunks']
    last = 2 * 4 * len(image(SYNC, 2, 8184))
    yield 'limit_last_pair', most, most[:-1] + b'\1'
    yield 'limit_every_pair', most, most.replace(b'\x20\x09', b'\x40\x09')
    yield 'limit_one_left', most, full['limit_shortest_chunks']
    yield 'limit_all_left', data([SYNC]), most
    yield 'limit_noise', full['limit_noise'], most
    yield 'limit_sync_words', full['limit_sync_words'], full['limit_many_gaps']
    yield 'limit_runs', full['limit_many_runs'], full['limit_long_frames']
    yield 'limit_unconfirmed', full['limit_headers_unconfirmed'], longest
    yield 'limit_last_word', longest, longest[:last] + b'\0\7' + longest[last + 2:]
    yield 'limit_nothing', full['limit_noise'], full['limit_last_byte']


def bad_files():
    """Files that are refused, in either place and in both."""
    good = data([SYNC] + image(SYNC, 1, 9))
    bad = {name: content for name, content in listing_cases.cases() if name in ('one_byte_too_many', 'one_word_too_many', 'far_too_many', 'odd', 'one_byte')}
    bad['none'] = b''
    for name, content in bad.items():
        yield 'bad_' + name, good, content
    yield 'bad_both', bad['odd'], bad['far_too_many']
    # a refused file has no sync word that could differ
    yield 'bad_strange', data([0x1234]), bad['odd']


def cases():
    yield 'nothing', data([SYNC]), data([SYNC])
    yield 'nothing_strange', data([SYNC]), data([SYNC + 1])
    yield 'noise', data([SYNC] + [7] * 50), data([SYNC] + [7] * 20 + image(SYNC, 2, 9))
    for family in single_differences, limits, edits, neighbours, bad_files:
        yield from family()


def main():
    target = pathlib.Path(sys.argv[1])
    for name, first, second in cases():
        (target / (name + '.first')).write_bytes(first)
        (target / (name + '.second')).write_bytes(second)


if __name__ == '__main__':
    main()
