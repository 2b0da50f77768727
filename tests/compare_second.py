#!/usr/bin/env python3
"""The comparison of two recordings once more, written from the rules alone and sharing nothing with the library: compare_second.py FIRST SECOND.

It writes the lines of the program `compare`. Two different sync words are said on standard error, and then nothing else is."""
import itertools
import sys

from listing_second import Recording


def heard(path):
    """The recording in a file, or None where the file has a length that no recording has."""
    with open(path, 'rb') as file:
        content = file.read()
    if len(content) not in range(2, 65539, 2):
        return None
    sync, *words = (int.from_bytes(pair, 'big') for pair in zip(content[0::2], content[1::2]))
    return Recording(sync, words)


def told(one, other):
    """What is said of a pair: words are gone through together, and one that the other chunk has not differs from every word."""
    for offset, (word, beside) in enumerate(itertools.zip_longest(one, other)):
        if word != beside:
            return 'differs %d' % offset
    return 'same'


def comparison(first, second):
    rows = [[recording.words[c.at:c.end] for c in recording.chunks] for recording in (first, second)]
    lines = ['pair %d %s' % (number, told(*pair)) for number, pair in enumerate(zip(*rows), 1)]
    left = [len(row) - len(lines) for row in rows]
    return lines + ['left %d %d' % tuple(left)]


def main():
    recordings = [heard(path) for path in sys.argv[1:]]
    if None in recordings:
        print('refused 1')
    elif len({recording.sync for recording in recordings}) == 2:
        print('the sync words differ', file=sys.stderr)
    else:
        print('\n'.join(comparison(*recordings)))


if __name__ == '__main__':
    main()
