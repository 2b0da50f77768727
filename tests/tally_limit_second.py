#!/usr/bin/env python3
"""What is answered near the limit of a tally once more: tally_limit_second.py FILE writes the lines of the program `tally_limit`."""
import sys

from tally_second import LARGEST, MOST, added, words_of


def alone(place, number):
    return [number if i == place else 0 for i in range(30)]


def answers(sync, words):
    refusal, one = added([0] * 30, sync, words)
    yield refusal, one
    near = [LARGEST - number for number in one]
    for place, number in enumerate(near):
        yield added(alone(place, number), sync, words)
        yield added(alone(place, number + 1), sync, words)
    yield added(near, sync, words)
    yield added([LARGEST] * 30, sync, words)
    # one word too many
    yield added([LARGEST] * 30, sync, [0] * (MOST // 2))


with open(sys.argv[1], 'rb') as file:
    sync, *words = words_of(file.read())
for refusal, numbers in answers(sync, words):
    print(refusal, *numbers)
