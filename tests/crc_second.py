"""The CRC of the messages of crates/crc_vectors/stdin a second time, by long division of polynomials.

The message's bits are the coefficients of a polynomial over the field of two elements, the first bit the highest. The
register at the start is added to the first sixteen bits, sixteen zeros go behind, and the CRC is what division by
x^16 + x^12 + x^5 + 1 leaves. No bit goes through a register here, and a width makes no difference.

Prints each line as it is, with the CRC behind it; a line that begins with # has none.
"""

import sys

POLYNOMIAL = 0x11021


def remainder(dividend):
    while dividend.bit_length() >= POLYNOMIAL.bit_length():
        dividend ^= POLYNOMIAL << (dividend.bit_length() - POLYNOMIAL.bit_length())
    return dividend


def crc(start, digits):
    message = int(digits, 16) if digits else 0
    return remainder((start << 4 * len(digits)) ^ (message << 16))


for line in sys.stdin.read().splitlines():
    if line.startswith("#"):
        print(line)
    else:
        print(f"{line} = {crc(int(line[3:7], 16), line[8:]):04x}")
