#!/usr/bin/env bash
# The CRC of the published messages once more, by the second program: it must print what the proved one is held to.
set -eu
python3 tests/crc_second.py <crates/crc_vectors/stdin | cmp - crates/crc_vectors/stdout
