#!/usr/bin/env bash
# The tour in README.md is held to crates.txt: a row for each crate and no other, in the same order, with the words that stand above the crate there.
set -u
cd "$(dirname "${BASH_SOURCE[0]}")/.." || exit 1
python3 - <<'PYTHON'
import pathlib
import re
import sys

lines = pathlib.Path('crates.txt').read_text().splitlines()
# a crate's line has its name, 'staticlib' behind it if it is a static library, and a colon
named = [(re.match(r'(\w+)(?:\s+staticlib)?\s*:', line), above) for above, line in zip(['', *lines], lines)]
crates = [(found[1], above.removeprefix('# ')) for found, above in named if found]
tour = pathlib.Path('README.md').read_text().partition('### Tour')[2].partition('\n#')[0]
rows = re.findall(r'^\| `(\w+)` \| (.*?) \|', tour, re.M)

wrong = [f'{name} is in crates.txt and has no row' for name, _ in crates if name not in dict(rows)]
wrong += [f'{name} has a row and is not in crates.txt' for name, _ in rows if name not in dict(crates)]
wrong += [f'{name}: "{words}" in crates.txt, "{dict(rows)[name]}" in the tour' for name, words in crates if dict(rows).get(name, words) != words]
if not wrong and rows != crates:
    name = next(row for row, crate in zip([*rows, ('', '')], [*crates, ('', '')]) if row != crate)[0]
    wrong.append(f'{name} does not stand where crates.txt has it, or stands twice')
for line in wrong:
    print('tour:', line)
print(f'tour: {len(crates)} crates, {len(wrong)} wrong')
sys.exit(1 if wrong or not crates else 0)
PYTHON
